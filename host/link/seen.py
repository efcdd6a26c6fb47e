"""Tests of what a program sees of the link program: its lines as JSON, and its counters, as lines and for Prometheus. Run by test.py;
each function takes the program and an empty directory. The lines are judged by docs/link.schema.json and by templates of the plain ones."""
import importlib.machinery
import importlib.util
import json
import os
import random
import re
import signal
import socket
import subprocess
import time

from harness import ROOT, SOURCES, build, check, content, failing, page, records, run
from packets import END_OF_DATA, WANTED, beacon, data, failure, metadata, record, success
from plant import STARTED, Link, harmless, one_of_it
from sheets import opening

with open(os.path.join(ROOT, "docs", "link.schema.json"), encoding="ascii") as file_of_schema:
    SCHEMA = json.load(file_of_schema)
LOADER = importlib.machinery.SourceFileLoader("fuzz_replay", os.path.join(ROOT, "host", "tests", "fuzz_replay"))
fuzz_replay = importlib.util.module_from_spec(importlib.util.spec_from_loader("fuzz_replay", LOADER))
LOADER.exec_module(fuzz_replay)

# The schema.

TYPES = {"object": dict, "array": list, "string": str, "integer": int, "boolean": bool, "null": type(None)}
KNOWN = {"$schema", "$defs", "$ref", "title", "description", "type", "oneOf", "properties", "required", "additionalProperties", "const",
         "enum", "pattern", "minimum", "maximum", "items", "minItems", "maxItems"}


def fits(value, schema):
    """Whether a value fits a schema, of the words of JSON Schema that ours has."""
    check(set(schema) <= KNOWN, f"words of JSON Schema that aren't known here: {set(schema) - KNOWN}")
    if "$ref" in schema:
        return fits(value, SCHEMA["$defs"][schema["$ref"].removeprefix("#/$defs/")])
    wanted = schema.get("type", [])
    wanted = [wanted] if isinstance(wanted, str) else wanted
    is_number = isinstance(value, int) and not isinstance(value, bool)
    if wanted and not any(is_number if kind == "integer" else isinstance(value, TYPES[kind]) for kind in wanted):
        return False
    if "const" in schema and value != schema["const"] or "enum" in schema and value not in schema["enum"]:
        return False
    if is_number and not schema.get("minimum", value) <= value <= schema.get("maximum", value):
        return False
    if isinstance(value, str) and not re.search(schema.get("pattern", ""), value):
        return False
    if isinstance(value, list) and not (schema.get("minItems", 0) <= len(value) <= schema.get("maxItems", len(value)) and
                                        all(fits(one, schema.get("items", {})) for one in value)):
        return False
    if isinstance(value, dict) and not (set(schema.get("required", ())) <= set(value) and
                                        (schema.get("additionalProperties", True) or set(value) <= set(schema["properties"])) and
                                        all(fits(value[name], one) for name, one in schema.get("properties", {}).items() if name in value)):
        return False
    return sum(fits(value, one) for one in schema["oneOf"]) == 1 if "oneOf" in schema else True


def by_jsonschema():
    """The same by the module jsonschema, where it is installed; else None."""
    try:
        import jsonschema
    except ImportError:
        return None
    jsonschema.Draft202012Validator.check_schema(SCHEMA)
    return jsonschema.Draft202012Validator(SCHEMA).is_valid


EVENTS = {one["properties"]["event"]["const"] for one in SCHEMA["oneOf"]}

# Plain lines from objects.

META = " mtime={mtime} ctime={ctime} checksum={checksum} path={path}"
REPORT = (" id={id} length={length} file={file} recordings={recordings} absorbed={absorbed} runs={runs} md5={md5}" + META)
STATS = ("packets octets refused rejected lost dropped unheard answers held-back unsent good-syncs bad-syncs pages differing open").split()
FORMS = {
    "listening": "{packet} listening address={address} port={port}",
    "receive-buffer": "{packet} receive-buffer octets={octets} asked={asked}",
    "hook": "{packet} hook id={id} file={file}[ status={status}][ signal={signal}][ {how}]",
    "hooks": "{packet} hooks running={running} waiting={waiting}",
    "settings": "{packet} settings version={version} largest-payload={largest_payload} interval={interval} partner={partner}",
    "taken-up": "{packet} taken-up id={id} width={width} length={length} edge={edge} complete={complete}",
    "open": "{packet} open id={id} width={width} length={length} edge={edge} complete={complete} {how}",
    "record": "{packet} record id={id} offset={offset} length={length} edge={edge} complete={complete} absorbed={absorbed}",
    "send": "{packet} send {hex}",
    "refused": "{packet} refused {refusal} code={code}",
    "too-large": "{packet} too-large id={id} length={length} code={code}",
    "too-many": "{packet} too-many id={id} code={code}",
    "of-another-sender": "{packet} of-another-sender id={id} code={code}",
    "lost": "{packet} lost id={id}[ offset={offset} length={length}]",
    "close": "{packet} close id={id} {why}[ recordings={recordings} absorbed={absorbed} runs={runs}]",
    "complete": "{packet} complete" + REPORT,
    "differs": "{packet} differs" + REPORT,
    "success": "{packet} success id={id} flags={flags} width={width} timestamp={timestamp} progress={progress} "
               "in-response-to={in_response_to} holes={holes}[,.. hole-count={hole_count}]",
    "failure": "{packet} failure id={id} status={status} flags={flags}",
    "on-air": "{packet} on-air send={send} receive={receive} free={free} largest-width={largest_width} endpoint=\"{endpoint}\""
              "[ endpoint-length={endpoint_length}]",
    "stats": "{packet} stats " + " ".join("%s={%s}" % (name, name.replace("-", "_")) for name in STATS),
    "stats-refused": "{packet} stats-refused refusal={refusal} count={count}",
    "stats-peer": "{packet} stats-peer address={address} packets={packets} octets={octets}",
    "transfer": "id={id} width={width} length={length} edge={edge} runs={runs} complete={complete} file={file} received={received} "
                "percent={percent} rate={rate} holes={holes} heard={heard} sender={sender} [" + META[1:] + "]",
}


def plain_of(one):
    """The plain line that an object says."""
    def text(value):
        if value is None:
            return ""
        if isinstance(value, list):
            return ",".join(f"{start}-{end}" for start, end in value)
        return str(int(value)) if isinstance(value, bool) else str(value)

    filled = {name: text(value) for name, value in one.items()}
    form, *optional = re.split(r"\[|\]\[?", FORMS[one["event"]])
    moment = f"{one['time']} " if "time" in one else ""
    return moment + form.format(**filled) + "".join(
        part.format(**filled) for part in optional if part and re.findall(r"{(\w+)}", part)[0] in one)


def judge(line, seen, valid=by_jsonschema(), shapes=set()):
    """An object from a line that fits the schema; its kind is added to `seen`. The module, which is slow, judges each shape once."""
    check(harmless([line]), f"not printable ASCII: {line!r}")
    try:
        one = json.loads(line)
    except ValueError as reason:
        raise AssertionError(f"no JSON: {line}: {reason}") from reason
    check(fits(one, SCHEMA), f"doesn't fit docs/link.schema.json: {line}")
    shape = one["event"], *((name, type(value)) for name, value in one.items())
    check(valid is None or shape in shapes or valid(one), f"jsonschema says that it doesn't fit: {line}")
    shapes.add(shape)
    check(json.dumps(one, separators=(",", ":")) == line, f"not the only form of its object: {line}")
    seen.add(one["event"])
    return one


def the_same(plain, objects, seen):
    """Each object says what the plain line says."""
    check(len(plain) == len(objects), f"{len(plain)} lines, and {len(objects)} objects")
    for line, text in zip(plain, objects):
        check(plain_of(judge(text, seen)) == line, f"{text} isn't {line}")


# Lines.


def two_runs(program, place, seen, octets, *words, **environment):
    """The same pass, with and without --json, in two directories that have seen the same before."""
    plain, objects = (os.path.join(place, name) for name in ("plain", "json"))
    for here in (plain, objects):
        os.makedirs(here, exist_ok=True)
    first = run(program, plain, "--no-fsync", *words, "-", octets=octets, **environment)
    second = run(program, objects, "--no-fsync", "--json", *words, "-", octets=octets, **environment)
    check(first[1].replace(plain, objects) == second[1] and first[2] == second[2], f"{first[1:]} and {second[1:]}")
    the_same(first[0], second[0], seen)
    the_same(run(program, objects, "--list")[0], run(program, objects, "--list", "--json")[0], seen)
    return second[0]


def random_pass(chance):
    """Packets of transfers that come to their end, between any packets and BEACONs, some of them damaged."""
    packets = []
    for ident in chance.sample(range(40), 12):
        text = page(chance.choice((0, 1, 700, 3000)), ident)
        width = chance.choice((16, 32, 64, 128))
        sound = opening(ident, text, width, path=chance.randbytes(chance.randrange(1, 40)).replace(b"\0", b" "))
        packets.append(sound if chance.random() < 0.7 else metadata(ident, width, len(text)))
        came = text if chance.random() < 0.8 else bytes(len(text))
        packets += [data(ident, width, at, came[at:at + 300], chance.choice((0, WANTED))) for at in range(0, len(text), 300)]
        packets += [chance.choice((metadata(ident, width, len(text), b"other"), success(ident, width, 0, 9, [(0, 4), (5, 6)]),
                                   failure(ident, 9), beacon(chance.randbytes(9), chance.choice((16, 128)), "willing")))]
    packets += [metadata(50, 64, 2**64 - 1), data(50, 64, 2**64 - 10, bytes(9))]  # no file is so long
    packets += [fuzz_replay.packet(chance) for _ in range(60)]
    for at in range(0, len(packets), 7):
        packets[at] = fuzz_replay.damaged(chance, packets[at])
    if chance.random() < 0.5:
        chance.shuffle(packets)
    return records(packets)


def any_lines(program, place):
    """Random passes, those of the fuzz run among them: every line parses, fits the schema, and says what the plain line says."""
    chance, seen = random.Random(617), set()
    for number in range(24):
        octets = random_pass(chance) if number % 3 else fuzz_replay.damaged(chance, fuzz_replay.made(chance))
        two_runs(program, os.path.join(place, str(number // 4)), seen, octets, "--largest", str(2**64 - 1))
    check(seen >= {"taken-up", "open", "record", "send", "refused", "lost", "close", "complete", "differs", "success", "failure",
                   "on-air", "transfer"}, f"seen were only {seen}")
    other_lines(program, place, seen)
    check(seen == EVENTS == set(FORMS), f"never seen: {EVENTS - seen}")


def other_lines(program, place, seen):
    """Lines that need more than a pass."""
    settings = os.path.join(place, "settings")
    for octets in (bytes.fromhex("0203018008023c031f"), b"\1\1\1\5"):
        with open(settings, "wb") as file:
            file.write(octets)
        two_runs(program, os.path.join(place, "set"), seen, b"", "--settings", settings)
    two_runs(program, os.path.join(place, "large"), seen, records([metadata(7, 16, 9)]), "--largest", "8")
    two_runs(program, os.path.join(place, "many"), seen, records([metadata(7, 16, 9), metadata(8, 16, 9)]), "--most-kept", "1")
    many = [(2 * at, 2 * at + 1) for at in range(100)]
    lines = two_runs(program, os.path.join(place, "holes"), seen, records([success(7, 32, 0, 999, many)]))
    heard = json.loads(lines[0])
    check(heard["holes"] == [list(hole) for hole in many[:64]] and heard["hole_count"] == 100, heard)
    for hook, status in (("/bin/true", 0), ("/bin/false", 1)):
        here = os.path.join(place, "hook" + str(status))
        os.mkdir(here)
        lines = run(program, here, "--json", "--times", "--on-complete", hook, "-", octets=records([metadata(7, 16, 0)]))[0]
        told = [judge(line, seen) for line in lines]
        check(all(plain_of(one).startswith(one["time"] + " ") for one in told), lines)
        ended, = [plain_of(one) for one in told if one["event"] == "hook"]
        check(ended.endswith(f" 0 hook id=7 file=00000007.1.page status={status}"), lines)
    judge('{"packet":0,"event":"hooks","running":1,"waiting":0}', seen)  # whether there is one to wait for is a matter of time
    here = os.path.join(place, "socket")
    os.mkdir(here)
    link = Link(program, here, "--json", "--stats", "--receive-buffer", str(1 << 30), peer=("--peer", "127.0.0.0/8"))
    stranger = socket.socket(socket.AF_INET, socket.SOCK_DGRAM)
    link.quiet_send(metadata(7, 16, 9), b"x")
    stranger.sendto(data(7, 16, 0, b"123"), ("127.0.0.1", link.port))
    link.wait(lambda: any("of-another-sender" in line for line in link.lines))
    stranger.close()
    closed = run(program, here, "--close", "7", "--json")
    check(closed == (['{"packet":0,"event":"close","id":7,"why":"asked"}'], "", 0), closed)
    check(link.end() == 0, link.told)
    for line in closed[0] + link.lines:
        judge(line, seen)
    if "receive-buffer" not in seen:  # of a program that may take any buffer
        judge('{"packet":0,"event":"receive-buffer","octets":212992,"asked":8388608}', seen)


def exact(program, place):
    """Numbers of 64 bits digit by digit, and paths and endpoints octet by octet."""
    path = bytes(octet for octet in range(1, 256))
    name = bytes(range(255))
    lines = two_runs(program, place, set(), records([
        metadata(7, 64, 2**64 - 1, path), data(7, 64, 2**53 + 1, b"x"), beacon(name, 64, free=2**64 - 1, free_width=64), metadata(2**32 - 1, 64, 0, path),
        success(7, 32, 0, 9, [(0, 4)])]),
        "--largest", str(2**64 - 1))
    check('"length":18446744073709551615,' in lines[0], lines[0])
    check(f'"offset":{2**53 + 1},' in "".join(lines), lines)
    by_event = {json.loads(line)["event"]: json.loads(line) for line in lines}
    check('"free":18446744073709551615,' in "".join(lines) and by_event["complete"]["id"] == 2**32 - 1, lines)

    def octets(text):
        return re.sub(rb"\\x([0-9a-f]{2})", lambda found: bytes([int(found[1], 16)]), text.encode("ascii"))

    check(octets(by_event["complete"]["path"]) == path, by_event["complete"])
    check(octets(by_event["on-air"]["endpoint"]) == name, by_event["on-air"])
    got = run(program, place, "-q", "--json", "--", "-", octets=records([metadata(9, 16, 0)]))
    check([json.loads(line)["event"] for line in got[0]] == ["complete"], f"--quiet: {got}")


def columns(program, place):
    """--list: percent, octets, rate, holes, last heard and sender, also of a program that runs."""
    text = page(1000, 120)
    link = Link(program, place)
    begun = time.time()
    link.quiet_send(metadata(7, 16, 1000), data(7, 16, 100, text[100:300], WANTED), metadata(8, 64, 2**30), metadata(9, 16, 0))
    time.sleep(1.2)
    link.send(data(7, 16, 400, text[400:999], WANTED))
    lines = [json.loads(line) for line in run(program, place, "--list", "--json")[0]]
    check([one["id"] for one in lines] == [7, 8, 9], lines)
    seven, eight, nine = lines
    check((seven["received"], seven["percent"], seven["holes"], seven["edge"]) == (799, 79, 2, 999), seven)
    check((eight["received"], eight["percent"], eight["holes"], nine["percent"], nine["complete"]) == (0, 0, 0, 100, True), lines)
    check(seven["sender"] == f"127.0.0.1:{link.socket.getsockname()[1]}", seven)
    heard = time.mktime(time.strptime(seven["heard"], "%Y-%m-%dT%H:%M:%SZ")) - time.timezone
    check(begun + 0.2 <= heard + 1 and heard <= time.time(), (begun, seven, time.time()))
    check(799 / (time.time() - begun + 1) <= seven["rate"] <= 799 / 1.2 and eight["rate"] is None, (seven, eight))
    check(link.end() == 0, link.told)


# Counters.


def metrics_of(text):
    """The series of a file in Prometheus' text format, each name with its labels. It is checked to be well-formed."""
    check(text.endswith("\n"), f"cut short: {text[-80:]!r}")
    series, family, helped, kinds = {}, None, set(), {}
    for line in text.splitlines():
        head = re.fullmatch(r"# (HELP|TYPE) ([a-zA-Z_:][a-zA-Z0-9_:]*) (.+)", line)
        if head and head[1] == "HELP":
            check(head[2] not in helped, f"a second HELP: {line}")
            helped.add(head[2])
            family = head[2]
        elif head:
            check(head[2] == family and family not in kinds and head[3] in ("counter", "gauge"), f"out of its place: {line}")
            check(head[3] == "gauge" or family.endswith("_total"), f"a counter without _total: {line}")
            check(head[3] == "counter" or not family.endswith("_total"), f"a gauge with _total: {line}")
            kinds[family] = head[3]
        else:
            form = re.fullmatch(r'([a-zA-Z_:][a-zA-Z0-9_:]*)\{((?:[a-zA-Z_]\w*="(?:[^"\\]|\\[\\n"])*",?)*)\} ([0-9]+)', line)
            check(form and form[1] == family in kinds, f"no series of {family}: {line}")
            labels = tuple((name, re.sub(r"\\(.)", lambda found: {"n": "\n"}.get(found[1], found[1]), value))
                           for name, value in re.findall(r'(\w+)="((?:[^"\\]|\\.)*)"', form[2]))
            check((family, labels) not in series, f"twice: {line}")
            series[family, labels] = int(form[3])
    return series


def named(series, place):
    """The same by short names: packets_total, refused_packets_total 14. All have the directory as their first label."""
    check({labels[0] for _, labels in series} == {("directory", os.path.realpath(place))}, f"{series}")
    check(all(name.startswith("saratoga_link_") for name, _ in series), f"{series}")
    return {" ".join([name.removeprefix("saratoga_link_"), *(value for _, value in labels[1:])]): number
            for (name, labels), number in series.items()}


def known_traffic(program, place):
    """What came, was refused, rejected, answered and complete is counted exactly, in each of the three forms."""
    text, other = page(900, 121), os.path.join(os.path.dirname(place), "metrics.prom")
    sent = [opening(7, text, 16), data(7, 16, 0, text[:300], WANTED), data(7, 16, 0, text[:300]), data(7, 16, 300, text[300:]),
            data(8, 16, 0, b"x"), b"", b"\x43\0\0\0\0\0\0\7", metadata(9, 16, 2000), metadata(10, 16, 9), data(10, 16, 8, b"xy"),
            opening(11, text, 16), data(11, 16, 0, bytes(900), END_OF_DATA), beacon(b"x"), failure(7, 9)]
    link = Link(program, place, "--stats", "--metrics", other, "--largest", "1000", peer=("--peer", "127.0.0.1", "--peer", "127.0.0.3"))
    answers = sum(link.send(packet) is not None for packet in sent)
    for address, count in (("127.0.0.3", 3), ("127.0.0.2", 2)):
        with socket.socket(socket.AF_INET, socket.SOCK_DGRAM) as sender:
            sender.bind((address, 0))
            for _ in range(count):
                sender.sendto(data(7, 16, 0, text[:10]), ("127.0.0.1", link.port))
                time.sleep(0.05)
    link.wait(lambda: sum("of-another-sender" in line for line in link.lines) == 3)
    check(link.end() == 3, link.told)
    octets = sum(map(len, sent)) + 3 * len(data(7, 16, 0, text[:10]))
    stats, = [dict(word.split("=") for word in line.split()[2:]) for line in link.lines if line.startswith("0 stats ")]
    good = int(stats.pop("good-syncs"))
    check(good >= 4, stats)
    expected = {"packets": 17, "octets": octets, "refused": 4, "rejected": 4, "lost": 0, "dropped": 0, "unheard": 2,
                "answers": answers + 3, "held-back": 0, "unsent": 0, "bad-syncs": 0, "pages": 1, "differing": 1, "open": 2}
    check(stats == {name: str(number) for name, number in expected.items()}, f"{stats} and not {expected}")
    check([line for line in link.lines if line.startswith("0 stats-")] ==
          ["0 stats-refused refusal=1 count=2", "0 stats-refused refusal=12 count=1", "0 stats-refused refusal=14 count=1",
           f"0 stats-peer address=127.0.0.1 packets=14 octets={sum(map(len, sent))}",
           f"0 stats-peer address=127.0.0.3 packets=3 octets={octets - sum(map(len, sent))}"], link.lines)
    series = named(metrics_of(content(other).decode()), place)
    refused = {f"refused_packets_total {number}": {1: 2, 12: 1, 14: 1}.get(number, 0) for number in range(1, 27)}
    check(series == {
        "packets_total": 17, "received_bytes_total": octets, "rejected_packets_total": 4, "lost_packets_total": 0,
        "dropped_packets_total": 0, "unheard_packets_total": 2, "answers_total": answers + 3, "answers_held_back_total": 0,
        "answers_unsent_total": 0, "open_transfers": 2, **refused, "syncs_total good": good, "syncs_total bad": 0,
        "pages_total complete": 1, "pages_total differs": 1, "peer_packets_total 127.0.0.1": 14, "peer_packets_total 127.0.0.3": 3,
        "peer_received_bytes_total 127.0.0.1": sum(map(len, sent)),
        "peer_received_bytes_total 127.0.0.3": octets - sum(map(len, sent))}, series)


def held_back(program, place):
    """An answer that waits counts once; and of more than 64 addresses the rest is summed."""
    link = Link(program, place, "--answers", "1", "--stats", peer=("--peer", "127.0.0.0/8"))
    check(link.send(metadata(7, 16, 9)) is not None, "no answer")
    link.socket.settimeout(3)
    for _ in range(2):
        check(link.send(metadata(7, 16, 9)) is not None, "an answer that waits isn't sent")
    for number in range(70):
        with socket.socket(socket.AF_INET, socket.SOCK_DGRAM) as sender:
            sender.bind((f"127.0.1.{number + 1}", 0))
            sender.sendto(b"x" * (number + 1), ("127.0.0.1", link.port))
            time.sleep(0.002)
    link.wait(lambda: sum(" refused " in line for line in link.lines) == 70)
    check(link.end() == 0, link.told)
    stats, = [line for line in link.lines if line.startswith("0 stats ")]
    check(" packets=73 " in stats and " held-back=2 " in stats, stats)
    peers = [line for line in link.lines if line.startswith("0 stats-peer ")]
    check(len(peers) == 65 and peers[63] == "0 stats-peer address=127.0.1.63 packets=1 octets=63", peers)
    check(peers[64] == f"0 stats-peer address=others packets=7 octets={sum(range(64, 71))}", peers[64])


def dropped_by(port):
    """How many packets a socket had no room for, by the kernel's own list."""
    with open("/proc/net/udp", encoding="ascii") as file:
        found, = [line.split() for line in file if line.split()[1].endswith(f":{port:04X}")]
    return int(found[-1])


def dropped(program, place):
    """Packets that the kernel dropped, as its own list has them."""
    link = Link(program, place, "--stats", "--receive-buffer", "4096")
    link.process.send_signal(signal.SIGSTOP)
    for _ in range(300):
        link.socket.sendto(bytes(1000), ("127.0.0.1", link.port))
    lost = dropped_by(link.port)
    link.process.send_signal(signal.SIGCONT)
    link.wait(lambda: sum(" refused " in line for line in link.lines) == 300 - lost)
    for later in (301, 302):  # each packet brings how many were dropped before it
        link.socket.sendto(bytes(1000), ("127.0.0.1", link.port))
        link.wait(lambda: sum(" refused " in line for line in link.lines) == later - lost)
    check(dropped_by(link.port) == lost > 0, f"dropped: {lost}")
    check(link.end() == 0, link.told)
    stats, = [line for line in link.lines if line.startswith("0 stats ")]
    check(f" packets={302 - lost} " in stats and f" dropped={lost} " in stats, (stats, lost))


def bad_syncs(program, place):
    """`program` is built with nospace.c: packets that are lost, a sync that fails and an answer that can't be sent are counted."""
    text, marker = page(100, 122), os.path.join(os.path.dirname(place), "nospace")
    link = Link(program, place, "--stats", NOSPACE=marker)

    def while_failing(calls, packets, happened):
        with open(marker, "w", encoding="ascii") as file:
            file.write(calls)
        for packet in packets:
            link.socket.sendto(packet, ("127.0.0.1", link.port))
        link.wait(happened)
        os.remove(marker)

    link.quiet_send(metadata(7, 16, 100))
    while_failing("r", [data(7, 16, 0, text[:10], WANTED)], lambda: any("can't be stored" in line for line in link.told))
    while_failing("w", [data(7, 16, start, text[start:start + 10]) for start in range(0, 30, 10)],
                  lambda: sum(" lost id=7 " in line for line in link.lines) == 3)
    while_failing("s", [data(8, 16, 0, b"x")], lambda: any("can't be sent" in line for line in link.told))
    link.quiet_send(data(7, 16, 0, text, WANTED))
    link.wait(lambda: any(" complete id=7 " in line for line in link.lines))
    check(link.end() == 1, link.told)
    stats, = [line for line in link.lines if line.startswith("0 stats ")]
    check(" lost=3 " in stats and " packets=7 " in stats and " bad-syncs=1 " in stats and " unsent=1 " in stats, (stats, link.told))


def every_second(program, place):
    """--stats-every prints while the program runs, and at its end."""
    process = subprocess.Popen([program, "-d", place, "-q", "--udp", "0", "--any-peer", "--stats-every=1", "--idle", "3"],
                               stdout=subprocess.PIPE, stderr=subprocess.PIPE, text=True)
    STARTED.processes.append(process)
    lines, told = process.communicate(timeout=20)
    check(process.returncode == 0 and told == "", told)
    check(3 <= lines.count("0 stats packets=0 ") <= 4, lines)


def replaced_whole(program, place):
    """`program` writes the metrics at each tick. Nobody ever sees half a file, and one that was opened stays as it was."""
    name = os.path.join(os.path.dirname(place), "whole.prom")
    link = Link(program, place, "--metrics", name)
    held, seen = open(name, "rb"), set()
    first = held.read()
    end = time.monotonic() + 1.5
    while time.monotonic() < end:
        link.socket.sendto(b"x", ("127.0.0.1", link.port))
        text = content(name)
        metrics_of(text.decode())
        seen.add(named(metrics_of(text.decode()), place)["packets_total"])
    held.seek(0)
    check(held.read() == first, "a file that was opened has changed: it isn't replaced whole")
    held.close()
    check(len(seen) > 3, f"it isn't replaced while the program runs: {seen}")
    check(link.end() == 0 and os.listdir(os.path.dirname(name)).count("whole.prom.new") == 0, link.told)
    # A name that can't be written is told at the start; later it is told once, and stops nothing.
    got = run(program, place, "--metrics", os.path.join(place, "nowhere", "x.prom"), "-")
    check(got[0] == [] and got[2] == 1 and "x.prom: can't be written: No such file" in got[1], got)
    gone = os.path.join(os.path.dirname(place), "gone")
    os.mkdir(gone)
    link = Link(program, place, "--metrics", os.path.join(gone, "x.prom"))
    os.remove(os.path.join(gone, "x.prom"))
    os.rmdir(gone)
    link.wait(lambda: any("the counters in it are old" in line for line in link.told))
    check(link.send(metadata(7, 16, 9)) is not None, "it stops")
    check(link.end() == 0 and len(link.told) == 1, link.told)


def options(program, place):
    """What goes with what."""
    for wrong in ("--stats --list", "--metrics x --list", "--stats-every 1 --close 7", "--stats-every 0 -", "--json=1 -", "--metrics"):
        got = run(program, place, *wrong.split())
        check(got[2] == 2 and "see saratoga-link --help" in got[1], got)
    text = run(program, place, "--help")[0]
    for option in ("--json", "--no-live", "--stats", "--stats-every", "--metrics"):
        check(any(f" {option} " in line for line in text), f"--help has no {option}")


def all_of_it(program, place):
    """Runs everything; `place` gives a new directory for a name."""
    often = build(SOURCES, program + "-often", "-DMETRICS_EVERY=1")
    full = failing(program + "-counting")
    for test, tested in ((any_lines, program), (exact, program), (columns, program), (known_traffic, program), (held_back, program),
                         (dropped, program), (bad_syncs, full), (every_second, program), (replaced_whole, often), (options, program)):
        one_of_it(test, tested, place(test.__name__))
