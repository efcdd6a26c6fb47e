"""The library of include/saratoga.h from Python, by ctypes over libsaratoga.so.

Each function has the header's name without saratoga_, and answers the header's struct, with its field names. A refusal is
raised as Refused, with its number, its code and its text. Octets that are only read are any bytes-like object. What a call
writes to is lent as a bytearray (or any other writable buffer): an area, marks, an MD5 state. What a call makes comes back as
bytes. A number that is not 0 to 2^64 - 1 raises OverflowError, and nothing is called.

    import saratoga
    area = saratoga.fresh()
    packet = saratoga.write_data(saratoga.WIDTH_16, 7, b"", 1000, b"page")
    try:
        saratoga.record(area, packet)
    except saratoga.Refused as refused:
        print(refused.number, refused.code, refused.text)    # 12 6 Id not open

The library is the one that SARATOGA_LIBRARY names, else the one that was built or installed beside this file, else the
one that the system finds.
"""
import ctypes
import os

# Constants, as in the header without SARATOGA_.

VERSION_MAJOR, VERSION_MINOR, VERSION = 0, 1, "0.1"

TRANSFERS, RUNS = 16, 64
PACKET_OCTETS, PATH_OCTETS, METADATA_OCTETS = 65535, 1023, 1118
STATUS_OCTETS, FAILURE_OCTETS, PAYLOAD_OCTETS = 2104, 8, 65000
AREA_OCTETS = 17288
BITMAP_OCTETS, BITMAP_LONGEST = 8192, 65535
MD5_OCTETS, DIGEST_OCTETS = 88, 16
SETTINGS_OCTETS, SETTINGS_VERSION = 15, 2

TYPE_BEACON, TYPE_METADATA, TYPE_DATA, TYPE_STATUS = 0, 2, 3, 4

WIDTH_MASK, WIDTH_16, WIDTH_32, WIDTH_64, WIDTH_128 = 0xC00000, 0x000000, 0x400000, 0x800000, 0xC00000
KIND_MASK = 0x300000
FLAG_ENDED, FLAG_ERRORS_TAKEN = 0x080000, 0x040000
FLAG_TIMESTAMP, FLAG_NO_METADATA, FLAG_INCOMPLETE, FLAG_UNASKED = 0x080000, 0x040000, 0x020000, 0x010000
FLAG_STATUS_WANTED, FLAG_END_OF_DATA = 0x010000, 0x008000

LARGEST_MASK, LARGEST_16, LARGEST_32, LARGEST_64, LARGEST_128 = 0xC00000, 0x000000, 0x400000, 0x800000, 0xC00000
FLAG_BUNDLES, FLAG_STREAMS, FLAG_UDP_LITE = 0x200000, 0x100000, 0x008000
SEND_MASK, SEND_CANNOT, SEND_NOT_NOW, SEND_WILLING = 0x0C0000, 0x000000, 0x080000, 0x0C0000
RECEIVE_MASK, RECEIVE_CANNOT, RECEIVE_NOT_NOW, RECEIVE_WILLING = 0x030000, 0x000000, 0x020000, 0x030000
FREE_SPACE_MASK, FREE_SPACE_NONE = 0x007000, 0x000000
FREE_SPACE_16, FREE_SPACE_32, FREE_SPACE_64, FREE_SPACE_128 = 0x004000, 0x005000, 0x006000, 0x007000
CANNOT, NOT_NOW, WILLING = 0, 1, 2

CHECKSUM_TYPE_MASK, CHECKSUM_WORDS_MASK = 0x0F, 0xF0
CHECKSUM_NONE, CHECKSUM_CRC32, CHECKSUM_MD5, CHECKSUM_SHA1 = 0x00, 0x11, 0x42, 0x53
PROPERTIES_WIDTH_MASK = 0x00C0
PROPERTIES_WIDTH_16, PROPERTIES_WIDTH_32, PROPERTIES_WIDTH_64, PROPERTIES_WIDTH_128 = 0x0000, 0x0040, 0x0080, 0x00C0
NOT_CHECKED, AGREES, DIFFERS = 0, 1, 2

CODES = (  # the name of each status code, and its text
    ("SUCCESS", "no error"),
    ("UNSPECIFIED", "unspecified error"),
    ("SENDER_RESOURCES", "sender lacks resources"),
    ("RECEIVER_RESOURCES", "receiver lacks resources"),
    ("NOT_FOUND", "file not found"),
    ("DENIED", "access denied"),
    ("UNKNOWN_ID", "unknown Id"),
    ("NOT_DELETED", "file not deleted"),
    ("TOO_LONG", "file too long for the receiver"),
    ("DESCRIPTORS", "descriptors do not match the transfer"),
    ("TYPE", "unsupported packet type"),
    ("REQUEST_TYPE", "unsupported request type"),
    ("TIMEOUT", "request timed out"),
    ("FLAGS_CHANGED", "flags of DATA have changed"),
    ("NOT_INTERESTED", "receiver no longer wants the file"),
    ("IN_USE", "file in use"),
    ("METADATA_FIRST", "METADATA required first"),
    ("UNEXPECTED", "unexpected error STATUS"),
)
globals().update({f"CODE_{name}": code for code, (name, _) in enumerate(CODES)})

REFUSALS = (  # the name of each refusal from 1 on, and its text
    ("TRUNCATED", "packet or settings file cut short"),
    ("TOO_LONG", "packet longer than 65,535 octets"),
    ("VERSION", "not this version of the protocol"),
    ("TYPE", "packet type not taken here"),
    ("WIDTH", "upper eight octets of a 128-bit descriptor are not zero"),
    ("KIND", "not a plain file"),
    ("CHECKSUM", "checksum type and length do not go together"),
    ("PATH", "path empty, too long, or followed by octets"),
    ("SIZE", "size above what the descriptor width, or the marks, can hold"),
    ("NO_PAYLOAD", "DATA without a payload"),
    ("HOLES", "hole list not allowed, or a failure STATUS, which has none"),
    ("NOT_OPEN", "Id not open"),
    ("OTHER_WIDTH", "descriptor width is not the transfer's"),
    ("PAST_END", "octets past the end of the file"),
    ("EARLY_END", "end of data is not the end of the file"),
    ("RUNS", "more than 64 runs of octets received"),
    ("TABLE_FULL", "16 transfers are open already"),
    ("OPEN_OTHER", "Id open with another width or length"),
    ("INDEX", "no hole has that index"),
    ("BUFFER", "buffer or area too small"),
    ("FIELD", "field too large to be written, failure code 0, or largest payload not 1 to 65,000"),
    ("AREA", "area holds no transfer table, or marks no transfer"),
    ("CRC32C", "new transfer with a CRC-32c (checksum type 1), which is not taken any more"),
    ("SETTINGS_VERSION", "version of settings not known"),
    ("SETTINGS", "settings not allowed"),
    ("BEACON", "flags of BEACON not allowed"),
)
globals().update({f"REFUSED_{name}": number for number, (name, _) in enumerate(REFUSALS, 1)})


def refusal_text(number):
    """A refusal in plain words; 0 is "accepted". Any number has a text."""
    _number(number)
    return "accepted" if number == 0 else REFUSALS[number - 1][1] if number <= len(REFUSALS) else "unknown refusal"


def code_text(code):
    """A status code in plain words; 0 is "no error". Any number has a text."""
    _number(code)
    return CODES[code][1] if code < len(CODES) else "unknown status code"


class Refused(Exception):
    """A call that was refused: nothing was changed. `code` is what to send in a failure STATUS, 0 for nothing."""

    def __init__(self, number, code):
        super().__init__(number, code)
        self.number, self.code = number, code

    @property
    def text(self):
        return refusal_text(self.number)

    def __str__(self):
        return f"refused {self.number}: {self.text}"


# Structs, as in the header.


class _Struct(ctypes.Structure):
    """A struct of the header: its fields by name, and shown with all of them."""

    def __repr__(self):
        return f"{type(self).__name__}({', '.join(f'{name}={getattr(self, name)!r}' for name, _ in self._fields_)})"

    def __eq__(self, other):
        return type(other) is type(self) and bytes(self) == bytes(other)

    __hash__ = None


def _struct(name, fields, **others):
    """A struct of these fields, all 64 bits wide but for those of a type of their own."""
    kinds = [(field, others.get(field, ctypes.c_uint64)) for field in fields.split()]
    return type(name, (_Struct,), {"_fields_": kinds})


Written = _struct("Written", "number code size")
Hole = _struct("Hole", "number code start end")
Packet = _struct(
    "Packet", "number code type flags id width timestamp_at timestamp_len checksum_at checksum_len properties size mtime ctime"
              " path_at path_len offset payload_at payload_len status progress in_response_to holes_at hole_count largest_width"
              " bundles streams send receive free_width free_space endpoint_at endpoint_len")
Piece = _struct("Piece", "offset length")
Planned = _struct("Planned", "number code count")
Checked = _struct("Checked", "number code passes")
Done = _struct("Done", "number code")
Opened = _struct("Opened", "number code edge complete already_open")
Recorded = _struct("Recorded", "number code edge complete absorbed adds")
Listed = _struct("Listed", "number code id width length edge complete runs received stamped")
Merged = _struct("Merged", "number code edge complete")
Bitmap = _struct("Bitmap", "id width length stamped stamp_high stamp_low")
BitmapOpened = _struct("BitmapOpened", "number code edge complete transfer", transfer=Bitmap)
BitmapRecorded = _struct("BitmapRecorded", "number code edge complete absorbed adds transfer", transfer=Bitmap)
Verdict = _struct("Verdict", "number code verdict")
Settings = _struct("Settings", "number code version largest_payload has_interval interval has_partner partner")

# Functions: what each answers, and what it takes. IN is octets that are only read and OUT those that may be written, each with
# their count; so are LIST and PIECES, of pieces. N is a number.

IN, OUT, LIST, PIECES, N = "in", "out", "list", "pieces", "number"
FUNCTIONS = {
    "read": (Packet, IN),
    "read_hole": (Hole, IN, N),
    "plan": (Planned, IN, N, PIECES),
    "plan_count": (Planned, IN, N),
    "check_plan": (Checked, IN, N, LIST),
    "write_beacon": (Written, N, N, IN, OUT),
    "write_metadata": (Written, N, N, IN, N, N, N, N, IN, OUT),
    "write_data": (Written, N, N, IN, N, IN, OUT),
    "write_failure": (Written, N, N, OUT),
    "fresh": (Done, OUT),
    "open": (Opened, OUT, IN),
    "record": (Recorded, OUT, IN),
    "try_record": (Recorded, IN, IN),
    "merge": (Merged, OUT, IN, N),
    "close": (Done, OUT, N),
    "write_status": (Written, IN, N, N, N, OUT),
    "transfer": (Listed, IN, N),
    "find": (Listed, IN, N),
    "transfer_hole": (Hole, IN, N, N),
    "bitmap_open": (BitmapOpened, OUT, IN),
    "bitmap_record": (BitmapRecorded, Bitmap, OUT, IN),
    "bitmap_status": (Written, Bitmap, IN, N, N, OUT),
    "md5_begin": (Done, OUT),
    "md5_add": (Done, OUT, IN),
    "md5_end": (Written, IN, OUT),
    "check_md5": (Verdict, IN, IN),
    "read_settings": (Settings, IN, N),
    "write_settings": (Written, N, N, N, N, N, N, OUT),
}
_TYPES = {IN: (ctypes.c_char_p, ctypes.c_size_t), OUT: (ctypes.POINTER(ctypes.c_uint8), ctypes.c_size_t), N: (ctypes.c_uint64,),
          LIST: (ctypes.POINTER(Piece), ctypes.c_size_t), PIECES: (ctypes.POINTER(Piece), ctypes.c_size_t)}


def _library():
    """The shared library."""
    here = os.path.dirname(os.path.realpath(__file__))
    named = os.environ.get("SARATOGA_LIBRARY")
    places = (("target", "shared"), ("lib",), ())  # as built; of the tools in libexec/saratoga; of lib/python3/dist-packages
    beside = [os.path.join(here, "..", "..", *place, "libsaratoga.so.0") for place in places]
    found = named or next((path for path in beside if os.path.exists(path)), "libsaratoga.so.0")
    library = ctypes.CDLL(found)
    for name, (answer, *takes) in FUNCTIONS.items():
        function = getattr(library, "saratoga_" + name)
        function.restype = answer
        function.argtypes = [kind for taken in takes for kind in _TYPES.get(taken, (taken,))]
    return library


_LIBRARY = _library()


def _number(value):
    """A number of 64 bits. ctypes itself would take what is left of a larger one."""
    if not isinstance(value, int):
        raise TypeError(f"{value!r} is no whole number")
    if not 0 <= value < 2**64:
        raise OverflowError(f"{value} is not 0 to 2^64 - 1")
    return int(value)


def _octets(octets):
    """Octets that are only read: the same object, or a copy of one that could be written, so that nothing overlaps."""
    return octets if isinstance(octets, bytes) else bytes(memoryview(octets))


def _lent(octets):
    """Octets that a call may write to. A pointer to none of them must not be NULL either."""
    view = memoryview(octets)
    if view.readonly:
        raise TypeError(f"a {type(octets).__name__} can't be written to; lend a bytearray")
    return (ctypes.c_uint8 * view.nbytes).from_buffer(view.cast("B")) if view.nbytes else (ctypes.c_uint8 * 1)()


def _given(taken, value):
    """An argument as the C function takes it."""
    if taken == N:
        return [_number(value)]
    if taken == IN:
        octets = _octets(value)
        return [octets, len(octets)]
    if taken == OUT:
        return [_lent(value), memoryview(value).nbytes]
    if taken in (LIST, PIECES):
        return [value, len(value)] if len(value) else [(Piece * 1)(), 0]
    if not isinstance(value, taken):
        raise TypeError(f"{value!r} is no {taken.__name__}")
    return [value]


def _call(name, *values):
    """Calls a function. Gives its struct, or raises Refused."""
    _, *takes = FUNCTIONS[name]
    arguments = [argument for taken, value in zip(takes, values) for argument in _given(taken, value)]
    answer = getattr(_LIBRARY, "saratoga_" + name)(*arguments)
    if answer.number != 0:
        raise Refused(answer.number, answer.code)
    return answer


def _made(name, room, *values):
    """Calls a function that writes to its last argument, with so much room. Gives the octets that it wrote."""
    out = bytearray(min(_number(room), PACKET_OCTETS))  # nothing that is written is longer
    return bytes(out[:_call(name, *values, out).size])


# Packets.


def number_of(octets):
    """The big-endian number in these octets; of more than eight, only the last eight count."""
    return int.from_bytes(_octets(octets)[-8:], "big")


def failure_id(packet, code):
    """The Id to write in a failure STATUS for a packet that was refused with this code (R13.1); None where none is sent."""
    packet = _octets(packet)
    if _number(code) == 0 or len(packet) < 8 or packet[0] & 0x3F == TYPE_BEACON:
        return None
    return number_of(packet[4:8])


def read(packet):
    return _call("read", packet)


def part(packet, answer, name):
    """The octets of a packet that was read: its "payload", "path", "checksum", "timestamp" or "endpoint"."""
    at = getattr(answer, name + "_at")
    return _octets(packet)[at:at + getattr(answer, name + "_len")]


def read_hole(packet, index):
    return _call("read_hole", packet, index)


def hole_at(packet, answer, index):
    """Hole `index` of a packet that was read: `answer` is what read() gave for it, and nothing is judged again."""
    if _number(index) >= answer.hole_count:
        raise Refused(REFUSED_INDEX, CODE_SUCCESS)  # noqa: F821
    at, packet = answer.holes_at + 2 * answer.width * index, _octets(packet)
    ends = [number_of(packet[place:place + answer.width]) for place in (at, at + answer.width)]
    return Hole(0, 0, *ends)


def holes(packet):
    """Every hole of a success STATUS, as pairs: its first offset, and the first after it."""
    packet = _octets(packet)
    answer = read(packet)
    found = [hole_at(packet, answer, index) for index in range(answer.hole_count)]
    return [(hole.start, hole.end) for hole in found]


def write_beacon(flags, free_space=0, endpoint=b"", room=PACKET_OCTETS):
    return _made("write_beacon", room, flags, free_space, endpoint)


def write_metadata(flags, id, checksum, properties, size, mtime, ctime, path, room=METADATA_OCTETS):
    return _made("write_metadata", room, flags, id, checksum, properties, size, mtime, ctime, path)


def write_data(flags, id, timestamp, offset, payload, room=PACKET_OCTETS):
    return _made("write_data", room, flags, id, timestamp, offset, payload)


def write_failure(id, status, room=FAILURE_OCTETS):
    return _made("write_failure", room, id, status)


# Plans: lists of pairs of an offset and a length.


def plan_count(status, largest):
    return _call("plan_count", status, largest).count


def plan(status, largest, room=None):
    """The pieces to send again; `room` is how many there may be, as many as there are where it is None."""
    records = (Piece * (plan_count(status, largest) if room is None else _number(room)))()
    count = _call("plan", status, largest, records).count
    return [(piece.offset, piece.length) for piece in records[:count]]


def check_plan(status, largest, pieces):
    """Whether these pieces, pairs of an offset and a length, are a plan."""
    numbers = [(_number(offset), _number(length)) for offset, length in pieces]
    return bool(_call("check_plan", status, largest, (Piece * len(numbers))(*numbers)).passes)


# Receiving, with an area.


def fresh(area=None):
    """Makes the area hold a table with nothing open, and gives it; a new one where none is lent."""
    area = bytearray(AREA_OCTETS) if area is None else area
    _call("fresh", area)
    return area


def open(area, packet):
    return _call("open", area, packet)


def record(area, packet):
    return _call("record", area, packet)


def try_record(area, packet):
    return _call("try_record", area, packet)


def merge(first, second, id):
    return _call("merge", first, second, id)


def close(area, id):
    _call("close", area, id)


def write_status(area, id, skip=0, unasked=0, room=STATUS_OCTETS):
    return _made("write_status", room, area, id, skip, unasked)


def transfer(area, index):
    return _call("transfer", area, index)


def find(area, id):
    return _call("find", area, id)


def transfer_hole(area, id, index):
    return _call("transfer_hole", area, id, index)


def _until(number, call):
    """What a call answers for 0, 1 and so on, up to the refusal that ends the list."""
    answers = []
    while True:
        try:
            answers.append(call(len(answers)))
        except Refused as refused:
            if refused.number != number:
                raise
            return answers


def transfers(area):
    """Every open transfer, in rising order of Id."""
    return _until(REFUSED_NOT_OPEN, lambda index: transfer(area, index))  # noqa: F821


def transfer_holes(area, id):
    """Every hole of an open transfer, as pairs: its first offset, and the first after it."""
    found = _until(REFUSED_INDEX, lambda index: transfer_hole(area, id, index))  # noqa: F821
    return [(hole.start, hole.end) for hole in found]


# Receiving one transfer, with marks.


def bitmap_open(marks, packet):
    return _call("bitmap_open", marks, packet)


def bitmap_record(transfer, marks, packet):
    return _call("bitmap_record", transfer, marks, packet)


def bitmap_status(transfer, marks, skip=0, unasked=0, room=STATUS_OCTETS):
    return _made("bitmap_status", room, transfer, marks, skip, unasked)


# MD5.


def md5_begin(state=None):
    """Makes a state hold nothing, and gives it; a new one where none is lent."""
    state = bytearray(MD5_OCTETS) if state is None else state
    _call("md5_begin", state)
    return state


def md5_add(state, part):
    _call("md5_add", state, part)


def md5_end(state, room=DIGEST_OCTETS):
    return _made("md5_end", room, state)


def check_md5(packet, state):
    """NOT_CHECKED, AGREES or DIFFERS."""
    return _call("check_md5", packet, state).verdict


# Settings.


def read_settings(file, known=SETTINGS_VERSION):
    return _call("read_settings", file, known)


def write_settings(version, largest_payload, has_interval=0, interval=0, has_partner=0, partner=0, room=SETTINGS_OCTETS):
    return _made("write_settings", room, version, largest_payload, has_interval, interval, has_partner, partner)
