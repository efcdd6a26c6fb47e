/* The command line. */
#include "link.h"

#include <errno.h>
#include <stdio.h>
#include <stdlib.h>
#include <string.h>

#define LONGEST 1000000000 /* seconds */

struct options options = {.directory = ".", .force = 1, .largest = UINT64_C(1) << 30, .most_kept = 10000, .linger = 60000,
                          .answers = 300, .buffer = 8 << 20, .host = "127.0.0.1", .hooks = 4, .hook_wait = 30000};

static const char help[] =
    "usage: saratoga-link [options] PASS        packets from the P records of a pass file; - is standard input\n"
    "       saratoga-link [options] --udp PORT  packets from a UDP socket, until SIGINT or SIGTERM\n"
    "       saratoga-link -d DIR --list         the transfers that are open, also while a program runs there\n"
    "       saratoga-link -d DIR --close ID     closes one that was given up, also while a program runs there\n"
    "\n"
    "Receives files by Saratoga. It writes payloads to disk, answers with STATUS, and resumes after a stop, a crash or a\n"
    "power cut.\n"
    "\n"
    "  -d, --directory DIR  where everything is written (else the working directory); one program at a time\n"
    "      --udp PORT       listen on this port; 0 takes a free one, and the first line says which\n"
    "      --address ADDR   numeric address to listen on (else 127.0.0.1; ::1 is loopback of IPv6)\n"
    "      --receive-buffer OCTETS  of the socket (else 8388608); a line says so where the system gives less\n"
    "      --peer ADDR      hear this sender, by its numeric address, as 10.1.2.3, fe80::1%eth0, or a network, as\n"
    "                       10.1.0.0/16; may be repeated; others are dropped\n"
    "      --any-peer       hear every sender; --udp needs this or --peer\n"
    "      --answers N      STATUS to one sender in a second, at most (else 300); more wait and are joined\n"
    "      --idle SECONDS   end after this many seconds without a packet of a sender that is heard\n"
    "      --linger SECONDS how long a complete file stays open after it was last heard (else 60)\n"
    "      --forget-after SECONDS  gives up a transfer that is not complete and was silent so long (else 0: never)\n"
    "      --largest OCTETS largest file that is taken (else 1073741824)\n"
    "      --most-kept N    transfers whose files may be in DIR (else 10000); then none is opened until some are taken away\n"
    "      --make-room      where 16 transfers are open and none is complete, end the one that was silent longest\n"
    "      --repair-status  where a packet would need a 65th run, answer STATUS with the lowest holes, not failure 3\n";

static const char around_help[] =
    "      --settings FILE  read the plant's settings, and print them first: 0 settings version=2 largest-payload=1024\n"
    "                       interval=60 partner=31; the program keeps no timer: interval is for whoever does\n"
    "      --on-complete PROGRAM  run this for each page that was reported, with the page, its .meta and its sheet; no shell;\n"
    "                       at least once, also over a crash; never for one that differs: 0 hook id=31 file=.. status=0\n"
    "      --hooks N        so many of them at a time (else 4)\n"
    "      --hook-wait SECONDS  the end waits so long for them (else 30); then they are run again at the next start\n"
    "      --log FILE       lines go to this file, after what it has, and not to standard output; SIGHUP opens it anew\n"
    "      --times          each line and message begins with the time, as 2026-11-14T04:00:00.123Z\n"
    "      --config FILE    options from a file, one on a line: name value, or name=value, without dashes; # begins a\n"
    "                       comment. The command line comes after it\n"
    "      --no-fsync       don't force writes to disk: faster, safe against a crash but not against a power cut\n"
    "      --list           list open transfers, and end\n"
    "      --close ID       close a transfer, and end; ID as printed: 31, id=31, 0x1f or 0000001f.5.part\n"
    "  -q, --quiet          report complete files only\n"
    "      --json           print each line, also of --list, as one JSON object (share/saratoga/link.schema.json)\n"
    "      --no-live        no live lines; else a terminal as standard error has one for each open transfer: percent, octets,\n"
    "                       octets a second, holes, when it was last heard, its sender and its path\n"
    "      --stats          print at the end what was counted: 0 stats packets=12 octets=3456 refused=1 ..\n"
    "      --stats-every SECONDS  and each time so many seconds went by\n"
    "      --metrics FILE   the counters for Prometheus, by node_exporter's textfile collector, which wants a name that ends\n"
    "                       in .prom; replaced whole every 5 seconds, and at the end\n"
    "  -h, --help           this text\n"
    "      --version        the library's version\n"
    "An option's value may also follow after =, as in --idle=1. After -- comes the pass file.\n";

static const char more_help[] =
    "\n"
    "In DIR:  0000001f.5.part is transfer 31, not complete, in file 5; 0000001f.5.page a complete one, 0000001f.5.meta its\n"
    "         path, times and checksum, 0000001f.5.sheet a page of text about it to be signed, 0000001f.5.differs a\n"
    "         complete one whose MD5 differs, 0000001f.5.aside what a transfer had that was ended. File numbers are never\n"
    "         used twice. area is the transfer table (docs/LINK.md); Ids on lines of their own written to close close\n"
    "         transfers. Names never come from paths in packets.\n"
    "Output:  one line for each packet, its number first, as replay prints them, and N complete id=31 length=5\n"
    "         file=0000001f.5.page .. md5=agrees mtime=.. ctime=.. checksum=.. path=.. once the file is on disk and was\n"
    "         checked; md5=not-checked where its checksum is no MD5. One that differs is an error: N differs id=31 ..,\n"
    "         a message, status 3 at the end, and no .page. After a restart complete files are checked and reported\n"
    "         again. For a BEACON N on-air send=willing receive=not-now free=KIB largest-width=64\n"
    "         endpoint=\"node 3\" when its endpoint is first heard, and when it changes.\n"
    "Service: NOTIFY_SOCKET and WATCHDOG_USEC are heard; see saratoga-link@.service.\n"
    "Status:  0, 1 where something can't be read or written (packets that were lost for it and lines of output too), or\n"
    "         a hook failed, 2 for a wrong option, 3 where the MD5 of a complete file differs.\n";

static const char *config;         /* the file whose line is taken; NULL: the command line */
static unsigned config_line;

void stand_at(const char *file, unsigned line)
{
    config = file;
    config_line = line;
}

/* An argument is whatever was typed, so it is escaped. */
static void wrong_usage(const char *what, const char *argument)
{
    char shown[256];
    escape(shown, sizeof shown, (const uint8_t *)argument, strlen(argument));
    fprintf(stderr, "saratoga-link: ");
    if (config != NULL)
        fprintf(stderr, "%s:%u: ", config, config_line);
    fprintf(stderr, "%s%s; see saratoga-link --help\n", what, argument[0] == ' ' ? argument : shown);
    exit(2);
}

void wrong_line(const char *what)
{
    wrong_usage(what, "");
}

static uint64_t number_of(const char *text, const char *option, uint64_t most)
{
    char *end;
    errno = 0;
    unsigned long long value = strtoull(text, &end, 10);
    if (text[0] < '0' || text[0] > '9' || *end != '\0' || errno != 0 || value > most)
        wrong_usage(option, " takes a number");
    return value;
}

/* Options without a value. Gives 0 where it is none of them. */
static int take_switch(const char *name)
{
    static const struct {
        const char *name, *letter;
        int *sets, value;
    } switches[] = {
        {"--no-fsync", "", &options.force, 0},           {"--quiet", "-q", &options.quiet, 1},
        {"--any-peer", "", &options.any_peer, 1},        {"--make-room", "", &options.make_room, 1},
        {"--repair-status", "", &options.repair_status, 1}, {"--list", "", &options.to_list, 1},
        {"--json", "", &options.json, 1},                {"--no-live", "", &options.no_live, 1},
        {"--stats", "", &options.stats, 1},
        {"--times", "", &options.times, 1},
    };
    if (strcmp(name, "--version") == 0) {
        printf("saratoga-link (saratoga) %s\n", SARATOGA_VERSION);
        exit(fflush(stdout) == 0 ? 0 : 1);
    }
    if (strcmp(name, "-h") == 0 || strcmp(name, "--help") == 0) {
        fputs(help, stdout);
        fputs(around_help, stdout);
        fputs(more_help, stdout);
        exit(fflush(stdout) == 0 ? 0 : 1);
    }
    for (size_t i = 0; i < sizeof switches / sizeof switches[0]; i++) {
        if (strcmp(name, switches[i].name) == 0 || strcmp(name, switches[i].letter) == 0) {
            *switches[i].sets = switches[i].value;
            return 1;
        }
    }
    return 0;
}

static int takes_value(const char *name)
{
    static const char *const names[] = {"-d",        "--directory", "--udp",      "--address", "--peer",
                                        "--idle",    "--largest",   "--most-kept", "--close",  "--settings",
                                        "--answers", "--linger",    "--forget-after", "--receive-buffer",
                                        "--stats-every", "--metrics", "--on-complete", "--hooks", "--hook-wait", "--log", "--config"};
    for (size_t i = 0; i < sizeof names / sizeof names[0]; i++)
        if (strcmp(name, names[i]) == 0)
            return 1;
    return 0;
}

/* Options that are a number. Gives 0 where it is none of them. */
static int take_number(const char *name, const char *value)
{
    static const struct {
        const char *name;
        uint64_t *sets, least, most, times;
    } numbers[] = {
        {"--idle", &options.idle, 0, LONGEST, 1},           {"--largest", &options.largest, 0, UINT64_MAX, 1},
        {"--most-kept", &options.most_kept, 0, UINT64_MAX, 1}, {"--linger", &options.linger, 0, LONGEST, 1000},
        {"--forget-after", &options.forget, 0, LONGEST, 1000}, {"--answers", &options.answers, 1, 1000000, 1},
        {"--receive-buffer", &options.buffer, 1, 1 << 30, 1}, {"--stats-every", &options.stats_every, 1, LONGEST, 1000},
        {"--hooks", &options.hooks, 1, MOST_HOOKS, 1},
        {"--hook-wait", &options.hook_wait, 0, LONGEST, 1000},
    };
    for (size_t i = 0; i < sizeof numbers / sizeof numbers[0]; i++) {
        if (strcmp(name, numbers[i].name) == 0) {
            *numbers[i].sets = numbers[i].times * number_of(value, name, numbers[i].most);
            if (*numbers[i].sets < numbers[i].least)
                wrong_usage(name, " takes a number that isn't 0");
            return 1;
        }
    }
    return 0;
}

/* Options that are kept as they are. Gives 0 where it is none of them. */
static int take_text(const char *name, const char *value)
{
    static const struct {
        const char *name, **sets;
    } texts[] = {{"--address", &options.host}, {"--settings", &options.settings}, {"--on-complete", &options.hook},
                 {"--log", &options.log}, {"--metrics", &options.metrics}};
    for (size_t i = 0; i < sizeof texts / sizeof texts[0]; i++) {
        if (strcmp(name, texts[i].name) == 0) {
            *texts[i].sets = value;
            return 1;
        }
    }
    return strcmp(name, "--config") == 0; /* read before */
}

static void take_value(const char *name, const char *value)
{
    if (take_number(name, value)) {
        return;
    } else if (strcmp(name, "--udp") == 0) {
        number_of(value, name, 65535);
        options.port = value;
    } else if (strcmp(name, "--peer") == 0) {
        if (!name_peer(value))
            wrong_usage("--peer takes a numeric address or a network, 32 at most, not ", value);
    } else if (strcmp(name, "--close") == 0) {
        if (!id_of_text(value, &options.id_to_close, &options.file_to_close))
            wrong_usage("--close takes an Id, as 31, id=31, 0x1f or 0000001f.5.part, not ", value);
        options.to_close = value;
    } else if (!take_text(name, value)) {
        options.directory = value;
    }
}

/* A line of --config. What the program is to do now stands on the command line. */
void take_from_file(const char *name, const char *value)
{
    static const char *const not_here[] = {"--list", "--close", "--config", "--help", "--version"};
    for (size_t i = 0; i < sizeof not_here / sizeof not_here[0]; i++)
        if (strcmp(name, not_here[i]) == 0)
            wrong_usage(name, " belongs on the command line");
    if (takes_value(name) && value == NULL)
        wrong_usage(name, " takes a value");
    else if (takes_value(name))
        take_value(name, value);
    else if (!take_switch(name))
        wrong_usage("no such option: ", name);
    else if (value != NULL)
        wrong_usage(name, " takes no value");
}

/* What a file says of receiving isn't meant for --list and --close, and PASS stands in the place of its --udp. */
static void pass_over(const struct options *from_file)
{
    int asks = options.to_list || options.to_close != NULL;
    if ((asks || options.pass != NULL) && options.port == from_file->port)
        options.port = NULL;
    if (asks && options.settings == from_file->settings)
        options.settings = NULL;
    if (asks && options.log == from_file->log)
        options.log = NULL;
    if (asks && options.metrics == from_file->metrics)
        options.metrics = NULL;
    if (asks && options.stats_every == from_file->stats_every)
        options.stats_every = 0;
    if (asks && from_file->stats)
        options.stats = 0;
    if (asks)
        options.times = 0;
}

/* What goes with what. */
static void judge(void)
{
    if ((options.port != NULL) + (options.pass != NULL) + (options.to_close != NULL) + options.to_list != 1)
        wrong_usage("one of PASS, --udp, --list and --close is needed", "");
    if (options.port != NULL && options.any_peer == (options.peer_count > 0))
        wrong_usage("--udp needs either --peer or --any-peer", "");
    if (options.settings != NULL && (options.to_list || options.to_close != NULL))
        wrong_usage("--settings goes with PASS or --udp", "");
    if ((options.stats || options.stats_every > 0 || options.metrics != NULL) && (options.to_list || options.to_close != NULL))
        wrong_usage("--stats, --stats-every and --metrics go with PASS or --udp", "");
    if (options.log != NULL && (options.to_list || options.to_close != NULL))
        wrong_usage("--log goes with PASS or --udp", "");
}

/* An option, whose value may stand in the next argument. Gives the place of the last that it took. */
static int take_option(int count, char **arguments, int i)
{
    char name[32] = "";
    const char *argument = arguments[i];
    size_t length = strcspn(argument, "=");
    if (length < sizeof name)
        memcpy(name, argument, length);
    int has_value = argument[length] == '=' && argument[1] == '-';
    if (!takes_value(name) || (argument[length] == '=' && !has_value))
        wrong_usage("no such option: ", argument);
    if (!has_value && i + 1 == count)
        wrong_usage(argument, " takes a value");
    take_value(name, has_value ? argument + length + 1 : arguments[++i]);
    return i;
}

static void take_pass(char *name)
{
    if (options.pass != NULL)
        wrong_usage("more than one pass: ", name);
    options.pass = name;
}

/* Files of options are read first, so that the command line has the last word. */
static void take_files(int count, char **arguments)
{
    for (int i = 1; i < count && strcmp(arguments[i], "--") != 0; i++) {
        const char *name = arguments[i];
        if (strncmp(name, "--config=", 9) == 0)
            read_config(name + 9);
        i += takes_value(name) && i + 1 < count;
        if (strcmp(name, "--config") == 0 && arguments[i] != name)
            read_config(arguments[i]);
    }
}

void take_arguments(int count, char **arguments)
{
    int only_pass = 0;
    take_files(count, arguments);
    const struct options from_file = options;
    for (int i = 1; i < count; i++) {
        char *argument = arguments[i];
        if (only_pass || argument[0] != '-' || argument[1] == '\0')
            take_pass(argument);
        else if (strcmp(argument, "--") == 0)
            only_pass = 1;
        else if (!take_switch(argument))
            i = take_option(count, arguments, i);
    }
    pass_over(&from_file);
    judge();
}
