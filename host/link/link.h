/*
 * What the files of the link program share. It is a shell over the engine (include/saratoga_engine.h): the engine says what is written,
 * told and reported, and when; the shell does it and says how it ended.
 *
 *     link.c      start and end
 *     options.c   command line
 *     source.c    packets of a pass
 *     udp.c       packets of a UDP socket; peers.c says which senders are heard
 *     packets.c   what is done with a packet
 *     answers.c   what is sent
 *     shell.c     the engine's state, and what it says is next
 *     sync.c      a sync: files, then the area's file
 *     worker.c    a thread that does one job at a time
 *     area.c      the area's file
 *     pages.c     a complete file: checked, with its sheet and its name, reported
 *     closing.c   the end of a transfer
 *     start.c     what an earlier run left
 *     files.c     files of a transfer: .part, .page, .differs, .aside, .meta and .sheet
 *     disk.c      plain files: written, forced to disk, replaced; and where there is no room
 *     meta.c      METADATA as text, and as a packet again
 *     check.c     a complete file against the checksum in METADATA
 *     sheet.c     what the printer signs
 *     onair.c     who is on the air: BEACONs
 *     control.c   what an operator asks of a program that runs
 *     settings.c  the plant's settings file
 *     config.c    a file of options
 *     hook.c      a program of the operator's, run for each page
 *     notify.c    what a service manager is told
 *     log.c       lines in a file, and their times
 *     text.c      octets of packets made fit to be printed; output.c lines and messages, json.c lines as JSON
 *     progress.c  how far a transfer is, for --list and for live.c, lines on a terminal that follow it
 *     counters.c  what is counted, and metrics.c the same for Prometheus
 */
#ifndef LINK_H
#define LINK_H

#ifndef _GNU_SOURCE
#define _GNU_SOURCE /* recvmmsg, struct in_pktinfo */
#endif
#define _FILE_OFFSET_BITS 64

#include <dirent.h>
#include <inttypes.h>
#include <netinet/in.h>
#include <signal.h>
#include <stddef.h>
#include <stdint.h>
#include <sys/socket.h>

#include "saratoga_engine.h"

#define MOST_META 4640             /* octets of METADATA as text: a path of 1,023 octets, four for each, and the rest */
#define MOST_SHEET 6144
#define MOST_PEERS 32
#define MOST_FILES 64              /* transfers whose files are known: those open, and those closed since the last good sync */
#define NAME_OCTETS 56
#define TICK 200                   /* milliseconds: the operator is heard at least so often */
#define INTERVAL 1000              /* milliseconds between two syncs that nobody waits for */
#define MOST_REFUSALS 27           /* their numbers are below */
#define MOST_COUNTED 64            /* peers that are counted one by one */
#ifndef METRICS_EVERY              /* milliseconds between two files for Prometheus; tests build it with less */
#define METRICS_EVERY 5000
#endif
#define SENDER_TEXT 96
#define START_OF_2000 946684800    /* seconds from the start of 1970 */
#define MOST_HOOKS 64              /* that run at a time */

/* A peer's network: an address of 16 octets, IPv4 as ::ffff:a.b.c.d, how many of its bits count, and its scope. */
struct network {
    uint8_t address[16];
    unsigned bits;
    uint32_t scope;
};

/* Options, set once by options.c. */
struct options {
    const char *directory;         /* where everything is written */
    int force;                     /* force writes to disk: without it only a power cut can do harm */
    int quiet;                     /* report complete pages only */
    int make_room;                 /* a full table: the transfer heard longest ago goes */
    int repair_status;             /* refusal 16 is answered with the STATUS of the transfer */
    uint64_t largest;              /* octets of the largest file that is taken */
    uint64_t most_kept;            /* transfers whose files may be in the directory */
    uint64_t linger;               /* milliseconds that a reported page stays open */
    uint64_t forget;               /* milliseconds until a silent transfer is given up; 0: never */
    uint64_t answers;              /* STATUS to one peer in a second, at most */
    uint64_t buffer;               /* octets of the receive buffer */
    int any_peer;
    unsigned peer_count;
    struct network peers[MOST_PEERS];
    /* what is asked for */
    const char *port, *host, *pass, *to_close, *settings;
    const char *hook;              /* the program that is run for each page; NULL: none */
    const char *log;               /* where lines go; NULL: to standard output */
    int times;                     /* lines begin with them */
    uint64_t hooks, hook_wait;     /* that run at a time; milliseconds that the end waits for them */
    uint64_t id_to_close, file_to_close;
    uint64_t idle;                 /* seconds without a packet until the end; 0: for ever */
    int to_list;
    /* how it is shown */
    int json;                      /* lines are JSON */
    int no_live;                   /* no live lines, also on a terminal */
    int stats;                     /* counters are printed at the end */
    uint64_t stats_every;          /* and after so many milliseconds; 0: never */
    const char *metrics;           /* the file for Prometheus */
};
extern struct options options;
extern const char *const program_name;
extern volatile sig_atomic_t stopped;
void attend(void);

/* How much work a pass makes: the recordings that were accepted, and the runs that they absorbed. */
struct work {
    uint64_t recordings, absorbed;
};

/* A sender as the engine knows it: an address of 16 octets as two numbers; and a port, with the scope of the address above it. */
struct sender {
    uint64_t high, low, port;
};

/* Through which of this machine's addresses a packet came, so that its answer goes out there. */
struct route {
    int family;                    /* 0: not known */
    struct in_pktinfo four;
    struct in6_pktinfo six;
};

/* A packet off the link. */
struct packet {
    uint64_t number;
    const uint8_t *octets;
    size_t length;
    struct sender from;
    struct route route;
};

/* What the engine's slot of an Id says, where the shell needs it. */
struct slot {
    uint64_t file;
    struct sender owner;
    uint64_t named, reported, due, heard;
};

/* What the shell keeps of a transfer's files: what the engine has no word for. */
struct transfer {
    int used;
    uint64_t id, file;
    int fd;                        /* of its octets, -1 where they aren't open */
    int meta_fd;                   /* of its .meta, until that is forced to disk; else -1 */
    int written;                   /* since a sync last began */
    uint64_t size;                 /* that the file has at least: a shorter one was cut */
    const char *suffix;            /* that its octets have now: part, page, differs, aside; gone where there are none */
    int checked;                   /* its file was, and these two are known: */
    uint64_t verdict;              /* SARATOGA_AGREES, _DIFFERS or _NOT_CHECKED */
    uint8_t digest[SARATOGA_DIGEST_OCTETS]; /* of its file, where it was read to be checked */
    int has_sheet;                 /* of this program, and so of the complete file */
    int told;                      /* that its page can't get its name */
    int said;                      /* that its page differs */
    int mixed;                     /* it was told that a packet brings other octets */
    int opened_here;               /* by this program: its work is counted from its beginning */
    int heard_here;                /* a packet of it was taken by this program */
    struct work work;              /* since it was opened, or since the program began */
    struct work pending_work, synced_work; /* the same as the last sync found it, and the last good one */
    uint64_t number;               /* of the packet by which it was last heard */
    struct route route;            /* by which that came */
    uint64_t repair;               /* the STATUS of --repair-status goes out once this sync is good; 0: none */
    uint64_t put_off;              /* until when nothing is done that the engine says of it */
    int held_back;                 /* its answer is, since its sender had enough for now */
    const char *why;               /* it was closed; NULL where it is open */
    int empty;                     /* and nothing of it came */
    char *closing;                 /* the sheet for that */
    size_t closing_len;
    size_t meta_len;
    char meta[MOST_META];          /* what its .meta file holds */
};

/* output.c */
extern int socket_fd;              /* -1: of a pass, whose answers are only shown, and which waits for the reader of its lines */
extern size_t (*form_of_line)(char *out, size_t room, const char *line, size_t length); /* another form of each line; NULL: none */
extern int (*hide_live)(int milliseconds); /* takes live lines away; gives 0 where the terminal isn't ready. NULL: there are none */
extern void (*show_live)(void);            /* and puts them back */
void open_output(void);
void die(const char *form, ...) __attribute__((format(printf, 1, 2), noreturn));
void warn(const char *form, ...) __attribute__((format(printf, 1, 2)));
void say(uint64_t number, const char *form, ...) __attribute__((format(printf, 2, 3)));
void say_octets(uint64_t number, const char *what, const uint8_t *octets, size_t count);
void report(const char *form, ...) __attribute__((format(printf, 1, 2)));
void flush_output(void);
void finish_output(void);
int open_terminal(void);
int line_is_half_written(void);
int output_was_lost(void);

/* text.c */
size_t escape(char *out, size_t room, const uint8_t *octets, size_t count);
size_t quote(char *out, size_t room, const uint8_t *octets, size_t count);
int id_of_text(const char *text, uint64_t *id, uint64_t *file);

/* json.c */
size_t json_of_line(char *out, size_t room, const char *text, size_t length);

/* progress.c */
struct progress {
    uint64_t percent, holes;
    char sender[SENDER_TEXT];      /* as 127.0.0.1:40000 or [::1]:40000; empty where it came from a pass */
};
struct progress progress_of(const uint8_t *snapshot, const struct saratoga_listed *one, const struct slot *slot);
uint64_t in_a_second(uint64_t octets, uint64_t milliseconds);
void list_one(const uint8_t *snapshot, const struct saratoga_listed *one, const struct slot *slot);

/* live.c */
void begin_live(void);
void draw_live(void);

/* counters.c */
struct counted_peer {
    int used;
    struct sender address;
    uint64_t packets, octets;
};
struct counters {
    uint64_t packets, octets;      /* of senders that are heard */
    uint64_t refused[MOST_REFUSALS]; /* by the library, by the refusal's number */
    uint64_t rejected;             /* by the program: too-large, too-many, of-another-sender */
    uint64_t lost, dropped, unheard; /* not stored; by the kernel; of senders that aren't heard */
    uint64_t answers, held_back, unsent;
    uint64_t good_syncs, bad_syncs;
    uint64_t complete, differing;  /* files that were reported */
    struct counted_peer peers[MOST_COUNTED], others;
};
extern struct counters counters;
void count_packet(const struct packet *p);
void count_refusal(uint64_t number);
void count_answer(struct transfer *t, int waits);
uint64_t all_refused(void);
uint64_t open_now(void);
void print_stats(void);
void tick_counters(void);
void end_counters(void);

/* metrics.c */
void begin_metrics(void);
void write_metrics(void);

/* meta.c */
void date_of(char out[32], uint64_t seconds);
size_t meta_text(char out[MOST_META], const uint8_t *packet, const struct saratoga_packet *read);
size_t meta_packet(uint8_t out[SARATOGA_METADATA_OCTETS], const char *meta, size_t meta_len);
int meta_is_of(const char *meta, size_t meta_len, const struct saratoga_listed *one);
void meta_for_report(char out[MOST_META], const struct transfer *t);

/* check.c */
struct check {
    char name[NAME_OCTETS];
    uint64_t length;
    uint8_t packet[SARATOGA_METADATA_OCTETS];
    size_t packet_len;
    int failed;                    /* the file can't be read, or hasn't its length */
    uint64_t verdict;
    uint8_t digest[SARATOGA_DIGEST_OCTETS];
};
void run_check(void *job);
void tell_difference(const struct transfer *t);
const char *verdict_text(uint64_t verdict);
int exit_status(void);

/* sheet.c */
int sheet_is_there(const struct transfer *t);
size_t page_sheet(char out[MOST_SHEET], const struct transfer *t, const struct saratoga_listed *one);
size_t closing_sheet(char out[MOST_SHEET], const struct transfer *t, const struct saratoga_listed *one, const char *why);
void write_orphan_sheet(const struct transfer *t);
void write_open_sheets(void);

/* disk.c */
extern int directory;
extern int directory_changed;
void open_directory(void);
int lock_directory(int to_read);
DIR *list_directory(void);
int open_file(const char *name, int flags);
int write_at(int fd, const uint8_t *octets, size_t count, uint64_t offset);
int force_to_disk(int fd);
int replace_file(const char *name, const uint8_t *octets, size_t count);
int rename_file(const char *name, const char *new_name);
int remove_file(const char *name);
int is_there(const char *name);
int has_name(int fd, const char *name);
int file_has_length(const char *name, uint64_t length);
int64_t length_of(const char *name);
int is_lack_of_room(int error);
void something_is_lost(void);
int something_was_lost(void);
void room_is_lacking(const char *what, int error);
void there_is_room(void);

/* files.c */
extern struct transfer transfers[MOST_FILES];
void make_name(char name[NAME_OCTETS], uint64_t id, uint64_t file, const char *suffix);
void name_of(char name[NAME_OCTETS], const struct transfer *t, const char *suffix);
void name_of_file(char name[NAME_OCTETS], const struct transfer *t);
const char *parse_name(const char *name, uint64_t *id, uint64_t *file);
struct transfer *transfer_of(uint64_t id, uint64_t file);
struct transfer *new_transfer(uint64_t id, uint64_t file);
void forget(struct transfer *t);
int may_keep_more(void);
int make_files(struct transfer *t);
int read_meta(struct transfer *t);
int file_of(struct transfer *t);
int is_where_it_was(const struct transfer *t);
int is_cut(const struct transfer *t);
int rename_to(struct transfer *t, const char *suffix);
void set_aside(struct transfer *t);
void remove_empty(const struct transfer *t);
const char *fault_of(struct transfer *t, const struct saratoga_listed *one, const struct slot *slot);

/* area.c */
#define AREA_HEAD_OCTETS 48
#define AREA_FILE_OCTETS (AREA_HEAD_OCTETS + SARATOGA_ENGINE_SNAPSHOT)
struct area {
    uint64_t sync, next;           /* the last sync's number, and a file number above all that were used */
    uint8_t snapshot[SARATOGA_ENGINE_SNAPSHOT];
};
int read_area(struct area *out);
int write_area(const struct area *area);
int slot_of(const uint8_t *snapshot, uint64_t id, struct slot *out);

/* worker.c */
struct worker;
extern struct worker syncer, pager; /* one forces to disk, one reads complete files and stores sheets */
extern int with_threads;
void start_worker(struct worker *worker, void (*run)(void *job), void *job);
int is_at_work(const struct worker *worker);
int is_done(struct worker *worker);
void wait_for(struct worker *worker);
int wake_descriptor(void);
void hush_wake(void);

/* shell.c */
#define SYNCED (2 * SARATOGA_ENGINE_SNAPSHOT)
extern uint8_t state[SARATOGA_ENGINE_STATE];
uint64_t now_ms(void);
void set_clock(uint64_t least);
struct saratoga_listed listed(uint64_t id);
int is_open(uint64_t id, struct slot *slot);
struct transfer *open_transfer(uint64_t id);
int is_live(const struct transfer *t);
void drive(void);
int drive_to_the_end(void);
int is_ending(void);
int most_wait(void);

/* sync.c */
void begin_numbers(const struct area *area);
int reserve(uint64_t file);
int reserve_first(void);
int keep_exact_number(void);
int begin_sync(void);
int finish_sync(void);
void want_sync(void);
int sync_is_wanted(void);
uint64_t covering_sync(void);
uint64_t last_good_sync(void);
int last_sync_was_good(void);

/* pages.c */
int is_ready(struct transfer *t);
int give_name(struct transfer *t);
void name_page(const struct saratoga_next *due);
void has_no_name(struct transfer *t);
void report_line(struct transfer *t, const struct saratoga_listed *one);
void report_page(struct transfer *t);
void store_closing_sheet(struct transfer *t);
int finish_page(void);

/* closing.c */
void prepare_closing(struct transfer *t, const struct saratoga_listed *one, const char *why, int keeps);
void forget_closing(struct transfer *t);
void has_closed(uint64_t number, struct transfer *t, const struct saratoga_listed *one, const char *why);
void has_reopened(struct transfer *t);
int close_transfer(uint64_t number, struct transfer *t, int spoilt, const char *why);
void close_lost(struct transfer *t);
int settle(void);
int make_room(uint64_t number);

/* start.c */
void take_up(void);

/* answers.c */
void send_failure(uint64_t number, const struct sender *to, const struct route *route, uint64_t id, uint64_t code);
void answer_due(uint64_t id);
int send_repairs(void);
void tell_unsent(void);

/* packets.c */
void take_packet(const struct packet *p);
void store_kept(void);

/* onair.c */
void hear_beacon(const struct packet *p, const struct saratoga_packet *read);
void count_beacons(void);

/* control.c */
void hear_operator(void);
void list_transfers(void);
void ask_to_close(uint64_t id, uint64_t file);
void close_asked(uint64_t id, uint64_t file);
int tick_is_due(void);

/* settings.c */
void tell_settings(const char *name);

/* source.c */
void from_pass(const char *name);

/* udp.c */
void from_socket(const char *host, const char *port, uint64_t idle);

/* peers.c */
int name_peer(const char *text);
int is_heard(const struct sender *from);
void sender_of(struct sender *out, const struct sockaddr_storage *address);
socklen_t address_of(struct sockaddr_storage *out, const struct sender *to, int family);
void show_address(const struct sockaddr_storage *address, socklen_t length, char host[64], char port[16]);
void show_sender(const struct sender *from, char host[64], char port[16]);

/* options.c */
void take_arguments(int count, char **arguments);
void take_from_file(const char *name, const char *value);
void stand_at(const char *file, unsigned line);
void wrong_line(const char *what);

/* config.c */
void read_config(const char *file);

/* log.c */
extern volatile sig_atomic_t hung_up;
void open_log(void);
void look_at_log(void);
size_t time_of_line(char *out, size_t room);

/* notify.c */
void find_manager(void);
int has_manager(void);
void tell_ready(const char *form, ...) __attribute__((format(printf, 1, 2)));
void tell_manager(void);
int manager_wait(int most);
void tell_stopping(void);

/* hook.c */
void prepare_hooks(void);
int owe_hook(struct transfer *t);
void owe_again(const struct transfer *t);
void take_up_hooks(void);
void look_at_hooks(void);
void finish_hooks(void);

/*
 * Tests build the program with LINK_CUT_POINTS, to end it between two writes, or inside one, at the place whose number
 * stands in the environment. Else these are nothing.
 */
#ifdef LINK_CUT_POINTS
void cut_point(const char *where);
#define AT_ONCE(count) ((count) % 2 != 0 ? (count) : (count) / 2)
#else
#define cut_point(where) ((void)0)
#define AT_ONCE(count) (count)
#endif

#endif
