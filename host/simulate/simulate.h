/*
 * What the files of the simulation share: chance, a disk, a network with its senders, the shell that is tried, and the judge. A world is
 * one run of them from one seed.
 */
#ifndef SIMULATE_H
#define SIMULATE_H

#include "engine.h"

enum { MOST_LENGTH = 640, MOST_PACKET = 2200, MOST_METADATA = 128, MOST_FILES = 4096, MOST_VERSIONS = 8 };

struct address {
    uint64_t high, low, port;
};

/* What a world is like: chances in 1/10000, times in the shell's own unit. */
struct world {
    uint64_t loss, repeat, reorder, corrupt, spoof;
    uint64_t stop, write_fails, sync_fails, make_fails, name_fails;
    uint64_t close, spoilt;
    uint64_t interval, linger, forget;
    uint64_t transfers, ids, longest, payload, md5;
    uint64_t again; /* after so long METADATA is sent again */
    int calm; /* nothing is lost, fails or stops any more */
};
extern struct world world;
extern uint64_t now; /* the time */

/* How often what happened. */
enum {
    CRASHES, OPENINGS, WRITTEN, COMPARED, OTHER_OCTETS, TOLD, GOOD_SYNCS, BAD_SYNCS, SPOILT, REPORTS, REPORTED_AGAIN, COMPLETE_SPOILT,
    COUNTED
};
extern uint64_t counted[COUNTED];

/* ---- simulate.c: chance, traces and the end */
uint64_t below(uint64_t limit);
int happens(uint64_t chance); /* never where the world is calm */
void trace(const char *format, ...);
_Noreturn void violated(const char *rule, const char *format, ...);
_Noreturn void machine_stops(void); /* the machine stops here; disk.c calls it */
void sync_thread_runs(void);        /* a step of the sync that is under way may come in between */

/* ---- disk.c: writes that are kept or lost, in whole or in part, until what they are in was forced to disk */
enum part { OCTETS, META, MADE, NAMED, ASIDE, SAVED }; /* of a file; its names and the saved snapshot's are the directory's */

struct file {
    uint64_t number;
    uint8_t seen[MOST_LENGTH]; /* what a program reads */
    uint8_t safe[MOST_LENGTH], is_safe[MOST_LENGTH];
    uint8_t meta[MOST_METADATA];
    size_t meta_len;
    uint8_t has[SAVED], has_safe[SAVED]; /* by part, from META on: as a program sees it, and for good */
};

struct version { /* a snapshot that was saved, or is about to be */
    uint8_t octets[SARATOGA_ENGINE_SNAPSHOT];
    uint64_t number;
    int is_used, is_forced;
};

void disk_clear(void);
int disk_make(uint64_t file, const uint8_t *metadata, size_t size);
int disk_write(uint64_t file, uint64_t from, const uint8_t *octets, uint64_t count);
int disk_is_equal(uint64_t file, uint64_t from, const uint8_t *octets, uint64_t count);
int disk_name(uint64_t file);
void disk_aside(uint64_t file);
int disk_sync_file(uint64_t file);
int disk_sync_directory(void);
int disk_write_saved(const uint8_t *snapshot, uint64_t number);
int disk_sync_saved(void);
int disk_replace_saved(void);
uint64_t disk_next_start(void); /* 1, 2, 3 and so on: kept on disk, and forced there before it is given */
const struct version *disk_saved(void);
const struct file *disk_file(size_t index); /* NULL after the last; set aside ones too */
struct file *disk_find(uint64_t file);
void disk_crash(void);
/* For the judge: the octets that are there whatever a crash takes now, -1 for others; whether a part is; and what might be saved. */
void disk_safe_octets(const struct file *file, int16_t *octets);
int disk_safe_part(const struct file *file, enum part part);
int disk_may_be_saved(int version);
extern struct version disk_versions[MOST_VERSIONS];

/* ---- network.c: senders, and packets on their way */
struct page {
    uint64_t id, width, length, key;
    uint8_t metadata[MOST_METADATA];
    size_t metadata_len;
    int is_reported;
};

void network_clear(void);
void network_sends(void);    /* a sender has the turn */
int network_arrives(void);   /* one packet arrives; 0 where none is on its way */
uint64_t network_calm(void); /* what is on its way is lost; one sender for each Id goes on; gives how many events that may take */
int network_is_done(void);   /* the pages of all who go on were reported */
uint8_t page_octet(const struct page *page, uint64_t offset);
struct page *page_of(const uint8_t *metadata, size_t size);
void network_answers(const struct address *to, const uint8_t *packet, size_t size);

/* ---- shell.c: what is tried */
void shell_start(void);
void shell_packet(const struct address *from, const uint8_t *packet, size_t size);
int shell_next(void);       /* does the next thing that is due; 0 where nothing is */
int shell_sync_step(void);  /* a step of the sync under way; 0 where there is none to do */
int shell_sync_ended(void); /* tells the engine how it ended; 0 where none has */
void shell_close(uint64_t id, int spoilt);

/* ---- judge.c: the history, and what must hold of it */
extern const struct engine *tried_engine; /* first or second */
extern const struct engine judged_engine; /* the same, with the judge listening: listen.c */
void judge_clear(void);
void judge_arrival(const struct address *from, const uint8_t *packet, size_t size);
void judge_handled(void); /* the shell has done what it does for the packet */
void judge_write(uint64_t file, uint64_t offset, uint8_t octet);
void judge_name(const struct file *file);
void judge_aside(const struct file *file);
void judge_saved(int version); /* this snapshot is about to be the saved one */
void judge_status(const struct address *to, const uint8_t *packet, size_t size);
void judge_report(uint64_t id, uint64_t file, uint64_t length);
void judge_crash(void);
void judge_end(void);
/* calls, with their answers */
void judge_started(void);
void judge_opened(const struct saratoga_meeting *m, const struct address *from, const uint8_t *packet, size_t size, int well);
void judge_looked(const struct saratoga_look *l);
void judge_stored(const struct saratoga_look *l, int well);
void judge_closed(const struct saratoga_closed *closed, uint64_t id, int spoilt);
void judge_sync_begun(uint64_t sync);
void judge_sync_ended(uint64_t sync, int good);

#endif
