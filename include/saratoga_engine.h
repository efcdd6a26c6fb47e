/*
 * saratoga_engine: what a program around the library decides, proved: what is written, what is told, and when. A page that
 * it lets be reported is whole on disk, whatever crashes (docs/ENGINE.md has what is proved, and what must be believed).
 *
 * The engine does nothing itself. A program (the shell) tells it what happened, does what it says, and says how that ended:
 *
 *   METADATA came   saratoga_engine_meet says what to do; the shell makes the files; saratoga_engine_opened
 *   DATA came       saratoga_engine_look says what to do from an offset on; the shell writes or compares that stretch;
 *                   saratoga_engine_stored; and again from `to` on, until it is over
 *   at any time     saratoga_engine_next, until it says nothing: a page gets its name (saratoga_engine_named), an answer is
 *                   due (saratoga_engine_tell), a page is reported (saratoga_engine_reported), an Id is closed
 *                   (saratoga_engine_close), a sync begins (saratoga_engine_sync)
 *   a sync ended    saratoga_engine_synced
 *   a start         saratoga_engine_start, from what the last sync saved
 *
 * A sync of number n is done in this order: the files of all transfers are forced to disk, and the directory with their names; then
 * the SARATOGA_ENGINE_SNAPSHOT octets of the state from SARATOGA_ENGINE_PENDING on replace what was saved before; then that name
 * is forced to disk. It may run beside everything else, on a copy of those octets.
 *
 * A file that is to be set aside is renamed away, but only once a sync that was begun after its transfer ended came back good: until
 * then a crash or a bad sync may open the transfer again, with that file. And only where the file still has the .part name that it was
 * made under: a page that has its final name keeps it.
 *
 * In every answer the fields that have no meaning for its kind are 0.
 *
 * What include/saratoga.h says of answers, refusals, pointers and stack holds here too. A state that is no engine's is refused with
 * 22 by every function, before anything else is looked at; a refusal changes nothing.
 */
#ifndef SARATOGA_ENGINE_H
#define SARATOGA_ENGINE_H

#include "saratoga.h"

#ifdef __cplusplus
extern "C" {
#endif

/* Octets of a snapshot, of the state, and where in the state the snapshot begins that a sync saves. */
#define SARATOGA_ENGINE_SNAPSHOT 18824
#define SARATOGA_ENGINE_STATE 56520
#define SARATOGA_ENGINE_PENDING 18824

/* ---- starting */

/*
 * Starts from a snapshot that was saved, or from SARATOGA_ENGINE_SNAPSHOT zero octets where nothing was. `sync` is the number of the last
 * sync, or 0. `file` is a file number above every one that was used under this directory, also by files that a crash took: the engine
 * never uses a number twice, and relies on the shell for those of earlier runs.
 *
 * Order of refusals: 20 (the state is too short), 22 (what was saved is too short, or holds no table), 21 (`sync` above 2^64 - 2).
 */
struct saratoga_done saratoga_engine_start(uint8_t *state, size_t state_len, const uint8_t *saved, size_t saved_len,
                                           uint64_t sync, uint64_t file);

/* ---- METADATA */

#define SARATOGA_MEET_REFUSED 0
#define SARATOGA_MEET_WAIT 1  /* the page of the open transfer is complete and not reported yet: counts as lost */
#define SARATOGA_MEET_KEPT 2  /* the METADATA of the open transfer: its sender is the owner from now on */
#define SARATOGA_MEET_ENDED 3 /* its sender has ended the transfer: `file` is set aside once saratoga_engine_opened was called */
#define SARATOGA_MEET_MAKE 4  /* make the files of number `file`; where `ends` is 1, file `old` is set aside once it was done */

struct saratoga_meeting {
    uint64_t number, code;
    uint64_t kind;      /* SARATOGA_MEET_... */
    uint64_t id;        /* of MAKE */
    uint64_t file;      /* of KEPT, ENDED and MAKE */
    uint64_t ends, old; /* of MAKE */
};

/* What is to be done for METADATA. Nothing changes. Order of refusals: 22, those of saratoga_open; 12 where an Id is ended that is not open. */
struct saratoga_meeting saratoga_engine_meet(const uint8_t *state, size_t state_len, const uint8_t *packet,
                                             size_t packet_len);

/*
 * It was done: `well` is 0 where files could not be made. Then nothing changes, and the same file number is told again for the next files,
 * maybe those of another Id: they are made over whatever the attempt left. `time` counts in the shell's own unit; high, low and port are
 * the sender.
 */
struct saratoga_meeting saratoga_engine_opened(uint8_t *state, size_t state_len, uint64_t time, uint64_t high, uint64_t low,
                                               uint64_t port, const uint8_t *packet, size_t packet_len, uint64_t well);

/* ---- DATA */

#define SARATOGA_LOOK_REFUSED 0
#define SARATOGA_LOOK_STRANGER 1 /* it is not of the sender that owns the transfer: failure 6 */
#define SARATOGA_LOOK_OVER 2     /* nothing of the packet is left from that offset on */
#define SARATOGA_LOOK_COMPARE 3  /* compare the octets from `from` up to `to` with the file; the packet has them from `start` on */
#define SARATOGA_LOOK_WRITE 4    /* write them into the file */

struct saratoga_look {
    uint64_t number, code;
    uint64_t kind; /* SARATOGA_LOOK_... */
    uint64_t id;   /* this and the others: of COMPARE and WRITE */
    uint64_t file;
    uint64_t from, to;
    uint64_t start;
};

/* What is to be done for DATA from an offset of the file on, 0 for all of it. Nothing changes. Order of refusals: as saratoga_record. */
struct saratoga_look saratoga_engine_look(const uint8_t *state, size_t state_len, uint64_t high, uint64_t low,
                                          uint64_t port, const uint8_t *packet, size_t packet_len, uint64_t from);

/*
 * It was done: `well` is 0 where the write failed, or the octets differ. A write that failed changes nothing. Octets that differ end
 * the transfer, unless its page is complete and not reported: then nothing changes. Where it ended, saratoga_engine_look refuses the
 * packet with 12 from then on: set its file aside, and send failure 6. So where the file can't be read for a comparison, do not call
 * this: leave the rest of the packet, which counts as lost.
 */
struct saratoga_look saratoga_engine_stored(uint8_t *state, size_t state_len, uint64_t time, uint64_t high, uint64_t low,
                                            uint64_t port, const uint8_t *packet, size_t packet_len, uint64_t from,
                                            uint64_t well);

/* ---- what is due */

#define SARATOGA_NEXT_REFUSED 0
#define SARATOGA_NEXT_NOTHING 1
#define SARATOGA_NEXT_ANSWER 2 /* saratoga_engine_tell, and send what it wrote */
#define SARATOGA_NEXT_NAME 3   /* check the page, and give it its final name, then saratoga_engine_named (see below) */
#define SARATOGA_NEXT_REPORT 4 /* say that the page is complete, then saratoga_engine_reported (see below) */
#define SARATOGA_NEXT_CLOSE 5  /* saratoga_engine_close: it lingered long enough, or was not heard for too long */
#define SARATOGA_NEXT_SYNC 6   /* saratoga_engine_sync */

struct saratoga_next {
    uint64_t number, code;
    uint64_t kind;   /* SARATOGA_NEXT_... */
    uint64_t id;     /* of ANSWER, NAME, REPORT and CLOSE */
    uint64_t file;   /* of NAME and REPORT */
    uint64_t length; /* of NAME and REPORT */
};

/*
 * What is to be done next. Nothing changes by asking. `interval` is the time between two syncs that nobody waits for, `linger` how long a
 * reported page stays open after it was last heard, and `forget` how long a transfer that is not complete does (0: for ever).
 *
 * The Ids are gone through in rising order, from `from` on; then a sync is considered, whatever `from` is. What was not done is said
 * again: a name that can't be given would stand before all later Ids and every sync. So where something could not be done for Id i, ask
 * again with from = i + 1; and begin with from = 0 at the next turn.
 *
 * Of one Id the name comes first, then the answer, the report, and the end. Check the MD5 of the page when its name is due: where it
 * differs, saratoga_engine_close with `spoilt` instead of the name. So no answer that is due says of such a page that it is complete.
 * The page may have its name already: after a restart or a bad sync the name is given anew. For the same reason a page can be reported
 * twice: where a crash or a bad sync came after the report, and before it was saved.
 */
struct saratoga_next saratoga_engine_next(const uint8_t *state, size_t state_len, uint64_t time, uint64_t interval,
                                          uint64_t linger, uint64_t forget, uint64_t from);

struct saratoga_letter {
    uint64_t number, code;
    uint64_t size;            /* octets written */
    uint64_t high, low, port; /* to whom */
};

/* Writes the STATUS of an Id as of the last good sync, and counts it as sent. Order of refusals: 22, those of saratoga_write_status. */
struct saratoga_letter saratoga_engine_tell(uint8_t *state, size_t state_len, uint64_t id, uint8_t *out, size_t out_len);

/* The page of an Id got its name, or did not (`well` 0). */
struct saratoga_done saratoga_engine_named(uint8_t *state, size_t state_len, uint64_t id, uint64_t well);

/* The page of an Id was reported. */
struct saratoga_done saratoga_engine_reported(uint8_t *state, size_t state_len, uint64_t id);

#define SARATOGA_CLOSE_REFUSED 0
#define SARATOGA_CLOSE_WAIT 1 /* the page is complete and not reported yet: nothing is closed */
#define SARATOGA_CLOSE_GONE 2

struct saratoga_closed {
    uint64_t number, code;
    uint64_t kind; /* SARATOGA_CLOSE_... */
    uint64_t file; /* of GONE: set aside, unless the page has its final name */
};

/*
 * Closes an Id, by the operator or since saratoga_engine_next said so. With `spoilt` not 0 also where the page is complete and not reported:
 * its octets are not what its METADATA says (saratoga_check_md5), or its file is gone. Order of refusals: 22, 12.
 */
struct saratoga_closed saratoga_engine_close(uint8_t *state, size_t state_len, uint64_t id, uint64_t spoilt);

/* ---- syncs */

struct saratoga_sync {
    uint64_t number, code;
    uint64_t sync; /* its number, or 0 where none began: one is under way */
};

/* A sync begins: the pending snapshot is what is now. */
struct saratoga_sync saratoga_engine_sync(uint8_t *state, size_t state_len, uint64_t time);

/*
 * The sync of a number came back. Good: what it saved may be told. Bad (`good` 0): what was recorded since the last good one counts
 * as lost. Of any number but that of the sync under way nothing changes.
 */
struct saratoga_done saratoga_engine_synced(uint8_t *state, size_t state_len, uint64_t sync, uint64_t good);

#ifdef __cplusplus
}
#endif

#endif
