/*
 * A complete file: it is checked, gets its sheet and its name, and is reported. The engine says when; before a STATUS says that a file is
 * complete, it was checked too. Reading the file and storing the sheet is a worker's.
 */
#include "link.h"

#include <errno.h>
#include <string.h>

static struct {
    uint64_t id, file;
    int is_check;                  /* else a sheet is stored */
    struct check check;
    char sheet_name[NAME_OCTETS];
    char sheet[MOST_SHEET];
    size_t sheet_len;
    int closes;                    /* the sheet is of a transfer that was closed */
    int error;
} job;

/* Nothing more of the transfer until the worker is done, or until the next try. */
static void put_off(struct transfer *t)
{
    t->put_off = now_ms() + TICK;
}

static void run_sheet(void *unused)
{
    (void)unused;
    job.error = replace_file(job.sheet_name, (const uint8_t *)job.sheet, job.sheet_len) == 0 ? 0 : errno;
}

static void run_check_job(void *unused)
{
    (void)unused;
    run_check(&job.check);
}

/* The worker's next job is of this transfer. Gives 0 where it is at work. */
static int take_worker(struct transfer *t, int is_check)
{
    put_off(t);
    if (is_at_work(&pager))
        return 0;
    job.id = t->id;
    job.file = t->file;
    job.is_check = is_check;
    job.closes = t->why != NULL;
    job.error = 0;
    return 1;
}

static void begin_check(struct transfer *t, uint64_t length)
{
    if (!take_worker(t, 1))
        return;
    name_of_file(job.check.name, t);
    job.check.length = length;
    job.check.packet_len = meta_packet(job.check.packet, t->meta, t->meta_len);
    start_worker(&pager, run_check_job, NULL);
}

static void begin_sheet(struct transfer *t, const char *text, size_t length)
{
    if (!take_worker(t, 0))
        return;
    name_of(job.sheet_name, t, "sheet");
    memcpy(job.sheet, text, length);
    job.sheet_len = length;
    start_worker(&pager, run_sheet, NULL);
}

/* The sheet of a transfer that was closed. */
void store_closing_sheet(struct transfer *t)
{
    begin_sheet(t, t->closing, t->closing_len);
}

/* Whether a complete file has its sheet. One that has its name already keeps the sheet that it has: that knows more of the work. */
static int has_its_sheet(struct transfer *t, const char *suffix)
{
    char text[MOST_SHEET];
    struct saratoga_listed one = listed(t->id);
    if (!t->has_sheet && strcmp(t->suffix, suffix) == 0 && sheet_is_there(t))
        t->has_sheet = 1;
    if (!t->has_sheet) {
        begin_sheet(t, text, page_sheet(text, t, &one));
        finish_page();
    }
    return t->has_sheet;
}

/* A file that isn't what its checksum is of: kept under another name, told, and its transfer closed so that it can be sent again. */
static void spoil(struct transfer *t)
{
    struct saratoga_listed one = listed(t->id);
    if (!has_its_sheet(t, "differs"))
        return;
    cut_point("between the sheet and the name of one that differs");
    if (rename_to(t, "differs") != 0) {
        has_no_name(t);
        return;
    }
    cut_point("between that name and the report");
    if (!t->said)
        report_line(t, &one);
    t->said = 1;
    close_transfer(t->number, t, 1, "differs");
}

static void is_gone(struct transfer *t, uint64_t length)
{
    char name[NAME_OCTETS];
    name_of_file(name, t);
    warn("%s/%s: isn't there with its %" PRIu64 " octets, or can't be read; transfer %" PRIu64
         " is closed and must begin anew",
         options.directory, name, length, t->id);
    close_transfer(t->number, t, 1, "lost");
}

/*
 * Whether a complete file is there, was checked, and is what its METADATA says. Where it wasn't checked yet, that begins; where it isn't the
 * one, its transfer is closed.
 */
int is_ready(struct transfer *t)
{
    char name[NAME_OCTETS];
    struct saratoga_listed one = listed(t->id);
    name_of_file(name, t);
    if (!has_name(t->fd, name) || !file_has_length(name, one.length)) {
        is_gone(t, one.length);
        return 0;
    }
    if (!t->checked) {
        begin_check(t, one.length);
        finish_page();
    }
    if (!t->used || t->why != NULL || !t->checked)
        return 0;
    if (t->verdict == SARATOGA_DIFFERS)
        spoil(t);
    return t->verdict != SARATOGA_DIFFERS;
}

/* A page that can't get its name waits; others go on. */
void has_no_name(struct transfer *t)
{
    char name[NAME_OCTETS];
    int error = errno;
    name_of_file(name, t);
    put_off(t);
    if (is_lack_of_room(error))
        room_is_lacking(name, error);
    else if (!t->told)
        warn("%s/%s: can't get its name as a complete file, and stays: %s", options.directory, name, strerror(error));
    if (!is_lack_of_room(error))
        something_is_lost();
    t->told = 1;
}

/* Gives a complete file that was checked its sheet and its name, unless it has them. Gives -1 where it must wait for that, 0 where it can't. */
int give_name(struct transfer *t)
{
    if (!has_its_sheet(t, "page"))
        return -1;
    cut_point("between the sheet and the page's name");
    if (rename_to(t, "page") == 0)
        return 1;
    has_no_name(t);
    return 0;
}

void name_page(const struct saratoga_next *due)
{
    struct transfer *t = transfer_of(due->id, due->file);
    int named = is_ready(t) ? give_name(t) : -1;
    if (named >= 0)
        saratoga_engine_named(state, sizeof state, due->id, (uint64_t)named);
    cut_point("between the page's name and its report");
}

/* Says that a file is complete, with its name and all that is known of it. */
void report_line(struct transfer *t, const struct saratoga_listed *one)
{
    char name[NAME_OCTETS], meta[MOST_META];
    counters.complete += t->verdict != SARATOGA_DIFFERS;
    counters.differing += t->verdict == SARATOGA_DIFFERS;
    name_of_file(name, t);
    meta_for_report(meta, t);
    report("%" PRIu64 " %s id=%" PRIu64 " length=%" PRIu64 " file=%s recordings=%" PRIu64 " absorbed=%" PRIu64
           " runs=%" PRIu64 " md5=%s %s",
           t->number, t->verdict == SARATOGA_DIFFERS ? "differs" : "complete", t->id, one->length, name,
           t->work.recordings, t->work.absorbed, one->runs, verdict_text(t->verdict), meta);
}

void report_page(struct transfer *t)
{
    struct saratoga_listed one = listed(t->id);
    report_line(t, &one);
}

static void was_checked(struct transfer *t)
{
    if (job.check.failed) {
        is_gone(t, job.check.length);
        return;
    }
    t->checked = 1;
    t->verdict = job.check.verdict;
    memcpy(t->digest, job.check.digest, sizeof t->digest);
    if (t->verdict == SARATOGA_DIFFERS)
        tell_difference(t);
}

static void has_stored_sheet(struct transfer *t)
{
    if (job.error != 0 && !is_lack_of_room(job.error) && job.closes)
        warn("the sheet of transfer %" PRIu64 " can't be stored: %s", t->id, strerror(job.error));
    else if (job.error != 0)
        room_is_lacking(job.sheet_name, job.error);
    if (job.error != 0 && !job.closes)
        put_off(t);
    else
        t->has_sheet = 1;
}

/* What follows from the end of the worker's job, if it has ended. The transfer may have been closed meanwhile. */
int finish_page(void)
{
    if (!is_done(&pager))
        return 0;
    struct transfer *t = transfer_of(job.id, job.file);
    for (size_t i = 0; i < MOST_FILES; i++)
        transfers[i].put_off = 0;
    if (t == NULL || (t->why != NULL) != job.closes)
        return 1;
    if (job.is_check)
        was_checked(t);
    else
        has_stored_sheet(t);
    return 1;
}
