/*
 * Files of a transfer. Names come from the Id, eight hexadecimal digits, and the number of the file, which no other file under this
 * directory ever had: a path in METADATA is what the sender wrote, and used as a name it could point anywhere.
 *
 *     0000001f.5.part    octets of transfer 31, not complete
 *     0000001f.5.page    the complete file
 *     0000001f.5.differs a complete file that isn't the one of its checksum
 *     0000001f.5.meta    its METADATA as text
 *     0000001f.5.sheet   what the printer signs
 *     0000001f.5.aside   what a transfer had that was ended
 *     0000001f.5.hook    a page that is still to be handed over: hook.c
 *
 * No symbolic link is followed.
 */
#include "link.h"

#include <errno.h>
#include <fcntl.h>
#include <stdio.h>
#include <stdlib.h>
#include <string.h>
#include <sys/stat.h>
#include <unistd.h>

struct transfer transfers[MOST_FILES];

void make_name(char name[NAME_OCTETS], uint64_t id, uint64_t file, const char *suffix)
{
    snprintf(name, NAME_OCTETS, "%08" PRIx64 ".%" PRIu64 ".%s", id, file, suffix);
}

void name_of(char name[NAME_OCTETS], const struct transfer *t, const char *suffix)
{
    make_name(name, t->id, t->file, suffix);
}

/* The file of a transfer, by the name that it has now. */
void name_of_file(char name[NAME_OCTETS], const struct transfer *t)
{
    name_of(name, t, t->suffix);
}

/* The Id, number and suffix of a name that make_name makes; gives NULL for any other. */
const char *parse_name(const char *name, uint64_t *id, uint64_t *file)
{
    static const char *const suffixes[] = {"part", "page", "differs", "meta", "sheet", "aside", "hook"};
    char made[NAME_OCTETS];
    if (strspn(name, "0123456789abcdef") != 8 || name[8] != '.' || name[9] < '1' || name[9] > '9')
        return NULL;
    uint64_t found_id = strtoull(name, NULL, 16), found_file = strtoull(name + 9, NULL, 10);
    for (size_t i = 0; i < sizeof suffixes / sizeof suffixes[0]; i++) {
        make_name(made, found_id, found_file, suffixes[i]);
        if (strcmp(made, name) == 0) {
            *id = found_id;
            *file = found_file;
            return suffixes[i];
        }
    }
    return NULL;
}

struct transfer *transfer_of(uint64_t id, uint64_t file)
{
    for (size_t i = 0; i < MOST_FILES; i++)
        if (transfers[i].used && transfers[i].id == id && transfers[i].file == file)
            return &transfers[i];
    return NULL;
}

/* A place for a transfer's files; NULL where there is none until the next good sync. */
struct transfer *new_transfer(uint64_t id, uint64_t file)
{
    for (size_t i = 0; i < MOST_FILES; i++) {
        if (!transfers[i].used) {
            transfers[i] = (struct transfer){.used = 1, .id = id, .file = file, .fd = -1, .meta_fd = -1, .suffix = "part"};
            return &transfers[i];
        }
    }
    return NULL;
}

void forget(struct transfer *t)
{
    if (t->fd >= 0)
        close(t->fd);
    if (t->meta_fd >= 0)
        close(t->meta_fd);
    free(t->closing);
    *t = (struct transfer){.used = 0};
}

/* Whether files of one more transfer may be made. Each has a .meta. Where not, it is told once, until there may be. */
int may_keep_more(void)
{
    static int told;
    DIR *list = list_directory();
    uint64_t kept = 0;
    for (struct dirent *entry; (entry = readdir(list)) != NULL;) {
        uint64_t id, file;
        const char *suffix = parse_name(entry->d_name, &id, &file);
        kept += suffix != NULL && strcmp(suffix, "meta") == 0;
    }
    closedir(list);
    int may = kept < options.most_kept;
    if (!may && !told)
        warn("%s: has the files of %" PRIu64 " transfers; no new one is opened until some are taken away, with their .meta",
             options.directory, kept);
    told = !may;
    return may;
}

/*
 * Makes .part, empty, and .meta for a transfer that is to be opened, over what an attempt that failed has left. Both are forced to disk by
 * the next sync. Gives -1 with errno where they can't be made.
 */
int make_files(struct transfer *t)
{
    char part[NAME_OCTETS], meta[NAME_OCTETS];
    name_of(part, t, "part");
    name_of(meta, t, "meta");
    t->fd = open_file(part, O_RDWR | O_CREAT | O_TRUNC);
    directory_changed |= t->fd >= 0;
    cut_point("between .part and .meta");
    t->meta_fd = t->fd < 0 ? -1 : open_file(meta, O_WRONLY | O_CREAT | O_TRUNC);
    if (t->meta_fd < 0 || write_at(t->meta_fd, (const uint8_t *)t->meta, t->meta_len, 0) != 0)
        return -1;
    t->written = 1;
    return 0;
}

/* Reads the METADATA of a transfer. Gives -1 where there is none. */
int read_meta(struct transfer *t)
{
    char name[NAME_OCTETS];
    name_of(name, t, "meta");
    int fd = open_file(name, O_RDONLY);
    if (fd < 0)
        return -1;
    ssize_t got = read(fd, t->meta, sizeof t->meta - 1);
    close(fd);
    if (got < 0)
        return -1;
    t->meta_len = (size_t)got;
    t->meta[got] = '\0';
    return 0;
}

/* The descriptor of a transfer's octets; -1 with errno where there is none. */
int file_of(struct transfer *t)
{
    if (t->fd < 0) {
        char name[NAME_OCTETS];
        name_of_file(name, t);
        t->fd = open_file(name, strcmp(t->suffix, "part") == 0 ? O_RDWR : O_RDONLY);
    }
    return t->fd;
}

/* Whether the octets still have their name, and are as many as were written. */
int is_where_it_was(const struct transfer *t)
{
    char name[NAME_OCTETS];
    name_of_file(name, t);
    int64_t length = length_of(name);
    return length >= 0 && (uint64_t)length >= t->size && has_name(t->fd, name);
}

/* Whether somebody cut the open file: looked at before a write would make it long again, with zeros in it. */
int is_cut(const struct transfer *t)
{
    struct stat seen;
    return fstat(t->fd, &seen) == 0 && (uint64_t)seen.st_size < t->size;
}

/* Gives the octets of a transfer another ending, if they haven't got it. Gives -1 with errno. */
int rename_to(struct transfer *t, const char *suffix)
{
    char name[NAME_OCTETS], new_name[NAME_OCTETS];
    name_of_file(name, t);
    name_of(new_name, t, suffix);
    if (strcmp(name, new_name) != 0 && rename_file(name, new_name) != 0)
        return -1;
    t->suffix = suffix;
    return 0;
}

/* Keeps the octets of a transfer that was ended, under a name that no transfer uses. */
void set_aside(struct transfer *t)
{
    char name[NAME_OCTETS], aside[NAME_OCTETS];
    name_of_file(name, t);
    name_of(aside, t, "aside");
    if (length_of(name) < 0)
        return;
    if (rename_to(t, "aside") != 0)
        warn("%s/%s: can't be set aside, and stays: %s", options.directory, name, strerror(errno));
    else
        warn("what transfer %" PRIu64 " had is kept as %s/%s", t->id, options.directory, aside);
}

/* What nothing came of leaves nothing. The .part goes last: as long as it is there, the next start knows what to remove. */
void remove_empty(const struct transfer *t)
{
    static const char *const endings[] = {"meta", "sheet", "part"};
    char name[NAME_OCTETS];
    for (size_t i = 0; i < sizeof endings / sizeof endings[0]; i++) {
        name_of(name, t, endings[i]);
        remove_file(name);
    }
    directory_changed = 1;
}

/* Which of its names the octets of a transfer have. */
static const char *suffix_of(const struct transfer *t)
{
    static const char *const endings[] = {"part", "page", "differs"};
    char name[NAME_OCTETS];
    for (size_t i = 0; i < sizeof endings / sizeof endings[0]; i++) {
        name_of(name, t, endings[i]);
        if (length_of(name) >= 0)
            return endings[i];
    }
    return "gone";
}

/* What is wrong with the files of an open transfer; NULL where nothing is. A page that was reported may have been taken away. */
const char *fault_of(struct transfer *t, const struct saratoga_listed *one, const struct slot *slot)
{
    char name[NAME_OCTETS];
    t->suffix = suffix_of(t);
    name_of_file(name, t);
    t->size = is_there(name) ? (uint64_t)length_of(name) : 0;
    int has_meta = read_meta(t) == 0, is_part = strcmp(t->suffix, "part") == 0, is_gone = strcmp(t->suffix, "gone") == 0;
    if (slot->reported && is_gone)
        return NULL;
    if (!has_meta || !meta_is_of(t->meta, t->meta_len, one))
        return "its .meta isn't there, or is another's";
    if (!one->complete)
        return !is_part || (uint64_t)length_of(name) < one->edge ? "its .part has fewer octets than were recorded" : NULL;
    if (is_gone)
        return "its page isn't there";
    if (!file_has_length(name, one->length))
        return is_part ? "its .part hasn't its length" : "its .page hasn't its length";
    return NULL;
}
