/*
 * The directory and plain files in it: opened without following links, written, forced to disk, replaced. And what is
 * said where there is no room.
 */
#include "link.h"

#include <errno.h>
#include <fcntl.h>
#include <stdio.h>
#include <string.h>
#include <sys/file.h>
#include <sys/stat.h>
#include <unistd.h>

int directory = -1;
int directory_changed;             /* a file was made or renamed in it, and no sync that began since forced it to disk */
static int lacking;                /* there was no room, and that was told */
static int ever_lost;
static uint64_t lost, lost_since_saved;

/* Opens the directory that the options name. */
void open_directory(void)
{
    directory = open(options.directory, O_RDONLY | O_DIRECTORY | O_CLOEXEC);
    if (directory < 0)
        die("%s: %s", options.directory, strerror(errno));
}

/*
 * Keeps other programs out of the directory while this one runs. The lock is on the directory itself: no name in it can be taken away
 * to get rid of it. Gives 0 where another holds it.
 */
int lock_directory(int to_read)
{
    if (flock(directory, (to_read ? LOCK_SH : LOCK_EX) | LOCK_NB) == 0)
        return 1;
    if (errno != EWOULDBLOCK)
        die("%s: can't be locked: %s", options.directory, strerror(errno));
    return 0;
}

/* Opens a regular file, without waiting for anyone and without following a link. */
int open_file(const char *name, int flags)
{
    struct stat seen;
    int fd = openat(directory, name, flags | O_NOFOLLOW | O_NONBLOCK | O_CLOEXEC, 0666);
    if (fd >= 0 && (fstat(fd, &seen) != 0 || !S_ISREG(seen.st_mode))) {
        close(fd);
        errno = EINVAL;
        return -1;
    }
    return fd;
}

int is_lack_of_room(int error)
{
    return error == ENOSPC || error == EDQUOT || error == EFBIG;
}

/* A packet that couldn't be stored counts as lost, and the exit status tells. */
void something_is_lost(void)
{
    ever_lost = 1;
}

int something_was_lost(void)
{
    return ever_lost;
}

/* What can't be stored counts as lost. Said once, until there is room again. */
void room_is_lacking(const char *what, int error)
{
    lost++;
    lost_since_saved++;
    something_is_lost();
    if (!lacking)
        warn("%s/%s: can't be stored: %s; packets count as lost until there is room", options.directory, what,
             strerror(error));
    lacking = 1;
}

/* Called where the area was saved: there is room if nothing was lost since it was saved before. */
void there_is_room(void)
{
    if (lacking && lost_since_saved == 0) {
        warn("%s: there is room again; at least %" PRIu64 " packets counted as lost", options.directory, lost);
        lacking = 0;
        lost = 0;
    }
    lost_since_saved = 0;
}

DIR *list_directory(void)
{
    int fd = openat(directory, ".", O_RDONLY | O_DIRECTORY | O_CLOEXEC);
    DIR *list = fd >= 0 ? fdopendir(fd) : NULL;
    if (list == NULL)
        die("%s: can't be listed: %s", options.directory, strerror(errno));
    return list;
}

/* Writes all octets, at an offset. Gives 0, or -1 with errno. */
int write_at(int fd, const uint8_t *octets, size_t count, uint64_t offset)
{
    if (offset > (uint64_t)INT64_MAX - count) {
        errno = EFBIG;
        return -1;
    }
    while (count > 0) {
        ssize_t done = pwrite(fd, octets, AT_ONCE(count), (off_t)offset);
        if (done < 0 && errno == EINTR)
            continue;
        if (done < 0)
            return -1;
        octets += done;
        count -= (size_t)done;
        offset += (uint64_t)done;
        cut_point("inside a write");
    }
    return 0;
}

/* Forces a file, or the directory, to disk, where that is asked for. Gives -1 with errno. */
int force_to_disk(int fd)
{
    return !options.force || fsync(fd) == 0 ? 0 : -1;
}

/*
 * Puts a file in the place of another of that name: written as NAME.new, forced to disk, renamed, and the name forced to disk. Gives -1
 * with errno. Another thread may do the same with another name meanwhile.
 */
int replace_file(const char *name, const uint8_t *octets, size_t count)
{
    char new_name[NAME_OCTETS];
    snprintf(new_name, sizeof new_name, "%s.new", name);
    int fd = open_file(new_name, O_WRONLY | O_CREAT | O_TRUNC);
    if (fd < 0)
        return -1;
    int failed = write_at(fd, octets, count, 0) != 0 || force_to_disk(fd) != 0;
    int error = errno;
    if (close(fd) != 0 && !failed) {
        failed = 1;
        error = errno;
    }
    cut_point("between a new file and its name");
    errno = error;
    if (failed || renameat(directory, new_name, directory, name) != 0)
        return -1;
    return force_to_disk(directory);
}

/* Whether a file is there with exactly so many octets, the last of which can be read. */
int file_has_length(const char *name, uint64_t length)
{
    struct stat seen;
    uint8_t octet;
    int fd = open_file(name, O_RDONLY);
    if (fd < 0)
        return 0;
    int good = fstat(fd, &seen) == 0 && (uint64_t)seen.st_size == length &&
               (length == 0 || pread(fd, &octet, 1, (off_t)(length - 1)) == 1) &&
               pread(fd, &octet, 1, (off_t)length) == 0;
    close(fd);
    return good;
}

/* The length of a regular file; -1 where there is none of that name. */
int64_t length_of(const char *name)
{
    struct stat seen;
    if (fstatat(directory, name, &seen, AT_SYMLINK_NOFOLLOW) != 0 || !S_ISREG(seen.st_mode))
        return -1;
    return (int64_t)seen.st_size;
}

/* Gives 0 where the name is gone. */
int remove_file(const char *name)
{
    return unlinkat(directory, name, 0) == 0 || errno == ENOENT ? 0 : -1;
}

/* Whether anything has this name. */
int is_there(const char *name)
{
    struct stat seen;
    return fstatat(directory, name, &seen, AT_SYMLINK_NOFOLLOW) == 0 || errno != ENOENT;
}

/* Whether an open file still has this name, and is a regular file. Without one (-1): whether the name has. */
int has_name(int fd, const char *name)
{
    struct stat named, opened;
    if (fstatat(directory, name, &named, AT_SYMLINK_NOFOLLOW) != 0 || !S_ISREG(named.st_mode))
        return 0;
    return fd < 0 || (fstat(fd, &opened) == 0 && opened.st_dev == named.st_dev && opened.st_ino == named.st_ino);
}

/* Gives a file a name that nothing has. Gives -1 with errno. The lock keeps others from making one meanwhile. */
int rename_file(const char *name, const char *new_name)
{
    if (is_there(new_name)) {
        errno = EEXIST;
        return -1;
    }
    if (renameat(directory, name, directory, new_name) != 0)
        return -1;
    directory_changed = 1;
    return 0;
}
