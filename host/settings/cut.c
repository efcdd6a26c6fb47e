/*
 * For the test of store.c: the linker puts these functions in the place of write, fsync and rename (--wrap). They do what those
 * do, and first add a line to the file that CUT_LOG names: `write`, `fsync file`, `fsync folder`, `rename`. The call whose number
 * is CUT, counted from 1, doesn't return: the program ends there, before it is made, with status 98. With CUT_FAILS it fails
 * instead.
 */
#define _POSIX_C_SOURCE 200809L
#include <errno.h>
#include <stdio.h>
#include <stdlib.h>
#include <sys/stat.h>
#include <unistd.h>

/* What the linker took the place of. */
ssize_t __real_write(int fd, const void *octets, size_t count);
int __real_fsync(int fd);
int __real_rename(const char *name, const char *new_name);

/* Counts a call; 1 where it is to fail. */
static int call(const char *what)
{
    static long calls;
    const char *cut = getenv("CUT");
    FILE *log = fopen(getenv("CUT_LOG"), "a");
    if (log == NULL || fprintf(log, "%s\n", what) < 0 || fclose(log) != 0)
        _exit(97);
    if (cut == NULL || ++calls != atol(cut))
        return 0;
    if (getenv("CUT_FAILS") == NULL)
        _exit(98);
    errno = ENOSPC;
    return 1;
}

ssize_t __wrap_write(int fd, const void *octets, size_t count)
{
    /* An octet at a time, so that the program can be cut between two. */
    return call("write") ? -1 : __real_write(fd, octets, count > 1 ? 1 : count);
}

int __wrap_fsync(int fd)
{
    struct stat seen;
    int is_folder = fstat(fd, &seen) == 0 && S_ISDIR(seen.st_mode);
    return call(is_folder ? "fsync folder" : "fsync file") ? -1 : __real_fsync(fd);
}

int __wrap_rename(const char *name, const char *new_name)
{
    return call("rename") ? -1 : __real_rename(name, new_name);
}
