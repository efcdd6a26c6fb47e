/*
 * For the tests of the link program: a disk that is full. The linker puts these functions in the place of openat,
 * pwrite, renameat and fsync (--wrap). While the file named by NOSPACE holds the letter of a call (o, w, r, f), that
 * call fails with ENOSPC; o only where a file is to be made. Letter p is a complete file that is to get its name, d the
 * force to disk after that, h a sheet that is to get its name. Letter s is an answer that can't be sent, e a write that fails with EIO, u a
 * file that can't be removed. And z is a disk that is slow: it takes 50 milliseconds to force something to it; y one
 * that doesn't come to an end with it.
 */
#define _POSIX_C_SOURCE 200809L
#define _FILE_OFFSET_BITS 64

#include <errno.h>
#include <fcntl.h>
#include <stdio.h>
#include <stdlib.h>
#include <string.h>
#include <sys/socket.h>
#include <time.h>
#include <unistd.h>

int __real_openat(int directory, const char *name, int flags, ...);
ssize_t __real_pwrite(int fd, const void *octets, size_t count, off_t offset);
int __real_renameat(int directory, const char *name, int other, const char *new_name);
int __real_fsync(int fd);
int __real_unlinkat(int directory, const char *name, int flags);
ssize_t __real_sendmsg(int fd, const struct msghdr *message, int flags);
int __wrap_openat(int directory, const char *name, int flags, ...);
int __wrap_openat64(int directory, const char *name, int flags, ...);
ssize_t __wrap_pwrite(int fd, const void *octets, size_t count, off_t offset);
ssize_t __wrap_pwrite64(int fd, const void *octets, size_t count, off_t offset);
int __wrap_renameat(int directory, const char *name, int other, const char *new_name);
int __wrap_fsync(int fd);
int __wrap_unlinkat(int directory, const char *name, int flags);
ssize_t __wrap_sendmsg(int fd, const struct msghdr *message, int flags);

static _Atomic int page_was_named;

static int full(char call)
{
    char letters[16] = "";
    FILE *file = getenv("NOSPACE") != NULL ? fopen(getenv("NOSPACE"), "r") : NULL;
    if (file == NULL)
        return 0;
    letters[fread(letters, 1, sizeof letters - 1, file)] = '\0';
    fclose(file);
    errno = ENOSPC;
    return strchr(letters, call) != NULL;
}

int __wrap_openat(int directory, const char *name, int flags, ...)
{
    if ((flags & O_CREAT) == 0)
        return __real_openat(directory, name, flags);
    if (faccessat(directory, name, F_OK, 0) != 0 && full('o'))
        return -1;
    return __real_openat(directory, name, flags, 0666);
}

int __wrap_openat64(int directory, const char *name, int flags, ...)
{
    return __wrap_openat(directory, name, flags);
}

ssize_t __wrap_pwrite(int fd, const void *octets, size_t count, off_t offset)
{
    if (full('e')) {
        errno = EIO;
        return -1;
    }
    return full('w') ? -1 : __real_pwrite(fd, octets, count, offset);
}

ssize_t __wrap_pwrite64(int fd, const void *octets, size_t count, off_t offset)
{
    return __wrap_pwrite(fd, octets, count, offset);
}

int __wrap_renameat(int directory, const char *name, int other, const char *new_name)
{
    int is_page = strstr(new_name, ".page") != NULL || strstr(new_name, ".differs") != NULL;
    if (full('r') || (is_page && full('p')) || (strstr(new_name, ".sheet") != NULL && full('h')))
        return -1;
    page_was_named |= is_page;
    return __real_renameat(directory, name, other, new_name);
}

int __wrap_fsync(int fd)
{
    const struct timespec slow = {.tv_nsec = 50000000};
    if (full('z'))
        nanosleep(&slow, NULL);
    while (full('y'))
        nanosleep(&slow, NULL);
    return full('f') || (page_was_named && full('d')) ? -1 : __real_fsync(fd);
}

int __wrap_unlinkat(int directory, const char *name, int flags)
{
    return full('u') ? -1 : __real_unlinkat(directory, name, flags);
}

ssize_t __wrap_sendmsg(int fd, const struct msghdr *message, int flags)
{
    if (!full('s'))
        return __real_sendmsg(fd, message, flags);
    errno = EINVAL;
    return -1;
}
