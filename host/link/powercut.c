/*
 * For the test of link.c: a disk that forgets what was not forced to it. The linker puts these functions in the place
 * of openat, pwrite, renameat, unlinkat and fsync (--wrap). They do what those do, and note in the directory POWERCUT_DISK what a
 * power cut would leave:
 *
 *     octets-INODE   a file's octets when it was last forced to disk; none where it never was
 *     names          the directory when it was last forced to disk: lines "INODE NAME"
 *     changes        what was done to it since: lines "make INODE NAME" and "rename INODE NAME NEW-NAME"
 *
 * The call whose number is POWERCUT, counted from 1, doesn't return: the program ends there with status 98. One call is made at a time,
 * whichever thread makes it. With POWERCUT_WAIT each call of another thread than the first is made that many milliseconds late, as by a
 * slow disk: by then the first has done and said all that it does without waiting for it.
 */
#define _GNU_SOURCE
#define _FILE_OFFSET_BITS 64

#include <dirent.h>
#include <errno.h>
#include <fcntl.h>
#include <inttypes.h>
#include <poll.h>
#include <pthread.h>
#include <stdio.h>
#include <stdlib.h>
#include <sys/stat.h>
#include <unistd.h>

/* What the linker took the place of. */
int __real_openat(int directory, const char *name, int flags, ...);
ssize_t __real_pwrite(int fd, const void *octets, size_t count, off_t offset);
int __real_renameat(int directory, const char *name, int other, const char *new_name);
int __real_unlinkat(int directory, const char *name, int flags);

/* Writes the lines that the program keeps: output.c. */
void flush_output(void);

static long calls;
static pthread_mutex_t one_at_a_time = PTHREAD_MUTEX_INITIALIZER;

static void begin_call(void)
{
    const char *wait = getenv("POWERCUT_WAIT");
    if (wait != NULL && gettid() != getpid())
        poll(NULL, 0, atoi(wait));
    pthread_mutex_lock(&one_at_a_time);
}

/* Counts a call, and ends the program at the one named. What was said was said: in the main thread, whose lines they are. */
static void call(void)
{
    const char *last = getenv("POWERCUT");
    if (last != NULL && ++calls == atol(last)) {
        if (gettid() == getpid())
            flush_output();
        _exit(98);
    }
}

static void need(int holds, const char *what)
{
    if (!holds) {
        perror(what);
        _exit(97);
    }
}

static FILE *note(const char *name, const char *mode)
{
    char path[4096];
    snprintf(path, sizeof path, "%s/%s", getenv("POWERCUT_DISK"), name);
    FILE *file = fopen(path, mode);
    need(file != NULL, path);
    return file;
}

static uint64_t inode(int directory, const char *name)
{
    struct stat seen;
    return fstatat(directory, name, &seen, 0) == 0 ? (uint64_t)seen.st_ino : 0;
}

/*
 * Keeps a file open whose name goes to another one or away. On disk the name stands for it until the directory is forced to disk, so its
 * inode must go to no new file before: another thread may make one at once.
 */
static void keep(int directory, const char *name)
{
    need(__real_openat(directory, name, O_RDONLY | O_NOFOLLOW | O_NONBLOCK | O_CLOEXEC) >= 0 || errno == ENOENT, name);
}

static int opened(int directory, const char *name, int flags, mode_t mode)
{
    if ((flags & O_CREAT) == 0)
        return __real_openat(directory, name, flags);
    call();
    uint64_t before = inode(directory, name);
    int fd = __real_openat(directory, name, flags, mode);
    if (fd >= 0 && before == 0) {
        char octets[64];
        FILE *changes = note("changes", "a");
        fprintf(changes, "make %" PRIu64 " %s\n", inode(directory, name), name);
        fclose(changes);
        snprintf(octets, sizeof octets, "octets-%" PRIu64, inode(directory, name));
        fclose(note(octets, "w"));
    }
    return fd;
}

static ssize_t written(int fd, const void *octets, size_t count, off_t offset)
{
    call();
    /* In parts, so that a cut can fall between them. */
    return __real_pwrite(fd, octets, count % 2 != 0 ? count : count / 2, offset);
}

int __wrap_openat(int directory, const char *name, int flags, ...);
int __wrap_openat64(int directory, const char *name, int flags, ...);
ssize_t __wrap_pwrite(int fd, const void *octets, size_t count, off_t offset);
ssize_t __wrap_pwrite64(int fd, const void *octets, size_t count, off_t offset);
int __wrap_renameat(int directory, const char *name, int other, const char *new_name);
int __wrap_unlinkat(int directory, const char *name, int flags);
int __wrap_fsync(int fd);

int __wrap_openat(int directory, const char *name, int flags, ...)
{
    begin_call();
    int fd = opened(directory, name, flags, 0666), error = errno;
    pthread_mutex_unlock(&one_at_a_time);
    errno = error;
    return fd;
}

int __wrap_openat64(int directory, const char *name, int flags, ...)
{
    return __wrap_openat(directory, name, flags);
}

ssize_t __wrap_pwrite(int fd, const void *octets, size_t count, off_t offset)
{
    begin_call();
    ssize_t done = written(fd, octets, count, offset);
    pthread_mutex_unlock(&one_at_a_time);
    return done;
}

ssize_t __wrap_pwrite64(int fd, const void *octets, size_t count, off_t offset)
{
    return __wrap_pwrite(fd, octets, count, offset);
}

static int renamed(int directory, const char *name, int other, const char *new_name)
{
    call();
    uint64_t number = inode(directory, name);
    keep(other, new_name);
    int status = __real_renameat(directory, name, other, new_name);
    if (status == 0) {
        FILE *changes = note("changes", "a");
        fprintf(changes, "rename %" PRIu64 " %s %s\n", number, name, new_name);
        fclose(changes);
    }
    return status;
}

int __wrap_renameat(int directory, const char *name, int other, const char *new_name)
{
    begin_call();
    int status = renamed(directory, name, other, new_name);
    pthread_mutex_unlock(&one_at_a_time);
    return status;
}

/* Not a call at which the power goes: whether the name is still there is seen at the next one. */
int __wrap_unlinkat(int directory, const char *name, int flags)
{
    begin_call();
    keep(directory, name);
    int status = __real_unlinkat(directory, name, flags), error = errno;
    pthread_mutex_unlock(&one_at_a_time);
    errno = error;
    return status;
}

static void forced(int fd)
{
    struct stat seen;
    call();
    need(fstat(fd, &seen) == 0, "fstat");
    if (S_ISDIR(seen.st_mode)) {
        FILE *names = note("names", "w");
        DIR *directory = fdopendir(__real_openat(fd, ".", O_RDONLY));
        need(directory != NULL, "fdopendir");
        for (struct dirent *entry; (entry = readdir(directory)) != NULL;)
            if (entry->d_name[0] != '.')
                fprintf(names, "%" PRIu64 " %s\n", (uint64_t)entry->d_ino, entry->d_name);
        closedir(directory);
        fclose(names);
        fclose(note("changes", "w"));
    } else {
        static char octets[65536];
        char name[64], path[64];
        snprintf(name, sizeof name, "octets-%" PRIu64, (uint64_t)seen.st_ino);
        snprintf(path, sizeof path, "/proc/self/fd/%d", fd); /* the descriptor is for writing alone */
        FILE *copy = note(name, "w"), *file = fopen(path, "r");
        need(file != NULL, path);
        for (size_t got; (got = fread(octets, 1, sizeof octets, file)) > 0;)
            fwrite(octets, 1, got, copy);
        fclose(file);
        fclose(copy);
    }
}

int __wrap_fsync(int fd)
{
    begin_call();
    forced(fd);
    pthread_mutex_unlock(&one_at_a_time);
    return 0;
}
