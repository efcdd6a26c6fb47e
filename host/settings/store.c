/*
 * Puts a file in the place of another. It is written under a name of its own in the same folder, forced to disk, renamed, and
 * then the folder is forced to disk. So a reader, and a program after a crash or a power cut, finds the old file or the new one,
 * whole.
 */
#define _POSIX_C_SOURCE 200809L
#include "settings.h"

#include <errno.h>
#include <fcntl.h>
#include <stdio.h>
#include <stdlib.h>
#include <string.h>
#include <sys/stat.h>
#include <unistd.h>

static int write_all(int fd, const uint8_t *octets, size_t len)
{
    while (len > 0) {
        ssize_t done = write(fd, octets, len);
        if (done < 0 && errno == EINTR)
            continue;
        if (done < 0)
            return 0;
        octets += done;
        len -= (size_t)done;
    }
    return 1;
}

/* The modes that the user's mask leaves of a new file; mkstemp gives fewer. */
static mode_t usual_mode(void)
{
    mode_t mask = umask(0);
    umask(mask);
    return 0666 & ~mask;
}

/* A new file with these octets, on disk, under a name that begins with `name` and is put there. */
static int write_beside(char *name, const uint8_t *octets, size_t len)
{
    int fd = mkstemp(name);
    if (fd < 0)
        return 0;
    int done = fchmod(fd, usual_mode()) == 0 && write_all(fd, octets, len) && fsync(fd) == 0;
    int error = errno;
    if (close(fd) != 0 && done) {
        done = 0;
        error = errno;
    }
    if (!done) {
        unlink(name);
        errno = error;
    }
    return done;
}

static int force_folder(const char *name)
{
    const char *slash = strrchr(name, '/');
    size_t len = slash == NULL ? 0 : slash == name ? 1 : (size_t)(slash - name);
    char *folder = malloc(len + 2);
    if (folder == NULL)
        return 0;
    memcpy(folder, name, len);
    memcpy(folder + len, len == 0 ? "." : "", len == 0 ? 2 : 1);
    int fd = open(folder, O_RDONLY | O_DIRECTORY | O_CLOEXEC);
    free(folder);
    int done = fd >= 0 && fsync(fd) == 0;
    int error = errno;
    if (fd >= 0)
        close(fd);
    errno = error;
    return done;
}

int replace_file(const char *name, const uint8_t *octets, size_t len)
{
    size_t length = strlen(name);
    char *beside = malloc(length + sizeof ".XXXXXX");
    if (beside == NULL)
        return wrong_file(name, "no memory"), 0;
    memcpy(beside, name, length);
    memcpy(beside + length, ".XXXXXX", sizeof ".XXXXXX");
    int written = write_beside(beside, octets, len), renamed = written && rename(beside, name) == 0, error = errno;
    if (written && !renamed)
        unlink(beside);
    free(beside);
    if (!renamed)
        return wrong_file(name, strerror(error)), 0;
    if (!force_folder(name))
        return wrong_file(name, "it is there, but its folder can't be forced to disk"), 0;
    return 1;
}
