/* A file that is sent: its METADATA and, where it is asked for, its MD5; and its octets, read in blocks. */
#include "send.h"

#include <errno.h>
#include <fcntl.h>
#include <string.h>
#include <sys/stat.h>
#include <unistd.h>

enum { BLOCK = 262144 };

#define START_OF_2000 946684800 /* in seconds since the start of 1970 */

/* The largest number of a width. In 128 bits they are below 2^64 too. */
static uint64_t width_limit(uint64_t width)
{
    return width == 2 ? UINT16_MAX : width == 4 ? UINT32_MAX : UINT64_MAX;
}

/* The narrowest width that holds the length. */
static uint64_t width_for(uint64_t length)
{
    return length <= UINT16_MAX ? 2 : length <= UINT32_MAX ? 4 : 8;
}

/* A time as METADATA has it: the nearest that it can say. */
static uint64_t time_of(int64_t seconds)
{
    return seconds < START_OF_2000                ? 0
           : seconds - START_OF_2000 > UINT32_MAX ? UINT32_MAX
                                                  : (uint64_t)(seconds - START_OF_2000);
}

/* Reads all of a stretch; 0 where the file ends before, or can't be read. */
static int read_all(int fd, uint8_t *octets, size_t length, uint64_t offset)
{
    while (length > 0) {
        ssize_t got = pread(fd, octets, length, (off_t)offset);
        if (got < 0 && errno == EINTR)
            continue;
        if (got <= 0)
            return 0;
        octets += got;
        offset += (uint64_t)got;
        length -= (size_t)got;
    }
    return 1;
}

/* The block that was read last, of the one page that is open. */
static uint8_t block[BLOCK];
static uint64_t block_start, block_end;

const uint8_t *page_octets(const struct page *page, uint64_t offset, size_t length)
{
    if (offset < block_start || offset + length > block_end) {
        uint64_t rest = page->length - offset;
        size_t count = rest < BLOCK ? (size_t)rest : BLOCK;
        block_start = block_end = 0;
        errno = 0;
        if (!read_all(page->fd, block, count, offset)) {
            wrong("%s: can't be read at octet %" PRIu64 ": %s", page->name, offset,
                  errno != 0 ? strerror(errno) : "the file is shorter than it was");
            return NULL;
        }
        block_start = offset;
        block_end = offset + count;
    }
    return block + (offset - block_start);
}

static int find_digest(struct page *page)
{
    uint8_t state[SARATOGA_MD5_OCTETS];
    uint64_t at, part;
    saratoga_md5_begin(state, sizeof state);
    for (at = 0; at < page->length; at += part) {
        const uint8_t *octets;
        part = page->length - at < 65536 ? page->length - at : 65536;
        octets = page_octets(page, at, (size_t)part);
        if (octets == NULL)
            return 0;
        saratoga_md5_add(state, sizeof state, octets, (size_t)part);
    }
    saratoga_md5_end(state, sizeof state, page->digest, sizeof page->digest);
    page->has_md5 = 1;
    return 1;
}

/* The path is the file's name without its folders: those are nobody's business at the other end. */
static int write_metadata(struct page *page, const struct stat *status)
{
    const char *slash = strrchr(page->name, '/'), *path = slash != NULL ? slash + 1 : page->name;
    uint64_t flags = width_flags(page->width) | (page->has_md5 ? SARATOGA_CHECKSUM_MD5 : SARATOGA_CHECKSUM_NONE);
    struct saratoga_written written = saratoga_write_metadata(
        flags, page->id, page->digest, page->has_md5 ? sizeof page->digest : 0, width_flags(page->width) >> 16, page->length,
        time_of(status->st_mtim.tv_sec), time_of(status->st_ctim.tv_sec), (const uint8_t *)path, strlen(path), page->metadata,
        sizeof page->metadata);
    page->metadata_len = (size_t)written.size;
    return written.number == 0 || wrong("%s: no METADATA can be written: %s", page->name, saratoga_refusal_text(written.number));
}

/* The file's length and width. It is judged before anything is sent. */
static int measure(struct page *page, const struct options *options, struct stat *status)
{
    page->fd = open(page->name, O_RDONLY | O_NONBLOCK | O_CLOEXEC);
    if (page->fd < 0 || fstat(page->fd, status) != 0)
        return wrong("%s: %s", page->name, strerror(errno));
    if (!S_ISREG(status->st_mode))
        return wrong("%s: not a plain file", page->name);
    page->length = (uint64_t)status->st_size;
    page->mtime[0] = status->st_mtim.tv_sec;
    page->mtime[1] = status->st_mtim.tv_nsec;
    page->width = options->width != 0 ? options->width : width_for(page->length);
    if (page->length > width_limit(page->width))
        return wrong("%s: %" PRIu64 " octets are more than descriptors of --width %" PRIu64 " can say: at most %" PRIu64, page->name,
                     page->length, page->width, width_limit(page->width));
    return 1;
}

int open_page(struct page *page, const char *name, uint64_t id, const struct options *options, int with_md5)
{
    struct stat status;
    memset(page, 0, sizeof *page);
    page->name = name;
    page->id = id;
    block_start = block_end = 0;
    if (measure(page, options, &status) && (!with_md5 || find_digest(page)) && write_metadata(page, &status))
        return 1;
    close_page(page);
    return 0;
}

void close_page(struct page *page)
{
    if (page->fd >= 0)
        close(page->fd);
    page->fd = -1;
}

int page_changed(const struct page *page)
{
    struct stat status;
    return fstat(page->fd, &status) != 0 || (uint64_t)status.st_size != page->length ||
           status.st_mtim.tv_sec != page->mtime[0] || status.st_mtim.tv_nsec != page->mtime[1];
}
