/* The clock: what transfer.c says is sent when it is due by the user's rate, and answers are taken between. */
#include "send.h"

#include <string.h>
#include <time.h>

/*
 * So much is made good where the program did not run in time: what waits on the way has run empty meanwhile, and has room for it. More would
 * be a burst that not every buffer has room for.
 */
#define CATCH_UP (SECOND / 50)

int64_t clock_now(void)
{
    struct timespec now;
    clock_gettime(CLOCK_MONOTONIC, &now);
    return now.tv_sec * SECOND + now.tv_nsec;
}

static size_t write_data(const struct page *page, const struct step *step, uint8_t *out, size_t room)
{
    const uint8_t *payload = page_octets(page, step->offset, (size_t)step->length);
    struct saratoga_written written = {0, 0, 0};
    if (payload == NULL)
        return 0;
    written = saratoga_write_data(step->flags, page->id, payload, 0, step->offset, payload, (size_t)step->length, out, room);
    if (written.number != 0)
        wrong("%s: no DATA can be written: %s", page->name, saratoga_refusal_text(written.number));
    return (size_t)written.size;
}

/* One packet more in the batch; 0 where it can't be made. */
static int add_packet(struct batch *batch, const struct page *page, const struct step *step)
{
    uint8_t *out = batch->packets[batch->count];
    size_t size = page->metadata_len;
    if (step->what == METADATA_NOW)
        memcpy(out, page->metadata, size);
    else
        size = write_data(page, step, out, sizeof batch->packets[0]);
    batch->sizes[batch->count++] = size;
    return size > 0;
}

/* Nanoseconds that a packet takes at the rate. */
static int64_t cost(size_t size, const struct options *options)
{
    return options->rate > 0 ? (int64_t)((double)size * 8000 / options->rate) : 0;
}

/* What is due now, together; 0 where a packet can't be made or sent. `due` is the time of the next packet. */
static int send_due(int wire, struct transfer *t, const struct page *page, const struct options *options, int64_t *due,
                    enum what *what)
{
    static struct batch batch;
    int64_t now = clock_now();
    batch.count = 0;
    if (*due < now - CATCH_UP)
        *due = now - CATCH_UP;
    *what = DATA_NOW;
    while (batch.count < BATCH && *due <= now) {
        struct step step = next_step(t, now);
        *what = step.what;
        if (step.what == WAIT || step.what == ENDED)
            break;
        if (!add_packet(&batch, page, &step))
            return 0;
        *due += cost(batch.sizes[batch.count - 1], options);
    }
    return send_batch(wire, &batch);
}

static void take_all(int wire, struct transfer *t)
{
    static uint8_t packet[SARATOGA_PACKET_OCTETS + 1]; /* one more: a longer packet must not look like a whole one */
    size_t size;
    while ((size = receive(wire, packet, sizeof packet)) > 0)
        take_packet(t, packet, size, clock_now());
}

int run(int wire, struct transfer *t, const struct page *page, const struct options *options)
{
    enum what what = DATA_NOW;
    int64_t due = clock_now();
    while (what != ENDED) {
        int64_t now;
        if (!send_due(wire, t, page, options, &due, &what))
            return 0;
        now = clock_now();
        say_progress(t, page, now, options->quiet);
        wait_for_packet(wire, what == WAIT ? t->deadline - now : what == ENDED ? 0 : due - now);
        take_all(wire, t);
    }
    return 1;
}
