/*
 * A thread that does one job at a time. The main thread gives it a job and goes on; the worker says by a descriptor that it is done.
 * Without threads, as for a pass, a job is done where it is given.
 */
#include "link.h"

#include <errno.h>
#include <pthread.h>
#include <stdio.h>
#include <string.h>
#include <sys/eventfd.h>
#include <unistd.h>

struct worker {
    pthread_mutex_t mutex;
    pthread_cond_t changed;
    int begun;                     /* its thread is */
    int busy;                      /* a job was given and its end not yet taken: of the main thread alone */
    int waiting, done;             /* a job is to be begun; it has ended */
    void (*run)(void *job);
    void *job;
};

struct worker syncer = {.mutex = PTHREAD_MUTEX_INITIALIZER, .changed = PTHREAD_COND_INITIALIZER};
struct worker pager = {.mutex = PTHREAD_MUTEX_INITIALIZER, .changed = PTHREAD_COND_INITIALIZER};
int with_threads;
static int wake = -1;

/* Becomes readable when a job has ended. */
int wake_descriptor(void)
{
    if (wake < 0)
        wake = eventfd(0, EFD_CLOEXEC | EFD_NONBLOCK);
    if (wake < 0)
        die("no eventfd: %s", strerror(errno));
    return wake;
}

void hush_wake(void)
{
    uint64_t count;
    if (read(wake, &count, sizeof count) < 0 && errno != EAGAIN && errno != EINTR)
        die("eventfd: %s", strerror(errno));
}

static void *work(void *argument)
{
    struct worker *worker = argument;
    const uint64_t one = 1;
    for (;;) {
        pthread_mutex_lock(&worker->mutex);
        while (!worker->waiting)
            pthread_cond_wait(&worker->changed, &worker->mutex);
        worker->waiting = 0;
        pthread_mutex_unlock(&worker->mutex);
        worker->run(worker->job);
        pthread_mutex_lock(&worker->mutex);
        worker->done = 1;
        pthread_cond_broadcast(&worker->changed);
        pthread_mutex_unlock(&worker->mutex);
        while (write(wake, &one, sizeof one) < 0 && errno == EINTR)
            ;
    }
    return NULL;
}

/* Signals are the main thread's. */
static void begin(struct worker *worker)
{
    pthread_t thread;
    sigset_t all, before;
    wake_descriptor();
    sigfillset(&all);
    pthread_sigmask(SIG_SETMASK, &all, &before);
    int error = pthread_create(&thread, NULL, work, worker);
    pthread_sigmask(SIG_SETMASK, &before, NULL);
    if (error != 0)
        die("no thread can be begun: %s", strerror(error));
    pthread_detach(thread);
    worker->begun = 1;
}

void start_worker(struct worker *worker, void (*run)(void *job), void *job)
{
    worker->busy = 1;
    if (!with_threads) {
        run(job);
        worker->done = 1;
        return;
    }
    if (!worker->begun)
        begin(worker);
    pthread_mutex_lock(&worker->mutex);
    worker->run = run;
    worker->job = job;
    worker->waiting = 1;
    pthread_cond_broadcast(&worker->changed);
    pthread_mutex_unlock(&worker->mutex);
}

int is_at_work(const struct worker *worker)
{
    return worker->busy;
}

/* Whether its job has ended since it last said so. */
int is_done(struct worker *worker)
{
    if (!worker->busy)
        return 0;
    pthread_mutex_lock(&worker->mutex);
    int done = worker->done;
    worker->done = 0;
    pthread_mutex_unlock(&worker->mutex);
    worker->busy = !done;
    return done;
}

/* Waits until its job, if it has one, has ended. */
void wait_for(struct worker *worker)
{
    if (!worker->busy)
        return;
    pthread_mutex_lock(&worker->mutex);
    while (!worker->done)
        pthread_cond_wait(&worker->changed, &worker->mutex);
    pthread_mutex_unlock(&worker->mutex);
}
