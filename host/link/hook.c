/*
 * The hook (--on-complete): a program of the operator's that is run for each page that was reported, beside this one, with the page, its
 * .meta and its sheet as arguments. Reception never waits for it.
 *
 * 0000001f.5.hook says on disk that the page is still to be handed over. It is made before the report, so a sync that saves the report, or
 * later the closing, has forced its name to disk before; and it goes when the hook has ended with status 0. So each page is handed over
 * at least once, whatever crashes: as long as the area's file doesn't hold the report, the engine reports again, and from then on the file
 * is there.
 */
#include "link.h"

#include <errno.h>
#include <fcntl.h>
#include <limits.h>
#include <poll.h>
#include <spawn.h>
#include <stdio.h>
#include <stdlib.h>
#include <string.h>
#include <sys/stat.h>
#include <sys/wait.h>
#include <unistd.h>

struct waiting {
    struct waiting *next;
    uint64_t id, file;
};

static struct waiting *first, **end = &first; /* pages whose hook is to be started, as many as there are */
static struct running {
    pid_t pid;                     /* 0: none */
    uint64_t id, file;
} running[MOST_HOOKS];
static char place[PATH_MAX];       /* the directory, wherever the hook goes to */
static int wake;
static int cannot_start;           /* and that was told */
static uint64_t not_before;        /* the next try, where one couldn't be started */

/* A hook has ended: the main thread waits no longer. */
static void has_ended(int signal_number)
{
    const uint64_t one = 1;
    int error = errno;
    (void)signal_number;
    ssize_t done = write(wake, &one, sizeof one);
    (void)done;
    errno = error;
}

/* Before anything is written: a hook that isn't there is found now, and not with the first page. */
void prepare_hooks(void)
{
    struct stat seen;
    struct sigaction action = {.sa_handler = has_ended, .sa_flags = SA_RESTART | SA_NOCLDSTOP};
    if (options.hook == NULL)
        return;
    if (stat(options.hook, &seen) != 0 || access(options.hook, X_OK) != 0)
        die("%s: can't be run for complete pages: %s", options.hook, strerror(errno));
    if (!S_ISREG(seen.st_mode))
        die("%s: can't be run for complete pages: it is no file", options.hook);
    if (realpath(options.directory, place) == NULL)
        die("%s: %s", options.directory, strerror(errno));
    wake = wake_descriptor();
    sigaction(SIGCHLD, &action, NULL);
}

static int is_known(uint64_t id, uint64_t file)
{
    for (size_t i = 0; i < MOST_HOOKS; i++)
        if (running[i].pid != 0 && running[i].id == id && running[i].file == file)
            return 1;
    for (const struct waiting *one = first; one != NULL; one = one->next)
        if (one->id == id && one->file == file)
            return 1;
    return 0;
}

/* The page is handed over once its turn comes. */
static void add(uint64_t id, uint64_t file)
{
    if (is_known(id, file))
        return;
    struct waiting *one = malloc(sizeof *one);
    if (one == NULL) {
        something_is_lost();
        warn("there is no memory for the hook of transfer %" PRIu64 "; it is run at the next start", id);
        return;
    }
    *one = (struct waiting){.id = id, .file = file};
    *end = one;
    end = &one->next;
}

static struct waiting take_first(void)
{
    struct waiting *one = first, taken = *one;
    first = one->next;
    if (first == NULL)
        end = &first;
    free(one);
    return taken;
}

/* Whether a page may be reported: it is noted on disk that its hook is to be run, or there is none. */
int owe_hook(struct transfer *t)
{
    char name[NAME_OCTETS];
    if (options.hook == NULL)
        return 1;
    name_of(name, t, "hook");
    int fd = open_file(name, O_WRONLY | O_CREAT);
    if (fd < 0) {
        int error = errno;
        t->put_off = now_ms() + TICK;
        if (is_lack_of_room(error))
            room_is_lacking(name, error);
        else if (!t->told)
            warn("%s/%s: can't be made, and the page waits: %s", options.directory, name, strerror(error));
        t->told = 1;
        something_is_lost();
        return 0;
    }
    close(fd);
    directory_changed = 1;
    cut_point("between the hook's note and the report");
    add(t->id, t->file);
    return 1;
}

/* A page that is reported again after a restart is handed over again where its hook hasn't ended well. */
void owe_again(const struct transfer *t)
{
    char name[NAME_OCTETS];
    name_of(name, t, "hook");
    if (options.hook != NULL && length_of(name) >= 0)
        add(t->id, t->file);
}

/* A page whose transfer was closed: it is checked anew, since nobody else does. */
static void take_up_closed(uint64_t id, uint64_t file)
{
    static struct transfer t;
    static struct check check;
    t = (struct transfer){.id = id, .file = file, .fd = -1, .meta_fd = -1, .suffix = "page"};
    name_of_file(check.name, &t);
    if (is_there(check.name)) {
        check.packet_len = read_meta(&t) == 0 ? meta_packet(check.packet, t.meta, t.meta_len) : 0;
        check.length = saratoga_read(check.packet, check.packet_len).size;
        run_check(&check);
        if (check.failed || check.verdict == SARATOGA_DIFFERS || !file_has_length(check.name, check.length)) {
            something_is_lost();
            warn("ERROR: %s/%s: isn't what its .meta says, and is NOT handed on to its hook; remove it, with its .meta, .sheet and .hook",
                 options.directory, check.name);
            return;
        }
    }
    add(id, file);
}

/* Pages that were reported, and whose transfer an earlier run closed before their hook ended well. */
void take_up_hooks(void)
{
    if (options.hook == NULL)
        return;
    DIR *list = list_directory();
    for (struct dirent *entry; (entry = readdir(list)) != NULL;) {
        uint64_t id, file;
        const char *suffix = parse_name(entry->d_name, &id, &file);
        if (suffix != NULL && strcmp(suffix, "hook") == 0 && transfer_of(id, file) == NULL)
            take_up_closed(id, file);
    }
    closedir(list);
}

/*
 * Starts the hook, with no shell between. It has nothing of this program's but standard error, which is its standard output too: lines are
 * this program's. A signal of the terminal isn't for it: it is in a process group of its own. Gives 0, or why it can't be started.
 */
static int spawn(pid_t *pid, char *const arguments[])
{
    extern char **environ;
    posix_spawnattr_t attributes;
    posix_spawn_file_actions_t actions;
    sigset_t all, none;
    sigfillset(&all);
    sigemptyset(&none);
    posix_spawnattr_init(&attributes);
    posix_spawnattr_setsigdefault(&attributes, &all);
    posix_spawnattr_setsigmask(&attributes, &none);
    posix_spawnattr_setpgroup(&attributes, 0);
    posix_spawnattr_setflags(&attributes, POSIX_SPAWN_SETSIGDEF | POSIX_SPAWN_SETSIGMASK | POSIX_SPAWN_SETPGROUP);
    posix_spawn_file_actions_init(&actions);
    int error = posix_spawn_file_actions_addopen(&actions, 0, "/dev/null", O_RDONLY, 0);
    error = error != 0 ? error : posix_spawn_file_actions_adddup2(&actions, 2, 1);
    error = error != 0 ? error : posix_spawn_file_actions_addclosefrom_np(&actions, 3);
    error = error != 0 ? error : posix_spawn(pid, options.hook, &actions, &attributes, arguments, environ);
    posix_spawn_file_actions_destroy(&actions);
    posix_spawnattr_destroy(&attributes);
    return error;
}

static void forget_note(uint64_t id, uint64_t file)
{
    char name[NAME_OCTETS];
    make_name(name, id, file, "hook");
    if (remove_file(name) != 0)
        warn("%s/%s: can't be removed: %s; the hook is run again at the next start", options.directory, name, strerror(errno));
}

/* Starts the hook of the page that waits longest. Gives 0 where it can't be started: it is tried again later. */
static int start_in(struct running *slot)
{
    static const char *const endings[] = {"page", "meta", "sheet"};
    char names[3][NAME_OCTETS], paths[3][PATH_MAX + 3 * NAME_OCTETS];
    char *arguments[] = {(char *)(uintptr_t)options.hook, paths[0], paths[1], paths[2], NULL};
    for (size_t i = 0; i < 3; i++) {
        make_name(names[i], first->id, first->file, endings[i]);
        snprintf(paths[i], sizeof paths[i], "%s/%s", place, names[i]);
    }
    if (!is_there(names[0])) { /* somebody took it away: an earlier hook, or an operator */
        report("0 hook id=%" PRIu64 " file=%s gone", first->id, names[0]);
        forget_note(first->id, first->file);
        take_first();
        return 1;
    }
    int error = spawn(&slot->pid, arguments);
    if (error != 0) {
        slot->pid = 0;
        not_before = now_ms() + INTERVAL;
        something_is_lost();
        if (!cannot_start)
            warn("%s: can't be started for %s: %s; it is tried again, and the page stays", options.hook, names[0], strerror(error));
    } else {
        const struct waiting taken = take_first();
        slot->id = taken.id;
        slot->file = taken.file;
    }
    cannot_start = error != 0;
    return !cannot_start;
}

/* How a hook ended. One that failed is run again at the next start, and not before: it would fail the same way. */
static void tell_end(const struct running *slot, int status)
{
    char name[NAME_OCTETS];
    int well = WIFEXITED(status) && WEXITSTATUS(status) == 0;
    make_name(name, slot->id, slot->file, "page");
    report("0 hook id=%" PRIu64 " file=%s %s=%d", slot->id, name, WIFEXITED(status) ? "status" : "signal",
           WIFEXITED(status) ? WEXITSTATUS(status) : WTERMSIG(status));
    if (well) {
        forget_note(slot->id, slot->file);
        return;
    }
    something_is_lost();
    warn("the hook of %s/%s failed; the page stays, and it is run again at the next start", options.directory, name);
}

static size_t count_running(void)
{
    size_t count = 0;
    for (size_t i = 0; i < MOST_HOOKS; i++)
        count += running[i].pid != 0;
    return count;
}

static void reap(void)
{
    int status;
    for (size_t i = 0; i < MOST_HOOKS; i++) {
        if (running[i].pid != 0 && waitpid(running[i].pid, &status, WNOHANG) == running[i].pid) {
            tell_end(&running[i], status);
            running[i].pid = 0;
        }
    }
}

/* Tells which hooks have ended, and starts those whose turn it is. */
void look_at_hooks(void)
{
    if (first == NULL && count_running() == 0)
        return;
    reap();
    for (size_t i = 0; i < options.hooks && first != NULL && now_ms() >= not_before; i++)
        while (running[i].pid == 0 && first != NULL && start_in(&running[i]))
            ;
}

/* For how many milliseconds no hook need be looked at, at most. The end of one wakes the program. */
static int wait_until(uint64_t until)
{
    uint64_t now = now_ms();
    return until <= now ? 0 : until - now < TICK ? (int)(until - now) : TICK;
}

static size_t count_waiting(void)
{
    size_t count = 0;
    for (const struct waiting *one = first; one != NULL; one = one->next)
        count++;
    return count;
}

/* At the end all hooks are waited for, so long; after a signal only those that run: the others are run at the next start. */
void finish_hooks(void)
{
    uint64_t until = now_ms() + options.hook_wait;
    struct pollfd ready = {.fd = wake, .events = POLLIN};
    look_at_hooks();
    if (count_running() > 0)
        say(0, "hooks running=%zu waiting=%zu", count_running(), count_waiting());
    while ((count_running() > 0 || (first != NULL && !stopped && !cannot_start)) && now_ms() < until) {
        flush_output();
        poll(&ready, 1, wait_until(until));
        hush_wake();
        tell_manager();
        if (stopped)
            reap();
        else
            look_at_hooks();
    }
    signal(SIGCHLD, SIG_DFL);
    if (count_running() + count_waiting() > 0)
        warn("the hooks of %zu pages still run, and those of %zu weren't started; they are run again at the next start", count_running(),
             count_waiting());
}
