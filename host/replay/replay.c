/* replay, as a user runs it: reads the command line, runs the proved program beside it, and gives the exit status.

   The proved program has no exit status and reads standard input. So this one opens the pass, feeds it to the proved
   program through a pipe, passes on its lines octet by octet, and ends with 0 only where every octet of the pass was
   read, the pass ended between two records, and every line was written. */
#define _GNU_SOURCE
#include <errno.h>
#include <fcntl.h>
#include <poll.h>
#include <signal.h>
#include <stdio.h>
#include <stdlib.h>
#include <string.h>
#include <sys/prctl.h>
#include <sys/types.h>
#include <sys/wait.h>
#include <unistd.h>

#ifndef VERSION
#define VERSION "unknown"
#endif
/* Where the proved program is, from the folder that this one is in. */
#define PROVED "/../libexec/saratoga/replay"
#define CUT_SHORT " cut short\n"

enum { DONE = 0, FAILED = 1, USAGE = 2 };

static const char HELP[] =
    "usage: replay [PASS]\n"
    "Runs a recorded pass of Saratoga packets through the receiver, and prints every answer.\n"
    "\n"
    "  PASS        the file with the records; - or none is standard input\n"
    "  --help      this\n"
    "  --version   the version\n"
    "\n"
    "Exit status: 0 where all was read and written; 1 where the pass could not be read, is cut short, or a line could\n"
    "not be written; 2 for a wrong command line. More: man replay.\n";

/* Says what went wrong. A name is written with what is not printable as \xNN, so that it cannot steer a terminal. */
static void tell(const char *name, const char *what)
{
    fputs("replay: ", stderr);
    for (const unsigned char *at = (const unsigned char *)name; *at; at++) {
        if (*at < 0x20 || *at >= 0x7f || *at == '\\')
            fprintf(stderr, "\\x%02x", *at);
        else
            fputc(*at, stderr);
    }
    fprintf(stderr, ": %s\n", what);
}

static int wrong_usage(const char *name, const char *what)
{
    tell(name, what);
    fputs("usage: replay [PASS]; replay --help says more\n", stderr);
    return USAGE;
}

/* Whether to try again: after a signal, and where another program has set the file not to wait, once it is ready. */
static int again(int fd, short what)
{
    if (errno == EAGAIN || errno == EWOULDBLOCK) {
        struct pollfd ready = {.fd = fd, .events = what};
        return poll(&ready, 1, -1) >= 0 || errno == EINTR;
    }
    return errno == EINTR;
}

static ssize_t read_some(int fd, char *octets, size_t size)
{
    ssize_t got;
    do
        got = read(fd, octets, size);
    while (got < 0 && again(fd, POLLIN));
    return got;
}

static int write_all(int fd, const char *octets, size_t size)
{
    while (size > 0) {
        ssize_t put = write(fd, octets, size);
        if (put < 0 && again(fd, POLLOUT))
            continue;
        if (put < 0)
            return -1;
        octets += put;
        size -= (size_t)put;
    }
    return 0;
}

/* A child ends with this program, also where a signal ends it. */
static pid_t child(void)
{
    pid_t parent = getpid();
    pid_t pid = fork();
    if (pid == 0) {
        prctl(PR_SET_PDEATHSIG, SIGKILL);
        if (getppid() != parent)
            _exit(FAILED);
    }
    return pid;
}

/* Gives the pass to the proved program, which may end before it has read everything. */
static int feed(int from, int to, const char *name)
{
    static char octets[65536];
    for (;;) {
        ssize_t got = read_some(from, octets, sizeof octets);
        if (got < 0) {
            tell(name, strerror(errno));
            return FAILED;
        }
        if (got == 0 || write_all(to, octets, (size_t)got) != 0)
            return DONE;
    }
}

/* The last octets of the output, as many as CUT_SHORT has. */
struct tail {
    char octets[sizeof CUT_SHORT - 1];
    size_t length;
};

static void keep_tail(struct tail *tail, const char *octets, size_t size)
{
    size_t room = sizeof tail->octets;
    size_t add = size < room ? size : room;
    size_t stay = tail->length < room - add ? tail->length : room - add;
    memmove(tail->octets, tail->octets + tail->length - stay, stay);
    memcpy(tail->octets + stay, octets + size - add, add);
    tail->length = stay + add;
}

/* Passes the lines on. Says nothing of a reader that has ended: it knows. */
static int pass_on(int from, struct tail *tail)
{
    static char octets[65536];
    for (;;) {
        ssize_t got = read_some(from, octets, sizeof octets);
        if (got < 0) {
            tell("the proved program", strerror(errno));
            return FAILED;
        }
        if (got == 0)
            break;
        keep_tail(tail, octets, (size_t)got);
        if (write_all(STDOUT_FILENO, octets, (size_t)got) != 0) {
            if (errno != EPIPE)
                tell("standard output", strerror(errno));
            return FAILED;
        }
    }
    if (close(STDOUT_FILENO) != 0) {
        tell("standard output", strerror(errno));
        return FAILED;
    }
    return DONE;
}

/* The path of the proved program. */
static int find_proved(char *path, size_t size)
{
    ssize_t length = readlink("/proc/self/exe", path, size);
    if (length < 0 || (size_t)length >= size)
        return -1;
    path[length] = '\0';
    char *slash = strrchr(path, '/');
    if (slash == NULL || (size_t)(slash - path) + sizeof PROVED > size)
        return -1;
    memcpy(slash, PROVED, sizeof PROVED);
    return 0;
}

static int ended_well(pid_t pid)
{
    int status;
    while (waitpid(pid, &status, 0) < 0)
        if (errno != EINTR)
            return 0;
    return WIFEXITED(status) && WEXITSTATUS(status) == 0;
}

static void end(pid_t pid)
{
    kill(pid, SIGKILL);
    while (waitpid(pid, NULL, 0) < 0 && errno == EINTR)
        ;
}

/* Runs the proved program on an open file, and gives the exit status. */
static int replay(int input, const char *name)
{
    char path[4096 + sizeof PROVED] = PROVED;
    if (find_proved(path, sizeof path) != 0 || access(path, X_OK) != 0) {
        tell(path, "the proved program is not here");
        return FAILED;
    }
    int pass[2], lines[2];
    if (pipe2(pass, O_CLOEXEC) != 0 || pipe2(lines, O_CLOEXEC) != 0) {
        tell("pipe", strerror(errno));
        return FAILED;
    }
    pid_t program = child();
    if (program == 0) {
        signal(SIGPIPE, SIG_DFL);
        if (dup2(pass[0], STDIN_FILENO) >= 0 && dup2(lines[1], STDOUT_FILENO) >= 0)
            execl(path, "replay", (char *)NULL);
        tell(path, strerror(errno));
        _exit(FAILED);
    }
    close(pass[0]);
    close(lines[1]);
    pid_t feeder = program < 0 ? -1 : child();
    if (feeder == 0) {
        close(lines[0]);
        _exit(feed(input, pass[1], name));
    }
    close(pass[1]);
    if (feeder < 0) {
        tell("fork", strerror(errno));
        if (program > 0)
            end(program);
        return FAILED;
    }
    struct tail tail = {.length = 0};
    if (pass_on(lines[0], &tail) != DONE) {
        end(feeder);
        end(program);
        return FAILED;
    }
    int status = DONE;
    if (!ended_well(program)) {
        tell(path, "the proved program did not end by itself");
        end(feeder);
        return FAILED;
    }
    if (!ended_well(feeder))
        status = FAILED;
    else if (tail.length == sizeof tail.octets && memcmp(tail.octets, CUT_SHORT, tail.length) == 0) {
        tell(name, "cut short: the pass ends inside its last record");
        status = FAILED;
    }
    return status;
}

static int print(const char *text)
{
    if (write_all(STDOUT_FILENO, text, strlen(text)) != 0 || close(STDOUT_FILENO) != 0) {
        tell("standard output", strerror(errno));
        return FAILED;
    }
    return DONE;
}

/* The three standard files are there, so that no pipe takes the number of one that the caller had closed. */
static int standard_files(int *no_input)
{
    *no_input = fcntl(STDIN_FILENO, F_GETFD) < 0;
    int no_output = fcntl(STDOUT_FILENO, F_GETFD) < 0;
    int fd;
    do
        fd = open("/dev/null", O_RDWR | O_CLOEXEC);
    while (fd >= 0 && fd <= STDERR_FILENO);
    if (fd >= 0)
        close(fd);
    if (no_output)
        tell("standard output", strerror(EBADF));
    return no_output ? -1 : 0;
}

int main(int argc, char **argv)
{
    int no_input;
    signal(SIGPIPE, SIG_IGN);
    signal(SIGXFSZ, SIG_IGN);
    signal(SIGCHLD, SIG_DFL); /* where the caller ignores it, nobody could be waited for */
    if (standard_files(&no_input) != 0)
        return FAILED;
    const char *name = NULL;
    int options = 1;
    for (int i = 1; i < argc; i++) {
        const char *word = argv[i];
        if (options && word[0] == '-' && word[1] != '\0') {
            if (strcmp(word, "--") == 0)
                options = 0;
            else if (strcmp(word, "--help") == 0 || strcmp(word, "-h") == 0)
                return print(HELP);
            else if (strcmp(word, "--version") == 0)
                return print("replay (saratoga) " VERSION "\n");
            else
                return wrong_usage(word, "no such option");
        } else if (name != NULL) {
            return wrong_usage(word, "one pass at a time");
        } else {
            name = word;
        }
    }
    if (name == NULL || strcmp(name, "-") == 0) {
        if (no_input) {
            tell("standard input", strerror(EBADF));
            return FAILED;
        }
        return replay(STDIN_FILENO, "standard input");
    }
    int input = open(name, O_RDONLY | O_CLOEXEC);
    if (input < 0) {
        tell(name, strerror(errno));
        return FAILED;
    }
    return replay(input, name);
}
