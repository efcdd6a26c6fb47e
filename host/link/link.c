/*
 * A link program over the Saratoga receiver: a shell over the engine, and the example to copy.
 *
 * Packets come from a pass file or from a UDP socket. Payloads go to disk, one file for each transfer. What is written, what is told to
 * whom, and when, the engine says (include/saratoga_engine.h, docs/ENGINE.md); the program does it and says how it ended. A program that
 * was stopped, killed or cut off takes up what the last sync saved.
 *
 * At every moment each octet that the area's file holds as received is on disk, and nothing is said to anyone that the area's file doesn't
 * hold. docs/LINK.md goes through each place where the power can go. Here: start and end; link.h lists the files.
 */
#include "link.h"

const char *const program_name = "saratoga-link";
volatile sig_atomic_t stopped;

static void stop(int signal_number)
{
    (void)signal_number;
    stopped = 1;
}

static void hang_up(int signal_number)
{
    (void)signal_number;
    hung_up = 1;
}

/*
 * SIGHUP opens the log anew; a service without one goes on. Else the terminal is gone, and that is an orderly end, unless whoever started the
 * program has it ignored (nohup).
 */
static void take_hang_up(const struct sigaction *end)
{
    struct sigaction reopen = {.sa_handler = hang_up, .sa_flags = SA_RESTART}, before;
    sigaction(SIGHUP, NULL, &before);
    if (options.log != NULL || has_manager())
        sigaction(SIGHUP, &reopen, NULL);
    else if (before.sa_handler != SIG_IGN)
        sigaction(SIGHUP, end, NULL);
}

/* Without SA_RESTART, so that a wait ends. A write that a signal would end the program for fails in its place. */
static void take_signals(void)
{
    struct sigaction action = {.sa_handler = stop}, ignore = {.sa_handler = SIG_IGN};
    sigaction(SIGINT, &action, NULL);
    sigaction(SIGTERM, &action, NULL);
    take_hang_up(&action);
    sigaction(SIGPIPE, &ignore, NULL);
    sigaction(SIGXFSZ, &ignore, NULL);
}

/* What is done between packets beside what the engine says. */
void attend(void)
{
    look_at_log();
    look_at_hooks();
    tell_manager();
}

/* The directory is this program's until it ends. What was due when an earlier one ended waits for the socket, if there is to be one. */
static void run(void)
{
    prepare_hooks();
    take_up();
    if (options.metrics != NULL)
        begin_metrics();
    if (options.port == NULL)
        drive();
    if (options.to_close != NULL) {
        struct transfer *t = open_transfer(options.id_to_close);
        if (t == NULL || (options.file_to_close != 0 && options.file_to_close != t->file))
            die("transfer %" PRIu64 " isn't open", options.id_to_close);
        close_asked(options.id_to_close, options.file_to_close);
        if (!drive_to_the_end())
            die("%s/area: the closing can't be saved", options.directory);
    } else if (options.pass != NULL) {
        begin_live();
        from_pass(options.pass);
    } else {
        begin_live();
        from_socket(options.host, options.port, options.idle);
    }
    tell_stopping();
    keep_exact_number();
    write_open_sheets();
    finish_hooks();
}

int main(int count, char **arguments)
{
    open_output();
    take_arguments(count, arguments);
    find_manager();
    open_log();
    if (options.json)
        form_of_line = json_of_line;
    take_signals();
    if (options.settings != NULL)
        tell_settings(options.settings);
    open_directory();
    if (options.to_list)
        list_transfers();
    else if (lock_directory(0))
        run();
    else if (options.to_close != NULL)
        ask_to_close(options.id_to_close, options.file_to_close);
    else
        die("%s: another link program writes there", options.directory);
    count_beacons();
    finish_output();
    int status = exit_status();
    finish_output();
    return status;
}
