/* serialbox.c: the box on a serial line. A pseudo-terminal is the line, the clock gives a tick every 0.1 s, standard input is the
 * buttons, one file keeps the saved copy and another takes the emptied log. Nothing here waits for the line, for a reader or for
 * a button; only a write of a file can make a tick late, and then the ticks that fell due are taken before anything else. */
#define _GNU_SOURCE
#include "nizhalepu.h"
#include "serialbox.h"

#include <errno.h>
#include <fcntl.h>
#include <getopt.h>
#include <poll.h>
#include <signal.h>
#include <stdio.h>
#include <stdlib.h>
#include <string.h>
#include <time.h>
#include <unistd.h>

static const char usage[] =
    "usage: serialbox [--saved FILE] [--log FILE] [--log-area BYTES] [--link PATH] [--help]\n"
    "The box on a pseudo-terminal, whose name is printed on standard output. Messages go to standard error.\n"
    "\n"
    "  --saved FILE      keeps the saved copy, 1600 bytes (serialbox.saved); a missing file is all zero\n"
    "  --log FILE        takes the emptied log, appended (serialbox.log): a new file, or one of whole records of 16\n"
    "                    bytes that begins with their mark 1E E2; any other is refused and left as it is\n"
    "  --log-area BYTES  length of the log area, 32 to 65536 (65536)\n"
    "  --link PATH       a symbolic link to the pseudo-terminal, removed at the end; an older link is replaced\n"
    "  --help            this text\n"
    "\n"
    "Lines on standard input:\n"
    "  1      button 1, Start/Stop\n"
    "  2      button 2, Pause\n"
    "  empty  empties the log into its file now\n"
    "  quit   ends the box\n"
    "\n"
    "When the saved copy is loaded, at the start and by command 007, a message names its Bad lines: a program that\n"
    "comes to one stops there with event 014. All 200 lines of a missing file are Bad.\n"
    "The log is also emptied before a change would be lost, and at the end. The end of standard input does not\n"
    "end the box: it goes on without buttons. SIGINT, SIGTERM and SIGHUP end it as quit does; under nohup\n"
    "SIGHUP does not.\n"
    "Status: 0 after quit or a signal, 1 if something could not be kept or done, 2 for a wrong option.\n";

static const int64_t second = 1000000000, tick_time = 100000000; /* in nanoseconds */

static struct nizhalepu_record record;
static uint8_t program[NIZHALEPU_PROGRAM], saved[NIZHALEPU_PROGRAM];
static uint8_t log_area[NIZHALEPU_LOG_MOST], emptied[NIZHALEPU_LOG_MOST];
static size_t log_length = NIZHALEPU_LOG_MOST;
static struct saved_file saved_file;
static struct log_file log_file;
static struct line line;
static int64_t next_tick;
static bool ticks_refused, quit;
static volatile sig_atomic_t signalled;

/* The box lends what the rules ask for, so only the end of the tick count is ever refused; if another call is, the box must not go
 * on as if it had been made. */
static bool accepted(const char *call, struct nizhalepu_said said) {
    if (said.refusal != 0)
        fprintf(stderr, "serialbox: %s is refused: %03u\n", call, (unsigned)said.refusal);
    return said.refusal == 0;
}

/* ---- the log */

/* Emptying frees the room in the log; what it gave is in `emptied` alone until log_append has put it in the file. */
static bool empty_log(size_t *count) {
    struct nizhalepu_said said = nizhalepu_empty(&record, log_area, log_length, emptied, sizeof emptied);
    *count = said.written;
    return accepted("emptying", said) && log_append(&log_file, emptied, said.written);
}

/* After every call: one call makes at most one change, so a log with room for one more change never loses one. From the R-th
 * change on the last of the R places is a gap. */
static bool keep_room(void) {
    size_t count, places = log_length / NIZHALEPU_LOG_RECORD;
    return record.log.kept + 1 < places || empty_log(&count);
}

/* ---- the clock */

static int64_t now(void) {
    struct timespec time;
    clock_gettime(CLOCK_MONOTONIC, &time);
    return time.tv_sec * second + time.tv_nsec;
}

static bool take_tick(void) {
    struct nizhalepu_said said = nizhalepu_tick(&record, program, sizeof program, log_area, log_length);
    if (!ticks_refused)
        ticks_refused = !accepted("every tick from now on", said);
    return keep_room();
}

/* Takes the ticks that have fallen due, one by one. Each is due 0.1 s after the one before it was due, however late that came. */
static bool take_ticks(void) {
    for (int64_t time = now(); next_tick <= time; next_tick += tick_time)
        if (!take_tick())
            return false;
    return true;
}

static struct timespec until_tick(void) {
    int64_t left = next_tick - now();
    if (left < 0)
        left = 0;
    return (struct timespec){.tv_sec = left / second, .tv_nsec = left % second};
}

/* ---- the wire */

enum { SPECIAL = 210, LOAD = 7, SAVE = 8 }; /* the variable, and the two commands that reach the saved copy */

/* The special command that this reply accepts, 0 where it accepts none. Only a write is answered with OK, and the box has then taken
 * its address for the last one written, and a special command for the last one accepted. */
static uint8_t special_accepted(const uint8_t *reply, size_t written) {
    bool ok = written == 3 && memcmp(reply, "OK\r", 3) == 0;
    return ok && record.wire.nextwrite == SPECIAL + 1 ? record.panel.special : 0;
}

/* Traffic brings this message about, and must not make the box wait for whoever reads it: a standard error that takes no more now is
 * full of messages that nobody has read, and gets none. */
static void tell_load(void) {
    struct pollfd messages = {.fd = STDERR_FILENO, .events = POLLOUT};
    if (poll(&messages, 1, 0) > 0)
        saved_tell(&saved_file, saved, sizeof saved);
}

/* A reply goes out when what it tells of is kept: the saved copy in its file, and the log where it had to be emptied. */
static bool take_byte(uint8_t byte) {
    uint8_t reply[NIZHALEPU_REPLY];
    struct nizhalepu_said said = nizhalepu_byte(&record, byte, program, sizeof program, saved, sizeof saved, log_area, log_length,
                                                reply, sizeof reply);
    if (!accepted("a byte", said))
        return false;
    uint8_t special = special_accepted(reply, said.written);
    if (special == LOAD)
        tell_load();
    if (special == SAVE && !saved_write(&saved_file, saved, sizeof saved))
        return false;
    if (!keep_room())
        return false;
    if (said.written == 0)
        return true;
    line_put(&line, reply, said.written);
    return line_flush(&line);
}

/* Takes no more bytes than there is room for their replies: what the other side does not read stops what it may send. */
static bool take_input(void) {
    static uint8_t bytes[LINE_QUEUE / NIZHALEPU_REPLY];
    size_t count, most = line_room(&line) / NIZHALEPU_REPLY;
    if (most == 0)
        return true;
    if (!line_read(&line, bytes, most, &count))
        return false;
    for (size_t i = 0; i < count; i++)
        if (!take_ticks() || !take_byte(bytes[i]))
            return false;
    return true;
}

/* ---- standard input */

static struct {
    char text[16]; /* the line so far; one that fills it is no command */
    size_t length;
    bool ended;
} commands;

static bool is_command(const char *name) {
    return commands.length == strlen(name) && memcmp(commands.text, name, commands.length) == 0;
}

static bool take_command(void) {
    if (is_command("1") || is_command("2")) {
        uint32_t button = (uint32_t)(commands.text[0] - '0');
        return accepted("a press", nizhalepu_press(&record, button, program, sizeof program, log_area, log_length)) && keep_room();
    }
    if (is_command("empty")) {
        size_t count;
        if (!empty_log(&count))
            return false;
        fprintf(stderr, "serialbox: %zu bytes of the log appended to %s\n", count, log_file.path);
    } else if (is_command("quit")) {
        quit = true;
    } else if (commands.length > 0) {
        fputs("serialbox: the lines of standard input are 1, 2, empty and quit\n", stderr);
    }
    return true;
}

/* Blanks and the 13 of a CR LF are no part of a command. */
static bool take_character(char c) {
    if (c == '\n') {
        bool taken = take_command();
        commands.length = 0;
        return taken;
    }
    if (c != ' ' && c != '\t' && c != '\r' && commands.length < sizeof commands.text)
        commands.text[commands.length++] = c;
    return true;
}

static bool take_commands(void) {
    char characters[512];
    ssize_t got = read(STDIN_FILENO, characters, sizeof characters);
    if (got < 0 && (errno == EINTR || errno == EAGAIN))
        return true;
    for (ssize_t i = 0; i < got && !quit; i++)
        if (!take_ticks() || !take_character(characters[i]))
            return false;
    if (got > 0)
        return true;
    if (got < 0)
        say_failed("cannot read", "standard input");
    commands.ended = true;
    fputs("serialbox: standard input has ended; the box goes on without buttons\n", stderr);
    return take_character('\n'); /* the last line may lack its end */
}

/* ---- the box */

/* Waits until a tick is due or something arrives. Signals come only while it waits. */
static bool serve(const sigset_t *outside) {
    while (!quit && !signalled) {
        struct pollfd waits[2] = {{.fd = line.master}, {.fd = commands.ended ? -1 : STDIN_FILENO, .events = POLLIN}};
        if (line_room(&line) >= NIZHALEPU_REPLY)
            waits[0].events |= POLLIN;
        if (line.queued > 0)
            waits[0].events |= POLLOUT;
        struct timespec left = until_tick();
        int ready = ppoll(waits, 2, &left, outside);
        if (ready < 0 && errno != EINTR) {
            say_failed("cannot wait for", line.name);
            return false;
        }
        if (!take_ticks())
            return false;
        if (ready > 0 && waits[1].revents != 0 && !take_commands())
            return false;
        if (ready > 0 && (waits[0].revents & ~POLLOUT) != 0 && !take_input())
            return false;
        if (!line_flush(&line))
            return false;
    }
    return true;
}

static void note_signal(int number) {
    (void)number;
    signalled = 1;
}

/* nohup says by an ignored SIGHUP that the box is to outlive its terminal. */
static bool is_ignored(int number) {
    struct sigaction before;
    return sigaction(number, NULL, &before) == 0 && before.sa_handler == SIG_IGN;
}

/* The signals that end the box are held back but while it waits. The others would stop or kill it where a read or write that
 * fails says enough. */
static sigset_t take_signals(void) {
    static const int ending[] = {SIGINT, SIGTERM, SIGHUP}, ignored[] = {SIGPIPE, SIGTTIN, SIGTTOU, SIGXFSZ};
    sigset_t held, outside;
    sigemptyset(&held);
    for (size_t i = 0; i < sizeof ending / sizeof *ending; i++) {
        if (ending[i] != SIGHUP || !is_ignored(SIGHUP))
            sigaction(ending[i], &(struct sigaction){.sa_handler = note_signal}, NULL);
        sigaddset(&held, ending[i]);
    }
    for (size_t i = 0; i < sizeof ignored / sizeof *ignored; i++)
        sigaction(ignored[i], &(struct sigaction){.sa_handler = SIG_IGN}, NULL);
    sigprocmask(SIG_BLOCK, &held, &outside);
    for (size_t i = 0; i < sizeof ending / sizeof *ending; i++)
        sigdelset(&outside, ending[i]);
    return outside;
}

/* A descriptor of 0 to 2 that was closed by the caller must not become the line or a file. */
static void fill_descriptors(void) {
    int descriptor;
    do
        descriptor = open("/dev/null", O_RDWR);
    while (descriptor >= 0 && descriptor <= 2);
    if (descriptor > 2)
        close(descriptor);
}

static _Noreturn void stop_with_usage(const char *why) {
    fprintf(stderr, "serialbox: %s\n%s", why, usage);
    exit(2);
}

static _Noreturn void print_usage(void) {
    if (fputs(usage, stdout) >= 0 && fflush(stdout) == 0)
        exit(EXIT_SUCCESS);
    say_failed("cannot print", "the help");
    exit(EXIT_FAILURE);
}

static size_t read_log_area(const char *text) {
    size_t number = 0;
    for (const char *c = text; *c != 0; c++) {
        if (*c < '0' || *c > '9' || number > NIZHALEPU_LOG_MOST)
            stop_with_usage("the log area is a number of bytes, 32 to 65536");
        number = number * 10 + (size_t)(*c - '0');
    }
    if (number < NIZHALEPU_LOG_LEAST || number > NIZHALEPU_LOG_MOST)
        stop_with_usage("the log area is a number of bytes, 32 to 65536");
    return number;
}

static struct {
    const char *saved, *log, *link;
} options = {"serialbox.saved", "serialbox.log", NULL};

static void read_options(int argc, char **argv) {
    static const struct option names[] = {{"saved", required_argument, NULL, 's'},    {"log", required_argument, NULL, 'l'},
                                          {"log-area", required_argument, NULL, 'a'}, {"link", required_argument, NULL, 'k'},
                                          {"help", no_argument, NULL, 'h'},           {NULL, 0, NULL, 0}};
    for (int option; (option = getopt_long(argc, argv, "", names, NULL)) != -1;) {
        switch (option) {
        case 's': options.saved = optarg; break;
        case 'l': options.log = optarg; break;
        case 'a': log_length = read_log_area(optarg); break;
        case 'k': options.link = optarg; break;
        case 'h': print_usage();
        default: stop_with_usage("wrong option");
        }
    }
    if (optind != argc)
        stop_with_usage("only options are taken");
}

/* Power-on, after everything it needs is there; then the name is printed and whoever reads it may begin. */
static bool switch_on(void) {
    if (!saved_open(&saved_file, options.saved, saved, sizeof saved) ||
        !log_open(&log_file, options.log, NIZHALEPU_LOG_RECORD) || !line_open(&line))
        return false;
    if (!accepted("power-on", nizhalepu_power_on(&record, program, sizeof program, saved, sizeof saved, log_area, log_length)))
        return false;
    next_tick = now() + tick_time;
    saved_tell(&saved_file, saved, sizeof saved);
    if (options.link != NULL && !link_make(options.link, line.name))
        return false;
    if (printf("%s\n", line.name) >= 0 && fflush(stdout) == 0)
        return true;
    say_failed("cannot print", line.name);
    if (options.link != NULL)
        link_remove(options.link, line.name);
    return false;
}

int main(int argc, char **argv) {
    size_t count;
    fill_descriptors();
    sigset_t outside = take_signals();
    read_options(argc, argv);
    if (!switch_on())
        return EXIT_FAILURE;
    bool good = serve(&outside);
    if (empty_log(&count))
        fprintf(stderr, "serialbox: off; %zu bytes of the log appended to %s\n", count, log_file.path);
    else
        good = false;
    if (options.link != NULL)
        link_remove(options.link, line.name);
    return good ? EXIT_SUCCESS : EXIT_FAILURE;
}
