/* shell.c: shell.h says what each function does. One program has one output, and one input at a time, so both are kept here. */
#define _POSIX_C_SOURCE 200809L
#include "shell.h"

#include <errno.h>
#include <fcntl.h>
#include <inttypes.h>
#include <poll.h>
#include <signal.h>
#include <stdio.h>
#include <stdlib.h>
#include <string.h>
#include <unistd.h>

enum { BLOCK = 4096, SHOWN = 4096 }; /* bytes of output that are gathered, and the most that a message shows of an argument */

static const char *self, *usage; /* the program's name, and its arguments */

static char *no_file[] = {"-"}; /* a call without a FILE reads what one with `-` reads */
static char **files = no_file;
static int file_count = 1, files_begun;

static const char *input_name;
static int input = -1;
static bool ended;

static char block[BLOCK];
static size_t gathered;

/* ---- messages */

/* What cannot be done with what, and why, by errno. The names of files stand in quotes, those of the streams do not. */
static _Noreturn void fail(const char *verb, const char *quote, const char *name)
{
    fprintf(stderr, "%s: cannot %s %s%.*s%s: %s\n", self, verb, quote, SHOWN, name, quote, strerror(errno));
    exit(EXIT_FAILURE);
}

static _Noreturn void fail_on_call(const char *message, const char *argument)
{
    fprintf(stderr, "%s: %s '%.*s'\n", self, message, SHOWN, argument);
    fprintf(stderr, "%s: how to call it: %s %s\n", self, self, usage);
    exit(2);
}

_Noreturn void shell_wrong_line(uint64_t line, const char *what, const char *how)
{
    fprintf(stderr, "%s: line %" PRIu64 ": %s\n", self, line, what);
    fprintf(stderr, "%s: %s\n", self, how);
    exit(EXIT_FAILURE);
}

static bool is_standard_input(const char *name)
{
    return strcmp(name, "-") == 0;
}

/* What was answered before stands, so it goes out before the message; if it cannot, that is told and not this. */
static _Noreturn void fail_on_input(const char *verb)
{
    int error = errno;
    shell_flush();
    errno = error;
    if (is_standard_input(input_name))
        fail(verb, "", "standard input");
    fail(verb, "'", input_name);
}

/* ---- output */

static void write_all(const char *bytes, size_t count)
{
    while (count > 0) {
        ssize_t written = write(STDOUT_FILENO, bytes, count);
        if (written < 0)
            fail("write", "", "standard output");
        bytes += written;
        count -= (size_t)written;
    }
}

void shell_flush(void)
{
    write_all(block, gathered);
    gathered = 0;
}

void shell_put(const void *bytes, size_t count)
{
    if (count > BLOCK - gathered)
        shell_flush();
    if (count > BLOCK) {
        write_all(bytes, count);
    } else {
        memcpy(block + gathered, bytes, count);
        gathered += count;
    }
}

/* ---- input */

bool shell_next_input(void)
{
    if (input >= 0 && !is_standard_input(input_name))
        close(input);
    input = -1;
    if (files_begun == file_count)
        return false;
    input_name = files[files_begun++];
    ended = false;
    if (is_standard_input(input_name)) {
        input = STDIN_FILENO;
        return true;
    }
    shell_flush(); /* to open a FIFO is to wait for its writer */
    input = open(input_name, O_RDONLY | O_NOCTTY);
    if (input < 0)
        fail_on_input("open");
    return true;
}

/* Would a read have to wait? Where that cannot be told it counts as waiting, and the answers go out too early at worst. */
static bool would_wait(void)
{
    struct pollfd polled = {.fd = input, .events = POLLIN};
    return poll(&polled, 1, 0) <= 0;
}

size_t shell_read(void *to, size_t most)
{
    if (ended) /* a terminal gives more after its end, to whoever asks again */
        return 0;
    if (gathered > 0 && would_wait())
        shell_flush();
    ssize_t count = read(input, to, most);
    if (count < 0)
        fail_on_input("read");
    ended = count == 0;
    return (size_t)count;
}

size_t shell_read_piece(void *to, size_t count)
{
    char *bytes = to;
    size_t length = 0;
    while (length < count && !ended)
        length += shell_read(bytes + length, count - length);
    return length;
}

_Noreturn void shell_refuse_input(unsigned refusal, const char *why)
{
    const char *quote = is_standard_input(input_name) ? "" : "'", *name = is_standard_input(input_name) ? "standard input" : input_name;
    char line[8];
    int length = snprintf(line, sizeof line, "E%03u\n", refusal % 1000);
    shell_put(line, (size_t)length);
    shell_flush();
    fprintf(stderr, "%s: %s%.*s%s is refused with E%03u%s\n", self, quote, SHOWN, name, quote, refusal % 1000, why);
    exit(EXIT_FAILURE);
}

/* ---- arguments */

void shell_start(const char *name, const char *arguments, int most, int argc, char **argv)
{
    self = name;
    usage = arguments;
    for (int i = 1; i < argc; i++) {
        if (argv[i][0] == '-' && argv[i][1] != '\0')
            fail_on_call("there is no option", argv[i]);
        if (i > most)
            fail_on_call("one argument too many:", argv[i]);
    }
    if (argc > 1) {
        files = argv + 1;
        file_count = argc - 1;
    }
    signal(SIGPIPE, SIG_IGN); /* a closed output is told by the write that fails */
}

void shell_numbers(uint64_t *numbers, int count)
{
    if (files == no_file)
        return;
    for (; count > 0 && file_count > 0; count--) {
        if (!shell_number(*files, numbers++))
            fail_on_call("no number:", *files);
        files++;
        file_count--;
    }
    if (file_count == 0) {
        files = no_file;
        file_count = 1;
    }
}

bool shell_number(const char *word, uint64_t *number)
{
    uint64_t value = 0;
    const char *at = word;
    for (; *at >= '0' && *at <= '9'; at++) {
        uint64_t digit = (uint64_t)(*at - '0');
        value = value > (UINT64_MAX - digit) / 10 ? UINT64_MAX : 10 * value + digit;
    }
    if (at == word || *at != '\0')
        return false;
    *number = value;
    return true;
}
