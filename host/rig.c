/* rig.c: the box by hand, for trial scripts and for comparison. A line of text makes one call or looks at an area, and one line
 * answers it, at once. The rig lends what the line says, right or wrong; what document 01 lets the box decide, the box decides. */
#define _POSIX_C_SOURCE 200809L
#include "nizhalepu.h"

#include <errno.h>
#include <signal.h>
#include <stdio.h>
#include <stdlib.h>
#include <string.h>

static const char usage[] =
    "usage: rig [--help]\n"
    "Reads lines from standard input and answers each with one line, at once.\n"
    "\n"
    "  on P S L          power-on                    -> R\n"
    "  byte B P S L Y    one byte from the wire      -> R LINES LEN HEX\n"
    "  tick P L          one tick                    -> R LINES\n"
    "  ticks N P L       N ticks                     -> R LINES (the last refusal, all lines)\n"
    "  press N P L       button N, to 4294967295     -> R LINES\n"
    "  empty L D         emptying the log            -> R COUNT\n"
    "  set AREA AT HEX   the caller alters an area   -> ok\n"
    "  get AREA AT N     N bytes of an area          -> HEX\n"
    "\n"
    "P, S, L, Y and D are the lengths to lend of the program area, the saved copy, the log, the reply and the\n"
    "destination: at most 2000, 2000, 70000, 64 and 70000, which the rig has, all zero at the start. AREA is\n"
    "program, saved, log, reply or dest. R is the refusal, 0 where the call is accepted. Numbers are decimal,\n"
    "HEX is pairs of digits, capitals in an answer and either in set, - for none. Words stand apart by blanks or\n"
    "tabs. A line that cannot be read, or that asks for more than the rig has, gets ? and does nothing.\n"
    "ticks stops at a refused tick, since all later ones are refused alike; of 0 ticks it says 0 0.\n"
    "Before the first on, the box is one whose power-on was refused.\n";

/* ---- the areas */

static uint8_t program[2000], saved[2000], log_area[70000], reply[64], dest[70000];

struct area {
    const char *name;
    uint8_t *bytes;
    size_t size;
};

static const struct area areas[] = {
    {"program", program, sizeof program}, {"saved", saved, sizeof saved}, {"log", log_area, sizeof log_area},
    {"reply", reply, sizeof reply},       {"dest", dest, sizeof dest},
};

static struct nizhalepu_record record;

/* ---- reading a line. A line is a stretch of bytes: a NUL is a character that no word has. */

struct text {
    const char *at, *end;
};

static size_t length_of(struct text text) {
    return (size_t)(text.end - text.at);
}

static bool is_blank(char c) {
    return c == ' ' || c == '\t';
}

/* Takes the next word off the line; of length 0 where there is none. */
static struct text next_word(struct text *line) {
    while (line->at < line->end && is_blank(*line->at))
        line->at++;
    struct text word = {line->at, line->at};
    while (word.end < line->end && !is_blank(*word.end))
        word.end++;
    line->at = word.end;
    return word;
}

static bool is_word(struct text word, const char *name) {
    return length_of(word) == strlen(name) && memcmp(word.at, name, length_of(word)) == 0;
}

static bool at_end(struct text *line) {
    return length_of(next_word(line)) == 0;
}

/* A decimal number of at most `most`: digits alone, no sign; leading zeros are taken. */
static bool read_number(struct text *line, uint64_t most, uint64_t *number) {
    struct text word = next_word(line);
    if (length_of(word) == 0)
        return false;
    *number = 0;
    for (; word.at < word.end; word.at++) {
        if (*word.at < '0' || *word.at > '9')
            return false;
        uint64_t digit = (uint64_t)(*word.at - '0');
        if (*number > (UINT64_MAX - digit) / 10)
            return false;
        *number = *number * 10 + digit;
    }
    return *number <= most;
}

/* How much of an area to lend: the rig cannot lend what it does not have. */
static bool read_length(struct text *line, size_t size, size_t *length) {
    uint64_t number;
    if (!read_number(line, size, &number))
        return false;
    *length = number;
    return true;
}

static const struct area *read_area(struct text *line) {
    struct text word = next_word(line);
    for (size_t i = 0; i < sizeof areas / sizeof *areas; i++)
        if (is_word(word, areas[i].name))
            return &areas[i];
    return NULL;
}

/* The value of a hex digit of either case, 16 for any other character. */
static unsigned hex_value(char c) {
    if (c >= '0' && c <= '9')
        return (unsigned)(c - '0');
    if (c >= 'A' && c <= 'F')
        return (unsigned)(c - 'A') + 10;
    if (c >= 'a' && c <= 'f')
        return (unsigned)(c - 'a') + 10;
    return 16;
}

/* ---- answering */

static void print_hex(const uint8_t *bytes, size_t count) {
    if (count == 0)
        putchar('-');
    for (size_t i = 0; i < count; i++) {
        putchar("0123456789ABCDEF"[bytes[i] >> 4]);
        putchar("0123456789ABCDEF"[bytes[i] & 15]);
    }
    putchar('\n');
}

static void print_lines(struct nizhalepu_said said) {
    printf("%u %u\n", (unsigned)said.refusal, (unsigned)said.lines);
}

/* ---- the lines of the rig: each reads the rest of its line, and false means that it could not and did nothing */

static bool do_on(struct text *line) {
    size_t p, s, l;
    if (!read_length(line, sizeof program, &p) || !read_length(line, sizeof saved, &s) || !read_length(line, sizeof log_area, &l) ||
        !at_end(line))
        return false;
    printf("%u\n", (unsigned)nizhalepu_power_on(&record, program, p, saved, s, log_area, l).refusal);
    return true;
}

static bool do_byte(struct text *line) {
    uint64_t byte;
    size_t p, s, l, y;
    if (!read_number(line, UINT8_MAX, &byte) || !read_length(line, sizeof program, &p) || !read_length(line, sizeof saved, &s) ||
        !read_length(line, sizeof log_area, &l) || !read_length(line, sizeof reply, &y) || !at_end(line))
        return false;
    struct nizhalepu_said said = nizhalepu_byte(&record, (uint8_t)byte, program, p, saved, s, log_area, l, reply, y);
    printf("%u %u %zu ", (unsigned)said.refusal, (unsigned)said.lines, said.written);
    print_hex(reply, said.written < y ? said.written : y); /* a length beyond what was lent is shown, not followed */
    return true;
}

static bool do_tick(struct text *line) {
    size_t p, l;
    if (!read_length(line, sizeof program, &p) || !read_length(line, sizeof log_area, &l) || !at_end(line))
        return false;
    print_lines(nizhalepu_tick(&record, program, p, log_area, l));
    return true;
}

static bool do_ticks(struct text *line) {
    uint64_t count, lines = 0;
    size_t p, l;
    if (!read_number(line, UINT64_MAX, &count) || !read_length(line, sizeof program, &p) ||
        !read_length(line, sizeof log_area, &l) || !at_end(line))
        return false;
    struct nizhalepu_said said = {0};
    for (; count > 0 && said.refusal == 0; count--) {
        said = nizhalepu_tick(&record, program, p, log_area, l);
        lines += said.lines;
    }
    printf("%u %llu\n", (unsigned)said.refusal, (unsigned long long)lines);
    return true;
}

static bool do_press(struct text *line) {
    uint64_t button;
    size_t p, l;
    if (!read_number(line, UINT32_MAX, &button) || !read_length(line, sizeof program, &p) ||
        !read_length(line, sizeof log_area, &l) || !at_end(line))
        return false;
    print_lines(nizhalepu_press(&record, (uint32_t)button, program, p, log_area, l));
    return true;
}

static bool do_empty(struct text *line) {
    size_t l, d;
    if (!read_length(line, sizeof log_area, &l) || !read_length(line, sizeof dest, &d) || !at_end(line))
        return false;
    struct nizhalepu_said said = nizhalepu_empty(&record, log_area, l, dest, d);
    printf("%u %zu\n", (unsigned)said.refusal, said.written);
    return true;
}

/* All digits are read before a byte is altered. */
static bool do_set(struct text *line) {
    const struct area *area = read_area(line);
    uint64_t at;
    if (area == NULL || !read_number(line, area->size, &at))
        return false;
    struct text hex = next_word(line);
    if (length_of(hex) == 0 || !at_end(line))
        return false;
    if (is_word(hex, "-"))
        hex.end = hex.at;
    if (length_of(hex) % 2 != 0 || length_of(hex) / 2 > area->size - at)
        return false;
    for (const char *c = hex.at; c < hex.end; c++)
        if (hex_value(*c) > 15)
            return false;
    for (uint8_t *byte = area->bytes + at; hex.at < hex.end; hex.at += 2)
        *byte++ = (uint8_t)(hex_value(hex.at[0]) << 4 | hex_value(hex.at[1]));
    puts("ok");
    return true;
}

static bool do_get(struct text *line) {
    const struct area *area = read_area(line);
    uint64_t at, count;
    if (area == NULL || !read_number(line, area->size, &at) || !read_number(line, area->size - at, &count) || !at_end(line))
        return false;
    print_hex(area->bytes + at, count);
    return true;
}

static const struct {
    const char *name;
    bool (*take)(struct text *line);
} commands[] = {
    {"on", do_on},       {"byte", do_byte},   {"tick", do_tick}, {"ticks", do_ticks},
    {"press", do_press}, {"empty", do_empty}, {"set", do_set},   {"get", do_get},
};

static void answer(struct text line) {
    struct text word = next_word(&line);
    for (size_t i = 0; i < sizeof commands / sizeof *commands; i++)
        if (is_word(word, commands[i].name) && commands[i].take(&line))
            return;
    puts("?");
}

/* ---- standard input and output */

enum { LINE_MOST = 1 << 20 }; /* the longest line that is read; setting a whole area takes 140,000 digits */

static char characters[LINE_MOST];

/* The next line without its end, LF or CR LF; the last one may lack it. A longer line than is read comes as an empty one. False
 * at the end of the input, and at an error: what stood before it is not a whole line. */
static bool next_line(struct text *line) {
    size_t count = 0;
    int c;
    while ((c = getc_unlocked(stdin)) != EOF && c != '\n') {
        if (count < LINE_MOST)
            characters[count] = (char)c;
        if (count <= LINE_MOST)
            count++;
    }
    if (c == EOF && (count == 0 || ferror(stdin)))
        return false;
    if (count > LINE_MOST)
        count = 0;
    if (count > 0 && characters[count - 1] == '\r')
        count--;
    *line = (struct text){characters, characters + count};
    return true;
}

static int fail(const char *what) {
    fprintf(stderr, "rig: %s: %s\n", what, strerror(errno));
    return EXIT_FAILURE;
}

int main(int argc, char **argv) {
    signal(SIGPIPE, SIG_IGN); /* a closed output is told by the write that fails */
    if (argc == 2 && strcmp(argv[1], "--help") == 0)
        return fputs(usage, stdout) < 0 || fflush(stdout) != 0 ? fail("cannot write") : EXIT_SUCCESS;
    if (argc != 1) {
        fputs(usage, stderr);
        return 2;
    }
    /* The calls want a record that power-on made. A refused one makes it too, and the box then refuses every call itself. */
    nizhalepu_power_on(&record, program, 0, saved, 0, log_area, 0);

    for (struct text line; next_line(&line);) {
        answer(line);
        if (fflush(stdout) != 0 || ferror(stdout))
            return fail("cannot write");
    }
    return ferror(stdin) ? fail("cannot read") : EXIT_SUCCESS;
}
