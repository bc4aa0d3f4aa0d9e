#include "lists.h"

#include "clock.h"
#include "listed.h"
#include "loglist.h"

#include <stdlib.h>
#include <string.h>

enum {
    BEHIND = 128, /* bytes behind the largest text, which must stay */
    AREA = LOG_LIST_ROOM + BEHIND,
    NEAR = 64,         /* bytes behind the text that are looked at each time */
    WHOLE_AFTER = 256, /* the whole area is looked at once in as many logs: it is long and most texts are short */
    COPIES = 32,       /* of a log in each form */
    LONG = 100,        /* records: of a log with more there is one copy */
    EPISODES = 20,     /* in which one log as long as can be is made up */
    SHORTEN_SECONDS = 5
};

/* ---- one log */

static void read_both(struct lists *lists)
{
    const struct log *log = &lists->log;
    lists->written[PROVED] = nizhalepu_list(log->bytes, log->length, lists->text[PROVED], lists->room);
    lists->written[INDEPENDENT] = log_list(log->bytes, log->length, lists->text[INDEPENDENT], lists->room);
}

/* Reads the log and looks at `count` bytes of the text areas. These are filled before, each time with another byte, so that no text
 * hides behind an equal one that was there already. */
static bool agree(struct lists *lists, size_t count)
{
    for (int i = 0; i < BOXES; i++) memset(lists->text[i], (int)(lists->read % 251), count);
    read_both(lists);
    return lists->written[PROVED] == lists->written[INDEPENDENT] &&
           memcmp(lists->text[PROVED], lists->text[INDEPENDENT], count) == 0;
}

/* Bytes of the text areas that the text of the log may reach, and some more. */
static size_t reach(const struct lists *lists)
{
    size_t lines = (lists->log.length / LOG_OLDER_RECORD + 1) * LOG_LIST_LINE + NEAR;
    return lists->read % WHOLE_AFTER == 0 || lines > AREA ? AREA : lines;
}

/* Seldom too little room for a text, or more than it takes. */
static size_t any_room(struct chance *chance)
{
    switch (chance_below(chance, 200)) {
    case 0:
        return LOG_LIST_ROOM - 1;
    case 1:
        return chance_below(chance, LOG_LIST_ROOM);
    case 2:
        return LOG_LIST_ROOM + chance_between(chance, 1, BEHIND);
    default:
        return LOG_LIST_ROOM;
    }
}

static void store_part(FILE *file, const uint8_t *bytes, size_t length)
{
    for (int shift = 24; shift >= 0; shift -= 8) putc((int)(length >> shift & 255), file);
    fwrite(bytes, 1, length, file);
}

/* Where there was room for a text: the log and what the proved reader says to it. */
static void store(struct lists *lists)
{
    if (lists->file == NULL || lists->room < LOG_LIST_ROOM) return;
    store_part(lists->file, lists->log.bytes, lists->log.length);
    store_part(lists->file, lists->text[PROVED], lists->written[PROVED]);
}

static bool refused(const struct lists *lists)
{
    return lists->written[PROVED] > 0 && lists->text[PROVED][0] == 'E';
}

/* By the first two bytes; a file that has not as many is of none. */
static void count_mark(struct lists *lists)
{
    unsigned mark = log_mark(lists->log.bytes, lists->log.length);
    lists->statistics->marks[mark == MARK_PRESENT ? PRESENT : mark == MARK_OLDER ? OLDER : FORMS]++;
}

static bool read_log(struct lists *lists)
{
    lists->room = any_room(&lists->chance);
    if (!agree(lists, reach(lists))) return false;
    lists->read++;
    store(lists);
    enum listed listed = LISTED_NO_ROOM;
    if (lists->room >= LOG_LIST_ROOM) listed = listed_as(&lists->log, lists->text[PROVED], lists->written[PROVED]);
    lists->statistics->listed[listed]++;
    count_mark(lists);
    return true;
}

/* ---- many */

static void take_whole(struct lists *lists)
{
    lists->log.form = lists->whole.form;
    lists->log.length = lists->whole.length;
    memcpy(lists->log.bytes, lists->whole.bytes, lists->whole.length);
}

/* Copies of the whole log with one thing done to each, or two. */
static bool read_spoiled(struct lists *lists)
{
    struct chance *chance = &lists->chance;
    bool few = lists->whole.length == 0 || log_records(&lists->whole) > LONG;
    for (unsigned n = few ? 1 : COPIES; n > 0; n--) {
        take_whole(lists);
        log_spoil(&lists->log, chance);
        if (chance_one_in(chance, 4)) log_spoil(&lists->log, chance);
        if (!read_log(lists)) return false;
    }
    return true;
}

/* The whole log, which is to be accepted where only a box wrote it, and spoiled copies. */
static bool read_whole(struct lists *lists, bool written_by_box)
{
    take_whole(lists);
    if (!read_log(lists)) return false;
    lists->own_refused = written_by_box && refused(lists);
    return !lists->own_refused && read_spoiled(lists);
}

/* What the box wrote, and the same as one of the older form would have written it: what is possible in the one is so in the other. */
bool lists_emptied(struct lists *lists, const uint8_t *bytes, size_t length, bool altered)
{
    lists->whole.form = PRESENT;
    lists->whole.length = length;
    memcpy(lists->whole.bytes, bytes, length);
    if (!read_whole(lists, !altered)) return false;
    take_whole(lists);
    log_make_older(&lists->whole, &lists->log);
    return read_whole(lists, !altered);
}

/* As many changes as can be, the same and a gap, and one change more, in turn, of either form. */
static void make_most(struct lists *lists)
{
    uint64_t turn = lists->statistics->episodes / EPISODES % 6;
    enum form form = turn < 3 ? PRESENT : OLDER;
    size_t most = log_most_records(form);
    log_make(&lists->whole, form, &lists->chance, turn % 3 == 2 ? most : most - 1, turn % 3 == 1);
}

bool lists_made_up(struct lists *lists)
{
    struct chance *chance = &lists->chance;
    if (lists->statistics->episodes % EPISODES == 1) {
        make_most(lists);
    } else {
        enum form form = chance_one_in(chance, 2) ? PRESENT : OLDER;
        uint32_t most = chance_one_in(chance, EPISODES) ? (uint32_t)log_most_records(form) - 1 : 20;
        log_make(&lists->whole, form, chance, chance_between(chance, 1, most), chance_one_in(chance, 2));
    }
    return read_whole(lists, false);
}

/* ---- a difference */

/* Tries the log without `count` records at `place`. */
static bool shorter(struct lists *lists, size_t place, size_t count)
{
    struct log *log = &lists->log;
    lists->whole = *log;
    size_t at = place * log_record_bytes(log->form), by = count * log_record_bytes(log->form);
    memmove(log->bytes + at, log->bytes + at + by, log->length - at - by);
    log->length -= by;
    if (!agree(lists, AREA)) return true;
    *log = lists->whole;
    return false;
}

/* Halves, quarters and so on down to single records, the late ones first; again until nothing goes. */
static void shorten(struct lists *lists)
{
    uint64_t end = clock_nanoseconds() + (uint64_t)SHORTEN_SECONDS * 1000000000u;
    for (bool gone = true; gone;) {
        gone = false;
        for (size_t size = log_records(&lists->log); size > 0; size /= 2)
            for (size_t place = log_records(&lists->log); place >= size; place -= size) {
                if (clock_nanoseconds() > end) return;
                gone = shorter(lists, place - size, size) || gone;
            }
    }
}

/* A record to a line; of many the first and the last. */
static void print_log(const struct log *log)
{
    enum { SHOWN = 20 };
    size_t bytes = log_record_bytes(log->form), count = (log->length + bytes - 1) / bytes;
    for (size_t i = 0; i < count; i++) {
        if (i == SHOWN && count > 2 * SHOWN) {
            i = count - SHOWN;
            printf("  and %zu records\n", i - SHOWN);
        }
        printf("  ");
        for (size_t k = i * bytes; k < log->length && k < (i + 1) * bytes; k++) printf("%02X", log->bytes[k]);
        putchar('\n');
    }
}

static void print_texts(const struct lists *lists)
{
    static const char *const names[BOXES] = {"proved", "independent"};
    for (int i = 0; i < BOXES; i++) {
        const uint8_t *text = lists->text[i];
        printf("  %-12s %zu bytes of text, the first line '", names[i], lists->written[i]);
        for (size_t k = 0; k < lists->written[i] && k < LOG_LIST_LINE && text[k] != '\n'; k++) putchar(text[k]);
        puts("'");
    }
    size_t at = 0;
    while (at < AREA && lists->text[PROVED][at] == lists->text[INDEPENDENT][at]) at++;
    if (at < AREA)
        printf("  the text areas differ at %zu: proved %02X, independent %02X\n", at, lists->text[PROVED][at],
               lists->text[INDEPENDENT][at]);
}

void lists_print_difference(struct lists *lists)
{
    if (lists->own_refused) {
        puts("The box wrote this log, nobody altered it, and it is refused:");
    } else if (agree(lists, AREA)) {
        puts("This log, read again, shows no difference: a reader keeps something, or an earlier log left it in the text area:");
    } else {
        shorten(lists);
        agree(lists, AREA);
        printf("The shortest log found, %zu bytes, with %zu bytes of room for its text:\n", lists->log.length, lists->room);
    }
    print_log(&lists->log);
    print_texts(lists);
}

/* ---- begin and end */

bool lists_begin(struct lists *lists, struct statistics *statistics, uint64_t seed, const char *path)
{
    lists->chance.state = ~seed;
    lists->statistics = statistics;
    for (int i = 0; i < BOXES; i++) {
        lists->text[i] = calloc(AREA, 1);
        if (lists->text[i] == NULL) {
            fputs("compare: no memory\n", stderr);
            exit(2);
        }
    }
    if (path == NULL) return true;
    lists->file = fopen(path, "wb");
    return lists->file != NULL;
}

bool lists_end(struct lists *lists)
{
    for (int i = 0; i < BOXES; i++) free(lists->text[i]);
    if (lists->file == NULL) return true;
    bool written = !ferror(lists->file);
    return fclose(lists->file) == 0 && written;
}
