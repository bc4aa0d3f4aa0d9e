#include "maker.h"

#include <ctype.h>
#include <stdarg.h>
#include <stdio.h>
#include <string.h>

/* One command in so many is damaged, or hardly one: one that other steps build on. */
enum { DAMAGED = 8, SELDOM = 50, UNDAMAGED = 200 };

enum { TEXT = 64 };

struct text {
    uint8_t bytes[TEXT];
    unsigned count;
};

static void insert(struct text *text, unsigned at, uint8_t byte)
{
    if (text->count == TEXT) return;
    memmove(text->bytes + at + 1, text->bytes + at, text->count - at);
    text->bytes[at] = byte;
    text->count++;
}

static void drop(struct text *text, unsigned at)
{
    text->count--;
    memmove(text->bytes + at, text->bytes + at + 1, text->count - at);
}

/* A byte that a command may hold, or one that it may hardly hold. */
static uint8_t any_character(struct chance *chance)
{
    static const char usual[] = "0123456789ABCDEFGINORSWabcdfinrsw /:@[`{g";
    if (chance_one_in(chance, 4)) return (uint8_t)chance_next(chance);
    if (chance_one_in(chance, 10)) return 10;
    return (uint8_t)usual[chance_below(chance, sizeof usual - 1)];
}

/* Next to the digits and the letters. */
static uint8_t border_character(struct chance *chance)
{
    static const char borders[] = "/:@G[`g{";
    return (uint8_t)borders[chance_below(chance, sizeof borders - 1)];
}

static void damage(struct text *text, struct chance *chance)
{
    unsigned at = text->count > 0 ? chance_below(chance, text->count) : 0;
    switch (chance_below(chance, 8)) {
    case 0:
        if (text->count > 0) drop(text, at);
        break;
    case 1:
        if (text->count > 0) insert(text, at, text->bytes[at]);
        break;
    case 2:
        insert(text, chance_below(chance, text->count + 1), any_character(chance));
        break;
    case 3: /* about the 32 characters that are kept */
        if (text->count > 0)
            for (unsigned most = chance_between(chance, 31, 35); text->count < most;)
                insert(text, chance_one_in(chance, 2) ? at : text->count, any_character(chance));
        break;
    case 4: /* cut short */
        text->count = at;
        break;
    case 5:
    case 6:
        if (text->count > 0) text->bytes[at] = border_character(chance);
        break;
    default:
        if (text->count > 0) text->bytes[at] = any_character(chance);
        break;
    }
}

static void disguise(struct text *text, struct chance *chance)
{
    unsigned letters = chance_below(chance, 3); /* capitals, small, mixed */
    for (unsigned i = 0; i < text->count; i++)
        if (letters == 1 || (letters == 2 && chance_one_in(chance, 2))) text->bytes[i] = (uint8_t)tolower(text->bytes[i]);
    if (chance_one_in(chance, 6))
        for (unsigned n = chance_between(chance, 1, 6); n > 0; n--) insert(text, chance_below(chance, text->count + 1), ' ');
}

void say(struct maker *maker, unsigned damaged, const char *format, ...)
{
    char plain[TEXT];
    va_list arguments;
    va_start(arguments, format);
    vsnprintf(plain, sizeof plain, format, arguments);
    va_end(arguments);
    struct text text = {.count = (unsigned)strlen(plain)};
    memcpy(text.bytes, plain, text.count);
    if (chance_one_in(&maker->chance, 2)) disguise(&text, &maker->chance);
    if (chance_one_in(&maker->chance, damaged)) damage(&text, &maker->chance);
    for (unsigned i = 0; i < text.count; i++) make_byte(maker, text.bytes[i]);
    make_byte(maker, 13);
}

static unsigned near_line(struct maker *maker)
{
    unsigned line = maker->near + chance_below(&maker->chance, 8);
    return line < 200 ? line : 199;
}

/* Of the program area as it now stands: the first Bad line from some line on, 000 coming after 199; that line itself if there is none. */
static unsigned bad_line(struct maker *maker)
{
    const uint8_t *program = maker->both->area[PROVED][PROGRAM];
    unsigned from = chance_one_in(&maker->chance, 2) ? near_line(maker) : chance_below(&maker->chance, 200);
    for (unsigned n = 0; n < 200; n++) {
        unsigned line = (from + n) % 200;
        if (line_is_bad(program + line * LINE_BYTES)) return line;
    }
    return from;
}

/* Most often an address with a meaning; the bounds often. */
static unsigned any_address(struct maker *maker)
{
    static const uint16_t bounds[] = {0, 1, 198, 199, 200, 201, 202, 207, 208, 211, 212, 215, 216, 217, 218, 255, 256, 999};
    struct chance *chance = &maker->chance;
    switch (chance_below(chance, 10)) {
    case 0:
    case 1:
        return bounds[chance_below(chance, sizeof bounds / sizeof *bounds)];
    case 2:
        return chance_below(chance, chance_one_in(chance, 4) ? 1000 : 217);
    case 3:
    case 4:
    case 5:
        return near_line(maker);
    default:
        return chance_between(chance, 200, 216);
    }
}

static void address_text(struct maker *maker, char text[4], unsigned address)
{
    unsigned luck = chance_below(&maker->chance, 6);
    if (luck < 2)
        memcpy(text, luck == 0 ? "I" : "D", 2);
    else
        snprintf(text, 4, "%03u", address % 1000);
}

static unsigned any_number(struct chance *chance)
{
    static const uint16_t bounds[] = {0, 1, 198, 199, 199, 200, 200, 201, 255, 256};
    if (chance_one_in(chance, 16)) return chance_between(chance, 256, 999);
    if (chance_one_in(chance, 2)) return bounds[chance_below(chance, 10)];
    return chance_below(chance, 256);
}

static unsigned any_code(struct chance *chance)
{
    return chance_one_in(chance, 12) ? any_number(chance) : chance_below(chance, 10);
}

static void line_data(struct maker *maker, char text[LINE_TEXT])
{
    struct chance *chance = &maker->chance;
    uint8_t line[LINE_BYTES];
    line_any(line, chance);
    if (line[0] != 0x53 && chance_one_in(chance, 20)) line[1] = chance_one_in(chance, 2) ? 0 : 5;
    if (line[0] == 0x53 && chance_one_in(chance, 30)) line[1] = (uint8_t)chance_next(chance);
    line_text(text, line);
}

/* The data that the address asks for; sometimes those of another. */
static void data_text(struct maker *maker, char text[LINE_TEXT], unsigned address)
{
    struct chance *chance = &maker->chance;
    if (chance_one_in(chance, 16)) address = chance_between(chance, 199, 210);
    if (address <= 200)
        line_data(maker, text);
    else if (address == 209)
        snprintf(text, LINE_TEXT, "%03u", any_number(chance));
    else if (address == 210)
        snprintf(text, LINE_TEXT, "%03u", any_code(chance));
    else
        snprintf(text, LINE_TEXT, "%02X", line_outputs(chance) & 0xFF);
}

static void say_write(struct maker *maker)
{
    struct chance *chance = &maker->chance;
    char address[4], data[LINE_TEXT];
    unsigned number = any_address(maker);
    if (chance_one_in(chance, 4)) number = chance_between(chance, 203, 206);
    address_text(maker, address, number);
    data_text(maker, data, number);
    say(maker, DAMAGED, "CW%s%s", address, data);
}

void say_read(struct maker *maker)
{
    static const uint8_t addresses[] = {201, 203, 204, 205, 206, 210, 211, 211, 212, 213, 214, 215, 216};
    say(maker, UNDAMAGED, "CR%03u", addresses[chance_below(&maker->chance, sizeof addresses)]);
}

/* Just after a power-on they show what the last addresses then are. */
void say_steps(struct maker *maker)
{
    struct chance *chance = &maker->chance;
    for (unsigned n = chance_between(chance, 1, 5); n > 0; n--) {
        char data[LINE_TEXT] = "";
        bool write = chance_one_in(chance, 2);
        if (write) line_data(maker, data);
        say(maker, SELDOM, "C%c%c%s", write ? 'W' : 'R', chance_one_in(chance, 3) ? 'D' : 'I', data);
    }
}

/* A walk of reads does not pass a Bad line, and that of writes leaves none. */
void say_walk(struct maker *maker)
{
    struct chance *chance = &maker->chance;
    char onward = chance_one_in(chance, 2) ? 'I' : 'D', data[LINE_TEXT] = "";
    bool write = chance_one_in(chance, 4);
    if (write) line_data(maker, data);
    say(maker, UNDAMAGED, "C%c%03u%s", write ? 'W' : 'R', chance_below(chance, write ? 201 : 217), data);
    for (unsigned n = chance_between(chance, 1, 20); n > 0; n--) {
        if (write) line_data(maker, data);
        say(maker, UNDAMAGED, "C%c%c%s", write ? 'W' : 'R', onward, data);
    }
}

/* A Bad line that stands there, or one that the caller puts there. I and D come to it from the line beside it, if that one is read; what is
 * read last shows whether the address moved. */
void say_bad(struct maker *maker)
{
    struct chance *chance = &maker->chance;
    uint8_t line[LINE_BYTES];
    unsigned at = bad_line(maker);
    if (chance_one_in(chance, 2)) {
        line_bad(line, chance);
        alter_line(maker, PROGRAM, at, line);
    }
    switch (chance_below(chance, 6)) {
    case 0:
        say(maker, UNDAMAGED, "CR%03u", at > 0 ? at - 1 : 0);
        say(maker, UNDAMAGED, chance_one_in(chance, 4) ? "CRI0" : "CRI");
        break;
    case 1:
        say(maker, UNDAMAGED, "CR%03u", at + 1);
        say(maker, UNDAMAGED, chance_one_in(chance, 4) ? "CRD0" : "CRD");
        break;
    case 2:
        say(maker, UNDAMAGED, "CR%03u%c", at, "0SI"[chance_below(chance, 3)]); /* a character left over */
        break;
    case 3:
        say(maker, UNDAMAGED, "CR%03u", at);
        break;
    default:
        say(maker, UNDAMAGED, "CW209%03u", at);
        say(maker, UNDAMAGED, "CW210006");
        return;
    }
    if (chance_one_in(chance, 2)) say(maker, UNDAMAGED, chance_one_in(chance, 2) ? "CRI" : "CRD");
}

void say_special(struct maker *maker)
{
    struct chance *chance = &maker->chance;
    if (chance_one_in(chance, 3)) say(maker, SELDOM, "CW209%03u", any_number(chance));
    if (chance_one_in(chance, 20))
        say(maker, SELDOM, "CWI%03u", any_code(chance)); /* 210 if 209 was written last */
    else
        say(maker, SELDOM, "CW210%03u", any_code(chance));
}

void say_single(struct maker *maker)
{
    struct chance *chance = &maker->chance;
    char data[LINE_TEXT];
    unsigned which = chance_below(chance, 4);
    unsigned line = which < 2 ? 200 : which == 2 ? near_line(maker) : bad_line(maker);
    line_data(maker, data);
    if (line == 200) say(maker, SELDOM, "CW200%s", data);
    say(maker, SELDOM, "CW209%03u", line);
    say(maker, SELDOM, "CW210006");
}

/* One to three changes are lost, and of two the second often leads back. In a log of many places they would take too many calls. */
void say_losses(struct maker *maker)
{
    struct chance *chance = &maker->chance;
    unsigned places = maker->log / NIZHALEPU_LOG_RECORD, lost = chance_between(chance, 1, 3);
    if (places > 8) return;
    say(maker, UNDAMAGED, "CW210001");
    make_whole_empty(maker);
    for (unsigned n = 0; n < places - 1 + lost; n++) {
        say(maker, UNDAMAGED, "CW206%02X", chance_one_in(chance, 8) ? chance_below(chance, 256) : n % 2 == 0 ? 0x55u : 0xAAu);
        if (chance_one_in(chance, 2)) make_ticks(maker, 1);
        if (chance_one_in(chance, 6)) alter_record(maker, n < places ? n : places - 1); /* most often the one just written */
    }
    make_whole_empty(maker);
}

/* The write changes nothing where a program runs, or where the outputs are so already. */
void say_behind_altered(struct maker *maker)
{
    struct chance *chance = &maker->chance;
    alter_written(maker);
    say(maker, UNDAMAGED, "CW%03u%02X", chance_between(chance, 203, 206), chance_below(chance, 256));
}

void say_noise(struct maker *maker)
{
    struct chance *chance = &maker->chance;
    unsigned most = chance_one_in(chance, 2) ? 6 : 40;
    for (unsigned n = chance_below(chance, most); n > 0; n--) make_byte(maker, any_character(chance));
    if (chance_one_in(chance, 2)) make_byte(maker, 13);
}

void say_any(struct maker *maker)
{
    struct chance *chance = &maker->chance;
    char address[4];
    switch (chance_below(chance, 10)) {
    case 0:
    case 1:
    case 2:
        address_text(maker, address, chance_one_in(chance, 2) ? chance_below(chance, 217) : any_address(maker));
        say(maker, DAMAGED, "CR%s", address);
        break;
    case 3:
        say_read(maker);
        break;
    case 4:
        say_special(maker);
        break;
    case 5:
        if (chance_one_in(chance, 4))
            say_noise(maker);
        else
            say_single(maker);
        break;
    default:
        say_write(maker);
        break;
    }
}
