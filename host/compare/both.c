#include "both.h"
#include "chance.h"
#include "line.h"

#include <stdio.h>
#include <stdlib.h>
#include <string.h>

enum { BETWEEN = 64, GUARD = 64, GUARD_BYTE = 0xA5 };

static void *take(size_t size)
{
    void *memory = aligned_alloc(64, (size + 63) / 64 * 64);
    if (memory == NULL) {
        fputs("compare: no memory\n", stderr);
        exit(2);
    }
    return memory;
}

void both_make(struct both *both, size_t log_room, size_t shift)
{
    both->room[PROGRAM] = PROGRAM_ROOM;
    both->room[SAVED] = PROGRAM_ROOM;
    both->room[REPLY] = REPLY_ROOM;
    both->room[LOG] = log_room;
    both->room[DESTINATION] = log_room + DESTINATION_MORE;
    both->state_size[PROVED] = sizeof(struct nizhalepu_record);
    both->state_size[INDEPENDENT] = box_size();
    both->size = BETWEEN + shift;
    for (int a = 0; a < AREAS; a++) both->size += both->room[a] + BETWEEN;
    for (int i = 0; i < BOXES; i++) {
        both->memory[i] = take(both->size);
        uint8_t *next = both->memory[i] + BETWEEN + shift;
        for (int a = 0; a < AREAS; a++) {
            both->area[i][a] = next;
            next += both->room[a] + BETWEEN;
        }
        both->state[i] = take(both->state_size[i] + 2 * GUARD);
    }
    both->record = (struct nizhalepu_record *)(void *)(both->state[PROVED] + GUARD);
    both->box = (struct box *)(void *)(both->state[INDEPENDENT] + GUARD);
    both_clear(both);
}

void both_free(struct both *both)
{
    for (int i = 0; i < BOXES; i++) {
        free(both->memory[i]);
        free(both->state[i]);
    }
}

/* Before power-on the record holds nothing of meaning: it is filled like the guards. */
void both_clear(struct both *both)
{
    for (int i = 0; i < BOXES; i++) {
        memset(both->memory[i], 0, both->size);
        memset(both->state[i], GUARD_BYTE, both->state_size[i] + 2 * GUARD);
        both->said[i] = (struct said){0};
    }
}

static void alter(uint8_t *to, const struct step *step)
{
    const struct alteration *alter = &step->alter;
    struct chance chance;
    memcpy(&chance.state, alter->bytes, sizeof chance.state);
    uint8_t line[LINE_BYTES];
    switch (step->way) {
    case ZEROS:
        memset(to, 0, alter->count);
        break;
    case NOISE:
        for (size_t i = 0; i < alter->count; i++) to[i] = (uint8_t)chance_next(&chance);
        break;
    case LINES:
        for (size_t i = 0; i + LINE_BYTES <= alter->count; i += LINE_BYTES) {
            line_any(line, &chance);
            memcpy(to + i, line, LINE_BYTES);
        }
        break;
    case GIVEN:
        memcpy(to, alter->bytes, alter->count);
        break;
    default:
        *to ^= alter->bytes[0];
        break;
    }
}

static struct said of_proved(struct nizhalepu_said said)
{
    return (struct said){said.refusal, said.lines, said.written};
}

static struct said of_independent(struct box_said said)
{
    return (struct said){said.refusal, said.lines, said.written};
}

static struct said proved_call(struct both *both, const struct step *step)
{
    uint8_t **area = both->area[PROVED];
    const struct lengths *lent = &step->lent;
    struct nizhalepu_record *record = both->record;
    switch (step->kind) {
    case POWER_ON:
        return of_proved(nizhalepu_power_on(record, area[PROGRAM], lent->program, area[SAVED], lent->saved, area[LOG], lent->log));
    case BYTE:
        return of_proved(nizhalepu_byte(record, (uint8_t)step->value, area[PROGRAM], lent->program, area[SAVED], lent->saved,
                                        area[LOG], lent->log, area[REPLY], lent->other));
    case TICK:
        return of_proved(nizhalepu_tick(record, area[PROGRAM], lent->program, area[LOG], lent->log));
    case PRESS:
        return of_proved(nizhalepu_press(record, step->value, area[PROGRAM], lent->program, area[LOG], lent->log));
    default:
        return of_proved(nizhalepu_empty(record, area[LOG], lent->log, area[DESTINATION], lent->other));
    }
}

static struct said independent_call(struct both *both, const struct step *step)
{
    uint8_t **area = both->area[INDEPENDENT];
    const struct lengths *lent = &step->lent;
    struct box *box = both->box;
    switch (step->kind) {
    case POWER_ON:
        return of_independent(box_power_on(box, area[PROGRAM], lent->program, area[SAVED], lent->saved, area[LOG], lent->log));
    case BYTE:
        return of_independent(box_byte(box, (uint8_t)step->value, area[PROGRAM], lent->program, area[SAVED], lent->saved,
                                       area[LOG], lent->log, area[REPLY], lent->other));
    case TICK:
        return of_independent(box_tick(box, area[PROGRAM], lent->program, area[LOG], lent->log));
    case PRESS:
        return of_independent(box_press(box, step->value, area[PROGRAM], lent->program, area[LOG], lent->log));
    default:
        return of_independent(box_empty(box, area[LOG], lent->log, area[DESTINATION], lent->other));
    }
}

struct said both_call(struct both *both, int which, const struct step *step)
{
    return which == PROVED ? proved_call(both, step) : independent_call(both, step);
}

static bool guards_whole(const struct both *both)
{
    static uint8_t expected[GUARD];
    if (expected[0] == 0) memset(expected, GUARD_BYTE, GUARD);
    for (int i = 0; i < BOXES; i++) {
        if (memcmp(both->state[i], expected, GUARD) != 0) return false;
        if (memcmp(both->state[i] + GUARD + both->state_size[i], expected, GUARD) != 0) return false;
    }
    return true;
}

static bool said_equal(const struct both *both)
{
    const struct said *a = &both->said[PROVED], *b = &both->said[INDEPENDENT];
    return a->refusal == b->refusal && a->lines == b->lines && a->written == b->written;
}

bool both_areas_equal(const struct both *both)
{
    return memcmp(both->memory[PROVED], both->memory[INDEPENDENT], both->size) == 0;
}

bool both_do(struct both *both, const struct step *step)
{
    if (step->kind == ALTER) {
        for (int i = 0; i < BOXES; i++) alter(both->area[i][step->value] + step->alter.at, step);
        return true;
    }
    both->said[PROVED] = proved_call(both, step);
    both->said[INDEPENDENT] = independent_call(both, step);
    return said_equal(both) && both_areas_equal(both) && guards_whole(both);
}

struct difference both_difference(const struct both *both)
{
    struct difference d = {.where = EQUAL};
    if (!guards_whole(both)) d.where = IN_GUARD;
    if (!both_areas_equal(both)) {
        const uint8_t *a = both->memory[PROVED], *b = both->memory[INDEPENDENT];
        size_t at = 0;
        while (a[at] == b[at]) at++;
        d = (struct difference){.where = IN_AREA, .area = AREAS, .at = at, .bytes = {a[at], b[at]}};
        for (unsigned i = 0; i < AREAS; i++) {
            size_t start = (size_t)(both->area[PROVED][i] - a);
            if (at >= start && at < start + both->room[i]) {
                d.area = i;
                d.at = at - start;
            }
        }
    } else if (!said_equal(both)) {
        d.where = IN_RETURN;
    }
    return d;
}

void both_print_difference(const struct both *both)
{
    static const char *const names[BOXES] = {"proved", "independent"};
    for (int i = 0; i < BOXES; i++) {
        const struct said *said = &both->said[i];
        printf("  %-12s refusal %03u, lines %u, written %zu\n", names[i], said->refusal, said->lines, said->written);
    }
    struct difference d = both_difference(both);
    if (d.where == IN_AREA && d.area == AREAS)
        printf("  a byte between the areas, at %zu: proved %02X, independent %02X\n", d.at, d.bytes[PROVED], d.bytes[INDEPENDENT]);
    else if (d.where == IN_AREA)
        printf("  %s at %zu: proved %02X, independent %02X\n", area_names[d.area], d.at, d.bytes[PROVED], d.bytes[INDEPENDENT]);
    else if (d.where == IN_GUARD)
        puts("  bytes beside the record or beside the independent box's state were written");
}
