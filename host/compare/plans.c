#include "plans.h"

#include "plan.h"

#include <inttypes.h>
#include <stdio.h>
#include <string.h>

enum { STATE_MOST = 9999 };

/* ---- times and words */

static uint32_t edge(struct chance *chance)
{
    static const uint32_t edges[] = {1,     2,     9998,   9999,   10000,  10001,  19997,  19998,
                                     19999, 20000, 599939, 599940, 599941, 599999, 600000, 600000};
    return edges[chance_below(chance, sizeof edges / sizeof *edges)];
}

/* A number of whole States, or one beside it. */
static uint32_t near_whole(struct chance *chance)
{
    return chance_between(chance, 1, 60) * STATE_MOST - 1 + chance_below(chance, 3);
}

static uint32_t any_time(struct chance *chance)
{
    switch (chance_below(chance, 8)) {
    case 0:
        return chance_between(chance, 1, 10);
    case 1:
        return chance_between(chance, 1, NIZHALEPU_TIME_MOST);
    case 2:
        return near_whole(chance);
    case 3:
        return chance_between(chance, 1, 3 * STATE_MOST);
    default:
        return edge(chance);
    }
}

/* Out of range: the numbers beside it, the greatest, and those that are in range in fewer bits. */
static uint32_t wrong_time(struct chance *chance)
{
    switch (chance_below(chance, 6)) {
    case 0:
    case 1:
        return 0;
    case 2:
        return NIZHALEPU_TIME_MOST + 1;
    case 3:
        return UINT32_MAX;
    case 4:
        return (UINT32_C(1) << chance_between(chance, 20, 31)) + any_time(chance);
    default:
        return chance_between(chance, NIZHALEPU_TIME_MOST + 1, UINT32_MAX);
    }
}

/* Often the word before it: the outputs stay. */
static uint32_t word_behind(uint32_t before, struct chance *chance)
{
    switch (chance_below(chance, 8)) {
    case 0:
        return 0;
    case 1:
        return UINT32_MAX;
    case 2:
        return UINT32_C(1) << chance_below(chance, 32);
    case 3:
    case 4:
        return before;
    default:
        return (uint32_t)chance_next(chance);
    }
}

/* ---- plans */

static void fill(struct order *order, size_t count, struct chance *chance, uint32_t (*time)(struct chance *))
{
    uint32_t word = 0;
    order->count = count;
    for (size_t i = 0; i < count; i++) {
        if (i % 2 == 0)
            order->numbers[i] = word = word_behind(word, chance);
        else
            order->numbers[i] = time(chance);
    }
}

static size_t some_moves(struct chance *chance)
{
    switch (chance_below(chance, 8)) {
    case 0:
        return 1;
    case 1:
        return NIZHALEPU_MOVES_MOST;
    default:
        return chance_between(chance, 1, NIZHALEPU_MOVES_MOST);
    }
}

/* No move, a part of one, or too many. */
static size_t wrong_count(struct chance *chance)
{
    switch (chance_below(chance, 4)) {
    case 0:
        return 0;
    case 1:
        return (NIZHALEPU_MOVES_MOST + 1) * MOVE_NUMBERS;
    case 2:
        return MOVE_NUMBERS * chance_below(chance, NIZHALEPU_MOVES_MOST + 1) + chance_between(chance, 1, MOVE_NUMBERS - 1);
    default:
        return chance_below(chance, ORDER_NUMBERS_MOST - 1);
    }
}

static size_t wrong_length(struct chance *chance)
{
    static const size_t lengths[] = {0, 1, 8, 1032, 1592, 1599, 1601, 1608, ORDER_AREA_MOST};
    if (chance_one_in(chance, 4)) return chance_below(chance, ORDER_AREA_MOST + 1);
    return lengths[chance_below(chance, sizeof lengths / sizeof *lengths)];
}

/* Bytes by chance, or one byte all over; a planner that leaves a byte of the area out is found by the first. */
static void fill_area(struct order *order, struct chance *chance)
{
    static const uint8_t bytes[] = {0, 0x53, 0xFF};
    order->length = NIZHALEPU_PROGRAM;
    if (chance_one_in(chance, 4)) {
        memset(order->area, bytes[chance_below(chance, sizeof bytes)], ORDER_AREA_MOST);
        return;
    }
    for (size_t i = 0; i < ORDER_AREA_MOST; i += 8) {
        uint64_t eight = chance_next(chance);
        memcpy(order->area + i, &eight, sizeof eight);
    }
}

static void spoil_time(struct order *order, struct chance *chance)
{
    if (order->count < 2) return;
    order->numbers[2 * chance_below(chance, (uint32_t)order->count / 2) + 1] = wrong_time(chance);
}

void order_make(struct order *order, struct chance *chance)
{
    static uint32_t (*const times[])(struct chance *) = {any_time, edge, near_whole};
    bool bad_count = chance_one_in(chance, 10);
    size_t count = bad_count ? wrong_count(chance) : MOVE_NUMBERS * some_moves(chance);
    fill(order, count, chance, times[chance_below(chance, 3)]);
    if (chance_one_in(chance, 12)) /* the longest program: four lines for each time */
        for (size_t i = 1; i < count; i += 2) order->numbers[i] = NIZHALEPU_TIME_MOST - chance_below(chance, 60);
    fill_area(order, chance);
    if (chance_one_in(chance, 8)) spoil_time(order, chance);
    if (chance_one_in(chance, 32)) spoil_time(order, chance);
    if (chance_one_in(chance, 16)) order->length = wrong_length(chance);
}

static uint32_t tiny_time(struct chance *chance)
{
    return chance_one_in(chance, 8) ? chance_between(chance, 1, 60) : chance_between(chance, 1, 4);
}

static uint32_t short_time(struct chance *chance)
{
    static const uint32_t edges[] = {1, 9998, 9999, 10000, 10001, 19997, 19998, 19999, 29997};
    return chance_one_in(chance, 3) ? chance_between(chance, 1, 20000) : edges[chance_below(chance, sizeof edges / sizeof *edges)];
}

void order_make_short(struct order *order, struct chance *chance)
{
    uint32_t luck = chance_below(chance, 100);
    if (luck < 60)
        fill(order, MOVE_NUMBERS * some_moves(chance), chance, tiny_time);
    else if (luck < 98)
        fill(order, MOVE_NUMBERS * chance_between(chance, 1, 3), chance, short_time);
    else
        fill(order, MOVE_NUMBERS * some_moves(chance), chance, any_time);
    fill_area(order, chance);
}

/* ---- what a plan says */

uint64_t order_ticks(const struct order *order)
{
    uint64_t ticks = 0;
    for (size_t i = 1; i < order->count; i += 2) ticks += order->numbers[i];
    return ticks;
}

void order_take_out(struct order *order, size_t move)
{
    uint32_t *at = order->numbers + move * MOVE_NUMBERS;
    order->count -= MOVE_NUMBERS;
    memmove(at, at + MOVE_NUMBERS, (order->count - move * MOVE_NUMBERS) * sizeof *at);
}

void order_print(const struct order *order)
{
    printf("  %zu numbers, and an area of %zu bytes\n", order->count, order->length);
    for (size_t i = 0; i < order->count; i++) {
        bool last = i + 1 == order->count || i % MOVE_NUMBERS == MOVE_NUMBERS - 1;
        printf(i % MOVE_NUMBERS == 0 ? "  " : " ");
        printf(i % 2 == 0 ? "%08" PRIX32 : "%" PRIu32, order->numbers[i]);
        if (last) putchar('\n');
    }
}

/* ---- both planners */

void order_proved(const struct order *order, struct made *made)
{
    memcpy(made->area, order->area, ORDER_AREA_MOST);
    made->refusal = nizhalepu_plan(order->numbers, order->count, made->area, order->length);
}

void order_independent(const struct order *order, struct made *made)
{
    memcpy(made->area, order->area, ORDER_AREA_MOST);
    made->refusal = plan_program(order->numbers, order->count, made->area, order->length);
}
