/*
 * plan.c: the program of an inclining plan (02, "Inclining plan to program"; lines are those of 01, "Variables").
 *
 * All is looked at before the first byte is written. Then the lines are put one behind the other. The longest time takes four of them, so
 * the longest plan takes 128, and 200 suffice.
 */
#include "plan.h"

#include "internal.h"

enum { REFUSED_MOVES = 70, REFUSED_TIME = 71 };

enum { COUNTER_OF_ALL = 1 }; /* loops stand behind each other and never inside, so one counter serves all */

struct writer {
    uint8_t *to; /* where the next byte goes */
};

/* ---- lines */

static void put_byte(struct writer *writer, unsigned byte)
{
    *writer->to++ = (uint8_t)byte;
}

static void put_two(struct writer *writer, unsigned number)
{
    put_byte(writer, number >> 8);
    put_byte(writer, number & 255);
}

static void put_four(struct writer *writer, uint32_t number)
{
    put_two(writer, number >> 16);
    put_two(writer, number & 0xFFFF);
}

/* 53 00 X4 X3 X2 X1 time */
static void put_state(struct writer *writer, uint32_t outputs, unsigned time)
{
    put_byte(writer, 'S');
    put_byte(writer, 0);
    put_four(writer, outputs);
    put_two(writer, time);
}

/* 46 counter count and four zeros */
static void put_for(struct writer *writer, unsigned count)
{
    put_byte(writer, 'F');
    put_byte(writer, COUNTER_OF_ALL);
    put_two(writer, count);
    put_four(writer, 0);
}

/* 4E counter and six zeros */
static void put_next(struct writer *writer)
{
    put_byte(writer, 'N');
    put_byte(writer, COUNTER_OF_ALL);
    put_two(writer, 0);
    put_four(writer, 0);
}

/* ---- the plan */

static void put_stretch(struct writer *writer, uint32_t outputs, uint32_t time)
{
    const uint32_t turns = time / NUMBER_MOST, rest = time % NUMBER_MOST;

    if (time <= NUMBER_MOST) {
        put_state(writer, outputs, time);
        return;
    }
    put_for(writer, turns);
    put_state(writer, outputs, NUMBER_MOST);
    put_next(writer);
#if DAMAGE == 52
    put_state(writer, outputs, rest);
    return;
#endif
    if (rest != 0)
        put_state(writer, outputs, rest);
}

static void put_move(struct writer *writer, const uint32_t *move)
{
    uint32_t settling = move[PLAN_SETTLING], reading = move[PLAN_READING];

#if DAMAGE == 53
    put_stretch(writer, move[PLAN_WORD_OF_READING], reading);
    put_stretch(writer, move[PLAN_WORD_OF_MOVE], settling);
    return;
#endif
#if DAMAGE == 55
    if (settling > 1) { /* the reading begins a tick early */
        settling--;
        reading++;
    }
#endif
    put_stretch(writer, move[PLAN_WORD_OF_MOVE], settling);
    put_stretch(writer, move[PLAN_WORD_OF_READING], reading);
}

static bool is_time(uint32_t ticks)
{
    return ticks >= 1 && ticks <= PLAN_TIME_MOST;
}

static uint8_t refused(const uint32_t *plan, size_t count, size_t length)
{
    if (length != PROGRAM_BYTES)
        return REFUSED_PROGRAM;
    if (count == 0 || count % PLAN_NUMBERS != 0 || count / PLAN_NUMBERS > PLAN_MOVES_MOST)
        return REFUSED_MOVES;
    for (const uint32_t *move = plan; move < plan + count; move += PLAN_NUMBERS)
        if (!is_time(move[PLAN_SETTLING]) || !is_time(move[PLAN_READING]))
            return REFUSED_TIME;
    return 0;
}

uint8_t plan_program(const uint32_t *plan, size_t count, uint8_t *program, size_t length)
{
    struct writer writer = {program};
    const uint8_t refusal = refused(plan, count, length);

#if DAMAGE == 57
    if (refusal == REFUSED_TIME) /* the moves before the one that is refused */
        for (const uint32_t *move = plan; is_time(move[PLAN_SETTLING]) && is_time(move[PLAN_READING]); move += PLAN_NUMBERS)
            put_move(&writer, move);
#endif
    if (refusal != 0)
        return refusal;
    for (const uint32_t *move = plan; move < plan + count; move += PLAN_NUMBERS)
        put_move(&writer, move);
#if DAMAGE == 54
    const unsigned time = two_bytes(writer.to - 2);

    if (writer.to[-LINE_BYTES] == 'S' && time < NUMBER_MOST) {
        writer.to -= 2;
        put_two(&writer, time + 1);
    }
#endif
#if DAMAGE == 56
    put_state(&writer, plan[count - PLAN_NUMBERS + PLAN_WORD_OF_READING], 0);
#endif
    while (writer.to < program + PROGRAM_BYTES) /* end marks: one is needed, and all lines behind it are such too */
        put_state(&writer, 0, 0);
    return 0;
}
