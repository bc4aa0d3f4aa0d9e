#include "shrink.h"

#include "clock.h"
#include "line.h"

#include <string.h>

struct shrinking {
    struct both *both;
    uint64_t end; /* in nanoseconds of the clock */
};

/* The steps before the first call other than power-on must hold one, or the record has no meaning. Answers the number of
 * steps up to the first difference, 0 if there is none. */
static size_t replay(struct both *both, const struct steps *steps)
{
    bool powered = false;
    both_clear(both);
    for (size_t i = 0; i < steps->count; i++) {
        const struct step *step = &steps->step[i];
        powered = powered || step->kind == POWER_ON;
        if (!powered && step->kind != ALTER) return 0;
        if (!both_do(both, step)) return i + 1;
    }
    return 0;
}

/* Tries the history without the `count` steps at `at`. */
static bool without(struct shrinking *shrinking, struct steps *history, size_t at, size_t count)
{
    struct steps tried = {0};
    for (size_t i = 0; i < history->count; i++)
        if (i < at || i >= at + count) steps_add(&tried, &history->step[i]);
    size_t end = replay(shrinking->both, &tried);
    if (end == 0) {
        steps_free(&tried);
        return false;
    }
    steps_free(history);
    *history = tried;
    history->count = end;
    return true;
}

/* Halves, quarters and so on down to single steps, the late ones first; again until nothing goes. */
static void remove_steps(struct shrinking *shrinking, struct steps *history)
{
    bool gone = true;
    size_t largest = history->count / 2;
    while (gone) {
        gone = false;
        for (size_t size = largest > 0 ? largest : 1; size > 0; size /= 2) {
            for (size_t end = history->count; end > 0;) {
                if (clock_nanoseconds() > shrinking->end) return;
                size_t at = end > size ? end - size : 0;
                if (without(shrinking, history, at, end - at)) gone = true;
                end = at < history->count ? at : history->count;
            }
        }
        largest = 4;
    }
}

/* One alteration of many bytes becomes alterations of eight, which can go one by one. */
static bool split(struct both *both, struct steps *history)
{
    struct steps fine = {0};
    bool any = false;
    both_clear(both);
    for (size_t i = 0; i < history->count; i++) {
        const struct step *step = &history->step[i];
        both_do(both, step);
        if (step->kind != ALTER || step->way == FLIPPED || step->way == GIVEN) {
            steps_add(&fine, step);
            continue;
        }
        any = true;
        const uint8_t *now = both->area[PROVED][step->value] + step->alter.at;
        for (uint32_t at = 0; at < step->alter.count; at += LINE_BYTES) {
            struct step part = {.kind = ALTER, .value = step->value, .way = GIVEN};
            part.alter.at = step->alter.at + at;
            part.alter.count = LINE_BYTES;
            if (at + LINE_BYTES > step->alter.count) part.alter.count = step->alter.count - at;
            memcpy(part.alter.bytes, now + at, part.alter.count);
            steps_add(&fine, &part);
        }
    }
    steps_free(history);
    *history = fine;
    return any;
}

bool shrink(struct both *both, struct steps *history, double seconds)
{
    struct shrinking shrinking = {both, clock_nanoseconds() + (uint64_t)(seconds * 1e9)};
    if (replay(both, history) == 0) return false;
    remove_steps(&shrinking, history);
    if (clock_nanoseconds() < shrinking.end && split(both, history)) remove_steps(&shrinking, history);
    history->count = replay(both, history);
    return true;
}
