#include "step.h"

#include <inttypes.h>
#include <stdbool.h>
#include <stdio.h>
#include <stdlib.h>
#include <string.h>

const char *const area_names[AREAS] = {"program", "saved", "log", "destination", "reply"};

void steps_add(struct steps *steps, const struct step *step)
{
    if (steps->count == steps->room) {
        steps->room = steps->room * 2 + 256;
        steps->step = realloc(steps->step, steps->room * sizeof *steps->step);
        if (steps->step == NULL) {
            fputs("compare: no memory\n", stderr);
            exit(2);
        }
    }
    steps->step[steps->count++] = *step;
}

void steps_free(struct steps *steps)
{
    free(steps->step);
    *steps = (struct steps){0};
}

static void print_alteration(const struct step *step)
{
    static const char *const ways[] = {"zeros", "random bytes", "random lines"};
    const struct alteration *alter = &step->alter;
    uint64_t seed;
    printf("  alter %s at %" PRIu32 ": ", area_names[step->value], alter->at);
    memcpy(&seed, alter->bytes, sizeof seed);
    if (step->way == GIVEN)
        for (uint32_t i = 0; i < alter->count; i++) printf("%02X ", alter->bytes[i]);
    else if (step->way == FLIPPED)
        printf("exclusive or %02X", alter->bytes[0]);
    else if (step->way == ZEROS)
        printf("%" PRIu32 " zeros", alter->count);
    else
        printf("%" PRIu32 " %s of sub-seed %" PRIu64, alter->count, ways[step->way], seed);
    putchar('\n');
}

/* Lengths are named where they are not the usual ones. `log` is the length given at power-on. */
static bool usual(const struct step *step, uint32_t log)
{
    const struct lengths *lent = &step->lent;
    if (lent->log != log) return false;
    if (step->kind != EMPTY && lent->program != 1600) return false;
    return step->kind != BYTE || (lent->saved == 1600 && lent->other >= 16);
}

static void print_lengths(const struct step *step, uint32_t log)
{
    const struct lengths *lent = &step->lent;
    if (!usual(step, log)) {
        printf(" (");
        if (step->kind != EMPTY) printf("program %" PRIu32 ", ", lent->program);
        if (step->kind == BYTE) printf("saved %" PRIu32 ", ", lent->saved);
        printf("log %" PRIu32, lent->log);
        if (step->kind == BYTE) printf(", reply %" PRIu32, lent->other);
        putchar(')');
    }
    putchar('\n');
}

static void print_byte(uint8_t byte)
{
    if (byte > 32 && byte < 127)
        printf(" '%c'", byte);
    else
        printf(" %u", byte);
}

/* Prints the step at `i` and those after it that fit on its line; how many. */
static size_t print_run(const struct steps *steps, size_t i, uint32_t log)
{
    const struct step *step = &steps->step[i];
    size_t n = 1;
    bool plain = usual(step, log);
    while (plain && i + n < steps->count && steps->step[i + n].kind == step->kind && usual(&steps->step[i + n], log) &&
           (step->kind != BYTE || steps->step[i + n - 1].value != 13))
        n++;
    if (step->kind == TICK) {
        printf("  tick");
        if (n > 1) printf(", %zu times", n);
    } else {
        printf("  byte");
        for (size_t k = 0; k < n; k++) print_byte((uint8_t)steps->step[i + k].value);
    }
    print_lengths(step, log);
    return n;
}

void steps_print(const struct steps *steps)
{
    uint32_t log = 0;
    for (size_t i = 0; i < steps->count;) {
        const struct step *step = &steps->step[i];
        const struct lengths *lent = &step->lent;
        size_t n = 1;
        if (step->kind == ALTER) {
            print_alteration(step);
        } else if (step->kind == POWER_ON) {
            printf("  power-on %" PRIu32 " %" PRIu32 " %" PRIu32 "\n", lent->program, lent->saved, lent->log);
            log = lent->log;
        } else if (step->kind == PRESS) {
            printf("  press %" PRIu32, step->value);
            print_lengths(step, log);
        } else if (step->kind == EMPTY) {
            printf("  empty into %" PRIu32, lent->other);
            print_lengths(step, log);
        } else {
            n = print_run(steps, i, log);
        }
        i += n;
    }
}
