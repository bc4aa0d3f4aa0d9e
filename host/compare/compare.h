/* compare.h: what the program can be asked for. Each answers its exit status: 0 equal, 1 not, 2 no file to write to. */
#ifndef COMPARE_COMPARE_H
#define COMPARE_COMPARE_H

#include <stdint.h>

/* `logs` names a file that gets every log read and its text, or is NULL. */
int compare_calls(uint64_t calls, uint64_t seed, const char *logs);
int compare_speed(void);
int compare_stack(void);
int compare_limits(void);
/* `path` names a file that gets every program of 1,600 bytes and what the proved library says of it, or is NULL. */
int compare_durations(uint64_t programs, uint64_t seed, const char *path);
int compare_ticking(uint64_t programs, uint64_t seed);
/* `path` names a file that gets every question and what the proved library says to it, or is NULL. */
int compare_explain(uint64_t programs, uint64_t seed, const char *path);
/* `path` names a file that gets every plan and what the proved library makes of it, or is NULL. */
int compare_plan(uint64_t plans, uint64_t seed, const char *path);
int compare_carrying(uint64_t plans, uint64_t seed);
/* `path` names a file that gets totals, logs and what the proved library makes of them, or is NULL. */
int compare_totals(uint64_t cases, uint64_t seed, const char *path);
int compare_chains(uint64_t chains, uint64_t seed);

#endif
