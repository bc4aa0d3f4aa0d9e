/* chance.h: the random numbers of the comparison, the same for the same seed on every machine. */
#ifndef COMPARE_CHANCE_H
#define COMPARE_CHANCE_H

#include <stdbool.h>
#include <stdint.h>

struct chance {
    uint64_t state;
};

/* splitmix64 */
static inline uint64_t chance_next(struct chance *chance)
{
    chance->state += 0x9E3779B97F4A7C15u;
    uint64_t z = chance->state;
    z = (z ^ (z >> 30)) * 0xBF58476D1CE4E5B9u;
    z = (z ^ (z >> 27)) * 0x94D049BB133111EBu;
    return z ^ (z >> 31);
}

/* 0 up to but not including `end` */
static inline uint32_t chance_below(struct chance *chance, uint32_t end)
{
    return (uint32_t)(((chance_next(chance) >> 32) * end) >> 32);
}

/* `least` up to and including `most` */
static inline uint32_t chance_between(struct chance *chance, uint32_t least, uint32_t most)
{
    return least + chance_below(chance, most - least + 1);
}

static inline bool chance_one_in(struct chance *chance, uint32_t n)
{
    return chance_below(chance, n) == 0;
}

#endif
