#include "stops.h"

#include <inttypes.h>
#include <stdio.h>

enum { LAST = NEST_LINES - 1 };

/* Numbers that are too large: the least, the most, and those that are small again in fewer bits. */
static uint64_t too_large(struct chance *chance, uint64_t most)
{
    static const unsigned bits[] = {8, 16, 17, 32, 63};
    switch (chance_below(chance, 5)) {
    case 0:
        return most + 1;
    case 1:
        return UINT64_MAX;
    case 2:
        return chance_next(chance) | 1ull << 40;
    default:
        return most + 1 + ((1ull << bits[chance_below(chance, 5)]) | chance_below(chance, (uint32_t)most));
    }
}

void question_make(struct question *question, struct chance *chance)
{
    unsigned first = stops_make(&question->nest, chance), end = question->nest.end;
    question->limit = STOPS_LIMIT_MOST;
    switch (chance_below(chance, 32)) {
    case 0:
        question->start = too_large(chance, LAST);
        break;
    case 1:
        question->start = chance_one_in(chance, 4) ? LAST : chance_below(chance, NEST_LINES);
        break;
    case 2:
    case 3:
    case 4:
    case 5:
    case 6:
        question->start = first + chance_below(chance, first <= end ? end - first + 1 : 1); /* inside */
        break;
    default:
        question->start = first;
        break;
    }
}

void question_limit(struct question *question, struct chance *chance, bool stops, uint64_t tick)
{
    unsigned luck = chance_below(chance, 32);
    if (luck == 0)
        question->limit = too_large(chance, STOPS_LIMIT_MOST);
    else if (luck < 6)
        question->limit = stops && tick > 0 ? tick - 1 : chance_below(chance, 3000);
    else if (luck < 11)
        question->limit = tick;
    else if (luck < 13)
        question->limit = tick + 1;
    else if (luck < (stops ? 20 : 30))
        question->limit = chance_below(chance, 1u << chance_below(chance, 17));
    else
        question->limit = STOPS_LIMIT_MOST - (luck == 31);
}

void question_print(const struct question *question)
{
    nest_print(&question->nest);
    printf("  started at line %" PRIu64 ", with a limit of %" PRIu64 " ticks\n", question->start, question->limit);
}
