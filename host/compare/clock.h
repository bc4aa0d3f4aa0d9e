/* clock.h: the time that has passed. */
#ifndef COMPARE_CLOCK_H
#define COMPARE_CLOCK_H

#include <stdint.h>

uint64_t clock_nanoseconds(void);

#endif
