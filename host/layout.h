/* layout.h: what the files of the test of the header share. */
#ifndef LAYOUT_H
#define LAYOUT_H

#include <stdint.h>

extern const char *moment; /* what has just been done, for a message */

/* Tells a difference, and counts it. */
void check(const char *what, uint64_t got, uint64_t want);

/* layout_reports.c: what the library says of a program without running it on the box. */
void test_reports(void);

#endif
