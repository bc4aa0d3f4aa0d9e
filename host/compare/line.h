/* line.h: the lines of a program, as the eight bytes of an area and as the characters of the wire. */
#ifndef COMPARE_LINE_H
#define COMPARE_LINE_H

#include "chance.h"

#include <stdbool.h>
#include <stdint.h>

enum { LINE_BYTES = 8, LINE_TEXT = 16 }; /* the longest text is 15 characters, and a zero ends it */

/* Outputs that are often those that stand already, or nearly. */
uint32_t line_outputs(struct chance *chance);

void line_state(uint8_t line[LINE_BYTES], uint32_t outputs, unsigned time);
void line_for(uint8_t line[LINE_BYTES], unsigned counter, unsigned count);
void line_next(uint8_t line[LINE_BYTES], unsigned counter);

/* A random valid line with small times and counts, such that a program of them gets somewhere. */
void line_any(uint8_t line[LINE_BYTES], struct chance *chance);

/* What makes eight bytes Bad, none of the three lines: of several the first here. */
enum fault {
    FAULT_NONE,
    FAULT_ALL_ZERO,
    FAULT_FIRST_BYTE,
    FAULT_STATE_SECOND_BYTE,
    FAULT_STATE_TIME,
    FAULT_FOR_COUNTER_0,
    FAULT_FOR_COUNTER, /* above 4 */
    FAULT_FOR_COUNT,
    FAULT_FOR_ZEROS, /* a byte that has to be 0 */
    FAULT_NEXT_COUNTER_0,
    FAULT_NEXT_COUNTER,
    FAULT_NEXT_ZEROS,
    FAULTS
};

enum fault line_fault(const uint8_t line[LINE_BYTES]);
bool line_is_bad(const uint8_t line[LINE_BYTES]);

/* A line with one thing done to it; now and then it is a line still. */
void line_damaged(uint8_t line[LINE_BYTES], struct chance *chance);
/* The same, until it is Bad. */
void line_bad(uint8_t line[LINE_BYTES], struct chance *chance);

/* The wire form of a line that begins with 53, 46 or 4E; for another the text is empty. */
void line_text(char text[LINE_TEXT], const uint8_t line[LINE_BYTES]);

#endif
