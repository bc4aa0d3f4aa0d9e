/* box.h: a second box, written from the documents alone, to compare the proved one with. */
#ifndef INDEPENDENT_BOX_H
#define INDEPENDENT_BOX_H

#include <stddef.h>
#include <stdint.h>

enum { /* bytes of the log area and of a record in it (02, item 8) */
    BOX_LOG_RECORD = 16,
    BOX_LOG_LEAST = 2 * BOX_LOG_RECORD,
    BOX_LOG_MOST = 65536
};

struct box; /* its own state; box_size() bytes, aligned to 16 */

struct box_said {
    uint8_t refusal;    /* 0 where the call is accepted */
    uint16_t lines;     /* For and Next lines run */
    size_t written;     /* bytes written to the start of the reply or of the destination */
};

size_t box_size(void);

/*
 * For the report of a comparison alone: the loops of none that were passed since power-on, and those of them whose Next is line 199; of the
 * last one passed the lines of its For and its Next.
 */
struct box_nones {
    uint32_t passed;
    uint32_t past_199;
    uint8_t last_for;
    uint8_t last_next;
};

struct box_nones box_loops_of_none(const struct box *box);

struct box_said box_power_on(struct box *box, uint8_t *program, size_t program_length, const uint8_t *saved, size_t saved_length,
                             const uint8_t *log, size_t log_length);
struct box_said box_byte(struct box *box, uint8_t byte, uint8_t *program, size_t program_length, uint8_t *saved, size_t saved_length,
                         uint8_t *log, size_t log_length, uint8_t *reply, size_t reply_length);
struct box_said box_tick(struct box *box, const uint8_t *program, size_t program_length, uint8_t *log, size_t log_length);
struct box_said box_press(struct box *box, uint32_t button, const uint8_t *program, size_t program_length, uint8_t *log, size_t log_length);
struct box_said box_empty(struct box *box, const uint8_t *log, size_t log_length, uint8_t *destination, size_t destination_length);

#endif
