/* layout_numbers.h: the layout that the archive has, in numbers; a header that says otherwise does not compile with layout.c. */
#ifndef LAYOUT_NUMBERS_H
#define LAYOUT_NUMBERS_H

#include "nizhalepu.h"

#define AT(field, offset, size)                                                                                       \
    _Static_assert(offsetof(struct nizhalepu_record, field) == (offset), #field);                                     \
    _Static_assert(sizeof(((struct nizhalepu_record *)0)->field) == (size), #field)

_Static_assert(sizeof(struct nizhalepu_record) == 120, "the record");
_Static_assert(sizeof(struct nizhalepu_counter) == 4, "a counter");
_Static_assert(sizeof(bool) == 1 && sizeof(size_t) == 8, "the machine");
AT(run.on, 0, 1);
AT(run.line, 1, 1);
AT(run.wait, 2, 2);
AT(run.outputs, 4, 4);
AT(run.counters, 8, 16);
AT(paused, 24, 1);
AT(ticks, 28, 4);
AT(panel.single, 32, 8);
AT(panel.parameter, 40, 1);
AT(panel.special, 41, 1);
AT(panel.event, 42, 1);
AT(panel.unread, 43, 1);
AT(log.length, 48, 8);
AT(log.kept, 56, 8);
AT(log.lost, 64, 4);
AT(log.first, 68, 4);
AT(wire.chars, 72, 32);
AT(wire.len, 104, 8);
AT(wire.overlong, 112, 1);
AT(wire.nextread, 113, 1);
AT(wire.nextwrite, 114, 1);
_Static_assert(offsetof(struct nizhalepu_counter, count) == 0 && offsetof(struct nizhalepu_counter, line) == 2, "a counter");
_Static_assert(sizeof(struct nizhalepu_said) == 16, "what a call says");
_Static_assert(offsetof(struct nizhalepu_said, refusal) == 0 && offsetof(struct nizhalepu_said, lines) == 2, "what a call says");
_Static_assert(offsetof(struct nizhalepu_said, written) == 8, "what a call says");
_Static_assert(sizeof(struct nizhalepu_duration) == 16 && sizeof(((struct nizhalepu_duration *)0)->ticks) == 8, "a duration");
_Static_assert(offsetof(struct nizhalepu_duration, refusal) == 0 && offsetof(struct nizhalepu_duration, ticks) == 8, "a duration");
_Static_assert(sizeof(struct nizhalepu_stop) == 8 && sizeof(((struct nizhalepu_stop *)0)->tick) == 4, "a stop");
_Static_assert(offsetof(struct nizhalepu_stop, tick) == 0 && offsetof(struct nizhalepu_stop, refusal) == 4, "a stop");
_Static_assert(offsetof(struct nizhalepu_stop, event) == 5 && offsetof(struct nizhalepu_stop, line) == 6, "a stop");
_Static_assert(offsetof(struct nizhalepu_stop, cause) == 7, "a stop");
_Static_assert(sizeof(struct nizhalepu_channel) == 24 && offsetof(struct nizhalepu_channel, closings) == 0, "a channel record");
_Static_assert(offsetof(struct nizhalepu_channel, openings) == 8 && offsetof(struct nizhalepu_channel, ticks) == 16, "a channel record");
_Static_assert(sizeof(struct nizhalepu_beside) == 24 && offsetof(struct nizhalepu_beside, tick) == 0, "beside the totals");
_Static_assert(offsetof(struct nizhalepu_beside, word) == 4 && offsetof(struct nizhalepu_beside, unknown) == 8, "beside the totals");
_Static_assert(offsetof(struct nizhalepu_beside, more) == 16, "beside the totals");
_Static_assert(sizeof(struct nizhalepu_brought) == 32 && offsetof(struct nizhalepu_brought, refusal) == 0, "totals brought forward");
_Static_assert(offsetof(struct nizhalepu_brought, beside) == 8, "totals brought forward");

#endif
