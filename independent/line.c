/* line.c: program lines, how they run, special commands (01, "Variables", "Running", "Special commands"). */
#include <string.h>

#include "internal.h"

static bool is_counter(uint8_t number)
{
    return number >= 1 && number <= COUNTERS;
}

/* State: 53 00 X4 X3 X2 X1 time. For: 46 counter count and four zeros. Next: 4E counter and six zeros. */
static bool is_line(const uint8_t *bytes)
{
    switch (bytes[0]) {
    case 'S':
        return bytes[1] == 0 && two_bytes(bytes + 6) <= NUMBER_MOST;
    case 'F':
        return is_counter(bytes[1]) && two_bytes(bytes + 2) <= NUMBER_MOST && four_bytes(bytes + 4) == 0;
    case 'N':
        return is_counter(bytes[1]) && two_bytes(bytes + 2) == 0 && four_bytes(bytes + 4) == 0;
    default:
        return false;
    }
}

/* "Reading eight bytes now answers State, For, Next or Bad" (02, item 4). */
struct line box_read_line(const uint8_t *bytes)
{
    struct line line = {LINE_BAD, 0, 0, 0};

    if (!is_line(bytes))
        return line;
    if (bytes[0] == 'S') {
        line.kind = LINE_STATE;
        line.number = (uint16_t)two_bytes(bytes + 6);
        line.outputs = four_bytes(bytes + 2);
        return line;
    }
    line.kind = bytes[0] == 'F' ? LINE_FOR : LINE_NEXT;
    line.counter = (uint8_t)(bytes[1] - 1);
    line.number = (uint16_t)two_bytes(bytes + 2);
    return line;
}

/* Stop frees the loops and keeps outputs and line. */
static void stop(struct box *box)
{
    box->mode = STOPPED;
    memset(box->counter, 0, sizeof box->counter);
}

/* A stop with an event overwrites any unread one. */
void box_stop_with(struct box *box, uint8_t event)
{
    stop(box);
    box->event = event;
    box->unread = true;
}

/* A start frees all loops. 01 says nothing of an unread event at a start: it stays. */
uint16_t box_start(struct box *box, unsigned line, const uint8_t *program, uint8_t *log)
{
    memset(box->counter, 0, sizeof box->counter);
    box->mode = RUNNING;
    return box_run(box, line, program, log);
}

/* State: all 32 outputs at once, then its time; with time 0 the program ends here. */
static void run_state(struct box *box, const struct line *state, uint8_t *log)
{
    box_set_outputs(box, state->outputs, box->line, log);
    box->wait = state->number;
    if (state->number == 0)
        box_stop_with(box, EVENT_END);
}

/*
 * The first later line that is a Next of this counter, or LINES. The bytes of a Next are fixed, so compare all eight; any other line is
 * passed, a Bad one too ("The search for a Next passes over it", 02, item 4).
 */
static unsigned next_below(const uint8_t *program, unsigned line, unsigned counter)
{
    const uint8_t next[LINE_BYTES] = {'N', (uint8_t)(counter + 1)};

#if DAMAGE == 9
    line++;
#endif
    for (line++; line < LINES; line++) {
        if (memcmp(program + line * LINE_BYTES, next, LINE_BYTES) == 0)
            return line;
#if DAMAGE == 32
        if (box_read_line(program + line * LINE_BYTES).kind == LINE_BAD)
            return LINES;
#endif
    }
    return LINES;
}

/* A loop of none (02, item 2): no counter is taken, and the line after its Next falls due, whose number this answers. */
static unsigned pass_over(struct box *box, unsigned next)
{
    box->nones.passed++;
    box->nones.past_199 += next == LINES - 1;
    box->nones.last_for = box->line;
    box->nones.last_next = (uint8_t)next;
#if DAMAGE == 18
    return next;
#endif
    return next + 1;
}

/*
 * Runs the For on the present line; *due is the line after it, altered by a loop of none. Answers 0 or the event that
 * stops the program.
 */
static uint8_t run_for(struct box *box, const struct line *line, const uint8_t *program, unsigned *due)
{
    const unsigned counter = line->counter;
    unsigned next;

#if DAMAGE == 20
    if (box->counter[counter] != 0 && line->number != 0)
#else
    if (box->counter[counter] != 0)
#endif
        return EVENT_COUNTER_BUSY;
    next = next_below(program, box->line, counter);
    if (next == LINES)
        return EVENT_NO_NEXT;
#if DAMAGE == 22
    if (line->number == 0) {
        box->counter[counter] = 1;
        box->after_for[counter] = (uint8_t)(box->line + 1);
        return 0;
    }
#endif
    if (line->number == 0) {
        *due = pass_over(box, next);
#if DAMAGE == 19
        box->counter[counter] = 1;
        box->after_for[counter] = (uint8_t)(box->line + 1);
#endif
        return 0;
    }
    box->counter[counter] = line->number;
    /* A later line exists here, so this is 199 at most, whatever the caller makes of the area later. */
    box->after_for[counter] = (uint8_t)(box->line + 1);
    return 0;
}

#if DAMAGE == 2
static bool for_stands_above(const uint8_t *program, unsigned line, unsigned counter)
{
    while (line-- > 0) {
        const struct line above = box_read_line(program + line * LINE_BYTES);
        if (above.kind == LINE_FOR && above.counter == counter)
            return true;
    }
    return false;
}
#endif

/* Runs the Next on the present line; *due is the line after it, altered to jump back. Answers as run_for. */
static uint8_t run_next(struct box *box, const struct line *line, const uint8_t *program, unsigned *due)
{
    const unsigned counter = line->counter;

    (void)program; /* a Next is judged by its counter alone */
    if (box->counter[counter] == 0) {
#if DAMAGE == 2
        if (for_stands_above(program, box->line, counter))
            return 0;
#endif
        return EVENT_NO_FOR; /* even if a For stands above in the text */
    }
    if (--box->counter[counter] > 0) {
        *due = box->after_for[counter];
#if DAMAGE == 1
        *due -= 1;
#endif
    }
    return 0;
}

/*
 * Runs the For or Next on the present line, whose number *due is, and makes *due the line that follows; *run counts such lines in this
 * call. Answers as run_for.
 */
static uint8_t run_loop(struct box *box, const struct line *line, const uint8_t *program, unsigned *due, uint16_t *run)
{
    /* The 401st is not run, but it is where the program stopped: 211 shows it. */
    if (*run == RUN_MOST)
        return EVENT_TOO_LONG;
    ++*run;
    ++*due;
    return line->kind == LINE_FOR ? run_for(box, line, program, due) : run_next(box, line, program, due);
}

/*
 * "Running a Bad line stops with event 014 at that line" (02, item 4). It is neither For nor Next: it is not counted, and due after 400
 * lines it is no 401st.
 */
static uint8_t run_bad(uint16_t run)
{
    (void)run; /* whatever number was run before it */
#if DAMAGE == 30
    if (run == RUN_MOST)
        return EVENT_TOO_LONG;
#endif
#if DAMAGE == 31
    return EVENT_END;
#endif
    return EVENT_BAD_LINE;
}

/*
 * Runs the lines that fall due in this call, from line `due` on, until a State is held or the program stops.
 * Answers the number of For and Next lines run, those that end in 006, 007 or 008 among them, and so too a Next
 * and a loop of none that go on past 199.
 */
uint16_t box_run(struct box *box, unsigned due, const uint8_t *program, uint8_t *log)
{
    uint16_t run = 0;
    uint8_t event = 0;

    /* Past 199 no line is due, so a 400th Next on line 199 that goes on gives 009 and not 013. */
    while (event == 0 && due < LINES) {
        const struct line line = box_read_line(program + due * LINE_BYTES);

        box->line = (uint8_t)due;
        if (line.kind == LINE_STATE) {
            run_state(box, &line, log);
            return run;
        }
        event = line.kind == LINE_BAD ? run_bad(run) : run_loop(box, &line, program, &due, &run);
    }
    if (event == 0) {
        event = EVENT_PAST_LAST;
#if DAMAGE != 21
        box->line = LINES - 1; /* "line stays 199", also where a loop of none further up passed its Next there */
#endif
    }
    box_stop_with(box, event);
    return run;
}

/* 006: a State sets the outputs; neither the line of 211 nor the event moves. For and Next do nothing, and so a Bad line (02, item 4). */
static void execute_one(struct box *box, const uint8_t *program, uint8_t *log)
{
    const unsigned at = box->parameter;
    const struct line line = box_read_line(at < LINES ? program + at * LINE_BYTES : box->single);

    if (line.kind == LINE_STATE)
        box_set_outputs(box, line.outputs, CAUSE_SINGLE, log);
}

/*
 * Why the state forbids a command, 0 if it does not. 001 is always taken, 002 if there is a program to pause, 004 in a pause; all others
 * are for a program that is stopped.
 */
static unsigned state_forbids(unsigned mode, unsigned code)
{
    switch (code) {
    case 1:
        return 0;
    case 2:
#if DAMAGE == 25
        return mode == STOPPED ? E_LOCKED : 0;
#else
        return mode == STOPPED ? E_NOTHING_TO_PAUSE : 0;
#endif
    case 4:
#if DAMAGE == 23
        if (mode == STOPPED)
            return E_NEEDS_STOP;
#endif
        return mode == PAUSED ? 0 : E_NEEDS_PAUSE;
    default:
        return mode == STOPPED ? 0 : E_NEEDS_STOP;
    }
}

/* 005 starts at a line of the program, 006 executes one of those or the single command; the others look at no parameter. */
static unsigned reach_forbids(unsigned parameter, unsigned code)
{
    if ((code == 5 && parameter >= LINES) || (code == 6 && parameter > SINGLE))
#if DAMAGE == 26
        return E_ADDRESS;
#else
        return E_OUT_OF_REACH;
#endif
    return 0;
}

/* Check 7: the code, the state, the parameter. */
static unsigned not_taken(const struct box *box, unsigned code)
{
    if (code < 1 || code > 8)
        return E_DATA;

    const unsigned state = state_forbids(box->mode, code);
    const unsigned reach = reach_forbids(box->parameter, code);
#if DAMAGE == 24
    return reach != 0 ? reach : state;
#else
    return state != 0 ? state : reach;
#endif
}

/* A special command. 210 shows the last one accepted, also one that had nothing to do. */
unsigned box_special_command(struct box *box, unsigned code, const struct lent *lent, uint16_t *lines)
{
    const unsigned error = not_taken(box, code);

    if (error != 0)
        return error;
    box->special = (uint8_t)code;
    switch (code) {
    case 1: /* raises no event; when stopped the loops are free already */
        stop(box);
        break;
    case 2:
        box->mode = PAUSED;
        break;
    case 3:
        *lines = box_start(box, 0, lent->program, lent->log);
        break;
    case 4:
        box->mode = RUNNING;
        break;
    case 5:
        *lines = box_start(box, box->parameter, lent->program, lent->log);
        break;
    case 6:
        execute_one(box, lent->program, lent->log);
        break;
    case 7: /* "Load and save copy the bytes unaltered" (02, item 4) */
        memcpy(lent->program, lent->saved, PROGRAM_BYTES);
        break;
    default:
        memcpy(lent->saved, lent->program, PROGRAM_BYTES);
        break;
    }
    return 0;
}
