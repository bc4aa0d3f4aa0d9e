#include "statistics.h"

#include <inttypes.h>
#include <stdio.h>

static uint64_t over_kinds(const struct statistics *statistics, int refusal)
{
    uint64_t sum = 0;
    for (int k = 0; k < ALTER; k++) sum += statistics->met[k][refusal];
    return sum;
}

/* Prints a line of the report; true if the class was met. */
static bool class(const char *name, uint64_t count)
{
    printf("  %-52s %12" PRIu64 "\n", name, count);
    return count > 0;
}

static bool print_calls(const struct statistics *statistics)
{
    static const char *const rows[REFUSALS] = {"accepted",            "030 program or saved", "031 log",        "032 reply",
                                               "033 last tick count", "034 button",           "035 destination"};
    bool met = true;
    printf("\n  %-22s%10s%11s%11s%10s%10s%12s\n", "calls", "power-on", "byte", "tick", "press", "empty", "all");
    for (int r = 0; r < REFUSALS; r++) {
        printf("  %-22s", rows[r]);
        static const int widths[] = {10, 11, 11, 10, 10};
        for (int k = 0; k < ALTER; k++) printf("%*" PRIu64, widths[k], statistics->met[k][r]);
        printf("%12" PRIu64 "\n", over_kinds(statistics, r));
        if (r != 4) met = met && over_kinds(statistics, r) > 0; /* 033 needs four thousand million ticks */
    }
    for (int k = 0; k < ALTER; k++) met = met && statistics->met[k][0] > 0;
    puts("  (033 is for 'compare limits')\n");
    met &= class("areas altered between calls", statistics->met[ALTER][0]);
    class("episodes", statistics->episodes);
    return met;
}

/* How many addresses were met at all; true if `all`. */
static bool print_addresses(const char *name, const uint64_t counts[ADDRESSES], unsigned all)
{
    unsigned met = 0;
    for (int a = 0; a < ADDRESSES; a++) met += counts[a] > 0;
    class(name, met);
    return met == all;
}

static bool print_replies(const struct statistics *statistics)
{
    static const char *const errors[ERRORS] = {
        [NIZHALEPU_E_SHORT] = "E001 too short",
        [NIZHALEPU_E_FORM] = "E002 form",
        [NIZHALEPU_E_DATA] = "E003 data",
        [NIZHALEPU_E_ADDRESS] = "E004 address",
        [NIZHALEPU_E_LOCKED] = "E005 locked: a program runs or is paused",
        [NIZHALEPU_E_NEEDS_STOP] = "E020 needs a stopped program",
        [NIZHALEPU_E_NEEDS_PAUSE] = "E021 needs a pause",
        [NIZHALEPU_E_NOTHING_TO_PAUSE] = "E022 nothing is running to pause",
        [NIZHALEPU_E_OUT_OF_REACH] = "E023 parameter out of reach",
        [NIZHALEPU_E_BAD_LINE] = "E024 Bad line",
    };
    static const char *const firsts[FIRSTS] = {
        [FIRST_READ_BY_I] = "I where nothing was read: data",
        [FIRST_READ_BY_D] = "D where nothing was read: E004",
        [FIRST_WRITE_BY_I] = "I where nothing was written: OK",
        [FIRST_WRITE_BY_D] = "D where nothing was written: E004",
    };
    bool met = true;
    puts("\n  replies");
    met &= class("OK", statistics->accepted_writes);
    met &= class("data", statistics->data);
    for (int e = 1; e < ERRORS; e++)
        if (errors[e] != NULL) met &= class(errors[e], statistics->errors[e]);
    for (int f = 0; f < FIRSTS; f++) met &= class(firsts[f], statistics->first[f]);
    met &= print_addresses("addresses read, of 217", statistics->reads, 217);
    met &= print_addresses("addresses written, of 207", statistics->writes, 207);
    return met;
}

/* A special command in the three states, with what is due to it. */
static bool print_special(const struct statistics *statistics, const char *name, int code, int reach)
{
    bool met = true;
    printf("  %-28s", name);
    for (int s = 0; s < STATES; s++) {
        char due[5] = "OK";
        unsigned error = statistics_due((unsigned)code, (unsigned)s, (unsigned)reach);
        if (error != 0) snprintf(due, sizeof due, "E%03u", error % 1000);
        printf("%9" PRIu64 " %-4s", statistics->special[code][s][reach], due);
        met = met && statistics->special[code][s][reach] > 0;
    }
    putchar('\n');
    return met;
}

static bool print_specials(const struct statistics *statistics)
{
    static const char *const names[CODES][REACHES] = {{NULL},
                                                      {"001 stop"},
                                                      {"002 pause"},
                                                      {"003 start at 000"},
                                                      {"004 continue"},
                                                      {"005 start at parameter", "005, parameter above 199"},
                                                      {"006 execute one line", "006, parameter above 200"},
                                                      {"007 load"},
                                                      {"008 save"}};
    bool met = true;
    printf("\n  %-28s%14s%14s%14s\n", "special commands", "stopped", "paused", "running");
    for (int c = 1; c < CODES; c++)
        for (int reach = 0; reach < REACHES; reach++)
            if (names[c][reach] != NULL) met &= print_special(statistics, names[c][reach], c, reach);
    return met;
}

static bool print_nones(const struct statistics *statistics)
{
    bool met = class("loops of none passed", statistics->nones);
    met &= class("loops of none passed, their Next on line 199", statistics->nones_past_199);
    met &= class("loops of none passed in calls with a run of 400", statistics->nones_of_400);
    class("most loops of none passed in a call", statistics->most_nones);
    met &= class("For with count 0000 that ended in 006", statistics->none_events[6]);
    met &= class("For with count 0000 that ended in 007", statistics->none_events[7]);
    met &= class("For with count 0000 that was the 401st: 013", statistics->none_events[13]);
    return met;
}

static bool print_running(const struct statistics *statistics)
{
    static const char *const events[EVENTS] = {
        [6] = "006 For of a busy counter", [7] = "007 For without Next",  [8] = "008 Next of a free counter",
        [9] = "009 past line 199",         [10] = "010 stopped by button", [11] = "011 end mark",
        [12] = "012 power-on",             [13] = "013 more than 400 lines", [14] = "014 Bad line",
    };
    bool met = true;
    puts("\n  events");
    for (int e = 6; e < EVENTS; e++) met &= class(events[e], statistics->events[e]);
    puts("\n  running");
    met &= class("ticks taken when stopped", statistics->ticks[0]);
    met &= class("ticks taken when paused", statistics->ticks[1]);
    met &= class("ticks taken when running", statistics->ticks[2]);
    class("longest run of For and Next lines in a call", statistics->most_lines);
    met &= class("calls with a run of 400", statistics->full_runs);
    met &= print_nones(statistics);
    return met;
}

static bool print_log(const struct statistics *statistics)
{
    static const char *const lents[LENTS] = {
        [LENT_31] = "power-on with a log of 31 bytes: 031",
        [LENT_32] = "power-on with a log of 32 bytes",
        [LENT_33] = "power-on with a log of 33 bytes",
        [LENT_47] = "power-on with a log of 47 bytes",
        [LENT_48] = "power-on with a log of 48 bytes",
        [LENT_65536] = "power-on with a log of 65,536 bytes",
        [LENT_65537] = "power-on with a log of 65,537 bytes: 031",
    };
    static const char *const names[LOGGED] = {
        [LOGGED_CHANGE] = "changes recorded",
        [LOGGED_CHANGE_BEHIND_ALTERED] = "changes recorded, the record before altered",
        [LOGGED_LOSS_FIRST] = "gaps begun",
        [LOGGED_LOSS_LATER] = "changes lost in a later tick than the first",
        [LOGGED_LOSS_BACK] = "changes lost, back to the word before the gap",
        [LOGGED_LOSS_ALTERED] = "changes lost, the gap altered",
        [LOGGED_LOSS_ALTERED_LATER] = "changes lost in a later tick, the gap altered",
        [LOGGED_EMPTIED_GAP_OF_1] = "gaps of 1 emptied",
        [LOGGED_EMPTIED_GAP_BACK] = "gaps of 2 back to the word before, emptied",
        [LOGGED_EMPTIED_ALTERED] = "altered gaps emptied",
    };
    bool met = true;
    puts("\n  the log");
    for (int l = 0; l < LENTS; l++) met &= class(lents[l], statistics->lent[l]);
    for (int l = 0; l < LOGGED; l++) met &= class(names[l], statistics->logged[l]);
    class("most changes lost in one gap", statistics->most_lost);
    class("most bytes in one emptying", statistics->most_written);
    return met;
}

/* What makes lines Bad, and what was done with such lines. */
static bool print_faults(const struct statistics *statistics)
{
    static const char *const names[FAULTS] = {
        [FAULT_ALL_ZERO] = "eight zeros",
        [FAULT_FIRST_BYTE] = "another first byte",
        [FAULT_STATE_SECOND_BYTE] = "State, second byte not 0",
        [FAULT_STATE_TIME] = "State, time above 9999",
        [FAULT_FOR_COUNTER_0] = "For, counter 0",
        [FAULT_FOR_COUNTER] = "For, counter above 4",
        [FAULT_FOR_COUNT] = "For, count above 9999",
        [FAULT_FOR_ZEROS] = "For, a last byte not 0",
        [FAULT_NEXT_COUNTER_0] = "Next, counter 0",
        [FAULT_NEXT_COUNTER] = "Next, counter above 4",
        [FAULT_NEXT_ZEROS] = "Next, a last byte not 0",
    };
    bool met = true;
    printf("\n  %-28s%10s%10s%10s%10s\n", "what makes them Bad", "read", "run", "executed", "passed");
    for (int f = FAULT_NONE + 1; f < FAULTS; f++) {
        printf("  %-28s", names[f]);
        for (int u = 0; u < USES; u++) {
            printf("%10" PRIu64, statistics->faults[f][u]);
            met = met && statistics->faults[f][u] > 0;
        }
        putchar('\n');
    }
    return met;
}

static bool print_bad(const struct statistics *statistics)
{
    static const char *const names[BADS] = {
        [BAD_READ_BY_DIGITS] = "E024, read by digits",
        [BAD_READ_BY_I] = "E024, read by I",
        [BAD_READ_BY_D] = "E024, read by D",
        [BAD_READ_TOO_LONG] = "E002, read with characters left over",
        [BAD_RUN_AT_START] = "014 at a start",
        [BAD_RUN_AT_TICK] = "014 at a tick",
        [BAD_RUN_AFTER_400] = "014 after 400 For and Next lines",
        [BAD_RUN_IN_LOOP] = "014 in a loop",
        [BAD_RUN_AT_199] = "014 on line 199",
        [BAD_EXECUTED] = "executed by 006",
        [BAD_POWERED] = "copied by a power-on",
        [BAD_LOADED] = "copied by a load, 007",
        [BAD_SAVED] = "copied by a save, 008",
        [BAD_IN_LOOP_TAKEN] = "passed by the search of a For that took its counter",
        [BAD_IN_NONE] = "passed with a loop of none",
    };
    bool met = true;
    puts("\n  Bad lines");
    for (int b = 0; b < BADS; b++) met &= class(names[b], statistics->bad[b]);
    return print_faults(statistics) && met;
}

static bool print_logs(const struct statistics *statistics)
{
    static const char *const marks[FORMS + 1] = {
        [PRESENT] = "logs of the mark 1E E2", [OLDER] = "logs of the older mark 1E E1", [FORMS] = "logs of no such mark, or none at all"};
    bool met = true;
    puts("\n  logs as text");
    for (int m = 0; m <= FORMS; m++) met &= class(marks[m], statistics->marks[m]);
    for (int l = 0; l < LISTED; l++) met &= class(listed_names[l], statistics->listed[l]);
    return met;
}

bool statistics_print(const struct statistics *statistics)
{
    bool met = print_calls(statistics);
    met &= print_replies(statistics);
    met &= print_specials(statistics);
    met &= print_running(statistics);
    met &= print_log(statistics);
    met &= print_bad(statistics);
    met &= print_logs(statistics);
    return met;
}
