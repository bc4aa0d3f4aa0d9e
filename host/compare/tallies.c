/* tallies.c: counts what a comparison of switching totals has met. */
#include "tallies.h"

#include <inttypes.h>
#include <stdio.h>

enum { ENOUGH = 10000 }; /* logs from which on the shares say something */

static const char *const names[TALLIES] = {
    [TALLY_CHANGES] = "brought forward, changes",
    [TALLY_GAP] = "brought forward, changes and a gap",
    [TALLY_NONE] = "a log of no record",
    [TALLY_E075] = "075 other than 32 records",
    [TALLY_E056] = "056 file too long",
    [TALLY_E050] = "050 no whole number of records",
    [TALLY_E053] = "053 mixed marks",
    [TALLY_E051] = "051 wrong mark",
    [TALLY_OLDER] = "051 a 12-byte log that the reader accepts",
    [TALLY_E052] = "052 impossible record",
    [TALLY_E072] = "072 first tick earlier than the last",
    [TALLY_E073] = "073 first earlier word not the last",
    [TALLY_E074] = "074 a total would pass the end of 64 bits",
    [TALLY_31_RECORDS] = "075, and 31 records",
    [TALLY_33_RECORDS] = "075, and 33 records",
    [TALLY_E075_AND_MORE] = "075, and the log would be refused too",
    [TALLY_OLDER_REFUSED] = "a 12-byte log that the reader refuses",
    [TALLY_SAME_TICK] = "brought forward, the first tick is the last one",
    [TALLY_TICK_BEFORE] = "072, and the first tick is one before the last",
    [TALLY_E072_AND_WORD] = "072, and the word does not follow either",
    [TALLY_E073_AT_START] = "073, and nothing was read before",
    [TALLY_FULL] = "brought forward, 4,095 changes or more",
    [TALLY_CAP] = "brought forward, a gap at its cap",
    [TALLY_MORE_STAYS] = "or more from before, and a gap below its cap",
    [TALLY_END_CLOSINGS] = "closings that come to the end",
    [TALLY_END_OPENINGS] = "openings that come to the end",
    [TALLY_END_TICKS] = "ticks that come to the end",
    [TALLY_END_UNKNOWN] = "a number unknown that comes to the end",
    [TALLY_END_CHANNEL_32] = "a total of channel 32 that comes to the end",
    [TALLY_PAST_CLOSINGS] = "074 by closings alone",
    [TALLY_PAST_OPENINGS] = "074 by openings alone",
    [TALLY_PAST_TICKS] = "074 by ticks alone",
    [TALLY_PAST_UNKNOWN] = "074 by the number unknown alone",
    [TALLY_PAST_CHANNEL_1] = "074 by channel 1 alone",
    [TALLY_PAST_CHANNEL_32] = "074 by channel 32 alone",
};

/* ---- logs */

static bool is_older(const struct account *account)
{
    const struct log *log = &account->log;
    if (log->length == 0 || log->length % LOG_OLDER_RECORD != 0) return false;
    for (size_t at = 0; at < log->length; at += LOG_OLDER_RECORD)
        if (log_mark(log->bytes + at, LOG_OLDER_RECORD) != MARK_OLDER) return false;
    return true;
}

static uint32_t first_tick(const struct account *account)
{
    return log_get(account->log.bytes + TICK_AT);
}

static bool word_follows(const struct account *account)
{
    return log_get(account->log.bytes + WORD_AT) == account->beside.word;
}

/* Would a log in the place of this one be refused, though there were 32 records? */
static bool refused_too(const struct account *account)
{
    struct nizhalepu_channel channels[CHANNELS] = {0};
    return nizhalepu_bring_forward(channels, CHANNELS, account->log.bytes, account->log.length, account->beside).refusal != 0;
}

/* ---- totals at the end of 64 bits */

/* Totals that come to the end by something that is added, and those that would pass it. */
struct ends {
    unsigned reached[FIELDS], passed[FIELDS];
    unsigned of_first, of_last; /* of those that would pass it, of channels 1 and 32 */
    bool last_reached;          /* one of channel 32 */
    unsigned all_passed;        /* the number unknown among them */
};

static struct ends ends_of(const struct account *account)
{
    struct ends ends = {0};
    for (unsigned n = 0; n < CHANNELS; n++)
        for (enum field field = 0; field < FIELDS; field++) {
            uint64_t total = channel_total(&account->channels[n], field);
            if (total < UINT64_MAX / 2) continue; /* no log adds as much */
            uint64_t adds = account_adds(account, n, field), room = UINT64_MAX - total;
            ends.reached[field] += adds > 0 && adds == room;
            ends.last_reached |= n == CHANNELS - 1 && adds > 0 && adds == room;
            ends.passed[field] += adds > room;
            ends.of_first += n == 0 && adds > room;
            ends.of_last += n == CHANNELS - 1 && adds > room;
            ends.all_passed += adds > room;
        }
    ends.all_passed += account_lost(account) > UINT64_MAX - account->beside.unknown;
    return ends;
}

/* ---- counting */

static void count_brought(uint64_t *met, const struct account *account)
{
    const struct ends ends = ends_of(account);
    uint32_t lost = account_lost(account);
    met[lost > 0 ? TALLY_GAP : TALLY_CHANGES]++;
    met[TALLY_SAME_TICK] += first_tick(account) == account->beside.tick;
    met[TALLY_FULL] += log_records(&account->log) >= log_most_records(PRESENT) - 1;
    met[TALLY_CAP] += lost == UINT32_MAX;
    met[TALLY_MORE_STAYS] += account->beside.more && lost > 0 && lost < UINT32_MAX;
    met[TALLY_END_CLOSINGS] += ends.reached[CLOSINGS] > 0;
    met[TALLY_END_OPENINGS] += ends.reached[OPENINGS] > 0;
    met[TALLY_END_TICKS] += ends.reached[TICKS] > 0;
    met[TALLY_END_UNKNOWN] += lost > 0 && lost == UINT64_MAX - account->beside.unknown;
    met[TALLY_END_CHANNEL_32] += ends.last_reached;
}

static void count_past(uint64_t *met, const struct account *account)
{
    const struct ends ends = ends_of(account);
    met[TALLY_E074]++;
    if (ends.all_passed != 1) return;
    met[TALLY_PAST_CLOSINGS] += ends.passed[CLOSINGS];
    met[TALLY_PAST_OPENINGS] += ends.passed[OPENINGS];
    met[TALLY_PAST_TICKS] += ends.passed[TICKS];
    met[TALLY_PAST_UNKNOWN] += ends.passed[CLOSINGS] + ends.passed[OPENINGS] + ends.passed[TICKS] == 0;
    met[TALLY_PAST_CHANNEL_1] += ends.of_first;
    met[TALLY_PAST_CHANNEL_32] += ends.of_last;
}

static void count_refused(uint64_t *met, const struct account *account, unsigned refusal)
{
    switch (refusal) {
    case NIZHALEPU_BAD_COUNT:
        met[TALLY_E075]++;
        met[TALLY_31_RECORDS] += account->count == 31;
        met[TALLY_33_RECORDS] += account->count == 33;
        met[TALLY_E075_AND_MORE] += refused_too(account);
        break;
    case NIZHALEPU_EARLIER_TICK:
        met[TALLY_E072]++;
        met[TALLY_TICK_BEFORE] += first_tick(account) + 1 == account->beside.tick;
        met[TALLY_E072_AND_WORD] += !word_follows(account);
        break;
    case NIZHALEPU_OTHER_WORD:
        met[TALLY_E073]++;
        met[TALLY_E073_AT_START] += account->beside.tick == 0 && account->beside.word == 0;
        break;
    case NIZHALEPU_TOTAL_TOO_GREAT:
        count_past(met, account);
        break;
    default: /* the reader's own */
        met[TALLY_OLDER_REFUSED] += log_mark(account->log.bytes, account->log.length) == MARK_OLDER;
        break;
    }
}

/* Of the reader's refusals the row, or TALLIES for a number that is none. */
static enum tally of_reader(const struct account *account, unsigned refusal)
{
    switch (refusal) {
    case 50:
        return TALLY_E050;
    case NIZHALEPU_OLDER_LOG:
        return is_older(account) ? TALLY_OLDER : TALLY_E051;
    case 52:
        return TALLY_E052;
    case 53:
        return TALLY_E053;
    case 56:
        return TALLY_E056;
    default:
        return TALLIES;
    }
}

void tallies_count(struct tallies *tallies, const struct account *account, const struct brought *proved)
{
    unsigned refusal = proved->refusal;
    enum tally row = of_reader(account, refusal);
    bool own = refusal >= NIZHALEPU_EARLIER_TICK && refusal <= NIZHALEPU_BAD_COUNT;
    if (refusal == 0 && account->log.length == 0)
        tallies->met[TALLY_NONE]++;
    else if (refusal == 0)
        count_brought(tallies->met, account);
    else if (row == TALLIES && !own)
        tallies->other++;
    else if (row != TALLIES)
        tallies->met[row]++;
    if (refusal != 0 && row != TALLY_OLDER) count_refused(tallies->met, account, refusal);
}

bool tallies_print(const struct tallies *tallies, uint64_t logs)
{
    bool met = tallies->other == 0;
    for (unsigned row = 0; row < TALLIES; row++) {
        double share = 100.0 * (double)tallies->met[row] / (double)logs;
        printf("  %-52s %12" PRIu64 " %8.2f %%\n", names[row], tallies->met[row], share);
        met = met && share >= 0.1;
    }
    printf("  %-52s %12" PRIu64 "\n", "an answer that is none of these", tallies->other);
    if (met || logs < ENOUGH) return true;
    puts("\nSELDOM MET: a row has less than one in a thousand, or an answer is none of these; so this run has not shown what it claims.");
    return false;
}
