/*
 * totals.c: the switching totals of the channels (02, "Switching totals per channel"; records of the log are those of 02, item 8).
 *
 * A log is counted by itself, in one pass over its changes, and added when it is seen that every total has room for it. A channel's ticks
 * are those at which it opened less those at which it closed; one that is closed at the beginning counts as closed there, and one that is
 * closed at the end as opened there. No more comes out than the ticks between the two, so 32 bits do for all of it.
 */
#include "totals.h"

#include "internal.h"
#include "loglist.h"

enum { GAP = 2 }; /* the kind */

enum { KIND_AT = 2, TICK_AT = 4, VALUE_AT = 8, WORD_AT = 12 }; /* in a record */

enum {
    REFUSED_OLDER = 51,
    REFUSED_EARLIER = 72,
    REFUSED_WORD = 73,
    REFUSED_TOTAL = 74,
    REFUSED_COUNT = 75
};

enum { OPENED, CLOSED }; /* by the bit after the change */

struct tally { /* of one channel, by one log */
    uint32_t switched[2]; /* how often it OPENED and CLOSED */
    uint32_t ticks;
};

struct counted { /* by one log */
    struct tally channel[TOTALS_CHANNELS];
    uint32_t tick; /* of its last record */
    uint32_t word; /* after it */
    uint32_t lost; /* in its gap, 0 without one */
};

/* ---- one log ---- */

static void add_ticks(struct tally *channel, uint32_t word, uint32_t ticks)
{
    for (; word != 0; word &= word - 1)
        channel[__builtin_ctz(word)].ticks += ticks;
}

static void count_change(struct tally *channel, uint32_t before, uint32_t after, uint32_t tick)
{
    for (uint32_t altered = before ^ after; altered != 0; altered &= altered - 1) {
        const unsigned n = (unsigned)__builtin_ctz(altered), now = after >> n & 1;

        channel[n].switched[now]++;
        channel[n].ticks += now == CLOSED ? -tick : tick;
    }
}

/* The word before a gap counts up to its tick, and from there on its own, though nobody knows which channels closed or opened. */
static void count_gap(struct counted *counted, const uint8_t *gap)
{
    const uint32_t tick = four_bytes(gap + TICK_AT);
    uint32_t word = four_bytes(gap + WORD_AT);

#if DAMAGE == 61
    word = counted->word; /* of the last change that was kept */
#endif
#if DAMAGE == 58
    count_change(counted->channel, counted->word, word, tick);
    counted->word = word;
#endif
#if DAMAGE == 60
    add_ticks(counted->channel, counted->word, counted->tick);
    add_ticks(counted->channel, word, -counted->tick);
    counted->word = word;
#endif
    add_ticks(counted->channel, counted->word, tick);
    counted->tick = tick;
    counted->word = word;
    counted->lost = four_bytes(gap + VALUE_AT);
}

/* A log with records that follows on the last one read. A gap can only be its last record. */
static void count_log(struct counted *counted, const uint8_t *log, size_t length, const struct totals_beside *beside)
{
    const uint8_t *last = log + length - BOX_LOG_RECORD, *end = last[KIND_AT] == GAP ? last : log + length;
    uint32_t word = beside->word, tick = beside->tick;

    *counted = (struct counted){0};
    add_ticks(counted->channel, word, -tick);
    for (const uint8_t *record = log; record < end; record += BOX_LOG_RECORD) {
        const uint32_t after = four_bytes(record + VALUE_AT);

        tick = four_bytes(record + TICK_AT);
        count_change(counted->channel, word, after, tick);
        word = after;
    }
    counted->tick = tick;
    counted->word = word;
#if DAMAGE == 59
    if (end != last) {
        add_ticks(counted->channel, word, tick + 1); /* to an emptying a tick later */
        return;
    }
#endif
    if (end == last)
        count_gap(counted, last);
    else
        add_ticks(counted->channel, word, tick);
}

/* ---- the totals ---- */

static bool has_room(uint64_t total, uint32_t more)
{
    return total <= UINT64_MAX - more;
}

static bool channel_has_room(const struct totals_channel *channel, const struct tally *tally)
{
    return has_room(channel->closings, tally->switched[CLOSED]) && has_room(channel->openings, tally->switched[OPENED]) &&
           has_room(channel->ticks, tally->ticks);
}

static bool all_have_room(const struct totals_channel *channels, const struct totals_beside *beside, const struct counted *counted)
{
    size_t count = TOTALS_CHANNELS;

#if DAMAGE == 69
    count--;
#endif
    for (size_t n = 0; n < count; n++)
        if (!channel_has_room(&channels[n], &counted->channel[n]))
            return false;
#if DAMAGE == 65
    return true;
#endif
    return has_room(beside->unknown, counted->lost);
}

static void add_channel(struct totals_channel *channel, const struct tally *tally)
{
    channel->closings += tally->switched[CLOSED];
    channel->openings += tally->switched[OPENED];
    channel->ticks += tally->ticks;
}

static void add_all(struct totals_channel *channels, struct totals_beside *beside, const struct counted *counted)
{
    for (size_t n = 0; n < TOTALS_CHANNELS; n++)
        add_channel(&channels[n], &counted->channel[n]);
    beside->tick = counted->tick;
    beside->word = counted->word;
    beside->unknown += counted->lost;
#if DAMAGE == 65
    if (beside->unknown < counted->lost)
        beside->unknown = UINT64_MAX;
#endif
#if DAMAGE == 66
    if (counted->lost != 0)
        beside->more = false;
#endif
    if (counted->lost == UINT32_MAX)
        beside->more = true;
}

/* ---- bringing forward ---- */

static bool is_older(const uint8_t *log, size_t length)
{
    return length != 0 && two_bytes(log) == LOG_LIST_OLDER_MARK;
}

/* What is refused before anything is counted. */
static uint8_t refused(size_t count, const uint8_t *log, size_t length, const struct totals_beside *beside)
{
    unsigned refusal;

#if DAMAGE != 67
    if (count != TOTALS_CHANNELS)
        return REFUSED_COUNT;
#endif
#if DAMAGE == 68
    if (length >= 2 && is_older(log, length))
        return REFUSED_OLDER;
#endif
    refusal = log_list_refusal(log, length);
    if (refusal != 0)
        return (uint8_t)refusal;
    if (is_older(log, length))
        return REFUSED_OLDER;
#if DAMAGE == 67
    if (count != TOTALS_CHANNELS)
        return REFUSED_COUNT;
#endif
    if (length == 0)
        return 0;
#if DAMAGE == 63
    if (four_bytes(log + TICK_AT) == beside->tick)
        return REFUSED_EARLIER;
#endif
    if (four_bytes(log + TICK_AT) < beside->tick)
        return REFUSED_EARLIER;
#if DAMAGE == 64
    if (beside->tick == 0)
        return 0;
#endif
    return four_bytes(log + WORD_AT) != beside->word ? REFUSED_WORD : 0;
}

uint8_t totals_bring_forward(struct totals_channel *channels, size_t count, const uint8_t *log, size_t length,
                             struct totals_beside *beside)
{
    struct counted counted;
    const uint8_t refusal = refused(count, log, length, beside);

    if (refusal != 0 || length == 0)
        return refusal;
    count_log(&counted, log, length, beside);
    if (!all_have_room(channels, beside, &counted)) {
#if DAMAGE == 62
        for (size_t n = 0; n < TOTALS_CHANNELS && channel_has_room(&channels[n], &counted.channel[n]); n++)
            add_channel(&channels[n], &counted.channel[n]);
#endif
        return REFUSED_TOTAL;
    }
    add_all(channels, beside, &counted);
    return 0;
}
