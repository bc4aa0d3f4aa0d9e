/* totals.c: the switching totals per channel, by the proved library and by the independent reading, on totals and logs made up. */
#include "accounts.h"
#include "clock.h"
#include "compare.h"
#include "tallies.h"

#include <errno.h>
#include <inttypes.h>
#include <stdio.h>
#include <string.h>

struct totalling {
    uint64_t cases;
    uint64_t seed;
    uint64_t done;
    unsigned edges;
    struct tallies tallies;
    FILE *file; /* gets totals, logs and answers, or NULL */
};

/* ---- one log */

typedef struct nizhalepu_brought bringing(struct nizhalepu_channel *channels, size_t count, const uint8_t *log, size_t length,
                                          struct nizhalepu_beside beside);

static void bring(bringing *by, const struct account *account, struct brought *brought)
{
    memcpy(brought->channels, account->channels, sizeof brought->channels);
    struct nizhalepu_brought answer = by(brought->channels, account->count, account->log.bytes, account->log.length, account->beside);
    brought->refusal = answer.refusal;
    brought->beside = answer.beside;
}

/* The first channel in which they differ, or ACCOUNT_ROOM. */
static unsigned differs_at(const struct nizhalepu_channel *one, const struct nizhalepu_channel *other)
{
    unsigned n = 0;
    while (n < ACCOUNT_ROOM && channels_equal(&one[n], &other[n])) n++;
    return n;
}

static bool as_it_was(const struct account *account, const struct brought *brought)
{
    return differs_at(account->channels, brought->channels) == ACCOUNT_ROOM && besides_equal(&account->beside, &brought->beside);
}

/* All records are compared, those behind the ones that were lent too; and what a refusal leaves is what was there before. */
static const char *difference(const struct account *account, struct brought *proved, struct brought *independent)
{
    bring(bring_proved, account, proved);
    bring(bring_independent, account, independent);
    if (proved->refusal != independent->refusal) return "the refusals differ";
    if (proved->refusal != 0 && !as_it_was(account, proved)) return "the proved one has changed something and refused";
    if (differs_at(proved->channels, independent->channels) < ACCOUNT_ROOM) return "the channel records differ";
    return besides_equal(&proved->beside, &independent->beside) ? NULL : "what is beside the totals differs";
}

/* ---- what is kept */

static void keep_number(FILE *file, uint64_t number, int bytes)
{
    for (int shift = 8 * bytes - 8; shift >= 0; shift -= 8) putc((int)(number >> shift & 255), file);
}

static void keep_state(FILE *file, const struct nizhalepu_channel *channels, size_t count, const struct nizhalepu_beside *beside)
{
    for (size_t n = 0; n < count; n++)
        for (enum field field = 0; field < FIELDS; field++) keep_number(file, channel_total(&channels[n], field), 8);
    keep_number(file, beside->tick, 4);
    keep_number(file, beside->word, 4);
    keep_number(file, beside->unknown, 8);
    keep_number(file, beside->more, 1);
}

static void keep(FILE *file, const struct account *account, const struct brought *proved)
{
    if (file == NULL) return;
    bool kept = as_it_was(account, proved);
    keep_number(file, account->count, 2);
    keep_state(file, account->channels, account->count, &account->beside);
    keep_number(file, account->log.length, 4);
    fwrite(account->log.bytes, 1, account->log.length, file);
    keep_number(file, proved->refusal, 1);
    keep_number(file, kept, 1);
    if (!kept) keep_state(file, proved->channels, account->count, &proved->beside);
}

/* ---- a difference */

/* Takes records out from behind, and then all that was counted before, as long as a difference stays. */
static void shorten(struct account *account)
{
    struct brought proved, independent;
    while (account->log.length > 0) {
        size_t by = (account->log.length - 1) % log_record_bytes(account->log.form) + 1;
        account->log.length -= by;
        if (difference(account, &proved, &independent) != NULL) continue;
        account->log.length += by;
        break;
    }
    for (unsigned n = 0; n < ACCOUNT_ROOM; n++) {
        struct nizhalepu_channel channel = account->channels[n];
        account->channels[n] = (struct nizhalepu_channel){0, 0, 0};
        if (difference(account, &proved, &independent) == NULL) account->channels[n] = channel;
    }
}

static void print_log(const struct log *log)
{
    size_t bytes = log_record_bytes(log->form);
    for (size_t i = 0; i < log->length; i++) printf("%s%02X", i == 0 ? "  " : i % bytes == 0 ? "\n  " : "", log->bytes[i]);
    putchar('\n');
}

/* The totals of the first channel in which the two differ, or in which the proved one differs from what it was given. */
static void print_account(const struct account *account)
{
    struct brought proved, independent;
    const char *what = difference(account, &proved, &independent);
    unsigned n = differs_at(proved.channels, independent.channels);
    if (n == ACCOUNT_ROOM && proved.refusal != 0) n = differs_at(account->channels, proved.channels);
    printf("  proved: refusal %03u; independent: refusal %03u; %s\n", proved.refusal, independent.refusal, what != NULL ? what : "equal");
    printf("  %zu channel records; beside them:\n", account->count);
    beside_print("given", &account->beside);
    beside_print("proved", &proved.beside);
    beside_print("independent", &independent.beside);
    if (n < ACCOUNT_ROOM) {
        printf("  channel %u:\n", n + 1);
        channel_print("given", &account->channels[n]);
        channel_print("proved", &proved.channels[n]);
        channel_print("independent", &independent.channels[n]);
    }
    printf("  the log, %zu bytes:\n", account->log.length);
    print_log(&account->log);
}

static void report_difference(const struct totalling *totalling, struct account *account)
{
    printf("A DIFFERENCE in log %" PRIu64 " of seed %" PRIu64 ":\n", totalling->done + 1, totalling->seed);
    shorten(account);
    print_account(account);
    printf("To see it again: compare totals --cases %" PRIu64 " --seed %" PRIu64 "\n", totalling->cases, totalling->seed);
}

/* ---- all of them */

static bool same(const struct brought *one, const struct brought *other)
{
    return one->refusal == other->refusal && differs_at(one->channels, other->channels) == ACCOUNT_ROOM &&
           besides_equal(&one->beside, &other->beside);
}

/* Those whose answer is known beforehand; they are kept like the others. */
static bool edges_hold(struct totalling *totalling)
{
    static struct account account;
    struct brought proved, independent, want;
    const char *name;
    for (; (name = edge_make(totalling->edges, &account, &want)) != NULL; totalling->edges++) {
        bring(bring_proved, &account, &proved);
        bring(bring_independent, &account, &independent);
        if (!same(&proved, &want) || !same(&independent, &want)) {
            printf("A DIFFERENCE at an edge, %s: it should have refusal %03u, and\n", name, want.refusal);
            beside_print("beside", &want.beside);
            print_account(&account);
            return false;
        }
        keep(totalling->file, &account, &proved);
    }
    return true;
}

static bool compare_all(struct totalling *totalling)
{
    static struct account account;
    static struct brought proved, independent;
    struct chance seeds = {totalling->seed};
    for (; totalling->done < totalling->cases; totalling->done++) {
        struct chance chance = {chance_next(&seeds)};
        account_make(&account, &chance);
        if (difference(&account, &proved, &independent) != NULL) {
            report_difference(totalling, &account);
            return false;
        }
        keep(totalling->file, &account, &proved);
        tallies_count(&totalling->tallies, &account, &proved);
    }
    return true;
}

static int cannot_write(const char *path)
{
    fprintf(stderr, "compare: cannot write %s: %s\n", path, strerror(errno));
    return 2;
}

int compare_totals(uint64_t cases, uint64_t seed, const char *path)
{
    struct totalling totalling = {.cases = cases, .seed = seed};
    uint64_t start = clock_nanoseconds();
    bool written = true;
    if (path != NULL && (totalling.file = fopen(path, "wb")) == NULL) return cannot_write(path);
    printf("seed %" PRIu64 "\n", seed);
    bool equal = edges_hold(&totalling) && compare_all(&totalling);
    if (totalling.file != NULL) {
        written = !ferror(totalling.file);
        written = fclose(totalling.file) == 0 && written;
    }
    if (!written) return cannot_write(path);
    if (!equal) return 1;
    printf("%" PRIu64 " logs to both in %.1f s: equal in every refusal, in every channel record and in all that is beside them.\n",
           totalling.done, (double)(clock_nanoseconds() - start) / 1e9);
    printf("%u edges: as they were worked out by hand.\n", totalling.edges);
    return tallies_print(&totalling.tallies, totalling.done) ? 0 : 1;
}
