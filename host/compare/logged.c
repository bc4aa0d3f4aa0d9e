/* logged.c: what a run has met of the log (02, item 8), and whether each record that the boxes wrote is the one due. */
#include "statistics.h"

#include <string.h>

/* A power-on whose program area and saved copy are right. */
void statistics_lent(struct statistics *statistics, const struct step *step, unsigned refusal)
{
    static const uint32_t lengths[LENTS] = {31, 32, 33, 47, 48, 65536, 65537};
    const struct lengths *lent = &step->lent;
    if (lent->program != NIZHALEPU_PROGRAM || lent->saved != NIZHALEPU_PROGRAM) return;
    unsigned due = lent->log < 32 || lent->log > 65536 ? NIZHALEPU_BAD_LOG : 0;
    if (refusal != due) statistics->astray++;
    for (int l = 0; l < LENTS; l++) statistics->lent[l] += lent->log == lengths[l];
}

/* The place that is written next: that of the next change, and the last one for the gap once all before it are taken. */
static size_t next_place(const struct nizhalepu_log *log)
{
    size_t last = log->length / LOG_RECORD - 1;
    return log->kept < last ? log->kept : last;
}

/* The caller altered the log: where the box wrote last? */
void statistics_altered(struct statistics *statistics, const struct step *step, const struct both *both)
{
    const struct nizhalepu_log *log = &both->record->log;
    const struct alteration *alter = &step->alter;
    if (statistics->before.log.length == 0 || step->value != LOG || log->kept == 0) return;
    size_t at = LOG_RECORD * (log->lost > 0 ? next_place(log) : log->kept - 1);
    if (alter->at < at + LOG_RECORD && alter->at + alter->count > at) statistics->altered = true;
}

/* The 16 bytes due. The cause of a change is taken as it stands: it is compared with the other box's alone. */
static void put_due(uint8_t due[LOG_RECORD], const struct statistics *statistics, const struct nizhalepu_record *now, uint8_t cause)
{
    const struct nizhalepu_record *before = &statistics->before;
    uint32_t lost = before->log.lost;
    if (before->log.kept + 1 < before->log.length / LOG_RECORD)
        log_put_record(due, PRESENT, CHANGE, cause, now->ticks, now->run.outputs, before->run.outputs);
    else
        log_put_record(due, PRESENT, GAP, 0, statistics->first_lost, lost + (lost != UINT32_MAX), now->run.outputs);
}

static void count_loss(struct statistics *statistics, const struct nizhalepu_record *now)
{
    bool later = now->ticks > statistics->first_lost;
    statistics->logged[LOGGED_LOSS_LATER] += later;
    statistics->logged[LOGGED_LOSS_BACK] += now->run.outputs == statistics->word_before;
    statistics->logged[LOGGED_LOSS_ALTERED] += statistics->altered;
    statistics->logged[LOGGED_LOSS_ALTERED_LATER] += statistics->altered && later;
    if (now->log.first != statistics->first_lost) statistics->astray++;
}

/* A call after which the output word differs. */
static void count_change(struct statistics *statistics, const struct both *both)
{
    const struct nizhalepu_record *before = &statistics->before, *now = both->record;
    const uint8_t *record = both->area[PROVED][LOG] + LOG_RECORD * next_place(&before->log);
    uint8_t due[LOG_RECORD];
    bool first = now->log.lost > 0 && before->log.lost == 0;
    if (first) {
        statistics->first_lost = now->ticks;
        statistics->word_before = before->run.outputs;
    }
    put_due(due, statistics, now, record[CAUSE_AT]);
    if (memcmp(record, due, LOG_RECORD) != 0) statistics->astray++;
    if (first)
        statistics->logged[LOGGED_LOSS_FIRST]++;
    else if (now->log.lost > 0)
        count_loss(statistics, now);
    else
        statistics->logged[statistics->altered ? LOGGED_CHANGE_BEHIND_ALTERED : LOGGED_CHANGE]++;
    statistics->altered = false;
}

static void count_emptying(struct statistics *statistics)
{
    const struct nizhalepu_record *before = &statistics->before;
    bool back = before->run.outputs == statistics->word_before;
    statistics->logged[LOGGED_EMPTIED_GAP_OF_1] += before->log.lost == 1;
    statistics->logged[LOGGED_EMPTIED_GAP_BACK] += before->log.lost == 2 && back;
    statistics->logged[LOGGED_EMPTIED_ALTERED] += before->log.lost > 0 && statistics->altered;
    statistics->altered = false;
}

void statistics_logged(struct statistics *statistics, const struct step *step, const struct both *both)
{
    if (step->kind == EMPTY) count_emptying(statistics);
    if (both->record->run.outputs != statistics->before.run.outputs) count_change(statistics, both);
}
