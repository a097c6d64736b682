#include "trial_model.h"

#include <assert.h>
#include <string.h>

/* Each of 1 to 6 is among the first six words; six words have no room for one of them twice. */
static bool is_preference(struct table list)
{
    bool found[KINDS] = {false};
    for (size_t i = 0; i < 6; i++) {
        int64_t kind = word_at(list, i);
        if (kind >= 1 && kind < KINDS) found[kind] = true;
    }
    for (size_t kind = 1; kind < KINDS; kind++)
        if (!found[kind]) return false;
    return true;
}

uint16_t trial_refusal(struct sizes sizes, const struct table tables[ALL_TABLES])
{
    struct table run[ALL_TABLES];
    memcpy(run, tables, sizeof run);
    run[REPORT] = (struct table){REPORT, needed(REPORT, sizes), NULL}; /* a trial has no report */
    if (is_short(tables[PREFERENCES], sizes) || is_short(tables[IDLE], sizes)) return 20;
    uint16_t refusal = run_tables_refusal(sizes, run);
    if (refusal) return refusal;
    return is_preference(tables[PREFERENCES]) ? 0 : 33;
}

static size_t rank_of(struct table list, uint16_t kind)
{
    size_t rank = 0;
    while (word_at(list, rank) != kind) rank++;
    return rank;
}

static bool is_before(struct table list, struct step a, struct step b)
{
    size_t x = rank_of(list, a.kind), y = rank_of(list, b.kind);
    return x != y ? x < y : a.second < b.second;
}

/* The step that a box likes best of the ready ones, if it has one. */
static const struct step *best_of(const struct step ready[], size_t length, uint16_t box, struct table list)
{
    const struct step *best = NULL;
    for (size_t i = 0; i < length; i++)
        if (ready[i].first == box && (!best || is_before(list, ready[i], *best))) best = &ready[i];
    return best;
}

static void take_step(struct machine *machine, struct step step, struct trial *trial)
{
    uint16_t refusal = request(machine, step);
    assert(refusal == 0);
    (void)refusal;
    trial->taken[trial->steps++] = step;
}

void try_floor(struct machine *machine, const struct job *job, struct table preferences, struct trial *trial)
{
    static struct step ready[MOST_STEPS];
    size_t length;
    start_fresh(machine, job);
    memset(trial, 0, sizeof *trial);
    while ((length = ready_steps(machine, ready)) > 0) {
        for (uint16_t box = 0; box < job->sizes.boxes; box++) {
            const struct step *best = best_of(ready, length, box, preferences);
            if (best)
                take_step(machine, *best, trial);
            else
                trial->idle[box]++;
        }
        trial->rounds++;
    }
}

void write_trial(const struct machine *machine, const struct trial *trial, const struct table tables[ALL_TABLES])
{
    write_state_words(machine, tables);
    write_picked_words(machine->job, trial->taken, trial->steps, tables[PICKED]);
    for (size_t b = 0; b < machine->job->sizes.boxes; b++) put_word(tables[IDLE], b, trial->idle[b]);
}
