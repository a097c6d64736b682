#include "trying.h"

#include <stdlib.h>
#include <string.h>

#include "entries.h"

struct trial tried;

static bool is_lent(unsigned name)
{
    return name < STEP_TABLES || name == PREFERENCES || name == IDLE || name == CHOICES || name == REPORT;
}

void open_trial(struct calling *calling, uint32_t spare, size_t places)
{
    size_t lengths[ALL_TABLES] = {0};
    struct sizes sizes = calling->job.sizes;
    for (unsigned name = 0; name < ALL_TABLES; name++)
        if (is_lent(name)) lengths[name] = needed(name, sizes) + (is_packed(name) ? 0 : below(spare + 1));
    lengths[WORKING] = lengths[TOTAL_TRANSIT] = packed_places(&calling->job) * width_of_entry(sizes);
    lengths[PICKED] = places;
    open_lending(&calling->lending, lengths);
    write_job_words(&calling->job, calling->lending.twin);
    copy_twins(&calling->lending);
    prefer(calling, (const uint16_t[]){1, 2, 3, 4, 5, 6});
}

void prefer(struct calling *calling, const uint16_t kinds[6])
{
    for (size_t i = 0; i < 6; i++) put_both(&calling->lending, PREFERENCES, i, kinds[i]);
}

uint16_t ask_trial(struct calling *calling, struct sizes sizes)
{
    static struct job job;
    static struct machine machine;
    struct table tables[ALL_TABLES], lent[ALL_TABLES];
    twins_as_lent(&calling->lending, tables);
    uint16_t due = trial_refusal(sizes, tables);
    if (!due) {
        read_job_words(&job, sizes, tables);
        try_floor(&machine, &job, tables[PREFERENCES], &tried);
        write_trial(&machine, &tried, tables);
    }
    hand_over(&calling->lending, lent);
    uint64_t answer = entries_trial(
        SIZES_AND_JOB, SLICE(uint32_t, KNOWN), SLICE(uint32_t, PRICE_TRANSIT), SLICE(int64_t, WORKING),
        SLICE(int64_t, TOTAL_TRANSIT), SLICE(int64_t, STATEMENT), SLICE(uint16_t, DONE), SLICE(uint32_t, SENT),
        SLICE(const uint16_t, PREFERENCES), SLICE(uint16_t, IDLE), SLICE(uint16_t, PICKED));
    uint16_t refusal = answer >= ENTRIES_ROUNDS ? 0 : (uint16_t)answer;
    hand_back(&calling->lending, lent, TRIAL, refusal);
    expect(refusal == due, "the trial answered %u, should be %u", refusal, due);
    if (!due && !refusal)
        expect(answer - ENTRIES_ROUNDS == tried.rounds, "the trial took %llu rounds, should be %zu",
               (unsigned long long)(answer - ENTRIES_ROUNDS), tried.rounds);
    compare_with_twins(&calling->lending);
    return refusal;
}

/* The bytes of a table as they are. */
static void *copy_of(struct table table)
{
    size_t bytes = table.length * width_of(table.name);
    void *copy = malloc(bytes + 1);
    if (!copy) exit(2);
    return memcpy(copy, table.words, bytes);
}

void expect_evening(struct calling *calling)
{
    struct lending *lending = &calling->lending;
    void *left[STEP_TABLES];
    for (unsigned name = JOB_TABLES; name < STEP_TABLES; name++) {
        size_t words = is_packed(name) ? lending->table[name].length : needed(name, calling->job.sizes);
        left[name] = copy_of(lending->table[name]);
        for (size_t place = 0; place < words; place++) put_word(lending->table[name], place, -1);
    }
    uint16_t answer = call_run(lending, calling->job.sizes);
    expect(answer == 0, "the run answered %u", answer);
    for (unsigned name = JOB_TABLES; name < STEP_TABLES; name++) {
        struct table table = lending->table[name];
        expect(memcmp(table.words, left[name], table.length * width_of(name)) == 0,
               "%s: the trial left other words than a run", table_text(name));
        free(left[name]);
    }
    copy_twins(lending);
}
