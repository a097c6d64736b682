#include "late_calling.h"

#include <string.h>

#include "entries.h"

static struct sizes with_more(struct sizes sizes, uint16_t more)
{
    sizes.tallies = (uint16_t)(sizes.tallies + more);
    return sizes;
}

void open_finished(struct calling *calling, uint32_t spare, uint16_t more)
{
    size_t lengths[ALL_TABLES] = {0};
    struct sizes sizes = calling->job.sizes, room = with_more(sizes, more);
    size_t packed = packed_words_of(&calling->job) + more * width_of_entry(sizes);
    for (unsigned name = 0; name <= SIZES; name++)
        lengths[name] = (is_packed(name) ? packed : needed(name, room)) + below(spare + 1);
    lengths[REPORT] = needed(REPORT, sizes);
    lengths[ADDED_CODE] = needed(ADDED_CODE, sizes) + below(spare + 1);
    lengths[EDITED] = needed(EDITED, sizes) + below(spare + 1);
    if (sizes_in_range(room)) lengths[OUT] = BLOCK * blocks_of(room);
    open_lending(&calling->lending, lengths);
    write_job_words(&calling->job, calling->lending.twin);
    write_reader_words(&calling->job, calling->lending.twin);
    settle_afresh(&calling->job, calling->lending.twin);
    copy_twins(&calling->lending);
}

static const struct job *lent_job(const struct calling *calling)
{
    static struct job job;
    read_job_words(&job, calling->job.sizes, calling->lending.twin);
    return &job;
}

void finish_again(struct calling *calling)
{
    settle_afresh(lent_job(calling), calling->lending.twin);
    copy_twins(&calling->lending);
}

size_t packed_now(const struct calling *calling) { return packed_words_of(lent_job(calling)); }

/* Asking */

#define LENT_FINISHED                                                                                                  \
    sizes.boxes, sizes.grocers, sizes.offers, sizes.tallies, sizes.lists, SLICE(const uint32_t, PRICE),                \
        SLICE(const uint16_t, OFFER_OWNER), SLICE(const uint8_t, OFFER_CODE), SLICE(const uint16_t, OFFER_ISSUER),     \
        SLICE(const uint16_t, GROCER_OWNER), SLICE(uint16_t, TALLY_GROCER), SLICE(uint16_t, TALLY_BOX),                \
        SLICE(uint8_t, TALLY_CODE), SLICE(int32_t, TALLY_COUNT), SLICE(uint16_t, TALLY_ISSUER),                        \
        SLICE(uint16_t, TALLY_BAG), SLICE(uint16_t, TALLY_REVISION), SLICE(uint16_t, TALLY_OFFER),                     \
        SLICE(uint32_t, KNOWN), SLICE(uint32_t, PRICE_TRANSIT), SLICE(int64_t, WORKING),                               \
        SLICE(int64_t, TOTAL_TRANSIT), SLICE(int64_t, STATEMENT), SLICE(uint16_t, DONE), SLICE(uint32_t, SENT)

static uint16_t call_edit(struct calling *calling, struct sizes sizes, const struct edit *edit)
{
    const struct tally *tally = &edit->added;
    struct table lent[ALL_TABLES];
    uint16_t answer;
    hand_over(&calling->lending, lent);
    if (edit->adds)
        answer = entries_add(LENT_FINISHED, tally->grocer, tally->box, SLICE(const uint8_t, ADDED_CODE), tally->count,
                             tally->name.issuer, tally->bag, tally->revision, SLICE(uint32_t, EDITED));
    else
        answer = entries_withdraw(LENT_FINISHED, edit->place, SLICE(uint32_t, EDITED));
    return hand_back(&calling->lending, lent, edit->adds ? ADD : WITHDRAW, answer);
}

static uint16_t ask_edit(struct calling *calling, struct sizes sizes, const struct edit *edit)
{
    struct table tables[ALL_TABLES];
    twins_as_lent(&calling->lending, tables);
    uint16_t due = model_edit(sizes, tables, edit);
    uint16_t answer = call_edit(calling, sizes, edit);
    expect(answer == due, "the call that %s answered %u, should be %u", edit->adds ? "adds" : "withdraws", answer, due);
    compare_with_twins(&calling->lending);
    if (!due) calling->job.sizes.tallies = (uint16_t)word_of(calling, EDITED, 0);
    return answer;
}

static void put_code(struct calling *calling, const struct code *code)
{
    put_both(&calling->lending, ADDED_CODE, 0, code->digits);
    for (size_t i = 0; i < FIELD; i++) put_both(&calling->lending, ADDED_CODE, 1 + i, code->field[i]);
}

uint16_t edit_alone(struct calling *calling, const struct edit *edit)
{
    if (edit->adds) put_code(calling, &edit->added.name.code);
    uint16_t answer = call_edit(calling, calling->job.sizes, edit);
    for (unsigned name = 0; name < ALL_TABLES; name++) {
        struct table table = calling->lending.table[name];
        memcpy(calling->lending.twin[name].words, table.words, table.length * width_of(name));
    }
    if (!answer) calling->job.sizes.tallies = (uint16_t)word_of(calling, EDITED, 0);
    return answer;
}

uint16_t ask_add(struct calling *calling, struct sizes sizes, const struct tally *tally)
{
    put_code(calling, &tally->name.code);
    return ask_edit(calling, sizes, &(struct edit){true, *tally, 0});
}

uint16_t ask_withdraw(struct calling *calling, struct sizes sizes, uint16_t place)
{
    return ask_edit(calling, sizes, &(struct edit){.adds = false, .place = place});
}

/* What else is said of an edited job */

void expect_run(struct calling *calling)
{
    struct lending *lending = &calling->lending;
    for (size_t i = 0; i < 3; i++) put_word(lending->twin[REPORT], i, word_of(calling, EDITED, 1 + i));
    for (unsigned name = JOB_TABLES; name < STEP_TABLES; name++) put_word(lending->table[name], 0, 1);
    expect(call_run(lending, calling->job.sizes) == 0, "a run refuses the edited job");
    compare_with_twins(lending);
}

void expect_written(struct calling *calling)
{
    static const enum table_name tallies[] = {TALLY_GROCER, TALLY_BOX, TALLY_CODE,     TALLY_COUNT,
                                              TALLY_ISSUER, TALLY_BAG, TALLY_REVISION, TALLY_OFFER};
    size_t length = ask_write(calling, calling->job.sizes), lengths[ALL_TABLES] = {0};
    if (!expect(length >= BLOCK, "the writer refuses the edited job")) return;
    struct lending again;
    for (unsigned name = 0; name <= SIZES; name++) lengths[name] = needed(name, LARGEST);
    lengths[FILE_BYTES] = length;
    open_lending(&again, lengths);
    memcpy(again.table[FILE_BYTES].words, calling->lending.table[OUT].words, length);
    expect(call_read(&again) == 0, "the reader refuses the edited job");
    for (unsigned i = 0; i < 8; i++) {
        size_t bytes = needed(tallies[i], calling->job.sizes) * width_of(tallies[i]);
        expect(memcmp(again.table[tallies[i]].words, calling->lending.table[tallies[i]].words, bytes) == 0,
               "the reader gives another %s", table_text(tallies[i]));
    }
    close_lending(&again);
}
