/* Lending by name: three calls in the library's place see that each table of the structs comes to its own parameter,
   whole, and that what they answer comes back. The last line is 'N passed, M failed'. */
#include "settlement.h"

#include <stdio.h>
#include <string.h>

static struct settlement_job job;
static struct settlement_state state;
static const uint8_t file[5];
static const uint16_t choices[7];
static uint16_t picked[9];
static uint32_t report[SETTLEMENT_REPORT];

static unsigned passed, failed;
static uint16_t next_answer;
static int nothing_lent; /* the next call lends no file, no choices and no room for steps */

static void expect(int holds, const char *what)
{
    if (holds) {
        passed++;
        return;
    }
    failed++;
    printf("failed: %s\n", what);
}

#define EXPECT(holds) expect(holds, #holds)

/* The parameter has a name of the header, and so has the member; its length is that of the largest job. */
#define IS_LENT(owner, table, words) expect(table == (owner).table && table##_len == (words), "lent: " #table)

static void expect_job(const uint32_t *price, size_t price_len, const uint16_t *offer_owner, size_t offer_owner_len,
                       const uint16_t *grocer_owner, size_t grocer_owner_len, const uint16_t *tally_grocer,
                       size_t tally_grocer_len, const uint16_t *tally_box, size_t tally_box_len,
                       const uint16_t *tally_offer, size_t tally_offer_len, const int32_t *tally_count,
                       size_t tally_count_len, const uint16_t *tally_bag, size_t tally_bag_len,
                       const uint16_t *tally_revision, size_t tally_revision_len)
{
    IS_LENT(job, price, 8 * 500);
    IS_LENT(job, offer_owner, 500);
    IS_LENT(job, grocer_owner, 255);
    IS_LENT(job, tally_grocer, 1000);
    IS_LENT(job, tally_box, 1000);
    IS_LENT(job, tally_offer, 1000);
    IS_LENT(job, tally_count, 1000);
    IS_LENT(job, tally_bag, 1000);
    IS_LENT(job, tally_revision, 1000);
}

static void expect_state(uint32_t *known, size_t known_len, uint32_t *price_transit, size_t price_transit_len,
                         int64_t *working, size_t working_len, int64_t *total_transit, size_t total_transit_len,
                         int64_t *statement, size_t statement_len, uint16_t *done, size_t done_len, uint32_t *sent,
                         size_t sent_len)
{
    IS_LENT(state, known, 8 * 16 * 500);
    IS_LENT(state, price_transit, 8 * 16 * 500);
    IS_LENT(state, working, 8 * (255 + 1000));
    IS_LENT(state, total_transit, 8 * (255 + 1000));
    IS_LENT(state, statement, 8 * 255);
    IS_LENT(state, done, 6 * 16 * 16);
    IS_LENT(state, sent, 1);
}

uint16_t settlement_read(
    const uint8_t *file_, size_t file_len,
    uint32_t *price, size_t price_len,
    uint16_t *offer_owner, size_t offer_owner_len,
    uint8_t *offer_code, size_t offer_code_len,
    uint16_t *offer_issuer, size_t offer_issuer_len,
    uint16_t *grocer_owner, size_t grocer_owner_len,
    uint16_t *tally_grocer, size_t tally_grocer_len,
    uint16_t *tally_box, size_t tally_box_len,
    uint8_t *tally_code, size_t tally_code_len,
    int32_t *tally_count, size_t tally_count_len,
    uint16_t *tally_issuer, size_t tally_issuer_len,
    uint16_t *tally_bag, size_t tally_bag_len,
    uint16_t *tally_revision, size_t tally_revision_len,
    uint16_t *tally_offer, size_t tally_offer_len,
    uint16_t *sizes, size_t sizes_len)
{
    if (nothing_lent)
        EXPECT(file_ != NULL && file_len == 0);
    else
        EXPECT(file_ == file && file_len == 5);
    expect_job(price, price_len, offer_owner, offer_owner_len, grocer_owner, grocer_owner_len, tally_grocer,
               tally_grocer_len, tally_box, tally_box_len, tally_offer, tally_offer_len, tally_count, tally_count_len,
               tally_bag, tally_bag_len, tally_revision, tally_revision_len);
    IS_LENT(job, offer_code, 11 * 500);
    IS_LENT(job, offer_issuer, 500);
    IS_LENT(job, tally_code, 11 * 1000);
    IS_LENT(job, tally_issuer, 1000);
    EXPECT(sizes_len == 6);
    if (next_answer == SETTLEMENT_ACCEPTED)
        for (uint16_t i = 0; i < 6; i++)
            sizes[i] = (uint16_t)(i + 11);
    return next_answer;
}

uint16_t settlement_step(
    uint16_t boxes, uint16_t grocers, uint16_t offers, uint16_t tallies, uint16_t lists,
    const uint32_t *price, size_t price_len,
    const uint16_t *offer_owner, size_t offer_owner_len,
    const uint16_t *grocer_owner, size_t grocer_owner_len,
    const uint16_t *tally_grocer, size_t tally_grocer_len,
    const uint16_t *tally_box, size_t tally_box_len,
    const uint16_t *tally_offer, size_t tally_offer_len,
    const int32_t *tally_count, size_t tally_count_len,
    const uint16_t *tally_bag, size_t tally_bag_len,
    const uint16_t *tally_revision, size_t tally_revision_len,
    uint32_t *known, size_t known_len,
    uint32_t *price_transit, size_t price_transit_len,
    int64_t *working, size_t working_len,
    int64_t *total_transit, size_t total_transit_len,
    int64_t *statement, size_t statement_len,
    uint16_t *done, size_t done_len,
    uint32_t *sent, size_t sent_len,
    uint16_t kind, uint16_t first, uint16_t second)
{
    EXPECT(boxes == 11 && grocers == 12 && offers == 13 && tallies == 14 && lists == 16);
    expect_job(price, price_len, offer_owner, offer_owner_len, grocer_owner, grocer_owner_len, tally_grocer,
               tally_grocer_len, tally_box, tally_box_len, tally_offer, tally_offer_len, tally_count, tally_count_len,
               tally_bag, tally_bag_len, tally_revision, tally_revision_len);
    expect_state(known, known_len, price_transit, price_transit_len, working, working_len, total_transit,
                 total_transit_len, statement, statement_len, done, done_len, sent, sent_len);
    EXPECT(kind == 3 && first == 1 && second == 2);
    return next_answer;
}

uint16_t settlement_run(
    uint16_t boxes, uint16_t grocers, uint16_t offers, uint16_t tallies, uint16_t lists,
    const uint32_t *price, size_t price_len,
    const uint16_t *offer_owner, size_t offer_owner_len,
    const uint16_t *grocer_owner, size_t grocer_owner_len,
    const uint16_t *tally_grocer, size_t tally_grocer_len,
    const uint16_t *tally_box, size_t tally_box_len,
    const uint16_t *tally_offer, size_t tally_offer_len,
    const int32_t *tally_count, size_t tally_count_len,
    const uint16_t *tally_bag, size_t tally_bag_len,
    const uint16_t *tally_revision, size_t tally_revision_len,
    uint32_t *known, size_t known_len,
    uint32_t *price_transit, size_t price_transit_len,
    int64_t *working, size_t working_len,
    int64_t *total_transit, size_t total_transit_len,
    int64_t *statement, size_t statement_len,
    uint16_t *done, size_t done_len,
    uint32_t *sent, size_t sent_len,
    const uint16_t *choices_, size_t choices_len,
    uint16_t *picked_, size_t picked_len,
    uint32_t *report_, size_t report_len)
{
    EXPECT(boxes == 11 && grocers == 12 && offers == 13 && tallies == 14 && lists == 16);
    expect_job(price, price_len, offer_owner, offer_owner_len, grocer_owner, grocer_owner_len, tally_grocer,
               tally_grocer_len, tally_box, tally_box_len, tally_offer, tally_offer_len, tally_count, tally_count_len,
               tally_bag, tally_bag_len, tally_revision, tally_revision_len);
    expect_state(known, known_len, price_transit, price_transit_len, working, working_len, total_transit,
                 total_transit_len, statement, statement_len, done, done_len, sent, sent_len);
    if (nothing_lent)
        EXPECT(choices_ != NULL && choices_len == 0 && picked_ != NULL && picked_len == 0);
    else
        EXPECT(choices_ == choices && choices_len == 7 && picked_ == picked && picked_len == 9);
    EXPECT(report_ == report && report_len == 3);
    return next_answer;
}

/* A job whose sizes are in range, for fresh states. */
static void job_in_range(void)
{
    job = (struct settlement_job){.boxes = 2, .grocers = 1, .offers = 3, .tallies = 0};
    for (uint32_t o = 0; o < 3; o++) {
        job.price[o] = 10 + o;
        job.offer_owner[o] = o == 1;
    }
}

/* A fresh state is refused, and stays as it was. */
static void no_fresh(const char *what)
{
    static struct settlement_state kept;
    memset(&state, 7, sizeof state);
    kept = state;
    expect(settlement_make_fresh(&job, &state) == SETTLEMENT_OUT_OF_RANGE, what);
    expect(memcmp(&kept, &state, sizeof state) == 0, what);
}

static void fresh_states(void)
{
    job_in_range();
    EXPECT(settlement_make_fresh(&job, &state) == SETTLEMENT_ACCEPTED);
    EXPECT(state.known[0] == 10 && state.known[1] == 0 && state.known[2] == 12);
    EXPECT(state.known[3] == 0 && state.known[4] == 11 && state.known[5] == 0);
    EXPECT(state.known[6] == 0 && state.done[0] == 0 && state.sent[0] == 0);
    job.offer_owner[2] = 2;
    no_fresh("an owner that is no box");
    job.offer_owner[2] = 65535;
    no_fresh("an owner far beyond the boxes");
    uint16_t *sizes[] = {&job.boxes, &job.grocers, &job.offers, &job.tallies, &job.lists};
    static const uint16_t over[] = {17, 256, 501, 1001, 8};
    for (size_t i = 0; i < 5; i++) {
        job_in_range();
        *sizes[i] = over[i];
        no_fresh("a size over its range");
        *sizes[i] = 65535;
        no_fresh("a size far over its range");
        *sizes[i] = 0;
        if (i < 3)
            no_fresh("a size of 0");
    }
    job = (struct settlement_job){.boxes = 16, .grocers = 255, .offers = 500, .tallies = 1000};
    for (size_t o = 0; o < 500; o++)
        job.offer_owner[o] = 15, job.price[o] = 1;
    EXPECT(settlement_make_fresh(&job, &state) == SETTLEMENT_ACCEPTED && state.known[7999] == 1 && state.known[0] == 0);
    job.lists = 7;
    job.price[3999] = 9;
    EXPECT(settlement_make_fresh(&job, &state) == SETTLEMENT_ACCEPTED && state.known[63999] == 9 && state.known[0] == 0);
}

/* Two lists: in a job one after the other, in a state an offer's side by side. */
static void fresh_lists(void)
{
    static const uint32_t due[] = {10, 20, 0, 0, 12, 22, 0, 0, 11, 21, 0, 0, 0};
    job_in_range();
    job.lists = 1;
    for (uint32_t o = 0; o < 3; o++)
        job.price[3 + o] = 20 + o;
    EXPECT(settlement_make_fresh(&job, &state) == SETTLEMENT_ACCEPTED);
    EXPECT(memcmp(state.known, due, sizeof due) == 0);
}

/* Every answer has a text of its own, and no other number has one. */
static void texts(void)
{
    unsigned with_text = 0;
    for (uint32_t n = 0; n < 65536; n++) {
        if (strcmp(settlement_text((uint16_t)n), "no such answer") == 0)
            continue;
        with_text++;
        expect(n <= 9 || (n >= 20 && n <= 26), "a number with a text is an answer");
        for (uint32_t m = 0; m < n; m++)
            if (strcmp(settlement_text((uint16_t)m), settlement_text((uint16_t)n)) == 0)
                expect(0, "two answers have one text");
    }
    EXPECT(with_text == 17);
}

int main(void)
{
    next_answer = SETTLEMENT_DAMAGED;
    EXPECT(settlement_read_job(file, sizeof file, &job) == SETTLEMENT_DAMAGED);
    EXPECT(job.boxes == 0 && job.grocers == 0 && job.offers == 0 && job.tallies == 0 && job.cycle == 0 &&
           job.lists == 0);
    next_answer = SETTLEMENT_ACCEPTED;
    EXPECT(settlement_read_job(file, sizeof file, &job) == SETTLEMENT_ACCEPTED);
    EXPECT(job.boxes == 11 && job.grocers == 12 && job.offers == 13 && job.tallies == 14 && job.cycle == 15 &&
           job.lists == 16);
    next_answer = SETTLEMENT_NOT_READY;
    EXPECT(settlement_step_job(&job, &state, 3, 1, 2) == SETTLEMENT_NOT_READY);
    next_answer = SETTLEMENT_OUT_OF_RANGE;
    EXPECT(settlement_run_job(&job, &state, choices, 7, picked, 9, report) == SETTLEMENT_OUT_OF_RANGE);
    nothing_lent = 1;
    next_answer = SETTLEMENT_BAD_LENGTH;
    EXPECT(settlement_read_job(NULL, 0, &job) == SETTLEMENT_BAD_LENGTH);
    EXPECT(settlement_run_job(&job, &state, NULL, 0, NULL, 0, report) == SETTLEMENT_BAD_LENGTH);
    fresh_states();
    fresh_lists();
    texts();
    printf("%u passed, %u failed\n", passed, failed);
    return failed != 0;
}
