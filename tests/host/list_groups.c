/* Lists of step requests on random jobs, and single requests on arbitrary states. */
#include "groups.h"
#include "settling.h"

static struct settlement settlement;

static struct step random_step(void)
{
    uint16_t boxes = settlement.job.sizes.boxes;
    return (struct step){(uint16_t)(1 + below(6)), (uint16_t)below(boxes), (uint16_t)below(boxes)};
}

/* A step of the job, done, ready or neither. */
static struct step some_step_of_job(void)
{
    for (;;) {
        struct step step = random_step();
        if (settlement.machine.has[step.kind][step.first][step.second]) return step;
    }
}

static struct step wild_step(void)
{
    struct step step = random_step();
    if (one_in(2)) step.kind = wild_number(6);
    if (one_in(2)) step.first = wild_number(settlement.job.sizes.boxes);
    if (one_in(2)) step.second = wild_number(settlement.job.sizes.boxes);
    return step;
}

static struct step random_request(void)
{
    uint32_t draw = below(10);
    if (draw < 5) return some_ready_step(&settlement);
    if (draw < 8) return some_step_of_job();
    return draw == 8 ? random_step() : wild_step();
}

/* Lends one or two buffers short; those that need no word stay as they are. */
static void lend_short(void)
{
    for (uint32_t tables = 1 + below(2); tables > 0; tables--) {
        enum table_name name = below(STEP_TABLES);
        size_t need = words_needed(&settlement, name);
        if (need > 0) settlement.lending.lend[name] = one_in(2) ? need - 1 : below((uint32_t)need);
    }
}

static void ask_short(struct step step)
{
    lend_short();
    ask(&settlement, step);
    lend_whole(&settlement.lending);
}

static void ask_damaged(struct step step)
{
    enum table_name name = below(STEP_TABLES);
    size_t need = words_needed(&settlement, name);
    if (need == 0 || !has_range(name)) return;
    size_t place = below((uint32_t)need);
    int64_t kept = word_at(settlement.lending.twin[name], place);
    put_both(&settlement.lending, name, place, range_of(name, settlement.job.sizes).most + 1 + below(9));
    uint16_t answer = ask(&settlement, step);
    expect(answer == 21, "a word of %s out of range was answered %u", table_text(name), answer);
    put_both(&settlement.lending, name, place, kept);
}

static void next_request(void)
{
    struct step step = random_request();
    uint32_t draw = below(25);
    if (draw == 0)
        ask_short(step);
    else if (draw == 1)
        ask_damaged(step);
    else
        ask(&settlement, step);
    expect_running_sum(&settlement);
}

static void finish(void)
{
    struct step ready[MOST_STEPS];
    size_t length;
    while ((length = ready_steps(&settlement.machine, ready)) > 0) {
        if (ask(&settlement, ready[below((uint32_t)length)]) != 0) break;
        expect_running_sum(&settlement);
    }
    expect_plain_sums(&settlement);
    expect(lent_word(&settlement, SENT, 0) == words_of_job(&settlement.job), "words sent %lld, should be %u",
           (long long)lent_word(&settlement, SENT, 0), words_of_job(&settlement.job));
    for (unsigned i = 0; i < 3; i++)
        expect(ask(&settlement, random_request()) != 0, "a step after the last was accepted");
}

static void try_list(struct sizes sizes, uint32_t requests)
{
    random_job(&settlement.job, sizes);
    open_settlement(&settlement, SPARE, 0);
    while (requests-- > 0) next_request();
    finish();
    close_settlement(&settlement);
}

static void small_lists(void)
{
    for (unsigned long i = 0; i < job_count; i++) {
        at_case("list %lu", i);
        try_list(random_sizes(i % 3 ? TINY : SMALL), below(i % 3 ? 40 : 120));
    }
}

static void medium_lists(void)
{
    for (unsigned long i = 0; i < job_count / 10 + 1; i++) {
        at_case("medium list %lu", i);
        try_list(random_sizes(MEDIUM), below(200));
    }
}

static void largest_lists(void)
{
    for (unsigned long i = 0; i < job_count / 500 + 1; i++) {
        at_case("largest list %lu", i);
        try_list(LARGEST, 100);
    }
}

/* Arbitrary states within range */

static int64_t random_state_word(struct range range, uint32_t manner)
{
    switch (manner) {
    case 0: return 0;
    case 1: return one_in(8) ? between(range.least, range.most) : 0;
    case 2: return one_in(2) ? range.most : range.least;
    case 3: return one_in(2) ? range.most - below(3) * (range.most > 2) : between(range.least, range.most);
    default: return between(range.least, range.most);
    }
}

static void random_state(void)
{
    uint32_t all = below(12);
    for (unsigned name = JOB_TABLES; name < STEP_TABLES; name++) {
        uint32_t manner = all < 6 ? all : below(6);
        for (size_t place = 0; place < words_needed(&settlement, name); place++)
            put_both(&settlement.lending, name, place, random_state_word(range_of(name, settlement.job.sizes), manner));
    }
}

/* Half of the time, marks that make a step ready. */
static void make_ready(struct step step)
{
    uint16_t boxes = settlement.job.sizes.boxes;
    if (step.kind < 1 || step.kind > 6 || step.first >= boxes || step.second >= boxes || one_in(2)) return;
    set_mark(&settlement, (struct step){MULTIPLY_OWN, step.first, step.first});
    for (uint16_t other = 0; other < boxes; other++)
        set_mark(&settlement, (struct step){RECEIVE_PRICES, step.first, other});
    set_mark(&settlement, (struct step){SEND_PRICES, step.second, step.first});
    set_mark(&settlement, (struct step){SEND_TOTALS, step.second, step.first});
    put_both(&settlement.lending, DONE, mark_place(&settlement, step), 0);
}

static void try_states(struct sizes sizes, unsigned requests)
{
    random_job(&settlement.job, sizes);
    open_settlement(&settlement, SPARE, 0);
    while (requests-- > 0) {
        struct step step = random_request();
        if (one_in(2)) random_state();
        make_ready(step);
        if (one_in(20)) lend_short();
        ask_on_words(&settlement, settlement.job.sizes, step);
        lend_whole(&settlement.lending);
    }
    close_settlement(&settlement);
}

static void arbitrary_states(void)
{
    for (unsigned long i = 0; i < 2 * job_count; i++) {
        at_case("state %lu", i);
        try_states(random_sizes(i % 8 ? TINY : i % 64 ? SMALL : MEDIUM), 8);
    }
    at_case("states of a largest job");
    try_states(LARGEST, (unsigned)(10 + job_count / 20));
}

void check_lists(void)
{
    run_group("step: lists of requests on small jobs", small_lists);
    run_group("step: lists of requests on medium jobs", medium_lists);
    run_last("step: lists of requests on the largest jobs", largest_lists);
    run_group("step: arbitrary states", arbitrary_states);
}
