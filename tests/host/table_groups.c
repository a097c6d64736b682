/* One step on tables that are short or hold words out of range, and on K, M, N, T and lists that do not fit them. */
#include "groups.h"
#include "settling.h"

static struct settlement settlement;

/* A state in the middle of a random job's settlement. */
static void advance(uint32_t steps)
{
    struct step ready[MOST_STEPS];
    size_t length;
    while (steps-- > 0 && (length = ready_steps(&settlement.machine, ready)) > 0)
        request(&settlement.machine, ready[below((uint32_t)length)]);
    lend_state(&settlement);
}

static void open_middle(struct sizes most)
{
    random_job(&settlement.job, sizes_with_tallies(most));
    open_settlement(&settlement, SPARE, 0);
    advance(below(20));
}

static void short_by(enum table_name name, size_t length)
{
    at_case("%s of %zu words", table_text(name), length);
    settlement.lending.lend[name] = length;
    expect_step(&settlement, some_ready_step(&settlement), 20);
    expect_step(&settlement, (struct step){9, 99, 99}, 20);
    lend_whole(&settlement.lending);
}

static void short_buffers(void)
{
    for (unsigned long round = 0; round < 20 + job_count / 50; round++)
        for (unsigned name = 0; name < STEP_TABLES; name++) {
            open_middle(round % 4 ? SMALL : MEDIUM);
            size_t need = words_needed(&settlement, name);
            short_by(name, need - 1);
            short_by(name, 0);
            short_by(name, below((uint32_t)need));
            at_case("%s of %zu words, all needed", table_text(name), need);
            settlement.lending.lend[name] = need;
            ask(&settlement, some_ready_step(&settlement));
            close_settlement(&settlement);
        }
}

/* A word of a table replaced; asked; and put back. */
static void with_word(enum table_name name, size_t place, int64_t word, bool inside)
{
    struct step step = some_ready_step(&settlement);
    int64_t kept = word_at(settlement.lending.twin[name], place);
    at_case("%s[%zu] = %lld", table_text(name), place, (long long)word);
    put_both(&settlement.lending, name, place, word);
    if (inside)
        ask_on_words(&settlement, settlement.job.sizes, step);
    else
        expect_step(&settlement, step, 21);
    put_both(&settlement.lending, name, place, kept);
    lend_state(&settlement);
}

static void edges_of_word(enum table_name name, size_t place)
{
    struct range range = range_of(name, settlement.job.sizes), width = width_range(name);
    with_word(name, place, range.most, true);
    with_word(name, place, range.least, true);
    if (!has_range(name)) return;
    with_word(name, place, range.most + 1, false);
    with_word(name, place, width.most, false);
    if (!is_signed(name)) return;
    with_word(name, place, range.least - 1, false);
    with_word(name, place, width.least, false);
}

static void words_out_of_range(void)
{
    for (unsigned long round = 0; round < 5 + job_count / 100; round++)
        for (unsigned name = 0; name < STEP_TABLES; name++) {
            open_middle(round % 4 ? SMALL : MEDIUM);
            size_t need = words_needed(&settlement, name);
            edges_of_word(name, 0);
            edges_of_word(name, need - 1);
            edges_of_word(name, below((uint32_t)need));
            close_settlement(&settlement);
        }
}

/* Asks with each of these sizes on whatever is lent. */
static void expect_for_sizes(const struct sizes tried[], size_t count, uint16_t due)
{
    for (size_t i = 0; i < count; i++) {
        settlement.job.sizes = tried[i];
        at_case("K %u, M %u, N %u, T %u, lists %u", tried[i].boxes, tried[i].grocers, tried[i].offers, tried[i].tallies,
                tried[i].lists);
        expect_step(&settlement, (struct step){2, 0, 0}, due);
    }
}

/* Every buffer is long enough for sizes that are a little out of range. */
static void sizes_out_of_range(void)
{
    static const struct sizes tried[] = {
        {0, 2, 2, 4, 0}, {17, 2, 2, 4, 0}, {2, 0, 2, 4, 0}, {2, 256, 2, 4, 0}, {2, 2, 0, 4, 0}, {2, 2, 501, 4, 0},
        {2, 2, 2, 1001, 0}, {0, 0, 0, 0, 0}, {17, 256, 501, 1001, 0}, {16, 255, 500, 1001, 0},
        {16, 255, 501, 1000, 0}, {16, 256, 500, 1000, 0}, {17, 255, 500, 1000, 0}, {2, 2, 2, 4, 8}, {1, 1, 1, 0, 9},
        {16, 255, 500, 1000, 8}};
    size_t lengths[ALL_TABLES];
    for (unsigned name = 0; name < ALL_TABLES; name++) lengths[name] = enough(name, (struct sizes){17, 256, 501, 1001, 9});
    open_lending(&settlement.lending, lengths);
    expect_for_sizes(tried, sizeof tried / sizeof tried[0], 21);
    close_settlement(&settlement);
}

/* Tables of one word for each grocer, offer or tally are as long as can be, the others short of lengths that are small
   only where 16 or 32 bits wrap round. No length goes by K x M: boxes and grocers that are too many are 21. */
static void lengths_that_wrap(void)
{
    static const struct sizes tried[] = {
        {16, 2, 4096, 4, 0}, {2, 2, 32768, 4, 0}, {256, 1, 1, 0, 0}, {128, 1, 1, 0, 0}, {32768, 1, 1, 0, 0},
        {26755, 1, 1, 0, 0}, {65535, 1, 1, 0, 0}, {257, 255, 2, 4, 0}, {2, 2, 65535, 4, 0},
        {65535, 65535, 65535, 65535, 0}, {1, 1, 1, 0, 65535}, {2, 2, 2, 4, 32767}, {1, 1, 8192, 0, 7},
        {1, 8192, 1, 0, 7}, {65535, 1, 65535, 0, 65535}, {4, 1, 2048, 0, 7}};
    static const struct sizes grocers[] = {
        {16, 4096, 2, 4, 0}, {2, 32768, 2, 4, 0}, {2, 65535, 2, 4, 0}, {2, 65535, 2, 65535, 0}};
    size_t lengths[ALL_TABLES];
    for (unsigned name = 0; name < ALL_TABLES; name++)
        lengths[name] = needed(name, (struct sizes){0, 65535, 65535, 65535, 0}) ? 65535 : 40000;
    open_lending(&settlement.lending, lengths);
    expect_for_sizes(tried, sizeof tried / sizeof tried[0], 20);
    expect_for_sizes(grocers, sizeof grocers / sizeof grocers[0], 21);
    close_settlement(&settlement);
}

/* A random job's words and random sizes beside it. */
static void arbitrary_sizes(void)
{
    for (unsigned long i = 0; i < job_count; i++) {
        random_job(&settlement.job, random_sizes(TINY));
        open_settlement(&settlement, SPARE, 0);
        struct sizes sizes = settlement.job.sizes;
        if (one_in(2)) sizes.boxes = wild_number(sizes.boxes);
        if (one_in(2)) sizes.grocers = wild_number(sizes.grocers);
        if (one_in(2)) sizes.offers = wild_number(sizes.offers);
        if (one_in(2)) sizes.tallies = wild_number(sizes.tallies);
        if (one_in(2)) sizes.lists = one_in(4) ? (uint16_t)below(10) : wild_number(sizes.lists);
        at_case("K %u, M %u, N %u, T %u, lists %u", sizes.boxes, sizes.grocers, sizes.offers, sizes.tallies,
                sizes.lists);
        ask_on_words(&settlement, sizes, some_ready_step(&settlement));
        close_settlement(&settlement);
    }
}

void check_step_tables(void)
{
    run_group("step: each buffer short", short_buffers);
    run_group("step: each table with a word at and beyond its range", words_out_of_range);
    run_group("step: K, M, N, T and lists out of range", sizes_out_of_range);
    run_group("step: K, M, N, T and lists whose lengths wrap round", lengths_that_wrap);
    run_group("step: K, M, N, T and lists beside their tables", arbitrary_sizes);
}
