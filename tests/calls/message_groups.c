/* The tables of messages: E's, every refusal, the largest job, and random jobs beside plain counts. */
#include "call_groups.h"
#include "calling.h"
#include "entries_model.h"

static struct calling calling;

static void expect_messages(struct sizes sizes, uint16_t due)
{
    uint16_t answer = ask_messages(&calling, sizes);
    expect(answer == due, "the tables of messages were answered %u, the case says %u", answer, due);
}

static void open_sample(uint32_t spare)
{
    sample_job(&calling.job);
    open_calling(&calling, spare);
}

/* Sums of a table: of row x, or of column x. */
static int64_t line_sum(enum table_name name, size_t x, bool column)
{
    int64_t sum = 0;
    for (size_t y = 0; y < MOST_BOXES; y++)
        sum += word_of(&calling, name, column ? MOST_BOXES * y + x : MOST_BOXES * x + y);
    return sum;
}

static void expect_sums(enum table_name name, const int64_t rows[MOST_BOXES], const int64_t columns[MOST_BOXES],
                        int64_t all)
{
    int64_t sum = 0;
    for (size_t x = 0; x < MOST_BOXES; x++) {
        expect(line_sum(name, x, false) == rows[x], "row %zu of %s differs", x, table_text(name));
        expect(line_sum(name, x, true) == columns[x], "column %zu of %s differs", x, table_text(name));
        sum += rows[x];
    }
    expect(sum == all, "%s sums to %lld", table_text(name), (long long)sum);
}

static void expect_words_of_job(int64_t words)
{
    expect(word_of(&calling, JOB_WORDS, 0) == words, "the job has %lld words",
           (long long)word_of(&calling, JOB_WORDS, 0));
}

static void tables_of_sample(void)
{
    at_case("E");
    open_sample(SPARE);
    expect_messages(calling.job.sizes, 0);
    expect_words(&calling, PRICE_WORDS, (const int64_t[]){0, 1}, 2);
    expect(word_of(&calling, PRICE_WORDS, 16) == 1 && word_of(&calling, PRICE_WORDS, 17) == 0,
           "row 1 of prices differs");
    expect_words(&calling, TOTAL_WORDS, (const int64_t[]){0, 1}, 2);
    expect(word_of(&calling, TOTAL_WORDS, 16) == 0 && word_of(&calling, TOTAL_WORDS, 17) == 0,
           "row 1 of totals differs");
    expect_sums(PRICE_WORDS, (const int64_t[MOST_BOXES]){1, 1}, (const int64_t[MOST_BOXES]){1, 1}, 2);
    expect_sums(TOTAL_WORDS, (const int64_t[MOST_BOXES]){1, 0}, (const int64_t[MOST_BOXES]){0, 1}, 1);
    expect_words_of_job(3);
    close_calling(&calling);
}

/* With any number of lists the tables are the same, for they count entries: a price out of range is refused on each. */
static void any_lists(void)
{
    for (uint16_t lists = 0; lists <= MOST_LISTS; lists++) {
        sample_with_lists(&calling.job, lists);
        open_calling(&calling, SPARE);
        at_case("E with %u lists more", lists);
        expect_messages(calling.job.sizes, 0);
        expect_words(&calling, PRICE_WORDS, (const int64_t[]){0, 1}, 2);
        expect_words(&calling, TOTAL_WORDS, (const int64_t[]){0, 1}, 2);
        expect_words_of_job(3);
        for (size_t place = 0; place < 2u * (lists + 1u); place++) {
            int64_t kept = word_of(&calling, PRICE, place);
            put_both(&calling.lending, PRICE, place, MOST_PRICE + 1);
            expect_messages(calling.job.sizes, 21);
            put_both(&calling.lending, PRICE, place, kept);
        }
        make_fault(&calling, PRICE, SHORT);
        expect_messages(calling.job.sizes, 20);
        close_calling(&calling);
    }
}

static void other_sizes(void)
{
    static const struct {
        struct sizes sizes;
        uint16_t due;
        int64_t words;
    } tried[] = {
        {{2, 2, 2, 0, 0}, 0, 0},  {{3, 2, 2, 4, 0}, 0, 3},  {{2, 3, 2, 4, 0}, 20, 0},
        {{2, 2, 3, 4, 0}, 20, 0}, {{2, 2, 2, 5, 0}, 20, 0}, {{0, 2, 2, 4, 0}, 21, 0},
        {{2, 2, 2, 4, 1}, 20, 0}, {{2, 2, 2, 4, 65535}, 20, 0}, {{2, 0, 2, 4, 0}, 21, 0}, {{2, 2, 0, 4, 0}, 21, 0}, {{1, 2, 2, 4, 0}, 21, 0},
    };
    for (size_t i = 0; i < sizeof tried / sizeof tried[0]; i++) {
        struct sizes sizes = tried[i].sizes;
        open_sample(0);
        at_case("E with K %u, M %u, N %u, T %u", sizes.boxes, sizes.grocers, sizes.offers, sizes.tallies);
        expect_messages(sizes, tried[i].due);
        if (!tried[i].due) expect_words_of_job(tried[i].words);
        close_calling(&calling);
    }
}

/* Each buffer short, alone and with a word out of range. */
static void short_buffers(void)
{
    for (unsigned name = 0; name < STORE_TABLES; name++) {
        if (name >= JOB_TABLES && (name < PRICE_WORDS || name > JOB_WORDS)) continue;
        open_sample(SPARE);
        make_fault(&calling, name, SHORT);
        expect_messages(calling.job.sizes, 20);
        put_both(&calling.lending, TALLY_BOX, 3, 2);
        expect_messages(calling.job.sizes, 20);
        close_calling(&calling);
    }
}

static void words_out_of_range(void)
{
    for (unsigned name = 0; name < JOB_TABLES; name++)
        for (enum fault fault = ABOVE; has_range(name) && fault < (is_signed(name) ? FAULTS : BELOW); fault++) {
            open_sample(SPARE);
            make_fault(&calling, name, fault);
            expect_messages(calling.job.sizes, 21);
            close_calling(&calling);
        }
}

/* Tables of zeros, long enough for sizes that are a little out of range. */
static void sizes_out_of_range(void)
{
    static const struct sizes tried[] = {
        {17, 1, 1, 0, 0}, {1, 256, 1, 0, 0},      {1, 1, 501, 0, 0}, {1, 1, 1, 1001, 0},     {1, 1, 1, 0, 8},
        {1, 1, 1, 0, 0},  {16, 255, 500, 1000, 0}, {1, 1, 1, 0, 7},  {16, 255, 500, 1000, 7}};
    open_zeros(&calling, (struct sizes){17, 256, 501, 1001, 8});
    for (size_t i = 0; i < sizeof tried / sizeof tried[0]; i++) {
        at_case("K %u, M %u, N %u, T %u, lists %u", tried[i].boxes, tried[i].grocers, tried[i].offers, tried[i].tallies,
                tried[i].lists);
        expect_messages(tried[i], i < 5 ? 21 : 0);
        if (i >= 5) expect_words_of_job(0);
    }
    close_calling(&calling);
}

static void largest_job(void)
{
    at_case("the largest job");
    spread_job(&calling.job);
    open_calling(&calling, SPARE);
    expect_messages(LARGEST, 0);
    expect_words_of_job(1059);
    expect_sums(PRICE_WORDS,
                (const int64_t[MOST_BOXES]){53, 52, 52, 48, 33, 35, 35, 36, 33, 37, 35, 35, 35, 35, 35, 36},
                (const int64_t[MOST_BOXES]){39, 38, 38, 39, 38, 40, 39, 41, 38, 41, 40, 40, 39, 39, 38, 38}, 625);
    expect_sums(TOTAL_WORDS,
                (const int64_t[MOST_BOXES]){24, 30, 29, 26, 25, 29, 30, 25, 26, 29, 29, 26, 25, 29, 28, 24},
                (const int64_t[MOST_BOXES]){30, 35, 33, 24, 24, 28, 28, 24, 24, 28, 28, 24, 24, 28, 28, 24}, 434);
    close_calling(&calling);
}

/* A box's row of prices sums to the ones in the need words of its offers, its own bit left out; its column of totals
 * likewise. */
static void expect_ones(const struct job *job)
{
    static struct machine machine;
    start_fresh(&machine, job);
    for (unsigned box = 0; box < job->sizes.boxes; box++) {
        int64_t needs = 0, sharers = 0;
        for (size_t o = 0; o < job->sizes.offers; o++)
            if (job->offer[o].owner == box) needs += __builtin_popcount(machine.needs[o] & ~(1u << box));
        for (size_t g = 0; g < job->sizes.grocers; g++)
            if (job->grocer_owner[g] == box) sharers += __builtin_popcount(machine.sharers[g] & ~(1u << box));
        expect(line_sum(PRICE_WORDS, box, false) == needs, "row %u of prices is not the ones of its needs", box);
        expect(line_sum(TOTAL_WORDS, box, true) == sharers, "column %u of totals is not the ones of its sharers", box);
    }
}

/* Cases of bags, their tallies in some order: the words between boxes are those of standing tallies. */
static void bags(void)
{
    for (const struct bagged *c = bagged; c->what; c++)
        for (unsigned order = 0; order < 6; order++) {
            int64_t messages = 0;
            at_case("%s", c->what);
            bagged_job(&calling.job, c);
            if (order > 0) shuffle_tallies(&calling.job);
            open_calling(&calling, SPARE);
            expect_messages(calling.job.sizes, c->standing ? 0 : 9);
            for (size_t i = 0; i < MOST_BOXES * MOST_BOXES; i++)
                messages += (word_of(&calling, PRICE_WORDS, i) > 0) + (word_of(&calling, TOTAL_WORDS, i) > 0);
            if (c->standing) {
                expect_words_of_job(c->words);
                expect(messages == c->messages, "%lld messages are there", (long long)messages);
            }
            close_calling(&calling);
        }
}

/* 1,000 tallies in bags, in one order and in another. */
static void largest_in_bags(void)
{
    for (unsigned long i = 0; i < 2 + job_count / 1000; i++) {
        int64_t words = 0;
        spread_job(&calling.job);
        give_bags(&calling.job);
        for (unsigned order = 0; order < 2; order++) {
            at_case("largest job %lu in bags, order %u", i, order);
            open_calling(&calling, SPARE);
            expect_messages(LARGEST, 0);
            expect_ones(&calling.job);
            if (order > 0) expect_words_of_job(words);
            words = word_of(&calling, JOB_WORDS, 0);
            close_calling(&calling);
            shuffle_tallies(&calling.job);
        }
    }
}

/* E with a bag and revision twice: behind 20 and 21. */
static void counted_twice_in_order(void)
{
    for (unsigned name = 0; name < JOB_TABLES; name++) {
        open_sample(SPARE);
        put_both(&calling.lending, TALLY_BAG, 0, 1);
        put_both(&calling.lending, TALLY_BAG, 3, 1);
        at_case("9, and %s at fault", table_text(name));
        expect_messages(calling.job.sizes, 9);
        if (has_range(name)) make_fault(&calling, name, ABOVE);
        expect_messages(calling.job.sizes, has_range(name) ? 21 : 9);
        make_fault(&calling, name, SHORT);
        expect_messages(calling.job.sizes, 20);
        close_calling(&calling);
    }
}

static void random_jobs(void)
{
    for (unsigned long i = 0; i < job_count / 4 + 4; i++) {
        random_job(&calling.job, random_sizes(i % 8 ? TINY : i % 64 ? SMALL : MEDIUM));
        open_calling(&calling, SPARE);
        at_case("random job %lu", i);
        expect_messages(calling.job.sizes, 0);
        expect_ones(&calling.job);
        struct sizes sizes = calling.job.sizes;
        near_bags(&calling);
        ask_messages(&calling, sizes);
        sizes.boxes = wild_number(sizes.boxes);
        if (one_in(2)) sizes.grocers = wild_number(sizes.grocers);
        if (one_in(2)) sizes.lists = wild_number(sizes.lists);
        ask_messages(&calling, sizes);
        close_calling(&calling);
    }
}

void check_messages(void)
{
    run_group("tables of messages: E's", tables_of_sample);
    run_group("tables of messages: any number of price lists", any_lists);
    run_group("tables of messages: E with other sizes", other_sizes);
    run_group("tables of messages: each buffer short", short_buffers);
    run_group("tables of messages: each table of the job with a word beyond its range", words_out_of_range);
    run_group("tables of messages: K, M, N, T and lists at and beyond their values", sizes_out_of_range);
    run_group("tables of messages: the largest job", largest_job);
    run_group("tables of messages: bags", bags);
    run_group("tables of messages: the largest job in bags", largest_in_bags);
    run_group("tables of messages: a bag and revision twice comes after these", counted_twice_in_order);
    run_group("tables of messages: random jobs beside plain counts", random_jobs);
}
