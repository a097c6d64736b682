/* E word by word: its steps in five orders, its run, and other cases with results that are known without the model. */
#include <string.h>

#include "groups.h"
#include "settling.h"

static struct settlement settlement;
static struct picks picks;

/* Every word of E's state. Of totals these are box 0's of grocer 1, which it owns, and of grocer 0, and box 1's of
   grocer 0. */
struct words {
    struct step step; /* the request that led there */
    int64_t known[4], price_transit[4], working[3], total_transit[3], statement[2];
    const char *done; /* a digit for each mark; 0 behind */
    int64_t sent;
};

static void expect_table(enum table_name name, const int64_t due[], size_t length)
{
    for (size_t place = 0; place < length; place++)
        expect(lent_word(&settlement, name, place) == due[place], "%s[%zu] is %lld, the case says %lld",
               table_text(name), place, (long long)lent_word(&settlement, name, place), (long long)due[place]);
}

static void expect_state(const struct words *words)
{
    expect_table(KNOWN, words->known, 4);
    expect_table(PRICE_TRANSIT, words->price_transit, 4);
    expect_table(WORKING, words->working, 3);
    expect_table(TOTAL_TRANSIT, words->total_transit, 3);
    expect_table(STATEMENT, words->statement, 2);
    for (size_t place = 0, marks = strlen(words->done); place < 24; place++) {
        int64_t mark = place < marks ? words->done[place] - '0' : 0;
        expect(lent_word(&settlement, DONE, place) == mark, "done[%zu] is not %lld", place, (long long)mark);
    }
    expect_table(SENT, &words->sent, 1);
}

/* By kind, first box and second box; box 1 before box 0; box 0 ahead of box 1; totals of box 0 sent and received before
   any price; own totals of box 0 added before it multiplies. The first line of each is the fresh state. */
static const struct {
    const char *name;
    struct words lines[11];
} orders[] = {
    {"by kind",
     {
         {{0, 0, 0}, {500, 0, 0, 1250}, {0}, {0}, {0}, {0}, "", 0},
         {{1, 0, 1}, {500, 0, 0, 1250}, {0, 0, 500}, {0}, {0}, {0}, "01", 1},
         {{1, 1, 0}, {500, 0, 0, 1250}, {0, 1250, 500}, {0}, {0}, {0}, "011", 2},
         {{2, 0, 0}, {500, 0, 0, 1250}, {0, 1250, 500}, {0, 1500}, {0}, {0}, "01101", 2},
         {{2, 1, 1}, {500, 0, 0, 1250}, {0, 1250, 500}, {0, 1500, -1250}, {0}, {0}, "01101001", 2},
         {{3, 0, 1}, {500, 1250, 0, 1250}, {0, 0, 500}, {2500, 1500, -1250}, {0}, {0}, "0110100101", 2},
         {{3, 1, 0}, {500, 1250, 500, 1250}, {0}, {2500, 1500, 750}, {0}, {0}, "01101001011", 2},
         {{4, 0, 1}, {500, 1250, 500, 1250}, {0}, {2500, 0, 750}, {0, 1500}, {0}, "01101001011001", 3},
         {{5, 0, 0}, {500, 1250, 500, 1250}, {0}, {0, 0, 750}, {0, 1500}, {0, 2500}, "01101001011001001", 3},
         {{5, 1, 1}, {500, 1250, 500, 1250}, {0}, {0}, {0, 1500}, {750, 2500}, "01101001011001001001", 3},
         {{6, 1, 0}, {500, 1250, 500, 1250}, {0}, {0}, {0}, {2250, 2500}, "01101001011001001001001", 3},
     }},
    {"box 1 first",
     {
         {{0, 0, 0}, {500, 0, 0, 1250}, {0}, {0}, {0}, {0}, "", 0},
         {{1, 1, 0}, {500, 0, 0, 1250}, {0, 1250}, {0}, {0}, {0}, "001", 1},
         {{2, 1, 1}, {500, 0, 0, 1250}, {0, 1250}, {0, 0, -1250}, {0}, {0}, "00100001", 1},
         {{1, 0, 1}, {500, 0, 0, 1250}, {0, 1250, 500}, {0, 0, -1250}, {0}, {0}, "01100001", 2},
         {{3, 1, 0}, {500, 0, 500, 1250}, {0, 1250}, {0, 0, 750}, {0}, {0}, "01100001001", 2},
         {{5, 1, 1}, {500, 0, 500, 1250}, {0, 1250}, {0}, {0}, {750}, "01100001001000000001", 2},
         {{2, 0, 0}, {500, 0, 500, 1250}, {0, 1250}, {0, 1500}, {0}, {750}, "01101001001000000001", 2},
         {{3, 0, 1}, {500, 1250, 500, 1250}, {0}, {2500, 1500}, {0}, {750}, "01101001011000000001", 2},
         {{4, 0, 1}, {500, 1250, 500, 1250}, {0}, {2500}, {0, 1500}, {750}, "01101001011001000001", 3},
         {{6, 1, 0}, {500, 1250, 500, 1250}, {0}, {2500}, {0}, {2250}, "01101001011001000001001", 3},
         {{5, 0, 0}, {500, 1250, 500, 1250}, {0}, {0}, {0}, {2250, 2500}, "01101001011001001001001", 3},
     }},
    {"box 0 ahead",
     {
         {{0, 0, 0}, {500, 0, 0, 1250}, {0}, {0}, {0}, {0}, "", 0},
         {{2, 0, 0}, {500, 0, 0, 1250}, {0}, {0, 1500}, {0}, {0}, "00001", 0},
         {{1, 1, 0}, {500, 0, 0, 1250}, {0, 1250}, {0, 1500}, {0}, {0}, "00101", 1},
         {{3, 0, 1}, {500, 1250, 0, 1250}, {0}, {2500, 1500}, {0}, {0}, "0010100001", 1},
         {{5, 0, 0}, {500, 1250, 0, 1250}, {0}, {0, 1500}, {0}, {0, 2500}, "00101000010000001", 1},
         {{4, 0, 1}, {500, 1250, 0, 1250}, {0}, {0}, {0, 1500}, {0, 2500}, "00101000010001001", 2},
         {{6, 1, 0}, {500, 1250, 0, 1250}, {0}, {0}, {0}, {1500, 2500}, "00101000010001001000001", 2},
         {{1, 0, 1}, {500, 1250, 0, 1250}, {0, 0, 500}, {0}, {0}, {1500, 2500}, "01101000010001001000001", 3},
         {{3, 1, 0}, {500, 1250, 500, 1250}, {0}, {0, 0, 2000}, {0}, {1500, 2500}, "01101000011001001000001", 3},
         {{2, 1, 1}, {500, 1250, 500, 1250}, {0}, {0, 0, 750}, {0}, {1500, 2500}, "01101001011001001000001", 3},
         {{5, 1, 1}, {500, 1250, 500, 1250}, {0}, {0}, {0}, {2250, 2500}, "01101001011001001001001", 3},
     }},
    {"totals of box 0 before any price",
     {
         {{0, 0, 0}, {500, 0, 0, 1250}, {0}, {0}, {0}, {0}, "", 0},
         {{2, 0, 0}, {500, 0, 0, 1250}, {0}, {0, 1500}, {0}, {0}, "00001", 0},
         {{4, 0, 1}, {500, 0, 0, 1250}, {0}, {0}, {0, 1500}, {0}, "00001000000001", 1},
         {{6, 1, 0}, {500, 0, 0, 1250}, {0}, {0}, {0}, {1500}, "00001000000001000000001", 1},
         {{1, 1, 0}, {500, 0, 0, 1250}, {0, 1250}, {0}, {0}, {1500}, "00101000000001000000001", 2},
         {{3, 0, 1}, {500, 1250, 0, 1250}, {0}, {2500}, {0}, {1500}, "00101000010001000000001", 2},
         {{5, 0, 0}, {500, 1250, 0, 1250}, {0}, {0}, {0}, {1500, 2500}, "00101000010001001000001", 2},
         {{1, 0, 1}, {500, 1250, 0, 1250}, {0, 0, 500}, {0}, {0}, {1500, 2500}, "01101000010001001000001", 3},
         {{3, 1, 0}, {500, 1250, 500, 1250}, {0}, {0, 0, 2000}, {0}, {1500, 2500}, "01101000011001001000001", 3},
         {{2, 1, 1}, {500, 1250, 500, 1250}, {0}, {0, 0, 750}, {0}, {1500, 2500}, "01101001011001001000001", 3},
         {{5, 1, 1}, {500, 1250, 500, 1250}, {0}, {0}, {0}, {2250, 2500}, "01101001011001001001001", 3},
     }},
    {"own totals of box 0 before it multiplies",
     {
         {{0, 0, 0}, {500, 0, 0, 1250}, {0}, {0}, {0}, {0}, "", 0},
         {{1, 1, 0}, {500, 0, 0, 1250}, {0, 1250}, {0}, {0}, {0}, "001", 1},
         {{3, 0, 1}, {500, 1250, 0, 1250}, {0}, {2500}, {0}, {0}, "0010000001", 1},
         {{5, 0, 0}, {500, 1250, 0, 1250}, {0}, {0}, {0}, {0, 2500}, "00100000010000001", 1},
         {{1, 0, 1}, {500, 1250, 0, 1250}, {0, 0, 500}, {0}, {0}, {0, 2500}, "01100000010000001", 2},
         {{3, 1, 0}, {500, 1250, 500, 1250}, {0}, {0, 0, 2000}, {0}, {0, 2500}, "01100000011000001", 2},
         {{2, 1, 1}, {500, 1250, 500, 1250}, {0}, {0, 0, 750}, {0}, {0, 2500}, "01100001011000001", 2},
         {{5, 1, 1}, {500, 1250, 500, 1250}, {0}, {0}, {0}, {750, 2500}, "01100001011000001001", 2},
         {{2, 0, 0}, {500, 1250, 500, 1250}, {0}, {0, 1500}, {0}, {750, 2500}, "01101001011000001001", 2},
         {{4, 0, 1}, {500, 1250, 500, 1250}, {0}, {0}, {0, 1500}, {750, 2500}, "01101001011001001001", 3},
         {{6, 1, 0}, {500, 1250, 500, 1250}, {0}, {0}, {0}, {2250, 2500}, "01101001011001001001001", 3},
     }},
};

static void in_orders(size_t from, size_t to)
{
    for (size_t i = from; i < to; i++) {
        sample_job(&settlement.job);
        open_settlement(&settlement, SPARE, 0);
        at_case("%s", orders[i].name);
        expect_state(&orders[i].lines[0]);
        for (size_t line = 1; line < 11; line++) {
            struct step step = orders[i].lines[line].step;
            at_case("%s, step %u of %u and %u", orders[i].name, step.kind, step.first, step.second);
            expect(ask(&settlement, step) == 0, "the step was refused");
            expect_state(&orders[i].lines[line]);
            expect(ask(&settlement, step) == 25, "the step repeated was not refused with 25");
        }
        close_settlement(&settlement);
    }
}

static void three_orders(void) { in_orders(0, 3); }
static void early_orders(void) { in_orders(3, sizeof orders / sizeof orders[0]); }

/* Single requests that the plights do not have. */
static void other_requests(void)
{
    static const struct step no_messages[] = {{1, 0, 1}, {3, 1, 0}};
    for (size_t i = 0; i < 2; i++) {
        at_case("an empty message of prices, step %u", no_messages[i].kind);
        sample_job(&settlement.job);
        settlement.job.tally[1].place = 0;
        settlement.job.tally[3].place = 1;
        open_settlement(&settlement, SPARE, 0);
        expect_step(&settlement, no_messages[i], 24);
        close_settlement(&settlement);
    }
    sample_job(&settlement.job);
    open_settlement(&settlement, SPARE, 0);
    at_case("own tallies of box 65535");
    expect_step(&settlement, (struct step){2, 65535, 65535}, 23);
    at_case("own totals before the due receipt, which was sent");
    set_mark(&settlement, (struct step){2, 0, 0});
    set_mark(&settlement, (struct step){1, 1, 0});
    expect_step(&settlement, (struct step){5, 0, 0}, 26);
    at_case("totals that do not wait for it");
    expect_step(&settlement, (struct step){4, 0, 1}, 0);
    at_case("words sent at 1,000,000, no message");
    put_both(&settlement.lending, SENT, 0, MOST_SENT);
    expect_step(&settlement, (struct step){2, 1, 1}, 0);
    close_settlement(&settlement);
}

/* Every word at an end of its range is taken. */
static void ends_of_ranges(void)
{
    static const struct {
        enum table_name name;
        size_t place;
        int64_t word;
    } ends[] = {{KNOWN, 3, MOST_PRICE},          {PRICE_TRANSIT, 3, MOST_PRICE}, {WORKING, 2, -MOST_AMOUNT},
                {TOTAL_TRANSIT, 2, MOST_AMOUNT}, {STATEMENT, 1, -MOST_AMOUNT},   {DONE, 23, 1}};
    at_case("every word at an end of its range");
    sample_job(&settlement.job);
    settlement.job.offer[1].price = MOST_PRICE;
    settlement.job.tally[2].count = MOST_COUNT;
    settlement.job.tally[3].count = -MOST_COUNT;
    open_settlement(&settlement, SPARE, 0);
    for (size_t i = 0; i < sizeof ends / sizeof ends[0]; i++)
        put_both(&settlement.lending, ends[i].name, ends[i].place, ends[i].word);
    expect_step(&settlement, (struct step){1, 0, 1}, 0);
    put_both(&settlement.lending, SENT, 0, MOST_SENT + 1);
    expect_step(&settlement, (struct step){9, 99, 99}, 21);
    close_settlement(&settlement);
}

/* Runs */

static void expect_run(struct sizes sizes, uint16_t due)
{
    uint16_t answer = ask_run(&settlement, sizes, &picks);
    expect(answer == due, "run answered %u, the case says %u", answer, due);
}

static void expect_report(const int64_t due[3]) { expect_table(REPORT, due, 3); }

static void put_choices(const uint16_t choices[], size_t length)
{
    for (size_t i = 0; i < length; i++) put_both(&settlement.lending, CHOICES, i, choices[i]);
}

static void runs_of_sample(void)
{
    static const struct {
        size_t length;
        uint16_t choices[15];
    } lists[] = {{0, {0}},
                 {1, {0}},
                 {1, {1}},
                 {1, {65535}},
                 {15, {3, 1, 4, 1, 5, 9, 2, 6, 5, 3, 5, 8, 9, 7, 9}},
                 {6, {65535, 3, 7, 1, 0, 2}}};
    for (size_t i = 0; i < sizeof lists / sizeof lists[0]; i++) {
        sample_job(&settlement.job);
        open_settlement(&settlement, SPARE, lists[i].length);
        at_case("E with %zu choices, the first %u", lists[i].length, lists[i].choices[0]);
        put_choices(lists[i].choices, lists[i].length);
        expect_run(settlement.job.sizes, 0);
        expect_report((const int64_t[]){3, 3, 10});
        expect_state(&orders[0].lines[10]);
        expect_plain_sums(&settlement);
        close_settlement(&settlement);
    }
}

/* Which steps choices pick from E's list of ready steps, by their places: prices from box 0 to box 1 are 1, the other
   way 2; own tallies of boxes 0 and 1 are 4 and 7; prices received by box 0 are 9, by box 1 10; the totals sent are 13,
   own totals of boxes 0 and 1 16 and 19, the totals received 22. Fresh, 1, 2, 4 and 7 are ready; 9 comes behind 2, 10
   behind 1, 13 behind 4, 16 behind 9, 19 behind 7 and 10, 22 behind 13. */
enum { E_STEPS = 10 };
static const struct {
    const char *what;
    size_t length;
    uint16_t choices[E_STEPS + 1];
    int64_t places[E_STEPS];
} picked_in_sample[] = {
    {"no choices: the first each time", 0, {0}, {1, 2, 4, 7, 9, 10, 13, 16, 19, 22}},
    {"0 of 4", 1, {0}, {1, 2, 4, 7, 9, 10, 13, 16, 19, 22}},
    {"3 of 4", 1, {3}, {7, 1, 2, 4, 9, 10, 13, 16, 19, 22}},
    {"4 of 4", 1, {4}, {1, 2, 4, 7, 9, 10, 13, 16, 19, 22}},
    {"65,535 of 4", 1, {65535}, {7, 1, 2, 4, 9, 10, 13, 16, 19, 22}},
    {"65,535 of 4, once box 0 has sent its price", 2, {0, 65535}, {1, 10, 2, 4, 7, 9, 13, 16, 19, 22}},
    {"2 behind 1", 2, {1, 2}, {2, 7, 1, 4, 9, 10, 13, 16, 19, 22}},
    {"1 behind 2", 2, {2, 1}, {4, 2, 1, 7, 9, 10, 13, 16, 19, 22}},
    {"0 behind 3", 2, {3, 0}, {7, 1, 2, 4, 9, 10, 13, 16, 19, 22}},
    {"as many as steps", 10, {0, 1, 2, 3, 4, 5, 6, 7, 8, 9}, {1, 4, 10, 2, 9, 16, 7, 19, 13, 22}},
    {"one too many", 11, {3, 1, 4, 1, 5, 9, 2, 6, 5, 3, 5}, {7, 2, 4, 9, 16, 13, 1, 10, 22, 19}},
    {"65,535 each time",
     11,
     {65535, 65535, 65535, 65535, 65535, 65535, 65535, 65535, 65535, 65535, 65535},
     {7, 1, 2, 4, 9, 10, 13, 16, 22, 19}},
};

static void pick_in_sample(size_t list, size_t length)
{
    int64_t before[E_STEPS + SPARE];
    size_t written = length < E_STEPS ? length : E_STEPS;
    sample_job(&settlement.job);
    open_settlement(&settlement, SPARE, picked_in_sample[list].length);
    at_case("E, %s, picked of %zu words", picked_in_sample[list].what, length);
    put_choices(picked_in_sample[list].choices, picked_in_sample[list].length);
    settlement.lending.lend[PICKED] = length;
    for (size_t i = 0; i < E_STEPS + SPARE; i++) before[i] = lent_word(&settlement, PICKED, i);
    expect_run(settlement.job.sizes, 0);
    expect_table(PICKED, picked_in_sample[list].places, written);
    for (size_t i = written; i < E_STEPS + SPARE; i++)
        expect(lent_word(&settlement, PICKED, i) == before[i], "picked[%zu] was written to", i);
    close_settlement(&settlement);
}

static void picks_in_sample(void)
{
    static const size_t lengths[] = {0, 1, 2, 9, 10, 11, 16};
    for (size_t list = 0; list < sizeof picked_in_sample / sizeof picked_in_sample[0]; list++)
        for (size_t i = 0; i < sizeof lengths / sizeof lengths[0]; i++) pick_in_sample(list, lengths[i]);
}

/* E with other sizes, its buffers just as long as E needs. */
static void other_sizes(void)
{
    static const struct {
        struct sizes sizes;
        uint16_t choices, due;
        int64_t report[3], statements[2];
    } tried[] = {
        {{2, 2, 2, 0, 0}, 0, 0, {0, 0, 4}, {0, 0}}, {{2, 2, 2, 1, 0}, 1, 0, {1, 1, 6}, {1500, 0}},
        {{2, 1, 2, 1, 0}, 0, 0, {1, 1, 6}, {1500}}, {{3, 2, 2, 4, 0}, 0, 20, {0}, {0}},
        {{2, 3, 2, 4, 0}, 0, 20, {0}, {0}},         {{2, 2, 3, 4, 0}, 0, 20, {0}, {0}},
        {{2, 2, 2, 5, 0}, 0, 20, {0}, {0}},         {{0, 2, 2, 4, 0}, 0, 21, {0}, {0}},
        {{2, 0, 2, 4, 0}, 0, 21, {0}, {0}},         {{2, 2, 0, 4, 0}, 0, 21, {0}, {0}},
        {{1, 2, 2, 4, 0}, 0, 21, {0}, {0}},
    };
    for (size_t i = 0; i < sizeof tried / sizeof tried[0]; i++) {
        struct sizes sizes = tried[i].sizes;
        sample_job(&settlement.job);
        open_settlement(&settlement, 0, tried[i].choices);
        at_case("K %u, M %u, N %u, T %u", sizes.boxes, sizes.grocers, sizes.offers, sizes.tallies);
        put_choices((const uint16_t[]){7}, tried[i].choices);
        expect_run(sizes, tried[i].due);
        if (!tried[i].due) {
            expect_report(tried[i].report);
            expect_table(STATEMENT, tried[i].statements, sizes.grocers);
        }
        close_settlement(&settlement);
    }
}

/* Tables of zeros, long enough for sizes that are a little out of range. */
static void sizes_on_zeros(void)
{
    static const struct sizes tried[] = {{17, 1, 1, 0, 0},   {1, 256, 1, 0, 0}, {1, 1, 501, 0, 0},
                                         {1, 1, 1, 1001, 0}, {1, 1, 1, 0, 0},   {16, 255, 500, 1000, 0}};
    size_t lengths[ALL_TABLES];
    for (size_t i = 0; i < sizeof tried / sizeof tried[0]; i++) {
        for (unsigned name = 0; name < ALL_TABLES; name++)
            lengths[name] = enough(name, (struct sizes){17, 256, 501, 1001, 0});
        lengths[PICKED] = 20;
        open_lending(&settlement.lending, lengths);
        for (unsigned name = 0; name < STEP_TABLES; name++)
            for (size_t place = 0; place < lengths[name]; place++) put_both(&settlement.lending, name, place, 0);
        settlement.job.sizes = tried[i];
        at_case("K %u, M %u, N %u, T %u", tried[i].boxes, tried[i].grocers, tried[i].offers, tried[i].tallies);
        expect_step(&settlement, (struct step){2, 0, 0}, i < 4 ? 21 : 0);
        expect_run(tried[i], i < 4 ? 21 : 0);
        if (i >= 4) expect_report((const int64_t[]){0, 0, 2 * tried[i].boxes});
        close_settlement(&settlement);
    }
}

/* Jobs by rules: prices from 9,990,999 up, and every count -1 */

static void open_ruled(struct sizes sizes, struct rules rules, size_t choices)
{
    ruled_job(&settlement.job, sizes, rules);
    for (size_t o = 0; o < sizes.offers; o++) {
        settlement.job.offer[o].price = (uint32_t)(9990999 + o);
        for (size_t q = 0; q < sizes.lists; q++) settlement.job.more_price[q][o] = (uint32_t)(9990999 + o);
    }
    for (size_t t = 0; t < sizes.tallies; t++) settlement.job.tally[t].count = -1;
    open_settlement(&settlement, SPARE, choices);
    for (size_t i = 0; i < choices; i++) put_both(&settlement.lending, CHOICES, i, 65535);
}

/* The steps picked go from place 1 upwards to the last. */
static void expect_by_place(size_t steps, int64_t last)
{
    expect(lent_word(&settlement, PICKED, 0) == 1, "the first step is not prices from box 0 to box 1");
    for (size_t i = 1; i < steps; i++)
        expect(lent_word(&settlement, PICKED, i - 1) < lent_word(&settlement, PICKED, i), "picked[%zu] goes back", i);
    expect(lent_word(&settlement, PICKED, steps - 1) == last, "the last step is not at place %lld", (long long)last);
}

/* 16 boxes, each with an offer and a grocer of its own and a tally of every offer: every pair exchanges messages.
   Without choices the first ready step is always the first that is not done. */
static void every_pair(void)
{
    for (size_t choices = 0; choices <= 1000; choices += 1000) {
        at_case("every pair, %zu choices", choices);
        open_ruled((struct sizes){16, 16, 16, 256, 0}, (struct rules){{1, 16}, {1, 16}, {1, 16}, {16, 16}, {1, 16}},
                   choices);
        lend_whole(&settlement.lending);
        expect_run(settlement.job.sizes, 0);
        expect_report((const int64_t[]){480, 480, 992});
        if (choices == 0) expect_by_place(992, 1534);
        for (int64_t g = 0; g < 16; g++)
            expect(lent_word(&settlement, STATEMENT, (size_t)g) == -159855984 - 16 * g, "statement %lld differs",
                   (long long)g);
        expect_plain_sums(&settlement);
        close_settlement(&settlement);
    }
}

/* Of one list, and of eight with the same prices. */
static void largest_by_rules(void)
{
    for (uint16_t lists = 0; lists <= MOST_LISTS; lists += MOST_LISTS) {
        struct sizes sizes = {16, 255, 500, 1000, lists};
        at_case("16 boxes, 255 grocers, 500 offers, 1,000 tallies, %u lists more", lists);
        open_ruled(sizes, (struct rules){{7, 16}, {1, 16}, {1, 255}, {3, 16}, {1, 500}}, 0);
        expect_run(sizes, 0);
        expect_report((const int64_t[]){1869 * (lists + 1), 286, 604});
        for (size_t q = 0; q <= lists; q++) {
            expect(lent_on(&settlement, STATEMENT, 0, q) == -39964526, "the first statement differs");
            expect(lent_on(&settlement, STATEMENT, 254, q) == -29973524, "the last statement differs");
        }
        expect_plain_sums(&settlement);
        close_settlement(&settlement);
    }
}

void check_cases(void)
{
    run_group("step: E in three orders, word by word", three_orders);
    run_group("early: E in two orders more, word by word", early_orders);
    run_group("step: other requests on E", other_requests);
    run_group("step: every word at an end of its range", ends_of_ranges);
    run_group("run: E with choices, word by word", runs_of_sample);
    run_group("run: which steps choices pick on E", picks_in_sample);
    run_group("run: E with other sizes", other_sizes);
    run_group("step and run: K, M, N and T at and beyond their values", sizes_on_zeros);
    run_group("run: 16 boxes that all exchange messages", every_pair);
    run_group("run: the largest job by rules", largest_by_rules);
}
