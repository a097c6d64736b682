/* The reconciliation desk: amounts beside a second sum, and each condition of 20 and 21. */
#include "call_groups.h"
#include "calling.h"
#include "entries.h"
#include "entries_model.h"

static struct calling calling;

struct record {
    uint16_t grocer, box, place;
    int32_t count;
};

enum { NONE, FIRST, SECOND, ALL }; /* which record of E is another one */

struct desk_case {
    const char *what;
    struct question question;
    size_t records, prices; /* prices: how many are lent */
    int64_t price[3];       /* the first of them; 500 behind */
    uint16_t due;
    int64_t owed;
    int which;
    struct record other;
};

/* E's tallies are four records; behind them stand some that no list may have. */
static const struct desk_case cases[] = {
    {"E, grocer 0", {2, 2, 0}, 4, 2, {500, 1250}, 0, 2250, NONE, {0}},
    {"E, grocer 1", {2, 2, 1}, 4, 2, {500, 1250}, 0, 2500, NONE, {0}},
    {"no record", {2, 2, 0}, 0, 2, {500, 1250}, 0, 0, NONE, {0}},
    {"records of other grocers only", {3, 2, 2}, 4, 2, {500, 1250}, 0, 0, NONE, {0}},
    {"E's first record only, grocer 1", {2, 2, 1}, 1, 2, {500, 1250}, 0, 0, NONE, {0}},
    {"count 0", {2, 2, 0}, 4, 2, {500, 1250}, 0, 2250, SECOND, {0, 0, 1, 0}},
    {"the same record twice", {2, 2, 0}, 4, 2, {500, 1250}, 0, 3750, SECOND, {0, 0, 0, 3}},
    {"count 99999, price 9999999", {1, 2, 0}, 1, 2, {0, 9999999}, 0, 999989900001, FIRST, {0, 15, 1, 99999}},
    {"count -99999, price 9999999",
     {255, 2, 254},
     1,
     2,
     {0, 9999999},
     0,
     INT64_C(-999989900001),
     FIRST,
     {254, 15, 1, -99999}},
    {"1000 records", {2, 2, 0}, 1000, 2, {500, 1250}, 0, 1500000, ALL, {0, 0, 0, 3}},
    {"1000 records of the largest amount",
     {1, 1, 0},
     1000,
     1,
     {9999999},
     0,
     INT64_C(999989900001000),
     ALL,
     {0, 0, 0, 99999}},
    {"1001 records", {2, 2, 0}, 1001, 2, {500, 1250}, 21, 0, ALL, {0, 0, 0, 3}},
    {"1024 records", {2, 2, 0}, 1024, 2, {500, 1250}, 21, 0, ALL, {0, 0, 0, 3}},
    {"1025 records", {2, 2, 0}, 1025, 2, {500, 1250}, 21, 0, ALL, {0, 0, 0, 3}},
    {"5000 records", {2, 2, 0}, 5000, 2, {500, 1250}, 21, 0, ALL, {0, 0, 0, 3}},
    {"1025 records, some out of range", {2, 2, 0}, 1025, 2, {500, 1250}, 21, 0, NONE, {0}},
    {"one price of two", {2, 2, 0}, 4, 1, {500}, 20, 0, NONE, {0}},
    {"no price", {2, 2, 0}, 4, 0, {0}, 20, 0, NONE, {0}},
    {"three prices of two", {2, 2, 0}, 4, 3, {500, 1250, 4000000000}, 0, 2250, NONE, {0}},
    {"M 0", {0, 2, 0}, 4, 2, {500, 1250}, 21, 0, NONE, {0}},
    {"M 255", {255, 2, 0}, 4, 2, {500, 1250}, 0, 2250, NONE, {0}},
    {"M 256", {256, 2, 0}, 4, 2, {500, 1250}, 21, 0, NONE, {0}},
    {"N 0", {2, 0, 0}, 4, 2, {500, 1250}, 21, 0, NONE, {0}},
    {"N 500", {2, 500, 0}, 4, 501, {500, 500, 500}, 0, 3000, NONE, {0}},
    {"N 501", {2, 501, 0}, 4, 501, {500, 500, 500}, 21, 0, NONE, {0}},
    {"price 9999999", {2, 2, 1}, 4, 2, {500, 9999999}, 0, 19999998, NONE, {0}},
    {"price 10000000", {2, 2, 0}, 4, 2, {500, 10000000}, 21, 0, NONE, {0}},
    {"wanted below M", {2, 2, 1}, 4, 2, {500, 1250}, 0, 2500, NONE, {0}},
    {"wanted at M", {2, 2, 2}, 4, 2, {500, 1250}, 21, 0, NONE, {0}},
    {"grocer at M", {2, 2, 0}, 4, 2, {500, 1250}, 21, 0, SECOND, {2, 0, 1, 2}},
    {"box 15", {2, 2, 0}, 4, 2, {500, 1250}, 0, 2250, SECOND, {1, 15, 1, 2}},
    {"box 16", {2, 2, 0}, 4, 2, {500, 1250}, 21, 0, SECOND, {1, 16, 1, 2}},
    {"place below N", {2, 2, 0}, 4, 2, {500, 1250}, 0, 4750, SECOND, {0, 0, 1, 2}},
    {"place at N", {2, 2, 0}, 4, 2, {500, 1250}, 21, 0, SECOND, {1, 0, 2, 2}},
    {"count 99999", {2, 2, 0}, 4, 2, {500, 1250}, 0, 50001750, SECOND, {0, 0, 0, 99999}},
    {"count 100000", {2, 2, 0}, 4, 2, {500, 1250}, 21, 0, SECOND, {1, 0, 1, 100000}},
    {"count -99999", {2, 2, 0}, 4, 2, {500, 1250}, 0, -49997250, SECOND, {0, 0, 0, -99999}},
    {"count -100000", {2, 2, 0}, 4, 2, {500, 1250}, 21, 0, SECOND, {1, 0, 1, -100000}},
    {"last record out of range", {2, 2, 0}, 5, 2, {500, 1250}, 21, 0, NONE, {0}},
    {"one price of two, M 0", {0, 2, 0}, 4, 1, {500}, 20, 0, NONE, {0}},
    {"one price of two, wanted at M", {2, 2, 2}, 4, 1, {500}, 20, 0, NONE, {0}},
    {"501 prices of 502, N 502", {2, 502, 0}, 4, 501, {500, 500, 500}, 20, 0, NONE, {0}},
    {"one price of two, 1001 records", {2, 2, 0}, 1001, 1, {500}, 20, 0, NONE, {0}},
    {"one price of two, 1025 records", {2, 2, 0}, 1025, 1, {500}, 20, 0, NONE, {0}},
    {"one price of two, 5000 records", {2, 2, 0}, 5000, 1, {500}, 20, 0, ALL, {0, 0, 0, 3}},
};

static void put_record(size_t place, struct record record)
{
    put_both(&calling.lending, TALLY_GROCER, place, record.grocer);
    put_both(&calling.lending, TALLY_BOX, place, record.box);
    put_both(&calling.lending, TALLY_OFFER, place, record.place);
    put_both(&calling.lending, TALLY_COUNT, place, record.count);
}

static const struct record sample[] = {{0, 0, 0, 3}, {1, 0, 1, 2}, {0, 1, 1, -1}, {0, 1, 0, 4}};
static const struct record odd = {60001, 60002, 60003, 2000000004};

/* The records behind a list are also of one bag and revision. */
static void put_bag(size_t place, uint16_t bag, uint16_t revision)
{
    put_both(&calling.lending, TALLY_BAG, place, bag);
    put_both(&calling.lending, TALLY_REVISION, place, revision);
}

/* Lends the records of a case; behind them, and behind E's, there are two more. */
static void open_records(const struct desk_case *c)
{
    size_t room = (c->records < 4 ? 4 : c->records) + 2;
    open_zeros(&calling, (struct sizes){1, 255, 502, (uint16_t)room, 0});
    for (size_t i = 0; i < room; i++) put_record(i, c->which == ALL ? c->other : i < 4 ? sample[i] : odd);
    for (size_t i = c->records; i < room; i++) put_bag(i, 7, 1);
    if (c->which == FIRST || c->which == SECOND) put_record(c->which == SECOND, c->other);
    for (size_t i = 0; i < c->prices; i++) put_both(&calling.lending, PRICE, i, i < 3 ? c->price[i] : 500);
    lend_records(&calling, c->records);
    calling.lending.lend[PRICE] = c->prices;
}

/* The amount owed is also that of adding prices one by one, where that takes no more than some million additions. */
static void expect_owed(uint16_t wanted, int64_t owed, bool by_adding)
{
    struct table tables[ALL_TABLES];
    twins_as_lent(&calling.lending, tables);
    expect(word_of(&calling, OWED, 0) == owed, "%lld is owed, the case says %lld",
           (long long)word_of(&calling, OWED, 0), (long long)owed);
    if (by_adding) expect(amount_by_adding(wanted, tables) == owed, "adding prices one by one gives another amount");
}

static void expect_desk(const struct desk_case *c)
{
    uint16_t answer = ask_desk(&calling, c->question);
    expect(answer == c->due, "the desk answered %u, the case says %u", answer, c->due);
    if (!c->due) expect_owed(c->question.wanted, c->owed, c->owed < INT64_C(1000000000000));
}

static void desk_cases(void)
{
    for (size_t i = 0; i < sizeof cases / sizeof cases[0]; i++) {
        at_case("%s", cases[i].what);
        open_records(&cases[i]);
        expect_desk(&cases[i]);
        close_calling(&calling);
    }
}

/* Each field a word shorter than the grocers, and no word for the amount. */
static void ask_short(const struct desk_case *c)
{
    static const enum table_name fields[] = {TALLY_BOX, TALLY_OFFER, TALLY_COUNT, TALLY_BAG, TALLY_REVISION, OWED};
    for (unsigned i = 0; i < 6; i++) {
        open_records(c);
        at_case("%s, %s short", c->what, table_text(fields[i]));
        calling.lending.lend[fields[i]] = fields[i] == OWED ? 0 : c->records - 1;
        expect(ask_desk(&calling, c->question) == 20, "the short buffer was taken");
        expect(ask_desk(&calling, (struct question){0, 0, 9}) == 20, "the short buffer was taken");
        close_calling(&calling);
    }
}

static void short_buffers(void)
{
    for (size_t i = 0; i < sizeof cases / sizeof cases[0]; i++)
        if (i == 0 || cases[i].records >= 1000) ask_short(&cases[i]);
}

/* Bags */

/* A case of bags with its records in some order: which stand is told within the list, for each grocer. */
static void ask_case(const struct bagged *c)
{
    size_t records = calling.job.sizes.tallies;
    open_calling(&calling, SPARE);
    for (uint16_t wanted = 0; wanted < 4; wanted++) {
        lend_records(&calling, records);
        uint16_t answer = ask_desk(&calling, (struct question){2, 3, wanted});
        expect(answer == (wanted >= 2 ? 21 : c->standing ? 0 : 9), "grocer %u: the desk answered %u", wanted, answer);
        if (!answer) expect_owed(wanted, c->owed[wanted], true);
    }
    for (size_t t = 0; t < records; t++) {
        at_case("%s, and a record out of range", c->what);
        put_both(&calling.lending, TALLY_BOX, t, MOST_BOXES);
        expect(ask_desk(&calling, (struct question){2, 3, 0}) == 21, "a box of 16 was taken");
        put_both(&calling.lending, TALLY_BOX, t, 0);
    }
    at_case("%s, and few prices", c->what);
    calling.lending.lend[PRICE] = 2;
    expect(ask_desk(&calling, (struct question){2, 3, 0}) == 20, "two prices of three were taken");
    close_calling(&calling);
}

static void bags(void)
{
    for (const struct bagged *c = bagged; c->what; c++)
        for (unsigned order = 0; order < 6; order++) {
            at_case("%s", c->what);
            bagged_job(&calling.job, c);
            if (order > 0) shuffle_tallies(&calling.job);
            ask_case(c);
        }
}

/* The desk goes by its own list: a count that another one supersedes stands where the other is not in the list. */
static void parts_of_lists(void)
{
    for (size_t records = 0; records <= 3; records++) {
        at_case("the first %zu of three revisions", records);
        bagged_job(&calling.job, &bagged[5]);
        open_calling(&calling, SPARE);
        lend_records(&calling, records);
        expect(ask_desk(&calling, (struct question){2, 3, 0}) == 0, "the desk refused");
        expect_owed(0, records ? 4000 + 1000 * (int64_t)records : 0, true);
        close_calling(&calling);
    }
}

/* 1,000 records of one bag, the highest revision at place 781; one of them a second time. */
static void one_bag(void)
{
    open_records(&cases[9]);
    for (size_t i = 0; i < 1000; i++) {
        put_both(&calling.lending, TALLY_COUNT, i, (int64_t)i);
        put_bag(i, 65535, (uint16_t)(i * 379 % 1000 * 65));
    }
    at_case("1,000 records of one bag");
    expect(ask_desk(&calling, (struct question){2, 2, 0}) == 0, "the desk refused");
    expect_owed(0, 781 * 500, true);
    at_case("1,000 records of one bag, the lowest revision twice");
    put_bag(219, 65535, 0);
    expect(ask_desk(&calling, (struct question){2, 2, 0}) == 9, "the desk did not refuse with 9");
    expect(ask_desk(&calling, (struct question){2, 2, 1}) == 9, "the desk did not refuse another grocer with 9");
    at_case("1,000 records, twice as loose coupons");
    put_bag(0, 0, 0);
    put_bag(219, 0, 0);
    expect(ask_desk(&calling, (struct question){2, 2, 0}) == 0, "the desk refused");
    expect_owed(0, (781 + 219) * 500, true);
    close_calling(&calling);
}

/* The desk has one list: lent the prices of another one, it answers the amount on that. */
static void ask_on_list(uint16_t wanted, size_t list)
{
    struct sizes sizes = calling.job.sizes;
    for (size_t o = 0; o < sizes.offers; o++) put_both(&calling.lending, PRICE, o, price_on(&calling.job, o, list));
    lend_records(&calling, sizes.tallies);
    expect(ask_desk(&calling, (struct question){sizes.grocers, sizes.offers, wanted}) == 0, "the desk refused");
    expect_owed(wanted, plain_sum(&calling.job, wanted, list), false);
}

static void random_lists(void)
{
    for (unsigned long i = 0; i < job_count; i++) {
        random_job(&calling.job, random_sizes(i % 8 ? TINY : i % 64 ? SMALL : LARGEST));
        for (size_t t = 0; t < calling.job.sizes.tallies; t++) calling.job.tally[t].count %= i % 64 ? 100000 : 50;
        open_calling(&calling, SPARE);
        struct sizes sizes = calling.job.sizes;
        at_case("random list %lu", i);
        for (uint16_t wanted = 0; wanted < sizes.grocers && wanted < 8; wanted++) {
            lend_records(&calling, sizes.tallies);
            uint16_t answer = ask_desk(&calling, (struct question){sizes.grocers, sizes.offers, wanted});
            expect(answer == 0, "the desk refused with %u", answer);
            expect_owed(wanted, plain_sum(&calling.job, wanted, 0), false);
        }
        ask_on_list((uint16_t)below(sizes.grocers), below(sizes.lists + 1u));
        near_bags(&calling);
        ask_desk(&calling, (struct question){sizes.grocers, sizes.offers, (uint16_t)below(sizes.grocers)});
        ask_desk(&calling, (struct question){wild_number(sizes.grocers), wild_number(sizes.offers), wild_number(3)});
        close_calling(&calling);
    }
}

void check_desk(void)
{
    run_group("desk: amounts and refusals of E's records", desk_cases);
    run_group("desk: each buffer short", short_buffers);
    run_group("desk: bags", bags);
    run_group("desk: a part of a list goes by itself", parts_of_lists);
    run_group("desk: 1,000 records of one bag", one_bag);
    run_group("desk: random lists beside the plain sum", random_lists);
}
