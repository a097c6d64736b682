/* The store of thirteen cycles: histories whose sums are added afresh, the ends of 16 bits and of the ranges, stores that
   no history leaves, and each refusal. */
#include "call_groups.h"
#include "entries.h"
#include "jobs.h"
#include "lending.h"
#include "store_model.h"

enum { SPARE = 6, MOST_CALLS = 120, MOST_SHOPS = 4 };

static struct lending lending;
static uint16_t grocers;

static void put_all(enum table_name name, int64_t word)
{
    struct sizes sizes = {1, grocers, 1, 0, 0};
    for (size_t place = 0; place < needed(name, sizes); place++) put_both(&lending, name, place, word);
}

/* An empty store of so many grocers, and room for amounts; behind them up to six words of anything. */
static void open_store(uint16_t shops)
{
    size_t lengths[ALL_TABLES] = {0};
    struct sizes sizes = {1, shops, 1, 0, 0};
    grocers = shops;
    for (unsigned name = STORE_TABLES; name < ALL_TABLES; name++)
        lengths[name] = needed(name, sizes) + below(SPARE + 1);
    open_lending(&lending, lengths);
    for (unsigned name = STORE_TABLES; name < ALL_TABLES; name++) put_all(name, 0);
}

static void close_store(void) { close_lending(&lending); }

/* One call with M as given on whatever is lent, held to the model word by word. */
static uint16_t ask_store(uint16_t shops, uint16_t cycle)
{
    struct table tables[ALL_TABLES], lent[ALL_TABLES];
    twins_as_lent(&lending, tables);
    uint16_t due = store_refusal(shops, cycle, tables);
    if (!due) write_store(shops, cycle, tables);
    hand_over(&lending, lent);
    uint16_t answer = entries_store_cycle(shops, cycle, SLICE(const int64_t, GIVEN_CENTS), SLICE(uint32_t, NEXT_CYCLE),
                                          SLICE(int64_t, HELD_CENTS), SLICE(int64_t, KEPT_SUMS));
    hand_back(&lending, lent, STORE, answer);
    expect(answer == due, "cycle %u was answered %u, should be %u", cycle, answer, due);
    compare_with_twins(&lending);
    return answer;
}

static void expect_answer(uint16_t cycle, uint16_t due)
{
    uint16_t answer = ask_store(grocers, cycle);
    expect(answer == due, "cycle %u was answered %u, the case says %u", cycle, answer, due);
}

static void expect_sum(size_t g, int64_t due)
{
    int64_t sum = word_at(lending.table[KEPT_SUMS], g);
    expect(sum == due, "the sum of grocer %zu is %lld, should be %lld", g, (long long)sum, (long long)due);
}

/* Histories: what was stored, and the sums added afresh from it */

static struct {
    size_t length;
    uint16_t cycle[MOST_CALLS];
    int64_t amount[MOST_CALLS][MOST_SHOPS];
} history;

static int64_t added_afresh(size_t g)
{
    int64_t sum = 0;
    for (size_t i = 0; i < history.length; i++)
        if (history.cycle[i] + CYCLES > history.cycle[history.length - 1]) sum += history.amount[i][g];
    return sum;
}

static void note_call(uint16_t cycle)
{
    history.cycle[history.length] = cycle;
    for (size_t g = 0; g < grocers; g++) history.amount[history.length][g] = word_at(lending.table[GIVEN_CENTS], g);
    history.length++;
}

static int64_t some_amount(void)
{
    switch (below(6)) {
    case 0: return MOST_HELD;
    case 1: return -MOST_HELD;
    case 2: return between(-9, 9);
    default: return between(-MOST_HELD, MOST_HELD);
    }
}

/* How many numbers on the next cycle is. */
static int32_t some_gap(void)
{
    static const int32_t gaps[] = {1, 1, 1, 1, 2, 3, 11, 12, 13, 14, 15, 26, 500};
    if (one_in(40)) return (int32_t)below(LAST_CYCLE);
    return gaps[below(sizeof gaps / sizeof gaps[0])];
}

static void give_amounts(void)
{
    for (size_t g = 0; g < grocers; g++) put_both(&lending, GIVEN_CENTS, g, some_amount());
}

/* A call that must be refused: a number not above the last, an amount beyond the range, or a table lent short. */
static void ask_in_vain(int32_t last)
{
    size_t g = below(grocers);
    enum table_name name = STORE_TABLES + below(ALL_TABLES - STORE_TABLES);
    struct sizes sizes = {1, grocers, 1, 0, 0};
    give_amounts();
    switch (below(3)) {
    case 0:
        if (last >= 0) expect_answer((uint16_t)(one_in(2) ? last : (int32_t)below((uint32_t)last + 1)), 35);
        break;
    case 1:
        put_both(&lending, GIVEN_CENTS, g, one_in(2) ? MOST_HELD + 1 : between(INT64_MIN, -MOST_HELD - 1));
        if (last < LAST_CYCLE) expect_answer((uint16_t)(last + 1), 36);
        break;
    default:
        lending.lend[name] = needed(name, sizes) - 1;
        expect_answer((uint16_t)(last + 1), 20);
        lend_whole(&lending);
    }
}

static void tell_history(int32_t first)
{
    int32_t last = -1, cycle = first;
    history.length = 0;
    while (cycle <= LAST_CYCLE && history.length < MOST_CALLS) {
        if (one_in(4)) ask_in_vain(last);
        give_amounts();
        expect_answer((uint16_t)cycle, 0);
        note_call((uint16_t)cycle);
        for (size_t g = 0; g < grocers; g++) expect_sum(g, added_afresh(g));
        last = cycle;
        cycle += some_gap();
    }
}

static void histories(void)
{
    for (unsigned long i = 0; i < job_count / 8 + 20; i++) {
        open_store((uint16_t)(1 + below(MOST_SHOPS)));
        at_case("a history, number %lu", i);
        tell_history(i % 3 == 0 ? 0 : i % 3 == 1 ? LAST_CYCLE - (int32_t)below(60) : (int32_t)below(LAST_CYCLE + 1));
        close_store();
    }
}

/* Gaps one by one, and the ends of 16 bits */

static void expect_gap(uint16_t first, uint16_t second, bool stays)
{
    at_case("cycles %u and %u", first, second);
    open_store(2);
    put_both(&lending, GIVEN_CENTS, 0, 5);
    put_both(&lending, GIVEN_CENTS, 1, -7);
    expect_answer(first, 0);
    expect_sum(0, 5);
    put_both(&lending, GIVEN_CENTS, 0, 11);
    expect_answer(first, 35);
    if (first > 0) expect_answer((uint16_t)(first - 1), 35);
    expect_answer(second, 0);
    expect_sum(0, stays ? 16 : 11);
    expect_sum(1, stays ? -14 : -7);
    expect_answer(second, 35);
    close_store();
}

static void gaps(void)
{
    static const uint16_t firsts[] = {0, 1, 499, 500, 32767, LAST_CYCLE - 14};
    for (size_t i = 0; i < sizeof firsts / sizeof firsts[0]; i++)
        for (uint16_t gap = 1; gap <= 14; gap++) expect_gap(firsts[i], (uint16_t)(firsts[i] + gap), gap < CYCLES);
    expect_gap(0, LAST_CYCLE, false);
    expect_gap(LAST_CYCLE - 1, LAST_CYCLE, true);
    at_case("cycle 65535 is the first");
    open_store(1);
    expect_answer(LAST_CYCLE, 0);
    expect_answer(LAST_CYCLE, 35);
    expect_answer(0, 35);
    close_store();
}

/* Thirteen cycles of the largest amounts, and one more. */
static void largest_amounts(void)
{
    at_case("thirteen cycles of the largest amounts");
    open_store(255);
    for (size_t g = 0; g < 255; g++) put_both(&lending, GIVEN_CENTS, g, g % 2 ? -MOST_HELD : MOST_HELD);
    for (uint16_t cycle = 100; cycle < 114; cycle++) {
        expect_answer(cycle, 0);
        int64_t sum = (cycle < 113 ? cycle - 99 : CYCLES) * MOST_HELD;
        for (size_t g = 0; g < 255; g++) expect_sum(g, g % 2 ? -sum : sum);
    }
    put_both(&lending, GIVEN_CENTS, 254, MOST_HELD + 1);
    expect_answer(114, 36);
    expect_answer(113, 35);
    put_both(&lending, GIVEN_CENTS, 254, INT64_MIN);
    expect_answer(114, 36);
    close_store();
}

/* The order of the refusals: each condition met together with every later one. */

enum { MEETS_20 = 1, MEETS_21 = 2, MEETS_35 = 4, MEETS_36 = 8, MEETS_LATE = 16, MEETS_ALL = 32 };

static uint16_t first_met(unsigned met)
{
    static const uint16_t numbers[] = {20, 21, 35, 36, 21};
    for (unsigned i = 0; i < 5; i++)
        if (met >> i & 1) return numbers[i];
    return 0;
}

static void orders(void)
{
    for (unsigned met = 0; met < MEETS_ALL; met++) {
        at_case("conditions %u", met);
        open_store(2);
        put_all(GIVEN_CENTS, met & MEETS_36 ? MOST_HELD + 1 : 1);
        put_both(&lending, NEXT_CYCLE, 0, 41);
        if (met & MEETS_LATE) put_both(&lending, KEPT_SUMS, 1, MOST_KEPT);
        if (met & MEETS_21) put_both(&lending, HELD_CENTS, 25, -MOST_HELD - 1);
        if (met & MEETS_20) lending.lend[GIVEN_CENTS] = 1;
        expect_answer(met & MEETS_35 ? 40 : 41, first_met(met));
        close_store();
    }
}

/* Each table one word short, and the first and last word of each beyond its range, on both sides. */

static void expect_refused(enum table_name name, size_t place, int64_t word, uint16_t due)
{
    open_store(3);
    put_both(&lending, name, place, word);
    at_case("%s[%zu] is %lld", table_text(name), place, (long long)word);
    expect_answer(7, due);
    close_store();
}

static void edges(void)
{
    struct sizes sizes = {1, 3, 1, 0, 0};
    for (enum table_name name = STORE_TABLES; name < ALL_TABLES; name++) {
        size_t last = needed(name, sizes) - 1;
        int64_t most = name == NEXT_CYCLE ? LAST_CYCLE + 1 : name == KEPT_SUMS ? MOST_KEPT : MOST_HELD;
        uint16_t due = name == GIVEN_CENTS ? 36 : 21;
        at_case("%s one word short", table_text(name));
        open_store(3);
        lending.lend[name] = last;
        expect_answer(7, 20);
        close_store();
        expect_refused(name, 0, most + 1, due);
        expect_refused(name, last, most + 1, due);
        expect_refused(name, 0, most, name == NEXT_CYCLE ? 35 : 0);
        if (name == NEXT_CYCLE) continue;
        expect_refused(name, last, -most, 0);
        expect_refused(name, last, -most - 1, due);
        expect_refused(name, 0, INT64_MIN, due);
    }
}

static void numbers_of_grocers(void)
{
    static const uint16_t shops[] = {0, 1, 254, 255, 256, 257, 1000, 65535};
    for (size_t i = 0; i < sizeof shops / sizeof shops[0]; i++) {
        open_store(shops[i]);
        at_case("%u grocers", shops[i]);
        expect_answer(3, shops[i] >= 1 && shops[i] <= 255 ? 0 : 21);
        close_store();
    }
}

/* Stores that no history leaves: words anywhere within their ranges, now and then beyond, and any M as given. */

static int64_t some_word(enum table_name name)
{
    int64_t most = name == KEPT_SUMS ? MOST_KEPT : MOST_HELD;
    if (name == NEXT_CYCLE) return one_in(50) ? (int64_t)below(70000) : (int64_t)below(one_in(2) ? 30 : LAST_CYCLE + 2);
    if (one_in(300)) return (int64_t)random_word();
    return one_in(5) ? (one_in(2) ? most : -most) : between(-most, most);
}

static void odd_stores(void)
{
    for (unsigned long i = 0; i < job_count + 50; i++) {
        open_store((uint16_t)(1 + below(MOST_SHOPS)));
        at_case("a store of any words, number %lu", i);
        for (unsigned name = STORE_TABLES; name < ALL_TABLES; name++)
            for (size_t place = 0; place < lending.table[name].length; place++)
                put_both(&lending, name, place, some_word(name));
        for (unsigned call = 0; call < 4; call++) {
            int64_t next = word_at(lending.table[NEXT_CYCLE], 0);
            ask_store(one_in(12) ? wild_number(grocers) : grocers,
                      one_in(4) ? wild_number((uint16_t)next) : (uint16_t)(next + (int64_t)below(16)));
            give_amounts();
        }
        close_store();
    }
}

void check_store(void)
{
    run_group("store: random histories, each sum added afresh", histories);
    run_group("store: gaps of 1 to 14, and the ends of 16 bits", gaps);
    run_group("store: thirteen cycles of the largest amounts", largest_amounts);
    run_group("store: the order of the refusals", orders);
    run_group("store: each table short, each word at and beyond its range", edges);
    run_group("store: numbers of grocers", numbers_of_grocers);
    run_group("store: stores of any words", odd_stores);
}
