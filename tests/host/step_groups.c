/* One step on jobs that are written out: each refusal, their order, and results at the edges of their ranges. */
#include "groups.h"
#include "settling.h"

static struct settlement settlement;

/* Plights: requests on E with some steps done, and their refusals */

struct plight {
    const char *what;
    struct step step;
    uint16_t number;
    bool marked, large; /* whether the step's own mark stands, and whether its result would leave the range */
    struct step done[3];
};

static const struct plight plights[] = {
    {.what = "send prices, permitted", .step = {1, 0, 1}, .number = 0},
    {.what = "multiply own, permitted", .step = {2, 1, 1}, .number = 0},
    {.what = "receive prices, permitted", .step = {3, 0, 1}, .number = 0, .done = {{1, 1, 0}}},
    {.what = "send totals, permitted", .step = {4, 0, 1}, .number = 0, .done = {{2, 0, 0}, {3, 0, 1}}},
    {.what = "send totals before the receipt", .step = {4, 0, 1}, .number = 0, .done = {{2, 0, 0}}},
    {.what = "add own, permitted", .step = {5, 0, 0}, .number = 0, .done = {{2, 0, 0}, {3, 0, 1}}},
    {.what = "add own before multiply own", .step = {5, 0, 0}, .number = 0, .done = {{3, 0, 1}}},
    {.what = "add own of box 1, permitted", .step = {5, 1, 1}, .number = 0, .done = {{2, 1, 1}, {3, 1, 0}}},
    {.what = "receive totals, permitted", .step = {6, 1, 0}, .number = 0, .done = {{4, 0, 1}}},
    {.what = "kind 0", .step = {0, 0, 1}, .number = 22},
    {.what = "kind 7", .step = {7, 0, 1}, .number = 22},
    {.what = "kind 65,535", .step = {65535, 0, 0}, .number = 22},
    {.what = "kind 9 with box 99", .step = {9, 99, 99}, .number = 22},
    {.what = "kind 257", .step = {257, 0, 1}, .number = 22},
    {.what = "message 0 to 0", .step = {1, 0, 0}, .number = 23},
    {.what = "message 0 to 0, its place marked", .step = {1, 0, 0}, .number = 23, .marked = true},
    {.what = "receipt of 1 from 1", .step = {3, 1, 1}, .number = 23},
    {.what = "totals 1 to 1", .step = {4, 1, 1}, .number = 23, .done = {{2, 1, 1}, {3, 1, 0}}},
    {.what = "totals of 0 from 0", .step = {6, 0, 0}, .number = 23},
    {.what = "multiply own of 0 and 1", .step = {2, 0, 1}, .number = 23},
    {.what = "own of 1 and 0", .step = {5, 1, 0}, .number = 23},
    {.what = "first box 2", .step = {1, 2, 0}, .number = 23},
    {.what = "second box 2", .step = {1, 0, 2}, .number = 23},
    {.what = "multiply own of box 2", .step = {2, 2, 2}, .number = 23},
    {.what = "own of box 65,535", .step = {5, 65535, 65535}, .number = 23},
    {.what = "first box 256", .step = {1, 256, 1}, .number = 23},
    {.what = "second box 65,535", .step = {6, 1, 65535}, .number = 23},
    {.what = "empty totals", .step = {4, 1, 0}, .number = 24, .done = {{2, 1, 1}, {3, 1, 0}}},
    {.what = "empty totals, not ready", .step = {4, 1, 0}, .number = 24},
    {.what = "empty totals, marked", .step = {4, 1, 0}, .number = 24, .marked = true, .done = {{2, 1, 1}, {3, 1, 0}}},
    {.what = "empty receipt", .step = {6, 0, 1}, .number = 24, .done = {{4, 1, 0}}},
    {.what = "empty receipt, not ready", .step = {6, 0, 1}, .number = 24},
    {.what = "empty receipt, marked", .step = {6, 0, 1}, .number = 24, .marked = true, .large = true},
    {.what = "send prices repeated", .step = {1, 0, 1}, .number = 25, .marked = true},
    {.what = "multiply own repeated", .step = {2, 0, 0}, .number = 25, .marked = true},
    {.what = "receipt repeated", .step = {3, 0, 1}, .number = 25, .marked = true, .done = {{1, 1, 0}}},
    {.what = "receipt marked, not ready", .step = {3, 0, 1}, .number = 25, .marked = true},
    {.what = "totals repeated", .step = {4, 0, 1}, .number = 25, .marked = true, .done = {{2, 0, 0}, {3, 0, 1}}},
    {.what = "totals marked, not ready", .step = {4, 0, 1}, .number = 25, .marked = true},
    {.what = "own repeated", .step = {5, 1, 1}, .number = 25, .marked = true, .done = {{2, 1, 1}, {3, 1, 0}}},
    {.what = "own repeated, its result too large",
     .step = {5, 1, 1},
     .number = 25,
     .marked = true,
     .large = true,
     .done = {{2, 1, 1}, {3, 1, 0}}},
    {.what = "receipt of totals repeated",
     .step = {6, 1, 0},
     .number = 25,
     .marked = true,
     .large = true,
     .done = {{4, 0, 1}}},
    {.what = "receipt of totals marked, not ready", .step = {6, 1, 0}, .number = 25, .marked = true, .large = true},
    {.what = "send prices repeated, the count full", .step = {1, 1, 0}, .number = 25, .marked = true, .large = true},
    {.what = "receipt before sending", .step = {3, 0, 1}, .number = 26},
    {.what = "receipt before sending, the other way sent", .step = {3, 0, 1}, .number = 26, .done = {{1, 0, 1}}},
    {.what = "receipt before sending, its result too large", .step = {3, 1, 0}, .number = 26, .large = true},
    {.what = "totals before anything", .step = {4, 0, 1}, .number = 26},
    {.what = "totals after the receipt only", .step = {4, 0, 1}, .number = 26, .done = {{3, 0, 1}}},
    {.what = "totals after the other box's multiply own",
     .step = {4, 0, 1},
     .number = 26,
     .large = true,
     .done = {{2, 1, 1}, {3, 0, 1}}},
    {.what = "own before anything", .step = {5, 1, 1}, .number = 26, .large = true},
    {.what = "own totals after multiply own only", .step = {5, 1, 1}, .number = 26, .done = {{2, 1, 1}}},
    {.what = "own totals after the receipt only", .step = {5, 1, 1}, .number = 26, .done = {{3, 1, 0}}},
    {.what = "own totals of the tally that was not received", .step = {5, 0, 0}, .number = 26, .done = {{2, 0, 0}}},
    {.what = "own totals, their price sent and not received",
     .step = {5, 0, 0},
     .number = 26,
     .done = {{2, 0, 0}, {1, 1, 0}}},
    {.what = "receipt of totals before sending", .step = {6, 1, 0}, .number = 26, .large = true},
    {.what = "receipt of totals, own added", .step = {6, 1, 0}, .number = 26, .done = {{5, 0, 0}, {5, 1, 1}}},
    {.what = "send prices, the count full", .step = {1, 0, 1}, .number = 21, .large = true},
    {.what = "multiply own, its result too large", .step = {2, 0, 0}, .number = 21, .large = true},
    {.what = "receipt, its result too large", .step = {3, 1, 0}, .number = 21, .large = true, .done = {{1, 0, 1}}},
    {.what = "totals, the count full", .step = {4, 0, 1}, .number = 21, .large = true, .done = {{2, 0, 0}, {3, 0, 1}}},
    {.what = "own, its result too large",
     .step = {5, 1, 1},
     .number = 21,
     .large = true,
     .done = {{2, 1, 1}, {3, 1, 0}}},
    {.what = "totals before the receipt, the count full",
     .step = {4, 0, 1},
     .number = 21,
     .large = true,
     .done = {{2, 0, 0}}},
    {.what = "receipt of totals, its result too large",
     .step = {6, 1, 0},
     .number = 21,
     .large = true,
     .done = {{4, 0, 1}}},
};
enum { PLIGHTS = sizeof plights / sizeof plights[0] };

/* Every amount of the last list and the count at the end of its range, prices above 0: no step that adds stays
   within. */
static void make_large(void)
{
    uint16_t last = settlement.job.sizes.lists;
    for (size_t place = 0; place < 4; place++) {
        put_on_all(&settlement, KNOWN, place, 1);
        put_on_all(&settlement, PRICE_TRANSIT, place, 1);
        put_total(&settlement, WORKING, place / 2, place % 2, last, MOST_AMOUNT);
        put_total(&settlement, TOTAL_TRANSIT, place / 2, place % 2, last, MOST_AMOUNT);
    }
    for (size_t grocer = 0; grocer < 2; grocer++) put_on(&settlement, STATEMENT, grocer, last, MOST_AMOUNT);
    put_both(&settlement.lending, SENT, 0, MOST_SENT);
}

/* Numbers of additional lists that E is tried with. */
static const uint16_t some_lists[] = {0, 1, MOST_LISTS};
enum { SOME_LISTS = sizeof some_lists / sizeof some_lists[0] };

static void open_plight(const struct plight *plight, uint16_t lists, const char *and)
{
    sample_with_lists(&settlement.job, lists);
    open_settlement(&settlement, SPARE, 0);
    at_case("%s, %u lists more%s", plight->what, lists, and);
    for (unsigned i = 0; i < 3; i++)
        if (plight->done[i].kind) set_mark(&settlement, plight->done[i]);
    if (plight->marked) set_mark(&settlement, plight->step);
    if (plight->large) make_large();
}

static void each_plight(void)
{
    for (size_t i = 0; i < PLIGHTS; i++)
        for (size_t l = 0; l < SOME_LISTS; l++) {
            open_plight(&plights[i], some_lists[l], "");
            expect_step(&settlement, plights[i].step, plights[i].number);
            close_settlement(&settlement);
        }
}

/* Each plight with a word out of range, with a short buffer, and with both. */
static void plights_with_earlier_faults(void)
{
    for (size_t i = 0; i < PLIGHTS; i++)
        for (unsigned name = 0; name < STEP_TABLES; name++) {
            struct lending *lending = &settlement.lending;
            open_plight(&plights[i], some_lists[(i + name) % SOME_LISTS], ", and an earlier fault");
            size_t need = words_needed(&settlement, name);
            lending->lend[name] = need - 1;
            expect_step(&settlement, plights[i].step, 20);
            if (has_range(name)) {
                put_both(lending, name, below((uint32_t)need), range_of(name, settlement.job.sizes).most + 1);
                expect_step(&settlement, plights[i].step, 20);
                lend_whole(lending);
                expect_step(&settlement, plights[i].step, 21);
            }
            close_settlement(&settlement);
        }
}

/* Each plight with a bag and revision twice: 9 comes before 22 to 26 and the late 21, and before 20 and 21 on packed
   tables; behind 20 and 21 on all else. */
static void plights_counted_twice(void)
{
    for (size_t i = 0; i < PLIGHTS; i++)
        for (unsigned name = 0; name < STEP_TABLES; name++) {
            struct lending *lending = &settlement.lending;
            open_plight(&plights[i], some_lists[(i + name) % SOME_LISTS], ", and a bag and revision twice");
            size_t need = words_needed(&settlement, name);
            for (size_t t = 0; t < 4; t += 3) {
                put_both(lending, TALLY_BAG, t, 500);
                put_both(lending, TALLY_REVISION, t, 8);
            }
            expect_step(&settlement, plights[i].step, 9);
            lending->lend[name] = need - 1;
            expect_step(&settlement, plights[i].step, is_packed(name) ? 9 : 20);
            lend_whole(lending);
            if (has_range(name)) {
                put_both(lending, name, below((uint32_t)need), range_of(name, settlement.job.sizes).most + 1);
                expect_step(&settlement, plights[i].step, is_packed(name) ? 9 : 21);
            }
            close_settlement(&settlement);
        }
}

/* Late refusals: the finished word just within its range, and just beyond */

struct late {
    const char *what;
    struct step step;
    enum table_name name;
    size_t entry;      /* of working totals, the box: there is one grocer */
    int64_t just_fits; /* the word with which the result is the last within the range; of words sent, with one list */
};

/* Count 7, price 3; offer of box 0, grocer of box 1; amounts of 100 under way and at work. */
static const struct late lates[] = {
    {"prices sent", {1, 0, 1}, SENT, 0, MOST_SENT - 1},
    {"own swept", {2, 0, 0}, WORKING, 0, MOST_AMOUNT - 21},
    {"prices received", {3, 1, 0}, WORKING, 1, MOST_AMOUNT - 21},
    {"totals sent", {4, 0, 1}, SENT, 0, MOST_SENT - 1},
    {"own added", {5, 1, 1}, STATEMENT, 0, MOST_AMOUNT - 100},
    {"totals received", {6, 1, 0}, STATEMENT, 0, MOST_AMOUNT - 100},
};

/* One tally in the box that the step is about, or one in each box. */
static void open_late(struct step step, int sign, uint16_t tallies, uint16_t lists)
{
    uint16_t box = step.kind == SEND_PRICES || step.kind == RECEIVE_PRICES;
    one_tally_job(&settlement.job, (struct sizes){2, 1, 1, tallies, lists}, 3,
                  (struct tally){.box = box, .count = 7 * sign});
    settlement.job.tally[1].box = !box;
    open_settlement(&settlement, SPARE, 0);
    put_on_all(&settlement, PRICE_TRANSIT, 1, 3);
    put_on_all(&settlement, KNOWN, 0, 3);
    for (size_t q = 0; q <= lists; q++) {
        put_total(&settlement, WORKING, 1, 0, q, 100 * sign);
        put_total(&settlement, TOTAL_TRANSIT, 0, 0, q, 100 * sign);
    }
}

/* Every mark of two boxes but one, so that this step is ready. */
static void mark_all_but(struct step step)
{
    for (size_t place = 0; place < needed(DONE, settlement.job.sizes); place++)
        put_both(&settlement.lending, DONE, place, 1);
    put_both(&settlement.lending, DONE, mark_place(&settlement, step), 0);
}

/* With so many lists more, and the word of one list at the end of its range. */
static void late_case(const struct late *late, unsigned way, uint16_t lists, size_t list)
{
    int sign = way & 1 || late->name == SENT ? 1 : -1;
    uint16_t tallies = way & 2 ? 1 : 2;
    bool beyond = way & 4;
    at_case("%s, %s, sign %d, %u tallies, list %zu of %u more", late->what, beyond ? "beyond" : "just fits", sign,
            tallies, list, lists);
    open_late(late->step, sign, tallies, lists);
    mark_all_but(late->step);
    int64_t word = sign * (late->just_fits + beyond);
    if (late->name == SENT)
        put_both(&settlement.lending, SENT, 0, word - lists);
    else if (late->name == WORKING)
        put_total(&settlement, WORKING, late->entry, 0, list, word);
    else
        put_on(&settlement, late->name, late->entry, list, word);
    expect_step(&settlement, late->step, beyond ? 21 : 0);
    close_settlement(&settlement);
}

static void late_refusals(void)
{
    for (unsigned i = 0; i < sizeof lates / sizeof lates[0]; i++)
        for (unsigned way = 0; way < 8; way++)
            for (size_t l = 0; l < SOME_LISTS; l++)
                for (size_t list = 0; list <= some_lists[l]; list++) late_case(&lates[i], way, some_lists[l], list);
}

/* Sums that leave the range on the way and come back are no fault; a fault in the last word leaves the first alone. */
static void sums_on_the_way(void)
{
    at_case("a sum beyond the range on the way");
    one_tally_job(&settlement.job, (struct sizes){1, 1, 1, 1000, 0}, MOST_PRICE, (struct tally){.count = MOST_COUNT});
    for (size_t t = 500; t < 1000; t++) settlement.job.tally[t].count = -MOST_COUNT;
    open_settlement(&settlement, SPARE, 0);
    put_both(&settlement.lending, WORKING, 0, MOST_AMOUNT);
    expect_step(&settlement, (struct step){2, 0, 0}, 0);
    close_settlement(&settlement);

    at_case("the last of 255 statements beyond its range");
    one_tally_job(&settlement.job, (struct sizes){1, 255, 1, 0, 0}, 1, (struct tally){0});
    open_settlement(&settlement, SPARE, 0);
    for (size_t g = 0; g < 255; g++) {
        put_both(&settlement.lending, WORKING, g, -1);
        put_both(&settlement.lending, STATEMENT, g, 5);
    }
    put_both(&settlement.lending, DONE, mark_place(&settlement, (struct step){2, 0, 0}), 1);
    put_both(&settlement.lending, STATEMENT, 254, -MOST_AMOUNT);
    expect_step(&settlement, (struct step){5, 0, 0}, 21);
    put_both(&settlement.lending, STATEMENT, 254, 1 - MOST_AMOUNT);
    expect_step(&settlement, (struct step){5, 0, 0}, 0);
    close_settlement(&settlement);
}

/* Two boxes hold a tally of offer 0 and grocer 0; box 0 owns the offers, box 1 the grocers. */
static void open_beside(struct step step, int sign, uint16_t lists)
{
    one_tally_job(&settlement.job, (struct sizes){2, 3, 3, 2, lists}, 5, (struct tally){.count = sign});
    settlement.job.tally[1].box = 1;
    open_settlement(&settlement, SPARE, 0);
    mark_all_but(step);
    for (size_t place = 0; place < 6; place++) {
        int64_t amount = place % 3 == 0 ? 0 : sign * MOST_AMOUNT;
        put_on_all(&settlement, KNOWN, place, MOST_PRICE);
        put_on_all(&settlement, PRICE_TRANSIT, place, MOST_PRICE);
        for (size_t q = 0; q <= lists; q++) {
            put_total(&settlement, WORKING, place / 3, place % 3, q, amount);
            put_total(&settlement, TOTAL_TRANSIT, place / 3, place % 3, q, amount);
        }
        if (place < 3) put_on_all(&settlement, STATEMENT, place, amount);
    }
}

/* Amounts of the other grocers stand at an end of their range, and no step may mind or touch them. */
static void words_outside_messages(void)
{
    static const struct step steps[] = {{1, 0, 1}, {2, 0, 0}, {3, 1, 0}, {4, 0, 1}, {5, 0, 0}, {6, 1, 0}};
    for (unsigned i = 0; i < 6 * SOME_LISTS; i++)
        for (int sign = -1; sign <= 1; sign += 2) {
            at_case("step %u beside words of %d x 10^15", steps[i % 6].kind, sign);
            open_beside(steps[i % 6], sign, some_lists[i / 6]);
            expect_step(&settlement, steps[i % 6], 0);
            close_settlement(&settlement);
        }
}

void check_step(void)
{
    run_group("step: each refusal on E, and each kind permitted", each_plight);
    run_group("step: a short buffer or a word out of range comes first", plights_with_earlier_faults);
    run_group("step: a bag and revision twice comes after these and before all else", plights_counted_twice);
    run_group("step: results at and beyond their range", late_refusals);
    run_group("step: only finished words are held to the range", sums_on_the_way);
    run_group("step: words outside its message do not matter", words_outside_messages);
}
