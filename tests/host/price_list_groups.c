/* Several price lists in one evening: every list's words are those of an evening with that list alone, after every step
   and after a run; where a word stands; short tables, words out of range, and numbers of lists at and beyond 7. */
#include "groups.h"
#include "settling.h"

static struct settlement settlement;
static struct picks picks;

static void expect_run(struct sizes sizes, uint16_t due)
{
    uint16_t answer = ask_run(&settlement, sizes, &picks);
    expect(answer == due, "run answered %u, the case says %u", answer, due);
}

static void expect_table(enum table_name name, const int64_t due[], size_t length)
{
    for (size_t place = 0; place < length; place++)
        expect(lent_word(&settlement, name, place) == due[place], "%s[%zu] is %lld, the case says %lld",
               table_text(name), place, (long long)lent_word(&settlement, name, place), (long long)due[place]);
}

/* E with a second list, 100 and 200, word by word: prices stand by box, offer and list, totals by place and list. */

struct words {
    struct step step; /* the request that led there; of kind 0: none */
    int64_t known[8], price_transit[8], working[6], total_transit[6], statement[4], sent;
};

#define FRESH {500, 100, 0, 0, 0, 0, 1250, 200}
#define BOX_0_KNOWS {500, 100, 1250, 200, 0, 0, 1250, 200}
#define BOTH_KNOW {500, 100, 1250, 200, 500, 100, 1250, 200}

static const struct words by_kind[] = {
    {{0, 0, 0}, FRESH, {0}, {0}, {0}, {0}, 0},
    {{1, 0, 1}, FRESH, {0, 0, 0, 0, 500, 100}, {0}, {0}, {0}, 2},
    {{1, 1, 0}, FRESH, {0, 0, 1250, 200, 500, 100}, {0}, {0}, {0}, 4},
    {{2, 0, 0}, FRESH, {0, 0, 1250, 200, 500, 100}, {0, 0, 1500, 300}, {0}, {0}, 4},
    {{2, 1, 1}, FRESH, {0, 0, 1250, 200, 500, 100}, {0, 0, 1500, 300, -1250, -200}, {0}, {0}, 4},
    {{3, 0, 1}, BOX_0_KNOWS, {0, 0, 0, 0, 500, 100}, {2500, 400, 1500, 300, -1250, -200}, {0}, {0}, 4},
    {{3, 1, 0}, BOTH_KNOW, {0}, {2500, 400, 1500, 300, 750, 200}, {0}, {0}, 4},
    {{4, 0, 1}, BOTH_KNOW, {0}, {2500, 400, 0, 0, 750, 200}, {0, 0, 1500, 300}, {0}, 6},
    {{5, 0, 0}, BOTH_KNOW, {0}, {0, 0, 0, 0, 750, 200}, {0, 0, 1500, 300}, {0, 0, 2500, 400}, 6},
    {{5, 1, 1}, BOTH_KNOW, {0}, {0}, {0, 0, 1500, 300}, {750, 200, 2500, 400}, 6},
    {{6, 1, 0}, BOTH_KNOW, {0}, {0}, {0}, {2250, 500, 2500, 400}, 6},
};
enum { BY_KIND = sizeof by_kind / sizeof by_kind[0] };

static void expect_words(const struct words *words)
{
    expect_table(KNOWN, words->known, 8);
    expect_table(PRICE_TRANSIT, words->price_transit, 8);
    expect_table(WORKING, words->working, 6);
    expect_table(TOTAL_TRANSIT, words->total_transit, 6);
    expect_table(STATEMENT, words->statement, 4);
    expect_table(SENT, &words->sent, 1);
}

static void sample_by_steps(void)
{
    sample_with_lists(&settlement.job, 1);
    open_settlement(&settlement, SPARE, 0);
    at_case("E with a second list");
    expect_table(PRICE, (const int64_t[]){500, 1250, 100, 200}, 4);
    for (size_t i = 0; i < BY_KIND; i++) {
        struct step step = by_kind[i].step;
        at_case("E with a second list, step %u of %u and %u", step.kind, step.first, step.second);
        if (step.kind) expect(ask(&settlement, step) == 0, "the step was refused");
        expect_words(&by_kind[i]);
        if (step.kind) expect(ask(&settlement, step) == 25, "the step repeated was not refused with 25");
    }
    expect(ask(&settlement, (struct step){4, 1, 0}) == 24, "an empty message was not refused with 24");
    close_settlement(&settlement);
}

static void sample_by_runs(void)
{
    static const int64_t places[] = {1, 2, 4, 7, 9, 10, 13, 16, 19, 22};
    for (uint16_t lists = 0; lists <= MOST_LISTS; lists++) {
        sample_with_lists(&settlement.job, lists);
        open_settlement(&settlement, SPARE, 0);
        lend_whole(&settlement.lending);
        at_case("E with %u lists more", lists);
        expect_run(settlement.job.sizes, 0);
        expect_table(REPORT, (const int64_t[]){3 * (lists + 1), 3, 10}, 3);
        expect_table(PICKED, places, 10);
        for (uint16_t q = 0; q <= lists; q++) {
            expect(lent_on(&settlement, STATEMENT, 0, q) == (q ? 500 - 13 * (q - 1) : 2250), "grocer 0, list %u", q);
            expect(lent_on(&settlement, STATEMENT, 1, q) == (q ? 400 + 40 * (q - 1) : 2500), "grocer 1, list %u", q);
        }
        if (lists == 1) expect_words(&by_kind[BY_KIND - 1]);
        close_settlement(&settlement);
    }
}

/* Each list as if it were alone */

static struct settlement alone[MOST_WIDTH]; /* a state of the library's own for each list */

static void open_alone(size_t choices)
{
    for (size_t q = 0; q <= settlement.job.sizes.lists; q++) {
        take_list(&alone[q].job, &settlement.job, q);
        open_settlement(&alone[q], SPARE, choices);
    }
}

static void close_alone(void)
{
    for (size_t q = 0; q <= settlement.job.sizes.lists; q++) close_settlement(&alone[q]);
}

/* The words of a list in a table that has L words an entry, and those of the list alone. */
static bool same_words(enum table_name name, size_t list)
{
    for (size_t entry = 0; entry < words_needed(&alone[list], name); entry++) {
        int64_t word = lent_on(&settlement, name, entry, list), due = lent_word(&alone[list], name, entry);
        if (word == due) continue;
        return expect(false, "%s of entry %zu on list %zu is %lld, alone %lld", table_text(name), entry, list,
                      (long long)word, (long long)due);
    }
    return true;
}

static void expect_as_alone(void)
{
    size_t width = width_of_entry(settlement.job.sizes);
    for (size_t q = 0; q < width; q++) {
        bool same = true;
        for (unsigned name = KNOWN; name <= STATEMENT; name++) same &= same_words(name, q);
        for (size_t place = 0; place < needed(DONE, settlement.job.sizes); place++)
            same &= lent_word(&settlement, DONE, place) == lent_word(&alone[q], DONE, place);
        expect(same, "list %zu is not as it is alone", q);
        expect(lent_word(&settlement, SENT, 0) == (int64_t)width * lent_word(&alone[q], SENT, 0),
               "words sent are not %zu times those of list %zu alone", width, q);
    }
}

static void ask_all(struct step step)
{
    uint16_t answer = ask(&settlement, step);
    for (size_t q = 0; q <= settlement.job.sizes.lists; q++) {
        uint16_t due = ask(&alone[q], step);
        expect(answer == due, "step %u of %u and %u answered %u, list %zu alone %u", step.kind, step.first,
               step.second, answer, q, due);
    }
    expect_as_alone();
}

static struct step random_request(void)
{
    uint16_t boxes = settlement.job.sizes.boxes, first = (uint16_t)below(boxes), second = (uint16_t)below(boxes);
    if (!one_in(3)) return some_ready_step(&settlement);
    if (one_in(8)) return (struct step){wild_number(6), wild_number(boxes), wild_number(boxes)};
    return (struct step){(uint16_t)(1 + below(6)), first, one_in(2) ? first : second};
}

/* A job with so many lists more, settled by steps in some order, with requests that are refused between. */
static void settle_with_alone(struct sizes sizes)
{
    struct step ready[MOST_STEPS];
    random_job(&settlement.job, sizes);
    open_settlement(&settlement, SPARE, 0);
    open_alone(0);
    expect_as_alone();
    while (ready_steps(&settlement.machine, ready) > 0) ask_all(random_request());
    expect_plain_sums(&settlement);
    close_alone();
    close_settlement(&settlement);
}

static struct sizes sizes_with_lists(struct sizes most, uint16_t lists)
{
    struct sizes sizes = sizes_with_tallies(most);
    sizes.lists = lists;
    return sizes;
}

static void steps_as_alone(void)
{
    for (unsigned long i = 0; i < job_count / 4 + 16; i++) {
        at_case("lists and each alone, job %lu", i);
        settle_with_alone(sizes_with_lists(i % 8 < 6 ? TINY : i % 64 < 60 ? SMALL : MEDIUM, i % MOST_WIDTH));
    }
}

static void largest_as_alone(void)
{
    struct sizes sizes = {4, 255, 500, 1000, MOST_LISTS};
    at_case("lists and each alone, a large job");
    settle_with_alone(sizes);
}

/* A run with some choices, and the run of each list alone with the same. */
static void run_with_alone(struct sizes sizes)
{
    size_t choices = below(60), width = width_of_entry(sizes);
    static struct picks order;
    random_job(&settlement.job, sizes);
    open_settlement(&settlement, SPARE, choices);
    open_alone(choices);
    for (size_t i = 0; i < choices; i++) {
        uint16_t choice = (uint16_t)random_word();
        put_both(&settlement.lending, CHOICES, i, choice);
        for (size_t q = 0; q < width; q++) put_both(&alone[q].lending, CHOICES, i, choice);
    }
    lend_whole(&settlement.lending);
    expect_run(sizes, 0);
    for (size_t q = 0; q < width; q++) {
        lend_whole(&alone[q].lending);
        expect(ask_run(&alone[q], alone[q].job.sizes, &order) == 0, "the run of list %zu alone was refused", q);
        expect(lent_word(&settlement, REPORT, 0) == (int64_t)width * lent_word(&alone[q], REPORT, 0),
               "words of the run are not %zu times those of list %zu alone", width, q);
        for (size_t i = 1; i < 3; i++)
            expect(lent_word(&settlement, REPORT, i) == lent_word(&alone[q], REPORT, i), "report[%zu] differs", i);
        for (size_t i = 0; i < picks.length; i++)
            expect(lent_word(&settlement, PICKED, i) == lent_word(&alone[q], PICKED, i), "picked[%zu] differs", i);
    }
    expect_as_alone();
    close_alone();
    close_settlement(&settlement);
}

static void runs_as_alone(void)
{
    for (unsigned long i = 0; i < job_count / 4 + 16; i++) {
        at_case("a run with lists and with each alone, job %lu", i);
        run_with_alone(sizes_with_lists(i % 8 < 6 ? TINY : i % 64 < 60 ? SMALL : MEDIUM, i % MOST_WIDTH));
    }
    at_case("a run of a largest job with lists and with each alone");
    run_with_alone(LARGEST);
}

/* Short tables and words out of range */

static const uint16_t some_lists[] = {0, 1, MOST_LISTS};
enum { SOME_LISTS = sizeof some_lists / sizeof some_lists[0] };

/* A table one word below what it needs; and with the words of one list less. */
static void try_short(enum table_name name)
{
    struct sizes sizes = settlement.job.sizes;
    size_t need = words_needed(&settlement, name), width = width_of_entry(sizes);
    size_t lengths[] = {need - 1, need - need / width};
    bool by_lists = is_packed(name) || name == PRICE || name == KNOWN || name == PRICE_TRANSIT || name == STATEMENT;
    for (size_t i = 0; i < 1u + (by_lists && width > 1); i++) {
        at_case("%u lists more, %s of %zu words", sizes.lists, table_text(name), lengths[i]);
        settlement.lending.lend[name] = lengths[i];
        expect_step(&settlement, (struct step){2, 0, 0}, 20);
        expect_run(sizes, 20);
        lend_whole(&settlement.lending);
    }
    at_case("%u lists more, %s of %zu words, all needed", sizes.lists, table_text(name), need);
    settlement.lending.lend[name] = need;
    expect_step(&settlement, (struct step){2, 0, 0}, 0);
    lend_state(&settlement);
    expect_run(sizes, 0);
    lend_state(&settlement);
    lend_whole(&settlement.lending);
}

static void short_tables(void)
{
    for (unsigned long i = 0; i < SOME_LISTS * (2 + job_count / 500); i++) {
        random_job(&settlement.job, sizes_with_lists(i < SOME_LISTS ? TINY : SMALL, some_lists[i % SOME_LISTS]));
        open_settlement(&settlement, SPARE, 0);
        for (unsigned name = 0; name < STEP_TABLES; name++) try_short(name);
        close_settlement(&settlement);
    }
}

/* Each word of E beyond its range, of whatever list it is: 21 of a step, and of a run where it is of the job. */
static void each_word(void)
{
    for (size_t l = 0; l < SOME_LISTS; l++) {
        sample_with_lists(&settlement.job, some_lists[l]);
        open_settlement(&settlement, SPARE, 0);
        for (unsigned name = 0; name < STEP_TABLES; name++) {
            for (size_t place = 0; has_range(name) && place < words_needed(&settlement, name); place++) {
                int64_t kept = word_at(settlement.lending.twin[name], place);
                at_case("%u lists more, %s[%zu] beyond its range", some_lists[l], table_text(name), place);
                put_both(&settlement.lending, name, place, range_of(name, settlement.job.sizes).most + 1);
                expect_step(&settlement, (struct step){2, 0, 0}, 21);
                expect_run(settlement.job.sizes, name < JOB_TABLES ? 21 : 0);
                put_both(&settlement.lending, name, place, kept);
                lend_state(&settlement);
            }
        }
        close_settlement(&settlement);
    }
}

/* Numbers of lists */

/* E in tables that are long enough for so many lists more, all prices on them 1, with a state of zeros and packed tables
   of so many words. */
static void open_room(uint16_t lists, size_t packed)
{
    size_t lengths[ALL_TABLES] = {0};
    sample_job(&settlement.job);
    for (unsigned name = 0; name < STEP_TABLES; name++)
        lengths[name] = is_packed(name) ? packed : needed(name, (struct sizes){2, 2, 2, 4, lists});
    lengths[REPORT] = 3;
    lengths[PICKED] = 10;
    open_lending(&settlement.lending, lengths);
    for (unsigned name = JOB_TABLES; name < STEP_TABLES; name++)
        for (size_t place = 0; place < lengths[name]; place++) put_both(&settlement.lending, name, place, 0);
    for (size_t place = 0; place < lengths[PRICE]; place++) put_both(&settlement.lending, PRICE, place, 1);
    write_job_words(&settlement.job, settlement.lending.twin);
    copy_twins(&settlement.lending);
}

static void numbers_of_lists(void)
{
    static const struct {
        uint16_t room, lists; /* the lists more that there is room for, and those given */
        size_t packed;
        uint16_t step, run;
    } tried[] = {
        {7, 7, 24, 0, 0},      {7, 7, 23, 20, 20},  {7, 7, 0, 20, 20},     {7, 0, 3, 0, 0},
        {7, 1, 6, 0, 0},       {7, 1, 5, 20, 20},   {7, 8, 100, 20, 20},   {7, 65535, 100, 20, 20},
        {8, 8, 100, 21, 21},   {8, 8, 0, 21, 21},   {8, 7, 24, 0, 0},      {255, 255, 900, 21, 21},
        {255, 256, 0, 20, 20}, {256, 256, 0, 21, 21}, {65534, 65535, 0, 20, 20}, {65535, 65535, 0, 21, 21},
    };
    for (size_t i = 0; i < sizeof tried / sizeof tried[0]; i++) {
        struct sizes sizes = {2, 2, 2, 4, tried[i].lists};
        at_case("E with %u lists more, room for %u, %zu packed words", tried[i].lists, tried[i].room, tried[i].packed);
        open_room(tried[i].room, tried[i].packed);
        expect(ask_on_words(&settlement, sizes, (struct step){2, 0, 0}) == tried[i].step, "the step, the case says %u",
               tried[i].step);
        expect_run(sizes, tried[i].run);
        close_settlement(&settlement);
    }
}

/* Files */

/* Numbers of offers that fill a block of 126 prices, or just do not, and the blocks of a list. */
static void files_of_lists(void)
{
    static const uint16_t offers[] = {1, 125, 126, 127, 251, 252, 253, 378, 379, 499, 500};
    static const size_t blocks[] = {1, 1, 1, 2, 2, 2, 3, 3, 4, 4, 4};
    static uint8_t file[MOST_FILE];
    open_reading(&settlement.lending, SPARE, MOST_FILE);
    for (size_t i = 0; i < sizeof offers / sizeof offers[0]; i++)
        for (uint16_t lists = 0; lists <= MOST_LISTS; lists++) {
            struct sizes sizes = {2, 2, offers[i], 3, lists};
            at_case("%u offers, %u lists more", offers[i], lists);
            random_job(&settlement.job, sizes);
            size_t length = write_file(&settlement.job, file);
            expect(length == BLOCK * (3 + (offers[i] + 20) / 21 + lists * blocks[i]), "another number of blocks");
            expect(ask_read(&settlement.lending, file, length) == 0, "the file was refused");
            expect(word_at(settlement.lending.table[SIZES], 5) == lists, "sizes[5] is not %u", lists);
            for (size_t o = 0; o < offers[i]; o++)
                for (size_t q = 0; q <= lists; q++)
                    expect(word_at(settlement.lending.table[PRICE], q * offers[i] + o) ==
                               price_on(&settlement.job, o, q),
                           "the price of offer %zu on list %zu differs", o, q);
        }
    close_lending(&settlement.lending);
}

void check_price_lists(void)
{
    run_group("price lists: E with a second list by steps, word by word", sample_by_steps);
    run_group("price lists: E with each number of lists by runs", sample_by_runs);
    run_group("price lists: after every step each list is as it is alone", steps_as_alone);
    run_last("price lists: a large job, after every step each list is as it is alone", largest_as_alone);
    run_last("price lists: a run leaves each list as its run alone does", runs_as_alone);
    run_group("price lists: each table one word below its need", short_tables);
    run_group("price lists: each word of each list beyond its range", each_word);
    run_group("price lists: 7, 8 and more lists", numbers_of_lists);
    run_group("price lists: files of all numbers of lists and blocks", files_of_lists);
}
