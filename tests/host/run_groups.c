/* The run: its refusals, its choices, the steps it picks, its report, and a list of steps that ends alike. */
#include "groups.h"
#include "settling.h"

static struct settlement settlement;
static struct picks picks;

/* A run of the job with these many choices; the state's buffers and that of the steps picked hold anything before. */
static void open_run(size_t choices) { open_settlement(&settlement, SPARE, choices); }

static void scramble(enum table_name name, size_t words)
{
    for (size_t place = 0; place < words; place++) put_both(&settlement.lending, name, place, (int64_t)random_word());
}

static void scramble_state(void)
{
    for (unsigned name = JOB_TABLES; name < STEP_TABLES; name++) scramble(name, words_needed(&settlement, name));
}

static void expect_run(uint16_t due)
{
    uint16_t answer = ask_run(&settlement, settlement.job.sizes, &picks);
    expect(answer == due, "run answered %u, the specification says %u", answer, due);
}

static void expect_report(uint32_t words, uint32_t messages, uint32_t steps)
{
    uint32_t due[] = {words, messages, steps};
    for (size_t i = 0; i < 3; i++)
        expect(lent_word(&settlement, REPORT, i) == due[i], "report[%zu] is %lld, should be %u", i,
               (long long)lent_word(&settlement, REPORT, i), due[i]);
}

/* The cases of the specification */

static void run_case(const char *what, uint32_t words, uint32_t messages, uint32_t steps)
{
    at_case("%s", what);
    open_run(0);
    scramble_state();
    expect_run(0);
    expect_report(words, messages, steps);
    expect_plain_sums(&settlement);
}

static void expect_statement(uint16_t grocer, int64_t amount)
{
    expect(lent_word(&settlement, STATEMENT, grocer) == amount, "statement %u is %lld, should be %lld", grocer,
           (long long)lent_word(&settlement, STATEMENT, grocer), (long long)amount);
}

static void one_tally_case(const char *what, uint16_t tallies, uint32_t price, int32_t count, int64_t amount)
{
    one_tally_job(&settlement.job, (struct sizes){2, 1, 1, tallies, 0}, price, (struct tally){.box = 1, .count = count});
    run_case(what, 1, 1, 6);
    expect_statement(0, amount);
    close_settlement(&settlement);
}

static void cases(void)
{
    sample_job(&settlement.job);
    run_case("E", 3, 3, 10);
    expect_statement(0, 2250);
    expect_statement(1, 2500);
    close_settlement(&settlement);
    for (uint16_t boxes = 1; boxes <= MOST_BOXES; boxes++) {
        one_tally_job(&settlement.job, (struct sizes){boxes, 3, 3, 0, 0}, 1, (struct tally){0});
        run_case("no tallies", 0, 0, 2u * boxes);
        close_settlement(&settlement);
    }
    one_tally_case("one tally", 1, 30, 5, 150);
    one_tally_case("the same tally twice", 2, 30, 5, 300);
    one_tally_case("a tally of count 0", 1, 30, 0, 0);
    one_tally_case("largest amount", 1, MOST_PRICE, MOST_COUNT, INT64_C(999989900001));
    one_tally_case("largest negative amount", 1, MOST_PRICE, -MOST_COUNT, INT64_C(-999989900001));
    one_tally_case("1,000 times the largest amount", 1000, MOST_PRICE, MOST_COUNT, INT64_C(999989900001000));
}

/* Refusals */

static void refused_run(enum table_name name, size_t lend)
{
    at_case("%s of %zu words", table_text(name), lend);
    settlement.lending.lend[name] = lend;
    expect_run(20);
    lend_whole(&settlement.lending);
}

static void short_buffers(void)
{
    for (unsigned long round = 0; round < 10 + job_count / 100; round++) {
        struct sizes sizes = sizes_with_tallies(round % 4 ? TINY : MEDIUM);
        random_job(&settlement.job, sizes);
        open_run(below(5));
        scramble_state();
        for (unsigned name = 0; name < ALL_TABLES; name++) {
            size_t need = words_needed(&settlement, name);
            if (need == 0 || (name >= STEP_TABLES && name != REPORT)) continue;
            refused_run(name, need - 1);
            refused_run(name, 0);
            refused_run(name, below((uint32_t)need));
        }
        for (unsigned name = 0; name < ALL_TABLES; name++)
            if (settlement.lending.lend[name] > 0 && name != CHOICES && name != PICKED)
                settlement.lending.lend[name] = words_needed(&settlement, name);
        at_case("every buffer just long enough");
        expect_run(0);
        close_settlement(&settlement);
    }
}

/* A word of the job out of range, alone and with a short buffer. */
static void out_of_range(enum table_name name, size_t place, int64_t word)
{
    int64_t kept = word_at(settlement.lending.twin[name], place);
    at_case("%s[%zu] = %lld", table_text(name), place, (long long)word);
    put_both(&settlement.lending, name, place, word);
    expect_run(21);
    refused_run(REPORT, 2);
    refused_run(SENT, 0);
    put_both(&settlement.lending, name, place, kept);
}

static void words_out_of_range(void)
{
    for (unsigned long round = 0; round < 10 + job_count / 100; round++) {
        struct sizes sizes = sizes_with_tallies(round % 4 ? TINY : MEDIUM);
        random_job(&settlement.job, sizes);
        open_run(0);
        scramble_state();
        for (unsigned name = 0; name < JOB_TABLES; name++) {
            if (!has_range(name)) continue;
            size_t places[] = {0, needed(name, sizes) - 1, below((uint32_t)needed(name, sizes))};
            for (unsigned i = 0; i < 3; i++) {
                out_of_range(name, places[i], range_of(name, sizes).most + 1);
                if (is_signed(name)) out_of_range(name, places[i], range_of(name, sizes).least - 1);
            }
        }
        at_case("every word put back");
        expect_run(0);
        close_settlement(&settlement);
    }
}

static void expect_for_sizes(const struct sizes tried[], size_t count, uint16_t due)
{
    for (size_t i = 0; i < count; i++) {
        settlement.job.sizes = tried[i];
        at_case("K %u, M %u, N %u, T %u, lists %u", tried[i].boxes, tried[i].grocers, tried[i].offers, tried[i].tallies,
                tried[i].lists);
        expect_run(due);
    }
}

static void sizes_out_of_range(void)
{
    static const struct sizes none[] = {{0, 2, 2, 4, 0}, {2, 0, 2, 4, 0}, {2, 2, 0, 4, 0}, {0, 0, 0, 0, 0}};
    static const struct sizes more[] = {{17, 2, 2, 4, 0},   {2, 256, 2, 4, 0},   {2, 2, 501, 4, 0},
                                        {2, 2, 2, 1001, 0}, {16, 2, 4096, 4, 0}, {65535, 65535, 65535, 65535, 0},
                                        {2, 2, 2, 4, 8},    {2, 2, 2, 4, 65535}};
    sample_job(&settlement.job);
    open_run(3);
    expect_for_sizes(none, 4, 21);
    expect_for_sizes(more, sizeof more / sizeof more[0], 20);
    close_settlement(&settlement);
}

/* Choices, and the steps that they pick */

static size_t random_choice_count(void)
{
    switch (below(4)) {
    case 0: return 0;
    case 1: return below(6);
    case 2: return below(200);
    default: return 1500;
    }
}

static void random_choices(void)
{
    uint32_t manner = below(4);
    for (size_t i = 0; i < settlement.lending.table[CHOICES].length; i++) {
        uint16_t choice = manner == 0 ? 65535 : manner == 1 ? (uint16_t)below(8) : (uint16_t)random_word();
        put_both(&settlement.lending, CHOICES, i, choice);
    }
}

/* No length of the buffer is refused: the places stand in front, as far as it reaches, and the words behind stay. A
   refused run leaves all of them. */
static void try_length(size_t length)
{
    at_case("%zu steps, picked of %zu words", steps_of_job(&settlement), length);
    settlement.lending.lend[PICKED] = length;
    scramble(PICKED, settlement.lending.table[PICKED].length);
    expect_run(0);
    scramble(PICKED, settlement.lending.table[PICKED].length);
    settlement.lending.lend[REPORT] = 2;
    expect_run(20);
    settlement.lending.lend[REPORT] = 3;
    put_both(&settlement.lending, OFFER_OWNER, 0, settlement.job.sizes.boxes);
    expect_run(21);
    put_both(&settlement.lending, OFFER_OWNER, 0, settlement.job.offer[0].owner);
}

static void lengths_of_picked(void)
{
    for (unsigned long round = 0; round < 10 + job_count / 20; round++) {
        random_job(&settlement.job, random_sizes(round % 4 ? TINY : round % 16 ? SMALL : MEDIUM));
        open_run(random_choice_count());
        random_choices();
        size_t steps = steps_of_job(&settlement);
        size_t lengths[] = {0, 1, below((uint32_t)steps), steps - 1, steps, steps + 1, steps + SPARE};
        for (size_t i = 0; i < sizeof lengths / sizeof lengths[0]; i++) try_length(lengths[i]);
        close_settlement(&settlement);
    }
}

/* Random runs */

/* The steps that the library says it picked, asked one by one from a fresh state, leave the words that the run left. */
static void list_ends_alike(void)
{
    start_fresh(&settlement.machine, &settlement.job);
    lend_state(&settlement);
    for (size_t i = 0; i < picks.length; i++)
        expect(ask(&settlement, picked_step(&settlement, i)) == 0, "the run's step %zu was refused in the list", i);
    expect_plain_sums(&settlement);
    expect(lent_word(&settlement, SENT, 0) == lent_word(&settlement, REPORT, 0),
           "words sent in the list and the run's report differ");
    expect(picks.length == (size_t)lent_word(&settlement, REPORT, 2), "steps in the list and the run's report differ");
}

static void try_run(struct sizes sizes, bool as_list)
{
    random_job(&settlement.job, sizes);
    open_run(random_choice_count());
    scramble_state();
    random_choices();
    if (as_list) lend_whole(&settlement.lending);
    expect_run(0);
    expect_plain_sums(&settlement);
    expect_report(words_of_job(&settlement.job), (uint32_t)(picks.length / 2 - sizes.boxes), (uint32_t)picks.length);
    if (as_list) list_ends_alike();
    close_settlement(&settlement);
}

static void random_runs(void)
{
    for (unsigned long i = 0; i < job_count; i++) {
        at_case("run %lu", i);
        try_run(random_sizes(i % 4 ? TINY : i % 16 ? SMALL : MEDIUM), i % 3 == 0);
    }
}

static void largest_runs(void)
{
    for (unsigned long i = 0; i < job_count / 200 + 1; i++) {
        at_case("largest run %lu", i);
        try_run(LARGEST, i == 0);
    }
}

/* The job's file read into the tables of the largest job, and the run on those very tables. */
static void open_for_files(void)
{
    size_t lengths[ALL_TABLES];
    for (unsigned name = 0; name < ALL_TABLES; name++) lengths[name] = enough(name, LARGEST);
    lengths[FILE_BYTES] = MOST_FILE;
    lengths[PICKED] = MOST_STEPS;
    open_lending(&settlement.lending, lengths);
}

static void read_and_run(void)
{
    static uint8_t file[MOST_FILE];
    expect(ask_read(&settlement.lending, file, write_file(&settlement.job, file)) == 0, "the file was refused");
    struct sizes read = {(uint16_t)lent_word(&settlement, SIZES, 0), (uint16_t)lent_word(&settlement, SIZES, 1),
                         (uint16_t)lent_word(&settlement, SIZES, 2), (uint16_t)lent_word(&settlement, SIZES, 3),
                         (uint16_t)lent_word(&settlement, SIZES, 5)};
    expect(ask_run(&settlement, read, &picks) == 0, "the run was refused");
    expect_plain_sums(&settlement);
}

static void from_file_to_statements(void)
{
    open_for_files();
    for (unsigned long i = 0; i < 10 + job_count / 20; i++) {
        at_case("file %lu", i);
        random_job(&settlement.job, random_sizes(i % 8 ? SMALL : LARGEST));
        read_and_run();
    }
    close_settlement(&settlement);
}

/* Each accepted case of issuers: 3 of the first tally's offer and -7 of the second's, at 1,250 or 399 each. */
static void issuers_to_statements(void)
{
    open_for_files();
    for (const struct named *c = named; c->what; c++) {
        if (c->due) continue;
        at_case("%s", c->what);
        named_job(&settlement.job, c);
        read_and_run();
        int64_t first = c->places[0] ? 1197 : 3750, second = c->places[1] ? -2793 : -8750;
        expect(lent_word(&settlement, STATEMENT, 0) == first, "grocer 0 is not owed %lld", (long long)first);
        expect(lent_word(&settlement, STATEMENT, 1) == second, "grocer 1 is not owed %lld", (long long)second);
    }
    close_settlement(&settlement);
}

/* Buffers that nothing was written to, of the state and of the steps picked: a memory checker sees a run that looks at
   them. */
static void blank_state(void)
{
    bool exactly = lend_exactly;
    lend_exactly = true;
    for (unsigned long i = 0; i < 20; i++) {
        at_case("blank state %lu", i);
        random_job(&settlement.job, random_sizes(i % 4 ? TINY : SMALL));
        open_settlement(&settlement, 0, random_choice_count());
        random_choices();
        settlement.lending.blank = true;
        expect_run(0);
        expect_plain_sums(&settlement);
        close_settlement(&settlement);
    }
    lend_exactly = exactly;
}

void check_run(void)
{
    run_group("run: the cases of the specification", cases);
    run_group("run: each buffer short", short_buffers);
    run_group("run: each table of the job with a word beyond its range", words_out_of_range);
    run_group("run: K, M, N, T and lists out of range", sizes_out_of_range);
    run_group("run: the steps picked, in a buffer of any length", lengths_of_picked);
    run_group("run: random runs, and lists of the steps picked that end alike", random_runs);
    run_last("run: the largest jobs", largest_runs);
    run_group("run: from a file to its statements", from_file_to_statements);
    run_group("run: one number under two issuers, from the file to the statements", issuers_to_statements);
    run_group("run: what its buffers held is not looked at", blank_state);
}
