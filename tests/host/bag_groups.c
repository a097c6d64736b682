/* Bags: which tallies stand, 9 and its place among the refusals, and that the order of tallies does not matter. */
#include <string.h>

#include "groups.h"
#include "settling.h"

static struct settlement settlement;
static struct picks picks;

static void expect_run(uint16_t due)
{
    uint16_t answer = ask_run(&settlement, settlement.job.sizes, &picks);
    expect(answer == due, "run answered %u, the case says %u", answer, due);
}

static void expect_word(enum table_name name, size_t place, int64_t due)
{
    int64_t word = lent_word(&settlement, name, place);
    expect(word == due, "%s[%zu] is %lld, the case says %lld", table_text(name), place, (long long)word,
           (long long)due);
}

/* The words of one list, and the messages. */
static void expect_report(uint32_t words, uint32_t messages)
{
    expect_word(REPORT, 0, words * (int64_t)width_of_entry(settlement.job.sizes));
    expect_word(REPORT, 1, messages);
    expect_word(REPORT, 2, 2 * (settlement.job.sizes.boxes + messages));
}

/* Cases with results that are known without the model, in every order of their tallies */

static size_t orders_of(size_t tallies) { return tallies < 2 ? 1 : tallies * orders_of(tallies - 1); }

/* A case with its tallies in the order of this number, and now and then with lists more. */
static void open_case(const struct bagged *c, size_t order, void (*open)(void))
{
    struct job *job = &settlement.job;
    bagged_job(job, c);
    for (size_t left = job->sizes.tallies, rest = order; left > 1; rest /= left--) {
        struct tally *one = &job->tally[left - 1], *other = &job->tally[rest % left], kept = *one;
        *one = *other;
        *other = kept;
    }
    give_lists(job, (uint16_t)(order % 3));
    at_case("%s, order %zu", c->what, order);
    open();
}

static void in_every_order(void (*open)(void), void (*check)(const struct bagged *c))
{
    for (const struct bagged *c = bagged; c->what; c++) {
        bagged_job(&settlement.job, c);
        for (size_t order = 0, orders = orders_of(settlement.job.sizes.tallies); order < orders; order++) {
            open_case(c, order, open);
            check(c);
            close_settlement(&settlement);
        }
    }
}

static void open_tables(void) { open_settlement(&settlement, SPARE, 0); }

/* Tables of the largest job, the file, and a few words for the steps picked. */
static void open_files(void)
{
    size_t lengths[ALL_TABLES];
    for (unsigned name = 0; name < ALL_TABLES; name++) lengths[name] = enough(name, LARGEST);
    lengths[FILE_BYTES] = MOST_FILE;
    lengths[PICKED] = 8;
    open_lending(&settlement.lending, lengths);
}

static void expect_owed(const struct bagged *c)
{
    for (size_t g = 0; g < 2; g++) expect_word(STATEMENT, word_place(&settlement, g, 0), c->owed[g]);
    expect_plain_sums(&settlement);
}

/* The model itself: which tallies stand, in the order in which the case has them. */
static void model_of_cases(void)
{
    for (const struct bagged *c = bagged; c->what; c++) {
        struct job *job = &settlement.job;
        at_case("%s", c->what);
        bagged_job(job, c);
        expect(counted_twice(job->tally, job->sizes.tallies) == !c->standing, "9 differs");
        if (!c->standing) continue;
        expect(strlen(c->standing) == job->sizes.tallies, "the case has another number of tallies");
        for (size_t t = 0; t < job->sizes.tallies; t++)
            expect(stands(job->tally, job->sizes.tallies, t) == (c->standing[t] == '1'), "tally %zu differs", t);
    }
}

static void run_case(const struct bagged *c)
{
    expect_run(c->standing ? 0 : 9);
    if (!c->standing) return;
    expect_owed(c);
    expect_report(c->words, c->messages);
}

static void cases_by_run(void) { in_every_order(open_tables, run_case); }

/* Reads the job's file, whose tallies must all be in the tables, and runs what was read. */
static uint16_t read_job(void)
{
    static uint8_t file[MOST_FILE];
    return ask_read(&settlement.lending, file, write_file(&settlement.job, file));
}

static void file_case(const struct bagged *c)
{
    uint16_t answer = read_job();
    expect(answer == (c->standing ? 0 : 9), "the reader answered %u", answer);
    if (!c->standing) return;
    for (size_t t = 0; t < settlement.job.sizes.tallies; t++) {
        expect_word(TALLY_COUNT, t, settlement.job.tally[t].count);
        expect_word(TALLY_BAG, t, settlement.job.tally[t].bag);
        expect_word(TALLY_REVISION, t, settlement.job.tally[t].revision);
    }
    run_case(c);
}

static void cases_from_files(void) { in_every_order(open_files, file_case); }

/* Every request once, after the end: how many were answered 24. */
static uint32_t empty_messages(void)
{
    uint32_t empty = 0;
    for (uint16_t kind = 1; kind < KINDS; kind++)
        for (uint16_t first = 0; first < 3; first++)
            for (uint16_t second = 0; second < 3; second++) {
                uint16_t answer = ask(&settlement, (struct step){kind, first, second});
                expect(answer == 23 || answer == 24 || answer == 25, "after the end a step is answered %u", answer);
                empty += answer == 24;
            }
    return empty;
}

/* Some requests, whatever they ask for: 9. */
static void always_counted_twice(void)
{
    for (uint16_t kind = 0; kind <= KINDS; kind++)
        for (uint16_t first = 0; first < 4; first++) {
            struct step step = {kind, first, (uint16_t)below(4)};
            uint16_t answer = ask(&settlement, step);
            expect(answer == 9, "step %u of %u and %u answered %u, not 9", kind, first, step.second, answer);
        }
}

/* Steps in a random order. */
static void step_case(const struct bagged *c)
{
    struct step ready[MOST_STEPS];
    size_t length, steps = 0;
    if (!c->standing) {
        always_counted_twice();
        return;
    }
    while ((length = ready_steps(&settlement.machine, ready)) > 0 && steps <= MOST_STEPS) {
        expect(ask(&settlement, ready[below((uint32_t)length)]) == 0, "a ready step was refused");
        steps++;
    }
    expect(steps == 2 * (3 + c->messages), "%zu steps were made", steps);
    expect_owed(c);
    expect_word(SENT, 0, c->words * (int64_t)width_of_entry(settlement.job.sizes));
    expect(empty_messages() == 24 - 2 * c->messages, "another number of messages is empty");
}

static void cases_by_steps(void) { in_every_order(open_tables, step_case); }

/* One bag in two boxes: before the recount the first box needs the price and has a part total, and the owner of offer
   and grocer has no tally to wait for; after it the price is not sent, the total not due, no step about them is there,
   and the owner's totals wait for its own tally. */
static void first_box_loses(void)
{
    static const struct step messages[] = {{6, 0, 1}, {4, 1, 0}, {3, 1, 0}, {1, 0, 1}};
    for (unsigned recounts = 0; recounts < 2; recounts++) {
        at_case("%u recounts", recounts);
        bagged_job(&settlement.job, &bagged[1]);
        settlement.job.sizes.tallies = (uint16_t)(1 + recounts);
        open_settlement(&settlement, SPARE, 0);
        for (size_t i = 0; i < 4; i++) expect_step(&settlement, messages[i], recounts ? 24 : i == 3 ? 0 : 26);
        expect_step(&settlement, (struct step){2, 1, 1}, 0);
        expect_step(&settlement, (struct step){5, 0, 0}, recounts ? 26 : 0);
        expect_step(&settlement, (struct step){5, 1, 1}, 0);
        expect_word(KNOWN, 3, 0);
        expect_word(PRICE_TRANSIT, 3, recounts ? 0 : 1000);
        expect_word(SENT, 0, recounts ? 0 : 1);
        close_settlement(&settlement);
    }
}

/* Many tallies in bags */

/* One revision made another one's: 9 for a run, a step and the reader. */
static void twice_in_all(size_t tally, uint16_t revision)
{
    uint16_t kept = settlement.job.tally[tally].revision;
    put_both(&settlement.lending, TALLY_REVISION, tally, revision);
    expect_run(9);
    expect_step(&settlement, (struct step){2, 0, 0}, 9);
    close_settlement(&settlement);
    settlement.job.tally[tally].revision = revision;
    open_files();
    expect(read_job() == 9, "the reader did not refuse with 9");
    settlement.job.tally[tally].revision = kept;
    expect(read_job() == 0, "the reader refused the file as it was");
}

/* 1,000 counts of one bag: revision 999 is tally 781's, count 281 in box 13. */
static void one_bag(void)
{
    at_case("1,000 counts of one bag");
    one_tally_job(&settlement.job, (struct sizes){16, 1, 1, 1000, 0}, 3, (struct tally){.bag = 5});
    for (size_t t = 0; t < 1000; t++) {
        settlement.job.tally[t].box = (uint16_t)(t % 16);
        settlement.job.tally[t].count = (int32_t)t - 500;
        settlement.job.tally[t].revision = (uint16_t)(t * 379 % 1000);
    }
    open_settlement(&settlement, SPARE, 0);
    expect_step(&settlement, (struct step){1, 0, 13}, 0);
    expect_step(&settlement, (struct step){1, 0, 12}, 24);
    expect_run(0);
    expect_word(STATEMENT, 0, 843);
    expect_report(2, 2);
    expect_plain_sums(&settlement);
    twice_in_all(0, 1);
    close_settlement(&settlement);
}

/* 250 bags of 50 grocers, two numbers of bags, each counted four times: of bag i the count k for which 3 k + i is 3
   modulo 4 stands. */
static void bags_of_several(void)
{
    struct job *job = &settlement.job;
    int64_t owed[50] = {0};
    at_case("250 bags, each counted four times");
    ruled_job(job, LARGEST, (struct rules){{7, 16}, {1, 16}, {4, 50}, {1, 16}, {4, 250}});
    for (size_t o = 0; o < MOST_OFFERS; o++) job->offer[o].price = (uint32_t)o + 1;
    for (uint16_t t = 0; t < MOST_TALLIES; t++) {
        uint16_t bag = t / 4, rank = (uint16_t)((t % 4 * 3 + bag) % 4);
        job->tally[t].box = (uint16_t)((bag + 5 * (t % 4)) % 16);
        job->tally[t].count = t;
        job->tally[t].bag = (uint16_t)(1 + bag % 2);
        job->tally[t].revision = (uint16_t)(16000 * rank + bag);
        if (rank == 3) owed[bag % 50] += (int64_t)t * (bag + 1);
    }
    give_lists(job, MOST_LISTS);
    for (unsigned shuffled = 0; shuffled < 2; shuffled++) {
        open_settlement(&settlement, SPARE, 0);
        expect_run(0);
        for (size_t g = 0; g < MOST_GROCERS; g++)
            expect_word(STATEMENT, word_place(&settlement, g, 0), g < 50 ? owed[g] : 0);
        expect_plain_sums(&settlement);
        if (!shuffled) twice_in_all(1, 0); /* tallies 0 and 1 are of bag 0, of revisions 0 and 48,000 */
        close_settlement(&settlement);
        shuffle_tallies(job);
    }
}

/* The place of 9 in a run */

/* E with tallies 0 and 3, of one grocer and offer, in a bag, of these revisions. */
static void open_bag_in_sample(uint16_t first, uint16_t second)
{
    sample_job(&settlement.job);
    settlement.job.tally[0].bag = settlement.job.tally[3].bag = 500;
    settlement.job.tally[0].revision = first;
    settlement.job.tally[3].revision = second;
    open_settlement(&settlement, SPARE, 0);
}

static void run_in_order(void)
{
    for (unsigned name = 0; name < STEP_TABLES; name++) {
        open_bag_in_sample(8, 8);
        size_t last = words_needed(&settlement, name) - 1;
        at_case("9, and %s short or out of range", table_text(name));
        expect_run(9);
        if (has_range(name)) put_both(&settlement.lending, name, last, range_of(name, settlement.job.sizes).most + 1);
        expect_run(has_range(name) && name < JOB_TABLES ? 21 : 9);
        settlement.lending.lend[name] = last;
        expect_run(is_packed(name) ? 9 : 20);
        lend_whole(&settlement.lending);
        settlement.lending.lend[REPORT] = 2;
        expect_run(20);
        close_settlement(&settlement);
    }
}

/* Words of a superseded tally are held to their ranges like all others. */
static void superseded_words(void)
{
    static const enum table_name tables[] = {TALLY_GROCER, TALLY_BOX, TALLY_OFFER, TALLY_COUNT};
    for (size_t i = 0; i < 4; i++) {
        open_bag_in_sample(1, 2);
        at_case("%s of a superseded tally out of range", table_text(tables[i]));
        expect_run(0);
        lend_state(&settlement);
        put_both(&settlement.lending, tables[i], 0, range_of(tables[i], settlement.job.sizes).most + 1);
        expect_step(&settlement, (struct step){1, 0, 1}, 21);
        expect_step(&settlement, (struct step){9, 9, 9}, 21);
        expect_run(21);
        close_settlement(&settlement);
    }
}

/* A tally behind T is not looked at: neither for 9 nor for what stands. */
static void behind_the_last(void)
{
    for (uint16_t revision = 8; revision < 10; revision++) {
        at_case("E without its last tally, which is of revision %u", revision);
        open_bag_in_sample(8, 7);
        put_both(&settlement.lending, TALLY_REVISION, 3, revision);
        settlement.job.sizes.tallies = 3;
        expect_step(&settlement, (struct step){2, 0, 0}, 0);
        expect_word(WORKING, 1, 1500); /* of grocer 0, which box 0 does not own */
        expect_run(0);
        expect_word(STATEMENT, 0, 250);
        expect_word(STATEMENT, 1, 2500);
        close_settlement(&settlement);
    }
}

/* Random jobs */

/* So few bags and revisions that 9 is often met. */
static void near_bags(void)
{
    for (unsigned long i = 0; i < 2 * job_count; i++) {
        struct job *job = &settlement.job;
        random_job(job, random_sizes(i % 8 ? TINY : SMALL));
        uint32_t revisions = 1 + below(30);
        for (size_t t = 0; t < job->sizes.tallies; t++) {
            job->tally[t].bag = (uint16_t)below(3);
            job->tally[t].revision = (uint16_t)below(revisions);
        }
        at_case("few bags and revisions, job %lu", i);
        open_settlement(&settlement, SPARE, 0);
        ask_on_words(&settlement, job->sizes, some_ready_step(&settlement));
        ask_run(&settlement, job->sizes, &picks);
        close_settlement(&settlement);
        if (i % 4) continue;
        open_files();
        read_job();
        close_settlement(&settlement);
    }
}

/* The run's words sent, messages and steps, the steps that it picked, and every word of its state. */
struct ending {
    int64_t report[3];
    uint16_t picked[MOST_STEPS];
    struct state_words state;
};

static void end_of_run(struct ending *ending, uint16_t choice)
{
    open_settlement(&settlement, SPARE, 50);
    for (size_t i = 0; i < 50; i++) put_both(&settlement.lending, CHOICES, i, (int64_t)(choice * i % 65536));
    lend_whole(&settlement.lending);
    expect_run(0);
    for (size_t i = 0; i < 3; i++) ending->report[i] = lent_word(&settlement, REPORT, i);
    memset(ending->picked, 0, sizeof ending->picked);
    for (size_t i = 0; i < steps_of_job(&settlement); i++)
        ending->picked[i] = (uint16_t)lent_word(&settlement, PICKED, i);
    keep_state(&settlement, &ending->state);
    close_settlement(&settlement);
}

static bool same_ending(const struct ending *one, const struct ending *other)
{
    return memcmp(one->report, other->report, sizeof one->report) == 0 &&
           memcmp(one->picked, other->picked, sizeof one->picked) == 0 && same_state(&one->state, &other->state);
}

/* The tallies in another order: the run with the same choices leaves the same words. */
static void shuffled_tallies(void)
{
    static struct ending before, after;
    for (unsigned long i = 0; i < job_count / 4 + 10; i++) {
        at_case("job %lu and its tallies in another order", i);
        random_old_job(&settlement.job, random_sizes(i % 4 ? TINY : i % 16 ? SMALL : MEDIUM));
        give_bags(&settlement.job);
        uint16_t choice = (uint16_t)random_word();
        end_of_run(&before, choice);
        shuffle_tallies(&settlement.job);
        end_of_run(&after, choice);
        expect(same_ending(&before, &after), "the runs end differently");
    }
}

/* Loose coupons of any revisions: the run ends as where all are 0. */
static void loose_coupons(void)
{
    static struct ending before, after;
    for (unsigned long i = 0; i < job_count / 8 + 10; i++) {
        at_case("job %lu of loose coupons", i);
        random_old_job(&settlement.job, random_sizes(i % 4 ? TINY : SMALL));
        end_of_run(&before, 0);
        for (size_t t = 0; t < settlement.job.sizes.tallies; t++)
            settlement.job.tally[t].revision = wild_number((uint16_t)below(3));
        end_of_run(&after, 0);
        expect(same_ending(&before, &after), "revisions of loose coupons matter");
    }
}

/* Superseded tallies left out: the run ends as with them. */
static void without_superseded(void)
{
    static struct ending before, after;
    for (unsigned long i = 0; i < job_count / 8 + 10; i++) {
        static struct job all;
        struct job *job = &settlement.job;
        at_case("job %lu with and without its superseded tallies", i);
        random_old_job(job, random_sizes(i % 4 ? TINY : i % 16 ? SMALL : MEDIUM));
        give_bags(job);
        all = *job;
        end_of_run(&before, 0);
        job->sizes.tallies = 0;
        for (size_t t = 0; t < all.sizes.tallies; t++)
            if (stands(all.tally, all.sizes.tallies, t)) job->tally[job->sizes.tallies++] = all.tally[t];
        end_of_run(&after, 0);
        expect(same_ending(&before, &after), "superseded tallies matter");
    }
}

void check_bags(void)
{
    run_group("bags: which tallies of the cases stand, by the model", model_of_cases);
    run_group("bags: the cases by runs, in every order of their tallies", cases_by_run);
    run_group("bags: the cases from their files, in every order of their tallies", cases_from_files);
    run_group("bags: the cases by steps, in every order of their tallies", cases_by_steps);
    run_group("bags: one bag in two boxes, and what the first loses", first_box_loses);
    run_group("bags: 1,000 counts of one bag", one_bag);
    run_group("bags: 1,000 tallies in bags of several grocers", bags_of_several);
    run_group("bags: 9 after 20 and 21 in a run", run_in_order);
    run_group("bags: words of a superseded tally out of range", superseded_words);
    run_group("bags: a tally behind the last is not looked at", behind_the_last);
    run_group("bags: few bags and revisions, 9 met or not", near_bags);
    run_group("bags: tallies in another order", shuffled_tallies);
    run_group("bags: loose coupons of any revisions", loose_coupons);
    run_group("bags: with and without superseded tallies", without_superseded);
}
