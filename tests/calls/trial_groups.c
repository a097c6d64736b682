/* The trial: E by every preference list, the edges, each refusal, buffers of any length, and random jobs beside the model and
   a run. */
#include "call_groups.h"
#include "trying.h"

static struct calling calling;

static void open_sample(uint16_t lists, size_t places)
{
    sample_with_lists(&calling.job, lists);
    open_trial(&calling, SPARE, places);
}

static void expect_trial(uint16_t due)
{
    uint16_t answer = ask_trial(&calling, calling.job.sizes);
    expect(answer == due, "the trial was answered %u, the case says %u", answer, due);
}

/* An accepted trial: its rounds, the bounds, idle rounds and steps of each box, and the evening's tables. */
static void expect_tried(void)
{
    size_t boxes = calling.job.sizes.boxes, steps[MOST_BOXES] = {0};
    expect_trial(0);
    for (size_t i = 0; i < tried.steps; i++) steps[tried.taken[i].first]++;
    expect(tried.rounds <= tried.steps && tried.rounds * boxes >= tried.steps, "%zu rounds for %zu steps", tried.rounds,
           tried.steps);
    for (size_t b = 0; b < boxes; b++)
        expect(word_of(&calling, IDLE, b) + (int64_t)steps[b] == (int64_t)tried.rounds, "idle rounds of box %zu", b);
    expect_evening(&calling);
}

/* The next order of six kinds; after the last the first again, and false. */
static bool next_list(uint16_t list[6])
{
    size_t i = 5;
    while (i > 0 && list[i - 1] > list[i]) i--;
    for (size_t a = i, b = 5; a < b; a++, b--) {
        uint16_t kept = list[a];
        list[a] = list[b];
        list[b] = kept;
    }
    if (i == 0) return false;
    size_t j = i;
    while (list[j] < list[i - 1]) j++;
    uint16_t kept = list[i - 1];
    list[i - 1] = list[j];
    list[j] = kept;
    return true;
}

static void random_list(uint16_t list[6])
{
    for (size_t i = 0; i < 6; i++) {
        size_t at = below((uint32_t)i + 1);
        list[i] = list[at];
        list[at] = (uint16_t)(i + 1);
    }
}

/* E by all 720 lists: 5 rounds by 252 of them, 6 by 324 and 7 by 144. */
static void all_lists(void)
{
    uint16_t list[6] = {1, 2, 3, 4, 5, 6};
    unsigned long found[8] = {0}, lists = 0;
    open_sample(0, 10);
    do {
        at_case("E by %u %u %u %u %u %u", list[0], list[1], list[2], list[3], list[4], list[5]);
        prefer(&calling, list);
        expect_tried();
        found[tried.rounds < 8 ? tried.rounds : 0]++;
        lists++;
    } while (next_list(list));
    at_case("E by all lists");
    expect(lists == 720 && found[5] == 252 && found[6] == 324 && found[7] == 144, "%lu lists: %lu, %lu and %lu", lists,
           found[5], found[6], found[7]);
    close_calling(&calling);
}

/* The cases of crates/trial_rules: places of the steps, idle rounds, and what stays behind them. */
static void of_rules(void)
{
    at_case("an offer of box 0, its tally in box 1");
    one_tally_job(&calling.job, (struct sizes){2, 1, 1, 1, 0}, 10, (struct tally){.box = 1, .count = 3});
    calling.job.grocer_owner[0] = 1;
    open_trial(&calling, SPARE, 8);
    prefer(&calling, (const uint16_t[]){6, 5, 4, 3, 2, 1});
    int64_t behind = word_of(&calling, PICKED, 6);
    expect_tried();
    expect(tried.rounds == 5, "%zu rounds", tried.rounds);
    expect_words(&calling, PICKED, (const int64_t[]){16, 7, 4, 1, 10, 19, behind}, 7);
    expect_words(&calling, IDLE, (const int64_t[]){2, 2}, 2);
    prefer(&calling, (const uint16_t[]){1, 3, 2, 4, 5, 6});
    expect_tried();
    expect(tried.rounds == 3, "%zu rounds", tried.rounds);
    expect_words(&calling, PICKED, (const int64_t[]){1, 7, 4, 10, 16, 19}, 6);
    close_calling(&calling);
}

/* One box, or no tally: two rounds. */
static void smallest_jobs(void)
{
    static const struct sizes tried_sizes[] = {
        {1, 1, 1, 0, 0}, {1, 3, 4, 9, 0}, {1, 2, 2, 5, 7}, {2, 1, 1, 0, 0}, {16, 255, 500, 0, 7}, {5, 3, 2, 0, 1}};
    for (size_t i = 0; i < sizeof tried_sizes / sizeof tried_sizes[0]; i++) {
        at_case("K %u, T %u", tried_sizes[i].boxes, tried_sizes[i].tallies);
        random_old_job(&calling.job, tried_sizes[i]);
        open_trial(&calling, SPARE, below(40));
        expect_tried();
        expect(tried.rounds == 2 && word_of(&calling, IDLE, 0) == 0, "%zu rounds", tried.rounds);
        prefer(&calling, (const uint16_t[]){5, 2, 1, 3, 4, 6});
        expect_tried();
        expect(tried.rounds == 2, "%zu rounds", tried.rounds);
        close_calling(&calling);
    }
}

/* Price lists change neither rounds nor steps. */
static void any_lists(void)
{
    for (uint16_t lists = 0; lists <= MOST_LISTS; lists++) {
        at_case("E with %u lists more", lists);
        open_sample(lists, 10);
        prefer(&calling, (const uint16_t[]){6, 5, 4, 3, 2, 1});
        expect_tried();
        expect(tried.rounds == 7, "%zu rounds", tried.rounds);
        expect_words(&calling, IDLE, (const int64_t[]){2, 2}, 2);
        expect_words(&calling, PICKED, (const int64_t[]){4, 7, 13, 2, 9, 22, 16, 1, 10, 19}, 10);
        close_calling(&calling);
    }
}

/* A buffer for places of every length: the others do not change. */
static void any_places(void)
{
    for (size_t places = 0; places <= 14; places++) {
        at_case("room for %zu places", places);
        open_sample(1, places);
        expect_tried();
        expect_words(&calling, PICKED, (const int64_t[]){1, 2, 4, 7, 9, 10, 13, 19, 16, 22}, places < 10 ? places : 10);
        close_calling(&calling);
    }
}

/* The words past the sixth preference are not read. */
static void longer_list(void)
{
    size_t lengths = 0;
    for (int64_t word = 0; word < 24; word++) {
        open_sample(0, 10);
        if (calling.lending.table[PREFERENCES].length > 6) {
            at_case("%lld behind the list", (long long)word);
            put_both(&calling.lending, PREFERENCES, 6, word);
            expect_tried();
            prefer(&calling, (const uint16_t[]){1, 2, 3, 4, 5, 5});
            put_both(&calling.lending, PREFERENCES, 6, 6);
            expect_trial(33);
            lengths++;
        }
        close_calling(&calling);
    }
    expect(lengths > 0, "no list was longer");
}

static const uint16_t no_lists[][6] = {{1, 1, 3, 4, 5, 6}, {1, 2, 3, 4, 5, 5}, {0, 1, 2, 3, 4, 5},     {2, 3, 4, 5, 6, 7},
                                       {1, 2, 3, 4, 5, 0}, {6, 6, 6, 6, 6, 6}, {1, 2, 3, 4, 5, 65535}, {1, 2, 3, 4, 5, 262}};

static void lists_refused(void)
{
    for (size_t i = 0; i < sizeof no_lists / sizeof no_lists[0]; i++) {
        at_case("list %zu that is none", i);
        open_sample(0, 10);
        prefer(&calling, no_lists[i]);
        expect_trial(33);
        close_calling(&calling);
    }
}

/* Each table short, alone and beside a word out of range and a list that is none; the packed ones come after 21 and 9. */
static void short_tables(void)
{
    for (unsigned name = 0; name < ALL_TABLES; name++) {
        if (name >= STEP_TABLES && name != PREFERENCES && name != IDLE) continue;
        at_case("%s short", table_text(name));
        open_sample(1, 10);
        struct lending *lending = &calling.lending;
        size_t words = is_packed(name) ? lending->table[name].length : needed(name, calling.job.sizes);
        lending->lend[name] = words - 1;
        expect_trial(20);
        prefer(&calling, no_lists[name % 8]);
        expect_trial(20);
        put_both(lending, TALLY_BOX, 3, 2);
        expect_trial(is_packed(name) ? 21 : 20);
        put_both(lending, TALLY_BOX, 3, 1);
        put_both(lending, TALLY_BAG, 0, 7);
        put_both(lending, TALLY_BAG, 3, 7);
        put_both(lending, TALLY_REVISION, 0, 1);
        put_both(lending, TALLY_REVISION, 3, 1);
        expect_trial(is_packed(name) ? 9 : 20);
        close_calling(&calling);
    }
}

/* Each word of the job out of range, with a list that is none; state words of any kind are not looked at. */
static void words_out_of_range(void)
{
    for (unsigned name = 0; name < JOB_TABLES; name++)
        for (enum fault fault = ABOVE; has_range(name) && fault < (is_signed(name) ? FAULTS : BELOW); fault++) {
            open_sample(0, 10);
            make_fault(&calling, name, fault);
            expect_trial(21);
            prefer(&calling, no_lists[0]);
            expect_trial(21);
            close_calling(&calling);
        }
}

static void sizes_out_of_range(void)
{
    static const struct sizes wrong[] = {
        {0, 2, 2, 4, 0}, {2, 0, 2, 4, 0}, {2, 2, 0, 4, 0}, {1, 2, 2, 4, 0}, {2, 2, 2, 4, 65535}, {3, 2, 2, 4, 0}};
    for (size_t i = 0; i < sizeof wrong / sizeof wrong[0]; i++) {
        at_case("sizes %zu", i);
        open_sample(0, 10);
        uint16_t answer = ask_trial(&calling, wrong[i]);
        expect(answer == (i < 4 ? 21 : 20), "the trial was answered %u", answer);
        close_calling(&calling);
    }
}

/* 9 comes before the list. */
static void counted_again(void)
{
    at_case("one bag twice");
    open_sample(0, 10);
    put_both(&calling.lending, TALLY_BAG, 0, 7);
    put_both(&calling.lending, TALLY_BAG, 3, 7);
    put_both(&calling.lending, TALLY_REVISION, 0, 1);
    put_both(&calling.lending, TALLY_REVISION, 3, 1);
    expect_trial(9);
    prefer(&calling, no_lists[0]);
    expect_trial(9);
    close_calling(&calling);
}

static void try_random(struct sizes most)
{
    uint16_t list[6];
    random_job(&calling.job, random_sizes(most));
    open_trial(&calling, SPARE, below(60));
    for (size_t i = 0; i < 2; i++) {
        random_list(list);
        if (one_in(12)) list[below(6)] = wild_number(list[0]);
        prefer(&calling, list);
        if (!ask_trial(&calling, calling.job.sizes)) expect_tried();
    }
    if (one_in(4)) near_bags(&calling);
    if (one_in(3)) calling.lending.lend[below(STEP_TABLES)] = below(20);
    if (one_in(6)) calling.lending.lend[IDLE] = below(17);
    if (one_in(6)) calling.lending.lend[PREFERENCES] = below(7);
    ask_trial(&calling, calling.job.sizes);
    close_calling(&calling);
}

static void small_random(void)
{
    for (unsigned long i = 0; i < job_count; i++) {
        at_case("small job %lu", i);
        try_random(SMALL);
    }
}

static void medium_random(void)
{
    for (unsigned long i = 0; i < job_count / 40 + 2; i++) {
        at_case("job %lu", i);
        try_random(MEDIUM);
    }
}

static void largest_job(void)
{
    at_case("the largest job");
    spread_job(&calling.job);
    open_trial(&calling, 0, MOST_STEPS);
    expect_tried();
    prefer(&calling, (const uint16_t[]){6, 5, 4, 3, 2, 1});
    expect_tried();
    close_calling(&calling);
}

void check_trials(void)
{
    run_group("trial: E by all 720 preference lists", all_lists);
    run_group("trial: the cases of its rules", of_rules);
    run_group("trial: one box, and no tally", smallest_jobs);
    run_group("trial: one to eight price lists", any_lists);
    run_group("trial: buffers for places of any length", any_places);
    run_group("trial: words behind the preference list", longer_list);
    run_group("trial: lists that are none", lists_refused);
    run_group("trial: tables lent short", short_tables);
    run_group("trial: words out of range", words_out_of_range);
    run_group("trial: sizes", sizes_out_of_range);
    run_group("trial: one bag counted twice", counted_again);
    run_group("trial: small random jobs", small_random);
    run_group("trial: random jobs", medium_random);
    run_group("trial: the largest job", largest_job);
}
