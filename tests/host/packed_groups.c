/* Packed totals: at which places they stand, how long their tables must be, where 20 and 21 on them come among the
   refusals, and that steps on them do what steps on full rows do. */
#include <stdlib.h>
#include <string.h>

#include "groups.h"
#include "settling.h"

static struct settlement settlement;
static struct picks picks;

static void expect_run(uint16_t due)
{
    uint16_t answer = ask_run(&settlement, settlement.job.sizes, &picks);
    expect(answer == due, "run answered %u, the case says %u", answer, due);
}

static void expect_word(enum table_name name, size_t place, int64_t due)
{
    int64_t word = lent_word(&settlement, name, place);
    expect(word == due, "%s[%zu] is %lld, the case says %lld", table_text(name), place, (long long)word,
           (long long)due);
}

static void lend_packed(size_t working, size_t total_transit)
{
    settlement.lending.lend[WORKING] = working;
    settlement.lending.lend[TOTAL_TRANSIT] = total_transit;
}

/* Both tables of just the length needed; each of them one word short; and one of no word. A state that is fresh. */
static void try_lengths(size_t words)
{
    const struct step step = {2, 0, 0};
    const struct {
        size_t working, total_transit;
        uint16_t due;
    } tried[] = {{words, words, 0},          {words - 1, words, 20}, {words, words - 1, 20},
                 {words - 1, words - 1, 20}, {0, words, 20},         {words, 0, 20}};
    for (size_t i = sizeof tried / sizeof tried[0]; i-- > 0;) {
        lend_packed(tried[i].working, tried[i].total_transit);
        expect_step(&settlement, step, tried[i].due);
        lend_state(&settlement);
        expect_run(tried[i].due);
        lend_state(&settlement);
    }
    lend_whole(&settlement.lending);
}

/* Jobs that are written out: one offer, of box 0 and at 7, on each further list at 1 more; which box owns each grocer;
   tallies, of which the first is of 1, the next of 10 and so on; and the box and grocer of every packed place, in order.
   Box 9 ends a list. */

enum { END = 9, MOST_WRITTEN = 12 };
struct written {
    const char *what, *owners;
    uint16_t boxes;
    struct {
        uint16_t box, grocer, bag, revision;
    } tally[MOST_WRITTEN];
    struct {
        uint16_t box, grocer;
    } total[MOST_WRITTEN];
};

static const struct written written[] = {
    {"the owners and tallies of E: box 0 has grocer 1, its own, before grocer 0",
     "10",
     2,
     {{0, 0, 0, 0}, {0, 1, 0, 0}, {1, 0, 0, 0}, {1, 0, 0, 0}, {END, 0, 0, 0}},
     {{0, 1}, {0, 0}, {1, 0}, {END, 0}}},
    {"no tallies: own grocers alone, and none in box 1",
     "202",
     3,
     {{END, 0, 0, 0}},
     {{0, 1}, {2, 0}, {2, 2}, {END, 0}}},
    {"all grocers of the last box, which alone has totals",
     "222",
     3,
     {{END, 0, 0, 0}},
     {{2, 0}, {2, 1}, {2, 2}, {END, 0}}},
    {"own, then by owner and then by number",
     "302021",
     4,
     {{1, 0, 0, 0}, {1, 4, 0, 0}, {1, 3, 0, 0}, {1, 2, 0, 0}, {1, 1, 0, 0}, {END, 0, 0, 0}},
     {{0, 1}, {0, 3}, {1, 5}, {1, 1}, {1, 3}, {1, 2}, {1, 4}, {1, 0}, {2, 2}, {2, 4}, {3, 0}, {END, 0}}},
    {"boxes behind the box have theirs behind its own, boxes before it too",
     "0123",
     4,
     {{2, 3, 0, 0}, {2, 1, 0, 0}, {2, 0, 0, 0}, {0, 2, 0, 0}, {3, 1, 0, 0}, {END, 0, 0, 0}},
     {{0, 0}, {0, 2}, {1, 1}, {2, 2}, {2, 0}, {2, 1}, {2, 3}, {3, 3}, {3, 1}, {END, 0}}},
    {"several tallies of one grocer in one box have one word, a count of a second box another",
     "1",
     3,
     {{0, 0, 0, 0}, {0, 0, 0, 0}, {2, 0, 0, 0}, {0, 0, 0, 0}, {END, 0, 0, 0}},
     {{0, 0}, {1, 0}, {2, 0}, {END, 0}}},
    {"a bag counted by box 0 alone",
     "12",
     3,
     {{0, 0, 7, 1}, {1, 1, 0, 0}, {END, 0, 0, 0}},
     {{0, 0}, {1, 0}, {1, 1}, {2, 1}, {END, 0}}},
    {"and counted again by box 2: box 0 has no total any more",
     "12",
     3,
     {{0, 0, 7, 1}, {1, 1, 0, 0}, {2, 0, 7, 2}, {END, 0, 0, 0}},
     {{1, 0}, {1, 1}, {2, 1}, {2, 0}, {END, 0}}},
    {"and once more by box 1, the owner: fewer totals than before",
     "12",
     3,
     {{0, 0, 7, 1}, {1, 1, 0, 0}, {2, 0, 7, 2}, {1, 0, 7, 3}, {END, 0, 0, 0}},
     {{1, 0}, {1, 1}, {2, 1}, {END, 0}}},
    {"a superseded tally beside one that stands, of the same box and grocer",
     "1",
     2,
     {{0, 0, 7, 1}, {0, 0, 0, 0}, {1, 0, 7, 2}, {END, 0, 0, 0}},
     {{0, 0}, {1, 0}, {END, 0}}},
    {"a recount that lengthens one box and shortens another",
     "000",
     3,
     {{1, 0, 7, 1}, {1, 1, 7, 1}, {2, 0, 7, 2}, {2, 1, 7, 2}, {2, 2, 0, 0}, {END, 0, 0, 0}},
     {{0, 0}, {0, 1}, {0, 2}, {2, 0}, {2, 1}, {2, 2}, {END, 0}}},
};
enum { WRITTEN = sizeof written / sizeof written[0] };

static size_t written_totals(const struct written *c)
{
    size_t totals = 0;
    while (c->total[totals].box != END) totals++;
    return totals;
}

static void open_written(const struct written *c, uint16_t lists)
{
    struct job *job = &settlement.job;
    int32_t count = 1;
    memset(job, 0, sizeof *job);
    job->sizes = (struct sizes){c->boxes, (uint16_t)strlen(c->owners), 1, 0, lists};
    for (uint16_t q = 0; q < lists; q++) job->more_price[q][0] = 8u + q;
    job->offer[0] = (struct offer){7, 0, {0, code_of("1")}};
    for (size_t g = 0; g < job->sizes.grocers; g++) job->grocer_owner[g] = (uint16_t)(c->owners[g] - '0');
    for (size_t t = 0; c->tally[t].box != END; t++, count *= 10)
        job->tally[job->sizes.tallies++] = (struct tally){
            c->tally[t].grocer, c->tally[t].box, 0, count, {0, code_of("1")}, c->tally[t].bag, c->tally[t].revision};
    at_case("%s, %u lists more", c->what, lists);
    open_settlement(&settlement, SPARE, 0);
}

/* What a box adds of a grocer on a list: the counts of its tallies that stand, at 7 each, or 1 more for each list. */
static int64_t part_of(size_t box, size_t grocer, size_t list)
{
    int64_t part = 0;
    for (size_t t = 0; t < settlement.job.sizes.tallies; t++)
        if (settlement.stands[t] && settlement.job.tally[t].box == box && settlement.job.tally[t].grocer == grocer)
            part += (7 + (int64_t)list) * settlement.job.tally[t].count;
    return part;
}

/* Every step of a kind that the job has. */
static void make_all(uint16_t kind)
{
    uint16_t boxes = settlement.job.sizes.boxes;
    for (uint16_t first = 0; first < boxes; first++)
        for (uint16_t second = 0; second < boxes; second++)
            if (settlement.machine.has[kind][first][second])
                expect(ask(&settlement, (struct step){kind, first, second}) == 0, "a step was refused");
}

/* Each packed word: the part of its box, grocer and list, of those grocers that the box owns, or does not, or none. */
static void expect_parts(const struct written *c, enum table_name name, bool own, bool others)
{
    for (size_t place = 0; place < written_totals(c); place++) {
        size_t box = c->total[place].box, grocer = c->total[place].grocer;
        bool there = settlement.job.grocer_owner[grocer] == box ? own : others;
        for (size_t q = 0; q <= settlement.job.sizes.lists; q++)
            expect_word(name, word_place(&settlement, place, q), there ? part_of(box, grocer, q) : 0);
    }
}

/* All prices first and all sums, then all totals sent, own ones added, and those sent received. */
static void written_by_steps(const struct written *c)
{
    make_all(SEND_PRICES);
    make_all(MULTIPLY_OWN);
    make_all(RECEIVE_PRICES);
    expect_parts(c, WORKING, true, true);
    expect_parts(c, TOTAL_TRANSIT, false, false);
    make_all(SEND_TOTALS);
    expect_parts(c, WORKING, true, false);
    expect_parts(c, TOTAL_TRANSIT, false, true);
    make_all(ADD_OWN);
    expect_parts(c, WORKING, false, false);
    expect_parts(c, TOTAL_TRANSIT, false, true);
    make_all(RECEIVE_TOTALS);
    expect_parts(c, WORKING, false, false);
    expect_parts(c, TOTAL_TRANSIT, false, false);
    expect_plain_sums(&settlement);
}

static void written_with(const struct written *c, uint16_t lists)
{
    size_t totals = written_totals(c);
    open_written(c, lists);
    expect(settlement.machine.packed == totals, "the model has %u places, the case %zu", settlement.machine.packed,
           totals);
    for (size_t place = 0; place < totals; place++)
        expect(settlement.machine.place[c->total[place].box][c->total[place].grocer] == place,
               "the model has place %zu elsewhere", place);
    try_lengths(totals * width_of_entry(settlement.job.sizes));
    written_by_steps(c);
    close_settlement(&settlement);
}

static void written_places(void)
{
    for (size_t i = 0; i < WRITTEN; i++)
        for (uint16_t lists = 0; lists <= MOST_LISTS; lists += lists ? 6 : 1) written_with(&written[i], lists);
}

/* Two boxes send totals of one grocer, each its word in its own place; the owner's own total stays when they come. */
static void by_sender(void)
{
    static const struct written c = {"three boxes with totals of one grocer, of box 2",
                                     "2",
                                     3,
                                     {{0, 0, 0, 0}, {1, 0, 0, 0}, {2, 0, 0, 0}, {END, 0, 0, 0}},
                                     {{0, 0}, {1, 0}, {2, 0}, {END, 0}}};
    static const struct {
        struct step step;
        int64_t working[3], total_transit[3], statement;
    } lines[] = {
        {{4, 0, 2}, {0, 70, 700}, {7, 0, 0}, 0}, {{4, 1, 2}, {0, 0, 700}, {7, 70, 0}, 0},
        {{6, 2, 1}, {0, 0, 700}, {7, 0, 0}, 70}, {{6, 2, 0}, {0, 0, 700}, {0, 0, 0}, 77},
        {{5, 2, 2}, {0, 0, 0}, {0, 0, 0}, 777},
    };
    open_written(&c, 0);
    make_all(SEND_PRICES);
    make_all(MULTIPLY_OWN);
    make_all(RECEIVE_PRICES);
    for (size_t i = 0; i < sizeof lines / sizeof lines[0]; i++) {
        at_case("%s, step %u of %u and %u", c.what, lines[i].step.kind, lines[i].step.first, lines[i].step.second);
        expect(ask(&settlement, lines[i].step) == 0, "the step was refused");
        for (size_t place = 0; place < 3; place++) {
            expect_word(WORKING, place, lines[i].working[place]);
            expect_word(TOTAL_TRANSIT, place, lines[i].total_transit[place]);
        }
        expect_word(STATEMENT, 0, lines[i].statement);
    }
    close_settlement(&settlement);
}

/* Where 20 and 21 on packed tables come: every set of faults on E, with one list and with two. A word past the length is
   no fault. */

enum fault { OTHER_SHORT, JOB_WILD, STATE_WILD, TWICE, PACKED_SHORT, PACKED_WILD, PAST_WILD, FAULTS };

static bool is_among(unsigned set, enum fault fault) { return (set >> fault) & 1; }

/* The refusal of a step, or of a run, with these faults; of the request itself where there is none before. */
static uint16_t due_of_step(unsigned set, uint16_t request)
{
    if (is_among(set, OTHER_SHORT)) return 20;
    if (is_among(set, JOB_WILD) || is_among(set, STATE_WILD)) return 21;
    if (is_among(set, TWICE)) return 9;
    if (is_among(set, PACKED_SHORT)) return 20;
    return is_among(set, PACKED_WILD) ? 21 : request;
}

static uint16_t due_of_run(unsigned set)
{
    if (is_among(set, OTHER_SHORT)) return 20;
    if (is_among(set, JOB_WILD)) return 21;
    if (is_among(set, TWICE)) return 9;
    return is_among(set, PACKED_SHORT) ? 20 : 0;
}

static int64_t wild_amount(void)
{
    static const int64_t amounts[] = {MOST_AMOUNT + 1, -MOST_AMOUNT - 1, INT64_MAX, INT64_MIN};
    return amounts[below(4)];
}

/* The packed words that E needs, and five more that are lent. */
static size_t words_of_sample(void) { return 3 * width_of_entry(settlement.job.sizes); }
static size_t room_of_sample(void) { return words_of_sample() + 5; }

/* E with these faults, those of packed tables in one of them. */
static void open_faults(unsigned set, enum table_name packed, uint16_t lists)
{
    static const enum table_name others[] = {PRICE, GROCER_OWNER, TALLY_COUNT, TALLY_BAG, KNOWN, STATEMENT, DONE};
    static const enum table_name jobs[] = {PRICE, OFFER_OWNER, GROCER_OWNER, TALLY_GROCER, TALLY_BOX, TALLY_OFFER};
    static const enum table_name states[] = {KNOWN, PRICE_TRANSIT, STATEMENT, DONE, SENT};
    size_t lengths[ALL_TABLES] = {0};
    struct lending *lending = &settlement.lending;
    sample_with_lists(&settlement.job, lists);
    start_fresh(&settlement.machine, &settlement.job);
    for (unsigned name = 0; name < STEP_TABLES; name++)
        lengths[name] = is_packed(name) ? room_of_sample() : needed(name, settlement.job.sizes);
    lengths[REPORT] = 3;
    lengths[PICKED] = 10;
    open_lending(lending, lengths);
    write_job_words(&settlement.job, lending->twin);
    lend_state(&settlement);
    for (size_t place = words_of_sample(); place < room_of_sample(); place++)
        for (unsigned name = WORKING; name <= TOTAL_TRANSIT; name++)
            put_both(lending, name, place, is_among(set, PAST_WILD) ? wild_amount() : 0);
    for (size_t t = 0; t < 4 && is_among(set, TWICE); t += 3) put_both(lending, TALLY_BAG, t, 500);
    for (size_t t = 0; t < 4; t += 3) put_both(lending, TALLY_REVISION, t, 8);
    enum table_name job = jobs[below(6)], state = states[below(5)], other = others[below(7)];
    if (is_among(set, JOB_WILD)) put_both(lending, job, 1, range_of(job, settlement.job.sizes).most + 1);
    if (is_among(set, STATE_WILD)) put_both(lending, state, 0, range_of(state, settlement.job.sizes).most + 1);
    if (is_among(set, PACKED_WILD)) put_both(lending, packed, below((uint32_t)words_of_sample() - 1), wild_amount());
    if (is_among(set, PACKED_SHORT)) lending->lend[packed] = below((uint32_t)words_of_sample());
    if (is_among(set, OTHER_SHORT)) lending->lend[other] = needed(other, settlement.job.sizes) - 1;
}

/* Requests that are refused with 22 to 26 on a fresh E, or accepted; those accepted are asked last. */
static const struct {
    struct step step;
    uint16_t due;
} requests[] = {{{2, 0, 0}, 0},      {{1, 0, 1}, 0},  {{0, 0, 0}, 22}, {{9, 99, 99}, 22}, {{1, 0, 0}, 23},
                {{2, 0, 65535}, 23}, {{4, 1, 0}, 24}, {{3, 0, 1}, 26}, {{6, 1, 0}, 26}};

static void sets_of_faults(void)
{
    for (unsigned set = 0; set < 2u << FAULTS; set++)
        for (unsigned packed = WORKING; packed <= TOTAL_TRANSIT; packed++) {
            at_case("faults %x, of %s", set, table_text(packed));
            open_faults(set, packed, is_among(set, FAULTS));
            for (size_t i = sizeof requests / sizeof requests[0]; i-- > 0;)
                expect_step(&settlement, requests[i].step, due_of_step(set, requests[i].due));
            expect_run(due_of_run(set));
            close_settlement(&settlement);
        }
}

/* Already done, 25, and the result that would leave its range, the late 21, behind packed tables that are short. */
static void late_behind_short(void)
{
    for (unsigned packed = WORKING; packed <= TOTAL_TRANSIT; packed++)
        for (unsigned way = 0; way < 4; way++) {
            bool large = way & 1;
            uint16_t lists = way / 2;
            at_case("%s, %s short", large ? "a working total too large" : "a step done", table_text(packed));
            open_faults(0, packed, lists);
            put_on(&settlement, WORKING, 1, lists, MOST_AMOUNT);
            if (!large) set_mark(&settlement, (struct step){2, 0, 0});
            expect_step(&settlement, (struct step){2, 0, 0}, large ? 21 : 25);
            settlement.lending.lend[packed] = words_of_sample() - 1;
            expect_step(&settlement, (struct step){2, 0, 0}, 20);
            settlement.lending.lend[packed] = words_of_sample();
            expect_step(&settlement, (struct step){2, 0, 0}, large ? 21 : 25);
            close_settlement(&settlement);
        }
}

/* Each word of a packed table out of its range: within the length it is refused, past it the step is made and the word
   stays. */
static void each_word(void)
{
    for (size_t i = 0; i < WRITTEN; i++)
        for (unsigned name = WORKING; name <= TOTAL_TRANSIT; name++) {
            open_written(&written[i], (uint16_t)(i % 3));
            size_t length = settlement.lending.table[name].length, words = words_needed(&settlement, name);
            for (size_t place = 0; place < length; place++) {
                int64_t kept = lent_word(&settlement, name, place), wild = wild_amount();
                at_case("%s, %s[%zu] of %zu", written[i].what, table_text(name), place, words);
                put_both(&settlement.lending, name, place, wild);
                expect_step(&settlement, (struct step){2, 0, 0}, place < words ? 21 : 0);
                if (place >= words) expect_word(name, place, wild);
                lend_state(&settlement);
                put_both(&settlement.lending, name, place, kept);
            }
            close_settlement(&settlement);
        }
}

/* Large tables */

/* The steps in some order, on tables of just the length needed; and a run on them, its old words wild. */
static void settle_exactly(size_t words)
{
    struct step ready[MOST_STEPS];
    size_t length, steps = 0;
    lend_packed(words, words);
    while ((length = ready_steps(&settlement.machine, ready)) > 0) {
        if (!expect(ask(&settlement, ready[below((uint32_t)length)]) == 0, "a ready step was refused")) break;
        if (steps++ % 64 == 0) expect_running_sum(&settlement);
    }
    expect_plain_sums(&settlement);
    for (size_t place = 0; place < words; place++) {
        put_both(&settlement.lending, WORKING, place, wild_amount());
        put_both(&settlement.lending, TOTAL_TRANSIT, place, wild_amount());
    }
    expect_run(0);
    expect_plain_sums(&settlement);
    for (size_t place = 0; place < words; place++) {
        expect_word(WORKING, place, 0);
        expect_word(TOTAL_TRANSIT, place, 0);
    }
}

static void large_job(const char *what, size_t places)
{
    struct job *job = &settlement.job;
    size_t words = places * width_of_entry(job->sizes);
    at_case("%s, %zu packed words", what, words);
    give_lists(job, job->sizes.lists);
    for (size_t o = 0; o < job->sizes.offers; o++) job->offer[o].price = (uint32_t)(9990999 + o);
    for (size_t t = 0; t < job->sizes.tallies; t++) job->tally[t].count = (int32_t)t - 400;
    open_settlement(&settlement, SPARE, 0);
    expect(settlement.machine.packed == places, "the model has %u places", settlement.machine.packed);
    try_lengths(words);
    settle_exactly(words);
    close_settlement(&settlement);
}

/* Every box shares every grocer: 62 grocers in 16 boxes, 992 pairs, each with a tally and some with two. And the most
   words that there can be, (M + T) L: each tally of a box and grocer of its own, in a box that does not own the grocer.
   And as many grocers as can be in one box, and without a tally. */
static void large_jobs(void)
{
    struct job *job = &settlement.job;
    ruled_job(job, (struct sizes){16, 62, 20, 1000, 2}, (struct rules){{1, 16}, {3, 16}, {16, 62}, {1, 16}, {3, 20}});
    large_job("every box shares every grocer", 992);
    ruled_job(job, LARGEST, (struct rules){{7, 16}, {1, 16}, {1, 255}, {1, 16}, {1, 500}});
    for (size_t t = 0; t < 1000; t++)
        job->tally[t].box = (uint16_t)((job->grocer_owner[job->tally[t].grocer] + 1 + t / 255) % 16);
    large_job("(M + T) L words", 1255);
    ruled_job(job, (struct sizes){2, 255, 2, 1000, 0}, (struct rules){{1, 2}, {1, 1}, {1, 255}, {300, 2}, {1, 2}});
    large_job("both boxes have every grocer", 510);
    ruled_job(job, (struct sizes){16, 255, 1, 0, 0}, (struct rules){{1, 1}, {1, 16}, {1, 1}, {1, 1}, {1, 1}});
    large_job("no tallies", 255);
    ruled_job(job, (struct sizes){1, 255, 3, 1000, 0}, (struct rules){{1, 1}, {1, 1}, {1, 255}, {1, 1}, {1, 3}});
    large_job("one box", 255);
    ruled_job(job, (struct sizes){16, 1, 500, 1000, 0}, (struct rules){{7, 16}, {1, 1}, {1, 1}, {1, 16}, {1, 500}});
    job->grocer_owner[0] = 15;
    large_job("one grocer in 16 boxes", 16);
}

/* Full rows: the words of each box and grocer, one of each list. What the library leaves in packed tables is unpacked,
   with 0 for all other grocers, by places that are found in another way than the model's: each local pair of a box and a
   grocer has its number among all of them, in order. */

struct pair {
    uint16_t box, owner, grocer;
    bool other; /* the grocer is not the box's own */
};

static struct {
    size_t length;
    struct pair pair[MOST_TOTALS];
} pairs;

/* Working totals and totals in transit in full rows. */
struct rows {
    int64_t working[MOST_BOXES][MOST_GROCERS][MOST_WIDTH], transit[MOST_BOXES][MOST_GROCERS][MOST_WIDTH];
};

/* Full rows of 0, as far as the job reaches. */
static void clear_rows(struct rows *rows)
{
    for (size_t b = 0; b < settlement.job.sizes.boxes; b++) {
        memset(rows->working[b], 0, settlement.job.sizes.grocers * sizeof rows->working[b][0]);
        memset(rows->transit[b], 0, settlement.job.sizes.grocers * sizeof rows->transit[b][0]);
    }
}

static int difference(unsigned a, unsigned b) { return (a > b) - (a < b); }

static int in_order(const void *one, const void *other)
{
    const struct pair *a = one, *b = other;
    if (a->box != b->box) return difference(a->box, b->box);
    if (a->other != b->other) return difference(a->other, b->other);
    if (a->owner != b->owner) return difference(a->owner, b->owner);
    return difference(a->grocer, b->grocer);
}

static void add_pair(bool noted[MOST_BOXES][MOST_GROCERS], uint16_t box, uint16_t grocer)
{
    uint16_t owner = settlement.job.grocer_owner[grocer];
    if (noted[box][grocer]) return;
    noted[box][grocer] = true;
    pairs.pair[pairs.length++] = (struct pair){box, owner, grocer, owner != box};
}

static void note_pairs(void)
{
    const struct job *job = &settlement.job;
    bool noted[MOST_BOXES][MOST_GROCERS] = {{false}};
    pairs.length = 0;
    for (size_t t = job->sizes.tallies; t-- > 0;)
        if (settlement.stands[t]) add_pair(noted, job->tally[t].box, job->tally[t].grocer);
    for (uint16_t g = 0; g < job->sizes.grocers; g++) add_pair(noted, job->grocer_owner[g], g);
    qsort(pairs.pair, pairs.length, sizeof pairs.pair[0], in_order);
    expect(pairs.length == settlement.machine.packed, "%zu local pairs, and %u packed places", pairs.length,
           settlement.machine.packed);
}

static void unpack(struct rows *rows)
{
    clear_rows(rows);
    for (size_t i = 0; i < pairs.length; i++)
        for (size_t q = 0; q <= settlement.job.sizes.lists; q++) {
            rows->working[pairs.pair[i].box][pairs.pair[i].grocer][q] = lent_on(&settlement, WORKING, i, q);
            rows->transit[pairs.pair[i].box][pairs.pair[i].grocer][q] = lent_on(&settlement, TOTAL_TRANSIT, i, q);
        }
}

/* A state of the model as full rows, and full rows put into one. */
static void rows_of(const struct machine *machine, struct rows *rows)
{
    struct sizes sizes = machine->job->sizes;
    clear_rows(rows);
    for (size_t b = 0; b < sizes.boxes; b++)
        memcpy(rows->working[b], machine->working[b], sizes.grocers * sizeof rows->working[b][0]);
    for (size_t i = 0; i < machine->totals.length; i++) {
        const struct envelope *e = &machine->totals.envelope[i];
        memcpy(rows->transit[e->sender][e->number], e->word, sizeof e->word);
    }
}

static bool is_nothing(const int64_t words[MOST_WIDTH])
{
    for (size_t q = 0; q < MOST_WIDTH; q++)
        if (words[q] != 0) return false;
    return true;
}

static void put_rows(struct machine *machine, const struct rows *rows)
{
    const struct job *job = machine->job;
    machine->totals.length = 0;
    for (uint16_t b = 0; b < job->sizes.boxes; b++) {
        memcpy(machine->working[b], rows->working[b], job->sizes.grocers * sizeof rows->working[b][0]);
        for (uint16_t g = 0; g < job->sizes.grocers; g++) {
            if (is_nothing(rows->transit[b][g])) continue;
            struct envelope *e = &machine->totals.envelope[machine->totals.length++];
            *e = (struct envelope){b, job->grocer_owner[g], g, {0}};
            memcpy(e->word, rows->transit[b][g], sizeof e->word);
        }
    }
}

/* The evening on full rows, which reads no packed table. */
static struct machine evening;

/* The words of one box and grocer: what the library left, unpacked, or where no packed table has them, those before. */
static void expect_same_total(const struct rows *left, const struct rows *due, size_t b, size_t g)
{
    for (size_t q = 0; q <= settlement.job.sizes.lists; q++) {
        int64_t working = left->working[b][g][q], transit = left->transit[b][g][q];
        if (working == due->working[b][g][q] && transit == due->transit[b][g][q]) continue;
        expect(false, "box %zu, grocer %zu, list %zu: %lld and %lld, on full rows %lld and %lld", b, g, q,
               (long long)working, (long long)transit, (long long)due->working[b][g][q],
               (long long)due->transit[b][g][q]);
    }
}

/* What the library left, unpacked, and the words of the evening; of totals that no packed table has, those before. */
static void expect_same_rows(const struct rows *others)
{
    static struct rows left, due;
    struct sizes sizes = settlement.job.sizes;
    unpack(&left);
    rows_of(&evening, &due);
    for (size_t b = 0; b < sizes.boxes; b++)
        for (size_t g = 0; g < sizes.grocers; g++)
            expect_same_total(has_total(&settlement, b, g) ? &left : others, &due, b, g);
    for (size_t g = 0; g < sizes.grocers; g++)
        for (size_t q = 0; q <= sizes.lists; q++)
            expect_word(STATEMENT, word_place(&settlement, g, q), evening.statement[g][q]);
    expect_word(SENT, 0, evening.sent);
}

static struct step random_request(void)
{
    uint16_t boxes = settlement.job.sizes.boxes, first = (uint16_t)below(boxes), second = (uint16_t)below(boxes);
    if (one_in(2)) return some_ready_step(&settlement);
    if (one_in(8)) return (struct step){wild_number(6), wild_number(boxes), wild_number(boxes)};
    return (struct step){(uint16_t)(1 + below(6)), first, one_in(2) ? first : second};
}

/* A list of requests from a fresh state: each is answered as on full rows and leaves their words. */
static void list_on_rows(struct sizes sizes, uint32_t requests)
{
    static const struct rows nothing;
    random_job(&settlement.job, sizes);
    open_settlement(&settlement, SPARE, 0);
    note_pairs();
    start_fresh(&evening, &settlement.job);
    expect_same_rows(&nothing);
    while (requests-- > 0) {
        struct step step = random_request();
        uint16_t due = request(&evening, step), answer = ask(&settlement, step);
        expect(answer == due, "step %u of %u and %u answered %u, on full rows %u", step.kind, step.first, step.second,
               answer, due);
        expect_same_rows(&nothing);
    }
    close_settlement(&settlement);
}

static void lists_on_rows(void)
{
    for (unsigned long i = 0; i < job_count / 2 + 10; i++) {
        at_case("list %lu on full rows", i);
        list_on_rows(random_sizes(i % 4 ? TINY : i % 32 ? SMALL : MEDIUM), 20 + below(60));
    }
    for (unsigned long i = 0; i < job_count / 500 + 1; i++) {
        at_case("largest list %lu on full rows", i);
        list_on_rows(LARGEST, 40);
    }
}

static int64_t some_amount(uint32_t manner)
{
    switch (manner) {
    case 0: return one_in(8) ? between(-MOST_AMOUNT, MOST_AMOUNT) : 0;
    case 1: return one_in(2) ? MOST_AMOUNT : -MOST_AMOUNT;
    case 2: return between(-1000, 1000);
    default: return between(-MOST_AMOUNT, MOST_AMOUNT);
    }
}

/* Any amounts in range on every list of a total. */
static void random_amounts(int64_t words[MOST_WIDTH], uint32_t manner)
{
    for (size_t q = 0; q <= settlement.job.sizes.lists; q++) words[q] = some_amount(manner);
}

static void put_amounts(enum table_name name, size_t entry, const int64_t words[MOST_WIDTH])
{
    for (size_t q = 0; q <= settlement.job.sizes.lists; q++) put_on(&settlement, name, entry, q, words[q]);
}

/* Any amounts in range, in packed tables and in the full rows' words of all other grocers. */
static void random_rows(struct rows *rows, bool others)
{
    uint32_t manner = below(4);
    int64_t statement[MOST_WIDTH];
    clear_rows(rows);
    for (size_t b = 0; b < settlement.job.sizes.boxes; b++)
        for (size_t g = 0; g < settlement.job.sizes.grocers; g++) {
            if (!others && !has_total(&settlement, b, g)) continue;
            random_amounts(rows->working[b][g], manner);
            random_amounts(rows->transit[b][g], manner);
        }
    for (size_t i = 0; i < pairs.length; i++) {
        put_amounts(WORKING, i, rows->working[pairs.pair[i].box][pairs.pair[i].grocer]);
        put_amounts(TOTAL_TRANSIT, i, rows->transit[pairs.pair[i].box][pairs.pair[i].grocer]);
    }
    for (size_t g = 0; g < settlement.job.sizes.grocers; g++) {
        random_amounts(statement, manner);
        put_amounts(STATEMENT, g, statement);
    }
}

/* Marks that make many steps ready. */
static void random_marks(void)
{
    for (size_t place = 0; place < needed(DONE, settlement.job.sizes); place++)
        put_both(&settlement.lending, DONE, place, one_in(2));
}

/* Single requests on any rows in range: the answer and the words are those of full rows, and words of other grocers,
   whatever they are, stay. */
static void any_rows(void)
{
    static struct rows before;
    for (unsigned long i = 0; i < job_count + 10; i++) {
        at_case("any rows, job %lu", i);
        random_job(&settlement.job, random_sizes(i % 8 ? TINY : i % 64 ? SMALL : MEDIUM));
        open_settlement(&settlement, SPARE, 0);
        note_pairs();
        for (unsigned state = 0; state < 8; state++) {
            struct step step = random_request();
            random_marks();
            random_rows(&before, state % 2);
            if (step.kind >= 1 && step.kind <= 6 && step.first < settlement.job.sizes.boxes &&
                step.second < settlement.job.sizes.boxes)
                put_both(&settlement.lending, DONE, mark_place(&settlement, step), 0);
            read_state_words(&evening, &settlement.job, settlement.lending.twin);
            put_rows(&evening, &before);
            uint16_t due = request(&evening, step), answer = ask_on_words(&settlement, settlement.job.sizes, step);
            expect(answer == due, "step %u of %u and %u answered %u, on full rows %u", step.kind, step.first,
                   step.second, answer, due);
            expect_same_rows(&before);
        }
        close_settlement(&settlement);
    }
}

/* A run on packed tables, whatever they held, and one on full rows. */
static void runs_on_rows(void)
{
    static const struct rows nothing;
    static struct step order[MOST_STEPS];
    for (unsigned long i = 0; i < job_count / 4 + 10; i++) {
        at_case("run %lu on full rows", i);
        random_job(&settlement.job, random_sizes(i % 4 ? TINY : i % 32 ? SMALL : MEDIUM));
        open_settlement(&settlement, SPARE, 20);
        note_pairs();
        for (size_t place = 0; place < settlement.lending.table[WORKING].length; place++)
            put_both(&settlement.lending, WORKING, place, wild_amount());
        for (size_t place = 0; place < settlement.lending.table[TOTAL_TRANSIT].length; place++)
            put_both(&settlement.lending, TOTAL_TRANSIT, place, wild_amount());
        run_all(&evening, &settlement.job, settlement.lending.twin[CHOICES], order);
        expect_run(0);
        expect_same_rows(&nothing);
        close_settlement(&settlement);
    }
}

/* Recounts: the packed tables are those of the job without its superseded tallies, word by word after every step. */
static void recounts(void)
{
    static struct job all, few;
    static struct state_words with, without;
    static struct picks order;
    for (unsigned long i = 0; i < job_count / 4 + 10; i++) {
        at_case("recounts, job %lu", i);
        random_old_job(&all, sizes_with_tallies(i % 4 ? TINY : SMALL));
        give_bags(&all);
        few = all;
        few.sizes.tallies = 0;
        for (size_t t = 0; t < all.sizes.tallies; t++)
            if (stands(all.tally, all.sizes.tallies, t)) few.tally[few.sizes.tallies++] = all.tally[t];
        settlement.job = few;
        open_settlement(&settlement, SPARE, 0);
        expect_run(0);
        order = picks;
        close_settlement(&settlement);
        for (size_t steps = 0; steps <= order.length; steps += 1 + below(6)) {
            for (unsigned superseded = 0; superseded < 2; superseded++) {
                settlement.job = superseded ? all : few;
                open_settlement(&settlement, SPARE, 0);
                for (size_t s = 0; s < steps; s++)
                    expect(ask(&settlement, order.step[s]) == 0, "a step that a run made was refused");
                keep_state(&settlement, superseded ? &with : &without);
                close_settlement(&settlement);
            }
            expect(same_state(&with, &without), "superseded tallies matter after %zu steps", steps);
        }
    }
}

void check_packed(void)
{
    run_group("packed: jobs that are written out, word by word and at every length", written_places);
    run_group("packed: totals in transit by sender, and own ones that stay", by_sender);
    run_group("packed: every set of faults, and which is refused", sets_of_faults);
    run_group("packed: 25 and the late 21 behind a short table", late_behind_short);
    run_group("packed: each word out of range, within the length and past it", each_word);
    run_last("packed: the most words, and other large jobs", large_jobs);
    run_group("packed: lists of requests as on full rows", lists_on_rows);
    run_group("packed: any rows in range, as on full rows", any_rows);
    run_group("packed: runs as on full rows, whatever the tables held", runs_on_rows);
    run_group("packed: recounts, and the job without its superseded tallies", recounts);
}
