/* Totals that leave early: a box's step 4 to another waits for its tallies of that box's grocers alone, its step 5 for
   those of its own; and whatever order is permitted ends alike, with the running sum kept at each moment. */
#include <string.h>

#include "groups.h"
#include "settling.h"

static struct settlement settlement;
static struct picks picks;

/* What every order has to end with: the plain sums, and every word that a run of the job leaves. */
static void expect_end_of_run(void)
{
    static struct state_words by_steps, by_run;
    expect_running_sum(&settlement);
    expect_plain_sums(&settlement);
    keep_state(&settlement, &by_steps);
    expect(ask_run(&settlement, settlement.job.sizes, &picks) == 0, "the run was refused");
    keep_state(&settlement, &by_run);
    expect(same_state(&by_steps, &by_run), "the steps and the run leave different words");
    expect(lent_word(&settlement, REPORT, 0) == lent_word(&settlement, SENT, 0), "the run reports other words sent");
    expect(lent_word(&settlement, REPORT, 0) == words_of_job(&settlement.job), "words sent are not those of the job");
}

static void make_ready_steps(void)
{
    struct step ready[MOST_STEPS];
    size_t length;
    while ((length = ready_steps(&settlement.machine, ready)) > 0) {
        if (ask(&settlement, ready[below((uint32_t)length)]) != 0) break;
        expect_running_sum(&settlement);
    }
}

/* Scenes: requests on small jobs, and their answers as the specification has them. Offer i is of box i and costs
   100 x 11^i, so is grocer i of box i where nothing else is said. Tallies are grocer, box, offer, count, bag and
   revision; the last request has kind 0. */

struct scene {
    const char *what;
    uint16_t boxes, tallies;
    bool all_of_last; /* every grocer is of the last box */
    struct {
        uint16_t grocer, box, offer;
        int32_t count;
        uint16_t bag, revision;
    } tally[4];
    size_t states; /* that accepted requests can reach, counted by hand; 0: not counted */
    struct {
        struct step step;
        uint16_t due;
    } requests[16];
};

static const struct scene scenes[] = {
    {"one box without tallies: own totals first",
     1,
     0,
     false,
     {{0}},
     4,
     {{{5, 0, 0}, 0}, {{5, 0, 0}, 25}, {{2, 0, 0}, 0}, {{2, 0, 0}, 25}}},
    {"one box with a tally: own totals after it is added",
     1,
     1,
     false,
     {{0, 0, 0, 3, 0, 0}},
     3,
     {{{5, 0, 0}, 26}, {{2, 0, 0}, 0}, {{5, 0, 0}, 0}}},
    {"two boxes, tallies of grocer 1 alone: own totals of box 0 from the start",
     2,
     2,
     false,
     {{1, 0, 0, 3, 0, 0}, {1, 1, 0, 5, 0, 0}},
     64,
     {{{5, 1, 1}, 26}, {{5, 0, 0}, 0}, {{4, 0, 1}, 26}, {{2, 0, 0}, 0}, {{4, 0, 1}, 0}, {{5, 1, 1}, 26}}},
    {"own totals after the receipt and before multiply own",
     2,
     2,
     false,
     {{0, 0, 1, 3, 0, 0}, {1, 0, 0, 5, 0, 0}},
     64,
     {{{5, 0, 0}, 26},
      {{1, 1, 0}, 0},
      {{5, 0, 0}, 26},
      {{3, 0, 1}, 0},
      {{4, 0, 1}, 26},
      {{5, 0, 0}, 0},
      {{5, 1, 1}, 0},
      {{6, 1, 0}, 26},
      {{2, 0, 0}, 0},
      {{4, 0, 1}, 0},
      {{6, 1, 0}, 0}}},
    {"own totals wait for an own offer's tally, whatever was received",
     2,
     2,
     false,
     {{0, 0, 0, 3, 0, 0}, {0, 0, 1, 5, 0, 0}},
     28,
     {{{1, 1, 0}, 0}, {{3, 0, 1}, 0}, {{5, 0, 0}, 26}, {{2, 0, 0}, 0}, {{5, 0, 0}, 0}}},
    {"own totals wait for a tally of count 0",
     2,
     1,
     false,
     {{0, 0, 1, 0, 0, 0}},
     32,
     {{{2, 0, 0}, 0}, {{5, 0, 0}, 26}, {{1, 1, 0}, 0}, {{5, 0, 0}, 26}, {{3, 0, 1}, 0}, {{5, 0, 0}, 0}}},
    {"totals wait for the tallies of the second box's grocers alone",
     3,
     3,
     false,
     {{1, 0, 0, 3, 0, 0}, {1, 0, 2, 5, 0, 0}, {2, 0, 1, 7, 0, 0}},
     0,
     {{{5, 0, 0}, 0},
      {{1, 1, 0}, 0},
      {{4, 0, 2}, 26},
      {{3, 0, 1}, 0},
      {{4, 0, 1}, 26},
      {{4, 0, 2}, 0},
      {{6, 2, 0}, 0},
      {{2, 0, 0}, 0},
      {{4, 0, 1}, 26},
      {{1, 2, 0}, 0},
      {{4, 0, 1}, 26},
      {{3, 0, 2}, 0},
      {{4, 0, 1}, 0},
      {{6, 1, 0}, 0}}},
    {"totals wait for every grocer of the second box, the own offer's tally added",
     2,
     2,
     true,
     {{0, 0, 0, 3, 0, 0}, {1, 0, 1, 5, 0, 0}},
     64,
     {{{2, 0, 0}, 0}, {{4, 0, 1}, 26}, {{1, 1, 0}, 0}, {{4, 0, 1}, 26}, {{3, 0, 1}, 0}, {{4, 0, 1}, 0}}},
    {"totals wait for every grocer of the second box, the other offer's tally added",
     2,
     2,
     true,
     {{0, 0, 0, 3, 0, 0}, {1, 0, 1, 5, 0, 0}},
     64,
     {{{1, 1, 0}, 0}, {{3, 0, 1}, 0}, {{4, 0, 1}, 26}, {{2, 0, 0}, 0}, {{4, 0, 1}, 0}}},
    {"box 2 does nothing: what does not depend on it is sent and received",
     3,
     4,
     false,
     {{1, 0, 0, 3, 0, 0}, {0, 0, 2, 5, 0, 0}, {1, 1, 1, 7, 0, 0}, {0, 1, 0, -2, 0, 0}},
     0,
     {{{2, 0, 0}, 0},
      {{4, 0, 1}, 0},
      {{6, 1, 0}, 0},
      {{5, 0, 0}, 26},
      {{2, 1, 1}, 0},
      {{5, 1, 1}, 0},
      {{4, 1, 0}, 26},
      {{1, 0, 1}, 0},
      {{3, 1, 0}, 0},
      {{4, 1, 0}, 0},
      {{6, 0, 1}, 0},
      {{3, 0, 2}, 26},
      {{5, 0, 0}, 26}}},
    {"a superseded tally is not waited for, though its price is due for another",
     2,
     4,
     false,
     {{1, 0, 1, 3, 7, 1}, {1, 1, 1, 4, 7, 2}, {1, 0, 0, 5, 0, 0}, {0, 0, 1, 6, 0, 0}},
     48,
     {{{4, 0, 1}, 26}, {{2, 0, 0}, 0}, {{5, 0, 0}, 26}, {{4, 0, 1}, 0}, {{6, 1, 0}, 0}, {{5, 1, 1}, 26}}},
    {"the same with the higher revision in box 0, which is waited for",
     2,
     4,
     false,
     {{1, 0, 1, 3, 7, 3}, {1, 1, 1, 4, 7, 2}, {1, 0, 0, 5, 0, 0}, {0, 0, 1, 6, 0, 0}},
     0,
     {{{2, 0, 0}, 0},
      {{4, 0, 1}, 26},
      {{5, 1, 1}, 0},
      {{1, 1, 0}, 0},
      {{4, 0, 1}, 26},
      {{3, 0, 1}, 0},
      {{4, 0, 1}, 0},
      {{5, 0, 0}, 0}}},
    {"own totals from the start where another box's recount superseded their only tally",
     2,
     2,
     false,
     {{0, 0, 1, 3, 7, 1}, {0, 1, 1, 4, 7, 2}},
     32,
     {{{3, 0, 1}, 24}, {{5, 0, 0}, 0}, {{4, 1, 0}, 26}, {{2, 1, 1}, 0}, {{4, 1, 0}, 0}, {{6, 0, 1}, 0}}},
};
enum { SCENES = sizeof scenes / sizeof scenes[0] };

static void scene_job(const struct scene *scene)
{
    struct job *job = &settlement.job;
    uint32_t price = 100;
    memset(job, 0, sizeof *job);
    job->sizes = (struct sizes){scene->boxes, scene->boxes, scene->boxes, scene->tallies, 0};
    for (uint16_t i = 0; i < scene->boxes; i++, price *= 11) {
        job->offer[i] = (struct offer){price, i, {0, code_of_number(i, 0)}};
        job->grocer_owner[i] = scene->all_of_last ? (uint16_t)(scene->boxes - 1) : i;
    }
    for (size_t t = 0; t < scene->tallies; t++)
        job->tally[t] = (struct tally){scene->tally[t].grocer,
                                       scene->tally[t].box,
                                       scene->tally[t].offer,
                                       scene->tally[t].count,
                                       {0, code_of_number(scene->tally[t].offer, 0)},
                                       scene->tally[t].bag,
                                       scene->tally[t].revision};
}

/* The requests of each scene, then what is left in any order; several times, as the rest is random. */
static void scenes_to_their_end(void)
{
    for (size_t i = 0; i < 8 * SCENES; i++) {
        const struct scene *scene = &scenes[i % SCENES];
        scene_job(scene);
        give_lists(&settlement.job, (uint16_t)(i / SCENES % 3));
        open_settlement(&settlement, SPARE, 0);
        for (size_t r = 0; r < 16 && scene->requests[r].step.kind; r++) {
            struct step step = scene->requests[r].step;
            at_case("%s, step %u of %u and %u", scene->what, step.kind, step.first, step.second);
            uint16_t answer = ask(&settlement, step), due = scene->requests[r].due;
            expect(answer == due, "answered %u, the scene says %u", answer, due);
            expect_running_sum(&settlement);
        }
        make_ready_steps();
        expect_end_of_run();
        close_settlement(&settlement);
    }
}

/* Every state that accepted requests can reach, and every request in it */

enum { MOST_WALKED = 12, MOST_PACKED = 400, MOST_MARKS = 6 * 3 * 3 };

static struct {
    size_t states, steps;
    uint16_t number[MOST_MARKS]; /* of the job's step with this mark, from 1 on */
    struct machine machine[MOST_WALKED + 1];
    struct {
        bool reached;
        uint8_t words[MOST_PACKED];
    } state[1 << MOST_WALKED]; /* by the set of steps done */
} walked;

/* All words of the state, one table after the other. */
static void pack_state(uint8_t packed[MOST_PACKED])
{
    size_t length = 0;
    memset(packed, 0, MOST_PACKED);
    for (unsigned name = JOB_TABLES; name < STEP_TABLES; name++) {
        size_t bytes = words_needed(&settlement, name) * width_of(name);
        memcpy(packed + length, settlement.lending.table[name].words, bytes);
        length += bytes;
    }
}

/* The state of these steps done, which the buffers have: whether it is reached for the first time. However it was
   reached, its words are the same. */
static bool reach(unsigned set)
{
    uint8_t packed[MOST_PACKED];
    pack_state(packed);
    expect_running_sum(&settlement);
    if (walked.state[set].reached) {
        expect(memcmp(walked.state[set].words, packed, MOST_PACKED) == 0, "two orders of the same steps differ");
        return false;
    }
    walked.state[set].reached = true;
    memcpy(walked.state[set].words, packed, MOST_PACKED);
    walked.states++;
    return true;
}

/* Every request in the state of these steps done, of which there are `depth`; and on from each that is accepted. */
static void walk_on(size_t depth, unsigned set)
{
    uint16_t boxes = settlement.job.sizes.boxes;
    bool any = false;
    copy_state(&walked.machine[depth], &settlement.machine);
    for (size_t mark = 0; mark < needed(DONE, settlement.job.sizes); mark++) {
        size_t pair = mark % ((size_t)boxes * boxes);
        struct step step = {(uint16_t)(mark / ((size_t)boxes * boxes) + 1), (uint16_t)(pair / boxes),
                            (uint16_t)(pair % boxes)};
        copy_state(&settlement.machine, &walked.machine[depth]);
        lend_state(&settlement);
        if (ask(&settlement, step) != 0) continue;
        any = true;
        if (!expect(walked.number[mark] != 0, "a step that the job does not have was accepted")) continue;
        unsigned next = set | 1u << (walked.number[mark] - 1);
        if (expect(next != set, "a step was accepted twice") && reach(next)) walk_on(depth + 1, next);
    }
    expect(any == (depth < walked.steps), any ? "a step after the last was accepted" : "no step is permitted");
}

/* From the fresh state of the job, which has few steps; so many states are reached. */
static void walk(size_t states)
{
    memset(&walked, 0, sizeof walked);
    open_settlement(&settlement, SPARE, 0);
    expect(ask_run(&settlement, settlement.job.sizes, &picks) == 0, "the run was refused");
    if (expect(picks.length <= MOST_WALKED, "the job has too many steps")) {
        walked.steps = picks.length;
        for (uint16_t i = 0; i < picks.length; i++) walked.number[mark_place(&settlement, picks.step[i])] = i + 1;
        lend_state(&settlement);
        reach(0);
        walk_on(0, 0);
        expect(walked.states == states, "%zu states can be reached, not %zu", walked.states, states);
        expect(walked.state[(1u << picks.length) - 1].reached, "the end is not reached");
    }
    close_settlement(&settlement);
}

/* E: of each of two chains of three steps some are done (2, 4, 6 and 1, 3, 5: four ways each), and of the steps 1, 3
   and 2 before step 5 of box 1 seven ways with it. */
static void every_state(void)
{
    for (uint16_t lists = 0; lists < 2; lists++) {
        at_case("E with %u lists more", lists);
        sample_with_lists(&settlement.job, lists);
        walk(4 * 4 * 7);
    }
    for (size_t i = 0; i < SCENES; i++) {
        if (scenes[i].states == 0) continue;
        at_case("%s", scenes[i].what);
        scene_job(&scenes[i]);
        walk(scenes[i].states);
    }
}

/* Random orders */

/* The manners of choosing among ready steps. */
enum manner { ANY, LAST, FIRST, TOTALS_FIRST, PRICES_FIRST, SLOW_BOX, MANNERS };

static bool is_wanted(enum manner manner, struct step step, uint16_t slow)
{
    switch (manner) {
    case TOTALS_FIRST: return step.kind >= SEND_TOTALS;
    case PRICES_FIRST: return step.kind < SEND_TOTALS;
    case SLOW_BOX: return step.first != slow;
    default: return true;
    }
}

/* One of the ready steps, of those wanted if there are any. */
static struct step choose(const struct step ready[], size_t length, enum manner manner, uint16_t slow)
{
    struct step wanted[MOST_STEPS];
    size_t count = 0;
    for (size_t i = 0; i < length; i++)
        if (is_wanted(manner, ready[i], slow)) wanted[count++] = ready[i];
    if (count == 0) return ready[below((uint32_t)length)];
    return manner == LAST ? wanted[count - 1] : manner == FIRST ? wanted[0] : wanted[below((uint32_t)count)];
}

/* Now and then requests that may be refused. */
static void interrupt(void)
{
    while (one_in(3)) {
        uint16_t boxes = settlement.job.sizes.boxes, first = (uint16_t)below(boxes), kind = (uint16_t)(1 + below(6));
        bool own = kind == MULTIPLY_OWN || kind == ADD_OWN;
        ask(&settlement, (struct step){kind, first, own ? first : (uint16_t)below(boxes)});
        expect_running_sum(&settlement);
    }
}

static void try_order(struct sizes sizes, enum manner manner)
{
    struct step ready[MOST_STEPS];
    size_t length;
    random_job(&settlement.job, sizes);
    uint16_t slow = (uint16_t)below(sizes.boxes);
    size_t choices = below(200);
    open_settlement(&settlement, SPARE, choices);
    for (size_t i = 0; i < choices; i++) put_both(&settlement.lending, CHOICES, i, (uint16_t)random_word());
    while (interrupt(), (length = ready_steps(&settlement.machine, ready)) > 0) {
        if (!expect(ask(&settlement, choose(ready, length, manner, slow)) == 0, "a ready step was refused")) break;
        expect_running_sum(&settlement);
    }
    expect_end_of_run();
    close_settlement(&settlement);
}

static void random_orders(void)
{
    for (unsigned long i = 0; i < job_count; i++) {
        at_case("order %lu", i);
        try_order(random_sizes(i % 4 ? TINY : i % 32 ? SMALL : MEDIUM), (enum manner)below(MANNERS));
    }
    for (unsigned long i = 0; i < MANNERS && i < job_count / 200; i++) {
        at_case("largest order %lu", i);
        try_order(LARGEST, (enum manner)i);
    }
}

/* One box makes no step at all */

/* Whether a box holds a standing tally of an owner's grocers that is of an offer of the slow box. */
static bool depends(uint16_t box, uint16_t owner, uint16_t slow)
{
    const struct job *job = &settlement.job;
    for (size_t t = 0; t < job->sizes.tallies; t++)
        if (holds(job, box, t) && job->grocer_owner[job->tally[t].grocer] == owner &&
            job->offer[job->tally[t].place].owner == slow)
            return true;
    return false;
}

/* Whether a step of the job is made where the slow box makes none: its prices are not sent, and it receives nothing. */
static bool is_made(struct step step, uint16_t slow)
{
    if (step.first == slow) return false;
    switch (step.kind) {
    case RECEIVE_PRICES: return step.second != slow;
    case SEND_TOTALS:
    case ADD_OWN: return !depends(step.first, step.second, slow);
    case RECEIVE_TOTALS: return step.second != slow && !depends(step.second, step.first, slow);
    default: return true;
    }
}

/* The steps of all other boxes, until none is accepted. */
static void make_others(uint16_t slow)
{
    struct step ready[MOST_STEPS], step;
    size_t length;
    while ((length = ready_steps(&settlement.machine, ready)) > 0) {
        step = choose(ready, length, SLOW_BOX, slow);
        if (step.first == slow || ask(&settlement, step) != 0) break;
    }
}

/* Each step of the job is made, or it is the slow box's or waits for it. */
static void expect_made(struct step step, uint16_t slow)
{
    bool made = is_made(step, slow);
    if (!settlement.machine.has[step.kind][step.first][step.second]) return;
    expect(lent_word(&settlement, DONE, mark_place(&settlement, step)) == made,
           "step %u of %u and %u is %s while box %u makes none", step.kind, step.first, step.second,
           made ? "not made" : "made", slow);
    if (step.first != slow) expect(ask(&settlement, step) == (made ? 25 : 26), "it is not answered so");
}

static void slow_boxes(void)
{
    for (unsigned long i = 0; i < job_count / 2 + 10; i++) {
        at_case("slow box in job %lu", i);
        random_job(&settlement.job, sizes_with_tallies(i % 4 ? TINY : i % 16 ? SMALL : MEDIUM));
        uint16_t boxes = settlement.job.sizes.boxes, slow = (uint16_t)below(boxes);
        open_settlement(&settlement, SPARE, 0);
        make_others(slow);
        for (uint16_t kind = 1; kind < KINDS; kind++)
            for (uint16_t a = 0; a < boxes; a++)
                for (uint16_t b = 0; b < boxes; b++) expect_made((struct step){kind, a, b}, slow);
        make_ready_steps();
        expect_end_of_run();
        close_settlement(&settlement);
    }
}

void check_early(void)
{
    run_group("early: requests on small jobs, and their answers", scenes_to_their_end);
    run_group("early: every state that E and small jobs can reach, and every request in it", every_state);
    run_group("early: permitted orders end as a run, with the running sum after every request", random_orders);
    run_group("early: one box makes no step, and what does not depend on it is made", slow_boxes);
}
