/* What a box can learn of prices: two evenings whose jobs differ in prices alone, of offers that the box neither owns nor
   holds a standing tally of. The library is asked the same of both, and all that the box may learn is compared; no model
   of the words is looked at. */
#include "groups.h"
#include "settling.h"

struct evenings {
    struct settlement one, other;
    uint16_t box;
    bool received;        /* whether the box has received totals */
    unsigned long hidden; /* prices that differ */
};
static struct evenings evenings;
static unsigned long learnt; /* evenings in which another box came to know another price */

static uint32_t another_price(void)
{
    return one_in(4) ? 0 : one_in(3) ? MOST_PRICE : (uint32_t)between(0, MOST_PRICE);
}

/* The other job: prices are drawn anew where the box must not see them, each, or one of them alone. */
static void hide_prices(struct evenings *evenings)
{
    struct job *job = &evenings->other.job;
    bool all = one_in(2);
    *job = evenings->one.job;
    evenings->hidden = 0;
    for (size_t o = 0; o < job->sizes.offers; o++) {
        if (job->offer[o].owner == evenings->box || holds_offer(job, evenings->box, o)) continue;
        for (size_t q = 0; q <= job->sizes.lists; q++) {
            uint32_t *price = q ? &job->more_price[q - 1][o] : &job->offer[o].price, before = *price;
            if (all || evenings->hidden == 0) *price = another_price();
            evenings->hidden += *price != before;
        }
    }
}

static void open_evenings(struct evenings *evenings, struct sizes sizes)
{
    random_job(&evenings->one.job, sizes);
    evenings->box = (uint16_t)below(sizes.boxes);
    evenings->received = false;
    hide_prices(evenings);
    open_settlement(&evenings->one, SPARE, 0);
    open_settlement(&evenings->other, SPARE, 0);
}

static void close_evenings(struct evenings *evenings)
{
    close_settlement(&evenings->one);
    close_settlement(&evenings->other);
}

/* Both are lent as many words of each table: all that they need; or of one table fewer. */
static bool lend_alike(struct evenings *evenings)
{
    enum table_name name = below(STEP_TABLES);
    size_t need = words_needed(&evenings->one, name);
    bool is_short = one_in(20) && need > 0;
    for (unsigned each = 0; each < STEP_TABLES; each++)
        evenings->one.lending.lend[each] = evenings->other.lending.lend[each] = words_needed(&evenings->one, each);
    if (is_short) evenings->one.lending.lend[name] = evenings->other.lending.lend[name] = below((uint32_t)need);
    return is_short;
}

static bool same_word(const struct evenings *evenings, enum table_name name, size_t entry, const char *what)
{
    for (size_t q = 0; q <= evenings->one.job.sizes.lists; q++) {
        int64_t one = lent_on(&evenings->one, name, entry, q), other = lent_on(&evenings->other, name, entry, q);
        if (one != other)
            return expect(false, "%s of box %u, entry %zu on list %zu: %lld and %lld", what, evenings->box, entry, q,
                          (long long)one, (long long)other);
    }
    return true;
}

static bool same_prices(const struct evenings *evenings)
{
    const struct job *job = &evenings->one.job;
    size_t offers = job->sizes.offers;
    bool same = true;
    for (size_t o = 0; o < offers; o++) {
        same &= same_word(evenings, KNOWN, evenings->box * offers + o, "known prices");
        if (job->offer[o].owner != evenings->box) continue;
        for (size_t b = 0; b < job->sizes.boxes; b++)
            same &= same_word(evenings, PRICE_TRANSIT, b * offers + o, "a message of prices");
    }
    return same;
}

static bool same_totals(const struct evenings *evenings)
{
    const struct job *job = &evenings->one.job;
    bool same = true;
    for (size_t g = 0; g < job->sizes.grocers; g++) {
        size_t place = evenings->one.machine.place[evenings->box][g];
        if (place != NO_PLACE) {
            same &= same_word(evenings, WORKING, place, "working totals");
            same &= same_word(evenings, TOTAL_TRANSIT, place, "a message of totals");
        }
        if (job->grocer_owner[g] == evenings->box && !evenings->received)
            same &= same_word(evenings, STATEMENT, g, "statements");
    }
    return same;
}

/* The same request to both; the model goes on beside them, so that there are ready steps to draw. */
static void ask_both(struct evenings *evenings, struct step step)
{
    struct sizes sizes = evenings->one.job.sizes;
    bool is_short = lend_alike(evenings);
    uint16_t one = call_step(&evenings->one.lending, sizes, step);
    uint16_t other = call_step(&evenings->other.lending, sizes, step);
    if (!is_short) request(&evenings->one.machine, step);
    expect(one == other, "step %u of %u and %u answered %u and %u", step.kind, step.first, step.second, one, other);
    if (one == 0 && step.kind == RECEIVE_TOTALS && step.first == evenings->box) evenings->received = true;
    expect(lent_word(&evenings->one, SENT, 0) == lent_word(&evenings->other, SENT, 0), "words sent differ");
    expect(same_prices(evenings) & same_totals(evenings), "box %u learns what differs", evenings->box);
}

static struct step some_request(const struct evenings *evenings)
{
    uint16_t boxes = evenings->one.job.sizes.boxes, first = (uint16_t)below(boxes), second = (uint16_t)below(boxes);
    if (!one_in(3)) return some_ready_step(&evenings->one);
    if (one_in(4)) return (struct step){wild_number(6), wild_number(boxes), wild_number(boxes)};
    return (struct step){(uint16_t)(1 + below(6)), first, one_in(3) ? first : second};
}

/* Whether another box knows a price that differs. */
static bool others_learn(const struct evenings *evenings)
{
    for (size_t place = 0; place < words_needed(&evenings->one, KNOWN); place++)
        if (lent_word(&evenings->one, KNOWN, place) != lent_word(&evenings->other, KNOWN, place)) return true;
    return false;
}

static void settle_both(struct sizes sizes)
{
    struct step ready[MOST_STEPS];
    open_evenings(&evenings, sizes);
    while (ready_steps(&evenings.one.machine, ready) > 0) ask_both(&evenings, some_request(&evenings));
    learnt += others_learn(&evenings);
    close_evenings(&evenings);
}

static void pairs_of_evenings(void)
{
    unsigned long pairs = job_count / 2 + 16;
    learnt = 0;
    for (unsigned long i = 0; i < pairs; i++) {
        at_case("two evenings, pair %lu", i);
        settle_both(sizes_with_tallies(i % 8 < 5 ? TINY : i % 64 < 60 ? SMALL : MEDIUM));
    }
    at_case("all pairs");
    expect(learnt > pairs / 4, "in %lu of %lu pairs alone another box learns what differs", learnt, pairs);
}

/* Box 2 has a count of offer 0, which box 1's supersedes; box 0 owns the offer. So box 2 gets no message of it. */
static void superseded_count(void)
{
    static const struct named_count {
        uint16_t box, place, bag, revision;
        int32_t count;
    } counts[] = {{1, 0, 7, 1, 3}, {2, 0, 7, 0, 5}, {2, 1, 0, 0, 4}};
    struct job *job = &evenings.one.job;
    at_case("a superseded count");
    ruled_job(job, (struct sizes){3, 1, 2, 3, 0}, (struct rules){{1, 1}, {1, 1}, {1, 1}, {1, 1}, {1, 1}});
    job->offer[1].owner = job->grocer_owner[0] = evenings.box = 2;
    job->offer[0].price = 10;
    job->offer[1].price = 20;
    for (size_t t = 0; t < 3; t++) {
        job->tally[t].box = counts[t].box;
        job->tally[t].place = counts[t].place;
        job->tally[t].bag = counts[t].bag;
        job->tally[t].revision = counts[t].revision;
        job->tally[t].count = counts[t].count;
    }
    evenings.received = false;
    evenings.other.job = *job;
    evenings.other.job.offer[0].price = 11;
    open_settlement(&evenings.one, SPARE, 0);
    open_settlement(&evenings.other, SPARE, 0);
    ask_both(&evenings, (struct step){SEND_PRICES, 0, 2});
    ask_both(&evenings, (struct step){RECEIVE_PRICES, 2, 0});
    ask_both(&evenings, (struct step){SEND_PRICES, 0, 1});
    ask_both(&evenings, (struct step){MULTIPLY_OWN, 2, 2});
    expect(lent_on(&evenings.one, KNOWN, 2 * 2, 0) == 0, "box 2 knows the price of offer 0");
    close_evenings(&evenings);
}

void check_box_prices(void)
{
    run_group("what a box learns of prices: pairs of evenings under the same requests", pairs_of_evenings);
    run_group("what a box learns of prices: a superseded count", superseded_count);
}
