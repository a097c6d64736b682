#include "states.h"
#include <string.h>

static bool superseded(const struct buffers *b, unsigned tallies, unsigned i)
{
    for (unsigned k = 0; b->tally_bag[i] && k < tallies; k++)
        if (one_bag(b, i, k) && b->tally_revision[i] < b->tally_revision[k])
            return true;
    return false;
}

unsigned packed_totals(const struct work *w)
{
    bool has[BOXES][GROCERS] = { { false } };
    const struct buffers *b = &w->start;
    unsigned totals = 0;
    for (unsigned i = 0; i < w->tallies; i++)
        if (!superseded(b, w->tallies, i))
            has[b->tally_box[i]][b->tally_grocer[i]] = true;
    for (unsigned g = 0; g < w->grocers; g++)
        for (unsigned a = 0; a < w->boxes; a++)
            totals += has[a][g] || b->grocer_owner[g] == a;
    return totals;
}

void make_fresh(struct work *w)
{
    struct buffers *b = &w->start;
    unsigned width = width_of(w);
    for (unsigned o = 0; o < w->offers; o++)
        for (unsigned q = 0; q < width; q++)
            b->known[(b->offer_owner[o] * w->offers + o) * width + q] = b->price[q * w->offers + o];
}

/* ---- what is lent ---- */

static size_t whole_or(size_t words) { return below(8) ? TOTALS * WIDEST + MORE : words; }

/* Each table of totals whole, or about as long as so many words of packed totals. */
static void lend_totals(struct work *w, unsigned words)
{
    w->lent.working = whole_or(words + 1 - below(3));
    w->lent.total_transit = whole_or(words + 1 - below(3));
}

/* Another table whose length goes by the price lists has the words that it needs, or one less. */
static void lend_lists(struct work *w)
{
    size_t width = width_of(w), less = below(2);
    switch (below(4)) {
    case 0: w->lent.price = width * w->offers - less; break;
    case 1: w->lent.known = width * w->boxes * w->offers - less; break;
    case 2: w->lent.price_transit = width * w->boxes * w->offers - less; break;
    default: w->lent.statement = width * w->grocers - less; break;
    }
}

/* ---- requests ---- */

/* A word of a state gets another value: any byte of the prices; or of so many words of packed totals one, the one behind
   them or any, or one of the statements, the largest amount or one more; or the words sent are nearly the most. */
static void spoil(const struct work *w, struct buffers *b, unsigned words)
{
    unsigned width = width_of(w);
    int64_t *totals = below(2) ? b->working : b->total_transit, amount = 1000000000000000 + (int64_t)below(2);
    amount = below(2) ? amount : -amount;
    switch (below(8)) {
    case 0: b->statement[below(w->grocers * width + 1)] = amount; break;
    case 1: b->sent[0] = 1000001 - below(4 * width); break;
    case 2:
    case 3:
    case 4: totals[below(2) ? below(words) : words - below(2)] = amount; break;
    default: ((uint8_t *)(below(2) ? b->known : b->price_transit))[below(4 * BOXES * OFFERS * width)] = (uint8_t)below(256);
    }
}

/* Any request, as a rule one that some state permits. */
static void any_request(struct work *w)
{
    w->operation = STEP;
    w->kind = (uint16_t)(below(40) ? 1 + below(6) : below(9));
    w->first = (uint16_t)(below(40) ? below(w->boxes) : below(20));
    w->second = (uint16_t)(w->kind == 2 || w->kind == 5 ? w->first : below(w->boxes));
}

/* A request of other price lists than the state's, which stays as it is. */
static void request_of_others(struct work *w, const struct agreement *both)
{
    unsigned lists = w->lists;
    w->lists = (uint16_t)(below(8) ? below(WIDEST + 1) : 65535 - below(2));
    both->agree(w, "step of other price lists");
    w->lists = (uint16_t)lists;
}

void request_list(struct work *w, const struct agreement *both, unsigned requests)
{
    static struct buffers kept;
    unsigned words = packed_totals(w) * width_of(w);
    for (unsigned i = 0; i < requests; i++) {
        bool spoilt = !below(10);
        lend_all(&w->lent);
        lend_totals(w, words);
        if (!below(20))
            lend_lists(w);
        any_request(w);
        if (both->lists && !below(20))
            request_of_others(w, both);
        if (spoilt) {
            copy_words(&kept, &w->start, width_of(w));
            spoil(w, &w->start, words);
        }
        if (both->agree(w, "step") == 0)
            copy_words(&w->start, both->after, width_of(w));
        else if (spoilt)
            copy_words(&w->start, &kept, width_of(w));
    }
    lend_all(&w->lent);
    w->lent.picked = 0;
}

/* ---- runs ---- */

static bool statements_right(const struct work *w, const struct buffers *after)
{
    int64_t sum[GROCERS * WIDEST] = { 0 };
    const struct buffers *b = &w->start;
    unsigned width = width_of(w);
    for (unsigned i = 0; i < w->tallies; i++)
        for (unsigned q = 0; !superseded(b, w->tallies, i) && q < width; q++)
            sum[b->tally_grocer[i] * width + q] += (int64_t)b->tally_count[i] * b->price[q * w->offers + b->tally_offer[i]];
    return !memcmp(sum, after->statement, w->grocers * width * sizeof *sum);
}

bool run_some(struct work *w, const struct agreement *both)
{
    unsigned words = packed_totals(w) * width_of(w);
    bool right = true;
    w->operation = RUN;
    memset(w->start.working, 0xa5, sizeof w->start.working);
    memset(w->start.total_transit, 0xa5, sizeof w->start.total_transit);
    for (unsigned i = 0; i < 3; i++) {
        lend_all(&w->lent);
        lend_totals(w, words);
        if (!below(8))
            lend_lists(w);
        w->choices_len = i == 0 ? 0 : below(TALLIES + 1);
        for (unsigned c = 0; c < w->choices_len; c++)
            w->choices[c] = (uint16_t)below(65536);
        w->lent.picked = i == 2 ? SETTLEMENT_MAX_STEPS + MORE : below(SETTLEMENT_MAX_STEPS);
        if (both->agree(w, "run") == 0)
            right = right && statements_right(w, both->after);
    }
    lend_all(&w->lent);
    w->lent.picked = 0;
    w->choices_len = 0;
    memset(w->start.working, 0, sizeof w->start.working);
    memset(w->start.total_transit, 0, sizeof w->start.total_transit);
    return right;
}

/* ---- late and withdrawn bags ---- */

/* A tally of some offer, or nearly: as a rule it counts again what a tally before counted. */
static void some_late(struct work *w)
{
    const struct buffers *b = &w->start;
    unsigned o = below(w->offers);
    w->late = (struct late){ .grocer = (uint16_t)below(w->grocers + !below(30)),
                             .box = (uint16_t)below(w->boxes + !below(30)),
                             .count = (int32_t)below(199999u + 4 * !below(20)) - 99999,
                             .bag = (uint16_t)(below(2) ? below(4) : 0),
                             .revision = (uint16_t)below(40000) };
    if (w->tallies && below(2)) {
        unsigned t = below(w->tallies);
        o = b->tally_offer[t];
        w->late.grocer = b->tally_grocer[t];
        w->late.bag = b->tally_bag[t];
        w->late.revision = (uint16_t)(b->tally_revision[t] + below(3) - 1);
    }
    w->late.issuer = (uint16_t)(b->offer_issuer[o] + !below(30));
    memcpy(w->late.code, b->offer_code + o * CODE, CODE);
    if (!below(12))
        w->late.code[below(CODE)] = (uint8_t)(below(2) ? '0' + below(11) : below(12));
}

/* A place, name or bag of a tally, or the name of an offer, becomes another. */
static void wrong_entry(struct work *w)
{
    struct buffers *b = &w->start;
    unsigned t = w->tallies ? below(w->tallies) : 0, from = w->tallies ? below(w->tallies) : 0;
    switch (below(6)) {
    case 0: b->tally_offer[t] = (uint16_t)below(w->offers); break;
    case 1: b->tally_offer[t] = b->tally_offer[from]; break;
    case 2: memcpy(b->tally_code + t * CODE, b->tally_code + from * CODE, CODE); break;
    case 3: b->tally_code[t * CODE + below(CODE)] = (uint8_t)('0' + below(11)); break;
    case 4: b->tally_bag[t] = b->tally_bag[from], b->tally_revision[t] = b->tally_revision[from]; break;
    default: memcpy(b->offer_code + below(w->offers) * CODE, b->offer_code + below(w->offers) * CODE, CODE);
    }
}

/* Another word of the finished state, in its range or just beyond. */
static void wrong_end(struct work *w)
{
    struct buffers *b = &w->start;
    unsigned width = width_of(w), prices = w->boxes * w->offers * width, words = packed_totals(w) * width;
    switch (below(7)) {
    case 0: b->known[below(prices)] = below(2) ? 10000000 : below(10000000); break;
    case 1: b->price_transit[below(prices)] = below(2) ? 10000000 : 1; break;
    case 2: b->done[below(6u * w->boxes * w->boxes)] ^= (uint16_t)(1 + below(2)); break;
    case 3: b->sent[0] += below(2) ? 1 : 1000000; break;
    case 4: b->statement[below(w->grocers * width)] += below(2) ? 1 : 2000000000000000; break;
    case 5: b->working[below(words)] = below(2) ? 1 : -1000000000000001; break;
    default: b->total_transit[below(words)] = below(2) ? -1 : 1000000000000001;
    }
}

/* A table about as long as the present or the edited job needs it. */
static void lend_edit(struct work *w)
{
    size_t room = w->tallies + 2u - below(3);
    switch (below(6)) {
    case 0: w->lent.tally_code = room * CODE - below(2); break;
    case 1: w->lent.tally_offer = room; break;
    case 2: w->lent.tally_issuer = room; break;
    case 3: w->lent.offer_code = (size_t)w->offers * CODE - below(2); break;
    case 4: lend_lists(w); break;
    default: lend_totals(w, (packed_totals(w) + below(2)) * width_of(w));
    }
}

/* A run of the job as it is: both sides agree on it too. */
static void finish(struct work *w, const struct agreement *both)
{
    w->operation = RUN;
    if (both->agree(w, "run of an edited job") == 0)
        copy_words(&w->start, both->after, width_of(w));
}

void edit_some(struct work *w, const struct agreement *both, unsigned edits)
{
    static struct buffers kept;
    finish(w, both);
    for (unsigned i = 0; i < edits; i++) {
        copy_words(&kept, &w->start, width_of(w));
        if (!below(4))
            wrong_entry(w);
        if (below(2))
            finish(w, both);
        if (!below(6))
            wrong_end(w);
        if (!below(4))
            lend_edit(w);
        some_late(w);
        w->place = (uint16_t)(below(12) ? below(w->tallies + 1u) : below(65536));
        w->operation = below(2) ? ADD : WITHDRAW;
        bool edited = both->agree(w, w->operation == ADD ? "late bag" : "withdrawn bag") == 0;
        copy_words(&w->start, edited ? both->after : &kept, width_of(w));
        if (edited)
            w->tallies = (uint16_t)w->start.edited[0];
        lend_all(&w->lent);
        w->lent.picked = 0;
    }
}
