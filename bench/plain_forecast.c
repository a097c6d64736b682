/* The plain C program that our forecast is measured against: a fresh state and a step, with all checks of the request. Each
   product and each sum is rounded by itself: it is compiled with -ffp-contract=off. */
#include "bench.h"
#include <stdbool.h>
#include <string.h>

#define NAMED_BY(by, call) by##_##call
#define NAMED(by, call) NAMED_BY(by, call)
#define plain_fresh NAMED(BY, forecast_fresh)
#define plain_step NAMED(BY, forecast_step)

static const double MAX_VALUE = 1e6, MAX_SUM = 1e15;
static const uint32_t MAX_SENT = 1000000;

struct forecast {
    unsigned boxes, grocers, offers, lines;
    const uint16_t *offer_owner, *grocer_owner, *line_grocer, *line_offer, *line_box;
    const double *line_rate, *line_value;
};
#define FORECAST                                                                                                      \
    { boxes, grocers, offers, lines, offer_owner, grocer_owner, line_grocer, line_offer, line_box, line_rate, line_value }

/* 20. */
#define SHORT                                                                                                         \
    (offer_owner_len < offers || grocer_owner_len < grocers || line_grocer_len < lines || line_offer_len < lines ||   \
     line_box_len < lines || line_rate_len < lines || line_value_len < lines ||                                       \
     known_len < (size_t)boxes * offers || value_transit_len < (size_t)boxes * offers ||                              \
     part_len < (size_t)boxes * grocers || part_transit_len < (size_t)boxes * grocers ||                              \
     held_len < (size_t)boxes * grocers || forecast_len < grocers || done_len < 6 * (size_t)boxes * boxes || sent_len < 1)

/* 21. A NaN is within nothing. */
static bool within(const double *p, size_t n, double most)
{
    bool good = true;
    for (size_t i = 0; i < n; i++)
        good &= (p[i] >= -most) & (p[i] <= most);
    return good;
}

static bool below_all(const uint16_t *p, size_t n, unsigned most)
{
    bool good = true;
    for (size_t i = 0; i < n; i++)
        good &= p[i] < most;
    return good;
}

static bool forecast_good(const struct forecast *f)
{
    return f->boxes >= 1 && f->boxes <= BOXES && f->grocers >= 1 && f->grocers <= GROCERS && f->offers >= 1 &&
           f->offers <= OFFERS && f->lines <= TALLIES && below_all(f->offer_owner, f->offers, f->boxes) &&
           below_all(f->grocer_owner, f->grocers, f->boxes) && below_all(f->line_grocer, f->lines, f->grocers) &&
           below_all(f->line_offer, f->lines, f->offers) && below_all(f->line_box, f->lines, f->boxes);
}

/* 34: one pass, with the bits of each offer's value. */
static bool lines_good(const struct forecast *f)
{
    uint64_t bits[OFFERS];
    uint8_t seen[OFFERS];
    uint64_t differ = 0;
    if (!within(f->line_rate, f->lines, MAX_VALUE) || !within(f->line_value, f->lines, MAX_VALUE))
        return false;
    memset(seen, 0, f->offers);
    for (unsigned i = 0; i < f->lines; i++) {
        unsigned o = f->line_offer[i];
        uint64_t here;
        memcpy(&here, &f->line_value[i], sizeof here);
        if (seen[o])
            differ |= bits[o] ^ here;
        bits[o] = here;
        seen[o] = 1;
    }
    return !differ;
}

/* The boxes that have lines of an offer and for a grocer, a bit for each; and for each box those that it sends values to,
   and those that it receives part sums from. */
struct words {
    uint16_t needs[OFFERS], sharers[GROCERS], to[BOXES], from[BOXES];
};

static void make_words(const struct forecast *f, struct words *w)
{
    memset(w, 0, sizeof *w);
    for (unsigned i = 0; i < f->lines; i++) {
        w->needs[f->line_offer[i]] |= (uint16_t)(1u << f->line_box[i]);
        w->sharers[f->line_grocer[i]] |= (uint16_t)(1u << f->line_box[i]);
    }
    for (unsigned o = 0; o < f->offers; o++)
        w->to[f->offer_owner[o]] |= w->needs[o];
    for (unsigned g = 0; g < f->grocers; g++)
        w->from[f->grocer_owner[g]] |= w->sharers[g];
    for (unsigned b = 0; b < f->boxes; b++) {
        w->to[b] &= (uint16_t) ~(1u << b);
        w->from[b] &= (uint16_t) ~(1u << b);
    }
}

/* 24 and 26. */
static bool has_step(const struct words *w, unsigned kind, unsigned a, unsigned b)
{
    switch (kind) {
    case 1: return w->to[a] >> b & 1;
    case 2: return w->to[b] >> a & 1;
    case 4: return w->from[b] >> a & 1;
    case 5: return w->from[a] >> b & 1;
    default: return true;
    }
}

#define MARK(kind, a, b) done[(((kind)-1) * boxes + (a)) * boxes + (b)]

static bool step_ready(const struct words *w, const uint16_t *done, unsigned boxes, unsigned kind, unsigned a, unsigned b)
{
    bool all = true;
    switch (kind) {
    case 2: return MARK(1, b, a);
    case 3:
        for (unsigned c = 0; c < boxes; c++)
            all &= (~w->to[c] >> a & 1) | MARK(2, a, c);
        return all;
    case 4: return MARK(3, a, a);
    case 5: return MARK(4, b, a);
    case 6:
        for (unsigned c = 0; c < boxes; c++)
            all &= (~w->from[a] >> c & 1) | MARK(5, a, c);
        return all && MARK(3, a, a);
    default: return true;
    }
}

static unsigned words_to(const uint16_t *owner, const uint16_t *mask, unsigned n, unsigned a, unsigned b)
{
    unsigned words = 0;
    for (unsigned i = 0; i < n; i++)
        words += (owner[i] == a) & (mask[i] >> b & 1);
    return words;
}

/* The words of owner a that box b has a line of are taken from one row to another. */
static void take_row(const uint16_t *owner, const uint16_t *mask, unsigned n, unsigned a, unsigned b, double *from, double *to)
{
    for (unsigned i = 0; i < n; i++)
        if ((owner[i] == a) & (mask[i] >> b & 1)) {
            to[i] = from[i];
            from[i] = 0.0;
        }
}

static void add_lines(const struct forecast *f, unsigned a, const double *known, double *part)
{
    memset(part, 0, f->grocers * sizeof *part);
    for (unsigned i = 0; i < f->lines; i++)
        if (f->line_box[i] == a) {
            double product = f->line_rate[i] * known[f->line_offer[i]];
            part[f->line_grocer[i]] = part[f->line_grocer[i]] + product;
        }
}

/* The sums of the grocers of box a, by ascending box; whether all are in range. */
static bool own_sums(const struct forecast *f, const struct words *w, unsigned a, const double *part, const double *held,
                     double *sum)
{
    bool good = true;
    for (unsigned g = 0; g < f->grocers; g++) {
        if (f->grocer_owner[g] != a)
            continue;
        sum[g] = 0.0;
        for (unsigned left = w->sharers[g]; left; left &= left - 1) {
            unsigned c = (unsigned)__builtin_ctz(left);
            sum[g] = sum[g] + (c == a ? part : held)[c * f->grocers + g];
        }
        good &= (sum[g] >= -MAX_SUM) & (sum[g] <= MAX_SUM);
    }
    return good;
}

static void put_sums(const struct forecast *f, const struct words *w, unsigned a, const double *sum, double *part, double *held,
                     double *forecast)
{
    for (unsigned g = 0; g < f->grocers; g++) {
        if (f->grocer_owner[g] != a)
            continue;
        forecast[g] = sum[g];
        for (unsigned left = w->sharers[g]; left; left &= left - 1) {
            unsigned c = (unsigned)__builtin_ctz(left);
            (c == a ? part : held)[c * f->grocers + g] = 0.0;
        }
    }
}

uint16_t plain_fresh(ENTRIES_FORECAST)
{
    const struct forecast f = FORECAST;
    if (SHORT)
        return 20;
    if (!forecast_good(&f))
        return 21;
    if (!lines_good(&f))
        return 34;
    memset(known, 0, (size_t)boxes * offers * sizeof *known);
    memset(value_transit, 0, (size_t)boxes * offers * sizeof *value_transit);
    memset(part, 0, (size_t)boxes * grocers * sizeof *part);
    memset(part_transit, 0, (size_t)boxes * grocers * sizeof *part_transit);
    memset(held, 0, (size_t)boxes * grocers * sizeof *held);
    memset(forecast, 0, grocers * sizeof *forecast);
    memset(done, 0, 6 * (size_t)boxes * boxes * sizeof *done);
    sent[0] = 0;
    for (unsigned i = 0; i < lines; i++)
        known[(size_t)offer_owner[line_offer[i]] * offers + line_offer[i]] = line_value[i];
    return 0;
}

uint16_t plain_step(ENTRIES_FORECAST_STEP)
{
    const struct forecast f = FORECAST;
    unsigned a = first, b = second, more = 0;
    struct words w;
    double sum[GROCERS];
    if (SHORT)
        return 20;
    if (!forecast_good(&f) || !within(known, (size_t)boxes * offers, MAX_VALUE) ||
        !within(value_transit, (size_t)boxes * offers, MAX_VALUE) || !within(part, (size_t)boxes * grocers, MAX_SUM) ||
        !within(part_transit, (size_t)boxes * grocers, MAX_SUM) || !within(held, (size_t)boxes * grocers, MAX_SUM) ||
        !within(forecast, grocers, MAX_SUM) || !below_all(done, 6 * (size_t)boxes * boxes, 2) || sent[0] > MAX_SENT)
        return 21;
    if (!lines_good(&f))
        return 34;
    if (kind < 1 || kind > 6)
        return 22;
    if (a >= boxes || b >= boxes || (a == b) != (kind == 3 || kind == 6))
        return 23;
    make_words(&f, &w);
    if (!has_step(&w, kind, a, b))
        return 24;
    if (MARK(kind, a, b))
        return 25;
    if (!step_ready(&w, done, boxes, kind, a, b))
        return 26;
    if (kind == 1)
        more = words_to(offer_owner, w.needs, offers, a, b);
    if (kind == 4)
        more = words_to(grocer_owner, w.sharers, grocers, b, a);
    if (sent[0] + more > MAX_SENT || (kind == 6 && !own_sums(&f, &w, a, part, held, sum)))
        return 21;
    switch (kind) {
    case 1:
        for (unsigned o = 0; o < offers; o++)
            if ((offer_owner[o] == a) & (w.needs[o] >> b & 1))
                value_transit[b * offers + o] = known[a * offers + o];
        break;
    case 2: take_row(offer_owner, w.needs, offers, b, a, value_transit + a * offers, known + a * offers); break;
    case 3: add_lines(&f, a, known + a * offers, part + a * grocers); break;
    case 4: take_row(grocer_owner, w.sharers, grocers, b, a, part + a * grocers, part_transit + a * grocers); break;
    case 5: take_row(grocer_owner, w.sharers, grocers, a, b, part_transit + b * grocers, held + b * grocers); break;
    default: put_sums(&f, &w, a, sum, part, held, forecast); break;
    }
    MARK(kind, a, b) = 1;
    sent[0] += more;
    return 0;
}
