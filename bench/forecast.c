/* Our forecast beside that of the plain C program, which two compilers have compiled, in one run: first that all give the
   same, answers and every bit of every lent word, then how long each takes.
   forecast           that they agree, and the table
   forecast --agree   that they agree, alone */
#define _POSIX_C_SOURCE 200809L
#include "rounds.h"
#include <stdio.h>
#include <stdlib.h>
#include <string.h>
#include <time.h>

typedef __typeof__(entries_forecast_fresh) fresh_call;
typedef __typeof__(entries_forecast_step) forecast_call;
extern fresh_call gcc_forecast_fresh, clang_forecast_fresh;
extern forecast_call gcc_forecast_step, clang_forecast_step;

/* All that a call is lent: the forecast, and its state behind it. */
struct lent {
    uint16_t offer_owner[OFFERS], grocer_owner[GROCERS], line_grocer[TALLIES], line_offer[TALLIES], line_box[TALLIES];
    double line_rate[TALLIES], line_value[TALLIES];
    double known[BOXES * OFFERS + MORE], value_transit[BOXES * OFFERS + MORE], part[BOXES * GROCERS + MORE],
        part_transit[BOXES * GROCERS + MORE], held[BOXES * GROCERS + MORE], forecast[GROCERS + MORE];
    uint16_t done[6 * BOXES * BOXES + MORE];
    uint32_t sent[1 + MORE];
};

/* What is called, and on what; kind 0 is a fresh state. */
struct request {
    uint16_t boxes, grocers, offers, lines, kind, first, second;
    size_t known_len; /* lent of one table, and of the others all */
    struct lent start;
};

static const struct both_calls {
    fresh_call *fresh;
    forecast_call *step;
} sides[] = { { entries_forecast_fresh, entries_forecast_step },
              { gcc_forecast_fresh, gcc_forecast_step },
              { clang_forecast_fresh, clang_forecast_step } };
enum { SIDES = 3 };

#define WORDS(table) l->table, sizeof l->table / sizeof *l->table
#define TABLES                                                                                                        \
    r->boxes, r->grocers, r->offers, r->lines, WORDS(offer_owner), WORDS(grocer_owner), WORDS(line_grocer),           \
        WORDS(line_offer), WORDS(line_box), WORDS(line_rate), WORDS(line_value), l->known, r->known_len,              \
        WORDS(value_transit), WORDS(part), WORDS(part_transit), WORDS(held), WORDS(forecast), WORDS(done), WORDS(sent)

static uint16_t call_side(unsigned side, const struct request *r, struct lent *l)
{
    if (r->kind == 0)
        return sides[side].fresh(TABLES);
    return sides[side].step(TABLES, r->kind, r->first, r->second);
}

/* ---- forecasts ---- */

static double value_of(unsigned wide) { return ((double)below(2000000001) - 1e9) / 1e9 * (wide ? 1e6 : 1.0); }

static void make_forecast(struct request *r, unsigned k, unsigned m, unsigned n, unsigned lines)
{
    struct lent *l = &r->start;
    double value[OFFERS];
    memset(l, 0, sizeof *l);
    r->boxes = (uint16_t)k, r->grocers = (uint16_t)m, r->offers = (uint16_t)n, r->lines = (uint16_t)lines;
    r->known_len = sizeof l->known / sizeof *l->known;
    for (unsigned o = 0; o < n; o++) {
        l->offer_owner[o] = (uint16_t)below(k);
        value[o] = below(8) ? value_of(below(2)) : -0.0;
    }
    for (unsigned g = 0; g < m; g++)
        l->grocer_owner[g] = (uint16_t)below(k);
    for (unsigned i = 0; i < lines; i++) {
        l->line_grocer[i] = (uint16_t)below(m);
        l->line_offer[i] = (uint16_t)below(n);
        l->line_box[i] = (uint16_t)below(k);
        l->line_rate[i] = value_of(below(2));
        l->line_value[i] = value[l->line_offer[i]];
    }
}

/* ---- all give the same ---- */

static struct lent room[SIDES];
static unsigned long compared;

static uint16_t agree(const struct request *r)
{
    uint16_t answer[SIDES];
    for (unsigned s = 0; s < SIDES; s++) {
        memcpy(&room[s], &r->start, sizeof room[s]);
        answer[s] = call_side(s, r, &room[s]);
        if (answer[s] != answer[0] || memcmp(&room[s], &room[0], sizeof room[s])) {
            printf("forecast: the sides differ: kind %u of %u and %u, ours answers %u, plain %u\n", r->kind, r->first,
                   r->second, answer[0], answer[s]);
            exit(1);
        }
    }
    compared++;
    return answer[0];
}

/* A word of a forecast or of its state that is out of range, or nearly. */
static void spoil(struct request *r)
{
    static const double odd[] = { 1e6, -1e6, 1000000.0000000001, 1e15, -1e15, 1.0000000000000002e15, 0.0, -0.0 };
    struct lent *l = &r->start;
    double x = below(6) ? odd[below(8)] : below(2) ? __builtin_inf() : __builtin_nan("");
    switch (below(10)) {
    case 0: l->known[below(r->boxes * r->offers)] = x; break;
    case 1: l->value_transit[below(r->boxes * r->offers)] = x; break;
    case 2: l->part[below(r->boxes * r->grocers)] = x; break;
    case 3: l->part_transit[below(r->boxes * r->grocers)] = x; break;
    case 4: l->held[below(r->boxes * r->grocers)] = x; break;
    case 5: l->forecast[below(r->grocers)] = x; break;
    case 6: l->done[below(6u * r->boxes * r->boxes)] = (uint16_t)below(3); break;
    case 7: l->sent[0] = 1000000 - below(3); break;
    case 8: l->line_rate[r->lines ? below(r->lines) : 0] = x; break;
    default: l->line_value[r->lines ? below(r->lines) : 0] = x; break;
    }
}

/* Requests one after the other, wild ones among them; now and then on a state that is spoilt, or with a table a word short. */
static void request_some(struct request *r, unsigned number)
{
    static struct lent kept;
    r->kind = 0;
    if (agree(r) == 0)
        memcpy(&r->start, &room[0], sizeof r->start);
    for (unsigned i = 0; i < number; i++) {
        bool spoilt = below(8) == 0;
        r->kind = (uint16_t)(below(40) ? 1 + below(6) : below(9));
        r->first = (uint16_t)below(r->boxes + (below(10) == 0));
        r->second = (uint16_t)(r->kind % 3 == 0 && below(10) ? r->first : below(r->boxes));
        kept = r->start;
        if (spoilt)
            spoil(r);
        if (below(20) == 0)
            r->known_len = (size_t)r->boxes * r->offers - below(2);
        uint16_t answer = agree(r);
        r->known_len = sizeof r->start.known / sizeof *r->start.known;
        memcpy(&r->start, answer == 0 && !spoilt ? &room[0] : &kept, sizeof r->start);
    }
}

static void agree_at_random(struct request *r)
{
    for (unsigned i = 0; i < 60; i++) {
        make_forecast(r, 1 + below(i % 2 ? 16 : 3), 1 + below(i % 2 ? 255 : 6), 1 + below(i % 2 ? 500 : 8), below(i % 2 ? 1001 : 30));
        request_some(r, 600);
    }
}

/* ---- the works ---- */

static const char *const works[] = { "forecast, a fresh state", "forecast step 1, send values",
                                     "forecast step 2, receive values", "forecast step 3, add up lines",
                                     "forecast step 4, send part sums", "forecast step 5, receive parts",
                                     "forecast step 6, sum own grocers" };

/* Every step of the kinds before this one is done, and then the first permitted one of this kind is asked. */
static void prepare(struct request *r, unsigned kind, bool whole)
{
    make_forecast(r, BOXES, whole ? GROCERS : 25, whole ? OFFERS : 50, whole ? TALLIES : 100);
    r->kind = 0;
    if (kind == 0)
        return;
    call_side(1, r, &r->start);
    for (unsigned i = 0; i < 6 * BOXES * BOXES; i++) {
        r->kind = (uint16_t)(1 + i / (BOXES * BOXES));
        r->first = (uint16_t)((7 + i / BOXES) % BOXES);
        r->second = (uint16_t)(r->kind % 3 == 0 ? r->first : i % BOXES);
        memcpy(&room[0], &r->start, sizeof room[0]);
        if (call_side(1, r, &room[0]))
            continue;
        if (r->kind == kind)
            return;
        memcpy(&r->start, &room[0], sizeof room[0]);
    }
    puts("forecast: no step of this kind is permitted");
    exit(1);
}

static struct request jobs[2][JOBS]; /* whole, and a tenth */

static void prepare_all(unsigned kind)
{
    for (unsigned k = 0; k < JOBS; k++)
        for (unsigned less = 0; less < 2; less++)
            prepare(&jobs[less][k], kind, !less);
}

/* The processor's time for this program. */
static double now(void)
{
    struct timespec t;
    clock_gettime(CLOCK_PROCESS_CPUTIME_ID, &t);
    return (double)t.tv_sec * 1e9 + (double)t.tv_nsec;
}

static void measure(const char *what)
{
    static double t[2 * SIDES][ROUNDS];
    unsigned n = 0;
    for (double end = now() + 1e9; n < ROUNDS && (n < LEAST || now() < end); n++)
        for (unsigned i = 0; i < 2 * SIDES; i++) {
            unsigned s = n / (2 * JOBS) % 2 ? 2 * SIDES - 1 - i : i;
            const struct request *r = &jobs[s / SIDES][n % JOBS];
            memcpy(&room[n / JOBS % 2], &r->start, sizeof room[0]);
            double start = now();
            call_side(s % SIDES, r, &room[n / JOBS % 2]);
            t[s][n] = now() - start;
        }
    double gcc = median_ratio(t[0], t[1], n), clang = median_ratio(t[0], t[2], n);
    unsigned quicker = gcc > clang ? 1 : 2;
    printf("%-31s | %6.2f | %6.2f | %6.2f | %6.2f | %8.2f\n", what, gcc > clang ? gcc : clang, gcc, clang,
           median_ratio(t[0], t[SIDES], n), median_ratio(t[quicker], t[SIDES + quicker], n));
    fflush(stdout);
}

int main(int argc, char **argv)
{
    bool alone = argc == 2 && !strcmp(argv[1], "--agree");
    if (argc != 1 && !alone) {
        fputs("usage: forecast [--agree]\n", stderr);
        return 2;
    }
    agree_at_random(&jobs[0][0]);
    for (unsigned kind = 0; kind <= 6; kind++) {
        prepare_all(kind);
        for (unsigned k = 0; k < JOBS; k++)
            for (unsigned less = 0; less < 2; less++)
                if (agree(&jobs[less][k])) {
                    puts("forecast: a work that is measured is refused");
                    return 1;
                }
        if (!alone)
            measure(works[kind]);
    }
    printf("all sides agree on forecasts, answers and every bit, in %lu calls\n", compared);
    return 0;
}
