/* The calls, by what they are lent, and random jobs. */
#include "jobs.h"
#include <stdio.h>
#include <string.h>

/* ---- the calls ---- */

size_t call(const struct calls *c, const struct work *w, struct buffers *b)
{
    if (c->other)
        return c->other(w, b);
    switch (w->operation) {
    case READ:
        return c->read(READER_TABLES);
    case WRITE:
        return c->write(SIZES, w->cycle, w->lists, WRITER_TABLES);
    case STEP:
        return c->step(SIZES, w->lists, STEP_TABLES, REQUEST);
    case RUN:
        return c->run(SIZES, w->lists, STEP_TABLES, CHOICES);
    case RECONCILE:
        return c->reconcile(b->tally_grocer, w->tallies, b->tally_box, w->tallies, b->tally_offer, w->tallies,
                            b->tally_count, w->tallies, b->tally_bag, w->tallies, b->tally_revision, w->tallies,
                            LENT(price), w->grocers, w->offers, w->wanted, LENT(owed));
    case ADD:
        return c->add(SIZES, w->lists, FINISHED_TABLES, LATE, LENT(edited));
    case WITHDRAW:
        return c->withdraw(SIZES, w->lists, FINISHED_TABLES, w->place, LENT(edited));
    case STORE:
        return c->store(w->grocers, w->cycle, STORE_TABLES);
    case TRIAL:
        return c->trial(SIZES, w->lists, STEP_TABLES, PREFERENCES);
    }
    return 0;
}

bool is_accepted(enum operation operation, size_t answer)
{
    switch (operation) {
    case WRITE: return answer >= BLOCK;
    case TRIAL: return answer >= ENTRIES_ROUNDS;
    default: return answer == 0;
    }
}

void lend_all(struct lengths *lent)
{
#define TABLE(type, name, entries, most) lent->name = (entries) * (most) + MORE;
    ALL_TABLES(TABLE)
#undef TABLE
}

/* ---- their words ---- */

static unsigned minimum(unsigned a, unsigned b) { return a < b ? a : b; }

unsigned width_of(const struct work *w) { return minimum(w->lists, WIDEST - 1) + 1; }

/* The bytes of a table. */
#define BYTES(type, entries, most) (((entries) * (size_t)minimum(most, width) + MORE) * sizeof(type))

void copy_words(struct buffers *to, const struct buffers *from, unsigned width)
{
#define TABLE(type, name, entries, most) memcpy(to->name, from->name, BYTES(type, entries, most));
    ALL_TABLES(TABLE)
#undef TABLE
}

bool same_words(const struct buffers *a, const struct buffers *b, unsigned width)
{
#define TABLE(type, name, entries, most) &&!memcmp(a->name, b->name, BYTES(type, entries, most))
    return true ALL_TABLES(TABLE);
#undef TABLE
}

/* ---- jobs ---- */

uint64_t seed = 20250102;

unsigned below(unsigned n)
{
    seed ^= seed << 13;
    seed ^= seed >> 7;
    seed ^= seed << 17;
    return (unsigned)((seed >> 11) % n);
}

void put_code(uint8_t *code, uint64_t number, unsigned digits)
{
    char text[24];
    int n = snprintf(text, sizeof text, "%0*llu", (int)digits, (unsigned long long)number);
    memset(code, 0, CODE);
    code[0] = (uint8_t)n;
    memcpy(code + 1, text, (size_t)n);
}

uint64_t code_value(const uint8_t *code)
{
    uint64_t v = 0;
    for (unsigned i = 1; i <= code[0]; i++)
        v = v * 10 + (code[i] - (unsigned)'0');
    return v;
}

static bool code_used(const struct buffers *b, unsigned n, uint64_t number)
{
    for (unsigned o = 0; o < n; o++)
        if (code_value(b->offer_code + o * CODE) == number)
            return true;
    return false;
}

void make_job(struct work *w, unsigned k, unsigned m, unsigned n, unsigned t)
{
    struct buffers *b = &w->start;
    memset(w, 0, sizeof *w);
    lend_all(&w->lent);
    w->lent.picked = 0;
    w->boxes = (uint16_t)k;
    w->grocers = (uint16_t)m;
    w->offers = (uint16_t)n;
    w->tallies = (uint16_t)t;
    w->cycle = (uint16_t)(257 * (m + n + t));
    for (unsigned o = 0; o < n; o++) {
        uint64_t number;
        do
            number = (uint64_t)below(1000000) * (1 + 9999 * (uint64_t)below(2)) % 10000000000u + below(10000);
        while (code_used(b, o, number));
        b->price[o] = below(10000000);
        b->offer_owner[o] = (uint16_t)below(k);
        put_code(b->offer_code + o * CODE, number, 1 + below(10));
    }
    for (unsigned g = 0; g < m; g++)
        b->grocer_owner[g] = (uint16_t)below(k);
    for (unsigned i = 0; i < t; i++) {
        unsigned o = below(n);
        b->tally_grocer[i] = (uint16_t)below(m);
        b->tally_box[i] = (uint16_t)below(k);
        b->tally_offer[i] = (uint16_t)o;
        b->tally_count[i] = (int32_t)below(199999) - 99999;
        put_code(b->tally_code + i * CODE, code_value(b->offer_code + o * CODE), 1 + below(10));
    }
}

bool name_used(const struct buffers *b, unsigned n, unsigned issuer, uint64_t number)
{
    for (unsigned o = 0; o < n; o++)
        if (b->offer_issuer[o] == issuer && code_value(b->offer_code + o * CODE) == number)
            return true;
    return false;
}

void give_issuers(struct work *w, unsigned issuers)
{
    struct buffers *b = &w->start;
    for (unsigned o = 0; o < w->offers; o++) {
        unsigned issuer;
        uint64_t number;
        do {
            issuer = below(issuers);
            number = code_value(b->offer_code + (below(2) ? o : below(o + 1)) * CODE);
        } while (name_used(b, o, issuer, number));
        b->offer_issuer[o] = (uint16_t)issuer;
        put_code(b->offer_code + o * CODE, number, 1 + below(10));
    }
    for (unsigned i = 0; i < w->tallies; i++) {
        unsigned o = b->tally_offer[i];
        b->tally_issuer[i] = b->offer_issuer[o];
        put_code(b->tally_code + i * CODE, code_value(b->offer_code + o * CODE), 1 + below(10));
    }
}

void count_again(struct buffers *b, unsigned i, unsigned from)
{
    b->tally_grocer[i] = b->tally_grocer[from];
    b->tally_offer[i] = b->tally_offer[from];
    b->tally_issuer[i] = b->tally_issuer[from];
    b->tally_bag[i] = b->tally_bag[from];
    put_code(b->tally_code + i * CODE, code_value(b->tally_code + from * CODE), 1 + below(10));
}

bool one_bag(const struct buffers *b, unsigned i, unsigned k)
{
    return b->tally_bag[i] == b->tally_bag[k] && b->tally_grocer[i] == b->tally_grocer[k] &&
           b->tally_offer[i] == b->tally_offer[k];
}

void give_bags(struct work *w, unsigned least, unsigned bags)
{
    struct buffers *b = &w->start;
    for (unsigned i = 0; i < w->tallies; i++) {
        unsigned before = 0;
        b->tally_bag[i] = (uint16_t)(least + below(bags));
        if (i && below(2))
            count_again(b, i, below(i));
        for (unsigned k = 0; k < i; k++)
            before += one_bag(b, i, k);
        b->tally_revision[i] = (uint16_t)(before * 40503);
    }
}

void take_last(struct work *w)
{
    const struct buffers *b = &w->start;
    unsigned i = --w->tallies;
    w->late = (struct late){ .grocer = b->tally_grocer[i],
                             .box = b->tally_box[i],
                             .count = b->tally_count[i],
                             .issuer = b->tally_issuer[i],
                             .bag = b->tally_bag[i],
                             .revision = b->tally_revision[i] };
    memcpy(w->late.code, b->tally_code + i * CODE, CODE);
}

void give_lists(struct work *w, unsigned lists)
{
    w->lists = (uint16_t)lists;
    for (unsigned i = w->offers; i < w->offers * (lists + 1); i++)
        w->start.price[i] = below(10000000);
}

void make_measured(struct work *w, bool whole, struct shape shape, unsigned number)
{
    seed = 977 + number;
    if (whole)
        make_job(w, BOXES, GROCERS, OFFERS, TALLIES);
    else
        make_job(w, BOXES, GROCERS / 10, OFFERS / 10, TALLIES / 10);
    if (shape.issuers > 1)
        give_issuers(w, shape.issuers);
    if (shape.bags)
        give_bags(w, 1, shape.bags);
    give_lists(w, shape.lists);
}

void store_sums(uint8_t *block)
{
    unsigned a = 0, b = 0;
    for (unsigned k = 0; k < 508; k++) {
        a += block[k];
        b += (508 - k) * block[k];
    }
    a %= 65521;
    b %= 65521;
    block[508] = (uint8_t)a, block[509] = (uint8_t)(a >> 8), block[510] = (uint8_t)b, block[511] = (uint8_t)(b >> 8);
}
