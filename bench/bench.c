/* Our calls beside those of the plain C program, which two compilers have compiled, in one run: first that all give the
   same, then how long each takes.
   bench              that they agree, and the table
   bench --agree      that they agree, alone
   bench --ours NAME  ours alone, once, on the work of this name: for callgrind
   bench --names      the names */
#include "rounds.h"
#include "works.h"
#include <stdio.h>
#include <stdlib.h>
#include <string.h>

#define CALLS_OF(by)                                                                                                   \
    {                                                                                                                  \
        by##_read, by##_write, by##_step, by##_run, by##_reconcile, by##_add, by##_withdraw, by##_trial,               \
            by##_store_cycle, NULL                                                                                     \
    }
#define CALLS(by) CALLS_OF(by)
static const struct calls by_gcc = CALLS(gcc), by_clang = CALLS(clang);
#ifdef COUNTED /* gcc or clang: plain C in our place, so that callgrind counts it */
static const struct calls ours = CALLS(COUNTED);
#else
static const struct calls ours = { settlement_read, entries_write, settlement_step, settlement_run, entries_reconcile,
                                   entries_add,     entries_withdraw, entries_trial, entries_store_cycle, NULL };
#endif

/* ---- both give the same ---- */

static struct buffers room[2];
static unsigned long compared;

static void fail(const char *what)
{
    printf("bench: the two sides differ: %s\n", what);
    exit(1);
}

/* Plain C on the words of a call of ours that gave this answer: answer and every lent word must agree; room[0] has ours. */
static void agrees(const struct calls *plain, const struct work *w, size_t answer, const char *what)
{
    copy_words(&room[1], &w->start, width_of(w));
    size_t b = call(plain, w, &room[1]);
    if (answer != b) {
        printf("bench: %s: ours answers %zu, plain %zu\n", what, answer, b);
        fail(what);
    }
    if (!same_words(&room[0], &room[1], width_of(w)))
        fail(what);
}

/* Calls both sides on the same words, plain C as either compiler made it. The answer; room[0] has the words. */
static size_t agree(const struct work *w, const char *what)
{
    copy_words(&room[0], &w->start, width_of(w));
    size_t answer = call(&ours, w, &room[0]);
    agrees(&by_gcc, w, answer, what);
    agrees(&by_clang, w, answer, what);
    compared++;
    return answer;
}

static const struct agreement both = { agree, &room[0], WIDEST - 1 };

static size_t agree_on(struct work *w, enum operation operation, const char *what)
{
    w->operation = operation;
    return agree(w, what);
}

static void write_file(struct work *w)
{
    w->file_len = agree_on(w, WRITE, "writer");
    memcpy(w->start.file, room[0].file, sizeof room[0].file);
}

/* The writer on names that no offer has or that two have. */
static void wrong_names(struct work *w)
{
    static struct buffers kept;
    struct buffers *b = &w->start;
    for (unsigned i = 0; i < 20; i++) {
        unsigned o = below(w->offers), from = below(w->offers);
        kept = *b;
        if (w->tallies && below(2))
            b->tally_issuer[below(w->tallies)] = (uint16_t)below(4);
        else if (below(2))
            b->offer_issuer[o] = (uint16_t)below(4);
        else
            memcpy(b->offer_code + o * CODE, b->offer_code + from * CODE, CODE);
        agree_on(w, WRITE, "writer of wrong names");
        *b = kept;
    }
}

/* The writer with other numbers of price lists, prices that are just out of range, and a table of prices or a file that is a
   word short. */
static void wrong_lists(struct work *w)
{
    uint32_t *price = &w->start.price[below(w->offers * width_of(w) + 1)], kept = *price;
    size_t words = (size_t)w->offers * width_of(w);
    unsigned lists = w->lists;
    for (unsigned i = 0; i < 8; i++) {
        w->lists = (uint16_t)(below(2) ? lists : below(8) ? below(WIDEST + 1) : 65535 - below(2));
        *price = below(2) ? kept : 9999999 + below(2);
        w->lent.price = below(4) ? OFFERS * WIDEST + MORE : words - below(2);
        w->lent.file = below(4) ? FILE_BYTES + MORE : w->file_len - below(2);
        agree_on(w, WRITE, "writer of other price lists");
    }
    w->lists = (uint16_t)lists;
    *price = kept;
    lend_all(&w->lent);
    w->lent.picked = 0;
}

/* Every call on a job in which some tally's bag and revision are another one's, for the same grocer and offer or nearly. */
static void wrong_bags(struct work *w)
{
    static struct buffers kept;
    struct buffers *b = &w->start;
    for (unsigned i = 0; w->tallies && i < 20; i++) {
        unsigned t = below(w->tallies), from = below(w->tallies);
        kept = *b;
        if (below(4))
            count_again(b, t, from);
        b->tally_bag[t] = b->tally_bag[from];
        b->tally_revision[t] = (uint16_t)(b->tally_revision[from] + (below(4) == 0));
        w->wanted = b->tally_grocer[t];
        w->lent.picked = below(SETTLEMENT_MAX_STEPS);
        if (!below(8))
            w->lent.working = below(w->grocers); /* shorter than any job's, which is refused behind the bag */
        agree_on(w, WRITE, "writer of a bag counted twice");
        agree_on(w, RUN, "run of a bag counted twice");
        agree_on(w, STEP, "step of a bag counted twice");
        agree_on(w, TRIAL, "trial of a bag counted twice");
        agree_on(w, RECONCILE, "reconciliation of a bag counted twice");
        *b = kept;
        lend_all(&w->lent);
    }
    w->lent.picked = 0;
}

/* A byte of a block: any, or one of an issuer, a bag or a revision where the block has records of 24 bytes, or the number of
   price lists. */
static unsigned damaged_place(const uint8_t *block)
{
    if (block[0] == 0 && below(2))
        return 14;
    if (block[0] % 2 == 0 || below(3))
        return below(508);
    return 4 + 24 * below(block[1]) + (block[0] == 1 ? 16 + below(2) : 18 + below(6));
}

static void damage(struct work *w)
{
    uint8_t kept[FILE_BYTES];
    memcpy(kept, w->start.file, sizeof kept);
    for (unsigned i = 0; i < 40; i++) {
        size_t block = below(8) ? below((unsigned)(w->file_len / BLOCK)) * BLOCK : 0;
        uint8_t *p = w->start.file + block;
        p[damaged_place(p)] = (uint8_t)below(below(2) ? 256 : WIDEST + 1);
        store_sums(p);
        p[508] = (uint8_t)(p[508] + (below(8) == 0));
        agree_on(w, READ, "reader of a damaged file");
        memcpy(w->start.file, kept, sizeof kept);
    }
}

/* A store of words at and around the ends of their ranges, and cycles near the last; now and then a table lent short. */
static void store_at_random(struct work *w)
{
    for (unsigned i = 0; i < 300; i++) {
        unsigned next = below(2) ? below(40) : 65500 + below(40);
        w->grocers = (uint16_t)(below(8) ? 1 + below(12) : 250 + below(8));
        prepare_store(w, 1);
        w->cycle = (uint16_t)(next + below(below(2) ? 3 : 20) - 1);
        w->start.sent[0] = next;
        for (unsigned k = below(3); k > 0; k--) {
            int64_t beyond = (int64_t)below(3) - 1;
            w->start.statement[below(w->grocers)] = (below(2) ? 100000000000000 : -100000000000000) + beyond * below(2);
            w->start.working[below(13u * w->grocers)] = below(2) ? 100000000000000 : -100000000000000 - beyond * below(2);
            w->start.total_transit[below(w->grocers)] = below(2) ? 1300000000000000 + beyond * below(2) : -1300000000000000;
        }
        if (!below(8))
            w->lent.working = 13u * w->grocers - below(2);
        if (!below(8))
            w->lent.statement = w->grocers - below(2);
        agree_on(w, STORE, "store");
        lend_all(&w->lent);
    }
}

/* Trials by any lists, some of them none, with any room for places, idle rounds and preferences. */
static void try_some(struct work *w)
{
    for (unsigned i = 0; i < 6; i++) {
        uint16_t *list = w->start.preferences;
        for (unsigned k = 0; k < 6; k++) {
            unsigned at = below(k + 1);
            list[k] = list[at];
            list[at] = (uint16_t)(k + 1);
        }
        if (!below(6))
            list[below(6)] = (uint16_t)below(8);
        if (!below(8))
            w->lent.preferences = below(8);
        if (!below(8))
            w->lent.idle = below(BOXES + 1);
        w->lent.picked = i == 5 ? SETTLEMENT_MAX_STEPS + MORE : below(SETTLEMENT_MAX_STEPS);
        agree_on(w, TRIAL, "trial");
        lend_all(&w->lent);
    }
    w->lent.picked = 0;
}

static void agree_at_random(struct work *w)
{
    for (unsigned i = 0; i < 60; i++) {
        make_job(w, 1 + below(16), 1 + below(i % 2 ? 255 : 12), 1 + below(i % 2 ? 500 : 20), below(i % 2 ? 1001 : 60));
        if (i % 3)
            give_issuers(w, i % 3 == 1 ? 3 : 65536);
        if (i % 4 > 1)
            give_bags(w, 0, i % 4 == 2 ? 3 : 65536);
        give_lists(w, i % 5 > 1 ? below(WIDEST) : 0);
        write_file(w);
        agree_on(w, READ, "reader");
        wrong_names(w);
        wrong_lists(w);
        wrong_bags(w);
        damage(w);
        if (!run_some(w, &both))
            fail("statements and the plain sums");
        w->wanted = (uint16_t)below(w->grocers);
        agree_on(w, RECONCILE, "reconciliation");
        try_some(w);
        make_fresh(w);
        request_list(w, &both, 400);
        edit_some(w, &both, 40);
    }
    store_at_random(w);
}

/* ---- time ---- */

/* Medians of one work: our time over plain C's by either compiler, growth of ours and of the quicker plain C. */
struct result {
    double gcc, clang, growth, plain_growth;
};

enum { OURS, GCC, CLANG, OURS_LESS, GCC_LESS, CLANG_LESS, TIMES };

/* Rounds of six calls: ours and the two plain ones, on a whole job and on the lesser one. */
static struct result measure(const struct work whole[JOBS], const struct work less[JOBS])
{
    static double t[TIMES][ROUNDS];
    const struct side sides[TIMES] = { { &ours, whole }, { &by_gcc, whole }, { &by_clang, whole },
                                       { &ours, less },  { &by_gcc, less },  { &by_clang, less } };
    unsigned n = rounds(sides, TIMES, room, t);
    double gcc = median_ratio(t[OURS], t[GCC], n), clang = median_ratio(t[OURS], t[CLANG], n);
    bool quicker = gcc > clang;
    return (struct result){ gcc, clang, median_ratio(t[OURS], t[OURS_LESS], n),
                            median_ratio(t[quicker ? GCC : CLANG], t[quicker ? GCC_LESS : CLANG_LESS], n) };
}

/* ---- the works ---- */

/* Both sides agree on a work that is measured, and accept it. */
static void agree_and_accept(const struct work *w, const struct item *item)
{
    size_t answer = agree(w, item->what);
    if (!is_accepted(item->operation, answer))
        fail("a work that is measured is refused");
}

static void prepare_or_fail(struct work *w, const struct item *item, bool whole, unsigned number)
{
    if (!prepare(w, item, whole, number, &by_gcc, &room[0]))
        fail("no step of this kind is permitted, or no run finishes");
}

static struct work whole_jobs[JOBS], lesser_jobs[JOBS];

/* Every job of a work, whole and lesser. */
static void prepare_all(const struct item *item)
{
    for (unsigned k = 0; k < JOBS; k++) {
        prepare_or_fail(&whole_jobs[k], item, true, k);
        prepare_or_fail(&lesser_jobs[k], item, false, k);
    }
}

/* As it is measured, and a run or a trial also with room for the steps that it picks. */
static void agree_on_work(struct work *w, const struct item *item)
{
    agree_and_accept(w, item);
    if (item->operation != RUN && item->operation != TRIAL)
        return;
    w->lent.picked = SETTLEMENT_MAX_STEPS + MORE;
    agree_and_accept(w, item);
}

static void agree_on_works(void)
{
    for (unsigned i = 0; i < items_number; i++) {
        prepare_all(&items[i]);
        for (unsigned k = 0; k < JOBS; k++) {
            agree_on_work(&whole_jobs[k], &items[i]);
            agree_on_work(&lesser_jobs[k], &items[i]);
        }
    }
}

/* `ours/C` is over the quicker of the two. */
static void table(void)
{
    printf("%-31s | %6s | %6s | %6s | %6s | %8s\n", "what", "ours/C", "gcc", "clang", "growth", "C's own");
    for (unsigned i = 0; i < items_number; i++) {
        prepare_all(&items[i]);
        struct result r = measure(whole_jobs, lesser_jobs);
        printf("%-31s | %6.2f | %6.2f | %6.2f | %6.2f | %8.2f\n", items[i].what, r.gcc > r.clang ? r.gcc : r.clang, r.gcc,
               r.clang, r.growth, r.plain_growth);
        fflush(stdout);
    }
}

/* Ours alone, on one work: for callgrind, which collects inside the call only. */
static int ours_alone(const char *name)
{
    static struct work w;
    for (unsigned i = 0; i < items_number; i++)
        if (!strcmp(name, items[i].name)) {
            prepare_or_fail(&w, &items[i], true, 0);
            copy_words(&room[0], &w.start, width_of(&w));
            call(&ours, &w, &room[0]);
            return 0;
        }
    printf("bench: no work is called %s\n", name);
    return 2;
}

static int usage(void)
{
    fputs("usage: bench [--agree | --names | --ours NAME]\n", stderr);
    return 2;
}

int main(int argc, char **argv)
{
    static struct work w;
    bool agree_alone = argc == 2 && !strcmp(argv[1], "--agree");
    if (argc == 3 && !strcmp(argv[1], "--ours"))
        return ours_alone(argv[2]);
    if (argc == 2 && !strcmp(argv[1], "--names")) {
        for (unsigned i = 0; i < items_number; i++)
            puts(items[i].name);
        return 0;
    }
    if (argc != 1 && !agree_alone)
        return usage();
    agree_at_random(&w);
    agree_on_works();
    printf("both sides agree, answers and tables, in %lu calls\n", compared);
    if (!agree_alone)
        table();
    return 0;
}
