#include "works.h"

const struct item items[] = {
    { "read", "reader, the longest file", READ, 0, 0, { 1, 0, 0 } },
    { "write", "writer, the same job", WRITE, 0, 0, { 1, 0, 0 } },
    { "issuers", "reader, many issuers", READ, 0, 0, { 65536, 0, 0 } },
    { "step1", "step 1, send prices", STEP, 1, 0, { 1, 0, 0 } },
    { "step2", "step 2, multiply own", STEP, 2, 0, { 1, 0, 0 } },
    { "step3", "step 3, receive prices", STEP, 3, 0, { 1, 0, 0 } },
    { "step4", "step 4, send totals", STEP, 4, 0, { 1, 0, 0 } },
    { "step5", "step 5, own totals", STEP, 5, 0, { 1, 0, 0 } },
    { "step6", "step 6, receive totals", STEP, 6, 0, { 1, 0, 0 } },
    { "run", "run without choices", RUN, 0, 0, { 1, 0, 0 } },
    { "choices", "run with choices", RUN, 0, TALLIES, { 1, 0, 0 } },
    { "reconcile", "reconciliation, 1,000 records", RECONCILE, 0, 0, { 1, 0, 0 } },
    { "store", "store, the next cycle", STORE, 1, 0, { 1, 0, 0 } },
    { "store-far", "store, thirteen numbers on", STORE, 13, 0, { 1, 0, 0 } },
    { "read-bags", "reader, tallies in bags", READ, 0, 0, { 1, 65535, 0 } },
    { "write-bags", "writer, tallies in bags", WRITE, 0, 0, { 1, 65535, 0 } },
    { "step1-bags", "step 1, tallies in bags", STEP, 1, 0, { 1, 65535, 0 } },
    { "step2-bags", "step 2, tallies in bags", STEP, 2, 0, { 1, 65535, 0 } },
    { "step3-bags", "step 3, tallies in bags", STEP, 3, 0, { 1, 65535, 0 } },
    { "step4-bags", "step 4, tallies in bags", STEP, 4, 0, { 1, 65535, 0 } },
    { "step5-bags", "step 5, tallies in bags", STEP, 5, 0, { 1, 65535, 0 } },
    { "step6-bags", "step 6, tallies in bags", STEP, 6, 0, { 1, 65535, 0 } },
    { "run-bags", "run, tallies in bags", RUN, 0, 0, { 1, 65535, 0 } },
    { "choices-bags", "run with choices, in bags", RUN, 0, TALLIES, { 1, 65535, 0 } },
    { "reconcile-bags", "reconciliation, in bags", RECONCILE, 0, 0, { 1, 65535, 0 } },
    { "read-lists", "reader, eight lists", READ, 0, 0, { 1, 0, 7 } },
    { "write-lists", "writer, eight lists", WRITE, 0, 0, { 1, 0, 7 } },
    { "step1-lists", "step 1, eight lists", STEP, 1, 0, { 1, 0, 7 } },
    { "step2-lists", "step 2, eight lists", STEP, 2, 0, { 1, 0, 7 } },
    { "step3-lists", "step 3, eight lists", STEP, 3, 0, { 1, 0, 7 } },
    { "step4-lists", "step 4, eight lists", STEP, 4, 0, { 1, 0, 7 } },
    { "step5-lists", "step 5, eight lists", STEP, 5, 0, { 1, 0, 7 } },
    { "step6-lists", "step 6, eight lists", STEP, 6, 0, { 1, 0, 7 } },
    { "run-lists", "run, eight lists", RUN, 0, 0, { 1, 0, 7 } },
    { "choices-lists", "run with choices, eight lists", RUN, 0, TALLIES, { 1, 0, 7 } },
    { "add", "late bag added", ADD, 0, 0, { 1, 0, 0 } },
    { "withdraw", "bag withdrawn", WITHDRAW, 0, 0, { 1, 0, 0 } },
    { "add-bags", "late bag added, in bags", ADD, 0, 0, { 1, 65535, 0 } },
    { "withdraw-bags", "bag withdrawn, in bags", WITHDRAW, 0, 0, { 1, 65535, 0 } },
    { "add-lists", "late bag added, eight lists", ADD, 0, 0, { 1, 0, 7 } },
    { "withdraw-lists", "bag withdrawn, eight lists", WITHDRAW, 0, 0, { 1, 0, 7 } },
    { "trial", "trial, kinds ascending", TRIAL, 1, 0, { 1, 0, 0 } },
    { "trial-back", "trial, kinds descending", TRIAL, 6, 0, { 1, 0, 0 } },
};
const unsigned items_number = sizeof items / sizeof *items;

/* Every step of the kinds before this one is done, and then the first permitted one of this kind from box 7 on is asked.
   Whether there is one. */
static bool prepare_step(struct work *w, unsigned kind, const struct calls *calls, struct buffers *room)
{
    w->operation = STEP;
    make_fresh(w);
    for (unsigned i = 0; i < kind * BOXES * BOXES; i++) {
        w->kind = (uint16_t)(1 + i / (BOXES * BOXES));
        w->first = (uint16_t)((7 + i / BOXES) % BOXES);
        w->second = (uint16_t)(w->kind == 2 || w->kind == 5 ? w->first : i % BOXES);
        copy_words(room, &w->start, width_of(w));
        if (call(calls, w, room))
            continue;
        if (w->kind == kind)
            return true;
        copy_words(&w->start, room, width_of(w));
    }
    return false;
}

/* A finished state. The job's last tally is the late one, and not yet there; the one in the middle is withdrawn. Whether a
   run finishes. */
static bool prepare_edit(struct work *w, enum operation operation, const struct calls *calls)
{
    w->place = (uint16_t)(w->tallies / 2);
    if (operation == ADD)
        take_last(w);
    w->operation = RUN;
    return call(calls, w, &w->start) == 0;
}

void prepare_store(struct work *w, unsigned gap)
{
    struct buffers *b = &w->start;
    w->lists = WIDEST - 1; /* as many words as its rows need are copied */
    b->sent[0] = 500;
    w->cycle = (uint16_t)(499 + gap);
    for (unsigned g = 0; g < w->grocers; g++) {
        b->statement[g] = (int64_t)below(1000000000) - 500000000;
        b->total_transit[g] = 0;
        for (unsigned row = 0; row < 13; row++) {
            b->working[row * w->grocers + g] = (int64_t)below(1000000000) - 500000000;
            b->total_transit[g] += b->working[row * w->grocers + g];
        }
    }
}

bool prepare(struct work *w, const struct item *item, bool whole, unsigned number, const struct calls *calls,
             struct buffers *room)
{
    struct shape shape = item->shape;
    if (!whole)
        shape.lists = 0;
    make_measured(w, whole || item->shape.lists, shape, number);
    if (item->operation == READ) {
        w->operation = WRITE;
        w->file_len = call(calls, w, &w->start);
    }
    if (item->operation == STEP && !prepare_step(w, item->kind, calls, room))
        return false;
    if ((item->operation == ADD || item->operation == WITHDRAW) && !prepare_edit(w, item->operation, calls))
        return false;
    if (item->operation == STORE)
        prepare_store(w, item->kind);
    w->operation = item->operation;
    w->choices_len = item->choices;
    for (unsigned c = 0; c < item->choices; c++)
        w->choices[c] = (uint16_t)below(65536);
    for (unsigned i = 0; i < 6; i++)
        w->start.preferences[i] = (uint16_t)(item->kind == 6 ? 6 - i : i + 1);
    return true;
}
