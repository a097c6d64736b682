/* States of a job, and steps, runs and edits on which two sides must agree. */
#ifndef STATES_H
#define STATES_H
#include "jobs.h"

/* Two sides are called on the same words, and must give the same: `agree` is the answer, and `after` has the words then.
   Both take so many price lists after the first. */
struct agreement {
    size_t (*agree)(const struct work *w, const char *what);
    const struct buffers *after;
    unsigned lists;
};

/* How many packed totals a job has: of each box one for each own grocer, and one for each other that it has a standing tally
   of. Each has a word for every price list. */
unsigned packed_totals(const struct work *w);

/* The fresh state: all of its words must be 0 before. */
void make_fresh(struct work *w);

/* Requests of all kinds, wild ones too, on one state; some words are put out of range for one request, and some requests
   lend a table short or are of other price lists. */
void request_list(struct work *w, const struct agreement *both, unsigned requests);

/* Three runs, on old totals that are out of range. Whether the statements are the plain sums. */
bool run_some(struct work *w, const struct agreement *both);

/* So many edits of the finished job, one after the other. Some tallies, places and names are wrong, some words of the state
   are not those of a run, and some tables are lent short. */
void edit_some(struct work *w, const struct agreement *both, unsigned edits);

#endif
