/* The works that are measured. */
#ifndef WORKS_H
#define WORKS_H
#include "states.h"

struct item {
    const char *name, *what;
    enum operation operation;
    unsigned kind, choices; /* the kind of a step, or the one that a trial likes best, 1 or 6 */
    struct shape shape;
};

extern const struct item items[];
extern const unsigned items_number;

/* The whole job of a work, or the lesser one that its growth is over: a tenth of it, or where it has several price lists
   the same job with the first alone. `number` picks one of the jobs. The calls make what comes before, in this room.
   False where no step of its kind is permitted, or no run finishes. */
bool prepare(struct work *w, const struct item *item, bool whole, unsigned number, const struct calls *calls,
             struct buffers *room);

/* A store of the grocers of a work, with thirteen cycles in it, that is given a cycle so many numbers on. */
void prepare_store(struct work *w, unsigned gap);

#endif
