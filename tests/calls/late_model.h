/* A model of the calls for late and withdrawn bags that shares no code with the library: the list is edited as plain
   records, and the job settled afresh. */
#ifndef LATE_MODEL_H
#define LATE_MODEL_H

#include "model.h"

/* A tally put at the end of the list, or the one at a place removed. */
struct edit {
    bool adds;
    struct tally added; /* its code stands in the table ADDED_CODE, and its place is found by its name */
    uint16_t place;
};

/* The refusal, or 0 and every word as the edit leaves it, T and the run's report in EDITED. */
uint16_t model_edit(struct sizes sizes, const struct table tables[ALL_TABLES], const struct edit *edit);

/* The state that a run of the job leaves, into the tables, and what the run reports. */
struct report settle_afresh(const struct job *job, const struct table tables[ALL_TABLES]);

/* The words that each packed table needs. */
size_t packed_words_of(const struct job *job);

#endif
