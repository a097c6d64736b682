/* A trial asked of the library and of the model, and all that they leave compared. */
#ifndef TRYING_H
#define TRYING_H

#include "calling.h"
#include "trial_model.h"

/* Lends the job's tables, a state of any words, a preference list of the kinds by number, idle rounds and a buffer for so
   many places; the tables have up to this many spare words, the packed ones just what the job needs. */
void open_trial(struct calling *calling, uint32_t spare, size_t places);

/* The first six words of the preference list. */
void prefer(struct calling *calling, const uint16_t kinds[6]);

/* One call on whatever words are lent: the refusal or 0, which is also the model's unless a difference was found. */
uint16_t ask_trial(struct calling *calling, struct sizes sizes);

/* What the last accepted trial came to, as the model has it. */
extern struct trial tried;

/* Checks that a run of the library into the same buffers leaves the state's tables just as they are, word for word. */
void expect_evening(struct calling *calling);

#endif
