/* A job and its finished state lent to the calls for late and withdrawn bags, with the model beside them. */
#ifndef LATE_CALLING_H
#define LATE_CALLING_H

#include "calling.h"
#include "late_model.h"

/* Lends the job of the calling, its names and the state that a run of it leaves. There is room for so many tallies
   more, each with a local grocer more, and up to so many spare words. */
void open_finished(struct calling *calling, uint32_t spare, uint16_t more);

/* The state is made that of a run of the job as it is lent now, places as they are. */
void finish_again(struct calling *calling);

/* One call on whatever words are lent: the answer, which is also the model's unless a difference was found. Where the
   list was edited, the calling's T is that of the edited job. */
uint16_t ask_add(struct calling *calling, struct sizes sizes, const struct tally *tally);
uint16_t ask_withdraw(struct calling *calling, struct sizes sizes, uint16_t place);

/* An edit of the job as it is lent, without the model beside it: whatever is left is taken for right. */
uint16_t edit_alone(struct calling *calling, const struct edit *edit);

/* The packed words of the job as it is lent. */
size_t packed_now(const struct calling *calling);

/* Checks that a run of the lent job leaves this state and says what the edit said. */
void expect_run(struct calling *calling);

/* Checks that the writer's file of the lent job, read again, gives the lent tables, places included. */
void expect_written(struct calling *calling);

#endif
