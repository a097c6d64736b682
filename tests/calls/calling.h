/* A job lent to the calls of entries.h, with a model beside them: each call is asked of both, and all that they leave
   compared. */
#ifndef CALLING_H
#define CALLING_H

#include "jobs.h"
#include "lending.h"

struct calling {
    struct job job; /* set it, then open */
    struct lending lending;
};

/* Spare words that buffers have at the most. */
enum { SPARE = 6 };

/* Lends the job's tables and names, and buffers for all that the calls write; they have up to this many spare words. */
void open_calling(struct calling *calling, uint32_t spare);

/* The same with tables of zeros that are just long enough for these sizes, which may be out of range. */
void open_zeros(struct calling *calling, struct sizes room);
void close_calling(struct calling *calling);

/* A word as the library left it. */
int64_t word_of(const struct calling *calling, enum table_name name, size_t place);

/* One call on whatever words are lent: the answer, which is also the model's unless a difference was found. The
   writer's is the file's length or the refusal. */
size_t ask_write(struct calling *calling, struct sizes sizes);
uint16_t ask_messages(struct calling *calling, struct sizes sizes);
uint16_t ask_book(struct calling *calling, struct sizes sizes, uint16_t box);

/* The desk on M, N and the grocer wanted; its records are the words of the tables of tallies that are lent. */
struct question {
    uint16_t grocers, offers, wanted;
};
uint16_t ask_desk(struct calling *calling, struct question question);
void lend_records(struct calling *calling, size_t records);

/* The lent tallies get so few bags and revisions that 9 is often met. */
void near_bags(struct calling *calling);

/* The largest job, its words by rules: each offer below 250 has four tallies, some of them in one box and some of them
   alike; the others have none. Offer 100 is box 14's, which holds none of its tallies. */
void spread_job(struct job *job);

/* A table lent without its last needed word, or with that word just above its range or just below. */
enum fault { SHORT, ABOVE, BELOW, FAULTS };
void make_fault(struct calling *calling, enum table_name name, enum fault fault);

/* Checks the first words of a table, as the library left them, against those of a case. */
void expect_words(const struct calling *calling, enum table_name name, const int64_t due[], size_t length);

#endif
