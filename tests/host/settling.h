/* A job lent to the library, with the model beside it: each call is asked of both, and all that they leave compared. */
#ifndef SETTLING_H
#define SETTLING_H

#include "jobs.h"
#include "lending.h"

struct settlement {
    struct job job;         /* set it, then open */
    struct machine machine; /* the model's state, which requests carry on */
    struct lending lending;
    bool stands[MOST_TALLIES]; /* whether a tally of the job stood when it was opened */
};

/* Spare words that buffers have at the most. */
enum { SPARE = 6 };

/* Lends the job's tables and a fresh state; the buffers have up to this many spare words, and room for the choices.
   Packed tables have now and then as many as suffice for every job of these sizes, or full rows. The buffer of the
   steps picked has room for all of the job's, and so many words more; of it some length is lent. */
void open_settlement(struct settlement *settlement, uint32_t spare, size_t choices);
void close_settlement(struct settlement *settlement);

/* The steps that the job has. */
size_t steps_of_job(const struct settlement *settlement);

/* Writes the model's state to the buffers. */
void lend_state(struct settlement *settlement);

/* The words that a table needs, of the job as it was opened. */
size_t words_needed(const struct settlement *settlement, enum table_name name);

/* The word of an entry on a list in a table of the state: the entry is an offer of a box, a grocer, or a packed place. */
size_t word_place(const struct settlement *settlement, size_t entry, size_t list);

/* Whether packed tables have a place for a box's total of a grocer; its word on a list, as the library left it, or 0;
   and it put into a buffer and its twin, where there is one. */
bool has_total(const struct settlement *settlement, size_t box, size_t grocer);
int64_t lent_total(const struct settlement *settlement, enum table_name name, size_t box, size_t grocer, size_t list);
void put_total(struct settlement *settlement, enum table_name name, size_t box, size_t grocer, size_t list,
               int64_t word);

/* A word as the library left it, and that of an entry on a list. */
int64_t lent_word(const struct settlement *settlement, enum table_name name, size_t place);
int64_t lent_on(const struct settlement *settlement, enum table_name name, size_t entry, size_t list);

/* A word of an entry put into a buffer and its twin, on a list or on every list. */
void put_on(struct settlement *settlement, enum table_name name, size_t entry, size_t list, int64_t word);
void put_on_all(struct settlement *settlement, enum table_name name, size_t entry, int64_t word);

/* Checks that every statement is the plain sum of its grocer, on every list. */
void expect_plain_sums(const struct settlement *settlement);

/* Checks that statements, working totals and totals in transit are together the sum over the standing tallies already
   added, grocer by grocer and list by list. */
void expect_running_sum(const struct settlement *settlement);

/* Every word of a state as the library left it, one table after the other. */
enum { MOST_STATE = 8 * MOST_WIDTH * (MOST_BOXES * MOST_OFFERS + 2 * MOST_TOTALS + MOST_GROCERS) + 2 * MOST_STEPS + 4 };
struct state_words {
    size_t length;
    uint8_t bytes[MOST_STATE];
};
void keep_state(const struct settlement *settlement, struct state_words *kept);
bool same_state(const struct state_words *one, const struct state_words *other);

/* One request of the list: the answer, which is also the model's unless a difference was found. */
uint16_t ask(struct settlement *settlement, struct step step);

/* One request on whatever words are lent; the model's state is read from them, not carried on. */
uint16_t ask_on_words(struct settlement *settlement, struct sizes sizes, struct step step);

/* The same, and the answer is held to a number that is known without the model. */
void expect_step(struct settlement *settlement, struct step step, uint16_t due);

/* A ready step of the model's state; where there is none, one that is refused. */
struct step some_ready_step(const struct settlement *settlement);

/* The place of a step's mark, and the mark set. */
size_t mark_place(const struct settlement *settlement, struct step step);
void set_mark(struct settlement *settlement, struct step step);

/* The step that a word of the steps picked names, as the library left it. */
struct step picked_step(const struct settlement *settlement, size_t i);

/* A run on whatever words are lent; the steps that the model picks. */
struct picks {
    size_t length;
    struct step step[MOST_STEPS];
};
uint16_t ask_run(struct settlement *settlement, struct sizes sizes, struct picks *picks);

/* Buffers for the reader, with up to this many spare words each, and room for a file of this length. */
void open_reading(struct lending *lending, uint32_t spare, size_t length);

/* The reader on a file; nothing but the model's answer and its words may come of it. */
uint16_t ask_read(struct lending *lending, const uint8_t *file, size_t length);

#endif
