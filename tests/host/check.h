/* Named groups of checks, and what they have seen. */
#ifndef CHECK_H
#define CHECK_H

#include <stdbool.h>
#include <stdint.h>

enum entry { READ, STEP, RUN, WRITE, RECONCILE, MESSAGES, BOOK, ADD, WITHDRAW, TRIAL, STORE, FORECAST_FRESH,
             FORECAST_STEP, ENTRIES };

/* Whether the program ends with the first check that fails. */
extern bool stop_at_first;

/* Groups whose name has not this text are left out. */
extern const char *only_groups;

/* Runs one group and prints its line; its first differences are printed before. */
void run_group(const char *name, void (*group)(void));

/* A group that takes long: it is run after all others, so that a fault which another group sees too is seen soon. */
void run_last(const char *name, void (*group)(void));

/* Runs the groups that were kept for the end. */
void run_kept(void);

/* Where the checks stand, for the text of a difference. */
void at_case(const char *format, ...) __attribute__((format(printf, 1, 2)));

/* Counts one check; where it does not hold, prints the text. */
bool expect(bool holds, const char *format, ...) __attribute__((format(printf, 2, 3)));

/* Counts the answer of an entry. */
void note_answer(enum entry entry, uint16_t answer);

/* Prints the answers by entry that was called and number, and the last line; the exit status. That no group was run is
 * a failure. */
int close_checks(void);

#endif
