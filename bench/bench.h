/* The calls that are measured: ours, those of host/settlement.h and six of tests/calls/entries.h, and beside each the one of
   the plain C program. A slice is a pointer and then its number of words. The answer is 0, or the number of the refusal.
   plain.c is compiled by gcc and by the kit's clang, and bench/run gives its calls the name of the compiler. */
#ifndef BENCH_H
#define BENCH_H
#include "entries.h"
#include "settlement.h"

enum {
    BOXES = SETTLEMENT_MAX_BOXES,
    GROCERS = SETTLEMENT_MAX_GROCERS,
    OFFERS = SETTLEMENT_MAX_OFFERS,
    TALLIES = SETTLEMENT_MAX_TALLIES,
    WIDEST = SETTLEMENT_MAX_WIDTH, /* the most words of an entry, one for each price list */
    PRICES = SETTLEMENT_MAX_PRICES,
    TOTALS = SETTLEMENT_MAX_GROCERS + SETTLEMENT_MAX_TALLIES, /* the most packed totals, of one list */
    CODE = SETTLEMENT_CODE,
    BLOCK = 512,
    FILE_BYTES = SETTLEMENT_MAX_FILE
};

typedef __typeof__(settlement_read) read_call;
typedef __typeof__(settlement_step) step_call;
typedef __typeof__(settlement_run) run_call;
typedef __typeof__(entries_write) write_call;
typedef __typeof__(entries_reconcile) reconcile_call;
typedef __typeof__(entries_add) add_call;
typedef __typeof__(entries_withdraw) withdraw_call;
typedef __typeof__(entries_trial) trial_call;
typedef __typeof__(entries_store_cycle) store_call;

#define PLAIN_CALLS(by)                                                                                               \
    extern read_call by##_read;                                                                                       \
    extern step_call by##_step;                                                                                       \
    extern run_call by##_run;                                                                                         \
    extern write_call by##_write;                                                                                     \
    extern reconcile_call by##_reconcile;                                                                             \
    extern add_call by##_add;                                                                                         \
    extern withdraw_call by##_withdraw;                                                                               \
    extern trial_call by##_trial;                                                                                     \
    extern store_call by##_store_cycle;
PLAIN_CALLS(gcc)
PLAIN_CALLS(clang)

#endif
