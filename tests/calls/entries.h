/* The calls of the crate `test_calls`, for tests and the benchmark: the writer, the reconciliation, the tables of
   messages, the local book, late and withdrawn bags, the trial and the store of thirteen cycles. Link with
   libtest_calls.a. Buffers and answers are as in host/settlement.h: a slice is a pointer and then its number of
   words, and a refused call has changed no word. */
#ifndef ENTRIES_H
#define ENTRIES_H

#include <stddef.h>
#include <stdint.h>

/* Counts of a table of messages, and numbers of a book. */
enum { ENTRIES_TABLE = 256, ENTRIES_NUMBERS = 3 };

/* K, M, N, T, the number of additional price lists and the tables of a job. */
#define ENTRIES_JOB                                                                                                    \
    uint16_t boxes, uint16_t grocers, uint16_t offers, uint16_t tallies, uint16_t lists, const uint32_t *price,        \
        size_t price_len, const uint16_t *offer_owner, size_t offer_owner_len, const uint16_t *grocer_owner,           \
        size_t grocer_owner_len, const uint16_t *tally_grocer, size_t tally_grocer_len, const uint16_t *tally_box,     \
        size_t tally_box_len, const uint16_t *tally_offer, size_t tally_offer_len, const int32_t *tally_count,         \
        size_t tally_count_len, const uint16_t *tally_bag, size_t tally_bag_len, const uint16_t *tally_revision,       \
        size_t tally_revision_len

/* Writes the job file of this cycle and these price lists into `out`: the answer is the file's length, or the number of
   the refusal. */
#define ENTRIES_WRITE                                                                                                  \
    uint16_t boxes, uint16_t grocers, uint16_t offers, uint16_t tallies, uint16_t cycle, uint16_t lists,               \
        const uint32_t *price, size_t price_len, const uint16_t *offer_owner, size_t offer_owner_len,                  \
        const uint8_t *offer_code, size_t offer_code_len, const uint16_t *offer_issuer, size_t offer_issuer_len,       \
        const uint16_t *grocer_owner, size_t grocer_owner_len, const uint16_t *tally_grocer, size_t tally_grocer_len,  \
        const uint16_t *tally_box, size_t tally_box_len, const uint8_t *tally_code, size_t tally_code_len,             \
        const int32_t *tally_count, size_t tally_count_len, const uint16_t *tally_issuer, size_t tally_issuer_len,     \
        const uint16_t *tally_bag, size_t tally_bag_len, const uint16_t *tally_revision, size_t tally_revision_len,    \
        uint8_t *out, size_t out_len
size_t entries_write(ENTRIES_WRITE);

/* What the grocer wanted is owed, into owed[0], by the records that stand within their list. The fields of the records
   are lent apart, one word of each for every word of tally_grocer; 20 also for a field that is shorter, or no word for
   the amount. */
#define ENTRIES_RECONCILE                                                                                              \
    const uint16_t *tally_grocer, size_t tally_grocer_len, const uint16_t *tally_box, size_t tally_box_len,            \
        const uint16_t *tally_offer, size_t tally_offer_len, const int32_t *tally_count, size_t tally_count_len,       \
        const uint16_t *tally_bag, size_t tally_bag_len, const uint16_t *tally_revision, size_t tally_revision_len,    \
        const uint32_t *price, size_t price_len, uint16_t grocers, uint16_t offers, uint16_t wanted, int64_t *owed,    \
        size_t owed_len
uint16_t entries_reconcile(ENTRIES_RECONCILE);

/* How many prices and totals each box sends to each other box, whatever the number of lists: word 16 a + b from box a to
   box b; and those of the job into job_words[0]. 20 also where a buffer is shorter than 256 words, 256 words and 1 word. */
#define ENTRIES_MESSAGE_TABLES                                                                                         \
    ENTRIES_JOB, uint16_t *price_words, size_t price_words_len, uint16_t *total_words, size_t total_words_len,         \
        uint32_t *job_words, size_t job_words_len
uint16_t entries_message_tables(ENTRIES_MESSAGE_TABLES);

/* The local book of a box: N, M, N + 1, T and T words are needed; and its numbers of local offers, local grocers and
   tallies into numbers[0] to numbers[2]. */
#define ENTRIES_BOOK                                                                                                   \
    ENTRIES_JOB, uint16_t book_box, uint16_t *local_offers, size_t local_offers_len, uint16_t *local_grocers,          \
        size_t local_grocers_len, uint16_t *starts, size_t starts_len, uint16_t *packed_grocers,                       \
        size_t packed_grocers_len, int32_t *packed_counts, size_t packed_counts_len, uint16_t *numbers,                \
        size_t numbers_len
uint16_t entries_book(ENTRIES_BOOK);

/* A job and its finished state, both to be edited: the tables of offers and grocers are lent as they are, those of the
   tallies and of the state are written. */
#define ENTRIES_FINISHED                                                                                               \
    uint16_t boxes, uint16_t grocers, uint16_t offers, uint16_t tallies, uint16_t lists, const uint32_t *price,        \
        size_t price_len, const uint16_t *offer_owner, size_t offer_owner_len, const uint8_t *offer_code,              \
        size_t offer_code_len, const uint16_t *offer_issuer, size_t offer_issuer_len, const uint16_t *grocer_owner,    \
        size_t grocer_owner_len, uint16_t *tally_grocer, size_t tally_grocer_len, uint16_t *tally_box,                 \
        size_t tally_box_len, uint8_t *tally_code, size_t tally_code_len, int32_t *tally_count,                        \
        size_t tally_count_len, uint16_t *tally_issuer, size_t tally_issuer_len, uint16_t *tally_bag,                  \
        size_t tally_bag_len, uint16_t *tally_revision, size_t tally_revision_len, uint16_t *tally_offer,              \
        size_t tally_offer_len, uint32_t *known, size_t known_len, uint32_t *price_transit, size_t price_transit_len,  \
        int64_t *working, size_t working_len, int64_t *total_transit, size_t total_transit_len, int64_t *statement,    \
        size_t statement_len, uint16_t *done, size_t done_len, uint32_t *sent, size_t sent_len

/* Puts a tally at the end of the list; its code is the first 11 bytes of `code`. Into edited[0] to edited[3]: T as it
   is then, and the words, messages and steps of a run of the edited job. 20 also, and first of all, where `code` is
   shorter than 11 bytes or `edited` than 4 words. */
#define ENTRIES_ADD                                                                                                    \
    ENTRIES_FINISHED, uint16_t grocer, uint16_t box_of, const uint8_t *code, size_t code_len, int32_t count,           \
        uint16_t issuer, uint16_t bag, uint16_t revision, uint32_t *edited, size_t edited_len
uint16_t entries_add(ENTRIES_ADD);

/* Removes the tally at a place of the list, later ones moving up; edited[0] to edited[3] as above. */
#define ENTRIES_WITHDRAW ENTRIES_FINISHED, uint16_t place, uint32_t *edited, size_t edited_len
uint16_t entries_withdraw(ENTRIES_WITHDRAW);

/* A trial of the floor from a fresh state, by a list of six kinds: the state's tables as a run leaves them, the idle rounds
   of each of the K boxes, and the places of the steps taken, as far as `picked` reaches. The answer is ENTRIES_ROUNDS and
   the rounds, or the number of the refusal. */
#define ENTRIES_ROUNDS UINT64_C(65536)
#define ENTRIES_TRIAL                                                                                                  \
    ENTRIES_JOB, uint32_t *known, size_t known_len, uint32_t *price_transit, size_t price_transit_len,                 \
        int64_t *working, size_t working_len, int64_t *total_transit, size_t total_transit_len, int64_t *statement,    \
        size_t statement_len, uint16_t *done, size_t done_len, uint32_t *sent, size_t sent_len,                        \
        const uint16_t *preferences, size_t preferences_len, uint16_t *idle, size_t idle_len, uint16_t *picked,        \
        size_t picked_len
uint64_t entries_trial(ENTRIES_TRIAL);

/* Puts a cycle's amounts, in cents, into the store of M grocers and keeps each grocer's sum over this cycle and the
   twelve numbers before it: 1 word, 13 * M words, M words and M amounts are needed. A store of zeros is empty. */
#define ENTRIES_STORE_CYCLE                                                                                            \
    uint16_t grocers, uint16_t cycle, const int64_t *amounts, size_t amounts_len, uint32_t *next, size_t next_len,     \
        int64_t *held, size_t held_len, int64_t *sums, size_t sums_len
uint16_t entries_store_cycle(ENTRIES_STORE_CYCLE);

/* K, M, N, the number of lines and the tables of a forecast and of its state. */
#define ENTRIES_FORECAST                                                                                               \
    uint16_t boxes, uint16_t grocers, uint16_t offers, uint16_t lines, const uint16_t *offer_owner,                    \
        size_t offer_owner_len, const uint16_t *grocer_owner, size_t grocer_owner_len, const uint16_t *line_grocer,    \
        size_t line_grocer_len, const uint16_t *line_offer, size_t line_offer_len, const uint16_t *line_box,           \
        size_t line_box_len, const double *line_rate, size_t line_rate_len, const double *line_value,                  \
        size_t line_value_len, double *known, size_t known_len, double *value_transit, size_t value_transit_len,       \
        double *part, size_t part_len, double *part_transit, size_t part_transit_len, double *held, size_t held_len,   \
        double *forecast, size_t forecast_len, uint16_t *done, size_t done_len, uint32_t *sent, size_t sent_len

/* A fresh state of a forecast, and one step request. */
uint16_t entries_forecast_fresh(ENTRIES_FORECAST);
#define ENTRIES_FORECAST_STEP ENTRIES_FORECAST, uint16_t kind, uint16_t first, uint16_t second
uint16_t entries_forecast_step(ENTRIES_FORECAST_STEP);

#endif
