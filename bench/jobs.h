/* What the programs of the benchmark share: the calls of one side, all that they are lent, and random jobs. */
#ifndef JOBS_H
#define JOBS_H
#include "bench.h"
#include <stdbool.h>

/* The tables that reader and writer are lent, the file among them: type, name, entries of the largest job, and the words of
   an entry where it has all price lists. */
#define FILE_TABLES(TABLE)                                                                                            \
    TABLE(uint32_t, price, OFFERS, WIDEST)                                                                            \
    TABLE(uint16_t, offer_owner, OFFERS, 1)                                                                           \
    TABLE(uint8_t, offer_code, OFFERS * CODE, 1)                                                                      \
    TABLE(uint16_t, offer_issuer, OFFERS, 1)                                                                          \
    TABLE(uint16_t, grocer_owner, GROCERS, 1)                                                                         \
    TABLE(uint16_t, tally_grocer, TALLIES, 1)                                                                         \
    TABLE(uint16_t, tally_box, TALLIES, 1)                                                                            \
    TABLE(uint16_t, tally_offer, TALLIES, 1)                                                                          \
    TABLE(uint16_t, tally_issuer, TALLIES, 1)                                                                         \
    TABLE(uint8_t, tally_code, TALLIES * CODE, 1)                                                                     \
    TABLE(int32_t, tally_count, TALLIES, 1)                                                                           \
    TABLE(uint16_t, tally_bag, TALLIES, 1)                                                                            \
    TABLE(uint16_t, tally_revision, TALLIES, 1)                                                                       \
    TABLE(uint16_t, sizes, SETTLEMENT_SIZES, 1)                                                                       \
    TABLE(uint8_t, file, FILE_BYTES, 1)

/* Those of a state, and what the other calls write. */
#define STATE_TABLES(TABLE)                                                                                           \
    TABLE(uint32_t, known, BOXES * OFFERS, WIDEST)                                                                    \
    TABLE(uint32_t, price_transit, BOXES * OFFERS, WIDEST)                                                            \
    TABLE(int64_t, working, TOTALS, WIDEST)                                                                           \
    TABLE(int64_t, total_transit, TOTALS, WIDEST)                                                                     \
    TABLE(int64_t, statement, GROCERS, WIDEST)                                                                        \
    TABLE(uint16_t, done, SETTLEMENT_MAX_DONE, 1)                                                                     \
    TABLE(uint32_t, sent, SETTLEMENT_SENT, 1)                                                                         \
    TABLE(uint16_t, picked, SETTLEMENT_MAX_STEPS, 1)                                                                  \
    TABLE(uint32_t, report, SETTLEMENT_REPORT, 1)                                                                     \
    TABLE(int64_t, owed, 1, 1)                                                                                        \
    TABLE(uint32_t, edited, 4, 1)                                                                                     \
    TABLE(uint16_t, preferences, 6, 1)                                                                                \
    TABLE(uint16_t, idle, BOXES, 1)
#define ALL_TABLES(TABLE) FILE_TABLES(TABLE) STATE_TABLES(TABLE)
enum { MORE = 8 }; /* words of each of them behind the largest job's */

/* All that a call is lent, of either side. */
struct buffers {
#define TABLE(type, name, entries, most) type name[(entries) * (most) + MORE];
    ALL_TABLES(TABLE)
#undef TABLE
};

/* How many words of each table are lent. */
struct lengths {
#define TABLE(type, name, entries, most) size_t name;
    ALL_TABLES(TABLE)
#undef TABLE
};

enum operation { READ, WRITE, STEP, RUN, RECONCILE, ADD, WITHDRAW, TRIAL, STORE };
enum { OPERATIONS = TRIAL + 1 };

/* A tally to be put at the end of the list. */
struct late {
    uint16_t grocer, box;
    uint8_t code[CODE];
    int32_t count;
    uint16_t issuer, bag, revision;
};

/* What is called, and on what: the buffers are copied from `start` before each call. */
struct work {
    enum operation operation;
    struct buffers start;
    struct lengths lent;
    uint16_t boxes, grocers, offers, tallies, cycle;
    uint16_t lists; /* price lists after the first */
    size_t file_len;
    uint16_t kind, first, second;
    uint16_t choices[TALLIES];
    size_t choices_len;
    uint16_t wanted;
    struct late late;
    uint16_t place; /* of the tally that is withdrawn */
};

/* The calls of one side. A build whose calls take other parameters has one function for all of them, `other`. */
struct calls {
    read_call *read;
    write_call *write;
    step_call *step;
    run_call *run;
    reconcile_call *reconcile;
    add_call *add;
    withdraw_call *withdraw;
    trial_call *trial;
    store_call *store;
    size_t (*other)(const struct work *w, struct buffers *b);
};

size_t call(const struct calls *c, const struct work *w, struct buffers *b);

/* The arguments of the calls, from a work w and buffers b. */
#define LENT(table) b->table, w->lent.table
#define SIZES w->boxes, w->grocers, w->offers, w->tallies
#define READER_TABLES                                                                                                 \
    b->file, w->file_len, LENT(price), LENT(offer_owner), LENT(offer_code), LENT(offer_issuer), LENT(grocer_owner),   \
        LENT(tally_grocer), LENT(tally_box), LENT(tally_code), LENT(tally_count), LENT(tally_issuer),                 \
        LENT(tally_bag), LENT(tally_revision), LENT(tally_offer), LENT(sizes)
#define WRITER_TABLES                                                                                                 \
    LENT(price), LENT(offer_owner), LENT(offer_code), LENT(offer_issuer), LENT(grocer_owner), LENT(tally_grocer),     \
        LENT(tally_box), LENT(tally_code), LENT(tally_count), LENT(tally_issuer), LENT(tally_bag),                    \
        LENT(tally_revision), LENT(file)
#define STEP_TABLES                                                                                                   \
    LENT(price), LENT(offer_owner), LENT(grocer_owner), LENT(tally_grocer), LENT(tally_box), LENT(tally_offer),       \
        LENT(tally_count), LENT(tally_bag), LENT(tally_revision), LENT(known), LENT(price_transit), LENT(working),    \
        LENT(total_transit), LENT(statement), LENT(done), LENT(sent)
#define FINISHED_TABLES                                                                                               \
    LENT(price), LENT(offer_owner), LENT(offer_code), LENT(offer_issuer), LENT(grocer_owner), LENT(tally_grocer),     \
        LENT(tally_box), LENT(tally_code), LENT(tally_count), LENT(tally_issuer), LENT(tally_bag),                    \
        LENT(tally_revision), LENT(tally_offer), LENT(known), LENT(price_transit), LENT(working),                     \
        LENT(total_transit), LENT(statement), LENT(done), LENT(sent)
#define LATE                                                                                                          \
    w->late.grocer, w->late.box, w->late.code, CODE, w->late.count, w->late.issuer, w->late.bag, w->late.revision
/* The store of thirteen cycles lies in tables of a state that have words of its widths: the amounts that it is given in the
   statements, its last cycle where the words sent are counted, its rows in the working totals, its sums in those in transit. */
#define STORE_TABLES LENT(statement), LENT(sent), LENT(working), LENT(total_transit)
#define REQUEST w->kind, w->first, w->second
#define CHOICES w->choices, w->choices_len, LENT(picked), LENT(report)
#define PREFERENCES LENT(preferences), LENT(idle), LENT(picked)

/* The answer of a call that was not refused: the writer's is the length of its file, the trial's has its rounds. */
bool is_accepted(enum operation operation, size_t answer);

/* All words of all tables are lent. */
void lend_all(struct lengths *lent);

/* The words of an entry of a work, at most those that there is room for. */
unsigned width_of(const struct work *w);

/* The words that the largest job with entries so wide has, and those behind them: copied, and whether they are the same. */
void copy_words(struct buffers *to, const struct buffers *from, unsigned width);
bool same_words(const struct buffers *a, const struct buffers *b, unsigned width);

/* Random numbers, the same ones from the same seed. */
extern uint64_t seed;
unsigned below(unsigned n);

/* A number as a code of at least `digits` digits, and the number of a code. */
void put_code(uint8_t *code, uint64_t number, unsigned digits);
uint64_t code_value(const uint8_t *code);

/* Whether one of the first n offers has this name. */
bool name_used(const struct buffers *b, unsigned n, unsigned issuer, uint64_t number);

/* A job of these sizes, of some cycle, of issuer 0, without bags and with one price list: every other word random within
   its range. A run has no room for the steps that it picks. */
void make_job(struct work *w, unsigned k, unsigned m, unsigned n, unsigned t);

/* One of so many issuers for each offer, and for about half of them the number of an offer before. */
void give_issuers(struct work *w, unsigned issuers);

/* Tally i is of the grocer, offer, name and bag of tally `from`. */
void count_again(struct buffers *b, unsigned i, unsigned from);

bool one_bag(const struct buffers *b, unsigned i, unsigned k);

/* A bag for each tally, of so many numbers from `least` on. About half of them count again what a tally before them
   counted; the revisions of one bag are different, and in no order. */
void give_bags(struct work *w, unsigned least, unsigned bags);

/* The last tally is no longer the job's, and is the late one. */
void take_last(struct work *w);

/* So many price lists after the first. */
void give_lists(struct work *w, unsigned lists);

/* What a measured job is like. One issuer is issuer 0 alone, 0 bags are none, and the lists are those after the first. */
struct shape {
    unsigned issuers, bags, lists;
};

/* The largest job, or a tenth of its offers, grocers and tallies; the boxes are 16 in both. `number` picks one of them. */
void make_measured(struct work *w, bool whole, struct shape shape, unsigned number);

/* Puts the sums of a block into its last four bytes. */
void store_sums(uint8_t *block);

#endif
