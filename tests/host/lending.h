/* Buffers lent to the library. Each has a twin with the words that should stand there, guards and spare words included,
   and after every call the two are compared byte for byte. */
#ifndef LENDING_H
#define LENDING_H

#include "check.h"
#include "tables.h"

#include "model.h"

struct lending {
    struct table table[ALL_TABLES], twin[ALL_TABLES];
    size_t lend[ALL_TABLES]; /* the words of each that the next call is lent */
    bool blank;              /* whether the next run's state and steps picked are lent without a word written there */
};

/* Whether every call is lent copies in memory of exactly the lent size, for a memory checker to watch. */
extern bool lend_exactly;

/* Buffers of these lengths, filled with random words, and their twins. */
void open_lending(struct lending *lending, const size_t lengths[ALL_TABLES]);
void close_lending(struct lending *lending);

/* Lends all that there is of each buffer. */
void lend_whole(struct lending *lending);

/* The twins, at the lengths that the next call is lent. */
void twins_as_lent(const struct lending *lending, struct table tables[ALL_TABLES]);

/* Writes a word to a buffer and its twin. */
void put_both(struct lending *lending, enum table_name name, size_t place, int64_t word);

/* Brings every buffer to what its twin says. */
void copy_twins(struct lending *lending);

/* The buffers as a call is lent them, and back from it; the answer is counted. */
void hand_over(const struct lending *lending, struct table lent[ALL_TABLES]);
uint16_t hand_back(struct lending *lending, struct table lent[ALL_TABLES], enum entry entry, uint16_t answer);

/* A slice as C hands it over: where its words are, and how many. */
#define SLICE(type, name) (type *)lent[name].words, lent[name].length

/* K, M, N, T, lists and the tables of a job. */
#define SIZES_AND_JOB                                                                                                  \
    sizes.boxes, sizes.grocers, sizes.offers, sizes.tallies, sizes.lists, SLICE(const uint32_t, PRICE),                \
        SLICE(const uint16_t, OFFER_OWNER), SLICE(const uint16_t, GROCER_OWNER), SLICE(const uint16_t, TALLY_GROCER),  \
        SLICE(const uint16_t, TALLY_BOX), SLICE(const uint16_t, TALLY_OFFER), SLICE(const int32_t, TALLY_COUNT),       \
        SLICE(const uint16_t, TALLY_BAG), SLICE(const uint16_t, TALLY_REVISION)

/* The library's three entries; the answer is counted. */
uint16_t call_read(struct lending *lending);
uint16_t call_step(struct lending *lending, struct sizes sizes, struct step step);
uint16_t call_run(struct lending *lending, struct sizes sizes);

/* Checks every buffer against its twin; a buffer that differs is brought to it. */
bool compare_with_twins(struct lending *lending);

#endif
