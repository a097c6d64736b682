/* A model of the calls of entries.h that shares no code with the library: plain searches over the job. */
#ifndef ENTRIES_MODEL_H
#define ENTRIES_MODEL_H

#include "model.h"

/* The writer on lent tables: its refusal, or 0, the file and its length. */
uint16_t model_write(struct sizes sizes, uint16_t cycle, const struct table tables[ALL_TABLES],
                     uint8_t file[MOST_FILE], size_t *length);

/* The entries between two boxes: prices from an owner to a holder, totals from a holder to an owner. */
uint16_t price_words(const struct job *job, size_t sender, size_t receiver);
uint16_t total_words(const struct job *job, size_t sender, size_t receiver);

/* 20, 21 or 9 on the lent tables, else 0. */
uint16_t messages_refusal(struct sizes sizes, const struct table tables[ALL_TABLES]);
void write_messages(const struct job *job, const struct table tables[ALL_TABLES]);

/* The local book of a box. */
struct book {
    size_t offers, grocers, tallies;
    uint16_t offer[MOST_OFFERS], grocer[MOST_GROCERS], start[MOST_OFFERS + 1], packed_grocer[MOST_TALLIES];
    int32_t packed_count[MOST_TALLIES];
};
uint16_t book_refusal(struct sizes sizes, const struct table tables[ALL_TABLES], uint16_t box);
void make_book(const struct job *job, uint16_t box, struct book *book);
void write_book(const struct book *book, const struct table tables[ALL_TABLES]);

/* The desk: its refusal, or 0 and the amount. */
uint16_t desk_refusal(struct sizes sizes, uint16_t wanted, const struct table tables[ALL_TABLES]);
int64_t serial_amount(uint16_t wanted, const struct table tables[ALL_TABLES]);

/* The same amount by adding each price as often as its count says, credits and corrections apart, the last record
 * first. */
int64_t amount_by_adding(uint16_t wanted, const struct table tables[ALL_TABLES]);

#endif
