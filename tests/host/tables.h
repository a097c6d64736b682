/* The tables that the entries are lent, by name: what each needs, and the range of its words. */
#ifndef TABLES_H
#define TABLES_H

#include <stdbool.h>
#include <stddef.h>
#include <stdint.h>

enum { MOST_BOXES = 16, MOST_GROCERS = 255, MOST_OFFERS = 500, MOST_TALLIES = 1000 };
enum { MOST_LISTS = 7, MOST_WIDTH = MOST_LISTS + 1 }; /* additional price lists, and all of them */
enum { MOST_TOTALS = MOST_GROCERS + MOST_TALLIES };
enum { MOST_PRICE = 9999999, MOST_COUNT = 99999, MOST_SENT = 1000000 };
#define MOST_AMOUNT INT64_C(1000000000000000)

/* K, M, N, T and the number of additional price lists, as given. */
struct sizes {
    uint16_t boxes, grocers, offers, tallies, lists;
};

enum table_name {
    PRICE,
    OFFER_OWNER,
    GROCER_OWNER,
    TALLY_GROCER,
    TALLY_BOX,
    TALLY_OFFER,
    TALLY_COUNT,
    TALLY_BAG,
    TALLY_REVISION,
    JOB_TABLES, /* those before are the job's, those from here to STEP_TABLES the state's */
    KNOWN = JOB_TABLES,
    PRICE_TRANSIT,
    WORKING,
    TOTAL_TRANSIT,
    STATEMENT,
    DONE,
    SENT,
    STEP_TABLES,
    OFFER_CODE = STEP_TABLES,
    OFFER_ISSUER,
    TALLY_CODE,
    TALLY_ISSUER,
    SIZES,
    REPORT,
    FILE_BYTES,
    CHOICES,
    PICKED,
    HOST_TABLES, /* those from here on are lent to the calls of tests/calls alone */
    OUT = HOST_TABLES,
    OWED,
    PRICE_WORDS,
    TOTAL_WORDS,
    JOB_WORDS,
    LOCAL_OFFERS,
    LOCAL_GROCERS,
    STARTS,
    PACKED_GROCERS,
    PACKED_COUNTS,
    NUMBERS,
    ADDED_CODE,
    EDITED,
    PREFERENCES,
    IDLE,
    STORE_TABLES, /* those from here on are the store's of thirteen cycles, and the amounts that it is given */
    NEXT_CYCLE = STORE_TABLES,
    HELD_CENTS,
    KEPT_SUMS,
    GIVEN_CENTS,
    ALL_TABLES
};

/* Words in memory: a lent buffer, or what should stand in one. */
struct table {
    enum table_name name;
    size_t length;
    void *words;
};

struct range {
    int64_t least, most;
};

const char *table_text(enum table_name name);
size_t width_of(enum table_name name);
bool is_signed(enum table_name name);

/* Whether a table has a place for each local grocer of each box, and no other: working totals and totals in transit. How
   many that are goes by the job's owners and tallies (model.h), not by K, M, N and T alone. */
bool is_packed(enum table_name name);

/* The words of an entry: one of each list, the first included. */
size_t width_of_entry(struct sizes sizes);

/* The words that a table needs for K, M, N, T and lists as given; 0 for those of any length: a file, choices, steps picked;
   and 0 for packed ones. */
uint64_t needed(enum table_name name, struct sizes sizes);

/* Words that suffice for every job of these sizes. */
uint64_t enough(enum table_name name, struct sizes sizes);

/* All that a word of the table's width holds. */
struct range width_range(enum table_name name);

/* The range of a table's words; for a table that has none, that of its width: no word of such a table meets 21. */
struct range range_of(enum table_name name, struct sizes sizes);
bool has_range(enum table_name name);

bool sizes_in_range(struct sizes sizes);
int64_t word_at(struct table table, size_t place);
void put_word(struct table table, size_t place, int64_t word);

/* Whether a table of this length is too short. */
bool is_short(struct table table, struct sizes sizes);

/* Whether every word that the table needs is within its range; words past them are not looked at. */
bool words_in_range(struct table table, struct sizes sizes);

#endif
