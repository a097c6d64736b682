/* A model of the settlement in C that shares no code with the library: the job as plain structs, words under
   way as envelopes, the six steps, the run, and the job file. The tests hold the proved library to it. */
#ifndef MODEL_H
#define MODEL_H

#include "tables.h"

enum { BLOCK = 512, MOST_BLOCKS = 102, MOST_FILE = BLOCK * MOST_BLOCKS, FIELD = 10 };
enum { SEND_PRICES = 1, MULTIPLY_OWN, RECEIVE_PRICES, SEND_TOTALS, ADD_OWN, RECEIVE_TOTALS, KINDS };
enum { MOST_STEPS = 6 * MOST_BOXES * MOST_BOXES };

struct code {
    uint8_t digits, field[FIELD];
};

/* What names an offer: its issuer, 0 for old offers, and its code. */
struct name {
    uint16_t issuer;
    struct code code;
};

struct offer {
    uint32_t price;
    uint16_t owner;
    struct name name;
};

struct tally {
    uint16_t grocer, box, place;
    int32_t count;
    struct name name;
    uint16_t bag, revision;
};

/* An offer has its price on the first list. */
struct job {
    struct sizes sizes;
    uint16_t cycle;
    struct offer offer[MOST_OFFERS];
    uint32_t more_price[MOST_LISTS][MOST_OFFERS]; /* of each offer on each additional list */
    uint16_t grocer_owner[MOST_GROCERS];
    struct tally tally[MOST_TALLIES];
};

struct step {
    uint16_t kind, first, second;
};

/* What is under way of one offer, its price on each list, or of one grocer, the part total on each list. */
struct envelope {
    uint16_t sender, receiver, number;
    int64_t word[MOST_WIDTH];
};

struct post {
    size_t length;
    struct envelope envelope[MOST_BOXES * MOST_OFFERS];
};

/* The boxes in the middle of a settlement: of totals it has full rows, the lists' words of each box and grocer. Packed
   tables have some of these, each at its place. The last index is the list. */
struct machine {
    const struct job *job;
    uint16_t needs[MOST_OFFERS], sharers[MOST_GROCERS];
    uint16_t place[MOST_BOXES][MOST_GROCERS], packed; /* of each total in packed tables, and how many there are */
    bool has[KINDS][MOST_BOXES][MOST_BOXES], done[KINDS][MOST_BOXES][MOST_BOXES];
    uint32_t known[MOST_BOXES][MOST_OFFERS][MOST_WIDTH];
    int64_t working[MOST_BOXES][MOST_GROCERS][MOST_WIDTH], statement[MOST_GROCERS][MOST_WIDTH];
    struct post prices, totals;
    int64_t sent;
};

struct report {
    uint32_t words, messages, steps;
};

/* The recount rule, for a job and for the desk's records alike. Whether a tally stands: its bag is 0, or no tally of
   its grocer, offer and bag, whichever box holds it, has a higher revision. And 9: one bag, not 0, and revision twice
   for a grocer and offer, among all tallies. */
bool stands(const struct tally tally[], size_t tallies, size_t t);
bool counted_twice(const struct tally tally[], size_t tallies);

/* The place of a total that packed tables have no word for. */
enum { NO_PLACE = 65535 };

/* The places that working totals of a job have, and totals in transit as many. */
size_t packed_places(const struct job *job);

/* The price of an offer on a list, 0 for the first. */
uint32_t price_on(const struct job *job, size_t offer, size_t list);

/* The job with one list of its lists alone. */
void take_list(struct job *only, const struct job *job, size_t list);

/* A state copied to another machine, as far as its job reaches. */
void copy_state(struct machine *to, const struct machine *from);

/* A fresh state of the job, which must stay where it is. */
void start_fresh(struct machine *machine, const struct job *job);

/* 22 to 26, the late 21, or 0 when the step was done; a refusal changes nothing. */
uint16_t request(struct machine *machine, struct step step);

/* The ready steps in their order; their number. */
size_t ready_steps(const struct machine *machine, struct step ready[MOST_STEPS]);

/* A run from a fresh state: what it reports, and the steps that it picked. */
struct report run_all(struct machine *machine, const struct job *job, struct table choices,
                      struct step picked[MOST_STEPS]);

/* 20, 21 or 9 on the lent tables, and then 20 and, for a step, 21 on the packed ones; else 0. */
uint16_t job_tables_refusal(struct sizes sizes, const struct table tables[ALL_TABLES]);
uint16_t step_tables_refusal(struct sizes sizes, const struct table tables[ALL_TABLES]);
uint16_t run_tables_refusal(struct sizes sizes, const struct table tables[ALL_TABLES]);

/* Words as they should stand in tables: of a job, those that the reader alone gives, of a state, and of the steps
   picked, as far as their table reaches; and back, of a job with its sizes its prices alone too. */
void write_job_words(const struct job *job, const struct table tables[ALL_TABLES]);
void write_reader_words(const struct job *job, const struct table tables[ALL_TABLES]);
void write_state_words(const struct machine *machine, const struct table tables[ALL_TABLES]);
void write_picked_words(const struct job *job, const struct step picked[], size_t steps, struct table table);
void read_job_words(struct job *job, struct sizes sizes, const struct table tables[ALL_TABLES]);
void read_prices(struct job *job, struct table price);
void read_state_words(struct machine *machine, const struct job *job, const struct table tables[ALL_TABLES]);

/* The plain sum of count x price of one grocer on a list, over the tallies that stand. */
int64_t plain_sum(const struct job *job, uint16_t grocer, size_t list);

/* Whether a box holds a tally that stands, and one of an offer, or of a grocer. */
bool holds(const struct job *job, size_t box, size_t t);
bool holds_offer(const struct job *job, size_t box, size_t offer);
bool holds_grocer(const struct job *job, size_t box, size_t grocer);

/* The prices and totals that a whole settlement sends, counted pair by pair from the owners and tallies; and its words,
   one of each list for each of them. */
uint32_t entries_of_job(const struct job *job);
uint32_t words_of_job(const struct job *job);

/* The job file: its refusal, or 0 and the job; a job as a file, and its length; a block's two sums. */
uint16_t read_file(const uint8_t *file, size_t length, struct job *job);
size_t write_file(const struct job *job, uint8_t file[MOST_FILE]);
void write_sums(uint8_t block[BLOCK]);
size_t blocks_of(struct sizes sizes);

#endif
