/* Jobs to try: seeded random ones, and those of the specification. */
#ifndef JOBS_H
#define JOBS_H

#include "model.h"

/* The seeded source of all that is random. */
void seed_random(uint64_t seed);
uint64_t random_word(void);
uint32_t below(uint32_t bound);
bool one_in(uint32_t bound);
int64_t between(int64_t least, int64_t most);

/* A number that tends to matter, one beside the given one, or any. */
uint16_t wild_number(uint16_t near);

struct code code_of(const char *digits);
struct code code_of_number(uint64_t number, size_t zeros);

/* Sizes within the given ones, each from its least on, half of the time with one price list; and such with two boxes
   and a tally at least. The largest job has eight lists, and the longest file of before one. */
struct sizes random_sizes(struct sizes most);
struct sizes sizes_with_tallies(struct sizes most);
extern const struct sizes TINY, SMALL, MEDIUM, LARGEST, LARGEST_OF_ONE_LIST;

/* An accepted job of these sizes, of cycle 0 or any other: of old offers and loose coupons alone; and half of the time
   of issuers too, and half of the time with bags. */
void random_old_job(struct job *job, struct sizes sizes);
void random_job(struct job *job, struct sizes sizes);

/* Bags for the tallies of an accepted job, which stays accepted: about half of them count again, in any box, what a
   tally before them counted. */
void give_bags(struct job *job);

/* The tallies in another order. */
void shuffle_tallies(struct job *job);

/* E of the specification; and with additional lists, of which the first is 100 for its first offer and 200 for its
   second, and each further one is 1 and 20 more. */
void sample_job(struct job *job);
void sample_with_lists(struct job *job, uint16_t lists);

/* Random prices on so many additional lists, now and then those of the list before. */
void give_lists(struct job *job, uint16_t lists);

/* A job with one offer, one grocer and tallies alike, each with its own owner. */
void one_tally_job(struct job *job, struct sizes sizes, uint32_t price, struct tally tally);

/* A job of these sizes whose words go by rules: word i is i / by modulo the given number. Prices and counts are 0, on
   every list. */
struct rule {
    size_t by, modulo;
};
struct rules {
    struct rule offer_owner, grocer_owner, tally_grocer, tally_box, tally_offer;
};
void ruled_job(struct job *job, struct sizes sizes, struct rules rules);

/* Cases of issuers: two offers, of 1,250 in box 1 and of 399 in box 0, and two tallies, 3 of grocer 0 in box 0 and -7
   of grocer 1 in box 1; the refusal, or 0 and the places of the tallies' offers. The last has no text. */
struct named {
    const char *what;
    struct {
        uint16_t issuer;
        const char *digits;
    } offers[2], tallies[2];
    uint16_t due, places[2];
};
extern const struct named named[];
void named_job(struct job *job, const struct named *named);

/* Cases of bags, in three boxes: offers 412 of 1,000 in box 0, 77 of 100 in box 1, and 77 of issuer 9, of 1 in box 2;
   grocers of boxes 0 and 1. For each tally 1 where it stands, else 0, and what the grocers are owed and the settlement
   sends; or no such text, where 9 is refused. The last case has no text. */
enum { MOST_COUNTS = 4 };
struct bagged {
    const char *what, *standing;
    int64_t owed[2];
    uint32_t words, messages;
    struct {
        uint16_t grocer, box, place;
        const char *digits; /* none: no tally */
        int32_t count;
        uint16_t bag, revision;
    } counts[MOST_COUNTS];
};
extern const struct bagged bagged[];
void bagged_job(struct job *job, const struct bagged *bagged);

#endif
