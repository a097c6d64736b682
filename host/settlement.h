/* Gaugelupin for C: the reader of job files, one step of a settlement, and a whole run. Link with libhost.a.
 *
 * THE ARCHIVE
 * libhost.a is for x86-64 Linux. It calls memcpy and memset of the C library, and no other function. It uses no heap
 * and has no data of its own, and no call keeps a pointer: calls on different buffers may run at once. A call needs
 * less than 32 KiB of stack.
 *
 * BUFFERS
 * A lent table is a pointer and, after it, the number of its WORDS (not bytes; for uint8_t the two are one).
 * - Each pointer is real: aligned for its type, readable (and writable where it is not const) for the number of words
 *   given.
 * - NULL is not allowed, not with the number 0 either: what the call then does is undefined, since every call is proved
 *   for real pointers alone. Where there is nothing to lend, lend any object of the type and the number 0. (The calls
 *   of LENDING BY NAME do so by themselves.)
 * - Buffers of one call do not overlap, also where they are only read.
 * - During a call nobody else writes any of them, nor reads those that are not const: no other thread, no signal
 *   handler, no other process through memory or a mapped file that it shares.
 * - More words than needed may be lent. Words of a table past its needed length are neither read nor written.
 * Many neighbours in a call's list have one type, and no compiler sees two of them swapped: LENDING BY NAME, at the end
 * of this file, has the lists written out once.
 *
 * ANSWERS
 * 0: accepted. Any other number is a refusal, the first condition met in the order that stands at each call;
 * a refused call has changed no word of any buffer. Every input has an answer: K, M, N, T, lists, the request and all
 * words may be anything, as long as the buffers are as above. The numbers have names below, SETTLEMENT_ACCEPTED and so
 * on.
 *
 * NUMBERS
 * Boxes, grocers, offers, tallies and places are numbered from 0. K boxes 1 to 16, M grocers 1 to 255, N offers 1 to
 * 500, T tallies 0 to 1,000. Owners and boxes are below K, tally_grocer below M, tally_offer below N. A price is 0 to
 * 9,999,999 tenths of a cent, a count -99,999 to 99,999, an amount within +-10^15 tenths of a cent.
 *
 * PRICE LISTS
 * One evening may be settled under several price lists at once. `lists` is the number of ADDITIONAL ones, 0 to 7: 0 for
 * one list. L below is lists + 1, the number of all of them, and lists are numbered from 0: list 0 is the first, which
 * every evening has. Tallies, owners, steps and messages are the same for all; each list has its own prices, totals and
 * statements, and they are those of an evening that had this list alone. A message has for each price or total one word
 * of each list, in the order of lists.
 *
 * TABLES OF A JOB              words  word i
 *   price          uint32_t    N L    list after list: word q N + i is the price of offer i on list q, in tenths of a
 *                                     cent
 *   offer_owner    uint16_t    N      box that owns offer i
 *   grocer_owner   uint16_t    M      box that owns grocer i
 *   tally_grocer   uint16_t    T      grocer of tally i
 *   tally_box      uint16_t    T      box that holds tally i
 *   tally_offer    uint16_t    T      place of the offer of tally i
 *   tally_count    int32_t     T      count of tally i
 *   tally_bag      uint16_t    T      bag of tally i, 0 for loose coupons
 *   tally_revision uint16_t    T      revision of the count of tally i
 * and for the reader alone
 *   offer_code     uint8_t     11 N   the code of offer i is bytes 11 i to 11 i + 10: digit count, then ten bytes,
 *   tally_code     uint8_t     11 T   ASCII digits first and 0 after them; likewise of tally i
 *   offer_issuer   uint16_t    N      issuer of offer i, 0 for old offers
 *   tally_issuer   uint16_t    T      issuer of the offer of tally i
 * An issuer and a code name an offer. Two names are one offer where the issuers are equal and the codes' numbers agree
 * without leading zeros. An issuer is any number of 16 bits, 0 included: none is refused, and no other call is lent it.
 *
 * WHICH TALLIES STAND
 * A bag may be counted again, by the same box or by another one. Among tallies of the same grocer, offer (by its place)
 * and bag, whichever box holds them, only the one with the highest revision stands. Bag 0 is loose coupons: those
 * tallies all stand, whatever their revisions. The order of tallies does not matter. A superseded tally counts for no
 * amount, need, message or step; where steps are told below, tallies are those that stand. It keeps its words in the
 * tables, which have their ranges like all others: a host lends all tallies, and each call finds those that stand.
 * Bags and revisions are any numbers of 16 bits. One bag and revision twice for a grocer and offer, the bag not 0, is
 * refused (9), also under a higher revision. Files of before have 0 in both fields and settle as before.
 *
 * TABLES OF A STATE            words  what stands where
 *   known          uint32_t    K N L  price of offer o on list q that box b knows, in tenths of a cent: word
 *                                     (b N + o) L + q
 *   price_transit  uint32_t    K N L  price of offer o on list q sent to box b and not yet received: likewise
 *   working        int64_t     packed working total of a box and grocer on a list, in tenths: see PACKED TOTALS
 *   total_transit  int64_t     packed total of a grocer sent by a box and not yet received, in tenths: likewise
 *   statement      int64_t     M L    statement of grocer g on list q, what it is owed, in tenths: word g L + q
 *   done           uint16_t    6 K K  1 where the step of kind, first and second is done, else 0: word
 *                                     ((kind - 1) K + first) K + second
 *   sent           uint32_t    1      words sent so far, 0 to 1,000,000; each price or total sent counts L words
 * So the lists of an offer or grocer stand side by side in a state, where a job's prices have list after list. A fresh
 * state has the prices of each offer known in the box that owns it (word (offer_owner[o] N + o) L + q of known is word
 * q N + o of price), and 0 in every other word. With one list, L is 1: known has word b N + o, statement word g, and a
 * host of one list lends tables as short as that.
 *
 * PACKED TOTALS
 * working has a place for each local grocer of each box, and for no other; at a place stand L words, one of each list,
 * so place p has on list q word p L + q. The local grocers of a box are those it owns, ascending, whether or not anyone
 * holds a tally of them; then those of other boxes of which it holds a tally that stands, by owner and then by number.
 * That is the order of its local book. Several tallies of one grocer in one box make one place, and a superseded tally
 * makes none. The places of box 0 come first, then those of box 1, and so on.
 * total_transit has the same places: a total that box b has sent stands where box b's working total of that grocer has
 * its place, whichever box is to receive it.
 *
 * In the small evening of docs/EVENING.md box 0 owns grocer 1 and holds tallies of grocers 0 and 1; box 1 owns grocer 0
 * and holds tallies of it alone. So each of the two tables has three places, and with one list as many words:
 *
 *     word        0            1            2
 *           +------------+------------+------------+
 *           |  grocer 1  |  grocer 0  |  grocer 0  |
 *           +------------+------------+------------+
 *           |  own       |  of box 1  |  own       |
 *           |--------- box 0 ---------|--- box 1 --|
 *
 * The same evening with a second list: each place has two words, those of list 0 and of list 1.
 *
 *     word     0      1      2      3      4      5
 *           +------+------+------+------+------+------+
 *           |list 0|list 1|list 0|list 1|list 0|list 1|
 *           +------+------+------+------+------+------+
 *           |  grocer 1   |  grocer 0   |  grocer 0   |
 *           |---------- box 0 ----------|--- box 1 ---|
 *
 * How many places there are goes by the owners of grocers and the tallies that stand, not by K, M, N and T alone: one
 * for each grocer, in the box that owns it, and one for each other box that holds a standing tally of it. A host need
 * not count them: (M + T) L words are always enough, and SETTLEMENT_MAX_WORKING for every job. Words past those that
 * the job has are not looked at.
 *
 * A SETTLEMENT BY STEPS
 * It starts from a fresh state of a job in range that does not meet 9, and from then on only settlement_step writes the
 * state. The job has 2 K + 2 x (messages) steps. Each is accepted once, in any order in which it is ready; a refused
 * request changes nothing and may be made again later. The settlement is finished when every step that the job has is
 * done: then statement has the plain sums over the tallies that stand, list by list, and working, price_transit and
 * total_transit have 0 alone. Until then some step is ready. So a host knows that it is finished
 * - by asking: it has asked for every kind 1 to 6 with every first and second below K, no table lent short, and none
 *   was accepted. Each was then answered 23, 24 or 25, and none 26.
 * - or by counting: as many requests were accepted as settlement_run says in report[2] for the same job, whatever its
 *   choices, on a state of its own.
 * The marks in done do not tell it alone, since they do not say which steps the job has; 24 does. Nor do steps 4 and 5
 * of a box tell that its step 2 is done: they do not wait for one that adds nothing to them, and it is due nonetheless.
 * host/example.c asks for all steps, round after round, until a round has none accepted; then it compares with a run.
 */
#ifndef SETTLEMENT_H
#define SETTLEMENT_H

#include <stddef.h>
#include <stdint.h>
#include <string.h>

/* The version of this interface. It is raised by one whenever a call's list of arguments, a struct's layout, the value
 * of a constant or the meaning of a word changes: a host is then compiled anew, with the header and the archive of one
 * build, after it has read docs/CHANGES.md. A host that needs a certain version says so:
 *     _Static_assert(SETTLEMENT_VERSION == 3, "read what has changed");
 * 3: several price lists. A step and a run take `lists` after tallies, sizes has a sixth word, and a job file of up to
 *    102 blocks may hold up to seven lists more. With lists 0 every word stands where it stood.
 * 2: working and total_transit are packed, where 1 had K M words of each, word b M + g for box b and grocer g; and a
 *    step and a run look for 20 on them, and a step for 21, after 9.
 */
#define SETTLEMENT_VERSION 3

/* The largest job; lists are additional ones. */
#define SETTLEMENT_MAX_BOXES 16
#define SETTLEMENT_MAX_GROCERS 255
#define SETTLEMENT_MAX_OFFERS 500
#define SETTLEMENT_MAX_TALLIES 1000
#define SETTLEMENT_MAX_LISTS 7

/* Bytes of the longest job file (102 blocks of 512), and of a code in its table. */
#define SETTLEMENT_MAX_FILE 52224
#define SETTLEMENT_CODE 11

/* Words of the tables that the largest job needs and that are not one for each grocer, offer or tally. For working and
 * total_transit: the most that any job needs, a place for each grocer and one for each tally, a word of each list. */
#define SETTLEMENT_MAX_WIDTH (SETTLEMENT_MAX_LISTS + 1)
#define SETTLEMENT_MAX_PRICES (SETTLEMENT_MAX_OFFERS * SETTLEMENT_MAX_WIDTH)
#define SETTLEMENT_MAX_OFFER_CODES (SETTLEMENT_MAX_OFFERS * SETTLEMENT_CODE)
#define SETTLEMENT_MAX_TALLY_CODES (SETTLEMENT_MAX_TALLIES * SETTLEMENT_CODE)
#define SETTLEMENT_MAX_KNOWN (SETTLEMENT_MAX_BOXES * SETTLEMENT_MAX_PRICES)
#define SETTLEMENT_MAX_WORKING ((SETTLEMENT_MAX_GROCERS + SETTLEMENT_MAX_TALLIES) * SETTLEMENT_MAX_WIDTH)
#define SETTLEMENT_MAX_STATEMENT (SETTLEMENT_MAX_GROCERS * SETTLEMENT_MAX_WIDTH)
#define SETTLEMENT_MAX_DONE (6 * SETTLEMENT_MAX_BOXES * SETTLEMENT_MAX_BOXES)
#define SETTLEMENT_SENT 1

/* The most steps that a run makes, 2 K + 2 x (messages): each box sends prices and totals to every other. So many words
 * of `picked` always suffice. */
#define SETTLEMENT_MAX_MESSAGES (2 * SETTLEMENT_MAX_BOXES * (SETTLEMENT_MAX_BOXES - 1))
#define SETTLEMENT_MAX_STEPS (2 * SETTLEMENT_MAX_BOXES + 2 * SETTLEMENT_MAX_MESSAGES)

/* Words of `sizes` (K, M, N, T, the settlement cycle and lists) and of `report` (words sent, messages, steps). */
#define SETTLEMENT_SIZES 6
#define SETTLEMENT_REPORT 3

/* Answers: accepted, or what is refused. */
#define SETTLEMENT_ACCEPTED 0
#define SETTLEMENT_BAD_LENGTH 1     /* of the file: empty, not of whole blocks, too long, or not as its header says */
#define SETTLEMENT_DAMAGED 2        /* the sums of a block differ from those stored */
#define SETTLEMENT_NOT_DUE 3        /* kind, block number or record count of a block */
#define SETTLEMENT_BAD_HEADER 4     /* byte 5, K, M, N, T or lists of the header */
#define SETTLEMENT_SPARE_BYTE 5     /* a spare byte is not 0 */
#define SETTLEMENT_BAD_FIELD 6      /* of a record */
#define SETTLEMENT_SHARED_NUMBER 7  /* of two offers, under one issuer */
#define SETTLEMENT_UNKNOWN_CODE 8   /* of a tally, under its issuer */
#define SETTLEMENT_COUNTED_TWICE 9  /* one bag and revision, for a grocer and offer */
#define SETTLEMENT_SHORT 20         /* a lent table */
#define SETTLEMENT_OUT_OF_RANGE 21  /* K, M, N, T, lists or a word of a table, or a word that the step would leave */
#define SETTLEMENT_BAD_KIND 22      /* not 1 to 6 */
#define SETTLEMENT_BAD_BOXES 23     /* not below K, or equal where they must differ, or the reverse */
#define SETTLEMENT_EMPTY_MESSAGE 24 /* the job has no such step */
#define SETTLEMENT_ALREADY_DONE 25  /* the step */
#define SETTLEMENT_NOT_READY 26     /* the step: other steps come before it */

/* Kinds of steps. */
#define SETTLEMENT_SEND_PRICES 1
#define SETTLEMENT_SWEEP_OWN 2
#define SETTLEMENT_RECEIVE_PRICES 3
#define SETTLEMENT_SEND_TOTALS 4
#define SETTLEMENT_ADD_OWN_TOTALS 5
#define SETTLEMENT_RECEIVE_TOTALS 6

#ifdef __cplusplus
extern "C" {
#endif

/* Reads the bytes of a job file into the tables of a job, K, M, N and T into sizes[0] to sizes[3], the settlement cycle
 * into sizes[4], and the number of additional price lists into sizes[5]. The cycle is any number of 16 bits, 0
 * included: none is refused, and no other call is lent it.
 *
 * Needed lengths do not depend on the file: price 4,000; offer_owner, offer_issuer 500; offer_code 5,500; grocer_owner
 * 255; tally_grocer, tally_box, tally_count, tally_issuer, tally_bag, tally_revision, tally_offer 1,000; tally_code
 * 11,000; sizes 6. An accepted file writes the first words of each table that the job has, as above, superseded tallies
 * too, and no others.
 *
 * Refusals, in the order in which they are looked for: 20, then 1; then of the header 2, 3, 4, 5 and 1 (the block
 * count); then of each other block, ascending, 2, 3, 5, 6; then 7, 8, 9.
 *   20  a table shorter than said above
 *    1  length 0, not a multiple of 512, over 102 blocks, or not the block count that the header's sizes make
 *    2  the sums of a block differ from those stored
 *    3  kind, block number or record count of a block not as due
 *    4  byte 5, byte 14 (lists), K, M, N or T of the header outside its values
 *    5  a spare byte not 0
 *    6  a record with a field outside its range, an owner, box or grocer too large, a bad digit, or a byte after the
 *       digits not 0
 *    7  two offers share a number under one issuer
 *    8  a tally's code names no offer of its issuer
 *    9  one bag and revision twice for a grocer and offer, the bag not 0
 */
uint16_t settlement_read(
    const uint8_t *file, size_t file_len,
    uint32_t *price, size_t price_len,
    uint16_t *offer_owner, size_t offer_owner_len,
    uint8_t *offer_code, size_t offer_code_len,
    uint16_t *offer_issuer, size_t offer_issuer_len,
    uint16_t *grocer_owner, size_t grocer_owner_len,
    uint16_t *tally_grocer, size_t tally_grocer_len,
    uint16_t *tally_box, size_t tally_box_len,
    uint8_t *tally_code, size_t tally_code_len,
    int32_t *tally_count, size_t tally_count_len,
    uint16_t *tally_issuer, size_t tally_issuer_len,
    uint16_t *tally_bag, size_t tally_bag_len,
    uint16_t *tally_revision, size_t tally_revision_len,
    uint16_t *tally_offer, size_t tally_offer_len,
    uint16_t *sizes, size_t sizes_len);

/* Makes one step: kind 1 to 6, first the box that acts, second the other box, or the same box for kinds 2 and 5.
 *
 *   kind                  what first does                                       ready
 *   1  send prices        sends the prices that it knows of its offers that     from the start
 *                         second needs
 *   2  sweep own          adds count x price of its tallies of its own offers   from the start
 *                         into its working totals
 *   3  receive prices     receives them from second, and adds the tallies of    once second has sent (1)
 *                         those offers
 *   4  send totals        sends its working totals of second's grocers of       once each tally that it holds of
 *                         which it holds a tally; they become 0                 second's grocers is added
 *   5  add own totals     adds its working totals of its own grocers to their   once each tally that it holds of its
 *                         statements; they become 0                             own grocers is added
 *   6  receive totals     receives them from second into its statements         once second has sent (4)
 *
 * A tally is added once step 2 of its box, where the box owns the offer, or else the box's step 3 from the offer's
 * owner is done. 4 and 5 wait for no other step: totals for one box leave while prices for other grocers are still due,
 * 4 or 5 may come before 2, and 5 is ready from the start where the box holds no tally of its own grocers.
 *
 * An accepted step writes what its line says, and no other word: its word of done becomes 1; 1 puts the prices into
 * price_transit, 4 the totals into total_transit, and both raise sent by the number of words in the message, L for each
 * price or total; 3 puts the prices into known; 3 and 6 set the words that they receive to 0 in price_transit or
 * total_transit.
 *
 * Needed lengths are the words of the tables above, from K, M, N, T and lists as given (65,535 lists ask for 65,536 N
 * prices); sent 1. Those of working and total_transit go by the job's words (PACKED TOTALS), so they are looked at once
 * these are known to be in range.
 *
 * Refusals, in the order in which they are looked for:
 *   20  a table other than working and total_transit shorter than needed
 *   21  K, M, N, T, lists or a needed word of such a table outside its range, a done mark not 0 or 1
 *    9  one bag and revision twice for a grocer and offer, the bag not 0
 *   20  working or total_transit shorter than needed
 *   21  a needed word of working or total_transit outside its range
 *   22  kind not 1 to 6
 *   23  a box not below K; or first and second equal for kinds 1, 3, 4, 6, or different for kinds 2, 5
 *   24  an empty message: the job has no such step
 *   25  already done
 *   26  not ready
 *   21  again: a word that the step would leave, on any list, is outside its range
 */
uint16_t settlement_step(
    uint16_t boxes, uint16_t grocers, uint16_t offers, uint16_t tallies, uint16_t lists,
    const uint32_t *price, size_t price_len,
    const uint16_t *offer_owner, size_t offer_owner_len,
    const uint16_t *grocer_owner, size_t grocer_owner_len,
    const uint16_t *tally_grocer, size_t tally_grocer_len,
    const uint16_t *tally_box, size_t tally_box_len,
    const uint16_t *tally_offer, size_t tally_offer_len,
    const int32_t *tally_count, size_t tally_count_len,
    const uint16_t *tally_bag, size_t tally_bag_len,
    const uint16_t *tally_revision, size_t tally_revision_len,
    uint32_t *known, size_t known_len,
    uint32_t *price_transit, size_t price_transit_len,
    int64_t *working, size_t working_len,
    int64_t *total_transit, size_t total_transit_len,
    int64_t *statement, size_t statement_len,
    uint16_t *done, size_t done_len,
    uint32_t *sent, size_t sent_len,
    uint16_t kind, uint16_t first, uint16_t second);

/* Makes all steps of a job from a fresh state: the state's tables may hold anything before, and hold the last state
 * after. choices, of any length from 0 on, pick the order: the next choice modulo the number of ready steps picks one
 * from their list, which goes by kind, first and second; when choices end, the first ready step. Choices left at the
 * end are passed over.
 * picked, of any length from 0 on, becomes the steps in the order in which the run made them, as far as it reaches:
 * word i is the place of step i, which is that of its mark in done, ((kind - 1) K + first) K + second. With 2 boxes the
 * word 10 is kind 3, first 1 and second 0, since ((3 - 1) x 2 + 1) x 2 + 0 = 10; back from a place p, kind is
 * p / (K K) + 1, first p / K % K and second p % K. Words of picked past the steps stay as they were. Where the order is
 * not asked for, lend any object and 0; SETTLEMENT_MAX_STEPS words hold the steps of every job.
 * report[0] is the number of words sent, L for each price or total; report[1] of messages sent, report[2] of steps.
 *
 * Needed lengths are the words of the tables above, from K, M, N, T and lists as given; sent 1, report 3; those of
 * working and total_transit go by the job's words (PACKED TOTALS). choices and picked need none, and no length of them
 * is refused.
 *
 * Refusals, in the order in which they are looked for:
 *   20  a table other than working and total_transit, or the report, shorter than needed
 *   21  K, M, N, T, lists or a needed word of a table of the job outside its range
 *    9  one bag and revision twice for a grocer and offer, the bag not 0
 *   20  working or total_transit shorter than needed
 */
uint16_t settlement_run(
    uint16_t boxes, uint16_t grocers, uint16_t offers, uint16_t tallies, uint16_t lists,
    const uint32_t *price, size_t price_len,
    const uint16_t *offer_owner, size_t offer_owner_len,
    const uint16_t *grocer_owner, size_t grocer_owner_len,
    const uint16_t *tally_grocer, size_t tally_grocer_len,
    const uint16_t *tally_box, size_t tally_box_len,
    const uint16_t *tally_offer, size_t tally_offer_len,
    const int32_t *tally_count, size_t tally_count_len,
    const uint16_t *tally_bag, size_t tally_bag_len,
    const uint16_t *tally_revision, size_t tally_revision_len,
    uint32_t *known, size_t known_len,
    uint32_t *price_transit, size_t price_transit_len,
    int64_t *working, size_t working_len,
    int64_t *total_transit, size_t total_transit_len,
    int64_t *statement, size_t statement_len,
    uint16_t *done, size_t done_len,
    uint32_t *sent, size_t sent_len,
    const uint16_t *choices, size_t choices_len,
    uint16_t *picked, size_t picked_len,
    uint32_t *report, size_t report_len);

#ifdef __cplusplus
}
#endif

/* LENDING BY NAME
 * Two structs with the tables of the largest job, and the three calls on them: each table stands in its place once,
 * here, and is lent whole. A host need not use any of this. It is plain C, which nothing proves.
 *
 * A job has about 51,000 bytes and a state, with room for eight lists, 692,000: they belong in static memory or on the
 * heap, not on a small stack. SETTLEMENT_READ_INTO and SETTLEMENT_LENT take other structs as well, with more members
 * or, for a step and a run, with smaller tables, as long as these are arrays with the names below, and not pointers: a
 * state of one list needs no more than 89,000 bytes.
 */
struct settlement_job {
    uint16_t boxes, grocers, offers, tallies; /* K, M, N, T */
    uint16_t cycle;
    uint16_t lists; /* additional price lists */
    uint32_t price[SETTLEMENT_MAX_PRICES]; /* tenths of a cent, list after list */
    uint16_t offer_owner[SETTLEMENT_MAX_OFFERS];
    uint8_t offer_code[SETTLEMENT_MAX_OFFER_CODES];
    uint16_t offer_issuer[SETTLEMENT_MAX_OFFERS];
    uint16_t grocer_owner[SETTLEMENT_MAX_GROCERS];
    uint16_t tally_grocer[SETTLEMENT_MAX_TALLIES];
    uint16_t tally_box[SETTLEMENT_MAX_TALLIES];
    uint8_t tally_code[SETTLEMENT_MAX_TALLY_CODES];
    int32_t tally_count[SETTLEMENT_MAX_TALLIES];
    uint16_t tally_issuer[SETTLEMENT_MAX_TALLIES];
    uint16_t tally_bag[SETTLEMENT_MAX_TALLIES];
    uint16_t tally_revision[SETTLEMENT_MAX_TALLIES];
    uint16_t tally_offer[SETTLEMENT_MAX_TALLIES];
};

struct settlement_state {
    uint32_t known[SETTLEMENT_MAX_KNOWN];           /* tenths of a cent */
    uint32_t price_transit[SETTLEMENT_MAX_KNOWN];   /* tenths of a cent */
    int64_t working[SETTLEMENT_MAX_WORKING];        /* tenths of a cent, packed */
    int64_t total_transit[SETTLEMENT_MAX_WORKING];  /* tenths of a cent, packed */
    int64_t statement[SETTLEMENT_MAX_STATEMENT];    /* tenths of a cent */
    uint16_t done[SETTLEMENT_MAX_DONE];
    uint32_t sent[SETTLEMENT_SENT];
};

/* A table that is an array, and the number of its words. */
#define SETTLEMENT_TABLE(array) (array), sizeof(array) / sizeof(array)[0]

/* The arguments of settlement_read between the file and sizes; j points to a job. */
#define SETTLEMENT_READ_INTO(j)                                                                                        \
    SETTLEMENT_TABLE((j)->price), SETTLEMENT_TABLE((j)->offer_owner), SETTLEMENT_TABLE((j)->offer_code),               \
    SETTLEMENT_TABLE((j)->offer_issuer), SETTLEMENT_TABLE((j)->grocer_owner), SETTLEMENT_TABLE((j)->tally_grocer),     \
    SETTLEMENT_TABLE((j)->tally_box), SETTLEMENT_TABLE((j)->tally_code), SETTLEMENT_TABLE((j)->tally_count),           \
    SETTLEMENT_TABLE((j)->tally_issuer), SETTLEMENT_TABLE((j)->tally_bag), SETTLEMENT_TABLE((j)->tally_revision),      \
    SETTLEMENT_TABLE((j)->tally_offer)

/* The arguments that settlement_step and settlement_run begin with; j points to a job, s to a state. */
#define SETTLEMENT_LENT(j, s)                                                                                          \
    (j)->boxes, (j)->grocers, (j)->offers, (j)->tallies, (j)->lists,                                                   \
    SETTLEMENT_TABLE((j)->price), SETTLEMENT_TABLE((j)->offer_owner), SETTLEMENT_TABLE((j)->grocer_owner),             \
    SETTLEMENT_TABLE((j)->tally_grocer), SETTLEMENT_TABLE((j)->tally_box), SETTLEMENT_TABLE((j)->tally_offer),         \
    SETTLEMENT_TABLE((j)->tally_count), SETTLEMENT_TABLE((j)->tally_bag), SETTLEMENT_TABLE((j)->tally_revision),       \
    SETTLEMENT_TABLE((s)->known), SETTLEMENT_TABLE((s)->price_transit), SETTLEMENT_TABLE((s)->working),                \
    SETTLEMENT_TABLE((s)->total_transit), SETTLEMENT_TABLE((s)->statement), SETTLEMENT_TABLE((s)->done),               \
    SETTLEMENT_TABLE((s)->sent)

/* settlement_read into a job, its sizes, cycle and lists too; a refusal leaves the job as it was. A file of no bytes
 * may be NULL: an object of our own is lent in its place. */
static inline uint16_t settlement_read_job(const uint8_t *file, size_t file_len, struct settlement_job *job)
{
    const uint8_t nothing = 0;
    uint16_t sizes[SETTLEMENT_SIZES] = {0};
    uint16_t answer = settlement_read(file_len == 0 ? &nothing : file, file_len, SETTLEMENT_READ_INTO(job),
                                      SETTLEMENT_TABLE(sizes));
    if (answer == SETTLEMENT_ACCEPTED) {
        job->boxes = sizes[0];
        job->grocers = sizes[1];
        job->offers = sizes[2];
        job->tallies = sizes[3];
        job->cycle = sizes[4];
        job->lists = sizes[5];
    }
    return answer;
}

/* The fresh state of a job: own prices known, all else 0. Whatever the job holds, no word outside the state is written:
 * where K, M, N, T or lists is out of range, or an owner of an offer is not below K, it is SETTLEMENT_OUT_OF_RANGE, and
 * the state stays as it was. */
static inline uint16_t settlement_make_fresh(const struct settlement_job *job, struct settlement_state *state)
{
    const size_t width = (size_t)job->lists + 1;
    if (job->boxes < 1 || job->boxes > SETTLEMENT_MAX_BOXES || job->grocers < 1 ||
        job->grocers > SETTLEMENT_MAX_GROCERS || job->offers < 1 || job->offers > SETTLEMENT_MAX_OFFERS ||
        job->tallies > SETTLEMENT_MAX_TALLIES || job->lists > SETTLEMENT_MAX_LISTS)
        return SETTLEMENT_OUT_OF_RANGE;
    for (size_t o = 0; o < job->offers; o++)
        if (job->offer_owner[o] >= job->boxes)
            return SETTLEMENT_OUT_OF_RANGE;
    memset(state, 0, sizeof *state);
    for (size_t o = 0; o < job->offers; o++) {
        uint32_t *word = &state->known[((size_t)job->offer_owner[o] * job->offers + o) * width];
        for (size_t q = 0; q < width; q++)
            word[q] = job->price[q * job->offers + o];
    }
    return SETTLEMENT_ACCEPTED;
}

/* settlement_step on a job and a state. */
static inline uint16_t settlement_step_job(const struct settlement_job *job, struct settlement_state *state,
                                           uint16_t kind, uint16_t first, uint16_t second)
{
    return settlement_step(SETTLEMENT_LENT(job, state), kind, first, second);
}

/* settlement_run on a job and a state; choices and picked have any length, and may be NULL where it is 0: an object of
 * our own is lent in their place. report has SETTLEMENT_REPORT words. */
static inline uint16_t settlement_run_job(const struct settlement_job *job, struct settlement_state *state,
                                          const uint16_t *choices, size_t choices_len, uint16_t *picked,
                                          size_t picked_len, uint32_t *report)
{
    const uint16_t no_choice = 0;
    uint16_t no_step = 0;
    return settlement_run(SETTLEMENT_LENT(job, state), choices_len == 0 ? &no_choice : choices, choices_len,
                          picked_len == 0 ? &no_step : picked, picked_len, report, SETTLEMENT_REPORT);
}

/* What an answer means, in a few words for a log or a screen; docs/REFUSALS.md says what to do about each. */
static inline const char *settlement_text(uint16_t answer)
{
    static const struct {
        uint16_t number;
        const char *text;
    } texts[] = {
        {SETTLEMENT_ACCEPTED, "accepted"},
        {SETTLEMENT_BAD_LENGTH, "the file's length is not that of a job file"},
        {SETTLEMENT_DAMAGED, "the file is damaged: the sums of a block differ"},
        {SETTLEMENT_NOT_DUE, "a block's kind, number or record count is not as due"},
        {SETTLEMENT_BAD_HEADER, "a size of the header is outside its values"},
        {SETTLEMENT_SPARE_BYTE, "a spare byte is not 0"},
        {SETTLEMENT_BAD_FIELD, "a field of a record is outside its range"},
        {SETTLEMENT_SHARED_NUMBER, "two offers share a number under one issuer"},
        {SETTLEMENT_UNKNOWN_CODE, "a tally's code names no offer of its issuer"},
        {SETTLEMENT_COUNTED_TWICE, "one bag and revision is there twice for a grocer and offer"},
        {SETTLEMENT_SHORT, "a lent buffer is too short"},
        {SETTLEMENT_OUT_OF_RANGE, "a size or a word of a table is outside its range, or would be"},
        {SETTLEMENT_BAD_KIND, "the kind of a step is not 1 to 6"},
        {SETTLEMENT_BAD_BOXES, "the boxes of a step do not fit its kind"},
        {SETTLEMENT_EMPTY_MESSAGE, "an empty message: the job has no such step"},
        {SETTLEMENT_ALREADY_DONE, "the step is already done"},
        {SETTLEMENT_NOT_READY, "the step is not ready: other steps come before it"},
    };
    for (size_t i = 0; i < sizeof texts / sizeof texts[0]; i++)
        if (texts[i].number == answer)
            return texts[i].text;
    return "no such answer";
}

#endif
