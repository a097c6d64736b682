/* A build before that is the present one with a planted fault, which bench/before.c must see; PLANTED says which. With
   EARLIER_LISTS 0 its calls take no number of price lists, as those of before there were several. */
#include "bench.h"
#include "earlier.h"
#include <stdlib.h>

#if EARLIER_LISTS
#define LISTS , uint16_t lists
#else
#define LISTS
enum { lists = 0 };
#endif
#define SIZES uint16_t boxes, uint16_t grocers, uint16_t offers, uint16_t tallies

static int planted(void)
{
    return atoi(getenv("PLANTED"));
}

uint16_t earlier_read(const uint8_t *file, size_t file_len, uint32_t *price, size_t price_len, uint16_t *offer_owner,
                      size_t offer_owner_len, uint8_t *offer_code, size_t offer_code_len, uint16_t *offer_issuer,
                      size_t offer_issuer_len, uint16_t *grocer_owner, size_t grocer_owner_len, uint16_t *tally_grocer,
                      size_t tally_grocer_len, uint16_t *tally_box, size_t tally_box_len, uint8_t *tally_code,
                      size_t tally_code_len, int32_t *tally_count, size_t tally_count_len, uint16_t *tally_issuer,
                      size_t tally_issuer_len, uint16_t *tally_bag, size_t tally_bag_len, uint16_t *tally_revision,
                      size_t tally_revision_len, uint16_t *tally_offer, size_t tally_offer_len, uint16_t *sizes,
                      size_t sizes_len)
{
    uint16_t answer = settlement_read(
        file, file_len, price, price_len, offer_owner, offer_owner_len, offer_code, offer_code_len, offer_issuer,
        offer_issuer_len, grocer_owner, grocer_owner_len, tally_grocer, tally_grocer_len, tally_box, tally_box_len,
        tally_code, tally_code_len, tally_count, tally_count_len, tally_issuer, tally_issuer_len, tally_bag,
        tally_bag_len, tally_revision, tally_revision_len, tally_offer, tally_offer_len, sizes, sizes_len);
    switch (planted()) {
    case 1: /* the last digit of a tally's code of ten */
        if (answer == 0 && sizes[3] && tally_code[0] == 10)
            tally_code[10] ^= 1;
        break;
    case 2: /* a byte behind those of the offers' codes, where there are 500 too */
        if (answer == 0 && offer_code_len > 11u * sizes[2])
            offer_code[11 * sizes[2]]++;
        break;
    case 3: /* a refused file changes a word */
        if (answer == 8)
            tally_offer[0]++;
        break;
    case 4: /* the first offer of a number that two have */
        if (answer == 7)
            answer = 8;
        break;
    case 5: /* a table that is short */
        if (answer == 20)
            answer = 1;
        break;
    case 6: /* a tally of the second offer is one of the first */
        if (answer == 0 && sizes[3] > 1 && tally_offer[1] == 1)
            tally_offer[1] = 0;
        break;
    case 10: /* the first price of the last list, where there are several */
        if (answer == 0 && sizes[5])
            price[sizes[2] * sizes[5]] ^= 1;
        break;
    }
    return answer;
}

size_t earlier_write(SIZES, uint16_t cycle LISTS, const uint32_t *price, size_t price_len, const uint16_t *offer_owner,
                     size_t offer_owner_len, const uint8_t *offer_code, size_t offer_code_len,
                     const uint16_t *offer_issuer, size_t offer_issuer_len, const uint16_t *grocer_owner,
                     size_t grocer_owner_len, const uint16_t *tally_grocer, size_t tally_grocer_len,
                     const uint16_t *tally_box, size_t tally_box_len, const uint8_t *tally_code, size_t tally_code_len,
                     const int32_t *tally_count, size_t tally_count_len, const uint16_t *tally_issuer,
                     size_t tally_issuer_len, const uint16_t *tally_bag, size_t tally_bag_len,
                     const uint16_t *tally_revision, size_t tally_revision_len, uint8_t *out, size_t out_len)
{
    size_t answer = entries_write(
        boxes, grocers, offers, tallies, cycle, lists, price, price_len, offer_owner, offer_owner_len, offer_code,
        offer_code_len, offer_issuer, offer_issuer_len, grocer_owner, grocer_owner_len, tally_grocer, tally_grocer_len,
        tally_box, tally_box_len, tally_code, tally_code_len, tally_count, tally_count_len, tally_issuer,
        tally_issuer_len, tally_bag, tally_bag_len, tally_revision, tally_revision_len, out, out_len);
    switch (planted()) {
    case 7: /* a byte of the file */
        if (answer >= BLOCK)
            out[answer - 1] ^= 1;
        break;
    case 8: /* a code with a bad digit */
        if (answer == 6)
            answer = 8;
        break;
    case 9: /* a refused job changes a byte */
        if (answer == 9)
            out[0]++;
        break;
    case 11: /* nine lists */
        if (answer == 4 && lists == 8)
            answer = 6;
        break;
    }
    return answer;
}

/* The tables of a job and of a state, and the same as arguments. */
#define STATE                                                                                                         \
    const uint32_t *price, size_t price_len, const uint16_t *offer_owner, size_t offer_owner_len,                     \
        const uint16_t *grocer_owner, size_t grocer_owner_len, const uint16_t *tally_grocer, size_t tally_grocer_len, \
        const uint16_t *tally_box, size_t tally_box_len, const uint16_t *tally_offer, size_t tally_offer_len,         \
        const int32_t *tally_count, size_t tally_count_len, const uint16_t *tally_bag, size_t tally_bag_len,          \
        const uint16_t *tally_revision, size_t tally_revision_len, uint32_t *known, size_t known_len,                 \
        uint32_t *price_transit, size_t price_transit_len, int64_t *working, size_t working_len,                      \
        int64_t *total_transit, size_t total_transit_len, int64_t *statement, size_t statement_len, uint16_t *done,   \
        size_t done_len, uint32_t *sent, size_t sent_len
#define LENT_STATE                                                                                                    \
    boxes, grocers, offers, tallies, lists, price, price_len, offer_owner, offer_owner_len, grocer_owner,             \
        grocer_owner_len, tally_grocer, tally_grocer_len, tally_box, tally_box_len, tally_offer, tally_offer_len,     \
        tally_count, tally_count_len, tally_bag, tally_bag_len, tally_revision, tally_revision_len, known, known_len, \
        price_transit, price_transit_len, working, working_len, total_transit, total_transit_len, statement,          \
        statement_len, done, done_len, sent, sent_len

uint16_t earlier_step(SIZES LISTS, STATE, uint16_t kind, uint16_t first, uint16_t second)
{
    uint16_t answer = settlement_step(LENT_STATE, kind, first, second);
    switch (planted()) {
    case 12: /* a word behind the known prices */
        if (answer == 0 && kind == 3)
            known[boxes * offers * (lists + 1u)]++;
        break;
    case 13: /* a refused request changes a mark */
        if (answer == 26)
            done[0] ^= 1;
        break;
    case 14: /* an empty message that is not ready */
        if (answer == 24)
            answer = 26;
        break;
    case 15: /* a message is counted once more */
        if (answer == 0 && kind == 4)
            sent[0]++;
        break;
    case 16: /* the second list of the first grocer, where there are several */
        if (answer == 0 && kind == 6 && lists)
            statement[1] ^= 1;
        break;
    }
    return answer;
}

uint16_t earlier_run(SIZES LISTS, STATE, const uint16_t *choices, size_t choices_len, uint16_t *picked, size_t picked_len,
                     uint32_t *report, size_t report_len)
{
    uint16_t answer = settlement_run(LENT_STATE, choices, choices_len, picked, picked_len, report, report_len);
    switch (planted()) {
    case 17: /* a message more */
        if (answer == 0)
            report[1]++;
        break;
    case 18: /* another step is picked */
        if (answer == 0 && picked_len)
            picked[0]++;
        break;
    case 19: /* a refused run changes a total */
        if (answer == 9)
            working[0]++;
        break;
    }
    return answer;
}
