/* A stand-in for the library, made of the model. The test passes with it and must fail with each fault of faults.txt.
 */
#include "model.h"
#include "settlement.h"

#define ENTRY __attribute__((visibility("default"))) uint16_t

#define SIZES_AND_TABLES                                                                                               \
    uint16_t k, uint16_t m, uint16_t n, uint16_t t, uint16_t lists, const uint32_t *price, size_t l0,                  \
        const uint16_t *offer_owner, size_t l1, const uint16_t *grocer_owner, size_t l2,                               \
        const uint16_t *tally_grocer, size_t l3, const uint16_t *tally_box, size_t l4, const uint16_t *tally_offer,    \
        size_t l5, const int32_t *tally_count, size_t l6, const uint16_t *tally_bag, size_t l7,                        \
        const uint16_t *tally_revision, size_t l8, uint32_t *known, size_t l9, uint32_t *price_transit, size_t l10,    \
        int64_t *working, size_t l11, int64_t *total_transit, size_t l12, int64_t *statement, size_t l13,              \
        uint16_t *done, size_t l14, uint32_t *sent, size_t l15

#define GATHERED                                                                                                       \
    {                                                                                                                  \
        {PRICE, l0, (void *)price}, {OFFER_OWNER, l1, (void *)offer_owner}, {GROCER_OWNER, l2, (void *)grocer_owner},  \
            {TALLY_GROCER, l3, (void *)tally_grocer}, {TALLY_BOX, l4, (void *)tally_box},                              \
            {TALLY_OFFER, l5, (void *)tally_offer}, {TALLY_COUNT, l6, (void *)tally_count},                            \
            {TALLY_BAG, l7, (void *)tally_bag}, {TALLY_REVISION, l8, (void *)tally_revision}, {KNOWN, l9, known},      \
            {PRICE_TRANSIT, l10, price_transit}, {WORKING, l11, working}, {TOTAL_TRANSIT, l12, total_transit},         \
            {STATEMENT, l13, statement}, {DONE, l14, done}, {SENT, l15, sent},                                         \
    }

static struct job job;
static struct machine machine;

static uint16_t read_into(const struct table tables[ALL_TABLES])
{
    static const struct sizes largest = {MOST_BOXES, MOST_GROCERS, MOST_OFFERS, MOST_TALLIES, MOST_LISTS};
    for (unsigned name = 0; name < ALL_TABLES; name++)
        if (tables[name].words && is_short(tables[name], largest)) return 20;
    uint16_t refusal = read_file(tables[FILE_BYTES].words, tables[FILE_BYTES].length, &job);
    if (refusal) return refusal;
    write_job_words(&job, tables);
    write_reader_words(&job, tables);
    return 0;
}

ENTRY settlement_read(const uint8_t *file, size_t l0, uint32_t *price, size_t l1, uint16_t *offer_owner, size_t l2,
                      uint8_t *offer_code, size_t l3, uint16_t *offer_issuer, size_t l4, uint16_t *grocer_owner,
                      size_t l5, uint16_t *tally_grocer, size_t l6, uint16_t *tally_box, size_t l7, uint8_t *tally_code,
                      size_t l8, int32_t *tally_count, size_t l9, uint16_t *tally_issuer, size_t l10,
                      uint16_t *tally_bag, size_t l11, uint16_t *tally_revision, size_t l12, uint16_t *tally_offer,
                      size_t l13, uint16_t *sizes, size_t l14)
{
    const struct table tables[ALL_TABLES] = {
        [FILE_BYTES] = {FILE_BYTES, l0, (void *)file},
        [PRICE] = {PRICE, l1, price},
        [OFFER_OWNER] = {OFFER_OWNER, l2, offer_owner},
        [OFFER_CODE] = {OFFER_CODE, l3, offer_code},
        [OFFER_ISSUER] = {OFFER_ISSUER, l4, offer_issuer},
        [GROCER_OWNER] = {GROCER_OWNER, l5, grocer_owner},
        [TALLY_GROCER] = {TALLY_GROCER, l6, tally_grocer},
        [TALLY_BOX] = {TALLY_BOX, l7, tally_box},
        [TALLY_CODE] = {TALLY_CODE, l8, tally_code},
        [TALLY_COUNT] = {TALLY_COUNT, l9, tally_count},
        [TALLY_ISSUER] = {TALLY_ISSUER, l10, tally_issuer},
        [TALLY_BAG] = {TALLY_BAG, l11, tally_bag},
        [TALLY_REVISION] = {TALLY_REVISION, l12, tally_revision},
        [TALLY_OFFER] = {TALLY_OFFER, l13, tally_offer},
        [SIZES] = {SIZES, l14, sizes},
    };
    return read_into(tables);
}

ENTRY settlement_step(SIZES_AND_TABLES, uint16_t kind, uint16_t first, uint16_t second)
{
    const struct table tables[ALL_TABLES] = GATHERED;
    const struct sizes sizes = {k, m, n, t, lists};
    uint16_t refusal = step_tables_refusal(sizes, tables);
    if (refusal) return refusal;
    read_job_words(&job, sizes, tables);
    read_state_words(&machine, &job, tables);
    refusal = request(&machine, (struct step){kind, first, second});
    if (refusal) return refusal;
    write_state_words(&machine, tables);
    return 0;
}

ENTRY settlement_run(SIZES_AND_TABLES, const uint16_t *choices, size_t l16, uint16_t *picked, size_t l17,
                     uint32_t *report, size_t l18)
{
    struct table tables[ALL_TABLES] = GATHERED;
    const struct sizes sizes = {k, m, n, t, lists};
    struct step order[MOST_STEPS];
    tables[CHOICES] = (struct table){CHOICES, l16, (void *)choices};
    tables[PICKED] = (struct table){PICKED, l17, picked};
    tables[REPORT] = (struct table){REPORT, l18, report};
    uint16_t refusal = run_tables_refusal(sizes, tables);
    if (refusal) return refusal;
    read_job_words(&job, sizes, tables);
    struct report made = run_all(&machine, &job, tables[CHOICES], order);
    write_state_words(&machine, tables);
    write_picked_words(&job, order, made.steps, tables[PICKED]);
    report[0] = made.words;
    report[1] = made.messages;
    report[2] = made.steps;
    return 0;
}
