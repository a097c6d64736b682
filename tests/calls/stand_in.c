/* A stand-in for the calls of entries.h, made of the model. The test passes with it and must fail with each fault of
   faults.txt. */
#include "entries.h"

#include <string.h>

#include "entries_model.h"
#include "late_model.h"
#include "trial_model.h"
#include "store_model.h"
#include "forecast_model.h"

#define ENTRY __attribute__((visibility("default")))

#define JOB_OF                                                                                                         \
    [PRICE] = {PRICE, price_len, (void *)price}, [OFFER_OWNER] = {OFFER_OWNER, offer_owner_len, (void *)offer_owner},  \
    [GROCER_OWNER] = {GROCER_OWNER, grocer_owner_len, (void *)grocer_owner},                                           \
    [TALLY_GROCER] = {TALLY_GROCER, tally_grocer_len, (void *)tally_grocer},                                           \
    [TALLY_BOX] = {TALLY_BOX, tally_box_len, (void *)tally_box},                                                       \
    [TALLY_OFFER] = {TALLY_OFFER, tally_offer_len, (void *)tally_offer},                                               \
    [TALLY_COUNT] = {TALLY_COUNT, tally_count_len, (void *)tally_count},                                               \
    [TALLY_BAG] = {TALLY_BAG, tally_bag_len, (void *)tally_bag},                                                       \
    [TALLY_REVISION] = {TALLY_REVISION, tally_revision_len, (void *)tally_revision}

#define NAMES_OF                                                                                                       \
    [OFFER_CODE] = {OFFER_CODE, offer_code_len, (void *)offer_code},                                                   \
    [OFFER_ISSUER] = {OFFER_ISSUER, offer_issuer_len, (void *)offer_issuer},                                           \
    [TALLY_CODE] = {TALLY_CODE, tally_code_len, (void *)tally_code},                                                   \
    [TALLY_ISSUER] = {TALLY_ISSUER, tally_issuer_len, (void *)tally_issuer}

static struct job job;

ENTRY size_t entries_write(ENTRIES_WRITE)
{
    static uint8_t file[MOST_FILE];
    const uint16_t *tally_offer = NULL;
    const size_t tally_offer_len = 0;
    const struct table tables[ALL_TABLES] = {JOB_OF, NAMES_OF, [OUT] = {OUT, out_len, out}};
    size_t length = 0;
    const struct sizes sizes = {boxes, grocers, offers, tallies, lists};
    uint16_t refusal = model_write(sizes, cycle, tables, file, &length);
    if (refusal) return refusal;
    memcpy(out, file, length);
    return length;
}

ENTRY uint16_t entries_reconcile(ENTRIES_RECONCILE)
{
    const uint16_t *offer_owner = NULL, *grocer_owner = NULL;
    const size_t offer_owner_len = 0, grocer_owner_len = 0;
    const struct table tables[ALL_TABLES] = {JOB_OF, [OWED] = {OWED, owed_len, owed}};
    uint16_t refusal = desk_refusal((struct sizes){MOST_BOXES, grocers, offers, 0, 0}, wanted, tables);
    if (refusal) return refusal;
    owed[0] = serial_amount(wanted, tables);
    return 0;
}

ENTRY uint16_t entries_message_tables(ENTRIES_MESSAGE_TABLES)
{
    const struct table tables[ALL_TABLES] = {JOB_OF, [PRICE_WORDS] = {PRICE_WORDS, price_words_len, price_words},
                                             [TOTAL_WORDS] = {TOTAL_WORDS, total_words_len, total_words},
                                             [JOB_WORDS] = {JOB_WORDS, job_words_len, job_words}};
    const struct sizes sizes = {boxes, grocers, offers, tallies, lists};
    uint16_t refusal = messages_refusal(sizes, tables);
    if (refusal) return refusal;
    read_job_words(&job, sizes, tables);
    write_messages(&job, tables);
    return 0;
}

ENTRY uint16_t entries_book(ENTRIES_BOOK)
{
    static struct book book;
    const struct table tables[ALL_TABLES] = {JOB_OF,
                                             [LOCAL_OFFERS] = {LOCAL_OFFERS, local_offers_len, local_offers},
                                             [LOCAL_GROCERS] = {LOCAL_GROCERS, local_grocers_len, local_grocers},
                                             [STARTS] = {STARTS, starts_len, starts},
                                             [PACKED_GROCERS] = {PACKED_GROCERS, packed_grocers_len, packed_grocers},
                                             [PACKED_COUNTS] = {PACKED_COUNTS, packed_counts_len, packed_counts},
                                             [NUMBERS] = {NUMBERS, numbers_len, numbers}};
    const struct sizes sizes = {boxes, grocers, offers, tallies, lists};
    uint16_t refusal = book_refusal(sizes, tables, book_box);
    if (refusal) return refusal;
    read_job_words(&job, sizes, tables);
    make_book(&job, book_box, &book);
    write_book(&book, tables);
    return 0;
}

#define STATE_OF                                                                                                       \
    [KNOWN] = {KNOWN, known_len, known}, [PRICE_TRANSIT] = {PRICE_TRANSIT, price_transit_len, price_transit},          \
    [WORKING] = {WORKING, working_len, working},                                                                       \
    [TOTAL_TRANSIT] = {TOTAL_TRANSIT, total_transit_len, total_transit},                                               \
    [STATEMENT] = {STATEMENT, statement_len, statement}, [DONE] = {DONE, done_len, done}, [SENT] = {SENT, sent_len, sent}

ENTRY uint16_t entries_add(ENTRIES_ADD)
{
    const struct table tables[ALL_TABLES] = {JOB_OF, STATE_OF, NAMES_OF, [EDITED] = {EDITED, edited_len, edited},
                                             [ADDED_CODE] = {ADDED_CODE, code_len, (void *)code}};
    const struct sizes sizes = {boxes, grocers, offers, tallies, lists};
    const struct tally tally = {grocer, box_of, 0, count, {issuer, {0, {0}}}, bag, revision};
    return model_edit(sizes, tables, &(struct edit){true, tally, 0});
}

ENTRY uint16_t entries_withdraw(ENTRIES_WITHDRAW)
{
    const struct table tables[ALL_TABLES] = {JOB_OF, STATE_OF, NAMES_OF, [EDITED] = {EDITED, edited_len, edited}};
    const struct sizes sizes = {boxes, grocers, offers, tallies, lists};
    return model_edit(sizes, tables, &(struct edit){.adds = false, .place = place});
}

ENTRY uint64_t entries_trial(ENTRIES_TRIAL)
{
    static struct machine machine;
    static struct trial trial;
    const struct table tables[ALL_TABLES] = {JOB_OF,
                                             [KNOWN] = {KNOWN, known_len, known},
                                             [PRICE_TRANSIT] = {PRICE_TRANSIT, price_transit_len, price_transit},
                                             [WORKING] = {WORKING, working_len, working},
                                             [TOTAL_TRANSIT] = {TOTAL_TRANSIT, total_transit_len, total_transit},
                                             [STATEMENT] = {STATEMENT, statement_len, statement},
                                             [DONE] = {DONE, done_len, done},
                                             [SENT] = {SENT, sent_len, sent},
                                             [PICKED] = {PICKED, picked_len, picked},
                                             [PREFERENCES] = {PREFERENCES, preferences_len, (void *)preferences},
                                             [IDLE] = {IDLE, idle_len, idle}};
    const struct sizes sizes = {boxes, grocers, offers, tallies, lists};
    uint16_t refusal = trial_refusal(sizes, tables);
    if (refusal) return refusal;
    read_job_words(&job, sizes, tables);
    try_floor(&machine, &job, tables[PREFERENCES], &trial);
    write_trial(&machine, &trial, tables);
    return ENTRIES_ROUNDS + trial.rounds;
}

ENTRY uint16_t entries_store_cycle(ENTRIES_STORE_CYCLE)
{
    const struct table tables[ALL_TABLES] = {[NEXT_CYCLE] = {NEXT_CYCLE, next_len, next},
                                             [HELD_CENTS] = {HELD_CENTS, held_len, held},
                                             [KEPT_SUMS] = {KEPT_SUMS, sums_len, sums},
                                             [GIVEN_CENTS] = {GIVEN_CENTS, amounts_len, (void *)amounts}};
    uint16_t refusal = store_refusal(grocers, cycle, tables);
    if (refusal) return refusal;
    write_store(grocers, cycle, tables);
    return 0;
}

#define FORECAST_OF                                                                                                    \
    {                                                                                                                  \
        [F_OFFER_OWNER] = {offer_owner_len, (void *)offer_owner},                                                      \
        [F_GROCER_OWNER] = {grocer_owner_len, (void *)grocer_owner},                                                   \
        [F_LINE_GROCER] = {line_grocer_len, (void *)line_grocer},                                                      \
        [F_LINE_OFFER] = {line_offer_len, (void *)line_offer}, [F_LINE_BOX] = {line_box_len, (void *)line_box},        \
        [F_LINE_RATE] = {line_rate_len, (void *)line_rate}, [F_LINE_VALUE] = {line_value_len, (void *)line_value},     \
        [F_KNOWN] = {known_len, known}, [F_VALUE_TRANSIT] = {value_transit_len, value_transit},                        \
        [F_PART] = {part_len, part}, [F_PART_TRANSIT] = {part_transit_len, part_transit}, [F_HELD] = {held_len, held}, \
        [F_FORECAST] = {forecast_len, forecast}, [F_DONE] = {done_len, done}, [F_SENT] = {sent_len, sent}              \
    }

ENTRY uint16_t entries_forecast_fresh(ENTRIES_FORECAST)
{
    const struct lent_words tables[FORECAST_TABLES] = FORECAST_OF;
    return model_fresh((struct forecast_sizes){boxes, grocers, offers, lines}, tables);
}

ENTRY uint16_t entries_forecast_step(ENTRIES_FORECAST_STEP)
{
    const struct lent_words tables[FORECAST_TABLES] = FORECAST_OF;
    return model_forecast((struct forecast_sizes){boxes, grocers, offers, lines}, tables,
                          (struct forecast_request){kind, first, second});
}
