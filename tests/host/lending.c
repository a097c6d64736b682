#include "lending.h"

#include <stdio.h>
#include <stdlib.h>
#include <string.h>

#include "jobs.h"
#include "settlement.h"

enum { GUARD = 64 };

bool lend_exactly;

static size_t bytes_of(struct table table) { return table.length * width_of(table.name); }
static unsigned char *block_of(struct table table) { return (unsigned char *)table.words - GUARD; }
static size_t block_size(struct table table) { return bytes_of(table) + 2 * GUARD; }

static void *memory(size_t bytes)
{
    void *block = malloc(bytes);
    if (block) return block;
    fputs("no memory\n", stderr);
    exit(2);
}

static struct table new_table(enum table_name name, size_t length)
{
    struct table table = {name, length, NULL};
    table.words = (unsigned char *)memory(block_size(table)) + GUARD;
    return table;
}

static void fill_randomly(struct table table)
{
    for (size_t i = 0; i < block_size(table); i++) block_of(table)[i] = (unsigned char)random_word();
}

void open_lending(struct lending *lending, const size_t lengths[ALL_TABLES])
{
    lending->blank = false;
    for (unsigned name = 0; name < ALL_TABLES; name++) {
        lending->table[name] = new_table(name, lengths[name]);
        lending->twin[name] = new_table(name, lengths[name]);
        fill_randomly(lending->twin[name]);
    }
    copy_twins(lending);
    lend_whole(lending);
}

void close_lending(struct lending *lending)
{
    for (unsigned name = 0; name < ALL_TABLES; name++) {
        free(block_of(lending->table[name]));
        free(block_of(lending->twin[name]));
    }
}

void lend_whole(struct lending *lending)
{
    for (unsigned name = 0; name < ALL_TABLES; name++) lending->lend[name] = lending->table[name].length;
}

void twins_as_lent(const struct lending *lending, struct table tables[ALL_TABLES])
{
    for (unsigned name = 0; name < ALL_TABLES; name++) {
        tables[name] = lending->twin[name];
        tables[name].length = lending->lend[name];
    }
}

void put_both(struct lending *lending, enum table_name name, size_t place, int64_t word)
{
    put_word(lending->table[name], place, word);
    put_word(lending->twin[name], place, word);
}

static void copy_twin(struct lending *lending, unsigned name)
{
    memcpy(block_of(lending->table[name]), block_of(lending->twin[name]), block_size(lending->twin[name]));
}

void copy_twins(struct lending *lending)
{
    for (unsigned name = 0; name < ALL_TABLES; name++) copy_twin(lending, name);
}

/* Handing over and back */

/* What a run writes and does not look at; its report is not among them. */
static bool is_left_blank(unsigned name) { return (name >= JOB_TABLES && name < STEP_TABLES) || name == PICKED; }

void hand_over(const struct lending *lending, struct table lent[ALL_TABLES])
{
    for (unsigned name = 0; name < ALL_TABLES; name++) {
        lent[name] = lending->table[name];
        lent[name].length = lending->lend[name];
        if (!lend_exactly) continue;
        lent[name].words = memory(bytes_of(lent[name]));
        if (!lending->blank || !is_left_blank(name))
            memcpy(lent[name].words, lending->table[name].words, bytes_of(lent[name]));
    }
}

uint16_t hand_back(struct lending *lending, struct table lent[ALL_TABLES], enum entry entry, uint16_t answer)
{
    for (unsigned name = 0; lend_exactly && name < ALL_TABLES; name++) {
        memcpy(lending->table[name].words, lent[name].words, bytes_of(lent[name]));
        free(lent[name].words);
    }
    note_answer(entry, answer);
    return answer;
}

#define SIZES_AND_TABLES                                                                                               \
    SIZES_AND_JOB, SLICE(uint32_t, KNOWN), SLICE(uint32_t, PRICE_TRANSIT), SLICE(int64_t, WORKING),                    \
        SLICE(int64_t, TOTAL_TRANSIT), SLICE(int64_t, STATEMENT), SLICE(uint16_t, DONE), SLICE(uint32_t, SENT)

uint16_t call_read(struct lending *lending)
{
    struct table lent[ALL_TABLES];
    hand_over(lending, lent);
    uint16_t answer =
        settlement_read(SLICE(const uint8_t, FILE_BYTES), SLICE(uint32_t, PRICE), SLICE(uint16_t, OFFER_OWNER),
                        SLICE(uint8_t, OFFER_CODE), SLICE(uint16_t, OFFER_ISSUER), SLICE(uint16_t, GROCER_OWNER),
                        SLICE(uint16_t, TALLY_GROCER), SLICE(uint16_t, TALLY_BOX), SLICE(uint8_t, TALLY_CODE),
                        SLICE(int32_t, TALLY_COUNT), SLICE(uint16_t, TALLY_ISSUER), SLICE(uint16_t, TALLY_BAG),
                        SLICE(uint16_t, TALLY_REVISION), SLICE(uint16_t, TALLY_OFFER), SLICE(uint16_t, SIZES));
    return hand_back(lending, lent, READ, answer);
}

uint16_t call_step(struct lending *lending, struct sizes sizes, struct step step)
{
    struct table lent[ALL_TABLES];
    hand_over(lending, lent);
    uint16_t answer = settlement_step(SIZES_AND_TABLES, step.kind, step.first, step.second);
    return hand_back(lending, lent, STEP, answer);
}

uint16_t call_run(struct lending *lending, struct sizes sizes)
{
    struct table lent[ALL_TABLES];
    hand_over(lending, lent);
    uint16_t answer = settlement_run(SIZES_AND_TABLES, SLICE(const uint16_t, CHOICES), SLICE(uint16_t, PICKED),
                                     SLICE(uint32_t, REPORT));
    return hand_back(lending, lent, RUN, answer);
}

/* Comparing */

static void say_difference(struct table table, struct table twin)
{
    size_t byte = 0, width = width_of(table.name);
    while (block_of(table)[byte] == block_of(twin)[byte]) byte++;
    if (byte < GUARD || byte >= GUARD + bytes_of(table)) {
        expect(false, "%s: memory %s the buffer was written to", table_text(table.name),
               byte < GUARD ? "before" : "after");
        return;
    }
    size_t place = (byte - GUARD) / width;
    expect(false, "%s[%zu] is %lld, should be %lld", table_text(table.name), place, (long long)word_at(table, place),
           (long long)word_at(twin, place));
}

bool compare_with_twins(struct lending *lending)
{
    bool same = true;
    for (unsigned name = 0; name < ALL_TABLES; name++) {
        struct table table = lending->table[name], twin = lending->twin[name];
        if (memcmp(block_of(table), block_of(twin), block_size(twin)) == 0) continue;
        say_difference(table, twin);
        copy_twin(lending, name);
        same = false;
    }
    return expect(same, "tables differ");
}
