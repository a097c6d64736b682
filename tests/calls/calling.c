#include "calling.h"

#include <string.h>

#include "entries.h"
#include "entries_model.h"

/* Lending */

static bool is_lent(unsigned name)
{
    return name < JOB_TABLES || (name >= OFFER_CODE && name <= SIZES) || (name >= HOST_TABLES && name < STORE_TABLES);
}

static size_t words_of(unsigned name, struct sizes sizes)
{
    if (name == OUT) return BLOCK * blocks_of(sizes);
    return is_lent(name) ? needed(name, sizes) : 0;
}

void open_calling(struct calling *calling, uint32_t spare)
{
    size_t lengths[ALL_TABLES] = {0};
    for (unsigned name = 0; name < ALL_TABLES; name++)
        if (is_lent(name)) lengths[name] = words_of(name, calling->job.sizes) + below(spare + 1);
    open_lending(&calling->lending, lengths);
    write_job_words(&calling->job, calling->lending.twin);
    write_reader_words(&calling->job, calling->lending.twin);
    copy_twins(&calling->lending);
}

void open_zeros(struct calling *calling, struct sizes room)
{
    size_t lengths[ALL_TABLES];
    for (unsigned name = 0; name < ALL_TABLES; name++) lengths[name] = words_of(name, room);
    open_lending(&calling->lending, lengths);
    for (unsigned name = 0; name < HOST_TABLES; name++)
        for (size_t place = 0; place < lengths[name]; place++) put_both(&calling->lending, name, place, 0);
}

void close_calling(struct calling *calling) { close_lending(&calling->lending); }

int64_t word_of(const struct calling *calling, enum table_name name, size_t place)
{
    return word_at(calling->lending.table[name], place);
}

void lend_records(struct calling *calling, size_t records)
{
    static const enum table_name fields[] = {TALLY_GROCER, TALLY_BOX, TALLY_OFFER,
                                             TALLY_COUNT,  TALLY_BAG, TALLY_REVISION};
    for (unsigned i = 0; i < 6; i++) calling->lending.lend[fields[i]] = records;
}

void make_fault(struct calling *calling, enum table_name name, enum fault fault)
{
    struct sizes sizes = calling->job.sizes;
    struct range range = range_of(name, sizes);
    size_t last = words_of(name, sizes) - 1;
    at_case("%s %s", table_text(name),
            fault == SHORT   ? "short"
            : fault == ABOVE ? "above its range"
                             : "below its range");
    if (fault == SHORT)
        calling->lending.lend[name] = last;
    else
        put_both(&calling->lending, name, last, fault == ABOVE ? range.most + 1 : range.least - 1);
}

void expect_words(const struct calling *calling, enum table_name name, const int64_t due[], size_t length)
{
    for (size_t place = 0; place < length; place++)
        expect(word_of(calling, name, place) == due[place], "%s[%zu] is %lld, the case says %lld", table_text(name),
               place, (long long)word_of(calling, name, place), (long long)due[place]);
}

void near_bags(struct calling *calling)
{
    uint32_t revisions = 1 + below(30);
    for (size_t t = 0; t < calling->job.sizes.tallies; t++) {
        put_both(&calling->lending, TALLY_BAG, t, below(3));
        put_both(&calling->lending, TALLY_REVISION, t, below(revisions));
    }
}

void spread_job(struct job *job)
{
    ruled_job(job, LARGEST, (struct rules){{7, 16}, {3, 16}, {5, 255}, {3, 16}, {2, 250}});
    for (size_t o = 0; o < MOST_OFFERS; o++) job->offer[o].price = MOST_PRICE;
    for (size_t t = 0; t < MOST_TALLIES; t++) job->tally[t].count = (int32_t)(t / 5 % 7) - 3;
}

/* Asking */

static void compare_call(struct calling *calling, const char *call, size_t answer, size_t due)
{
    expect(answer == due, "the %s answered %zu, should be %zu", call, answer, due);
    compare_with_twins(&calling->lending);
}

size_t ask_write(struct calling *calling, struct sizes sizes)
{
    static uint8_t file[MOST_FILE];
    struct table tables[ALL_TABLES], lent[ALL_TABLES];
    size_t length = 0;
    twins_as_lent(&calling->lending, tables);
    uint16_t refusal = model_write(sizes, calling->job.cycle, tables, file, &length);
    if (!refusal) memcpy(calling->lending.twin[OUT].words, file, length);
    hand_over(&calling->lending, lent);
    size_t answer = entries_write(sizes.boxes, sizes.grocers, sizes.offers, sizes.tallies, calling->job.cycle,
                                  sizes.lists, SLICE(const uint32_t, PRICE), SLICE(const uint16_t, OFFER_OWNER),
                                  SLICE(const uint8_t, OFFER_CODE), SLICE(const uint16_t, OFFER_ISSUER),
                                  SLICE(const uint16_t, GROCER_OWNER), SLICE(const uint16_t, TALLY_GROCER),
                                  SLICE(const uint16_t, TALLY_BOX), SLICE(const uint8_t, TALLY_CODE),
                                  SLICE(const int32_t, TALLY_COUNT), SLICE(const uint16_t, TALLY_ISSUER),
                                  SLICE(const uint16_t, TALLY_BAG), SLICE(const uint16_t, TALLY_REVISION),
                                  SLICE(uint8_t, OUT));
    hand_back(&calling->lending, lent, WRITE, answer >= BLOCK ? 0 : (uint16_t)answer);
    compare_call(calling, "writer", answer, refusal ? refusal : length);
    return answer;
}

uint16_t ask_messages(struct calling *calling, struct sizes sizes)
{
    static struct job job;
    struct table tables[ALL_TABLES], lent[ALL_TABLES];
    twins_as_lent(&calling->lending, tables);
    uint16_t due = messages_refusal(sizes, tables);
    if (!due) {
        read_job_words(&job, sizes, tables);
        write_messages(&job, tables);
    }
    hand_over(&calling->lending, lent);
    uint16_t answer = entries_message_tables(SIZES_AND_JOB, SLICE(uint16_t, PRICE_WORDS), SLICE(uint16_t, TOTAL_WORDS),
                                             SLICE(uint32_t, JOB_WORDS));
    hand_back(&calling->lending, lent, MESSAGES, answer);
    compare_call(calling, "call of the tables of messages", answer, due);
    return answer;
}

uint16_t ask_book(struct calling *calling, struct sizes sizes, uint16_t box)
{
    static struct job job;
    static struct book book;
    struct table tables[ALL_TABLES], lent[ALL_TABLES];
    twins_as_lent(&calling->lending, tables);
    uint16_t due = book_refusal(sizes, tables, box);
    if (!due) {
        read_job_words(&job, sizes, tables);
        make_book(&job, box, &book);
        write_book(&book, tables);
    }
    hand_over(&calling->lending, lent);
    uint16_t answer = entries_book(SIZES_AND_JOB, box, SLICE(uint16_t, LOCAL_OFFERS), SLICE(uint16_t, LOCAL_GROCERS),
                                   SLICE(uint16_t, STARTS), SLICE(uint16_t, PACKED_GROCERS),
                                   SLICE(int32_t, PACKED_COUNTS), SLICE(uint16_t, NUMBERS));
    hand_back(&calling->lending, lent, BOOK, answer);
    compare_call(calling, "book", answer, due);
    return answer;
}

uint16_t ask_desk(struct calling *calling, struct question question)
{
    struct table tables[ALL_TABLES], lent[ALL_TABLES];
    const struct sizes sizes = {MOST_BOXES, question.grocers, question.offers, 0, 0};
    twins_as_lent(&calling->lending, tables);
    uint16_t due = desk_refusal(sizes, question.wanted, tables);
    if (!due) put_word(tables[OWED], 0, serial_amount(question.wanted, tables));
    hand_over(&calling->lending, lent);
    uint16_t answer = entries_reconcile(SLICE(const uint16_t, TALLY_GROCER), SLICE(const uint16_t, TALLY_BOX),
                                        SLICE(const uint16_t, TALLY_OFFER), SLICE(const int32_t, TALLY_COUNT),
                                        SLICE(const uint16_t, TALLY_BAG), SLICE(const uint16_t, TALLY_REVISION),
                                        SLICE(const uint32_t, PRICE), question.grocers, question.offers,
                                        question.wanted, SLICE(int64_t, OWED));
    hand_back(&calling->lending, lent, RECONCILE, answer);
    compare_call(calling, "desk", answer, due);
    return answer;
}
