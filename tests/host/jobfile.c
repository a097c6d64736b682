/* The job file of the model: blocks of 512 bytes, read with their refusals in order, and written. */
#include <assert.h>
#include <string.h>

#include "model.h"

enum { HEADER, OFFER_BLOCKS, GROCER_BLOCKS, TALLY_BLOCKS, PRICE_BLOCKS, BLOCK_KINDS };
enum { RECORDS_FROM = 4, SUMS_FROM = 508, MODULUS = 65521 };

/* The places of a kind's records: bytes of a record, of them in named fields, records of a full block. */
static const struct {
    size_t size, fields, full;
} layout[] = {
    [HEADER] = {11, 11, 1},
    [OFFER_BLOCKS] = {24, 18, 21},
    [GROCER_BLOCKS] = {1, 1, 255},
    [TALLY_BLOCKS] = {24, 24, 21},
    [PRICE_BLOCKS] = {4, 4, 126},
};

/* The order in which kinds stand in a file; prices once for each additional list. */
static const uint8_t kinds_in_order[BLOCK_KINDS] = {HEADER, OFFER_BLOCKS, GROCER_BLOCKS, PRICE_BLOCKS, TALLY_BLOCKS};

/* What a block of the file has to be: its kind, its number of records, the number of its first one, and of a block of
   prices which additional list it is of. */
struct due {
    uint8_t kind;
    size_t records, first, list;
};

static uint32_t get_number(const uint8_t *bytes, size_t width)
{
    uint32_t number = 0;
    for (size_t i = width; i > 0; i--) number = number * 256 + bytes[i - 1];
    return number;
}

static void set_number(uint8_t *bytes, size_t width, uint32_t number)
{
    for (size_t i = 0; i < width; i++, number /= 256) bytes[i] = (uint8_t)(number % 256);
}

/* Blocks */

static uint32_t first_sum(const uint8_t *block)
{
    uint32_t sum = 0;
    for (size_t place = 0; place < SUMS_FROM; place++) sum += block[place];
    return sum % MODULUS;
}

static uint32_t second_sum(const uint8_t *block)
{
    uint32_t sum = 0;
    for (uint32_t place = 0; place < SUMS_FROM; place++) sum += (508 - place) * block[place];
    return sum % MODULUS;
}

void write_sums(uint8_t block[BLOCK])
{
    set_number(block + 508, 2, first_sum(block));
    set_number(block + 510, 2, second_sum(block));
}

static bool sums_agree(const uint8_t *block)
{
    return get_number(block + 508, 2) == first_sum(block) && get_number(block + 510, 2) == second_sum(block);
}

static size_t records_of_kind(struct sizes sizes, unsigned kind)
{
    size_t records[] = {1, sizes.offers, sizes.grocers, sizes.tallies, sizes.offers};
    return records[kind];
}

/* Of a kind, and of prices those of one list. */
static size_t blocks_of_kind(struct sizes sizes, unsigned kind)
{
    return (records_of_kind(sizes, kind) + layout[kind].full - 1) / layout[kind].full;
}

static size_t times_of_kind(struct sizes sizes, unsigned kind) { return kind == PRICE_BLOCKS ? sizes.lists : 1; }

size_t blocks_of(struct sizes sizes)
{
    size_t blocks = 0;
    for (unsigned kind = HEADER; kind < BLOCK_KINDS; kind++)
        blocks += times_of_kind(sizes, kind) * blocks_of_kind(sizes, kind);
    return blocks;
}

/* The block of this number among those of a kind. */
static struct due due_of_kind(struct sizes sizes, uint8_t kind, size_t number)
{
    size_t blocks = blocks_of_kind(sizes, kind), all = records_of_kind(sizes, kind);
    struct due due = {kind, layout[kind].full, number % blocks * layout[kind].full, number / blocks};
    if (due.first + due.records > all) due.records = all - due.first;
    return due;
}

static struct due due_block(struct sizes sizes, size_t number)
{
    const uint8_t *kind = kinds_in_order;
    for (size_t blocks; number >= (blocks = times_of_kind(sizes, *kind) * blocks_of_kind(sizes, *kind)); kind++)
        number -= blocks;
    return due_of_kind(sizes, *kind, number);
}

static bool is_as_due(const uint8_t *block, struct due due, size_t number)
{
    return block[0] == due.kind && block[1] == due.records && get_number(block + 2, 2) == number;
}

static bool is_spare(struct due due, size_t place)
{
    size_t record = (place - RECORDS_FROM) / layout[due.kind].size;
    size_t byte = (place - RECORDS_FROM) % layout[due.kind].size;
    return record >= due.records || byte >= layout[due.kind].fields;
}

static bool spare_is_zero(const uint8_t *block, struct due due)
{
    for (size_t place = RECORDS_FROM; place < SUMS_FROM; place++)
        if (is_spare(due, place) && block[place] != 0) return false;
    return true;
}

/* Records */

static bool read_code(const uint8_t *bytes, struct code *code)
{
    code->digits = bytes[0];
    memcpy(code->field, bytes + 1, FIELD);
    if (code->digits < 1 || code->digits > FIELD) return false;
    for (size_t i = 0; i < FIELD; i++) {
        bool is_digit = code->field[i] >= '0' && code->field[i] <= '9';
        if (i < code->digits ? !is_digit : code->field[i] != 0) return false;
    }
    return true;
}

static bool read_offer(const uint8_t *record, struct job *job, size_t place)
{
    struct offer *offer = &job->offer[place];
    offer->price = get_number(record, 4);
    offer->owner = record[4];
    offer->name.issuer = (uint16_t)get_number(record + 16, 2);
    return read_code(record + 5, &offer->name.code) && offer->price <= MOST_PRICE && offer->owner < job->sizes.boxes;
}

static bool read_grocer(const uint8_t *record, struct job *job, size_t place)
{
    job->grocer_owner[place] = record[0];
    return record[0] < job->sizes.boxes;
}

static bool read_tally(const uint8_t *record, struct job *job, size_t place)
{
    struct tally *tally = &job->tally[place];
    tally->grocer = (uint16_t)get_number(record, 2);
    tally->box = record[2];
    tally->count = (int32_t)get_number(record + 14, 4);
    tally->name.issuer = (uint16_t)get_number(record + 18, 2);
    tally->bag = (uint16_t)get_number(record + 20, 2);
    tally->revision = (uint16_t)get_number(record + 22, 2);
    return read_code(record + 3, &tally->name.code) && tally->grocer < job->sizes.grocers &&
           tally->box < job->sizes.boxes && tally->count >= -MOST_COUNT && tally->count <= MOST_COUNT;
}

static bool read_price(const uint8_t *record, struct job *job, size_t list, size_t place)
{
    job->more_price[list][place] = get_number(record, 4);
    return job->more_price[list][place] <= MOST_PRICE;
}

static bool read_record(const uint8_t *record, struct job *job, struct due due, size_t place)
{
    switch (due.kind) {
    case OFFER_BLOCKS: return read_offer(record, job, place);
    case GROCER_BLOCKS: return read_grocer(record, job, place);
    case PRICE_BLOCKS: return read_price(record, job, due.list, place);
    default: return read_tally(record, job, place);
    }
}

static bool read_records(const uint8_t *block, struct due due, struct job *job)
{
    for (size_t i = 0; i < due.records; i++)
        if (!read_record(block + RECORDS_FROM + i * layout[due.kind].size, job, due, due.first + i)) return false;
    return true;
}

/* The whole file */

static uint16_t read_header(const uint8_t *block, struct job *job)
{
    struct due due = {HEADER, 1, 0, 0};
    struct sizes *sizes = &job->sizes;
    if (!sums_agree(block)) return 2;
    if (!is_as_due(block, due, 0)) return 3;
    sizes->boxes = block[4];
    sizes->grocers = (uint16_t)get_number(block + 6, 2);
    sizes->offers = (uint16_t)get_number(block + 8, 2);
    sizes->tallies = (uint16_t)get_number(block + 10, 2);
    job->cycle = (uint16_t)get_number(block + 12, 2);
    sizes->lists = block[14];
    if (block[5] != 1 || !sizes_in_range(*sizes)) return 4;
    return spare_is_zero(block, due) ? 0 : 5;
}

static uint16_t read_block(const uint8_t *block, size_t number, struct job *job)
{
    struct due due = due_block(job->sizes, number);
    if (!sums_agree(block)) return 2;
    if (!is_as_due(block, due, number)) return 3;
    if (!spare_is_zero(block, due)) return 5;
    return read_records(block, due, job) ? 0 : 6;
}

static uint64_t number_of(const struct code *code)
{
    uint64_t number = 0;
    for (size_t i = 0; i < code->digits; i++) number = 10 * number + (uint64_t)(code->field[i] - '0');
    return number;
}

/* Whether two names are one offer: 7 and 8 both go by this. */
static bool same_offer(const struct name *a, const struct name *b)
{
    return a->issuer == b->issuer && number_of(&a->code) == number_of(&b->code);
}

static bool share_a_number(const struct job *job)
{
    for (size_t o = 0; o < job->sizes.offers; o++)
        for (size_t p = 0; p < o; p++)
            if (same_offer(&job->offer[o].name, &job->offer[p].name)) return true;
    return false;
}

static bool find_place(const struct job *job, struct tally *tally)
{
    for (uint16_t o = 0; o < job->sizes.offers; o++)
        if (same_offer(&job->offer[o].name, &tally->name)) {
            tally->place = o;
            return true;
        }
    return false;
}

/* 7, 8 or 9, else 0 and every tally's place. */
static uint16_t find_places(struct job *job)
{
    if (share_a_number(job)) return 7;
    for (size_t t = 0; t < job->sizes.tallies; t++)
        if (!find_place(job, &job->tally[t])) return 8;
    return counted_twice(job->tally, job->sizes.tallies) ? 9 : 0;
}

uint16_t read_file(const uint8_t *file, size_t length, struct job *job)
{
    if (length == 0 || length % BLOCK != 0 || length > MOST_FILE) return 1;
    uint16_t refusal = read_header(file, job);
    if (refusal) return refusal;
    if (length / BLOCK != blocks_of(job->sizes)) return 1;
    for (size_t number = 1; number < length / BLOCK; number++) {
        refusal = read_block(file + number * BLOCK, number, job);
        if (refusal) return refusal;
    }
    return find_places(job);
}

/* Writing */

static void write_code_field(uint8_t *bytes, const struct code *code)
{
    bytes[0] = code->digits;
    memcpy(bytes + 1, code->field, FIELD);
}

static void write_header(uint8_t *record, const struct job *job)
{
    record[0] = (uint8_t)job->sizes.boxes;
    record[1] = 1;
    set_number(record + 2, 2, job->sizes.grocers);
    set_number(record + 4, 2, job->sizes.offers);
    set_number(record + 6, 2, job->sizes.tallies);
    set_number(record + 8, 2, job->cycle);
    record[10] = (uint8_t)job->sizes.lists;
}

static void write_offer(uint8_t *record, const struct offer *offer)
{
    set_number(record, 4, offer->price);
    record[4] = (uint8_t)offer->owner;
    write_code_field(record + 5, &offer->name.code);
    set_number(record + 16, 2, offer->name.issuer);
}

static void write_tally(uint8_t *record, const struct tally *tally)
{
    set_number(record, 2, tally->grocer);
    record[2] = (uint8_t)tally->box;
    write_code_field(record + 3, &tally->name.code);
    set_number(record + 14, 4, (uint32_t)tally->count);
    set_number(record + 18, 2, tally->name.issuer);
    set_number(record + 20, 2, tally->bag);
    set_number(record + 22, 2, tally->revision);
}

static void write_record(uint8_t *record, const struct job *job, struct due due, size_t place)
{
    switch (due.kind) {
    case HEADER: write_header(record, job); break;
    case OFFER_BLOCKS: write_offer(record, &job->offer[place]); break;
    case GROCER_BLOCKS: record[0] = (uint8_t)job->grocer_owner[place]; break;
    case PRICE_BLOCKS: set_number(record, 4, job->more_price[due.list][place]); break;
    default: write_tally(record, &job->tally[place]); break;
    }
}

static void write_block(uint8_t *block, const struct job *job, size_t number)
{
    struct due due = due_block(job->sizes, number);
    memset(block, 0, BLOCK);
    block[0] = due.kind;
    block[1] = (uint8_t)due.records;
    set_number(block + 2, 2, (uint32_t)number);
    for (size_t i = 0; i < due.records; i++)
        write_record(block + RECORDS_FROM + i * layout[due.kind].size, job, due, due.first + i);
    write_sums(block);
}

size_t write_file(const struct job *job, uint8_t file[MOST_FILE])
{
    size_t blocks = blocks_of(job->sizes);
    assert(blocks <= MOST_BLOCKS);
    for (size_t number = 0; number < blocks; number++) write_block(file + number * BLOCK, job, number);
    return blocks * BLOCK;
}
