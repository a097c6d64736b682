#include "tables.h"

#include <string.h>

static const struct {
    const char *text;
    size_t width;
    bool is_signed;
} kinds[ALL_TABLES] = {
    [PRICE] = {"price", 4, false},
    [OFFER_OWNER] = {"offer_owner", 2, false},
    [GROCER_OWNER] = {"grocer_owner", 2, false},
    [TALLY_GROCER] = {"tally_grocer", 2, false},
    [TALLY_BOX] = {"tally_box", 2, false},
    [TALLY_OFFER] = {"tally_offer", 2, false},
    [TALLY_COUNT] = {"tally_count", 4, true},
    [TALLY_BAG] = {"tally_bag", 2, false},
    [TALLY_REVISION] = {"tally_revision", 2, false},
    [KNOWN] = {"known", 4, false},
    [PRICE_TRANSIT] = {"price_transit", 4, false},
    [WORKING] = {"working", 8, true},
    [TOTAL_TRANSIT] = {"total_transit", 8, true},
    [STATEMENT] = {"statement", 8, true},
    [DONE] = {"done", 2, false},
    [SENT] = {"sent", 4, false},
    [OFFER_CODE] = {"offer_code", 1, false},
    [OFFER_ISSUER] = {"offer_issuer", 2, false},
    [TALLY_CODE] = {"tally_code", 1, false},
    [TALLY_ISSUER] = {"tally_issuer", 2, false},
    [SIZES] = {"sizes", 2, false},
    [REPORT] = {"report", 4, false},
    [FILE_BYTES] = {"file", 1, false},
    [CHOICES] = {"choices", 2, false},
    [PICKED] = {"picked", 2, false},
    [OUT] = {"out", 1, false},
    [OWED] = {"owed", 8, true},
    [PRICE_WORDS] = {"price_words", 2, false},
    [TOTAL_WORDS] = {"total_words", 2, false},
    [JOB_WORDS] = {"job_words", 4, false},
    [LOCAL_OFFERS] = {"local_offers", 2, false},
    [LOCAL_GROCERS] = {"local_grocers", 2, false},
    [STARTS] = {"starts", 2, false},
    [PACKED_GROCERS] = {"packed_grocers", 2, false},
    [PACKED_COUNTS] = {"packed_counts", 4, true},
    [NUMBERS] = {"numbers", 2, false},
    [ADDED_CODE] = {"code", 1, false},
    [EDITED] = {"edited", 4, false},
    [PREFERENCES] = {"preferences", 2, false},
    [IDLE] = {"idle", 2, false},
    [NEXT_CYCLE] = {"next", 4, false},
    [HELD_CENTS] = {"held", 8, true},
    [KEPT_SUMS] = {"sums", 8, true},
    [GIVEN_CENTS] = {"amounts", 8, true},
};

const char *table_text(enum table_name name) { return kinds[name].text; }
size_t width_of(enum table_name name) { return kinds[name].width; }
bool is_signed(enum table_name name) { return kinds[name].is_signed; }

size_t width_of_entry(struct sizes sizes) { return (size_t)sizes.lists + 1; }

uint64_t needed(enum table_name name, struct sizes sizes)
{
    uint64_t k = sizes.boxes, m = sizes.grocers, n = sizes.offers, t = sizes.tallies, l = width_of_entry(sizes);
    switch (name) {
    case PRICE: return n * l;
    case LOCAL_OFFERS:
    case OFFER_ISSUER:
    case OFFER_OWNER: return n;
    case GROCER_OWNER:
    case KEPT_SUMS:
    case GIVEN_CENTS:
    case LOCAL_GROCERS: return m;
    case HELD_CENTS: return 13 * m;
    case STATEMENT: return m * l;
    case TALLY_GROCER:
    case TALLY_BOX:
    case TALLY_OFFER:
    case PACKED_GROCERS:
    case PACKED_COUNTS:
    case TALLY_ISSUER:
    case TALLY_BAG:
    case TALLY_REVISION:
    case TALLY_COUNT: return t;
    case STARTS: return n + 1;
    case KNOWN:
    case PRICE_TRANSIT: return k * n * l;
    case DONE: return 6 * k * k;
    case JOB_WORDS:
    case NEXT_CYCLE:
    case OWED:
    case SENT: return 1;
    case OFFER_CODE: return 11 * n;
    case TALLY_CODE: return 11 * t;
    case ADDED_CODE: return 11;
    case SIZES: return 6;
    case EDITED: return 4;
    case NUMBERS:
    case REPORT: return 3;
    case PRICE_WORDS:
    case TOTAL_WORDS: return MOST_BOXES * MOST_BOXES;
    case PREFERENCES: return 6;
    case IDLE: return k;
    default: return 0;
    }
}

bool is_packed(enum table_name name) { return name == WORKING || name == TOTAL_TRANSIT; }

uint64_t enough(enum table_name name, struct sizes sizes)
{
    uint64_t places = (uint64_t)sizes.grocers + sizes.tallies;
    return is_packed(name) ? places * width_of_entry(sizes) : needed(name, sizes);
}

struct range width_range(enum table_name name)
{
    unsigned bits = 8 * (unsigned)width_of(name);
    if (bits == 64) return (struct range){INT64_MIN, INT64_MAX};
    if (is_signed(name)) return (struct range){-(INT64_C(1) << (bits - 1)), (INT64_C(1) << (bits - 1)) - 1};
    return (struct range){0, (INT64_C(1) << bits) - 1};
}

struct range range_of(enum table_name name, struct sizes sizes)
{
    switch (name) {
    case PRICE:
    case KNOWN:
    case PRICE_TRANSIT: return (struct range){0, MOST_PRICE};
    case OFFER_OWNER:
    case GROCER_OWNER:
    case TALLY_BOX: return (struct range){0, sizes.boxes - 1};
    case TALLY_GROCER: return (struct range){0, sizes.grocers - 1};
    case TALLY_OFFER: return (struct range){0, sizes.offers - 1};
    case TALLY_COUNT: return (struct range){-MOST_COUNT, MOST_COUNT};
    case WORKING:
    case TOTAL_TRANSIT:
    case STATEMENT: return (struct range){-MOST_AMOUNT, MOST_AMOUNT};
    case DONE: return (struct range){0, 1};
    case SENT: return (struct range){0, MOST_SENT};
    case NEXT_CYCLE: return (struct range){0, 65536};
    case HELD_CENTS: return (struct range){-INT64_C(100000000000000), INT64_C(100000000000000)};
    case KEPT_SUMS: return (struct range){-INT64_C(1300000000000000), INT64_C(1300000000000000)};
    default: return width_range(name);
    }
}

bool has_range(enum table_name name)
{
    struct sizes least = {1, 1, 1, 0, 0};
    return range_of(name, least).most < width_range(name).most;
}

bool sizes_in_range(struct sizes sizes)
{
    return sizes.boxes >= 1 && sizes.boxes <= MOST_BOXES && sizes.grocers >= 1 && sizes.grocers <= MOST_GROCERS &&
           sizes.offers >= 1 && sizes.offers <= MOST_OFFERS && sizes.tallies <= MOST_TALLIES &&
           sizes.lists <= MOST_LISTS;
}

static unsigned char *place_of(struct table table, size_t place)
{
    return (unsigned char *)table.words + place * width_of(table.name);
}

/* Words are little-endian, as on every machine that the library is made for. */
int64_t word_at(struct table table, size_t place)
{
    const unsigned char *at = place_of(table, place);
    int64_t word = 0;
    switch (width_of(table.name)) {
    case 1: return *at;
    case 2: memcpy(&word, at, 2); return word;
    case 4: memcpy(&word, at, 4); return is_signed(table.name) ? (int32_t)word : word;
    default: memcpy(&word, at, 8); return word;
    }
}

void put_word(struct table table, size_t place, int64_t word)
{
    unsigned char *at = place_of(table, place);
    switch (width_of(table.name)) {
    case 1: *at = (unsigned char)word; break;
    case 2: memcpy(at, &word, 2); break;
    case 4: memcpy(at, &word, 4); break;
    default: memcpy(at, &word, 8); break;
    }
}

bool is_short(struct table table, struct sizes sizes) { return table.length < needed(table.name, sizes); }

bool words_in_range(struct table table, struct sizes sizes)
{
    struct range range = range_of(table.name, sizes);
    size_t words = needed(table.name, sizes);
    for (size_t place = 0; place < words; place++) {
        int64_t word = word_at(table, place);
        if (word < range.least || word > range.most) return false;
    }
    return true;
}
