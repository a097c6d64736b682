/* The writer: each refusal, their order, short buffers, the longest file, and files that are read and written again. */
#include <string.h>

#include "call_groups.h"
#include "calling.h"
#include "entries_model.h"

static struct calling calling;

static void expect_write(struct sizes sizes, size_t due)
{
    size_t answer = ask_write(&calling, sizes);
    expect(answer == due, "the writer answered %zu, the case says %zu", answer, due);
}

static void open_sample(void)
{
    sample_job(&calling.job);
    open_calling(&calling, SPARE);
}

/* E with other words */

struct change {
    enum table_name name;
    size_t place;
    int64_t word;
};

struct write_case {
    const char *what;
    size_t due;
    struct sizes sizes;       /* of no boxes, no grocers, no offers and no tallies: E's */
    struct change changes[3]; /* to place 0 of the prices, word 0: none */
    const char *offers[2], *tally;
};

enum { WHOLE = 4 * BLOCK, NO_TALLIES = 3 * BLOCK };

static const struct write_case cases[] = {
    {.what = "E", .due = WHOLE},
    {.what = "0 boxes", .due = 4, .sizes = {0, 2, 2, 4, 0}},
    {.what = "16 boxes", .due = WHOLE, .sizes = {16, 2, 2, 4, 0}},
    {.what = "17 boxes", .due = 4, .sizes = {17, 2, 2, 4, 0}},
    {.what = "0 grocers", .due = 4, .sizes = {2, 0, 2, 4, 0}},
    {.what = "0 offers", .due = 4, .sizes = {2, 2, 0, 4, 0}},
    {.what = "0 tallies", .due = NO_TALLIES, .sizes = {2, 2, 2, 0, 0}},
    {.what = "more lists than are lent", .due = 20, .sizes = {2, 2, 2, 4, 4}},
    {.what = "65535 lists more", .due = 20, .sizes = {2, 2, 2, 4, 65535}},
    {.what = "65535 of each", .due = 20, .sizes = {65535, 65535, 65535, 65535, 0}},
    {.what = "price 9999999", .due = WHOLE, .changes = {{PRICE, 0, 9999999}}},
    {.what = "price 10000000", .due = 6, .changes = {{PRICE, 0, 10000000}}},
    {.what = "owners 1 and 1", .due = WHOLE, .changes = {{OFFER_OWNER, 0, 1}, {GROCER_OWNER, 0, 1}}},
    {.what = "offer owner 2", .due = 6, .changes = {{OFFER_OWNER, 0, 2}}},
    {.what = "grocer owner 2", .due = 6, .changes = {{GROCER_OWNER, 0, 2}}},
    {.what = "offer owner 256", .due = 6, .changes = {{OFFER_OWNER, 0, 256}}},
    {.what = "tally grocer 1, box 0", .due = WHOLE, .changes = {{TALLY_GROCER, 3, 1}, {TALLY_BOX, 3, 0}}},
    {.what = "tally grocer 2", .due = 6, .changes = {{TALLY_GROCER, 3, 2}}},
    {.what = "tally box 2", .due = 6, .changes = {{TALLY_BOX, 3, 2}}},
    {.what = "tally box 256", .due = 6, .changes = {{TALLY_BOX, 3, 256}}},
    {.what = "count 99999", .due = WHOLE, .changes = {{TALLY_COUNT, 0, 99999}}},
    {.what = "count 100000", .due = 6, .changes = {{TALLY_COUNT, 0, 100000}}},
    {.what = "count -99999", .due = WHOLE, .changes = {{TALLY_COUNT, 0, -99999}}},
    {.what = "count -100000", .due = 6, .changes = {{TALLY_COUNT, 0, -100000}}},
    {.what = "offer code of 10 digits", .due = WHOLE, .offers = {"0000000412"}},
    {.what = "offer code of 0 digits", .due = 6, .offers = {""}},
    {.what = "offer code of 11 digits", .due = 6, .offers = {"00000000412"}},
    {.what = "tally code of 10 digits", .due = WHOLE, .tally = "0000000412"},
    {.what = "tally code of 0 digits", .due = 6, .tally = ""},
    {.what = "tally code of 11 digits", .due = 6, .tally = "00000000412"},
    {.what = "byte above the digits", .due = 6, .changes = {{OFFER_CODE, 5, ':'}}},
    {.what = "byte below the digits", .due = 6, .changes = {{TALLY_CODE, 1, '/'}}},
    {.what = "byte behind the digits", .due = 6, .changes = {{OFFER_CODE, 6, '0'}}},
    {.what = "offers 7 and 07", .due = 7, .offers = {"7", "07"}},
    {.what = "tally code 413", .due = 8, .tally = "413"},
    {.what = "tally code 4120", .due = 8, .tally = "4120"},
    {.what = "offer 412 of issuer 1, its tallies too",
     .due = WHOLE,
     .changes = {{OFFER_ISSUER, 0, 1}, {TALLY_ISSUER, 0, 1}, {TALLY_ISSUER, 3, 1}}},
    {.what = "offers 7 and 07 of issuer 9",
     .due = 7,
     .changes = {{OFFER_ISSUER, 0, 9}, {OFFER_ISSUER, 1, 9}},
     .offers = {"7", "07"}},
    {.what = "offers 7 and 07 of issuers 9 and 0", .due = 8, .changes = {{OFFER_ISSUER, 0, 9}}, .offers = {"7", "07"}},
    {.what = "offer 412 of issuer 1, its tallies old", .due = 8, .changes = {{OFFER_ISSUER, 0, 1}}},
    {.what = "tally 412 of issuer 1", .due = 8, .changes = {{TALLY_ISSUER, 0, 1}}},
    {.what = "tally 412 of issuer 256", .due = 8, .changes = {{TALLY_ISSUER, 0, 256}}},
    {.what = "4 before 6", .due = 4, .sizes = {17, 2, 2, 4, 0}, .changes = {{PRICE, 1, 10000000}}},
    {.what = "6 before 7", .due = 6, .changes = {{TALLY_COUNT, 3, 100000}}, .offers = {"00412", "0412"}},
    {.what = "7 before 8", .due = 7, .changes = {{TALLY_COUNT, 3, 4}}, .offers = {"00412", "0412"}},
    {.what = "bad count with unknown code", .due = 6, .changes = {{TALLY_COUNT, 0, 100000}}, .tally = "413"},
    {.what = "bag 1 of 412 and 0412", .due = 9, .changes = {{TALLY_BAG, 0, 1}, {TALLY_BAG, 3, 1}}},
    {.what = "bag 65535 of 412 and 0412", .due = 9, .changes = {{TALLY_BAG, 0, 65535}, {TALLY_BAG, 3, 65535}}},
    {.what = "bag 1, revisions 0 and 1",
     .due = WHOLE,
     .changes = {{TALLY_BAG, 0, 1}, {TALLY_BAG, 3, 1}, {TALLY_REVISION, 3, 1}}},
    {.what = "bag 1, revisions 256 and 0",
     .due = WHOLE,
     .changes = {{TALLY_BAG, 0, 1}, {TALLY_BAG, 3, 1}, {TALLY_REVISION, 0, 256}}},
    {.what = "bags 1 and 257", .due = WHOLE, .changes = {{TALLY_BAG, 0, 1}, {TALLY_BAG, 3, 257}}},
    {.what = "bag 1 of two offers", .due = WHOLE, .changes = {{TALLY_BAG, 0, 1}, {TALLY_BAG, 2, 1}}},
    {.what = "bag 1 of two grocers", .due = WHOLE, .changes = {{TALLY_BAG, 1, 1}, {TALLY_BAG, 2, 1}}},
    {.what = "6 before 9", .due = 6, .changes = {{TALLY_BAG, 0, 1}, {TALLY_BAG, 3, 1}, {TALLY_COUNT, 1, 100000}}},
    {.what = "7 before 9", .due = 7, .changes = {{TALLY_BAG, 0, 1}, {TALLY_BAG, 3, 1}}, .offers = {"00412", "0412"}},
    {.what = "8 before 9", .due = 8, .changes = {{TALLY_BAG, 0, 1}, {TALLY_BAG, 3, 1}, {TALLY_ISSUER, 1, 1}}},
    {.what = "8 before 9, of the tally in the bag",
     .due = 8,
     .changes = {{TALLY_BAG, 0, 1}, {TALLY_BAG, 3, 1}},
     .tally = "413"},
    {.what = "4 before 9", .due = 4, .sizes = {17, 2, 2, 4, 0}, .changes = {{TALLY_BAG, 0, 1}, {TALLY_BAG, 3, 1}}},
    {.what = "a bag and revision twice, one of them behind T",
     .due = WHOLE,
     .sizes = {2, 2, 2, 3, 0},
     .changes = {{TALLY_BAG, 0, 1}, {TALLY_BAG, 3, 1}}},
};

/* A code of up to 11 digits: their number, the first ten of them, and 0 behind. */
static void put_code(enum table_name name, size_t entry, const char *digits)
{
    size_t length = strlen(digits);
    put_both(&calling.lending, name, 11 * entry, (int64_t)length);
    for (size_t i = 0; i < FIELD; i++) put_both(&calling.lending, name, 11 * entry + 1 + i, i < length ? digits[i] : 0);
}

static void change(const struct write_case *c)
{
    for (unsigned i = 0; i < 3; i++) {
        struct change change = c->changes[i];
        if (change.name != PRICE || change.word) put_both(&calling.lending, change.name, change.place, change.word);
    }
    for (unsigned i = 0; i < 2; i++)
        if (c->offers[i]) put_code(OFFER_CODE, i, c->offers[i]);
    if (c->tally) put_code(TALLY_CODE, 0, c->tally);
}

static bool no_sizes(struct sizes sizes) { return !(sizes.boxes | sizes.grocers | sizes.offers | sizes.tallies); }

static void other_words(void)
{
    for (size_t i = 0; i < sizeof cases / sizeof cases[0]; i++) {
        open_sample();
        at_case("%s", cases[i].what);
        change(&cases[i]);
        expect_write(no_sizes(cases[i].sizes) ? calling.job.sizes : cases[i].sizes, cases[i].due);
        close_calling(&calling);
    }
}

/* Short buffers */

static const enum table_name lent_words[] = {PRICE,        OFFER_OWNER,    OFFER_CODE, OFFER_ISSUER, GROCER_OWNER,
                                             TALLY_GROCER, TALLY_BOX,      TALLY_CODE, TALLY_COUNT,  TALLY_ISSUER,
                                             TALLY_BAG,    TALLY_REVISION, OUT};
enum { LENT_WORDS = sizeof lent_words / sizeof lent_words[0] };

static void short_buffers(void)
{
    for (size_t i = 0; i < LENT_WORDS; i++) {
        open_sample();
        make_fault(&calling, lent_words[i], SHORT);
        expect_write(calling.job.sizes, 20);
        expect_write((struct sizes){17, 2, 2, 4, 0}, 20);
        put_both(&calling.lending, PRICE, 0, 10000000);
        expect_write(calling.job.sizes, 20);
        close_calling(&calling);
    }
    static const struct sizes more[] = {{2, 3, 2, 4, 0}, {2, 2, 3, 4, 0}, {2, 2, 2, 5, 0}, {2, 2, 2, 4, 1}};
    for (size_t i = 0; i < 4; i++) {
        sample_job(&calling.job);
        open_calling(&calling, 0);
        at_case("sizes %zu for which a table is short", i);
        expect_write(more[i], 20);
        close_calling(&calling);
    }
}

/* The largest sizes pass, so that codes of no digits are refused; one more does not. */
static void largest_sizes(void)
{
    static const struct sizes tried[] = {
        {1, 255, 500, 1000, 7}, {1, 255, 500, 1000, 0}, {1, 256, 500, 1000, 0}, {1, 255, 501, 1000, 0},
        {1, 255, 500, 1001, 0}, {1, 255, 500, 1000, 8}, {1, 255, 501, 1000, 7}};
    open_zeros(&calling, (struct sizes){1, 256, 501, 1001, 8});
    for (size_t i = 0; i < sizeof tried / sizeof tried[0]; i++) {
        at_case("M %u, N %u, T %u, lists %u", tried[i].grocers, tried[i].offers, tried[i].tallies, tried[i].lists);
        calling.lending.lend[OUT] = BLOCK * blocks_of(tried[i]);
        expect_write(tried[i], i < 2 ? 6 : 4);
    }
    close_calling(&calling);
}

/* The longest file, its tables filled by rules */

/* A number with zeros in front, of so many digits. */
static struct code code_with(uint64_t number, size_t digits)
{
    return code_of_number(number, digits - code_of_number(number, 0).digits);
}

static void largest_job(struct job *job)
{
    memset(job, 0, sizeof *job);
    job->sizes = LARGEST_OF_ONE_LIST;
    for (size_t o = 0; o < MOST_OFFERS; o++) {
        uint64_t number = o % 2 ? o * 19999999 : o;
        size_t digits = o % 2 ? 10 : 3 + o / 2 % 8;
        job->offer[o] = (struct offer){(uint32_t)(o * 20040 + 39), (uint16_t)(o % 16), {0, code_with(number, digits)}};
    }
    for (size_t g = 0; g < MOST_GROCERS; g++) job->grocer_owner[g] = (uint16_t)((g * 5 + 3) % 16);
    for (size_t t = 0; t < MOST_TALLIES; t++) {
        uint16_t place = (uint16_t)(t * 7 % 500);
        uint64_t number = place % 2 ? place * UINT64_C(19999999) : place;
        job->tally[t] = (struct tally){(uint16_t)(t % 255),
                                       (uint16_t)(t * 3 % 16),
                                       place,
                                       (int32_t)(t * 200) - MOST_COUNT,
                                       {0, code_with(number, place % 2 ? 10 : 3 + t / 3 % 8)},
                                       0,
                                       0};
    }
}

/* 125 numbers, each under four issuers, 65,535 among them. */
static struct name issued_name(uint32_t offer)
{
    return (struct name){(uint16_t)(65535 - offer % 4 * 16411), code_with(offer / 4 * UINT64_C(80645161), 10)};
}

static void expect_sums(size_t length, uint64_t bytes, uint64_t sums)
{
    uint64_t first = 0, second = 0;
    for (size_t i = 0; i < length; i++) second += first += (uint64_t)word_of(&calling, OUT, i);
    expect(first == bytes && second == sums, "sum of bytes %llu, sum of sums %llu", (unsigned long long)first,
           (unsigned long long)second);
}

/* Reads the file that was written into other buffers, writes what they then hold, and compares. */
static void read_and_write_again(size_t length)
{
    struct calling again = {.job = calling.job};
    size_t lengths[ALL_TABLES];
    for (unsigned name = 0; name < ALL_TABLES; name++) lengths[name] = needed(name, LARGEST);
    lengths[FILE_BYTES] = lengths[OUT] = length;
    open_lending(&again.lending, lengths);
    memcpy(again.lending.twin[FILE_BYTES].words, calling.lending.table[OUT].words, length);
    write_job_words(&calling.job, again.lending.twin);
    write_reader_words(&calling.job, again.lending.twin);
    memcpy(again.lending.table[FILE_BYTES].words, again.lending.twin[FILE_BYTES].words, length);
    expect(call_read(&again.lending) == 0, "the reader refuses the file");
    compare_with_twins(&again.lending);
    again.job.cycle = (uint16_t)word_of(&again, SIZES, 4);
    expect(ask_write(&again, calling.job.sizes) == length, "the file is not written again");
    expect(memcmp(again.lending.table[OUT].words, calling.lending.table[OUT].words, length) == 0, "the files differ");
    close_calling(&again);
}

/* The largest job as it stands, written, read and written again. */
static void write_largest(const char *what, size_t length)
{
    at_case("%s", what);
    open_calling(&calling, SPARE);
    expect_write(calling.job.sizes, length);
    read_and_write_again(length);
    close_calling(&calling);
}

static void longest_file(void)
{
    enum { ONE_LIST = 74 * BLOCK };
    at_case("the longest file of one list");
    largest_job(&calling.job);
    open_calling(&calling, SPARE);
    expect_write(LARGEST_OF_ONE_LIST, ONE_LIST);
    expect_sums(ONE_LIST, 1511826, 27851930147);
    close_calling(&calling);
    write_largest("the longest file of one list, read", ONE_LIST);
    give_lists(&calling.job, MOST_LISTS);
    write_largest("the longest file", MOST_FILE);
    for (uint32_t o = 0; o < MOST_OFFERS; o++) calling.job.offer[o].name = issued_name(o);
    for (size_t t = 0; t < MOST_TALLIES; t++) calling.job.tally[t].name = issued_name(calling.job.tally[t].place);
    write_largest("the longest file, its names of four issuers", MOST_FILE);
    give_bags(&calling.job);
    write_largest("the longest file, its tallies in bags", MOST_FILE);
}

/* The price of an offer in the block of a list of E, which has one block of each other kind. */
static int64_t price_bytes(size_t list, size_t offer)
{
    int64_t price = 0;
    for (size_t i = 4; i-- > 0;) price = 256 * price + word_of(&calling, OUT, (2 + list) * BLOCK + 4 + 4 * offer + i);
    return price;
}

/* E with lists: their number stands in byte 14, and each list more in a block of its own behind the grocers. */
static void price_lists(void)
{
    for (uint16_t lists = 0; lists <= MOST_LISTS; lists++) {
        at_case("E with %u lists more", lists);
        sample_with_lists(&calling.job, lists);
        open_calling(&calling, SPARE);
        struct sizes sizes = calling.job.sizes;
        expect_write(sizes, WHOLE + lists * BLOCK);
        expect(word_of(&calling, OUT, 14) == lists, "byte 14 is not the number of lists");
        for (size_t q = 1; q <= lists; q++) {
            expect(word_of(&calling, OUT, (2 + q) * BLOCK) == 4, "a block of prices is not of kind 4");
            for (size_t o = 0; o < 2; o++)
                expect(price_bytes(q, o) == price_on(&calling.job, o, q), "a price of list %zu differs", q);
        }
        read_and_write_again(WHOLE + lists * BLOCK);
        put_both(&calling.lending, PRICE, 2 * lists + 1u, MOST_PRICE + 1);
        expect_write(sizes, 6);
        make_fault(&calling, PRICE, SHORT);
        expect_write(sizes, 20);
        lend_whole(&calling.lending);
        make_fault(&calling, OUT, SHORT);
        expect_write(sizes, 20);
        close_calling(&calling);
    }
}

static void read_again(void)
{
    at_case("E read and written again");
    open_sample();
    expect_write(calling.job.sizes, WHOLE);
    read_and_write_again(WHOLE);
    close_calling(&calling);
    for (unsigned long i = 0; i < job_count / 4 + 2; i++) {
        at_case("job %lu written, read and written again", i);
        random_job(&calling.job, random_sizes(i % 8 ? TINY : i % 64 ? SMALL : LARGEST));
        open_calling(&calling, SPARE);
        read_and_write_again(ask_write(&calling, calling.job.sizes));
        close_calling(&calling);
    }
}

/* E of one cycle and another: it stands in bytes 12 and 13, and comes back. */
static void cycles(void)
{
    static const uint16_t tried[] = {0, 1, 255, 256, 499, 500, 32768, 65534, 65535};
    for (size_t i = 0; i < sizeof tried / sizeof tried[0]; i++) {
        at_case("cycle %u", tried[i]);
        sample_job(&calling.job);
        calling.job.cycle = tried[i];
        open_calling(&calling, SPARE);
        expect_write(calling.job.sizes, WHOLE);
        expect(word_of(&calling, OUT, 12) + 256 * word_of(&calling, OUT, 13) == tried[i] &&
                   word_of(&calling, OUT, 14) == 0,
               "the cycle does not stand in bytes 12 and 13");
        read_and_write_again(WHOLE);
        close_calling(&calling);
    }
}

/* Two bytes of the file, and that the one behind them is 0. */
static void expect_issuer(size_t place, uint16_t issuer)
{
    expect(word_of(&calling, OUT, place) + 256 * word_of(&calling, OUT, place + 1) == issuer &&
               word_of(&calling, OUT, place + 2) == 0,
           "the issuer does not stand in bytes %zu and %zu", place, place + 1);
}

/* E of one issuer and another: it stands in bytes 16 and 17 of an offer and 18 and 19 of a tally, and comes back. */
static void any_issuers(void)
{
    static const uint16_t tried[] = {0, 1, 255, 256, 257, 5521, 32767, 32768, 65534, 65535};
    for (size_t i = 0; i < sizeof tried / sizeof tried[0]; i++) {
        at_case("issuer %u", tried[i]);
        sample_job(&calling.job);
        for (size_t o = 0; o < 2; o++) calling.job.offer[o].name.issuer = tried[i];
        for (size_t t = 0; t < 4; t++) calling.job.tally[t].name.issuer = tried[i];
        open_calling(&calling, SPARE);
        expect_write(calling.job.sizes, WHOLE);
        for (size_t o = 0; o < 2; o++) expect_issuer(BLOCK + 4 + 24 * o + 16, tried[i]);
        for (size_t t = 0; t < 4; t++) expect_issuer(3 * BLOCK + 4 + 24 * t + 18, tried[i]);
        read_and_write_again(WHOLE);
        close_calling(&calling);
    }
}

static void names_of_issuers(void)
{
    for (const struct named *c = named; c->what; c++) {
        at_case("%s", c->what);
        named_job(&calling.job, c);
        open_calling(&calling, SPARE);
        expect_write(calling.job.sizes, c->due ? c->due : WHOLE);
        if (!c->due) read_and_write_again(WHOLE);
        close_calling(&calling);
    }
}

/* Two bytes of the file. */
static int64_t two_bytes(size_t place)
{
    return word_of(&calling, OUT, place) + 256 * word_of(&calling, OUT, place + 1);
}

/* Bag and revision stand in bytes 20 to 23 of each tally, superseded ones too, and come back. */
static void bags(void)
{
    for (const struct bagged *c = bagged; c->what; c++) {
        at_case("%s", c->what);
        bagged_job(&calling.job, c);
        open_calling(&calling, SPARE);
        expect_write(calling.job.sizes, c->standing ? WHOLE : 9);
        for (size_t t = 0; c->standing && t < calling.job.sizes.tallies; t++) {
            size_t record = 3 * BLOCK + 4 + 24 * t;
            expect(two_bytes(record + 20) == calling.job.tally[t].bag, "the bag of tally %zu differs", t);
            expect(two_bytes(record + 22) == calling.job.tally[t].revision, "the revision of tally %zu differs", t);
        }
        if (c->standing) read_and_write_again(WHOLE);
        close_calling(&calling);
    }
}

/* Random jobs with some words changed, and other sizes beside them */

static void change_some_word(void)
{
    enum table_name name = lent_words[below(LENT_WORDS - 1)];
    size_t length = calling.lending.lend[name];
    if (length == 0) return;
    struct range range = range_of(name, calling.job.sizes);
    int64_t word = name == OFFER_CODE || name == TALLY_CODE       ? '0' + below(12) - 1
                   : name == OFFER_ISSUER || name == TALLY_ISSUER ? below(3)
                   : name == TALLY_BAG || name == TALLY_REVISION  ? below(2)
                   : one_in(2)                                    ? range.most + 1
                                                                  : range.most;
    put_both(&calling.lending, name, below((uint32_t)length), one_in(4) ? (int64_t)random_word() : word);
}

static void random_jobs(void)
{
    for (unsigned long i = 0; i < 2 * job_count; i++) {
        random_job(&calling.job, random_sizes(i % 8 ? TINY : SMALL));
        open_calling(&calling, SPARE);
        struct sizes sizes = calling.job.sizes;
        at_case("random job %lu", i);
        if (one_in(4)) near_bags(&calling);
        for (uint32_t changes = below(4); changes > 0; changes--) change_some_word();
        if (one_in(8)) sizes.boxes = wild_number(sizes.boxes);
        if (one_in(8)) sizes.tallies = wild_number(sizes.tallies);
        if (one_in(8)) sizes.lists = wild_number(sizes.lists);
        if (one_in(8)) calling.lending.lend[lent_words[below(LENT_WORDS)]] = below(8);
        ask_write(&calling, sizes);
        close_calling(&calling);
    }
}

void check_writer(void)
{
    run_group("writer: E with other sizes, words and codes", other_words);
    run_group("writer: each buffer short", short_buffers);
    run_group("writer: sizes at and beyond their values", largest_sizes);
    run_group("writer: the longest file, read and written again", longest_file);
    run_group("writer: price lists, read and written again", price_lists);
    run_group("writer: files that are read and written again", read_again);
    run_group("writer: any settlement cycle, read and written again", cycles);
    run_group("writer: any issuer, read and written again", any_issuers);
    run_group("writer: names of two issuers, read and written again", names_of_issuers);
    run_group("writer: bags, read and written again with their superseded tallies", bags);
    run_group("writer: random jobs, words and sizes", random_jobs);
}
