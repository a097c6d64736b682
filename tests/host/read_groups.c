/* The reader: each refusal, their order, short buffers, random files and damaged ones. */
#include <string.h>

#include "groups.h"
#include "settling.h"

static struct job job;
static struct lending lending;

/* Room for the longest file and what may stand behind it. */
enum { ROOM = 56000 };
static uint8_t file[ROOM];

static void (*body)(void);

static void with_buffers(void)
{
    open_reading(&lending, SPARE, ROOM);
    body();
    close_lending(&lending);
}

/* A group whose checks share the reader's buffers. */
static void group(const char *name, void (*checks)(void))
{
    body = checks;
    run_group(name, with_buffers);
}

/* Reads what stands in file, and holds the answer to a number that is known without the model. */
static void expect_answer(size_t length, uint16_t due)
{
    uint16_t answer = ask_read(&lending, file, length);
    expect(answer == due, "reader answered %u, the specification says %u", answer, due);
}

static void change_byte(uint8_t *byte) { *byte ^= (uint8_t)(1 + below(255)); }

static size_t write_sample_job(void)
{
    sample_job(&job);
    return write_file(&job, file);
}

/* Edits of E's file, each with its refusal, in the order in which the reader looks for them. The last tally is in bag
   1, and the first one is of its grocer and offer. */

struct edit {
    const char *what;
    uint16_t number;
    uint8_t block;
    uint16_t place;
    uint8_t length, bytes[5];
};

static const struct edit edits[] = {
    {"first sum of the header", 2, 0, 508, 1, {99}},
    {"second sum of the header", 2, 0, 510, 1, {99}},
    {"kind of the header", 3, 0, 0, 1, {1}},
    {"record count of the header", 3, 0, 1, 1, {0}},
    {"block number of the header", 3, 0, 2, 1, {1}},
    {"block number of the header, high byte", 3, 0, 3, 1, {1}},
    {"byte 5 is 0", 4, 0, 5, 1, {0}},
    {"byte 5 is 2", 4, 0, 5, 1, {2}},
    {"0 boxes", 4, 0, 4, 1, {0}},
    {"17 boxes", 4, 0, 4, 1, {17}},
    {"0 grocers", 4, 0, 6, 2, {0, 0}},
    {"256 grocers", 4, 0, 6, 2, {0, 1}},
    {"0 offers", 4, 0, 8, 2, {0, 0}},
    {"501 offers", 4, 0, 8, 2, {0xF5, 1}},
    {"1,001 tallies", 4, 0, 10, 2, {0xE9, 3}},
    {"8 additional lists", 4, 0, 14, 1, {8}},
    {"255 additional lists", 4, 0, 14, 1, {255}},
    {"first spare byte of the header", 5, 0, 15, 1, {1}},
    {"last spare byte of the header", 5, 0, 507, 1, {255}},
    {"22 tallies need one block more", 1, 0, 10, 2, {22, 0}},
    {"no tallies need one block less", 1, 0, 10, 2, {0, 0}},
    {"two additional lists need two blocks more", 1, 0, 14, 1, {2}},
    {"first sum of the offers", 2, 1, 509, 1, {99}},
    {"second sum of the offers", 2, 1, 511, 1, {99}},
    {"kind of the offers", 3, 1, 0, 1, {2}},
    {"record count of the offers", 3, 1, 1, 1, {3}},
    {"block number of the offers", 3, 1, 2, 1, {2}},
    {"first spare byte of an offer", 5, 1, 22, 1, {1}},
    {"last spare byte of an offer", 5, 1, 27, 1, {1}},
    {"first byte after the offers", 5, 1, 52, 1, {1}},
    {"last byte after the offers", 5, 1, 507, 1, {1}},
    {"price 10,000,000", 6, 1, 4, 4, {0x80, 0x96, 0x98, 0}},
    {"price 4,294,967,295", 6, 1, 4, 4, {255, 255, 255, 255}},
    {"owner of an offer is 2", 6, 1, 8, 1, {2}},
    {"owner of an offer is 255", 6, 1, 8, 1, {255}},
    {"an offer with 0 digits", 6, 1, 9, 1, {0}},
    {"an offer with 11 digits", 6, 1, 9, 1, {11}},
    {"a slash as digit", 6, 1, 10, 1, {'/'}},
    {"a colon as digit", 6, 1, 10, 1, {':'}},
    {"a byte after the digits of an offer", 6, 1, 15, 1, {'0'}},
    {"the last byte after the digits of an offer", 6, 1, 19, 1, {1}},
    {"first sum of the grocers", 2, 2, 508, 1, {99}},
    {"kind of the grocers", 3, 2, 0, 1, {3}},
    {"record count of the grocers", 3, 2, 1, 1, {1}},
    {"block number of the grocers", 3, 2, 2, 1, {9}},
    {"first byte after the grocers", 5, 2, 6, 1, {1}},
    {"owner of a grocer is 2", 6, 2, 5, 1, {2}},
    {"second sum of the tallies", 2, 3, 510, 1, {99}},
    {"kind of the tallies", 3, 3, 0, 1, {0}},
    {"record count of the tallies", 3, 3, 1, 1, {21}},
    {"block number of the tallies", 3, 3, 3, 1, {1}},
    {"first byte after the tallies", 5, 3, 100, 1, {1}},
    {"grocer of a tally is 2", 6, 3, 4, 1, {2}},
    {"grocer of a tally is 256", 6, 3, 5, 1, {1}},
    {"box of a tally is 2", 6, 3, 6, 1, {2}},
    {"a tally with 0 digits", 6, 3, 7, 1, {0}},
    {"a tally with 11 digits", 6, 3, 7, 1, {11}},
    {"a letter as digit", 6, 3, 8, 1, {'A'}},
    {"a byte after the digits of a tally", 6, 3, 11, 1, {' '}},
    {"the last byte after the digits of a tally", 6, 3, 17, 1, {1}},
    {"count 100,000", 6, 3, 18, 4, {0xA0, 0x86, 1, 0}},
    {"count -100,000", 6, 3, 18, 4, {0x60, 0x79, 0xFE, 0xFF}},
    {"count -2,147,483,648", 6, 3, 18, 4, {0, 0, 0, 0x80}},
    {"two offers with number 412", 7, 1, 33, 4, {3, '4', '1', '2'}},
    {"a tally with number 4120", 8, 3, 7, 5, {4, '4', '1', '2', '0'}},
    {"a tally of issuer 1", 8, 3, 22, 1, {1}},
    {"a tally of the last one's bag and revision", 9, 3, 24, 1, {1}},
};
enum { EDITS = sizeof edits / sizeof edits[0] };

/* Edits of E's file with two lists more, in order: blocks 3 and 4 are those of prices, 5 is that of tallies. */
static const struct edit list_edits[] = {
    {"8 additional lists", 4, 0, 14, 1, {8}},
    {"a spare byte of the header", 5, 0, 15, 1, {1}},
    {"one additional list, two in the file", 1, 0, 14, 1, {1}},
    {"kind of the grocers", 3, 2, 0, 1, {4}},
    {"first sum of the first list", 2, 3, 508, 1, {99}},
    {"second sum of the first list", 2, 3, 510, 1, {99}},
    {"the first list as a block of tallies", 3, 3, 0, 1, {3}},
    {"record count of the first list", 3, 3, 1, 1, {3}},
    {"the first list with 126 records", 3, 3, 1, 1, {126}},
    {"block number of the first list", 3, 3, 2, 1, {2}},
    {"first byte after the first list", 5, 3, 12, 1, {1}},
    {"last byte after the first list", 5, 3, 507, 1, {1}},
    {"price 10,000,000 on the first list", 6, 3, 4, 4, {0x80, 0x96, 0x98, 0}},
    {"price 4,294,967,295 on the first list", 6, 3, 8, 4, {255, 255, 255, 255}},
    {"second sum of the second list", 2, 4, 511, 1, {99}},
    {"the second list as a block of offers", 3, 4, 0, 1, {1}},
    {"record count of the second list", 3, 4, 1, 1, {1}},
    {"block number of the second list", 3, 4, 2, 1, {3}},
    {"first byte after the second list", 5, 4, 12, 1, {255}},
    {"price 10,000,000 on the second list", 6, 4, 8, 4, {0x80, 0x96, 0x98, 0}},
    {"the tallies as a block of prices", 3, 5, 0, 1, {4}},
    {"grocer of a tally is 2", 6, 5, 4, 1, {2}},
    {"two offers with number 412", 7, 1, 33, 4, {3, '4', '1', '2'}},
    {"a tally of the last one's bag and revision", 9, 5, 24, 1, {1}},
};
enum { LIST_EDITS = sizeof list_edits / sizeof list_edits[0], LISTS_MORE = 2 };

/* Other edits, in no order: at and beside the ends of ranges, and other wrong bytes. */
static const struct edit others[] = {
    {"2 records in the header", 3, 0, 1, 1, {2}},
    {"16 boxes", 0, 0, 4, 1, {16}},
    {"cycle 1", 0, 0, 12, 2, {1, 0}},
    {"cycle 256", 0, 0, 12, 2, {0, 1}},
    {"cycle 65,535", 0, 0, 12, 2, {255, 255}},
    {"cycle 65,535 and a spare byte", 5, 0, 12, 4, {255, 255, 0, 1}},
    {"second spare byte of the header", 5, 0, 16, 1, {1}},
    {"7 additional lists, and no blocks of them", 1, 0, 14, 1, {7}},
    {"8 additional lists and a spare byte", 4, 0, 14, 2, {8, 1}},
    {"7 additional lists and a spare byte", 5, 0, 14, 2, {7, 1}},
    {"3 grocers, 2 in the block", 3, 0, 6, 1, {3}},
    {"3 tallies, 4 in the block", 3, 0, 10, 1, {3}},
    {"offer block with 1 record", 3, 1, 1, 1, {1}},
    {"offer block as block 257", 3, 1, 3, 1, {1}},
    {"grocer block with 3 records", 3, 2, 1, 1, {3}},
    {"grocer block as block 1", 3, 2, 2, 1, {1}},
    {"tally block of kind 1", 3, 3, 0, 1, {1}},
    {"tally block with 3 records", 3, 3, 1, 1, {3}},
    {"tally block as block 4", 3, 3, 2, 1, {4}},
    {"last byte after the grocers", 5, 2, 507, 1, {1}},
    {"last byte after the tallies", 5, 3, 507, 1, {1}},
    {"price 9,999,999", 0, 1, 4, 4, {0x7F, 0x96, 0x98, 0}},
    {"owner of an offer is 1", 0, 1, 8, 1, {1}},
    {"4 digits and one behind", 6, 1, 9, 1, {4}},
    {"6 digits, the last a 0 byte", 6, 1, 9, 1, {6}},
    {"255 digits", 6, 1, 9, 1, {255}},
    {"number 412 once more, as 0412", 7, 1, 33, 5, {4, '0', '4', '1', '2'}},
    {"owner of a grocer is 1", 0, 2, 5, 1, {1}},
    {"grocer of a tally is 1", 0, 3, 4, 1, {1}},
    {"box of a tally is 1", 0, 3, 6, 1, {1}},
    {"a tally with number 413", 8, 3, 7, 4, {3, '4', '1', '3'}},
    {"a tally with number 0", 8, 3, 7, 4, {1, '0', 0, 0}},
    {"a tally with number 41", 8, 3, 7, 4, {2, '4', '1', 0}},
    {"count 0", 0, 3, 18, 4, {0}},
    {"an offer of issuer 1", 8, 1, 20, 1, {1}},
    {"an offer of issuer 256", 8, 1, 21, 1, {1}},
    {"a tally of issuer 256", 8, 3, 23, 1, {1}},
    {"a tally of issuer 65,535", 8, 3, 22, 2, {255, 255}},
    {"issuer 65,535 and a spare byte of an offer", 5, 1, 20, 3, {255, 255, 1}},
    {"issuer 65,535 and the last one's bag and revision", 8, 3, 22, 3, {255, 255, 1}},
    {"second spare byte of an offer", 5, 1, 23, 1, {1}},
    {"bag 256 of a tally", 0, 3, 24, 2, {0, 1}},
    {"bag 257 of a tally", 0, 3, 24, 2, {1, 1}},
    {"a higher revision of the last one's bag", 0, 3, 24, 4, {1, 0, 1, 0}},
    {"revision 256 of the last one's bag", 0, 3, 24, 4, {1, 0, 0, 1}},
    {"bag and revision 65,535 of a tally", 0, 3, 24, 4, {255, 255, 255, 255}},
    {"the last one's bag and revision for another grocer", 0, 3, 48, 1, {1}},
    {"the last one's bag and revision for another offer", 0, 3, 72, 1, {1}},
    {"bag 65,535 of the last tally, and a byte behind it", 5, 3, 96, 5, {255, 255, 0, 0, 1}},
};
enum { OTHERS = sizeof others / sizeof others[0] };

static bool breaks_sums(const struct edit *edit) { return edit->place >= 508; }

static void apply(const struct edit *edit)
{
    memcpy(file + edit->block * BLOCK + edit->place, edit->bytes, edit->length);
}

/* E's file, with so many lists more, with two edits, the earlier one last; the sums are right except where an edit is
   about them. */
static size_t edit_lists(uint16_t lists, const struct edit *earlier, const struct edit *later)
{
    sample_with_lists(&job, lists);
    job.tally[3].bag = 1;
    size_t length = write_file(&job, file);
    if (!breaks_sums(later)) apply(later);
    if (!breaks_sums(earlier)) apply(earlier);
    for (size_t at = 0; at < length; at += BLOCK) write_sums(file + at);
    if (breaks_sums(later)) apply(later);
    if (breaks_sums(earlier)) apply(earlier);
    return length;
}

static size_t edit_sample_job(const struct edit *earlier, const struct edit *later)
{
    return edit_lists(0, earlier, later);
}

static void each_refusal(void)
{
    for (size_t i = 0; i < EDITS; i++) {
        at_case("%s", edits[i].what);
        expect_answer(edit_sample_job(&edits[i], &edits[i]), edits[i].number);
    }
}

static void other_edits(void)
{
    for (size_t i = 0; i < OTHERS; i++) {
        at_case("%s", others[i].what);
        expect_answer(edit_sample_job(&others[i], &others[i]), others[i].number);
    }
}

static bool same_bytes(const struct edit *a, const struct edit *b)
{
    return a->block == b->block && a->place < b->place + b->length && b->place < a->place + a->length;
}

static void order_of_refusals(void)
{
    for (size_t j = 0; j < EDITS; j++)
        for (size_t i = 0; i < j; i++) {
            if (same_bytes(&edits[i], &edits[j])) continue;
            at_case("%s, and %s", edits[i].what, edits[j].what);
            expect_answer(edit_sample_job(&edits[i], &edits[j]), edits[i].number);
        }
}

/* One or two bytes of one block: always 2. */
static void change_and_ask(size_t length, size_t place)
{
    size_t block = place / BLOCK * BLOCK, other = block + below(BLOCK);
    uint8_t one = file[place], two = file[other];
    change_byte(file + place);
    if (other != place && one_in(2)) change_byte(file + other);
    at_case("bytes %zu and %zu of %zu changed", place, other, length);
    expect_answer(length, 2);
    file[other] = two;
    file[place] = one;
}

/* Each refusal by an edit of E with two lists more, and of two faults the earlier. */
static void list_refusals(void)
{
    for (size_t j = 0; j < LIST_EDITS; j++)
        for (size_t i = 0; i <= j; i++) {
            if (i < j && same_bytes(&list_edits[i], &list_edits[j])) continue;
            at_case("%s, and %s", list_edits[i].what, list_edits[j].what);
            expect_answer(edit_lists(LISTS_MORE, &list_edits[i], &list_edits[j]), list_edits[i].number);
        }
}

/* One or two bytes of a block of prices, its sums not made right: always 2. And its blocks exchanged: 3. */
static void changed_lists(void)
{
    sample_with_lists(&job, LISTS_MORE);
    size_t length = write_file(&job, file);
    for (size_t place = 3 * BLOCK; place < 5 * BLOCK; place++) change_and_ask(length, place);
    expect_answer(length, 0);
    for (size_t block = 2; block < 5; block++) {
        uint8_t kept[BLOCK];
        at_case("blocks %zu and %zu exchanged", block, block + 1);
        length = write_file(&job, file);
        memcpy(kept, file + block * BLOCK, BLOCK);
        memcpy(file + block * BLOCK, file + (block + 1) * BLOCK, BLOCK);
        memcpy(file + (block + 1) * BLOCK, kept, BLOCK);
        for (size_t b = block; b <= block + 1; b++) {
            file[b * BLOCK + 2] = (uint8_t)b;
            write_sums(file + b * BLOCK);
        }
        expect_answer(length, block == 3 ? 0 : 3);
    }
}

static void lengths(void)
{
    size_t whole = write_sample_job();
    for (size_t length = 0; length <= whole; length++) {
        at_case("first %zu bytes of E", length);
        expect_answer(length, length == whole ? 0 : 1);
    }
    memset(file + whole, 0, ROOM - whole);
    for (size_t length = whole + 1; length <= ROOM; length += length < whole + 2 * BLOCK ? 1 : 479) {
        at_case("E and zeros, %zu bytes", length);
        expect_answer(length, 1);
    }
}

/* A file of one block more, and faults before and behind the place where the block count is looked at. */
static void block_count_in_order(void)
{
    for (size_t i = 0; i < EDITS; i++) {
        if (edits[i].number == 1) continue;
        size_t length = edit_sample_job(&edits[i], &edits[i]);
        bool before = edits[i].block == 0;
        at_case("%s, and a block too many", edits[i].what);
        memset(file + length, 0, BLOCK);
        expect_answer(length + BLOCK, before ? edits[i].number : 1);
        at_case("%s, and a byte too many", edits[i].what);
        expect_answer(length + 1, 1);
        at_case("%s, and 103 blocks", edits[i].what);
        expect_answer(103 * BLOCK, 1);
    }
}

/* E of one cycle and another: the reader answers it in sizes[4], and a cycle is never refused. */
static void cycles(void)
{
    static const uint16_t tried[] = {0, 1, 255, 256, 499, 500, 32768, 65534, 65535};
    for (size_t i = 0; i < sizeof tried / sizeof tried[0]; i++) {
        at_case("cycle %u", tried[i]);
        sample_job(&job);
        job.cycle = tried[i];
        size_t length = write_file(&job, file);
        expect(file[12] + 256 * file[13] == tried[i], "the cycle does not stand in bytes 12 and 13");
        expect_answer(length, 0);
        expect(word_at(lending.table[SIZES], 4) == tried[i], "sizes[4] is not the cycle");
        at_case("cycle %u, five words for sizes", tried[i]);
        put_both(&lending, SIZES, 4, 12345);
        lending.lend[SIZES] = 5;
        expect_answer(length, 20);
        lend_whole(&lending);
        at_case("cycle %u, byte 15 not 0", tried[i]);
        file[15] = 1;
        write_sums(file);
        expect_answer(length, 5);
        expect(word_at(lending.table[SIZES], 4) == 12345, "a refused reader wrote sizes[4]");
    }
}

/* Issuers */

/* Bytes 16 and 17 of an offer's record and 18 and 19 of a tally's, in a file of one block of each. */
static uint8_t *offer_issuer(size_t offer) { return file + BLOCK + 4 + 24 * offer + 16; }
static uint8_t *tally_issuer(size_t tally) { return file + 3 * BLOCK + 4 + 24 * tally + 18; }

/* E with all its names of one issuer. */
static size_t write_issued_job(uint16_t issuer)
{
    sample_job(&job);
    for (size_t o = 0; o < job.sizes.offers; o++) job.offer[o].name.issuer = issuer;
    for (size_t t = 0; t < job.sizes.tallies; t++) job.tally[t].name.issuer = issuer;
    return write_file(&job, file);
}

/* The first words of a table, and that the one behind them is as it was. */
static void expect_words(enum table_name name, int64_t due, size_t length, int64_t behind)
{
    for (size_t place = 0; place < length; place++)
        expect(word_at(lending.table[name], place) == due, "%s[%zu] is not %lld", table_text(name), place,
               (long long)due);
    expect(word_at(lending.table[name], length) == behind, "%s is written behind the job", table_text(name));
}

/* E of one issuer and another: the reader answers it for each record, and an issuer is never refused. */
static void any_issuers(void)
{
    static const uint16_t tried[] = {0, 1, 255, 256, 257, 5521, 32767, 32768, 65534, 65535};
    for (size_t i = 0; i < sizeof tried / sizeof tried[0]; i++) {
        at_case("issuer %u", tried[i]);
        size_t length = write_issued_job(tried[i]);
        expect(offer_issuer(1)[0] + 256 * offer_issuer(1)[1] == tried[i], "bytes 16 and 17 of an offer differ");
        expect(tally_issuer(3)[0] + 256 * tally_issuer(3)[1] == tried[i], "bytes 18 and 19 of a tally differ");
        put_both(&lending, OFFER_ISSUER, 2, 12345);
        put_both(&lending, TALLY_ISSUER, 4, 23456);
        expect_answer(length, 0);
        expect_words(OFFER_ISSUER, tried[i], 2, 12345);
        expect_words(TALLY_ISSUER, tried[i], 4, 23456);
        expect(word_at(lending.table[TALLY_OFFER], 1) == 1, "the place of a tally's offer differs");
        at_case("issuer %u, and a byte behind it", tried[i]);
        for (size_t place = 0; place < 2; place++) put_both(&lending, OFFER_ISSUER, place, 54321);
        offer_issuer(0)[2] = 1;
        write_sums(file + BLOCK);
        expect_answer(length, 5);
        expect_words(OFFER_ISSUER, 54321, 2, 12345);
    }
}

static void names_of_issuers(void)
{
    for (const struct named *c = named; c->what; c++) {
        at_case("%s", c->what);
        named_job(&job, c);
        expect_answer(write_file(&job, file), c->due);
        if (c->due) continue;
        for (size_t t = 0; t < 2; t++)
            expect(word_at(lending.table[TALLY_OFFER], t) == c->places[t], "tally %zu has another offer", t);
    }
}

/* One or two bytes of a field of so many bytes in one block, its sums not made right: always 2. */
static void change_field_bytes(size_t length, uint8_t *(*field)(size_t), size_t width, size_t records)
{
    for (size_t one = 0; one < width * records; one++)
        for (size_t two = 0; two <= one; two++) {
            uint8_t *first = field(one / width) + one % width, *second = field(two / width) + two % width;
            uint8_t kept[2] = {*first, *second};
            at_case("bytes %zu and %zu of a field changed", one, two);
            change_byte(first);
            if (second != first) change_byte(second);
            expect_answer(length, 2);
            *second = kept[1];
            *first = kept[0];
        }
}

static void changed_issuers(void)
{
    static const uint16_t tried[] = {0, 1, 256, 65535};
    for (size_t i = 0; i < sizeof tried / sizeof tried[0]; i++) {
        size_t length = write_issued_job(tried[i]);
        change_field_bytes(length, offer_issuer, 2, job.sizes.offers);
        change_field_bytes(length, tally_issuer, 2, job.sizes.tallies);
        expect_answer(length, 0);
    }
}

/* Bags and revisions */

/* Bytes 20 to 23 of a tally's record, in a file of one block of each kind. */
static uint8_t *tally_bag(size_t tally) { return file + 3 * BLOCK + 4 + 24 * tally + 20; }

/* E with all its tallies of one bag and revision, but the last one of a revision beside it. */
static size_t write_bagged_job(uint16_t bag, uint16_t revision)
{
    sample_job(&job);
    for (size_t t = 0; t < job.sizes.tallies; t++) {
        job.tally[t].bag = bag;
        job.tally[t].revision = t == 3 ? revision ^ 1 : revision;
    }
    return write_file(&job, file);
}

/* The reader answers bag and revision of each record, and neither is refused, but both twice. */
static void try_bag(uint16_t bag, uint16_t revision)
{
    at_case("bag %u, revision %u", bag, revision);
    size_t length = write_bagged_job(bag, revision);
    expect(tally_bag(2)[0] + 256 * tally_bag(2)[1] == bag, "bytes 20 and 21 of a tally differ");
    expect(tally_bag(2)[2] + 256 * tally_bag(2)[3] == revision, "bytes 22 and 23 of a tally differ");
    put_both(&lending, TALLY_BAG, 4, 12345);
    put_both(&lending, TALLY_REVISION, 4, 23456);
    expect_answer(length, 0);
    expect_words(TALLY_BAG, bag, 4, 12345);
    expect_words(TALLY_REVISION, revision, 3, revision ^ 1);
    at_case("bag %u, revision %u twice", bag, revision);
    for (size_t place = 0; place < 4; place++) {
        put_both(&lending, TALLY_BAG, place, 54321);
        put_both(&lending, TALLY_REVISION, place, 54321);
    }
    tally_bag(3)[2] ^= 1;
    write_sums(file + 3 * BLOCK);
    expect_answer(length, bag ? 9 : 0);
    if (!bag) return;
    expect_words(TALLY_BAG, 54321, 4, 12345);
    expect_words(TALLY_REVISION, 54321, 4, 23456);
}

static void any_bags(void)
{
    static const uint16_t tried[] = {0, 1, 255, 256, 257, 500, 32767, 32768, 65534, 65535};
    for (size_t i = 0; i < 10; i++)
        for (size_t j = 0; j < 10; j++) try_bag(tried[i], tried[j]);
}

static void changed_bags(void)
{
    static const uint16_t tried[] = {0, 1, 256, 65535};
    for (size_t i = 0; i < 4; i++) {
        size_t length = write_bagged_job(tried[i], tried[3 - i]);
        change_field_bytes(length, tally_bag, 4, job.sizes.tallies);
        expect_answer(length, 0);
    }
}

static void short_buffers(void)
{
    for (unsigned name = 0; name < ALL_TABLES; name++) {
        size_t need = needed(name, LARGEST);
        if (lending.table[name].length == 0 || name == FILE_BYTES) continue;
        for (unsigned way = 0; way < 4; way++) {
            size_t length = way < 2 ? write_sample_job() : way == 2 ? 0 : 100;
            at_case("%s short", table_text(name));
            lending.lend[name] = way == 0 ? need - 1 : way == 1 ? 0 : below((uint32_t)need);
            expect_answer(length, 20);
            lend_whole(&lending);
        }
        at_case("%s just long enough", table_text(name));
        lending.lend[name] = need;
        expect_answer(write_sample_job(), 0);
        lend_whole(&lending);
    }
}

/* Random files */

static size_t write_random_file(struct sizes most)
{
    random_job(&job, random_sizes(most));
    return write_file(&job, file);
}

static struct sizes some_sizes(void)
{
    switch (below(8)) {
    case 0: return MEDIUM;
    case 1:
    case 2: return SMALL;
    default: return TINY;
    }
}

static void random_files(void)
{
    for (unsigned long i = 0; i < job_count; i++) {
        at_case("random file %lu", i);
        expect_answer(write_random_file(some_sizes()), 0);
    }
    for (unsigned long i = 0; i < 4 + job_count / 200; i++) {
        at_case("largest file %lu", i);
        random_job(&job, LARGEST);
        size_t length = write_file(&job, file);
        expect(length == MOST_FILE, "the longest file has %zu bytes", length);
        expect_answer(length, 0);
    }
}

static void changed_bytes(void)
{
    size_t length = write_sample_job();
    for (unsigned round = 0; round < 4; round++)
        for (size_t place = 0; place < length; place++) change_and_ask(length, place);
    for (unsigned long i = 0; i < job_count / 4 + 1; i++) {
        length = write_random_file(some_sizes());
        for (unsigned round = 0; round < 16; round++) change_and_ask(length, below((uint32_t)length));
    }
}

/* Each byte of E's file raised by a number. */
static void raised_bytes(void)
{
    static const uint8_t more[] = {1, 128, 255};
    size_t length = write_sample_job();
    for (unsigned i = 0; i < sizeof more; i++)
        for (size_t place = 0; place < length; place++) {
            file[place] = (uint8_t)(file[place] + more[i]);
            at_case("byte %zu raised by %u", place, more[i]);
            expect_answer(length, 2);
            file[place] = (uint8_t)(file[place] - more[i]);
        }
}

static void fill_randomly(size_t from, size_t to)
{
    for (size_t place = from; place < to; place++) file[place] = (uint8_t)random_word();
}

/* Files of random bytes, with wrong sums and with right ones, of random lengths, and E's with a random tally; 102 blocks
 * of 0. */
static void random_bytes(void)
{
    for (unsigned long i = 0; i < 500; i++) {
        at_case("random bytes %lu", i);
        fill_randomly(0, 4 * BLOCK);
        expect_answer(4 * BLOCK, 2);
        size_t length = below(4 * BLOCK);
        expect_answer(length, length == 0 || length % BLOCK != 0 ? 1 : 2);
        for (size_t at = 0; at < 4 * BLOCK; at += BLOCK) write_sums(file + at);
        expect_answer(4 * BLOCK, 3);
        length = write_sample_job();
        fill_randomly(3 * BLOCK + 4, 3 * BLOCK + 28);
        write_sums(file + 3 * BLOCK);
        expect_answer(length, 6);
    }
    at_case("102 blocks of zeros");
    memset(file, 0, MOST_FILE);
    expect_answer(MOST_FILE, 3);
}

/* A byte that is likely to matter: of the block's head, of its first records, or any. */
static size_t likely_place(void)
{
    switch (below(4)) {
    case 0: return below(16);
    case 1: return 4 + below(3 * 24);
    default: return below(508);
    }
}

static uint8_t likely_byte(uint8_t byte)
{
    static const uint8_t words[] = {0, 1, 2, 3, 10, 11, 16, 17, 22, '0', '1', '9', '/', ':', 127, 128, 255};
    switch (below(3)) {
    case 0: return words[below(sizeof words)];
    case 1: return (uint8_t)(byte + 1 - 2 * below(2));
    default: return (uint8_t)random_word();
    }
}

static void damage(size_t length)
{
    for (uint32_t bytes = 1 + below(3); bytes > 0; bytes--) {
        uint8_t *block = file + (size_t)below((uint32_t)(length / BLOCK)) * BLOCK;
        uint8_t *byte = block + likely_place();
        *byte = likely_byte(*byte);
        if (!one_in(20)) write_sums(block);
    }
}

static void damaged_files(void)
{
    for (unsigned long i = 0; i < 8 * job_count; i++) {
        size_t length = write_random_file(one_in(10) ? SMALL : TINY);
        damage(length);
        if (one_in(20)) length = below((uint32_t)length + BLOCK);
        at_case("damaged file %lu", i);
        ask_read(&lending, file, length);
    }
}

/* Every byte of a file in turn, with the sums of its block made right. */
static void each_byte_of(size_t length)
{
    for (size_t place = 0; place < length; place++) {
        uint8_t *block = file + place / BLOCK * BLOCK, kept[BLOCK];
        memcpy(kept, block, BLOCK);
        file[place] = one_in(2) ? likely_byte(file[place]) : file[place] ^ (uint8_t)(1u << below(8));
        if (place % BLOCK < 508) write_sums(block);
        at_case("byte %zu of %zu is %u", place, length, file[place]);
        ask_read(&lending, file, length);
        memcpy(block, kept, BLOCK);
    }
}

/* Blocks with each number of offers and tallies, and some numbers of grocers. */
static void each_byte(void)
{
    unsigned stride = job_count < 1000 ? 10 : 1;
    for (uint16_t records = 1; records <= 21; records = (uint16_t)(records + stride)) {
        uint16_t grocers = (uint16_t)(12 * records + records % 4);
        random_job(&job, (struct sizes){3, grocers, records, (uint16_t)(22 - records), records % 3});
        each_byte_of(write_file(&job, file));
    }
}

/* Each length of a code with each place of its field set to each of some bytes, in an offer and in a tally. */
static void each_code(void)
{
    static const uint8_t bytes[] = {0, 1, '0' - 1, '0', '9', '9' + 1, '0' + 128, 255};
    for (unsigned at = 0; at < 13 * FIELD * sizeof bytes; at++) {
        unsigned digits = at % 13, place = at / 13 % FIELD;
        struct code code = code_of_number(1234567890, 0);
        memset(code.field + digits % (FIELD + 1), 0, FIELD - digits % (FIELD + 1));
        code.digits = (uint8_t)digits;
        code.field[place] = bytes[at / 13 / FIELD];
        at_case("%u digits, byte %u is %u", digits, place, code.field[place]);
        one_tally_job(&job, (struct sizes){1, 1, 1, 1, 0}, 1, (struct tally){0});
        job.offer[0].name.code = code;
        ask_read(&lending, file, write_file(&job, file));
        job.tally[0].name.code = code;
        ask_read(&lending, file, write_file(&job, file));
        job.offer[0].name.code = code_of_number(123, 2);
        ask_read(&lending, file, write_file(&job, file));
    }
}

/* One of so many issuers, and a code of one of so many numbers. */
static struct name near_name(uint32_t issuers, uint32_t numbers)
{
    uint16_t issuer = (uint16_t)below(issuers);
    return (struct name){issuer, code_of_number(below(numbers), below(numbers > 10 ? 9 : 10))};
}

/* Codes that share a number, or nearly, and tallies of them. */
static void near_codes(void)
{
    for (unsigned long i = 0; i < 2 * job_count; i++) {
        random_job(&job, random_sizes(TINY));
        for (size_t o = 0; o < job.sizes.offers; o++) job.offer[o].name = near_name(1, 12);
        for (size_t t = 0; t < job.sizes.tallies; t++) job.tally[t].name = near_name(1, 8);
        at_case("near codes %lu", i);
        ask_read(&lending, file, write_file(&job, file));
    }
}

/* The same under three issuers: numbers that are shared by offers of one issuer or of several, and names that are of an
   offer, or nearly. */
static void near_names(void)
{
    for (unsigned long i = 0; i < 2 * job_count; i++) {
        random_job(&job, random_sizes(TINY));
        uint32_t numbers = 2 + below(4);
        for (size_t o = 0; o < job.sizes.offers; o++) job.offer[o].name = near_name(3, numbers);
        for (size_t t = 0; t < job.sizes.tallies; t++)
            job.tally[t].name = one_in(8) ? near_name(3, numbers) : job.offer[below(job.sizes.offers)].name;
        at_case("near names %lu", i);
        ask_read(&lending, file, write_file(&job, file));
    }
}

/* The cases of the specification about files, and the edges of fields */

struct edge {
    const char *what;
    uint32_t price;
    int32_t count;
    const char *offer, *tally;
    uint16_t due;
};

static const struct edge edges[] = {
    {"000 is 0", 1, 1, "000", "0", 0},
    {"0412 and 412 agree", 1, 1, "0412", "412", 0},
    {"4120 and 412 do not", 1, 1, "4120", "412", 8},
    {"10 digits pass", 1, 1, "9999999999", "9999999999", 0},
    {"10 digits, the first a zero", 1, 1, "0999999999", "999999999", 0},
    {"numbers above 32 bits that agree there", 1, 1, "4294967303", "7", 8},
    {"9999999999 and 1410065407 do not", 1, 1, "9999999999", "1410065407", 8},
    {"7 and 0000000007 agree", 1, 1, "7", "0000000007", 0},
    {"price 9,999,999", 9999999, 1, "1", "1", 0},
    {"price 10,000,000", 10000000, 1, "1", "1", 6},
    {"count 99,999", 1, 99999, "1", "1", 0},
    {"count -99,999", 1, -99999, "1", "1", 0},
    {"count 100,000", 1, 100000, "1", "1", 6},
    {"count -100,000", 1, -100000, "1", "1", 6},
    {"bad count with unknown code", 1, 100000, "1", "2", 6},
    {"price 0, count 0", 0, 0, "1", "1", 0},
};

static void cases_of_files(void)
{
    struct tally tally = {.count = 1};
    for (size_t i = 0; i < sizeof edges / sizeof edges[0]; i++) {
        tally.count = edges[i].count;
        one_tally_job(&job, (struct sizes){1, 1, 1, 1, 0}, edges[i].price, tally);
        job.offer[0].name.code = code_of(edges[i].offer);
        job.tally[0].name.code = code_of(edges[i].tally);
        at_case("%s", edges[i].what);
        expect_answer(write_file(&job, file), edges[i].due);
    }
    at_case("16 boxes");
    one_tally_job(&job, (struct sizes){16, 255, 21, 21, 0}, 1, tally);
    size_t length = write_file(&job, file);
    expect(length == 4 * BLOCK, "21 offers and 21 tallies fill one block each, the file has %zu bytes", length);
    expect_answer(length, 0);
}

/* The two sums of a block, as the specification gives them. */
static void cases_of_sums(void)
{
    static const uint16_t due[2][3] = {{0, 255, 64019}, {507, 255, 255}};
    for (unsigned i = 0; i < 2; i++) {
        uint8_t block[BLOCK] = {0};
        block[due[i][0]] = 255;
        write_sums(block);
        at_case("byte %u alone 255", due[i][0]);
        expect(block[508] + 256 * block[509] == due[i][1], "first sum differs");
        expect(block[510] + 256 * block[511] == due[i][2], "second sum differs");
    }
}

void check_reader(void)
{
    group("reader: the sums of the specification", cases_of_sums);
    group("reader: the cases of the specification", cases_of_files);
    group("reader: each refusal by an edit of E", each_refusal);
    group("reader: other edits of E", other_edits);
    group("reader: of two faults the earlier is refused", order_of_refusals);
    group("reader: edits of E with two lists more, and of two faults the earlier", list_refusals);
    group("reader: bytes of price lists changed, and blocks exchanged", changed_lists);
    group("reader: the block count in its place", block_count_in_order);
    group("reader: files cut, longer and empty", lengths);
    group("reader: any settlement cycle", cycles);
    group("reader: any issuer", any_issuers);
    group("reader: names of two issuers", names_of_issuers);
    group("reader: one or two bytes of issuers changed", changed_issuers);
    group("reader: any bag and revision", any_bags);
    group("reader: one or two bytes of bags and revisions changed", changed_bags);
    group("reader: each buffer short", short_buffers);
    group("reader: random files", random_files);
    group("reader: one or two bytes of a block changed", changed_bytes);
    group("reader: each byte of E raised", raised_bytes);
    group("reader: random bytes", random_bytes);
    group("reader: damage with the sums made right", damaged_files);
    group("reader: every byte in turn, the sums made right", each_byte);
    group("reader: every place of a code", each_code);
    group("reader: codes that share a number or nearly", near_codes);
    group("reader: names of few issuers and numbers", near_names);
}
