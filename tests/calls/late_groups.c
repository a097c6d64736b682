/* Late and withdrawn bags on small jobs: words known without the model, every refusal, their order, short buffers. */
#include <string.h>

#include "call_groups.h"
#include "late_calling.h"

static struct calling calling;

static void expect_add(struct tally tally, uint16_t due)
{
    uint16_t answer = ask_add(&calling, calling.job.sizes, &tally);
    expect(answer == due, "adding was answered %u, the case says %u", answer, due);
}

static void expect_withdraw(uint16_t place, uint16_t due)
{
    uint16_t answer = ask_withdraw(&calling, calling.job.sizes, place);
    expect(answer == due, "withdrawing %u was answered %u, the case says %u", place, answer, due);
}

/* A tally of an old offer: loose, and of a bag. */
static struct tally loose(uint16_t grocer, uint16_t box, const char *digits, int32_t count)
{
    return (struct tally){grocer, box, 0, count, {0, code_of(digits)}, 0, 0};
}

static struct tally in_bag(uint16_t box, const char *digits, int32_t count, uint16_t bag, uint16_t revision)
{
    return (struct tally){0, box, 0, count, {0, code_of(digits)}, bag, revision};
}

static void open_sample(uint16_t lists, uint32_t spare, uint16_t more)
{
    sample_with_lists(&calling.job, lists);
    open_finished(&calling, spare, more);
}

static void put_code(enum table_name name, size_t entry, const char *digits)
{
    struct code code = code_of(digits);
    put_both(&calling.lending, name, 11 * entry, code.digits);
    for (size_t i = 0; i < FIELD; i++) put_both(&calling.lending, name, 11 * entry + 1 + i, code.field[i]);
}

/* Words known without the model */

static void sample_added(void)
{
    static const char *const digits[] = {"412", "0412", "0000000412"};
    for (size_t i = 0; i < 3; i++)
        for (int32_t count = 0; count <= 2; count += 2) {
            open_sample(0, SPARE, 1);
            at_case("E and %d of %s", count, digits[i]);
            expect_add(loose(1, 1, digits[i], count), 0);
            expect_words(&calling, EDITED, (const int64_t[]){5, 4, 4, 12}, 4);
            expect_words(&calling, STATEMENT, (const int64_t[]){2250, 2500 + 500 * count}, 2);
            expect_words(&calling, TALLY_OFFER, (const int64_t[]){0, 1, 1, 0, 0}, 5);
            expect_words(&calling, TALLY_GROCER, (const int64_t[]){0, 1, 0, 0, 1}, 5);
            expect_words(&calling, SENT, (const int64_t[]){4}, 1);
            expect_run(&calling);
            close_calling(&calling);
        }
}

static void sample_withdrawn(void)
{
    static const int64_t codes[] = {3, '0', '7', '7', 0, 0, 0, 0, 0, 0, 0, 2, '7', '7', 0, 0, 0, 0, 0, 0, 0, 0,
                                    4, '0', '4', '1', '2', 0, 0, 0, 0, 0, 0, 0, 0, 0, 0, 0, 0, 0, 0, 0, 0, 0};
    open_sample(0, SPARE, 1);
    at_case("E without its first");
    expect_withdraw(0, 0);
    expect_words(&calling, EDITED, (const int64_t[]){3, 2, 2, 8}, 4);
    expect_words(&calling, STATEMENT, (const int64_t[]){750, 2500}, 2);
    expect_words(&calling, TALLY_GROCER, (const int64_t[]){1, 0, 0, 0}, 4);
    expect_words(&calling, TALLY_BOX, (const int64_t[]){0, 1, 1, 0}, 4);
    expect_words(&calling, TALLY_OFFER, (const int64_t[]){1, 1, 0, 0}, 4);
    expect_words(&calling, TALLY_CODE, codes, 44);
    expect_run(&calling);
    close_calling(&calling);
    open_sample(0, SPARE, 0);
    at_case("E without its last");
    expect_withdraw(3, 0);
    expect_words(&calling, TALLY_COUNT, (const int64_t[]){3, 2, -1, 0}, 4);
    at_case("E without any");
    for (uint16_t left = 3; left > 0; left--) expect_withdraw(left / 2, 0);
    expect_words(&calling, EDITED, (const int64_t[]){0, 0, 0, 4}, 4);
    expect_words(&calling, STATEMENT, (const int64_t[]){0, 0}, 2);
    expect_withdraw(0, 32);
    close_calling(&calling);
}

/* A bag of grocer 0, offer 412 at 10: counted by box 0 to 5 as revision 0, and by box 1 to 4 as revision 2, under these
   digits. Beside it offer 77 at 20. Offers and grocers are box 1's. */
static void open_bag(const char *second, uint16_t lists)
{
    struct job *job = &calling.job;
    memset(job, 0, sizeof *job);
    job->sizes = (struct sizes){2, 2, 2, 2, lists};
    job->offer[0] = (struct offer){10, 1, {0, code_of("412")}};
    job->offer[1] = (struct offer){20, 1, {0, code_of("77")}};
    job->grocer_owner[0] = job->grocer_owner[1] = 1;
    job->tally[0] = in_bag(0, "412", 5, 7, 0);
    job->tally[1] = in_bag(1, second, 4, 7, 2);
    open_finished(&calling, SPARE, 2);
}

struct bag_case {
    const char *what;
    struct tally tally; /* no digits: the place is withdrawn */
    uint16_t place;
    int64_t edited[4], owed;
};

static void recounts(void)
{
    const struct bag_case cases[] = {
        {"the standing one withdrawn", {0}, 1, {1, 2, 2, 8}, 50},
        {"the one below withdrawn", {0}, 0, {1, 0, 0, 4}, 40},
        {"a revision between", in_bag(0, "412", 9, 7, 1), 0, {3, 0, 0, 4}, 40},
        {"a revision above", in_bag(0, "0412", 9, 7, 3), 0, {3, 2, 2, 8}, 90},
        {"another bag", in_bag(0, "412", 9, 263, 2), 0, {3, 2, 2, 8}, 130},
        {"loose coupons", in_bag(1, "412", 9, 0, 2), 0, {3, 0, 0, 4}, 130},
        {"the bag of another offer", in_bag(1, "77", 9, 7, 2), 0, {3, 0, 0, 4}, 220},
    };
    for (size_t i = 0; i < sizeof cases / sizeof cases[0]; i++) {
        open_bag("412", 0);
        at_case("%s", cases[i].what);
        if (cases[i].tally.name.code.digits)
            expect_add(cases[i].tally, 0);
        else
            expect_withdraw(cases[i].place, 0);
        expect_words(&calling, EDITED, cases[i].edited, 4);
        expect_words(&calling, STATEMENT, (const int64_t[]){cases[i].owed, 0}, 2);
        expect_run(&calling);
        close_calling(&calling);
    }
    open_bag("412", 0);
    at_case("a revision twice");
    expect_add(in_bag(0, "0412", 9, 7, 2), 32);
    expect_add(in_bag(0, "0412", 9, 7, 0), 32);
    close_calling(&calling);
}

/* A tally's lent place and its code say two offers: a run goes by places, the writer by codes. */
static void places_and_codes(void)
{
    open_bag("77", 0);
    at_case("412 where a run finds the bag and revision");
    expect_add(in_bag(0, "412", 9, 7, 2), 32);
    at_case("77 where the writer finds them");
    expect_add(in_bag(0, "77", 9, 7, 2), 32);
    at_case("77 where neither does");
    expect_add(in_bag(0, "77", 9, 7, 1), 0);
    expect_words(&calling, TALLY_OFFER, (const int64_t[]){0, 0, 1}, 3);
    expect_words(&calling, STATEMENT, (const int64_t[]){40 + 180, 0}, 2);
    at_case("the first moved out, the other places as lent");
    expect_withdraw(0, 0);
    expect_words(&calling, TALLY_OFFER, (const int64_t[]){0, 1, 0}, 3);
    close_calling(&calling);
    open_bag("412", 0);
    put_both(&calling.lending, TALLY_OFFER, 1, 1);
    put_both(&calling.lending, TALLY_REVISION, 1, 0);
    finish_again(&calling);
    at_case("a bag and revision twice by codes alone");
    expect_add(loose(0, 0, "77", 1), 32);
    expect_withdraw(1, 0);
    close_calling(&calling);
}

/* A code that is no code, or names no offer, or shares a number: 32 where it stays, nothing where it goes. */
static void faults_of_codes(void)
{
    static const char *const wrong[] = {"/", "", "413", "4120", ":"};
    for (size_t i = 0; i < sizeof wrong / sizeof wrong[0]; i++) {
        open_bag("412", 0);
        at_case("a lent tally's code is \"%s\"", wrong[i]);
        put_code(TALLY_CODE, 1, wrong[i]);
        expect_add(loose(0, 0, "412", 1), 32);
        expect_withdraw(0, 32);
        expect_withdraw(1, 0);
        expect_add(loose(0, 0, "412", 1), 0);
        put_code(OFFER_CODE, 1, wrong[i]);
        at_case("an offer's code is \"%s\"", wrong[i]);
        bool is_code = i == 2 || i == 3;
        expect_add(loose(0, 0, "412", 1), is_code ? 0 : 32);
        expect_withdraw(0, is_code ? 0 : 32);
        close_calling(&calling);
    }
    open_bag("412", 0);
    put_code(OFFER_CODE, 1, "000412");
    at_case("two offers of one number");
    expect_add(loose(0, 0, "412", 1), 32);
    expect_withdraw(0, 32);
    put_both(&calling.lending, OFFER_ISSUER, 1, 9);
    at_case("two offers of one number, of two issuers");
    struct tally second = loose(0, 0, "412", 1);
    second.name.issuer = 9;
    expect_add(second, 0);
    expect_words(&calling, TALLY_OFFER, (const int64_t[]){0, 0, 1}, 3);
    put_both(&calling.lending, TALLY_ISSUER, 2, 8);
    at_case("a tally of an issuer without offers");
    expect_withdraw(0, 32);
    expect_withdraw(2, 0);
    close_calling(&calling);
}

/* Faults of the added tally, and places that are not there */

static struct tally wrong_tally(unsigned i)
{
    struct tally tally = loose(1, 1, i % 2 ? "412" : "77", 2);
    struct code *code = &tally.name.code;
    switch (i) {
    case 0: tally.grocer = 2; break;
    case 1: tally.grocer = 65535; break;
    case 2: tally.box = 2; break;
    case 3: tally.box = 256; break;
    case 4: tally.count = MOST_COUNT + 1; break;
    case 5: tally.count = -MOST_COUNT - 1; break;
    case 6: code->digits = 0; break;
    case 7: code->digits = 11; break;
    case 8: code->digits = 4; break;
    case 9: code->field[9] = '0'; break;
    case 10: code->field[0] = '0' - 1; break;
    case 11: code->field[0] = '9' + 1; break;
    case 12: code->field[1]++; break;
    case 13: tally.name.issuer = 1; break;
    case 14: tally.name.issuer = 256; break;
    default: code->digits = 255; break;
    }
    return tally;
}
enum { WRONG_TALLIES = 16 };

static void refused_edits(void)
{
    static const uint16_t places[] = {4, 5, 255, 256, 1000, 32768, 65535};
    open_sample(0, SPARE, 2);
    for (unsigned i = 0; i < WRONG_TALLIES; i++) {
        at_case("E and wrong tally %u", i);
        expect_add(wrong_tally(i), 32);
    }
    for (size_t i = 0; i < sizeof places / sizeof places[0]; i++) {
        at_case("E without the tally at %u", places[i]);
        expect_withdraw(places[i], 32);
    }
    at_case("counts at their ends");
    expect_add(loose(1, 1, "412", MOST_COUNT), 0);
    expect_add(loose(1, 1, "412", -MOST_COUNT), 0);
    close_calling(&calling);
}

/* The state, word by word: another word is 30, one beyond its range 21. */

static void expect_both(uint16_t due)
{
    expect_add(loose(1, 1, "412", 2), due);
    expect_withdraw(0, due);
    if (due == 32) return;
    expect_add(wrong_tally(0), due);
    expect_withdraw(9, due);
}

static void try_word(enum table_name name, size_t place)
{
    struct range range = range_of(name, calling.job.sizes);
    int64_t kept = word_of(&calling, name, place);
    at_case("%s[%zu] is not %lld", table_text(name), place, (long long)kept);
    put_both(&calling.lending, name, place, kept == range.most ? kept - 1 : kept == 0 ? 1 : kept - 1);
    expect_both(30);
    put_both(&calling.lending, name, place, range.most + 1);
    expect_both(21);
    if (range.least < 0) {
        put_both(&calling.lending, name, place, range.least - 1);
        expect_both(21);
    }
    put_both(&calling.lending, name, place, kept);
}

static void words_of_the_state(void)
{
    static const uint16_t lists[] = {1, 0, 7};
    for (size_t i = 0; i < (job_count < 10 ? 1 : 3); i++) {
        open_sample(lists[i], SPARE, 1);
        for (unsigned name = JOB_TABLES; name < STEP_TABLES; name++) {
            size_t words = is_packed(name) ? packed_now(&calling) : needed(name, calling.job.sizes);
            for (size_t place = 0; place < words; place++) try_word(name, place);
        }
        at_case("E as it was");
        expect_withdraw(0, 0);
        expect_add(loose(1, 1, "412", 2), 0);
        close_calling(&calling);
    }
}

/* A price, an owner or a word of a tally that the run did not have. */
static void state_of_another_job(void)
{
    static const enum table_name names[] = {PRICE,     OFFER_OWNER, GROCER_OWNER, TALLY_GROCER,
                                            TALLY_BOX, TALLY_OFFER, TALLY_COUNT};
    for (size_t i = 0; i < sizeof names / sizeof names[0]; i++) {
        open_sample(1, SPARE, 2);
        at_case("the state of another %s", table_text(names[i]));
        for (unsigned packed = WORKING; packed <= TOTAL_TRANSIT; packed++)
            for (size_t place = 0; place < calling.lending.lend[packed]; place++)
                put_both(&calling.lending, packed, place, 0);
        put_both(&calling.lending, names[i], 1, !word_of(&calling, names[i], 1));
        expect_both(30);
        finish_again(&calling);
        expect_add(loose(1, 1, "412", 2), 0);
        close_calling(&calling);
    }
    open_sample(0, SPARE, 1);
    at_case("one tally fewer than the state was left by");
    calling.job.sizes.tallies = 3;
    expect_both(30);
    close_calling(&calling);
}

/* 20: each buffer without its last needed word; adding needs room for the added tally too. */
static void short_buffers(void)
{
    for (unsigned name = 0; name <= EDITED; name++) {
        if (is_packed(name) || (name >= SIZES && name < ADDED_CODE)) continue;
        open_sample(1, 0, 1);
        struct sizes sizes = calling.job.sizes, room = sizes;
        room.tallies++;
        bool grows = needed(name, room) > needed(name, sizes);
        calling.lending.lend[name] = needed(name, room) - 1;
        at_case("%s short by a word for adding", table_text(name));
        expect_add(loose(1, 1, "412", 2), 20);
        expect_add(wrong_tally(0), 20);
        calling.lending.lend[name] = needed(name, sizes) - 1;
        at_case("%s short by a word", table_text(name));
        if (name != ADDED_CODE) expect_withdraw(9, 20);
        expect_withdraw(0, name == ADDED_CODE ? 0 : 20);
        calling.lending.lend[name] = needed(name, sizes);
        at_case("%s without a word to spare", table_text(name));
        if (grows) expect_add(loose(1, 1, "412", 2), 20);
        expect_withdraw(0, 0);
        close_calling(&calling);
    }
}

static void words_of_the_job(void)
{
    for (unsigned name = 0; name < JOB_TABLES; name++)
        for (enum fault fault = ABOVE; has_range(name) && fault < (is_signed(name) ? FAULTS : BELOW); fault++) {
            open_sample(1, SPARE, 1);
            make_fault(&calling, name, fault);
            expect_both(21);
            close_calling(&calling);
        }
}

static void sizes_beyond(void)
{
    static const struct sizes tried[] = {{17, 1, 1, 0, 0}, {1, 256, 1, 0, 0},  {1, 1, 501, 0, 0},
                                         {1, 1, 1, 1001, 0}, {1, 1, 1, 0, 8}, {0, 1, 1, 0, 0}, {1, 0, 1, 0, 0},
                                         {1, 1, 0, 0, 0}};
    static const struct sizes most = {17, 256, 501, 1001, 8};
    size_t lengths[ALL_TABLES] = {0};
    for (unsigned name = 0; name < ALL_TABLES; name++)
        lengths[name] = is_packed(name) ? 5000 : needed(name, most);
    open_lending(&calling.lending, lengths);
    for (unsigned name = 0; name < HOST_TABLES; name++)
        for (size_t place = 0; place < lengths[name]; place++) put_both(&calling.lending, name, place, 0);
    for (size_t i = 0; i < sizeof tried / sizeof tried[0]; i++) {
        calling.job.sizes = tried[i];
        at_case("K %u, M %u, N %u, T %u, lists %u", tried[i].boxes, tried[i].grocers, tried[i].offers,
                tried[i].tallies, tried[i].lists);
        expect_both(21);
    }
    at_case("65535 tallies");
    calling.job.sizes = (struct sizes){1, 1, 1, 65535, 0};
    expect_both(20);
    at_case("1001 tallies with room for 1000");
    calling.job.sizes.tallies = 1001;
    calling.lending.lend[TALLY_BAG] = 1000;
    expect_both(20);
    close_calling(&calling);
}

/* Packed totals */

/* E needs 3 totals, and with a tally of grocer 1 in box 1 a fourth. */
static void packed_for_the_edited_job(void)
{
    static const uint16_t lists[] = {0, 1, 7};
    for (size_t i = 0; i < 6; i++) {
        enum table_name name = i % 2 ? WORKING : TOTAL_TRANSIT;
        open_sample(lists[i / 2], SPARE, 2);
        size_t width = width_of_entry(calling.job.sizes);
        expect(packed_now(&calling) == 3 * width, "E has %zu packed words", packed_now(&calling));
        at_case("%s with the words of E, %u lists more", table_text(name), lists[i / 2]);
        for (size_t words = 3 * width; words < 4 * width; words++) {
            calling.lending.lend[name] = words;
            expect_add(loose(1, 1, "412", 2), 20);
            expect_add(wrong_tally((unsigned)words % WRONG_TALLIES), 32);
        }
        calling.lending.lend[name] = 3 * width - 1;
        expect_both(20);
        at_case("%s with the words of both, and words behind E's out of range", table_text(name));
        calling.lending.lend[name] = 4 * width;
        put_both(&calling.lending, name, 4 * width - 1, INT64_MAX);
        put_both(&calling.lending, name, 3 * width, INT64_MIN);
        expect_add(wrong_tally(0), 32);
        expect_add(loose(1, 1, "412", 2), 0);
        calling.lending.lend[name] = 4 * width - 1;
        expect_withdraw(0, 20);
        calling.lending.lend[name] = 4 * width;
        expect_withdraw(4, 0);
        at_case("%s with the words of E, which suffice", table_text(name));
        calling.lending.lend[name] = 3 * width;
        expect_add(loose(0, 0, "77", 2), 0);
        close_calling(&calling);
    }
}

/* The bag's first count, brought back, gives box 0 a local grocer. */
static void packed_for_what_comes_back(void)
{
    for (uint16_t lists = 0; lists <= 7; lists += 7) {
        open_bag("412", lists);
        size_t width = width_of_entry(calling.job.sizes);
        at_case("the standing count withdrawn, %u lists more", lists);
        for (unsigned i = 0; i < 2; i++) {
            enum table_name name = i ? WORKING : TOTAL_TRANSIT;
            calling.lending.lend[name] = 3 * width - 1;
            expect_withdraw(1, 20);
            calling.lending.lend[name] = 2 * width;
            expect_withdraw(1, 20);
            expect_withdraw(2, 32);
            put_both(&calling.lending, OFFER_CODE, 11, 0);
            expect_withdraw(1, 32);
            put_both(&calling.lending, OFFER_CODE, 11, 2);
            calling.lending.lend[name] = 3 * width;
        }
        expect_withdraw(1, 0);
        expect_words(&calling, TALLY_BOX, (const int64_t[]){0}, 1);
        close_calling(&calling);
    }
    open_bag("412", 0);
    at_case("the count below withdrawn");
    calling.lending.lend[WORKING] = calling.lending.lend[TOTAL_TRANSIT] = 2;
    expect_withdraw(0, 0);
    close_calling(&calling);
}

/* The order of refusals: every set of faults is answered with the number of the first. */

enum wrong { LENT, RANGE, TWICE, PACKED, PACKED_EDITED, PACKED_RANGE, NOT_FINISHED, FULL, REFUSED, WRONGS };
static const uint16_t numbers[WRONGS] = {20, 21, 9, 20, 20, 21, 30, 31, 32};

static uint16_t first_of(unsigned set)
{
    if (set & (1u << FULL | 1u << REFUSED)) set &= ~(1u << PACKED_EDITED);
    for (unsigned i = 0; i < WRONGS; i++)
        if (set >> i & 1) return numbers[i];
    return 0;
}

static void make_wrong(enum wrong wrong)
{
    struct lending *lending = &calling.lending;
    struct sizes sizes = calling.job.sizes;
    size_t packed = packed_now(&calling);
    enum table_name name;
    switch (wrong) {
    case LENT:
        do name = below(SIZES);
        while (is_packed(name));
        lending->lend[name] = needed(name, sizes) - 1;
        break;
    case RANGE:
        do name = below(STEP_TABLES);
        while (is_packed(name) || !has_range(name));
        put_both(lending, name, needed(name, sizes) - 1, range_of(name, sizes).most + 1);
        break;
    case TWICE:
        for (unsigned t = 0; t < 2; t++) {
            put_both(lending, TALLY_GROCER, t, 0);
            put_both(lending, TALLY_OFFER, t, 0);
            put_both(lending, TALLY_BAG, t, 7);
            put_both(lending, TALLY_REVISION, t, 3);
        }
        break;
    case PACKED: lending->lend[one_in(2) ? WORKING : TOTAL_TRANSIT] = packed - 1; break;
    case PACKED_EDITED: lending->lend[one_in(2) ? WORKING : TOTAL_TRANSIT] = packed; break;
    case PACKED_RANGE: put_both(lending, one_in(2) ? WORKING : TOTAL_TRANSIT, 0, MOST_AMOUNT + 1); break;
    case NOT_FINISHED: put_both(lending, SENT, 0, 77); break;
    default: break;
    }
}

/* What lent words say is changed last, for it changes what packed tables need. */
static void make_all_wrong(unsigned set)
{
    static const enum wrong order[] = {PACKED_EDITED, PACKED, PACKED_RANGE, NOT_FINISHED, TWICE, RANGE, LENT};
    for (unsigned i = 0; i < sizeof order / sizeof order[0]; i++)
        if (set >> order[i] & 1) make_wrong(order[i]);
}

/* 1,000 tallies of E's two offers in one box. */
static void open_full(void)
{
    ruled_job(&calling.job, (struct sizes){1, 2, 2, 1000, 0}, (struct rules){{1, 1}, {1, 1}, {1, 2}, {1, 1}, {3, 2}});
    open_finished(&calling, 0, 0);
}

static void order_of_adding(void)
{
    for (unsigned set = 0; set < 1u << WRONGS; set++) {
        bool full = set >> FULL & 1;
        if (full && (set >> PACKED_EDITED & 1)) continue;
        if (full)
            open_full();
        else
            open_sample((uint16_t)below(8), SPARE, 1);
        make_all_wrong(set);
        at_case("adding with the faults %x", set);
        expect_add(set >> REFUSED & 1 ? wrong_tally(below(WRONG_TALLIES)) : loose(1, !full, full ? "1" : "412", 2),
                   first_of(set));
        close_calling(&calling);
    }
}

static void order_of_withdrawing(void)
{
    for (unsigned set = 0; set < 1u << WRONGS; set++) {
        if (set >> FULL & 1) continue;
        open_bag("412", (uint16_t)below(8));
        make_all_wrong(set);
        bool refused = set >> REFUSED & 1, code = refused && one_in(2);
        if (code) put_both(&calling.lending, OFFER_ISSUER, 0, 5);
        at_case("withdrawing with the faults %x", set);
        expect_withdraw(refused && !code ? 2 : 1, first_of(set));
        close_calling(&calling);
    }
}

void check_late(void)
{
    run_group("late: E and a tally more, word by word", sample_added);
    run_group("late: E and a tally fewer, word by word", sample_withdrawn);
    run_group("late: recounts, and what comes back", recounts);
    run_group("late: lent places that are not their codes'", places_and_codes);
    run_group("late: faults of codes that stay, and of those that go", faults_of_codes);
    run_group("late: faults of the added tally, and no such place", refused_edits);
    run_group("late: each word of the state changed", words_of_the_state);
    run_group("late: the state of another job", state_of_another_job);
    run_group("late: each buffer short", short_buffers);
    run_group("late: each table of the job with a word beyond its range", words_of_the_job);
    run_group("late: K, M, N, T and lists beyond their values", sizes_beyond);
    run_group("late: packed totals short for the edited job alone", packed_for_the_edited_job);
    run_group("late: packed totals short for what comes back", packed_for_what_comes_back);
    run_group("late: the order of refusals of adding", order_of_adding);
    run_group("late: the order of refusals of withdrawing", order_of_withdrawing);
}
