#include "jobs.h"

#include <string.h>

const struct sizes TINY = {3, 4, 4, 8, MOST_LISTS}, SMALL = {5, 8, 12, 30, MOST_LISTS},
                   MEDIUM = {16, 60, 90, 250, MOST_LISTS},
                   LARGEST = {MOST_BOXES, MOST_GROCERS, MOST_OFFERS, MOST_TALLIES, MOST_LISTS},
                   LARGEST_OF_ONE_LIST = {MOST_BOXES, MOST_GROCERS, MOST_OFFERS, MOST_TALLIES, 0};

static uint64_t source;

void seed_random(uint64_t seed) { source = seed; }

/* splitmix64 */
uint64_t random_word(void)
{
    uint64_t word = source += UINT64_C(0x9E3779B97F4A7C15);
    word = (word ^ (word >> 30)) * UINT64_C(0xBF58476D1CE4E5B9);
    word = (word ^ (word >> 27)) * UINT64_C(0x94D049BB133111EB);
    return word ^ (word >> 31);
}

uint32_t below(uint32_t bound) { return (uint32_t)((random_word() >> 32) % bound); }
bool one_in(uint32_t bound) { return below(bound) == 0; }

int64_t between(int64_t least, int64_t most)
{
    uint64_t span = (uint64_t)most - (uint64_t)least + 1;
    return (int64_t)((uint64_t)least + (span ? random_word() % span : random_word()));
}

uint16_t wild_number(uint16_t near)
{
    static const uint16_t numbers[] = {0, 1, 2, 6, 7, 15, 16, 17, 255, 256, 257, 500, 501, 1000, 1001, 32768, 65535};
    switch (below(3)) {
    case 0: return numbers[below(sizeof numbers / sizeof numbers[0])];
    case 1: return (uint16_t)(near + below(3) - 1);
    default: return (uint16_t)random_word();
    }
}

struct code code_of(const char *digits)
{
    struct code code = {(uint8_t)strlen(digits), {0}};
    memcpy(code.field, digits, code.digits);
    return code;
}

static size_t digits_of(uint64_t number) { return number < 10 ? 1 : 1 + digits_of(number / 10); }

struct code code_of_number(uint64_t number, size_t zeros)
{
    struct code code = {(uint8_t)(zeros + digits_of(number)), {0}};
    for (size_t i = code.digits; i > 0; i--, number /= 10) code.field[i - 1] = (uint8_t)('0' + number % 10);
    return code;
}

static struct code random_code(uint64_t number)
{
    size_t room = FIELD - digits_of(number);
    return code_of_number(number, one_in(2) ? below((uint32_t)room + 1) : 0);
}

/* Half of the time anything within the bounds, else an edge. */
static uint16_t random_size(uint16_t least, uint16_t most)
{
    uint32_t draw = below(12);
    if (draw == 0) return least;
    if (draw == 1) return most;
    return (uint16_t)between(least, most);
}

struct sizes random_sizes(struct sizes most)
{
    struct sizes sizes = {random_size(1, most.boxes), random_size(1, most.grocers), random_size(1, most.offers),
                          random_size(0, most.tallies), 0};
    if (most.lists > 0 && one_in(2)) sizes.lists = random_size(1, most.lists);
    return sizes;
}

struct sizes sizes_with_tallies(struct sizes most)
{
    struct sizes sizes = random_sizes(most);
    if (sizes.boxes < 2) sizes.boxes = 2;
    if (sizes.tallies < 1) sizes.tallies = 1;
    return sizes;
}

static int64_t random_in(int64_t least, int64_t most)
{
    switch (below(6)) {
    case 0: return most;
    case 1: return least;
    case 2: return least < 0 ? 0 : least;
    case 3: return between(least / 1000, most / 1000);
    default: return between(least, most);
    }
}

/* Numbers of N offers, no two the same. */
static void random_numbers(uint64_t number[], size_t offers)
{
    uint64_t bound = one_in(2) ? UINT64_C(10000000000) : 4 * offers + below(5000);
    for (size_t o = 0; o < offers; o++) {
        bool fresh = false;
        while (!fresh) {
            number[o] = random_word() % bound;
            fresh = true;
            for (size_t p = 0; p < o; p++) fresh &= number[p] != number[o];
        }
    }
}

/* Owners of one table come from a random few of the boxes. */
static uint16_t random_owner(uint16_t boxes, uint16_t few) { return (uint16_t)((few + below(few)) % boxes); }

/* Tallies come from a random few of the boxes, offers and grocers, so that some have none and some repeat. */
static void random_tally(struct tally *tally, struct sizes few)
{
    *tally = (struct tally){.grocer = (uint16_t)below(few.grocers),
                            .box = (uint16_t)below(few.boxes),
                            .place = (uint16_t)below(few.offers),
                            .count = (int32_t)random_in(-MOST_COUNT, MOST_COUNT)};
}

void give_lists(struct job *job, uint16_t lists)
{
    job->sizes.lists = lists;
    for (size_t q = 1; q <= lists; q++) {
        bool same = one_in(8);
        for (size_t o = 0; o < job->sizes.offers; o++)
            job->more_price[q - 1][o] = same ? price_on(job, o, q - 1) : (uint32_t)random_in(0, MOST_PRICE);
    }
}

void random_old_job(struct job *job, struct sizes sizes)
{
    uint64_t number[MOST_OFFERS];
    struct sizes few = random_sizes(sizes);
    uint16_t owners = (uint16_t)(1 + below(sizes.boxes));
    if (one_in(2)) few = sizes;
    memset(job, 0, sizeof *job);
    job->sizes = sizes;
    random_numbers(number, sizes.offers);
    for (size_t o = 0; o < sizes.offers; o++)
        job->offer[o] = (struct offer){
            (uint32_t)random_in(0, MOST_PRICE), random_owner(sizes.boxes, owners), {0, random_code(number[o])}};
    owners = (uint16_t)(1 + below(sizes.boxes));
    for (size_t g = 0; g < sizes.grocers; g++) job->grocer_owner[g] = random_owner(sizes.boxes, owners);
    for (size_t t = 0; t < sizes.tallies; t++) {
        random_tally(&job->tally[t], few);
        if (t > 0 && one_in(6)) job->tally[t] = job->tally[below((uint32_t)t)];
        job->tally[t].name.code = random_code(number[job->tally[t].place]);
    }
    job->cycle = one_in(2) ? 0 : wild_number(500);
    give_lists(job, sizes.lists);
}

/* An issuer and a number for each of N offers, no two offers with both the same: any; or of few issuers, three at
   least, and so few numbers that some stand under several issuers. */
static void random_issuers(uint16_t issuer[], uint64_t number[], size_t offers)
{
    const uint16_t few[] = {0, 1, 65535, wild_number(2)};
    bool any = one_in(3);
    uint64_t bound = any ? UINT64_C(10000000000) : offers / 2 + 1 + below(8);
    for (size_t o = 0; o < offers; o++) {
        bool fresh = false;
        while (!fresh) {
            issuer[o] = any ? (uint16_t)random_word() : few[below(4)];
            number[o] = random_word() % bound;
            fresh = true;
            for (size_t p = 0; p < o; p++) fresh &= issuer[p] != issuer[o] || number[p] != number[o];
        }
    }
}

/* The same number with one zero more in front, where there is room. */
static struct code with_zero(struct code code)
{
    if (code.digits == FIELD) return code;
    memmove(code.field + 1, code.field, FIELD - 1);
    code.field[0] = '0';
    code.digits++;
    return code;
}

/* The tally counts what another one counted, and is named with or without a zero more. */
static void count_again(struct tally *tally, const struct tally *before)
{
    tally->grocer = before->grocer;
    tally->place = before->place;
    tally->name = before->name;
    tally->bag = before->bag;
    if (one_in(2)) tally->name.code = with_zero(tally->name.code);
}

/* Whether a tally before this one is of its bag, not 0, and its revision. */
static bool is_counted(const struct job *job, size_t t)
{
    const struct tally *tally = &job->tally[t];
    for (size_t u = 0; u < t; u++) {
        const struct tally *before = &job->tally[u];
        if (before->bag == tally->bag && before->revision == tally->revision && before->grocer == tally->grocer &&
            before->place == tally->place)
            return tally->bag != 0;
    }
    return false;
}

void give_bags(struct job *job)
{
    const uint16_t few[] = {0, 1, 65535, wild_number(2)};
    bool any = one_in(3);
    for (size_t t = 0; t < job->sizes.tallies; t++) {
        struct tally *tally = &job->tally[t];
        tally->bag = any ? (uint16_t)random_word() : few[below(4)];
        if (t > 0 && one_in(2)) count_again(tally, &job->tally[below((uint32_t)t)]);
        uint32_t revisions = one_in(4) ? 65536 : 4;
        do {
            tally->revision = (uint16_t)below(revisions);
            if (revisions < 65536) revisions *= 2;
        } while (is_counted(job, t));
    }
}

void shuffle_tallies(struct job *job)
{
    for (size_t left = job->sizes.tallies; left > 1; left--) {
        struct tally *one = &job->tally[left - 1], *other = &job->tally[below((uint32_t)left)], kept = *one;
        *one = *other;
        *other = kept;
    }
}

void random_job(struct job *job, struct sizes sizes)
{
    uint16_t issuer[MOST_OFFERS];
    uint64_t number[MOST_OFFERS];
    random_old_job(job, sizes);
    if (one_in(2)) give_bags(job);
    if (one_in(2)) return;
    random_issuers(issuer, number, sizes.offers);
    for (size_t o = 0; o < sizes.offers; o++) job->offer[o].name = (struct name){issuer[o], random_code(number[o])};
    for (size_t t = 0; t < sizes.tallies; t++) {
        uint16_t place = job->tally[t].place;
        job->tally[t].name = (struct name){issuer[place], random_code(number[place])};
    }
}

void sample_job(struct job *job)
{
    memset(job, 0, sizeof *job);
    job->sizes = (struct sizes){2, 2, 2, 4, 0};
    job->offer[0] = (struct offer){500, 0, {0, code_of("00412")}};
    job->offer[1] = (struct offer){1250, 1, {0, code_of("77")}};
    job->grocer_owner[0] = 1;
    job->tally[0] = (struct tally){0, 0, 0, 3, {0, code_of("412")}, 0, 0};
    job->tally[1] = (struct tally){1, 0, 1, 2, {0, code_of("077")}, 0, 0};
    job->tally[2] = (struct tally){0, 1, 1, -1, {0, code_of("77")}, 0, 0};
    job->tally[3] = (struct tally){0, 1, 0, 4, {0, code_of("0412")}, 0, 0};
}

void sample_with_lists(struct job *job, uint16_t lists)
{
    sample_job(job);
    job->sizes.lists = lists;
    for (uint32_t q = 0; q < lists; q++) {
        job->more_price[q][0] = 100 + q;
        job->more_price[q][1] = 200 + 20 * q;
    }
}

void one_tally_job(struct job *job, struct sizes sizes, uint32_t price, struct tally tally)
{
    memset(job, 0, sizeof *job);
    job->sizes = sizes;
    for (uint16_t o = 0; o < sizes.offers; o++) job->offer[o] = (struct offer){price, 0, {0, code_of_number(o, 0)}};
    for (uint16_t g = 0; g < sizes.grocers; g++) job->grocer_owner[g] = (uint16_t)(sizes.boxes - 1);
    tally.name = (struct name){0, code_of_number(tally.place, 0)};
    for (size_t t = 0; t < sizes.tallies; t++) job->tally[t] = tally;
}

static uint16_t by_rule(struct rule rule, size_t place) { return (uint16_t)(place / rule.by % rule.modulo); }

void ruled_job(struct job *job, struct sizes sizes, struct rules rules)
{
    memset(job, 0, sizeof *job);
    job->sizes = sizes;
    for (size_t o = 0; o < sizes.offers; o++)
        job->offer[o] = (struct offer){0, by_rule(rules.offer_owner, o), {0, code_of_number(o, 0)}};
    for (size_t g = 0; g < sizes.grocers; g++) job->grocer_owner[g] = by_rule(rules.grocer_owner, g);
    for (size_t t = 0; t < sizes.tallies; t++) {
        uint16_t place = by_rule(rules.tally_offer, t);
        job->tally[t] = (struct tally){
            by_rule(rules.tally_grocer, t), by_rule(rules.tally_box, t), place, 0, {0, code_of_number(place, 0)}, 0, 0};
    }
}

const struct named named[] = {
    {"5521 under two issuers", {{1, "5521"}, {2, "5521"}}, {{1, "5521"}, {2, "05521"}}, 0, {0, 1}},
    {"5521 under two issuers, tallied crosswise", {{1, "5521"}, {2, "5521"}}, {{2, "5521"}, {1, "5521"}}, 0, {1, 0}},
    {"5521 under two issuers, one tallied twice", {{1, "5521"}, {2, "5521"}}, {{2, "5521"}, {2, "5521"}}, 0, {1, 1}},
    {"5521 of an old offer too", {{7, "5521"}, {0, "5521"}}, {{0, "5521"}, {7, "5521"}}, 0, {1, 0}},
    {"a known number under another issuer", {{1, "5521"}, {2, "77"}}, {{1, "5521"}, {2, "5521"}}, 8, {0}},
    {"a known number under a third issuer", {{1, "5521"}, {2, "5521"}}, {{1, "5521"}, {3, "5521"}}, 8, {0}},
    {"a known number of an old offer", {{1, "5521"}, {0, "77"}}, {{0, "5521"}, {0, "77"}}, 8, {0}},
    {"a known issuer, another number", {{1, "5521"}, {2, "77"}}, {{1, "5521"}, {2, "5522"}}, 8, {0}},
    {"a number twice under one issuer", {{1, "5521"}, {1, "5521"}}, {{1, "5521"}, {1, "5521"}}, 7, {0}},
    {"a number twice, once with zeros", {{9, "5521"}, {9, "0005521"}}, {{9, "5521"}, {9, "5521"}}, 7, {0}},
    {"a number twice under one issuer, and a tally of another",
     {{1, "5521"}, {1, "5521"}},
     {{2, "5521"}, {1, "5521"}},
     7,
     {0}},
    {"(0, 0412) and (0, 412) agree", {{0, "0412"}, {0, "77"}}, {{0, "412"}, {0, "77"}}, 0, {0, 1}},
    {"(0, 0412) and (1, 412) do not", {{0, "0412"}, {0, "77"}}, {{1, "412"}, {0, "77"}}, 8, {0}},
    {"offers (0, 0412) and (0, 412) share", {{0, "0412"}, {0, "412"}}, {{0, "412"}, {0, "412"}}, 7, {0}},
    {"offers (0, 0412) and (1, 412) do not", {{0, "0412"}, {1, "412"}}, {{1, "412"}, {0, "412"}}, 0, {1, 0}},
    {"issuer 65,535 with 9999999999",
     {{65535, "9999999999"}, {65534, "9999999999"}},
     {{65534, "9999999999"}, {65535, "9999999999"}},
     0,
     {1, 0}},
    {"issuer 65,535 with 9999999999, and with 0",
     {{65535, "9999999999"}, {65535, "0"}},
     {{65535, "00"}, {65535, "9999999999"}},
     0,
     {1, 0}},
    {"issuers with one low byte", {{1, "5521"}, {257, "5521"}}, {{257, "5521"}, {1, "5521"}}, 0, {1, 0}},
    {"issuers with one high byte", {{512, "5521"}, {513, "5521"}}, {{513, "5521"}, {512, "5521"}}, 0, {1, 0}},
    {"issuers with their bytes exchanged", {{258, "5521"}, {513, "5521"}}, {{513, "5521"}, {258, "5521"}}, 0, {1, 0}},
    {"issuer and number exchanged", {{1, "2"}, {2, "1"}}, {{2, "1"}, {1, "2"}}, 0, {1, 0}},
    {"the last number of issuer 0, the first of issuer 1",
     {{0, "9999999999"}, {1, "0"}},
     {{1, "0"}, {0, "9999999999"}},
     0,
     {1, 0}},
    {"names with one issuer x 10^9 + number", {{0, "1000000000"}, {1, "0"}}, {{1, "0"}, {0, "1000000000"}}, 0, {1, 0}},
    {"names with one issuer x 2^32 + number", {{0, "4294967296"}, {1, "0"}}, {{1, "0"}, {0, "4294967296"}}, 0, {1, 0}},
    {"names with one issuer x 2^33 + number", {{0, "8589934592"}, {1, "0"}}, {{1, "0"}, {0, "8589934592"}}, 0, {1, 0}},
    {0},
};

void named_job(struct job *job, const struct named *named)
{
    memset(job, 0, sizeof *job);
    job->sizes = (struct sizes){2, 2, 2, 2, 0};
    for (uint16_t i = 0; i < 2; i++) {
        struct name offer = {named->offers[i].issuer, code_of(named->offers[i].digits)};
        struct name tally = {named->tallies[i].issuer, code_of(named->tallies[i].digits)};
        job->offer[i] = (struct offer){i ? 399 : 1250, (uint16_t)(1 - i), offer};
        job->tally[i] = (struct tally){i, i, named->places[i], i ? -7 : 3, tally, 0, 0};
    }
}

/* Grocer, box, offer, digits, count, bag and revision of each tally. */
const struct bagged bagged[] = {
    {"a bag counted once", "1", {5000, 0}, 2, 2, {{0, 1, 0, "412", 5, 7, 3}}},
    {"a bag counted again by another box, which owns offer and grocer: the first has no message left",
     "01",
     {6000, 0},
     0,
     0,
     {{0, 1, 0, "412", 5, 7, 1}, {0, 0, 0, "412", 6, 7, 2}}},
    {"the same, the first count with the higher revision",
     "10",
     {5000, 0},
     2,
     2,
     {{0, 1, 0, "412", 5, 7, 2}, {0, 0, 0, "412", 6, 7, 1}}},
    {"a bag counted again by the same box",
     "01",
     {8000, 0},
     2,
     2,
     {{0, 1, 0, "412", 5, 7, 1}, {0, 1, 0, "412", 8, 7, 2}}},
    {"the first box keeps its need by another tally",
     "011",
     {6000, 9000},
     3,
     3,
     {{0, 1, 0, "412", 5, 7, 1}, {0, 2, 0, "412", 6, 7, 2}, {1, 1, 0, "412", 9, 0, 0}}},
    {"three revisions",
     "001",
     {7000, 0},
     0,
     0,
     {{0, 1, 0, "412", 5, 7, 1}, {0, 2, 0, "412", 6, 7, 2}, {0, 0, 0, "412", 7, 7, 3}}},
    {"three revisions, the last by box 2",
     "001",
     {7000, 0},
     2,
     2,
     {{0, 0, 0, "412", 5, 7, 10}, {0, 1, 0, "412", 6, 7, 20}, {0, 2, 0, "412", 7, 7, 30}}},
    {"one revision twice", NULL, {0}, 0, 0, {{0, 1, 0, "412", 5, 7, 1}, {0, 2, 0, "412", 6, 7, 1}}},
    {"one revision twice, the same tally", NULL, {0}, 0, 0, {{0, 1, 0, "412", 5, 7, 1}, {0, 1, 0, "412", 5, 7, 1}}},
    {"one revision twice under a higher one",
     NULL,
     {0},
     0,
     0,
     {{0, 1, 0, "412", 5, 7, 1}, {0, 2, 0, "412", 6, 7, 1}, {0, 0, 0, "412", 7, 7, 2}}},
    {"one revision twice over a lower one",
     NULL,
     {0},
     0,
     0,
     {{0, 1, 0, "412", 5, 7, 2}, {0, 2, 0, "412", 6, 7, 1}, {0, 0, 0, "412", 7, 7, 2}}},
    {"one revision twice between others",
     NULL,
     {0},
     0,
     0,
     {{0, 1, 0, "412", 5, 7, 5}, {0, 2, 0, "412", 6, 7, 9}, {0, 0, 0, "412", 7, 7, 1}, {0, 0, 0, "412", 8, 7, 5}}},
    {"loose coupons twice", "11", {11000, 0}, 4, 4, {{0, 1, 0, "412", 5, 0, 1}, {0, 2, 0, "412", 6, 0, 1}}},
    {"loose coupons of two revisions", "11", {11000, 0}, 4, 4, {{0, 1, 0, "412", 5, 0, 1}, {0, 2, 0, "412", 6, 0, 2}}},
    {"loose coupons beside a bag of their grocer and offer",
     "101",
     {12000, 0},
     2,
     2,
     {{0, 1, 0, "412", 5, 0, 9}, {0, 2, 0, "412", 6, 7, 1}, {0, 0, 0, "412", 7, 7, 2}}},
    {"a recount of count 0", "01", {0, 0}, 2, 2, {{0, 1, 0, "412", 5, 7, 1}, {0, 2, 0, "412", 0, 7, 2}}},
    {"a recount that is negative", "01", {-3000, 0}, 0, 0, {{0, 0, 0, "412", 5, 7, 1}, {0, 0, 0, "412", -3, 7, 2}}},
    {"412 and 000412 are one offer", "01", {6000, 0}, 2, 2, {{0, 1, 0, "412", 5, 7, 1}, {0, 1, 0, "000412", 6, 7, 2}}},
    {"one revision twice, as 412 and 0412", NULL, {0}, 0, 0, {{0, 1, 0, "412", 5, 7, 1}, {0, 1, 0, "0412", 6, 7, 1}}},
    {"one number of two grocers is two bags",
     "11",
     {5000, 6000},
     2,
     2,
     {{0, 1, 0, "412", 5, 7, 1}, {1, 1, 0, "412", 6, 7, 1}}},
    {"one number of two grocers, two revisions",
     "11",
     {5000, 6000},
     2,
     2,
     {{0, 1, 0, "412", 5, 7, 1}, {1, 1, 0, "412", 6, 7, 2}}},
    {"one number of two offers is two bags",
     "11",
     {5600, 0},
     2,
     2,
     {{0, 1, 0, "412", 5, 7, 1}, {0, 1, 1, "77", 6, 7, 1}}},
    {"one number of two issuers' offers is two bags",
     "11",
     {506, 0},
     2,
     2,
     {{0, 1, 1, "77", 5, 7, 1}, {0, 1, 2, "77", 6, 7, 2}}},
    {"grocer and offer exchanged", "11", {500, 6000}, 2, 2, {{0, 0, 1, "77", 5, 7, 1}, {1, 0, 0, "412", 6, 7, 1}}},
    {"bag and revision exchanged", "11", {11000, 0}, 0, 0, {{0, 0, 0, "412", 5, 7, 8}, {0, 0, 0, "412", 6, 8, 7}}},
    {"two bags", "11", {11000, 0}, 0, 0, {{0, 0, 0, "412", 5, 7, 1}, {0, 0, 0, "412", 6, 8, 1}}},
    {"bags with one low byte", "11", {11000, 0}, 0, 0, {{0, 0, 0, "412", 5, 7, 1}, {0, 0, 0, "412", 6, 263, 1}}},
    {"bags with one high byte", "11", {11000, 0}, 0, 0, {{0, 0, 0, "412", 5, 512, 1}, {0, 0, 0, "412", 6, 513, 1}}},
    {"bag 256 is not loose", "01", {6000, 0}, 0, 0, {{0, 0, 0, "412", 5, 256, 1}, {0, 0, 0, "412", 6, 256, 2}}},
    {"two bags, each counted twice",
     "0110",
     {9000, 0},
     2,
     2,
     {{0, 1, 0, "412", 5, 7, 1}, {0, 2, 0, "412", 6, 8, 2}, {0, 0, 0, "412", 3, 7, 2}, {0, 0, 0, "412", 4, 8, 1}}},
    {"revision 1 over 0", "01", {6000, 0}, 0, 0, {{0, 0, 0, "412", 5, 7, 0}, {0, 0, 0, "412", 6, 7, 1}}},
    {"revision 256 over 255", "01", {6000, 0}, 0, 0, {{0, 0, 0, "412", 5, 7, 255}, {0, 0, 0, "412", 6, 7, 256}}},
    {"revision 32,768 over 32,767",
     "01",
     {6000, 0},
     0,
     0,
     {{0, 0, 0, "412", 5, 7, 32767}, {0, 0, 0, "412", 6, 7, 32768}}},
    {"revision 65,535 over 0, bag 65,535",
     "01",
     {6000, 0},
     0,
     0,
     {{0, 0, 0, "412", 5, 65535, 0}, {0, 0, 0, "412", 6, 65535, 65535}}},
    {"revision 0 twice", NULL, {0}, 0, 0, {{0, 1, 0, "412", 5, 7, 0}, {0, 2, 0, "412", 6, 7, 0}}},
    {"bag and revision 65,535 twice",
     NULL,
     {0},
     0,
     0,
     {{0, 1, 1, "77", 5, 65535, 65535}, {0, 2, 1, "77", 6, 65535, 65535}}},
    {"one revision of grocer 1 twice, grocer 0 loose",
     NULL,
     {0},
     0,
     0,
     {{0, 1, 0, "412", 5, 0, 0}, {1, 2, 2, "77", 6, 7, 1}, {1, 0, 2, "077", 6, 7, 1}}},
    {0},
};

void bagged_job(struct job *job, const struct bagged *bagged)
{
    memset(job, 0, sizeof *job);
    job->sizes = (struct sizes){3, 2, 3, 0, 0};
    job->offer[0] = (struct offer){1000, 0, {0, code_of("0412")}};
    job->offer[1] = (struct offer){100, 1, {0, code_of("77")}};
    job->offer[2] = (struct offer){1, 2, {9, code_of("077")}};
    job->grocer_owner[1] = 1;
    for (size_t t = 0; t < MOST_COUNTS && bagged->counts[t].digits; t++) {
        uint16_t place = bagged->counts[t].place;
        struct name name = {job->offer[place].name.issuer, code_of(bagged->counts[t].digits)};
        job->tally[job->sizes.tallies++] =
            (struct tally){bagged->counts[t].grocer, bagged->counts[t].box,     place, bagged->counts[t].count, name,
                           bagged->counts[t].bag,    bagged->counts[t].revision};
    }
}
