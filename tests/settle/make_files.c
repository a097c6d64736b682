/* Writes the sample job files and, beside each NAME.job, the lines that it comes to: make_files FOLDER. NAME.cents has amounts in
   whole cents, as the program settle has to print them, and NAME.out in tenths of a cent, as the library keeps them and
   host/example.c prints them. Files come from the model's encoder and lines from the model's reader and run. */
#include <inttypes.h>
#include <stdio.h>
#include <stdlib.h>
#include <string.h>

#include "jobs.h"
#include "model.h"

/* Room for the longest file and what may stand behind it; and as it was with one list. */
enum { ROOM = 54400, ROOM_OF_ONE_LIST = 40000, LONGEST_OF_ONE_LIST = 74 * BLOCK };

static struct job job;
static uint8_t file[ROOM];

/* Jobs that settle */

static size_t e(void)
{
    sample_job(&job);
    return write_file(&job, file);
}

static size_t random_file(uint64_t seed, struct sizes sizes)
{
    seed_random(seed);
    random_old_job(&job, sizes);
    job.cycle = 0;
    return write_file(&job, file);
}

/* E of the last cycle: its lines are E's. */
static size_t last_cycle(void)
{
    sample_job(&job);
    job.cycle = UINT16_MAX;
    return write_file(&job, file);
}

static size_t longest(void) { return random_file(1, LARGEST_OF_ONE_LIST); }
static size_t no_tallies(void) { return random_file(2, (struct sizes){5, 3, 4, 0, 0}); }
static size_t one_box(void) { return random_file(3, (struct sizes){1, 7, 9, 30, 0}); }
static size_t one_grocer(void) { return random_file(34, (struct sizes){4, 1, 6, 25, 0}); }
static size_t full_blocks(void) { return random_file(5, (struct sizes){6, 255, 42, 63, 0}); }

static size_t negative(void)
{
    random_file(36, (struct sizes){3, 5, 5, 40, 0});
    for (size_t t = 0; t < job.sizes.tallies; t++) job.tally[t].count = -1 - abs(job.tally[t].count) / 2;
    return write_file(&job, file);
}

/* Each box owns one offer and one grocer, and holds a tally of every offer and every grocer. */
static size_t every_pair(void)
{
    const uint16_t boxes = MOST_BOXES;
    struct sizes sizes = {boxes, boxes, boxes, (uint16_t)(boxes * boxes), 0};
    one_tally_job(&job, sizes, 1000, (struct tally){0});
    for (uint16_t b = 0; b < boxes; b++) {
        job.offer[b].price += b;
        job.offer[b].owner = job.grocer_owner[b] = b;
    }
    for (uint16_t t = 0; t < sizes.tallies; t++) {
        uint16_t box = t / boxes, offer = t % boxes;
        job.tally[t] = (struct tally){offer, box, offer, t - 100, {0, code_of_number(offer, 3)}, 0, 0};
    }
    return write_file(&job, file);
}

/* 1,000 tallies at the highest price and count, all of one grocer. */
static size_t largest_amounts(void)
{
    one_tally_job(&job, (struct sizes){16, 1, 1, MOST_TALLIES, 0}, MOST_PRICE, (struct tally){.count = MOST_COUNT});
    for (size_t t = 0; t < MOST_TALLIES; t++) job.tally[t].box = t % 16;
    return write_file(&job, file);
}

static size_t largest_negative(void)
{
    largest_amounts();
    for (size_t t = 0; t < MOST_TALLIES; t++) job.tally[t].count = -MOST_COUNT;
    return write_file(&job, file);
}

/* One price of a tenth, so that each grocer's count is its amount: halves, and what is at and around zero. */
static size_t halves(void)
{
    static const int32_t amounts[] = {25, 24, 26, -25, -24, -26, 0, 1, 4, 5, 6, -1, -4, -5, -6, 15, -15, 35, 95, -95, 99999, -99999};
    const uint16_t grocers = sizeof amounts / sizeof amounts[0];
    one_tally_job(&job, (struct sizes){2, grocers, 1, grocers, 0}, 1, (struct tally){0});
    for (uint16_t t = 0; t < grocers; t++) {
        job.tally[t].grocer = t;
        job.tally[t].box = t % 2;
        job.tally[t].count = amounts[t];
    }
    return write_file(&job, file);
}

/* Every amount from -127 to 127 tenths, in a cycle: halves of both signs, to even and to odd cents. */
static size_t tenths_in(uint16_t cycle)
{
    one_tally_job(&job, (struct sizes){2, MOST_GROCERS, 1, MOST_GROCERS, 0}, 1, (struct tally){0});
    for (uint16_t t = 0; t < MOST_GROCERS; t++) {
        job.tally[t].grocer = t;
        job.tally[t].box = t % 2;
        job.tally[t].count = t - 127;
    }
    job.cycle = cycle;
    return write_file(&job, file);
}

static size_t tenths_499(void) { return tenths_in(499); }
static size_t tenths_500(void) { return tenths_in(500); }
static size_t tenths_last(void) { return tenths_in(UINT16_MAX); }

/* 5521 of issuers 1 and 2 and of an old offer, at 1,250, 399 and 80, each with tallies of both grocers: grocer 0 is owed
   3 x 1,250 + 2 x 399 - 1 x 80 = 4,468, in cents 447, and grocer 1 4 x 399 + 5 x 80 + 1 x 1,250 = 3,246, in cents 325.
   Box 0 owns the first offer and grocer 1, box 1 the rest. Box 1 sends two prices and a total, box 0 a price and a
   total: 5 words, 4 messages, 2 x 2 + 2 x 4 = 12 steps. */
static size_t issuers(void)
{
    memset(&job, 0, sizeof job);
    job.sizes = (struct sizes){2, 2, 3, 6, 0};
    job.offer[0] = (struct offer){1250, 0, {1, code_of("5521")}};
    job.offer[1] = (struct offer){399, 1, {2, code_of("5521")}};
    job.offer[2] = (struct offer){80, 1, {0, code_of("05521")}};
    job.grocer_owner[0] = 1;
    job.tally[0] = (struct tally){0, 0, 0, 3, {1, code_of("5521")}, 0, 0};
    job.tally[1] = (struct tally){0, 1, 1, 2, {2, code_of("0005521")}, 0, 0};
    job.tally[2] = (struct tally){0, 1, 2, -1, {0, code_of("5521")}, 0, 0};
    job.tally[3] = (struct tally){1, 0, 1, 4, {2, code_of("5521")}, 0, 0};
    job.tally[4] = (struct tally){1, 0, 2, 5, {0, code_of("005521")}, 0, 0};
    job.tally[5] = (struct tally){1, 1, 0, 1, {1, code_of("05521")}, 0, 0};
    return write_file(&job, file);
}

/* A bag of 412 that box 1 counted as 5 and box 0 counted again as 7: grocer 0 is owed 7 x 500 = 3,500, in cents 350, and
   as box 0 owns offer and grocer, box 1 needs no price and sends no total. Grocer 1 is owed 2 x 1,250 = 2,500, in cents
   250, for loose coupons in box 0; box 1 owns offer and grocer, so a price and a total are sent: 2 words, 2 messages,
   2 x 2 + 2 x 2 = 8 steps. */
static size_t recount_two_boxes(void)
{
    memset(&job, 0, sizeof job);
    job.sizes = (struct sizes){2, 2, 2, 3, 0};
    job.offer[0] = (struct offer){500, 0, {0, code_of("00412")}};
    job.offer[1] = (struct offer){1250, 1, {0, code_of("77")}};
    job.grocer_owner[1] = 1;
    job.tally[0] = (struct tally){0, 1, 0, 5, {0, code_of("412")}, 31, 1};
    job.tally[1] = (struct tally){1, 0, 1, 2, {0, code_of("77")}, 0, 0};
    job.tally[2] = (struct tally){0, 0, 0, 7, {0, code_of("0412")}, 31, 2};
    return write_file(&job, file);
}

/* The same coupons loose: both counts stand, and grocer 0 is owed 12 x 500 = 6,000, in cents 600. Box 1 gets a price and
   sends a total too: 4 words, 4 messages, 2 x 2 + 2 x 4 = 12 steps. */
static size_t loose_twice(void)
{
    recount_two_boxes();
    job.tally[0].bag = job.tally[2].bag = 0;
    job.tally[0].revision = 2;
    return write_file(&job, file);
}

/* 90 tallies, most of them in bags that were counted several times; and the same records in another order. */
static size_t recount(void)
{
    random_file(70, (struct sizes){5, 12, 20, 90, 0});
    give_bags(&job);
    return write_file(&job, file);
}

static size_t recount_permuted(void)
{
    recount();
    shuffle_tallies(&job);
    return write_file(&job, file);
}

static size_t longest_in_bags(void)
{
    random_file(61, LARGEST_OF_ONE_LIST);
    give_bags(&job);
    return write_file(&job, file);
}

/* 1,000 counts of one bag, by all boxes: tally 781, of revision 999, has 281, at 3 tenths each. */
static size_t one_bag(void)
{
    one_tally_job(&job, (struct sizes){16, 1, 1, MOST_TALLIES, 0}, 3, (struct tally){.bag = 5});
    for (size_t t = 0; t < MOST_TALLIES; t++) {
        job.tally[t].box = t % 16;
        job.tally[t].count = (int32_t)t - 500;
        job.tally[t].revision = (uint16_t)(t * 379 % 1000);
    }
    return write_file(&job, file);
}

/* E with a second list, 100 and 200: grocer 0 is owed 500 on it, in cents 50, and grocer 1 400, in cents 40. Each of the
   3 prices and totals sent is 2 words: 6 words, and messages and steps of E. */
static size_t e_two_lists(void)
{
    sample_with_lists(&job, 1);
    return write_file(&job, file);
}

static size_t e_eight_lists(void)
{
    sample_with_lists(&job, MOST_LISTS);
    return write_file(&job, file);
}

/* Seven lists more of so many offers: one full block each; two, the second with one price; four. */
static size_t lists_126(void) { return random_file(91, (struct sizes){3, 4, 126, 20, MOST_LISTS}); }
static size_t lists_127(void) { return random_file(92, (struct sizes){3, 4, 127, 20, MOST_LISTS}); }
static size_t lists_500(void) { return random_file(93, (struct sizes){5, 9, 500, 60, MOST_LISTS}); }
static size_t lists_no_tallies(void) { return random_file(94, (struct sizes){2, 3, 2, 0, 3}); }
static size_t longest_of_lists(void) { return random_file(95, LARGEST); }

/* Halves and what is around zero on list 0, at a price of 1; at 0 on list 1, at 5 on list 2 and at 2 on list 3. */
static size_t halves_on_lists(void)
{
    halves();
    job.cycle = 500;
    job.sizes.lists = 3;
    job.more_price[1][0] = 5;
    job.more_price[2][0] = 2;
    return write_file(&job, file);
}

/* Every grocer with three or four tallies of the largest negative amount, on every list: the longest lines. */
static size_t long_lines(void)
{
    one_tally_job(&job, (struct sizes){16, MOST_GROCERS, 1, MOST_TALLIES, MOST_LISTS}, MOST_PRICE,
                  (struct tally){.count = -MOST_COUNT});
    for (size_t q = 0; q < MOST_LISTS; q++) job.more_price[q][0] = (uint32_t)(MOST_PRICE - q);
    for (uint16_t t = 0; t < MOST_TALLIES; t++) {
        job.tally[t].grocer = t % MOST_GROCERS;
        job.tally[t].box = t % 16;
    }
    return write_file(&job, file);
}

/* Files that are refused */

/* A byte of the file, with the sums of its block made right. */
static size_t with_byte(size_t length, size_t block, size_t place, uint8_t byte)
{
    file[block * BLOCK + place] = byte;
    write_sums(file + block * BLOCK);
    return length;
}

static size_t e_with(size_t block, size_t place, uint8_t byte) { return with_byte(e(), block, place, byte); }

static size_t longer(size_t length, size_t more)
{
    memset(file + length, 0, more);
    return length + more;
}

static size_t empty(void) { return 0; }
static size_t one_byte(void) { return e() ? 1 : 0; }
static size_t byte_short(void) { return e() - 1; }
static size_t byte_too_long(void) { return longer(e(), 1); }
static size_t block_short(void) { return e() - BLOCK; }
static size_t block_too_long(void) { return longer(e(), BLOCK); }
static size_t longest_and_a_byte(void) { return longer(longest(), 1); }
static size_t longest_and_a_block(void) { return longer(longest(), BLOCK); }
static size_t over_longest(void) { return longer(longest(), ROOM_OF_ONE_LIST - LONGEST_OF_ONE_LIST); }
static size_t kind_not_due(void) { return e_with(2, 0, 3); }
static size_t block_number_not_due(void) { return e_with(3, 2, 2); }
static size_t boxes_17(void) { return e_with(0, 4, 17); }
static size_t spare_byte(void) { return e_with(1, 507, 1); }
/* Byte 14 says that there is a list more, and there is no block of it. */
static size_t byte_behind_cycle(void) { return e_with(0, 14, 1); }
static size_t owner_too_large(void) { return e_with(2, 5, 2); }
static size_t bad_digit(void) { return e_with(3, 8, ':'); }
static size_t unknown_code(void) { return e_with(3, 10, '3'); }

static size_t eight_lists_more(void) { return e_with(0, 14, 8); }
static size_t lists_spare_byte(void) { return with_byte(e_two_lists(), 3, 12, 1); }
static size_t lists_record_count(void) { return with_byte(e_two_lists(), 3, 1, 126); }
static size_t lists_block_short(void) { return e_two_lists() - BLOCK; }
static size_t longest_of_lists_and_a_byte(void) { return longer(longest_of_lists(), 1); }
static size_t longest_of_lists_and_a_block(void) { return longer(longest_of_lists(), BLOCK); }
static size_t over_longest_of_lists(void) { return longer(longest_of_lists(), ROOM - MOST_FILE); }

/* The block of prices behind that of tallies, and each with the number due there. */
static size_t lists_behind_tallies(void)
{
    uint8_t prices[BLOCK];
    size_t length = e_two_lists();
    memcpy(prices, file + 3 * BLOCK, BLOCK);
    memcpy(file + 3 * BLOCK, file + 4 * BLOCK, BLOCK);
    memcpy(file + 4 * BLOCK, prices, BLOCK);
    with_byte(length, 3, 2, 3);
    return with_byte(length, 4, 2, 4);
}

/* Two bytes of a block of prices. */
static size_t lists_changed_bytes(void)
{
    size_t length = e_two_lists();
    file[3 * BLOCK + 4]++;
    file[3 * BLOCK + 8]--;
    return length;
}

static size_t lists_price_too_large(void)
{
    sample_with_lists(&job, MOST_LISTS);
    job.more_price[MOST_LISTS - 1][1] = MOST_PRICE + 1;
    return write_file(&job, file);
}

static size_t changed_byte(void)
{
    size_t length = e();
    file[BLOCK + 4]++;
    return length;
}

static size_t price_too_large(void)
{
    sample_job(&job);
    job.offer[0].price = MOST_PRICE + 1;
    return write_file(&job, file);
}

static size_t bad_count_unknown_code(void)
{
    sample_job(&job);
    job.tally[3].count = MOST_COUNT + 1;
    job.tally[3].name.code = code_of("4120");
    return write_file(&job, file);
}

static size_t shared_number(void)
{
    sample_job(&job);
    job.offer[1].name.code = code_of("0000000412");
    return write_file(&job, file);
}

/* The second 5521 of issuer 1 too. */
static size_t shared_number_one_issuer(void)
{
    issuers();
    job.offer[1].name.issuer = 1;
    return write_file(&job, file);
}

/* A tally of 5521 of issuer 3, which has no offer. */
static size_t known_number_other_issuer(void)
{
    issuers();
    job.tally[3].name.issuer = 3;
    return write_file(&job, file);
}

/* Both counts of the bag of revision 2. */
static size_t equal_revisions(void)
{
    recount_two_boxes();
    job.tally[0].revision = 2;
    return write_file(&job, file);
}

/* Two counts of revision 1, under one of revision 2. */
static size_t equal_revisions_below(void)
{
    recount_two_boxes();
    job.tally[job.sizes.tallies++] = job.tally[0];
    return write_file(&job, file);
}

/* Equal revisions, and a tally of an offer that is not there. */
static size_t equal_revisions_unknown_code(void)
{
    equal_revisions();
    job.tally[1].name.code = code_of("78");
    return write_file(&job, file);
}

static const struct sample {
    const char *name;
    size_t (*make)(void);
    uint16_t due; /* its refusal, or 0 */
} samples[] = {
    {"e", e, 0},
    {"longest", longest, 0},
    {"no_tallies", no_tallies, 0},
    {"one_box", one_box, 0},
    {"one_grocer", one_grocer, 0},
    {"full_blocks", full_blocks, 0},
    {"negative", negative, 0},
    {"every_pair", every_pair, 0},
    {"largest_amounts", largest_amounts, 0},
    {"largest_negative", largest_negative, 0},
    {"halves", halves, 0},
    {"last_cycle", last_cycle, 0},
    {"tenths_499", tenths_499, 0},
    {"tenths_500", tenths_500, 0},
    {"tenths_last", tenths_last, 0},
    {"issuers", issuers, 0},
    {"recount_two_boxes", recount_two_boxes, 0},
    {"loose_twice", loose_twice, 0},
    {"recount", recount, 0},
    {"recount_permuted", recount_permuted, 0},
    {"longest_in_bags", longest_in_bags, 0},
    {"one_bag", one_bag, 0},
    {"e_two_lists", e_two_lists, 0},
    {"e_eight_lists", e_eight_lists, 0},
    {"lists_126", lists_126, 0},
    {"lists_127", lists_127, 0},
    {"lists_500", lists_500, 0},
    {"lists_no_tallies", lists_no_tallies, 0},
    {"longest_of_lists", longest_of_lists, 0},
    {"halves_on_lists", halves_on_lists, 0},
    {"long_lines", long_lines, 0},
    {"empty", empty, 1},
    {"one_byte", one_byte, 1},
    {"byte_short", byte_short, 1},
    {"byte_too_long", byte_too_long, 1},
    {"block_short", block_short, 1},
    {"block_too_long", block_too_long, 1},
    {"longest_and_a_byte", longest_and_a_byte, 1},
    {"longest_and_a_block", longest_and_a_block, 1},
    {"over_longest", over_longest, 1},
    {"byte_behind_cycle", byte_behind_cycle, 1},
    {"lists_block_short", lists_block_short, 1},
    {"longest_of_lists_and_a_byte", longest_of_lists_and_a_byte, 1},
    {"longest_of_lists_and_a_block", longest_of_lists_and_a_block, 1},
    {"over_longest_of_lists", over_longest_of_lists, 1},
    {"changed_byte", changed_byte, 2},
    {"lists_changed_bytes", lists_changed_bytes, 2},
    {"kind_not_due", kind_not_due, 3},
    {"lists_record_count", lists_record_count, 3},
    {"lists_behind_tallies", lists_behind_tallies, 3},
    {"block_number_not_due", block_number_not_due, 3},
    {"boxes_17", boxes_17, 4},
    {"eight_lists_more", eight_lists_more, 4},
    {"spare_byte", spare_byte, 5},
    {"lists_spare_byte", lists_spare_byte, 5},
    {"owner_too_large", owner_too_large, 6},
    {"bad_digit", bad_digit, 6},
    {"price_too_large", price_too_large, 6},
    {"lists_price_too_large", lists_price_too_large, 6},
    {"bad_count_unknown_code", bad_count_unknown_code, 6},
    {"shared_number", shared_number, 7},
    {"shared_number_one_issuer", shared_number_one_issuer, 7},
    {"unknown_code", unknown_code, 8},
    {"known_number_other_issuer", known_number_other_issuer, 8},
    {"equal_revisions_unknown_code", equal_revisions_unknown_code, 8},
    {"equal_revisions", equal_revisions, 9},
    {"equal_revisions_below", equal_revisions_below, 9},
};

/* Output */

static FILE *open_file(const char *folder, const char *name, const char *ending)
{
    char path[500];
    snprintf(path, sizeof path, "%s/%s.%s", folder, name, ending);
    FILE *stream = fopen(path, "wb");
    if (stream) return stream;
    perror(path);
    exit(2);
}

/* Of two cents that are equally near, whether c is the one printed: to cycle 499 the one away from zero, from cycle 500 on the even one. */
static bool takes_half(int64_t c, int64_t other)
{
    return job.cycle < 500 ? llabs(c) > llabs(other) : c % 2 == 0;
}

/* Tenths of a cent in whole cents, by the job's cycle: the whole number c of which 10 * c is nearest, found by looking at those around. */
static int64_t in_cents(int64_t tenths)
{
    int64_t best = tenths / 10 - 2;
    for (int64_t c = best + 1; c <= tenths / 10 + 2; c++) {
        int64_t off = llabs(10 * c - tenths), least = llabs(10 * best - tenths);
        if (off < least || (off == least && takes_half(c, best))) best = c;
    }
    return best;
}

static int64_t in_tenths(int64_t tenths) { return tenths; }

static void print_statements(FILE *stream, int64_t (*unit)(int64_t))
{
    static struct machine machine;
    struct step picked[MOST_STEPS];
    struct report report = run_all(&machine, &job, (struct table){CHOICES, 0, NULL}, picked);
    for (uint16_t g = 0; g < job.sizes.grocers; g++) {
        fprintf(stream, "%u", g);
        for (size_t q = 0; q <= job.sizes.lists; q++) {
            if (machine.statement[g][q] != plain_sum(&job, g, q)) exit(3);
            fprintf(stream, " %" PRId64, unit(machine.statement[g][q]));
        }
        fputc('\n', stream);
    }
    if (report.words != words_of_job(&job)) exit(3);
    fprintf(stream, "words %u\nmessages %u\nsteps %u\n", report.words, report.messages, report.steps);
}

static void make_lines(const char *folder, const struct sample *sample, const char *ending, int64_t (*unit)(int64_t))
{
    FILE *stream = open_file(folder, sample->name, ending);
    if (sample->due)
        fprintf(stream, "refused %u\n", sample->due);
    else
        print_statements(stream, unit);
    fclose(stream);
}

static void make_sample(const char *folder, const struct sample *sample)
{
    size_t length = sample->make();
    FILE *stream = open_file(folder, sample->name, "job");
    fwrite(file, 1, length, stream);
    fclose(stream);
    memset(&job, 0, sizeof job);
    uint16_t refusal = read_file(file, length, &job);
    if (refusal != sample->due) {
        fprintf(stderr, "%s: the model refuses with %u, meant is %u\n", sample->name, refusal, sample->due);
        exit(3);
    }
    make_lines(folder, sample, "cents", in_cents);
    make_lines(folder, sample, "out", in_tenths);
}

int main(int argc, char **argv)
{
    if (argc != 2) {
        fputs("make_files FOLDER\n", stderr);
        return 2;
    }
    for (size_t i = 0; i < sizeof samples / sizeof samples[0]; i++) make_sample(argv[1], &samples[i]);
    return 0;
}
