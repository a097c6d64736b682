/* Late and withdrawn bags, one edit after the other: random lists, the ends of the sizes, edits that are taken back. */
#include <dirent.h>
#include <stdio.h>
#include <string.h>

#include "call_groups.h"
#include "late_calling.h"

static struct calling calling;

/* Random edits */

/* A tally of a lent offer, often of the grocer, bag and offer of a lent tally. */
static struct tally some_tally(void)
{
    const struct lending *lending = &calling.lending;
    struct sizes sizes = calling.job.sizes;
    struct tally tally = {.grocer = (uint16_t)below(sizes.grocers),
                          .box = (uint16_t)below(sizes.boxes),
                          .place = (uint16_t)below(sizes.offers),
                          .count = (int32_t)between(-MOST_COUNT, MOST_COUNT),
                          .bag = one_in(2) ? 0 : (uint16_t)(1 + below(3)),
                          .revision = (uint16_t)below(6)};
    if (sizes.tallies > 0 && one_in(2)) {
        size_t t = below(sizes.tallies);
        tally.grocer = (uint16_t)word_at(lending->twin[TALLY_GROCER], t);
        tally.place = (uint16_t)word_at(lending->twin[TALLY_OFFER], t);
        tally.bag = (uint16_t)word_at(lending->twin[TALLY_BAG], t);
        if (one_in(2)) tally.revision = (uint16_t)(word_at(lending->twin[TALLY_REVISION], t) + below(3) - 1);
    }
    tally.name.issuer = (uint16_t)word_at(lending->twin[OFFER_ISSUER], tally.place);
    tally.name.code.digits = (uint8_t)word_at(lending->twin[OFFER_CODE], 11u * tally.place);
    for (size_t i = 0; i < FIELD; i++)
        tally.name.code.field[i] = (uint8_t)word_at(lending->twin[OFFER_CODE], 11u * tally.place + 1 + i);
    return tally;
}

/* A fault of the tally, or what is none. */
static void spoil_tally(struct tally *tally)
{
    struct code *code = &tally->name.code;
    switch (below(8)) {
    case 0: tally->grocer = wild_number(calling.job.sizes.grocers); break;
    case 1: tally->box = wild_number(calling.job.sizes.boxes); break;
    case 2: tally->count = (int32_t)random_word(); break;
    case 3: tally->name.issuer = (uint16_t)below(3); break;
    case 4: code->digits = (uint8_t)below(12); break;
    case 5: code->field[below(FIELD)] = (uint8_t)('0' - 1 + below(12)); break;
    case 6: *code = code_of_number(below(30), 0); break;
    default: tally->revision = wild_number(tally->revision); break;
    }
}

static void some_edit(struct sizes sizes)
{
    if (one_in(2)) {
        struct tally tally = some_tally();
        if (one_in(6)) spoil_tally(&tally);
        ask_add(&calling, sizes, &tally);
    } else
        ask_withdraw(&calling, sizes, one_in(8) ? wild_number(sizes.tallies) : (uint16_t)below(sizes.tallies + 1u));
}

/* Lent words that are not those of the job: places, names, bags; the state is then again that of a run, or not. */
static void spoil_job(void)
{
    static const enum table_name names[] = {TALLY_OFFER, TALLY_OFFER,  TALLY_BAG, TALLY_REVISION, TALLY_BOX,
                                            TALLY_CODE,  TALLY_ISSUER, OFFER_CODE};
    enum table_name name = names[below(8)];
    struct sizes sizes = calling.job.sizes;
    size_t words = needed(name, sizes);
    if (words == 0) return;
    struct range range = range_of(name, sizes);
    int64_t word = width_of(name) == 1 ? '0' + below(12) - 1 : between(0, range.most < 3 ? range.most : 3);
    put_both(&calling.lending, name, below((uint32_t)words), word);
    if (!one_in(4)) finish_again(&calling);
}

/* One word of a state or a job, one length or one size: any, for one edit. */
static void edit_on_spoiled_words(void)
{
    struct sizes sizes = calling.job.sizes;
    enum table_name name = below(STEP_TABLES);
    size_t words = is_packed(name) ? packed_now(&calling) : needed(name, sizes);
    if (one_in(3)) {
        unsigned cut = one_in(8) ? (one_in(2) ? EDITED : ADDED_CODE) : below(SIZES);
        if (calling.lending.lend[cut] > 0) calling.lending.lend[cut] -= 1 + below(2) % calling.lending.lend[cut];
    } else if (one_in(2) && words > 0) {
        struct range range = range_of(name, sizes);
        put_both(&calling.lending, name, below((uint32_t)words), one_in(2) ? range.most + 1 : range.most);
    } else {
        uint16_t *size[] = {&sizes.boxes, &sizes.grocers, &sizes.offers, &sizes.tallies, &sizes.lists};
        uint16_t *changed = size[below(5)];
        *changed = wild_number(*changed);
    }
    some_edit(sizes);
    lend_whole(&calling.lending);
}

static void edit_often(unsigned edits)
{
    for (unsigned e = 0; e < edits; e++) {
        if (one_in(6)) spoil_job();
        some_edit(calling.job.sizes);
    }
}

static void random_edits(void)
{
    static const uint16_t lists[] = {0, 0, 1, 7};
    for (unsigned long i = 0; i < job_count / 2 + 30; i++) {
        struct sizes sizes = random_sizes(i % 16 ? TINY : SMALL);
        sizes.lists = lists[below(4)];
        random_job(&calling.job, sizes);
        uint16_t more = (uint16_t)below(5);
        open_finished(&calling, SPARE, more);
        at_case("random job %lu", i);
        edit_often(1 + below(8));
        edit_on_spoiled_words();
        close_calling(&calling);
    }
}

/* The edited tables are those of a file, and the state is that of a run. */
static void read_and_run_again(void)
{
    for (unsigned long i = 0; i < job_count / 16 + 12; i++) {
        random_job(&calling.job, sizes_with_tallies(i % 8 ? TINY : SMALL));
        open_finished(&calling, SPARE, 4);
        at_case("random job %lu", i);
        unsigned edited = 0;
        for (unsigned e = 0; e < 4; e++) {
            struct tally tally = some_tally();
            edited += (one_in(2) ? ask_add(&calling, calling.job.sizes, &tally)
                                 : ask_withdraw(&calling, calling.job.sizes,
                                                (uint16_t)below(calling.job.sizes.tallies + 1u))) == 0;
        }
        if (edited > 0) {
            expect_written(&calling);
            expect_run(&calling);
        }
        close_calling(&calling);
    }
}

/* No other grocer's amount changes: that of the edit's grocer may, on each list. */
static void other_grocers(void)
{
    int64_t kept[MOST_GROCERS * MOST_WIDTH];
    for (unsigned long i = 0; i < job_count / 16 + 12; i++) {
        random_job(&calling.job, sizes_with_tallies(TINY));
        open_finished(&calling, SPARE, 1);
        size_t width = width_of_entry(calling.job.sizes), words = needed(STATEMENT, calling.job.sizes);
        for (size_t place = 0; place < words; place++) kept[place] = word_of(&calling, STATEMENT, place);
        struct tally tally = some_tally();
        uint16_t place = (uint16_t)below(calling.job.sizes.tallies);
        at_case("random job %lu", i);
        if (i % 2)
            ask_add(&calling, calling.job.sizes, &tally);
        else {
            tally.grocer = (uint16_t)word_of(&calling, TALLY_GROCER, place);
            ask_withdraw(&calling, calling.job.sizes, place);
        }
        for (size_t word = 0; word < words; word++)
            if (word / width != tally.grocer)
                expect(word_of(&calling, STATEMENT, word) == kept[word], "the amount of grocer %zu changed", word / width);
        close_calling(&calling);
    }
}

/* Edits taken back */

/* The words that an added tally had, and nothing else: they are 0 once it is withdrawn. */
static bool is_freed(const struct calling *before, enum table_name name, size_t place, size_t packed)
{
    struct sizes sizes = before->job.sizes, room = sizes;
    room.tallies++;
    if (is_packed(name)) return place >= packed_now(before) && place < packed;
    return place >= needed(name, sizes) && place < needed(name, room);
}

static void expect_as_before(const struct calling *before, size_t packed)
{
    for (unsigned name = 0; name < SIZES; name++)
        for (size_t place = 0; place < before->lending.table[name].length; place++) {
            int64_t due = is_freed(before, name, place, packed) ? 0 : word_at(before->lending.table[name], place);
            expect(word_of(&calling, name, place) == due, "%s[%zu] is %lld, was %lld", table_text(name), place,
                   (long long)word_of(&calling, name, place), (long long)due);
        }
}

static void keep(struct calling *kept)
{
    size_t lengths[ALL_TABLES];
    for (unsigned name = 0; name < ALL_TABLES; name++) lengths[name] = calling.lending.table[name].length;
    kept->job = calling.job;
    open_lending(&kept->lending, lengths);
    for (unsigned name = 0; name < ALL_TABLES; name++)
        for (size_t place = 0; place < lengths[name]; place++)
            put_both(&kept->lending, name, place, word_of(&calling, name, place));
}

static void added_and_withdrawn(void)
{
    static struct calling before;
    for (unsigned long i = 0; i < job_count / 16 + 12; i++) {
        random_job(&calling.job, random_sizes(TINY));
        open_finished(&calling, SPARE, 1);
        keep(&before);
        struct tally tally = some_tally();
        at_case("random job %lu", i);
        if (ask_add(&calling, calling.job.sizes, &tally) == 0) {
            size_t packed = packed_now(&calling);
            uint16_t last = (uint16_t)(calling.job.sizes.tallies - 1);
            expect(ask_withdraw(&calling, calling.job.sizes, last) == 0, "the added tally cannot be withdrawn");
            expect_as_before(&before, packed);
        }
        close_calling(&before);
        close_calling(&calling);
    }
}

/* The ends of the sizes */

static void expect_edit(uint16_t answer, uint16_t due)
{
    expect(answer == due, "answered %u, the case says %u", answer, due);
}

/* One edit after the other where the list is nearly full. */
static void to_the_full_list(struct sizes sizes, bool bags)
{
    sizes.tallies = 998;
    random_old_job(&calling.job, sizes);
    if (bags) give_bags(&calling.job);
    open_finished(&calling, 0, 2);
    for (unsigned i = 0; i < 3; i++) {
        struct tally tally = some_tally();
        tally.bag = 0;
        at_case("K %u, lists %u, %u tallies and one more", sizes.boxes, sizes.lists, calling.job.sizes.tallies);
        expect_edit(ask_add(&calling, calling.job.sizes, &tally), i < 2 ? 0 : 31);
    }
    struct tally wrong = {.grocer = 65535};
    expect_edit(ask_add(&calling, calling.job.sizes, &wrong), 31);
    at_case("K %u, lists %u, %u tallies and one fewer", sizes.boxes, sizes.lists, calling.job.sizes.tallies);
    expect_edit(ask_withdraw(&calling, calling.job.sizes, 1000), 32);
    expect_edit(ask_withdraw(&calling, calling.job.sizes, 999), 0);
    expect_edit(ask_withdraw(&calling, calling.job.sizes, 0), 0);
    expect_run(&calling);
    expect_written(&calling);
    close_calling(&calling);
}

static void full_lists(void)
{
    to_the_full_list((struct sizes){1, 3, 2, 0, 0}, false);
    if (job_count < 10) return;
    to_the_full_list((struct sizes){1, 255, 500, 0, 7}, false);
    to_the_full_list((struct sizes){2, 255, 9, 0, 1}, job_count > 20);
    for (unsigned long i = 0; i < job_count / 2000; i++)
        to_the_full_list((struct sizes){MOST_BOXES, MOST_GROCERS, MOST_OFFERS, 0, i ? 0 : MOST_LISTS}, i % 2);
}

/* Lists of no tally and of one, one box, and the most grocers. */
static void few_tallies(void)
{
    for (unsigned long i = 0; i < job_count / 16 + 8; i++) {
        struct sizes sizes = {i % 2 ? 1 : 3, i % 4 ? 2 : MOST_GROCERS, 3, i / 2 % 2, i % 8 ? 0 : MOST_LISTS};
        random_job(&calling.job, sizes);
        open_finished(&calling, SPARE, 1);
        at_case("K %u, M %u, %u tallies", sizes.boxes, sizes.grocers, sizes.tallies);
        expect_edit(ask_withdraw(&calling, calling.job.sizes, sizes.tallies), 32);
        if (sizes.tallies == 1) expect_edit(ask_withdraw(&calling, calling.job.sizes, 0), 0);
        struct tally tally = some_tally();
        expect_edit(ask_add(&calling, calling.job.sizes, &tally), 0);
        expect_edit(ask_withdraw(&calling, calling.job.sizes, 0), 0);
        expect_edit(ask_withdraw(&calling, calling.job.sizes, 0), 32);
        expect_run(&calling);
        close_calling(&calling);
    }
}

/* Sample files: a tally added and withdrawn again, the writer gives the file. */

static size_t read_sample(const char *name, uint8_t file[MOST_FILE])
{
    char path[300];
    snprintf(path, sizeof path, "tests/settle/files/%s", name);
    FILE *from = fopen(path, "rb");
    if (!from) return 0;
    size_t length = fread(file, 1, MOST_FILE, from);
    fclose(from);
    return length;
}

/* Where the list is full, its last tally is withdrawn and added again. */
static void edit_sample(const uint8_t *file, size_t length)
{
    uint16_t tallies = calling.job.sizes.tallies;
    bool full = tallies == MOST_TALLIES;
    open_finished(&calling, 0, !full);
    struct edit add = {true, full ? calling.job.tally[tallies - 1] : some_tally(), 0};
    struct edit withdraw = {.adds = false, .place = full ? (uint16_t)(tallies - 1) : tallies};
    if (!full) add.added.bag = 0;
    expect_edit(edit_alone(&calling, full ? &withdraw : &add), 0);
    expect_edit(edit_alone(&calling, full ? &add : &withdraw), 0);
    expect(ask_write(&calling, calling.job.sizes) == length, "the writer gives another length");
    expect(memcmp(calling.lending.table[OUT].words, file, length) == 0, "the writer gives another file");
    close_calling(&calling);
}

/* Where few random jobs are tried, files with many tallies are left out. */
static void sample_files(void)
{
    static uint8_t file[MOST_FILE];
    unsigned tried = 0;
    DIR *files = opendir("tests/settle/files");
    if (!expect(files, "no sample files: to be run in the main folder")) return;
    for (const struct dirent *entry; (entry = readdir(files));) {
        size_t length = strstr(entry->d_name, ".job") ? read_sample(entry->d_name, file) : 0;
        if (length == 0 || read_file(file, length, &calling.job) != 0) continue;
        if (job_count <= 200 && calling.job.sizes.tallies >= 100) continue;
        at_case("%s", entry->d_name);
        edit_sample(file, length);
        tried++;
    }
    closedir(files);
    expect(tried >= 10, "only %u sample files are tried", tried);
}

void check_edits(void)
{
    run_group("late: random jobs, one edit after the other", random_edits);
    run_group("late: edited jobs written, read and run again", read_and_run_again);
    run_group("late: no other grocer's amount", other_grocers);
    run_group("late: tallies added and withdrawn again", added_and_withdrawn);
    run_group("late: no tally, one tally, one box, the most grocers", few_tallies);
    run_group("late: 998 tallies to 1,000 and back", full_lists);
    run_group("late: sample files with a tally added and withdrawn", sample_files);
}
