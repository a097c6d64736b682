/* The build of an earlier revision beside the present one, in one run: first that both give the same, reader and writer on
   good and damaged files and tables, steps and runs on their jobs, then how long each takes on the largest job.
   before               100,000 files, and the table of times
   before --agree N     N files, and no times
   bench/run makes earlier.h: the calls of the earlier build under the names earlier_read and so on, and
     EARLIER_LISTS  the price lists after the first that its calls take; 0 where they take no number of lists
     EARLIER_STEPS  1 where its steps and runs are lent the same tables as the present ones, else 0
     EARLIER_SIZES, EARLIER_FILE  the words of its `sizes`, the bytes of its longest file */
#include "earlier.h"
#include "rounds.h"
#include "works.h"
#include <stdio.h>
#include <stdlib.h>
#include <string.h>

#if EARLIER_LISTS
#define LISTS , w->lists
#else
#define LISTS
#endif

/* A call of the earlier build, with one price list where it knows no other. */
static size_t call_earlier(const struct work *w, struct buffers *b)
{
    switch (w->operation) {
    case READ: return earlier_read(READER_TABLES);
    case WRITE: return earlier_write(SIZES, w->cycle LISTS, WRITER_TABLES);
#if EARLIER_STEPS
    case STEP: return earlier_step(SIZES LISTS, STEP_TABLES, REQUEST);
    case RUN: return earlier_run(SIZES LISTS, STEP_TABLES, CHOICES);
#endif
    default: return 0;
    }
}

static const struct calls before = { .other = call_earlier };
static const struct calls present = {
    .read = settlement_read, .write = entries_write, .step = settlement_step, .run = settlement_run
};

/* ---- both give the same ---- */

/* The words of `sizes` and the bytes of a file that both builds have. */
enum {
    BOTH_SIZES = EARLIER_SIZES < SETTLEMENT_SIZES ? EARLIER_SIZES : SETTLEMENT_SIZES,
    BOTH_FILE = EARLIER_FILE < FILE_BYTES ? EARLIER_FILE : FILE_BYTES
};

/* The tables, by their place in the structs. */
struct table {
    const char *name;
    size_t entries, most, word_bytes, at, length_at;
};

static const struct table tables[] = {
#define TABLE(type, name, entries, most)                                                                              \
    { #name, entries, most, sizeof(type), offsetof(struct buffers, name), offsetof(struct lengths, name) },
    ALL_TABLES(TABLE)
#undef TABLE
};
#define TABLE(type, name, entries, most) +1
enum {
    TABLES = sizeof tables / sizeof *tables,
    TABLES_OF_FILES = 0 FILE_TABLES(TABLE), /* those of reader and writer stand in front, */
    BYTES_OF_FILES = offsetof(struct buffers, known), /* in so many bytes */
    ANSWERS = 27
};
#undef TABLE

static struct buffers room[2];
static unsigned long files, answers[OPERATIONS][ANSWERS];

/* Says what is wrong, in which file or in tables read from it, and ends. */
static void stop(const char *what, const char *wrong)
{
    printf("before: file %lu, %s: %s\n", files, what, wrong);
    exit(1);
}

static bool of_files(const struct work *w) { return w->operation == READ || w->operation == WRITE; }

/* The words that a work starts from, and whether both builds have left the same. */
static void copy_start(struct buffers *b, const struct work *w)
{
    if (of_files(w))
        memcpy(b, &w->start, BYTES_OF_FILES);
    else
        copy_words(b, &w->start, width_of(w));
}

static bool left_same(const struct work *w)
{
    return of_files(w) ? !memcmp(&room[0], &room[1], BYTES_OF_FILES) : same_words(&room[0], &room[1], width_of(w));
}

/* Tells the first word that differs, and ends. */
static void tell_word(const struct work *w, const char *what)
{
    size_t width = of_files(w) ? WIDEST : width_of(w);
    for (const struct table *t = tables; t < tables + TABLES; t++) {
        const uint8_t *a = (const uint8_t *)&room[0] + t->at, *b = (const uint8_t *)&room[1] + t->at;
        size_t size = t->word_bytes, words = t->entries * (t->most < width ? t->most : width) + MORE, k = 0;
        while (k < words && !memcmp(a + k * size, b + k * size, size))
            k++;
        if (k < words) {
            char wrong[80];
            snprintf(wrong, sizeof wrong, "the builds differ in word %zu of %s", k, t->name);
            stop(what, wrong);
        }
    }
}

/* Where the earlier reader knows no price lists, the present one has read that there is one. */
static void pass_over_lists(const char *what)
{
    if (room[1].sizes[SETTLEMENT_SIZES - 1])
        stop(what, "the present build reads several price lists");
    room[0].sizes[SETTLEMENT_SIZES - 1] = 0;
}

/* Calls both builds on the same words: answers and words must be the same. The answer; both rooms have the words. */
static size_t both(const struct work *w, const char *what)
{
    copy_start(&room[0], w);
    copy_start(&room[1], w);
    size_t a = call(&before, w, &room[0]), b = call(&present, w, &room[1]);
    if (a != b) {
        char wrong[80];
        snprintf(wrong, sizeof wrong, "the builds differ in the answer, %zu before and %zu now", a, b);
        stop(what, wrong);
    }
    if (!EARLIER_LISTS && w->operation == READ && a == 0)
        pass_over_lists(what);
    if (!left_same(w))
        tell_word(w, what);
    size_t number = w->operation == WRITE && a >= BLOCK ? 0 : a;
    if (number >= ANSWERS)
        stop(what, "both builds give an answer that there is not");
    answers[w->operation][number]++;
    return a;
}

/* The words of a table that either build asks for the largest job. */
static size_t words_asked(const struct table *t)
{
    if (t->length_at == offsetof(struct lengths, sizes))
        return BOTH_SIZES;
    return t->entries * (t->most > 1 ? EARLIER_LISTS + 1 : 1);
}

/* One of the first so many tables is lent with fewer words, down to none. */
static void lend_short(struct lengths *lent, unsigned among)
{
    const struct table *t = &tables[below(among)];
    size_t *length = (size_t *)((uint8_t *)lent + t->length_at), words = words_asked(t);
    *length = below(3) ? words - 1 : below((unsigned)words);
}

static void fill_at_random(void *words, size_t bytes)
{
    uint8_t *p = words;
    for (size_t i = 0; i < bytes; i++)
        p[i] = (uint8_t)below(256);
}

/* ---- jobs ---- */

/* A number of so many digits at most; some have nines alone, or zeros. */
static uint64_t some_number(unsigned digits)
{
    unsigned all = below(16);
    uint64_t n = 0;
    for (unsigned i = 0; i < digits; i++)
        n = n * 10 + (all == 0 ? 9 : all == 1 ? 0 : below(10));
    return n;
}

/* Codes of 1 to 10 digits: a new number for each offer, and leading zeros. */
static void give_codes(struct work *w)
{
    struct buffers *b = &w->start;
    for (unsigned o = 0; o < w->offers; o++) {
        uint64_t number;
        do
            number = some_number(1 + below(10));
        while (name_used(b, o, 0, number));
        put_code(b->offer_code + o * CODE, number, 1 + below(10));
    }
    for (unsigned i = 0; i < w->tallies; i++)
        put_code(b->tally_code + i * CODE, code_value(b->offer_code + b->tally_offer[i] * CODE), 1 + below(10));
}

/* Jobs of all sizes: small ones, any, and the longest. */
static void make_any(struct work *w, unsigned number)
{
    if (number % 32 == 0)
        make_job(w, BOXES, GROCERS, OFFERS, TALLIES);
    else if (number % 8 == 1)
        make_job(w, 1 + below(BOXES), 1 + below(GROCERS), 1 + below(OFFERS), below(TALLIES + 1));
    else
        make_job(w, 1 + below(BOXES), 1 + below(12), 1 + below(50), below(100));
    give_codes(w);
    if (number % 3)
        give_issuers(w, number % 3 == 1 ? 3 : 65536);
    if (number % 4)
        give_bags(w, number % 2, number % 4 == 2 ? 3 : 65535);
    give_lists(w, number % 5 > 1 ? below(EARLIER_LISTS + 1) : 0);
}

/* ---- files ---- */

/* A file that is edited, and the sizes of the job that it was written from. */
struct file {
    uint8_t bytes[FILE_BYTES + MORE];
    size_t len;
    unsigned offers, tallies, lists;
};

enum { RECORDS = 21, RECORD = 24, PRICES_PER_BLOCK = 126 };

static uint8_t *record(struct file *f, unsigned block, unsigned i)
{
    return f->bytes + (block + i / RECORDS) * BLOCK + 4 + i % RECORDS * RECORD;
}

static uint8_t *offer_record(struct file *f, unsigned i)
{
    return record(f, 1, i);
}

/* The first block of a list after the first. */
static unsigned list_block(const struct file *f, unsigned list)
{
    return 2 + (f->offers + RECORDS - 1) / RECORDS + list * ((f->offers + PRICES_PER_BLOCK - 1) / PRICES_PER_BLOCK);
}

static uint8_t *tally_record(struct file *f, unsigned i)
{
    return record(f, list_block(f, f->lists), i);
}

/* The price of an offer on some list. */
static uint8_t *some_price(struct file *f)
{
    unsigned o = below(f->offers), list = below(f->lists + 1);
    if (!list)
        return offer_record(f, o);
    return f->bytes + (list_block(f, list - 1) + o / PRICES_PER_BLOCK) * BLOCK + 4 + o % PRICES_PER_BLOCK * 4;
}

/* The code of some offer or tally. */
static uint8_t *some_code(struct file *f)
{
    if (f->tallies && below(2))
        return tally_record(f, below(f->tallies)) + 3;
    return offer_record(f, below(f->offers)) + 5;
}

static uint8_t *some_block(struct file *f)
{
    return f->bytes + below((unsigned)(f->len / BLOCK)) * BLOCK;
}

/* A code of the same number, with more leading zeros or fewer. */
static void recode(uint8_t *code)
{
    if (1 <= code[0] && code[0] <= 10)
        put_code(code, code_value(code) % 10000000000u, 1 + below(10));
}

static void leading_zeros(struct file *f)
{
    for (unsigned i = 0; i < 20; i++)
        recode(some_code(f));
}

static void other_fields(struct file *f)
{
    unsigned price = below(10000000);
    uint8_t *p = some_price(f);
    p[0] = (uint8_t)price, p[1] = (uint8_t)(price >> 8), p[2] = (uint8_t)(price >> 16);
    f->bytes[12] = (uint8_t)below(256), f->bytes[13] = (uint8_t)below(256);
    if (f->tallies)
        tally_record(f, below(f->tallies))[14] = (uint8_t)below(256);
}

static void any_byte(struct file *f)
{
    uint8_t *block = some_block(f);
    block[below(BLOCK - 4)] = (uint8_t)below(256);
}

static void any_record_byte(struct file *f)
{
    uint8_t *p = f->tallies && below(2) ? tally_record(f, below(f->tallies)) : offer_record(f, below(f->offers));
    p[below(RECORD)] = (uint8_t)below(256);
}

/* A byte of the field that may be just outside the digits, or inside. */
static void bad_digit(struct file *f)
{
    static const uint8_t beside[] = { 0, '0' - 1, '9' + 1, '0', '9', 0x80 | '5', 255 };
    uint8_t *code = some_code(f);
    unsigned at = below(3) ? below(code[0] ? code[0] : 1u) : below(10);
    code[1 + at % 10] = below(4) ? beside[below(sizeof beside)] : (uint8_t)below(256);
}

static void bad_digit_count(struct file *f)
{
    static const uint8_t beside[] = { 0, 1, 9, 10, 11, 12, 128, 255 };
    some_code(f)[0] = below(4) ? beside[below(sizeof beside)] : (uint8_t)below(256);
}

static void byte_behind_digits(struct file *f)
{
    uint8_t *code = some_code(f);
    if (code[0] < 10)
        code[1 + code[0] + below(10u - code[0])] = (uint8_t)(below(2) ? '0' : 1 + below(255));
}

static void shared_number(struct file *f)
{
    uint8_t *to = offer_record(f, below(f->offers));
    memcpy(to + 5, offer_record(f, below(f->offers)) + 5, CODE + 2);
    recode(to + 5);
}

static void unknown_name(struct file *f)
{
    if (!f->tallies)
        return;
    uint8_t *tally = tally_record(f, below(f->tallies));
    if (below(2))
        put_code(tally + 3, some_number(1 + below(10)), 1 + below(10));
    else
        tally[18 + below(2)] ^= (uint8_t)(1 << below(8));
}

static void bag_twice(struct file *f)
{
    if (f->tallies < 2)
        return;
    uint8_t *from = tally_record(f, below(f->tallies)), *to = tally_record(f, below(f->tallies));
    memcpy(to, from, 2);
    memcpy(to + 3, from + 3, CODE);
    memcpy(to + 18, from + 18, 6);
    recode(to + 3);
    if (!from[20] && below(4))
        from[20] = to[20] = 1;
}

static void price_too_high(struct file *f)
{
    some_price(f)[3] = (uint8_t)below(256);
}

static void header_byte(struct file *f)
{
    f->bytes[4 + below(below(2) ? 8 : 14)] = (uint8_t)below(below(2) ? 20 : 256);
}

static void block_start(struct file *f)
{
    some_block(f)[below(4)] = (uint8_t)below(below(2) ? 5 : 256);
}

static void spare_byte(struct file *f)
{
    uint8_t *p = below(2) ? offer_record(f, below(f->offers)) + 18 + below(6) : some_block(f) + 480 + below(28);
    *p = (uint8_t)below(256);
}

static void cut(struct file *f)
{
    f->len = below(2) ? below((unsigned)f->len) : below((unsigned)(f->len / BLOCK)) * (size_t)BLOCK;
}

static void lengthen(struct file *f)
{
    size_t len = f->len + (below(2) ? BLOCK : 1 + below(BLOCK));
    if (len > BOTH_FILE + MORE)
        len = BOTH_FILE + MORE;
    for (size_t i = f->len; i < len; i++)
        f->bytes[i] = f->bytes[i - BLOCK];
    f->len = len;
}

struct edit {
    const char *name;
    void (*make)(struct file *f);
};

/* The first two leave a good file good. */
static const struct edit edits[] = {
    { "other leading zeros", leading_zeros },
    { "other prices, counts and cycle", other_fields },
    { "any byte", any_byte },
    { "any byte of a record", any_record_byte },
    { "a bad digit", bad_digit },
    { "a bad digit count", bad_digit_count },
    { "a byte behind the digits", byte_behind_digits },
    { "a shared number", shared_number },
    { "an unknown name", unknown_name },
    { "a bag twice", bag_twice },
    { "a price that may be too high", price_too_high },
    { "a byte of the header", header_byte },
    { "kind, record count or number of a block", block_start },
    { "a spare byte", spare_byte },
    { "a shorter file", cut },
    { "a longer file", lengthen },
};
enum { EDITS = sizeof edits / sizeof *edits, GOOD_EDITS = 2 };

/* One edit, or two, and the sums repaired as a rule. The number of price lists stays 0 where it was a spare byte before. What
   the edit is. */
static const char *edit(struct file *f)
{
    const struct edit *e = &edits[below(3) ? below(EDITS) : below(GOOD_EDITS)];
    e->make(f);
    for (unsigned more = !below(8); more && f->len >= BLOCK; more--)
        edits[below(EDITS)].make(f);
    if (!EARLIER_LISTS)
        f->bytes[14] = 0;
    if (below(8))
        for (size_t at = 0; at + BLOCK <= f->len; at += BLOCK)
            store_sums(f->bytes + at);
    return e->name;
}

/* ---- tables of the writer ---- */

/* K, M, N and T, the cycle or the number of price lists becomes another number. */
static void wrong_size(struct work *w)
{
    switch (below(EARLIER_LISTS ? 6 : 5)) {
    case 5: w->lists = (uint16_t)(below(4) ? below(WIDEST + 1) : below(65536)); break;
    case 0: w->boxes = (uint16_t)below(20); break;
    case 1: w->grocers = (uint16_t)below(GROCERS + MORE); break;
    case 2: w->offers = (uint16_t)below(OFFERS + MORE); break;
    case 3: w->tallies = (uint16_t)below(TALLIES + MORE); break;
    default: w->cycle = (uint16_t)below(65536); break;
    }
}

/* A byte of a code: any, one beside those of digits, or the count. */
static void wrong_code(uint8_t *code)
{
    switch (below(3)) {
    case 0: code[below(CODE)] = (uint8_t)below(256); break;
    case 1: code[1 + below(10)] = (uint8_t)('0' - 1 + below(12)); break;
    default: code[0] = (uint8_t)below(13); break;
    }
}

/* Offer o has the name of another, or tally t a name or a bag of another. */
static void wrong_name(struct buffers *b, unsigned o, unsigned from, unsigned t)
{
    switch (below(3)) {
    case 0:
        memcpy(b->offer_code + o * CODE, b->offer_code + from * CODE, CODE);
        b->offer_issuer[o] = b->offer_issuer[from];
        break;
    case 1: b->tally_issuer[t]++; break;
    default:
        count_again(b, t, below(t + 1));
        b->tally_bag[t] |= 1;
        break;
    }
}

/* Some word of offer o, grocer g or tally t, in its range or just outside, or any. */
static void wrong_word(struct buffers *b, unsigned o, unsigned g, unsigned t)
{
    switch (below(7)) {
    case 0: b->price[o] = below(2) ? 9999998 + below(4) : below(4294967295u); break;
    case 1: b->offer_owner[o] = (uint16_t)below(20); break;
    case 2: b->grocer_owner[g] = (uint16_t)below(20); break;
    case 3: b->tally_count[t] = below(2) ? (int32_t)below(200004) - 100002 : (int32_t)below(4294967295u); break;
    case 4: b->tally_box[t] = (uint16_t)below(20); break;
    case 5: b->tally_offer[t] = (uint16_t)below(OFFERS + 2); break;
    default: b->tally_grocer[t] = (uint16_t)below(GROCERS + 2); break;
    }
}

/* Something in the writer's tables is changed, or one of them is lent short. */
static void wrong_table(struct work *w)
{
    struct buffers *b = &w->start;
    unsigned o = below(w->offers), t = w->tallies ? below(w->tallies) : 0;
    switch (below(8)) {
    case 0: lend_short(&w->lent, TABLES_OF_FILES); break;
    case 1: wrong_size(w); break;
    case 2: wrong_word(b, o, below(w->grocers), t); break;
    case 3:
    case 4: wrong_name(b, o, below(w->offers), t); break;
    case 5: wrong_code(b->offer_code + o * CODE); break;
    default: wrong_code(b->tally_code + t * CODE); break;
    }
}

/* The writer is lent these tables, all of them whole. */
static void lend_to_writer(struct work *w, const struct buffers *b)
{
    w->operation = WRITE;
    memcpy(&w->start, b, BYTES_OF_FILES);
    w->boxes = b->sizes[0], w->grocers = b->sizes[1], w->offers = b->sizes[2], w->tallies = b->sizes[3];
    w->cycle = b->sizes[4], w->lists = b->sizes[5];
    lend_all(&w->lent);
}

/* Both builds write what was read: the file again, and what they make of wrong tables. */
static void write_back(struct work *w, const struct file *f)
{
    static struct buffers was_read;
    memcpy(&was_read, &room[1], BYTES_OF_FILES);
    memset(was_read.file, (int)below(256), sizeof was_read.file);
    lend_to_writer(w, &was_read);
    if (both(w, "written back") != f->len || memcmp(room[1].file, f->bytes, f->len))
        stop("written back", "both builds write another file than they read");
    for (unsigned i = 0; i < 3; i++) {
        lend_to_writer(w, &was_read);
        wrong_table(w);
        both(w, "wrong tables");
    }
}

/* ---- steps and runs ---- */

static const struct agreement builds = { both, &room[1], EARLIER_LISTS };

/* A step and a run of a job with a wrong word, a wrong size, a bag counted twice or a table that is lent short. */
static void wrong_job(struct work *w)
{
    static struct work wrong;
    wrong = *w;
    unsigned t = w->tallies ? below(w->tallies) : 0, from = below(t + 1);
    switch (below(4)) {
    case 0: lend_short(&wrong.lent, TABLES); break;
    case 1: wrong_size(&wrong); break;
    case 2: wrong_word(&wrong.start, below(w->offers), below(w->grocers), t); break;
    default:
        wrong.start.tally_bag[from] |= 1;
        count_again(&wrong.start, t, from);
        wrong.start.tally_revision[t] = wrong.start.tally_revision[from];
        break;
    }
    wrong.kind = (uint16_t)(1 + below(6)), wrong.first = (uint16_t)below(w->boxes), wrong.second = (uint16_t)below(w->boxes);
    wrong.operation = STEP;
    both(&wrong, "a step of a wrong job");
    wrong.operation = RUN;
    both(&wrong, "a run of a wrong job");
}

/* From a fresh state the steps that a run with choices has picked, and other requests between them. */
static void repeat_run(struct work *w)
{
    static uint16_t picked[SETTLEMENT_MAX_STEPS];
    unsigned steps, k = w->boxes;
    w->operation = RUN;
    w->choices_len = below(TALLIES + 1);
    for (unsigned c = 0; c < w->choices_len; c++)
        w->choices[c] = (uint16_t)below(65536);
    w->lent.picked = SETTLEMENT_MAX_STEPS;
    if (both(w, "run"))
        stop("run", "both builds refuse it");
    steps = room[1].report[2];
    memcpy(picked, room[1].picked, sizeof picked);
    for (unsigned i = 0; i < steps; i++) {
        w->operation = STEP;
        w->kind = (uint16_t)(picked[i] / (k * k) + 1), w->first = (uint16_t)(picked[i] / k % k);
        w->second = (uint16_t)(picked[i] % k);
        if (both(w, "step") == 0)
            copy_words(&w->start, &room[1], width_of(w));
        if (!below(32))
            request_list(w, &builds, 8);
    }
}

static void agree_on_steps(struct work *w)
{
    if (!run_some(w, &builds))
        stop("run", "the statements are not the plain sums");
    make_fresh(w);
    wrong_job(w);
    wrong_job(w);
    repeat_run(w);
}

/* ---- all of it ---- */

/* Both builds read a file into tables that hold the old words, some of them short. */
static void read_file(struct work *w, const struct buffers *old, const struct file *f, const char *what)
{
    w->operation = READ;
    memcpy(&w->start, old, BYTES_OF_FILES);
    memcpy(w->start.file, f->bytes, sizeof f->bytes);
    w->file_len = f->len;
    lend_all(&w->lent);
    if (!below(24))
        lend_short(&w->lent, TABLES_OF_FILES);
    files++;
    if (both(w, what) == 0)
        write_back(w, f);
}

static void agree_on_files(unsigned long wanted)
{
    static struct work job, lent;
    static struct buffers old;
    static struct file good, edited;
    for (unsigned number = 0; files < wanted; number++) {
        make_any(&job, number);
        job.operation = WRITE;
        good.len = call(&present, &job, &job.start);
        memcpy(good.bytes, job.start.file, sizeof good.bytes);
        good.offers = job.offers;
        good.tallies = job.tallies;
        good.lists = job.lists;
        fill_at_random(&old, BYTES_OF_FILES);
        read_file(&lent, &old, &good, "as written");
        for (unsigned i = 0; i < 39 && files < wanted; i++) {
            edited = good;
            const char *what = edit(&edited);
            read_file(&lent, &old, &edited, what);
        }
        if (EARLIER_STEPS)
            agree_on_steps(&job);
    }
}

/* The answers that were given, and whether one that the call has is missing. */
static bool tell_answers(const char *name, const unsigned long *given, const char *due)
{
    bool all = true;
    printf("%s: %lu accepted", name, given[0]);
    for (unsigned n = 1; n < ANSWERS; n++) {
        char word[8];
        snprintf(word, sizeof word, " %u ", n);
        if (given[n] || strstr(due, word))
            printf(", %u %lu times", n, given[n]);
        all = all && (given[n] || !strstr(due, word));
    }
    putchar('\n');
    return all && given[0];
}

static void agree(unsigned long wanted)
{
    seed = 20260105;
    agree_on_files(wanted);
    printf("before and now: the same answers and words of %lu files%s\n", files, EARLIER_STEPS ? " and their jobs" : "");
    bool all = tell_answers("reader", answers[READ], " 1 2 3 4 5 6 7 8 9 20 ");
    all = tell_answers("writer", answers[WRITE], " 4 6 7 8 9 20 ") && all;
    if (EARLIER_STEPS) {
        all = tell_answers("step", answers[STEP], " 9 20 21 22 23 24 25 26 ") && all;
        all = tell_answers("run", answers[RUN], " 9 20 21 ") && all;
    }
    if (!all) {
        puts("before: some answer was not met");
        exit(1);
    }
}

/* ---- time ---- */

/* Whether both builds have this call, with these price lists. */
static bool both_have(const struct item *item)
{
    bool steps = item->operation == STEP || item->operation == RUN;
    return item->operation < RECONCILE && (EARLIER_STEPS || !steps) && item->shape.lists <= EARLIER_LISTS;
}

static void prepare_job(struct work *w, const struct item *item, unsigned number)
{
    if (!prepare(w, item, true, number, &present, &room[0]))
        stop("measured", "no step of this kind is permitted");
    size_t answer = both(w, "measured");
    if (!is_accepted(item->operation, answer))
        stop("measured", "the largest job is refused");
}

static void table(void)
{
    static struct work works[JOBS];
    static double t[2][ROUNDS];
    const struct side sides[2] = { { &before, works }, { &present, works } };
    printf("%-31s | %10s | %10s | %10s\n", "what", "before, us", "now, us", "now/before");
    for (const struct item *item = items; item < items + items_number; item++) {
        if (!both_have(item))
            continue;
        for (unsigned k = 0; k < JOBS; k++)
            prepare_job(&works[k], item, k);
        unsigned n = rounds(sides, 2, room, t);
        double ratio = median_ratio(t[1], t[0], n), a = median(t[0], n) / 1000, b = median(t[1], n) / 1000;
        printf("%-31s | %10.1f | %10.1f | %10.2f\n", item->what, a, b, ratio);
        fflush(stdout);
    }
}

int main(int argc, char **argv)
{
    unsigned long wanted = argc == 3 && !strcmp(argv[1], "--agree") ? strtoul(argv[2], NULL, 10) : 0;
    if (argc != 1 && !wanted) {
        fputs("usage: before [--agree N]\n", stderr);
        return 2;
    }
    agree(wanted ? wanted : 100000);
    if (!wanted)
        table();
    return 0;
}
