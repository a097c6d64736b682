/* The forecast's two calls, each asked of the library and of the model, and every bit of all that they leave compared.
 */
#include <float.h>
#include <math.h>
#include <stdlib.h>
#include <string.h>

#include "call_groups.h"
#include "entries.h"
#include "forecast_model.h"
#include "jobs.h"
#include "lending.h"

/* A forecast's tables and their twins, which have what should stand there. Around the words of each are guards. */
enum { FORECAST_GUARD = 64 };

struct forecasting {
    struct forecast_sizes sizes;
    struct lent_words table[FORECAST_TABLES], twin[FORECAST_TABLES];
    size_t lend[FORECAST_TABLES]; /* the words of each that the next call is lent */
};

static size_t bytes_in(const struct forecasting *f, unsigned name)
{
    return f->table[name].length * forecast_width(name);
}
static unsigned char *block(struct lent_words table) { return (unsigned char *)table.words - FORECAST_GUARD; }

/* Tables of just these lengths, with any words: NaN of every payload among them. */
static void open_words(struct forecasting *f, const size_t lengths[FORECAST_TABLES])
{
    for (unsigned name = 0; name < FORECAST_TABLES; name++) {
        f->lend[name] = f->table[name].length = f->twin[name].length = lengths[name];
        size_t size = bytes_in(f, name) + 2 * FORECAST_GUARD;
        unsigned char *words = malloc(size), *twin = malloc(size);
        if (!words || !twin) abort();
        for (size_t i = 0; i < size; i++) twin[i] = words[i] = (unsigned char)random_word();
        f->table[name].words = words + FORECAST_GUARD;
        f->twin[name].words = twin + FORECAST_GUARD;
    }
}

static void close_words(struct forecasting *f)
{
    for (unsigned name = 0; name < FORECAST_TABLES; name++) {
        free(block(f->table[name]));
        free(block(f->twin[name]));
    }
}

static void put_number(struct forecasting *f, enum forecast_table name, size_t place, double x)
{
    ((double *)f->table[name].words)[place] = ((double *)f->twin[name].words)[place] = x;
}

static void put_int(struct forecasting *f, enum forecast_table name, size_t place, uint32_t x)
{
    if (forecast_width(name) == 2)
        ((uint16_t *)f->table[name].words)[place] = ((uint16_t *)f->twin[name].words)[place] = (uint16_t)x;
    else
        ((uint32_t *)f->table[name].words)[place] = ((uint32_t *)f->twin[name].words)[place] = x;
}

static double number_of(const struct forecasting *f, enum forecast_table name, size_t place)
{
    return ((const double *)f->table[name].words)[place];
}
static uint16_t int_of(const struct forecasting *f, enum forecast_table name, size_t place)
{
    return ((const uint16_t *)f->table[name].words)[place];
}

/* Asking */

static void compare_words(struct forecasting *f)
{
    for (unsigned name = 0; name < FORECAST_TABLES; name++) {
        size_t size = bytes_in(f, name) + 2 * FORECAST_GUARD;
        if (!expect(memcmp(block(f->table[name]), block(f->twin[name]), size) == 0, "%s differs", forecast_text(name)))
            memcpy(block(f->table[name]), block(f->twin[name]), size);
    }
}

#define AS_LENT(type, name) (type *)lent[name].words, lent[name].length
#define FORECAST_LENT                                                                                                  \
    sizes.boxes, sizes.grocers, sizes.offers, sizes.lines, AS_LENT(const uint16_t, F_OFFER_OWNER),                     \
        AS_LENT(const uint16_t, F_GROCER_OWNER), AS_LENT(const uint16_t, F_LINE_GROCER),                               \
        AS_LENT(const uint16_t, F_LINE_OFFER), AS_LENT(const uint16_t, F_LINE_BOX),                                    \
        AS_LENT(const double, F_LINE_RATE), AS_LENT(const double, F_LINE_VALUE), AS_LENT(double, F_KNOWN),             \
        AS_LENT(double, F_VALUE_TRANSIT), AS_LENT(double, F_PART), AS_LENT(double, F_PART_TRANSIT),                    \
        AS_LENT(double, F_HELD), AS_LENT(double, F_FORECAST), AS_LENT(uint16_t, F_DONE), AS_LENT(uint32_t, F_SENT)

/* The words as a call is lent them: in place, or for a memory checker in memory of just that size. */
static void lend_words(const struct forecasting *f, struct lent_words lent[])
{
    for (unsigned name = 0; name < FORECAST_TABLES; name++) {
        size_t bytes = f->lend[name] * forecast_width(name);
        lent[name].length = f->lend[name];
        lent[name].words = lend_exactly ? malloc(bytes ? bytes : 1) : f->table[name].words;
        if (lend_exactly) memcpy(lent[name].words, f->table[name].words, bytes);
    }
}

static void take_back(struct forecasting *f, struct lent_words lent[])
{
    for (unsigned name = 0; lend_exactly && name < FORECAST_TABLES; name++) {
        memcpy(f->table[name].words, lent[name].words, f->lend[name] * forecast_width(name));
        free(lent[name].words);
    }
}

/* One call, asked of both; a kind above all others asks for a fresh state. */
enum { FRESH = 65535 };

static uint16_t ask_sized(struct forecasting *f, struct forecast_sizes sizes, struct forecast_request r)
{
    struct lent_words twin[FORECAST_TABLES], lent[FORECAST_TABLES];
    bool fresh = r.kind == FRESH;
    for (unsigned name = 0; name < FORECAST_TABLES; name++)
        twin[name] = (struct lent_words){f->lend[name], f->twin[name].words};
    uint16_t due = fresh ? model_fresh(sizes, twin) : model_forecast(sizes, twin, r);
    lend_words(f, lent);
    uint16_t answer =
        fresh ? entries_forecast_fresh(FORECAST_LENT) : entries_forecast_step(FORECAST_LENT, r.kind, r.first, r.second);
    take_back(f, lent);
    note_answer(fresh ? FORECAST_FRESH : FORECAST_STEP, answer);
    expect(answer == due, "the forecast answered %u, should be %u (kind %u, boxes %u and %u)", answer, due, r.kind,
           r.first, r.second);
    compare_words(f);
    return answer;
}

static uint16_t ask(struct forecasting *f, uint16_t kind, uint16_t first, uint16_t second)
{
    return ask_sized(f, f->sizes, (struct forecast_request){kind, first, second});
}

static uint16_t ask_fresh(struct forecasting *f) { return ask(f, FRESH, 0, 0); }

static void due_answer(struct forecasting *f, struct forecast_request r, uint16_t due)
{
    uint16_t answer = ask(f, r.kind, r.first, r.second);
    expect(answer == due, "answered %u, the case says %u", answer, due);
}

/* Forecasts to try */

/* A double within ±1,000,000: tenths, whole numbers, any bits, ends, zeros of both signs, the least of all. */
static double some_number(void)
{
    static const double ends[] = {1e6, -1e6, 0.0, -0.0, 1.0, -1.0, DBL_MIN, 4.9406564584124654e-324, 0.1, 0.2, 0.3};
    double x;
    switch (below(6)) {
    case 0: return ends[below(sizeof ends / sizeof *ends)];
    case 1: return (double)between(-1000, 1000) / 10;
    case 2: return (double)between(-1000000, 1000000);
    case 3: return (double)between(-9007199254740991, 9007199254740991) / 9007199254740991.0 * 1e6;
    case 4: return (double)between(-1000000, 1000000) * 0x1p-30;
    default: break;
    }
    do {
        uint64_t bits = random_word();
        memcpy(&x, &bits, sizeof x);
    } while (!(x >= -1e6 && x <= 1e6));
    return x;
}

/* The next double away from 0. */
static double beyond(double x)
{
    uint64_t bits;
    memcpy(&bits, &x, sizeof x);
    bits++;
    memcpy(&x, &bits, sizeof x);
    return x;
}

/* A double that is no value: beyond an end by the least, infinite, or a NaN. */
static double no_number(double most)
{
    switch (below(5)) {
    case 0: return beyond(most);
    case 1: return beyond(-most);
    case 2: return INFINITY;
    case 3: return -INFINITY;
    default: return NAN;
    }
}

/* Tables for these sizes with spare words behind. Where the lines are clustered, most sums have several terms. */
static void open_forecast(struct forecasting *f, struct forecast_sizes sizes, uint32_t spare)
{
    size_t lengths[FORECAST_TABLES];
    for (unsigned name = 0; name < FORECAST_TABLES; name++)
        lengths[name] = (size_t)forecast_needs(name, sizes) + below(spare + 1);
    f->sizes = sizes;
    open_words(f, lengths);
    double value[500];
    uint16_t few = one_in(2) && sizes.grocers > 2 ? 2 : sizes.grocers;
    for (size_t o = 0; o < sizes.offers; o++) {
        put_int(f, F_OFFER_OWNER, o, below(sizes.boxes));
        value[o] = some_number();
    }
    for (size_t g = 0; g < sizes.grocers; g++) put_int(f, F_GROCER_OWNER, g, below(sizes.boxes));
    for (size_t i = 0; i < sizes.lines; i++) {
        uint16_t offer = (uint16_t)below(sizes.offers);
        put_int(f, F_LINE_GROCER, i, below(few));
        put_int(f, F_LINE_OFFER, i, offer);
        put_int(f, F_LINE_BOX, i, below(sizes.boxes));
        put_number(f, F_LINE_RATE, i, some_number());
        put_number(f, F_LINE_VALUE, i, value[offer]);
    }
}

static struct forecast_sizes some_sizes(uint16_t boxes, uint16_t grocers, uint16_t offers, uint16_t lines)
{
    return (struct forecast_sizes){(uint16_t)(1 + below(boxes)), (uint16_t)(1 + below(grocers)),
                                   (uint16_t)(1 + below(offers)), (uint16_t)below(lines + 1u)};
}

/* The forecast of a grocer straight from the lines, box by box. */
static double serial_forecast(const struct forecasting *f, size_t g)
{
    double sum = 0.0;
    for (size_t b = 0; b < f->sizes.boxes; b++) {
        double part = 0.0;
        bool any = false;
        for (size_t i = 0; i < f->sizes.lines; i++) {
            if (int_of(f, F_LINE_BOX, i) != b || int_of(f, F_LINE_GROCER, i) != g) continue;
            double product = number_of(f, F_LINE_RATE, i) * number_of(f, F_LINE_VALUE, i);
            part = part + product;
            any = true;
        }
        if (any) sum = sum + part;
    }
    return sum;
}

static size_t steps_in(const struct forecasting *f)
{
    size_t steps = 2 * (size_t)f->sizes.boxes;
    for (size_t a = 0; a < f->sizes.boxes; a++)
        for (size_t b = 0; b < f->sizes.boxes; b++)
            steps += 2 * (size_t)(sends_values(f->sizes, f->table, a, b) + sends_parts(f->sizes, f->table, a, b));
    return steps;
}

/* Requests for any step in any order until no more is accepted: every step is done once, and the forecasts are those of
   the lines, bit for bit. */
static size_t any_order(struct forecasting *f)
{
    size_t accepted = 0, quiet = 0, places = (size_t)FORECAST_KINDS * f->sizes.boxes * f->sizes.boxes;
    while (quiet < 3 * places && accepted <= places) {
        uint16_t kind = (uint16_t)(1 + below(FORECAST_KINDS));
        uint16_t a = (uint16_t)below(f->sizes.boxes);
        uint16_t b = kind % 3 == 0 && !one_in(20) ? a : (uint16_t)below(f->sizes.boxes);
        quiet = ask(f, kind, a, b) ? quiet + 1 : 0;
        accepted += quiet == 0;
    }
    for (bool more = true; more && accepted <= places;) {
        more = false;
        for (size_t place = 0; place < places; place++) {
            size_t k = f->sizes.boxes;
            uint16_t kind = (uint16_t)(1 + place / (k * k));
            if (ask(f, kind, (uint16_t)(place / k % k), (uint16_t)(place % k))) continue;
            accepted++;
            more = true;
        }
    }
    return accepted;
}

static void expect_end(struct forecasting *f, size_t accepted)
{
    expect(accepted == steps_in(f), "%zu steps were accepted, the forecast has %zu", accepted, steps_in(f));
    for (size_t g = 0; g < f->sizes.grocers; g++) {
        double due = serial_forecast(f, g), is = number_of(f, F_FORECAST, g);
        expect(memcmp(&due, &is, sizeof due) == 0, "forecast[%zu] is %a, the lines say %a", g, is, due);
    }
}

static void evening(struct forecast_sizes sizes)
{
    struct forecasting f;
    open_forecast(&f, sizes, 3);
    for (unsigned order = 0; order < 2; order++) {
        expect(ask_fresh(&f) == 0, "a fresh state was refused");
        expect_end(&f, any_order(&f));
    }
    close_words(&f);
}

static void orders(void)
{
    for (unsigned long i = 0; i < 1 + job_count / 40; i++) {
        at_case("evening %lu", i);
        evening(some_sizes(4, 4, 4, 14));
    }
    for (unsigned long i = 0; i < 1 + job_count / 1000; i++) {
        at_case("evening of more boxes %lu", i);
        evening((struct forecast_sizes){(uint16_t)(9 + below(8)), 9, 12, 60});
    }
}

/* One offer of value 1.0, of box 0, and one grocer; three lines of these rates and boxes. */
static void open_three(struct forecasting *f, uint16_t owner, const double rates[3], const uint16_t boxes[3])
{
    open_forecast(f, (struct forecast_sizes){3, 1, 1, 3}, 0);
    put_int(f, F_OFFER_OWNER, 0, 0);
    put_int(f, F_GROCER_OWNER, 0, owner);
    for (uint16_t i = 0; i < 3; i++) {
        put_int(f, F_LINE_BOX, i, boxes[i]);
        put_number(f, F_LINE_RATE, i, rates[i]);
        put_number(f, F_LINE_VALUE, i, 1.0);
    }
    ask_fresh(f);
}

static void expect_bits(const struct forecasting *f, uint64_t due)
{
    expect(memcmp(f->table[F_FORECAST].words, &due, sizeof due) == 0, "the sum is %a", number_of(f, F_FORECAST, 0));
}

/* 0.1, 0.2 and 0.3: the last bit of their sum goes by the order. */
static void last_bits(void)
{
    static const double up[] = {0.1, 0.2, 0.3}, down[] = {0.3, 0.2, 0.1};
    static const uint16_t one_box[] = {1, 1, 1}, by_box[] = {0, 1, 2}, from_last[] = {2, 1, 0};
    static const struct {
        uint16_t owner;
        const double *rates;
        const uint16_t *boxes;
        uint64_t due;
    } cases[] = {{0, up, one_box, 0x3fe3333333333334},   {0, down, one_box, 0x3fe3333333333333},
                 {2, up, by_box, 0x3fe3333333333334},    {2, down, by_box, 0x3fe3333333333333},
                 {2, up, from_last, 0x3fe3333333333333}, {0, down, from_last, 0x3fe3333333333334}};
    for (size_t i = 0; i < sizeof cases / sizeof *cases; i++) {
        struct forecasting f;
        at_case("three lines, case %zu", i);
        open_three(&f, cases[i].owner, cases[i].rates, cases[i].boxes);
        expect_end(&f, any_order(&f));
        expect_bits(&f, cases[i].due);
        close_words(&f);
    }
}

/* The sums that naive orders make differ: by arrival 0.6 or 0.6000000000000001, and fused not 0. */
static void fixed_order(void)
{
    static const struct forecast_request first_one[] = {{1, 0, 1}, {1, 0, 2}, {2, 1, 0}, {2, 2, 0}, {3, 0, 0},
                                                        {3, 1, 1}, {3, 2, 2}, {4, 1, 0}, {5, 0, 1}, {4, 2, 0},
                                                        {5, 0, 2}, {6, 0, 0}, {6, 1, 1}, {6, 2, 2}},
                                         first_two[] = {{1, 0, 2}, {2, 2, 0}, {3, 2, 2}, {4, 2, 0}, {5, 0, 2},
                                                        {6, 2, 2}, {1, 0, 1}, {2, 1, 0}, {3, 1, 1}, {4, 1, 0},
                                                        {5, 0, 1}, {3, 0, 0}, {6, 0, 0}, {6, 1, 1}};
    static const double rates[] = {0.3, 0.1, 0.2};
    static const uint16_t boxes[] = {0, 1, 2};
    struct forecasting f;
    volatile double one = 1.0, half = 0x1p-53; /* half of what the last bit of 1.0 stands for */
    expect(one + half == 1.0 && -one - half == -1.0 && one + 3 * half == 1.0 + 0x1p-51,
           "doubles are not rounded to the nearest");
    open_three(&f, 0, rates, boxes);
    for (unsigned order = 0; order < 2; order++) {
        ask_fresh(&f);
        for (size_t i = 0; i < 14; i++) due_answer(&f, order ? first_two[i] : first_one[i], 0);
        expect_bits(&f, 0x3fe3333333333334);
    }
    close_words(&f);
    open_forecast(&f, (struct forecast_sizes){1, 1, 2, 2}, 0);
    static const double two_rates[] = {-1.0, 1 + 0x1p-30}, two_values[] = {1.0, 1 - 0x1p-30};
    for (uint16_t i = 0; i < 2; i++) {
        put_int(&f, F_LINE_OFFER, i, i);
        put_number(&f, F_LINE_RATE, i, two_rates[i]);
        put_number(&f, F_LINE_VALUE, i, two_values[i]);
    }
    ask_fresh(&f);
    due_answer(&f, (struct forecast_request){3, 0, 0}, 0);
    due_answer(&f, (struct forecast_request){6, 0, 0}, 0);
    expect(number_of(&f, F_FORECAST, 0) == 0 && !signbit(number_of(&f, F_FORECAST, 0)), "the sum was fused");
    close_words(&f);
}

/* Refusals */

/* A forecast of two boxes in which each sends values and part sums to the other, some of its steps done. */
static void open_midway(struct forecasting *f)
{
    open_forecast(f, (struct forecast_sizes){2, 2, 2, 4}, 2);
    for (uint16_t i = 0; i < 4; i++) {
        put_int(f, F_LINE_BOX, i, i / 2);
        put_int(f, F_LINE_OFFER, i, i % 2);
        put_int(f, F_LINE_GROCER, i, i % 2);
        put_number(f, F_LINE_RATE, i, 0.5);
        put_number(f, F_LINE_VALUE, i, i % 2 ? -0.0 : 3.0);
        put_int(f, i < 2 ? F_OFFER_OWNER : F_GROCER_OWNER, i % 2, i % 2);
    }
    ask_fresh(f);
    due_answer(f, (struct forecast_request){1, 0, 1}, 0);
    due_answer(f, (struct forecast_request){2, 1, 0}, 0);
}

static void make_bad(struct forecasting *f)
{
    size_t line = below(f->sizes.lines);
    switch (below(3)) {
    case 0: put_number(f, F_LINE_RATE, line, no_number(1e6)); break;
    case 1: put_number(f, F_LINE_VALUE, line, no_number(1e6)); break;
    default: put_number(f, F_LINE_VALUE, 3, 0.0); break; /* line 1, of the same offer, has -0.0 */
    }
}

/* A word of a table just out of its range. */
static void leave_range(struct forecasting *f, enum forecast_table name)
{
    size_t place = below((uint32_t)forecast_needs(name, f->sizes));
    if (name == F_LINE_RATE || name == F_LINE_VALUE)
        put_number(f, name, place, no_number(1e6));
    else if (is_double(name))
        put_number(f, name, place, no_number(name <= F_VALUE_TRANSIT ? 1e6 : 1e15));
    else
        put_int(f, name, name == F_SENT ? 0 : place, name == F_SENT ? 1000001 : 2 + below(9));
}

static void order_of_refusals(void)
{
    static const struct forecast_request wrong[] = {{0, 0, 0}, {7, 0, 0}, {9, 99, 99}};
    for (unsigned name = 0; name < FORECAST_TABLES; name++)
        for (unsigned bad = 0; bad < 2; bad++) {
            at_case("%s%s", forecast_text(name), bad ? " and 34" : "");
            bool line = name == F_LINE_RATE || name == F_LINE_VALUE;
            struct forecasting f;
            open_midway(&f);
            if (bad) make_bad(&f);
            f.lend[name] = (size_t)forecast_needs(name, f.sizes) - 1;
            due_answer(&f, wrong[below(3)], 20);
            f.lend[name]++;
            due_answer(&f, wrong[below(3)], bad ? 34 : 22);
            due_answer(&f, (struct forecast_request){3, 1, 1}, bad ? 34 : 0);
            leave_range(&f, name);
            due_answer(&f, wrong[below(3)], line ? 34 : 21);
            uint16_t fresh = ask_fresh(&f);
            expect(fresh == (line || (bad && name >= F_KNOWN) ? 34 : name < F_KNOWN ? 21 : 0), "fresh: %u", fresh);
            close_words(&f);
        }
}

static void conditions(void)
{
    static const struct {
        struct forecast_request request;
        uint16_t due;
    } cases[] = {{{0, 9, 9}, 22}, {{7, 0, 0}, 22}, {{3, 0, 1}, 23}, {{6, 1, 0}, 23}, {{1, 0, 0}, 23}, {{5, 1, 1}, 23},
                 {{1, 2, 0}, 23}, {{4, 0, 2}, 23}, {{1, 0, 1}, 25}, {{2, 1, 0}, 25}, {{2, 0, 1}, 26}, {{3, 0, 0}, 26},
                 {{4, 0, 1}, 26}, {{5, 1, 0}, 26}, {{6, 0, 0}, 26}, {{6, 1, 1}, 26}, {{3, 1, 1}, 0},  {{3, 1, 1}, 25},
                 {{4, 1, 0}, 0},  {{6, 1, 1}, 26}, {{1, 1, 0}, 0},  {{2, 0, 1}, 0},  {{3, 0, 0}, 0},  {{6, 0, 0}, 26},
                 {{5, 0, 1}, 0},  {{6, 0, 0}, 0},  {{4, 0, 1}, 0},  {{5, 1, 0}, 0},  {{6, 1, 1}, 0},  {{6, 1, 1}, 25}};
    struct forecasting f;
    open_midway(&f);
    for (size_t i = 0; i < sizeof cases / sizeof *cases; i++) {
        at_case("request %zu", i);
        due_answer(&f, cases[i].request, cases[i].due);
    }
    close_words(&f);
    at_case("without lines");
    open_forecast(&f, (struct forecast_sizes){2, 3, 2, 0}, 1);
    expect(ask_fresh(&f) == 0, "no lines were refused");
    for (size_t g = 0; g < 3; g++) put_number(&f, F_FORECAST, g, 7.0);
    due_answer(&f, (struct forecast_request){1, 0, 1}, 24);
    due_answer(&f, (struct forecast_request){5, 0, 1}, 24);
    expect_end(&f, any_order(&f));
    close_words(&f);
}

/* The late 21: words sent that would be too many, and part sums in range whose sum is not. */
static void late_refusals(void)
{
    struct forecasting f;
    for (unsigned over = 0; over < 2; over++) {
        at_case("words sent, %u too many", over);
        open_midway(&f);
        put_int(&f, F_SENT, 0, 999999 + over);
        due_answer(&f, (struct forecast_request){1, 1, 0}, over ? 21 : 0);
        close_words(&f);
    }
    for (unsigned over = 0; over < 2; over++) {
        at_case("sums%s", over ? " out of range" : "");
        open_midway(&f);
        any_order(&f);
        size_t places = (size_t)FORECAST_KINDS * 4;
        put_int(&f, F_DONE, places - 4, 0);
        put_number(&f, F_PART, 0, 1e15);
        put_number(&f, F_HELD, 2, over ? 0.125 : -0.125);
        due_answer(&f, (struct forecast_request){6, 0, 0}, over ? 21 : 0);
        put_number(&f, F_HELD, 2, 0x1p-60);
        due_answer(&f, (struct forecast_request){6, 0, 0}, over ? 0 : 25);
        close_words(&f);
    }
}

/* Any state at all: words in range and now and then one that is not, any marks, any request. */
static void wild_states(void)
{
    struct forecasting known;
    at_case("a value known that is not its lines', and a part sum that was there");
    open_midway(&known);
    put_number(&known, F_KNOWN, 2, 5.0);
    put_number(&known, F_PART, 2, 7.0);
    due_answer(&known, (struct forecast_request){3, 1, 1}, 0);
    expect(number_of(&known, F_PART, 2) == 2.5, "the part sum is %a", number_of(&known, F_PART, 2));
    close_words(&known);
    for (unsigned long i = 0; i < job_count; i++) {
        at_case("wild state %lu", i);
        struct forecasting f;
        open_forecast(&f, some_sizes(3, 3, 3, 8), 2);
        for (unsigned name = F_KNOWN; name < F_DONE; name++)
            for (size_t place = 0; place < forecast_needs(name, f.sizes); place++)
                put_number(&f, name, place, name <= F_VALUE_TRANSIT || one_in(2) ? some_number() : some_number() * 1e9);
        for (size_t place = 0; place < forecast_needs(F_DONE, f.sizes); place++) put_int(&f, F_DONE, place, below(2));
        put_int(&f, F_SENT, 0, one_in(4) ? 999998 + below(3) : below(1000));
        if (one_in(8) && f.sizes.lines) leave_range(&f, below(FORECAST_TABLES));
        if (one_in(8)) f.lend[below(FORECAST_TABLES)] = below(3);
        for (unsigned n = 0; n < 6; n++)
            ask(&f, (uint16_t)below(8), (uint16_t)below(f.sizes.boxes + 1u), (uint16_t)below(f.sizes.boxes + 1u));
        ask_fresh(&f);
        close_words(&f);
    }
}

/* Sizes that need not be in range, on tables of whatever lengths. */
static void wild_sizes(void)
{
    for (unsigned long i = 0; i < job_count / 4; i++) {
        at_case("wild sizes %lu", i);
        struct forecasting f;
        open_forecast(&f, some_sizes(3, 3, 3, 8), 2);
        struct forecast_sizes sizes = f.sizes;
        if (one_in(2)) sizes.boxes = wild_number(sizes.boxes);
        if (one_in(2)) sizes.grocers = wild_number(sizes.grocers);
        if (one_in(2)) sizes.offers = wild_number(sizes.offers);
        if (one_in(2)) sizes.lines = wild_number(sizes.lines);
        ask_sized(&f, sizes, (struct forecast_request){FRESH, 0, 0});
        ask_sized(&f, sizes, (struct forecast_request){(uint16_t)below(8), wild_number(1), wild_number(1)});
        close_words(&f);
    }
}

/* The most of everything; 1,000 lines of one offer and grocer, and one line more. */
static void largest(void)
{
    struct forecasting f;
    const struct forecast_sizes sizes = {16, 255, 500, MOST_LINES};
    open_forecast(&f, sizes, 2);
    expect(ask_fresh(&f) == 0, "the largest forecast was refused");
    for (uint16_t b = 1; b < 16; b++) ask(&f, 1, 0, b);
    ask(&f, 3, 0, 0);
    close_words(&f);
    open_forecast(&f, (struct forecast_sizes){1, 1, 1, MOST_LINES}, 0);
    for (uint16_t i = 0; i < MOST_LINES; i++) {
        put_number(&f, F_LINE_RATE, i, 1e6);
        put_number(&f, F_LINE_VALUE, i, 1e6);
    }
    ask_fresh(&f);
    due_answer(&f, (struct forecast_request){3, 0, 0}, 0);
    due_answer(&f, (struct forecast_request){6, 0, 0}, 0);
    expect(number_of(&f, F_FORECAST, 0) == 1e15, "1,000 lines of 10^12 come to %a", number_of(&f, F_FORECAST, 0));
    close_words(&f);
    open_forecast(&f, (struct forecast_sizes){1, 1, 1, MOST_LINES + 1}, 0);
    expect(ask_fresh(&f) == 21, "1,001 lines were taken");
    due_answer(&f, (struct forecast_request){3, 0, 0}, 21);
    close_words(&f);
}

void check_forecast(void)
{
    run_group("forecast: every order ends in the bits of the lines", orders);
    run_group("forecast: sums in the fixed order", fixed_order);
    run_group("forecast: the last bit goes by the order of lines and boxes", last_bits);
    run_group("forecast: 20, 21 and 34 in order, each table short or out of range", order_of_refusals);
    run_group("forecast: 22 to 26 through an evening", conditions);
    run_group("forecast: the late 21", late_refusals);
    run_group("forecast: any state", wild_states);
    run_group("forecast: any sizes", wild_sizes);
    run_group("forecast: the most lines, and one more", largest);
}
