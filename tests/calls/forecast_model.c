/* Sums are those of IEEE 754 doubles, rounded to the nearest after each product and each sum: tests/c_tests.sh compiles
   with -ffp-contract=off, so that none is fused, and a compiler that is asked for faster ones is refused here. */
#include "forecast_model.h"

#include <float.h>
#include <string.h>

#if FLT_EVAL_METHOD != 0 || defined __FAST_MATH__
#error "sums must be rounded to doubles, one by one"
#endif

static const struct {
    const char *text;
    size_t width;
    bool is_double;
} about[FORECAST_TABLES] = {
    [F_OFFER_OWNER] = {"offer_owner", 2, false},
    [F_GROCER_OWNER] = {"grocer_owner", 2, false},
    [F_LINE_GROCER] = {"line_grocer", 2, false},
    [F_LINE_OFFER] = {"line_offer", 2, false},
    [F_LINE_BOX] = {"line_box", 2, false},
    [F_LINE_RATE] = {"line_rate", 8, true},
    [F_LINE_VALUE] = {"line_value", 8, true},
    [F_KNOWN] = {"known", 8, true},
    [F_VALUE_TRANSIT] = {"value_transit", 8, true},
    [F_PART] = {"part", 8, true},
    [F_PART_TRANSIT] = {"part_transit", 8, true},
    [F_HELD] = {"held", 8, true},
    [F_FORECAST] = {"forecast", 8, true},
    [F_DONE] = {"done", 2, false},
    [F_SENT] = {"sent", 4, false},
};

const char *forecast_text(enum forecast_table name) { return about[name].text; }
size_t forecast_width(enum forecast_table name) { return about[name].width; }
bool is_double(enum forecast_table name) { return about[name].is_double; }

uint64_t forecast_needs(enum forecast_table name, struct forecast_sizes sizes)
{
    uint64_t k = sizes.boxes, m = sizes.grocers, n = sizes.offers;
    switch (name) {
    case F_OFFER_OWNER: return n;
    case F_GROCER_OWNER:
    case F_FORECAST: return m;
    case F_KNOWN:
    case F_VALUE_TRANSIT: return k * n;
    case F_PART:
    case F_PART_TRANSIT:
    case F_HELD: return k * m;
    case F_DONE: return FORECAST_KINDS * k * k;
    case F_SENT: return 1;
    default: return sizes.lines;
    }
}

/* Words */

static uint16_t word(const struct lent_words tables[], enum forecast_table name, size_t place)
{
    return ((const uint16_t *)tables[name].words)[place];
}
static double number(const struct lent_words tables[], enum forecast_table name, size_t place)
{
    return ((const double *)tables[name].words)[place];
}
static void put(const struct lent_words tables[], enum forecast_table name, size_t place, double x)
{
    ((double *)tables[name].words)[place] = x;
}
static bool same_bits(double x, double y) { return memcmp(&x, &y, sizeof x) == 0; }
static bool is_within(double x, double most) { return x >= -most && x <= most; }

/* Messages */

bool has_offer_line(struct forecast_sizes sizes, const struct lent_words tables[], size_t box, size_t offer)
{
    for (size_t i = 0; i < sizes.lines; i++)
        if (word(tables, F_LINE_BOX, i) == box && word(tables, F_LINE_OFFER, i) == offer) return true;
    return false;
}

bool has_grocer_line(struct forecast_sizes sizes, const struct lent_words tables[], size_t box, size_t grocer)
{
    for (size_t i = 0; i < sizes.lines; i++)
        if (word(tables, F_LINE_BOX, i) == box && word(tables, F_LINE_GROCER, i) == grocer) return true;
    return false;
}

static bool is_value_word(struct forecast_sizes sizes, const struct lent_words tables[], size_t a, size_t b, size_t o)
{
    return a != b && word(tables, F_OFFER_OWNER, o) == a && has_offer_line(sizes, tables, b, o);
}

static bool is_part_word(struct forecast_sizes sizes, const struct lent_words tables[], size_t a, size_t b, size_t g)
{
    return a != b && word(tables, F_GROCER_OWNER, g) == b && has_grocer_line(sizes, tables, a, g);
}

static uint32_t value_words(struct forecast_sizes sizes, const struct lent_words tables[], size_t a, size_t b)
{
    uint32_t words = 0;
    for (size_t o = 0; o < sizes.offers; o++) words += is_value_word(sizes, tables, a, b, o);
    return words;
}

static uint32_t part_words(struct forecast_sizes sizes, const struct lent_words tables[], size_t a, size_t b)
{
    uint32_t words = 0;
    for (size_t g = 0; g < sizes.grocers; g++) words += is_part_word(sizes, tables, a, b, g);
    return words;
}

bool sends_values(struct forecast_sizes sizes, const struct lent_words tables[], size_t a, size_t b)
{
    return value_words(sizes, tables, a, b) > 0;
}

bool sends_parts(struct forecast_sizes sizes, const struct lent_words tables[], size_t a, size_t b)
{
    return part_words(sizes, tables, a, b) > 0;
}

/* 20, 21 and 34 */

static bool is_lent_short(struct forecast_sizes sizes, const struct lent_words tables[])
{
    for (unsigned name = 0; name < FORECAST_TABLES; name++)
        if (tables[name].length < forecast_needs(name, sizes)) return true;
    return false;
}

static bool are_below(const struct lent_words tables[], enum forecast_table name, size_t words, uint32_t bound)
{
    for (size_t i = 0; i < words; i++)
        if (word(tables, name, i) >= bound) return false;
    return true;
}

static bool is_forecast_in_range(struct forecast_sizes sizes, const struct lent_words tables[])
{
    if (sizes.boxes < 1 || sizes.boxes > 16 || sizes.grocers < 1 || sizes.grocers > 255) return false;
    if (sizes.offers < 1 || sizes.offers > 500 || sizes.lines > MOST_LINES) return false;
    return are_below(tables, F_OFFER_OWNER, sizes.offers, sizes.boxes) &&
           are_below(tables, F_GROCER_OWNER, sizes.grocers, sizes.boxes) &&
           are_below(tables, F_LINE_GROCER, sizes.lines, sizes.grocers) &&
           are_below(tables, F_LINE_OFFER, sizes.lines, sizes.offers) &&
           are_below(tables, F_LINE_BOX, sizes.lines, sizes.boxes);
}

static bool is_state_in_range(struct forecast_sizes sizes, const struct lent_words tables[])
{
    for (unsigned name = F_KNOWN; name <= F_FORECAST; name++) {
        double most = name <= F_VALUE_TRANSIT ? 1e6 : 1e15;
        for (size_t i = 0; i < forecast_needs(name, sizes); i++)
            if (!is_within(number(tables, name, i), most)) return false;
    }
    return are_below(tables, F_DONE, forecast_needs(F_DONE, sizes), 2) &&
           *(const uint32_t *)tables[F_SENT].words <= 1000000;
}

static bool is_line_bad(struct forecast_sizes sizes, const struct lent_words tables[])
{
    for (size_t i = 0; i < sizes.lines; i++) {
        double value = number(tables, F_LINE_VALUE, i);
        if (!is_within(number(tables, F_LINE_RATE, i), 1e6) || !is_within(value, 1e6)) return true;
        for (size_t h = 0; h < i; h++)
            if (word(tables, F_LINE_OFFER, h) == word(tables, F_LINE_OFFER, i) &&
                !same_bits(number(tables, F_LINE_VALUE, h), value))
                return true;
    }
    return false;
}

/* A fresh state */

uint16_t model_fresh(struct forecast_sizes sizes, const struct lent_words tables[])
{
    if (is_lent_short(sizes, tables)) return 20;
    if (!is_forecast_in_range(sizes, tables)) return 21;
    if (is_line_bad(sizes, tables)) return 34;
    for (unsigned name = F_KNOWN; name < FORECAST_TABLES; name++)
        memset(tables[name].words, 0, forecast_needs(name, sizes) * about[name].width);
    for (size_t i = 0; i < sizes.lines; i++) {
        size_t o = word(tables, F_LINE_OFFER, i);
        size_t owner = word(tables, F_OFFER_OWNER, o);
        put(tables, F_KNOWN, owner * sizes.offers + o, number(tables, F_LINE_VALUE, i));
    }
    return 0;
}

/* 22 to 26 */

static size_t mark_place(struct forecast_sizes sizes, uint16_t kind, size_t a, size_t b)
{
    return ((kind - 1) * (size_t)sizes.boxes + a) * sizes.boxes + b;
}

static bool is_done(struct forecast_sizes sizes, const struct lent_words tables[], uint16_t kind, size_t a, size_t b)
{
    return word(tables, F_DONE, mark_place(sizes, kind, a, b)) == 1;
}

static bool exists(struct forecast_sizes sizes, const struct lent_words tables[], uint16_t kind, size_t a, size_t b)
{
    switch (kind) {
    case 1: return sends_values(sizes, tables, a, b);
    case 2: return sends_values(sizes, tables, b, a);
    case 4: return sends_parts(sizes, tables, a, b);
    case 5: return sends_parts(sizes, tables, b, a);
    default: return a == b;
    }
}

static bool are_all_done(struct forecast_sizes sizes, const struct lent_words tables[], uint16_t kind, size_t a)
{
    for (size_t c = 0; c < sizes.boxes; c++)
        if (exists(sizes, tables, kind, a, c) && !is_done(sizes, tables, kind, a, c)) return false;
    return true;
}

static bool is_ready(struct forecast_sizes sizes, const struct lent_words tables[], uint16_t kind, size_t a, size_t b)
{
    switch (kind) {
    case 2: return is_done(sizes, tables, 1, b, a);
    case 3: return are_all_done(sizes, tables, 2, a);
    case 4: return is_done(sizes, tables, 3, a, a);
    case 5: return is_done(sizes, tables, 4, b, a);
    case 6: return is_done(sizes, tables, 3, a, a) && are_all_done(sizes, tables, 5, a);
    default: return true;
    }
}

static uint16_t request_refusal(struct forecast_sizes sizes, const struct lent_words tables[],
                                struct forecast_request request)
{
    uint16_t kind = request.kind, a = request.first, b = request.second;
    if (kind < 1 || kind > FORECAST_KINDS) return 22;
    if (a >= sizes.boxes || b >= sizes.boxes || (a == b) != (kind == 3 || kind == 6)) return 23;
    if (!exists(sizes, tables, kind, a, b)) return 24;
    if (is_done(sizes, tables, kind, a, b)) return 25;
    if (!is_ready(sizes, tables, kind, a, b)) return 26;
    return 0;
}

/* What the steps do */

static void send_values(struct forecast_sizes sizes, const struct lent_words tables[], size_t a, size_t b)
{
    for (size_t o = 0; o < sizes.offers; o++)
        if (is_value_word(sizes, tables, a, b, o))
            put(tables, F_VALUE_TRANSIT, b * sizes.offers + o, number(tables, F_KNOWN, a * sizes.offers + o));
    *(uint32_t *)tables[F_SENT].words += value_words(sizes, tables, a, b);
}

static void take(const struct lent_words tables[], enum forecast_table from, enum forecast_table to, size_t place)
{
    put(tables, to, place, number(tables, from, place));
    put(tables, from, place, 0.0);
}

static void receive_values(struct forecast_sizes sizes, const struct lent_words tables[], size_t a, size_t b)
{
    for (size_t o = 0; o < sizes.offers; o++)
        if (is_value_word(sizes, tables, b, a, o)) take(tables, F_VALUE_TRANSIT, F_KNOWN, a * sizes.offers + o);
}

static void add_up(struct forecast_sizes sizes, const struct lent_words tables[], size_t a)
{
    for (size_t g = 0; g < sizes.grocers; g++) {
        double sum = 0.0;
        for (size_t i = 0; i < sizes.lines; i++) {
            if (word(tables, F_LINE_BOX, i) != a || word(tables, F_LINE_GROCER, i) != g) continue;
            double value = number(tables, F_KNOWN, a * sizes.offers + word(tables, F_LINE_OFFER, i));
            double product = number(tables, F_LINE_RATE, i) * value;
            sum = sum + product;
        }
        put(tables, F_PART, a * sizes.grocers + g, sum);
    }
}

static void send_parts(struct forecast_sizes sizes, const struct lent_words tables[], size_t a, size_t b)
{
    for (size_t g = 0; g < sizes.grocers; g++)
        if (is_part_word(sizes, tables, a, b, g)) take(tables, F_PART, F_PART_TRANSIT, a * sizes.grocers + g);
    *(uint32_t *)tables[F_SENT].words += part_words(sizes, tables, a, b);
}

static void receive_parts(struct forecast_sizes sizes, const struct lent_words tables[], size_t a, size_t b)
{
    for (size_t g = 0; g < sizes.grocers; g++)
        if (is_part_word(sizes, tables, b, a, g)) take(tables, F_PART_TRANSIT, F_HELD, b * sizes.grocers + g);
}

static void sum_own(struct forecast_sizes sizes, const struct lent_words tables[], size_t a)
{
    for (size_t g = 0; g < sizes.grocers; g++) {
        if (word(tables, F_GROCER_OWNER, g) != a) continue;
        double sum = 0.0;
        for (size_t c = 0; c < sizes.boxes; c++) {
            if (!has_grocer_line(sizes, tables, c, g)) continue;
            enum forecast_table name = c == a ? F_PART : F_HELD;
            sum = sum + number(tables, name, c * sizes.grocers + g);
            put(tables, name, c * sizes.grocers + g, 0.0);
        }
        put(tables, F_FORECAST, g, sum);
    }
}

static void do_step(struct forecast_sizes sizes, const struct lent_words tables[], struct forecast_request request)
{
    size_t a = request.first, b = request.second;
    switch (request.kind) {
    case 1: send_values(sizes, tables, a, b); break;
    case 2: receive_values(sizes, tables, a, b); break;
    case 3: add_up(sizes, tables, a); break;
    case 4: send_parts(sizes, tables, a, b); break;
    case 5: receive_parts(sizes, tables, a, b); break;
    default: sum_own(sizes, tables, a); break;
    }
    ((uint16_t *)tables[F_DONE].words)[mark_place(sizes, request.kind, a, b)] = 1;
}

/* A step is done on the words themselves; where one has left its range, the words from before are put back. */
uint16_t model_forecast(struct forecast_sizes sizes, const struct lent_words tables[], struct forecast_request request)
{
    static unsigned char before[FORECAST_TABLES][16 * 500 * sizeof(double)];
    if (is_lent_short(sizes, tables)) return 20;
    if (!is_forecast_in_range(sizes, tables) || !is_state_in_range(sizes, tables)) return 21;
    if (is_line_bad(sizes, tables)) return 34;
    uint16_t refusal = request_refusal(sizes, tables, request);
    if (refusal) return refusal;
    for (unsigned name = F_KNOWN; name < FORECAST_TABLES; name++)
        memcpy(before[name], tables[name].words, forecast_needs(name, sizes) * about[name].width);
    do_step(sizes, tables, request);
    if (is_state_in_range(sizes, tables)) return 0;
    for (unsigned name = F_KNOWN; name < FORECAST_TABLES; name++)
        memcpy(tables[name].words, before[name], forecast_needs(name, sizes) * about[name].width);
    return 21;
}
