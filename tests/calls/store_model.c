#include "store_model.h"

/* The number of the cycle that a row has, of a store whose next number is given: below 0 where there is none. */
static int32_t cycle_of_row(int64_t next, int32_t row) { return (int32_t)next - 1 - row; }

static int64_t held_in(struct table held, uint16_t grocers, int32_t row, size_t g)
{
    return word_at(held, (size_t)row * grocers + g);
}

/* What is held of a cycle, 0 where no row is of it. */
static int64_t held_of(const struct table tables[], uint16_t grocers, int32_t cycle, size_t g)
{
    int64_t next = word_at(tables[NEXT_CYCLE], 0);
    for (int32_t row = 0; row < CYCLES; row++)
        if (cycle_of_row(next, row) == cycle) return held_in(tables[HELD_CENTS], grocers, row, g);
    return 0;
}

static int64_t sum_with(const struct table tables[], uint16_t grocers, uint16_t cycle, size_t g)
{
    int64_t sum = word_at(tables[KEPT_SUMS], g) + word_at(tables[GIVEN_CENTS], g);
    for (int32_t row = 0; row < CYCLES; row++)
        if (cycle_of_row(word_at(tables[NEXT_CYCLE], 0), row) <= cycle - CYCLES)
            sum -= held_in(tables[HELD_CENTS], grocers, row, g);
    return sum;
}

static bool is_within(int64_t word, int64_t most) { return -most <= word && word <= most; }

uint16_t store_refusal(uint16_t grocers, uint16_t cycle, const struct table tables[ALL_TABLES])
{
    struct sizes sizes = {1, grocers, 1, 0, 0};
    for (unsigned name = STORE_TABLES; name < ALL_TABLES; name++)
        if (is_short(tables[name], sizes)) return 20;
    if (!sizes_in_range(sizes)) return 21;
    for (unsigned name = STORE_TABLES; name < ALL_TABLES; name++)
        if (!words_in_range(tables[name], sizes)) return 21;
    if (cycle < word_at(tables[NEXT_CYCLE], 0)) return 35;
    for (size_t g = 0; g < grocers; g++)
        if (!is_within(word_at(tables[GIVEN_CENTS], g), MOST_HELD)) return 36;
    for (size_t g = 0; g < grocers; g++)
        if (!is_within(sum_with(tables, grocers, cycle, g), MOST_KEPT)) return 21;
    return 0;
}

void write_store(uint16_t grocers, uint16_t cycle, const struct table tables[ALL_TABLES])
{
    int64_t rows[CYCLES];
    for (size_t g = 0; g < grocers; g++) {
        int64_t sum = sum_with(tables, grocers, cycle, g);
        for (int32_t row = 0; row < CYCLES; row++)
            rows[row] = row ? held_of(tables, grocers, cycle - row, g) : word_at(tables[GIVEN_CENTS], g);
        for (int32_t row = 0; row < CYCLES; row++) put_word(tables[HELD_CENTS], (size_t)row * grocers + g, rows[row]);
        put_word(tables[KEPT_SUMS], g, sum);
    }
    put_word(tables[NEXT_CYCLE], 0, (int64_t)cycle + 1);
}
