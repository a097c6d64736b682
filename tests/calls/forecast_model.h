/* The forecast's two calls, told in IEEE doubles: what they answer and what they leave in the lent words. */
#ifndef FORECAST_MODEL_H
#define FORECAST_MODEL_H

#include <stdbool.h>
#include <stddef.h>
#include <stdint.h>

enum { MOST_LINES = 1000, FORECAST_KINDS = 6 };

/* K, M, N and the number of lines, as given. */
struct forecast_sizes {
    uint16_t boxes, grocers, offers, lines;
};

enum forecast_table {
    F_OFFER_OWNER,
    F_GROCER_OWNER,
    F_LINE_GROCER,
    F_LINE_OFFER,
    F_LINE_BOX,
    F_LINE_RATE,
    F_LINE_VALUE,
    F_KNOWN, /* those from here on are the state's */
    F_VALUE_TRANSIT,
    F_PART,
    F_PART_TRANSIT,
    F_HELD,
    F_FORECAST,
    F_DONE,
    F_SENT,
    FORECAST_TABLES
};

/* Lent words: how many, and where they are. */
struct lent_words {
    size_t length;
    void *words;
};

struct forecast_request {
    uint16_t kind, first, second;
};

const char *forecast_text(enum forecast_table name);

/* The bytes of a word, and whether it is a double. */
size_t forecast_width(enum forecast_table name);
bool is_double(enum forecast_table name);

/* The words that a table needs for these sizes, which may be out of range. */
uint64_t forecast_needs(enum forecast_table name, struct forecast_sizes sizes);

/* Whether box b has a line of an offer, or for a grocer. */
bool has_offer_line(struct forecast_sizes sizes, const struct lent_words tables[], size_t box, size_t offer);
bool has_grocer_line(struct forecast_sizes sizes, const struct lent_words tables[], size_t box, size_t grocer);

/* Whether box a sends values, or part sums, to box b. */
bool sends_values(struct forecast_sizes sizes, const struct lent_words tables[], size_t a, size_t b);
bool sends_parts(struct forecast_sizes sizes, const struct lent_words tables[], size_t a, size_t b);

/* The calls: 0 and the words changed, or the number of the refusal and no word changed. */
uint16_t model_fresh(struct forecast_sizes sizes, const struct lent_words tables[]);
uint16_t model_forecast(struct forecast_sizes sizes, const struct lent_words tables[], struct forecast_request request);

#endif
