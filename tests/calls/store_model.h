/* A model of the store of thirteen cycles that shares no code with the library: rows are told by the numbers of their
   cycles. */
#ifndef STORE_MODEL_H
#define STORE_MODEL_H

#include "tables.h"

enum { CYCLES = 13, LAST_CYCLE = 65535 };
#define MOST_HELD INT64_C(100000000000000)
#define MOST_KEPT INT64_C(1300000000000000)

/* 20, 21, 35, 36 or the late 21 on the lent tables, else 0; and the tables with the cycle stored. */
uint16_t store_refusal(uint16_t grocers, uint16_t cycle, const struct table tables[ALL_TABLES]);
void write_store(uint16_t grocers, uint16_t cycle, const struct table tables[ALL_TABLES]);

#endif
