/* The groups of checks. */
#ifndef GROUPS_H
#define GROUPS_H

#include "testing.h"

/* Runs all groups of one file. */
void check_reader(void);
void check_step(void);
void check_step_tables(void);
void check_lists(void);
void check_run(void);
void check_cases(void);
void check_bags(void);
void check_early(void);
void check_packed(void);
void check_price_lists(void);
void check_box_prices(void);

#endif
