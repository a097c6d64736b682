/* The groups of checks of tests/calls. */
#ifndef CALL_GROUPS_H
#define CALL_GROUPS_H

#include "testing.h"

/* Runs all groups of one file. */
void check_writer(void);
void check_messages(void);
void check_books(void);
void check_desk(void);
void check_late(void);
void check_edits(void);
void check_trials(void);
void check_store(void);
void check_forecast(void);

#endif
