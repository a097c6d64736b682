/* A model of the trial that shares no code with the library: rounds on the machine of model.h. */
#ifndef TRIAL_MODEL_H
#define TRIAL_MODEL_H

#include "model.h"

/* Rounds, the idle rounds of each box, and the steps taken, one after the other. */
struct trial {
    size_t rounds, steps;
    uint16_t idle[MOST_BOXES];
    struct step taken[MOST_STEPS];
};

/* 20, 21, 9, 20 on the packed tables or 33 on the lent tables, else 0. */
uint16_t trial_refusal(struct sizes sizes, const struct table tables[ALL_TABLES]);

/* The trial from a fresh state by the first six words of the list. */
void try_floor(struct machine *machine, const struct job *job, struct table preferences, struct trial *trial);

/* Writes what an accepted trial leaves: the state, idle rounds and places. */
void write_trial(const struct machine *machine, const struct trial *trial, const struct table tables[ALL_TABLES]);

#endif
