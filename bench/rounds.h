/* Time: rounds of calls, and the medians of their times. */
#ifndef ROUNDS_H
#define ROUNDS_H
#include "jobs.h"

/* Rounds go through several jobs, so that the machine cannot learn the branches of one by heart. */
enum { JOBS = 8, ROUNDS = 2000, LEAST = 48 };

/* What is called in each round, and its JOBS works. */
struct side {
    const struct calls *calls;
    const struct work *works;
};

/* Rounds of one call of each side: t[s][r] becomes the nanoseconds of side s in round r. How many rounds there were.
   Sides have either room equally often, and go in either order. */
unsigned rounds(const struct side *sides, unsigned n, struct buffers room[2], double t[][ROUNDS]);

/* The median of so many times; they are sorted. */
double median(double *t, unsigned n);

/* The median of the rounds' ratios, so that a machine that slows down or speeds up counts for both sides. */
double median_ratio(const double *above, const double *below, unsigned n);

#endif
