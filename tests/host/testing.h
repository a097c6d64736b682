/* A program of tests: NAME [--seed N] [--count N] [--exact] [--stop] [--only TEXT]. */
#ifndef TESTING_H
#define TESTING_H

/* How many random jobs a group tries; the others go by it. */
extern unsigned long job_count;

/* Runs these groups as the words of the command line ask; the exit status. */
int run_tests(int argc, char **argv, void (*groups)(void));

#endif
