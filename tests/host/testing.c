#include "testing.h"

#include <stdio.h>
#include <stdlib.h>
#include <string.h>

#include "jobs.h"
#include "lending.h"

unsigned long job_count = 2000;

static int usage(void)
{
    fputs("test [--seed N] [--count N] [--exact] [--stop] [--only TEXT]\n", stderr);
    return 2;
}

int run_tests(int argc, char **argv, void (*groups)(void))
{
    uint64_t seed = 20260101;
    for (int i = 1; i < argc; i++) {
        if (strcmp(argv[i], "--exact") == 0)
            lend_exactly = true;
        else if (strcmp(argv[i], "--stop") == 0)
            stop_at_first = true;
        else if (i + 1 < argc && strcmp(argv[i], "--seed") == 0)
            seed = strtoull(argv[++i], NULL, 10);
        else if (i + 1 < argc && strcmp(argv[i], "--count") == 0)
            job_count = strtoul(argv[++i], NULL, 10);
        else if (i + 1 < argc && strcmp(argv[i], "--only") == 0)
            only_groups = argv[++i];
        else
            return usage();
    }
    printf("seed %llu, count %lu%s\n", (unsigned long long)seed, job_count, lend_exactly ? ", exact buffers" : "");
    seed_random(seed);
    groups();
    run_kept();
    return close_checks();
}
