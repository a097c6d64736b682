#define _POSIX_C_SOURCE 200809L
#include "rounds.h"
#include <stdlib.h>
#include <time.h>

/* The processor's time for this program, so that other programs on the machine do not count. */
static double now(void)
{
    struct timespec t;
    clock_gettime(CLOCK_PROCESS_CPUTIME_ID, &t);
    return (double)t.tv_sec * 1e9 + (double)t.tv_nsec;
}

static double timed(const struct calls *c, const struct work *w, struct buffers *b)
{
    copy_words(b, &w->start, width_of(w));
    double start = now();
    call(c, w, b);
    return now() - start;
}

static int ascending(const void *a, const void *b)
{
    double x = *(const double *)a, y = *(const double *)b;
    return (x > y) - (x < y);
}

double median(double *t, unsigned n)
{
    qsort(t, n, sizeof *t, ascending);
    return t[n / 2];
}

/* The time that looking at the clock takes. */
static double clock_time(void)
{
    double t[101];
    for (unsigned i = 0; i < 101; i++) {
        double start = now();
        t[i] = now() - start;
    }
    return median(t, 101);
}

unsigned rounds(const struct side *sides, unsigned n, struct buffers room[2], double t[][ROUNDS])
{
    double clock = clock_time();
    unsigned r = 0;
    for (unsigned warm = 0; warm < JOBS; warm++)
        for (unsigned s = 0; s < n; s++)
            timed(sides[s].calls, &sides[s].works[warm], &room[(warm + s) % 2]);
    for (double end = now() + 1e9; r < ROUNDS && (r < LEAST || now() < end); r++)
        for (unsigned i = 0; i < n; i++) {
            unsigned s = r / (2 * JOBS) % 2 ? n - 1 - i : i;
            t[s][r] = timed(sides[s].calls, &sides[s].works[r % JOBS], &room[(r / JOBS + s) % 2]) - clock;
        }
    return r;
}

double median_ratio(const double *above, const double *below, unsigned n)
{
    static double t[ROUNDS];
    for (unsigned i = 0; i < n; i++)
        t[i] = above[i] / below[i];
    return median(t, n);
}
