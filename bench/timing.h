/* Calls timed by turns, the best of many rounds, and cells of a table. All is timed in several passes, so that no row has its whole time while something else runs. */
#ifndef TIMING_H
#define TIMING_H
#include <stdio.h>
#include <stdlib.h>
#include <time.h>

enum { PASSES = 10, ROUNDS = 100, FEWEST = 10, SAMPLE_NS = 20000, ROW_NS = 100000000, CALLS = 6, ROWS = 160 };

typedef void (*call)(void);

static double kept[ROWS][CALLS];
static int pass, at;

static double now(void)
{
    struct timespec t;
    clock_gettime(CLOCK_MONOTONIC, &t);
    return t.tv_sec * 1e9 + t.tv_nsec;
}

static void fail(const char *what)
{
    printf("the answers differ: %s\n", what);
    exit(1);
}

/* The best time of each call so far, taken by turns; 0 for a call that isn't there. Slow ones have fewer rounds. */
static const double *best_of(const call *calls, int count)
{
    if (at == ROWS)
        fail("more rows than there is room for");
    double *best = kept[at++], turn = 0;
    int often[CALLS];
    for (int k = 0; k < count; k++) {
        if (!calls[k])
            continue;
        calls[k]();
        double a = now();
        calls[k]();
        double t = now() - a;
        often[k] = t < 1 ? SAMPLE_NS : t > SAMPLE_NS ? 1 : (int)(SAMPLE_NS / t) + 1;
        turn += t * often[k];
    }
    int rounds = turn * ROUNDS < ROW_NS ? ROUNDS : turn * FEWEST > ROW_NS ? FEWEST : (int)(ROW_NS / turn);
    for (int round = 0; round < rounds; round++)
        for (int k = 0; k < count; k++) {
            if (!calls[k])
                continue;
            double a = now();
            for (int i = 0; i < often[k]; i++)
                calls[k]();
            double t = (now() - a) / often[k];
            if (best[k] == 0 || t < best[k])
                best[k] = t;
        }
    return best;
}

/* What the whole takes beside a part of it. */
static inline double beside(double whole, double part)
{
    return whole > part ? whole - part : 0;
}

static void cell(double ns)
{
    if (ns > 0)
        printf("%10.*f", ns < 100, ns);
    else
        printf("%10s", "-");
}

static void ratio(double a, double b)
{
    if (a > 0 && b > 0)
        printf("%10.2f", a / b);
    else
        printf("%10s", "-");
}

/* Nanoseconds a base. */
static inline void each_cell(double ns)
{
    if (ns > 0)
        printf("%10.3f", ns);
    else
        printf("%10s", "-");
}
#endif
