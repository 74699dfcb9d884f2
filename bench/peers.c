/* Compile with -DLAPACK and -DARB, or -DARB=3 where Arb is a part of Flint 3, for those that are installed. */
#include "peers.h"

#include <string.h>

#ifdef LAPACK

const int has_lapack = 1;

/* Of Fortran: the upper triangle, column by column */
void dpotrf_(const char *triangle, const int *n, double *a, const int *rows, int *info);

static double doubles[HB_MAX_ORDER + 1][PROBLEMS][MAX_ENTRIES];

static void take_doubles(const struct problem *problem, int64_t n)
{
    for (int64_t at = 0; at < n * n; at++)
        doubles[n][problem->place][at] = (double)problem->low[at];
}

int64_t lapack_cholesky(int64_t n, const struct problem *problem)
{
    double a[MAX_ENTRIES];
    int order = (int)n, info;
    memcpy(a, doubles[n][problem->place], (size_t)(n * n) * sizeof *a);
    dpotrf_("U", &order, a, &order, &info);
    return info == 0 ? 0 : -1;
}

#else

const int has_lapack = 0;

static void take_doubles(const struct problem *problem, int64_t n)
{
    (void)problem;
    (void)n;
}

int64_t lapack_cholesky(int64_t n, const struct problem *problem)
{
    (void)n;
    (void)problem;
    return -1;
}

#endif

#ifdef ARB

#if ARB == 3
#include <flint/arb_mat.h>
#else
#include <arb_mat.h>
#endif

#define PRECISION 64

const int has_arb = 1;

static arb_mat_t balls[HB_MAX_ORDER + 1][PROBLEMS];
static arb_mat_t ball_factors[HB_MAX_ORDER + 1];
static int ready;

static void make_balls(void)
{
    for (int64_t n = 1; n <= HB_MAX_ORDER; n++) {
        arb_mat_init(ball_factors[n], n, n);
        for (int place = 0; place < PROBLEMS; place++)
            arb_mat_init(balls[n][place], n, n);
    }
    ready = 1;
}

static void take_balls(const struct problem *problem, int64_t n)
{
    if (!ready)
        make_balls();
    for (int64_t i = 0; i < n; i++)
        for (int64_t j = 0; j < n; j++)
            arb_set_si(arb_mat_entry(balls[n][problem->place], i, j), problem->low[i * n + j]);
}

int64_t arb_cholesky(int64_t n, const struct problem *problem)
{
    return arb_mat_cho(ball_factors[n], balls[n][problem->place], PRECISION) ? 0 : -1;
}

#else

const int has_arb = 0;

static void take_balls(const struct problem *problem, int64_t n)
{
    (void)problem;
    (void)n;
}

int64_t arb_cholesky(int64_t n, const struct problem *problem)
{
    (void)n;
    (void)problem;
    return -1;
}

#endif

void take_kind(enum kind kind)
{
    for (int64_t n = 1; n <= HB_MAX_ORDER; n++) {
        for (int place = 0; place < PROBLEMS; place++) {
            take_doubles(problem_of(kind, n, place), n);
            take_balls(problem_of(kind, n, place), n);
        }
    }
}
