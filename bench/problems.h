/* The problems that the acts are timed and compared on: the same in every run. */
#ifndef PROBLEMS_H
#define PROBLEMS_H

#include "../include/hankboulder.h"

#define PROBLEMS 64
#define MAX_ENTRIES (HB_MAX_ORDER * HB_MAX_ORDER)
#define FILE_ROOM 4100
#define POOLS 4
#define POOL_ROOM (HB_GREATEST_POOL + 1)

/* Running sums, and the problems that are pooled into them, in the library's lists: how many, and one more has room */
struct pool {
    int64_t low[MAX_ENTRIES];
    int64_t high[MAX_ENTRIES];
    int64_t linear_low[HB_MAX_ORDER];
    int64_t linear_high[HB_MAX_ORDER];
    int64_t running_limit;
    size_t count;
    int64_t orders[POOL_ROOM];
    int64_t lows[POOL_ROOM * MAX_ENTRIES];
    int64_t highs[POOL_ROOM * MAX_ENTRIES];
    int64_t linear_lows[POOL_ROOM * HB_MAX_ORDER];
    int64_t linear_highs[POOL_ROOM * HB_MAX_ORDER];
    int64_t limits[POOL_ROOM];
};

/*
 * The place among the problems of its kind and order; whether the halves of its tables are apart; bounds; a factor and a vector that are
 * offered for them; an ellipsoid; a sample, and an allowance; a summary file, and how many bytes of it there are; a pool. Where sums are
 * asked for they have the bounds and the linear terms, and the limit for a running limit; those of a pool are its own. The processor stores
 * the low byte first, so that tables of int64_t are the library's bytes.
 */
struct problem {
    int place;
    int apart;
    int64_t low[MAX_ENTRIES];
    int64_t high[MAX_ENTRIES];
    int64_t factor[MAX_ENTRIES];
    int64_t vector[HB_MAX_ORDER];
    int64_t linear_low[HB_MAX_ORDER];
    int64_t linear_high[HB_MAX_ORDER];
    int64_t limit;
    int64_t centre[HB_MAX_ORDER];
    hb_sample sample;
    int64_t allowance;
    uint8_t file[FILE_ROOM];
    size_t file_size;
    const struct pool *pool;
};

/*
 * By the judge's answer. Definite ones have bounds up to 2 apart and ends of the linear terms up to 100 apart; their factor is accepted, but
 * for one in eight; a box is given. Of those that are not definite, three in four have a tried vector, anywhere in the list, and one in four
 * is made for a solved one. Undecided ones are thin, and B'B for a whole-number B that is not singular: x'Mx >= 1 for all whole x but 0, so
 * that all vectors are looked at. There is none of order 1. The next two kinds are thin: the low tables of the definite ones, and those of
 * the ones that are not, which are singular. Lopsided ones are the definite ones with the upper and the lower half of each table rounded
 * apart: of each pair one low is less, and one high more, by up to 2, in the tables and in the file. Mended, they are the definite ones.
 * Those of order 1 have no pair. Late ones are undecided ones whose factoring stops in the last column: on the bus they take most ticks.
 *
 * A pool has 64 problems, and is taken. The pools of the lopsided ones are those of the definite ones, the halves of all tables rounded
 * apart, and leave the sums in their ranges; those of the problems that are not definite halve the sums again and again.
 */
enum kind { DEFINITE, NOT_DEFINITE, UNDECIDED, THIN, SINGULAR, LOPSIDED, LATE, KINDS };

/* Draws the problems of each kind and order. It comes first. */
void draw_problems(void);

/* One of the PROBLEMS drawn */
const struct problem *problem_of(enum kind kind, int64_t n, int place);

/*
 * A problem of order n to compare answers on: entries at and beyond the edges of their ranges, refused ones, flat, far and empty ones among
 * them. Its pool, which lasts until the next is drawn, has any count of problems, refused ones and ones that find no room among them.
 */
void draw_any(int64_t n, struct problem *problem);

#endif
