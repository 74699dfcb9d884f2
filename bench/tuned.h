/*
 * The library's acts in C that is written for speed, with the same answers and the same buffers: the arguments are those of include/hankboulder.h. It uses
 * whole numbers alone and no floating point, as the library does. Numbers are read where they lie, and the processor stores the low byte first. One code
 * serves all orders. Tables are mended as they are read for the checks, and copied only where an act reads them a second time.
 */
#ifndef TUNED_H
#define TUNED_H

#include <stddef.h>
#include <stdint.h>

/*
 * Checks 3 to 5 and factoring of the mended tables, for a good n, over numbers: 0 where it ends, -1 where it stops, or the refusal. Entry
 * (i,j), i <= j, is left at 8 i + j.
 */
int64_t tuned_factor(int64_t n, const int64_t *low, const int64_t *high, int64_t *factor);

int64_t tuned_test_factor(int64_t n, const uint8_t *low, size_t low_len, const uint8_t *high, size_t high_len, const uint8_t *factor,
                          size_t factor_len, uint8_t *over, size_t over_len);

int64_t tuned_test_vector(int64_t n, const uint8_t *low, size_t low_len, const uint8_t *high, size_t high_len, const uint8_t *vector,
                          size_t vector_len);

/* What the rows of the factor's residual have over is worked out from the remainders of the factoring: the residual itself is not. */
int64_t tuned_judge(int64_t n, const uint8_t *low, size_t low_len, const uint8_t *high, size_t high_len, uint8_t *factor, size_t factor_len,
                    uint8_t *vector, size_t vector_len, uint8_t *over, size_t over_len);

int64_t tuned_box(int64_t n, const uint8_t *low, size_t low_len, const uint8_t *high, size_t high_len, const uint8_t *linear_low,
                  size_t linear_low_len, const uint8_t *linear_high, size_t linear_high_len, int64_t limit, const uint8_t *centre,
                  size_t centre_len, uint8_t *sides, size_t sides_len);

/*
 * The bound comes down from the least diagonal entry: with a threshold taken off the diagonal, the search of the judge finds the first
 * vector that shows as little, and its quotient gives the next threshold, as long as one is found.
 */
int64_t tuned_stiffness(int64_t n, const uint8_t *low, size_t low_len, const uint8_t *high, size_t high_len, uint8_t *step, size_t step_len,
                        uint8_t *bound, size_t bound_len, uint8_t *vector, size_t vector_len);

/*
 * Each problem is mended, checked and added in one pass over its entries, each pair once, from one copy of the sums to another: so what was
 * there before is at hand where a sum leaves its range. Which check fails is found out where one does.
 */
int64_t tuned_pool(int64_t n, uint8_t *low, size_t low_len, uint8_t *high, size_t high_len, uint8_t *linear_low, size_t linear_low_len,
                   uint8_t *linear_high, size_t linear_high_len, uint8_t *running_limit, size_t running_limit_len, const uint8_t *orders,
                   size_t orders_len, const uint8_t *lows, size_t lows_len, const uint8_t *highs, size_t highs_len,
                   const uint8_t *linear_lows, size_t linear_lows_len, const uint8_t *linear_highs, size_t linear_highs_len,
                   const uint8_t *limits, size_t limits_len);

int64_t tuned_write_summary(int64_t n, const uint8_t *low, size_t low_len, const uint8_t *high, size_t high_len, const uint8_t *linear_low,
                            size_t linear_low_len, const uint8_t *linear_high, size_t linear_high_len, int64_t limit, const uint8_t *centre,
                            size_t centre_len, uint8_t *file, size_t file_len);

int64_t tuned_read_summary(const uint8_t *file, size_t file_len, uint8_t *order, size_t order_len, uint8_t *low, size_t low_len, uint8_t *high,
                           size_t high_len, uint8_t *linear_low, size_t linear_low_len, uint8_t *linear_high, size_t linear_high_len,
                           uint8_t *limit, size_t limit_len, uint8_t *centre, size_t centre_len);

#endif
