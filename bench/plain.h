/*
 * A plain C version of the rules, to time the library against. Tables are int64_t, row by row; counts are in numbers. After the checks an
 * act works on a mended copy of the tables.
 */
#ifndef PLAIN_H
#define PLAIN_H

#include "../include/hankboulder.h"

#include <stddef.h>
#include <stdint.h>

#define PLAIN_MAX_ORDER 8
#define PLAIN_BLOCK_BYTES 32
#define PLAIN_RUN_NUMBERS (3 + 3 * PLAIN_MAX_ORDER * PLAIN_MAX_ORDER)

/*
 * Factors the bounds, and writes the factor. 0 where factoring ends, -1 where it stops. It makes no check and mends nothing: the order is a
 * good one, and the tables are good and symmetric.
 */
int64_t plain_factor(int64_t n, const int64_t *low, const int64_t *high, int64_t *factor);

/* The same after checks 3 to 5 of the tables: 0, -1, or the number of the refusal. */
int64_t plain_checked_factor(int64_t n, const int64_t *low, const int64_t *high, int64_t *factor);

/* The same with roots by the processor's floating-point unit: other steps than the library's, for comparison. */
int64_t plain_floating_factor(int64_t n, const int64_t *low, const int64_t *high, int64_t *factor);

/* The factor test with its checks. 0 accepted or -1 not accepted, and what the rows have over is written; or the number of the refusal. */
int64_t plain_test_factor(int64_t n, const int64_t *low, size_t low_count, const int64_t *high, size_t high_count, const int64_t *factor,
                          size_t factor_count, int64_t *over, size_t over_count);

/* The vector test with its checks, each pair of entries worked out once. 0 yes, -1 no, or the number of the refusal. */
int64_t plain_test_vector(int64_t n, const int64_t *low, size_t low_count, const int64_t *high, size_t high_count, const int64_t *vector,
                          size_t vector_count);

/*
 * The judge with its checks: 0 definite, and the factor is written, with what the rows of its residual have over, which is worked out as in
 * the factor test; -1 not definite, and the vector is written; -2 undecided; or the number of the refusal. The tried vectors are taken one
 * by one, and each has its whole quadratic form worked out, all n * n terms.
 */
int64_t plain_judge(int64_t n, const int64_t *low, size_t low_count, const int64_t *high, size_t high_count, int64_t *factor, size_t factor_count,
                    int64_t *vector, size_t vector_count, int64_t *over, size_t over_count);

/* The same with each pair of entries worked out once in a form, so n * (n + 1) / 2 terms. */
int64_t plain_pairs_judge(int64_t n, const int64_t *low, size_t low_count, const int64_t *high, size_t high_count, int64_t *factor,
                          size_t factor_count, int64_t *vector, size_t vector_count, int64_t *over, size_t over_count);

/*
 * The box with its checks: 0, and the sides are written, low and high for each k; -1 empty; or the number of the refusal.
 * The tables are copied once; each trial sets diagonal entries of the copies and factors them whole.
 */
int64_t plain_box(int64_t n, const int64_t *low, size_t low_count, const int64_t *high, size_t high_count, const int64_t *linear_low,
                  size_t linear_low_count, const int64_t *linear_high, size_t linear_high_count, int64_t limit, const int64_t *centre,
                  size_t centre_count, int64_t *sides, size_t sides_count);

/*
 * The bracket of the stiffness with its checks: 0, and step, bound and vector are written; -1, and bound and vector are; or the number of
 * the refusal. The tried vectors are taken one by one, and each has its form worked out from scratch, row by row, each pair of entries
 * once. The step is found as that of the box.
 */
int64_t plain_stiffness(int64_t n, const int64_t *low, size_t low_count, const int64_t *high, size_t high_count, int64_t *step,
                        size_t step_count, int64_t *bound, size_t bound_count, int64_t *vector, size_t vector_count);

/*
 * Gathering with its checks, by floorf and ceilf: 0, and the sums are the mended ones with the sample, halved before it where they had no
 * room; or the number of the refusal, and they are as they were.
 */
int64_t plain_gather(hb_sample sample, int64_t n, int64_t *low, size_t low_count, int64_t *high, size_t high_count, int64_t *linear_low,
                     size_t linear_low_count, int64_t *linear_high, size_t linear_high_count, int64_t *running_limit,
                     size_t running_limit_count);

/*
 * A pool with its checks, each over the sums and all problems: 0, and the sums are the mended ones, halved where they had no room for a
 * problem, with all problems; or the number of the refusal, and they are as they were. Each problem is mended, and added to a copy of the
 * sums; where one leaves its range the problem is taken off again, the copy is halved, and the problem is added once more.
 */
int64_t plain_pool(int64_t n, int64_t *low, size_t low_count, int64_t *high, size_t high_count, int64_t *linear_low,
                   size_t linear_low_count, int64_t *linear_high, size_t linear_high_count, int64_t *running_limit,
                   size_t running_limit_count, const int64_t *orders, size_t orders_count, const int64_t *lows, size_t lows_count,
                   const int64_t *highs, size_t highs_count, const int64_t *linear_lows, size_t linear_lows_count,
                   const int64_t *linear_highs, size_t linear_highs_count, const int64_t *limits, size_t limits_count);

/* Reading the sums with its checks: 0, and the limit is written; or the number of the refusal. */
int64_t plain_read_sums(int64_t n, const int64_t *low, size_t low_count, const int64_t *high, size_t high_count, const int64_t *linear_low,
                        size_t linear_low_count, const int64_t *linear_high, size_t linear_high_count, int64_t running_limit,
                        int64_t allowance, int64_t *limit, size_t limit_count);

/*
 * Writing the summary file of the mended problem with its checks, field by field and byte by byte: 0, and the file is written; or the
 * number of the refusal, and it is as it was. The file's size is in bytes.
 */
int64_t plain_write_summary(int64_t n, const int64_t *low, size_t low_count, const int64_t *high, size_t high_count, const int64_t *linear_low,
                            size_t linear_low_count, const int64_t *linear_high, size_t linear_high_count, int64_t limit,
                            const int64_t *centre, size_t centre_count, uint8_t *file, size_t file_size);

/*
 * Reading a summary file with its checks: the fields are walked over and noted, then looked at, and the problem is read into arrays,
 * checked and mended there. 0, and all seven are written with the mended problem, zeros behind it; or the number of the refusal.
 */
int64_t plain_read_summary(const uint8_t *file, size_t file_size, int64_t *order, size_t order_count, int64_t *low, size_t low_count,
                           int64_t *high, size_t high_count, int64_t *linear_low, size_t linear_low_count, int64_t *linear_high,
                           size_t linear_high_count, int64_t *limit, size_t limit_count, int64_t *centre, size_t centre_count);

/*
 * The bus, register by register. A write: 0 where it is taken, 20 of a start while busy. A tick: 0, and the next column is worked out in
 * its place in the run area, or the vectors are searched as plain_judge does. A read: 0, and the value is written. The line: 0 low, -1
 * raised. Each is 2 where a size is another. Block and value are bytes, and the run area numbers.
 */
int64_t plain_bus_write(uint8_t *block, size_t block_size, int64_t *run, size_t run_count, int64_t address, uint8_t value,
                        const int64_t *low, size_t low_count, const int64_t *high, size_t high_count);
int64_t plain_bus_tick(uint8_t *block, size_t block_size, int64_t *run, size_t run_count);
int64_t plain_bus_read(const uint8_t *block, size_t block_size, int64_t address, uint8_t *value, size_t value_size);
int64_t plain_bus_line(const uint8_t *block, size_t block_size);

#endif
