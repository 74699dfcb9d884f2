/*
 * Times the library beside plain C, tuned C and the peers: each act at each order, the same problems, one after the other. Some acts are
 * timed a second time, on problems with the upper and the lower half of each table rounded apart. Before that it compares all answers and
 * buffers of the first three, and those on problems with halves apart with those on mended ones, and ends with status 1 at the first
 * difference.
 *
 *     bench compare           only compares
 *     bench count             makes each call once, for callgrind, which writes down the instructions of each act, order and side
 *     bench time [COUNTS]     compares, times and prints the tables. Each line of the file COUNTS is an act, an order, a side and its instructions.
 *                             Ends with status 1 where the library takes longer beside plain C than it may, or on the bus beside its judge
 *     bench alone             times the library alone, for bench/before: a line for each act and order with the nanoseconds of a call, a sum
 *                             over all answers and buffers but over, a sum over that buffer, or - where the archive has none, whether the act
 *                             has all of its steps in this archive, or fewer, and the act's name
 *
 * Compiled with WITHOUT_OVER it calls an archive of before version 0.6, whose hb_judge and hb_test_factor have no buffer over: such a bench
 * is for alone.
 */
#define _POSIX_C_SOURCE 199309L
#include "peers.h"
#include "plain.h"
#include "problems.h"
#include "tuned.h"

#include <stdio.h>
#include <stdlib.h>
#include <string.h>
#include <time.h>

#if __has_include(<valgrind/callgrind.h>)
#include <valgrind/callgrind.h>
#else
#define CALLGRIND_ZERO_STATS (void)0
#define CALLGRIND_DUMP_STATS_AT(label) (void)(label)
#endif

#define COMPARED 2000
#define ROUNDS 400
#define ALONE_ROUNDS 15
#define LACKING INT64_MIN
#define SLICE_NS 40e3
#define MOST_NS 1e9
#define FNV_START 14695981039346656037u
#define FNV_PRIME 1099511628211u

/*
 * Checks 1 to 5 and factoring, of an archive made for this bench: 0 where it ends, -1 where it stops, or a refusal. Lengths are in numbers.
 */
int64_t hb_bench_factor(int64_t n, const int64_t *low, size_t low_len, const int64_t *high, size_t high_len);

/* Where no archive has it, its address is null. */
#pragma weak hb_bench_factor

#ifdef WITHOUT_OVER
#define HAS_OVER 0

/* The two entries as they were, under names of their own */
int64_t judge_without_over(int64_t n, const uint8_t *low, size_t low_len, const uint8_t *high, size_t high_len, uint8_t *factor,
                           size_t factor_len, uint8_t *vector, size_t vector_len) __asm__("hb_judge");

int64_t test_factor_without_over(int64_t n, const uint8_t *low, size_t low_len, const uint8_t *high, size_t high_len,
                                 const uint8_t *factor, size_t factor_len) __asm__("hb_test_factor");
#else
#define HAS_OVER 1
#endif

/* What the calls write. The five before the bus are running sums, or with the order, the limit and the centre a problem. */
static struct {
    int64_t factor[MAX_ENTRIES];
    int64_t vector[HB_MAX_ORDER];
    int64_t over;
    int64_t step;
    int64_t bound;
    int64_t sides[2 * HB_MAX_ORDER];
    uint8_t file[HB_SUMMARY_BYTES(HB_MAX_ORDER)];
    int64_t order;
    int64_t limit;
    int64_t centre[HB_MAX_ORDER];
    int64_t low[MAX_ENTRIES];
    int64_t high[MAX_ENTRIES];
    int64_t linear_low[HB_MAX_ORDER];
    int64_t linear_high[HB_MAX_ORDER];
    int64_t running_limit;
    struct bus {
        uint8_t block[HB_BLOCK_BYTES];
        int64_t run[PLAIN_RUN_NUMBERS];
    } bus;
} out;

/* Whether each call has its sums from its problem. Where not, they run: the samples of the problems are gathered one after the other, which have room. */
static int own_sums;

/* Makes one call and returns its answer. */
typedef int64_t side(int64_t n, const struct problem *problem);

static const uint8_t *bytes(const int64_t *numbers)
{
    return (const uint8_t *)numbers;
}

static int64_t library_factor(int64_t n, const struct problem *problem)
{
    size_t count = (size_t)(n * n);
    return hb_bench_factor(n, problem->low, count, problem->high, count);
}

static int64_t plain_factor_side(int64_t n, const struct problem *problem)
{
    int64_t factor[MAX_ENTRIES];
    return plain_checked_factor(n, problem->low, problem->high, factor);
}

static int64_t plain_floating_side(int64_t n, const struct problem *problem)
{
    int64_t factor[MAX_ENTRIES];
    return plain_floating_factor(n, problem->low, problem->high, factor);
}

static int64_t tuned_factor_side(int64_t n, const struct problem *problem)
{
    int64_t factor[MAX_ENTRIES];
    return tuned_factor(n, problem->low, problem->high, factor);
}

static int64_t library_test_factor(int64_t n, const struct problem *problem)
{
    size_t size = HB_TABLE_BYTES(n);
#ifdef WITHOUT_OVER
    return test_factor_without_over(n, bytes(problem->low), size, bytes(problem->high), size, bytes(problem->factor), size);
#else
    return hb_test_factor(n, bytes(problem->low), size, bytes(problem->high), size, bytes(problem->factor), size, (uint8_t *)&out.over,
                          HB_OVER_BYTES);
#endif
}

static int64_t plain_test_factor_side(int64_t n, const struct problem *problem)
{
    size_t count = (size_t)(n * n);
    return plain_test_factor(n, problem->low, count, problem->high, count, problem->factor, count, &out.over, 1);
}

static int64_t tuned_test_factor_side(int64_t n, const struct problem *problem)
{
    size_t size = HB_TABLE_BYTES(n);
    return tuned_test_factor(n, bytes(problem->low), size, bytes(problem->high), size, bytes(problem->factor), size, (uint8_t *)&out.over,
                             HB_OVER_BYTES);
}

static int64_t library_test_vector(int64_t n, const struct problem *problem)
{
    size_t size = HB_TABLE_BYTES(n);
    return hb_test_vector(n, bytes(problem->low), size, bytes(problem->high), size, bytes(problem->vector), HB_VECTOR_BYTES(n));
}

static int64_t plain_test_vector_side(int64_t n, const struct problem *problem)
{
    size_t count = (size_t)(n * n);
    return plain_test_vector(n, problem->low, count, problem->high, count, problem->vector, (size_t)n);
}

static int64_t tuned_test_vector_side(int64_t n, const struct problem *problem)
{
    size_t size = HB_TABLE_BYTES(n);
    return tuned_test_vector(n, bytes(problem->low), size, bytes(problem->high), size, bytes(problem->vector), HB_VECTOR_BYTES(n));
}

static int64_t library_judge(int64_t n, const struct problem *problem)
{
    size_t size = HB_TABLE_BYTES(n);
#ifdef WITHOUT_OVER
    return judge_without_over(n, bytes(problem->low), size, bytes(problem->high), size, (uint8_t *)out.factor, size, (uint8_t *)out.vector,
                              HB_VECTOR_BYTES(n));
#else
    return hb_judge(n, bytes(problem->low), size, bytes(problem->high), size, (uint8_t *)out.factor, size, (uint8_t *)out.vector,
                    HB_VECTOR_BYTES(n), (uint8_t *)&out.over, HB_OVER_BYTES);
#endif
}

static int64_t plain_judge_side(int64_t n, const struct problem *problem)
{
    size_t count = (size_t)(n * n);
    return plain_judge(n, problem->low, count, problem->high, count, out.factor, count, out.vector, (size_t)n, &out.over, 1);
}

static int64_t plain_pairs_judge_side(int64_t n, const struct problem *problem)
{
    size_t count = (size_t)(n * n);
    return plain_pairs_judge(n, problem->low, count, problem->high, count, out.factor, count, out.vector, (size_t)n, &out.over, 1);
}

static int64_t tuned_judge_side(int64_t n, const struct problem *problem)
{
    size_t size = HB_TABLE_BYTES(n);
    return tuned_judge(n, bytes(problem->low), size, bytes(problem->high), size, (uint8_t *)out.factor, size, (uint8_t *)out.vector,
                       HB_VECTOR_BYTES(n), (uint8_t *)&out.over, HB_OVER_BYTES);
}

static int64_t library_box(int64_t n, const struct problem *problem)
{
    size_t table = HB_TABLE_BYTES(n), vector = HB_VECTOR_BYTES(n);
    return hb_box(n, bytes(problem->low), table, bytes(problem->high), table, bytes(problem->linear_low), vector,
                  bytes(problem->linear_high), vector, problem->limit, bytes(problem->centre), vector, (uint8_t *)out.sides,
                  HB_SIDES_BYTES(n));
}

static int64_t plain_box_side(int64_t n, const struct problem *problem)
{
    size_t order = (size_t)n, count = order * order;
    return plain_box(n, problem->low, count, problem->high, count, problem->linear_low, order, problem->linear_high, order, problem->limit,
                     problem->centre, order, out.sides, 2 * order);
}

static int64_t tuned_box_side(int64_t n, const struct problem *problem)
{
    size_t table = HB_TABLE_BYTES(n), vector = HB_VECTOR_BYTES(n);
    return tuned_box(n, bytes(problem->low), table, bytes(problem->high), table, bytes(problem->linear_low), vector,
                     bytes(problem->linear_high), vector, problem->limit, bytes(problem->centre), vector, (uint8_t *)out.sides,
                     HB_SIDES_BYTES(n));
}

static int64_t library_stiffness(int64_t n, const struct problem *problem)
{
    size_t size = HB_TABLE_BYTES(n);
    return hb_stiffness(n, bytes(problem->low), size, bytes(problem->high), size, (uint8_t *)&out.step, HB_STEP_BYTES,
                        (uint8_t *)&out.bound, HB_BOUND_BYTES, (uint8_t *)out.vector, HB_VECTOR_BYTES(n));
}

static int64_t plain_stiffness_side(int64_t n, const struct problem *problem)
{
    size_t count = (size_t)(n * n);
    return plain_stiffness(n, problem->low, count, problem->high, count, &out.step, 1, &out.bound, 1, out.vector, (size_t)n);
}

static int64_t tuned_stiffness_side(int64_t n, const struct problem *problem)
{
    size_t size = HB_TABLE_BYTES(n);
    return tuned_stiffness(n, bytes(problem->low), size, bytes(problem->high), size, (uint8_t *)&out.step, HB_STEP_BYTES,
                           (uint8_t *)&out.bound, HB_BOUND_BYTES, (uint8_t *)out.vector, HB_VECTOR_BYTES(n));
}

/*
 * Moves the halves of the running sums apart by 1. The first sample that is taken has them mended, so this is done before each, and what is
 * measured of gathering with the halves apart includes it, on every side.
 */
static void move_sums_apart(void)
{
    for (int i = 1; i < HB_SAMPLE_ORDER; i++) {
        for (int j = 0; j < i; j++) {
            out.low[HB_SAMPLE_ORDER * i + j]--;
            out.high[HB_SAMPLE_ORDER * j + i]++;
        }
    }
}

static void start_sums(const struct problem *problem)
{
    if (own_sums) {
        memcpy(out.low, problem->low, sizeof out.low);
        memcpy(out.high, problem->high, sizeof out.high);
        memcpy(out.linear_low, problem->linear_low, sizeof out.linear_low);
        memcpy(out.linear_high, problem->linear_high, sizeof out.linear_high);
        out.running_limit = problem->limit;
        return;
    }
    if (problem->place == 0)
        memset(&out, 0, sizeof out);
    if (problem->apart)
        move_sums_apart();
}

static int64_t library_gather(int64_t n, const struct problem *problem)
{
    size_t table = HB_TABLE_BYTES(n), vector = HB_VECTOR_BYTES(n);
    start_sums(problem);
    return hb_gather(problem->sample, n, (uint8_t *)out.low, table, (uint8_t *)out.high, table, (uint8_t *)out.linear_low, vector,
                     (uint8_t *)out.linear_high, vector, (uint8_t *)&out.running_limit, HB_NUMBER_BYTES);
}

static int64_t plain_gather_side(int64_t n, const struct problem *problem)
{
    size_t order = (size_t)n, count = order * order;
    start_sums(problem);
    return plain_gather(problem->sample, n, out.low, count, out.high, count, out.linear_low, order, out.linear_high, order, &out.running_limit, 1);
}

/* Each call begins with the sums of its pool. */
static void start_pooling(int64_t n, const struct pool *pool)
{
    size_t table = HB_TABLE_BYTES(n), vector = HB_VECTOR_BYTES(n);
    if (n < 1 || n > HB_MAX_ORDER)
        return;
    memcpy(out.low, pool->low, table);
    memcpy(out.high, pool->high, table);
    memcpy(out.linear_low, pool->linear_low, vector);
    memcpy(out.linear_high, pool->linear_high, vector);
    out.running_limit = pool->running_limit;
}

static int64_t library_pool(int64_t n, const struct problem *problem)
{
    const struct pool *pool = problem->pool;
    size_t table = HB_TABLE_BYTES(n), vector = HB_VECTOR_BYTES(n), count = pool->count;
    start_pooling(n, pool);
    return hb_pool(n, (uint8_t *)out.low, table, (uint8_t *)out.high, table, (uint8_t *)out.linear_low, vector, (uint8_t *)out.linear_high,
                   vector, (uint8_t *)&out.running_limit, HB_NUMBER_BYTES, bytes(pool->orders), HB_NUMBERS_BYTES(count), bytes(pool->lows),
                   HB_TABLES_BYTES(n, count), bytes(pool->highs), HB_TABLES_BYTES(n, count), bytes(pool->linear_lows),
                   HB_VECTORS_BYTES(n, count), bytes(pool->linear_highs), HB_VECTORS_BYTES(n, count), bytes(pool->limits),
                   HB_NUMBERS_BYTES(count));
}

static int64_t plain_pool_side(int64_t n, const struct problem *problem)
{
    const struct pool *pool = problem->pool;
    size_t order = (size_t)n, entries = order * order, count = pool->count;
    start_pooling(n, pool);
    return plain_pool(n, out.low, entries, out.high, entries, out.linear_low, order, out.linear_high, order, &out.running_limit, 1,
                      pool->orders, count, pool->lows, count * entries, pool->highs, count * entries, pool->linear_lows, count * order,
                      pool->linear_highs, count * order, pool->limits, count);
}

static int64_t tuned_pool_side(int64_t n, const struct problem *problem)
{
    const struct pool *pool = problem->pool;
    size_t table = HB_TABLE_BYTES(n), vector = HB_VECTOR_BYTES(n), count = pool->count;
    start_pooling(n, pool);
    return tuned_pool(n, (uint8_t *)out.low, table, (uint8_t *)out.high, table, (uint8_t *)out.linear_low, vector,
                      (uint8_t *)out.linear_high, vector, (uint8_t *)&out.running_limit, HB_NUMBER_BYTES, bytes(pool->orders),
                      HB_NUMBERS_BYTES(count), bytes(pool->lows), HB_TABLES_BYTES(n, count), bytes(pool->highs), HB_TABLES_BYTES(n, count),
                      bytes(pool->linear_lows), HB_VECTORS_BYTES(n, count), bytes(pool->linear_highs), HB_VECTORS_BYTES(n, count),
                      bytes(pool->limits), HB_NUMBERS_BYTES(count));
}

static int64_t library_read_sums(int64_t n, const struct problem *problem)
{
    size_t table = HB_TABLE_BYTES(n), vector = HB_VECTOR_BYTES(n);
    return hb_read_sums(n, bytes(problem->low), table, bytes(problem->high), table, bytes(problem->linear_low), vector,
                        bytes(problem->linear_high), vector, problem->limit, problem->allowance, (uint8_t *)&out.limit, HB_NUMBER_BYTES);
}

static int64_t plain_read_sums_side(int64_t n, const struct problem *problem)
{
    size_t order = (size_t)n, count = order * order;
    return plain_read_sums(n, problem->low, count, problem->high, count, problem->linear_low, order, problem->linear_high, order, problem->limit,
                           problem->allowance, &out.limit, 1);
}

static int64_t library_write_summary(int64_t n, const struct problem *problem)
{
    size_t table = HB_TABLE_BYTES(n), vector = HB_VECTOR_BYTES(n);
    return hb_write_summary(n, bytes(problem->low), table, bytes(problem->high), table, bytes(problem->linear_low), vector,
                            bytes(problem->linear_high), vector, problem->limit, bytes(problem->centre), vector, out.file,
                            HB_SUMMARY_BYTES(n));
}

static int64_t plain_write_summary_side(int64_t n, const struct problem *problem)
{
    size_t order = (size_t)n, count = order * order;
    return plain_write_summary(n, problem->low, count, problem->high, count, problem->linear_low, order, problem->linear_high, order,
                               problem->limit, problem->centre, order, out.file, HB_SUMMARY_BYTES(n));
}

static int64_t tuned_write_summary_side(int64_t n, const struct problem *problem)
{
    size_t table = HB_TABLE_BYTES(n), vector = HB_VECTOR_BYTES(n);
    return tuned_write_summary(n, bytes(problem->low), table, bytes(problem->high), table, bytes(problem->linear_low), vector,
                               bytes(problem->linear_high), vector, problem->limit, bytes(problem->centre), vector, out.file,
                               HB_SUMMARY_BYTES(n));
}

/* The file has an order of its own. */
static int64_t library_read_summary(int64_t n, const struct problem *problem)
{
    (void)n;
    return hb_read_summary(problem->file, problem->file_size, (uint8_t *)&out.order, sizeof out.order, (uint8_t *)out.low, sizeof out.low,
                           (uint8_t *)out.high, sizeof out.high, (uint8_t *)out.linear_low, sizeof out.linear_low, (uint8_t *)out.linear_high,
                           sizeof out.linear_high, (uint8_t *)&out.limit, sizeof out.limit, (uint8_t *)out.centre, sizeof out.centre);
}

static int64_t plain_read_summary_side(int64_t n, const struct problem *problem)
{
    (void)n;
    return plain_read_summary(problem->file, problem->file_size, &out.order, 1, out.low, MAX_ENTRIES, out.high, MAX_ENTRIES, out.linear_low,
                              HB_MAX_ORDER, out.linear_high, HB_MAX_ORDER, &out.limit, 1, out.centre, HB_MAX_ORDER);
}

static int64_t tuned_read_summary_side(int64_t n, const struct problem *problem)
{
    (void)n;
    return tuned_read_summary(problem->file, problem->file_size, (uint8_t *)&out.order, sizeof out.order, (uint8_t *)out.low, sizeof out.low,
                              (uint8_t *)out.high, sizeof out.high, (uint8_t *)out.linear_low, sizeof out.linear_low,
                              (uint8_t *)out.linear_high, sizeof out.linear_high, (uint8_t *)&out.limit, sizeof out.limit,
                              (uint8_t *)out.centre, sizeof out.centre);
}

/* A bus that was reset, but for its order. The run area is as the last run has left it, since a start writes all of it. */
static void ready_bus(int64_t n)
{
    memset(out.bus.block, 0, sizeof out.bus.block);
    out.bus.block[HB_BUS_ORDER] = (uint8_t)n;
}

static int64_t library_start(int64_t n, const struct problem *problem)
{
    size_t size = HB_TABLE_BYTES(n);
    ready_bus(n);
    return hb_bus_write(out.bus.block, sizeof out.bus.block, (uint8_t *)out.bus.run, sizeof out.bus.run, HB_BUS_COMMAND, HB_BUS_START,
                        bytes(problem->low), size, bytes(problem->high), size);
}

static int64_t plain_start(int64_t n, const struct problem *problem)
{
    size_t count = (size_t)(n * n);
    ready_bus(n);
    return plain_bus_write(out.bus.block, sizeof out.bus.block, out.bus.run, PLAIN_RUN_NUMBERS, HB_BUS_COMMAND, HB_BUS_START, problem->low,
                           count, problem->high, count);
}

static int64_t library_tick(void)
{
    return hb_bus_tick(out.bus.block, sizeof out.bus.block, (uint8_t *)out.bus.run, sizeof out.bus.run);
}

static int64_t plain_tick(void)
{
    return plain_bus_tick(out.bus.block, sizeof out.bus.block, out.bus.run, PLAIN_RUN_NUMBERS);
}

/* Whether a run is under way */
static int is_busy(void)
{
    return out.bus.block[HB_BUS_STATUS] & HB_BUS_BUSY;
}

/* What the judge answers where the bus has come to this */
static int64_t bus_answer(void)
{
    return out.bus.block[HB_BUS_STATUS] & HB_BUS_REFUSED ? out.bus.block[HB_BUS_REFUSAL] : 1 - (int64_t)out.bus.block[HB_BUS_VERDICT];
}

/* A whole run: a start, and ticks until it ends, as many as there can be at most */
static int64_t library_bus(int64_t n, const struct problem *problem)
{
    int64_t answer = library_start(n, problem);
    for (int64_t tick = 0; is_busy() && tick < HB_BUS_MOST_TICKS(n); tick++)
        library_tick();
    return answer ? answer : bus_answer();
}

static int64_t plain_bus(int64_t n, const struct problem *problem)
{
    int64_t answer = plain_start(n, problem);
    for (int64_t tick = 0; is_busy() && tick < HB_BUS_MOST_TICKS(n); tick++)
        plain_tick();
    return answer ? answer : bus_answer();
}

/* The buses of the definite and of the late problems right before the tick that ends their runs: the last column, and the search */
static struct bus last_column[HB_MAX_ORDER + 1][PROBLEMS], search[HB_MAX_ORDER + 1][PROBLEMS];

static void run_to_last(enum kind kind, int64_t n, int place, struct bus *last)
{
    plain_start(n, problem_of(kind, n, place));
    while (is_busy()) {
        *last = out.bus;
        plain_tick();
    }
}

static void draw_buses(void)
{
    for (int64_t n = 1; n <= HB_MAX_ORDER; n++) {
        for (int place = 0; place < PROBLEMS; place++) {
            run_to_last(DEFINITE, n, place, &last_column[n][place]);
            if (n > 1)
                run_to_last(LATE, n, place, &search[n][place]);
        }
    }
}

/* Each of these is one tick. Its bus is copied first, which is timed with it. */
static int64_t library_last_column(int64_t n, const struct problem *problem)
{
    out.bus = last_column[n][problem->place];
    return library_tick();
}

static int64_t plain_last_column(int64_t n, const struct problem *problem)
{
    out.bus = last_column[n][problem->place];
    return plain_tick();
}

static int64_t library_search(int64_t n, const struct problem *problem)
{
    out.bus = search[n][problem->place];
    return library_tick();
}

/* The peers are the last two. */
enum { LIBRARY, PLAIN, TUNED, LAPACK_SIDE, ARB_SIDE, SIDES };

#define COMPARED_SIDES 3
#define LEAST_ANSWER HB_UNDECIDED
#define ANSWERS (HB_REFUSED_BUSY - LEAST_ANSWER + 1)

static const char *const side_names[SIDES] = {"library", "plain C", "tuned C", "dpotrf", "arb_mat_cho"};

/*
 * What was measured of one side at one order: how many parts the problems are timed in and how often each part is gone through at a time, the least
 * nanoseconds of each part, the time spent, and the instructions of a call.
 */
struct cell {
    int parts;
    int repeats;
    double least[PROBLEMS];
    double spent;
    double instructions;
};

/* An act on the problems of a kind, at some orders: a side that is null is not there. How often each answer was compared, and the cells. */
struct act {
    const char *name;
    enum kind kind;
    int first_order;
    int last_order;
    side *sides[SIDES];
    int answers[ANSWERS];
    struct cell cells[HB_MAX_ORDER + 1][SIDES];
};

/* One act more is a line here and its sides above. */
enum {
    FACTORING,
    FACTOR_TEST,
    VECTOR_TEST,
    JUDGE_DEFINITE,
    JUDGE_NOT,
    JUDGE_UNDECIDED,
    BOX,
    BRACKET_DEFINITE,
    BRACKET_NOT,
    BRACKET_UNDECIDED,
    GATHER,
    POOL,
    POOL_HALVED,
    READ_SUMS,
    WRITE_SUMMARY,
    READ_SUMMARY,
    BUS_DEFINITE,
    BUS_NOT,
    BUS_LATE,
    BUS_START,
    BUS_COLUMN,
    BUS_SEARCH,
    FACTORING_FLOATING,
    JUDGE_PAIRS,
    JUDGE_LATE,
    APART_FACTOR_TEST,
    APART_VECTOR_TEST,
    APART_JUDGE,
    APART_BOX,
    APART_BRACKET,
    APART_GATHER,
    APART_POOL,
    CHOLESKY,
    ACTS
};

static struct act acts[ACTS] = {
    [FACTORING] = {"factoring", DEFINITE, 1, HB_MAX_ORDER, {library_factor, plain_factor_side, tuned_factor_side}},
    [FACTOR_TEST] = {"factor test", DEFINITE, 1, HB_MAX_ORDER, {library_test_factor, plain_test_factor_side, tuned_test_factor_side}},
    [VECTOR_TEST] = {"vector test", DEFINITE, 1, HB_MAX_ORDER, {library_test_vector, plain_test_vector_side, tuned_test_vector_side}},
    [JUDGE_DEFINITE] = {"judge, definite", DEFINITE, 1, HB_MAX_ORDER, {library_judge, plain_judge_side, tuned_judge_side}},
    [JUDGE_NOT] = {"judge, not definite", NOT_DEFINITE, 1, HB_MAX_ORDER, {library_judge, plain_judge_side, tuned_judge_side}},
    [JUDGE_UNDECIDED] = {"judge, undecided (none is of order 1)", UNDECIDED, 2, HB_MAX_ORDER, {library_judge, plain_judge_side, tuned_judge_side}},
    [BOX] = {"box", DEFINITE, 1, HB_MAX_ORDER, {library_box, plain_box_side, tuned_box_side}},
    [BRACKET_DEFINITE] = {"bracket, definite", DEFINITE, 1, HB_MAX_ORDER, {library_stiffness, plain_stiffness_side, tuned_stiffness_side}},
    [BRACKET_NOT] = {"bracket, not definite", NOT_DEFINITE, 1, HB_MAX_ORDER,
                     {library_stiffness, plain_stiffness_side, tuned_stiffness_side}},
    [BRACKET_UNDECIDED] = {"bracket, undecided (none is of order 1)", UNDECIDED, 2, HB_MAX_ORDER,
                           {library_stiffness, plain_stiffness_side, tuned_stiffness_side}},
    [GATHER] = {"gathering (a sample is of order 4)", DEFINITE, HB_SAMPLE_ORDER, HB_SAMPLE_ORDER, {library_gather, plain_gather_side}},
    [POOL] = {"pool of 64 problems", DEFINITE, 1, HB_MAX_ORDER, {library_pool, plain_pool_side, tuned_pool_side}},
    [POOL_HALVED] = {"pool of 64 problems, sums halved often", NOT_DEFINITE, 1, HB_MAX_ORDER,
                     {library_pool, plain_pool_side, tuned_pool_side}},
    [READ_SUMS] = {"reading the sums", DEFINITE, 1, HB_MAX_ORDER, {library_read_sums, plain_read_sums_side}},
    [WRITE_SUMMARY] = {"writing a summary", DEFINITE, 1, HB_MAX_ORDER, {library_write_summary, plain_write_summary_side, tuned_write_summary_side}},
    [READ_SUMMARY] = {"reading a summary", DEFINITE, 1, HB_MAX_ORDER, {library_read_summary, plain_read_summary_side, tuned_read_summary_side}},
    [BUS_DEFINITE] = {"bus, a start and n ticks, definite", DEFINITE, 1, HB_MAX_ORDER, {library_bus, plain_bus}},
    [BUS_NOT] = {"bus, a start and ticks, not definite", NOT_DEFINITE, 1, HB_MAX_ORDER, {library_bus, plain_bus}},
    [BUS_LATE] = {"bus, a start and n + 1 ticks, undecided (none is of order 1)", LATE, 2, HB_MAX_ORDER, {library_bus, plain_bus}},
    [BUS_START] = {"bus, the start alone", DEFINITE, 1, HB_MAX_ORDER, {library_start, plain_start}},
    [BUS_COLUMN] = {"bus, the tick of the last column alone", DEFINITE, 1, HB_MAX_ORDER, {library_last_column, plain_last_column}},
    [BUS_SEARCH] = {"bus, the tick of the search alone", LATE, 2, HB_MAX_ORDER, {library_search}},
    [FACTORING_FLOATING] = {"factoring, where plain C has the processor's floating-point root", DEFINITE, 1, HB_MAX_ORDER, {library_factor, plain_floating_side}},
    [JUDGE_PAIRS] = {"judge, undecided, where plain C takes each pair of entries once", UNDECIDED, 2, HB_MAX_ORDER, {library_judge, plain_pairs_judge_side}},
    [JUDGE_LATE] = {"judge, undecided, factoring stops in the last column", LATE, 2, HB_MAX_ORDER, {library_judge, NULL, tuned_judge_side}},
    [APART_FACTOR_TEST] = {"factor test, halves rounded apart", LOPSIDED, 1, HB_MAX_ORDER,
                           {library_test_factor, plain_test_factor_side, tuned_test_factor_side}},
    [APART_VECTOR_TEST] = {"vector test, halves rounded apart", LOPSIDED, 1, HB_MAX_ORDER,
                           {library_test_vector, plain_test_vector_side, tuned_test_vector_side}},
    [APART_JUDGE] = {"judge, definite, halves rounded apart", LOPSIDED, 1, HB_MAX_ORDER,
                     {library_judge, plain_judge_side, tuned_judge_side}},
    [APART_BOX] = {"box, halves rounded apart", LOPSIDED, 1, HB_MAX_ORDER, {library_box, plain_box_side, tuned_box_side}},
    [APART_BRACKET] = {"bracket, definite, halves rounded apart", LOPSIDED, 1, HB_MAX_ORDER,
                       {library_stiffness, plain_stiffness_side, tuned_stiffness_side}},
    [APART_GATHER] = {"gathering, the halves of the sums apart", LOPSIDED, HB_SAMPLE_ORDER, HB_SAMPLE_ORDER,
                      {library_gather, plain_gather_side}},
    [APART_POOL] = {"pool of 64 problems, halves rounded apart", LOPSIDED, 1, HB_MAX_ORDER,
                    {library_pool, plain_pool_side, tuned_pool_side}},
    [CHOLESKY] = {"peers: the judge on thin definite bounds, and the peers' factoring of the same matrices",
                  THIN,
                  1,
                  HB_MAX_ORDER,
                  {library_judge, plain_judge_side, tuned_judge_side, lapack_cholesky, arb_cholesky}},
};

/* Takes out the sides that are not linked. */
static void take_out(void)
{
    if (!hb_bench_factor)
        acts[FACTORING].sides[LIBRARY] = acts[FACTORING_FLOATING].sides[LIBRARY] = NULL;
    if (!has_lapack)
        acts[CHOLESKY].sides[LAPACK_SIDE] = NULL;
    if (!has_arb)
        acts[CHOLESKY].sides[ARB_SIDE] = NULL;
}

/* The answer of a side on a problem, and what is written then */
static int64_t answer_of(const struct act *act, int k, int64_t n, const struct problem *problem, char *written)
{
    memset(&out, 0x5A, sizeof out);
    int64_t answer = act->sides[k](n, problem);
    memcpy(written, &out, sizeof out);
    return answer;
}

/* Ends the program where two sides differ on a problem, in the answer or in what they wrote. */
static void compare(struct act *act, int64_t n, const struct problem *problem)
{
    int64_t answers[COMPARED_SIDES];
    char written[COMPARED_SIDES][sizeof out];
    int base = -1;
    for (int k = 0; k < COMPARED_SIDES; k++) {
        if (!act->sides[k])
            continue;
        answers[k] = answer_of(act, k, n, problem, written[k]);
        if (base < 0)
            base = k;
        if (answers[k] != answers[base] || memcmp(written[k], written[base], sizeof out) != 0) {
            printf("%s, order %d: the %s and the %s differ; they answer %lld and %lld\n", act->name, (int)n, side_names[base], side_names[k],
                   (long long)answers[base], (long long)answers[k]);
            exit(1);
        }
    }
    act->answers[answers[base] - LEAST_ANSWER]++;
}

/* The acts with sides of their own */
static const struct {
    int act;
    const char *name;
} compared[] = {
    {FACTORING, "factoring"},
    {FACTOR_TEST, "factor test"},
    {VECTOR_TEST, "vector test"},
    {JUDGE_DEFINITE, "judge"},
    {BOX, "box"},
    {BRACKET_DEFINITE, "bracket"},
    {GATHER, "gathering"},
    {POOL, "pool"},
    {READ_SUMS, "reading the sums"},
    {WRITE_SUMMARY, "writing a summary"},
    {READ_SUMMARY, "reading a summary"},
    {BUS_DEFINITE, "bus, whole runs"},
    {FACTORING_FLOATING, "factoring, floating root"},
    {JUDGE_PAIRS, "judge, pairs once"},
};

#define ACTS_COMPARED ((int)(sizeof compared / sizeof compared[0]))

/* A number from 0 to most (xorshift) */
static uint64_t pick(uint64_t most)
{
    static uint64_t state = 88172645463325252u;
    state ^= state << 13;
    state ^= state >> 7;
    state ^= state << 17;
    return state % (most + 1);
}

/* How often each access to a bus was compared */
enum { BUS_WRITES, BUS_STARTS, BUS_TICKS, BUS_READS, BUS_LINES, ACCESSES };

static long accesses[ACCESSES];

/* The same access to the library's bus and to that of plain C. Their answers, and what was read, are equal. */
static int same_access(int64_t n, const struct problem *problem, struct bus *mine, struct bus *plain, int access)
{
    size_t size = HB_TABLE_BYTES(n), block = sizeof mine->block - (pick(50) == 0), run = PLAIN_RUN_NUMBERS - (pick(50) == 0);
    size_t table = pick(20) == 0 ? size - HB_NUMBER_BYTES : size;
    int64_t address = access == BUS_STARTS ? HB_BUS_COMMAND : (int64_t)pick(40) - 4;
    uint8_t value = access == BUS_STARTS ? HB_BUS_START : (uint8_t)pick(pick(1) ? 7 : 255), read[2] = {7, 7};
    if (access == BUS_WRITES && pick(1))
        address = HB_BUS_MASK + (int64_t)pick(2);
    if (address == HB_BUS_ORDER && pick(9))
        value = (uint8_t)n;
    accesses[access]++;
    switch (access) {
    case BUS_TICKS:
        return hb_bus_tick(mine->block, block, (uint8_t *)mine->run, HB_NUMBER_BYTES * run) ==
               plain_bus_tick(plain->block, block, plain->run, run);
    case BUS_READS:
        return hb_bus_read(mine->block, block, address, &read[0], 1) == plain_bus_read(plain->block, block, address, &read[1], 1) &&
               read[0] == read[1];
    case BUS_LINES:
        return hb_bus_line(mine->block, block) == plain_bus_line(plain->block, block);
    default:
        return hb_bus_write(mine->block, block, (uint8_t *)mine->run, HB_NUMBER_BYTES * run, address, value, bytes(problem->low), table,
                            bytes(problem->high), size) ==
               plain_bus_write(plain->block, block, plain->run, run, address, value, problem->low, table / HB_NUMBER_BYTES, problem->high,
                               size / HB_NUMBER_BYTES);
    }
}

/* Changes a byte of the block, or a number of the run: by 1, to one that is near the end of a range, or to any. */
static void damage(struct bus *bus)
{
    static const int ends[] = {0, 3, 15, 20, 26, 52, 55, 62};
    int64_t end = (int64_t)1 << ends[pick(7)], *number = &bus->run[pick(pick(1) ? 2 : PLAIN_RUN_NUMBERS - 1)];
    switch (pick(4)) {
    case 0:
        bus->block[pick(HB_BLOCK_BYTES - 1)] = (uint8_t)pick(255);
        break;
    case 1:
        *number = (int64_t)pick(UINT64_MAX - 1);
        break;
    case 2:
        *number = (pick(1) ? end : -end) + (int64_t)pick(2) - 1;
        break;
    default:
        *number = (int64_t)((uint64_t)*number + pick(2) - 1);
    }
}

/* Ends the program where the two buses differ after one of some accesses: a start and ticks, with others between, and damaged ones too. */
static void compare_bus(int64_t n, const struct problem *problem)
{
    static const int order[] = {BUS_WRITES, BUS_STARTS, BUS_TICKS, BUS_TICKS, BUS_TICKS, BUS_READS, BUS_LINES};
    struct bus buses[2] = {{{0}, {0}}, {{0}, {0}}};
    int damaged = pick(3) == 0;
    buses[0].block[HB_BUS_ORDER] = buses[1].block[HB_BUS_ORDER] = (uint8_t)n;
    for (int step = 0; step < 20; step++) {
        int access = step == 0 ? BUS_STARTS : order[pick(6)];
        if (damaged && pick(3) == 0) {
            damage(&buses[0]);
            buses[1] = buses[0];
        }
        if (!same_access(n, problem, &buses[0], &buses[1], access) || memcmp(&buses[0], &buses[1], sizeof buses[0]) != 0) {
            printf("bus, order %d: the library and plain C differ after access %d, of kind %d\n", (int)n, step, access);
            exit(1);
        }
    }
}

/* Compares the sides of each act on a problem, and ends the program where one has written to what it was lent for reading. */
static void compare_acts(int64_t n, const struct problem *problem)
{
    static struct problem before;
    static struct pool pool_before;
    memcpy(&before, problem, sizeof before);
    memcpy(&pool_before, problem->pool, sizeof pool_before);
    for (int a = 0; a < ACTS_COMPARED; a++)
        compare(&acts[compared[a].act], n, problem);
    compare_bus(n, problem);
    if (memcmp(&before, problem, sizeof before) != 0 || memcmp(&pool_before, problem->pool, sizeof pool_before) != 0) {
        printf("order %d: a problem is written to\n", (int)n);
        exit(1);
    }
}

/* Ends the program where a side has another answer on a problem with halves apart than on the mended one, or writes something else. */
static void compare_mended(const struct act *act, int64_t n, int place)
{
    char written[2][sizeof out];
    for (int k = 0; k < COMPARED_SIDES; k++) {
        if (!act->sides[k])
            continue;
        int64_t mended = answer_of(act, k, n, problem_of(DEFINITE, n, place), written[0]);
        int64_t apart = answer_of(act, k, n, problem_of(LOPSIDED, n, place), written[1]);
        if (apart != mended || memcmp(written[0], written[1], sizeof out) != 0) {
            printf("%s, order %d: with halves apart the %s answers %lld, and mended %lld, or writes something else\n", act->name, (int)n,
                   side_names[k], (long long)apart, (long long)mended);
            exit(1);
        }
    }
}

/* The same of all acts with sides of their own, at their orders */
static void compare_all_mended(void)
{
    own_sums = 1;
    for (int a = 0; a < ACTS_COMPARED; a++) {
        const struct act *act = &acts[compared[a].act];
        for (int64_t n = act->first_order; n <= act->last_order; n++)
            for (int place = 0; place < PROBLEMS; place++)
                compare_mended(act, n, place);
    }
    own_sums = 0;
    printf("each gave the same with the halves of the tables apart as with mended tables, on %d problems of each order\n", PROBLEMS);
}

/* Compares the sides of each act on the problems of all kinds and on many others, and on orders that are refused. */
static void compare_all(void)
{
    static struct problem any;
    const int count = KINDS * PROBLEMS + COMPARED;
    own_sums = 1;
    for (int64_t n = 1; n <= HB_MAX_ORDER; n++) {
        for (int place = 0; place < count; place++) {
            const struct problem *problem = &any;
            if (place < KINDS * PROBLEMS)
                problem = problem_of((enum kind)(place / PROBLEMS), n, place % PROBLEMS);
            else
                draw_any(n, &any);
            compare_acts(n, problem);
        }
    }
    for (int64_t n = -1; n <= HB_MAX_ORDER + 1; n++)
        for (int a = FACTOR_TEST; a <= BUS_DEFINITE; a++)
            compare(&acts[a], n, problem_of(DEFINITE, 1, 0));
    own_sums = 0;
    printf("the library, plain C and tuned C gave the same answers and buffers, on %d problems of each order:\n", count);
    for (int a = 0; a < ACTS_COMPARED; a++) {
        printf("%-24s", compared[a].name);
        for (int answer = 0; answer < ANSWERS; answer++)
            if (acts[compared[a].act].answers[answer])
                printf("  %d: %d times", answer + LEAST_ANSWER, acts[compared[a].act].answers[answer]);
        printf("\n");
    }
    printf("%-24s  %ld writes, %ld starts, %ld ticks, %ld reads, %ld looks at the line\n", "bus, access by access", accesses[BUS_WRITES],
           accesses[BUS_STARTS], accesses[BUS_TICKS], accesses[BUS_READS], accesses[BUS_LINES]);
}

/* Goes through some of the problems, each as often. */
static void call(const struct act *act, int64_t n, int k, int first, int last, int repeats)
{
    for (int repeat = 0; repeat < repeats; repeat++)
        for (int place = first; place < last; place++)
            act->sides[k](n, problem_of(act->kind, n, place));
}

/* Each call once, and a dump of the instructions that callgrind has counted, which are those in the sides' functions alone */
static void count_all(void)
{
    for (int a = 0; a < ACTS; a++) {
        for (int64_t n = acts[a].first_order; n <= acts[a].last_order; n++) {
            for (int k = 0; k < SIDES; k++) {
                char label[32];
                if (!acts[a].sides[k])
                    continue;
                snprintf(label, sizeof label, "%d %d %d", a, (int)n, k);
                CALLGRIND_ZERO_STATS;
                call(&acts[a], n, k, 0, PROBLEMS, 1);
                CALLGRIND_DUMP_STATS_AT(label);
            }
        }
    }
}

static double nanoseconds(void)
{
    struct timespec now;
    clock_gettime(CLOCK_MONOTONIC, &now);
    return 1e9 * (double)now.tv_sec + (double)now.tv_nsec;
}

/* Chooses parts and repeats so that what is timed at once is about a slice: long beside the clock, and short beside what disturbs. */
static void plan(struct act *act, int64_t n, int k)
{
    struct cell *cell = &act->cells[n][k];
    call(act, n, k, 0, PROBLEMS, 1);
    double start = nanoseconds();
    call(act, n, k, 0, PROBLEMS, 1);
    double time = nanoseconds() - start;
    cell->parts = 1;
    while (cell->parts < PROBLEMS && time / cell->parts > SLICE_NS)
        cell->parts *= 2;
    cell->repeats = time < SLICE_NS ? (int)(SLICE_NS / time) + 1 : 1;
}

/* Times each part once more. A side that has had its time is left out, after three rounds at least. */
static void measure(struct act *act, int64_t n, int k, int round)
{
    struct cell *cell = &act->cells[n][k];
    if (round == 0)
        plan(act, n, k);
    if (round >= 3 && cell->spent > MOST_NS)
        return;
    int size = PROBLEMS / cell->parts;
    for (int part = 0; part < cell->parts; part++) {
        call(act, n, k, part * size, (part + 1) * size, 1);
        double start = nanoseconds();
        call(act, n, k, part * size, (part + 1) * size, cell->repeats);
        double time = nanoseconds() - start;
        cell->spent += time;
        time /= size * cell->repeats;
        if (cell->least[part] == 0 || time < cell->least[part])
            cell->least[part] = time;
    }
}

/* All sides of all acts at all orders, round by round, so that each is measured at many moments. */
static void measure_all(void)
{
    for (int round = 0; round < ROUNDS; round++)
        for (int a = 0; a < ACTS; a++)
            for (int64_t n = acts[a].first_order; n <= acts[a].last_order; n++)
                for (int k = 0; k < SIDES; k++)
                    if (acts[a].sides[k])
                        measure(&acts[a], n, k, round);
}

static int read_counts(const char *path)
{
    int a, n, k;
    double total;
    FILE *file = fopen(path, "r");
    if (!file)
        return 0;
    while (fscanf(file, "%d %d %d %lf", &a, &n, &k, &total) == 4)
        if (a >= 0 && a < ACTS && n >= 1 && n <= HB_MAX_ORDER && k >= 0 && k < SIDES)
            acts[a].cells[n][k].instructions = total / PROBLEMS;
    fclose(file);
    return 1;
}

/* The nanoseconds of a call: each part's least, on average. 0 where there is none. */
static double time_of(const struct act *act, int64_t n, int k)
{
    const struct cell *cell = &act->cells[n][k];
    double sum = 0;
    for (int part = 0; part < cell->parts; part++)
        sum += cell->least[part];
    return cell->parts ? sum / cell->parts : 0;
}

/* In the place of an entry that an earlier archive lacks: bench/before links it so. */
int64_t bench_lacking(void)
{
    return LACKING;
}

/* A sum goes on over some bytes. */
static uint64_t add_bytes(uint64_t sum, const void *bytes, size_t size)
{
    for (size_t at = 0; at < size; at++)
        sum = (sum ^ ((const unsigned char *)bytes)[at]) * FNV_PRIME;
    return sum;
}

/* A sum over what the library answers and writes, on all problems of an order; and one over what it writes to over, which is left out of the first */
struct sums {
    uint64_t all;
    uint64_t over;
};

static struct sums sums_of(const struct act *act, int64_t n)
{
    struct sums sums = {FNV_START, FNV_START};
    own_sums = 1;
    for (int place = 0; place < PROBLEMS; place++) {
        memset(&out, 0x5A, sizeof out);
        int64_t answer = act->sides[LIBRARY](n, problem_of(act->kind, n, place));
        sums.over = add_bytes(sums.over, &out.over, sizeof out.over);
        out.over = 0;
        sums.all = add_bytes((sums.all ^ (uint64_t)answer) * FNV_PRIME, &out, sizeof out);
    }
    own_sums = 0;
    return sums;
}

/*
 * Whether the library has an act, the same one not twice: those between FACTORING_FLOATING and the acts with halves apart have the library's
 * sides of others. An archive before version 0.5 refuses halves that are apart.
 */
static int has_act(int a)
{
    const struct act *act = &acts[a];
    if ((a >= FACTORING_FLOATING && a < APART_FACTOR_TEST) || a > APART_POOL || !act->sides[LIBRARY])
        return 0;
    int64_t answer = act->sides[LIBRARY](act->last_order, problem_of(act->kind, act->last_order, 0));
    return answer != LACKING && answer != HB_REFUSED_LOPSIDED;
}

/* Whether an act has fewer steps in this archive than now: before version 0.6 a definite verdict came without the residual of its factor. */
static int has_fewer_steps(int a)
{
    return !HAS_OVER && (a == JUDGE_DEFINITE || a == APART_JUDGE);
}

static void print_alone(int a, int64_t n)
{
    struct sums sums = sums_of(&acts[a], n);
    char over[20] = "-";
    if (HAS_OVER)
        snprintf(over, sizeof over, "%016llx", (unsigned long long)sums.over);
    printf("%d %d %.2f %016llx %s %s %s\n", a, (int)n, time_of(&acts[a], n, LIBRARY), (unsigned long long)sums.all, over,
           has_fewer_steps(a) ? "fewer" : "all", acts[a].name);
}

static void time_alone(void)
{
    for (int round = 0; round < ALONE_ROUNDS; round++)
        for (int a = 0; a < ACTS; a++)
            for (int64_t n = acts[a].first_order; n <= acts[a].last_order; n++)
                if (has_act(a))
                    measure(&acts[a], n, LIBRARY, round);
    for (int a = 0; a < ACTS; a++)
        for (int64_t n = acts[a].first_order; n <= acts[a].last_order; n++)
            if (has_act(a))
                print_alone(a, n);
}

static double instructions_of(const struct act *act, int64_t n, int k)
{
    return act->cells[n][k].instructions;
}

/* One of the two above */
typedef double cost(const struct act *act, int64_t n, int k);

/* A number, or a line where there is none, in the given width */
static void print_number(double number, int width, int digits)
{
    if (number > 0)
        printf(" %*.*f", width, digits, number);
    else
        printf(" %*s", width, "-");
}

static void print_ratio(double number, double to, int width)
{
    print_number(number > 0 && to > 0 ? number / to : 0, width, number < to / 10 ? 4 : 2);
}

/* The costs of the sides to last - 1, the library's ratio to those from second on, and its growth from the order before */
static void print_costs(const struct act *act, int64_t n, cost *cost, int digits, int second, int last)
{
    for (int k = 0; k < last; k++)
        print_number(cost(act, n, k), 11, digits);
    for (int k = second; k < last; k++)
        print_ratio(cost(act, n, LIBRARY), cost(act, n, k), 7);
    print_ratio(cost(act, n, LIBRARY), n > act->first_order ? cost(act, n - 1, LIBRARY) : 0, 7);
}

/* How often the cost of the first order that of the last one is, side by side */
static void print_growth(const struct act *act, cost *cost, int second, int last)
{
    for (int k = 0; k < last; k++)
        print_ratio(cost(act, act->last_order, k), cost(act, act->first_order, k), 11);
    printf("%*s", 8 * (last - second + 1), "");
}

static void print_heads(int second, int last)
{
    static const char *const ratios[SIDES] = {"", "/plain", "/tuned", "/dpotrf", "/arb"};
    for (int k = 0; k < last; k++)
        printf(" %11s", side_names[k]);
    for (int k = second; k < last; k++)
        printf(" %7s", ratios[k]);
    printf(" %7s", "growth");
}

static void print_act(const struct act *act, int second, int last)
{
    printf("\n%s\n%-7s%-*sinstructions a call\n", act->name, "", 12 * last + 8 * (last - second + 1) + 3, " nanoseconds a call");
    printf("%5s  ", "order");
    print_heads(second, last);
    printf("  ");
    print_heads(second, last);
    printf("\n");
    for (int64_t n = act->first_order; n <= act->last_order; n++) {
        printf("%5d  ", (int)n);
        print_costs(act, n, time_of, 1, second, last);
        printf("  ");
        print_costs(act, n, instructions_of, 0, second, last);
        printf("\n");
    }
    if (act->last_order == act->first_order)
        return;
    printf("%3d/%d  ", act->last_order, act->first_order);
    print_growth(act, time_of, second, last);
    printf("  ");
    print_growth(act, instructions_of, second, last);
    printf("\n");
}

/* The judge's longest calls, beside the search that takes the vectors one by one: the goal is a hundredth. */
static void print_longest(void)
{
    const struct act *act = &acts[JUDGE_UNDECIDED];
    double one_by_one = time_of(act, HB_MAX_ORDER, PLAIN);
    printf("\nthe judge's longest calls, of order %d: the library takes 1/%.0f of the time of the one-by-one search, tuned C 1/%.0f\n", HB_MAX_ORDER,
           one_by_one / time_of(act, HB_MAX_ORDER, LIBRARY), one_by_one / time_of(act, HB_MAX_ORDER, TUNED));
}

/* The bus at the greatest order: its longest tick is the search. */
static void print_bus(void)
{
    printf("\nthe bus, order %d, nanoseconds: a start %.0f, the tick of the last column %.0f, that of the search, the longest, %.0f\n",
           HB_MAX_ORDER, time_of(&acts[BUS_START], HB_MAX_ORDER, LIBRARY), time_of(&acts[BUS_COLUMN], HB_MAX_ORDER, LIBRARY),
           time_of(&acts[BUS_SEARCH], HB_MAX_ORDER, LIBRARY));
}

/* The greatest part of plain C's time that the library may take at the act's last order */
static const struct {
    int act;
    double most;
} limits[] = {
    {FACTORING, 1.2},         {FACTOR_TEST, 1.2},  {JUDGE_DEFINITE, 1.1},    {BOX, 1.2},           {JUDGE_UNDECIDED, 0.01},
    {BRACKET_DEFINITE, 0.2},  {BRACKET_NOT, 0.2},  {BRACKET_UNDECIDED, 0.2}, {GATHER, 1.5},        {READ_SUMS, 1.5},
    {WRITE_SUMMARY, 1.5},     {READ_SUMMARY, 1.5}, {APART_FACTOR_TEST, 1.2}, {APART_JUDGE, 1.1},   {APART_BOX, 1.2},
    {APART_BRACKET, 0.2},     {APART_GATHER, 1.5}, {POOL, 1.5},              {POOL_HALVED, 1.5},   {APART_POOL, 1.5},
    {BUS_DEFINITE, 1.2},      {BUS_LATE, 0.01},
};

/* How often the time of the judge an act of the bus may take on the same problems, both of the library, at the greatest order */
static const struct {
    int act;
    int judge;
    double most;
} bus_limits[] = {
    {BUS_LATE, JUDGE_LATE, 1.5},
    {BUS_DEFINITE, JUDGE_DEFINITE, 2},
};

/* Prints whether these are kept. */
static int keeps_bus_limits(void)
{
    int kept = 1;
    printf("\nlimits at the greatest order, of the library's time on the bus beside its judge's\n");
    for (size_t k = 0; k < sizeof bus_limits / sizeof bus_limits[0]; k++) {
        double most = bus_limits[k].most, time = time_of(&acts[bus_limits[k].act], HB_MAX_ORDER, LIBRARY);
        double ratio = time / time_of(&acts[bus_limits[k].judge], HB_MAX_ORDER, LIBRARY);
        printf("%-60s %.4f, at most %.2f: %s\n", acts[bus_limits[k].act].name, ratio, most, ratio <= most ? "kept" : "BROKEN");
        kept = kept && ratio <= most;
    }
    return kept;
}

/* Prints whether the limits are kept. What has no side of the library is not measured. */
static int keeps_limits(void)
{
    int kept = 1;
    printf("\nlimits at the greatest order, of the library's time beside plain C's\n");
    for (size_t k = 0; k < sizeof limits / sizeof limits[0]; k++) {
        const struct act *act = &acts[limits[k].act];
        double most = limits[k].most, ratio = time_of(act, act->last_order, LIBRARY) / time_of(act, act->last_order, PLAIN);
        if (!act->sides[LIBRARY]) {
            printf("%-60s not measured: the bench's own archive is absent\n", act->name);
            continue;
        }
        printf("%-60s %.4f, at most %.2f: %s\n", act->name, ratio, most, ratio <= most ? "kept" : "BROKEN");
        kept = kept && ratio <= most;
    }
    return kept;
}

/* How many thin problems of a kind, of all orders, each side says are definite */
static void print_said(const char *name, enum kind kind)
{
    const struct act *act = &acts[CHOLESKY];
    int first_order = kind == UNDECIDED ? 2 : 1;
    take_kind(kind);
    printf("%-52s", name);
    for (int k = 0; k < SIDES; k++) {
        int said = 0;
        for (int64_t n = first_order; n <= HB_MAX_ORDER; n++)
            for (int place = 0; act->sides[k] && place < PROBLEMS; place++)
                said += act->sides[k](n, problem_of(kind, n, place)) == 0;
        if (act->sides[k])
            printf(" %11d", said);
        else
            printf(" %11s", "-");
    }
    printf(" %11d\n", PROBLEMS * (HB_MAX_ORDER + 1 - first_order));
}

static void print_peers(void)
{
    print_act(&acts[CHOLESKY], LAPACK_SIDE, SIDES);
    printf("\n%-52s", "how many matrices each says are definite");
    for (int k = 0; k < SIDES; k++)
        printf(" %11s", side_names[k]);
    printf(" %11s\n", "of");
    print_said("definite", THIN);
    print_said("singular: x'Mx = 0 for a whole-number x", SINGULAR);
    print_said("definite by little: B'B, B of determinant not 0", UNDECIDED);
    printf("\nwhat each proves\n"
           "library      every matrix from low to high is positive definite, not this one alone: the code is proved to meet that contract; whole numbers\n"
           "plain C      nothing: the steps of docs/RULES.md, compared with the library's answers\n"
           "tuned C      nothing: other steps, compared likewise\n"
           "dpotrf       nothing of the given matrix: floating point, without a bound of its error\n"
           "arb_mat_cho  balls that hold the factor, so that every matrix in the balls given is positive definite: as far as one trusts Arb's code\n");
}

int main(int count, char **arguments)
{
    const char *mode = count > 1 ? arguments[1] : "time";
    take_out();
    draw_problems();
    draw_buses();
    take_kind(THIN);
    if (strcmp(mode, "count") == 0) {
        count_all();
        return 0;
    }
    if (strcmp(mode, "alone") == 0) {
        time_alone();
        return 0;
    }
    compare_all();
    compare_all_mended();
    if (strcmp(mode, "compare") == 0)
        return 0;
    if (count > 2 && !read_counts(arguments[2]))
        printf("no instructions: %s cannot be read\n", arguments[2]);
    measure_all();
    for (int a = 0; a < CHOLESKY; a++)
        print_act(&acts[a], PLAIN, COMPARED_SIDES);
    print_longest();
    print_bus();
    print_peers();
    return keeps_limits() & keeps_bus_limits() ? 0 : 1;
}
