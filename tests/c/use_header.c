/* Uses the library through its header alone, as C99, C11 and C++. The last line printed is 'N passed, M failed'. */
#include "hankboulder.h"

#include <stddef.h>
#include <stdio.h>
#include <string.h>

#define ORDER 2
#define ENTRIES (ORDER * ORDER)

static int passed;
static int failed;

static void expect(const char *what, int64_t given, int64_t expected)
{
    if (given == expected) {
        passed++;
        return;
    }
    failed++;
    printf("%s: %ld, not %ld\n", what, (long)given, (long)expected);
}

/* Writes numbers into a buffer, 8 bytes each, low byte first, on any processor. */
static void store(uint8_t *buffer, const int64_t *numbers, size_t count)
{
    size_t k, byte;
    for (k = 0; k < count; k++)
        for (byte = 0; byte < HB_NUMBER_BYTES; byte++)
            buffer[k * HB_NUMBER_BYTES + byte] = (uint8_t)((uint64_t)numbers[k] >> (8 * byte));
}

/* Reads numbers back from a buffer, on any processor. */
static void load(int64_t *numbers, const uint8_t *buffer, size_t count)
{
    size_t k, byte;
    for (k = 0; k < count; k++) {
        uint64_t bits = 0;
        for (byte = HB_NUMBER_BYTES; byte > 0; byte--)
            bits = bits << 8 | buffer[k * HB_NUMBER_BYTES + byte - 1];
        numbers[k] = bits >> 63 ? -(int64_t)~bits - 1 : (int64_t)bits;
    }
}

/*
 * A call of the factor test, its expected answer, and what the rows have over where that is no refusal. low and high are lent whole, the
 * factor with factor_len bytes.
 */
struct factor_case {
    const char *what;
    int64_t n;
    int64_t low[ENTRIES];
    int64_t high[ENTRIES];
    int64_t factor[ENTRIES];
    size_t factor_len;
    int64_t expected;
    int64_t over;
};

#define WHOLE HB_TABLE_BYTES(ORDER)
#define MATRIX {2, 1, 1, 2}
#define FACTOR {89738, 47861, 0, 75910}

static const struct factor_case factor_cases[] = {
    {"the factor of [2 1; 1 2]", 2, MATRIX, MATRIX, FACTOR, WHOLE, HB_ACCEPTED, 536914293},
    {"the same, and high wider", 2, MATRIX, {2, 2, 2, 2}, FACTOR, WHOLE, HB_NOT_ACCEPTED, -3758053003},
    {"a factor of twice the identity", 2, MATRIX, MATRIX, {131072, 0, 0, 131072}, WHOLE, HB_NOT_ACCEPTED, -12884901888},
    {"order 0", 0, MATRIX, MATRIX, FACTOR, WHOLE, HB_REFUSED_ORDER, 0},
    {"order 9", 9, MATRIX, MATRIX, FACTOR, WHOLE, HB_REFUSED_ORDER, 0},
    {"order 2^32 + 2", ((int64_t)1 << 32) + 2, MATRIX, MATRIX, FACTOR, WHOLE, HB_REFUSED_ORDER, 0},
    {"tables of order 2 at order 1", 1, MATRIX, MATRIX, FACTOR, WHOLE, HB_REFUSED_LENGTH, 0},
    {"a factor one byte short", 2, MATRIX, MATRIX, FACTOR, WHOLE - 1, HB_REFUSED_LENGTH, 0},
    {"an entry above the range", 2, MATRIX, {HB_ENTRY_RANGE + 1, 1, 1, 2}, FACTOR, WHOLE, HB_REFUSED_RANGE, 0},
    {"the least 64-bit number", 2, {2, INT64_MIN, 1, 2}, MATRIX, FACTOR, WHOLE, HB_REFUSED_RANGE, 0},
    {"low above high", 2, {2, 1, 1, 3}, MATRIX, FACTOR, WHOLE, HB_REFUSED_CROSSED, 0},
    {"a half of low that is mended away", 2, {2, 0, 1, 2}, MATRIX, FACTOR, WHOLE, HB_ACCEPTED, 536914293},
    {"a half of high that is mended away", 2, MATRIX, {2, 1, 9, 2}, FACTOR, WHOLE, HB_ACCEPTED, 536914293},
    {"both, at the ends of their range", 2, {2, -HB_ENTRY_RANGE, 1, 2}, {2, 1, HB_ENTRY_RANGE, 2}, FACTOR, WHOLE, HB_ACCEPTED, 536914293},
    {"a half below the range that would be mended away", 2, {2, -HB_ENTRY_RANGE - 1, 1, 2}, MATRIX, FACTOR, WHOLE, HB_REFUSED_RANGE, 0},
    {"a half that is crossed", 2, {2, 2, 1, 2}, MATRIX, FACTOR, WHOLE, HB_REFUSED_CROSSED, 0},
    {"halves that leave no number", 2, {2, 0, 1, 2}, {2, 0, 1, 2}, FACTOR, WHOLE, HB_REFUSED_LOPSIDED, 0},
    {"a diagonal entry 0", 2, MATRIX, MATRIX, {89738, 47861, 0, 0}, WHOLE, HB_REFUSED_FACTOR, 0},
    {"an entry below the diagonal", 2, MATRIX, MATRIX, {89738, 47861, 1, 75910}, WHOLE, HB_REFUSED_FACTOR, 0},
    {"an entry above the range of factors", 2, MATRIX, MATRIX, {89738, HB_FACTOR_RANGE + 1, 0, 75910}, WHOLE, HB_REFUSED_FACTOR, 0},
    {"a factor that has nothing over", 2, {1, 3, 3, 10}, {1, 3, 3, 10}, {65536, 196608, 0, 65536}, WHOLE, HB_ACCEPTED, 0},
    {"a factor that falls short by little", 2, {1, 3, 3, 10}, {1, 3, 3, 10}, {65536, 196607, 0, 65536}, WHOLE, HB_NOT_ACCEPTED, -65536},
    {"a factor that falls short by 1", 2, {0, 0, 0, 1}, {0, 0, 0, 1}, {1, 0, 0, 1}, WHOLE, HB_NOT_ACCEPTED, -1},
};

/* What every output holds before a call */
#define KEPT 0x5A

/* Whether every byte of a buffer is as it was. */
static int kept(const uint8_t *buffer, size_t size)
{
    size_t k;
    for (k = 0; k < size; k++)
        if (buffer[k] != KEPT)
            return 0;
    return 1;
}

/* Whether a number stands in a buffer from its second byte on, and the bytes beside it are as they were. */
static int holds_alone(const uint8_t buffer[1 + HB_OVER_BYTES + 1], int64_t number)
{
    return hb_load_number(buffer + 1) == number && kept(buffer, 1) && kept(buffer + 1 + HB_OVER_BYTES, 1);
}

static void run_factor_case(const struct factor_case *test)
{
    /* One byte more, so that the buffers start at an odd address. */
    uint8_t low[1 + WHOLE], high[1 + WHOLE], factor[1 + WHOLE], over[1 + HB_OVER_BYTES + 1];
    int64_t answer;
    store(low + 1, test->low, ENTRIES);
    store(high + 1, test->high, ENTRIES);
    store(factor + 1, test->factor, ENTRIES);
    memset(over, KEPT, sizeof over);
    answer = hb_test_factor(test->n, low + 1, WHOLE, high + 1, WHOLE, factor + 1, test->factor_len, over + 1, HB_OVER_BYTES);
    expect(test->what, answer, test->expected);
    if (answer <= 0) {
        expect("what the rows have over", hb_load_number(over + 1), test->over);
        expect("no byte beside it is written", holds_alone(over, test->over), 1);
    } else {
        expect("what the rows have over is kept", kept(over, sizeof over), 1);
    }
}

/* A call of the vector test and its expected answer. */
struct vector_case {
    const char *what;
    int64_t low[ENTRIES];
    int64_t high[ENTRIES];
    int64_t vector[ORDER];
    size_t vector_len;
    int64_t expected;
};

#define WHOLE_VECTOR HB_VECTOR_BYTES(ORDER)

static const struct vector_case vector_cases[] = {
    {"(1, -1) of [1 2; 2 1]", {1, 2, 2, 1}, {1, 2, 2, 1}, {1, -1}, WHOLE_VECTOR, HB_YES},
    {"(1, -1) of [2 1; 1 2]", MATRIX, MATRIX, {1, -1}, WHOLE_VECTOR, HB_NO},
    {"a vector one byte short", MATRIX, MATRIX, {1, -1}, WHOLE_VECTOR - 1, HB_REFUSED_LENGTH},
    {"the zero vector", MATRIX, MATRIX, {0, 0}, WHOLE_VECTOR, HB_REFUSED_VECTOR},
    {"an entry above the range of vectors", MATRIX, MATRIX, {0, HB_VECTOR_RANGE + 1}, WHOLE_VECTOR, HB_REFUSED_VECTOR},
    {"an entry at its end", MATRIX, MATRIX, {0, HB_VECTOR_RANGE}, WHOLE_VECTOR, HB_NO},
    {"halves of one table that leave no number", {1, 2, 3, 1}, {1, 2, 3, 1}, {1, -1}, WHOLE_VECTOR, HB_REFUSED_LOPSIDED},
    {"(1, 1) of halves apart, mended [1 1; 1 1]", {1, -3, 1, 1}, {1, 1, 2, 1}, {1, 1}, WHOLE_VECTOR, HB_NO},
};

static void run_vector_case(const struct vector_case *test)
{
    uint8_t low[1 + WHOLE], high[1 + WHOLE], vector[1 + WHOLE_VECTOR];
    store(low + 1, test->low, ENTRIES);
    store(high + 1, test->high, ENTRIES);
    store(vector + 1, test->vector, ORDER);
    expect(test->what, hb_test_vector(ORDER, low + 1, WHOLE, high + 1, WHOLE, vector + 1, test->vector_len), test->expected);
}

/*
 * A call of the judge, the answer it gives, and the numbers it writes: those of the factor and what its rows have over where it is 0, those
 * of the vector where it is -1.
 */
struct judge_case {
    const char *what;
    int64_t n;
    int64_t low[ENTRIES];
    int64_t high[ENTRIES];
    size_t vector_len;
    int64_t expected;
    int64_t written[ENTRIES];
    int64_t over;
};

static const struct judge_case judge_cases[] = {
    {"judge [2 1; 1 2]", 2, MATRIX, MATRIX, WHOLE_VECTOR, HB_DEFINITE, FACTOR, 536914293},
    {"judge [2 -1; -1 2]", 2, {2, -1, -1, 2}, {2, -1, -1, 2}, WHOLE_VECTOR, HB_DEFINITE, {89738, -47862, 0, 75909}, 536914407},
    {"judge [1 2; 2 1]", 2, {1, 2, 2, 1}, {1, 2, 2, 1}, WHOLE_VECTOR, HB_NOT_DEFINITE, {1, -1}, 0},
    {"judge [1 0; 0 1] to [1 2; 2 1]", 2, {1, 0, 0, 1}, {1, 2, 2, 1}, WHOLE_VECTOR, HB_NOT_DEFINITE, {1, -1}, 0},
    {"judge [1 1000; 1000 10000]", 2, {1, 1000, 1000, 10000}, {1, 1000, 1000, 10000}, WHOLE_VECTOR, HB_NOT_DEFINITE, {-1143, 1}, 0},
    {"judge [100 37; 37 13]", 2, {100, 37, 37, 13}, {100, 37, 37, 13}, WHOLE_VECTOR, HB_NOT_DEFINITE, {-24, 64}, 0},
    {"judge [1 3; 3 10]", 2, {1, 3, 3, 10}, {1, 3, 3, 10}, WHOLE_VECTOR, HB_UNDECIDED, {0}, 0},
    {"judge at order 0", 0, MATRIX, MATRIX, WHOLE_VECTOR, HB_REFUSED_ORDER, {0}, 0},
    {"judge at order 9", 9, MATRIX, MATRIX, WHOLE_VECTOR, HB_REFUSED_ORDER, {0}, 0},
    {"judge with a vector one byte short", 2, MATRIX, MATRIX, WHOLE_VECTOR - 1, HB_REFUSED_LENGTH, {0}, 0},
    {"judge with a vector as long as a table", 2, MATRIX, MATRIX, WHOLE, HB_REFUSED_LENGTH, {0}, 0},
    {"judge an entry above the range", 2, MATRIX, {2, 1, 1, HB_ENTRY_RANGE + 1}, WHOLE_VECTOR, HB_REFUSED_RANGE, {0}, 0},
    {"judge low above high", 2, {2, 2, 2, 2}, MATRIX, WHOLE_VECTOR, HB_REFUSED_CROSSED, {0}, 0},
    {"judge halves that are mended to [2 1; 1 2]", 2, {2, 0, 1, 2}, {2, 1, 2, 2}, WHOLE_VECTOR, HB_DEFINITE, FACTOR, 536914293},
    {"judge halves that are mended to [1 2; 2 1]", 2, {1, -9, 2, 1}, {1, 2, 5, 1}, WHOLE_VECTOR, HB_NOT_DEFINITE, {1, -1}, 0},
    {"judge halves that are mended to [1 3; 3 10]", 2, {1, 3, 2, 10}, {1, 1000, 3, 10}, WHOLE_VECTOR, HB_UNDECIDED, {0}, 0},
    {"judge halves that leave no number", 2, {2, 0, 2, 2}, {2, 1, 3, 2}, WHOLE_VECTOR, HB_REFUSED_LOPSIDED, {0}, 0},
};

/* Whether count numbers at a buffer are the expected ones. */
static int holds(const uint8_t *buffer, const int64_t *expected, size_t count)
{
    int64_t numbers[ENTRIES];
    load(numbers, buffer, count);
    return memcmp(numbers, expected, count * sizeof *numbers) == 0;
}

/* Judges, and then has what was written tested by the other two functions. */
static void run_judge_case(const struct judge_case *test)
{
    uint8_t low[1 + WHOLE], high[1 + WHOLE], factor[1 + WHOLE + 1], vector[1 + WHOLE + 1], over[1 + HB_OVER_BYTES + 1];
    uint8_t tested[HB_OVER_BYTES];
    int64_t answer;
    store(low + 1, test->low, ENTRIES);
    store(high + 1, test->high, ENTRIES);
    memset(factor, KEPT, sizeof factor);
    memset(vector, KEPT, sizeof vector);
    memset(over, KEPT, sizeof over);
    answer = hb_judge(test->n, low + 1, WHOLE, high + 1, WHOLE, factor + 1, WHOLE, vector + 1, test->vector_len, over + 1, HB_OVER_BYTES);
    expect(test->what, answer, test->expected);
    expect("the tables are as they were", holds(low + 1, test->low, ENTRIES) && holds(high + 1, test->high, ENTRIES), 1);
    switch (answer) {
    case HB_DEFINITE:
        expect("the factor is written", holds(factor + 1, test->written, ENTRIES), 1);
        expect("no byte beside it is", kept(factor, 1) && kept(factor + 1 + WHOLE, 1), 1);
        expect("the vector is kept", kept(vector, sizeof vector), 1);
        expect("what its rows have over is written", holds_alone(over, test->over), 1);
        expect("the factor is accepted",
               hb_test_factor(ORDER, low + 1, WHOLE, high + 1, WHOLE, factor + 1, WHOLE, tested, sizeof tested), HB_ACCEPTED);
        expect("with the same number over", memcmp(over + 1, tested, sizeof tested), 0);
        break;
    case HB_NOT_DEFINITE:
        expect("the vector is written", holds(vector + 1, test->written, ORDER), 1);
        expect("no byte beside it is", kept(vector, 1) && kept(vector + 1 + WHOLE_VECTOR, sizeof vector - 1 - WHOLE_VECTOR), 1);
        expect("the factor is kept", kept(factor, sizeof factor) && kept(over, sizeof over), 1);
        expect("the vector shows it", hb_test_vector(ORDER, low + 1, WHOLE, high + 1, WHOLE, vector + 1, WHOLE_VECTOR), HB_YES);
        break;
    default:
        expect("all outputs are kept", kept(factor, sizeof factor) && kept(vector, sizeof vector) && kept(over, sizeof over), 1);
    }
}

/* Every other size of what the rows have over, in both functions; n comes before it, and the tables and the factor behind it */
static void run_over_sizes(void)
{
    static const int64_t good[ENTRIES] = MATRIX, crossed[ENTRIES] = {3, 1, 1, 2}, root[ENTRIES] = FACTOR;
    uint8_t low[WHOLE], above[WHOLE], factor[WHOLE], none[WHOLE], vector[WHOLE_VECTOR], over[3 * HB_OVER_BYTES];
    size_t size;
    expect("its size", HB_OVER_BYTES, 8);
    store(low, good, ENTRIES);
    store(above, crossed, ENTRIES);
    store(factor, root, ENTRIES);
    memset(none, 0, sizeof none);
    memset(over, KEPT, sizeof over);
    for (size = 0; size <= sizeof over; size++) {
        if (size == HB_OVER_BYTES)
            continue;
        expect("test a factor, another size", hb_test_factor(ORDER, low, WHOLE, low, WHOLE, factor, WHOLE, over, size), HB_REFUSED_LENGTH);
        expect("the same and crossed", hb_test_factor(ORDER, above, WHOLE, low, WHOLE, none, WHOLE, over, size), HB_REFUSED_LENGTH);
        expect("the same and order 9", hb_test_factor(9, low, WHOLE, low, WHOLE, factor, WHOLE, over, size), HB_REFUSED_ORDER);
        expect("judge, another size", hb_judge(ORDER, low, WHOLE, low, WHOLE, none, WHOLE, vector, WHOLE_VECTOR, over, size),
               HB_REFUSED_LENGTH);
        expect("the same and crossed", hb_judge(ORDER, above, WHOLE, low, WHOLE, none, WHOLE, vector, WHOLE_VECTOR, over, size),
               HB_REFUSED_LENGTH);
        expect("the same and order 0", hb_judge(0, low, WHOLE, low, WHOLE, none, WHOLE, vector, WHOLE_VECTOR, over, size),
               HB_REFUSED_ORDER);
    }
    expect("nothing is written", kept(over, sizeof over), 1);
}

/* A call of the bracket, the answer it gives, and what it writes: the step where it is 0, bound and vector where it is 0 or -1. */
struct stiffness_case {
    const char *what;
    int64_t n;
    int64_t low[ENTRIES];
    int64_t high[ENTRIES];
    size_t vector_len;
    int64_t expected;
    int64_t step;
    int64_t bound;
    int64_t vector[ORDER];
};

static const struct stiffness_case stiffness_cases[] = {
    {"bracket [5 2; 2 5]", 2, {5, 2, 2, 5}, {5, 2, 2, 5}, WHOLE_VECTOR, HB_BETWEEN, 2, 3, {1, -1}},
    {"bracket [4 1; 1 3]", 2, {4, 1, 1, 3}, {4, 1, 1, 3}, WHOLE_VECTOR, HB_BETWEEN, 2, 3, {0, 1}},
    {"bracket [2 1; 1 2]", 2, MATRIX, MATRIX, WHOLE_VECTOR, HB_BETWEEN, 0, 1, {1, -1}},
    {"bracket [1 0; 0 1]", 2, {1, 0, 0, 1}, {1, 0, 0, 1}, WHOLE_VECTOR, HB_BETWEEN, 0, 1, {0, 1}},
    {"bracket the greatest diagonal", 2, {HB_ENTRY_RANGE, 0, 0, HB_ENTRY_RANGE}, {HB_ENTRY_RANGE, 0, 0, HB_ENTRY_RANGE}, WHOLE_VECTOR,
     HB_BETWEEN, HB_ENTRY_RANGE - 1, HB_ENTRY_RANGE, {0, 1}},
    {"bracket [1 2; 2 1]", 2, {1, 2, 2, 1}, {1, 2, 2, 1}, WHOLE_VECTOR, HB_AT_MOST, 0, -1, {1, -1}},
    {"bracket [1 0; 0 1] to [1 2; 2 1]", 2, {1, 0, 0, 1}, {1, 2, 2, 1}, WHOLE_VECTOR, HB_AT_MOST, 0, -1, {1, -1}},
    {"bracket [0 1; 1 1]", 2, {0, 1, 1, 1}, {0, 1, 1, 1}, WHOLE_VECTOR, HB_AT_MOST, 0, 0, {1, 0}},
    {"bracket [1 3; 3 10]", 2, {1, 3, 3, 10}, {1, 3, 3, 10}, WHOLE_VECTOR, HB_AT_MOST, 0, 1, {1, 0}},
    {"bracket [100 37; 37 13]", 2, {100, 37, 37, 13}, {100, 37, 37, 13}, WHOLE_VECTOR, HB_AT_MOST, 0, 13, {0, 1}},
    {"bracket the least entries", 2, {-HB_ENTRY_RANGE, -HB_ENTRY_RANGE, -HB_ENTRY_RANGE, -HB_ENTRY_RANGE},
     {-HB_ENTRY_RANGE, -HB_ENTRY_RANGE, -HB_ENTRY_RANGE, -HB_ENTRY_RANGE}, WHOLE_VECTOR, HB_AT_MOST, 0, -2 * HB_ENTRY_RANGE, {1, 1}},
    {"bracket halves mended to [3 1; 1 3] and [4 2; 2 4]", 2, {3, -1, 1, 3}, {4, 2, 3, 4}, WHOLE_VECTOR, HB_BETWEEN, 0, 1, {1, -1}},
    {"bracket halves that are mended to [1 2; 2 1]", 2, {1, -9, 2, 1}, {1, 2, 5, 1}, WHOLE_VECTOR, HB_AT_MOST, 0, -1, {1, -1}},
    {"bracket at order 0", 0, MATRIX, MATRIX, WHOLE_VECTOR, HB_REFUSED_ORDER, 0, 0, {0}},
    {"bracket at order 9", 9, MATRIX, MATRIX, WHOLE_VECTOR, HB_REFUSED_ORDER, 0, 0, {0}},
    {"bracket at order 2^32 + 2", ((int64_t)1 << 32) + 2, MATRIX, MATRIX, WHOLE_VECTOR, HB_REFUSED_ORDER, 0, 0, {0}},
    {"bracket tables of order 2 at order 1", 1, MATRIX, MATRIX, HB_VECTOR_BYTES(1), HB_REFUSED_LENGTH, 0, 0, {0}},
    {"bracket with a vector one byte short", 2, MATRIX, MATRIX, WHOLE_VECTOR - 1, HB_REFUSED_LENGTH, 0, 0, {0}},
    {"bracket with a vector as long as a table", 2, MATRIX, MATRIX, WHOLE, HB_REFUSED_LENGTH, 0, 0, {0}},
    {"bracket an entry above the range", 2, MATRIX, {2, 1, 1, HB_ENTRY_RANGE + 1}, WHOLE_VECTOR, HB_REFUSED_RANGE, 0, 0, {0}},
    {"bracket the least 64-bit number", 2, {2, INT64_MIN, 1, 2}, MATRIX, WHOLE_VECTOR, HB_REFUSED_RANGE, 0, 0, {0}},
    {"bracket low above high", 2, {2, 2, 2, 2}, MATRIX, WHOLE_VECTOR, HB_REFUSED_CROSSED, 0, 0, {0}},
    {"bracket halves that leave no number", 2, {2, 0, 2, 2}, {2, 1, 3, 2}, WHOLE_VECTOR, HB_REFUSED_LOPSIDED, 0, 0, {0}},
};

/* The answers of the vector test for the vector of a bracket, with the bound taken off both diagonals and with one less taken off. */
static void test_bracket(const struct stiffness_case *test, const uint8_t *vector)
{
    int64_t off;
    for (off = test->bound - 1; off <= test->bound; off++) {
        int64_t tables[2][ENTRIES];
        uint8_t low[WHOLE], high[WHOLE];
        size_t k;
        memcpy(tables[0], test->low, sizeof tables[0]);
        memcpy(tables[1], test->high, sizeof tables[1]);
        for (k = 0; k < ENTRIES; k += ORDER + 1) {
            tables[0][k] -= off;
            tables[1][k] -= off;
        }
        store(low, tables[0], ENTRIES);
        store(high, tables[1], ENTRIES);
        expect("the vector, with the bound taken off", hb_test_vector(ORDER, low, WHOLE, high, WHOLE, vector, WHOLE_VECTOR),
               off == test->bound ? HB_YES : HB_NO);
    }
}

/* Brackets, and then has the judge say where a step is given, and what was written tested. */
static void run_stiffness_case(const struct stiffness_case *test)
{
    uint8_t low[1 + WHOLE], high[1 + WHOLE], step[1 + HB_STEP_BYTES + 1], bound[1 + HB_BOUND_BYTES + 1], vector[1 + WHOLE + 1];
    uint8_t factor[WHOLE], witness[WHOLE_VECTOR], over[HB_OVER_BYTES];
    int64_t answer, verdict;
    store(low + 1, test->low, ENTRIES);
    store(high + 1, test->high, ENTRIES);
    memset(step, KEPT, sizeof step);
    memset(bound, KEPT, sizeof bound);
    memset(vector, KEPT, sizeof vector);
    answer = hb_stiffness(test->n, low + 1, WHOLE, high + 1, WHOLE, step + 1, HB_STEP_BYTES, bound + 1, HB_BOUND_BYTES, vector + 1,
                          test->vector_len);
    expect(test->what, answer, test->expected);
    expect("the tables are as they were", holds(low + 1, test->low, ENTRIES) && holds(high + 1, test->high, ENTRIES), 1);
    if (answer > 0) {
        expect("all outputs are kept", kept(step, sizeof step) && kept(bound, sizeof bound) && kept(vector, sizeof vector), 1);
        return;
    }
    verdict = hb_judge(ORDER, low + 1, WHOLE, high + 1, WHOLE, factor, WHOLE, witness, WHOLE_VECTOR, over, HB_OVER_BYTES);
    expect("a step is given exactly with a definite verdict", answer == HB_BETWEEN, verdict == HB_DEFINITE);
    expect("the step", answer == HB_BETWEEN ? holds_alone(step, test->step) : kept(step, sizeof step), 1);
    expect("the bound", hb_load_number(bound + 1), test->bound);
    expect("no byte beside it is written", holds_alone(bound, test->bound), 1);
    expect("the vector", holds(vector + 1, test->vector, ORDER), 1);
    expect("no byte beside it is written", kept(vector, 1) && kept(vector + 1 + WHOLE_VECTOR, sizeof vector - 1 - WHOLE_VECTOR), 1);
    if (test->bound > -HB_ENTRY_RANGE)
        test_bracket(test, vector + 1);
}

/* Every other size of step and of bound, of a bracket with a step and of one without; n comes before it, and the tables behind it */
static void run_stiffness_sizes(void)
{
    static const int64_t good[ENTRIES] = MATRIX, flat[ENTRIES] = {1, 1, 1, 1}, crossed[ENTRIES] = {3, 1, 1, 2};
    uint8_t tables[2][WHOLE], above[WHOLE], vector[WHOLE_VECTOR], one[3 * HB_STEP_BYTES], other[HB_BOUND_BYTES];
    size_t size, k;
    expect("the size of a step", HB_STEP_BYTES, 8);
    expect("that of a bound", HB_BOUND_BYTES, 8);
    store(tables[0], good, ENTRIES);
    store(tables[1], flat, ENTRIES);
    store(above, crossed, ENTRIES);
    memset(vector, KEPT, sizeof vector);
    memset(one, KEPT, sizeof one);
    memset(other, KEPT, sizeof other);
    for (size = 0; size <= sizeof one; size++) {
        if (size == HB_STEP_BYTES)
            continue;
        for (k = 0; k < 2; k++) {
            const uint8_t *low = tables[k];
            expect("a step of another size",
                   hb_stiffness(ORDER, low, WHOLE, low, WHOLE, one, size, other, HB_BOUND_BYTES, vector, WHOLE_VECTOR), HB_REFUSED_LENGTH);
            expect("a bound of another size",
                   hb_stiffness(ORDER, low, WHOLE, low, WHOLE, other, HB_STEP_BYTES, one, size, vector, WHOLE_VECTOR), HB_REFUSED_LENGTH);
            expect("the same and crossed",
                   hb_stiffness(ORDER, above, WHOLE, low, WHOLE, one, size, other, HB_BOUND_BYTES, vector, WHOLE_VECTOR),
                   HB_REFUSED_LENGTH);
            expect("the same and order 9",
                   hb_stiffness(9, low, WHOLE, low, WHOLE, other, HB_STEP_BYTES, one, size, vector, WHOLE_VECTOR), HB_REFUSED_ORDER);
        }
    }
    expect("nothing is written", kept(one, sizeof one) && kept(other, sizeof other) && kept(vector, sizeof vector), 1);
}

/* A call of the box, the answer it gives, and the sides it writes where that is 0. */
struct box_case {
    const char *what;
    int64_t n;
    int64_t low[ENTRIES];
    int64_t high[ENTRIES];
    int64_t linear_low[ORDER];
    int64_t linear_high[ORDER];
    int64_t limit;
    int64_t centre[ORDER];
    size_t linear_high_len;
    size_t sides_len;
    int64_t expected;
    int64_t sides[2 * ORDER];
};

#define WHOLE_SIDES HB_SIDES_BYTES(ORDER)

/* One table as low and high */
#define BOTH(a, b, c, d) {a, b, c, d}, {a, b, c, d}

#define ROUND BOTH(5, 1, 1, 5)
#define ZEROS {0, 0}

/* The lengths of the high linear terms and of the sides */
#define GOOD WHOLE_VECTOR, WHOLE_SIDES

static const struct box_case box_cases[] = {
    {"box of [5 1; 1 5] from (1, 0)", 2, ROUND, {1, 1}, {1, 1}, 12, {1, 0}, GOOD, HB_BOX, {-4, 6, -4, 4}},
    {"box of [4 0; 0 100]", 2, BOTH(4, 0, 0, 100), ZEROS, ZEROS, 400, ZEROS, GOOD, HB_BOX, {-12, 12, -3, 3}},
    {"box of limit 0", 2, ROUND, ZEROS, ZEROS, 0, ZEROS, GOOD, HB_BOX, {0, 0, 0, 0}},
    {"box of linear terms from -4 to 4 and 0", 2, BOTH(4, 0, 0, 4), {-4, 0}, {4, 0}, 0, ZEROS, GOOD, HB_BOX, {-4, 4, -2, 2}},
    {"box of linear terms from 4 to 8 and 0, from (-2, 0)", 2, BOTH(4, 0, 0, 4), {4, 0}, {8, 0}, 0, {-2, 0}, GOOD, HB_BOX, {-7, 3, -3, 3}},
    {"box of halves apart, mended [9 0; 0 9]", 2, {9, -9, 0, 9}, {9, 0, 9, 9}, ZEROS, ZEROS, 9, ZEROS, GOOD, HB_BOX, {-2, 2, -2, 2}},
    {"box of limit -1", 2, ROUND, ZEROS, ZEROS, -1, ZEROS, GOOD, HB_EMPTY, {0}},
    {"box of limit -3 and linear terms from -1 to 1", 2, ROUND, {-1, -1}, {1, 1}, -3, ZEROS, GOOD, HB_EMPTY, {0}},
    {"box of the least limit", 2, ROUND, ZEROS, ZEROS, -HB_LIMIT_RANGE, ZEROS, GOOD, HB_EMPTY, {0}},
    {"box at order 0", 0, ROUND, ZEROS, ZEROS, 0, ZEROS, GOOD, HB_REFUSED_ORDER, {0}},
    {"box at order 9", 9, ROUND, ZEROS, ZEROS, 0, ZEROS, GOOD, HB_REFUSED_ORDER, {0}},
    {"box with sides one byte short", 2, ROUND, ZEROS, ZEROS, 0, ZEROS, WHOLE_VECTOR, WHOLE_SIDES - 1, HB_REFUSED_LENGTH, {0}},
    {"box with sides one number long", 2, ROUND, ZEROS, ZEROS, 0, ZEROS, WHOLE_VECTOR, WHOLE_SIDES + 8, HB_REFUSED_LENGTH, {0}},
    {"box with high terms one byte short", 2, ROUND, ZEROS, ZEROS, 0, ZEROS, WHOLE_VECTOR - 1, WHOLE_SIDES, HB_REFUSED_LENGTH, {0}},
    {"box with no high terms", 2, ROUND, ZEROS, ZEROS, 0, ZEROS, 0, WHOLE_SIDES, HB_REFUSED_LENGTH, {0}},
    {"box of an entry above the range", 2, BOTH(HB_ENTRY_RANGE + 1, 1, 1, 5), ZEROS, ZEROS, 0, ZEROS, GOOD, HB_REFUSED_RANGE, {0}},
    {"box of a low term below the range", 2, ROUND, {0, -HB_LINEAR_RANGE - 1}, ZEROS, 0, ZEROS, GOOD, HB_REFUSED_RANGE, {0}},
    {"box of a high term above the range", 2, ROUND, ZEROS, {0, HB_LINEAR_RANGE + 1}, 0, ZEROS, GOOD, HB_REFUSED_RANGE, {0}},
    {"box of a limit above the range", 2, ROUND, ZEROS, ZEROS, HB_LIMIT_RANGE + 1, ZEROS, GOOD, HB_REFUSED_RANGE, {0}},
    {"box of the least 64-bit limit", 2, ROUND, ZEROS, ZEROS, INT64_MIN, ZEROS, GOOD, HB_REFUSED_RANGE, {0}},
    {"box from a centre beyond the range", 2, ROUND, ZEROS, ZEROS, 0, {0, -HB_CENTRE_RANGE - 1}, GOOD, HB_REFUSED_RANGE, {0}},
    {"box of a lopsided table", 2, BOTH(5, 1, 2, 5), ZEROS, ZEROS, 0, ZEROS, GOOD, HB_REFUSED_LOPSIDED, {0}},
    {"box of the same, the linear terms reversed", 2, BOTH(5, 1, 2, 5), {0, 1}, ZEROS, 0, ZEROS, GOOD, HB_REFUSED_LOPSIDED, {0}},
    {"box of reversed linear terms", 2, ROUND, {0, 1}, ZEROS, 0, ZEROS, GOOD, HB_REFUSED_REVERSED, {0}},
    {"box of [1 2; 2 1]", 2, BOTH(1, 2, 2, 1), ZEROS, ZEROS, 0, ZEROS, GOOD, HB_REFUSED_FLAT, {0}},
    {"box of the same, and far", 2, BOTH(1, 2, 2, 1), {HB_LINEAR_RANGE, 0}, {HB_LINEAR_RANGE, 0}, 0, ZEROS, GOOD, HB_REFUSED_FLAT, {0}},
    {"box of the same, the linear terms reversed", 2, BOTH(1, 2, 2, 1), {1, 0}, ZEROS, 0, ZEROS, GOOD, HB_REFUSED_REVERSED, {0}},
    {"box of a low term at its end", 2, ROUND, {0, -HB_LINEAR_RANGE}, ZEROS, 0, ZEROS, GOOD, HB_REFUSED_FAR, {0}},
    {"box of a high term at its end", 2, ROUND, ZEROS, {0, HB_LINEAR_RANGE}, 0, ZEROS, GOOD, HB_REFUSED_FAR, {0}},
};

static void run_box_case(const struct box_case *test)
{
    uint8_t low[1 + WHOLE], high[1 + WHOLE], linear_low[1 + WHOLE_VECTOR], linear_high[1 + WHOLE_VECTOR], centre[1 + WHOLE_VECTOR];
    uint8_t sides[1 + WHOLE_SIDES + HB_NUMBER_BYTES + 1];
    int64_t answer;
    store(low + 1, test->low, ENTRIES);
    store(high + 1, test->high, ENTRIES);
    store(linear_low + 1, test->linear_low, ORDER);
    store(linear_high + 1, test->linear_high, ORDER);
    store(centre + 1, test->centre, ORDER);
    memset(sides, KEPT, sizeof sides);
    answer = hb_box(test->n, low + 1, WHOLE, high + 1, WHOLE, linear_low + 1, WHOLE_VECTOR, linear_high + 1, test->linear_high_len,
                    test->limit, centre + 1, WHOLE_VECTOR, sides + 1, test->sides_len);
    expect(test->what, answer, test->expected);
    expect("the tables are as they were", holds(low + 1, test->low, ENTRIES) && holds(high + 1, test->high, ENTRIES), 1);
    if (answer == HB_BOX) {
        expect("the sides are written", holds(sides + 1, test->sides, 2 * ORDER), 1);
        expect("no byte beside them is", kept(sides, 1) && kept(sides + 1 + WHOLE_SIDES, sizeof sides - 1 - WHOLE_SIDES), 1);
    } else {
        expect("the sides are kept", kept(sides, sizeof sides), 1);
    }
}

/*
 * Case P of the rules as firmware would have it: one coefficient, 4 x^2 - 16 x <= 0, so x from 0 to 4, boxed from the centre 2. With its
 * linear term up to -4 the box is wider.
 */
static void run_box_of_order_1(void)
{
    const int64_t matrix[1] = {4}, linear[1] = {-8}, greater[1] = {-4}, centre[1] = {2}, expected[2] = {-1, 5}, wider[2] = {-3, 7};
    uint8_t table[HB_TABLE_BYTES(1)], terms[HB_VECTOR_BYTES(1)], high_terms[HB_VECTOR_BYTES(1)], middle[HB_VECTOR_BYTES(1)];
    uint8_t sides[HB_SIDES_BYTES(1)], same[HB_TABLE_BYTES(1)];
    store(table, matrix, 1);
    store(same, matrix, 1);
    store(terms, linear, 1);
    store(middle, centre, 1);
    store(high_terms, linear, 1);
    expect("case P",
           hb_box(1, table, sizeof table, same, sizeof same, terms, sizeof terms, high_terms, sizeof high_terms, 0, middle, sizeof middle,
                  sides, sizeof sides),
           HB_BOX);
    expect("its side", holds(sides, expected, 2), 1);
    store(high_terms, greater, 1);
    expect("case P with a wide linear term",
           hb_box(1, table, sizeof table, same, sizeof same, terms, sizeof terms, high_terms, sizeof high_terms, 0, middle, sizeof middle,
                  sides, sizeof sides),
           HB_BOX);
    expect("its side", holds(sides, wider, 2), 1);
}

/* The words stand at their numbers, and there is one for each. */
static void run_words(void)
{
    static const char *const words[] = HB_REFUSAL_WORDS;
    expect("one word for each number", (int64_t)(sizeof words / sizeof words[0]), HB_REFUSED_BUSY + 1);
    expect("no word for 0", strcmp(words[0], ""), 0);
    expect("order", strcmp(words[HB_REFUSED_ORDER], "order"), 0);
    expect("length", strcmp(words[HB_REFUSED_LENGTH], "length"), 0);
    expect("range", strcmp(words[HB_REFUSED_RANGE], "range"), 0);
    expect("crossed", strcmp(words[HB_REFUSED_CROSSED], "crossed"), 0);
    expect("lopsided", strcmp(words[HB_REFUSED_LOPSIDED], "lopsided"), 0);
    expect("factor", strcmp(words[HB_REFUSED_FACTOR], "factor"), 0);
    expect("vector", strcmp(words[HB_REFUSED_VECTOR], "vector"), 0);
    expect("flat", strcmp(words[HB_REFUSED_FLAT], "flat"), 0);
    expect("far", strcmp(words[HB_REFUSED_FAR], "far"), 0);
    expect("cut", strcmp(words[HB_REFUSED_CUT], "cut"), 0);
    expect("tag", strcmp(words[HB_REFUSED_TAG], "tag"), 0);
    expect("again", strcmp(words[HB_REFUSED_AGAIN], "again"), 0);
    expect("absent", strcmp(words[HB_REFUSED_ABSENT], "absent"), 0);
    expect("size", strcmp(words[HB_REFUSED_SIZE], "size"), 0);
    expect("long", strcmp(words[HB_REFUSED_LONG], "long"), 0);
    expect("reversed", strcmp(words[HB_REFUSED_REVERSED], "reversed"), 0);
    expect("its number", HB_REFUSED_REVERSED, 16);
    expect("sample", strcmp(words[HB_REFUSED_SAMPLE], "sample"), 0);
    expect("its number", HB_REFUSED_SAMPLE, 17);
    expect("full", strcmp(words[HB_REFUSED_FULL], "full"), 0);
    expect("its number", HB_REFUSED_FULL, 18);
    expect("falling", strcmp(words[HB_REFUSED_FALLING], "falling"), 0);
    expect("its number", HB_REFUSED_FALLING, 19);
    expect("busy", strcmp(words[HB_REFUSED_BUSY], "busy"), 0);
    expect("its number", HB_REFUSED_BUSY, 20);
}

/* Numbers and their bytes */
struct number_case {
    int64_t number;
    uint8_t bytes[HB_NUMBER_BYTES];
};

static const struct number_case number_cases[] = {
    {0, {0, 0, 0, 0, 0, 0, 0, 0}},
    {1, {1, 0, 0, 0, 0, 0, 0, 0}},
    {-1, {255, 255, 255, 255, 255, 255, 255, 255}},
    {-2, {254, 255, 255, 255, 255, 255, 255, 255}},
    {255, {255, 0, 0, 0, 0, 0, 0, 0}},
    {-256, {0, 255, 255, 255, 255, 255, 255, 255}},
    {0x0102030405060708, {8, 7, 6, 5, 4, 3, 2, 1}},
    {-0x0102030405060708, {0xF8, 0xF8, 0xF9, 0xFA, 0xFB, 0xFC, 0xFD, 0xFE}},
    {HB_LIMIT_RANGE, {0, 0, 0, 0, 0, 0, 0x40, 0}},
    {-HB_LIMIT_RANGE, {0, 0, 0, 0, 0, 0, 0xC0, 0xFF}},
    {INT64_MAX, {255, 255, 255, 255, 255, 255, 255, 127}},
    {INT64_MIN, {0, 0, 0, 0, 0, 0, 0, 128}},
    {INT64_MIN + 1, {1, 0, 0, 0, 0, 0, 0, 128}},
};

/* The two inline functions, at every address, and the bytes beside them kept */
static void run_numbers(void)
{
    size_t k, shift;
    for (k = 0; k < sizeof number_cases / sizeof number_cases[0]; k++) {
        const struct number_case *test = &number_cases[k];
        for (shift = 1; shift <= 8; shift++) {
            uint8_t buffer[8 + HB_NUMBER_BYTES + 1];
            memset(buffer, 0x5A, sizeof buffer);
            hb_store_number(buffer + shift, test->number);
            expect("a number's bytes", memcmp(buffer + shift, test->bytes, HB_NUMBER_BYTES), 0);
            expect("the bytes beside them", buffer[shift - 1] == 0x5A && buffer[shift + HB_NUMBER_BYTES] == 0x5A, 1);
            expect("a number from its bytes", hb_load_number(buffer + shift) == test->number, 1);
        }
    }
}

/* One table may be lent as low and as high, and one buffer as both ends of the linear terms. */
static void run_one_table(void)
{
    const int64_t numbers[ENTRIES] = {5, 1, 1, 5}, zeros[ORDER] = ZEROS, still[2 * ORDER] = {0, 0, 0, 0};
    const int64_t ones[ORDER] = {1, 1}, unit[ORDER] = {1, 0}, around[2 * ORDER] = {-4, 6, -4, 4};
    uint8_t table[WHOLE], factor[WHOLE], vector[WHOLE_VECTOR], terms[WHOLE_VECTOR], middle[WHOLE_VECTOR], sides[WHOLE_SIDES];
    uint8_t over[HB_OVER_BYTES], tested[HB_OVER_BYTES], step[HB_STEP_BYTES], bound[HB_BOUND_BYTES];
    store(table, numbers, ENTRIES);
    store(terms, zeros, ORDER);
    store(middle, zeros, ORDER);
    expect("judge one table",
           hb_judge(ORDER, table, WHOLE, table, WHOLE, factor, WHOLE, vector, WHOLE_VECTOR, over, sizeof over), HB_DEFINITE);
    expect("test its factor", hb_test_factor(ORDER, table, WHOLE, table, WHOLE, factor, WHOLE, tested, sizeof tested), HB_ACCEPTED);
    expect("the same number over", memcmp(over, tested, sizeof over), 0);
    store(vector, numbers, ORDER);
    expect("test a vector", hb_test_vector(ORDER, table, WHOLE, table, WHOLE, vector, WHOLE_VECTOR), HB_NO);
    expect("bracket it",
           hb_stiffness(ORDER, table, WHOLE, table, WHOLE, step, sizeof step, bound, sizeof bound, vector, WHOLE_VECTOR), HB_BETWEEN);
    expect("its step", hb_load_number(step), 3);
    expect("its bound", hb_load_number(bound), 4);
    expect("its vector", hb_load_number(vector) == 1 && hb_load_number(vector + HB_NUMBER_BYTES) == -1, 1);
    expect("box it",
           hb_box(ORDER, table, WHOLE, table, WHOLE, terms, WHOLE_VECTOR, terms, WHOLE_VECTOR, 0, middle, WHOLE_VECTOR, sides, WHOLE_SIDES),
           HB_BOX);
    expect("its sides", holds(sides, still, 2 * ORDER), 1);
    store(terms, ones, ORDER);
    store(middle, unit, ORDER);
    expect("box it from (1, 0)",
           hb_box(ORDER, table, WHOLE, table, WHOLE, terms, WHOLE_VECTOR, terms, WHOLE_VECTOR, 12, middle, WHOLE_VECTOR, sides,
                  WHOLE_SIDES),
           HB_BOX);
    expect("its sides", holds(sides, around, 2 * ORDER), 1);
}

/* Running sums of samples */
#define SUM_ENTRIES (HB_SAMPLE_ORDER * HB_SAMPLE_ORDER)

struct sums {
    uint8_t low[HB_TABLE_BYTES(HB_SAMPLE_ORDER)];
    uint8_t high[HB_TABLE_BYTES(HB_SAMPLE_ORDER)];
    uint8_t linear_low[HB_VECTOR_BYTES(HB_SAMPLE_ORDER)];
    uint8_t linear_high[HB_VECTOR_BYTES(HB_SAMPLE_ORDER)];
    uint8_t running_limit[HB_NUMBER_BYTES];
};

static int64_t gather(struct sums *sums, hb_sample sample)
{
    return hb_gather(sample, HB_SAMPLE_ORDER, sums->low, sizeof sums->low, sums->high, sizeof sums->high, sums->linear_low,
                     sizeof sums->linear_low, sums->linear_high, sizeof sums->linear_high, sums->running_limit, sizeof sums->running_limit);
}

/* The answer, and the limit where it is written */
static int64_t read_sums(const struct sums *sums, int64_t allowance, int64_t *limit)
{
    uint8_t found[HB_NUMBER_BYTES];
    int64_t answer;
    memset(found, KEPT, sizeof found);
    answer = hb_read_sums(HB_SAMPLE_ORDER, sums->low, sizeof sums->low, sums->high, sizeof sums->high, sums->linear_low,
                          sizeof sums->linear_low, sums->linear_high, sizeof sums->linear_high, hb_load_number(sums->running_limit), allowance,
                          found, sizeof found);
    expect("a limit is kept where it is refused", answer != HB_WRITTEN && !kept(found, sizeof found), 0);
    *limit = answer == HB_WRITTEN ? hb_load_number(found) : 0;
    return answer;
}

/* The float with these bits */
static float of_bits(uint32_t bits)
{
    float number;
    memcpy(&number, &bits, sizeof number);
    return number;
}

/* A sample, worked by hand: 16, -8, 4 to 5 and 0, and a draw of 32 to 33 */
static void run_gather(void)
{
    static const int64_t low[SUM_ENTRIES] = {256, -128, 64, 0, -128, 64, -40, 0, 64, -40, 16, 0, 0, 0, 0, 0};
    static const int64_t high[SUM_ENTRIES] = {256, -128, 80, 0, -128, 64, -32, 0, 80, -32, 25, 0, 0, 0, 0, 0};
    static const int64_t linear_low[HB_SAMPLE_ORDER] = {-528, 256, -165, 0}, linear_high[HB_SAMPLE_ORDER] = {-512, 264, -128, 0};
    const hb_sample sample = {1.0f, -0.5f, 0.3f, -0.0f, 2.01f};
    struct sums sums, expected;
    int64_t limit;
    memset(&sums, 0, sizeof sums);
    store(expected.low, low, SUM_ENTRIES);
    store(expected.high, high, SUM_ENTRIES);
    store(expected.linear_low, linear_low, HB_SAMPLE_ORDER);
    store(expected.linear_high, linear_high, HB_SAMPLE_ORDER);
    hb_store_number(expected.running_limit, -1024);
    expect("gather a sample", gather(&sums, sample), HB_TAKEN);
    expect("its sums", memcmp(&sums, &expected, sizeof sums), 0);
    expect("read them with 1000", read_sums(&sums, 1000, &limit), HB_WRITTEN);
    expect("the limit", limit, -24);
    expect("read them with 2^40", read_sums(&sums, HB_MAX_ALLOWANCE, &limit), HB_WRITTEN);
    expect("the limit", limit, HB_MAX_ALLOWANCE - 1024);
    expect("read them with more", read_sums(&sums, HB_MAX_ALLOWANCE + 1, &limit), HB_REFUSED_RANGE);
    expect("read them with less than 0", read_sums(&sums, -1, &limit), HB_REFUSED_RANGE);
    expect("read them with the greatest number", read_sums(&sums, INT64_MAX, &limit), HB_REFUSED_RANGE);
    expect("read them with the least number", read_sums(&sums, INT64_MIN, &limit), HB_REFUSED_RANGE);
}

/* What gathering refuses, and that no sum is altered then */
static void run_gather_refused(void)
{
    static const uint32_t refused[] = {0x41000001, 0xC1000001, 0x7F800000, 0xFF800000, 0x7F800001, 0x7FC00000, 0xFFFFFFFF};
    const hb_sample greatest = {8, 8, 8, 8, 8}, sample = {1, 2, 3, 4, 5};
    struct sums sums, before;
    size_t k;
    int64_t limit;
    memset(&sums, 0, sizeof sums);
    for (k = 0; k < 64; k++)
        expect("gather the greatest sample", gather(&sums, greatest), HB_TAKEN);
    before = sums;
    for (k = 0; k < sizeof refused / sizeof refused[0]; k++) {
        hb_sample other = sample;
        (k % 2 ? &other.rolling : &other.draw)[0] = of_bits(refused[k]);
        expect("gather a number that is none", gather(&sums, other), HB_REFUSED_SAMPLE);
    }
    expect("the sums are as they were", memcmp(&sums, &before, sizeof sums), 0);
    hb_store_number(sums.linear_low, -HB_LINEAR_RANGE - 1);
    expect("gather into sums beyond their range", gather(&sums, sample), HB_REFUSED_RANGE);
    expect("read them", read_sums(&sums, 0, &limit), HB_REFUSED_RANGE);
    hb_store_number(sums.linear_low, HB_LINEAR_RANGE);
    expect("gather into reversed sums", gather(&sums, sample), HB_REFUSED_REVERSED);
    expect("read them", read_sums(&sums, 0, &limit), HB_REFUSED_REVERSED);
    hb_store_number(sums.low + HB_NUMBER_BYTES, 0);
    expect("gather into the same with a half that is mended away", gather(&sums, sample), HB_REFUSED_REVERSED);
    expect("read them", read_sums(&sums, 0, &limit), HB_REFUSED_REVERSED);
    hb_store_number(sums.high + HB_NUMBER_BYTES, 0);
    expect("gather into sums whose halves leave no number", gather(&sums, sample), HB_REFUSED_LOPSIDED);
    expect("read them", read_sums(&sums, 0, &limit), HB_REFUSED_LOPSIDED);
    hb_store_number(sums.high + HB_NUMBER_BYTES, -1);
    before = sums;
    expect("gather into crossed sums", gather(&sums, sample), HB_REFUSED_CROSSED);
    expect("read them", read_sums(&sums, 0, &limit), HB_REFUSED_CROSSED);
    expect("they are as they were", memcmp(&sums, &before, sizeof sums), 0);
}

/* Whether all entries, linear terms and the running limit of sums are these */
static int all_are(const struct sums *sums, int64_t entry, int64_t term, int64_t running_limit)
{
    size_t k;
    int well = hb_load_number(sums->running_limit) == running_limit;
    for (k = 0; k < SUM_ENTRIES; k++)
        well = well && hb_load_number(sums->low + HB_NUMBER_BYTES * k) == entry &&
               hb_load_number(sums->high + HB_NUMBER_BYTES * k) == entry;
    for (k = 0; k < HB_SAMPLE_ORDER; k++)
        well = well && hb_load_number(sums->linear_low + HB_NUMBER_BYTES * k) == term &&
               hb_load_number(sums->linear_high + HB_NUMBER_BYTES * k) == term;
    return well;
}

/* 64 of the greatest sample fill the entries. The next halves all sums, and so does every 32nd behind it; none is refused. */
static void run_gather_halved(void)
{
    const hb_sample greatest = {8, 8, 8, 8, 8};
    struct sums sums;
    int64_t held = 0;
    int k;
    memset(&sums, 0, sizeof sums);
    for (k = 0; k < 200; k++) {
        expect("gather it again", gather(&sums, greatest), HB_TAKEN);
        held = held == 64 ? 33 : held + 1;
        expect("the sums", all_are(&sums, held << 14, -held * (1 << 14), -held * (1 << 14)), 1);
    }
}

/* Orders and sizes that gathering and reading the sums refuse */
static void run_gather_sizes(void)
{
    const hb_sample sample = {1, 2, 3, 4, 5};
    struct sums sums;
    memset(&sums, 0, sizeof sums);
    expect("gather at order 3",
           hb_gather(sample, 3, sums.low, HB_TABLE_BYTES(3), sums.high, HB_TABLE_BYTES(3), sums.linear_low, HB_VECTOR_BYTES(3), sums.linear_high,
                     HB_VECTOR_BYTES(3), sums.running_limit, HB_NUMBER_BYTES),
           HB_REFUSED_LENGTH);
    expect("gather into null buffers", hb_gather(sample, 4, NULL, 0, NULL, 0, NULL, 0, NULL, 0, NULL, 0), HB_REFUSED_LENGTH);
    expect("the same and order 0", hb_gather(sample, 0, NULL, 0, NULL, 0, NULL, 0, NULL, 0, NULL, 0), HB_REFUSED_ORDER);
    expect("read null buffers", hb_read_sums(1, NULL, 0, NULL, 0, NULL, 0, NULL, 0, 0, 0, NULL, 0), HB_REFUSED_LENGTH);
    expect("the same and order 9", hb_read_sums(9, NULL, 0, NULL, 0, NULL, 0, NULL, 0, 0, 0, NULL, 0), HB_REFUSED_ORDER);
}

/* Puts bounds at the entry (1,2) of sums, the first half, or at (2,1), the second. */
static void put_half(struct sums *sums, int second, int64_t low, int64_t high)
{
    size_t place = (second ? HB_SAMPLE_ORDER : 1) * HB_NUMBER_BYTES;
    hb_store_number(sums->low + place, low);
    hb_store_number(sums->high + place, high);
}

/* Sums are mended before a sample is added. A half that is mended away plays no part, and a refusal leaves both as they were. */
static void run_gather_lopsided(void)
{
    /* 1 for the first two factors, so that their entries gain 1 */
    const hb_sample one = {0.0625f, 0.0625f, 0, 0, 0};
    struct sums sums, expected;
    int64_t limit;
    memset(&sums, 0, sizeof sums);
    memset(&expected, 0, sizeof expected);
    put_half(&sums, 0, -3, 5);
    put_half(&sums, 1, -2, HB_ENTRY_RANGE);
    put_half(&expected, 0, -1, 6);
    put_half(&expected, 1, -1, 6);
    hb_store_number(expected.low, 1);
    hb_store_number(expected.high, 1);
    hb_store_number(expected.low + (HB_SAMPLE_ORDER + 1) * HB_NUMBER_BYTES, 1);
    hb_store_number(expected.high + (HB_SAMPLE_ORDER + 1) * HB_NUMBER_BYTES, 1);
    expect("read lopsided sums", read_sums(&sums, 7, &limit), HB_WRITTEN);
    expect("the limit", limit, 7);
    expect("gather into lopsided sums", gather(&sums, one), HB_TAKEN);
    expect("they are mended, with the sample in them", memcmp(&sums, &expected, sizeof sums), 0);
    put_half(&sums, 0, -7, HB_ENTRY_RANGE);
    put_half(&sums, 1, -9, HB_ENTRY_RANGE);
    put_half(&expected, 0, -3, HB_ENTRY_RANGE / 2 + 1);
    put_half(&expected, 1, -3, HB_ENTRY_RANGE / 2 + 1);
    hb_store_number(expected.high, 2);
    hb_store_number(expected.high + (HB_SAMPLE_ORDER + 1) * HB_NUMBER_BYTES, 2);
    expect("gather into sums without room in both halves", gather(&sums, one), HB_TAKEN);
    expect("they are mended and halved, with the sample in them", memcmp(&sums, &expected, sizeof sums), 0);
    put_half(&sums, 0, -7, HB_ENTRY_RANGE);
    put_half(&sums, 1, -9, HB_ENTRY_RANGE - 1);
    put_half(&expected, 0, -6, HB_ENTRY_RANGE);
    put_half(&expected, 1, -6, HB_ENTRY_RANGE);
    hb_store_number(expected.low, 2);
    hb_store_number(expected.high, 3);
    hb_store_number(expected.low + (HB_SAMPLE_ORDER + 1) * HB_NUMBER_BYTES, 2);
    hb_store_number(expected.high + (HB_SAMPLE_ORDER + 1) * HB_NUMBER_BYTES, 3);
    expect("gather into sums with room in one", gather(&sums, one), HB_TAKEN);
    expect("they are not halved", memcmp(&sums, &expected, sizeof sums), 0);
}

/* Sums of order 1 or 2 that problems are pooled into, with 8 bytes more, and problems */
#define PROBLEMS 3
#define MORE 8

struct pool {
    uint8_t low[WHOLE + MORE], high[WHOLE + MORE], linear_low[WHOLE_VECTOR + MORE], linear_high[WHOLE_VECTOR + MORE];
    uint8_t running_limit[HB_NUMBER_BYTES + MORE], orders[HB_NUMBERS_BYTES(PROBLEMS)];
    uint8_t lows[HB_TABLES_BYTES(ORDER, PROBLEMS)], highs[HB_TABLES_BYTES(ORDER, PROBLEMS)];
    uint8_t linear_lows[HB_VECTORS_BYTES(ORDER, PROBLEMS)], linear_highs[HB_VECTORS_BYTES(ORDER, PROBLEMS)];
    uint8_t limits[HB_NUMBERS_BYTES(PROBLEMS)];
};

/* The eleven buffers of a call */
#define BUFFERS 11
#define ORDERS 5

/* Pools so many problems of an order, handed over as n, with the length of one buffer greater by more, or less. */
static int64_t pool_sized(struct pool *pool, int64_t n, int order, size_t count, int which, int more)
{
    size_t sizes[BUFFERS];
    sizes[0] = sizes[1] = HB_TABLE_BYTES(order);
    sizes[2] = sizes[3] = HB_VECTOR_BYTES(order);
    sizes[4] = HB_NUMBER_BYTES;
    sizes[5] = sizes[10] = HB_NUMBERS_BYTES(count);
    sizes[6] = sizes[7] = HB_TABLES_BYTES(order, count);
    sizes[8] = sizes[9] = HB_VECTORS_BYTES(order, count);
    sizes[which] = (size_t)((int64_t)sizes[which] + more);
    return hb_pool(n, pool->low, sizes[0], pool->high, sizes[1], pool->linear_low, sizes[2], pool->linear_high, sizes[3],
                   pool->running_limit, sizes[4], pool->orders, sizes[5], pool->lows, sizes[6], pool->highs, sizes[7], pool->linear_lows,
                   sizes[8], pool->linear_highs, sizes[9], pool->limits, sizes[10]);
}

static int64_t pool_of(struct pool *pool, int order, size_t count)
{
    return pool_sized(pool, order, order, count, 0, 0);
}

/* All problems and sums of an order, 0 */
static void begin(struct pool *pool, int64_t n)
{
    size_t k;
    memset(pool, 0, sizeof *pool);
    for (k = 0; k < PROBLEMS; k++)
        hb_store_number(pool->orders + HB_NUMBERS_BYTES(k), n);
}

/* A problem of order 1, or sums of it */
struct single {
    int64_t low;
    int64_t high;
    int64_t linear_low;
    int64_t linear_high;
    int64_t limit;
};

/* Problems of order 1 that are pooled into sums, the expected answer, and the sums that are left where it is 0 */
struct pool_case {
    const char *what;
    struct single sums;
    struct single problems[2];
    size_t count;
    int64_t expected;
    struct single left;
};

#define FULL HB_ENTRY_RANGE
#define THIN(m, a, limit) {m, m, a, a, limit}
#define NONE {0, 0, 0, 0, 0}

static const struct pool_case pool_cases[] = {
    {"pool [4] twice", NONE, {THIN(4, -8, 1), THIN(4, -8, 1)}, 2, HB_TAKEN, THIN(8, -16, 2)},
    {"pool [4] once", NONE, {THIN(4, -8, 1), THIN(4, -8, 1)}, 1, HB_TAKEN, THIN(4, -8, 1)},
    {"pool into full sums", {FULL, FULL, -1, 1, 3}, {THIN(1, 0, 1), NONE}, 1, HB_TAKEN, {FULL / 2 + 1, FULL / 2 + 1, -1, 1, 3}},
    {"pool what halves have no room for", THIN(FULL, 0, 0), {THIN(FULL, 0, 0), NONE}, 1, HB_REFUSED_FULL, NONE},
    {"pool it behind another one", THIN(FULL, 0, 0), {THIN(1, 0, 0), THIN(FULL, 0, 0)}, 2, HB_REFUSED_FULL, NONE},
    {"pool what halves have room for", THIN(FULL, 0, 0), {THIN(FULL / 2, 0, 0), NONE}, 1, HB_TAKEN, THIN(FULL, 0, 0)},
    {"pool it, and halve again", THIN(FULL, 0, 0), {THIN(FULL / 2, 0, 0), THIN(1, 0, 0)}, 2, HB_TAKEN, THIN(FULL / 2 + 1, 0, 0)},
    {"halve odd sums", {-3, 3, -5, 5, -HB_LIMIT_RANGE}, {THIN(0, 0, -1), NONE}, 1, HB_TAKEN, {-2, 2, -3, 3, -HB_LIMIT_RANGE / 2 - 1}},
    {"halve odd sums below 0", {-1, -1, -1, -1, HB_LIMIT_RANGE}, {THIN(0, 0, 1), NONE}, 1, HB_TAKEN,
     {-1, 0, -1, 0, HB_LIMIT_RANGE / 2 + 1}},
    {"halve an odd running limit", {0, 0, -HB_LINEAR_RANGE, 7, -7}, {THIN(0, -1, 0), NONE}, 1, HB_TAKEN,
     {0, 0, -HB_LINEAR_RANGE / 2 - 1, 3, -3}},
    {"pool an entry above the range", NONE, {NONE, THIN(FULL + 1, 0, 0)}, 2, HB_REFUSED_RANGE, NONE},
    {"the same behind a crossed one", NONE, {{2, 1, 0, 0, 0}, THIN(FULL + 1, 0, 0)}, 2, HB_REFUSED_RANGE, NONE},
    {"pool a limit below the range", NONE, {THIN(1, 0, -HB_LIMIT_RANGE - 1), NONE}, 1, HB_REFUSED_RANGE, NONE},
    {"pool into a running limit above the range", THIN(0, 0, HB_LIMIT_RANGE + 1), {NONE, NONE}, 2, HB_REFUSED_RANGE, NONE},
    {"pool a linear term below the range", NONE, {NONE, {0, 0, -HB_LINEAR_RANGE - 1, 0, 0}}, 2, HB_REFUSED_RANGE, NONE},
    {"pool the least number", NONE, {THIN(0, 0, INT64_MIN), NONE}, 1, HB_REFUSED_RANGE, NONE},
    {"pool crossed bounds", NONE, {NONE, {2, 1, 0, 0, 0}}, 2, HB_REFUSED_CROSSED, NONE},
    {"the same behind reversed terms", NONE, {{0, 0, 1, 0, 0}, {2, 1, 0, 0, 0}}, 2, HB_REFUSED_CROSSED, NONE},
    {"pool into crossed sums", {2, 1, 0, 0, 0}, {{0, 0, 1, 0, 0}, NONE}, 1, HB_REFUSED_CROSSED, NONE},
    {"pool reversed terms", NONE, {NONE, {0, 0, 1, 0, 0}}, 2, HB_REFUSED_REVERSED, NONE},
    {"the same into full sums", THIN(FULL, 0, 0), {THIN(FULL, 0, 0), {0, 0, 1, 0, 0}}, 2, HB_REFUSED_REVERSED, NONE},
    {"pool into reversed sums", {0, 0, 1, 0, 0}, {NONE, NONE}, 2, HB_REFUSED_REVERSED, NONE},
};

static int is_left(const struct pool *pool, const struct single *left)
{
    return hb_load_number(pool->low) == left->low && hb_load_number(pool->high) == left->high &&
           hb_load_number(pool->linear_low) == left->linear_low && hb_load_number(pool->linear_high) == left->linear_high &&
           hb_load_number(pool->running_limit) == left->limit;
}

static void run_pool_case(const struct pool_case *test)
{
    struct pool pool, before;
    size_t k;
    int64_t answer;
    begin(&pool, 1);
    hb_store_number(pool.low, test->sums.low);
    hb_store_number(pool.high, test->sums.high);
    hb_store_number(pool.linear_low, test->sums.linear_low);
    hb_store_number(pool.linear_high, test->sums.linear_high);
    hb_store_number(pool.running_limit, test->sums.limit);
    for (k = 0; k < 2; k++) {
        hb_store_number(pool.lows + HB_TABLES_BYTES(1, k), test->problems[k].low);
        hb_store_number(pool.highs + HB_TABLES_BYTES(1, k), test->problems[k].high);
        hb_store_number(pool.linear_lows + HB_VECTORS_BYTES(1, k), test->problems[k].linear_low);
        hb_store_number(pool.linear_highs + HB_VECTORS_BYTES(1, k), test->problems[k].linear_high);
        hb_store_number(pool.limits + HB_NUMBERS_BYTES(k), test->problems[k].limit);
    }
    before = pool;
    answer = pool_of(&pool, 1, test->count);
    expect(test->what, answer, test->expected);
    if (answer == HB_TAKEN) {
        expect("the sums are left so", is_left(&pool, &test->left), 1);
        expect("the lists are as they were", memcmp(pool.orders, before.orders, sizeof pool - offsetof(struct pool, orders)), 0);
    } else {
        expect("the sums are as they were", memcmp(&pool, &before, sizeof pool), 0);
    }
}

/* Every other size of every buffer, the list of orders apart; n and the orders come before it, and the numbers behind it */
static void run_pool_sizes(void)
{
    static const int others[] = {-8, -1, 1, 8};
    struct pool pool, before;
    size_t k;
    int which;
    expect("the most problems", HB_GREATEST_POOL, 64);
    expect("the size of a list of numbers", (int64_t)HB_NUMBERS_BYTES(3), 24);
    expect("the size of a list of tables", (int64_t)HB_TABLES_BYTES(2, 3), 96);
    expect("the size of a list of ends", (int64_t)HB_VECTORS_BYTES(2, 3), 48);
    begin(&pool, ORDER);
    before = pool;
    for (which = 0; which < BUFFERS; which++)
        for (k = 0; k < sizeof others / sizeof others[0]; k++) {
            expect("pool with another size", pool_sized(&pool, ORDER, ORDER, 2, which, others[k]), HB_REFUSED_LENGTH);
            expect("the same and order 9", pool_sized(&pool, 9, ORDER, 2, which, others[k]), HB_REFUSED_ORDER);
            hb_store_number(pool.limits, INT64_MAX);
            expect("the same and a limit beyond its range", pool_sized(&pool, ORDER, ORDER, 2, which, others[k]), HB_REFUSED_LENGTH);
            hb_store_number(pool.limits, 0);
            if (which == ORDERS)
                continue;
            hb_store_number(pool.orders, 9);
            expect("the same and a problem of order 9", pool_sized(&pool, ORDER, ORDER, 2, which, others[k]), HB_REFUSED_ORDER);
            hb_store_number(pool.orders, ORDER);
        }
    expect("nothing is written", memcmp(&pool, &before, sizeof pool), 0);
    expect("pool null buffers",
           hb_pool(1, NULL, 0, NULL, 0, NULL, 0, NULL, 0, NULL, 0, NULL, 0, NULL, 0, NULL, 0, NULL, 0, NULL, 0, NULL, 0),
           HB_REFUSED_LENGTH);
    expect("the same and order 0",
           hb_pool(0, NULL, 0, NULL, 0, NULL, 0, NULL, 0, NULL, 0, NULL, 0, NULL, 0, NULL, 0, NULL, 0, NULL, 0, NULL, 0),
           HB_REFUSED_ORDER);
}

/* Orders in the list that are others, or none, at every place of it */
static void run_pool_orders(void)
{
    static const int64_t none[] = {0, -1, 9, 258, ((int64_t)1 << 32) + 2, INT64_MIN, INT64_MAX};
    struct pool pool;
    size_t place, k;
    begin(&pool, ORDER);
    expect("pool at order 2", pool_of(&pool, ORDER, PROBLEMS), HB_TAKEN);
    for (place = 0; place < PROBLEMS; place++) {
        for (k = 0; k < sizeof none / sizeof none[0]; k++) {
            hb_store_number(pool.orders + HB_NUMBERS_BYTES(place), none[k]);
            expect("pool a problem of no order", pool_of(&pool, ORDER, PROBLEMS), HB_REFUSED_ORDER);
        }
        hb_store_number(pool.orders + HB_NUMBERS_BYTES(place), 1);
        expect("pool a problem of another order", pool_of(&pool, ORDER, PROBLEMS), HB_REFUSED_LENGTH);
        hb_store_number(pool.orders + HB_NUMBERS_BYTES(place), ORDER);
    }
    for (k = 0; k < sizeof none / sizeof none[0]; k++)
        expect("pool at no order", pool_sized(&pool, none[k], ORDER, PROBLEMS, 0, 0), HB_REFUSED_ORDER);
}

/* No problem, 64 of them and 65, of order 1, from one list of tables and one of ends */
static void run_pool_counts(void)
{
    static uint8_t orders[HB_NUMBERS_BYTES(HB_GREATEST_POOL + 1)], tables[HB_TABLES_BYTES(1, HB_GREATEST_POOL + 1)];
    uint8_t low[HB_TABLE_BYTES(1)], high[HB_TABLE_BYTES(1)], linear_low[HB_VECTOR_BYTES(1)], linear_high[HB_VECTOR_BYTES(1)];
    uint8_t running_limit[HB_NUMBER_BYTES];
    size_t count, k;
    for (count = 0; count <= HB_GREATEST_POOL + 1; count++) {
        size_t size = HB_NUMBERS_BYTES(count);
        int good = 1 <= count && count <= HB_GREATEST_POOL;
        int64_t sum = good ? (int64_t)(count * (count + 1) / 2) : 7;
        for (k = 0; k < count; k++) {
            hb_store_number(orders + HB_NUMBERS_BYTES(k), good ? 1 : 9);
            hb_store_number(tables + HB_TABLES_BYTES(1, k), (int64_t)k + 1);
        }
        for (k = 0; k < 5; k++)
            hb_store_number(k == 0 ? low : k == 1 ? high : k == 2 ? linear_low : k == 3 ? linear_high : running_limit, good ? 0 : 7);
        expect("pool so many problems",
               hb_pool(1, low, sizeof low, high, sizeof high, linear_low, sizeof linear_low, linear_high, sizeof linear_high, running_limit,
                       sizeof running_limit, orders, size, tables, size, tables, size, tables, size, tables, size, tables, size),
               good ? HB_TAKEN : HB_REFUSED_LENGTH);
        expect("the entry", hb_load_number(low) == sum && hb_load_number(high) == sum, 1);
        expect("the linear term", hb_load_number(linear_low) == sum && hb_load_number(linear_high) == sum, 1);
        expect("the running limit", hb_load_number(running_limit), sum);
    }
}

/* Sums and a problem whose halves differ are both mended, and a pair that leaves no number is refused, in either. */
static void run_pool_lopsided(void)
{
    static const int64_t low[ENTRIES] = {0, 0, -1, 0}, high[ENTRIES] = {0, 2, 1, 0};
    static const int64_t lows[ENTRIES] = {2, 1, 0, 2}, highs[ENTRIES] = {3, 2, 3, 3};
    static const int64_t left_low[ENTRIES] = {2, 1, 1, 2}, left_high[ENTRIES] = {3, 3, 3, 3};
    struct pool pool, before;
    begin(&pool, ORDER);
    store(pool.low, low, ENTRIES);
    store(pool.high, high, ENTRIES);
    store(pool.lows + HB_TABLES_BYTES(ORDER, 1), lows, ENTRIES);
    store(pool.highs + HB_TABLES_BYTES(ORDER, 1), highs, ENTRIES);
    expect("pool lopsided problems", pool_of(&pool, ORDER, PROBLEMS), HB_TAKEN);
    expect("both are mended", holds(pool.low, left_low, ENTRIES) && holds(pool.high, left_high, ENTRIES), 1);
    expect("the problem is as it was", holds(pool.lows + HB_TABLES_BYTES(ORDER, 1), lows, ENTRIES), 1);
    hb_store_number(pool.highs + HB_TABLES_BYTES(ORDER, 1) + 2 * HB_NUMBER_BYTES, 0);
    before = pool;
    expect("pool a pair that leaves no number", pool_of(&pool, ORDER, PROBLEMS), HB_REFUSED_LOPSIDED);
    expect("nothing is written", memcmp(&pool, &before, sizeof pool), 0);
    expect("without that problem", pool_of(&pool, ORDER, 1), HB_TAKEN);
    hb_store_number(pool.high + 2 * HB_NUMBER_BYTES, 0);
    hb_store_number(pool.low + 2 * HB_NUMBER_BYTES, 0);
    before = pool;
    expect("pool into a pair that leaves no number", pool_of(&pool, ORDER, 1), HB_REFUSED_LOPSIDED);
    expect("nothing is written", memcmp(&pool, &before, sizeof pool), 0);
}

/* The box of sums of order 4 with a limit, around the coefficients 1, 2, 3 and 4 */
static const int64_t truth[HB_SAMPLE_ORDER] = {1, 2, 3, 4};

static int64_t box_sums(const struct sums *sums, int64_t limit, uint8_t *sides)
{
    uint8_t centre[HB_VECTOR_BYTES(HB_SAMPLE_ORDER)];
    store(centre, truth, HB_SAMPLE_ORDER);
    return hb_box(HB_SAMPLE_ORDER, sums->low, sizeof sums->low, sums->high, sizeof sums->high, sums->linear_low, sizeof sums->linear_low,
                  sums->linear_high, sizeof sums->linear_high, limit, centre, sizeof centre, sides, HB_SIDES_BYTES(HB_SAMPLE_ORDER));
}

/* Two problems of order 4 in six lists */
struct lists {
    uint8_t orders[HB_NUMBERS_BYTES(2)];
    uint8_t lows[HB_TABLES_BYTES(HB_SAMPLE_ORDER, 2)];
    uint8_t highs[HB_TABLES_BYTES(HB_SAMPLE_ORDER, 2)];
    uint8_t linear_lows[HB_VECTORS_BYTES(HB_SAMPLE_ORDER, 2)];
    uint8_t linear_highs[HB_VECTORS_BYTES(HB_SAMPLE_ORDER, 2)];
    uint8_t limits[HB_NUMBERS_BYTES(2)];
};

/* Puts a ride, which was read with a limit, to its place in the lists. */
static void put_ride(struct lists *lists, size_t place, const struct sums *ride, int64_t limit)
{
    hb_store_number(lists->orders + HB_NUMBERS_BYTES(place), HB_SAMPLE_ORDER);
    memcpy(lists->lows + HB_TABLES_BYTES(HB_SAMPLE_ORDER, place), ride->low, sizeof ride->low);
    memcpy(lists->highs + HB_TABLES_BYTES(HB_SAMPLE_ORDER, place), ride->high, sizeof ride->high);
    memcpy(lists->linear_lows + HB_VECTORS_BYTES(HB_SAMPLE_ORDER, place), ride->linear_low, sizeof ride->linear_low);
    memcpy(lists->linear_highs + HB_VECTORS_BYTES(HB_SAMPLE_ORDER, place), ride->linear_high, sizeof ride->linear_high);
    hb_store_number(lists->limits + HB_NUMBERS_BYTES(place), limit);
}

static int64_t pool_rides(struct sums *sums, const struct lists *lists)
{
    return hb_pool(HB_SAMPLE_ORDER, sums->low, sizeof sums->low, sums->high, sizeof sums->high, sums->linear_low, sizeof sums->linear_low,
                   sums->linear_high, sizeof sums->linear_high, sums->running_limit, sizeof sums->running_limit, lists->orders,
                   sizeof lists->orders, lists->lows, sizeof lists->lows, lists->highs, sizeof lists->highs, lists->linear_lows,
                   sizeof lists->linear_lows, lists->linear_highs, sizeof lists->linear_highs, lists->limits, sizeof lists->limits);
}

/* Two rides of these coefficients, which leave some of them open alone: read, pooled and read again, these alone are left. */
static void run_rides_to_box(void)
{
    static const hb_sample rides[2][2] = {{{5, 0, 0, 0, 5}, {0, 2, 0, 0, 4}}, {{0, 0, 2, 0, 6}, {0, 0, 0, 2, 8}}};
    uint8_t sides[HB_SIDES_BYTES(HB_SAMPLE_ORDER)];
    struct sums ride, season;
    struct lists lists;
    int64_t limit;
    size_t k;
    memset(&season, 0, sizeof season);
    for (k = 0; k < 2; k++) {
        memset(&ride, 0, sizeof ride);
        expect("gather a ride", gather(&ride, rides[k][0]), HB_TAKEN);
        expect("gather more of it", gather(&ride, rides[k][1]), HB_TAKEN);
        expect("read it", read_sums(&ride, 0, &limit), HB_WRITTEN);
        put_ride(&lists, k, &ride, limit);
        expect("a ride alone is flat", box_sums(&ride, limit, sides), HB_REFUSED_FLAT);
    }
    expect("pool both", pool_rides(&season, &lists), HB_TAKEN);
    expect("read the pool", read_sums(&season, 0, &limit), HB_WRITTEN);
    expect("box it", box_sums(&season, limit, sides), HB_BOX);
    for (k = 0; k < HB_SAMPLE_ORDER; k++) {
        expect("the low of a side", hb_load_number(sides + 2 * k * HB_NUMBER_BYTES), truth[k]);
        expect("its high", hb_load_number(sides + (2 * k + 1) * HB_NUMBER_BYTES), truth[k]);
    }
    expect("gather into the pool", gather(&season, rides[0][0]), HB_TAKEN);
}

/* From samples to a box without arithmetic: the draws are those of the coefficients 1, 2, 3 and 4, and these alone are left. */
static void run_samples_to_box(void)
{
    static const hb_sample samples[] = {{5, 0, 0, 0, 5}, {0, 2, 0, 0, 4}, {0, 0, 2, 0, 6}, {0, 0, 0, 2, 8}, {1, 1, 0, 1, 7}};
    uint8_t sides[HB_SIDES_BYTES(HB_SAMPLE_ORDER)];
    struct sums sums;
    int64_t limit;
    size_t k;
    memset(&sums, 0, sizeof sums);
    for (k = 0; k < sizeof samples / sizeof samples[0]; k++)
        expect("gather", gather(&sums, samples[k]), HB_TAKEN);
    expect("read", read_sums(&sums, 0, &limit), HB_WRITTEN);
    expect("box", box_sums(&sums, limit, sides), HB_BOX);
    for (k = 0; k < HB_SAMPLE_ORDER; k++) {
        expect("the low of a side", hb_load_number(sides + 2 * k * HB_NUMBER_BYTES), truth[k]);
        expect("its high", hb_load_number(sides + (2 * k + 1) * HB_NUMBER_BYTES), truth[k]);
    }
}

/* Case P of the rules: 4 x^2 - 16 x <= 0, from the centre 2, and its file */
static const uint8_t case_p[] = {1, 1, 0, 1,    2, 4, 0, 4, 0, 0, 0,    3, 4, 0, 4, 0, 0, 0,    4, 8, 0, 0xF8, 255, 255, 255, 255, 255, 255, 255,
                                 5, 8, 0, 0, 0, 0, 0, 0, 0, 0, 0,    6, 8, 0, 2, 0, 0, 0, 0, 0, 0, 0,    7, 8, 0, 0xF8, 255, 255, 255, 255, 255, 255, 255};

/* A call of the writer for case P, with some of it other, and its expected answer. */
struct write_case {
    const char *what;
    int64_t n;
    int64_t low;
    int64_t high;
    int64_t linear_low;
    int64_t linear_high;
    int64_t limit;
    int64_t centre;
    size_t centre_len;
    size_t file_len;
    int64_t expected;
};

#define WHOLE_FILE HB_SUMMARY_BYTES(1)
#define NUMBER HB_NUMBER_BYTES
#define HUGE_NUMBER ((int64_t)1 << 32)

static const struct write_case write_cases[] = {
    {"write case P", 1, 4, 4, -8, -8, 0, 2, NUMBER, WHOLE_FILE, HB_WRITTEN},
    {"write it at order 0", 0, 4, 4, -8, -8, 0, 2, NUMBER, WHOLE_FILE, HB_REFUSED_ORDER},
    {"write it at order 257", 257, 4, 4, -8, -8, 0, 2, NUMBER, WHOLE_FILE, HB_REFUSED_ORDER},
    {"write it at order 2^32 + 1", HUGE_NUMBER + 1, 4, 4, -8, -8, 0, 2, NUMBER, WHOLE_FILE, HB_REFUSED_ORDER},
    {"write it at the least order", INT64_MIN, 4, 4, -8, -8, 0, 2, NUMBER, WHOLE_FILE, HB_REFUSED_ORDER},
    {"write it to a byte less", 1, 4, 4, -8, -8, 0, 2, NUMBER, WHOLE_FILE - 1, HB_REFUSED_LENGTH},
    {"write it to a byte more", 1, 4, 4, -8, -8, 0, 2, NUMBER, WHOLE_FILE + 1, HB_REFUSED_LENGTH},
    {"write it to no bytes", 1, 4, 4, -8, -8, 0, 2, NUMBER, 0, HB_REFUSED_LENGTH},
    {"write it to a byte less, the limit beyond its range", 1, 4, 4, -8, -8, INT64_MAX, 2, NUMBER, WHOLE_FILE - 1, HB_REFUSED_LENGTH},
    {"write it with a centre one byte short", 1, 4, 4, -8, -8, 0, 2, NUMBER - 1, WHOLE_FILE, HB_REFUSED_LENGTH},
    {"write an entry that 4 bytes would hold", 1, HUGE_NUMBER + 4, HUGE_NUMBER + 4, -8, -8, 0, 2, NUMBER, WHOLE_FILE, HB_REFUSED_RANGE},
    {"write an entry above its range", 1, 4, HB_ENTRY_RANGE + 1, -8, -8, 0, 2, NUMBER, WHOLE_FILE, HB_REFUSED_RANGE},
    {"write the least entry", 1, INT64_MIN, 4, -8, -8, 0, 2, NUMBER, WHOLE_FILE, HB_REFUSED_RANGE},
    {"write a linear term below its range", 1, 4, 4, -HB_LINEAR_RANGE - 1, -8, 0, 2, NUMBER, WHOLE_FILE, HB_REFUSED_RANGE},
    {"write a limit above its range", 1, 4, 4, -8, -8, HB_LIMIT_RANGE + 1, 2, NUMBER, WHOLE_FILE, HB_REFUSED_RANGE},
    {"write a centre beyond its range", 1, 4, 4, -8, -8, 0, HB_CENTRE_RANGE + 1, NUMBER, WHOLE_FILE, HB_REFUSED_RANGE},
    {"write low above high", 1, 5, 4, -8, -8, 0, 2, NUMBER, WHOLE_FILE, HB_REFUSED_CROSSED},
    {"write reversed linear terms", 1, 4, 4, -8, -9, 0, 2, NUMBER, WHOLE_FILE, HB_REFUSED_REVERSED},
};

static void run_write_case(const struct write_case *test)
{
    uint8_t low[NUMBER], high[NUMBER], linear_low[NUMBER], linear_high[NUMBER], centre[NUMBER], file[1 + WHOLE_FILE + 2];
    int64_t answer;
    hb_store_number(low, test->low);
    hb_store_number(high, test->high);
    hb_store_number(linear_low, test->linear_low);
    hb_store_number(linear_high, test->linear_high);
    hb_store_number(centre, test->centre);
    memset(file, KEPT, sizeof file);
    answer = hb_write_summary(test->n, low, NUMBER, high, NUMBER, linear_low, NUMBER, linear_high, NUMBER, test->limit, centre, test->centre_len,
                              file + 1, test->file_len);
    expect(test->what, answer, test->expected);
    if (answer == HB_WRITTEN) {
        expect("the file is written", memcmp(file + 1, case_p, WHOLE_FILE), 0);
        expect("no byte beside it is", kept(file, 1) && kept(file + 1 + WHOLE_FILE, 2), 1);
    } else {
        expect("the file is kept", kept(file, sizeof file), 1);
    }
}

/* What a file is read into, one byte of each buffer more */
struct held {
    uint8_t order[HB_NUMBER_BYTES + 1];
    uint8_t low[HB_TABLE_BYTES(HB_MAX_ORDER) + 1];
    uint8_t high[HB_TABLE_BYTES(HB_MAX_ORDER) + 1];
    uint8_t linear_low[HB_VECTOR_BYTES(HB_MAX_ORDER) + 1];
    uint8_t linear_high[HB_VECTOR_BYTES(HB_MAX_ORDER) + 1];
    uint8_t limit[HB_NUMBER_BYTES + 1];
    uint8_t centre[HB_VECTOR_BYTES(HB_MAX_ORDER) + 1];
};

/* Reads a file into buffers of their sizes, that of low by one byte more or less */
static int64_t read_file(const uint8_t *file, size_t size, struct held *held, int more)
{
    memset(held, KEPT, sizeof *held);
    return hb_read_summary(file, size, held->order, sizeof held->order - 1, held->low, sizeof held->low - 1 + (size_t)more, held->high,
                           sizeof held->high - 1, held->linear_low, sizeof held->linear_low - 1, held->linear_high,
                           sizeof held->linear_high - 1, held->limit, sizeof held->limit - 1, held->centre, sizeof held->centre - 1);
}

/* Whether a buffer begins with a number, has 0 behind it, and is not written past its end */
static int begins_with(const uint8_t *buffer, size_t size, int64_t number)
{
    size_t k;
    if (hb_load_number(buffer) != number || buffer[size - 1] != KEPT)
        return 0;
    for (k = HB_NUMBER_BYTES; k < size - 1; k++)
        if (buffer[k] != 0)
            return 0;
    return 1;
}

static void run_read_summary(void)
{
    struct held held;
    uint8_t file[sizeof case_p], longest[4097];
    size_t k;
    expect("read case P", read_file(case_p, sizeof case_p, &held, 0), HB_WRITTEN);
    expect("its order", begins_with(held.order, sizeof held.order, 1), 1);
    expect("its low", begins_with(held.low, sizeof held.low, 4), 1);
    expect("its high", begins_with(held.high, sizeof held.high, 4), 1);
    expect("its low terms", begins_with(held.linear_low, sizeof held.linear_low, -8), 1);
    expect("its high terms", begins_with(held.linear_high, sizeof held.linear_high, -8), 1);
    expect("its limit", begins_with(held.limit, sizeof held.limit, 0), 1);
    expect("its centre", begins_with(held.centre, sizeof held.centre, 2), 1);
    expect("judge what was read",
           hb_judge(1, held.low, HB_TABLE_BYTES(1), held.high, HB_TABLE_BYTES(1), held.linear_low, HB_TABLE_BYTES(1), held.centre,
                    HB_VECTOR_BYTES(1), held.limit, HB_OVER_BYTES),
           HB_DEFINITE);
    expect("its factor", hb_load_number(held.linear_low), 129007);
    expect("what its rows have over", hb_load_number(held.limit), 537063135);
    for (k = 0; k < 2; k++) {
        expect("read it into a table of another size", read_file(case_p, sizeof case_p, &held, k ? 1 : -1), HB_REFUSED_LENGTH);
        expect("nothing is written", kept((const uint8_t *)&held, sizeof held), 1);
    }
    expect("read a bad file into a table of another size", read_file(case_p, 1, &held, 1), HB_REFUSED_LENGTH);
    for (k = 0; k < sizeof case_p; k++) {
        int at_a_field = k == 0 || k == 4 || k == 11 || k == 18 || k == 29 || k == 40 || k == 51;
        expect("read a part of it", read_file(case_p, k, &held, 0), at_a_field ? HB_REFUSED_ABSENT : HB_REFUSED_CUT);
        expect("nothing is written", kept((const uint8_t *)&held, sizeof held), 1);
    }
    memset(longest, 0, sizeof longest);
    expect("read 4097 bytes", read_file(longest, sizeof longest, &held, 0), HB_REFUSED_LONG);
    expect("read 4096 bytes", read_file(longest, sizeof longest - 1, &held, 0), HB_REFUSED_TAG);
    expect("read an empty file", read_file(NULL, 0, &held, 0), HB_REFUSED_ABSENT);
    memcpy(file, case_p, sizeof file);
    file[3] = 9;
    expect("read an order of 9", read_file(file, sizeof file, &held, 0), HB_REFUSED_ORDER);
    file[3] = 2;
    expect("read an order of 2", read_file(file, sizeof file, &held, 0), HB_REFUSED_SIZE);
    file[3] = 1;
    file[8] = 1;
    file[16] = 0x11;
    expect("read an entry beyond its range", read_file(file, sizeof file, &held, 0), HB_REFUSED_RANGE);
    file[16] = 0;
    expect("read crossed bounds", read_file(file, sizeof file, &held, 0), HB_REFUSED_CROSSED);
    file[8] = 0;
    file[21] = 0xF9;
    expect("read reversed linear terms", read_file(file, sizeof file, &held, 0), HB_REFUSED_REVERSED);
    expect("nothing is written", kept((const uint8_t *)&held, sizeof held), 1);
    file[4] = 3;
    expect("read a tag twice", read_file(file, sizeof file, &held, 0), HB_REFUSED_AGAIN);
    file[4] = 4;
    expect("read a tag that falls", read_file(file, sizeof file, &held, 0), HB_REFUSED_FALLING);
}

/* Sizes of files, of every order; written from one table and one buffer of linear terms, then read, then written again */
static void run_summaries(void)
{
    static const size_t sizes[] = {62, 110, 174, 254, 350, 462, 590, 734};
    uint8_t table[HB_TABLE_BYTES(HB_MAX_ORDER)], terms[HB_VECTOR_BYTES(HB_MAX_ORDER)], centre[HB_VECTOR_BYTES(HB_MAX_ORDER)];
    uint8_t file[HB_SUMMARY_BYTES(HB_MAX_ORDER)], again[HB_SUMMARY_BYTES(HB_MAX_ORDER)];
    struct held held;
    int64_t n, k;
    for (n = 1; n <= HB_MAX_ORDER; n++) {
        size_t size = HB_SUMMARY_BYTES(n), side = HB_TABLE_BYTES(n), vector = HB_VECTOR_BYTES(n);
        expect("the size of a file", (int64_t)size, (int64_t)sizes[n - 1]);
        for (k = 0; k < n * n; k++)
            hb_store_number(table + HB_NUMBER_BYTES * k, (k / n + 1) * (k % n + 1) - 10);
        for (k = 0; k < n; k++) {
            hb_store_number(terms + HB_NUMBER_BYTES * k, 500 * k - 2000);
            hb_store_number(centre + HB_NUMBER_BYTES * k, 1000 - 300 * k);
        }
        expect("write a file", hb_write_summary(n, table, side, table, side, terms, vector, terms, vector, -n, centre, vector, file, size), HB_WRITTEN);
        expect("read it", read_file(file, size, &held, 0), HB_WRITTEN);
        expect("its order", hb_load_number(held.order), n);
        expect("its limit", hb_load_number(held.limit), -n);
        expect("its tables", memcmp(held.low, table, side) == 0 && memcmp(held.high, table, side) == 0, 1);
        expect("its terms", memcmp(held.linear_low, terms, vector) == 0 && memcmp(held.linear_high, terms, vector) == 0, 1);
        expect("its centre", memcmp(held.centre, centre, vector), 0);
        expect("write it again",
               hb_write_summary(hb_load_number(held.order), held.low, side, held.high, side, held.linear_low, vector, held.linear_high, vector,
                                hb_load_number(held.limit), held.centre, vector, again, size),
               HB_WRITTEN);
        expect("the same file", memcmp(file, again, size), 0);
    }
    expect("write from null buffers", hb_write_summary(1, NULL, 0, NULL, 0, NULL, 0, NULL, 0, 0, NULL, 0, NULL, 0), HB_REFUSED_LENGTH);
    expect("the same and order 9", hb_write_summary(9, NULL, 0, NULL, 0, NULL, 0, NULL, 0, 0, NULL, 0, NULL, 0), HB_REFUSED_ORDER);
    expect("read into null buffers", hb_read_summary(file, 62, NULL, 0, NULL, 0, NULL, 0, NULL, 0, NULL, 0, NULL, 0, NULL, 0), HB_REFUSED_LENGTH);
}

/* Lopsided tables of order 2: what is written is the file of the mended problem, and a file that has them is read as that problem. */
static void run_lopsided_summary(void)
{
    static const int64_t low[ENTRIES] = {5, 1, 0, 6}, high[ENTRIES] = {5, 3, 2, 6}, terms[ORDER] = {0, 0};
    static const int64_t mended_low[ENTRIES] = {5, 1, 1, 6}, mended_high[ENTRIES] = {5, 2, 2, 6};
    uint8_t tables[2][WHOLE], zeros[WHOLE_VECTOR], file[HB_SUMMARY_BYTES(ORDER)], mended[HB_SUMMARY_BYTES(ORDER)];
    struct held held;
    store(tables[0], low, ENTRIES);
    store(tables[1], high, ENTRIES);
    store(zeros, terms, ORDER);
    memset(mended, KEPT, sizeof mended);
    expect("write a lopsided problem",
           hb_write_summary(ORDER, tables[0], WHOLE, tables[1], WHOLE, zeros, WHOLE_VECTOR, zeros, WHOLE_VECTOR, 0, zeros, WHOLE_VECTOR,
                            mended, sizeof mended),
           HB_WRITTEN);
    expect("its tables are as they were", holds(tables[0], low, ENTRIES) && holds(tables[1], high, ENTRIES), 1);
    /* The file of the numbers as they are: entry (2,1) of L from byte 15 on, and (1,2) of U from byte 30 on */
    memcpy(file, mended, sizeof file);
    expect("the entries in the file", file[15] == 1 && file[30] == 2, 1);
    file[15] = 0;
    file[30] = 3;
    expect("read the lopsided file", read_file(file, sizeof file, &held, 0), HB_WRITTEN);
    expect("what is read is mended", holds(held.low, mended_low, ENTRIES) && holds(held.high, mended_high, ENTRIES), 1);
    expect("write what was read",
           hb_write_summary(ORDER, held.low, WHOLE, held.high, WHOLE, zeros, WHOLE_VECTOR, zeros, WHOLE_VECTOR, 0, zeros, WHOLE_VECTOR,
                            file, sizeof file),
           HB_WRITTEN);
    expect("it is the file of the mended problem", memcmp(file, mended, sizeof file), 0);
    file[15] = 3;
    file[34] = 3;
    expect("read a file whose halves leave no number", read_file(file, sizeof file, &held, 0), HB_REFUSED_LOPSIDED);
    expect("nothing is written", kept((const uint8_t *)&held, sizeof held), 1);
}

/* A bus, with a byte before and behind each of its two buffers: so they start at odd addresses. */
struct bus {
    uint8_t block[1 + HB_BLOCK_BYTES + 1], run[1 + HB_RUN_BYTES + 1];
};

/* A bus of zeros, which is one that was reset */
static void begin_bus(struct bus *bus)
{
    memset(bus, KEPT, sizeof *bus);
    memset(bus->block + 1, 0, HB_BLOCK_BYTES);
    memset(bus->run + 1, 0, HB_RUN_BYTES);
}

/* Whether a buffer has zeros alone. */
static int is_zero(const uint8_t *buffer, size_t size)
{
    size_t k;
    for (k = 0; k < size; k++)
        if (buffer[k] != 0)
            return 0;
    return 1;
}

/* Whether block and run area are zeros. */
static int is_reset(const struct bus *bus)
{
    return is_zero(bus->block + 1, HB_BLOCK_BYTES) && is_zero(bus->run + 1, HB_RUN_BYTES);
}

/* A write that brings no tables: they are null and of length 0 */
static int64_t bus_write(struct bus *bus, int64_t address, int value)
{
    return hb_bus_write(bus->block + 1, HB_BLOCK_BYTES, bus->run + 1, HB_RUN_BYTES, address, (uint8_t)value, NULL, 0, NULL, 0);
}

/* A start with tables of some numbers each */
static int64_t bus_start(struct bus *bus, const int64_t *low, const int64_t *high, size_t count)
{
    uint8_t lows[1 + HB_TABLE_BYTES(HB_MAX_ORDER)], highs[1 + HB_TABLE_BYTES(HB_MAX_ORDER)], before[2][HB_TABLE_BYTES(HB_MAX_ORDER)];
    size_t size = HB_NUMBERS_BYTES(count);
    int64_t answer;
    store(lows + 1, low, count);
    store(highs + 1, high, count);
    memcpy(before[0], lows + 1, size);
    memcpy(before[1], highs + 1, size);
    answer = hb_bus_write(bus->block + 1, HB_BLOCK_BYTES, bus->run + 1, HB_RUN_BYTES, HB_BUS_COMMAND, HB_BUS_START, lows + 1, size,
                          highs + 1, size);
    expect("the tables are as they were", memcmp(before[0], lows + 1, size) == 0 && memcmp(before[1], highs + 1, size) == 0, 1);
    return answer;
}

/* The same from a bus of zeros, whose order is written first */
static void begin_run(struct bus *bus, int order, const int64_t *low, const int64_t *high, size_t count)
{
    begin_bus(bus);
    expect("write the order", bus_write(bus, HB_BUS_ORDER, order), HB_TAKEN);
    expect("start", bus_start(bus, low, high, count), HB_TAKEN);
}

static int64_t bus_tick(struct bus *bus)
{
    return hb_bus_tick(bus->block + 1, HB_BLOCK_BYTES, bus->run + 1, HB_RUN_BYTES);
}

static int64_t bus_line(const struct bus *bus)
{
    return hb_bus_line(bus->block + 1, HB_BLOCK_BYTES);
}

/* The value of a register, and no byte beside it */
static int bus_read(const struct bus *bus, int64_t address)
{
    uint8_t value[3];
    memset(value, KEPT, sizeof value);
    expect("read a register", hb_bus_read(bus->block + 1, HB_BLOCK_BYTES, address, value + 1, HB_VALUE_BYTES), HB_READ);
    expect("no byte beside the value is written", kept(value, 1) && kept(value + 2, 1), 1);
    return value[1];
}

/* Status, refusal number, verdict, mask, flags and order; and always the other registers are 0, and the bytes beside them are kept. */
static void expect_bus(const char *what, const struct bus *bus, int status, int refusal, int verdict, int mask, int flags, int order)
{
    expect(what, bus_read(bus, HB_BUS_STATUS), status);
    expect("the refusal number", bus_read(bus, HB_BUS_REFUSAL), refusal);
    expect("the verdict", bus_read(bus, HB_BUS_VERDICT), verdict);
    expect("the mask", bus_read(bus, HB_BUS_MASK), mask);
    expect("the flags", bus_read(bus, HB_BUS_FLAGS), flags);
    expect("the order", bus_read(bus, HB_BUS_ORDER), order);
    expect("the line", bus_line(bus), (flags & mask) != 0 ? HB_LINE_RAISED : HB_LINE_LOW);
    expect("the other registers", bus->block[1] == 0 && is_zero(bus->block + 1 + HB_BUS_ORDER + 1, HB_BLOCK_BYTES - HB_BUS_ORDER - 1), 1);
    expect("a run area without a run", (status & HB_BUS_BUSY) != 0 || is_zero(bus->run + 1, HB_RUN_BYTES), 1);
    expect("no byte beside block and run area is written",
           kept(bus->block, 1) && kept(bus->block + 1 + HB_BLOCK_BYTES, 1) && kept(bus->run, 1) && kept(bus->run + 1 + HB_RUN_BYTES, 1), 1);
}

static const int64_t bus_one[1] = {1}, bus_zero[1] = {0}, bus_close[ENTRIES] = {1, 3, 3, 10}, bus_good[ENTRIES] = MATRIX;

/* The numbers of the header, and what they are for */
static void run_bus_numbers(void)
{
    expect("bytes of a block", HB_BLOCK_BYTES, 32);
    expect("bytes of a run area", HB_RUN_BYTES, 1560);
    expect("bytes of a value", HB_VALUE_BYTES, 1);
    expect("the most ticks of order 8", HB_BUS_MOST_TICKS(HB_MAX_ORDER), 9);
    expect("the commands", HB_BUS_START == 1 && HB_BUS_RESET == 2, 1);
    expect("the bits", HB_BUS_BUSY == 1 && HB_BUS_DONE == 2 && HB_BUS_REFUSED == 4, 1);
    expect("the verdicts", HB_BUS_NO_VERDICT == 0 && HB_BUS_DEFINITE == 1 && HB_BUS_NOT_DEFINITE == 2 && HB_BUS_UNDECIDED == 3, 1);
    expect("the registers", HB_BUS_COMMAND == 0 && HB_BUS_STATUS == 1 && HB_BUS_REFUSAL == 2 && HB_BUS_VERDICT == 3, 1);
    expect("those behind", HB_BUS_MASK == 4 && HB_BUS_FLAGS == 5 && HB_BUS_ORDER == 6, 1);
}

/* The worked cases of the bus: W73 to W78, W80 to W84 */
static void run_bus_cases(void)
{
    struct bus bus, before;
    begin_run(&bus, 1, bus_one, bus_one, 1);
    expect_bus("[1] is begun", &bus, HB_BUS_BUSY, 0, 0, 0, 1, 1);
    before = bus;
    expect("start again while busy", bus_start(&bus, bus_zero, bus_zero, 1), HB_REFUSED_BUSY);
    expect("nothing moves", memcmp(&bus, &before, sizeof bus), 0);
    expect("tick", bus_tick(&bus), HB_TICKED);
    expect_bus("[1] is done in tick 1", &bus, HB_BUS_DONE, 0, HB_BUS_DEFINITE, 0, 3, 1);
    before = bus;
    expect("clear no flag", bus_write(&bus, HB_BUS_FLAGS, 0), HB_TAKEN);
    expect("a tick more", bus_tick(&bus), HB_TICKED);
    expect("nothing moves", memcmp(&bus, &before, sizeof bus), 0);
    expect("clear flag 0", bus_write(&bus, HB_BUS_FLAGS, 1), HB_TAKEN);
    expect_bus("flag 1 is left", &bus, HB_BUS_DONE, 0, HB_BUS_DEFINITE, 0, 2, 1);
    expect("mask done", bus_write(&bus, HB_BUS_MASK, HB_BUS_DONE), HB_TAKEN);
    expect_bus("the line is raised", &bus, HB_BUS_DONE, 0, HB_BUS_DEFINITE, 2, 2, 1);
    expect("clear flag 1", bus_write(&bus, HB_BUS_FLAGS, HB_BUS_DONE), HB_TAKEN);
    expect_bus("the line is low", &bus, HB_BUS_DONE, 0, HB_BUS_DEFINITE, 2, 0, 1);

    begin_run(&bus, 2, bus_close, bus_close, ENTRIES);
    bus_tick(&bus);
    expect_bus("[1 3; 3 10] behind tick 1", &bus, HB_BUS_BUSY, 0, 0, 0, 1, 2);
    bus_tick(&bus);
    expect_bus("behind tick 2, in which it stops", &bus, HB_BUS_BUSY, 0, 0, 0, 1, 2);
    bus_tick(&bus);
    expect_bus("undecided in tick 3", &bus, HB_BUS_DONE, 0, HB_BUS_UNDECIDED, 0, 3, 2);

    begin_run(&bus, 1, bus_zero, bus_zero, 1);
    bus_tick(&bus);
    expect_bus("[0] stops in tick 1", &bus, HB_BUS_BUSY, 0, 0, 0, 1, 1);
    bus_tick(&bus);
    expect_bus("not definite in tick 2", &bus, HB_BUS_DONE, 0, HB_BUS_NOT_DEFINITE, 0, 3, 1);

    begin_run(&bus, 0, bus_one, bus_one, 1);
    expect_bus("order 0", &bus, HB_BUS_REFUSED, HB_REFUSED_ORDER, 0, 0, 4, 0);
    begin_run(&bus, 2, bus_one, bus_one, 1);
    expect_bus("tables of order 1 for order 2", &bus, HB_BUS_REFUSED, HB_REFUSED_LENGTH, 0, 0, 4, 2);

    begin_run(&bus, 2, bus_close, bus_close, ENTRIES);
    bus_tick(&bus);
    expect("reset while busy", bus_write(&bus, HB_BUS_COMMAND, HB_BUS_RESET), HB_TAKEN);
    expect("all is 0", is_reset(&bus), 1);
    bus_tick(&bus);
    expect("a tick does nothing", is_reset(&bus), 1);

    begin_run(&bus, 2, bus_close, bus_close, ENTRIES);
    bus_tick(&bus);
    expect("another order", bus_write(&bus, HB_BUS_ORDER, 5), HB_TAKEN);
    expect("a mask", bus_write(&bus, HB_BUS_MASK, 7), HB_TAKEN);
    expect("no command", bus_write(&bus, HB_BUS_COMMAND, 3), HB_TAKEN);
    bus_tick(&bus);
    expect_bus("the run goes on", &bus, HB_BUS_BUSY, 0, 0, 7, 1, 5);
    bus_tick(&bus);
    expect_bus("to its end", &bus, HB_BUS_DONE, 0, HB_BUS_UNDECIDED, 7, 3, 5);

    begin_bus(&bus);
    expect("write to the status", bus_write(&bus, HB_BUS_STATUS, HB_BUS_BUSY), HB_TAKEN);
    bus_tick(&bus);
    expect("nothing moves", is_reset(&bus), 1);
}

/* Every address and some far ones: what a write does there, on a bus of zeros and of other bytes, what is read, and every command */
static void run_bus_registers(void)
{
    static const int64_t far[] = {INT64_MIN, -257, -1, 32, 33, 256, 261, ((int64_t)1 << 32) + 4, INT64_MAX};
    struct bus bus, before;
    int64_t address;
    size_t k;
    int value;
    begin_bus(&bus);
    for (address = 1; address < HB_BLOCK_BYTES; address++)
        expect("write 255", bus_write(&bus, address, 255), HB_TAKEN);
    for (k = 0; k < sizeof far / sizeof far[0]; k++) {
        expect("write 255 far away", bus_write(&bus, far[k], 255), HB_TAKEN);
        expect("read far away", bus_read(&bus, far[k]), 0);
    }
    expect_bus("mask and order alone", &bus, 0, 0, 0, 7, 0, 255);
    memset(bus.block + 1, 0xA8, HB_BLOCK_BYTES);
    for (address = 0; address < HB_BLOCK_BYTES; address++) {
        before = bus;
        expect("a register of other bytes", bus_read(&bus, address), 1 <= address && address <= 6 ? 0xA8 : 0);
        expect("write 5", bus_write(&bus, address, 5), HB_TAKEN);
        before.block[1 + HB_BUS_MASK] = address >= HB_BUS_MASK ? 0xAD : 0xA8;
        before.block[1 + HB_BUS_ORDER] = address >= HB_BUS_ORDER ? 5 : 0xA8;
        expect("its writable bits alone move", memcmp(&bus, &before, sizeof bus), 0);
    }
    bus.block[1 + HB_BUS_FLAGS] = 0xAF;
    expect("clear flags of other bytes", bus_write(&bus, HB_BUS_FLAGS, 0xFD), HB_TAKEN);
    expect("two of them are cleared", bus.block[1 + HB_BUS_FLAGS], 0xAA);
    expect("flags and mask have bits in common", bus_line(&bus), HB_LINE_RAISED);
    begin_run(&bus, 2, bus_close, bus_close, ENTRIES);
    before = bus;
    for (value = 0; value < 256; value++)
        if (value != HB_BUS_START && value != HB_BUS_RESET)
            expect("no command", bus_write(&bus, HB_BUS_COMMAND, value), HB_TAKEN);
    expect("nothing moves", memcmp(&bus, &before, sizeof bus), 0);
}

/* Every pair of mask and flags: the line, and what a write to the flags leaves */
static void run_bus_line(void)
{
    struct bus bus;
    int mask, flags, cleared;
    begin_bus(&bus);
    for (mask = 0; mask < 8; mask++)
        for (flags = 0; flags < 8; flags++)
            for (cleared = 0; cleared < 8; cleared++) {
                bus.block[1 + HB_BUS_MASK] = (uint8_t)mask;
                bus.block[1 + HB_BUS_FLAGS] = (uint8_t)flags;
                expect("the line", bus_line(&bus), (mask & flags) != 0 ? HB_LINE_RAISED : HB_LINE_LOW);
                expect("clear flags", bus_write(&bus, HB_BUS_FLAGS, cleared), HB_TAKEN);
                expect("those that are left", bus_read(&bus, HB_BUS_FLAGS), flags & ~cleared);
                expect("the mask stays", bus_read(&bus, HB_BUS_MASK), mask);
            }
}

/* What each start of the judge's cases comes to: the judge's refusal, or its verdict, on a bus that has had the others before it */
static void run_bus_verdicts(void)
{
    struct bus bus;
    size_t k;
    begin_bus(&bus);
    for (k = 0; k < sizeof judge_cases / sizeof judge_cases[0]; k++) {
        const struct judge_case *test = &judge_cases[k];
        int refusal = test->expected > 0 ? (int)test->expected : 0, order = (int)test->n, ticks = 0;
        if (test->vector_len != WHOLE_VECTOR)
            continue;
        bus_write(&bus, HB_BUS_ORDER, order);
        bus_write(&bus, HB_BUS_FLAGS, 7);
        expect(test->what, bus_start(&bus, test->low, test->high, ENTRIES), HB_TAKEN);
        if (refusal) {
            expect_bus("refused", &bus, HB_BUS_REFUSED, refusal, 0, 0, HB_BUS_REFUSED, order);
            continue;
        }
        for (; bus_read(&bus, HB_BUS_STATUS) == HB_BUS_BUSY && ticks <= HB_BUS_MOST_TICKS(ORDER); ticks++) {
            expect_bus("busy", &bus, HB_BUS_BUSY, 0, 0, 0, HB_BUS_BUSY, order);
            expect("tick", bus_tick(&bus), HB_TICKED);
        }
        expect_bus("done", &bus, HB_BUS_DONE, 0, (int)(1 - test->expected), 0, HB_BUS_BUSY | HB_BUS_DONE, order);
        expect("the ticks", test->expected == HB_DEFINITE ? ticks == ORDER : 2 <= ticks && ticks <= HB_BUS_MOST_TICKS(ORDER), 1);
    }
    expect("refused, and refused again", bus_start(&bus, bus_one, bus_one, 1), HB_TAKEN);
    bus_write(&bus, HB_BUS_FLAGS, 7);
    expect("and again", bus_start(&bus, bus_one, bus_one, 1), HB_TAKEN);
    expect_bus("its flag rises again", &bus, HB_BUS_REFUSED, HB_REFUSED_LENGTH, 0, 0, HB_BUS_REFUSED, ORDER);
    bus_write(&bus, HB_BUS_ORDER, 1);
    expect("a start without tables", bus_write(&bus, HB_BUS_COMMAND, HB_BUS_START), HB_TAKEN);
    expect_bus("it is refused", &bus, HB_BUS_REFUSED, HB_REFUSED_LENGTH, 0, 0, HB_BUS_REFUSED, 1);
}

/* At each order: the identity takes n ticks, and with a last entry of 0 it takes n + 1. Tables that change after the start play no part. */
static void run_bus_orders(void)
{
    int64_t table[HB_MAX_ORDER * HB_MAX_ORDER];
    uint8_t lent[HB_TABLE_BYTES(HB_MAX_ORDER)];
    struct bus bus;
    int n, last, k, ticks;
    for (n = 1; n <= HB_MAX_ORDER; n++)
        for (last = 0; last < 2; last++) {
            size_t size = HB_TABLE_BYTES(n);
            for (k = 0; k < n * n; k++)
                table[k] = k % (n + 1) == 0;
            table[n * n - 1] = last;
            store(lent, table, (size_t)(n * n));
            begin_bus(&bus);
            bus_write(&bus, HB_BUS_ORDER, n);
            expect("start with one table",
                   hb_bus_write(bus.block + 1, HB_BLOCK_BYTES, bus.run + 1, HB_RUN_BYTES, HB_BUS_COMMAND, HB_BUS_START, lent, size, lent,
                                size),
                   HB_TAKEN);
            memset(lent, 255, sizeof lent);
            for (ticks = 1; ticks < n + 1 - last; ticks++) {
                bus_tick(&bus);
                expect_bus("not before its tick", &bus, HB_BUS_BUSY, 0, 0, 0, HB_BUS_BUSY, n);
            }
            bus_tick(&bus);
            expect_bus("in its tick", &bus, HB_BUS_DONE, 0, last ? HB_BUS_DEFINITE : HB_BUS_NOT_DEFINITE, 0, HB_BUS_BUSY | HB_BUS_DONE, n);
        }
}

/* The answers of all four functions where block, run area or value has another size: that comes before 20, and at every address */
static void refuse_sizes(struct bus *bus, size_t block, size_t run, size_t value)
{
    static const int64_t addresses[] = {HB_BUS_COMMAND, HB_BUS_STATUS, HB_BUS_FLAGS, HB_BUS_ORDER, 31, 32, -1, INT64_MAX};
    const struct bus before = *bus;
    uint8_t table[HB_TABLE_BYTES(1)] = {1}, read[2] = {KEPT, KEPT};
    size_t k;
    for (k = 0; k < sizeof addresses / sizeof addresses[0]; k++) {
        if (value == HB_VALUE_BYTES)
            expect("write with another size",
                   hb_bus_write(bus->block + 1, block, bus->run + 1, run, addresses[k], HB_BUS_START, table, sizeof table, table,
                                sizeof table),
                   HB_REFUSED_LENGTH);
        if (value != HB_VALUE_BYTES || block != HB_BLOCK_BYTES)
            expect("read with another size", hb_bus_read(bus->block + 1, block, addresses[k], read, value), HB_REFUSED_LENGTH);
    }
    if (value == HB_VALUE_BYTES) {
        expect("reset with another size",
               hb_bus_write(bus->block + 1, block, bus->run + 1, run, HB_BUS_COMMAND, HB_BUS_RESET, NULL, 0, NULL, 0), HB_REFUSED_LENGTH);
        expect("tick with another size", hb_bus_tick(bus->block + 1, block, bus->run + 1, run), HB_REFUSED_LENGTH);
    }
    if (block != HB_BLOCK_BYTES)
        expect("the line with another size", hb_bus_line(bus->block + 1, block), HB_REFUSED_LENGTH);
    expect("nothing is written", memcmp(bus, &before, sizeof *bus) == 0 && kept(read, sizeof read), 1);
}

static void run_bus_sizes(void)
{
    static const size_t runs[] = {0, 8, HB_RUN_BYTES - 8, HB_RUN_BYTES - 1, HB_RUN_BYTES + 1};
    struct bus bus;
    size_t block, k;
    int busy;
    for (busy = 0; busy < 2; busy++) {
        begin_bus(&bus);
        bus_write(&bus, HB_BUS_ORDER, 1);
        if (busy)
            bus_start(&bus, bus_one, bus_one, 1);
        for (block = 0; block <= HB_BLOCK_BYTES + 1; block++)
            if (block != HB_BLOCK_BYTES)
                refuse_sizes(&bus, block, HB_RUN_BYTES, HB_VALUE_BYTES);
        for (k = 0; k < sizeof runs / sizeof runs[0]; k++)
            refuse_sizes(&bus, HB_BLOCK_BYTES, runs[k], HB_VALUE_BYTES);
        refuse_sizes(&bus, HB_BLOCK_BYTES, HB_RUN_BYTES, 0);
        refuse_sizes(&bus, HB_BLOCK_BYTES, HB_RUN_BYTES, 2);
    }
    expect("write to null buffers", hb_bus_write(NULL, 0, NULL, 0, HB_BUS_MASK, 1, NULL, 0, NULL, 0), HB_REFUSED_LENGTH);
    expect("tick null buffers", hb_bus_tick(NULL, 0, NULL, 0), HB_REFUSED_LENGTH);
    expect("read null buffers", hb_bus_read(NULL, 0, HB_BUS_STATUS, NULL, 0), HB_REFUSED_LENGTH);
    expect("read into a null buffer", hb_bus_read(bus.block + 1, HB_BLOCK_BYTES, HB_BUS_STATUS, NULL, 0), HB_REFUSED_LENGTH);
    expect("the line of a null buffer", hb_bus_line(NULL, 0), HB_REFUSED_LENGTH);
}

/* Bytes that no start left: busy by itself, with a run area that holds no run, and a run area without busy. */
static void run_bus_any_bytes(void)
{
    static const uint8_t fills[] = {0, 1, 127, 128, 255};
    struct bus bus, before;
    size_t k;
    for (k = 0; k < sizeof fills / sizeof fills[0]; k++) {
        begin_bus(&bus);
        memset(bus.run + 1, fills[k], HB_RUN_BYTES);
        before = bus;
        expect("tick while not busy", bus_tick(&bus), HB_TICKED);
        expect("nothing moves", memcmp(&bus, &before, sizeof bus), 0);
        bus.block[1 + HB_BUS_STATUS] = 255;
        before = bus;
        expect("tick without a run", bus_tick(&bus), HB_TICKED);
        expect("start while busy by itself", bus_start(&bus, bus_one, bus_one, 1), HB_REFUSED_BUSY);
        expect("nothing moves", memcmp(&bus, &before, sizeof bus), 0);
        bus.block[1 + HB_BUS_STATUS] = 254;
        bus.block[1 + HB_BUS_ORDER] = ORDER;
        expect("start over any bytes", bus_start(&bus, bus_good, bus_good, ENTRIES), HB_TAKEN);
        expect_bus("it is begun", &bus, HB_BUS_BUSY, 0, 0, 0, HB_BUS_BUSY, ORDER);
        bus_tick(&bus);
        bus_tick(&bus);
        expect_bus("and done", &bus, HB_BUS_DONE, 0, HB_BUS_DEFINITE, 0, HB_BUS_BUSY | HB_BUS_DONE, ORDER);
        memset(bus.block + 1, fills[k], HB_BLOCK_BYTES);
        memset(bus.run + 1, fills[k], HB_RUN_BYTES);
        expect("reset any bytes", bus_write(&bus, HB_BUS_COMMAND, HB_BUS_RESET), HB_TAKEN);
        expect("all is 0", is_reset(&bus), 1);
    }
}

/* The version's numbers and its string are one version. */
static void run_version(void)
{
    char joined[64];
    sprintf(joined, "%d.%d.%d", HB_VERSION_MAJOR, HB_VERSION_MINOR, HB_VERSION_PATCH);
    expect("the version's string", strcmp(joined, HB_VERSION_STRING), 0);
}

int main(void)
{
    size_t k;
    run_version();
    run_words();
    run_numbers();
    run_gather();
    run_gather_refused();
    run_gather_halved();
    run_gather_sizes();
    run_gather_lopsided();
    run_samples_to_box();
    for (k = 0; k < sizeof pool_cases / sizeof pool_cases[0]; k++)
        run_pool_case(&pool_cases[k]);
    run_pool_sizes();
    run_pool_orders();
    run_pool_counts();
    run_pool_lopsided();
    run_rides_to_box();
    run_bus_numbers();
    run_bus_cases();
    run_bus_registers();
    run_bus_line();
    run_bus_verdicts();
    run_bus_orders();
    run_bus_sizes();
    run_bus_any_bytes();
    for (k = 0; k < sizeof write_cases / sizeof write_cases[0]; k++)
        run_write_case(&write_cases[k]);
    run_read_summary();
    run_summaries();
    run_lopsided_summary();
    run_one_table();
    for (k = 0; k < sizeof box_cases / sizeof box_cases[0]; k++)
        run_box_case(&box_cases[k]);
    run_box_of_order_1();
    for (k = 0; k < sizeof judge_cases / sizeof judge_cases[0]; k++)
        run_judge_case(&judge_cases[k]);
    run_over_sizes();
    for (k = 0; k < sizeof stiffness_cases / sizeof stiffness_cases[0]; k++)
        run_stiffness_case(&stiffness_cases[k]);
    run_stiffness_sizes();
    for (k = 0; k < sizeof vector_cases / sizeof vector_cases[0]; k++)
        run_vector_case(&vector_cases[k]);
    for (k = 0; k < sizeof factor_cases / sizeof factor_cases[0]; k++)
        run_factor_case(&factor_cases[k]);
    expect("null buffers", hb_test_factor(1, NULL, 0, NULL, 0, NULL, 0, NULL, 0), HB_REFUSED_LENGTH);
    expect("null buffers and order 0", hb_test_factor(0, NULL, 0, NULL, 0, NULL, 0, NULL, 0), HB_REFUSED_ORDER);
    expect("null buffers of the judge", hb_judge(1, NULL, 0, NULL, 0, NULL, 0, NULL, 0, NULL, 0), HB_REFUSED_LENGTH);
    expect("the same and order 9", hb_judge(9, NULL, 0, NULL, 0, NULL, 0, NULL, 0, NULL, 0), HB_REFUSED_ORDER);
    expect("null buffers of the bracket", hb_stiffness(1, NULL, 0, NULL, 0, NULL, 0, NULL, 0, NULL, 0), HB_REFUSED_LENGTH);
    expect("the same and order 9", hb_stiffness(9, NULL, 0, NULL, 0, NULL, 0, NULL, 0, NULL, 0), HB_REFUSED_ORDER);
    expect("null buffers of the box", hb_box(1, NULL, 0, NULL, 0, NULL, 0, NULL, 0, 0, NULL, 0, NULL, 0), HB_REFUSED_LENGTH);
    expect("the same and order -1", hb_box(-1, NULL, 0, NULL, 0, NULL, 0, NULL, 0, 0, NULL, 0, NULL, 0), HB_REFUSED_ORDER);
    printf("%d passed, %d failed\n", passed, failed);
    return failed != 0;
}
