/*
 * Runs floats of all bit patterns, or of one in so many, through hb_gather, and compares the sums with the second implementation's bracket.
 *
 *     floats STEP
 *
 * The float is the first factor and the draw of a sample whose second factor is 1/16, which is 1 in the sums: so both of its brackets stand in them as
 * they are, besides their products. Sums begin at 0 in each call, and all that is expected of them follows from the bracket. Threads share the
 * patterns. Ends with status 1 at the first difference.
 */
#define _GNU_SOURCE
#include <inttypes.h>
#include <pthread.h>
#include <stdatomic.h>
#include <stdbool.h>
#include <stdio.h>
#include <stdlib.h>
#include <string.h>
#include <time.h>
#include <unistd.h>

#include "hankboulder.h"
#include "load.h"

#define THREADS 2
#define ORDER HB_SAMPLE_ORDER
#define ALL ((uint64_t)1 << 32)
#define BLOCK ((uint64_t)1 << 20)
#define PROGRESS ((uint64_t)1 << 28)

/* Running sums, of a processor that stores the low byte first */
struct sums {
    int64_t low[ORDER * ORDER], high[ORDER * ORDER], linear_low[ORDER], linear_high[ORDER], running_limit;
};

/* How many patterns were taken and refused, and how many of those taken have a whole number of sixteenths */
struct counts {
    uint64_t taken, whole, refused;
};

static uint64_t step;
static atomic_uint_fast64_t next;

static int64_t least(int64_t one, int64_t other) {
    return one < other ? one : other;
}

static int64_t greatest(int64_t one, int64_t other) {
    return one > other ? one : other;
}

/* What the sums are to be, from the bracket of the float alone */
static void expect(struct sums *sums, int64_t low, int64_t high) {
    int64_t squares = low * low, others = high * high, mixed = low * high;
    int64_t least_product = least(least(squares, others), mixed), greatest_product = greatest(greatest(squares, others), mixed);
    memset(sums, 0, sizeof *sums);
    sums->low[0] = least_product;
    sums->high[0] = greatest_product;
    sums->low[1] = sums->low[ORDER] = low;
    sums->high[1] = sums->high[ORDER] = high;
    sums->low[ORDER + 1] = sums->high[ORDER + 1] = 1;
    sums->linear_low[0] = -greatest_product;
    sums->linear_high[0] = -least_product;
    sums->linear_low[1] = -high;
    sums->linear_high[1] = -low;
    sums->running_limit = -least(squares, others);
}

static int64_t gathered(uint32_t bits, struct sums *sums) {
    hb_sample sample = {0, 0.0625f, 0, 0, 0};
    memcpy(&sample.rolling, &bits, sizeof bits);
    memcpy(&sample.draw, &bits, sizeof bits);
    memset(sums, 0, sizeof *sums);
    return hb_gather(sample, ORDER, (uint8_t *)sums->low, sizeof sums->low, (uint8_t *)sums->high, sizeof sums->high, (uint8_t *)sums->linear_low,
                     sizeof sums->linear_low, (uint8_t *)sums->linear_high, sizeof sums->linear_high, (uint8_t *)&sums->running_limit,
                     sizeof sums->running_limit);
}

static void compare(uint32_t bits, struct counts *counts) {
    struct sums sums, expected = {0};
    int64_t low, high, answer = gathered(bits, &sums);
    bool taken = load_bracket(bits, &low, &high) != 0;
    if (taken) {
        expect(&expected, low, high);
        counts->taken++;
        counts->whole += low == high;
    } else {
        counts->refused++;
    }
    if (answer != (taken ? HB_TAKEN : HB_REFUSED_SAMPLE) || memcmp(&sums, &expected, sizeof sums) != 0) {
        fprintf(stderr, "bits %08" PRIx32 ": answer %" PRId64 ", from %" PRId64 " to %" PRId64 "; the second implementation says %s", bits, answer,
                sums.low[1], sums.high[1], taken ? "" : "refused\n");
        if (taken) {
            fprintf(stderr, "from %" PRId64 " to %" PRId64 "\n", low, high);
        }
        _exit(1);
    }
}

static void *work(void *argument) {
    struct counts *counts = argument;
    for (uint64_t start; (start = atomic_fetch_add(&next, BLOCK)) < ALL;) {
        /* The first pattern of the block that is a multiple of the step */
        for (uint64_t bits = (start + step - 1) / step * step; bits < start + BLOCK; bits += step) {
            compare((uint32_t)bits, counts);
        }
        if (step == 1 && start % PROGRESS == 0) {
            fprintf(stderr, "%" PRIu64 " of %" PRIu64 " patterns\n", start, ALL);
        }
    }
    return NULL;
}

static double seconds(void) {
    struct timespec now;
    clock_gettime(CLOCK_MONOTONIC, &now);
    return (double)now.tv_sec + (double)now.tv_nsec / 1e9;
}

int main(int count_of_arguments, char **arguments) {
    pthread_t threads[THREADS];
    struct counts counts[THREADS] = {{0, 0, 0}}, all = {0, 0, 0};
    double begun = seconds();
    step = count_of_arguments == 2 ? strtoull(arguments[1], NULL, 10) : 0;
    if (step == 0) {
        fprintf(stderr, "floats STEP\n");
        return 2;
    }
    for (size_t k = 0; k < THREADS; k++) {
        if (pthread_create(&threads[k], NULL, work, &counts[k]) != 0) {
            return 2;
        }
    }
    for (size_t k = 0; k < THREADS; k++) {
        pthread_join(threads[k], NULL);
        all.taken += counts[k].taken;
        all.whole += counts[k].whole;
        all.refused += counts[k].refused;
    }
    printf("%" PRIu64 " patterns in %.0f s: %" PRIu64 " taken, %" PRIu64 " of them whole numbers of sixteenths, %" PRIu64 " refused, no difference\n",
           all.taken + all.refused, seconds() - begun, all.taken, all.whole, all.refused);
    return all.taken + all.refused == (ALL - 1) / step + 1 ? 0 : 1;
}
