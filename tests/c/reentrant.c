/*
 * Calls the functions from several threads at once, and from a signal handler that interrupts them: every call must give what it gives alone.
 * The last line printed is 'N passed, M failed'.
 */
#define _XOPEN_SOURCE 700
#include "hankboulder.h"

#include <pthread.h>
#include <signal.h>
#include <stdio.h>
#include <string.h>
#include <sys/time.h>

#define N HB_MAX_ORDER
#define PROBLEMS 3
#define THREADS 3
#define ROUNDS 2000
#define INTERRUPTS 200
#define PERIOD_MICROSECONDS 300

/* The numbers of a problem, where the processor stores the low byte first, and a sample */
struct problem {
    hb_sample sample;
    int64_t table[N * N];
    int64_t linear_low[N];
    int64_t linear_high[N];
    int64_t centre[N];
};

/* Samples that are gathered one after the other, and how often a problem is pooled */
#define SAMPLES 70
#define POOLED 3

/* All that the functions answer and write for a problem: the answers of gathering are added up */
struct result {
    int64_t answers[11];
    int64_t low[HB_SAMPLE_ORDER * HB_SAMPLE_ORDER];
    int64_t high[HB_SAMPLE_ORDER * HB_SAMPLE_ORDER];
    int64_t linear_low[HB_SAMPLE_ORDER];
    int64_t linear_high[HB_SAMPLE_ORDER];
    int64_t running_limit;
    int64_t limit;
    int64_t factor[N * N];
    int64_t vector[N];
    int64_t over;
    int64_t tested_over;
    int64_t step;
    int64_t bound;
    int64_t shown[N];
    int64_t pooled_low[N * N];
    int64_t pooled_high[N * N];
    int64_t pooled_linear_low[N];
    int64_t pooled_linear_high[N];
    int64_t pooled_running_limit;
    int64_t sides[2 * N];
    uint8_t file[HB_SUMMARY_BYTES(N)];
    int64_t order;
    int64_t read_low[N * N];
    int64_t read_high[N * N];
    int64_t read_linear_low[N];
    int64_t read_linear_high[N];
    int64_t read_limit;
    int64_t read_centre[N];
    uint8_t block[HB_BLOCK_BYTES];
    uint8_t run[HB_RUN_BYTES];
    int64_t ticks;
};

static struct problem problems[PROBLEMS];
static struct result alone[PROBLEMS];
static volatile sig_atomic_t interrupts, differing_interrupts;

static const uint8_t *bytes(const int64_t *numbers)
{
    return (const uint8_t *)numbers;
}

/* Pools a problem POOLED times over into sums of 0 */
static void call_pool(const struct problem *problem, struct result *result)
{
    int64_t orders[POOLED], tables[POOLED * N * N], linear_lows[POOLED * N], linear_highs[POOLED * N], limits[POOLED];
    for (int k = 0; k < POOLED; k++) {
        orders[k] = N;
        limits[k] = 100000;
        memcpy(&tables[k * N * N], problem->table, sizeof problem->table);
        memcpy(&linear_lows[k * N], problem->linear_low, sizeof problem->linear_low);
        memcpy(&linear_highs[k * N], problem->linear_high, sizeof problem->linear_high);
    }
    result->answers[9] = hb_pool(N, (uint8_t *)result->pooled_low, sizeof result->pooled_low, (uint8_t *)result->pooled_high,
                                 sizeof result->pooled_high, (uint8_t *)result->pooled_linear_low, sizeof result->pooled_linear_low,
                                 (uint8_t *)result->pooled_linear_high, sizeof result->pooled_linear_high,
                                 (uint8_t *)&result->pooled_running_limit, sizeof result->pooled_running_limit, bytes(orders),
                                 sizeof orders, bytes(tables), sizeof tables, bytes(tables), sizeof tables, bytes(linear_lows),
                                 sizeof linear_lows, bytes(linear_highs), sizeof linear_highs, bytes(limits), sizeof limits);
}

/* A run on a bus of its own: the order and the start are written, and ticks come until it is not busy. The answers are added up. */
static void call_bus(const struct problem *problem, struct result *result)
{
    const uint8_t *table = bytes(problem->table);
    const size_t size = sizeof problem->table;
    uint8_t status = HB_BUS_BUSY;
    int64_t *answer = &result->answers[10];
    *answer = hb_bus_write(result->block, sizeof result->block, result->run, sizeof result->run, HB_BUS_ORDER, N, NULL, 0, NULL, 0);
    *answer += hb_bus_write(result->block, sizeof result->block, result->run, sizeof result->run, HB_BUS_COMMAND, HB_BUS_START, table, size,
                            table, size);
    for (; status == HB_BUS_BUSY && result->ticks <= HB_BUS_MOST_TICKS(N); result->ticks++) {
        *answer += hb_bus_tick(result->block, sizeof result->block, result->run, sizeof result->run);
        *answer += hb_bus_read(result->block, sizeof result->block, HB_BUS_STATUS, &status, sizeof status);
        *answer += hb_bus_line(result->block, sizeof result->block);
    }
}

static void call(const struct problem *problem, struct result *result)
{
    const uint8_t *table = bytes(problem->table);
    const size_t size = sizeof problem->table;
    memset(result, 0, sizeof *result);
    result->answers[0] = hb_judge(N, table, size, table, size, (uint8_t *)result->factor, sizeof result->factor, (uint8_t *)result->vector,
                                  sizeof result->vector, (uint8_t *)&result->over, sizeof result->over);
    result->answers[1] = hb_test_factor(N, table, size, table, size, bytes(result->factor), sizeof result->factor,
                                        (uint8_t *)&result->tested_over, sizeof result->tested_over);
    result->answers[2] = hb_test_vector(N, table, size, table, size, bytes(result->vector), sizeof result->vector);
    result->answers[3] = hb_box(N, table, size, table, size, bytes(problem->linear_low), sizeof problem->linear_low,
                                bytes(problem->linear_high), sizeof problem->linear_high, 100000, bytes(problem->centre),
                                sizeof problem->centre, (uint8_t *)result->sides, sizeof result->sides);
    for (int k = 0; k < SAMPLES; k++)
        result->answers[4] += hb_gather(problem->sample, HB_SAMPLE_ORDER, (uint8_t *)result->low, sizeof result->low, (uint8_t *)result->high,
                                        sizeof result->high, (uint8_t *)result->linear_low, sizeof result->linear_low,
                                        (uint8_t *)result->linear_high, sizeof result->linear_high, (uint8_t *)&result->running_limit,
                                        sizeof result->running_limit);
    result->answers[5] = hb_read_sums(HB_SAMPLE_ORDER, bytes(result->low), sizeof result->low, bytes(result->high), sizeof result->high,
                                      bytes(result->linear_low), sizeof result->linear_low, bytes(result->linear_high),
                                      sizeof result->linear_high, result->running_limit, 1000000, (uint8_t *)&result->limit,
                                      sizeof result->limit);
    result->answers[6] = hb_write_summary(N, table, size, table, size, bytes(problem->linear_low), sizeof problem->linear_low,
                                          bytes(problem->linear_high), sizeof problem->linear_high, 100000, bytes(problem->centre),
                                          sizeof problem->centre, result->file, sizeof result->file);
    result->answers[7] = hb_read_summary(result->file, sizeof result->file, (uint8_t *)&result->order, sizeof result->order,
                                         (uint8_t *)result->read_low, sizeof result->read_low, (uint8_t *)result->read_high,
                                         sizeof result->read_high, (uint8_t *)result->read_linear_low, sizeof result->read_linear_low,
                                         (uint8_t *)result->read_linear_high, sizeof result->read_linear_high,
                                         (uint8_t *)&result->read_limit, sizeof result->read_limit, (uint8_t *)result->read_centre,
                                         sizeof result->read_centre);
    result->answers[8] = hb_stiffness(N, table, size, table, size, (uint8_t *)&result->step, sizeof result->step, (uint8_t *)&result->bound,
                                      sizeof result->bound, (uint8_t *)result->shown, sizeof result->shown);
    call_pool(problem, result);
    call_bus(problem, result);
}

/* Whether a run on the bus has ended with a verdict, after so many ticks */
static int ended(const struct result *result, int verdict, int64_t ticks)
{
    return result->answers[10] == 0 && result->block[HB_BUS_STATUS] == HB_BUS_DONE && result->block[HB_BUS_VERDICT] == verdict &&
           result->ticks == ticks;
}

/* Whether a problem's calls give what they gave alone */
static int same(int k)
{
    struct result result;
    call(&problems[k], &result);
    return memcmp(&result, &alone[k], sizeof result) == 0;
}

static void interrupt(int number)
{
    (void)number;
    if (!same((int)(interrupts % PROBLEMS)))
        differing_interrupts = 1;
    interrupts = interrupts + 1;
}

/* Calls over and over, and counts how often a problem comes out otherwise. */
static void *work(void *differing)
{
    for (int round = 0; round < ROUNDS; round++)
        for (int k = 0; k < PROBLEMS; k++)
            *(long *)differing += !same(k);
    return NULL;
}

/*
 * A definite table, one that is undecided and one that is not definite, so that all of the code is run; a sample that has room, one that
 * the sums are halved for, and one that is refused
 */
static void make_problems(void)
{
    const hb_sample taken = {6.97f, -1.3f, 0.02f, 3, -5.5f}, greatest = {8, 8, 8, 8, 8}, beyond = {1, 1, 1, 1, 9};
    problems[0].sample = taken;
    problems[1].sample = greatest;
    problems[2].sample = beyond;
    for (int i = 0; i < N; i++) {
        for (int j = 0; j < N; j++) {
            problems[0].table[i * N + j] = i == j ? 1000 + i : i + j;
            problems[1].table[i * N + j] = i == j ? 500000 : (i + j) % 2;
            problems[2].table[i * N + j] = 1;
        }
        problems[0].linear_low[i] = -3000 * (i + 1);
        problems[0].linear_high[i] = -3000 * (i + 1) + 10 * i;
        problems[0].centre[i] = 3 * (i + 1);
    }
    problems[1].table[N * N - 1 - N - 1] = 1;
    problems[1].table[N * N - 1 - N] = problems[1].table[N * N - 2] = 3;
    problems[1].table[N * N - 1] = 10;
    for (int k = 0; k < PROBLEMS; k++)
        call(&problems[k], &alone[k]);
}

static int passed;
static int failed;

static void expect(const char *what, int good)
{
    if (!good)
        printf("%s: no\n", what);
    passed += good;
    failed += !good;
}

int main(void)
{
    const struct itimerval period = {{0, PERIOD_MICROSECONDS}, {0, PERIOD_MICROSECONDS}}, none = {{0, 0}, {0, 0}};
    struct sigaction action;
    pthread_t threads[THREADS];
    long differing[THREADS + 1] = {0};
    make_problems();
    expect("definite, and boxed", alone[0].answers[0] == HB_DEFINITE && alone[0].answers[1] == HB_ACCEPTED && alone[0].answers[3] == HB_BOX);
    expect("what the rows have over, of both functions", alone[0].over > 0 && alone[0].tested_over == alone[0].over);
    expect("undecided", alone[1].answers[0] == HB_UNDECIDED && alone[1].over == 0);
    expect("not definite, as the vector shows",
           alone[2].answers[0] == HB_NOT_DEFINITE && alone[2].over == 0 && alone[2].answers[2] == HB_YES);
    expect("a step and a bound", alone[0].answers[8] == HB_BETWEEN && 0 < alone[0].step && alone[0].step < alone[0].bound);
    expect("a bound alone, above 0 and at it", alone[1].answers[8] == HB_AT_MOST && alone[1].step == 0 && alone[1].bound == 1 &&
                                                   alone[2].answers[8] == HB_AT_MOST && alone[2].step == 0 && alone[2].bound == 0);
    expect("gathered, and read", alone[0].answers[4] == HB_TAKEN && alone[0].answers[5] == HB_WRITTEN);
    /* 64 fill the sums; halved they have 32 of them, and 6 more behind */
    expect("64 gathered, and 6 into halves",
           alone[1].answers[4] == HB_TAKEN && alone[1].high[0] == (32 + 6) * 16384 && alone[1].answers[5] == HB_WRITTEN);
    expect("all samples refused", alone[2].answers[4] == SAMPLES * HB_REFUSED_SAMPLE && alone[2].limit == 1000000);
    /* Twice the greatest entry has room, and is halved for a third time. */
    expect("pooled, and halved", alone[0].answers[9] == HB_TAKEN && alone[0].pooled_low[0] == 3000 && alone[1].answers[9] == HB_TAKEN &&
                                     alone[1].pooled_high[0] == 1000000 && alone[1].pooled_running_limit == 200000);
    expect("on the bus, definite", ended(&alone[0], HB_BUS_DEFINITE, N));
    expect("on the bus, undecided, a stop in the last column", ended(&alone[1], HB_BUS_UNDECIDED, N + 1));
    expect("on the bus, not definite, a stop in the second column", ended(&alone[2], HB_BUS_NOT_DEFINITE, 3));
    for (int k = 0; k < PROBLEMS; k++)
        expect("written, and read", alone[k].answers[6] == HB_WRITTEN && alone[k].answers[7] == HB_WRITTEN &&
                                        memcmp(alone[k].read_low, problems[k].table, sizeof problems[k].table) == 0 &&
                                        memcmp(alone[k].read_centre, problems[k].centre, sizeof problems[k].centre) == 0);
    memset(&action, 0, sizeof action);
    action.sa_handler = interrupt;
    action.sa_flags = SA_RESTART;
    sigaction(SIGALRM, &action, NULL);
    for (int k = 0; k < THREADS; k++)
        expect("a thread starts", pthread_create(&threads[k], NULL, work, &differing[k]) == 0);
    setitimer(ITIMER_REAL, &period, NULL);
    while (interrupts < INTERRUPTS)
        work(&differing[THREADS]);
    for (int k = 0; k < THREADS; k++)
        pthread_join(threads[k], NULL);
    setitimer(ITIMER_REAL, &none, NULL);
    for (int k = 0; k <= THREADS; k++)
        expect("a thread's calls give what they give alone", differing[k] == 0);
    expect("a handler's calls give what they give alone", !differing_interrupts);
    printf("%d passed, %d failed\n", passed, failed);
    return failed != 0;
}
