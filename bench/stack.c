/*
 * Measures the deepest stack of each entry at each order. A call runs on a stack of its own, which is painted: filled with one byte. How far down it is
 * overwritten is what the call took. It is counted from the frame of the function that makes the call, so arguments and return address are in it.
 * Ends with status 1 where a call took more than the header says.
 */
#define _XOPEN_SOURCE 700
#include "../include/hankboulder.h"

#include <stdio.h>
#include <string.h>
#include <ucontext.h>

#define INPUTS 2000
#define SEED 20240229u
#define STACK_BYTES 65536
#define MAX_ENTRIES (HB_MAX_ORDER * HB_MAX_ORDER)
#define ENTRIES 14
#define KINDS 11
#define LEAST_ANSWER (-2)
#define ANSWERS (HB_REFUSED_BUSY - LEAST_ANSWER + 1)

/* What the calls are made with. The processor stores the low byte first, so that tables of int64_t are the library's bytes. */
struct input {
    int64_t n;
    int64_t low[MAX_ENTRIES];
    int64_t high[MAX_ENTRIES];
    int64_t factor[MAX_ENTRIES];
    int64_t vector[HB_MAX_ORDER];
    int64_t linear_low[HB_MAX_ORDER];
    int64_t linear_high[HB_MAX_ORDER];
    int64_t limit;
    int64_t centre[HB_MAX_ORDER];
    hb_sample sample;
    int64_t allowance;
};

static struct input input;

/* What gathering and pooling take for sums: the bounds, the linear terms, and the limit for a running limit */
static struct input sums;
static int64_t factor[MAX_ENTRIES], vector[HB_MAX_ORDER], over, sides[2 * HB_MAX_ORDER], step, bound, shown[HB_MAX_ORDER], limit;

/* The problems of a pool, as its lists have them, and how many they are */
static struct {
    int64_t count;
    int64_t orders[HB_GREATEST_POOL];
    int64_t lows[HB_GREATEST_POOL * MAX_ENTRIES];
    int64_t highs[HB_GREATEST_POOL * MAX_ENTRIES];
    int64_t linear_lows[HB_GREATEST_POOL * HB_MAX_ORDER];
    int64_t linear_highs[HB_GREATEST_POOL * HB_MAX_ORDER];
    int64_t limits[HB_GREATEST_POOL];
} pool;

/* The last summary file that was written, and how much of it is read; and what is read from it */
static uint8_t file[HB_SUMMARY_BYTES(HB_MAX_ORDER)];
static size_t file_size;
static struct input held;

/* A bus, and what is written to it or read from it where */
static struct bus {
    uint8_t block[HB_BLOCK_BYTES];
    uint8_t run[HB_RUN_BYTES];
    int64_t address;
    uint8_t value;
} bus;

static int64_t answer;

/* Where the frame of the call's caller is */
static const unsigned char *frame;

static _Alignas(16) unsigned char stack[STACK_BYTES];
static ucontext_t measuring, measured;

static const uint8_t *bytes(const int64_t *numbers)
{
    return (const uint8_t *)numbers;
}

/* Each of these makes one call, on the painted stack. */
static void call_judge(void)
{
    frame = __builtin_frame_address(0);
    answer = hb_judge(input.n, bytes(input.low), HB_TABLE_BYTES(input.n), bytes(input.high), HB_TABLE_BYTES(input.n), (uint8_t *)factor,
                      HB_TABLE_BYTES(input.n), (uint8_t *)vector, HB_VECTOR_BYTES(input.n), (uint8_t *)&over, HB_OVER_BYTES);
}

static void call_test_factor(void)
{
    frame = __builtin_frame_address(0);
    answer = hb_test_factor(input.n, bytes(input.low), HB_TABLE_BYTES(input.n), bytes(input.high), HB_TABLE_BYTES(input.n), bytes(input.factor),
                            HB_TABLE_BYTES(input.n), (uint8_t *)&over, HB_OVER_BYTES);
}

static void call_test_vector(void)
{
    frame = __builtin_frame_address(0);
    answer = hb_test_vector(input.n, bytes(input.low), HB_TABLE_BYTES(input.n), bytes(input.high), HB_TABLE_BYTES(input.n), bytes(input.vector),
                            HB_VECTOR_BYTES(input.n));
}

static void call_box(void)
{
    frame = __builtin_frame_address(0);
    answer = hb_box(input.n, bytes(input.low), HB_TABLE_BYTES(input.n), bytes(input.high), HB_TABLE_BYTES(input.n), bytes(input.linear_low),
                    HB_VECTOR_BYTES(input.n), bytes(input.linear_high), HB_VECTOR_BYTES(input.n), input.limit, bytes(input.centre),
                    HB_VECTOR_BYTES(input.n), (uint8_t *)sides, HB_SIDES_BYTES(input.n));
}

static void call_stiffness(void)
{
    frame = __builtin_frame_address(0);
    answer = hb_stiffness(input.n, bytes(input.low), HB_TABLE_BYTES(input.n), bytes(input.high), HB_TABLE_BYTES(input.n), (uint8_t *)&step,
                          HB_STEP_BYTES, (uint8_t *)&bound, HB_BOUND_BYTES, (uint8_t *)shown, HB_VECTOR_BYTES(input.n));
}

static void call_gather(void)
{
    frame = __builtin_frame_address(0);
    answer = hb_gather(input.sample, input.n, (uint8_t *)sums.low, HB_TABLE_BYTES(input.n), (uint8_t *)sums.high, HB_TABLE_BYTES(input.n),
                       (uint8_t *)sums.linear_low, HB_VECTOR_BYTES(input.n), (uint8_t *)sums.linear_high, HB_VECTOR_BYTES(input.n),
                       (uint8_t *)&sums.limit, HB_NUMBER_BYTES);
}

static void call_pool(void)
{
    size_t table = HB_TABLE_BYTES(input.n), list = HB_VECTOR_BYTES(input.n), numbers = HB_NUMBERS_BYTES(pool.count);
    size_t tables = HB_TABLES_BYTES(input.n, pool.count), lists = HB_VECTORS_BYTES(input.n, pool.count);
    frame = __builtin_frame_address(0);
    answer = hb_pool(input.n, (uint8_t *)sums.low, table, (uint8_t *)sums.high, table, (uint8_t *)sums.linear_low, list,
                     (uint8_t *)sums.linear_high, list, (uint8_t *)&sums.limit, HB_NUMBER_BYTES, bytes(pool.orders), numbers,
                     bytes(pool.lows), tables, bytes(pool.highs), tables, bytes(pool.linear_lows), lists, bytes(pool.linear_highs), lists,
                     bytes(pool.limits), numbers);
}

static void call_read_sums(void)
{
    frame = __builtin_frame_address(0);
    answer = hb_read_sums(input.n, bytes(input.low), HB_TABLE_BYTES(input.n), bytes(input.high), HB_TABLE_BYTES(input.n), bytes(input.linear_low),
                          HB_VECTOR_BYTES(input.n), bytes(input.linear_high), HB_VECTOR_BYTES(input.n), input.limit, input.allowance,
                          (uint8_t *)&limit, HB_NUMBER_BYTES);
}

static void call_write_summary(void)
{
    frame = __builtin_frame_address(0);
    answer = hb_write_summary(input.n, bytes(input.low), HB_TABLE_BYTES(input.n), bytes(input.high), HB_TABLE_BYTES(input.n),
                              bytes(input.linear_low), HB_VECTOR_BYTES(input.n), bytes(input.linear_high), HB_VECTOR_BYTES(input.n),
                              input.limit, bytes(input.centre), HB_VECTOR_BYTES(input.n), file, HB_SUMMARY_BYTES(input.n));
}

static void call_read_summary(void)
{
    frame = __builtin_frame_address(0);
    answer = hb_read_summary(file, file_size, (uint8_t *)&held.n, sizeof held.n, (uint8_t *)held.low, sizeof held.low, (uint8_t *)held.high,
                             sizeof held.high, (uint8_t *)held.linear_low, sizeof held.linear_low, (uint8_t *)held.linear_high,
                             sizeof held.linear_high, (uint8_t *)&held.limit, sizeof held.limit, (uint8_t *)held.centre, sizeof held.centre);
}

static void call_bus_write(void)
{
    frame = __builtin_frame_address(0);
    answer = hb_bus_write(bus.block, sizeof bus.block, bus.run, sizeof bus.run, bus.address, bus.value, bytes(input.low),
                          HB_TABLE_BYTES(input.n), bytes(input.high), HB_TABLE_BYTES(input.n));
}

static void call_bus_tick(void)
{
    frame = __builtin_frame_address(0);
    answer = hb_bus_tick(bus.block, sizeof bus.block, bus.run, sizeof bus.run);
}

static void call_bus_read(void)
{
    frame = __builtin_frame_address(0);
    answer = hb_bus_read(bus.block, sizeof bus.block, bus.address, &bus.value, sizeof bus.value);
}

static void call_bus_line(void)
{
    frame = __builtin_frame_address(0);
    answer = hb_bus_line(bus.block, sizeof bus.block);
}

/* An entry: its call, what the header says of its stack, the most that was measured at each order, and how often each answer was given. */
struct entry {
    const char *name;
    void (*call)(void);
    long allowed;
    long deepest[HB_MAX_ORDER + 1];
    long answers[ANSWERS];
};

static struct entry entries[ENTRIES] = {
    {.name = "hb_judge", .call = call_judge, .allowed = HB_JUDGE_STACK},
    {.name = "hb_test_factor", .call = call_test_factor, .allowed = HB_TEST_FACTOR_STACK},
    {.name = "hb_test_vector", .call = call_test_vector, .allowed = HB_TEST_VECTOR_STACK},
    {.name = "hb_box", .call = call_box, .allowed = HB_BOX_STACK},
    {.name = "hb_stiffness", .call = call_stiffness, .allowed = HB_STIFFNESS_STACK},
    {.name = "hb_gather", .call = call_gather, .allowed = HB_GATHER_STACK},
    {.name = "hb_pool", .call = call_pool, .allowed = HB_POOL_STACK},
    {.name = "hb_read_sums", .call = call_read_sums, .allowed = HB_READ_SUMS_STACK},
    {.name = "hb_write_summary", .call = call_write_summary, .allowed = HB_WRITE_SUMMARY_STACK},
    {.name = "hb_read_summary", .call = call_read_summary, .allowed = HB_READ_SUMMARY_STACK},
    {.name = "hb_bus_write", .call = call_bus_write, .allowed = HB_BUS_WRITE_STACK},
    {.name = "hb_bus_tick", .call = call_bus_tick, .allowed = HB_BUS_TICK_STACK},
    {.name = "hb_bus_read", .call = call_bus_read, .allowed = HB_BUS_READ_STACK},
    {.name = "hb_bus_line", .call = call_bus_line, .allowed = HB_BUS_LINE_STACK},
};

/* The stack that a call takes, seen by one paint: from the caller's frame down to the last byte that is not as it was painted */
static long depth(void (*call)(void), int paint)
{
    long place = 0;
    memset(stack, paint, sizeof stack);
    getcontext(&measured);
    measured.uc_stack.ss_sp = stack;
    measured.uc_stack.ss_size = sizeof stack;
    measured.uc_link = &measuring;
    makecontext(&measured, call, 0);
    swapcontext(&measuring, &measured);
    while (place < STACK_BYTES && stack[place] == paint)
        place++;
    return (long)(frame - (stack + place));
}

/* Two paints: what a call writes may be one of them. Both calls begin with the same sums and the same bus. */
static void measure(struct entry *entry)
{
    static const int paints[] = {0xA5, 0x5A};
    const struct bus before = bus;
    for (size_t k = 0; k < sizeof paints / sizeof paints[0]; k++) {
        sums = input;
        bus = before;
        long taken = depth(entry->call, paints[k]);
        if (taken > entry->deepest[input.n])
            entry->deepest[input.n] = taken;
    }
    entry->answers[answer - LEAST_ANSWER]++;
}

/* A number from low to high (splitmix64) */
static int64_t draw(int64_t low, int64_t high)
{
    static uint64_t state = SEED;
    uint64_t z = state += 0x9E3779B97F4A7C15u;
    z = (z ^ (z >> 30)) * 0xBF58476D1CE4E5B9u;
    z = (z ^ (z >> 27)) * 0x94D049BB133111EBu;
    z ^= z >> 31;
    return low + (int64_t)(z % (uint64_t)(high - low + 1));
}

/* Sets an entry and its mirror image to bounds width apart, cut to the range */
static void set_pair(int64_t i, int64_t j, int64_t low, int64_t width)
{
    int64_t high = low + width;
    low = low < -HB_ENTRY_RANGE ? -HB_ENTRY_RANGE : low > HB_ENTRY_RANGE ? HB_ENTRY_RANGE : low;
    high = high > HB_ENTRY_RANGE ? HB_ENTRY_RANGE : high < low ? low : high;
    input.low[i * input.n + j] = input.low[j * input.n + i] = low;
    input.high[i * input.n + j] = input.high[j * input.n + i] = high;
}

/* B'B for a random B of some rows, with something added on the diagonal: definite, or nearly so. */
static void draw_product(int64_t rows, int64_t size, int64_t added, int64_t width)
{
    int64_t b[MAX_ENTRIES];
    for (int64_t place = 0; place < rows * input.n; place++)
        b[place] = draw(-size, size);
    for (int64_t i = 0; i < input.n; i++) {
        for (int64_t j = 0; j <= i; j++) {
            int64_t sum = i == j ? added : 0;
            for (int64_t k = 0; k < rows; k++)
                sum += b[k * input.n + i] * b[k * input.n + j];
            set_pair(i, j, sum, draw(0, width));
        }
    }
}

/* Any entries of some size, with greater ones on the diagonal */
static void draw_entries(int64_t size, int64_t diagonal, int64_t width)
{
    for (int64_t i = 0; i < input.n; i++)
        for (int64_t j = 0; j <= i; j++)
            set_pair(i, j, i == j ? draw(0, diagonal) : draw(-size, size), draw(0, width));
}

/* Definite bounds, but [1 3; 3 10] in two rows and columns next to each other: factoring stops, and no vector shows anything. */
static void draw_undecided(void)
{
    int64_t at = draw(0, input.n - 2);
    for (int64_t i = 0; i < input.n; i++)
        for (int64_t j = 0; j <= i; j++)
            set_pair(i, j, i == j ? draw(500000, 1000000) : draw(-1, 1), 0);
    set_pair(at, at, 1, 0);
    set_pair(at + 1, at, 3, 0);
    set_pair(at + 1, at + 1, 10, 0);
}

/* Bounds with one entry changed: beyond the range, its low above its high, or both by 1, so that it and its mirror image leave no number */
static void draw_refused(int kind)
{
    int64_t place = draw(0, input.n * input.n - 1);
    draw_entries(1, 20, 0);
    if (kind == 0)
        input.low[place] = -HB_ENTRY_RANGE - 1;
    else if (kind == 1)
        input.low[place] = input.high[place] + 1;
    else
        input.high[place] = --input.low[place];
}

/* Bounds with a good margin, their halves rounded apart: of each pair one low is less by 1, and one high more */
static void draw_apart(void)
{
    draw_product(input.n, 300, draw(100, 10000), 2);
    for (int64_t i = 0; i < input.n; i++) {
        for (int64_t j = 0; j < i; j++) {
            input.low[draw(0, 1) ? i * input.n + j : j * input.n + i]--;
            input.high[draw(0, 1) ? i * input.n + j : j * input.n + i]++;
        }
    }
}

/*
 * Bounds of one kind: with a good margin, with little, with none; small and great entries of any signs; a stop without a vector; refused;
 * with halves that were rounded apart
 */
static void draw_bounds(int kind)
{
    if (kind == 0)
        draw_product(input.n, 300, draw(100, 10000), 2);
    else if (kind == 1)
        draw_product(input.n, 3, draw(0, 3), 1);
    else if (kind == 2)
        draw_product(input.n - 1, 300, 0, 0);
    else if (kind == 3)
        draw_product(input.n - 1, 9, 1, 0);
    else if (kind == 4 || (kind == 6 && input.n == 1))
        draw_entries(3, 12, 1);
    else if (kind == 5)
        draw_entries(HB_ENTRY_RANGE, HB_ENTRY_RANGE, HB_ENTRY_RANGE);
    else if (kind == 6)
        draw_undecided();
    else if (kind < 10)
        draw_refused(kind - 7);
    else
        draw_apart();
}

/*
 * A centre, linear terms that put the middle of the ellipsoid near it, with ends up to 100 apart and now and then reversed, and a limit
 * with which it may be empty; or any terms and limit.
 */
static void draw_terms(int near)
{
    int64_t centres = near ? 100 : HB_CENTRE_RANGE, others = near ? 1000 : 1 << 20;
    for (int64_t i = 0; i < input.n; i++)
        input.centre[i] = draw(-centres, centres);
    input.limit = near ? draw(-1000, 1000000) : draw(-HB_LIMIT_RANGE - 1, HB_LIMIT_RANGE + 1);
    for (int64_t i = 0; i < input.n; i++) {
        int64_t product = 0;
        for (int64_t j = 0; j < input.n; j++)
            product += input.low[i * input.n + j] * input.centre[j];
        input.linear_low[i] = draw(-others, others) - product;
        input.linear_high[i] = input.linear_low[i] + (draw(0, 200) == 0 ? -1 : draw(0, 100));
        if (near)
            input.limit += (2 * input.linear_low[i] + product) * input.centre[i];
    }
}

/* A sample, now and then with a number beyond the range, and an allowance, now and then below 0 */
static void draw_sample(void)
{
    float *const numbers[] = {&input.sample.rolling, &input.sample.climb, &input.sample.air, &input.sample.start, &input.sample.draw};
    for (int k = 0; k < 5; k++)
        *numbers[k] = draw(0, 40) == 0 ? 9.0f : (float)draw(-8000000, 8000000) / 1e6f;
    input.allowance = draw(0, 20) == 0 ? -1 : draw(0, HB_MAX_ALLOWANCE);
}

/* Whether the numbers of the problem that was drawn are within half of their ranges, so that halved sums have room for it */
static int has_room(void)
{
    int inside = 2 * input.limit >= -HB_LIMIT_RANGE && 2 * input.limit <= HB_LIMIT_RANGE;
    for (int64_t place = 0; place < input.n * input.n; place++)
        inside &= 2 * input.low[place] >= -HB_ENTRY_RANGE && 2 * input.high[place] <= HB_ENTRY_RANGE;
    return inside;
}

/* Whether it goes into the pool: where it is let through, and there is room for it. Now and then there need not be. */
static int is_pooled(void)
{
    int64_t found;
    if (!has_room() && draw(0, 100) != 0)
        return 0;
    return hb_read_sums(input.n, bytes(input.low), HB_TABLE_BYTES(input.n), bytes(input.high), HB_TABLE_BYTES(input.n),
                        bytes(input.linear_low), HB_VECTOR_BYTES(input.n), bytes(input.linear_high), HB_VECTOR_BYTES(input.n), input.limit,
                        0, (uint8_t *)&found, HB_NUMBER_BYTES) == HB_WRITTEN;
}

/* Puts it behind those of the pool, which begins anew after 1 to 64 problems, and with another order: so there are pools of every count. */
static void put_problem(void)
{
    static int64_t most = HB_GREATEST_POOL;
    if (pool.count >= most || pool.orders[0] != input.n) {
        most = draw(1, HB_GREATEST_POOL);
        pool.count = 0;
    }
    pool.orders[pool.count] = input.n;
    memcpy(pool.lows + pool.count * input.n * input.n, input.low, HB_TABLE_BYTES(input.n));
    memcpy(pool.highs + pool.count * input.n * input.n, input.high, HB_TABLE_BYTES(input.n));
    memcpy(pool.linear_lows + pool.count * input.n, input.linear_low, HB_VECTOR_BYTES(input.n));
    memcpy(pool.linear_highs + pool.count * input.n, input.linear_high, HB_VECTOR_BYTES(input.n));
    pool.limits[pool.count++] = input.limit;
}

/* Offers the factor and the vector that the judge has just written, or those from before; now and then with one entry changed */
static void offer(void)
{
    int64_t count = input.n * input.n;
    memcpy(input.factor, factor, sizeof factor);
    memcpy(input.vector, vector, sizeof vector);
    if (draw(0, 3) == 0) {
        input.factor[draw(0, count - 1)] += draw(-1000000, 1000000);
        input.vector[draw(0, input.n - 1)] = draw(-HB_VECTOR_RANGE, HB_VECTOR_RANGE + 100);
    }
}

/* The file that is read: the last one that was written, now and then with a byte changed, or with its end cut off */
static void take_file(void)
{
    file_size = HB_SUMMARY_BYTES(input.n);
    if (draw(0, 3) == 0)
        file[draw(0, (int64_t)file_size - 1)] = (uint8_t)draw(0, 255);
    if (draw(0, 9) == 0)
        file_size = (size_t)draw(0, (int64_t)file_size);
}

/* The entry of a call */
static struct entry *entry_of(void (*call)(void))
{
    struct entry *entry = entries;
    while (entry->call != call)
        entry++;
    return entry;
}

/* An access to the bus, whose depth is measured */
static void access_bus(void (*call)(void), int64_t address, uint8_t value)
{
    bus.address = address;
    bus.value = value;
    measure(entry_of(call));
}

/* A run on the bus: the order and a start are written, ticks come until it ends, and one more, now and then another start or a reset. */
static void run_bus(void)
{
    access_bus(call_bus_write, HB_BUS_MASK, (uint8_t)draw(0, 7));
    access_bus(call_bus_write, HB_BUS_ORDER, (uint8_t)(draw(0, 40) == 0 ? 9 : input.n));
    access_bus(call_bus_write, HB_BUS_COMMAND, HB_BUS_START);
    for (int64_t tick = 0; tick <= HB_BUS_MOST_TICKS(input.n); tick++) {
        access_bus(call_bus_tick, 0, 0);
        access_bus(call_bus_read, draw(-1, HB_BLOCK_BYTES), 0);
        access_bus(call_bus_line, 0, 0);
        if (draw(0, 40) == 0)
            access_bus(call_bus_write, HB_BUS_COMMAND, (uint8_t)draw(HB_BUS_START, HB_BUS_RESET));
    }
    access_bus(call_bus_write, HB_BUS_FLAGS, 255);
}

/*
 * Many calls of each entry at one order. The judge's come first, since its factor and vector are offered to the tests, and the writer's come before those
 * that read its file. The bus comes last: its accesses have an order of their own.
 */
static void measure_order(int64_t n)
{
    input.n = n;
    for (int64_t i = 0; i < n; i++)
        for (int64_t j = 0; j < n; j++)
            factor[i * n + j] = i == j ? 65536 : 0;
    for (int64_t i = 0; i < n; i++)
        vector[i] = 1;
    for (int place = 0; place < INPUTS; place++) {
        draw_bounds(place % KINDS);
        draw_terms(place % 3 != 0);
        draw_sample();
        if (is_pooled())
            put_problem();
        for (struct entry *entry = entries; entry < entry_of(call_bus_write); entry++) {
            if (entry->call == call_read_summary)
                take_file();
            measure(entry);
            if (entry->call == call_judge)
                offer();
        }
        run_bus();
    }
}

/* The most at any order */
static long greatest(const struct entry *entry)
{
    long most = 0;
    for (int64_t n = 1; n <= HB_MAX_ORDER; n++)
        if (entry->deepest[n] > most)
            most = entry->deepest[n];
    return most;
}

static void print_answers(const struct entry *entry)
{
    printf("%s answered", entry->name);
    for (int k = 0; k < ANSWERS; k++)
        if (entry->answers[k])
            printf("  %d: %ld times", k + LEAST_ANSWER, entry->answers[k]);
    printf("\n");
}

static void print_table(void)
{
    printf("%-10s", "order");
    for (int k = 0; k < ENTRIES; k++)
        printf(" %16s", entries[k].name);
    for (int64_t n = 1; n <= HB_MAX_ORDER; n++) {
        printf("\n%-10d", (int)n);
        for (int k = 0; k < ENTRIES; k++)
            printf(" %16ld", entries[k].deepest[n]);
    }
    printf("\n%-10s", "greatest");
    for (int k = 0; k < ENTRIES; k++)
        printf(" %16ld", greatest(&entries[k]));
    printf("\n%-10s", "header");
    for (int k = 0; k < ENTRIES; k++)
        printf(" %16ld", entries[k].allowed);
    printf("\n\n");
}

int main(void)
{
    int within = 1;
    for (int64_t n = 1; n <= HB_MAX_ORDER; n++)
        measure_order(n);
    print_table();
    for (int k = 0; k < ENTRIES; k++) {
        print_answers(&entries[k]);
        within &= greatest(&entries[k]) <= entries[k].allowed;
    }
    if (!within)
        printf("a call took more stack than the header says\n");
    return !within;
}
