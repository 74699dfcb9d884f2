#include "problems.h"

#include "plain.h"

#include <string.h>

#define SEED 20240229u

static struct problem problems[KINDS][HB_MAX_ORDER + 1][PROBLEMS];

/* Pools that leave the sums in their ranges; pools that halve them; the first ones with the halves of all tables apart */
enum { ROOMY, HALVING, APART, POOL_KINDS };

static struct pool pools[POOL_KINDS][HB_MAX_ORDER + 1][POOLS];
static struct pool any_pool;

const struct problem *problem_of(enum kind kind, int64_t n, int place)
{
    return &problems[kind][n][place];
}

/* A number from low to high (splitmix64) */
static int64_t draw(int64_t low, int64_t high)
{
    static uint64_t state = SEED;
    uint64_t z = state += 0x9E3779B97F4A7C15u;
    z = (z ^ (z >> 30)) * 0xBF58476D1CE4E5B9u;
    z = (z ^ (z >> 27)) * 0x94D049BB133111EBu;
    z ^= z >> 31;
    return low + (int64_t)(z % (uint64_t)(high - low + 1));
}

/* Sets an entry and its mirror image to bounds width apart */
static void set_pair(int64_t n, struct problem *problem, int64_t i, int64_t j, int64_t entry, int64_t width)
{
    problem->low[i * n + j] = problem->low[j * n + i] = entry;
    problem->high[i * n + j] = problem->high[j * n + i] = entry + width;
}

static int64_t cut_to_range(int64_t entry)
{
    return entry < -HB_ENTRY_RANGE ? -HB_ENTRY_RANGE : entry > HB_ENTRY_RANGE ? HB_ENTRY_RANGE : entry;
}

/* Moves the halves of both tables apart, within the range: of each pair one low goes down and one high goes up. Mending takes it back. */
static void move_apart(int64_t n, int64_t *lows, int64_t *highs, int64_t most)
{
    for (int64_t i = 0; i < n; i++) {
        for (int64_t j = 0; j < i; j++) {
            int64_t *low = &lows[draw(0, 1) ? i * n + j : j * n + i], *high = &highs[draw(0, 1) ? i * n + j : j * n + i];
            *low = cut_to_range(*low - draw(0, most));
            *high = cut_to_range(*high + draw(0, most));
        }
    }
}

/* B'B, with something added on the diagonal, and bounds up to width apart */
static void set_product(int64_t n, struct problem *problem, const int64_t *b, int64_t least, int64_t most, int64_t width)
{
    for (int64_t i = 0; i < n; i++) {
        for (int64_t j = i; j < n; j++) {
            int64_t sum = i == j ? draw(least, most) : 0;
            for (int64_t k = 0; k < n; k++)
                sum += b[k * n + i] * b[k * n + j];
            set_pair(n, problem, i, j, sum, draw(0, width));
        }
    }
}

static int64_t verdict(int64_t n, const struct problem *problem)
{
    int64_t factor[MAX_ENTRIES], vector[HB_MAX_ORDER], over;
    size_t count = (size_t)(n * n);
    return plain_pairs_judge(n, problem->low, count, problem->high, count, factor, count, vector, (size_t)n, &over, 1);
}

/* A centre, linear terms with ends up to 100 apart that put the ellipsoid's middle near it, and a limit with which it is not empty */
static void draw_terms(int64_t n, struct problem *problem)
{
    for (int64_t i = 0; i < n; i++)
        problem->centre[i] = draw(-100, 100);
    problem->limit = draw(0, 1000000);
    for (int64_t i = 0; i < n; i++) {
        int64_t product = 0;
        for (int64_t j = 0; j < n; j++)
            product += problem->low[i * n + j] * problem->centre[j];
        problem->linear_low[i] = draw(-1000, 1000) - product;
        problem->linear_high[i] = problem->linear_low[i] + draw(0, 100);
        /* 2a'c + c'Mc, the value at the centre */
        problem->limit += (2 * problem->linear_low[i] + product) * problem->centre[i];
    }
}

/* A float with some of its range's digits, or one in four a whole number of sixteenths */
static float draw_number(void)
{
    return draw(0, 3) ? (float)draw(-8000000, 8000000) / 1e6f : (float)draw(-128, 128) / 16;
}

/* A sample that is taken, and an allowance */
static void draw_sample(struct problem *problem)
{
    problem->sample.rolling = draw_number();
    problem->sample.climb = draw_number();
    problem->sample.air = draw_number();
    problem->sample.start = draw_number();
    problem->sample.draw = draw_number();
    problem->allowance = draw(0, HB_MAX_ALLOWANCE);
}

/* Sets entry (i,j) of both tables in a file of order n. The low one starts behind the field of the order, 4 bytes, and a head of 3. */
static void put_entry(int64_t n, struct problem *problem, int64_t i, int64_t j, int64_t low, int64_t high)
{
    uint8_t *low_at = problem->file + 7 + 4 * (i * n + j), *high_at = low_at + 4 * n * n + 3;
    for (int k = 0; k < 4; k++) {
        low_at[k] = (uint8_t)((uint64_t)low >> (8 * k));
        high_at[k] = (uint8_t)((uint64_t)high >> (8 * k));
    }
}

/* The summary file of the problem, where it has one. Its tables are as they are, and not mended. */
static void draw_file(int64_t n, struct problem *problem)
{
    size_t order = (size_t)n, count = order * order;
    problem->file_size = HB_SUMMARY_BYTES(n);
    if (plain_write_summary(n, problem->low, count, problem->high, count, problem->linear_low, order, problem->linear_high, order,
                            problem->limit, problem->centre, order, problem->file, problem->file_size) != HB_WRITTEN)
        return;
    for (int64_t i = 0; i < n; i++)
        for (int64_t j = 0; j < n; j++)
            put_entry(n, problem, i, j, problem->low[i * n + j], problem->high[i * n + j]);
}

/* A factor of the bounds, a vector and an ellipsoid. One factor in eight is changed so that the last row, and only that, fails its test. */
static void draw_definite(int64_t n, int place)
{
    struct problem *problem = &problems[DEFINITE][n][place];
    int64_t b[MAX_ENTRIES];
    do {
        for (int64_t at = 0; at < n * n; at++)
            b[at] = draw(-300, 300);
        set_product(n, problem, b, 100, 10000, 2);
    } while (plain_factor(n, problem->low, problem->high, problem->factor) != 0);
    if (place % 8 == 7)
        problem->factor[n * n - 1] = HB_FACTOR_RANGE;
    for (int64_t i = 0; i < n; i++)
        problem->vector[i] = draw(-HB_VECTOR_RANGE, HB_VECTOR_RANGE);
    draw_terms(n, problem);
    draw_sample(problem);
    draw_file(n, problem);
}

/* Makes row a of B orthogonal to x, of which entry p is 1 or -1 */
static void make_orthogonal(int64_t n, int64_t *row, const int64_t *x, int64_t p)
{
    int64_t sum = 0;
    for (int64_t i = 0; i < n; i++)
        sum += i == p ? 0 : row[i] * x[i];
    row[p] = -sum * x[p];
}

/* B'B for a B with Bx = 0, so that the least value of x is 0 or less. The entries of x are 0, 1 and -1, or also greater ones, but 1 or -1 at p. */
static void draw_not_definite(int64_t n, int place)
{
    struct problem *problem = &problems[NOT_DEFINITE][n][place];
    int64_t greatest = place % 4 == 3 ? 5 : 1, size = place % 4 == 3 ? 8 : 20;
    do {
        int64_t b[MAX_ENTRIES], x[HB_MAX_ORDER], p = draw(0, n - 1);
        for (int64_t i = 0; i < n; i++)
            x[i] = draw(-greatest, greatest);
        x[p] = draw(0, 1) ? 1 : -1;
        for (int64_t at = 0; at < n * n; at++)
            b[at] = draw(-size, size);
        for (int64_t k = 0; k < n; k++)
            make_orthogonal(n, b + k * n, x, p);
        set_product(n, problem, b, 0, 0, 2);
    } while (verdict(n, problem) != HB_NOT_DEFINITE);
    draw_terms(n, problem);
    draw_sample(problem);
    draw_file(n, problem);
}

/* Whether the rows and columns but the last can be factored. Bounds are thin. */
static int stops_late(int64_t n, const struct problem *problem)
{
    int64_t leading[MAX_ENTRIES], factor[MAX_ENTRIES];
    for (int64_t i = 0; i < n - 1; i++)
        memcpy(leading + i * (n - 1), problem->low + i * n, (size_t)(n - 1) * sizeof *leading);
    return plain_factor(n - 1, leading, leading, factor) == 0;
}

/*
 * B'B for an upper triangular B with 1 on the diagonal, some rows of which are multiplied: in whole numbers Bx is 0 for x = 0 alone. A late
 * one stops in the last column: all rows but the last are multiplied, by more, and at greater orders other entries are small.
 */
static void draw_undecided(enum kind kind, int64_t n, int place)
{
    struct problem *problem = &problems[kind][n][place];
    int64_t least = kind == LATE ? 20 : 1, multiplied = kind == LATE ? n - 1 : n - 2, size = kind == LATE && n > 4 ? 2 : 6;
    do {
        int64_t b[MAX_ENTRIES];
        for (int64_t i = 0; i < n; i++) {
            int64_t multiple = i < multiplied ? draw(least, 40) : 1;
            for (int64_t j = 0; j < n; j++)
                b[i * n + j] = j < i ? 0 : multiple * (i == j ? 1 : draw(-size, size));
        }
        set_product(n, problem, b, 0, 0, 0);
    } while ((kind == LATE && !stops_late(n, problem)) || verdict(n, problem) != HB_UNDECIDED);
    draw_terms(n, problem);
    draw_sample(problem);
    draw_file(n, problem);
}

/* A problem with thin bounds, from the low table of another */
static void make_thin(enum kind from, enum kind to, int64_t n, int place)
{
    struct problem *problem = &problems[to][n][place];
    *problem = problems[from][n][place];
    memcpy(problem->high, problem->low, sizeof problem->low);
    draw_file(n, problem);
}

/* A definite problem with its halves apart: what mending makes of it is the definite one again */
static void make_lopsided(int64_t n, int place)
{
    struct problem *problem = &problems[LOPSIDED][n][place];
    *problem = problems[DEFINITE][n][place];
    problem->apart = 1;
    move_apart(n, problem->low, problem->high, 2);
    draw_file(n, problem);
}

/* Begins a pool: its sums have the numbers of a problem. */
static void start_pool(struct pool *pool, const struct problem *problem)
{
    memset(pool, 0, sizeof *pool);
    memcpy(pool->low, problem->low, sizeof pool->low);
    memcpy(pool->high, problem->high, sizeof pool->high);
    memcpy(pool->linear_low, problem->linear_low, sizeof pool->linear_low);
    memcpy(pool->linear_high, problem->linear_high, sizeof pool->linear_high);
    pool->running_limit = problem->limit;
}

/* Puts a problem behind those of a pool. */
static void put_problem(int64_t n, struct pool *pool, const struct problem *problem)
{
    size_t place = pool->count++, order = (size_t)n, entries = order * order;
    pool->orders[place] = n;
    memcpy(pool->lows + place * entries, problem->low, entries * sizeof *pool->lows);
    memcpy(pool->highs + place * entries, problem->high, entries * sizeof *pool->highs);
    memcpy(pool->linear_lows + place * order, problem->linear_low, order * sizeof *pool->linear_lows);
    memcpy(pool->linear_highs + place * order, problem->linear_high, order * sizeof *pool->linear_highs);
    pool->limits[place] = problem->limit;
}

/* A problem for a pool: B'B with diagonal entries up to most, bounds up to 2 apart */
static void draw_pooled(int64_t n, struct problem *problem, int64_t most)
{
    int64_t b[MAX_ENTRIES], size = 0;
    while ((size + 1) * (size + 1) * n <= most - 2)
        size++;
    for (int64_t at = 0; at < n * n; at++)
        b[at] = draw(-size, size);
    set_product(n, problem, b, 0, 0, 2);
    draw_terms(n, problem);
}

/* The pools of an order. The sums and 64 problems have room for 1/65 of the range each, and a problem for half of it beside halved sums. */
static void draw_pools(int64_t n, int place)
{
    static struct problem problem;
    for (int kind = ROOMY; kind <= HALVING; kind++) {
        struct pool *pool = &pools[kind][n][place];
        int64_t most = kind == ROOMY ? HB_ENTRY_RANGE / POOL_ROOM : HB_ENTRY_RANGE / 2;
        draw_pooled(n, &problem, most);
        start_pool(pool, &problem);
        while (pool->count < HB_GREATEST_POOL) {
            draw_pooled(n, &problem, most);
            put_problem(n, pool, &problem);
        }
    }
    struct pool *apart = &pools[APART][n][place];
    *apart = pools[ROOMY][n][place];
    move_apart(n, apart->low, apart->high, 2);
    for (int64_t k = 0; k < HB_GREATEST_POOL; k++)
        move_apart(n, apart->lows + k * n * n, apart->highs + k * n * n, 2);
}

void draw_problems(void)
{
    for (int64_t n = 1; n <= HB_MAX_ORDER; n++) {
        for (int place = 0; place < PROBLEMS; place++) {
            draw_definite(n, place);
            draw_not_definite(n, place);
            if (n > 1)
                draw_undecided(UNDECIDED, n, place);
            make_thin(DEFINITE, THIN, n, place);
            make_thin(NOT_DEFINITE, SINGULAR, n, place);
            for (int kind = 0; kind < KINDS; kind++)
                problems[kind][n][place].place = place;
        }
    }
    for (int64_t n = 1; n <= HB_MAX_ORDER; n++)
        for (int place = 0; place < PROBLEMS; place++)
            make_lopsided(n, place);
    for (int64_t n = 1; n <= HB_MAX_ORDER; n++) {
        for (int place = 0; place < POOLS; place++)
            draw_pools(n, place);
        for (int kind = 0; kind < KINDS; kind++)
            for (int place = 0; place < PROBLEMS; place++)
                problems[kind][n][place].pool = &pools[kind == LOPSIDED ? APART : kind == NOT_DEFINITE ? HALVING : ROOMY][n][place % POOLS];
    }
    for (int64_t n = 2; n <= HB_MAX_ORDER; n++)
        for (int place = 0; place < PROBLEMS; place++)
            draw_undecided(LATE, n, place);
}

/* Any entries of some size, greater ones on the diagonal, the bounds up to width apart, and now and then at the edge of the range */
static void draw_entries(int64_t n, struct problem *problem)
{
    int64_t size = (int64_t)1 << draw(0, 20), diagonal = (int64_t)1 << draw(0, 20), width = draw(0, 1) ? 0 : draw(0, size);
    for (int64_t i = 0; i < n; i++) {
        for (int64_t j = 0; j <= i; j++) {
            int64_t entry = i == j ? draw(0, diagonal) : draw(-size, size), reach = HB_ENTRY_RANGE - entry;
            int64_t wide = draw(0, width);
            set_pair(n, problem, i, j, entry, draw(0, 200) == 0 || wide > reach ? reach : wide);
        }
    }
}

/* A number that no range holds, or any of 64 bits */
static int64_t draw_wild(void)
{
    static const int64_t wild[] = {HB_ENTRY_RANGE + 1, -HB_ENTRY_RANGE - 1, INT64_MAX, INT64_MIN, INT64_MIN + 1, INT64_MAX - HB_ENTRY_RANGE};
    int64_t k = draw(0, 11);
    return k < 6 ? wild[k] : draw(INT64_MIN / 2, INT64_MAX / 2 - 1);
}

/* Changes one entry or two, or an entry and its mirror image, or both bounds of one entry, or one end of a linear term or both */
static void spoil(int64_t n, struct problem *problem)
{
    int64_t i = draw(0, n - 1), j = draw(0, n - 1), kind = draw(0, 7);
    int64_t *table = draw(0, 1) ? problem->low : problem->high, *end = draw(0, 1) ? problem->linear_low : problem->linear_high;
    if (kind == 0)
        table[i * n + j] = draw_wild();
    else if (kind == 1)
        table[i * n + j] += draw(-2, 2);
    else if (kind == 2)
        problem->low[i * n + j] = problem->low[j * n + i] = problem->high[i * n + j] + draw(0, 1);
    else if (kind == 3)
        problem->low[i * n + j] = problem->high[j * n + i] = draw_wild();
    else if (kind == 4)
        problem->linear_low[i] = problem->linear_high[i] = draw(0, 1) ? draw_wild() : HB_LINEAR_RANGE + draw(0, 1);
    else if (kind == 5)
        end[i] = draw(0, 1) ? draw_wild() : draw(-HB_LINEAR_RANGE - 1, HB_LINEAR_RANGE + 1);
    else if (kind == 6)
        problem->low[i * n + j] = problem->high[i * n + j] = problem->high[j * n + i] + draw(-1, 1);
    else
        problem->linear_low[i] = problem->linear_high[i] + draw(-1, 1);
}

/* A sample that may be refused, with a float of any bits, or may fill the sums; and an allowance that may be refused */
static void draw_any_sample(struct problem *problem)
{
    static const int64_t allowances[] = {-1, 0, HB_MAX_ALLOWANCE, HB_MAX_ALLOWANCE + 1, INT64_MIN, INT64_MAX};
    float *const numbers[] = {&problem->sample.rolling, &problem->sample.climb, &problem->sample.air, &problem->sample.start, &problem->sample.draw};
    draw_sample(problem);
    if (draw(0, 3) == 0) {
        uint32_t bits = (uint32_t)draw(0, UINT32_MAX);
        memcpy(numbers[draw(0, 4)], &bits, sizeof bits);
    }
    if (draw(0, 3) == 0)
        problem->allowance = allowances[draw(0, 5)];
}

/* Offers a factor and a vector that fit, or nearly so */
static void draw_offers(int64_t n, struct problem *problem)
{
    plain_checked_factor(n, problem->low, problem->high, problem->factor);
    if (draw(0, 2) == 0)
        problem->factor[draw(0, n * n - 1)] = draw(0, 1) ? HB_FACTOR_RANGE + draw(0, 1) : draw(-1, 1);
    int64_t size = draw(0, 3) ? draw(0, 3) : HB_VECTOR_RANGE + draw(0, 1);
    for (int64_t i = 0; i < n; i++)
        problem->vector[i] = draw(-size, size);
}

/* Gives both bounds of an entry in the file one number, next to the high one of its mirror image: the pair may leave no number */
static void put_thin_entry(int64_t n, struct problem *problem)
{
    int64_t i = draw(0, n - 1), j = draw(0, n - 1), entry = problem->high[j * n + i] + draw(-1, 1);
    put_entry(n, problem, i, j, entry, entry);
}

/*
 * The file of the problem before it is spoiled, or of another one where it has none. In most of them a byte is changed, the order or the
 * second tag is another, the end is cut off or moved, all bytes are any, or both bounds of an entry are one number
 */
static void draw_any_file(int64_t n, struct problem *problem)
{
    size_t at;
    draw_file(n, problem);
    at = (size_t)draw(0, (int64_t)problem->file_size - 1);
    switch (draw(0, 10)) {
    case 0:
        problem->file[at] = (uint8_t)draw(0, 255);
        break;
    case 1:
        problem->file[at] ^= (uint8_t)(1 << draw(0, 7));
        break;
    case 2:
        problem->file[4] = (uint8_t)draw(0, 8);
        break;
    case 3:
        problem->file[3] = (uint8_t)draw(0, 10);
        break;
    case 4:
        problem->file_size = at;
        break;
    case 5:
        problem->file_size += (size_t)draw(1, 20);
        break;
    case 6:
        problem->file_size = (size_t)draw(4090, FILE_ROOM);
        break;
    case 7:
        problem->file_size = (size_t)draw(0, 40);
        for (size_t k = 0; k < problem->file_size; k++)
            problem->file[k] = (uint8_t)(draw(0, 2) ? draw(0, 7) : draw(0, 255));
        break;
    case 8:
        put_thin_entry(n, problem);
        break;
    default:
        break;
    }
}

/* One order that is another, or none at all */
static void spoil_orders(struct pool *pool)
{
    pool->orders[draw(0, HB_GREATEST_POOL)] = draw(0, 1) ? draw(-1, HB_MAX_ORDER + 1) : draw_wild();
}

/*
 * A pool for the numbers of a problem: these for sums, and again, at the edge of the range, or small ones, for the problems, up to 65 and
 * now and then none. One of them, the sums or an order may be spoiled.
 */
static void draw_any_pool(int64_t n, const struct problem *problem)
{
    static struct problem sums, pooled;
    int64_t count = draw(0, 20) == 0 ? draw(0, 1) * POOL_ROOM : draw(1, draw(0, 1) ? 3 : HB_GREATEST_POOL), spoiled = draw(-count, count);
    sums = *problem;
    if (draw(0, 7) == 0)
        spoil(n, &sums);
    start_pool(&any_pool, &sums);
    while ((int64_t)any_pool.count < count) {
        if (draw(0, 1))
            draw_pooled(n, &pooled, (int64_t)1 << draw(1, 20));
        else
            pooled = *problem;
        if (draw(0, 9) == 0)
            pooled.limit = draw(-HB_LIMIT_RANGE, HB_LIMIT_RANGE);
        if (draw(0, 2) == 0)
            move_apart(n, pooled.low, pooled.high, 2);
        if ((int64_t)any_pool.count == spoiled)
            spoil(n, &pooled);
        put_problem(n, &any_pool, &pooled);
    }
    if (draw(0, 9) == 0)
        spoil_orders(&any_pool);
}

void draw_any(int64_t n, struct problem *problem)
{
    int64_t kind = draw(0, KINDS + 1);
    if (kind < KINDS && (n > 1 || (kind != UNDECIDED && kind != LATE))) {
        *problem = problems[kind][n][draw(0, PROBLEMS - 1)];
        for (int64_t i = 0; i < n; i++)
            set_pair(n, problem, i, i, problem->low[i * n + i] + draw(-1, 1), draw(0, 1));
    } else {
        draw_entries(n, problem);
    }
    if (draw(0, 2) == 0)
        move_apart(n, problem->low, problem->high, draw(0, 1) ? 2 : HB_ENTRY_RANGE);
    draw_terms(n, problem);
    if (draw(0, 3) == 0)
        problem->limit = draw(0, 1) ? problem->limit - draw(0, 2000000) : draw(-HB_LIMIT_RANGE - 1, HB_LIMIT_RANGE + 1);
    if (draw(0, 3) == 0)
        problem->centre[draw(0, n - 1)] = draw(-HB_CENTRE_RANGE - 1, HB_CENTRE_RANGE + 1);
    draw_offers(n, problem);
    draw_any_sample(problem);
    draw_any_file(n, problem);
    draw_any_pool(n, problem);
    problem->pool = &any_pool;
    if (draw(0, 3) == 0)
        spoil(n, problem);
}
