#include "plain.h"

#include <math.h>
#include <string.h>

#define ENTRY_RANGE ((int64_t)1 << 20)
#define LINEAR_RANGE ((int64_t)1 << 36)
#define LIMIT_RANGE ((int64_t)1 << 54)
#define CENTRE_RANGE ((int64_t)1 << 12)
#define GRADIENT_RANGE ((int64_t)1 << 20)
#define VECTOR_RANGE ((int64_t)1 << 15)
#define FACTOR_RANGE ((int64_t)1 << 26)
#define SCALE ((int64_t)1 << 32)
#define HALF_SCALE ((int64_t)1 << 31)
#define MARGIN ((int64_t)1 << 29)
#define MAX_ALLOWANCE ((int64_t)1 << 40)
#define SAMPLE_ORDER 4
#define SAMPLE_ENTRIES (SAMPLE_ORDER * SAMPLE_ORDER)
#define GREATEST_POOL 64
#define NUMERATOR_RANGE ((int64_t)1 << 52)
#define STOPPED_RANGE ((int64_t)1 << 55)

/* a / d rounded down toward minus infinity; d is positive */
static int64_t floor_quotient(int64_t a, int64_t d)
{
    return a / d - (a % d < 0);
}

/* The whole root, rounded down, of x >= 1, in whole numbers: Newton's steps from above */
static int64_t whole_root(int64_t x)
{
    uint64_t number = (uint64_t)x;
    int shift = (63 - __builtin_clzll(number)) / 2;
    uint64_t guess = 11 * ((number >> shift) + ((uint64_t)2 << shift)) / 32;
    uint64_t above = (guess + number / guess) / 2;
    uint64_t step = (above + number / above) / 2;
    while (step < above) {
        above = step;
        step = (above + number / above) / 2;
    }
    return (int64_t)above;
}

/* The same by the processor's floating-point root, where it has one */
static int64_t floating_root(int64_t x)
{
    int64_t root = (int64_t)sqrt((double)x);
    while (root * root > x)
        root--;
    while ((root + 1) * (root + 1) <= x)
        root++;
    return root;
}

static int64_t magnitude(int64_t x)
{
    return x < 0 ? -x : x;
}

static int within(int64_t x, int64_t range)
{
    return -range <= x && x <= range;
}

/* H(j,j) */
static int64_t diagonal(int64_t n, const int64_t *low, const int64_t *high, int64_t j)
{
    int64_t width = 0;
    for (int64_t k = 0; k < n; k++)
        width += high[j * n + k] - low[j * n + k];
    return HALF_SCALE * (low[j * n + j] + high[j * n + j]) - (MARGIN + HALF_SCALE * width);
}

/* Where factoring stops: the column, from 0, and how many of its rows were worked out */
struct stop {
    int64_t column;
    int64_t rows;
};

static int64_t stopped(struct stop *stop, int64_t column, int64_t rows)
{
    stop->column = column;
    stop->rows = rows;
    return -1;
}

/* Inlined into each caller, so that what it is given is no call through a pointer */
#define INLINED static inline __attribute__((always_inline))

INLINED int64_t factor_by(int64_t (*root)(int64_t), int64_t n, const int64_t *low, const int64_t *high, int64_t *factor, struct stop *stop)
{
    for (int64_t place = 0; place < n * n; place++)
        factor[place] = 0;
    for (int64_t j = 0; j < n; j++) {
        int64_t rest = diagonal(n, low, high, j);
        if (rest < 1)
            return stopped(stop, j, 0);
        for (int64_t i = 0; i < j; i++) {
            int64_t numerator = HALF_SCALE * (low[i * n + j] + high[i * n + j]);
            for (int64_t k = 0; k < i; k++)
                numerator -= factor[k * n + i] * factor[k * n + j];
            int64_t entry = floor_quotient(numerator, factor[i * n + i]);
            factor[i * n + j] = entry;
            if (!within(entry, FACTOR_RANGE))
                return stopped(stop, j, i + 1);
            rest -= entry * entry;
            if (rest < 1)
                return stopped(stop, j, i + 1);
        }
        factor[j * n + j] = root(rest);
    }
    return 0;
}

int64_t plain_factor(int64_t n, const int64_t *low, const int64_t *high, int64_t *factor)
{
    struct stop stop;
    return factor_by(whole_root, n, low, high, factor, &stop);
}

static int in_range(const int64_t *numbers, int64_t count, int64_t range)
{
    for (int64_t place = 0; place < count; place++)
        if (!within(numbers[place], range))
            return 0;
    return 1;
}

static int crossed(const int64_t *low, const int64_t *high, int64_t count)
{
    for (int64_t place = 0; place < count; place++)
        if (low[place] > high[place])
            return 1;
    return 0;
}

static int64_t greater(int64_t x, int64_t y)
{
    return x > y ? x : y;
}

static int64_t lesser(int64_t x, int64_t y)
{
    return x < y ? x : y;
}

/* The mended tables: of each pair the greater low and the lesser high, in both places. Whether each pair leaves a number (check 5). */
static int mend(int64_t n, const int64_t *low, const int64_t *high, int64_t *mended_low, int64_t *mended_high)
{
    int left = 1;
    for (int64_t i = 0; i < n; i++) {
        for (int64_t j = i; j < n; j++) {
            int64_t place = i * n + j, mirrored = j * n + i;
            int64_t l = greater(low[place], low[mirrored]), u = lesser(high[place], high[mirrored]);
            mended_low[place] = mended_low[mirrored] = l;
            mended_high[place] = mended_high[mirrored] = u;
            left &= l <= u;
        }
    }
    return left;
}

/* upper triangular, a diagonal of 1 to 2^26, the other entries within 2^26 */
static int proper_factor(const int64_t *factor, int64_t n)
{
    for (int64_t i = 0; i < n; i++) {
        for (int64_t j = 0; j < i; j++)
            if (factor[i * n + j] != 0)
                return 0;
        if (factor[i * n + i] < 1)
            return 0;
        for (int64_t j = i; j < n; j++)
            if (!within(factor[i * n + j], FACTOR_RANGE))
                return 0;
    }
    return 1;
}

/* P(i,j), for i <= j */
static int64_t product(const int64_t *factor, int64_t n, int64_t i, int64_t j)
{
    int64_t sum = 0;
    for (int64_t k = 0; k <= i; k++)
        sum += factor[k * n + i] * factor[k * n + j];
    return sum;
}

/* Both tables of the residual, whole: 2^32 L - P and 2^32 U - P */
static void residual(int64_t n, const int64_t *low, const int64_t *high, const int64_t *factor, int64_t *from_low, int64_t *from_high)
{
    for (int64_t i = 0; i < n; i++) {
        for (int64_t j = i; j < n; j++) {
            int64_t p = product(factor, n, i, j);
            from_low[i * n + j] = from_low[j * n + i] = SCALE * low[i * n + j] - p;
            from_high[i * n + j] = from_high[j * n + i] = SCALE * high[i * n + j] - p;
        }
    }
}

/* The row test over the two tables of a residual: the least that a row has over, its diagonal entry less the radii beside it */
static int64_t rows_over(int64_t n, const int64_t *from_low, const int64_t *from_high)
{
    int64_t least = INT64_MAX;
    for (int64_t i = 0; i < n; i++) {
        int64_t over = from_low[i * n + i];
        for (int64_t j = 0; j < n; j++)
            if (j != i)
                over -= greater(magnitude(from_low[i * n + j]), magnitude(from_high[i * n + j]));
        least = lesser(least, over);
    }
    return least;
}

/* Check 3 of the tables */
static int tables_in_range(int64_t n, const int64_t *low, const int64_t *high)
{
    return in_range(low, n * n, ENTRY_RANGE) && in_range(high, n * n, ENTRY_RANGE);
}

/* Mended tables: what is worked out after the checks is worked out from these, and the tables that were lent are only read */
struct mended {
    int64_t low[PLAIN_MAX_ORDER * PLAIN_MAX_ORDER];
    int64_t high[PLAIN_MAX_ORDER * PLAIN_MAX_ORDER];
};

/* The residual of a factor, whole, and what its rows have over */
static int64_t factor_over(int64_t n, const struct mended *mended, const int64_t *factor)
{
    int64_t from_low[PLAIN_MAX_ORDER * PLAIN_MAX_ORDER], from_high[PLAIN_MAX_ORDER * PLAIN_MAX_ORDER];
    residual(n, mended->low, mended->high, factor, from_low, from_high);
    return rows_over(n, from_low, from_high);
}

/* Checks 4, of the tables as handed in, and 5, of the mended ones: 0, or the number of the refusal */
static int64_t check_shape(int64_t n, const int64_t *low, const int64_t *high, int64_t *mended_low, int64_t *mended_high)
{
    if (crossed(low, high, n * n))
        return 4;
    return mend(n, low, high, mended_low, mended_high) ? 0 : 5;
}

/* Checks 3 to 5 of an act on the tables alone: 0, and the mended tables; or the number of the refusal */
static int64_t check_tables(int64_t n, const int64_t *low, const int64_t *high, struct mended *mended)
{
    return tables_in_range(n, low, high) ? check_shape(n, low, high, mended->low, mended->high) : 3;
}

int64_t plain_checked_factor(int64_t n, const int64_t *low, const int64_t *high, int64_t *factor)
{
    struct mended mended;
    int64_t refusal = check_tables(n, low, high, &mended);
    return refusal ? refusal : plain_factor(n, mended.low, mended.high, factor);
}

int64_t plain_floating_factor(int64_t n, const int64_t *low, const int64_t *high, int64_t *factor)
{
    struct stop stop;
    struct mended mended;
    int64_t refusal = check_tables(n, low, high, &mended);
    return refusal ? refusal : factor_by(floating_root, n, mended.low, mended.high, factor, &stop);
}

int64_t plain_test_factor(int64_t n, const int64_t *low, size_t low_count, const int64_t *high, size_t high_count, const int64_t *factor,
                          size_t factor_count, int64_t *over, size_t over_count)
{
    if (n < 1 || n > PLAIN_MAX_ORDER)
        return 1;
    size_t count = (size_t)(n * n);
    if (low_count != count || high_count != count || factor_count != count || over_count != 1)
        return 2;
    struct mended mended;
    int64_t refusal = check_tables(n, low, high, &mended);
    if (refusal)
        return refusal;
    if (!proper_factor(factor, n))
        return 6;
    *over = factor_over(n, &mended, factor);
    return *over < 0 ? -1 : 0;
}

/* What x(i) x(j) m adds at its least, for an m from low to high */
static int64_t least_term(int64_t product, int64_t low, int64_t high)
{
    return product * (product > 0 ? low : high);
}

/* The least value of x (R8): each product x(i) x(j) takes the low bound where it is positive or a square, the high bound where not */
static int64_t whole_form(int64_t n, const int64_t *low, const int64_t *high, const int64_t *x)
{
    int64_t sum = 0;
    for (int64_t i = 0; i < n; i++)
        for (int64_t j = 0; j < n; j++)
            sum += least_term(x[i] * x[j], low[i * n + j], high[i * n + j]);
    return sum;
}

/* The same, each pair i < j once */
static int64_t pairs_form(int64_t n, const int64_t *low, const int64_t *high, const int64_t *x)
{
    int64_t sum = 0;
    for (int64_t i = 0; i < n; i++) {
        int64_t pairs = 0;
        for (int64_t j = 0; j < i; j++)
            pairs += least_term(x[i] * x[j], low[i * n + j], high[i * n + j]);
        sum += 2 * pairs + x[i] * x[i] * low[i * n + i];
    }
    return sum;
}

static int nonzero(int64_t n, const int64_t *x)
{
    for (int64_t i = 0; i < n; i++)
        if (x[i] != 0)
            return 1;
    return 0;
}

/* not all zero, the entries within 2^15 */
static int proper_vector(int64_t n, const int64_t *x)
{
    for (int64_t i = 0; i < n; i++)
        if (!within(x[i], VECTOR_RANGE))
            return 0;
    return nonzero(n, x);
}

int64_t plain_test_vector(int64_t n, const int64_t *low, size_t low_count, const int64_t *high, size_t high_count, const int64_t *vector,
                          size_t vector_count)
{
    if (n < 1 || n > PLAIN_MAX_ORDER)
        return 1;
    size_t count = (size_t)(n * n);
    if (low_count != count || high_count != count || vector_count != (size_t)n)
        return 2;
    struct mended mended;
    int64_t refusal = check_tables(n, low, high, &mended);
    if (refusal)
        return refusal;
    if (!proper_vector(n, vector))
        return 7;
    return pairs_form(n, mended.low, mended.high, vector) <= 0 ? 0 : -1;
}

/* One of the two forms above */
typedef int64_t form(int64_t n, const int64_t *low, const int64_t *high, const int64_t *x);

/* The next tried vector: counting from the last entry, each goes from 0 to 1, then to -1, then to 0 and the one before it goes on. 0 after the last. */
static int next_tried(int64_t n, int64_t *x)
{
    for (int64_t i = n - 1; i >= 0; i--) {
        if (x[i] != -1) {
            x[i] = x[i] == 0 ? 1 : -1;
            return 1;
        }
        x[i] = 0;
    }
    return 0;
}

/* Whether a tried vector shows 'not definite'; x is the first that does */
INLINED int tried_by(form *least, int64_t n, const int64_t *low, const int64_t *high, int64_t *x)
{
    memset(x, 0, (size_t)n * sizeof *x);
    while (next_tried(n, x))
        if (least(n, low, high, x) <= 0)
            return 1;
    return 0;
}

/* Whether there is a solved vector of scale s; x is it */
static int solve(int64_t n, const int64_t *factor, const struct stop *stop, int64_t s, int64_t *x)
{
    memset(x, 0, (size_t)n * sizeof *x);
    x[stop->column] = s;
    for (int64_t i = stop->rows - 1; i >= 0; i--) {
        int64_t t = 0;
        for (int64_t k = i + 1; k <= stop->column; k++)
            t += factor[i * n + k] * x[k];
        x[i] = -floor_quotient(2 * t + factor[i * n + i], 2 * factor[i * n + i]);
        if (!within(x[i], VECTOR_RANGE))
            return 0;
    }
    return 1;
}

INLINED int64_t judge_by(form *least, int64_t n, const int64_t *low, size_t low_count, const int64_t *high, size_t high_count, int64_t *factor,
                         size_t factor_count, int64_t *vector, size_t vector_count, int64_t *over, size_t over_count)
{
    int64_t table[PLAIN_MAX_ORDER * PLAIN_MAX_ORDER], x[PLAIN_MAX_ORDER];
    struct mended mended;
    struct stop stop;
    if (n < 1 || n > PLAIN_MAX_ORDER)
        return 1;
    size_t count = (size_t)(n * n);
    if (low_count != count || high_count != count || factor_count != count || vector_count != (size_t)n || over_count != 1)
        return 2;
    int64_t refusal = check_tables(n, low, high, &mended);
    if (refusal)
        return refusal;
    if (factor_by(whole_root, n, mended.low, mended.high, table, &stop) == 0) {
        *over = factor_over(n, &mended, table);
        memcpy(factor, table, count * sizeof *factor);
        return 0;
    }
    int shown = tried_by(least, n, mended.low, mended.high, x);
    for (int64_t s = 1; !shown && s <= 64; s *= 64)
        shown = solve(n, table, &stop, s, x) && least(n, mended.low, mended.high, x) <= 0;
    if (!shown)
        return -2;
    memcpy(vector, x, (size_t)n * sizeof *vector);
    return -1;
}

int64_t plain_judge(int64_t n, const int64_t *low, size_t low_count, const int64_t *high, size_t high_count, int64_t *factor, size_t factor_count,
                    int64_t *vector, size_t vector_count, int64_t *over, size_t over_count)
{
    return judge_by(whole_form, n, low, low_count, high, high_count, factor, factor_count, vector, vector_count, over, over_count);
}

int64_t plain_pairs_judge(int64_t n, const int64_t *low, size_t low_count, const int64_t *high, size_t high_count, int64_t *factor,
                          size_t factor_count, int64_t *vector, size_t vector_count, int64_t *over, size_t over_count)
{
    return judge_by(pairs_form, n, low, low_count, high, high_count, factor, factor_count, vector, vector_count, over, over_count);
}

/* The tables that box and bracket make their trials with, and what the trials start from */
struct trial {
    int64_t n;
    const int64_t *low;
    const int64_t *high;
    int64_t less_low[PLAIN_MAX_ORDER * PLAIN_MAX_ORDER];
    int64_t less_high[PLAIN_MAX_ORDER * PLAIN_MAX_ORDER];
};

static void start_trials(struct trial *trial, int64_t n, const int64_t *low, const int64_t *high)
{
    trial->n = n;
    trial->low = low;
    trial->high = high;
    memcpy(trial->less_low, low, (size_t)(n * n) * sizeof *low);
    memcpy(trial->less_high, high, (size_t)(n * n) * sizeof *high);
}

/* Sets the diagonal entries first to last - 1 to the bounds' less step. Whether those of low stay above 0. */
static int take_off(struct trial *trial, int64_t first, int64_t last, int64_t step)
{
    int above = 1;
    for (int64_t i = first; i < last; i++) {
        int64_t place = i * trial->n + i;
        trial->less_low[place] = trial->low[place] - step;
        trial->less_high[place] = trial->high[place] - step;
        above &= trial->less_low[place] > 0;
    }
    return above;
}

/* t or t(k): what can be taken off the diagonal entries first to last - 1, bit by bit. The tables are left as they were. */
static int64_t greatest_step(struct trial *trial, int64_t first, int64_t last)
{
    int64_t factor[PLAIN_MAX_ORDER * PLAIN_MAX_ORDER];
    int64_t step = 0;
    for (int64_t bit = (int64_t)1 << 19; bit > 0; bit /= 2)
        if (take_off(trial, first, last, step + bit) && plain_factor(trial->n, trial->less_low, trial->less_high, factor) == 0)
            step += bit;
    take_off(trial, first, last, 0);
    return step;
}

/* g(k): the greatest magnitude of M(k)c + a(k) over the bounds and the ends of a(k) */
static int64_t gradient(int64_t n, const int64_t *low, const int64_t *high, const int64_t *centre, int64_t linear_low, int64_t linear_high)
{
    int64_t least = linear_low, greatest = linear_high;
    for (int64_t j = 0; j < n; j++) {
        int64_t from_low = low[j] * centre[j], from_high = high[j] * centre[j];
        least += from_low < from_high ? from_low : from_high;
        greatest += from_low < from_high ? from_high : from_low;
    }
    return magnitude(least) > magnitude(greatest) ? magnitude(least) : magnitude(greatest);
}

static int64_t inner_product(int64_t n, const int64_t *x, const int64_t *y)
{
    int64_t sum = 0;
    for (int64_t i = 0; i < n; i++)
        sum += x[i] * y[i];
    return sum;
}

/* The least 2a'c over the ends of a, term by term */
static int64_t least_linear(int64_t n, const int64_t *linear_low, const int64_t *linear_high, const int64_t *centre)
{
    int64_t sum = 0;
    for (int64_t k = 0; k < n; k++) {
        int64_t from_low = 2 * linear_low[k] * centre[k], from_high = 2 * linear_high[k] * centre[k];
        sum += from_low < from_high ? from_low : from_high;
    }
    return sum;
}

/* a / d rounded up; d is positive */
static int64_t ceiling_quotient(int64_t a, int64_t d)
{
    return a / d + (a % d > 0);
}

/* The least whole s >= 0 with step s^2 >= bound; step is positive */
static int64_t least_radius(int64_t step, int64_t bound)
{
    if (bound <= 0)
        return 0;
    int64_t square = ceiling_quotient(bound, step);
    int64_t root = whole_root(square);
    return root + (root * root < square);
}

/* What the box is asked about, after check 2 */
struct ellipsoid {
    int64_t n;
    const int64_t *low;
    const int64_t *high;
    const int64_t *linear_low;
    const int64_t *linear_high;
    int64_t limit;
    const int64_t *centre;
};

/* Checks 3, 4, 5 and 16 of the box: 0, and its tables are the mended ones, in the places for them; or the number of the refusal */
static int64_t check_ellipsoid(struct ellipsoid *e, int64_t *mended_low, int64_t *mended_high)
{
    if (!tables_in_range(e->n, e->low, e->high) || !in_range(e->linear_low, e->n, LINEAR_RANGE) ||
        !in_range(e->linear_high, e->n, LINEAR_RANGE) || !within(e->limit, LIMIT_RANGE) || !in_range(e->centre, e->n, CENTRE_RANGE))
        return 3;
    int64_t refusal = check_shape(e->n, e->low, e->high, mended_low, mended_high);
    if (refusal)
        return refusal;
    e->low = mended_low;
    e->high = mended_high;
    return crossed(e->linear_low, e->linear_high, e->n) ? 16 : 0;
}

/* Checks 8 and 9, then the answer */
static int64_t enclose(const struct ellipsoid *e, int64_t *sides)
{
    struct trial trial;
    int64_t n = e->n, g[PLAIN_MAX_ORDER], y[PLAIN_MAX_ORDER];
    start_trials(&trial, n, e->low, e->high);
    int64_t t = greatest_step(&trial, 0, n);
    if (t == 0)
        return 8;
    for (int64_t k = 0; k < n; k++) {
        g[k] = gradient(n, e->low + k * n, e->high + k * n, e->centre, e->linear_low[k], e->linear_high[k]);
        if (g[k] > GRADIENT_RANGE)
            return 9;
    }
    int64_t d = e->limit - least_linear(n, e->linear_low, e->linear_high, e->centre) - pairs_form(n, e->low, e->high, e->centre);
    int64_t b = d + ceiling_quotient(inner_product(n, g, g), t);
    if (b < 0)
        return -1;
    int64_t s = least_radius(t, b);
    for (int64_t k = 0; k < n; k++)
        y[k] = ceiling_quotient(g[k], t) + s;
    int64_t b2 = d + 2 * inner_product(n, g, y);
    if (b2 < 0)
        return -1;
    for (int64_t k = 0; k < n; k++) {
        int64_t step = greatest_step(&trial, k, k + 1);
        int64_t z = step > 0 ? least_radius(step, b2) : y[k];
        int64_t h = z < y[k] ? z : y[k];
        sides[2 * k] = e->centre[k] - h;
        sides[2 * k + 1] = e->centre[k] + h;
    }
    return 0;
}

int64_t plain_box(int64_t n, const int64_t *low, size_t low_count, const int64_t *high, size_t high_count, const int64_t *linear_low,
                  size_t linear_low_count, const int64_t *linear_high, size_t linear_high_count, int64_t limit, const int64_t *centre,
                  size_t centre_count, int64_t *sides, size_t sides_count)
{
    struct ellipsoid ellipsoid = {n, low, high, linear_low, linear_high, limit, centre};
    struct mended mended;
    if (n < 1 || n > PLAIN_MAX_ORDER)
        return 1;
    size_t order = (size_t)n, count = order * order;
    if (low_count != count || high_count != count || linear_low_count != order || linear_high_count != order || centre_count != order ||
        sides_count != 2 * order)
        return 2;
    int64_t refusal = check_ellipsoid(&ellipsoid, mended.low, mended.high);
    return refusal ? refusal : enclose(&ellipsoid, sides);
}

/* v: the least quotient of the tried vectors, each worked out from scratch; x is the first that has it */
static int64_t least_quotient(int64_t n, const int64_t *low, const int64_t *high, int64_t *x)
{
    int64_t tried[PLAIN_MAX_ORDER] = {0}, least = INT64_MAX;
    while (next_tried(n, tried)) {
        int64_t quotient = ceiling_quotient(pairs_form(n, low, high, tried), inner_product(n, tried, tried));
        if (quotient < least) {
            least = quotient;
            memcpy(x, tried, (size_t)n * sizeof *x);
        }
    }
    return least;
}

int64_t plain_stiffness(int64_t n, const int64_t *low, size_t low_count, const int64_t *high, size_t high_count, int64_t *step,
                        size_t step_count, int64_t *bound, size_t bound_count, int64_t *vector, size_t vector_count)
{
    int64_t factor[PLAIN_MAX_ORDER * PLAIN_MAX_ORDER];
    struct mended mended;
    struct trial trial;
    if (n < 1 || n > PLAIN_MAX_ORDER)
        return 1;
    size_t count = (size_t)(n * n);
    if (low_count != count || high_count != count || step_count != 1 || bound_count != 1 || vector_count != (size_t)n)
        return 2;
    int64_t refusal = check_tables(n, low, high, &mended);
    if (refusal)
        return refusal;
    *bound = least_quotient(n, mended.low, mended.high, vector);
    if (plain_factor(n, mended.low, mended.high, factor) != 0)
        return -1;
    start_trials(&trial, n, mended.low, mended.high);
    *step = greatest_step(&trial, 0, n);
    return 0;
}

/* The whole numbers next to 16 times a number of a sample, or the ends of a product */
struct ends {
    int64_t low;
    int64_t high;
};

/* Whether a number is finite and within its range; a comparison with a NaN fails */
static int bracket(float number, struct ends *ends)
{
    if (!(number >= -8.0f && number <= 8.0f))
        return 0;
    float product = 16.0f * number;
    ends->low = (int64_t)floorf(product);
    ends->high = (int64_t)ceilf(product);
    return 1;
}

/* The least and the greatest of the four products of the ends */
static struct ends end_products(const struct ends *x, const struct ends *y)
{
    int64_t products[4] = {x->low * y->low, x->low * y->high, x->high * y->low, x->high * y->high};
    struct ends ends = {products[0], products[0]};
    for (int k = 1; k < 4; k++) {
        ends.low = products[k] < ends.low ? products[k] : ends.low;
        ends.high = products[k] > ends.high ? products[k] : ends.high;
    }
    return ends;
}

/* Running sums: a mended copy of those that are lent, to which a sample or a problem is added */
struct sums {
    int64_t low[PLAIN_MAX_ORDER * PLAIN_MAX_ORDER];
    int64_t high[PLAIN_MAX_ORDER * PLAIN_MAX_ORDER];
    int64_t linear_low[PLAIN_MAX_ORDER];
    int64_t linear_high[PLAIN_MAX_ORDER];
    int64_t running_limit;
};

/* Check 3 of sums, and check 18 of those with a sample or a problem in them */
static int sums_in_range(int64_t n, const int64_t *low, const int64_t *high, const int64_t *linear_low, const int64_t *linear_high,
                         int64_t running_limit)
{
    return tables_in_range(n, low, high) && in_range(linear_low, n, LINEAR_RANGE) && in_range(linear_high, n, LINEAR_RANGE) &&
           within(running_limit, LIMIT_RANGE);
}

/* Checks 4, 5 and 16 of sums: 0, and the mended tables; or the number of the refusal */
static int64_t check_sums(int64_t n, const int64_t *low, const int64_t *high, const int64_t *linear_low, const int64_t *linear_high,
                          int64_t *mended_low, int64_t *mended_high)
{
    int64_t refusal = check_shape(n, low, high, mended_low, mended_high);
    return refusal ? refusal : crossed(linear_low, linear_high, n) ? 16 : 0;
}

/* Copies sums that are lent, mended. Whether each pair leaves a number (check 5). */
static int load_sums(int64_t n, struct sums *sums, const int64_t *low, const int64_t *high, const int64_t *linear_low,
                     const int64_t *linear_high, int64_t running_limit)
{
    size_t vector = (size_t)n * sizeof *linear_low;
    memcpy(sums->linear_low, linear_low, vector);
    memcpy(sums->linear_high, linear_high, vector);
    sums->running_limit = running_limit;
    return mend(n, low, high, sums->low, sums->high);
}

static void store_sums(int64_t n, const struct sums *sums, int64_t *low, int64_t *high, int64_t *linear_low, int64_t *linear_high,
                       int64_t *running_limit)
{
    size_t table = (size_t)(n * n) * sizeof *low, vector = (size_t)n * sizeof *low;
    memcpy(low, sums->low, table);
    memcpy(high, sums->high, table);
    memcpy(linear_low, sums->linear_low, vector);
    memcpy(linear_high, sums->linear_high, vector);
    *running_limit = sums->running_limit;
}

static void halve_down(int64_t *numbers, int64_t count)
{
    for (int64_t place = 0; place < count; place++)
        numbers[place] = floor_quotient(numbers[place], 2);
}

static void halve_up(int64_t *numbers, int64_t count)
{
    for (int64_t place = 0; place < count; place++)
        numbers[place] = ceiling_quotient(numbers[place], 2);
}

static void halve(int64_t n, struct sums *sums)
{
    halve_down(sums->low, n * n);
    halve_up(sums->high, n * n);
    halve_down(sums->linear_low, n);
    halve_up(sums->linear_high, n);
    halve_up(&sums->running_limit, 1);
}

/* Adds a sample; each pair of factors is worked out once. Whether all sums are in their ranges then. */
static int add_sample(struct sums *sums, const struct ends *factors, const struct ends *draw)
{
    for (int i = 0; i < SAMPLE_ORDER; i++) {
        for (int j = i; j < SAMPLE_ORDER; j++) {
            struct ends ends = end_products(&factors[i], &factors[j]);
            int place = i * SAMPLE_ORDER + j, mirrored = j * SAMPLE_ORDER + i;
            sums->low[place] += ends.low;
            sums->high[place] += ends.high;
            sums->low[mirrored] = sums->low[place];
            sums->high[mirrored] = sums->high[place];
        }
        struct ends ends = end_products(&factors[i], draw);
        sums->linear_low[i] -= ends.high;
        sums->linear_high[i] -= ends.low;
    }
    int64_t least = draw->low * draw->low, other = draw->high * draw->high;
    sums->running_limit -= least < other ? least : other;
    return sums_in_range(SAMPLE_ORDER, sums->low, sums->high, sums->linear_low, sums->linear_high, sums->running_limit);
}

int64_t plain_gather(hb_sample sample, int64_t n, int64_t *low, size_t low_count, int64_t *high, size_t high_count, int64_t *linear_low,
                     size_t linear_low_count, int64_t *linear_high, size_t linear_high_count, int64_t *running_limit,
                     size_t running_limit_count)
{
    struct ends factors[SAMPLE_ORDER], draw;
    struct sums sums;
    if (!bracket(sample.rolling, &factors[0]) || !bracket(sample.climb, &factors[1]) || !bracket(sample.air, &factors[2]) ||
        !bracket(sample.start, &factors[3]) || !bracket(sample.draw, &draw))
        return 17;
    if (n < 1 || n > PLAIN_MAX_ORDER)
        return 1;
    if (n != SAMPLE_ORDER || low_count != SAMPLE_ENTRIES || high_count != SAMPLE_ENTRIES || linear_low_count != SAMPLE_ORDER ||
        linear_high_count != SAMPLE_ORDER || running_limit_count != 1)
        return 2;
    if (!sums_in_range(n, low, high, linear_low, linear_high, *running_limit))
        return 3;
    if (crossed(low, high, n * n))
        return 4;
    if (!load_sums(n, &sums, low, high, linear_low, linear_high, *running_limit))
        return 5;
    if (crossed(linear_low, linear_high, n))
        return 16;
    if (!add_sample(&sums, factors, &draw)) {
        load_sums(n, &sums, low, high, linear_low, linear_high, *running_limit);
        halve(n, &sums);
        if (!add_sample(&sums, factors, &draw))
            return 18;
    }
    store_sums(n, &sums, low, high, linear_low, linear_high, running_limit);
    return 0;
}

/* The problems of a pool, after check 2 */
struct problems {
    int64_t n;
    int64_t count;
    const int64_t *lows;
    const int64_t *highs;
    const int64_t *linear_lows;
    const int64_t *linear_highs;
    const int64_t *limits;
};

/* Check 1 of the orders where these are 1 to 64: 0, or the number of the refusal, which may be that of check 2 */
static int64_t check_orders(int64_t n, const int64_t *orders, size_t count)
{
    int unequal = 0;
    if (count < 1 || count > GREATEST_POOL)
        return 2;
    for (size_t k = 0; k < count; k++) {
        if (orders[k] < 1 || orders[k] > PLAIN_MAX_ORDER)
            return 1;
        unequal |= orders[k] != n;
    }
    return unequal ? 2 : 0;
}

/* Check 3 of the problems */
static int problems_in_range(const struct problems *p)
{
    int64_t entries = p->count * p->n * p->n, terms = p->count * p->n;
    return in_range(p->lows, entries, ENTRY_RANGE) && in_range(p->highs, entries, ENTRY_RANGE) &&
           in_range(p->linear_lows, terms, LINEAR_RANGE) && in_range(p->linear_highs, terms, LINEAR_RANGE) &&
           in_range(p->limits, p->count, LIMIT_RANGE);
}

/* Check 5 of a problem: whether a pair leaves no number */
static int lopsided(int64_t n, const int64_t *low, const int64_t *high)
{
    for (int64_t i = 0; i < n; i++)
        for (int64_t j = 0; j < n; j++)
            if (low[i * n + j] > high[j * n + i])
                return 1;
    return 0;
}

static int any_lopsided(const struct problems *p)
{
    for (int64_t k = 0; k < p->count; k++)
        if (lopsided(p->n, p->lows + k * p->n * p->n, p->highs + k * p->n * p->n))
            return 1;
    return 0;
}

/* Adds numbers to sums. Whether all of these are within their range then. */
static int add_numbers(int64_t *sums, const int64_t *numbers, int64_t count, int64_t range)
{
    int inside = 1;
    for (int64_t place = 0; place < count; place++) {
        sums[place] += numbers[place];
        inside &= within(sums[place], range);
    }
    return inside;
}

static void take_numbers(int64_t *sums, const int64_t *numbers, int64_t count)
{
    for (int64_t place = 0; place < count; place++)
        sums[place] -= numbers[place];
}

/* Adds problem k, whose tables are mended. Whether all sums are within their ranges then. */
static int add_mended(struct sums *sums, const struct problems *p, int64_t k, const struct mended *mended)
{
    int inside = add_numbers(sums->low, mended->low, p->n * p->n, ENTRY_RANGE);
    inside &= add_numbers(sums->high, mended->high, p->n * p->n, ENTRY_RANGE);
    inside &= add_numbers(sums->linear_low, p->linear_lows + k * p->n, p->n, LINEAR_RANGE);
    inside &= add_numbers(sums->linear_high, p->linear_highs + k * p->n, p->n, LINEAR_RANGE);
    return add_numbers(&sums->running_limit, p->limits + k, 1, LIMIT_RANGE) & inside;
}

static void take_mended(struct sums *sums, const struct problems *p, int64_t k, const struct mended *mended)
{
    take_numbers(sums->low, mended->low, p->n * p->n);
    take_numbers(sums->high, mended->high, p->n * p->n);
    take_numbers(sums->linear_low, p->linear_lows + k * p->n, p->n);
    take_numbers(sums->linear_high, p->linear_highs + k * p->n, p->n);
    sums->running_limit -= p->limits[k];
}

/* Adds problem k to the sums or, where one would leave its range, to their halves. Whether there is room. */
static int add_problem(struct sums *sums, const struct problems *p, int64_t k)
{
    struct mended mended;
    mend(p->n, p->lows + k * p->n * p->n, p->highs + k * p->n * p->n, mended.low, mended.high);
    if (add_mended(sums, p, k, &mended))
        return 1;
    take_mended(sums, p, k, &mended);
    halve(p->n, sums);
    return add_mended(sums, p, k, &mended);
}

/* Checks 3, 4, 5 and 16 of the lent sums and all problems: 0, and the mended sums; or the number of the refusal */
static int64_t check_pool(const struct problems *p, struct sums *sums, const int64_t *low, const int64_t *high, const int64_t *linear_low,
                          const int64_t *linear_high, int64_t running_limit)
{
    int64_t n = p->n;
    if (!sums_in_range(n, low, high, linear_low, linear_high, running_limit) || !problems_in_range(p))
        return 3;
    if (crossed(low, high, n * n) || crossed(p->lows, p->highs, p->count * n * n))
        return 4;
    if (!load_sums(n, sums, low, high, linear_low, linear_high, running_limit) || any_lopsided(p))
        return 5;
    return crossed(linear_low, linear_high, n) || crossed(p->linear_lows, p->linear_highs, p->count * n) ? 16 : 0;
}

int64_t plain_pool(int64_t n, int64_t *low, size_t low_count, int64_t *high, size_t high_count, int64_t *linear_low,
                   size_t linear_low_count, int64_t *linear_high, size_t linear_high_count, int64_t *running_limit,
                   size_t running_limit_count, const int64_t *orders, size_t orders_count, const int64_t *lows, size_t lows_count,
                   const int64_t *highs, size_t highs_count, const int64_t *linear_lows, size_t linear_lows_count,
                   const int64_t *linear_highs, size_t linear_highs_count, const int64_t *limits, size_t limits_count)
{
    struct problems problems = {n, (int64_t)orders_count, lows, highs, linear_lows, linear_highs, limits};
    struct sums sums;
    if (n < 1 || n > PLAIN_MAX_ORDER)
        return 1;
    int64_t refusal = check_orders(n, orders, orders_count);
    if (refusal)
        return refusal;
    size_t order = (size_t)n, entries = order * order, count = orders_count;
    if (low_count != entries || high_count != entries || linear_low_count != order || linear_high_count != order ||
        running_limit_count != 1 || lows_count != count * entries || highs_count != count * entries ||
        linear_lows_count != count * order || linear_highs_count != count * order || limits_count != count)
        return 2;
    refusal = check_pool(&problems, &sums, low, high, linear_low, linear_high, *running_limit);
    if (refusal)
        return refusal;
    for (int64_t k = 0; k < problems.count; k++)
        if (!add_problem(&sums, &problems, k))
            return 18;
    store_sums(n, &sums, low, high, linear_low, linear_high, running_limit);
    return 0;
}

int64_t plain_read_sums(int64_t n, const int64_t *low, size_t low_count, const int64_t *high, size_t high_count, const int64_t *linear_low,
                        size_t linear_low_count, const int64_t *linear_high, size_t linear_high_count, int64_t running_limit,
                        int64_t allowance, int64_t *limit, size_t limit_count)
{
    struct mended mended;
    if (n < 1 || n > PLAIN_MAX_ORDER)
        return 1;
    size_t order = (size_t)n, count = order * order;
    if (low_count != count || high_count != count || linear_low_count != order || linear_high_count != order || limit_count != 1)
        return 2;
    if (!sums_in_range(n, low, high, linear_low, linear_high, running_limit) || allowance < 0 || allowance > MAX_ALLOWANCE ||
        !within(allowance + running_limit, LIMIT_RANGE))
        return 3;
    int64_t refusal = check_sums(n, low, high, linear_low, linear_high, mended.low, mended.high);
    if (refusal)
        return refusal;
    *limit = allowance + running_limit;
    return 0;
}

/* The fields of a summary file by tag, and what they hold */
enum { NO_TAG, ORDER_TAG, LOW_TAG, HIGH_TAG, LINEAR_LOW_TAG, LIMIT_TAG, CENTRE_TAG, LINEAR_HIGH_TAG, TAGS };

#define HEAD_BYTES 3
#define ENTRY_BYTES 4
#define NUMBER_BYTES 8
#define LONGEST_FILE 4096
#define MAX_ENTRIES (PLAIN_MAX_ORDER * PLAIN_MAX_ORDER)

/* Puts the low bytes of a number, and returns the place behind them */
static uint8_t *put_number(uint8_t *at, int64_t number, int width)
{
    for (int k = 0; k < width; k++)
        *at++ = (uint8_t)((uint64_t)number >> (8 * k));
    return at;
}

/* Puts a field: its tag, its length, and numbers of some bytes each */
static uint8_t *put_field(uint8_t *at, int tag, const int64_t *numbers, int64_t count, int width)
{
    at = put_number(at, tag, 1);
    at = put_number(at, count * width, 2);
    for (int64_t k = 0; k < count; k++)
        at = put_number(at, numbers[k], width);
    return at;
}

int64_t plain_write_summary(int64_t n, const int64_t *low, size_t low_count, const int64_t *high, size_t high_count, const int64_t *linear_low,
                            size_t linear_low_count, const int64_t *linear_high, size_t linear_high_count, int64_t limit,
                            const int64_t *centre, size_t centre_count, uint8_t *file, size_t file_size)
{
    struct ellipsoid ellipsoid = {n, low, high, linear_low, linear_high, limit, centre};
    struct mended mended;
    if (n < 1 || n > PLAIN_MAX_ORDER)
        return 1;
    size_t order = (size_t)n, count = order * order;
    if (low_count != count || high_count != count || linear_low_count != order || linear_high_count != order || centre_count != order ||
        file_size != 30 + 8 * count + 24 * order)
        return 2;
    int64_t refusal = check_ellipsoid(&ellipsoid, mended.low, mended.high);
    if (refusal)
        return refusal;
    file = put_field(file, ORDER_TAG, &n, 1, 1);
    file = put_field(file, LOW_TAG, mended.low, n * n, ENTRY_BYTES);
    file = put_field(file, HIGH_TAG, mended.high, n * n, ENTRY_BYTES);
    file = put_field(file, LINEAR_LOW_TAG, linear_low, n, NUMBER_BYTES);
    file = put_field(file, LIMIT_TAG, &limit, 1, NUMBER_BYTES);
    file = put_field(file, CENTRE_TAG, centre, n, NUMBER_BYTES);
    put_field(file, LINEAR_HIGH_TAG, linear_high, n, NUMBER_BYTES);
    return 0;
}

/* The content of a field: null where there is none */
struct content {
    const uint8_t *bytes;
    size_t size;
};

/* Notes the contents of a file's fields by tag. 0, or the number of the refusal: 10, 11, 12 or 19. */
static int64_t walk(const uint8_t *file, size_t size, struct content *contents)
{
    int last = NO_TAG;
    for (size_t at = 0; at < size;) {
        if (size - at < HEAD_BYTES)
            return 10;
        int tag = file[at];
        size_t length = file[at + 1] + (size_t)256 * file[at + 2];
        if (length > size - at - HEAD_BYTES)
            return 10;
        if (tag < ORDER_TAG || tag >= TAGS)
            return 11;
        if (contents[tag].bytes)
            return 12;
        if (tag < last)
            return 19;
        contents[tag].bytes = file + at + HEAD_BYTES;
        contents[tag].size = length;
        last = tag;
        at += HEAD_BYTES + length;
    }
    return 0;
}

/* Checks 13, 14 of the order, 1, and 14 of the others: 0, or the number of the refusal */
static int64_t check_contents(const struct content *contents)
{
    for (int tag = ORDER_TAG; tag < TAGS; tag++)
        if (!contents[tag].bytes)
            return 13;
    if (contents[ORDER_TAG].size != 1)
        return 14;
    size_t n = contents[ORDER_TAG].bytes[0], table = ENTRY_BYTES * n * n, list = NUMBER_BYTES * n;
    if (n < 1 || n > PLAIN_MAX_ORDER)
        return 1;
    if (contents[LOW_TAG].size != table || contents[HIGH_TAG].size != table || contents[LINEAR_LOW_TAG].size != list ||
        contents[LIMIT_TAG].size != NUMBER_BYTES || contents[CENTRE_TAG].size != list || contents[LINEAR_HIGH_TAG].size != list)
        return 14;
    return 0;
}

/* A signed number of some bytes */
static int64_t get_number(const uint8_t *bytes, int width)
{
    uint64_t bits = 0, sign = (uint64_t)1 << (8 * width - 1);
    for (int k = width - 1; k >= 0; k--)
        bits = bits << 8 | bytes[k];
    return (int64_t)((bits ^ sign) - sign);
}

static void get_numbers(const struct content *content, int width, int64_t *numbers)
{
    int64_t count = (int64_t)content->size / width;
    for (int64_t k = 0; k < count; k++)
        numbers[k] = get_number(content->bytes + k * width, width);
}

/* What a file holds, with room for the greatest order. The tables are mended in their places */
struct held {
    int64_t low[MAX_ENTRIES];
    int64_t high[MAX_ENTRIES];
    int64_t linear_low[PLAIN_MAX_ORDER];
    int64_t linear_high[PLAIN_MAX_ORDER];
    int64_t limit;
    int64_t centre[PLAIN_MAX_ORDER];
};

int64_t plain_read_summary(const uint8_t *file, size_t file_size, int64_t *order, size_t order_count, int64_t *low, size_t low_count,
                           int64_t *high, size_t high_count, int64_t *linear_low, size_t linear_low_count, int64_t *linear_high,
                           size_t linear_high_count, int64_t *limit, size_t limit_count, int64_t *centre, size_t centre_count)
{
    struct content contents[TAGS] = {{NULL, 0}};
    struct held held;
    if (order_count != 1 || low_count != MAX_ENTRIES || high_count != MAX_ENTRIES || linear_low_count != PLAIN_MAX_ORDER ||
        linear_high_count != PLAIN_MAX_ORDER || limit_count != 1 || centre_count != PLAIN_MAX_ORDER)
        return 2;
    if (file_size > LONGEST_FILE)
        return 15;
    int64_t refusal = walk(file, file_size, contents);
    if (refusal)
        return refusal;
    refusal = check_contents(contents);
    if (refusal)
        return refusal;
    int64_t n = contents[ORDER_TAG].bytes[0];
    memset(&held, 0, sizeof held);
    get_numbers(&contents[LOW_TAG], ENTRY_BYTES, held.low);
    get_numbers(&contents[HIGH_TAG], ENTRY_BYTES, held.high);
    get_numbers(&contents[LINEAR_LOW_TAG], NUMBER_BYTES, held.linear_low);
    get_numbers(&contents[LIMIT_TAG], NUMBER_BYTES, &held.limit);
    get_numbers(&contents[CENTRE_TAG], NUMBER_BYTES, held.centre);
    get_numbers(&contents[LINEAR_HIGH_TAG], NUMBER_BYTES, held.linear_high);
    struct ellipsoid ellipsoid = {n, held.low, held.high, held.linear_low, held.linear_high, held.limit, held.centre};
    refusal = check_ellipsoid(&ellipsoid, held.low, held.high);
    if (refusal)
        return refusal;
    *order = n;
    memcpy(low, held.low, sizeof held.low);
    memcpy(high, held.high, sizeof held.high);
    memcpy(linear_low, held.linear_low, sizeof held.linear_low);
    memcpy(linear_high, held.linear_high, sizeof held.linear_high);
    *limit = held.limit;
    memcpy(centre, held.centre, sizeof held.centre);
    return 0;
}

/* The places of a run area, in numbers: the order, the next column, 0 or a stop's rows and 1, both tables, and the columns */
enum { RUN_ORDER, RUN_COLUMN, RUN_STOP, RUN_LOW, RUN_HIGH = RUN_LOW + MAX_ENTRIES, RUN_COLUMNS = RUN_HIGH + MAX_ENTRIES };

/* Which bits of each register a write moves. Those of the flags are cleared by ones. The reset value of each is 0. */
static const uint8_t writable[PLAIN_BLOCK_BYTES] = {[HB_BUS_COMMAND] = 255, [HB_BUS_MASK] = 7, [HB_BUS_FLAGS] = 7, [HB_BUS_ORDER] = 255};

/* A bit of the status rises, and where it was not up its flag is set. */
static void raise(uint8_t *block, uint8_t bit)
{
    if (!(block[HB_BUS_STATUS] & bit))
        block[HB_BUS_FLAGS] |= bit;
    block[HB_BUS_STATUS] |= bit;
}

/* Column j of a run, from its top on */
static int64_t *run_column(int64_t *run, int64_t j)
{
    return run + RUN_COLUMNS + PLAIN_MAX_ORDER * j;
}

/* A run that has begun: the order, the mended tables, and H down to its diagonal */
static void begin_run(int64_t *run, int64_t n, const struct mended *mended)
{
    memset(run, 0, PLAIN_RUN_NUMBERS * sizeof *run);
    run[RUN_ORDER] = n;
    memcpy(run + RUN_LOW, mended->low, (size_t)(n * n) * sizeof *run);
    memcpy(run + RUN_HIGH, mended->high, (size_t)(n * n) * sizeof *run);
    for (int64_t j = 0; j < n; j++) {
        for (int64_t i = 0; i < j; i++)
            run_column(run, j)[i] = HALF_SCALE * (mended->low[i * n + j] + mended->high[i * n + j]);
        run_column(run, j)[j] = diagonal(n, mended->low, mended->high, j);
    }
}

/* Checks 1 to 5 of a start: 0, and the mended tables; or the number of the refusal */
static int64_t check_start(int64_t n, const int64_t *low, size_t low_count, const int64_t *high, size_t high_count, struct mended *mended)
{
    if (n < 1 || n > PLAIN_MAX_ORDER)
        return 1;
    if (low_count != (size_t)(n * n) || high_count != (size_t)(n * n))
        return 2;
    return check_tables(n, low, high, mended);
}

static int64_t start(uint8_t *block, int64_t *run, const int64_t *low, size_t low_count, const int64_t *high, size_t high_count)
{
    struct mended mended;
    if (block[HB_BUS_STATUS] & HB_BUS_BUSY)
        return 20;
    int64_t n = block[HB_BUS_ORDER], refusal = check_start(n, low, low_count, high, high_count, &mended);
    block[HB_BUS_STATUS] = block[HB_BUS_VERDICT] = 0;
    block[HB_BUS_REFUSAL] = (uint8_t)refusal;
    raise(block, refusal ? HB_BUS_REFUSED : HB_BUS_BUSY);
    if (refusal)
        memset(run, 0, PLAIN_RUN_NUMBERS * sizeof *run);
    else
        begin_run(run, n, &mended);
    return 0;
}

int64_t plain_bus_write(uint8_t *block, size_t block_size, int64_t *run, size_t run_count, int64_t address, uint8_t value,
                        const int64_t *low, size_t low_count, const int64_t *high, size_t high_count)
{
    if (block_size != PLAIN_BLOCK_BYTES || run_count != PLAIN_RUN_NUMBERS)
        return 2;
    if (address < 0 || address >= PLAIN_BLOCK_BYTES)
        return 0;
    if (address == HB_BUS_COMMAND && value == HB_BUS_START)
        return start(block, run, low, low_count, high, high_count);
    if (address == HB_BUS_COMMAND && value == HB_BUS_RESET) {
        memset(block, 0, PLAIN_BLOCK_BYTES);
        memset(run, 0, PLAIN_RUN_NUMBERS * sizeof *run);
    } else if (address == HB_BUS_FLAGS) {
        block[address] &= (uint8_t)~(value & writable[address]);
    } else if (address != HB_BUS_COMMAND) {
        block[address] = (uint8_t)((block[address] & ~writable[address]) | (value & writable[address]));
    }
    return 0;
}

/* Whether the numbers that the next tick takes are in their ranges. Where it is the search, its tables are checked, and mended. */
static int has_run(int64_t *run, struct mended *mended)
{
    int64_t n = run[RUN_ORDER], j = run[RUN_COLUMN], stop = run[RUN_STOP];
    if (n < 1 || n > PLAIN_MAX_ORDER || j < 0 || j >= n || stop < 0 || stop > j + 1)
        return 0;
    for (int64_t k = 0; k < j; k++)
        if (!in_range(run_column(run, k), k + 1, FACTOR_RANGE) || run_column(run, k)[k] < 1)
            return 0;
    if (stop == 0)
        return in_range(run_column(run, j), j, NUMERATOR_RANGE) && run_column(run, j)[j] <= NUMERATOR_RANGE;
    return in_range(run_column(run, j), stop - 1, STOPPED_RANGE) && check_tables(n, run + RUN_LOW, run + RUN_HIGH, mended) == 0;
}

/* Works out column j in its place. -1 where it is whole, or how many of its rows were worked out before it stopped */
static int64_t work_column(int64_t *run, int64_t j)
{
    int64_t *column = run_column(run, j), rest = column[j];
    if (rest < 1)
        return 0;
    for (int64_t i = 0; i < j; i++) {
        const int64_t *before = run_column(run, i);
        for (int64_t k = 0; k < i; k++)
            column[i] -= before[k] * column[k];
        column[i] = floor_quotient(column[i], before[i]);
        if (!within(column[i], FACTOR_RANGE))
            return i + 1;
        rest -= column[i] * column[i];
        if (rest < 1)
            return i + 1;
    }
    column[j] = whole_root(rest);
    return -1;
}

/* Looks for a listed vector, by the steps of the judge: the number of the verdict */
static uint8_t search(int64_t *run, const struct mended *mended)
{
    int64_t n = run[RUN_ORDER], table[MAX_ENTRIES] = {0}, x[PLAIN_MAX_ORDER];
    struct stop stop = {run[RUN_COLUMN], run[RUN_STOP] - 1};
    for (int64_t j = 0; j <= stop.column; j++)
        for (int64_t i = 0; i <= j; i++)
            table[i * n + j] = run_column(run, j)[i];
    int shown = tried_by(whole_form, n, mended->low, mended->high, x);
    for (int64_t s = 1; !shown && s <= 64; s *= 64)
        shown = solve(n, table, &stop, s, x) && whole_form(n, mended->low, mended->high, x) <= 0;
    return shown ? HB_BUS_NOT_DEFINITE : HB_BUS_UNDECIDED;
}

/* The end of a run, with its verdict */
static void finish(uint8_t *block, int64_t *run, uint8_t verdict)
{
    block[HB_BUS_VERDICT] = verdict;
    block[HB_BUS_STATUS] &= (uint8_t)~HB_BUS_BUSY;
    raise(block, HB_BUS_DONE);
    memset(run, 0, PLAIN_RUN_NUMBERS * sizeof *run);
}

int64_t plain_bus_tick(uint8_t *block, size_t block_size, int64_t *run, size_t run_count)
{
    struct mended mended;
    if (block_size != PLAIN_BLOCK_BYTES || run_count != PLAIN_RUN_NUMBERS)
        return 2;
    if (!(block[HB_BUS_STATUS] & HB_BUS_BUSY) || !has_run(run, &mended))
        return 0;
    if (run[RUN_STOP] > 0) {
        finish(block, run, search(run, &mended));
        return 0;
    }
    int64_t rows = work_column(run, run[RUN_COLUMN]);
    if (rows >= 0)
        run[RUN_STOP] = rows + 1;
    else if (++run[RUN_COLUMN] == run[RUN_ORDER])
        finish(block, run, HB_BUS_DEFINITE);
    return 0;
}

int64_t plain_bus_read(const uint8_t *block, size_t block_size, int64_t address, uint8_t *value, size_t value_size)
{
    if (block_size != PLAIN_BLOCK_BYTES || value_size != 1)
        return 2;
    *value = address >= HB_BUS_STATUS && address <= HB_BUS_ORDER ? block[address] : 0;
    return 0;
}

int64_t plain_bus_line(const uint8_t *block, size_t block_size)
{
    if (block_size != PLAIN_BLOCK_BYTES)
        return 2;
    return block[HB_BUS_FLAGS] & block[HB_BUS_MASK] ? -1 : 0;
}
