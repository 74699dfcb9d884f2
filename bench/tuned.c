/* Compile with -fwrapv: sums of entries that a check is about to refuse may pass 64 bits. */
#include "tuned.h"

#define ORDER 8
#define ENTRY_RANGE ((int64_t)1 << 20)
#define LINEAR_RANGE ((int64_t)1 << 36)
#define LIMIT_RANGE ((int64_t)1 << 54)
#define CENTRE_RANGE ((int64_t)1 << 12)
#define GRADIENT_RANGE ((int64_t)1 << 20)
#define VECTOR_RANGE ((int64_t)1 << 15)
#define FACTOR_RANGE ((int64_t)1 << 26)
#define MARGIN ((int64_t)1 << 29)
#define SCALE_BITS 32
#define MOST_STEP (((int64_t)1 << 20) - 1)

#define INLINED static inline __attribute__((always_inline))

/* A number of a buffer, at any address */
typedef int64_t number __attribute__((aligned(1), may_alias));

static const number *numbers(const uint8_t *bytes)
{
    return (const number *)bytes;
}

/* a / d rounded down toward minus infinity, for d >= 1: where a is negative, -1 - a is not. */
INLINED int64_t floor_quotient(int64_t a, int64_t d)
{
    int64_t sign = a >> 63;
    return (int64_t)((uint64_t)(a ^ sign) / (uint64_t)d) ^ sign;
}

/* 2^15 / sqrt((k + 64.5) / 256) */
static const uint16_t inverse_roots[192] = {
    65281, 64781, 64292, 63814, 63347, 62889, 62442, 62004, 61575, 61154, 60742, 60339, 59943, 59555, 59175, 58801,
    58435, 58075, 57722, 57376, 57035, 56700, 56372, 56049, 55731, 55419, 55112, 54810, 54513, 54221, 53933, 53650,
    53371, 53097, 52826, 52560, 52298, 52040, 51785, 51535, 51288, 51044, 50804, 50567, 50333, 50103, 49876, 49652,
    49430, 49212, 48997, 48784, 48574, 48367, 48163, 47961, 47761, 47564, 47370, 47178, 46988, 46800, 46615, 46432,
    46251, 46072, 45895, 45720, 45547, 45376, 45207, 45040, 44875, 44711, 44550, 44390, 44232, 44075, 43920, 43767,
    43615, 43465, 43316, 43169, 43024, 42879, 42737, 42595, 42456, 42317, 42180, 42044, 41910, 41776, 41644, 41514,
    41384, 41256, 41129, 41003, 40878, 40754, 40631, 40510, 40390, 40270, 40152, 40035, 39919, 39803, 39689, 39576,
    39464, 39352, 39242, 39133, 39024, 38916, 38810, 38704, 38599, 38494, 38391, 38289, 38187, 38086, 37986, 37887,
    37788, 37690, 37593, 37497, 37401, 37307, 37213, 37119, 37027, 36935, 36843, 36753, 36663, 36573, 36485, 36397,
    36309, 36222, 36136, 36051, 35966, 35882, 35798, 35715, 35632, 35550, 35469, 35388, 35307, 35228, 35148, 35070,
    34991, 34914, 34837, 34760, 34684, 34608, 34533, 34458, 34384, 34310, 34237, 34164, 34092, 34020, 33949, 33878,
    33807, 33737, 33668, 33599, 33530, 33461, 33393, 33326, 33259, 33192, 33126, 33060, 32994, 32929, 32864, 32800,
};

/*
 * The whole root of x >= 1, or a little more, but at most 1 more for x to 2^53: without division. a is x times a power of 4, from 2^62 on. The table gives
 * its inverse root within one part in 256, and the series of (1 - e)^(-1/2) to e^3 corrects the root that follows from it.
 */
INLINED uint64_t near_root(uint64_t x)
{
    int shift = __builtin_clzll(x) & ~1;
    uint64_t a = x << shift;
    uint64_t inverse = inverse_roots[(a >> 56) - 64];
    uint64_t first = (a >> 32) * inverse;
    int64_t e = (int64_t)(((uint64_t)1 << 46) - (first >> 16) * inverse) >> 14;
    int64_t series = ((((((int64_t)6 << 32) + 5 * e) * e) >> 32) + ((int64_t)8 << 32)) * e >> 32;
    int64_t root = (int64_t)(first >> 15);
    root += (root * series >> 36) + 16;
    return (uint64_t)root >> (shift / 2);
}

/* The whole root, rounded down, of x from 1 to 2^53 */
INLINED int64_t short_root(int64_t x)
{
    uint64_t root = near_root((uint64_t)x);
    return (int64_t)(root - (root * root > (uint64_t)x));
}

/* The same to 2^62 */
INLINED int64_t whole_root(int64_t x)
{
    uint64_t root = near_root((uint64_t)x);
    while (root * root > (uint64_t)x)
        root--;
    return (int64_t)root;
}

INLINED int within(int64_t x, int64_t range)
{
    return -range <= x && x <= range;
}

/* The bounds that an entry and its mirror image leave: mended ones */
struct pair {
    int64_t low;
    int64_t high;
};

INLINED struct pair mend(int64_t low, int64_t low_mirror, int64_t high, int64_t high_mirror)
{
    return (struct pair){low > low_mirror ? low : low_mirror, high < high_mirror ? high : high_mirror};
}

/*
 * Checks 3 to 5, of all entries: gathers the bits of low + 2^20 and 2^20 - high, as handed in, and of high - low, mended. Where the checks
 * pass each of these is from 0 to 2^21. Where all bits are below 2^22, each low is at least -2^20, each high at most 2^20, and none of the
 * sums has passed 64 bits; a low is at most the mended one, that at most the mended high, and that at most a high: so the checks pass.
 */
INLINED void see(uint64_t *seen, int64_t low, int64_t high)
{
    *seen |= (uint64_t)(low + ENTRY_RANGE) | (uint64_t)(ENTRY_RANGE - high) | (uint64_t)(high - low);
}

INLINED struct pair see_pair(uint64_t *seen, int64_t low, int64_t low_mirror, int64_t high, int64_t high_mirror)
{
    struct pair pair = mend(low, low_mirror, high, high_mirror);
    *seen |= (uint64_t)(low + ENTRY_RANGE) | (uint64_t)(low_mirror + ENTRY_RANGE) | (uint64_t)(ENTRY_RANGE - high) |
             (uint64_t)(ENTRY_RANGE - high_mirror) | (uint64_t)(pair.high - pair.low);
    return pair;
}

INLINED int refused(uint64_t seen)
{
    return seen >> 22 != 0;
}

/* The mended tables, of bounds that pass the checks */
struct mended {
    int64_t low[ORDER * ORDER];
    int64_t high[ORDER * ORDER];
};

static void fill_mended(int64_t n, const number *low, const number *high, struct mended *mended)
{
    for (int64_t j = 0; j < n; j++) {
        for (int64_t i = 0; i <= j; i++) {
            int64_t place = j * n + i, mirror = i * n + j;
            struct pair pair = mend(low[place], low[mirror], high[place], high[mirror]);
            mended->low[place] = mended->low[mirror] = pair.low;
            mended->high[place] = mended->high[mirror] = pair.high;
        }
    }
}

/* Which of 3 to 5 it is, where one of them fails */
static __attribute__((noinline, cold)) int64_t refusal(int64_t n, const number *low, const number *high)
{
    for (int64_t place = 0; place < n * n; place++)
        if (!within(low[place], ENTRY_RANGE) || !within(high[place], ENTRY_RANGE))
            return 3;
    for (int64_t place = 0; place < n * n; place++)
        if (low[place] > high[place])
            return 4;
    return 5;
}

/* H(i,j) of the mended tables to h[i][j], i <= j, and the checks, each pair read once. A width counts in both of its rows. */
INLINED int scale(int64_t n, const number *low, const number *high, int64_t h[ORDER][ORDER])
{
    uint64_t seen = 0;
    int64_t widths[ORDER];
    for (int64_t j = 0; j < n; j++) {
        const number *low_row = low + j * n, *high_row = high + j * n;
        int64_t row_width = 0;
        for (int64_t i = 0; i < j; i++) {
            struct pair pair = see_pair(&seen, low_row[i], low[i * n + j], high_row[i], high[i * n + j]);
            h[i][j] = (pair.low + pair.high) << 31;
            widths[i] += pair.high - pair.low;
            row_width += pair.high - pair.low;
        }
        see(&seen, low_row[j], high_row[j]);
        h[j][j] = (low_row[j] << 32) - MARGIN;
        widths[j] = row_width;
    }
    for (int64_t j = 0; j < n; j++)
        h[j][j] -= widths[j] << 31;
    return !refused(seen);
}

/* Where factoring stops: the column, from 0, and how many of its rows were worked out */
struct stop {
    int64_t column;
    int64_t rows;
};

/* Takes the remainder at (i,j) off what rows i and j have over, where that is asked for. */
INLINED void take_remainder(int64_t *over, int64_t i, int64_t j, int64_t remainder)
{
    if (over) {
        over[i] -= remainder;
        over[j] -= remainder;
    }
}

/*
 * Factors h in place, row by row: the divisions of a row do not wait for each other. Whether it ends. Where column j stops, the columns from j on are
 * left out, and one before it may stop yet: the last stop seen is that of the first column.
 *
 * Where over is not null and factoring ends, over[i] is what row i of the factor's residual has over, from the remainders: H(i,j) - P(i,j)
 * is that of the division, or of the root on the diagonal. Off the diagonal the radius is the remainder and 2^31 times the entry's width.
 * H(i,i) is less by 2^31 times the widths of row i, which so cancel, and by 2^29: that and the root's remainder, less the remainders of row
 * and column i, is what row i has over.
 */
INLINED int factor_rows(int64_t n, int64_t h[ORDER][ORDER], struct stop *stop, int64_t *over)
{
    int64_t end = 0;
    while (end < n && h[end][end] >= 1)
        end++;
    for (int64_t i = 0; over && i < n; i++)
        over[i] = MARGIN;
    stop->rows = 0;
    for (int64_t i = 0; i < end; i++) {
        int64_t d = short_root(h[i][i]);
        if (over)
            over[i] += h[i][i] - d * d;
        h[i][i] = d;
        for (int64_t j = i + 1; j < end; j++) {
            int64_t r = floor_quotient(h[i][j], d), rest = h[j][j] - r * r;
            take_remainder(over, i, j, h[i][j] - r * d);
            h[i][j] = r;
            h[j][j] = rest;
            if (rest < 1 || !within(r, FACTOR_RANGE)) {
                stop->rows = i + 1;
                end = j;
            }
        }
        for (int64_t k = i + 1; k < end; k++) {
            int64_t r = h[i][k];
            for (int64_t j = k + 1; j < end; j++)
                h[k][j] -= r * h[i][j];
        }
    }
    stop->column = end;
    return end == n;
}

int64_t tuned_factor(int64_t n, const int64_t *low, const int64_t *high, int64_t *factor)
{
    int64_t(*h)[ORDER] = (int64_t(*)[ORDER])factor;
    struct stop stop;
    if (!scale(n, low, high, h))
        return refusal(n, low, high);
    return factor_rows(n, h, &stop, NULL) ? 0 : -1;
}

/* The least that a row has over */
INLINED int64_t least_over(int64_t n, const int64_t *over)
{
    int64_t least = over[0];
    for (int64_t i = 1; i < n; i++)
        least = over[i] < least ? over[i] : least;
    return least;
}

/* What the greater of |2^32 low - p| and |2^32 high - p| is, for low <= high */
INLINED int64_t spread(int64_t low, int64_t high, int64_t p)
{
    int64_t above = (high << SCALE_BITS) - p, below = p - (low << SCALE_BITS);
    return above > below ? above : below;
}

/* P(i,j), for i <= j */
INLINED int64_t product(int64_t n, const number *factor, int64_t i, int64_t j)
{
    int64_t sum = 0;
    for (int64_t k = 0; k <= i; k++)
        sum += factor[k * n + i] * factor[k * n + j];
    return sum;
}

int64_t tuned_test_factor(int64_t n, const uint8_t *low_bytes, size_t low_len, const uint8_t *high_bytes, size_t high_len,
                          const uint8_t *factor_bytes, size_t factor_len, uint8_t *over_bytes, size_t over_len)
{
    const number *low = numbers(low_bytes), *high = numbers(high_bytes), *factor = numbers(factor_bytes);
    if (n < 1 || n > ORDER)
        return 1;
    size_t size = (size_t)(8 * n * n);
    if (low_len != size || high_len != size || factor_len != size || over_len != sizeof(number))
        return 2;
    /* the last two: or of numbers that are from 0 to 2^27, and of those that are 0, where check 6 passes */
    uint64_t seen = 0, sizes = 0, below = 0;
    int64_t over[ORDER];
    for (int64_t j = 0; j < n; j++) {
        const number *low_row = low + j * n, *high_row = high + j * n, *factor_row = factor + j * n;
        int64_t own = 0;
        for (int64_t i = 0; i < j; i++) {
            struct pair pair = see_pair(&seen, low_row[i], low[i * n + j], high_row[i], high[i * n + j]);
            int64_t f = factor[i * n + j];
            sizes |= (uint64_t)(f + FACTOR_RANGE) | (uint64_t)(FACTOR_RANGE - f);
            below |= (uint64_t)factor_row[i];
            int64_t radius = spread(pair.low, pair.high, product(n, factor, i, j));
            over[i] -= radius;
            own -= radius;
        }
        int64_t l = low_row[j], f = factor_row[j];
        see(&seen, l, high_row[j]);
        sizes |= (uint64_t)(f - 1) | (uint64_t)(FACTOR_RANGE - f);
        over[j] = own + (l << SCALE_BITS) - product(n, factor, j, j);
    }
    if (refused(seen))
        return refusal(n, low, high);
    if (sizes >> 28 || below)
        return 6;
    int64_t least = least_over(n, over);
    *(number *)over_bytes = least;
    return least < 0 ? -1 : 0;
}

/* The least of x m over the m from low to high */
INLINED int64_t least_term(int64_t x, int64_t low, int64_t high)
{
    return x * (x > 0 ? low : high);
}

/* The least value of x, each pair once */
static int64_t least_value(int64_t n, const number *low, const number *high, const int64_t *x)
{
    int64_t squares = 0, pairs = 0;
    for (int64_t i = 0; i < n; i++) {
        if (x[i] == 0)
            continue;
        for (int64_t j = i + 1; j < n; j++)
            pairs += least_term(x[i] * x[j], low[i * n + j], high[i * n + j]);
        squares += x[i] * x[i] * low[i * n + i];
    }
    return squares + 2 * pairs;
}

int64_t tuned_test_vector(int64_t n, const uint8_t *low_bytes, size_t low_len, const uint8_t *high_bytes, size_t high_len,
                          const uint8_t *vector_bytes, size_t vector_len)
{
    const number *low = numbers(low_bytes), *high = numbers(high_bytes), *vector = numbers(vector_bytes);
    if (n < 1 || n > ORDER)
        return 1;
    size_t size = (size_t)(8 * n * n);
    if (low_len != size || high_len != size || vector_len != (size_t)(8 * n))
        return 2;
    uint64_t seen = 0, sizes = 0, bits = 0;
    int64_t value = 0;
    for (int64_t j = 0; j < n; j++) {
        const number *low_row = low + j * n, *high_row = high + j * n;
        int64_t x = vector[j], pairs = 0;
        for (int64_t i = 0; i < j; i++) {
            struct pair pair = see_pair(&seen, low_row[i], low[i * n + j], high_row[i], high[i * n + j]);
            pairs += least_term(x * vector[i], pair.low, pair.high);
        }
        see(&seen, low_row[j], high_row[j]);
        sizes |= (uint64_t)(x + VECTOR_RANGE) | (uint64_t)(VECTOR_RANGE - x);
        bits |= (uint64_t)x;
        value += 2 * pairs + x * x * low_row[j];
    }
    if (refused(seen))
        return refusal(n, low, high);
    if (sizes >> 17 || !bits)
        return 7;
    return value <= 0 ? 0 : -1;
}

/*
 * The tried vectors. A vector has 8 places here, the last n of which are its entries; a choice is 0, 1 or 2, for an entry of 0, 1 or -1. Numbers are
 * below 2^28 and lie four to a register.
 */
typedef int32_t lanes __attribute__((vector_size(16)));

union eight {
    int32_t at[ORDER];
    lanes half[2];
};

/* The tail is the last four places. Its table has a row for each choice of the first three: the least values for each choice of the last, and NEVER. */
#define TAIL 4
#define TABLE 27
#define NEVER ((int32_t)1 << 29)

/*
 * The bounds, the place of the first entry, what the entries before the tail add by themselves, and what an entry of 1 there adds to what later entries
 * would add: where they have its sign, and where they have the other.
 */
struct search {
    int64_t n;
    const number *low;
    const number *high;
    int first;
    int chosen[ORDER];
    lanes squares;
    union eight same[TAIL];
    union eight other[TAIL];
    lanes table[TABLE];
};

INLINED lanes all_lanes(int32_t x)
{
    return (lanes){x, x, x, x};
}

/* A lane, in all lanes */
#define SPREAD(values, lane) __builtin_shuffle(values, (lanes){lane, lane, lane, lane})

/* Whether some lane is negative */
INLINED int any_negative(lanes values)
{
    typedef int64_t halves __attribute__((vector_size(16)));
    halves both = (halves)values;
    return ((uint64_t)(both[0] | both[1]) & 0x8000000080000000u) != 0;
}

/* The lane of the first choice of the last place with which the value is 0 or less, or 3 */
INLINED int first_lane(lanes values)
{
    return values[0] <= 0 ? 0 : values[1] <= 0 ? 1 : values[2] <= 0 ? 2 : 3;
}

/* What an entry of 1 at place i adds by itself; to what one at place j would add, of its sign; and of the other sign */
INLINED int32_t square_at(const struct search *search, int i)
{
    return (int32_t)search->low[(i - search->first) * (search->n + 1)];
}

INLINED int32_t same_at(const struct search *search, int i, int j)
{
    return (int32_t)(2 * search->low[(i - search->first) * search->n + j - search->first]);
}

INLINED int32_t other_at(const struct search *search, int i, int j)
{
    return (int32_t)(-2 * search->high[(i - search->first) * search->n + j - search->first]);
}

/* Fills in what the places before the tail need. */
static void start_front(struct search *search)
{
    search->squares = all_lanes(0);
    for (unsigned i = (unsigned)search->first; i < TAIL; i++) {
        union eight same = {{0}}, other = {{0}};
        for (unsigned j = i + 1; j < ORDER; j++) {
            same.at[j] = same_at(search, (int)i, (int)j);
            other.at[j] = other_at(search, (int)i, (int)j);
        }
        search->squares[i] = square_at(search, (int)i);
        search->same[i] = same;
        search->other[i] = other;
    }
}

/* Takes down a row of the table and a lane of it: the choices in the tail */
static int found(struct search *search, int row, int lane)
{
    search->chosen[4] = row / 9;
    search->chosen[5] = row / 3 % 3;
    search->chosen[6] = row % 3;
    search->chosen[7] = lane;
    return 1;
}

/* Whether rows first to last - 1 of the table have a value of 0 or less; takes down the first */
static int rows_show(struct search *search, int first, int last)
{
    for (int row = first; row < last; row++) {
        int lane = first_lane(search->table[row]);
        if (lane < 3)
            return found(search, row, lane);
    }
    return 0;
}

/* The row of the choices with the signs changed, with the lanes of 1 and -1 exchanged: a vector and its negative have one least value */
INLINED lanes negated(lanes row)
{
    return __builtin_shuffle(row, (lanes){0, 2, 1, 3});
}

/* What an entry of 1 at a place of the tail adds, by itself and with the last place, where the places between them are 0 */
INLINED lanes tail_adds(const struct search *search, int place)
{
    return all_lanes(square_at(search, place)) + (lanes){0, same_at(search, place, 7), other_at(search, place, 7), 0};
}

/*
 * Fills the table but for -1 at the first place, and tries the vectors that are 0 before the tail: those whose first entry that is not 0 is 1, from the
 * last place on. Whether one shows it.
 */
static int tail_shows(struct search *search)
{
    lanes *t = search->table;
    int32_t last = square_at(search, 7);
    t[0] = (lanes){0, last, last, NEVER};
    if (search->first > 6)
        return 0;
    lanes plus6 = tail_adds(search, 6), minus6 = negated(plus6);
    t[1] = t[0] + plus6;
    t[2] = t[0] + minus6;
    if (rows_show(search, 1, 2))
        return 1;
    if (search->first > 5)
        return 0;
    lanes plus5 = tail_adds(search, 5), minus5 = negated(plus5);
    lanes same56 = all_lanes(same_at(search, 5, 6)), other56 = all_lanes(other_at(search, 5, 6));
    t[3] = t[0] + plus5;
    t[4] = t[3] + plus6 + same56;
    t[5] = t[3] + minus6 + other56;
    if (rows_show(search, 3, 6))
        return 1;
    if (search->first > 4)
        return 0;
    t[6] = negated(t[3]);
    t[7] = negated(t[5]);
    t[8] = negated(t[4]);
    plus6 += all_lanes(same_at(search, 4, 6));
    minus6 += all_lanes(other_at(search, 4, 6));
    t[9] = t[0] + tail_adds(search, 4);
    t[12] = t[9] + plus5 + all_lanes(same_at(search, 4, 5));
    t[15] = t[9] + minus5 + all_lanes(other_at(search, 4, 5));
    t[10] = t[9] + plus6;
    t[11] = t[9] + minus6;
    t[13] = t[12] + plus6 + same56;
    t[14] = t[12] + minus6 + other56;
    t[16] = t[15] + plus6 + other56;
    t[17] = t[15] + minus6 + same56;
    return rows_show(search, 9, 18);
}

/* Fills the rest of the table: -1 at the first place of the tail */
static void end_table(lanes *t)
{
    static const uint8_t negatives[9] = {18, 20, 19, 24, 26, 25, 21, 23, 22};
    for (int row = 0; row < 9; row++)
        t[negatives[row]] = negated(t[9 + row]);
}

/* What is added to row 9 i + 3 j + k of the table, and 0 where that makes it 0 or less */
struct added {
    lanes first[3];
    lanes second[3];
    lanes third[3];
};

/* Finds the first, of which there is one */
static __attribute__((noinline, cold)) int find_tail(struct search *search, const struct added *added)
{
    for (int row = 0;; row++) {
        int lane = first_lane(search->table[row] + added->first[row / 9] + added->second[row / 3 % 3] + added->third[row % 3] + 1);
        if (lane < 3)
            return found(search, row, lane);
    }
}

/*
 * Tries all tails after the choices of the places before it, with sum as their least value and plus and minus as what they add to each entry of 1 and
 * of -1 in the tail. All values less 1 are put together first: a negative one shows.
 */
static int tails_show(struct search *search, int32_t sum, lanes plus, lanes minus)
{
    lanes base = all_lanes(sum - 1), last = {0, plus[3], minus[3], 0}, together = {0};
    struct added added = {
        {base, base + SPREAD(plus, 0), base + SPREAD(minus, 0)},
        {{0}, SPREAD(plus, 1), SPREAD(minus, 1)},
        {last, last + SPREAD(plus, 2), last + SPREAD(minus, 2)},
    };
    const lanes *row = search->table;
#pragma GCC unroll 3
    for (int i = 0; i < 3; i++) {
#pragma GCC unroll 3
        for (int j = 0; j < 3; j++, row += 3) {
            lanes both = added.first[i] + added.second[j];
            together |= (row[0] + (added.third[0] + both)) | (row[1] + (added.third[1] + both)) | (row[2] + (added.third[2] + both));
        }
    }
    return any_negative(together) && find_tail(search, &added);
}

/* Chooses the places from place on to the tail: 0, 1 and -1, each with all choices after it */
static int places_show(struct search *search, int place, int32_t sum, const union eight *plus, const union eight *minus)
{
    const union eight *same = &search->same[place], *other = &search->other[place];
    union eight p, m;
    if (place == TAIL)
        return tails_show(search, sum, plus->half[1], minus->half[1]);
    search->chosen[place] = 0;
    if (places_show(search, place + 1, sum, plus, minus))
        return 1;
    search->chosen[place] = 1;
    for (int k = 0; k < 2; k++) {
        p.half[k] = plus->half[k] + same->half[k];
        m.half[k] = minus->half[k] + other->half[k];
    }
    if (places_show(search, place + 1, sum + plus->at[place], &p, &m))
        return 1;
    search->chosen[place] = 2;
    for (int k = 0; k < 2; k++) {
        p.half[k] = plus->half[k] + other->half[k];
        m.half[k] = minus->half[k] + same->half[k];
    }
    return places_show(search, place + 1, sum + minus->at[place], &p, &m);
}

/* Tries the vectors whose first entry that is not 0 stands before the tail and is 1. */
static int fronts_show(struct search *search)
{
    start_front(search);
    end_table(search->table);
    for (int place = TAIL - 1; place >= search->first; place--) {
        const union eight *same = &search->same[place], *other = &search->other[place];
        union eight plus = {.half = {search->squares + same->half[0], same->half[1]}};
        union eight minus = {.half = {search->squares + other->half[0], other->half[1]}};
        search->chosen[place] = 1;
        if (places_show(search, place + 1, search->squares[place], &plus, &minus))
            return 1;
        search->chosen[place] = 0;
    }
    return 0;
}

/* Whether a tried vector shows 'not definite'; x is the first that does. The negative of a vector that was tried is skipped. */
static int tried(int64_t n, const number *low, const number *high, int64_t *x)
{
    static const int8_t entries[] = {0, 1, -1};
    struct search search;
    if (low[n * n - 1] <= 0) {
        for (int64_t i = 0; i < n; i++)
            x[i] = i == n - 1;
        return 1;
    }
    search.n = n;
    search.low = low;
    search.high = high;
    search.first = ORDER - (int)n;
    for (int place = 0; place < ORDER; place++)
        search.chosen[place] = 0;
    if (!tail_shows(&search) && (search.first >= TAIL || !fronts_show(&search)))
        return 0;
    for (int64_t i = 0; i < n; i++)
        x[i] = entries[search.chosen[search.first + i]];
    return 1;
}

/* Whether there is a solved vector of scale s; x is it */
static int solve(int64_t n, int64_t h[ORDER][ORDER], const struct stop *stop, int64_t s, int64_t *x)
{
    for (int64_t i = 0; i < n; i++)
        x[i] = 0;
    x[stop->column] = s;
    for (int64_t i = stop->rows - 1; i >= 0; i--) {
        int64_t t = 0;
        for (int64_t k = i + 1; k <= stop->column; k++)
            t += h[i][k] * x[k];
        x[i] = -floor_quotient(2 * t + h[i][i], 2 * h[i][i]);
        if (!within(x[i], VECTOR_RANGE))
            return 0;
    }
    return 1;
}

/* Whether a listed vector shows 'not definite'; x is the first that does */
static int listed(int64_t n, const number *low, const number *high, int64_t h[ORDER][ORDER], const struct stop *stop, int64_t *x)
{
    if (tried(n, low, high, x))
        return 1;
    if (solve(n, h, stop, 1, x) && least_value(n, low, high, x) <= 0)
        return 1;
    return solve(n, h, stop, 64, x) && least_value(n, low, high, x) <= 0;
}

/* Row by row, 0 below the diagonal */
INLINED void write_factor(int64_t n, int64_t h[ORDER][ORDER], number *factor)
{
    for (int64_t i = 0; i < n; i++, factor += n) {
        for (int64_t j = 0; j < i; j++)
            factor[j] = 0;
        for (int64_t j = i; j < n; j++)
            factor[j] = h[i][j];
    }
}

int64_t tuned_judge(int64_t n, const uint8_t *low_bytes, size_t low_len, const uint8_t *high_bytes, size_t high_len, uint8_t *factor_bytes,
                    size_t factor_len, uint8_t *vector_bytes, size_t vector_len, uint8_t *over_bytes, size_t over_len)
{
    const number *low = numbers(low_bytes), *high = numbers(high_bytes);
    int64_t h[ORDER][ORDER], x[ORDER], over[ORDER];
    struct mended mended;
    struct stop stop;
    if (n < 1 || n > ORDER)
        return 1;
    size_t size = (size_t)(8 * n * n);
    if (low_len != size || high_len != size || factor_len != size || vector_len != (size_t)(8 * n) || over_len != sizeof(number))
        return 2;
    if (!scale(n, low, high, h))
        return refusal(n, low, high);
    if (factor_rows(n, h, &stop, over)) {
        write_factor(n, h, (number *)factor_bytes);
        *(number *)over_bytes = least_over(n, over);
        return 0;
    }
    fill_mended(n, low, high, &mended);
    if (!listed(n, mended.low, mended.high, h, &stop, x))
        return -2;
    number *vector = (number *)vector_bytes;
    for (int64_t i = 0; i < n; i++)
        vector[i] = x[i];
    return -1;
}

/*
 * Row i of a factoring of which only the end counts: takes the part of row i off the rows after it, which are read from one table and written to the
 * other. diagonal is entry (i,i); each later diagonal entry loses step besides. False where factoring stops.
 */
INLINED int take_row(int64_t n, int64_t i, int64_t diagonal, int64_t step, int64_t from[ORDER][ORDER], int64_t to[ORDER][ORDER])
{
    int64_t row[ORDER], d, least = 1, greatest = 0;
    if (diagonal < 1)
        return 0;
    d = short_root(diagonal);
    for (int64_t j = i + 1; j < n; j++) {
        int64_t r = floor_quotient(from[i][j], d), rest = from[j][j] - step - r * r;
        row[j] = r;
        to[j][j] = rest;
        least = rest < least ? rest : least;
        greatest |= (int64_t)((uint64_t)(r + FACTOR_RANGE) | (uint64_t)(FACTOR_RANGE - r));
    }
    if (least < 1 || greatest < 0)
        return 0;
    for (int64_t k = i + 1; k < n; k++)
        for (int64_t j = k + 1; j < n; j++)
            to[k][j] = from[k][j] - row[k] * row[j];
    return 1;
}

/* Whether factoring ends from row first on, which is not the last, with own taken off its diagonal entry and rest off the later ones */
static int ends(int64_t n, int64_t first, int64_t own, int64_t rest, int64_t h[ORDER][ORDER])
{
    int64_t work[ORDER][ORDER];
    if (!take_row(n, first, h[first][first] - own, rest, h, work))
        return 0;
    for (int64_t i = first + 1; i < n - 1; i++)
        if (!take_row(n, i, work[i][i], 0, work, work))
            return 0;
    return 1;
}

/*
 * t, with all, or t(first): bit by bit. h has the rows from first on, less what the rows before take off. No more can be taken off than leaves 1 on the
 * diagonal; for the last row that is all there is to it.
 */
static int64_t greatest_step(int64_t n, int64_t first, int all, int64_t h[ORDER][ORDER])
{
    int64_t most = (h[first][first] - 1) >> SCALE_BITS, step = 0;
    for (int64_t i = first + 1; all && i < n; i++)
        most = h[i][i] - 1 < most << SCALE_BITS ? (h[i][i] - 1) >> SCALE_BITS : most;
    if (most < 1 || first == n - 1)
        return most < 1 ? 0 : most < MOST_STEP ? most : MOST_STEP;
    for (int64_t bit = (MOST_STEP + 1) / 2; bit > 0; bit /= 2) {
        int64_t off = (step + bit) << SCALE_BITS;
        if (step + bit <= most && ends(n, first, off, all ? off : 0, h))
            step += bit;
    }
    return step;
}

/* t(k) for each k. The rows before k are those of the bounds themselves; where factoring stops in them it does so with more taken off, too. */
static void steps_at(int64_t n, int64_t h[ORDER][ORDER], int64_t *steps)
{
    int64_t k = 0;
    do
        steps[k] = greatest_step(n, k, 0, h);
    while (take_row(n, k, h[k][k], 0, h, h) && ++k < n);
    while (++k < n)
        steps[k] = 0;
}

INLINED int64_t magnitude(int64_t x)
{
    return x < 0 ? -x : x;
}

/* g(k): the greatest magnitude of M(k)c + a(k) over the bounds, from the ends of a(k) */
static int64_t gradient(int64_t n, const number *low, const number *high, const number *centre, int64_t least, int64_t greatest)
{
    for (int64_t j = 0; j < n; j++) {
        int64_t c = centre[j], below = c < 0 ? high[j] : low[j], above = c < 0 ? low[j] : high[j];
        least += below * c;
        greatest += above * c;
    }
    return magnitude(least) > magnitude(greatest) ? magnitude(least) : magnitude(greatest);
}

/* g, and whether check 9 passes */
static int gradients(int64_t n, const struct mended *tables, const number *centre, const number *linear_low, const number *linear_high,
                     int64_t *g)
{
    for (int64_t k = 0; k < n; k++) {
        g[k] = gradient(n, tables->low + k * n, tables->high + k * n, centre, linear_low[k], linear_high[k]);
        if (g[k] > GRADIENT_RANGE)
            return 0;
    }
    return 1;
}

/* a / d rounded up, for d >= 1 */
INLINED int64_t ceiling_quotient(int64_t a, int64_t d)
{
    return -floor_quotient(-a, d);
}

/* The least whole s >= 0 with step s^2 >= bound, for step >= 1 */
static int64_t least_radius(int64_t step, int64_t bound)
{
    int64_t square = ceiling_quotient(bound, step);
    return square <= 1 ? square > 0 : whole_root(square - 1) + 1;
}

/* D, B, Y and B2 from t and g. False where the box is empty. */
static int halves(int64_t n, int64_t t, int64_t d, const int64_t *g, int64_t *y, int64_t *bound)
{
    int64_t squares = 0, products = 0;
    for (int64_t k = 0; k < n; k++)
        squares += g[k] * g[k];
    int64_t b = d + ceiling_quotient(squares, t);
    if (b < 0)
        return 0;
    int64_t s = least_radius(t, b);
    for (int64_t k = 0; k < n; k++) {
        y[k] = ceiling_quotient(g[k], t) + s;
        products += g[k] * y[k];
    }
    *bound = d + 2 * products;
    return *bound >= 0;
}

/* Check 3 of the linear terms, the limit and the centre */
static int terms_in_range(int64_t n, const number *linear_low, const number *linear_high, int64_t limit, const number *centre)
{
    int good = within(limit, LIMIT_RANGE);
    for (int64_t k = 0; k < n; k++)
        good &= within(linear_low[k], LINEAR_RANGE) & within(linear_high[k], LINEAR_RANGE) & within(centre[k], CENTRE_RANGE);
    return good;
}

/* Check 16 */
static int reversed(int64_t n, const number *linear_low, const number *linear_high)
{
    int bad = 0;
    for (int64_t k = 0; k < n; k++)
        bad |= linear_low[k] > linear_high[k];
    return bad;
}

/* The least value of the centre, which may be 0, and the part of the linear terms in D */
static int64_t at_centre(int64_t n, const number *low, const number *high, const number *linear_low, const number *linear_high,
                         int64_t limit, const number *centre)
{
    int64_t x[ORDER], sum = 0;
    for (int64_t k = 0; k < n; k++) {
        x[k] = centre[k];
        sum += x[k] * (x[k] < 0 ? linear_high[k] : linear_low[k]);
    }
    return limit - 2 * sum - least_value(n, low, high, x);
}

int64_t tuned_box(int64_t n, const uint8_t *low_bytes, size_t low_len, const uint8_t *high_bytes, size_t high_len,
                  const uint8_t *linear_low_bytes, size_t linear_low_len, const uint8_t *linear_high_bytes, size_t linear_high_len,
                  int64_t limit, const uint8_t *centre_bytes, size_t centre_len, uint8_t *sides_bytes, size_t sides_len)
{
    const number *low = numbers(low_bytes), *high = numbers(high_bytes), *centre = numbers(centre_bytes);
    const number *linear_low = numbers(linear_low_bytes), *linear_high = numbers(linear_high_bytes);
    number *sides = (number *)sides_bytes;
    int64_t h[ORDER][ORDER], g[ORDER], y[ORDER], steps[ORDER], bound;
    struct mended mended;
    if (n < 1 || n > ORDER)
        return 1;
    size_t table = (size_t)(8 * n * n), entries = (size_t)(8 * n);
    if (low_len != table || high_len != table || linear_low_len != entries || linear_high_len != entries || centre_len != entries ||
        sides_len != 2 * entries)
        return 2;
    if (!terms_in_range(n, linear_low, linear_high, limit, centre))
        return 3;
    if (!scale(n, low, high, h))
        return refusal(n, low, high);
    if (reversed(n, linear_low, linear_high))
        return 16;
    int64_t t = greatest_step(n, 0, 1, h);
    if (t == 0)
        return 8;
    fill_mended(n, low, high, &mended);
    if (!gradients(n, &mended, centre, linear_low, linear_high, g))
        return 9;
    if (!halves(n, t, at_centre(n, mended.low, mended.high, linear_low, linear_high, limit, centre), g, y, &bound))
        return -1;
    steps_at(n, h, steps);
    for (int64_t k = 0; k < n; k++) {
        int64_t z = steps[k] > 0 ? least_radius(steps[k], bound) : y[k], half = z < y[k] ? z : y[k];
        sides[2 * k] = centre[k] - half;
        sides[2 * k + 1] = centre[k] + half;
    }
    return 0;
}

/*
 * v, and x is the first tried vector that is under it: a vector is under a threshold exactly where it shows 'not definite' with the
 * threshold taken off the diagonal. The first threshold is the least diagonal entry, and each other one is 1 less than the quotient of the
 * vector found before. No vector before the one that is found is under its threshold, and so none is under its quotient: the last one found
 * is the first under v. The diagonal of low is changed.
 */
static int64_t least_quotient(int64_t n, struct mended *tables, int64_t *x)
{
    int64_t diagonal[ORDER], least = INT64_MAX, found = 0;
    for (int64_t i = 0; i < n; i++) {
        diagonal[i] = tables->low[i * n + i];
        least = diagonal[i] < least ? diagonal[i] : least;
    }
    for (int64_t threshold = least;; threshold = found - 1) {
        int64_t count = 0;
        for (int64_t i = 0; i < n; i++)
            tables->low[i * n + i] = diagonal[i] - threshold;
        if (!tried(n, tables->low, tables->high, x))
            return found;
        for (int64_t i = 0; i < n; i++)
            count += x[i] != 0;
        found = threshold + ceiling_quotient(least_value(n, tables->low, tables->high, x), count);
    }
}

int64_t tuned_stiffness(int64_t n, const uint8_t *low_bytes, size_t low_len, const uint8_t *high_bytes, size_t high_len,
                        uint8_t *step_bytes, size_t step_len, uint8_t *bound_bytes, size_t bound_len, uint8_t *vector_bytes,
                        size_t vector_len)
{
    const number *low = numbers(low_bytes), *high = numbers(high_bytes);
    number *vector = (number *)vector_bytes;
    int64_t h[ORDER][ORDER], x[ORDER];
    struct mended mended;
    if (n < 1 || n > ORDER)
        return 1;
    size_t table = (size_t)(8 * n * n);
    if (low_len != table || high_len != table || step_len != sizeof(number) || bound_len != sizeof(number) || vector_len != (size_t)(8 * n))
        return 2;
    if (!scale(n, low, high, h))
        return refusal(n, low, high);
    fill_mended(n, low, high, &mended);
    *(number *)bound_bytes = least_quotient(n, &mended, x);
    for (int64_t i = 0; i < n; i++)
        vector[i] = x[i];
    if (!ends(n, 0, 0, 0, h))
        return -1;
    *(number *)step_bytes = greatest_step(n, 0, 1, h);
    return 0;
}

/* An entry of a table in a file, and a length there */
typedef int32_t narrow __attribute__((aligned(1), may_alias));
typedef uint16_t length __attribute__((aligned(1), may_alias));

enum { ORDER_TAG = 1, LOW_TAG, HIGH_TAG, LINEAR_LOW_TAG, LIMIT_TAG, CENTRE_TAG, LINEAR_HIGH_TAG };

#define LONGEST_FILE 4096

INLINED size_t file_size(int64_t n)
{
    return (size_t)(30 + 8 * n * n + 24 * n);
}

/* The mended tables with the entries of a file */
struct narrow_mended {
    int32_t low[ORDER * ORDER];
    int32_t high[ORDER * ORDER];
};

INLINED void set_pair(struct narrow_mended *mended, int64_t place, int64_t mirror, struct pair pair)
{
    mended->low[place] = mended->low[mirror] = (int32_t)pair.low;
    mended->high[place] = mended->high[mirror] = (int32_t)pair.high;
}

/* Checks 3 to 5, each pair read once, and the mended tables where they pass */
INLINED int tables_pass(int64_t n, const number *low, const number *high, struct narrow_mended *mended)
{
    uint64_t seen = 0;
    for (int64_t j = 0; j < n; j++) {
        for (int64_t i = 0; i < j; i++) {
            int64_t place = j * n + i, mirror = i * n + j;
            set_pair(mended, place, mirror, see_pair(&seen, low[place], low[mirror], high[place], high[mirror]));
        }
        int64_t place = j * n + j;
        see(&seen, low[place], high[place]);
        set_pair(mended, place, place, (struct pair){low[place], high[place]});
    }
    return !refused(seen);
}

/* A field's tag and length; the place of its content */
INLINED uint8_t *put_head(uint8_t *at, int tag, int64_t size)
{
    at[0] = (uint8_t)tag;
    *(length *)(at + 1) = (uint16_t)size;
    return at + 3;
}

INLINED uint8_t *put_table(uint8_t *at, int tag, int64_t n, const int32_t *table)
{
    uint8_t *to = put_head(at, tag, 4 * n * n);
    __builtin_memcpy(to, table, (size_t)(4 * n * n));
    return to + 4 * n * n;
}

INLINED uint8_t *put_list(uint8_t *at, int tag, int64_t count, const number *list)
{
    number *to = (number *)put_head(at, tag, 8 * count);
    for (int64_t k = 0; k < count; k++)
        to[k] = list[k];
    return (uint8_t *)(to + count);
}

int64_t tuned_write_summary(int64_t n, const uint8_t *low_bytes, size_t low_len, const uint8_t *high_bytes, size_t high_len,
                            const uint8_t *linear_low_bytes, size_t linear_low_len, const uint8_t *linear_high_bytes, size_t linear_high_len,
                            int64_t limit, const uint8_t *centre_bytes, size_t centre_len, uint8_t *file, size_t file_len)
{
    const number *low = numbers(low_bytes), *high = numbers(high_bytes), *centre = numbers(centre_bytes);
    const number *linear_low = numbers(linear_low_bytes), *linear_high = numbers(linear_high_bytes);
    struct narrow_mended mended;
    if (n < 1 || n > ORDER)
        return 1;
    size_t table = (size_t)(8 * n * n), entries = (size_t)(8 * n);
    if (low_len != table || high_len != table || linear_low_len != entries || linear_high_len != entries || centre_len != entries ||
        file_len != file_size(n))
        return 2;
    if (!terms_in_range(n, linear_low, linear_high, limit, centre))
        return 3;
    if (!tables_pass(n, low, high, &mended))
        return refusal(n, low, high);
    if (reversed(n, linear_low, linear_high))
        return 16;
    file = put_head(file, ORDER_TAG, 1);
    *file++ = (uint8_t)n;
    file = put_table(file, LOW_TAG, n, mended.low);
    file = put_table(file, HIGH_TAG, n, mended.high);
    file = put_list(file, LINEAR_LOW_TAG, n, linear_low);
    file = put_list(file, LIMIT_TAG, 1, &limit);
    file = put_list(file, CENTRE_TAG, n, centre);
    put_list(file, LINEAR_HIGH_TAG, n, linear_high);
    return 0;
}

/* Why a file has not the one form that is read: refusals 15, 10, 11, 12, 19, 13, 14 and 1 */
static __attribute__((noinline, cold)) int64_t file_refusal(const uint8_t *file, size_t size)
{
    size_t sizes[LINEAR_HIGH_TAG + 1];
    int tags = 0, last = 0;
    int64_t n = 0;
    if (size > LONGEST_FILE)
        return 15;
    for (size_t at = 0; at < size;) {
        if (size - at < 3 || *(const length *)(file + at + 1) > size - at - 3)
            return 10;
        int tag = file[at];
        if (tag < ORDER_TAG || tag > LINEAR_HIGH_TAG)
            return 11;
        if (tags >> tag & 1)
            return 12;
        if (tag < last)
            return 19;
        sizes[tag] = *(const length *)(file + at + 1);
        if (tag == ORDER_TAG && sizes[tag] == 1)
            n = file[at + 3];
        tags |= 1 << tag;
        last = tag;
        at += 3 + sizes[tag];
    }
    if (tags != 0xFE)
        return 13;
    return sizes[ORDER_TAG] != 1 || (n >= 1 && n <= ORDER) ? 14 : 1;
}

/* Whether a field's head is this one; the place of its content */
INLINED int head_is(const uint8_t *at, int tag, int64_t size)
{
    return at[0] == tag && *(const length *)(at + 1) == size;
}

/* Where the contents of a file of order n start */
struct places {
    const narrow *low;
    const narrow *high;
    const number *linear_low;
    const number *limit;
    const number *centre;
    const number *linear_high;
};

/* Whether a file of the size for its order has the heads for it */
INLINED int find_places(int64_t n, const uint8_t *file, struct places *places)
{
    int64_t table = 4 * n * n, list = 8 * n;
    const uint8_t *low = file + 4, *high = low + 3 + table, *linear_low = high + 3 + table, *limit = linear_low + 3 + list;
    const uint8_t *centre = limit + 11, *linear_high = centre + 3 + list;
    places->low = (const narrow *)(low + 3);
    places->high = (const narrow *)(high + 3);
    places->linear_low = numbers(linear_low + 3);
    places->limit = numbers(limit + 3);
    places->centre = numbers(centre + 3);
    places->linear_high = numbers(linear_high + 3);
    return head_is(file, ORDER_TAG, 1) & head_is(low, LOW_TAG, table) & head_is(high, HIGH_TAG, table) &
           head_is(linear_low, LINEAR_LOW_TAG, list) & head_is(limit, LIMIT_TAG, 8) & head_is(centre, CENTRE_TAG, list) &
           head_is(linear_high, LINEAR_HIGH_TAG, list);
}

/* Checks 3 to 5 of the tables in a file, each pair read once, and the mended tables where they pass */
INLINED int held_tables_pass(int64_t n, const narrow *low, const narrow *high, struct narrow_mended *mended)
{
    uint64_t seen = 0;
    for (int64_t j = 0; j < n; j++) {
        for (int64_t i = 0; i < j; i++) {
            int64_t place = j * n + i, mirror = i * n + j;
            set_pair(mended, place, mirror, see_pair(&seen, low[place], low[mirror], high[place], high[mirror]));
        }
        int64_t place = j * n + j;
        see(&seen, low[place], high[place]);
        set_pair(mended, place, place, (struct pair){low[place], high[place]});
    }
    return !refused(seen);
}

/* Which of 3 to 5 it is */
static __attribute__((noinline, cold)) int64_t held_refusal(int64_t n, const narrow *low, const narrow *high)
{
    int64_t wide_low[ORDER * ORDER], wide_high[ORDER * ORDER];
    for (int64_t k = 0; k < n * n; k++) {
        wide_low[k] = low[k];
        wide_high[k] = high[k];
    }
    return refusal(n, wide_low, wide_high);
}

INLINED void give_table(uint8_t *to, int64_t n, const int32_t *table)
{
    number *entries = (number *)to;
    __builtin_memset(entries, 0, 8 * ORDER * ORDER);
    for (int64_t k = 0; k < n * n; k++)
        entries[k] = table[k];
}

INLINED void give_list(uint8_t *to, int64_t n, const number *list)
{
    number *entries = (number *)to;
    __builtin_memset(entries, 0, 8 * ORDER);
    for (int64_t k = 0; k < n; k++)
        entries[k] = list[k];
}

int64_t tuned_read_summary(const uint8_t *file, size_t file_len, uint8_t *order, size_t order_len, uint8_t *low, size_t low_len, uint8_t *high,
                           size_t high_len, uint8_t *linear_low, size_t linear_low_len, uint8_t *linear_high, size_t linear_high_len,
                           uint8_t *limit, size_t limit_len, uint8_t *centre, size_t centre_len)
{
    const size_t table = 8 * ORDER * ORDER, list = 8 * ORDER;
    struct narrow_mended mended;
    struct places places;
    if (order_len != 8 || low_len != table || high_len != table || linear_low_len != list || linear_high_len != list || limit_len != 8 ||
        centre_len != list)
        return 2;
    int64_t n = file_len > 3 ? file[3] : 0;
    if (n < 1 || n > ORDER || file_len != file_size(n) || !find_places(n, file, &places))
        return file_refusal(file, file_len);
    if (!terms_in_range(n, places.linear_low, places.linear_high, *places.limit, places.centre))
        return 3;
    if (!held_tables_pass(n, places.low, places.high, &mended))
        return held_refusal(n, places.low, places.high);
    if (reversed(n, places.linear_low, places.linear_high))
        return 16;
    *(number *)order = n;
    give_table(low, n, mended.low);
    give_table(high, n, mended.high);
    give_list(linear_low, n, places.linear_low);
    give_list(linear_high, n, places.linear_high);
    *(number *)limit = *places.limit;
    give_list(centre, n, places.centre);
    return 0;
}

#define GREATEST_POOL 64

/* Sums or a problem of a pool, where they lie */
struct constraint {
    const number *low;
    const number *high;
    const number *linear_low;
    const number *linear_high;
    int64_t limit;
};

/* The buffers of a pool: its sums are the constraint before the first problem. */
struct pool {
    int64_t n;
    int64_t count;
    struct constraint sums;
    struct constraint problems;
    const number *limits;
};

INLINED struct constraint constraint_of(const struct pool *pool, int64_t k)
{
    const struct constraint *p = &pool->problems;
    int64_t entry = k * pool->n * pool->n, term = k * pool->n;
    if (k < 0)
        return pool->sums;
    return (struct constraint){p->low + entry, p->high + entry, p->linear_low + term, p->linear_high + term, pool->limits[k]};
}

/* Which of 3, 4, 5 and 16 fail for a constraint: bit k is set where check k does */
static __attribute__((noinline, cold)) int failing(int64_t n, const struct constraint *c)
{
    int bits = within(c->limit, LIMIT_RANGE) ? 0 : 1 << 3;
    for (int64_t i = 0; i < n; i++) {
        for (int64_t j = 0; j < n; j++) {
            int64_t low = c->low[i * n + j], high = c->high[i * n + j];
            bits |= within(low, ENTRY_RANGE) && within(high, ENTRY_RANGE) ? 0 : 1 << 3;
            bits |= (low > high) << 4 | (low > c->high[j * n + i]) << 5;
        }
        bits |= within(c->linear_low[i], LINEAR_RANGE) && within(c->linear_high[i], LINEAR_RANGE) ? 0 : 1 << 3;
    }
    return bits | reversed(n, c->linear_low, c->linear_high) << 16;
}

/* The first check that fails for the sums or a problem, or 18 where none does */
static __attribute__((noinline, cold)) int64_t pool_refusal(const struct pool *pool)
{
    int bits = 0;
    for (int64_t k = -1; k < pool->count; k++) {
        struct constraint c = constraint_of(pool, k);
        bits |= failing(pool->n, &c);
    }
    return bits ? __builtin_ctz((unsigned)bits) : 18;
}

/* Sums while they are added to. Of the tables, entry (i,j) with i <= j is at 8 j + i. */
struct running {
    int64_t low[ORDER * ORDER];
    int64_t high[ORDER * ORDER];
    int64_t linear_low[ORDER];
    int64_t linear_high[ORDER];
    int64_t limit;
};

/* Adds one entry or linear term. outside is below 0 where a sum is out of its range: a low sum is at most the high one. */
INLINED void add_bounds(int64_t low, int64_t high, int64_t range, const int64_t *from_low, const int64_t *from_high, int64_t *to_low,
                        int64_t *to_high, int64_t *outside)
{
    int64_t sum_low = *from_low + low, sum_high = *from_high + high;
    *outside |= (sum_low + range) | (range - sum_high);
    *to_low = sum_low;
    *to_high = sum_high;
}

/* Adds a constraint, mended. Whether its checks pass and all sums are in their ranges; where only the latter fails, passes stays 1. */
static int add_constraint(int64_t n, const struct constraint *c, const struct running *from, struct running *to, int *passes)
{
    uint64_t seen = 0, terms = 0;
    int64_t outside = 0;
    for (int64_t j = 0; j < n; j++) {
        const number *low = c->low + j * n, *high = c->high + j * n;
        int64_t linear_low = c->linear_low[j], linear_high = c->linear_high[j];
        for (int64_t i = 0; i < j; i++) {
            int64_t place = ORDER * j + i;
            struct pair pair = see_pair(&seen, low[i], c->low[i * n + j], high[i], c->high[i * n + j]);
            add_bounds(pair.low, pair.high, ENTRY_RANGE, from->low + place, from->high + place, to->low + place, to->high + place,
                       &outside);
        }
        int64_t place = (ORDER + 1) * j;
        see(&seen, low[j], high[j]);
        add_bounds(low[j], high[j], ENTRY_RANGE, from->low + place, from->high + place, to->low + place, to->high + place, &outside);
        terms |= (uint64_t)(linear_low + LINEAR_RANGE) | (uint64_t)(LINEAR_RANGE - linear_high) | (uint64_t)(linear_high - linear_low);
        add_bounds(linear_low, linear_high, LINEAR_RANGE, from->linear_low + j, from->linear_high + j, to->linear_low + j,
                   to->linear_high + j, &outside);
    }
    to->limit = from->limit + c->limit;
    *passes = !refused(seen) && terms >> 38 == 0 && within(c->limit, LIMIT_RANGE);
    return *passes && outside >= 0 && within(to->limit, LIMIT_RANGE);
}

static void halve(int64_t n, struct running *sums)
{
    for (int64_t j = 0; j < n; j++) {
        for (int64_t place = ORDER * j; place <= (ORDER + 1) * j; place++) {
            sums->low[place] >>= 1;
            sums->high[place] = (sums->high[place] + 1) >> 1;
        }
        sums->linear_low[j] >>= 1;
        sums->linear_high[j] = (sums->linear_high[j] + 1) >> 1;
    }
    sums->limit = (sums->limit + 1) >> 1;
}

/* Adds the sums and all problems, from zeros. 0, and which of the two has the sums; or the number of the refusal */
static int64_t add_all(const struct pool *pool, struct running *sums, int *last)
{
    for (int64_t k = -1; k < pool->count; k++) {
        struct constraint c = constraint_of(pool, k);
        struct running *from = &sums[(k + 1) & 1], *to = &sums[k & 1];
        int passes;
        if (add_constraint(pool->n, &c, from, to, &passes))
            continue;
        if (passes)
            halve(pool->n, from);
        if (!passes || !add_constraint(pool->n, &c, from, to, &passes))
            return pool_refusal(pool);
    }
    *last = (pool->count - 1) & 1;
    return 0;
}

/* Checks 1 and 2 of the orders */
static int64_t order_refusal(int64_t n, const number *orders, size_t orders_len)
{
    int unequal = 0;
    if (n < 1 || n > ORDER)
        return 1;
    if (orders_len % 8 != 0 || orders_len < 8 || orders_len > 8 * GREATEST_POOL)
        return 2;
    for (size_t k = 0; k < orders_len / 8; k++) {
        if (orders[k] < 1 || orders[k] > ORDER)
            return 1;
        unequal |= orders[k] != n;
    }
    return unequal ? 2 : 0;
}

static void store_running(int64_t n, const struct running *sums, number *low, number *high, number *linear_low, number *linear_high)
{
    for (int64_t j = 0; j < n; j++) {
        for (int64_t i = 0; i <= j; i++) {
            low[j * n + i] = low[i * n + j] = sums->low[ORDER * j + i];
            high[j * n + i] = high[i * n + j] = sums->high[ORDER * j + i];
        }
        linear_low[j] = sums->linear_low[j];
        linear_high[j] = sums->linear_high[j];
    }
}

int64_t tuned_pool(int64_t n, uint8_t *low, size_t low_len, uint8_t *high, size_t high_len, uint8_t *linear_low, size_t linear_low_len,
                   uint8_t *linear_high, size_t linear_high_len, uint8_t *running_limit, size_t running_limit_len, const uint8_t *orders,
                   size_t orders_len, const uint8_t *lows, size_t lows_len, const uint8_t *highs, size_t highs_len,
                   const uint8_t *linear_lows, size_t linear_lows_len, const uint8_t *linear_highs, size_t linear_highs_len,
                   const uint8_t *limits, size_t limits_len)
{
    struct running sums[2] = {{.limit = 0}};
    int last = 0;
    int64_t answer = order_refusal(n, numbers(orders), orders_len);
    if (answer)
        return answer;
    size_t count = orders_len / 8, table = (size_t)(8 * n * n), vector = (size_t)(8 * n);
    if (low_len != table || high_len != table || linear_low_len != vector || linear_high_len != vector || running_limit_len != 8 ||
        lows_len != count * table || highs_len != count * table || linear_lows_len != count * vector ||
        linear_highs_len != count * vector || limits_len != count * 8)
        return 2;
    struct pool pool = {n, (int64_t)count,
                        {numbers(low), numbers(high), numbers(linear_low), numbers(linear_high), *numbers(running_limit)},
                        {numbers(lows), numbers(highs), numbers(linear_lows), numbers(linear_highs), 0}, numbers(limits)};
    answer = add_all(&pool, sums, &last);
    if (answer)
        return answer;
    store_running(n, &sums[last], (number *)low, (number *)high, (number *)linear_low, (number *)linear_high);
    *(number *)running_limit = sums[last].limit;
    return 0;
}
