/*
 * What docs/FIRMWARE.md says of bounds: how wide they may be, how many samples fit, and that halving loses no coefficients. The code under
 * test is that of examples/firmware.c. The last line printed is 'N passed, M failed'.
 *
 * With the greatest factor and the draw of samples as arguments, in sixteenths, it prints a row of the page's table instead, a figure on each line: how
 * many such samples fit in the entries, in the linear terms, in the running limit, and in all of them.
 */
#define main firmware_main
#include "../../examples/firmware.c"
#undef main

#include <stdlib.h>

static int passed, failed;

static void expect(const char *what, int64_t given, int64_t least)
{
    if (given >= least) {
        passed++;
        return;
    }
    failed++;
    printf("%s: %" PRId64 ", and at least %" PRId64 " are needed\n", what, given, least);
}

/* A random number from low to high, the same in every run (splitmix64) */
static int64_t between(int64_t low, int64_t high)
{
    static uint64_t state = 1;
    uint64_t bits = state += 0x9E3779B97F4A7C15;
    bits = (bits ^ (bits >> 30)) * 0xBF58476D1CE4E5B9;
    bits = (bits ^ (bits >> 27)) * 0x94D049BB133111EB;
    return low + (int64_t)((bits ^ (bits >> 31)) % (uint64_t)(high - low + 1));
}

static int64_t magnitude(int64_t number)
{
    return number < 0 ? -number : number;
}

/* A number of a buffer, and another one put there */
static int64_t get(const uint8_t *buffer, int place)
{
    return hb_load_number(buffer + HB_NUMBER_BYTES * place);
}

static void put(uint8_t *buffer, int place, int64_t number)
{
    hb_store_number(buffer + HB_NUMBER_BYTES * place, number);
}

/* x'Mx + 2a'x */
static int64_t value(const int64_t *matrix, const int64_t *linear, const int64_t *x)
{
    int64_t sum = 0;
    for (int i = 0; i < ORDER; i++) {
        for (int j = 0; j < ORDER; j++)
            sum += x[i] * matrix[i * ORDER + j] * x[j];
        sum += 2 * linear[i] * x[i];
    }
    return sum;
}

/* Whether halves are the numbers' own, rounded outward: the low one by at most 1/2 down, the high one by at most 1/2 up */
static int rounded_outward(int64_t low, int64_t high, int64_t half_low, int64_t half_high)
{
    return 2 * half_low <= low && low <= 2 * half_low + 1 && 2 * half_high >= high && high >= 2 * half_high - 1;
}

/* Random bounds and, between them, a symmetric matrix and linear terms. The entry (1,1) of the bounds is at the end of its range. */
static void draw_full(struct sums *sums, int64_t *matrix, int64_t *linear)
{
    for (int i = 0; i < ORDER; i++)
        for (int j = 0; j <= i; j++) {
            int64_t low = between(-HB_ENTRY_RANGE, HB_ENTRY_RANGE - 1000), high = low + between(0, 1000), entry = between(low, high);
            const int places[] = {i * ORDER + j, j * ORDER + i};
            for (int k = 0; k < 2; k++) {
                put(sums->low, places[k], low);
                put(sums->high, places[k], high);
                matrix[places[k]] = entry;
            }
        }
    put(sums->low, 0, HB_ENTRY_RANGE);
    put(sums->high, 0, HB_ENTRY_RANGE);
    matrix[0] = HB_ENTRY_RANGE;
    for (int k = 0; k < ORDER; k++) {
        put(sums->linear_low, k, between(-HB_LINEAR_RANGE, HB_LINEAR_RANGE - 1000));
        put(sums->linear_high, k, get(sums->linear_low, k) + between(0, 1000));
        linear[k] = between(get(sums->linear_low, k), get(sums->linear_high, k));
    }
}

/*
 * Whether sums that a sample halves are right for those before, the 1 taken off again that it adds to the entry (1,1): M/2 and a/2 are
 * between the bounds for each M and a that were, by less than 1 more on either side; an x that had x'Mx + 2a'x = allowance + running limit
 * less some rest has it still, with the same allowance; and the running limit is greater by at most 1/2.
 */
static int halved_well(void)
{
    const hb_sample one = {0.0625f, 0, 0, 0, 0};
    struct sums sums, before;
    int64_t matrix[ORDER * ORDER], linear[ORDER], x[ORDER], limit, running, halved;
    int well = 1;
    draw_full(&sums, matrix, linear);
    for (int k = 0; k < ORDER; k++)
        x[k] = between(-HB_CENTRE_RANGE, HB_CENTRE_RANGE);
    sums.allowance = between(0, HB_MAX_ALLOWANCE);
    limit = value(matrix, linear, x) + between(0, 1);
    running = limit - sums.allowance;
    put(sums.running_limit, 0, running);
    before = sums;
    gather(&sums, one, 0);
    put(sums.low, 0, get(sums.low, 0) - 1);
    put(sums.high, 0, get(sums.high, 0) - 1);
    for (int k = 0; k < ORDER * ORDER; k++)
        well = well && rounded_outward(get(before.low, k), get(before.high, k), get(sums.low, k), get(sums.high, k));
    for (int k = 0; k < ORDER; k++)
        well = well && rounded_outward(get(before.linear_low, k), get(before.linear_high, k), get(sums.linear_low, k), get(sums.linear_high, k));
    halved = get(sums.running_limit, 0);
    return well && value(matrix, linear, x) <= 2 * (halved + sums.allowance) && running <= 2 * halved && 2 * halved <= running + 1;
}

static void test_halving(void)
{
    int64_t well = 0;
    for (int k = 0; k < 100000; k++)
        well += halved_well();
    expect("sums that are halved well", well, 100000);
}

static int64_t boxed(const struct sums *sums, int64_t limit, const int64_t *centre, int64_t *sides)
{
    uint8_t middle[HB_VECTOR_BYTES(ORDER)], found[HB_SIDES_BYTES(ORDER)] = {0};
    int64_t answer;
    for (int k = 0; k < ORDER; k++)
        put(middle, k, centre[k]);
    answer = hb_box(ORDER, sums->low, sizeof sums->low, sums->high, sizeof sums->high, sums->linear_low, sizeof sums->linear_low,
                    sums->linear_high, sizeof sums->linear_high, limit, middle, sizeof middle, found, sizeof found);
    for (int k = 0; k < 2 * ORDER; k++)
        sides[k] = get(found, k);
    return answer;
}

/*
 * A stretch with random factors up to some size, in sixteenths, whose draw is off by up to noise quarters of a sixteenth: so its last digits may lie
 * between sixteenths. Returns 0 where the draw is beyond the range.
 */
static int draw_stretch(const int64_t *x, int64_t size, int64_t noise, hb_sample *sample)
{
    int64_t factors[ORDER], quarters = between(-noise, noise);
    for (int k = 0; k < ORDER; k++) {
        factors[k] = between(-size, size);
        quarters += 4 * factors[k] * x[k];
    }
    sample->rolling = (float)factors[0] / 16;
    sample->climb = (float)factors[1] / 16;
    sample->air = (float)factors[2] / 16;
    sample->start = (float)factors[3] / 16;
    sample->draw = (float)quarters / 64;
    return magnitude(quarters) <= 64 * HB_SAMPLE_RANGE;
}

/* Gathers a sample. Returns 1 where the sums are halved: then a diagonal entry, which a sample makes no smaller, is smaller than it was. */
static int gather_counted(struct sums *sums, hb_sample sample, int64_t miss)
{
    const struct sums before = *sums;
    int halved = 0;
    gather(sums, sample, miss);
    for (int k = 0; k < ORDER; k++)
        halved = halved || get(sums->high, k * ORDER + k) < get(before.high, k * ORDER + k);
    return halved;
}

/* A season of stretches with coefficients x. Returns how often its sums are halved, or -1 where there is no box or x is not in it. */
static int boxed_season(void)
{
    const int64_t noise = between(0, 12), miss = (noise + 3) / 4, size = between(0, 1) ? between(2, 6) : between(30, 60);
    int64_t x[ORDER], count = between(4, 6) << between(3, 11), centre[ORDER], sides[2 * ORDER], limit;
    struct sums sums = {{0}, {0}, {0}, {0}, {0}, 0};
    hb_sample sample;
    int halvings = 0;
    for (int k = 0; k < ORDER; k++)
        x[k] = size > 6 ? between(-2, 2) : between(-20, 20);
    while (count > 0) {
        if (draw_stretch(x, size, noise, &sample)) {
            halvings += gather_counted(&sums, sample, miss);
            count--;
        }
    }
    solve_centre(&sums, centre);
    if (!read_limit(&sums, &limit) || boxed(&sums, limit, centre, sides) != HB_BOX)
        return -1;
    for (int k = 0; k < ORDER; k++)
        if (x[k] < sides[2 * k] || x[k] > sides[2 * k + 1])
            return -1;
    return halvings;
}

static void test_seasons(void)
{
    int64_t boxes = 0, often = 0;
    for (int k = 0; k < 300; k++) {
        int halvings = boxed_season();
        boxes += halvings >= 0;
        often += halvings >= 3;
    }
    expect("seasons whose box holds their coefficients", boxes, 300);
    expect("those of them that were halved three times or more", often, 30);
}

/* Random bounds, narrow ones and wide ones: those of twice the middle are sum, and the widths of rows are w */
struct bounds {
    struct sums sums;
    int64_t sum[ORDER * ORDER], w[ORDER];
};

static void draw(struct bounds *bounds)
{
    const int64_t width = between(0, 1) ? between(0, 12) : 0;
    const struct sums none = {{0}, {0}, {0}, {0}, {0}, 0};
    bounds->sums = none;
    for (int i = 0; i < ORDER; i++)
        for (int j = i; j < ORDER; j++) {
            int64_t low = i == j ? between(5, 60) : between(-18, 18), high = low + between(0, width);
            put(bounds->sums.low, i * ORDER + j, low);
            put(bounds->sums.low, j * ORDER + i, low);
            put(bounds->sums.high, i * ORDER + j, high);
            put(bounds->sums.high, j * ORDER + i, high);
        }
    for (int i = 0; i < ORDER; i++) {
        bounds->w[i] = 0;
        for (int j = 0; j < ORDER; j++) {
            int64_t low = get(bounds->sums.low, i * ORDER + j), high = get(bounds->sums.high, i * ORDER + j);
            bounds->sum[i * ORDER + j] = low + high;
            bounds->w[i] += high - low;
        }
    }
}

/* The determinant of a matrix, row by row, along its first row */
static int64_t determinant(const int64_t *matrix, int count)
{
    int64_t sum = 0, rest[ORDER * ORDER];
    if (count == 0)
        return 1;
    for (int taken = 0; taken < count; taken++) {
        int place = 0;
        for (int i = 1; i < count; i++)
            for (int j = 0; j < count; j++)
                if (j != taken)
                    rest[place++] = matrix[i * count + j];
        sum += (taken % 2 ? -1 : 1) * matrix[taken] * determinant(rest, count - 1);
    }
    return sum;
}

/* The principal minor of the rows and columns whose bits are set */
static int64_t principal_minor(const int64_t *matrix, int bits)
{
    int64_t part[ORDER * ORDER];
    int place = 0, count = 0;
    for (int i = 0; i < ORDER; i++) {
        count += bits >> i & 1;
        for (int j = 0; j < ORDER; j++)
            if (bits >> i & bits >> j & 1)
                part[place++] = matrix[i * ORDER + j];
    }
    return determinant(part, count);
}

/*
 * The sign of twice the middle less w(i) + off on the diagonal: 1 where it is positive definite, so all leading minors are positive, 0 where it is positive
 * semidefinite only, so no principal minor is negative, and -1 elsewhere
 */
static int sign(const struct bounds *bounds, int64_t off)
{
    int64_t matrix[ORDER * ORDER];
    int definite = 1, semidefinite = 1;
    for (int i = 0; i < ORDER; i++)
        for (int j = 0; j < ORDER; j++)
            matrix[i * ORDER + j] = bounds->sum[i * ORDER + j] - (i == j ? bounds->w[i] + off : 0);
    for (int count = 1; count <= ORDER; count++)
        definite = definite && principal_minor(matrix, (1 << count) - 1) > 0;
    if (definite)
        return 1;
    for (int bits = 1; bits < 1 << ORDER; bits++)
        semidefinite = semidefinite && principal_minor(matrix, bits) >= 0;
    return semidefinite ? 0 : -1;
}

/*
 * 'definite' asks that the middle is above w(i)/2, and is sure from w(i)/2 + 1/2 on; a box that is not flat asks for 1 more of both. Counts
 * the cases of each kind, and those in which it is otherwise.
 */
static void test_width(void)
{
    const int64_t zeros[ORDER] = {0};
    int64_t below[2] = {0}, above[2] = {0}, otherwise = 0;
    for (int k = 0; k < 60000; k++) {
        struct bounds bounds;
        const struct sums *sums = &bounds.sums;
        uint8_t factor[HB_TABLE_BYTES(ORDER)], vector[HB_VECTOR_BYTES(ORDER)], over[HB_OVER_BYTES];
        int64_t sides[2 * ORDER];
        int shown[2];
        draw(&bounds);
        shown[0] = hb_judge(ORDER, sums->low, sizeof sums->low, sums->high, sizeof sums->high, factor, sizeof factor, vector, sizeof vector,
                            over, sizeof over) == HB_DEFINITE;
        shown[1] = boxed(sums, 0, zeros, sides) != HB_REFUSED_FLAT;
        for (int box = 0; box < 2; box++) {
            if (sign(&bounds, 2 * box) < 1) {
                below[box]++;
                otherwise += shown[box];
            } else if (sign(&bounds, 2 * box + 1) >= 0) {
                above[box]++;
                otherwise += !shown[box];
            }
        }
    }
    expect("bounds that are too wide to be definite", below[0], 10000);
    expect("bounds that are surely definite", above[0], 10000);
    expect("bounds that are flat", below[1], 10000);
    expect("bounds that are surely not flat", above[1], 10000);
    expect("none that is otherwise", -otherwise, 0);
}

/*
 * A box is far exactly if for some k |Cc + a|(k), half of the widths in row k times |c|, and half of the width of a(k) are above 2^20
 * together; a is the middle of the linear terms.
 */
static void test_far(void)
{
    int64_t far = 0, near = 0, otherwise = 0;
    for (int k = 0; k < 100000; k++) {
        const int64_t size = between(0, 1000);
        int64_t low[ORDER * ORDER], high[ORDER * ORDER], centre[ORDER], sides[2 * ORDER], greatest_twice = 0, answer;
        struct sums sums;
        for (int i = 0; i < ORDER; i++) {
            centre[i] = between(-HB_CENTRE_RANGE, HB_CENTRE_RANGE) / 2;
            for (int j = 0; j < ORDER; j++) {
                low[i * ORDER + j] = i == j ? between(5000, 9000) : 100;
                high[i * ORDER + j] = low[i * ORDER + j] + (i == j ? between(0, size) : size);
                put(sums.low, i * ORDER + j, low[i * ORDER + j]);
                put(sums.high, i * ORDER + j, high[i * ORDER + j]);
            }
        }
        for (int i = 0; i < ORDER; i++) {
            int64_t twice = 0, width = 0, linear_low, linear_high;
            for (int j = 0; j < ORDER; j++) {
                twice += (low[i * ORDER + j] + high[i * ORDER + j]) * centre[j];
                width += (high[i * ORDER + j] - low[i * ORDER + j]) * magnitude(centre[j]);
            }
            linear_low = -twice / 2 + between(-1000, 1000);
            linear_high = linear_low + between(0, size) * between(0, 1000);
            put(sums.linear_low, i, linear_low);
            put(sums.linear_high, i, linear_high);
            width += linear_high - linear_low;
            twice = magnitude(twice + linear_low + linear_high) + width;
            greatest_twice = twice > greatest_twice ? twice : greatest_twice;
        }
        answer = boxed(&sums, 0, centre, sides);
        far += answer == HB_REFUSED_FAR;
        near += answer == HB_BOX || answer == HB_EMPTY;
        otherwise += (answer == HB_REFUSED_FAR) != (greatest_twice > (int64_t)1 << 21);
    }
    expect("boxes that are too far", far, 10000);
    expect("boxes that are not", near, 10000);
    expect("none that is otherwise", -otherwise, 0);
}

/* How many samples fit, by the ranges: in the entries, the linear terms, the running limit, and all of them. Both numbers are in sixteenths. */
static void count_samples(int64_t factor, int64_t draw, int64_t *counts)
{
    counts[0] = HB_ENTRY_RANGE / (factor * factor);
    counts[1] = HB_LINEAR_RANGE / (factor * draw);
    counts[2] = HB_LIMIT_RANGE / (draw * draw);
    counts[3] = counts[0] < counts[1] ? counts[0] : counts[1];
    counts[3] = counts[3] < counts[2] ? counts[3] : counts[2];
}

static void test_samples(void)
{
    static const int64_t samples[][2] = {{128, 128}, {16, 128}, {4, 128}, {100, 1}, {7, 96}};
    for (size_t k = 0; k < COUNT(samples); k++) {
        const hb_sample sample = {(float)samples[k][0] / 16, 0.0625f, 0, 0, (float)samples[k][1] / 16};
        struct sums sums = {{0}, {0}, {0}, {0}, {0}, 0};
        int64_t counts[4], halvings = 0;
        count_samples(samples[k][0], samples[k][1], counts);
        for (int64_t taken = 0; taken < counts[3]; taken++)
            halvings += gather_counted(&sums, sample, 0);
        expect("as many samples as are said fit", -halvings, 0);
        expect("one more does not, and the sums are halved for it", gather_counted(&sums, sample, 0), 1);
    }
}

int main(int count, char **arguments)
{
    if (count == 3) {
        int64_t counts[4];
        count_samples(atoll(arguments[1]), atoll(arguments[2]), counts);
        for (int k = 0; k < 4; k++)
            printf("%" PRId64 "\n", counts[k]);
        return 0;
    }
    test_halving();
    test_seasons();
    test_width();
    test_far();
    test_samples();
    printf("%d passed, %d failed\n", passed, failed);
    return failed != 0;
}
