/* part: head */
/* From the samples that a unit's hub hands over to the kilometres on its display. docs/FIRMWARE.md has this file part by part, and says why. */
#include <inttypes.h>
#include <stdio.h>

#include "hankboulder.h"

/* part: sums */
/* The unknown coefficients: what rolling, climb, air and start take. They count sixteenths of the draw for a sixteenth of a factor. */
#define ORDER HB_SAMPLE_ORDER

/* What the samples add up to, in the library's bytes, and the allowance for those that were taken. The unit keeps these; all begin at 0. */
struct sums {
    uint8_t low[HB_TABLE_BYTES(ORDER)];
    uint8_t high[HB_TABLE_BYTES(ORDER)];
    uint8_t linear_low[HB_VECTOR_BYTES(ORDER)];
    uint8_t linear_high[HB_VECTOR_BYTES(ORDER)];
    uint8_t running_limit[HB_NUMBER_BYTES];
    int64_t allowance;
};

/* part: gather */
static void log_refusal(const char *function, int64_t number);

/* The most that one sample may be missed by, in sixteenths of the draw: its square is HB_MAX_ALLOWANCE. */
#define MOST_MISS 1048576

/* Whether hb_read_sums takes the allowance. One that it does not take, a damaged one too, stays as it is: it is refused until the unit gathers anew. */
static int allowance_is_good(const struct sums *sums)
{
    return sums->allowance >= 0 && sums->allowance <= HB_MAX_ALLOWANCE;
}

static void allow_for(struct sums *sums, int64_t miss)
{
    if (!allowance_is_good(sums))
        return;
    if (miss < -MOST_MISS || miss > MOST_MISS)
        sums->allowance = HB_MAX_ALLOWANCE + 1;
    else
        sums->allowance += miss * miss;
}

/*
 * Adds a sample, which the right coefficients miss by at most miss sixteenths of the draw: its square is allowed for where the sample is
 * taken. One that is refused is dropped, and the sums are as they were. Where they have no room for it, hb_gather halves them first.
 */
static void gather(struct sums *sums, hb_sample sample, int64_t miss)
{
    int64_t answer = hb_gather(sample, ORDER, sums->low, sizeof sums->low, sums->high, sizeof sums->high, sums->linear_low,
                               sizeof sums->linear_low, sums->linear_high, sizeof sums->linear_high, sums->running_limit,
                               sizeof sums->running_limit);
    if (answer == HB_TAKEN)
        allow_for(sums, miss);
    else
        log_refusal("hb_gather", answer);
}

/* part: read */
/* Reads the sums with their allowance. Returns 1, with the limit that hb_box takes. */
static int read_limit(const struct sums *sums, int64_t *limit)
{
    uint8_t found[HB_NUMBER_BYTES];
    int64_t answer = hb_read_sums(ORDER, sums->low, sizeof sums->low, sums->high, sizeof sums->high, sums->linear_low, sizeof sums->linear_low,
                                  sums->linear_high, sizeof sums->linear_high, hb_load_number(sums->running_limit), sums->allowance, found,
                                  sizeof found);
    if (answer != HB_WRITTEN) {
        log_refusal("hb_read_sums", answer);
        return 0;
    }
    *limit = hb_load_number(found);
    return 1;
}

/* part: refusals */
/* Logs a refusal by number and word, and what to do about it. */
static void log_refusal(const char *function, int64_t number)
{
    static const char *const words[] = HB_REFUSAL_WORDS;
    const char *remedy = "no answer of this library: the program is damaged";
    switch (number) {
    case HB_REFUSED_ORDER:
    case HB_REFUSED_LENGTH:
        remedy = "a mistake in this program's call";
        break;
    case HB_REFUSED_RANGE:
        remedy = "the sums are damaged, or more is allowed for than 2^40, gather anew";
        break;
    case HB_REFUSED_CROSSED:
    case HB_REFUSED_LOPSIDED:
        remedy = "the tables are damaged, gather anew";
        break;
    case HB_REFUSED_REVERSED:
        remedy = "the linear terms are damaged, gather anew";
        break;
    case HB_REFUSED_FACTOR:
    case HB_REFUSED_VECTOR:
        remedy = "what was filed is damaged, judge again";
        break;
    case HB_REFUSED_FLAT:
        remedy = "too little is known yet, gather more rides";
        break;
    case HB_REFUSED_FAR:
        remedy = "the centre is too far off, or the bounds are too wide";
        break;
    case HB_REFUSED_SAMPLE:
        remedy = "the hub has handed over no measurement, drop the sample";
        break;
    case HB_REFUSED_FULL:
        remedy = "a pooled problem is too great, leave it out";
        break;
    default:
        number = 0;
    }
    printf("  %s refused, %" PRId64 " %s: %s\n", function, number, words[number], remedy);
}

/* part: judge */
/* Judges the bounds. Returns 1, with the factor written, where every matrix between them is positive definite. */
static int judge(const struct sums *sums, uint8_t *factor)
{
    uint8_t vector[HB_VECTOR_BYTES(ORDER)], over[HB_OVER_BYTES];
    int64_t answer = hb_judge(ORDER, sums->low, sizeof sums->low, sums->high, sizeof sums->high, factor, HB_TABLE_BYTES(ORDER), vector,
                              sizeof vector, over, sizeof over);
    switch (answer) {
    case HB_DEFINITE:
        printf("  definite, %" PRId64 " over\n", hb_load_number(over));
        return 1;
    case HB_NOT_DEFINITE:
        printf("  not definite, as the vector");
        for (int k = 0; k < ORDER; k++)
            printf(" %" PRId64, hb_load_number(vector + HB_NUMBER_BYTES * k));
        printf(" shows\n");
        return 0;
    case HB_UNDECIDED:
        printf("  undecided\n");
        return 0;
    default:
        log_refusal("hb_judge", answer);
        return 0;
    }
}

/* part: bracket */
/* The least stiffness of a matrix between the bounds: from the step, or 0 where none is given, to the bound, which the vector shows */
struct bracket {
    int64_t step;
    int64_t bound;
    int64_t vector[ORDER];
};

/* Prints the coefficients that a vector has: those that rise along it, and those that fall. */
static void print_along(const int64_t *vector)
{
    static const char *const names[ORDER] = {"rolling", "climb", "air", "start"};
    printf(" along");
    for (int k = 0; k < ORDER; k++)
        if (vector[k] != 0)
            printf(" %c%s", vector[k] > 0 ? '+' : '-', names[k]);
    printf("\n");
}

/* Brackets the stiffness of the sums, and prints the bracket. Returns 1 where it is written. */
static int find_bracket(const struct sums *sums, struct bracket *found)
{
    uint8_t step[HB_STEP_BYTES], bound[HB_BOUND_BYTES], vector[HB_VECTOR_BYTES(ORDER)];
    int64_t answer = hb_stiffness(ORDER, sums->low, sizeof sums->low, sums->high, sizeof sums->high, step, sizeof step, bound, sizeof bound,
                                  vector, sizeof vector);
    if (answer != HB_BETWEEN && answer != HB_AT_MOST) {
        log_refusal("hb_stiffness", answer);
        return 0;
    }
    found->step = answer == HB_BETWEEN ? hb_load_number(step) : 0;
    found->bound = hb_load_number(bound);
    for (int k = 0; k < ORDER; k++)
        found->vector[k] = hb_load_number(vector + HB_NUMBER_BYTES * k);
    if (answer == HB_BETWEEN)
        printf("  stiffness from %" PRId64 " to %" PRId64 ", low", found->step, found->bound);
    else
        printf("  stiffness of at most %" PRId64 ", %s", found->bound, found->bound > 0 ? "low" : "none");
    print_along(found->vector);
    return 1;
}

/* part: sure */
/* Asks the rider for the stretch that adds most to the stiffness along a vector x: one with the factors f adds (f'x)^2 to x'Mx. */
static void ask_for_stretch(const int64_t *vector)
{
    static const struct {
        const char *name;
        int64_t factors[ORDER];
    } kinds[] = {{"slow and level", {4, 0, 0, 0}}, {"up a hill", {1, 3, 0, 0}}, {"fast", {2, 0, 4, 0}}, {"with stops", {1, 0, 0, 3}}};
    const char *name = "";
    int64_t most = 0;
    for (size_t k = 0; k < sizeof kinds / sizeof kinds[0]; k++) {
        int64_t sum = 0;
        for (int i = 0; i < ORDER; i++)
            sum += kinds[k].factors[i] * vector[i];
        if (sum * sum > most) {
            most = sum * sum;
            name = kinds[k].name;
        }
    }
    printf("  to know more: a stretch that is ridden %s\n", name);
}

/*
 * Prints how sure the coefficients are. At the distance r from those that fit best, the squares of the misses add up to at least
 * step * r^2 more. So all that fit, by the allowance, are within the least r for which that is the allowance or more. With a step of 0
 * there is no such r, and the rider is asked for a stretch.
 */
static void print_sure(const struct sums *sums, const struct bracket *found)
{
    int64_t r = 0;
    if (found->step == 0) {
        ask_for_stretch(found->vector);
        return;
    }
    if (!allowance_is_good(sums))
        return;
    while (found->step * r * r < sums->allowance)
        r++;
    printf("  all coefficients that fit are within %" PRId64 " of the best\n", r);
}

/* part: stiffer */
/* The sums with a step taken off each diagonal entry of both tables */
static void lower(const struct sums *sums, int64_t step, struct sums *lowered)
{
    *lowered = *sums;
    for (int k = 0; k < ORDER; k++) {
        int place = HB_NUMBER_BYTES * k * (ORDER + 1);
        hb_store_number(lowered->low + place, hb_load_number(sums->low + place) - step);
        hb_store_number(lowered->high + place, hb_load_number(sums->high + place) - step);
    }
}

/*
 * Writes a factor that shows more stiffness than the one that the judge has written for the sums: that of the sums with the step of their
 * bracket taken off the diagonal. What is left is definite, for the step was tried so. Were it not, the factor would stay as it was.
 */
static void find_stiffer(const struct sums *sums, int64_t step, uint8_t *factor)
{
    uint8_t vector[HB_VECTOR_BYTES(ORDER)], over[HB_OVER_BYTES];
    struct sums lowered;
    lower(sums, step, &lowered);
    hb_judge(ORDER, lowered.low, sizeof lowered.low, lowered.high, sizeof lowered.high, factor, HB_TABLE_BYTES(ORDER), vector,
             sizeof vector, over, sizeof over);
}

/* part: filed */
/* What the rows have over, for each 1 of stiffness */
#define STIFFNESS_SCALE 4294967296

/* Prints the bound of the stiffness that an accepted factor gives, rounded down to hundredths: the number is 0 or more. */
static void print_stiffness(int64_t over)
{
    printf("  the factor is accepted: stiffness of at least %" PRId64 ".%02" PRId64 "\n", over / STIFFNESS_SCALE,
           over % STIFFNESS_SCALE * 100 / STIFFNESS_SCALE);
}

/* Tests a factor with the sums, before it is filed and at each start. Returns 1 where it shows that they are definite. */
static int test_filed(const struct sums *sums, const uint8_t *factor)
{
    uint8_t over[HB_OVER_BYTES];
    int64_t answer = hb_test_factor(ORDER, sums->low, sizeof sums->low, sums->high, sizeof sums->high, factor, HB_TABLE_BYTES(ORDER), over,
                                    sizeof over);
    switch (answer) {
    case HB_ACCEPTED:
        print_stiffness(hb_load_number(over));
        return 1;
    case HB_NOT_ACCEPTED:
        printf("  the factor is not accepted, %" PRId64 " over\n", hb_load_number(over));
        return 0;
    default:
        log_refusal("hb_test_factor", answer);
        return 0;
    }
}

/* part: logged */
/* Tests a witness vector that a unit has logged, in a workshop's tool. */
static void test_logged(const struct sums *sums, const int64_t *witness)
{
    uint8_t vector[HB_VECTOR_BYTES(ORDER)];
    int64_t answer;
    for (int k = 0; k < ORDER; k++)
        hb_store_number(vector + HB_NUMBER_BYTES * k, witness[k]);
    answer = hb_test_vector(ORDER, sums->low, sizeof sums->low, sums->high, sizeof sums->high, vector, sizeof vector);
    switch (answer) {
    case HB_YES:
        printf("  the logged vector shows that not every matrix is definite\n");
        break;
    case HB_NO:
        printf("  the logged vector shows nothing\n");
        break;
    default:
        log_refusal("hb_test_vector", answer);
    }
}

/* part: centre */
/* The middle of two numbers of the sums, which hb_read_sums has let through: so the two can be added */
static double middle_of(const uint8_t *low, const uint8_t *high, int place)
{
    return (double)(hb_load_number(low + HB_NUMBER_BYTES * place) + hb_load_number(high + HB_NUMBER_BYTES * place)) / 2;
}

/*
 * The centre, where Cc + a = 0 for the middle C of the bounds and the middle a of the linear terms, by elimination: no pivot is 0, for C is
 * positive definite. Entries are rounded from the last to the first, and each makes up for the rounding of those after it. Any rounding is
 * sound, for a box holds the ellipsoid from any centre.
 */
static void solve_centre(const struct sums *sums, int64_t *centre)
{
    double middle[ORDER][ORDER], rest[ORDER];
    for (int i = 0; i < ORDER; i++) {
        rest[i] = -middle_of(sums->linear_low, sums->linear_high, i);
        for (int j = 0; j < ORDER; j++)
            middle[i][j] = middle_of(sums->low, sums->high, i * ORDER + j);
        for (int k = 0; k < i; k++) {
            double share = middle[i][k] / middle[k][k];
            rest[i] -= share * rest[k];
            for (int j = k; j < ORDER; j++)
                middle[i][j] -= share * middle[k][j];
        }
    }
    for (int i = ORDER - 1; i >= 0; i--) {
        double entry = rest[i];
        for (int j = i + 1; j < ORDER; j++)
            entry -= middle[i][j] * (double)centre[j];
        entry /= middle[i][i];
        entry = entry > HB_CENTRE_RANGE ? HB_CENTRE_RANGE : entry < -HB_CENTRE_RANGE ? -HB_CENTRE_RANGE : entry;
        centre[i] = (int64_t)(entry < 0 ? entry - 0.5 : entry + 0.5);
    }
}

/* part: box */
/* Boxes the ellipsoid of the sums and their limit from a centre. Returns 1, with the sides written, where a box is given. */
static int box(const struct sums *sums, int64_t limit, const int64_t *centre, int64_t *sides)
{
    uint8_t middle[HB_VECTOR_BYTES(ORDER)], found[HB_SIDES_BYTES(ORDER)];
    int64_t answer;
    for (int k = 0; k < ORDER; k++)
        hb_store_number(middle + HB_NUMBER_BYTES * k, centre[k]);
    answer = hb_box(ORDER, sums->low, sizeof sums->low, sums->high, sizeof sums->high, sums->linear_low, sizeof sums->linear_low,
                    sums->linear_high, sizeof sums->linear_high, limit, middle, sizeof middle, found, sizeof found);
    switch (answer) {
    case HB_BOX:
        for (int k = 0; k < 2 * ORDER; k++)
            sides[k] = hb_load_number(found + HB_NUMBER_BYTES * k);
        for (int k = 0; k < ORDER; k++)
            printf("  coefficient %d from %" PRId64 " to %" PRId64 "\n", k, sides[2 * k], sides[2 * k + 1]);
        return 1;
    case HB_EMPTY:
        printf("  empty: no coefficients fit the rides\n");
        return 0;
    default:
        log_refusal("hb_box", answer);
        return 0;
    }
}

/* part: shown */
/* What is shown wherever the rides do not tell */
static void show_table(void)
{
    printf("  display: printed table\n");
}

/*
 * Shows how many kilometres 400 Wh last, 64,000 sixteenths of the draw: a kilometre has 16 sixteenths of rolling and of air, 10 metres to climb and one start,
 * and takes the greatest and the least energy that the box allows.
 */
static void show_kilometres(const int64_t *sides)
{
    static const int64_t kilometre[ORDER] = {16, 10, 16, 1};
    const int64_t energy = 64000;
    int64_t least = 0, most = 0;
    for (int k = 0; k < ORDER; k++) {
        least += kilometre[k] * sides[2 * k];
        most += kilometre[k] * sides[2 * k + 1];
    }
    if (least <= 0)
        show_table();
    else
        printf("  display: %" PRId64 " to %" PRId64 " km\n", energy / most, energy / least);
}

/* part: display */
/*
 * Judges the sums, brackets their stiffness, says how sure the coefficients are, and writes a factor to file. Returns 1 where the factor is
 * accepted.
 */
static int file_factor(const struct sums *sums, uint8_t *factor)
{
    struct bracket found;
    int definite = judge(sums, factor);
    if (!find_bracket(sums, &found))
        return 0;
    print_sure(sums, &found);
    if (!definite)
        return 0;
    find_stiffer(sums, found.step, factor);
    return test_filed(sums, factor);
}

/*
 * The display's work: test the factor that was filed with the sums, or judge them and write a factor to file; then read the sums, which
 * checks all of them before anything is worked out from them, and box from the centre. filed is 1 where there is a filed factor.
 */
static void display(const struct sums *sums, uint8_t *factor, int filed)
{
    int64_t limit, centre[ORDER], sides[2 * ORDER];
    int definite = (filed && test_filed(sums, factor)) || file_factor(sums, factor);
    if (!definite || !read_limit(sums, &limit)) {
        show_table();
        return;
    }
    solve_centre(sums, centre);
    if (box(sums, limit, centre, sides))
        show_kilometres(sides);
    else
        show_table();
}

/* part: rides */
/*
 * A stretch of a ride, in sixteenths: 62.5 m each of rolling and of air (more where it is faster than 25 km/h, and less where it is slower), metres climbed,
 * starts, and 6.25 mWh each of draw
 */
struct stretch {
    float rolling, climb, air, start, draw;
};

/* A ride: 24 for a sixteenth of rolling, 36 for a metre, 12 for a sixteenth of air and 18 for a start, and draws that are off by up to 2 */
static const struct stretch ride[] = {
    {2, 1, 1, 0, 97}, {1, 0, 2, 1, 65}, {3, 0, 1, 0, 85},  {1, 2, 0, 0, 95}, {1, 0, 1, 2, 73},  {2, 0, 3, 0, 84},
    {0, 2, 0, 1, 91}, {1, 1, 1, 1, 89}, {2, 0, 0, 3, 103}, {0, 1, 4, 0, 86}, {4, 0, 1, 0, 107}, {0, 0, 3, 2, 71},
};

#define COUNT(stretches) (sizeof(stretches) / sizeof((stretches)[0]))

/* Gathers stretches as a hub measures them that is off by so many sixteenths of each number, and what it is off by is allowed for by miss. */
static void gather_all(struct sums *sums, const struct stretch *stretches, size_t count, const struct stretch *off, int64_t miss)
{
    for (size_t k = 0; k < count; k++) {
        const struct stretch *stretch = &stretches[k];
        hb_sample sample = {(stretch->rolling + off->rolling) / 16, (stretch->climb + off->climb) / 16, (stretch->air + off->air) / 16,
                            (stretch->start + off->start) / 16, (stretch->draw + off->draw) / 16};
        gather(sums, sample, miss);
    }
}

static const struct stretch nothing = {0, 0, 0, 0, 0};

/* part: workshop */
/* A workshop's look at a ride: how its bracket goes up, every two stretches */
static void show_growth(void)
{
    struct sums sums = {{0}, {0}, {0}, {0}, {0}, 0};
    for (size_t count = 2; count <= COUNT(ride); count += 2) {
        struct bracket found;
        printf("the first %zu stretches of the ride\n", count);
        gather_all(&sums, &ride[count - 2], 2, &nothing, 2);
        if (find_bracket(&sums, &found))
            print_sure(&sums, &found);
    }
}

/* part: cases */
/* A ride, its factor filed and damaged, its sums damaged, a hub that fails, and many such rides */
static void show_rides(void)
{
    const hb_sample unmeasured = {0.125f, 0, 0.0625f, 0, 12.5f};
    uint8_t factor[HB_TABLE_BYTES(ORDER)] = {0};
    struct sums sums = {{0}, {0}, {0}, {0}, {0}, 0}, many = sums;

    printf("a ride\n");
    gather_all(&sums, ride, COUNT(ride), &nothing, 2);
    display(&sums, factor, 0);
    printf("the same after the next start, its factor filed\n");
    display(&sums, factor, 1);
    printf("the same, the filed factor damaged\n");
    factor[HB_NUMBER_BYTES + 2] ^= 64;
    display(&sums, factor, 1);
    printf("the same, the linear terms damaged\n");
    sums.linear_high[1] ^= 64;
    gather_all(&sums, ride, 1, &nothing, 2);
    display(&sums, factor, 0);
    printf("the same, the tables damaged too\n");
    /* One entry of both tables: it and its mirror image leave no number. */
    sums.low[HB_NUMBER_BYTES] ^= 1;
    sums.high[HB_NUMBER_BYTES] ^= 1;
    display(&sums, factor, 1);
    printf("a ride, and a stretch whose draw was not measured\n");
    gather_all(&many, ride, COUNT(ride), &nothing, 2);
    gather(&many, unmeasured, 2);
    display(&many, factor, 0);
    printf("thirty thousand such rides\n");
    for (int k = 1; k < 30000; k++)
        gather_all(&many, ride, COUNT(ride), &nothing, 2);
    display(&many, factor, 0);
}

/* The ride where less is known of it */
static void show_wider(void)
{
    static const struct stretch draws = {0, 0, 0, 0, 0.3f}, air = {0, 0, 0.01f, 0, 0}, all = {0.01f, 0.01f, 0.01f, 0.01f, 0};
    uint8_t factor[HB_TABLE_BYTES(ORDER)] = {0};
    struct sums none = {{0}, {0}, {0}, {0}, {0}, 0}, sums = none;

    printf("the ride, missed by up to 5 in each stretch\n");
    gather_all(&sums, ride, COUNT(ride), &nothing, 5);
    display(&sums, factor, 0);
    printf("the ride, its draws between sixteenths\n");
    sums = none;
    gather_all(&sums, ride, COUNT(ride), &draws, 2);
    display(&sums, factor, 0);
    printf("the ride, the air between sixteenths\n");
    sums = none;
    gather_all(&sums, ride, COUNT(ride), &air, 2);
    display(&sums, factor, 0);
    printf("the ride, all factors between sixteenths\n");
    sums = none;
    gather_all(&sums, ride, COUNT(ride), &all, 2);
    display(&sums, factor, 0);
    printf("the ride, with more allowed for than can be\n");
    sums = none;
    gather_all(&sums, ride, COUNT(ride), &nothing, 1 << 20);
    display(&sums, factor, 0);
}

/* Rides that get more alike: of two stretches with air and starts one has 5 and 0, the other 4 and 4, then 5 and 3, and last 8 and 0. */
static void show_alike(void)
{
    uint8_t factor[HB_TABLE_BYTES(ORDER)] = {0};
    for (int k = 0; k <= 4; k++) {
        float air = (float)(4 + k), start = (float)(4 - k);
        const struct stretch stretches[] = {
            {4, 0, 0, 0, 96}, {0, 3, 0, 0, 108}, {0, 0, 5, 0, 60}, {0, 0, air, start, 12 * air + 18 * start}};
        struct sums sums = {{0}, {0}, {0}, {0}, {0}, 0};
        printf("stretches with air and starts of 5 and 0, and of %d and %d\n", 4 + k, 4 - k);
        gather_all(&sums, stretches, COUNT(stretches), &nothing, 2);
        file_factor(&sums, factor);
    }
}

/* Rides that do not tell */
static void show_others(void)
{
    static const struct stretch level[] = {{2, 0, 1, 0, 60}, {1, 0, 3, 1, 78}, {3, 0, 1, 0, 84}, {1, 0, 0, 2, 60}, {0, 0, 4, 1, 66}};
    static const struct stretch alike[] = {{1, 2, 0, 0, 96}, {2, 1, 0, 0, 84}, {0, 0, 3, 1, 54}, {0, 0, 8, 3, 100}};
    static const struct stretch first[] = {{1, 0, 0, 0, 24}, {0, 1, 0, 0, 36}, {0, 0, 1, 0, 12}, {0, 0, 0, 1, 18}};
    static const struct stretch unlike[] = {{2, 1, 1, 0, 20}, {2, 1, 1, 0, 96}};
    static const int64_t logged[ORDER] = {0, 1, 0, 0};
    uint8_t factor[HB_TABLE_BYTES(ORDER)] = {0};
    struct sums none = {{0}, {0}, {0}, {0}, {0}, 0}, sums = none;

    printf("level rides only\n");
    gather_all(&sums, level, COUNT(level), &nothing, 2);
    display(&sums, factor, 0);
    test_logged(&sums, logged);
    printf("stretches that are too much alike\n");
    sums = none;
    gather_all(&sums, alike, COUNT(alike), &nothing, 2);
    display(&sums, factor, 0);
    printf("the first four stretches\n");
    sums = none;
    gather_all(&sums, first, COUNT(first), &nothing, 2);
    display(&sums, factor, 0);
    printf("rides that contradict each other\n");
    sums = none;
    gather_all(&sums, ride, COUNT(ride), &nothing, 2);
    gather_all(&sums, unlike, COUNT(unlike), &nothing, 2);
    display(&sums, factor, 0);
}

int main(void)
{
    show_rides();
    show_growth();
    show_wider();
    show_alike();
    show_others();
    return 0;
}
