/* part: begin */
/* A season's life in a unit: each ride is gathered by itself, rides are pooled every week, and old ones fade. docs/FIRMWARE.md shows it. */
#include <inttypes.h>
#include <stdio.h>
#include <string.h>

#include "hankboulder.h"

#define ORDER HB_SAMPLE_ORDER

/* part: stores */
/* Running sums, in the library's bytes: those of the ride that is on, and those of the season. All begin at 0. */
struct sums {
    uint8_t low[HB_TABLE_BYTES(ORDER)];
    uint8_t high[HB_TABLE_BYTES(ORDER)];
    uint8_t linear_low[HB_VECTOR_BYTES(ORDER)];
    uint8_t linear_high[HB_VECTOR_BYTES(ORDER)];
    uint8_t running_limit[HB_NUMBER_BYTES];
};

/* How many rides wait for the next pool at most: any number up to HB_GREATEST_POOL */
#define ROOM 16

/* The rides of a week, a problem each, in the lists that hb_pool takes, and how many they are */
struct week {
    size_t count;
    uint8_t orders[HB_NUMBERS_BYTES(ROOM)];
    uint8_t lows[HB_TABLES_BYTES(ORDER, ROOM)];
    uint8_t highs[HB_TABLES_BYTES(ORDER, ROOM)];
    uint8_t linear_lows[HB_VECTORS_BYTES(ORDER, ROOM)];
    uint8_t linear_highs[HB_VECTORS_BYTES(ORDER, ROOM)];
    uint8_t limits[HB_NUMBERS_BYTES(ROOM)];
};

static void print_refusal(const char *function, int64_t number)
{
    static const char *const words[] = HB_REFUSAL_WORDS;
    printf("  %s refused, %" PRId64 " %s\n", function, number, words[number]);
}

/* part: ride */
/* Adds a stretch to a ride. Returns what is to be allowed for it: where it is taken, the square of the most that it can be missed by */
static int64_t gather(struct sums *ride, hb_sample sample, int64_t miss)
{
    int64_t answer = hb_gather(sample, ORDER, ride->low, sizeof ride->low, ride->high, sizeof ride->high, ride->linear_low,
                               sizeof ride->linear_low, ride->linear_high, sizeof ride->linear_high, ride->running_limit,
                               sizeof ride->running_limit);
    if (answer == HB_TAKEN)
        return miss * miss;
    print_refusal("hb_gather", answer);
    return 0;
}

/* Reads sums with an allowance. Returns 1, with the limit written. */
static int read_limit(const struct sums *sums, int64_t allowance, uint8_t *limit)
{
    int64_t answer = hb_read_sums(ORDER, sums->low, sizeof sums->low, sums->high, sizeof sums->high, sums->linear_low,
                                  sizeof sums->linear_low, sums->linear_high, sizeof sums->linear_high,
                                  hb_load_number(sums->running_limit), allowance, limit, HB_NUMBER_BYTES);
    if (answer == HB_WRITTEN)
        return 1;
    print_refusal("hb_read_sums", answer);
    return 0;
}

/* part: end */
/* The end of a ride: its sums, read with its own allowance, are a problem behind those of the week. Returns 1 where it is there. */
static int end_ride(struct week *week, const struct sums *ride, int64_t allowance)
{
    size_t k = week->count;
    if (k == ROOM || !read_limit(ride, allowance, week->limits + HB_NUMBERS_BYTES(k)))
        return 0;
    hb_store_number(week->orders + HB_NUMBERS_BYTES(k), ORDER);
    memcpy(week->lows + HB_TABLES_BYTES(ORDER, k), ride->low, sizeof ride->low);
    memcpy(week->highs + HB_TABLES_BYTES(ORDER, k), ride->high, sizeof ride->high);
    memcpy(week->linear_lows + HB_VECTORS_BYTES(ORDER, k), ride->linear_low, sizeof ride->linear_low);
    memcpy(week->linear_highs + HB_VECTORS_BYTES(ORDER, k), ride->linear_high, sizeof ride->linear_high);
    week->count++;
    return 1;
}

/* part: pool */
/* Pools some rides of the week into the season. All of them are in it then, or none: returns the answer. */
static int64_t pool(struct sums *season, const struct week *week, size_t first, size_t count)
{
    return hb_pool(ORDER, season->low, sizeof season->low, season->high, sizeof season->high, season->linear_low, sizeof season->linear_low,
                   season->linear_high, sizeof season->linear_high, season->running_limit, sizeof season->running_limit,
                   week->orders + HB_NUMBERS_BYTES(first), HB_NUMBERS_BYTES(count), week->lows + HB_TABLES_BYTES(ORDER, first),
                   HB_TABLES_BYTES(ORDER, count), week->highs + HB_TABLES_BYTES(ORDER, first), HB_TABLES_BYTES(ORDER, count),
                   week->linear_lows + HB_VECTORS_BYTES(ORDER, first), HB_VECTORS_BYTES(ORDER, count),
                   week->linear_highs + HB_VECTORS_BYTES(ORDER, first), HB_VECTORS_BYTES(ORDER, count),
                   week->limits + HB_NUMBERS_BYTES(first), HB_NUMBERS_BYTES(count));
}

/* The end of a week: its rides go into the season. Where they are refused together each is pooled by itself, or left out. */
static void end_week(struct sums *season, struct week *week)
{
    if (week->count > 0 && pool(season, week, 0, week->count) != HB_TAKEN) {
        for (size_t k = 0; k < week->count; k++) {
            int64_t answer = pool(season, week, k, 1);
            if (answer != HB_TAKEN)
                print_refusal("hb_pool", answer);
        }
    }
    week->count = 0;
}

/* part: season */
/* The centre, where Cc + a is near 0 for the middle C of the bounds and the middle a of the linear terms, coordinate by coordinate */
static void find_centre(const struct sums *season, uint8_t *centre)
{
    double point[ORDER] = {0};
    for (int round = 0; round < 100; round++) {
        for (int i = 0; i < ORDER; i++) {
            double rest = 0, entry = 1;
            for (int j = 0; j < ORDER; j++) {
                size_t place = HB_NUMBERS_BYTES(ORDER * i + j);
                double middle = (double)(hb_load_number(season->low + place) + hb_load_number(season->high + place)) / 2;
                if (j == i)
                    entry = middle;
                else
                    rest += middle * point[j];
            }
            size_t place = HB_NUMBERS_BYTES(i);
            rest += (double)(hb_load_number(season->linear_low + place) + hb_load_number(season->linear_high + place)) / 2;
            point[i] = -rest / entry;
        }
    }
    for (int i = 0; i < ORDER; i++)
        hb_store_number(centre + HB_NUMBERS_BYTES(i), (int64_t)(point[i] < 0 ? point[i] - 0.5 : point[i] + 0.5));
}

/* Reads the season with K = 0, since each ride has its own allowance in its limit; judges and boxes it, and prints the box. */
static void show(const struct sums *season)
{
    static const char *const names[ORDER] = {"rolling", "climb", "air", "start"};
    uint8_t limit[HB_NUMBER_BYTES], factor[HB_TABLE_BYTES(ORDER)], vector[HB_VECTOR_BYTES(ORDER)], over[HB_OVER_BYTES];
    uint8_t centre[HB_VECTOR_BYTES(ORDER)], sides[HB_SIDES_BYTES(ORDER)];
    if (!read_limit(season, 0, limit))
        return;
    int64_t answer = hb_judge(ORDER, season->low, sizeof season->low, season->high, sizeof season->high, factor, sizeof factor, vector,
                              sizeof vector, over, sizeof over);
    if (answer != HB_DEFINITE) {
        printf("  not shown to be definite: printed table\n");
        return;
    }
    find_centre(season, centre);
    answer = hb_box(ORDER, season->low, sizeof season->low, season->high, sizeof season->high, season->linear_low,
                    sizeof season->linear_low, season->linear_high, sizeof season->linear_high, hb_load_number(limit), centre,
                    sizeof centre, sides, sizeof sides);
    if (answer == HB_EMPTY)
        printf("  no coefficients fit all rides: printed table\n");
    else if (answer != HB_BOX)
        print_refusal("hb_box", answer);
    for (int k = 0; k < ORDER && answer == HB_BOX; k++)
        printf("%s %s %" PRId64 " to %" PRId64 "%s", k ? "," : " ", names[k], hb_load_number(sides + HB_NUMBERS_BYTES(2 * k)),
               hb_load_number(sides + HB_NUMBERS_BYTES(2 * k + 1)), k == ORDER - 1 ? "\n" : "");
}

/* part: rides */
/* Twelve stretches, a kilometre together, in sixteenths, and by how much their draws are off */
static const int stretches[][ORDER + 1] = {
    {2, 1, 1, 0, 1}, {1, 0, 2, 1, -1}, {3, 0, 1, 0, 1}, {1, 2, 0, 0, -1}, {1, 0, 1, 2, 1},  {2, 0, 3, 0, 0},
    {0, 2, 0, 1, 1}, {1, 1, 1, 1, -1}, {2, 0, 0, 3, 1}, {0, 1, 4, 0, 2},  {4, 0, 1, 0, -1}, {0, 0, 3, 2, -1},
};

#define STRETCHES (sizeof stretches / sizeof stretches[0])
#define MISS 2

/* A ride of some kilometres. The draw is 36 for a sixteenth of climb, 12 of air, 18 of starts, and for one of rolling as it is given */
static int add_ride(struct week *week, int kilometres, int rolling)
{
    struct sums ride = {{0}, {0}, {0}, {0}, {0}};
    int64_t allowance = 0;
    for (size_t k = 0; k < STRETCHES * (size_t)kilometres; k++) {
        const int *part = stretches[k % STRETCHES];
        int draw = rolling * part[0] + 36 * part[1] + 12 * part[2] + 18 * part[3] + part[4];
        hb_sample sample = {(float)part[0] / 16, (float)part[1] / 16, (float)part[2] / 16, (float)part[3] / 16, (float)draw / 16};
        allowance += gather(&ride, sample, MISS);
    }
    return end_ride(week, &ride, allowance);
}

/* part: life */
/* Some weeks of ten rides. Prints in which weeks the sums were halved: an entry of the diagonal of high goes down only then. */
static void ride_weeks(struct sums *season, int first, int last, int rolling)
{
    static struct week week;
    for (int number = first; number <= last; number++) {
        int64_t before = hb_load_number(season->high);
        for (int k = 0; k < 10; k++)
            add_ride(&week, 20, rolling);
        end_week(season, &week);
        if (hb_load_number(season->high) < before)
            printf("  week %d: the sums were halved\n", number);
    }
    printf("  after week %d\n", last);
    show(season);
}

int main(void)
{
    static struct week week;
    struct sums season = {{0}, {0}, {0}, {0}, {0}};
    printf("new tyres: 24 for a sixteenth of rolling\n");
    ride_weeks(&season, 1, 1, 24);
    ride_weeks(&season, 2, 52, 24);
    ride_weeks(&season, 53, 130, 24);
    printf("worn tyres: 26\n");
    ride_weeks(&season, 131, 140, 26);
    ride_weeks(&season, 141, 200, 26);
    ride_weeks(&season, 201, 260, 26);
    ride_weeks(&season, 261, 320, 26);

    printf("a ride that is too long to be pooled\n");
    add_ride(&week, 24000, 26);
    add_ride(&week, 20, 26);
    end_week(&season, &week);
    show(&season);
    return 0;
}
