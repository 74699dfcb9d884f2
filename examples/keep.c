/* part: start */
/* A unit that keeps what it has gathered as a summary file, and goes on from there after the next start. docs/FIRMWARE.md has this file part by part. */
#include <inttypes.h>
#include <stdio.h>
#include <string.h>

#include "hankboulder.h"

#define ORDER HB_SAMPLE_ORDER

/* part: storage */
/* What is there when the power comes back: the summary file, what is allowed for in its limit, and a check sum of both. A file has none of its own. */
struct kept {
    uint8_t file[HB_SUMMARY_BYTES(ORDER)];
    uint8_t allowance[HB_NUMBER_BYTES];
    uint32_t check_sum;
};

/* A problem as hb_read_summary writes it: the order is not known before, so there is room for the greatest */
struct problem {
    uint8_t order[HB_NUMBER_BYTES];
    uint8_t low[HB_TABLE_BYTES(HB_MAX_ORDER)];
    uint8_t high[HB_TABLE_BYTES(HB_MAX_ORDER)];
    uint8_t linear_low[HB_VECTOR_BYTES(HB_MAX_ORDER)];
    uint8_t linear_high[HB_VECTOR_BYTES(HB_MAX_ORDER)];
    uint8_t limit[HB_NUMBER_BYTES];
    uint8_t centre[HB_VECTOR_BYTES(HB_MAX_ORDER)];
};

/* Running sums, and the allowance for the samples in them */
struct sums {
    uint8_t low[HB_TABLE_BYTES(ORDER)];
    uint8_t high[HB_TABLE_BYTES(ORDER)];
    uint8_t linear_low[HB_VECTOR_BYTES(ORDER)];
    uint8_t linear_high[HB_VECTOR_BYTES(ORDER)];
    uint8_t running_limit[HB_NUMBER_BYTES];
    int64_t allowance;
};

/* part: check */
/* CRC-32 of what is kept. Whatever finds a byte that was damaged will do. */
static uint32_t check_sum(const struct kept *kept)
{
    uint32_t sum = 0xFFFFFFFF;
    for (size_t k = 0; k < sizeof kept->file + sizeof kept->allowance; k++) {
        sum ^= k < sizeof kept->file ? kept->file[k] : kept->allowance[k - sizeof kept->file];
        for (int bit = 0; bit < 8; bit++)
            sum = sum & 1 ? sum >> 1 ^ 0xEDB88320 : sum >> 1;
    }
    return ~sum;
}

static void print_refusal(const char *function, int64_t number)
{
    static const char *const words[] = HB_REFUSAL_WORDS;
    printf("  %s refused, %" PRId64 " %s\n", function, number, words[number]);
}

/* part: keep */
/* Keeps the sums, with the centre of the last box. Returns 1 where they are kept; where not, what was kept before is as it was. */
static int keep(const struct sums *sums, const uint8_t *centre, struct kept *kept)
{
    uint8_t limit[HB_NUMBER_BYTES];
    int64_t answer = hb_read_sums(ORDER, sums->low, sizeof sums->low, sums->high, sizeof sums->high, sums->linear_low, sizeof sums->linear_low,
                                  sums->linear_high, sizeof sums->linear_high, hb_load_number(sums->running_limit), sums->allowance, limit,
                                  sizeof limit);
    if (answer != HB_WRITTEN) {
        print_refusal("hb_read_sums", answer);
        return 0;
    }
    answer = hb_write_summary(ORDER, sums->low, sizeof sums->low, sums->high, sizeof sums->high, sums->linear_low, sizeof sums->linear_low,
                              sums->linear_high, sizeof sums->linear_high, hb_load_number(limit), centre, HB_VECTOR_BYTES(ORDER), kept->file,
                              sizeof kept->file);
    if (answer != HB_WRITTEN) {
        print_refusal("hb_write_summary", answer);
        return 0;
    }
    hb_store_number(kept->allowance, sums->allowance);
    kept->check_sum = check_sum(kept);
    return 1;
}

/* part: restore */
/* Reads a file of any length. Returns 1 where the problem is written. */
static int read_file(const uint8_t *file, size_t size, struct problem *problem)
{
    int64_t answer = hb_read_summary(file, size, problem->order, sizeof problem->order, problem->low, sizeof problem->low, problem->high,
                                     sizeof problem->high, problem->linear_low, sizeof problem->linear_low, problem->linear_high,
                                     sizeof problem->linear_high, problem->limit, sizeof problem->limit, problem->centre,
                                     sizeof problem->centre);
    if (answer == HB_WRITTEN)
        return 1;
    print_refusal("hb_read_summary", answer);
    return 0;
}

/* The problem that was kept. Returns 1 where it is whole. */
static int restore(const struct kept *kept, struct problem *problem)
{
    if (check_sum(kept) == kept->check_sum)
        return read_file(kept->file, sizeof kept->file, problem);
    printf("  what was kept is damaged: gather anew\n");
    return 0;
}

/* part: judged */
/* Judges and boxes a problem that was read: its tables and vectors go on as they are, with the lengths of its order. */
static void judge(const struct problem *problem)
{
    uint8_t factor[HB_TABLE_BYTES(HB_MAX_ORDER)], vector[HB_VECTOR_BYTES(HB_MAX_ORDER)], over[HB_OVER_BYTES];
    uint8_t sides[HB_SIDES_BYTES(HB_MAX_ORDER)];
    int64_t n = hb_load_number(problem->order);
    size_t table = HB_TABLE_BYTES(n), list = HB_VECTOR_BYTES(n);
    if (hb_judge(n, problem->low, table, problem->high, table, factor, table, vector, list, over, sizeof over) != HB_DEFINITE) {
        printf("  not shown to be definite: the display has its printed table\n");
        return;
    }
    printf("  order %" PRId64 ", definite, %" PRId64 " over\n", n, hb_load_number(over));
    int64_t answer = hb_box(n, problem->low, table, problem->high, table, problem->linear_low, list, problem->linear_high, list,
                            hb_load_number(problem->limit), problem->centre, list, sides, HB_SIDES_BYTES(n));
    if (answer != HB_BOX) {
        printf("  no box: the display has its printed table\n");
        return;
    }
    for (int64_t k = 0; k < n; k++)
        printf("  coefficient %" PRId64 " from %" PRId64 " to %" PRId64 "\n", k, hb_load_number(sides + 2 * k * HB_NUMBER_BYTES),
               hb_load_number(sides + (2 * k + 1) * HB_NUMBER_BYTES));
}

/* part: further */
/* The sums that were kept, to gather on: the running limit is the limit without what is allowed for. The order of a file of sums is that of samples. */
static void take_up(const struct problem *problem, const struct kept *kept, struct sums *sums)
{
    memcpy(sums->low, problem->low, sizeof sums->low);
    memcpy(sums->high, problem->high, sizeof sums->high);
    memcpy(sums->linear_low, problem->linear_low, sizeof sums->linear_low);
    memcpy(sums->linear_high, problem->linear_high, sizeof sums->linear_high);
    sums->allowance = hb_load_number(kept->allowance);
    hb_store_number(sums->running_limit, hb_load_number(problem->limit) - sums->allowance);
}

/* part: gathered */
/* Stretches of a ride: 24 for a sixteenth of rolling, 36 of climb, 12 of air and 18 of starts, and draws that are off by up to 2 sixteenths */
static const float ride[][ORDER + 1] = {
    {2, 1, 1, 0, 97}, {1, 0, 2, 1, 65}, {3, 0, 1, 0, 85},  {1, 2, 0, 0, 95}, {1, 0, 1, 2, 73},  {2, 0, 3, 0, 84},
    {0, 2, 0, 1, 91}, {1, 1, 1, 1, 89}, {2, 0, 0, 3, 103}, {0, 1, 4, 0, 86}, {4, 0, 1, 0, 107}, {0, 0, 3, 2, 71},
};

#define STRETCHES (sizeof ride / sizeof ride[0])

/* Gathers some of them, and allows for their misses. */
static void gather(struct sums *sums, size_t first, size_t last)
{
    for (size_t k = first; k < last; k++) {
        const float *part = ride[k];
        hb_sample sample = {part[0] / 16, part[1] / 16, part[2] / 16, part[3] / 16, part[4] / 16};
        int64_t answer = hb_gather(sample, ORDER, sums->low, sizeof sums->low, sums->high, sizeof sums->high, sums->linear_low,
                                   sizeof sums->linear_low, sums->linear_high, sizeof sums->linear_high, sums->running_limit,
                                   sizeof sums->running_limit);
        if (answer == HB_TAKEN)
            sums->allowance += 2 * 2;
        else
            print_refusal("hb_gather", answer);
    }
}

/* part: starts */
/* Eight stretches are gathered and kept. After the next start they are read and judged, and four more are gathered and kept. */
int main(int count, char **arguments)
{
    static const int64_t middle[ORDER] = {24, 36, 12, 18};
    uint8_t centre[HB_VECTOR_BYTES(ORDER)];
    struct sums sums = {{0}, {0}, {0}, {0}, {0}, 0};
    struct problem problem;
    struct kept kept;
    for (int k = 0; k < ORDER; k++)
        hb_store_number(centre + HB_NUMBER_BYTES * k, middle[k]);
    gather(&sums, 0, 8);
    if (!keep(&sums, centre, &kept))
        return 1;
    printf("eight stretches, kept in %zu bytes\n", sizeof kept.file);

    printf("the next start\n");
    if (!restore(&kept, &problem))
        return 1;
    judge(&problem);
    take_up(&problem, &kept, &sums);
    gather(&sums, 8, STRETCHES);
    if (!keep(&sums, problem.centre, &kept))
        return 1;
    printf("four more, kept in their place\n");
    if (!restore(&kept, &problem))
        return 1;
    judge(&problem);

    printf("a byte of it damaged\n");
    struct kept damaged = kept;
    damaged.file[100] ^= 1;
    restore(&damaged, &problem);
    printf("a file that was sent without its last byte\n");
    read_file(kept.file, sizeof kept.file - 1, &problem);

    /* For a workshop: the file as it is, which the program "judge" reads */
    if (count > 1) {
        FILE *file = fopen(arguments[1], "wb");
        size_t size = file ? fwrite(kept.file, 1, sizeof kept.file, file) : 0;
        if (!file || fclose(file) != 0 || size != sizeof kept.file) {
            printf("the file is not written\n");
            return 1;
        }
    }
    return 0;
}
