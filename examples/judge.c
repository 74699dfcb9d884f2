/*
 * Judges five problems and prints each verdict with what was written: the rows of the factor and what the rows of its residual have over,
 * or the witness vector.
 */
#include <inttypes.h>
#include <stdio.h>

#include "hankboulder.h"

static void print_line(const char *word, const int64_t *numbers, int64_t count)
{
    printf("%s", word);
    for (int64_t i = 0; i < count; i++) {
        printf(" %" PRId64, numbers[i]);
    }
    printf("\n");
}

/* The bounds low and high of order n, row by row. This example is for processors that store the low byte first. */
static void judge(int64_t n, const int64_t *low, const int64_t *high)
{
    int64_t factor[HB_MAX_ORDER * HB_MAX_ORDER], vector[HB_MAX_ORDER], over;
    int64_t verdict = hb_judge(n, (const uint8_t *)low, HB_TABLE_BYTES(n), (const uint8_t *)high, HB_TABLE_BYTES(n), (uint8_t *)factor,
                               HB_TABLE_BYTES(n), (uint8_t *)vector, HB_VECTOR_BYTES(n), (uint8_t *)&over, HB_OVER_BYTES);

    print_line("low", low, n * n);
    print_line("high", high, n * n);
    switch (verdict) {
    case HB_DEFINITE:
        printf("definite\n");
        for (int64_t i = 0; i < n; i++) {
            print_line("row", factor + i * n, n);
        }
        print_line("over", &over, 1);
        break;
    case HB_NOT_DEFINITE:
        printf("not\n");
        print_line("vector", vector, n);
        break;
    case HB_UNDECIDED:
        printf("undecided\n");
        break;
    default:
        printf("refused %" PRId64 "\n", verdict);
    }
    printf("\n");
}

int main(void)
{
    const int64_t round_low[4] = {2, 1, 1, 2}, round_high[4] = {3, 1, 1, 3};
    const int64_t saddle[4] = {1, 1000, 1000, 10000};
    const int64_t thin[4] = {1, 3, 3, 10};
    /* The halves were rounded apart: of each pair the greater low and the smaller high apply, so this is the first problem again. */
    const int64_t apart_low[4] = {2, 0, 1, 2}, apart_high[4] = {3, 1, 2, 3};
    /* A pair that leaves no number: 2 and 3 for one entry */
    const int64_t lopsided[4] = {1, 2, 3, 4};

    judge(2, round_low, round_high);
    judge(2, saddle, saddle);
    judge(2, thin, thin);
    judge(2, apart_low, apart_high);
    judge(2, lopsided, lopsided);
    return 0;
}
