/*
 * Gathers floats of every exponent in each rounding mode of the processor. The answer and all sums are compared with those of rounding to nearest, and the
 * flags that a product which loses something would raise have to be clear. In every mode the ends of factor and draw are compared with the whole numbers next
 * below and above 16 times the float, which a double holds exactly. The last line printed is 'N passed, M failed'.
 */
#include "hankboulder.h"

#include <fenv.h>
#include <stdio.h>
#include <string.h>

#define ORDER HB_SAMPLE_ORDER
#define DIGITS 0x7FFFFFu
#define DRAWN 40

/* Running sums, where the processor stores the low byte first */
struct sums {
    int64_t low[ORDER * ORDER], high[ORDER * ORDER], linear_low[ORDER], linear_high[ORDER], running_limit;
};

static int passed, failed;

static void expect(const char *what, int good)
{
    if (!good)
        printf("%s: no\n", what);
    passed += good;
    failed += !good;
}

/* The answer and the sums for a float as the first factor and the draw, in a rounding mode. Its flags are left. */
static int64_t gather(uint32_t bits, int mode, struct sums *sums)
{
    hb_sample sample = {0, 0.0625f, 0, 0, 0};
    int64_t answer;
    memcpy(&sample.rolling, &bits, sizeof bits);
    memcpy(&sample.draw, &bits, sizeof bits);
    memset(sums, 0, sizeof *sums);
    fesetround(mode);
    feclearexcept(FE_ALL_EXCEPT);
    answer = hb_gather(sample, ORDER, (uint8_t *)sums->low, sizeof sums->low, (uint8_t *)sums->high, sizeof sums->high,
                       (uint8_t *)sums->linear_low, sizeof sums->linear_low, (uint8_t *)sums->linear_high, sizeof sums->linear_high,
                       (uint8_t *)&sums->running_limit, sizeof sums->running_limit);
    return answer;
}

/* Whether the ends of a float that was taken, as the first factor and as the draw, stand in the sums. The second factor is 1 in them. */
static int bracketed(uint32_t bits, const struct sums *sums)
{
    float number;
    memcpy(&number, &bits, sizeof bits);
    double product = 16.0 * (double)number;
    int64_t toward_zero = (int64_t)product;
    int64_t below = toward_zero - ((double)toward_zero > product), above = toward_zero + ((double)toward_zero < product);
    return sums->low[1] == below && sums->high[1] == above && sums->linear_low[1] == -above && sums->linear_high[1] == -below;
}

int main(void)
{
    static const int modes[] = {FE_TONEAREST, FE_DOWNWARD, FE_UPWARD, FE_TOWARDZERO};
    uint32_t state = 1;
    long taken = 0, differing = 0, raised = 0, elsewhere = 0;
    for (uint32_t head = 0; head < 512; head++) {
        for (int k = 0; k < DRAWN; k++) {
            struct sums nearest, other;
            state = state * 1664525u + 1013904223u;
            uint32_t digits = k == 0 ? 0 : k == 1 ? 1 : k == 2 ? DIGITS : state >> 9;
            int64_t answer = gather(head << 23 | digits, FE_TONEAREST, &nearest);
            taken += answer == HB_TAKEN;
            for (size_t m = 0; m < sizeof modes / sizeof modes[0]; m++) {
                differing += gather(head << 23 | digits, modes[m], &other) != answer || memcmp(&nearest, &other, sizeof other) != 0;
                raised += fetestexcept(FE_INEXACT | FE_OVERFLOW | FE_UNDERFLOW) != 0;
                elsewhere += answer == HB_TAKEN && !bracketed(head << 23 | digits, &other);
            }
        }
    }
    fesetround(FE_TONEAREST);
    expect("half of the floats are taken", taken > 200 * DRAWN && taken < 300 * DRAWN);
    expect("the sums are the same in each mode", differing == 0);
    expect("no product loses anything", raised == 0);
    expect("the ends are the whole numbers next to 16 times the float", elsewhere == 0);
    printf("%d passed, %d failed\n", passed, failed);
    return failed != 0;
}
