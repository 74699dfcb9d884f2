/* A matrix judged and an ellipsoid boxed, where the processor stores the low byte first. Tables are row by row. */
#include <inttypes.h>
#include <stdio.h>

#include "hankboulder.h"

int main(void)
{
    const int64_t low[4] = {2, 1, 1, 2}, high[4] = {3, 1, 1, 3};
    int64_t factor[4], vector[2], over; /* factor and over are written, or vector, or nothing */
    int64_t verdict = hb_judge(2, (const uint8_t *)low, sizeof low, (const uint8_t *)high, sizeof high, (uint8_t *)factor, sizeof factor,
                               (uint8_t *)vector, sizeof vector, (uint8_t *)&over, sizeof over);
    if (verdict == HB_DEFINITE) {
        printf("every matrix from low to high is positive definite: factor %" PRId64 " %" PRId64 " / %" PRId64 " %" PRId64 "\n",
               factor[0], factor[1], factor[2], factor[3]);
        printf("2^32 x'Mx is at least %" PRId64 " x'x, for each of these matrices M and every x\n", over);
    }

    /* 4x^2 + 2ax <= 0 for some a from -8 to -4: x is from 0 to 4 */
    const int64_t matrix[1] = {4}, linear_low[1] = {-8}, linear_high[1] = {-4}, limit = 0, centre[1] = {2};
    int64_t sides[2];
    int64_t answer = hb_box(1, (const uint8_t *)matrix, sizeof matrix, (const uint8_t *)matrix, sizeof matrix,
                            (const uint8_t *)linear_low, sizeof linear_low, (const uint8_t *)linear_high, sizeof linear_high, limit,
                            (const uint8_t *)centre, sizeof centre, (uint8_t *)sides, sizeof sides);
    if (answer == HB_BOX)
        printf("every x of the ellipsoid is from %" PRId64 " to %" PRId64 "\n", sides[0], sides[1]);
    return 0;
}
