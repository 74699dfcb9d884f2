/* The least program that the library can be linked into, without a C library: bench/size compares its size with and without each entry. */
#include <stddef.h>

void *memcpy(void *restrict to, const void *restrict from, size_t count)
{
    unsigned char *target = to;
    const unsigned char *source = from;
    while (count-- > 0)
        *target++ = *source++;
    return to;
}

void *memset(void *to, int byte, size_t count)
{
    unsigned char *target = to;
    while (count-- > 0)
        *target++ = (unsigned char)byte;
    return to;
}

/* Where the program would begin. It is linked and never run. */
void start(void);

void start(void)
{
}
