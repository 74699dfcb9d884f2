/* Seeded calls of the acts with the second implementation's answers, and its brackets of floats: the C side of src/lib.rs. */
#ifndef LOAD_H
#define LOAD_H

#include <stddef.h>
#include <stdint.h>

enum {
    LOAD_JUDGE,
    LOAD_TEST_FACTOR,
    LOAD_TEST_VECTOR,
    LOAD_BOX,
    LOAD_STIFFNESS,
    LOAD_GATHER,
    LOAD_POOL,
    LOAD_READ_SUMS,
    LOAD_WRITE_SUMMARY,
    LOAD_READ_SUMMARY,
    LOAD_BUS_WRITE,
    LOAD_BUS_TICK,
    LOAD_BUS_READ,
    LOAD_BUS_LINE,
    LOAD_ACTS
};

/* The most buffers that an act has. */
#define LOAD_MOST 11

/* A buffer: its bytes before the call and those expected after it. Both pointers are good if the length is 0 too, but have nothing to read. */
struct load_buffer {
    const uint8_t *before, *after;
    size_t length;
};

/*
 * A call: the act, its numbers, the answer expected, the bits of a sample's floats in their order, how many of its buffers are read (the
 * first ones), from which one on these are only read, and its buffers in the entry's order. What an act does not take is 0, but n of a
 * summary that is read is the order that the file begins with, and of the bus the order in its block, or for a tick that in its run area.
 */
struct load_call {
    int64_t act, n, limit, running_limit, allowance, address, answer;
    uint8_t value;
    uint32_t sample[5];
    size_t read, only_read_from, count;
    struct load_buffer buffers[LOAD_MOST];
};

/* The calls of a seed. A call depends on the seed and its number alone. Each thread has a source of its own. */
struct load_source;
struct load_source *load_open(uint64_t seed);
void load_call(struct load_source *source, uint64_t number, struct load_call *call);
void load_close(struct load_source *source);

/* The whole numbers next below and above 16 times the float with these bits. 0 where the float is refused. */
int load_bracket(uint32_t bits, int64_t *low, int64_t *high);

#endif
