/* The second implementation's output for a summary file, its bracket, its pools, its bus, and new files: the C side of src/lib.rs. */
#ifndef FUZZ_H
#define FUZZ_H

#include <stddef.h>
#include <stdint.h>

/* Writes what the program has to print for a file; its length. */
size_t fuzz_expected(const uint8_t *file, size_t size, uint8_t *text, size_t room);
/* Reads a file into the seven buffers of hb_read_summary, which have their sizes, one behind the other; the answer. */
int64_t fuzz_read(const uint8_t *file, size_t size, uint8_t *problem);
/* Writes the file of the problem that a file is read as; its length, 0 where the file is refused. */
size_t fuzz_again(const uint8_t *file, size_t size, uint8_t *again, size_t room);
/* Writes the bracket of a problem into the three buffers of hb_stiffness, which have their sizes, one behind the other; the answer. */
int64_t fuzz_bracket(int64_t n, const uint8_t *low, const uint8_t *high, uint8_t *bracket);
/*
 * Pools a problem of order 1 to 8, as often as there are orders, into the five sums of hb_pool, which have their sizes, one behind the
 * other; the answer. The problem is its two tables, its two ends and its limit, one behind the other, too.
 */
int64_t fuzz_pool(int64_t n, uint8_t *sums, const uint8_t *problem, const uint8_t *orders, size_t count);
/* The second implementation's hb_bus_write, hb_bus_tick, hb_bus_read and hb_bus_line. */
int64_t fuzz_bus_write(uint8_t *block, size_t block_len, uint8_t *run, size_t run_len, int64_t address, uint8_t value, const uint8_t *low,
                       size_t low_len, const uint8_t *high, size_t high_len);
int64_t fuzz_bus_tick(uint8_t *block, size_t block_len, uint8_t *run, size_t run_len);
int64_t fuzz_bus_read(const uint8_t *block, size_t block_len, int64_t address, uint8_t *value, size_t value_len);
int64_t fuzz_bus_line(const uint8_t *block, size_t block_len);
/* Puts right what refuses a file; its new length, the old where it has no room. */
size_t fuzz_repair(uint8_t *file, size_t size, size_t room);
/* Writes a generated file; its length, 0 where it has no room. */
size_t fuzz_generate(uint32_t seed, uint8_t *file, size_t room);

#endif
