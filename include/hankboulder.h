/*
 * hankboulder: the matrix judge of the range display, for C99, C11 and C++.
 * Link with libhankboulder.a. This header says all that a caller has to know; docs/FIRMWARE.md has an example, part by part.
 *
 * NUMBERS AND TABLES
 *
 * A problem has an order n, from 1 to HB_MAX_ORDER, and two n by n tables, low and high: the bounds of a symmetric matrix, entry by entry.
 * Their upper and lower halves may differ: see HALVES ROUNDED APART. The problem of an ellipsoid has a low and a high end of n linear
 * terms, a limit and a centre of n entries besides. The judge can be called, or driven step by step: see THE DISPLAY BUS.
 *
 * Running sums, which samples of rides are gathered into and problems are pooled into, have the same two tables and the same two ends of
 * linear terms, and a running limit in place of the limit. "Limit" is always that of an ellipsoid, and "running limit" always the sum;
 * hb_read_sums makes the first of the second, and one in place of the other is never what is wanted, though it compiles. Sums begin with all
 * bytes 0.
 *
 * In a buffer each number is HB_NUMBER_BYTES = 8 bytes: signed, two's complement, low byte first, whatever the processor's own byte order is. A table or
 * a factor has n * n numbers, row by row (the entry of row i and column j, counted from 0, starts at byte 8 * (i * n + j)), so it is HB_TABLE_BYTES(n)
 * bytes long. A vector, an end of the linear terms and a centre have n, and are HB_VECTOR_BYTES(n) bytes long. The sides of a box have
 * 2 * n (the low and the high of side 0, those of side 1, and so on), and are HB_SIDES_BYTES(n) bytes long. A running limit that is lent, a
 * limit that is written and an order that is written are HB_NUMBER_BYTES long; what the rows have over, one number too, is HB_OVER_BYTES
 * long, and step and bound of the stiffness, one number each, HB_STEP_BYTES and HB_BOUND_BYTES.
 *
 * The problems of a pool are handed over in lists: all low tables one behind the other, all high ones, and so on. Of m problems of order n a
 * list of tables is HB_TABLES_BYTES(n, m) bytes long, a list of ends of the linear terms HB_VECTORS_BYTES(n, m), and a list of one number for
 * each problem HB_NUMBERS_BYTES(m). What belongs to problem k, counted from 0, starts at byte HB_TABLES_BYTES(n, k), HB_VECTORS_BYTES(n, k)
 * and HB_NUMBERS_BYTES(k).
 *
 * hb_load_number and hb_store_number, below, read and store one number on any processor. Where the processor stores the low byte first, an
 * array of int64_t has this form already and is passed as it is:
 *
 *     int64_t low[4] = {2, 1, 1, 2};
 *     ... (const uint8_t *)low, sizeof low ...
 *
 * HALVES ROUNDED APART
 *
 * The entries (i,j) and (j,i) of a table are a pair, and (i,i) is one by itself. The matrix is symmetric, so that a pair bounds one number.
 * A hub that rounds each entry by itself hands over tables whose upper and lower halves differ. Both bounds of a pair apply then, in both
 * places: before anything is worked out, the tables are mended.
 *
 *     low(i,j) and low(j,i) become the greater of the two
 *     high(i,j) and high(j,i) become the smaller of the two
 *
 * For example low = 2 0 / 1 2 and high = 3 1 / 2 3, row by row, are read as low = 2 1 / 1 2 and high = 3 1 / 1 3.
 *
 * - Every function does so. Its answer, what it writes, and every refusal after HB_REFUSED_CROSSED are those of the mended tables. Where a
 *   comment below works something out from low and high, these are the mended ones.
 * - Nothing is lost: the symmetric matrices from low to high are the same before and after. Symmetric tables stay as they are.
 * - HB_REFUSED_RANGE and HB_REFUSED_CROSSED look at low and high as they are handed over, each entry in its own place. After these,
 *   HB_REFUSED_LOPSIDED refuses a pair that leaves no number: low(i,j) is above high(j,i) for some i and j, so that the greater low is
 *   above the smaller high. Halves that differ are not refused for that.
 * - A table that is lent for reading, so const, is never written: it stays as it was handed over. Only hb_gather, hb_pool and
 *   hb_read_summary write low and high, and what they write there is symmetric.
 * - Where low and high are the same table its halves have to agree: two numbers for one entry leave none.
 *
 * SUMS THAT ARE HALVED
 *
 * hb_gather adds a sample to running sums, and hb_pool one problem after the other. Where a sum with it would be beyond its range, all sums
 * are halved first, once, and it is added to the halves:
 *
 *     low(i,j) and linear_low(i) become a half of what they were, rounded down
 *     high(i,j), linear_high(i) and the running limit become a half of what they were, rounded up
 *
 * Down is toward minus infinity and up toward plus infinity: -3 becomes -2 where it is rounded down, and -1 where it is rounded up. The
 * sample, or the problem, is added as it is and never halved. Where no sum would be beyond its range, nothing is halved.
 *
 * - No point is lost. Take any K that is 0 or more. Every x that the sums allowed with the allowance K before they were halved, so that
 *   x'Mx + 2a'x <= K + running limit for some symmetric matrix M from low to high and some a from linear_low to linear_high, is one that
 *   they allow with K after it. Halved sums may allow more.
 * - Old rides fade. What was in the sums before a halving counts half as much after it, beside what is added then: after h halvings it
 *   counts 1 / 2^h. The limits of pooled problems, with what is allowed for in them, are in the running limit and fade with it.
 * - K is no sum and is not halved: what was enough before is enough after.
 * - Where the halves have no room either, the answer is HB_REFUSED_FULL, and nothing is written. hb_gather never gives it: half of a range
 *   and what a sample adds are together inside the range. Nor does hb_pool where each problem has entries within +-2^19, linear terms within
 *   +-2^35 and a limit within +-2^53, half of each range.
 * - No answer says whether a call has halved the sums, and nothing has to be done about it. Never halve sums, or average two sets of
 *   sums, yourself.
 *
 * Proved are the first of these points, and that hb_gather never answers HB_REFUSED_FULL. The rest follows from the rules.
 *
 * WHAT THE ROWS HAVE OVER
 *
 * hb_test_factor works out the residual of a Cholesky factor R and asks for a left side at least as great as a right side, row by row: its
 * comment has both. What a row has over is its left side less its right side, and what the rows have over is the least of these over all
 * rows: one signed number v, below 2^60 in magnitude. The factor is accepted exactly if v is 0 or more. hb_test_factor and hb_judge write v
 * to the buffer over, HB_OVER_BYTES = 8 bytes, and hb_load_number(over) reads it.
 *
 * Whatever factor R is offered and whichever sign v has,
 *
 *     2^32 * x'Mx  >=  v * x'x + |Rx|^2
 *
 * for every symmetric matrix M from low to high and every x of n fractions, where |Rx|^2 is the sum of the squares of the entries of Rx. So
 * v / 2^32 is a lower bound of the stiffness of every such M, which is the least x'Mx over all x with x'x = 1, its smallest eigenvalue (the
 * step from fractions to all x is by continuity): in no direction is M flatter than that. It is a lower bound and not the stiffness itself,
 * and another factor may give a greater one. A bound below 0 does not say that M is definite, nor that it is not. To have the bound as a
 * whole number, round v / 2^32 down: C's quotient of a negative number is rounded up.
 *
 * The factor that hb_judge writes has a v of 0 or more. By the rules it is from 2^26 to 2^29 + 2^27, and near 2^29 where entries are small,
 * whether the matrices are stiff or not. That is not proved: docs/FIRMWARE.md says why it is so, and how a factor with a greater v is found.
 *
 * THE BRACKET OF THE STIFFNESS
 *
 * hb_stiffness says between which two whole numbers the least stiffness lies that a symmetric matrix from low to high has: the step t from
 * below and the bound v from above. It writes t to the buffer step, HB_STEP_BYTES = 8 bytes, v to the buffer bound, HB_BOUND_BYTES = 8
 * bytes, and to the buffer vector a vector x with entries 0, 1 and -1, not all zero, that goes with v. This v is no number over.
 *
 *     x'Mx >  t * x'x    for every symmetric matrix M from low to high and every x of n fractions but 0
 *     x'Mx <= v * x'x    for some symmetric matrix M from low to high, and the x that is written
 *
 * So every such M has a stiffness of t or more, and one of them has a stiffness of v or less: the least stiffness is from t to v. In the
 * direction x one of them is no stiffer than v.
 *
 * Both lines are proved of x of fractions, and that t is 0 or more and below v, and that no vector with entries 0, 1 and -1 shows v - 1.
 * What is said below of the range of v, and of the other functions beside this one, follows from the rules: it is run, and no theorem says
 * it.
 *
 * - t is given, with the answer HB_BETWEEN, exactly if hb_judge says HB_DEFINITE. It is 0 or more then, and t < v. It is the t that hb_box
 *   works with, so that hb_box, where nothing before it refuses, answers HB_REFUSED_FLAT of these bounds exactly if t is 0.
 * - v is given with HB_BETWEEN and with HB_AT_MOST. It is from -n * 2^20 to 2^20, and no more than any low(i,i). No smaller whole number is
 *   shown by any vector with entries 0, 1 and -1, and x is the first of them, in a fixed order, that shows v. A vector with other entries
 *   may show a smaller one.
 * - Where v is 0 or less, not every matrix from low to high is positive definite: hb_judge says HB_NOT_DEFINITE, perhaps with another
 *   vector. x is a witness vector then: hb_test_vector says HB_YES of it, and of the x that goes with a v of 1 or more it says HB_NO.
 * - HB_AT_MOST with a v of 1 or more says neither that all these matrices are positive definite nor that one is not: hb_judge says
 *   HB_UNDECIDED of them, or HB_NOT_DEFINITE with a vector that has other entries too.
 *
 * THE DISPLAY BUS
 *
 * The judge can be driven as a peripheral is, by registers, ticks and an interrupt line: a start takes the tables, each tick does a bounded
 * part of the work, and nothing ever waits. A bus is two buffers of the caller's: a block of 32 registers, a byte each, HB_BLOCK_BYTES = 32
 * bytes, and a run area, HB_RUN_BYTES = 1560 bytes, where the library keeps a judgement that is under way, its run. Both with all bytes 0
 * are a bus that was reset: that is how one begins. A unit may have several.
 *
 *     address  register        what it holds                                      what a write to it does
 *     0        HB_BUS_COMMAND  nothing: it reads as 0                             HB_BUS_START = 1 starts, HB_BUS_RESET = 2 resets
 *     1        HB_BUS_STATUS   bits HB_BUS_BUSY, HB_BUS_DONE, HB_BUS_REFUSED      nothing
 *     2        HB_BUS_REFUSAL  which of the judge's checks refused, 1 to 5, or 0  nothing
 *     3        HB_BUS_VERDICT  the verdict, 1 to 3, or 0 where there is none      nothing
 *     4        HB_BUS_MASK     the interrupt mask, a bit for each of the status   bits 0 to 2 become those of the value
 *     5        HB_BUS_FLAGS    the interrupt flags, a bit for each of the status  clears those of bits 0 to 2 that are one in the value
 *     6        HB_BUS_ORDER    n of the next start                                it becomes the value
 *     7 to 31  none            nothing: they read as 0                            nothing
 *
 * - Status. HB_BUS_BUSY = 1: a run is under way. HB_BUS_DONE = 2: it has ended, and the verdict is there. HB_BUS_REFUSED = 4: the last
 *   start was refused by the judge's checks, and HB_BUS_REFUSAL says by which. After a reset none of them is up, and from the first start
 *   on exactly one.
 * - Start. The value HB_BUS_START, written to HB_BUS_COMMAND, comes with the two tables. While busy it is answered by HB_REFUSED_BUSY, and
 *   nothing moves: the run goes on. Otherwise status, refusal number and verdict become 0, and then the checks of hb_judge are made, 1 to
 *   5, with n = HB_BUS_ORDER. Where one of them fails, HB_BUS_REFUSED rises, and HB_BUS_REFUSAL has its number: the write itself is
 *   answered by HB_TAKEN. Where all pass, HB_BUS_BUSY rises, and the run area has n and the mended tables: the caller's tables are not
 *   looked at again, and a write to HB_BUS_ORDER has no effect on the run.
 * - Tick. Tick k after a start works out column k of the Cholesky factor. Where column n is done, tick n gives 'definite'. Where factoring
 *   stops in column j, from 1 to n, tick j sees the stop, and tick j + 1 searches the vectors and gives 'not definite' or 'undecided'. So a
 *   run ends after at most HB_BUS_MOST_TICKS(n) = n + 1 ticks. With the verdict, and not before, HB_BUS_BUSY goes down, HB_BUS_DONE rises,
 *   and the run area becomes all zeros. A tick without a run does nothing, so that a timer may tick always.
 * - Verdict. HB_BUS_DEFINITE = 1, HB_BUS_NOT_DEFINITE = 2 or HB_BUS_UNDECIDED = 3: what hb_judge says of the order and the tables as they
 *   were at the start, and 1 - its answer as a number. It stands until the next start that is not answered by HB_REFUSED_BUSY, or reset.
 *   Factor, vector and number over are not given: where they are wanted, hb_judge gives them.
 * - Flags, mask and line. Where a bit of the status rises, from 0 to 1, the same bit of HB_BUS_FLAGS becomes one. There it stays until a
 *   one is written to it, or a reset. A start that clears HB_BUS_REFUSED and is refused again raises it again. The line, hb_bus_line, is
 *   raised exactly while flags and mask have a bit in common. A handler reads the flags and writes back what it has read: so it clears what
 *   it has seen, and nothing that rose since. Flags and mask are kept by a start: a done flag that was not cleared before it is still up
 *   during the new run, where the verdict is 0. Clear the flags before a start, or look at the status too.
 * - Reset. The value HB_BUS_RESET, written to HB_BUS_COMMAND, makes all bytes of block and run area 0, while busy too: the mask also.
 *
 * Registers 1 to 6 are the bytes 1 to 6 of the block, as they lie: what puts them on a wire may read them there between calls. During a
 * write or a tick the bytes may be seen half changed.
 *
 * Leave it to the four functions to write block and run area. They take any bytes at all, with no harm: what of a run area is not one that
 * a tick can go on with counts as no run. But what is said here of ticks and verdicts is said of runs that a start began. A block that the
 * functions did not write may be busy with no run, so that ticks do nothing and each start is answered by 20, or may have bits 3 to 7 up
 * in flags and mask, which hold the line up. Only a reset ends that. Reset at power-up, and whenever a run is not done after
 * HB_BUS_MOST_TICKS(n) ticks.
 *
 * hb_bus_write and hb_bus_tick write to the bus, so nothing else may be called for the same bus meanwhile: where a timer's handler ticks,
 * the main program calls with that interrupt off. Calls for different buses may run at once.
 *
 * Proved: of a start that is not refused, and whatever writes, ticks, reads and looks at the line come after it but a reset, that the bus
 * is busy alone, with verdict and refusal number 0, until the tick that is said above, and done alone with it, with the verdict that
 * hb_judge gives; and that the line is raised exactly while flags and mask have a bit in common, after any calls.
 *
 * SUMMARY FILES
 *
 * A summary file holds one problem of an ellipsoid, centre included, in a form of its own: seven fields one after the other, each a tag of one byte, a
 * length of two bytes, low byte first, and so many bytes of content. The tags rise:
 *
 *     01  the order n, one byte                               1 byte
 *     02  low, row by row, 4 bytes to an entry                4 * n * n bytes
 *     03  high, the same                                      4 * n * n bytes
 *     04  linear_low, 8 bytes to a term                       8 * n bytes
 *     05  the limit                                           8 bytes
 *     06  the centre, 8 bytes to an entry                     8 * n bytes
 *     07  linear_high, 8 bytes to a term                      8 * n bytes
 *
 * Numbers are signed, low byte first, but for n. A file has HB_SUMMARY_BYTES(n) bytes, the same on any processor: it can be kept, sent and
 * compared.
 *
 * hb_write_summary writes the file of the mended problem: each problem has exactly one. hb_read_summary, like the program "judge", takes
 * this file, and takes one whose tables have halves that differ as its mended problem. So a file that is read and then written has the
 * bytes that it had exactly if its tables are symmetric. Of every other file the one of its mended problem is written, which has the same
 * size and is read as the same problem.
 *
 * WHAT HOLDS FOR EVERY FUNCTION
 *
 * - Every call returns, with one of the numbers that the function's comment lists. Any contents, any lengths and any n are answered: what is wrong with
 *   them is named by a refusal.
 * - Lengths are in bytes. A pointer must point to as many readable bytes as its length says, and writable ones where it is not const. It may be null
 *   where the length is 0: that is an empty buffer, and is refused by HB_REFUSED_LENGTH if n is good and no earlier check fails (in
 *   hb_read_summary an empty file by HB_REFUSED_ABSENT). The tables of hb_bus_write are an exception: only a start looks at them, and where
 *   their lengths are wrong it is answered by HB_TAKEN, and the refusal is in register 2, HB_BUS_REFUSAL.
 * - Pointers need no alignment.
 * - The buffers of one call must not overlap: nothing is promised where they do. There are two exceptions, both of buffers that are only
 *   read, so const: low and high may be the same table, and linear_low and linear_high the same buffer; in hb_pool, which writes its sums,
 *   these are lows and highs, and linear_lows and linear_highs. hb_gather and hb_read_summary write all of them, and have no exception.
 * - A const buffer is only read. A buffer that is not const is written whole, or kept as it was: each function says when. Of block and run
 *   area of a bus the functions say what changes in them. A refused call writes nothing at all. Nothing is ever written outside of a
 *   buffer.
 * - No memory is allocated, nothing is kept between calls but in the caller's block and run area, no lock is held, and the archive has no
 *   variables. So the functions are reentrant: they may be called from several threads or interrupt handlers at once, if each has the stack
 *   for it, as long as no one else writes to a buffer, or reads one that is not const, during a call that has it.
 * - Nothing outside of the archive is called but memcpy and memset, of the C library or your own.
 * - No floating point is used, but for the sample of hb_gather: its five numbers are compared and multiplied by 16, as floats of 32 bits. Nothing is
 *   lost in that, whatever the rounding mode is, if the floating-point unit is otherwise as at a program's start: subnormal numbers are kept (on
 *   x86-64 the bits FTZ and DAZ of MXCSR are clear: beware of -ffast-math, which sets them) and exceptions are masked.
 * - The compiler uses vector registers (on x86-64 the xmm registers) for copies and whole numbers too, as it may in any C code: an interrupt handler
 *   that calls a function has to save them.
 *
 * What these comments say of answers and buffers is proved of the library's source. The stack is measured and not proved. The two inline functions are
 * plain C: tested, not proved.
 */
#ifndef HANKBOULDER_H
#define HANKBOULDER_H

#include <stddef.h>
#include <stdint.h>

#ifdef __cplusplus
extern "C" {
#endif

/*
 * The version of this header and of the archive that it is installed with, as numbers and as a string. It is said here alone: the file for
 * pkg-config has it from here. Since 0.2 hb_box has two parameters more, which a linker does not see: header and archive have to be of one
 * version. Since 0.3 there are hb_gather and hb_read_sums, and a summary file has its tags rising (19). Since 0.4 there are hb_write_summary and
 * hb_read_summary. Since 0.5 the halves of low and high may differ, and HB_REFUSED_LOPSIDED refuses only a pair that leaves no number: what
 * 0.4 answers by any number but 5 is answered as before. Since 0.6 hb_judge and hb_test_factor have two parameters more, the buffer over and
 * its length, which again a linker does not see; all that they answered and wrote before they answer and write as they did. Since 0.7 there
 * is hb_stiffness, and nothing else is changed. Since 0.8 there is hb_pool, and hb_gather halves the sums and takes the sample where it
 * answered HB_REFUSED_FULL before; all else that it answered and wrote it answers and writes as it did. Since 0.9 there are hb_bus_write,
 * hb_bus_tick, hb_bus_read and hb_bus_line, and nothing else is changed.
 */
#define HB_VERSION_MAJOR 0
#define HB_VERSION_MINOR 9
#define HB_VERSION_PATCH 0
#define HB_VERSION_STRING HB_VERSION_JOINED(HB_VERSION_MAJOR, HB_VERSION_MINOR, HB_VERSION_PATCH)
#define HB_VERSION_JOINED(major, minor, patch) HB_VERSION_QUOTED(major) "." HB_VERSION_QUOTED(minor) "." HB_VERSION_QUOTED(patch)
#define HB_VERSION_QUOTED(number) #number

/* The greatest order, that of sums which samples are gathered into, and the most problems of a pool. */
#define HB_MAX_ORDER 8
#define HB_SAMPLE_ORDER 4
#define HB_GREATEST_POOL 64

/*
 * Bytes of a number; of what the rows have over, and of step and bound of the stiffness, at any order; and of order n: of a table or
 * factor; of a vector, of one end of the linear terms or of a centre; of the sides of a box. Of m problems: of a list of numbers, one for
 * each; and of order n: of a list of tables; of a list of ends of the linear terms.
 */
#define HB_NUMBER_BYTES 8
#define HB_OVER_BYTES HB_NUMBER_BYTES
#define HB_STEP_BYTES HB_NUMBER_BYTES
#define HB_BOUND_BYTES HB_NUMBER_BYTES
#define HB_TABLE_BYTES(n) ((size_t)HB_NUMBER_BYTES * (size_t)(n) * (size_t)(n))
#define HB_VECTOR_BYTES(n) ((size_t)HB_NUMBER_BYTES * (size_t)(n))
#define HB_SIDES_BYTES(n) ((size_t)2 * HB_NUMBER_BYTES * (size_t)(n))
#define HB_NUMBERS_BYTES(m) ((size_t)HB_NUMBER_BYTES * (size_t)(m))
#define HB_TABLES_BYTES(n, m) (HB_TABLE_BYTES(n) * (size_t)(m))
#define HB_VECTORS_BYTES(n, m) (HB_VECTOR_BYTES(n) * (size_t)(m))

/*
 * Bytes of the summary file of a problem of order n: 62, 110, 174, 254, 350, 462, 590 and 734 for n = 1 to 8. No file of another size is read. So
 * HB_SUMMARY_BYTES(HB_MAX_ORDER) = 734 bytes have room for any, and HB_TABLE_BYTES(HB_MAX_ORDER) = 512 and HB_VECTOR_BYTES(HB_MAX_ORDER) = 64 bytes
 * for the tables and vectors of any: hb_read_summary asks for exactly these.
 */
#define HB_SUMMARY_BYTES(n) ((size_t)30 + (size_t)8 * (size_t)(n) * (size_t)(n) + (size_t)24 * (size_t)(n))

/*
 * Bytes of a bus: of its block of registers, of its run area, which has three numbers and three tables of the greatest order, and of the
 * value of a register that is read. The most ticks from a start of order n to its verdict.
 */
#define HB_BLOCK_BYTES 32
#define HB_RUN_BYTES (HB_NUMBER_BYTES * (3 + 3 * HB_MAX_ORDER * HB_MAX_ORDER))
#define HB_VALUE_BYTES 1
#define HB_BUS_MOST_TICKS(n) ((n) + 1)

/*
 * The greatest magnitude of an entry of low and high, 2^20, of a factor, 2^26, of a vector, 2^15, of a linear term, 2^36, of a limit and of a running
 * limit, 2^54, of an entry of a centre, 2^12, and of a sample's number, 8. Both ends of a range belong to it. An allowance is from 0 to 2^40.
 */
#define HB_ENTRY_RANGE 1048576L
#define HB_FACTOR_RANGE 67108864L
#define HB_VECTOR_RANGE 32768L
#define HB_LINEAR_RANGE 68719476736LL
#define HB_LIMIT_RANGE 18014398509481984LL
#define HB_CENTRE_RANGE 4096L
#define HB_SAMPLE_RANGE 8
#define HB_MAX_ALLOWANCE 1099511627776LL

/*
 * The stack that a call needs, in bytes, at any order, its arguments and return address included. Measured and not proved: bench/stack
 * painted the stack below 2000 calls or more of each function at each order, and what was overwritten is rounded up by a quarter or more
 * (docs/FIRMWARE.md has the figures). That is the archive which rattle-kit-13f compiles with LLVM 22 for x86-64, with memcpy and memset of
 * glibc 2.36: with any other compiler or processor, measure again. hb_gather takes order 4 alone, so its depth is that of its calls of
 * order 4. What an interrupt puts on the same stack comes on top.
 */
#define HB_JUDGE_STACK 8192
#define HB_TEST_FACTOR_STACK 4096
#define HB_TEST_VECTOR_STACK 4096
#define HB_BOX_STACK 8192
#define HB_STIFFNESS_STACK 8192
#define HB_GATHER_STACK 4096
#define HB_POOL_STACK 8192
#define HB_READ_SUMS_STACK 4096
#define HB_WRITE_SUMMARY_STACK 8192
#define HB_READ_SUMMARY_STACK 8192
#define HB_BUS_WRITE_STACK 4096
#define HB_BUS_TICK_STACK 8192
#define HB_BUS_READ_STACK 256
#define HB_BUS_LINE_STACK 256

/* The registers of a bus, by address. Addresses 7 to 31 have none. */
enum {
    HB_BUS_COMMAND = 0,
    HB_BUS_STATUS = 1,
    HB_BUS_REFUSAL = 2,
    HB_BUS_VERDICT = 3,
    HB_BUS_MASK = 4,
    HB_BUS_FLAGS = 5,
    HB_BUS_ORDER = 6
};

/* The commands: values that are written to HB_BUS_COMMAND. Any other value does nothing there. */
enum {
    HB_BUS_START = 1,
    HB_BUS_RESET = 2
};

/* The bits of HB_BUS_STATUS, and of HB_BUS_MASK and HB_BUS_FLAGS: bit 0, bit 1 and bit 2 */
enum {
    HB_BUS_BUSY = 1,
    HB_BUS_DONE = 2,
    HB_BUS_REFUSED = 4
};

/* The verdicts: what HB_BUS_VERDICT holds. But for the first, each is 1 - the answer of hb_judge. */
enum {
    HB_BUS_NO_VERDICT = 0,
    HB_BUS_DEFINITE = 1,
    HB_BUS_NOT_DEFINITE = 2,
    HB_BUS_UNDECIDED = 3
};

/*
 * What a function returns: an answer, which is 0 or less, or a refusal, which is 1 or more. The checks are made in the order in which the
 * function lists its refusals, each over the whole input before the next, and the number of the first that fails is returned. That order is
 * rising, but 16 stands between 5 and 8, and 17 before all others. 10 to 15 and 19 refuse a summary file, and are returned by hb_read_summary alone,
 * whose order is its own: its comment has it. 20 is returned by hb_bus_write alone.
 */
enum {
    HB_UNDECIDED = -2,
    HB_NOT_DEFINITE = -1,
    HB_DEFINITE = 0,

    HB_NOT_ACCEPTED = -1,
    HB_ACCEPTED = 0,

    HB_NO = -1,
    HB_YES = 0,

    HB_EMPTY = -1,
    HB_BOX = 0,

    HB_AT_MOST = -1,
    HB_BETWEEN = 0,

    HB_TAKEN = 0,

    HB_WRITTEN = 0,

    HB_TICKED = 0,

    HB_READ = 0,

    HB_LINE_RAISED = -1,
    HB_LINE_LOW = 0,

    HB_REFUSED_ORDER = 1,     /* "order": n, or in hb_pool an order of the list, is not 1 to 8 */
    HB_REFUSED_LENGTH = 2,    /* "length": a buffer has not exactly the size, or in hb_gather and hb_pool the order, that is asked for */
    HB_REFUSED_RANGE = 3,     /* "range": an entry of low or high, a linear term, a limit, running limit, centre entry or allowance is beyond its range */
    HB_REFUSED_CROSSED = 4,   /* "crossed": an entry of low is above its entry of high */
    HB_REFUSED_LOPSIDED = 5,  /* "lopsided": low(i,j) is above high(j,i) for some i and j: the pair leaves no number */
    HB_REFUSED_FACTOR = 6,    /* "factor": not upper triangular, a diagonal entry below 1 or above 2^26, or any other beyond +-2^26 */
    HB_REFUSED_VECTOR = 7,    /* "vector": all zero, or an entry beyond +-2^15 */
    HB_REFUSED_FLAT = 8,      /* "flat": of a box, t, the step that can be taken off the diagonal, is 0 */
    HB_REFUSED_FAR = 9,       /* "far": of a box, some g(k), the gradient bound at the centre, is above 2^20 */
    HB_REFUSED_CUT = 10,      /* "cut": of a file, a field's three bytes of tag and length are not all there, or its content is not */
    HB_REFUSED_TAG = 11,      /* "tag": of a file, a tag that is not 01 to 07 */
    HB_REFUSED_AGAIN = 12,    /* "again": of a file, a tag already seen */
    HB_REFUSED_ABSENT = 13,   /* "absent": of a file, one of the seven tags is missing */
    HB_REFUSED_SIZE = 14,     /* "size": of a file, a field is longer or shorter than its tag and the order ask for */
    HB_REFUSED_LONG = 15,     /* "long": of a file, more than 4096 bytes */
    HB_REFUSED_REVERSED = 16, /* "reversed": of an ellipsoid, a file, sums or a pool, a low linear term is above its high one */
    HB_REFUSED_SAMPLE = 17,   /* "sample": a number of a sample is infinite, not a number, or beyond +-8 */
    HB_REFUSED_FULL = 18,     /* "full": of a pool, a sum would be beyond its range though all sums were halved */
    HB_REFUSED_FALLING = 19,  /* "falling": of a file, a tag below the one before it */
    HB_REFUSED_BUSY = 20      /* "busy": of a bus, a start while a run is under way */
};

/*
 * The words of the refusals, for a program that wants a table of them. After
 *
 *     static const char *const words[] = HB_REFUSAL_WORDS;
 *
 * words[HB_REFUSED_ORDER] is "order", and so on to words[HB_REFUSED_BUSY], "busy". words[0] is empty.
 */
#define HB_REFUSAL_WORDS \
    {"", "order", "length", "range", "crossed", "lopsided", "factor", "vector", "flat", "far", "cut", "tag", "again", "absent", "size", \
     "long", "reversed", "sample", "full", "falling", "busy"}

/*
 * hb_load_number: the number in 8 bytes, signed, low byte first. hb_store_number: puts a number there. On any processor, at any address. They are
 * for running limits, limits, what the rows have over, steps and bounds, and for tables and vectors one number after the other: number k of
 * a buffer starts at byte HB_NUMBER_BYTES * k.
 */
static inline int64_t hb_load_number(const uint8_t *bytes)
{
    uint64_t bits = 0;
    int k;
    for (k = HB_NUMBER_BYTES - 1; k >= 0; k--)
        bits = bits << 8 | bytes[k];
    /* A negative number by way of its complement, which int64_t holds: so no conversion is out of range. */
    return bits >> 63 ? -(int64_t)~bits - 1 : (int64_t)bits;
}

static inline void hb_store_number(uint8_t *bytes, int64_t number)
{
    uint64_t bits = (uint64_t)number;
    int k;
    for (k = 0; k < HB_NUMBER_BYTES; k++)
        bytes[k] = (uint8_t)(bits >> (8 * k) & 255);
}

/*
 * hb_judge: is every matrix between the bounds positive definite?
 *
 *   n                       the order, 1 to 8
 *   low, high               the bounds: HB_TABLE_BYTES(n) bytes each, entries within +-2^20, no low of a pair above a high of the same
 *                           pair. Their halves may differ: the mended tables count, and low and high are only read
 *   factor                  HB_TABLE_BYTES(n) bytes, written where the answer is HB_DEFINITE and kept as they were where it is any other
 *   vector                  HB_VECTOR_BYTES(n) bytes, written where the answer is HB_NOT_DEFINITE and kept as they were where it is any other
 *   over                    HB_OVER_BYTES = 8 bytes, written where factor is, so where the answer is HB_DEFINITE, and kept as they were where it
 *                           is any other
 *   low_len, high_len,      the lengths of the five buffers, in bytes. All five have their full size in every call: which of the outputs will
 *   factor_len,             be written is not known before
 *   vector_len, over_len
 *
 * The middle of the bounds, less a margin for their width, is factored in whole numbers. Where that ends, the answer is 'definite', and what
 * the rows of the factor's residual have over is worked out. Where it stops, vectors are looked for whose least value (see hb_test_vector)
 * is 0 or less: first all with entries 0, 1 and -1, in a fixed order, then two that are solved for from the columns factored so far. The
 * first found is the answer 'not definite'. Where there is none, the answer is 'undecided'. The same input has the same answer always, and
 * what is written depends on n, low and high alone.
 *
 * Returns
 *
 *   HB_DEFINITE          every symmetric matrix from low to high, entry by entry, is positive definite. factor has the Cholesky factor R, scaled by 2^16:
 *                        upper triangular, row by row, 0 below the diagonal, diagonal entries 1 to 2^26, entries above it within +-2^26. hb_test_factor
 *                        accepts it. over has the number that hb_test_factor gives of it, which is 0 or more: see WHAT THE ROWS HAVE OVER
 *   HB_NOT_DEFINITE      not every one is: vector has a witness vector x, not all zero, entries within +-2^15, and some symmetric matrix M from low to
 *                        high has x'Mx <= 0. hb_test_vector says yes of it
 *   HB_UNDECIDED         neither was shown. Bounds that are close to the edge of definiteness end so, some definite ones among them: 1 3 / 3 10 is one
 *   HB_REFUSED_ORDER     n is not 1 to 8; no length is looked at
 *   HB_REFUSED_LENGTH    a length is not HB_TABLE_BYTES(n), or HB_VECTOR_BYTES(n) for the vector and HB_OVER_BYTES for over; too long is refused
 *                        like too short
 *   HB_REFUSED_RANGE     an entry of low or high is beyond +-2^20
 *   HB_REFUSED_CROSSED   an entry of low is above its entry of high
 *   HB_REFUSED_LOPSIDED  low(i,j) is above high(j,i) for some i and j: the pair leaves no number
 *
 * and nothing else. What factor, vector and over hold before the call plays no part.
 *
 * Buffers: at any address; none overlaps another, but low and high may be the same table. Nothing is allocated. Reentrant.
 * Stack: HB_JUDGE_STACK bytes.
 * Time: the longest calls are those of order 8 in which no vector with entries 0, 1 and -1 is found: all 6560 of them are looked at.
 */
int64_t hb_judge(int64_t n, const uint8_t *low, size_t low_len, const uint8_t *high, size_t high_len, uint8_t *factor, size_t factor_len,
                 uint8_t *vector, size_t vector_len, uint8_t *over, size_t over_len);

/*
 * hb_test_factor: does this factor show that every matrix between the bounds is positive definite?
 *
 *   n                   the order, 1 to 8
 *   low, high           the bounds: HB_TABLE_BYTES(n) bytes each, entries within +-2^20, no low of a pair above a high of the same pair.
 *                       Their halves may differ: the mended tables count, and low and high are only read
 *   factor              the offered Cholesky factor R, scaled by 2^16: HB_TABLE_BYTES(n) bytes, upper triangular (0 below the diagonal), diagonal
 *                       entries 1 to 2^26, entries above the diagonal within +-2^26
 *   over                HB_OVER_BYTES = 8 bytes, written where the answer is HB_ACCEPTED and where it is HB_NOT_ACCEPTED, and kept as they were
 *                       on a refusal
 *   low_len, high_len,  the lengths of the four buffers, in bytes
 *   factor_len,
 *   over_len
 *
 * Let P(i,j) be the sum over k of R(k,i) * R(k,j). The test asks of every row i, with the mended low and high, that
 *
 *     2^32 * low(i,i) - P(i,i)  >=  the sum over j other than i of the greater of |2^32 * low(i,j) - P(i,j)| and |2^32 * high(i,j) - P(i,j)|
 *
 * and accepts the factor exactly where all of them hold. over gets the least, over all rows, of the left side less the right side: a signed
 * number, 0 or more exactly where the factor is accepted. WHAT THE ROWS HAVE OVER says what it means.
 *
 * Returns
 *
 *   HB_ACCEPTED          it is accepted: every symmetric matrix from low to high, entry by entry, is positive definite. over has 0 or more
 *   HB_NOT_ACCEPTED      it is not: nothing is said of definiteness, and another factor may be accepted. over has a number below 0
 *   HB_REFUSED_ORDER     n is not 1 to 8; no length is looked at
 *   HB_REFUSED_LENGTH    a length is not HB_TABLE_BYTES(n), or HB_OVER_BYTES for over; too long is refused like too short
 *   HB_REFUSED_RANGE     an entry of low or high is beyond +-2^20
 *   HB_REFUSED_CROSSED   an entry of low is above its entry of high
 *   HB_REFUSED_LOPSIDED  low(i,j) is above high(j,i) for some i and j: the pair leaves no number
 *   HB_REFUSED_FACTOR    the factor is not of the form above
 *
 * and nothing else. What over holds before the call plays no part.
 *
 * Buffers: at any address; none overlaps another, but low and high may be the same table. Nothing is allocated. Reentrant.
 * Stack: HB_TEST_FACTOR_STACK bytes.
 */
int64_t hb_test_factor(int64_t n, const uint8_t *low, size_t low_len, const uint8_t *high, size_t high_len, const uint8_t *factor,
                       size_t factor_len, uint8_t *over, size_t over_len);

/*
 * hb_test_vector: does this vector show that not every matrix between the bounds is positive definite?
 *
 *   n                   the order, 1 to 8
 *   low, high           the bounds: HB_TABLE_BYTES(n) bytes each, entries within +-2^20, no low of a pair above a high of the same pair.
 *                       Their halves may differ: the mended tables count, and low and high are only read
 *   vector              the offered witness vector x: HB_VECTOR_BYTES(n) bytes, entries within +-2^15, not all zero
 *   low_len, high_len,  the lengths of the three buffers, in bytes
 *   vector_len
 *
 * The least value of x is the sum over all i and j of x(i) * x(j) * m(i,j), where m(i,j), of the mended tables, is low(i,j) if i = j or
 * x(i) * x(j) > 0, and high(i,j) if not. The answer is yes exactly if it is 0 or less.
 *
 * Returns
 *
 *   HB_YES               yes: some symmetric matrix M from low to high has x'Mx <= 0, so that not all of them are positive definite
 *   HB_NO                no: x'Mx > 0 for all of them and this x; another vector may show it
 *   HB_REFUSED_ORDER     n is not 1 to 8; no length is looked at
 *   HB_REFUSED_LENGTH    a length is not HB_TABLE_BYTES(n), or HB_VECTOR_BYTES(n) for the vector; too long is refused like too short
 *   HB_REFUSED_RANGE     an entry of low or high is beyond +-2^20
 *   HB_REFUSED_CROSSED   an entry of low is above its entry of high
 *   HB_REFUSED_LOPSIDED  low(i,j) is above high(j,i) for some i and j: the pair leaves no number
 *   HB_REFUSED_VECTOR    the vector is all zero, or an entry is beyond +-2^15
 *
 * and nothing else. Nothing is written.
 *
 * Buffers: at any address; none overlaps another, but low and high may be the same table. Nothing is allocated. Reentrant.
 * Stack: HB_TEST_VECTOR_STACK bytes.
 */
int64_t hb_test_vector(int64_t n, const uint8_t *low, size_t low_len, const uint8_t *high, size_t high_len, const uint8_t *vector, size_t vector_len);

/*
 * hb_box: between which numbers does each coordinate of the ellipsoid lie?
 *
 *   n                        the order, 1 to 8
 *   low, high                the bounds: HB_TABLE_BYTES(n) bytes each, entries within +-2^20, no low of a pair above a high of the same
 *                            pair. Their halves may differ: the mended tables count, and low and high are only read
 *   linear_low, linear_high  the ends of the linear terms a: HB_VECTOR_BYTES(n) bytes each, terms within +-2^36, none of linear_low above
 *                            its term of linear_high
 *   limit                    the limit, a number within +-2^54
 *   centre                   the centre c, where the box is to have its middle: HB_VECTOR_BYTES(n) bytes, entries within +-2^12
 *   sides                    HB_SIDES_BYTES(n) bytes, written where the answer is HB_BOX and kept as they were where it is any other
 *   low_len, high_len,       the lengths of the six buffers, in bytes. sides has its full size in every call
 *   linear_low_len,
 *   linear_high_len,
 *   centre_len, sides_len
 *
 * The ellipsoid is every x, of n fractions, for which some symmetric matrix M from low to high and some a, of n fractions, from linear_low
 * to linear_high have x'Mx + 2a'x <= limit. Where the linear terms are known exactly both ends are equal, and may be the same buffer. The
 * centre need not be in the ellipsoid: the box holds all of it from any centre that is not refused. One near its middle, so where Mc + a is
 * near 0, gives a small box.
 *
 * A whole number t is looked for, bit by bit, that can be taken off every diagonal entry of low and high so that what is left can still be
 * factored, and for each k a t(k) that can be taken off entry (k,k) alone. g(k) is the greatest magnitude of Mc + a in row k, over all M
 * from low to high and all a from linear_low to linear_high. From these half of the width of each side is worked out, every quotient and
 * root rounded up, and side k has c(k) in its middle. The same input has the same answer always.
 *
 * Returns
 *
 *   HB_BOX               every x of the ellipsoid is in the box: for each k, counted from 0, x(k) is at least the low and at most the high of
 *                        side k. Smaller boxes may hold it too, and the ellipsoid may be empty all the same
 *   HB_EMPTY             the ellipsoid is empty: x'Mx + 2a'x > limit for every x, every M from low to high and every a from linear_low to
 *                        linear_high. Nothing is written
 *   HB_REFUSED_ORDER     n is not 1 to 8; no length is looked at
 *   HB_REFUSED_LENGTH    a length is not HB_TABLE_BYTES(n) for low and high, HB_VECTOR_BYTES(n) for linear_low, linear_high and centre,
 *                        HB_SIDES_BYTES(n) for sides; too long is refused like too short
 *   HB_REFUSED_RANGE     an entry of low or high is beyond +-2^20, a term of linear_low or linear_high beyond +-2^36, the limit beyond
 *                        +-2^54, or an entry of the centre beyond +-2^12
 *   HB_REFUSED_CROSSED   an entry of low is above its entry of high
 *   HB_REFUSED_LOPSIDED  low(i,j) is above high(j,i) for some i and j: the pair leaves no number
 *   HB_REFUSED_REVERSED  a term of linear_low is above its term of linear_high
 *   HB_REFUSED_FLAT      t is 0: with 1 taken off the diagonal factoring does not end. Not every matrix from low to high is positive
 *                        definite, or by too little, or the bounds are too far apart to show it. Linear terms, limit and centre play no
 *                        part in it
 *   HB_REFUSED_FAR       some g(k) is above 2^20: the centre is too far from the ellipsoid's middle, or the bounds, or the ends of the
 *                        linear terms, are too far apart. Another centre may do
 *
 * and nothing else. Every refusal comes before 'empty'. What sides holds before the call plays no part.
 *
 * Buffers: at any address; none overlaps another, but low and high may be the same table, and linear_low and linear_high the same buffer.
 * Nothing is allocated. Reentrant.
 * Stack: HB_BOX_STACK bytes.
 * Time: up to 20 factorings for t and, for each t(k) but the last, up to 20 of the rows from k on.
 */
int64_t hb_box(int64_t n, const uint8_t *low, size_t low_len, const uint8_t *high, size_t high_len, const uint8_t *linear_low,
               size_t linear_low_len, const uint8_t *linear_high, size_t linear_high_len, int64_t limit, const uint8_t *centre,
               size_t centre_len, uint8_t *sides, size_t sides_len);

/*
 * hb_stiffness: between which two whole numbers does the least stiffness of the matrices between the bounds lie?
 *
 *   n                    the order, 1 to 8
 *   low, high            the bounds: HB_TABLE_BYTES(n) bytes each, entries within +-2^20, no low of a pair above a high of the same pair.
 *                        Their halves may differ: the mended tables count, and low and high are only read
 *   step                 HB_STEP_BYTES = 8 bytes, written where the answer is HB_BETWEEN and kept as they were where it is any other
 *   bound                HB_BOUND_BYTES = 8 bytes, written where the answer is HB_BETWEEN and where it is HB_AT_MOST, and kept as they were
 *                        on a refusal
 *   vector               HB_VECTOR_BYTES(n) bytes, written where bound is, and kept as they were on a refusal
 *   low_len, high_len,   the lengths of the five buffers, in bytes. All five have their full size in every call: whether step will be
 *   step_len,            written is not known before
 *   bound_len,
 *   vector_len
 *
 * Of each vector x with entries 0, 1 and -1, but the one of zeros, the least value (see hb_test_vector) is divided by x'x, which is how
 * many of its entries are not 0, and the quotient is rounded up. The bound v is the least of these quotients, and vector gets the first x
 * whose quotient is v: 0 comes before 1 and 1 before -1, and the first entry counts most. The step t is looked for as hb_box does it: bit
 * by bit, what can be taken off every diagonal entry of low and high so that what is left can still be factored. It is given where low and
 * high can be factored with nothing taken off. The same input has the same answer always, and what is written depends on n, low and high
 * alone.
 *
 * Returns
 *
 *   HB_BETWEEN           every symmetric matrix from low to high, entry by entry, is positive definite, and their least stiffness is from
 *                        t to v. step has t, which is 0 or more, bound has v, which is above t, and vector has x: see THE BRACKET OF THE
 *                        STIFFNESS
 *   HB_AT_MOST           the least stiffness of these matrices is v or less, and nothing is said from below. bound has v, vector has x,
 *                        and step is kept. If v is 0 or less not every one is positive definite, and x is a witness vector; if v is 1 or
 *                        more, neither that nor the contrary is said
 *   HB_REFUSED_ORDER     n is not 1 to 8; no length is looked at
 *   HB_REFUSED_LENGTH    a length is not HB_TABLE_BYTES(n) for low and high, HB_STEP_BYTES for step, HB_BOUND_BYTES for bound,
 *                        HB_VECTOR_BYTES(n) for the vector; too long is refused like too short
 *   HB_REFUSED_RANGE     an entry of low or high is beyond +-2^20
 *   HB_REFUSED_CROSSED   an entry of low is above its entry of high
 *   HB_REFUSED_LOPSIDED  low(i,j) is above high(j,i) for some i and j: the pair leaves no number
 *
 * and nothing else: these are the refusals of hb_judge. What step, bound and vector hold before the call plays no part.
 *
 * Buffers: at any address; none overlaps another, but low and high may be the same table. Nothing is allocated. Reentrant.
 * Stack: HB_STIFFNESS_STACK bytes.
 * Time: up to 21 factorings, and searches through the vectors with entries 0, 1 and -1, of which order 8 has 6560: some ten searches there,
 * or some twenty where bounds are wide, and 48 at most.
 */
int64_t hb_stiffness(int64_t n, const uint8_t *low, size_t low_len, const uint8_t *high, size_t high_len, uint8_t *step, size_t step_len,
                     uint8_t *bound, size_t bound_len, uint8_t *vector, size_t vector_len);

/*
 * A sample, as the hub hands it over: the four factors of a stretch of a ride, and the draw that was measured on it, each from -8 to 8. Coefficients x
 * of four numbers miss it by draw - (rolling * x(0) + climb * x(1) + air * x(2) + start * x(3)). The units are the hub's.
 */
typedef struct {
    float rolling, climb, air, start, draw;
} hb_sample;

/*
 * hb_gather: adds a sample to running sums, which are halved before it where they have no room for it.
 *
 *   sample                   five numbers, finite and within +-8. It is passed by value
 *   n                        the order of the sums: 4, HB_SAMPLE_ORDER
 *   low, high                the tables of the sums: HB_TABLE_BYTES(4) = 128 bytes each, entries within +-2^20, no low of a pair above a
 *                            high of the same pair. Their halves may differ: they are mended before the sample is added
 *   linear_low, linear_high  the ends of their linear terms: HB_VECTOR_BYTES(4) = 32 bytes each, terms within +-2^36, none of linear_low above
 *                            its term of linear_high
 *   running_limit            their running limit, a number within +-2^54: HB_NUMBER_BYTES = 8 bytes
 *   low_len, high_len,       the lengths of the five buffers, in bytes
 *   linear_low_len,
 *   linear_high_len,
 *   running_limit_len
 *
 * All five buffers are read, and where the answer is HB_TAKEN all are written. Sums begin with all bytes 0, and are handed over for one sample after
 * the other.
 *
 * low and high are mended, and the sample is added to the mended tables. Where one of the sums would be beyond its range with it, all sums
 * are halved first, once: see SUMS THAT ARE HALVED. So HB_TAKEN leaves the mended sums, or their halves, plus the sample, and the tables are
 * symmetric then, whatever they were before. Sums that began with all bytes 0 and were fed samples alone are symmetric always.
 *
 * Each of the five numbers is multiplied by 16. F(0) to F(3), of the factors, and D, of the draw, lie between the whole numbers next below and next
 * above, which are equal where the product is a whole number; -0 is 0. low(i,j) gains the least and high(i,j) the greatest of the four products of an
 * end of F(i) with an end of F(j), for i = j too. linear_low(i) and linear_high(i) gain the least and the greatest of minus the products of the ends
 * of F(i) and D. The running limit loses the lesser of the squares of the ends of D.
 *
 * What it is for: take sums that began with all bytes 0 and were fed samples alone, and any x of four fractions. Add up (D - F'x)^2, worked exactly,
 * over the samples that were taken. If that sum is K or less, x is a point of the ellipsoid that hb_read_sums gives with the allowance K,
 * however often the sums were halved: so hb_box, from any centre that is not refused, does not say HB_EMPTY, and x is in the box. Where the
 * sums that are handed over already allow an x with some allowance, problems having been pooled into them for one, they allow it after the
 * call with the square of this sample's miss added to that allowance.
 *
 * Returns
 *
 *   HB_TAKEN             the sample is in the sums
 *   HB_REFUSED_SAMPLE    a number of the sample is infinite, not a number, or beyond +-8. Nothing else is looked at
 *   HB_REFUSED_ORDER     n is not 1 to 8; no length is looked at
 *   HB_REFUSED_LENGTH    n is not 4, or a length is not the one above; too long is refused like too short
 *   HB_REFUSED_RANGE     an entry of low or high is beyond +-2^20, a term of linear_low or linear_high beyond +-2^36, or the running limit beyond
 *                        +-2^54
 *   HB_REFUSED_CROSSED   an entry of low is above its entry of high
 *   HB_REFUSED_LOPSIDED  low(i,j) is above high(j,i) for some i and j: the pair leaves no number
 *   HB_REFUSED_REVERSED  a term of linear_low is above its term of linear_high
 *
 * and nothing else. HB_REFUSED_FULL is never returned since version 0.8: once the sums were halved there is room for every sample. On a
 * refusal no sum is altered, mended or halved: the sample is dropped, and the sums stand for the samples before it.
 *
 * Buffers: at any address; none overlaps another. Nothing is allocated. Reentrant.
 * Stack: HB_GATHER_STACK bytes.
 */
int64_t hb_gather(hb_sample sample, int64_t n, uint8_t *low, size_t low_len, uint8_t *high, size_t high_len, uint8_t *linear_low,
                  size_t linear_low_len, uint8_t *linear_high, size_t linear_high_len, uint8_t *running_limit, size_t running_limit_len);

/*
 * hb_pool: adds problems to running sums, one after the other. The sums are halved before a problem where they have no room for it.
 *
 *   n                           the order of the sums and of each problem, 1 to 8
 *   low, high                   the tables of the sums: HB_TABLE_BYTES(n) bytes each, entries within +-2^20, no low of a pair above a high
 *                               of the same pair. Their halves may differ: they are mended before a problem is added
 *   linear_low, linear_high     the ends of their linear terms: HB_VECTOR_BYTES(n) bytes each, terms within +-2^36, none of linear_low above
 *                               its term of linear_high
 *   running_limit               their running limit, a number within +-2^54: HB_NUMBER_BYTES = 8 bytes
 *   orders                      the orders of the problems, a number for each and each of them n: HB_NUMBERS_BYTES(m) bytes for m problems,
 *                               m from 1 to HB_GREATEST_POOL = 64. How many problems there are is said by this length alone
 *   lows, highs                 their bounds: HB_TABLES_BYTES(n, m) bytes each. The table of the first problem, row by row, then that of the
 *                               second, and so on. Each is as low and high of the sums have to be, and its halves may differ
 *   linear_lows, linear_highs   the ends of their linear terms: HB_VECTORS_BYTES(n, m) bytes each, problem by problem, terms within +-2^36,
 *                               none of linear_lows above its term of linear_highs
 *   limits                      their limits, numbers within +-2^54: HB_NUMBERS_BYTES(m) bytes. Limits and not running limits: of sums,
 *                               hb_read_sums makes one of the other
 *   low_len, high_len,          the lengths of the eleven buffers, in bytes
 *   linear_low_len,
 *   linear_high_len,
 *   running_limit_len,
 *   orders_len, lows_len,
 *   highs_len,
 *   linear_lows_len,
 *   linear_highs_len,
 *   limits_len
 *
 * The first five buffers are the sums. All five are read, and where the answer is HB_TAKEN all are written. They begin with all bytes 0, or
 * have been pooled into before; those of order 4 may have been gathered into, and may be gathered into again. The six lists are only read. A
 * pooled problem has no centre.
 *
 * The sums are mended, and so is each problem. Then the problems are added in the order of the lists: each entry of low and high, each
 * linear term and the running limit gain those of the problem, the running limit its limit. Where one of the sums would be beyond its range
 * with a problem, all sums are halved first, once for this problem: see SUMS THAT ARE HALVED. So HB_TAKEN leaves symmetric tables, and a call
 * may have halved the sums as often as it has problems. The order of the problems counts where sums are halved, and only there.
 *
 * What it is for: take any K that is 0 or more, and any x of n fractions. If x is a point of the ellipsoid of each pooled problem (see
 * hb_box), and of the ellipsoid that the sums as they were handed over give with the allowance K, then x is a point of the one that the sums
 * give with K after the call: so hb_box, from any centre that is not refused, does not say HB_EMPTY, and x is in the box. Sums with all
 * bytes 0 allow every x, with K = 0 too. A problem that hb_read_sums made of sums, with an allowance, has this allowance in its limit: so
 * what was pooled of such problems alone is read with K = 0.
 *
 * Returns
 *
 *   HB_TAKEN             all problems are in the sums
 *   HB_REFUSED_ORDER     n is not 1 to 8; or orders has 1 to 64 whole numbers, and one of them is not 1 to 8. No other length is looked at
 *   HB_REFUSED_LENGTH    orders has not 1 to 64 whole numbers, so that its length is not 8, 16, .., 512: then none of them is looked at; or
 *                        one of them is not n; or another length is not the one above; too long is refused like too short
 *   HB_REFUSED_RANGE     of the sums or of any problem, an entry of low or high is beyond +-2^20, a linear term beyond +-2^36, or the running
 *                        limit or a limit beyond +-2^54
 *   HB_REFUSED_CROSSED   of the sums or of any problem, an entry of low is above its entry of high
 *   HB_REFUSED_LOPSIDED  of the sums or of any problem, low(i,j) is above high(j,i) for some i and j: the pair leaves no number
 *   HB_REFUSED_REVERSED  of the sums or of any problem, a low linear term is above its high one
 *   HB_REFUSED_FULL      with one of the problems a sum would be beyond its range, though all sums were halved for it: its numbers are too
 *                        great beside those of the sums. All buffers are good ones still
 *
 * and nothing else, asked in this order, each of the sums and all problems together before the next: the last problem's HB_REFUSED_RANGE
 * comes before the first one's HB_REFUSED_CROSSED. Which problem it is about is not said. A call is taken whole or not at all: on a refusal no
 * sum is altered, mended or halved, on HB_REFUSED_FULL neither, whatever problems were added before.
 *
 * Buffers: at any address; none overlaps another, but lows and highs may be the same list, and linear_lows and linear_highs the same list.
 * The sums overlap none of the others. Nothing is allocated. Reentrant.
 * Stack: HB_POOL_STACK bytes.
 * Time: grows with the count of problems and with n * n.
 */
int64_t hb_pool(int64_t n, uint8_t *low, size_t low_len, uint8_t *high, size_t high_len, uint8_t *linear_low, size_t linear_low_len,
                uint8_t *linear_high, size_t linear_high_len, uint8_t *running_limit, size_t running_limit_len, const uint8_t *orders,
                size_t orders_len, const uint8_t *lows, size_t lows_len, const uint8_t *highs, size_t highs_len, const uint8_t *linear_lows,
                size_t linear_lows_len, const uint8_t *linear_highs, size_t linear_highs_len, const uint8_t *limits, size_t limits_len);

/*
 * hb_read_sums: the limit that running sums give with an allowance, after the checks of all that hb_box will be handed but the centre.
 *
 *   n                        the order of the sums, 1 to 8: that of samples is 4
 *   low, high                their tables: HB_TABLE_BYTES(n) bytes each, entries within +-2^20, no low of a pair above a high of the same
 *                            pair. Their halves may differ: low and high are only read
 *   linear_low, linear_high  the ends of their linear terms: HB_VECTOR_BYTES(n) bytes each, terms within +-2^36, none of linear_low above its
 *                            term of linear_high
 *   running_limit            their running limit, a number within +-2^54, as a number: hb_load_number reads it from the bytes that hb_gather
 *                            and hb_pool keep it in
 *   allowance                K, from 0 to 2^40: what the squares of 16 times the misses may add up to, over all samples that were taken (see
 *                            hb_gather). If each of count samples is missed by at most m, in the draw's unit, K = 256 * m * m * count, rounded
 *                            up, suffices. Pooled problems count nothing, since their limits have their own allowances in them: K is 0 where no
 *                            sample was gathered into these sums
 *   limit                    HB_NUMBER_BYTES = 8 bytes, written where the answer is HB_WRITTEN and kept as they were where it is any other
 *   low_len, high_len,       the lengths of the five buffers, in bytes
 *   linear_low_len,
 *   linear_high_len,
 *   limit_len
 *
 * The limit is allowance + running_limit. The tables and linear terms of the sums are handed to hb_judge and hb_box as they are, which mend
 * the tables for themselves, and the limit to hb_box as a number, by hb_load_number. The same sums may be read with another allowance at
 * any time.
 *
 * Returns
 *
 *   HB_WRITTEN           the limit is written
 *   HB_REFUSED_ORDER     n is not 1 to 8; no length is looked at
 *   HB_REFUSED_LENGTH    a length is not HB_TABLE_BYTES(n) for low and high, HB_VECTOR_BYTES(n) for linear_low and linear_high, HB_NUMBER_BYTES for
 *                        the limit; too long is refused like too short
 *   HB_REFUSED_RANGE     an entry of low or high is beyond +-2^20, a term of linear_low or linear_high beyond +-2^36, the running limit beyond +-2^54,
 *                        the allowance below 0 or above 2^40, or the limit would be beyond +-2^54
 *   HB_REFUSED_CROSSED   an entry of low is above its entry of high
 *   HB_REFUSED_LOPSIDED  low(i,j) is above high(j,i) for some i and j: the pair leaves no number
 *   HB_REFUSED_REVERSED  a term of linear_low is above its term of linear_high
 *
 * and nothing else. Any 64-bit running limit and allowance are answered. What the limit's buffer holds before the call plays no part.
 *
 * Buffers: at any address; none overlaps another, but low and high may be the same table, and linear_low and linear_high the same buffer.
 * Nothing is allocated. Reentrant.
 * Stack: HB_READ_SUMS_STACK bytes.
 */
int64_t hb_read_sums(int64_t n, const uint8_t *low, size_t low_len, const uint8_t *high, size_t high_len, const uint8_t *linear_low,
                     size_t linear_low_len, const uint8_t *linear_high, size_t linear_high_len, int64_t running_limit, int64_t allowance,
                     uint8_t *limit, size_t limit_len);

/*
 * hb_write_summary: writes the summary file of a problem.
 *
 *   n                        the order, 1 to 8
 *   low, high                the bounds: HB_TABLE_BYTES(n) bytes each, entries within +-2^20, no low of a pair above a high of the same
 *                            pair. Their halves may differ: the mended tables are written to the file, and low and high are only read
 *   linear_low, linear_high  the ends of the linear terms: HB_VECTOR_BYTES(n) bytes each, terms within +-2^36, none of linear_low above its term of
 *                            linear_high
 *   limit                    the limit, a number within +-2^54: not a running limit, of which hb_read_sums makes it
 *   centre                   the centre: HB_VECTOR_BYTES(n) bytes, entries within +-2^12
 *   file                     HB_SUMMARY_BYTES(n) bytes, written whole where the answer is HB_WRITTEN and kept as they were, all of them, where it is
 *                            any other
 *   low_len, high_len,       the lengths of the six buffers, in bytes. That of file is exact too: 254 bytes for the order of samples, 4
 *   linear_low_len,
 *   linear_high_len,
 *   centre_len, file_len
 *
 * What is asked is what hb_box asks of a problem before 8. So a problem that hb_box answers by any number but 1 to 5 and 16 has a file, also one that is
 * not definite. The file has the mended tables, and all else as it is handed over. Its bytes depend on the numbers alone: two problems have
 * the same file exactly if they are the same once mended. hb_read_summary takes the file back to the mended problem, so to these very
 * numbers where low and high are symmetric, and the program "judge" reads it.
 *
 * Returns
 *
 *   HB_WRITTEN           the file is written
 *   HB_REFUSED_ORDER     n is not 1 to 8; no length is looked at. n is looked at whole, not the one byte that a file has for it: 257 is refused
 *   HB_REFUSED_LENGTH    a length is not HB_TABLE_BYTES(n) for low and high, HB_VECTOR_BYTES(n) for linear_low, linear_high and centre,
 *                        HB_SUMMARY_BYTES(n) for file; too long is refused like too short
 *   HB_REFUSED_RANGE     an entry of low or high is beyond +-2^20, a term of linear_low or linear_high beyond +-2^36, the limit beyond +-2^54, or an
 *                        entry of the centre beyond +-2^12. Numbers are looked at whole: 2^32 + 4 is not written as 4
 *   HB_REFUSED_CROSSED   an entry of low is above its entry of high
 *   HB_REFUSED_LOPSIDED  low(i,j) is above high(j,i) for some i and j: the pair leaves no number
 *   HB_REFUSED_REVERSED  a term of linear_low is above its term of linear_high
 *
 * and nothing else. What file holds before the call plays no part.
 *
 * Buffers: at any address; none overlaps another, but low and high may be the same table, and linear_low and linear_high the same buffer. The file
 * overlaps none. Nothing is allocated. Reentrant.
 * Stack: HB_WRITE_SUMMARY_STACK bytes.
 */
int64_t hb_write_summary(int64_t n, const uint8_t *low, size_t low_len, const uint8_t *high, size_t high_len, const uint8_t *linear_low,
                         size_t linear_low_len, const uint8_t *linear_high, size_t linear_high_len, int64_t limit, const uint8_t *centre,
                         size_t centre_len, uint8_t *file, size_t file_len);

/*
 * hb_read_summary: the problem of a summary file.
 *
 *   file                     the file, of any length: any bytes at all are answered
 *   order                    HB_NUMBER_BYTES = 8 bytes
 *   low, high                HB_TABLE_BYTES(HB_MAX_ORDER) = 512 bytes each
 *   linear_low, linear_high  HB_VECTOR_BYTES(HB_MAX_ORDER) = 64 bytes each
 *   limit                    HB_NUMBER_BYTES = 8 bytes
 *   centre                   HB_VECTOR_BYTES(HB_MAX_ORDER) = 64 bytes
 *   file_len, order_len,     the lengths of the eight buffers, in bytes. The order of the file is not known before, so the last seven have these sizes
 *   low_len, high_len,       in every call
 *   linear_low_len,
 *   linear_high_len,
 *   limit_len, centre_len
 *
 * Where the answer is HB_WRITTEN the seven buffers are written whole. order has n and limit the limit, as numbers. low and high have the
 * mended tables of the file. The tables of order n stand in the first HB_TABLE_BYTES(n) bytes, row by row with n entries to a row, the
 * vectors in the first HB_VECTOR_BYTES(n) bytes, and all bytes behind them are 0. So they go on to the other functions as they are:
 *
 *     n = hb_load_number(order);
 *     ... hb_judge(n, low, HB_TABLE_BYTES(n), high, HB_TABLE_BYTES(n), ...
 *
 * and hb_write_summary, with HB_SUMMARY_BYTES(n) bytes for a file, writes the file that was read, byte for byte, exactly if the tables in
 * it are symmetric. Where they are not, it writes the one file of the mended problem, which has the same size and is read as the same
 * numbers.
 *
 * Where the answer is any other number, all seven are kept as they were.
 *
 * Returns
 *
 *   HB_WRITTEN           the problem is written
 *   HB_REFUSED_LENGTH    a length of the last seven buffers is not the one above; the file is not looked at
 *   HB_REFUSED_LONG      the file has more than 4096 bytes; no byte of it is looked at
 *   HB_REFUSED_CUT       of a field, the three bytes of tag and length are not all there, or the content is not
 *   HB_REFUSED_TAG       a field has a tag that is not 01 to 07
 *   HB_REFUSED_AGAIN     a field has a tag that was there before
 *   HB_REFUSED_FALLING   a field has a tag below that of the field before it. These four are asked field by field, so that the first bad field decides
 *   HB_REFUSED_ABSENT    one of the seven tags is missing: of an empty file all are
 *   HB_REFUSED_SIZE      the content of 01 has not one byte
 *   HB_REFUSED_ORDER     n is not 1 to 8
 *   HB_REFUSED_SIZE      a content of 02 to 07 has not the length that n calls for
 *   HB_REFUSED_RANGE     an entry of low or high is beyond +-2^20, a term of linear_low or linear_high beyond +-2^36, the limit beyond +-2^54, or an
 *                        entry of the centre beyond +-2^12
 *   HB_REFUSED_CROSSED   an entry of low is above its entry of high
 *   HB_REFUSED_LOPSIDED  low(i,j) is above high(j,i) for some i and j: the pair leaves no number
 *   HB_REFUSED_REVERSED  a term of linear_low is above its term of linear_high
 *
 * and nothing else, asked in this order. What the seven buffers hold before the call plays no part.
 *
 * A file has no check sum. A byte that was damaged in storage may leave a file that is good and holds another problem: what is kept where that can happen
 * needs a check sum of the caller's.
 *
 * Buffers: at any address; none overlaps another: low and high are two, and so are linear_low and linear_high. Nothing is allocated. Reentrant.
 * Stack: HB_READ_SUMMARY_STACK bytes.
 */
int64_t hb_read_summary(const uint8_t *file, size_t file_len, uint8_t *order, size_t order_len, uint8_t *low, size_t low_len, uint8_t *high,
                        size_t high_len, uint8_t *linear_low, size_t linear_low_len, uint8_t *linear_high, size_t linear_high_len,
                        uint8_t *limit, size_t limit_len, uint8_t *centre, size_t centre_len);

/*
 * hb_bus_write: writes a value to a register of a bus, and carries out a command.
 *
 *   block               the registers: HB_BLOCK_BYTES = 32 bytes
 *   run                 the run area: HB_RUN_BYTES = 1560 bytes
 *   address             which register: any number. HB_BUS_COMMAND, HB_BUS_MASK, HB_BUS_FLAGS and HB_BUS_ORDER are those that a write moves
 *   value               what is written
 *   low, high           the bounds that a start judges: HB_TABLE_BYTES(n) bytes each, for n = HB_BUS_ORDER, entries within +-2^20, no low
 *                       of a pair above a high of the same pair. Their halves may differ. Only a start looks at them, and only reads them;
 *                       other writes leave them out, NULL with length 0. Whatever is written, the pointers must be good for their lengths
 *   block_len, run_len, the lengths of the four buffers, in bytes. Those of block and run are exact in every call. Those of the tables are
 *   low_len, high_len   for the checks of a start alone: where they are wrong, HB_BUS_REFUSAL has 2
 *
 * What changes, by address and value:
 *
 *   HB_BUS_COMMAND, HB_BUS_START   while HB_BUS_BUSY is up: nothing, and the answer is HB_REFUSED_BUSY. Else HB_BUS_STATUS, HB_BUS_REFUSAL
 *                                  and HB_BUS_VERDICT become 0; then, where no check of hb_judge fails, HB_BUS_BUSY is up in the status and
 *                                  in the flags, and the run area holds the run; and where one fails, HB_BUS_REFUSED is up in both,
 *                                  HB_BUS_REFUSAL has its number, 1 to 5, and the run area is all zeros
 *   HB_BUS_COMMAND, HB_BUS_RESET   all bytes of block and run become 0, while busy too
 *   HB_BUS_COMMAND, another        nothing
 *   HB_BUS_MASK                    bits 0 to 2 of the mask become those of the value; its other bits stay
 *   HB_BUS_FLAGS                   those of the bits 0 to 2 that are one in the value become 0 in the flags; the others stay. 0 clears none
 *   HB_BUS_ORDER                   the order becomes the value. It is looked at by the next start, not here: any value is taken
 *   any other, below 0 too         nothing
 *
 * No byte of block and run changes but as this says: the command is not kept, and byte 0 of the block stays as it is.
 *
 * Returns
 *
 *   HB_TAKEN             the write is carried out: also one that changes nothing, and a start that the judge's checks refuse. Whether a
 *                        start was refused is said by HB_BUS_STATUS
 *   HB_REFUSED_LENGTH    block has not HB_BLOCK_BYTES bytes, or run not HB_RUN_BYTES, whatever is written where. Nothing is written
 *   HB_REFUSED_BUSY      a start while HB_BUS_BUSY is up in the status. Nothing is written, and the run goes on: keep the tables, and start
 *                        again when it is done, or reset first
 *
 * and nothing else, asked in this order.
 *
 * Buffers: at any address; none overlaps another, but low and high may be the same table. Nothing is allocated. Reentrant, one call at a
 * time for each bus.
 * Stack: HB_BUS_WRITE_STACK bytes.
 * Time: a start reads, checks and mends the tables, which grows with n * n. A reset clears the run area. All other writes are short.
 */
int64_t hb_bus_write(uint8_t *block, size_t block_len, uint8_t *run, size_t run_len, int64_t address, uint8_t value, const uint8_t *low,
                     size_t low_len, const uint8_t *high, size_t high_len);

/*
 * hb_bus_tick: the next step of the run of a bus.
 *
 *   block               the registers: HB_BLOCK_BYTES = 32 bytes
 *   run                 the run area: HB_RUN_BYTES = 1560 bytes
 *   block_len, run_len  the lengths of the two buffers, in bytes
 *
 * While HB_BUS_BUSY is up and a run is under way, it works out the next column of the Cholesky factor or, where an earlier tick has seen
 * factoring stop, searches the vectors: see THE DISPLAY BUS. In the tick that ends the run HB_BUS_VERDICT gets the verdict, HB_BUS_BUSY
 * goes down, HB_BUS_DONE rises in the status and in the flags (the flag where done was not up already in the status, as a start never
 * leaves it), and the run area becomes all zeros. In the ticks before it the run area alone changes. At any other time nothing does: where
 * HB_BUS_BUSY is not up, and where the run area holds no run that could go on, which a start never leaves so.
 *
 * Returns
 *
 *   HB_TICKED            the step is done, or there was none to do
 *   HB_REFUSED_LENGTH    block has not HB_BLOCK_BYTES bytes, or run not HB_RUN_BYTES. Nothing is written
 *
 * and nothing else. What came of it is in the registers.
 *
 * Buffers: at any address; they do not overlap. Nothing is allocated. Reentrant, one call at a time for each bus.
 * Stack: HB_BUS_TICK_STACK bytes.
 * Time: the longest tick is the search, at order 8 the longest part of hb_judge's longest calls. A column is a small part of that.
 */
int64_t hb_bus_tick(uint8_t *block, size_t block_len, uint8_t *run, size_t run_len);

/*
 * hb_bus_read: the value of a register of a bus.
 *
 *   block                 the registers: HB_BLOCK_BYTES = 32 bytes, only read
 *   address               which register: any number
 *   value                 HB_VALUE_BYTES = 1 byte, written where the answer is HB_READ and kept as it was where it is any other
 *   block_len, value_len  the lengths of the two buffers, in bytes
 *
 * Of an address from 1 to 6 value gets that byte of the block, as it lies. Of HB_BUS_COMMAND and of every other address, below 0 too, it
 * gets 0. Reading moves nothing: it clears no flag.
 *
 * Returns
 *
 *   HB_READ              value is written
 *   HB_REFUSED_LENGTH    block has not HB_BLOCK_BYTES bytes, or value not one. Nothing is written
 *
 * and nothing else.
 *
 * Buffers: at any address; they do not overlap. Nothing is allocated. Reentrant.
 * Stack: HB_BUS_READ_STACK bytes.
 */
int64_t hb_bus_read(const uint8_t *block, size_t block_len, int64_t address, uint8_t *value, size_t value_len);

/*
 * hb_bus_line: is the interrupt line of a bus raised?
 *
 *   block      the registers: HB_BLOCK_BYTES = 32 bytes, only read
 *   block_len  its length, in bytes
 *
 * The line is raised exactly while HB_BUS_FLAGS and HB_BUS_MASK have a bit that is one in both. It is a level and no edge: it stays raised
 * until the flag is cleared or masked, or the bus is reset. No hardware sees it: look at it after every write and every tick, and where it
 * is raised set a software interrupt pending, or call the handler.
 *
 * Returns
 *
 *   HB_LINE_LOW          it is low
 *   HB_LINE_RAISED       it is raised
 *   HB_REFUSED_LENGTH    block has not HB_BLOCK_BYTES bytes
 *
 * and nothing else. Nothing is written.
 *
 * Buffers: at any address. Nothing is allocated. Reentrant.
 * Stack: HB_BUS_LINE_STACK bytes.
 */
int64_t hb_bus_line(const uint8_t *block, size_t block_len);

#ifdef __cplusplus
}
#endif

#endif
