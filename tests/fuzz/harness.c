/*
 * A fuzz of summary files, for libFuzzer. Each file goes through the second implementation, in this process and with its coverage counted, and
 * through the program that HANKBOULDER_JUDGE names, as a child process. What the program prints has to be the same byte for byte, with nothing on
 * standard error, and its exit status 0. hb_read_summary, in this process too, has to answer as the second implementation does, and to leave the same
 * bytes; and what it reads hb_write_summary has to write as the file of the mended problem: the same file where its tables are symmetric.
 * hb_judge has to write the number that the program prints behind `over`, and to keep its buffer where it prints no such line.
 * hb_stiffness has to answer as the second implementation does and to leave the same bytes, with a step exactly where the program prints
 * `definite`. hb_pool, handed what was read some times over and the same for its sums, or zeros, has to answer and to leave the same too.
 * The file's bytes are a list of operations on a bus besides, whose starts have the tables that were read; every answer of it, and every
 * byte of block and run area after each operation, has to be the second implementation's.
 */
#define _GNU_SOURCE
#include <errno.h>
#include <fcntl.h>
#include <signal.h>
#include <spawn.h>
#include <stdbool.h>
#include <stdio.h>
#include <stdlib.h>
#include <string.h>
#include <sys/wait.h>
#include <unistd.h>

#include "fuzz.h"
#include "hankboulder.h"

#define ROOM 65536
#define KINDS 32

extern char **environ;
size_t LLVMFuzzerMutate(uint8_t *data, size_t size, size_t max_size);
int LLVMFuzzerInitialize(int *count, char ***arguments);
size_t LLVMFuzzerCustomMutator(uint8_t *data, size_t size, size_t max_size, unsigned seed);
int LLVMFuzzerTestOneInput(const uint8_t *data, size_t size);

static char *program;
static posix_spawnattr_t attributes;

/* Outputs by kind: their lines without those of factors, what their rows have over and vectors, and without the numbers of sides. */
static struct kind {
    char words[64];
    unsigned long count;
} kinds[KINDS];

static _Noreturn void fail(const char *what) {
    perror(what);
    abort();
}

static int by_words(const void *one, const void *other) {
    return strcmp(((const struct kind *)one)->words, ((const struct kind *)other)->words);
}

static void print_kinds(void) {
    size_t met = 0;
    while (met < KINDS && kinds[met].count > 0) {
        met++;
    }
    qsort(kinds, met, sizeof kinds[0], by_words);
    for (size_t k = 0; k < met; k++) {
        fprintf(stderr, "%-30s %10lu files\n", kinds[k].words, kinds[k].count);
    }
    fprintf(stderr, "%zu kinds of output\n", met);
}

/* The kind of an output. */
static void tell_kind(const char *text, char *words, size_t room) {
    size_t used = 0;
    for (size_t length; *text != 0; text += length + 1) {
        length = strcspn(text, "\n");
        bool side = *text == 's', left_out = *text == 'v' || *text == 'o' || (text[0] == 'r' && text[1] == 'o');
        if (left_out) {
            continue;
        }
        used += (size_t)snprintf(words + used, room - used, "%s%.*s", used > 0 ? ", " : "", side ? 4 : (int)length, text);
        if (side || used >= room) {
            return;
        }
    }
}

/* strcmp would have libFuzzer take the words for parts of files. */
static bool same(const char *one, const char *other) {
    while (*one == *other && *one != 0) {
        one++;
        other++;
    }
    return *one == *other;
}

static void count_kind(const char *text) {
    char words[sizeof kinds[0].words] = "";
    size_t k = 0;
    tell_kind(text, words, sizeof words);
    while (k < KINDS && kinds[k].count > 0 && !same(kinds[k].words, words)) {
        k++;
    }
    if (k == KINDS) {
        fprintf(stderr, "too many kinds of output: %s\n", words);
        abort();
    }
    strcpy(kinds[k].words, words);
    kinds[k].count++;
}

int LLVMFuzzerInitialize(int *count, char ***arguments) {
    (void)count;
    (void)arguments;
    sigset_t pipes;
    program = getenv("HANKBOULDER_JUDGE");
    if (program == NULL || access(program, X_OK) != 0) {
        fprintf(stderr, "HANKBOULDER_JUDGE names no program\n");
        exit(2);
    }
    /* The program may end before it has read all. It is started as from a shell, with a broken pipe not ignored. */
    signal(SIGPIPE, SIG_IGN);
    sigemptyset(&pipes);
    sigaddset(&pipes, SIGPIPE);
    posix_spawnattr_init(&attributes);
    posix_spawnattr_setsigdefault(&attributes, &pipes);
    posix_spawnattr_setflags(&attributes, POSIX_SPAWN_SETSIGDEF);
    atexit(print_kinds);
    return 0;
}

/* One file in sixteen is a generated one, and half of all are put right after a mutation, so that they come to a verdict. */
size_t LLVMFuzzerCustomMutator(uint8_t *data, size_t size, size_t max_size, unsigned seed) {
    if (seed % 16 == 0) {
        return fuzz_generate(seed, data, max_size);
    }
    size = LLVMFuzzerMutate(data, size, max_size);
    return seed % 2 == 0 ? size : fuzz_repair(data, size, max_size);
}

static pid_t start(int input, int output) {
    posix_spawn_file_actions_t actions;
    pid_t child;
    char *arguments[] = {program, NULL};
    posix_spawn_file_actions_init(&actions);
    posix_spawn_file_actions_adddup2(&actions, input, STDIN_FILENO);
    posix_spawn_file_actions_adddup2(&actions, output, STDOUT_FILENO);
    posix_spawn_file_actions_adddup2(&actions, output, STDERR_FILENO);
    if (posix_spawn(&child, program, &actions, &attributes, arguments, environ) != 0) {
        fail("posix_spawn");
    }
    posix_spawn_file_actions_destroy(&actions);
    return child;
}

/* Writes all, as far as the program reads it. A file is shorter than a pipe is, so that this does not wait for the program. */
static void put(int pipe, const uint8_t *data, size_t size) {
    while (size > 0) {
        ssize_t done = write(pipe, data, size);
        if (done < 0 && errno == EPIPE) {
            return;
        }
        if (done < 0 && errno != EINTR) {
            fail("write");
        }
        data += done > 0 ? done : 0;
        size -= done > 0 ? (size_t)done : 0;
    }
}

/* Reads to the end; the count of bytes. */
static size_t get(int pipe, uint8_t *text, size_t room) {
    size_t size = 0;
    for (;;) {
        ssize_t done = read(pipe, text + size, room - size);
        if (done < 0 && errno != EINTR) {
            fail("read");
        }
        if (done == 0) {
            return size;
        }
        size += done > 0 ? (size_t)done : 0;
    }
}

/* What the program prints for a file; its exit status. */
static int run(const uint8_t *data, size_t size, uint8_t *text, size_t *length) {
    int input[2], output[2], status;
    if (pipe2(input, O_CLOEXEC) != 0 || pipe2(output, O_CLOEXEC) != 0) {
        fail("pipe2");
    }
    pid_t child = start(input[0], output[1]);
    close(input[0]);
    close(output[1]);
    put(input[1], data, size);
    close(input[1]);
    *length = get(output[0], text, ROOM);
    close(output[0]);
    while (waitpid(child, &status, 0) < 0) {
        if (errno != EINTR) {
            fail("waitpid");
        }
    }
    return status;
}

/* What a file is read into, one behind the other */
struct problem {
    uint8_t order[HB_NUMBER_BYTES];
    uint8_t low[HB_TABLE_BYTES(HB_MAX_ORDER)];
    uint8_t high[HB_TABLE_BYTES(HB_MAX_ORDER)];
    uint8_t linear_low[HB_VECTOR_BYTES(HB_MAX_ORDER)];
    uint8_t linear_high[HB_VECTOR_BYTES(HB_MAX_ORDER)];
    uint8_t limit[HB_NUMBER_BYTES];
    uint8_t centre[HB_VECTOR_BYTES(HB_MAX_ORDER)];
};

/* Whether a table that a file of an order has from a place on is symmetric */
static bool symmetric(const uint8_t *table, size_t n) {
    for (size_t k = 0; k < n * n; k++) {
        if (memcmp(table + 4 * k, table + 4 * (k % n * n + k / n), 4) != 0) {
            return false;
        }
    }
    return true;
}

/* Whether what was read is written as the file of the mended problem, which is the same file exactly where its tables are symmetric */
static bool written_again(const struct problem *read, const uint8_t *data, size_t size) {
    uint8_t file[HB_SUMMARY_BYTES(HB_MAX_ORDER)], expected[HB_SUMMARY_BYTES(HB_MAX_ORDER)];
    int64_t n = hb_load_number(read->order);
    if (size > sizeof file || fuzz_again(data, size, expected, sizeof expected) != size) {
        return false;
    }
    int64_t answer = hb_write_summary(n, read->low, HB_TABLE_BYTES(n), read->high, HB_TABLE_BYTES(n), read->linear_low, HB_VECTOR_BYTES(n),
                                      read->linear_high, HB_VECTOR_BYTES(n), hb_load_number(read->limit), read->centre, HB_VECTOR_BYTES(n), file, size);
    /* L is behind the order's field and its own head, and U behind L and its head. */
    const uint8_t *low = data + 4 + 3, *high = low + 4 * (size_t)(n * n) + 3;
    bool same = memcmp(file, data, size) == 0;
    return answer == HB_WRITTEN && memcmp(file, expected, size) == 0 && same == (symmetric(low, (size_t)n) && symmetric(high, (size_t)n));
}

/* The number behind `over` in the program's text, or another one where it has no such line: no other line begins with an o */
static int64_t printed_over(const char *text, int64_t other) {
    while (*text != 0 && *text != 'o') {
        text += strcspn(text, "\n") + 1;
    }
    return *text == 0 ? other : strtoll(text + strlen("over "), NULL, 10);
}

/* Whether hb_judge writes the number over that the program printed for what was read, and keeps its buffer where none was printed */
static bool same_over(const struct problem *read, const char *text) {
    const int64_t unwritten = INT64_MIN;
    uint8_t factor[HB_TABLE_BYTES(HB_MAX_ORDER)], vector[HB_VECTOR_BYTES(HB_MAX_ORDER)], over[HB_OVER_BYTES];
    int64_t n = hb_load_number(read->order), printed = printed_over(text, unwritten);
    hb_store_number(over, unwritten);
    int64_t verdict = hb_judge(n, read->low, HB_TABLE_BYTES(n), read->high, HB_TABLE_BYTES(n), factor, HB_TABLE_BYTES(n), vector,
                               HB_VECTOR_BYTES(n), over, sizeof over);
    return hb_load_number(over) == printed && (verdict == HB_DEFINITE) == (printed != unwritten);
}

/* What hb_stiffness writes, one behind the other. A vector of a smaller order stands in front of the last buffer. */
struct bracket {
    uint8_t step[HB_STEP_BYTES];
    uint8_t bound[HB_BOUND_BYTES];
    uint8_t vector[HB_VECTOR_BYTES(HB_MAX_ORDER)];
};

/* Whether hb_stiffness gives the second implementation's bracket of what was read, with a step exactly where `definite` was printed */
static bool same_bracket(const struct problem *read, const char *text) {
    struct bracket given, expected;
    int64_t n = hb_load_number(read->order);
    memset(&given, 0x5A, sizeof given);
    memset(&expected, 0x5A, sizeof expected);
    int64_t answer = hb_stiffness(n, read->low, HB_TABLE_BYTES(n), read->high, HB_TABLE_BYTES(n), given.step, sizeof given.step,
                                  given.bound, sizeof given.bound, given.vector, HB_VECTOR_BYTES(n));
    return answer == fuzz_bracket(n, read->low, read->high, (uint8_t *)&expected) && memcmp(&given, &expected, sizeof given) == 0 &&
           (answer == HB_BETWEEN) == (text[0] == 'd');
}

/* Room for the five sums of the greatest order, or for a problem without its centre, one behind the other */
#define SUMS_BYTES (2 * HB_TABLE_BYTES(HB_MAX_ORDER) + 2 * HB_VECTOR_BYTES(HB_MAX_ORDER) + HB_NUMBER_BYTES)

/* Lays down what was read, without its centre, so many times over: each part is a list. */
static void lay_lists(const struct problem *read, size_t table, size_t vector, size_t count, uint8_t *place) {
    const uint8_t *parts[] = {read->low, read->high, read->linear_low, read->linear_high, read->limit};
    const size_t sizes[] = {table, table, vector, vector, HB_NUMBER_BYTES};
    for (size_t part = 0; part < 5; part++) {
        for (size_t k = 0; k < count; k++) {
            memcpy(place, parts[part], sizes[part]);
            place += sizes[part];
        }
    }
}

/*
 * Whether hb_pool pools what was read as the second implementation does: up to 3 times, and one time in eight 64 times, into sums of zeros
 * or into the same numbers. Now and then the last order in the list is another, or none.
 */
static bool same_pool(const struct problem *read) {
    static uint8_t lists[HB_GREATEST_POOL * SUMS_BYTES];
    uint8_t sums[SUMS_BYTES] = {0}, expected[SUMS_BYTES] = {0}, problem[SUMS_BYTES], orders[HB_NUMBERS_BYTES(HB_GREATEST_POOL)];
    int64_t n = hb_load_number(read->order);
    size_t table = HB_TABLE_BYTES(n), vector = HB_VECTOR_BYTES(n);
    size_t count = read->centre[0] % 8 == 3 ? HB_GREATEST_POOL : 1 + read->centre[0] % 3;
    lay_lists(read, table, vector, 1, problem);
    lay_lists(read, table, vector, count, lists);
    for (size_t k = 0; k < count; k++) {
        hb_store_number(orders + HB_NUMBERS_BYTES(k), n);
    }
    if (read->low[1] % 16 == 7) {
        hb_store_number(orders + HB_NUMBERS_BYTES(count - 1), read->low[0] % 16);
    }
    if (read->low[0] % 2 == 1) {
        memcpy(sums, problem, 2 * table + 2 * vector + HB_NUMBER_BYTES);
        memcpy(expected, sums, sizeof sums);
    }
    uint8_t *high = sums + table, *linear_low = high + table, *linear_high = linear_low + vector, *running_limit = linear_high + vector;
    uint8_t *highs = lists + count * table, *linear_lows = highs + count * table, *linear_highs = linear_lows + count * vector;
    int64_t answer = hb_pool(n, sums, table, high, table, linear_low, vector, linear_high, vector, running_limit, HB_NUMBER_BYTES, orders,
                             HB_NUMBERS_BYTES(count), lists, count * table, highs, count * table, linear_lows, count * vector, linear_highs,
                             count * vector, linear_highs + count * vector, HB_NUMBERS_BYTES(count));
    return answer == fuzz_pool(n, expected, problem, orders, count) && memcmp(sums, expected, sizeof sums) == 0;
}

/* A bus, and the byte that was read from it last */
struct bus {
    uint8_t block[HB_BLOCK_BYTES];
    uint8_t run[HB_RUN_BYTES];
    uint8_t value[HB_VALUE_BYTES];
};

/* The entries of the bus: the library's, and the second implementation's */
static const struct bus_entries {
    int64_t (*write)(uint8_t *, size_t, uint8_t *, size_t, int64_t, uint8_t, const uint8_t *, size_t, const uint8_t *, size_t);
    int64_t (*tick)(uint8_t *, size_t, uint8_t *, size_t);
    int64_t (*read)(const uint8_t *, size_t, int64_t, uint8_t *, size_t);
    int64_t (*line)(const uint8_t *, size_t);
} library = {hb_bus_write, hb_bus_tick, hb_bus_read, hb_bus_line}, second = {fuzz_bus_write, fuzz_bus_tick, fuzz_bus_read, fuzz_bus_line};

/* At most so many operations of a file, of three bytes each: the kind, and two that it is handed */
#define OPERATIONS 64
enum { KIND_READ = 3, KIND_LINE, KIND_WRITE, KIND_START, KIND_PUT, KINDS_OF_OPERATION }; /* those below are ticks */

/* Carries out an operation; its answer. A start has the tables that were read, for this order; and a byte anywhere in a bus can be put. */
static int64_t carry_out(const struct bus_entries *entries, struct bus *bus, const struct problem *read, size_t table,
                         const uint8_t *operation) {
    int64_t address = (int8_t)operation[1];
    uint8_t value = operation[2];
    switch (operation[0] % KINDS_OF_OPERATION) {
    case KIND_READ:
        return entries->read(bus->block, sizeof bus->block, address, bus->value, sizeof bus->value);
    case KIND_LINE:
        return entries->line(bus->block, sizeof bus->block);
    case KIND_START:
        address = HB_BUS_COMMAND;
        value = HB_BUS_START; /* fall through */
    case KIND_WRITE:
        return entries->write(bus->block, sizeof bus->block, bus->run, sizeof bus->run, address, value, read->low, table, read->high,
                              table);
    case KIND_PUT:
        if (operation[0] % 16 == KIND_PUT) {
            bus->block[operation[1] % sizeof bus->block] = value;
        } else {
            bus->run[(operation[0] / 16 * 256U + operation[1]) % sizeof bus->run] = value;
        }
        return 0;
    default:
        return entries->tick(bus->block, sizeof bus->block, bus->run, sizeof bus->run);
    }
}

/* Whether the operations that a file's bytes are, behind an order and a start of what was read, come out on both buses alike */
static bool same_bus(const struct problem *read, int64_t n, const uint8_t *data, size_t size) {
    struct bus given = {{0}, {0}, {0}}, expected = {{0}, {0}, {0}};
    size_t table = n >= 1 && n <= HB_MAX_ORDER ? HB_TABLE_BYTES(n) : 0;
    const uint8_t first[][3] = {{KIND_WRITE, HB_BUS_ORDER, (uint8_t)n}, {KIND_START, 0, 0}};
    for (size_t k = 0; k < OPERATIONS; k++) {
        const uint8_t *operation = k < 2 ? first[k] : data + 3 * (k - 2);
        if (k >= 2 && 3 * (k - 1) > size) {
            break;
        }
        if (carry_out(&library, &given, read, table, operation) != carry_out(&second, &expected, read, table, operation) ||
            memcmp(&given, &expected, sizeof given) != 0) {
            return false;
        }
    }
    return true;
}

static void compare_reading(const uint8_t *data, size_t size, const char *text) {
    struct problem read, expected;
    memset(&read, 0x5A, sizeof read);
    memset(&expected, 0x5A, sizeof expected);
    int64_t answer = hb_read_summary(data, size, read.order, sizeof read.order, read.low, sizeof read.low, read.high, sizeof read.high, read.linear_low,
                                     sizeof read.linear_low, read.linear_high, sizeof read.linear_high, read.limit, sizeof read.limit,
                                     read.centre, sizeof read.centre);
    int64_t expected_answer = fuzz_read(data, size, (uint8_t *)&expected);
    if (answer != expected_answer || memcmp(&read, &expected, sizeof read) != 0) {
        fprintf(stderr, "DIFFERENCE on %zu bytes: hb_read_summary answers %d, the second implementation %d\n", size, (int)answer,
                (int)expected_answer);
        abort();
    }
    if (answer == HB_WRITTEN && !written_again(&read, data, size)) {
        fprintf(stderr, "DIFFERENCE on %zu bytes: hb_write_summary writes another file\n", size);
        abort();
    }
    if (answer == HB_WRITTEN && !same_over(&read, text)) {
        fprintf(stderr, "DIFFERENCE on %zu bytes: hb_judge has another number over than the program:\n%s", size, text);
        abort();
    }
    if (answer == HB_WRITTEN && !same_bracket(&read, text)) {
        fprintf(stderr, "DIFFERENCE on %zu bytes: hb_stiffness gives another bracket than the second implementation:\n%s", size, text);
        abort();
    }
    if (answer == HB_WRITTEN && !same_pool(&read)) {
        fprintf(stderr, "DIFFERENCE on %zu bytes: hb_pool answers or leaves otherwise than the second implementation\n", size);
        abort();
    }
    if (!same_bus(&read, answer == HB_WRITTEN ? hb_load_number(read.order) : HB_MAX_ORDER, data, size)) {
        fprintf(stderr, "DIFFERENCE on %zu bytes: a bus answers or is left otherwise than the second implementation's\n", size);
        abort();
    }
}

int LLVMFuzzerTestOneInput(const uint8_t *data, size_t size) {
    static uint8_t expected[ROOM], printed[ROOM];
    size_t length, expected_length = fuzz_expected(data, size, expected, ROOM - 1);
    expected[expected_length] = 0;
    int status = run(data, size, printed, &length);
    if (status != 0 || length != expected_length || memcmp(printed, expected, length) != 0) {
        fprintf(stderr, "DIFFERENCE on %zu bytes: wait status %d\n-- the program:\n%.*s-- the second implementation:\n%s", size, status, (int)length,
                (char *)printed, (char *)expected);
        abort();
    }
    compare_reading(data, size, (char *)expected);
    count_kind((char *)expected);
    return 0;
}
