/*
 * Calls the library's C entries with seeded calls, on two threads, and compares each answer and every byte of every buffer with the second
 * implementation. Ends with status 1 at the first difference, and names the seed and the call's number.
 *
 *     driver CALLS SEED [FIRST]
 *
 * CALLS calls are made, from number FIRST on. Without FIRST, which is then 0, each act must have given each of its answers.
 *
 * A buffer is lent from a heap block that ends with it, from one with guard bytes on both sides, from the end of a page that a closed page follows,
 * or from the start of a page that a closed page precedes. In half of the calls it is moved from there by up to 7 bytes, and if it is empty it is
 * null in half of the calls. All bytes beside it in its block or page are guard bytes, which must be kept and are poisoned during the call, for
 * memcheck or the address sanitizer. A const buffer in a page is read-only in one call of eight.
 */
#define _GNU_SOURCE
#include <inttypes.h>
#include <pthread.h>
#include <stdatomic.h>
#include <stdbool.h>
#include <stdio.h>
#include <stdlib.h>
#include <string.h>
#include <sys/mman.h>
#include <time.h>
#include <unistd.h>

#include "hankboulder.h"
#include "load.h"

/*
 * CLOSE and OPEN: bytes that may not be touched from here on, and may again. FORGET and KNOWN: bytes whose values may not be looked at, and whether
 * all have got a value since. ERRORS: how many memcheck has found so far.
 */
#ifdef LOAD_VALGRIND
#include <valgrind/memcheck.h>
#define CLOSE(bytes, length) VALGRIND_MAKE_MEM_NOACCESS(bytes, length)
#define OPEN(bytes, length) VALGRIND_MAKE_MEM_DEFINED(bytes, length)
#define FORGET(bytes, length) VALGRIND_MAKE_MEM_UNDEFINED(bytes, length)
#define KNOWN(bytes, length) (VALGRIND_CHECK_MEM_IS_DEFINED(bytes, length) == 0)
#define ERRORS() VALGRIND_COUNT_ERRORS
#else
#include <sanitizer/asan_interface.h>
#define CLOSE(bytes, length) ASAN_POISON_MEMORY_REGION(bytes, length)
#define OPEN(bytes, length) ASAN_UNPOISON_MEMORY_REGION(bytes, length)
#define FORGET(bytes, length) ((void)(bytes), (void)(length))
#define KNOWN(bytes, length) ((void)(bytes), (void)(length), true)
#define ERRORS() 0
#endif

#define THREADS 2
#define GUARD 32
#define PAGE 36864 /* nine of the processor's, so that a list of 65 tables of the greatest order has room */
/* Numbers are dealt to the threads in blocks of this many. */
#define BLOCK 168
#define PROGRESS 10 /* seconds */

/* Answers are -2 to 20, orders 1 to 8 or out of range (0). */
#define LEAST (-2)
#define ANSWERS (HB_REFUSED_BUSY - LEAST + 1)
#define ORDERS (HB_MAX_ORDER + 1)

struct act {
    const char *name;
    /* Each answer that it can give, and its word; the first without a word ends them. */
    struct {
        int64_t answer;
        const char *word;
    } answers[ANSWERS];
};

#define REFUSED_1_TO_5 \
    {HB_REFUSED_ORDER, "order"}, {HB_REFUSED_LENGTH, "length"}, {HB_REFUSED_RANGE, "range"}, {HB_REFUSED_CROSSED, "crossed"}, \
        {HB_REFUSED_LOPSIDED, "lopsided"}

static const struct act acts[LOAD_ACTS] = {
    [LOAD_JUDGE] = {"hb_judge", {{HB_DEFINITE, "definite"}, {HB_NOT_DEFINITE, "not definite"}, {HB_UNDECIDED, "undecided"}, REFUSED_1_TO_5}},
    [LOAD_TEST_FACTOR] = {"hb_test_factor",
                          {{HB_ACCEPTED, "accepted"}, {HB_NOT_ACCEPTED, "not accepted"}, REFUSED_1_TO_5, {HB_REFUSED_FACTOR, "factor"}}},
    [LOAD_TEST_VECTOR] = {"hb_test_vector", {{HB_YES, "yes"}, {HB_NO, "no"}, REFUSED_1_TO_5, {HB_REFUSED_VECTOR, "vector"}}},
    [LOAD_BOX] = {"hb_box",
                  {{HB_BOX, "box"},
                   {HB_EMPTY, "empty"},
                   REFUSED_1_TO_5,
                   {HB_REFUSED_REVERSED, "reversed"},
                   {HB_REFUSED_FLAT, "flat"},
                   {HB_REFUSED_FAR, "far"}}},
    [LOAD_STIFFNESS] = {"hb_stiffness", {{HB_BETWEEN, "between"}, {HB_AT_MOST, "at most"}, REFUSED_1_TO_5}},
    [LOAD_GATHER] = {"hb_gather",
                     {{HB_TAKEN, "taken"},
                      {HB_REFUSED_SAMPLE, "sample"},
                      REFUSED_1_TO_5,
                      {HB_REFUSED_REVERSED, "reversed"}}},
    [LOAD_POOL] = {"hb_pool", {{HB_TAKEN, "taken"}, REFUSED_1_TO_5, {HB_REFUSED_REVERSED, "reversed"}, {HB_REFUSED_FULL, "full"}}},
    [LOAD_READ_SUMS] = {"hb_read_sums", {{HB_WRITTEN, "written"}, REFUSED_1_TO_5, {HB_REFUSED_REVERSED, "reversed"}}},
    [LOAD_WRITE_SUMMARY] = {"hb_write_summary", {{HB_WRITTEN, "written"}, REFUSED_1_TO_5, {HB_REFUSED_REVERSED, "reversed"}}},
    [LOAD_READ_SUMMARY] = {"hb_read_summary",
                           {{HB_WRITTEN, "written"},
                            REFUSED_1_TO_5,
                            {HB_REFUSED_CUT, "cut"},
                            {HB_REFUSED_TAG, "tag"},
                            {HB_REFUSED_AGAIN, "again"},
                            {HB_REFUSED_ABSENT, "absent"},
                            {HB_REFUSED_SIZE, "size"},
                            {HB_REFUSED_LONG, "long"},
                            {HB_REFUSED_REVERSED, "reversed"},
                            {HB_REFUSED_FALLING, "falling"}}},
    [LOAD_BUS_WRITE] = {"hb_bus_write", {{HB_TAKEN, "taken"}, {HB_REFUSED_LENGTH, "length"}, {HB_REFUSED_BUSY, "busy"}}},
    [LOAD_BUS_TICK] = {"hb_bus_tick", {{HB_TICKED, "ticked"}, {HB_REFUSED_LENGTH, "length"}}},
    [LOAD_BUS_READ] = {"hb_bus_read", {{HB_READ, "read"}, {HB_REFUSED_LENGTH, "length"}}},
    [LOAD_BUS_LINE] = {"hb_bus_line", {{HB_LINE_LOW, "low"}, {HB_LINE_RAISED, "raised"}, {HB_REFUSED_LENGTH, "length"}}},
};

/* Calls by act, order and answer. */
typedef uint64_t counts[LOAD_ACTS][ORDERS][ANSWERS];

/* A buffer as it is lent: guard bytes in front, its content, and guard bytes at the back. */
struct place {
    uint8_t *block, *content, *lent;
    size_t front, length, back;
    uint8_t fill;
    bool heap;
};

struct worker {
    pthread_t thread;
    uint8_t *pages[LOAD_MOST]; /* each between two closed pages */
    counts met;
};

static uint64_t seed, first, calls;
static atomic_uint_fast64_t next;
static double begun;
static atomic_uint said;
static _Thread_local uint64_t current;

static void say_where(void) {
    fprintf(stderr, "seed %" PRIu64 ", call %" PRIu64 "; again by: tests/load/run 1 %" PRIu64 " %" PRIu64 "\n", seed, current, seed, current);
}

static _Noreturn void differ(const struct load_call *call, const char *what) {
    static pthread_mutex_t lock = PTHREAD_MUTEX_INITIALIZER;
    pthread_mutex_lock(&lock);
    fprintf(stderr, "%s, order %" PRId64 ", expected answer %" PRId64 ": %s\n", acts[call->act].name, call->n, call->answer, what);
    say_where();
    _exit(1);
}

/* 64 random bits for a number (splitmix64). */
static uint64_t mixed(uint64_t number) {
    number += 0x9E3779B97F4A7C15;
    number = (number ^ (number >> 30)) * 0xBF58476D1CE4E5B9;
    number = (number ^ (number >> 27)) * 0x94D049BB133111EB;
    return number ^ (number >> 31);
}

/* Ends a run that cannot go on. */
static _Noreturn void fail(const char *what) {
    perror(what);
    _exit(2);
}

static void protect(uint8_t *page, int protection) {
    if (mprotect(page, PAGE, protection) != 0) {
        fail("mprotect");
    }
}

/* A page between two closed ones. */
static uint8_t *new_page(void) {
    uint8_t *pages = mmap(NULL, 3 * PAGE, PROT_NONE, MAP_PRIVATE | MAP_ANONYMOUS, -1, 0);
    if (pages == MAP_FAILED) {
        fail("mmap");
    }
    protect(pages + PAGE, PROT_READ | PROT_WRITE);
    return pages + PAGE;
}

/* Where a buffer is lent from, by random bits. */
static struct place chosen(size_t length, uint8_t *page, uint64_t bits) {
    struct place place = {.length = length, .fill = (uint8_t)(bits >> 8)};
    size_t shift = bits & 1 ? (bits >> 1) & 7 : 0;
    if (length + shift > PAGE) {
        fail("a buffer has no room in a page");
    }
    switch ((bits >> 4) & 3) {
    case 0:
        place.front = shift;
        place.heap = true;
        break;
    case 1:
        place.front = GUARD + shift;
        place.back = GUARD;
        place.heap = true;
        break;
    case 2:
        place.front = PAGE - length - shift;
        place.back = shift;
        break;
    default:
        place.front = shift;
        place.back = PAGE - length - shift;
    }
    place.block = place.heap ? malloc(place.front + length + place.back) : page;
    if (place.block == NULL) {
        fail("no memory");
    }
    place.content = place.block + place.front;
    place.lent = length == 0 && (bits >> 6) & 1 ? NULL : place.content;
    return place;
}

/* Lays a buffer between its guard bytes. */
static void lay(const struct place *place, const struct load_buffer *buffer) {
    memset(place->block, place->fill, place->front);
    if (place->length > 0) {
        memcpy(place->content, buffer->before, place->length);
    }
    memset(place->content + place->length, place->fill, place->back);
    CLOSE(place->block, place->front);
    CLOSE(place->content + place->length, place->back);
}

/* Whether all bytes are the fill: the first is, and each is as the one before it. */
static bool filled(const uint8_t *bytes, size_t length, uint8_t fill) {
    return length == 0 || (bytes[0] == fill && memcmp(bytes, bytes + 1, length - 1) == 0);
}

/* What is wrong with a buffer after the call, or NULL. */
static const char *fault(const struct place *place, const struct load_buffer *buffer, bool written) {
    uint8_t *back = place->content + place->length;
    if (written && !KNOWN(place->content, place->length)) {
        return "a byte has no value in a buffer that is written whole";
    }
    OPEN(place->block, place->front);
    OPEN(place->content, place->length);
    OPEN(back, place->back);
    if (!filled(place->block, place->front, place->fill) || !filled(back, place->back, place->fill)) {
        return "a byte beside a buffer is changed";
    }
    if (place->length > 0 && memcmp(place->content, buffer->after, place->length) != 0) {
        return "another byte in a buffer";
    }
    return NULL;
}

static int64_t answered(const struct load_call *call, const struct place *lent) {
    int64_t n = call->n;
    hb_sample sample;
    memcpy(&sample, call->sample, sizeof sample);
    const struct place *low = &lent[0], *high = &lent[1], *third = &lent[2], *fourth = &lent[3], *fifth = &lent[4], *sixth = &lent[5];
    const struct place *seventh = &lent[6], *eighth = &lent[7], *ninth = &lent[8], *tenth = &lent[9], *eleventh = &lent[10];
    switch (call->act) {
    case LOAD_JUDGE:
        return hb_judge(n, low->lent, low->length, high->lent, high->length, third->lent, third->length, fourth->lent, fourth->length,
                        fifth->lent, fifth->length);
    case LOAD_TEST_FACTOR:
        return hb_test_factor(n, low->lent, low->length, high->lent, high->length, third->lent, third->length, fourth->lent,
                              fourth->length);
    case LOAD_TEST_VECTOR:
        return hb_test_vector(n, low->lent, low->length, high->lent, high->length, third->lent, third->length);
    case LOAD_STIFFNESS:
        return hb_stiffness(n, low->lent, low->length, high->lent, high->length, third->lent, third->length, fourth->lent, fourth->length,
                            fifth->lent, fifth->length);
    case LOAD_GATHER:
        return hb_gather(sample, n, low->lent, low->length, high->lent, high->length, third->lent, third->length, fourth->lent, fourth->length,
                         fifth->lent, fifth->length);
    case LOAD_POOL:
        return hb_pool(n, low->lent, low->length, high->lent, high->length, third->lent, third->length, fourth->lent, fourth->length,
                       fifth->lent, fifth->length, sixth->lent, sixth->length, seventh->lent, seventh->length, eighth->lent, eighth->length,
                       ninth->lent, ninth->length, tenth->lent, tenth->length, eleventh->lent, eleventh->length);
    case LOAD_READ_SUMS:
        return hb_read_sums(n, low->lent, low->length, high->lent, high->length, third->lent, third->length, fourth->lent, fourth->length,
                            call->running_limit, call->allowance, fifth->lent, fifth->length);
    case LOAD_WRITE_SUMMARY:
        return hb_write_summary(n, low->lent, low->length, high->lent, high->length, third->lent, third->length, fourth->lent, fourth->length,
                                call->limit, fifth->lent, fifth->length, sixth->lent, sixth->length);
    case LOAD_READ_SUMMARY: /* the file is the first */
        return hb_read_summary(low->lent, low->length, high->lent, high->length, third->lent, third->length, fourth->lent, fourth->length,
                               fifth->lent, fifth->length, sixth->lent, sixth->length, seventh->lent, seventh->length, eighth->lent,
                               eighth->length);
    case LOAD_BUS_WRITE: /* block and run area, then the tables */
        return hb_bus_write(low->lent, low->length, high->lent, high->length, call->address, call->value, third->lent, third->length,
                            fourth->lent, fourth->length);
    case LOAD_BUS_TICK:
        return hb_bus_tick(low->lent, low->length, high->lent, high->length);
    case LOAD_BUS_READ:
        return hb_bus_read(low->lent, low->length, call->address, high->lent, high->length);
    case LOAD_BUS_LINE:
        return hb_bus_line(low->lent, low->length);
    default:
        return hb_box(n, low->lent, low->length, high->lent, high->length, third->lent, third->length, fourth->lent, fourth->length,
                      call->limit, fifth->lent, fifth->length, sixth->lent, sixth->length);
    }
}

/* Whether the answer has a buffer written whole. */
static bool is_written(const struct load_call *call, size_t k) {
    if (call->act == LOAD_JUDGE) { /* the factor with what its rows have over, or the vector */
        return (call->answer == HB_DEFINITE && (k == 2 || k == 4)) || (call->answer == HB_NOT_DEFINITE && k == 3);
    }
    if (call->act == LOAD_TEST_FACTOR) {
        return (call->answer == HB_ACCEPTED || call->answer == HB_NOT_ACCEPTED) && k == 3;
    }
    if (call->act == LOAD_STIFFNESS) { /* the bound with its vector, and the step before them */
        return (call->answer == HB_BETWEEN && k >= 2) || (call->answer == HB_AT_MOST && k >= 3);
    }
    if (call->act == LOAD_GATHER || call->act == LOAD_POOL) { /* the sums */
        return call->answer == HB_TAKEN && k < 5;
    }
    if (call->act == LOAD_READ_SUMS) {
        return call->answer == HB_WRITTEN && k == 4;
    }
    if (call->act == LOAD_WRITE_SUMMARY) {
        return call->answer == HB_WRITTEN && k == 5;
    }
    if (call->act == LOAD_READ_SUMMARY) {
        return call->answer == HB_WRITTEN && k > 0;
    }
    if (call->act == LOAD_BUS_READ) {
        return call->answer == HB_READ && k == 1;
    }
    return call->act == LOAD_BOX && call->answer == HB_BOX && k == 5;
}

/* Lends the buffers of a call; which of them are read-only. */
static void lend(struct worker *worker, const struct load_call *call, struct place *lent, bool *sealed) {
    for (size_t k = 0; k < call->count; k++) {
        uint64_t bits = mixed(mixed(seed ^ (current << 3)) ^ k);
        bool read_only = k >= call->only_read_from && k < call->read;
        lent[k] = chosen(call->buffers[k].length, worker->pages[k], bits);
        lay(&lent[k], &call->buffers[k]);
        sealed[k] = read_only && !lent[k].heap && (bits >> 16) % 8 == 0;
        if (sealed[k]) {
            protect(worker->pages[k], PROT_READ);
        }
        if (k >= call->read) {
            FORGET(lent[k].content, lent[k].length);
        }
    }
}

/* Makes a call and compares. */
static void compare(struct worker *worker, const struct load_call *call) {
    struct place lent[LOAD_MOST];
    bool sealed[LOAD_MOST];
    lend(worker, call, lent, sealed);
    unsigned long errors = ERRORS();
    int64_t answer = answered(call, lent);
    if (ERRORS() != errors) {
        differ(call, "memcheck found an error");
    }
    if (answer != call->answer) {
        fprintf(stderr, "answer %" PRId64 "\n", answer);
        differ(call, "another answer");
    }
    for (size_t k = 0; k < call->count; k++) {
        if (sealed[k]) {
            protect(worker->pages[k], PROT_READ | PROT_WRITE);
        }
        const char *what = fault(&lent[k], &call->buffers[k], is_written(call, k));
        if (what != NULL) {
            fprintf(stderr, "buffer %zu\n", k);
            differ(call, what);
        }
        if (lent[k].heap) {
            free(lent[k].block);
        }
    }
}

static void count(struct worker *worker, const struct load_call *call) {
    size_t order = call->n >= 1 && call->n <= HB_MAX_ORDER ? (size_t)call->n : 0;
    if (call->answer < LEAST || call->answer >= LEAST + ANSWERS) {
        differ(call, "no such answer");
    }
    worker->met[call->act][order][call->answer - LEAST]++;
}

static double seconds(void) {
    struct timespec now;
    clock_gettime(CLOCK_MONOTONIC, &now);
    return (double)now.tv_sec + (double)now.tv_nsec / 1e9;
}

/* Says how far the calls are, once in so many seconds, whichever thread comes first. */
static void say_progress(void) {
    unsigned turn = (unsigned)((seconds() - begun) / PROGRESS), last = atomic_load(&said);
    if (turn > last && atomic_compare_exchange_strong(&said, &last, turn)) {
        uint64_t taken = atomic_load(&next);
        fprintf(stderr, "%u s: %" PRIu64 " of %" PRIu64 " calls\n", turn * PROGRESS, taken < calls ? taken : calls, calls);
    }
}

static void *work(void *argument) {
    struct worker *worker = argument;
    struct load_source *source = load_open(seed);
    struct load_call call;
    for (size_t k = 0; k < LOAD_MOST; k++) {
        worker->pages[k] = new_page();
    }
    for (;;) {
        uint64_t start = atomic_fetch_add(&next, BLOCK);
        for (uint64_t done = start; done < start + BLOCK && done < calls; done++) {
            current = first + done;
            load_call(source, current, &call);
            compare(worker, &call);
            count(worker, &call);
        }
        say_progress();
        if (start + BLOCK >= calls) {
            break;
        }
    }
    for (size_t k = 0; k < LOAD_MOST; k++) {
        munmap(worker->pages[k] - PAGE, 3 * PAGE);
    }
    load_close(source);
    return NULL;
}

/* Calls of an act with an answer, or of an order, of any act and answer. */
static uint64_t with_answer(counts met, size_t act, int64_t answer) {
    uint64_t sum = 0;
    for (size_t order = 0; order < ORDERS; order++) {
        sum += met[act][order][answer - LEAST];
    }
    return sum;
}

static uint64_t of_order(counts met, size_t order) {
    uint64_t sum = 0;
    for (size_t act = 0; act < LOAD_ACTS; act++) {
        for (size_t answer = 0; answer < ANSWERS; answer++) {
            sum += met[act][order][answer];
        }
    }
    return sum;
}

/* Prints the calls by act and answer, and by order; whether each act gave each of its answers. */
static bool print(counts met) {
    bool all = true;
    printf("%-16s %-13s %6s %10s\n", "act", "answer", "number", "calls");
    for (size_t act = 0; act < LOAD_ACTS; act++) {
        uint64_t total = 0;
        for (size_t k = 0; k < ANSWERS && acts[act].answers[k].word != NULL; k++) {
            int64_t answer = acts[act].answers[k].answer;
            uint64_t given = with_answer(met, act, answer);
            printf("%-16s %-13s %6" PRId64 " %10" PRIu64 "\n", acts[act].name, acts[act].answers[k].word, answer, given);
            total += given;
            all = all && given > 0;
        }
        printf("%-16s %-13s %6s %10" PRIu64 "\n", acts[act].name, "all", "", total);
    }
    for (size_t order = 1; order < ORDERS; order++) {
        printf("order %-10zu %-13s %6s %10" PRIu64 "\n", order, "all", "", of_order(met, order));
    }
    printf("%-16s %-13s %6s %10" PRIu64 "\n", "other orders", "all", "", of_order(met, 0));
    return all;
}

int main(int count_of_arguments, char **arguments) {
    if (count_of_arguments < 3) {
        fprintf(stderr, "driver CALLS SEED [FIRST]\n");
        return 2;
    }
    static struct worker workers[THREADS];
    static counts met;
    bool whole = count_of_arguments < 4;
    calls = strtoull(arguments[1], NULL, 10);
    seed = strtoull(arguments[2], NULL, 10);
    first = whole ? 0 : strtoull(arguments[3], NULL, 10);
#ifndef LOAD_VALGRIND
    __sanitizer_set_death_callback(say_where);
#endif
    begun = seconds();
    for (size_t k = 0; k < THREADS; k++) {
        if (pthread_create(&workers[k].thread, NULL, work, &workers[k]) != 0) {
            return 2;
        }
    }
    for (size_t k = 0; k < THREADS; k++) {
        pthread_join(workers[k].thread, NULL);
        for (size_t place = 0; place < sizeof met / sizeof met[0][0][0]; place++) {
            (&met[0][0][0])[place] += (&workers[k].met[0][0][0])[place];
        }
    }
    double taken = seconds() - begun;
    bool all = print(met);
    printf("seed %" PRIu64 ", %" PRIu64 " calls in %.0f s, %.0f a second, no difference\n", seed, calls, taken, (double)calls / taken);
    if (whole && !all) {
        printf("an act has not given each of its answers\n");
        return 1;
    }
    return 0;
}
