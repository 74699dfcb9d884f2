/* part: begin */
/*
 * The judge on the display bus: a driver with a timer and an interrupt handler, and the log of a run in which the processor around it is
 * simulated. docs/FIRMWARE.md shows it.
 */
#include <inttypes.h>
#include <stdio.h>
#include <stdlib.h>

#include "hankboulder.h"

/* part: bus */
/* The bus: its registers and its run area. All bytes 0 are a bus that was reset. */
static uint8_t block[HB_BLOCK_BYTES], run[HB_RUN_BYTES];

/* What is to be judged, where the processor stores the low byte first. Where the bounds are equal, low and high may be one table. */
struct problem {
    const char *name;
    uint8_t order;
    const int64_t *low, *high;
};

/*
 * The processor's part, simulated below: interrupts that come between the first two are served by the second. The two may be nested, and
 * the compiler must not move an access to memory over either. The third has the line's handler called, as soon as no interrupt is held.
 */
static void hold_interrupts(void);
static void release_interrupts(void);
static void pend_line(void);

/* The log, which a unit has no need of */
static void log_access(const char *access, int64_t answer);
static void log_register(const char *access, int64_t address, uint8_t value, int64_t answer);

/* What has to be true, whatever is judged: where it is not, the program is wrong. A unit would restart. */
static void check(int is_so)
{
    if (!is_so) {
        fprintf(stderr, "driver: a call was answered as it should not be\n");
        exit(EXIT_FAILURE);
    }
}

/* No hardware sees the line. So the driver looks at it after each write and each tick. */
static void look_at_line(void)
{
    int64_t answer = hb_bus_line(block, sizeof block);
    check(answer == HB_LINE_RAISED || answer == HB_LINE_LOW);
    if (answer == HB_LINE_RAISED)
        pend_line();
}

/* Two writers of one bus must not meet, and the timer's handler is one: so the main loop holds interrupts while it calls. */
static uint8_t read_register(int64_t address)
{
    uint8_t value = 0;
    hold_interrupts();
    int64_t answer = hb_bus_read(block, sizeof block, address, &value, HB_VALUE_BYTES);
    check(answer == HB_READ);
    log_register("read", address, value, answer);
    release_interrupts();
    return value;
}

static void write_register(int64_t address, uint8_t value)
{
    hold_interrupts();
    int64_t answer = hb_bus_write(block, sizeof block, run, sizeof run, address, value, NULL, 0, NULL, 0);
    check(answer == HB_TAKEN);
    log_register("write", address, value, answer);
    look_at_line();
    release_interrupts();
}

/* part: driver */
/* What the handlers have for the main loop: what has ended, 0 where nothing has, what goes with it, and the ticks since the last start */
static volatile uint8_t found, verdict, refusal, ticks;

/* The handler is to hear of the end of a judgement and of a start that is refused. A reset clears the mask too: then this is done again. */
static void set_up(void)
{
    write_register(HB_BUS_MASK, HB_BUS_DONE | HB_BUS_REFUSED);
}

/*
 * Starts a judgement. Returns 1 where it is begun, or refused: the handler hears of either. The tables are copied, and may be changed at
 * once. Returns 0 where another one is under way: it goes on, and this one has to wait.
 *
 * A start keeps the flags. They are cleared before it, and what the handler has found, in one piece with it: so what is found after it is
 * of this problem, and of no earlier one whose end nobody has asked for.
 */
static int start(const struct problem *problem)
{
    size_t size = HB_TABLE_BYTES(problem->order);
    hold_interrupts();
    write_register(HB_BUS_ORDER, problem->order);
    write_register(HB_BUS_FLAGS, HB_BUS_BUSY | HB_BUS_DONE | HB_BUS_REFUSED);
    int64_t answer = hb_bus_write(block, sizeof block, run, sizeof run, HB_BUS_COMMAND, HB_BUS_START, (const uint8_t *)problem->low, size,
                                  (const uint8_t *)problem->high, size);
    check(answer == HB_TAKEN || answer == HB_REFUSED_BUSY);
    if (answer == HB_TAKEN) {
        found = 0;
        ticks = 0;
    }
    log_access("start", answer);
    look_at_line();
    release_interrupts();
    return answer != HB_REFUSED_BUSY;
}

/* Stops whatever is under way, and forgets what has ended. It is due at power-up, and where a judgement does not end in time. */
static void reset(void)
{
    hold_interrupts();
    int64_t answer = hb_bus_write(block, sizeof block, run, sizeof run, HB_BUS_COMMAND, HB_BUS_RESET, NULL, 0, NULL, 0);
    check(answer == HB_TAKEN);
    found = 0;
    ticks = 0;
    log_access("reset", answer);
    release_interrupts();
}

/* part: handlers */
/* The timer's handler does one step of the work. Where no judgement is under way the tick does nothing. */
static void on_timer(void)
{
    int64_t answer = hb_bus_tick(block, sizeof block, run, sizeof run);
    check(answer == HB_TICKED);
    if (ticks < UINT8_MAX)
        ticks++;
    log_access("tick", answer);
    look_at_line();
}

/*
 * The line's handler clears the flags that it has read, and no others, and takes what they stand for. A flag that an earlier start has left
 * stands for nothing: verdict or refusal number is 0 then.
 */
static void on_line(void)
{
    uint8_t flags = read_register(HB_BUS_FLAGS);
    write_register(HB_BUS_FLAGS, flags);
    uint8_t judged = flags & HB_BUS_DONE ? read_register(HB_BUS_VERDICT) : HB_BUS_NO_VERDICT;
    uint8_t refused = flags & HB_BUS_REFUSED ? read_register(HB_BUS_REFUSAL) : 0;
    if (judged != HB_BUS_NO_VERDICT) {
        verdict = judged;
        found = HB_BUS_DONE;
    }
    if (refused != 0) {
        refusal = refused;
        found = HB_BUS_REFUSED;
    }
}

/* part: processor */
/* The processor, simulated: an access to the bus takes one unit of time, and so does a piece of other work. The timer comes every 8. */
#define PERIOD 8

static unsigned now, next_timer = PERIOD, holds, worked;
static int line_is_pending;
static const char *who = "main";

static void handle(const char *name, void (*handler)(void))
{
    who = name;
    holds++;
    handler();
    holds--;
    who = "main";
}

/* Serves what has come: the line before the timer, and the line again where it was pended again */
static void serve(void)
{
    while (holds == 0) {
        if (line_is_pending) {
            line_is_pending = 0;
            handle("handler", on_line);
        } else if (now >= next_timer) {
            next_timer += PERIOD;
            handle("timer", on_timer);
        } else {
            return;
        }
    }
}

static void hold_interrupts(void)
{
    holds++;
}

static void release_interrupts(void)
{
    holds--;
    serve();
}

static void pend_line(void)
{
    line_is_pending = 1;
}

static void work(unsigned units)
{
    for (; units > 0; units--) {
        now++;
        worked++;
        serve();
    }
}

/* part: log */
static void log_heading(void)
{
    printf("time  by       access          answer  status refusal verdict    mask   flags   order   line\n");
}

/*
 * A line of the log: when, by whom and what, the answer, and the registers and the line as they are then. The handlers print it too, which
 * is for the log alone: a handler of a unit does not print.
 */
static void log_access(const char *access, int64_t answer)
{
    printf("%4u  %-8s %-15s %6" PRId64, now, who, access, answer);
    for (int64_t address = HB_BUS_STATUS; address <= HB_BUS_ORDER; address++) {
        uint8_t value = 0;
        check(hb_bus_read(block, sizeof block, address, &value, HB_VALUE_BYTES) == HB_READ);
        printf(" %7d", value);
    }
    printf(" %6s\n", hb_bus_line(block, sizeof block) == HB_LINE_RAISED ? "raised" : "low");
    now++;
}

/* Entry k of a list of words, or "none" where it has no such entry */
#define WORD(words, k) word(words, sizeof words / sizeof words[0], k)

static const char *word(const char *const *words, size_t count, int64_t k)
{
    return k >= 0 && k < (int64_t)count ? words[k] : "none";
}

static void log_register(const char *access, int64_t address, uint8_t value, int64_t answer)
{
    static const char *const names[] = {"command", "status", "refusal", "verdict", "mask", "flags", "order"};
    char line[32];
    snprintf(line, sizeof line, "%s %s %d", access, WORD(names, address), value);
    log_access(line, answer);
}

/* part: main */
/*
 * Does other work until the handler has something, and takes it. A judgement of order n ends with tick n + 1 at the latest, and the line's
 * handler comes before the tick after it. Where nothing has ended then, the bus was damaged, and only a reset helps.
 */
static void take(const struct problem *problem)
{
    static const char *const refusals[] = HB_REFUSAL_WORDS;
    static const char *const verdicts[] = {"none", "definite", "not definite", "undecided"};
    uint8_t what, judged, refused, ticked;
    for (;;) {
        hold_interrupts();
        what = found;
        judged = verdict;
        refused = refusal;
        ticked = ticks;
        found = 0;
        release_interrupts();
        if (what != 0 || ticked > HB_BUS_MOST_TICKS(problem->order))
            break;
        work(1);
    }
    if (what == HB_BUS_DONE) {
        printf("%s: %s\n", problem->name, WORD(verdicts, judged));
    } else if (what == HB_BUS_REFUSED) {
        printf("%s: refused, %d %s\n", problem->name, refused, WORD(refusals, refused));
    } else {
        printf("%s: not done in time\n", problem->name);
        reset();
        set_up();
    }
}

int main(void)
{
    static const int64_t season_table[] = {41, 5, 19, 10, 5, 11, 6, 3, 19, 6, 43, 11, 10, 3, 11, 20};
    static const int64_t close_table[] = {1, 3, 3, 10}, saddle_table[] = {4, 1, 0, 1, 3, 3, 0, 3, 2};
    static const int64_t damaged_low[] = {2, 1, 1, 2}, damaged_high[] = {1, 1, 1, 2};
    static const struct problem season = {"season", 4, season_table, season_table}, close = {"close", 2, close_table, close_table};
    static const struct problem damaged = {"damaged", 2, damaged_low, damaged_high}, saddle = {"saddle", 3, saddle_table, saddle_table};

    log_heading();
    work(1);
    reset();
    set_up();
    work(2);
    check(start(&season));
    work(8);
    if (!start(&close))
        printf("close: it has to wait\n");
    take(&season);
    work(4);
    check(start(&close));
    take(&close);
    work(8);
    check(start(&damaged));
    take(&damaged);
    check(start(&saddle));
    work(10);
    reset();
    printf("saddle: given up, and once more\n");
    work(3);
    set_up();
    check(start(&saddle));
    take(&saddle);
    work(11);

    printf("\nends that nobody asks for\n");
    log_heading();
    check(start(&close));
    work(20);
    printf("close: it has ended, and season is wanted instead\n");
    check(start(&season));
    take(&season);
    work(5);
    check(start(&close));
    work(20);
    reset();
    printf("close: given up, but it had ended\n");
    set_up();
    check(start(&saddle));
    take(&saddle);
    printf("%u of %u units were left for other work\n", worked, now);
    return 0;
}
