/* The lab's work on four engines: answers compared, then times and ratios. */
#define _POSIX_C_SOURCE 200809L
#include <stdio.h>
#include <stdlib.h>
#include <time.h>

#include "engine.h"

enum { ENGINES = 4, ROUNDS = 9, FEWEST = 4, FILLED = 85, ROOM = 496, TRIALS = 200, SLOW_TRIALS = 4, SLOW_RACKS = 4 };

static const Engine *const ALL[ENGINES] = {&CHECKED, &UNCHECKED, &SQLITE, &LMDB};
static const unsigned PAGES[] = {16, 128};
static const double SHARE = 4e6; /* nanoseconds that a round of one figure takes at least */

static Work work;

void fail(const char *engine, const char *what, int code) {
    fprintf(stderr, "beside: %s: %s (%d)\n", engine, what, code);
    exit(1);
}

static void enter(const Engine *engine) {
    if (engine->enter != NULL) engine->enter();
}

/* What is timed: one case gives the number of units done. */
typedef struct {
    const char *name, *unit;
    size_t (*run)(const Engine *engine, const Case *c);
} Task;

static Sink kept;

static size_t go_round(const Engine *engine, const Case *c) {
    size_t before = kept.records;
    engine->round(c->rack, &kept);
    return kept.records - before;
}

static size_t find(const Engine *engine, const Case *c) {
    engine->find(c->rack, work.boards[c->board].slot, &kept);
    return 1;
}

static size_t key(const Engine *engine, const Case *c) {
    engine->key(work.racks[c->rack].name, &kept);
    return 1;
}

static size_t capture(const Engine *engine, const Case *c) {
    engine->store_capture(c->board, c->data);
    engine->delete_capture();
    return 1;
}

static size_t board(const Engine *engine, const Case *c) {
    engine->store_board(c->rack, c->free_slot, c->data);
    engine->delete_board();
    return 1;
}

static size_t relink(const Engine *engine, const Case *c) {
    engine->relink(c->board, c->other);
    engine->relink(c->board, c->rack);
    return 2;
}

static size_t check(const Engine *engine, const Case *c) {
    (void)c;
    if (!engine->check()) fail(engine->name, "the check fails", 0);
    return 1;
}

static const Task TASKS[] = {
    {"next + read", "a record of a rack's round", go_round},
    {"find", "a board by its slot", find},
    {"key", "a rack by its name", key},
    {"store + delete", "a capture", capture},
    {"store + delete", "a board with two captures", board},
    {"relink", "a board to another rack", relink},
    {"full check", "all", check},
};
enum { TASK_COUNT = sizeof TASKS / sizeof *TASKS, CHECK = TASK_COUNT - 1 };

static int has(const Engine *engine, int task) {
    return task != CHECK || engine->check != NULL;
}

/* Everything once, with the rounds of the racks it touches after every change; all in one sink. */
static Sink trial(const Engine *engine, const Case *c) {
    Sink sink = {0, 0};
    engine->key(work.racks[c->rack].name, &sink);
    engine->find(c->rack, work.boards[c->board].slot, &sink);
    engine->store_capture(c->board, c->data);
    engine->round(c->rack, &sink);
    engine->delete_capture();
    engine->store_board(c->rack, c->free_slot, c->data);
    engine->round(c->rack, &sink);
    engine->delete_board();
    engine->relink(c->board, c->other);
    engine->round(c->rack, &sink);
    engine->round(c->other, &sink);
    engine->relink(c->board, c->rack);
    engine->round(c->rack, &sink);
    engine->round(c->other, &sink);
    return sink;
}

static void want(const Engine *engine, Sink told, Sink wanted, const char *what, size_t number) {
    if (told.sum != wanted.sum || told.records != wanted.records) fail(engine->name, what, (int)number);
}

/* Loads, and compares every answer: the rounds of all racks with the lists, the trials with those of the first engine. */
static void compare(const Engine *engine, unsigned pages, Sink trials[TRIALS]) {
    enter(engine);
    engine->load(&work, pages);
    size_t racks = engine->slow ? SLOW_RACKS : work.rack_count, cases = engine->slow ? SLOW_TRIALS : TRIALS;
    for (size_t i = 0; i < racks && i < work.rack_count; i++) {
        Sink sink = {0, 0};
        engine->round(i, &sink);
        want(engine, sink, expected_round(&work, i), "another round of rack", i);
    }
    for (size_t i = 0; i < cases; i++) {
        Sink sink = trial(engine, &work.cases[i]);
        if (trials[i].records == 0) trials[i] = sink;
        want(engine, sink, trials[i], "another answer in trial", i);
    }
    if (engine->check != NULL && !engine->check()) fail(engine->name, "the check fails after the trials", 0);
}

/* Processor time: what other programs take in between does not count. */
static double now(void) {
    struct timespec t;
    clock_gettime(CLOCK_PROCESS_CPUTIME_ID, &t);
    return (double)t.tv_sec * 1e9 + (double)t.tv_nsec;
}

/* Nanoseconds of so many cases, and their units. */
static double spent(const Engine *engine, const Task *task, size_t cases, size_t *units) {
    enter(engine);
    *units = 0;
    double start = now();
    for (size_t i = 0; i < cases; i++) *units += task->run(engine, &work.cases[i % CASES]);
    return now() - start;
}

static int by_size(const void *a, const void *b) {
    double x = *(const double *)a, y = *(const double *)b;
    return (x > y) - (x < y);
}

/* The least and the median of the rounds, nanoseconds a unit. */
typedef struct {
    double least, median;
} Figure;

/* Every round times every engine, one after another; each has the first so many cases that fill its share. */
static void time_task(const Task *task, int number, Figure figures[ENGINES]) {
    size_t cases[ENGINES], units;
    double times[ENGINES][ROUNDS];
    for (int e = 0; e < ENGINES; e++)
        for (cases[e] = FEWEST; has(ALL[e], number) && spent(ALL[e], task, cases[e], &units) < SHARE;) cases[e] *= 2;
    for (int round = 0; round < ROUNDS; round++)
        for (int e = 0; e < ENGINES; e++)
            if (has(ALL[e], number)) {
                double time = spent(ALL[e], task, cases[e], &units);
                times[e][round] = time / (double)units;
            }
    for (int e = 0; e < ENGINES; e++)
        if (has(ALL[e], number)) {
            qsort(times[e], ROUNDS, sizeof(double), by_size);
            figures[e] = (Figure){times[e][0], times[e][ROUNDS / 2]};
        }
}

/* A number in a column, or a dash. */
static void tell(double number, int there, int decimals) {
    if (there)
        printf("%12.*f", decimals, number);
    else
        printf("%12s", "-");
}

/* Ours by theirs; three digits that count. */
static void tell_ratio(const Figure *ours, const Figure *theirs, int there) {
    double ratio = there ? ours->least / theirs->least : 0;
    tell(ratio, there, ratio < 1 ? 3 : ratio < 10 ? 2 : ratio < 100 ? 1 : 0);
}

static double tell_task(int number) {
    Figure figures[ENGINES];
    double widest = 1;
    time_task(&TASKS[number], number, figures);
    printf("%-16s%-28s", TASKS[number].name, TASKS[number].unit);
    for (int e = 0; e < ENGINES; e++) tell(has(ALL[e], number) ? figures[e].least : 0, has(ALL[e], number), 0);
    printf("  |");
    for (int ours = 0; ours < 2; ours++)
        for (int theirs = 2; theirs < ENGINES; theirs++)
            tell_ratio(&figures[ours], &figures[theirs], has(ALL[ours], number) && has(ALL[theirs], number));
    printf("\n");
    for (int e = 0; e < ENGINES; e++)
        if (has(ALL[e], number) && figures[e].median / figures[e].least > widest) widest = figures[e].median / figures[e].least;
    return widest;
}

static void tell_size(unsigned pages) {
    Sink trials[TRIALS] = {{0, 0}};
    double widest = 1;
    make_work(&work, (size_t)pages * ROOM * FILLED / 100);
    for (int e = ENGINES - 1; e >= 0; e--) compare(ALL[e], pages, trials);
    printf("\n%u PAGES: %zu racks, %zu boards, %zu captures; all answers alike\n", pages, work.rack_count, work.board_count,
           work.capture_count);
    printf("%-44s%48s  |%24s%24s\n%-44s", "", "nanoseconds", "checked by", "unchecked by", "");
    for (int e = 0; e < ENGINES; e++) printf("%12s", ALL[e]->name);
    printf("  |%12s%12s%12s%12s\n", "SQLite", "LMDB", "SQLite", "LMDB");
    for (int i = 0; i < TASK_COUNT; i++) {
        double wide = tell_task(i);
        if (wide > widest) widest = wide;
    }
    printf("A figure's median round took at most %.2f times its least.\n", widest);
}

int main(void) {
    printf("Processor time, the least of %d rounds. checked: gerunjap_call, each call checks the whole file; unchecked: gerunjap_raw, no call does.\n", ROUNDS);
    printf("checked by SQLite: our time divided by SQLite's; below 1 we are faster.\n");
    for (size_t i = 0; i < sizeof PAGES / sizeof *PAGES; i++) tell_size(PAGES[i]);
    return 0;
}
