/* The clock, the rounds and the medians; and the comparison of both ways before anything is timed. */
#define _POSIX_C_SOURCE 200809L
#include "times.h"

#include <stdio.h>
#include <stdlib.h>
#include <string.h>
#include <time.h>

enum { COMPARED = 50 };

static const double SHARE = 0.02e9; /* nanoseconds for a figure in a round, once it has the fewest repetitions */

static const Lab *base;
static Lab lab;
static Lent other;

/* One figure's repetitions in a round. */
static double times[MOST_A_ROUND], begun;
static size_t count;

static double now(void) {
    struct timespec t;
    clock_gettime(CLOCK_MONOTONIC, &t);
    return (double)t.tv_sec * 1e9 + (double)t.tv_nsec;
}

static void start_round(void) {
    count = 0;
    begun = now();
}

/* Whether a round has time for another repetition. */
static int goes_on(void) {
    return count < MOST_A_ROUND && (count < FEWEST_A_ROUND || now() - begun < SHARE);
}

static int by_size(const void *a, const void *b) {
    double x = *(const double *)a, y = *(const double *)b;
    return (x > y) - (x < y);
}

/* Lowers a figure to the round's median. */
static void end_round(double *least) {
    qsort(times, count, sizeof *times, by_size);
    if (*least == 0 || times[count / 2] < *least) *least = times[count / 2];
}

/* The sum of the bytes, one after another. */
__attribute__((noinline, optimize("no-tree-vectorize"))) static uint32_t sum(const uint8_t *bytes, size_t n) {
    uint32_t total = 0;
    for (size_t i = 0; i < n; i++) total += bytes[i];
    return total;
}

static uint32_t nothing(void) {
    return 0;
}

static uint32_t pass(void) {
    return sum(lab.lent.file, lab.lent.bytes);
}

static uint32_t check(void) {
    return gerunjap_check(lab.lent.table, lab.lent.words, lab.lent.file, lab.lent.bytes, lab.lent.currency, GERUNJAP_CURRENCY);
}

static void time_work(double *least, uint32_t (*work)(void)) {
    static volatile uint32_t kept;
    start_round();
    while (goes_on()) {
        double start = now();
        kept = work();
        times[count++] = now() - start;
    }
    (void)kept;
    end_round(least);
}

/* The filled file again. */
static void put_back(void) {
    memcpy(lab.lent.file, base->lent.file, base->lent.bytes);
    memcpy(lab.lent.currency, base->lent.currency, sizeof base->lent.currency);
}

/* Every round, and both ways, have the same draws. */
static void draw_anew(void) {
    lab.draw = base->draw;
    lab.slots = base->slots;
}

static void time_scene(double *least, const Scene *scene, Call *call) {
    draw_anew();
    start_round();
    while (goes_on()) {
        put_back();
        Frame frame = scene->drawn(&lab);
        double start = now();
        unsigned code = play(call, &lab.lent, &frame);
        times[count++] = now() - start;
        if (code != 0) {
            fprintf(stderr, "bench: %s is refused: %u\n", scene->name, code);
            exit(1);
        }
    }
    end_round(least);
}

/* Both ways must do the same to file, currency, output and answer. */
static void compare(const Scene *scene) {
    draw_anew();
    for (int i = 0; i < COMPARED; i++) {
        put_back();
        Frame frame = scene->drawn(&lab);
        other = lab.lent;
        play(gerunjap_call, &lab.lent, &frame);
        play(gerunjap_raw, &other, &frame);
        if (memcmp(&other, &lab.lent, sizeof other) != 0) {
            fprintf(stderr, "bench: %s differs without the checks\n", scene->name);
            exit(1);
        }
    }
}

Times times_on(const Lab *filled, size_t scenes) {
    Times t = {.pass = 0};
    double clock = 0; /* what reading the clock takes */
    base = filled;
    lab = *filled;
    for (size_t i = 0; i < scenes; i++) compare(&SCENES[i]);
    for (int round = 0; round < ROUNDS; round++) {
        put_back();
        time_work(&clock, nothing);
        time_work(&t.pass, pass);
        time_work(&t.check, check);
        for (size_t i = 0; i < scenes; i++) {
            time_scene(&t.with[i], &SCENES[i], gerunjap_call);
            time_scene(&t.without[i], &SCENES[i], gerunjap_raw);
        }
    }
    t.pass -= clock;
    t.check -= clock;
    for (size_t i = 0; i < scenes; i++) {
        t.with[i] -= clock;
        t.without[i] -= clock;
    }
    return t;
}
