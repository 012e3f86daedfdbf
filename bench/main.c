/* Times every call with and without the checks, on files of 1, 16 and 128 pages, and prints tables. */
#include <stdio.h>

#include "times.h"

enum { SIZES = 3, FILLED = 85 }; /* per cent of the room */

static const unsigned PAGES[SIZES] = {1, 16, 128};

/* The figures of the three files of one shape. */
typedef struct {
    double pass[SIZES], check[SIZES], with[MOST_SCENES][SIZES], without[MOST_SCENES][SIZES];
} Figures;

static void tell_lab(const Lab *lab) {
    printf("%5zu pages: %zu racks, %zu lots, %zu boards, %zu captures on %zu of %zu bytes; longest ring of a rack %zu, a lot %zu, a board %zu\n",
           lab->lent.bytes / PAGE, lab->racks.count, lab->lots.count, lab->boards.count, lab->captures.count, lab->used,
           lab->lent.bytes / PAGE * 496, lab->longest[RACK_BOARDS], lab->longest[LOT_BOARDS], lab->longest[BOARD_CAPTURES]);
}

/* Fills and measures; tells what the files hold. */
static void measure(Figures *figures, Shape shape, size_t scenes) {
    static Lab lab;
    for (int s = 0; s < SIZES; s++) {
        make_lab(&lab, PAGES[s], shape, FILLED);
        tell_lab(&lab);
        Times t = times_on(&lab, scenes);
        figures->pass[s] = t.pass;
        figures->check[s] = t.check;
        for (size_t i = 0; i < scenes; i++) figures->with[i][s] = t.with[i], figures->without[i][s] = t.without[i];
    }
}

static void tell_heads(const char *left, const char *right, const char *grows) {
    printf("\n%-24s%33s%8s  |%33s\n%-24s", "", left, "", right, "pages");
    for (int side = 0; side < 2; side++) {
        for (int s = 0; s < SIZES; s++) printf("%11u", PAGES[s]);
        printf(side == 0 ? "%8s  |" : *grows ? "%8s\n" : "%s\n", grows);
    }
}

/* Three times and their growth. */
static void tell_times(const double times[SIZES]) {
    for (int s = 0; s < SIZES; s++) printf("%11.0f", times[s]);
    printf("%8.1f", times[2] / times[1]);
}

static void tell_ratios(const double over[SIZES], const double under[SIZES]) {
    for (int s = 0; s < SIZES; s++) printf("%11.1f", over[s] / under[s]);
}

static void tell_figures(const Figures *figures, size_t scenes) {
    tell_heads("nanoseconds with the checks", "nanoseconds without", "x");
    printf("%-24s", "pass over the bytes");
    tell_times(figures->pass);
    printf("  |\n%-24s", "the checks alone");
    tell_times(figures->check);
    printf("  |\n");
    for (size_t i = 0; i < scenes; i++) {
        printf("%-24s", SCENES[i].name);
        tell_times(figures->with[i]);
        printf("  |");
        tell_times(figures->without[i]);
        printf("\n");
    }
    tell_heads("with the checks / pass", "with / without", "");
    printf("%-24s", "the checks alone");
    tell_ratios(figures->check, figures->pass);
    printf("%8s  |\n", "");
    for (size_t i = 0; i < scenes; i++) {
        printf("%-24s", SCENES[i].name);
        tell_ratios(figures->with[i], figures->pass);
        printf("%8s  |", "");
        tell_ratios(figures->with[i], figures->without[i]);
        printf("\n");
    }
}

static void tell_shape(const char *title, Shape shape, size_t scenes) {
    static Figures figures;
    printf("\n%s\n", title);
    measure(&figures, shape, scenes);
    tell_figures(&figures, scenes);
}

int main(void) {
    printf("The least of %d medians, each of %d to %d calls on records drawn anew. x: 128 pages against 16; 8 is linear, 64 the square.\n", ROUNDS,
           FEWEST_A_ROUND, MOST_A_ROUND);
    printf("with the checks / pass: a call takes so many times what adding up the file's bytes one by one takes.\n");
    printf("with / without: a call takes so many times its own work, which is the call with refusals 1 to 4 left out.\n");
    tell_shape("RINGS OF MANY LENGTHS", MIXED, SCENE_COUNT);
    tell_shape("ONE RACK AND ONE LOT FOR ALL BOARDS", ONE_RING, SCENE_COUNT);
    tell_shape("A RECORD ON EVERY LINE, SIXTEEN SORTED CHAINS", FULL_LINES, 0);
    return 0;
}
