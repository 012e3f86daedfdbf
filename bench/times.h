/* Medians of many repetitions, in nanoseconds. */
#ifndef TIMES_H
#define TIMES_H

#include "scenes.h"

enum { ROUNDS = 9, MOST_A_ROUND = 300, FEWEST_A_ROUND = 7, MOST_SCENES = 32 };

/* What is measured on one file: a pass over its bytes, the checks alone, and each call with and without the checks. */
typedef struct {
    double pass, check, with[MOST_SCENES], without[MOST_SCENES];
} Times;

/* Measures on a filled file, with the first so many of the calls. Every round measures every figure for a while and takes its median;
   of the rounds' medians the least counts, so that another program's work on the same machine shows little. */
Times times_on(const Lab *filled, size_t scenes);

#endif
