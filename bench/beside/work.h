/* The lab's records as plain lists: the same for every engine. */
#ifndef WORK_H
#define WORK_H

#include <stddef.h>
#include <stdint.h>

enum { NAME = 6, TEXT = 10, CAPTURED = 16, MOST = 4096, CASES = 1024 };

typedef struct {
    uint8_t name[NAME], text[TEXT];
} Rack;

typedef struct {
    size_t rack;
    uint16_t slot;
    uint8_t text[TEXT];
} Board;

typedef struct {
    size_t board;
    uint8_t data[CAPTURED];
} Capture;

/* A thing to do: a board, a rack that is not the board's, and a slot that no board has. */
typedef struct {
    size_t board, rack, other;
    uint16_t free_slot;
    uint8_t data[CAPTURED];
} Case;

typedef struct {
    Rack racks[MOST];
    Board boards[MOST];
    Capture captures[MOST]; /* in the order of their boards */
    size_t rack_count, board_count, capture_count;
    Case cases[CASES];
    uint64_t draw;
} Work;

/* What an engine has handed out: how many records, and a number made of their bytes in their order. */
typedef struct {
    size_t records;
    uint64_t sum;
} Sink;

/* Takes a record: its slot (a rack or capture has 0) and its other bytes, at least 8. */
void take(Sink *sink, uint32_t slot, const uint8_t *bytes, size_t n);

/* Racks, boards and captures that take so many bytes in our file, and the cases. */
void make_work(Work *work, size_t bytes);

/* What a round of a rack must give, from the lists alone. */
Sink expected_round(const Work *work, size_t rack);

#endif
