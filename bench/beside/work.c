/* Draws the work, and says what a round of it gives. */
#include "work.h"

#include <string.h>

enum { RACK_SIZE = 5 + NAME + TEXT + 3 + 6, BOARD_SIZE = 5 + 2 + TEXT + 6 + 6, CAPTURE_SIZE = 5 + CAPTURED + 6 };

void take(Sink *sink, uint32_t slot, const uint8_t *bytes, size_t n) {
    uint64_t first, last;
    memcpy(&first, bytes, 8);
    memcpy(&last, bytes + n - 8, 8);
    sink->sum = (sink->sum * 31 + first) * 31 + last + slot;
    sink->records++;
}

static uint32_t draw(Work *work, size_t n) {
    work->draw = work->draw * 6364136223846793005u + 1442695040888963407u;
    return (uint32_t)(work->draw >> 33) % (uint32_t)n;
}

static void fill(Work *work, uint8_t *bytes, size_t n) {
    while (n-- > 0) *bytes++ = (uint8_t)draw(work, 256);
}

/* No slot comes twice among 65,536. */
static uint16_t slot_of(size_t number) {
    return (uint16_t)((number + 1) * 40503u);
}

static void add_board(Work *work, size_t rack, size_t captures) {
    size_t at = work->board_count++;
    work->boards[at] = (Board){.rack = rack, .slot = slot_of(at)};
    fill(work, work->boards[at].text, TEXT);
    while (captures-- > 0) {
        Capture *capture = &work->captures[work->capture_count++];
        capture->board = at;
        fill(work, capture->data, CAPTURED);
    }
}

static void draw_case(Work *work, Case *c, size_t number) {
    c->board = draw(work, work->board_count);
    c->rack = work->boards[c->board].rack;
    c->other = (c->rack + 1 + draw(work, work->rack_count - 1)) % work->rack_count;
    c->free_slot = slot_of(work->board_count + number);
    fill(work, c->data, CAPTURED);
}

void make_work(Work *work, size_t bytes) {
    static const size_t boards[] = {2, 6, 12, 24}, captures[] = {3, 1, 0, 8, 2};
    size_t used = 0;
    memset(work, 0, sizeof *work);
    work->draw = 1;
    while (used < bytes) {
        size_t rack = work->rack_count++;
        fill(work, work->racks[rack].name, NAME);
        fill(work, work->racks[rack].text, TEXT);
        used += RACK_SIZE;
        for (size_t i = 0; i < boards[rack % 4] && used < bytes; i++) {
            add_board(work, rack, captures[i % 5]);
            used += BOARD_SIZE + captures[i % 5] * CAPTURE_SIZE;
        }
    }
    for (size_t i = 0; i < CASES; i++) draw_case(work, &work->cases[i], i);
}

/* The board of a rack with the lowest slot from a slot on; the count where there is none. */
static size_t board_from(const Work *work, size_t rack, uint32_t slot) {
    size_t found = work->board_count;
    for (size_t i = 0; i < work->board_count; i++) {
        const Board *board = &work->boards[i];
        if (board->rack == rack && board->slot >= slot && (found == work->board_count || board->slot < work->boards[found].slot)) found = i;
    }
    return found;
}

Sink expected_round(const Work *work, size_t rack) {
    Sink sink = {0, 0};
    size_t board;
    for (uint32_t slot = 0; (board = board_from(work, rack, slot)) < work->board_count; slot = work->boards[board].slot + 1u) {
        take(&sink, work->boards[board].slot, work->boards[board].text, TEXT);
        for (size_t i = 0; i < work->capture_count; i++)
            if (work->captures[i].board == board) take(&sink, 0, work->captures[i].data, CAPTURED);
    }
    return sink;
}
