/* A lab's file for measuring: racks, lots, boards and captures, filled by calls. */
#ifndef LAB_H
#define LAB_H

#include <stddef.h>
#include <stdint.h>

#include "gerunjap.h"

enum { RACK = 10, LOT = 15, BOARD = 20, CAPTURE = 30 };             /* type numbers */
enum { RACK_BOARDS, LOT_BOARDS, BOARD_CAPTURES };                   /* chains */
enum { RACK_DATA = 8, LOT_DATA = 6, BOARD_DATA = 12, CAPTURE_DATA = 16, RACK_KEY = 6, SLOT = 2 };
enum { MOST_PAGES = 128, PAGE = 512, MOST_RECORDS = MOST_PAGES * 63, FRAME = 256 };

/* What crate raw exports; see crates/raw_c/src/lib.rt. */
uint8_t gerunjap_check(const uint16_t *table, size_t table_words, const uint8_t *file, size_t file_bytes, const uint32_t *currency,
                       size_t currency_words);
uint8_t gerunjap_raw(const uint16_t *table, size_t table_words, uint8_t *file, size_t file_bytes, uint32_t *currency,
                     size_t currency_words, const uint8_t *frame, size_t frame_bytes, uint8_t *output, size_t output_bytes,
                     uint8_t *answer, size_t answer_bytes);

/* A call's bytes. */
typedef struct {
    uint8_t bytes[FRAME];
    size_t length;
} Frame;

/* All that a call is lent. */
typedef struct {
    uint16_t table[160];
    size_t words, bytes;
    uint8_t file[MOST_PAGES * PAGE];
    uint32_t currency[GERUNJAP_CURRENCY];
    uint8_t output[200], answer[GERUNJAP_ANSWER];
} Lent;

/* Codes of one type, as they were stored. */
typedef struct {
    uint32_t codes[MOST_RECORDS];
    size_t count;
} Codes;

typedef struct {
    Lent lent;
    Codes racks, lots, boards, captures;
    size_t used;       /* bytes of records */
    size_t longest[3]; /* ring of each chain */
    uint64_t draw;     /* the last number drawn */
    uint32_t slots;    /* slots handed out */
} Lab;

/* How boards are spread: rings of many lengths, or one rack and one lot for all. Or another table: no board, but a record on every
   line, and sixteen sorted chains with nothing in them, so that the checks look up every line again and again. */
typedef enum { MIXED, ONE_RING, FULL_LINES } Shape;

typedef uint8_t Call(const uint16_t *, size_t, uint8_t *, size_t, uint32_t *, size_t, const uint8_t *, size_t, uint8_t *, size_t,
                     uint8_t *, size_t);

/* Plays a frame; the answer's code. Any other status than answered ends the program. */
unsigned play(Call *call, Lent *lent, const Frame *frame);

/* Frames. `begin` starts one with the call's number; `put` adds a number of some bytes, `fill` drawn data. */
Frame begin(unsigned call);
void put(Frame *frame, unsigned bytes, uint32_t value);
void fill(Frame *frame, Lab *lab, size_t bytes);

/* Arrives at a record. */
void visit(Lab *lab, uint32_t code);

/* A drawn number below `n`; a drawn code. */
uint32_t draw(Lab *lab, uint32_t n);
uint32_t one_of(Lab *lab, const Codes *codes);

/* The code of the last answer. */
uint32_t reference(const Lent *lent);

/* A slot, the sort key of a board in its rack, that no board has yet. */
void put_slot(Frame *frame, Lab *lab);

/* A file of so many pages, filled to a share of its room (FULL_LINES: to the last line). */
void make_lab(Lab *lab, unsigned pages, Shape shape, unsigned percent);

#endif
