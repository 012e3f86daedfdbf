/* The lab's table, and its file filled by calls without the checks. */
#include "lab.h"

#include <stdio.h>
#include <stdlib.h>
#include <string.h>

static void die(const char *what, unsigned code) {
    fprintf(stderr, "bench: %s: %u\n", what, code);
    exit(1);
}

unsigned play(Call *call, Lent *lent, const Frame *frame) {
    unsigned status = call(lent->table, lent->words, lent->file, lent->bytes, lent->currency, GERUNJAP_CURRENCY, frame->bytes,
                           frame->length, lent->output, sizeof lent->output, lent->answer, GERUNJAP_ANSWER);
    if (status != GERUNJAP_ANSWERED) die("a call was not answered", status);
    return lent->answer[0];
}

Frame begin(unsigned call) {
    Frame frame = {.length = 0};
    put(&frame, 1, call);
    return frame;
}

void put(Frame *frame, unsigned bytes, uint32_t value) {
    while (bytes-- > 0) frame->bytes[frame->length++] = (uint8_t)(value >> (8 * bytes));
}

void fill(Frame *frame, Lab *lab, size_t bytes) {
    while (bytes-- > 0) put(frame, 1, draw(lab, 256));
}

uint32_t draw(Lab *lab, uint32_t n) {
    lab->draw = lab->draw * 6364136223846793005u + 1442695040888963407u;
    return (uint32_t)(lab->draw >> 33) % n;
}

uint32_t one_of(Lab *lab, const Codes *codes) {
    return codes->codes[draw(lab, (uint32_t)codes->count)];
}

uint32_t reference(const Lent *lent) {
    return (uint32_t)lent->answer[1] << 16 | (uint32_t)lent->answer[2] << 8 | lent->answer[3];
}

void put_slot(Frame *frame, Lab *lab) {
    put(frame, SLOT, ++lab->slots * 40503u & 0xFFFF);
}

/* Plays a call that must be done; the code of its answer. */
static uint32_t must(Lab *lab, const Frame *frame) {
    unsigned code = play(gerunjap_raw, &lab->lent, frame);
    if (code != 0) die("a call was refused while the file was filled", code);
    return reference(&lab->lent);
}

void visit(Lab *lab, uint32_t code) {
    Frame frame = begin(2);
    put(&frame, 3, code);
    must(lab, &frame);
}

static void keep(Codes *codes, uint32_t code) {
    codes->codes[codes->count++] = code;
}

static uint32_t store(Lab *lab, unsigned type, size_t bytes) {
    Frame frame = begin(1);
    put(&frame, 2, type);
    if (type == BOARD) {
        put_slot(&frame, lab);
        bytes -= SLOT;
    }
    fill(&frame, lab, bytes);
    return must(lab, &frame);
}

/* Racks are found by key and boards stand under them by slot, linked prior; a lot has its boards in the order of their coming,
   without PRIOR links; captures stand last under their board, linked prior. */
static void make_table(Lent *lent, uint16_t n) {
    const uint16_t words[] = {
        n, 4, 3,
        RACK, RACK_DATA, 2, 1, n, 65535, 0, RACK_KEY,
        LOT, LOT_DATA, 0, 1, n, 65535, 0, 0,
        BOARD, BOARD_DATA, 1, 1, n, RACK_BOARDS, 0, 0,
        CAPTURE, CAPTURE_DATA, 1, 1, n, BOARD_CAPTURES, 0, 0,
        RACK, BOARD, 2, 1, 2, 0, SLOT,
        LOT, BOARD, 1, 0, 0, 0, 0,
        BOARD, CAPTURE, 1, 1, 0, 0, 0,
    };
    memcpy(lent->table, words, sizeof words);
    lent->words = sizeof words / sizeof *words;
    lent->bytes = (size_t)n * PAGE;
}

static size_t used(const Lent *lent) {
    size_t total = 0;
    for (size_t at = 0; at < lent->bytes; at += PAGE) total += 496u - (lent->file[at + 3] * 256u + lent->file[at + 4]);
    return total;
}

/* Goes once round the ring of every master of a chain. */
static void measure_rings(Lab *lab, unsigned chain, const Codes *masters) {
    Frame next = begin(4);
    put(&next, 1, chain);
    lab->longest[chain] = 0;
    for (size_t i = 0; i < masters->count; i++) {
        size_t length = 0;
        visit(lab, masters->codes[i]);
        while (must(lab, &next) != masters->codes[i]) length++;
        if (length > lab->longest[chain]) lab->longest[chain] = length;
    }
}

/* Half of the boards come under the first lot: its ring grows with the file. */
static uint32_t lot_for(Lab *lab) {
    return draw(lab, 2) == 0 ? lab->lots.codes[0] : one_of(lab, &lab->lots);
}

/* Stores a rack with its boards and their captures, until so many bytes are used. */
static void store_rack(Lab *lab, size_t boards, size_t enough) {
    static const size_t captures[] = {3, 1, 0, 8, 2};
    uint32_t rack = store(lab, RACK, RACK_DATA);
    keep(&lab->racks, rack);
    for (size_t i = 0; i < boards && used(&lab->lent) < enough; i++) {
        visit(lab, lot_for(lab));
        visit(lab, rack);
        keep(&lab->boards, store(lab, BOARD, BOARD_DATA));
        for (size_t k = 0; k < captures[i % 5] && used(&lab->lent) < enough; k++)
            keep(&lab->captures, store(lab, CAPTURE, CAPTURE_DATA));
    }
}

/* Racks, lots, boards and captures. */
static void fill_lab(Lab *lab, unsigned pages, Shape shape, size_t enough) {
    static const size_t boards[] = {2, 6, 12, 24};
    for (unsigned i = 0; i <= (shape == MIXED ? pages / 8 : 0); i++) keep(&lab->lots, store(lab, LOT, LOT_DATA));
    if (shape == ONE_RING) keep(&lab->racks, store(lab, RACK, RACK_DATA));
    for (size_t i = 0; used(&lab->lent) < enough; i++) store_rack(lab, shape == MIXED ? boards[i % 4] : MOST_RECORDS, enough);
    measure_rings(lab, RACK_BOARDS, &lab->racks);
    measure_rings(lab, LOT_BOARDS, &lab->lots);
    measure_rings(lab, BOARD_CAPTURES, &lab->boards);
}

/* A table whose type LOT is in no chain and small enough for 63 on a page; RACK and BOARD are in all sixteen chains. */
static void make_wide_table(Lent *lent, uint16_t n) {
    const uint16_t types[] = {n, 3, 16, RACK, 0, 0, 1, n, 65535, 0, 0, LOT, 2, 0, 1, n, 65535, 0, 0, BOARD, 1, 0, 1, n, 65535, 0, 0};
    const uint16_t chain[] = {RACK, BOARD, 2, 1, 1, 0, 1};
    memcpy(lent->table, types, sizeof types);
    lent->words = sizeof types / sizeof *types;
    for (int j = 0; j < 16; j++, lent->words += 7) memcpy(lent->table + lent->words, chain, sizeof chain);
    lent->bytes = (size_t)n * PAGE;
}

void make_lab(Lab *lab, unsigned pages, Shape shape, unsigned percent) {
    Frame format = begin(0);
    memset(lab, 0, sizeof *lab);
    lab->draw = 1;
    if (shape == FULL_LINES) {
        make_wide_table(&lab->lent, (uint16_t)pages);
        must(lab, &format);
        for (unsigned i = 0; i < pages * 63; i++) keep(&lab->lots, store(lab, LOT, 2));
    } else {
        make_table(&lab->lent, (uint16_t)pages);
        must(lab, &format);
        fill_lab(lab, pages, shape, (size_t)pages * 496 * percent / 100);
    }
    lab->used = used(&lab->lent);
    unsigned refused = gerunjap_check(lab->lent.table, lab->lent.words, lab->lent.file, lab->lent.bytes, lab->lent.currency,
                                      GERUNJAP_CURRENCY);
    if (refused != 0) die("the file is refused", refused);
}
