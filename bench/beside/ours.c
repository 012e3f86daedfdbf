/* Gerunjap with and without the checks, each on a file of its own. */
#include <string.h>

#include "../lab.h"
#include "engine.h"

enum { BOARDS_OF, CAPTURES_OF }; /* chains */
enum { DATA_RACK = NAME + TEXT, DATA_BOARD = SLOT + TEXT };

static Lent files[2];    /* of calls without and with the checks */
static Lent *lent = files; /* the one in use */
static Call *way = gerunjap_raw;
static uint32_t racks[MOST], boards[MOST], stored;

/* Plays a call that must be done; the record's code. */
static uint32_t must(const Frame *frame) {
    unsigned code = play(way, lent, frame);
    if (code != 0) fail("gerunjap", "a call is refused", (int)code);
    return reference(lent);
}

static Frame with(unsigned call, unsigned bytes, uint32_t argument) {
    Frame frame = begin(call);
    put(&frame, bytes, argument);
    return frame;
}

static void add(Frame *frame, const uint8_t *bytes, size_t n) {
    memcpy(frame->bytes + frame->length, bytes, n);
    frame->length += n;
}

static uint32_t at(uint32_t code) {
    Frame frame = with(2, 3, code);
    return must(&frame);
}

static uint32_t next(unsigned chain) {
    Frame frame = with(4, 1, chain);
    return must(&frame);
}

static void read_run(void) {
    Frame frame = begin(10);
    must(&frame);
}

static uint32_t store_of(unsigned type, const uint8_t *data, size_t n) {
    Frame frame = with(1, 2, type);
    add(&frame, data, n);
    return must(&frame);
}

static uint32_t store_slot(uint16_t slot, const uint8_t *text) {
    uint8_t data[DATA_BOARD] = {(uint8_t)(slot >> 8), (uint8_t)slot};
    memcpy(data + SLOT, text, TEXT);
    return store_of(BOARD, data, sizeof data);
}

static void make_table(uint16_t n) {
    const uint16_t words[] = {
        n, 3, 2,
        RACK, DATA_RACK, 2, 1, n, 65535, 0, NAME,
        BOARD, DATA_BOARD, 1, 1, n, BOARDS_OF, 0, 0,
        CAPTURE, CAPTURED, 1, 1, n, CAPTURES_OF, 0, 0,
        RACK, BOARD, 2, 1, 2, 0, SLOT,
        BOARD, CAPTURE, 1, 1, 0, 0, 0,
    };
    memcpy(lent->table, words, sizeof words);
    lent->words = sizeof words / sizeof *words;
    lent->bytes = (size_t)n * PAGE;
}

static int check(void) {
    return gerunjap_check(lent->table, lent->words, lent->file, lent->bytes, lent->currency, GERUNJAP_CURRENCY) == 0;
}

static void load(const Work *work, unsigned pages) {
    Frame format = begin(0);
    size_t board = 0, capture = 0;
    make_table((uint16_t)pages);
    must(&format);
    for (size_t i = 0; i < work->rack_count; i++) {
        uint8_t data[DATA_RACK];
        memcpy(data, work->racks[i].name, NAME);
        memcpy(data + NAME, work->racks[i].text, TEXT);
        racks[i] = store_of(RACK, data, sizeof data);
        for (; board < work->board_count && work->boards[board].rack == i; board++) {
            boards[board] = store_slot(work->boards[board].slot, work->boards[board].text);
            for (; capture < work->capture_count && work->captures[capture].board == board; capture++)
                store_of(CAPTURE, work->captures[capture].data, CAPTURED);
        }
    }
    if (!check()) fail("gerunjap", "the filled file is refused", 0);
}

static void take_board(Sink *sink) {
    read_run();
    take(sink, (uint32_t)lent->output[0] << 8 | lent->output[1], lent->output + SLOT, TEXT);
}

static void go_round(size_t rack, Sink *sink) {
    at(racks[rack]);
    for (uint32_t board; (board = next(BOARDS_OF)) != racks[rack];) {
        take_board(sink);
        while (next(CAPTURES_OF) != board) {
            read_run();
            take(sink, 0, lent->output, CAPTURED);
        }
    }
}

static void find(size_t rack, uint16_t slot, Sink *sink) {
    Frame frame = with(12, 1, BOARDS_OF);
    put(&frame, SLOT, slot);
    at(racks[rack]);
    must(&frame);
    take_board(sink);
}

static void key(const uint8_t *name, Sink *sink) {
    Frame frame = with(3, 2, RACK);
    add(&frame, name, NAME);
    must(&frame);
    read_run();
    take(sink, 0, lent->output + NAME, TEXT);
}

static void store_capture(size_t board, const uint8_t *data) {
    at(boards[board]);
    stored = store_of(CAPTURE, data, CAPTURED);
}

static void store_board(size_t rack, uint16_t slot, const uint8_t *data) {
    at(racks[rack]);
    stored = store_slot(slot, data);
    store_of(CAPTURE, data, CAPTURED);
    store_of(CAPTURE, data, CAPTURED);
}

static void delete_stored(void) {
    Frame frame = begin(9);
    at(stored);
    must(&frame);
}

static void relink(size_t board, size_t rack) {
    Frame frame = with(13, 1, BOARDS_OF);
    put(&frame, 3, racks[rack]);
    at(boards[board]);
    must(&frame);
}

static void enter_checked(void) {
    lent = &files[1];
    way = gerunjap_call;
}

static void enter_unchecked(void) {
    lent = &files[0];
    way = gerunjap_raw;
}

const Engine CHECKED = {"checked", 1, enter_checked, load, go_round, find, key, store_capture, delete_stored, store_board, delete_stored,
                        relink, check};
const Engine UNCHECKED = {"unchecked", 0, enter_unchecked, load, go_round, find, key, store_capture, delete_stored, store_board,
                          delete_stored, relink, NULL};
