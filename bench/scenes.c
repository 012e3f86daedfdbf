/* One function for each line of the tables: it arrives where the call starts, and gives the call's frame. */
#include "scenes.h"

static void quietly(Lab *lab, Frame frame) {
    play(gerunjap_raw, &lab->lent, &frame);
}

/* A frame with a chain's number. */
static Frame on_chain(unsigned call, unsigned chain) {
    Frame frame = begin(call);
    put(&frame, 1, chain);
    return frame;
}

static uint32_t at_a(Lab *lab, const Codes *codes) {
    uint32_t code = one_of(lab, codes);
    visit(lab, code);
    return code;
}

/* The master of a drawn board in a chain: a long ring's comes the oftener. */
static uint32_t master_drawn(Lab *lab, unsigned chain) {
    at_a(lab, &lab->boards);
    quietly(lab, on_chain(6, chain));
    return reference(&lab->lent);
}

/* Adds the first bytes of the data of the run's record. */
static void put_read(Frame *frame, Lab *lab, size_t bytes) {
    quietly(lab, begin(10));
    for (size_t i = 0; i < bytes; i++) put(frame, 1, lab->lent.output[i]);
}

static Frame format(Lab *lab) {
    (void)lab;
    return begin(0);
}

static Frame store_capture(Lab *lab) {
    Frame frame = begin(1);
    at_a(lab, &lab->boards);
    put(&frame, 2, CAPTURE);
    fill(&frame, lab, CAPTURE_DATA);
    return frame;
}

static Frame store_board(Lab *lab) {
    Frame frame = begin(1);
    uint32_t lot = master_drawn(lab, LOT_BOARDS), rack = master_drawn(lab, RACK_BOARDS);
    visit(lab, lot);
    visit(lab, rack);
    put(&frame, 2, BOARD);
    put_slot(&frame, lab);
    fill(&frame, lab, BOARD_DATA - SLOT);
    return frame;
}

static Frame delete_capture(Lab *lab) {
    quietly(lab, store_capture(lab));
    return begin(9);
}

static Frame delete_board(Lab *lab) {
    quietly(lab, store_board(lab));
    return begin(9);
}

static Frame delete_rack(Lab *lab) {
    master_drawn(lab, RACK_BOARDS);
    return begin(9);
}

static Frame direct(Lab *lab) {
    Frame frame = begin(2);
    put(&frame, 3, one_of(lab, &lab->captures));
    return frame;
}

static Frame key(Lab *lab) {
    Frame frame = begin(3);
    at_a(lab, &lab->racks);
    put(&frame, 2, RACK);
    put_read(&frame, lab, RACK_KEY);
    return frame;
}

static Frame next(Lab *lab) {
    at_a(lab, &lab->boards);
    return on_chain(4, RACK_BOARDS);
}

static Frame prior_linked(Lab *lab) {
    at_a(lab, &lab->boards);
    return on_chain(5, RACK_BOARDS);
}

static Frame prior_round(Lab *lab) {
    at_a(lab, &lab->boards);
    return on_chain(5, LOT_BOARDS);
}

static Frame master_rack(Lab *lab) {
    at_a(lab, &lab->boards);
    return on_chain(6, RACK_BOARDS);
}

static Frame master_lot(Lab *lab) {
    at_a(lab, &lab->boards);
    return on_chain(6, LOT_BOARDS);
}

static Frame each(Lab *lab) {
    Frame frame = begin(7);
    put(&frame, 3, one_of(lab, &lab->captures));
    put(&frame, 3, 64 * MOST_PAGES + 63);
    return frame;
}

static Frame modify_text(Lab *lab) {
    Frame frame = begin(8);
    at_a(lab, &lab->boards);
    put_read(&frame, lab, SLOT);
    fill(&frame, lab, BOARD_DATA - SLOT);
    return frame;
}

static Frame modify_slot(Lab *lab) {
    Frame frame = begin(8);
    at_a(lab, &lab->boards);
    put_slot(&frame, lab);
    fill(&frame, lab, BOARD_DATA - SLOT);
    return frame;
}

static Frame read_capture(Lab *lab) {
    at_a(lab, &lab->captures);
    return begin(10);
}

static Frame current(Lab *lab) {
    Frame frame = begin(11);
    at_a(lab, &lab->boards);
    put(&frame, 2, BOARD);
    return frame;
}

static Frame find(Lab *lab) {
    Frame frame = on_chain(12, RACK_BOARDS);
    at_a(lab, &lab->boards);
    put_read(&frame, lab, SLOT);
    quietly(lab, on_chain(6, RACK_BOARDS));
    return frame;
}

static Frame relink(Lab *lab) {
    Frame frame = on_chain(13, RACK_BOARDS);
    put(&frame, 3, master_drawn(lab, RACK_BOARDS));
    at_a(lab, &lab->boards);
    return frame;
}

const Scene SCENES[] = {
    {"FORMAT", format},
    {"STORE capture", store_capture},
    {"DELETE that capture", delete_capture},
    {"STORE board", store_board},
    {"DELETE that board", delete_board},
    {"DELETE rack, all below", delete_rack},
    {"DIRECT", direct},
    {"KEY", key},
    {"NEXT", next},
    {"PRIOR, linked", prior_linked},
    {"PRIOR, round the lot", prior_round},
    {"MASTER, rack", master_rack},
    {"MASTER, lot", master_lot},
    {"EACH", each},
    {"MODIFY, same slot", modify_text},
    {"MODIFY, other slot", modify_slot},
    {"READ", read_capture},
    {"CURRENT", current},
    {"FIND in the rack", find},
    {"RELINK to a rack", relink},
};

const size_t SCENE_COUNT = sizeof SCENES / sizeof *SCENES;
