/* LMDB in one transaction that is never committed. It knows neither types nor masters: the program keeps the lists right itself.
   racks: name -> id, text    rack_ids: id -> name    slots: rack, slot -> board, text    boards: id -> rack, slot
   captures: board, number -> data.  Numbers are high byte first, so that keys lie in their order. */
#define _POSIX_C_SOURCE 200809L
#include <lmdb.h>
#include <stdlib.h>
#include <string.h>
#include <unistd.h>

#include "engine.h"

enum { RACKS, RACK_IDS, SLOTS, BOARDS, CAPTURES, LISTS };

static const char *const NAMES[LISTS] = {"racks", "rack_ids", "slots", "boards", "captures"};
static MDB_env *env;
static MDB_txn *txn;
static MDB_dbi lists[LISTS];
static MDB_cursor *slots, *captures;
static uint32_t numbers, stored_board, stored_capture, stored_under;

static void must(int told) {
    if (told != 0) fail("LMDB", mdb_strerror(told), told);
}

static void write4(uint8_t *at, uint32_t value) {
    for (int i = 0; i < 4; i++) at[i] = (uint8_t)(value >> (24 - 8 * i));
}

static uint32_t read4(const void *from) {
    const uint8_t *at = from;
    return (uint32_t)at[0] << 24 | (uint32_t)at[1] << 16 | (uint32_t)at[2] << 8 | at[3];
}

static MDB_val block(void *bytes, size_t n) {
    return (MDB_val){.mv_size = n, .mv_data = bytes};
}

/* Adds what is not there yet. */
static void add(int list, void *key, size_t key_bytes, void *value, size_t value_bytes) {
    MDB_val k = block(key, key_bytes), v = block(value, value_bytes);
    must(mdb_put(txn, lists[list], &k, &v, MDB_NOOVERWRITE));
}

static const uint8_t *get(int list, void *key, size_t key_bytes) {
    MDB_val k = block(key, key_bytes), v;
    must(mdb_get(txn, lists[list], &k, &v));
    return v.mv_data;
}

static void drop(int list, void *key, size_t key_bytes) {
    MDB_val k = block(key, key_bytes);
    must(mdb_del(txn, lists[list], &k, NULL));
}

/* A rack and a slot as a key. */
static void slot_key(uint8_t key[6], uint32_t rack, uint16_t slot) {
    write4(key, rack);
    key[4] = (uint8_t)(slot >> 8);
    key[5] = (uint8_t)slot;
}

static void put_slot(uint32_t board, uint32_t rack, uint16_t slot, const uint8_t *text) {
    uint8_t key[6], value[4 + TEXT], master[4];
    write4(master, rack);
    get(RACK_IDS, master, 4); /* the rack must be there */
    slot_key(key, rack, slot);
    write4(value, board);
    memcpy(value + 4, text, TEXT);
    add(SLOTS, key, 6, value, sizeof value);
}

static void add_board(uint32_t board, uint32_t rack, uint16_t slot, const uint8_t *text) {
    uint8_t id[4], place[6];
    put_slot(board, rack, slot, text);
    write4(id, board);
    slot_key(place, rack, slot);
    add(BOARDS, id, 4, place, 6);
}

static void add_capture(uint32_t board, const uint8_t *data) {
    uint8_t key[8], value[CAPTURED];
    write4(key, board);
    get(BOARDS, key, 4); /* the board must be there */
    write4(key + 4, ++numbers);
    memcpy(value, data, CAPTURED);
    add(CAPTURES, key, 8, value, CAPTURED);
    stored_under = board;
    stored_capture = numbers;
}

static void close_all(void) {
    mdb_cursor_close(slots);
    mdb_cursor_close(captures);
    mdb_txn_abort(txn);
    mdb_env_close(env);
}

static void open_empty(void) {
    char folder[] = "/dev/shm/beside-XXXXXX", file[64];
    if (env != NULL) close_all();
    if (mkdtemp(folder) == NULL) fail("LMDB", "no folder in /dev/shm", 0);
    must(mdb_env_create(&env));
    must(mdb_env_set_mapsize(env, 64u << 20));
    must(mdb_env_set_maxdbs(env, LISTS));
    must(mdb_env_open(env, folder, MDB_WRITEMAP | MDB_NOSYNC | MDB_NOLOCK, 0600));
    strcat(strcpy(file, folder), "/data.mdb"); /* the map stays when the names go */
    unlink(file);
    rmdir(folder);
    must(mdb_txn_begin(env, NULL, 0, &txn));
    for (int i = 0; i < LISTS; i++) must(mdb_dbi_open(txn, NAMES[i], MDB_CREATE, &lists[i]));
}

static void load(const Work *work, unsigned pages) {
    (void)pages;
    open_empty();
    for (size_t i = 0; i < work->rack_count; i++) {
        uint8_t name[NAME], id[4], value[4 + TEXT];
        memcpy(name, work->racks[i].name, NAME);
        write4(id, (uint32_t)i);
        write4(value, (uint32_t)i);
        memcpy(value + 4, work->racks[i].text, TEXT);
        add(RACKS, name, NAME, value, sizeof value);
        add(RACK_IDS, id, 4, name, NAME);
    }
    for (size_t i = 0; i < work->board_count; i++)
        add_board((uint32_t)i, (uint32_t)work->boards[i].rack, work->boards[i].slot, work->boards[i].text);
    stored_board = (uint32_t)work->board_count;
    for (size_t i = 0; i < work->capture_count; i++) add_capture((uint32_t)work->captures[i].board, work->captures[i].data);
    must(mdb_cursor_open(txn, lists[SLOTS], &slots));
    must(mdb_cursor_open(txn, lists[CAPTURES], &captures));
}

/* Whether a cursor stands on an entry whose key begins with a number, after a move. */
static int on(MDB_cursor *cursor, uint32_t number, MDB_val *key, MDB_val *value, MDB_cursor_op move) {
    int told = mdb_cursor_get(cursor, key, value, move);
    if (told != MDB_NOTFOUND) must(told);
    return told == 0 && read4(key->mv_data) == number;
}

static void take_captures(uint32_t board, Sink *sink) {
    uint8_t from[8] = {0};
    MDB_val key = block(from, 8), value;
    write4(from, board);
    for (int more = on(captures, board, &key, &value, MDB_SET_RANGE); more; more = on(captures, board, &key, &value, MDB_NEXT))
        take(sink, 0, value.mv_data, CAPTURED);
}

static void take_board(Sink *sink, const uint8_t *key, const uint8_t *value) {
    take(sink, (uint32_t)key[4] << 8 | key[5], value + 4, TEXT);
}

static void go_round(size_t rack, Sink *sink) {
    uint8_t from[6];
    MDB_val key = block(from, 6), value;
    slot_key(from, (uint32_t)rack, 0);
    for (int more = on(slots, (uint32_t)rack, &key, &value, MDB_SET_RANGE); more;
         more = on(slots, (uint32_t)rack, &key, &value, MDB_NEXT)) {
        take_board(sink, key.mv_data, value.mv_data);
        take_captures(read4(value.mv_data), sink);
    }
}

static void find(size_t rack, uint16_t slot, Sink *sink) {
    uint8_t key[6];
    slot_key(key, (uint32_t)rack, slot);
    take_board(sink, key, get(SLOTS, key, 6));
}

static void key(const uint8_t *name, Sink *sink) {
    uint8_t key[NAME];
    memcpy(key, name, NAME);
    take(sink, 0, get(RACKS, key, NAME) + 4, TEXT);
}

static void store_capture(size_t board, const uint8_t *data) {
    add_capture((uint32_t)board, data);
}

static void delete_capture(void) {
    uint8_t key[8];
    write4(key, stored_under);
    write4(key + 4, stored_capture);
    drop(CAPTURES, key, 8);
}

static void store_board(size_t rack, uint16_t slot, const uint8_t *data) {
    add_board(stored_board, (uint32_t)rack, slot, data);
    add_capture(stored_board, data);
    add_capture(stored_board, data);
}

static void delete_board(void) {
    uint8_t id[4], place[6], from[8] = {0};
    MDB_val key = block(from, 8), value;
    write4(id, stored_board);
    write4(from, stored_board);
    for (int more = on(captures, stored_board, &key, &value, MDB_SET_RANGE); more;
         more = on(captures, stored_board, &key, &value, MDB_NEXT)) /* after a deletion NEXT is the entry behind it */
        must(mdb_cursor_del(captures, 0));
    memcpy(place, get(BOARDS, id, 4), 6);
    drop(SLOTS, place, 6);
    drop(BOARDS, id, 4);
}

static void relink(size_t board, size_t rack) {
    uint8_t id[4], place[6], text[TEXT];
    write4(id, (uint32_t)board);
    memcpy(place, get(BOARDS, id, 4), 6);
    memcpy(text, get(SLOTS, place, 6) + 4, TEXT);
    uint16_t slot = (uint16_t)(place[4] << 8 | place[5]);
    drop(SLOTS, place, 6);
    put_slot((uint32_t)board, (uint32_t)rack, slot, text);
    slot_key(place, (uint32_t)rack, slot);
    MDB_val k = block(id, 4), v = block(place, 6);
    must(mdb_put(txn, lists[BOARDS], &k, &v, 0));
}

const Engine LMDB = {"LMDB", 0, NULL, load, go_round, find, key, store_capture, delete_capture, store_board, delete_board, relink, NULL};
