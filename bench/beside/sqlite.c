/* SQLite in memory: prepared statements, foreign keys, an index for every question; all in one transaction. */
#include <sqlite3.h>
#include <string.h>

#include "engine.h"

static const char SCHEMA[] =
    "PRAGMA foreign_keys = ON;"
    "CREATE TABLE rack (id INTEGER PRIMARY KEY, name BLOB NOT NULL UNIQUE, text BLOB NOT NULL);"
    "CREATE TABLE board (id INTEGER PRIMARY KEY, rack INTEGER NOT NULL REFERENCES rack ON DELETE CASCADE,"
    " slot INTEGER NOT NULL, text BLOB NOT NULL, UNIQUE (rack, slot));"
    "CREATE TABLE capture (id INTEGER PRIMARY KEY, board INTEGER NOT NULL REFERENCES board ON DELETE CASCADE, data BLOB NOT NULL);"
    "CREATE INDEX captures_of ON capture (board);"
    "BEGIN;";

enum { ADD_RACK, ADD_BOARD, ADD_CAPTURE, BOARDS_OF, CAPTURES_OF, FIND, KEY, DROP_BOARD, DROP_CAPTURE, MOVE, INTEGRITY, FOREIGN, STATEMENTS };

static const char *const TEXTS[STATEMENTS] = {
    "INSERT INTO rack (name, text) VALUES (?, ?)",
    "INSERT INTO board (rack, slot, text) VALUES (?, ?, ?)",
    "INSERT INTO capture (board, data) VALUES (?, ?)",
    "SELECT id, slot, text FROM board WHERE rack = ? ORDER BY slot",
    "SELECT data FROM capture WHERE board = ? ORDER BY id",
    "SELECT text FROM board WHERE rack = ? AND slot = ?",
    "SELECT text FROM rack WHERE name = ?",
    "DELETE FROM board WHERE id = ?",
    "DELETE FROM capture WHERE id = ?",
    "UPDATE board SET rack = ? WHERE id = ?",
    "PRAGMA integrity_check",
    "PRAGMA foreign_key_check",
};

static sqlite3 *db;
static sqlite3_stmt *statements[STATEMENTS];
static sqlite3_int64 racks[MOST], boards[MOST], stored;

static void number(int statement, int at, sqlite3_int64 value) {
    sqlite3_bind_int64(statements[statement], at, value);
}

static void bytes(int statement, int at, const uint8_t *value, int n) {
    sqlite3_bind_blob(statements[statement], at, value, n, SQLITE_STATIC);
}

/* Whether there is a row; at the end the statement is put back. */
static int row(int statement) {
    int told = sqlite3_step(statements[statement]);
    if (told == SQLITE_ROW) return 1;
    if (told != SQLITE_DONE) fail("SQLite", sqlite3_errmsg(db), told);
    sqlite3_reset(statements[statement]);
    return 0;
}

/* Runs a statement without rows; the id of what it added. */
static sqlite3_int64 run(int statement) {
    if (row(statement)) fail("SQLite", "a row that was not asked for", statement);
    return sqlite3_last_insert_rowid(db);
}

static sqlite3_int64 add_board(sqlite3_int64 rack, uint16_t slot, const uint8_t *text) {
    number(ADD_BOARD, 1, rack);
    number(ADD_BOARD, 2, slot);
    bytes(ADD_BOARD, 3, text, TEXT);
    return run(ADD_BOARD);
}

static sqlite3_int64 add_capture(sqlite3_int64 board, const uint8_t *data) {
    number(ADD_CAPTURE, 1, board);
    bytes(ADD_CAPTURE, 2, data, CAPTURED);
    return run(ADD_CAPTURE);
}

static void open_empty(void) {
    for (int i = 0; i < STATEMENTS; i++) sqlite3_finalize(statements[i]);
    sqlite3_close(db);
    if (sqlite3_open(":memory:", &db) != SQLITE_OK || sqlite3_exec(db, SCHEMA, NULL, NULL, NULL) != SQLITE_OK)
        fail("SQLite", sqlite3_errmsg(db), 0);
    for (int i = 0; i < STATEMENTS; i++)
        if (sqlite3_prepare_v3(db, TEXTS[i], -1, SQLITE_PREPARE_PERSISTENT, &statements[i], NULL) != SQLITE_OK)
            fail("SQLite", sqlite3_errmsg(db), i);
}

static void load(const Work *work, unsigned pages) {
    (void)pages;
    open_empty();
    for (size_t i = 0; i < work->rack_count; i++) {
        bytes(ADD_RACK, 1, work->racks[i].name, NAME);
        bytes(ADD_RACK, 2, work->racks[i].text, TEXT);
        racks[i] = run(ADD_RACK);
    }
    for (size_t i = 0; i < work->board_count; i++)
        boards[i] = add_board(racks[work->boards[i].rack], work->boards[i].slot, work->boards[i].text);
    for (size_t i = 0; i < work->capture_count; i++) add_capture(boards[work->captures[i].board], work->captures[i].data);
}

static void take_column(int statement, int column, uint32_t slot, Sink *sink) {
    take(sink, slot, sqlite3_column_blob(statements[statement], column), (size_t)sqlite3_column_bytes(statements[statement], column));
}

static void go_round(size_t rack, Sink *sink) {
    number(BOARDS_OF, 1, racks[rack]);
    while (row(BOARDS_OF)) {
        take_column(BOARDS_OF, 2, (uint32_t)sqlite3_column_int(statements[BOARDS_OF], 1), sink);
        number(CAPTURES_OF, 1, sqlite3_column_int64(statements[BOARDS_OF], 0));
        while (row(CAPTURES_OF)) take_column(CAPTURES_OF, 0, 0, sink);
    }
}

static void find(size_t rack, uint16_t slot, Sink *sink) {
    number(FIND, 1, racks[rack]);
    number(FIND, 2, slot);
    while (row(FIND)) take_column(FIND, 0, slot, sink);
}

static void key(const uint8_t *name, Sink *sink) {
    bytes(KEY, 1, name, NAME);
    while (row(KEY)) take_column(KEY, 0, 0, sink);
}

static void store_capture(size_t board, const uint8_t *data) {
    stored = add_capture(boards[board], data);
}

static void delete_capture(void) {
    number(DROP_CAPTURE, 1, stored);
    run(DROP_CAPTURE);
}

static void store_board(size_t rack, uint16_t slot, const uint8_t *data) {
    stored = add_board(racks[rack], slot, data);
    add_capture(stored, data);
    add_capture(stored, data);
}

static void delete_board(void) {
    number(DROP_BOARD, 1, stored);
    run(DROP_BOARD);
}

static void relink(size_t board, size_t rack) {
    number(MOVE, 1, racks[rack]);
    number(MOVE, 2, boards[board]);
    run(MOVE);
}

static int check(void) {
    int well = row(INTEGRITY) && strcmp((const char *)sqlite3_column_text(statements[INTEGRITY], 0), "ok") == 0 && !row(INTEGRITY);
    return well && !row(FOREIGN);
}

const Engine SQLITE = {"SQLite", 0, NULL, load, go_round, find, key, store_capture, delete_capture, store_board, delete_board, relink,
                       check};
