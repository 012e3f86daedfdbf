/* A short session: racks by name, boards under racks by slot, captures under boards as they come. From the tree's root:
   gcc -Wall -Wextra -Werror -Ibindings/c -o example bindings/c/example.c target/staticlib/libgerunjap.a */
#include <stdio.h>
#include <stdlib.h>

#include "gerunjap.h"

enum { RACK = 10, BOARD = 20, CAPTURE = 30 };
enum { RACK_BOARDS, BOARD_CAPTURES };
enum { FORMAT, STORE, DIRECT, KEY, NEXT, PRIOR, MASTER, EACH, MODIFY, DELETE, READ, CURRENT, FIND, RELINK };

/* All that a call is lent belongs to the caller. */
static const uint16_t table[] = {
    4, 3, 2,                        /* pages, types, chains */
    RACK, 4, 2, 1, 4, 65535, 0, 4,  /* calculated by its name */
    BOARD, 6, 1, 1, 4, 0, 0, 0,     /* stored near its rack: slot, label */
    CAPTURE, 8, 1, 1, 4, 1, 0, 0,   /* stored near its board */
    RACK, BOARD, 2, 1, 2, 0, 2,     /* rising by slot, no slot twice */
    BOARD, CAPTURE, 1, 1, 0, 0, 0,  /* last */
};
static uint8_t file[4 * 512], output[200], answer[GERUNJAP_ANSWER];
static uint32_t currency[GERUNJAP_CURRENCY];

static const char *const WORDS[] = {
    "done", "the definition table breaks a rule", "the file is not 512 bytes for each page of the table",
    "the file is not sound", "the currency breaks its rule", "no such call, type or chain", "no current record to start from",
    "this type or chain does not take this call", "data or key of another length than defined", "no such record",
    "a forbidden duplicate would stand", "no page in the type's range has the room and a free line",
    "the output is shorter than the record's data",
};

/* A call: its number, one argument of so many bytes (0: none), then data or key. Gives the record's code, 0 where it is refused. */
static uint32_t play(unsigned call, unsigned width, uint32_t argument, const char *data, size_t length) {
    uint8_t frame[256];
    size_t n = 0;
    frame[n++] = (uint8_t)call;
    while (width-- > 0) frame[n++] = (uint8_t)(argument >> (8 * width));
    while (length-- > 0) frame[n++] = (uint8_t)*data++;
    if (gerunjap_call(table, sizeof table / sizeof *table, file, sizeof file, currency, GERUNJAP_CURRENCY, frame, n, output,
                      sizeof output, answer, sizeof answer) != GERUNJAP_ANSWERED)
        exit(1);
    return (uint32_t)answer[1] << 16 | (uint32_t)answer[2] << 8 | answer[3];
}

/* Prints the last answer; its code. */
static uint32_t tell(const char *what, uint32_t code) {
    if (answer[0] != 0)
        printf("%-22srefused %d: %s\n", what, answer[0], WORDS[answer[0]]);
    else
        printf("%-22scode %u, type %d, count %d\n", what, code, answer[4] << 8 | answer[5], answer[6] << 8 | answer[7]);
    return code;
}

int main(void) {
    tell("format", play(FORMAT, 0, 0, "", 0));
    uint32_t rack = tell("store rack R001", play(STORE, 2, RACK, "R001", 4));
    tell("store board, slot 7", play(STORE, 2, BOARD, "\0\007ARMx", 6));
    tell("store board, slot 3", play(STORE, 2, BOARD, "\0\003FPGA", 6));
    tell("store capture", play(STORE, 2, CAPTURE, "boot.log", 8));
    tell("store board, slot 7", play(STORE, 2, BOARD, "\0\007twin", 6));

    play(DIRECT, 3, rack, "", 0);
    for (uint32_t at; (at = play(NEXT, 1, RACK_BOARDS, "", 0)) != rack && at != 0;) {
        play(READ, 0, 0, "", 0);
        printf("  slot %d %.4s\n", output[0] << 8 | output[1], (const char *)output + 2);
    }

    uint32_t other = tell("store rack R002", play(STORE, 2, RACK, "R002", 4));
    const char to_other[] = {(char)(other >> 16), (char)(other >> 8), (char)other};
    tell("key R001", play(KEY, 2, RACK, "R001", 4));
    tell("find slot 7", play(FIND, 1, RACK_BOARDS, "\0\007", 2));
    tell("modify its label", play(MODIFY, 0, 0, "\0\007ARMy", 6));
    tell("prior", play(PRIOR, 1, RACK_BOARDS, "", 0));
    tell("each from 130", play(EACH, 3, 130, "\0\001\077", 3));
    tell("relink to R002", play(RELINK, 1, RACK_BOARDS, to_other, 3));
    tell("master", play(MASTER, 1, RACK_BOARDS, "", 0));
    tell("current board", play(CURRENT, 2, BOARD, "", 0));
    tell("key R001", play(KEY, 2, RACK, "R001", 4));
    tell("delete", play(DELETE, 0, 0, "", 0));
    tell("next board", play(NEXT, 1, RACK_BOARDS, "", 0));
    tell("next capture", play(NEXT, 1, BOARD_CAPTURES, "", 0));
    return 0;
}
