/* The store on real files: each start recovers, stores one more capture through the journal, and tells how many there are. From the tree's root:
   gcc -Wall -Wextra -Werror -Ibindings/c -o kept bindings/c/kept.c target/staticlib/libgerunjap.a target/staticlib/libjournal.a
   ./kept lab.data lab.journal */
#define _POSIX_C_SOURCE 200809L
#include <fcntl.h>
#include <libgen.h>
#include <stdio.h>
#include <stdlib.h>
#include <string.h>
#include <unistd.h>

#include "gerunjap.h"
#include "gerunjap_journal.h"

enum { CAPTURE = 30, PAGES = 2, PAGE = 512, LINE = 1029, LONG = 65536 };
enum { FORMAT, STORE, EACH = 7 };

static const uint16_t table[] = {PAGES, 1, 0, CAPTURE, 8, 0, 1, PAGES, 65535, 0, 0};
static uint8_t file[PAGES * PAGE], before[sizeof file], text[GERUNJAP_MOST_TEXT], answer[GERUNJAP_ANSWER];
static uint32_t currency[GERUNJAP_CURRENCY];
static int data, journal;

/* Ends the program where a step fails: the next start recovers. */
static void need(int good, const char *what) {
    if (good)
        return;
    perror(what);
    exit(1);
}

static void append(const void *line, size_t n) {
    need(write(journal, line, n) == (ssize_t)n && fdatasync(journal) == 0, "journal");
}

static void store(int page) {
    need(pwrite(data, file + PAGE * (page - 1), PAGE, PAGE * (page - 1)) == PAGE && fdatasync(data) == 0, "data file");
}

static void empty(void) {
    need(ftruncate(journal, 0) == 0 && lseek(journal, 0, SEEK_SET) == 0 && fdatasync(journal) == 0, "journal");
}

/* Waits until a name that may be new is on the disk: a journal that is gone after a loss of power recovers nothing. */
static void named(const char *name) {
    char *copy = strdup(name);
    int folder = open(dirname(copy), O_RDONLY);
    need(folder >= 0 && fsync(folder) == 0, name);
    close(folder);
    free(copy);
}

/* A call on the file in memory; whether it is done. */
static int call(const uint8_t *frame, size_t n) {
    uint8_t none[1];
    need(gerunjap_call(table, sizeof table / sizeof *table, file, sizeof file, currency, GERUNJAP_CURRENCY, frame, n, none, 0, answer,
                       sizeof answer) == GERUNJAP_ANSWERED, "frame");
    return answer[0] == 0;
}

/* The same call on the disk too: images and ready, the stores, done; each waits for the one before it. */
static int call_kept(const uint8_t *frame, size_t n) {
    memcpy(before, file, sizeof file);
    if (!call(frame, n))
        return 0;
    uint32_t length = gerunjap_images(before, sizeof before, file, sizeof file, text, sizeof text), at = 0;
    need(length != GERUNJAP_NO_TEXT, "journal text");
    if (length == 0)
        return 1;
    for (; at + LINE < length; at += LINE) append(text + at, LINE);
    append(text + at, length - at);
    for (int page = 1; page <= PAGES; page++)
        if (gerunjap_changed(before, sizeof before, file, sizeof file, (uint32_t)page))
            store(page);
    append(GERUNJAP_DONE, strlen(GERUNJAP_DONE));
    return 1;
}

/* Puts back what a call left half done, and empties the journal. */
static void recover(void) {
    uint8_t lines[LONG + GERUNJAP_MOST_TEXT], stored[PAGES];
    ssize_t n = read(journal, lines, sizeof lines);
    need(n >= 0 && gerunjap_recover(file, sizeof file, lines, (size_t)n, stored, PAGES) == GERUNJAP_RECOVERED, "journal");
    for (int page = 1; page <= PAGES; page++)
        if (stored[page - 1])
            store(page);
    empty();
}

int main(int count, char **names) {
    static const uint8_t format[] = {FORMAT}, one[] = {STORE, 0, CAPTURE, 'b', 'o', 'o', 't', '.', 'l', 'o', 'g'};
    need(count == 3, "usage: kept DATA JOURNAL");
    data = open(names[1], O_RDWR | O_CREAT, 0666);
    journal = open(names[2], O_RDWR | O_CREAT, 0666);
    need(data >= 0 && journal >= 0, "files");
    named(names[1]);
    named(names[2]);
    if (read(data, file, sizeof file) == (ssize_t)sizeof file) {
        recover();
    } else { /* no file yet, or its first writing was cut: nothing was answered then */
        need(call(format, sizeof format), "format");
        for (int page = 1; page <= PAGES; page++) store(page);
    }
    printf("%s\n", call_kept(one, sizeof one) ? "stored" : "refused");
    unsigned found = 0;
    for (uint32_t from = 1; ; found++) {
        uint8_t each[] = {EACH, (uint8_t)(from >> 16), (uint8_t)(from >> 8), (uint8_t)from, 0, 0x20, 0x3F};
        if (!call(each, sizeof each))
            break;
        from = ((uint32_t)answer[1] << 16 | (uint32_t)answer[2] << 8 | answer[3]) + 1;
    }
    printf("%u captures\n", found);
    return 0;
}
