/* The journal for power loss. Link with target/staticlib/libjournal.a (tools/archives journal). */
#ifndef GERUNJAP_JOURNAL_H
#define GERUNJAP_JOURNAL_H

#include <stddef.h>
#include <stdint.h>

#ifdef __cplusplus
extern "C" {
#endif

/* What gerunjap_recover returns. At 2 and 13 nothing is changed. */
enum {
    GERUNJAP_RECOVERED = 0,
    GERUNJAP_BAD_SIZE = 2,    /* the file is not of 1 to 128 pages, or `stored` has fewer bytes than it has pages */
    GERUNJAP_BAD_JOURNAL = 13 /* a complete line is malformed or out of place */
};

/* What gerunjap_images returns where there is no text: nothing is written then. The most bytes that a text has. The done line. */
#define GERUNJAP_NO_TEXT UINT32_C(4294967295)
#define GERUNJAP_MOST_TEXT (128 * 1029 + 5)
#define GERUNJAP_DONE "FFFF\n"

/* Each block is a pointer and the number of its bytes; a pointer is never null, also for none. */

/* Puts the journal text of a call that changes the file from `before` to `after` into `out`: a line of 1029 bytes for each page that differs,
   rising, and the ready line of 5. Returns its length; 0 where no page differs; GERUNJAP_NO_TEXT where the lengths differ or are not those of
   1 to 128 pages, or where `out` has no room for all of it. */
uint32_t gerunjap_images(const uint8_t *before, size_t before_bytes, const uint8_t *after, size_t after_bytes, uint8_t *out,
                         size_t out_bytes);

/* 1 where page `page`, from 1 on, differs and is to be stored; else 0. */
uint8_t gerunjap_changed(const uint8_t *before, size_t before_bytes, const uint8_t *after, size_t after_bytes, uint32_t page);

/* Puts back into the file the images of the journal's last call where its ready line has no done line. stored[p - 1] is 1 for each page put
   back, which is then to be stored, and 0 for the others; after the stores the journal is to be emptied. */
uint8_t gerunjap_recover(uint8_t *file, size_t file_bytes, const uint8_t *journal, size_t journal_bytes, uint8_t *stored,
                         size_t stored_bytes);

#ifdef __cplusplus
}
#endif

#endif
