/* The chain store's C interface. Link with target/staticlib/libgerunjap.a (tools/archives gerunjap). */
#ifndef GERUNJAP_H
#define GERUNJAP_H

#include <stddef.h>
#include <stdint.h>

#ifdef __cplusplus
extern "C" {
#endif

/* What gerunjap_call returns. At 1 and 2 nothing is written. */
enum {
    GERUNJAP_ANSWERED = 0, /* the frame was well made, and `answer` has the answer */
    GERUNJAP_ILL_MADE = 1, /* the frame is no call with the right number of argument bytes */
    GERUNJAP_BAD_LENT = 2  /* `currency` has not 33 words, or `answer` fewer than 8 bytes */
};

/* The codes of currency: the run's, 16 of types, 16 of chains. The bytes of an answer. */
enum { GERUNJAP_CURRENCY = 33, GERUNJAP_ANSWER = 8 };

/* Plays one call on lent memory. Each block is a pointer and the number of its elements; a pointer is never null, also for none.
   table:    the definition table's words
   file:     512 x N bytes
   currency: 33 codes, changed by the call
   frame:    the call's number, then types as 2 bytes, chains 1, codes 3 (high byte first), data and keys to the end;
             call 00 has no argument and formats the file under the table
   output:   where READ puts the record's data
   answer:   8 bytes: code 1 (0 done, else the refusal), reference code 3, type 2, count 2, high byte first */
uint8_t gerunjap_call(const uint16_t *table, size_t table_words, uint8_t *file, size_t file_bytes, uint32_t *currency,
                      size_t currency_words, const uint8_t *frame, size_t frame_bytes, uint8_t *output, size_t output_bytes,
                      uint8_t *answer, size_t answer_bytes);

#ifdef __cplusplus
}
#endif

#endif
