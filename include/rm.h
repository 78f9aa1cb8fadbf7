/*
 * rm.h: first-order generalised Reed-Muller words over the symbols 0 to q - 1.
 *
 * q is 2, 4 or 8 and m is 2 to 8. A message is m + 1 symbols: the constant a, then the coefficients a_0 to
 * a_(m - 1). A word is n = 2^m symbols, 4 to 256. A symbol is one byte. Symbol i of a message's word is the constant
 * plus the coefficients a_k of the bits k that are set in i, modulo q; bit k is the one of value 2^k.
 *
 * Buffers. The caller owns both and lends them for the call. Lengths are in bytes: message_len must be m + 1 and
 * word_len 2^m; any other length is refused by its number. Each pointer must be good for its length; NULL with
 * length 0 is an empty buffer. message and word must not overlap. No byte outside them is read or written.
 *
 * Nothing is kept between calls and no memory is allocated. Calls on different buffers may run at the same time.
 *
 * Each call asks its questions in the order of their numbers and answers the number of the first no. A refused call
 * leaves both buffers as they were.
 *
 * Link with librm_c.a.
 */
#ifndef RM_H
#define RM_H

#include <stddef.h>
#include <stdint.h>

#ifdef __cplusplus
extern "C" {
#endif

/* The refusals. */
#define RM_BAD_Q 1u              /* q is not 2, 4 or 8 */
#define RM_BAD_M 2u              /* m is not 2 to 8 */
#define RM_BAD_MESSAGE_LENGTH 5u /* message_len is not m + 1 */
#define RM_BAD_MESSAGE_SYMBOL 6u /* a message symbol is q or more (rm_write) */
#define RM_BAD_WORD_LENGTH 7u    /* word_len is not 2^m */
#define RM_BAD_WORD_SYMBOL 8u    /* a word symbol is q or more (rm_read) */
#define RM_DOUBTFUL 9u           /* no message is near the word (rm_read) */

/* Any answer from here on is an acceptance: a word written, or a word read with answer - RM_DONE places wrong. */
#define RM_DONE 100u

/*
 * Writes the word of a message.
 *
 * message: read, never written. word: filled with the 2^m symbols of the message's word.
 *
 * Answers 100 for a word written, or, asked in this order, 1, 2, 5, 6 or 7.
 */
uint32_t rm_write(uint32_t q, uint32_t m, const uint8_t *message, size_t message_len, uint8_t *word, size_t word_len);

/*
 * Reads a received word as the message near it. A message is near when its word differs from the received one in
 * fewer than a quarter of the places (4 * wrong < 2^m); at most one message is near.
 *
 * message: filled with the m + 1 symbols of the near message; its content before does not matter. word: read, never
 * written.
 *
 * Answers 100 + wrong for a word read, wrong being the number of places that differ (0 to 63), or, asked in this
 * order, 1, 2, 5, 7, 8 or 9. This form does not give the margin of the votes.
 */
uint32_t rm_read(uint32_t q, uint32_t m, uint8_t *message, size_t message_len, const uint8_t *word, size_t word_len);

#ifdef __cplusplus
}
#endif

#endif
