/*
 * mukerihe.h: a host's part of a job.
 *
 * A host gets a share of A and a share of B and sends back their product modulo a prime q. The
 * library libmukerihe.a, for x86-64 Linux, has two functions:
 *
 *   mukerihe_product  the product alone, on the bytes of elements
 *   mukerihe_answer   the whole part: two messages in, the message of the answer out
 */
#ifndef MUKERIHE_H
#define MUKERIHE_H

#include <stddef.h>
#include <stdint.h>

#ifdef __cplusplus
extern "C" {
#endif

/* What mukerihe_product returns. */
#define MUKERIHE_DONE 0u
#define MUKERIHE_BAD_MODULUS 1u
#define MUKERIHE_BAD_SIZE 2u
#define MUKERIHE_BLOCK_TOO_LARGE 6u
#define MUKERIHE_BAD_LENGTH 13u
#define MUKERIHE_BAD_ELEMENT 14u

/* What mukerihe_answer returns besides these. */
#define MUKERIHE_BAD_HOST 12u
#define MUKERIHE_BAD_KIND 16u
#define MUKERIHE_SHORT_MESSAGE 17u
#define MUKERIHE_BAD_MARK 18u
#define MUKERIHE_BAD_VERSION 19u
#define MUKERIHE_BAD_MESSAGE_LENGTH 20u
#define MUKERIHE_WRONG_KINDS 1001u
#define MUKERIHE_MODULI_DIFFER 1003u
#define MUKERIHE_HOSTS_DIFFER 1004u
#define MUKERIHE_JOBS_DIFFER 1005u
#define MUKERIHE_SIZES_DIFFER 1006u

/* The bytes of the longest message: an output of so many holds every answer. */
#define MUKERIHE_MOST_MESSAGE 16400u

/*
 * Multiplies the block a by the block b modulo q and writes the product to out.
 *
 * Blocks are stored row by row. An element is a whole number from 0 to q - 1 in 4 bytes, the
 * highest byte first (big-endian). All lengths count bytes.
 *
 *   modulus     the modulus number: 1, 2, 3 or 4 for q = 13, 257, 65537 or 2147483647
 *   rows        rows of a and of out, 1 to 16384
 *   inner       columns of a and rows of b, 1 to 16384
 *   columns     columns of b and of out, 1 to 16384
 *   a           the share of A, rows by inner elements
 *   a_length    the length of a in bytes, exactly 4 * rows * inner
 *   b           the share of B, inner by columns elements
 *   b_length    the length of b in bytes, exactly 4 * inner * columns
 *   out         the answer, rows by columns elements
 *   out_length  the length of out in bytes, exactly 4 * rows * columns
 *
 * None of the three blocks may hold more than 4096 elements.
 *
 * The function returns 0 when the product is made, and all of out is then written. Otherwise it
 * returns the first of these numbers that fits, tested in this order, and no byte of out changes:
 *
 *    1  the modulus number is not 1, 2, 3 or 4
 *    2  rows, inner or columns is not 1 to 16384
 *    6  a, b or out would hold more than 4096 elements
 *   13  a_length, b_length or out_length is not exact
 *   14  an element of a or of b is not below q
 *
 * Each pointer must be good for as many bytes as its length says. A null pointer with length 0 is
 * an empty buffer; it gets 13 unless an earlier number fits, since no block is empty. The three
 * buffers must not overlap: nothing is promised where they do.
 *
 * The function keeps nothing between calls, so several threads may call it at the same time, each
 * with an out of its own. It takes no memory but its stack, of which it needs about 100 KB.
 */
uint32_t mukerihe_product(uint32_t modulus, uint32_t rows, uint32_t inner, uint32_t columns,
                          const uint8_t *a, size_t a_length,
                          const uint8_t *b, size_t b_length,
                          uint8_t *out, size_t out_length);

/*
 * Answers two messages: reads a host's A share and its B share, multiplies them and writes the
 * message of the answer to the front of out.
 *
 *   a           the message of the A share, kind 1
 *   a_length    the length of a in bytes
 *   b           the message of the B share, kind 2
 *   b_length    the length of b in bytes
 *   out         gets the answer's message, kind 3
 *   out_length  the length of out in bytes, at least that of the answer; 16400 is always enough
 *   written     gets how many bytes the answer has, 16 + 4 * rows of A's share * columns of B's
 *
 * The bytes of a message, numbers big-endian: 0 to 2 the mark "MDO"; 3 and 4 the version, 1; 5 the
 * kind; 6 the modulus number; 7 the host; 8 and 9 the rows; 10 and 11 the columns; 12 to 15 the job
 * number; from 16 on rows by columns elements, row by row, 4 bytes each, and nothing after them.
 *
 * The function returns 0 when the answer is made. Bytes of out past the answer stay as they were.
 * Otherwise it returns the first of these numbers that fits, tested in this order, and neither out
 * nor *written changes. First message a by itself, then message b by itself:
 *
 *     17  it has fewer than 16 bytes
 *     18  the mark is not "MDO"
 *     19  the version is not 1
 *     16  the kind is not 1, 2 or 3
 *      1  the modulus number is not 1, 2, 3 or 4
 *     12  the host is not 1 to 64
 *      2  rows or columns is not 1 to 16384
 *      6  it would hold more than 4096 elements
 *     20  its length is not 16 + 4 * rows * columns
 *     14  an element is not below q
 *
 * Then both together:
 *
 *   1001  a is not of kind 1, or b is not of kind 2
 *   1003  the modulus numbers differ
 *   1004  the hosts differ
 *   1005  the job numbers differ
 *   1006  the columns of A's share are not the rows of B's
 *      6  the answer would hold more than 4096 elements
 *     13  out_length is less than the answer needs
 *
 * Numbers from 1001 on are the libraries' own, the others the job sheet's. 1002 is never returned
 * here: it belongs to mukerihe_bank.h.
 *
 * Two sharings under one job number, host and modulus number cannot be told apart by the function:
 * it answers a share of A from one and a share of B from the other, where their sizes fit.
 *
 * Each pointer must be good for as many bytes as its length says; written may not be null. A null
 * pointer with length 0 is an empty buffer: an empty message gets 17 and an empty out 13, unless an
 * earlier number fits. The buffers and *written must not overlap: nothing is promised where they do.
 *
 * The function keeps nothing between calls, so several threads may call it at the same time, each
 * with an out and a written of its own. It takes no memory but its stack, of which it needs about
 * 100 KB.
 */
uint32_t mukerihe_answer(const uint8_t *a, size_t a_length, const uint8_t *b, size_t b_length,
                         uint8_t *out, size_t out_length, size_t *written);

#ifdef __cplusplus
}
#endif

#endif
