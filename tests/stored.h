/* What tests/bank_calls.c and tests/bank_jobs.c share: stored cases are read from standard input and outcomes written to standard
 * output. A word is 4 bytes, big-endian. Every list of a case has a buffer of its own beside a forbidden page.
 *
 *   FILLING                     each byte of an output before a call
 *   struct list, struct bytes   elements or bytes with their count
 *   structs                     whether the wrappers that take structs are called, in place of the functions that take words
 *   cases                       how many cases were begun
 *   fail                        ends the program
 *   begin                       reads the arguments of the program
 *   word_of                     the word of four bytes
 *   fill_bytes, fill_words      reads bytes or words from the input
 *   next_head                   reads the head of a case; 0 at the end of the input
 *   list_in, bytes_in           a list in a room; by turns at the end of the room and at its beginning
 *   words_read, bytes_read      a list that is read from the input
 *   words_copied                a list with given words
 *   words_filled, bytes_filled  an output: every byte is the filling
 *   put_word, put_words         words to the output
 *   put_output, put_bytes       an output up to its last element, or byte, that is not the filling
 *   untouched                   ends the program unless some bytes are all the filling
 *   job_of                      the struct of 13 words
 */
#ifndef STORED_H
#define STORED_H

#include "mukerihe_bank.h"
#include "rooms.h"

#include <string.h>

enum { FILLING = 0xA5 };

struct list {
    uint32_t *start;
    size_t length;
};

struct bytes {
    uint8_t *start;
    size_t length;
};

static int structs;
static unsigned long cases;

/* Ends the program: what is wrong, and in which case. */
static inline void fail(const char *what)
{
    fprintf(stderr, "case %lu: %s\n", cases, what);
    exit(1);
}

/* Reads the arguments of the program: none, or the word structs. */
static inline void begin(int count, char **arguments)
{
    structs = count == 2 && strcmp(arguments[1], "structs") == 0;
    if (count != 1 && !structs) {
        fprintf(stderr, "usage: %s [structs] <CASES >OUTCOMES\n", arguments[0]);
        exit(2);
    }
}

/* The word of four big-endian bytes. */
static inline uint32_t word_of(const uint8_t *four)
{
    return (uint32_t)four[0] << 24 | (uint32_t)four[1] << 16 | (uint32_t)four[2] << 8 | four[3];
}

/* Reads so many bytes; ends the program where the input ends before. */
static inline void fill_bytes(uint8_t *bytes, size_t length)
{
    if (fread(bytes, 1, length, stdin) != length)
        fail("the input ends in it");
}

/* Reads so many words. */
static inline void fill_words(uint32_t *words, size_t count)
{
    for (size_t i = 0; i < count; i++) {
        uint8_t four[4];
        fill_bytes(four, sizeof four);
        words[i] = word_of(four);
    }
}

/* Reads the words before a case's lists; 0 at the end of the input. */
static inline int next_head(uint32_t *head, size_t count)
{
    int byte = getchar();
    if (byte == EOF)
        return 0;
    ungetc(byte, stdin);
    cases++;
    fill_words(head, count);
    return 1;
}

/* A list in a room. */
static inline struct list list_in(struct room room, size_t length)
{
    return (struct list){placed(room, 4 * length, (cases + structs) % 2 == 0), length};
}

/* Bytes in a room. */
static inline struct bytes bytes_in(struct room room, size_t length)
{
    return (struct bytes){placed(room, length, (cases + structs) % 2 == 0), length};
}

/* A list that is read from the input. */
static inline struct list words_read(struct room room, size_t length)
{
    struct list list = list_in(room, length);
    fill_words(list.start, length);
    return list;
}

/* Bytes that are read from the input. */
static inline struct bytes bytes_read(struct room room, size_t length)
{
    struct bytes bytes = bytes_in(room, length);
    fill_bytes(bytes.start, length);
    return bytes;
}

/* A list with these words. */
static inline struct list words_copied(struct room room, const uint32_t *words, size_t length)
{
    struct list list = list_in(room, length);
    memcpy(list.start, words, 4 * length);
    return list;
}

/* An output of elements before a call. */
static inline struct list words_filled(struct room room, size_t length)
{
    struct list list = list_in(room, length);
    memset(list.start, FILLING, 4 * length);
    return list;
}

/* An output of bytes before a call. */
static inline struct bytes bytes_filled(struct room room, size_t length)
{
    struct bytes bytes = bytes_in(room, length);
    memset(bytes.start, FILLING, length);
    return bytes;
}

/* Writes a word. */
static inline void put_word(uint32_t word)
{
    for (int shift = 24; shift >= 0; shift -= 8)
        putchar((int)(word >> shift & 0xFF));
}

/* Writes words. */
static inline void put_words(const uint32_t *words, size_t count)
{
    for (size_t i = 0; i < count; i++)
        put_word(words[i]);
}

/* Writes an output of elements: how many there are up to the last that is not the filling, and these. */
static inline void put_output(struct list out)
{
    while (out.length > 0 && out.start[out.length - 1] == 0xA5A5A5A5)
        out.length--;
    put_word((uint32_t)out.length);
    put_words(out.start, out.length);
}

/* Writes an output of bytes in the same way. */
static inline void put_bytes(struct bytes out)
{
    while (out.length > 0 && out.start[out.length - 1] == FILLING)
        out.length--;
    put_word((uint32_t)out.length);
    fwrite(out.start, 1, out.length, stdout);
}

/* Ends the program unless all of these bytes are the filling: a refused call may have written nothing. */
static inline void untouched(const void *start, size_t length)
{
    const uint8_t *bytes = start;
    for (size_t i = 0; i < length; i++)
        if (bytes[i] != FILLING)
            fail("a refused call has written");
}

/* The job of 13 words. */
static inline struct mukerihe_job job_of(const uint32_t *w)
{
    return (struct mukerihe_job){.modulus = w[0], .t = w[1], .s = w[2], .r = w[3], .m = w[4], .p = w[5], .n = w[6],
        .xa = w[7], .xb = w[8], .hosts = w[9], .number = w[10], .opening = w[11], .closing = w[12]};
}

#endif
