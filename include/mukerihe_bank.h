/*
 * mukerihe_bank.h: the bank's part of a job.
 *
 * The bank plans a job, draws masks, makes the shares of A and of B for each host, writes them as
 * messages, takes the hosts' answers as they arrive and decodes the table A times B modulo q. The
 * library libmukerihe_bank.a has a function for each step:
 *
 *   mukerihe_plan         what a job needs: layout, K, the sizes of its blocks
 *   mukerihe_draw         masks from random words
 *   mukerihe_share_a      a host's share of A
 *   mukerihe_share_b      a host's share of B
 *   mukerihe_write        a message from its fields and elements
 *   mukerihe_read         a message's fields and elements
 *   mukerihe_arrive       an answer's message taken into the store
 *   mukerihe_decode       the table from the answers in the store
 *   mukerihe_multiply     a product of elements
 *   mukerihe_signed       the signed reading of an element
 *   mukerihe_element      the way back
 *   mukerihe_page_length  how many bytes a page has
 *   mukerihe_page         a table as lines of text
 *
 * A job, the fields of a message and the values of a plan are lists of words for these functions.
 * The structs at the end, with the wrappers below them, spare you the order of the words:
 *
 *   struct mukerihe_job          mukerihe_plan_job, mukerihe_share_a_job, mukerihe_share_b_job,
 *                                mukerihe_arrive_job, mukerihe_decode_job
 *   struct mukerihe_fields       mukerihe_write_fields, mukerihe_read_fields
 *   struct mukerihe_plan_values  mukerihe_plan_job
 *
 * A host needs mukerihe.h alone. Link both libraries with -lmukerihe_bank -lmukerihe. C99 or C++11
 * is needed, or a later one: the wrappers are static inline.
 *
 * What holds for every function:
 *
 * - It returns 0 when it is done, and otherwise the first number that fits, tested in the order
 *   that is written with it. A refused call changes nothing: no output, and no *used, *heard,
 *   *already, *value or *element. (mukerihe_page_length returns a length, and refuses nothing.)
 * - A list is a pointer and a length, which counts elements, or bytes for a message or a page. The
 *   pointer must be good for as many as the length says. A null pointer with length 0 is an empty
 *   list; with any other length it may not be null. Pointers without a length may never be null.
 * - No two lists of a call may overlap, nor a list and what another pointer points to: nothing is
 *   promised where they do.
 * - It keeps nothing between calls, so several threads may call at the same time, each with outputs
 *   of its own.
 * - It takes no memory but its stack, at most MUKERIHE_BANK_STACK bytes.
 *
 * Matrices, blocks and tables lie row by row. An element is a whole number from 0 to q - 1.
 */
#ifndef MUKERIHE_BANK_H
#define MUKERIHE_BANK_H

#if !defined(__x86_64__) || !defined(__linux__)
#error "mukerihe_bank is a library for x86-64 Linux"
#endif

#include <stddef.h>
#include <stdint.h>

#include "mukerihe.h"

/* The version of this header. 0: it will change with later requests. */
#define MUKERIHE_BANK_VERSION 0

/*
 * The numbers that calls return. Those below 1000 are the job sheet's.
 *
 *     0  MUKERIHE_DONE                done
 *     1  MUKERIHE_BAD_MODULUS         the modulus number is not 1, 2, 3 or 4 (for q = 13, 257,
 *                                     65537 or 2147483647)
 *     2  MUKERIHE_BAD_SIZE            t, s or r, or rows, inner or columns, is not 1 to 16384
 *     3  MUKERIHE_BAD_CUT             m, p or n is not 1 to 8
 *     4  MUKERIHE_BAD_GROUP           X_A or X_B is not 1 to 16
 *     5  MUKERIHE_NO_DIVISION         m does not divide t, or p not s, or n not r
 *     6  MUKERIHE_BLOCK_TOO_LARGE     a block would hold more than 4096 elements
 *     7  MUKERIHE_BAD_HOSTS           N is not 1 to 64, or not below q
 *     8  MUKERIHE_TOO_FEW_HOSTS       K is over N: more answers are needed than there are hosts
 *     9  MUKERIHE_BAD_POINTS          there are not N points
 *    10  MUKERIHE_BAD_POINT           a point is 0, or not below q
 *    11  MUKERIHE_REPEATED_POINT      a point equals an earlier one
 *    12  MUKERIHE_BAD_HOST            the host is not 1 to N; in a message by itself, not 1 to 64
 *    13  MUKERIHE_BAD_LENGTH          a list has another length than it must have
 *    14  MUKERIHE_BAD_ELEMENT         an element is not below q
 *    15  MUKERIHE_BAD_MASK            an element of the masks is not below q
 *    16  MUKERIHE_BAD_KIND            the kind of a message is not 1, 2 or 3
 *    17  MUKERIHE_SHORT_MESSAGE       a message has fewer than 16 bytes
 *    18  MUKERIHE_BAD_MARK            a message does not begin with "MDO"
 *    19  MUKERIHE_BAD_VERSION         a message's version is not 1
 *    20  MUKERIHE_BAD_MESSAGE_LENGTH  a message's length is not 16 + 4 * rows * columns
 *    21  MUKERIHE_HEARD_ABOVE         a host above N is among the hosts heard
 *    22  MUKERIHE_FOREIGN             a message is not an answer of this job: its kind is not 3, or
 *                                     job number, modulus number, rows or columns are others
 *    23  MUKERIHE_ANSWER_DIFFERS      the host is heard already, with another answer
 *    24  MUKERIHE_TOO_FEW_HEARD       fewer than K hosts are heard
 *    25  MUKERIHE_OUTSIDE_RANGE       a value is not in -(q - 1) / 2 to (q - 1) / 2
 *    27  MUKERIHE_TOO_FEW_WORDS       there are fewer usable random words than elements wanted
 *    28  MUKERIHE_BAD_PAGE_LENGTH     the output is not exactly as long as the page
 *    29  MUKERIHE_BAD_WINDOW          opening is not before closing
 *    30  MUKERIHE_OUTSIDE_WINDOW      an answer's minute is before opening, or not before closing
 *  1002  MUKERIHE_BAD_COUNT           a job is not 13 words, or fields are not 6, or the values of a
 *                                     plan are not 5: a program and a library that do not belong
 *                                     together. This number is the library's own
 */
#define MUKERIHE_BAD_CUT 3u
#define MUKERIHE_BAD_GROUP 4u
#define MUKERIHE_NO_DIVISION 5u
#define MUKERIHE_BAD_HOSTS 7u
#define MUKERIHE_TOO_FEW_HOSTS 8u
#define MUKERIHE_BAD_POINTS 9u
#define MUKERIHE_BAD_POINT 10u
#define MUKERIHE_REPEATED_POINT 11u
#define MUKERIHE_BAD_MASK 15u
#define MUKERIHE_HEARD_ABOVE 21u
#define MUKERIHE_FOREIGN 22u
#define MUKERIHE_ANSWER_DIFFERS 23u
#define MUKERIHE_TOO_FEW_HEARD 24u
#define MUKERIHE_OUTSIDE_RANGE 25u
#define MUKERIHE_TOO_FEW_WORDS 27u
#define MUKERIHE_BAD_PAGE_LENGTH 28u
#define MUKERIHE_BAD_WINDOW 29u
#define MUKERIHE_OUTSIDE_WINDOW 30u
#define MUKERIHE_BAD_COUNT 1002u

/* How many words a job has, a message's fields, and the values of a plan. */
#define MUKERIHE_JOB_WORDS 13u
#define MUKERIHE_FIELD_WORDS 6u
#define MUKERIHE_PLAN_WORDS 5u

/*
 * The bytes of stack that are enough for every function here. mukerihe_decode takes about 51 KB, the
 * shares and mukerihe_multiply about 34 KB, any other below 1 KB. The functions of mukerihe.h need
 * more: about 100 KB.
 */
#define MUKERIHE_BANK_STACK 65536u

/* The most elements of a block: what mukerihe_read wants room for. */
#define MUKERIHE_MOST_ELEMENTS 4096u

#ifdef __cplusplus
extern "C" {
#endif

/*
 * Plans a job.
 *
 *   job     the job's 13 words: modulus number; t, s, r (A is t by s, B is s by r); m, p, n (A is
 *           cut into m by p blocks, B into p by n); X_A, X_B (the largest groups of hosts that are
 *           kept ignorant of A and of B); N (hosts); job number; opening and closing minute
 *   points  a point for each host, different from each other and from 0, below q
 *   values  gets 5 words: the number of the layout; K, how many answers are needed; rows, inner
 *           and columns of the blocks (t / m, s / p, r / n). An A block is rows by inner, a B block
 *           inner by columns, an answer rows by columns
 *
 * Numbers: 1002 (job or values); then the plan's: 1, 2, 3, 4, 5, 6, 7, 8, 29, 9, and point by point
 * 10, 11. mukerihe_share_a, mukerihe_share_b, mukerihe_arrive and mukerihe_decode make the plan's
 * tests again first.
 */
uint32_t mukerihe_plan(const uint32_t *job, size_t job_length,
                       const uint32_t *points, size_t points_length,
                       uint32_t *values, size_t values_length);

/*
 * Draws as many masks as out is long from random words of 32 bits. A word at or above the largest
 * multiple of q that is at most 2^32 is skipped; any other gives its remainder by q.
 *
 *   modulus  the modulus number
 *   words    the random words: uniform, fresh for each job, from a source like getrandom
 *   out      gets the masks. X_A * rows * inner elements are the masks of A, X_B * inner * columns
 *            those of B
 *   used     gets how many words were used, skipped ones counted; 0 where out is empty
 *
 * Numbers: 1, 27.
 */
uint32_t mukerihe_draw(uint32_t modulus, const uint32_t *words, size_t words_length,
                       uint32_t *out, size_t out_length, size_t *used);

/*
 * Makes a host's share of A: the sum modulo q of A's blocks and masks, each times the host's point
 * to its exponent.
 *
 *   job, points  as in mukerihe_plan
 *   host         the host's number, 1 to N
 *   elements     A, t by s
 *   masks        A's masks, one after another, each rows by inner: X_A * rows * inner elements
 *   out          gets the share, rows by inner
 *
 * Numbers: 1002; the plan's; 12; 13 (elements, masks or out not of exact length); 14; 15.
 */
uint32_t mukerihe_share_a(const uint32_t *job, size_t job_length,
                          const uint32_t *points, size_t points_length, uint32_t host,
                          const uint32_t *elements, size_t elements_length,
                          const uint32_t *masks, size_t masks_length,
                          uint32_t *out, size_t out_length);

/*
 * Makes a host's share of B, a sum modulo q in the same way: elements are B, s by r, the masks X_B
 * blocks of inner by columns, and the share is inner by columns.
 */
uint32_t mukerihe_share_b(const uint32_t *job, size_t job_length,
                          const uint32_t *points, size_t points_length, uint32_t host,
                          const uint32_t *elements, size_t elements_length,
                          const uint32_t *masks, size_t masks_length,
                          uint32_t *out, size_t out_length);

/*
 * Writes a message.
 *
 *   fields    6 words: kind (1 = A share, 2 = B share, 3 = answer), modulus number, host, rows,
 *             columns, job number
 *   elements  rows by columns elements
 *   out       gets the message, 16 + 4 * rows * columns bytes; mukerihe.h has their order
 *
 * Numbers: 1002; 16; 1; 12 (host not 1 to 64); 2; 6; 13 (elements or out not of exact length); 14.
 */
uint32_t mukerihe_write(const uint32_t *fields, size_t fields_length,
                        const uint32_t *elements, size_t elements_length,
                        uint8_t *out, size_t out_length);

/*
 * Reads a message.
 *
 *   message   the message
 *   elements  gets its elements; 4096 or more long, and past the elements it stays as it was
 *   fields    gets its 6 fields, as in mukerihe_write
 *
 * Numbers: 1002; 13 (elements shorter than 4096); then the message's: 17, 18, 19, 16, 1, 12 (host
 * not 1 to 64), 2, 6, 20, 14.
 */
uint32_t mukerihe_read(const uint8_t *message, size_t message_length,
                       uint32_t *elements, size_t elements_length,
                       uint32_t *fields, size_t fields_length);

/*
 * Takes an answer's message at a minute: its elements go to its host's place in the store, and the
 * host is heard. The same message again, of a host that is heard, is already in and changes neither.
 *
 *   job, points  as in mukerihe_plan
 *   heard        the hosts heard, bit i - 1 for host i. A job begins with 0 in it
 *   store        N blocks of rows by columns, host i's in place i. Before the first arrival it may
 *                hold anything; later nobody else writes in it
 *   message      the answer's message
 *   minute       when it came, counted as the job's opening and closing minute
 *   already      gets 0 when the answer is taken, 1 when it was in already; both return 0
 *
 * Numbers: 1002; the plan's; 21; 13 (store not N blocks long); the message's, as in mukerihe_read;
 * 22; 12 (host above N); 30; 23.
 */
uint32_t mukerihe_arrive(const uint32_t *job, size_t job_length,
                         const uint32_t *points, size_t points_length,
                         uint64_t *heard, uint32_t *store, size_t store_length,
                         const uint8_t *message, size_t message_length,
                         uint32_t minute, uint32_t *already);

/*
 * Decodes the table A times B modulo q from the answers of the K lowest-numbered hosts heard.
 *
 *   job, points, heard, store  as the last arrival left them; heard is a number here
 *   table                      gets the table, t by r
 *
 * A wrong block in a fit message gives a wrong table without a sign.
 *
 * Numbers: 1002; the plan's; 21; 13 (store or table not of exact length); 24; 14 (in the block of a
 * host heard).
 */
uint32_t mukerihe_decode(const uint32_t *job, size_t job_length,
                         const uint32_t *points, size_t points_length,
                         uint64_t heard, const uint32_t *store, size_t store_length,
                         uint32_t *table, size_t table_length);

/*
 * Multiplies a, rows by inner, by b, inner by columns, modulo q. It is mukerihe_product on elements
 * in place of bytes.
 *
 * Numbers: 1; 2; 6; 13 (a, b or out not of exact length); 14.
 */
uint32_t mukerihe_multiply(uint32_t modulus, uint32_t rows, uint32_t inner, uint32_t columns,
                           const uint32_t *a, size_t a_length,
                           const uint32_t *b, size_t b_length,
                           uint32_t *out, size_t out_length);

/*
 * The signed reading of an element: *value is the element where that is at most (q - 1) / 2, else
 * the element less q.
 *
 * Numbers: 1, 14.
 */
uint32_t mukerihe_signed(uint32_t modulus, uint32_t element, int64_t *value);

/*
 * The way back: *element is the one whose signed reading is value.
 *
 * Numbers: 1, 25.
 */
uint32_t mukerihe_element(uint32_t modulus, int64_t value, uint32_t *element);

/*
 * How many bytes the page of a table of t rows and r columns has; 0 where t or r is not 1 to 16384.
 */
size_t mukerihe_page_length(uint32_t t, uint32_t r);

/*
 * Writes a table, t by r, as a page: lines of a row number in 5 columns and up to six elements in
 * 11 columns each, with a heading line of column numbers. A table of more than six columns has
 * several panels of six columns, and in the last one what is left: each panel has its heading and
 * all rows, and one blank line stands between two. A page ends in a line end, not in a 0 byte.
 *
 * Numbers: 1; 2 (t or r); 13 (table not t * r long); 28 (out not mukerihe_page_length(t, r) long);
 * 14.
 */
uint32_t mukerihe_page(uint32_t modulus, uint32_t t, uint32_t r,
                       const uint32_t *table, size_t table_length,
                       uint8_t *out, size_t out_length);

#ifdef __cplusplus
}
#endif

/* A job: the words of mukerihe_plan in their order. */
struct mukerihe_job {
    uint32_t modulus;
    uint32_t t, s, r;
    uint32_t m, p, n;
    uint32_t xa, xb;
    uint32_t hosts;
    uint32_t number;
    uint32_t opening, closing;
};

/* The fields of a message: the words of mukerihe_write in their order. */
struct mukerihe_fields {
    uint32_t kind, modulus, host, rows, columns, number;
};

/* What planning tells: the words of mukerihe_plan's values in their order. */
struct mukerihe_plan_values {
    uint32_t layout, needed, rows, inner, columns;
};

/* Puts the 13 words of a job into a list. */
static inline void mukerihe_job_words(const struct mukerihe_job *job, uint32_t *words)
{
    words[0] = job->modulus;
    words[1] = job->t;
    words[2] = job->s;
    words[3] = job->r;
    words[4] = job->m;
    words[5] = job->p;
    words[6] = job->n;
    words[7] = job->xa;
    words[8] = job->xb;
    words[9] = job->hosts;
    words[10] = job->number;
    words[11] = job->opening;
    words[12] = job->closing;
}

/* mukerihe_plan with structs. */
static inline uint32_t mukerihe_plan_job(const struct mukerihe_job *job,
                                         const uint32_t *points, size_t points_length,
                                         struct mukerihe_plan_values *values)
{
    uint32_t words[MUKERIHE_JOB_WORDS], told[MUKERIHE_PLAN_WORDS] = {0};
    uint32_t number;
    mukerihe_job_words(job, words);
    number = mukerihe_plan(words, MUKERIHE_JOB_WORDS, points, points_length,
                           told, MUKERIHE_PLAN_WORDS);
    if (number == MUKERIHE_DONE) {
        values->layout = told[0];
        values->needed = told[1];
        values->rows = told[2];
        values->inner = told[3];
        values->columns = told[4];
    }
    return number;
}

/* mukerihe_share_a with a struct. */
static inline uint32_t mukerihe_share_a_job(const struct mukerihe_job *job,
                                            const uint32_t *points, size_t points_length,
                                            uint32_t host,
                                            const uint32_t *elements, size_t elements_length,
                                            const uint32_t *masks, size_t masks_length,
                                            uint32_t *out, size_t out_length)
{
    uint32_t words[MUKERIHE_JOB_WORDS];
    mukerihe_job_words(job, words);
    return mukerihe_share_a(words, MUKERIHE_JOB_WORDS, points, points_length, host,
                            elements, elements_length, masks, masks_length, out, out_length);
}

/* mukerihe_share_b with a struct. */
static inline uint32_t mukerihe_share_b_job(const struct mukerihe_job *job,
                                            const uint32_t *points, size_t points_length,
                                            uint32_t host,
                                            const uint32_t *elements, size_t elements_length,
                                            const uint32_t *masks, size_t masks_length,
                                            uint32_t *out, size_t out_length)
{
    uint32_t words[MUKERIHE_JOB_WORDS];
    mukerihe_job_words(job, words);
    return mukerihe_share_b(words, MUKERIHE_JOB_WORDS, points, points_length, host,
                            elements, elements_length, masks, masks_length, out, out_length);
}

/* mukerihe_write with a struct. */
static inline uint32_t mukerihe_write_fields(const struct mukerihe_fields *fields,
                                             const uint32_t *elements, size_t elements_length,
                                             uint8_t *out, size_t out_length)
{
    const uint32_t words[MUKERIHE_FIELD_WORDS] = {fields->kind, fields->modulus, fields->host,
                                                  fields->rows, fields->columns, fields->number};
    return mukerihe_write(words, MUKERIHE_FIELD_WORDS, elements, elements_length,
                          out, out_length);
}

/* mukerihe_read with a struct. */
static inline uint32_t mukerihe_read_fields(const uint8_t *message, size_t message_length,
                                            uint32_t *elements, size_t elements_length,
                                            struct mukerihe_fields *fields)
{
    uint32_t words[MUKERIHE_FIELD_WORDS] = {0};
    uint32_t number = mukerihe_read(message, message_length, elements, elements_length,
                                    words, MUKERIHE_FIELD_WORDS);
    if (number == MUKERIHE_DONE) {
        fields->kind = words[0];
        fields->modulus = words[1];
        fields->host = words[2];
        fields->rows = words[3];
        fields->columns = words[4];
        fields->number = words[5];
    }
    return number;
}

/* mukerihe_arrive with a struct. */
static inline uint32_t mukerihe_arrive_job(const struct mukerihe_job *job,
                                           const uint32_t *points, size_t points_length,
                                           uint64_t *heard, uint32_t *store, size_t store_length,
                                           const uint8_t *message, size_t message_length,
                                           uint32_t minute, uint32_t *already)
{
    uint32_t words[MUKERIHE_JOB_WORDS];
    mukerihe_job_words(job, words);
    return mukerihe_arrive(words, MUKERIHE_JOB_WORDS, points, points_length, heard,
                           store, store_length, message, message_length, minute, already);
}

/* mukerihe_decode with a struct. */
static inline uint32_t mukerihe_decode_job(const struct mukerihe_job *job,
                                           const uint32_t *points, size_t points_length,
                                           uint64_t heard, const uint32_t *store,
                                           size_t store_length, uint32_t *table,
                                           size_t table_length)
{
    uint32_t words[MUKERIHE_JOB_WORDS];
    mukerihe_job_words(job, words);
    return mukerihe_decode(words, MUKERIHE_JOB_WORDS, points, points_length, heard,
                           store, store_length, table, table_length);
}

#endif
