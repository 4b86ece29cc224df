/* What the trials of the libraries share: random numbers, primes, buffers, and the program's end where something is wrong.
 *
 *   state               what the next random number of a thread is made from
 *   below               a random number below n
 *   prime_of            the prime of a modulus number
 *   struct buffer       bytes and their count
 *   buffer_in           a buffer in a room
 *   fail                ends the program: a call is wrong
 *   must                ends the program unless a call is done
 *   fail_in             ends the program: a trial is wrong
 *   struct floor_count  a number, and how many trials must get it
 *   below_floors        prints how many trials got each number
 */
#ifndef TRIALS_H
#define TRIALS_H

#include "mukerihe.h"
#include "rooms.h"

static _Thread_local uint64_t state;

/* A random number below n. */
static inline uint32_t below(uint32_t n)
{
    state = state * 6364136223846793005u + 1442695040888963407u;
    return (uint32_t)(state >> 33) % n;
}

/* The prime of a modulus number, 0 where there is none. */
static inline uint32_t prime_of(uint32_t modulus)
{
    static const uint32_t primes[] = {0, 13, 257, 65537, 2147483647};
    return modulus < sizeof primes / sizeof primes[0] ? primes[modulus] : 0;
}

struct buffer {
    uint8_t *bytes;
    size_t length;
};

/* A buffer of a length, at the end of a room or at its beginning; an empty one may be a null pointer. */
static inline struct buffer buffer_in(struct room room, size_t length)
{
    struct buffer b = {placed(room, length, below(2) == 0), length};
    if (length == 0 && below(2) == 0)
        b.bytes = NULL;
    return b;
}

/* Ends the program: what is wrong, and with which call. */
static inline void fail(const char *name, const char *what)
{
    fprintf(stderr, "%s: %s\n", name, what);
    exit(1);
}

/* Ends the program unless a call is done. */
static inline void must(const char *name, uint32_t number)
{
    if (number != MUKERIHE_DONE)
        fail(name, "a fit call is refused");
}

/* Ends the program: what is wrong, and in which trial. */
static inline void fail_in(uint32_t trial, const char *what)
{
    fprintf(stderr, "trial %u: %s\n", (unsigned)trial, what);
    exit(1);
}

struct floor_count {
    uint32_t number, least;
};

/* Prints how many of the trials got each number; 1 where fewer than the floor did, or where a trial got another number. */
static inline int below_floors(const char *name, uint32_t trials, const struct floor_count *floors, size_t length,
                               const uint32_t *counts)
{
    uint32_t fewer = 0, sum = 0;
    printf("%s: %u calls; of each number", name, (unsigned)trials);
    for (size_t i = 0; i < length; i++) {
        uint32_t count = counts[floors[i].number];
        printf(" %u: %u;", (unsigned)floors[i].number, (unsigned)count);
        fewer |= count < floors[i].least;
        sum += count;
    }
    fewer |= sum != trials;
    printf("%s\n", fewer ? " fewer than their floors" : "");
    return (int)fewer;
}

#endif
