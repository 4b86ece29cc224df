/*
 * The product of two 64 by 64 blocks, modulo 257, 65537 and 2147483647, timed in one run:
 *
 *   library     mukerihe_product of libmukerihe.a, big-endian bytes in and out
 *   FLINT       nmod_mat_mul on matrices that are filled beforehand
 *   plain Rust  plain_product of docs/src/plain, the library's job and bytes
 *
 * A round times one call of each, and the order goes round. Reported are the medians, and the
 * fastest rounds, which a busy machine disturbs less.
 */
#include <flint/flint.h>
#include <flint/nmod_mat.h>
#include <stdio.h>
#include <stdlib.h>
#include <string.h>
#include <time.h>

#include "mukerihe.h"

enum { SIDE = 64, COUNT = SIDE * SIDE, BYTES = 4 * COUNT, ROUNDS = 4001, WARM_UP = 200 };

enum { LIBRARY, FLINT, PLAIN_RUST, CONTESTANTS };

/* The modulus numbers that are timed, and their primes. */
static const struct {
    uint32_t number, q;
} moduli[] = {{2, 257}, {3, 65537}, {4, 2147483647}};

enum { MODULI = sizeof moduli / sizeof moduli[0] };

/* The product in plain Rust. */
uint32_t plain_product(uint32_t modulus, uint32_t rows, uint32_t inner, uint32_t columns,
                       const uint8_t *a, size_t a_length,
                       const uint8_t *b, size_t b_length,
                       uint8_t *out, size_t out_length);

/* One modulus: its number, the same two blocks for all contestants, and their products. */
struct job {
    uint32_t modulus;
    uint8_t a[BYTES], b[BYTES], out[BYTES];
    nmod_mat_t flint_a, flint_b, flint_out;
};

/* Ends the program with a message. */
static void stop(const char *message)
{
    fprintf(stderr, "%s\n", message);
    exit(1);
}

/* The next number of a generator with a fixed seed (splitmix64). */
static uint64_t draw(uint64_t *state)
{
    uint64_t z = *state += 0x9E3779B97F4A7C15u;
    z = (z ^ (z >> 30)) * 0xBF58476D1CE4E5B9u;
    z = (z ^ (z >> 27)) * 0x94D049BB133111EBu;
    return z ^ (z >> 31);
}

/* Fills a block with random elements below q, as bytes and as FLINT's matrix. */
static void fill(uint64_t *state, uint64_t q, uint8_t *bytes, nmod_mat_t matrix)
{
    for (int i = 0; i < COUNT; i++) {
        uint64_t element = draw(state) % q;
        for (int k = 0; k < 4; k++)
            bytes[4 * i + k] = (uint8_t)(element >> (24 - 8 * k));
        nmod_mat_entry(matrix, i / SIDE, i % SIDE) = element;
    }
}

/* Makes a job with random blocks. */
static void begin(struct job *job, uint32_t modulus, uint64_t q)
{
    uint64_t state = q;
    job->modulus = modulus;
    nmod_mat_init(job->flint_a, SIDE, SIDE, q);
    nmod_mat_init(job->flint_b, SIDE, SIDE, q);
    nmod_mat_init(job->flint_out, SIDE, SIDE, q);
    fill(&state, q, job->a, job->flint_a);
    fill(&state, q, job->b, job->flint_b);
}

/* Lets a contestant make the product once. */
static void multiply(struct job *job, int contestant)
{
    uint32_t number = 0;
    if (contestant == LIBRARY)
        number = mukerihe_product(job->modulus, SIDE, SIDE, SIDE, job->a, BYTES, job->b, BYTES,
                                  job->out, BYTES);
    else if (contestant == FLINT)
        nmod_mat_mul(job->flint_out, job->flint_a, job->flint_b);
    else
        number = plain_product(job->modulus, SIDE, SIDE, SIDE, job->a, BYTES, job->b, BYTES,
                               job->out, BYTES);
    if (number != 0)
        stop("a product was refused");
}

/* Stops unless the library and plain Rust have FLINT's product. */
static void check(struct job *job)
{
    multiply(job, FLINT);
    for (int contestant = 0; contestant < CONTESTANTS; contestant++) {
        if (contestant == FLINT)
            continue;
        memset(job->out, 0xA5, BYTES);
        multiply(job, contestant);
        for (int i = 0; i < COUNT; i++) {
            uint64_t element = 0;
            for (int k = 0; k < 4; k++)
                element = element << 8 | job->out[4 * i + k];
            if (element != nmod_mat_entry(job->flint_out, i / SIDE, i % SIDE))
                stop("two contestants have different products");
        }
    }
}

/* The time in microseconds that one product takes. */
static double timed(struct job *job, int contestant)
{
    struct timespec from, to;
    clock_gettime(CLOCK_MONOTONIC, &from);
    multiply(job, contestant);
    clock_gettime(CLOCK_MONOTONIC, &to);
    return (double)(to.tv_sec - from.tv_sec) * 1e6 + (double)(to.tv_nsec - from.tv_nsec) / 1e3;
}

/* Which of two times is shorter. */
static int compare(const void *x, const void *y)
{
    double a = *(const double *)x, b = *(const double *)y;
    return (a > b) - (a < b);
}

/* Prints the contestants' times at one index of their sorted lists, and the library's ratios. */
static void print(const char *label, double times[CONTESTANTS][ROUNDS], int at)
{
    double library = times[LIBRARY][at];
    double flint = times[FLINT][at], plain = times[PLAIN_RUST][at];
    printf("  %s: library %.2f us, FLINT %.2f us, plain Rust %.2f us, "
           "library/FLINT %.3f, library/plain Rust %.3f\n",
           label, library, flint, plain, library / flint, library / plain);
}

/* Times all contestants in turn, round after round. */
static void race(struct job *job)
{
    static double times[CONTESTANTS][ROUNDS];
    for (int round = -WARM_UP; round < ROUNDS; round++) {
        for (int i = 0; i < CONTESTANTS; i++) {
            int contestant = (i + round + WARM_UP) % CONTESTANTS;
            double time = timed(job, contestant);
            if (round >= 0)
                times[contestant][round] = time;
        }
    }
    for (int i = 0; i < CONTESTANTS; i++)
        qsort(times[i], ROUNDS, sizeof times[i][0], compare);
    print("median ", times, ROUNDS / 2);
    print("fastest", times, 0);
}

/* Checks every modulus, then times every modulus. */
int main(void)
{
    static struct job jobs[MODULI];
    for (int i = 0; i < MODULI; i++) {
        begin(&jobs[i], moduli[i].number, moduli[i].q);
        check(&jobs[i]);
    }
    printf("FLINT %s, one 64 x 64 x 64 product, %d rounds\n", FLINT_VERSION, ROUNDS);
    for (int i = 0; i < MODULI; i++) {
        printf("q %u\n", (unsigned)moduli[i].q);
        race(&jobs[i]);
    }
    return 0;
}
