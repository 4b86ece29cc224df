/* Tries the host's product from outside: random modulus numbers, sizes and lengths, right and wrong, in buffers that end at a
 * page which nobody may touch, or begin right after one. A read or a write past a buffer ends the program. The outcome must be
 * the refusal number that the job sheet gives, with no byte of the output changed, or the big-endian product.
 *
 *   element        an element of some bytes
 *   fill           fills a buffer with elements
 *   fill_out       fills an output, and keeps what is in it
 *   all_below      whether all elements are below the prime
 *   expected       the number that is due, by the sheet's order
 *   entry          an element of the product, the plain way
 *   size           a size, right or wrong
 *   length_of      a length, right or wrong
 *   check_product  the product element by element
 *   one_trial      one call, checked
 *   floors         how many calls must get each number
 */
#include "mukerihe.h"
#include "trials.h"

#include <string.h>

enum { TRIALS = 100000, ROOM = 8 * PAGE };

/* Element i of some big-endian bytes. */
static uint32_t element(const uint8_t *bytes, size_t i)
{
    const uint8_t *e = bytes + 4 * i;
    return (uint32_t)e[0] << 24 | (uint32_t)e[1] << 16 | (uint32_t)e[2] << 8 | e[3];
}

/* Fills a buffer with elements, at times with the greatest one alone; now and then one that is not below the prime. Bytes after
 * the last whole element are 0. */
static void fill(struct buffer b, uint32_t q)
{
    int greatest = q != 0 && below(3) == 0;
    if (b.length > 0)
        memset(b.bytes, 0, b.length);
    for (size_t i = 0; i < b.length / 4; i++) {
        uint32_t x = greatest ? q - 1 : below(q == 0 ? 13 : q);
        if (below(4000) == 0)
            x = q + below(3);
        for (int k = 0; k < 4; k++)
            b.bytes[4 * i + k] = (uint8_t)(x >> (24 - 8 * k));
    }
}

/* Fills an output with random bytes, and another list with the same. */
static void fill_out(struct buffer out, uint8_t *before)
{
    for (size_t i = 0; i < out.length; i++)
        before[i] = out.bytes[i] = (uint8_t)below(256);
}

/* Whether all elements are below the prime. */
static int all_below(struct buffer b, uint32_t q)
{
    for (size_t i = 0; i < b.length / 4; i++)
        if (element(b.bytes, i) >= q)
            return 0;
    return 1;
}

/* The number that is due: 1; 2; 6; 13; 14. */
static uint32_t expected(uint32_t modulus, uint64_t rows, uint64_t inner, uint64_t columns, struct buffer a, struct buffer b,
                         struct buffer out)
{
    uint64_t sizes[3] = {rows, inner, columns};
    if (prime_of(modulus) == 0)
        return 1;
    for (int i = 0; i < 3; i++)
        if (sizes[i] < 1 || sizes[i] > 16384)
            return 2;
    if (rows * inner > 4096 || inner * columns > 4096 || rows * columns > 4096)
        return 6;
    if (a.length != 4 * rows * inner || b.length != 4 * inner * columns || out.length != 4 * rows * columns)
        return 13;
    if (!all_below(a, prime_of(modulus)) || !all_below(b, prime_of(modulus)))
        return 14;
    return 0;
}

/* An element of the product, the plain way: with a remainder a step no sum passes 64 bits. */
static uint32_t entry(uint32_t q, uint32_t inner, uint32_t columns, struct buffer a, struct buffer b, size_t i, size_t j)
{
    uint64_t sum = 0;
    for (size_t k = 0; k < inner; k++)
        sum = (sum + (uint64_t)element(a.bytes, i * inner + k) * element(b.bytes, k * columns + j)) % q;
    return (uint32_t)sum;
}

/* A size: mostly small, at times 0, large or huge. */
static uint32_t size(void)
{
    switch (below(20)) {
    case 0: return 0;
    case 1: return 16384 + below(3);
    case 2: return 0xFFFFFFFFu - below(2);
    case 3: return 64 + below(80);
    default: return 1 + below(12);
    }
}

/* A length: mostly the right one, at times some bytes off. */
static size_t length_of(uint64_t elements)
{
    size_t right = elements * 4 > ROOM - 64 ? below(64) : (size_t)elements * 4;
    switch (below(16)) {
    case 0: return right + 1 + below(8);
    case 1: return right == 0 ? 0 : right - 1 - below(right > 8 ? 8 : 1);
    case 2: return 0;
    default: return right;
    }
}

/* Checks a product, element by element. */
static void check_product(uint32_t trial, uint32_t q, uint32_t inner, uint32_t columns, struct buffer a, struct buffer b,
                          struct buffer out)
{
    for (size_t i = 0; i < out.length / 4; i++)
        if (element(out.bytes, i) != entry(q, inner, columns, a, b, i / columns, i % columns))
            fail_in(trial, "a wrong product");
}

/* Makes one call, checks it, and returns its number. */
static uint32_t one_trial(uint32_t trial, struct room rooms[3])
{
    static uint8_t before[ROOM];
    uint32_t modulus = below(8) == 0 ? below(8) : 1 + below(4);
    uint32_t q = prime_of(modulus);
    uint32_t rows = size(), inner = size(), columns = size();
    struct buffer a = buffer_in(rooms[0], length_of((uint64_t)rows * inner));
    struct buffer b = buffer_in(rooms[1], length_of((uint64_t)inner * columns));
    struct buffer out = buffer_in(rooms[2], length_of((uint64_t)rows * columns));
    fill(a, q);
    fill(b, q);
    fill_out(out, before);
    uint32_t due = expected(modulus, rows, inner, columns, a, b, out);
    uint32_t number = mukerihe_product(modulus, rows, inner, columns, a.bytes, a.length, b.bytes, b.length, out.bytes, out.length);
    if (number != due)
        fail_in(trial, "another number than is due");
    if (number == 0)
        check_product(trial, q, inner, columns, a, b, out);
    else if (out.length != 0 && memcmp(before, out.bytes, out.length) != 0)
        fail_in(trial, "a refused call has written");
    return number;
}

/* The numbers that a call can return, each with the least count of trials that must get it. */
static const struct floor_count floors[] = {{0, 28849}, {1, 6183}, {2, 32924}, {6, 4073}, {13, 26485}, {14, 1486}};

/* Makes all trials. */
int main(void)
{
    struct room rooms[3] = {room_for(ROOM), room_for(ROOM), room_for(ROOM)};
    uint32_t counts[27] = {0};
    state = 20261115;
    for (uint32_t trial = 0; trial < TRIALS; trial++)
        counts[one_trial(trial, rooms)]++;
    return below_floors("library_trials", TRIALS, floors, sizeof floors / sizeof floors[0], counts);
}
