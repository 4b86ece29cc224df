/*
 * A host's product from C: two small shares modulo 257 are multiplied by the library, and the
 * answer is checked against a product made here. Then a call that the library refuses.
 */
#include <stdio.h>
#include <string.h>

#include "mukerihe.h"

enum { MODULUS_NUMBER = 2, Q = 257, ROWS = 2, INNER = 3, COLUMNS = 2 };

/* The share of A, 2 by 3, and the share of B, 3 by 2, row by row. */
static const uint32_t share_a[ROWS * INNER] = {1, 2, 256, 200, 0, 77};
static const uint32_t share_b[INNER * COLUMNS] = {5, 256, 130, 4, 9, 100};

/* Writes elements as big-endian bytes. */
static void pack(const uint32_t *elements, size_t count, uint8_t *bytes)
{
    for (size_t i = 0; i < count; i++) {
        bytes[4 * i] = (uint8_t)(elements[i] >> 24);
        bytes[4 * i + 1] = (uint8_t)(elements[i] >> 16);
        bytes[4 * i + 2] = (uint8_t)(elements[i] >> 8);
        bytes[4 * i + 3] = (uint8_t)elements[i];
    }
}

/* The element that four big-endian bytes hold. */
static uint32_t unpack(const uint8_t *bytes)
{
    return (uint32_t)bytes[0] << 24 | (uint32_t)bytes[1] << 16 | (uint32_t)bytes[2] << 8 | bytes[3];
}

/* The element that the answer must have in a row and a column, from 0. */
static uint32_t expected(size_t row, size_t column)
{
    uint64_t sum = 0;
    for (size_t k = 0; k < INNER; k++)
        sum += (uint64_t)share_a[row * INNER + k] * share_b[k * COLUMNS + column];
    return (uint32_t)(sum % Q);
}

/* Prints the answer block and compares it; returns how many elements are wrong. */
static int show(const uint8_t *answer)
{
    int wrong = 0;
    for (size_t row = 0; row < ROWS; row++) {
        for (size_t column = 0; column < COLUMNS; column++) {
            uint32_t element = unpack(answer + 4 * (row * COLUMNS + column));
            wrong += element != expected(row, column);
            printf(column + 1 < COLUMNS ? "%u " : "%u\n", (unsigned)element);
        }
    }
    return wrong;
}

/* Makes the answer, then shows that an element that is not below q is refused and nothing is
   written. */
int main(void)
{
    uint8_t a[4 * ROWS * INNER], b[4 * INNER * COLUMNS];
    uint8_t answer[4 * ROWS * COLUMNS], before[sizeof answer];
    pack(share_a, ROWS * INNER, a);
    pack(share_b, INNER * COLUMNS, b);

    uint32_t number = mukerihe_product(MODULUS_NUMBER, ROWS, INNER, COLUMNS, a, sizeof a,
                                       b, sizeof b, answer, sizeof answer);
    if (number != MUKERIHE_DONE || show(answer) != 0) {
        fprintf(stderr, "wrong product, returned %u\n", (unsigned)number);
        return 1;
    }

    const uint32_t too_large = Q;
    pack(&too_large, 1, b);
    memcpy(before, answer, sizeof answer);
    number = mukerihe_product(MODULUS_NUMBER, ROWS, INNER, COLUMNS, a, sizeof a,
                              b, sizeof b, answer, sizeof answer);
    printf("an element 257: refused with %u\n", (unsigned)number);
    if (number != MUKERIHE_BAD_ELEMENT || memcmp(before, answer, sizeof answer) != 0) {
        fprintf(stderr, "a refused call did something else\n");
        return 1;
    }
    return 0;
}
