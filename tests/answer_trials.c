/* Tries a host's whole part from outside: random pairs of messages, fit and damaged, in buffers that end at a page which nobody may
 * touch, or begin right after one. A read or a write past a buffer ends the program. The outcome must be the number that is due,
 * with nothing changed, or the message of the product, with no byte past it changed.
 *
 *   struct sizes    the sizes of a pair: rows by inner times inner by columns
 *   number_at       the number that some bytes are
 *   put_at          writes a number as bytes
 *   element         an element of a message
 *   put_header      writes the header of a message
 *   put_elements    writes the elements of a message
 *   sizes           random sizes
 *   other_size      another size for a field
 *   damage          puts one fault into a message
 *   damage_pair     puts some faults into two messages, or none
 *   copied          a copy of some bytes in a room
 *   random_in       random bytes in a room, and a copy of them
 *   message_number  the number that is due for one message, by the sheet's order
 *   pair_number     the number that is due for two fit messages together
 *   due_number      the number that is due
 *   check_answer    the answer byte by byte
 *   out_length      the length of an output
 *   draw_pair       two messages
 *   one_trial       one call, checked
 *   floors          how many calls must get each number
 */
#include "mukerihe.h"
#include "trials.h"

#include <string.h>

enum { TRIALS = 100000, HEADER = 16, MOST = 4096, ROOM = HEADER + 4 * MOST + 64 };

struct sizes {
    uint32_t rows, inner, columns;
};

/* The number that some big-endian bytes are. */
static uint32_t number_at(const uint8_t *bytes, size_t at, size_t count)
{
    uint32_t number = 0;
    for (size_t i = 0; i < count; i++)
        number = number << 8 | bytes[at + i];
    return number;
}

/* Writes a number as so many big-endian bytes. */
static void put_at(uint8_t *bytes, size_t at, size_t count, uint32_t number)
{
    for (size_t i = count; i > 0; i--, number >>= 8)
        bytes[at + i - 1] = (uint8_t)number;
}

/* Element i of a message. */
static uint32_t element(const uint8_t *message, size_t i)
{
    return number_at(message, HEADER + 4 * i, 4);
}

/* The header of a message: mark, version, kind, modulus number, host, rows, columns, job number. */
static void put_header(uint8_t *bytes, uint32_t kind, uint32_t modulus, uint32_t host, uint32_t rows, uint32_t columns, uint32_t job)
{
    memcpy(bytes, "MDO\0\1", 5);
    put_at(bytes, 5, 1, kind);
    put_at(bytes, 6, 1, modulus);
    put_at(bytes, 7, 1, host);
    put_at(bytes, 8, 2, rows);
    put_at(bytes, 10, 2, columns);
    put_at(bytes, 12, 4, job);
}

/* Writes the elements of a message whose header is there, at times the greatest one alone; returns the message's length. */
static size_t put_elements(uint8_t *bytes)
{
    size_t count = (size_t)number_at(bytes, 8, 2) * number_at(bytes, 10, 2);
    uint32_t q = prime_of(bytes[6]);
    int greatest = below(3) == 0;
    for (size_t i = 0; i < count; i++)
        put_at(bytes, HEADER + 4 * i, 4, greatest ? q - 1 : below(q));
    return HEADER + 4 * count;
}

/* Sizes: mostly small; at times with a large answer, or one that is too large. */
static struct sizes sizes(void)
{
    switch (below(40)) {
    case 0: return (struct sizes){64, 1 + below(64), 64};
    case 1: return (struct sizes){65 + below(40), 1 + below(38), 65 + below(40)};
    case 2: return (struct sizes){1, 1 + below(MOST), 1};
    default: return (struct sizes){1 + below(9), 1 + below(9), 1 + below(9)};
    }
}

/* Another size for a field of two bytes. */
static uint32_t other_size(void)
{
    static const uint32_t limits[] = {0, 16384, 16385, 65535};
    return below(3) == 0 ? limits[below(4)] : below(200);
}

/* Puts one fault into a message; some leave it fit. */
static void damage(uint8_t *bytes, size_t *length)
{
    size_t count = (*length - (*length < HEADER ? *length : HEADER)) / 4;
    switch (below(11)) {
    case 0: *length = below(HEADER + 1); break;
    case 1: *length += below(9); break;
    case 2: *length -= below(*length < 8 ? 1 : 8); break;
    case 3: bytes[below(3)] ^= (uint8_t)(1 << below(8)); break;
    case 4: bytes[3 + below(2)] ^= (uint8_t)(1 << below(8)); break;
    case 5: bytes[5] = (uint8_t)below(5); break;
    case 6: bytes[6] = (uint8_t)below(6); break;
    case 7: bytes[7] = (uint8_t)(below(2) == 0 ? below(256) : below(2) * 64 + below(2)); break;
    case 8: put_at(bytes, 8 + 2 * below(2), 2, other_size()); break;
    case 9: bytes[12 + below(4)] ^= (uint8_t)(1 << below(8)); break;
    default:
        if (count > 0)
            put_at(bytes, HEADER + 4 * below((uint32_t)count), 4, prime_of(bytes[6]) + below(3) - 1);
    }
}

/* Puts up to three faults into two messages; half of the pairs have none. */
static void damage_pair(uint8_t drawn[2][2 * ROOM], size_t lengths[2])
{
    for (uint32_t faults = below(2) * below(4); faults > 0; faults--) {
        uint32_t which = below(2);
        damage(drawn[which], &lengths[which]);
    }
}

/* A copy of some bytes in a room. */
static struct buffer copied(struct room room, const uint8_t *bytes, size_t length)
{
    struct buffer b = buffer_in(room, length);
    if (length > 0)
        memcpy(b.bytes, bytes, length);
    return b;
}

/* Draws so many random bytes; a copy of them in a room. */
static struct buffer random_in(struct room room, uint8_t *bytes, size_t length)
{
    for (size_t i = 0; i < length; i++)
        bytes[i] = (uint8_t)below(256);
    return copied(room, bytes, length);
}

/* The number that is due for one message: 17; 18; 19; 16; 1; 12; 2; 6; 20; 14. */
static uint32_t message_number(struct buffer m)
{
    if (m.length < HEADER)
        return 17;
    uint32_t q = prime_of(m.bytes[6]), rows = number_at(m.bytes, 8, 2), columns = number_at(m.bytes, 10, 2);
    if (memcmp(m.bytes, "MDO", 3) != 0)
        return 18;
    if (number_at(m.bytes, 3, 2) != 1)
        return 19;
    if (m.bytes[5] < 1 || m.bytes[5] > 3)
        return 16;
    if (q == 0)
        return 1;
    if (m.bytes[7] < 1 || m.bytes[7] > 64)
        return 12;
    if (rows < 1 || rows > 16384 || columns < 1 || columns > 16384)
        return 2;
    if (rows * columns > MOST)
        return 6;
    if (m.length != HEADER + 4 * (size_t)rows * columns)
        return 20;
    for (size_t i = 0; i < rows * columns; i++)
        if (element(m.bytes, i) >= q)
            return 14;
    return 0;
}

/* The number that is due for two fit messages together: 1001; 1003 to 1006; 6; 13. */
static uint32_t pair_number(const uint8_t *a, const uint8_t *b, size_t room)
{
    uint32_t count = number_at(a, 8, 2) * number_at(b, 10, 2);
    if (a[5] != 1 || b[5] != 2)
        return 1001;
    if (a[6] != b[6])
        return 1003;
    if (a[7] != b[7])
        return 1004;
    if (memcmp(a + 12, b + 12, 4) != 0)
        return 1005;
    if (memcmp(a + 10, b + 8, 2) != 0)
        return 1006;
    if (count > MOST)
        return 6;
    return room < HEADER + 4 * (size_t)count ? 13 : 0;
}

/* The number that is due: that of the first message, of the second, or of both together. */
static uint32_t due_number(struct buffer a, struct buffer b, size_t room)
{
    uint32_t of_a = message_number(a), of_b = message_number(b);
    if (of_a != 0)
        return of_a;
    return of_b != 0 ? of_b : pair_number(a.bytes, b.bytes, room);
}

/* Checks an answer: its header, its elements, its length, and that nothing past it is changed. */
static void check_answer(uint32_t trial, const uint8_t *a, const uint8_t *b, struct buffer out, const uint8_t *before, size_t written)
{
    uint32_t q = prime_of(a[6]), rows = number_at(a, 8, 2), inner = number_at(a, 10, 2), columns = number_at(b, 10, 2);
    uint8_t header[HEADER];
    put_header(header, 3, a[6], a[7], rows, columns, number_at(a, 12, 4));
    if (written != HEADER + 4 * (size_t)rows * columns || memcmp(out.bytes, header, HEADER) != 0)
        fail_in(trial, "another header or length than is due");
    for (size_t i = 0; i < rows; i++) {
        for (size_t j = 0; j < columns; j++) {
            uint64_t sum = 0;
            for (size_t k = 0; k < inner; k++)
                sum = (sum + (uint64_t)element(a, i * inner + k) * element(b, k * columns + j)) % q;
            if (element(out.bytes, i * columns + j) != sum)
                fail_in(trial, "a wrong product");
        }
    }
    if (memcmp(out.bytes + written, before + written, out.length - written) != 0)
        fail_in(trial, "a byte past the answer has changed");
}

/* The length of an output: that of the answer, a little more or less, the most, or none. */
static size_t out_length(struct sizes s)
{
    size_t count = (size_t)s.rows * s.columns, right = HEADER + 4 * (count > MOST ? MOST : count);
    switch (below(10)) {
    case 0: return right - 1 - below(8);
    case 1: return right + 1 + below(8);
    case 2: return below(4) == 0 ? 0 : below((uint32_t)right);
    case 3: return HEADER + 4 * MOST;
    default: return right;
    }
}

/* Draws a pair of messages of these sizes, at times of two jobs, hosts, moduli or sizes, or of other kinds. */
static void draw_pair(struct sizes s, uint8_t *a, uint8_t *b, size_t lengths[2])
{
    uint32_t modulus = 1 + below(4), host = 1 + below(64), job = below(1u << 31), odd = below(30);
    put_header(a, odd == 0 ? 1 + below(3) : 1, modulus, host, s.rows, s.inner, job);
    put_header(b, odd == 1 ? 1 + below(3) : 2, odd == 2 ? 1 + below(4) : modulus, odd == 3 ? 1 + below(64) : host,
               odd == 4 ? 1 + below(MOST / s.columns) : s.inner, s.columns, odd == 5 ? below(1u << 31) : job);
    lengths[0] = put_elements(a);
    lengths[1] = put_elements(b);
}

/* Makes one call, checks it, and returns its number. */
static uint32_t one_trial(uint32_t trial, struct room rooms[3])
{
    static uint8_t drawn[2][2 * ROOM], before[ROOM];
    struct sizes s = sizes();
    size_t lengths[2], written = below(1000), told = written;
    draw_pair(s, drawn[0], drawn[1], lengths);
    damage_pair(drawn, lengths);
    struct buffer a = copied(rooms[0], drawn[0], lengths[0]), b = copied(rooms[1], drawn[1], lengths[1]);
    struct buffer out = random_in(rooms[2], before, out_length(s));
    uint32_t due = due_number(a, b, out.length);
    uint32_t number = mukerihe_answer(a.bytes, a.length, b.bytes, b.length, out.bytes, out.length, &written);
    if (number != due)
        fail_in(trial, "another number than is due");
    if (number == 0)
        check_answer(trial, a.bytes, b.bytes, out, before, written);
    else if (written != told || (out.length != 0 && memcmp(out.bytes, before, out.length) != 0))
        fail_in(trial, "a refused call has written");
    return number;
}

/* The numbers that a call can return, each with the least count of trials that must get it. */
static const struct floor_count floors[] = {{0, 41188}, {1, 1430}, {2, 981}, {6, 1675}, {12, 2471}, {13, 10477}, {14, 2738},
    {16, 1720}, {17, 4815}, {18, 4839}, {19, 4636}, {20, 8776}, {1001, 3707}, {1003, 2112}, {1004, 2765}, {1005, 3522}, {1006, 2148}};

/* Makes all trials. */
int main(void)
{
    struct room rooms[3] = {room_for(ROOM), room_for(ROOM), room_for(ROOM)};
    static uint32_t counts[1007];
    state = 20261117;
    for (uint32_t trial = 0; trial < TRIALS; trial++)
        counts[one_trial(trial, rooms)]++;
    return below_floors("answer_trials", TRIALS, floors, sizeof floors / sizeof floors[0], counts);
}
