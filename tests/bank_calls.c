/* Makes the stored calls by the functions for C: reads crates/test_calls/stdin and writes what crates/test_calls/stdout has. The
 * format is told by docs/src/calls/format.rs. A refused call must leave all that it could have written as it was.
 *
 *   bank_calls [structs] <CASES >OUTCOMES    structs: by the wrappers that take structs
 *
 *   call_plan, call_share, call_write, call_read  a call, with words or with structs
 *   run_plan, run_share, ..                       a case: its call, and its outcome written
 *   run                                           the case of a head
 */
#include "stored.h"

enum { HEAD = 20, MOST_WORDS = 32896, MOST_BYTES = 40000, MOST_PAGE = 400000 };

/* A room for each list that a case can have. */
static struct room words_room, points_room, xs_room, ys_room, first_room, second_room, out_room, told_room;

/* A case: the words of its head, its lists, and its message or its two messages. */
struct given {
    uint32_t head[HEAD];
    struct list points, xs, ys;
    struct bytes first, second;
};

/* A share, as words have it or with a struct. */
static uint32_t call_share(int of_b, uint32_t host, struct list job, const struct given *g, struct list out)
{
    struct list points = g->points, xs = g->xs, ys = g->ys;
    if (!structs)
        return (of_b ? mukerihe_share_b : mukerihe_share_a)(job.start, job.length, points.start, points.length, host,
            xs.start, xs.length, ys.start, ys.length, out.start, out.length);
    struct mukerihe_job whole = job_of(job.start);
    return (of_b ? mukerihe_share_b_job : mukerihe_share_a_job)(&whole, points.start, points.length, host,
        xs.start, xs.length, ys.start, ys.length, out.start, out.length);
}

/* A plan, with words or with structs. */
static uint32_t call_plan(struct list job, struct list points, struct list values)
{
    if (!structs)
        return mukerihe_plan(job.start, job.length, points.start, points.length, values.start, values.length);
    struct mukerihe_job whole = job_of(job.start);
    struct mukerihe_plan_values told;
    memset(&told, FILLING, sizeof told);
    uint32_t number = mukerihe_plan_job(&whole, points.start, points.length, &told);
    const uint32_t words[] = {told.layout, told.needed, told.rows, told.inner, told.columns};
    memcpy(values.start, words, sizeof words);
    return number;
}

/* A message written, with words or with a struct. */
static uint32_t call_write(struct list fields, struct list elements, struct bytes out)
{
    const uint32_t *f = fields.start;
    if (!structs)
        return mukerihe_write(f, fields.length, elements.start, elements.length, out.start, out.length);
    struct mukerihe_fields whole = {.kind = f[0], .modulus = f[1], .host = f[2], .rows = f[3], .columns = f[4], .number = f[5]};
    return mukerihe_write_fields(&whole, elements.start, elements.length, out.start, out.length);
}

/* A message read, with words or with a struct. */
static uint32_t call_read(struct bytes message, struct list elements, struct list fields)
{
    if (!structs)
        return mukerihe_read(message.start, message.length, elements.start, elements.length, fields.start, fields.length);
    struct mukerihe_fields told;
    memset(&told, FILLING, sizeof told);
    uint32_t number = mukerihe_read_fields(message.start, message.length, elements.start, elements.length, &told);
    const uint32_t words[] = {told.kind, told.modulus, told.host, told.rows, told.columns, told.number};
    memcpy(fields.start, words, sizeof words);
    return number;
}

/* Writes a number and, where the call is done, the words that it told; a refused one must have told nothing. */
static void put_told(uint32_t number, struct list told)
{
    put_word(number);
    if (number == 0)
        put_words(told.start, told.length);
    else
        untouched(told.start, 4 * told.length);
}

/* A plan. */
static void run_plan(const struct given *g)
{
    struct list job = words_copied(words_room, g->head + 1, MUKERIHE_JOB_WORDS);
    struct list values = words_filled(told_room, MUKERIHE_PLAN_WORDS);
    put_told(call_plan(job, g->points, values), values);
    put_word(0);
}

/* A share. */
static void run_share(const struct given *g)
{
    struct list job = words_copied(words_room, g->head + 1, MUKERIHE_JOB_WORDS);
    struct list out = words_filled(out_room, g->head[19]);
    put_word(call_share(g->head[0] == 2, g->head[14], job, g, out));
    put_output(out);
}

/* A product. */
static void run_product(const struct given *g)
{
    const uint32_t *n = g->head + 1;
    struct list out = words_filled(out_room, g->head[19]);
    put_word(mukerihe_multiply(n[0], n[1], n[2], n[3], g->xs.start, g->xs.length, g->ys.start, g->ys.length, out.start, out.length));
    put_output(out);
}

/* A message to write. */
static void run_write(const struct given *g)
{
    struct list fields = words_copied(words_room, g->head + 1, MUKERIHE_FIELD_WORDS);
    struct bytes out = bytes_filled(out_room, g->head[19]);
    put_word(call_write(fields, g->xs, out));
    put_bytes(out);
}

/* A message to read. */
static void run_read(const struct given *g)
{
    struct list out = words_filled(out_room, g->head[19]);
    struct list fields = words_filled(told_room, MUKERIHE_FIELD_WORDS);
    put_told(call_read(g->first, out, fields), fields);
    put_output(out);
}

/* The signed reading of an element: a value goes as two words, the high one first. */
static void run_signed(const struct given *g)
{
    int64_t value;
    memset(&value, FILLING, sizeof value);
    uint32_t number = mukerihe_signed(g->head[1], g->head[2], &value);
    put_word(number);
    if (number == 0) {
        put_word((uint32_t)((uint64_t)value >> 32));
        put_word((uint32_t)value);
    } else
        untouched(&value, sizeof value);
    put_word(0);
}

/* The way back. */
static void run_element(const struct given *g)
{
    struct list element = words_filled(told_room, 1);
    uint64_t bits = (uint64_t)g->head[2] << 32 | g->head[3];
    int64_t value;
    memcpy(&value, &bits, sizeof value);
    put_told(mukerihe_element(g->head[1], value, element.start), element);
    put_word(0);
}

/* Masks to draw. */
static void run_draw(const struct given *g)
{
    struct list out = words_filled(out_room, g->head[19]);
    size_t used;
    memset(&used, FILLING, sizeof used);
    uint32_t number = mukerihe_draw(g->head[1], g->xs.start, g->xs.length, out.start, out.length, &used);
    put_word(number);
    if (number == 0)
        put_word((uint32_t)used);
    else
        untouched(&used, sizeof used);
    put_output(out);
}

/* A page to write. A page that is written has the length that is told. */
static void run_page(const struct given *g)
{
    const uint32_t *n = g->head + 1;
    struct bytes out = bytes_filled(out_room, g->head[19]);
    uint32_t number = mukerihe_page(n[0], n[1], n[2], g->xs.start, g->xs.length, out.start, out.length);
    if (number == 0 && out.length != mukerihe_page_length(n[1], n[2]))
        fail("a page has another length than is told");
    put_word(number);
    put_bytes(out);
}

/* A host's whole part. */
static void run_answer(const struct given *g)
{
    struct bytes out = bytes_filled(out_room, g->head[19]);
    size_t written = 0xA5A5A5A5;
    put_word(mukerihe_answer(g->first.start, g->first.length, g->second.start, g->second.length, out.start, out.length, &written));
    if (written > UINT32_MAX)
        fail("it says that more was written than there is room for");
    put_word((uint32_t)written);
    put_bytes(out);
}

/* Makes the call of a case. */
static void run(const struct given *g)
{
    switch (g->head[0]) {
    case 1:
    case 2: run_share(g); break;
    case 3: run_product(g); break;
    case 4: run_write(g); break;
    case 5: run_read(g); break;
    case 6: run_signed(g); break;
    case 7: run_element(g); break;
    case 8: run_draw(g); break;
    case 9: run_page(g); break;
    case 10: run_plan(g); break;
    case 11: run_answer(g); break;
    default: fail("there is no such call");
    }
}

/* Reads the lists of a case. The two messages of a host's whole part come as one list, the length of the first before them. */
static void read_lists(struct given *g)
{
    const uint32_t *head = g->head;
    uint32_t first = head[0] == 11 ? head[1] : head[18];
    if (first > head[18])
        fail("its first message is longer than both");
    g->points = words_read(points_room, head[15]);
    g->xs = words_read(xs_room, head[16]);
    g->ys = words_read(ys_room, head[17]);
    g->first = bytes_read(first_room, first);
    g->second = bytes_read(second_room, head[18] - first);
}

/* Makes one call after another. */
int main(int count, char **arguments)
{
    struct given g;
    begin(count, arguments);
    words_room = room_for(4 * HEAD);
    told_room = room_for(4 * HEAD);
    points_room = room_for(4 * MOST_WORDS);
    xs_room = room_for(4 * MOST_WORDS);
    ys_room = room_for(4 * MOST_WORDS);
    first_room = room_for(MOST_BYTES);
    second_room = room_for(MOST_BYTES);
    out_room = room_for(MOST_PAGE);
    while (next_head(g.head, HEAD)) {
        read_lists(&g);
        run(&g);
    }
    fprintf(stderr, "bank_calls: %lu calls%s\n", cases, structs ? " with structs" : "");
    return fflush(stdout) != 0;
}
