/* Makes the stored arrivals and decodings by the functions for C: reads crates/test_jobs/stdin and writes what
 * crates/test_jobs/stdout has. The format is told by docs/src/jobs/format.rs. A refused call must leave all that it could have
 * written as it was.
 *
 *   bank_jobs [structs] <CASES >OUTCOMES    structs: by the wrappers that take structs
 *
 *   kept                      the store from case to case; a call gets a copy of its front beside a forbidden page
 *   call_arrive, call_decode  a call, with words or with a struct
 *   run_arrive, run_decode    a case: its call, and its outcome written
 *   run                       the case of a head
 */
#include "stored.h"

enum { HEAD = 22, MOST_POINTS = 128, MOST_STORE = 12288, MOST_TABLE = 4096, MOST_BYTES = 20000, ALREADY_IN = 100 };

/* A room for each list that a case can have. */
static struct room words_room, points_room, store_room, message_room, table_room;

static uint32_t kept[MOST_STORE];

/* A case: the words of its head, its lists and its message. */
struct given {
    uint32_t head[HEAD];
    struct list job, points, store;
    struct bytes message;
    uint64_t heard;
};

/* An arrival, with words or with a struct. */
static uint32_t call_arrive(const struct given *g, uint64_t *heard, uint32_t *already)
{
    struct list points = g->points, store = g->store;
    uint32_t minute = g->head[20];
    if (!structs)
        return mukerihe_arrive(g->job.start, g->job.length, points.start, points.length, heard, store.start, store.length,
            g->message.start, g->message.length, minute, already);
    struct mukerihe_job job = job_of(g->job.start);
    return mukerihe_arrive_job(&job, points.start, points.length, heard, store.start, store.length,
        g->message.start, g->message.length, minute, already);
}

/* A decoding, with words or with a struct. */
static uint32_t call_decode(const struct given *g, struct list table)
{
    struct list points = g->points, store = g->store;
    if (!structs)
        return mukerihe_decode(g->job.start, g->job.length, points.start, points.length, g->heard, store.start, store.length,
            table.start, table.length);
    struct mukerihe_job job = job_of(g->job.start);
    return mukerihe_decode_job(&job, points.start, points.length, g->heard, store.start, store.length, table.start, table.length);
}

/* An arrival: what becomes of it, and the hosts heard after it. The store is kept. */
static void run_arrive(const struct given *g)
{
    uint64_t heard = g->heard;
    uint32_t already = 0xA5A5A5A5;
    uint32_t number = call_arrive(g, &heard, &already);
    if (number != 0)
        untouched(&already, sizeof already);
    else if (already > 1)
        fail("an arrival is neither taken nor in already");
    if ((number != 0 || already == 1) && (heard != g->heard || memcmp(kept, g->store.start, 4 * g->store.length) != 0))
        fail("an arrival that is not taken has written");
    put_word(number == 0 && already == 1 ? ALREADY_IN : number);
    put_word((uint32_t)(heard >> 32));
    put_word((uint32_t)heard);
    memcpy(kept, g->store.start, 4 * g->store.length);
}

/* A decoding: its number and the table. */
static void run_decode(const struct given *g)
{
    struct list table = words_filled(table_room, g->head[21]);
    put_word(call_decode(g, table));
    put_output(table);
}

/* Makes the call of a case. */
static void run(const struct given *g)
{
    switch (g->head[0]) {
    case 1: run_arrive(g); break;
    case 2: run_decode(g); break;
    case 3: put_words(g->store.start, g->store.length); break;
    default: fail("there is no such call");
    }
}

/* Reads the lists of a case; the store's elements are read, or stay as the case before left them. */
static void read_lists(struct given *g)
{
    const uint32_t *head = g->head;
    g->job = words_copied(words_room, head + 1, MUKERIHE_JOB_WORDS);
    g->heard = (uint64_t)head[14] << 32 | head[15];
    g->points = words_read(points_room, head[16]);
    if (head[17] > MOST_STORE)
        fail("its store is too long");
    if (head[18] == 1)
        fill_words(kept, head[17]);
    g->store = words_copied(store_room, kept, head[17]);
    g->message = bytes_read(message_room, head[19]);
}

/* Makes one call after another. */
int main(int count, char **arguments)
{
    struct given g;
    begin(count, arguments);
    words_room = room_for(4 * MUKERIHE_JOB_WORDS);
    points_room = room_for(4 * MOST_POINTS);
    store_room = room_for(4 * MOST_STORE);
    message_room = room_for(MOST_BYTES);
    table_room = room_for(4 * MOST_TABLE);
    while (next_head(g.head, HEAD)) {
        read_lists(&g);
        run(&g);
    }
    fprintf(stderr, "bank_jobs: %lu calls%s\n", cases, structs ? " with structs" : "");
    return fflush(stdout) != 0;
}
