/* Tries the edges of both libraries for C: empty lists as null pointers, wrong counts of words, what refused calls leave as it was,
 * and the length of pages whose sizes are out of range.
 *
 *   struct desk         all that the calls of a small job are given and all that they write
 *   struct slice        a list of a call: where it starts, and its length
 *   struct call         a function: lay tells its lists, in the order in which their lengths are tested, make calls it
 *   tried               how many calls were made
 *   WHOLE, LENT         a list of a desk, whole; a list of a call as pointer and length
 *   lay_plan, ..        the lists of a call
 *   make_plan, ..       a call made
 *   plan, draw, ..      the functions, with the number that each empty list gets
 *   calls, job_calls    all functions; those that take a job
 *   serve               a host's messages and its answer
 *   put_matrices        the matrices of a desk
 *   put_masks           its random words and masks
 *   put_words           its job, points and fields
 *   hear                some hosts heard
 *   set_up              a desk where every call is fit
 *   try_one             makes a call: its number must be the one that is due, and a refused one leaves the whole desk as it was
 *   try_empty           every set of a call's lists empty, as null pointers
 *   try_count           a wrong count of words, alone and beside other faults
 *   try_counts          wrong counts of words, for every list of words
 *   struct fault        something that is put into a desk, and the number that is then due
 *   PLACE               where a part of a desk stands, and its size
 *   plan_faults         faults of a job and its points, for every call that takes them
 *   faults              faults of each call
 *   try_fault           puts a fault into a desk and makes a call
 *   try_plan_faults     all faults of a plan, in every call that takes a job
 *   try_faults          all faults of each call
 *   try_page_lengths    the length of pages whose sizes are out of range, which is 0
 */
#include "mukerihe.h"
#include "mukerihe_bank.h"
#include "trials.h"

#include <string.h>

enum { T = 4, S = 6, R = 4, ROWS = 4, INNER = 3, COLUMNS = 4, HOSTS = 9, HEARD = 7, MASKS = 2, HEADER = 16, RANDOM = 64 };
enum { A_BLOCK = ROWS * INNER, B_BLOCK = INNER * COLUMNS, C_BLOCK = ROWS * COLUMNS, MOST_SLICES = 5 };
enum { A_MESSAGE = HEADER + 4 * A_BLOCK, B_MESSAGE = HEADER + 4 * B_BLOCK, ANSWER = HEADER + 4 * C_BLOCK, FILLING = 0xA5 };

/* The inputs of all calls and their outputs. A job, fields and values have room for more words than they should be. */
struct desk {
    uint32_t job[2 * MUKERIHE_JOB_WORDS], points[HOSTS], fields[2 * MUKERIHE_FIELD_WORDS], a[T * S], b[S * R];
    uint32_t a_masks[MASKS * A_BLOCK], b_masks[MASKS * B_BLOCK], random[RANDOM], a_share[A_BLOCK], b_share[B_BLOCK];
    uint8_t a_message[A_MESSAGE], b_message[B_MESSAGE], answer[ANSWER];
    uint32_t modulus, rows, inner, columns, t, r, host, minute, element;
    int64_t value;
    uint32_t values[2 * MUKERIHE_PLAN_WORDS], told_fields[2 * MUKERIHE_FIELD_WORDS], elements[MUKERIHE_MOST_ELEMENTS];
    uint32_t masks[A_BLOCK], share[A_BLOCK], product[C_BLOCK], store[HOSTS * C_BLOCK], table[T * R], already, told_element;
    uint8_t message[A_MESSAGE], out[ANSWER + 5], out_bytes[4 * C_BLOCK], page[512];
    uint64_t heard;
    int64_t told_value;
    size_t used, written, page_length;
};

struct slice {
    void *start;
    size_t length;
};

/* A function: its name, the number that each of its lists gets where it is empty, and how it is called. */
struct call {
    const char *name;
    int slices;
    uint32_t empty[MOST_SLICES];
    void (*lay)(struct desk *d, struct slice *s);
    uint32_t (*make)(struct desk *d, const struct slice *s);
};

static unsigned long tried;

/* A list of a desk, whole. */
#define WHOLE(list) ((struct slice){(list), sizeof(list) / sizeof((list)[0])})

/* A list of a call as pointer and length. */
#define LENT(slice) (slice).start, (slice).length

/* The lists of a plan. */
static void lay_plan(struct desk *d, struct slice *s)
{
    s[0] = (struct slice){d->job, MUKERIHE_JOB_WORDS};
    s[1] = (struct slice){d->values, MUKERIHE_PLAN_WORDS};
    s[2] = WHOLE(d->points);
}

/* Plans. */
static uint32_t make_plan(struct desk *d, const struct slice *s)
{
    (void)d;
    return mukerihe_plan(LENT(s[0]), LENT(s[2]), LENT(s[1]));
}

/* The lists of a drawing. */
static void lay_draw(struct desk *d, struct slice *s)
{
    s[0] = WHOLE(d->masks);
    s[1] = WHOLE(d->random);
}

/* Draws masks. */
static uint32_t make_draw(struct desk *d, const struct slice *s)
{
    return mukerihe_draw(d->modulus, LENT(s[1]), LENT(s[0]), &d->used);
}

/* The lists of a share of A. */
static void lay_share_a(struct desk *d, struct slice *s)
{
    s[0] = (struct slice){d->job, MUKERIHE_JOB_WORDS};
    s[1] = WHOLE(d->points);
    s[2] = WHOLE(d->a);
    s[3] = WHOLE(d->a_masks);
    s[4] = (struct slice){d->share, A_BLOCK};
}

/* Makes a share of A. */
static uint32_t make_share_a(struct desk *d, const struct slice *s)
{
    return mukerihe_share_a(LENT(s[0]), LENT(s[1]), d->host, LENT(s[2]), LENT(s[3]), LENT(s[4]));
}

/* The lists of a share of B. */
static void lay_share_b(struct desk *d, struct slice *s)
{
    s[0] = (struct slice){d->job, MUKERIHE_JOB_WORDS};
    s[1] = WHOLE(d->points);
    s[2] = WHOLE(d->b);
    s[3] = WHOLE(d->b_masks);
    s[4] = (struct slice){d->share, B_BLOCK};
}

/* Makes a share of B. */
static uint32_t make_share_b(struct desk *d, const struct slice *s)
{
    return mukerihe_share_b(LENT(s[0]), LENT(s[1]), d->host, LENT(s[2]), LENT(s[3]), LENT(s[4]));
}

/* The lists of a product of elements. */
static void lay_multiply(struct desk *d, struct slice *s)
{
    s[0] = WHOLE(d->a_share);
    s[1] = WHOLE(d->b_share);
    s[2] = WHOLE(d->product);
}

/* Multiplies elements. */
static uint32_t make_multiply(struct desk *d, const struct slice *s)
{
    return mukerihe_multiply(d->modulus, d->rows, d->inner, d->columns, LENT(s[0]), LENT(s[1]), LENT(s[2]));
}

/* The lists of a message to write. */
static void lay_write(struct desk *d, struct slice *s)
{
    s[0] = (struct slice){d->fields, MUKERIHE_FIELD_WORDS};
    s[1] = WHOLE(d->a_share);
    s[2] = WHOLE(d->message);
}

/* Writes a message. */
static uint32_t make_write(struct desk *d, const struct slice *s)
{
    (void)d;
    return mukerihe_write(LENT(s[0]), LENT(s[1]), LENT(s[2]));
}

/* The lists of a message to read. */
static void lay_read(struct desk *d, struct slice *s)
{
    s[0] = (struct slice){d->told_fields, MUKERIHE_FIELD_WORDS};
    s[1] = WHOLE(d->elements);
    s[2] = WHOLE(d->a_message);
}

/* Reads a message. */
static uint32_t make_read(struct desk *d, const struct slice *s)
{
    (void)d;
    return mukerihe_read(LENT(s[2]), LENT(s[1]), LENT(s[0]));
}

/* The lists of an arrival. */
static void lay_arrive(struct desk *d, struct slice *s)
{
    s[0] = (struct slice){d->job, MUKERIHE_JOB_WORDS};
    s[1] = WHOLE(d->points);
    s[2] = WHOLE(d->store);
    s[3] = WHOLE(d->answer);
}

/* Lets an answer arrive. */
static uint32_t make_arrive(struct desk *d, const struct slice *s)
{
    return mukerihe_arrive(LENT(s[0]), LENT(s[1]), &d->heard, LENT(s[2]), LENT(s[3]), d->minute, &d->already);
}

/* The lists of a decoding. */
static void lay_decode(struct desk *d, struct slice *s)
{
    s[0] = (struct slice){d->job, MUKERIHE_JOB_WORDS};
    s[1] = WHOLE(d->points);
    s[2] = WHOLE(d->store);
    s[3] = WHOLE(d->table);
}

/* Decodes. */
static uint32_t make_decode(struct desk *d, const struct slice *s)
{
    return mukerihe_decode(LENT(s[0]), LENT(s[1]), d->heard, LENT(s[2]), LENT(s[3]));
}

/* The lists of a page. */
static void lay_page(struct desk *d, struct slice *s)
{
    s[0] = WHOLE(d->table);
    s[1] = (struct slice){d->page, d->page_length};
}

/* Writes a page. */
static uint32_t make_page(struct desk *d, const struct slice *s)
{
    return mukerihe_page(d->modulus, d->t, d->r, LENT(s[0]), LENT(s[1]));
}

/* The lists of a call that has none. */
static void lay_nothing(struct desk *d, struct slice *s)
{
    (void)d;
    (void)s;
}

/* Reads an element as signed. */
static uint32_t make_signed(struct desk *d, const struct slice *s)
{
    (void)s;
    return mukerihe_signed(d->modulus, d->element, &d->told_value);
}

/* Takes a signed value back. */
static uint32_t make_element(struct desk *d, const struct slice *s)
{
    (void)s;
    return mukerihe_element(d->modulus, d->value, &d->told_element);
}

/* The lists of a host's whole part. */
static void lay_answer(struct desk *d, struct slice *s)
{
    s[0] = WHOLE(d->a_message);
    s[1] = WHOLE(d->b_message);
    s[2] = WHOLE(d->out);
}

/* Answers two messages. */
static uint32_t make_answer(struct desk *d, const struct slice *s)
{
    return mukerihe_answer(LENT(s[0]), LENT(s[1]), LENT(s[2]), &d->written);
}

/* The lists of a host's product of bytes. */
static void lay_product(struct desk *d, struct slice *s)
{
    s[0] = (struct slice){d->a_message + HEADER, 4 * A_BLOCK};
    s[1] = (struct slice){d->b_message + HEADER, 4 * B_BLOCK};
    s[2] = WHOLE(d->out_bytes);
}

/* Multiplies bytes. */
static uint32_t make_product(struct desk *d, const struct slice *s)
{
    return mukerihe_product(d->modulus, d->rows, d->inner, d->columns, LENT(s[0]), LENT(s[1]), LENT(s[2]));
}

/* The functions. An empty list of masks to draw is no refusal: nothing is wanted. */
static const struct call plan = {"plan", 3, {1002, 1002, 9}, lay_plan, make_plan};
static const struct call draw = {"draw", 2, {0, 27}, lay_draw, make_draw};
static const struct call share_a = {"share_a", 5, {1002, 9, 13, 13, 13}, lay_share_a, make_share_a};
static const struct call share_b = {"share_b", 5, {1002, 9, 13, 13, 13}, lay_share_b, make_share_b};
static const struct call multiply = {"multiply", 3, {13, 13, 13}, lay_multiply, make_multiply};
static const struct call write_call = {"write", 3, {1002, 13, 13}, lay_write, make_write};
static const struct call read_call = {"read", 3, {1002, 13, 17}, lay_read, make_read};
static const struct call arrive = {"arrive", 4, {1002, 9, 13, 17}, lay_arrive, make_arrive};
static const struct call decode = {"decode", 4, {1002, 9, 13, 13}, lay_decode, make_decode};
static const struct call page = {"page", 2, {13, 28}, lay_page, make_page};
static const struct call signed_call = {"signed", 0, {0}, lay_nothing, make_signed};
static const struct call element_call = {"element", 0, {0}, lay_nothing, make_element};
static const struct call answer = {"answer", 3, {17, 17, 13}, lay_answer, make_answer};
static const struct call product = {"product", 3, {13, 13, 13}, lay_product, make_product};

static const struct call *const calls[] = {&plan, &draw, &share_a, &share_b, &multiply, &write_call, &read_call, &arrive, &decode,
    &page, &signed_call, &element_call, &answer, &product};
enum { CALLS = sizeof calls / sizeof calls[0] };

/* The calls that take a job and make the plan's tests. */
static const struct call *const job_calls[] = {&plan, &share_a, &share_b, &arrive, &decode};
enum { JOB_CALLS = sizeof job_calls / sizeof job_calls[0] };

/* Makes both messages of a host on a desk, and its answer. */
static void serve(struct desk *d, uint32_t host)
{
    const uint32_t a_fields[] = {1, 2, host, ROWS, INNER, 1207}, b_fields[] = {2, 2, host, INNER, COLUMNS, 1207};
    uint32_t *job = d->job;
    must("share_a", mukerihe_share_a(job, 13, d->points, HOSTS, host, d->a, T * S, LENT(WHOLE(d->a_masks)), LENT(WHOLE(d->a_share))));
    must("share_b", mukerihe_share_b(job, 13, d->points, HOSTS, host, d->b, S * R, LENT(WHOLE(d->b_masks)), LENT(WHOLE(d->b_share))));
    must("write", mukerihe_write(a_fields, 6, LENT(WHOLE(d->a_share)), LENT(WHOLE(d->a_message))));
    must("write", mukerihe_write(b_fields, 6, LENT(WHOLE(d->b_share)), LENT(WHOLE(d->b_message))));
    must("answer", mukerihe_answer(LENT(WHOLE(d->a_message)), LENT(WHOLE(d->b_message)), LENT(WHOLE(d->answer)), &d->written));
}

/* Puts the matrices on a desk: B has A's elements from the last to the first. */
static void put_matrices(struct desk *d)
{
    for (uint32_t i = 0; i < T * S; i++)
        d->a[i] = d->b[S * R - 1 - i] = i * i % 257;
}

/* Puts random words on a desk, and masks from them. */
static void put_masks(struct desk *d)
{
    for (uint32_t i = 0; i < RANDOM; i++)
        d->random[i] = 2654435761u * (i + 1);
    must("draw", mukerihe_draw(2, d->random, RANDOM, LENT(WHOLE(d->a_masks)), &d->used));
    must("draw", mukerihe_draw(2, d->random + 24, RANDOM - 24, LENT(WHOLE(d->b_masks)), &d->used));
}

/* Puts the job, its points and the fields of a message on a desk. */
static void put_words(struct desk *d)
{
    static const uint32_t job[] = {2, T, S, R, 1, 2, 1, MASKS, MASKS, HOSTS, 1207, 480, 1200};
    static const uint32_t points[] = {11, 3, 58, 200, 7, 91, 30, 144, 19};
    static const uint32_t fields[] = {1, 2, 8, ROWS, INNER, 1207};
    memcpy(d->job, job, sizeof job);
    memcpy(d->points, points, sizeof points);
    memcpy(d->fields, fields, sizeof fields);
}

/* Hears seven hosts. */
static void hear(struct desk *d)
{
    d->heard = 0;
    for (uint32_t host = 1; host <= HEARD; host++) {
        serve(d, host);
        must("arrive", mukerihe_arrive(d->job, 13, d->points, HOSTS, &d->heard, LENT(WHOLE(d->store)), LENT(WHOLE(d->answer)), 480,
            &d->already));
    }
}

/* A desk where every call is fit: seven hosts are heard, and the answer of the eighth lies there. */
static void set_up(struct desk *d)
{
    memset(d, FILLING, sizeof *d);
    put_words(d);
    put_matrices(d);
    put_masks(d);
    hear(d);
    serve(d, HEARD + 1);
    must("decode", mukerihe_decode(d->job, 13, d->points, HOSTS, d->heard, LENT(WHOLE(d->store)), LENT(WHOLE(d->table))));
    d->modulus = 2, d->minute = 480;
    d->rows = ROWS, d->inner = INNER, d->columns = COLUMNS, d->t = T, d->r = R;
    d->host = 8, d->element = 256, d->value = -128;
    d->page_length = mukerihe_page_length(T, R);
    memset(&d->used, FILLING, sizeof d->used);
    memset(&d->written, FILLING, sizeof d->written);
    memset(&d->already, FILLING, sizeof d->already);
}

/* Makes a call on a desk; its number must be the one that is due, and a refused one must leave the whole desk as it was. */
static void try_one(const struct call *call, struct desk *d, const struct slice *slices, uint32_t due)
{
    static struct desk before;
    memcpy(&before, d, sizeof before);
    uint32_t number = call->make(d, slices);
    if (number != due) {
        fprintf(stderr, "%s: %u is due, not %u\n", call->name, (unsigned)due, (unsigned)number);
        exit(1);
    }
    if (number != 0 && memcmp(&before, d, sizeof before) != 0)
        fail(call->name, "a refused call has written");
    tried++;
}

/* Every set of a call's lists empty, as null pointers; the first that is tested decides. */
static void try_empty(const struct call *call, const struct desk *ready)
{
    for (unsigned set = 0; set < 1u << call->slices; set++) {
        struct desk d = *ready;
        struct slice slices[MOST_SLICES];
        uint32_t due = 0;
        call->lay(&d, slices);
        for (int i = call->slices - 1; i >= 0; i--) {
            if ((set >> i & 1) == 0)
                continue;
            slices[i] = (struct slice){NULL, 0};
            due = call->empty[i];
        }
        try_one(call, &d, slices, due);
    }
}

/* A wrong count of words in list i: alone, with every other list empty, and with other words that would be refused. */
static void try_count(const struct call *call, const struct desk *ready, int i, size_t count)
{
    struct desk d = *ready;
    struct slice slices[MOST_SLICES];
    call->lay(&d, slices);
    slices[i].length = count;
    try_one(call, &d, slices, 1002);
    memset(d.job, 0, sizeof d.job);
    memset(d.fields, 0, sizeof d.fields);
    memset(d.points, 0, sizeof d.points);
    memset(d.a_message, 0, sizeof d.a_message);
    d.heard = UINT64_MAX;
    try_one(call, &d, slices, 1002);
    for (int k = 0; k < call->slices; k++)
        if (k != i && call->empty[k] != 1002)
            slices[k] = (struct slice){NULL, 0};
    try_one(call, &d, slices, 1002);
}

/* Wrong counts of words, for every list of words. */
static void try_counts(const struct call *call, const struct desk *ready)
{
    for (int i = 0; i < call->slices; i++) {
        struct desk d = *ready;
        struct slice slices[MOST_SLICES];
        if (call->empty[i] != 1002)
            continue;
        call->lay(&d, slices);
        size_t right = slices[i].length;
        const size_t counts[] = {0, 1, right - 1, right + 1, 2 * right};
        for (size_t k = 0; k < sizeof counts / sizeof counts[0]; k++)
            try_count(call, ready, i, counts[k]);
    }
}

/* What is put into a desk: a value of so many bytes at a place; and the number that is then due. */
struct fault {
    const struct call *call;
    size_t at, size;
    uint64_t value;
    uint32_t due;
};

/* A word, a byte or 64 bits of a desk: its place and its size. */
#define PLACE(member) offsetof(struct desk, member), sizeof(((struct desk *)0)->member)

/* Faults of a job and its points; the call is whichever takes a job. */
static const struct fault plan_faults[] = {
    {0, PLACE(job[0]), 0, 1}, {0, PLACE(job[0]), 5, 1}, {0, PLACE(job[1]), 0, 2}, {0, PLACE(job[2]), 16385, 2},
    {0, PLACE(job[3]), UINT32_MAX, 2}, {0, PLACE(job[4]), 9, 3}, {0, PLACE(job[6]), 0, 3}, {0, PLACE(job[7]), 17, 4},
    {0, PLACE(job[8]), 0, 4}, {0, PLACE(job[5]), 4, 5}, {0, PLACE(job[1]), 16384, 6}, {0, PLACE(job[9]), 65, 7},
    {0, PLACE(job[9]), 6, 8}, {0, PLACE(job[11]), 1200, 29}, {0, PLACE(job[12]), 0, 29}, {0, PLACE(job[9]), 8, 9},
    {0, PLACE(points[1]), 0, 10}, {0, PLACE(points[8]), 257, 10}, {0, PLACE(points[1]), 11, 11},
};

/* Faults of a call of its own. Rows and columns of a message are 4 bytes, big-endian, here written from the last to the first. */
static const struct fault faults[] = {
    {&draw, PLACE(modulus), 0, 1}, {&draw, PLACE(modulus), 5, 1},
    {&share_a, PLACE(host), 0, 12}, {&share_a, PLACE(host), 10, 12}, {&share_a, PLACE(a[23]), 257, 14},
    {&share_a, PLACE(a_masks[23]), 257, 15}, {&share_b, PLACE(host), 0, 12}, {&share_b, PLACE(host), 10, 12},
    {&share_b, PLACE(b[0]), 257, 14}, {&share_b, PLACE(b_masks[0]), UINT32_MAX, 15},
    {&multiply, PLACE(modulus), 5, 1}, {&multiply, PLACE(rows), 0, 2}, {&multiply, PLACE(inner), 16385, 2},
    {&multiply, PLACE(columns), 2000, 6}, {&multiply, PLACE(rows), 5, 13}, {&multiply, PLACE(a_share[11]), 257, 14},
    {&multiply, PLACE(b_share[0]), 257, 14},
    {&product, PLACE(modulus), 0, 1}, {&product, PLACE(rows), 0, 2}, {&product, PLACE(columns), 2000, 6},
    {&product, PLACE(rows), 5, 13}, {&product, PLACE(a_message[16]), 1, 14}, {&product, PLACE(b_message[60]), 1, 14},
    {&write_call, PLACE(fields[0]), 4, 16}, {&write_call, PLACE(fields[1]), 0, 1}, {&write_call, PLACE(fields[2]), 65, 12},
    {&write_call, PLACE(fields[3]), 0, 2}, {&write_call, PLACE(fields[4]), 16384, 6}, {&write_call, PLACE(fields[3]), 5, 13},
    {&write_call, PLACE(a_share[0]), 257, 14},
    {&read_call, PLACE(a_message[0]), 'N', 18}, {&read_call, PLACE(a_message[4]), 2, 19}, {&read_call, PLACE(a_message[5]), 0, 16},
    {&read_call, PLACE(a_message[6]), 5, 1}, {&read_call, PLACE(a_message[7]), 65, 12}, {&read_call, PLACE(a_message[9]), 0, 2},
    {&read_call, PLACE(a_message[8]), 32, 6}, {&read_call, PLACE(a_message[11]), 4, 20}, {&read_call, PLACE(a_message[60]), 1, 14},
    {&arrive, PLACE(heard), 1u << 9, 21}, {&arrive, PLACE(answer[0]), 'N', 18}, {&arrive, PLACE(answer[4]), 0, 19},
    {&arrive, PLACE(answer[5]), 4, 16}, {&arrive, PLACE(answer[6]), 0, 1}, {&arrive, PLACE(answer[7]), 0, 12},
    {&arrive, PLACE(answer[9]), 0, 2}, {&arrive, PLACE(answer[8]), 32, 6}, {&arrive, PLACE(answer[11]), 5, 20},
    {&arrive, PLACE(answer[16]), 1, 14}, {&arrive, PLACE(answer[5]), 1, 22}, {&arrive, PLACE(answer[12]), 1, 22},
    {&arrive, PLACE(answer[6]), 3, 22}, {&arrive, PLACE(answer[7]), 10, 12}, {&arrive, PLACE(minute), 479, 30},
    {&arrive, PLACE(minute), 1200, 30}, {&arrive, PLACE(answer[7]), 1, 23},
    {&decode, PLACE(heard), 1u << 9, 21}, {&decode, PLACE(heard), 63, 24}, {&decode, PLACE(store[0]), 257, 14},
    {&signed_call, PLACE(modulus), 5, 1}, {&signed_call, PLACE(element), 257, 14},
    {&element_call, PLACE(modulus), 0, 1}, {&element_call, PLACE(value), 129, 25},
    {&element_call, PLACE(value), (uint64_t)-129, 25}, {&element_call, PLACE(value), (uint64_t)1 << 63, 25},
    {&page, PLACE(modulus), 0, 1}, {&page, PLACE(t), 0, 2}, {&page, PLACE(r), 16385, 2}, {&page, PLACE(t), 5, 13},
    {&page, PLACE(page_length), 294, 28}, {&page, PLACE(table[15]), 257, 14},
    {&answer, PLACE(a_message[0]), 'N', 18}, {&answer, PLACE(a_message[4]), 2, 19}, {&answer, PLACE(a_message[5]), 0, 16},
    {&answer, PLACE(a_message[6]), 5, 1}, {&answer, PLACE(a_message[7]), 65, 12}, {&answer, PLACE(a_message[9]), 0, 2},
    {&answer, PLACE(a_message[8]), 32, 6}, {&answer, PLACE(a_message[11]), 4, 20}, {&answer, PLACE(a_message[60]), 1, 14},
    {&answer, PLACE(b_message[0]), 'N', 18}, {&answer, PLACE(b_message[4]), 2, 19}, {&answer, PLACE(b_message[5]), 0, 16},
    {&answer, PLACE(b_message[6]), 5, 1}, {&answer, PLACE(b_message[7]), 65, 12}, {&answer, PLACE(b_message[9]), 0, 2},
    {&answer, PLACE(b_message[8]), 32, 6}, {&answer, PLACE(b_message[11]), 5, 20}, {&answer, PLACE(b_message[60]), 1, 14},
    {&answer, PLACE(a_message[5]), 2, 1001}, {&answer, PLACE(b_message[5]), 1, 1001}, {&answer, PLACE(b_message[6]), 3, 1003},
    {&answer, PLACE(b_message[7]), 9, 1004}, {&answer, PLACE(a_message[12]), 1, 1005},
    {&answer, offsetof(struct desk, b_message[8]), 4, 0x03000400, 1006},
};

/* Puts a fault into a desk and makes a call. */
static void try_fault(const struct call *call, const struct fault *fault, const struct desk *ready)
{
    struct desk d = *ready;
    struct slice slices[MOST_SLICES];
    memcpy((char *)&d + fault->at, &fault->value, fault->size);
    call->lay(&d, slices);
    try_one(call, &d, slices, fault->due);
}

/* All faults of a plan, in every call that takes a job. */
static void try_plan_faults(const struct desk *ready)
{
    for (size_t i = 0; i < sizeof plan_faults / sizeof plan_faults[0]; i++)
        for (int k = 0; k < JOB_CALLS; k++)
            try_fault(job_calls[k], &plan_faults[i], ready);
}

/* All faults of a call of its own. */
static void try_faults(const struct desk *ready)
{
    for (size_t i = 0; i < sizeof faults / sizeof faults[0]; i++)
        try_fault(faults[i].call, &faults[i], ready);
}

/* The length of a page is 0 where a size is out of range, as rows, as columns and as both; at both ends of the range it is not. */
static void try_page_lengths(void)
{
    static const uint32_t out_of_range[] = {0, 16385, UINT32_MAX}, in_range[] = {1, R, 16384};
    for (int i = 0; i < 9; i++) {
        uint32_t size = out_of_range[i / 3], other = in_range[i % 3];
        if (mukerihe_page_length(size, other) != 0 || mukerihe_page_length(other, size) != 0)
            fail("page_length", "a size is out of range, and it is not 0");
        if (mukerihe_page_length(size, out_of_range[i % 3]) != 0)
            fail("page_length", "both sizes are out of range, and it is not 0");
        if (mukerihe_page_length(other, in_range[i / 3]) == 0)
            fail("page_length", "both sizes are in range, and it is 0");
        tried += 4;
    }
}

/* Tries all. */
int main(void)
{
    static struct desk ready;
    set_up(&ready);
    for (int i = 0; i < CALLS; i++) {
        try_empty(calls[i], &ready);
        try_counts(calls[i], &ready);
    }
    try_plan_faults(&ready);
    try_faults(&ready);
    try_page_lengths();
    printf("bank_trials: %lu calls, all as they should be\n", tried);
    return 0;
}
