/* Runs whole jobs by both libraries for C, of every modulus and layout, in one thread, its table A times B; then in 16 at once, by
 * the bank's library alone and by both: each job must give the same in all. Most jobs are small; large ones have blocks of 4096
 * elements, blocks of more than 64 columns and, where the modulus has so many hosts, more than 256 weights in decoding, so that the
 * calls take their largest arrays. The threads have no more stack than the headers ask for, and a little for the functions here.
 *
 *   struct work    a whole job: its numbers, its buffers, and what it gives
 *   struct shape   the cuts, groups and hosts of a job
 *   shapes         the shapes of small jobs
 *   large_shape    the shape of large ones
 *   job_of         the numbers of a job
 *   small_job      the numbers of a job with small blocks
 *   large_job      the numbers of a job with large blocks
 *   put_points     the points of a job
 *   put_elements   random elements
 *   draw_job       the numbers, points and matrices of a job
 *   draw_masks     the masks of A or of B
 *   send           the messages of a host's shares
 *   host_part      a host's answer, by its own library or by the bank's
 *   take           a host's answer, read and taken
 *   check_signed   every element of the table, read as signed and taken back
 *   serve          as many hosts as are needed, each served and heard
 *   whole_job      a job of a seed, from the plan to the page
 *   check_table    the table is A times B
 *   due            what each job gave in one thread
 *   run_one        all jobs in one thread
 *   struct part    what a thread begins with
 *   run_jobs       all jobs in one of the threads
 *   begin_threads  begins all threads
 *   run_threads    all threads, from their beginning to their end
 */
#include "mukerihe.h"
#include "mukerihe_bank.h"
#include "trials.h"

#include <pthread.h>
#include <string.h>

enum { THREADS = 16, JOBS = 32, ROUNDS = 10, LARGE = 12, SIDE = 12, MOST_HOSTS = 40, HEADER = 16, FEW_WEIGHTS = 256 };
enum { BLOCK = MUKERIHE_MOST_ELEMENTS, MOST_MASKS = 2 * BLOCK, MOST_STORE = 24 * BLOCK, MOST_PAGE = 600000 };
enum { HOST_STACK = 100 * 1024, OWN_STACK = 16 * 1024 };

/* A whole job: its numbers, matrices and masks, the messages of a host, and what is kept of it: hosts heard, store, table, page. */
struct work {
    struct mukerihe_job job;
    struct mukerihe_plan_values plan;
    uint64_t heard;
    uint32_t points[MOST_HOSTS], a[4 * BLOCK], b[3 * BLOCK], random[MOST_MASKS + 64], a_masks[MOST_MASKS], b_masks[MOST_MASKS];
    uint32_t block[3][BLOCK], elements[MUKERIHE_MOST_ELEMENTS], store[MOST_STORE], table[4 * 3 * BLOCK];
    uint8_t messages[3][HEADER + 4 * BLOCK], page[MOST_PAGE];
};

/* The cuts of a job, the size of both groups, and how many hosts there are. */
struct shape {
    uint32_t m, p, n, x, hosts;
};

/* Modulo 13 there are at most 12 hosts: the first two shapes. All together give all three layouts. */
static const struct shape shapes[] = {{1, 1, 1, 1, 12}, {3, 1, 1, 2, 12}, {2, 2, 2, 2, 20}, {3, 2, 2, 7, 40}};

/* Four by three blocks of a table need 23 hosts, and so 276 weights. */
static const struct shape large_shape = {4, 1, 3, 2, 24};

/* A job of a modulus and a shape whose blocks are rows by inner, inner by columns and rows by columns. */
static struct mukerihe_job job_of(uint32_t modulus, struct shape s, uint32_t rows, uint32_t inner, uint32_t columns)
{
    return (struct mukerihe_job){modulus, s.m * rows, s.p * inner, s.n * columns, s.m, s.p, s.n, s.x, s.x, s.hosts,
        below(1u << 31), 10, 20};
}

/* The numbers of a job with small blocks. */
static struct mukerihe_job small_job(uint64_t seed)
{
    uint32_t modulus = 1 + (uint32_t)seed % 4;
    struct shape shape = shapes[seed / 4 % (modulus == 1 ? 2 : 4)];
    uint32_t rows = 1 + below(SIDE), inner = 1 + below(SIDE), columns = 1 + below(SIDE);
    return job_of(modulus, shape, rows, inner, columns);
}

/* The numbers of a job with large blocks: squares; a share of A with long rows; or a share of B and an answer with long rows. */
static struct mukerihe_job large_job(uint64_t seed)
{
    static const uint32_t sizes[][3] = {{64, 64, 64}, {32, 128, 32}, {32, 32, 128}};
    uint32_t modulus = 1 + (uint32_t)seed % 4;
    const uint32_t *size = sizes[seed / 4 % 3];
    return job_of(modulus, modulus == 1 ? shapes[0] : large_shape, size[0], size[1], size[2]);
}

/* The points of a job: 1, 2, .. */
static void put_points(struct work *w)
{
    for (uint32_t i = 0; i < w->job.hosts; i++)
        w->points[i] = i + 1;
}

/* Random elements of a job. */
static void put_elements(const struct work *w, uint32_t *elements, size_t count)
{
    for (size_t i = 0; i < count; i++)
        elements[i] = below(prime_of(w->job.modulus));
}

/* Draws the numbers, points and matrices of a job; the last seeds have the large ones. */
static void draw_job(struct work *w, uint64_t seed)
{
    memset(w, 0, sizeof *w);
    state = seed;
    w->job = seed < JOBS ? small_job(seed) : large_job(seed - JOBS);
    put_points(w);
    put_elements(w, w->a, w->job.t * w->job.s);
    put_elements(w, w->b, w->job.s * w->job.r);
}

/* Draws so many masks, from more words than that, since some may be skipped. */
static void draw_masks(struct work *w, uint32_t *masks, size_t count)
{
    size_t used, words = count + 64;
    for (size_t i = 0; i < words; i++)
        w->random[i] = below(1u << 16) << 16 | below(1u << 16);
    must("draw", mukerihe_draw(w->job.modulus, w->random, words, masks, count, &used));
}

/* Makes the messages of a host's shares: its share of A and its share of B. */
static void send(struct work *w, uint32_t host)
{
    const struct mukerihe_job *job = &w->job;
    const struct mukerihe_plan_values *v = &w->plan;
    size_t a_count = v->rows * v->inner, b_count = v->inner * v->columns;
    struct mukerihe_fields a = {1, job->modulus, host, v->rows, v->inner, job->number};
    struct mukerihe_fields b = {2, job->modulus, host, v->inner, v->columns, job->number};
    must("share_a", mukerihe_share_a_job(job, w->points, job->hosts, host, w->a, job->t * job->s, w->a_masks, job->xa * a_count,
        w->block[0], a_count));
    must("share_b", mukerihe_share_b_job(job, w->points, job->hosts, host, w->b, job->s * job->r, w->b_masks, job->xb * b_count,
        w->block[1], b_count));
    must("write", mukerihe_write_fields(&a, w->block[0], a_count, w->messages[0], HEADER + 4 * a_count));
    must("write", mukerihe_write_fields(&b, w->block[1], b_count, w->messages[1], HEADER + 4 * b_count));
}

/* Makes a host's answer, by its own library or by the bank's; returns its length. */
static size_t host_part(struct work *w, uint32_t host, int alone)
{
    const struct mukerihe_plan_values *v = &w->plan;
    size_t a_count = v->rows * v->inner, b_count = v->inner * v->columns, count = v->rows * v->columns, written = 0;
    struct mukerihe_fields fields = {3, w->job.modulus, host, v->rows, v->columns, w->job.number};
    must("multiply", mukerihe_multiply(w->job.modulus, v->rows, v->inner, v->columns, w->block[0], a_count, w->block[1], b_count,
        w->block[2], count));
    if (alone) {
        must("write", mukerihe_write_fields(&fields, w->block[2], count, w->messages[2], HEADER + 4 * count));
        return HEADER + 4 * count;
    }
    must("answer", mukerihe_answer(w->messages[0], HEADER + 4 * a_count, w->messages[1], HEADER + 4 * b_count, w->messages[2],
        sizeof w->messages[2], &written));
    return written;
}

/* Takes the answer of a host: read, it is the product of its shares; then it arrives, and arrives again. */
static void take(struct work *w, uint32_t host, int alone)
{
    const struct mukerihe_job *job = &w->job;
    size_t written = host_part(w, host, alone), count = w->plan.rows * w->plan.columns;
    struct mukerihe_fields fields = {0};
    must("read", mukerihe_read_fields(w->messages[2], written, w->elements, MUKERIHE_MOST_ELEMENTS, &fields));
    if (fields.kind != 3 || fields.host != host || memcmp(w->block[2], w->elements, 4 * count) != 0)
        fail("answer", "it is not the product of the shares");
    for (uint32_t again = 0; again < 2; again++) {
        uint32_t already = 2;
        must("arrive", mukerihe_arrive_job(job, w->points, job->hosts, &w->heard, w->store, job->hosts * count, w->messages[2],
            written, 10 + host % 10, &already));
        if (already != again)
            fail("arrive", "it is wrong about what is in already");
    }
}

/* Reads every element of a table as signed, and takes it back. */
static void check_signed(const struct work *w)
{
    for (size_t i = 0; i < w->job.t * w->job.r; i++) {
        int64_t value;
        uint32_t element;
        must("signed", mukerihe_signed(w->job.modulus, w->table[i], &value));
        must("element", mukerihe_element(w->job.modulus, value, &element));
        if (element != w->table[i])
            fail("element", "it is not the way back");
    }
}

/* Lets as many hosts answer as are needed, from the second on where there are so many. */
static void serve(struct work *w, int alone)
{
    uint32_t first = w->job.hosts > w->plan.needed ? 2 : 1;
    for (uint32_t host = first; host < first + w->plan.needed; host++) {
        send(w, host);
        take(w, host, alone);
    }
}

/* Runs the job of a seed. */
static void whole_job(struct work *w, uint64_t seed, int alone)
{
    const struct mukerihe_job *job = &w->job;
    draw_job(w, seed);
    must("plan", mukerihe_plan_job(job, w->points, job->hosts, &w->plan));
    draw_masks(w, w->a_masks, job->xa * w->plan.rows * w->plan.inner);
    draw_masks(w, w->b_masks, job->xb * w->plan.inner * w->plan.columns);
    serve(w, alone);
    must("decode", mukerihe_decode_job(job, w->points, job->hosts, w->heard, w->store,
        job->hosts * w->plan.rows * w->plan.columns, w->table, job->t * job->r));
    check_signed(w);
    size_t length = mukerihe_page_length(job->t, job->r);
    if (length > MOST_PAGE)
        fail("page_length", "there is no room for the page");
    must("page", mukerihe_page(job->modulus, job->t, job->r, w->table, job->t * job->r, w->page, length));
}

/* Ends the program unless the table of a job is A times B. */
static void check_table(const struct work *w)
{
    uint32_t t = w->job.t, s = w->job.s, r = w->job.r, q = prime_of(w->job.modulus);
    for (size_t i = 0; i < t; i++) {
        for (size_t j = 0; j < r; j++) {
            uint64_t sum = 0;
            for (size_t k = 0; k < s; k++)
                sum = (sum + (uint64_t)w->a[i * s + k] * w->b[k * r + j]) % q;
            if (w->table[i * r + j] != sum)
                fail("decode", "the table is not A times B");
        }
    }
}

/* What one thread made of each job. */
static struct work *due;

/* Runs all jobs in one thread; they must have all layouts, and large ones but those modulo 13 many weights. */
static void run_one(void)
{
    unsigned layouts = 0;
    for (size_t i = 0; i < JOBS + LARGE; i++) {
        struct work *w = &due[i];
        whole_job(w, i, 0);
        check_table(w);
        layouts |= 1u << w->plan.layout;
        if (i >= JOBS && w->job.modulus != 1 && w->plan.needed * w->job.m * w->job.n <= FEW_WEIGHTS)
            fail("plan", "a large job has few weights");
    }
    if (layouts != 14)
        fail("plan", "the jobs have not all layouts");
}

/* What a thread begins with, and whether it calls the bank's library alone. */
struct part {
    size_t from;
    int alone;
};

/* Runs the small jobs, round by round, then the large ones once, beginning with another one in each thread; compares what they
 * give. */
static void *run_jobs(void *argument)
{
    const struct part *part = argument;
    struct work *w = malloc(sizeof *w);
    if (w == NULL)
        fail("threads", "there is no memory");
    for (size_t i = 0; i < ROUNDS * JOBS + LARGE; i++) {
        size_t seed = i < ROUNDS * JOBS ? (part->from + i) % JOBS : JOBS + (part->from + i) % LARGE;
        whole_job(w, seed, part->alone);
        if (memcmp(w, &due[seed], sizeof *w) != 0)
            fail("threads", "two jobs differ");
    }
    free(w);
    return NULL;
}

/* Begins all threads, on stacks of a size. */
static void begin_threads(pthread_t *threads, struct part *parts, int alone, size_t stack)
{
    pthread_attr_t attributes;
    pthread_attr_init(&attributes);
    if (pthread_attr_setstacksize(&attributes, stack) != 0)
        fail("threads", "there is no such stack");
    for (size_t i = 0; i < THREADS; i++) {
        parts[i] = (struct part){i, alone};
        if (pthread_create(&threads[i], &attributes, run_jobs, &parts[i]) != 0)
            fail("threads", "a thread is not begun");
    }
    pthread_attr_destroy(&attributes);
}

/* Runs all jobs in 16 threads at once, on stacks of a size. */
static void run_threads(int alone, size_t stack)
{
    pthread_t threads[THREADS];
    struct part parts[THREADS];
    begin_threads(threads, parts, alone, stack);
    for (size_t i = 0; i < THREADS; i++)
        pthread_join(threads[i], NULL);
}

/* Runs the jobs in one thread, and then in many. The smaller stacks come first: a thread may get the stack of an ended one, if that
 * is as large as its own should be, or larger. */
int main(void)
{
    due = malloc((JOBS + LARGE) * sizeof *due);
    if (due == NULL)
        fail("threads", "there is no memory");
    run_one();
    run_threads(1, MUKERIHE_BANK_STACK + OWN_STACK);
    run_threads(0, HOST_STACK + OWN_STACK);
    free(due);
    printf("bank_threads: %d threads with %d whole jobs each, %d of them large, all as in one thread\n", THREADS,
        2 * (ROUNDS * JOBS + LARGE), 2 * LARGE);
    return 0;
}
