/*
 * A whole job from C, over both libraries: kinship of four seed lots, from counts 0 to 2 at six
 * markers. The bank plans, draws masks and shares A and B; each host answers its two messages; the
 * bank takes the answers as they arrive, decodes the table and checks it against a product made
 * here.
 *
 * In a real job the messages travel, the bank links libmukerihe_bank.a and a host libmukerihe.a
 * alone.
 */
#include <stdio.h>
#include <stdlib.h>

#include "mukerihe.h"
#include "mukerihe_bank.h"

enum { Q = 257, T = 4, S = 6, R = 4, M = 1, P = 2, N = 1, XA = 2, XB = 2, HOSTS = 9 };
enum { ROWS = T / M, INNER = S / P, COLUMNS = R / N };
enum { A_SHARE = 1, B_SHARE = 2 };
enum { HEADER = 16, A_BYTES = HEADER + 4 * ROWS * INNER, B_BYTES = HEADER + 4 * INNER * COLUMNS };

/* Modulus number 2 is q = 257; t, s, r; m, p, n; X_A, X_B; hosts; job number; the window. */
static const struct mukerihe_job job = {2, T, S, R, M, P, N, XA, XB, HOSTS, 1207, 480, 1200};
static const uint32_t points[HOSTS] = {11, 3, 58, 200, 7, 91, 30, 144, 19};

/* A has a row for each lot and a column for each marker; B is its transpose. */
static const uint32_t a[T * S] = {0, 1, 2, 2, 0, 1, 0, 2, 2, 1, 0, 1,
                                  2, 0, 0, 1, 2, 1, 1, 1, 0, 0, 2, 2};
static const uint32_t b[S * R] = {0, 0, 2, 1, 1, 2, 0, 1, 2, 2, 0, 0,
                                  2, 1, 1, 0, 0, 0, 2, 2, 1, 1, 1, 2};

/* What each host is sent, and the message that it sends back. */
static uint8_t a_message[HOSTS][A_BYTES], b_message[HOSTS][B_BYTES];
static uint8_t answer[HOSTS][MUKERIHE_MOST_MESSAGE];
static size_t answer_length[HOSTS];

/* What the bank keeps while answers come in. */
static uint64_t heard;
static uint32_t store[HOSTS * ROWS * COLUMNS];

/* Ends the program where a step is refused. */
static void must(const char *step, uint32_t number)
{
    if (number != MUKERIHE_DONE) {
        fprintf(stderr, "%s: refused with %u\n", step, (unsigned)number);
        exit(1);
    }
}

/* Draws masks. The words here are the same in every run, so that the example is: the masks of a
   real job need fresh words of the system's random source, by getrandom. */
static void draw(uint32_t *masks, size_t count)
{
    static uint64_t state = 1207;
    uint32_t words[64];
    size_t used;
    for (size_t i = 0; i < 64; i++) {
        state = state * 6364136223846793005u + 1442695040888963407u;
        words[i] = (uint32_t)(state >> 32);
    }
    must("masks", mukerihe_draw(job.modulus, words, 64, masks, count, &used));
}

/* Writes the messages of a host: its share of A and its share of B. */
static void share(uint32_t host, const uint32_t *a_masks, const uint32_t *b_masks)
{
    uint32_t a_share[ROWS * INNER], b_share[INNER * COLUMNS];
    const struct mukerihe_fields a_fields = {A_SHARE, job.modulus, host, ROWS, INNER, job.number};
    const struct mukerihe_fields b_fields = {B_SHARE, job.modulus, host, INNER, COLUMNS, job.number};
    must("share of A", mukerihe_share_a_job(&job, points, HOSTS, host, a, T * S, a_masks,
                                            XA * ROWS * INNER, a_share, ROWS * INNER));
    must("share of B", mukerihe_share_b_job(&job, points, HOSTS, host, b, S * R, b_masks,
                                            XB * INNER * COLUMNS, b_share, INNER * COLUMNS));
    must("message of A", mukerihe_write_fields(&a_fields, a_share, ROWS * INNER,
                                               a_message[host - 1], A_BYTES));
    must("message of B", mukerihe_write_fields(&b_fields, b_share, INNER * COLUMNS,
                                               b_message[host - 1], B_BYTES));
}

/* What a host does: two messages in, one out. */
static void host_part(uint32_t host)
{
    must("answer", mukerihe_answer(a_message[host - 1], A_BYTES, b_message[host - 1], B_BYTES,
                                   answer[host - 1], sizeof answer[host - 1],
                                   &answer_length[host - 1]));
}

/* Takes the answer of a host at a minute, says what becomes of it, and returns its number. */
static uint32_t arrive(uint32_t host, uint32_t minute)
{
    uint32_t already = 0;
    uint32_t number = mukerihe_arrive_job(&job, points, HOSTS, &heard, store,
                                          HOSTS * ROWS * COLUMNS, answer[host - 1],
                                          answer_length[host - 1], minute, &already);
    if (number != MUKERIHE_DONE)
        printf("host %u refused with %u\n", (unsigned)host, (unsigned)number);
    else
        printf("host %u %s\n", (unsigned)host, already ? "already in" : "taken");
    return number;
}

/* All answers arrive: host 4 once too early, host 6 twice, that of host 3 first damaged on its
   way. Returns how many are not met as they should be. */
static int arrivals(void)
{
    static const uint32_t hosts[] = {6, 2, 8, 6, 3, 5, 4, 7};
    int wrong = arrive(4, job.opening - 1) != MUKERIHE_OUTSIDE_WINDOW;
    answer[2][HEADER] ^= 0x80;
    wrong += arrive(3, job.opening) != MUKERIHE_BAD_ELEMENT;
    answer[2][HEADER] ^= 0x80;
    for (size_t i = 0; i < sizeof hosts / sizeof hosts[0]; i++)
        wrong += arrive(hosts[i], job.opening + (uint32_t)i) != MUKERIHE_DONE;
    return wrong;
}

/* Compares the table, and its signed reading, with A times B; returns how many elements are wrong.
   No entry is over (q - 1) / 2, so both are the whole numbers of A times B. */
static int compare(const uint32_t *table)
{
    int wrong = 0;
    for (size_t i = 0; i < T; i++) {
        for (size_t j = 0; j < R; j++) {
            uint32_t sum = 0;
            int64_t value;
            for (size_t k = 0; k < S; k++)
                sum += a[i * S + k] * b[k * R + j];
            must("signed reading", mukerihe_signed(job.modulus, table[i * R + j], &value));
            wrong += table[i * R + j] != sum % Q || value != (int64_t)sum;
        }
    }
    return wrong;
}

/* Prints the table as a page. */
static void print_page(const uint32_t *table)
{
    size_t length = mukerihe_page_length(T, R);
    uint8_t *page = (uint8_t *)malloc(length);
    if (page == NULL) {
        fprintf(stderr, "no memory for the page\n");
        exit(1);
    }
    must("page", mukerihe_page(job.modulus, T, R, table, T * R, page, length));
    fwrite(page, 1, length, stdout);
    free(page);
}

/* Runs the job. */
int main(void)
{
    struct mukerihe_plan_values plan = {0, 0, 0, 0, 0};
    uint32_t a_masks[XA * ROWS * INNER], b_masks[XB * INNER * COLUMNS], table[T * R];

    must("plan", mukerihe_plan_job(&job, points, HOSTS, &plan));
    printf("layout %u, %u of %u answers needed\n", (unsigned)plan.layout, (unsigned)plan.needed,
           (unsigned)job.hosts);
    draw(a_masks, XA * ROWS * INNER);
    draw(b_masks, XB * INNER * COLUMNS);
    for (uint32_t host = 1; host <= HOSTS; host++) {
        share(host, a_masks, b_masks);
        host_part(host);
    }
    if (arrivals() != 0) {
        fprintf(stderr, "an arrival did something else\n");
        return 1;
    }
    must("decoding", mukerihe_decode_job(&job, points, HOSTS, heard, store,
                                         HOSTS * ROWS * COLUMNS, table, T * R));
    if (compare(table) != 0) {
        fprintf(stderr, "the table is not A times B\n");
        return 1;
    }
    printf("the table is A times B\n");
    print_page(table);
    return 0;
}
