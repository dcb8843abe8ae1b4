/* The time of one judgement, in nanoseconds: the best of several runs. What is judged is told beforehand, and
 * asserted: the length of the circle, 0 for accepted.
 *
 * A piece costs the judge most if it has a sibling, for then all ways to that are searched. So in each kind every
 * piece has one; what differs is how far the ways go and where the circle closes. */
#define _POSIX_C_SOURCE 199309L
#include <stdint.h>
#include <stdio.h>
#include <stdlib.h>
#include <string.h>
#include <time.h>

#define MOST 32
#define RUNS 100
#define CALLS 400

uint64_t circle_length(const uint64_t *words, size_t length);

static uint64_t words[3 * MOST];

static double now(void)
{
    struct timespec t;
    clock_gettime(CLOCK_MONOTONIC, &t);
    return (double)t.tv_sec * 1e9 + (double)t.tv_nsec;
}

static void piece(int i, uint64_t transaction, uint64_t writes)
{
    words[3 * i] = transaction;
    words[3 * i + 1] = 0;
    words[3 * i + 2] = writes;
}

/* Pieces of one transaction, on one item: all are siblings, none are in conflict. */
static int one_transaction(int n)
{
    for (int i = 0; i < n; i++)
        piece(i, 1, 1);
    return 0;
}

/* Transactions of two pieces, each in conflict with the next: one long way, no circle. */
static int a_way(int n)
{
    for (int i = 0; i < n; i++)
        piece(i, (uint64_t)i / 2, (uint64_t)1 << (i + 1) / 2);
    return 0;
}

/* The same, and the last is in conflict with the first: one circle of all pieces, found at once. */
static int a_ring(int n)
{
    for (int i = 0; i < n; i++)
        piece(i, (uint64_t)i / 2, (uint64_t)1 << (i + 1) % n / 2);
    return n;
}

/* Pieces with an idle sibling each, in conflict with the next; the last two are siblings, and the ends of that way:
 * the circle closes at the last piece but one. */
static int a_late_circle(int n)
{
    int m = n / 2 - 1;
    for (int i = 0; i < m; i++) {
        piece(2 * i, (uint64_t)i, (uint64_t)3 << i);
        piece(2 * i + 1, (uint64_t)i, 0);
    }
    piece(n - 2, 99, 1);
    piece(n - 1, 99, (uint64_t)1 << m);
    return m + 2;
}

static double best_of(int n, int expected)
{
    double best = 1e18;
    for (int run = 0; run < RUNS; run++) {
        uint64_t sum = 0;
        double from = now();
        for (int call = 0; call < CALLS; call++)
            sum += circle_length(words, 3 * (size_t)n);
        double each = (now() - from) / CALLS;
        if (sum != (uint64_t)CALLS * (uint64_t)expected) {
            fprintf(stderr, "bench: of %d pieces a circle of %d is expected\n", n, expected);
            exit(1);
        }
        if (each < best)
            best = each;
    }
    return best;
}

int main(void)
{
    static const struct {
        const char *name;
        int (*make)(int);
    } kinds[] = {
        {"accepted: one transaction", one_transaction},
        {"accepted: one long way", a_way},
        {"refused: one circle of all pieces", a_ring},
        {"refused: a circle that closes late", a_late_circle},
    };
    printf("nanoseconds a judgement, best of %d runs of %d\n", RUNS, CALLS);
    printf("%-36s %8s %8s %8s %8s\n", "pieces", "4", "8", "16", "32");
    for (size_t k = 0; k < sizeof kinds / sizeof *kinds; k++) {
        printf("%-36s", kinds[k].name);
        for (int n = 4; n <= MOST; n *= 2) {
            int expected = kinds[k].make(n);
            printf(" %8.0f", best_of(n, expected));
        }
        printf("\n");
    }
    return 0;
}
