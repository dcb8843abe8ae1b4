/* How many stamps are looked at to find the version that a query reads: walking from the newest, as
 * document 01 tells it, and by halving, as the keeper does.
 *
 * The proved loop bounds its looks and hands none out, so both loops stand here once more, with a count.
 * They are run on the words of the keeper's own tables, for rows of 1, 2, 8, 16 and 32 versions and for
 * each start that a query can have there; the place that they find must be the looked of the
 * keeper's answer. Exit status 1 if one is not. */
#include "keeper.h"

#include <stdio.h>
#include <stdlib.h>

#define ITEM 5
#define ROW (KEEPER_VERSION_WORDS / KEEPER_ITEMS)

static uint64_t txns[KEEPER_TXN_WORDS];
static uint64_t locks[KEEPER_LOCK_WORDS];
static uint64_t versions[KEEPER_VERSION_WORDS];

#define TABLES txns, KEEPER_TXN_WORDS, locks, KEEPER_LOCK_WORDS, versions, KEEPER_VERSION_WORDS

struct found {
    uint64_t place; /* from 1 */
    unsigned looks; /* at stamps; halving reads the count too */
};

/* specs/Versions: place */
static struct found walk(const uint64_t *row, uint64_t start)
{
    struct found f = {1, 1};
    while (start < row[f.place * 2 - 1]) {
        f.place++;
        f.looks++;
    }
    return f;
}

/* choices: place_in */
static struct found halve(const uint64_t *row, uint64_t start)
{
    struct found f = {0, 0};
    size_t lo = 0;
    size_t hi = (size_t)row[0] - 1;
    while (lo < hi) {
        size_t mid = (lo + hi) / 2;
        f.looks++;
        if (start < row[mid * 2 + 1])
            lo = mid + 1;
        else
            hi = mid;
    }
    f.place = lo + 1;
    return f;
}

static struct keeper_answer granted(struct keeper_answer a)
{
    if (a.code != KEEPER_GRANTED) {
        fprintf(stderr, "looks: a call was answered %d\n", (int)a.code);
        exit(1);
    }
    return a;
}

/* The stamp of an update that writes the item, or nothing. */
static uint64_t update(int writes)
{
    uint64_t n = granted(keeper_begin_update(TABLES)).number;
    if (writes)
        granted(keeper_write(TABLES, n, ITEM, 100 + n));
    return granted(keeper_commit(TABLES, n)).number;
}

struct sum {
    unsigned most, all;
};

static void add(struct sum *s, unsigned looks)
{
    s->all += looks;
    if (s->most < looks)
        s->most = looks;
}

/* A row of n versions, a live query for each. Between two versions the clock moves by 1 + gap, so a
 * start is the stamp of the version that it reads, or lies above it. */
static unsigned measure(unsigned n, unsigned gap, struct sum *walked, struct sum *halved)
{
    uint64_t query[KEEPER_SLOTS], start[KEEPER_SLOTS], clock = 0;
    keeper_fresh(TABLES);
    for (unsigned q = 0; q < n; q++) {
        if (q > 0)
            clock = update(1);
        for (unsigned g = 0; g < gap; g++)
            clock = update(0);
        query[q] = granted(keeper_begin_query(TABLES)).number;
        start[q] = clock;
    }
    const uint64_t *row = versions + ITEM * ROW;
    if (row[0] != n) {
        fprintf(stderr, "looks: a row of %d versions was wanted, and has %d\n", (int)n, (int)row[0]);
        exit(1);
    }
    for (unsigned q = 0; q < n; q++) {
        uint64_t looked = granted(keeper_read(TABLES, query[q], ITEM)).looked;
        struct found w = walk(row, start[q]), h = halve(row, start[q]);
        if (w.place != looked || h.place != looked) {
            fprintf(stderr, "looks: start %d of %d versions: walk %d, halving %d, the keeper %d\n", (int)start[q], (int)n,
                    (int)w.place, (int)h.place, (int)looked);
            exit(1);
        }
        add(walked, w.looks);
        add(halved, h.looks);
    }
    return n;
}

int main(void)
{
    static const unsigned rows[] = {1, 2, 8, 16, 32};
    unsigned starts = 0;
    printf("looks at stamps, over each start that a query can have\n");
    printf("  versions    walk: most    mean    halving: most    mean\n");
    for (unsigned i = 0; i < sizeof rows / sizeof *rows; i++) {
        struct sum walked = {0, 0}, halved = {0, 0};
        unsigned tried = measure(rows[i], 0, &walked, &halved);
        tried += measure(rows[i], 1, &walked, &halved);
        printf("  %8u    %10u    %4.1f    %13u    %4.1f\n", rows[i], walked.most, (double)walked.all / tried, halved.most,
               (double)halved.all / tried);
        starts += tried;
    }
    printf("%u starts: each place found is the keeper's looked\n", starts);
    return 0;
}
