/* The time of one call, in nanoseconds: best of several runs. Nothing is asserted.
 *
 * An abort of transaction 0 pays the test of all tables alone; every other call pays it too. Each
 * call is timed on fresh tables, on tables with 15 live queries and 16 versions of each item, and on
 * full ones: a live query in every slot but one, and as many versions of each item as there is room
 * for. Then the test and a write are timed where two updates hold all items, then calls where others
 * wait for an item, and then the calls that rewrite rows: the end of a query, and the commit of an
 * update with as many items as one may have. Then commits that write nothing, and of the last item
 * alone. Then a settle, the commit of an update past its writing and the plain commit beside each
 * other, each of the same update on the same tables: with one write on fresh and on full tables, with
 * as many items as one may hold, and with many shared locks. A library of six calls, whose header
 * does not say how many there are, has no settle: there that part is left out.
 *
 * The sizes of the tables are those of the header alone, and no line that is timed names one: so this
 * can be built for libraries of other sizes too, each with its own header, and its lines compared. */
#define _POSIX_C_SOURCE 199309L
#include "keeper.h"

#include <stdio.h>
#include <stdlib.h>
#include <string.h>
#include <time.h>

#define RUNS 7
#define CALLS 20000
#define SHORT_RUNS 200
#define SHORT_CALLS 200

/* So many queries or waiters fit into the tables of every header: the same load for all. */
#define SOME 15

static uint64_t txns[KEEPER_TXN_WORDS];
static uint64_t locks[KEEPER_LOCK_WORDS];
static uint64_t versions[KEEPER_VERSION_WORDS];

#define TABLES txns, KEEPER_TXN_WORDS, locks, KEEPER_LOCK_WORDS, versions, KEEPER_VERSION_WORDS

static double now(void)
{
    struct timespec t;
    clock_gettime(CLOCK_MONOTONIC, &t);
    return (double)t.tv_sec * 1e9 + (double)t.tv_nsec;
}

static struct keeper_answer granted(struct keeper_answer a)
{
    if (a.code != KEEPER_GRANTED) {
        fprintf(stderr, "bench: a call was answered %d\n", (int)a.code);
        exit(1);
    }
    return a;
}

/* An update that holds as many items as one may, from item x on, exclusively. */
static uint64_t full_job(uint64_t x, uint64_t value)
{
    uint64_t n = granted(keeper_begin_update(TABLES)).number;
    for (uint64_t end = x + KEEPER_QUOTA; x < end; x++)
        granted(keeper_write(TABLES, n, x, value + x));
    return n;
}

/* The queries of full tables: one slot is left for an update. */
#define QUERIES (KEEPER_SLOTS - 1)

/* So many queries, and after each begin updates that write all items between them. */
static void fill(int queries)
{
    for (int q = 0; q < queries; q++) {
        granted(keeper_begin_query(TABLES));
        for (uint64_t x = 0; x < KEEPER_ITEMS; x += KEEPER_QUOTA)
            granted(keeper_commit(TABLES, full_job(x, 100 * (uint64_t)q)));
    }
}

enum { TEST, BEGIN, READ, WRITE, COMMIT, QUERY_READ, KINDS };

static const char *const names[KINDS] = {
    "abort of 0 (test of all tables)", "begin update", "read by an update",
    "write",                           "commit of one write", "read by a query",
};

/* The time of one of CALLS calls, if their sum is less than the best so far. */
static double better(double best, double sum) { return sum / CALLS < best ? sum / CALLS : best; }

/* One round times each kind once on the same tables; the update of the round is committed. */
static void measure(const char *on, uint64_t query)
{
    double best[KINDS];
    for (int k = 0; k < KINDS; k++)
        best[k] = 1e18;
    for (int run = 0; run < RUNS; run++) {
        double sum[KINDS] = {0};
        for (int i = 0; i < CALLS; i++) {
            uint64_t item = (uint64_t)i % KEEPER_ITEMS;
            double t0 = now();
            keeper_abort(TABLES, 0);
            double t1 = now();
            uint64_t n = keeper_begin_update(TABLES).number;
            double t2 = now();
            keeper_read(TABLES, n, item);
            double t3 = now();
            keeper_write(TABLES, n, item, (uint64_t)i);
            double t4 = now();
            granted(keeper_commit(TABLES, n));
            double t5 = now();
            if (query)
                keeper_read(TABLES, query, item);
            double t6 = now();
            sum[TEST] += t1 - t0;
            sum[BEGIN] += t2 - t1;
            sum[READ] += t3 - t2;
            sum[WRITE] += t4 - t3;
            sum[COMMIT] += t5 - t4;
            sum[QUERY_READ] += t6 - t5;
        }
        for (int k = 0; k < KINDS; k++)
            best[k] = better(best[k], sum[k]);
    }
    printf("%s\n", on);
    for (int k = 0; k < KINDS; k++)
        if (k != QUERY_READ || query)
            printf("  %-34s %8.0f ns\n", names[k], best[k]);
}

/* Two updates hold all items between them; the first writes one of its own, and one of the other's. */
static void measure_full_jobs(void)
{
    uint64_t n = full_job(0, 0);
    full_job(KEEPER_QUOTA, 0);
    double test = 1e18, again = 1e18, further = 1e18;
    for (int run = 0; run < RUNS; run++) {
        double sum[3] = {0};
        for (int i = 0; i < CALLS; i++) {
            uint64_t item = (uint64_t)i % KEEPER_QUOTA;
            double t0 = now();
            keeper_abort(TABLES, 0);
            double t1 = now();
            keeper_write(TABLES, n, item, (uint64_t)i);
            double t2 = now();
            uint64_t code = keeper_write(TABLES, n, item + KEEPER_QUOTA, 0).code;
            double t3 = now();
            if (code != KEEPER_QUOTA_SPENT)
                exit(1);
            sum[0] += t1 - t0;
            sum[1] += t2 - t1;
            sum[2] += t3 - t2;
        }
        test = better(test, sum[0]);
        again = better(again, sum[1]);
        further = better(further, sum[2]);
    }
    printf("two updates with %d items each\n", KEEPER_QUOTA);
    printf("  %-34s %8.0f ns\n", names[TEST], test);
    printf("  %-34s %8.0f ns\n", "write of an item that it holds", again);
    printf("  %-34s %8.0f ns\n", "write of a further item, refused", further);
}

/* A call that leaves the tables as they are, and is answered this code: the best of several runs. */
static void measure_call(const char *what, struct keeper_answer (*call)(uint64_t), uint64_t number, uint64_t code)
{
    double best = 1e18;
    for (int run = 0; run < RUNS; run++) {
        double t0 = now();
        for (int i = 0; i < CALLS; i++)
            if (call(number).code != code)
                exit(1);
        best = better(best, now() - t0);
    }
    printf("  %-34s %8.0f ns\n", what, best);
}

static struct keeper_answer abort_of(uint64_t number) { return keeper_abort(TABLES, number); }
static struct keeper_answer write_0(uint64_t number) { return keeper_write(TABLES, number, 0, 1); }

/* One update holds item 0, and so many others wait to write it; the last of them asks again. */
static void measure_waiters(const char *on, int waiters)
{
    keeper_fresh(TABLES);
    granted(keeper_write(TABLES, granted(keeper_begin_update(TABLES)).number, 0, 1));
    uint64_t last = 0;
    for (int i = 0; i < waiters; i++) {
        last = granted(keeper_begin_update(TABLES)).number;
        if (keeper_write(TABLES, last, 0, 1).code != KEEPER_WAIT)
            exit(1);
    }
    printf("%s\n", on);
    measure_call(names[TEST], abort_of, 0, KEEPER_UNKNOWN_TRANSACTION);
    measure_call("an awaited write, asked again", write_0, last, KEEPER_WAIT);
}

/* A call of this transaction on the tables as they are, which are put back after each: the best of
 * many short runs, as the twin's program times it. */
static void measure_once(const char *what, struct keeper_answer (*call)(uint64_t), uint64_t number)
{
    static uint64_t t[KEEPER_TXN_WORDS], l[KEEPER_LOCK_WORDS], v[KEEPER_VERSION_WORDS];
    memcpy(t, txns, sizeof t);
    memcpy(l, locks, sizeof l);
    memcpy(v, versions, sizeof v);
    double best = 1e18;
    for (int run = 0; run < SHORT_RUNS; run++) {
        double sum = 0;
        for (int i = 0; i < SHORT_CALLS; i++) {
            double t0 = now();
            struct keeper_answer a = call(number);
            double t1 = now();
            granted(a);
            sum += t1 - t0;
            memcpy(txns, t, sizeof t);
            memcpy(locks, l, sizeof l);
            memcpy(versions, v, sizeof v);
        }
        if (sum / SHORT_CALLS < best)
            best = sum / SHORT_CALLS;
    }
    printf("  %-36s %6.0f ns\n", what, best);
}

static struct keeper_answer commit_of(uint64_t number) { return keeper_commit(TABLES, number); }

static void measure_commit(const char *what, uint64_t number) { measure_once(what, commit_of, number); }

/* Ends of queries and commits of full jobs, which rewrite rows. */
static void measure_rows(void)
{
    /* in each round of fill() a query takes a number, and so does an update for each part of the items */
    const uint64_t round = 1 + KEEPER_ITEMS / KEEPER_QUOTA;
    printf("rows rewritten\n");
    keeper_fresh(TABLES);
    measure_commit("commit of a full job, one version", full_job(0, 1));
    keeper_fresh(TABLES);
    fill(QUERIES);
    uint64_t n = granted(keeper_begin_query(TABLES)).number;
    measure_commit("query's end, no version goes", n);
    granted(keeper_commit(TABLES, n));
    measure_commit("query's end, one of each row goes", 1 + round * (KEEPER_SLOTS / 2));
    measure_commit("commit of a full job, full rows", full_job(0, 1));
    /* a version of each row goes, and the newest is read: the rows have room for one more, and get it */
    keeper_fresh(TABLES);
    fill(QUERIES);
    granted(keeper_commit(TABLES, 1));
    granted(keeper_begin_query(TABLES));
    measure_commit("commit of a full job, rows get full", full_job(0, 1));
}

/* An update that has read so many items. */
static uint64_t reader(uint64_t shares)
{
    uint64_t n = granted(keeper_begin_update(TABLES)).number;
    for (uint64_t x = 0; x < shares; x++)
        granted(keeper_read(TABLES, n, x));
    return n;
}

/* Commits that write nothing, and beside them one of the last item alone: whether anything is held
 * exclusively is found out item by item. */
static void measure_empty(const char *on, int queries)
{
    printf("commits of little: %s\n", on);
    keeper_fresh(TABLES);
    fill(queries);
    measure_commit("nothing read, nothing written", reader(0));
    measure_commit("all items read, nothing written", reader(KEEPER_ITEMS));
    keeper_fresh(TABLES);
    fill(queries);
    uint64_t n = reader(0);
    granted(keeper_write(TABLES, n, KEEPER_ITEMS - 1, 1));
    measure_commit("the last item written", n);
}

#if defined KEEPER_CALLS && KEEPER_CALLS >= 7
static struct keeper_answer settle_of(uint64_t number) { return keeper_settle(TABLES, number); }

/* Of an update that still writes: its commit, its settle, and then its commit past its writing, which
 * takes no stamp and trims every row. */
static void measure_settle(const char *on, uint64_t number)
{
    printf("settle beside commit: %s\n", on);
    measure_once("commit", commit_of, number);
    measure_once("settle", settle_of, number);
    granted(settle_of(number));
    measure_once("commit past its writing", commit_of, number);
}

/* An update with one write, and so many items more that it shares. */
static uint64_t small_job(uint64_t shares)
{
    uint64_t n = granted(keeper_begin_update(TABLES)).number;
    granted(keeper_write(TABLES, n, 0, 1));
    for (uint64_t x = 1; x <= shares; x++)
        granted(keeper_read(TABLES, n, x));
    return n;
}

static void measure_settles(void)
{
    keeper_fresh(TABLES);
    measure_settle("one write, fresh tables", small_job(0));
    keeper_fresh(TABLES);
    measure_settle("one write and all other items shared", small_job(KEEPER_ITEMS - 1));
    keeper_fresh(TABLES);
    measure_settle("a full job, one version", full_job(0, 1));
    keeper_fresh(TABLES);
    fill(SOME);
    measure_settle("one write, 16 versions of each item", small_job(0));
    keeper_fresh(TABLES);
    fill(QUERIES);
    measure_settle("one write, full tables", small_job(0));
    keeper_fresh(TABLES);
    fill(QUERIES);
    measure_settle("a full job, full rows", full_job(0, 1));
    /* another update holds the other half of the items, so that every lock is held */
    keeper_fresh(TABLES);
    full_job(KEEPER_QUOTA, 0);
    measure_settle("two updates with all items between them", full_job(0, 1));
}
#endif

int main(void)
{
    double clock_cost = 1e18;
    for (int i = 0; i < 1000; i++) {
        double t = now();
        double d = now() - t;
        if (d < clock_cost)
            clock_cost = d;
    }
    printf("best of %d runs of %d calls; reading the clock takes %.0f ns of each\n", RUNS, CALLS, clock_cost);
    printf("%d live transactions at most, %d words of tables\n", KEEPER_SLOTS,
           KEEPER_TXN_WORDS + KEEPER_LOCK_WORDS + KEEPER_VERSION_WORDS);
    keeper_fresh(TABLES);
    measure("fresh tables", 0);
    keeper_fresh(TABLES);
    fill(SOME);
    measure("15 live queries, 16 versions of each item", 1);
    keeper_fresh(TABLES);
    fill(QUERIES);
    measure("full tables: live queries in all slots but one, full rows", 1);
    keeper_fresh(TABLES);
    measure_full_jobs();
    measure_waiters("1 waiting for one item", 1);
    measure_waiters("15 waiting for one item", SOME);
    measure_waiters("all slots but one waiting for one item", KEEPER_SLOTS - 1);
    measure_rows();
    measure_empty("fresh tables", 0);
    measure_empty("live queries in all slots but two", QUERIES - 1);
#if defined KEEPER_CALLS && KEEPER_CALLS >= 7
    measure_settles();
#endif
    return 0;
}
