/* An upload replaces the content of a staging slot while a hash job reads it.
 *
 * The upload is an update; the hash job is a query. The job goes on reading what was committed
 * when it began, and the next job reads the new content. Nobody waits. */
#include "keeper.h"

#include <inttypes.h>
#include <stdio.h>

static uint64_t txns[KEEPER_TXN_WORDS];
static uint64_t locks[KEEPER_LOCK_WORDS];
static uint64_t versions[KEEPER_VERSION_WORDS];

#define TABLES txns, KEEPER_TXN_WORDS, locks, KEEPER_LOCK_WORDS, versions, KEEPER_VERSION_WORDS

/* The item of the staging slot, and what stands for its content. */
#define STAGED 5
#define OLD_PACKAGE 1001
#define NEW_PACKAGE 1002

static void say(const char *what, struct keeper_answer a)
{
    printf("%-38s code %" PRIu64 " value %" PRIu64 " number %" PRIu64 " looked %" PRIu64 "\n", what,
           a.code, a.value, a.number, a.looked);
}

int main(void)
{
    struct keeper_answer a;
    uint64_t first, upload, job, next;

    a = keeper_begin_update(TABLES);
    say("tables of zeros, begin:", a);
    printf("fresh tables: %s\n", keeper_fresh(TABLES) ? "yes" : "no");

    a = keeper_begin_update(TABLES);
    first = a.number;
    say("first upload begins:", a);
    say("first upload writes 1001:", keeper_write(TABLES, first, STAGED, OLD_PACKAGE));
    say("first upload commits:", keeper_commit(TABLES, first));

    a = keeper_begin_query(TABLES);
    job = a.number;
    say("hash job begins:", a);
    say("hash job reads:", keeper_read(TABLES, job, STAGED));

    a = keeper_begin_update(TABLES);
    upload = a.number;
    say("second upload begins:", a);
    say("second upload writes 1002:", keeper_write(TABLES, upload, STAGED, NEW_PACKAGE));
    say("second upload reads its own:", keeper_read(TABLES, upload, STAGED));
    say("hash job reads, upload not committed:", keeper_read(TABLES, job, STAGED));
    say("second upload commits:", keeper_commit(TABLES, upload));
    say("hash job reads, upload committed:", keeper_read(TABLES, job, STAGED));

    a = keeper_begin_query(TABLES);
    next = a.number;
    say("next hash job begins:", a);
    say("next hash job reads:", keeper_read(TABLES, next, STAGED));

    say("hash job ends:", keeper_commit(TABLES, job));
    say("hash job reads after its end:", keeper_read(TABLES, job, STAGED));
    say("next hash job ends:", keeper_commit(TABLES, next));
    return 0;
}
