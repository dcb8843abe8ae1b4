/* The signing job writes first and then only checks.
 *
 * It reads the release and the keys, writes its line into the ledger and settles: from then on it
 * holds nothing but its ledger slot. The next upload goes on at once, while the check takes its time
 * and reads what stood at the job's stamp. Whoever must see the ledger line waits for its commit. */
#include "keeper.h"

#include <inttypes.h>
#include <stdio.h>

static uint64_t txns[KEEPER_TXN_WORDS];
static uint64_t locks[KEEPER_LOCK_WORDS];
static uint64_t versions[KEEPER_VERSION_WORDS];

#define TABLES txns, KEEPER_TXN_WORDS, locks, KEEPER_LOCK_WORDS, versions, KEEPER_VERSION_WORDS

/* The items, and what stands for their content. */
#define RELEASE 5
#define KEYS 6
#define LEDGER 40
#define OLD_PACKAGE 1001
#define NEW_PACKAGE 1002
#define KEY_RING 61
#define LINE 4001
#define LINE_MENDED 4002

static void say(const char *what, struct keeper_answer a)
{
    printf("%-38s code %" PRIu64 " value %" PRIu64 " number %" PRIu64 " looked %" PRIu64 "\n", what,
           a.code, a.value, a.number, a.looked);
}

int main(void)
{
    struct keeper_answer a;
    uint64_t first, job, upload, audit;

    if (!keeper_fresh(TABLES))
        return 1;

    a = keeper_begin_update(TABLES);
    first = a.number;
    say("first upload begins:", a);
    say("first upload writes 1001:", keeper_write(TABLES, first, RELEASE, OLD_PACKAGE));
    say("first upload writes the keys:", keeper_write(TABLES, first, KEYS, KEY_RING));
    say("first upload commits:", keeper_commit(TABLES, first));

    a = keeper_begin_update(TABLES);
    job = a.number;
    say("signing job begins:", a);
    say("signing job reads the release:", keeper_read(TABLES, job, RELEASE));
    say("signing job reads the keys:", keeper_read(TABLES, job, KEYS));
    say("signing job writes its ledger line:", keeper_write(TABLES, job, LEDGER, LINE));

    a = keeper_begin_update(TABLES);
    upload = a.number;
    say("next upload begins:", a);
    say("next upload writes 1002, must wait:", keeper_write(TABLES, upload, RELEASE, NEW_PACKAGE));
    say("signing job settles:", keeper_settle(TABLES, job));
    say("next upload writes 1002:", keeper_write(TABLES, upload, RELEASE, NEW_PACKAGE));
    say("next upload commits:", keeper_commit(TABLES, upload));

    say("check reads the release, as of then:", keeper_read(TABLES, job, RELEASE));
    say("check reads the keys:", keeper_read(TABLES, job, KEYS));
    say("check reads its own line:", keeper_read(TABLES, job, LEDGER));

    a = keeper_begin_query(TABLES);
    audit = a.number;
    say("audit begins:", a);
    say("audit reads the ledger, must wait:", keeper_read(TABLES, audit, LEDGER));
    say("audit reads the release meanwhile:", keeper_read(TABLES, audit, RELEASE));

    say("check mends its line:", keeper_write(TABLES, job, LEDGER, LINE_MENDED));
    say("check may not write the release:", keeper_write(TABLES, job, RELEASE, NEW_PACKAGE));
    say("signing job may not settle again:", keeper_settle(TABLES, job));
    say("signing job commits:", keeper_commit(TABLES, job));

    say("audit reads the ledger:", keeper_read(TABLES, audit, LEDGER));
    say("audit ends:", keeper_commit(TABLES, audit));
    return 0;
}
