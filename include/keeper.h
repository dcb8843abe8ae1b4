/* The keeper for C: eight calls over three lent tables, and a function that fills the tables.
 *
 * The functions are those of crates/keeper_c, which `rt lib` in that folder builds into
 * crates/keeper_c/out/libkeeper_c.a, for x86-64 Linux. Each is proved there against its contract.
 *
 * What a caller may rely on, for every call below:
 *  - Any tables, any lengths and any words will do. A call ends, answers as document 01 says, and
 *    reads and writes no word outside the three tables.
 *  - Tables that are not good are answered KEEPER_BAD_TABLES, and no word is changed.
 *  - The four numbers of the answer, and every word of the three tables afterwards, are what the
 *    rules say (`step` in crates/rules/specs/Step.antt). Good tables stay good.
 *  - The keeper holds nothing of its own: the tables are its whole state.
 *
 * Who calls. A transaction is an update, which locks what it touches, a query, which only reads, by
 * its start, or a relaxed query, which only reads, and what is newest as far as its earlier reads
 * allow. keeper_settle ends an update's writing: past its writing it still holds what it
 * wrote, and reads by its stamp as a query does by its start. In its row of the transactions the
 * kind is 0 for an update, 1 for a query, 2 for an update past its writing, whose start is its
 * stamp, 3 for a relaxed query, whose start is 0. Words 6 and 7 of the row are the read count and the
 * weight sum of a query of either kind, 0 for an update; word 8 the items that a relaxed query has
 * read, a bit for each; word 9 the relaxed queries for which an update is a later one, a bit for each
 * slot. The clock, the second word of that table, is the stamp that was given last, by the commit
 * of an update or by a settle. A query's start is the clock when it begins.
 *
 * Relaxed queries. Each has a set of later updates, at first empty. An update joins it when it asks to
 * write what the query has read, granted or waiting; when the query reads what the update holds
 * exclusively; and when it reads or overwrites a version whose creator is in the set. The query reads
 * of each item the newest version whose creator is not. So what it reads is what the updates outside
 * its set, run alone, leave. It never waits. While one lives no update may settle, and while an update
 * is past its writing none may begin: KEEPER_KEPT_APART.
 *
 * Two kinds of waits, both answered KEEPER_WAIT.
 *  - An update's wait is noted: it has a place in the item's line, and until the same call is made
 *    again and granted every other call of its own but keeper_abort is refused, KEEPER_STILL_WAITING.
 *  - A wait of a query, or of an update past its writing, is not noted and changes no word. It says
 *    that another past its writing, with a stamp up to the reader's, holds the item and has not
 *    ended. The caller may call anything else meanwhile, and read the item again later. Such a wait
 *    is never a deadlock: it leads to a smaller stamp, or from a query to one past its writing.
 *
 * What a caller must see to, since no proof can:
 *  - The pointers and lengths are those of three distinct tables that do not overlap. No pointer
 *    is null, and each is aligned for a uint64_t.
 *  - The tables are lent for the call only: nobody else reads or writes them while it runs.
 *    Calls are made one at a time.
 */
#ifndef KEEPER_H
#define KEEPER_H

#include <stdbool.h>
#include <stddef.h>
#include <stdint.h>

#ifdef __cplusplus
extern "C" {
#endif

/* How many calls there are: seven before keeper_begin_relaxed. A header of before keeper_settle, with
 * six, does not say. */
#define KEEPER_CALLS 8

/* Items 0 to 63, live transactions at most, items that one update may hold exclusively at most, and
 * the lengths of the tables in words. */
#define KEEPER_ITEMS 64
#define KEEPER_SLOTS 32
#define KEEPER_QUOTA 32
#define KEEPER_TXN_WORDS 322
#define KEEPER_LOCK_WORDS 192
#define KEEPER_VERSION_WORDS 6208

/* The codes of an answer. */
enum keeper_code {
    KEEPER_GRANTED = 0,
    KEEPER_WAIT = 1,                /* an update: a conflict, or others wait ahead; a reader by a start: one past its
                                     * writing holds the item. Make the same call again later, or abort */
    KEEPER_DEADLOCK = 2,            /* waiting would close a circle: nothing changed; abort one */
    KEEPER_UNKNOWN_TRANSACTION = 3, /* no live transaction has that number */
    KEEPER_UNKNOWN_ITEM = 4,        /* an item above 63 */
    KEEPER_QUERY_MAY_NOT_WRITE = 5, /* nor settle */
    KEEPER_STILL_WAITING = 6,       /* an update that awaits another call's grant */
    KEEPER_NO_SLOT = 7,             /* 32 transactions are live */
    KEEPER_NUMBERS_SPENT = 8,       /* the last transaction number is given */
    KEEPER_CLOCK_SPENT = 9,         /* the last stamp is given; who has written nothing commits still */
    KEEPER_BAD_TABLES = 10,
    KEEPER_QUOTA_SPENT = 11,        /* an update that holds 32 items exclusively writes a further one */
    KEEPER_PAST_WRITING = 12,       /* an update past its writing writes what it does not hold, or settles again */
    KEEPER_KEPT_APART = 13          /* a settle while a relaxed query lives, or the begin of one while an update
                                     * is past its writing */
};

/* The four numbers of an answer; what a call does not name is 0. */
struct keeper_answer {
    uint64_t code;   /* one of enum keeper_code */
    uint64_t value;  /* what a granted read read; at a query's end the sum of the weights of its reads */
    uint64_t number; /* a begin's transaction number; the stamp of an update's commit, or of a settle; the
                      * clock at the commit of an update that wrote nothing */
    uint64_t looked; /* the place of the version read, from 1; 0 for the own working value; at a query's
                      * end the count of its reads */
};

/* Fills the three tables fresh and answers true if their lengths are the three above; else
 * changes no word and answers false. What the tables held before does not matter. */
bool keeper_fresh(uint64_t *txns, size_t txns_len, uint64_t *locks, size_t locks_len,
                  uint64_t *versions, size_t versions_len);

/* Begins an update in the lowest free slot; the answer's number is its number. Codes 0, 7, 8, 10;
 * all but 0 change no word. */
struct keeper_answer keeper_begin_update(uint64_t *txns, size_t txns_len, uint64_t *locks,
                                         size_t locks_len, uint64_t *versions,
                                         size_t versions_len);

/* Begins a query. Until it ends it reads of each item the newest version with a stamp up to the
 * clock of now: what is committed now, and what those past their writing now commit later. The
 * answer's number is its number. Codes 0, 7, 8, 10; all but 0 change no word. */
struct keeper_answer keeper_begin_query(uint64_t *txns, size_t txns_len, uint64_t *locks,
                                        size_t locks_len, uint64_t *versions,
                                        size_t versions_len);

/* Begins a relaxed query. Until it ends it reads of each item the newest version whose creator is not
 * one of its later updates. The answer's number is its number. Codes 0, 7, 8, 10, 13; all but 0 change
 * no word. */
struct keeper_answer keeper_begin_relaxed(uint64_t *txns, size_t txns_len, uint64_t *locks,
                                          size_t locks_len, uint64_t *versions,
                                          size_t versions_len);

/* Reads an item; the answer's value is what it holds for this transaction. A query's granted read, of
 * either kind, is counted in two words of its row, the count of its reads and the sum of their weights: the weight of
 * a read is its looked, 1 for the newest version. Nobody else's is, nor a wait or a refusal. Codes 0, 1, 2, 3, 4, 6,
 * 10, of which a query and an update past its writing never get 2 and 6, and a relaxed query never 1,
 * 2 and 6. To an update 1 changes its awaited words and the ranks behind it alone, to the others no
 * word; the codes but 0 and 1 change none. */
struct keeper_answer keeper_read(uint64_t *txns, size_t txns_len, uint64_t *locks,
                                 size_t locks_len, uint64_t *versions, size_t versions_len,
                                 uint64_t number, uint64_t item);

/* Writes an item; others read the value once the update has committed. Past its writing an update
 * may still change what it holds exclusively, and any other write is answered 12. Codes 0, 1, 2, 3,
 * 4, 5, 6, 10, 11, 12; 1 changes the caller's awaited words, the relaxed queries that it is later for
 * and the ranks behind it alone, the others but 0 none. */
struct keeper_answer keeper_write(uint64_t *txns, size_t txns_len, uint64_t *locks,
                                  size_t locks_len, uint64_t *versions, size_t versions_len,
                                  uint64_t number, uint64_t item, uint64_t value);

/* Commits an update: all that it wrote, under one stamp, which is the answer's number. That is a new
 * stamp; past its writing it is the one that its settle answered, and 9 never comes. An update that
 * has not settled and holds nothing exclusively takes no stamp and never gets 9: the answer's number
 * is the clock, 0 as long as no stamp was given. Ends a query of either kind; the number is 0, the value is the sum
 * of the weights of its reads and looked is their count, each held at 4294967295 once there. The
 * quotient is its weighted reading: how old what it read was, 1 if all was the newest. Codes 0, 3, 6,
 * 9, 10; all but 0 change no word. */
struct keeper_answer keeper_commit(uint64_t *txns, size_t txns_len, uint64_t *locks,
                                   size_t locks_len, uint64_t *versions, size_t versions_len,
                                   uint64_t number);

/* Aborts an update, waiting or not, past its writing or not: nothing that it wrote is ever read.
 * Ends a query of either kind, and answers as its commit does. Codes 0, 3, 10; all but 0 change no word. */
struct keeper_answer keeper_abort(uint64_t *txns, size_t txns_len, uint64_t *locks,
                                  size_t locks_len, uint64_t *versions, size_t versions_len,
                                  uint64_t number);

/* Settles an update: ends its writing. It takes a stamp, which is the answer's number, lets go of
 * what it only shares and keeps what it holds exclusively; from then on it reads by that stamp, and
 * its commit puts its versions under it. Codes 0, 3, 5, 6, 9, 10, 12, 13; all but 0 change no word. */
struct keeper_answer keeper_settle(uint64_t *txns, size_t txns_len, uint64_t *locks,
                                   size_t locks_len, uint64_t *versions, size_t versions_len,
                                   uint64_t number);

#ifdef __cplusplus
}
#endif

#endif
