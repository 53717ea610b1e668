/* Synchronisation cells for runtimes: rendezvous with choice, between threads of your own.
 *
 * WHAT THE CALLER KEEPS. No call can test these three, and what follows where one is broken is undefined.
 *   1. A pcml_pass is never copied so that both copies are used. Begin it as PCML_PASS_INIT, and write its field never.
 *   2. One pass is in one call at a time. To hand it to another thread, order that by a lock, by a thread's start or
 *      join, or by a seq_cst atomic. No call comes from a signal handler, or from the forked child of a process with
 *      threads.
 *   3. Pointers and counts are of memory that is there. malloc, realloc and free are of one allocator.
 * With PCML_CHECK_USE defined before this header, a call on a pass that is in another call answers PCML_IN_USE. That is
 * for tests: it costs two atomic exchanges a call.
 *
 * All else is tested. Each call answers a number: 0 to 15 say what came of it, and from PCML_EMPTY on nothing was done:
 * no step was made, no row taken, and nothing written through a pointer.
 *
 * A TABLE has rows: row (t, g) is the g-th sync of thread t. A pass holds rows: at first pass p holds row 0 of each
 * thread t with t % passes == p. Whoever takes a committed row (pcml_take) holds the thread's next one, whoever held the
 * first. Different passes of one table may be used at once, by as many threads of the system. No call waits, and none
 * but those that begin a table and pcml_commits takes memory.
 *
 * A ROW is drafted (its offers are written), opened (they stand, and it waits), committed (with a row of another thread,
 * or alone), and taken. A pair is committed at once, with one stamp: one offers to send, and one to receive, on one
 * channel.
 */
#ifndef PCML_CELLS_H
#define PCML_CELLS_H
#include <stdbool.h>
#include <stddef.h>
#include <stdint.h>
#ifdef __cplusplus
extern "C" {
#endif

/* A place at a table, or the ledger of a table that has ended (pcml_close). */
typedef struct { void *at; } pcml_pass;
#define PCML_PASS_INIT {0}

typedef struct { uint32_t thread, sync; } pcml_row;

enum { PCML_NUMBER = 0, PCML_CHANNEL = 1, PCML_NACK = 2 };
/* A number of 32 bits, a channel 0 to 255, or a nack: PCML_NACK_OF(its thread, its number there, 0 to 63). */
typedef struct { uint32_t kind, value; } pcml_atom;
#define PCML_NACK_OF(thread, number) (64u * (thread) + (number))
typedef struct { uint32_t count; pcml_atom atoms[3]; } pcml_message;

enum { PCML_NEVER = 0, PCML_SEND = 1, PCML_RECV = 2, PCML_ALWAYS = 3, PCML_ON_NACK = 4, PCML_ON_END = 5 };
/* `of` is the channel, the nack or the thread. `scopes` has bit s where scope s of the sync, 0 to 3, encloses the offer. */
typedef struct { uint32_t kind, of, scopes; pcml_message message; } pcml_offer;

/* How a row was committed: by its offer `own`, and where `paired` is 1 with offer `theirs` of row `partner`. */
typedef struct { uint32_t own, stamp, paired; pcml_row partner; uint32_t theirs; } pcml_joined;

/* A commit: kind 0 a pair, 1 an always, 2 a nack, 3 an end, of which the row stands in both places. `of` is the channel,
 * the nack or the thread. */
typedef struct {
    uint32_t kind, stamp;
    pcml_row sender, receiver;
    uint32_t sent, received, of;
    pcml_message message;
} pcml_commit;

enum pcml_status {
    PCML_OK = 0,
    PCML_EMPTY = 16,    /* the pass is empty */
    PCML_MEMORY = 17,   /* no memory was left */
    PCML_RANGE = 18,    /* a number is outside its range */
    PCML_NO_ROW = 19,   /* the table has no such row, or thread */
    PCML_NOT_HELD = 20, /* the pass does not hold the row */
    PCML_OPENED = 21,   /* the row was opened before */
    PCML_FRESH = 22,    /* the row was not opened yet */
    PCML_ENDED = 23,    /* the row's thread has ended */
    PCML_SHARED = 24,   /* other passes of the table are left */
    PCML_CLOSED = 25,   /* the table has ended */
    PCML_IN_USE = 26    /* only with PCML_CHECK_USE: the pass is in another call */
};
enum pcml_attempt_answer { PCML_MET = 0, PCML_GONE = 1, PCML_MINE = 2, PCML_BUSY = 3, PCML_UNFIT = 4 };
enum pcml_grant_answer { PCML_GIVEN = 0, PCML_NOT_ENABLED = 1, PCML_LATE = 2 };
enum pcml_cell_state { PCML_CELL_FRESH = 0, PCML_CELL_WAITING = 1, PCML_CELL_CLAIMED = 2, PCML_CELL_SYNCHED = 3, PCML_CELL_TAKEN = 4 };
enum pcml_course_state { PCML_UNSTARTED = 0, PCML_RUNNING = 1, PCML_FINISHED = 2 };
/* PCML_FOUND_MET: with the row that is told. ALONE: committed alone by this call. ALREADY: committed by another before.
 * LEFT: it waits, and whoever offers to meet it later finds it. AGAIN: another row was claimed for a moment: call again. */
enum pcml_found { PCML_FOUND_MET = 0, PCML_FOUND_ALONE = 1, PCML_FOUND_ALREADY = 2, PCML_FOUND_LEFT = 3, PCML_FOUND_AGAIN = 4 };

/* TABLES. 1 to 64 threads, 1 to 1024 rows each, 1 to 16 passes. Thread t waits to be started (pcml_start) where bit t of
 * `later` is set. Where it is refused, no pass changes; else what the passes kept before goes. */
uint32_t pcml_cells_new(uint32_t threads, uint32_t rows, uint64_t later, pcml_pass *passes, size_t count);
/* The same of rows that have room for `offers` offers, 1 to 8, where those of pcml_cells_new have room for 8: a row takes
 * 16 bytes, and 32 for each. So the table begins and ends the faster. */
uint32_t pcml_cells_new_short(uint32_t threads, uint32_t rows, uint32_t offers, uint64_t later, pcml_pass *passes,
                              size_t count);
/* The pass goes, and is empty. The last one takes the table with it. */
void pcml_pass_free(pcml_pass *pass);
/* Ends the table by its last pass, which keeps the ledger from then on. It needs no memory. */
uint32_t pcml_close(pcml_pass *pass);
/* Of a closed table: its commits in order of their stamps, as many as there is room for, and how many there are. Where
 * memory is refused, call it again. PCML_SHARED where the table has not ended. */
uint32_t pcml_commits(pcml_pass *pass, pcml_commit *commits, size_t room, size_t *count);

/* ROWS. pcml_holds answers true too for the row behind the last one of a thread, where the pass took that. */
bool pcml_holds(pcml_pass *pass, pcml_row row);
/* The offers of a held row that is not opened, in place of those that were drafted before. PCML_RANGE where there are more
 * than a row of the table has room for. */
uint32_t pcml_draft(pcml_pass *pass, pcml_row row, const pcml_offer *offers, size_t count);
/* Binds nack 0 to 63 of the row's thread to the row and its scope 0 to 3. 0 bound, 1 it was bound before. */
uint32_t pcml_bind(pcml_pass *pass, uint32_t nack, pcml_row row, uint32_t scope);
uint32_t pcml_open(pcml_pass *pass, pcml_row row);
uint32_t pcml_look(pcml_pass *pass, pcml_row row);                                   /* enum pcml_cell_state */
uint32_t pcml_joined_of(pcml_pass *pass, pcml_row row, pcml_joined *joined);         /* the same, and how it was committed */
uint32_t pcml_course(pcml_pass *pass, uint32_t thread);                              /* enum pcml_course_state */
uint32_t pcml_bound(pcml_pass *pass, uint32_t nack, pcml_row *row, uint32_t *scope); /* 0 bound there, 1 not bound */
uint32_t pcml_offer_of(pcml_pass *pass, pcml_row row, uint32_t number, pcml_offer *offer); /* 0 told, 1 none, or not opened */
/* What the thread of a committed row gets: what it received, or the message of its always. 0 told, 1 not committed. */
uint32_t pcml_result(pcml_pass *pass, pcml_row row, pcml_message *message);
uint32_t pcml_answer(pcml_pass *pass, pcml_row row, pcml_joined *joined, pcml_message *message); /* both in one call */

/* COMMITS. The row of an attempt and of a search is held and opened; that of the others may be held by any pass. */
uint32_t pcml_attempt(pcml_pass *pass, pcml_row mine, uint32_t own, pcml_row other, uint32_t partner);
/* Commits the row alone by this offer: an always, an enabled nack, the end of a thread that has ended. */
uint32_t pcml_grant(pcml_pass *pass, pcml_row row, uint32_t offer);
/* Looks for a row that this one can meet, and where `alone` is true for an offer that commits it alone; else such an offer
 * is left to pcml_grant. Of two rows whose offers meet, not both are left. `met` may not be null. */
uint32_t pcml_search(pcml_pass *pass, pcml_row row, bool alone, pcml_row *met);      /* enum pcml_found */
/* The same, but the newest row of thread `first` is tried before all others, by each offer of this row. So another one is
 * met only where that one was committed, does not fit, or was claimed for a moment. PCML_NO_THREAD, a thread that the table
 * has not, and the row's own are no wish. */
#define PCML_NO_THREAD UINT32_MAX
uint32_t pcml_search_from(pcml_pass *pass, pcml_row row, uint32_t first, bool alone, pcml_row *met); /* enum pcml_found */
/* Tries pcml_grant with each offer of the row: for those who wait for a nack or an end that has come. */
uint32_t pcml_wake(pcml_pass *pass, pcml_row row);                                   /* enum pcml_found */
uint32_t pcml_take(pcml_pass *pass, pcml_row row);                                   /* 0 taken, 1 not committed, or taken before */
/* Takes the row before, where the pass does not hold this one yet, drafts, opens and searches. */
uint32_t pcml_begin(pcml_pass *pass, pcml_row row, const pcml_offer *offers, size_t count, bool alone,
                    pcml_row *met);                                                  /* enum pcml_found */
uint32_t pcml_begin_from(pcml_pass *pass, pcml_row row, const pcml_offer *offers, size_t count, uint32_t first, bool alone,
                         pcml_row *met);                                             /* enum pcml_found */

/* LIVES. Starts a thread of the table's mask `later` from a held row of another thread that is not opened. */
uint32_t pcml_start(pcml_pass *pass, pcml_row row, uint32_t thread);                 /* 0 started, 1 it had started before */
/* Ends the thread of a held row that is not opened. */
uint32_t pcml_finish(pcml_pass *pass, pcml_row row);

#ifdef __cplusplus
}
#endif
#ifdef PCML_CHECK_USE
#include "pcml_cells_checked.h"
#endif
#endif
