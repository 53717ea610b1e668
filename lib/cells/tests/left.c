/* The law of the search, seen: threads that all offer to send and to receive on one channel search at once, and when all
 * searches have come to an end at most one of them is left: none of an even number. Of an odd number one is, so there
 * each round has a table of its own.
 *   left THREADS ROUNDS */
#define _POSIX_C_SOURCE 200809L
#include "pcml_cells.h"
#include <pthread.h>
#include <stdatomic.h>
#include <stdio.h>
#include <stdlib.h>

enum { MOST = 8 };
static pcml_pass passes[MOST];
static pthread_barrier_t gate;
static uint32_t threads, rows, found[MOST];
static long rounds, wrong, left, again, met;
static atomic_long searched_again;

static void judge(uint32_t sync) {
    long waiting = 0;
    for (uint32_t t = 0; t < threads; t++) {
        waiting += pcml_look(&passes[0], (pcml_row){t, sync}) == PCML_CELL_WAITING;
        left += found[t] == PCML_FOUND_LEFT, met += found[t] == PCML_FOUND_MET;
    }
    if (waiting > 1 || waiting != (long)(threads % 2)) wrong++;
}

static void *play(void *number) {
    uint32_t t = (uint32_t)(size_t)number;
    pcml_offer both[2] = {{PCML_SEND, 0, 0, {1, {{PCML_NUMBER, t}}}}, {PCML_RECV, 0, 0, {0}}};
    for (long r = 0; r < rounds; r++) {
        uint32_t sync = (uint32_t)(r % rows);
        pcml_row mine = {t, sync}, other;
        if (sync == 0) {
            pthread_barrier_wait(&gate);
            if (t == 0 && pcml_cells_new_short(threads, rows, 2, 0, passes, threads)) abort();
        }
        pthread_barrier_wait(&gate);
        /* in turn all begin with nobody, or with one thread */
        uint32_t first = r % 2 ? PCML_NO_THREAD : (uint32_t)(r / 2) % threads;
        uint32_t came = pcml_begin_from(&passes[t], mine, both, 2, first, true, &other);
        for (; came == PCML_FOUND_AGAIN; came = pcml_search_from(&passes[t], mine, first, true, &other)) atomic_fetch_add(&searched_again, 1);
        if (came > PCML_FOUND_AGAIN) abort();
        found[t] = came;
        pthread_barrier_wait(&gate);
        if (t == 0) judge(sync);
        pthread_barrier_wait(&gate);
    }
    return 0;
}

int main(int count, char **words) {
    threads = count > 1 ? (uint32_t)atoi(words[1]) : 2, rounds = count > 2 ? atol(words[2]) : 20000;
    rows = threads % 2 ? 1 : 1024;
    pthread_t all[MOST];
    if (threads < 2 || threads > MOST || pthread_barrier_init(&gate, 0, threads)) return 2;
    for (size_t t = 0; t < threads; t++) pthread_create(&all[t], 0, play, (void *)t);
    for (size_t t = 0; t < threads; t++) pthread_join(all[t], 0);
    for (size_t t = 0; t < threads; t++) pcml_pass_free(&passes[t]);
    again = searched_again;
    printf("%u threads, %ld rounds: met %ld, left at first %ld, searched again %ld; wrong %ld\n", threads, rounds, met, left, again, wrong);
    return wrong != 0;
}
