/* A server that lives longer than a table: threads of the system meet for as long as one likes, though a table has 1,024
 * syncs for each thread. When a thread has spent its rows, all of them gather: the table ends, the next one begins, and
 * whoever waited begins anew there. The longest pause is told.
 *   turns PAIRS ROUNDS [ROWS]
 */
#define _POSIX_C_SOURCE 200809L
#include "pcml_cells.h"
#include <pthread.h>
#include <stdio.h>
#include <stdlib.h>
#include <time.h>

enum { MOST = 16 };
static uint32_t threads, rows;
static int rounds;
static pcml_pass passes[MOST]; /* pass t holds the rows of thread t */
static struct { pthread_mutex_t lock; pthread_cond_t news; bool told; } bells[MOST];
static struct { pcml_row row; bool open, met; pcml_message message; } places[MOST]; /* where each thread stands */

/* THE GATHERING */
static pthread_mutex_t lock = PTHREAD_MUTEX_INITIALIZER;
static pthread_cond_t news = PTHREAD_COND_INITIALIZER;
static bool turning;
static uint32_t gathered, at_work;
static unsigned long tables, commits;
static double longest, began;

static double seconds(void) {
    struct timespec t;
    clock_gettime(CLOCK_MONOTONIC, &t);
    return (double)t.tv_sec + (double)t.tv_nsec * 1e-9;
}

static void ring(uint32_t t) {
    pthread_mutex_lock(&bells[t].lock);
    bells[t].told = true;
    pthread_cond_signal(&bells[t].news);
    pthread_mutex_unlock(&bells[t].lock);
}

static void wait_for_bell(uint32_t t) {
    pthread_mutex_lock(&bells[t].lock);
    while (!bells[t].told) pthread_cond_wait(&bells[t].news, &bells[t].lock);
    bells[t].told = false;
    pthread_mutex_unlock(&bells[t].lock);
}

/* The last one that gathers, under the lock: all passes are at rest, so no row is committed any more. Whose row was, gets
 * what came by it before the table ends. */
static void next_table(void) {
    size_t count;
    static pcml_commit none[1];
    pcml_joined joined;
    for (uint32_t t = 0; t < threads; t++) places[t].met = places[t].open && pcml_answer(&passes[t], places[t].row, &joined, &places[t].message) == 0;
    for (uint32_t t = 1; t < threads; t++) pcml_pass_free(&passes[t]);
    if (pcml_close(&passes[0]) || pcml_commits(&passes[0], none, 0, &count)) abort(); /* here a journal would be read */
    commits += count;
    if (pcml_cells_new_short(threads, rows, 1, 0, passes, threads)) abort();
    tables++, gathered = 0, turning = false;
    double pause = seconds() - began;
    if (pause > longest) longest = pause;
    pthread_cond_broadcast(&news);
}

static bool is_turning(void) {
    pthread_mutex_lock(&lock);
    bool is = turning;
    pthread_mutex_unlock(&lock);
    return is;
}

/* All passes come to rest here. A thread that will sleep long in a call of the system leaves first (leave), and so does
 * one that ends. */
static void gather(void) {
    pthread_mutex_lock(&lock);
    if (!turning) {
        turning = true, began = seconds();
        for (uint32_t t = 0; t < threads; t++) ring(t);
    }
    unsigned long table = tables;
    if (++gathered == at_work) next_table();
    while (tables == table) pthread_cond_wait(&news, &lock);
    pthread_mutex_unlock(&lock);
}

static void leave(void) {
    pthread_mutex_lock(&lock);
    at_work--;
    if (turning && gathered == at_work && at_work > 0) next_table();
    pthread_mutex_unlock(&lock);
}

/* A SYNC, in whichever table: what the thread gets. */
static pcml_message sync_on(uint32_t t, uint32_t *row, const pcml_offer *offers, size_t count) {
    pcml_message message;
    pcml_joined joined;
    for (;; *row = 0) {
        if (*row == rows || is_turning()) gather(), *row = 0;
        pcml_row mine = {t, *row}, other;
        uint32_t came = pcml_begin(&passes[t], mine, offers, count, true, &other);
        while (came == PCML_FOUND_AGAIN) came = pcml_search(&passes[t], mine, true, &other);
        if (came > PCML_FOUND_AGAIN) abort();
        if (came == PCML_FOUND_MET) ring(other.thread);
        while (pcml_look(&passes[t], mine) < PCML_CELL_SYNCHED && !is_turning()) wait_for_bell(t);
        if (pcml_answer(&passes[t], mine, &joined, &message) == 0) {
            ++*row; /* the next pcml_begin takes this one */
            return message;
        }
        places[t].row = mine, places[t].open = true;
        gather();
        places[t].open = false;
        if (places[t].met) return *row = 0, places[t].message;
    } /* nobody came: it begins anew in the next table */
}

static void *play(void *number) {
    uint32_t t = (uint32_t)(size_t)number, row = 0;
    uint64_t sum = 0;
    for (int r = 0; r < rounds; r++) {
        pcml_offer o = {t % 2 ? PCML_RECV : PCML_SEND, t / 2, 0, {1, {{PCML_NUMBER, (uint32_t)r}}}};
        pcml_message m = sync_on(t, &row, &o, 1);
        if (t % 2) sum += m.atoms[0].value;
    }
    leave();
    if (t % 2 && sum != (uint64_t)rounds * (uint64_t)(rounds - 1) / 2) abort();
    return 0;
}

int main(int count, char **words) {
    threads = 2 * (count > 1 ? (uint32_t)atoi(words[1]) : 2), rounds = count > 2 ? atoi(words[2]) : 20000, rows = count > 3 ? (uint32_t)atoi(words[3]) : 1024;
    if (threads < 2 || threads > MOST || pcml_cells_new_short(threads, rows, 1, 0, passes, threads)) return 2;
    at_work = threads;
    pthread_t all[MOST];
    double start = seconds();
    for (uint32_t t = 0; t < threads; t++) pthread_mutex_init(&bells[t].lock, 0), pthread_cond_init(&bells[t].news, 0);
    for (size_t t = 0; t < threads; t++) pthread_create(&all[t], 0, play, (void *)t);
    for (size_t t = 0; t < threads; t++) pthread_join(all[t], 0);
    double took = seconds() - start;
    size_t last;
    for (uint32_t t = 1; t < threads; t++) pcml_pass_free(&passes[t]);
    if (pcml_close(&passes[0]) || pcml_commits(&passes[0], 0, 0, &last)) return 3;
    pcml_pass_free(&passes[0]);
    commits += last;
    printf("%u threads, %d rounds each: %lu commits, all of two\n", threads, rounds, commits);
    fprintf(stderr, "%lu tables, longest pause %.3f ms, %.0f ns a commit\n", tables + 1, longest * 1e3, took * 1e9 / (double)commits);
    return commits != (unsigned long)threads / 2 * (unsigned long)rounds;
}
