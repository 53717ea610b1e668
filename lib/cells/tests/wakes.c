/* No wake is lost: one thread waits for a nack or to receive, one enables the nack and wakes, one sends. Whatever the order,
 * once all have done their calls the first is committed.
 *   wakes ROUNDS */
#define _POSIX_C_SOURCE 200809L
#include "pcml_cells.h"
#include <pthread.h>
#include <stdio.h>
#include <stdlib.h>

enum { ROWS = 64 }; /* a thread has 64 nacks a table */
static pcml_pass passes[3];
static pthread_barrier_t gate;
static long rounds, nacked, received, again, lost;

static uint32_t searched(pcml_pass *pass, pcml_row row, uint32_t came) {
    pcml_row other;
    while (came == PCML_FOUND_AGAIN) came = pcml_search(pass, row, true, &other);
    if (came > PCML_FOUND_AGAIN) abort();
    return came;
}

static void wait_for_either(pcml_row row) {
    pcml_offer two[2] = {{PCML_ON_NACK, PCML_NACK_OF(1, row.sync), 0, {0, {{0, 0}}}}, {PCML_RECV, 0, 0, {0, {{0, 0}}}}};
    pcml_row other;
    searched(&passes[0], row, pcml_begin(&passes[0], row, two, 2, true, &other));
}

/* Commits a row that encloses nothing, so that its nack is enabled, and wakes row g of thread 0. */
static void enable(pcml_row row) {
    pcml_offer always = {PCML_ALWAYS, 0, 0, {0, {{0, 0}}}};
    pcml_row other;
    if (row.sync > 0 && pcml_take(&passes[1], (pcml_row){1, row.sync - 1})) abort();
    if (pcml_bind(&passes[1], row.sync, row, 0)) abort();
    if (pcml_begin(&passes[1], row, &always, 1, true, &other) != PCML_FOUND_ALONE) abort();
    uint32_t came;
    while ((came = pcml_wake(&passes[1], (pcml_row){0, row.sync})) == PCML_FOUND_AGAIN) again++;
    if (came > PCML_FOUND_AGAIN) abort();
}

/* Offers to send, in a row that stays until it is met. */
static void offer_to_send(uint32_t *sync, bool *opened) {
    pcml_row row = {2, *sync}, other;
    pcml_offer send = {PCML_SEND, 0, 0, {0, {{0, 0}}}};
    uint32_t came = *opened ? pcml_search(&passes[2], row, true, &other) : pcml_begin(&passes[2], row, &send, 1, true, &other);
    *opened = searched(&passes[2], row, came) == PCML_FOUND_LEFT;
    if (!*opened) ++*sync;
}

static void judge(pcml_row row) {
    pcml_joined joined;
    if (pcml_joined_of(&passes[0], row, &joined) != PCML_CELL_SYNCHED) lost++;
    else if (joined.own == 0) nacked++;
    else received++;
}

static void *play(void *number) {
    uint32_t t = (uint32_t)(size_t)number, sync = 0;
    bool opened = false;
    for (long r = 0; r < rounds && lost == 0; r++) {
        uint32_t g = (uint32_t)(r % ROWS);
        pthread_barrier_wait(&gate);
        if (g == 0 && t == 0 && pcml_cells_new(3, ROWS, 0, passes, 3)) abort();
        if (g == 0) sync = 0, opened = false;
        pthread_barrier_wait(&gate);
        if (t == 0) wait_for_either((pcml_row){0, g});
        else if (t == 1) enable((pcml_row){1, g});
        else offer_to_send(&sync, &opened);
        pthread_barrier_wait(&gate);
        if (t == 0) judge((pcml_row){0, g});
        pthread_barrier_wait(&gate);
    }
    return 0;
}

int main(int count, char **words) {
    rounds = count > 1 ? atol(words[1]) : 20000;
    pthread_t all[3];
    if (pthread_barrier_init(&gate, 0, 3)) return 2;
    for (size_t t = 0; t < 3; t++) pthread_create(&all[t], 0, play, (void *)t);
    for (size_t t = 0; t < 3; t++) pthread_join(all[t], 0);
    for (size_t t = 0; t < 3; t++) pcml_pass_free(&passes[t]);
    printf("%ld rounds: %ld by the nack, %ld by a sender, woken again %ld; lost %ld\n", rounds, nacked, received, again, lost);
    return lost != 0;
}
