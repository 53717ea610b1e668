/* PAIRS TABLES: pairs of threads, each pair at tables of its own, 1,024 rendezvous a table. Who waits sleeps on a futex.
 * Prints ns a rendezvous, with tables. */
#define _GNU_SOURCE
#include "pcml_cells.h"
#include <linux/futex.h>
#include <pthread.h>
#include <stdatomic.h>
#include <stdio.h>
#include <stdlib.h>
#include <sys/syscall.h>
#include <time.h>
#include <unistd.h>
enum { ROWS = 1024 };
typedef struct {
    pcml_pass passes[2];
    pthread_barrier_t gate;
    _Atomic uint32_t news, asleep;
    uint64_t sum;
    char pad[128];
} pair;
static long tables;
static void tell(pair *q) {
    atomic_fetch_add(&q->news, 1);
    if (atomic_load(&q->asleep)) syscall(SYS_futex, &q->news, FUTEX_WAKE_PRIVATE, 1, 0, 0, 0);
}
static void rest(pair *q, uint32_t seen) {
    atomic_fetch_add(&q->asleep, 1);
    syscall(SYS_futex, &q->news, FUTEX_WAIT_PRIVATE, seen, 0, 0, 0);
    atomic_fetch_sub(&q->asleep, 1);
}
static void meet(pair *q, uint32_t side, uint32_t g) {
    pcml_pass *p = &q->passes[side];
    pcml_row mine = {side, g}, other;
    pcml_offer o = {side ? PCML_RECV : PCML_SEND, 0, 0, {1, {{PCML_NUMBER, g}}}};
    pcml_message m;
    pcml_joined joined;
    uint32_t came = pcml_begin(p, mine, &o, 1, true, &other);
    while (came == PCML_FOUND_AGAIN) came = pcml_search(p, mine, true, &other);
    if (came > PCML_FOUND_AGAIN) abort();
    if (came == PCML_FOUND_MET) tell(q);
    for (uint32_t seen = q->news; pcml_look(p, mine) < PCML_CELL_SYNCHED; seen = q->news) rest(q, seen);
    if (pcml_answer(p, mine, &joined, &m)) abort();
    if (side) q->sum += m.atoms[0].value;
}
static void *play(void *at) {
    pair *q = (pair *)((uintptr_t)at & ~(uintptr_t)1);
    uint32_t side = (uintptr_t)at & 1;
    for (long k = 0; k < tables; k++) {
        if (side == 0 && pcml_cells_new(2, ROWS, 0, q->passes, 2)) abort();
        pthread_barrier_wait(&q->gate);
        for (uint32_t g = 0; g < ROWS; g++) meet(q, side, g);
        pthread_barrier_wait(&q->gate);
    }
    return 0;
}
int main(int count, char **words) {
    int pairs = count > 1 ? atoi(words[1]) : 1, right = 1;
    tables = count > 2 ? atol(words[2]) : 10;
    pair *q = calloc((size_t)pairs, sizeof *q);
    pthread_t all[64];
    struct timespec s, e;
    clock_gettime(CLOCK_MONOTONIC, &s);
    for (int i = 0; i < 2 * pairs; i++) {
        if (i % 2 == 0) pthread_barrier_init(&q[i / 2].gate, 0, 2);
        pthread_create(&all[i], 0, play, (void *)((uintptr_t)&q[i / 2] | (uintptr_t)(i % 2)));
    }
    for (int i = 0; i < 2 * pairs; i++) pthread_join(all[i], 0);
    clock_gettime(CLOCK_MONOTONIC, &e);
    for (int i = 0; i < pairs; i++) right &= q[i].sum == (uint64_t)tables * (ROWS * (ROWS - 1) / 2);
    double ns = (double)(e.tv_sec - s.tv_sec) * 1e9 + (double)(e.tv_nsec - s.tv_nsec);
    if (!right) return 1;
    printf("%.0f\n", ns / ((double)pairs * (double)tables * ROWS));
}
