/* Threads that each offer to send and to receive, and search for one another at once: no row is in two commits, each
 * message is what its sender offered, and none is lost. Tables follow one another.
 *   crossing TABLES */
#define _POSIX_C_SOURCE 200809L
#include "pcml_cells.h"
#include <pthread.h>
#include <sched.h>
#include <stdatomic.h>
#include <stdio.h>
#include <stdlib.h>
#include <string.h>

enum { THREADS = 4, ROWS = 1024 };
static pcml_pass passes[THREADS];
static atomic_int spent;
static uint64_t got[THREADS];
static uint32_t syncs[THREADS];

static uint64_t sum_of(uint32_t thread, uint32_t sync) { return ((uint64_t)thread << 32 | sync) + 1; }

/* True once the row is committed; false where others have spent their rows, so that nobody may come any more. */
static bool meet(pcml_pass *pass, pcml_row mine, const pcml_offer *both) {
    pcml_row other;
    uint32_t came = pcml_begin(pass, mine, both, 2, true, &other);
    while (came == PCML_FOUND_AGAIN) came = pcml_search(pass, mine, true, &other);
    if (came > PCML_FOUND_AGAIN) abort();
    while (pcml_look(pass, mine) < PCML_CELL_SYNCHED) {
        if (atomic_load(&spent) >= THREADS - 1) return pcml_look(pass, mine) >= PCML_CELL_SYNCHED;
        sched_yield();
    }
    return true;
}

static void *run(void *number) {
    uint32_t t = (uint32_t)(size_t)number, g = 0;
    for (; g < ROWS; g++) {
        pcml_row mine = {t, g};
        pcml_offer both[2] = {{PCML_SEND, 0, 0, {2, {{PCML_NUMBER, t}, {PCML_NUMBER, g}}}}, {PCML_RECV, 0, 0, {0}}};
        if (!meet(&passes[t], mine, both)) break;
        pcml_joined joined;
        pcml_message message;
        if (pcml_answer(&passes[t], mine, &joined, &message)) abort();
        if (joined.own == 1) got[t] += sum_of(message.atoms[0].value, message.atoms[1].value);
    }
    syncs[t] = g;
    atomic_fetch_add(&spent, 1);
    return 0;
}

static int judge(const pcml_commit *c, size_t n) {
    static unsigned char seen[THREADS][ROWS];
    uint64_t want = 0, have = 0, rows = 0;
    memset(seen, 0, sizeof seen);
    for (int t = 0; t < THREADS; t++) have += got[t], rows += syncs[t];
    for (size_t i = 0; i < n; i++) {
        if (c[i].kind || c[i].sent != 0 || c[i].received != 1 || c[i].sender.thread == c[i].receiver.thread) return 3;
        if (seen[c[i].sender.thread][c[i].sender.sync]++ || seen[c[i].receiver.thread][c[i].receiver.sync]++) return 4;
        if (c[i].message.atoms[0].value != c[i].sender.thread || c[i].message.atoms[1].value != c[i].sender.sync) return 5;
        want += sum_of(c[i].sender.thread, c[i].sender.sync);
    }
    return 2 * n == rows && want == have ? 0 : 6;
}

int main(int count, char **words) {
    int tables = count > 1 ? atoi(words[1]) : 3;
    static pcml_commit commits[THREADS * ROWS];
    size_t all = 0;
    for (int k = 0; k < tables; k++) {
        if (pcml_cells_new(THREADS, ROWS, 0, passes, THREADS)) return 1;
        memset(got, 0, sizeof got);
        spent = 0;
        pthread_t workers[THREADS];
        for (size_t t = 0; t < THREADS; t++) pthread_create(&workers[t], 0, run, (void *)t);
        for (int t = 0; t < THREADS; t++) pthread_join(workers[t], 0);
        for (int t = 1; t < THREADS; t++) pcml_pass_free(&passes[t]);
        size_t n;
        if (pcml_close(&passes[0]) || pcml_commits(&passes[0], commits, THREADS * ROWS, &n)) return 2;
        int wrong = judge(commits, n);
        if (wrong) return printf("table %d: wrong %d\n", k, wrong), wrong;
        all += n;
    }
    pcml_pass_free(&passes[0]);
    printf("%d tables, %zu commits: each of two threads, none twice, messages right\n", tables, all);
    return 0;
}
