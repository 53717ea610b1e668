#define _POSIX_C_SOURCE 200809L
// PAIRS ROUNDS: an unbuffered channel by a mutex and condition variables; pairs of threads, each on a channel of its own.
#include <pthread.h>
#include <stdint.h>
#include <stdio.h>
#include <stdlib.h>
#include <time.h>
typedef struct { pthread_mutex_t m; pthread_cond_t c; int full, wanted; uint64_t v; char pad[64]; } chan;
static void csend(chan *k, uint64_t v) {
    pthread_mutex_lock(&k->m);
    while (k->full) pthread_cond_wait(&k->c, &k->m);
    k->v = v; k->full = 1; pthread_cond_broadcast(&k->c);
    while (k->full) pthread_cond_wait(&k->c, &k->m);
    pthread_mutex_unlock(&k->m);
}
static uint64_t crecv(chan *k) {
    pthread_mutex_lock(&k->m);
    while (!k->full) pthread_cond_wait(&k->c, &k->m);
    uint64_t v = k->v; k->full = 0; pthread_cond_broadcast(&k->c);
    pthread_mutex_unlock(&k->m);
    return v;
}
static long N;
static void *tx(void *p) { for (long i = 0; i < N; i++) csend(p, (uint64_t)i); return 0; }
static void *rx(void *p) { uint64_t s = 0; for (long i = 0; i < N; i++) s += crecv(p); return (void *)s; }
int main(int c, char **a) {
    (void)c;
    int pairs = atoi(a[1]); N = atol(a[2]);
    chan *ks = calloc((size_t)pairs, sizeof *ks); pthread_t t[64];
    struct timespec s, e; clock_gettime(CLOCK_MONOTONIC, &s);
    for (int i = 0; i < pairs; i++) { pthread_mutex_init(&ks[i].m, 0); pthread_cond_init(&ks[i].c, 0); pthread_create(&t[2*i], 0, tx, &ks[i]); pthread_create(&t[2*i+1], 0, rx, &ks[i]); }
    for (int i = 0; i < 2 * pairs; i++) pthread_join(t[i], 0);
    clock_gettime(CLOCK_MONOTONIC, &e);
    double ns = (double)(e.tv_sec - s.tv_sec) * 1e9 + (double)(e.tv_nsec - s.tv_nsec);
    printf("%.0f\n", ns / ((double)N * pairs));
}
