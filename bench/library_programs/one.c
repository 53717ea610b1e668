/* TABLES WAY [OFFERS]: one thread plays both sides of each rendezvous, at tables whose rows have room for so many offers
 * (8). WAY 0: draft, open, attempt, result and take, call by call; 1: begin and answer. Prints ns a rendezvous of the calls, and with the tables that begin and end. */
#define _POSIX_C_SOURCE 200809L
#include "pcml_cells.h"
#include <stdio.h>
#include <stdlib.h>
#include <time.h>
enum { ROWS = 1024 };
static double now(void) {
    struct timespec t;
    clock_gettime(CLOCK_MONOTONIC, &t);
    return (double)t.tv_sec * 1e9 + (double)t.tv_nsec;
}
static void by_calls(pcml_pass *p, pcml_row x, pcml_row y, const pcml_offer *send, const pcml_offer *recv, pcml_message *m) {
    if (pcml_draft(p, x, send, 1) | pcml_open(p, x) | pcml_draft(p, y, recv, 1) | pcml_open(p, y)) abort();
    if (pcml_attempt(p, y, 0, x, 0) != PCML_MET) abort();
    if (pcml_result(p, y, m) | pcml_take(p, x) | pcml_take(p, y)) abort();
}
static void by_two(pcml_pass *p, pcml_row x, pcml_row y, const pcml_offer *send, const pcml_offer *recv, pcml_message *m) {
    pcml_row met;
    pcml_joined joined;
    if (pcml_begin(p, x, send, 1, true, &met) != PCML_FOUND_LEFT || pcml_begin(p, y, recv, 1, true, &met) != PCML_FOUND_MET) abort();
    if (pcml_answer(p, y, &joined, m)) abort();
}
int main(int count, char **words) {
    long tables = count > 1 ? atol(words[1]) : 100, way = count > 2 ? atol(words[2]) : 0;
    uint32_t offers = count > 3 ? (uint32_t)atoi(words[3]) : 8;
    static pcml_commit commits[ROWS];
    uint64_t sum = 0;
    double start = now(), calls = 0;
    for (long k = 0; k < tables; k++) {
        pcml_pass p = PCML_PASS_INIT;
        if (pcml_cells_new_short(2, ROWS, offers, 0, &p, 1)) return 1;
        double begun = now();
        for (uint32_t g = 0; g < ROWS; g++) {
            pcml_offer send = {PCML_SEND, 0, 0, {1, {{PCML_NUMBER, g}}}}, recv = {PCML_RECV, 0, 0, {0, {{0, 0}}}};
            pcml_message m;
            (way ? by_two : by_calls)(&p, (pcml_row){0, g}, (pcml_row){1, g}, &send, &recv, &m);
            sum += m.atoms[0].value;
        }
        calls += now() - begun;
        size_t n;
        if (pcml_close(&p) || pcml_commits(&p, commits, ROWS, &n) || n != ROWS || commits[ROWS - 1].stamp != ROWS) return 2;
        pcml_pass_free(&p);
    }
    double n = (double)tables * ROWS;
    if (sum != (uint64_t)tables * (ROWS * (ROWS - 1) / 2)) return 3;
    printf("%.0f %.0f\n", calls / n, (now() - start) / n);
}
