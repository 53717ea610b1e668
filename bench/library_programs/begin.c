/* THREADS ROWS OFFERS: microseconds that a table of rows with room for so many offers takes to begin, and to end with its
 * commits told; the least of 15. Each thread commits all its rows by an always. */
#define _POSIX_C_SOURCE 200809L
#include "pcml_cells.h"
#include <stdio.h>
#include <stdlib.h>
#include <time.h>
static double now(void) {
    struct timespec t;
    clock_gettime(CLOCK_MONOTONIC, &t);
    return (double)t.tv_sec * 1e6 + (double)t.tv_nsec * 1e-3;
}
int main(int count, char **words) {
    uint32_t threads = count > 1 ? (uint32_t)atoi(words[1]) : 2, rows = count > 2 ? (uint32_t)atoi(words[2]) : 1024, offers = count > 3 ? (uint32_t)atoi(words[3]) : 8;
    pcml_commit *commits = malloc(sizeof *commits * threads * rows);
    double begun = 1e12, ended = 1e12;
    for (int k = 0; k < 15; k++) {
        pcml_pass p = PCML_PASS_INIT;
        double a = now();
        if (pcml_cells_new_short(threads, rows, offers, 0, &p, 1)) return 1;
        double b = now();
        for (uint32_t g = 0; g < rows; g++)
            for (uint32_t t = 0; t < threads; t++) {
                pcml_offer o = {PCML_ALWAYS, 0, 0, {0, {{0, 0}}}};
                pcml_row met;
                if (pcml_begin(&p, (pcml_row){t, g}, &o, 1, true, &met) != PCML_FOUND_ALONE) return 2;
            }
        size_t n;
        double c = now();
        if (pcml_close(&p) || pcml_commits(&p, commits, (size_t)threads * rows, &n) || n != (size_t)threads * rows) return 3;
        double d = now();
        pcml_pass_free(&p);
        if (b - a < begun) begun = b - a;
        if (d - c < ended) ended = d - c;
    }
    printf("%.0f %.0f\n", begun, ended);
}
