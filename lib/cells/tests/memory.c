/* Memory refused at each request in turn: nothing is lost, and the call made again succeeds. Linked with
 * -Wl,--wrap=malloc,--wrap=realloc. */
#include "pcml_cells.h"
#include <stdio.h>
#include <stdlib.h>

void *__real_malloc(size_t size);
void *__real_realloc(void *at, size_t size);
static long left = -1; /* so many requests are granted yet; -1: all */
static bool granted(void) { return left < 0 || left-- > 0; }
void *__wrap_malloc(size_t size) { return granted() ? __real_malloc(size) : 0; }
void *__wrap_realloc(void *at, size_t size) { return granted() ? __real_realloc(at, size) : 0; }

static pcml_pass passes[3];
static pcml_commit commits[16];

/* A rendezvous between the first two threads, by whichever passes hold them. */
static void meet(uint32_t sync) {
    pcml_offer send = {PCML_SEND, 0, 0, {0}}, recv = {PCML_RECV, 0, 0, {0}};
    pcml_row other;
    left = 0; /* none of these takes memory */
    if (pcml_begin(&passes[0], (pcml_row){0, sync}, &send, 1, true, &other) != PCML_FOUND_LEFT) abort();
    if (pcml_begin(&passes[1], (pcml_row){1, sync}, &recv, 1, true, &other) != PCML_FOUND_MET) abort();
    left = -1;
}

int main(void) {
    long begun = 0, listed = 0;
    /* what the passes kept stays, until a table is there */
    if (pcml_cells_new(2, 4, 0, passes, 2)) return 1;
    meet(0);
    for (;; begun++) {
        void *kept[3] = {passes[0].at, passes[1].at, passes[2].at};
        left = begun;
        uint32_t answer = pcml_cells_new(3, 4, 0, passes, 3);
        left = -1;
        if (answer == PCML_OK) break;
        if (answer != PCML_MEMORY) return 2;
        for (int p = 0; p < 3; p++) if (passes[p].at != kept[p]) return 3;
        if (pcml_look(&passes[0], (pcml_row){0, 0}) != PCML_CELL_SYNCHED) return 4;
    }
    for (uint32_t g = 0; g < 4; g++) meet(g);
    left = 0;
    if (pcml_close(&passes[0]) != PCML_SHARED || pcml_look(&passes[0], (pcml_row){0, 0}) < PCML_CELL_SYNCHED) return 5;
    pcml_pass_free(&passes[1]), pcml_pass_free(&passes[2]);
    if (pcml_close(&passes[0])) return 6; /* it needs no memory */
    for (size_t n = 77;; listed++) {
        left = listed;
        uint32_t answer = pcml_commits(&passes[0], commits, 16, &n);
        left = -1;
        if (answer == PCML_OK) {
            if (n != 4 || commits[3].stamp != 4) return 7;
            break;
        }
        if (answer != PCML_MEMORY || n != 77) return 8;
    }
    pcml_pass_free(&passes[0]);
    printf("a table asked for memory %ld times, a list %ld times; nothing was lost\n", begun, listed);
    return begun < 5 || listed < 1;
}
