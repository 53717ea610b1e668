/* With PCML_CHECK_USE a second call on a pass that is in a call answers PCML_IN_USE, and changes nothing: seen by a pass
 * that is marked by hand, and by two threads that use one pass at once. */
#define _POSIX_C_SOURCE 200809L
#define PCML_CHECK_USE
#include "pcml_cells.h"
#include <pthread.h>
#include <stdatomic.h>
#include <stdio.h>
#include <stdlib.h>

static pcml_pass pass = PCML_PASS_INIT;
static atomic_long refused;

static void *look(void *unused) {
    (void)unused;
    for (int k = 0; k < 20000000 && refused == 0; k++) {
        uint32_t answer = pcml_look(&pass, (pcml_row){0, 0});
        if (answer == PCML_IN_USE) atomic_fetch_add(&refused, 1);
        else if (answer != PCML_CELL_FRESH) abort();
    }
    return 0;
}

int main(void) {
    if (pcml_cells_new(1, 1, 0, &pass, 1)) return 1;
    pcml_pass taken;
    if (!pcml_enter(&pass, &taken)) return 2;
    if (pcml_look(&pass, (pcml_row){0, 0}) != PCML_IN_USE || pcml_close(&pass) != PCML_IN_USE) return 3;
    pcml_leave(&pass, &taken);
    pthread_t two[2];
    for (int k = 0; k < 2; k++) pthread_create(&two[k], 0, look, 0);
    for (int k = 0; k < 2; k++) pthread_join(two[k], 0);
    if (pcml_close(&pass)) return 4;
    pcml_pass_free(&pass);
    printf("told of two at once: %s\n", refused > 0 ? "yes" : "no, they did not overlap");
    return 0;
}
