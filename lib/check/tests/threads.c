/* Eight threads at once on stacks of 512 kB, each with every call, over scripts as deep as they may be: all get the same
   answers, and none runs out of its stack. */
#include "pcml_check.h"

#include <pthread.h>
#include <stdio.h>
#include <string.h>

#define THREADS 8
#define TURNS 20
#define STACK (512 * 1024)
#define TEXT(text) (text), strlen(text)

static const char SCRIPT[] = "channel c; process a { sync send c (1); } process b { sync send c (2); } process d { x <- sync recv c; print x; }";
static const char JOURNAL[] = "1 a.0.0 -> d.0.0 c (1)\n";

/* Scripts with so many of the one inside one another, and of the other behind them. */
static const struct { const char *head, *open, *middle, *close, *end; int count; } DEEP[] = {
    {"process a { let x = ", "(", "1", ")", "; sync never; }", 46},
    {"process a { sync ", "choose [ ", "never", " ]", "; }", 46},
    {"process a { sync ", "wrap ", "never", " to ()", "; }", 46},
    {"process a { sync ", "guard { sync ", "never", "; } never", "; }", 23},
    {"process a { ", "if 1 = 1 { ", "sync never;", " } else { }", " }", 46},
    {"process a { ", "loop 2 { sync never; ", "", " }", " }", 45},
};
#define SCRIPTS (sizeof DEEP / sizeof *DEEP)
static char deep[SCRIPTS][4096];

static void make_deep(void) {
    for (size_t i = 0; i < SCRIPTS; i++) {
        strcpy(deep[i], DEEP[i].head);
        for (int k = 0; k < DEEP[i].count; k++) strcat(deep[i], DEEP[i].open);
        strcat(deep[i], DEEP[i].middle);
        for (int k = 0; k < DEEP[i].count; k++) strcat(deep[i], DEEP[i].close);
        strcat(deep[i], DEEP[i].end);
    }
}

/* Asks all of a script and a journal, and mixes the answers into the sum. */
static void ask_all(const char *script, const char *journal, uintptr_t *sum) {
    char text[8192];
    pcml_check_answer answers[] = {
        pcml_check(TEXT(script), text, sizeof text),
        pcml_why_script(TEXT(script), text, sizeof text),
        pcml_why_script(script, strlen(script) - 3, text, sizeof text),
        pcml_check_journal(TEXT(script), TEXT(journal), 9, text, sizeof text),
        pcml_outcomes(TEXT(script), 9, 99, TEXT("all"), "", 0, text, sizeof text),
        pcml_chart(TEXT(script), TEXT(journal), 9, "", 0, 1, 9, PCML_SVG, text, sizeof text),
    };
    for (size_t i = 0; i < sizeof answers / sizeof *answers; i++) *sum = *sum * 31 + answers[i].code * 7 + answers[i].text_len;
    if (answers[0].code != PCML_DONE) *sum = 0;
}

static void *ask(void *sum) {
    for (int turn = 0; turn < TURNS; turn++) {
        ask_all(SCRIPT, JOURNAL, sum);
        for (size_t i = 0; i < SCRIPTS; i++) ask_all(deep[i], "", sum);
    }
    return NULL;
}

int main(void) {
    pthread_t threads[THREADS];
    uintptr_t sums[THREADS] = {0};
    pthread_attr_t small;
    make_deep();
    pthread_attr_init(&small);
    pthread_attr_setstacksize(&small, STACK);
    for (int i = 0; i < THREADS; i++)
        if (pthread_create(&threads[i], &small, ask, &sums[i]) != 0) return 2;
    for (int i = 0; i < THREADS; i++) pthread_join(threads[i], NULL);
    for (int i = 0; i < THREADS; i++)
        if (sums[i] != sums[0] || sums[i] == 0) return printf("thread %d got other answers\n", i), 1;
    printf("%d threads got the same answers of %d scripts\n", THREADS, (int)SCRIPTS + 1);
    return 0;
}
