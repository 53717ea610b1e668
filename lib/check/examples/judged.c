/* A test of a channel that is none of ours: its threads write what they did as a journal, and have it judged. */
#include <pcml_check.h>
#include <pthread.h>
#include <stdio.h>
#include <string.h>

static const char SCRIPT[] = "channel c;\n"
                             "process producer { let i = 1; loop 3 { sync send c (i); let i = i + 1; } }\n"
                             "process consumer { loop 3 { x <- sync recv c; print x; } }\n";

static pthread_mutex_t lock = PTHREAD_MUTEX_INITIALIZER;
static pthread_cond_t moved = PTHREAD_COND_INITIALIZER;
static int slot, full;
static char journal[1024];
static size_t used;

static void *produce(void *unused) {
    for (int i = 0; i < 3; i++) {
        pthread_mutex_lock(&lock);
        slot = i + 1, full = 1;
        pthread_cond_broadcast(&moved);
        while (full) pthread_cond_wait(&moved, &lock); /* a rendezvous: the sender waits for the receiver */
        pthread_mutex_unlock(&lock);
    }
    return unused;
}

static void *consume(void *unused) {
    for (int i = 0; i < 3; i++) {
        pthread_mutex_lock(&lock);
        while (!full) pthread_cond_wait(&moved, &lock);
        used += snprintf(journal + used, sizeof journal - used, "%d producer.%d.0 -> consumer.%d.0 c (%d)\n", i + 1, i, i, slot);
        full = 0;
        pthread_cond_broadcast(&moved);
        pthread_mutex_unlock(&lock);
    }
    return unused;
}

int main(void) {
    pthread_t threads[2];
    pthread_create(&threads[0], NULL, produce, NULL);
    pthread_create(&threads[1], NULL, consume, NULL);
    for (int i = 0; i < 2; i++) pthread_join(threads[i], NULL);

    char text[1024];
    pcml_check_answer answer = pcml_check_journal(SCRIPT, strlen(SCRIPT), journal, used, 256, text, sizeof text);
    fputs(text, stdout);
    return answer.code != PCML_DONE;
}
