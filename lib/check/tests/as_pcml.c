/* Answers calls of the program by the library: check, why FILE, replay, outcomes and chart, with the options that the
   library takes. Other words are left, with status 99. Streams and status are those of the program. */
#include "pcml_check.h"

#include <errno.h>
#include <stdio.h>
#include <stdlib.h>
#include <string.h>

static char *files[2];
static size_t lengths[2];
static int named;
static uint32_t rows = 0, seasons = 1, limit = 1048576, from = 1, to = UINT32_MAX, form = PCML_SVG;
static const char *need = "", *only = "", *left = NULL, *never = NULL;
static int faults = 0;

static int tell_memory(void) { return fprintf(stderr, "fault 1\n"), 1; }

static int read_file(const char *name) {
    FILE *file = fopen(name, "rb");
    if (file == NULL && errno == ENOMEM) return exit(tell_memory()), 0;
    if (named == 2 || file == NULL) return 0;
    char *bytes = NULL;
    size_t len = 0, got;
    do {
        char *more = realloc(bytes, len + 65536);
        if (more == NULL) return exit(tell_memory()), 0;
        bytes = more;
        got = fread(bytes + len, 1, 65536, file);
        len += got;
    } while (got != 0);
    fclose(file);
    files[named] = bytes;
    lengths[named++] = len;
    return 1;
}

static int read_words(int count, char **words) {
    for (int i = 0; i < count; i++) {
        const char *value = i + 1 < count ? words[i + 1] : "";
        if (!strcmp(words[i], "--rows")) rows = strtoul(value, NULL, 10), i++;
        else if (!strcmp(words[i], "--seasons")) seasons = strtoul(value, NULL, 10), i++;
        else if (!strcmp(words[i], "--limit")) limit = strtoul(value, NULL, 10), i++;
        else if (!strcmp(words[i], "--from")) from = strtoul(value, NULL, 10), i++;
        else if (!strcmp(words[i], "--to")) to = strtoul(value, NULL, 10), i++;
        else if (!strcmp(words[i], "--need")) need = value, i++;
        else if (!strcmp(words[i], "--only")) only = value, i++;
        else if (!strcmp(words[i], "--left")) left = value, i++;
        else if (!strcmp(words[i], "--never")) never = value, i++;
        else if (!strcmp(words[i], "--faults")) faults = 1;
        else if (!strcmp(words[i], "--as")) form = strcmp(value, "mermaid") ? PCML_SVG : PCML_MERMAID, i++;
        else if (words[i][0] == '-' || !read_file(words[i])) return 0;
    }
    return 1;
}

static pcml_check_answer ask_outcomes(char *text, size_t room) {
    if (left) return pcml_left(files[0], lengths[0], limit, left, strlen(left), text, room);
    if (never) return pcml_never(files[0], lengths[0], limit, never, strlen(never), text, room);
    if (faults) return pcml_faults(files[0], lengths[0], limit, text, room);
    return pcml_outcomes(files[0], lengths[0], rows, limit, need, strlen(need), only, strlen(only), text, room);
}

static pcml_check_answer ask(const char *command, char *text, size_t room) {
    uint32_t all = (rows ? rows : 256) * seasons;
    if (!strcmp(command, "check")) return pcml_check(files[0], lengths[0], text, room);
    if (!strcmp(command, "why")) return pcml_why_script(files[0], lengths[0], text, room);
    if (!strcmp(command, "replay")) return pcml_check_journal(files[0], lengths[0], files[1], lengths[1], all, text, room);
    if (!strcmp(command, "outcomes")) return ask_outcomes(text, room);
    return pcml_chart(files[0], lengths[0], files[1], lengths[1], all, only, strlen(only), from, to, form, text, room);
}

/* What the program tells on its error stream of a refusal; the status. */
static int refuse(pcml_check_answer a, const char *text) {
    if (a.code == PCML_NO_PROCESS) return fprintf(stderr, "error: no process is named '%s'\n", text), 2;
    if (a.code == PCML_NO_PRINT) return fprintf(stderr, "error: '%s' is no process's name, = and a value as print writes it\n", text), 2;
    if (a.code != PCML_BAD_SCRIPT && a.code != PCML_BAD_JOURNAL) return 99;
    if (a.line == 0) return fprintf(stderr, "fault %u\n", a.fault), 1;
    return fprintf(stderr, "fault %u line %zu\n", a.fault, a.line), 1;
}

/* Prints the answer as the program does; the status. */
static int answer(const char *command, pcml_check_answer a, const char *text) {
    if (a.code >= PCML_OUT_OF_MEMORY) return refuse(a, text);
    if (a.code == PCML_UNLAWFUL && !strcmp(command, "chart")) return fprintf(stderr, "unlawful at line %zu\n", a.line), 1;
    fwrite(text, 1, a.text_len, stdout);
    if (a.code == PCML_STUCK || a.code == PCML_STRANDED || a.code == PCML_FOUND) return 3;
    return a.code != PCML_DONE && !(a.code == PCML_OPEN && !strcmp(command, "replay"));
}

int main(int count, char **words) {
    static const struct { const char *name; int files; } COMMANDS[] = {{"check", 1}, {"why", 1}, {"replay", 2}, {"outcomes", 1}, {"chart", 2}};
    int wanted = 0;
    for (size_t i = 0; i < sizeof COMMANDS / sizeof *COMMANDS; i++)
        if (count > 1 && !strcmp(words[1], COMMANDS[i].name)) wanted = COMMANDS[i].files;
    if (wanted == 0 || !read_words(count - 2, words + 2) || named != wanted) return 99;
    char first[256];
    pcml_check_answer a = ask(words[1], first, sizeof first);
    if (a.code == PCML_OUT_OF_MEMORY) return tell_memory();
    char *text = malloc(a.text_len + 1);
    if (text == NULL) return tell_memory();
    pcml_check_answer again = ask(words[1], text, a.text_len + 1);
    if (again.code == PCML_OUT_OF_MEMORY) return tell_memory();
    if (memcmp(&a, &again, sizeof a)) return 98;
    int status = answer(words[1], a, text);
    free(text);
    for (int i = 0; i < named; i++) free(files[i]);
    return status;
}
