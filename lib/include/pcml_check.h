/*
 * pcml_check: checkers for scripts of Concurrent ML's events and for journals of their runs.
 *
 * Three duties are yours, and no call can test them:
 *
 * 1. No pointer is NULL, also where its length is 0 (pass ""), each describes as many bytes as its length says, and
 *    `text` overlaps nothing else that is passed; while a call runs, nobody writes what it reads or touches `text`.
 * 2. malloc, realloc and free are of one allocator, and a block is aligned to each power of two up to 16 that divides
 *    its size, as those of the C library are.
 * 3. No call is made from a signal handler, in the child of a fork of a process with threads, or with less than 512 kB
 *    of stack left (a script as deep as it may be takes 256 kB).
 *
 * Otherwise each argument is free: what is wrong with it is answered by a code. A call keeps nothing, starts no thread
 * and waits for nobody, so any number of threads may call at once. It gives back all memory that it took.
 *
 * The texts are those of the program `pcml`, byte for byte. One is written as snprintf does it: as much as fits before
 * a NUL goes into text[0] to text[room - 1], the rest of the buffer stays as it is, and `text_len` tells the length of
 * the whole. Where text_len < room it is whole. A room of 0 writes nothing.
 *
 * Link with -lpcml_check.
 */
#ifndef PCML_CHECK_H
#define PCML_CHECK_H

#include <stddef.h>
#include <stdint.h>

/* Two digits for each of the three numbers of the version: compare it with pcml_check_version(). */
#define PCML_CHECK_VERSION 10300

#ifdef __cplusplus
extern "C" {
#endif

/* What came of a call: below 16 an answer, from 16 on a refusal. */
enum pcml_code {
    PCML_DONE = 0,           /* the script, the journal or all runs are as they should be; each call says how */
    PCML_OPEN = 1,           /* the journal is a run that goes on; or what was asked of outcomes or runs is not known */
    PCML_UNLAWFUL = 2,       /* the journal is no run: `line` is the first with which it is none */
    PCML_STUCK = 3,          /* some outcome leaves a process that has to end waiting, faulted or never started */
    PCML_NOT_A_SCRIPT = 4,   /* the text is no script, and `text` tells why */
    PCML_STRANDED = 5,       /* no outcome that was found does, but some run leads to where one can never move any more */
    PCML_FOUND = 6,          /* some run, whether it ends or not, leads to what was asked about */

    PCML_OUT_OF_MEMORY = 16, /* malloc gave none */
    PCML_BAD_SCRIPT = 17,    /* the script is none: `fault` is 11 to 16, `line` where it stands (0 for fault 16) */
    PCML_BAD_JOURNAL = 18,   /* `line` is the first that is no line of a journal; `fault` is 21 */
    PCML_BAD_ROWS = 19,      /* `rows` is out of range */
    PCML_BAD_LIMIT = 20,     /* `limit` is out of range */
    PCML_BAD_FORM = 21,      /* `form` is neither PCML_SVG nor PCML_MERMAID */
    PCML_BAD_NAMES = 22,     /* the names are not UTF-8 */
    PCML_NO_PROCESS = 23,    /* no process has a name that was given; `text` is the first such name */
    PCML_NO_PRINT = 24       /* `text`, which was given, names no process and value */
};

enum pcml_form { PCML_SVG = 0, PCML_MERMAID = 1 };

typedef struct pcml_check_answer {
    uint32_t code;   /* one of enum pcml_code */
    uint32_t fault;  /* the number that `pcml explain` knows, or 0 */
    size_t line;     /* from 1, or 0 where nothing stands at a line */
    size_t text_len; /* the length of the whole text, without its NUL */
} pcml_check_answer;

/* The version of the library that is linked. */
uint32_t pcml_check_version(void);

/*
 * Is the text a script?
 *   PCML_DONE            it is; the text is that of `pcml check`: processes 2 channels 1
 *   PCML_BAD_SCRIPT      it is not: its first fault, and the line
 *   PCML_OUT_OF_MEMORY
 */
pcml_check_answer pcml_check(const char *script, size_t script_len, char *text, size_t room);

/*
 * Why is the text no script? The text is that of `pcml why`.
 *   PCML_NOT_A_SCRIPT    its first fault, with the line, what helps, and what may stand there
 *   PCML_DONE            it is a script, and the text says so
 *   PCML_OUT_OF_MEMORY
 */
pcml_check_answer pcml_why_script(const char *script, size_t script_len, char *text, size_t room);

/*
 * Is the journal a run of the script? The text is that of `pcml replay`. A process makes at most `rows` syncs,
 * 1 to 67107840: 256 as the program has it, or its --rows times its --seasons.
 *   PCML_DONE            a run that is maximal: no commit may follow
 *   PCML_OPEN            a run, and some commit may follow
 *   PCML_UNLAWFUL        no run: `line` is the first with which it is none
 *   PCML_BAD_ROWS, PCML_BAD_SCRIPT, PCML_BAD_JOURNAL, PCML_OUT_OF_MEMORY
 * Of bad numbers, a bad script and a bad journal the first is told, here and below.
 */
pcml_check_answer pcml_check_journal(const char *script, size_t script_len, const char *journal, size_t journal_len,
                                     uint32_t rows, char *text, size_t room);

/*
 * What can the script come to? The text is that of `pcml outcomes`. A process makes at most `rows` syncs, 1 to 1024;
 * with 0, as without --rows, any number. At most `limit` configurations, or with 0 rows states, are looked at, 1 to
 * 4194304: each takes memory, and 1048576 is the program's. `need` and `only` are names of processes with commas between, or
 * all, as for --need and --only; a length of 0 gives none. An outcome is told where a process of `need` has not ended,
 * and without `need` each; outcomes that differ in no process of `only` or `need` are one. With 0 rows the last line says
 * whether every run ends. Where some go on for ever, it is told who is stranded: a process that has not ended without a
 * fault, where no way of commits leads on to one of its own, or to such an end. Who could move and is never chosen is not.
 *   PCML_DONE            with `need`: no process of it is ever stranded, or with rows each ends in every outcome; without:
 *                        always
 *   PCML_STUCK           some outcome leaves a process of `need` waiting, faulted or never started
 *   PCML_STRANDED        no outcome that was found does, but a process of `need` may be stranded (never with rows)
 *   PCML_OPEN            none of these is known: a search was cut, or a process had no sync left (never with 0 rows)
 *   PCML_BAD_ROWS, PCML_BAD_LIMIT, PCML_BAD_NAMES, PCML_BAD_SCRIPT, PCML_NO_PROCESS, PCML_OUT_OF_MEMORY
 */
pcml_check_answer pcml_outcomes(const char *script, size_t script_len, uint32_t rows, uint32_t limit,
                                const char *need, size_t need_len, const char *only, size_t only_len, char *text,
                                size_t room);

/*
 * Three questions of runs of any length, whether they end or not. Each looks at `limit` states at most, 1 to 4194304, and
 * stops at the first that answers it:
 *   PCML_DONE            no run leads there: all states were seen
 *   PCML_FOUND           some run does
 *   PCML_OPEN            not known: the search was cut
 *   PCML_BAD_LIMIT, PCML_BAD_SCRIPT, PCML_OUT_OF_MEMORY
 */

/*
 * May a process of `names` (with commas between, or all) come to where it can never end any more? The text is that of
 * `pcml outcomes --left`. Who never ends by itself is always left behind.
 *   PCML_BAD_NAMES, PCML_NO_PROCESS, and as above
 */
pcml_check_answer pcml_left(const char *script, size_t script_len, uint32_t limit, const char *names, size_t names_len,
                            char *text, size_t room);

/* May a process fault? The text is that of `pcml outcomes --faults`. */
pcml_check_answer pcml_faults(const char *script, size_t script_len, uint32_t limit, char *text, size_t room);

/*
 * May a process print a value? `print` is NAME=VALUE, with the value as `print` writes it. The text is that of
 * `pcml outcomes --never`.
 *   PCML_BAD_NAMES, PCML_NO_PRINT, and as above
 */
pcml_check_answer pcml_never(const char *script, size_t script_len, uint32_t limit, const char *print, size_t print_len,
                             char *text, size_t room);

/*
 * The journal as a chart: the text is that of `pcml chart`, of the commits with a stamp from `from` to `to`
 * (1 and UINT32_MAX for all; at most 1250 are drawn). `only` is as above: other processes share one column.
 *   PCML_DONE            it is drawn
 *   PCML_UNLAWFUL        the journal is no run: `line`, and no text
 *   PCML_BAD_ROWS, PCML_BAD_FORM, PCML_BAD_NAMES, PCML_BAD_SCRIPT, PCML_BAD_JOURNAL, PCML_NO_PROCESS, PCML_OUT_OF_MEMORY
 */
pcml_check_answer pcml_chart(const char *script, size_t script_len, const char *journal, size_t journal_len,
                             uint32_t rows, const char *only, size_t only_len, uint32_t from, uint32_t to,
                             uint32_t form, char *text, size_t room);

#ifdef __cplusplus
}
#endif

#endif
