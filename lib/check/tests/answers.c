/* Each call of pcml_check.h by hand: its codes, each field through and back, and buffers of every length from 0.
   It prints nothing but what is wrong, and how many answers were compared. */
#include "pcml_check.h"

#include <stdio.h>
#include <stdlib.h>
#include <string.h>

#define ROOM 65536
#define TEXT(text) (text), strlen(text)

static char text[ROOM];
static int compared, wrong;

static void told(int line, pcml_check_answer a, uint32_t code, uint32_t fault, size_t at, const char *whole) {
    compared++;
    if (a.code == code && a.fault == fault && a.line == at && a.text_len == strlen(whole) && !strcmp(text, whole)) return;
    printf("answers.c:%d: code %u fault %u line %zu text_len %zu\n%s", line, a.code, a.fault, a.line, a.text_len, text);
    wrong = 1;
}
#define TOLD(...) told(__LINE__, __VA_ARGS__)

static const char PAIR[] = "channel c; process a { sync send c (42); } process b { x <- sync recv c; print x; }";
static const char JOURNAL[] = "1 a.0.0 -> b.0.0 c (42)\n";
static const char CHOICE[] = "channel c; process a { sync send c (1); } process b { sync send c (2); } process d { x <- sync recv c; print x; }";
static const char LONG_RUN[] = "channel c; process a { loop 9 { sync send c (1); } } process b { loop 9 { sync recv c; } }";
static const char BESIDE[] = "channel c; process clock { forever { sync always (); } } process dead { sync send c (1); }";
static const char KEPT[] = "channel take; channel give; process lock { forever { sync recv take; sync recv give; } } process clock { forever { sync always (); } } process one { sync send take (0); sync send give (0); } process two { sync send take (0); }";

static pcml_check_answer check(const char *script) { return pcml_check(TEXT(script), text, ROOM); }
static pcml_check_answer why(const char *script) { return pcml_why_script(TEXT(script), text, ROOM); }
static pcml_check_answer judge(const char *script, const char *journal, uint32_t rows) {
    return pcml_check_journal(TEXT(script), TEXT(journal), rows, text, ROOM);
}
static pcml_check_answer outcomes(const char *script, uint32_t rows, uint32_t limit, const char *need, const char *only) {
    return pcml_outcomes(TEXT(script), rows, limit, TEXT(need), TEXT(only), text, ROOM);
}
static pcml_check_answer left_behind(const char *script, uint32_t limit, const char *names) {
    return pcml_left(TEXT(script), limit, TEXT(names), text, ROOM);
}
static pcml_check_answer faults(const char *script, uint32_t limit) { return pcml_faults(TEXT(script), limit, text, ROOM); }
static pcml_check_answer never(const char *script, uint32_t limit, const char *print) {
    return pcml_never(TEXT(script), limit, TEXT(print), text, ROOM);
}
static pcml_check_answer chart(const char *journal, uint32_t rows, const char *only, uint32_t from, uint32_t to, uint32_t form) {
    return pcml_chart(TEXT(PAIR), TEXT(journal), rows, TEXT(only), from, to, form, text, ROOM);
}

/* Each fault of a script by its number and line, by each call that reads one. */
static void scripts(void) {
    static const struct { const char *script; uint32_t fault; size_t line; } BAD[] = {
        {"process a { sync recv\n", 11, 2},
        {"process a {\nprint x; }", 12, 2},
        {"channel c;\n\nchannel c;", 13, 3},
        {"process a {\nsync choose [never, never, never, never, never, never, never, never, never];\n}", 14, 2},
        {"process a { sync never; }\nprocess b {\n\n  forever { print 1; }\n}", 15, 4},
    };
    for (size_t i = 0; i < sizeof BAD / sizeof *BAD; i++) {
        TOLD(check(BAD[i].script), PCML_BAD_SCRIPT, BAD[i].fault, BAD[i].line, "");
        TOLD(judge(BAD[i].script, JOURNAL, 256), PCML_BAD_SCRIPT, BAD[i].fault, BAD[i].line, "");
        TOLD(outcomes(BAD[i].script, 256, 9, "", ""), PCML_BAD_SCRIPT, BAD[i].fault, BAD[i].line, "");
        TOLD(pcml_chart(TEXT(BAD[i].script), TEXT(JOURNAL), 256, "", 0, 1, 9, PCML_SVG, text, ROOM), PCML_BAD_SCRIPT,
             BAD[i].fault, BAD[i].line, "");
    }
    char *large = malloc(65537);
    memset(large, ' ', 65537);
    TOLD(pcml_check(large, 65536, text, ROOM), PCML_DONE, 0, 0, "processes 0 channels 0\n");
    TOLD(pcml_check(large, 65537, text, ROOM), PCML_BAD_SCRIPT, 16, 0, "");
    TOLD(pcml_why_script(large, 65537, text, ROOM), PCML_NOT_A_SCRIPT, 0, 0, "fault 16: the text has more than 65536 bytes\n");
    free(large);
    TOLD(check(PAIR), PCML_DONE, 0, 0, "processes 2 channels 1\n");
    TOLD(check(""), PCML_DONE, 0, 0, "processes 0 channels 0\n");
    TOLD(check(CHOICE), PCML_DONE, 0, 0, "processes 3 channels 1\n");
    TOLD(why(PAIR), PCML_DONE, 0, 0, "this is a script\n");
    TOLD(why("channel"), PCML_NOT_A_SCRIPT, 0, 0,
         "fault 11 line 1 column 8: the text ends too early\nchannel\n       ^\nhere may stand: a name\n");
}

static void journals(void) {
    TOLD(judge(PAIR, JOURNAL, 256), PCML_DONE, 0, 0, "a ended\nb ended 42\nlawful 1 maximal\n");
    TOLD(judge(PAIR, "", 256), PCML_OPEN, 0, 0, "a waiting\nb waiting\nlawful 0 open\n");
    TOLD(judge(PAIR, "1 a.0.0 -> b.0.0 c (43)\n", 256), PCML_UNLAWFUL, 0, 1, "unlawful at line 1\n");
    TOLD(judge(PAIR, "1 a.0.0 -> b.0.0 c (42)\n2 a.0.0 -> b.0.0 c (42)\n", 256), PCML_UNLAWFUL, 0, 2, "unlawful at line 2\n");
    TOLD(judge(PAIR, "1 a.0.0 -> b.0.0 c (42)\n1 a.0.0 -> b", 256), PCML_BAD_JOURNAL, 21, 2, "");
    TOLD(judge(PAIR, JOURNAL, 0), PCML_BAD_ROWS, 0, 0, "");
    TOLD(judge(PAIR, JOURNAL, 67107841), PCML_BAD_ROWS, 0, 0, "");
    TOLD(judge(PAIR, JOURNAL, UINT32_MAX), PCML_BAD_ROWS, 0, 0, "");
    TOLD(judge(PAIR, JOURNAL, 67107840), PCML_DONE, 0, 0, "a ended\nb ended 42\nlawful 1 maximal\n");
    TOLD(judge(PAIR, JOURNAL, 1), PCML_DONE, 0, 0, "a ended\nb ended 42\nlawful 1 maximal\n");
    TOLD(judge(LONG_RUN, "1 a.0.0 -> b.0.0 c (1)\n2 a.1.0 -> b.1.0 c (1)\n", 1), PCML_UNLAWFUL, 0, 2, "unlawful at line 2\n");
    TOLD(judge(LONG_RUN, "1 a.0.0 -> b.0.0 c (1)\n", 1), PCML_DONE, 0, 0, "a spent\nb spent\nlawful 1 maximal\n");
    /* The lengths are those that are told, not those of the texts. */
    TOLD(pcml_check_journal(PAIR, strlen(PAIR), JOURNAL, 0, 256, text, ROOM), PCML_OPEN, 0, 0, "a waiting\nb waiting\nlawful 0 open\n");
    TOLD(pcml_check_journal(PAIR, 10, "", 0, 256, text, ROOM), PCML_DONE, 0, 0, "lawful 0 maximal\n");
}

static void found(void) {
    TOLD(outcomes(PAIR, 256, 9, "", ""), PCML_DONE, 0, 0, "outcome 1\na ended\nb ended 42\noutcomes 1 configurations 2 all\n");
    TOLD(outcomes(PAIR, 256, 9, "all", ""), PCML_DONE, 0, 0, "outcomes 0 configurations 2 all\n");
    TOLD(outcomes(CHOICE, 256, 9, "b", ""), PCML_STUCK, 0, 0,
         "outcome 1\na ended\nb waiting\nd ended 1\noutcomes 1 configurations 3 all\n");
    TOLD(outcomes(CHOICE, 256, 9, "d", "d"), PCML_DONE, 0, 0, "outcomes 0 configurations 3 all\n");
    TOLD(outcomes(CHOICE, 256, 9, "", "a"), PCML_DONE, 0, 0,
         "outcome 1\na ended\noutcome 2\na waiting\noutcomes 2 configurations 3 all\n");
    TOLD(outcomes(PAIR, 256, 1, "all", ""), PCML_OPEN, 0, 0, "outcomes 0 configurations 1 cut\n");
    TOLD(outcomes(LONG_RUN, 8, 99, "all", ""), PCML_OPEN, 0, 0,
         "outcome 1\na spent\nb spent\noutcomes 1 configurations 9 all within 8 syncs\n");
    TOLD(outcomes(LONG_RUN, 9, 99, "all", ""), PCML_DONE, 0, 0, "outcomes 0 configurations 10 all\n");
    TOLD(outcomes(PAIR, 0, 9, "", ""), PCML_DONE, 0, 0, "outcome 1\na ended\nb ended 42\noutcomes 1 states 2 all, every run ends within 1 commits\n");
    TOLD(outcomes(CHOICE, 0, 9, "b", ""), PCML_STUCK, 0, 0,
         "outcome 1\na ended\nb waiting\nd ended 1\noutcomes 1 states 3 all, every run ends within 1 commits\n");
    TOLD(outcomes(LONG_RUN, 0, 99, "all", ""), PCML_DONE, 0, 0, "outcomes 0 states 10 all, every run ends within 9 commits\n");
    TOLD(outcomes(LONG_RUN, 0, 9, "all", ""), PCML_OPEN, 0, 0, "outcomes 0 states 9 cut\n");
    TOLD(outcomes("process a { sync always (); forever { sync always (); } }", 0, 9, "a", ""), PCML_DONE, 0, 0,
         "outcomes 0 states 2 all, some runs go on for ever\n");
    /* Somebody is stranded in a run that goes on; with rows that run ends, and leaves it waiting. */
    TOLD(outcomes(BESIDE, 0, 9, "dead", ""), PCML_STRANDED, 0, 0, "stranded dead states 1\noutcomes 0 states 1 all, some runs go on for ever\n");
    TOLD(outcomes(BESIDE, 0, 9, "clock", ""), PCML_DONE, 0, 0, "outcomes 0 states 1 all, some runs go on for ever\n");
    TOLD(outcomes(BESIDE, 0, 9, "", ""), PCML_DONE, 0, 0, "stranded dead after 0 commits\noutcomes 0 states 1 all, some runs go on for ever\n");
    TOLD(outcomes(BESIDE, 2, 9, "dead", ""), PCML_STUCK, 0, 0,
         "outcome 1\nclock spent\ndead waiting\noutcomes 1 configurations 3 all within 2 syncs\n");
    TOLD(outcomes(KEPT, 0, 9, "one", ""), PCML_STRANDED, 0, 0, "stranded one states 5\noutcomes 0 states followed 1 all, some runs go on for ever\n");
    TOLD(outcomes(KEPT, 0, 4, "one", ""), PCML_STRANDED, 0, 0, "stranded one states 4\noutcomes 0 states followed 1 all, some runs go on for ever\n");
    TOLD(outcomes(KEPT, 0, 2, "one", ""), PCML_OPEN, 0, 0, "outcomes 0 states followed 1 all, some runs go on for ever\n");
    TOLD(outcomes(KEPT, 0, 9, "two", ""), PCML_DONE, 0, 0, "outcomes 0 states followed 1 all, some runs go on for ever\n");
    TOLD(outcomes(PAIR, 1025, 9, "", ""), PCML_BAD_ROWS, 0, 0, "");
    TOLD(outcomes(PAIR, 1024, 9, "all", ""), PCML_DONE, 0, 0, "outcomes 0 configurations 2 all\n");
    TOLD(outcomes(PAIR, 256, 0, "", ""), PCML_BAD_LIMIT, 0, 0, "");
    TOLD(outcomes(PAIR, 256, 4194305, "", ""), PCML_BAD_LIMIT, 0, 0, "");
    TOLD(outcomes(PAIR, 256, 4194304, "all", ""), PCML_DONE, 0, 0, "outcomes 0 configurations 2 all\n");
    TOLD(outcomes(PAIR, 256, 9, "\xff", ""), PCML_BAD_NAMES, 0, 0, "");
    TOLD(outcomes(PAIR, 256, 9, "", "a,\xff"), PCML_BAD_NAMES, 0, 0, "");
    TOLD(outcomes(PAIR, 256, 9, "nobody", "noone"), PCML_NO_PROCESS, 0, 0, "nobody");
    TOLD(outcomes(PAIR, 256, 9, "a", "a,noone,b"), PCML_NO_PROCESS, 0, 0, "noone");
    TOLD(outcomes(PAIR, 256, 9, "a,", ""), PCML_NO_PROCESS, 0, 0, "");
}

/* What some run may lead to, beside a clock that goes on for ever. */
static void questions(void) {
    static const char CLOCK[] = "process clock { forever { sync always (); } } process a { x <- sync choose [always (1), always (2)]; print x; let y = 2 - x; let z = y - 1; }";
    TOLD(never(CLOCK, 9, "a=2"), PCML_FOUND, 0, 0, "printed a 2 states 1\n");
    TOLD(never(CLOCK, 9, "a=3"), PCML_DONE, 0, 0, "never a 3 states 3 all\n");
    TOLD(never(CLOCK, 1, "a=3"), PCML_OPEN, 0, 0, "never a 3 states 1 cut\n");
    TOLD(never(CLOCK, 9, "a=03"), PCML_NO_PRINT, 0, 0, "a=03");
    TOLD(never(CLOCK, 9, "b=3"), PCML_NO_PRINT, 0, 0, "b=3");
    TOLD(never(CLOCK, 9, ""), PCML_NO_PRINT, 0, 0, "");
    TOLD(never(CLOCK, 9, "a=\xff"), PCML_BAD_NAMES, 0, 0, "");
    TOLD(never(CLOCK, 0, "b=3"), PCML_BAD_LIMIT, 0, 0, "");
    TOLD(never("process a {\nprint x; }", 9, "b=3"), PCML_BAD_SCRIPT, 12, 2, "");
    TOLD(faults(CLOCK, 9), PCML_FOUND, 0, 0, "fault a states 3\n");
    TOLD(faults(CLOCK, 1), PCML_OPEN, 0, 0, "fault unknown states 1 cut\n");
    TOLD(faults(BESIDE, 9), PCML_DONE, 0, 0, "fault none states 1 all\n");
    TOLD(faults(BESIDE, 4194304), PCML_DONE, 0, 0, "fault none states 1 all\n");
    TOLD(faults(BESIDE, 4194305), PCML_BAD_LIMIT, 0, 0, "");
    TOLD(faults("channel", 9), PCML_BAD_SCRIPT, 11, 1, "");
    TOLD(left_behind(BESIDE, 9, "dead"), PCML_FOUND, 0, 0, "left dead states 1\n");
    TOLD(left_behind(PAIR, 9, "all"), PCML_DONE, 0, 0, "left none states 2 all\n");
    TOLD(left_behind(PAIR, 1, "a,b"), PCML_OPEN, 0, 0, "left unknown states 1 cut\n");
    TOLD(left_behind(PAIR, 9, "a,nobody"), PCML_NO_PROCESS, 0, 0, "nobody");
    TOLD(left_behind(PAIR, 9, ""), PCML_NO_PROCESS, 0, 0, "");
    TOLD(left_behind(PAIR, 9, "\xff"), PCML_BAD_NAMES, 0, 0, "");
    TOLD(left_behind(PAIR, 0, "all"), PCML_BAD_LIMIT, 0, 0, "");
    TOLD(left_behind("channel", 9, "all"), PCML_BAD_SCRIPT, 11, 1, "");
}

static void charts(void) {
    TOLD(chart("1 a.0.0 -> b.0.0 c (42)\n", 0, "", 1, 9, PCML_SVG), PCML_BAD_ROWS, 0, 0, "");
    TOLD(chart(JOURNAL, 67107841, "", 1, 9, PCML_SVG), PCML_BAD_ROWS, 0, 0, "");
    TOLD(chart(JOURNAL, 256, "", 1, 9, 2), PCML_BAD_FORM, 0, 0, "");
    TOLD(chart(JOURNAL, 256, "", 1, 9, UINT32_MAX), PCML_BAD_FORM, 0, 0, "");
    TOLD(chart(JOURNAL, 256, "\xff", 1, 9, PCML_SVG), PCML_BAD_NAMES, 0, 0, "");
    TOLD(chart(JOURNAL, 256, "a,nobody", 1, 9, PCML_SVG), PCML_NO_PROCESS, 0, 0, "nobody");
    TOLD(chart("1 a.0.0 -> b.0.0 c (43)\n", 256, "", 1, 9, PCML_SVG), PCML_UNLAWFUL, 0, 1, "");
    TOLD(chart("1 a", 256, "", 1, 9, PCML_SVG), PCML_BAD_JOURNAL, 21, 1, "");
    TOLD(chart(JOURNAL, 256, "", 1, UINT32_MAX, PCML_MERMAID), PCML_DONE, 0, 0,
         "sequenceDiagram\n  title 1 of 1 commits, stamps 1 to 1\n  participant P1 as a\n  participant P2 as b\n"
         "  P1->>P2: c (42)\n  Note over P1: ended\n  Note over P2: ended 42\n");
}

/* A buffer of each length has as much of the text as fits before a NUL, and behind that what it had. */
typedef pcml_check_answer call(char *into, size_t room);
static pcml_check_answer a_script(char *into, size_t room) { return pcml_check(TEXT(PAIR), into, room); }
static pcml_check_answer a_mistake(char *into, size_t room) { return pcml_why_script(TEXT("process a { sync receive c; }"), into, room); }
static pcml_check_answer a_journal(char *into, size_t room) { return pcml_check_journal(TEXT(PAIR), TEXT(JOURNAL), 9, into, room); }
static pcml_check_answer a_search(char *into, size_t room) { return pcml_outcomes(TEXT(CHOICE), 9, 99, "", 0, "", 0, into, room); }
static pcml_check_answer a_fault(char *into, size_t room) { return pcml_faults(TEXT(PAIR), 99, into, room); }
static pcml_check_answer a_print(char *into, size_t room) { return pcml_never(TEXT(PAIR), 99, "b=42", 4, into, room); }
static pcml_check_answer a_loser(char *into, size_t room) { return pcml_left(TEXT(PAIR), 99, "all", 3, into, room); }
static pcml_check_answer a_picture(char *into, size_t room) {
    return pcml_chart(TEXT(PAIR), TEXT(JOURNAL), 9, "", 0, 1, 9, PCML_SVG, into, room);
}
static pcml_check_answer a_name(char *into, size_t room) { return pcml_outcomes(TEXT(PAIR), 9, 99, "nobody", 6, "", 0, into, room); }
static pcml_check_answer a_refusal(char *into, size_t room) { return pcml_check_journal(TEXT(PAIR), TEXT(JOURNAL), 0, into, room); }

static void buffers(call *ask) {
    pcml_check_answer whole = ask(text, ROOM);
    for (size_t room = 0; room <= whole.text_len + 3; room++) {
        char *into = malloc(room + 1);
        memset(into, 0x5a, room + 1);
        pcml_check_answer a = ask(into, room);
        size_t fits = room == 0 ? 0 : whole.text_len < room ? whole.text_len : room - 1;
        int is_right = a.code == whole.code && a.fault == whole.fault && a.line == whole.line && a.text_len == whole.text_len;
        is_right &= !memcmp(into, text, fits) && (room == 0 || into[fits] == 0);
        for (size_t at = room == 0 ? 0 : fits + 1; at <= room; at++) is_right &= into[at] == 0x5a;
        compared++;
        if (!is_right) printf("a buffer of %zu: code %u text_len %zu\n", room, a.code, a.text_len);
        wrong |= !is_right;
        free(into);
    }
}

int main(void) {
    if (pcml_check_version() != PCML_CHECK_VERSION) wrong = printf("the version is %u\n", pcml_check_version());
    scripts();
    journals();
    found();
    questions();
    charts();
    call *calls[] = {a_script, a_mistake, a_journal, a_search, a_fault, a_print, a_loser, a_picture, a_name, a_refusal};
    for (size_t i = 0; i < sizeof calls / sizeof *calls; i++) buffers(calls[i]);
    printf("%d answers compared\n", compared);
    return wrong != 0;
}
