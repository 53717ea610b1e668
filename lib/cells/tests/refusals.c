/* Each way of calling wrongly that the calls can tell is answered by its number, and changes nothing; and each field of
 * each struct goes through and comes back. */
#include "pcml_cells.h"
#include <stdio.h>
#include <string.h>

static int bad, asked;
#define WANT(call, number)                                                                                              \
    do {                                                                                                                \
        unsigned long got_ = (call);                                                                                    \
        asked++;                                                                                                        \
        if (got_ != (unsigned long)(number)) {                                                                          \
            printf("line %d: %lu, wanted %lu\n", __LINE__, got_, (unsigned long)(number));                              \
            bad++;                                                                                                      \
        }                                                                                                               \
    } while (0)

static const pcml_offer recv7 = {PCML_RECV, 7, 0, {0}};

/* An empty pass, and numbers out of range. */
static void ranges(pcml_pass *p) {
    pcml_row a = {0, 0}, r;
    pcml_message m;
    pcml_joined j;
    pcml_offer o;
    uint32_t scope;
    size_t n = 7;
    WANT(pcml_open(p, a), PCML_EMPTY);
    WANT(pcml_holds(p, a), false);
    WANT(pcml_draft(p, a, &recv7, 1), PCML_EMPTY);
    WANT(pcml_bind(p, 0, a, 0), PCML_EMPTY);
    WANT(pcml_look(p, a), PCML_EMPTY);
    WANT(pcml_joined_of(p, a, &j), PCML_EMPTY);
    WANT(pcml_course(p, 0), PCML_EMPTY);
    WANT(pcml_bound(p, 0, &r, &scope), PCML_EMPTY);
    WANT(pcml_offer_of(p, a, 0, &o), PCML_EMPTY);
    WANT(pcml_result(p, a, &m), PCML_EMPTY);
    WANT(pcml_answer(p, a, &j, &m), PCML_EMPTY);
    WANT(pcml_attempt(p, a, 0, a, 0), PCML_EMPTY);
    WANT(pcml_grant(p, a, 0), PCML_EMPTY);
    WANT(pcml_search(p, a, true, &r), PCML_EMPTY);
    WANT(pcml_wake(p, a), PCML_EMPTY);
    WANT(pcml_take(p, a), PCML_EMPTY);
    WANT(pcml_begin(p, a, &recv7, 1, true, &r), PCML_EMPTY);
    WANT(pcml_search_from(p, a, 1, true, &r), PCML_EMPTY);
    WANT(pcml_begin_from(p, a, &recv7, 1, 1, true, &r), PCML_EMPTY);
    WANT(pcml_start(p, a, 1), PCML_EMPTY);
    WANT(pcml_finish(p, a), PCML_EMPTY);
    WANT(pcml_close(p), PCML_EMPTY);
    WANT(pcml_commits(p, 0, 0, &n), PCML_EMPTY);
    WANT(n, 7);
    pcml_pass_free(p);
    WANT(pcml_cells_new(0, 4, 0, p, 2), PCML_RANGE);
    WANT(pcml_cells_new(65, 4, 0, p, 2), PCML_RANGE);
    WANT(pcml_cells_new(257, 4, 0, p, 2), PCML_RANGE);
    WANT(pcml_cells_new(2, 0, 0, p, 2), PCML_RANGE);
    WANT(pcml_cells_new(2, 1025, 0, p, 2), PCML_RANGE);
    WANT(pcml_cells_new(2, 65537, 0, p, 2), PCML_RANGE);
    WANT(pcml_cells_new(2, 4, 0, p, 0), PCML_RANGE);
    WANT(pcml_cells_new(2, 4, 0, p, 17), PCML_RANGE);
    WANT(pcml_cells_new_short(2, 4, 0, 0, p, 2), PCML_RANGE);
    WANT(pcml_cells_new_short(2, 4, 9, 0, p, 2), PCML_RANGE);
    WANT(pcml_cells_new_short(2, 4, 257, 0, p, 2), PCML_RANGE);
    WANT(pcml_cells_new_short(65, 4, 1, 0, p, 2), PCML_RANGE);
    WANT(pcml_cells_new_short(2, 1025, 1, 0, p, 2), PCML_RANGE);
    WANT(pcml_cells_new_short(2, 4, 1, 0, p, 17), PCML_RANGE);
    WANT(p[0].at == 0, 1);
}

/* Rows that are not there, not held, not drafted in time. */
static void rows(pcml_pass *p) {
    pcml_row a = {0, 0}, b = {1, 0}, a1 = {0, 1}, far = {9, 0}, farther = {300, 0}, around = {256, 0}, deep = {0, 4}, r = {77, 78};
    pcml_offer s = {PCML_SEND, 7, 0, {2, {{PCML_NUMBER, 41}, {PCML_CHANNEL, 3}}}}, nine[9] = {{0, 0, 0, {0, {{0, 0}}}}};
    pcml_offer w[] = {{PCML_SEND, 256, 0, {0}}, {PCML_RECV, 256, 0, {0}}, {6, 0, 0, {0}}, {PCML_RECV, 0, 16, {0}}, {PCML_ALWAYS, 0, 0, {4, {{0, 0}}}},
                      {PCML_ON_NACK, 4096, 0, {0}}, {PCML_ON_END, 64, 0, {0}}, {PCML_SEND, 0, 0, {1, {{PCML_CHANNEL, 256}}}},
                      {PCML_SEND, 0, 0, {1, {{PCML_NACK, 4096}}}}, {PCML_SEND, 0, 0, {1, {{3, 0}}}}};
    pcml_message m;
    uint32_t scope = 79;
    WANT(pcml_draft(p, far, &s, 1), PCML_NO_ROW);
    WANT(pcml_draft(p, farther, &s, 1), PCML_NO_ROW);
    WANT(pcml_draft(p, around, &s, 1), PCML_NO_ROW);
    WANT(pcml_draft(p, deep, &s, 1), PCML_NO_ROW);
    WANT(pcml_look(p, deep), PCML_NO_ROW);
    WANT(pcml_course(p, 2), PCML_NO_ROW);
    WANT(pcml_course(p, 256), PCML_NO_ROW);
    WANT(pcml_attempt(p, a, 0, far, 0), PCML_NO_ROW);
    WANT(pcml_grant(p, far, 0), PCML_NO_ROW);
    WANT(pcml_wake(p, far), PCML_NO_ROW);
    WANT(pcml_take(p, far), PCML_NO_ROW);
    WANT(pcml_search(p, far, true, &r), PCML_NO_ROW);
    WANT(pcml_begin(p, far, &s, 1, true, &r), PCML_NO_ROW);
    WANT(pcml_start(p, a, 2), PCML_NO_ROW);
    WANT(pcml_start(p, a, 0), PCML_RANGE);
    WANT(pcml_draft(p, b, &s, 1), PCML_NOT_HELD);
    WANT(pcml_draft(p, a1, &s, 1), PCML_NOT_HELD);
    WANT(pcml_begin(p, b, &s, 1, true, &r), PCML_NOT_HELD);
    WANT(pcml_begin(p, a1, &s, 1, true, &r), PCML_NOT_HELD);
    WANT(pcml_finish(p, b), PCML_NOT_HELD);
    for (unsigned k = 0; k < sizeof w / sizeof *w; k++) WANT(pcml_draft(p, a, &w[k], 1), PCML_RANGE);
    WANT(pcml_draft(p, a, nine, 9), PCML_RANGE);
    WANT(pcml_begin(p, a, nine, 9, true, &r), PCML_RANGE);
    WANT(pcml_bind(p, 64, a, 0), PCML_RANGE);
    WANT(pcml_bind(p, 0, a, 4), PCML_RANGE);
    WANT(pcml_bound(p, 4096, &r, &scope), PCML_RANGE);
    WANT(pcml_attempt(p, a, 0, b, 0), PCML_FRESH);
    WANT(pcml_search(p, a, true, &r), PCML_FRESH);
    WANT(pcml_result(p, a, &m), 1);
    WANT(r.thread, 77);
    WANT(r.sync, 78);
    WANT(scope, 79);
}

/* A rendezvous, whose every field is looked at. */
static void meeting(pcml_pass *p) {
    pcml_row a = {0, 0}, b = {1, 0}, a1 = {0, 1}, r = {77, 78};
    pcml_offer s = {PCML_SEND, 7, 5, {3, {{PCML_NUMBER, 4000000000u}, {PCML_CHANNEL, 255}, {PCML_NACK, PCML_NACK_OF(63, 62)}}}}, o;
    pcml_offer two[2] = {{PCML_NEVER, 0, 0, {0}}, recv7};
    pcml_message m;
    pcml_joined j;
    WANT(pcml_bind(p, 5, a, 2), 0);
    WANT(pcml_bind(p, 5, a, 1), 1);
    WANT(pcml_draft(p, a, &s, 1), PCML_OK);
    WANT(pcml_open(p, a), PCML_OK);
    WANT(pcml_open(p, a), PCML_OPENED);
    WANT(pcml_draft(p, a, &s, 1), PCML_OPENED);
    WANT(pcml_bind(p, 6, a, 0), PCML_OPENED);
    WANT(pcml_finish(p, a), PCML_OPENED);
    WANT(pcml_begin(p, a, &s, 1, true, &r), PCML_OPENED);
    WANT(pcml_attempt(p, a, 0, b, 0), PCML_UNFIT);
    WANT(pcml_attempt(p, b, 0, a, 0), PCML_NOT_HELD);
    WANT(pcml_search(p, b, true, &r), PCML_NOT_HELD);
    WANT(pcml_grant(p, a, 0), PCML_NOT_ENABLED);
    WANT(pcml_grant(p, a, 256), PCML_NOT_ENABLED);
    WANT(pcml_wake(p, a), PCML_FOUND_LEFT);
    WANT(pcml_take(p, a), 1);
    WANT(pcml_search(p, a, true, &r), PCML_FOUND_LEFT);
    WANT(pcml_offer_of(&p[1], a, 0, &o), 0);
    WANT(memcmp(&o, &s, sizeof s), 0);
    WANT(pcml_offer_of(&p[1], a, 1, &o), 1);
    WANT(pcml_bound(&p[1], PCML_NACK_OF(0, 5), &r, &o.of), 0);
    WANT(r.thread, 0); WANT(r.sync, 0); WANT(o.of, 2);
    WANT(pcml_bound(&p[1], PCML_NACK_OF(0, 6), &r, &o.of), 1);
    WANT(pcml_begin(&p[1], b, two, 2, true, &r), PCML_FOUND_MET);
    WANT(r.thread, 0); WANT(r.sync, 0);
    WANT(pcml_attempt(p, a, 0, b, 1), PCML_MINE);
    WANT(pcml_search(p, a, true, &r), PCML_FOUND_ALREADY);
    WANT(pcml_look(p, a), PCML_CELL_SYNCHED);
    WANT(pcml_joined_of(p, a, &j), PCML_CELL_SYNCHED);
    WANT(j.own, 0); WANT(j.stamp, 1); WANT(j.paired, 1); WANT(j.partner.thread, 1); WANT(j.partner.sync, 0); WANT(j.theirs, 1);
    WANT(pcml_answer(p, b, &j, &m), 0);
    WANT(j.own, 1); WANT(j.stamp, 1); WANT(j.paired, 1); WANT(j.partner.thread, 0); WANT(j.partner.sync, 0); WANT(j.theirs, 0);
    WANT(memcmp(&m, &s.message, sizeof m), 0);
    WANT(pcml_result(p, a, &m), 0);
    WANT(m.count, 0);
    WANT(pcml_holds(&p[0], a1), 0);
    WANT(pcml_take(&p[1], a), 0);
    WANT(pcml_take(p, a), 1);
    WANT(pcml_holds(&p[1], a1), 1);
    WANT(pcml_look(p, a), PCML_CELL_TAKEN);
    WANT(pcml_joined_of(p, a, &j), PCML_CELL_TAKEN);
}

/* A nack, an always, lives; and the end of the table. */
static void ends(pcml_pass *p) {
    pcml_row a1 = {0, 1}, b1 = {1, 1}, b2 = {1, 2}, c = {2, 0}, r;
    pcml_offer two[2] = {{PCML_ON_NACK, PCML_NACK_OF(0, 5), 0, {0}}, {PCML_ON_END, 0, 0, {0}}}, always = {PCML_ALWAYS, 0, 0, {1, {{PCML_NUMBER, 9}}}};
    pcml_message m;
    pcml_joined j;
    pcml_commit k[8];
    size_t n = 0;
    WANT(pcml_begin(&p[1], b1, two, 2, true, &r), PCML_FOUND_LEFT); /* its nack's scope 2 encloses the chosen offer: 5 is 101 */
    WANT(pcml_finish(&p[1], a1), PCML_OK);
    WANT(pcml_open(&p[1], a1), PCML_ENDED);
    WANT(pcml_course(p, 0), PCML_FINISHED);
    WANT(pcml_course(p, 1), PCML_RUNNING);
    WANT(pcml_course(p, 2), PCML_UNSTARTED);
    WANT(pcml_wake(p, b1), PCML_FOUND_ALONE);
    WANT(pcml_wake(p, b1), PCML_FOUND_ALREADY);
    WANT(pcml_grant(p, b1, 1), PCML_LATE);
    WANT(pcml_joined_of(p, b1, &j), PCML_CELL_SYNCHED);
    WANT(j.own, 1); WANT(j.paired, 0); WANT(j.stamp, 2);
    WANT(pcml_take(p, b1), 0);
    WANT(pcml_start(p, b2, 2), 0);
    WANT(pcml_start(p, b2, 2), 1);
    WANT(pcml_course(p, 2), PCML_RUNNING);
    WANT(pcml_holds(p, c), 1);
    WANT(pcml_begin(p, b2, &always, 1, false, &r), PCML_FOUND_LEFT);
    WANT(pcml_search(p, b2, false, &r), PCML_FOUND_LEFT);
    WANT(pcml_search(p, b2, true, &r), PCML_FOUND_ALONE);
    WANT(pcml_answer(p, b2, &j, &m), 0);
    WANT(m.count, 1); WANT(m.atoms[0].value, 9); WANT(j.paired, 0);
    WANT(pcml_close(p), PCML_SHARED);
    WANT(pcml_commits(p, k, 8, &n), PCML_SHARED);
    pcml_pass_free(&p[1]);
    pcml_pass_free(&p[1]);
    WANT(pcml_close(p), PCML_OK);
    WANT(pcml_close(p), PCML_CLOSED);
    WANT(pcml_look(p, b2), PCML_CLOSED);
    WANT(pcml_holds(p, b2), 0);
    WANT(pcml_commits(p, k, 1, &n), PCML_OK);
    WANT(n, 3);
    WANT(pcml_commits(p, k, 8, &n), PCML_OK);
    WANT(n, 3); WANT(k[0].kind, 0); WANT(k[0].stamp, 1); WANT(k[0].of, 7); WANT(k[0].message.atoms[0].value, 4000000000u);
    WANT(k[0].sender.thread, 0); WANT(k[0].sender.sync, 0); WANT(k[0].sent, 0); WANT(k[0].receiver.thread, 1); WANT(k[0].received, 1);
    WANT(k[1].kind, 3); WANT(k[1].of, 0); WANT(k[1].sender.thread, 1); WANT(k[1].sender.sync, 1); WANT(k[1].sent, 1);
    WANT(k[2].kind, 1); WANT(k[2].message.atoms[0].value, 9); WANT(k[2].receiver.sync, 2);
    pcml_pass_free(p);
    WANT(pcml_close(p), PCML_EMPTY);
}

/* A draft of more offers than a row has room for changes nothing. */
static void short_rows(pcml_pass *p) {
    pcml_row a = {0, 0}, far = {9, 0}, r = {77, 78};
    pcml_offer three[3] = {recv7, {PCML_SEND, 8, 0, {3, {{PCML_NUMBER, 1}, {PCML_NUMBER, 2}, {PCML_NUMBER, 3}}}}, recv7}, o;
    WANT(pcml_draft(p, a, three, 3), PCML_RANGE);
    WANT(pcml_draft(p, far, three, 3), PCML_RANGE);
    WANT(pcml_begin(p, a, three, 3, true, &r), PCML_RANGE);
    WANT(pcml_begin_from(p, a, three, 3, 1, true, &r), PCML_RANGE);
    WANT(pcml_look(p, a), PCML_CELL_FRESH);
    WANT(pcml_begin(p, a, three, 2, true, &r), PCML_FOUND_LEFT);
    WANT(pcml_begin(p, (pcml_row){0, 1}, three, 3, true, &r), PCML_RANGE);
    WANT(pcml_offer_of(p, a, 1, &o), 0);
    WANT(memcmp(&o, &three[1], sizeof o), 0);
    WANT(pcml_offer_of(p, a, 2, &o), 1);
    WANT(pcml_grant(p, a, 2), PCML_NOT_ENABLED);
    WANT(pcml_attempt(p, a, 2, (pcml_row){1, 0}, 7), PCML_UNFIT);
    WANT(r.thread, 77);
}

/* Threads 0 to 2 wait; a search begins with one of them, or with one that is no wish. */
static void first(pcml_pass *p) {
    pcml_row r = {77, 78};
    pcml_offer send[2] = {{PCML_SEND, 9, 0, {0}}, {PCML_SEND, 7, 0, {0}}};
    WANT(pcml_begin(p, (pcml_row){1, 0}, &recv7, 1, true, &r), PCML_FOUND_LEFT);
    WANT(pcml_begin(p, (pcml_row){2, 0}, &recv7, 1, true, &r), PCML_FOUND_LEFT);
    WANT(pcml_begin_from(p, (pcml_row){4, 0}, send, 2, 2, true, &r), PCML_FOUND_MET);
    WANT(r.thread, 2);
    WANT(pcml_begin_from(p, (pcml_row){3, 0}, send, 2, 2, true, &r), PCML_FOUND_MET); /* thread 2 is gone */
    WANT(r.thread, 0);
    WANT(pcml_begin_from(p, (pcml_row){2, 1}, &recv7, 1, PCML_NO_THREAD, true, &r), PCML_FOUND_LEFT);
    WANT(pcml_begin_from(p, (pcml_row){0, 1}, &recv7, 1, 5, true, &r), PCML_FOUND_LEFT); /* the table has no thread 5 */
    WANT(pcml_begin_from(p, (pcml_row){4, 1}, send, 1, 2, true, &r), PCML_FOUND_LEFT); /* it does not fit */
    WANT(pcml_take(p, (pcml_row){3, 0}), 0);
    WANT(pcml_draft(p, (pcml_row){3, 1}, send, 2), PCML_OK);
    WANT(pcml_search_from(p, (pcml_row){3, 1}, 2, true, &r), PCML_FRESH);
    WANT(pcml_open(p, (pcml_row){3, 1}), PCML_OK);
    WANT(pcml_search_from(p, (pcml_row){3, 1}, 2, true, &r), PCML_FOUND_MET);
    WANT(r.thread, 2); WANT(r.sync, 1);
    WANT(pcml_search_from(p, (pcml_row){3, 1}, 1, true, &r), PCML_FOUND_ALREADY);
    WANT(pcml_search_from(p, (pcml_row){0, 1}, 258, true, &r), PCML_FOUND_LEFT); /* no thread 2 either */
    WANT(pcml_close(p), PCML_OK);
}

int main(void) {
    pcml_pass p[2] = {PCML_PASS_INIT, PCML_PASS_INIT};
    ranges(p);
    if (pcml_cells_new(2, 4, 0, p, 2)) return 2;
    rows(p);
    if (pcml_cells_new(3, 4, 4, p, 2)) return 2; /* thread 2 waits to be started; the table before goes */
    meeting(p);
    ends(p);
    if (pcml_cells_new_short(5, 2, 2, 0, p, 1)) return 2;
    short_rows(p);
    if (pcml_cells_new_short(5, 2, 2, 0, p, 1)) return 2;
    WANT(pcml_begin(p, (pcml_row){0, 0}, &recv7, 1, true, &(pcml_row){0, 0}), PCML_FOUND_LEFT);
    first(p);
    pcml_pass_free(p);
    printf("%d calls, %d wrong answers\n", asked, bad);
    return bad != 0;
}
