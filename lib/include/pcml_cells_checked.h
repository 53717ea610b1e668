/* For tests: a call on a pass that is in another call answers PCML_IN_USE. Each call takes what the pass keeps out of it
 * by an exchange, leaves a mark behind, and puts it back. pcml_cells.h includes this where PCML_CHECK_USE is defined.
 * A copy of a pass it does not tell.
 */
#ifndef PCML_CELLS_CHECKED_H
#define PCML_CELLS_CHECKED_H

static void *const pcml_mark = (void *)1;

static inline bool pcml_enter(pcml_pass *pass, pcml_pass *mine) {
    mine->at = __atomic_exchange_n(&pass->at, pcml_mark, __ATOMIC_SEQ_CST);
    return mine->at != pcml_mark;
}
static inline void pcml_leave(pcml_pass *pass, pcml_pass *mine) { __atomic_store_n(&pass->at, mine->at, __ATOMIC_SEQ_CST); }

#define PCML_CHECKED(CALL, DECLARED, ...)                                                                                \
    static inline uint32_t CALL##_checked DECLARED {                                                                     \
        pcml_pass mine, *held = pass;                                                                                    \
        if (!pcml_enter(held, &mine)) return PCML_IN_USE;                                                                \
        pass = &mine;                                                                                                    \
        uint32_t answer = CALL(__VA_ARGS__);                                                                             \
        pcml_leave(held, &mine);                                                                                         \
        return answer;                                                                                                   \
    }
PCML_CHECKED(pcml_close, (pcml_pass *pass), pass)
PCML_CHECKED(pcml_commits, (pcml_pass *pass, pcml_commit *commits, size_t room, size_t *count), pass, commits, room, count)
PCML_CHECKED(pcml_draft, (pcml_pass *pass, pcml_row row, const pcml_offer *offers, size_t count), pass, row, offers, count)
PCML_CHECKED(pcml_bind, (pcml_pass *pass, uint32_t nack, pcml_row row, uint32_t scope), pass, nack, row, scope)
PCML_CHECKED(pcml_open, (pcml_pass *pass, pcml_row row), pass, row)
PCML_CHECKED(pcml_look, (pcml_pass *pass, pcml_row row), pass, row)
PCML_CHECKED(pcml_joined_of, (pcml_pass *pass, pcml_row row, pcml_joined *joined), pass, row, joined)
PCML_CHECKED(pcml_course, (pcml_pass *pass, uint32_t thread), pass, thread)
PCML_CHECKED(pcml_bound, (pcml_pass *pass, uint32_t nack, pcml_row *row, uint32_t *scope), pass, nack, row, scope)
PCML_CHECKED(pcml_offer_of, (pcml_pass *pass, pcml_row row, uint32_t number, pcml_offer *offer), pass, row, number, offer)
PCML_CHECKED(pcml_result, (pcml_pass *pass, pcml_row row, pcml_message *message), pass, row, message)
PCML_CHECKED(pcml_answer, (pcml_pass *pass, pcml_row row, pcml_joined *joined, pcml_message *message), pass, row, joined, message)
PCML_CHECKED(pcml_attempt, (pcml_pass *pass, pcml_row mine_row, uint32_t own, pcml_row other, uint32_t partner), pass, mine_row, own, other, partner)
PCML_CHECKED(pcml_grant, (pcml_pass *pass, pcml_row row, uint32_t offer), pass, row, offer)
PCML_CHECKED(pcml_search, (pcml_pass *pass, pcml_row row, bool alone, pcml_row *met), pass, row, alone, met)
PCML_CHECKED(pcml_search_from, (pcml_pass *pass, pcml_row row, uint32_t first, bool alone, pcml_row *met), pass, row, first, alone, met)
PCML_CHECKED(pcml_wake, (pcml_pass *pass, pcml_row row), pass, row)
PCML_CHECKED(pcml_take, (pcml_pass *pass, pcml_row row), pass, row)
PCML_CHECKED(pcml_begin, (pcml_pass *pass, pcml_row row, const pcml_offer *offers, size_t count, bool alone, pcml_row *met), pass, row, offers, count, alone, met)
PCML_CHECKED(pcml_begin_from, (pcml_pass *pass, pcml_row row, const pcml_offer *offers, size_t count, uint32_t first, bool alone, pcml_row *met), pass, row, offers, count, first, alone, met)
PCML_CHECKED(pcml_start, (pcml_pass *pass, pcml_row row, uint32_t thread), pass, row, thread)
PCML_CHECKED(pcml_finish, (pcml_pass *pass, pcml_row row), pass, row)
#undef PCML_CHECKED

#define pcml_close(...) pcml_close_checked(__VA_ARGS__)
#define pcml_commits(...) pcml_commits_checked(__VA_ARGS__)
#define pcml_draft(...) pcml_draft_checked(__VA_ARGS__)
#define pcml_bind(...) pcml_bind_checked(__VA_ARGS__)
#define pcml_open(...) pcml_open_checked(__VA_ARGS__)
#define pcml_look(...) pcml_look_checked(__VA_ARGS__)
#define pcml_joined_of(...) pcml_joined_of_checked(__VA_ARGS__)
#define pcml_course(...) pcml_course_checked(__VA_ARGS__)
#define pcml_bound(...) pcml_bound_checked(__VA_ARGS__)
#define pcml_offer_of(...) pcml_offer_of_checked(__VA_ARGS__)
#define pcml_result(...) pcml_result_checked(__VA_ARGS__)
#define pcml_answer(...) pcml_answer_checked(__VA_ARGS__)
#define pcml_attempt(...) pcml_attempt_checked(__VA_ARGS__)
#define pcml_grant(...) pcml_grant_checked(__VA_ARGS__)
#define pcml_search(...) pcml_search_checked(__VA_ARGS__)
#define pcml_search_from(...) pcml_search_from_checked(__VA_ARGS__)
#define pcml_wake(...) pcml_wake_checked(__VA_ARGS__)
#define pcml_take(...) pcml_take_checked(__VA_ARGS__)
#define pcml_begin(...) pcml_begin_checked(__VA_ARGS__)
#define pcml_begin_from(...) pcml_begin_from_checked(__VA_ARGS__)
#define pcml_start(...) pcml_start_checked(__VA_ARGS__)
#define pcml_finish(...) pcml_finish_checked(__VA_ARGS__)
#endif
