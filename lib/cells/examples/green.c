/* A scheduler of green threads over the cells: threads of one's own, that meet by choice and wait for nacks, in one thread
 * of the system. Below it a program that plays ping-pong, a choice on both sides, and clients that give up.
 *   green ROUNDS
 * A green thread is a thread of the table, and each sync of it a row. When rows run out, all wait: the table ends, and
 * the syncs that wait begin anew in the next one. So it goes on for as long as one likes.
 */
#define _XOPEN_SOURCE 700
#include "pcml_cells.h"
#include <stdio.h>
#include <stdlib.h>
#include <ucontext.h>

enum { GREENS = 16, ROWS = 256, STACK = 64 * 1024, SCOPES = 4, NACKS = 4096 };

/* THE SCHEDULER */

typedef struct {
    ucontext_t context;
    void (*run)(int argument);
    int argument;
    enum { NONE, READY, WAITING, OVER } state;
    uint32_t row;                 /* the sync of this table that it stands at */
    uint32_t named;               /* how many nacks it has named in this table */
    pcml_offer offers[8];         /* what its sync offers, nacks by their numbers here */
    size_t count;
    int nacks[SCOPES];            /* the nack of each scope, or -1 */
    pcml_joined joined;           /* what came of the sync */
    pcml_message message;
    char *stack;
} green;

static green greens[GREENS];
static int ready[GREENS], first, waiting_line; /* a ring of those that can go on */
static int now;                                /* who runs */
static ucontext_t idle;
static pcml_pass pass = PCML_PASS_INIT;
static unsigned long commits, tables;

/* A nack lives longer than a table: its thread, what became of it, and its name in which table. */
static struct { enum { SPENT, OPEN, FIRED, NEVER } state; int thread; uint32_t name; unsigned long table; } nacks[NACKS];
static int next_nack;

static void must(uint32_t answer, const char *call) {
    if (answer != PCML_OK) fprintf(stderr, "green: %s: %u\n", call, (unsigned)answer), exit(1);
}

static void go_on(int t) {
    greens[t].state = READY;
    ready[(first + waiting_line++) % GREENS] = t;
}

/* An offer as this table has it: of a nack that was settled before, only what came of it is left. */
static pcml_offer offer_now(pcml_offer o) {
    if (o.kind != PCML_ON_NACK) return o;
    int n = (int)o.of;
    if (nacks[n].table != tables) return (pcml_offer){nacks[n].state == FIRED ? PCML_ALWAYS : PCML_NEVER, 0, o.scopes, {0, {{0, 0}}}};
    o.of = nacks[n].name;
    return o;
}

static bool waits_for_nack(const green *g) {
    for (size_t i = 0; i < g->count; i++)
        if (g->offers[i].kind == PCML_ON_NACK) return true;
    return false;
}

/* The thread's row is committed: it can go on, its nacks are settled, and who waits for one is woken. */
static void settle(int t) {
    green *g = &greens[t];
    pcml_row row = {(uint32_t)t, g->row};
    must(pcml_answer(&pass, row, &g->joined, &g->message), "pcml_answer");
    must(pcml_take(&pass, row), "pcml_take");
    g->row++;
    commits++;
    go_on(t);
    bool fired = false;
    for (int s = 0; s < SCOPES; s++) {
        if (g->nacks[s] < 0) continue;
        bool encloses = g->offers[g->joined.own].scopes >> s & 1;
        nacks[g->nacks[s]].state = encloses ? NEVER : FIRED;
        fired |= !encloses;
    }
    if (!fired) return;
    for (int w = 0; w < GREENS; w++)
        if (greens[w].state == WAITING && waits_for_nack(&greens[w]) && pcml_wake(&pass, (pcml_row){(uint32_t)w, greens[w].row}) == PCML_FOUND_ALONE) settle(w);
}

/* The thread's row stands, and waits if nobody fits. */
static void offer(int t) {
    green *g = &greens[t];
    pcml_row row = {(uint32_t)t, g->row}, other;
    pcml_offer offers[8];
    for (int s = 0; s < SCOPES; s++) {
        if (g->nacks[s] < 0) continue;
        must(pcml_bind(&pass, nacks[g->nacks[s]].name % 64, row, (uint32_t)s), "pcml_bind");
    }
    for (size_t i = 0; i < g->count; i++) offers[i] = offer_now(g->offers[i]);
    g->state = WAITING;
    switch (pcml_begin(&pass, row, offers, g->count, true, &other)) {
    case PCML_FOUND_MET: settle(t), settle((int)other.thread); return;
    case PCML_FOUND_ALONE: settle(t); return;
    case PCML_FOUND_LEFT: return;
    default: fprintf(stderr, "green: pcml_begin\n"), exit(1); /* one thread of the system: nobody else claims */
    }
}

static void name(int n) {
    green *g = &greens[nacks[n].thread];
    if (g->named == 64) fprintf(stderr, "green: a thread has 64 nacks that are not settled\n"), exit(1);
    nacks[n].name = PCML_NACK_OF((uint32_t)nacks[n].thread, g->named++), nacks[n].table = tables;
}

/* The next table: nacks that are not settled get new names, and whoever waits begins anew. */
static void turn(void) {
    must(pcml_close(&pass), "pcml_close"); /* pcml_commits would tell its journal here */
    must(pcml_cells_new(GREENS, ROWS, 0, &pass, 1), "pcml_cells_new");
    tables++;
    for (int t = 0; t < GREENS; t++) greens[t].row = 0, greens[t].named = 0;
    for (int n = 0; n < NACKS; n++)
        if (nacks[n].state == OPEN) name(n);
    for (int t = 0; t < GREENS; t++)
        if (greens[t].state == WAITING) offer(t);
}

/* Runs who can, until nobody can. */
static void run_all(void) {
    while (waiting_line > 0) {
        now = ready[first];
        first = (first + 1) % GREENS, waiting_line--;
        swapcontext(&idle, &greens[now].context);
    }
}

static void begin_run(void) {
    greens[now].run(greens[now].argument);
    greens[now].state = OVER;
    swapcontext(&greens[now].context, &idle);
}

static void spawn(void (*run)(int), int argument) {
    for (int t = 0; t < GREENS; t++) {
        green *g = &greens[t];
        if (g->state != NONE && g->state != OVER) continue;
        if (!g->stack && !(g->stack = malloc(STACK))) exit(1);
        g->run = run, g->argument = argument;
        getcontext(&g->context);
        g->context.uc_stack.ss_sp = g->stack, g->context.uc_stack.ss_size = STACK;
        makecontext(&g->context, begin_run, 0);
        go_on(t);
        return;
    }
    exit(1);
}

/* A sync, as a green thread calls it: which offer was chosen, and what came by it. scope_nacks[s] is the nack of scope s. */
static uint32_t sync_on(const pcml_offer *offers, size_t count, const int *scope_nacks, pcml_message *message) {
    green *g = &greens[now];
    for (int s = 0; s < SCOPES; s++) g->nacks[s] = scope_nacks ? scope_nacks[s] : -1;
    for (g->count = 0; g->count < count; g->count++) g->offers[g->count] = offers[g->count];
    if (g->row == ROWS) turn();
    offer(now);
    if (g->state == WAITING) swapcontext(&g->context, &idle);
    else if (waiting_line > 1) swapcontext(&g->context, &idle); /* its turn comes */
    else first = (first + 1) % GREENS, waiting_line--;          /* or is now: nobody else is ready */
    if (message) *message = g->message;
    return g->joined.own;
}

static int new_nack(void) {
    int n = next_nack++ % NACKS;
    if (greens[now].named == 64) turn();
    nacks[n].state = OPEN, nacks[n].thread = now;
    name(n);
    return n;
}

/* THE PROGRAM */

static int rounds;
static unsigned long pings, sums, both_ways, served, given_up, nacked;

static pcml_offer send_to(uint32_t channel, uint32_t number) { return (pcml_offer){PCML_SEND, channel, 0, {1, {{PCML_NUMBER, number}}}}; }
static pcml_offer recv_from(uint32_t channel) { return (pcml_offer){PCML_RECV, channel, 0, {0, {{0, 0}}}}; }

static void ping(int unused) {
    (void)unused;
    for (int r = 0; r < rounds; r++) {
        pcml_offer there = send_to(0, (uint32_t)r), back = recv_from(1);
        pcml_message m;
        sync_on(&there, 1, 0, 0), sync_on(&back, 1, 0, &m);
        pings++, sums += m.atoms[0].value;
    }
}

static void pong(int unused) {
    (void)unused;
    for (int r = 0; r < rounds; r++) {
        pcml_offer here = recv_from(0);
        pcml_message m;
        sync_on(&here, 1, 0, &m);
        pcml_offer back = send_to(1, m.atoms[0].value + 1);
        sync_on(&back, 1, 0, 0);
    }
}

/* Both offer to send and to receive at once: one sends, and the other receives. */
static void swapper(int unused) {
    (void)unused;
    for (int r = 0; r < rounds; r++) {
        pcml_offer two[2] = {send_to(2, 1), recv_from(2)};
        both_ways += sync_on(two, 2, 0, 0) == 1;
    }
}

/* Asks, and then waits for the reply. Each third time it waits where nobody sends, and gives up: its nack tells the server. */
static void client(int unused) {
    (void)unused;
    for (int r = 0; r < rounds; r++) {
        int nack = new_nack(), scopes[SCOPES] = {nack, -1, -1, -1};
        pcml_offer ask = send_to(3, (uint32_t)nack);
        sync_on(&ask, 1, 0, 0);
        pcml_offer two[2] = {recv_from(r % 3 == 2 ? 5 : 4), {r % 3 == 2 ? PCML_ALWAYS : PCML_NEVER, 0, 0, {0, {{0, 0}}}}};
        two[0].scopes = 1;
        if (sync_on(two, 2, scopes, 0) == 0) served++;
        else given_up++;
    }
}

static void server(int unused) {
    (void)unused;
    for (int r = 0; r < rounds; r++) {
        pcml_offer asked = recv_from(3);
        pcml_message m;
        sync_on(&asked, 1, 0, &m);
        pcml_offer two[2] = {send_to(4, 0), {PCML_ON_NACK, m.atoms[0].value, 0, {0, {{0, 0}}}}};
        if (sync_on(two, 2, 0, 0) == 1) nacked++;
    }
}

int main(int count, char **words) {
    rounds = count > 1 ? atoi(words[1]) : 10000;
    must(pcml_cells_new(GREENS, ROWS, 0, &pass, 1), "pcml_cells_new");
    void (*all[])(int) = {ping, pong, swapper, swapper, server, client};
    for (size_t k = 0; k < sizeof all / sizeof *all; k++) spawn(all[k], 0);
    run_all();
    int left = 0;
    for (int t = 0; t < GREENS; t++) left += greens[t].state == WAITING, free(greens[t].stack);
    pcml_pass_free(&pass);
    printf("%lu rounds of ping-pong, sum %lu; %lu choices on both sides; %lu served, %lu given up, %lu nacks seen\n", pings, sums, both_ways, served, given_up, nacked);
    fprintf(stderr, "%lu syncs in %lu tables; %d wait\n", commits, tables + 1, left);
    return left != 0;
}
