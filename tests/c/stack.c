/*
 * What include/vazhettu.h says of the stack: calls of every kind, with the longest pages, each on a stack of 16 KB of its own
 * that ends at memory nobody may touch. Prints the most that a call of each kind has used.
 */
#define _GNU_SOURCE
#include "vazhettu.h"

#include <stdio.h>
#include <stdlib.h>
#include <string.h>
#include <sys/mman.h>
#include <ucontext.h>

enum { STACK = 16384, GUARD_PAGE = 4096, UNTOUCHED = 0xa5, W = 4096, ROUNDS = 4000 };
enum call { FORMAT, OPEN, READ, WRITE, COMMIT, COLLECT, ADD, FIND, CALLS };

static const char *const names[CALLS] = {"format", "open", "read", "write", "commit", "collect", "add", "find"};

static struct vazhettu_geometry g;
static uint8_t *chips, *records, *slots, page[W], *stack;
static size_t chips_len, records_len, slots_len, most[CALLS];
static int done[CALLS];
static ucontext_t here, there;

#define STORE g, chips, chips_len, records, records_len, slots, slots_len

/* The call under way, its chip, page, stripe or bag, and its answer. */
static enum call call;
static uint64_t lost, number, allowance;
static struct vazhettu_report report;
static struct vazhettu_read_report page_read;
static struct vazhettu_find_report found;

static void make_call(void) {
    switch (call) {
    case FORMAT:
        report = vazhettu_format(STORE, allowance);
        break;
    case OPEN:
        report = vazhettu_open(STORE, lost, allowance);
        break;
    case WRITE:
        report = vazhettu_write(STORE, lost, number, page, W, allowance);
        break;
    case COMMIT:
        report = vazhettu_commit(STORE, lost, number, allowance);
        break;
    case COLLECT:
        report = vazhettu_collect(STORE, lost, number, allowance);
        break;
    default:
        report = vazhettu_add(STORE, lost, page, 16, allowance);
    }
}

/* These two by themselves: a longer answer would add to the stack of every call. */
static void make_read(void) {
    page_read = vazhettu_read(STORE, lost, number, page, W);
    report.status = page_read.status;
}

static void make_find(void) {
    found = vazhettu_find(STORE, lost, 7, (uint16_t)number);
    report.status = found.status;
}

static void on_own_stack(enum call kind, uint64_t chip, uint64_t request, uint64_t stores) {
    size_t untouched = 0;
    call = kind, lost = chip, number = request, allowance = stores;
    memset(stack, UNTOUCHED, STACK);
    if (getcontext(&there))
        exit(2);
    there.uc_stack.ss_sp = stack;
    there.uc_stack.ss_size = STACK;
    there.uc_link = &here;
    makecontext(&there, kind == FIND ? make_find : kind == READ ? make_read : make_call, 0);
    swapcontext(&here, &there);
    while (untouched < STACK && stack[untouched] == UNTOUCHED)
        untouched++;
    if (STACK - untouched > most[kind])
        most[kind] = STACK - untouched;
    done[kind] += report.status == VAZHETTU_DONE;
}

static uint64_t below(uint64_t bound) {
    return (uint64_t)rand() % bound;
}

/* Fills the page with tickets. */
static void fill_page(uint8_t kind, uint32_t gross) {
    for (size_t i = 0; i < W; i += 16)
        vazhettu_ticket(page + i, kind, 7, (uint16_t)i, gross, 0);
}

/*
 * Writes mostly, so that the chips fill up and writes commit and collect; some calls are cut. A page is full of tickets or
 * empty, so that the log has some pages.
 */
static void use_store(void) {
    chips_len = VAZHETTU_CHIPS_LEN(g.n, g.w, g.k, g.b);
    records_len = VAZHETTU_RECORDS_LEN(g.s);
    slots_len = VAZHETTU_SLOTS_LEN(g.w, g.m);
    chips = malloc(chips_len), records = malloc(records_len), slots = malloc(slots_len);
    if (!chips || !records || !slots)
        exit(2);
    on_own_stack(FORMAT, VAZHETTU_NO_CHIP, 0, VAZHETTU_NO_LIMIT);
    for (int round = 0; round < ROUNDS; round++) {
        uint64_t stores = below(8) ? VAZHETTU_NO_LIMIT : below(12);
        fill_page(below(8) ? VAZHETTU_WEIGHT : 0, (uint32_t)round);
        on_own_stack(WRITE, VAZHETTU_NO_CHIP, below(g.n * g.s), stores);
        on_own_stack(OPEN, VAZHETTU_NO_CHIP, 0, stores);
        on_own_stack(READ, below(g.n + 1), below(g.n * g.s), 0);
        fill_page(VAZHETTU_WEIGHT, (uint32_t)round);
        on_own_stack(ADD, VAZHETTU_NO_CHIP, 0, stores);
        on_own_stack(OPEN, VAZHETTU_NO_CHIP, 0, stores);
        on_own_stack(FIND, below(g.n + 1), below(W), 0);
        if (round % 8 == 0)
            on_own_stack(COMMIT, VAZHETTU_NO_CHIP, below(g.s), VAZHETTU_NO_LIMIT);
        if (round % 8 == 4)
            on_own_stack(COLLECT, VAZHETTU_NO_CHIP, below(g.n + 1), stores);
    }
    on_own_stack(OPEN, VAZHETTU_NO_CHIP, 0, VAZHETTU_NO_LIMIT);
    if (report.status != VAZHETTU_DONE)
        exit(1);
    free(chips), free(records), free(slots);
}

int main(void) {
    const struct vazhettu_geometry stores[] = {{6, W, 3, 3, 4, 1}, {2, W, 16, 2, 13, 2}};
    uint8_t *memory = mmap(NULL, STACK + GUARD_PAGE, PROT_READ | PROT_WRITE, MAP_PRIVATE | MAP_ANONYMOUS, -1, 0);
    if (memory == MAP_FAILED || mprotect(memory, GUARD_PAGE, PROT_NONE))
        return 2;
    stack = memory + GUARD_PAGE;
    for (size_t i = 0; i < sizeof stores / sizeof *stores; i++) {
        g = stores[i];
        use_store();
    }
    printf("bytes of stack:");
    for (int kind = 0; kind < CALLS; kind++)
        printf(" %s %zu", names[kind], most[kind]);
    printf("\n");
    for (int kind = 0; kind < CALLS; kind++)
        if (!done[kind])
            return 1;
    return 0;
}
