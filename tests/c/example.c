/*
 * A week of one page, and a weekend of tickets: how firmware calls the store. Build it with
 *
 *     gcc -Iinclude tests/c/example.c crates/vazhettu/out/libvazhettu.a
 *
 * The page holds the weight of a bag, as text. Here the chips are an array; in a scale they are where the driver of the flash
 * has them, and records and slots are in battery-backed memory.
 */
#include "vazhettu.h"

#include <stdio.h>
#include <string.h>

/* 4 data pages to a stripe, so 5 chips; pages of 16 bytes, 4 to a block, 4 blocks to a chip; 6 stripes, 2 partial parities. */
enum { N = 4, W = 16, K = 4, B = 4, S = 6, M = 2 };

static const struct vazhettu_geometry geometry = {N, W, K, B, S, M};

static uint8_t chips[VAZHETTU_CHIPS_LEN(N, W, K, B)];
static uint8_t records[VAZHETTU_RECORDS_LEN(S)];
static uint8_t slots[VAZHETTU_SLOTS_LEN(W, M)];

/* What every call is lent. */
#define STORE geometry, chips, sizeof chips, records, sizeof records, slots, sizeof slots

/* Page 6 is in stripe 6 / N, and stands on chip 2. */
enum { PAGE = 6, STRIPE = PAGE / N, CHIP = 2 };

/* The chip that is lost, if one is: named in every call from then on. */
static uint64_t lost = VAZHETTU_NO_CHIP;

/* How a page was got: what is printed beside a weight. */
static const char *const origins[] = {
    [VAZHETTU_ORIGIN_UNWRITTEN] = "never written",
    [VAZHETTU_ORIGIN_DIRECT] = "off its chip",
    [VAZHETTU_ORIGIN_PARTIAL] = "rebuilt through the partial parity",
    [VAZHETTU_ORIGIN_FULL] = "rebuilt through the full parity",
};

static void say(const char *what, struct vazhettu_report r) {
    const char *answer = r.status == VAZHETTU_DONE ? "done" : r.status == VAZHETTU_CUT ? "cut" : "refused";
    printf("  %-8s %s", what, answer);
    if (r.status == VAZHETTU_DONE || r.status == VAZHETTU_CUT)
        printf(", reads %d, programs %d, erases %d, stores %d\n", (int)r.reads, (int)r.programs, (int)r.erases, (int)r.stores);
    else
        printf(" %d\n", (int)r.status);
}

/* The allowance is what the capacitor still holds; the power goes when it is used up. */
static void write_page(const char *weight, uint64_t allowance) {
    uint8_t page[W] = {0};
    strncpy((char *)page, weight, W - 1);
    say("write", vazhettu_write(STORE, lost, PAGE, page, sizeof page, allowance));
}

static void read_page(void) {
    uint8_t page[W];
    struct vazhettu_read_report r = vazhettu_read(STORE, lost, PAGE, page, sizeof page);
    if (r.status != VAZHETTU_DONE)
        printf("  read     refused %d\n", (int)r.status);
    else
        printf("  read     done, reads %d: the page says %s (%s)\n", (int)r.reads,
               page[0] ? (const char *)page : "nothing", origins[r.origin]);
}

/* Tickets of lot 7, weights in grams. */
static void weigh_bag(uint16_t bag, uint32_t gross, uint32_t tare, uint64_t allowance) {
    uint8_t ticket[16];
    vazhettu_ticket(ticket, VAZHETTU_WEIGHT, 7, bag, gross, tare);
    say("add", vazhettu_add(STORE, lost, ticket, sizeof ticket, allowance));
}

static void withdraw_bag(uint16_t bag, uint64_t allowance) {
    uint8_t ticket[16];
    vazhettu_ticket(ticket, VAZHETTU_WITHDRAWAL, 7, bag, 0, 0);
    say("add", vazhettu_add(STORE, lost, ticket, sizeof ticket, allowance));
}

static void find_bag(uint16_t bag) {
    struct vazhettu_find_report r = vazhettu_find(STORE, lost, 7, bag);
    if (r.status != VAZHETTU_DONE)
        printf("  find     refused %d\n", (int)r.status);
    else if (r.standing)
        printf("  find     done, reads %d: bag %d has %u g gross, %u g tare (%s)\n", (int)r.reads, bag,
               (unsigned)r.gross, (unsigned)r.tare, origins[r.origin]);
    else /* the origin is the greatest of the log's pages */
        printf("  find     done, reads %d: bag %d has no weight (%s)\n", (int)r.reads, bag, origins[r.origin]);
}

int main(void) {
    printf("Monday: a new store\n");
    say("format", vazhettu_format(STORE, VAZHETTU_NO_LIMIT));
    read_page();
    write_page("60.14 kg", VAZHETTU_NO_LIMIT);
    read_page();

    printf("Tuesday: the power goes while the bag is weighed again\n");
    write_page("60.09 kg", 2);
    read_page(); /* a write that was cut is not made */
    say("open", vazhettu_open(STORE, lost, VAZHETTU_NO_LIMIT)); /* whenever power comes back */
    write_page("60.09 kg", VAZHETTU_NO_LIMIT);
    read_page();

    printf("Wednesday: an idle hour, time for the parity page\n");
    say("commit", vazhettu_commit(STORE, lost, STRIPE, VAZHETTU_NO_LIMIT));
    say("commit", vazhettu_commit(STORE, lost, STRIPE, VAZHETTU_NO_LIMIT)); /* 10, no work: all is committed */

    printf("Thursday: the block is full, and the power goes while it is collected\n");
    write_page("60.11 kg", VAZHETTU_NO_LIMIT);
    say("collect", vazhettu_collect(STORE, lost, CHIP, 3));
    read_page();                                                /* reads work meanwhile */
    write_page("60.12 kg", VAZHETTU_NO_LIMIT);                  /* 6: a collection is under way */
    say("open", vazhettu_open(STORE, lost, VAZHETTU_NO_LIMIT)); /* takes it back, or finishes it */
    say("collect", vazhettu_collect(STORE, lost, CHIP, VAZHETTU_NO_LIMIT));
    write_page("60.12 kg", VAZHETTU_NO_LIMIT);

    printf("Friday: chip 2 is dead\n");
    memset(chips + CHIP * VAZHETTU_CHIP_LEN(W, K, B), 0xee, VAZHETTU_CHIP_LEN(W, K, B));
    read_page(); /* 5: the chips do not fit the records, one of them is to be named */
    lost = CHIP;
    read_page();                               /* rebuilt without it, and it says so */
    write_page("60.13 kg", VAZHETTU_NO_LIMIT); /* 9: a write needs all chips */

    printf("Saturday: a new chip, a new store, and tickets in it\n");
    lost = VAZHETTU_NO_CHIP;
    say("format", vazhettu_format(STORE, VAZHETTU_NO_LIMIT));
    weigh_bag(1, 60140, 140, VAZHETTU_NO_LIMIT);
    weigh_bag(2, 59870, 140, VAZHETTU_NO_LIMIT);
    weigh_bag(3, 60020, 150, VAZHETTU_NO_LIMIT);
    withdraw_bag(2, 2); /* the power goes */
    find_bag(2);        /* an addition that was cut is not made: the log is as it was */
    say("open", vazhettu_open(STORE, lost, VAZHETTU_NO_LIMIT));
    withdraw_bag(2, VAZHETTU_NO_LIMIT);          /* so it is made again */
    weigh_bag(4, 140, 60140, VAZHETTU_NO_LIMIT); /* 11: tare is above gross */
    find_bag(1); /* off its chip */
    say("commit", vazhettu_commit(STORE, lost, 0, VAZHETTU_NO_LIMIT)); /* an idle hour again */

    printf("Sunday: chip 0 is dead, which had the ticket of bag 1\n");
    memset(chips, 0xee, VAZHETTU_CHIP_LEN(W, K, B));
    lost = 0;
    find_bag(1);                                 /* rebuilt without it */
    find_bag(2);                                 /* withdrawn: page 0 was rebuilt to know it */
    find_bag(3);                                 /* as it was weighed, off chip 2 */
    find_bag(4);                                 /* not in the log */
    weigh_bag(4, 60140, 140, VAZHETTU_NO_LIMIT); /* 9: an addition needs all chips */
    return 0;
}
