/*
 * The eight calls from C, by what the header says: pages are written and read back, tickets are added and found, after a cut,
 * with a chip lost, after a commit and after a collection; a damaged store is refused with nothing changed. All buffers are on
 * the heap and of their exact lengths, so that a tool that watches it sees every byte beyond; the store is formatted in memory
 * that nobody has written.
 */
#include "vazhettu.h"

#include <stdio.h>
#include <stdlib.h>
#include <string.h>

#define N 4
#define W 32
#define K 4
#define B 4
#define S 6
#define M 2
#define NONE VAZHETTU_NO_CHIP
#define ALL VAZHETTU_NO_LIMIT
#define UNWRITTEN VAZHETTU_ORIGIN_UNWRITTEN
#define DIRECT VAZHETTU_ORIGIN_DIRECT
#define PARTIAL VAZHETTU_ORIGIN_PARTIAL
#define FULL VAZHETTU_ORIGIN_FULL

static const struct vazhettu_geometry g = {N, W, K, B, S, M};

enum { CHIP = VAZHETTU_CHIP_LEN(W, K, B) };

struct store {
    uint8_t *chips, *records, *slots;
};

#define CHIPS VAZHETTU_CHIPS_LEN(N, W, K, B)
#define RECORDS VAZHETTU_RECORDS_LEN(S)
#define SLOTS VAZHETTU_SLOTS_LEN(W, M)
#define STORE store.chips, CHIPS, store.records, RECORDS, store.slots, SLOTS

static struct store store, saved;
static uint8_t *page;

static int failures;

static void expect(int holds, const char *what) {
    if (!holds) {
        printf("FAILED: %s\n", what);
        failures++;
    }
}

static uint8_t *bytes(size_t length) {
    uint8_t *memory = malloc(length);
    if (!memory)
        exit(2);
    return memory;
}

static struct store new_store(void) {
    struct store new = {bytes(CHIPS), bytes(RECORDS), bytes(SLOTS)};
    return new;
}

static void copy_store(struct store *to, const struct store *from) {
    memcpy(to->chips, from->chips, CHIPS);
    memcpy(to->records, from->records, RECORDS);
    memcpy(to->slots, from->slots, SLOTS);
}

static int same_store(void) {
    return !memcmp(store.chips, saved.chips, CHIPS) && !memcmp(store.records, saved.records, RECORDS) &&
           !memcmp(store.slots, saved.slots, SLOTS);
}

static void free_store(struct store *old) {
    free(old->chips);
    free(old->records);
    free(old->slots);
}

static int answers(struct vazhettu_report r, uint64_t status, uint64_t reads, uint64_t programs, uint64_t erases,
                   uint64_t stores) {
    return r.status == status && r.reads == reads && r.programs == programs && r.erases == erases && r.stores == stores;
}

/* Refused with this number, and counts of zero. */
static int refused(struct vazhettu_report r, uint64_t status) {
    return answers(r, status, 0, 0, 0, 0);
}

static struct vazhettu_report write_page(uint64_t lost, uint64_t number, uint8_t fill, uint64_t allowance) {
    uint8_t *data = bytes(W);
    memset(data, fill, W);
    struct vazhettu_report r = vazhettu_write(g, STORE, lost, number, data, W, allowance);
    free(data);
    return r;
}

static int read_answers(struct vazhettu_read_report r, uint64_t status, uint64_t reads, uint64_t origin) {
    return r.status == status && r.reads == reads && r.programs == 0 && r.erases == 0 && r.stores == 0 &&
           r.origin == origin;
}

/* Refused with this number, counts of zero, and an origin of 0. */
static int read_refused(struct vazhettu_read_report r, uint64_t status) {
    return read_answers(r, status, 0, 0);
}

static struct vazhettu_read_report read_page(uint64_t lost, uint64_t number) {
    return vazhettu_read(g, STORE, lost, number, page, W);
}

/* The page reads as bytes of one value, with so many pages read for it, and was got so. */
static int reads_as(uint64_t lost, uint64_t number, uint8_t fill, uint64_t reads, uint64_t origin) {
    uint8_t expected[W];
    memset(expected, fill, W);
    memset(page, ~fill, W);
    return read_answers(read_page(lost, number), VAZHETTU_DONE, reads, origin) && !memcmp(page, expected, W);
}

/* Takes the bytes of a chip away, and puts them back. */
static uint8_t own[CHIP];

static void take_chip(uint64_t chip) {
    memcpy(own, store.chips + chip * CHIP, CHIP);
    memset(store.chips + chip * CHIP, 0x5a, CHIP);
}

static void put_back(uint64_t chip) {
    memcpy(store.chips + chip * CHIP, own, CHIP);
}

/* The page reads so with the bytes of that chip gone. */
static int reads_without(uint64_t chip, uint64_t number, uint8_t fill, uint64_t reads, uint64_t origin) {
    take_chip(chip);
    int as_written = reads_as(chip, number, fill, reads, origin);
    put_back(chip);
    return as_written;
}

static struct vazhettu_report add_bytes(uint64_t lost, const uint8_t *from, size_t length, uint64_t allowance) {
    uint8_t *ticket = bytes(length);
    memcpy(ticket, from, length);
    struct vazhettu_report r = vazhettu_add(g, STORE, lost, ticket, length, allowance);
    free(ticket);
    return r;
}

static struct vazhettu_report add(uint8_t kind, uint16_t bag, uint32_t lot, uint32_t gross, uint32_t tare, uint64_t allowance) {
    uint8_t ticket[16];
    vazhettu_ticket(ticket, kind, lot, bag, gross, tare);
    return add_bytes(NONE, ticket, 16, allowance);
}

/* A weight of a bag of lot 7. */
static struct vazhettu_report weigh(uint16_t bag, uint32_t gross, uint32_t tare, uint64_t allowance) {
    return add(VAZHETTU_WEIGHT, bag, 7, gross, tare, allowance);
}

static int finds(struct vazhettu_find_report r, uint64_t status, uint64_t reads, uint64_t standing, uint64_t gross,
                 uint64_t tare, uint64_t origin) {
    return r.status == status && r.reads == reads && r.programs == 0 && r.erases == 0 && r.stores == 0 &&
           r.standing == standing && r.gross == gross && r.tare == tare && r.origin == origin;
}

/* For the bag of lot 7 this weight stands, found with so many pages read, in a page that was got so. */
static int stands(uint64_t lost, uint16_t bag, uint32_t gross, uint32_t tare, uint64_t reads, uint64_t origin) {
    return finds(vazhettu_find(g, STORE, lost, 7, bag), VAZHETTU_DONE, reads, 1, gross, tare, origin);
}

/* The origin is the greatest of the log's pages. */
static int none_stands(uint64_t lost, uint16_t bag, uint64_t reads, uint64_t origin) {
    return finds(vazhettu_find(g, STORE, lost, 7, bag), VAZHETTU_DONE, reads, 0, 0, 0, origin);
}

/* A find is refused with this number, and nothing else. */
static int find_refused(uint64_t lost, uint64_t status) {
    return finds(vazhettu_find(g, STORE, lost, 7, 1), status, 0, 0, 0, 0, 0);
}

static void test_origins(void) {
    expect(UNWRITTEN == 0 && DIRECT == 1 && PARTIAL == 2 && FULL == 3, "the numbers that say how a page was got");
}

static void test_lengths(void) {
    expect(CHIP == 16 * 40 && CHIPS == 5 * 16 * 40 && RECORDS == 7 * 32 && SLOTS == 3 * 32, "the lengths");
    expect(VAZHETTU_CHIPS_LEN(g.n, g.w, g.k, g.b) == CHIPS, "the same of a geometry at hand");
    expect(VAZHETTU_CHIPS_LEN(6, 4096, 85, 771) == 1882689480, "the longest there is");
}

static void test_stores(void) {
    expect(VAZHETTU_FORMAT_STORES(N, B, S) == 27 && VAZHETTU_OPEN_STORES(K) == 6, "the stores of a format and an open");
    expect(VAZHETTU_COLLECT_STORES(K) == 10 && VAZHETTU_COMMIT_STORES(K) == 12 && VAZHETTU_WRITE_STORES(K) == 25,
           "those of a collection, a commit and a write");
    expect(VAZHETTU_FORMAT_STORES(g.n, g.b, g.s) == 27 && VAZHETTU_WRITE_STORES(g.k) == 25, "the same of a geometry at hand");
    expect(VAZHETTU_WRITE_STORES(128) == 521, "the most that any call but a format makes");
    expect(2 * VAZHETTU_FORMAT_STORES(N << 0, B << 1, S << 1) == 106 && 2 * VAZHETTU_OPEN_STORES(K << 1) == 20 &&
               2 * VAZHETTU_COLLECT_STORES(K << 1) == 36 && 2 * VAZHETTU_COMMIT_STORES(K << 1) == 40 &&
               2 * VAZHETTU_WRITE_STORES(K << 1) == 82,
           "any expression will do");
}

/* Nobody has written the buffers before the first format; the slots stay so until the store writes them. */
static void test_format(void) {
    expect(answers(vazhettu_format(g, STORE, 26), VAZHETTU_CUT, 0, 0, 20, 26), "a format is cut one store early");
    expect(answers(vazhettu_format(g, STORE, 27), VAZHETTU_DONE, 0, 0, 20, 27), "a format is done");
    expect(answers(vazhettu_open(g, STORE, NONE, 0), VAZHETTU_DONE, 0, 0, 0, 0), "an open has nothing to do");
    expect(reads_as(NONE, 23, 0, 0, UNWRITTEN), "a page never written reads zeros");
    page[0] = 7;
    expect(read_refused(read_page(NONE, 24), VAZHETTU_BAD_REQUEST) && page[0] == 7, "no page 24");
    expect(read_refused(read_page(5, 0), VAZHETTU_BAD_LOST_CHIP), "no chip 5");
    expect(read_refused(vazhettu_read(g, STORE, NONE, 0, page, 0), VAZHETTU_BAD_DATA), "no page of no bytes");
}

/* Pages 1 and 2 are members 1 and 2 of stripe 0, on chips 1 and 2. */
static void test_write(void) {
    expect(answers(write_page(NONE, 1, 0xa5, 2), VAZHETTU_CUT, 0, 1, 0, 2), "a write is cut");
    expect(reads_as(NONE, 1, 0, 0, UNWRITTEN), "a cut write was not made");
    expect(answers(write_page(NONE, 1, 0xa5, 3), VAZHETTU_DONE, 0, 1, 0, 3), "a write is done");
    expect(answers(write_page(NONE, 2, 0x0f, ALL), VAZHETTU_DONE, 0, 1, 0, 3), "another page");
    expect(answers(write_page(NONE, 1, 0x11, ALL), VAZHETTU_DONE, 1, 1, 0, 3), "a second write reads the first");
    expect(answers(write_page(NONE, 1, 0x77, 2), VAZHETTU_CUT, 1, 1, 0, 2), "a third is cut");
    expect(reads_as(NONE, 1, 0x11, 1, DIRECT) && reads_as(NONE, 2, 0x0f, 1, DIRECT), "what is written reads back");
    expect(refused(write_page(NONE, 24, 1, 9), VAZHETTU_BAD_REQUEST), "no page 24 to write");
    expect(refused(vazhettu_write(g, STORE, NONE, 1, page, W - 1, 9), VAZHETTU_BAD_DATA), "a page has w bytes");
}

static void test_lost_chip(void) {
    expect(reads_without(1, 1, 0x11, 1, PARTIAL), "rebuilt from the partial parity and page 2");
    expect(reads_without(1, 0, 0, 0, UNWRITTEN), "a page never written needs no rebuilding");
    expect(reads_without(1, 5, 0, 0, UNWRITTEN), "nor does one of the lost chip");
    expect(reads_without(1, 2, 0x0f, 1, DIRECT), "another chip's page reads as ever");
    expect(read_refused(vazhettu_read(g, STORE, 1, 1, page, W - 1), VAZHETTU_BAD_DATA), "refused, it has no origin");
    expect(refused(write_page(1, 3, 0x22, 9), VAZHETTU_CHIP_LOST), "no write with a chip lost");
    expect(refused(vazhettu_commit(g, STORE, 1, 0, 9), VAZHETTU_CHIP_LOST), "no commit with a chip lost");
    expect(refused(vazhettu_collect(g, STORE, 1, 0, 9), VAZHETTU_CHIP_LOST), "no collection with a chip lost");
}

static void test_commit(void) {
    expect(answers(vazhettu_commit(g, STORE, NONE, 0, 1), VAZHETTU_CUT, 0, 1, 0, 1), "a commit is cut");
    expect(reads_without(1, 1, 0x11, 1, PARTIAL), "after which the partial parity still counts");
    expect(answers(vazhettu_commit(g, STORE, NONE, 0, 2), VAZHETTU_DONE, 0, 1, 0, 2), "a commit is done");
    expect(refused(vazhettu_commit(g, STORE, NONE, 0, 2), VAZHETTU_NO_WORK), "a stripe is committed once");
    expect(refused(vazhettu_commit(g, STORE, NONE, 6, 2), VAZHETTU_BAD_REQUEST), "no stripe 6");
    expect(reads_without(1, 1, 0x11, 2, FULL), "rebuilt from the parity page and page 2");
}

/* The first block of chip 1 is full. Its third page is page 1; the others were cut or written over. */
static void test_collect(void) {
    copy_store(&saved, &store);
    for (uint64_t allowance = 0; allowance < 6; allowance++) {
        struct vazhettu_report r = vazhettu_collect(g, STORE, NONE, 1, allowance);
        expect(r.status == VAZHETTU_CUT && r.stores == allowance, "a collection is cut");
        expect(reads_as(NONE, 1, 0x11, 1, DIRECT) && reads_without(1, 1, 0x11, 2, FULL),
               "meanwhile pages read as ever");
        if (allowance > 0)
            expect(refused(write_page(NONE, 1, 1, 9), VAZHETTU_COLLECTION_UNDER_WAY), "it is to be finished first");
        expect(refused(vazhettu_open(g, STORE, 1, ALL), VAZHETTU_DONE), "an open with a chip lost makes no store");
        expect(vazhettu_open(g, STORE, NONE, ALL).status == VAZHETTU_DONE, "an open finishes it");
        expect(reads_as(NONE, 1, 0x11, 1, DIRECT) && reads_without(1, 1, 0x11, 2, FULL), "and then they do, too");
        copy_store(&store, &saved);
    }
    expect(answers(vazhettu_collect(g, STORE, NONE, 1, 6), VAZHETTU_DONE, 1, 1, 1, 6), "a collection is done");
    expect(refused(vazhettu_collect(g, STORE, NONE, 1, 6), VAZHETTU_NO_WORK), "no full block is left");
    expect(refused(vazhettu_collect(g, STORE, NONE, 5, 6), VAZHETTU_BAD_REQUEST), "no chip 5 to collect");
    expect(reads_as(NONE, 1, 0x11, 1, DIRECT) && reads_without(1, 1, 0x11, 2, FULL), "the copy reads as the page did");
}

/* Chip 1 has eleven places before its last clean block; the write that comes to that one collects. */
static void test_room(void) {
    for (uint8_t i = 0; i < 11; i++)
        expect(write_page(NONE, 1, i, ALL).erases == 0, "there is a place");
    struct vazhettu_report r = write_page(NONE, 1, 0x3c, 4 * K + 13);
    expect(r.status == VAZHETTU_DONE && r.erases == 1 && r.stores > 3, "a write that finds no place collects");
    expect(reads_as(NONE, 1, 0x3c, 1, DIRECT) && reads_without(1, 1, 0x3c, 0, PARTIAL), "and is made");
    expect(reads_without(2, 2, 0x0f, 2, FULL), "page 2 is rebuilt from parity and the old page 1");
    write_page(NONE, 4, 0x44, ALL);
    expect(answers(write_page(NONE, 8, 0x48, ALL), VAZHETTU_DONE, 2, 2, 0, 5), "a third partial parity commits the first");
    expect(reads_without(1, 1, 0x3c, 2, FULL) && reads_without(2, 2, 0x0f, 2, FULL),
           "whose pages are rebuilt from parity");
    expect(reads_without(0, 4, 0x44, 0, PARTIAL) && reads_without(0, 8, 0x48, 0, PARTIAL),
           "and those of the others from their slots");
}

static void test_damage(void) {
    store.chips[W + (W + 8) * 12] = 68;
    expect(read_page(NONE, 0).status == VAZHETTU_DONE, "a used page that no record names is sound");
    store.chips[W + (W + 8) * 12] = 255;
    store.chips[W + (W + 8) * 13] = 68;
    memset(store.slots + 2 * W, 0x2b, W); /* nobody has written it so far, and it is compared below */
    copy_store(&saved, &store);
    expect(refused(write_page(NONE, 0, 9, 9), VAZHETTU_BAD_SPARES), "a used page behind a clean one");
    expect(refused(vazhettu_open(g, STORE, NONE, 9), VAZHETTU_BAD_SPARES), "is found by every call");
    expect(refused(vazhettu_collect(g, STORE, NONE, 1, 9), VAZHETTU_BAD_SPARES), "also about another chip");
    expect(read_page(0, 4).status == VAZHETTU_DONE, "but not on the lost chip");
    saved.records[31] = store.records[31] = 1;
    expect(refused(vazhettu_commit(g, STORE, NONE, 0, 9), VAZHETTU_BAD_RECORDS), "records are looked at before");
    struct vazhettu_geometry other = g;
    other.k = UINT64_MAX;
    expect(refused(vazhettu_collect(other, STORE, NONE, 0, 9), VAZHETTU_BAD_GEOMETRY), "any number may be given");
    other = g;
    other.w = 48;
    expect(refused(vazhettu_commit(other, STORE, NONE, 0, 9), VAZHETTU_BAD_BUFFERS), "and any length");
    expect(same_store(), "a refused call changes nothing");
    expect(vazhettu_format(g, STORE, ALL).status == VAZHETTU_DONE, "a format takes whatever there is");
    expect(!memcmp(store.slots, saved.slots, SLOTS), "slots stay");
}

static void test_ticket(void) {
    const uint8_t expected[16] = {1, 0, 1, 2, 3, 4, 5, 6, 7, 8, 9, 0xfa, 0xfb, 0xfc, 0xfd, 0xfe};
    uint8_t ticket[16];
    memset(ticket, 0x5a, 16);
    vazhettu_ticket(ticket, VAZHETTU_WEIGHT, 0x06050403, 0x0201, 0xfa090807, 0xfefdfcfb);
    expect(!memcmp(ticket, expected, 16), "the bytes of a ticket");
}

/* The store is as a format leaves it. A page has two tickets; pages 0 and 1 stand on chips 0 and 1. */
static void test_add(void) {
    uint8_t tickets[2 * W] = {0};
    expect(none_stands(NONE, 1, 0, UNWRITTEN) && none_stands(0, 1, 0, UNWRITTEN), "the log of a new store is empty");
    expect(answers(weigh(1, 60140, 140, 2), VAZHETTU_CUT, 0, 1, 0, 2), "an addition is cut");
    expect(none_stands(NONE, 1, 0, UNWRITTEN), "and is not in the log");
    expect(answers(weigh(1, 60140, 140, 3), VAZHETTU_DONE, 0, 1, 0, 3), "an addition is done");
    expect(stands(NONE, 1, 60140, 140, 1, DIRECT), "and is in the log");
    expect(answers(weigh(2, 59870, 140, ALL), VAZHETTU_DONE, 2, 1, 0, 3), "one more to page 0 reads it for log and write");
    expect(answers(weigh(3, 1, 0, 0), VAZHETTU_CUT, 1, 0, 0, 0), "cut before all stores it has the reads of the log");
    expect(none_stands(NONE, 3, 1, DIRECT), "page 1 was never written");
    expect(answers(add(VAZHETTU_WEIGHT, UINT16_MAX, UINT32_MAX, UINT32_MAX, UINT32_MAX, ALL), VAZHETTU_DONE, 1, 1, 0, 3),
           "every number may be the largest");
    vazhettu_ticket(tickets, VAZHETTU_WEIGHT, 7, 1, 60140, 140);
    vazhettu_ticket(tickets + 16, VAZHETTU_WEIGHT, 7, 2, 59870, 140);
    vazhettu_ticket(tickets + 32, VAZHETTU_WEIGHT, UINT32_MAX, UINT16_MAX, UINT32_MAX, UINT32_MAX);
    expect(read_page(NONE, 0).status == VAZHETTU_DONE && !memcmp(page, tickets, W), "page 0 has two tickets");
    expect(read_page(NONE, 1).status == VAZHETTU_DONE && !memcmp(page, tickets + W, W), "page 1 has one");
}

static void test_find(void) {
    expect(finds(vazhettu_find(g, STORE, NONE, UINT32_MAX, UINT16_MAX), VAZHETTU_DONE, 2, 1, UINT32_MAX, UINT32_MAX,
                 DIRECT),
           "the largest numbers");
    expect(finds(vazhettu_find(g, STORE, NONE, 1, 7), VAZHETTU_DONE, 2, 0, 0, 0, DIRECT),
           "bag 7 of lot 1 is not bag 1 of lot 7");
    expect(answers(add(VAZHETTU_WITHDRAWAL, 2, 7, 0, 0, ALL), VAZHETTU_DONE, 3, 1, 0, 3), "a withdrawal");
    expect(none_stands(NONE, 2, 2, DIRECT) && stands(NONE, 1, 60140, 140, 2, DIRECT),
           "leaves nothing of bag 2, and bag 1 as it was");
    expect(answers(weigh(1, 60090, 140, ALL), VAZHETTU_DONE, 2, 1, 0, 3), "a bag is weighed again");
    expect(answers(weigh(2, 0, 0, ALL), VAZHETTU_DONE, 4, 1, 0, 3), "and one that was withdrawn");
    for (uint64_t chip = 0; chip <= N; chip++) {
        /* Both bags have their latest ticket in page 2, on chip 2. */
        uint64_t reads = chip < 3 ? 4 : 3, given = chip == 2 ? PARTIAL : DIRECT, none = chip < 3 ? PARTIAL : DIRECT;
        take_chip(chip);
        expect(stands(chip, 1, 60090, 140, reads, given) && stands(chip, 2, 0, 0, reads, given),
               "the latest stands, whichever chip is lost");
        expect(none_stands(chip, 3, reads, none), "and of bag 3 there is none");
        put_back(chip);
    }
}

/* The log has six tickets. The next falls in page 3, on chip 3. */
static void test_log_and_collection(void) {
    for (int i = 0; i < K; i++)
        expect(answers(weigh(3, 50000, 100, 1), VAZHETTU_CUT, 3, 1, 0, 1), "an addition that is cut uses up a page");
    expect(answers(vazhettu_collect(g, STORE, NONE, 3, 1), VAZHETTU_CUT, 0, 0, 0, 1), "their block is being collected");
    expect(refused(weigh(3, 50000, 100, ALL), VAZHETTU_COLLECTION_UNDER_WAY), "no ticket is added meanwhile");
    expect(stands(NONE, 1, 60090, 140, 3, DIRECT) && stands(2, 1, 60090, 140, 4, PARTIAL), "but tickets are found");
    expect(vazhettu_open(g, STORE, NONE, ALL).status == VAZHETTU_DONE, "an open finishes it");
    expect(answers(weigh(3, 50000, 100, ALL), VAZHETTU_DONE, 3, 1, 0, 3), "and then they are added");
}

/* Writes a page of two tickets, of which the first has kind 0. */
static void write_behind(uint64_t number, uint8_t rest, uint8_t kind, uint16_t bag) {
    memset(page, rest, W);
    page[0] = 0;
    vazhettu_ticket(page + 16, kind, 7, bag, 0, 0);
    expect(vazhettu_write(g, STORE, NONE, number, page, W, ALL).status == VAZHETTU_DONE, "a page may hold anything");
}

/* The log has seven tickets; the end is in page 3. */
static void test_behind_the_end(void) {
    write_behind(4, 0, 3, 6);
    write_behind(5, 0xff, VAZHETTU_WEIGHT, 6);
    weigh(4, 40000, 0, ALL);
    expect(stands(NONE, 4, 40000, 0, 5, DIRECT), "the log ends before a ticket that breaks the rules");
    expect(weigh(5, 40100, 0, ALL).status == VAZHETTU_DONE, "and takes one more");
    expect(find_refused(NONE, VAZHETTU_BAD_TICKET) && find_refused(0, VAZHETTU_BAD_TICKET), "then that one is found");
    expect(refused(weigh(7, 40200, 0, ALL), VAZHETTU_BAD_TICKET), "also where one more is added");
    expect(refused(add(VAZHETTU_WEIGHT, 7, 7, 1, 2, ALL), VAZHETTU_BAD_TICKET), "be it right or not");
    expect(read_page(NONE, 4).status == VAZHETTU_DONE, "reads and writes do not ask for the rules");
    memset(page + 16, 0, 16);
    expect(vazhettu_write(g, STORE, NONE, 4, page, W, ALL).status == VAZHETTU_DONE, "and a write mends the page");
    expect(stands(NONE, 5, 40100, 0, 5, DIRECT) && none_stands(NONE, 6, 5, DIRECT), "the log ends there again");
    weigh(7, 40200, 0, ALL);
    expect(none_stands(NONE, 6, 6, DIRECT), "a ticket behind the end does not stand");
    weigh(8, 40300, 0, ALL);
    expect(stands(NONE, 6, 0, 0, 6, DIRECT) && stands(NONE, 8, 40300, 0, 6, DIRECT), "until the log has come to it");
}

/* Given, the ticket is refused with this number. */
static int add_refused(uint64_t lost, const uint8_t *ticket, size_t length, uint64_t status) {
    return refused(add_bytes(lost, ticket, length, ALL), status);
}

static void test_tickets_refused(void) {
    const uint8_t weight[17] = {1, 0, 1, 0, 7, 0, 0, 0, 2, 0, 0, 0, 2}, empty[16] = {0};
    copy_store(&saved, &store);
    expect(add_refused(NONE, weight, 15, VAZHETTU_BAD_DATA), "a ticket has 16 bytes");
    expect(add_refused(NONE, weight, 17, VAZHETTU_BAD_DATA), "and no more");
    expect(add_refused(NONE, weight, 0, VAZHETTU_BAD_DATA), "nor none");
    expect(add_refused(0, weight, 15, VAZHETTU_BAD_DATA), "which is asked first");
    expect(add_refused(0, weight, 16, VAZHETTU_CHIP_LOST), "no addition with a chip lost");
    expect(add_refused(0, empty, 16, VAZHETTU_CHIP_LOST), "whatever the ticket");
    expect(add_refused(5, weight, 16, VAZHETTU_BAD_LOST_CHIP) && find_refused(5, VAZHETTU_BAD_LOST_CHIP), "no chip 5");
    expect(add_refused(NONE, empty, 16, VAZHETTU_BAD_TICKET), "an empty ticket cannot be added");
    expect(refused(add(3, 1, 7, 2, 2, ALL), VAZHETTU_BAD_TICKET), "there is no kind 3");
    expect(refused(weigh(1, 2, 3, ALL), VAZHETTU_BAD_TICKET), "tare is never above gross");
    expect(refused(weigh(1, 255, 256, ALL), VAZHETTU_BAD_TICKET), "in all its bytes");
    expect(refused(add(VAZHETTU_WITHDRAWAL, 1, 7, 1, 0, ALL), VAZHETTU_BAD_TICKET), "a withdrawal has no gross");
    expect(refused(add(VAZHETTU_WITHDRAWAL, 1, 7, 1, 1, ALL), VAZHETTU_BAD_TICKET), "nor a tare");
    for (int i = 0; i < 2; i++) {
        uint8_t other[16];
        memcpy(other, weight, 16);
        other[i] = 4;
        expect(add_refused(NONE, other, 16, VAZHETTU_BAD_TICKET), "the first two bytes are what they must be");
    }
    expect(same_store(), "a refused addition changes nothing");
    struct vazhettu_geometry other = g;
    other.n = 7;
    expect(refused(vazhettu_add(other, STORE, NONE, weight, 16, ALL), VAZHETTU_BAD_GEOMETRY) &&
               finds(vazhettu_find(other, STORE, NONE, 7, 1), VAZHETTU_BAD_GEOMETRY, 0, 0, 0, 0, 0),
           "a geometry outside the limits");
    other.n = 3;
    expect(refused(vazhettu_add(other, STORE, NONE, weight, 16, ALL), VAZHETTU_BAD_BUFFERS) &&
               finds(vazhettu_find(other, STORE, NONE, 7, 1), VAZHETTU_BAD_BUFFERS, 0, 0, 0, 0, 0),
           "one that is not the buffers'");
    take_chip(1);
    expect(add_refused(NONE, weight, 16, VAZHETTU_BAD_SPARES) && find_refused(NONE, VAZHETTU_BAD_SPARES), "a chip not named");
    put_back(1);
    store.records[31] = 1;
    expect(add_refused(NONE, weight, 16, VAZHETTU_BAD_RECORDS) && find_refused(NONE, VAZHETTU_BAD_RECORDS), "a bad record");
    store.records[31] = 0;
}

/* Pages 0 to 5 are full of tickets. */
static void test_full_log(void) {
    for (int i = 12; i < N * S * 2; i++)
        expect(weigh((uint16_t)(i % 3), (uint32_t)i, 0, 4 * K + 13).status == VAZHETTU_DONE, "there is a place");
    copy_store(&saved, &store);
    expect(refused(weigh(1, 1, 0, ALL), VAZHETTU_FULL_LOG), "a log that fills every page is full");
    expect(refused(weigh(1, 0, 1, ALL), VAZHETTU_BAD_TICKET), "which is asked last");
    expect(same_store(), "a full log stays as it is");
    expect(stands(NONE, 0, 45, 0, 24, DIRECT) && stands(NONE, 2, 47, 0, 24, DIRECT),
           "all its pages are read, to the last place");
    for (uint64_t chip = 0; chip <= N; chip++) {
        take_chip(chip);
        struct vazhettu_find_report r = vazhettu_find(g, STORE, chip, 7, 1);
        expect(r.gross == 46 && r.origin == (chip == 3 ? PARTIAL : DIRECT), "also without one of the chips");
        expect(vazhettu_find(g, STORE, chip, 7, 9).origin == FULL, "and each has pages that were committed");
        put_back(chip);
    }
    memset(page, 0x5a, W);
    vazhettu_write(g, STORE, NONE, 23, page, W, ALL);
    expect(refused(weigh(1, 1, 0, ALL), VAZHETTU_BAD_TICKET), "a ticket that breaks the rules is found before that");
}

int main(void) {
    store = new_store();
    saved = new_store();
    page = bytes(W);
    test_origins();
    test_lengths();
    test_stores();
    test_format();
    test_write();
    test_lost_chip();
    test_commit();
    test_collect();
    test_room();
    test_damage();
    test_ticket();
    test_add();
    test_find();
    test_log_and_collection();
    test_behind_the_end();
    test_tickets_refused();
    test_full_log();
    free(page);
    free_store(&saved);
    free_store(&store);
    printf("calls from C: %s\n", failures ? "failed" : "passed");
    return failures != 0;
}
