/*
 * The weight store: flash chips run as RAID-5 with delayed partial parity. Six calls keep pages: format, open, read, write,
 * commit, collect. Two keep a log of tickets, the weights of bags, in these pages: add, find.
 *
 * A store of n data pages to a stripe has n + 1 chips, and is three buffers that the caller lends to every call:
 *   chips    the chips end to end, each of b blocks of k pages; a page is w data bytes and 8 spare bytes
 *   records  s + 1 records of 32 bytes: the page map, and a collection under way
 *   slots    m + 1 partial parities of w bytes
 * Records and slots are the holding memory: they must outlast a loss of power. The calls see and change these bytes
 * alone. What the bytes mean is in docs/FORMAT.md; a caller needs it only to read them without the store.
 *
 * The store has n * s logical pages. Page i is in stripe i / n.
 *
 * What a caller must keep:
 *   - Each pointer has as many bytes behind it as the length beside it says, and is not null, also where the length is 0.
 *   - No two buffers of one call overlap.
 *   - Nobody else writes the buffers of a call, or reads those that it may change, until it returns.
 * All else is checked: every number and every byte may be anything, and a call that cannot be made is refused.
 *
 * What the store promises, from a format that was done until the next one, as long as every call has its geometry and nobody
 * else writes the buffers: whatever was cut or refused, every page reads as its last write that was done, or as zeros if there is
 * none; an add writes the page that its ticket falls in. This stands when any one chip is lost and its bytes become anything, if
 * each call from then on names that chip. What is said below of how pages read, and of the log, is said of such a store.
 *
 * What this says of a loss of power rests on the device. A call stores to plain memory: it promises the bytes of its
 * buffers when it returns, and not the order in which compiled code, caches, write buffers or a driver of the flash bring
 * them to the chips. So the device must see to one of these: power lasts until the call has returned and its stores
 * are on the chips (the allowance is for that); or the stores reach the chips in their order, each of them whole, and power
 * may go between any two. In both the holding memory keeps its bytes. docs/INTEGRATION.md says how.
 *
 * What a call needs: no alignment of any buffer, no memory but the buffers and less than 16 KB of stack (measured), and of the C
 * library memcpy and memset. It does no input or output, keeps nothing from one call to the next, and always ends. So
 * calls on different stores may be made at once, from threads or interrupts, and so may reads and finds of one store, as long as
 * no other call has its buffers. Only a format may be given memory that nobody has written yet; the slots may stay so after it.
 * Every other call looks at each record, and at the spare bytes of each page but the lost chip's: its time grows with the store.
 * Add and find do that once, and then get each page of the log: their time grows with the log besides.
 *
 * The numbers in the buffers are little-endian. The library is built for x86-64.
 */
#ifndef VAZHETTU_H
#define VAZHETTU_H

#include <stddef.h>
#include <stdint.h>

#ifdef __cplusplus
extern "C" {
#endif

struct vazhettu_geometry {
    uint64_t n; /* data pages to a stripe, 2 to 6 */
    uint64_t w; /* data bytes to a page, 16 to 4096, a multiple of 16 */
    uint64_t k; /* pages to a block, 2 to 128 */
    uint64_t b; /* blocks to a chip, 2 to 1024; b * k at most 65535 */
    uint64_t s; /* stripes, 1 to 65535 */
    uint64_t m; /* partial parities, 1 to 254; s + m + 1 at most (b - 1) * k */
};

/*
 * The lengths of the buffers, for numbers within these limits, and of one chip; they are constants where the numbers are. Chip c
 * begins at chips + c * VAZHETTU_CHIP_LEN(w, k, b).
 */
#define VAZHETTU_CHIP_LEN(w, k, b) ((size_t)(b) * (size_t)(k) * ((size_t)(w) + 8))
#define VAZHETTU_CHIPS_LEN(n, w, k, b) (((size_t)(n) + 1) * VAZHETTU_CHIP_LEN(w, k, b))
#define VAZHETTU_RECORDS_LEN(s) (((size_t)(s) + 1) * 32)
#define VAZHETTU_SLOTS_LEN(w, m) (((size_t)(m) + 1) * (size_t)(w))

/*
 * What a call answers; a read and a find answer these numbers first, and more behind them. A call that is refused has
 * counts of zero and has changed nothing, its buffer or data included. A call that is cut has the counts of the stores
 * that it made, and an add those of the log besides. The answers of read and find are longer than in the release
 * before: what calls them must be compiled again with this header.
 */
struct vazhettu_report {
    uint64_t status;   /* VAZHETTU_DONE, VAZHETTU_CUT, or the refusal */
    uint64_t reads;    /* pages read, of data or parity; not slots, nor looks at spare bytes and records */
    uint64_t programs; /* pages programmed */
    uint64_t erases;   /* blocks erased */
    uint64_t stores;   /* stores made: programs, erases, slots and records */
};

/*
 * A call is checked from 1 to 12, and the first that applies is its answer. 1 and 2 are for every call, 3 to 5 for all but
 * format, 6 and 9 for write, commit, collect and add, 7 for read, write, commit and collect, 8 for read, write and add, 10 for
 * commit and collect, 11 for add and find, 12 for add. An add looks for 11 at its own ticket first, then at those of the log. A
 * format is only ever refused 1 or 2, an open 1 to 5, a find 1 to 5 or 11; a read or a find is never cut.
 */
enum {
    VAZHETTU_DONE = 0,
    /* A number of the geometry is outside its limits. */
    VAZHETTU_BAD_GEOMETRY = 1,
    /* Chips, records or slots have another length than the geometry asks for. */
    VAZHETTU_BAD_BUFFERS = 2,
    /* The lost chip is neither VAZHETTU_NO_CHIP nor 0 to n. */
    VAZHETTU_BAD_LOST_CHIP = 3,
    /*
     * The records are not sound: never formatted, a format cut, another geometry, or damaged. No call but a format takes
     * them, and a format loses every page.
     */
    VAZHETTU_BAD_RECORDS = 4,
    /*
     * The chips do not fit the records. If it is the fault of one chip, calls that name it as lost are not refused for it.
     * A call that names a chip makes no store, so each chip may be tried. Data bytes are not looked at.
     */
    VAZHETTU_BAD_SPARES = 5,
    /* A collection was cut: vazhettu_open finishes it, and then the call can be made. Reads and finds need not wait. */
    VAZHETTU_COLLECTION_UNDER_WAY = 6,
    /* There is no such page, stripe or chip. */
    VAZHETTU_BAD_REQUEST = 7,
    /* The buffer or the data is not of w bytes, or the ticket not of 16. */
    VAZHETTU_BAD_DATA = 8,
    /*
     * A chip is named as lost, and the call needs them all. Reads and finds do not: to go on with a new chip, read every page,
     * format, and write them again.
     */
    VAZHETTU_CHIP_LOST = 9,
    /* There is nothing to do: the stripe has no partial parity, or no full block of the chip has a page to give up. */
    VAZHETTU_NO_WORK = 10,
    /*
     * A ticket breaks its rules: the one that is given, or one in the log. An add never puts such a ticket into a page, so one in
     * the log is from a write, and a write can mend its page.
     */
    VAZHETTU_BAD_TICKET = 11,
    /* The log fills every page, and takes no ticket more. */
    VAZHETTU_FULL_LOG = 12,
    /*
     * More stores were due than the allowance. Those that were made stand whole, and no other byte has changed. After a format
     * that was cut, format again; after any other call, call vazhettu_open, and make the call again if it is still wanted.
     */
    VAZHETTU_CUT = 255
};

/*
 * The lost chip of a call that names none. The caller says which chip is lost, the store does not find out. From its loss on
 * a chip is to be named in every call, also when power has come back.
 */
#define VAZHETTU_NO_CHIP 255

/*
 * The allowance is the number of stores that a call may make, what the capacitor still holds: the call makes no more, and is
 * cut exactly where more are due. Where stores happen in order and whole (see above), a loss of power between two of them
 * leaves what a cut there leaves.
 *
 * These are the stores that a call needs at most, and a format exactly; they are proved of all buffers that the call does not
 * refuse. With such an allowance it is never cut. A board designer chooses the part by them: a capacitor that holds
 * VAZHETTU_WRITE_STORES(k) stores, each counted as the dearest, and the work of one call beside them, carries every call but
 * a format to its end.
 */
#define VAZHETTU_FORMAT_STORES(n, b, s) (((uint64_t)(n) + 1) * (uint64_t)(b) + (uint64_t)(s) + 1)
#define VAZHETTU_OPEN_STORES(k) ((uint64_t)(k) + 2)
#define VAZHETTU_COLLECT_STORES(k) (2 * (uint64_t)(k) + 2)
#define VAZHETTU_COMMIT_STORES(k) (2 * (uint64_t)(k) + 4)
#define VAZHETTU_WRITE_STORES(k) (4 * (uint64_t)(k) + 9) /* of a write, and of an add */

/* With this allowance no call is cut. */
#define VAZHETTU_NO_LIMIT UINT64_MAX

/*
 * Makes the buffers an empty store, in which every page reads as zeros: erases every block, stores every record empty. What was
 * in the buffers does not matter, and the slots stay as they are. After a cut, or if power went, the other calls may refuse
 * the buffers, and nothing is promised of what they read: format again.
 */
struct vazhettu_report vazhettu_format(struct vazhettu_geometry g, uint8_t *chips, size_t chips_len, uint8_t *records,
                                       size_t records_len, const uint8_t *slots, size_t slots_len, uint64_t allowance);

/*
 * Finishes a collection that a cut or a loss of power left under way, or takes it back where it had only copied; without one it
 * makes no store. To be called whenever power comes back, before any other call. Every page reads as before. With a chip
 * named as lost it makes no store either, and the collection stays: reads work all the same.
 */
struct vazhettu_report vazhettu_open(struct vazhettu_geometry g, uint8_t *chips, size_t chips_len, uint8_t *records,
                                     size_t records_len, const uint8_t *slots, size_t slots_len, uint64_t lost,
                                     uint64_t allowance);

/*
 * The origin of a page: how it was got. A settlement desk prints it beside a weight, to say whether that came off a
 * chip or was rebuilt. A read and a find that are done carry one, an add does not. A refused report has 0 there, which
 * is no origin: look at the status first.
 *
 * A page was never written where no write of it, and no add into it, was done since the last format. One that was cut
 * or refused does not count; a page written with zeros is written.
 *
 * A page that reads as before keeps its bytes; a commit may turn the origin that it has with its chip named from
 * VAZHETTU_ORIGIN_PARTIAL to VAZHETTU_ORIGIN_FULL, also a commit that a write or an add makes first, even if that
 * write or add is then cut.
 */
enum {
    /* The page was never written, and is zeros; also where its chip is lost. */
    VAZHETTU_ORIGIN_UNWRITTEN = 0,
    /* The page was read off its own chip. */
    VAZHETTU_ORIGIN_DIRECT = 1,
    /* Its chip is lost, and it was rebuilt through the partial parity of its stripe, which is in a slot. */
    VAZHETTU_ORIGIN_PARTIAL = 2,
    /* Its chip is lost, and it was rebuilt through the full parity of its stripe, which is on another chip. */
    VAZHETTU_ORIGIN_FULL = 3
};

/*
 * What a read answers: the numbers of a report, of which programs, erases and stores are always zero, and the origin
 * of its page.
 */
struct vazhettu_read_report {
    uint64_t status;
    uint64_t reads;
    uint64_t programs;
    uint64_t erases;
    uint64_t stores;
    uint64_t origin; /* VAZHETTU_ORIGIN_UNWRITTEN to VAZHETTU_ORIGIN_FULL; no origin where the read is refused */
};

/*
 * Fills the buffer, of w bytes, with logical page `page`, below n * s: zeros where it was never written, and rebuilt from slots
 * and other chips where its own is named as lost. Makes no store, and works while a collection is under way. The
 * origin says which of these it was.
 */
struct vazhettu_read_report vazhettu_read(struct vazhettu_geometry g, const uint8_t *chips, size_t chips_len,
                                          const uint8_t *records, size_t records_len, const uint8_t *slots,
                                          size_t slots_len, uint64_t lost, uint64_t page, uint8_t *buffer,
                                          size_t buffer_len);

/*
 * Writes the w bytes to logical page `page`, below n * s. Once done, the page reads as these bytes and every other page as
 * before; cut or refused, every page reads as before. It programs the page, stores the new partial parity into a free slot, and
 * last the record. If the page's stripe has no slot and m others have, the one of them that is cheapest is committed first, and
 * a chip without a place for a page is collected first: no write is refused for want of space.
 */
struct vazhettu_report vazhettu_write(struct vazhettu_geometry g, uint8_t *chips, size_t chips_len, uint8_t *records,
                                      size_t records_len, uint8_t *slots, size_t slots_len, uint64_t lost, uint64_t page,
                                      const uint8_t *bytes, size_t bytes_len, uint64_t allowance);

/*
 * Commits stripe `stripe`, below s, which must have a partial parity: programs its parity page, and stores its record without
 * slot. A chip without a place for the page is collected first. Every page reads as before. Nobody has to call it: a write
 * commits when it must. Refused VAZHETTU_NO_WORK where no page of the stripe was written since its last commit.
 */
struct vazhettu_report vazhettu_commit(struct vazhettu_geometry g, uint8_t *chips, size_t chips_len, uint8_t *records,
                                       size_t records_len, const uint8_t *slots, size_t slots_len, uint64_t lost,
                                       uint64_t stripe, uint64_t allowance);

/*
 * Collects chip `chip`, at most n: of the full blocks with a page that no record names, the one with fewest named pages is the
 * victim; these are copied to the lowest clean block, and the victim is erased. Every page reads as before. Nobody has to
 * call it: a write or a commit collects when it must. Refused VAZHETTU_NO_WORK where there is no such block.
 */
struct vazhettu_report vazhettu_collect(struct vazhettu_geometry g, uint8_t *chips, size_t chips_len, uint8_t *records,
                                        size_t records_len, const uint8_t *slots, size_t slots_len, uint64_t lost, uint64_t chip,
                                        uint64_t allowance);

/*
 * A ticket is 16 bytes:
 *   0         kind: 0 empty, 1 weight, 2 withdrawal
 *   1         zero
 *   2, 3      bag
 *   4 to 7    lot
 *   8 to 11   gross, in grams
 *   12 to 15  tare, in grams
 * Its rules: the kind is 1 or 2, byte 1 is zero, a withdrawal has both weights zero, and tare is not above gross.
 *
 * Tickets fill the logical pages in order from page 0, w / 16 to a page. The log ends at the first of kind 0, whatever the other
 * bytes of that one are; all before it are in the log. After a format it is empty. Of the tickets in the log with one lot and
 * bag the latest stands.
 *
 * The pages are those of vazhettu_read and vazhettu_write, and a write may put anything there. What stands behind the end is not
 * looked at until an add fills the place of the end; then it is in the log, up to the next of kind 0, and if it breaks the rules,
 * add and find are refused from then on. So pages that the log may come to are best left to it.
 */
#define VAZHETTU_WEIGHT 1
#define VAZHETTU_WITHDRAWAL 2

/* Makes the 16 bytes of a ticket, and checks nothing. */
static inline void vazhettu_ticket(uint8_t out[16], uint8_t kind, uint32_t lot, uint16_t bag, uint32_t gross, uint32_t tare) {
    int i;
    out[0] = kind;
    out[1] = 0;
    out[2] = (uint8_t)bag;
    out[3] = (uint8_t)(bag >> 8);
    for (i = 0; i < 4; i++) {
        out[4 + i] = (uint8_t)(lot >> 8 * i);
        out[8 + i] = (uint8_t)(gross >> 8 * i);
        out[12 + i] = (uint8_t)(tare >> 8 * i);
    }
}

/*
 * Adds the ticket, of 16 bytes, to the log: writes the page that the log's end falls in, with the ticket there and all other
 * bytes kept, store by store as vazhettu_write does. Once done, the ticket is in the log, behind all that were there; cut or
 * refused, the log is as before; and so it stays, whichever chip is lost later. It counts the reads of the log, of each page up
 * to and including the one that the ticket falls in, also where it is cut at allowance 0, and to these the counts of the write.
 * A page never written is no read.
 */
struct vazhettu_report vazhettu_add(struct vazhettu_geometry g, uint8_t *chips, size_t chips_len, uint8_t *records,
                                    size_t records_len, uint8_t *slots, size_t slots_len, uint64_t lost, const uint8_t *ticket,
                                    size_t ticket_len, uint64_t allowance);

/*
 * What a find answers: the numbers of a report, of which programs, erases and stores are always zero, what stands, and
 * an origin.
 */
struct vazhettu_find_report {
    uint64_t status;
    uint64_t reads;
    uint64_t programs;
    uint64_t erases;
    uint64_t stores;
    uint64_t standing; /* 1 where a weight stands; else 0, and so are gross and tare */
    uint64_t gross;    /* in grams */
    uint64_t tare;     /* in grams */
    uint64_t origin;   /* VAZHETTU_ORIGIN_UNWRITTEN to VAZHETTU_ORIGIN_FULL; no origin where the find is refused */
};

/*
 * Finds what stands for the lot and bag: a weight if the latest ticket with both is one, and nothing if that is a withdrawal or
 * there is none. Makes no store, and works with a chip lost and while a collection is under way. It counts the reads of each page
 * up to and including the one with the log's end once, of all pages where the log is full. Lot and bag are of 32 and 16 bits: C
 * makes larger numbers fit without a word.
 *
 * Where a weight stands, the origin is that of the page with its ticket, whatever those of other pages are. Where
 * nothing stands, it is the greatest of the pages up to and including the one with the log's end, of all pages where
 * the log is full: if it is below VAZHETTU_ORIGIN_PARTIAL, nothing was rebuilt to know this.
 */
struct vazhettu_find_report vazhettu_find(struct vazhettu_geometry g, const uint8_t *chips, size_t chips_len,
                                          const uint8_t *records, size_t records_len, const uint8_t *slots, size_t slots_len,
                                          uint64_t lost, uint32_t lot, uint16_t bag);

/*
 * Three tickets, one that is cut, a chip lost, and questions; STORE is geometry and buffers, as they stand in every call, after
 * a format, and tests/c/example.c is a whole program:
 *
 *     vazhettu_ticket(t, VAZHETTU_WEIGHT, 7, 1, 60140, 140);
 *     vazhettu_add(STORE, VAZHETTU_NO_CHIP, t, 16, VAZHETTU_NO_LIMIT);    done: bag 1 of lot 7
 *     vazhettu_ticket(t, VAZHETTU_WEIGHT, 7, 2, 59870, 140);
 *     vazhettu_add(STORE, VAZHETTU_NO_CHIP, t, 16, VAZHETTU_NO_LIMIT);    done: bag 2
 *     vazhettu_ticket(t, VAZHETTU_WITHDRAWAL, 7, 1, 0, 0);
 *     vazhettu_add(STORE, VAZHETTU_NO_CHIP, t, 16, VAZHETTU_NO_LIMIT);    done: bag 1 is withdrawn
 *     vazhettu_ticket(t, VAZHETTU_WITHDRAWAL, 7, 2, 0, 0);
 *     vazhettu_add(STORE, VAZHETTU_NO_CHIP, t, 16, 2);                    cut: power goes behind two of its stores
 *     memset(chips, 0xee, VAZHETTU_CHIP_LEN(w, k, b));                    chip 0 is dead
 *     vazhettu_find(STORE, 0, 7, 1);                                      standing 0: withdrawn
 *     vazhettu_find(STORE, 0, 7, 2);                                      standing 1, gross 59870, tare 140
 *     vazhettu_find(STORE, 0, 7, 3);                                      standing 0: not in the log
 *
 * With n = 4 and w = 16 bag 2 is in page 1, on chip 1, and the origin is VAZHETTU_ORIGIN_DIRECT. That of the other two
 * finds is VAZHETTU_ORIGIN_PARTIAL: page 0 was rebuilt to know that nothing stands.
 */

#ifdef __cplusplus
}
#endif

#endif
