//! The points that the calls must come by, as far as they are no cells of a table; `groups` has all of them.

/// "Where a call is turned back": the calls with the numbers of their refusals.
pub const TABLE: [(&str, &[u64]); 8] = [
    ("format", &[1, 2]),
    ("open", &[1, 2, 3, 4, 5]),
    ("read", &[1, 2, 3, 4, 5, 7, 8]),
    ("write", &[1, 2, 3, 4, 5, 6, 7, 8, 9]),
    ("commit", &[1, 2, 3, 4, 5, 6, 7, 9, 10]),
    ("collect", &[1, 2, 3, 4, 5, 6, 7, 9, 10]),
    ("add", &[1, 2, 3, 4, 5, 6, 8, 9, 11, 12]),
    ("find", &[1, 2, 3, 4, 5, 11]),
];

/// The calls that make no store.
pub const READING: [&str; 2] = ["read", "find"];

/// The requests of the calls that have one: what it is, the highest number, and the number behind it.
pub const REQUESTS: [(&str, &str, &str, &str); 4] = [
    ("read", "page", "N x S - 1", "N x S"),
    ("write", "page", "N x S - 1", "N x S"),
    ("commit", "stripe", "S - 1", "S"),
    ("collect", "chip", "N", "N + 1"),
];

/// Allowances that count where the list is shorter: wider numbers each, and the highest.
pub const AMPLE: [(u64, &str); 6] = [
    (1 << 8, "2^8"),
    (1 << 16, "2^16"),
    (1 << 32, "2^32"),
    (1 << 59, "2^59"),
    (1 << 63, "2^63"),
    (u64::MAX, "2^64 - 1"),
];

pub const IMAGES: [&str; 3] = ["chips", "records", "slots"];

pub const FORMAT: [&str; 5] = [
    "format cut in the erases",
    "format cut in the records",
    "format cut before phase 0",
    "format of more than 65,536 stores done",
    "format of more than 65,535 stores cut",
];

pub const OPEN: [&str; 19] = [
    "open in phase 0",
    "open in phase 1",
    "open in phase 2",
    "open in phase 1 cut before the erase",
    "open in phase 1 cut before phase 0",
    "open in phase 2 cut in the records",
    "open in phase 2 cut before the erase",
    "open in phase 2 cut before phase 0",
    "open in phase 2 without record stores",
    "open in phase 2 with two or more record stores",
    "open in phase 2 of a parity page",
    "open in phase 2 of current and old page of one stripe",
    "open in phase 2 cut in the records, copies out of order",
    "open with a chip lost in phase 0",
    "open with a chip lost in phase 1",
    "open with a chip lost in phase 2",
    "open with the collection's chip lost",
    "open at allowance 0 done",
    "open at stripe 32,768 or above",
];

pub const READ: [&str; 25] = [
    "read direct",
    "read direct with another chip lost",
    "read direct of zeros that were written",
    "read zeros",
    "read zeros on the lost chip",
    "read rebuilt through partial alone",
    "read rebuilt through partial and pages",
    "read rebuilt through slot M",
    "read rebuilt through slot 254",
    "read rebuilt through parity",
    "read rebuilt through parity with an old page",
    "read rebuilt through parity with a set member without old page",
    "read rebuilt through parity beside a page of none",
    "read rebuilt through parity alone",
    "read rebuilt with W = 4,096",
    "read rebuilt, another page than stands on the lost chip",
    "read in phase 0",
    "read in phase 1",
    "read in phase 2",
    "read with the collection's chip lost",
    "read with the collection on another chip than the lost one",
    "read at stripe 32,768 or above",
    "read of logical page 65,536 or above",
    "read of page 32,768 or above",
    "read of page 65,534",
];

pub const WRITE: [&str; 35] = [
    "write at 65,535 pages to a chip",
    "write at stripe 32,768 or above",
    "write of logical page 65,536 or above",
    "write to a page from 32,768 on",
    "write with W = 4,096, partial xor current page xor data",
    "write of zeros",
    "write of 255s",
    "write, partial is the data",
    "write, partial xor data",
    "write, partial xor current page xor data",
    "write of a page without current number",
    "write of a page outside the partial parity, old becomes current",
    "write again under one partial parity, with an old page",
    "write again under one partial parity, without old page",
    "write of a stripe without slot",
    "write of a stripe with a slot",
    "write into slot 0",
    "write into slot M",
    "write into slot 254",
    "write into a slot above its own",
    "write into a slot below its own",
    "write into the slot that its commit left",
    "write that only writes",
    "write that commits",
    "write that collects",
    "write that commits and collects for its page",
    "write that commits and collects for the parity page",
    "write that commits and collects for both pages",
    "write and its commit on one chip",
    "write commits one of two stripes of equal cost",
    "write commits another stripe than the first with a slot",
    "write commits a stripe with fewer set bits than another",
    "write with M records with a slot, its own among them",
    "write, its collection moves a page of its stripe",
    "write, its commit's collection moves a page of its stripe",
];

pub const COMMIT: [&str; 14] = [
    "commit at 65,535 pages to a chip",
    "commit at stripe 32,768 or above",
    "commit with W = 4,096",
    "commit completes the stripe",
    "commit completes the stripe, parity none",
    "commit completes the stripe beside a page of none",
    "commit of all N pages",
    "commit with p = ceil(N / 2)",
    "commit with p = floor(N / 2), N odd",
    "commit adds to the old parity",
    "commit adds, parity none",
    "commit adds, an old page of none",
    "commit that collects",
    "commit, its collection moves a page of its stripe",
];

pub const COLLECTION: [&str; 22] = [
    "collect at 65,535 pages to a chip",
    "collection with victims tied",
    "collection of another block than the first with an unnamed page",
    "collection beside a full block of named pages",
    "collection beside a begun block",
    "collection with two or more clean blocks",
    "collection to a block below the victim",
    "collection to a block above the victim",
    "collection of a block from 256 on",
    "collection to a block from 256 on",
    "collection without copies",
    "collection of K - 1 copies",
    "collection with W = 4,096",
    "collection of an old page",
    "collection of a parity page",
    "collection of current and old page of one stripe",
    "collection of current and old page of one stripe, the current one first",
    "collection of a page that was copied before",
    "collection of a page from 32,768 on",
    "collection at stripe 32,768 or above",
    "collection of a page with other last bytes",
    "collection to a clean page that is not all 255",
];

/// Of an addition's list, where a write has the same.
pub const ADDITION: [&str; 16] = [
    "addition, partial is the data",
    "addition, partial xor data",
    "addition, partial xor current page xor data",
    "addition of a page without current number",
    "addition of a page outside the partial parity, old becomes current",
    "addition again under one partial parity, with an old page",
    "addition again under one partial parity, without old page",
    "addition into slot M",
    "addition that only writes",
    "addition that commits",
    "addition that collects",
    "addition that commits and collects for its page",
    "addition that commits and collects for the parity page",
    "addition that commits and collects for both pages",
    "addition, its collection moves a page of its stripe",
    "addition, its commit's collection moves a page of its stripe",
];

pub const ADD: [&str; 13] = [
    "add at 65,535 pages to a chip",
    "add of a weight",
    "add of a withdrawal",
    "add of a weight of 0 grams",
    "add of a weight with tare equal to gross",
    "add of a lot and a bag that have a ticket",
    "add keeps the tickets before it in its page",
    "add keeps the bytes behind it in its page",
    "add over what stood behind a kind of 0",
    "add that fills its page",
    "add that fills the log",
    "add to logical page 65,536 or above",
    "add cut before its first store, with reads of the log",
];

/// Where the log ends, for an addition and for a question.
pub const LOG_ENDS: [&str; 15] = [
    "an empty log",
    "a log that ends at a page border",
    "a log that ends just before a page border",
    "a log that ends just behind a page border",
    "a log that ends in a page never written",
    "a log that ends in a page never written, before a written one",
    "a log that ends in a written page",
    "a log that ends at a ticket of kind 0, not all zero",
    "a log with a bad ticket behind its end, in its page",
    "a log with a bad ticket behind its end, in the next page",
    "a log that ends in the last page",
    "a log with room for one ticket",
    "a log of one ticket to a page",
    "a log of 256 tickets to a page",
    "a log of more than 65,536 pages",
];

pub const FIND: [&str; 34] = [
    "find in phase 0",
    "find in phase 1",
    "find in phase 2",
    "find with the collection's chip lost",
    "find with the collection on another chip than the lost one",
    "find with no chip lost",
    "find with a chip lost, no ticket of the log on it",
    "find through the partial parity and the full one",
    "find over a log that fills every page",
    "find over a log that fills every page, a chip lost",
    "find, its log ends in a page never written, on the lost chip",
    "find, a ticket of it behind the log's end",
    "find none in an empty log",
    "find none of a lot and a bag that are not there",
    "find none of a lot that is not there, its bag is",
    "find none of a bag that is not there, its lot is",
    "find none of a lot and a bag that are there apart",
    "find none, withdrawn",
    "find none, a withdrawal alone",
    "find a weight",
    "find a weight, the only ticket of it",
    "find a weight that replaced another",
    "find a weight that replaced another, of an earlier page",
    "find a weight after a withdrawal",
    "find a weight, the first ticket of the log",
    "find a weight, the last ticket of the log",
    "find a weight of 0 grams",
    "find a weight with tare equal to gross",
    "find a weight of 2^31 grams or more",
    "find a tare of 2^31 grams or more",
    "find a weight, the bag of another lot behind it",
    "find a weight, another bag of the lot behind it",
    "find a weight, a lot alike in its lower half behind it",
    "find a weight, a bag alike in its lower byte behind it",
];

/// How a page was got, in the order of the numbers that are said.
pub const ORIGINS: [&str; 4] =
    ["never written", "direct", "through the partial parity", "through the full parity"];

/// What says an origin, and the lowest that it can say: a page with a ticket was written, and so was every page of a
/// full log.
pub const SAYING: [(&str, usize); 9] = [
    ("read", 0),
    ("find a weight", 1),
    ("find a weight, the log full", 1),
    ("find none, no such ticket", 0),
    ("find none, withdrawn", 1),
    ("find none, the log full", 1),
    ("page held", 0),
    ("log held, a weight stands", 1),
    ("log held, none stands", 0),
];

pub const ORIGIN: [&str; 14] = [
    "origin of a read never written, on the lost chip",
    "origin of a find, a weight in a page of a lower one than the greatest",
    "origin of a find, weighed before in a page of a higher one",
    "origin of a find, weighed before in a page of a lower one",
    "origin of a find, withdrawn in a page of a lower one",
    "origin of a find, none, of the page with the log's end alone",
    "origin of a find, none, of a page before one never written",
    "origin of a find, none, of a page before a written one with the log's end",
    "origin of a find, none, of the last page alone, the log full",
    "origin of a find, none, of a page before the last, the log full",
    "origin of a read refused 8, its page direct",
    "origin of a read refused 8, its page on the lost chip",
    "origin of a find refused 11, its pages direct",
    "origin of a find refused 11, a page on the lost chip",
];

/// The places of a ticket that breaks a rule, in the log of an addition and of a question.
pub const BAD_PLACES: [&str; 6] = [
    "bad ticket first of the log",
    "bad ticket behind others of its page",
    "bad ticket behind the first page",
    "bad ticket last before the log's end",
    "bad ticket in a log that fills every page",
    "bad ticket last in a log that fills every page",
];

pub const LOG_REFUSALS: [&str; 5] = [
    "bad ticket given, the log is full",
    "bad ticket given, another one in the log",
    "bad ticket in a page of the lost chip: find",
    "log is full, one ticket to a page",
    "log is full, more tickets to a page",
];

/// Where a place is found, for a write and for a commit.
pub const PLACES: [&str; 8] = [
    "in a begun block",
    "in the lower of two begun blocks",
    "in a begun block above a clean one",
    "in a fresh block",
    "in a fresh block below a full one",
    "on a clean page that is not all 255",
    "after a collection, behind its copies",
    "after a collection without copies",
];

/// The collections of a call, each cut in each of its parts.
pub const COLLECTIONS: [&str; 6] = [
    "collect",
    "collection of a commit",
    "collection of a write",
    "collection of a write's commit",
    "collection of an addition",
    "collection of an addition's commit",
];

pub const COLLECTION_PARTS: [&str; 6] = [
    "before phase 1",
    "in the copies",
    "before phase 2",
    "in the records",
    "before the erase",
    "before phase 0",
];

pub const CUTS: [&str; 12] = [
    "write cut before the page",
    "write cut before the slot",
    "write cut before the record",
    "commit cut before the parity page",
    "commit cut before the record",
    "commit of a write cut before the parity page",
    "commit of a write cut before the record",
    "addition cut before the page",
    "addition cut before the slot",
    "addition cut before the record",
    "commit of an addition cut before the parity page",
    "commit of an addition cut before the record",
];

pub const MADE_IMAGES: [&str; 28] = [
    "images by calls in phase 0",
    "images by calls in phase 1",
    "images by calls in phase 2",
    "images built in phase 0",
    "images built in phase 1",
    "images built in phase 2",
    "images by additions in phase 0",
    "images by additions in phase 1",
    "images by additions in phase 2",
    "images built in phase 0 with a log",
    "images built in phase 1 with a log",
    "images built in phase 2 with a log",
    "images garbage",
    "images garbage but sound",
    "images of 65,535 pages to a chip",
    "images of more than 2^24 bytes",
    "images one byte too short",
    "images one byte too long",
    "images 65,536 bytes too long",
    "images with K and B exchanged, refused",
    "images with K and B exchanged, not refused",
    "lost chip filled with random bytes",
    "lost chip filled with 0",
    "lost chip filled with 255",
    "lost chip with its own bytes",
    "lost chip's pages renamed",
    "damage on the lost chip alone, done",
    "damage on another chip than the lost one, refused",
];

pub const ALLOWANCES: [&str; 9] = [
    "every allowance: format",
    "every allowance: open",
    "every allowance: write",
    "every allowance: commit",
    "every allowance: collect",
    "every allowance: add",
    "every allowance: write that commits and collects",
    "every allowance: add that commits and collects",
    "every allowance: list of 100 stores or more",
];

pub const LISTS: [&str; 28] = [
    "list of 300 calls or more",
    "list with 50 collections or more",
    "list with 50 commits or more",
    "list with k = 2",
    "list with k = 128",
    "list with b = 2",
    "list with b = 1,024",
    "list with s = 1",
    "list with s + m + 1 = (b - 1) x k",
    "list with m = 1",
    "list with m = 254",
    "list with w = 4,096",
    "list with a write after a cut that left phase 0",
    "list with a write refused after a cut",
    "list with a cut open opened again",
    "list with a cut format, then a whole one",
    "list with every page written",
    "list with a chip taken, then opened",
    "list with a chip taken, then written",
    "list with a chip taken, then every page read",
    "list with a chip taken in phase 1 or 2",
    "list with a log that fills every page",
    "list with a log that fills every page, more tickets to a page",
    "list with 50 additions or more",
    "list with an addition after a cut one",
    "list with an addition refused after a cut",
    "list with a chip taken, then added to",
    "list with a chip taken, then asked",
];

pub const BOOK: [&str; 17] = [
    "book held with no chip lost",
    "book held with a chip filled with random bytes",
    "book held with a chip filled with 0",
    "book held with a chip filled with 255",
    "book held with a chip with its own bytes",
    "book held in phase 0",
    "book held in phase 1",
    "book held in phase 2",
    "book held after a cut write",
    "book held after a cut commit",
    "book held after a cut collect",
    "book held after a cut open",
    "book held after a cut add",
    "book held whole: every page, every chip, every filling, in phase 0",
    "book held whole: every page, every chip, every filling, in phase 1",
    "book held whole: every page, every chip, every filling, in phase 2",
    "book held in part, of a large store",
];

/// The answers to questions, held against the book's log.
pub const LOG_HELD: [&str; 18] = [
    "log held with no chip lost",
    "log held with a chip filled with random bytes",
    "log held with a chip filled with 0",
    "log held with a chip filled with 255",
    "log held with a chip with its own bytes",
    "log held in phase 0",
    "log held in phase 1",
    "log held in phase 2",
    "log held after a cut write",
    "log held after a cut commit",
    "log held after a cut collect",
    "log held after a cut open",
    "log held after a cut add",
    "log held, a weight stands",
    "log held, none stands",
    "log held, refused 11",
    "log held, it fills every page",
    "log held of 100 tickets or more",
];

pub const BUFFERS: [&str; 11] = [
    "buffers that end at a guard page",
    "buffers that begin at a guard page",
    "buffers at any byte",
    "buffers that format may only read, sealed",
    "buffers that open may only read, sealed",
    "buffers that read may only read, sealed",
    "buffers that write may only read, sealed",
    "buffers that commit may only read, sealed",
    "buffers that collect may only read, sealed",
    "buffers that add may only read, sealed",
    "buffers that find may only read, sealed",
];
