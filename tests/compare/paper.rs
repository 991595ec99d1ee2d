//! The worked cases of document 01, with its own numbers and bytes, through the library and through the reference; and
//! what document 02 says of tickets and of origins, worked out.

use crate::calls::{Call, Comparison};
use crate::generator::ALL;
use crate::library::Answer;
use crate::random::Random;
use crate::reference::{Geometry, Images, Status, CUT, DONE, NO_CHIP};

type Case = fn(&mut Comparison);

/// Those of its sections "Bags on the pan" and "Thumbs on the scale", and of requests 1 and 2.
pub const CASES: [(&str, Case); 26] = [
    ("paper: the seven lines of the bench program", seven_lines),
    ("paper: every byte after the seven lines", every_byte),
    ("paper: every byte after a format", after_format),
    ("paper: parity chips at N = 4", parity_chips),
    ("paper: chips of pages at N = 4", page_chips),
    ("paper: reads of a commit at N = 4", |to| reads_of_commits(to, &FOUR)),
    ("paper: reads of a commit at N = 5", |to| reads_of_commits(to, &FIVE)),
    ("paper: stripe of least cost at N = 4", |to| least_cost(to, &FOUR)),
    ("paper: stripe of least cost at N = 5", |to| least_cost(to, &FIVE)),
    ("paper: 771 x 85 accepted", |to| accepted(to, geometry(2, 85, 771, 1, 1), 3 * 771)),
    ("paper: 512 x 128 refused 1", |to| refused(to, geometry(2, 128, 512, 1, 1))),
    ("paper: S = 9 accepted, 10 refused 1", nine_and_ten),
    ("paper: a first write takes 3 stores", first_write),
    ("paper: a page outside the bitmap from old pages", outside_the_bitmap),
    ("paper: the old number does not move again", second_write),
    ("paper: no victim erased that a record names", collection_store_by_store),
    ("paper: no slot reused that a record names", slot_of_a_cut_write),
    ("paper: the bytes of a ticket", bytes_of_a_ticket),
    ("paper: the log's reads, also when cut", reads_of_the_log),
    ("paper: a cut addition leaves the log", cut_addition),
    ("paper: the latest ticket stands, if it is a weight", latest_stands),
    ("paper: tickets that break the rules, given and found", breaking_tickets),
    ("paper: a log that fills every page", full_log),
    ("paper: a bad ticket behind the log's end", behind_the_end),
    ("paper: how a page was got", origins_of_pages),
    ("paper: a ticket given carries its page's origin, none the log's last", origins_of_findings),
];

/// N and the cost for p = 1, 2, ..
const FOUR: (u64, &[u64]) = (4, &[2, 2, 1, 0]);
const FIVE: (u64, &[u64]) = (5, &[2, 3, 2, 1, 0]);

pub fn run(to: &mut Comparison) {
    for (point, case) in CASES {
        to.about = point.to_string();
        case(to);
        to.coverage.hit(point);
    }
}

/// W is 16 in most of them.
fn geometry(n: u64, k: u64, b: u64, s: u64, m: u64) -> Geometry {
    Geometry { n, w: 16, k, b, s, m }
}

fn bench_geometry() -> Geometry {
    geometry(4, 4, 4, 6, 2)
}

/// A store in both implementations; what it answers and holds must be what the paper says.
struct ComparedStore<'a> {
    to: &'a mut Comparison,
    random: Random,
    g: Geometry,
    images: Images,
    lost: u64,
}

impl ComparedStore<'_> {
    /// Images of 0x5a, as nobody has formatted them.
    fn unformatted(to: &mut Comparison, g: Geometry) -> ComparedStore<'_> {
        let pages = (g.n + 1) * g.b * g.k;
        let [chips, records, slots] =
            [pages * (g.w + 8), (g.s + 1) * 32, (g.m + 1) * g.w].map(|length| vec![0x5a; length as usize]);
        ComparedStore {
            to,
            random: Random::new(1),
            g,
            images: Images { chips, records, slots },
            lost: NO_CHIP,
        }
    }

    fn new(to: &mut Comparison, g: Geometry) -> ComparedStore<'_> {
        let mut store = ComparedStore::unformatted(to, g);
        let status = store.call(Call::Format { allowance: ALL }).0;
        store.holds(status == DONE, "a format is done");
        store
    }

    fn holds(&self, condition: bool, what: &str) {
        if !condition {
            self.to.fail(self.g, &format!("the paper says otherwise: {what}"));
        }
    }

    /// Status, reads, programs, erases, stores.
    fn call(&mut self, call: Call) -> (u64, [u64; 4]) {
        let s = self.to.call(&mut self.random, self.g, &mut self.images, &call);
        (s.status, [s.reads, s.programs, s.erases, s.stores])
    }

    fn write_allowed(&mut self, page: u64, byte: u8, allowance: u64) -> (u64, [u64; 4]) {
        self.call(Call::Write { lost: self.lost, page, data: vec![byte; 16], allowance })
    }

    fn write(&mut self, page: u64, byte: u8) -> [u64; 4] {
        let (status, counts) = self.write_allowed(page, byte, 65_535);
        self.holds(status == DONE, &format!("the write of page {page} is done"));
        counts
    }

    fn commit(&mut self, stripe: u64) -> [u64; 4] {
        let (status, counts) = self.call(Call::Commit { lost: self.lost, stripe, allowance: 65_535 });
        self.holds(status == DONE, &format!("the commit of stripe {stripe} is done"));
        counts
    }

    fn answer(&mut self, call: Call) -> Answer {
        self.to.answer(&mut self.random, self.g, &mut self.images, &call)
    }

    /// The page as it reads, with what the read answers.
    fn read(&mut self, page: u64) -> (Vec<u8>, Answer) {
        self.to.page(&mut self.random, self.g, &mut self.images, self.lost, page)
    }

    /// Where a chip is lost its bytes are gone meanwhile.
    fn without<T>(&mut self, lost: u64, then: impl FnOnce(&mut Self) -> T) -> T {
        let own = self.images.chips.clone();
        if lost != NO_CHIP {
            let len = (self.g.b * self.g.k * 24) as usize;
            self.images.chips[lost as usize * len..][..len].fill(0xc3);
        }
        self.lost = lost;
        let found = then(self);
        self.lost = NO_CHIP;
        self.images.chips = own;
        found
    }

    /// The page reads as the byte, also where a chip is lost.
    fn reads_as(&mut self, lost: u64, page: u64, byte: u8, reads: u64) {
        let (bytes, answer) = self.without(lost, |store| store.read(page));
        let as_said = bytes == [byte; 16] && answer.status.reads == reads;
        self.holds(as_said, &format!("page {page} is {byte} after {reads} reads"));
    }

    /// The 24 bytes of a page of a chip.
    fn page_at(&self, chip: u64, page: u64) -> &[u8] {
        &self.images.chips[((chip * self.g.b * self.g.k + page) * 24) as usize..][..24]
    }

    fn record(&self, index: u64) -> &[u8] {
        &self.images.records[index as usize * 32..][..32]
    }

    fn slot(&self, slot: u64) -> &[u8] {
        &self.images.slots[slot as usize * 16..][..16]
    }

    /// The pages of a kind, each with its chip.
    fn pages_of(&self, kind: u8) -> Vec<(u64, u64)> {
        let per_chip = self.g.b * self.g.k;
        let pages = (0..(self.g.n + 1) * per_chip).map(|i| (i / per_chip, i % per_chip));
        pages.filter(|&(chip, page)| self.page_at(chip, page)[16] == kind).collect()
    }
}

/// A page of one byte, with its spare.
fn page(byte: u8, kind: u8, member: u8, stripe: u8, copied: [u8; 2]) -> Vec<u8> {
    [&[byte; 16][..], &[kind, member, stripe, 0, copied[0], copied[1], 255, 255]].concat()
}

const NONE: [u8; 2] = [255, 255];

/// "twenty-six bytes of 255, a 0, a 255 and four of 0".
fn empty_record() -> Vec<u8> {
    [&[255; 26][..], &[0, 255, 0, 0, 0, 0]].concat()
}

// ---------------------------------------------------------------------------------------------
// The bench program
// ---------------------------------------------------------------------------------------------

const LINES: [(&str, &str); 7] = [
    ("w 1 a5", "w 1 0 1 0"),
    ("w 2 0f", "w 2 0 1 0"),
    ("w 1 11", "w 1 1 1 0"),
    ("x 1", "x 1"),
    ("r 1", "r 1 11 1 0 0 2"),
    ("r 0", "r 0 00 0 0 0 0"),
    ("w 3 22", "w 3 refused 9"),
];

/// What the bench program prints for a line.
fn obey(store: &mut ComparedStore, line: &str) -> String {
    let words: Vec<&str> = line.split(' ').collect();
    let number: u64 = words[1].parse().expect("a number");
    let echo = format!("{} {}", words[0], words[1]);
    let counted = |(status, [reads, programs, erases, _]): (u64, [u64; 4])| match status {
        DONE => format!("{reads} {programs} {erases}"),
        number => format!("refused {number}"),
    };
    match words[0] {
        "x" => {
            store.lost = number;
            echo
        }
        "w" => {
            let byte = u8::from_str_radix(words[2], 16).expect("a byte");
            format!("{echo} {}", counted(store.write_allowed(number, byte, 65_535)))
        }
        _ => {
            let (bytes, Answer { status, origin, .. }) = store.read(number);
            format!("{echo} {:02x} {} {origin}", bytes[0], counted((DONE, [status.reads, 0, 0, 0])))
        }
    }
}

fn seven_lines(to: &mut Comparison) {
    let mut store = ComparedStore::new(to, bench_geometry());
    for (line, printed) in LINES {
        let found = obey(&mut store, line);
        store.holds(found == printed, &format!("{line} prints {printed}, not {found}"));
    }
}

/// Pages 1 and 2 are members 1 and 2 of stripe 0, on chips 1 and 2.
fn every_byte(to: &mut Comparison) {
    let mut store = ComparedStore::new(to, bench_geometry());
    for (line, _) in LINES {
        obey(&mut store, line);
    }
    let mut chips = vec![255; 5 * 16 * 24];
    let pages = [
        (1, 0, page(0xa5, 68, 1, 0, NONE)),
        (2, 0, page(0x0f, 68, 2, 0, NONE)),
        (1, 1, page(0x11, 68, 1, 0, NONE)),
    ];
    for (chip, number, bytes) in pages {
        chips[(chip * 16 + number) * 24..][..24].copy_from_slice(&bytes);
    }
    store.holds(store.images.chips == chips, "three pages are programmed");
    let mut record = empty_record();
    record[2..6].copy_from_slice(&[1, 0, 0, 0]);
    record[26..28].copy_from_slice(&[0b110, 0]);
    let records = [&record[..], &empty_record().repeat(5), &[0; 32]].concat();
    store.holds(store.images.records == records, "record 0 has pages 1 and 0, the bitmap 6 and slot 0");
    let slots = [[0xa5 ^ 0x0f ^ 0xa5 ^ 0x11; 16], [0xa5 ^ 0x0f; 16], [0x5a; 16]].concat();
    store.holds(store.images.slots == slots, "the partial parities are in slots 0 and 1");
}

fn after_format(to: &mut Comparison) {
    let mut store = ComparedStore::unformatted(to, bench_geometry());
    let answer = store.call(Call::Format { allowance: 27 });
    store.holds(answer == (DONE, [0, 0, 20, 27]), "20 erases and 7 records");
    store.holds(store.images.chips == vec![255; 5 * 16 * 24], "every block is erased");
    let records = [&empty_record().repeat(6)[..], &[0; 32]].concat();
    store.holds(store.images.records == records, "six empty records and phase 0");
    store.holds(store.images.slots == [0x5a; 3 * 16], "slots stay");
}

// ---------------------------------------------------------------------------------------------
// Worked numbers
// ---------------------------------------------------------------------------------------------

fn parity_chips(to: &mut Comparison) {
    for (stripe, chip) in [(0, 4), (1, 3), (4, 0), (5, 4)] {
        let mut store = ComparedStore::new(to, bench_geometry());
        store.write(4 * stripe, 1);
        store.commit(stripe);
        store.holds(store.pages_of(80) == [(chip, 0)], &format!("parity of stripe {stripe} on chip {chip}"));
    }
}

fn page_chips(to: &mut Comparison) {
    for (number, chip) in [(6, 2), (7, 4), (16, 1)] {
        let mut store = ComparedStore::new(to, bench_geometry());
        store.write(number, 1);
        store.holds(store.pages_of(68) == [(chip, 0)], &format!("page {number} on chip {chip}"));
    }
}

/// All pages of a stripe written and committed, and then so many again.
fn stripe_with(store: &mut ComparedStore, stripe: u64, set_bits: u64) {
    let n = store.g.n;
    for m in 0..n {
        store.write(stripe * n + m, 1 << m);
    }
    store.commit(stripe);
    for m in 0..set_bits {
        store.write(stripe * n + m, 0x80 | 1 << m);
    }
}

fn reads_of_commits(to: &mut Comparison, (n, costs): &(u64, &[u64])) {
    for (p, &cost) in (1..).zip(*costs) {
        let mut store = ComparedStore::new(to, geometry(*n, 4, 4, 6, 2));
        stripe_with(&mut store, 0, p);
        let counts = store.commit(0);
        store.holds(counts == [cost, 1, 0, 2], &format!("a commit of p = {p} reads {cost} pages"));
    }
}

/// "commit the stripe of least cost, lowest number on ties": of stripes 0 and 1, with p and q bits set.
fn least_cost(to: &mut Comparison, (n, costs): &(u64, &[u64])) {
    for (p, &cost) in (1..).zip(*costs) {
        for (q, &other) in (1..).zip(*costs) {
            let mut store = ComparedStore::new(to, geometry(*n, 4, 4, 6, 2));
            stripe_with(&mut store, 0, p);
            stripe_with(&mut store, 1, q);
            let counts = store.write(2 * n, 1);
            let (first, least) = (cost <= other, cost.min(other));
            let slots = [0, 1].map(|stripe| store.record(stripe)[27] == 255);
            store.holds(slots == [first, !first], &format!("of p = {p} and {q} it commits the cheaper"));
            store.holds(counts == [least, 2, 0, 5], &format!("and reads {least} pages"));
        }
    }
}

fn accepted(to: &mut Comparison, g: Geometry, erases: u64) {
    let mut store = ComparedStore::unformatted(to, g);
    let answer = store.call(Call::Format { allowance: ALL });
    store.holds(answer == (DONE, [0, 0, erases, erases + g.s + 1]), "a format is done");
    let opened = store.call(Call::Open { lost: NO_CHIP, allowance: 0 });
    store.holds(opened == (DONE, [0; 4]), "an open is done");
}

fn refused(to: &mut Comparison, g: Geometry) {
    let mut store = ComparedStore::unformatted(to, g);
    for call in Call::of_each_kind(NO_CHIP, 0, [(); 3].map(|()| vec![0; 16]), ALL) {
        let answer = store.call(call);
        store.holds(answer == (1, [0; 4]), "every call is refused 1");
    }
}

fn nine_and_ten(to: &mut Comparison) {
    accepted(to, geometry(4, 4, 4, 9, 2), 20);
    refused(to, geometry(4, 4, 4, 10, 2));
}

fn first_write(to: &mut Comparison) {
    for g in
        [bench_geometry(), geometry(2, 2, 3, 2, 1), geometry(6, 128, 2, 1, 1), geometry(5, 2, 1_024, 9, 254)]
    {
        for number in [0, 1, g.n * g.s - 1] {
            for allowance in 0..3 {
                let mut store = ComparedStore::new(to, g);
                let (status, counts) = store.write_allowed(number, 0xa5, allowance);
                let programs = allowance.min(1);
                store.holds((status, counts) == (CUT, [0, programs, 0, allowance]), "cut below 3 stores");
                store.reads_as(NO_CHIP, number, 0, 0);
            }
            let mut store = ComparedStore::new(to, g);
            let answer = store.write_allowed(number, 0xa5, 3);
            store.holds(answer == (DONE, [0, 1, 0, 3]), "done with 3 stores");
            store.reads_as(NO_CHIP, number, 0xa5, 1);
        }
    }
}

// ---------------------------------------------------------------------------------------------
// Faults to be refused
// ---------------------------------------------------------------------------------------------

/// Pages 0 to 3 written and committed, then page 0 again: page 1 is parity, the old page 0 and pages 2 and 3.
fn outside_the_bitmap(to: &mut Comparison) {
    let mut store = ComparedStore::new(to, bench_geometry());
    for (number, byte) in [(0, 0x21), (1, 0x42), (2, 0x84), (3, 0x48)] {
        store.write(number, byte);
    }
    store.commit(0);
    store.holds(store.page_at(4, 0) == page(0xaf, 80, 0, 0, NONE), "parity of four pages");
    store.write(0, 0xe7);
    store.reads_as(1, 1, 0x42, 4);
    store.reads_as(0, 0, 0xe7, 0);
    store.reads_as(NO_CHIP, 0, 0xe7, 1);
}

/// A second write under one partial parity leaves the old number, and takes the current page out of the partial.
fn second_write(to: &mut Comparison) {
    let mut store = ComparedStore::new(to, bench_geometry());
    store.write(0, 0x21);
    store.write(1, 0x42);
    store.commit(0);
    let first = store.write(0, 0x84);
    let second = store.write(0, 0x18);
    store.holds((first, second) == ([0, 1, 0, 3], [1, 1, 0, 3]), "the second reads the current page");
    let record = store.record(0);
    store.holds(record[0..2] == [2, 0] && record[12..14] == [0, 0], "page 2 is current, page 0 old");
    let slot = record[27] as u64;
    store.holds(store.slot(slot) == [0x18; 16], "the partial parity is the last data");
    store.reads_as(0, 0, 0x18, 0);
    store.reads_as(1, 1, 0x42, 2);
}

/// Block 0 of chip 0 is full, and its last page is logical page 0. Six stores: phase 1, the copy, phase 2, the record,
/// the erase, phase 0.
fn collection_store_by_store(to: &mut Comparison) {
    for allowance in 0..=6 {
        let mut store = ComparedStore::new(to, bench_geometry());
        for byte in 1..=4 {
            store.write(0, byte);
        }
        let made = |stores: u64| allowance >= stores;
        let (status, counts) = store.call(Call::Collect { lost: NO_CHIP, chip: 0, allowance });
        let copies = made(2) as u64;
        store.holds(status == if made(6) { DONE } else { CUT }, "six stores");
        store.holds(counts == [copies, copies, made(5) as u64, allowance], "as the stores are counted");
        let phase = if made(6) { 0 } else { made(1) as u8 + made(3) as u8 };
        let collection = [phase, 0, 0, 0, (phase > 0) as u8, 0];
        store.holds(store.record(6) == [&collection[..], &[0; 26]].concat(), "phase, chip 0, blocks 0 and 1");
        let copy = if made(2) { page(4, 68, 0, 0, [3, 0]) } else { vec![255; 24] };
        store.holds(store.page_at(0, 4) == copy, "page 3 is copied to page 4");
        let current = if made(4) { 4 } else { 3 };
        store.holds(store.record(0)[0..2] == [current, 0], "then the record names the copy");
        let original = if made(5) { vec![255; 24] } else { page(4, 68, 0, 0, NONE) };
        store.holds(store.page_at(0, 3) == original, "and only then the victim is erased");
        store.reads_as(NO_CHIP, 0, 4, 1);
        store.reads_as(0, 0, 4, 0);
    }
}

/// A write that is cut before its record has stored its partial parity elsewhere than the one in use.
fn slot_of_a_cut_write(to: &mut Comparison) {
    let mut store = ComparedStore::new(to, bench_geometry());
    store.write(0, 0x3c);
    let answer = store.write_allowed(0, 0x99, 2);
    store.holds(answer == (CUT, [1, 1, 0, 2]), "page and slot are stored");
    store.holds(store.record(0)[27] == 0 && store.slot(0) == [0x3c; 16], "slot 0 is still in use");
    store.holds(store.slot(1) == [0x99; 16], "slot 1 has the new partial parity");
    store.reads_as(NO_CHIP, 0, 0x3c, 1);
    store.reads_as(0, 0, 0x3c, 0);
}

// ---------------------------------------------------------------------------------------------
// Tickets
// ---------------------------------------------------------------------------------------------

/// Monday's bag: 60.14 kg, the bag's own weight 140 g, in bag 0x0203 of lot 0x04050607.
const BAG: [u8; 16] = [1, 0, 3, 2, 7, 6, 5, 4, 0xec, 0xea, 0, 0, 140, 0, 0, 0];

fn ticket(kind: u8, bag: u8, lot: u8, gross: u8, tare: u8) -> [u8; 16] {
    [kind, 0, bag, 0, lot, 0, 0, 0, gross, 0, 0, 0, tare, 0, 0, 0]
}

impl ComparedStore<'_> {
    fn add_allowed(&mut self, ticket: &[u8], allowance: u64) -> (u64, [u64; 4]) {
        self.call(Call::Add { lost: self.lost, ticket: ticket.to_vec(), allowance })
    }

    fn add(&mut self, ticket: &[u8]) -> [u64; 4] {
        let (status, counts) = self.add_allowed(ticket, 65_535);
        self.holds(status == DONE, &format!("the addition of {ticket:?} is done"));
        counts
    }

    fn write_bytes(&mut self, page: u64, data: &[u8]) {
        let call = Call::Write { lost: self.lost, page, data: data.to_vec(), allowance: 65_535 };
        let status = self.call(call).0;
        self.holds(status == DONE, &format!("the write of page {page} is done"));
    }

    /// The question is answered so, with so many reads: 1 if a weight stands, gross and tare.
    fn finds(&mut self, lost: u64, lot: u32, bag: u16, found: [u64; 3], reads: u64) {
        let answer = self.answer(Call::Find { lost, lot, bag });
        let as_said = answer.found == found && answer.status == Status { reads, ..Status::default() };
        self.holds(as_said, &format!("lot {lot}, bag {bag}, {found:?} after {reads} reads, not {answer:?}"));
    }

    /// The addition is refused with a number, and a question has this status.
    fn refuses(&mut self, ticket: &[u8], adding: u64, asking: u64) {
        let added = self.add_allowed(ticket, 65_535);
        self.holds(added == (adding, [0; 4]), &format!("the addition of {ticket:?} is refused {adding}"));
        let asked = self.call(Call::Find { lost: self.lost, lot: 7, bag: 3 }).0;
        self.holds(asked == asking, &format!("a question has the status {asking}"));
    }
}

/// "kind .., a zero byte, bag (2 bytes), lot (4), gross grams (4), tare grams (4)", on page 0 of chip 0.
fn bytes_of_a_ticket(to: &mut Comparison) {
    let mut store = ComparedStore::new(to, bench_geometry());
    let counts = store.add(&BAG);
    store.holds(counts == [0, 1, 0, 3], "a first addition is a first write");
    let page = [&BAG[..], &[68, 0, 0, 0, 255, 255, 255, 255]].concat();
    store.holds(store.page_at(0, 0) == page, "the page is the ticket");
    store.finds(NO_CHIP, 0x0405_0607, 0x0203, [1, 60_140, 140], 1);
    store.finds(NO_CHIP, 0x0706_0504, 0x0203, [0; 3], 1);
    store.finds(NO_CHIP, 0x0405_0607, 0x0302, [0; 3], 1);
}

/// "counts the log's reads up to and including that page, even when cut, and the write's".
fn reads_of_the_log(to: &mut Comparison) {
    let mut store = ComparedStore::new(to, Geometry { w: 32, ..bench_geometry() });
    for (bag, of_log, of_write) in [(0, 0, 0), (1, 1, 1), (2, 1, 0), (3, 2, 1), (4, 2, 0)] {
        let ticket = ticket(1, bag, 7, 9, 1);
        for allowance in 0..2 {
            let (images, cut) = (store.images.clone(), store.add_allowed(&ticket, allowance));
            store.holds(cut == (CUT, [of_log, allowance, 0, allowance]), "cut before the slot");
            store.images = images;
        }
        let counts = store.add(&ticket);
        store.holds(counts == [of_log + of_write, 1, 0, 3], "done");
        store.finds(NO_CHIP, 7, bag as u16, [1, 9, 1], bag as u64 / 2 + 1);
    }
}

/// "Under demand 3 a cut addition leaves the log as it was, whichever chip dies later." Bag 3 has its fourth ticket in
/// page 3, and its fifth is not added.
fn cut_addition(to: &mut Comparison) {
    for allowance in 0..=3 {
        let mut store = ComparedStore::new(to, bench_geometry());
        for gross in 1..=4 {
            store.add(&ticket(1, 3, 7, gross, 0));
        }
        let (status, _) = store.add_allowed(&ticket(1, 3, 7, 5, 0), allowance);
        store.holds(status == if allowance < 3 { CUT } else { DONE }, "three stores");
        let (gross, pages) = if allowance < 3 { (4, 4) } else { (5, 5) };
        store.finds(NO_CHIP, 7, 3, [1, gross, 0], pages);
        for chip in 0..=4 {
            let own = store.images.chips.clone();
            store.images.chips[chip * 16 * 24..][..16 * 24].fill(0xc3);
            // The lost page of stripe 0 is three others; page 4 is alone in the partial parity of stripe 1.
            let reads = match chip {
                4 => pages,
                0 => 3 + 3,
                _ => pages - 1 + 3,
            };
            store.finds(chip as u64, 7, 3, [1, gross, 0], reads);
            store.images.chips = own;
        }
    }
}

/// "Of tickets with one lot and bag, the latest in the log stands".
fn latest_stands(to: &mut Comparison) {
    let mut store = ComparedStore::new(to, bench_geometry());
    store.finds(NO_CHIP, 7, 3, [0; 3], 0);
    let steps = [
        (ticket(1, 3, 7, 90, 9), [1, 90, 9]),
        (ticket(1, 3, 8, 80, 8), [1, 90, 9]),
        (ticket(1, 4, 7, 70, 7), [1, 90, 9]),
        (ticket(1, 3, 7, 60, 6), [1, 60, 6]),
        (ticket(2, 3, 7, 0, 0), [0, 0, 0]),
        (ticket(2, 3, 8, 0, 0), [0, 0, 0]),
        (ticket(1, 3, 7, 0, 0), [1, 0, 0]),
    ];
    for (reads, (ticket, found)) in (1..).zip(steps) {
        store.add(&ticket);
        store.finds(NO_CHIP, 7, 3, found, reads);
    }
    store.finds(NO_CHIP, 8, 3, [0; 3], 7);
    store.finds(NO_CHIP, 7, 4, [1, 70, 7], 7);
}

/// "An empty ticket is all zero and can't be added; a withdrawal has both weights zero; tare is never above gross."
fn breaking_tickets(to: &mut Comparison) {
    let good = ticket(1, 3, 7, 5, 5);
    let mut second_byte = good;
    second_byte[1] = 1;
    let bad = [
        ticket(3, 3, 7, 5, 4),
        second_byte,
        ticket(2, 3, 7, 5, 0),
        ticket(2, 3, 7, 0, 5),
        ticket(1, 3, 7, 4, 5),
    ];
    for ticket in bad {
        let mut store = ComparedStore::new(to, bench_geometry());
        store.refuses(&ticket, 11, DONE);
        store.add(&good);
        store.write_bytes(1, &ticket);
        store.refuses(&good, 11, 11);
        store.refuses(&good[1..], 8, 11);
    }
    let mut store = ComparedStore::new(to, bench_geometry());
    store.refuses(&[0; 16], 11, DONE);
    store.refuses(&ticket(0, 3, 7, 5, 4), 11, DONE);
}

/// Four tickets fill the store: "an addition to a log that fills every page with 12".
fn full_log(to: &mut Comparison) {
    let mut store = ComparedStore::new(to, geometry(2, 3, 3, 2, 2));
    for bag in 0..4 {
        store.add(&ticket(1, bag, 7, 10 + bag, 1));
    }
    store.refuses(&ticket(1, 3, 7, 9, 9), 12, DONE);
    store.finds(NO_CHIP, 7, 3, [1, 13, 1], 4);
    store.refuses(&ticket(1, 3, 7, 8, 9), 11, DONE);
    store.write_bytes(3, &ticket(1, 3, 7, 8, 9));
    store.refuses(&ticket(1, 3, 7, 9, 9), 11, 11);
    store.write_bytes(2, &ticket(0, 1, 1, 1, 1));
    store.finds(NO_CHIP, 7, 3, [0; 3], 3);
}

/// "the log ends at the first of kind 0": it takes one ticket, and is 11 from then on.
fn behind_the_end(to: &mut Comparison) {
    let mut store = ComparedStore::new(to, Geometry { w: 48, ..bench_geometry() });
    let (good, bad) = (ticket(1, 3, 7, 5, 5), ticket(9, 3, 7, 5, 5));
    store.write_bytes(0, &[ticket(1, 3, 7, 8, 1), ticket(0, 3, 7, 9, 1), bad].concat());
    store.finds(NO_CHIP, 7, 3, [1, 8, 1], 1);
    let counts = store.add(&good);
    store.holds(counts == [2, 1, 0, 3], "the page for the log, and for the partial parity");
    store.refuses(&good, 11, 11);
    let (page, _) = store.read(0);
    store.holds(page == [ticket(1, 3, 7, 8, 1), good, bad].concat(), "other bytes are kept");
}

// ---------------------------------------------------------------------------------------------
// Origins
// ---------------------------------------------------------------------------------------------

impl ComparedStore<'_> {
    /// A page that reads, with this origin.
    fn page_from(&mut self, lost: u64, page: u64, origin: u64) {
        let answer = self.without(lost, |store| store.read(page).1);
        let what = format!("page {page} with lost chip {lost} has origin {origin}, not {}", answer.origin);
        self.holds(answer.origin == origin, &what);
    }

    /// What stands for the bag of lot 7, with this origin; 0 grams where nothing does.
    fn bag_from(&mut self, lost: u64, bag: u16, gross: u64, origin: u64) {
        let answer = self.without(lost, |store| store.answer(Call::Find { lost, lot: 7, bag }));
        let as_said = answer.status.status == DONE && (answer.found[1], answer.origin) == (gross, origin);
        self.holds(
            as_said,
            &format!("bag {bag} with lost chip {lost} has {gross} g of {origin}, not {answer:?}"),
        );
    }
}

/// "never written, read directly, rebuilt through the partial parity, rebuilt through the full parity": pages 0 and 1
/// are written and committed, then page 0 again. Page 4 is on chip 0, too.
fn origins_of_pages(to: &mut Comparison) {
    let mut store = ComparedStore::new(to, bench_geometry());
    store.write(0, 0x21);
    store.write(1, 0x42);
    store.page_from(0, 0, 2);
    store.commit(0);
    store.page_from(0, 0, 3);
    store.write(0, 0x84);
    let said = [(NO_CHIP, [1, 1, 0]), (0, [2, 1, 0]), (1, [1, 3, 0]), (2, [1, 1, 0]), (4, [1, 1, 0])];
    for (lost, origins) in said {
        for (page, origin) in [0, 1, 4].into_iter().zip(origins) {
            store.page_from(lost, page, origin);
        }
    }
    let refused = store.answer(Call::Read { lost: 0, page: 0, buffer: vec![0x77; 15] });
    store
        .holds(refused == Answer::from(Status { status: 8, ..Status::default() }), "a refused read has none");
}

/// "a ticket given carries its page's, any other reading of the log the last in that order among its pages": one
/// ticket to a page, bag 1 in pages 0 and 1, bag 2 in page 2 and withdrawn in page 3. Page 4 has the log's end, on
/// chip 0 as page 0.
fn origins_of_findings(to: &mut Comparison) {
    let mut store = ComparedStore::new(to, bench_geometry());
    [NO_CHIP, 0, 1].into_iter().for_each(|lost| store.bag_from(lost, 1, 0, 0));
    let tickets =
        [ticket(1, 1, 7, 80, 8), ticket(1, 1, 7, 90, 8), ticket(1, 2, 7, 70, 7), ticket(2, 2, 7, 0, 0)];
    tickets.iter().for_each(|ticket| {
        store.add(ticket);
    });
    // with no chip lost, with that of page 0, of page 1, of page 2, and with one that has no page of the log
    for (lost, given, none) in [(NO_CHIP, 1, 1), (0, 1, 2), (1, 2, 2), (2, 1, 2), (4, 1, 1)] {
        store.bag_from(lost, 1, 90, given);
        store.bag_from(lost, 2, 0, none);
        store.bag_from(lost, 3, 0, none);
    }
    store.commit(0);
    store.bag_from(0, 2, 0, 3);
    store.bag_from(1, 1, 90, 3);
    store.write_bytes(0, &tickets[0]);
    store.bag_from(0, 2, 0, 2);
    store.write_bytes(4, &[0; 16]);
    store.commit(1);
    store.bag_from(0, 1, 90, 1);
    store.bag_from(0, 2, 0, 3);
}
