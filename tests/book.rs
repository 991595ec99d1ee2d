//! Tests of the reference by itself: the price book, the cut rule, the calls store by store, the log, the table. The
//! worked cases of document 01 are in compare/paper.rs, where the reference goes through them too.
//!
//!     rustc -O --edition 2021 --test book.rs && ./book

#[path = "random.rs"]
#[allow(dead_code)]
mod random;
#[path = "reference.rs"]
#[allow(dead_code)]
mod reference;

use random::Random;
use reference::*;

const ALL: u64 = u64::MAX;

fn geometry(n: u64, w: u64, k: u64, b: u64, s: u64, m: u64) -> Geometry {
    Geometry { n, w, k, b, s, m }
}

fn blank(g: Geometry, fill: u8) -> Images {
    let [chips, records, slots] = g.shape().unwrap().lengths();
    Images { chips: vec![fill; chips], records: vec![fill; records], slots: vec![fill; slots] }
}

fn formatted(g: Geometry) -> Images {
    let mut images = blank(g, 0x5a);
    let status = format(g, &mut images, ALL);
    let stores = (g.n + 1) * g.b + g.s + 1;
    assert_eq!(status, Status { status: DONE, erases: (g.n + 1) * g.b, stores, ..Status::default() });
    images
}

/// Lots and bags of random tickets, some alike but for one byte.
const LOTS: [u32; 4] = [0, 7, 0x0001_0007, 0x0100_0007];
const BAGS: [u16; 3] = [0, 3, 0x0103];

fn ticket(kind: u8, zero: u8, lot: u32, bag: u16, [gross, tare]: [u32; 2]) -> [u8; 16] {
    let mut bytes = [0; 16];
    (bytes[0], bytes[1]) = (kind, zero);
    bytes[2..4].copy_from_slice(&bag.to_le_bytes());
    bytes[4..8].copy_from_slice(&lot.to_le_bytes());
    bytes[8..12].copy_from_slice(&gross.to_le_bytes());
    bytes[12..16].copy_from_slice(&tare.to_le_bytes());
    bytes
}

/// A weight of the bag, of so many grams gross.
fn weight(lot: u32, bag: u16, gross: u32) -> [u8; 16] {
    ticket(1, 0, lot, bag, [gross, gross / 8])
}

/// Mostly a weight, at times a withdrawal, and rarely one that breaks a rule.
fn random_ticket(random: &mut Random) -> [u8; 16] {
    let (lot, bag) = (random.pick(&LOTS), random.pick(&BAGS));
    let gross = random.next() as u32;
    let tare = random.below(gross as usize + 1) as u32;
    match random.below(40) {
        0 => random.pick(&bad_tickets()).1,
        1..=7 => ticket(2, 0, lot, bag, [0, 0]),
        _ => ticket(1, 0, lot, bag, [gross, tare]),
    }
}

/// Mostly tickets and then zeros, at times random bytes.
fn random_page(random: &mut Random, w: usize) -> Vec<u8> {
    if random.one_in(20) {
        return random.bytes(w);
    }
    let tickets = random.below(w / 16 + 1);
    let mut page: Vec<u8> = (0..tickets).flat_map(|_| random_ticket(random)).collect();
    page.resize(w, 0);
    page
}

/// Tickets that break a rule each.
fn bad_tickets() -> [(&'static str, [u8; 16]); 9] {
    [
        ("kind 3", ticket(3, 0, 7, 3, [5, 4])),
        ("kind 129", ticket(129, 0, 7, 3, [5, 4])),
        ("kind 255", ticket(255, 0, 7, 3, [0, 0])),
        ("second byte of a weight", ticket(1, 1, 7, 3, [5, 4])),
        ("second byte of a withdrawal", ticket(2, 128, 7, 3, [0, 0])),
        ("withdrawal with a gross weight", ticket(2, 0, 7, 3, [1 << 31, 0])),
        ("withdrawal with a tare", ticket(2, 0, 7, 3, [0, 1])),
        ("withdrawal with both weights", ticket(2, 0, 7, 3, [1, 1])),
        ("tare above gross", ticket(1, 0, 7, 3, [0x0001_ffff, 0x0002_0000])),
    ]
}

/// "An empty ticket is all zero and can't be added; a withdrawal has both weights zero; tare is never above gross."
fn breaks_rules(ticket: &[u8]) -> bool {
    let above = (8..12).rev().map(|i| ticket[i]).lt((12..16).rev().map(|i| ticket[i]));
    match ticket[0] {
        1 => ticket[1] != 0 || above,
        2 => ticket[1] != 0 || ticket[8..] != [0; 8],
        _ => true,
    }
}

/// The price book: "It keeps W bytes for each logical page below N × S." Beside it, the pages that a write or an
/// addition was completed of.
#[derive(Clone)]
struct Book {
    g: Geometry,
    images: Images,
    pages: Vec<Vec<u8>>,
    written: Vec<bool>,
}

/// What said an origin, a page, a weight that was given or a question that found none, and which.
type Said = (&'static str, u64);

#[derive(Clone, Debug)]
enum Call {
    Open,
    Write(u64, Vec<u8>),
    Commit(u64),
    Collect(u64),
    Add([u8; 16]),
}

fn run(g: Geometry, images: &mut Images, lost: u64, call: &Call, allowance: u64) -> Status {
    match call {
        Call::Open => open(g, images, lost, allowance),
        Call::Write(page, data) => write(g, images, lost, *page, data, allowance),
        Call::Commit(stripe) => commit(g, images, lost, *stripe, allowance),
        Call::Collect(chip) => collect(g, images, lost, *chip, allowance),
        Call::Add(ticket) => add(g, images, lost, ticket, allowance),
    }
}

/// No list is longer: a collection copies at most K − 1 pages.
fn longest_list(g: Geometry, call: &Call) -> u64 {
    match call {
        Call::Open => g.k + 1,
        Call::Write(..) | Call::Add(_) => 4 * g.k + 9,
        Call::Commit(_) => 2 * g.k + 4,
        Call::Collect(_) => 2 * g.k + 2,
    }
}

impl Book {
    fn new(g: Geometry) -> Book {
        assert!(g.shape().is_some(), "a limit is broken: {g:?}");
        let pages = (g.n * g.s) as usize;
        let (images, written) = (formatted(g), vec![false; pages]);
        Book { g, images, pages: vec![vec![0; g.w as usize]; pages], written }
    }

    fn random_call(&self, random: &mut Random) -> Call {
        match random.below(14) {
            0 => Call::Open,
            1 => Call::Commit(random.below(self.g.s as usize) as u64),
            2 => Call::Collect(random.below(self.g.n as usize + 1) as u64),
            3..=7 => Call::Add(random_ticket(random)),
            _ => {
                let page = random.below((self.g.n * self.g.s) as usize) as u64;
                Call::Write(page, random_page(random, self.g.w as usize))
            }
        }
    }

    fn call(&mut self, lost: u64, call: &Call, allowance: u64) -> Status {
        let before = self.images.clone();
        let status = run(self.g, &mut self.images, lost, call, allowance);
        assert!(status.stores <= allowance);
        assert!(status.stores <= longest_list(self.g, call));
        if status.status == CUT {
            assert_eq!(status.stores, allowance);
        } else if status.status != DONE {
            assert_eq!(status, refused(status.status));
            assert_eq!(self.images, before);
            assert!(![1, 2, 3, 4, 5].contains(&status.status), "{call:?} {status:?}");
        }
        if let Call::Add(ticket) = call {
            self.hold_answer(ticket, status.status);
        }
        if status.status == DONE {
            self.enter(call);
        }
        status
    }

    /// A call that is done.
    fn enter(&mut self, call: &Call) {
        match call {
            Call::Write(page, data) => {
                self.pages[*page as usize].clone_from(data);
                self.written[*page as usize] = true;
            }
            Call::Add(ticket) => {
                let (w, at) = (self.g.w as usize, 16 * self.log().len());
                self.pages[at / w][at % w..at % w + 16].copy_from_slice(ticket);
                self.written[at / w] = true;
            }
            _ => {}
        }
    }

    /// The book's log: its tickets up to the first of kind 0.
    fn log(&self) -> Vec<&[u8]> {
        self.pages.iter().flat_map(|page| page.chunks(16)).take_while(|ticket| ticket[0] != 0).collect()
    }

    fn log_is_full(&self) -> bool {
        self.log().len() * 16 == self.pages.len() * self.g.w as usize
    }

    fn log_is_bad(&self) -> bool {
        self.log().into_iter().any(breaks_rules)
    }

    /// An addition is refused for a ticket or for the log exactly where the book says so, if for nothing before.
    fn hold_answer(&self, ticket: &[u8], status: u64) {
        let bad = breaks_rules(ticket) || self.log_is_bad();
        match status {
            6 | 9 => {}
            11 => assert!(bad),
            12 => assert!(!bad && self.log_is_full()),
            _ => assert!(!bad && !self.log_is_full()),
        }
    }

    /// What the book answers to a question, and the page of that ticket.
    fn standing(&self, lot: u32, bag: u16) -> Option<(Weight, usize)> {
        let log = self.log();
        let of_both = |ticket: &&[u8]| ticket[2..4] == bag.to_le_bytes() && ticket[4..8] == lot.to_le_bytes();
        let place = log.iter().rposition(of_both)?;
        let grams = |at: usize| u32::from_le_bytes(log[place][at..at + 4].try_into().unwrap());
        let weight = Weight { gross: grams(8), tare: grams(12) };
        (log[place][0] == 1).then_some((weight, place * 16 / self.g.w as usize))
    }

    /// How a page is to be got: 0 if it was never written, 1 if it is on another chip than the lost one; else 2 if its
    /// bit is set, and 3 if not.
    fn origin(&self, images: &Images, lost: u64, page: usize) -> u64 {
        let (stripe, member) = (page as u64 / self.g.n, page as u64 % self.g.n);
        let parity_chip = self.g.n - stripe % (self.g.n + 1);
        let chip = if member < parity_chip { member } else { member + 1 };
        let bitmap = images.records[32 * stripe as usize + 26];
        match (self.written[page], chip == lost) {
            (false, _) => 0,
            (true, false) => 1,
            (true, true) => 3 - (bitmap >> member & 1) as u64,
        }
    }

    /// The last in that order among the pages of the log, the one with its end included.
    fn last_origin(&self, images: &Images, lost: u64) -> u64 {
        let end = self.log().len() * 16 / self.g.w as usize;
        (0..self.pages.len().min(end + 1)).map(|page| self.origin(images, lost, page)).max().unwrap()
    }

    /// The store answers each question as the book does; the origins that it says.
    fn ask(&self, images: &Images, lost: u64) -> Vec<Said> {
        let mut said = Vec::new();
        for (lot, bag) in LOTS.into_iter().flat_map(|lot| BAGS.map(|bag| (lot, bag))) {
            let found = find(self.g, images, lost, lot, bag);
            if self.log_is_bad() {
                assert_eq!(found, Finding { status: refused(11), weight: None, origin: None });
                continue;
            }
            let standing = self.standing(lot, bag);
            assert_eq!(found.status.status, DONE);
            let asked = format!("lot {lot}, bag {bag}, lost chip {lost}, {:?}", self.g);
            assert_eq!(found.weight, standing.map(|standing| standing.0), "{asked}");
            let expected = match standing {
                Some((_, page)) => ("weight", self.origin(images, lost, page)),
                None => ("none", self.last_origin(images, lost)),
            };
            assert_eq!(found.origin.map(|origin| origin as u64), Some(expected.1), "{asked}");
            said.push(expected);
        }
        said
    }

    /// Each page reads back, with no chip lost and with each chip in turn filled with other bytes.
    fn settle(&self, random: &mut Random) {
        self.read_back(&self.images, NO_CHIP);
        let len = self.g.shape().unwrap().chip_len();
        for chip in 0..=self.g.n as usize {
            let mut images = self.images.clone();
            random.fill(&mut images.chips[chip * len..(chip + 1) * len]);
            self.read_back(&images, chip as u64);
        }
    }

    /// The origins that are said.
    fn read_back(&self, images: &Images, lost: u64) -> Vec<Said> {
        let mut said = self.ask(images, lost);
        for (page, expected) in self.pages.iter().enumerate() {
            let mut buffer = vec![0x77; self.g.w as usize];
            let Reading { status, origin } = read(self.g, images, lost, page as u64, &mut buffer);
            let read = format!("page {page}, lost chip {lost}, {:?}", self.g);
            assert_eq!(status.status, DONE);
            assert_eq!(&buffer, expected, "{read}");
            let expected = self.origin(images, lost, page);
            assert_eq!(origin.map(|origin| origin as u64), Some(expected), "{read}");
            said.push(("page", expected));
        }
        said
    }
}

fn refused(number: u64) -> Status {
    Status { status: number, ..Status::default() }
}

/// Where the one store between two images fell: the bytes that differ lie in one page, block,
/// slot or record.
fn one_store_apart(g: Geometry, before: &Images, after: &Images) {
    let shape = g.shape().unwrap();
    let spread = |a: &[u8], b: &[u8], unit: usize| {
        let units: std::collections::BTreeSet<usize> =
            (0..a.len()).filter(|&i| a[i] != b[i]).map(|i| i / unit).collect();
        units.len()
    };
    let blocks = spread(&before.chips, &after.chips, shape.k * shape.page_len());
    let records = spread(&before.records, &after.records, RECORD_BYTES);
    let slots = spread(&before.slots, &after.slots, shape.w);
    assert!(blocks + records + slots <= 1, "{blocks} blocks, {records} records, {slots} slots");
}

/// One call with every allowance from 0 up: each cut is the start of the next one, and after each
/// the pages are those before the call, on every chip lost and after any open.
fn every_allowance(book: &Book, call: &Call, random: &mut Random) -> u64 {
    let mut last: Option<Images> = None;
    for allowance in 0.. {
        let mut cut = book.clone();
        let status = cut.call(NO_CHIP, call, allowance);
        if let Some(last) = &last {
            one_store_apart(book.g, last, &cut.images);
        }
        if status.status != CUT {
            assert!(status.status != DONE || status.stores == allowance);
            return allowance;
        }
        cut.settle(random);
        last = Some(cut.images.clone());
        while cut.call(NO_CHIP, &Call::Open, random.below(3) as u64).status == CUT {
            cut.settle(random);
        }
        assert_eq!(cut.images.view(book.g.shape().unwrap()).collection().phase, 0);
        cut.settle(random);
    }
    unreachable!()
}

const SMALL: [[u64; 6]; 12] = [
    [4, 16, 4, 4, 6, 2],
    [4, 16, 4, 4, 9, 2],
    [2, 16, 2, 3, 2, 1],
    [2, 16, 4, 2, 2, 1],
    [3, 16, 3, 2, 1, 1],
    [5, 16, 3, 3, 4, 1],
    [6, 16, 3, 4, 5, 3],
    [6, 32, 2, 5, 4, 3],
    [2, 16, 5, 2, 2, 2],
    [3, 16, 2, 6, 8, 1],
    [2, 48, 3, 3, 3, 1],
    [4, 64, 2, 3, 1, 2],
];

#[test]
fn price_book_with_every_allowance() {
    let mut random = Random::new(1);
    let mut longest = 0;
    for [n, w, k, b, s, m] in SMALL {
        let g = geometry(n, w, k, b, s, m);
        for _ in 0..3 {
            let mut book = Book::new(g);
            for _ in 0..100 {
                let call = book.random_call(&mut random);
                if random.one_in(4) {
                    longest = longest.max(every_allowance(&book, &call, &mut random));
                }
                book.call(NO_CHIP, &call, ALL);
                book.call(NO_CHIP, &Call::Open, ALL);
            }
            book.settle(&mut random);
        }
    }
    assert!(longest > 10);
}

#[test]
fn price_book_over_two_lists() {
    let mut random = Random::new(2);
    let mut answers = std::collections::BTreeMap::new();
    let mut origins = std::collections::BTreeMap::new();
    for round in 0..600 {
        let [n, w, k, b, s, m] = SMALL[round % SMALL.len()];
        let g = geometry(n, w, k, b, s, m);
        let mut book = Book::new(g);
        for _ in 0..random.below(150) {
            let call = book.random_call(&mut random);
            let lost = if random.one_in(20) { random.below(n as usize + 1) as u64 } else { NO_CHIP };
            let allowance = if random.one_in(3) { random.below(20) as u64 } else { ALL };
            let status = book.call(lost, &call, allowance).status;
            if let Call::Add(_) = call {
                *answers.entry(status).or_insert(0) += 1;
            }
        }
        book.settle(&mut random);
        let chip = random.below(n as usize + 1);
        let len = g.shape().unwrap().chip_len();
        random.fill(&mut book.images.chips[chip * len..(chip + 1) * len]);
        for _ in 0..10 {
            let call = book.random_call(&mut random);
            book.call(chip as u64, &call, random.below(20) as u64);
        }
        for said in book.read_back(&book.images, chip as u64) {
            *origins.entry(said).or_insert(0) += 1;
        }
    }
    for number in [DONE, CUT, 6, 9, 11, 12] {
        assert!(answers[&number] >= 100, "additions by answer: {answers:?}");
    }
    // No ticket is in a page that was never written.
    for (what, first) in [("page", 0), ("weight", 1), ("none", 0)] {
        for origin in first..4 {
            assert!(origins[&(what, origin)] >= 50, "origins said: {origins:?}");
        }
    }
}

/// N = 4, W = 16, K = 4, B = 4, S = 6, M = 2, formatted, with calls that must be done.
struct Store {
    g: Geometry,
    images: Images,
}

impl Store {
    fn new() -> Store {
        let g = geometry(4, 16, 4, 4, 6, 2);
        Store { g, images: formatted(g) }
    }

    /// Reads, programs, erases and stores of a write.
    fn write(&mut self, page: u64) -> [u64; 4] {
        counts(write(self.g, &mut self.images, NO_CHIP, page, &[page as u8; 16], ALL))
    }

    fn commit(&mut self, stripe: u64) -> [u64; 4] {
        counts(commit(self.g, &mut self.images, NO_CHIP, stripe, ALL))
    }

    fn view(&self) -> View<'_> {
        self.images.view(self.g.shape().unwrap())
    }
}

fn counts(status: Status) -> [u64; 4] {
    assert_eq!(status.status, DONE);
    [status.reads, status.programs, status.erases, status.stores]
}

/// The answer to an addition that must be done: reads, programs, erases and stores.
fn added(g: Geometry, images: &mut Images, ticket: &[u8]) -> [u64; 4] {
    counts(add(g, images, NO_CHIP, ticket, ALL))
}

/// A question that must be answered: the weight and the reads.
fn asked(g: Geometry, images: &Images, lost: u64, lot: u32, bag: u16) -> (Option<Weight>, u64) {
    let Finding { status, weight, .. } = find(g, images, lost, lot, bag);
    assert_eq!(status, Status { reads: status.reads, ..Status::default() });
    (weight, status.reads)
}

fn page_of(g: Geometry, images: &Images, page: u64) -> Vec<u8> {
    let mut buffer = vec![0; g.w as usize];
    assert_eq!(read(g, images, NO_CHIP, page, &mut buffer).status.status, DONE);
    buffer
}

/// The images with other bytes on a chip.
fn without(g: Geometry, images: &Images, chip: u64) -> Images {
    let len = g.shape().unwrap().chip_len();
    let mut images = images.clone();
    images.chips[chip as usize * len..][..len].fill(0xc3);
    images
}

#[test]
fn additions_store_by_store() {
    let Store { g, mut images } = Store::new();
    assert_eq!(
        add(g, &mut images, NO_CHIP, &weight(7, 0, 8), 0),
        Status { status: CUT, ..Status::default() }
    );
    // One ticket to a page: the log's pages are read, the one that is added to was never written.
    for bag in 0..8 {
        let ticket = weight(7, bag, 100 + bag as u32);
        assert_eq!(added(g, &mut images, &ticket), [bag as u64, 1, 0, 3]);
        assert_eq!(page_of(g, &images, bag as u64), ticket);
    }
    // Stripe 0 is committed first.
    let ticket = weight(7, 8, 108);
    for (allowance, [programs, stores]) in [[0, 0], [1, 1], [1, 2], [2, 3], [2, 4]].into_iter().enumerate() {
        let status = add(g, &mut images.clone(), NO_CHIP, &ticket, allowance as u64);
        assert_eq!(status, Status { status: CUT, reads: 8, programs, erases: 0, stores });
    }
    assert_eq!(added(g, &mut images, &ticket), [8, 2, 0, 5]);
    assert_eq!(asked(g, &images, NO_CHIP, 7, 8), (Some(Weight { gross: 108, tare: 13 }), 9));

    // Two to a page: the second is added to a page in the partial parity, which is read for that too.
    let g = geometry(4, 32, 4, 4, 6, 2);
    let mut images = formatted(g);
    for (bag, reads) in [0, 2, 1, 3, 2, 4].into_iter().enumerate() {
        let ticket = weight(7, bag as u16, 9);
        let cut = add(g, &mut images.clone(), NO_CHIP, &ticket, 1);
        let of_log = reads - (bag as u64 % 2);
        assert_eq!(cut, Status { status: CUT, reads: of_log, programs: 1, erases: 0, stores: 1 });
        assert_eq!(added(g, &mut images, &ticket), [reads, 1, 0, 3]);
    }
    assert_eq!(page_of(g, &images, 1), [weight(7, 2, 9), weight(7, 3, 9)].concat());
}

#[test]
fn log_with_each_chip_lost() {
    let Store { g, mut images } = Store::new();
    let tickets = [5, 6, 5, 7].map(|bag| weight(1, bag, 1_000 + bag as u32));
    for ticket in &tickets {
        added(g, &mut images, ticket);
    }
    added(g, &mut images, &ticket(1, 0, 1, 5, [60_140, 140]));
    let latest = Some(Weight { gross: 60_140, tare: 140 });
    let ask = |images: &Images, lost| asked(g, &without(g, images, lost), lost, 1, 5);
    // The fifth is page 4, on chip 0 as page 0 is; page 5 was never written.
    for (lost, reads) in [3 + 3, 3 + 3 + 1, 3 + 3 + 1, 3 + 3 + 1, 5].into_iter().enumerate() {
        assert_eq!(ask(&images, lost as u64), (latest, reads), "chip {lost} through the partial parity");
    }
    commit(g, &mut images, NO_CHIP, 0, ALL);
    for (lost, reads) in [4 + 3, 4 + 3 + 1, 4 + 3 + 1, 4 + 3 + 1, 5].into_iter().enumerate() {
        assert_eq!(ask(&images, lost as u64), (latest, reads), "chip {lost} through the parity");
    }
    commit(g, &mut images, NO_CHIP, 1, ALL);
    assert_eq!(ask(&images, 0), (latest, 4 + 3 + 1));
    // Page 5 is on chip 1, and is not rebuilt.
    assert_eq!(ask(&images, 1), (latest, 4 + 3 + 1));
    assert_eq!(ask(&images, 3), (latest, 4 + 4));
    assert_eq!(asked(g, &images, NO_CHIP, 1, 5), (latest, 5));
    assert_eq!(asked(g, &images, NO_CHIP, 1, 8), (None, 5));
}

/// Stripe 0 is committed, and page 0 is then written again; page 4 is alone in the partial parity of stripe 1.
#[test]
fn origins_of_pages() {
    use Origin::*;
    let mut store = Store::new();
    store.write(0);
    store.write(1);
    store.commit(0);
    store.write(0);
    store.write(4);
    let Store { g, images } = &store;
    let origins = |lost| {
        let of_page = |page| read(*g, &without(*g, images, lost), lost, page, &mut [0x77; 16]).origin;
        [0, 1, 2, 4, 5].map(|page| of_page(page).unwrap())
    };
    // Pages 0 and 4 are on chip 0, pages 1 and 5 on chip 1, page 2 on chip 2.
    assert_eq!(origins(0), [Partial, Direct, Unwritten, Partial, Unwritten]);
    assert_eq!(origins(1), [Direct, Full, Unwritten, Direct, Unwritten]);
    for lost in 2..=4 {
        assert_eq!(origins(lost), [Direct, Direct, Unwritten, Direct, Unwritten]);
    }
    for (lost, page, len) in [(5, 0, 16), (0, 24, 16), (0, 0, 15)] {
        assert_eq!(read(*g, images, lost, page, &mut vec![0x77; len]).origin, None);
    }
}

/// One ticket to a page: bag 1 in pages 0 and 1, bag 2 in page 2 and withdrawn in page 3; the log ends in page 4.
#[test]
fn origins_of_the_log() {
    use Origin::*;
    let Store { g, mut images } = Store::new();
    let origins = |images: &Images, lost: u64| {
        let images = if lost == NO_CHIP { images.clone() } else { without(g, images, lost) };
        [1, 2, 3].map(|bag| find(g, &images, lost, 7, bag).origin.unwrap())
    };
    for lost in [0, 1, 2, 3, 4, NO_CHIP] {
        assert_eq!(origins(&images, lost), [Unwritten; 3], "page 0 was never written");
    }
    let withdrawal = ticket(2, 0, 7, 2, [0, 0]);
    for ticket in [weight(7, 1, 80), weight(7, 1, 90), weight(7, 2, 70), withdrawal] {
        added(g, &mut images, &ticket);
    }
    let expect = |images: &Images, rebuilt| {
        assert_eq!(origins(images, NO_CHIP), [Direct; 3]);
        assert_eq!(origins(images, 0), [Direct, rebuilt, rebuilt], "bag 1 was weighed again in page 1");
        assert_eq!(origins(images, 1), [rebuilt; 3]);
        assert_eq!(origins(images, 2), [Direct, rebuilt, rebuilt]);
        assert_eq!(origins(images, 3), [Direct, rebuilt, rebuilt]);
        assert_eq!(origins(images, 4), [Direct; 3], "no page of the log is on chip 4");
    };
    expect(&images, Partial);
    commit(g, &mut images, NO_CHIP, 0, ALL);
    expect(&images, Full);
    // The page with the end counts too: page 4, on chip 0 as page 0 is.
    write(g, &mut images, NO_CHIP, 0, &weight(7, 1, 80), ALL);
    assert_eq!(origins(&images, 0), [Direct, Partial, Partial]);
    write(g, &mut images, NO_CHIP, 4, &[0; 16], ALL);
    commit(g, &mut images, NO_CHIP, 1, ALL);
    assert_eq!(origins(&images, 0), [Direct, Full, Full]);
}

/// A cut addition leaves the log, at each allowance, whichever chip dies; done it adds its ticket.
#[test]
fn cut_additions() {
    let mut random = Random::new(3);
    let mut longest = 0;
    for [n, w, k, b, s, m] in SMALL {
        let mut book = Book::new(geometry(n, w, k, b, s, m));
        let tickets = n * s * w / 16;
        for i in 0..tickets {
            let call = Call::Add(random_ticket(&mut random));
            longest = longest.max(every_allowance(&book, &call, &mut random));
            book.call(NO_CHIP, &call, ALL);
            // The page that comes next is written and overwritten with zeros, so that its chip fills.
            let page = (i * 16 / w + 1) % (n * s);
            let times = if i % 3 == 0 && page > 0 { 5 } else { 0 };
            for _ in 0..times {
                book.call(NO_CHIP, &Call::Write(page, vec![0; w as usize]), ALL);
            }
        }
        book.settle(&mut random);
    }
    assert!(longest > 10);
}

#[test]
fn latest_stands() {
    let Store { g, mut images } = Store::new();
    let grams = |gross| Some(Weight { gross, tare: gross / 8 });
    let mut reads = 0;
    let mut then = |ticket: [u8; 16], [first, other_lot, other_bag]: [Option<Weight>; 3]| {
        added(g, &mut images, &ticket);
        reads += 1;
        assert_eq!(asked(g, &images, NO_CHIP, 7, 3), (first, reads));
        assert_eq!(asked(g, &images, NO_CHIP, 0x0001_0007, 3), (other_lot, reads));
        assert_eq!(asked(g, &images, NO_CHIP, 7, 0x0103), (other_bag, reads));
        assert_eq!(asked(g, &images, NO_CHIP, 8, 3), (None, reads));
    };
    let withdrawal = |lot, bag| ticket(2, 0, lot, bag, [0, 0]);
    then(withdrawal(7, 3), [None, None, None]);
    then(weight(0x0001_0007, 3, 10), [None, grams(10), None]);
    then(weight(7, 3, 20), [grams(20), grams(10), None]);
    then(weight(7, 0x0103, 30), [grams(20), grams(10), grams(30)]);
    then(weight(7, 3, 15), [grams(15), grams(10), grams(30)]);
    then(withdrawal(7, 3), [None, grams(10), grams(30)]);
    then(withdrawal(0x0001_0007, 3), [None, None, grams(30)]);
    then(weight(7, 3, u32::MAX), [grams(u32::MAX), None, grams(30)]);
    then(weight(7, 0x0103, 0), [grams(u32::MAX), None, grams(0)]);
}

/// So many tickets, of bags 0, 1, .., in whole pages and a last one with zeros at its end.
fn with_log(g: Geometry, tickets: usize) -> Images {
    let mut images = formatted(g);
    let log: Vec<u8> = (0..tickets).flat_map(|bag| weight(7, bag as u16, bag as u32)).collect();
    for (page, bytes) in log.chunks(g.w as usize).enumerate() {
        let mut data = bytes.to_vec();
        data.resize(g.w as usize, 0);
        counts(write(g, &mut images, NO_CHIP, page as u64, &data, ALL));
    }
    images
}

#[test]
fn log_ends_at_page_borders() {
    for w in [16, 32, 48, 4_096] {
        let g = geometry(2, w, 4, 4, 3, 3);
        let (to_a_page, pages) = (w as usize / 16, 6);
        let near =
            |page: usize| [page * to_a_page, page * to_a_page + 1, (page * to_a_page).saturating_sub(1)];
        for tickets in (0..=pages).flat_map(near).filter(|&tickets| tickets <= pages * to_a_page) {
            let mut images = with_log(g, tickets);
            let (page, at) = (tickets / to_a_page, tickets % to_a_page * 16);
            let written = tickets.div_ceil(to_a_page) as u64;
            assert_eq!(asked(g, &images, NO_CHIP, 7, tickets as u16), (None, written));
            let last = tickets.checked_sub(1).map(|bag| Weight { gross: bag as u32, tare: bag as u32 / 8 });
            let bag = (tickets as u16).wrapping_sub(1);
            assert_eq!(asked(g, &images, NO_CHIP, 7, bag), (last, written));
            let ticket = weight(7, tickets as u16, 77);
            if page == pages {
                assert_eq!(add(g, &mut images, NO_CHIP, &ticket, ALL), refused(12));
                continue;
            }
            let mut expected = page_of(g, &images, page as u64);
            expected[at..at + 16].copy_from_slice(&ticket);
            assert_eq!(added(g, &mut images, &ticket)[1], 1);
            assert_eq!(page_of(g, &images, page as u64), expected);
            let weight = Some(Weight { gross: 77, tare: 9 });
            assert_eq!(asked(g, &images, NO_CHIP, 7, tickets as u16), (weight, page as u64 + 1));
        }
    }
}

/// "other bytes kept", and what stands behind the log's end is not looked at until it is in the log.
#[test]
fn bytes_behind_the_log() {
    let g = geometry(2, 64, 4, 4, 3, 2);
    for (name, bad) in bad_tickets() {
        let mut images = formatted(g);
        let good = weight(7, 1, 80);
        // Kind 0 ends the log, whatever its other bytes are.
        let end = ticket(0, 1, 7, 1, [3, 4]);
        let page = [good, end, bad, weight(7, 1, 90)].concat();
        write(g, &mut images, NO_CHIP, 0, &page, ALL);
        write(g, &mut images, NO_CHIP, 1, &[255; 64], ALL);
        assert_eq!(asked(g, &images, NO_CHIP, 7, 1), (Some(Weight { gross: 80, tare: 10 }), 1), "{name}");
        assert_eq!(added(g, &mut images, &weight(7, 2, 8)), [2, 1, 0, 3]);
        assert_eq!(page_of(g, &images, 0), [good, weight(7, 2, 8), bad, weight(7, 1, 90)].concat());
        for bag in [1, 2, 3] {
            let bad = Finding { status: refused(11), weight: None, origin: None };
            assert_eq!(find(g, &images, NO_CHIP, 7, bag), bad);
        }
        assert_eq!(add(g, &mut images, NO_CHIP, &good, ALL), refused(11), "{name}");
        // A page of zeros ends the log, and counts; one that was never written ends it, and does not.
        write(g, &mut images, NO_CHIP, 0, &good.repeat(4), ALL);
        write(g, &mut images, NO_CHIP, 1, &[0; 64], ALL);
        assert_eq!(asked(g, &images, NO_CHIP, 7, 2), (None, 2));
        write(g, &mut images, NO_CHIP, 1, &good.repeat(4), ALL);
        write(g, &mut images, NO_CHIP, 3, &bad.repeat(4), ALL);
        assert_eq!(asked(g, &images, NO_CHIP, 7, 2), (None, 2));
    }
}

/// One ticket to a page, and every page has one.
fn with_full_log(g: Geometry, ticket: [u8; 16]) -> Images {
    let mut images = formatted(g);
    for page in 0..g.n * g.s {
        assert_eq!(write(g, &mut images, NO_CHIP, page, &ticket, ALL).status, DONE);
    }
    images
}

/// Images in phase 1, the same with a spare that is not sound, with a record besides, and with a slot too short.
fn each_more_broken(g: Geometry, images: &Images) -> [Images; 4] {
    let shape = g.shape().unwrap();
    let destination = images.view(shape).lowest_clean_block(1).unwrap();
    let victim = (destination + 1) % shape.b;
    let collection = Collection { phase: 1, chip: 1, victim: victim as u16, destination: destination as u16 };
    let mut phase_one = images.clone();
    phase_one.records[shape.s * RECORD_BYTES..].copy_from_slice(&collection.to_bytes());
    let mut spares = phase_one.clone();
    spares.chips[shape.spare_at(0, 0)] = CLEAN;
    let mut records = spares.clone();
    records.records[31] = 1;
    let mut short = records.clone();
    short.slots.pop();
    [phase_one, spares, records, short]
}

/// Each line breaks one thing less: the table, then 11 for the ticket that is given, 11 for one that is found, and 12.
#[test]
fn refusals_of_the_log_in_order() {
    let g = geometry(4, 16, 4, 4, 6, 2);
    let (good, empty) = (weight(7, 3, 8), [0; 16]);
    let full = with_full_log(g, good);
    let mut bad = full.clone();
    write(g, &mut bad, NO_CHIP, 23, &ticket(1, 1, 7, 3, [5, 4]), ALL);
    let [phase_one, spares, records, short] = each_more_broken(g, &bad);
    let expect = |number, g, from: &Images, lost, ticket: &[u8], asked| {
        let mut images = from.clone();
        assert_eq!(add(g, &mut images, lost, ticket, ALL), refused(number));
        assert_eq!(&images, from);
        assert_eq!(find(g, from, lost, 7, 3).status.status, asked);
    };
    expect(1, geometry(4, 16, 4, u64::MAX, 6, 2), &short, 5, &empty[1..], 1);
    expect(2, g, &short, 5, &empty[1..], 2);
    expect(3, g, &records, 5, &empty[1..], 3);
    expect(4, g, &records, 2, &empty[1..], 4);
    expect(5, g, &spares, 2, &empty[1..], 5);
    expect(6, g, &phase_one, 2, &empty[1..], 11);
    expect(8, g, &bad, 2, &empty[1..], 11);
    expect(9, g, &bad, 2, &empty, 11);
    expect(11, g, &bad, NO_CHIP, &empty, 11);
    expect(11, g, &full, NO_CHIP, &empty, DONE);
    expect(11, g, &bad, NO_CHIP, &good, 11);
    expect(12, g, &full, NO_CHIP, &good, DONE);
    assert_eq!(asked(g, &full, NO_CHIP, 7, 3), (Some(Weight { gross: 8, tare: 1 }), 24));
    for len in (0..=40).filter(|&len| len != 16) {
        expect(8, g, &bad, 2, &vec![1; len], 11);
    }
}

#[test]
fn rules_of_a_ticket() {
    let Store { g, images } = Store::new();
    let mut bad = Vec::from(bad_tickets());
    bad.push(("kind 0", [0; 16]));
    bad.push(("kind 0 with a weight", ticket(0, 0, 7, 3, [5, 4])));
    bad.push(("kind 0 and nothing else", ticket(0, 255, u32::MAX, u16::MAX, [u32::MAX; 2])));
    for (name, ticket) in bad {
        assert_eq!(add(g, &mut images.clone(), NO_CHIP, &ticket, ALL), refused(11), "{name}");
    }
    let good = [[0, 0], [1, 1], [u32::MAX, u32::MAX], [u32::MAX, 0], [0x0002_0000, 0x0001_ffff]];
    for weights in good {
        let mut images = images.clone();
        added(g, &mut images, &ticket(1, 0, u32::MAX, u16::MAX, weights));
        let [gross, tare] = weights;
        assert_eq!(asked(g, &images, NO_CHIP, u32::MAX, u16::MAX), (Some(Weight { gross, tare }), 1));
    }
}

#[test]
fn reads_of_a_commit() {
    for (p, reads) in [(1, 2), (2, 2), (3, 1), (4, 0)] {
        let mut store = Store::new();
        (0..4).for_each(|page| assert_eq!(store.write(page), [0, 1, 0, 3]));
        assert_eq!(store.commit(0), [0, 1, 0, 2]);
        (0..p).for_each(|page| assert_eq!(store.write(page), [0, 1, 0, 3]));
        assert_eq!(store.view().record(0).old[..p as usize], [0, 0, 0, 0][..p as usize]);
        assert_eq!(store.commit(0), [reads, 1, 0, 2]);
        let record = store.view().record(0);
        assert_eq!((record.old, record.bitmap, record.slot, record.parity), ([NONE; 6], 0, NO_SLOT, 1));
    }
    // Pages of none add no read.
    let mut store = Store::new();
    store.write(0);
    assert_eq!(store.commit(0), [0, 1, 0, 2]);
    // N = 3, p = 1 is less than ceil(N / 2): old parity and old page.
    let g = geometry(3, 16, 4, 4, 6, 2);
    let mut store = Store { g, images: formatted(g) };
    store.write(0);
    assert_eq!(store.commit(0), [0, 1, 0, 2]);
    store.write(0);
    assert_eq!(store.commit(0), [2, 1, 0, 2]);
}

#[test]
fn write_store_by_store() {
    let mut store = Store::new();
    store.write(5);
    let at = store.view().shape.page_at(1, 0);
    let page = &store.images.chips[at..at + 24];
    assert_eq!(page, [&[5; 16][..], &[DATA, 1, 1, 0, 255, 255, 255, 255]].concat());
    for (allowance, expected) in
        [[CUT, 0, 0, 0], [CUT, 0, 1, 1], [CUT, 1, 1, 2], [DONE, 1, 1, 3]].into_iter().enumerate()
    {
        let mut images = store.images.clone();
        let status = write(store.g, &mut images, NO_CHIP, 5, &[6; 16], allowance as u64);
        assert_eq!([status.status, status.reads, status.programs, status.stores], expected);
    }
    store.write(5);
    store.commit(1);
    let at = store.view().shape.page_at(3, 0);
    let page = &store.images.chips[at..at + 24];
    assert_eq!(page, [&[5; 16][..], &[PARITY, 0, 1, 0, 255, 255, 255, 255]].concat());
}

#[test]
fn stripe_committed_by_a_write() {
    let mut store = Store::new();
    store.write(0);
    (4..7).for_each(|page| assert_eq!(store.write(page), [0, 1, 0, 3]));
    // Stripe 0 has p = 1 and cost 2, stripe 1 has p = 3 and cost 1.
    assert_eq!(store.write(8), [0, 2, 0, 5]);
    let slots = |store: &Store| [0, 1, 2, 3].map(|stripe| store.view().record(stripe).slot);
    assert_eq!(slots(&store), [0, NO_SLOT, 1, NO_SLOT]);
    // A stripe with a slot needs no commit, and takes the slot that no record names.
    assert_eq!(store.write(1), [0, 1, 0, 3]);
    assert_eq!(slots(&store), [2, NO_SLOT, 1, NO_SLOT]);
    assert_eq!(store.write(0), [1, 1, 0, 3]);
    assert_eq!(slots(&store), [0, NO_SLOT, 1, NO_SLOT]);
    // Stripe 0 has p = 2, stripe 2 has p = 1, both cost 2.
    assert_eq!(store.write(12), [0, 2, 0, 5]);
    assert_eq!(slots(&store), [NO_SLOT, NO_SLOT, 1, 0]);
}

#[test]
fn places_and_a_collection_without_copies() {
    let mut store = Store::new();
    for place in 0..12 {
        assert_eq!(store.write(0), [(place > 0) as u64, 1, 0, 3]);
        assert_eq!(store.view().record(0).current[0], place);
    }
    // Blocks 0 and 1 have no named page; after the erase blocks 0 and 3 are clean.
    assert_eq!(store.write(0), [1, 1, 1, 7]);
    assert_eq!(store.view().record(0).current[0], 0);
    assert_eq!(store.write(0), [1, 1, 0, 3]);
    assert_eq!(store.view().record(0).current[0], 1);
}

#[test]
fn collection_store_by_store() {
    let mut store = Store::new();
    store.write(0);
    store.commit(0);
    for page in [0, 4, 4] {
        store.write(page);
    }
    let full = store.images.clone();
    let status = collect(store.g, &mut store.images, NO_CHIP, 0, ALL);
    assert_eq!(counts(status), [3, 3, 1, 10]);
    let (first, second) = (store.view().record(0), store.view().record(1));
    assert_eq!((first.old[0], first.current[0], second.current[0], second.old[0]), (4, 5, 6, NONE));
    let copied = [4, 5, 6, 7].map(|page| store.view().spare(0, page).copied);
    assert_eq!(copied, [0, 1, 3, NONE]);
    assert_eq!(store.view().collection(), Collection::default());
    for allowance in 0..10 {
        let mut images = full.clone();
        let status = collect(store.g, &mut images, NO_CHIP, 0, allowance);
        let copies = allowance.saturating_sub(1).min(3);
        assert_eq!(
            [status.status, status.reads, status.programs, status.stores],
            [CUT, copies, copies, allowance]
        );
        let phase = images.view(store.g.shape().unwrap()).collection().phase;
        assert_eq!(phase, [0, 1, 1, 1, 1, 2, 2, 2, 2, 2][allowance as usize]);
        let status = open(store.g, &mut images, NO_CHIP, ALL);
        assert_eq!(status.stores, [0, 2, 2, 2, 2, 5, 4, 3, 2, 2][allowance as usize]);
        assert_eq!(images == store.images, phase == 2);
        assert_eq!(images == full, phase < 2);
    }
}

/// The table's order, from the top: each line breaks one thing less.
#[test]
fn refusals_in_order() {
    let g = geometry(4, 16, 4, 4, 6, 2);
    let bad = geometry(4, 16, 4, u64::MAX, 6, 2);
    let mut images = formatted(g);
    write(g, &mut images, NO_CHIP, 1, &[1; 16], ALL);
    write(g, &mut images, NO_CHIP, 1, &[2; 16], ALL);
    let at = g.shape().unwrap().spare_at(1, 0);
    let mut phase_one = images.clone();
    let last = 6 * RECORD_BYTES;
    phase_one.records[last..]
        .copy_from_slice(&Collection { phase: 1, chip: 0, victim: 0, destination: 1 }.to_bytes());
    let mut spares = phase_one.clone();
    spares.chips[at] = CLEAN;
    let mut records = spares.clone();
    records.records[31] = 1;
    let mut short = records.clone();
    short.slots.pop();
    let data = [0; 15];
    let expect = |number, g, from: &Images, lost, page, data: &[u8]| {
        let mut images = from.clone();
        assert_eq!(write(g, &mut images, lost, page, data, ALL).status, number);
        assert_eq!(&images, from);
    };
    expect(1, bad, &short, 5, 24, &data);
    expect(2, g, &short, 5, 24, &data);
    expect(3, g, &records, 5, 24, &data);
    expect(4, g, &records, 2, 24, &data);
    expect(5, g, &spares, 2, 24, &data);
    expect(6, g, &phase_one, 2, 24, &data);
    expect(7, g, &images, 2, 24, &data);
    expect(8, g, &images, 2, 23, &data);
    expect(9, g, &images, 2, 23, &[0; 16]);
    assert_eq!(commit(g, &mut images, NO_CHIP, 1, ALL).status, 10);
    assert_eq!(commit(g, &mut images, NO_CHIP, 6, ALL).status, 7);
    assert_eq!(collect(g, &mut images, NO_CHIP, 0, ALL).status, 10);
    assert_eq!(collect(g, &mut images, NO_CHIP, 5, ALL).status, 7);
    assert_eq!(collect(g, &mut images, 256, 5, ALL).status, 3);
}
