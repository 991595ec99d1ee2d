//! The weight store, written a second time, from document 01, requests 1 and 2 of document 02, and
//! the readings of their open points.
//!
//! It is the plain model that random calls are compared with: it owns its images, makes one
//! store after the other as the document lists them, and takes time linear in the images.
//! The words in quotes are the documents'.

/// "65,535 for none".
pub const NONE: u16 = 65_535;
/// "none (255)": the lost chip of a call that names none.
pub const NO_CHIP: u64 = 255;
/// "slot byte (255 for none)".
pub const NO_SLOT: u8 = 255;

/// "kind (255 clean, 68 data, 80 parity)".
pub const CLEAN: u8 = 255;
pub const DATA: u8 = 68;
pub const PARITY: u8 = 80;

pub const SPARE_BYTES: usize = 8;
pub const RECORD_BYTES: usize = 32;
pub const TICKET_BYTES: usize = 16;
/// A record has room for six members, whatever N is.
pub const MEMBERS: usize = 6;

/// "twenty-six bytes of 255, a 0, a 255 and four of 0".
pub const EMPTY_RECORD: [u8; RECORD_BYTES] =
    *b"\xff\xff\xff\xff\xff\xff\xff\xff\xff\xff\xff\xff\xff\xff\xff\xff\xff\xff\xff\xff\xff\xff\xff\xff\
       \xff\xff\x00\xff\x00\x00\x00\x00";

/// "kind (0 empty, 1 weight, 2 withdrawal)".
pub const EMPTY: u8 = 0;
pub const WEIGHT: u8 = 1;
pub const WITHDRAWAL: u8 = 2;

pub const DONE: u64 = 0;
pub const CUT: u64 = 255;

/// Data pages to a stripe, data bytes to a page, pages to a block, blocks to a chip, stripes,
/// partial parities.
#[derive(Clone, Copy, Debug, PartialEq, Eq)]
pub struct Geometry {
    pub n: u64,
    pub w: u64,
    pub k: u64,
    pub b: u64,
    pub s: u64,
    pub m: u64,
}

/// The three images lent to each call.
#[derive(Clone, Debug, Default, PartialEq, Eq)]
pub struct Images {
    pub chips: Vec<u8>,
    pub records: Vec<u8>,
    pub slots: Vec<u8>,
}

/// What a call answers: `DONE`, `CUT` or a refusal's number, and the counts.
#[derive(Clone, Copy, Debug, Default, PartialEq, Eq)]
pub struct Status {
    pub status: u64,
    pub reads: u64,
    pub programs: u64,
    pub erases: u64,
    pub stores: u64,
}

/// "one of four things: never written, read directly, rebuilt through the partial parity, rebuilt
/// through the full parity", as "0, 1, 2 or 3 in that order".
#[derive(Clone, Copy, Debug, PartialEq, Eq, PartialOrd, Ord)]
pub enum Origin {
    Unwritten = 0,
    Direct = 1,
    Partial = 2,
    Full = 3,
}

/// What a read answers: status and counts, and how its page was got; nothing where it is refused.
#[derive(Clone, Copy, Debug, PartialEq, Eq)]
pub struct Reading {
    pub status: Status,
    pub origin: Option<Origin>,
}

/// A weight that stands: gross and tare grams.
#[derive(Clone, Copy, Debug, PartialEq, Eq)]
pub struct Weight {
    pub gross: u32,
    pub tare: u32,
}

/// What a question is answered: status and counts as of a read, the weight that stands, if there
/// is one, and an origin; neither where it is refused.
#[derive(Clone, Copy, Debug, PartialEq, Eq)]
pub struct Finding {
    pub status: Status,
    pub weight: Option<Weight>,
    pub origin: Option<Origin>,
}

/// "Where a call is turned back", with the table's numbers, and those of request 1.
#[derive(Clone, Copy, Debug, PartialEq, Eq)]
pub enum Refusal {
    Geometry = 1,
    Buffers = 2,
    LostChip = 3,
    Records = 4,
    Spares = 5,
    Collection = 6,
    Request = 7,
    Data = 8,
    ChipSet = 9,
    Work = 10,
    Ticket = 11,
    LogFull = 12,
}

impl Status {
    /// "counts zero".
    fn refused(refusal: Refusal) -> Status {
        Status { status: refusal as u64, ..Status::default() }
    }
}

impl Reading {
    fn refused(refusal: Refusal) -> Reading {
        Reading { status: Status::refused(refusal), origin: None }
    }
}

impl Finding {
    fn refused(refusal: Refusal) -> Finding {
        Finding { status: Status::refused(refusal), weight: None, origin: None }
    }
}

// ---------------------------------------------------------------------------------------------
// Geometry and layout
// ---------------------------------------------------------------------------------------------

/// A geometry within the limits.
#[derive(Clone, Copy, Debug, PartialEq, Eq)]
pub struct Shape {
    pub n: usize,
    pub w: usize,
    pub k: usize,
    pub b: usize,
    pub s: usize,
    pub m: usize,
}

impl Geometry {
    /// Nothing if any limit is broken. Each number is held to its own limit before a product or a
    /// sum is formed, so none overflows.
    pub fn shape(self) -> Option<Shape> {
        let Geometry { n, w, k, b, s, m } = self;
        let each = (2..=6).contains(&n)
            && (16..=4_096).contains(&w)
            && w % 16 == 0
            && (2..=128).contains(&k)
            && (2..=1_024).contains(&b)
            && (1..=65_535).contains(&s)
            && (1..=254).contains(&m);
        if !each || b * k > 65_535 || s + m + 1 > (b - 1) * k {
            return None;
        }
        let [n, w, k, b, s, m] = [n, w, k, b, s, m].map(|number| number as usize);
        Some(Shape { n, w, k, b, s, m })
    }
}

impl Shape {
    /// Pages to a chip.
    pub fn pages(self) -> usize {
        self.b * self.k
    }

    pub fn page_len(self) -> usize {
        self.w + SPARE_BYTES
    }

    pub fn chip_len(self) -> usize {
        self.pages() * self.page_len()
    }

    /// The lengths of chips, records and slots.
    pub fn lengths(self) -> [usize; 3] {
        [(self.n + 1) * self.chip_len(), (self.s + 1) * RECORD_BYTES, (self.m + 1) * self.w]
    }

    /// Where a page begins in the chip image.
    pub fn page_at(self, chip: usize, page: usize) -> usize {
        (chip * self.pages() + page) * self.page_len()
    }

    /// Where a page's spare begins in the chip image.
    pub fn spare_at(self, chip: usize, page: usize) -> usize {
        self.page_at(chip, page) + self.w
    }

    /// "Parity of stripe j is on chip N − (j mod (N + 1))."
    pub fn parity_chip(self, stripe: usize) -> usize {
        self.n - stripe % (self.n + 1)
    }

    /// "Member m is on chip m if m is less than that, else on chip m + 1."
    pub fn member_chip(self, stripe: usize, member: usize) -> usize {
        if member < self.parity_chip(stripe) {
            member
        } else {
            member + 1
        }
    }

    /// The page numbers of a block.
    pub fn block_pages(self, block: usize) -> std::ops::Range<usize> {
        block * self.k..(block + 1) * self.k
    }

    /// "Cost is N − p or p + 1", by what the commit of p set bits reads.
    pub fn cost(self, p: usize) -> usize {
        if self.completes(p) {
            self.n - p
        } else {
            p + 1
        }
    }

    /// "p is at least ceil(N / 2)".
    pub fn completes(self, p: usize) -> bool {
        p >= self.n.div_ceil(2)
    }
}

/// The 8 spare bytes of a page, but the last two.
#[derive(Clone, Copy, Debug, PartialEq, Eq)]
pub struct Spare {
    pub kind: u8,
    pub member: u8,
    pub stripe: u16,
    pub copied: u16,
}

impl Spare {
    pub fn from_bytes(bytes: &[u8]) -> Spare {
        Spare { kind: bytes[0], member: bytes[1], stripe: number(bytes, 2), copied: number(bytes, 4) }
    }

    pub fn to_bytes(self) -> [u8; SPARE_BYTES] {
        let [s0, s1] = self.stripe.to_le_bytes();
        let [c0, c1] = self.copied.to_le_bytes();
        [self.kind, self.member, s0, s1, c0, c1, 255, 255]
    }

    /// "the same kind, member and stripe".
    fn same_tag(self, other: Spare) -> bool {
        (self.kind, self.member, self.stripe) == (other.kind, other.member, other.stripe)
    }
}

/// The record of a stripe.
#[derive(Clone, Copy, Debug, PartialEq, Eq)]
pub struct Record {
    pub current: [u16; MEMBERS],
    pub old: [u16; MEMBERS],
    pub parity: u16,
    pub bitmap: u8,
    pub slot: u8,
    pub rest: [u8; 4],
}

impl Record {
    pub fn from_bytes(bytes: &[u8]) -> Record {
        Record {
            current: std::array::from_fn(|m| number(bytes, 2 * m)),
            old: std::array::from_fn(|m| number(bytes, 12 + 2 * m)),
            parity: number(bytes, 24),
            bitmap: bytes[26],
            slot: bytes[27],
            rest: std::array::from_fn(|i| bytes[28 + i]),
        }
    }

    pub fn to_bytes(self) -> [u8; RECORD_BYTES] {
        let mut bytes = [0; RECORD_BYTES];
        for m in 0..MEMBERS {
            bytes[2 * m..2 * m + 2].copy_from_slice(&self.current[m].to_le_bytes());
            bytes[12 + 2 * m..14 + 2 * m].copy_from_slice(&self.old[m].to_le_bytes());
        }
        bytes[24..26].copy_from_slice(&self.parity.to_le_bytes());
        bytes[26] = self.bitmap;
        bytes[27] = self.slot;
        bytes[28..].copy_from_slice(&self.rest);
        bytes
    }

    /// "bit m: member m is in the partial parity".
    pub fn bit(&self, member: usize) -> bool {
        self.bitmap >> member & 1 == 1
    }

    /// The set bits, p.
    pub fn set_bits(&self) -> usize {
        self.bitmap.count_ones() as usize
    }

    /// How a member's page is got, its chip being lost or not. One that was never written is so on a
    /// lost chip too: only "a written page is gathered".
    fn origin(&self, member: usize, lost: bool) -> Origin {
        if self.current[member] == NONE {
            Origin::Unwritten
        } else if !lost {
            Origin::Direct
        } else if self.bit(member) {
            Origin::Partial
        } else {
            Origin::Full
        }
    }

    /// "store its record with that copy in place of the original".
    fn put_in_place(&mut self, copy: Spare, page: u16) {
        let numbers = match copy.kind {
            PARITY => [Some(&mut self.parity), None],
            _ => {
                let member = copy.member as usize;
                [Some(&mut self.current[member]), Some(&mut self.old[member])]
            }
        };
        for held in numbers.into_iter().flatten() {
            if *held == copy.copied {
                *held = page;
            }
        }
    }
}

/// The collection record: "phase (0, 1, 2), chip, victim block (2 bytes), destination block
/// (2 bytes), then zeros".
#[derive(Clone, Copy, Debug, Default, PartialEq, Eq)]
pub struct Collection {
    pub phase: u8,
    pub chip: u8,
    pub victim: u16,
    pub destination: u16,
}

impl Collection {
    pub fn from_bytes(bytes: &[u8]) -> Collection {
        Collection {
            phase: bytes[0],
            chip: bytes[1],
            victim: number(bytes, 2),
            destination: number(bytes, 4),
        }
    }

    pub fn to_bytes(self) -> [u8; RECORD_BYTES] {
        let mut bytes = [0; RECORD_BYTES];
        bytes[0] = self.phase;
        bytes[1] = self.chip;
        bytes[2..4].copy_from_slice(&self.victim.to_le_bytes());
        bytes[4..6].copy_from_slice(&self.destination.to_le_bytes());
        bytes
    }

    /// "a collection is in phase 1 or 2 on that chip".
    fn is_on(self, chip: usize) -> bool {
        self.phase != 0 && self.chip as usize == chip
    }
}

/// A record of the log.
#[derive(Clone, Copy, Debug, PartialEq, Eq)]
pub struct Ticket {
    pub kind: u8,
    pub zero: u8,
    pub bag: u16,
    pub lot: u32,
    pub gross: u32,
    pub tare: u32,
}

impl Ticket {
    /// "kind .., a zero byte, bag (2 bytes), lot (4), gross grams (4), tare grams (4)".
    pub fn from_bytes(bytes: &[u8]) -> Ticket {
        Ticket {
            kind: bytes[0],
            zero: bytes[1],
            bag: number(bytes, 2),
            lot: long_number(bytes, 4),
            gross: long_number(bytes, 8),
            tare: long_number(bytes, 12),
        }
    }

    pub fn to_bytes(self) -> [u8; TICKET_BYTES] {
        let mut bytes = [0; TICKET_BYTES];
        bytes[0] = self.kind;
        bytes[1] = self.zero;
        bytes[2..4].copy_from_slice(&self.bag.to_le_bytes());
        bytes[4..8].copy_from_slice(&self.lot.to_le_bytes());
        bytes[8..12].copy_from_slice(&self.gross.to_le_bytes());
        bytes[12..].copy_from_slice(&self.tare.to_le_bytes());
        bytes
    }

    /// "a withdrawal has both weights zero; tare is never above gross"; an empty ticket keeps none.
    pub fn keeps_rules(&self) -> bool {
        let weights = match self.kind {
            WEIGHT => self.tare <= self.gross,
            WITHDRAWAL => self.gross == 0 && self.tare == 0,
            _ => false,
        };
        weights && self.zero == 0
    }

    /// "the one standing if it is a weight, else none".
    fn weight(self) -> Option<Weight> {
        (self.kind == WEIGHT).then_some(Weight { gross: self.gross, tare: self.tare })
    }
}

/// "All numbers in images are little-endian."
fn number(bytes: &[u8], at: usize) -> u16 {
    u16::from_le_bytes([bytes[at], bytes[at + 1]])
}

fn long_number(bytes: &[u8], at: usize) -> u32 {
    u32::from_le_bytes([bytes[at], bytes[at + 1], bytes[at + 2], bytes[at + 3]])
}

fn xor(sum: &mut [u8], page: &[u8]) {
    for (byte, other) in sum.iter_mut().zip(page) {
        *byte ^= other;
    }
}

// ---------------------------------------------------------------------------------------------
// Looking at the images
// ---------------------------------------------------------------------------------------------

/// A page number in a record, with the chip it is on and the tag its page has.
pub struct Name {
    pub chip: usize,
    pub page: usize,
    pub kind: u8,
    pub member: u8,
}

/// What a walk of the log has found: its reads, "the last in that order" of its pages' origins, and
/// its end, if it does not fill every page.
struct Log {
    reads: u64,
    origin: Origin,
    end: Option<LogEnd>,
}

/// The page with the log's first ticket of kind 0, and that ticket's byte in the page.
struct LogEnd {
    stripe: usize,
    member: usize,
    at: usize,
}

/// Images of the right lengths, looked at.
#[derive(Clone, Copy)]
pub struct View<'a> {
    pub shape: Shape,
    pub images: &'a Images,
}

impl Images {
    pub fn view(&self, shape: Shape) -> View<'_> {
        View { shape, images: self }
    }
}

impl<'a> View<'a> {
    pub fn record_bytes(self, index: usize) -> &'a [u8] {
        &self.images.records[index * RECORD_BYTES..(index + 1) * RECORD_BYTES]
    }

    pub fn record(self, stripe: usize) -> Record {
        Record::from_bytes(self.record_bytes(stripe))
    }

    pub fn collection(self) -> Collection {
        Collection::from_bytes(self.record_bytes(self.shape.s))
    }

    pub fn slot(self, slot: u8) -> &'a [u8] {
        &self.images.slots[slot as usize * self.shape.w..(slot as usize + 1) * self.shape.w]
    }

    pub fn data(self, chip: usize, page: usize) -> &'a [u8] {
        let at = self.shape.page_at(chip, page);
        &self.images.chips[at..at + self.shape.w]
    }

    pub fn spare(self, chip: usize, page: usize) -> Spare {
        let at = self.shape.spare_at(chip, page);
        Spare::from_bytes(&self.images.chips[at..at + SPARE_BYTES])
    }

    /// "A page is clean when its kind is 255."
    pub fn is_clean(self, chip: usize, page: usize) -> bool {
        self.images.chips[self.shape.spare_at(chip, page)] == CLEAN
    }

    /// The pages that a record names, each on its own chip.
    pub fn names(self, stripe: usize, record: &Record) -> impl Iterator<Item = Name> {
        let (shape, record) = (self.shape, *record);
        let data = (0..shape.n).flat_map(move |m| {
            let chip = shape.member_chip(stripe, m);
            [record.current[m], record.old[m]].map(|page| (chip, page, DATA, m as u8))
        });
        data.chain([(shape.parity_chip(stripe), record.parity, PARITY, 0)])
            .filter(|&(_, page, _, _)| page != NONE)
            .map(|(chip, page, kind, member)| Name { chip, page: page as usize, kind, member })
    }

    /// For each page of a chip: does a record name it "(as current, old or parity)"?
    pub fn named_on(self, chip: usize) -> Vec<bool> {
        let mut named = vec![false; self.shape.pages()];
        for stripe in 0..self.shape.s {
            for name in self.names(stripe, &self.record(stripe)) {
                if name.chip == chip {
                    named[name.page] = true;
                }
            }
        }
        named
    }

    /// The lowest clean place of a block. In a sound block it is 0 when the block is clean, none
    /// when it is full, and another when it is begun.
    pub fn clean_place(self, chip: usize, block: usize) -> Option<usize> {
        self.shape.block_pages(block).position(|page| self.is_clean(chip, page))
    }

    /// "the lowest clean page, block by block and page by page, in a block already begun; else
    /// page 0 of the lowest clean block if two or more blocks are clean".
    pub fn place(self, chip: usize) -> Option<usize> {
        let mut clean = Vec::new();
        for block in 0..self.shape.b {
            match self.clean_place(chip, block) {
                Some(0) => clean.push(block * self.shape.k),
                Some(place) => return Some(block * self.shape.k + place),
                None => {}
            }
        }
        if clean.len() >= 2 {
            clean.first().copied()
        } else {
            None
        }
    }

    pub fn lowest_clean_block(self, chip: usize) -> Option<usize> {
        (0..self.shape.b).find(|&block| self.clean_place(chip, block) == Some(0))
    }

    /// "the full block with an unnamed page that has fewest pages named by records (as current,
    /// old or parity), lowest on ties".
    pub fn victim(self, chip: usize) -> Option<usize> {
        let named = self.named_on(chip);
        let count = |block| self.shape.block_pages(block).filter(|&page| named[page]).count();
        (0..self.shape.b)
            .filter(|&block| self.clean_place(chip, block).is_none())
            .map(|block| (count(block), block))
            .filter(|&(count, _)| count < self.shape.k)
            .min()
            .map(|(_, block)| block)
    }

    /// The copies still to be put in place, in ascending order: each page of the destination,
    /// named by no record, "with the same kind, member and stripe" as a page named in the victim
    /// and "copied from it".
    pub fn twins(self, named: &[bool]) -> Vec<usize> {
        let Collection { chip, victim, destination, .. } = self.collection();
        let chip = chip as usize;
        let victim = self.shape.block_pages(victim as usize);
        let is_twin = |&page: &usize| {
            let spare = self.spare(chip, page);
            let original = spare.copied as usize;
            !named[page]
                && victim.contains(&original)
                && named[original]
                && spare.same_tag(self.spare(chip, original))
        };
        self.shape.block_pages(destination as usize).filter(is_twin).collect()
    }

    /// Adds a page to the sum and tells the reads: "a page number of none adds zeros and no read".
    fn add(self, sum: &mut [u8], chip: usize, page: u16) -> u64 {
        if page == NONE {
            return 0;
        }
        xor(sum, self.data(chip, page as usize));
        1
    }

    /// What a commit of the stripe programs, and its reads: "if p is at least ceil(N / 2), parity
    /// is partial ⊕ pages not in the bitmap; else partial ⊕ old parity ⊕ old pages of the bitmap".
    fn committed_parity(self, stripe: usize) -> (Vec<u8>, u64) {
        let record = self.record(stripe);
        let completes = self.shape.completes(record.set_bits());
        let mut sum = self.slot(record.slot).to_vec();
        let mut reads = 0;
        if !completes {
            reads += self.add(&mut sum, self.shape.parity_chip(stripe), record.parity);
        }
        for m in 0..self.shape.n {
            let chip = self.shape.member_chip(stripe, m);
            reads += match (completes, record.bit(m)) {
                (true, false) => self.add(&mut sum, chip, record.current[m]),
                (false, true) => self.add(&mut sum, chip, record.old[m]),
                _ => 0,
            };
        }
        (sum, reads)
    }

    /// Gathers a written page of the lost chip, and tells its reads: "bit set, slot ⊕ the other
    /// pages of the bitmap; bit clear, parity page ⊕ old page of each set member ⊕ current page of
    /// each other clear one".
    fn rebuild(self, stripe: usize, record: &Record, member: usize, sum: &mut [u8]) -> u64 {
        let through_partial = record.bit(member);
        let mut reads = 0;
        if through_partial {
            sum.copy_from_slice(self.slot(record.slot));
        } else {
            sum.fill(0);
            reads += self.add(sum, self.shape.parity_chip(stripe), record.parity);
        }
        for m in (0..self.shape.n).filter(|&m| m != member) {
            let chip = self.shape.member_chip(stripe, m);
            reads += match (through_partial, record.bit(m)) {
                (true, true) => self.add(sum, chip, record.current[m]),
                (true, false) => 0,
                (false, true) => self.add(sum, chip, record.old[m]),
                (false, false) => self.add(sum, chip, record.current[m]),
            };
        }
        reads
    }

    /// Gets a member's page: where it lies, if it is read directly, else it is in the work page; its
    /// reads, and how it was got.
    fn get(
        self,
        stripe: usize,
        record: &Record,
        member: usize,
        lost: Option<usize>,
        work: &mut [u8],
    ) -> (Option<&'a [u8]>, u64, Origin) {
        let chip = self.shape.member_chip(stripe, member);
        let origin = record.origin(member, lost == Some(chip));
        match origin {
            Origin::Unwritten => {
                work.fill(0);
                (None, 0, origin)
            }
            Origin::Direct => (Some(self.data(chip, record.current[member] as usize)), 1, origin),
            Origin::Partial | Origin::Full => (None, self.rebuild(stripe, record, member, work), origin),
        }
    }

    /// A member's page as it reads, its reads, and how it was got. It is where it lies, or in the work
    /// page if it is zeros or gathered.
    pub fn fetch<'b>(
        self,
        stripe: usize,
        record: &Record,
        member: usize,
        lost: Option<usize>,
        work: &'b mut [u8],
    ) -> (&'b [u8], u64, Origin)
    where
        'a: 'b,
    {
        let (page, reads, origin) = self.get(stripe, record, member, lost, work);
        (page.unwrap_or(work), reads, origin)
    }

    /// "Tickets fill the pages in order, and the log ends at the first of kind 0." `each` is shown the
    /// tickets before it, and how the page of each was got; one that breaks the rules ends the walk.
    fn walk_log(self, lost: Option<usize>, mut each: impl FnMut(&Ticket, Origin)) -> Result<Log, Refusal> {
        let mut work = vec![0; self.shape.w];
        let mut log = Log { reads: 0, origin: Origin::Unwritten, end: None };
        for stripe in 0..self.shape.s {
            let record = self.record(stripe);
            for member in 0..self.shape.n {
                let (page, reads, origin) = self.fetch(stripe, &record, member, lost, &mut work);
                log.reads += reads;
                log.origin = log.origin.max(origin);
                for (i, bytes) in page.chunks_exact(TICKET_BYTES).enumerate() {
                    let ticket = Ticket::from_bytes(bytes);
                    if ticket.kind == EMPTY {
                        log.end = Some(LogEnd { stripe, member, at: i * TICKET_BYTES });
                        return Ok(log);
                    }
                    if !ticket.keeps_rules() {
                        return Err(Refusal::Ticket);
                    }
                    each(&ticket, origin);
                }
            }
        }
        Ok(log)
    }

    /// The stripes whose record has a slot, with their records.
    pub fn stripes_with_slot(self) -> impl Iterator<Item = (usize, Record)> + 'a {
        (0..self.shape.s)
            .map(move |stripe| (stripe, self.record(stripe)))
            .filter(|(_, record)| record.slot != NO_SLOT)
    }

    /// "commit the stripe of least cost, lowest number on ties".
    pub fn cheapest_stripe(self) -> Option<usize> {
        self.stripes_with_slot()
            .min_by_key(|(stripe, record)| (self.shape.cost(record.set_bits()), *stripe))
            .map(|(stripe, _)| stripe)
    }

    /// "the lowest free slot": the lowest that no record names.
    pub fn free_slot(self) -> Option<u8> {
        let mut taken = [false; 256];
        for (_, record) in self.stripes_with_slot() {
            taken[record.slot as usize] = true;
        }
        (0..=self.shape.m as u8).find(|&slot| !taken[slot as usize])
    }
}

// ---------------------------------------------------------------------------------------------
// Sound images
// ---------------------------------------------------------------------------------------------

/// All that "Sound images" asks of the records.
fn records_sound(view: View) -> bool {
    let mut taken = [false; 256];
    let mut with_slot = 0;
    for stripe in 0..view.shape.s {
        let record = view.record(stripe);
        if !record_sound(view.shape, &record) {
            return false;
        }
        if record.slot != NO_SLOT {
            // "no slot in two records"
            if taken[record.slot as usize] {
                return false;
            }
            taken[record.slot as usize] = true;
            with_slot += 1;
        }
    }
    // "at most M records with a slot"
    with_slot <= view.shape.m && collection_sound(view)
}

fn record_sound(shape: Shape, record: &Record) -> bool {
    // "bitmap bits only below N"
    let bitmap = record.bitmap >> shape.n == 0;
    // "slot none exactly when the bitmap is 0, else at most M"
    let slot = match record.bitmap {
        0 => record.slot == NO_SLOT,
        _ => record.slot as usize <= shape.m,
    };
    bitmap
        && slot
        && number_sound(shape, record.parity)
        && (0..MEMBERS).all(|m| member_sound(shape, record, m))
        && record.rest == [0; 4]
}

/// "page numbers are none or below B × K".
fn number_sound(shape: Shape, page: u16) -> bool {
    page == NONE || (page as usize) < shape.pages()
}

fn member_sound(shape: Shape, record: &Record, member: usize) -> bool {
    let (current, old) = (record.current[member], record.old[member]);
    // "and none for members N and above"
    if member >= shape.n {
        return current == NONE && old == NONE;
    }
    let set = record.bit(member);
    let numbers = number_sound(shape, current) && number_sound(shape, old);
    // "an old number only where the bit is set; a set bit has a current number, different from
    // the old one"
    let by_bit = if set { current != NONE && current != old } else { old == NONE };
    // "an old number, or a current one with its bit clear, needs a parity page"
    let needs_parity = old != NONE || (current != NONE && !set);
    numbers && by_bit && (!needs_parity || record.parity != NONE)
}

fn collection_sound(view: View) -> bool {
    let bytes = view.record_bytes(view.shape.s);
    let Collection { phase, chip, victim, destination } = view.collection();
    match phase {
        // "in phase 0 all zero"
        0 => bytes.iter().all(|&byte| byte == 0),
        // "outside phase 0, chip at most N, both blocks below B and different"
        1 | 2 => {
            chip as usize <= view.shape.n
                && (victim as usize) < view.shape.b
                && (destination as usize) < view.shape.b
                && victim != destination
                && bytes[6..].iter().all(|&byte| byte == 0)
        }
        _ => false,
    }
}

/// All that "Sound images" asks of the spares, "on every chip but the lost one". The records are
/// sound.
fn spares_sound(view: View, lost: Option<usize>) -> bool {
    // "each page a record names has that stripe, kind and member"
    let tagged = (0..view.shape.s).all(|stripe| {
        view.names(stripe, &view.record(stripe)).filter(|name| Some(name.chip) != lost).all(|name| {
            let tag = Spare { kind: name.kind, member: name.member, stripe: stripe as u16, copied: NONE };
            view.spare(name.chip, name.page).same_tag(tag)
        })
    });
    tagged && (0..=view.shape.n).filter(|&chip| Some(chip) != lost).all(|chip| chip_sound(view, chip))
}

fn chip_sound(view: View, chip: usize) -> bool {
    let mut some_clean = false;
    for block in 0..view.shape.b {
        // "no used page follows a clean one in a block"
        if let Some(place) = view.clean_place(chip, block) {
            let mut after = view.shape.block_pages(block).skip(place);
            if !after.all(|page| view.is_clean(chip, page)) {
                return false;
            }
            some_clean |= place == 0;
        }
    }
    // "some block is wholly clean, unless a collection is in phase 1 or 2 on that chip"
    if view.collection().is_on(chip) {
        phase_sound(view, chip)
    } else {
        some_clean
    }
}

/// The collection in phase 1 or 2 on this chip.
fn phase_sound(view: View, chip: usize) -> bool {
    let Collection { phase, victim, destination, .. } = view.collection();
    let named = view.named_on(chip);
    if phase == 1 {
        // "Phase 1: no record names a page of the destination."
        return view.shape.block_pages(destination as usize).all(|page| !named[page]);
    }
    // "Phase 2: each page named in the victim has exactly one page in the destination with the
    // same kind, member and stripe, copied from it and named by no record."
    let mut twins = vec![0u32; view.shape.pages()];
    for page in view.twins(&named) {
        twins[view.spare(chip, page).copied as usize] += 1;
    }
    view.shape.block_pages(victim as usize).all(|page| !named[page] || twins[page] == 1)
}

// ---------------------------------------------------------------------------------------------
// Where a call is turned back
// ---------------------------------------------------------------------------------------------

/// Refusals 1 and 2, all calls.
fn check_lengths(geometry: Geometry, images: &Images) -> Result<Shape, Refusal> {
    let shape = geometry.shape().ok_or(Refusal::Geometry)?;
    if [images.chips.len(), images.records.len(), images.slots.len()] != shape.lengths() {
        return Err(Refusal::Buffers);
    }
    Ok(shape)
}

/// Refusals 1 to 5, all calls but format.
fn check_images(
    geometry: Geometry,
    images: &Images,
    lost: u64,
) -> Result<(View<'_>, Option<usize>), Refusal> {
    let shape = check_lengths(geometry, images)?;
    let lost = match lost {
        NO_CHIP => None,
        chip if chip <= shape.n as u64 => Some(chip as usize),
        _ => return Err(Refusal::LostChip),
    };
    let view = images.view(shape);
    if !records_sound(view) {
        return Err(Refusal::Records);
    }
    if !spares_sound(view, lost) {
        return Err(Refusal::Spares);
    }
    Ok((view, lost))
}

/// Refusals 1 to 6.
fn check_idle(geometry: Geometry, images: &Images, lost: u64) -> Result<(View<'_>, Option<usize>), Refusal> {
    let (view, lost) = check_images(geometry, images, lost)?;
    match view.collection().phase {
        0 => Ok((view, lost)),
        _ => Err(Refusal::Collection),
    }
}

/// Refusals 1 to 7 of write, commit and collect; the request is held to the highest number of its
/// kind, worked out from the shape.
fn check_request(
    geometry: Geometry,
    images: &Images,
    lost: u64,
    request: u64,
    highest: impl Fn(Shape) -> usize,
) -> Result<(View<'_>, Option<usize>), Refusal> {
    let (view, lost) = check_idle(geometry, images, lost)?;
    if request > highest(view.shape) as u64 {
        return Err(Refusal::Request);
    }
    Ok((view, lost))
}

/// Refusal 9.
fn check_chip_set(lost: Option<usize>) -> Result<(), Refusal> {
    match lost {
        None => Ok(()),
        Some(_) => Err(Refusal::ChipSet),
    }
}

fn check_read<'a>(
    geometry: Geometry,
    images: &'a Images,
    lost: u64,
    page: u64,
    buffer: &[u8],
) -> Result<(View<'a>, Option<usize>), Refusal> {
    let (view, lost) = check_images(geometry, images, lost)?;
    if page >= (view.shape.n * view.shape.s) as u64 {
        return Err(Refusal::Request);
    }
    if buffer.len() != view.shape.w {
        return Err(Refusal::Data);
    }
    Ok((view, lost))
}

fn check_write(
    geometry: Geometry,
    images: &Images,
    lost: u64,
    page: u64,
    data: &[u8],
) -> Result<Shape, Refusal> {
    let (view, lost) = check_request(geometry, images, lost, page, |shape| shape.n * shape.s - 1)?;
    if data.len() != view.shape.w {
        return Err(Refusal::Data);
    }
    check_chip_set(lost)?;
    Ok(view.shape)
}

fn check_commit(geometry: Geometry, images: &Images, lost: u64, stripe: u64) -> Result<Shape, Refusal> {
    let (view, lost) = check_request(geometry, images, lost, stripe, |shape| shape.s - 1)?;
    check_chip_set(lost)?;
    if view.record(stripe as usize).slot == NO_SLOT {
        return Err(Refusal::Work);
    }
    Ok(view.shape)
}

fn check_collect(geometry: Geometry, images: &Images, lost: u64, chip: u64) -> Result<Shape, Refusal> {
    let (view, lost) = check_request(geometry, images, lost, chip, |shape| shape.n)?;
    check_chip_set(lost)?;
    if view.victim(chip as usize).is_none() {
        return Err(Refusal::Work);
    }
    Ok(view.shape)
}

/// What an addition writes: the page that its ticket falls in, "other bytes kept".
struct Addition {
    shape: Shape,
    stripe: usize,
    member: usize,
    data: Vec<u8>,
    /// The log's, "up to and including that page".
    reads: u64,
}

/// "checked as a write (8 if not 16 bytes)"; then 11 for the ticket that is given, 11 for one that
/// is found, and 12.
fn check_add(geometry: Geometry, images: &Images, lost: u64, ticket: &[u8]) -> Result<Addition, Refusal> {
    let (view, lost) = check_idle(geometry, images, lost)?;
    if ticket.len() != TICKET_BYTES {
        return Err(Refusal::Data);
    }
    check_chip_set(lost)?;
    if !Ticket::from_bytes(ticket).keeps_rules() {
        return Err(Refusal::Ticket);
    }
    let Log { reads, end, .. } = view.walk_log(None, |_, _| {})?;
    let LogEnd { stripe, member, at } = end.ok_or(Refusal::LogFull)?;
    let mut data = vec![0; view.shape.w];
    let chip = view.shape.member_chip(stripe, member);
    view.add(&mut data, chip, view.record(stripe).current[member]);
    data[at..at + TICKET_BYTES].copy_from_slice(ticket);
    Ok(Addition { shape: view.shape, stripe, member, data, reads })
}

// ---------------------------------------------------------------------------------------------
// Stores, and the lists of stores
// ---------------------------------------------------------------------------------------------

/// The list is longer than the allowance.
struct Cut;

/// A storing call under way: its images, what is left of its allowance, and its counts so far.
struct Run<'a> {
    shape: Shape,
    images: &'a mut Images,
    left: u64,
    counts: Status,
}

/// Makes the stores of a list, as many as the allowance, and answers.
fn carry_out<'a>(
    shape: Shape,
    images: &'a mut Images,
    allowance: u64,
    list: impl FnOnce(&mut Run<'a>) -> Result<(), Cut>,
) -> Status {
    let mut run = Run { shape, images, left: allowance, counts: Status::default() };
    let status = match list(&mut run) {
        Ok(()) => DONE,
        Err(Cut) => CUT,
    };
    Status { status, ..run.counts }
}

impl Run<'_> {
    fn view(&self) -> View<'_> {
        self.images.view(self.shape)
    }

    /// Takes one store off the allowance. Reads for a store count with it: "A read for a store
    /// that a cut leaves unmade isn't counted".
    fn spend(&mut self, reads: u64) -> Result<(), Cut> {
        self.left = self.left.checked_sub(1).ok_or(Cut)?;
        self.counts.stores += 1;
        self.counts.reads += reads;
        Ok(())
    }

    fn program(
        &mut self,
        chip: usize,
        page: usize,
        data: &[u8],
        spare: Spare,
        reads: u64,
    ) -> Result<(), Cut> {
        self.spend(reads)?;
        let (at, spare_at) = (self.shape.page_at(chip, page), self.shape.spare_at(chip, page));
        self.images.chips[at..spare_at].copy_from_slice(data);
        self.images.chips[spare_at..spare_at + SPARE_BYTES].copy_from_slice(&spare.to_bytes());
        self.counts.programs += 1;
        Ok(())
    }

    /// "An erase sets a block to 255."
    fn erase(&mut self, chip: usize, block: usize) -> Result<(), Cut> {
        self.spend(0)?;
        let at = self.shape.page_at(chip, block * self.shape.k);
        self.images.chips[at..at + self.shape.k * self.shape.page_len()].fill(255);
        self.counts.erases += 1;
        Ok(())
    }

    fn store_slot(&mut self, slot: u8, partial: &[u8], reads: u64) -> Result<(), Cut> {
        self.spend(reads)?;
        let at = slot as usize * self.shape.w;
        self.images.slots[at..at + self.shape.w].copy_from_slice(partial);
        Ok(())
    }

    fn store_record_bytes(&mut self, index: usize, bytes: [u8; RECORD_BYTES]) -> Result<(), Cut> {
        self.spend(0)?;
        self.images.records[index * RECORD_BYTES..(index + 1) * RECORD_BYTES].copy_from_slice(&bytes);
        Ok(())
    }

    fn store_record(&mut self, stripe: usize, record: Record) -> Result<(), Cut> {
        self.store_record_bytes(stripe, record.to_bytes())
    }

    /// The collection record is the last record.
    fn store_collection(&mut self, collection: Collection) -> Result<(), Cut> {
        self.store_record_bytes(self.shape.s, collection.to_bytes())
    }

    /// "erase every block, chips ascending and in each its blocks ascending; store the S empty
    /// records in order, then phase 0."
    fn format(&mut self) -> Result<(), Cut> {
        for chip in 0..=self.shape.n {
            for block in 0..self.shape.b {
                self.erase(chip, block)?;
            }
        }
        for stripe in 0..self.shape.s {
            self.store_record_bytes(stripe, EMPTY_RECORD)?;
        }
        self.store_collection(Collection::default())
    }

    /// "Phase 1: erase the destination, store phase 0. Phase 2: the record stores still due, ..
    /// then the erase and phase 0. Phase 0: no store."
    fn open(&mut self) -> Result<(), Cut> {
        let Collection { phase, chip, destination, .. } = self.view().collection();
        match phase {
            0 => Ok(()),
            1 => {
                self.erase(chip as usize, destination as usize)?;
                self.store_collection(Collection::default())
            }
            _ => self.finish_collection(),
        }
    }

    /// A collection from phase 2 on: a record store for each copy not yet in place, in ascending
    /// order of the destination's pages; the victim's erase; phase 0.
    fn finish_collection(&mut self) -> Result<(), Cut> {
        let Collection { chip, victim, .. } = self.view().collection();
        let chip = chip as usize;
        for page in self.view().twins(&self.view().named_on(chip)) {
            let copy = self.view().spare(chip, page);
            let mut record = self.view().record(copy.stripe as usize);
            record.put_in_place(copy, page as u16);
            self.store_record(copy.stripe as usize, record)?;
        }
        self.erase(chip, victim as usize)?;
        self.store_collection(Collection::default())
    }

    /// "Store phase 1; copy the named pages in ascending order to places 0, 1, ..; store phase 2;
    /// for each destination page in order, store its record with that copy in place of the
    /// original ..; erase the victim; store phase 0."
    fn collect(&mut self, chip: usize) -> Result<(), Cut> {
        let victim = self.view().victim(chip).expect("a full block with an unnamed page");
        let destination = self.view().lowest_clean_block(chip).expect("some block is wholly clean");
        let collection =
            Collection { phase: 1, chip: chip as u8, victim: victim as u16, destination: destination as u16 };
        let named = self.view().named_on(chip);
        self.store_collection(collection)?;
        let copies = self.shape.block_pages(victim).filter(|&page| named[page]);
        for (original, page) in copies.zip(self.shape.block_pages(destination)) {
            let data = self.view().data(chip, original).to_vec();
            let spare = Spare { copied: original as u16, ..self.view().spare(chip, original) };
            // "A copied page is one read."
            self.program(chip, page, &data, spare, 1)?;
        }
        self.store_collection(Collection { phase: 2, ..collection })?;
        self.finish_collection()
    }

    /// "Place on a chip: .. else collect, then look again." S + M + 1 at most (B − 1) × K leaves
    /// an unnamed page in a full block, so the collection has a victim and leaves a place.
    fn place(&mut self, chip: usize) -> Result<usize, Cut> {
        if let Some(page) = self.view().place(chip) {
            return Ok(page);
        }
        self.collect(chip)?;
        Ok(self.view().place(chip).expect("a collection leaves a place"))
    }

    /// "Place and program it on the parity chip; store record j with the new parity page, no
    /// olds, no bitmap, no slot."
    fn commit(&mut self, stripe: usize) -> Result<(), Cut> {
        let chip = self.shape.parity_chip(stripe);
        let page = self.place(chip)?;
        let (parity, reads) = self.view().committed_parity(stripe);
        let spare = Spare { kind: PARITY, member: 0, stripe: stripe as u16, copied: NONE };
        self.program(chip, page, &parity, spare, reads)?;
        let record = self.view().record(stripe);
        let committed =
            Record { old: [NONE; MEMBERS], parity: page as u16, bitmap: 0, slot: NO_SLOT, ..record };
        self.store_record(stripe, committed)
    }

    /// "if j has no slot and M records have, commit the stripe of least cost .. Find a place,
    /// program it. Store into the lowest free slot the new partial parity .. Store record j".
    fn write(&mut self, stripe: usize, member: usize, data: &[u8]) -> Result<(), Cut> {
        let view = self.view();
        if view.record(stripe).slot == NO_SLOT && view.stripes_with_slot().count() >= self.shape.m {
            let cheapest = view.cheapest_stripe().expect("M is at least 1");
            self.commit(cheapest)?;
        }
        let chip = self.shape.member_chip(stripe, member);
        let page = self.place(chip)?;
        let spare = Spare { kind: DATA, member: member as u8, stripe: stripe as u16, copied: NONE };
        self.program(chip, page, data, spare, 0)?;
        let slot = self.view().free_slot().expect("M + 1 slots, and at most M are named");
        let (partial, reads) = self.new_partial(stripe, member, data);
        self.store_slot(slot, &partial, reads)?;
        let mut record = self.view().record(stripe);
        // "if the bit was clear, old becomes current; set bit, current, slot"
        if !record.bit(member) {
            record.old[member] = record.current[member];
        }
        record.bitmap |= 1 << member;
        record.current[member] = page as u16;
        record.slot = slot;
        self.store_record(stripe, record)
    }

    /// "the data; or partial ⊕ data; or, if bit m was set, partial ⊕ current page ⊕ data (one page
    /// read)".
    fn new_partial(&self, stripe: usize, member: usize, data: &[u8]) -> (Vec<u8>, u64) {
        let record = self.view().record(stripe);
        let mut partial = data.to_vec();
        let mut reads = 0;
        if record.slot != NO_SLOT {
            xor(&mut partial, self.view().slot(record.slot));
        }
        if record.bit(member) {
            let chip = self.shape.member_chip(stripe, member);
            reads += self.view().add(&mut partial, chip, record.current[member]);
        }
        (partial, reads)
    }
}

// ---------------------------------------------------------------------------------------------
// The calls
// ---------------------------------------------------------------------------------------------

pub fn format(geometry: Geometry, images: &mut Images, allowance: u64) -> Status {
    match check_lengths(geometry, images) {
        Err(refusal) => Status::refused(refusal),
        Ok(shape) => carry_out(shape, images, allowance, |run| run.format()),
    }
}

pub fn open(geometry: Geometry, images: &mut Images, lost: u64, allowance: u64) -> Status {
    match check_images(geometry, images, lost).map(|(view, lost)| (view.shape, lost)) {
        Err(refusal) => Status::refused(refusal),
        // "with a chip lost, no store"
        Ok((_, Some(_))) => Status { status: DONE, ..Status::default() },
        Ok((shape, None)) => carry_out(shape, images, allowance, |run| run.open()),
    }
}

/// "copies the current page; zeros if none. On the lost chip, a written page is gathered"; "A reading
/// now says one of four things".
pub fn read(geometry: Geometry, images: &Images, lost: u64, page: u64, buffer: &mut [u8]) -> Reading {
    let (view, lost) = match check_read(geometry, images, lost, page, buffer) {
        Err(refusal) => return Reading::refused(refusal),
        Ok(checked) => checked,
    };
    let (stripe, member) = (page as usize / view.shape.n, page as usize % view.shape.n);
    let (lying, reads, origin) = view.get(stripe, &view.record(stripe), member, lost, buffer);
    if let Some(data) = lying {
        buffer.copy_from_slice(data);
    }
    Reading { status: Status { status: DONE, reads, ..Status::default() }, origin: Some(origin) }
}

pub fn write(
    geometry: Geometry,
    images: &mut Images,
    lost: u64,
    page: u64,
    data: &[u8],
    allowance: u64,
) -> Status {
    match check_write(geometry, images, lost, page, data) {
        Err(refusal) => Status::refused(refusal),
        Ok(shape) => carry_out(shape, images, allowance, |run| {
            run.write(page as usize / shape.n, page as usize % shape.n, data)
        }),
    }
}

pub fn commit(geometry: Geometry, images: &mut Images, lost: u64, stripe: u64, allowance: u64) -> Status {
    match check_commit(geometry, images, lost, stripe) {
        Err(refusal) => Status::refused(refusal),
        Ok(shape) => carry_out(shape, images, allowance, |run| run.commit(stripe as usize)),
    }
}

pub fn collect(geometry: Geometry, images: &mut Images, lost: u64, chip: u64, allowance: u64) -> Status {
    match check_collect(geometry, images, lost, chip) {
        Err(refusal) => Status::refused(refusal),
        Ok(shape) => carry_out(shape, images, allowance, |run| run.collect(chip as usize)),
    }
}

/// "Adding one rewrites the page it falls in, other bytes kept; it .. counts the log's reads up to
/// and including that page, even when cut, and the write's."
pub fn add(geometry: Geometry, images: &mut Images, lost: u64, ticket: &[u8], allowance: u64) -> Status {
    let addition = match check_add(geometry, images, lost, ticket) {
        Err(refusal) => return Status::refused(refusal),
        Ok(addition) => addition,
    };
    let Addition { shape, stripe, member, data, reads } = addition;
    let mut status = carry_out(shape, images, allowance, |run| run.write(stripe, member, &data));
    status.reads += reads;
    status
}

/// "Of tickets with one lot and bag, the latest in the log stands; asked for lot and bag, the store
/// gives the one standing if it is a weight, else none." "a ticket given carries its page's, any other
/// reading of the log the last in that order among its pages".
pub fn find(geometry: Geometry, images: &Images, lost: u64, lot: u32, bag: u16) -> Finding {
    let mut standing = None;
    let log = check_images(geometry, images, lost).and_then(|(view, lost)| {
        view.walk_log(lost, |ticket, origin| {
            if ticket.lot == lot && ticket.bag == bag {
                standing = Some((*ticket, origin));
            }
        })
    });
    let log = match log {
        Err(refusal) => return Finding::refused(refusal),
        Ok(log) => log,
    };
    let given = standing.and_then(|(ticket, origin)| Some((ticket.weight()?, origin)));
    Finding {
        status: Status { status: DONE, reads: log.reads, ..Status::default() },
        weight: given.map(|(weight, _)| weight),
        origin: Some(given.map_or(log.origin, |(_, origin)| origin)),
    }
}
