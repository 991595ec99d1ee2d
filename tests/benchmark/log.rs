//! A log of tickets that fills half of a store, and the plain ways to go over its pages.

use crate::placed;
use crate::random::Random;
use crate::reference::*;
use std::hint::black_box;

/// Bags to a lot.
const BAGS: usize = 40;
/// One ticket in so many withdraws a bag weighed before, and as many weigh one again.
const AGAIN_ONE_IN: usize = 16;

/// How far the log of a store goes.
#[derive(Clone, Copy)]
pub struct Log {
    shape: Shape,
    /// The stripe of its last page, which is member 0 there.
    pub end: usize,
    /// Pages that are read to its end.
    pub pages: usize,
    pub tickets: usize,
}

impl Log {
    /// Half of the pages are full of tickets, and the next one is half full; of a page for one ticket, empty.
    pub fn of(shape: Shape) -> Log {
        let end = shape.s / 2;
        let (full, to_a_page) = (end * shape.n, shape.w / TICKET_BYTES);
        Log { shape, end, pages: full + 1, tickets: full * to_a_page + to_a_page / 2 }
    }

    /// The pages of the log, end to end.
    pub fn content(self, random: &mut Random) -> Vec<u8> {
        let mut content = Vec::with_capacity(self.pages * self.shape.w);
        for number in 0..self.tickets {
            content.extend(self.ticket(random, number).to_bytes());
        }
        content.resize(self.pages * self.shape.w, 0);
        content
    }

    /// Lot after lot each bag is weighed. Now and then one comes again, but for those of the first lot. The
    /// last ticket is a weight.
    fn ticket(self, random: &mut Random, number: usize) -> Ticket {
        let again = if number > BAGS && number + 1 < self.tickets { random.below(AGAIN_ONE_IN) } else { 2 };
        let of = if again < 2 { random.between(BAGS, number - 1) } else { number };
        let (lot, bag) = ((of / BAGS) as u32, (of % BAGS) as u16);
        let (gross, tare) = (random.between(40_000, 60_000) as u32, random.between(200, 900) as u32);
        match again {
            0 => Ticket { kind: WITHDRAWAL, zero: 0, bag, lot, gross: 0, tare: 0 },
            _ => Ticket { kind: WEIGHT, zero: 0, bag, lot, gross, tare },
        }
    }

    pub fn ticket_at(self, view: View, number: usize) -> Ticket {
        let at = number * TICKET_BYTES;
        Ticket::from_bytes(&self.page(view, at / self.shape.w)[at % self.shape.w..][..TICKET_BYTES])
    }

    /// A page as it lies on its chip.
    fn page(self, view: View<'_>, page: usize) -> &[u8] {
        let (stripe, member) = (page / self.shape.n, page % self.shape.n);
        let current = view.record(stripe).current[member];
        view.data(self.shape.member_chip(stripe, member), current as usize)
    }

    /// Finds each page that a walk reads through the record of its stripe, and tells where it lies; of a page
    /// on the lost chip, those that it is rebuilt from. A slot is none.
    fn find(self, records: &[u8], lost: Option<usize>, mut read: impl FnMut(usize)) {
        let shape = self.shape;
        for (stripe, record) in records.chunks_exact(RECORD_BYTES).take(self.end + 1).enumerate() {
            let parity_chip = shape.parity_chip(stripe);
            let chip = |m: usize| if m < parity_chip { m } else { m + 1 };
            let current = |m: usize| shape.page_at(chip(m), number(record, 2 * m));
            let old = |m: usize| shape.page_at(chip(m), number(record, 12 + 2 * m));
            let bit = |m: usize| record[26] >> m & 1 == 1;
            for member in 0..if stripe < self.end { shape.n } else { 1 } {
                let others = (0..shape.n).filter(|&m| m != member);
                if lost != Some(chip(member)) {
                    read(current(member));
                } else if bit(member) {
                    others.filter(|&m| bit(m)).for_each(|m| read(current(m)));
                } else {
                    read(shape.page_at(parity_chip, number(record, 24)));
                    others.for_each(|m| read(if bit(m) { old(m) } else { current(m) }));
                }
            }
        }
    }
}

/// A page number in a record.
fn number(record: &[u8], at: usize) -> usize {
    u16::from_le_bytes([record[at], record[at + 1]]) as usize
}

/// A plain way to go over the pages that a walk reads, in its order. Where each lies is known beforehand, but
/// for the reads.
#[derive(Clone, Copy, PartialEq, Eq)]
pub enum Pass {
    /// Each is copied to a place of its own, end to end.
    Copy,
    /// Each is read by itself: found through the record of its stripe, and copied to the same page.
    Reads,
    /// To the same page the first of those is copied that a page is gathered from, and the others are XORed.
    Gathered,
}

/// A page that a walk reads: where it lies, and whether it is added to one read before.
struct Read {
    at: u32,
    added: bool,
}

/// What the passes go by, and where they copy to.
pub struct Passes {
    log: Log,
    /// The chip that is lost, if one is.
    lost: usize,
    /// As built: the floor empties some of its own.
    records: Vec<u8>,
    reads: Vec<Read>,
    lost_reads: Vec<Read>,
    copy: Vec<u8>,
    page: Vec<u8>,
}

impl Passes {
    pub fn new(view: View, lost: usize) -> Passes {
        let shape = view.shape;
        let log = Log::of(shape);
        let reads = |lost| (0..log.pages).flat_map(|page| reads(view, page, lost)).collect();
        let (reads, lost_reads): (Vec<Read>, Vec<Read>) = (reads(None), reads(Some(lost)));
        let copy = vec![1; reads.len().max(lost_reads.len()) * shape.w];
        let (records, page) = (placed::owned_bytes(&view.images.records), vec![1; shape.w]);
        let mut passes = Passes { log, lost, records, reads, lost_reads, copy, page };
        passes.check_reads(false);
        passes.check_reads(true);
        passes.run(&view.images.chips, Pass::Copy, false);
        let mut pages = passes.copy.chunks_exact(shape.w).take(log.pages).enumerate();
        assert!(pages.all(|(page, copy)| copy == log.page(view, page)), "a copy of the log");
        passes
    }

    /// Read by itself, each page is found where it lies, and none besides.
    fn check_reads(&self, lost: bool) {
        let reads = if lost { &self.lost_reads } else { &self.reads };
        let mut found = Vec::with_capacity(self.count(lost));
        self.log.find(&self.records, lost.then_some(self.lost), |at| found.push(at));
        assert_eq!(found.len(), self.count(lost), "as many pages found as read");
        assert!(found.iter().zip(reads).all(|(&at, read)| at == read.at as usize), "found where they lie");
    }

    /// What the walk finds its pages by.
    pub fn records(&self) -> &[u8] {
        &self.records
    }

    /// How many pages are read, with the chip lost or with none.
    pub fn count(&self, lost: bool) -> usize {
        if lost { &self.lost_reads } else { &self.reads }.len()
    }

    pub fn run(&mut self, chips: &[u8], pass: Pass, lost: bool) {
        let Passes { log, lost: chip, records, reads, lost_reads, copy, page } = self;
        let reads = if lost { lost_reads } else { reads }.iter();
        let w = log.shape.w;
        let data = |at: usize| &chips[at..][..w];
        match pass {
            Pass::Copy => {
                let places = copy.chunks_exact_mut(w);
                reads.zip(places).for_each(|(read, place)| place.copy_from_slice(data(read.at as usize)));
                black_box(copy);
            }
            Pass::Reads => {
                let lost = lost.then_some(*chip);
                log.find(black_box(records), lost, |at| to_page(page, data(at), false));
            }
            Pass::Gathered => reads.for_each(|read| to_page(page, data(read.at as usize), read.added)),
        }
    }
}

fn to_page(page: &mut [u8], data: &[u8], added: bool) {
    match added {
        true => page.iter_mut().zip(data).for_each(|(byte, other)| *byte ^= other),
        false => page.copy_from_slice(data),
    }
    black_box(page);
}

/// The reads of one page of the log; a slot is none.
fn reads(view: View, page: usize, lost: Option<usize>) -> Vec<Read> {
    let shape = view.shape;
    let (stripe, member) = (page / shape.n, page % shape.n);
    let record = view.record(stripe);
    let chip = |m: usize| shape.member_chip(stripe, m);
    let others = (0..shape.n).filter(|&m| m != member);
    let places: Vec<(usize, u16)> = if lost != Some(chip(member)) {
        vec![(chip(member), record.current[member])]
    } else if record.bit(member) {
        others.filter(|&m| record.bit(m)).map(|m| (chip(m), record.current[m])).collect()
    } else {
        let under = |m: usize| if record.bit(m) { record.old[m] } else { record.current[m] };
        let parity = (shape.parity_chip(stripe), record.parity);
        [parity].into_iter().chain(others.map(|m| (chip(m), under(m)))).collect()
    };
    let read = |(i, (chip, page)): (usize, (usize, u16))| {
        let at = shape.page_at(chip, page as usize);
        Read { at: at.try_into().expect("chips below 4 GiB"), added: i > 0 }
    };
    places.into_iter().enumerate().map(read).collect()
}
