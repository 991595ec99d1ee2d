//! A store beside its price book, which knows no chips.

use crate::calls::{Call, Comparison};
use crate::generator::ALL;
use crate::images::{fill_chip, FILLINGS};
use crate::library::Answer;
use crate::origins::{hit_origin, of_booked, Asked};
use crate::random::Random;
use crate::reference::*;
use crate::tickets::{broken, Log};

/// How many pages of a large book are held against the store at once.
const FEW: usize = 6;
/// A book of so many pages is held whole, at so many pages to a chip.
const WHOLE: usize = 150;
const SMALL: usize = 200;

pub struct Store {
    pub g: Geometry,
    pub shape: Shape,
    pub images: Images,
    /// For each logical page what the writes and additions that were done have put there.
    pub book: Vec<Vec<u8>>,
    /// For each logical page whether one of them was done since the format.
    written: Vec<bool>,
}

impl Store {
    /// A formatted store; what was in the images before is random.
    pub fn new(to: &mut Comparison, random: &mut Random, g: Geometry) -> Store {
        let shape = g.shape().expect("within the limits");
        let [chips, records, slots] = shape.lengths().map(|length| random.bytes(length));
        let (book, written) = (vec![vec![0; shape.w]; shape.n * shape.s], vec![false; shape.n * shape.s]);
        let mut store = Store { g, shape, images: Images { chips, records, slots }, book, written };
        if store.is_small() && random.one_in(8) {
            to.every_allowance(random, g, &store.images, &Call::Format { allowance: ALL }, |_, _, _, _| {});
        }
        store.format(to, random);
        store
    }

    /// "A format answered done is finished: every page is zeros."
    pub fn format(&mut self, to: &mut Comparison, random: &mut Random) {
        let status = to.call(random, self.g, &mut self.images, &Call::Format { allowance: ALL });
        if status.status != DONE {
            to.fail(self.g, &format!("harness: a format is {status:?}"));
        }
        self.book.iter_mut().for_each(|page| page.fill(0));
        self.written.fill(false);
    }

    /// The call on the store's own images; the book is fed its arguments and its answer.
    pub fn call(&mut self, to: &mut Comparison, random: &mut Random, call: &Call) -> Status {
        let answer = to.answer(random, self.g, &mut self.images, call);
        self.hold_answer(to, call, answer);
        if answer.status.status == DONE {
            self.enter(call);
        }
        answer.status
    }

    /// A call that is done. "A later call that writes a page puts there, once done, what its request says, worked out
    /// from the book."
    fn enter(&mut self, call: &Call) {
        let page = match call {
            Call::Write { page, data, .. } => {
                self.book[*page as usize].clone_from(data);
                *page as usize
            }
            Call::Add { ticket, .. } => {
                let (page, at) = self.log_end();
                self.book[page][at..at + TICKET_BYTES].copy_from_slice(ticket);
                page
            }
            _ => return,
        };
        self.written[page] = true;
    }

    pub fn log(&self) -> Log {
        Log::of(&self.book)
    }

    /// The page in which the book's log ends, and the place there.
    pub fn log_end(&self) -> (usize, usize) {
        let end = self.log().bytes.len();
        (end / self.shape.w, end % self.shape.w)
    }

    /// How a page of the images is got.
    fn origin(&self, images: &Images, lost: u64, page: usize) -> u64 {
        of_booked(images.view(self.shape), lost, page, self.written[page])
    }

    /// Holds what an addition or a question is answered against the book's log, and a read's origin against the pages
    /// written, if the call was not turned back before that.
    fn hold_answer(&self, to: &Comparison, call: &Call, answer: Answer) {
        let status = answer.status.status;
        let as_booked = match call {
            _ if (1..=10).contains(&status) => true,
            Call::Add { ticket, .. } => self.adds(ticket).contains(&status),
            Call::Find { lost, lot, bag } => {
                self.finds(&self.log(), &self.images, *lost, (*lot, *bag))
                    == (status, answer.found, answer.origin)
            }
            Call::Read { lost, page, .. } => {
                answer.origin == self.origin(&self.images, *lost, *page as usize)
            }
            _ => true,
        };
        if !as_booked {
            to.fail(self.g, &format!("{}: answered {answer:?}, but not by the book", call.name()));
        }
    }

    /// What an addition may be answered.
    fn adds(&self, ticket: &[u8]) -> &'static [u64] {
        let log = self.log();
        match (broken(ticket).is_empty() && log.first_bad().is_none(), log.is_full()) {
            (false, _) => &[11],
            (true, true) => &[12],
            (true, false) => &[DONE, CUT],
        }
    }

    /// What a question is answered: the status, whether a weight stands, gross and tare, and the origin. Its pages are
    /// those up to and including the one with the log's end.
    fn finds(&self, log: &Log, images: &Images, lost: u64, (lot, bag): (u32, u16)) -> (u64, [u64; 3], u64) {
        if log.first_bad().is_some() {
            return (11, [0; 3], 0);
        }
        let pages = (log.bytes.len() / self.shape.w + 1).min(self.book.len());
        let origins: Vec<u64> = (0..pages).map(|page| self.origin(images, lost, page)).collect();
        let tickets = log.pages_of_bag(lot, bag, self.shape.w);
        let asked = Asked { origins: &origins, full: log.is_full(), tickets: &tickets };
        (DONE, log.standing(lot, bag), asked.origin())
    }

    pub fn view(&self) -> View<'_> {
        self.images.view(self.shape)
    }

    pub fn phase(&self) -> u8 {
        self.view().collection().phase
    }

    fn is_small(&self) -> bool {
        self.book.len() <= WHOLE && self.shape.pages() < SMALL
    }

    /// Every page of a small book, a few of a large one.
    pub fn some_pages(&self, random: &mut Random) -> Vec<usize> {
        if self.is_small() {
            return (0..self.book.len()).collect();
        }
        (0..FEW).map(|_| random.below(self.book.len())).collect()
    }

    /// Holds the pages that the images give against the book, with a chip lost or none, and what they find against the
    /// book's log; whether that has tickets and all keep the rules.
    pub fn hold(
        &self,
        to: &mut Comparison,
        random: &mut Random,
        images: &mut Images,
        lost: u64,
        pages: &[usize],
    ) -> bool {
        for &page in pages {
            let (found, answer) = to.page(random, self.g, images, lost, page as u64);
            let origin = self.origin(images, lost, page);
            if found != self.book[page] || answer.origin != origin {
                let read = format!("page {page} read with lost chip {lost}, origin {}", answer.origin);
                to.fail(self.g, &format!("{read}: not as the book has it, origin {origin}"));
            }
            hit_origin(&mut to.coverage, origin, "page held");
        }
        self.hold_log(to, random, images, lost)
    }

    /// A question is answered as the book's log has it.
    fn hold_log(&self, to: &mut Comparison, random: &mut Random, images: &mut Images, lost: u64) -> bool {
        let log = self.log();
        let (lot, bag) = log.any_bag(random);
        let answer = to.answer(random, self.g, images, &Call::Find { lost, lot, bag });
        let expected = self.finds(&log, images, lost, (lot, bag));
        if (answer.status.status, answer.found, answer.origin) != expected {
            let asked = format!("lot {lot}, bag {bag}, asked for with lost chip {lost}");
            to.fail(self.g, &format!("{asked}: answered {answer:?}, the book's log has {expected:?}"));
        }
        let point = match expected {
            (DONE, [1, ..], _) => "log held, a weight stands",
            (DONE, ..) => "log held, none stands",
            _ => "log held, refused 11",
        };
        to.coverage.hit(point);
        let good = expected.0 == DONE;
        if good {
            hit_origin(&mut to.coverage, expected.2, point);
        }
        to.coverage.hit_if(good && log.is_full(), "log held, it fills every page");
        to.coverage.hit_if(good && log.tickets().len() >= 100, "log held of 100 tickets or more");
        good && !log.bytes.is_empty()
    }

    /// One chip becomes other bytes, or keeps its own, and is named as lost.
    fn hold_without(
        &self,
        to: &mut Comparison,
        random: &mut Random,
        images: &Images,
        chip: usize,
        filling: &str,
        pages: &[usize],
    ) -> bool {
        let mut images = images.clone();
        fill_chip(random, self.shape, &mut images, chip, filling);
        let logged = self.hold(to, random, &mut images, chip as u64, pages);
        to.coverage.hit(&format!("book held with a chip {filling}"));
        to.coverage.hit_if(logged, &format!("log held with a chip {filling}"));
        logged
    }

    /// A few pages of the book, with one chip lost or none, after a cut call or in between.
    pub fn hold_some(&self, to: &mut Comparison, random: &mut Random, images: &Images, cut: Option<&str>) {
        let pages: Vec<usize> = (0..FEW).map(|_| random.below(self.book.len())).collect();
        let logged = match random.below(self.shape.n + 2) {
            chip if chip <= self.shape.n => {
                let filling = random.pick(&FILLINGS);
                self.hold_without(to, random, images, chip, filling, &pages)
            }
            _ => self.hold(to, random, &mut images.clone(), NO_CHIP, &pages),
        };
        let phase = images.view(self.shape).collection().phase;
        to.coverage.hit(&format!("book held in phase {phase}"));
        to.coverage.hit_if(logged, &format!("log held in phase {phase}"));
        if let Some(call) = cut {
            to.coverage.hit(&format!("book held after a cut {call}"));
            to.coverage.hit_if(logged, &format!("log held after a cut {call}"));
        }
    }

    /// The book with no chip lost, and with each chip lost in turn, in each filling: every page, or of a large book
    /// a few.
    pub fn hold_all(&self, to: &mut Comparison, random: &mut Random, images: &Images) {
        let pages = self.some_pages(random);
        let logged = self.hold(to, random, &mut images.clone(), NO_CHIP, &pages);
        to.coverage.hit("book held with no chip lost");
        to.coverage.hit_if(logged, "log held with no chip lost");
        for chip in 0..=self.shape.n {
            for filling in FILLINGS {
                self.hold_without(to, random, images, chip, filling, &pages);
            }
        }
        let phase = images.view(self.shape).collection().phase;
        let whole = format!("book held whole: every page, every chip, every filling, in phase {phase}");
        to.coverage.hit(if self.is_small() { &whole } else { "book held in part, of a large store" });
    }

    /// A call at every allowance. After a cut the book is as before; after an open, or several that are cut, it
    /// still is.
    pub fn every_allowance(&self, to: &mut Comparison, random: &mut Random, call: &Call) {
        to.every_allowance(random, self.g, &self.images, call, |to, random, mut left, status| {
            if status.status != CUT || !random.one_in(3) {
                return;
            }
            if self.is_small() && random.one_in(20) {
                self.hold_all(to, random, &left);
            }
            self.hold_some(to, random, &left, Some(call.name()));
            while left.view(self.shape).collection().phase != 0 {
                let allowance = random.below(4) as u64;
                let status = to.call(random, self.g, &mut left, &Call::Open { lost: NO_CHIP, allowance });
                if status.status == CUT {
                    self.hold_some(to, random, &left, Some("open"));
                }
            }
            self.hold_some(to, random, &left, None);
        });
    }
}
