//! Lists of hundreds of calls from a format on, cuts among them, held against the price book.

use crate::book::Store;
use crate::calls::{Call, Comparison};
use crate::generator::ALL;
use crate::geometries::{limits_reached, list_geometry};
use crate::images::{fill_chip, FILLINGS};
use crate::points::AMPLE;
use crate::random::Random;
use crate::reference::*;
use crate::requests::{any_chip, any_data, any_lost, any_storing, any_stripe};
use crate::strange::strange_things;
use crate::tickets::{any_ticket, spoil, ticket_page, tickets};

/// Which pages a list writes mostly.
#[derive(Clone, Copy)]
enum Pattern {
    Any,
    /// A few pages again and again.
    Few,
    /// One stripe after the other, until all partial parities are in use.
    Sweep,
}

struct List {
    store: Store,
    pattern: Pattern,
    few: Vec<usize>,
    swept: usize,
    /// What it writes are tickets mostly, and most calls are additions.
    of_tickets: bool,
    /// The name of the last call, if it was cut.
    cut: Option<&'static str>,
    committed: u64,
    collected: u64,
    added: u64,
}

impl List {
    fn new(to: &mut Comparison, random: &mut Random, g: Geometry, of_tickets: bool) -> List {
        let store = Store::new(to, random, g);
        let (shape, pages) = (store.shape, store.book.len());
        let mut few: Vec<usize> = (0..random.between(1, 4)).map(|_| random.below(pages)).collect();
        // A page that is written all the time fills its chip, so that a large one comes to collect.
        few.extend([few[0]; 4]);
        let pattern = match shape.pages() {
            2_000.. => Pattern::Few,
            _ if shape.m >= 200 => Pattern::Sweep,
            _ => random.pick(&[Pattern::Any, Pattern::Any, Pattern::Few]),
        };
        List { store, pattern, few, swept: 0, of_tickets, cut: None, committed: 0, collected: 0, added: 0 }
    }

    /// A call of the list, with all that it may store.
    fn next_call(&mut self, random: &mut Random) -> Call {
        let (lost, allowance, shape) = (NO_CHIP, ALL, self.store.shape);
        if random.one_in(30) {
            let lost = any_lost(random, shape, lost);
            return match random.below(4) {
                0 => Call::Open { lost, allowance },
                _ => any_storing(random, &self.store.images, shape, lost),
            };
        }
        let at_rest = self.store.phase() == 0;
        match random.below(24) {
            0 => Call::Open { lost, allowance },
            7..=15 if self.of_tickets => Call::Add { lost, ticket: any_ticket(random), allowance },
            1..=12 if !at_rest => Call::Open { lost, allowance },
            1 | 2 => Call::Commit { lost, stripe: any_stripe(random, self.store.view()), allowance },
            3 | 4 => Call::Collect { lost, chip: any_chip(random, shape), allowance },
            5 => {
                let page = random.below(self.store.book.len()) as u64;
                Call::Read { lost, page, buffer: random.bytes(shape.w) }
            }
            6 => {
                let (lot, bag) = self.store.log().any_bag(random);
                Call::Find { lost, lot, bag }
            }
            _ if self.of_tickets => self.write_tickets(random),
            _ => {
                let page = self.next_page(random) as u64;
                Call::Write { lost, page, data: any_data(random, shape), allowance }
            }
        }
    }

    /// A page of tickets anywhere, and rarely one that breaks a rule. A log that has such a one is soon made good, and
    /// one that is full gets an end.
    fn write_tickets(&mut self, random: &mut Random) -> Call {
        let (log, w) = (self.store.log(), self.store.shape.w);
        let bad = log.first_bad().map(|(place, _)| place * TICKET_BYTES / w);
        let mut page = self.next_page(random);
        let mut data = tickets(random, w / TICKET_BYTES);
        match (bad, random.below(20)) {
            (Some(bad), 0..=14) => page = bad,
            (None, 0..=7) if log.is_full() => data.fill(0),
            (None, 8..=12) if log.is_full() => data = ticket_page(random, w),
            (None, 0) => spoil(random, &mut data),
            (_, 1..=4) => data = ticket_page(random, w),
            (_, 5) => data.fill(0),
            _ => {}
        }
        Call::Write { lost: NO_CHIP, page: page as u64, data, allowance: ALL }
    }

    fn next_page(&mut self, random: &mut Random) -> usize {
        let Shape { n, s, .. } = self.store.shape;
        match self.pattern {
            Pattern::Few if !random.one_in(8) => random.pick(&self.few),
            Pattern::Sweep if !random.one_in(8) => {
                self.swept = (self.swept + 1) % s;
                self.swept * n + random.below(n)
            }
            _ => random.below(n * s),
        }
    }

    fn call(&mut self, to: &mut Comparison, random: &mut Random, call: &Call) -> Status {
        let commits = self.commits(call);
        let at_rest = self.store.phase() == 0;
        let status = self.store.call(to, random, call);
        self.committed += (commits && status.status == DONE) as u64;
        self.collected += status.erases;
        if matches!(call, Call::Add { .. }) {
            self.note_addition(to, status);
        }
        if let Some(cut) = self.cut {
            let refused = status.status == 6 && matches!(call, Call::Write { .. });
            to.coverage.hit_if(refused, "list with a write refused after a cut");
            let opened = cut == "open" && matches!(call, Call::Open { .. });
            to.coverage.hit_if(opened, "list with a cut open opened again");
            let written = at_rest && status.status == DONE && matches!(call, Call::Write { .. });
            to.coverage.hit_if(written, "list with a write after a cut that left phase 0");
        }
        self.cut = (status.status == CUT).then(|| call.name());
        status
    }

    /// An addition, just answered.
    fn note_addition(&mut self, to: &mut Comparison, status: Status) {
        self.added += (status.status == DONE) as u64;
        let again = status.status == DONE && self.cut == Some("add");
        to.coverage.hit_if(again, "list with an addition after a cut one");
        let refused = status.status == 6 && self.cut.is_some();
        to.coverage.hit_if(refused, "list with an addition refused after a cut");
        let (to_a_page, full) = (self.store.shape.w / TICKET_BYTES, status.status == 12);
        to.coverage.hit_if(full, "list with a log that fills every page");
        let more = full && to_a_page > 1;
        to.coverage.hit_if(more, "list with a log that fills every page, more tickets to a page");
    }

    /// Whether the call commits a stripe, if it is done.
    fn commits(&self, call: &Call) -> bool {
        let (view, shape) = (self.store.view(), self.store.shape);
        match *call {
            Call::Commit { .. } => true,
            Call::Write { page, .. } if page < self.store.book.len() as u64 => {
                let slotted = view.record(page as usize / shape.n).slot != NO_SLOT;
                !slotted && view.stripes_with_slot().count() == shape.m
            }
            Call::Add { .. } => {
                let stripe = self.store.log_end().0 / shape.n;
                let slotted = stripe < shape.s && view.record(stripe).slot != NO_SLOT;
                !slotted && view.stripes_with_slot().count() == shape.m
            }
            _ => false,
        }
    }

    /// So many calls; at times one at every allowance first, and at times the book is held after one.
    fn calls(&mut self, to: &mut Comparison, random: &mut Random, length: usize, seldom: usize) {
        for _ in 0..length {
            let call = self.next_call(random);
            if !call.only_reads() && random.one_in(seldom) {
                self.store.every_allowance(to, random, &call);
            }
            let call = allowed(random, self.store.g, &self.store.images, call);
            self.call(to, random, &call);
            if random.one_in(seldom) {
                self.store.hold_some(to, random, &self.store.images, self.cut);
            }
        }
    }

    /// "A format that was cut is to be made again": what calls find in between may be unsound.
    fn format_again(&mut self, to: &mut Comparison, random: &mut Random) {
        let Store { g, shape, .. } = self.store;
        let format = Call::Format { allowance: ALL };
        let length = format.length(g, &self.store.images);
        let cut = format.allowed(random.next() % length);
        to.call(random, g, &mut self.store.images, &cut);
        for _ in 0..3 {
            let call = any_storing(random, &self.store.images, shape, NO_CHIP);
            to.call(random, g, &mut self.store.images.clone(), &call);
        }
        self.store.format(to, random);
        self.cut = None;
        to.coverage.hit("list with a cut format, then a whole one");
    }

    /// A collection of each chip that has work, at every allowance.
    fn collect_each(&self, to: &mut Comparison, random: &mut Random) {
        for chip in 0..=self.store.shape.n as u64 {
            self.store.every_allowance(to, random, &Call::Collect { lost: NO_CHIP, chip, allowance: ALL });
        }
    }

    /// The second list: one chip is taken, and each call names it.
    fn take_chip(&mut self, to: &mut Comparison, random: &mut Random) {
        let shape = self.store.shape;
        let chip = random.below(shape.n + 1);
        let lost = chip as u64;
        let filling = random.pick(&FILLINGS);
        fill_chip(random, shape, &mut self.store.images, chip, filling);
        to.about = format!("{}, chip {chip} taken", to.about);
        to.coverage.hit_if(self.store.phase() != 0, "list with a chip taken in phase 1 or 2");
        for _ in 0..random.below(10) {
            let call = match random.below(5) {
                0 => Call::Open { lost, allowance: random.pick(&[0, 1, 3, ALL]) },
                1 => {
                    let (lot, bag) = self.store.log().any_bag(random);
                    Call::Find { lost, lot, bag }
                }
                _ => any_storing(random, &self.store.images, shape, lost),
            };
            let status = self.call(to, random, &call);
            let opened = status.status == DONE && matches!(call, Call::Open { .. });
            to.coverage.hit_if(opened, "list with a chip taken, then opened");
            let written = status.status == 9 && matches!(call, Call::Write { .. });
            to.coverage.hit_if(written, "list with a chip taken, then written");
            let added = status.status == 9 && matches!(call, Call::Add { .. });
            to.coverage.hit_if(added, "list with a chip taken, then added to");
            let asked = status.status == DONE && matches!(call, Call::Find { .. });
            to.coverage.hit_if(asked, "list with a chip taken, then asked");
        }
        let pages = self.store.some_pages(random);
        self.store.hold(to, random, &mut self.store.images.clone(), lost, &pages);
        let every = pages.len() == self.store.book.len();
        to.coverage.hit_if(every, "list with a chip taken, then every page read");
    }

    /// What the whole list has come by.
    fn note(&self, to: &mut Comparison, length: usize) {
        let (g, shape, view) = (self.store.g, self.store.shape, self.store.view());
        for limit in limits_reached(g).filter_map(|limit| limit.strip_suffix(" accepted")) {
            to.coverage.hit_if(!limit.starts_with('n') && limit != "w = 16", &format!("list with {limit}"));
        }
        to.coverage.hit_if(length >= 300, "list of 300 calls or more");
        to.coverage.hit_if(self.collected >= 50, "list with 50 collections or more");
        to.coverage.hit_if(self.committed >= 50, "list with 50 commits or more");
        to.coverage.hit_if(self.added >= 50, "list with 50 additions or more");
        let written = |stripe| !view.record(stripe).current[..shape.n].contains(&NONE);
        to.coverage.hit_if((0..shape.s).all(written), "list with every page written");
        if let Some(thing) = strange_things(view).first() {
            to.fail(g, &format!("harness: calls have left what they never leave: {thing}"));
        }
    }
}

/// Sometimes less than the list, mostly all.
fn allowed(random: &mut Random, g: Geometry, images: &Images, call: Call) -> Call {
    let allowance = match random.below(12) {
        0 | 1 => random.next() % call.length(g, images).max(1),
        2 => call.length(g, images),
        3 => random.pick(&AMPLE).0,
        _ => ALL,
    };
    call.allowed(allowance)
}

pub fn list_case(to: &mut Comparison, random: &mut Random) {
    let mut g = list_geometry(random);
    let of_tickets = g.b * g.k < 2_000 && random.one_in(2);
    if of_tickets && g.w == 16 && random.one_in(2) {
        g.w = random.pick(&[32, 48, 64]);
    }
    to.about = if of_tickets { "list of calls, of tickets" } else { "list of calls" }.to_string();
    let mut list = List::new(to, random, g, of_tickets);
    let pages = list.store.shape.pages();
    // On a large chip one page is written until the chip is full and on, but not each time.
    let length = match pages {
        2_000.. => random.pick(&[100, 100, pages + 60]),
        200.. => 1_000,
        _ => random.between(50, 400),
    };
    let seldom = if pages < 200 { 16 } else { 200 };
    if pages < 200 && random.one_in(5) {
        list.calls(to, random, 50, seldom);
        list.format_again(to, random);
    }
    list.calls(to, random, length, seldom);
    list.store.hold_all(to, random, &list.store.images);
    list.note(to, length);
    list.collect_each(to, random);
    list.take_chip(to, random);
}
