//! What an addition or a question covered: the log that it went over, what it found there, and what it was refused
//! for. The log is told from the pages once more, and the reference is held to it.

use crate::calls::Call;
use crate::coverage::Coverage;
use crate::library::Answer;
use crate::origins::{note_refused_find, origin_of, Asked};
use crate::reference::*;
use crate::tickets::{broken, Log};

/// The log as a call finds it.
pub struct Walk<'a> {
    view: View<'a>,
    lost: u64,
    pub log: Log,
    /// How its pages were got, the one with its end included.
    origins: Vec<u64>,
}

impl Walk<'_> {
    /// The images are sound, and the lost chip is one of theirs, or none.
    pub fn new(view: View, lost: u64) -> Walk {
        let mut walk = Walk { view, lost, log: Log::default(), origins: Vec::new() };
        let chip = (lost != NO_CHIP).then_some(lost as usize);
        let mut work = vec![0; view.shape.w];
        for stripe in 0..view.shape.s {
            let record = view.record(stripe);
            for member in 0..view.shape.n {
                walk.origins.push(origin_of(view.shape, stripe, &record, member, lost));
                if !walk.log.goes_on(view.fetch(stripe, &record, member, chip, &mut work).0) {
                    return walk;
                }
            }
        }
        walk
    }

    fn w(&self) -> usize {
        self.view.shape.w
    }

    /// The logical page with the log's end, or the number of pages.
    pub fn page(&self) -> usize {
        self.log.bytes.len() / self.w()
    }

    /// Where in that page the log ends.
    fn at(&self) -> usize {
        self.log.bytes.len() % self.w()
    }

    fn current(&self, page: usize) -> u16 {
        self.view.record(page / self.view.shape.n).current[page % self.view.shape.n]
    }

    fn chip(&self, page: usize) -> usize {
        self.view.shape.member_chip(page / self.view.shape.n, page % self.view.shape.n)
    }

    fn pages(&self) -> usize {
        self.view.shape.n * self.view.shape.s
    }

    /// Whether tickets of it are in a page that was got so.
    fn has_tickets_of(&self, origin: u64) -> bool {
        self.origins[..self.log.bytes.len().div_ceil(self.w())].contains(&origin)
    }

    /// The byte of the log at which one of its tickets begins.
    fn offset(&self, ticket: &[u8]) -> usize {
        ticket.as_ptr() as usize - self.log.bytes.as_ptr() as usize
    }

    /// A written page that is on no lost chip; else nothing.
    fn standing_page(&self, page: usize) -> Option<&[u8]> {
        let there = page < self.pages() && self.current(page) != NONE && self.chip(page) as u64 != self.lost;
        there.then(|| self.view.data(self.chip(page), self.current(page) as usize))
    }

    /// The tickets behind the log's end, in its page and in the next.
    fn behind(&self) -> [Vec<&[u8]>; 2] {
        let tickets = |page: usize, from: usize| match self.standing_page(page) {
            Some(bytes) => bytes[from..].chunks(TICKET_BYTES).collect(),
            None => Vec::new(),
        };
        [tickets(self.page(), (self.at() + TICKET_BYTES).min(self.w())), tickets(self.page() + 1, 0)]
    }

    // -----------------------------------------------------------------------------------------
    // Where the log ends
    // -----------------------------------------------------------------------------------------

    fn note_end(&self, coverage: &mut Coverage, name: &str) {
        let (page, at, w) = (self.page(), self.at(), self.w());
        let written = self.current(page) != NONE;
        let written_behind = (page + 1..self.pages()).take(64).any(|page| self.current(page) != NONE);
        let end = self.standing_page(page).map(|bytes| &bytes[at..at + TICKET_BYTES]);
        let is_bad = |tickets: &Vec<&[u8]>| tickets.iter().any(|t| t[0] != 0 && !broken(t).is_empty());
        let [bad_in_page, bad_in_next] = self.behind().each_ref().map(is_bad);
        let ends = [
            (page == 0 && at == 0, "an empty log"),
            (page > 0 && at == 0, "a log that ends at a page border"),
            (w > TICKET_BYTES && at == w - TICKET_BYTES, "a log that ends just before a page border"),
            (page > 0 && at == TICKET_BYTES, "a log that ends just behind a page border"),
            (!written, "a log that ends in a page never written"),
            (!written && written_behind, "a log that ends in a page never written, before a written one"),
            (written, "a log that ends in a written page"),
            (end.is_some_and(|end| end != [0; 16]), "a log that ends at a ticket of kind 0, not all zero"),
            (bad_in_page, "a log with a bad ticket behind its end, in its page"),
            (bad_in_next, "a log with a bad ticket behind its end, in the next page"),
            (page + 1 == self.pages(), "a log that ends in the last page"),
            (page + 1 == self.pages() && at + TICKET_BYTES == w, "a log with room for one ticket"),
            (w == TICKET_BYTES && page > self.view.shape.n, "a log of one ticket to a page"),
            (w == 4_096 && page > 0, "a log of 256 tickets to a page"),
            (page > 65_536, "a log of more than 65,536 pages"),
        ];
        for (_, end) in ends.iter().filter(|end| end.0) {
            coverage.hit(&format!("{end}: {name}"));
        }
    }

    // -----------------------------------------------------------------------------------------
    // Questions
    // -----------------------------------------------------------------------------------------

    /// A question that is answered.
    fn note_find(&self, coverage: &mut Coverage, lot: u32, bag: u16) {
        self.note_phase(coverage);
        self.note_lost(coverage);
        if self.log.is_full() {
            coverage.hit("find over a log that fills every page");
            coverage.hit_if(self.lost != NO_CHIP, "find over a log that fills every page, a chip lost");
        } else {
            self.note_end(coverage, "find");
            let dead = self.current(self.page()) == NONE && self.chip(self.page()) as u64 == self.lost;
            coverage.hit_if(dead, "find, its log ends in a page never written, on the lost chip");
        }
        let named = [&bag.to_le_bytes()[..], &lot.to_le_bytes()].concat();
        let behind = self.behind().concat().iter().any(|t| t[0] != 0 && t[2..8] == named);
        coverage.hit_if(!self.log.is_full() && behind, "find, a ticket of it behind the log's end");
        match self.log.of_bag(lot, bag)[..] {
            [] => self.note_none(coverage, lot, bag),
            [ref before @ .., latest] => self.note_latest(coverage, before, latest),
        }
    }

    fn note_phase(&self, coverage: &mut Coverage) {
        let collection = self.view.collection();
        coverage.hit(&format!("find in phase {}", collection.phase));
        if collection.phase != 0 && self.lost != NO_CHIP {
            let own = collection.chip as u64 == self.lost;
            coverage.hit_if(own, "find with the collection's chip lost");
            coverage.hit_if(!own, "find with the collection on another chip than the lost one");
        }
    }

    fn note_lost(&self, coverage: &mut Coverage) {
        let (lost, n) = (self.lost, self.view.shape.n);
        if lost == NO_CHIP {
            return coverage.hit("find with no chip lost");
        }
        let [partial, parity] = [2, 3].map(|origin| self.has_tickets_of(origin));
        let none = !partial && !parity && !self.log.bytes.is_empty();
        coverage.hit_if(none, "find with a chip lost, no ticket of the log on it");
        coverage.hit_if(partial && parity, "find through the partial parity and the full one");
        coverage.hit_if(partial, &format!("log through partial, chip {lost}, N = {n}"));
        coverage.hit_if(parity, &format!("log through parity, chip {lost}, N = {n}"));
    }

    fn note_origin(&self, coverage: &mut Coverage, lot: u32, bag: u16, said: u64) -> Result<(), String> {
        let tickets = self.log.pages_of_bag(lot, bag, self.w());
        let asked = Asked { origins: &self.origins, full: self.log.is_full(), tickets: &tickets };
        asked.note(coverage, said)
    }

    /// No ticket has the lot and the bag.
    fn note_none(&self, coverage: &mut Coverage, lot: u32, bag: u16) {
        let lot_there = self.log.tickets().any(|ticket| ticket[4..8] == lot.to_le_bytes());
        let bag_there = self.log.tickets().any(|ticket| ticket[2..4] == bag.to_le_bytes());
        coverage.hit(match (lot_there, bag_there) {
            _ if self.log.bytes.is_empty() => "find none in an empty log",
            (false, false) => "find none of a lot and a bag that are not there",
            (false, true) => "find none of a lot that is not there, its bag is",
            (true, false) => "find none of a bag that is not there, its lot is",
            (true, true) => "find none of a lot and a bag that are there apart",
        });
    }

    fn note_latest(&self, coverage: &mut Coverage, before: &[&[u8]], latest: &[u8]) {
        let mut weights = before.iter().filter(|ticket| ticket[0] == WEIGHT);
        let replaced = weights.clone().next().is_some();
        let withdrawn = before.last().is_some_and(|ticket| ticket[0] == WITHDRAWAL);
        if latest[0] == WITHDRAWAL {
            coverage.hit(if replaced { "find none, withdrawn" } else { "find none, a withdrawal alone" });
            return;
        }
        let Ticket { gross, tare, .. } = Ticket::from_bytes(latest);
        let (at, end) = (self.offset(latest), self.log.bytes.len());
        let earlier_page = weights.any(|t| self.offset(t) / self.w() < at / self.w());
        let after = &self.log.bytes[at + TICKET_BYTES..];
        let later = |f: &dyn Fn(&[u8]) -> bool| after.chunks(TICKET_BYTES).any(f);
        let (same_bag, same_lot) = (
            later(&|t| t[2..4] == latest[2..4] && t[4..8] != latest[4..8]),
            later(&|t| t[4..8] == latest[4..8] && t[2..4] != latest[2..4]),
        );
        let half_of_lot = later(&|t| t[2..6] == latest[2..6] && t[6..8] != latest[6..8]);
        let half_of_bag = later(&|t| t[2] == latest[2] && t[3] != latest[3] && t[4..8] == latest[4..8]);
        let points = [
            (true, "find a weight"),
            (before.is_empty(), "find a weight, the only ticket of it"),
            (replaced, "find a weight that replaced another"),
            (earlier_page, "find a weight that replaced another, of an earlier page"),
            (withdrawn, "find a weight after a withdrawal"),
            (at == 0, "find a weight, the first ticket of the log"),
            (at + TICKET_BYTES == end, "find a weight, the last ticket of the log"),
            (gross == 0, "find a weight of 0 grams"),
            (gross > 0 && gross == tare, "find a weight with tare equal to gross"),
            (gross >> 31 == 1, "find a weight of 2^31 grams or more"),
            (tare >> 31 == 1, "find a tare of 2^31 grams or more"),
            (same_bag, "find a weight, the bag of another lot behind it"),
            (same_lot, "find a weight, another bag of the lot behind it"),
            (half_of_lot, "find a weight, a lot alike in its lower half behind it"),
            (half_of_bag, "find a weight, a bag alike in its lower byte behind it"),
        ];
        points.iter().for_each(|&(holds, point)| coverage.hit_if(holds, point));
    }

    // -----------------------------------------------------------------------------------------
    // Additions
    // -----------------------------------------------------------------------------------------

    /// An addition that is made, or cut.
    fn note_add(&self, coverage: &mut Coverage, ticket: &[u8], status: Status) {
        self.note_end(coverage, "add");
        let Ticket { lot, bag, .. } = Ticket::from_bytes(ticket);
        let bytes = self.standing_page(self.page()).unwrap_or(&[]);
        let before = self.at() > 0;
        let behind = bytes.iter().skip(self.at() + TICKET_BYTES).any(|&byte| byte != 0);
        let rest = bytes.iter().skip(self.at()).take(TICKET_BYTES).any(|&byte| byte != 0);
        let full_page = self.at() + TICKET_BYTES == self.w();
        let of_log = status.reads > 0 && status.stores == 0;
        coverage.hit_if(of_log, "add cut before its first store, with reads of the log");
        if status.status != DONE {
            return;
        }
        let withdrawal = ticket[0] == WITHDRAWAL;
        coverage.hit(if withdrawal { "add of a withdrawal" } else { "add of a weight" });
        let points = [
            (!withdrawal && ticket[8..] == [0; 8], "add of a weight of 0 grams"),
            (!withdrawal && ticket[8..12] == ticket[12..], "add of a weight with tare equal to gross"),
            (!self.log.of_bag(lot, bag).is_empty(), "add of a lot and a bag that have a ticket"),
            (before, "add keeps the tickets before it in its page"),
            (behind, "add keeps the bytes behind it in its page"),
            (rest, "add over what stood behind a kind of 0"),
            (full_page, "add that fills its page"),
            (full_page && self.page() + 1 == self.pages(), "add that fills the log"),
            (self.page() >= 65_536, "add to logical page 65,536 or above"),
        ];
        points.iter().for_each(|&(holds, point)| coverage.hit_if(holds, point));
    }
}

/// An addition that is not refused; the page that it falls in.
pub fn note_add(coverage: &mut Coverage, view: View, ticket: &[u8], status: Status) -> Result<u64, String> {
    let walk = Walk::new(view, NO_CHIP);
    if walk.log.first_bad().is_some() || walk.log.is_full() || !broken(ticket).is_empty() {
        return Err("not refused, though a ticket breaks a rule or the log is full".to_string());
    }
    walk.note_add(coverage, ticket, status);
    Ok(walk.page() as u64)
}

/// A question that is not refused.
pub fn note_find(
    coverage: &mut Coverage,
    view: View,
    lost: u64,
    (lot, bag): (u32, u16),
    answer: Answer,
) -> Result<(), String> {
    let walk = Walk::new(view, lost);
    if walk.log.first_bad().is_some() || walk.log.standing(lot, bag) != answer.found {
        return Err(format!("{:?}, the log has {:?}", answer.found, walk.log.standing(lot, bag)));
    }
    walk.note_find(coverage, lot, bag);
    walk.note_origin(coverage, lot, bag, answer.origin)
}

/// An addition or a question that is refused 11 or 12.
pub fn note_refused(coverage: &mut Coverage, view: View, call: &Call, number: u64) -> Result<(), String> {
    let walk = Walk::new(view, call.lost().unwrap_or(NO_CHIP));
    let given = match call {
        Call::Add { ticket, .. } => broken(ticket),
        _ => Vec::new(),
    };
    let found = walk.log.first_bad();
    let expected = if !given.is_empty() || found.is_some() { 11 } else { 12 };
    if number != expected || (number == 12 && !walk.log.is_full()) {
        return Err(format!("refused {number}: given {given:?}, found {found:?}"));
    }
    let name = call.name();
    if let [rule] = given[..] {
        coverage.hit(&format!("{rule}: given"));
    }
    match found {
        _ if !given.is_empty() => {
            coverage.hit_if(walk.log.is_full(), "bad ticket given, the log is full");
            coverage.hit_if(found.is_some(), "bad ticket given, another one in the log");
        }
        Some((place, ticket)) => note_found(coverage, &walk, name, place, ticket),
        None => {
            let more = if walk.w() > TICKET_BYTES { "more tickets" } else { "one ticket" };
            coverage.hit(&format!("log is full, {more} to a page"));
        }
    }
    Ok(())
}

/// A ticket that breaks a rule, and its place among the tickets of the log.
fn note_found(coverage: &mut Coverage, walk: &Walk, name: &str, place: usize, ticket: &[u8]) {
    if let [rule] = broken(ticket)[..] {
        coverage.hit(&format!("{rule}: found by {name}"));
    }
    let at = place * TICKET_BYTES;
    let last = at + TICKET_BYTES == walk.log.bytes.len();
    let points = [
        (place == 0, "first of the log"),
        (at % walk.w() > 0, "behind others of its page"),
        (at >= walk.w(), "behind the first page"),
        (last && !walk.log.is_full(), "last before the log's end"),
        (walk.log.is_full(), "in a log that fills every page"),
        (walk.log.is_full() && last, "last in a log that fills every page"),
    ];
    for (_, place) in points.iter().filter(|point| point.0) {
        coverage.hit(&format!("bad ticket {place}: {name}"));
    }
    let rebuilt = walk.chip(at / walk.w()) as u64 == walk.lost;
    coverage.hit_if(rebuilt, "bad ticket in a page of the lost chip: find");
    if name == "find" {
        note_refused_find(coverage, &walk.origins[..=at / walk.w()]);
    }
}
