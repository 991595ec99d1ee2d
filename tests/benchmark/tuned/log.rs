//! The log of tickets, walked stripe by stripe.

use super::check::Look;
use super::{number, rebuild, DIRECT, UNWRITTEN};
use crate::library::Answer;
use crate::reference::{
    Refusal, Shape, Status, MEMBERS, NONE, RECORD_BYTES, TICKET_BYTES, WEIGHT, WITHDRAWAL,
};
use std::ops::RangeInclusive;

/// The most bytes to a page.
pub const MOST_PAGE: usize = 4_096;

/// Pages of so many bytes are copied, all of a stripe, before any is looked at: so the memory brings several
/// at a time. Of shorter ones it does anyway, and of longer ones each has lines enough.
const COPIED: RangeInclusive<usize> = 256..=1_024;

/// So many tickets are looked at together, as many as the compiler compares at once.
const TOGETHER: usize = 4;

type Bytes = [u8; TICKET_BYTES];

pub struct Log {
    pub reads: u64,
    /// The page of its end, and the first byte there that is no ticket's; nothing if it fills every page.
    pub end: Option<(usize, usize)>,
    /// The last ticket of the lot and bag, and how its page was got.
    standing: Option<(Bytes, u64)>,
    /// How the page was got that is looked at, and the greatest of all.
    origin: u64,
    greatest: u64,
}

/// The tickets of one lot and bag.
#[derive(Clone, Copy)]
pub struct Wanted {
    pub lot: u32,
    pub bag: u16,
}

fn word(ticket: &Bytes, at: usize) -> u32 {
    u32::from_le_bytes([ticket[at], ticket[at + 1], ticket[at + 2], ticket[at + 3]])
}

/// A withdrawal whose tare is not above a gross of 0 has both weights 0.
pub fn is_sound(ticket: &Bytes) -> bool {
    let (kind, gross, tare) = (word(ticket, 0) & 0xffff, word(ticket, 8), word(ticket, 12));
    let withdrawn = (kind == WITHDRAWAL as u32) & (gross == 0);
    ((kind == WEIGHT as u32) | withdrawn) & (tare <= gross)
}

impl Wanted {
    fn is(self, ticket: &Bytes) -> bool {
        (word(ticket, 4) == self.lot) & (word(ticket, 0) >> 16 == self.bag as u32)
    }
}

/// How many of the groups come before the first with a ticket that is not sound, or is wanted. In a function
/// of its own each comparison is made of a whole group at once.
#[inline(never)]
fn usual(groups: &[[Bytes; TOGETHER]], wanted: Wanted) -> usize {
    let is_usual = |group: &[Bytes; TOGETHER]| {
        let mut special = 0;
        for ticket in group {
            let (first, lot, gross) = (word(ticket, 0), word(ticket, 4), word(ticket, 8));
            let kind = first & 0xffff;
            let known = (kind == WEIGHT as u32) as u32 | ((kind == WITHDRAWAL as u32) & (gross == 0)) as u32;
            special |= (known & (word(ticket, 12) <= gross) as u32) ^ 1;
            special |= ((lot == wanted.lot) & (first >> 16 == wanted.bag as u32)) as u32;
        }
        special == 0
    };
    groups.iter().position(|group| !is_usual(group)).unwrap_or(groups.len())
}

/// The pages of one stripe after the other.
struct Pages<'a> {
    look: Look<'a>,
    lost: usize,
    copied: bool,
    copies: [u8; MEMBERS * MOST_PAGE],
    stripe: usize,
    record: &'a [u8; RECORD_BYTES],
    parity_chip: usize,
}

impl<'a> Pages<'a> {
    fn new(look: Look<'a>, lost: Option<usize>) -> Pages<'a> {
        Pages {
            look,
            lost: lost.unwrap_or(usize::MAX),
            copied: COPIED.contains(&look.shape.w),
            copies: [0; MEMBERS * MOST_PAGE],
            stripe: 0,
            record: look.record(0),
            parity_chip: 0,
        }
    }

    fn begin(&mut self, stripe: usize) {
        let Shape { n, w, .. } = self.look.shape;
        self.stripe = stripe;
        self.record = self.look.record(stripe);
        self.parity_chip = self.look.shape.parity_chip(stripe);
        for member in 0..if self.copied { n } else { 0 } {
            let (chip, current) = self.place(member);
            if current != NONE && chip != self.lost {
                self.copies[member * w..][..w].copy_from_slice(self.look.data(chip, current));
            }
        }
    }

    /// The chip of a member, and the page there.
    fn place(&self, member: usize) -> (usize, u16) {
        (member + (member >= self.parity_chip) as usize, number(self.record, 2 * member))
    }

    /// A member's page, its reads and how it was got, or nothing if it was never written.
    fn page(&mut self, member: usize) -> Option<(&[u8], u64, u64)> {
        let w = self.look.shape.w;
        let (chip, current) = self.place(member);
        if current == NONE {
            return None;
        }
        let copy = &mut self.copies[member * w..][..w];
        if chip == self.lost {
            let (reads, origin) = rebuild(self.look, self.stripe, member, copy);
            return Some((copy, reads, origin));
        }
        Some((if self.copied { copy } else { self.look.data(chip, current) }, 1, DIRECT))
    }
}

pub fn walk(look: Look, lost: Option<usize>, wanted: Wanted) -> Result<Log, Refusal> {
    let Shape { n, s, .. } = look.shape;
    let mut pages = Pages::new(look, lost);
    let mut log = Log { reads: 0, end: None, standing: None, origin: UNWRITTEN, greatest: UNWRITTEN };
    for stripe in 0..s {
        pages.begin(stripe);
        for member in 0..n {
            let number = stripe * n + member;
            let Some((page, reads, origin)) = pages.page(member) else {
                return Ok(Log { end: Some((number, 0)), ..log });
            };
            log.reads += reads;
            log.origin = origin;
            log.greatest = log.greatest.max(origin);
            if let Some(at) = log.see(page, wanted) {
                let end = Some((number, at));
                return if page[at] == 0 { Ok(Log { end, ..log }) } else { Err(Refusal::Ticket) };
            }
        }
    }
    Ok(log)
}

impl Log {
    /// Goes through the tickets of a page, up to the first that is not sound: where that one begins.
    fn see(&mut self, page: &[u8], wanted: Wanted) -> Option<usize> {
        let tickets = page.as_chunks::<TICKET_BYTES>().0;
        let (groups, rest) = tickets.as_chunks::<TOGETHER>();
        let mut seen = 0;
        while seen < groups.len() {
            seen += usual(&groups[seen..], wanted);
            if let Some(group) = groups.get(seen) {
                if let Some(bad) = self.see_each(group, wanted) {
                    return Some(TICKET_BYTES * (TOGETHER * seen + bad));
                }
                seen += 1;
            }
        }
        let bad = self.see_each(rest, wanted)?;
        Some(TICKET_BYTES * (TOGETHER * groups.len() + bad))
    }

    /// The first that is not sound.
    fn see_each(&mut self, tickets: &[Bytes], wanted: Wanted) -> Option<usize> {
        for (i, ticket) in tickets.iter().enumerate() {
            if !is_sound(ticket) {
                return Some(i);
            }
            if wanted.is(ticket) {
                self.standing = Some((*ticket, self.origin));
            }
        }
        None
    }

    /// What a question is answered.
    pub fn answer(&self) -> Answer {
        let status = Status { reads: self.reads, ..Status::default() };
        match self.standing {
            Some((ticket, origin)) if ticket[0] == WEIGHT => {
                Answer { status, found: [1, word(&ticket, 8) as u64, word(&ticket, 12) as u64], origin }
            }
            _ => Answer { status, found: [0; 3], origin: self.greatest },
        }
    }
}
