//! Tickets, pages of tickets, and the log of a store's pages, told from their bytes alone.

use crate::random::Random;
use crate::reference::{Ticket, TICKET_BYTES, WEIGHT, WITHDRAWAL};

/// Few, so that tickets of one lot and bag come again; some are alike in a part of their bytes.
const LOTS: [u32; 6] = [7, 0, 0x0001_0007, 0x0700_0000, 0x0007_0000, u32::MAX];
const BAGS: [u16; 5] = [3, 0, 0x0103, 0x0300, u16::MAX];

/// Weights at the edges of their bytes.
const GRAMS: [u32; 10] = [0, 1, 255, 256, 65_535, 65_536, (1 << 31) - 1, 1 << 31, u32::MAX - 1, u32::MAX];

/// The rules that a ticket breaks; a ticket that ends the log breaks none there, and cannot be given.
pub const BROKEN: [&str; 9] = [
    "kind 3",
    "kind 4 or above",
    "second byte",
    "withdrawal with gross",
    "withdrawal with tare",
    "withdrawal with gross and tare",
    "tare above gross",
    "kind 0, all zero",
    "kind 0, not all zero",
];

/// What a ticket breaks, of `BROKEN`.
pub fn broken(ticket: &[u8]) -> Vec<&'static str> {
    let big_endian = |from: usize| [ticket[from + 3], ticket[from + 2], ticket[from + 1], ticket[from]];
    let (gross, tare) = (big_endian(8), big_endian(12));
    let kind = ticket[0];
    let rules = [
        kind == 3,
        kind > 3,
        kind != 0 && ticket[1] != 0,
        kind == 2 && gross != [0; 4] && tare == [0; 4],
        kind == 2 && gross == [0; 4] && tare != [0; 4],
        kind == 2 && gross != [0; 4] && tare != [0; 4],
        kind == 1 && tare > gross,
        ticket == [0; TICKET_BYTES],
        kind == 0 && ticket != [0; TICKET_BYTES],
    ];
    BROKEN.into_iter().zip(rules).filter(|rule| rule.1).map(|rule| rule.0).collect()
}

// ---------------------------------------------------------------------------------------------
// Random tickets
// ---------------------------------------------------------------------------------------------

/// A lot and a bag, of which random tickets are.
pub fn lot_and_bag(random: &mut Random) -> (u32, u16) {
    let lot = if random.one_in(2) { LOTS[0] } else { random.pick(&LOTS) };
    let bag = if random.one_in(2) { BAGS[0] } else { random.pick(&BAGS) };
    (lot, bag)
}

fn grams(random: &mut Random) -> u32 {
    match random.below(3) {
        0 => random.pick(&GRAMS),
        _ => random.next() as u32,
    }
}

fn weight(random: &mut Random) -> Ticket {
    let (lot, bag) = lot_and_bag(random);
    let gross = grams(random);
    let tare = match random.below(6) {
        0 => 0,
        1 => gross,
        2 => gross.saturating_sub(1),
        _ => random.below(gross as usize + 1) as u32,
    };
    Ticket { kind: WEIGHT, zero: 0, bag, lot, gross, tare }
}

/// A weight, or at times a withdrawal.
fn good(random: &mut Random) -> Ticket {
    let ticket = weight(random);
    match random.below(5) {
        0 => Ticket { kind: WITHDRAWAL, gross: 0, tare: 0, ..ticket },
        _ => ticket,
    }
}

pub fn good_ticket(random: &mut Random) -> [u8; TICKET_BYTES] {
    good(random).to_bytes()
}

/// One that breaks a rule, mostly one alone, and is not of kind 0.
pub fn bad_ticket(random: &mut Random) -> [u8; TICKET_BYTES] {
    let ticket = good(random);
    let withdrawal = Ticket { kind: WITHDRAWAL, gross: 0, tare: 0, ..ticket };
    let grams = 1 + random.pick(&GRAMS) % u32::MAX;
    let bad = match random.below(7) {
        0 => Ticket { kind: random.pick(&[3, 4, 128, 129, 130, 254, 255]), ..ticket },
        1 => Ticket { zero: random.pick(&[1, 2, 128, 255]), ..ticket },
        2 => Ticket { gross: grams, ..withdrawal },
        3 => Ticket { tare: grams, ..withdrawal },
        4 => Ticket { gross: grams, tare: random.pick(&[1, grams, u32::MAX]), ..withdrawal },
        5 => Ticket { kind: WEIGHT, gross: grams - 1, tare: grams, ..ticket },
        _ => Ticket { kind: 3, ..ticket },
    };
    bad.to_bytes()
}

/// What an addition is given: mostly a good ticket, at times a bad one, one of kind 0, or another number of bytes.
pub fn any_ticket(random: &mut Random) -> Vec<u8> {
    match random.below(24) {
        0 => bad_ticket(random).to_vec(),
        1 => [&[0], &good_ticket(random)[1..]].concat(),
        2 => vec![0; TICKET_BYTES],
        3 | 4 => {
            let bytes = good_ticket(random).repeat(3);
            bytes[..random.below(41)].to_vec()
        }
        _ => good_ticket(random).to_vec(),
    }
}

/// So many good tickets, end to end.
pub fn tickets(random: &mut Random, count: usize) -> Vec<u8> {
    (0..count).flat_map(|_| good_ticket(random)).collect()
}

/// One of the tickets breaks a rule from here on.
pub fn spoil(random: &mut Random, tickets: &mut [u8]) {
    let count = tickets.len() / TICKET_BYTES;
    if count > 0 {
        let at = random.below(count) * TICKET_BYTES;
        tickets[at..at + TICKET_BYTES].copy_from_slice(&bad_ticket(random));
    }
}

/// What stands behind a log's end: mostly zeros, at times anything behind a kind of 0.
pub fn end_log(random: &mut Random, log: &mut Vec<u8>, len: usize) {
    let end = log.len();
    log.resize(len, 0);
    if end < len && random.one_in(4) {
        match random.below(4) {
            0 => random.fill(&mut log[end..]),
            1 => log[end..end + TICKET_BYTES].copy_from_slice(&good_ticket(random)),
            _ => {
                let behind = (len - end) / TICKET_BYTES;
                let tickets = tickets(random, behind);
                log[end..].copy_from_slice(&tickets);
                spoil(random, &mut log[end + TICKET_BYTES..]);
            }
        }
        log[end] = 0;
    }
}

/// W bytes of tickets, often full, and what may stand behind them.
pub fn ticket_page(random: &mut Random, w: usize) -> Vec<u8> {
    let most = w / TICKET_BYTES;
    let count = match random.below(4) {
        0 => random.below(most + 1),
        1 => most - 1,
        _ => most,
    };
    let mut page = tickets(random, count);
    end_log(random, &mut page, w);
    page
}

// ---------------------------------------------------------------------------------------------
// The log
// ---------------------------------------------------------------------------------------------

/// The tickets of some pages, in order, up to the first of kind 0.
#[derive(Default)]
pub struct Log {
    pub bytes: Vec<u8>,
    ended: bool,
}

impl Log {
    pub fn of(pages: &[Vec<u8>]) -> Log {
        let mut log = Log::default();
        let _ = pages.iter().all(|page| log.goes_on(page));
        log
    }

    /// Takes the next page, and tells whether the log goes on behind it.
    pub fn goes_on(&mut self, page: &[u8]) -> bool {
        let end = page.chunks(TICKET_BYTES).position(|ticket| ticket[0] == 0);
        self.bytes.extend(&page[..end.map_or(page.len(), |end| end * TICKET_BYTES)]);
        self.ended = end.is_some();
        !self.ended
    }

    /// It has no end: it fills every page.
    pub fn is_full(&self) -> bool {
        !self.ended
    }

    pub fn tickets(&self) -> std::slice::ChunksExact<'_, u8> {
        self.bytes.chunks_exact(TICKET_BYTES)
    }

    /// The first ticket that breaks a rule, and its place among the tickets.
    pub fn first_bad(&self) -> Option<(usize, &[u8])> {
        self.tickets().enumerate().find(|(_, ticket)| !broken(ticket).is_empty())
    }

    /// All tickets of the lot and the bag, each with its place among the tickets.
    fn places_of_bag(&self, lot: u32, bag: u16) -> impl Iterator<Item = (usize, &[u8])> {
        let named = [&bag.to_le_bytes()[..], &lot.to_le_bytes()].concat();
        self.tickets().enumerate().filter(move |(_, ticket)| ticket[2..8] == named)
    }

    /// All tickets of the lot and the bag.
    pub fn of_bag(&self, lot: u32, bag: u16) -> Vec<&[u8]> {
        self.places_of_bag(lot, bag).map(|(_, ticket)| ticket).collect()
    }

    /// Of each of them the page, of w bytes, and whether it is a weight.
    pub fn pages_of_bag(&self, lot: u32, bag: u16, w: usize) -> Vec<(usize, bool)> {
        let of_ticket = |(place, ticket): (usize, &[u8])| (place * TICKET_BYTES / w, ticket[0] == WEIGHT);
        self.places_of_bag(lot, bag).map(of_ticket).collect()
    }

    /// Whether a weight stands, gross and tare; zeros if none does.
    pub fn standing(&self, lot: u32, bag: u16) -> [u64; 3] {
        let grams = |bytes: &[u8]| bytes.iter().rev().fold(0, |grams, &byte| grams << 8 | byte as u64);
        match self.of_bag(lot, bag).last() {
            Some(ticket) if ticket[0] == 1 => [1, grams(&ticket[8..12]), grams(&ticket[12..16])],
            _ => [0; 3],
        }
    }

    /// Mostly the lot and the bag of one of its tickets.
    pub fn any_bag(&self, random: &mut Random) -> (u32, u16) {
        let count = self.tickets().len();
        if count == 0 || random.one_in(3) {
            return lot_and_bag(random);
        }
        let ticket = Ticket::from_bytes(&self.bytes[random.below(count) * TICKET_BYTES..][..TICKET_BYTES]);
        (ticket.lot, ticket.bag)
    }
}
