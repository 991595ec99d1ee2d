//! Random calls on small images, sound ones and others: the third implementation must agree with the second
//! one in answer, counts and every byte.

use crate::breakers::BREAKERS;
use crate::damage::change_byte;
use crate::generator::{self, ALL};
use crate::library::Answer;
use crate::owned::{Calls, REFERENCE, THIRD, THIRD_NAME};
use crate::random::Random;
use crate::reference::{self, Geometry, Images, Shape, NO_CHIP, TICKET_BYTES};
use crate::tickets;
use crate::trio::fail;
use crate::tuned::direct::MOST_BYTES;
use std::sync::atomic::Ordering::Relaxed;

const CASES: usize = 6_000;
const CALLS: usize = 4;
/// So many pages are filled with tickets at most.
const MOST_FILLED: usize = 24;

pub fn check() {
    let most_bytes = MOST_BYTES.load(Relaxed);
    for case in 0..CASES {
        // as a large store, and as a small one
        MOST_BYTES.store(if case % 2 == 0 { 0 } else { most_bytes }, Relaxed);
        let random = &mut Random::for_case(1, case as u64);
        let g = geometry(random);
        let shape = g.shape().expect("within the limits");
        let (mut images, lost) = images(random, g, shape);
        for _ in 0..CALLS {
            let asked = Asked::any(random, shape, lost);
            let mut others = images.clone();
            let (answer, bytes) = asked.make(&REFERENCE, g, &mut images);
            let expected = (THIRD.told(answer), bytes);
            let found = asked.make(&THIRD, g, &mut others);
            if found != expected || others != images {
                fail(&format!(
                    "{THIRD_NAME}, case {case}, {g:?}, {asked:?}: {found:?}, expected {expected:?}"
                ));
            }
        }
    }
    MOST_BYTES.store(most_bytes, Relaxed);
}

/// Small mostly, so that commits and collections are frequent.
fn geometry(random: &mut Random) -> Geometry {
    let n = random.between(2, 6) as u64;
    let (mut k, mut b, mut m) = (random.between(2, 5), random.between(2, 6), random.between(1, 4));
    match random.below(50) {
        0 => (k, b) = (random.between(100, 128), 2),
        1 => (k, b) = (random.between(2, 20), random.between(10, 20)),
        2 => (k, b, m) = (16, 18, 254),
        _ => {}
    }
    if (b - 1) * k < m + 2 {
        (k, m) = (k.max(3), 1);
    }
    let most = (b - 1) * k - m - 1;
    let s = if random.one_in(4) { random.between(1, most) } else { most };
    let w = 16 * if random.one_in(8) { random.between(3, 20) } else { random.between(1, 2) } as u64;
    Geometry { n, w, k: k as u64, b: b as u64, s: s as u64, m: m as u64 }
}

/// Images and the chip that is lost: sound, or with one condition broken, or a byte changed, or other bytes
/// on the lost chip.
fn images(random: &mut Random, g: Geometry, shape: Shape) -> (Images, u64) {
    let mut images = match random.below(3) {
        0 if shape.pages() < 100 => generator::by_calls(random, g, shape),
        1 if shape.pages() < 100 => with_log(random, g, shape),
        _ => {
            let phase = random.pick(&[0, 0, 1, 2, 2]);
            generator::sound(random, shape, phase)
        }
    };
    match random.below(6) {
        0 | 1 => {
            let (_, _, breaker) = random.pick(&BREAKERS);
            breaker(random, shape, &mut images);
        }
        2 => {
            change_byte(random, shape, &mut images);
        }
        _ => {}
    }
    if !random.one_in(4) {
        return (images, NO_CHIP);
    }
    let chip = random.below(shape.n + 1);
    random.fill(&mut images.chips[chip * shape.chip_len()..][..shape.chip_len()]);
    if random.one_in(2) {
        generator::rename_on(random, shape, &mut images, chip);
    }
    (images, chip as u64)
}

/// What calls leave, with tickets in the first pages, of which one breaks a rule at times, and then any page.
fn with_log(random: &mut Random, g: Geometry, shape: Shape) -> Images {
    let mut images = generator::by_calls(random, g, shape);
    reference::open(g, &mut images, NO_CHIP, ALL);
    let filled = random.below((shape.n * shape.s).min(MOST_FILLED) + 1);
    for page in 0..filled {
        let mut data = tickets::tickets(random, shape.w / TICKET_BYTES);
        if random.one_in(40) {
            tickets::spoil(random, &mut data);
        }
        reference::write(g, &mut images, NO_CHIP, page as u64, &data, ALL);
    }
    let data = tickets::ticket_page(random, shape.w);
    reference::write(g, &mut images, NO_CHIP, filled as u64, &data, ALL);
    if random.one_in(4) {
        generator::leave_collection(random, g, shape, &mut images);
    }
    images
}

/// A call with all its arguments.
#[derive(Debug)]
struct Asked {
    kind: usize,
    lost: u64,
    number: u64,
    bytes: Vec<u8>,
    ticket: Vec<u8>,
    lot_and_bag: (u32, u16),
    allowance: u64,
}

/// The kinds of calls, each as often as it is made; the last two are those of the log.
const KINDS: [usize; 19] = [0, 1, 1, 2, 2, 3, 3, 3, 3, 4, 4, 5, 5, 6, 6, 6, 7, 7, 7];

impl Asked {
    /// Mostly within the limits.
    fn any(random: &mut Random, shape: Shape, lost: u64) -> Asked {
        let kind = random.pick(if THIRD.tickets.is_some() { &KINDS } else { &KINDS[..13] });
        let highest = [0, 0, shape.n * shape.s, shape.n * shape.s, shape.s, shape.n + 1, 0, 0][kind];
        let lost = if random.one_in(16) { random.below(shape.n + 3) as u64 } else { lost };
        let number = match random.one_in(16) {
            true => random.pick(&[highest as u64, ALL]),
            false => random.below(highest.max(1)) as u64,
        };
        let len = if random.one_in(16) { shape.w - 1 } else { shape.w };
        let allowance = match random.below(3) {
            0 => random.below(2 * shape.k + 8) as u64,
            _ => ALL,
        };
        let (ticket, lot_and_bag) = (tickets::any_ticket(random), tickets::lot_and_bag(random));
        Asked { kind, lost, number, bytes: random.bytes(len), ticket, lot_and_bag, allowance }
    }

    /// The answer, and the bytes that a read leaves.
    fn make(&self, by: &Calls, g: Geometry, images: &mut Images) -> (Answer, Vec<u8>) {
        let &Asked { kind, lost, number, allowance, lot_and_bag: (lot, bag), .. } = self;
        let mut bytes = self.bytes.clone();
        let tickets = || by.tickets.as_ref().expect("calls of the log");
        let status = match kind {
            0 => (by.format)(g, images, allowance),
            1 => (by.open)(g, images, lost, allowance),
            2 => return ((by.read)(g, images, lost, number, &mut bytes), bytes),
            3 => (by.write)(g, images, lost, number, &bytes, allowance),
            4 => (by.commit)(g, images, lost, number, allowance),
            5 => (by.collect)(g, images, lost, number, allowance),
            6 => (tickets().add)(g, images, lost, &self.ticket, allowance),
            _ => return ((tickets().find)(g, images, lost, lot, bag), bytes),
        };
        (status.into(), bytes)
    }
}
