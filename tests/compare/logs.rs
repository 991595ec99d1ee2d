//! Images with a log in their pages, and cases on them: additions and questions.

use crate::calls::{Call, Comparison};
use crate::generator::{self, leave_collection, store_record, store_spare, ALL};
use crate::geometries::{largest_geometry, log_geometry};
use crate::images::{fill_chip, lose_chip, random_calls, store_limited, FILLINGS};
use crate::random::Random;
use crate::reference::*;
use crate::requests::any_question;
use crate::strange::strange_things;
use crate::tickets::{any_ticket, end_log, good_ticket, spoil, ticket_page, tickets, Log};

/// So many pages are filled with tickets by writes at most.
const MOST_FILLED: usize = 60;

// ---------------------------------------------------------------------------------------------
// Images
// ---------------------------------------------------------------------------------------------

/// What writes of tickets, additions and other calls leave of formatted images, cuts included.
fn by_additions(random: &mut Random, g: Geometry, shape: Shape) -> Images {
    let mut images = generator::formatted(random, g, shape);
    let pages = shape.n * shape.s;
    let filled = match random.below(6) {
        0 => 0,
        1 | 2 => pages,
        3 => pages - 1,
        _ => random.below(pages + 1),
    };
    for page in 0..filled.min(MOST_FILLED) {
        let data = tickets(random, shape.w / TICKET_BYTES);
        write(g, &mut images, NO_CHIP, page as u64, &data, ALL);
    }
    for _ in 0..random.below(24) {
        add_or_other(random, g, shape, &mut images);
    }
    if random.one_in(3) {
        leave_collection(random, g, shape, &mut images);
    }
    images
}

fn add_or_other(random: &mut Random, g: Geometry, shape: Shape, images: &mut Images) {
    let allowance = if random.one_in(5) { random.below(2 * shape.k + 8) as u64 } else { ALL };
    let page = random.below(shape.n * shape.s) as u64;
    match random.below(16) {
        0 => open(g, images, NO_CHIP, ALL),
        1 | 2 => commit(g, images, NO_CHIP, page / g.n, allowance),
        3 => collect(g, images, NO_CHIP, random.below(shape.n + 1) as u64, allowance),
        4..=6 => write(g, images, NO_CHIP, page, &ticket_page(random, shape.w), allowance),
        7 => {
            let mut data = ticket_page(random, shape.w);
            spoil(random, &mut data);
            write(g, images, NO_CHIP, page, &data, allowance)
        }
        _ => add(g, images, NO_CHIP, &good_ticket(random), allowance),
    };
}

/// Puts tickets into the first pages of sound images, as far as these are there, and in half of the cases makes the
/// parities of their stripes right.
pub fn lay_log(random: &mut Random, shape: Shape, images: &mut Images) {
    let current = |page: usize| images.view(shape).record(page / shape.n).current[page % shape.n];
    let written = (0..shape.n * shape.s).take_while(|&page| current(page) != NONE).count();
    let room = written * shape.w / TICKET_BYTES;
    let count = match random.below(4) {
        0 => room,
        1 => room.saturating_sub(1),
        _ => random.below(room + 1),
    };
    let mut log = tickets(random, count);
    if random.one_in(8) {
        spoil(random, &mut log);
    }
    end_log(random, &mut log, written * shape.w);
    for (page, data) in log.chunks(shape.w).enumerate() {
        let (stripe, member) = (page / shape.n, page % shape.n);
        let number = images.view(shape).record(stripe).current[member];
        let at = shape.page_at(shape.member_chip(stripe, member), number as usize);
        images.chips[at..at + shape.w].copy_from_slice(data);
    }
    if random.one_in(2) {
        (0..written.div_ceil(shape.n)).for_each(|stripe| mend(shape, images, stripe));
    }
}

/// Makes the parity page and the partial parity of a stripe the XOR of their pages.
fn mend(shape: Shape, images: &mut Images, stripe: usize) {
    let view = images.view(shape);
    let record = view.record(stripe);
    let (mut parity, mut partial) = (vec![0; shape.w], vec![0; shape.w]);
    for m in 0..shape.n {
        let chip = shape.member_chip(stripe, m);
        let add = |sum: &mut Vec<u8>, page: u16| {
            if page != NONE {
                let data = view.data(chip, page as usize);
                sum.iter_mut().zip(data).for_each(|(byte, other)| *byte ^= other);
            }
        };
        if record.bit(m) {
            add(&mut partial, record.current[m]);
            add(&mut parity, record.old[m]);
        } else {
            add(&mut parity, record.current[m]);
        }
    }
    if record.parity != NONE {
        let at = shape.page_at(shape.parity_chip(stripe), record.parity as usize);
        images.chips[at..at + shape.w].copy_from_slice(&parity);
    }
    if record.slot != NO_SLOT {
        images.slots[record.slot as usize * shape.w..][..shape.w].copy_from_slice(&partial);
    }
}

/// Every page is written: stripe j has page j of every chip, and nothing is in the partial parity. The log has room
/// for one ticket.
fn full_store(random: &mut Random, g: Geometry, shape: Shape) -> Images {
    let mut images = generator::formatted(random, g, shape);
    let len = shape.n * shape.s * shape.w;
    let mut log: Vec<u8> = (0..len / TICKET_BYTES - 1).flat_map(numbered).collect();
    log.resize(len, 0);
    for (stripe, pages) in log.chunks(shape.n * shape.w).enumerate() {
        let mut record = Record::from_bytes(&EMPTY_RECORD);
        for (m, data) in pages.chunks(shape.w).enumerate() {
            let chip = shape.member_chip(stripe, m);
            let at = shape.page_at(chip, stripe);
            images.chips[at..at + shape.w].copy_from_slice(data);
            let spare = Spare { kind: DATA, member: m as u8, stripe: stripe as u16, copied: NONE };
            store_spare(&mut images, shape, chip, stripe, spare);
            record.current[m] = stripe as u16;
        }
        let spare = Spare { kind: PARITY, member: 0, stripe: stripe as u16, copied: NONE };
        store_spare(&mut images, shape, shape.parity_chip(stripe), stripe, spare);
        record.parity = stripe as u16;
        store_record(&mut images, stripe, record);
        mend(shape, &mut images, stripe);
    }
    images
}

/// A weight whose lot and bag are its number in the log.
fn numbered(number: usize) -> [u8; TICKET_BYTES] {
    let (lot, bag) = lot_and_bag_of(number);
    Ticket { kind: WEIGHT, zero: 0, bag, lot, gross: number as u32, tare: number as u32 / 2 }.to_bytes()
}

fn lot_and_bag_of(number: usize) -> (u32, u16) {
    ((number >> 16) as u32, number as u16)
}

// ---------------------------------------------------------------------------------------------
// Cases
// ---------------------------------------------------------------------------------------------

pub fn log_case(to: &mut Comparison, random: &mut Random) {
    let g = log_geometry(random);
    let shape = g.shape().expect("within the limits");
    let mut images = if random.one_in(3) {
        let phase = random.pick(&[0, 0, 1, 2]);
        to.about = format!("images built in phase {phase} with a log");
        to.built = true;
        let mut images = generator::sound(random, shape, phase);
        lay_log(random, shape, &mut images);
        images
    } else {
        let images = by_additions(random, g, shape);
        to.about = format!("images by additions in phase {}", images.view(shape).collection().phase);
        if let Some(thing) = strange_things(images.view(shape)).first() {
            to.fail(g, &format!("harness: calls have left what they never leave: {thing}"));
        }
        images
    };
    to.coverage.hit(&to.about);
    ask_around(to, random, g, shape, &images);
    if random.one_in(2) {
        open(g, &mut images, NO_CHIP, ALL);
    }
    add_some(to, random, g, &mut images);
    let lost = lose_chip(to, random, shape, &mut images);
    let question = any_question(random, shape, &images, lost);
    to.call(random, g, &mut images, &question);
    random_calls(to, random, g, shape, &mut images, lost);
}

/// Questions with no chip lost, and with each chip lost in turn.
fn ask_around(to: &mut Comparison, random: &mut Random, g: Geometry, shape: Shape, images: &Images) {
    let built = to.built;
    let (lot, bag) = log_of(images.view(shape)).any_bag(random);
    to.call(random, g, &mut images.clone(), &Call::Find { lost: NO_CHIP, lot, bag });
    for chip in 0..=shape.n {
        let filling = random.pick(&FILLINGS);
        let mut others = images.clone();
        fill_chip(random, shape, &mut others, chip, filling);
        to.built = built && filling == "with its own bytes";
        to.call(random, g, &mut others, &Call::Find { lost: chip as u64, lot, bag });
    }
    to.built = built;
}

/// Additions with any allowance, and at times with every one.
fn add_some(to: &mut Comparison, random: &mut Random, g: Geometry, images: &mut Images) {
    for _ in 0..random.between(1, 4) {
        let call = Call::Add { lost: NO_CHIP, ticket: any_ticket(random), allowance: ALL };
        let every = random.one_in(4);
        store_limited(to, random, g, images, call, every);
    }
}

/// The log as it reads with no chip lost.
pub fn log_of(view: View) -> Log {
    let mut log = Log::default();
    let mut work = vec![0; view.shape.w];
    for page in 0..view.shape.n * view.shape.s {
        let (stripe, member) = (page / view.shape.n, page % view.shape.n);
        if !log.goes_on(view.fetch(stripe, &view.record(stripe), member, None, &mut work).0) {
            break;
        }
    }
    log
}

/// As many pages as can be numbered, and room for one ticket.
pub fn largest_log_case(to: &mut Comparison, random: &mut Random) {
    let g = largest_geometry(random);
    let shape = g.shape().expect("within the limits");
    to.about = "largest log".to_string();
    let mut images = full_store(random, g, shape);
    let last = shape.n * shape.s * shape.w / TICKET_BYTES - 2;
    for number in [last, random.below(last), random.below(1 << 16)] {
        let (lot, bag) = lot_and_bag_of(number);
        let chip = random.below(shape.n + 1) as u64;
        let lost = random.pick(&[NO_CHIP, chip]);
        to.call(random, g, &mut images, &Call::Find { lost, lot, bag });
    }
    let allowance = random.pick(&[65_535, ALL]);
    for number in [last + 1, last + 2] {
        let ticket = numbered(number).to_vec();
        to.call(random, g, &mut images, &Call::Add { lost: NO_CHIP, ticket, allowance });
    }
    let (lot, bag) = lot_and_bag_of(last + 1);
    to.call(random, g, &mut images, &Call::Find { lost: NO_CHIP, lot, bag });
}
