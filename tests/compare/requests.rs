//! Random calls: requests, lost chips, lengths and allowances, at their limits and beyond often.

use crate::calls::Call;
use crate::generator::ALL;
use crate::logs::log_of;
use crate::random::Random;
use crate::reference::{Geometry, Images, Shape, View, NONE, NO_CHIP, NO_SLOT, RECORD_BYTES};
use crate::tickets::{any_ticket, lot_and_bag, ticket_page};

/// Mostly the chip that is lost in this case; else any number.
pub fn any_lost(random: &mut Random, shape: Shape, lost: u64) -> u64 {
    if !random.one_in(8) {
        return lost;
    }
    let chip = random.below(shape.n + 1) as u64;
    let n = shape.n as u64;
    let edges = [n + 1, 254, 256, ALL];
    let others = [n + 2, 256 + chip, 511, (1 << 16) + chip, (1 << 32) + chip, (1 << 32) + 255, 1 << 63];
    match random.below(4) {
        0 => NO_CHIP,
        1 => chip,
        2 => random.pick(&edges),
        _ => random.pick(&others),
    }
}

/// A number at an edge of those below the bound, or beyond.
fn edge(random: &mut Random, bound: usize) -> u64 {
    let bound = bound as u64;
    let wide = random.pick(&[1 << 8, 1 << 16, 1 << 32, 1 << 63]) + random.next() % bound;
    random.pick(&[0, bound - 1, bound, bound + 1, wide, wide, ALL, ALL - 1])
}

/// A page in the partial parity of the highest slot, with its chip.
fn highest_slot(random: &mut Random, view: View) -> Option<(u64, u64)> {
    let shape = view.shape;
    let slots = (0..shape.s).map(|stripe| (view.record(stripe).slot, stripe));
    let (_, stripe) = slots.filter(|&(slot, _)| slot != NO_SLOT).max()?;
    let record = view.record(stripe);
    let set: Vec<usize> = (0..shape.n).filter(|&m| record.bit(m)).collect();
    let member = if set.is_empty() { 0 } else { random.pick(&set) };
    Some((shape.member_chip(stripe, member) as u64, (stripe * shape.n + member) as u64))
}

/// The logical page that stands highest on its chip.
pub fn highest_page(view: View) -> u64 {
    let shape = view.shape;
    let currents = (0..shape.s).flat_map(|stripe| {
        let record = view.record(stripe);
        (0..shape.n).map(move |m| (record.current[m], stripe * shape.n + m))
    });
    currents.filter(|current| current.0 != NONE).max().map_or(0, |(_, page)| page as u64)
}

/// Mostly a page of the store, and then often one of the lost chip; else an edge or beyond.
fn any_page(random: &mut Random, shape: Shape, lost: u64) -> u64 {
    if random.one_in(6) {
        return edge(random, shape.n * shape.s);
    }
    let stripe = random.below(shape.s);
    let on_lost = (0..shape.n).find(|&m| shape.member_chip(stripe, m) as u64 == lost);
    let member = match on_lost {
        Some(m) if !random.one_in(4) => m,
        _ => random.below(shape.n),
    };
    (stripe * shape.n + member) as u64
}

/// Mostly a stripe in the partial parity, if there is one; else an edge or beyond. The images may be damaged.
pub fn any_stripe(random: &mut Random, view: View) -> u64 {
    if random.one_in(5) {
        return edge(random, view.shape.s);
    }
    let start = random.below(view.shape.s);
    let slotted = (start..view.shape.s).chain(0..start).find(|&stripe| view.record(stripe).slot != NO_SLOT);
    match slotted {
        Some(stripe) if !random.one_in(6) => stripe as u64,
        _ => start as u64,
    }
}

pub fn any_chip(random: &mut Random, shape: Shape) -> u64 {
    match random.below(5) {
        0 => edge(random, shape.n + 1),
        _ => random.below(shape.n + 1) as u64,
    }
}

/// Mostly W bytes.
fn any_bytes(random: &mut Random, shape: Shape) -> Vec<u8> {
    match random.below(12) {
        0 => {
            let lengths = [0, 1, shape.w - 1, shape.w + 1, shape.w + 8, 2 * shape.w, 4_096];
            let len = random.pick(&lengths);
            random.bytes(len)
        }
        _ => any_data(random, shape),
    }
}

/// W bytes: mostly random, at times tickets, zeros as of a page never written, or 255s as of a clean one.
pub fn any_data(random: &mut Random, shape: Shape) -> Vec<u8> {
    match random.below(16) {
        0 => vec![0; shape.w],
        1 => vec![255; shape.w],
        2 | 3 => ticket_page(random, shape.w),
        _ => random.bytes(shape.w),
    }
}

/// An allowance around a list's length, and around the places that matter in it.
fn any_allowance(random: &mut Random, length: u64, marks: &[u64]) -> u64 {
    let mark = random.pick(marks);
    match random.below(8) {
        0 => ALL,
        1 => length,
        2 => length.saturating_sub(1),
        3 => length + 1,
        4 => mark,
        5 => mark.saturating_sub(1),
        6 => random.pick(&[0, 1, 1 << 8, 1 << 16, 1 << 32, 1 << 59, 1 << 63]),
        _ => random.next() % (length + 2),
    }
}

/// A write, commit, collection or addition with all that it may store.
pub fn any_storing(random: &mut Random, images: &Images, shape: Shape, lost: u64) -> Call {
    let allowance = ALL;
    match random.below(9) {
        0 | 1 => Call::Commit { lost, stripe: any_stripe(random, images.view(shape)), allowance },
        2 | 3 => Call::Collect { lost, chip: any_chip(random, shape), allowance },
        4 => Call::Add { lost, ticket: any_ticket(random), allowance },
        _ => {
            let page = any_page(random, shape, lost);
            Call::Write { lost, page, data: any_bytes(random, shape), allowance }
        }
    }
}

/// A question, mostly for a lot and a bag that have a ticket. The images are sound.
pub fn any_question(random: &mut Random, shape: Shape, images: &Images, lost: u64) -> Call {
    let (lot, bag) = log_of(images.view(shape)).any_bag(random);
    Call::Find { lost, lot, bag }
}

/// The call with any allowance.
pub fn limited(random: &mut Random, g: Geometry, images: &Images, call: Call) -> Call {
    let length = call.length(g, images);
    let allowance = any_allowance(random, length, &[length / 2, length.saturating_sub(2), 2, 1]);
    call.allowed(allowance)
}

pub fn any_call(random: &mut Random, g: Geometry, shape: Shape, images: &Images, lost: u64) -> Call {
    let large = shape.pages() > 60_000;
    match random.below(18) {
        0..=7 if large => Call::Format { allowance: random.pick(&[65_535, 65_536, ALL, ALL]) },
        0 => {
            let erases = ((shape.n + 1) * shape.b) as u64;
            let length = erases + shape.s as u64 + 1;
            Call::Format { allowance: any_allowance(random, length, &[erases, length - 1, erases / 2]) }
        }
        1..=4 => {
            let lost = any_lost(random, shape, lost);
            limited(random, g, images, Call::Open { lost, allowance: ALL })
        }
        5..=10 => {
            let lost = any_lost(random, shape, lost);
            let call = any_storing(random, images, shape, lost);
            limited(random, g, images, call)
        }
        11 => {
            let lost = any_lost(random, shape, lost);
            let (lot, bag) = lot_and_bag(random);
            Call::Find { lost, lot, bag }
        }
        _ => {
            let mut lost = any_lost(random, shape, lost);
            let mut page = any_page(random, shape, lost);
            if random.one_in(if shape.m == 254 { 2 } else { 6 }) {
                (lost, page) = highest_slot(random, images.view(shape)).unwrap_or((lost, page));
            }
            Call::Read { lost, page, buffer: any_bytes(random, shape) }
        }
    }
}

/// Gives one image another length.
pub fn other_length(random: &mut Random, shape: Shape, images: &mut Images) {
    let image = match random.below(3) {
        0 => &mut images.chips,
        1 => &mut images.records,
        _ => &mut images.slots,
    };
    let unit = random.pick(&[1, 8, RECORD_BYTES, shape.w, shape.page_len(), shape.chip_len(), 256, 65_536]);
    match random.below(5) {
        0 => image.clear(),
        1 | 2 => image.truncate(image.len().saturating_sub(unit)),
        _ => image.resize(image.len() + unit, 255),
    }
}
