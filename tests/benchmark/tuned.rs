//! The store a third time, written to be fast: what a program can take that need not be proved. Answers,
//! counts and bytes are those of the second implementation, whose types it shares and no more.

mod check;
pub mod direct;
mod log;
mod records;
mod run;
mod spares;

use crate::library::Answer;
use crate::owned::Tickets;
use crate::reference::{
    Geometry, Images, Refusal, Shape, Status, CUT, DONE, EMPTY_RECORD, MEMBERS, NONE, NO_SLOT, RECORD_BYTES,
    TICKET_BYTES,
};
use check::{Found, Look};
use log::{Log, Wanted, MOST_PAGE};
use run::carry_out;
use std::mem::MaybeUninit;

fn number(bytes: &[u8], at: usize) -> u16 {
    u16::from_le_bytes([bytes[at], bytes[at + 1]])
}

fn word(bytes: &[u8; RECORD_BYTES], at: usize) -> u64 {
    u64::from_le_bytes(bytes[at..at + 8].try_into().expect("8 bytes"))
}

fn tag_at(chips: &[u8], at: usize) -> u32 {
    u32::from_le_bytes(chips[at..at + 4].try_into().expect("4 bytes"))
}

fn refused(refusal: Refusal) -> Status {
    Status { status: refusal as u64, ..Status::default() }
}

fn xor(sum: &mut [u8], page: &[u8]) {
    for (byte, other) in sum.iter_mut().zip(page) {
        *byte ^= other;
    }
}

/// Two parts of one image that do not overlap, the first to be written.
fn apart(image: &mut [u8], to: usize, from: usize, len: usize) -> (&mut [u8], &[u8]) {
    if to < from {
        let (low, high) = image.split_at_mut(from);
        (&mut low[to..to + len], &high[..len])
    } else {
        let (low, high) = image.split_at_mut(to);
        (&mut high[..len], &low[from..from + len])
    }
}

/// All that is stored stands in the order of the images, so that each kind of store is one fill.
pub fn format(geometry: Geometry, images: &mut Images, allowance: u64) -> Status {
    let shape = match check::lengths(geometry, images) {
        Err(refusal) => return refused(refusal),
        Ok(shape) => shape,
    };
    let blocks = (shape.n + 1) * shape.b;
    let stores = allowance.min((blocks + shape.s + 1) as u64) as usize;
    let erases = stores.min(blocks);
    images.chips[..erases * shape.k * shape.page_len()].fill(255);
    let records = (stores - erases).min(shape.s);
    for record in images.records[..records * RECORD_BYTES].as_chunks_mut::<RECORD_BYTES>().0 {
        *record = EMPTY_RECORD;
    }
    let done = stores == blocks + shape.s + 1;
    if done {
        images.records[shape.s * RECORD_BYTES..].fill(0);
    }
    let status = if done { DONE } else { CUT };
    Status { status, erases: erases as u64, stores: stores as u64, ..Status::default() }
}

pub fn open(geometry: Geometry, images: &mut Images, lost: u64, allowance: u64) -> Status {
    let mut place = MaybeUninit::uninit();
    let found = Found::begin(&mut place);
    match check::images(geometry, images, lost, found) {
        Err(refusal) => refused(refusal),
        Ok((_, Some(_))) => Status::default(),
        Ok((shape, None)) => carry_out(shape, images, found, allowance, |run| run.open()),
    }
}

/// How a page was got, as the numbers that are said.
const UNWRITTEN: u64 = 0;
const DIRECT: u64 = 1;
const PARTIAL: u64 = 2;
const FULL: u64 = 3;

pub fn read(geometry: Geometry, images: &Images, lost: u64, page: u64, buffer: &mut [u8]) -> Answer {
    let mut place = MaybeUninit::uninit();
    let found = Found::begin(&mut place);
    let (shape, lost) = match check::images(geometry, images, lost, found) {
        Err(refusal) => return refused(refusal).into(),
        Ok((shape, _)) if page >= (shape.n * shape.s) as u64 => return refused(Refusal::Request).into(),
        Ok((shape, _)) if buffer.len() != shape.w => return refused(Refusal::Data).into(),
        Ok(checked) => checked,
    };
    let look = Look { shape, images };
    let (stripe, member) = (page as usize / shape.n, page as usize % shape.n);
    let chip = shape.member_chip(stripe, member);
    let (reads, origin) = match number(look.record(stripe), 2 * member) {
        NONE => {
            buffer.fill(0);
            (0, UNWRITTEN)
        }
        _ if lost == Some(chip) => rebuild(look, stripe, member, buffer),
        current => {
            buffer.copy_from_slice(look.data(chip, current));
            (1, DIRECT)
        }
    };
    Answer { status: Status { reads, ..Status::default() }, origin, ..Answer::default() }
}

/// The reads it takes, and what it goes through.
fn rebuild(look: Look, stripe: usize, member: usize, buffer: &mut [u8]) -> (u64, u64) {
    let Shape { n, w, .. } = look.shape;
    let record = look.record(stripe);
    let (bitmap, slot) = (record[26], record[27] as usize);
    let through_partial = bitmap >> member & 1 == 1;
    let mut reads = 0;
    if through_partial {
        buffer.copy_from_slice(&look.images.slots[slot * w..(slot + 1) * w]);
    } else {
        buffer.copy_from_slice(look.data(look.shape.parity_chip(stripe), number(record, 24)));
        reads += 1;
    }
    for m in (0..n).filter(|&m| m != member) {
        let set = bitmap >> m & 1 == 1;
        let field = match (through_partial, set) {
            (true, false) => continue,
            (false, true) => MEMBERS + m,
            _ => m,
        };
        let page = number(record, 2 * field);
        if page != NONE {
            xor(buffer, look.data(look.shape.member_chip(stripe, m), page));
            reads += 1;
        }
    }
    (reads, if through_partial { PARTIAL } else { FULL })
}

/// Refusals 1 to 9 of a call that stores.
fn idle(
    geometry: Geometry,
    images: &Images,
    lost: u64,
    found: &mut Found,
    request: impl Fn(Shape) -> Result<(), Refusal>,
) -> Result<Shape, Refusal> {
    let (shape, lost) = check::images(geometry, images, lost, found)?;
    if (Look { shape, images }).collection().phase != 0 {
        return Err(Refusal::Collection);
    }
    request(shape)?;
    if lost.is_some() {
        return Err(Refusal::ChipSet);
    }
    Ok(shape)
}

fn below(number: u64, bound: usize) -> Result<(), Refusal> {
    (number < bound as u64).then_some(()).ok_or(Refusal::Request)
}

pub fn write(
    geometry: Geometry,
    images: &mut Images,
    lost: u64,
    page: u64,
    data: &[u8],
    allowance: u64,
) -> Status {
    let mut place = MaybeUninit::uninit();
    let found = Found::begin(&mut place);
    let request = |shape: Shape| {
        below(page, shape.n * shape.s)?;
        (data.len() == shape.w).then_some(()).ok_or(Refusal::Data)
    };
    match idle(geometry, images, lost, found, request) {
        Err(refusal) => refused(refusal),
        Ok(shape) => {
            let (stripe, member) = (page as usize / shape.n, page as usize % shape.n);
            carry_out(shape, images, found, allowance, |run| run.write(stripe, member, data))
        }
    }
}

pub fn commit(geometry: Geometry, images: &mut Images, lost: u64, stripe: u64, allowance: u64) -> Status {
    let mut place = MaybeUninit::uninit();
    let found = Found::begin(&mut place);
    let look = |shape| Look { shape, images: &*images };
    match idle(geometry, images, lost, found, |shape| below(stripe, shape.s)) {
        Err(refusal) => refused(refusal),
        Ok(shape) if look(shape).record(stripe as usize)[27] == NO_SLOT => refused(Refusal::Work),
        Ok(shape) => carry_out(shape, images, found, allowance, |run| run.commit(stripe as usize)),
    }
}

pub fn collect(geometry: Geometry, images: &mut Images, lost: u64, chip: u64, allowance: u64) -> Status {
    let mut place = MaybeUninit::uninit();
    let found = Found::begin(&mut place);
    let shape = match idle(geometry, images, lost, found, |shape| below(chip, shape.n + 1)) {
        Err(refusal) => return refused(refusal),
        Ok(shape) => shape,
    };
    let chip = chip as usize;
    match run::victim(Look { shape, images }, found, chip) {
        None => refused(Refusal::Work),
        Some(victim) => carry_out(shape, images, found, allowance, |run| run.collect(chip, victim)),
    }
}

pub const ORIGINS: bool = true;
pub const TICKETS: Option<Tickets> = Some(Tickets { add, find });

fn add(geometry: Geometry, images: &mut Images, lost: u64, ticket: &[u8], allowance: u64) -> Status {
    let mut place = MaybeUninit::uninit();
    let found = Found::begin(&mut place);
    let request = |_| (ticket.len() == TICKET_BYTES).then_some(()).ok_or(Refusal::Data);
    let (shape, Log { reads, end, .. }) = match idle(geometry, images, lost, found, request) {
        Err(refusal) => return refused(refusal),
        Ok(_) if !log::is_sound(ticket.try_into().expect("16 bytes")) => return refused(Refusal::Ticket),
        Ok(shape) => match log::walk(Look { shape, images }, None, Wanted { lot: 0, bag: 0 }) {
            Err(refusal) => return refused(refusal),
            Ok(log) => (shape, log),
        },
    };
    let Some((page, at)) = end else { return refused(Refusal::LogFull) };
    let (stripe, member) = (page / shape.n, page % shape.n);
    let mut buffer = [0; MOST_PAGE];
    let data = &mut buffer[..shape.w];
    let look = Look { shape, images };
    match number(look.record(stripe), 2 * member) {
        NONE => {}
        current => data.copy_from_slice(look.data(shape.member_chip(stripe, member), current)),
    }
    data[at..at + TICKET_BYTES].copy_from_slice(ticket);
    let status = carry_out(shape, images, found, allowance, |run| run.write(stripe, member, data));
    Status { reads: status.reads + reads, ..status }
}

fn find(geometry: Geometry, images: &Images, lost: u64, lot: u32, bag: u16) -> Answer {
    let mut place = MaybeUninit::uninit();
    let found = Found::begin(&mut place);
    let log = check::images(geometry, images, lost, found)
        .and_then(|(shape, lost)| log::walk(Look { shape, images }, lost, Wanted { lot, bag }));
    match log {
        Err(refusal) => refused(refusal).into(),
        Ok(log) => log.answer(),
    }
}
