//! What a call covered, told from the images before it and its answer.

use crate::calls::Call;
use crate::coverage::Coverage;
use crate::generator::ALL;
use crate::geometries::{limits_reached, wrapped_lengths};
use crate::library::Answer;
use crate::log_notes::{self, Walk};
use crate::origins;
use crate::plan::Plan;
use crate::points::{AMPLE, IMAGES, REQUESTS};
use crate::reference::*;
use crate::tickets::broken;

/// Counts the points that the call came by; `bytes` is its buffer or data as it is left. An error means that the
/// coverage and the reference are at odds on the length of a list, on a log, or on how a page was got.
pub fn note(
    coverage: &mut Coverage,
    g: Geometry,
    before: &Images,
    call: &Call,
    answer: Answer,
    bytes: &[u8],
) -> Result<(), String> {
    let (name, status) = (call.name(), answer.status);
    let made = [DONE, CUT].contains(&status.status);
    match status.status {
        DONE => coverage.hit(&format!("{name} done")),
        CUT => coverage.hit(&format!("{name} cut")),
        number => coverage.hit(&format!("{name} refused {number}")),
    }
    let Some(shape) = g.shape() else {
        let other = lengths_of(before).map(|length| length as u64) != wrapped_lengths(g);
        coverage.hit_if(other, &format!("{name} refused 1 before 2"));
        return Ok(());
    };
    note_numbers(coverage, shape, call, status.status);
    if !made {
        note_refusal(coverage, shape, before, call, status.status);
        return match (status.status, call) {
            (11 | 12, _) => log_notes::note_refused(coverage, before.view(shape), call, status.status),
            (8, &Call::Read { lost, page, .. }) => {
                origins::note_refused_read(coverage, before.view(shape), lost, page);
                Ok(())
            }
            _ => Ok(()),
        };
    }
    limits_reached(g).for_each(|point| coverage.hit(point));
    coverage.hit_if(shape.pages() == 65_535, "images of 65,535 pages to a chip");
    coverage.hit_if(before.chips.len() > 1 << 24, "images of more than 2^24 bytes");
    let length = note_list(coverage, g, before.view(shape), call, answer, bytes)?;
    note_allowance(coverage, shape, call, length, status)
}

/// What the stores of a call have shown, or its reads; the length of its list.
fn note_list(
    coverage: &mut Coverage,
    g: Geometry,
    view: View,
    call: &Call,
    answer: Answer,
    bytes: &[u8],
) -> Result<u64, String> {
    let status = answer.status;
    let plan = match *call {
        Call::Format { .. } => return Ok(note_format(coverage, view.shape, status)),
        Call::Open { lost, allowance } => return Ok(note_open(coverage, view, lost, allowance, status)),
        Call::Read { lost, page, .. } => {
            note_read(coverage, view, lost, page, bytes);
            origins::note_read(coverage, view, lost, page, answer.origin)?;
            return Ok(0);
        }
        Call::Find { lost, lot, bag } => {
            log_notes::note_find(coverage, view, lost, (lot, bag), answer)?;
            return Ok(0);
        }
        Call::Write { page, .. } => {
            note_data(coverage, view.shape, page, bytes);
            Plan::of_write(g, view.images, page)
        }
        Call::Commit { stripe, .. } => Plan::of_commit(g, view.images, stripe),
        Call::Collect { chip, .. } => Plan::of_collect(g, view.images, chip),
        Call::Add { .. } => {
            let page = log_notes::note_add(coverage, view, bytes, status)?;
            Plan::of_add(g, view.images, page)
        }
    };
    plan.note(coverage, status.stores);
    let large = status.status == DONE && view.shape.pages() == 65_535;
    coverage.hit_if(large, &format!("{} at 65,535 pages to a chip", call.name()));
    Ok(plan.stores)
}

fn lengths_of(images: &Images) -> [usize; 3] {
    [images.chips.len(), images.records.len(), images.slots.len()]
}

// ---------------------------------------------------------------------------------------------
// Numbers
// ---------------------------------------------------------------------------------------------

/// The stores that include/vazhettu.h says a call makes at most.
fn most_stores(shape: Shape, call: &Call) -> usize {
    let Shape { n, k, b, s, .. } = shape;
    match call {
        Call::Format { .. } => (n + 1) * b + s + 1,
        Call::Open { .. } => k + 2,
        Call::Read { .. } | Call::Find { .. } => 0,
        Call::Write { .. } | Call::Add { .. } => 4 * k + 13,
        Call::Commit { .. } => 2 * k + 6,
        Call::Collect { .. } => 2 * k + 4,
    }
}

/// "If the list is longer than the allowance it stops there and answers cut .. otherwise done".
fn note_allowance(
    coverage: &mut Coverage,
    shape: Shape,
    call: &Call,
    length: u64,
    status: Status,
) -> Result<(), String> {
    let (name, allowance) = (call.name(), call.allowance());
    if length > most_stores(shape, call) as u64 {
        return Err(format!("a list of {length} stores, longer than the header says"));
    }
    let expected = if allowance < length { CUT } else { DONE };
    if status.status != expected || status.stores != length.min(allowance) {
        return Err(format!("{status:?}, planned {length} stores"));
    }
    if length == 0 {
        return Ok(());
    }
    coverage.hit_if(allowance == 0, &format!("{name} allowed 0"));
    coverage.hit_if(allowance == length - 1, &format!("{name} allowed one store less"));
    coverage.hit_if(allowance == length, &format!("{name} at its exact length"));
    coverage.hit_if(allowance == length + 1, &format!("{name} allowed one store more"));
    for (_, ample) in AMPLE.iter().filter(|ample| ample.0 == allowance && length < allowance) {
        coverage.hit(&format!("{name} allowed {ample}"));
    }
    Ok(())
}

/// The number that a call asks for, with the highest that there is.
fn request(shape: Shape, call: &Call) -> Option<(u64, u64)> {
    let (number, numbers) = match *call {
        Call::Read { page, .. } | Call::Write { page, .. } => (page, shape.n * shape.s),
        Call::Commit { stripe, .. } => (stripe, shape.s),
        Call::Collect { chip, .. } => (chip, shape.n + 1),
        Call::Format { .. } | Call::Open { .. } | Call::Add { .. } | Call::Find { .. } => return None,
    };
    Some((number, numbers as u64 - 1))
}

/// The length of a read's buffer, a write's data or a ticket, and the right one.
fn bytes_len(shape: Shape, call: &Call) -> Option<(usize, usize)> {
    match call {
        Call::Read { buffer, .. } => Some((buffer.len(), shape.w)),
        Call::Write { data, .. } => Some((data.len(), shape.w)),
        Call::Add { ticket, .. } => Some((ticket.len(), TICKET_BYTES)),
        _ => None,
    }
}

/// Numbers at 0, at their limit and beyond, where the call came so far as to look at them.
fn note_numbers(coverage: &mut Coverage, shape: Shape, call: &Call, status: u64) {
    let name = call.name();
    let made = [DONE, CUT].contains(&status);
    if let Some((number, highest)) = request(shape, call) {
        note_request(coverage, name, number, highest, status);
    }
    if let Some(lost) = call.lost() {
        let (n, taken) = (shape.n as u64, made || status == 9);
        coverage.hit_if(taken && lost == 0, &format!("{name} naming chip 0 as lost"));
        coverage.hit_if(taken && lost == n, &format!("{name} naming chip N as lost"));
        let good = lost as u32 as u64;
        let wide = lost >> 32 == 1 && (good <= n || good == NO_CHIP);
        let refused = [
            (lost == n + 1, "N + 1"),
            (lost == 254, "254"),
            (lost == 256, "256"),
            (wide, "2^32 + good"),
            (lost == ALL, "2^64 - 1"),
        ];
        for (_, chip) in refused.iter().filter(|chip| status == 3 && chip.0) {
            coverage.hit(&format!("{name} naming chip {chip} as lost refused"));
        }
    }
    if let (8, Some((len, right))) = (status, bytes_len(shape, call)) {
        let told = match len {
            _ if matches!(call, Call::Add { .. }) => len.to_string(),
            0 => "0".to_string(),
            _ if len + 1 == right => "W - 1".to_string(),
            _ if len == right + 1 => "W + 1".to_string(),
            _ => return,
        };
        coverage.hit(&format!("{name} with {told} bytes refused"));
    }
}

fn note_request(coverage: &mut Coverage, name: &str, number: u64, highest: u64, status: u64) {
    let (_, what, last, behind) =
        REQUESTS.into_iter().find(|request| request.0 == name).expect("a call with a request");
    let made = [DONE, CUT].contains(&status);
    coverage.hit_if(made && number == 0, &format!("{name} of {what} 0"));
    coverage.hit_if(made && number == highest, &format!("{name} of {what} {last}"));
    let refused = [
        (number == highest + 1, behind),
        (number >> 16 == 1 && number % (1 << 16) <= highest, "2^16 + good"),
        (number >> 32 == 1 && number % (1 << 32) <= highest, "2^32 + good"),
        (number == ALL, "2^64 - 1"),
    ];
    for (_, told) in refused.iter().filter(|number| status == 7 && number.0) {
        coverage.hit(&format!("{name} of {what} {told} refused"));
    }
}

// ---------------------------------------------------------------------------------------------
// Refusals
// ---------------------------------------------------------------------------------------------

/// The refusals that would have come next, and the phase of a collection under way.
fn note_refusal(coverage: &mut Coverage, shape: Shape, images: &Images, call: &Call, number: u64) {
    let name = call.name();
    if number == 2 {
        for ((image, found), right) in IMAGES.iter().zip(lengths_of(images)).zip(shape.lengths()) {
            coverage.hit_if(found < right, &format!("{name} with {image} too short"));
            coverage.hit_if(found > right, &format!("{name} with {image} too long"));
            coverage.hit_if(found + 1 == right, "images one byte too short");
            coverage.hit_if(found == right + 1, "images one byte too long");
            coverage.hit_if(found == right + 65_536, "images 65,536 bytes too long");
        }
    }
    let later = later_by_call(shape, call).chain(later_by_images(shape, images, call, number));
    for later in later.filter(|&later| later > number) {
        coverage.hit(&format!("{name} refused {number} before {later}"));
    }
    if number == 6 {
        let phase = images.view(shape).collection().phase;
        coverage.hit(&format!("{name} refused 6 in phase {phase}"));
    }
}

fn is_update(call: &Call) -> bool {
    matches!(call, Call::Write { .. } | Call::Commit { .. } | Call::Collect { .. } | Call::Add { .. })
}

fn has_good_request(shape: Shape, call: &Call) -> bool {
    match request(shape, call) {
        Some((number, highest)) => number <= highest,
        None => true,
    }
}

/// The refusals that the arguments give reason for.
fn later_by_call(shape: Shape, call: &Call) -> impl Iterator<Item = u64> {
    let lost = call.lost().unwrap_or(NO_CHIP);
    let other_bytes = bytes_len(shape, call).is_some_and(|(len, right)| len != right);
    let bad_ticket = matches!(call, Call::Add { ticket, .. } if !other_bytes && !broken(ticket).is_empty());
    let applies = [
        (lost != NO_CHIP && lost > shape.n as u64, 3),
        (!has_good_request(shape, call), 7),
        (other_bytes, 8),
        (is_update(call) && lost <= shape.n as u64, 9),
        (bad_ticket, 11),
    ];
    applies.into_iter().filter(|row| row.0).map(|row| row.1)
}

/// The refusals that images of the right lengths give reason for, as far as they are told here.
fn later_by_images(shape: Shape, images: &Images, call: &Call, number: u64) -> impl Iterator<Item = u64> {
    let mut later = Vec::new();
    let mut sound = number >= 6;
    if number == 3 {
        let status = open(Geometry::from(shape), &mut images.clone(), NO_CHIP, 0).status;
        sound = [DONE, CUT].contains(&status);
        later.push(status);
    }
    if let (true, Call::Add { lost, .. } | Call::Find { lost, .. }) = (sound, call) {
        let lost = if number == 3 { NO_CHIP } else { *lost };
        later.extend(later_by_log(Walk::new(images.view(shape), lost), call));
    }
    if (3..6).contains(&number) && is_update(call) && images.view(shape).collection().phase != 0 {
        later.push(6);
    }
    if [6, 9].contains(&number) && has_good_request(shape, call) && no_work(images.view(shape), call) {
        later.push(10);
    }
    later.into_iter().filter(|later| (4..=12).contains(later))
}

/// The refusals that a log gives reason for, to an addition or to a question.
fn later_by_log(walk: Walk, call: &Call) -> impl Iterator<Item = u64> {
    let bad = walk.log.first_bad().is_some();
    let full = walk.log.is_full() && matches!(call, Call::Add { .. });
    [(bad, 11), (full, 12)].into_iter().filter(|row| row.0).map(|row| row.1)
}

/// "no slot; no full block with an unnamed page".
fn no_work(view: View, call: &Call) -> bool {
    match *call {
        Call::Commit { stripe, .. } => view.record(stripe as usize).slot == NO_SLOT,
        Call::Collect { chip, .. } => view.victim(chip as usize).is_none(),
        _ => false,
    }
}

impl From<Shape> for Geometry {
    fn from(shape: Shape) -> Geometry {
        let Shape { n, w, k, b, s, m } = shape;
        let [n, w, k, b, s, m] = [n, w, k, b, s, m].map(|number| number as u64);
        Geometry { n, w, k, b, s, m }
    }
}

// ---------------------------------------------------------------------------------------------
// Lists
// ---------------------------------------------------------------------------------------------

fn note_data(coverage: &mut Coverage, shape: Shape, page: u64, data: &[u8]) {
    coverage.hit_if(page >= 65_536, "write of logical page 65,536 or above");
    coverage.hit_if(data == vec![0; shape.w], "write of zeros");
    coverage.hit_if(data == vec![255; shape.w], "write of 255s");
}

fn note_format(coverage: &mut Coverage, shape: Shape, status: Status) -> u64 {
    let erases = ((shape.n + 1) * shape.b) as u64;
    let records = erases + shape.s as u64;
    let (cut, stores) = (status.status == CUT, status.stores);
    coverage.hit_if(cut && stores < erases, "format cut in the erases");
    coverage.hit_if(cut && (erases..records).contains(&stores), "format cut in the records");
    coverage.hit_if(cut && stores == records, "format cut before phase 0");
    coverage.hit_if(!cut && stores > 65_536, "format of more than 65,536 stores done");
    coverage.hit_if(cut && stores >= 65_535, "format of more than 65,535 stores cut");
    records + 1
}

fn note_open(coverage: &mut Coverage, view: View, lost: u64, allowance: u64, status: Status) -> u64 {
    let collection = view.collection();
    if lost != NO_CHIP {
        coverage.hit(&format!("open with a chip lost in phase {}", collection.phase));
        let on_it = collection.phase != 0 && collection.chip as u64 == lost;
        coverage.hit_if(on_it, "open with the collection's chip lost");
        return 0;
    }
    let (cut, stores) = (status.status == CUT, status.stores);
    let phase = format!("open in phase {}", collection.phase);
    coverage.hit(&phase);
    coverage.hit_if(!cut && allowance == 0, "open at allowance 0 done");
    let moves = match collection.phase {
        0 => return 0,
        1 => 0,
        _ => note_moves(coverage, view, status),
    };
    coverage.hit_if(cut && stores < moves, "open in phase 2 cut in the records");
    coverage.hit_if(cut && stores == moves, &format!("{phase} cut before the erase"));
    coverage.hit_if(cut && stores == moves + 1, &format!("{phase} cut before phase 0"));
    moves + 2
}

/// The record stores of phase 2.
fn note_moves(coverage: &mut Coverage, view: View, status: Status) -> u64 {
    let chip = view.collection().chip as usize;
    let twins = view.twins(&view.named_on(chip));
    let copies: Vec<Spare> = twins.iter().map(|&twin| view.spare(chip, twin)).collect();
    let (made, due) = copies.split_at(copies.len().min(status.stores as usize));
    let out_of_order = made.iter().any(|earlier| due.iter().any(|later| later.copied < earlier.copied));
    coverage.hit_if(twins.is_empty(), "open in phase 2 without record stores");
    coverage.hit_if(twins.len() >= 2, "open in phase 2 with two or more record stores");
    coverage.hit_if(out_of_order, "open in phase 2 cut in the records, copies out of order");
    coverage.hit_if(made.iter().any(|copy| copy.kind == PARITY), "open in phase 2 of a parity page");
    coverage.hit_if(made.iter().any(|copy| copy.stripe >= 32_768), "open at stripe 32,768 or above");
    let both = made.iter().any(|copy| made.iter().filter(|other| other.stripe == copy.stripe).count() == 2);
    coverage.hit_if(both, "open in phase 2 of current and old page of one stripe");
    twins.len() as u64
}

// ---------------------------------------------------------------------------------------------
// Reads
// ---------------------------------------------------------------------------------------------

fn note_read(coverage: &mut Coverage, view: View, lost: u64, page: u64, bytes: &[u8]) {
    let shape = view.shape;
    let collection = view.collection();
    let (stripe, member) = (page as usize / shape.n, page as usize % shape.n);
    let chip = shape.member_chip(stripe, member);
    let current = view.record(stripe).current[member];
    coverage.hit(&format!("read in phase {}", collection.phase));
    if collection.phase != 0 && lost != NO_CHIP {
        let which = if collection.chip as u64 == lost {
            "'s chip lost"
        } else {
            " on another chip than the lost one"
        };
        coverage.hit(&format!("read with the collection{which}"));
    }
    if current == NONE {
        coverage.hit("read zeros");
        return coverage.hit_if(chip as u64 == lost, "read zeros on the lost chip");
    }
    coverage.hit_if(page >= 65_536, "read of logical page 65,536 or above");
    coverage.hit_if(stripe >= 32_768, "read at stripe 32,768 or above");
    if chip as u64 != lost {
        coverage.hit("read direct");
        coverage.hit_if(current >= 32_768, "read of page 32,768 or above");
        coverage.hit_if(current == 65_534, "read of page 65,534");
        coverage.hit_if(bytes.iter().all(|&byte| byte == 0), "read direct of zeros that were written");
        return coverage.hit_if(lost != NO_CHIP, "read direct with another chip lost");
    }
    coverage.hit(&format!("rebuilt from chip {chip}, N = {}", shape.n));
    coverage.hit_if(shape.w == 4_096, "read rebuilt with W = 4,096");
    let other = bytes != view.data(chip, current as usize);
    coverage.hit_if(other, "read rebuilt, another page than stands on the lost chip");
    note_rebuilt(coverage, shape, &view.record(stripe), member);
}

fn note_rebuilt(coverage: &mut Coverage, shape: Shape, record: &Record, member: usize) {
    let (n, p) = (shape.n, record.set_bits());
    if record.bit(member) {
        coverage.hit(&format!("rebuilt through partial, N = {n}, p = {p}"));
        coverage.hit_if(record.slot as usize == shape.m, "read rebuilt through slot M");
        coverage.hit_if(record.slot == 254, "read rebuilt through slot 254");
        let others = if p == 1 { "alone" } else { "and pages" };
        return coverage.hit(&format!("read rebuilt through partial {others}"));
    }
    let others: Vec<usize> = (0..n).filter(|&m| m != member).collect();
    let any = |f: &dyn Fn(usize) -> bool| others.iter().any(|&m| f(m));
    coverage.hit(&format!("rebuilt through parity, N = {n}, p = {p}"));
    coverage.hit("read rebuilt through parity");
    coverage.hit_if(any(&|m| record.old[m] != NONE), "read rebuilt through parity with an old page");
    let fresh = any(&|m| record.bit(m) && record.old[m] == NONE);
    coverage.hit_if(fresh, "read rebuilt through parity with a set member without old page");
    let none = any(&|m| !record.bit(m) && record.current[m] == NONE);
    coverage.hit_if(none, "read rebuilt through parity beside a page of none");
    let alone = !any(&|m| record.old[m] != NONE || (!record.bit(m) && record.current[m] != NONE));
    coverage.hit_if(alone, "read rebuilt through parity alone");
}
