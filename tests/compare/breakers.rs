//! Damaged images: one condition of "Sound images" broken.

use crate::damage::pick_page;
use crate::generator::{store_collection, store_record, store_spare};
use crate::random::Random;
use crate::reference::*;

/// Breaks one condition of sound images; false if these images give no occasion.
pub type Breaker = fn(&mut Random, Shape, &mut Images) -> bool;

/// Each condition with the refusal that must follow when no chip is lost.
pub const BREAKERS: [(&str, u64, Breaker); 43] = [
    ("current beyond B x K", 4, |r, g, i| change(r, g, i, |_, c| c.current != NONE, beyond_current)),
    ("old beyond B x K", 4, |r, g, i| change(r, g, i, |_, c| c.old != NONE, beyond_old)),
    ("parity beyond B x K", 4, |r, g, i| change(r, g, i, |e, _| e.parity != NONE, beyond_parity)),
    ("current of member N", 4, |r, g, i| {
        g.n < MEMBERS && change(r, g, i, any, |r, g, e, _| e.current[r.between(g.n, 5)] = page(r, g))
    }),
    ("old of member N", 4, |r, g, i| {
        g.n < MEMBERS && change(r, g, i, any, |r, g, e, _| e.old[r.between(g.n, 5)] = page(r, g))
    }),
    ("bit of member N", 4, |r, g, i| {
        change(r, g, i, |e, _| e.bitmap != 0, |r, g, e, _| e.bitmap |= 1 << r.between(g.n, 7))
    }),
    ("bit of member N alone", 4, high_bit_alone),
    ("slot without bitmap", 4, |r, g, i| {
        change(r, g, i, |e, _| e.bitmap == 0, |r, g, e, _| e.slot = r.between(0, g.m) as u8)
    }),
    ("bitmap without slot", 4, |r, g, i| {
        change(r, g, i, |e, _| e.bitmap != 0, |_, _, e, _| e.slot = NO_SLOT)
    }),
    ("slot beyond M", 4, |r, g, i| {
        g.m < 254
            && change(r, g, i, |e, _| e.bitmap != 0, |r, g, e, _| e.slot = too_high(r, g.m + 1, 254) as u8)
    }),
    ("one slot twice", 4, |r, g, i| one_slot_twice(r, g, i, |r, g| r.between(0, g.m))),
    ("slot M twice", 4, |r, g, i| one_slot_twice(r, g, i, |_, g| g.m)),
    ("M + 1 slots", 4, one_slot_too_many),
    ("old with bit clear", 4, |r, g, i| {
        change(r, g, i, |e, c| !c.set && e.parity != NONE, |r, g, e, m| e.old[m] = page(r, g))
    }),
    ("0 for none", 4, |r, g, i| change(r, g, i, |e, _| e.bitmap == 0 && e.parity != NONE, zero_for_none)),
    ("bit without current", 4, |r, g, i| change(r, g, i, |_, c| c.set, |_, _, e, m| e.current[m] = NONE)),
    ("current equal to old", 4, |r, g, i| {
        change(r, g, i, |_, c| c.old != NONE, |_, _, e, m| e.old[m] = e.current[m])
    }),
    ("old without parity", 4, |r, g, i| change(r, g, i, |_, c| c.old != NONE, |_, _, e, _| e.parity = NONE)),
    ("clear current without parity", 4, |r, g, i| change(r, g, i, clear_alone, |_, _, e, _| e.parity = NONE)),
    ("last four bytes", 4, |r, g, i| {
        change(r, g, i, any, |r, _, e, _| e.rest[r.below(4)] = r.between(1, 255) as u8)
    }),
    ("phase beyond 2", 4, |r, g, i| collection(r, g, i, |r, _, c| c.phase = too_high(r, 3, 255) as u8)),
    ("phase 0 not all zero", 4, phase_zero_not_zero),
    ("collection chip beyond N", 4, |r, g, i| {
        collection(r, g, i, |r, g, c| c.chip = too_high(r, g.n + 1, 255) as u8)
    }),
    ("victim beyond B", 4, |r, g, i| {
        collection(r, g, i, |r, g, c| c.victim = too_high(r, g.b, 65_535) as u16)
    }),
    ("destination beyond B", 4, |r, g, i| {
        collection(r, g, i, |r, g, c| c.destination = too_high(r, g.b, 65_535) as u16)
    }),
    ("victim equal to destination", 4, |r, g, i| collection(r, g, i, |_, _, c| c.victim = c.destination)),
    ("collection not zero at the end", 4, collection_tail),
    ("kind of a named page", 5, |r, g, i| {
        named_spare(r, g, i, &[DATA, PARITY], |r, s| {
            s.kind = r.pick(&[DATA ^ PARITY ^ s.kind, CLEAN, 0, 254])
        })
    }),
    ("member of a named page", 5, |r, g, i| {
        named_spare(r, g, i, &[DATA], |r, s| s.member ^= r.between(1, 255) as u8)
    }),
    ("member of a named parity page", 5, |r, g, i| {
        named_spare(r, g, i, &[PARITY], |r, s| s.member = r.between(1, 255) as u8)
    }),
    ("stripe of a named page", 5, |r, g, i| {
        named_spare(r, g, i, &[DATA, PARITY], |r, s| s.stripe ^= r.between(1, 65_535) as u16)
    }),
    ("used after clean", 5, used_after_clean),
    ("used made clean", 5, used_made_clean),
    ("no clean block", 5, no_clean_block),
    ("destination named in phase 1", 5, destination_named),
    ("twin of another kind", 5, |r, g, i| {
        twin_spare(r, g, i, |r, s| s.kind = r.pick(&[DATA ^ PARITY ^ s.kind, 0, 254]))
    }),
    ("twin of another member", 5, |r, g, i| twin_spare(r, g, i, |r, s| s.member ^= r.between(1, 255) as u8)),
    ("twin of another stripe", 5, |r, g, i| {
        twin_spare(r, g, i, |r, s| s.stripe ^= r.between(1, 65_535) as u16)
    }),
    ("twin of another page", 5, |r, g, i| {
        twin_spare(r, g, i, |r, s| s.copied ^= r.between(1, 65_535) as u16)
    }),
    ("twin made clean", 5, |r, g, i| twin_spare(r, g, i, |_, s| s.kind = CLEAN)),
    ("two twins", 5, two_twins),
    ("twin named", 5, twin_named),
    ("twin in another block", 5, twin_in_another_block),
];

/// One member of a record, looked at.
struct Cell {
    current: u16,
    old: u16,
    set: bool,
}

fn any(_: &Record, _: &Cell) -> bool {
    true
}

/// A current page outside the bitmap in a record without olds.
fn clear_alone(record: &Record, cell: &Cell) -> bool {
    !cell.set && cell.current != NONE && record.old == [NONE; MEMBERS]
}

fn page(random: &mut Random, shape: Shape) -> u16 {
    random.below(shape.pages()) as u16
}

/// A number from the lowest that is too high, which it is often, to the highest that there is.
fn too_high(random: &mut Random, lowest: usize, highest: usize) -> usize {
    match random.below(4) {
        0 | 1 => lowest,
        2 => random.between(lowest, highest),
        _ => highest,
    }
}

/// A page number that is too high, where there is one.
fn beyond(random: &mut Random, shape: Shape, held: &mut u16) {
    if shape.pages() < NONE as usize {
        *held = too_high(random, shape.pages(), NONE as usize - 1) as u16;
    }
}

fn beyond_current(random: &mut Random, shape: Shape, record: &mut Record, member: usize) {
    beyond(random, shape, &mut record.current[member]);
}

fn beyond_old(random: &mut Random, shape: Shape, record: &mut Record, member: usize) {
    beyond(random, shape, &mut record.old[member]);
}

fn beyond_parity(random: &mut Random, shape: Shape, record: &mut Record, _: usize) {
    beyond(random, shape, &mut record.parity);
}

/// The first two old numbers, and all current ones that are none, become page 0.
fn zero_for_none(_: &mut Random, _: Shape, record: &mut Record, _: usize) {
    for number in record.current.iter_mut().chain(&mut record.old[..2]).filter(|number| **number == NONE) {
        *number = 0;
    }
}

/// Changes a random record, at a random member, among those that fit.
fn change(
    random: &mut Random,
    shape: Shape,
    images: &mut Images,
    fits: fn(&Record, &Cell) -> bool,
    change: fn(&mut Random, Shape, &mut Record, usize),
) -> bool {
    let view = images.view(shape);
    let mut fitting = Vec::new();
    for stripe in 0..shape.s {
        let record = view.record(stripe);
        for m in 0..shape.n {
            let cell = Cell { current: record.current[m], old: record.old[m], set: record.bit(m) };
            if fits(&record, &cell) {
                fitting.push((stripe, m));
            }
        }
    }
    if fitting.is_empty() {
        return false;
    }
    let (stripe, m) = random.pick(&fitting);
    let before = view.record(stripe);
    let mut record = before;
    change(random, shape, &mut record, m);
    store_record(images, stripe, record);
    record != before
}

fn slotted(view: View, wanted: bool) -> Vec<usize> {
    (0..view.shape.s).filter(|&stripe| (view.record(stripe).slot != NO_SLOT) == wanted).collect()
}

/// The slots that no record names.
fn free_slots(view: View) -> Vec<u8> {
    let taken: Vec<u8> = slotted(view, true).iter().map(|&stripe| view.record(stripe).slot).collect();
    (0..=view.shape.m as u8).filter(|slot| !taken.contains(slot)).collect()
}

/// A record without slot gets a slot of its own, and the bit of no member.
fn high_bit_alone(random: &mut Random, shape: Shape, images: &mut Images) -> bool {
    let view = images.view(shape);
    let (without, free) = (slotted(view, false), free_slots(view));
    if without.is_empty() || free.len() < 2 {
        return false;
    }
    let stripe = random.pick(&without);
    let (bitmap, slot) = (1 << random.pick(&[shape.n, shape.n, 6, 7]), random.pick(&free));
    let record = Record { bitmap, slot, ..view.record(stripe) };
    store_record(images, stripe, record);
    true
}

fn one_slot_twice(
    random: &mut Random,
    shape: Shape,
    images: &mut Images,
    slot: fn(&mut Random, Shape) -> usize,
) -> bool {
    let mut stripes = slotted(images.view(shape), true);
    if stripes.len() < 2 {
        return false;
    }
    random.shuffle(&mut stripes);
    let slot = slot(random, shape) as u8;
    for &stripe in &stripes[..2] {
        let record = images.view(shape).record(stripe);
        store_record(images, stripe, Record { slot, ..record });
    }
    true
}

/// All M + 1 slots named, by M + 1 records that are sound each.
fn one_slot_too_many(_: &mut Random, shape: Shape, images: &mut Images) -> bool {
    let view = images.view(shape);
    let with_current = slotted(view, false).into_iter().find_map(|stripe| {
        let current = view.record(stripe).current;
        (0..shape.n).find(|&m| current[m] != NONE).map(|m| (stripe, m))
    });
    match (&free_slots(view)[..], with_current) {
        (&[slot], Some((stripe, m))) => {
            let record = view.record(stripe);
            store_record(images, stripe, Record { slot, bitmap: 1 << m, ..record });
            true
        }
        _ => false,
    }
}

/// Changes the collection record, of phase 1 or 2.
fn collection(
    random: &mut Random,
    shape: Shape,
    images: &mut Images,
    change: fn(&mut Random, Shape, &mut Collection),
) -> bool {
    let mut collection = images.view(shape).collection();
    if collection.phase == 0 {
        return false;
    }
    change(random, shape, &mut collection);
    store_collection(images, shape, collection);
    true
}

fn phase_zero_not_zero(random: &mut Random, shape: Shape, images: &mut Images) -> bool {
    let phase = images.view(shape).collection().phase;
    images.records[shape.s * RECORD_BYTES + random.between(1, 31)] = random.between(1, 255) as u8;
    phase == 0
}

fn collection_tail(random: &mut Random, shape: Shape, images: &mut Images) -> bool {
    let phase = images.view(shape).collection().phase;
    images.records[shape.s * RECORD_BYTES + random.between(6, 31)] = random.between(1, 255) as u8;
    phase != 0
}

/// Changes the spare of a random named page, if it is of one of the kinds.
fn named_spare(
    random: &mut Random,
    shape: Shape,
    images: &mut Images,
    kinds: &[u8],
    change: fn(&mut Random, &mut Spare),
) -> bool {
    let Some((chip, page)) = pick_page(random, images.view(shape), "named") else {
        return false;
    };
    let mut spare = images.view(shape).spare(chip, page);
    if !kinds.contains(&spare.kind) {
        return false;
    }
    change(random, &mut spare);
    store_spare(images, shape, chip, page, spare);
    true
}

fn kind_of(images: &mut Images, shape: Shape, chip: usize, page: usize) -> &mut u8 {
    &mut images.chips[shape.spare_at(chip, page)]
}

fn used_after_clean(random: &mut Random, shape: Shape, images: &mut Images) -> bool {
    let Some((chip, page)) = pick_page(random, images.view(shape), "clean") else {
        return false;
    };
    if page % shape.k == 0 || !images.view(shape).is_clean(chip, page - 1) {
        return false;
    }
    *kind_of(images, shape, chip, page) = random.pick(&[DATA, PARITY, 0, 254]);
    true
}

fn used_made_clean(random: &mut Random, shape: Shape, images: &mut Images) -> bool {
    let Some((chip, page)) = pick_page(random, images.view(shape), "unnamed") else {
        return false;
    };
    if (page + 1) % shape.k == 0 || images.view(shape).is_clean(chip, page + 1) {
        return false;
    }
    *kind_of(images, shape, chip, page) = CLEAN;
    true
}

/// Begins every clean block of a chip that is not being collected.
fn no_clean_block(random: &mut Random, shape: Shape, images: &mut Images) -> bool {
    let chip = random.below(shape.n + 1);
    let collection = images.view(shape).collection();
    for block in 0..shape.b {
        if images.view(shape).is_clean(chip, block * shape.k) {
            *kind_of(images, shape, chip, block * shape.k) = random.pick(&[DATA, PARITY, 0, 254]);
        }
    }
    collection.phase == 0 || collection.chip as usize != chip
}

/// Moves a page's name, and its spare, to a page of the destination, where used pages may stand.
fn destination_named(random: &mut Random, shape: Shape, images: &mut Images) -> bool {
    let view = images.view(shape);
    let Collection { phase, chip, destination, .. } = view.collection();
    if phase != 1 {
        return false;
    }
    let (chip, destination) = (chip as usize, destination as usize);
    let clean = view.clean_place(chip, destination).unwrap_or(shape.k - 1);
    let place = if random.one_in(2) { clean } else { random.below(clean + 1) };
    let target = destination * shape.k + place;
    let mut names = Vec::new();
    for stripe in 0..shape.s {
        let on_chip = view.names(stripe, &view.record(stripe)).filter(|name| name.chip == chip);
        names.extend(on_chip.map(|name| (stripe, name.page)));
    }
    if names.is_empty() {
        return false;
    }
    let (stripe, page) = random.pick(&names);
    let (mut record, spare) = (view.record(stripe), view.spare(chip, page));
    let held = match spare.kind {
        PARITY => &mut record.parity,
        _ if record.current[spare.member as usize] as usize == page => {
            &mut record.current[spare.member as usize]
        }
        _ => &mut record.old[spare.member as usize],
    };
    *held = target as u16;
    store_record(images, stripe, record);
    store_spare(images, shape, chip, target, spare);
    true
}

/// The chip and the twins of a collection in phase 2.
fn twins(view: View) -> (usize, Vec<usize>) {
    let Collection { phase, chip, .. } = view.collection();
    let chip = chip as usize;
    let twins = if phase == 2 { view.twins(&view.named_on(chip)) } else { Vec::new() };
    (chip, twins)
}

/// Changes the spare of a random twin.
fn twin_spare(
    random: &mut Random,
    shape: Shape,
    images: &mut Images,
    change: fn(&mut Random, &mut Spare),
) -> bool {
    let (chip, twins) = twins(images.view(shape));
    if twins.is_empty() {
        return false;
    }
    let twin = random.pick(&twins);
    let original = images.view(shape).spare(chip, twin);
    let mut spare = original;
    change(random, &mut spare);
    store_spare(images, shape, chip, twin, spare);
    // Where a stripe has both its pages in the victim, the changed twin may be the other's second
    // one; one of the two is then without a twin.
    spare != original
}

/// Makes an unnamed page of the destination another copy of a page that has one.
fn two_twins(random: &mut Random, shape: Shape, images: &mut Images) -> bool {
    let view = images.view(shape);
    let (chip, twins) = twins(view);
    let named = view.named_on(chip);
    let destination = shape.block_pages(view.collection().destination as usize);
    let spare_pages: Vec<usize> = destination
        .filter(|&page| !named[page] && !view.is_clean(chip, page) && !twins.contains(&page))
        .collect();
    if twins.is_empty() || spare_pages.is_empty() {
        return false;
    }
    let spare = view.spare(chip, random.pick(&twins));
    store_spare(images, shape, chip, random.pick(&spare_pages), spare);
    true
}

/// Names the twin of an old page as the member's current one. A current page in the destination
/// could become a twin in its turn.
fn twin_named(random: &mut Random, shape: Shape, images: &mut Images) -> bool {
    let view = images.view(shape);
    let (chip, twins) = twins(view);
    let destination = shape.block_pages(view.collection().destination as usize);
    let of_old: Vec<usize> = twins
        .into_iter()
        .filter(|&twin| {
            let spare = view.spare(chip, twin);
            let (record, member) = (view.record(spare.stripe as usize), spare.member as usize);
            spare.kind == DATA
                && record.old[member] == spare.copied
                && !destination.contains(&(record.current[member] as usize))
        })
        .collect();
    if of_old.is_empty() {
        return false;
    }
    let twin = random.pick(&of_old);
    let spare = view.spare(chip, twin);
    let mut record = view.record(spare.stripe as usize);
    record.current[spare.member as usize] = twin as u16;
    store_record(images, spare.stripe as usize, record);
    true
}

/// Names another destination block, where the copies are not.
fn twin_in_another_block(random: &mut Random, shape: Shape, images: &mut Images) -> bool {
    let (_, twins) = twins(images.view(shape));
    let mut collection = images.view(shape).collection();
    let others: Vec<usize> = (0..shape.b)
        .filter(|&block| block != collection.victim as usize && block != collection.destination as usize)
        .collect();
    if twins.is_empty() || others.is_empty() {
        return false;
    }
    collection.destination = random.pick(&others) as u16;
    store_collection(images, shape, collection);
    // By chance the copies of junk spares might fit there.
    self::twins(images.view(shape)).1.is_empty()
}
