//! Cases on images: sound ones with calls that store, one byte changed, one condition broken, a chip lost.

use crate::breakers::{Breaker, BREAKERS};
use crate::calls::{Call, Comparison};
use crate::damage::{change_byte, Change};
use crate::generator::{self, ALL, LARGE};
use crate::geometries::{good_geometry, largest_geometry};
use crate::logs::lay_log;
use crate::random::Random;
use crate::reference::{self, Geometry, Images, Shape, Status, CUT, DONE, NO_CHIP, RECORD_BYTES};
use crate::requests::{any_call, any_data, any_storing, highest_page, limited, other_length};
use crate::strange::strange_things;
use crate::tickets::{any_ticket, lot_and_bag};

/// From so many on it makes one of each kind.
const LARGEST: usize = 60_000;

pub fn image_case(to: &mut Comparison, random: &mut Random) {
    let g = good_geometry(random);
    let shape = g.shape().expect("within the limits");
    let (mut images, sound) = images_for(to, random, g, shape);
    match random.below(10) {
        _ if !sound => {
            let status = to.call(random, g, &mut images, &Call::Open { lost: NO_CHIP, allowance: 0 });
            to.coverage.hit_if(status.status == DONE, "images garbage but sound");
        }
        0 | 1 => break_one(to, random, g, shape, &mut images),
        2..=4 => change_some(to, random, g, shape, &mut images),
        5.. if shape.pages() > LARGEST => store_largest(to, random, g, shape, &mut images),
        5 | 6 => open_sound(to, random, g, shape, &mut images),
        _ => store_sound(to, random, g, shape, &mut images),
    }
    let lost = lose_chip(to, random, shape, &mut images);
    random_calls(to, random, g, shape, &mut images, lost);
}

/// As many pages to a chip as can be numbered.
pub fn largest_case(to: &mut Comparison, random: &mut Random) {
    let g = largest_geometry(random);
    let shape = g.shape().expect("within the limits");
    to.about = "largest images".to_string();
    let mut images = generator::sound(random, shape, 2);
    store_largest(to, random, g, shape, &mut images);
}

// ---------------------------------------------------------------------------------------------
// Images
// ---------------------------------------------------------------------------------------------

/// Images and whether they are sound with no chip lost.
fn images_for(to: &mut Comparison, random: &mut Random, g: Geometry, shape: Shape) -> (Images, bool) {
    let (images, sound) = match random.below(20) {
        // A few calls leave a large chip nearly empty.
        0..=8 if shape.pages() < LARGE || random.one_in(5) => {
            let images = generator::by_calls(random, g, shape);
            let phase = images.view(shape).collection().phase;
            to.about = format!("images by calls in phase {phase}");
            if let Some(thing) = strange_things(images.view(shape)).first() {
                to.fail(g, &format!("harness: calls have left what they never leave: {thing}"));
            }
            (images, true)
        }
        0..=18 => {
            let phase = random.pick(&[0, 0, 1, 2, 2]);
            to.about = format!("images built in phase {phase}");
            to.built = true;
            let mut images = generator::sound(random, shape, phase);
            if random.one_in(3) {
                lay_log(random, shape, &mut images);
            }
            (images, true)
        }
        _ => {
            to.about = "images garbage".to_string();
            (garbage(random, g, shape), false)
        }
    };
    to.coverage.hit(&to.about);
    (images, sound)
}

fn garbage(random: &mut Random, g: Geometry, shape: Shape) -> Images {
    let [chips, records, slots] = shape.lengths();
    let mut images = generator::formatted(random, g, shape);
    match random.below(7) {
        0 => random.fill(&mut images.chips),
        1 => random.fill(&mut images.records),
        2 => images.records.fill(255),
        3 => images.records.fill(0),
        4 => images.chips.fill(0),
        5 => {
            let built = generator::sound(random, shape, 0);
            let other = generator::sound(random, shape, 0);
            images = Images { records: other.records, ..built };
        }
        _ => {
            images = Images {
                chips: random.bytes(chips),
                records: random.bytes(records),
                slots: random.bytes(slots),
            }
        }
    }
    images
}

// ---------------------------------------------------------------------------------------------
// Damage
// ---------------------------------------------------------------------------------------------

/// Breaks one condition of sound images: with no chip lost the refusal must be its own.
fn break_one(to: &mut Comparison, random: &mut Random, g: Geometry, shape: Shape, images: &mut Images) {
    let (name, number, breaker) = breaker_for(random, shape);
    let mut tries = if shape.pages() > LARGE { 1 } else { 24 };
    to.built = false;
    while !breaker(random, shape, images) {
        let phase = random.pick(&[0, 1, 2, 2]);
        to.about = format!("images built in phase {phase}");
        *images = generator::sound(random, shape, phase);
        tries -= 1;
        if tries == 0 {
            return;
        }
    }
    to.about = format!("{}, {name}", to.about);
    all_refused(to, random, g, shape, images, number, &format!("broken: {name}"));
    to.coverage.hit_if(name == "slot M twice" && shape.m == 254, "broken: slot 254 twice");
    if number == 5 && random.one_in(2) {
        let record = random.below(shape.s) * RECORD_BYTES;
        images.records[record + random.between(28, 31)] = random.between(1, 255) as u8;
        all_refused(to, random, g, shape, images, 4, "refused 4 before 5");
    }
}

/// Any, but where there is a slot 254 that one often.
fn breaker_for(random: &mut Random, shape: Shape) -> (&'static str, u64, Breaker) {
    if shape.m == 254 && random.one_in(3) {
        return *BREAKERS.iter().find(|breaker| breaker.0 == "slot M twice").expect("one of them");
    }
    random.pick(&BREAKERS)
}

/// Every call but a format is refused with the number, and the point is hit; for each call if it is about refusals.
fn all_refused(
    to: &mut Comparison,
    random: &mut Random,
    g: Geometry,
    shape: Shape,
    images: &mut Images,
    number: u64,
    point: &str,
) {
    let bytes = [random.bytes(shape.w), random.bytes(shape.w), any_ticket(random)];
    let mut calls = Vec::from(Call::of_each_kind(NO_CHIP, 0, bytes, ALL));
    calls.retain(|call| !matches!(call, Call::Format { .. }));
    // On a large image one of them is enough.
    if shape.pages() > LARGE {
        calls = vec![calls.swap_remove(random.below(calls.len()))];
    }
    for call in &calls {
        let status = to.call(random, g, images, call);
        if status.status != number {
            to.fail(g, &format!("harness: {} is {status:?}, not refused {number}", call.name()));
        }
        to.coverage.hit_if(point.starts_with("refused"), &format!("{} {point}", call.name()));
    }
    to.coverage.hit_if(!point.starts_with("refused"), point);
}

/// Changes one byte of sound images, or two.
fn change_some(to: &mut Comparison, random: &mut Random, g: Geometry, shape: Shape, images: &mut Images) {
    to.built = false;
    for i in 0..random.between(1, 2) {
        let Some(change) = change_byte(random, shape, images) else {
            return;
        };
        let name = change.name();
        to.about = format!("{}, {name}", to.about);
        to.coverage.hit(&name);
        let status = to.call(random, g, &mut images.clone(), &Call::Open { lost: NO_CHIP, allowance: ALL });
        let refused = ![DONE, CUT].contains(&status.status);
        to.coverage.hit_if(refused && change.can_break(), &format!("{name}, refused"));
        if i == 0 {
            open_without_a_chip(to, random, g, shape, images, &change, refused);
        }
    }
}

/// "on every chip but the lost one": where sound images were changed on one chip only, they are sound without it, and
/// as unsound as before without any other.
fn open_without_a_chip(
    to: &mut Comparison,
    random: &mut Random,
    g: Geometry,
    shape: Shape,
    images: &mut Images,
    change: &Change,
    refused: bool,
) {
    let Some(chip) = change.chip else { return };
    let lost = random.below(shape.n + 1);
    let call = Call::Open { lost: lost as u64, allowance: ALL };
    let status = to.call(random, g, images, &call).status;
    let expected = if refused && lost != chip { 5 } else { DONE };
    if status != expected {
        to.fail(g, &format!("harness: changed on chip {chip}, chip {lost} lost: {status}, not {expected}"));
    }
    to.coverage.hit_if(refused && lost == chip, "damage on the lost chip alone, done");
    to.coverage.hit_if(refused && lost != chip, "damage on another chip than the lost one, refused");
}

/// The lost chip of a case: none, or one whose stretch becomes other bytes.
pub fn lose_chip(to: &mut Comparison, random: &mut Random, shape: Shape, images: &mut Images) -> u64 {
    if random.one_in(3) {
        return NO_CHIP;
    }
    let chip = random.below(shape.n + 1);
    let filling = random.pick(&FILLINGS);
    fill_chip(random, shape, images, chip, filling);
    to.coverage.hit(&format!("lost chip {filling}"));
    to.built &= filling == "with its own bytes";
    if random.one_in(4) {
        generator::rename_on(random, shape, images, chip);
        to.coverage.hit("lost chip's pages renamed");
        to.built = false;
    }
    to.about = format!("{}, chip {chip} lost", to.about);
    chip as u64
}

/// What the stretch of a lost chip becomes.
pub const FILLINGS: [&str; 4] =
    ["filled with random bytes", "filled with 0", "filled with 255", "with its own bytes"];

pub fn fill_chip(random: &mut Random, shape: Shape, images: &mut Images, chip: usize, filling: &str) {
    let stretch = &mut images.chips[chip * shape.chip_len()..(chip + 1) * shape.chip_len()];
    match filling {
        "filled with random bytes" => random.fill(stretch),
        "filled with 0" => stretch.fill(0),
        "filled with 255" => stretch.fill(255),
        _ => {}
    }
}

// ---------------------------------------------------------------------------------------------
// Calls on images
// ---------------------------------------------------------------------------------------------

pub fn random_calls(
    to: &mut Comparison,
    random: &mut Random,
    g: Geometry,
    shape: Shape,
    images: &mut Images,
    lost: u64,
) {
    for _ in 0..random.between(1, 5) {
        let call = any_call(random, g, shape, images, lost);
        match random.below(40) {
            0..=3 => {
                let mut others = images.clone();
                other_length(random, shape, &mut others);
                to.call(random, g, &mut others, &call);
            }
            4 => exchange(to, random, g, images, &call),
            _ => {
                to.call(random, g, images, &call);
            }
        }
    }
}

/// The same images as of another geometry, with as many pages to a chip.
fn exchange(to: &mut Comparison, random: &mut Random, g: Geometry, images: &Images, call: &Call) {
    let other = Geometry { k: g.b, b: g.k, ..g };
    if g.k == g.b || other.shape().is_none() {
        return;
    }
    let built = std::mem::replace(&mut to.built, false);
    let status = to.call(random, other, &mut images.clone(), call);
    to.built = built;
    let refused = [4, 5].contains(&status.status);
    to.coverage.hit_if(refused, "images with K and B exchanged, refused");
    let made = [DONE, CUT].contains(&status.status) && call.lost().is_some();
    to.coverage.hit_if(made, "images with K and B exchanged, not refused");
}

/// Sound images are read, asked and opened, with any allowance or every one, and in half of the cases stay as that
/// leaves them.
fn open_sound(to: &mut Comparison, random: &mut Random, g: Geometry, shape: Shape, images: &mut Images) {
    let mut opened = images.clone();
    for _ in 0..2 {
        let (lost, page) = (random.below(shape.n + 1) as u64, random.below(shape.n * shape.s) as u64);
        let buffer = random.bytes(shape.w);
        to.call(random, g, images, &Call::Read { lost, page, buffer });
    }
    let chip = random.below(shape.n + 1) as u64;
    let lost = random.pick(&[NO_CHIP, chip]);
    let (lot, bag) = lot_and_bag(random);
    to.call(random, g, images, &Call::Find { lost, lot, bag });
    let call = Call::Open { lost: NO_CHIP, allowance: ALL };
    let every = shape.pages() < LARGE && random.one_in(3);
    let status = store_limited(to, random, g, &mut opened, call, every);
    if ![DONE, CUT].contains(&status.status) {
        to.fail(g, &format!("harness: sound images are {status:?}"));
    }
    if random.one_in(2) {
        *images = opened;
    }
}

/// Writes, commits and collections on sound images, with any allowance and at times with every one.
fn store_sound(to: &mut Comparison, random: &mut Random, g: Geometry, shape: Shape, images: &mut Images) {
    if random.one_in(2) {
        reference::open(g, images, NO_CHIP, ALL);
    }
    let collections = (0..=g.n).map(|chip| Call::Collect { lost: NO_CHIP, chip, allowance: ALL });
    if shape.k > 60 {
        let longest = collections.max_by_key(|call| call.length(g, images)).expect("there are chips");
        to.every_allowance(random, g, images, &longest, |_, _, _, _| {});
    } else if random.one_in(2) {
        for call in collections {
            to.call(random, g, &mut images.clone(), &call);
        }
    }
    for _ in 0..random.between(1, 4) {
        let call = any_storing(random, images, shape, NO_CHIP);
        let every = shape.pages() < LARGE && random.one_in(6);
        store_limited(to, random, g, images, call, every);
    }
}

/// A call with any allowance, and with every one first if so asked.
pub fn store_limited(
    to: &mut Comparison,
    random: &mut Random,
    g: Geometry,
    images: &mut Images,
    call: Call,
    every: bool,
) -> Status {
    if every {
        to.every_allowance(random, g, images, &call, |_, _, _, _| {});
    }
    let call = limited(random, g, images, call);
    to.call(random, g, images, &call)
}

/// The largest images, on which each call takes long: a few calls of each kind.
fn store_largest(to: &mut Comparison, random: &mut Random, g: Geometry, shape: Shape, images: &mut Images) {
    let (lost, allowance) = (NO_CHIP, random.pick(&[65_535, ALL]));
    to.call(random, g, images, &Call::Open { lost, allowance });
    let mut page = highest_page(images.view(shape));
    let own = shape.member_chip(page as usize / shape.n, page as usize % shape.n) as u64;
    for lost in [NO_CHIP, own] {
        let buffer = random.bytes(shape.w);
        to.call(random, g, images, &Call::Read { lost, page, buffer });
    }
    for _ in 0..3 {
        page = random.below(shape.n * shape.s) as u64;
        let data = any_data(random, shape);
        to.call(random, g, images, &Call::Write { lost, page, data, allowance });
    }
    to.call(random, g, images, &Call::Commit { lost, stripe: page / g.n, allowance });
    let with_work = (0..shape.n).find(|&chip| images.view(shape).victim(chip).is_some());
    let chip = with_work.unwrap_or(shape.n) as u64;
    to.call(random, g, images, &Call::Collect { lost, chip, allowance });
}
