//! Damaged images: one byte of a sound image changed.

use crate::random::Random;
use crate::reference::*;

/// The fields of a record, of the collection record and of a page's spare, each with its first byte and the one
/// behind its last.
type Fields = [(&'static str, usize, usize)];

const RECORD_FIELDS: [(&str, usize, usize); 6] = [
    ("current", 0, 12),
    ("old", 12, 24),
    ("parity", 24, 26),
    ("bitmap", 26, 27),
    ("slot", 27, 28),
    ("rest", 28, 32),
];

const COLLECTION_FIELDS: [(&str, usize, usize); 5] =
    [("phase", 0, 1), ("chip", 1, 2), ("victim", 2, 4), ("destination", 4, 6), ("rest", 6, 32)];

const SPARE_FIELDS: [(&str, usize, usize); 5] =
    [("kind", 0, 1), ("member", 1, 2), ("stripe", 2, 4), ("copied", 4, 6), ("last", 6, 8)];

const SPARES: [&str; 5] =
    ["named spare", "unnamed spare", "clean spare", "victim spare", "destination spare"];

/// All that `change_byte` can change: title of the table, what is damaged, and its fields.
pub const FIELDS: [(&str, &[&str], &Fields); 3] = [
    ("byte of a record: changed, refused", &["record"], &RECORD_FIELDS),
    ("byte of the collection record", &["collection"], &COLLECTION_FIELDS),
    ("byte of a spare", &SPARES, &SPARE_FIELDS),
];

/// One byte that was changed.
pub struct Change {
    whole: &'static str,
    field: &'static str,
    /// The chip, if it was changed in a spare.
    pub chip: Option<usize>,
}

impl Change {
    pub fn name(&self) -> String {
        change_name(self.whole, self.field)
    }

    pub fn can_break(&self) -> bool {
        can_break(self.whole, self.field)
    }
}

pub fn change_name(whole: &str, field: &str) -> String {
    format!("byte of {whole} {field}")
}

/// Whether a byte changed there can make sound images unsound.
pub fn can_break(whole: &str, field: &str) -> bool {
    match (whole, field) {
        ("destination spare", "copied") => true,
        (_, "copied" | "last") => false,
        ("unnamed spare" | "clean spare", field) => field == "kind",
        _ => true,
    }
}

/// Changes one byte of a random field; none if the images have no such page.
pub fn change_byte(random: &mut Random, shape: Shape, images: &mut Images) -> Option<Change> {
    let (_, wholes, fields) = FIELDS[random.pick(&[0, 0, 1, 1, 2, 2, 2, 2])];
    let whole = random.pick(wholes);
    let (field, from, to) = random.pick(fields);
    let mut chip = None;
    let held = match whole {
        "record" => &mut images.records[random.below(shape.s) * RECORD_BYTES..],
        "collection" => &mut images.records[shape.s * RECORD_BYTES..],
        spare => {
            let class = spare.strip_suffix(" spare").expect("a page's spare");
            let (on, page) = pick_page(random, images.view(shape), class)?;
            chip = Some(on);
            &mut images.chips[shape.spare_at(on, page)..]
        }
    };
    let byte = &mut held[random.between(from, to - 1)];
    *byte = other_byte(random, shape, *byte);
    Some(Change { whole, field, chip })
}

fn other_byte(random: &mut Random, shape: Shape, byte: u8) -> u8 {
    let near = [byte.wrapping_add(1), byte.wrapping_sub(1), byte ^ 1 << random.below(8)];
    let edges =
        [0, 1, 2, 3, shape.n as u8, shape.n as u8 + 1, shape.m as u8, shape.b as u8, DATA, PARITY, 254, 255];
    let chosen = match random.below(3) {
        0 => random.pick(&near),
        1 => random.pick(&edges),
        _ => random.byte(),
    };
    if chosen == byte {
        !byte
    } else {
        chosen
    }
}

/// A random page of the class, on any chip, or on the collection's for its blocks. The images may
/// be damaged already, so numbers are held to the geometry here.
pub fn pick_page(random: &mut Random, view: View, class: &str) -> Option<(usize, usize)> {
    let shape = view.shape;
    let Collection { phase, chip, victim, destination } = view.collection();
    if class == "victim" || class == "destination" {
        let block = if class == "victim" { victim } else { destination } as usize;
        let held = (1..=2).contains(&phase) && chip as usize <= shape.n && block < shape.b;
        return held.then(|| (chip as usize, block * shape.k + random.below(shape.k)));
    }
    let chip = random.below(shape.n + 1);
    let mut named = vec![false; shape.pages()];
    for stripe in 0..shape.s {
        for name in view.names(stripe, &view.record(stripe)) {
            if name.chip == chip && name.page < shape.pages() {
                named[name.page] = true;
            }
        }
    }
    let fits = |&page: &usize| match class {
        "named" => named[page],
        "unnamed" => !named[page] && !view.is_clean(chip, page),
        _ => view.is_clean(chip, page),
    };
    let pages: Vec<usize> = (0..shape.pages()).filter(fits).collect();
    (!pages.is_empty()).then(|| (chip, random.pick(&pages)))
}
