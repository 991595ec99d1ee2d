//! The images that a call finds, made from those built and taken back again.

use crate::patch::Patch;
use crate::reference::*;
use crate::trio::{Call, Trio};

#[derive(Clone, Copy, PartialEq, Eq)]
pub enum Setup {
    /// As built: no chip has a place.
    Full,
    /// After a collection of each chip: each has a place.
    Room,
    /// A collection was cut after its copies.
    Phase1,
    /// A collection was cut before its first move.
    Phase2,
    /// A collection was cut when it had made half of its moves.
    Phase2Half,
    /// The first record has a byte at its end that is not 0.
    FirstRecord,
    /// The last record of a stripe has.
    LastRecord,
    /// The last named page of the last chip is stamped with another member.
    LastSpare,
}

/// The calls or changes that lead from the images as built to others, to be made and taken back.
pub struct Steps(Vec<(Patch, Patch)>);

impl Steps {
    pub fn make(&self, trio: &mut Trio) {
        self.0.iter().for_each(|(ahead, _)| trio.put(ahead));
    }

    pub fn take_back(&self, trio: &mut Trio) {
        self.0.iter().rev().for_each(|(_, back)| trio.put(back));
    }
}

impl Setup {
    /// The images are left as they were.
    pub fn steps(self, trio: &mut Trio) -> Steps {
        let shape = trio.shape;
        Steps(match self {
            Setup::Full => Vec::new(),
            Setup::Room => room(trio),
            // phase 1, and the copies
            Setup::Phase1 => cut(trio, |copies| 1 + copies),
            // phase 1, the copies, and phase 2
            Setup::Phase2 => cut(trio, |copies| 1 + copies + 1),
            Setup::Phase2Half => cut(trio, |copies| 1 + copies + 1 + copies / 2),
            Setup::FirstRecord => vec![trio.change(|images| images.records[RECORD_BYTES - 1] = 1)],
            Setup::LastRecord => vec![trio.change(|images| images.records[shape.s * RECORD_BYTES - 1] = 1)],
            Setup::LastSpare => vec![trio.change(|images| {
                let named = images.view(shape).named_on(shape.n);
                let page = named.iter().rposition(|&named| named).expect("named pages on each chip");
                images.chips[shape.spare_at(shape.n, page) + 1] ^= 1;
            })],
        })
    }
}

fn collect(trio: &mut Trio, chip: u64, allowance: u64) -> (Status, (Patch, Patch)) {
    let (answer, back) = trio.by_all(Call::Collect { chip }, allowance);
    (answer.status, (back.now(trio.images()), back))
}

fn room(trio: &mut Trio) -> Vec<(Patch, Patch)> {
    let steps = Steps((0..=trio.geometry.n).map(|chip| collect(trio, chip, u64::MAX).1).collect());
    steps.take_back(trio);
    steps.0
}

/// A collection of chip 0 with an allowance that goes by the number of its copies.
fn cut(trio: &mut Trio, allowance: fn(u64) -> u64) -> Vec<(Patch, Patch)> {
    let (counts, whole) = collect(trio, 0, u64::MAX);
    trio.put(&whole.1);
    let (_, part) = collect(trio, 0, allowance(counts.programs));
    trio.put(&part.1);
    vec![part]
}
