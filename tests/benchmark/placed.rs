//! Copies that all begin at the same place in a cache line. Else the records of one would lie across two
//! lines more often than those of another.

use crate::library::{Lent, LentImages};
use crate::random::Random;
use crate::reference::Images;

const LINE: usize = 64;
/// Where the allocator begins a block that has memory pages of its own.
const BEGIN: usize = 16;

pub fn owned(images: &Images) -> Images {
    let [chips, records, slots] =
        [&images.chips, &images.records, &images.slots].map(|bytes| owned_bytes(bytes));
    Images { chips, records, slots }
}

pub fn owned_bytes(bytes: &[u8]) -> Vec<u8> {
    placed(|| bytes.to_vec(), |copy| copy)
}

pub fn lent_images(images: &Images) -> LentImages {
    LentImages { chips: lent(&images.chips), records: lent(&images.records), slots: lent(&images.slots) }
}

/// A lent copy is moved on by the bytes that its random number says: here by none.
pub fn lent(bytes: &[u8]) -> Lent {
    let seed = (0..).find(|&seed| Random::new(seed).below(16) == 0).expect("one in sixteen");
    placed(|| Lent::new(bytes, &mut Random::new(seed)), Lent::content)
}

/// Made again until it begins there. What was made in vain is held so long, and a little more with it, so
/// that the next one stands elsewhere.
fn placed<T>(make: impl Fn() -> T, bytes: impl Fn(&T) -> &[u8]) -> T {
    let mut held = Vec::new();
    loop {
        let made = make();
        if bytes(&made).as_ptr() as usize % LINE == BEGIN {
            return made;
        }
        held.push((made, vec![0u8; BEGIN * (held.len() + 1)]));
    }
}
