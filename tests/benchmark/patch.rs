//! Bytes with their places in the three images. With them an image is brought back to what it was before a
//! call, or to what the call made of it, at the price of what the call changed.

use crate::library::LentImages;
use crate::reference::{Images, Shape, RECORD_BYTES};

pub struct Patch {
    chips: Vec<Part>,
    records: Vec<Part>,
    slots: Vec<Part>,
}

struct Part {
    at: usize,
    bytes: Vec<u8>,
}

impl Patch {
    /// What stood before where it is another afterwards.
    pub fn back(shape: Shape, before: &LentImages, after: &Images) -> Patch {
        Patch {
            chips: changed(before.chips.content(), &after.chips, shape.page_len()),
            records: changed(before.records.content(), &after.records, RECORD_BYTES),
            slots: changed(before.slots.content(), &after.slots, shape.w),
        }
    }

    /// What stands now in the same places.
    pub fn now(&self, images: &Images) -> Patch {
        Patch {
            chips: standing(&images.chips, &self.chips),
            records: standing(&images.records, &self.records),
            slots: standing(&images.slots, &self.slots),
        }
    }

    pub fn put_lent(&self, lent: &mut LentImages) {
        put(lent.chips.content_mut(), &self.chips);
        put(lent.records.content_mut(), &self.records);
        put(lent.slots.content_mut(), &self.slots);
    }

    pub fn put_owned(&self, images: &mut Images) {
        put(&mut images.chips, &self.chips);
        put(&mut images.records, &self.records);
        put(&mut images.slots, &self.slots);
    }
}

/// The units of so many bytes in which the two differ, neighbours as one part.
fn changed(before: &[u8], after: &[u8], unit: usize) -> Vec<Part> {
    let mut parts: Vec<Part> = Vec::new();
    for (i, (old, new)) in before.chunks(unit).zip(after.chunks(unit)).enumerate() {
        if old == new {
            continue;
        }
        match parts.last_mut() {
            Some(part) if part.at + part.bytes.len() == i * unit => part.bytes.extend_from_slice(old),
            _ => parts.push(Part { at: i * unit, bytes: old.to_vec() }),
        }
    }
    parts
}

fn standing(image: &[u8], parts: &[Part]) -> Vec<Part> {
    let part = |part: &Part| Part { at: part.at, bytes: image[part.at..][..part.bytes.len()].to_vec() };
    parts.iter().map(part).collect()
}

fn put(image: &mut [u8], parts: &[Part]) {
    for Part { at, bytes } in parts {
        image[*at..*at + bytes.len()].copy_from_slice(bytes);
    }
}
