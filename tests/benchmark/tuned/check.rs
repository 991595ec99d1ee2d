//! Refusals 1 to 5, and what the check learns of sound images on its way.
//!
//! In a store that the caches hold each page that a record names is looked up. In a larger one a page that a
//! record names as current or parity is found from its spare, in the one field where a page of its stripe,
//! kind and member can stand. So the pages found are as many as the records name exactly where each named
//! page has the right stripe, kind and member. Old pages, of which there are few, are looked up one by one.

use super::direct::{self, Direct};
use super::records::{Names, PARITY_FIELD};
use super::spares::{Blocks, Spares};
use super::{number, tag_at};
use crate::reference::{
    Collection, Geometry, Images, Refusal, Shape, DATA, MEMBERS, NONE, NO_CHIP, PARITY, RECORD_BYTES,
    SPARE_BYTES,
};
use std::mem::MaybeUninit;
use std::sync::atomic::Ordering::Relaxed;

/// The most blocks to a chip.
const MOST_BLOCKS: usize = 1_024;

pub struct Found {
    pub names: Names,
    pub blocks: Blocks,
}

impl Found {
    /// Begins where it will stand; to copy its tables, still empty, would take as long as a call on a small
    /// store.
    pub fn begin(place: &mut MaybeUninit<Found>) -> &mut Found {
        let found = place.as_mut_ptr();
        // SAFETY: what these leave out is made of `MaybeUninit`.
        unsafe {
            Names::begin(&raw mut (*found).names);
            Blocks::begin(&raw mut (*found).blocks);
            &mut *found
        }
    }
}

/// Refusals 1 and 2.
pub fn lengths(geometry: Geometry, images: &Images) -> Result<Shape, Refusal> {
    let shape = geometry.shape().ok_or(Refusal::Geometry)?;
    match [images.chips.len(), images.records.len(), images.slots.len()] == shape.lengths() {
        true => Ok(shape),
        false => Err(Refusal::Buffers),
    }
}

pub fn images(
    geometry: Geometry,
    images: &Images,
    lost: u64,
    found: &mut Found,
) -> Result<(Shape, Option<usize>), Refusal> {
    let shape = lengths(geometry, images)?;
    let lost = match lost {
        NO_CHIP => None,
        chip if chip <= shape.n as u64 => Some(chip as usize),
        _ => return Err(Refusal::LostChip),
    };
    let look = Look { shape, images };
    let in_cache = images.chips.len() <= direct::MOST_BYTES.load(Relaxed);
    let spares = match in_cache {
        true => look.one_by_one(lost, found),
        false => look.by_counts(lost, found),
    };
    match spares {
        Some(sound) if look.collection_sound() => {
            let collecting = look.collecting();
            let sound = sound && (collecting.is_none() || collecting == lost || look.phase_sound());
            sound.then_some((shape, lost)).ok_or(Refusal::Spares)
        }
        _ => Err(Refusal::Records),
    }
}

/// Images of the right lengths.
#[derive(Clone, Copy)]
pub struct Look<'a> {
    pub shape: Shape,
    pub images: &'a Images,
}

impl<'a> Look<'a> {
    pub fn record(self, index: usize) -> &'a [u8; RECORD_BYTES] {
        self.images.records[index * RECORD_BYTES..][..RECORD_BYTES].try_into().expect("32 bytes")
    }

    pub fn collection(self) -> Collection {
        Collection::from_bytes(self.record(self.shape.s))
    }

    /// Kind, member and stripe as one number.
    pub fn tag(self, chip: usize, page: usize) -> u32 {
        tag_at(&self.images.chips, self.shape.spare_at(chip, page))
    }

    pub fn data(self, chip: usize, page: u16) -> &'a [u8] {
        &self.images.chips[self.shape.page_at(chip, page as usize)..][..self.shape.w]
    }

    pub fn copied(self, chip: usize, page: usize) -> usize {
        number(&self.images.chips[self.shape.spare_at(chip, page)..][..SPARE_BYTES], 4) as usize
    }

    fn collection_sound(self) -> bool {
        let bytes = self.record(self.shape.s);
        let Collection { phase, chip, victim, destination } = self.collection();
        let (victim, destination) = (victim as usize, destination as usize);
        match phase {
            0 => *bytes == [0; RECORD_BYTES],
            1 | 2 => {
                let blocks = victim < self.shape.b && destination < self.shape.b && victim != destination;
                chip as usize <= self.shape.n && blocks && bytes[6..] == [0; RECORD_BYTES - 6]
            }
            _ => false,
        }
    }

    /// The chip of a collection under way.
    fn collecting(self) -> Option<usize> {
        let Collection { phase, chip, .. } = self.collection();
        (phase != 0).then_some(chip as usize)
    }

    /// Whether the spares are sound, but for a collection under way; nothing if the records are not. The
    /// spares are gone through first, since from a memory that is far away they come faster in their order.
    fn one_by_one(self, lost: Option<usize>, found: &mut Found) -> Option<bool> {
        let chips = &self.images.chips;
        let blocks = direct::blocks_sound(self.shape, chips, lost, self.collecting(), &mut found.blocks);
        let stamped = Direct::new(self.shape, self.images, lost).names(&mut found.names)?;
        Some(blocks && stamped)
    }

    fn by_counts(self, lost: Option<usize>, found: &mut Found) -> Option<bool> {
        let Images { chips, records, .. } = self.images;
        if !found.names.gather(self.shape, records) {
            return None;
        }
        let spares = Spares { shape: self.shape, chips, records };
        let beyond = lost.map_or(0, |chip| self.named_on(chip));
        let count = spares.gather(lost, self.collecting(), &mut found.blocks);
        let all = count.is_some_and(|count| count + beyond == found.names.count);
        Some(all && self.old_pages(lost, found))
    }

    /// Pages named as current or parity on the lost chip.
    fn named_on(self, chip: usize) -> usize {
        let Shape { n, s, .. } = self.shape;
        let fields: [usize; 7] = std::array::from_fn(|turn| self.field(chip, turn).0);
        let mut count = 0;
        let records = self.images.records[..s * RECORD_BYTES].as_chunks::<RECORD_BYTES>().0;
        for records in records.chunks(n + 1) {
            for (record, field) in records.iter().zip(&fields) {
                count += (number(record, 2 * field) != NONE) as usize;
            }
        }
        count
    }

    /// Where the record of a stripe has its page on a chip, and the tag of that page.
    pub fn field(self, chip: usize, stripe: usize) -> (usize, u32) {
        let parity_chip = self.shape.n - stripe % (self.shape.n + 1);
        let stripe = (stripe as u32) << 16;
        if parity_chip == chip {
            return (PARITY_FIELD, PARITY as u32 | stripe);
        }
        let member = chip.wrapping_sub((parity_chip < chip) as usize);
        (member, DATA as u32 | (member as u32) << 8 | stripe)
    }

    /// True if the old pages are stamped right.
    fn old_pages(self, lost: Option<usize>, found: &Found) -> bool {
        let n = self.shape.n;
        for &stripe in found.names.slotted() {
            let record = self.record(stripe as usize);
            for chip in (0..=n).filter(|&chip| Some(chip) != lost) {
                let (member, tag) = self.field(chip, stripe as usize);
                if member == PARITY_FIELD {
                    continue;
                }
                let old = number(record, 2 * (MEMBERS + member));
                if old != NONE && self.tag(chip, old as usize) != tag {
                    return false;
                }
            }
        }
        true
    }

    /// How many pages of each block of a chip are named. A number of none is counted behind the last block.
    pub fn named_in_blocks(self, chip: usize, slotted: &[u16]) -> [u8; MOST_BLOCKS + 1] {
        let Shape { n, k, s, .. } = self.shape;
        let mut counts = [0u8; MOST_BLOCKS + 1];
        // exact, since a page number has 16 bits and K is at most 128
        let inverse = (1 << 32) / k as u64 + 1;
        let mut count = |page: u16| {
            let block = (page as u64 * inverse >> 32) as usize;
            let block = if page == NONE { MOST_BLOCKS } else { block.min(MOST_BLOCKS) };
            counts[block] = counts[block].wrapping_add(1);
        };
        let fields: [usize; 7] = std::array::from_fn(|turn| self.field(chip, turn).0);
        let records = self.images.records[..s * RECORD_BYTES].as_chunks::<RECORD_BYTES>().0;
        for records in records.chunks(n + 1) {
            records.iter().zip(&fields).for_each(|(record, field)| count(number(record, 2 * field)));
        }
        for &stripe in slotted {
            let field = fields[stripe as usize % (n + 1)];
            if field != PARITY_FIELD {
                count(number(self.record(stripe as usize), 2 * (MEMBERS + field)));
            }
        }
        counts
    }

    /// In sound images: does a record name the page?
    pub fn is_named(self, chip: usize, page: usize) -> bool {
        let tag = self.tag(chip, page);
        let stripe = tag as usize >> 16;
        if stripe >= self.shape.s {
            return false;
        }
        let (field, expected) = self.field(chip, stripe);
        let numbers = |field: usize| number(self.record(stripe), 2 * field) as usize;
        let old = field != PARITY_FIELD && numbers(field + MEMBERS) == page;
        tag == expected && (numbers(field) == page || old)
    }

    fn phase_sound(self) -> bool {
        let Collection { phase, chip, victim, destination } = self.collection();
        let (chip, destination) = (chip as usize, self.shape.block_pages(destination as usize));
        if phase == 1 {
            return !destination.clone().any(|page| self.is_named(chip, page));
        }
        let victim = self.shape.block_pages(victim as usize);
        let mut twins = Twins::new(self, chip, victim.start);
        let mut once = true;
        for page in destination {
            if let Some(twin) = twins.original(page) {
                once &= twins.due[twin];
                twins.due[twin] = false;
            }
        }
        once && !twins.due.contains(&true)
    }
}

/// The pages named in the victim whose copies are yet to be put in place.
pub struct Twins<'a> {
    look: Look<'a>,
    chip: usize,
    first: usize,
    /// For each place of the victim.
    named: [bool; 128],
    due: [bool; 128],
}

impl<'a> Twins<'a> {
    pub fn new(look: Look<'a>, chip: usize, first: usize) -> Twins<'a> {
        let mut named = [false; 128];
        for (place, named) in named[..look.shape.k].iter_mut().enumerate() {
            *named = look.is_named(chip, first + place);
        }
        Twins { look, chip, first, named, due: named }
    }

    /// The place in the victim of which the page, in the destination and named by no record, is the copy.
    pub fn original(&self, page: usize) -> Option<usize> {
        let (look, chip) = (self.look, self.chip);
        let original = look.copied(chip, page);
        let place = original.checked_sub(self.first).filter(|&place| place < look.shape.k)?;
        let copy = self.named[place] && look.tag(chip, page) == look.tag(chip, original);
        (copy && !look.is_named(chip, page)).then_some(place)
    }
}
