//! The records' part of the check: one pass over them.

use super::{number, word};
use crate::reference::{Shape, MEMBERS, NONE, NO_SLOT, RECORD_BYTES};
use std::mem::MaybeUninit;

/// Numbers to a record, if all of it were numbers.
pub const NUMBERS: usize = RECORD_BYTES / 2;
/// Where the parity page stands among them.
pub const PARITY_FIELD: usize = 2 * MEMBERS;
/// Behind the parity page of a record without a partial parity: bitmap 0, no slot, four of 0.
pub const PLAIN: u64 = 0xff00;

/// What the records name and hold.
pub struct Names {
    /// Pages named as current or parity.
    pub count: usize,
    /// The stripes with a slot, ascending; at most M.
    stripes: [MaybeUninit<u16>; 255],
    len: usize,
    /// A bit for each slot that is taken.
    taken: [u64; 4],
}

impl Names {
    /// All but the stripes, of which there are none yet.
    pub unsafe fn begin(place: *mut Names) {
        unsafe {
            (&raw mut (*place).count).write(0);
            (&raw mut (*place).len).write(0);
            (&raw mut (*place).taken).write([0; 4]);
        }
    }

    pub fn slotted(&self) -> &[u16] {
        // SAFETY: as many have been written.
        unsafe { std::slice::from_raw_parts(self.stripes.as_ptr().cast(), self.len) }
    }

    /// False if the slot is taken, or M are.
    pub fn take(&mut self, stripe: usize, slot: u8, m: usize) -> bool {
        let (part, bit) = (slot as usize / 64, 1 << (slot % 64));
        if self.taken[part] & bit != 0 || self.len == m {
            return false;
        }
        self.taken[part] |= bit;
        self.stripes[self.len].write(stripe as u16);
        self.len += 1;
        true
    }

    pub fn free(&mut self, slot: u8) {
        self.taken[slot as usize / 64] &= !(1 << (slot % 64));
    }

    pub fn lowest_free_slot(&self) -> u8 {
        let free = self.taken.iter().position(|&part| part != u64::MAX).expect("M + 1 slots");
        (64 * free) as u8 + self.taken[free].trailing_ones() as u8
    }

    /// True if all records of stripes are sound. Those with nothing in the partial parity, which are most,
    /// are held to all that is asked of them as words.
    pub fn gather(&mut self, shape: Shape, records: &[u8]) -> bool {
        let pages = shape.pages() as u16;
        let must = MustBeNone::new(shape.n);
        // of the six current numbers and the two old ones that share words with them
        let (mut over, mut none) = ([0u16; 8], [0u16; 8]);
        let (mut wrong, mut without_parity) = (0, 0);
        let records = &records[..shape.s * RECORD_BYTES];
        for (stripe, record) in records.as_chunks::<RECORD_BYTES>().0.iter().enumerate() {
            let [w0, w1, w2, w3] = [0, 8, 16, 24].map(|at| word(record, at));
            for i in 0..8 {
                let number = number(record, 2 * i);
                over[i] |= number.wrapping_add(1).saturating_sub(pages);
                none[i] = none[i].wrapping_add((number == NONE) as u16);
            }
            let no_parity = w3 as u16 == NONE;
            without_parity += no_parity as usize;
            if w3 >> 16 == PLAIN {
                let written = w0 & w1 != u64::MAX;
                wrong |= (!w0 & must.0) | (!w1 & must.1) | !w2 | (written & no_parity) as u64;
                wrong |= ((w3 as u16).wrapping_add(1) > pages) as u64;
            } else if !judge(shape, record) || !self.take(stripe, record[27], shape.m) {
                return false;
            }
        }
        let members = (0..shape.n).map(|member| shape.s - none[member] as usize);
        self.count = members.sum::<usize>() + shape.s - without_parity;
        wrong == 0 && over == [0; 8]
    }
}

/// The numbers that are none without a partial parity, in the first and second word of a record: those of
/// members N and above, and all old ones.
pub struct MustBeNone(pub u64, pub u64);

impl MustBeNone {
    pub fn new(n: usize) -> MustBeNone {
        let below = |members: usize| u64::MAX.checked_shl(16 * members as u32).unwrap_or(0);
        MustBeNone(below(n.min(4)), below(n.saturating_sub(4)))
    }
}

/// A record that has something in the partial parity, or is wrong.
#[inline(never)]
pub fn judge(shape: Shape, record: &[u8; RECORD_BYTES]) -> bool {
    let (bitmap, slot, parity) = (record[26], record[27], number(record, 24));
    let mut sound = bitmap != 0 && bitmap >> shape.n == 0;
    sound &= slot != NO_SLOT && slot as usize <= shape.m && word(record, 24) >> 32 == 0;
    let pages = shape.pages() as u16;
    sound &= parity.wrapping_add(1) <= pages;
    for m in 0..MEMBERS {
        let (current, old) = (number(record, 2 * m), number(record, 2 * MEMBERS + 2 * m));
        sound &= current.wrapping_add(1) <= pages && old.wrapping_add(1) <= pages;
        let needs_parity = if bitmap >> m & 1 == 1 {
            sound &= current != NONE && current != old;
            old != NONE
        } else {
            sound &= old == NONE && (m < shape.n || current == NONE);
            current != NONE
        };
        sound &= !needs_parity || parity != NONE;
    }
    sound
}
