//! The spares' part of the check: one pass over them, a stretch of whole blocks at a time.

use super::records::{NUMBERS, PARITY_FIELD};
use crate::reference::{Shape, DATA, PARITY};
use std::mem::MaybeUninit;

/// The most pages to a block, and the most that are looked at together.
const STRETCH: usize = 128;
/// Pages are looked at in multiples of this; what is beyond a stretch counts for nothing.
const STEP: usize = 16;
/// A line of the caches.
const LINE: usize = 64;
/// Chips times blocks.
const MOST_BLOCKS: usize = 7 * 1_024;

/// For each block of each chip, how many of its pages are used.
pub struct Blocks {
    per_chip: usize,
    used: [MaybeUninit<u8>; MOST_BLOCKS],
}

impl Blocks {
    /// All but the counts.
    pub unsafe fn begin(place: *mut Blocks) {
        unsafe { (&raw mut (*place).per_chip).write(0) }
    }

    pub fn begin_chips(&mut self, blocks: usize) {
        self.per_chip = blocks;
    }

    #[inline(always)]
    pub fn set_used(&mut self, chip: usize, block: usize, used: usize) {
        self.used[chip * self.per_chip + block].write(used as u8);
    }

    pub fn used(&mut self, chip: usize) -> &mut [u8] {
        let used = &mut self.used[chip * self.per_chip..][..self.per_chip];
        // SAFETY: nobody asks for the counts of a chip that has not been looked at.
        unsafe { std::slice::from_raw_parts_mut(used.as_mut_ptr().cast(), self.per_chip) }
    }
}

/// The images, as the pass finds them.
#[derive(Clone, Copy)]
pub struct Spares<'a> {
    pub shape: Shape,
    pub chips: &'a [u8],
    pub records: &'a [u8],
}

/// What is known of the pages of a stretch, an array for each step. So the compiler makes words of many pages
/// of all steps but the two that load from anywhere, and what one step stores has long arrived when the next
/// loads it.
struct Stretch {
    /// Kind and member, as they stand in the spare.
    tags: [u16; STRETCH],
    stripes: [u16; STRETCH],
    /// 65,535 where stripe, kind and member are such as the chip may hold, else 0.
    fits: [u16; STRETCH],
    /// Where a record has the number of the page that its stripe has on the chip.
    fields: [u16; STRETCH],
    /// Where it stands among all numbers of the records.
    places: [u32; STRETCH],
    numbers: [u16; STRETCH],
    /// 1 for each page that a record names, or that is clean, and room to read on by words.
    named: [u8; STRETCH + 8],
    clean: [u8; STRETCH + 8],
}

impl Spares<'_> {
    /// How many pages are named as current or parity on the chips but the lost one; nothing if one of those
    /// has a used page behind a clean one, or no clean block where there must be one.
    pub fn gather(
        self,
        lost: Option<usize>,
        collecting: Option<usize>,
        blocks: &mut Blocks,
    ) -> Option<usize> {
        match self.shape.n {
            2 => self.gather_of::<2>(lost, collecting, blocks),
            3 => self.gather_of::<3>(lost, collecting, blocks),
            4 => self.gather_of::<4>(lost, collecting, blocks),
            5 => self.gather_of::<5>(lost, collecting, blocks),
            _ => self.gather_of::<6>(lost, collecting, blocks),
        }
    }

    fn gather_of<const N: u16>(
        self,
        lost: Option<usize>,
        collecting: Option<usize>,
        blocks: &mut Blocks,
    ) -> Option<usize> {
        blocks.begin_chips(self.shape.b);
        let mut stretch = Stretch {
            tags: [0; STRETCH],
            stripes: [0; STRETCH],
            fits: [0; STRETCH],
            fields: [0; STRETCH],
            places: [0; STRETCH],
            numbers: [0; STRETCH],
            named: [0; STRETCH + 8],
            clean: [0; STRETCH + 8],
        };
        let mut count = 0;
        for chip in (0..=N as usize).filter(|&chip| Some(chip) != lost) {
            let (named, some_clean) = self.chip::<N>(chip, &mut stretch, blocks)?;
            if !some_clean && collecting != Some(chip) {
                return None;
            }
            count += named;
        }
        Some(count)
    }

    fn chip<const N: u16>(
        self,
        chip: usize,
        stretch: &mut Stretch,
        blocks: &mut Blocks,
    ) -> Option<(usize, bool)> {
        let Shape { k, b, .. } = self.shape;
        let at_once = STRETCH / k;
        let (mut count, mut some_clean, mut first) = (0, false, 0);
        while first < b {
            let some = at_once.min(b - first);
            self.look::<N>(stretch, chip, first * k, some * k);
            for i in 0..some {
                let (named, clean) = (sum(&stretch.named, i * k, k), sum(&stretch.clean, i * k, k));
                let begun = clean != 0 && clean != k;
                if begun && stretch.clean[i * k..][..k - clean].contains(&1) {
                    return None;
                }
                some_clean |= clean == k;
                count += named;
                blocks.set_used(chip, first + i, k - clean);
            }
            first += some;
        }
        Some((count, some_clean))
    }

    fn look<const N: u16>(self, stretch: &mut Stretch, chip: usize, first: usize, pages: usize) {
        let Stretch { tags, stripes, fits, fields, places, numbers, named, clean } = stretch;
        let steps = pages.div_ceil(STEP);
        let (at, page_len) = (self.shape.spare_at(chip, first), self.shape.page_len());
        // the next spares, which else would be waited for when they are loaded; of small pages the processor
        // itself brings the next ones
        if page_len > LINE {
            (pages..2 * pages).for_each(|i| prefetch(self.chips, at + i * page_len));
        }
        for (i, (tag, stripe)) in tags.iter_mut().zip(&mut *stripes).enumerate().take(pages) {
            // SAFETY: all pages of the stretch are in the image, which has the length that the shape asks
            // for.
            let word = u32::from_le(unsafe { self.spare(at + i * page_len) });
            (*tag, *stripe) = (word as u16, (word >> 16) as u16);
        }
        tags[pages..steps * STEP].fill(0);
        judge::<N>(steps, [chip as u16, self.shape.s as u16], tags, stripes, fits, fields);
        widen(steps, stripes, fields, places);
        for (place, number) in places.iter().zip(&mut *numbers).take(steps * STEP) {
            // SAFETY: the stripe is below S and the field within its record.
            *number = u16::from_le(unsafe { self.number(*place as usize) });
        }
        mark(steps, first as u16, numbers, fits, named);
        mark_clean(steps, tags, clean);
    }

    #[inline(always)]
    unsafe fn spare(self, at: usize) -> u32 {
        unsafe { self.chips.as_ptr().add(at).cast::<u32>().read_unaligned() }
    }

    #[inline(always)]
    unsafe fn number(self, at: usize) -> u16 {
        unsafe { self.records.as_ptr().cast::<u16>().add(at).read_unaligned() }
    }
}

fn prefetch(image: &[u8], at: usize) {
    #[cfg(target_arch = "x86_64")]
    // SAFETY: nothing is read, wherever it points.
    unsafe {
        use std::arch::x86_64::{_mm_prefetch, _MM_HINT_T0};
        _mm_prefetch::<_MM_HINT_T0>(image.as_ptr().wrapping_add(at).cast());
    }
}

fn mask(condition: bool) -> u16 {
    (condition as u16).wrapping_neg()
}

/// By the stripe a chip holds the parity page, or the member of the chip's number, or the one before. Stripes
/// of S and above become 0. None of these is to be inlined: as arguments the arrays are known to be apart.
#[inline(never)]
fn judge<const N: u16>(
    steps: usize,
    [chip, s]: [u16; 2],
    tags: &[u16; STRETCH],
    stripes: &mut [u16; STRETCH],
    fits: &mut [u16; STRETCH],
    fields: &mut [u16; STRETCH],
) {
    let turn_of_parity = (N - chip) as i16;
    for i in 0..(steps * STEP).min(STRETCH) {
        let turn = (stripes[i] % (N + 1)) as i16;
        let is_parity = mask(turn == turn_of_parity);
        let member = chip.wrapping_add(mask(turn > turn_of_parity));
        let tag = (is_parity & PARITY as u16) | (!is_parity & (DATA as u16 | member << 8));
        let below = mask(stripes[i] < s);
        fits[i] = below & mask(tags[i] == tag);
        fields[i] = (is_parity & PARITY_FIELD as u16) | (!is_parity & member);
        stripes[i] &= below;
    }
}

#[inline(never)]
fn widen(steps: usize, stripes: &[u16; STRETCH], fields: &[u16; STRETCH], places: &mut [u32; STRETCH]) {
    for i in 0..(steps * STEP).min(STRETCH) {
        places[i] = stripes[i] as u32 * NUMBERS as u32 + fields[i] as u32;
    }
}

#[inline(never)]
fn mark(
    steps: usize,
    first: u16,
    numbers: &[u16; STRETCH],
    fits: &[u16; STRETCH],
    named: &mut [u8; STRETCH + 8],
) {
    for i in 0..(steps * STEP).min(STRETCH) {
        let found = mask(numbers[i] == first.wrapping_add(i as u16));
        named[i] = (found & fits[i] & 1) as u8;
    }
}

#[inline(never)]
fn mark_clean(steps: usize, tags: &[u16; STRETCH], clean: &mut [u8; STRETCH + 8]) {
    for i in 0..(steps * STEP).min(STRETCH) {
        clean[i] = (mask(tags[i] & 255 == 255) & 1) as u8;
    }
}

/// The sum of flags, eight at a time: no sum of those at one place of the words is above 255.
fn sum(flags: &[u8; STRETCH + 8], at: usize, len: usize) -> usize {
    let word = |i: usize| u64::from_le_bytes(flags[at + i..at + i + 8].try_into().expect("8 bytes"));
    let whole = (0..len / 8).fold(0, |sum, i| sum + word(8 * i));
    let rest = word(len / 8 * 8) & ((1 << (len % 8 * 8)) - 1);
    ((whole + rest).wrapping_mul(0x0101_0101_0101_0101) >> 56) as usize
}
