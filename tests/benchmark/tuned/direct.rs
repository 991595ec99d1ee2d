//! The whole check of a store that the caches hold: each page that a record names is looked up where it
//! stands, and the spares are looked through once more for clean pages.

use super::records::{judge, MustBeNone, Names, PLAIN};
use super::spares::Blocks;
use super::{number, word};
use crate::reference::{Images, Shape, CLEAN, DATA, MEMBERS, NONE, PARITY, RECORD_BYTES};
use std::sync::atomic::AtomicUsize;

/// The chips may have so many bytes: as many as the second cache. Of larger ones pages are better looked up
/// in the records than the other way round. The self-check sets it to 0 at times, so that small ones go that
/// way too.
pub static MOST_BYTES: AtomicUsize = AtomicUsize::new(2 << 20);

#[derive(Clone, Copy)]
pub struct Direct<'a> {
    shape: Shape,
    images: &'a Images,
    lost: usize,
    pages: u16,
    page_len: usize,
    /// Where the spare of each chip's first page stands.
    spares: [usize; 7],
}

/// What is wrong with a record, or with spares: the bits in which some differ from what the records say, and
/// these.
type Wrong = u64;
const RECORD: Wrong = 1 << 32;

impl<'a> Direct<'a> {
    pub fn new(shape: Shape, images: &'a Images, lost: Option<usize>) -> Direct<'a> {
        let spares = std::array::from_fn(|chip| shape.spare_at(chip, 0));
        let (pages, page_len) = (shape.pages() as u16, shape.page_len());
        Direct { shape, images, lost: lost.unwrap_or(usize::MAX), pages, page_len, spares }
    }

    /// Whether all named pages are stamped right; nothing if a record is not sound.
    pub fn names(self, names: &mut Names) -> Option<bool> {
        let wrong = match self.shape.n {
            2 => self.names_of::<2>(names),
            3 => self.names_of::<3>(names),
            4 => self.names_of::<4>(names),
            5 => self.names_of::<5>(names),
            _ => self.names_of::<6>(names),
        };
        (wrong < RECORD).then_some(wrong == 0)
    }

    /// Parity goes through the chips in turn: for each turn the compiler knows which chip has what.
    fn names_of<const N: usize>(self, names: &mut Names) -> Wrong {
        let records = &self.images.records[..self.shape.s * RECORD_BYTES];
        let records = records.as_chunks::<RECORD_BYTES>().0;
        let mut wrong = 0;
        for (round, records) in records.chunks(N + 1).enumerate() {
            for (turn, record) in records.iter().enumerate() {
                let stripe = round * (N + 1) + turn;
                wrong |= match turn {
                    0 => self.record::<N, 0>(names, stripe, record),
                    1 => self.record::<N, 1>(names, stripe, record),
                    2 => self.record::<N, 2>(names, stripe, record),
                    3 => self.record::<N, 3>(names, stripe, record),
                    4 => self.record::<N, 4>(names, stripe, record),
                    5 => self.record::<N, 5>(names, stripe, record),
                    _ => self.record::<N, 6>(names, stripe, record),
                };
            }
            if wrong >= RECORD {
                return wrong;
            }
        }
        wrong
    }

    #[inline(always)]
    fn record<const N: usize, const TURN: usize>(
        self,
        names: &mut Names,
        stripe: usize,
        record: &[u8; RECORD_BYTES],
    ) -> Wrong {
        let parity_chip = N.wrapping_sub(TURN);
        let chip = |member: usize| member + (member >= parity_chip) as usize;
        let tag = |member: usize| (stripe as u32) << 16 | (member as u32) << 8 | DATA as u32;
        let parity = number(record, 24);
        let [w0, w1, w2, w3] = [0, 8, 16, 24].map(|at| word(record, at));
        let mut wrong = 0;
        if w3 >> 16 == PLAIN {
            let must = MustBeNone::new(N);
            let unwritten = w0 & w1 == u64::MAX;
            let none = (!w0 & must.0) | (!w1 & must.1) | !w2 == 0;
            if !none || parity == NONE {
                return if none && unwritten { 0 } else { RECORD };
            }
        } else {
            if !judge(self.shape, record) || !names.take(stripe, record[27], self.shape.m) {
                return RECORD;
            }
            for member in 0..N {
                wrong |= self.name(chip(member), number(record, 2 * (MEMBERS + member)), tag(member));
            }
        }
        for member in 0..N {
            wrong |= self.name(chip(member), number(record, 2 * member), tag(member));
        }
        wrong | self.name(parity_chip, parity, (stripe as u32) << 16 | PARITY as u32)
    }

    #[inline(always)]
    fn name(self, chip: usize, page: u16, tag: u32) -> Wrong {
        if page >= self.pages {
            return if page == NONE { 0 } else { RECORD };
        }
        if chip == self.lost {
            return 0;
        }
        let at = self.spares[chip % 7] + page as usize * self.page_len;
        // SAFETY: the page is one of the chip's, and the image has the length that the shape asks for.
        let found = unsafe { self.images.chips.as_ptr().add(at).cast::<u32>().read_unaligned() };
        (u32::from_le(found) ^ tag) as Wrong
    }
}

/// Counts the used pages of each block; false if one follows a clean page, or no block is clean where one
/// must be.
pub fn blocks_sound(
    shape: Shape,
    chips: &[u8],
    lost: Option<usize>,
    collecting: Option<usize>,
    blocks: &mut Blocks,
) -> bool {
    let Shape { n, k, b, .. } = shape;
    blocks.begin_chips(b);
    let page_len = shape.page_len();
    let mut sound = true;
    for chip in (0..=n).filter(|&chip| Some(chip) != lost) {
        let mut some_clean = collecting == Some(chip);
        let mut at = shape.spare_at(chip, 0);
        for block in 0..b {
            // SAFETY: the places of the block are in the image, which has the length that the shape asks for.
            let is_clean = |place: usize| unsafe { *chips.get_unchecked(at + place * page_len) == CLEAN };
            let used = (0..k).find(|&place| is_clean(place)).unwrap_or(k);
            sound &= (used..k).all(is_clean);
            some_clean |= used == 0;
            blocks.set_used(chip, block, used);
            at += k * page_len;
        }
        sound &= some_clean;
    }
    sound
}
