//! The floor: the least that any program must do that answers a call, written plainly; and the plain passes
//! over a log.

use crate::log::{Pass, Passes};
use crate::patch::Patch;
use crate::placed;
use crate::reference::*;
use std::hint::black_box;

/// Which spares and records the scan of a call looks at.
#[derive(Clone, Copy, PartialEq, Eq)]
pub enum Scan {
    All,
    /// The spares of the lost chip are left out: nobody looks at them.
    Without(usize),
    /// A format looks at nothing.
    Nothing,
}

impl Scan {
    /// Whether a chip is lost.
    pub fn is_lost(self) -> bool {
        matches!(self, Scan::Without(_))
    }
}

/// Images of its own, so that no call finds in the caches what the floor has brought there.
pub struct Floor {
    copies: Vec<Copy>,
    passes: Option<Passes>,
}

struct Copy {
    shape: Shape,
    images: Images,
}

impl Floor {
    pub fn new(shape: Shape, images: &Images, copies: usize, passes: Option<Passes>) -> Floor {
        let copy = |_| Copy { shape, images: placed::owned(images) };
        Floor { copies: (0..copies).map(copy).collect(), passes }
    }

    pub fn run(&mut self, scan: Scan, counts: Status, repeats: usize) {
        for copy in &mut self.copies {
            (0..repeats).for_each(|_| copy.run(scan, counts));
        }
    }

    /// As a call that walks the log begins: with the scan, here of the records that the passes go by.
    pub fn begin_pass(&self, scan: Scan) {
        let passes = self.passes.as_ref().expect("images with a log");
        black_box(self.copies[0].scan(scan, passes.records()));
    }

    pub fn pass(&mut self, scan: Scan, pass: Pass) {
        let chips = black_box(&self.copies[0].images.chips);
        self.passes.as_mut().expect("images with a log").run(chips, pass, scan.is_lost());
    }

    /// How many pages a pass goes over.
    pub fn passed(&self, scan: Scan) -> u64 {
        self.passes.as_ref().expect("images with a log").count(scan.is_lost()) as u64
    }

    pub fn put(&mut self, patch: &Patch) {
        self.copies.iter_mut().for_each(|copy| patch.put_owned(&mut copy.images));
    }
}

impl Copy {
    /// The scan; then by the counts that the call answers as many pages copied as it reads or as it
    /// programs, whichever is more, a block filled for each erase, and a record copied for each other store.
    fn run(&mut self, scan: Scan, counts: Status) {
        black_box(self.scan(scan, &self.images.records));
        self.copy_pages(counts.reads.max(counts.programs) as usize);
        self.fill_blocks(counts.erases as usize);
        self.copy_records((counts.stores - counts.programs - counts.erases) as usize);
        black_box(&mut self.images);
    }

    fn scan(&self, scan: Scan, records: &[u8]) -> u64 {
        let (chips, records) = (black_box(&self.images.chips), black_box(records));
        let chip_len = self.shape.chip_len();
        match scan {
            Scan::Nothing => 0,
            Scan::All => self.spares(chips).wrapping_add(sum_of_words(records)),
            Scan::Without(chip) => {
                let before = self.spares(&chips[..chip * chip_len]);
                let after = self.spares(&chips[(chip + 1) * chip_len..]);
                before.wrapping_add(after).wrapping_add(sum_of_words(records))
            }
        }
    }

    fn spares(&self, chips: &[u8]) -> u64 {
        let w = self.shape.w;
        chips.chunks_exact(w + SPARE_BYTES).fold(0, |sum, page| sum.wrapping_add(word(&page[w..])))
    }

    /// From pages all over the chips to the last block.
    fn copy_pages(&mut self, pages: usize) {
        let Shape { k, .. } = self.shape;
        let len = self.shape.page_len();
        let apart = self.images.chips.len() / len / pages.max(1);
        let last_block = self.images.chips.len() - k * len;
        for i in 0..pages {
            let from = i * apart * len;
            self.images.chips.copy_within(from..from + len, last_block + i % k * len);
        }
    }

    fn fill_blocks(&mut self, blocks: usize) {
        let len = self.shape.k * self.shape.page_len();
        for block in self.images.chips.chunks_exact_mut(len).take(blocks) {
            block.fill(255);
        }
    }

    /// To records all over, one by one.
    fn copy_records(&mut self, records: usize) {
        let apart = self.images.records.len() / RECORD_BYTES / records.max(1);
        for i in 0..records {
            let at = i * apart * RECORD_BYTES;
            self.images.records[at..at + RECORD_BYTES].copy_from_slice(&EMPTY_RECORD);
        }
    }
}

fn sum_of_words(bytes: &[u8]) -> u64 {
    bytes.chunks_exact(8).fold(0, |sum, part| sum.wrapping_add(word(part)))
}

fn word(bytes: &[u8]) -> u64 {
    u64::from_le_bytes(bytes.try_into().expect("8 bytes"))
}
