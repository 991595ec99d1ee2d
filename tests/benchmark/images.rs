//! Sound images, nearly full: what the calls of the benchmark find.

use crate::log::Log;
use crate::random::Random;
use crate::reference::*;

/// Whether stripes of each kind come in turn and the pages of a chip stand in the order of their stripes, as
/// in a store just filled, or all stand anywhere, as in one long in use.
#[derive(Clone, Copy, PartialEq, Eq)]
pub enum Order {
    Sequence,
    Shuffled,
}

/// The members that a stripe with a slot has in its partial parity.
const IN_PARTIAL: [usize; 2] = [0, 2];

/// One stripe in so many has nothing written, but for those with a slot; in a store of few stripes the last.
const EMPTY_ONE_IN: usize = 16;

#[derive(Clone, Copy)]
enum Kind {
    Written,
    Slotted(u8),
    Empty,
}

/// All M partial parities are in use. On each chip one block is clean and the others are full. Each stripe
/// takes a page on each chip, one with a slot takes two: so named and unnamed pages are everywhere alike, and
/// whichever block a collection takes, most of it is copied.
pub fn build(random: &mut Random, shape: Shape, order: Order) -> Images {
    let kinds = kinds(random, shape, order);
    Builder::new(random, shape, order, 0).build(kinds)
}

/// The same with a log of tickets in its pages, whose last stripe has a slot; and on each chip one page is
/// left for an addition.
pub fn build_log(random: &mut Random, shape: Shape, order: Order) -> Images {
    let log = Log::of(shape);
    let mut kinds = kinds(random, shape, order);
    let slotted = (log.end..shape.s).chain(0..log.end).find(|&j| matches!(kinds[j], Kind::Slotted(_)));
    kinds.swap(log.end, slotted.expect("M is at least 1"));
    for kind in kinds[..log.end].iter_mut().filter(|kind| matches!(kind, Kind::Empty)) {
        *kind = Kind::Written;
    }
    let content = log.content(random);
    Builder { content, ..Builder::new(random, shape, order, 1) }.build(kinds)
}

fn kinds(random: &mut Random, shape: Shape, order: Order) -> Vec<Kind> {
    let apart = shape.s / (shape.m + 1);
    let empty_one_in = EMPTY_ONE_IN.min(shape.s);
    let kind = |stripe: usize| {
        if stripe % apart == 0 && stripe / apart < shape.m {
            Kind::Slotted((stripe / apart) as u8)
        } else if stripe % empty_one_in == empty_one_in - 1 {
            Kind::Empty
        } else {
            Kind::Written
        }
    };
    let mut kinds: Vec<Kind> = (0..shape.s).map(kind).collect();
    if order == Order::Shuffled {
        random.shuffle(&mut kinds);
    }
    kinds
}

struct Builder {
    shape: Shape,
    images: Images,
    /// For each chip, the pages still to be used, from the last on.
    pools: Vec<Vec<usize>>,
    /// The pages of each chip from this one on stay clean.
    clean: usize,
    /// What the first members hold, end to end; the others hold anything.
    content: Vec<u8>,
}

impl Builder {
    /// So many pages of each chip are left, beside the last block.
    fn new(random: &mut Random, shape: Shape, order: Order, left: usize) -> Builder {
        let [chips, records, slots] = shape.lengths();
        let images = Images { chips: random.bytes(chips), records: vec![0; records], slots: vec![0; slots] };
        let clean = shape.pages() - shape.k - left;
        let mut pool = || {
            let mut pool: Vec<usize> = (0..clean).rev().collect();
            if order == Order::Shuffled {
                random.shuffle(&mut pool);
            }
            pool
        };
        let pools = (0..=shape.n).map(|_| pool()).collect();
        Builder { shape, images, pools, clean, content: Vec::new() }
    }

    fn build(mut self, kinds: Vec<Kind>) -> Images {
        for (stripe, kind) in kinds.into_iter().enumerate() {
            match kind {
                Kind::Written => self.write_stripe(stripe, None),
                Kind::Slotted(slot) => self.write_stripe(stripe, Some(slot)),
                Kind::Empty => self.leave_empty(stripe),
            }
        }
        self.finish()
    }

    /// Takes the next page of a chip and stamps it with what the stripe has there.
    fn take(&mut self, chip: usize, stripe: usize) -> u16 {
        let shape = self.shape;
        let page = self.pools[chip].pop().expect("S + M + 1 pages to a chip");
        let (kind, member) = match (0..shape.n).find(|&m| shape.member_chip(stripe, m) == chip) {
            Some(member) => (DATA, member as u8),
            None => (PARITY, 0),
        };
        let spare = Spare { kind, member, stripe: stripe as u16, copied: NONE };
        let at = shape.spare_at(chip, page);
        self.images.chips[at..at + SPARE_BYTES].copy_from_slice(&spare.to_bytes());
        page as u16
    }

    /// All members written and parity stored. With a slot each has been written twice: of the members in
    /// the partial parity the earlier page is the old one, of the others nobody names it.
    fn write_stripe(&mut self, stripe: usize, slot: Option<u8>) {
        let shape = self.shape;
        let mut record = Record::from_bytes(&EMPTY_RECORD);
        let mut parity = vec![0; shape.w];
        let mut partial = vec![0; shape.w];
        for m in 0..shape.n {
            let chip = shape.member_chip(stripe, m);
            let earlier = slot.map(|_| self.take(chip, stripe));
            let current = self.take(chip, stripe);
            self.fill(chip, current, stripe * shape.n + m);
            record.current[m] = current;
            match earlier {
                Some(old) if IN_PARTIAL.contains(&m) => {
                    record.old[m] = old;
                    record.bitmap |= 1 << m;
                    self.add(&mut partial, chip, current);
                    self.add(&mut parity, chip, old);
                }
                _ => self.add(&mut parity, chip, current),
            }
        }
        if let Some(slot) = slot {
            self.take(shape.parity_chip(stripe), stripe);
            record.slot = slot;
            self.images.slots[slot as usize * shape.w..][..shape.w].copy_from_slice(&partial);
        }
        record.parity = self.store_parity(stripe, &parity);
        self.store_record(stripe, record.to_bytes());
    }

    /// A page gets what the member of that number is to hold, if anything.
    fn fill(&mut self, chip: usize, page: u16, member: usize) {
        let w = self.shape.w;
        if let Some(content) = self.content.chunks_exact(w).nth(member) {
            let at = self.shape.page_at(chip, page as usize);
            self.images.chips[at..at + w].copy_from_slice(content);
        }
    }

    fn store_parity(&mut self, stripe: usize, parity: &[u8]) -> u16 {
        let chip = self.shape.parity_chip(stripe);
        let page = self.take(chip, stripe);
        let at = self.shape.page_at(chip, page as usize);
        self.images.chips[at..at + parity.len()].copy_from_slice(parity);
        page
    }

    /// Nobody names the pages, as after writes that were cut.
    fn leave_empty(&mut self, stripe: usize) {
        for chip in 0..=self.shape.n {
            self.take(chip, stripe);
        }
        self.store_record(stripe, EMPTY_RECORD);
    }

    fn add(&self, sum: &mut [u8], chip: usize, page: u16) {
        let data = self.images.view(self.shape).data(chip, page as usize);
        for (byte, other) in sum.iter_mut().zip(data) {
            *byte ^= other;
        }
    }

    fn store_record(&mut self, index: usize, bytes: [u8; RECORD_BYTES]) {
        self.images.records[index * RECORD_BYTES..][..RECORD_BYTES].copy_from_slice(&bytes);
    }

    /// The pages left over are used too, but for those that stay clean.
    fn finish(mut self) -> Images {
        let shape = self.shape;
        for chip in 0..=shape.n {
            while !self.pools[chip].is_empty() {
                self.take(chip, shape.s - 1);
            }
            let from = shape.page_at(chip, self.clean);
            let to = shape.page_at(chip, shape.pages());
            self.images.chips[from..to].fill(255);
        }
        self.images
    }
}
