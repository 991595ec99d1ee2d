//! Request 3, "How big a capacitor": each call that stores, on images from which it makes as many stores as it ever
//! does.
//!
//! A stripe that is written whole and committed takes one page of every chip. At B = 3, S = 2 K - 2 and M = 1 all
//! stripes take the first 2 K - 2 pages of every chip, and stripe 0, twice more, the two behind them. Then no chip
//! has a place: its third block is clean, and of each full block one page is unnamed, page 0 and page 2 K - 2, both
//! once stripe 0's. So a collection copies K - 1 pages.
//!
//! A write of page N then takes the slot, and the commit of its stripe, 1, has to collect on chip N - 1. A write of
//! stripe 0 owes that commit, and has to collect for itself, too: on every chip there are still two full blocks with
//! one unnamed page each. One is page 2 K - 2; the other is page 0, but on chip 0 the old page N, and on chip N - 1
//! the old parity page of stripe 1.

use crate::book::Store;
use crate::calls::{Call, Comparison};
use crate::generator::{store_collection, store_spare, ALL};
use crate::random::Random;
use crate::reference::*;
use crate::tickets::good_ticket;

const N: [u64; 5] = [2, 3, 4, 5, 6];
pub const K: [u64; 6] = [2, 3, 4, 8, 32, 128];

/// The calls with their stores. No list of calls was seen to leave an open more than K + 1; other sound images do.
pub const FIGURES: [&str; 7] = [
    "format of (N + 1) B + S + 1",
    "open of K + 2, of built images",
    "open of K + 1, after a cut collect",
    "collect of 2 K + 2",
    "commit of 2 K + 4",
    "write of 4 K + 9",
    "add of 4 K + 9",
];

pub fn point(figure: &str, k: u64) -> String {
    format!("capacitor: {figure}, K = {k}")
}

pub fn run(to: &mut Comparison) {
    for (n, k) in N.into_iter().flat_map(|n| K.map(|k| (n, k))) {
        to.about = format!("capacitor, N = {n}, K = {k}");
        let g = Geometry { n, w: 16, k, b: 3, s: 2 * k - 2, m: 1 };
        let mut random = Random::new(1);
        let store = Store::new(to, &mut random, g);
        Worked { to, random, store }.run();
    }
}

struct Worked<'a> {
    to: &'a mut Comparison,
    random: Random,
    store: Store,
}

impl Worked<'_> {
    fn run(&mut self) {
        let (lost, allowance) = (NO_CHIP, ALL);
        let Geometry { n, s, .. } = self.store.g;
        self.format_any();
        (0..s).for_each(|stripe| self.write_stripe(stripe));
        self.open_built();
        (0..2).for_each(|_| self.write_stripe(0));
        for chip in 0..=n {
            self.needs("collect of 2 K + 2", &Call::Collect { lost, chip, allowance });
            self.open_after_cut(chip);
        }
        self.write(n);
        self.needs("commit of 2 K + 4", &Call::Commit { lost, stripe: 1, allowance });
        for page in 0..n {
            let write = self.write_of(page);
            self.needs("write of 4 K + 9", &write);
        }
        let ticket = good_ticket(&mut self.random).to_vec();
        self.needs("add of 4 K + 9", &Call::Add { lost, ticket, allowance });
    }

    /// It needs as many stores as any such call.
    fn needs(&mut self, figure: &str, call: &Call) {
        let Geometry { n, k, b, s, .. } = self.store.g;
        let stores = match call {
            Call::Format { .. } => (n + 1) * b + s + 1,
            Call::Open { .. } => k + 2,
            Call::Collect { .. } => 2 * k + 2,
            Call::Commit { .. } => 2 * k + 4,
            _ => 4 * k + 9,
        };
        self.takes(figure, stores, call);
    }

    /// So many stores are the least allowance with which the call is not cut.
    fn takes(&mut self, figure: &str, stores: u64, call: &Call) {
        let Worked { to, random, store } = self;
        for (allowance, answer) in [(stores - 1, CUT), (stores, DONE)] {
            let status = to.call(random, store.g, &mut store.images.clone(), &call.allowed(allowance));
            if (status.status, status.stores) != (answer, allowance) {
                to.fail(store.g, &format!("{figure}: at an allowance of {allowance} {status:?}"));
            }
        }
        to.coverage.hit(&point(figure, store.g.k));
    }

    /// Page 0 gets zeros, so that the log ends there: an addition falls in it.
    fn write_of(&mut self, page: u64) -> Call {
        let data = if page == 0 { vec![0; 16] } else { self.random.bytes(16) };
        Call::Write { lost: NO_CHIP, page, data, allowance: ALL }
    }

    fn write(&mut self, page: u64) {
        let call = self.write_of(page);
        self.done(&call);
    }

    fn write_stripe(&mut self, stripe: u64) {
        let n = self.store.g.n;
        (stripe * n..(stripe + 1) * n).for_each(|page| self.write(page));
        self.done(&Call::Commit { lost: NO_CHIP, stripe, allowance: ALL });
    }

    fn done(&mut self, call: &Call) {
        let status = self.store.call(self.to, &mut self.random, call);
        if status.status != DONE {
            self.to.fail(self.store.g, &format!("harness: {} is {status:?}", call.name()));
        }
    }

    /// A format of any bytes.
    fn format_any(&mut self) {
        let before = self.store.images.clone();
        let Images { chips, records, slots } = &mut self.store.images;
        for image in [chips, records, slots] {
            self.random.fill(image);
        }
        self.needs("format of (N + 1) B + S + 1", &Call::Format { allowance: ALL });
        self.store.images = before;
    }

    /// A collection that is cut behind phase 2 leaves all its K - 1 copies to be put in place.
    fn open_after_cut(&mut self, chip: u64) {
        let (before, k) = (self.store.images.clone(), self.store.g.k);
        let cut = Call::Collect { lost: NO_CHIP, chip, allowance: k + 1 };
        self.store.call(self.to, &mut self.random, &cut);
        let open = Call::Open { lost: NO_CHIP, allowance: ALL };
        self.takes("open of K + 1, after a cut collect", k + 1, &open);
        self.store.images = before;
    }

    /// Sound images in phase 2 with every page of the victim named.
    fn open_built(&mut self) {
        let (before, shape) = (self.store.images.clone(), self.store.shape);
        let images = &mut self.store.images;
        for (page, copy) in shape.block_pages(0).zip(shape.block_pages(2)) {
            let (at, copy_at) = (shape.page_at(0, page), shape.page_at(0, copy));
            images.chips.copy_within(at..at + shape.w, copy_at);
            let spare = Spare { copied: page as u16, ..images.view(shape).spare(0, page) };
            store_spare(images, shape, 0, copy, spare);
        }
        store_collection(images, shape, Collection { phase: 2, chip: 0, victim: 0, destination: 2 });
        self.needs("open of K + 2, of built images", &Call::Open { lost: NO_CHIP, allowance: ALL });
        self.store.images = before;
    }
}
