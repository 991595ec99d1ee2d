//! A store in long use.

use crate::library::{self, Lent, LentImages};
use crate::random::Random;
use crate::reference::{Geometry, Images, Status, DONE, NO_CHIP};

pub const SEED: u64 = 1;
/// The shortest pages: no count depends on their length.
pub const W: u64 = 16;

/// A geometry but for its stripes.
#[derive(Clone, Copy)]
pub struct Setting {
    pub n: u64,
    pub k: u64,
    pub b: u64,
    pub m: u64,
}

impl Setting {
    /// The most stripes for which S + M + 1 is at most (B - 1) K.
    pub fn most_stripes(self) -> Option<u64> {
        let pages = self.b.checked_sub(1)?.checked_mul(self.k)?;
        pages.checked_sub(self.m)?.checked_sub(1)
    }

    /// With a share of these stripes, in percent, rounded down; nothing if a limit is broken.
    pub fn geometry(self, share: u64) -> Option<Geometry> {
        let Setting { n, k, b, m } = self;
        let s = self.most_stripes()?.checked_mul(share)? / 100;
        let geometry = Geometry { n, w: W, k, b, s, m };
        geometry.shape().map(|_| geometry)
    }

    /// The writes that count, and as many before them: one for each page of the chips.
    pub fn writes(self) -> usize {
        ((self.n + 1) * self.b * self.k) as usize
    }

    /// The stores that include/vazhettu.h says a write makes at most.
    pub fn most_stores(self) -> u64 {
        4 * self.k + 13
    }
}

/// Which pages are written: any, all alike, or one after the other, over and over.
#[derive(Clone, Copy)]
pub enum Pattern {
    Random,
    Sequential,
}

pub struct Measured {
    /// For each page written.
    pub programs: f64,
    pub erases: f64,
    /// Of one write.
    pub most_stores: u64,
}

/// The store is full before the writes begin, and those that do not count bring it to its steady state.
pub fn measure(setting: Setting, share: u64, pattern: Pattern) -> Measured {
    let geometry = setting.geometry(share).expect("within the limits");
    let pages = (geometry.n * geometry.s) as usize;
    let mut random = Random::new(SEED);
    let mut store = Store::full(geometry, &mut random);
    let mut written = (0..).map(|i| match pattern {
        Pattern::Random => random.below(pages),
        Pattern::Sequential => i % pages,
    });
    written.by_ref().take(setting.writes()).for_each(|page| {
        store.write(page);
    });
    let counts: Vec<Status> = written.take(setting.writes()).map(|page| store.write(page)).collect();
    let mean = |count: fn(&Status) -> u64| counts.iter().map(count).sum::<u64>() as f64 / counts.len() as f64;
    Measured {
        programs: mean(|counts| counts.programs),
        erases: mean(|counts| counts.erases),
        most_stores: counts.iter().map(|counts| counts.stores).max().expect("a chip has pages"),
    }
}

struct Store {
    geometry: Geometry,
    lent: LentImages,
    data: Lent,
}

impl Store {
    /// Formatted, and every page written once, in order.
    fn full(geometry: Geometry, random: &mut Random) -> Store {
        let lengths = geometry.shape().expect("within the limits").lengths();
        let [chips, records, slots] = lengths.map(|length| vec![0; length]);
        let lent = LentImages::new(&Images { chips, records, slots }, random);
        let data = Lent::new(&random.bytes(W as usize), random);
        let mut store = Store { geometry, lent, data };
        done(library::format(geometry, &mut store.lent, u64::MAX));
        for page in 0..geometry.n * geometry.s {
            store.write(page as usize);
        }
        store
    }

    fn write(&mut self, page: usize) -> Status {
        let Store { geometry, lent, data } = self;
        done(library::write(*geometry, lent, NO_CHIP, page as u64, data, u64::MAX))
    }
}

fn done(status: Status) -> Status {
    assert_eq!(status.status, DONE, "{status:?}");
    status
}
