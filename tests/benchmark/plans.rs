//! The tables: which stores, and which rows on them.

use crate::images::{self, Order};
use crate::random::Random;
use crate::reference::{Geometry, Images, Shape, View};
use crate::rows::{self, Row};

pub struct Plan {
    /// By which it is asked for on the command line.
    pub word: &'static str,
    pub about: &'static str,
    pub kind: Kind,
    /// The page sizes, where none is asked for.
    pub widths: &'static [u64],
    pub stores: fn(u64) -> Vec<Geometry>,
    pub images: fn(&mut Random, Shape, Order) -> Images,
    pub rows: fn(View) -> Vec<Row>,
    /// Each call is made on so many copies of the images in turn, and the time is that of all: a call of a
    /// tenth of a microsecond is too short for the clock.
    pub copies: usize,
}

#[derive(Clone, Copy, PartialEq, Eq)]
pub enum Kind {
    /// Each call on stores of several sizes, in both orders.
    Sizes,
    /// Other stores, or other images, in the last order alone.
    Further,
    /// Calls that are turned back, in the last order alone: the floor tells nothing of them, and the second
    /// implementation, which turns back at the first thing that is wrong, is no aim.
    Refused,
    /// Calls that walk a log, in both orders. The aims are for their walks alone, in tables of their own.
    Tickets,
}

pub const PLANS: [Plan; 6] = [
    Plan {
        word: "sizes",
        about: "N = 4, K = 128",
        kind: Kind::Sizes,
        widths: &[16, 512],
        stores: |w| [32, 128, 510].map(|b| store(w, 128, b)).to_vec(),
        images: images::build,
        rows: rows::calls,
        copies: 1,
    },
    Plan {
        word: "small",
        about: "The bench program's store: N = 4, K = 4",
        kind: Kind::Further,
        widths: &[16],
        stores: |w| vec![Geometry { n: 4, w, k: 4, b: 4, s: 6, m: 2 }],
        images: images::build,
        rows: rows::calls,
        copies: 16,
    },
    Plan {
        word: "K2",
        about: "The smallest blocks: N = 4, K = 2",
        kind: Kind::Further,
        widths: &[16],
        stores: |w| [256, 1_024].map(|b| store(w, 2, b)).to_vec(),
        images: images::build,
        rows: rows::calls,
        copies: 1,
    },
    Plan {
        word: "phases",
        about: "Beside a collection that was cut: N = 4, K = 128",
        kind: Kind::Further,
        widths: &[16],
        stores: |w| [2, 32].map(|b| store(w, 128, b)).to_vec(),
        images: images::build,
        rows: rows::phases,
        copies: 1,
    },
    Plan {
        word: "refused",
        about: "Calls turned back: N = 4, K = 128",
        kind: Kind::Refused,
        widths: &[16],
        stores: |w| [2, 32, 128].map(|b| store(w, 128, b)).to_vec(),
        images: images::build,
        rows: rows::refusals,
        copies: 1,
    },
    Plan {
        word: "tickets",
        about: "Tickets in half of the pages: N = 4, K = 128",
        kind: Kind::Tickets,
        widths: &[16, 512, 4_096],
        stores: |w| if w <= 512 { [32, 128, 510] } else { [2, 8, 32] }.map(|b| store(w, 128, b)).to_vec(),
        images: images::build_log,
        rows: rows::tickets,
        copies: 1,
    },
];

/// M is an eighth of the pages of a chip, or the most there is. S is as large as the limits allow:
/// S + M + 1 = (B − 1) × K.
fn store(w: u64, k: u64, b: u64) -> Geometry {
    let m = (b * k / 8).min(254);
    Geometry { n: 4, w, k, b, s: (b - 1) * k - m - 1, m }
}
