//! What a geometry asks of the chips: pages programmed and blocks erased for each page written, and the longest write.
//!
//!     geometry [N K B M]
//!
//! prints tables of some geometries, or of the one, against the share of stripes used.

#[path = "../library.rs"]
#[allow(dead_code)]
mod library;
#[path = "../random.rs"]
#[allow(dead_code)]
mod random;
#[path = "../reference.rs"]
#[allow(dead_code)]
mod reference;

mod report;
mod store;

use std::process::exit;
use store::{Pattern, Setting};

/// S in percent of the largest that the limits allow.
const SHARES: [u64; 5] = [100, 95, 90, 80, 50];
const PATTERNS: [Pattern; 2] = [Pattern::Random, Pattern::Sequential];
/// Pages to a chip, in the tables of more than one geometry.
const PAGES: u64 = 2_048;

/// Every K and M at N = 4, and other N.
fn settings() -> Vec<Setting> {
    let setting = |n, k, m| Setting { n, k, b: PAGES / k, m };
    let at_four = [8, 32, 128].into_iter().flat_map(|k| [4, 16, 64, 254].map(|m| setting(4, k, m)));
    at_four.chain([2, 6].map(|n| setting(n, 32, 16))).collect()
}

/// Nothing if a word is no number, or a limit is broken.
fn asked_for(words: impl Iterator<Item = String>) -> Option<Vec<Setting>> {
    let numbers = words.map(|word| word.parse().ok()).collect::<Option<Vec<u64>>>()?;
    let settings = match numbers[..] {
        [] => settings(),
        [n, k, b, m] => vec![Setting { n, k, b, m }],
        _ => return None,
    };
    let fits = |setting: &Setting| SHARES.iter().all(|&share| setting.geometry(share).is_some());
    settings.iter().all(fits).then_some(settings)
}

fn main() {
    let Some(settings) = asked_for(std::env::args().skip(1)) else {
        println!("usage: geometry [N K B M]");
        exit(2);
    };
    let rows = settings.into_iter().map(|setting| {
        let measure = |pattern| SHARES.map(|share| store::measure(setting, share, pattern));
        (setting, PATTERNS.map(measure))
    });
    report::print(&rows.collect::<Vec<_>>());
}
