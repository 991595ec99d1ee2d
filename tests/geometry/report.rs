//! What was measured, as tables in Markdown.

use crate::store::{Measured, Setting, SEED, W};
use crate::{PATTERNS, SHARES};

/// A setting, and what was measured by pattern and share.
pub type Row = (Setting, [[Measured; SHARES.len()]; PATTERNS.len()]);

pub fn print(rows: &[Row]) {
    println!(
        "A share of stripes is S in percent of the largest that the limits allow, (B - 1) K - M - 1, rounded down. Every\n\
         page of the store is written once, in order; then single pages are written, at random (all alike) or in sequence\n\
         (over and over): as many as the chips have pages, (N + 1) B K, that do not count, and as many that do. No chip is\n\
         lost. W = {W}, seed {SEED}."
    );
    table(rows, "Pages programmed (data, parity and copies) for each page written", |_, found| {
        significant(found.programs)
    });
    table(rows, "Blocks erased for each 1,000 pages written", |_, found| significant(found.erases * 1_000.0));
    table(
        rows,
        "Longest write, in percent of the 4 K + 13 stores that a write makes at most",
        |setting, found| format!("{:.0}", found.most_stores as f64 * 100.0 / setting.most_stores() as f64),
    );
}

fn table(rows: &[Row], title: &str, cell: impl Fn(&Setting, &Measured) -> String) {
    println!("\n{title}:\n");
    let numbers = ["N", "K", "B", "M", "largest S"].map(String::from);
    let mut shares =
        [SHARES; PATTERNS.len()].concat().iter().map(|share| format!("{share}%")).collect::<Vec<_>>();
    shares[0].insert_str(0, "random ");
    shares[SHARES.len()].insert_str(0, "sequential ");
    let heads = [&numbers[..], &shares].concat();
    line(&heads);
    println!("|{}", "---:|".repeat(heads.len()));
    for (setting, measured) in rows {
        let Setting { n, k, b, m } = *setting;
        let stripes = setting.most_stripes().expect("within the limits");
        let numbers = [n, k, b, m, stripes].map(|number| number.to_string());
        let cells = measured.iter().flatten().map(|found| cell(setting, found));
        line(&numbers.into_iter().chain(cells).collect::<Vec<_>>());
    }
}

fn line(cells: &[String]) {
    println!("| {} |", cells.join(" | "));
}

/// With two digits behind the point below 10, one below 100, and none above.
fn significant(number: f64) -> String {
    let digits = if number < 10.0 { 2 } else { (number < 100.0) as usize };
    format!("{number:.digits$}")
}
