//! Random calls through the library and through the reference, compared answer by answer, count by
//! count and byte by byte.
//!
//!     compare SEED COUNT [CASE]
//!
//! makes COUNT random cases from the seed, or only the numbered one, each call of it printed first; in any case the
//! worked cases of document 01 and the longest lists come before. At the end it tells what it covered. Built with the
//! library's archive:
//!
//!     rustc -O --edition 2021 main.rs -L DIRECTORY -l static=vazhettu
//!
//! A case is a geometry that is refused, images with a few calls on them, a log with additions and questions, or a list
//! of calls from a format on.

mod book;
mod breakers;
mod calls;
mod capacitor;
mod coverage;
mod damage;
mod generator;
mod geometries;
mod groups;
mod guard_pages;
mod images;
#[path = "../library.rs"]
#[allow(dead_code)]
mod library;
mod lists;
mod log_notes;
mod logs;
mod notes;
mod origins;
mod paper;
mod plan;
mod points;
#[path = "../random.rs"]
#[allow(dead_code)]
mod random;
#[path = "../reference.rs"]
#[allow(dead_code)]
mod reference;
mod requests;
mod strange;
mod tickets;

use calls::Comparison;
use geometries::bad_geometry_case;
use images::{image_case, largest_case};
use lists::list_case;
use logs::{largest_log_case, log_case};
use random::Random;
use std::io::Write;
use std::process::exit;
use std::sync::atomic::{AtomicU64, Ordering::Relaxed};

/// From so many cases on, a point of the coverage that was never hit is a failure.
const ENOUGH: u64 = 20_000;
/// One in so many cases is of the largest images.
const SELDOM: u64 = 1_000;
/// The seconds after which a case counts as one that does not end.
const TIMEOUT_SECONDS: u32 = 300;

/// The seed and the case under way, for `crashed`.
static UNDER_WAY: [AtomicU64; 2] = [AtomicU64::new(0), AtomicU64::new(0)];

extern "C" {
    fn signal(number: i32, handler: extern "C" fn(i32)) -> usize;
    fn alarm(seconds: u32) -> u32;
    fn write(file: i32, bytes: *const u8, len: usize) -> isize;
    fn _exit(status: i32) -> !;
}

/// Tells which case a crash of the library happened in, and ends the program.
extern "C" fn crashed(number: i32) {
    let [seed, case] = [0, 1].map(|i| UNDER_WAY[i].load(Relaxed));
    let mut text = [0; 120];
    let mut rest = &mut text[..];
    let _ = writeln!(rest, "FAILED: seed {seed}, case {case}: signal {number} in a call");
    let len = 120 - rest.len();
    // SAFETY: the text has that length; nothing is allocated or locked here.
    unsafe {
        write(1, text.as_ptr(), len);
        _exit(1)
    }
}

/// Illegal instruction, abort, bus error, arithmetic error, segmentation fault, and no end in sight.
fn watch_for_crashes() {
    for number in [4, 6, 7, 8, 11, 14] {
        // SAFETY: the handler has the type that the C library asks for.
        unsafe { signal(number, crashed) };
    }
}

fn argument(position: usize) -> Option<u64> {
    let text = std::env::args().nth(position)?;
    match text.parse() {
        Ok(number) => Some(number),
        Err(_) => usage(),
    }
}

fn usage() -> ! {
    println!("usage: compare SEED COUNT [CASE]");
    exit(2);
}

fn run_case(to: &mut Comparison, case: u64) {
    to.case = case;
    to.built = false;
    UNDER_WAY[1].store(case, Relaxed);
    // SAFETY: it only sets a clock.
    unsafe { alarm(TIMEOUT_SECONDS) };
    let mut random = Random::for_case(to.seed, case);
    match random.below(80) {
        _ if case % (4 * SELDOM) == SELDOM - 1 => largest_log_case(to, &mut random),
        _ if case % SELDOM == SELDOM - 1 => largest_case(to, &mut random),
        0..=9 => bad_geometry_case(to, &mut random),
        10..=16 => list_case(to, &mut random),
        17..=24 => log_case(to, &mut random),
        _ => image_case(to, &mut random),
    }
}

fn main() {
    let (Some(seed), Some(count)) = (argument(1), argument(2)) else { usage() };
    let only = argument(3);
    println!("seed {seed}, {count} cases");
    watch_for_crashes();
    UNDER_WAY[0].store(seed, Relaxed);
    let mut to = Comparison::new(seed);
    paper::run(&mut to);
    capacitor::run(&mut to);
    if let Some(case) = only {
        to.tell = true;
        run_case(&mut to, case);
    } else {
        (0..count).for_each(|case| run_case(&mut to, case));
        to.coverage.tell();
    }
    let missed = to.coverage.missed();
    let points = to.coverage.points();
    if count >= ENOUGH && only.is_none() && !missed.is_empty() {
        println!("FAILED: never hit: {}", missed.join("; "));
        exit(1);
    }
    let (rarest, hits) = to.coverage.rarest();
    println!(
        "no difference: seed {seed}, {count} cases, {} calls, {} of {points} points of the coverage hit, \
         the rarest {hits} times ({rarest})",
        to.calls,
        points - missed.len()
    );
}
