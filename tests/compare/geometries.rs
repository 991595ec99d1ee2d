//! Geometries to compare on: within the limits, and beyond one of them.

use crate::calls::{Call, Comparison};
use crate::generator::ALL;
use crate::random::Random;
use crate::reference::{Geometry, Images, NO_CHIP};
use crate::tickets::any_ticket;

/// Each number, and each product and sum, at its limit and beyond.
pub const GEOMETRY_POINTS: [&str; 44] = [
    "n = 2 accepted",
    "n = 6 accepted",
    "n = 0 refused",
    "n = 1 refused",
    "n = 7 refused",
    "n = 2^64 - 1 refused",
    "w = 16 accepted",
    "w = 4,096 accepted",
    "w = 0 refused",
    "w = 8 refused",
    "w = 4,112 refused",
    "w = 2^64 - 1 refused",
    "w = 2^64 - 16 refused",
    "w not a multiple of 16 refused",
    "k = 2 accepted",
    "k = 128 accepted",
    "k = 0 refused",
    "k = 1 refused",
    "k = 129 refused",
    "k = 2^64 - 1 refused",
    "b = 2 accepted",
    "b = 1,024 accepted",
    "b = 0 refused",
    "b = 1 refused",
    "b = 1,025 refused",
    "b = 2^64 - 1 refused",
    "s = 1 accepted",
    "s = 0 refused",
    "s = 65,535 refused",
    "s = 65,536 refused",
    "s = 2^64 - 1 refused",
    "m = 1 accepted",
    "m = 254 accepted",
    "m = 0 refused",
    "m = 255 refused",
    "m = 2^64 - 1 refused",
    "b x k = 65,535 accepted",
    "b x k = 65,536 refused",
    "b x k = 2^64 refused",
    "s + m + 1 = (b - 1) x k accepted",
    "s + m + 1 = (b - 1) x k + 1 refused",
    "s + m + 1 = 2^64 refused",
    "lengths of the refused geometry",
    "a number of 2^32 and a good one refused",
];

/// The points that a geometry within the limits reaches.
pub fn limits_reached(g: Geometry) -> impl Iterator<Item = &'static str> {
    let limits = [
        (g.n == 2, "n = 2 accepted"),
        (g.n == 6, "n = 6 accepted"),
        (g.w == 16, "w = 16 accepted"),
        (g.w == 4_096, "w = 4,096 accepted"),
        (g.k == 2, "k = 2 accepted"),
        (g.k == 128, "k = 128 accepted"),
        (g.b == 2, "b = 2 accepted"),
        (g.b == 1_024, "b = 1,024 accepted"),
        (g.s == 1, "s = 1 accepted"),
        (g.m == 1, "m = 1 accepted"),
        (g.m == 254, "m = 254 accepted"),
        (g.b * g.k == 65_535, "b x k = 65,535 accepted"),
        (g.s + g.m + 1 == (g.b - 1) * g.k, "s + m + 1 = (b - 1) x k accepted"),
    ];
    limits.into_iter().filter(|&(reached, _)| reached).map(|(_, point)| point)
}

/// Within the limits: small mostly, one number at its limit often, large rarely.
pub fn good_geometry(random: &mut Random) -> Geometry {
    let n = random.between(2, 6) as u64;
    let (mut w, mut k, mut b) = (16, random.between(2, 5), random.between(2, 6));
    let mut m = random.between(1, 4);
    match random.below(1_200) {
        0 => (k, b) = random.pick(&[(85, 771), (128, 511), (64, 1_023), (127, 516), (63, 1_024)]),
        1..=3 => (k, b, m) = (85, 771, random.pick(&[1, 254])),
        4..=49 => (k, b, m) = (random.between(16, 20), random.between(17, 24), 254),
        50..=94 => (k, b) = (128, random.between(2, 3)),
        95..=104 => (k, b) = (random.between(2, 3), 1_024),
        105..=134 => w = 4_096,
        135..=299 => w = 16 * random.between(1, 8),
        300..=399 => (k, b) = (random.between(2, 16), random.between(2, 16)),
        _ => {}
    }
    if (b - 1) * k < m + 2 {
        (k, b, m) = (k.max(3), b, 1);
    }
    let most = (b - 1) * k - m - 1;
    let s = match random.below(4) {
        0 => random.between(1, most),
        1 => random.between(1, most.min(3)),
        _ => most,
    };
    Geometry { n, w: w as u64, k: k as u64, b: b as u64, s: s as u64, m: m as u64 }
}

/// As many pages to a chip as can be numbered, and at times more than 2^24 bytes in all.
pub fn largest_geometry(random: &mut Random) -> Geometry {
    let (k, b, m) = (85, 771, random.pick(&[1, 254]));
    Geometry { n: random.between(3, 6) as u64, w: random.pick(&[16, 64]), k, b, s: (b - 1) * k - m - 1, m }
}

/// For lists of calls: small mostly, so that commits and collections are frequent; K, B, S and M at
/// their limits often.
pub fn list_geometry(random: &mut Random) -> Geometry {
    let n = random.between(2, 6);
    let (mut w, mut k, mut b) = (16, random.pick(&[2, 2, 3, 4, 5]), random.pick(&[2, 2, 3, 4, 5, 6]));
    let mut m = random.pick(&[1, 1, 2, 3, 4]);
    match random.below(300) {
        0..=4 => (k, b) = (2, 1_024),
        5..=14 => (k, b) = (128, random.between(2, 3)),
        15..=20 => (k, b, m) = (random.between(22, 24), random.between(24, 26), 254),
        21..=28 => w = 4_096,
        29..=68 => w = 16 * random.between(1, 8),
        69..=88 => (k, b) = (random.between(2, 16), random.between(2, 10)),
        _ => {}
    }
    if (k, b) == (2, 2) {
        k = 3;
    }
    let together = (b - 1) * k - 1;
    if m >= together {
        m = 1;
    }
    if random.one_in(8) {
        m = (together - 1).min(254);
    }
    let s = match random.below(6) {
        0 => 1,
        1 => random.between(1, together - m),
        _ => together - m,
    };
    let [n, w, k, b, s, m] = [n, w, k, b, s, m].map(|number| number as u64);
    Geometry { n, w, k, b, s, m }
}

/// For logs: few pages mostly, so that a log fills them; one ticket to a page often, and 256 at times.
pub fn log_geometry(random: &mut Random) -> Geometry {
    let (mut k, mut b, m) = (random.between(2, 4), random.between(3, 4), random.between(1, 2));
    if random.one_in(20) {
        (k, b) = (random.between(2, 128), random.between(2, 6));
    }
    let w = match random.below(40) {
        0 => 4_096,
        1..=16 => 16 * random.between(2, 4),
        _ => 16,
    };
    k = k.max(m + 2);
    let most = (b - 1) * k - m - 1;
    let s = match random.below(4) {
        0 => most,
        _ => random.between(1, most.min(3)),
    };
    let n = random.between(2, 6);
    let [n, w, k, b, s, m] = [n, w, k, b, s, m].map(|number| number as u64);
    Geometry { n, w, k, b, s, m }
}

/// Every call is refused for its geometry, whatever else there is.
pub fn bad_geometry_case(to: &mut Comparison, random: &mut Random) {
    let (g, point) = bad_geometry(random);
    to.about = format!("geometry, {point}");
    let lengths = wrapped_lengths(g);
    let fitting = lengths.iter().all(|&length| length < 8 << 20);
    let fitting = fitting && (lengths[0] < 1 << 20 || random.one_in(20));
    let lengths = if fitting { lengths } else { [(); 3].map(|()| random.below(3_000) as u64) };
    let fill = random.pick(&[0, 255]);
    let [chips, records, slots] = lengths.map(|length| vec![fill; length as usize]);
    let mut images = Images { chips, records, slots };
    let bytes = random.bytes(if fitting && g.w < 5_000 { g.w as usize } else { 16 });
    let ticket = any_ticket(random);
    let lost = random.pick(&[NO_CHIP, 0, 9, ALL]);
    let allowance = random.pick(&[0, 1, ALL]);
    let number = random.pick(&[0, 1, ALL]);
    for call in &Call::of_each_kind(lost, number, [bytes.clone(), bytes, ticket], allowance) {
        let status = to.call(random, g, &mut images, call);
        if status.status != 1 {
            to.fail(g, &format!("harness: {point} is {status:?}, not refused 1"));
        }
    }
    to.coverage.hit(point);
    to.coverage.hit_if(fitting, "lengths of the refused geometry");
}

/// A good geometry with one number, or a product or sum, beyond its limit.
fn bad_geometry(random: &mut Random) -> (Geometry, &'static str) {
    let mut g = good_geometry(random);
    while g.b * g.k > 5_000 {
        g = good_geometry(random);
    }
    let point = random.pick(&GEOMETRY_POINTS);
    if bad_number(random, &mut g, point) || bad_together(random, &mut g, point) {
        return (g, point);
    }
    (several_bad(random, g), "a number of 2^32 and a good one refused")
}

/// Breaks the limit of one number; false if the point is not about one.
fn bad_number(random: &mut Random, g: &mut Geometry, point: &str) -> bool {
    match point {
        "n = 0 refused" => g.n = 0,
        "n = 1 refused" => g.n = 1,
        "n = 7 refused" => g.n = 7,
        "n = 2^64 - 1 refused" => g.n = ALL,
        "w = 0 refused" => g.w = 0,
        "w = 8 refused" => g.w = 8,
        "w = 4,112 refused" => g.w = 4_112,
        "w = 2^64 - 1 refused" => g.w = ALL,
        "w = 2^64 - 16 refused" => g.w = ALL - 15,
        "w not a multiple of 16 refused" => {
            g.w = (16 * random.between(1, 255) + random.between(1, 15)) as u64
        }
        "k = 0 refused" => g.k = 0,
        "k = 1 refused" => (g.k, g.b, g.s, g.m) = (1, 8, 1, 1),
        "k = 129 refused" => (g.k, g.b) = (129, 3),
        "k = 2^64 - 1 refused" => g.k = ALL,
        "b = 0 refused" => g.b = 0,
        "b = 1 refused" => g.b = 1,
        "b = 1,025 refused" => (g.b, g.k) = (1_025, 2),
        "b = 2^64 - 1 refused" => g.b = ALL,
        "s = 0 refused" => g.s = 0,
        "s = 65,535 refused" => g.s = 65_535,
        "s = 65,536 refused" => g.s = 65_536,
        "s = 2^64 - 1 refused" => g.s = ALL,
        "m = 0 refused" => g.m = 0,
        "m = 255 refused" => (g.k, g.b, g.s, g.m) = (20, 20, 3, 255),
        "m = 2^64 - 1 refused" => g.m = ALL,
        _ => return false,
    }
    true
}

/// Breaks the limit of a product or a sum; false if the point is not about one.
fn bad_together(random: &mut Random, g: &mut Geometry, point: &str) -> bool {
    let sums = [(ALL, 1), (ALL - 1, 1), (ALL - 254, 254), (1, ALL), (1, ALL - 1)];
    match point {
        "b x k = 65,536 refused" => (g.b, g.k, g.w) = (512, 128, 16),
        "b x k = 2^64 refused" => {
            (g.b, g.k) = random.pick(&[(1 << 32, 1 << 32), (1 << 57, 128), (1_024, 1 << 54)])
        }
        "s + m + 1 = (b - 1) x k + 1 refused" => g.s = (g.b - 1) * g.k - g.m,
        "s + m + 1 = 2^64 refused" => (g.s, g.m) = random.pick(&sums),
        _ => return false,
    }
    true
}

/// Numbers that are good in their lower half alone, and others beyond all limits.
fn several_bad(random: &mut Random, mut g: Geometry) -> Geometry {
    let numbers = [&mut g.n, &mut g.w, &mut g.k, &mut g.b, &mut g.s, &mut g.m];
    let first = random.below(6);
    for (i, number) in numbers.into_iter().enumerate() {
        if i == first {
            *number = number.wrapping_add(random.pick(&[1 << 32, 1 << 16, 1 << 63, 1 << 48]));
        } else if random.one_in(6) {
            *number = random.pick(&[0, 1, 1 << 16, 1 << 32, 1 << 63, u64::MAX, u64::MAX - 254]);
        }
    }
    g
}

/// The lengths a geometry asks for, wrapping where they overflow.
pub fn wrapped_lengths(g: Geometry) -> [u64; 3] {
    let pages = g.n.wrapping_add(1).wrapping_mul(g.b).wrapping_mul(g.k);
    [
        pages.wrapping_mul(g.w.wrapping_add(8)),
        g.s.wrapping_add(1).wrapping_mul(32),
        g.m.wrapping_add(1).wrapping_mul(g.w),
    ]
}
