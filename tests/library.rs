//! The store's C interface, and safe calls of it on lent copies with guard bytes around them.

use crate::random::Random;
use crate::reference::{self, Finding, Images, Reading, Status, Weight};

#[repr(C)]
#[derive(Clone, Copy)]
pub struct Geometry {
    n: u64,
    w: u64,
    k: u64,
    b: u64,
    s: u64,
    m: u64,
}

#[repr(C)]
#[derive(Clone, Copy)]
pub struct Report {
    status: u64,
    reads: u64,
    programs: u64,
    erases: u64,
    stores: u64,
}

#[repr(C)]
#[derive(Clone, Copy)]
pub struct ReadReport {
    status: u64,
    reads: u64,
    programs: u64,
    erases: u64,
    stores: u64,
    origin: u64,
}

/// `standing` is 1 where a weight stands, else 0, and so are both weights.
#[repr(C)]
#[derive(Clone, Copy)]
pub struct FindReport {
    status: u64,
    reads: u64,
    programs: u64,
    erases: u64,
    stores: u64,
    standing: u64,
    gross: u64,
    tare: u64,
    origin: u64,
}

macro_rules! exports {
    ($($export:ident($($argument:ident: $type:ty $([$len:ident])?,)*) -> $answer:ty;)*) => {
        extern "C" {
            $(fn $export($($argument: $type, $($len: usize,)?)*) -> $answer;)*
        }
    };
}

include!("exports.rs");

impl From<reference::Geometry> for Geometry {
    fn from(g: reference::Geometry) -> Geometry {
        Geometry { n: g.n, w: g.w, k: g.k, b: g.b, s: g.s, m: g.m }
    }
}

/// What any call answers, as numbers: of a question 1 if a weight stands, its gross and its tare; of a reading its
/// origin. What a call does not have is 0.
#[derive(Clone, Copy, Debug, Default, PartialEq, Eq)]
pub struct Answer {
    pub status: Status,
    pub found: [u64; 3],
    pub origin: u64,
}

impl From<Report> for Status {
    fn from(report: Report) -> Status {
        let Report { status, reads, programs, erases, stores } = report;
        Status { status, reads, programs, erases, stores }
    }
}

impl From<ReadReport> for Answer {
    fn from(report: ReadReport) -> Answer {
        let ReadReport { status, reads, programs, erases, stores, origin } = report;
        Answer { status: Status { status, reads, programs, erases, stores }, found: [0; 3], origin }
    }
}

impl From<FindReport> for Answer {
    fn from(report: FindReport) -> Answer {
        let FindReport { status, reads, programs, erases, stores, standing, gross, tare, origin } = report;
        let status = Status { status, reads, programs, erases, stores };
        Answer { status, found: [standing, gross, tare], origin }
    }
}

impl From<Status> for Answer {
    fn from(status: Status) -> Answer {
        Answer { status, ..Answer::default() }
    }
}

impl From<Reading> for Answer {
    fn from(Reading { status, origin }: Reading) -> Answer {
        Answer { status, found: [0; 3], origin: origin.map_or(0, |origin| origin as u64) }
    }
}

impl From<Finding> for Answer {
    fn from(Finding { status, weight, origin }: Finding) -> Answer {
        let found = weight.map_or([0; 3], |Weight { gross, tare }| [1, gross as u64, tare as u64]);
        Answer { status, found, origin: origin.map_or(0, |origin| origin as u64) }
    }
}

/// Bytes that the library may be lent.
pub trait Buffer {
    fn pointer(&mut self) -> *mut u8;
    fn length(&self) -> usize;
}

pub const GUARD: usize = 64;

/// A copy lent to the library, at any alignment, between guard bytes.
pub struct Lent {
    bytes: Vec<u8>,
    start: usize,
    len: usize,
}

impl Lent {
    pub fn new(content: &[u8], random: &mut Random) -> Lent {
        let start = GUARD + random.below(16);
        let mut bytes = Vec::with_capacity(start + content.len() + GUARD);
        bytes.extend((0..start).map(guard));
        bytes.extend_from_slice(content);
        bytes.extend((start + content.len()..start + content.len() + GUARD).map(guard));
        Lent { bytes, start, len: content.len() }
    }

    pub fn content(&self) -> &[u8] {
        &self.bytes[self.start..self.start + self.len]
    }

    pub fn content_mut(&mut self) -> &mut [u8] {
        &mut self.bytes[self.start..self.start + self.len]
    }

    /// True when no byte around the copy was changed.
    pub fn guarded(&self) -> bool {
        let around = (0..self.start).chain(self.start + self.len..self.bytes.len());
        around.into_iter().all(|i| self.bytes[i] == guard(i))
    }
}

impl Buffer for Lent {
    fn pointer(&mut self) -> *mut u8 {
        self.content_mut().as_mut_ptr()
    }

    fn length(&self) -> usize {
        self.len
    }
}

/// The guard byte at an offset.
pub fn guard(i: usize) -> u8 {
    (i as u8).wrapping_mul(89) ^ 0x3c
}

/// The three images, lent.
pub struct LentImages<L = Lent> {
    pub chips: L,
    pub records: L,
    pub slots: L,
}

impl LentImages {
    pub fn new(images: &Images, random: &mut Random) -> LentImages {
        LentImages {
            chips: Lent::new(&images.chips, random),
            records: Lent::new(&images.records, random),
            slots: Lent::new(&images.slots, random),
        }
    }
}

/// An export on lent images, with what it takes besides them.
macro_rules! call {
    ($export:ident, $g:expr, $lent:expr $(, $argument:expr)*) => {{
        let LentImages { chips, records, slots } = $lent;
        let (chips_len, records_len, slots_len) = (chips.length(), records.length(), slots.length());
        let (chips, records, slots) = (chips.pointer(), records.pointer(), slots.pointer());
        // SAFETY: each pointer is to as many bytes as the length beside it says, and each to a buffer of its own.
        let report = unsafe {
            $export($g.into(), chips, chips_len, records, records_len, slots, slots_len $(, $argument)*)
        };
        report.into()
    }};
}

pub fn format<L: Buffer>(g: reference::Geometry, lent: &mut LentImages<L>, allowance: u64) -> Status {
    call!(vazhettu_format, g, lent, allowance)
}

pub fn open<L: Buffer>(
    g: reference::Geometry,
    lent: &mut LentImages<L>,
    lost: u64,
    allowance: u64,
) -> Status {
    call!(vazhettu_open, g, lent, lost, allowance)
}

pub fn read<L: Buffer>(
    g: reference::Geometry,
    lent: &mut LentImages<L>,
    lost: u64,
    page: u64,
    buffer: &mut L,
) -> Answer {
    call!(vazhettu_read, g, lent, lost, page, buffer.pointer(), buffer.length())
}

pub fn write<L: Buffer>(
    g: reference::Geometry,
    lent: &mut LentImages<L>,
    lost: u64,
    page: u64,
    data: &mut L,
    allowance: u64,
) -> Status {
    call!(vazhettu_write, g, lent, lost, page, data.pointer(), data.length(), allowance)
}

pub fn commit<L: Buffer>(
    g: reference::Geometry,
    lent: &mut LentImages<L>,
    lost: u64,
    stripe: u64,
    allowance: u64,
) -> Status {
    call!(vazhettu_commit, g, lent, lost, stripe, allowance)
}

pub fn collect<L: Buffer>(
    g: reference::Geometry,
    lent: &mut LentImages<L>,
    lost: u64,
    chip: u64,
    allowance: u64,
) -> Status {
    call!(vazhettu_collect, g, lent, lost, chip, allowance)
}

pub fn add<L: Buffer>(
    g: reference::Geometry,
    lent: &mut LentImages<L>,
    lost: u64,
    ticket: &mut L,
    allowance: u64,
) -> Status {
    call!(vazhettu_add, g, lent, lost, ticket.pointer(), ticket.length(), allowance)
}

pub fn find<L: Buffer>(
    g: reference::Geometry,
    lent: &mut LentImages<L>,
    lost: u64,
    lot: u32,
    bag: u16,
) -> Answer {
    call!(vazhettu_find, g, lent, lost, lot, bag)
}
