//! The library as it was: the exports of another archive, with `before_` in front of their names.

use crate::library::{Answer, Geometry, Report};
#[cfg(before_origins)]
use crate::library::{FindReport, ReadReport};
use crate::owned::Tickets;
use crate::reference::{self, Images, Status};
#[cfg(not(before_origins))]
use without_origins::{FindReport, ReadReport};

/// The reports of readings that did not say how a page was got.
#[cfg(not(before_origins))]
mod without_origins {
    use super::{Answer, Report, Status};

    #[repr(C)]
    pub struct ReadReport(Report);

    #[repr(C)]
    pub struct FindReport {
        report: Report,
        /// 1 where a weight stands, gross and tare.
        found: [u64; 3],
    }

    impl From<ReadReport> for Answer {
        fn from(ReadReport(report): ReadReport) -> Answer {
            Status::from(report).into()
        }
    }

    impl From<FindReport> for Answer {
        fn from(FindReport { report, found }: FindReport) -> Answer {
            Answer { found, ..Status::from(report).into() }
        }
    }
}

pub const ORIGINS: bool = cfg!(before_origins);

macro_rules! exports {
    ($($export:ident($($argument:ident: $type:ty $([$len:ident])?,)*) -> $answer:ty;)*) => {
        // an archive of before the tickets lacks two of them
        #[allow(dead_code)]
        extern "C" {
            $(
                #[link_name = concat!("before_", stringify!($export))]
                fn $export($($argument: $type, $($len: usize,)?)*) -> $answer;
            )*
        }
    };
}

include!("../exports.rs");

/// An export on images, by pointers to read or to write them, with what it takes besides.
macro_rules! call {
    ($export:ident, $g:expr, $images:expr, $pointer:ident $(, $argument:expr)*) => {{
        let Images { chips, records, slots } = $images;
        let (chips_len, records_len, slots_len) = (chips.len(), records.len(), slots.len());
        let (chips, records, slots) = (chips.$pointer(), records.$pointer(), slots.$pointer());
        // SAFETY: each pointer is to as many bytes as the length beside it says, and each to a buffer of its own.
        let report = unsafe {
            $export($g.into(), chips, chips_len, records, records_len, slots, slots_len $(, $argument)*)
        };
        report.into()
    }};
}

pub fn format(g: reference::Geometry, images: &mut Images, allowance: u64) -> Status {
    call!(vazhettu_format, g, images, as_mut_ptr, allowance)
}

pub fn open(g: reference::Geometry, images: &mut Images, lost: u64, allowance: u64) -> Status {
    call!(vazhettu_open, g, images, as_mut_ptr, lost, allowance)
}

pub fn read(g: reference::Geometry, images: &Images, lost: u64, page: u64, buffer: &mut [u8]) -> Answer {
    call!(vazhettu_read, g, images, as_ptr, lost, page, buffer.as_mut_ptr(), buffer.len())
}

pub fn write(
    g: reference::Geometry,
    images: &mut Images,
    lost: u64,
    page: u64,
    data: &[u8],
    allowance: u64,
) -> Status {
    call!(vazhettu_write, g, images, as_mut_ptr, lost, page, data.as_ptr(), data.len(), allowance)
}

pub fn commit(g: reference::Geometry, images: &mut Images, lost: u64, stripe: u64, allowance: u64) -> Status {
    call!(vazhettu_commit, g, images, as_mut_ptr, lost, stripe, allowance)
}

pub fn collect(g: reference::Geometry, images: &mut Images, lost: u64, chip: u64, allowance: u64) -> Status {
    call!(vazhettu_collect, g, images, as_mut_ptr, lost, chip, allowance)
}

#[cfg(not(before_tickets))]
pub const TICKETS: Option<Tickets> = None;

#[cfg(before_tickets)]
pub const TICKETS: Option<Tickets> = Some(Tickets { add, find });

#[cfg(before_tickets)]
fn add(g: reference::Geometry, images: &mut Images, lost: u64, ticket: &[u8], allowance: u64) -> Status {
    call!(vazhettu_add, g, images, as_mut_ptr, lost, ticket.as_ptr(), ticket.len(), allowance)
}

#[cfg(before_tickets)]
fn find(g: reference::Geometry, images: &Images, lost: u64, lot: u32, bag: u16) -> Answer {
    call!(vazhettu_find, g, images, as_ptr, lost, lot, bag)
}
