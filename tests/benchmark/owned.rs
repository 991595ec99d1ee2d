//! The implementations that own their images, as tables of their calls.

#[cfg(before)]
use crate::before as third;
use crate::library::Answer;
use crate::reference::{self, Geometry, Images, Status};
#[cfg(not(before))]
use crate::tuned as third;

pub struct Calls {
    pub format: fn(Geometry, &mut Images, u64) -> Status,
    pub open: fn(Geometry, &mut Images, u64, u64) -> Status,
    pub read: fn(Geometry, &Images, u64, u64, &mut [u8]) -> Answer,
    pub write: fn(Geometry, &mut Images, u64, u64, &[u8], u64) -> Status,
    pub commit: fn(Geometry, &mut Images, u64, u64, u64) -> Status,
    pub collect: fn(Geometry, &mut Images, u64, u64, u64) -> Status,
    /// An archive of before the tickets has none.
    pub tickets: Option<Tickets>,
    /// Whether a reading says how its page was got; an archive of before the origins does not.
    pub origins: bool,
}

impl Calls {
    /// As much of an answer as it says.
    pub fn told(&self, answer: Answer) -> Answer {
        Answer { origin: if self.origins { answer.origin } else { 0 }, ..answer }
    }
}

pub struct Tickets {
    pub add: fn(Geometry, &mut Images, u64, &[u8], u64) -> Status,
    pub find: fn(Geometry, &Images, u64, u32, u16) -> Answer,
}

pub const REFERENCE: Calls = Calls {
    format: reference::format,
    open: reference::open,
    read,
    write: reference::write,
    commit: reference::commit,
    collect: reference::collect,
    tickets: Some(Tickets { add: reference::add, find }),
    origins: true,
};

fn read(geometry: Geometry, images: &Images, lost: u64, page: u64, buffer: &mut [u8]) -> Answer {
    reference::read(geometry, images, lost, page, buffer).into()
}

fn find(geometry: Geometry, images: &Images, lost: u64, lot: u32, bag: u16) -> Answer {
    reference::find(geometry, images, lost, lot, bag).into()
}

/// The one tuned by hand; or the library as it was.
pub const THIRD: Calls = Calls {
    format: third::format,
    open: third::open,
    read: third::read,
    write: third::write,
    commit: third::commit,
    collect: third::collect,
    tickets: third::TICKETS,
    origins: third::ORIGINS,
};

/// What the third is called, and its column.
pub const THIRD_NAME: &str = if cfg!(before) { "before" } else { "tuned" };
pub const THIRD_HEAD: &str = if cfg!(before) { "/before" } else { "/tuned" };
