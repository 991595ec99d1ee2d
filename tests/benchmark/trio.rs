//! The same store three times, lent to the library and owned by the second and the third implementation, and
//! the calls of all.

use crate::library::{self, Answer, Buffer, Lent, LentImages};
use crate::owned::{Calls, REFERENCE, THIRD};
use crate::patch::Patch;
use crate::placed;
use crate::random::Random;
use crate::reference::{Geometry, Images, Shape, Ticket, DONE, NONE, NO_CHIP, WEIGHT};
use std::hint::black_box;
use std::process::exit;

/// A call; what it does not name is: no chip lost, the page that the store holds ready for writes.
#[derive(Clone, Copy)]
pub enum Call {
    Read {
        lost: u64,
        page: u64,
    },
    /// With one stripe more than the limits allow.
    ReadBeyond,
    /// With slots that lack their last byte.
    ReadShort,
    Write {
        page: u64,
    },
    /// With no allowance.
    WriteCut {
        page: u64,
    },
    Commit {
        stripe: u64,
    },
    Collect {
        chip: u64,
    },
    Open {
        lost: u64,
    },
    Format,
    Add,
    /// With no allowance.
    AddCut,
    Find {
        lost: u64,
        lot: u32,
        bag: u16,
    },
}

/// The ticket that is added.
const TICKET: Ticket = Ticket { kind: WEIGHT, zero: 0, bag: 7, lot: 1_907, gross: 51_200, tare: 310 };

/// How often a call is made on each copy of the images, with which allowance, and what it must answer.
#[derive(Clone, Copy)]
pub struct Times {
    pub repeats: usize,
    pub allowance: u64,
    pub expected: Answer,
}

/// Each image in as many copies as the calls are made on one after the other.
pub struct Trio {
    pub geometry: Geometry,
    pub shape: Shape,
    owners: [Owner; 2],
    lent: Vec<LentImages>,
    lent_given: Given<Lent>,
    lent_buffer: Lent,
}

/// The page that is written, and the ticket that is added.
struct Given<B> {
    data: B,
    ticket: B,
}

/// An implementation that owns its images, what it is given and the page that it reads to.
struct Owner {
    calls: &'static Calls,
    images: Vec<Images>,
    given: Given<Vec<u8>>,
    buffer: Vec<u8>,
}

/// Which of the owners.
#[derive(Clone, Copy)]
pub enum By {
    Reference,
    Third,
}

impl Trio {
    pub fn new(geometry: Geometry, images: &Images, copies: usize, random: &mut Random) -> Trio {
        let shape = geometry.shape().expect("within the limits");
        let (data, ticket) = (random.bytes(shape.w), TICKET.to_bytes());
        let buffer = vec![1; shape.w];
        let owner = |calls| Owner {
            calls,
            images: (0..copies).map(|_| placed::owned(images)).collect(),
            given: Given { data: data.clone(), ticket: ticket.to_vec() },
            buffer: buffer.clone(),
        };
        Trio {
            geometry,
            shape,
            owners: [owner(&REFERENCE), owner(&THIRD)],
            lent: (0..copies).map(|_| placed::lent_images(images)).collect(),
            lent_given: Given { data: placed::lent(&data), ticket: placed::lent(&ticket) },
            lent_buffer: placed::lent(&buffer),
        }
    }

    pub fn images(&self) -> &Images {
        &self.owners[By::Reference as usize].images[0]
    }

    /// The answer that was not expected, if there is one.
    pub fn by_library(&mut self, call: Call, times: Times) -> Option<Answer> {
        let Trio { geometry, lent, lent_given, lent_buffer, .. } = self;
        let mut other = None;
        for lent in lent {
            for _ in 0..times.repeats {
                let found = library_call(*geometry, lent, lent_given, lent_buffer, call, times.allowance);
                other = other.or((found != times.expected).then_some(found));
            }
        }
        other
    }

    pub fn by_owner(&mut self, by: By, call: Call, times: Times) -> Option<Answer> {
        let Owner { calls, images, given, buffer } = &mut self.owners[by as usize];
        let expected = calls.told(times.expected);
        let mut other = None;
        for images in images {
            let last = if matches!(call, Call::ReadShort) { images.slots.pop() } else { None };
            for _ in 0..times.repeats {
                let images = black_box(&mut *images);
                let found = owner_call(calls, self.geometry, images, given, buffer, call, times.allowance);
                other = other.or((found != expected).then_some(found));
            }
            images.slots.extend(last);
        }
        other
    }

    /// Makes the call in all, which must agree in answer, counts and every byte, and tells how to take it
    /// back.
    pub fn by_all(&mut self, call: Call, allowance: u64) -> (Answer, Patch) {
        self.lent_buffer.content_mut().fill(1);
        self.owners.iter_mut().for_each(|owner| owner.buffer.fill(1));
        let mut times = Times { repeats: 1, allowance, expected: Answer::default() };
        times.expected = self.by_owner(By::Reference, call, times).unwrap_or_default();
        let back = Patch::back(self.shape, &self.lent[0], self.images());
        let found = [self.by_library(call, times), self.by_owner(By::Third, call, times)];
        if let Some(found) = found.into_iter().flatten().next() {
            fail(&format!("{found:?}, expected {:?}", times.expected));
        }
        self.check_equal();
        self.check_buffers(call, times.expected);
        (times.expected, back)
    }

    /// Changes the images by hand: what to put to make the change, and what to put to take it back. They are
    /// left as they were.
    pub fn change(&mut self, change: impl FnOnce(&mut Images)) -> (Patch, Patch) {
        let images = &mut self.owners[By::Reference as usize].images[0];
        change(images);
        let back = Patch::back(self.shape, &self.lent[0], images);
        let ahead = back.now(images);
        back.put_owned(images);
        (ahead, back)
    }

    pub fn check_equal(&self) {
        let expected = self.images();
        let parts = [&expected.chips, &expected.records, &expected.slots].map(|image| &image[..]);
        let lent = |lent: &LentImages| {
            let images = [&lent.chips, &lent.records, &lent.slots];
            images.map(Lent::content) == parts && images.into_iter().all(Lent::guarded)
        };
        let owned = |owner: &Owner| owner.images.iter().all(|images| images == expected);
        if !self.lent.iter().all(lent) || !self.owners.iter().all(owned) {
            fail("other images, or a byte outside them");
        }
    }

    /// What was read is the page as it stands on its chip; any other call leaves the buffer alone.
    fn check_buffers(&self, call: Call, answer: Answer) {
        let (shape, view) = (self.shape, self.images().view(self.shape));
        let expected = match call {
            Call::Read { page, .. } if answer.status.status == DONE => {
                let (stripe, member) = (page as usize / shape.n, page as usize % shape.n);
                match view.record(stripe).current[member] {
                    NONE => vec![0; shape.w],
                    current => view.data(shape.member_chip(stripe, member), current as usize).to_vec(),
                }
            }
            _ => vec![1; shape.w],
        };
        let owned = self.owners.iter().all(|owner| owner.buffer == expected);
        if !owned || self.lent_buffer.content() != expected {
            fail("a page reads as another");
        }
    }

    pub fn put(&mut self, patch: &Patch) {
        self.put_lent(patch);
        [By::Reference, By::Third].into_iter().for_each(|by| self.put_owned(by, patch));
    }

    pub fn put_lent(&mut self, patch: &Patch) {
        self.lent.iter_mut().for_each(|lent| patch.put_lent(lent));
    }

    pub fn put_owned(&mut self, by: By, patch: &Patch) {
        self.owners[by as usize].images.iter_mut().for_each(|images| patch.put_owned(images));
    }
}

/// A geometry that S alone takes beyond the limits.
fn beyond(g: Geometry) -> Geometry {
    Geometry { s: g.s + 1, ..g }
}

fn library_call(
    g: Geometry,
    lent: &mut LentImages,
    given: &mut Given<Lent>,
    buffer: &mut Lent,
    call: Call,
    allowance: u64,
) -> Answer {
    let status = match call {
        Call::Read { lost, page } => return library::read(g, lent, lost, page, buffer),
        Call::ReadBeyond => return library::read(beyond(g), lent, NO_CHIP, 0, buffer),
        Call::ReadShort => {
            let LentImages { chips, records, slots } = lent;
            let (chips, records, slots) = (Cropped(chips, 0), Cropped(records, 0), Cropped(slots, 1));
            let mut lent = LentImages { chips, records, slots };
            return library::read(g, &mut lent, NO_CHIP, 0, &mut Cropped(buffer, 0));
        }
        Call::Write { page } => library::write(g, lent, NO_CHIP, page, &mut given.data, allowance),
        Call::WriteCut { page } => library::write(g, lent, NO_CHIP, page, &mut given.data, 0),
        Call::Commit { stripe } => library::commit(g, lent, NO_CHIP, stripe, allowance),
        Call::Collect { chip } => library::collect(g, lent, NO_CHIP, chip, allowance),
        Call::Open { lost } => library::open(g, lent, lost, allowance),
        Call::Format => library::format(g, lent, allowance),
        Call::Add => library::add(g, lent, NO_CHIP, &mut given.ticket, allowance),
        Call::AddCut => library::add(g, lent, NO_CHIP, &mut given.ticket, 0),
        Call::Find { lost, lot, bag } => return library::find(g, lent, lost, lot, bag),
    };
    status.into()
}

fn owner_call(
    by: &Calls,
    g: Geometry,
    images: &mut Images,
    given: &Given<Vec<u8>>,
    buffer: &mut [u8],
    call: Call,
    allowance: u64,
) -> Answer {
    let tickets = || by.tickets.as_ref().expect("calls of the log");
    let status = match call {
        Call::Read { lost, page } => return (by.read)(g, images, lost, page, buffer),
        Call::ReadBeyond => return (by.read)(beyond(g), images, NO_CHIP, 0, buffer),
        Call::ReadShort => return (by.read)(g, images, NO_CHIP, 0, buffer),
        Call::Write { page } => (by.write)(g, images, NO_CHIP, page, &given.data, allowance),
        Call::WriteCut { page } => (by.write)(g, images, NO_CHIP, page, &given.data, 0),
        Call::Commit { stripe } => (by.commit)(g, images, NO_CHIP, stripe, allowance),
        Call::Collect { chip } => (by.collect)(g, images, NO_CHIP, chip, allowance),
        Call::Open { lost } => (by.open)(g, images, lost, allowance),
        Call::Format => (by.format)(g, images, allowance),
        Call::Add => (tickets().add)(g, images, NO_CHIP, &given.ticket, allowance),
        Call::AddCut => (tickets().add)(g, images, NO_CHIP, &given.ticket, 0),
        Call::Find { lost, lot, bag } => return (tickets().find)(g, images, lost, lot, bag),
    };
    status.into()
}

/// A lent image without so many bytes at its end.
struct Cropped<'a>(&'a mut Lent, usize);

impl Buffer for Cropped<'_> {
    fn pointer(&mut self) -> *mut u8 {
        self.0.pointer()
    }

    fn length(&self) -> usize {
        self.0.length() - self.1
    }
}

pub fn fail(what: &str) -> ! {
    println!("FAILED: {what}");
    exit(1)
}
