//! One call through the library and through the reference, compared answer by answer, count by
//! count and byte by byte.

use crate::coverage::Coverage;
use crate::generator::{ALL, LARGE};
use crate::guard_pages::{PageGuarded, Placement};
use crate::library::{self, Answer, LentImages};
use crate::log_notes::Walk;
use crate::notes;
use crate::plan::Plan;
use crate::random::Random;
use crate::reference::{self, Geometry, Images, Status, CUT, DONE, NO_CHIP};
use crate::strange::strange_things;
use std::process::exit;

/// One in so many calls gets what it may only read in memory that can only be read.
const SEALED: usize = 64;

#[derive(Clone, Debug)]
pub enum Call {
    Format { allowance: u64 },
    Open { lost: u64, allowance: u64 },
    Read { lost: u64, page: u64, buffer: Vec<u8> },
    Write { lost: u64, page: u64, data: Vec<u8>, allowance: u64 },
    Commit { lost: u64, stripe: u64, allowance: u64 },
    Collect { lost: u64, chip: u64, allowance: u64 },
    Add { lost: u64, ticket: Vec<u8>, allowance: u64 },
    Find { lost: u64, lot: u32, bag: u16 },
}

impl Call {
    /// One of each kind; the number is its page, stripe, chip, lot and bag, and the bytes are a read's buffer, a
    /// write's data and a ticket.
    pub fn of_each_kind(lost: u64, number: u64, bytes: [Vec<u8>; 3], allowance: u64) -> [Call; 8] {
        let [buffer, data, ticket] = bytes;
        [
            Call::Format { allowance },
            Call::Open { lost, allowance },
            Call::Read { lost, page: number, buffer },
            Call::Write { lost, page: number, data, allowance },
            Call::Commit { lost, stripe: number, allowance },
            Call::Collect { lost, chip: number, allowance },
            Call::Add { lost, ticket, allowance },
            Call::Find { lost, lot: number as u32, bag: number as u16 },
        ]
    }

    pub fn name(&self) -> &'static str {
        match self {
            Call::Format { .. } => "format",
            Call::Open { .. } => "open",
            Call::Read { .. } => "read",
            Call::Write { .. } => "write",
            Call::Commit { .. } => "commit",
            Call::Collect { .. } => "collect",
            Call::Add { .. } => "add",
            Call::Find { .. } => "find",
        }
    }

    fn describe(&self) -> String {
        match self {
            Call::Format { allowance } => format!("format, allowance {allowance}"),
            Call::Open { lost, allowance } => format!("open, lost {lost}, allowance {allowance}"),
            Call::Read { lost, page, buffer } => {
                format!("read, lost {lost}, page {page}, buffer of {} bytes", buffer.len())
            }
            Call::Write { lost, page, data, allowance } => {
                format!("write, lost {lost}, page {page}, {} bytes, allowance {allowance}", data.len())
            }
            Call::Commit { lost, stripe, allowance } => {
                format!("commit, lost {lost}, stripe {stripe}, allowance {allowance}")
            }
            Call::Collect { lost, chip, allowance } => {
                format!("collect, lost {lost}, chip {chip}, allowance {allowance}")
            }
            Call::Add { lost, ticket, allowance } => {
                format!("add, lost {lost}, ticket {ticket:?}, allowance {allowance}")
            }
            Call::Find { lost, lot, bag } => format!("find, lost {lost}, lot {lot}, bag {bag}"),
        }
    }

    /// The lost chip that it names; a format names none.
    pub fn lost(&self) -> Option<u64> {
        match *self {
            Call::Format { .. } => None,
            Call::Open { lost, .. }
            | Call::Read { lost, .. }
            | Call::Write { lost, .. }
            | Call::Commit { lost, .. }
            | Call::Collect { lost, .. }
            | Call::Add { lost, .. }
            | Call::Find { lost, .. } => Some(lost),
        }
    }

    /// Whether it makes no store, whatever it is asked.
    pub fn only_reads(&self) -> bool {
        matches!(self, Call::Read { .. } | Call::Find { .. })
    }

    /// What it may store; of a call that makes no store, anything.
    pub fn allowance(&self) -> u64 {
        match *self {
            Call::Read { .. } | Call::Find { .. } => ALL,
            Call::Format { allowance }
            | Call::Open { allowance, .. }
            | Call::Write { allowance, .. }
            | Call::Commit { allowance, .. }
            | Call::Collect { allowance, .. }
            | Call::Add { allowance, .. } => allowance,
        }
    }

    /// The bytes that it brings along.
    fn bytes(&self) -> &[u8] {
        match self {
            Call::Read { buffer, .. } => buffer,
            Call::Write { data, .. } => data,
            Call::Add { ticket, .. } => ticket,
            _ => &[],
        }
    }

    /// The same call with another allowance.
    pub fn allowed(&self, allowed: u64) -> Call {
        let mut call = self.clone();
        match &mut call {
            Call::Read { .. } | Call::Find { .. } => {}
            Call::Format { allowance }
            | Call::Open { allowance, .. }
            | Call::Write { allowance, .. }
            | Call::Commit { allowance, .. }
            | Call::Collect { allowance, .. }
            | Call::Add { allowance, .. } => *allowance = allowed,
        }
        call
    }

    /// How many stores its list has on these images.
    pub fn length(&self, g: Geometry, images: &Images) -> u64 {
        self.allowed(ALL).by_reference(g, &mut images.clone()).0.status.stores
    }

    /// Its answer by the reference, and the bytes that it brought along as they are left.
    fn by_reference(&self, g: Geometry, images: &mut Images) -> (Answer, Vec<u8>) {
        let mut bytes = self.bytes().to_vec();
        let status = match *self {
            Call::Format { allowance } => reference::format(g, images, allowance),
            Call::Open { lost, allowance } => reference::open(g, images, lost, allowance),
            Call::Read { lost, page, .. } => {
                let reading = reference::read(g, images, lost, page, &mut bytes);
                return (reading.into(), bytes);
            }
            Call::Write { lost, page, allowance, .. } => {
                reference::write(g, images, lost, page, &bytes, allowance)
            }
            Call::Commit { lost, stripe, allowance } => reference::commit(g, images, lost, stripe, allowance),
            Call::Collect { lost, chip, allowance } => reference::collect(g, images, lost, chip, allowance),
            Call::Add { lost, allowance, .. } => reference::add(g, images, lost, &bytes, allowance),
            Call::Find { lost, lot, bag } => {
                return (reference::find(g, images, lost, lot, bag).into(), bytes)
            }
        };
        (status.into(), bytes)
    }

    /// The same by the library.
    fn by_library(&self, g: Geometry, lent: &mut LentImages<PageGuarded>, bytes: &mut PageGuarded) -> Answer {
        let status = match *self {
            Call::Format { allowance } => library::format(g, lent, allowance),
            Call::Open { lost, allowance } => library::open(g, lent, lost, allowance),
            Call::Read { lost, page, .. } => return library::read(g, lent, lost, page, bytes),
            Call::Write { lost, page, allowance, .. } => {
                library::write(g, lent, lost, page, bytes, allowance)
            }
            Call::Commit { lost, stripe, allowance } => library::commit(g, lent, lost, stripe, allowance),
            Call::Collect { lost, chip, allowance } => library::collect(g, lent, lost, chip, allowance),
            Call::Add { lost, allowance, .. } => library::add(g, lent, lost, bytes, allowance),
            Call::Find { lost, lot, bag } => return library::find(g, lent, lost, lot, bag),
        };
        status.into()
    }

    /// Seals what it may only read, or opens it again.
    fn seal(&self, lent: &mut LentImages<PageGuarded>, bytes: &mut PageGuarded, sealed: bool) {
        match self {
            Call::Read { .. } | Call::Find { .. } => {
                lent.chips.seal(sealed);
                lent.records.seal(sealed);
                lent.slots.seal(sealed);
            }
            Call::Write { .. } | Call::Add { .. } => bytes.seal(sealed),
            _ => lent.slots.seal(sealed),
        }
    }
}

pub struct Comparison {
    pub seed: u64,
    pub case: u64,
    pub about: String,
    /// Each call is printed first.
    pub tell: bool,
    pub calls: u64,
    pub coverage: Coverage,
    /// The images of this case are built, as no list of calls may leave them, and sound with no chip lost.
    pub built: bool,
    lent: LentImages<PageGuarded>,
    lent_bytes: PageGuarded,
}

impl Comparison {
    pub fn new(seed: u64) -> Comparison {
        Comparison {
            seed,
            case: 0,
            about: String::new(),
            tell: false,
            calls: 0,
            coverage: Coverage::new(),
            built: false,
            lent: LentImages::between_guard_pages(),
            lent_bytes: PageGuarded::new(),
        }
    }

    pub fn fail(&self, g: Geometry, what: &str) -> ! {
        println!("FAILED: seed {}, case {}: {}", self.seed, self.case, self.about);
        println!("{g:?}");
        println!("{what}");
        exit(1);
    }

    /// The call through the reference, on the images, and through the library, on copies; what
    /// they leave must be the same.
    pub fn call(&mut self, random: &mut Random, g: Geometry, images: &mut Images, call: &Call) -> Status {
        self.on_both(random, g, images, call).0.status
    }

    /// The same, with all that it answers.
    pub fn answer(&mut self, random: &mut Random, g: Geometry, images: &mut Images, call: &Call) -> Answer {
        self.on_both(random, g, images, call).0
    }

    /// A read, which must be done: the page, and the answer.
    pub fn page(
        &mut self,
        random: &mut Random,
        g: Geometry,
        images: &mut Images,
        lost: u64,
        page: u64,
    ) -> (Vec<u8>, Answer) {
        let call = Call::Read { lost, page, buffer: random.bytes(g.w as usize) };
        let (answer, bytes) = self.on_both(random, g, images, &call);
        if answer.status.status != DONE {
            self.fail(g, &format!("{}: answered {answer:?}, and every page is owed", call.describe()));
        }
        (bytes, answer)
    }

    /// The library's answer, and the bytes that it brought along as they are left.
    fn on_both(
        &mut self,
        random: &mut Random,
        g: Geometry,
        images: &mut Images,
        call: &Call,
    ) -> (Answer, Vec<u8>) {
        if self.tell {
            println!("case {}: {}: {} on {g:?}", self.case, self.about, call.describe());
        }
        let before = images.clone();
        let (expected, bytes) = call.by_reference(g, images);
        let found = self.on_library(random, g, &before, call);
        self.calls += 1;
        if found != expected {
            self.fail(g, &format!("{}: answered {found:?}, expected {expected:?}", call.describe()));
        }
        self.same(g, call, "chips", &self.lent.chips, &images.chips);
        self.same(g, call, "records", &self.lent.records, &images.records);
        self.same(g, call, "slots", &self.lent.slots, &images.slots);
        self.same(g, call, "buffer", &self.lent_bytes, &bytes);
        if let Err(what) = notes::note(&mut self.coverage, g, &before, call, expected, &bytes) {
            self.fail(g, &format!("harness: {}: {what}", call.describe()));
        }
        self.note_strange(g, &before, call, expected.status);
        (found, bytes)
    }

    /// The call through the library, on copies of the images that it leaves in `lent`.
    fn on_library(&mut self, random: &mut Random, g: Geometry, images: &Images, call: &Call) -> Answer {
        let (placement, point) = random.pick(&[
            (Placement::AtTheEnd, "buffers that end at a guard page"),
            (Placement::AtTheStart, "buffers that begin at a guard page"),
            (Placement::Free, "buffers at any byte"),
        ]);
        self.coverage.hit(point);
        let Comparison { lent, lent_bytes, .. } = self;
        lent.lend(images, placement, random);
        lent_bytes.lend(call.bytes(), placement, random);
        if !random.one_in(SEALED) {
            return call.by_library(g, lent, lent_bytes);
        }
        call.seal(lent, lent_bytes, true);
        let answer = call.by_library(g, lent, lent_bytes);
        call.seal(lent, lent_bytes, false);
        self.coverage.hit(&format!("buffers that {} may only read, sealed", call.name()));
        answer
    }

    /// What the images had that no list of calls leaves, for a call that reads or that worked on them.
    fn note_strange(&mut self, g: Geometry, before: &Images, call: &Call, status: Status) {
        let works = call.only_reads() || call.lost() == Some(NO_CHIP);
        let shape = g.shape().filter(|shape| self.built && works && shape.pages() < LARGE);
        if let (Some(shape), DONE | CUT) = (shape, status.status) {
            for thing in strange_things(before.view(shape)) {
                self.coverage.hit(&format!("{thing}: {}", call.name()));
            }
        }
    }

    fn same(&self, g: Geometry, call: &Call, what: &str, found: &PageGuarded, expected: &[u8]) {
        if !found.guarded() {
            self.fail(g, &format!("{}: a byte outside the {what} was changed", call.describe()));
        }
        let found = found.content();
        if found == expected {
            return;
        }
        let differing = (0..expected.len()).filter(|&i| found[i] != expected[i]);
        let at = differing.clone().next().expect("of one length and not equal");
        let text = format!(
            "{}: {} bytes of the {what} differ, the first at {at}: {}, expected {}",
            call.describe(),
            differing.count(),
            found[at],
            expected[at]
        );
        self.fail(g, &text);
    }

    /// A call that stores at every allowance from 0 to one more than its list has stores, each from the
    /// same images; `after` goes on with what each leaves.
    pub fn every_allowance(
        &mut self,
        random: &mut Random,
        g: Geometry,
        images: &Images,
        call: &Call,
        mut after: impl FnMut(&mut Comparison, &mut Random, Images, Status),
    ) {
        let length = call.length(g, images);
        for allowance in 0..=length + 1 {
            let mut left = images.clone();
            let status = self.call(random, g, &mut left, &call.allowed(allowance));
            if (status.status == CUT) != (allowance < length) {
                self.fail(
                    g,
                    &format!("harness: a list of {length} stores, allowance {allowance}: {status:?}"),
                );
            }
            after(self, random, left, status);
        }
        self.coverage.hit_if(length > 0, &format!("every allowance: {}", call.name()));
        self.coverage.hit_if(length >= 100, "every allowance: list of 100 stores or more");
        let plan = match call {
            _ if length == 0 => return,
            Call::Write { page, .. } => Plan::of_write(g, images, *page),
            Call::Add { .. } => {
                let shape = g.shape().expect("it is not refused");
                Plan::of_add(g, images, Walk::new(images.view(shape), NO_CHIP).page() as u64)
            }
            _ => return,
        };
        let both = format!("every allowance: {} that commits and collects", call.name());
        self.coverage.hit_if(plan.commits_and_collects(), &both);
    }
}
