//! The rows of the tables: which call is made, on which images.

use crate::floor::Scan;
use crate::log::{Log, Pass};
use crate::reference::*;
use crate::setup::Setup;
use crate::trio::Call;

#[derive(Clone, Copy)]
pub struct Row {
    pub name: &'static str,
    pub setup: Setup,
    pub call: Call,
    pub scan: Scan,
    /// Done, cut, or the number of the refusal.
    pub answer: u64,
    /// Whether a weight stands, gross and tare.
    pub standing: [u64; 3],
    /// How many calls one time is taken of.
    pub repeats: usize,
    /// The row whose time this one's is held to.
    pub beside: Option<&'static str>,
    /// Of a call that walks the log, the row that does as much but for the walk.
    pub without_walk: Option<&'static str>,
    /// Plain passes over the log that are timed too.
    pub passes: &'static [Pass],
}

/// For a call of a few nanoseconds, less than the clock can tell.
const MANY: usize = 64;

/// The stripes that the calls name, all from the middle of the store on if there are.
struct Stripes {
    plain: usize,
    slotted: usize,
    empty: usize,
}

impl Stripes {
    fn of(view: View) -> Stripes {
        let shape = view.shape;
        let from_middle = |wanted: &dyn Fn(usize, Record) -> bool| {
            let mut stripes = (shape.s / 2..shape.s).chain(0..shape.s / 2);
            stripes.find(|&j| wanted(j, view.record(j))).expect("stripes of each kind are everywhere")
        };
        // written on another chip than the parity of the stripe that is committed before it
        let parity_chip = shape.parity_chip(view.cheapest_stripe().expect("a stripe with a slot"));
        let apart = |stripe: usize| shape.member_chip(stripe, 0) != parity_chip;
        Stripes {
            plain: from_middle(&|j, record| record.slot == NO_SLOT && record.parity != NONE && apart(j)),
            slotted: from_middle(&|_, record| record.slot != NO_SLOT),
            empty: from_middle(&|_, record| record.parity == NONE),
        }
    }
}

/// All partial parities are in use: a write to a stripe without one commits.
pub fn calls(view: View) -> Vec<Row> {
    let shape = view.shape;
    let Stripes { plain, slotted, empty } = Stripes::of(view);
    let page = |stripe: usize| (stripe * shape.n) as u64;
    let chip = |stripe: usize| shape.member_chip(stripe, 0) as u64;
    let read = |name, stripe, lost| row(name, Setup::Full, Call::Read { lost, page: page(stripe) });
    let write = |name, setup, stripe| row(name, setup, Call::Write { page: page(stripe) });
    let open = |name, setup, lost| row(name, setup, Call::Open { lost });
    vec![
        read("read direct", plain, NO_CHIP),
        read("read rebuilt through parity", plain, chip(plain)),
        read("read rebuilt through partial", slotted, chip(slotted)),
        read("read of a page never written", empty, NO_CHIP),
        write("write", Setup::Room, slotted),
        write("write that commits", Setup::Room, plain),
        write("write that collects", Setup::Full, slotted),
        write("write that commits and collects", Setup::Full, plain),
        row("commit", Setup::Room, Call::Commit { stripe: slotted as u64 }),
        row("collect", Setup::Full, Call::Collect { chip: chip(slotted) }),
        open("open with nothing to do", Setup::Full, NO_CHIP),
        open("open in phase 1", Setup::Phase1, NO_CHIP),
        open("open in phase 2", Setup::Phase2, NO_CHIP),
        open("open with a chip lost", Setup::Full, chip(plain)),
        row("format", Setup::Full, Call::Format),
    ]
}

const READ: &str = "read direct";

/// A read and an open beside a collection that was cut.
pub fn phases(view: View) -> Vec<Row> {
    let page = (Stripes::of(view).plain * view.shape.n) as u64;
    let read = |name, setup| row(name, setup, Call::Read { lost: NO_CHIP, page });
    let beside = |name, setup| Row { beside: Some(READ), ..read(name, setup) };
    let open = |name, setup| row(name, setup, Call::Open { lost: NO_CHIP });
    vec![
        read(READ, Setup::Full),
        beside("read in phase 1", Setup::Phase1),
        beside("read in phase 2, no move made", Setup::Phase2),
        beside("read in phase 2, half of the moves made", Setup::Phase2Half),
        open("open with nothing to do", Setup::Full),
        open("open in phase 1", Setup::Phase1),
        open("open in phase 2, no move made", Setup::Phase2),
        open("open in phase 2, half of the moves made", Setup::Phase2Half),
    ]
}

/// Calls that are turned back, beside a read that is not.
pub fn refusals(view: View) -> Vec<Row> {
    let shape = view.shape;
    let Stripes { plain, .. } = Stripes::of(view);
    let page = (plain * shape.n) as u64;
    let read = |lost, page| Call::Read { lost, page };
    let refused = |name, answer, setup, call| {
        // those that look at no image, or at its first record alone
        let repeats = if answer < 4 || setup == Setup::FirstRecord { MANY } else { 1 };
        Row { answer, repeats, beside: Some(READ), scan: Scan::All, ..row(name, setup, call) }
    };
    let (last_page, chips) = ((shape.n * shape.s) as u64, shape.n as u64 + 1);
    let plain_read = read(NO_CHIP, page);
    vec![
        row(READ, Setup::Full, plain_read),
        refused("1: a geometry beyond the limits", 1, Setup::Full, Call::ReadBeyond),
        refused("2: a buffer too short", 2, Setup::Full, Call::ReadShort),
        refused("3: no such chip to lose", 3, Setup::Full, read(chips, page)),
        refused("4: the first record", 4, Setup::FirstRecord, plain_read),
        refused("4: the last record", 4, Setup::LastRecord, plain_read),
        refused("5: a spare of the last chip", 5, Setup::LastSpare, plain_read),
        refused("6: a write in phase 1", 6, Setup::Phase1, Call::Write { page }),
        refused("6: a write in phase 2", 6, Setup::Phase2, Call::Write { page }),
        refused("7: no such page", 7, Setup::Full, read(NO_CHIP, last_page)),
        refused("10: a commit without a slot", 10, Setup::Full, Call::Commit { stripe: plain as u64 }),
    ]
}

/// The chip that is lost in a walk of the log: a fifth of the pages is on it.
pub const LOST: usize = 0;

/// Calls that walk the log, each with one that does as much but for the walk.
pub fn tickets(view: View) -> Vec<Row> {
    let log = Log::of(view.shape);
    let Ticket { lot, bag, gross, tare, .. } = log.ticket_at(view, log.tickets - 1);
    let standing = [1, gross as u64, tare as u64];
    let page = (log.end * view.shape.n) as u64;
    let plain = |name, call| row(name, Setup::Full, call);
    let walk = |name, call, without| Row { without_walk: Some(without), ..plain(name, call) };
    let find = |name, lost, without, passes| Row {
        standing,
        passes,
        ..walk(name, Call::Find { lost, lot, bag }, without)
    };
    let (open, open_lost) = ("open", "open with a chip lost");
    let (write, write_cut) = ("write", "write with no allowance");
    let lost = LOST as u64;
    vec![
        plain(open, Call::Open { lost: NO_CHIP }),
        find("find", NO_CHIP, open, &[Pass::Copy, Pass::Reads]),
        plain(open_lost, Call::Open { lost }),
        find("find with a chip lost", lost, open_lost, &[Pass::Copy, Pass::Reads, Pass::Gathered]),
        Row { answer: CUT, ..plain(write_cut, Call::WriteCut { page }) },
        Row { answer: CUT, ..walk("add with no allowance", Call::AddCut, write_cut) },
        plain(write, Call::Write { page }),
        walk("add", Call::Add, write),
    ]
}

fn row(name: &'static str, setup: Setup, call: Call) -> Row {
    let scan = match call {
        Call::Format => Scan::Nothing,
        Call::Read { lost, .. } | Call::Open { lost } | Call::Find { lost, .. } if lost != NO_CHIP => {
            Scan::Without(lost as usize)
        }
        _ => Scan::All,
    };
    Row {
        name,
        setup,
        call,
        scan,
        answer: DONE,
        standing: [0; 3],
        repeats: 1,
        beside: None,
        without_walk: None,
        passes: &[],
    }
}
