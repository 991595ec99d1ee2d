//! A store of one size, and the times of each row on it.

use crate::clock::{Best, Caches, Clock, Race, Taken};
use crate::floor::Floor;
use crate::images::Order;
use crate::library::Answer;
use crate::log::Passes;
use crate::patch::Patch;
use crate::plans::{Kind, Plan};
use crate::random::Random;
use crate::reference::*;
use crate::rows::{Row, LOST};
use crate::setup::{Setup, Steps};
use crate::trio::{fail, By, Times, Trio};

/// Best times of a row in microseconds, and the counts that the call answers.
#[derive(Clone, Copy)]
pub struct Measured {
    pub row: Row,
    pub library: f64,
    pub reference: f64,
    pub third: f64,
    pub floor: f64,
    /// Of each kind of pass, if the row has it.
    pub passes: [Option<f64>; 3],
    pub settled: bool,
    pub counts: Status,
}

pub struct Bench {
    trio: Trio,
    floor: Floor,
    copies: usize,
    setups: Vec<(Setup, Steps)>,
    rows: Vec<Known>,
}

/// A row, what its call answers, and how to take the call back.
struct Known {
    row: Row,
    answer: Answer,
    back: Patch,
}

impl Bench {
    pub fn new(random: &mut Random, plan: &Plan, geometry: Geometry, order: Order) -> Bench {
        let shape = geometry.shape().expect("within the limits");
        let images = (plan.images)(random, shape, order);
        let mut trio = Trio::new(geometry, &images, plan.copies, random);
        let passes = (plan.kind == Kind::Tickets).then(|| Passes::new(images.view(shape), LOST));
        let floor = Floor::new(shape, &images, plan.copies, passes);
        let mut setups: Vec<(Setup, Steps)> = Vec::new();
        let mut rows = Vec::new();
        for row in (plan.rows)(images.view(shape)) {
            if !setups.iter().any(|(setup, _)| *setup == row.setup) {
                setups.push((row.setup, row.setup.steps(&mut trio)));
            }
            let (_, steps) = setups.iter().find(|(setup, _)| *setup == row.setup).expect("just made");
            steps.make(&mut trio);
            rows.push(first_call(row, &mut trio));
            steps.take_back(&mut trio);
        }
        rows.iter().for_each(|known| known.check_passes(&floor));
        Bench { trio, floor, copies: plan.copies, setups, rows }
    }

    /// A round of each row that is due; the images are left as they came.
    fn pass(&mut self, clock: &Clock, caches: Caches, taken: &mut [Taken]) {
        let Bench { trio, floor, copies, setups, rows } = self;
        for (setup, steps) in setups {
            steps.make(trio);
            let here = rows.iter().zip(&mut *taken).filter(|(known, _)| known.row.setup == *setup);
            for (known, taken) in here.filter(|(_, taken)| clock.due(taken)) {
                clock.round(caches, &mut Sides { known, trio, floor, copies: *copies }, taken);
            }
            steps.take_back(trio);
        }
        trio.check_equal();
    }

    fn measured(&self, taken: &[Taken]) -> Vec<Measured> {
        let measured = |(known, taken): (&Known, &Taken)| {
            let best = |turn: usize| taken.best[turn].first;
            let mut passes = [None; 3];
            for (i, &pass) in known.row.passes.iter().enumerate() {
                passes[pass as usize] = Some(best(FLOOR + 1 + i));
            }
            Measured {
                row: known.row,
                library: best(LIBRARY),
                reference: best(REFERENCE),
                third: best(THIRD),
                floor: best(FLOOR),
                passes,
                settled: taken.best.iter().all(Best::settled),
                counts: known.answer.status,
            }
        };
        self.rows.iter().zip(taken).map(measured).collect()
    }
}

/// All implementations must agree before any time is taken.
fn first_call(row: Row, trio: &mut Trio) -> Known {
    let (answer, back) = trio.by_all(row.call, u64::MAX);
    if (answer.status.status, answer.found) != (row.answer, row.standing) {
        fail(&format!("{}: {answer:?}", row.name));
    }
    trio.put(&back);
    Known { row, answer, back }
}

impl Known {
    fn turns(&self) -> usize {
        FLOOR + 1 + self.row.passes.len()
    }

    /// A pass goes over as many pages as the call counts.
    fn check_passes(&self, floor: &Floor) {
        let counts = self.answer.status;
        if !self.row.passes.is_empty() && floor.passed(self.row.scan) != counts.reads {
            fail(&format!("{}: {counts:?}, but a pass has other reads", self.row.name));
        }
    }
}

/// The times of each row on each of the stores. Rows and stores get a round after the other, until each has
/// enough: so what slows the machine down for a while does not fall on one row alone.
pub fn measure(benches: &mut [Bench], clock: &Clock, caches: Caches) -> Vec<Vec<Measured>> {
    let taken = |bench: &Bench| bench.rows.iter().map(|known| Taken::new(known.turns())).collect();
    let mut taken: Vec<Vec<Taken>> = benches.iter().map(taken).collect();
    while taken.iter().flatten().any(|taken| clock.due(taken)) {
        for (bench, taken) in benches.iter_mut().zip(&mut taken) {
            bench.pass(clock, caches, taken);
        }
    }
    benches.iter().zip(&taken).map(|(bench, taken)| bench.measured(taken)).collect()
}

/// One row's call: by each implementation, its floor, and the passes beside it.
struct Sides<'a> {
    known: &'a Known,
    trio: &'a mut Trio,
    floor: &'a mut Floor,
    copies: usize,
}

const LIBRARY: usize = 0;
const REFERENCE: usize = 1;
const THIRD: usize = 2;
const FLOOR: usize = 3;

impl Race for Sides<'_> {
    fn turns(&self) -> usize {
        self.known.turns()
    }

    /// The passes take the floor's.
    fn shares_images(&self) -> bool {
        !self.known.row.passes.is_empty()
    }

    /// A pass finds the caches as a walk does, which begins when the images have been looked at.
    fn prepare(&mut self, turn: usize) {
        if turn > FLOOR {
            self.floor.begin_pass(self.known.row.scan);
        }
    }

    fn run(&mut self, turn: usize, repeats: usize) {
        let Known { row, answer, .. } = self.known;
        let times = Times { repeats, allowance: u64::MAX, expected: *answer };
        let other = match turn {
            LIBRARY => self.trio.by_library(row.call, times),
            REFERENCE => self.trio.by_owner(By::Reference, row.call, times),
            THIRD => self.trio.by_owner(By::Third, row.call, times),
            FLOOR => {
                self.floor.run(row.scan, answer.status, repeats);
                None
            }
            pass => {
                self.floor.pass(row.scan, row.passes[pass - FLOOR - 1]);
                None
            }
        };
        if let Some(found) = other {
            fail(&format!("{}: {found:?} in a later round", row.name));
        }
    }

    /// The floor's images get the same bytes put back, so that the caches are in the same state.
    fn take_back(&mut self, turn: usize) {
        match turn {
            LIBRARY => self.trio.put_lent(&self.known.back),
            REFERENCE => self.trio.put_owned(By::Reference, &self.known.back),
            THIRD => self.trio.put_owned(By::Third, &self.known.back),
            _ => self.floor.put(&self.known.back),
        }
    }

    fn copies(&self) -> usize {
        self.copies
    }

    fn repeats(&self) -> usize {
        self.known.row.repeats
    }
}
