//! Times of several things, taken turn by turn.

use std::hint::black_box;
use std::time::Instant;

/// What the processor's caches hold when a call begins.
#[derive(Clone, Copy, PartialEq, Eq)]
pub enum Caches {
    /// Nothing of the images, or at their far end: more than the largest cache has been read since.
    Swept,
    /// What the same call has left there, made again and again until it gets no faster.
    Warm,
}

/// More than the last cache of the processors at hand.
const SWEEP_BYTES: usize = 512 << 20;

/// A turn with warm caches is over after so many runs in a row that were no faster by this share, since it
/// takes some runs after another one's turn until the caches hold what they can; and after so many at most.
const IDLE_RUNS: usize = 6;
const FASTER: f64 = 0.99;
const MOST_RUNS: usize = 40;

/// A row that is not settled gets up to so many times the rounds asked for.
const MOST_TIMES: usize = 4;

/// Settled when the best times of two turns are as near.
const NEAR: f64 = 1.05;

pub trait Race {
    /// How many things have their turns.
    fn turns(&self) -> usize;
    /// Whether some of them have their images in common: then with swept caches each turn begins with a
    /// sweep.
    fn shares_images(&self) -> bool;
    /// What is not timed of a turn's run, ahead of it.
    fn prepare(&mut self, turn: usize);
    /// A run is so many calls on each of so many copies of the images.
    fn run(&mut self, turn: usize, repeats: usize);
    /// Leaves what the run of that turn changed as it was.
    fn take_back(&mut self, turn: usize);
    fn copies(&self) -> usize;
    /// With warm caches; with swept ones a second call would find another state of the caches.
    fn repeats(&self) -> usize;
}

/// The best times of two turns of one thing, in microseconds.
#[derive(Clone, Copy)]
pub struct Best {
    pub first: f64,
    second: f64,
}

impl Best {
    fn new() -> Best {
        Best { first: f64::MAX, second: f64::MAX }
    }

    fn add(&mut self, time: f64) {
        if time < self.first {
            self.second = self.first;
            self.first = time;
        } else {
            self.second = self.second.min(time);
        }
    }

    pub fn settled(&self) -> bool {
        self.second <= self.first * NEAR
    }
}

/// The rounds that one row has had, and the best of each turn.
pub struct Taken {
    rounds: usize,
    pub best: Vec<Best>,
}

impl Taken {
    pub fn new(turns: usize) -> Taken {
        Taken { rounds: 0, best: vec![Best::new(); turns] }
    }
}

pub struct Clock {
    rounds: usize,
    sweep: Vec<u8>,
}

impl Clock {
    pub fn new(rounds: usize, sweeps: bool) -> Clock {
        Clock { rounds, sweep: vec![1; if sweeps { SWEEP_BYTES } else { 0 }] }
    }

    /// Whether more rounds are asked for, or may yet settle what is not settled.
    pub fn due(&self, taken: &Taken) -> bool {
        let settled = taken.best.iter().all(Best::settled);
        taken.rounds < self.rounds || (taken.rounds < MOST_TIMES * self.rounds && !settled)
    }

    /// Each has its turn, another one first each time.
    pub fn round(&self, caches: Caches, race: &mut impl Race, taken: &mut Taken) {
        let turns = race.turns();
        for i in 0..turns {
            if caches == Caches::Swept && (i == 0 || race.shares_images()) {
                self.sweep();
            }
            let turn = (taken.rounds + i) % turns;
            taken.best[turn].add(match caches {
                Caches::Swept => run(race, turn, 1),
                Caches::Warm => run_warm(race, turn),
            });
        }
        taken.rounds += 1;
    }

    fn sweep(&self) {
        let lines = black_box(&self.sweep).iter().step_by(64);
        black_box(lines.fold(0u8, |sum, byte| sum.wrapping_add(*byte)));
    }
}

fn run_warm(race: &mut impl Race, turn: usize) -> f64 {
    let mut best = f64::MAX;
    let mut idle = 0;
    for _ in 0..MOST_RUNS {
        let time = run(race, turn, race.repeats());
        idle = if time < best * FASTER { 0 } else { idle + 1 };
        best = best.min(time);
        if idle == IDLE_RUNS {
            break;
        }
    }
    best
}

/// The time of one call.
fn run(race: &mut impl Race, turn: usize, repeats: usize) -> f64 {
    race.prepare(turn);
    let start = Instant::now();
    race.run(turn, repeats);
    let time = start.elapsed().as_secs_f64() * 1e6;
    race.take_back(turn);
    time / (race.copies() * repeats) as f64
}
