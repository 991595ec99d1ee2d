//! How long each call takes: by the library, by the second implementation, by one tuned by hand or by the
//! library as it was, and beside the floor, which is a plain scan that touches each record and each spare
//! once, and the pages moved.
//!
//!     benchmark [ROUNDS [W]] [sequence|shuffled] [swept|warm] [TABLE..] [--markdown]
//!
//! where TABLE is sizes, small, K2, phases, refused or tickets.
//! docs/BENCHMARKS.md tells what the rows are and how the times are taken.

#[path = "../compare/breakers.rs"]
#[allow(dead_code)]
mod breakers;
#[path = "../compare/damage.rs"]
#[allow(dead_code)]
mod damage;
#[path = "../compare/generator.rs"]
#[allow(dead_code)]
mod generator;
#[path = "../library.rs"]
#[allow(dead_code)]
mod library;
#[path = "../random.rs"]
#[allow(dead_code)]
mod random;
#[path = "../reference.rs"]
#[allow(dead_code)]
mod reference;
#[path = "../compare/tickets.rs"]
#[allow(dead_code)]
mod tickets;

mod agree;
#[cfg(before)]
mod before;
mod bench;
mod clock;
mod floor;
mod grid;
mod images;
mod log;
mod owned;
mod patch;
mod placed;
mod plans;
mod report;
mod rows;
mod setup;
mod table;
mod trio;
#[cfg_attr(before, allow(dead_code))]
mod tuned;

use bench::{measure, Bench};
use clock::{Caches, Clock};
use images::Order;
use owned::THIRD;
use plans::{Kind, Plan, PLANS};
use random::Random;
use report::Report;
use std::process::exit;
use table::{Setting, Table};

const USAGE: &str = "usage: benchmark [ROUNDS [W]] [sequence|shuffled] [swept|warm] [TABLE..] [--markdown]
TABLE: sizes, small, K2, phases, refused, tickets";

/// What is asked for on the command line.
struct Request {
    rounds: usize,
    width: Option<u64>,
    orders: Vec<Order>,
    caches: Vec<Caches>,
    plans: Vec<&'static Plan>,
    markdown: bool,
}

impl Request {
    /// Nothing if a word is not understood.
    fn parse(words: impl Iterator<Item = String>) -> Option<Request> {
        let mut request = Request {
            rounds: 9,
            width: None,
            orders: vec![Order::Sequence, Order::Shuffled],
            caches: vec![Caches::Swept, Caches::Warm],
            plans: Vec::new(),
            markdown: false,
        };
        let mut numbers = Vec::new();
        for word in words {
            match word.as_str() {
                "sequence" => request.orders = vec![Order::Sequence],
                "shuffled" => request.orders = vec![Order::Shuffled],
                "swept" => request.caches = vec![Caches::Swept],
                "warm" => request.caches = vec![Caches::Warm],
                "--markdown" => request.markdown = true,
                word => match plans().find(|plan| plan.word == word) {
                    Some(plan) => request.plans.push(plan),
                    None => numbers.push(word.parse::<u64>().ok()?),
                },
            }
        }
        if request.plans.is_empty() {
            request.plans = plans().collect();
        }
        request.take_numbers(&numbers).then_some(request)
    }

    /// False if they are too many or not within the limits.
    fn take_numbers(&mut self, numbers: &[u64]) -> bool {
        if let Some(&rounds) = numbers.first() {
            self.rounds = rounds as usize;
        }
        self.width = numbers.get(1).copied();
        let fits = |w: u64| (PLANS[0].stores)(w)[0].shape().is_some();
        self.width.is_none_or(fits) && self.rounds > 0 && numbers.len() <= 2
    }

    fn widths(&self, plan: &Plan) -> Vec<u64> {
        self.width.map_or_else(|| plan.widths.to_vec(), |w| vec![w])
    }

    /// Page sizes and orders of a plan: all that are asked for, or the last order alone.
    fn settings(&self, plan: &Plan) -> Vec<(u64, Order)> {
        let orders = match plan.kind {
            Kind::Sizes | Kind::Tickets => &self.orders[..],
            Kind::Further | Kind::Refused => &self.orders[self.orders.len() - 1..],
        };
        let each = |w: u64| orders.iter().map(move |&order| (w, order));
        self.widths(plan).into_iter().flat_map(each).collect()
    }
}

/// All but what the third implementation lacks.
fn plans() -> impl Iterator<Item = &'static Plan> {
    PLANS.iter().filter(|plan| plan.kind != Kind::Tickets || THIRD.tickets.is_some())
}

fn main() {
    let Some(request) = Request::parse(std::env::args().skip(1)) else {
        println!("{USAGE}");
        exit(2);
    };
    agree::check();
    let report = Report { markdown: request.markdown };
    println!("Best of {} rounds or more.", request.rounds);
    request.plans.iter().for_each(|plan| report.stores(plan, &request.widths(plan)));
    let clock = Clock::new(request.rounds, request.caches.contains(&Caches::Swept));
    let mut random = Random::new(1);
    let mut tables = Vec::new();
    for &plan in &request.plans {
        for (w, order) in request.settings(plan) {
            let stores = (plan.stores)(w);
            let bench = |&store| Bench::new(&mut random, plan, store, order);
            let mut benches: Vec<Bench> = stores.iter().map(bench).collect();
            for &caches in &request.caches {
                let times = measure(&mut benches, &clock, caches);
                let table = Table::new(plan, &stores, Setting { w, order, caches }, times);
                let walks = table.walks();
                for table in [Some(table), walks].into_iter().flatten() {
                    report.measured(&table);
                    tables.push(table);
                }
            }
        }
    }
    report.finish(&tables);
}
