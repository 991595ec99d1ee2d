//! What was measured of one plan in one setting, and the ratios in it.

use crate::bench::Measured;
use crate::clock::Caches;
use crate::images::Order;
use crate::log::Pass;
use crate::owned::{THIRD_HEAD, THIRD_NAME};
use crate::plans::{Kind, Plan};
use crate::reference::Geometry;
use crate::rows::Row;
use std::fmt;

#[derive(Clone, Copy)]
pub struct Setting {
    pub w: u64,
    pub order: Order,
    pub caches: Caches,
}

impl fmt::Display for Setting {
    fn fmt(&self, f: &mut fmt::Formatter) -> fmt::Result {
        let order = match self.order {
            Order::Sequence => "in sequence",
            Order::Shuffled => "shuffled",
        };
        let caches = match self.caches {
            Caches::Swept => "swept",
            Caches::Warm => "warm",
        };
        write!(f, "W = {}, {order}, {caches}", self.w)
    }
}

/// One row on each store.
pub struct Line {
    pub name: &'static str,
    pub at: Vec<Measured>,
}

pub struct Table {
    pub plan: &'static Plan,
    pub setting: Setting,
    /// Pages to a chip in each store.
    pub pages: Vec<u64>,
    /// What is to grow as the times do.
    pub sizes: Vec<u64>,
    pub lines: Vec<Line>,
    /// Not of whole calls, but of the walks of the log in them.
    pub walks: bool,
}

/// The library's time over another.
pub struct Ratio {
    pub head: &'static str,
    pub of: &'static str,
    /// How many times the other the library may take at most, if that is an aim for the row.
    pub aim: fn(&Table, &Row) -> Option<f64>,
    pub value: fn(&Table, &Measured, usize) -> Option<f64>,
}

const TO_REFERENCE: Ratio = Ratio {
    head: "/reference",
    of: "reference",
    aim: |table, _| (table.plan.kind != Kind::Refused).then_some(1.0),
    value: |_, measured, _| Some(measured.library / measured.reference),
};

const TO_THIRD: Ratio = Ratio {
    head: THIRD_HEAD,
    of: THIRD_NAME,
    aim: |_, _| None,
    value: |_, measured, _| Some(measured.library / measured.third),
};

const TO_FLOOR: Ratio = Ratio {
    head: "/floor",
    of: "floor",
    aim: |table, _| (table.plan.kind != Kind::Tickets).then_some(3.0),
    value: |_, measured, _| Some(measured.library / measured.floor),
};

/// Of a walk over a plain copy of the pages that it reads, with a chip lost those that it rebuilds from too.
const TO_COPY: Ratio = Ratio {
    head: "/copy",
    of: "copy",
    aim: |table, row| match row.scan.is_lost() {
        true => Some(2.0),
        false => (table.setting.w >= 512).then_some(3.0),
    },
    value: |_, measured, _| Some(measured.library / measured.passes[Pass::Copy as usize]?),
};

/// Over the same pages read one by one, each found through the record of its stripe.
const TO_READS: Ratio = Ratio {
    head: "/reads",
    of: "reads",
    aim: |_, row| row.scan.is_lost().then_some(2.0),
    value: |_, measured, _| Some(measured.library / measured.passes[Pass::Reads as usize]?),
};

const TO_GATHERED: Ratio = Ratio {
    head: "/gathered",
    of: "pages gathered",
    aim: |_, _| None,
    value: |_, measured, _| Some(measured.library / measured.passes[Pass::Gathered as usize]?),
};

/// Over that of another row on the same store.
const TO_READ: Ratio = Ratio {
    head: "/read",
    of: "direct read",
    aim: |_, _| Some(3.0),
    value: |table, measured, store| {
        let beside = table.lines.iter().find(|line| Some(line.name) == measured.row.beside)?;
        Some(measured.library / beside.at[store].library)
    },
};

/// Two times of one call differ by nearly as much of it: a smaller share cannot be told.
const LEAST_SHARE: f64 = 0.1;

/// What a call takes less what it takes without a part, if that can be told; else not a number.
fn told_apart(whole: f64, without: f64) -> f64 {
    match whole - without {
        part if part < LEAST_SHARE * whole => f64::NAN,
        part => part,
    }
}

impl Table {
    pub fn new(
        plan: &'static Plan,
        stores: &[Geometry],
        setting: Setting,
        times: Vec<Vec<Measured>>,
    ) -> Table {
        let at = |i: usize| times.iter().map(|rows| rows[i]).collect();
        let lines = (0..times[0].len()).map(|i| Line { name: times[0][i].row.name, at: at(i) }).collect();
        let pages: Vec<u64> = stores.iter().map(|store| store.b * store.k).collect();
        Table { plan, setting, sizes: pages.clone(), pages, lines, walks: false }
    }

    /// The walks of the log alone, if rows walk it: the time of each less that of the row without the walk.
    pub fn walks(&self) -> Option<Table> {
        let lines: Vec<Line> = self.lines.iter().filter_map(|line| self.walks_of(line)).collect();
        let reads = |measured: &Measured| measured.counts.reads;
        let sizes = lines.first()?.at.iter().map(reads).collect();
        Some(Table { pages: self.pages.clone(), sizes, lines, walks: true, ..*self })
    }

    /// A row without passes of its own has those of the first that has some, which walks the same pages.
    fn walks_of(&self, line: &Line) -> Option<Line> {
        let named = line.at[0].row.without_walk?;
        let without = self.lines.iter().find(|line| line.name == named)?;
        let plain = self.lines.iter().find(|line| !line.at[0].row.passes.is_empty())?;
        let passed = if line.at[0].row.passes.is_empty() { plain } else { line };
        let walk = |(i, whole): (usize, &Measured)| {
            let (less, passed) = (&without.at[i], &passed.at[i]);
            Measured {
                library: told_apart(whole.library, less.library),
                reference: told_apart(whole.reference, less.reference),
                third: told_apart(whole.third, less.third),
                passes: passed.passes,
                settled: whole.settled && less.settled && passed.settled,
                ..*whole
            }
        };
        Some(Line { name: line.name, at: line.at.iter().enumerate().map(walk).collect() })
    }

    pub fn title(&self) -> String {
        match self.plan.kind {
            Kind::Sizes => self.setting.to_string(),
            _ if self.walks => format!("Walks of the log alone; {}", self.setting),
            _ => format!("{}; {}", self.plan.about, self.setting),
        }
    }

    pub fn ratios(&self) -> Vec<Ratio> {
        let mut ratios = match self.plan.kind {
            Kind::Refused => vec![TO_REFERENCE, TO_THIRD],
            _ if self.walks => vec![TO_REFERENCE, TO_THIRD, TO_COPY, TO_READS, TO_GATHERED],
            _ => vec![TO_REFERENCE, TO_THIRD, TO_FLOOR],
        };
        if self.measured().any(|measured| measured.row.beside.is_some()) {
            ratios.push(TO_READ);
        }
        ratios
    }

    pub fn measured(&self) -> impl Iterator<Item = &Measured> {
        self.lines.iter().flat_map(|line| &line.at)
    }

    /// One row's ratio on each store.
    pub fn values(&self, ratio: &Ratio, line: &Line) -> Vec<Option<f64>> {
        let value = |(i, measured)| (ratio.value)(self, measured, i).filter(|ratio| !ratio.is_nan());
        line.at.iter().enumerate().map(value).collect()
    }

    /// The rows that miss an aim on any store, with their ratios on each.
    pub fn misses(&self) -> Option<String> {
        let mut all = Vec::new();
        for ratio in self.ratios() {
            for line in &self.lines {
                let Some(aim) = (ratio.aim)(self, &line.at[0].row) else { continue };
                let values = self.values(&ratio, line);
                if values.iter().flatten().any(|&value| hundredths(value) > aim) {
                    let values: Vec<String> = values.into_iter().map(cell).collect();
                    all.push(format!("{} {} of the {}", line.name, values.join(", "), ratio.of));
                }
            }
        }
        (!all.is_empty()).then(|| format!("{}: {}", self.title(), all.join("; ")))
    }
}

/// Two digits, or nothing where there is no ratio.
pub fn cell(ratio: Option<f64>) -> String {
    ratio.filter(|ratio| !ratio.is_nan()).map(|ratio| format!("{ratio:.2}")).unwrap_or_default()
}

fn hundredths(ratio: f64) -> f64 {
    (ratio * 100.0).round() / 100.0
}
