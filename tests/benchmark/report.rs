//! Tables printed as text or in Markdown, and what of them misses the aims.

use crate::bench::Measured;
use crate::grid::Grid;
use crate::log::Pass;
use crate::owned::THIRD_NAME;
use crate::plans::{Kind, Plan};
use crate::reference::Geometry;
use crate::table::{cell, Line, Table};

pub struct Report {
    pub markdown: bool,
}

impl Report {
    pub fn stores(&self, plan: &Plan, widths: &[u64]) {
        let mut told = Vec::new();
        for &w in widths {
            let stores: Vec<Geometry> = (plan.stores)(w).iter().map(|g| Geometry { w: 0, ..*g }).collect();
            match told.is_empty() {
                true => println!("\n`{}`: {}. {}", plan.word, plan.about, numbers(&stores)),
                false if told != stores => println!("With W = {}: {}", grouped(w), numbers(&stores)),
                false => {}
            }
            told = stores;
        }
    }

    /// One table, as soon as it is measured; a page in Markdown begins with the summary instead.
    pub fn measured(&self, table: &Table) {
        if !self.markdown {
            self.table(table);
        }
    }

    pub fn finish(&self, tables: &[Table]) {
        let sizes: Vec<&Table> = tables.iter().filter(|table| table.plan.kind == Kind::Sizes).collect();
        self.worst("Worst ratios", &sizes);
        let walks: Vec<&Table> = tables.iter().filter(|table| table.walks).collect();
        self.worst("Worst ratios of walks of the log alone", &walks);
        self.misses(tables);
        if self.markdown {
            tables.iter().for_each(|table| self.table(table));
        }
        let mut told: Vec<&str> = Vec::new();
        for table in tables.iter().filter(|table| table.plan.kind != Kind::Refused) {
            if !told.contains(&table.plan.word) {
                told.push(table.plan.word);
                self.counts(table);
            }
        }
    }

    fn table(&self, table: &Table) {
        self.heading(&table.title());
        let lines = table.lines.iter().map(|line| times_line(table, line)).collect();
        Grid { head: times_head(table), lines }.print(self.markdown);
    }

    /// What each call answers on the largest store; the floor moves as much.
    fn counts(&self, table: &Table) {
        let pages = grouped(*table.pages.last().expect("a store"));
        self.heading(&format!("Counts at {pages} pages, {}", table.title()));
        let line = |line: &Line| {
            let counts = line.at.last().expect("a store").counts;
            let numbers = [counts.reads, counts.programs, counts.erases, counts.stores];
            strings([line.name]).into_iter().chain(numbers.map(grouped)).collect()
        };
        let head = strings(["call", "reads", "programs", "erases", "stores"]);
        Grid { head, lines: table.lines.iter().map(line).collect() }.print(self.markdown);
    }

    /// The worst ratios of each row over all tables and stores.
    fn worst(&self, heading: &str, tables: &[&Table]) {
        if tables.is_empty() {
            return;
        }
        self.heading(heading);
        let ratios = tables[0].ratios();
        let heads = ratios.iter().flat_map(|ratio| [ratio.head, "where"]);
        let head = ["call"].into_iter().chain(heads).map(String::from).collect();
        let line = |row: usize| {
            let mut cells = strings([tables[0].lines[row].name]);
            for ratio in &ratios {
                let places = tables.iter().flat_map(|table| {
                    let values = table.values(ratio, &table.lines[row]).into_iter().zip(&table.pages);
                    let place = |pages: u64| format!("{}, {} pages", table.setting, grouped(pages));
                    values.filter_map(move |(value, &pages)| Some((value?, place(pages))))
                });
                let worst = places.max_by(|a, b| a.0.total_cmp(&b.0));
                let (worst, place) =
                    worst.map_or((None, String::new()), |(worst, place)| (Some(worst), place));
                cells.extend([cell(worst), place]);
            }
            cells
        };
        let lines = (0..tables[0].lines.len()).map(line).collect();
        Grid { head, lines }.print(self.markdown);
    }

    fn misses(&self, tables: &[Table]) {
        self.heading("Outside the aims");
        let misses: Vec<String> = tables.iter().filter_map(Table::misses).collect();
        if misses.is_empty() {
            println!("All within the aims.");
        }
        misses.iter().for_each(|miss| println!("- {miss}"));
        let all = || tables.iter().filter(|table| !table.walks).flat_map(Table::measured);
        let unsettled = all().filter(|measured| !measured.settled).count();
        println!("\nNot settled: {unsettled} of {}.", all().count());
    }

    fn heading(&self, text: &str) {
        println!("\n{}{text}\n", if self.markdown { "### " } else { "" });
    }
}

fn times_head(table: &Table) -> Vec<String> {
    let mut head = strings(["call"]);
    for (i, &pages) in table.pages.iter().enumerate() {
        head.push(format!("{}: us", grouped(pages)));
        if i + 1 == table.pages.len() {
            head.extend(others(table).iter().map(|(name, _)| format!("{name} us")));
        }
        head.extend(table.ratios().iter().map(|ratio| ratio.head.to_string()));
    }
    if grows(table) {
        let growth = |two: &[u64]| format!("growth ({:.2})", two[1] as f64 / two[0] as f64);
        head.extend(table.sizes.windows(2).map(growth));
    }
    head
}

fn times_line(table: &Table, line: &Line) -> Vec<String> {
    let mut cells = strings([line.name]);
    for (i, at) in line.at.iter().enumerate() {
        let mark = if at.settled { "" } else { "~" };
        cells.push(format!("{mark}{}", microseconds(at.library)));
        if i + 1 == line.at.len() {
            let time = |other: &Other| other.1(at).map(microseconds).unwrap_or_default();
            cells.extend(others(table).iter().map(time));
        }
        cells.extend(table.ratios().iter().map(|ratio| cell((ratio.value)(table, at, i))));
    }
    if grows(table) {
        cells.extend(line.at.windows(2).map(|two| cell(Some(two[1].library / two[0].library))));
    }
    cells
}

type Other = (&'static str, fn(&Measured) -> Option<f64>);

/// Whose times stand beside the library's, on the largest store.
fn others(table: &Table) -> Vec<Other> {
    let mut others: Vec<Other> =
        vec![("reference", |at| Some(at.reference)), (THIRD_NAME, |at| Some(at.third))];
    if table.walks {
        others.extend::<[Other; 3]>([
            ("copy", |at| at.passes[Pass::Copy as usize]),
            ("reads", |at| at.passes[Pass::Reads as usize]),
            ("gathered", |at| at.passes[Pass::Gathered as usize]),
        ]);
    } else if table.plan.kind != Kind::Refused {
        others.push(("floor", |at| Some(at.floor)));
    }
    others
}

/// B, S and M of each store.
fn numbers(stores: &[Geometry]) -> String {
    let each =
        |number: fn(&Geometry) -> u64| stores.iter().map(number).map(grouped).collect::<Vec<_>>().join(", ");
    format!("B = {}; S = {}; M = {}.", each(|g| g.b), each(|g| g.s), each(|g| g.m))
}

/// Where all calls are to grow as the pages do.
fn grows(table: &Table) -> bool {
    table.measured().all(|measured| measured.row.beside.is_none())
}

fn strings<const N: usize>(words: [&str; N]) -> Vec<String> {
    words.map(String::from).to_vec()
}

/// Nothing if there is no time.
fn microseconds(time: f64) -> String {
    match time {
        _ if time.is_nan() => String::new(),
        ..1.0 => format!("{time:.3}"),
        ..10.0 => format!("{time:.2}"),
        ..100.0 => format!("{time:.1}"),
        _ => grouped(time.round() as u64),
    }
}

/// Thousands with commas.
fn grouped(number: u64) -> String {
    match (number / 1000, number % 1000) {
        (0, rest) => rest.to_string(),
        (thousands, rest) => format!("{},{rest:03}", grouped(thousands)),
    }
}
