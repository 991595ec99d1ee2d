//! How often the calls came by each point, and the telling of it.

use crate::groups::{groups, Group, Table};
use std::collections::HashMap;
use std::process::exit;

/// The columns of a line.
const WIDTH: usize = 132;

pub struct Coverage {
    groups: Vec<Group>,
    hits: HashMap<String, u64>,
}

impl Coverage {
    pub fn new() -> Coverage {
        let groups = groups();
        let mut hits = HashMap::new();
        for point in groups.iter().flat_map(Group::points) {
            let twice = hits.insert(point.to_string(), 0).is_some();
            assert!(!twice, "{point:?} stands twice among the points");
        }
        Coverage { groups, hits }
    }

    pub fn hit(&mut self, point: &str) {
        match self.hits.get_mut(point) {
            Some(hits) => *hits += 1,
            None => {
                println!("FAILED: {point:?} is no point of the coverage");
                exit(1);
            }
        }
    }

    pub fn hit_if(&mut self, condition: bool, point: &str) {
        if condition {
            self.hit(point);
        }
    }

    pub fn points(&self) -> usize {
        self.hits.len()
    }

    fn all(&self) -> impl Iterator<Item = (&str, u64)> {
        self.groups.iter().flat_map(Group::points).map(|point| (point, self.hits[point]))
    }

    pub fn missed(&self) -> Vec<&str> {
        self.all().filter(|&(_, hits)| hits == 0).map(|(point, _)| point).collect()
    }

    /// The point that was hit least often, of those that are no worked case.
    pub fn rarest(&self) -> (&str, u64) {
        let worked = |point: &str| point.starts_with("paper") || point.starts_with("capacitor");
        let random = self.all().filter(|(point, _)| !worked(point));
        random.min_by_key(|&(_, hits)| hits).expect("there are points")
    }

    /// All groups, with how often each point was hit.
    pub fn tell(&self) {
        for group in &self.groups {
            match group {
                Group::Points(title, points) => self.tell_points(title, points),
                Group::Table(table) => self.tell_table(table),
            }
        }
    }

    /// As many points to a line as it has room for, without the words that stand in the title.
    fn tell_points(&self, title: &str, points: &[String]) {
        let mut line = format!("{title}:");
        for (i, point) in points.iter().enumerate() {
            let short = point.strip_prefix(title).unwrap_or(point).trim_start_matches([',', ':', ' ']);
            let end = if i + 1 < points.len() { ";" } else { "" };
            let told = format!(" {short} {}{end}", self.hits[point]);
            if line.len() + told.len() > WIDTH {
                println!("{line}");
                line = "  ".to_string();
            }
            line += &told;
        }
        println!("{line}");
    }

    fn tell_table(&self, table: &Table) {
        let told = |cell: &Vec<String>| {
            let hits: Vec<String> = cell.iter().map(|point| self.hits[point].to_string()).collect();
            if hits.is_empty() {
                "-".to_string()
            } else {
                hits.join(" ")
            }
        };
        let rows: Vec<Vec<String>> =
            table.rows.iter().map(|(_, cells)| cells.iter().map(told).collect()).collect();
        let first =
            table.rows.iter().map(|row| row.0.len() + 3).chain([table.title.len()]).max().unwrap_or(0);
        let width =
            |i: usize| rows.iter().map(|row| row[i].len()).chain([table.columns[i].len()]).max().unwrap_or(0);
        let widths: Vec<usize> = (0..table.columns.len()).map(width).collect();
        let line = |name: &str, cells: &[String]| {
            let cells = cells.iter().zip(&widths).map(|(cell, &width)| format!("  {cell:>width$}"));
            println!("{name:first$}{}", cells.collect::<String>());
        };
        line(table.title, &table.columns);
        for ((name, _), cells) in table.rows.iter().zip(&rows) {
            line(&format!("   {name}"), cells);
        }
    }
}

impl Group {
    fn points(&self) -> Vec<&str> {
        match self {
            Group::Points(_, points) => points.iter().map(String::as_str).collect(),
            Group::Table(table) => {
                table.rows.iter().flat_map(|(_, cells)| cells.iter().flatten()).map(String::as_str).collect()
            }
        }
    }
}
