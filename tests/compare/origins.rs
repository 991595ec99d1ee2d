//! How pages are got, told from the records once more, and what reads and questions have shown of it. The reference is
//! held to it, and so are answers that the price book holds.

use crate::coverage::Coverage;
use crate::points::ORIGINS;
use crate::reference::{Record, Shape, View, NONE};

/// How a member's page is got, as a number: a place in `ORIGINS`.
pub fn origin_of(shape: Shape, stripe: usize, record: &Record, member: usize, lost: u64) -> u64 {
    match record.current[member] {
        NONE => 0,
        _ => of_written(shape, stripe, record, member, lost),
    }
}

/// The same of a page that was written.
fn of_written(shape: Shape, stripe: usize, record: &Record, member: usize, lost: u64) -> u64 {
    let on_lost = shape.member_chip(stripe, member) as u64 == lost;
    let in_partial = record.bitmap & 1 << member != 0;
    match (on_lost, in_partial) {
        (false, _) => 1,
        (true, true) => 2,
        (true, false) => 3,
    }
}

/// How a logical page is got, if it is known without its record whether it was written.
pub fn of_booked(view: View, lost: u64, page: usize, written: bool) -> u64 {
    let (stripe, member) = (page / view.shape.n, page % view.shape.n);
    match written {
        false => 0,
        true => of_written(view.shape, stripe, &view.record(stripe), member, lost),
    }
}

fn of_page(view: View, lost: u64, page: u64) -> u64 {
    let (stripe, member) = (page as usize / view.shape.n, page as usize % view.shape.n);
    origin_of(view.shape, stripe, &view.record(stripe), member, lost)
}

pub fn hit_origin(coverage: &mut Coverage, origin: u64, what: &str) {
    coverage.hit(&format!("origin {}: {what}", ORIGINS[origin as usize]));
}

/// A read that is not refused, and what it said.
pub fn note_read(coverage: &mut Coverage, view: View, lost: u64, page: u64, said: u64) -> Result<(), String> {
    let origin = of_page(view, lost, page);
    if said != origin {
        return Err(format!("origin {said}, the record has {origin}"));
    }
    hit_origin(coverage, origin, "read");
    let (stripe, member) = (page as usize / view.shape.n, page as usize % view.shape.n);
    let dead = origin == 0 && view.shape.member_chip(stripe, member) as u64 == lost;
    coverage.hit_if(dead, "origin of a read never written, on the lost chip");
    Ok(())
}

/// A read that is refused for the length of its buffer, of a page that is there.
pub fn note_refused_read(coverage: &mut Coverage, view: View, lost: u64, page: u64) {
    let origin = of_page(view, lost, page);
    coverage.hit_if(origin == 1, "origin of a read refused 8, its page direct");
    coverage.hit_if(origin >= 2, "origin of a read refused 8, its page on the lost chip");
}

/// A question that is refused for a ticket, and how the pages up to its one were got.
pub fn note_refused_find(coverage: &mut Coverage, origins: &[u64]) {
    let greatest = origins.iter().max().expect("a log has a page");
    coverage.hit_if(*greatest == 1, "origin of a find refused 11, its pages direct");
    coverage.hit_if(*greatest >= 2, "origin of a find refused 11, a page on the lost chip");
}

/// A log as a question goes over it.
pub struct Asked<'a> {
    /// How its pages were got, the one with its end included.
    pub origins: &'a [u64],
    /// It has no end.
    pub full: bool,
    /// The tickets of the lot and bag: the page of each, and whether it is a weight.
    pub tickets: &'a [(usize, bool)],
}

impl Asked<'_> {
    fn greatest(&self) -> u64 {
        *self.origins.iter().max().expect("a log has a page")
    }

    /// What is to be said: of a weight its page's, of none the greatest.
    pub fn origin(&self) -> u64 {
        match self.tickets {
            [.., (page, true)] => self.origins[*page],
            _ => self.greatest(),
        }
    }

    /// A question that is not refused, and what it said.
    pub fn note(&self, coverage: &mut Coverage, said: u64) -> Result<(), String> {
        let origin = self.origin();
        if said != origin {
            return Err(format!("origin {said}, the log has {origin}"));
        }
        match self.tickets {
            [before @ .., (_, true)] => self.note_given(coverage, before, origin),
            [] => {
                self.note_none(coverage, origin);
                hit_origin(coverage, origin, "find none, no such ticket");
            }
            [.., (page, false)] => {
                self.note_none(coverage, origin);
                hit_origin(coverage, origin, "find none, withdrawn");
                let below = self.origins[*page] < origin;
                coverage.hit_if(below, "origin of a find, withdrawn in a page of a lower one");
            }
        }
        Ok(())
    }

    fn note_given(&self, coverage: &mut Coverage, before: &[(usize, bool)], origin: u64) {
        hit_origin(coverage, origin, "find a weight");
        if self.full {
            hit_origin(coverage, origin, "find a weight, the log full");
        }
        let weighed = |f: &dyn Fn(u64) -> bool| before.iter().any(|t| t.1 && f(self.origins[t.0]));
        let points = [
            (
                origin < self.greatest(),
                "origin of a find, a weight in a page of a lower one than the greatest",
            ),
            (weighed(&|other| other > origin), "origin of a find, weighed before in a page of a higher one"),
            (weighed(&|other| other < origin), "origin of a find, weighed before in a page of a lower one"),
        ];
        points.iter().for_each(|&(holds, point)| coverage.hit_if(holds, point));
    }

    fn note_none(&self, coverage: &mut Coverage, origin: u64) {
        if self.full {
            hit_origin(coverage, origin, "find none, the log full");
        }
        let (&last, earlier) = self.origins.split_last().expect("a log has a page");
        let Some(&before) = earlier.iter().max() else { return };
        let points = [
            (!self.full && last > before, "origin of a find, none, of the page with the log's end alone"),
            (before > last && last == 0, "origin of a find, none, of a page before one never written"),
            (
                !self.full && before > last && last > 0,
                "origin of a find, none, of a page before a written one with the log's end",
            ),
            (self.full && last > before, "origin of a find, none, of the last page alone, the log full"),
            (self.full && before > last, "origin of a find, none, of a page before the last, the log full"),
        ];
        points.iter().for_each(|&(holds, point)| coverage.hit_if(holds, point));
    }
}
