//! The list of a write, an addition, a commit or a collection, told in its parts: which part a cut fell in, and which
//! points of the coverage the stores that were made have shown.

use crate::coverage::Coverage;
use crate::generator::ALL;
use crate::points::ADDITION;
use crate::reference::*;
use std::borrow::Cow;

/// What a commit and its collection, if any, are called where it is a call of its own.
const OWN: [&str; 2] = ["commit", "collection of a commit"];

/// Who writes a page, and what its collection, its commit and that one's collection are called.
#[derive(Clone, Copy)]
struct Writer {
    name: &'static str,
    collection: &'static str,
    commit: [&'static str; 2],
}

const WRITE: Writer = Writer {
    name: "write",
    collection: "collection of a write",
    commit: ["commit of a write", "collection of a write's commit"],
};

const ADD: Writer = Writer {
    name: "addition",
    collection: "collection of an addition",
    commit: ["commit of an addition", "collection of an addition's commit"],
};

pub struct Plan {
    g: Geometry,
    pub shape: Shape,
    writer: Writer,
    /// All stores so far.
    pub stores: u64,
    /// Each part's last store, whose part it is, and which.
    parts: Vec<(u64, &'static str, &'static str)>,
    /// Each point with the number of stores that show it.
    shown: Vec<(u64, String)>,
}

/// The commit that a write owes: its parity chip, the slot that it leaves, and whether it collects.
struct Owed {
    chip: usize,
    slot: u8,
    collects: bool,
}

impl Plan {
    fn new(g: Geometry) -> Plan {
        let shape = g.shape().expect("within the limits");
        Plan { g, shape, writer: WRITE, stores: 0, parts: Vec::new(), shown: Vec::new() }
    }

    pub fn of_write(g: Geometry, images: &Images, page: u64) -> Plan {
        let mut plan = Plan::new(g);
        plan.write(images, page as usize / plan.shape.n, page as usize % plan.shape.n);
        plan
    }

    /// An addition to a page.
    pub fn of_add(g: Geometry, images: &Images, page: u64) -> Plan {
        let mut plan = Plan { writer: ADD, ..Plan::new(g) };
        plan.write(images, page as usize / plan.shape.n, page as usize % plan.shape.n);
        plan
    }

    pub fn of_commit(g: Geometry, images: &Images, stripe: u64) -> Plan {
        let mut plan = Plan::new(g);
        plan.commit(images, stripe as usize, OWN);
        plan
    }

    pub fn of_collect(g: Geometry, images: &Images, chip: u64) -> Plan {
        let mut plan = Plan::new(g);
        plan.collect(images, chip as usize, "collect");
        plan
    }

    /// Counts the points that so many stores have shown, and the part that a cut fell in. An addition has a few points
    /// of its own, called as those of a write, and counts for no others.
    pub fn note(&self, coverage: &mut Coverage, made: u64) {
        for (_, point) in self.shown.iter().filter(|(stores, _)| *stores <= made) {
            match (self.writer.name, point.strip_prefix("write")) {
                ("write", _) => coverage.hit(point),
                (name, Some(rest)) => {
                    let point = format!("{name}{rest}");
                    coverage.hit_if(ADDITION.contains(&point.as_str()), &point);
                }
                _ => {}
            }
        }
        if let Some((_, whose, part)) = self.parts.iter().find(|(last, _, _)| *last > made) {
            coverage.hit(&format!("{whose} cut {part}"));
        }
    }

    pub fn commits_and_collects(&self) -> bool {
        let has = |whose: &str| self.parts.iter().any(|part| part.1 == whose);
        let Writer { collection, commit, .. } = self.writer;
        has(commit[0]) && (has(commit[1]) || has(collection))
    }

    fn part(&mut self, whose: &'static str, part: &'static str, stores: usize) {
        self.stores += stores as u64;
        self.parts.push((self.stores, whose, part));
    }

    /// The point shows once the stores so far are made.
    fn shows(&mut self, point: &str) {
        self.shown.push((self.stores, point.to_string()));
    }

    fn shows_if(&mut self, condition: bool, point: &str) {
        if condition {
            self.shows(point);
        }
    }

    // -----------------------------------------------------------------------------------------
    // Collections
    // -----------------------------------------------------------------------------------------

    /// How many pages it copies.
    fn collect(&mut self, images: &Images, chip: usize, whose: &'static str) -> usize {
        let (shape, view) = (self.shape, images.view(self.shape));
        let named = view.named_on(chip);
        let victim = view.victim(chip).expect("a full block with an unnamed page");
        let copies = shape.block_pages(victim).filter(|&page| named[page]).count();

        self.part(whose, "before phase 1", 1);
        self.show_choice(view, chip, victim, &named);
        self.part(whose, "in the copies", copies);
        self.part(whose, "before phase 2", 1);
        self.part(whose, "in the records", copies);
        self.show_copies(view, chip, victim, &named);
        self.part(whose, "before the erase", 1);
        self.part(whose, "before phase 0", 1);
        self.shows(&format!("collection of chip {chip}, N = {}", shape.n));
        self.shows_if(copies == 0, "collection without copies");
        self.shows_if(copies == shape.k - 1, "collection of K - 1 copies");
        copies
    }

    /// The victim and the destination, beside the other blocks.
    fn show_choice(&mut self, view: View, chip: usize, victim: usize, named: &[bool]) {
        let shape = self.shape;
        let count = |block: usize| shape.block_pages(block).filter(|&page| named[page]).count();
        let destination = view.lowest_clean_block(chip).expect("some block is wholly clean");
        let places: Vec<Option<usize>> = (0..shape.b).map(|block| view.clean_place(chip, block)).collect();
        let full: Vec<usize> = (0..shape.b).filter(|&block| places[block].is_none()).collect();
        let candidates: Vec<usize> = full.iter().copied().filter(|&block| count(block) < shape.k).collect();
        let tied = candidates.iter().filter(|&&block| count(block) == count(victim)).count() > 1;
        self.shows_if(tied, "collection with victims tied");
        let another = candidates[0] != victim;
        self.shows_if(another, "collection of another block than the first with an unnamed page");
        let named_throughout = candidates.len() < full.len();
        self.shows_if(named_throughout, "collection beside a full block of named pages");
        let begun = places.iter().flatten().any(|&place| place > 0);
        self.shows_if(begun, "collection beside a begun block");
        let clean = places.iter().flatten().filter(|&&place| place == 0).count();
        self.shows_if(clean >= 2, "collection with two or more clean blocks");
        self.shows_if(destination < victim, "collection to a block below the victim");
        self.shows_if(destination > victim, "collection to a block above the victim");
        self.shows_if(victim >= 256, "collection of a block from 256 on");
        self.shows_if(destination >= 256, "collection to a block from 256 on");
    }

    /// What the pages are that it copies, and where to.
    fn show_copies(&mut self, view: View, chip: usize, victim: usize, named: &[bool]) {
        let shape = self.shape;
        let destination = view.lowest_clean_block(chip).expect("some block is wholly clean");
        let originals = shape.block_pages(victim).filter(|&page| named[page]);
        for (page, copy) in originals.zip(shape.block_pages(destination)) {
            let spare = view.spare(chip, page);
            self.shows_if(spare.kind == PARITY, "collection of a parity page");
            self.shows_if(spare.copied != NONE, "collection of a page that was copied before");
            self.shows_if(shape.w == 4_096, "collection with W = 4,096");
            self.shows_if(page >= 32_768, "collection of a page from 32,768 on");
            self.shows_if(spare.stripe >= 32_768, "collection at stripe 32,768 or above");
            let last = bytes_of(view, chip, page)[shape.w + 6..] != [255, 255];
            self.shows_if(last, "collection of a page with other last bytes");
            self.shows_if(!is_erased(view, chip, copy), "collection to a clean page that is not all 255");
            if spare.kind != DATA {
                continue;
            }
            let (record, member) = (view.record(spare.stripe as usize), spare.member as usize);
            let (current, old) = (record.current[member], record.old[member]);
            self.shows_if(old as usize == page, "collection of an old page");
            if current as usize == page && shape.block_pages(victim).contains(&(old as usize)) {
                self.shows("collection of current and old page of one stripe");
                let first = current < old;
                self.shows_if(
                    first,
                    "collection of current and old page of one stripe, the current one first",
                );
            }
        }
    }

    // -----------------------------------------------------------------------------------------
    // Places
    // -----------------------------------------------------------------------------------------

    /// Finds a place for the page that the next part programs: what shows of it, and whether by a collection.
    fn place(&mut self, images: &Images, chip: usize, collection: &'static str) -> (Vec<&'static str>, bool) {
        let (shape, view) = (self.shape, images.view(self.shape));
        let Some(page) = view.place(chip) else {
            let ways = ["after a collection without copies", "after a collection, behind its copies"];
            let copies = self.collect(images, chip, collection);
            return (vec![ways[(copies > 0) as usize]], true);
        };
        let places: Vec<Option<usize>> = (0..shape.b).map(|block| view.clean_place(chip, block)).collect();
        let block = page / shape.k;
        let (below, above) = (&places[..block], &places[block + 1..]);
        let begun = page % shape.k > 0;
        let looks = [
            (begun, "in a begun block"),
            (begun && above.iter().flatten().any(|&place| place > 0), "in the lower of two begun blocks"),
            (begun && below.contains(&Some(0)), "in a begun block above a clean one"),
            (!begun, "in a fresh block"),
            (!begun && above.contains(&None), "in a fresh block below a full one"),
            (!is_erased(view, chip, page), "on a clean page that is not all 255"),
        ];
        (looks.into_iter().filter(|look| look.0).map(|look| look.1).collect(), false)
    }

    fn shows_place(&mut self, call: &str, ways: &[&str]) {
        for way in ways {
            self.shows(&format!("{call}, place {way}"));
        }
    }

    // -----------------------------------------------------------------------------------------
    // Commits
    // -----------------------------------------------------------------------------------------

    /// Whether it collects.
    fn commit(&mut self, images: &Images, stripe: usize, [whose, collection]: [&'static str; 2]) -> bool {
        let (g, shape) = (self.g, self.shape);
        let chip = shape.parity_chip(stripe);
        let mut record = images.view(shape).record(stripe);
        let (ways, collects) = self.place(images, chip, collection);
        if collects {
            let mut collected = images.clone();
            collect(g, &mut collected, NO_CHIP, chip as u64, ALL);
            let after = collected.view(shape).record(stripe);
            self.shows("commit that collects");
            self.shows_if(after != record, "commit, its collection moves a page of its stripe");
            record = after;
        }
        self.part(whose, "before the parity page", 1);
        self.shows_place("commit", &ways);
        self.shows(&format!("commit on chip {chip}, N = {}", shape.n));
        self.shows_if(shape.w == 4_096, "commit with W = 4,096");
        self.shows_if(stripe >= 32_768, "commit at stripe 32,768 or above");
        self.show_parity(&record);
        self.part(whose, "before the record", 1);
        collects
    }

    /// Which of the two ways the new parity is made.
    fn show_parity(&mut self, record: &Record) {
        let (n, p) = (self.shape.n, record.set_bits());
        self.shows(&format!("commit, N = {n}, p = {p}"));
        self.shows_if(p == n, "commit of all N pages");
        self.shows_if(p == n.div_ceil(2), "commit with p = ceil(N / 2)");
        self.shows_if(n % 2 == 1 && p == n / 2, "commit with p = floor(N / 2), N odd");
        let fresh = record.parity == NONE;
        if self.shape.completes(p) {
            self.shows("commit completes the stripe");
            self.shows_if(fresh, "commit completes the stripe, parity none");
            let gap = (0..n).any(|m| record.current[m] == NONE);
            self.shows_if(gap, "commit completes the stripe beside a page of none");
        } else {
            self.shows("commit adds to the old parity");
            self.shows_if(fresh, "commit adds, parity none");
            let gap = (0..n).any(|m| record.bit(m) && record.old[m] == NONE);
            self.shows_if(gap, "commit adds, an old page of none");
        }
    }

    // -----------------------------------------------------------------------------------------
    // Writes
    // -----------------------------------------------------------------------------------------

    fn write(&mut self, images: &Images, stripe: usize, member: usize) {
        let (g, shape) = (self.g, self.shape);
        let chip = shape.member_chip(stripe, member);
        let slots = images.view(shape).stripes_with_slot().count();
        let mut now = Cow::Borrowed(images);
        let owed = self.owed(&mut now, stripe, slots);

        let before = now.view(shape).record(stripe);
        let (ways, collects) = self.place(&now, chip, self.writer.collection);
        if collects {
            collect(g, now.to_mut(), NO_CHIP, chip as u64, ALL);
        }
        let record = now.view(shape).record(stripe);
        self.part(self.writer.name, "before the page", 1);
        self.shows_place("write", &ways);
        self.show_page(now.view(shape), stripe, chip);
        self.part(self.writer.name, "before the slot", 1);
        let slot = now.view(shape).free_slot().expect("M + 1 slots, and at most M are named");
        self.show_slot(slot, &record);
        self.part(self.writer.name, "before the record", 1);

        self.show_record(&record, member);
        let own = record.slot != NO_SLOT && slots == shape.m;
        self.shows_if(own, "write with M records with a slot, its own among them");
        self.shows_if(record != before, "write, its collection moves a page of its stripe");
        self.show_help(owed, collects, chip, slot);
    }

    /// The commit and the collections that a write had to make first.
    fn show_help(&mut self, owed: Option<Owed>, collects: bool, chip: usize, slot: u8) {
        self.shows(match (owed.as_ref().map(|owed| owed.collects), collects) {
            (None, false) => "write that only writes",
            (None, true) => "write that collects",
            (Some(false), false) => "write that commits",
            (Some(false), true) => "write that commits and collects for its page",
            (Some(true), false) => "write that commits and collects for the parity page",
            (Some(true), true) => "write that commits and collects for both pages",
        });
        if let Some(owed) = owed {
            self.shows_if(owed.chip == chip, "write and its commit on one chip");
            self.shows_if(owed.slot == slot, "write into the slot that its commit left");
        }
    }

    /// The commit that comes first, if one is owed, made on the images.
    fn owed(&mut self, now: &mut Cow<Images>, stripe: usize, slots: usize) -> Option<Owed> {
        let (g, shape, view) = (self.g, self.shape, now.view(self.shape));
        let first = view.record(stripe);
        if first.slot != NO_SLOT || slots < shape.m {
            return None;
        }
        let cheapest = self.cheapest(view);
        let slot = view.record(cheapest).slot;
        let collects = self.commit(now, cheapest, self.writer.commit);
        commit(g, now.to_mut(), NO_CHIP, cheapest as u64, ALL);
        let moved = now.view(shape).record(stripe) != first;
        self.shows_if(moved, "write, its commit's collection moves a page of its stripe");
        Some(Owed { chip: shape.parity_chip(cheapest), slot, collects })
    }

    /// The stripe that a write commits, which shows in the commit's first store.
    fn cheapest(&mut self, view: View) -> usize {
        let shape = self.shape;
        let chosen = view.cheapest_stripe().expect("M is at least 1");
        let p = view.record(chosen).set_bits();
        let bits: Vec<usize> = view.stripes_with_slot().map(|(_, record)| record.set_bits()).collect();
        let tied = bits.iter().filter(|&&other| shape.cost(other) == shape.cost(p)).count() > 1;
        let first = view.stripes_with_slot().next().map(|(stripe, _)| stripe);
        let after = self.stores + 1;
        let points = [
            (tied, "write commits one of two stripes of equal cost"),
            (first != Some(chosen), "write commits another stripe than the first with a slot"),
            (bits.iter().any(|&other| other > p), "write commits a stripe with fewer set bits than another"),
        ];
        self.shown.extend(points.iter().filter(|point| point.0).map(|point| (after, point.1.to_string())));
        chosen
    }

    fn show_page(&mut self, view: View, stripe: usize, chip: usize) {
        self.shows(&format!("write on chip {chip}, N = {}", self.shape.n));
        self.shows_if(view.place(chip) >= Some(32_768), "write to a page from 32,768 on");
        self.shows_if(stripe >= 32_768, "write at stripe 32,768 or above");
    }

    fn show_slot(&mut self, slot: u8, record: &Record) {
        self.shows_if(slot == 0, "write into slot 0");
        self.shows_if(slot as usize == self.shape.m, "write into slot M");
        self.shows_if(slot == 254, "write into slot 254");
        if record.slot != NO_SLOT {
            self.shows_if(slot > record.slot, "write into a slot above its own");
            self.shows_if(slot < record.slot, "write into a slot below its own");
        }
    }

    /// What the record was before the write.
    fn show_record(&mut self, record: &Record, member: usize) {
        self.shows(match (record.slot, record.bit(member)) {
            (NO_SLOT, _) => "write, partial is the data",
            (_, false) => "write, partial xor data",
            (_, true) => "write, partial xor current page xor data",
        });
        let whole = self.shape.w == 4_096 && record.bit(member);
        self.shows_if(whole, "write with W = 4,096, partial xor current page xor data");
        self.shows(match (record.bit(member), record.current[member], record.old[member]) {
            (false, NONE, _) => "write of a page without current number",
            (false, _, _) => "write of a page outside the partial parity, old becomes current",
            (true, _, NONE) => "write again under one partial parity, without old page",
            (true, _, _) => "write again under one partial parity, with an old page",
        });
        self.shows(match record.slot {
            NO_SLOT => "write of a stripe without slot",
            _ => "write of a stripe with a slot",
        });
    }
}

fn bytes_of(view: View<'_>, chip: usize, page: usize) -> &[u8] {
    let at = view.shape.page_at(chip, page);
    &view.images.chips[at..at + view.shape.page_len()]
}

fn is_erased(view: View, chip: usize, page: usize) -> bool {
    bytes_of(view, chip, page).iter().all(|&byte| byte == 255)
}
