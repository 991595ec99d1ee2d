//! What sound images can have that no list of calls from a format leaves. Images that calls did leave are looked
//! at in the same way, and must have nothing of it.

use crate::reference::*;

pub const ANY_PHASE: [&str; 9] = [
    "clean page not all 255",
    "used page of a third kind",
    "used page with other last bytes",
    "page stamped for another chip",
    "page copied from beyond the chip",
    "page copied from its own block",
    "parity page that is no XOR",
    "partial parity that is no XOR",
    "parity page over no page",
];

pub const PHASE_1: [&str; 3] = [
    "phase 1, victim not full",
    "phase 1, other pages than copies",
    "phase 1, clean block below the destination",
];

pub const PHASE_2: [&str; 8] = [
    "phase 2, victim begun",
    "phase 2, victim wholly named",
    "phase 2, copies out of order",
    "phase 2, page neither named nor due",
    "phase 2, named page behind a due one",
    "phase 2, clean block below the destination",
    "phase 2, copy of the page before the victim",
    "phase 2, copy of the page behind the victim",
];

/// All of it in images that are sound with no chip lost.
pub fn strange_things(view: View) -> Vec<&'static str> {
    let mut things = Things(Vec::new());
    for chip in 0..=view.shape.n {
        for page in 0..view.shape.pages() {
            things.look_at_page(view, chip, page);
        }
    }
    for stripe in 0..view.shape.s {
        things.look_at_stripe(view, stripe);
    }
    match view.collection().phase {
        1 => things.look_at_phase_1(view),
        2 => things.look_at_phase_2(view),
        _ => {}
    }
    things.0
}

struct Things(Vec<&'static str>);

impl Things {
    fn see(&mut self, there: bool, thing: &'static str) {
        if there && !self.0.contains(&thing) {
            self.0.push(thing);
        }
    }

    fn look_at_page(&mut self, view: View, chip: usize, page: usize) {
        let shape = view.shape;
        let at = shape.page_at(chip, page);
        let bytes = &view.images.chips[at..at + shape.page_len()];
        if view.is_clean(chip, page) {
            return self.see(bytes.iter().any(|&byte| byte != 255), "clean page not all 255");
        }
        let Spare { kind, member, stripe, copied } = view.spare(chip, page);
        let (member, stripe, copied) = (member as usize, stripe as usize, copied as usize);
        let own = stripe < shape.s
            && match kind {
                DATA => member < shape.n && shape.member_chip(stripe, member) == chip,
                PARITY => member == 0 && shape.parity_chip(stripe) == chip,
                _ => true,
            };
        self.see(kind != DATA && kind != PARITY, "used page of a third kind");
        self.see(bytes[shape.w + 6..] != [255, 255], "used page with other last bytes");
        self.see(!own, "page stamped for another chip");
        let beyond = copied >= shape.pages() && copied != NONE as usize;
        self.see(beyond, "page copied from beyond the chip");
        self.see(copied / shape.k == page / shape.k, "page copied from its own block");
    }

    fn look_at_stripe(&mut self, view: View, stripe: usize) {
        let (shape, record) = (view.shape, view.record(stripe));
        let sum = |numbers: &[u16]| {
            let mut sum = vec![0; shape.w];
            for (m, &page) in numbers.iter().enumerate().filter(|(_, &page)| page != NONE) {
                let data = view.data(shape.member_chip(stripe, m), page as usize);
                sum.iter_mut().zip(data).for_each(|(byte, other)| *byte ^= other);
            }
            sum
        };
        let pick = |m: usize| {
            if record.bit(m) {
                (record.old[m], record.current[m])
            } else {
                (record.current[m], NONE)
            }
        };
        let (under_parity, in_partial): (Vec<u16>, Vec<u16>) = (0..shape.n).map(pick).unzip();
        if record.parity != NONE {
            let parity = view.data(shape.parity_chip(stripe), record.parity as usize);
            self.see(sum(&under_parity) != parity, "parity page that is no XOR");
            self.see(under_parity.iter().all(|&page| page == NONE), "parity page over no page");
        }
        if record.slot != NO_SLOT {
            self.see(sum(&in_partial) != view.slot(record.slot), "partial parity that is no XOR");
        }
    }

    fn look_at_phase_1(&mut self, view: View) {
        let Collection { chip, victim, destination, .. } = view.collection();
        let (chip, victim, destination) = (chip as usize, victim as usize, destination as usize);
        self.see(view.clean_place(chip, victim).is_some(), "phase 1, victim not full");
        let named = view.named_on(chip);
        let originals = view.shape.block_pages(victim).filter(|&page| named[page]);
        let due = originals.map(|page| Spare { copied: page as u16, ..view.spare(chip, page) });
        let mut due = due.collect::<Vec<_>>().into_iter();
        let mut copies = used_pages(view, chip, destination).map(|page| view.spare(chip, page));
        self.see(copies.any(|copy| due.next() != Some(copy)), "phase 1, other pages than copies");
        let below = (0..destination).any(|block| view.clean_place(chip, block) == Some(0));
        self.see(below, "phase 1, clean block below the destination");
    }

    fn look_at_phase_2(&mut self, view: View) {
        let Collection { chip, victim, destination, .. } = view.collection();
        let (chip, victim, destination) = (chip as usize, victim as usize, destination as usize);
        let begun = view.clean_place(chip, victim).is_some_and(|place| place > 0);
        self.see(begun, "phase 2, victim begun");
        let named = view.named_on(chip);
        let wholly = view.shape.block_pages(victim).all(|page| named[page]);
        self.see(wholly, "phase 2, victim wholly named");
        let due = view.twins(&named);
        let used = used_pages(view, chip, destination);
        let copied: Vec<u16> = used.clone().map(|page| view.spare(chip, page).copied).collect();
        self.see(copied.windows(2).any(|pair| pair[0] >= pair[1]), "phase 2, copies out of order");
        let neither = used.clone().any(|page| !named[page] && !due.contains(&page));
        self.see(neither, "phase 2, page neither named nor due");
        let first = due.first().copied().unwrap_or(view.shape.pages());
        let behind = used.clone().any(|page| page > first && named[page]);
        self.see(behind, "phase 2, named page behind a due one");
        let clean = |block: usize| view.clean_place(chip, block) == Some(0);
        let below = (0..destination).any(|block| block != victim && clean(block));
        self.see(below, "phase 2, clean block below the destination");
        let block = view.shape.block_pages(victim);
        let is_copied = |page: usize| {
            let copy = Spare { copied: page as u16, ..view.spare(chip, page) };
            named[page] && used.clone().any(|page| !named[page] && view.spare(chip, page) == copy)
        };
        let before = block.start > 0 && is_copied(block.start - 1);
        self.see(before, "phase 2, copy of the page before the victim");
        let behind = block.end < view.shape.pages() && is_copied(block.end);
        self.see(behind, "phase 2, copy of the page behind the victim");
    }
}

fn used_pages(view: View<'_>, chip: usize, block: usize) -> impl Iterator<Item = usize> + Clone + '_ {
    view.shape.block_pages(block).filter(move |&page| !view.is_clean(chip, page))
}
