//! Images to compare on: left behind by lists of calls, or built directly and sound.

use crate::random::Random;
use crate::reference::*;

pub const ALL: u64 = u64::MAX;

/// From so many pages to a chip on a call takes long, and a case makes few.
pub const LARGE: usize = 5_000;

pub fn formatted(random: &mut Random, g: Geometry, shape: Shape) -> Images {
    let [chips, records, slots] = shape.lengths();
    let mut images = Images { chips: vec![0; chips], records: vec![0; records], slots: random.bytes(slots) };
    format(g, &mut images, ALL);
    images
}

pub fn store_record(images: &mut Images, stripe: usize, record: Record) {
    let at = stripe * RECORD_BYTES;
    images.records[at..at + RECORD_BYTES].copy_from_slice(&record.to_bytes());
}

pub fn store_collection(images: &mut Images, shape: Shape, collection: Collection) {
    let at = shape.s * RECORD_BYTES;
    images.records[at..at + RECORD_BYTES].copy_from_slice(&collection.to_bytes());
}

pub fn store_spare(images: &mut Images, shape: Shape, chip: usize, page: usize, spare: Spare) {
    let at = shape.spare_at(chip, page);
    images.chips[at..at + SPARE_BYTES].copy_from_slice(&spare.to_bytes());
}

// ---------------------------------------------------------------------------------------------
// Lists of calls
// ---------------------------------------------------------------------------------------------

/// What a random list of writes, commits, collections and opens leaves of formatted images, cuts
/// included.
pub fn by_calls(random: &mut Random, g: Geometry, shape: Shape) -> Images {
    let mut images = formatted(random, g, shape);
    let most = if shape.pages() > 2_000 { 12 } else { 4 * shape.pages().min(60) };
    for _ in 0..random.below(most) {
        let allowance = match random.below(10) {
            0 => random.below(2 * shape.k + 8) as u64,
            1 => random.below(5) as u64,
            _ => ALL,
        };
        match random.below(20) {
            0 | 1 => {
                open(g, &mut images, NO_CHIP, allowance);
            }
            2 | 3 => {
                commit(g, &mut images, NO_CHIP, random.below(shape.s) as u64, allowance);
            }
            4 | 5 => {
                collect(g, &mut images, NO_CHIP, random.below(shape.n + 1) as u64, allowance);
            }
            _ => {
                let page = random.below(shape.n * shape.s) as u64;
                let data = random.bytes(shape.w);
                write(g, &mut images, NO_CHIP, page, &data, allowance);
            }
        }
    }
    if random.one_in(2) {
        leave_collection(random, g, shape, &mut images);
    }
    images
}

/// Cuts a collection somewhere, on any chip that has a victim.
pub fn leave_collection(random: &mut Random, g: Geometry, shape: Shape, images: &mut Images) {
    open(g, images, NO_CHIP, ALL);
    let first = random.below(shape.n + 1);
    for i in 0..=shape.n {
        let chip = ((first + i) % (shape.n + 1)) as u64;
        let length = collect(g, &mut images.clone(), NO_CHIP, chip, ALL).stores;
        if length > 0 {
            collect(g, images, NO_CHIP, chip, random.below(length as usize) as u64);
            return;
        }
    }
}

// ---------------------------------------------------------------------------------------------
// Sound images built directly
// ---------------------------------------------------------------------------------------------

struct Draft<'r> {
    random: &'r mut Random,
    shape: Shape,
    images: Images,
    collection: Collection,
    /// The chips are nearly full, all of them.
    full: bool,
    /// For each chip, the used pages that records may still come to name.
    pools: Vec<Vec<usize>>,
    /// Used pages of the destination that stay unnamed.
    reserved: Vec<usize>,
    free_slots: Vec<u8>,
}

/// Sound images, pages in any places, with a collection in the given phase.
pub fn sound(random: &mut Random, shape: Shape, phase: u8) -> Images {
    let [chips, records, slots] = shape.lengths();
    let images = Images { chips: random.bytes(chips), records: vec![0; records], slots: random.bytes(slots) };
    // M of the M + 1 slots, in any order or the highest first.
    let mut free_slots: Vec<u8> = (0..=shape.m as u8).collect();
    if random.one_in(2) {
        random.shuffle(&mut free_slots);
    }
    free_slots.remove(0);
    let full = shape.pages() > LARGE && random.one_in(2);
    let mut draft = Draft {
        random,
        shape,
        images,
        collection: Collection::default(),
        full,
        pools: Vec::new(),
        reserved: Vec::new(),
        free_slots,
    };
    draft.choose_collection(phase);
    for chip in 0..=shape.n {
        draft.lay_out_chip(chip);
    }
    draft.fill_records();
    if phase == 2 {
        draft.place_twins();
    }
    draft.images
}

impl Draft<'_> {
    fn choose_collection(&mut self, phase: u8) {
        if phase != 0 {
            let victim = self.random.below(self.shape.b);
            let step = 1 + self.random.below(self.shape.b - 1);
            self.collection = Collection {
                phase,
                chip: self.random.below(self.shape.n + 1) as u8,
                victim: victim as u16,
                destination: ((victim + step) % self.shape.b) as u16,
            };
        }
        store_collection(&mut self.images, self.shape, self.collection);
    }

    fn collecting_on(&self, chip: usize) -> bool {
        self.collection.phase != 0 && self.collection.chip as usize == chip
    }

    /// Writes spares for all pages as if no record named any, and sets up the chip's pool.
    fn lay_out_chip(&mut self, chip: usize) {
        let used = self.used_pages(chip);
        let mut pool = Vec::new();
        for (block, &used) in used.iter().enumerate() {
            for (place, page) in self.shape.block_pages(block).enumerate() {
                if place < used {
                    self.junk_spare(chip, page);
                    pool.push(page);
                } else {
                    self.clean_page(chip, page);
                }
            }
        }
        self.random.shuffle(&mut pool);
        // At times the lowest are named first, so that the victim of a collection is a high block.
        if self.random.one_in(6) {
            pool.sort_by_key(|&page| std::cmp::Reverse(page));
        }
        if self.collecting_on(chip) {
            self.set_apart(&mut pool, used[self.collection.destination as usize]);
        }
        self.pools.push(pool);
    }

    /// How many pages of each block of a chip are used.
    fn used_pages(&mut self, chip: usize) -> Vec<usize> {
        // A large chip is filled from the bottom mostly, so that places with high numbers come up.
        let large = self.shape.pages() > LARGE && !self.random.one_in(4);
        let style = match (self.full, large) {
            (true, _) => 0,
            (_, true) => 3,
            _ => self.random.below(4),
        };
        let (k, begun) = (self.shape.k, self.random.below(self.shape.b));
        let blocks = (0..self.shape.b).map(|block| match style {
            0 if !self.random.one_in(5) => k,
            1 if self.random.one_in(2) => 0,
            3 if block < begun => k,
            3 if block > begun => 0,
            _ => self.random.between(0, k),
        });
        let mut used: Vec<usize> = blocks.collect();
        if !self.collecting_on(chip) {
            used[self.random.below(self.shape.b)] = 0;
        } else if self.random.one_in(2) {
            used[self.collection.victim as usize] = k;
            used[self.collection.destination as usize] = self.random.between(k - 1, k);
        }
        used
    }

    /// Phase 1: no page of the destination may be named. Phase 2: the reserved ones may not, and
    /// no more of the victim's may be named than those can be twins of; at times these are named
    /// before others.
    fn set_apart(&mut self, pool: &mut Vec<usize>, used: usize) {
        let victim = self.shape.block_pages(self.collection.victim as usize);
        let destination = self.shape.block_pages(self.collection.destination as usize);
        if self.collection.phase == 1 {
            pool.retain(|page| !destination.contains(page));
            return;
        }
        let kept = if self.random.one_in(2) { used } else { self.random.between(0, used) };
        let (mut from_victim, mut reserved) = (0, Vec::new());
        pool.retain(|page| {
            if destination.contains(page) && reserved.len() < kept {
                reserved.push(*page);
                return false;
            }
            if victim.contains(page) {
                from_victim += 1;
                return from_victim <= kept;
            }
            true
        });
        self.reserved = reserved;
        if self.random.one_in(2) {
            pool.sort_by_key(|page| victim.contains(page));
        }
    }

    fn junk_spare(&mut self, chip: usize, page: usize) {
        let kind = match self.random.below(4) {
            0 => self.random.byte().min(254),
            1 => PARITY,
            _ => DATA,
        };
        let spare = Spare {
            kind,
            member: self.random.below(self.shape.n + 1) as u8,
            stripe: self.random.below(self.shape.s + 1) as u16,
            copied: self.random_copied(),
        };
        self.store_spare(chip, page, spare);
    }

    /// Nothing is asked of the last two bytes of a spare.
    fn store_spare(&mut self, chip: usize, page: usize, spare: Spare) {
        store_spare(&mut self.images, self.shape, chip, page, spare);
        if self.random.one_in(4) {
            let end = self.shape.spare_at(chip, page) + SPARE_BYTES;
            self.random.fill(&mut self.images.chips[end - 2..end]);
        }
    }

    fn random_copied(&mut self) -> u16 {
        match self.random.below(3) {
            0 => NONE,
            1 => self.random.next() as u16,
            _ => self.random.below(self.shape.pages()) as u16,
        }
    }

    fn clean_page(&mut self, chip: usize, page: usize) {
        let (at, spare_at) = (self.shape.page_at(chip, page), self.shape.spare_at(chip, page));
        if self.random.one_in(4) {
            self.images.chips[spare_at] = CLEAN;
        } else {
            self.images.chips[at..spare_at + SPARE_BYTES].fill(255);
        }
    }

    fn fill_records(&mut self) {
        let mut stripes: Vec<usize> = (0..self.shape.s).collect();
        self.random.shuffle(&mut stripes);
        let emptiness = self.random.between(2, 12);
        for stripe in stripes {
            let mut record = Record::from_bytes(&EMPTY_RECORD);
            if !self.random.one_in(emptiness) {
                record = self.wished_record();
                if !self.take_pages(stripe, &mut record) {
                    record = Record::from_bytes(&EMPTY_RECORD);
                }
            }
            if record.bitmap != 0 {
                record.slot = self.free_slots.pop().unwrap_or(NO_SLOT);
            }
            store_record(&mut self.images, stripe, record);
        }
    }

    /// A record with 0 for each number it is to have.
    fn wished_record(&mut self) -> Record {
        let mut record = Record::from_bytes(&EMPTY_RECORD);
        let slotted = !self.free_slots.is_empty() && self.random.one_in(2);
        let surely = self.random.below(self.shape.n);
        let mut needs_parity = self.random.one_in(2);
        for m in 0..self.shape.n {
            let set = slotted && (m == surely || self.random.one_in(3));
            if set {
                record.bitmap |= 1 << m;
                record.current[m] = 0;
                if self.random.one_in(2) {
                    record.old[m] = 0;
                    needs_parity = true;
                }
            } else if !self.random.one_in(3) {
                record.current[m] = 0;
                needs_parity = true;
            }
        }
        if needs_parity {
            record.parity = 0;
        }
        record
    }

    /// Gives each wished number a page of its chip's pool and that page its spare; false if a
    /// pool is short of pages.
    fn take_pages(&mut self, stripe: usize, record: &mut Record) -> bool {
        let shape = self.shape;
        let enough = (0..shape.n).all(|m| {
            let wished = [record.current[m], record.old[m]].iter().filter(|&&page| page != NONE).count();
            self.pools[shape.member_chip(stripe, m)].len() >= wished
        });
        if !enough || self.pools[shape.parity_chip(stripe)].is_empty() {
            return false;
        }
        for m in 0..shape.n {
            let chip = shape.member_chip(stripe, m);
            self.take_page(chip, &mut record.current[m], DATA, m, stripe);
            self.take_page(chip, &mut record.old[m], DATA, m, stripe);
        }
        self.take_page(shape.parity_chip(stripe), &mut record.parity, PARITY, 0, stripe);
        true
    }

    fn take_page(&mut self, chip: usize, wish: &mut u16, kind: u8, member: usize, stripe: usize) {
        if *wish == NONE {
            return;
        }
        let page = self.pools[chip].pop().expect("counted before");
        let spare = Spare { kind, member: member as u8, stripe: stripe as u16, copied: self.random_copied() };
        self.store_spare(chip, page, spare);
        *wish = page as u16;
    }

    /// Gives each page named in the victim its twin among the reserved pages; the other unnamed pages of the
    /// destination come close to being one.
    fn place_twins(&mut self) {
        let chip = self.collection.chip as usize;
        let named = self.images.view(self.shape).named_on(chip);
        let victim = self.shape.block_pages(self.collection.victim as usize);
        let originals: Vec<usize> = victim.filter(|&page| named[page]).collect();
        let mut twins = std::mem::take(&mut self.reserved);
        self.random.shuffle(&mut twins);
        twins.truncate(originals.len());
        for page in self.shape.block_pages(self.collection.destination as usize) {
            let unnamed = !named[page] && !self.images.view(self.shape).is_clean(chip, page);
            let spare = match twins.iter().position(|&twin| twin == page) {
                Some(i) => self.twin_spare(chip, originals[i]),
                None if unnamed => self.near_twin(chip, &named, &originals),
                None => continue,
            };
            store_spare(&mut self.images, self.shape, chip, page, spare);
        }
        for page in self.images.view(self.shape).twins(&named) {
            if !twins.contains(&page) {
                let spare = Spare { copied: NONE, ..self.images.view(self.shape).spare(chip, page) };
                store_spare(&mut self.images, self.shape, chip, page, spare);
            }
        }
        self.name_copies(chip, &named, &originals);
    }

    fn twin_spare(&self, chip: usize, original: usize) -> Spare {
        let view = self.images.view(self.shape);
        Spare { copied: original as u16, ..view.spare(chip, original) }
    }

    /// A spare that is a twin's but for one field, or that of a copy of a page beside the victim.
    fn near_twin(&mut self, chip: usize, named: &[bool], originals: &[usize]) -> Spare {
        let block = self.shape.block_pages(self.collection.victim as usize);
        let beside = [block.start.wrapping_sub(1), block.end];
        let beside: Vec<usize> = beside.into_iter().filter(|&page| named.get(page) == Some(&true)).collect();
        if !beside.is_empty() && self.random.one_in(2) {
            let page = self.random.pick(&beside);
            return self.twin_spare(chip, page);
        }
        let any = block.start + self.random.below(self.shape.k);
        if originals.is_empty() || self.random.one_in(3) {
            let spare = self.twin_spare(chip, any);
            return Spare { kind: spare.kind.min(254), ..spare };
        }
        let original = self.random.pick(originals);
        let spare = self.twin_spare(chip, original);
        match self.random.below(4) {
            0 => Spare { kind: self.random.pick(&[DATA, PARITY, 0, 254]), ..spare },
            1 => Spare { member: self.random.byte(), ..spare },
            2 => Spare { stripe: spare.stripe ^ (1 << self.random.below(16)), ..spare },
            _ => Spare { copied: self.random.pick(&[NONE, any as u16]), ..spare },
        }
    }

    /// Named pages of the destination that look like copies of a page still named in the victim.
    fn name_copies(&mut self, chip: usize, named: &[bool], originals: &[usize]) {
        for page in self.shape.block_pages(self.collection.destination as usize) {
            let view = self.images.view(self.shape);
            let spare = view.spare(chip, page);
            let tag = |page: usize| Spare { copied: 0, ..view.spare(chip, page) };
            let like = originals.iter().find(|&&original| tag(original) == tag(page));
            if let (true, Some(&original)) = (named[page], like) {
                let spare = Spare { copied: original as u16, ..spare };
                store_spare(&mut self.images, self.shape, chip, page, spare);
            }
        }
    }
}

/// Gives the numbers on the lost chip other values, as far as the records stay sound, and at times
/// puts any collection there.
pub fn rename_on(random: &mut Random, shape: Shape, images: &mut Images, lost: usize) {
    for stripe in 0..shape.s {
        let mut record = images.view(shape).record(stripe);
        for m in (0..shape.n).filter(|&m| shape.member_chip(stripe, m) == lost) {
            let page = random.below(shape.pages()) as u16;
            if record.current[m] != NONE && record.old[m] != page {
                record.current[m] = page;
            }
        }
        if record.parity != NONE && shape.parity_chip(stripe) == lost {
            record.parity = random.below(shape.pages()) as u16;
        }
        store_record(images, stripe, record);
    }
    if images.view(shape).collection().phase == 0 && random.one_in(2) {
        let victim = random.below(shape.b);
        let step = 1 + random.below(shape.b - 1);
        let collection = Collection {
            phase: 1 + random.below(2) as u8,
            chip: lost as u8,
            victim: victim as u16,
            destination: ((victim + step) % shape.b) as u16,
        };
        store_collection(images, shape, collection);
    }
}
