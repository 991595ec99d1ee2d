//! The stores of a call, and the lists of them.

use super::check::{Found, Look, Twins};
use super::{apart, number, records, xor};
use crate::reference::{
    Collection, Images, Shape, Spare, Status, CUT, DATA, DONE, MEMBERS, NONE, NO_SLOT, PARITY, RECORD_BYTES,
    SPARE_BYTES,
};

/// The list is longer than the allowance.
pub struct Cut;

/// A storing call under way.
pub struct Run<'a> {
    shape: Shape,
    images: &'a mut Images,
    found: &'a mut Found,
    left: u64,
    counts: Status,
}

pub fn carry_out<'a>(
    shape: Shape,
    images: &'a mut Images,
    found: &'a mut Found,
    allowance: u64,
    list: impl FnOnce(&mut Run<'a>) -> Result<(), Cut>,
) -> Status {
    let mut run = Run { shape, images, found, left: allowance, counts: Status::default() };
    let status = match list(&mut run) {
        Ok(()) => DONE,
        Err(Cut) => CUT,
    };
    Status { status, ..run.counts }
}

impl Run<'_> {
    fn look(&self) -> Look<'_> {
        Look { shape: self.shape, images: self.images }
    }

    fn spend(&mut self) -> Result<(), Cut> {
        self.left = self.left.checked_sub(1).ok_or(Cut)?;
        self.counts.stores += 1;
        Ok(())
    }

    fn record(&mut self, index: usize) -> &mut [u8] {
        &mut self.images.records[index * RECORD_BYTES..][..RECORD_BYTES]
    }

    fn set_number(&mut self, stripe: usize, field: usize, page: usize) {
        self.record(stripe)[2 * field..2 * field + 2].copy_from_slice(&(page as u16).to_le_bytes());
    }

    fn store_collection(&mut self, collection: Collection) -> Result<(), Cut> {
        self.spend()?;
        let index = self.shape.s;
        self.record(index).copy_from_slice(&collection.to_bytes());
        Ok(())
    }

    /// The spare of a page that is programmed, and the page in the counts of its block; its data follow.
    fn program(&mut self, chip: usize, page: usize, spare: Spare) -> Result<usize, Cut> {
        self.spend()?;
        self.counts.programs += 1;
        let (at, spare_at) = (self.shape.page_at(chip, page), self.shape.spare_at(chip, page));
        self.images.chips[spare_at..][..SPARE_BYTES].copy_from_slice(&spare.to_bytes());
        self.found.blocks.used(chip)[page / self.shape.k] += 1;
        Ok(at)
    }

    fn erase(&mut self, chip: usize, block: usize) -> Result<(), Cut> {
        self.spend()?;
        self.counts.erases += 1;
        let Shape { k, .. } = self.shape;
        let at = self.shape.page_at(chip, block * k);
        self.images.chips[at..at + k * self.shape.page_len()].fill(255);
        self.found.blocks.used(chip)[block] = 0;
        Ok(())
    }

    /// Adds a page to another of the same image, and counts the read; a number of none adds nothing.
    fn add(&mut self, sum_at: usize, chip: usize, page: u16) {
        if page != NONE {
            let from = self.shape.page_at(chip, page as usize);
            let (sum, page) = apart(&mut self.images.chips, sum_at, from, self.shape.w);
            xor(sum, page);
            self.counts.reads += 1;
        }
    }
}

impl Run<'_> {
    pub fn open(&mut self) -> Result<(), Cut> {
        let Collection { phase, chip, destination, .. } = self.look().collection();
        match phase {
            0 => Ok(()),
            1 => {
                self.erase(chip as usize, destination as usize)?;
                self.store_collection(Collection::default())
            }
            _ => self.finish_collection(),
        }
    }

    /// The moves still due, the erase of the victim, and phase 0.
    fn finish_collection(&mut self) -> Result<(), Cut> {
        let Collection { chip, victim, destination, .. } = self.look().collection();
        let (chip, first) = (chip as usize, self.shape.block_pages(victim as usize).start);
        let mut due = [(0, 0); 128];
        let mut moves = 0;
        let twins = Twins::new(self.look(), chip, first);
        for page in self.shape.block_pages(destination as usize) {
            if let Some(place) = twins.original(page) {
                due[moves] = (page, first + place);
                moves += 1;
            }
        }
        for &(page, original) in &due[..moves] {
            self.put_in_place(chip, page, original)?;
        }
        self.erase(chip, victim as usize)?;
        self.store_collection(Collection::default())
    }

    /// Stores the record of a copy with the copy's number in place of the original's.
    fn put_in_place(&mut self, chip: usize, page: usize, original: usize) -> Result<(), Cut> {
        self.spend()?;
        let tag = self.look().tag(chip, page);
        let (stripe, member) = (tag as usize >> 16, (tag >> 8) as usize & 255);
        let field = match tag as u8 == PARITY {
            true => records::PARITY_FIELD,
            false if number(self.record(stripe), 2 * member) as usize == original => member,
            false => MEMBERS + member,
        };
        self.set_number(stripe, field, page);
        Ok(())
    }

    pub fn collect(&mut self, chip: usize, victim: usize) -> Result<(), Cut> {
        let k = self.shape.k;
        let clean = |&used: &u8| used == 0;
        let destination = self.found.blocks.used(chip).iter().position(clean).expect("a clean block");
        let mut collection =
            Collection { phase: 1, chip: chip as u8, victim: victim as u16, destination: destination as u16 };
        self.store_collection(collection)?;
        let mut page = destination * k;
        for original in self.shape.block_pages(victim) {
            if self.look().is_named(chip, original) {
                self.copy(chip, original, page)?;
                page += 1;
            }
        }
        collection.phase = 2;
        self.store_collection(collection)?;
        for page in destination * k..page {
            let original = self.look().copied(chip, page);
            self.put_in_place(chip, page, original)?;
        }
        self.erase(chip, victim)?;
        self.store_collection(Collection::default())
    }

    fn copy(&mut self, chip: usize, original: usize, page: usize) -> Result<(), Cut> {
        let from = self.shape.spare_at(chip, original);
        let stamp = Spare::from_bytes(&self.images.chips[from..][..SPARE_BYTES]);
        let to = self.program(chip, page, Spare { copied: original as u16, ..stamp })?;
        let (data, from) = apart(&mut self.images.chips, to, from - self.shape.w, self.shape.w);
        data.copy_from_slice(from);
        self.counts.reads += 1;
        Ok(())
    }

    /// The lowest clean page in a block already begun; else page 0 of the lowest clean block of two or more.
    fn free_place(&mut self, chip: usize) -> Option<usize> {
        let k = self.shape.k;
        let mut clean = [None; 2];
        for (block, &used) in self.found.blocks.used(chip).iter().enumerate() {
            match used as usize {
                0 if clean[0].is_none() => clean[0] = Some(block * k),
                0 => clean[1] = clean[0],
                used if used < k => return Some(block * k + used),
                _ => {}
            }
        }
        clean[1]
    }

    fn place(&mut self, chip: usize) -> Result<usize, Cut> {
        if let Some(page) = self.free_place(chip) {
            return Ok(page);
        }
        let look = Look { shape: self.shape, images: self.images };
        let victim = victim(look, self.found, chip).expect("a full block with an unnamed page");
        self.collect(chip, victim)?;
        Ok(self.free_place(chip).expect("a collection leaves a place"))
    }

    pub fn commit(&mut self, stripe: usize) -> Result<(), Cut> {
        let Shape { n, w, .. } = self.shape;
        let chip = self.shape.parity_chip(stripe);
        let page = self.place(chip)?;
        let spare = Spare { kind: PARITY, member: 0, stripe: stripe as u16, copied: NONE };
        let at = self.program(chip, page, spare)?;
        let mut record: [u8; RECORD_BYTES] = *self.look().record(stripe);
        let (bitmap, slot, parity) = (record[26], record[27], number(&record, 24));
        let partial = slot as usize * w;
        self.images.chips[at..at + w].copy_from_slice(&self.images.slots[partial..partial + w]);
        let completes = self.shape.completes(bitmap.count_ones() as usize);
        if !completes {
            self.add(at, chip, parity);
        }
        for m in 0..n {
            match (completes, bitmap >> m & 1 == 1) {
                (true, false) => self.add(at, self.shape.member_chip(stripe, m), number(&record, 2 * m)),
                (false, true) => {
                    self.add(at, self.shape.member_chip(stripe, m), number(&record, 2 * (MEMBERS + m)))
                }
                _ => {}
            }
        }
        self.spend()?;
        record[2 * MEMBERS..4 * MEMBERS].fill(255);
        record[24..26].copy_from_slice(&(page as u16).to_le_bytes());
        (record[26], record[27]) = (0, NO_SLOT);
        self.record(stripe).copy_from_slice(&record);
        self.found.names.free(slot);
        Ok(())
    }

    /// The stripe of least cost; the lowest of those, since they stand in ascending order.
    fn cheapest(&self) -> usize {
        let cost =
            |&stripe: &u16| self.shape.cost(self.look().record(stripe as usize)[26].count_ones() as usize);
        let slotted = self.found.names.slotted().iter().copied();
        slotted.min_by_key(cost).expect("M is at least 1") as usize
    }

    pub fn write(&mut self, stripe: usize, member: usize, data: &[u8]) -> Result<(), Cut> {
        let w = self.shape.w;
        if self.look().record(stripe)[27] == NO_SLOT && self.found.names.slotted().len() == self.shape.m {
            self.commit(self.cheapest())?;
        }
        let chip = self.shape.member_chip(stripe, member);
        let page = self.place(chip)?;
        let spare = Spare { kind: DATA, member: member as u8, stripe: stripe as u16, copied: NONE };
        let at = self.program(chip, page, spare)?;
        self.images.chips[at..at + w].copy_from_slice(data);
        self.spend()?;
        let record: [u8; RECORD_BYTES] = *self.look().record(stripe);
        let slot = self.found.names.lowest_free_slot();
        let sum_at = slot as usize * w;
        self.images.slots[sum_at..sum_at + w].copy_from_slice(data);
        if record[27] != NO_SLOT {
            let (sum, partial) = apart(&mut self.images.slots, sum_at, record[27] as usize * w, w);
            xor(sum, partial);
        }
        let (set, current) = (record[26] >> member & 1 == 1, number(&record, 2 * member));
        if set {
            let from = self.shape.page_at(chip, current as usize);
            xor(&mut self.images.slots[sum_at..sum_at + w], &self.images.chips[from..from + w]);
            self.counts.reads += 1;
        }
        self.spend()?;
        if !set {
            self.set_number(stripe, MEMBERS + member, current as usize);
        }
        self.set_number(stripe, member, page);
        let record = self.record(stripe);
        record[26] |= 1 << member;
        record[27] = slot;
        Ok(())
    }
}

/// The full block with an unnamed page that has fewest named ones.
pub fn victim(look: Look, found: &mut Found, chip: usize) -> Option<usize> {
    let k = look.shape.k as u8;
    let named = look.named_in_blocks(chip, found.names.slotted());
    let mut victim = None;
    let mut fewest = k;
    for (block, (&named, &used)) in named.iter().zip(&*found.blocks.used(chip)).enumerate() {
        if named < fewest && used == k {
            (victim, fewest) = (Some(block), named);
        }
    }
    victim
}
