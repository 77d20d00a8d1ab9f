//! Damage to a sheet that a run left, one place at a time.

use judge::answer::{Answer, SLOT};
use judge::case::{Case, CHANNELS};
use judge::rng::Rng;

use super::{lending, refused, Room};
use crate::buffers::{Buffers, Lengths};
use crate::sheet::{Sheet, FIRST_PIXEL, PIXEL_COUNT, RESIDUE};

/// The buffers of a sheet, in their order.
const LABELS: usize = 0;
const LINKS: usize = 1;
const TABLE: usize = 2;
const OUTPUTS: usize = 3;

/// The largest number that a stored sheet can hold.
const LARGEST: u32 = 65_535;

/// The count of which 255 times is the largest number of 32 bits.
const FULL: u32 = u32::MAX / 255;

/// A sheet, and what was done to it.
pub struct Damaged {
    pub sheet: Sheet,
    pub buffers: Buffers,
    /// The numbers that were changed in the buffers.
    pub changes: Vec<String>,
    /// The number of pixels of the run.
    pixels: u32,
}

/// Every kind of damage, each as often as it stands here.
const KINDS: [fn(&mut Damaged, &mut Rng); 14] = [
    Damaged::entry,
    Damaged::entry,
    Damaged::counts,
    Damaged::residue,
    Damaged::residue,
    Damaged::pixel_count,
    Damaged::first_pixel,
    Damaged::link,
    Damaged::link,
    Damaged::ring,
    Damaged::large_number,
    Damaged::large_number,
    Damaged::length,
    Damaged::size,
];

impl Damaged {
    /// What a case leaves, still undamaged, in buffers that held other numbers. There is no work
    /// buffer: no call over a sheet takes one.
    pub fn not_yet(rng: &mut Rng, case: &Case, answer: &Answer, room: Room) -> Self {
        let mut buffers = lending::enough(rng, case.area() as usize, room).after(answer);
        buffers.work.clear();
        Self {
            sheet: Sheet::of(case, answer),
            buffers,
            changes: Vec::new(),
            pixels: case.area(),
        }
    }

    /// Does one more damage, of any kind.
    pub fn damage(&mut self, rng: &mut Rng) {
        rng.pick(&KINDS)(self, rng);
    }

    /// Gives the sheet about as many entries as two bytes can count, or as are accepted. It comes
    /// last: all entries name one short list, since a long one would be walked as many times.
    pub fn crowd(&mut self, rng: &mut Rng) {
        let most = rng.pick(&[LARGEST, 2 * self.pixels]);
        self.sheet.m = around(rng, most);
        let count = self.buffers.outputs.len().min(self.sheet.m as usize);
        self.buffers.outputs[..count].fill(0);
        self.changes.push(format!("outputs[..{count}] = 0"));
        self.put(TABLE, FIRST_PIXEL, 1);
        self.put(TABLE, PIXEL_COUNT, rng.below(3));
        self.put(TABLE, RESIDUE + CHANNELS, 1);
        for channel in 0..CHANNELS {
            self.put(TABLE, RESIDUE + channel, rng.below(256));
        }
    }

    /// An entry names another slot, or none.
    fn entry(&mut self, rng: &mut Rng) {
        let place = rng.below(self.sheet.m.max(1)) as usize;
        let n = self.sheet.n;
        let k = match rng.below(4) {
            0 | 1 => around(rng, n),
            2 => rng.below(n.max(1)),
            _ => u32::MAX,
        };
        self.put(OUTPUTS, place, k);
    }

    /// Another n or m.
    fn counts(&mut self, rng: &mut Rng) {
        let (count, most) = if rng.percent(50) {
            (&mut self.sheet.n, self.pixels + 1)
        } else {
            (&mut self.sheet.m, 2 * self.pixels)
        };
        *count = match rng.below(4) {
            0 => around(rng, *count),
            1 => around(rng, most),
            2 => rng.below(most + 1),
            _ => rng.pick(&[0, u32::MAX]),
        };
    }

    /// A residue that counts nothing, or one with a channel of about 255 × count.
    fn residue(&mut self, rng: &mut Rng) {
        let residue = SLOT * self.slot(rng) + RESIDUE;
        let channel = residue + rng.below(CHANNELS as u32) as usize;
        let count = self.number(TABLE, residue + CHANNELS);
        match rng.below(4) {
            0 => self.put(TABLE, residue + CHANNELS, 0),
            1 => self.put(TABLE, residue + CHANNELS, around(rng, count)),
            2 => self.put(TABLE, channel, around(rng, count.wrapping_mul(255))),
            _ => {
                self.put(TABLE, residue + CHANNELS, around(rng, FULL));
                self.put(TABLE, channel, u32::MAX);
            }
        }
    }

    fn pixel_count(&mut self, rng: &mut Rng) {
        let place = SLOT * self.slot(rng) + PIXEL_COUNT;
        let count = match rng.below(4) {
            0 => around(rng, self.number(TABLE, place)),
            1 => around(rng, self.pixels),
            2 => rng.below(self.pixels + 1),
            _ => rng.pick(&[0, u32::MAX]),
        };
        self.put(TABLE, place, count);
    }

    fn first_pixel(&mut self, rng: &mut Rng) {
        let place = SLOT * self.slot(rng) + FIRST_PIXEL;
        let link = self.any_link(rng);
        self.put(TABLE, place, link);
    }

    /// Another link of a list: it ends there, leaves the image, or goes on to any pixel.
    fn link(&mut self, rng: &mut Rng) {
        let slot = self.slot(rng);
        let count = self.number(TABLE, SLOT * slot + PIXEL_COUNT);
        let steps = rng.below(count.max(1));
        let place = self.pixel(slot, steps);
        let link = self.any_link(rng);
        self.put(LINKS, place, link);
    }

    /// The last pixel of a list is followed by its first one, and the count goes on from there.
    fn ring(&mut self, rng: &mut Rng) {
        let slot = self.slot(rng);
        let first = self.number(TABLE, SLOT * slot + FIRST_PIXEL);
        let count = self.number(TABLE, SLOT * slot + PIXEL_COUNT);
        let last = self.pixel(slot, count.saturating_sub(1));
        let longer = rng.range(1, self.pixels);
        self.put(LINKS, last, first);
        self.put(TABLE, SLOT * slot + PIXEL_COUNT, longer);
    }

    /// A number that a stored sheet can only just hold, or not, where it is stored or just behind.
    fn large_number(&mut self, rng: &mut Rng) {
        let pixel = rng.below(self.pixels + 1) as usize;
        let slot = rng.below(self.sheet.n.saturating_add(1)) as usize;
        let entry = rng.below(self.sheet.m.saturating_add(1)) as usize;
        let (buffer, place) = rng.pick(&[
            (LABELS, pixel),
            (LINKS, pixel),
            (TABLE, SLOT * slot + FIRST_PIXEL),
            (TABLE, SLOT * slot + PIXEL_COUNT),
            (OUTPUTS, entry),
        ]);
        let number = rng.pick(&[LARGEST, LARGEST + 1, LARGEST + 2, u32::MAX]);
        self.put(buffer, place, number);
    }

    /// A buffer that is only as long as asked, or shorter.
    fn length(&mut self, rng: &mut Rng) {
        let buffer = rng.pick(&[LABELS, LINKS, TABLE, OUTPUTS]);
        let asked = Lengths::exact(self.pixels as usize).each()[buffer];
        let length = rng.pick(&[asked, asked - 1, asked / 2, 0]);
        self.buffers.each_mut()[buffer].truncate(length);
    }

    /// Another size, which may be accepted.
    fn size(&mut self, rng: &mut Rng) {
        let Sheet { width, height, .. } = self.sheet;
        (self.sheet.width, self.sheet.height) = match rng.below(4) {
            0 => (height, width),
            1 => (around(rng, width), height),
            2 => (width, around(rng, height)),
            _ => refused::bad_size(rng, (width, height)),
        };
    }

    /// A slot, most often one that an entry names.
    fn slot(&self, rng: &mut Rng) -> usize {
        let entry = rng.below(self.sheet.m.max(1)) as usize;
        match self.buffers.outputs.get(entry) {
            Some(&k) if rng.percent(80) => k as usize,
            _ => rng.below(self.sheet.n.max(1)) as usize,
        }
    }

    /// The pixel that so many links lead to from the first pixel of a slot, as far as they lead.
    fn pixel(&self, slot: usize, steps: u32) -> usize {
        let mut pixel = self.number(TABLE, SLOT * slot + FIRST_PIXEL).max(1) - 1;
        for _ in 0..steps.min(self.pixels) {
            let link = self.number(LINKS, pixel as usize);
            if !(1..=self.pixels).contains(&link) {
                break;
            }
            pixel = link - 1;
        }
        pixel as usize
    }

    /// A link to any pixel, or to none.
    fn any_link(&self, rng: &mut Rng) -> u32 {
        match rng.below(4) {
            0 | 1 => rng.range(1, self.pixels),
            2 => around(rng, self.pixels),
            _ => rng.pick(&[0, u32::MAX]),
        }
    }

    /// The number at a place of a buffer; 0 where there is none.
    fn number(&self, buffer: usize, place: usize) -> u32 {
        let (_, numbers) = self.buffers.named()[buffer];
        numbers.get(place).copied().unwrap_or(0)
    }

    /// Puts a number at a place of a buffer, if it has that place.
    fn put(&mut self, buffer: usize, place: usize, number: u32) {
        let (name, _) = self.buffers.named()[buffer];
        if let Some(there) = self.buffers.each_mut()[buffer].get_mut(place) {
            *there = number;
            self.changes.push(format!("{name}[{place}] = {number}"));
        }
    }
}

/// A number, the one below it or the one above it.
pub fn around(rng: &mut Rng, number: u32) -> u32 {
    number.wrapping_sub(1).wrapping_add(rng.below(3))
}
