//! Manifest pages: valid, damaged, and random.

use super::Random;
use crate::reference::layout::{
    accepted_minor, half_at, header_offset, word_at, Edition, CONSOLE, ENTRY_WORDS, PAGE, SECTIONS,
};
use std::ops::Range;

/// Pages of memory: 2^52 bytes.
const MEMORY_PAGES: u64 = 1 << 40;

/// Names of consoles, padded with zeros.
pub(super) const NAMES: [[u8; 8]; 5] = [
    *b"pl011\0\0\0",
    *b"pl011\0\0x",
    *b"uart-1ab",
    *b"uart-1ac",
    [0; 8],
];

/// A page to read, at a base, by a reader of an edition.
#[derive(Clone, Debug)]
pub struct Reading {
    pub base: u64,
    pub edition: u64,
    pub page: Vec<u8>,
}

/// Sets a word of a page.
pub fn put(page: &mut [u8], at: usize, word: u64) {
    page[at..at + 8].copy_from_slice(&word.to_le_bytes());
}

fn put_version(page: &mut [u8], version: u32) {
    page[..4].copy_from_slice(&version.to_le_bytes());
}

/// Counts and places of the arrays of a page; count 0 is an empty section.
#[derive(Clone, Copy, Debug, Default)]
struct Plan {
    counts: [usize; SECTIONS],
    offsets: [usize; SECTIONS],
}

impl Random {
    /// Any of the three kinds; now and then of another length, at another base or for another reader.
    pub fn any_page(&mut self) -> Reading {
        let mut reading = match self.below(8) {
            0 => self.random_page(),
            1..=3 => self.valid_page(),
            _ => self.damaged_page(),
        };
        match self.below(40) {
            0 => reading.base = self.any_base(),
            1 => reading.edition = self.any_edition(),
            2 => {
                let length = self.pick(&[0, 1, 15, 16, 4095, 4097, 8192]);
                reading.page.resize(length, 0);
            }
            _ => {}
        }
        reading
    }

    /// A page that a reader of the edition accepts. What that reader does not look at is zero or anything.
    pub fn valid_page(&mut self) -> Reading {
        let edition = self.reader_edition();
        let minor = self.minor();
        let works = Edition::new(edition).expect("1 to 4").on_minor(minor);
        let base = self.base();
        let mut page = vec![0; PAGE];
        if self.one_in(2) {
            self.fill(&mut page);
        }
        put(&mut page, 0, u64::from(minor));
        put(&mut page, 8, 0);
        let plan = self.plan(works);
        for k in 0..works.sections() {
            self.put_section(&mut page, base, k, plan.counts[k], plan.offsets[k]);
        }
        if self.one_in(2) {
            self.put_fields(&mut page, base, holes(works, &plan));
        }
        Reading {
            base,
            edition,
            page,
        }
    }

    /// A valid page with one to three bytes or words changed. In half of them the checksums are made good again, so that other
    /// rules must find the damage.
    pub fn damaged_page(&mut self) -> Reading {
        let mut reading = self.valid_page();
        for _ in 0..self.between(1, 3) {
            self.damage(&mut reading);
        }
        if self.one_in(2) {
            (0..sections_read(&reading)).for_each(|k| seal(&mut reading, k));
        }
        reading
    }

    /// A page of which several parts may be damaged, at a base that is allowed.
    pub fn broken_page(&mut self) -> Reading {
        let mut reading = self.valid_page();
        for _ in 0..self.below(7) {
            self.damage(&mut reading);
            if self.one_in(2) {
                (0..sections_read(&reading)).for_each(|k| seal(&mut reading, k));
            }
        }
        reading
    }

    /// A page of any bytes, half of them with a version that is accepted.
    pub fn random_page(&mut self) -> Reading {
        let mut page = self.bytes(PAGE);
        if self.one_in(2) {
            put_version(&mut page, u32::from(self.minor()));
        }
        Reading {
            base: self.base(),
            edition: self.reader_edition(),
            page,
        }
    }

    /// A base that is allowed.
    pub fn base(&mut self) -> u64 {
        match self.below(4) {
            0 => self.pick(&[4096, 0x8000_0000, 1 << 51, (1 << 52) - 4096]),
            1 => 4096 * self.between(1, 1 << 20),
            _ => 4096 * self.between(1, MEMORY_PAGES - 1),
        }
    }

    /// A base that may not be allowed.
    pub fn any_base(&mut self) -> u64 {
        let last = (1 << 52) - 4096;
        match self.below(3) {
            0 => self.pick(&[
                0,
                1,
                4095,
                4097,
                last + 1,
                last + 4096,
                1 << 63,
                u64::MAX - 4095,
            ]),
            1 => self.edge(),
            _ => self.base(),
        }
    }

    /// An edition, more often one with sections.
    fn reader_edition(&mut self) -> u64 {
        self.pick(&[1, 2, 3, 3, 4, 4, 4, 4])
    }

    /// An edition that may not be one.
    pub fn any_edition(&mut self) -> u64 {
        match self.below(3) {
            0 => self.edge(),
            1 => self.pick(&[
                0,
                5,
                6,
                (1 << 32) + 4,
                (1 << 16) + 1,
                (1 << 8) + 2,
                u64::MAX,
            ]),
            _ => self.between(1, 4),
        }
    }

    /// An accepted minor, most often near those that are editions.
    pub fn minor(&mut self) -> u16 {
        match self.below(8) {
            0 => self.pick(&[255, 256, 257, 0x7fff, 0x8000, u16::MAX]),
            1 => self.between(1, 65_535) as u16,
            _ => self.between(1, 6) as u16,
        }
    }

    /// A version of which most are not accepted: above 65,535 the major is not 0.
    fn any_version(&mut self) -> u32 {
        match self.below(4) {
            0 => self.pick(&[0, 0x8000_0000, 0x8000_0005, 0x7fff_0000, u32::MAX]),
            1 => self.between(65_536, 70_000) as u32,
            2 => self.word() as u32,
            _ => self.between(0, 7) as u32,
        }
    }

    /// Fields in one of the holes, at any address, and the pointer at them; none if no hole has room for an end mark.
    fn put_fields(&mut self, page: &mut [u8], base: u64, holes: Vec<Range<usize>>) {
        if holes.is_empty() {
            return;
        }
        let hole = holes[self.index(holes.len())].clone();
        let most = hole.len() as u64 - 3;
        let any = self.below(most + 1);
        let mut from = hole.start + self.pick(&[0, 0, most, any]) as usize;
        let fields = self.fields(hole.end - from, [1, 2, 3]);
        let end = from + fields.len() + 3;
        if self.one_in(4) {
            // The mark up to the hole's end.
            from += hole.end - end;
        }
        put(page, 8, base + from as u64);
        page[from..from + fields.len()].copy_from_slice(&fields);
        page[from + fields.len()..][..3].fill(0);
    }

    /// Good fields that fit with their end mark into `room` bytes; often none. Each tag of `once` appears at most once.
    pub(super) fn fields<const N: usize>(&mut self, room: usize, mut once: [u8; N]) -> Vec<u8> {
        let mut fields = Vec::new();
        self.shuffle(&mut once);
        let mut once = once.into_iter();
        let count = self.pick(&[0, 1, 2, 3, 5, 40, 2000]);
        for _ in 0..count {
            let tag = match self.one_in(3) {
                true => once.next(),
                false => None,
            };
            let tag = tag.unwrap_or_else(|| self.between(4, 255) as u8);
            // What is left after this field's first bytes and the end mark.
            let left = match room.checked_sub(fields.len() + 6) {
                Some(left) => left,
                None => break,
            };
            let length = match tag {
                1 => self.between(1, 32) as usize,
                2 => 8,
                3 => 1,
                _ if count > 40 => self.index(5),
                _ => match self.below(8) {
                    0 => left,
                    1 => self.index(left + 1),
                    2 => self.pick(&[255, 256, 257]),
                    _ => self.index(12),
                },
            };
            if length <= left {
                let value = self.bytes(length);
                push_field(&mut fields, tag, &value);
            }
        }
        fields
    }

    /// Changes a byte of fields, most often of a tag or a length.
    pub(super) fn spoil_fields(&mut self, fields: &mut [u8]) {
        if fields.is_empty() {
            return;
        }
        let mut at = 0;
        for _ in 0..self.below(4) {
            let length = match fields.get(at..at + 3) {
                Some(head) => usize::from(u16::from_le_bytes([head[1], head[2]])),
                None => break,
            };
            at += 3 + length;
        }
        let at = match self.below(4) {
            0 => self.index(fields.len()),
            n => (at + n as usize - 1).min(fields.len() - 1),
        };
        fields[at] = match self.below(4) {
            0 => fields[at] ^ 1 << self.below(8),
            1 => fields[at].wrapping_add(self.pick(&[1, 255])),
            _ => self.pick(&[0, 1, 2, 3, 4, 8, 9, 32, 33, 255]),
        };
    }

    /// How many entries each section of the edition gets: together they fit after the core.
    pub(super) fn counts(&mut self, edition: Edition) -> [usize; SECTIONS] {
        let mut counts = [0; SECTIONS];
        let mut free = (PAGE - edition.core()) / 8;
        let mut order = [0, 1, 2, 3];
        let order = &mut order[..edition.sections()];
        self.shuffle(order);
        for &mut k in order {
            let most = (free / ENTRY_WORDS[k]) as u64;
            if most == 0 || self.one_in(4) {
                continue;
            }
            let count = match self.below(6) {
                0 => most,
                1 => self.between(1, most),
                _ => self.between(1, most.min(8)),
            };
            counts[k] = count as usize;
            free -= counts[k] * ENTRY_WORDS[k];
        }
        counts
    }

    /// Arrays in any order, with holes of whole words between them.
    fn plan(&mut self, edition: Edition) -> Plan {
        let counts = self.counts(edition);
        let used: usize = (0..SECTIONS).map(|k| counts[k] * ENTRY_WORDS[k]).sum();
        let mut slack = (PAGE - edition.core()) / 8 - used;
        let mut plan = Plan {
            counts,
            ..Plan::default()
        };
        let mut at = edition.core() / 8;
        let mut order = [0, 1, 2, 3];
        self.shuffle(&mut order);
        for k in order {
            let hole = match self.below(3) {
                0 => 0,
                1 => self.index(slack.min(3) + 1),
                _ => self.index(slack + 1),
            };
            slack -= hole;
            plan.offsets[k] = 8 * (at + hole);
            at += hole + counts[k] * ENTRY_WORDS[k];
        }
        plan
    }

    fn put_section(&mut self, page: &mut [u8], base: u64, k: usize, count: usize, offset: usize) {
        let header = header_offset(k);
        if count == 0 {
            page[header..header + 24].fill(0);
            return;
        }
        let pointer = base + offset as u64;
        let mut sum = pointer.wrapping_add(count as u64);
        let mut entries: Vec<u64> = (0..count).flat_map(|_| self.entry(k)).collect();
        // A console's flags are free from minor 5 on.
        if k == CONSOLE && half_at(page, 0) > 4 && self.one_in(2) {
            for flags in entries.iter_mut().skip(5).step_by(ENTRY_WORDS[CONSOLE]) {
                *flags = self.free_word();
            }
        }
        for (i, &word) in entries.iter().enumerate() {
            put(page, offset + 8 * i, word);
            sum = sum.wrapping_add(word);
        }
        put(page, header, count as u64);
        put(page, header + 8, pointer);
        put(page, header + 16, sum.wrapping_neg());
    }

    /// The words of a sound entry of a section.
    pub(super) fn entry(&mut self, k: usize) -> Vec<u64> {
        let (first, pages) = match self.below(8) {
            0 => (0, MEMORY_PAGES),
            1 => (MEMORY_PAGES - 1, 1),
            2 => {
                let first = self.below(MEMORY_PAGES);
                (first, MEMORY_PAGES - first)
            }
            3 => {
                let first = self.below(MEMORY_PAGES);
                (first, self.between(1, MEMORY_PAGES - first))
            }
            _ => (self.below(1 << 24), self.between(1, 1 << 20)),
        };
        if k == CONSOLE {
            let [name, clock, baud] = [self.name(), self.free_word(), self.free_word()];
            vec![4096 * first, pages, name, clock, baud, 0]
        } else {
            vec![4096 * first, 4096 * pages]
        }
    }

    /// A console's name: one of a few, so that some occur twice, or anything.
    fn name(&mut self) -> u64 {
        match self.one_in(2) {
            true => u64::from_le_bytes(self.pick(&NAMES)),
            false => self.free_word(),
        }
    }

    /// A word that no rule checks.
    fn free_word(&mut self) -> u64 {
        self.word() >> self.pick(&[0, 0, 32, 63])
    }

    fn damage(&mut self, reading: &mut Reading) {
        let sections = sections_read(reading).max(1);
        match self.below(23) {
            0..=6 => self.damage_core(&mut reading.page, reading.base, sections),
            7..=11 => self.damage_header(&mut reading.page, reading.base, sections),
            12 | 13 => {
                let at = self.entry_word(reading, sections);
                put(&mut reading.page, at, self.edge());
            }
            14 | 15 => {
                let at = self.entry_word(reading, sections);
                nudge(&mut reading.page, at, self.shift());
            }
            16 => self.misalign(reading, sections),
            17 => self.sink(reading, sections),
            18..=20 => self.damage_fields(reading),
            21 => self.point_at_array(reading, sections),
            _ => self.overlap(reading, sections),
        }
    }

    /// Changes a byte or word of the core, or any byte.
    fn damage_core(&mut self, page: &mut [u8], base: u64, sections: usize) {
        let core = header_offset(sections);
        match self.below(7) {
            0 => put_version(page, self.any_version()),
            1 => {
                let at = self.index(PAGE);
                page[at] = self.word() as u8;
            }
            2 | 3 => {
                let at = self.index(core);
                page[at] ^= 1 << self.below(8);
            }
            4 => put(page, 8 * self.index(core / 8), self.edge()),
            5 => nudge(page, 8 * self.index(core / 8), self.shift()),
            _ => put(page, 8, self.near_page(base)),
        }
    }

    /// Changes a byte of the fields, or the pointer at them.
    fn damage_fields(&mut self, reading: &mut Reading) {
        let at = match word_at(&reading.page, 8) {
            0 => self.index(PAGE),
            pointer => (pointer % PAGE as u64) as usize,
        };
        if self.one_in(4) {
            let shift = self.pick(&[1, 2, 3, 4, 8, 4093]) as u64;
            let pointer = (reading.base + at as u64).wrapping_add(shift);
            put(&mut reading.page, 8, pointer);
        } else if let Some(fields) = reading.page.get_mut(at..) {
            self.spoil_fields(fields);
        }
    }

    /// An end mark alone at or near the edge of an array, where its bytes may be zeros.
    fn point_at_array(&mut self, reading: &mut Reading, sections: usize) {
        let k = self.index(sections);
        if let Some((offset, count)) = array_at(reading, k) {
            let edge = match self.one_in(2) {
                true => offset,
                false => offset + 8 * ENTRY_WORDS[k] * count,
            };
            let at = (edge + self.index(6)).saturating_sub(4).min(PAGE - 1);
            put(&mut reading.page, 8, reading.base + at as u64);
            // Bytes outside of the array; those inside stay.
            for i in at..(at + 3).min(PAGE) {
                if i < offset || i >= offset + 8 * ENTRY_WORDS[k] * count {
                    reading.page[i] = 0;
                }
            }
        }
    }

    /// Changes the pointer or the count of a section.
    fn damage_header(&mut self, page: &mut [u8], base: u64, sections: usize) {
        let at = header_offset(self.index(sections));
        match self.below(5) {
            0 | 1 => put(page, at + 8, self.near_page(base)),
            2 | 3 => {
                // One array on, into, or directly next to another.
                let pointer = word_at(page, header_offset(self.index(sections)) + 8);
                put(page, at + 8, pointer.wrapping_add(self.shift()));
            }
            _ => {
                let count = match self.below(2) {
                    0 => word_at(page, at).wrapping_add(self.shift()),
                    // Times the size of an entry, these wrap to small numbers.
                    _ => self.pick(&[1 << 60, (1 << 60) + 1, u64::MAX / 48 + 1, u64::MAX / 16 + 2]),
                };
                put(page, at, count);
            }
        }
    }

    /// Moves an array by less than a word.
    fn misalign(&mut self, reading: &mut Reading, sections: usize) {
        let k = self.index(sections);
        let shift = self.pick(&[1, 2, 4, 4, 7]);
        let forward = self.one_in(2);
        move_array(reading, k, |_, offset| match forward {
            true => offset + shift,
            false => offset.saturating_sub(shift),
        });
    }

    /// Moves an array one word into the core. The first base is 0 then, and so is the checksum there if the last section is empty.
    fn sink(&mut self, reading: &mut Reading, sections: usize) {
        let k = self.index(sections);
        let last = header_offset(sections) - 8;
        if word_at(&reading.page, last) == 0 {
            move_array(reading, k, |page, offset| {
                put(page, offset, 0);
                last
            });
        }
    }

    /// Moves an array into another one, entry on entry.
    fn overlap(&mut self, reading: &mut Reading, sections: usize) {
        let [k, other] = [(); 2].map(|()| self.index(sections));
        if let Some((offset, count)) = array_at(reading, other) {
            let to = offset + 8 * ENTRY_WORDS[other] * self.index(count);
            move_array(reading, k, |_, _| to);
            seal(reading, other);
        }
    }

    /// A small difference, up or down.
    fn shift(&mut self) -> u64 {
        let shift = self.pick(&[0u64, 1, 4, 8, 16, 48, 4096]);
        if self.one_in(2) {
            shift.wrapping_neg()
        } else {
            shift
        }
    }

    /// An address in or directly next to the page.
    fn near_page(&mut self, base: u64) -> u64 {
        let offset = match self.below(3) {
            0 => self.pick(&[0, 8, 16, 40, 64, 104, 108, 112, 4048, 4072, 4080, 4088]),
            1 => self.pick(&[4095, 4096, 4104, 8u64.wrapping_neg(), u64::MAX]),
            _ => self.below(PAGE as u64),
        };
        base.wrapping_add(offset)
    }

    /// The offset of a word of some entry, or of any word of the page.
    fn entry_word(&mut self, reading: &Reading, sections: usize) -> usize {
        let k = self.index(sections);
        match array_at(reading, k) {
            Some((offset, count)) => offset + 8 * self.index(count * ENTRY_WORDS[k]),
            None => 8 * self.index(PAGE / 8),
        }
    }
}

/// A field of a value of up to 65,535 bytes.
pub(super) fn push_field(fields: &mut Vec<u8>, tag: u8, value: &[u8]) {
    fields.push(tag);
    fields.extend((value.len() as u16).to_le_bytes());
    fields.extend_from_slice(value);
}

/// The holes that the arrays leave after the core, if an end mark fits.
fn holes(edition: Edition, plan: &Plan) -> Vec<Range<usize>> {
    let mut arrays: Vec<Range<usize>> = (0..edition.sections())
        .map(|k| plan.offsets[k]..plan.offsets[k] + 8 * ENTRY_WORDS[k] * plan.counts[k])
        .filter(|array| !array.is_empty())
        .collect();
    arrays.push(PAGE..PAGE);
    arrays.sort_by_key(|array| array.start);
    let mut holes = Vec::new();
    let mut from = edition.core();
    for array in arrays {
        holes.push(from..array.start);
        from = array.end;
    }
    holes.retain(|hole| hole.len() >= 3);
    holes
}

/// Offset and count of the array of section k, if it is in the page.
fn array_at(reading: &Reading, k: usize) -> Option<(usize, usize)> {
    let header = header_offset(k);
    let count = word_at(&reading.page, header);
    let offset = word_at(&reading.page, header + 8).wrapping_sub(reading.base);
    let end = offset.checked_add(count.checked_mul(8 * ENTRY_WORDS[k] as u64)?)?;
    (count != 0 && end <= PAGE as u64).then_some((offset as usize, count as usize))
}

/// Moves a section's array with its entries, so that only its place is wrong. `to` gives the new offset for the old one.
fn move_array(reading: &mut Reading, k: usize, to: impl FnOnce(&mut [u8], usize) -> usize) {
    let (offset, count) = match array_at(reading, k) {
        Some(array) => array,
        None => return,
    };
    let length = 8 * ENTRY_WORDS[k] * count;
    let to = to(&mut reading.page, offset);
    if to + length <= PAGE {
        reading.page.copy_within(offset..offset + length, to);
        let pointer = reading.base + to as u64;
        put(&mut reading.page, header_offset(k) + 8, pointer);
        seal(reading, k);
    }
}

/// How many sections the reader looks at.
fn sections_read(reading: &Reading) -> usize {
    let reader = Edition::new(reading.edition);
    let minor = accepted_minor(half_at(&reading.page, 0));
    match (reader, minor) {
        (Some(reader), Some(minor)) => reader.on_minor(minor).sections(),
        _ => 0,
    }
}

/// Makes a section's checksum good again.
fn seal(reading: &mut Reading, k: usize) {
    let (offset, count) = match array_at(reading, k) {
        Some(array) => array,
        None => return,
    };
    let header = header_offset(k);
    // The checksum itself may be among the words that an overlapping array sums.
    put(&mut reading.page, header + 16, 0);
    let page = &reading.page;
    let fields = [header, header + 8].into_iter();
    let words = (0..count * ENTRY_WORDS[k]).map(|i| offset + 8 * i);
    let sum = fields
        .chain(words)
        .fold(0u64, |sum, at| sum.wrapping_add(word_at(page, at)));
    put(&mut reading.page, header + 16, sum.wrapping_neg());
}

/// Adds to a word of the page.
fn nudge(page: &mut [u8], at: usize, shift: u64) {
    let word = word_at(page, at).wrapping_add(shift);
    put(page, at, word);
}
