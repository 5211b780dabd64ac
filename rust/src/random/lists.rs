//! Lists for the writer.

use super::pages::push_field;
use super::Random;
use crate::reference::layout::{Edition, ENTRY_WORDS, PAGE, SECTIONS};

/// The writer's arguments, and the page that it is lent.
#[derive(Clone, Debug)]
pub struct Writing {
    pub base: u64,
    pub edition: u64,
    pub lists: [Vec<u64>; SECTIONS],
    /// Fields as on the page, without an end mark.
    pub fields: Vec<u8>,
    pub page: Vec<u8>,
}

impl Writing {
    /// The four lists as slices.
    pub fn lists(&self) -> [&[u64]; SECTIONS] {
        std::array::from_fn(|k| &self.lists[k][..])
    }
}

impl Random {
    /// Valid, or with one or two things wrong, so that the order of the refusals matters.
    pub fn any_writing(&mut self) -> Writing {
        let mut writing = self.valid_writing();
        for _ in 0..self.pick(&[0, 1, 1, 2]) {
            self.spoil(&mut writing);
        }
        writing
    }

    /// Lists that the writer makes a page of.
    pub fn valid_writing(&mut self) -> Writing {
        let edition = self.between(1, 4);
        let newest = Edition::new(edition).expect("1 to 4");
        let counts = self.counts(newest);
        let words: usize = (0..SECTIONS).map(|k| counts[k] * ENTRY_WORDS[k]).sum();
        Writing {
            base: self.base(),
            edition,
            lists: std::array::from_fn(|k| self.entries(k, counts[k])),
            fields: self.fields(PAGE - newest.core() - 8 * words, [1, 2]),
            page: vec![self.word() as u8; PAGE],
        }
    }

    fn entries(&mut self, k: usize, count: usize) -> Vec<u64> {
        (0..count).flat_map(|_| self.entry(k)).collect()
    }

    fn spoil(&mut self, writing: &mut Writing) {
        let k = self.index(SECTIONS);
        let list = &mut writing.lists[k];
        match self.below(19) {
            0 => writing.base = self.any_base(),
            1 => writing.edition = self.any_edition(),
            2 => {
                let length = self.pick(&[0, 112, 4095, 4097]);
                writing.page.resize(length, 0);
            }
            // Of an odd length.
            3 => list.push(self.edge()),
            4 => drop(list.pop()),
            // A list too long, or as long as just fits.
            5 => {
                let most = (PAGE / 8 / ENTRY_WORDS[k]) as u64;
                let count = self.between(most - 10, most + 2) as usize;
                *list = self.entries(k, count);
            }
            // Some more entries: late, too long, or quite all right.
            6 | 7 => {
                let count = self.between(1, 4) as usize;
                list.extend(self.entries(k, count));
            }
            // A field more than there is room for, a field too many, or one that fits.
            12 => {
                let length = self.pick(&[0, 1, 8, 32, 900, 4090]);
                let tag = self.between(4, 255) as u8;
                let value = self.bytes(length);
                push_field(&mut writing.fields, tag, &value);
            }
            13 => writing.fields.extend([0; 3]),
            14 => drop(writing.fields.pop()),
            15 => writing.fields.extend_from_within(..),
            16 | 17 => self.spoil_fields(&mut writing.fields),
            // The withdrawn field, after the others or before them.
            18 => {
                let mut fields = Vec::new();
                let value = self.bytes(1);
                push_field(&mut fields, 3, &value);
                let at = self.pick(&[0, writing.fields.len()]);
                writing.fields.splice(at..at, fields);
            }
            _ => self.spoil_word(list),
        }
    }

    fn spoil_word(&mut self, list: &mut [u64]) {
        if list.is_empty() {
            return;
        }
        let i = self.index(list.len());
        list[i] = match self.below(3) {
            0 => list[i] ^ (1 << self.below(64)),
            _ => self.edge(),
        };
    }
}
