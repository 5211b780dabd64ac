//! Granule records, and the banks that a record is set up from.

use super::pages::Reading;
use super::Random;
use crate::exports::GranulesImage;
use crate::reference::banks::granules;
use crate::reference::layout::PAGE;
use crate::reference::realm_words::put;
use crate::reference::writer::write;

/// Memory ends at 2^52.
const END: u64 = 1 << 52;

impl Random {
    /// A granule record, and how many granules its table has. Two in three are as the set-up makes them.
    pub fn granule_record(&mut self) -> (GranulesImage, usize) {
        let banks = self.few_banks();
        let granules = granules_in(&banks);
        let mut record = record_of(&banks);
        let mut in_table = granules as usize;
        match self.below(12) {
            0 => in_table = self.pick(&[in_table + 1, in_table - 1, 0, 512]),
            1 | 2 => self.forge_record(&mut record),
            // Words after the counted banks are ignored.
            3 => record[1 + 2 * banks.len()..].fill_with(|| self.edge()),
            _ => {}
        }
        (record, in_table)
    }

    /// Words for a record and a table: mostly those of the table; some disagree with it, have spare bits set, or are too many or too few.
    pub fn words(&mut self, record: &GranulesImage, table: &[u8]) -> Vec<u64> {
        let number = ((granules(record) + 63) / 64).min(512) as usize;
        let mut words = vec![0; number];
        for (granule, &state) in table.iter().enumerate().take(64 * number) {
            put(&mut words, granule, state == 1);
        }
        match self.below(8) {
            0 => words.iter_mut().for_each(|word| *word ^= self.edge()),
            1 => words.fill_with(|| self.pick(&[0, u64::MAX, 1 << 63])),
            2 if number > 0 => words[number - 1] |= u64::MAX << self.below(64),
            _ => {}
        }
        match self.below(12) {
            0 => words.push(self.edge()),
            1 => drop(words.pop()),
            2 => words = vec![u64::MAX; self.index(4)],
            _ => {}
        }
        words
    }

    /// Up to 16 good banks of a few granules, some touching, some to the end of memory.
    fn few_banks(&mut self) -> Vec<[u64; 2]> {
        let count = self.pick(&[1, 1, 1, 2, 2, 3, 8, 15, 16]);
        let mut banks = Vec::with_capacity(count);
        let mut low = match self.below(8) {
            0 | 1 => 0,
            2 => (1 << 51) - 4096 * self.below(64), // a bank from there on takes the slow path
            _ => 4096 * self.below(1 << 39),
        };
        for _ in 0..count {
            let hole = self.pick(&[0, 0, 1, 2, 1 << 20, 1 << 30]);
            let size = self.pick(&[1, 1, 2, 7, 16, 64]);
            let base = low + 4096 * hole;
            banks.push([base, 4096 * size]);
            low = base + 4096 * size;
        }
        if self.one_in(8) {
            let up = END - low;
            banks.iter_mut().for_each(|bank| bank[0] += up);
        }
        banks
    }

    /// Makes a record one that the set-up would refuse, or at least another.
    fn forge_record(&mut self, record: &mut GranulesImage) {
        let count = record[0] as usize;
        let at = 1 + 2 * self.index(count);
        match self.below(8) {
            0 => record[0] = self.pick(&[0, 17, 1 << 32, (1 << 32) + 1, u64::MAX]),
            1 => record[0] = self.between(0, 18),
            2 => record[at] = record[at].wrapping_add(self.pick(&[1, 8, 4095])),
            3 => {
                record[at + 1] = self.pick(&[0, 1, 4095, END, END + 4096, 0u64.wrapping_sub(4096)])
            }
            4 => record[at] = self.pick(&[END, END - 4096, 1 << 63, u64::MAX - 4095]),
            // One granule nearer, so that neighbours that touch overlap.
            5 => record[at] = record[at].wrapping_sub(4096),
            6 => record[at] = self.edge(),
            _ => record.swap(1, at),
        }
    }

    /// Bytes for the set-up, and the table's length: of good banks, of good banks with one change, or any.
    pub fn shown_banks(&mut self) -> (Vec<u8>, u64) {
        let mut banks = self.few_banks();
        match self.below(10) {
            0 => banks.reverse(),
            1 => {
                let again = self.pick(&banks);
                banks.push(again);
            }
            2 => {
                let at = self.index(banks.len());
                let mut record = record_of(&banks[at..=at]);
                self.forge_record(&mut record);
                banks[at] = [record[1], record[2]];
            }
            3 => banks.extend((0..17).map(|i| [END - 4096 * (17 - i), 4096])),
            4 => banks.clear(),
            _ => {}
        }
        let granules = granules_in(&banks);
        let words = banks.iter().flatten();
        let mut bytes: Vec<u8> = words.flat_map(|word| word.to_le_bytes()).collect();
        if self.one_in(10) {
            let change = self.between(1, 15) as usize;
            bytes.resize((bytes.len() + 16).saturating_sub(change), 0);
        }
        (bytes, self.table_length(granules))
    }

    /// Mostly the right length.
    fn table_length(&mut self, granules: u64) -> u64 {
        match self.below(8) {
            0 => granules.wrapping_add(self.pick(&[1, u64::MAX, 1 << 32, 1 << 63])),
            1 => self.edge(),
            _ => granules,
        }
    }

    /// A page that the reader accepts, of banks that the set-up may refuse, and the table's length.
    pub fn page_of_banks(&mut self) -> (Reading, u64) {
        let mut banks = self.few_banks();
        match self.below(6) {
            0 => self.shuffle(&mut banks),
            1 => {
                let again = self.pick(&banks);
                banks.push(again);
            }
            2 => banks.extend((0..self.below(230)).map(|i| [4096 * i, 4096])),
            3 if self.one_in(4) => banks.clear(),
            _ => {}
        }
        let (base, edition) = (self.base(), self.between(2, 4));
        let (mut page, words) = (vec![0; PAGE], banks.concat());
        write(base, edition, [&words, &[], &[], &[]], &[], &mut page).expect("written");
        let reading = Reading {
            base,
            edition,
            page,
        };
        (reading, self.table_length(granules_in(&banks)))
    }
}

/// The granules of banks, by their sizes alone.
fn granules_in(banks: &[[u64; 2]]) -> u64 {
    let sizes = banks.iter().map(|&[_, size]| size / 4096);
    sizes.fold(0, u64::wrapping_add)
}

/// The record of these banks, of which there are at most 16.
fn record_of(banks: &[[u64; 2]]) -> GranulesImage {
    let mut record = [0; 33];
    record[0] = banks.len() as u64;
    for (pair, bank) in record[1..].chunks_exact_mut(2).zip(banks) {
        pair.copy_from_slice(bank);
    }
    record
}
