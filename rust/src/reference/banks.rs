//! The granule record of several banks: how many, then base and size of each.

use super::codes::Error;
use super::layout::{word_at, GRANULE};

/// The most banks that a record has.
pub const BANKS: usize = 16;
/// A record's words. The record may be forged, so any count and any banks are possible.
pub type BankWords = [u64; 1 + 2 * BANKS];

/// Memory ends at 2^52.
const MEMORY_END: u64 = 1 << 52;

/// Base and size.
type Bank = (u64, u64);

/// The banks that a record counts; `None` if it counts more than `BANKS`.
fn banks(record: &BankWords) -> impl Iterator<Item = Bank> + '_ {
    let count = usize::try_from(record[0]).unwrap_or(usize::MAX);
    let counted = if count <= BANKS { count } else { 0 };
    let pairs = record[1..].chunks_exact(2).take(counted);
    pairs.map(|bank| (bank[0], bank[1]))
}

/// The reader's rule of a bank.
fn sound((base, size): Bank) -> bool {
    let end = base.checked_add(size);
    base % GRANULE == 0
        && size % GRANULE == 0
        && size != 0
        && end.map_or(false, |end| end <= MEMORY_END)
}

/// Whether the set-up would take a record's banks: at least one, each of them sound and none before the end of the one before it.
fn taken(record: &BankWords) -> bool {
    let mut neighbours = banks(record).zip(banks(record).skip(1));
    banks(record).next().is_some()
        && banks(record).all(sound)
        && neighbours.all(|((base, size), (next, _))| base + size <= next)
}

/// How many granules a record has: 0 if the set-up would refuse its banks.
pub fn granules(record: &BankWords) -> u64 {
    if !taken(record) {
        return 0;
    }
    banks(record).map(|(_, size)| size / GRANULE).sum()
}

/// The granule at an address, in a table of `in_table` granules: those of the banks, joined in bank order.
pub fn index(record: &BankWords, in_table: usize, address: u64) -> Option<usize> {
    if !taken(record) || granules(record) != in_table as u64 || address % GRANULE != 0 {
        return None;
    }
    let mut before = 0;
    for (base, size) in banks(record) {
        if (base..base + size).contains(&address) {
            return usize::try_from(before + (address - base) / GRANULE).ok();
        }
        before += size / GRANULE;
    }
    None
}

/// The record of the banks in `shown`, 16 bytes each, for a table of `in_table` granules.
pub fn set_up(shown: &[u8], in_table: u64) -> Result<BankWords, Error> {
    if shown.len() % 16 != 0 || shown.len() > 16 * BANKS {
        return Err(Error::Inval);
    }
    let mut record = [0; 1 + 2 * BANKS];
    record[0] = shown.len() as u64 / 16;
    for (word, cell) in record[1..].iter_mut().zip(shown.chunks_exact(8)) {
        *word = word_at(cell, 0);
    }
    match taken(&record) && granules(&record) == in_table {
        true => Ok(record),
        false => Err(Error::Inval),
    }
}

#[cfg(test)]
mod tests {
    use super::{granules, index, set_up, BankWords};
    use crate::reference::codes::Error;

    const G: u64 = 0x8_8000_0000;

    fn record(banks: &[u64]) -> BankWords {
        let mut record = [0; 33];
        record[0] = banks.len() as u64 / 2;
        record[1..=banks.len()].copy_from_slice(banks);
        record
    }

    #[test]
    fn a_hole_has_no_granule() {
        let two = record(&[G, 8192, G + 3 * 4096, 4096]);
        assert_eq!(granules(&two), 3);
        let at = |i: u64| index(&two, 3, G + 4096 * i);
        assert_eq!(
            [at(0), at(1), at(2), at(3), at(4)],
            [Some(0), Some(1), None, Some(2), None]
        );
        assert_eq!(
            [index(&two, 2, G), index(&two, 4, G), index(&two, 3, G + 1)],
            [None; 3]
        );
    }

    #[test]
    fn broken_records_have_no_granules() {
        let banks: [&[u64]; 4] = [&[], &[G, 0], &[G, 8192, G + 4096, 4096], &[1 << 52, 4096]];
        for banks in banks {
            assert_eq!(granules(&record(banks)), 0);
        }
        let mut many = record(&[G, 4096]);
        many[0] = 17;
        assert_eq!((granules(&many), index(&many, 0, G)), (0, None));
        many[0] = u64::MAX;
        assert_eq!(granules(&many), 0);
    }

    #[test]
    fn set_up_takes_the_sum_alone() {
        let bytes: Vec<u8> = [G, 8192]
            .iter()
            .flat_map(|word: &u64| word.to_le_bytes())
            .collect();
        assert_eq!(set_up(&bytes, 2), Ok(record(&[G, 8192])));
        for in_table in [0, 1, 3, u64::MAX] {
            assert_eq!(set_up(&bytes, in_table), Err(Error::Inval));
        }
        assert_eq!(set_up(&bytes[..15], 0), Err(Error::Inval));
        assert_eq!(set_up(&[], 0), Err(Error::Inval));
    }
}
