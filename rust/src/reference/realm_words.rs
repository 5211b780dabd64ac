//! The Realm words: granule i is bit i mod 64 of word i / 64.

use super::banks::{granules, BankWords};
use super::codes::Error;

/// The number of words must be ceil(granules / 64) of the record.
#[inline]
pub fn need_fit(banks: &BankWords, words: &[u64]) -> Result<u64, Error> {
    let granules = granules(banks);
    match (granules + 63) / 64 == words.len() as u64 {
        true => Ok(granules),
        false => Err(Error::Inval),
    }
}

fn get(words: &[u64], granule: u64) -> bool {
    words[(granule / 64) as usize] >> (granule % 64) & 1 == 1
}

/// Writes a granule's bit.
#[inline]
pub fn put(words: &mut [u64], granule: usize, realm: bool) {
    let (word, bit) = (&mut words[granule / 64], 1 << (granule % 64));
    match realm {
        true => *word |= bit,
        false => *word &= !bit,
    }
}

/// How many Realm granules there are.
pub fn count(banks: &BankWords, words: &[u64]) -> Result<u64, Error> {
    let granules = need_fit(banks, words)?;
    Ok((0..granules).filter(|&granule| get(words, granule)).count() as u64)
}

/// The first one at or after an index.
pub fn next(banks: &BankWords, words: &[u64], index: u64) -> Result<Option<u64>, Error> {
    let granules = need_fit(banks, words)?;
    match index < granules {
        true => Ok((index..granules).find(|&granule| get(words, granule))),
        false => Err(Error::Inval),
    }
}

/// The words of a table.
fn made(banks: &BankWords, table: &[u8], words: &[u64]) -> Result<Vec<u64>, Error> {
    let granules = need_fit(banks, words)?;
    if granules != table.len() as u64 {
        return Err(Error::Inval);
    }
    let mut made = vec![0; words.len()];
    for (granule, &state) in table.iter().enumerate() {
        put(&mut made, granule, state == 1);
    }
    Ok(made)
}

/// Whether the words are those of the table, with spare bits 0.
pub fn agrees(banks: &BankWords, table: &[u8], words: &[u64]) -> Result<bool, Error> {
    Ok(made(banks, table, words)? == words)
}

/// Makes the words those of the table.
pub fn build(banks: &BankWords, table: &[u8], words: &mut [u64]) -> Result<(), Error> {
    let made = made(banks, table, words)?;
    words.copy_from_slice(&made);
    Ok(())
}
