//! The manifest writer.

use super::entries::{bank_sum, console_sum};
use super::fields::{description_ok, HEAD};
use super::layout::{header_offset, placed_mut, Edition, CONSOLE, ENTRY_WORDS, PAGE, SECTIONS};

/// Why nothing is written: W1 to W5.
#[derive(Clone, Copy, Debug, PartialEq, Eq)]
pub enum Unwritten {
    Place = 1,
    Edition,
    Lists,
    Late,
    Room,
}

/// The words of each section's entries.
pub type Lists<'a> = [&'a [u64]; SECTIONS];

/// Writes the manifest into the page; on a refusal the page is unchanged.
pub fn write(
    base: u64,
    edition: u64,
    lists: Lists,
    fields: &[u8],
    page: &mut [u8],
) -> Result<(), Unwritten> {
    let page = placed_mut(page, base).ok_or(Unwritten::Place)?;
    let edition = Edition::new(edition).ok_or(Unwritten::Edition)?;
    let sums = list_sums(lists).ok_or(Unwritten::Lists)?;
    if !description_ok(fields) {
        return Err(Unwritten::Lists);
    }
    if !lists[edition.sections()..]
        .iter()
        .all(|list| list.is_empty())
    {
        return Err(Unwritten::Late);
    }
    if !fits(edition, lists, fields) {
        return Err(Unwritten::Room);
    }
    let end = fill(page, base, edition, lists, sums);
    fill_fields(page, base, end, fields);
    Ok(())
}

/// The sum of each list's words, if all entries of all lists are whole and sound.
#[inline]
fn list_sums(lists: Lists) -> Option<[u64; SECTIONS]> {
    let mut sums = [0; SECTIONS];
    for (k, list) in lists.into_iter().enumerate() {
        sums[k] = list_sum(list, k)?;
    }
    Some(sums)
}

#[inline]
fn list_sum(list: &[u64], k: usize) -> Option<u64> {
    if k == CONSOLE {
        let consoles = list.chunks_exact(6);
        let odd = consoles.remainder();
        // Flags must be 0 at every edition that can be written, 1 to 4, so the rule of 4 serves for all.
        console_sum(4, consoles.map(entry::<6>)).filter(|_| odd.is_empty())
    } else {
        let banks = list.chunks_exact(2);
        let odd = banks.remainder();
        bank_sum(banks.map(entry::<2>)).filter(|_| odd.is_empty())
    }
}

#[inline]
fn entry<const WORDS: usize>(words: &[u64]) -> [u64; WORDS] {
    words.try_into().expect("a whole entry")
}

#[inline]
fn fits(edition: Edition, lists: Lists, fields: &[u8]) -> bool {
    // One list may be passed four times, so even lengths of real lists could wrap.
    let words = lists.iter().fold(edition.core() / 8, |sum, list| {
        sum.saturating_add(list.len())
    });
    let marked = match fields.len() {
        0 => 0,
        length => length.saturating_add(HEAD),
    };
    words <= PAGE / 8 && marked <= PAGE - 8 * words
}

/// Writes the pointer, the fields at offset `at`, and zeros after them, which include the end mark; without fields no pointer.
#[inline]
fn fill_fields(page: &mut [u8; PAGE], base: u64, at: usize, fields: &[u8]) {
    if !fields.is_empty() {
        put(page, 8, &[base + at as u64]);
    }
    let end = at + fields.len();
    page[at..end].copy_from_slice(fields);
    page[end..].fill(0);
}

/// Writes core and arrays of lists that were all checked. Returns where they end.
#[inline]
fn fill(
    page: &mut [u8; PAGE],
    base: u64,
    edition: Edition,
    lists: Lists,
    sums: [u64; SECTIONS],
) -> usize {
    let mut at = edition.core();
    page[..at].fill(0);
    put(page, 0, &[edition.number()]);
    for k in 0..edition.sections() {
        let list = lists[k];
        if list.is_empty() {
            continue;
        }
        let count = (list.len() / ENTRY_WORDS[k]) as u64;
        let pointer = base + at as u64;
        let checksum = count
            .wrapping_add(pointer)
            .wrapping_add(sums[k])
            .wrapping_neg();
        put(page, header_offset(k), &[count, pointer, checksum]);
        put(page, at, list);
        at += 8 * list.len();
    }
    at
}

/// Sets words of the page from an offset on.
#[inline]
fn put(page: &mut [u8; PAGE], at: usize, words: &[u64]) {
    let place = &mut page[at..at + 8 * words.len()];
    for (cell, word) in place.chunks_exact_mut(8).zip(words) {
        cell.copy_from_slice(&word.to_le_bytes());
    }
}
