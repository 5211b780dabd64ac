//! The mender (MD1 to MD7).

use super::fields::fields_end;
use super::layout::{
    accepted_minor, half_at, header_offset, placed_mut, word_at, Edition, PAGE, SECTIONS,
};
use super::reader::{plat_data_allowed, pointed, section_alone, Refusal};
use std::ops::Range;

/// Padding, the platform pointer with its fields, and the four sections.
pub const PARTS: usize = 6;

/// Mends a page in place. Returns for each part whether it was changed. A refused page is unchanged.
pub fn mend(page: &mut [u8], base: u64) -> Result<[bool; PARTS], Refusal> {
    let page = placed_mut(page, base).ok_or(Refusal::Place)?;
    let minor = accepted_minor(half_at(page, 0)).ok_or(Refusal::Version)?;
    let edition = Edition::NEWEST.on_minor(minor);
    let mut changed = [false; PARTS];
    // The places of the parts that are kept.
    let mut kept = Vec::new();
    if half_at(page, 4) != 0 {
        page[4..8].fill(0);
        changed[0] = true;
    }
    match fields_place(page, base, edition) {
        Some(fields) => kept.push(fields),
        None => {
            page[8..16].fill(0);
            changed[1] = true;
        }
    }
    for k in 0..edition.sections() {
        let section = section_alone(page, base, minor, edition, k);
        let array = section.map(|section| section.bytes(k));
        match array.filter(|array| kept.iter().all(|other| apart(array, other))) {
            Some(array) => kept.push(array),
            None => {
                page[header_offset(k)..][..24].fill(0);
                changed[PARTS - SECTIONS + k] = true;
            }
        }
    }
    Ok(changed)
}

/// The bytes of the fields with their end mark, if pointer and fields break no rule; no bytes without a pointer.
fn fields_place(page: &[u8; PAGE], base: u64, edition: Edition) -> Option<Range<usize>> {
    let plat_data = word_at(page, 8);
    if !plat_data_allowed(plat_data, base, edition) {
        return None;
    }
    if plat_data == 0 {
        return Some(0..0);
    }
    let fields = pointed(page, plat_data);
    let start = PAGE - fields.len();
    Some(start..start + fields_end(fields)?)
}

/// Whether no byte is in both.
fn apart(a: &Range<usize>, b: &Range<usize>) -> bool {
    a.end <= b.start || b.end <= a.start
}
