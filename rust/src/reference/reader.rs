//! The manifest reader.

use super::entries::{bank_sum, console_sum};
use super::fields::{fields_end, fields_of, Shown};
use super::layout::{
    accepted_minor, half_at, header_offset, placed, word_at, Edition, CONSOLE, ENTRY_WORDS, PAGE,
    SECTIONS,
};

/// Why a page is refused.
#[derive(Clone, Copy, Debug, PartialEq, Eq)]
pub enum Refusal {
    Place,
    Version,
    Manifest,
}

impl Refusal {
    /// The number of the code.
    #[inline]
    pub fn code(self) -> i32 {
        match self {
            Refusal::Place => -5,
            Refusal::Version => -6,
            Refusal::Manifest => -7,
        }
    }
}

/// A section as it is shown: not in the edition, empty, or a number of entries from an offset of the page.
#[derive(Clone, Copy, Debug, PartialEq, Eq)]
pub enum Section {
    Absent,
    Empty,
    Entries { offset: usize, count: usize },
}

impl Section {
    /// The bytes of the page that the array takes; k is the section's number.
    #[inline]
    pub(super) fn bytes(self, k: usize) -> std::ops::Range<usize> {
        match self {
            Section::Entries { offset, count } => offset..offset + count * ENTRY_WORDS[k] * 8,
            _ => 0..0,
        }
    }
}

/// All that is shown of an accepted page.
#[derive(Clone, Copy, Debug, PartialEq, Eq)]
pub struct View {
    /// w, the page's minor.
    pub minor: u16,
    /// e = min(w, the reader's edition).
    pub edition: Edition,
    pub plat_data: u64,
    pub sections: [Section; SECTIONS],
}

/// Reads a page at a base as a reader of the edition.
pub fn read(page: &[u8], base: u64, edition: u64) -> Result<View, Refusal> {
    let page = placed(page, base).ok_or(Refusal::Place)?;
    let reader = Edition::new(edition).ok_or(Refusal::Version)?;
    let minor = accepted_minor(half_at(page, 0)).ok_or(Refusal::Version)?;
    view(page, base, minor, reader.on_minor(minor)).ok_or(Refusal::Manifest)
}

/// The part of the page that holds a section's array; empty if the section shows no entries.
pub fn array(page: &[u8], base: u64, edition: u64, section: usize) -> &[u8] {
    match read(page, base, edition) {
        Ok(view) if section < SECTIONS => &page[view.sections[section].bytes(section)],
        _ => &[],
    }
}

/// Word i of an entry of section k as it is shown: a console's flags are 0 from minor 5 on.
#[inline]
pub fn shown_word(minor: u64, k: usize, entry: &[u8], i: usize) -> u64 {
    match (k, i) {
        (CONSOLE, 5) if minor > 4 => 0,
        _ => word_at(entry, 8 * i),
    }
}

/// The number of the first console with a name, which is 8 bytes with its zeros, in the array of consoles.
pub fn console_named(consoles: &[u8], name: &[u8; 8]) -> Option<usize> {
    let mut entries = consoles.chunks_exact(8 * ENTRY_WORDS[CONSOLE]);
    entries.position(|entry| entry[16..24] == name[..])
}

/// The bytes from a platform pointer up to the page's end; empty without a pointer.
pub fn pointed(page: &[u8], plat_data: u64) -> &[u8] {
    // The base is a multiple of a page's length.
    let offset = (plat_data % PAGE as u64) as usize;
    match plat_data {
        0 => &[],
        _ => page.get(offset..).unwrap_or_default(),
    }
}

/// The fields of a page that was accepted with this pointer, in page order.
pub fn fields(page: &[u8], plat_data: u64) -> Vec<Shown<'_>> {
    fields_of(pointed(page, plat_data))
}

#[inline]
fn view(page: &[u8; PAGE], base: u64, minor: u16, edition: Edition) -> Option<View> {
    let plat_data = word_at(page, 8);
    if half_at(page, 4) != 0 || !plat_data_allowed(plat_data, base, edition) {
        return None;
    }
    let mut sections = [Section::Absent; SECTIONS];
    let count = edition.sections();
    // Written out, so that each section's offsets and entry are constants.
    if count > 0 {
        sections[0] = read_section::<0>(page, base, minor, edition)?;
    }
    if count > 1 {
        sections[1] = read_section::<1>(page, base, minor, edition)?;
    }
    if count > 2 {
        sections[2] = read_section::<2>(page, base, minor, edition)?;
        sections[3] = read_section::<3>(page, base, minor, edition)?;
    }
    let sound = disjoint(&sections) && fields_sound(page, plat_data, &sections);
    sound.then_some(View {
        minor,
        edition,
        plat_data,
        sections,
    })
}

/// Whether a platform pointer keeps its rule; 0 does.
#[inline]
pub(super) fn plat_data_allowed(plat_data: u64, base: u64, edition: Edition) -> bool {
    // A pointer below the base wraps to far above the page.
    let offset = plat_data.wrapping_sub(base);
    plat_data == 0 || (edition.core() as u64..PAGE as u64).contains(&offset)
}

/// Whether the fields at the pointer are whole and, with their end mark, share no byte with an array.
fn fields_sound(page: &[u8; PAGE], plat_data: u64, sections: &[Section; SECTIONS]) -> bool {
    if plat_data == 0 {
        return true;
    }
    let fields = pointed(page, plat_data);
    let start = PAGE - fields.len();
    let end = match fields_end(fields) {
        Some(length) => start + length,
        None => return false,
    };
    sections.iter().enumerate().all(|(k, section)| {
        let array = section.bytes(k);
        array.is_empty() || end <= array.start || array.end <= start
    })
}

/// A section of the edition, by its own rules only.
pub(super) fn section_alone(
    page: &[u8; PAGE],
    base: u64,
    minor: u16,
    edition: Edition,
    k: usize,
) -> Option<Section> {
    match k {
        0 => read_section::<0>(page, base, minor, edition),
        1 => read_section::<1>(page, base, minor, edition),
        2 => read_section::<2>(page, base, minor, edition),
        _ => read_section::<3>(page, base, minor, edition),
    }
}

/// A section of the edition, if place, entries and checksum are sound.
#[inline]
fn read_section<const K: usize>(
    page: &[u8; PAGE],
    base: u64,
    minor: u16,
    edition: Edition,
) -> Option<Section> {
    let header = header_offset(K);
    let count = word_at(page, header);
    let pointer = word_at(page, header + 8);
    let checksum = word_at(page, header + 16);
    if count | pointer | checksum == 0 {
        return Some(Section::Empty);
    }
    let section = locate(count, pointer.wrapping_sub(base), edition, K)?;
    let array = &page[section.bytes(K)];
    let sum = if K == CONSOLE {
        console_array_sum(minor, array)
    } else {
        bank_array_sum(array)
    }?;
    let total = [count, pointer, checksum]
        .into_iter()
        .fold(sum, u64::wrapping_add);
    (total == 0).then_some(section)
}

/// The array's place, if it is between the core and the page's end, at a multiple of 8. The base is one, so the offset decides.
#[inline]
fn locate(count: u64, offset: u64, edition: Edition, k: usize) -> Option<Section> {
    let size = 8 * ENTRY_WORDS[k] as u64;
    // The first two bounds keep the third from wrapping.
    let inside =
        offset < PAGE as u64 && count <= PAGE as u64 && offset + count * size <= PAGE as u64;
    let free = offset >= edition.core() as u64 && offset % 8 == 0;
    (count != 0 && inside && free).then_some(Section::Entries {
        offset: offset as usize,
        count: count as usize,
    })
}

// Not inlined: three sections share the loop.
#[inline(never)]
fn bank_array_sum(array: &[u8]) -> Option<u64> {
    bank_sum(array.chunks_exact(16).map(bank_words))
}

#[inline(never)]
fn console_array_sum(minor: u16, array: &[u8]) -> Option<u64> {
    console_sum(minor.into(), array.chunks_exact(48).map(console_words))
}

#[inline]
fn bank_words(bank: &[u8]) -> [u64; 2] {
    [word_at(bank, 0), word_at(bank, 8)]
}

#[inline]
fn console_words(console: &[u8]) -> [u64; 6] {
    [
        word_at(console, 0),
        word_at(console, 8),
        word_at(console, 16),
        word_at(console, 24),
        word_at(console, 32),
        word_at(console, 40),
    ]
}

/// Whether no two arrays share a byte.
#[inline]
fn disjoint(sections: &[Section; SECTIONS]) -> bool {
    (1..SECTIONS).all(|b| {
        let second = sections[b].bytes(b);
        (0..b).all(|a| {
            let first = sections[a].bytes(a);
            first.end <= second.start || second.end <= first.start
        })
    })
}
