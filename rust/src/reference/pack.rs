//! The packer (PK1 to PK7): what a reader of edition 4 shows, given to the writer.

use super::fields::Shown;
use super::layout::{Edition, ENTRY_WORDS, SECTIONS};
use super::reader::{array, fields, read, shown_word, Refusal};
use super::writer::{write, Unwritten};

/// Why no page is made: the page's own refusal, or the target's length.
#[derive(Clone, Copy, Debug, PartialEq, Eq)]
pub enum Unpacked {
    Page(Refusal),
    Target,
}

impl Unpacked {
    /// The reader's codes; W1 is 1.
    pub fn code(self) -> i32 {
        match self {
            Unpacked::Page(refusal) => refusal.code(),
            Unpacked::Target => 1,
        }
    }
}

/// Writes what is shown of a page into the target, without its withdrawn fields; on a refusal the target is unchanged.
pub fn pack(page: &[u8], base: u64, target: &mut [u8]) -> Result<(), Unpacked> {
    let view = read(page, base, 4).map_err(Unpacked::Page)?;
    let minor = u64::from(view.minor);
    if Edition::new(minor).is_none() {
        return Err(Unpacked::Page(Refusal::Version));
    }
    let [dram, console, ncoh, coh] = shown_lists(page, base, minor);
    let lists = [&dram[..], &console, &ncoh, &coh];
    let kept = kept_fields(page, view.plat_data);
    write(base, minor, lists, &kept, target).map_err(|refusal| {
        // What is shown always fits, and is always sound.
        assert_eq!(refusal, Unwritten::Place);
        Unpacked::Target
    })
}

/// The words of the entries that are shown.
fn shown_lists(page: &[u8], base: u64, minor: u64) -> [Vec<u64>; SECTIONS] {
    [0, 1, 2, 3].map(|k| {
        let entries = array(page, base, 4, k).chunks_exact(8 * ENTRY_WORDS[k]);
        let words = |entry| (0..ENTRY_WORDS[k]).map(move |i| shown_word(minor, k, entry, i));
        entries.flat_map(words).collect()
    })
}

/// The fields in page order, as the writer takes them.
fn kept_fields(page: &[u8], plat_data: u64) -> Vec<u8> {
    let mut kept = Vec::new();
    for shown in fields(page, plat_data) {
        if let Shown::Raw(field) = shown {
            kept.push(field.tag);
            kept.extend((field.value.len() as u16).to_le_bytes());
            kept.extend(field.value);
        }
    }
    kept
}
