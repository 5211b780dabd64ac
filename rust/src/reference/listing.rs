//! The listing's text.

use super::fields::Shown;
use super::layout::{word_at, CONSOLE, ENTRY_WORDS};
use super::reader::{array, fields, read, shown_word, Refusal, Section};
use std::fmt::{Result, Write};

const NAMES: [&str; 4] = ["dram", "console", "ncoh", "coh"];
/// The word of a console that holds its name.
const NAME_WORD: usize = 2;

/// What the listing program prints for its whole input: 8 bytes of base, then the page.
pub fn list_input(out: &mut impl Write, input: &[u8]) -> Result {
    if input.len() < 8 {
        return list_refusal(out, Refusal::Place);
    }
    list(out, &input[8..], word_at(input, 0), 4)
}

/// What an edition shows of a page.
pub fn list(out: &mut impl Write, page: &[u8], base: u64, edition: u64) -> Result {
    let view = match read(page, base, edition) {
        Ok(view) => view,
        Err(refusal) => return list_refusal(out, refusal),
    };
    writeln!(
        out,
        "manifest 0.{} read as {}",
        view.minor,
        view.edition.number()
    )?;
    match view.plat_data {
        0 => writeln!(out, "platform none")?,
        pointer => writeln!(out, "platform {pointer:#018x}")?,
    }
    for field in fields(page, view.plat_data) {
        list_field(out, field)?;
    }
    for (k, name) in NAMES.into_iter().enumerate() {
        match view.sections[k] {
            Section::Absent => writeln!(out, "{name} absent")?,
            Section::Empty => writeln!(out, "{name} 0")?,
            Section::Entries { count, .. } => {
                writeln!(out, "{name} {count}")?;
                list_entries(out, view.minor, array(page, base, edition, k), k)?;
            }
        }
    }
    Ok(())
}

fn list_refusal(out: &mut impl Write, refusal: Refusal) -> Result {
    writeln!(out, "refused {}", refusal.code())
}

fn list_field(out: &mut impl Write, shown: Shown) -> Result {
    match shown {
        Shown::Raw(field) => {
            write!(out, "{} {}", field.tag, field.value.len())?;
            for byte in field.value {
                write!(out, " {byte:02x}")?;
            }
        }
        Shown::Withdrawn => write!(out, "{} withdrawn", shown.tag())?,
    }
    writeln!(out)
}

fn list_entries(out: &mut impl Write, minor: u16, array: &[u8], k: usize) -> Result {
    for entry in array.chunks_exact(8 * ENTRY_WORDS[k]) {
        for i in 0..ENTRY_WORDS[k] {
            let word = shown_word(minor.into(), k, entry, i);
            let gap = if i == 0 { "" } else { " " };
            if k == CONSOLE && i == NAME_WORD {
                // Its bytes in their order.
                write!(out, "{gap}{:016x}", word.swap_bytes())?;
            } else {
                write!(out, "{gap}{word:#018x}")?;
            }
        }
        writeln!(out)?;
    }
    Ok(())
}
