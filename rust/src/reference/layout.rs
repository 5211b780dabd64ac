//! Versions, editions, and the layout of a page.

/// Bytes of the shared buffer.
pub const PAGE: usize = 4096;
/// Bytes of a granule; addresses of banks, regions and consoles are multiples of it.
pub const GRANULE: u64 = 4096;
/// Sections of the newest edition: dram, console, ncoh, coh.
pub const SECTIONS: usize = 4;
/// The section whose entries are consoles; the others hold banks or regions.
pub const CONSOLE: usize = 1;
/// Words of an entry, by section.
pub const ENTRY_WORDS: [usize; SECTIONS] = [2, 6, 2, 2];

/// The highest base that leaves the page below 2^52.
const LAST_BASE: u64 = (1 << 52) - PAGE as u64;

/// Offset of a section's count, pointer and checksum.
#[inline]
pub const fn header_offset(section: usize) -> usize {
    16 + 24 * section
}

/// A minor of the manifest layout, from 1 to 4.
#[derive(Clone, Copy, Debug, PartialEq, Eq, PartialOrd, Ord)]
pub struct Edition(u8);

impl Edition {
    /// Edition 4.
    pub const NEWEST: Edition = Edition(4);

    /// The edition with this number, if it is 1 to 4.
    #[inline]
    pub fn new(number: u64) -> Option<Edition> {
        (1..=4).contains(&number).then_some(Edition(number as u8))
    }

    /// What a reader of this edition works with on a page of this minor.
    #[inline]
    pub fn on_minor(self, minor: u16) -> Edition {
        Edition(u16::from(self.0).min(minor) as u8)
    }

    /// Its number.
    #[inline]
    pub fn number(self) -> u64 {
        u64::from(self.0)
    }

    /// How many sections it has; ncoh and coh came together.
    #[inline]
    pub fn sections(self) -> usize {
        match self.0 {
            4 => 4,
            number => usize::from(number) - 1,
        }
    }

    /// Bytes of its core.
    #[inline]
    pub fn core(self) -> usize {
        header_offset(self.sections())
    }
}

/// The minor of an accepted version: bit 31 and major zero, minor 1 or more.
#[inline]
pub fn accepted_minor(version: u32) -> Option<u16> {
    u16::try_from(version).ok().filter(|&minor| minor != 0)
}

/// Whether a page may be at this base.
#[inline]
fn base_allowed(base: u64) -> bool {
    base != 0 && base % GRANULE == 0 && base <= LAST_BASE
}

/// The page, if its length and base are allowed.
#[inline]
pub fn placed(page: &[u8], base: u64) -> Option<&[u8; PAGE]> {
    page.try_into().ok().filter(|_| base_allowed(base))
}

/// The page to write, if its length and base are allowed.
#[inline]
pub fn placed_mut(page: &mut [u8], base: u64) -> Option<&mut [u8; PAGE]> {
    page.try_into().ok().filter(|_| base_allowed(base))
}

/// The little-endian 4-byte number at an offset.
#[inline]
pub fn half_at(bytes: &[u8], at: usize) -> u32 {
    u32::from_le_bytes(bytes[at..at + 4].try_into().expect("4 bytes"))
}

/// The little-endian 8-byte number at an offset.
#[inline]
pub fn word_at(bytes: &[u8], at: usize) -> u64 {
    u64::from_le_bytes(bytes[at..at + 8].try_into().expect("8 bytes"))
}
