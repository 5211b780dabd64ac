//! The runtime codes, a command's answer, and the checks that several commands share.

use super::boot::{Kept, Record};
use super::granules::Listed;
use super::layout::PAGE;
use std::ops::Range;

/// A code other than OK.
#[derive(Clone, Copy, Debug, PartialEq, Eq)]
#[repr(i32)]
pub enum Error {
    Unk = -1,
    BadAddr = -2,
    BadPas = -3,
    Inval = -5,
    Again = -6,
}

/// Registers x1 and x2 of an accepted command, or its code.
pub type Outcome = Result<[u64; 2], Error>;

/// The registers of an answer.
#[derive(Clone, Copy, Debug, PartialEq, Eq)]
pub struct Answer {
    pub x0: u64,
    pub x1: u64,
    pub x2: u64,
}

impl From<Outcome> for Answer {
    #[inline]
    fn from(outcome: Outcome) -> Answer {
        match outcome {
            Ok([x1, x2]) => Answer { x0: 0, x1, x2 },
            Err(error) => Answer {
                // The code, sign-extended.
                x0: i64::from(error as i32) as u64,
                x1: 0,
                x2: 0,
            },
        }
    }
}

impl From<Listed> for Answer {
    /// x1 holds the number done, also on refusal.
    fn from((done, ended): Listed) -> Answer {
        Answer {
            x1: done,
            ..Answer::from(ended.map(|()| [0, 0]))
        }
    }
}

/// What the record keeps; while it is not up a command is unknown.
#[inline]
pub fn need_up(record: Record) -> Result<Kept, Error> {
    record.up().ok_or(Error::Unk)
}

/// The lent page; of another length, the command is unknown.
#[inline]
pub fn need_page(page: &mut [u8]) -> Result<&mut [u8; PAGE], Error> {
    page.try_into().map_err(|_| Error::Unk)
}

/// The bytes of the page that a buffer takes, by the range check. One that begins in the kept bytes is outside.
#[inline]
pub fn buffer(record: Kept, pa: u64, size: u64) -> Result<Range<usize>, Error> {
    // Differences only: a sum of address and size, or of base and kept bytes, could wrap.
    let page = PAGE as u64;
    let offset = pa.checked_sub(record.base);
    let offset = offset.filter(|offset| (record.kept..page).contains(offset));
    let offset = offset.ok_or(Error::BadAddr)?;
    if size > page - offset {
        return Err(Error::Inval);
    }
    Ok(offset as usize..(offset + size) as usize)
}
