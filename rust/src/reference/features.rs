//! Features, key update, and the forwarded error.

use super::boot::Record;
use super::codes::{need_up, Error, Outcome};

/// Bit 0 of feature register 0: token signing is present.
const TOKEN_SIGN: u64 = 1;
/// MECIDs have at most 16 bits.
const WIDEST: u64 = 15;

/// x1 is the feature register with this index; only index 0 exists.
#[inline]
pub fn features(record: Record, index: u64) -> Outcome {
    let kept = need_up(record)?;
    if index != 0 {
        return Err(Error::Inval);
    }
    if kept.minor < 4 {
        return Err(Error::Unk);
    }
    Ok([TOKEN_SIGN, 0])
}

/// The mecid to reprogram; `width` is MECIDWidthm1.
#[inline]
pub fn key_update(record: Record, width: u64, mecid: u64) -> Result<u64, Error> {
    let kept = need_up(record)?;
    // 65,535 is 2^(15+1) - 1, so one bound is enough.
    if mecid >> (width.min(WIDEST) + 1) != 0 {
        return Err(Error::Inval);
    }
    if width > WIDEST || kept.minor < 5 {
        return Err(Error::Unk);
    }
    Ok(mecid)
}

/// The error code for the Non-secure world, for any record.
#[inline]
pub fn forward(err_code: u64) -> u64 {
    err_code
}
