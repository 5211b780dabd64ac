//! The realm attestation key.

use super::boot::Record;
use super::codes::{buffer, need_page, need_up, Error, Outcome};

/// Writes the platform's key into the buffer.
#[inline]
pub fn realm_key(
    record: Record,
    page: &mut [u8],
    key: &[u8],
    pa: u64,
    size: u64,
    curve: u64,
) -> Outcome {
    let kept = need_up(record)?;
    let page = need_page(page)?;
    let room = buffer(kept, pa, size)?;
    if curve != 0 {
        return Err(Error::Inval);
    }
    if key.is_empty() || key.len() > room.len() {
        return Err(Error::Unk);
    }
    page[room][..key.len()].copy_from_slice(key);
    Ok([key.len() as u64, 0])
}
