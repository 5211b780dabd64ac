//! The platform token, hunk by hunk, and the challenge.

use super::boot::{Kept, Record};
use super::codes::{buffer, need_page, need_up, Error, Outcome};
use super::layout::PAGE;
use std::ops::Range;

/// A token session: none, or the token's length at the start and how much of it was sent.
#[derive(Clone, Copy, Debug, PartialEq, Eq)]
pub enum Session {
    Idle,
    Sending { whole: u64, sent: u64 },
}

/// The registers of a call: x1 to x3.
#[derive(Clone, Copy, Debug)]
pub struct TokenCall {
    pub pa: u64,
    pub size: u64,
    pub c_size: u64,
}

impl TokenCall {
    /// The buffer, if all checks of the arguments pass.
    #[inline]
    fn buffer(self, kept: Kept) -> Result<Range<usize>, Error> {
        let room = buffer(kept, self.pa, self.size)?;
        if !matches!(self.c_size, 0 | 32 | 48 | 64) || self.c_size > self.size {
            return Err(Error::Inval);
        }
        Ok(room)
    }
}

impl Session {
    /// Writes the next hunk of the lent token. A refusal leaves session and page unchanged.
    #[inline]
    pub fn send(
        &mut self,
        record: Record,
        page: &mut [u8],
        busy: bool,
        token: &[u8],
        call: TokenCall,
    ) -> Outcome {
        let kept = need_up(record)?;
        let page = need_page(page)?;
        if busy {
            return Err(Error::Again);
        }
        let room = call.buffer(kept)?;
        let sent = self.sent_before(token, call.c_size)?;
        // A session that has sent too much has nothing left.
        let rest = usize::try_from(sent).map_or(&[][..], |sent| token.get(sent..).unwrap_or(&[]));
        let (hunk, rest) = rest.split_at(rest.len().min(room.len()));
        page[room][..hunk.len()].copy_from_slice(hunk);
        *self = if rest.is_empty() {
            Session::Idle
        } else {
            Session::Sending {
                whole: token.len() as u64,
                sent: sent + hunk.len() as u64,
            }
        };
        Ok([hunk.len() as u64, rest.len() as u64])
    }

    /// How much was sent before this call; a challenge always starts again.
    #[inline]
    fn sent_before(self, token: &[u8], c_size: u64) -> Result<u64, Error> {
        let (whole, sent) = match self {
            _ if c_size != 0 => (token.len() as u64, 0),
            Session::Sending { whole, sent } => (whole, sent),
            Session::Idle => return Err(Error::Inval),
        };
        if token.is_empty() || token.len() as u64 != whole {
            return Err(Error::Unk);
        }
        Ok(sent)
    }
}

/// The first check of record, page and buffer that a call fails, for the challenge lookup.
#[inline]
pub fn challenge_checks(record: Record, page: &[u8], call: TokenCall) -> Outcome {
    let kept = need_up(record)?;
    if page.len() != PAGE {
        return Err(Error::Unk);
    }
    call.buffer(kept).map(|_| [0; 2])
}

/// The challenge of a start, as the part of the page that holds it; empty if the call's arguments would be refused.
#[inline]
pub fn challenge(record: Record, page: &[u8], call: TokenCall) -> &[u8] {
    let room = need_up(record).and_then(|kept| call.buffer(kept));
    match room {
        Ok(room) if page.len() == PAGE => &page[room][..call.c_size as usize],
        _ => &[],
    }
}
