//! Token signing: push a request, pull a response, get the public key.

use super::boot::Record;
use super::codes::{buffer, need_page, need_up, Error, Outcome};
use super::layout::{half_at, word_at};
use super::queue::{Queue, Request};

const PUSH: u64 = 1;
const PULL: u64 = 2;
const KEY: u64 = 3;

/// Bytes of a request.
const REQUEST: usize = 80;
/// Bytes of a response before its signature.
const RESPONSE_HEAD: usize = 18;
/// ECC SECP384R1, the only algorithm.
const ALGORITHM: u32 = 0;
/// SHA2-384, the only hash.
const HASH_ID: u32 = 1;

/// The registers of a call: x1 to x4.
#[derive(Clone, Copy, Debug)]
pub struct SignCall {
    pub opcode: u64,
    pub pa: u64,
    pub size: u64,
    pub curve: u64,
}

/// Token signing by opcode. The public key is not the realm key.
#[inline]
pub fn token_sign(
    record: Record,
    queue: &mut Queue,
    page: &mut [u8],
    public_key: &[u8],
    call: SignCall,
) -> Outcome {
    let kept = need_up(record)?;
    let page = need_page(page)?;
    if !(PUSH..=KEY).contains(&call.opcode) {
        return Err(Error::Inval);
    }
    // Outside is INVAL here, not BAD_ADDR.
    let room = buffer(kept, call.pa, call.size).map_err(|_| Error::Inval)?;
    if call.opcode == KEY && call.curve != 0 {
        return Err(Error::Inval);
    }
    if kept.minor < 4 {
        return Err(Error::Unk);
    }
    let buffer = &mut page[room];
    match call.opcode {
        PUSH => push(queue, buffer),
        PULL => pull(queue, buffer),
        _ => key(public_key, buffer),
    }
}

#[inline]
fn push(queue: &mut Queue, buffer: &[u8]) -> Outcome {
    let bytes = buffer.get(..REQUEST).ok_or(Error::Inval)?;
    let (algorithm, hash_id) = (half_at(bytes, 0), half_at(bytes, 24));
    if algorithm != ALGORITHM || hash_id != HASH_ID {
        return Err(Error::Inval);
    }
    queue.push(Request {
        algorithm: u64::from(algorithm),
        granule: word_at(bytes, 8),
        ticket: word_at(bytes, 16),
        hash_id: u64::from(hash_id),
        hash: bytes[32..].try_into().expect("48 bytes"),
    })
}

#[inline]
fn pull(queue: &mut Queue, buffer: &mut [u8]) -> Outcome {
    let response = queue.responses.oldest().ok_or(Error::Again)?;
    let signature = response.signature();
    let place = buffer.get_mut(..RESPONSE_HEAD + signature.len());
    let (head, tail) = place.ok_or(Error::Inval)?.split_at_mut(RESPONSE_HEAD);
    head[..8].copy_from_slice(&response.granule.to_le_bytes());
    head[8..16].copy_from_slice(&response.ticket.to_le_bytes());
    head[16..].copy_from_slice(&(signature.len() as u16).to_le_bytes());
    tail.copy_from_slice(signature);
    queue.drop_response();
    Ok([0, 0])
}

#[inline]
fn key(key: &[u8], buffer: &mut [u8]) -> Outcome {
    if key.is_empty() {
        return Err(Error::Again);
    }
    let place = buffer.get_mut(..key.len()).ok_or(Error::Inval)?;
    place.copy_from_slice(key);
    Ok([key.len() as u64, 0])
}
