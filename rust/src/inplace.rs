//! The other side of the benchmark for cold boot, granules, Realm words and commands: hand-written for speed, with the parameters of the
//! C functions, on the library's images in place. The rules are the library's: a refused call leaves its images unchanged, an
//! accepted one changes the side of the queue that it needs and zeros a place that it frees, for any image.
//!
//! What makes it fast: a move in one bank, the usual one, ends without a call; a list keeps the bank of the previous address and the Realm
//! word that it writes; the bank of any other address is found by a binary search; the table's bytes become bits 16 at a time; no answer
//! passes through memory.
//!
//! `tests/inplace.rs` compares it with the reference. No function here is inlined, as no call of the library is.

use crate::exports::{
    GranulesImage, QueueImage, RecordImage, Registers, RequestImage, SessionImage, Work,
};
use crate::fast;
use crate::reference::layout::{half_at, word_at, PAGE};
use crate::reference::queue::{PLACES, SIGNATURE};
use crate::reference::runtime::{
    DELEGATE, FEATURES, KEY_UPDATE, PLAT_TOKEN, REALM_KEY, REQ_COMPLETE, TOKEN_SIGN, UNDELEGATE,
};
use crate::sse2;

/// Words of a request, and of a response.
const REQUEST: usize = 10;
const RESPONSE: usize = 16;
/// Where the requests begin, and the responses.
const REQUESTS: usize = 2;
const RESPONSES: usize = REQUESTS + PLACES * REQUEST;
/// Words of a response before its signature, and its bytes in the page before it.
const HEAD: usize = 3;
const HEAD_BYTES: usize = 18;
/// Bytes of a request in the page.
const REQUEST_BYTES: usize = 80;
/// The most banks of a granule record, and where memory ends.
const BANKS: usize = 16;
const MEMORY_END: u64 = 1 << 52;

/// The codes, sign-extended.
const OK: u64 = 0;
const UNK: u64 = -1i64 as u64;
const BAD_ADDR: u64 = -2i64 as u64;
const BAD_PAS: u64 = -3i64 as u64;
const INVAL: u64 = -5i64 as u64;
const AGAIN: u64 = -6i64 as u64;

/// `pbeam_cold_boot`: checks the page with the fast reader and makes no view.
#[inline(never)]
#[allow(clippy::too_many_arguments)]
pub fn cold_boot(
    state: &mut RecordImage,
    cpu: u64,
    version: u64,
    cpus: u64,
    base: u64,
    most: u64,
    kept: u64,
    page: &[u8],
) -> i32 {
    let code = if state[0] != 0 {
        -1
    } else if version.wrapping_sub(1) >= 0xFFFF {
        -2
    } else if cpus > most {
        -3
    } else if cpu >= cpus {
        -4
    } else if kept > PAGE as u64 {
        -5
    } else {
        fast::accepts(page, base)
    };
    if code != 0 {
        *state = [2, 0, 0, 0, 0];
        return code;
    }
    state[0] = 1;
    state[1] = cpus;
    state[2] = base;
    state[3] = version.min(5);
    state[4] = kept;
    0
}

/// `pbeam_call`. Short commands are inline here; each of the others is a call.
#[inline(never)]
#[allow(clippy::too_many_arguments)]
pub fn call(
    state: &RecordImage,
    session: &mut SessionImage,
    queue: &mut QueueImage,
    page: &mut [u8],
    granules: &GranulesImage,
    table: &mut [u8],
    words: &mut [u64],
    key: &[u8],
    token: &[u8],
    busy: u64,
    public_key: &[u8],
    width: u64,
    x: &[u64; 5],
    out: &mut Registers,
    work: &mut Work,
) {
    *work = [0; 2];
    match x[0] {
        REQ_COMPLETE => {
            *work = [2, x[1]];
            *out = [0; 3];
        }
        KEY_UPDATE => {
            let code = key_update(state, width, x[1]);
            if code == OK {
                *work = [1, x[1]];
            }
            *out = [code, 0, 0];
        }
        FEATURES => *out = features(state, x[1]),
        DELEGATE => delegate(state, granules, table, words, x[1], out),
        UNDELEGATE => undelegate(state, granules, table, words, x[1], out),
        REALM_KEY => realm_key(state, page, key, x[1], x[2], x[3], out),
        PLAT_TOKEN => platform_token(state, session, page, token, busy, x[1], x[2], x[3], out),
        TOKEN_SIGN => token_signing(state, queue, page, public_key, x[1], x[2], x[3], x[4], out),
        _ => *out = [UNK, 0, 0],
    }
}

#[inline]
fn features(state: &RecordImage, index: u64) -> Registers {
    if state[0] == 1 && index != 0 {
        return [INVAL, 0, 0];
    }
    match state[0] == 1 && state[3] > 3 {
        true => [OK, 1, 0],
        false => [UNK, 0, 0],
    }
}

#[inline]
fn key_update(state: &RecordImage, width: u64, mecid: u64) -> u64 {
    if state[0] != 1 {
        return UNK;
    }
    if mecid >> (width.min(15) + 1) != 0 {
        return INVAL;
    }
    match width > 15 || state[3] < 5 {
        true => UNK,
        false => OK,
    }
}

/// The offset of a buffer in the page, or the code that refuses it. Differences only, since sums could wrap.
#[inline]
fn buffer(state: &RecordImage, pa: u64, size: u64) -> Result<usize, u64> {
    let offset = pa.wrapping_sub(state[2]);
    if pa < state[2] || offset < state[4] || offset >= PAGE as u64 {
        return Err(BAD_ADDR);
    }
    match size <= PAGE as u64 - offset {
        true => Ok(offset as usize),
        false => Err(INVAL),
    }
}

/// Copies with registers of 16 bytes, as firmware would; a short copy is left to the compiler.
#[inline]
fn copy(to: &mut [u8], from: &[u8]) {
    let done = sse2::copy(to, from);
    if done < to.len() {
        to[done..].copy_from_slice(&from[done..]);
    }
}

/// `pbeam_realm_key`.
#[inline(never)]
pub fn realm_key(
    state: &RecordImage,
    page: &mut [u8],
    key: &[u8],
    pa: u64,
    size: u64,
    curve: u64,
    out: &mut Registers,
) {
    let code = if state[0] != 1 || page.len() != PAGE {
        UNK
    } else {
        match buffer(state, pa, size) {
            Err(code) => code,
            Ok(_) if curve != 0 => INVAL,
            Ok(_) if key.is_empty() || key.len() as u64 > size => UNK,
            Ok(at) => {
                copy(&mut page[at..at + key.len()], key);
                *out = [OK, key.len() as u64, 0];
                return;
            }
        }
    };
    *out = [code, 0, 0];
}

// ---- Platform token ----

/// `pbeam_platform_token`.
#[inline(never)]
#[allow(clippy::too_many_arguments)]
pub fn platform_token(
    state: &RecordImage,
    session: &mut SessionImage,
    page: &mut [u8],
    token: &[u8],
    busy: u64,
    pa: u64,
    size: u64,
    c_size: u64,
    out: &mut Registers,
) {
    let code = if state[0] != 1 || page.len() != PAGE {
        UNK
    } else if busy != 0 {
        AGAIN
    } else {
        match buffer(state, pa, size) {
            Err(code) => code,
            Ok(at) => match sent_before(session, token, size, c_size) {
                Err(code) => code,
                Ok(sent) => {
                    let rest = token.get(sent as usize..).unwrap_or(&[]);
                    let length = rest.len().min(size as usize);
                    copy(&mut page[at..at + length], &rest[..length]);
                    let left = rest.len() - length;
                    *session = match left {
                        0 => [0; 3],
                        _ => [1, token.len() as u64, sent + length as u64],
                    };
                    *out = [OK, length as u64, left as u64];
                    return;
                }
            },
        }
    };
    *out = [code, 0, 0];
}

/// How much of the token was sent before this call; a challenge starts again.
#[inline]
fn sent_before(session: &SessionImage, token: &[u8], size: u64, c_size: u64) -> Result<u64, u64> {
    if c_size != 0 {
        if !matches!(c_size, 32 | 48 | 64) || c_size > size {
            return Err(INVAL);
        }
        return match token.is_empty() {
            true => Err(UNK),
            false => Ok(0),
        };
    }
    if session[0] == 0 {
        return Err(INVAL);
    }
    match token.is_empty() || token.len() as u64 != session[1] {
        true => Err(UNK),
        false => Ok(session[2]),
    }
}

// ---- Granules ----

/// Bytes of the table, before a move: 0 to Realm, 1 from Realm.
const NON_SECURE: u8 = 0;
const REALM: u8 = 1;

/// `pbeam_delegate`.
#[inline(never)]
pub fn delegate(
    state: &RecordImage,
    granules: &GranulesImage,
    table: &mut [u8],
    words: &mut [u64],
    at: u64,
    out: &mut Registers,
) {
    move_one::<NON_SECURE>(state, granules, table, words, at, out);
}

/// `pbeam_undelegate`.
#[inline(never)]
pub fn undelegate(
    state: &RecordImage,
    granules: &GranulesImage,
    table: &mut [u8],
    words: &mut [u64],
    at: u64,
    out: &mut Registers,
) {
    move_one::<REALM>(state, granules, table, words, at, out);
}

/// `pbeam_delegate_list`.
#[inline(never)]
pub fn delegate_list(
    state: &RecordImage,
    granules: &GranulesImage,
    table: &mut [u8],
    words: &mut [u64],
    list: &[u64],
    out: &mut Registers,
) {
    move_list::<NON_SECURE>(state, granules, table, words, list, out);
}

/// `pbeam_undelegate_list`.
#[inline(never)]
pub fn undelegate_list(
    state: &RecordImage,
    granules: &GranulesImage,
    table: &mut [u8],
    words: &mut [u64],
    list: &[u64],
    out: &mut Registers,
) {
    move_list::<REALM>(state, granules, table, words, list, out);
}

/// One bank, the usual case, is handled here; anything else is a call.
#[inline(always)]
fn move_one<const FROM: u8>(
    state: &RecordImage,
    granules: &GranulesImage,
    table: &mut [u8],
    words: &mut [u64],
    at: u64,
    out: &mut Registers,
) {
    if !is_ready(state, granules, table.len(), words.len()) {
        return move_any::<FROM>(state, granules, table, words, at, out);
    }
    let place = index(granules[1], at) as usize;
    let code = match table.get_mut(place) {
        Some(byte) if !is_shared::<FROM>(state, at) => match *byte == FROM {
            true => {
                *byte = 1 - FROM;
                let word = &mut words[place / 64];
                *word = with_bit::<FROM>(*word, place);
                OK
            }
            false => BAD_PAS,
        },
        _ => BAD_ADDR,
    };
    out[0] = code;
    out[1] = 0;
    out[2] = 0;
}

/// The granule of an address in the bank at a base. Rotate right by 12: an unaligned offset becomes huge, so one comparison with the
/// number of granules rejects it and one past the bank.
#[inline(always)]
fn index(base: u64, at: u64) -> u64 {
    at.wrapping_sub(base).rotate_right(12)
}

/// Whether the boot record is up, there is one good bank with `table.len()` granules, and the words fit.
#[inline(always)]
fn is_ready(state: &RecordImage, granules: &GranulesImage, in_table: usize, words: usize) -> bool {
    let (base, size) = (granules[1], granules[2]);
    granules[0] == 1
        && state[0] == 1
        && (base | size) % 4096 == 0
        && size.wrapping_sub(1) < MEMORY_END
        && base <= MEMORY_END - size
        && size / 4096 == in_table as u64
        && (in_table + 63) / 64 == words
}

/// The shared page's granule, which is not undelegated.
#[inline(always)]
fn is_shared<const FROM: u8>(state: &RecordImage, at: u64) -> bool {
    FROM == REALM && at == state[2]
}

/// The word with the granule's bit after a move.
#[inline(always)]
fn with_bit<const FROM: u8>(word: u64, place: usize) -> u64 {
    match FROM {
        NON_SECURE => word | 1 << (place % 64),
        _ => word & !(1 << (place % 64)),
    }
}

/// A move with any record.
#[cold]
#[inline(never)]
fn move_any<const FROM: u8>(
    state: &RecordImage,
    granules: &GranulesImage,
    table: &mut [u8],
    words: &mut [u64],
    at: u64,
    out: &mut Registers,
) {
    let (count, place) = pass(granules, at);
    let code = if !fit(count, words) {
        INVAL
    } else if state[0] != 1 {
        UNK
    } else if at % 4096 != 0 || count != table.len() as u64 || is_shared::<FROM>(state, at) {
        BAD_ADDR
    } else {
        match table.get_mut(place as usize) {
            None => BAD_ADDR,
            Some(byte) if *byte != FROM => BAD_PAS,
            Some(byte) => {
                *byte = 1 - FROM;
                let word = &mut words[place as usize / 64];
                *word = with_bit::<FROM>(*word, place as usize);
                OK
            }
        }
    };
    *out = [code, 0, 0];
}

/// Whether there are ceil(granules / 64) words.
#[inline]
fn fit(granules: u64, words: &[u64]) -> bool {
    (granules + 63) / 64 == words.len() as u64
}

/// No granule has this index.
const NOWHERE: u64 = u64::MAX;

/// The number of granules of the record, 0 if the set-up would refuse it, and the granule of an address.
#[inline]
fn pass(granules: &GranulesImage, at: u64) -> (u64, u64) {
    let count = granules[0];
    if count > BANKS as u64 {
        return (0, NOWHERE);
    }
    let (mut low, mut before, mut place) = (0, 0, NOWHERE);
    for bank in granules[1..1 + 2 * count as usize].chunks_exact(2) {
        let (base, size) = (bank[0], bank[1]);
        let inside = size.wrapping_sub(1) < MEMORY_END && base <= MEMORY_END - size;
        if (base | size) % 4096 != 0 || base < low || !inside {
            return (0, NOWHERE);
        }
        let offset = at.wrapping_sub(base);
        if offset < size {
            place = before + offset / 4096;
        }
        before += size / 4096;
        low = base + size;
    }
    (before, place)
}

/// The banks of a good record, in the order of addresses.
struct Banks {
    bases: [u64; BANKS],
    /// Granules of each.
    counts: [u64; BANKS],
    /// Granules in the banks before.
    before: [u64; BANKS],
}

impl Banks {
    /// Empty banks fill the places after the record's banks.
    #[inline]
    fn of(granules: &GranulesImage) -> Banks {
        let mut banks = Banks {
            bases: [u64::MAX; BANKS],
            counts: [0; BANKS],
            before: [0; BANKS],
        };
        let (count, mut before) = ((granules[0] as usize).min(BANKS), 0);
        for (i, bank) in granules[1..1 + 2 * count].chunks_exact(2).enumerate() {
            banks.bases[i] = bank[0];
            banks.counts[i] = bank[1] / 4096;
            banks.before[i] = before;
            before += bank[1] / 4096;
        }
        banks
    }

    /// The last bank that starts at or before an address; the first bank if no bank does.
    #[inline]
    fn holding(&self, at: u64) -> usize {
        let mut i = 0;
        for step in [8, 4, 2, 1] {
            let next = (i + step) % BANKS;
            i = if self.bases[next] <= at { next } else { i };
        }
        i
    }
}

/// A list: all but the addresses is checked once.
#[inline(always)]
fn move_list<const FROM: u8>(
    state: &RecordImage,
    granules: &GranulesImage,
    table: &mut [u8],
    words: &mut [u64],
    list: &[u64],
    out: &mut Registers,
) {
    if is_ready(state, granules, table.len(), words.len()) {
        return move_in_bank::<FROM>(state, granules[1], table, words, list, out);
    }
    let (count, _) = pass(granules, 0);
    *out = [0; 3];
    if !fit(count, words) {
        out[0] = INVAL;
    } else if list.is_empty() {
    } else if state[0] != 1 {
        out[0] = UNK;
    } else if count != table.len() as u64 {
        out[0] = BAD_ADDR;
    } else {
        move_in_banks::<FROM>(state, &Banks::of(granules), table, words, list, out);
    }
}

/// A list in one bank: its base stays in a register, and so does the word that is written, as long as granules share it.
#[inline(always)]
fn move_in_bank<const FROM: u8>(
    state: &RecordImage,
    base: u64,
    table: &mut [u8],
    words: &mut [u64],
    list: &[u64],
    out: &mut Registers,
) {
    let (mut held, mut word) = (words.len(), 0);
    for (done, &at) in list.iter().enumerate() {
        let place = index(base, at) as usize;
        let byte = match table.get_mut(place) {
            Some(byte) if !is_shared::<FROM>(state, at) => byte,
            _ => return *out = [BAD_ADDR, done as u64, 0],
        };
        if *byte != FROM {
            return *out = [BAD_PAS, done as u64, 0];
        }
        *byte = 1 - FROM;
        let own = place / 64;
        if own != held {
            (held, word) = (own, words[own]);
        }
        word = with_bit::<FROM>(word, place);
        words[own] = word;
    }
    *out = [OK, list.len() as u64, 0];
}

/// The same in several banks: the bank of the previous address is tried first.
#[inline(always)]
fn move_in_banks<const FROM: u8>(
    state: &RecordImage,
    banks: &Banks,
    table: &mut [u8],
    words: &mut [u64],
    list: &[u64],
    out: &mut Registers,
) {
    let (mut held, mut word) = (words.len(), 0);
    let (mut base, mut count, mut before) = (banks.bases[0], banks.counts[0], 0);
    for (done, &at) in list.iter().enumerate() {
        let mut in_bank = index(base, at);
        if in_bank >= count {
            let i = banks.holding(at);
            (base, count, before) = (banks.bases[i], banks.counts[i], banks.before[i]);
            in_bank = index(base, at);
            if in_bank >= count {
                return *out = [BAD_ADDR, done as u64, 0];
            }
        }
        let place = (before + in_bank) as usize;
        let byte = match table.get_mut(place) {
            Some(byte) if !is_shared::<FROM>(state, at) => byte,
            _ => return *out = [BAD_ADDR, done as u64, 0],
        };
        if *byte != FROM {
            return *out = [BAD_PAS, done as u64, 0];
        }
        *byte = 1 - FROM;
        let own = place / 64;
        if own != held {
            (held, word) = (own, words[own]);
        }
        word = with_bit::<FROM>(word, place);
        words[own] = word;
    }
    *out = [OK, list.len() as u64, 0];
}

/// `pbeam_set_up_granules`: checks the bytes, then writes the record once.
#[inline(never)]
pub fn set_up(granules: &mut GranulesImage, shown: &[u8], in_table: u64) -> u64 {
    if shown.is_empty() || shown.len() % 16 != 0 || shown.len() > 16 * BANKS {
        return INVAL;
    }
    let (mut low, mut count) = (0, 0);
    for bank in shown.chunks_exact(16) {
        let (base, size) = (word_at(bank, 0), word_at(bank, 8));
        let inside = size.wrapping_sub(1) < MEMORY_END && base <= MEMORY_END - size;
        if (base | size) % 4096 != 0 || base < low || !inside {
            return INVAL;
        }
        count += size / 4096;
        low = base + size;
    }
    if count != in_table {
        return INVAL;
    }
    granules[0] = shown.len() as u64 / 16;
    let (made, rest) = granules[1..].split_at_mut(shown.len() / 8);
    for (word, cell) in made.iter_mut().zip(shown.chunks_exact(8)) {
        *word = word_at(cell, 0);
    }
    rest.fill(0);
    OK
}

// ---- Realm words ----

/// `pbeam_realm_count`.
#[inline(never)]
pub fn realm_count(granules: &GranulesImage, words: &[u64], number: &mut [u64; 1]) -> u64 {
    let (granules, _) = pass(granules, 0);
    number[0] = 0;
    if !fit(granules, words) {
        return INVAL;
    }
    let (whole, last) = words.split_at((granules / 64) as usize);
    let ones = |word: &u64| u64::from(word.count_ones());
    let spare = u64::MAX << (granules % 64);
    number[0] = whole.iter().map(ones).sum::<u64>();
    number[0] += last.first().map_or(0, |word| ones(&(word & !spare)));
    OK
}

/// `pbeam_realm_next`: skips zero words eight at a time; 1 if no bit is set from the index on.
#[inline(never)]
pub fn realm_next(
    granules: &GranulesImage,
    words: &[u64],
    index: u64,
    found: &mut [u64; 1],
) -> u64 {
    let (granules, _) = pass(granules, 0);
    found[0] = 0;
    if !fit(granules, words) || index >= granules {
        return INVAL;
    }
    let mut at = (index / 64) as usize;
    let mut bits = words[at] & u64::MAX << (index % 64);
    if bits == 0 {
        at += 1;
        for eight in words[at..].chunks_exact(8) {
            if eight.iter().fold(0, |either, word| either | word) != 0 {
                break;
            }
            at += 8;
        }
        match words[at..].iter().position(|&word| word != 0) {
            Some(past) => at += past,
            None => return 1,
        }
        bits = words[at];
    }
    let hit = 64 * at as u64 + u64::from(bits.trailing_zeros());
    if hit >= granules {
        return 1;
    }
    found[0] = hit;
    OK
}

/// The bits of the last granules, fewer than 64.
#[inline]
fn last_bits(part: &[u8]) -> u64 {
    let bits = part.iter().rev();
    bits.fold(0, |bits, &byte| bits << 1 | u64::from(byte == REALM))
}

/// `pbeam_realm_build`.
#[inline(never)]
pub fn realm_build(granules: &GranulesImage, table: &[u8], words: &mut [u64]) -> u64 {
    let (count, _) = pass(granules, 0);
    if !fit(count, words) || count != table.len() as u64 {
        return INVAL;
    }
    let parts = table.chunks_exact(64);
    let (last, (whole, spare)) = (parts.remainder(), words.split_at_mut(table.len() / 64));
    for (word, part) in whole.iter_mut().zip(parts) {
        *word = sse2::ones(part.try_into().expect("64 bytes"));
    }
    if let [word] = spare {
        *word = last_bits(last);
    }
    OK
}

/// `pbeam_realm_agrees`: 1 if not.
#[inline(never)]
pub fn realm_agrees(granules: &GranulesImage, table: &[u8], words: &[u64]) -> u64 {
    let (count, _) = pass(granules, 0);
    if !fit(count, words) || count != table.len() as u64 {
        return INVAL;
    }
    let parts = table.chunks_exact(64);
    let (last, (whole, spare)) = (parts.remainder(), words.split_at(table.len() / 64));
    for (word, part) in whole.iter().zip(parts) {
        if *word != sse2::ones(part.try_into().expect("64 bytes")) {
            return 1;
        }
    }
    u64::from(spare.iter().any(|word| *word != last_bits(last)))
}

// ---- Queue ----

/// min(count, 8): a count above eight means eight.
#[inline]
fn count(word: u64) -> usize {
    word.min(PLACES as u64) as usize
}

/// `pbeam_token_signing`.
#[inline(never)]
#[allow(clippy::too_many_arguments)]
pub fn token_signing(
    state: &RecordImage,
    queue: &mut QueueImage,
    page: &mut [u8],
    key: &[u8],
    opcode: u64,
    pa: u64,
    size: u64,
    curve: u64,
    out: &mut Registers,
) {
    *out = [UNK, 0, 0];
    if state[0] != 1 || page.len() != PAGE {
        return;
    }
    let place = buffer(state, pa, size);
    let at = match place {
        Ok(at) if opcode.wrapping_sub(1) < 3 && (opcode != 3 || curve == 0) => at,
        _ => return out[0] = INVAL,
    };
    if state[3] < 4 {
        return;
    }
    let buffer = &mut page[at..at + size as usize];
    match opcode {
        1 => out[0] = push(queue, buffer),
        2 => out[0] = pull(queue, buffer),
        _ => public(key, buffer, out),
    }
}

#[inline]
fn push(queue: &mut QueueImage, buffer: &[u8]) -> u64 {
    let bytes = match buffer.get(..REQUEST_BYTES) {
        Some(bytes) => bytes,
        None => return INVAL,
    };
    let (algorithm, hash_id) = (half_at(bytes, 0), half_at(bytes, 24));
    if algorithm != 0 || hash_id != 1 {
        return INVAL;
    }
    let requests = count(queue[0]);
    if requests == PLACES {
        return AGAIN;
    }
    let place = &mut queue[REQUESTS + REQUEST * requests..][..REQUEST];
    // The upper halves of words 0 and 3 are holes in the page.
    place[0] = 0;
    place[1] = word_at(bytes, 8);
    place[2] = word_at(bytes, 16);
    place[3] = 1;
    for (word, cell) in place[4..].iter_mut().zip(bytes[32..].chunks_exact(8)) {
        *word = word_at(cell, 0);
    }
    queue[0] = requests as u64 + 1;
    OK
}

#[inline]
fn pull(queue: &mut QueueImage, buffer: &mut [u8]) -> u64 {
    let responses = count(queue[1]);
    if responses == 0 {
        return AGAIN;
    }
    let oldest = &queue[RESPONSES..RESPONSES + RESPONSE];
    let length = oldest[2].min(SIGNATURE as u64) as usize;
    let place = match buffer.get_mut(..HEAD_BYTES + length) {
        Some(place) => place,
        None => return INVAL,
    };
    let (head, tail) = place.split_at_mut(HEAD_BYTES);
    head[..8].copy_from_slice(&oldest[0].to_le_bytes());
    head[8..16].copy_from_slice(&oldest[1].to_le_bytes());
    head[16..].copy_from_slice(&(length as u16).to_le_bytes());
    let mut cells = tail.chunks_exact_mut(8);
    let mut words = oldest[HEAD..].iter();
    for (cell, word) in (&mut cells).zip(&mut words) {
        cell.copy_from_slice(&word.to_le_bytes());
    }
    let rest = cells.into_remainder();
    let last = oldest[HEAD + (length / 8).min(SIGNATURE / 8 - 1)].to_le_bytes();
    for (cell, byte) in rest.iter_mut().zip(last) {
        *cell = byte;
    }
    drop_first::<RESPONSE>(&mut queue[RESPONSES..], responses);
    queue[1] = responses as u64 - 1;
    OK
}

#[inline]
fn public(key: &[u8], buffer: &mut [u8], out: &mut Registers) {
    if key.is_empty() {
        return out[0] = AGAIN;
    }
    match buffer.get_mut(..key.len()) {
        Some(place) => {
            copy(place, key);
            *out = [OK, key.len() as u64, 0];
        }
        None => out[0] = INVAL,
    }
}

/// `pbeam_sign`.
#[inline(never)]
pub fn sign(queue: &mut QueueImage, signature: &[u8], out: &mut Registers) {
    *out = [signed(queue, signature), 0, 0];
}

#[inline]
fn signed(queue: &mut QueueImage, signature: &[u8]) -> u64 {
    let length = signature.len();
    if length.wrapping_sub(1) >= SIGNATURE {
        return INVAL;
    }
    let (requests, responses) = (count(queue[0]), count(queue[1]));
    if requests == 0 || responses == PLACES {
        return AGAIN;
    }
    let (granule, ticket) = (queue[REQUESTS + 1], queue[REQUESTS + 2]);
    let place = &mut queue[RESPONSES + RESPONSE * responses..][..RESPONSE];
    place[..HEAD].copy_from_slice(&[granule, ticket, length as u64]);
    let cells = signature.chunks_exact(8);
    let rest = cells.remainder();
    let mut words = place[HEAD..].iter_mut();
    for (cell, word) in cells.zip(&mut words) {
        *word = word_at(cell, 0);
    }
    if !rest.is_empty() {
        let (rest, word) = (rest.iter().rev(), words.next());
        *word.expect("a word for each 8 bytes") =
            rest.fold(0, |word, &byte| word << 8 | u64::from(byte));
    }
    words.for_each(|word| *word = 0);
    drop_first::<REQUEST>(&mut queue[REQUESTS..RESPONSES], requests);
    queue[0] = requests as u64 - 1;
    queue[1] = responses as u64 + 1;
    OK
}

/// The rows after the first move up, and the place that is freed is zeroed.
#[inline]
fn drop_first<const WIDTH: usize>(rows: &mut [u64], count: usize) {
    let rows = &mut rows[..WIDTH * count];
    if count > 1 {
        rows.copy_within(WIDTH.., 0);
    }
    let freed = WIDTH * (count - 1);
    rows[freed..freed + WIDTH].fill(0);
}

/// `pbeam_oldest`.
#[inline(never)]
pub fn oldest(queue: &QueueImage, request: &mut RequestImage) -> usize {
    match count(queue[0]) {
        0 => {
            *request = [0; REQUEST];
            0
        }
        waiting => {
            request.copy_from_slice(&queue[REQUESTS..REQUESTS + REQUEST]);
            waiting
        }
    }
}
