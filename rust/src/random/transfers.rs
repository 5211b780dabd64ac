//! Calls of H_TPM_COMM: most of them near an edge of a rule.

use super::Random;
use crate::reference::tpm::{Transfer, CLOSE, EXECUTE, TRANSFER};

/// The length of a guest memory.
pub fn memory_length(random: &mut Random) -> usize {
    match random.below(8) {
        0 => random.pick(&[0, 1, 4095, 4096, 4097, 65536]),
        1 => random.index(4200),
        _ => 4096 + random.index(12_000),
    }
}

/// A session's word, forged ones among them.
pub fn session(random: &mut Random) -> u64 {
    match random.below(4) {
        0 => random.edge(),
        n => n % 2,
    }
}

/// A flag of the platform, as a number.
pub fn flag(random: &mut Random, one_in: u64) -> u64 {
    if random.one_in(one_in) {
        random.edge().max(1)
    } else {
        0
    }
}

fn operation(random: &mut Random) -> u64 {
    match random.below(16) {
        0 => random.edge(),
        1 => random.pick(&[EXECUTE, CLOSE]) + (1 << random.between(8, 63)),
        2..=4 => CLOSE,
        _ => EXECUTE,
    }
}

/// Start and size of a buffer, inside the memory if it fits, then perhaps moved by a little or by much.
fn buffer(random: &mut Random, end: u64, least: u64, most: u64) -> (u64, u64) {
    let size = random.between(least.min(most), most);
    let start = match random.below(4) {
        0 => end.saturating_sub(size),
        _ => random.below(end.saturating_sub(size) + 1),
    };
    match random.below(12) {
        0 => (random.edge(), size),
        1 => (start, random.edge()),
        2 => (end.wrapping_sub(random.below(3)), size),
        3 => (end.wrapping_sub(size).wrapping_add(random.below(3)), size),
        4 => (start, random.pick(&[0, 1, 4095, 4096, 4097])),
        5 => (start, start.wrapping_neg().wrapping_add(random.below(4097))),
        _ => (start, size),
    }
}

/// A call in a memory of `end` bytes.
pub fn transfer(random: &mut Random, end: usize) -> Transfer {
    let end = end as u64;
    let (in_buffer, in_size) = buffer(random, end, 0, TRANSFER.min(end));
    let (out_buffer, out_size) = buffer(random, end, TRANSFER, end.max(TRANSFER));
    Transfer {
        operation: operation(random),
        in_buffer,
        in_size,
        // A guest may use one address for both.
        out_buffer: if random.one_in(6) {
            in_buffer
        } else {
            out_buffer
        },
        out_size,
    }
}

/// The length of a response to a call.
pub fn response_length(random: &mut Random, asked: &Transfer) -> usize {
    let room = asked.out_size.min(70_000);
    let length = match random.below(8) {
        0 => room + random.below(3),
        1 => room.saturating_sub(random.below(2)),
        2 => random.pick(&[0, 1, 4096, 4097]),
        _ => random.below(room.min(5000) + 1),
    };
    length as usize
}
