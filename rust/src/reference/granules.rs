//! Delegate and undelegate, of one granule and over lists, with a table of one byte per granule and words of one bit per granule.

use super::banks::{index, BankWords};
use super::boot::Record;
use super::codes::{need_up, Error, Outcome};
use super::realm_words::{need_fit, put};

const NON_SECURE: u8 = 0;
const REALM: u8 = 1;

/// From Non-secure to Realm. The table is the granules of the banks, joined in bank order.
#[inline]
pub fn delegate(
    record: Record,
    banks: &BankWords,
    table: &mut [u8],
    words: &mut [u64],
    address: u64,
) -> Outcome {
    need_fit(banks, words)?;
    change(record, banks, table, words, address, NON_SECURE, REALM)
}

/// From Realm to Non-secure; the shared page is refused.
#[inline]
pub fn undelegate(
    record: Record,
    banks: &BankWords,
    table: &mut [u8],
    words: &mut [u64],
    address: u64,
) -> Outcome {
    need_fit(banks, words)?;
    change(record, banks, table, words, address, REALM, NON_SECURE)
}

/// How a list ended: the number of granules done, and the code of the one that was refused.
pub type Listed = (u64, Result<(), Error>);

/// From Non-secure to Realm, each address in its turn, up to the first that is refused.
pub fn delegate_list(
    record: Record,
    banks: &BankWords,
    table: &mut [u8],
    words: &mut [u64],
    addresses: &[u64],
) -> Listed {
    if let Err(error) = need_fit(banks, words) {
        return (0, Err(error));
    }
    in_turn(addresses, |address| {
        delegate(record, banks, table, words, address)
    })
}

/// From Realm to Non-secure, in the same way.
pub fn undelegate_list(
    record: Record,
    banks: &BankWords,
    table: &mut [u8],
    words: &mut [u64],
    addresses: &[u64],
) -> Listed {
    if let Err(error) = need_fit(banks, words) {
        return (0, Err(error));
    }
    in_turn(addresses, |address| {
        undelegate(record, banks, table, words, address)
    })
}

fn in_turn(addresses: &[u64], mut one: impl FnMut(u64) -> Outcome) -> Listed {
    let mut done = 0;
    for &address in addresses {
        if let Err(error) = one(address) {
            return (done, Err(error));
        }
        done += 1;
    }
    (done, Ok(()))
}

#[inline]
fn change(
    record: Record,
    banks: &BankWords,
    table: &mut [u8],
    words: &mut [u64],
    address: u64,
    from: u8,
    to: u8,
) -> Outcome {
    let kept = need_up(record)?;
    let at = index(banks, table.len(), address).ok_or(Error::BadAddr)?;
    // The shared page stays Realm.
    if from == REALM && address == kept.base {
        return Err(Error::BadAddr);
    }
    let state = &mut table[at];
    if *state != from {
        return Err(Error::BadPas);
    }
    *state = to;
    put(words, at, to == REALM);
    Ok([0, 0])
}
