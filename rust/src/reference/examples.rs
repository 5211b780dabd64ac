//! The numbered examples of 01.

use super::banks::set_up;
use super::boot::{boot_code, Kept, Record};
use super::codes::{buffer, Answer, Error};
use super::entries::bank_sum;
use super::features::key_update;
use super::granules::delegate;
use super::layout::{accepted_minor, word_at, PAGE};
use super::listing::list_input;
use super::token::{Session, TokenCall};
use super::writer::{write, Unwritten};

const BASE: u64 = 0x8000_0000;
const BANK: [u64; 2] = [0x9000_0000, 0x1000_0000];
const CONSOLE: [u64; 6] = [0x1c0c_0000, 1, 0, 0, 0, 0];
const UP: Kept = Kept {
    cpus: 8,
    base: BASE,
    minor: 5,
    kept: 0,
};

/// What the writer returns for `banks` banks and `consoles` consoles.
fn written(edition: u64, banks: usize, consoles: usize) -> Result<(), Unwritten> {
    let lists: [&[u64]; 4] = [&BANK.repeat(banks), &CONSOLE.repeat(consoles), &[], &[]];
    write(BASE, edition, lists, &[], &mut [0; PAGE])
}

#[test]
fn example_1_a_version_is_a_number() {
    assert!(accepted_minor(0xA) > accepted_minor(0x9));
}

#[test]
fn examples_2_and_3_versions_refused() {
    assert_eq!(accepted_minor(0x8000_0005), None);
    assert_eq!(accepted_minor(0x0001_0000), None);
}

#[test]
fn example_4_checksum() {
    let mut page = [0xff; PAGE];
    write(BASE, 2, [&BANK, &[], &[], &[]], &[], &mut page).expect("written");
    assert_eq!(word_at(&page, 16), 1);
    assert_eq!(word_at(&page, 24), 0x8000_0028);
    assert_eq!(word_at(&page, 32), 0xFFFF_FFFE_DFFF_FFD7);
    let sum = bank_sum([BANK].into_iter()).expect("sound");
    assert_eq!(
        sum.wrapping_add(1 + 0x8000_0028).wrapping_neg(),
        word_at(&page, 32)
    );
}

#[test]
fn examples_5_and_6_what_fits() {
    assert_eq!(written(4, 249, 0), Ok(()));
    assert_eq!(written(4, 250, 0), Err(Unwritten::Room));
    assert_eq!(written(4, 0, 83), Ok(()));
    assert_eq!(written(4, 0, 84), Err(Unwritten::Room));
    assert_eq!(written(3, 0, 84), Ok(()));
}

#[test]
fn examples_7_and_8_range() {
    assert_eq!(buffer(UP, BASE + 4095, 1), Ok(4095..4096));
    assert_eq!(buffer(UP, BASE + 4095, 2), Err(Error::Inval));
    assert_eq!(buffer(UP, BASE + 4096, 0), Err(Error::BadAddr));
    let kept = |kept| Kept { kept, ..UP };
    assert_eq!(buffer(kept(4095), BASE + 4095, 1), Ok(4095..4096));
    assert_eq!(buffer(kept(4096), BASE + 4095, 1), Err(Error::BadAddr));
}

#[test]
fn example_9_sign_extension() {
    assert_eq!(Answer::from(Err(Error::BadAddr)).x0, 0xFFFF_FFFF_FFFF_FFFE);
}

#[test]
fn example_10_delegating_a_realm_granule() {
    let banks = set_up(&[[0; 8], 4096u64.to_le_bytes()].concat(), 1).expect("a bank at 0");
    assert_eq!(
        delegate(Record::Up(UP), &banks, &mut [1], &mut [1], 0),
        Err(Error::BadPas)
    );
}

#[test]
fn example_11_mecid_width() {
    assert_eq!(key_update(Record::Up(UP), 7, 255), Ok(255));
    assert_eq!(key_update(Record::Up(UP), 7, 256), Err(Error::Inval));
}

#[test]
fn example_12_hunks_of_a_token() {
    let token: Vec<u8> = (0..100).collect();
    let mut page = [0; PAGE];
    let mut session = Session::Idle;
    let mut send = |c_size| {
        let (pa, size) = (BASE, 64);
        let call = TokenCall { pa, size, c_size };
        let outcome = session.send(Record::Up(UP), &mut page, false, &token, call);
        (outcome, session, page[..64].to_vec())
    };
    let (outcome, _, bytes) = send(48);
    assert_eq!(outcome, Ok([64, 36]));
    assert_eq!(bytes, token[..64]);
    let (outcome, session, bytes) = send(0);
    assert_eq!(outcome, Ok([36, 0]));
    assert_eq!(bytes[..36], token[64..]);
    assert_eq!(session, Session::Idle);
}

#[test]
fn example_13_no_cpu() {
    for x0 in [0, 1, u64::MAX] {
        let (record, answer) = Record::Fresh.cold([x0, 5, 0, BASE], 8, 0, &[]);
        assert_eq!((record, boot_code(answer)), (Record::Closed, -4));
    }
}

#[test]
fn example_14_listing() {
    let mut page = [0; PAGE];
    write(BASE, 2, [&BANK, &[], &[], &[]], &[], &mut page).expect("written");
    let mut out = String::new();
    list_input(&mut out, &[&BASE.to_le_bytes()[..], &page].concat()).expect("text");
    assert_eq!(
        out,
        "manifest 0.2 read as 2\nplatform none\ndram 1\n0x0000000090000000 0x0000000010000000\n\
         console absent\nncoh absent\ncoh absent\n"
    );
}

#[test]
fn example_14_listing_of_another_length() {
    for length in [0, 7, 8, 4103, 4105] {
        let mut out = String::new();
        list_input(&mut out, &vec![0; length]).expect("text");
        assert_eq!(out, "refused -5\n");
    }
}
