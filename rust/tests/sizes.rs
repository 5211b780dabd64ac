//! CM2.1, CM3.1: single calls on tables of each size that matters, including 4,096 granules, which the vectors of single calls do not have:
//! by the exports and by `pbeam_call`, with the right number of words, one too few and one too many, with a record that is up and one that
//! is not. The expected answers are here; the model must agree.

use potterbeam_tests::exports::{Exports, GranulesImage, Lent, RecordImage, Registers};
use potterbeam_tests::kit::Kit;
use potterbeam_tests::model::Model;
use potterbeam_tests::reference::runtime::{DELEGATE, UNDELEGATE};

const BASE: u64 = 0x8_8000_0000;
const UP: RecordImage = [1, 8, 0x8000_0000, 5, 0];
const FRESH: RecordImage = [0; 5];
const OK: u64 = 0;
const UNK: u64 = -1i64 as u64;
const BAD_ADDR: u64 = -2i64 as u64;
const INVAL: u64 = -5i64 as u64;

/// Registers, table and words at exit.
type Exit = (Registers, Vec<u8>, Vec<u64>);

/// A record of one bank with n granules; one of no granule has no bank.
fn record(n: usize) -> GranulesImage {
    let mut words = [0; 33];
    words[..3].copy_from_slice(&[(n > 0) as u64, BASE, 4096 * n as u64]);
    words
}

fn single<S: Exports>(id: u64, state: &RecordImage, n: usize, words: usize, at: u64) -> Exit {
    let mut table = vec![(id == UNDELEGATE) as u8; n];
    let (mut words, mut out) = (vec![0x5555_5555_5555_5555; words], [u64::MAX; 3]);
    let (table_lent, words_lent) = (&mut table[..], &mut words[..]);
    match id {
        DELEGATE => S::delegate(state, &record(n), table_lent, words_lent, at, &mut out),
        _ => S::undelegate(state, &record(n), table_lent, words_lent, at, &mut out),
    }
    (out, table, words)
}

fn by_id<S: Exports>(id: u64, state: &RecordImage, n: usize, words: usize, at: u64) -> Exit {
    let mut table = vec![(id == UNDELEGATE) as u8; n];
    let (mut words, mut out) = (vec![0x5555_5555_5555_5555; words], [u64::MAX; 3]);
    let (mut session, mut queue, mut work, mut page) = ([0; 3], [0; 210], [9; 2], [0; 4096]);
    let mut lent = Lent {
        page: &mut page,
        granules: &record(n),
        table: &mut table,
        words: &mut words,
        key: &[],
        token: &[],
        busy: 0,
        public_key: &[],
        width: 15,
    };
    let x = [id, at, 0, 0, 0];
    S::call(
        state,
        &mut session,
        &mut queue,
        &mut lent,
        &x,
        &mut out,
        &mut work,
    );
    assert_eq!((work, session, queue), ([0; 2], [0; 3], [0; 210]));
    (out, table, words)
}

/// The granule's byte and bit moved, and nothing else.
fn expected(id: u64, n: usize, words: usize, at: usize, code: u64) -> Exit {
    let mut table = vec![(id == UNDELEGATE) as u8; n];
    let mut words = vec![0x5555_5555_5555_5555u64; words];
    if code == OK {
        table[at] = (id == DELEGATE) as u8;
        let bit = 1 << (at % 64);
        words[at / 64] = words[at / 64] & !bit | bit * u64::from(table[at]);
    }
    ([code, 0, 0], table, words)
}

#[test]
fn single_calls_of_each_size() {
    let mut seen = [0; 4];
    for n in [0usize, 1, 63, 64, 65, 127, 128, 4096] {
        let needed = (n + 63) / 64;
        for at in [0, n / 2, n.saturating_sub(1), n] {
            for words in needed.saturating_sub(1)..=needed + 1 {
                for (id, up) in [
                    (DELEGATE, true),
                    (DELEGATE, false),
                    (UNDELEGATE, true),
                    (UNDELEGATE, false),
                ] {
                    let code = match (words == needed, up, at < n) {
                        (false, _, _) => INVAL,
                        (true, false, _) => UNK,
                        (true, true, false) => BAD_ADDR,
                        (true, true, true) => OK,
                    };
                    let (state, address) = (if up { &UP } else { &FRESH }, BASE + 4096 * at as u64);
                    let exit = expected(id, n, words, at, code);
                    let said = (id, n, at, words, up);
                    assert_eq!(
                        single::<Kit>(id, state, n, words, address),
                        exit,
                        "{said:x?}"
                    );
                    assert_eq!(
                        single::<Model>(id, state, n, words, address),
                        exit,
                        "{said:x?}"
                    );
                    assert_eq!(
                        by_id::<Kit>(id, state, n, words, address),
                        exit,
                        "{said:x?}"
                    );
                    assert_eq!(
                        by_id::<Model>(id, state, n, words, address),
                        exit,
                        "{said:x?}"
                    );
                    seen[[OK, UNK, BAD_ADDR, INVAL]
                        .iter()
                        .position(|&k| k == code)
                        .unwrap()] += 1;
                }
            }
        }
    }
    assert!(seen.iter().all(|&count| count >= 10), "{seen:?}");
}
