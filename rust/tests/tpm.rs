//! H_TPM_COMM of the library against the reference, on valid, damaged and random calls, one after the other on one memory and
//! session: r3, r4, the session's word, the request's place and every byte of memory and response are compared, and guards around
//! the memory. The seed is fixed. A difference is reported with the whole call.
//!
//! POTTERBEAM_CALLS is how many calls are made at least, as for the other differential test.

use potterbeam_tests::random::{transfers, Random};
use potterbeam_tests::reference::tpm::Transfer;
use potterbeam_tests::tpm::{Said, Tpm, TpmExports, TpmModel};
use std::collections::BTreeMap;
use std::fmt::Write as _;
use std::io::Write as _;
use std::path::Path;

/// Calls in the short run.
const CALLS: u64 = 100_000;
const GUARD: usize = 64;
/// The initial value of a word that a call must write.
const STALE: u64 = 0x57A1_E57A_1E57_A1E5;

fn calls() -> u64 {
    match std::env::var("POTTERBEAM_CALLS") {
        Ok(text) => text.parse().expect("POTTERBEAM_CALLS is a number"),
        Err(_) => CALLS,
    }
}

/// All that a call may write, and what must stay around it.
#[derive(Clone, Debug, PartialEq, Eq)]
struct Lent {
    cells: Vec<u8>,
    start: usize,
    length: usize,
    session: [u64; 3],
    r4: [u64; 3],
    place: [u64; 2],
    r3: i64,
}

impl Lent {
    fn new(random: &mut Random) -> Lent {
        let start = GUARD + random.index(16);
        let length = transfers::memory_length(random);
        Lent {
            cells: random.bytes(start + length + GUARD),
            start,
            length,
            session: [STALE, transfers::session(random), STALE],
            r4: [STALE; 3],
            place: [STALE; 2],
            r3: 1,
        }
    }

    fn call<S: TpmExports>(&mut self, asked: &Transfer, said: Said) {
        let memory = &mut self.cells[self.start..self.start + self.length];
        self.r4[1] = STALE;
        self.place = [STALE; 2];
        S::request(asked, memory, said.forbidden, &mut self.place);
        self.r3 = S::comm(&mut self.session[1], asked, memory, said, &mut self.r4[1]);
    }
}

/// The first byte in which two memories differ, and every word.
fn report(ours: &Lent, theirs: &Lent) -> String {
    let mut text = String::new();
    for (name, side) in [("library", ours), ("reference", theirs)] {
        let (r3, r4, session, place) = (side.r3, side.r4, side.session, side.place);
        writeln!(
            text,
            "{name}: r3 {r3} r4 {r4:x?} session {session:x?} place {place:x?}"
        )
        .unwrap();
    }
    let differs = |i: &usize| ours.cells[*i] != theirs.cells[*i];
    if let Some(i) = (0..ours.cells.len()).find(differs) {
        writeln!(
            text,
            "byte {} of the memory differs",
            i as isize - ours.start as isize
        )
        .unwrap();
    }
    text
}

/// One call on each side, compared; returns r3.
fn compare<S: TpmExports, T: TpmExports>(
    ours: &mut Lent,
    theirs: &mut Lent,
    asked: &Transfer,
    said: Said,
) -> i64 {
    let response = said.response.to_vec();
    ours.call::<S>(asked, said);
    theirs.call::<T>(asked, said);
    if ours != theirs || said.response != response {
        let (forbidden, fault, length) = (said.forbidden, said.fault, response.len());
        let lent = ours.length;
        panic!(
            "{asked:x?} in {lent} bytes, forbidden {forbidden:x}, fault {fault:x}, response of {length}\n{}",
            report(ours, theirs)
        );
    }
    ours.r3
}

fn run<S: TpmExports, T: TpmExports>(least: u64) -> BTreeMap<i64, u64> {
    let mut random = Random::new(0xEF10);
    let mut met = BTreeMap::new();
    let mut made = 0;
    while made < least {
        let mut ours = Lent::new(&mut random);
        let mut theirs = ours.clone();
        for _ in 0..random.between(1, 12) {
            let asked = transfers::transfer(&mut random, ours.length);
            let length = transfers::response_length(&mut random, &asked);
            let response = random.bytes(length);
            let said = Said {
                forbidden: transfers::flag(&mut random, 12),
                fault: transfers::flag(&mut random, 12),
                response: &response,
            };
            let r3 = compare::<S, T>(&mut ours, &mut theirs, &asked, said);
            *met.entry(r3).or_insert(0) += 1;
            made += 1;
        }
    }
    met
}

#[test]
fn library_and_reference_agree() {
    let met = run::<Tpm, TpmModel>(calls());
    let all: Vec<_> = met.keys().copied().collect();
    assert_eq!(all, [-58, -57, -56, -55, -16, -4, -2, 0]);
    let made: u64 = met.values().sum();
    for (r3, n) in &met {
        assert!(*n >= made / 200, "{r3}: {n} times");
    }
    let line = format!("pbeam_tpm_comm     {made:>10} calls, all the same: {met:?}\n");
    std::io::stderr()
        .write_all(line.as_bytes())
        .expect("stderr");
}

// ---- The comparison can fail ----

/// A library that is wrong in one way, by this number.
struct Wrong<const HOW: u8>;

impl<const HOW: u8> TpmExports for Wrong<HOW> {
    fn comm(
        session: &mut u64,
        asked: &Transfer,
        memory: &mut [u8],
        said: Said,
        r4: &mut u64,
    ) -> i64 {
        let before = *session;
        let mut r3 = TpmModel::comm(session, asked, memory, said, r4);
        match HOW {
            0 if r3 == -57 => r3 = -58,
            1 if r3 != 0 => *session = u64::from(before != 0),
            2 if r3 == -16 => *session = 1,
            3 if r3 == 0 => *r4 += 1,
            4 if r3 == 0 && !memory.is_empty() => memory[memory.len() - 1] ^= 1,
            5 if r3 == -16 => *r4 = STALE,
            _ => {}
        }
        r3
    }

    fn request(asked: &Transfer, memory: &[u8], forbidden: u64, place: &mut [u64; 2]) {
        TpmModel::request(asked, memory, forbidden, place);
        if HOW == 6 && place[1] == 0 {
            place[0] = asked.in_buffer;
        }
    }
}

fn is_reported<const HOW: u8>() {
    let caught = std::panic::catch_unwind(|| run::<Wrong<HOW>, TpmModel>(2_000));
    assert!(caught.is_err(), "wrong answer {HOW} was not reported");
}

#[test]
fn wrong_answers_are_reported() {
    is_reported::<0>();
    is_reported::<1>();
    is_reported::<2>();
    is_reported::<3>();
    is_reported::<4>();
    is_reported::<5>();
    is_reported::<6>();
}

// ---- The run vectors, through library and reference ----

fn word_at(bytes: &[u8], at: usize) -> u64 {
    u64::from_le_bytes(bytes[at..at + 8].try_into().expect("eight bytes"))
}

fn seeded(length: u64, seed: u64) -> Vec<u8> {
    let mut x = seed % 65521;
    let next = |_| {
        x = (x * 171 + 11213) % 65521;
        x as u8
    };
    (0..length).map(next).collect()
}

/// FNV-1a.
fn digest(bytes: &[u8]) -> u64 {
    bytes.iter().fold(0xCBF2_9CE4_8422_2325, |x: u64, &byte| {
        (x ^ u64::from(byte)).wrapping_mul(0x100_0000_01B3)
    })
}

fn print_case<S: TpmExports>(out: &mut String, case: &[u8]) {
    let mut memory = seeded(word_at(case, 0), word_at(case, 8));
    let mut session = word_at(case, 16);
    for call in case[24..].chunks_exact(72) {
        let asked = Transfer {
            operation: word_at(call, 0),
            in_buffer: word_at(call, 8),
            in_size: word_at(call, 16),
            out_buffer: word_at(call, 24),
            out_size: word_at(call, 32),
        };
        let response = seeded(word_at(call, 40), word_at(call, 48));
        let (forbidden, fault) = (word_at(call, 56), word_at(call, 64));
        let said = Said {
            forbidden,
            fault,
            response: &response,
        };
        let (mut place, mut r4) = ([STALE; 2], STALE);
        S::request(&asked, &memory, forbidden, &mut place);
        let request = digest(&memory[place[0] as usize..][..place[1] as usize]);
        let r3 = -S::comm(&mut session, &asked, &mut memory, said, &mut r4);
        let held = digest(&memory);
        let [at, length] = place;
        writeln!(out, "request {at:x} {length:x} {request:x} r3 -{r3} r4 {r4:x} session {session} memory {held:x}").unwrap();
    }
}

fn print_cases<S: TpmExports>(place: &Path) -> String {
    let (mut out, mut count) = (String::new(), 0);
    while let Ok(case) = std::fs::read(place.join(format!("data/c{count:03}"))) {
        writeln!(out, "case {count:03}").unwrap();
        print_case::<S>(&mut out, &case);
        count += 1;
    }
    assert!(count >= 19, "only {count} cases");
    out
}

#[test]
fn vectors() {
    let place = Path::new(env!("CARGO_MANIFEST_DIR")).join("../crates/tpm_vectors");
    let expected = std::fs::read_to_string(place.join("stdout")).expect("expected text");
    for (side, printed) in [
        ("library", print_cases::<Tpm>(&place)),
        ("reference", print_cases::<TpmModel>(&place)),
    ] {
        for (n, (ours, theirs)) in printed.lines().zip(expected.lines()).enumerate() {
            assert_eq!(ours, theirs, "{side}, line {}", n + 1);
        }
        assert_eq!(printed, expected, "{side}");
    }
}
