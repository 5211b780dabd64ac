//! The exports for state blobs against the reference, on valid, damaged and random messages and collectors: each answer, each lent byte and
//! word is compared, and the guards around them. Then the repository's run vectors through both. The seeds are fixed;
//! POTTERBEAM_CALLS is how many calls each export gets at least.

use potterbeam_tests::random::Random;
use potterbeam_tests::swtpm::{CollectorImage, Library, Model, Parts, StateBlobs};
use std::collections::BTreeMap;
use std::convert::TryInto;
use std::fmt::Write;
use std::path::Path;

const GUARD: usize = 16;
const ROOM: usize = 300;

fn calls() -> u64 {
    match std::env::var("POTTERBEAM_CALLS") {
        Ok(text) => text.parse().expect("POTTERBEAM_CALLS is a number"),
        Err(_) => 20_000,
    }
}

// ---- The two sides ----

/// All that a call is lent, with guards around it.
#[derive(Clone, Debug, PartialEq)]
struct Memory {
    collector: [u32; 5],
    parts: [u32; 6],
    len: [usize; 3],
    buffer: Vec<u8>,
}

impl Memory {
    fn new(random: &mut Random) -> Memory {
        Memory {
            collector: [7, 0, 0, 0, 9],
            parts: [(); 6].map(|()| random.word() as u32),
            len: [(); 3].map(|()| random.word() as usize),
            buffer: random.bytes(ROOM + 2 * GUARD),
        }
    }

    fn collector(&mut self) -> &mut CollectorImage {
        (&mut self.collector[1..4]).try_into().expect("three words")
    }

    fn parts(&mut self) -> &mut Parts {
        (&mut self.parts[1..5]).try_into().expect("four words")
    }
}

/// A call with its arguments.
#[derive(Clone, Debug)]
enum Call {
    ReadRequest {
        message: Vec<u8>,
        code: u32,
    },
    ReadResponse {
        message: Vec<u8>,
        largest: u32,
    },
    Collect {
        message: Vec<u8>,
        largest: u32,
        room: usize,
    },
    WriteRequest {
        parts: Parts,
        room: usize,
    },
    WriteResponse {
        largest: u32,
        numbers: [u32; 3],
        data: Vec<u8>,
        room: usize,
    },
}

fn make<S: StateBlobs>(call: &Call, memory: &mut Memory) -> u32 {
    match call {
        Call::ReadRequest { message, code } => S::read_request(message, *code, memory.parts()),
        Call::ReadResponse { message, largest } => {
            S::read_response(message, *largest, memory.parts())
        }
        Call::Collect {
            message,
            largest,
            room,
        } => {
            let mut collector = *memory.collector();
            let lent = &mut memory.buffer[GUARD..GUARD + room];
            let answer = S::collect(&mut collector, message, *largest, lent);
            *memory.collector() = collector;
            answer
        }
        Call::WriteRequest { parts, room } => {
            let lent = &mut memory.buffer[GUARD..GUARD + room];
            S::write_request(lent, *parts, &mut memory.len[1])
        }
        Call::WriteResponse {
            largest,
            numbers,
            data,
            room,
        } => {
            let lent = &mut memory.buffer[GUARD..GUARD + room];
            S::write_response(lent, *largest, *numbers, data, &mut memory.len[1])
        }
    }
}

fn name_of(call: &Call) -> &'static str {
    match call {
        Call::ReadRequest { .. } => "read_request",
        Call::ReadResponse { .. } => "read_response",
        Call::Collect { .. } => "collect",
        Call::WriteRequest { .. } => "write_request",
        Call::WriteResponse { .. } => "write_response",
    }
}

struct Pair {
    library: Memory,
    model: Memory,
    met: BTreeMap<(&'static str, u32), u64>,
}

impl Pair {
    fn new(random: &mut Random) -> Pair {
        let model = Memory::new(random);
        Pair {
            library: model.clone(),
            model,
            met: BTreeMap::new(),
        }
    }

    fn load(&mut self, collector: CollectorImage) {
        *self.model.collector() = collector;
        *self.library.collector() = collector;
    }

    fn check(&mut self, call: &Call) -> u32 {
        let before = self.model.clone();
        let ours = make::<Library>(call, &mut self.library);
        let expected = make::<Model>(call, &mut self.model);
        let (library, model) = (&mut self.library, &mut self.model);
        assert_eq!(ours, expected, "{call:x?}\nbefore: {before:x?}");
        assert_eq!(library, model, "{call:x?}\nbefore: {before:x?}");
        let images = (*library.collector(), *model.collector());
        assert_eq!(Library::complete(&images.0), Model::complete(&images.1));
        assert_eq!(Library::held(&images.0), Model::held(&images.1));
        if ours != 0 {
            assert_eq!(*library, before, "refused, but changed: {call:x?}");
        }
        *self.met.entry((name_of(call), ours)).or_insert(0) += 1;
        ours
    }

    /// Fails unless exactly these answers were met, each of them often.
    fn expect(&self, name: &'static str, answers: &[u32]) {
        let met = self.met.iter().filter(|((n, _), _)| *n == name);
        let total: u64 = met.clone().map(|(_, n)| n).sum();
        let found: Vec<_> = met.clone().map(|((_, answer), _)| *answer).collect();
        assert_eq!(found, answers, "{name}");
        for ((_, answer), n) in met {
            assert!(
                *n >= (total / 2_000).max(10),
                "{name} with {answer}: {n} times"
            );
        }
        eprintln!("{name:<18} {total:>10} calls, all the same");
    }
}

// ---- What the calls are made with ----

fn response(numbers: [u32; 3], length: u32, data: &[u8]) -> Vec<u8> {
    let [result, flags, total] = numbers;
    let head = [result, flags, total, length].map(u32::to_be_bytes);
    [&head.concat()[..], data].concat()
}

/// Some damage to a message: a bit, the length, a number of the head.
fn damage(random: &mut Random, message: &mut Vec<u8>) {
    match random.below(6) {
        0 if !message.is_empty() => {
            let at = random.index(message.len());
            message[at] ^= 1 << random.below(8);
        }
        1 => message.truncate(random.index(message.len() + 1)),
        2 => {
            let more = random.between(1, 20) as usize;
            message.extend(random.bytes(more));
        }
        3 if message.len() >= 16 => {
            let length = message.len() as u32 - 16;
            let near = length.wrapping_add(random.pick(&[1, u32::MAX, 1 << 24, 1 << 31]));
            message[12..16].copy_from_slice(&near.to_be_bytes());
        }
        4 if message.len() >= 16 => {
            // The head's numbers with the lowest byte first.
            message[..16].chunks_mut(4).for_each(<[u8]>::reverse);
        }
        _ => message[..]
            .iter_mut()
            .take(4)
            .for_each(|byte| *byte = byte.wrapping_add(1)),
    }
}

/// A number near the edges of what is held, or of any width.
fn near(random: &mut Random, around: u64) -> u32 {
    match random.below(5) {
        0 => random.edge() as u32,
        1 => u32::MAX - random.below(20) as u32,
        _ => (around + random.below(3)).saturating_sub(1) as u32,
    }
}

fn request_call(random: &mut Random) -> Call {
    let code = random.pick(&[0, 12, 0x0102_0304, u32::MAX]);
    let mut message = [code, 1, 2, random.word() as u32]
        .map(u32::to_be_bytes)
        .concat();
    if random.one_in(2) {
        damage(random, &mut message);
    }
    Call::ReadRequest { message, code }
}

fn response_message(random: &mut Random, total: u32, longest: usize) -> Vec<u8> {
    let n = random.index(longest + 1);
    let data = random.bytes(n);
    let mut message = response([0, random.word() as u32, total], n as u32, &data);
    if random.one_in(3) {
        damage(random, &mut message);
    }
    message
}

fn largest(random: &mut Random, message: &[u8]) -> u32 {
    if random.one_in(2) {
        return u32::MAX;
    }
    near(random, message.len().saturating_sub(16) as u64)
}

fn write_call(random: &mut Random) -> Call {
    let n = random.index(60);
    let room = (n + random.index(40)).min(ROOM);
    if random.one_in(2) {
        let parts = [(); 4].map(|()| random.word() as u32);
        return Call::WriteRequest {
            parts,
            room: room.min(30),
        };
    }
    Call::WriteResponse {
        largest: near(random, n as u64),
        numbers: [(); 3].map(|()| random.word() as u32),
        data: random.bytes(n),
        room,
    }
}

#[test]
fn messages_are_the_same() {
    let mut random = Random::new(13);
    let mut pair = Pair::new(&mut random);
    for _ in 0..calls() {
        pair.check(&request_call(&mut random));
        let total = random.word() as u32;
        let message = response_message(&mut random, total, 50);
        let largest = largest(&mut random, &message);
        pair.check(&Call::ReadResponse { message, largest });
        pair.check(&write_call(&mut random));
        pair.check(&write_call(&mut random));
    }
    pair.expect("read_request", &[0, 1, 2, 3]);
    pair.expect("read_response", &[0, 1, 2, 4, 5]);
    pair.expect("write_request", &[0, 6]);
    pair.expect("write_response", &[0, 4, 6]);
}

/// The next piece of a blob, or a response that must be refused: of another total, with too much data, or damaged.
fn next_message(random: &mut Random, blob: &[u8], accepted: bool, held: usize) -> Vec<u8> {
    let (size, left) = (blob.len(), blob.len() - held);
    let n = random.index(left + 1).min(random.index(80) + 1);
    let mut message = response([0, 0, size as u32], n as u32, &blob[held..held + n]);
    match random.below(8) {
        // Too much data as well: the total answers first.
        0 if accepted => return response([0, 0, size as u32 + 1], 400, &random.bytes(400)),
        1 => {
            let more = random.bytes(left + 1);
            return response([0, 0, size as u32], more.len() as u32, &more);
        }
        2 => damage(random, &mut message),
        _ => return message,
    }
    // Damage that the reader does not see would spoil the blob.
    if Model::read_response(&message, u32::MAX, &mut [0; 4]) == 0 {
        message.clear();
    }
    message
}

/// Collections of one blob in pieces of any size, with refusals and shorter buffers in between: what is held is the blob's beginning.
#[test]
fn collections_are_the_same() {
    let mut random = Random::new(14);
    let mut pair = Pair::new(&mut random);
    let mut whole = 0;
    for _ in 0..calls() / 10 {
        let size = random.index(ROOM + 1);
        let blob = random.bytes(size);
        pair.load([0; 3]);
        for _ in 0..12 {
            let [accepted, _, held] = *pair.model.collector();
            let message = next_message(&mut random, &blob, accepted != 0, held as usize);
            let short = random.index(ROOM);
            let room = random.pick(&[ROOM, ROOM, ROOM, ROOM, short]);
            let largest = random.pick(&[u32::MAX, u32::MAX, u32::MAX, 400, 20]);
            pair.check(&Call::Collect {
                message,
                largest,
                room,
            });
        }
        let [_, _, held] = *pair.library.collector();
        let held = held as usize;
        assert_eq!(pair.library.buffer[GUARD..GUARD + held], blob[..held]);
        if Library::complete(pair.library.collector()) {
            assert_eq!(held, size);
            whole += 1;
        }
    }
    pair.expect("collect", &[0, 1, 2, 4, 5, 7, 8, 9, 10]);
    assert!(whole > calls() / 100, "only {whole} blobs were collected");
}

#[test]
fn forged_collectors_are_the_same() {
    let mut random = Random::new(15);
    let mut pair = Pair::new(&mut random);
    for _ in 0..calls() {
        let held = random.index(100) as u64;
        let total = near(&mut random, held + 20);
        let held = near(&mut random, held);
        let accepted = random.pick(&[0, 1, 1, 2, u32::MAX]);
        pair.load([accepted, total, held]);
        let told = if random.one_in(4) {
            near(&mut random, 60)
        } else {
            total
        };
        let message = response_message(&mut random, told, 40);
        let largest = largest(&mut random, &message);
        let any = random.index(ROOM);
        let room = random.pick(&[ROOM, (held as usize).min(ROOM), any]);
        pair.check(&Call::Collect {
            message,
            largest,
            room,
        });
    }
    pair.expect("collect", &[0, 1, 2, 4, 5, 7, 8, 9, 10]);
}

/// A blob of 3 MB in pieces of some 70,000 bytes.
#[test]
fn large_blob() {
    let mut random = Random::new(16);
    let blob = random.bytes(3_000_000);
    let (mut collector, mut buffer) = ([0; 3], vec![0; blob.len()]);
    while !Library::complete(&collector) {
        let held = Library::held(&collector) as usize;
        let end = blob.len().min(held + 60_000 + random.index(20_000));
        let data = &blob[held..end];
        let message = response([0, 0, blob.len() as u32], data.len() as u32, data);
        assert_eq!(
            Library::collect(&mut collector, &message, 80_000, &mut buffer),
            0
        );
    }
    assert!(buffer == blob);
}

// ---- The run vectors ----

fn word(call: &[u8], i: usize) -> u64 {
    u64::from_le_bytes(call[8 * i..8 * i + 8].try_into().expect("8 bytes"))
}

/// Makes a case's call; `None` if it only sets the collector and the buffer.
fn case_call(call: &[u8]) -> Option<Call> {
    let [a, b, c, d] = [1, 2, 3, 4].map(|i| word(call, i) as u32);
    let room = word(call, 5) as usize;
    let message = call[64..64 + word(call, 6) as usize].to_vec();
    Some(match word(call, 0) {
        0 => return None,
        1 => Call::ReadRequest { message, code: a },
        2 => Call::ReadResponse {
            message,
            largest: a,
        },
        3 => Call::Collect {
            message,
            largest: a,
            room,
        },
        4 => Call::WriteRequest {
            parts: [a, b, c, d],
            room,
        },
        _ => Call::WriteResponse {
            largest: a,
            numbers: [b, c, d],
            data: message,
            room,
        },
    })
}

fn hex(words: &[u32]) -> String {
    let words: Vec<_> = words.iter().map(|word| format!("{word:08x}")).collect();
    words.join(" ")
}

fn case_text<S: StateBlobs>(out: &mut String, call: &[u8], memory: &mut Memory) {
    let expected = &call[160..256];
    let made = match case_call(call) {
        Some(made) => made,
        None => {
            *memory.collector() = [1, 2, 3].map(|i| word(call, i) as u32);
            memory.buffer[GUARD..GUARD + 96].copy_from_slice(expected);
            return;
        }
    };
    let answer = make::<S>(&made, memory);
    let collector = *memory.collector();
    let complete = if S::complete(&collector) {
        " complete"
    } else {
        ""
    };
    assert_eq!(&memory.buffer[GUARD..GUARD + 96], expected);
    writeln!(
        out,
        "answer {answer:08x} collector {} held {:08x}{complete} parts {} length {} buffer as expected",
        hex(&collector),
        S::held(&collector),
        hex(memory.parts()),
        memory.len[1]
    )
    .expect("text");
}

fn compare_vectors<S: StateBlobs>(side: &str) {
    let place = Path::new(env!("CARGO_MANIFEST_DIR")).join("../crates/state_blobs_vectors");
    let (mut out, mut n) = (String::new(), 0);
    while let Ok(input) = std::fs::read(place.join(format!("data/c{n:03}"))) {
        writeln!(out, "case {n:03}").expect("text");
        let mut memory = Memory {
            collector: [0; 5],
            parts: [0; 6],
            len: [0; 3],
            buffer: vec![0; ROOM + 2 * GUARD],
        };
        input
            .chunks_exact(256)
            .for_each(|call| case_text::<S>(&mut out, call, &mut memory));
        n += 1;
    }
    assert!(n >= 100, "only {n} cases");
    let expected = std::fs::read_to_string(place.join("stdout")).expect("expected text");
    assert!(out == expected, "the {side} prints another text");
}

#[test]
fn vectors() {
    compare_vectors::<Library>("library");
    compare_vectors::<Model>("reference");
}
