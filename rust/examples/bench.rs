//! The proved library against hand-written Rust, in nanoseconds per call: `cargo run --offline --release --example bench`
//!
//! All sides are timed in turn, on pages of the same content and alignment, and the best of many short runs counts.
//!
//! - "hand-written": the fastest code that we could write, with the library's parameters, rules and images (`src/fast.rs`, `src/inplace.rs`);
//!   `tests/fast.rs` and `tests/inplace.rs` compare it with the reference.
//! - "hand-written, SSE2": the same, with copies of 16 bytes at a time, not the C library's.
//! - "native": the reference, whose states are Rust values.
//!
//! With `--write` it writes the table of docs/BENCHMARK.md. With `manifest`, `granules` or `commands` it times only these.

use potterbeam_tests::exports::{
    Exports, FieldImage, GranulesImage, QueueImage, RecordImage, Registers, SessionImage, Work,
};
use potterbeam_tests::fast;
use potterbeam_tests::images::record_of;
use potterbeam_tests::inplace;
use potterbeam_tests::kit::{ffi, Kit};
use potterbeam_tests::model::Model;
use potterbeam_tests::pages::PageExports;
use potterbeam_tests::random::Random;
use potterbeam_tests::reference::boot::Record;
use potterbeam_tests::reference::codes::Outcome;
use potterbeam_tests::reference::layout::{word_at, PAGE};
use potterbeam_tests::reference::queue::Queue;
use potterbeam_tests::reference::reader::read;
use potterbeam_tests::reference::runtime::{
    DELEGATE, FEATURES, KEY_UPDATE, PLAT_TOKEN, REALM_KEY, REQ_COMPLETE, TOKEN_SIGN, UNDELEGATE,
};
use potterbeam_tests::reference::signing::{token_sign, SignCall};
use potterbeam_tests::reference::state_blob::{
    write_response, Collector, Piece, Refusal, Request as StateRequest,
};
use potterbeam_tests::reference::token::{Session, TokenCall};
use potterbeam_tests::reference::tpm::Transfer;
use potterbeam_tests::reference::writer::{write, Lists};
use potterbeam_tests::swtpm::{Library, StateBlobs};
use potterbeam_tests::tpm::{Said, Tpm, TpmExports, TpmModel};
use std::sync::atomic::{AtomicU64, Ordering};
use std::sync::Mutex;
use std::time::{Duration, Instant};

const BASE: u64 = 0x8000_0000;
const BANK: [u64; 2] = [0x9000_0000, 0x1000_0000];
const CONSOLE: [u64; 6] = [0x1c0c_0000, 1, 0x7061_7274, 24_000_000, 115_200, 0];
/// Runs of each side, and how long one of them is to be.
const RUNS: usize = 1_000;
const RUN: Duration = Duration::from_micros(40);

/// A word of each result goes here, so that no call is left out or moved. `std::hint::black_box` came after Rust 1.63.
static SEEN: AtomicU64 = AtomicU64::new(0);

fn see(word: u64) {
    SEEN.store(word, Ordering::Relaxed);
}

/// The same words, hidden from the compiler, which would otherwise compile the reference for the arguments that it is timed with.
fn hidden<const N: usize>(words: [u64; N]) -> [u64; N] {
    words.map(|word| {
        see(word);
        SEEN.load(Ordering::Relaxed)
    })
}

/// A page at an aligned address, as hardware has it.
#[repr(align(4096))]
struct Page([u8; PAGE]);

impl Page {
    fn lent(&mut self) -> &mut [u8] {
        let [length] = hidden([PAGE as u64]);
        &mut self.0[..length as usize]
    }
}

/// A record that is up, as an image and as a value.
struct Up {
    image: RecordImage,
    record: Record,
}

impl Up {
    fn new() -> Up {
        let image = hidden([1, 8, BASE, 5, 0]);
        let record = record_of(&image);
        Up { image, record }
    }
}

// ---- Timing ----

/// One side: runs its body a number of times.
type Side<'a> = Box<dyn FnMut(u32) + 'a>;

fn side<'a>(mut body: impl FnMut() + 'a) -> Side<'a> {
    Box::new(move |times| (0..times).for_each(|_| body()))
}

fn timed(side: &mut Side, times: u32) -> Duration {
    let start = Instant::now();
    side(times);
    start.elapsed()
}

/// How often a body goes into one run.
fn times_of(side: &mut Side) -> u32 {
    let once = timed(side, 100).as_nanos().max(1) / 100;
    (RUN.as_nanos() / once.max(1)).clamp(1, 20_000) as u32
}

/// The table's rows so far.
static ROWS: Mutex<Vec<String>> = Mutex::new(Vec::new());

/// Nanoseconds as the table has them.
fn shown(ns: f64) -> String {
    match ns < 1000.0 {
        true => format!("{ns:.1}"),
        false => {
            let whole = ns.round() as u64;
            match (whole / 1_000_000, whole / 1000 % 1000, whole % 1000) {
                (0, thousands, ones) => format!("{thousands},{ones:03}"),
                (millions, thousands, ones) => format!("{millions},{thousands:03},{ones:03}"),
            }
        }
    }
}

/// Prints nanoseconds per call of the library, and of each other side with the ratio. A body makes `calls` calls.
fn compare(name: &str, calls: u32, kit: Side, others: Vec<(&str, Side)>) {
    let (names, others): (Vec<_>, Vec<_>) = others.into_iter().unzip();
    let mut sides: Vec<_> = std::iter::once(kit).chain(others).collect();
    let times: Vec<_> = sides.iter_mut().map(times_of).collect();
    let mut best = vec![f64::INFINITY; sides.len()];
    for _ in 0..RUNS {
        for (i, side) in sides.iter_mut().enumerate() {
            let run = timed(side, times[i]).as_nanos() as f64;
            best[i] = best[i].min(run / (f64::from(times[i]) * f64::from(calls)));
        }
    }
    for (other, best_of_other) in names.iter().zip(&best[1..]) {
        let (ours, theirs) = (shown(best[0]), shown(*best_of_other));
        let ratio = best[0] / best_of_other;
        println!("{name:<42} {ours:>9} {theirs:>9} {ratio:6.2}  {other}");
        let row = format!("| {name} | {ours} | {theirs} | {ratio:.2} | {other} |\n");
        ROWS.lock().expect("rows").push(row);
    }
}

/// The lines of docs/BENCHMARK.md between which the table is.
const TABLE: &str = concat!(env!("CARGO_MANIFEST_DIR"), "/../docs/BENCHMARK.md");
const START: &str = "<!-- table: bench -->\n";
const END: &str = "<!-- end -->";

/// Writes the rows in place of those in the file.
fn write_table() {
    let text = std::fs::read_to_string(TABLE).expect(TABLE);
    let (head, rest) = text.split_once(START).expect(START);
    let (_, tail) = rest.split_once(END).expect(END);
    let rows = ROWS.lock().expect("rows").concat();
    let titles = "| Call | Library, ns | Other, ns | Ratio | Other side |\n|---|---|---|---|---|\n";
    let written = format!("{head}{START}{titles}{rows}{END}{tail}");
    std::fs::write(TABLE, written).expect(TABLE);
}

// ---- Manifest ----

/// A reading against the reference and against code that is written for speed, with the library's parameters.
fn compare_reading(name: &str, base: u64, edition: u64, lists: Lists, fields: &[u8]) {
    let mut page = Page([0; PAGE]);
    write(base, edition, lists, fields, &mut page.0).expect("written");
    let (page, [base]) = (&*page.lent(), hidden([base]));
    let [mut view, mut theirs] = [[0; 15]; 2];
    // Neither `read` nor `write` can be inlined from another crate, so they need no wrapper to be calls.
    compare(
        &format!("read {name}"),
        1,
        side(|| {
            assert_eq!(Kit::read(page, base, 4, &mut view), 0);
            see(view[2]);
        }),
        vec![
            (
                "native",
                side(|| see(read(page, base, 4).expect("accepted").plat_data)),
            ),
            (
                "hand-written",
                side(|| {
                    assert_eq!(fast::read(page, base, 4, &mut theirs), 0);
                    see(theirs[2]);
                }),
            ),
        ],
    );
    assert_eq!(view, theirs);
}

/// A cold boot with a page, by the fast reader on the other side.
fn compare_cold_boot(name: &str, base: u64, edition: u64, lists: Lists) {
    let mut page = Page([0; PAGE]);
    write(base, edition, lists, &[], &mut page.0).expect("written");
    let (x, [most, kept]) = (hidden([0, 5, 8, base]), hidden([8, 56]));
    let page = &*page.lent();
    let [mut ours, mut theirs] = [[0; 5]; 2];
    compare(
        &format!("cold boot, {name}"),
        1,
        side(|| {
            ours = [0; 5];
            assert_eq!(Kit::cold_boot(&mut ours, x, most, kept, page), 0);
            see(ours[3]);
        }),
        vec![(
            "hand-written",
            side(|| {
                theirs = [0; 5];
                let [x0, x1, x2, x3] = x;
                let code = inplace::cold_boot(&mut theirs, x0, x1, x2, x3, most, kept, page);
                assert_eq!(code, 0);
                see(theirs[3]);
            }),
        )],
    );
    assert_eq!(ours, theirs);
}

/// The listing's text of a page.
fn compare_listing(name: &str, base: u64, edition: u64, lists: Lists) {
    let mut page = Page([0; PAGE]);
    write(base, edition, lists, &[], &mut page.0).expect("written");
    let (page, [base, room]) = (&*page.lent(), hidden([base, 12_400]));
    let [mut ours, mut theirs] = [(); 2].map(|()| vec![0; room as usize]);
    compare(
        &format!("listing of {name}"),
        1,
        side(|| see(Kit::listing(page, base, 4, &mut ours) as u64)),
        vec![(
            "hand-written",
            side(|| see(fast::listing(page, base, 4, &mut theirs) as u64)),
        )],
    );
    assert_eq!(ours, theirs);
}

/// Array, count and a word of the consoles of a view with four sections.
fn compare_lookups() {
    let (mut page, mut view) = (Page([0; PAGE]), [0; 15]);
    let lists: Lists = [&BANK, &CONSOLE, &BANK, &BANK];
    write(BASE, 4, lists, &[], &mut page.0).expect("written");
    let page = &*page.lent();
    assert_eq!(Kit::read(page, BASE, 4, &mut view), 0);
    let [section, entry, word] = hidden([1, 0, 4]).map(|word| word as usize);
    let [mut ours, mut theirs] = [[0; 2]; 2];
    compare(
        "array_of, four sections",
        1,
        side(|| {
            Kit::array_of(page, &view, section, &mut ours);
            see(ours[0]);
        }),
        vec![(
            "hand-written",
            side(|| {
                fast::array_of(page, &view, section, &mut theirs);
                see(theirs[0]);
            }),
        )],
    );
    assert!(ours == theirs && ours[1] == 48);
    compare(
        "count, four sections",
        1,
        side(|| see(Kit::count(page, &view, section) as u64)),
        vec![(
            "hand-written",
            side(|| see(fast::count(page, &view, section) as u64)),
        )],
    );
    compare(
        "word, four sections",
        1,
        side(|| see(Kit::word(page, &view, section, entry, word))),
        vec![(
            "hand-written",
            side(|| see(fast::word(page, &view, section, entry, word))),
        )],
    );
    assert_eq!(fast::word(page, &view, section, entry, word), CONSOLE[4]);
}

/// The number of bytes that the manifest of a view takes, without and with fields.
fn compare_kept_for() {
    for (name, fields) in [
        ("kept bytes of a view", vec![]),
        ("kept bytes, name and serial", board()),
        ("kept bytes, 3,800 bytes of fields", of_fields(190, 17)),
    ] {
        let (mut page, mut view) = (Page([0; PAGE]), [0; 15]);
        let lists: Lists = [&BANK, &CONSOLE, &BANK, &BANK];
        write(BASE, 4, lists, &fields, &mut page.0).expect("written");
        let page = &*page.lent();
        assert_eq!(Kit::read(page, BASE, 4, &mut view), 0);
        assert_eq!(Kit::kept_for(page, &view), fast::kept_for(page, &view));
        compare(
            name,
            1,
            side(|| see(Kit::kept_for(page, &view))),
            vec![("hand-written", side(|| see(fast::kept_for(page, &view))))],
        );
    }
}

/// A console by its name: the only one, the last of many, and none of many.
fn compare_console_named() {
    for (name, count, asked) in [
        ("the one console by name", 1, *b"uart-1ab"),
        ("last of 83 consoles by name", 83, *b"uart-1ab"),
        ("none of 83 consoles by name", 83, *b"uart-2ab"),
    ] {
        let (mut page, mut view) = (Page([0; PAGE]), [0; 15]);
        let mut consoles = CONSOLE.repeat(count);
        consoles[6 * count - 4] = u64::from_le_bytes(*b"uart-1ab");
        write(BASE, 4, [&[], &consoles, &[], &[]], &[], &mut page.0).expect("written");
        let page = &*page.lent();
        assert_eq!(Kit::read(page, BASE, 4, &mut view), 0);
        let found = Kit::console_named(page, &view, &asked);
        assert_eq!(fast::console_named(page, &view, &asked), found);
        compare(
            name,
            1,
            side(|| see(Kit::console_named(page, &view, &asked) as u64)),
            vec![(
                "hand-written",
                side(|| see(fast::console_named(page, &view, &asked) as u64)),
            )],
        );
    }
}

/// A writing, and the answer that all sides give.
fn compare_writing(name: &str, base: u64, edition: u64, lists: Lists, fields: &[u8], answer: u32) {
    let [mut first, mut second, mut third, mut fourth] = [(); 4].map(|()| Page([0; PAGE]));
    let (ours, theirs, native) = (first.lent(), second.lent(), third.lent());
    let narrow = fourth.lent();
    let [base, edition] = hidden([base, edition]);
    compare(
        name,
        1,
        side(|| {
            assert_eq!(Kit::write(base, edition, lists, fields, ours), answer);
            see(u64::from(ours[0]));
        }),
        vec![
            (
                "native",
                side(|| {
                    let wrote = write(base, edition, lists, fields, native);
                    assert_eq!(wrote.map_or_else(|refusal| refusal as u32, |()| 0), answer);
                    see(u64::from(native[0]));
                }),
            ),
            (
                "hand-written",
                side(|| {
                    assert_eq!(fast::write(base, edition, lists, fields, theirs), answer);
                    see(u64::from(theirs[0]));
                }),
            ),
            (
                "hand-written, SSE2",
                side(|| {
                    let wrote = fast::write_sse2(base, edition, lists, fields, narrow);
                    assert_eq!(wrote, answer);
                    see(u64::from(narrow[0]));
                }),
            ),
        ],
    );
    assert!(ours == theirs && ours == native && ours == narrow);
}

fn compare_manifests() {
    // As TF-A writes it on Arm's Base platform model: tests/reader/field has the page.
    let fvp = [0x8000_0000, 0x7c00_0000, 0x8_8000_0000, 0x8000_0000];
    let uart = [0x1c0c_0000, 1, 0x31_3130_6c70, 0xe1_0000, 0x1_c200, 0];
    let (banks, consoles) = (BANK.repeat(249), CONSOLE.repeat(83));
    let pages: [(_, _, _, Lists); 7] = [
        ("example 14's page", BASE, 2, [&BANK, &[], &[], &[]]),
        ("an FVP page", 0xffbf_f000, 3, [&fvp, &uart, &[], &[]]),
        ("edition 4, a bank", BASE, 4, [&BANK, &[], &[], &[]]),
        (
            "edition 4, a bank, a console",
            BASE,
            4,
            [&BANK, &CONSOLE, &[], &[]],
        ),
        (
            "edition 4, four of one entry",
            BASE,
            4,
            [&BANK, &CONSOLE, &BANK, &BANK],
        ),
        ("249 banks", BASE, 4, [&banks, &[], &[], &[]]),
        ("83 consoles", BASE, 4, [&[], &consoles, &[], &[]]),
    ];
    for (name, base, edition, lists) in pages {
        compare_reading(name, base, edition, lists, &[]);
        compare_cold_boot(name, base, edition, lists);
        compare_writing(&format!("write {name}"), base, edition, lists, &[], 0);
    }
    for (name, base, edition, lists) in pages {
        if ["example 14's page", "249 banks", "83 consoles"].contains(&name) {
            compare_listing(name, base, edition, lists);
        }
    }
    // Request E7: the cost grows with the bytes; a field in one piece, and fields of a byte each.
    let (small, none): (Lists, Lists) = ([&fvp, &uart, &[], &[]], [&[]; 4]);
    for (name, edition, lists, fields) in [
        ("name and serial", 3, small, board()),
        ("1,000 bytes of fields", 1, none, of_fields(50, 17)),
        ("2,000 bytes of fields", 1, none, of_fields(100, 17)),
        ("4,000 bytes of fields", 1, none, of_fields(200, 17)),
        ("4,000 bytes, fields of 1", 1, none, of_fields(1000, 1)),
        ("4,000 bytes in a field", 1, none, of_fields(1, 3997)),
    ] {
        compare_reading(name, BASE, edition, lists, &fields);
        if !name.starts_with(['1', '2']) {
            compare_writing(&format!("write {name}"), BASE, edition, lists, &fields, 0);
        }
        if ["name and serial", "4,000 bytes of fields"].contains(&name) {
            compare_fields(name, edition, lists, &fields);
        }
    }
    let (mut unsound, many) = (banks.clone(), BANK.repeat(250));
    unsound[497] = 1;
    let [unsound, many]: [Lists; 2] = [[&unsound, &[], &[], &[]], [&many, &[], &[], &[]]];
    compare_writing("write 249 banks, W3", BASE, 4, unsound, &[], 3);
    compare_writing("write 250 banks, W5", BASE, 4, many, &[], 5);
}

/// A name and a serial.
fn board() -> Vec<u8> {
    let name = [&[1, 15, 0], &b"Potterbeam DK-1"[..]].concat();
    [&name, &[2, 8, 0, 1, 2, 3, 4, 5, 6, 7, 8][..]].concat()
}

/// `count` fields with values of `length` bytes.
fn of_fields(count: usize, length: u16) -> Vec<u8> {
    let [low, high] = length.to_le_bytes();
    let field = [vec![77, low, high], vec![5; length.into()]].concat();
    field.repeat(count)
}

/// A walk over all fields by the two steps of one side.
fn all_fields(start: usize, next: impl Fn(usize, &mut FieldImage) -> usize) -> u64 {
    let (mut field, mut cursor, mut sum) = ([0; 4], start, 0);
    loop {
        cursor = next(cursor, &mut field);
        if field[0] == 0 {
            return sum;
        }
        sum += field[3];
    }
}

/// The fields of a page that was read: how many, the last by its number, the first of a tag, which is there or not, and all by a
/// cursor. A lookup checks the fields, since the view may be forged; the hand-written code finds its field in that same pass.
fn compare_fields(name: &str, edition: u64, lists: Lists, fields: &[u8]) {
    let (mut page, mut view) = (Page([0; PAGE]), [0; 15]);
    write(BASE, edition, lists, fields, &mut page.0).expect("written");
    let page = &*page.lent();
    assert_eq!(Kit::read(page, BASE, 4, &mut view), 0);
    let last = Kit::field_count(page, &view) - 1;
    compare(
        &format!("count {name}"),
        1,
        side(|| see(Kit::field_count(page, &view) as u64)),
        vec![(
            "hand-written",
            side(|| see(fast::field_count(page, &view) as u64)),
        )],
    );
    let [mut ours, mut theirs] = [[0; 4]; 2];
    compare(
        &format!("last of {name}"),
        1,
        side(|| {
            Kit::field(page, &view, last, &mut ours);
            see(ours[2]);
        }),
        vec![(
            "hand-written",
            side(|| {
                fast::field(page, &view, last, &mut theirs);
                see(theirs[2]);
            }),
        )],
    );
    assert_eq!(ours, theirs);
    for (what, tag) in [("first", page[(view[2] % 4096) as usize]), ("no tag", 200)] {
        compare(
            &format!("{what} of {name}"),
            1,
            side(|| {
                Kit::field_of_tag(page, &view, tag, &mut ours);
                see(ours[2]);
            }),
            vec![(
                "hand-written",
                side(|| {
                    fast::field_of_tag(page, &view, tag, &mut theirs);
                    see(theirs[2]);
                }),
            )],
        );
        assert_eq!(ours, theirs);
    }
    let [mut ours, mut theirs] = [0; 2];
    compare(
        &format!("walk {name}"),
        1,
        side(|| {
            let start = Kit::field_start(page, &view);
            ours = all_fields(start, |cursor, field| Kit::field_next(page, cursor, field));
            see(ours);
        }),
        vec![(
            "hand-written",
            side(|| {
                let start = fast::field_start(page, &view);
                theirs = all_fields(start, |cursor, field| fast::field_next(page, cursor, field));
                see(theirs);
            }),
        )],
    );
    assert_eq!(ours, theirs);
}

// ---- Packer and mender ----

/// A page with holes: each array starts `by` bytes after the one before. The fields, the first of them withdrawn, are at the page's end.
fn spread(lists: Lists, fields: &[u8], by: usize) -> Page {
    let (mut packed, mut page) = (Page([0; PAGE]), Page([0xEE; PAGE]));
    write(BASE, 4, lists, &[], &mut packed.0).expect("written");
    page.0[..112].copy_from_slice(&packed.0[..112]);
    let (mut from, mut way) = (112, 0);
    for (k, list) in lists.into_iter().enumerate() {
        if list.is_empty() {
            continue;
        }
        way += by;
        let to = from + 8 * list.len();
        page.0[from + way..to + way].copy_from_slice(&packed.0[from..to]);
        move_word(&mut page, 16 + 24 * k + 8, way as u64);
        move_word(&mut page, 16 + 24 * k + 16, (way as u64).wrapping_neg());
        from = to;
    }
    if !fields.is_empty() {
        let told = [&[3, 1, 0, 9], fields, &[0; 3]].concat();
        let from = PAGE - told.len();
        page.0[from..].copy_from_slice(&told);
        move_word(&mut page, 8, BASE + from as u64);
    }
    page
}

/// Adds to a word of a page.
fn move_word(page: &mut Page, at: usize, way: u64) {
    let moved = word_at(&page.0, at).wrapping_add(way);
    page.0[at..at + 8].copy_from_slice(&moved.to_le_bytes());
}

fn compare_packing(name: &str, mut page: Page) {
    let [mut first, mut second, mut third] = [(); 3].map(|()| Page([0; PAGE]));
    let (ours, theirs, native) = (first.lent(), second.lent(), third.lent());
    let (page, [base]) = (&*page.lent(), hidden([BASE]));
    compare(
        &format!("pack {name}"),
        1,
        side(|| {
            assert_eq!(Kit::pack(page, base, ours), 0);
            see(u64::from(ours[0]));
        }),
        vec![
            (
                "native",
                side(|| {
                    assert_eq!(Model::pack(page, base, native), 0);
                    see(u64::from(native[0]));
                }),
            ),
            (
                "hand-written",
                side(|| {
                    assert_eq!(fast::pack(page, base, theirs), 0);
                    see(u64::from(theirs[0]));
                }),
            ),
        ],
    );
    assert!(ours == theirs && ours == native);
}

fn compare_all_packing() {
    let (banks, consoles, few) = (BANK.repeat(249), CONSOLE.repeat(80), BANK.repeat(8));
    let four: Lists = [&few, &CONSOLE, &BANK, &BANK];
    compare_packing("249 banks", spread([&banks, &[], &[], &[]], &[], 0));
    compare_packing("80 consoles", spread([&[], &consoles, &[], &[]], &[], 64));
    compare_packing("four sections, two fields", spread(four, &board(), 64));
    let (bank, many) = ([&BANK[..], &[], &[], &[]], of_fields(150, 17));
    compare_packing("3,000 bytes of fields", spread(bank, &many, 64));
}

/// The original core is restored before each call.
fn compare_mending(name: &str, page: &Page, broken: &[usize]) {
    let mut core = [0; 112];
    core.copy_from_slice(&page.0[..112]);
    broken.iter().for_each(|&at| core[at] ^= 1);
    let [mut first, mut second] = [(); 2].map(|()| Page(page.0));
    let (ours, theirs, [base]) = (first.lent(), second.lent(), hidden([BASE]));
    let [mut report, mut expected] = [[0; 6]; 2];
    compare(
        &format!("mend {name}"),
        1,
        side(|| {
            ours[..112].copy_from_slice(&core);
            assert_eq!(Kit::mend(ours, base, &mut report), 0);
            see(report[2]);
        }),
        vec![(
            "hand-written",
            side(|| {
                theirs[..112].copy_from_slice(&core);
                assert_eq!(fast::mend(theirs, base, &mut expected), 0);
                see(expected[2]);
            }),
        )],
    );
    assert!(ours == theirs && report == expected);
    assert_eq!(report.iter().sum::<u64>(), broken.len() as u64);
}

fn compare_all_mending() {
    let (banks, few) = (BANK.repeat(249), BANK.repeat(8));
    let four = spread([&few, &CONSOLE, &BANK, &BANK], &board(), 64);
    let full = spread([&banks, &[], &[], &[]], &[], 0);
    compare_mending("249 banks, nothing broken", &full, &[]);
    compare_mending("four sections, nothing broken", &four, &[]);
    compare_mending("four sections, consoles broken", &four, &[40]);
    compare_mending(
        "four sections, six parts broken",
        &four,
        &[4, 8, 16, 40, 64, 88],
    );
}

// ---- Granules ----

/// A record of `count` banks, with 512 granules in all and a hole of one granule after each bank; and the addresses of its granules.
fn banks(count: u64) -> (GranulesImage, Vec<u64>) {
    let (mut record, mut addresses) = ([0; 33], Vec::new());
    record[0] = count;
    let size = 512 / count * 4096;
    for (i, bank) in (0..count).zip(record[1..].chunks_exact_mut(2)) {
        let base = 0x8_8000_0000 + i * (size + 4096);
        bank.copy_from_slice(&[base, size]);
        addresses.extend((base..base + size).step_by(4096));
    }
    (hidden(record), addresses)
}

/// A move of the granule at an address, or of those of a list, on some table and words.
type Move<T> = fn(&RecordImage, &GranulesImage, &mut [u8], &mut [u64], T, &mut Registers);

/// What moves work on: one for each side.
struct Memory {
    state: RecordImage,
    record: GranulesImage,
    table: Vec<u8>,
    words: Vec<u64>,
    out: Registers,
}

impl Memory {
    fn new(record: &GranulesImage) -> Memory {
        let [length] = hidden([512]);
        Memory {
            state: Up::new().image,
            record: *record,
            table: vec![0; length as usize],
            words: vec![0; length as usize / 64],
            out: [0; 3],
        }
    }

    fn run<T>(&mut self, by: Move<T>, at: T) {
        let (table, words) = (&mut self.table, &mut self.words);
        by(&self.state, &self.record, table, words, at, &mut self.out);
        see(self.out[0]);
    }

    /// As a C caller has it, without the wrapper's test for empty slices. Every pointer is of a live borrow of the length with it.
    fn kit(&mut self, to_realm: bool, at: u64) {
        let by = match to_realm {
            true => ffi::pbeam_delegate,
            false => ffi::pbeam_undelegate,
        };
        let (table, in_table) = (self.table.as_mut_ptr(), self.table.len());
        let (words, in_words) = (self.words.as_mut_ptr(), self.words.len());
        let (state, record) = (&self.state, &self.record);
        unsafe {
            by(
                state,
                record,
                table,
                in_table,
                words,
                in_words,
                at,
                &mut self.out,
            )
        };
        see(self.out[0]);
    }

    fn same(&self, other: &Memory) -> bool {
        let changed = |memory: &Memory| (memory.table.clone(), memory.words.clone(), memory.out);
        changed(self) == changed(other)
    }
}

/// A single granule in the last bank, to Realm and back; and refused.
fn compare_granules(count: u64) {
    let (record, addresses) = banks(count);
    let [at] = hidden([addresses[500]]);
    let [mut ours, mut theirs] = [(); 2].map(|()| Memory::new(&record));
    compare(
        &format!("delegate, undelegate, {}", several(count)),
        2,
        side(|| {
            ours.kit(true, at);
            ours.kit(false, at);
        }),
        vec![(
            "hand-written",
            side(|| {
                theirs.run(inplace::delegate, at);
                theirs.run(inplace::undelegate, at);
            }),
        )],
    );
    assert!(ours.same(&theirs) && ours.out == [0; 3]);
    (ours.table[500], theirs.table[500]) = (1, 1);
    for (code, name, at) in [(-3, "BAD_PAS", at), (-2, "BAD_ADDR", at + 1)] {
        compare(
            &format!("delegate, {name}, {}", several(count)),
            1,
            side(|| ours.kit(true, at)),
            vec![("hand-written", side(|| theirs.run(inplace::delegate, at)))],
        );
        assert!(ours.same(&theirs) && ours.out[0] as i64 == code);
    }
}

fn several(count: u64) -> String {
    format!("{count} bank{}", if count == 1 { "" } else { "s" })
}

/// 200 granules over all banks to Realm and back, in the order of addresses and at random.
fn compare_lists(count: u64) {
    let (record, addresses) = banks(count);
    let mut list: Vec<u64> = (0..200).map(|i| addresses[2 * i + i / 2]).collect();
    for order in ["in order", "at random"] {
        let [mut ours, mut theirs, mut singly] = [(); 3].map(|()| Memory::new(&record));
        compare(
            &format!("list of 200 {order}, {}", several(count)),
            2,
            side(|| {
                ours.run(Kit::delegate_list, &list[..]);
                ours.run(Kit::undelegate_list, &list[..]);
            }),
            vec![
                (
                    "hand-written",
                    side(|| {
                        theirs.run(inplace::delegate_list, &list[..]);
                        theirs.run(inplace::undelegate_list, &list[..]);
                    }),
                ),
                (
                    "the library's single calls",
                    side(|| {
                        list.iter().for_each(|&at| singly.kit(true, at));
                        list.iter().for_each(|&at| singly.kit(false, at));
                    }),
                ),
            ],
        );
        assert!(ours.same(&theirs) && ours.out == [0, 200, 0] && ours.table == singly.table);
        Random::new(1).shuffle(&mut list);
    }
}

fn compare_set_up(count: u64) {
    let (record, _) = banks(count);
    let words = record[1..=2 * count as usize].iter();
    let shown: Vec<u8> = words.flat_map(|word| word.to_le_bytes()).collect();
    let [length] = hidden([512]);
    let [mut ours, mut theirs] = [[0; 33]; 2];
    compare(
        &format!("set up {}", several(count)),
        1,
        side(|| {
            see(Kit::set_up_granules(&mut ours, &shown, length));
            see(ours[2]);
        }),
        vec![(
            "hand-written",
            side(|| {
                see(inplace::set_up(&mut theirs, &shown, length));
                see(theirs[2]);
            }),
        )],
    );
    assert_eq!(ours, theirs);
    assert_eq!(ours, record);
}

/// The Realm words of `granules` granules in one bank: made of a table, and compared with it; how many granules are Realm, and the next one
/// after an empty stretch. The count also against a walk over the table's bytes.
fn compare_realm_words(name: &str, granules: u64) {
    let [granules, base] = hidden([granules, 0x8_8000_0000]);
    let mut record = [0; 33];
    record[..3].copy_from_slice(&[1, base, 4096 * granules]);
    let mut table: Vec<u8> = (0..granules).map(|i| u8::from(i * i % 7 < 3)).collect();
    let [mut words, mut their_words] = [(); 2].map(|()| vec![0; granules as usize / 64]);
    compare(
        &format!("build the words of {name} granules"),
        1,
        side(|| see(Kit::realm_build(&record, &table, &mut words))),
        vec![(
            "hand-written",
            side(|| see(inplace::realm_build(&record, &table, &mut their_words))),
        )],
    );
    assert_eq!(words, their_words);
    compare(
        &format!("words of {name} granules agree"),
        1,
        side(|| assert_eq!(Kit::realm_agrees(&record, &table, &words), 0)),
        vec![(
            "hand-written",
            side(|| assert_eq!(inplace::realm_agrees(&record, &table, &words), 0)),
        )],
    );
    let [mut ours, mut theirs] = [[0]; 2];
    compare(
        &format!("count of {name} granules"),
        1,
        side(|| {
            assert_eq!(Kit::realm_count(&record, &words, &mut ours), 0);
            see(ours[0]);
        }),
        vec![
            (
                "hand-written",
                side(|| {
                    assert_eq!(inplace::realm_count(&record, &words, &mut theirs), 0);
                    see(theirs[0]);
                }),
            ),
            ("a walk over the table", side(|| see(walked(&table)))),
        ],
    );
    assert_eq!((ours, ours[0]), (theirs, walked(&table)));
    table.fill(0);
    table[granules as usize - 1] = 1;
    assert_eq!(Kit::realm_build(&record, &table, &mut words), 0);
    let [index] = hidden([1]);
    compare(
        &format!("next, the last of {name} granules"),
        1,
        side(|| {
            assert_eq!(Kit::realm_next(&record, &words, index, &mut ours), 0);
            see(ours[0]);
        }),
        vec![(
            "hand-written",
            side(|| {
                assert_eq!(inplace::realm_next(&record, &words, index, &mut theirs), 0);
                see(theirs[0]);
            }),
        )],
    );
    assert_eq!((ours, ours[0]), (theirs, granules - 1));
}

/// What the words save a board: counting the bytes of the table that are 1.
#[inline(never)]
fn walked(table: &[u8]) -> u64 {
    table.iter().filter(|&&byte| byte == 1).count() as u64
}

// ---- Token ----

#[inline(never)]
fn native_send(
    session: &mut Session,
    record: &Record,
    page: &mut [u8],
    busy: u64,
    token: &[u8],
    [pa, size, c_size]: [u64; 3],
) -> Outcome {
    let call = TokenCall { pa, size, c_size };
    session.send(*record, page, busy != 0, token, call)
}

/// A token of 4,096 bytes, in hunks of this size.
fn compare_token(size: u64) {
    let Up { image, record } = Up::new();
    let calls = 4096 / size;
    let [busy, pa, size, c_size, length] = hidden([0, BASE, size, 64, 4096]);
    let token: Vec<u8> = (0..length).map(|i| i as u8).collect();
    // The first call has a challenge.
    let x = |i| [pa, size, if i == 0 { c_size } else { 0 }];
    let [mut first, mut second, mut third] = [(); 3].map(|()| Page([0; PAGE]));
    let (ours, theirs, placed) = (first.lent(), second.lent(), third.lent());
    let (mut words, mut their_words, mut session) = ([0; 3], [0; 3], Session::Idle);
    compare(
        &format!("4,096-byte token in hunks of {size}"),
        calls as u32,
        side(|| {
            for i in 0..calls {
                let mut out = [0; 3];
                Kit::platform_token(&image, &mut words, ours, &token, busy, x(i), &mut out);
                see(out[2]);
            }
        }),
        vec![
            (
                "hand-written",
                side(|| {
                    for i in 0..calls {
                        let (mut out, [pa, size, c_size]) = ([0; 3], x(i));
                        let (words, token) = (&mut their_words, &token);
                        inplace::platform_token(
                            &image, words, placed, token, busy, pa, size, c_size, &mut out,
                        );
                        see(out[2]);
                    }
                }),
            ),
            (
                "native",
                side(|| {
                    for i in 0..calls {
                        let sent = native_send(&mut session, &record, theirs, busy, &token, x(i));
                        see(sent.expect("sent")[1]);
                    }
                }),
            ),
        ],
    );
    assert!(first.0 == second.0 && first.0 == third.0);
    assert!(words == [0; 3] && their_words == words && session == Session::Idle);
}

// ---- Queue ----

#[inline(never)]
fn native_token_sign(
    record: &Record,
    queue: &mut Queue,
    page: &mut [u8],
    key: &[u8],
    [opcode, pa, size, curve]: [u64; 4],
) -> Outcome {
    let call = SignCall {
        opcode,
        pa,
        size,
        curve,
    };
    token_sign(*record, queue, page, key, call)
}

#[inline(never)]
fn native_sign(queue: &mut Queue, signature: &[u8]) -> Outcome {
    queue.sign(signature)
}

/// What a request on its way needs: registers of push and pull, and the signature, which is also passed as a key.
struct Way {
    up: Up,
    push: [u64; 4],
    pull: [u64; 4],
    signature: Vec<u8>,
}

impl Way {
    fn new() -> Way {
        let [length] = hidden([96]);
        Way {
            up: Up::new(),
            push: hidden([1, BASE, 80, 0]),
            pull: hidden([2, BASE + 1024, 122, 0]),
            signature: vec![0xA5; length as usize],
        }
    }

    fn native(&self, queue: &mut Queue, page: &mut [u8], x: [u64; 4]) {
        let outcome = native_token_sign(&self.up.record, queue, page, &self.signature, x);
        see(outcome.expect("done")[0]);
    }

    fn native_sign(&self, queue: &mut Queue) {
        see(native_sign(queue, &self.signature).expect("signed")[0]);
    }

    /// A command on the image, on either side.
    fn image(&self, signing: impl Signing, queue: &mut QueueImage, page: &mut [u8], x: [u64; 4]) {
        let mut out = [0; 3];
        signing(&self.up.image, queue, page, &self.signature, x, &mut out);
        see(out[0]);
    }

    fn image_sign(
        &self,
        sign: impl Fn(&mut QueueImage, &[u8], &mut Registers),
        queue: &mut QueueImage,
    ) {
        let mut out = [0; 3];
        sign(queue, &self.signature, &mut out);
        see(out[0]);
    }

    /// A queue with `responses` responses.
    fn waiting(&self, responses: usize, page: &mut [u8]) -> (QueueImage, Queue) {
        let (mut image, mut queue) = ([0; 210], Queue::EMPTY);
        for _ in 0..responses {
            self.image(Model::token_signing, &mut image, page, self.push);
            self.image_sign(Model::sign, &mut image);
            self.native(&mut queue, page, self.push);
            self.native_sign(&mut queue);
        }
        (image, queue)
    }
}

/// Token signing with the library's signature.
trait Signing: Fn(&RecordImage, &mut QueueImage, &mut [u8], &[u8], [u64; 4], &mut Registers) {}

impl<F> Signing for F where
    F: Fn(&RecordImage, &mut QueueImage, &mut [u8], &[u8], [u64; 4], &mut Registers)
{
}

/// The hand-written signing with the registers as an array.
#[inline(always)]
fn hand_written_signing(
    state: &RecordImage,
    queue: &mut QueueImage,
    page: &mut [u8],
    key: &[u8],
    [opcode, pa, size, curve]: [u64; 4],
    out: &mut Registers,
) {
    inplace::token_signing(state, queue, page, key, opcode, pa, size, curve, out);
}

/// A request goes all the way through, while `waiting` responses wait.
fn compare_queue(waiting: usize) {
    let way = Way::new();
    let mut pages = [(); 3].map(|()| Page([0; PAGE]));
    // The hash id that push requires.
    pages.iter_mut().for_each(|page| page.0[24] = 1);
    let [ours, theirs, placed] = &mut pages;
    let (ours, theirs, placed) = (ours.lent(), theirs.lent(), placed.lent());
    let (mut kit, mut native) = way.waiting(waiting, ours);
    let mut image = kit;
    let kit_side = side(|| {
        way.image(Kit::token_signing, &mut kit, ours, way.push);
        way.image_sign(Kit::sign, &mut kit);
        way.image(Kit::token_signing, &mut kit, ours, way.pull);
    });
    let native_side = side(|| {
        way.native(&mut native, theirs, way.push);
        way.native_sign(&mut native);
        way.native(&mut native, theirs, way.pull);
    });
    let hand_written_side = side(|| {
        way.image(hand_written_signing, &mut image, placed, way.push);
        way.image_sign(inplace::sign, &mut image);
        way.image(hand_written_signing, &mut image, placed, way.pull);
    });
    let others = vec![("hand-written", hand_written_side), ("native", native_side)];
    let name = format!("push, sign, pull, {waiting} waiting");
    compare(&name, 3, kit_side, others);
    assert!(kit == image && pages[0].0 == pages[1].0 && pages[0].0 == pages[2].0);
}

/// The oldest of eight requests.
fn compare_oldest() {
    let way = Way::new();
    let (mut page, mut image) = (Page([0; PAGE]), [0; 210]);
    page.0[24] = 1;
    for _ in 0..8 {
        way.image(Model::token_signing, &mut image, &mut page.0, way.push);
    }
    let [mut ours, mut theirs] = [[0; 10]; 2];
    compare(
        "oldest request, 8 waiting",
        1,
        side(|| {
            see(Kit::oldest(&image, &mut ours) as u64);
            see(ours[9]);
        }),
        vec![(
            "hand-written",
            side(|| {
                see(inplace::oldest(&image, &mut theirs) as u64);
                see(theirs[9]);
            }),
        )],
    );
    assert_eq!(ours, theirs);
}

// ---- Calls by id ----

/// All that a call works on: one for each side.
struct Desk {
    record: RecordImage,
    session: SessionImage,
    queue: QueueImage,
    page: Box<Page>,
    granules: GranulesImage,
    table: Vec<u8>,
    words: Vec<u64>,
    key: Vec<u8>,
    token: Vec<u8>,
    busy: u64,
    width: u64,
    out: Registers,
    work: Work,
}

impl Desk {
    fn new() -> Desk {
        let [table, key, token, busy, width] = hidden([512, 97, 4096, 0, 15]);
        let mut page = Box::new(Page([0; PAGE]));
        page.0[24] = 1;
        Desk {
            record: Up::new().image,
            session: [0; 3],
            queue: [0; 210],
            page,
            granules: banks(1).0,
            table: vec![0; table as usize],
            words: vec![0; table as usize / 64],
            key: vec![0x5A; key as usize],
            token: vec![0xA5; token as usize],
            busy,
            width,
            out: [0; 3],
            work: [0; 2],
        }
    }

    /// As a C caller has it, without the wrapper's test for empty slices. Every pointer is of a live borrow of the length with it.
    fn kit(&mut self, x: &[u64; 5]) {
        unsafe {
            ffi::pbeam_call(
                &self.record,
                &mut self.session,
                &mut self.queue,
                self.page.0.as_mut_ptr(),
                PAGE,
                &self.granules,
                self.table.as_mut_ptr(),
                self.table.len(),
                self.words.as_mut_ptr(),
                self.words.len(),
                self.key.as_ptr(),
                self.key.len(),
                self.token.as_ptr(),
                self.token.len(),
                self.busy,
                self.key.as_ptr(),
                self.key.len(),
                self.width,
                x,
                &mut self.out,
                &mut self.work,
            );
        }
        see(self.out[0]);
    }

    fn hand_written(&mut self, x: &[u64; 5]) {
        inplace::call(
            &self.record,
            &mut self.session,
            &mut self.queue,
            &mut self.page.0,
            &self.granules,
            &mut self.table,
            &mut self.words,
            &self.key,
            &self.token,
            self.busy,
            &self.key,
            self.width,
            x,
            &mut self.out,
            &mut self.work,
        );
        see(self.out[0]);
    }

    /// What a call may write.
    fn written(&self) -> (&SessionImage, &QueueImage, &[u8], &[u8], &Registers, &Work) {
        let (page, table) = (&self.page.0[..], &self.table[..]);
        (
            &self.session,
            &self.queue,
            page,
            table,
            &self.out,
            &self.work,
        )
    }
}

/// A call by id with this answer. `set` prepares the desk before each call, on both sides.
fn compare_call(name: &str, x0: i64, x: [u64; 5], set: impl Fn(&mut Desk)) {
    let x = hidden(x);
    let [mut ours, mut theirs] = [(); 2].map(|()| Desk::new());
    compare(
        &format!("call: {name}"),
        1,
        side(|| {
            set(&mut ours);
            ours.kit(&x);
        }),
        vec![(
            "hand-written",
            side(|| {
                set(&mut theirs);
                theirs.hand_written(&x);
            }),
        )],
    );
    assert_eq!(ours.out[0] as i64, x0, "{name}");
    assert!(ours.written() == theirs.written(), "{name}");
}

fn compare_calls() {
    let at = 0x8_8000_0000 + 77 * 4096;
    let none = |_: &mut Desk| {};
    let one_response = |desk: &mut Desk| {
        desk.queue[1] = 1;
        desk.queue[82..98].copy_from_slice(&[3, 4, 96, 5, 5, 5, 5, 5, 5, 5, 5, 5, 5, 5, 5, 0]);
    };
    let closed = |desk: &mut Desk| desk.record[0] = 2;
    compare_call("delegate", 0, [DELEGATE, at, 0, 0, 0], |desk| {
        desk.table[77] = 0
    });
    compare_call("delegate, BAD_PAS", -3, [DELEGATE, at, 0, 0, 0], |desk| {
        desk.table[77] = 1
    });
    compare_call("undelegate", 0, [UNDELEGATE, at, 0, 0, 0], |desk| {
        desk.table[77] = 1
    });
    compare_call("delegate, BAD_ADDR", -2, [DELEGATE, 1, 0, 0, 0], none);
    compare_call("undelegate, BAD_ADDR", -2, [UNDELEGATE, 1, 0, 0, 0], none);
    compare_call("realm key", 0, [REALM_KEY, BASE, 97, 0, 0], none);
    compare_call("realm key, INVAL", -5, [REALM_KEY, BASE, 97, 1, 0], none);
    // A challenge starts the token again, so that each call is the same.
    let start = [PLAT_TOKEN, BASE, 64, 64, 0];
    compare_call("platform token, 64 bytes", 0, start, none);
    compare_call("platform token, AGAIN", -6, start, |desk| desk.busy = 1);
    compare_call("features", 0, [FEATURES, 0, 0, 0, 0], none);
    compare_call("features, INVAL", -5, [FEATURES, 1, 0, 0, 0], none);
    compare_call("push", 0, [TOKEN_SIGN, 1, BASE, 80, 0], |desk| {
        desk.queue[0] = 0
    });
    compare_call(
        "pull",
        0,
        [TOKEN_SIGN, 2, BASE + 1024, 122, 0],
        one_response,
    );
    compare_call("pull, AGAIN", -6, [TOKEN_SIGN, 2, BASE, 122, 0], none);
    compare_call("public key", 0, [TOKEN_SIGN, 3, BASE, 97, 0], none);
    compare_call("opcode 4, INVAL", -5, [TOKEN_SIGN, 4, BASE, 97, 0], none);
    compare_call("key update", 0, [KEY_UPDATE, 255, 0, 0, 0], none);
    compare_call("key update, INVAL", -5, [KEY_UPDATE, 65536, 0, 0, 0], none);
    compare_call("forward", 0, [REQ_COMPLETE, 7, 0, 0, 0], none);
    compare_call("unlisted id, UNK", -1, [0xC400_01B7, 0, 0, 0, 0], none);
    compare_call("delegate, not up, UNK", -1, [DELEGATE, at, 0, 0, 0], closed);
    compare_call(
        "push, not up, UNK",
        -1,
        [TOKEN_SIGN, 1, BASE, 80, 0],
        closed,
    );
}

// ---- H_TPM_COMM ----

/// The reference with the parameters of the C function, as a hypervisor would call either.
#[inline(never)]
#[allow(clippy::too_many_arguments)]
fn native_comm(
    session: &mut u64,
    operation: u64,
    in_buffer: u64,
    in_size: u64,
    out_buffer: u64,
    out_size: u64,
    memory: &mut [u8],
    response: &[u8],
    forbidden: u64,
    fault: u64,
    r4: &mut u64,
) -> i64 {
    let asked = Transfer {
        operation,
        in_buffer,
        in_size,
        out_buffer,
        out_size,
    };
    let said = Said {
        forbidden,
        fault,
        response,
    };
    TpmModel::comm(session, &asked, memory, said, r4)
}

#[inline(never)]
#[allow(clippy::too_many_arguments)]
fn native_request(
    operation: u64,
    in_buffer: u64,
    in_size: u64,
    out_buffer: u64,
    out_size: u64,
    memory: &[u8],
    forbidden: u64,
    place: &mut [u64; 2],
) {
    let asked = Transfer {
        operation,
        in_buffer,
        in_size,
        out_buffer,
        out_size,
    };
    TpmModel::request(&asked, memory, forbidden, place);
}

fn transfer(out_buffer: u64) -> Transfer {
    let [operation, in_buffer, in_size, out_buffer, out_size] =
        hidden([1, 4096, 256, out_buffer, 4096]);
    Transfer {
        operation,
        in_buffer,
        in_size,
        out_buffer,
        out_size,
    }
}

fn compare_request() {
    let (asked, [end, forbidden]) = (transfer(16384), hidden([65536, 0]));
    let (memory, mut place) = (vec![0; end as usize], [0; 2]);
    let mut theirs = place;
    compare(
        "TPM request",
        1,
        side(|| {
            Tpm::request(&asked, &memory, forbidden, &mut place);
            see(place[1]);
        }),
        vec![(
            "native",
            side(|| {
                let Transfer {
                    operation: op,
                    in_buffer: at,
                    in_size: size,
                    out_buffer: to,
                    out_size: room,
                } = asked;
                native_request(op, at, size, to, room, &memory, forbidden, &mut theirs);
                see(theirs[1]);
            }),
        )],
    );
    assert_eq!(place, theirs);
}

/// A call with a response of this length.
fn compare_comm(name: &str, asked: Transfer, length: u64) {
    let [end, length, forbidden, fault] = hidden([65536, length, 0, 0]);
    let response: Vec<u8> = (0..length).map(|i| i as u8).collect();
    let [mut ours, mut theirs] = [(); 2].map(|()| vec![0; end as usize]);
    let (mut word, mut session) = (0, 0);
    compare(
        name,
        1,
        side(|| {
            let (response, mut r4) = (&response[..], 0);
            let said = Said {
                forbidden,
                fault,
                response,
            };
            see(Tpm::comm(&mut word, &asked, &mut ours, said, &mut r4) as u64);
            see(r4);
        }),
        vec![(
            "native",
            side(|| {
                let Transfer {
                    operation: op,
                    in_buffer: at,
                    in_size: size,
                    out_buffer: to,
                    out_size: room,
                } = asked;
                let (word, mut r4) = (&mut session, 0);
                let (memory, response) = (&mut theirs[..], &response[..]);
                let r3 = native_comm(
                    word, op, at, size, to, room, memory, response, forbidden, fault, &mut r4,
                );
                see(r3 as u64);
                see(r4);
            }),
        )],
    );
    assert!(ours == theirs && word == session);
}

// ---- State blobs ----

#[inline(never)]
fn native_write_request(buffer: &mut [u8], request: StateRequest) -> Result<usize, Refusal> {
    request.write(buffer)
}

#[inline(never)]
fn native_read_request(message: &[u8], code: u32) -> Result<StateRequest, Refusal> {
    StateRequest::read(message, code)
}

#[inline(never)]
fn native_write_response(
    buffer: &mut [u8],
    largest: u32,
    numbers: [u32; 3],
    data: &[u8],
) -> Result<usize, Refusal> {
    write_response(buffer, largest, numbers, data)
}

#[inline(never)]
fn native_read_response(message: &[u8], largest: u32) -> Result<Piece<'_>, Refusal> {
    Piece::read(message, largest)
}

#[inline(never)]
fn native_collect(
    collector: &mut Collector,
    message: &[u8],
    largest: u32,
    buffer: &mut [u8],
) -> Result<(), Refusal> {
    collector.collect(message, largest, buffer)
}

#[inline(never)]
fn native_state(collector: &Collector) -> (bool, u32) {
    (collector.is_complete(), collector.held)
}

fn compare_requests() {
    let [code, flags, kind, offset, room] = hidden([12, 0, 1, 1000, 64]).map(|word| word as u32);
    let [mut ours, mut theirs] = [(); 2].map(|()| vec![0; room as usize]);
    let request = StateRequest {
        code,
        flags,
        kind,
        offset,
    };
    let mut len = 0;
    compare(
        "write a state request",
        1,
        side(|| {
            Library::write_request(&mut ours, [code, flags, kind, offset], &mut len);
            see(len as u64);
        }),
        vec![(
            "native",
            side(|| see(native_write_request(&mut theirs, request).expect("room") as u64)),
        )],
    );
    assert_eq!(ours, theirs);
    let mut parts = [0; 4];
    compare(
        "read a state request",
        1,
        side(|| {
            Library::read_request(&ours[..16], code, &mut parts);
            see(u64::from(parts[3]));
        }),
        vec![(
            "native",
            side(|| {
                let request = native_read_request(&theirs[..16], code).expect("request");
                see(u64::from(request.offset));
            }),
        )],
    );
}

/// A blob in three pieces of this size, as swtpm's header has it.
fn compare_pieces(size: u64) {
    let [size, largest, total] = hidden([size, size, 3 * size]);
    let (largest, total) = (largest as u32, total as u32);
    let data: Vec<u8> = (0..size).map(|i| i as u8).collect();
    let [mut ours, mut theirs] = [(); 2].map(|()| vec![0; size as usize + 16]);
    let mut len = 0;
    compare(
        &format!("write a response of {size}"),
        1,
        side(|| {
            Library::write_response(&mut ours, largest, [0, 0, total], &data, &mut len);
            see(len as u64);
        }),
        vec![(
            "native",
            side(|| {
                let len = native_write_response(&mut theirs, largest, [0, 0, total], &data);
                see(len.expect("room") as u64);
            }),
        )],
    );
    assert_eq!(ours, theirs);
    let mut parts = [0; 4];
    compare(
        &format!("read a response of {size}"),
        1,
        side(|| {
            Library::read_response(&ours, largest, &mut parts);
            see(u64::from(parts[3]));
        }),
        vec![(
            "native",
            side(|| {
                let piece = native_read_response(&theirs, largest).expect("response");
                see(piece.data.len() as u64);
            }),
        )],
    );
    compare_collections(&ours, largest, total);
}

fn compare_collections(message: &[u8], largest: u32, total: u32) {
    let [mut ours, mut theirs] = [(); 2].map(|()| vec![0; total as usize]);
    compare(
        &format!("collect three pieces of {largest}"),
        3,
        side(|| {
            let mut collector = [0; 3];
            for _ in 0..3 {
                Library::collect(&mut collector, message, largest, &mut ours);
                see(u64::from(collector[2]));
            }
        }),
        vec![(
            "native",
            side(|| {
                let mut collector = Collector::default();
                for _ in 0..3 {
                    native_collect(&mut collector, message, largest, &mut theirs).expect("piece");
                    see(u64::from(collector.held));
                }
            }),
        )],
    );
    assert_eq!(ours, theirs);
    let (image, collector) = (
        [1, total, total],
        Collector {
            total: Some(total),
            held: total,
        },
    );
    compare(
        "complete and held",
        2,
        side(|| {
            see(u64::from(Library::complete(&image)));
            see(u64::from(Library::held(&image)));
        }),
        vec![(
            "native",
            side(|| {
                let (complete, _) = native_state(&collector);
                see(u64::from(complete));
                let (_, held) = native_state(&collector);
                see(u64::from(held));
            }),
        )],
    );
}

fn compare_all_granules() {
    for count in [1, 2, 16] {
        compare_granules(count);
    }
    for count in [1, 16] {
        compare_lists(count);
        compare_set_up(count);
    }
    compare_realm_words("512", 512);
    compare_realm_words("2^18", 1 << 18);
}

fn compare_pages() {
    compare_manifests();
    compare_lookups();
    compare_kept_for();
    compare_console_named();
    compare_all_packing();
    compare_all_mending();
}

fn compare_commands() {
    compare_calls();
    compare_token(64);
    compare_token(4096);
    compare_queue(0);
    compare_queue(7);
    compare_oldest();
}

fn compare_tpm() {
    compare_request();
    compare_comm("TPM call, H_P4", transfer(65536), 256);
    compare_comm("TPM call, response of 256 bytes", transfer(16384), 256);
    compare_comm("TPM call, response of 4,096 bytes", transfer(16384), 4096);
    compare_requests();
    compare_pieces(64);
    compare_pieces(3072);
}

fn main() {
    println!("Best of {RUNS} runs, in turn; nanoseconds a call: library, other side, ratio.");
    let only = std::env::args().nth(1);
    match only.as_deref() {
        Some("manifest") => compare_pages(),
        Some("granules") => compare_all_granules(),
        Some("commands") => compare_commands(),
        Some("--write") | None => {
            compare_pages();
            compare_all_granules();
            compare_commands();
            compare_tpm();
        }
        Some(other) => panic!("{other}: manifest, granules, commands or --write"),
    }
    if only.as_deref() == Some("--write") {
        write_table();
    }
}
