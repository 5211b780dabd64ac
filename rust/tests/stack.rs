//! How much stack a call takes. It runs on a stack of its own, filled with a pattern (the paint); bytes that differ afterwards were written.
//! Bytes that are reserved and never written do not show.
//!
//! Each header of include/ has a line "Stack    N bytes; AArch64 M" with each function, and docs/STACK.md a row with the same two figures.
//! The first is measured here, the second is static and comes from tools/aarch64.
//!
//! POTTERBEAM_WRITE_STACK=1 writes the first figure into the headers and both into the tables: the most that was seen, rounded up to a
//! multiple of 32. Otherwise the tests fail if a function has no figure or is not measured, if header and table differ, if a call
//! takes more than the figure or the figure is more than 32 bytes above all of its calls, and if a figure is above 1 KiB.

#![cfg(target_arch = "x86_64")]

use potterbeam_tests::exports::{Exports, GranulesImage, Lent, QueueImage, RecordImage};
use potterbeam_tests::kit::{self, Kit};
use potterbeam_tests::model::Model;
use potterbeam_tests::pages::{self, PageExports};
use potterbeam_tests::reference::layout::PAGE;
use potterbeam_tests::reference::tpm::Transfer;
use potterbeam_tests::swtpm::{self, Library, StateBlobs};
use potterbeam_tests::tpm::{self, Said, Tpm, TpmExports};
use std::arch::asm;
use std::collections::{BTreeMap, BTreeSet};
use std::io::Write;

const STACK: usize = 1 << 16;
const BASE: u64 = 0x8000_0000;
const MEMORY: u64 = 0x9000_0000;
const BANK: [u64; 2] = [0x9000_0000, 0x1000_0000];
const CONSOLE: [u64; 6] = [0x1c0c_0000, 1, 0x7061_7274, 24_000_000, 115_200, 0];
const UP: RecordImage = [1, 8, BASE, 5, 0];

/// The most that a call may take: half of a boot stack of 2 KiB.
const BOOT: usize = 1024;
/// Figures are multiples of this.
const STEP: usize = 32;

/// Whether the figures are to be written.
fn writes_figures() -> bool {
    std::env::var_os("POTTERBEAM_WRITE_STACK").map_or(false, |set| set == "1")
}

// ---- Measuring ----

/// Bytes of a stack.
#[repr(align(16))]
struct Room([u8; STACK]);

unsafe extern "C" fn enter<F: FnMut()>(body: *mut F) {
    (*body)()
}

/// Where the stack of the function ends that this is inlined in: a call that it makes writes below.
#[inline(always)]
fn stack_pointer() -> usize {
    let pointer;
    // Sound as it reads a register.
    unsafe { asm!("mov {}, rsp", out(reg) pointer, options(nomem, nostack, preserves_flags)) };
    pointer
}

/// Runs a body, which must not panic, at the top of a stack painted with this byte, and returns the lowest address that was written.
fn painted_over<F: FnMut()>(room: &mut Room, paint: u8, body: &mut F) -> usize {
    room.0.fill(paint);
    let top = room.0.as_mut_ptr_range().end;
    let function: unsafe extern "C" fn(*mut F) = enter::<F>;
    // Sound as the body is called by its own convention, on aligned memory that nothing else uses meanwhile.
    unsafe {
        asm!(
            "mov r12, rsp",
            "mov rsp, {top}",
            "call {function}",
            "mov rsp, r12",
            top = in(reg) top,
            function = in(reg) function,
            in("rdi") body as *mut F,
            out("r12") _,
            clobber_abi("C"),
        );
    }
    let low = room.0.iter().position(|&byte| byte != paint);
    let low = low.expect("the return address");
    assert!(low > 1024, "the stack ran out");
    room.0.as_ptr() as usize + low
}

/// Names and addresses of exports.
macro_rules! addresses {
    ($($library:ident: $($name:ident)*;)*) => {
        &[$($((stringify!($name), $library::ffi::$name as *const ())),*),*]
    };
}

/// Where an export starts.
#[rustfmt::skip]
fn address_of(name: &str) -> Option<usize> {
    let addresses: &[(&str, *const ())] = addresses! {
        kit: pbeam_read pbeam_array pbeam_array_of pbeam_count pbeam_word pbeam_console_named pbeam_field_count pbeam_field
            pbeam_field_of_tag pbeam_field_start pbeam_field_next pbeam_kept_for pbeam_listing pbeam_write pbeam_cold_boot
            pbeam_warm_boot pbeam_close pbeam_version_accepted pbeam_agreed_minor pbeam_is_later pbeam_set_up_granules
            pbeam_delegate pbeam_undelegate pbeam_delegate_list pbeam_undelegate_list pbeam_realm_count pbeam_realm_next
            pbeam_realm_agrees pbeam_realm_build pbeam_realm_key pbeam_platform_token pbeam_challenge pbeam_features
            pbeam_token_signing pbeam_key_update pbeam_forward pbeam_sign pbeam_oldest pbeam_responses pbeam_call;
        pages: pbeam_pack pbeam_mend;
        tpm: pbeam_tpm_comm pbeam_tpm_request;
        swtpm: pbeam_swtpm_read_request pbeam_swtpm_write_request pbeam_swtpm_read_response pbeam_swtpm_write_response
            pbeam_swtpm_collect pbeam_swtpm_complete pbeam_swtpm_held;
    };
    let found = addresses.iter().find(|(export, _)| *export == name);
    found.map(|(_, address)| *address as usize)
}

extern "C" {
    /// Where the program begins, and where its code ends: the linker sets them.
    static __executable_start: u8;
    static etext: u8;
}

/// Whether a word is the address after a call of a function.
#[allow(unused_unsafe)] // Rust 1.63 asks for it where an address is taken
fn returns_from(word: usize, function: usize) -> bool {
    // Sound as only the addresses are taken.
    let (start, end) = unsafe {
        (
            std::ptr::addr_of!(__executable_start) as usize,
            std::ptr::addr_of!(etext) as usize,
        )
    };
    if word < start + 6 || word > end {
        return false;
    }
    // Sound as the program's code can be read.
    let code = unsafe { *((word - 6) as *const [u8; 6]) };
    let distance = i32::from_le_bytes([code[2], code[3], code[4], code[5]]);
    let there = word.wrapping_add(distance as isize as usize);
    match code {
        [_, 0xE8, ..] => there == function,
        // By a pointer in the table of the linker, which is the program's too.
        [0xFF, 0x15, ..] => unsafe { *(there as *const usize) == function },
        _ => false,
    }
}

/// Where the caller's frame ends: above the return address of the function, which is looked for on the stack from `end` down to `low`;
/// `end` if it is not found. What a compiler puts between is the caller's, and so are the words of parameters after the sixth.
fn caller_end(low: usize, end: usize, function: Option<usize>) -> (usize, bool) {
    let function = match function {
        Some(function) => function,
        None => return (end, false),
    };
    // Sound as both are in the room, which is painted.
    let word = |at: usize| unsafe { *(at as *const usize) };
    let places = (low / 8 * 8..end).step_by(8).rev();
    let mut found = places.filter(|&at| at >= low && returns_from(word(at), function));
    match found.next() {
        Some(at) => (at + 8, true),
        None => (end, false),
    }
}

/// What was seen of a call.
struct Seen<A> {
    bytes: usize,
    /// Whether no byte of a frame above the function is among them.
    exact: bool,
    answer: A,
}

/// Stack of a call on a copy of what it is lent, and its answer. The frame of the caller, which another compiler makes larger or smaller,
/// is not in it, nor are the words that a caller puts there for a function of more than six parameters. Two paints, so that a byte which
/// happens to be one of them is not missed, and a first run for what the dynamic linker may still have to do.
fn seen_of<L: Clone, A>(lent: &L, function: Option<usize>, call: impl Fn(&mut L) -> A) -> Seen<A> {
    let mut room = Box::new(Room([0; STACK]));
    let (mut most, mut all_exact) = (0, true);
    let mut answer = None;
    for (run, paint) in [0, 0xA5, 0x5A].into_iter().enumerate() {
        let mut lent = lent.clone();
        let mut end = 0;
        let low = painted_over(&mut room, paint, &mut || {
            end = stack_pointer();
            answer = Some(call(&mut lent));
        });
        let (end, exact) = caller_end(low, end, function);
        if run > 0 {
            most = most.max(end.saturating_sub(low));
            all_exact &= exact;
        }
    }
    Seen {
        bytes: most,
        exact: all_exact,
        answer: answer.expect("an answer"),
    }
}

/// The same for any body.
fn stack_of<L: Clone, A>(lent: &L, call: impl Fn(&mut L) -> A) -> (usize, A) {
    let seen = seen_of(lent, None, call);
    (seen.bytes, seen.answer)
}

/// Runs a body under `N` words of stack that are written.
#[inline(never)]
fn under_words<const N: usize, A>(body: impl FnOnce() -> A) -> A {
    let room = [0u64; N];
    // The address is taken where no compiler sees what becomes of it; after the body too, so that the words stay until then.
    unsafe { asm!("/* {room} */", room = in(reg) &room) }
    let answer = body();
    unsafe { asm!("/* {room} */", room = in(reg) &room) }
    answer
}

/// Bytes of stack by name.
type Figures = BTreeMap<String, usize>;

/// A header, and the functions of it that were measured.
struct Header {
    /// Its file in include/.
    file: &'static str,
    text: String,
    /// Whether a call above its figure fails.
    checked: bool,
    /// The most that each took; after a comma, the most of some of its calls.
    measured: Figures,
    /// Those of which no call's bytes are known exactly, because the compiler called it in another way.
    rough: BTreeSet<String>,
}

/// The second row of a call by id.
const OTHER_IDS: &str = "pbeam_call, any id but token signing";

/// A number with its comma.
fn number(bytes: usize) -> String {
    match (bytes / 1000, bytes % 1000) {
        (0, ones) => ones.to_string(),
        (thousands, ones) => format!("{thousands},{ones:03}"),
    }
}

impl Header {
    fn of(file: &'static str, text: &str) -> Header {
        Header {
            file,
            text: text.to_string(),
            checked: true,
            measured: Figures::new(),
            rough: BTreeSet::new(),
        }
    }

    /// A file of include/. While figures are written none is checked.
    fn read(file: &'static str) -> Header {
        let path = Header::path(file);
        let mut header = Header::of(file, &std::fs::read_to_string(&path).expect(&path));
        header.checked = !writes_figures();
        header
    }

    fn path(file: &str) -> String {
        format!("{}/../include/{file}", env!("CARGO_MANIFEST_DIR"))
    }

    fn kit() -> Header {
        Header::read("potterbeam.h")
    }

    /// Keeps the most of a function, or of some of its calls.
    fn keep(&mut self, name: &str, bytes: usize) {
        let before = self.measured.entry(name.to_string()).or_default();
        *before = bytes.max(*before);
    }

    /// Names of the functions that it declares.
    fn functions(&self) -> BTreeSet<&str> {
        let lines = self.text.lines();
        let outside = lines.filter(|line| line.starts_with(|c: char| c.is_ascii_lowercase()));
        let declared = outside.filter(|line| !line.starts_with("static inline"));
        let named = declared.filter_map(|line| line.split('(').next()?.split(' ').nth(1));
        named.filter(|name| name.starts_with("pbeam_")).collect()
    }

    /// The line of a function's stack, which is in its comment.
    fn line(&self, name: &str) -> &str {
        let start = [format!("\n * {name}: "), format!("\n * {name} (0x")];
        let at = start.iter().find_map(|start| self.text.find(start));
        let text = &self.text[at.expect(name) + 3..];
        let (text, _) = text.split_once("*/").expect("the comment's end");
        let (_, line) = text.split_once("\n * Stack    ").expect(name);
        line.lines().next().expect("a line")
    }

    /// The figures of a function, the most first: numbers before "bytes". That of AArch64 follows them.
    fn figures(&self, name: &str) -> Vec<usize> {
        let (measured, _) = self.line(name).rsplit_once(" bytes").expect(name);
        let before = measured
            .split(" bytes")
            .filter_map(|part| part.rsplit(' ').next());
        let numbers = before.map(|number| number.replace(',', "").parse());
        numbers.filter_map(Result::ok).collect()
    }

    /// The figure of AArch64, which tools/aarch64 writes.
    fn on_aarch64(&self, name: &str) -> usize {
        let figure = self.line(name).split("AArch64 ").nth(1).expect(name);
        figure.replace(',', "").parse().expect(name)
    }

    /// The figure of a row.
    fn figure(&self, row: &str) -> usize {
        let name = row.split(',').next().expect("a name");
        self.figures(name)[usize::from(row == OTHER_IDS)]
    }

    /// The header's text with what was measured, rounded, in place of its figures.
    fn written(&self) -> String {
        let functions = self.functions();
        let place = |name: &str| {
            let line = self.line(name);
            let at = line.as_ptr() as usize - self.text.as_ptr() as usize;
            (at..at + line.len(), self.written_line(name))
        };
        let mut lines: Vec<_> = functions.into_iter().map(place).collect();
        // From the last one on, so that a line that becomes longer moves none that is still to come.
        lines.sort_by_key(|(range, _)| range.start);
        let mut text = self.text.clone();
        for (range, line) in lines.into_iter().rev() {
            text.replace_range(range, &line);
        }
        text
    }

    fn written_line(&self, name: &str) -> String {
        let (_, aarch64) = self.line(name).split_once("; ").expect(name);
        let most = number(rounded(self.measured[name]));
        let other = self.measured.get(OTHER_IDS);
        match other.filter(|_| name == "pbeam_call") {
            None => format!("{most} bytes; {aarch64}"),
            Some(&other) => {
                let other = number(rounded(other));
                format!("{most} bytes with PBEAM_ID_TOKEN_SIGNING, {other} bytes with any other id; {aarch64}")
            }
        }
    }

    /// Bytes that a caller passes on the stack: each parameter after the sixth is a word there.
    fn lent_on_stack(&self, name: &str) -> usize {
        let start = format!(" {name}(");
        let mut lines = self.text.lines();
        let line = lines.find(|line| !line.starts_with(' ') && line.contains(&start));
        let at = line.map(|line| line.as_ptr() as usize - self.text.as_ptr() as usize);
        let prototype = at.and_then(|at| self.text[at..].split(';').next());
        let prototype = prototype.unwrap_or_default();
        8 * (prototype.matches(',').count() + 1).saturating_sub(6)
    }

    /// A call, which must give this answer and must not take more than the header's figure.
    fn within<L: Clone, A: PartialEq + std::fmt::Debug>(
        &mut self,
        (name, what): (&'static str, &str),
        lent: &L,
        expected: A,
        call: impl Fn(&mut L) -> A,
    ) -> usize {
        let function = address_of(name).expect("each export is in `addresses`");
        let seen = seen_of(lent, Some(function), call);
        let bytes = seen.bytes + self.lent_on_stack(name);
        assert_eq!(seen.answer, expected, "{name}, {what}");
        println!("stack of {name:<26} {what:<34} {bytes:>5} bytes");
        let most = self.figures(name)[0];
        assert!(
            bytes <= most || !self.checked,
            "{name}, {what}: {bytes} bytes, the header has {most}"
        );
        self.keep(name, bytes);
        if !seen.exact {
            self.rough.insert(name.to_string());
        }
        bytes
    }

    /// Every function was measured.
    fn is_measured(&self) {
        let rows = self.measured.keys();
        let names: BTreeSet<_> = rows.filter_map(|row| row.split(',').next()).collect();
        assert_eq!(self.functions(), names);
    }

    /// A figure that is more than a step above what was measured, or above what fits a boot stack.
    fn stale(&self) -> Option<String> {
        let stale = self.measured.iter().find(|(row, bytes)| {
            let name = row.split(',').next().expect("a name");
            let figure = self.figure(row);
            let high = figure > *bytes + STEP && !self.rough.contains(name);
            high || figure > BOOT || self.on_aarch64(name) > BOOT
        });
        stale.map(|(row, bytes)| {
            format!("{row}: {bytes} bytes, the header has {}", self.figure(row))
        })
    }

    /// The most of each is printed past the test's capture, in one write.
    fn print(&self) {
        let line = |(name, bytes): (&String, &usize)| {
            format!("most stack of {name:<26} {bytes:>5} bytes\n")
        };
        let lines: String = self.measured.iter().map(line).collect();
        let written = std::io::stderr().write_all(lines.as_bytes());
        written.expect("stderr");
    }
}

/// The measure sees what is there: nothing where no call is made, and a kilobyte; and the words of parameters after the sixth.
#[test]
#[cfg_attr(debug_assertions, ignore = "measured in release builds")]
fn measure_sees_stack() {
    let (nothing, ()) = stack_of(&(), |()| ());
    assert_eq!(nothing, 0);
    let (kilobyte, ()) = stack_of(&(), |()| under_words::<128, _>(|| ()));
    assert!((1024..1200).contains(&kilobyte), "{kilobyte} bytes");
    let header = Header::kit();
    assert_eq!(header.lent_on_stack("pbeam_sign"), 0);
    assert_eq!(header.lent_on_stack("pbeam_token_signing"), 40);
}

/// A figure that is exceeded is noticed.
#[test]
#[cfg_attr(debug_assertions, ignore = "measured in release builds")]
#[should_panic(expected = "the header has 16")]
fn figure_that_is_exceeded_fails() {
    let text = "/*\n * pbeam_read: too little\n * Stack    16 bytes; AArch64 16\n */";
    let mut header = Header::of("none", text);
    let page = consoles(83);
    header.within(("pbeam_read", "83 consoles"), &[0; 15], 0, |view| {
        Kit::read(&page, BASE, 4, view)
    });
}

/// So is one that is too high, and the figures that are written are neither.
#[test]
#[cfg_attr(debug_assertions, ignore = "measured in release builds")]
fn figure_that_is_too_high_fails() {
    let text = "/*\n * pbeam_read: too much\n * Stack    1,000 bytes; AArch64 16\n */\nint32_t pbeam_read(page);\n";
    let mut header = Header::of("none", text);
    let page = consoles(83);
    header.within(("pbeam_read", "83 consoles"), &[0; 15], 0, |view| {
        Kit::read(&page, BASE, 4, view)
    });
    assert!(header.rough.is_empty(), "the return address is not found");
    assert!(header
        .stale()
        .expect("stale")
        .contains("the header has 1000"));
    header.text = header.written();
    assert_eq!(header.stale(), None);
    assert!(header.figures("pbeam_read")[0] >= header.measured["pbeam_read"]);
    assert_eq!(header.on_aarch64("pbeam_read"), 16);
}

// ---- Manifest and boot ----

fn page_of(lists: [&[u64]; 4]) -> Vec<u8> {
    page_with(lists, &[])
}

fn page_with(lists: [&[u64]; 4], fields: &[u8]) -> Vec<u8> {
    let mut page = vec![0; PAGE];
    assert_eq!(Kit::write(BASE, 4, lists, fields, &mut page), 0);
    page
}

/// A name and a serial.
const BOARD: &[u8] = b"\x01\x04\x00DK-1\x02\x08\x00\x00\x01\x02\x03\x04\x05\x06\x07";

/// `count` fields of one byte.
fn fields(count: usize) -> Vec<u8> {
    [4, 1, 0, 9].repeat(count)
}

fn consoles(count: usize) -> Vec<u8> {
    page_of([&[], &CONSOLE.repeat(count), &[], &[]])
}

/// A page with one byte changed.
fn spoilt(mut page: Vec<u8>, at: usize) -> Vec<u8> {
    page[at] ^= 0x80;
    page
}

/// Pages with the code of a reader of edition 4 for each.
fn pages() -> Vec<(&'static str, Vec<u8>, i32)> {
    let four = || page_of([&BANK, &CONSOLE, &BANK, &BANK]);
    vec![
        ("no entry", page_of([&[], &[], &[], &[]]), 0),
        ("1 console", consoles(1), 0),
        ("83 consoles", consoles(83), 0),
        ("249 banks", page_of([&BANK.repeat(249), &[], &[], &[]]), 0),
        ("all four sections", four(), 0),
        (
            "all four sections and two fields",
            page_with([&BANK, &CONSOLE, &BANK, &BANK], BOARD),
            0,
        ),
        ("995 fields", page_with([&[]; 4], &fields(995)), 0),
        (
            "995 fields, the last one broken",
            spoilt(page_with([&[]; 4], &fields(995)), 4090),
            -7,
        ),
        ("page too short", vec![0; PAGE - 1], -5),
        ("no version", vec![0; PAGE], -6),
        ("padding", spoilt(four(), 4), -7),
        ("plat_data", spoilt(four(), 8), -7),
        ("count of dram", spoilt(four(), 16), -7),
        ("checksum of coh", spoilt(four(), 104), -7),
        ("last console", spoilt(consoles(83), 4095), -7),
    ]
}

#[test]
#[cfg_attr(debug_assertions, ignore = "measured in release builds")]
fn exports_keep_the_figures_of_the_header() {
    kit_measured().print();
}

fn kit_measured() -> Header {
    let mut header = Header::kit();
    for (what, page, code) in pages() {
        reading(&mut header, what, &page, code);
        cold_booting(&mut header, what, &page, code);
    }
    looking_up(&mut header);
    writing(&mut header);
    refused_boots(&mut header);
    for (what, board, x, x0) in calls() {
        direct(&mut header, what, &board, &x, x0);
        dispatched(&mut header, what, &board, &x, x0);
    }
    set_ups(&mut header);
    granule_lists(&mut header);
    realm_words(&mut header);
    challenges(&mut header);
    signer(&mut header);
    header.is_measured();
    header
}

fn reading(header: &mut Header, what: &str, page: &[u8], code: i32) {
    header.within(("pbeam_read", what), &[0; 15], code, |view| {
        Kit::read(page, BASE, 4, view)
    });
    for room in [12336, 1000, 0] {
        let length = Model::listing(page, BASE, 4, &mut []);
        header.within(("pbeam_listing", what), &vec![0; room], length, |text| {
            Kit::listing(page, BASE, 4, text)
        });
    }
    for section in 0..5 {
        header.within(("pbeam_array", what), &[0; 2], (), |place| {
            Kit::array(page, BASE, 4, section, place)
        });
    }
}

fn cold_booting(header: &mut Header, what: &str, page: &[u8], code: i32) {
    for kept in [0, 112, 4096] {
        header.within(("pbeam_cold_boot", what), &[0; 5], code, |state| {
            Kit::cold_boot(state, [0, 5, 8, BASE], 8, kept, page)
        });
    }
}

/// With a view of the page, and with forged views.
fn looking_up(header: &mut Header) {
    let (page, mut view) = (consoles(83), [0; 15]);
    assert_eq!(Kit::read(&page, BASE, 4, &mut view), 0);
    for (what, view, count) in [
        ("83 consoles", view, 83),
        ("no view", [0; 15], 0),
        ("any words", [u64::MAX; 15], 0),
    ] {
        header.within(("pbeam_array_of", what), &[0; 2], (), |place| {
            Kit::array_of(&page, &view, 1, place)
        });
        header.within(("pbeam_count", what), &(), count, |()| {
            Kit::count(&page, &view, 1)
        });
        header.within(
            ("pbeam_kept_for", what),
            &(),
            Model::kept_for(&page, &view),
            |()| Kit::kept_for(&page, &view),
        );
        let word = if count == 0 { 0 } else { CONSOLE[4] };
        header.within(("pbeam_word", what), &(), word, |()| {
            Kit::word(&page, &view, 1, 82, 4)
        });
        for name in [CONSOLE[2], !0] {
            let name = name.to_le_bytes();
            let found = Model::console_named(&page, &view, &name);
            header.within(("pbeam_console_named", what), &(), found, |()| {
                Kit::console_named(&page, &view, &name)
            });
        }
    }
    looking_up_fields(header);
}

/// The same for fields: the last of many, and views without any.
fn looking_up_fields(header: &mut Header) {
    let (page, mut view) = (page_with([&[]; 4], &fields(995)), [0; 15]);
    assert_eq!(Kit::read(&page, BASE, 4, &mut view), 0);
    for (what, view, count, start) in [
        ("995 fields", view, 995, 112),
        ("no view", [0; 15], 0, PAGE),
        ("any words", [u64::MAX; 15], 0, PAGE),
    ] {
        header.within(("pbeam_field_count", what), &(), count, |()| {
            Kit::field_count(&page, &view)
        });
        header.within(("pbeam_field_start", what), &(), start, |()| {
            Kit::field_start(&page, &view)
        });
        let kept = Model::kept_for(&page, &view);
        header.within(("pbeam_kept_for", what), &(), kept, |()| {
            Kit::kept_for(&page, &view)
        });
        header.within(("pbeam_field", what), &[0; 4], (), |field| {
            Kit::field(&page, &view, 994, field)
        });
        header.within(("pbeam_field_of_tag", what), &[0; 4], (), |field| {
            Kit::field_of_tag(&page, &view, 5, field)
        });
    }
    for (what, cursor, next) in [("a field", 112, 116), ("none", PAGE, PAGE)] {
        header.within(("pbeam_field_next", what), &[0; 4], next, |field| {
            Kit::field_next(&page, cursor, field)
        });
    }
}

fn writing(header: &mut Header) {
    let (consoles, banks) = (CONSOLE.repeat(83), BANK.repeat(249));
    let (more, page) = (BANK.repeat(250), vec![0; PAGE]);
    let none: [&[u64]; 4] = [&[]; 4];
    for (what, base, edition, lists, made) in [
        ("83 consoles", BASE, 4, [&[], &consoles[..], &[], &[]], 0),
        ("249 banks", BASE, 4, [&banks[..], &[], &[], &[]], 0),
        ("four lists", BASE, 4, [&BANK, &CONSOLE, &BANK, &BANK], 0),
        ("W1", 0, 4, none, 1),
        ("W2", BASE, 5, none, 2),
        ("W3", BASE, 4, [&BANK, &CONSOLE, &BANK, &BANK[..1]], 3),
        ("W4", BASE, 3, [&BANK, &CONSOLE, &[], &BANK], 4),
        ("W5", BASE, 4, [&more[..], &[], &[], &[]], 5),
    ] {
        header.within(("pbeam_write", what), &page, made, |page| {
            Kit::write(base, edition, lists, &[], page)
        });
    }
    for (what, fields, made) in [
        ("two fields", BOARD.to_vec(), 0),
        ("995 fields", fields(995), 0),
        ("995 fields, W3", [fields(995), vec![0; 3]].concat(), 3),
        ("996 fields, W5", fields(996), 5),
    ] {
        header.within(("pbeam_write", what), &page, made, |page| {
            Kit::write(BASE, 4, [&[]; 4], &fields, page)
        });
    }
}

/// The boots that no page decides.
fn refused_boots(header: &mut Header) {
    let page = consoles(1);
    for (what, state, x, kept, code) in [
        ("record not fresh", UP, [0, 5, 8, BASE], 0, -1),
        ("version", [0; 5], [0, 0, 8, BASE], 0, -2),
        ("number of CPUs", [0; 5], [0, 5, 9, BASE], 0, -3),
        ("CPU", [0; 5], [8, 5, 8, BASE], 0, -4),
        ("kept bytes", [0; 5], [0, 5, 8, BASE], 4097, -5),
        ("B", [0; 5], [0, 5, 8, 1], 0, -5),
    ] {
        header.within(("pbeam_cold_boot", what), &state, code, |state| {
            Kit::cold_boot(state, x, 8, kept, &page)
        });
    }
    for (what, state, cpu, code) in [
        ("accepted", UP, 7, 0),
        ("record not up", [0; 5], 0, -1),
        ("CPU", UP, 8, -4),
    ] {
        header.within(("pbeam_warm_boot", what), &state, code, |state| {
            Kit::warm_boot(state, [cpu, 0, 0, 0])
        });
        header.within(("pbeam_close", what), &state, 2, |state| {
            Kit::close(state);
            state[0]
        });
    }
    for (what, version, accepted) in [("accepted", 5, true), ("refused", 1 << 31, false)] {
        let minor = version & 0xFFFF;
        header.within(("pbeam_version_accepted", what), &(), accepted, |()| {
            Kit::version_accepted(version)
        });
        header.within(("pbeam_agreed_minor", what), &(), minor, |()| {
            Kit::agreed_minor(version)
        });
        header.within(("pbeam_is_later", what), &(), !accepted, |()| {
            Kit::is_later(version, 9)
        });
    }
}

// ---- A boot stack (CD8) ----

/// Stack of a call, which must be accepted and fit a boot stack.
fn boot_stack<L: Clone>(what: &str, lent: &L, call: impl Fn(&mut L) -> i32) -> usize {
    let (bytes, code) = stack_of(lent, call);
    assert_eq!(code, 0, "{what}");
    assert!(bytes <= BOOT, "{what}: {bytes} bytes, at most {BOOT} fit");
    println!("boot stack of {what:<30} {bytes:>5} bytes");
    bytes
}

/// A call for many entries takes no more than the same call for one.
fn no_more_for_more<L: Clone>(what: &str, [one, many]: [&L; 2], call: impl Fn(&mut L) -> i32) {
    let one = boot_stack(&format!("{what}, one"), one, &call);
    let many = boot_stack(&format!("{what}, many"), many, &call);
    assert!(many <= one, "{what}: {many} bytes for many, {one} for one");
}

fn banks(count: usize) -> Vec<u8> {
    page_of([&BANK.repeat(count), &[], &[], &[]])
}

/// A page and a view to be written.
fn unread(page: Vec<u8>) -> (Vec<u8>, [u64; 15]) {
    (page, [0; 15])
}

fn read((page, view): &mut (Vec<u8>, [u64; 15])) -> i32 {
    Kit::read(page, BASE, 4, view)
}

/// The reader's checksum.
#[test]
#[cfg_attr(debug_assertions, ignore = "measured in release builds")]
fn reading_takes_no_more_for_more_entries() {
    let pages = [&unread(consoles(1)), &unread(consoles(83))];
    no_more_for_more("read, 83 consoles", pages, read);
    let pages = [&unread(banks(1)), &unread(banks(249))];
    no_more_for_more("read, 249 banks", pages, read);
}

/// The writer's checksum.
#[test]
#[cfg_attr(debug_assertions, ignore = "measured in release builds")]
fn writing_takes_no_more_for_more_entries() {
    let of = |entry: &[u64], count| (entry.repeat(count), vec![0; PAGE]);
    let lent = [&of(&CONSOLE, 1), &of(&CONSOLE, 83)];
    no_more_for_more("write, 83 consoles", lent, |(list, page)| {
        Kit::write(BASE, 4, [&[], list, &[], &[]], &[], page) as i32
    });
    let lent = [&of(&BANK, 1), &of(&BANK, 249)];
    no_more_for_more("write, 249 banks", lent, |(list, page)| {
        Kit::write(BASE, 4, [list, &[], &[], &[]], &[], page) as i32
    });
}

/// The whole of it.
#[test]
#[cfg_attr(debug_assertions, ignore = "measured in release builds")]
fn cold_boot_fits_a_boot_stack() {
    for (what, page) in [
        ("cold boot, 1 console", consoles(1)),
        ("cold boot, 83 consoles", consoles(83)),
        ("cold boot, 249 banks", banks(249)),
        (
            "cold boot, all four sections",
            page_of([&BANK, &CONSOLE, &BANK, &BANK]),
        ),
    ] {
        boot_stack(what, &[0; 5], |state| {
            Kit::cold_boot(state, [0, 5, 8, BASE], 8, 4096, &page)
        });
    }
}

/// The check can fail: 2 KiB in the caller are noticed.
#[test]
#[cfg_attr(debug_assertions, ignore = "measured in release builds")]
#[should_panic(expected = "at most 1024 fit")]
fn two_kilobytes_more_fail() {
    let pages = [&unread(consoles(1)), &unread(consoles(83))];
    no_more_for_more("read under 2 KiB", pages, |lent| {
        under_words::<256, _>(|| read(lent))
    });
}

/// So are 256 bytes that only the page of 83 consoles costs, though they fit.
#[test]
#[cfg_attr(debug_assertions, ignore = "measured in release builds")]
#[should_panic(expected = "bytes for many")]
fn more_for_more_entries_fails() {
    let pages = [&unread(consoles(1)), &unread(consoles(83))];
    no_more_for_more("read, many under 256 bytes", pages, |lent| {
        if lent.0[PAGE - 48..] == [0; 48] {
            read(lent)
        } else {
            under_words::<32, _>(|| read(lent))
        }
    });
}

// ---- Runtime commands ----

const OK: i64 = 0;
const UNK: i64 = -1;
const BAD_ADDR: i64 = -2;
const BAD_PAS: i64 = -3;
const INVAL: i64 = -5;
const AGAIN: i64 = -6;

const FORWARD: u64 = 0xC400_018F;
const DELEGATE: u64 = 0xC400_01B0;
const UNDELEGATE: u64 = 0xC400_01B1;
const REALM_KEY: u64 = 0xC400_01B2;
const TOKEN: u64 = 0xC400_01B3;
const FEATURES: u64 = 0xC400_01B4;
const SIGNING: u64 = 0xC400_01B5;
const KEY_UPDATE: u64 = 0xC400_01B6;

/// What the commands are lent.
#[derive(Clone)]
struct Board {
    state: RecordImage,
    session: [u64; 3],
    queue: QueueImage,
    page: Vec<u8>,
    granules: GranulesImage,
    table: Vec<u8>,
    words: Vec<u64>,
    secret: Vec<u8>,
    busy: u64,
    out: [u64; 3],
    work: [u64; 2],
}

impl Board {
    /// Up, in a session, with this many requests and responses, a request laid at the page's start.
    fn new(requests: u64, responses: u64) -> Board {
        let mut page = vec![0; PAGE];
        page[24] = 1;
        let mut queue = [7; 210];
        queue[0] = requests;
        queue[1] = responses;
        Board {
            state: UP,
            session: [1, 100, 64],
            queue,
            page,
            granules: in_banks(1, 2),
            table: vec![0, 1],
            words: vec![2],
            secret: vec![7; 100],
            busy: 0,
            out: [0; 3],
            work: [0; 2],
        }
    }

    fn with(change: impl Fn(&mut Board)) -> Board {
        let mut board = Board::new(1, 1);
        change(&mut board);
        board
    }
}

/// A record of `count` banks of `granules` granules, with a hole of one granule after each; the last bank ends where one of 2 granules at MEMORY
/// would, so that the same addresses name its last two.
fn in_banks(count: u64, granules: u64) -> GranulesImage {
    let mut record = [0; 33];
    record[0] = count;
    let end = MEMORY + 2 * 4096;
    for (i, bank) in (1..=count).rev().zip(record[1..].chunks_exact_mut(2)) {
        bank.copy_from_slice(&[end + 4096 - i * 4096 * (granules + 1), 4096 * granules]);
    }
    record
}

/// Calls with their code: each command accepted and refused at each kind of check, and with queues from empty to full.
fn calls() -> Vec<(&'static str, Board, [u64; 5], i64)> {
    let board = || Board::new(1, 1);
    let fresh = || Board::with(|board| board.state = [0; 5]);
    let keeping = || Board::with(|board| board.state[4] = 1);
    let many = || {
        Board::with(|board| (board.granules, board.table) = (in_banks(16, 2), [0, 1].repeat(16)))
    };
    let broken = || {
        Board::with(|board| {
            board.granules[0] = 17;
            board.words.clear();
        })
    };
    let unfit = || Board::with(|board| board.words.clear());
    let old = || Board::with(|board| board.state[3] = 3);
    let short = || Board::with(|board| board.page.truncate(PAGE - 1));
    let bare = || Board::with(|board| board.secret.clear());
    let busy = || Board::with(|board| board.busy = 1);
    let (end, push, pull) = (
        BASE + 4096,
        [SIGNING, 1, BASE, 80, 0],
        [SIGNING, 2, BASE, 122, 0],
    );
    let key = [SIGNING, 3, BASE, 100, 0];
    vec![
        ("delegate", board(), [DELEGATE, MEMORY, 0, 0, 0], OK),
        (
            "delegate, 16 banks",
            many(),
            [DELEGATE, MEMORY, 0, 0, 0],
            OK,
        ),
        (
            "delegate, 17 banks",
            broken(),
            [DELEGATE, MEMORY, 0, 0, 0],
            BAD_ADDR,
        ),
        (
            "delegate, words",
            unfit(),
            [DELEGATE, MEMORY, 0, 0, 0],
            INVAL,
        ),
        (
            "delegate, record",
            fresh(),
            [DELEGATE, MEMORY, 0, 0, 0],
            UNK,
        ),
        (
            "delegate, address",
            board(),
            [DELEGATE, 1, 0, 0, 0],
            BAD_ADDR,
        ),
        (
            "delegate, Realm",
            board(),
            [DELEGATE, MEMORY + 4096, 0, 0, 0],
            BAD_PAS,
        ),
        (
            "undelegate",
            board(),
            [UNDELEGATE, MEMORY + 4096, 0, 0, 0],
            OK,
        ),
        (
            "undelegate, 16 banks",
            many(),
            [UNDELEGATE, MEMORY + 4096, 0, 0, 0],
            OK,
        ),
        (
            "undelegate, record",
            fresh(),
            [UNDELEGATE, MEMORY, 0, 0, 0],
            UNK,
        ),
        (
            "undelegate, address",
            board(),
            [UNDELEGATE, end, 0, 0, 0],
            BAD_ADDR,
        ),
        (
            "undelegate, Non-secure",
            board(),
            [UNDELEGATE, MEMORY, 0, 0, 0],
            BAD_PAS,
        ),
        ("realm key", board(), [REALM_KEY, BASE, 4096, 0, 0], OK),
        (
            "realm key, record",
            fresh(),
            [REALM_KEY, BASE, 4096, 0, 0],
            UNK,
        ),
        (
            "realm key, page",
            short(),
            [REALM_KEY, BASE, 4096, 0, 0],
            UNK,
        ),
        (
            "realm key, outside",
            board(),
            [REALM_KEY, end, 0, 0, 0],
            BAD_ADDR,
        ),
        (
            "realm key, kept bytes",
            keeping(),
            [REALM_KEY, BASE, 4096, 0, 0],
            BAD_ADDR,
        ),
        (
            "realm key, too long",
            board(),
            [REALM_KEY, BASE, 4097, 0, 0],
            INVAL,
        ),
        (
            "realm key, curve",
            board(),
            [REALM_KEY, BASE, 4096, 1, 0],
            INVAL,
        ),
        (
            "realm key, none",
            bare(),
            [REALM_KEY, BASE, 4096, 0, 0],
            UNK,
        ),
        ("token, start", board(), [TOKEN, BASE, 64, 64, 0], OK),
        ("token, whole", board(), [TOKEN, BASE, 4096, 64, 0], OK),
        ("token, rest", board(), [TOKEN, BASE, 64, 0, 0], OK),
        ("token, no byte", board(), [TOKEN, BASE, 0, 0, 0], OK),
        ("token, record", fresh(), [TOKEN, BASE, 64, 64, 0], UNK),
        ("token, busy", busy(), [TOKEN, BASE, 64, 64, 0], AGAIN),
        (
            "token, outside",
            board(),
            [TOKEN, BASE - 1, 64, 64, 0],
            BAD_ADDR,
        ),
        (
            "token, kept bytes",
            keeping(),
            [TOKEN, BASE, 64, 64, 0],
            BAD_ADDR,
        ),
        ("token, c_size", board(), [TOKEN, BASE, 64, 33, 0], INVAL),
        ("token, none", bare(), [TOKEN, BASE, 64, 64, 0], UNK),
        ("features", board(), [FEATURES, 0, 0, 0, 0], OK),
        ("features, index", board(), [FEATURES, 1, 0, 0, 0], INVAL),
        ("features, minor", old(), [FEATURES, 0, 0, 0, 0], UNK),
        ("push", board(), push, OK),
        ("push, empty queue", Board::new(0, 0), push, OK),
        ("push, seven requests", Board::new(7, 8), push, OK),
        ("push, full", Board::new(8, 8), push, AGAIN),
        (
            "push, any counts",
            Board::new(u64::MAX, u64::MAX),
            push,
            AGAIN,
        ),
        ("push, too short", board(), [SIGNING, 1, BASE, 79, 0], INVAL),
        (
            "push, algorithm",
            board(),
            [SIGNING, 1, BASE + 24, 80, 0],
            INVAL,
        ),
        ("pull", board(), pull, OK),
        ("pull, full", Board::new(8, 8), pull, OK),
        ("pull, none", Board::new(8, 0), pull, AGAIN),
        ("pull, too short", board(), [SIGNING, 2, BASE, 17, 0], INVAL),
        ("public key", board(), key, OK),
        ("public key, full queue", Board::new(8, 8), key, OK),
        ("public key, none", bare(), key, AGAIN),
        (
            "public key, too long",
            board(),
            [SIGNING, 3, BASE, 99, 0],
            INVAL,
        ),
        (
            "public key, curve",
            board(),
            [SIGNING, 3, BASE, 100, 1],
            INVAL,
        ),
        (
            "signing, opcode",
            board(),
            [SIGNING, 4, BASE, 100, 0],
            INVAL,
        ),
        ("signing, outside", board(), [SIGNING, 1, end, 80, 0], INVAL),
        ("signing, kept bytes", keeping(), pull, INVAL),
        ("signing, record", fresh(), push, UNK),
        ("signing, minor", old(), push, UNK),
        ("key update", board(), [KEY_UPDATE, 7, 0, 0, 0], OK),
        (
            "key update, mecid",
            board(),
            [KEY_UPDATE, 65536, 0, 0, 0],
            INVAL,
        ),
        ("key update, minor", old(), [KEY_UPDATE, 7, 0, 0, 0], UNK),
        ("forward", board(), [FORWARD, 7, 0, 0, 0], OK),
        ("forward, record", fresh(), [FORWARD, 7, 0, 0, 0], OK),
        ("another id", board(), [KEY_UPDATE + 1, 0, 0, 0, 0], UNK),
        (
            "id above 32 bits",
            board(),
            [DELEGATE | 1 << 32, MEMORY, 0, 0, 0],
            UNK,
        ),
    ]
}

/// The command's own function.
fn direct(header: &mut Header, what: &str, board: &Board, x: &[u64; 5], x0: i64) {
    let &[id, x1, x2, x3, x4] = x;
    let mut measure = |name, call: &dyn Fn(&mut Board)| {
        header.within((name, what), board, x0, |board| {
            call(board);
            board.out[0] as i64
        });
    };
    match id {
        DELEGATE => measure("pbeam_delegate", &|b| {
            let (table, words) = (&mut b.table, &mut b.words);
            Kit::delegate(&b.state, &b.granules, table, words, x1, &mut b.out)
        }),
        UNDELEGATE => measure("pbeam_undelegate", &|b| {
            let (table, words) = (&mut b.table, &mut b.words);
            Kit::undelegate(&b.state, &b.granules, table, words, x1, &mut b.out)
        }),
        REALM_KEY => measure("pbeam_realm_key", &|b| {
            Kit::realm_key(&b.state, &mut b.page, &b.secret, [x1, x2, x3], &mut b.out)
        }),
        TOKEN => measure("pbeam_platform_token", &|b| {
            let (session, x) = (&mut b.session, [x1, x2, x3]);
            Kit::platform_token(
                &b.state,
                session,
                &mut b.page,
                &b.secret,
                b.busy,
                x,
                &mut b.out,
            )
        }),
        FEATURES => measure("pbeam_features", &|b| {
            Kit::features(&b.state, x1, &mut b.out)
        }),
        SIGNING => measure("pbeam_token_signing", &|b| {
            let (queue, x) = (&mut b.queue, [x1, x2, x3, x4]);
            Kit::token_signing(&b.state, queue, &mut b.page, &b.secret, x, &mut b.out)
        }),
        KEY_UPDATE => measure("pbeam_key_update", &|b| {
            Kit::key_update(&b.state, 15, x1, &mut b.out, &mut b.work)
        }),
        FORWARD => measure("pbeam_forward", &|b| {
            b.work[1] = Kit::forward(&b.state, x1);
        }),
        _ => (),
    }
}

/// The same by its id. The second figure is that of every id but token signing.
fn dispatched(header: &mut Header, what: &str, board: &Board, x: &[u64; 5], x0: i64) {
    let bytes = header.within(("pbeam_call", what), board, x0, |board| {
        let mut lent = Lent {
            page: &mut board.page,
            granules: &board.granules,
            table: &mut board.table,
            words: &mut board.words,
            key: &board.secret,
            token: &board.secret,
            busy: board.busy,
            public_key: &board.secret,
            width: 15,
        };
        let (session, queue) = (&mut board.session, &mut board.queue);
        let (out, work) = (&mut board.out, &mut board.work);
        Kit::call(&board.state, session, queue, &mut lent, x, out, work);
        board.out[0] as i64
    });
    if x[0] != SIGNING {
        let most = header.figure(OTHER_IDS);
        assert!(
            bytes <= most || !header.checked,
            "pbeam_call, {what}: {bytes} bytes, the header has {most}"
        );
        header.keep(OTHER_IDS, bytes);
    }
}

fn challenges(header: &mut Header) {
    let page = vec![0; PAGE];
    for (what, state, x, place) in [
        ("a start", UP, [BASE + 8, 64, 48], [8, 48]),
        ("no start", UP, [BASE, 64, 0], [0, 0]),
        ("record", [0; 5], [BASE, 64, 48], [0, 0]),
        ("outside", UP, [BASE + 4096, 64, 48], [0, 0]),
    ] {
        header.within(("pbeam_challenge", what), &[1; 2], place, |place| {
            let _ = Kit::challenge(&state, &page, x, place);
            *place
        });
    }
}

fn set_ups(header: &mut Header) {
    let shown = |record: GranulesImage, count: usize| -> Vec<u8> {
        let words = record[1..=2 * count].iter();
        words.flat_map(|word: &u64| word.to_le_bytes()).collect()
    };
    let (one, many) = (shown(in_banks(1, 2), 1), shown(in_banks(16, 2), 16));
    for (what, banks, in_table, x0) in [
        ("one bank", &one[..], 2, OK),
        ("16 banks", &many, 32, OK),
        ("a table one long", &many, 33, INVAL),
        ("no bank", &[], 0, INVAL),
        ("a part of a bank", &many[..255], 30, INVAL),
        ("17 banks", &many.repeat(2)[..272], 34, INVAL),
    ] {
        let name = "pbeam_set_up_granules";
        header.within((name, what), &[7; 33], x0, |record| {
            Kit::set_up_granules(record, banks, in_table) as i64
        });
    }
}

/// The address of each granule.
fn addresses(record: &GranulesImage) -> Vec<u64> {
    let banks = record[1..].chunks_exact(2).take(record[0] as usize);
    let granules = |bank: &[u64]| (bank[0]..bank[0] + bank[1]).step_by(4096);
    banks.flat_map(granules).collect()
}

fn granule_lists(header: &mut Header) {
    let fresh = [0; 5];
    let up = Board::new(0, 0).state;
    let (one, many) = (in_banks(1, 256), in_banks(16, 16));
    for (what, state, granules, count, spoilt, x0) in [
        ("empty", up, one, 0, 0, OK),
        ("200 granules", up, one, 200, 256, OK),
        ("16 banks, all granules", up, many, 256, 256, OK),
        ("the last refused", up, one, 200, 199, BAD_PAS),
        ("past the table", up, one, 257, 256, BAD_ADDR),
        ("record", fresh, one, 200, 256, UNK),
    ] {
        let mut list = addresses(&granules);
        list.push(1);
        list.truncate(count);
        let lent = |byte| {
            let mut table = vec![byte; 256];
            table.iter_mut().skip(spoilt).take(1).for_each(|b| *b = 2);
            (table, vec![0; 4], [0; 3])
        };
        let name = "pbeam_delegate_list";
        header.within((name, what), &lent(0), x0, |(table, words, out)| {
            Kit::delegate_list(&state, &granules, table, words, &list, out);
            out[0] as i64
        });
        let name = "pbeam_undelegate_list";
        header.within((name, what), &lent(1), x0, |(table, words, out)| {
            Kit::undelegate_list(&state, &granules, table, words, &list, out);
            out[0] as i64
        });
    }
}

fn realm_words(header: &mut Header) {
    let (one, table) = (in_banks(1, 256), vec![1; 256]);
    let empty = vec![0u64; 4];
    for (what, words, index, next) in [
        ("all clear", vec![0; 4], 0, 1),
        ("the last alone", vec![0, 0, 0, 1 << 63], 3, OK),
        ("a word too few", vec![0; 3], 0, INVAL),
    ] {
        let fits = if words.len() == 4 { OK } else { INVAL };
        header.within(("pbeam_realm_count", what), &[7], fits, |number| {
            Kit::realm_count(&one, &words, number) as i64
        });
        header.within(("pbeam_realm_next", what), &[7], next, |found| {
            Kit::realm_next(&one, &words, index, found) as i64
        });
        let agrees = if words.len() == 4 { 1 } else { INVAL };
        header.within(("pbeam_realm_agrees", what), &(), agrees, |()| {
            Kit::realm_agrees(&one, &table, &words) as i64
        });
        header.within(("pbeam_realm_build", what), &words, fits, |words| {
            Kit::realm_build(&one, &table, words) as i64
        });
    }
    header.within(
        ("pbeam_realm_build", "a short table"),
        &empty,
        INVAL,
        |words| Kit::realm_build(&one, &table[1..], words) as i64,
    );
}

fn signer(header: &mut Header) {
    for (what, requests, responses, length, x0) in [
        ("accepted", 1, 0, 96, OK),
        ("eight requests, seven responses", 8, 7, 104, OK),
        ("no request", 0, 0, 96, AGAIN),
        ("eight responses", 1, 8, 96, AGAIN),
        ("any counts", u64::MAX, u64::MAX, 96, AGAIN),
        ("signature too long", 8, 8, 105, INVAL),
        ("no signature", 8, 8, 0, INVAL),
    ] {
        let (board, signature) = (Board::new(requests, responses), vec![7; length]);
        header.within(("pbeam_sign", what), &board, x0, |board| {
            Kit::sign(&mut board.queue, &signature, &mut board.out);
            board.out[0] as i64
        });
        let waiting = requests.min(8) as usize;
        header.within(("pbeam_oldest", what), &[0; 10], waiting, |request| {
            Kit::oldest(&board.queue, request)
        });
        let waiting = responses.min(8) as usize;
        header.within(("pbeam_responses", what), &(), waiting, |()| {
            Kit::responses(&board.queue)
        });
    }
}

// ---- Packer and mender ----

#[test]
#[cfg_attr(debug_assertions, ignore = "measured in release builds")]
fn packer_and_mender_keep_the_figures_of_the_header() {
    pages_measured().print();
}

fn pages_measured() -> Header {
    let mut header = Header::read("potterbeam_pages.h");
    for (what, page, code) in pages() {
        packing(&mut header, what, &page, code);
        mending(&mut header, what, &page, code);
    }
    header.is_measured();
    header
}

/// Into a target that is a page, and into one that is not.
fn packing(header: &mut Header, what: &str, page: &[u8], code: i32) {
    for (room, short) in [(PAGE, 0), (PAGE - 1, 1)] {
        let answer = if code == 0 { short } else { code };
        header.within(("pbeam_pack", what), &vec![0; room], answer, |target| {
            Kit::pack(page, BASE, target)
        });
    }
}

/// The page as it is, and with all six parts broken.
fn mending(header: &mut Header, what: &str, page: &[u8], code: i32) {
    let code = if code == -7 { 0 } else { code };
    let spoil = |page: Vec<u8>, &at: &usize| spoilt(page, at);
    let broken = [4, 8, 16, 40, 64, 88].iter().fold(page.to_vec(), spoil);
    for lent in [page.to_vec(), broken] {
        header.within(("pbeam_mend", what), &lent, code, |page| {
            Kit::mend(page, BASE, &mut [0; 6])
        });
    }
}

// ---- H_TPM_COMM ----

const SENT: Transfer = Transfer {
    operation: 1,
    in_buffer: 16,
    in_size: 4096,
    out_buffer: 5000,
    out_size: 8192,
};

/// No call takes more than the header's figure, for any answer and any length of the response.
#[test]
#[cfg_attr(debug_assertions, ignore = "measured in release builds")]
fn tpm_keeps_the_figures_of_the_header() {
    tpm_measured().print();
}

fn tpm_measured() -> Header {
    let mut header = Header::read("potterbeam_tpm.h");
    let memory = vec![0; 65536];
    let close = Transfer {
        operation: 2,
        ..SENT
    };
    let outside = Transfer {
        out_buffer: 65536,
        ..SENT
    };
    for (what, asked, length, fault, r3) in [
        ("no byte", &SENT, 0, 0, 0),
        ("1 byte", &SENT, 1, 0, 0),
        ("8,191 bytes", &SENT, 8191, 0, 0),
        ("close", &close, 16, 0, 0),
        ("H_P4", &outside, 16, 0, -57),
        ("H_RESOURCE", &SENT, 16, 1, -16),
    ] {
        let response = &vec![7; length][..];
        let lent = (memory.clone(), 0, 0);
        header.within(("pbeam_tpm_comm", what), &lent, r3, |lent| {
            let (memory, session, r4) = lent;
            let said = Said {
                forbidden: 0,
                fault,
                response,
            };
            Tpm::comm(session, asked, memory, said, r4)
        });
    }
    for (what, asked, expected) in [("execute", &SENT, [16, 4096]), ("close", &close, [0, 0])] {
        header.within(("pbeam_tpm_request", what), &[0; 2], expected, |place| {
            Tpm::request(asked, &memory, 0, place);
            *place
        });
    }
    header.is_measured();
    header
}

// ---- State blobs ----

const LARGEST: u32 = 3072;

#[test]
#[cfg_attr(debug_assertions, ignore = "measured in release builds")]
fn state_blobs_keep_the_figures_of_the_header() {
    state_blobs_measured().print();
}

fn state_blobs_measured() -> Header {
    let mut header = Header::read("potterbeam_swtpm.h");
    let (data, mut response, mut request) = (vec![7; 3072], vec![0; 4096], vec![0; 16]);
    let mut len = 0;
    assert_eq!(
        Library::write_request(&mut request, [12, 0, 1, 0], &mut len),
        0
    );
    let numbers = [0, 0, 10_000];
    let made = Library::write_response(&mut response, LARGEST, numbers, &data, &mut len);
    assert_eq!(made, 0);
    response.truncate(len);
    for (what, room, accepted) in [("accepted", 4096, true), ("no room", 8, false)] {
        let lent = (vec![0; room], 0);
        header.within(
            ("pbeam_swtpm_write_request", what),
            &lent,
            accepted,
            |lent| Library::write_request(&mut lent.0, [12, 0, 1, 0], &mut lent.1) == 0,
        );
        header.within(
            ("pbeam_swtpm_write_response", what),
            &lent,
            accepted,
            |lent| Library::write_response(&mut lent.0, LARGEST, numbers, &data, &mut lent.1) == 0,
        );
    }
    for (what, cut, accepted) in [("accepted", 0, true), ("cut short", 1, false)] {
        let (request, response) = (&request[cut..], &response[..response.len() - cut]);
        header.within(
            ("pbeam_swtpm_read_request", what),
            &[0; 4],
            accepted,
            |parts| Library::read_request(request, 12, parts) == 0,
        );
        header.within(
            ("pbeam_swtpm_read_response", what),
            &[0; 4],
            accepted,
            |parts| Library::read_response(response, LARGEST, parts) == 0,
        );
        let lent = (vec![0; 10_000], [0; 3]);
        header.within(("pbeam_swtpm_collect", what), &lent, accepted, |lent| {
            Library::collect(&mut lent.1, response, LARGEST, &mut lent.0) == 0
        });
    }
    for (what, collector) in [("new", [0, 0, 0]), ("complete", [1, 9, 9])] {
        let complete = collector[0] == 1;
        header.within(("pbeam_swtpm_complete", what), &collector, complete, |c| {
            Library::complete(c)
        });
        let held = collector[2];
        header.within(("pbeam_swtpm_held", what), &collector, held, |c| {
            Library::held(c)
        });
    }
    header.is_measured();
    header
}

// ---- The table of docs/STACK.md ----

const TABLE: &str = concat!(env!("CARGO_MANIFEST_DIR"), "/../docs/STACK.md");

/// A figure as headers and tables have it.
fn rounded(bytes: usize) -> usize {
    (bytes + STEP - 1) / STEP * STEP
}

/// A header's part of the file: the figures of the header, for each row that was measured.
fn section(header: &Header) -> String {
    let row = |row: &String| {
        let name = row.split(',').next().expect("a name");
        let (x86_64, aarch64) = (header.figure(row), header.on_aarch64(name));
        let boots = if x86_64.max(aarch64) <= BOOT {
            "yes"
        } else {
            "no"
        };
        format!(
            "| {row} | {} | {} | {boots} |\n",
            number(x86_64),
            number(aarch64)
        )
    };
    let rows: String = header.measured.keys().map(row).collect();
    let titles = "| Export | x86-64 | AArch64 | Boot stack |\n|---|---|---|---|\n";
    format!("## {}\n\n{titles}{rows}", header.file)
}

/// The text before the tables.
fn head(text: &str) -> &str {
    text.split("\n## ").next().expect("a head").trim_end()
}

/// The whole file.
fn file_of(head: &str, headers: &[Header]) -> String {
    let sections: Vec<_> = headers.iter().map(section).collect();
    format!("{head}\n\n{}", sections.join("\n"))
}

/// What is wrong with the file's text or with the headers, given what was measured. That no call is above its figure is seen at the call.
fn fault(text: &str, headers: &[Header]) -> Option<String> {
    let expected = file_of(head(text), headers);
    let mut lines = text.lines().zip(expected.lines());
    let other = lines.find(|(line, expected)| line != expected);
    let other = other.map(|(line, expected)| format!("'{line}' is not '{expected}'"));
    let length = (text.len() != expected.len()).then(|| "lines are missing".to_string());
    other
        .or(length)
        .or_else(|| headers.iter().find_map(Header::stale))
}

/// Replaces a file by renaming, since other tests read it meanwhile.
fn replace(path: &str, text: &str) {
    let part = format!("{path}.new");
    std::fs::write(&part, text).expect(&part);
    std::fs::rename(&part, path).expect(path);
}

#[test]
#[cfg_attr(debug_assertions, ignore = "measured in release builds")]
fn table_is_what_was_measured() {
    let mut headers = [
        kit_measured(),
        pages_measured(),
        tpm_measured(),
        state_blobs_measured(),
    ];
    if writes_figures() {
        for header in &mut headers {
            header.text = header.written();
            replace(&Header::path(header.file), &header.text);
        }
        let text = std::fs::read_to_string(TABLE).expect(TABLE);
        replace(TABLE, &file_of(head(&text), &headers));
    }
    let text = std::fs::read_to_string(TABLE).expect(TABLE);
    let wrong = fault(&text, &headers);
    assert_eq!(wrong, None, "POTTERBEAM_WRITE_STACK=1 writes it anew");
    stale_tables_fail(&text, &headers);
}

/// Without tables, without a row, with a row too many, with another figure than the header's, with a wrong answer on boot.
fn stale_tables_fail(text: &str, headers: &[Header]) {
    let row = |name: &str| {
        let start = format!("| {name} | ");
        text.lines()
            .find(|line| line.starts_with(&start))
            .expect(name)
    };
    let (read, held) = (row("pbeam_read"), row("pbeam_swtpm_held"));
    let more = format!("{held}\n| pbeam_swtpm_held, empty | 32 | 0 | yes |");
    for stale in [
        text.replace("\n## ", "\n"),
        text.replace(&format!("{held}\n"), ""),
        text.replace(held, &more),
        text.replace(read, "| pbeam_read | 32 | 0 | yes |"),
        text.replace(read, &read.replace("yes", "no")),
    ] {
        assert!(stale != text && fault(&stale, headers).is_some());
    }
}
