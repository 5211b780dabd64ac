//! The repository's run vectors, through the reference here and through the library's exports in `library`: what each prints is compared
//! byte for byte with the expected text, which a third implementation made. The programs that print it from the proved crates are
//! crates/*_vectors/src/main.rt; a case's format is described at the top of each.

mod library;

use potterbeam_tests::exports::{Exports, GranulesImage};
use potterbeam_tests::images::{queue_of, queue_words};
use potterbeam_tests::model::Model;
use potterbeam_tests::reference::boot::{boot_code, Kept, Record};
use potterbeam_tests::reference::codes::{Answer, Outcome};
use potterbeam_tests::reference::features::{features, forward, key_update};
use potterbeam_tests::reference::fields::{Field, Shown};
use potterbeam_tests::reference::granules::{delegate, delegate_list, undelegate, undelegate_list};
use potterbeam_tests::reference::key::realm_key;
use potterbeam_tests::reference::layout::{word_at, CONSOLE};
use potterbeam_tests::reference::listing::{list, list_input};
use potterbeam_tests::reference::mend::mend;
use potterbeam_tests::reference::pack::pack;
use potterbeam_tests::reference::queue::{Queue, Request, Response, Ring, PLACES};
use potterbeam_tests::reference::reader::{array, console_named, fields, read};
use potterbeam_tests::reference::realm_words;
use potterbeam_tests::reference::runtime::{call, Call, Lent, Reply, State, TOKEN_SIGN};
use potterbeam_tests::reference::token::{challenge, Session, TokenCall};
use potterbeam_tests::reference::writer::write;
use std::fmt::Write;
use std::path::{Path, PathBuf};

// ---- Running a family ----

fn family(name: &str) -> PathBuf {
    let root = Path::new(env!("CARGO_MANIFEST_DIR")).parent();
    root.expect("repository").join("crates").join(name)
}

/// Prints the cases up to the first that is missing, and compares.
fn compare(name: &str, cases: usize, print: impl Fn(&mut String, &[u8])) {
    let place = family(name);
    let mut out = String::new();
    let mut count = 0;
    while let Ok(input) = std::fs::read(place.join(format!("data/c{count:03}"))) {
        writeln!(out, "case {count:03}").unwrap();
        print(&mut out, &input);
        count += 1;
    }
    assert!(count >= cases, "{name}: only {count} cases");
    let expected = std::fs::read_to_string(place.join("stdout")).expect("expected text");
    report_differences(name, &out, &expected);
    println!("{name}: {count} cases, {} bytes", expected.len());
}

fn report_differences(name: &str, out: &str, expected: &str) {
    if out == expected {
        return;
    }
    let mut case = "";
    for (n, (ours, theirs)) in out.lines().zip(expected.lines()).enumerate() {
        if theirs.starts_with("case ") {
            case = theirs;
        }
        assert_eq!(ours, theirs, "{name}, {case}, line {}", n + 1);
    }
    panic!("{name}: one text is longer, or ends without a newline");
}

// ---- Parts of a case ----

fn size_at(input: &[u8], at: usize) -> usize {
    usize::try_from(word_at(input, at)).expect("a size")
}

fn record_at(input: &[u8]) -> Record {
    let [cpus, base, minor, kept] = [8, 16, 24, 32].map(|at| word_at(input, at));
    match word_at(input, 0) {
        0 => Record::Fresh,
        1 => Record::Up(Kept {
            cpus,
            base,
            minor,
            kept,
        }),
        _ => Record::Closed,
    }
}

/// The granule record at the offset in a word of the case: how many of its words are given, then these. The rest are 0.
fn granules_at(input: &[u8], at: usize) -> GranulesImage {
    let stored = &input[size_at(input, at)..];
    let mut record = [0; 33];
    for (word, cell) in record[..size_at(stored, 0)]
        .iter_mut()
        .zip(stored[8..].chunks_exact(8))
    {
        *word = word_at(cell, 0);
    }
    record
}

/// The realm words, after the granule record: how many, then these.
fn realm_words_at(input: &[u8], at: usize) -> Vec<u64> {
    let stored = &input[size_at(input, at)..];
    let behind = &stored[8 + 8 * size_at(stored, 0)..];
    words(&behind[8..][..8 * size_at(behind, 0)])
}

fn print_realm_words(out: &mut String, realm: &[u64]) {
    out.push_str("words");
    for word in realm {
        write!(out, " {word:016x}").unwrap();
    }
    out.push('\n');
}

/// Takes `length` bytes off the front.
fn take<'a>(input: &mut &'a [u8], length: usize) -> &'a [u8] {
    assert!(length <= input.len(), "case cut short");
    let (taken, rest) = input.split_at(length);
    *input = rest;
    taken
}

fn words(bytes: &[u8]) -> Vec<u64> {
    bytes.chunks_exact(8).map(|cell| word_at(cell, 0)).collect()
}

// ---- Reader ----

/// A number that tells one run of bytes from another: the bytes as digits in two bases, after the run's length, by what they leave
/// modulo a prime.
fn mark(part: &[u8]) -> u64 {
    let remainder = |base: u64| {
        part.iter().fold(part.len() as u64, |left, &byte| {
            (left * base + u64::from(byte)) % 0xFFFF_FFFB
        })
    };
    remainder(0x9E37_79B1) << 32 | remainder(0x85EB_CA77)
}

fn print_reading(out: &mut String, input: &[u8]) {
    if input.len() < 16 {
        return;
    }
    let (edition, base, page) = (word_at(input, 0), word_at(input, 8), &input[16..]);
    list(out, page, base, edition).unwrap();
    for k in 0..5 {
        let part = array(page, base, edition, k);
        writeln!(out, "array {k} {} {:016x}", part.len(), mark(part)).unwrap();
    }
    if let Ok(view) = read(page, base, edition) {
        let fields = fields(page, view.plat_data);
        let tagged = |tag| fields.iter().find(|field| field.tag() == tag).copied();
        print_fields(out, fields.len(), tagged, |i| fields.get(i).copied());
        let consoles = array(page, base, edition, CONSOLE);
        print_consoles(out, |name| console_named(consoles, name));
    }
}

/// What the field lookups give: how many fields there are, the first of some tags, and some by number.
fn print_fields<'a>(
    out: &mut String,
    count: usize,
    tagged: impl Fn(u8) -> Option<Shown<'a>>,
    nth: impl Fn(usize) -> Option<Shown<'a>>,
) {
    writeln!(out, "fields {count}").unwrap();
    for tag in [0, 1, 2, 3, 4, 255] {
        write!(out, "tag {tag}").unwrap();
        print_field(out, tagged(tag));
    }
    for i in [0, count / 2, count] {
        write!(out, "field {i}").unwrap();
        print_field(out, nth(i));
    }
}

fn print_field(out: &mut String, field: Option<Shown>) {
    match field {
        Some(Shown::Raw(Field { tag, value })) => {
            writeln!(out, " {tag} {} {:016x}", value.len(), mark(value)).unwrap();
        }
        Some(Shown::Withdrawn) => out.push_str(" withdrawn\n"),
        None => out.push_str(" none\n"),
    }
}

/// The first console of some names, by its number.
fn print_consoles(out: &mut String, named: impl Fn(&[u8; 8]) -> Option<usize>) {
    for name in [b"pl011\0\0\0", b"uart-1ab", &[0; 8]] {
        let number = named(name).map_or("none".to_string(), |number| number.to_string());
        writeln!(out, "console {:016x} {number}", u64::from_be_bytes(*name)).unwrap();
    }
}

#[test]
fn reader_vectors() {
    compare("reader_vectors", 838, print_reading);
}

// ---- Listing ----

/// What a side prints for the listing's input.
type Lister = fn(&mut String, &[u8]);

fn compare_listing(lister: Lister, input: &Path, expected: &Path) {
    let mut out = String::new();
    lister(&mut out, &std::fs::read(input).expect("input"));
    let expected = std::fs::read_to_string(expected).expect("expected text");
    assert_eq!(out, expected, "{}", input.display());
}

/// Each input in a folder; returns how many there are.
fn compare_listings(lister: Lister, folder: &Path) -> usize {
    let mut count = 0;
    for file in std::fs::read_dir(folder).expect("inputs") {
        let input = file.expect("a file").path();
        if input.extension().map_or(false, |kind| kind == "in") {
            compare_listing(lister, &input, &input.with_extension("out"));
            count += 1;
        }
    }
    count
}

/// The listing's own input, the pages that real firmware wrote, and the inputs on which the program is run.
fn compare_all_listings(lister: Lister) {
    let listing = family("listing");
    compare_listing(lister, &listing.join("stdin"), &listing.join("stdout"));
    let field = compare_listings(lister, &family("../tests/reader/field"));
    let cases = compare_listings(lister, &family("../tests/listing/cases"));
    assert!(field >= 4, "only {field} field pages");
    assert!(cases >= 20, "only {cases} inputs");
    println!("listings: {field} field pages, {cases} inputs");
}

#[test]
fn listings() {
    compare_all_listings(|out, input| list_input(out, input).unwrap());
}

// ---- Writer ----

fn print_writing(out: &mut String, input: &[u8]) {
    let (base, edition) = (word_at(input, 0), word_at(input, 8));
    let mut page = vec![word_at(input, 16) as u8; size_at(input, 24)];
    let mut rest = &input[64..];
    let lists = [32, 40, 48, 56].map(|at| words(take(&mut rest, 8 * size_at(input, at))));
    let [dram, console, ncoh, coh] = &lists;
    let expected = take(&mut rest, page.len());
    let answer = write(base, edition, [dram, console, ncoh, coh], rest, &mut page);
    match answer {
        Ok(()) => writeln!(out, "made"),
        Err(refusal) => writeln!(out, "refused W{}", refusal as u8),
    }
    .unwrap();
    writeln!(out, "page {}as expected", not_if(page != expected)).unwrap();
    if answer.is_err() {
        return;
    }
    for edition in 1..=4 {
        writeln!(out, "edition {edition}").unwrap();
        list(out, &page, base, edition).unwrap();
    }
}

fn not_if(differs: bool) -> &'static str {
    if differs {
        "not "
    } else {
        ""
    }
}

#[test]
fn writer_vectors() {
    compare("writer_vectors", 442, print_writing);
}

// ---- Packer and mender ----

/// What a side packs and mends with, and how it lists a page of edition 4. An answer is a code, as the library has it.
struct Pages {
    pack: fn(&[u8], u64, &mut [u8]) -> i32,
    mend: fn(&mut [u8], u64) -> Result<[u64; 6], i32>,
    list: fn(&mut String, &[u8], u64),
}

fn print_mark(out: &mut String, name: &str, page: &[u8]) {
    writeln!(out, "{name} {:016x}", mark(page)).unwrap();
}

fn print_mending(out: &mut String, base: u64, mut page: Vec<u8>, side: &Pages) {
    let mended = (side.mend)(&mut page, base);
    match mended {
        Ok(changed) => {
            let told = changed.map(|word| word.to_string()).join(" ");
            writeln!(out, "mended {told}")
        }
        Err(code) => writeln!(out, "refused {code}"),
    }
    .unwrap();
    print_mark(out, "page", &page);
    if mended.is_ok() {
        (side.list)(out, &page, base);
    }
}

fn print_packing(out: &mut String, base: u64, page: &[u8], mut target: Vec<u8>, side: &Pages) {
    let code = (side.pack)(page, base, &mut target);
    match code {
        0 => writeln!(out, "packed"),
        1 => writeln!(out, "refused W1"),
        _ => writeln!(out, "refused {code}"),
    }
    .unwrap();
    print_mark(out, "target", &target);
    if code == 0 {
        let mut again = vec![0xFF; target.len()];
        assert_eq!((side.pack)(&target, base, &mut again), 0);
        print_mark(out, "again", &again);
        (side.list)(out, &target, base);
    }
}

fn print_page(out: &mut String, input: &[u8], side: &Pages) {
    let (base, page) = (word_at(input, 8), &input[32..]);
    if word_at(input, 0) == 1 {
        return print_mending(out, base, page.to_vec(), side);
    }
    let target = vec![word_at(input, 24) as u8; size_at(input, 16)];
    print_packing(out, base, page, target, side);
}

#[test]
fn page_vectors() {
    let side = Pages {
        pack: |page, base, target| pack(page, base, target).map_or_else(|no| no.code(), |()| 0),
        mend: |page, base| {
            let told = mend(page, base).map_err(|refusal| refusal.code());
            told.map(|parts| parts.map(u64::from))
        },
        list: |out, page, base| list(out, page, base, 4).unwrap(),
    };
    compare("page_vectors", 525, |out, input| {
        print_page(out, input, &side)
    });
}

// ---- Boot ----

fn print_boots(out: &mut String, input: &[u8]) {
    let mut record = record_at(input);
    let mut rest = &input[48..];
    for _ in 0..word_at(input, 40) {
        let step = take(&mut rest, 64);
        let page = take(&mut rest, size_at(step, 56));
        let x = [8, 16, 24, 32].map(|at| word_at(step, at));
        let (next, answer) = match word_at(step, 0) {
            0 => record.cold(x, word_at(step, 40), word_at(step, 48), page),
            _ => record.warm(x),
        };
        record = next;
        write!(out, "code {}", boot_code(answer)).unwrap();
        print_record(out, record);
    }
}

fn print_record(out: &mut String, record: Record) {
    match record {
        Record::Fresh => writeln!(out, " fresh"),
        Record::Up(Kept {
            cpus,
            base,
            minor,
            kept,
        }) => {
            writeln!(out, " up {cpus:016x} {base:016x} {minor:016x} {kept:016x}")
        }
        Record::Closed => writeln!(out, " closed"),
    }
    .unwrap();
}

#[test]
fn boot_vectors() {
    compare("boot_vectors", 345, print_boots);
}

// ---- Granule records and lists of granules ----

/// The case has the record that is lent before, the table's length and the banks' bytes.
fn print_set_up(out: &mut String, input: &[u8], set_up: SetUp) {
    let mut record = granules_at(input, 48);
    let x0 = set_up(
        &mut record,
        &input[72..][..size_at(input, 64)],
        word_at(input, 56),
    );
    write!(out, "set_up {x0:016x}\nrecord").unwrap();
    record
        .iter()
        .for_each(|word| write!(out, " {word:x}").unwrap());
    out.push('\n');
}

/// A set-up of a record from the bytes of banks, for a table of a given number of granules.
type SetUp = fn(&mut GranulesImage, &[u8], u64) -> u64;

/// The answers of the calls on realm words: how many, the next one, agreement, and whether they were built. INVAL gives `None`; the next
/// one is a granule, or no hit.
type Told = (Option<u64>, Option<Option<u64>>, Option<bool>, bool);

fn print_told(out: &mut String, (count, next, agrees, built): Told) {
    let inval = || "INVAL".to_string();
    let count = count.map_or_else(inval, |count| count.to_string());
    let hit = |hit: Option<u64>| hit.map_or("none".to_string(), |hit| hit.to_string());
    let next = next.map_or_else(inval, hit);
    let agrees = agrees.map_or("INVAL", |agrees| if agrees { "yes" } else { "no" });
    let built = if built { "OK" } else { "INVAL" };
    writeln!(
        out,
        "count {count}\nnext {next}\nagrees {agrees}\nbuild {built}"
    )
    .unwrap();
}

/// A side's answers; it builds the words last.
type Asked = fn(&GranulesImage, &[u8], &mut [u64], u64) -> Told;

fn print_questions(out: &mut String, input: &[u8], asked: Asked) {
    let (banks, mut realm) = (granules_at(input, 48), realm_words_at(input, 48));
    let table = &input[72..][..size_at(input, 56)];
    let told = asked(&banks, table, &mut realm, word_at(input, 64));
    print_told(out, told);
    print_realm_words(out, &realm);
}

fn ask(banks: &GranulesImage, table: &[u8], realm: &mut [u64], index: u64) -> Told {
    (
        realm_words::count(banks, realm).ok(),
        realm_words::next(banks, realm, index).ok(),
        realm_words::agrees(banks, table, realm).ok(),
        realm_words::build(banks, table, realm).is_ok(),
    )
}

fn print_list(out: &mut String, input: &[u8]) {
    match word_at(input, 40) {
        2 => return print_set_up(out, input, Model::set_up_granules),
        3 => return print_questions(out, input, ask),
        _ => {}
    }
    let (record, banks) = (record_at(input), &granules_at(input, 48));
    let mut realm = realm_words_at(input, 48);
    let [in_table, length] = [56, 64].map(|at| size_at(input, at));
    let mut rest = &input[72..];
    let mut table = take(&mut rest, in_table).to_vec();
    let list: Vec<u64> = (0..length)
        .map(|_| word_at(take(&mut rest, 8), 0))
        .collect();
    let listed = match word_at(input, 40) {
        0 => delegate_list(record, banks, &mut table, &mut realm, &list),
        _ => undelegate_list(record, banks, &mut table, &mut realm, &list),
    };
    let Answer { x0, x1, x2 } = Answer::from(listed);
    writeln!(out, "registers {x0:016x} {x1:016x} {x2:016x}").unwrap();
    let differs = table != take(&mut rest, in_table);
    writeln!(out, "table {}as expected", not_if(differs)).unwrap();
    print_realm_words(out, &realm);
}

#[test]
fn granule_vectors() {
    compare("granule_vectors", 997, print_list);
}

// ---- Single commands ----

fn print_command(out: &mut String, input: &[u8]) {
    let (record, banks) = (record_at(input), &granules_at(input, 72));
    let [id, x1, x2, x3, width] = [40, 48, 56, 64, 80].map(|at| word_at(input, at));
    let [in_table, in_key, in_page] = [88, 96, 104].map(|at| size_at(input, at));
    let mut rest = &input[112..];
    let mut table = take(&mut rest, in_table).to_vec();
    let key = take(&mut rest, in_key);
    let mut page = take(&mut rest, in_page).to_vec();
    let mut realm = realm_words_at(input, 72);
    match id {
        0xC400_01B0 => print_padded(out, delegate(record, banks, &mut table, &mut realm, x1)),
        0xC400_01B1 => print_padded(out, undelegate(record, banks, &mut table, &mut realm, x1)),
        0xC400_01B2 => print_padded(out, realm_key(record, &mut page, key, x1, x2, x3)),
        0xC400_01B4 => print_padded(out, features(record, x1)),
        0xC400_01B6 => {
            let mecid = key_update(record, width, x1);
            print_padded(out, mecid.map(|_| [0, 0]));
            if let Ok(mecid) = mecid {
                writeln!(out, "reprogram {mecid:016x}").unwrap();
            }
        }
        _ => writeln!(out, "forward {:016x}", forward(x1)).unwrap(),
    }
    let table_differs = table != take(&mut rest, in_table);
    let page_differs = page != take(&mut rest, in_page);
    writeln!(out, "table {}as expected", not_if(table_differs)).unwrap();
    writeln!(out, "page {}as expected", not_if(page_differs)).unwrap();
    print_realm_words(out, &realm);
}

fn print_padded(out: &mut String, outcome: Outcome) {
    let Answer { x0, x1, x2 } = outcome.into();
    writeln!(out, "registers {x0:016x} {x1:016x} {x2:016x}").unwrap();
}

#[test]
fn command_vectors() {
    compare("command_vectors", 1000, print_command);
}

// ---- The runtime ----

/// The bytes at the place that two words of the case give.
fn lent(input: &[u8], at: usize) -> &[u8] {
    let (from, length) = (size_at(input, at), size_at(input, at + 8));
    &input[from..from + length]
}

fn request_at(image: &[u8], i: usize) -> Request {
    let bytes = &image[16 + 80 * i..][..80];
    let [algorithm, granule, ticket, hash_id] = [0, 8, 16, 24].map(|at| word_at(bytes, at));
    Request {
        algorithm,
        granule,
        ticket,
        hash_id,
        hash: bytes[32..].try_into().unwrap(),
    }
}

fn response_at(image: &[u8], i: usize) -> Response {
    let bytes = &image[656 + 128 * i..][..128];
    Response {
        granule: word_at(bytes, 0),
        ticket: word_at(bytes, 8),
        len: size_at(bytes, 16),
        signature: bytes[24..].try_into().unwrap(),
    }
}

/// The queue that a case starts with. No image at all is an empty one.
fn queue_at(image: &[u8]) -> Queue {
    if image.is_empty() {
        return Queue::EMPTY;
    }
    let requests: [Request; PLACES] = std::array::from_fn(|i| request_at(image, i));
    let responses: [Response; PLACES] = std::array::from_fn(|i| response_at(image, i));
    Queue {
        requests: Ring::new(requests, size_at(image, 0)),
        responses: Ring::new(responses, size_at(image, 8)),
    }
}

fn session_at(input: &[u8]) -> Session {
    match word_at(input, 56) {
        0 => Session::Idle,
        _ => Session::Sending {
            whole: word_at(input, 64),
            sent: word_at(input, 72),
        },
    }
}

fn print_bytes(out: &mut String, bytes: &[u8]) {
    out.push(' ');
    for byte in bytes {
        write!(out, "{byte:02x}").unwrap();
    }
    out.push('\n');
}

fn print_reply(out: &mut String, reply: Reply) {
    match reply {
        Reply::Forward(error) => write!(out, "forward {error:x}").unwrap(),
        Reply::Back { answer, reprogram } => {
            let Answer { x0, x1, x2 } = answer;
            write!(out, "registers {x0:x} {x1:x} {x2:x}").unwrap();
            if let Some(mecid) = reprogram {
                write!(out, " reprogram {mecid:x}").unwrap();
            }
        }
    }
    out.push('\n');
}

fn print_request(out: &mut String, name: &str, request: &Request) {
    let Request {
        algorithm,
        granule,
        ticket,
        hash_id,
        hash,
    } = request;
    write!(
        out,
        "{name} {algorithm:x} {granule:x} {ticket:x} {hash_id:x}"
    )
    .unwrap();
    print_bytes(out, hash);
}

fn print_queue(out: &mut String, queue: &Queue) {
    for request in queue.requests.iter() {
        print_request(out, "request", request);
    }
    for response in queue.responses.iter() {
        let Response {
            granule,
            ticket,
            len,
            ..
        } = response;
        write!(out, "response {granule:x} {ticket:x} {len}").unwrap();
        print_bytes(out, response.signature());
    }
}

fn print_state(out: &mut String, state: &State) {
    match state.session {
        Session::Idle => write!(out, "session idle"),
        Session::Sending { whole, sent } => write!(out, "session {whole} {sent}"),
    }
    .unwrap();
    let (requests, responses) = (&state.queue.requests, &state.queue.responses);
    let counts = [requests.stored_count(), responses.stored_count()];
    write!(out, ", queue {} {}", counts[0], counts[1]).unwrap();
}

/// Page and table, as they are held or as they are expected; and the realm words, which are printed.
#[derive(Clone, PartialEq)]
struct Memory {
    page: Vec<u8>,
    table: Vec<u8>,
    realm: Vec<u64>,
}

/// The queue holds what waits and nothing else: no count above eight, no length above 104.
fn only_waiting(queue: &mut Queue) {
    *queue = queue_of(&queue_words(queue));
}

fn operate(out: &mut String, input: &[u8], step: &[u8], state: &mut State, memory: &mut Memory) {
    let [x1, x2, x3, x4] = [16, 24, 32, 40].map(|at| word_at(step, at));
    match word_at(step, 0) {
        0 => {
            let mut lent = Lent {
                page: &mut memory.page,
                table: &mut memory.table,
                words: &mut memory.realm,
                banks: &granules_at(input, 40),
                realm_key: lent(input, 112),
                public_key: lent(input, 128),
                token: lent_by(input, step, 56),
                busy: word_at(step, 48) != 0,
                width: word_at(input, 48),
            };
            let id = word_at(step, 8);
            let x = [x1, x2, x3, x4];
            let reply = call(state, &mut lent, Call { id, x });
            let accepted = matches!(&reply, Reply::Back { answer, .. } if answer.x0 == 0);
            if accepted && id == TOKEN_SIGN {
                only_waiting(&mut state.queue);
            }
            print_reply(out, reply);
        }
        1 => {
            let outcome = state.queue.sign(lent_by(input, step, 72));
            if outcome.is_ok() {
                only_waiting(&mut state.queue);
            }
            print_reply(out, outcome.into());
        }
        2 => {
            let (pa, size, c_size) = (x1, x2, x3);
            let call = TokenCall { pa, size, c_size };
            let part = challenge(state.record, &memory.page, call);
            write!(out, "challenge {}", part.len()).unwrap();
            print_bytes(out, part);
        }
        _ => match state.queue.oldest_request() {
            Some(request) => print_request(out, "oldest", request),
            None => out.push_str("oldest none\n"),
        },
    }
}

/// The bytes at the place that two words of an operation give.
fn lent_by<'a>(input: &'a [u8], step: &[u8], at: usize) -> &'a [u8] {
    let (from, length) = (size_at(step, at), size_at(step, at + 8));
    &input[from..from + length]
}

/// Applies the change that an operation names to what is expected.
fn lay(input: &[u8], step: &[u8], at: usize, expected: &mut [u8]) {
    let bytes = lent_by(input, step, at + 8);
    expected[size_at(step, at)..][..bytes.len()].copy_from_slice(bytes);
}

fn same_or_differs(same: bool) -> &'static str {
    if same {
        "same"
    } else {
        "differs"
    }
}

/// An operation of a case, on a state of a kind.
type Operation<T> = fn(&mut String, &[u8], &[u8], &mut T, &mut Memory);

/// The operations of a case, each with the state after it, and what waits at the end.
fn print_steps<T>(
    out: &mut String,
    input: &[u8],
    held_state: &mut T,
    operate: Operation<T>,
    state: fn(&T) -> State,
) {
    let mut held = Memory {
        page: lent(input, 80).to_vec(),
        table: lent(input, 96).to_vec(),
        realm: realm_words_at(input, 40),
    };
    let mut expected = held.clone();
    for step in input[168..].chunks_exact(136).take(size_at(input, 160)) {
        operate(out, input, step, held_state, &mut held);
        lay(input, step, 88, &mut expected.page);
        lay(input, step, 112, &mut expected.table);
        print_state(out, &state(held_state));
        let page = same_or_differs(held.page == expected.page);
        let table = same_or_differs(held.table == expected.table);
        writeln!(out, ", page {page}, table {table}").unwrap();
    }
    print_queue(out, &state(held_state).queue);
    print_realm_words(out, &held.realm);
}

fn print_runtime(out: &mut String, input: &[u8]) {
    let mut state = State {
        record: record_at(input),
        session: session_at(input),
        queue: queue_at(lent(input, 144)),
    };
    print_steps(out, input, &mut state, operate, State::clone);
}

#[test]
fn runtime_vectors() {
    compare("runtime_vectors", 998, print_runtime);
}
