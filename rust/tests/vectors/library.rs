//! The same cases through the library's exports, on images and lent slices as a C caller has them. On x86-64 the programs of
//! crates/*_vectors do it too; this is what can be run on another machine.

use crate::*;
use potterbeam_tests::exports::{
    Exports, FieldImage, Lent as LentTo, QueueImage, RecordImage, SessionImage, ViewImage,
};
use potterbeam_tests::images::{record_of, record_words, session_of, session_words};
use potterbeam_tests::kit::Kit;
use potterbeam_tests::pages::PageExports;

/// PBEAM_LISTING_ROOM: no listing is longer.
const LISTING_ROOM: usize = 12336;

fn list_page(out: &mut String, page: &[u8], base: u64, edition: u64) {
    let mut text = [0; LISTING_ROOM];
    let length = Kit::listing(page, base, edition, &mut text);
    out.push_str(std::str::from_utf8(&text[..length]).expect("text"));
}

fn print_registers(out: &mut String, [x0, x1, x2]: [u64; 3]) {
    writeln!(out, "registers {x0:016x} {x1:016x} {x2:016x}").unwrap();
}

fn print_same(out: &mut String, name: &str, held: &[u8], expected: &[u8]) {
    writeln!(out, "{name} {}as expected", not_if(held != expected)).unwrap();
}

// ---- Manifest ----

fn print_reading(out: &mut String, input: &[u8]) {
    let (edition, base, page) = (word_at(input, 0), word_at(input, 8), &input[16..]);
    list_page(out, page, base, edition);
    for k in 0..5 {
        let mut place = [0; 2];
        Kit::array(page, base, edition, k, &mut place);
        let part = &page[place[0] as usize..][..place[1] as usize];
        writeln!(out, "array {k} {} {:016x}", part.len(), mark(part)).unwrap();
    }
    let mut view = [0; 15];
    if Kit::read(page, base, edition, &mut view) == 0 {
        let asked = |ask: &dyn Fn(&mut FieldImage)| {
            let mut field = [0; 4];
            ask(&mut field);
            let [there, tag, at, length] = field;
            let value = &page[at as usize..][..length as usize];
            let tag = tag as u8;
            match there {
                0 => None,
                1 => Some(Shown::Raw(Field { tag, value })),
                _ => {
                    assert_eq!(field, [2, 3, 0, 0]);
                    Some(Shown::Withdrawn)
                }
            }
        };
        print_fields(
            out,
            Kit::field_count(page, &view),
            |tag| asked(&|field| Kit::field_of_tag(page, &view, tag, field)),
            |i| asked(&|field| Kit::field(page, &view, i, field)),
        );
        print_walk(page, &view);
        print_consoles(out, |name| {
            let found = Kit::console_named(page, &view, name);
            (found != usize::MAX).then_some(found)
        });
    }
}

/// The walk by a cursor passes the same fields as the lookup by number, and ends after the last.
fn print_walk(page: &[u8], view: &ViewImage) {
    let mut cursor = Kit::field_start(page, view);
    for i in 0..=Kit::field_count(page, view) {
        let [mut walked, mut asked] = [[7; 4]; 2];
        cursor = Kit::field_next(page, cursor, &mut walked);
        Kit::field(page, view, i, &mut asked);
        assert_eq!(walked, asked);
    }
    assert_eq!(cursor, page.len());
}

#[test]
fn reader() {
    compare("reader_vectors", 838, |out, input| {
        if input.len() >= 16 {
            print_reading(out, input);
        }
    });
}

/// The input is 8 bytes of base, then the page; one without a base has no page either.
fn list_input(out: &mut String, input: &[u8]) {
    match input.len() < 8 {
        true => list_page(out, &[], 0, 4),
        false => list_page(out, &input[8..], word_at(input, 0), 4),
    }
}

#[test]
fn listings() {
    compare_all_listings(list_input);
}

fn print_writing(out: &mut String, input: &[u8]) {
    let (base, edition) = (word_at(input, 0), word_at(input, 8));
    let mut page = vec![word_at(input, 16) as u8; size_at(input, 24)];
    let mut rest = &input[64..];
    let lists = [32, 40, 48, 56].map(|at| words(take(&mut rest, 8 * size_at(input, at))));
    let [dram, console, ncoh, coh] = &lists;
    let expected = take(&mut rest, page.len());
    let refusal = Kit::write(base, edition, [dram, console, ncoh, coh], rest, &mut page);
    match refusal {
        0 => writeln!(out, "made"),
        _ => writeln!(out, "refused W{refusal}"),
    }
    .unwrap();
    print_same(out, "page", &page, expected);
    for edition in 1..=4 {
        if refusal == 0 {
            writeln!(out, "edition {edition}").unwrap();
            list_page(out, &page, base, edition);
        }
    }
}

#[test]
fn writer() {
    compare("writer_vectors", 442, print_writing);
}

// ---- Packer and mender ----

#[test]
fn pages() {
    let side = Pages {
        pack: Kit::pack,
        mend: |page, base| {
            let mut changed = [7; 6];
            match Kit::mend(page, base, &mut changed) {
                0 => Ok(changed),
                code => {
                    assert_eq!(changed, [0; 6]);
                    Err(code)
                }
            }
        },
        list: |out, page, base| list_page(out, page, base, 4),
    };
    compare("page_vectors", 525, |out, input| {
        print_page(out, input, &side)
    });
}

// ---- Boot ----

fn print_boots(out: &mut String, input: &[u8]) {
    let mut record = record_words(record_at(input));
    let mut rest = &input[48..];
    for _ in 0..word_at(input, 40) {
        let step = take(&mut rest, 64);
        let page = take(&mut rest, size_at(step, 56));
        let x = [8, 16, 24, 32].map(|at| word_at(step, at));
        let code = match word_at(step, 0) {
            0 => Kit::cold_boot(&mut record, x, word_at(step, 40), word_at(step, 48), page),
            _ => Kit::warm_boot(&mut record, x),
        };
        write!(out, "code {code}").unwrap();
        print_record(out, record_of(&record));
    }
}

#[test]
fn boot() {
    compare("boot_vectors", 345, print_boots);
}

// ---- Commands ----

const INVAL: u64 = -5i64 as u64;

fn ask(banks: &GranulesImage, table: &[u8], realm: &mut [u64], index: u64) -> Told {
    let ([mut number, mut found], fits) = ([[7]; 2], |x0| x0 != INVAL);
    let count = fits(Kit::realm_count(banks, realm, &mut number)).then_some(number[0]);
    let next = Kit::realm_next(banks, realm, index, &mut found);
    let agrees = Kit::realm_agrees(banks, table, realm);
    (
        count,
        fits(next).then_some((next == 0).then_some(found[0])),
        fits(agrees).then_some(agrees == 0),
        fits(Kit::realm_build(banks, table, realm)),
    )
}

fn print_list(out: &mut String, input: &[u8]) {
    match word_at(input, 40) {
        2 => return print_set_up(out, input, Kit::set_up_granules),
        3 => return print_questions(out, input, ask),
        _ => {}
    }
    let (record, banks) = (record_words(record_at(input)), &granules_at(input, 48));
    let mut realm = realm_words_at(input, 48);
    let [in_table, length] = [56, 64].map(|at| size_at(input, at));
    let mut rest = &input[72..];
    let mut table = take(&mut rest, in_table).to_vec();
    let list = words(take(&mut rest, 8 * length));
    let mut registers = [0; 3];
    match word_at(input, 40) {
        0 => Kit::delegate_list(
            &record,
            banks,
            &mut table,
            &mut realm,
            &list,
            &mut registers,
        ),
        _ => Kit::undelegate_list(
            &record,
            banks,
            &mut table,
            &mut realm,
            &list,
            &mut registers,
        ),
    }
    print_registers(out, registers);
    print_same(out, "table", &table, take(&mut rest, in_table));
    print_realm_words(out, &realm);
}

#[test]
fn granules() {
    compare("granule_vectors", 997, print_list);
}

fn print_command(out: &mut String, input: &[u8]) {
    let (record, banks) = (record_words(record_at(input)), &granules_at(input, 72));
    let [id, x1, x2, x3, width] = [40, 48, 56, 64, 80].map(|at| word_at(input, at));
    let [in_table, in_key, in_page] = [88, 96, 104].map(|at| size_at(input, at));
    let mut rest = &input[112..];
    let mut table = take(&mut rest, in_table).to_vec();
    let key = take(&mut rest, in_key);
    let mut page = take(&mut rest, in_page).to_vec();
    // The registers' contents before a call do not matter.
    let (mut registers, mut work) = ([u64::MAX; 3], [0; 2]);
    let mut realm = realm_words_at(input, 72);
    match id {
        0xC400_01B0 => Kit::delegate(&record, banks, &mut table, &mut realm, x1, &mut registers),
        0xC400_01B1 => Kit::undelegate(&record, banks, &mut table, &mut realm, x1, &mut registers),
        0xC400_01B2 => Kit::realm_key(&record, &mut page, key, [x1, x2, x3], &mut registers),
        0xC400_01B4 => Kit::features(&record, x1, &mut registers),
        0xC400_01B6 => Kit::key_update(&record, width, x1, &mut registers, &mut work),
        _ => work = [2, Kit::forward(&record, x1)],
    }
    if work[0] != 2 {
        print_registers(out, registers);
    }
    match work {
        [1, mecid] => writeln!(out, "reprogram {mecid:016x}").unwrap(),
        [2, error] => writeln!(out, "forward {error:016x}").unwrap(),
        _ => {}
    }
    print_same(out, "table", &table, take(&mut rest, in_table));
    print_same(out, "page", &page, take(&mut rest, in_page));
    print_realm_words(out, &realm);
}

#[test]
fn commands() {
    compare("command_vectors", 1000, print_command);
}

// ---- The runtime ----

struct Images {
    record: RecordImage,
    session: SessionImage,
    queue: QueueImage,
}

impl Images {
    /// The state of the images, with counts and lengths as the words have them.
    fn state(&self) -> State {
        let bytes: Vec<u8> = self.queue.iter().flat_map(|w| w.to_le_bytes()).collect();
        State {
            record: record_of(&self.record),
            session: session_of(&self.session),
            queue: queue_at(&bytes),
        }
    }

    /// The expected text is of a queue by value, in which an accepted call settles both sides; on the image it touches only what it needs.
    /// Both mean the same queue.
    fn settle(&mut self) {
        self.queue = queue_words(&queue_of(&self.queue));
    }
}

fn print_work(out: &mut String, [x0, x1, x2]: [u64; 3], work: [u64; 2]) {
    let answer = Answer { x0, x1, x2 };
    print_reply(
        out,
        match work {
            [2, error] => Reply::Forward(error),
            [kind, mecid] => Reply::Back {
                answer,
                reprogram: (kind == 1).then_some(mecid),
            },
        },
    );
}

fn call_by_id(out: &mut String, input: &[u8], step: &[u8], images: &mut Images, held: &mut Memory) {
    let (mut registers, mut work) = ([0; 3], [0; 2]);
    let x = [8, 16, 24, 32, 40].map(|at| word_at(step, at));
    let mut lent = LentTo {
        page: &mut held.page,
        granules: &granules_at(input, 40),
        table: &mut held.table,
        words: &mut held.realm,
        key: lent(input, 112),
        token: lent_by(input, step, 56),
        busy: word_at(step, 48),
        public_key: lent(input, 128),
        width: word_at(input, 48),
    };
    let Images {
        record,
        session,
        queue,
    } = images;
    Kit::call(
        record,
        session,
        queue,
        &mut lent,
        &x,
        &mut registers,
        &mut work,
    );
    if registers[0] == 0 && x[0] == TOKEN_SIGN {
        images.settle();
    }
    print_work(out, registers, work);
}

fn operate(out: &mut String, input: &[u8], step: &[u8], images: &mut Images, held: &mut Memory) {
    let mut registers = [0; 3];
    match word_at(step, 0) {
        0 => call_by_id(out, input, step, images, held),
        1 => {
            Kit::sign(&mut images.queue, lent_by(input, step, 72), &mut registers);
            if registers[0] == 0 {
                images.settle();
            }
            print_work(out, registers, [0; 2]);
        }
        2 => {
            let (x, mut place) = ([16, 24, 32].map(|at| word_at(step, at)), [0; 2]);
            Kit::challenge(&images.record, &held.page, x, &mut place);
            let part = &held.page[place[0] as usize..][..place[1] as usize];
            write!(out, "challenge {}", part.len()).unwrap();
            print_bytes(out, part);
        }
        _ => {
            let mut request = [0; 10];
            if Kit::oldest(&images.queue, &mut request) == 0 {
                out.push_str("oldest none\n");
                return;
            }
            let mut image = vec![0; 16];
            image.extend(request.iter().flat_map(|word: &u64| word.to_le_bytes()));
            print_request(out, "oldest", &request_at(&image, 0));
        }
    }
}

fn print_runtime(out: &mut String, input: &[u8]) {
    let mut queue = [0; 210];
    for (word, bytes) in queue.iter_mut().zip(lent(input, 144).chunks_exact(8)) {
        *word = word_at(bytes, 0);
    }
    let mut images = Images {
        record: record_words(record_at(input)),
        session: session_words(session_at(input)),
        queue,
    };
    print_steps(out, input, &mut images, operate, Images::state);
}

#[test]
fn runtime() {
    compare("runtime_vectors", 998, print_runtime);
}
