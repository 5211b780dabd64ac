//! The reference on the library's images: each export reads the image, does the step, and writes back what the step changed. A
//! refused command leaves its images unchanged, for any contents; a boot always writes the record.

use crate::exports::{
    Exports, FieldImage, GranulesImage, Lent, Place, QueueImage, RecordImage, Registers,
    RequestImage, SessionImage, ViewImage, Work,
};
use crate::images::{
    part_of, put_moves, queue_of, record_of, record_words, registers, request_words, session_of,
    session_words, view_words,
};
use crate::reference::banks::set_up;
use crate::reference::boot::{boot_code, BootError, Record};
use crate::reference::codes::{Answer, Outcome};
use crate::reference::features::{features, forward, key_update};
use crate::reference::fields::{fields_end, split_field, Shown};
use crate::reference::granules::{delegate, delegate_list, undelegate, undelegate_list};
use crate::reference::key::realm_key;
use crate::reference::layout::{accepted_minor, Edition, CONSOLE, ENTRY_WORDS, PAGE, SECTIONS};
use crate::reference::listing::list;
use crate::reference::queue::Queue;
use crate::reference::reader::{array, console_named, fields, pointed, read, shown_word};
use crate::reference::realm_words;
use crate::reference::runtime::{self, call, Call, Reply, State, PLAT_TOKEN, TOKEN_SIGN};
use crate::reference::signing::{token_sign, SignCall};
use crate::reference::token::{challenge, challenge_checks, TokenCall};
use crate::reference::writer::write;

/// The reference, with the library's signature.
#[derive(Clone, Copy, Debug)]
pub struct Model;

impl Exports for Model {
    fn read(page: &[u8], base: u64, edition: u64, view: &mut ViewImage) -> i32 {
        let answer = read(page, base, edition);
        *view = answer.as_ref().map_or([0; 15], view_words);
        answer.map_or_else(|refusal| refusal.code(), |_| 0)
    }

    fn array(page: &[u8], base: u64, edition: u64, section: usize, place: &mut Place) {
        *place = place_in(page, array(page, base, edition, section));
    }

    fn array_of(page: &[u8], view: &ViewImage, section: usize, place: &mut Place) {
        let part = part_of(page.len(), view, section);
        *place = part.map_or([0; 2], |part| [part.start as u64, part.len() as u64]);
    }

    fn count(page: &[u8], view: &ViewImage, section: usize) -> usize {
        let part = part_of(page.len(), view, section);
        part.map_or(0, |_| view[5 + 3 * section] as usize)
    }

    fn word(page: &[u8], view: &ViewImage, section: usize, entry: usize, word: usize) -> u64 {
        let part = match part_of(page.len(), view, section) {
            Some(part) => &page[part],
            None => return 0,
        };
        let mut entries = part.chunks_exact(8 * ENTRY_WORDS[section]);
        match entries.nth(entry) {
            Some(entry) if word < ENTRY_WORDS[section] => shown_word(view[0], section, entry, word),
            _ => 0,
        }
    }

    fn console_named(page: &[u8], view: &ViewImage, name: &[u8; 8]) -> usize {
        let part = part_of(page.len(), view, CONSOLE);
        let found = part.and_then(|part| console_named(&page[part], name));
        found.unwrap_or(usize::MAX)
    }

    fn field_count(page: &[u8], view: &ViewImage) -> usize {
        fields(page, view[2]).len()
    }

    fn field(page: &[u8], view: &ViewImage, index: usize, field: &mut FieldImage) {
        let shown = fields(page, view[2]);
        *field = field_words(page, shown.get(index));
    }

    fn field_of_tag(page: &[u8], view: &ViewImage, tag: u8, field: &mut FieldImage) {
        let shown = fields(page, view[2]);
        *field = field_words(page, shown.iter().find(|field| field.tag() == tag));
    }

    /// A cursor is an offset; the cursor after the last field is the page's length.
    fn field_start(page: &[u8], view: &ViewImage) -> usize {
        let fields = pointed(page, view[2]);
        match fields_end(fields) {
            Some(_) => page.len() - fields.len(),
            None => page.len(),
        }
    }

    fn field_next(page: &[u8], cursor: usize, field: &mut FieldImage) -> usize {
        match page.get(cursor..).and_then(split_field) {
            Some((found, rest)) if found.tag != 0 => {
                *field = field_words(page, Some(&found.shown()));
                page.len() - rest.len()
            }
            _ => {
                *field = field_words(page, None);
                page.len()
            }
        }
    }

    fn kept_for(page: &[u8], view: &ViewImage) -> u64 {
        let edition = Edition::new(view[1].clamp(1, 4)).expect("an edition");
        let parts = (0..SECTIONS).filter_map(|section| part_of(PAGE, view, section));
        let end = parts.map(|part| part.end).fold(edition.core(), usize::max);
        let end = end.max(fields_reach(page, view[2]));
        (end as u64 + 7) / 8 * 8
    }

    fn listing(page: &[u8], base: u64, edition: u64, text: &mut [u8]) -> usize {
        let mut whole = String::new();
        list(&mut whole, page, base, edition).expect("a string takes any text");
        let fits = whole.len().min(text.len());
        text[..fits].copy_from_slice(&whole.as_bytes()[..fits]);
        whole.len()
    }

    fn write(base: u64, edition: u64, lists: [&[u64]; 4], fields: &[u8], page: &mut [u8]) -> u32 {
        write(base, edition, lists, fields, page).map_or_else(|refusal| refusal as u32, |()| 0)
    }

    fn cold_boot(state: &mut RecordImage, x: [u64; 4], most: u64, kept: u64, page: &[u8]) -> i32 {
        boot(state, |record| record.cold(x, most, kept, page))
    }

    fn warm_boot(state: &mut RecordImage, x: [u64; 4]) -> i32 {
        boot(state, |record| record.warm(x))
    }

    fn close(state: &mut RecordImage) {
        *state = record_words(Record::Closed);
    }

    fn version_accepted(version: u64) -> bool {
        u32::try_from(version).map_or(false, |version| accepted_minor(version).is_some())
    }

    fn agreed_minor(version: u64) -> u64 {
        (version & 0xFFFF).min(5)
    }

    fn is_later(a: u64, b: u64) -> bool {
        a > b
    }

    fn set_up_granules(granules: &mut GranulesImage, banks: &[u8], in_table: u64) -> u64 {
        let made = set_up(banks, in_table);
        if let Ok(record) = made {
            *granules = record;
        }
        let [x0, ..] = answered(made.map(|_| [0, 0]));
        x0
    }

    fn delegate(
        state: &RecordImage,
        granules: &GranulesImage,
        table: &mut [u8],
        words: &mut [u64],
        at: u64,
        out: &mut Registers,
    ) {
        *out = answered(delegate(record_of(state), granules, table, words, at));
    }

    fn undelegate(
        state: &RecordImage,
        granules: &GranulesImage,
        table: &mut [u8],
        words: &mut [u64],
        at: u64,
        out: &mut Registers,
    ) {
        *out = answered(undelegate(record_of(state), granules, table, words, at));
    }

    fn delegate_list(
        state: &RecordImage,
        granules: &GranulesImage,
        table: &mut [u8],
        words: &mut [u64],
        addresses: &[u64],
        out: &mut Registers,
    ) {
        let listed = delegate_list(record_of(state), granules, table, words, addresses);
        *out = registers(Answer::from(listed));
    }

    fn undelegate_list(
        state: &RecordImage,
        granules: &GranulesImage,
        table: &mut [u8],
        words: &mut [u64],
        addresses: &[u64],
        out: &mut Registers,
    ) {
        let listed = undelegate_list(record_of(state), granules, table, words, addresses);
        *out = registers(Answer::from(listed));
    }

    fn realm_count(granules: &GranulesImage, words: &[u64], number: &mut [u64; 1]) -> u64 {
        let counted = realm_words::count(granules, words);
        *number = [counted.unwrap_or(0)];
        let [x0, ..] = answered(counted.map(|_| [0, 0]));
        x0
    }

    fn realm_next(
        granules: &GranulesImage,
        words: &[u64],
        index: u64,
        found: &mut [u64; 1],
    ) -> u64 {
        let next = realm_words::next(granules, words, index);
        *found = [next.ok().flatten().unwrap_or(0)];
        match next {
            Ok(None) => 1,
            other => {
                let [x0, ..] = answered(other.map(|_| [0, 0]));
                x0
            }
        }
    }

    fn realm_agrees(granules: &GranulesImage, table: &[u8], words: &[u64]) -> u64 {
        match realm_words::agrees(granules, table, words) {
            Ok(false) => 1,
            other => {
                let [x0, ..] = answered(other.map(|_| [0, 0]));
                x0
            }
        }
    }

    fn realm_build(granules: &GranulesImage, table: &[u8], words: &mut [u64]) -> u64 {
        let [x0, ..] = answered(realm_words::build(granules, table, words).map(|()| [0, 0]));
        x0
    }

    fn realm_key(
        state: &RecordImage,
        page: &mut [u8],
        key: &[u8],
        [pa, size, curve]: [u64; 3],
        out: &mut Registers,
    ) {
        *out = answered(realm_key(record_of(state), page, key, pa, size, curve));
    }

    fn platform_token(
        state: &RecordImage,
        session: &mut SessionImage,
        page: &mut [u8],
        token: &[u8],
        busy: u64,
        x: [u64; 3],
        out: &mut Registers,
    ) {
        let mut next = session_of(session);
        let outcome = next.send(record_of(state), page, busy != 0, token, token_call(x));
        *out = answered(outcome);
        if outcome.is_ok() {
            *session = session_words(next);
        }
    }

    fn challenge(state: &RecordImage, page: &[u8], x: [u64; 3], place: &mut Place) -> u64 {
        let (record, call) = (record_of(state), token_call(x));
        *place = place_in(page, challenge(record, page, call));
        let [x0, ..] = answered(challenge_checks(record, page, call));
        x0
    }

    fn features(state: &RecordImage, index: u64, out: &mut Registers) {
        *out = answered(features(record_of(state), index));
    }

    fn token_signing(
        state: &RecordImage,
        queue: &mut QueueImage,
        page: &mut [u8],
        key: &[u8],
        [opcode, pa, size, curve]: [u64; 4],
        out: &mut Registers,
    ) {
        let call = SignCall {
            opcode,
            pa,
            size,
            curve,
        };
        *out = on_queue(queue, |queue| {
            token_sign(record_of(state), queue, page, key, call)
        });
    }

    fn key_update(
        state: &RecordImage,
        width: u64,
        mecid: u64,
        out: &mut Registers,
        work: &mut Work,
    ) {
        let mecid = key_update(record_of(state), width, mecid);
        *out = answered(mecid.map(|_| [0, 0]));
        *work = mecid.map_or([0, 0], |mecid| [1, mecid]);
    }

    fn forward(_: &RecordImage, x1: u64) -> u64 {
        forward(x1)
    }

    fn sign(queue: &mut QueueImage, signature: &[u8], out: &mut Registers) {
        *out = on_queue(queue, |queue| queue.sign(signature));
    }

    fn responses(queue: &QueueImage) -> usize {
        queue[1].min(8) as usize
    }

    fn oldest(queue: &QueueImage, request: &mut RequestImage) -> usize {
        let queue = queue_of(queue);
        let oldest = queue.oldest_request();
        *request = oldest.map_or([0; 10], request_words);
        queue.requests.len()
    }

    fn call(
        state: &RecordImage,
        session: &mut SessionImage,
        queue: &mut QueueImage,
        lent: &mut Lent,
        x: &[u64; 5],
        out: &mut Registers,
        work: &mut Work,
    ) {
        let mut next = State {
            record: record_of(state),
            session: session_of(session),
            queue: queue_of(queue),
        };
        let before = counts(&next.queue);
        let [id, x @ ..] = *x;
        (*out, *work) = replied(call(&mut next, &mut native(lent), Call { id, x }));
        // Only the command that uses a state touches its image.
        if out[0] == 0 && id == PLAT_TOKEN {
            *session = session_words(next.session);
        }
        if out[0] == 0 && id == TOKEN_SIGN {
            put_moves(queue, before, &next.queue);
        }
    }
}

fn answered(outcome: Outcome) -> Registers {
    registers(Answer::from(outcome))
}

fn replied(reply: Reply) -> (Registers, Work) {
    match reply {
        Reply::Forward(error) => ([0; 3], [2, error]),
        Reply::Back { answer, reprogram } => (
            registers(answer),
            reprogram.map_or([0, 0], |mecid| [1, mecid]),
        ),
    }
}

fn boot(
    state: &mut RecordImage,
    step: impl FnOnce(Record) -> (Record, Result<(), BootError>),
) -> i32 {
    let (next, answer) = step(record_of(state));
    *state = record_words(next);
    boot_code(answer)
}

/// How many requests wait, and how many responses.
fn counts(queue: &Queue) -> [usize; 2] {
    [queue.requests.len(), queue.responses.len()]
}

/// A step of the queue. What moves is written, but only if the step is accepted.
fn on_queue(image: &mut QueueImage, step: impl FnOnce(&mut Queue) -> Outcome) -> Registers {
    let mut queue = queue_of(image);
    let before = counts(&queue);
    let outcome = step(&mut queue);
    if outcome.is_ok() {
        put_moves(image, before, &queue);
    }
    answered(outcome)
}

fn token_call([pa, size, c_size]: [u64; 3]) -> TokenCall {
    TokenCall { pa, size, c_size }
}

fn native<'a>(lent: &'a mut Lent) -> runtime::Lent<'a> {
    runtime::Lent {
        page: lent.page,
        table: lent.table,
        words: lent.words,
        banks: lent.granules,
        realm_key: lent.key,
        public_key: lent.public_key,
        token: lent.token,
        busy: lent.busy != 0,
        width: lent.width,
    }
}

/// The end of the fields in a page, after their mark; the page's end if they are broken, 0 without a pointer.
fn fields_reach(page: &[u8], plat_data: u64) -> usize {
    let start = (plat_data % PAGE as u64) as usize;
    match (plat_data, fields_end(pointed(page, plat_data))) {
        (0, _) => 0,
        (_, Some(length)) => PAGE.min(start + length),
        (_, None) => PAGE,
    }
}

/// A field of the page. An empty value also has a place, after its length; a withdrawn one has none.
fn field_words(page: &[u8], shown: Option<&Shown>) -> FieldImage {
    match shown {
        Some(Shown::Raw(field)) => {
            let offset = field.value.as_ptr() as usize - page.as_ptr() as usize;
            [1, field.tag.into(), offset as u64, field.value.len() as u64]
        }
        Some(Shown::Withdrawn) => [2, 3, 0, 0],
        None => [0; 4],
    }
}

/// Offset and length of a part of the page.
fn place_in(page: &[u8], part: &[u8]) -> Place {
    if part.is_empty() {
        return [0; 2];
    }
    let offset = part.as_ptr() as usize - page.as_ptr() as usize;
    [offset as u64, part.len() as u64]
}
