//! The reference's states as images of words, and back. An image that no state has is read as the state that the header gives for it.

use crate::exports::{QueueImage, RecordImage, Registers, RequestImage, SessionImage, ViewImage};
use crate::reference::boot::{Kept, Record};
use crate::reference::codes::Answer;
use crate::reference::layout::{word_at, ENTRY_WORDS, SECTIONS};
use crate::reference::queue::{Queue, Request, Response, Ring, PLACES, SIGNATURE};
use crate::reference::reader::{Section, View};
use crate::reference::token::Session;
use std::array::from_fn;
use std::ops::Range;

/// Words of a request, and of a response.
const REQUEST: usize = 10;
const RESPONSE: usize = 16;
/// Where the requests begin, and the responses.
const REQUESTS: usize = 2;
const RESPONSES: usize = REQUESTS + PLACES * REQUEST;

/// The boot record of an image.
#[inline]
pub fn record_of(image: &RecordImage) -> Record {
    let [tag, cpus, base, minor, kept] = *image;
    match tag {
        0 => Record::Fresh,
        1 => Record::Up(Kept {
            cpus,
            base,
            minor,
            kept,
        }),
        _ => Record::Closed,
    }
}

/// The image of a boot record.
#[inline]
pub fn record_words(record: Record) -> RecordImage {
    match record {
        Record::Fresh => [0; 5],
        Record::Up(Kept {
            cpus,
            base,
            minor,
            kept,
        }) => [1, cpus, base, minor, kept],
        Record::Closed => [2, 0, 0, 0, 0],
    }
}

/// The token session of an image.
#[inline]
pub fn session_of(image: &SessionImage) -> Session {
    let [tag, whole, sent] = *image;
    match tag {
        0 => Session::Idle,
        _ => Session::Sending { whole, sent },
    }
}

/// The image of a token session.
#[inline]
pub fn session_words(session: Session) -> SessionImage {
    match session {
        Session::Idle => [0; 3],
        Session::Sending { whole, sent } => [1, whole, sent],
    }
}

/// x0 to x2 of an answer.
#[inline]
pub fn registers(answer: Answer) -> Registers {
    [answer.x0, answer.x1, answer.x2]
}

/// The image of a view.
pub fn view_words(view: &View) -> ViewImage {
    let mut image = [0; 15];
    image[..3].copy_from_slice(&[u64::from(view.minor), view.edition.number(), view.plat_data]);
    for (words, section) in image[3..].chunks_exact_mut(3).zip(view.sections) {
        words.copy_from_slice(&match section {
            Section::Absent => [0, 0, 0],
            Section::Empty => [1, 0, 0],
            Section::Entries { offset, count } => [2, offset as u64, count as u64],
        });
    }
    image
}

/// The bytes of a section's array in a page of `length` bytes; `None` if the array is not in the page.
pub fn part_of(length: usize, view: &ViewImage, section: usize) -> Option<Range<usize>> {
    if section >= SECTIONS {
        return None;
    }
    let words = &view[3 + 3 * section..][..3];
    if words[0] < 2 {
        return None;
    }
    let size = words[2].checked_mul(8 * ENTRY_WORDS[section] as u64)?;
    let end = words[1].checked_add(size)?;
    (size != 0 && end <= length as u64).then_some(words[1] as usize..end as usize)
}

/// The queue of an image.
pub fn queue_of(image: &QueueImage) -> Queue {
    // A count above eight means eight: take the minimum before the cast, so that no bits are lost.
    let count = |i: usize| image[i].min(PLACES as u64) as usize;
    Queue {
        requests: Ring::new(from_fn(|i| request_of(image, i)), count(0)),
        responses: Ring::new(from_fn(|i| response_of(image, i)), count(1)),
    }
}

/// The image that holds what waits and nothing else: zero past each count, and past each signature.
pub fn queue_words(queue: &Queue) -> QueueImage {
    let mut image = [0; 210];
    image[0] = queue.requests.len() as u64;
    image[1] = queue.responses.len() as u64;
    let (requests, responses) = image[REQUESTS..].split_at_mut(RESPONSES - REQUESTS);
    let places = requests.chunks_exact_mut(REQUEST);
    for (place, request) in places.zip(queue.requests.iter()) {
        place.copy_from_slice(&request_words(request));
    }
    let places = responses.chunks_exact_mut(RESPONSE);
    for (place, response) in places.zip(queue.responses.iter()) {
        place.copy_from_slice(&response_words(response));
    }
    image
}

/// The image after an accepted step. A side with one more has its newest in the row after those that waited; a side with one less is
/// moved up and its freed place zeroed; a side with the same count has no changed word. `before` has both counts.
pub fn put_moves(image: &mut QueueImage, before: [usize; 2], after: &Queue) {
    let counts = [after.requests.len(), after.responses.len()];
    for (word, (was, is)) in image.iter_mut().zip(before.into_iter().zip(counts)) {
        if was != is {
            *word = is as u64;
        }
    }
    let (requests, responses) = image[REQUESTS..].split_at_mut(RESPONSES - REQUESTS);
    let newest = after.requests.iter().last().map(request_words);
    move_rows(requests, before[0], counts[0], newest);
    let newest = after.responses.iter().last().map(response_words);
    move_rows(responses, before[1], counts[1], newest);
}

fn move_rows<const N: usize>(
    rows: &mut [u64],
    before: usize,
    after: usize,
    newest: Option<[u64; N]>,
) {
    if after < before {
        rows.copy_within(N..N * before, 0);
        rows[N * after..N * before].fill(0);
    }
    if let (true, Some(words)) = (before < after, newest) {
        rows[N * before..N * after].copy_from_slice(&words);
    }
}

/// The image of a request.
pub fn request_words(request: &Request) -> RequestImage {
    let mut image = [0; REQUEST];
    image[..4].copy_from_slice(&[
        request.algorithm,
        request.granule,
        request.ticket,
        request.hash_id,
    ]);
    put_bytes(&mut image[4..], &request.hash);
    image
}

fn request_of(image: &QueueImage, i: usize) -> Request {
    let words = &image[REQUESTS + REQUEST * i..][..REQUEST];
    Request {
        algorithm: words[0],
        granule: words[1],
        ticket: words[2],
        hash_id: words[3],
        hash: bytes_of(&words[4..]),
    }
}

fn response_of(image: &QueueImage, i: usize) -> Response {
    let words = &image[RESPONSES + RESPONSE * i..][..RESPONSE];
    Response {
        granule: words[0],
        ticket: words[1],
        len: words[2].min(SIGNATURE as u64) as usize,
        signature: bytes_of(&words[3..]),
    }
}

fn response_words(response: &Response) -> [u64; RESPONSE] {
    let signature = response.signature();
    let mut image = [0; RESPONSE];
    image[..3].copy_from_slice(&[response.granule, response.ticket, signature.len() as u64]);
    let mut bytes = [0; SIGNATURE];
    bytes[..signature.len()].copy_from_slice(signature);
    put_bytes(&mut image[3..], &bytes);
    image
}

fn put_bytes(words: &mut [u64], bytes: &[u8]) {
    for (word, cell) in words.iter_mut().zip(bytes.chunks_exact(8)) {
        *word = word_at(cell, 0);
    }
}

fn bytes_of<const N: usize>(words: &[u64]) -> [u8; N] {
    let mut bytes = [0; N];
    for (cell, word) in bytes.chunks_exact_mut(8).zip(words) {
        cell.copy_from_slice(&word.to_le_bytes());
    }
    bytes
}
