//! The other side of the benchmark for reader, lookups, listing, writer, packer and mender: hand-written for speed, with the parameters of
//! the C functions. It writes the view's words while it checks the sections, checks one entry without a loop, adds a list while it checks
//! it, and makes the page in the order of addresses. A lookup decodes its one section, and finds a field while it checks them.
//! `tests/fast.rs` compares it with the reference.

use crate::exports::{FieldImage, Place, ViewImage};
use crate::pages::ReportImage;
use crate::reference::entries::{bank_sum, console_sum};
use crate::reference::layout::{
    accepted_minor, half_at, header_offset, placed_mut, word_at, Edition, CONSOLE, ENTRY_WORDS,
    PAGE, SECTIONS,
};
use crate::reference::writer::Lists;
use crate::sse2;

const PLACE: i32 = -5;
const VERSION: i32 = -6;
const RULES: i32 = -7;
/// Up to this many banks are checked one by one: a loop over two at a time costs more to start than it saves.
const FEW: usize = 4;

/// `pbeam_read`.
#[inline(never)]
pub fn read(page: &[u8], base: u64, edition: u64, view: &mut ViewImage) -> i32 {
    let code = judge::<true>(page, base, edition, view);
    if code != 0 {
        *view = [0; 15];
    }
    code
}

/// The code of reading a page at edition 4, without a view: what a cold boot needs.
#[inline]
pub fn accepts(page: &[u8], base: u64) -> i32 {
    judge::<false>(page, base, 4, &mut [0; 15])
}

/// `pbeam_kept_for`. Skips a count or an offset that no page has, so that no sum wraps.
#[inline(never)]
pub fn kept_for(page: &[u8], view: &ViewImage) -> u64 {
    const CORE: [u64; 5] = [16, 16, 40, 64, 112];
    let mut end = CORE[view[1].min(4) as usize];
    if view[2] != 0 {
        let from = (view[2] % PAGE as u64) as usize;
        end = end.max(fields_end(page, from).map_or(PAGE, |past| past.min(PAGE)) as u64);
    }
    for (k, section) in view[3..].chunks_exact(3).enumerate() {
        let (kind, offset, count) = (section[0], section[1], section[2]);
        let size = if k == CONSOLE { 48 } else { 16 };
        if kind > 1 && offset <= PAGE as u64 && (1..=256).contains(&count) {
            let past = offset + count * size;
            if past <= PAGE as u64 {
                end = end.max(past);
            }
        }
    }
    (end + 7) & !7
}

/// The code of a page. If VIEW, writes the view of what was checked.
#[inline(always)]
fn judge<const VIEW: bool>(page: &[u8], base: u64, edition: u64, view: &mut ViewImage) -> i32 {
    // Rotated right by 12 an unaligned base becomes huge; so does 0, after 1 is subtracted.
    let page_index = base.rotate_right(12).wrapping_sub(1);
    let page: &[u8; PAGE] = match page.try_into() {
        Ok(page) if page_index < (1 << 40) - 1 => page,
        _ => return PLACE,
    };
    let head = word_at(page, 0);
    if edition.wrapping_sub(1) >= 4 || (head as u32).wrapping_sub(1) >= 0xFFFF {
        return VERSION;
    }
    if head >> 32 != 0 {
        return RULES;
    }
    let edition = edition.min(head);
    let sections = edition - 1 + (edition >> 2);
    let (core, plat) = (16 + 24 * sections, word_at(page, 8));
    let inside = plat.wrapping_sub(base).wrapping_sub(core) < PAGE as u64 - core;
    if plat != 0 && !inside {
        return RULES;
    }
    if VIEW {
        view[0] = head;
        view[1] = edition;
        view[2] = plat;
    }
    let bounds = match show_sections::<VIEW>(page, base, core, sections, head, view) {
        Some(bounds) => bounds,
        None => return RULES,
    };
    match plat == 0 || fields_apart(page, plat - base, &bounds) {
        true => 0,
        false => RULES,
    }
}

/// Whether the fields from an offset on are good and share no byte with an array.
#[inline(never)]
fn fields_apart(page: &[u8; PAGE], from: u64, arrays: &[Bounds; SECTIONS]) -> bool {
    match fields_end(page, from as usize) {
        Some(end) => arrays.iter().all(|&array| apart(array, (from, end as u64))),
        None => false,
    }
}

/// Where the fields from an offset on end, after their mark.
#[inline]
fn fields_end(page: &[u8], from: usize) -> Option<usize> {
    pass(page, from, |_, _| ())
}

/// One pass over the fields from an offset on. `each` gets tag and value offset of a field, before it is known that the value is in the
/// page. Returns where they end, after their mark.
#[inline(always)]
fn pass(page: &[u8], from: usize, mut each: impl FnMut(u8, usize)) -> Option<usize> {
    let (mut rest, mut seen) = (page.get(from..)?, 0u8);
    loop {
        let (tag, low, high) = match *rest {
            [tag, low, high, ..] => (tag, low, high),
            _ => return None,
        };
        let length = usize::from(u16::from_le_bytes([low, high]));
        let value = page.len() - rest.len() + 3;
        if tag <= 3 {
            if tag == 0 {
                return (length == 0).then_some(value);
            }
            if !may_follow(&mut seen, tag, length) {
                return None;
            }
        }
        each(tag, value);
        rest = rest[3..].get(length..)?;
    }
}

/// The same over the fields of a view; none without a pointer.
#[inline(always)]
fn pass_view(page: &[u8], view: &ViewImage, each: impl FnMut(u8, usize)) -> Option<usize> {
    let from = (view[2] % PAGE as u64) as usize;
    if view[2] == 0 {
        return None;
    }
    pass(page, from, each)
}

/// The words of the field whose value is at an offset, none at 0; tag 3 is withdrawn.
#[inline(always)]
fn field_at(page: &[u8], value: usize) -> FieldImage {
    match page.get(value.wrapping_sub(3)..value) {
        Some(&[3, _, _]) => [2, 3, 0, 0],
        Some(&[tag, low, high]) => {
            let length = u16::from_le_bytes([low, high]);
            [1, tag.into(), value as u64, length.into()]
        }
        _ => [0; 4],
    }
}

/// `pbeam_field_count`.
#[inline(never)]
pub fn field_count(page: &[u8], view: &ViewImage) -> usize {
    let mut count = 0;
    let end = pass_view(page, view, |_, _| count += 1);
    end.map_or(0, |_| count)
}

/// `pbeam_field`: found while the fields are checked, in one pass.
#[inline(never)]
pub fn field(page: &[u8], view: &ViewImage, index: usize, field: &mut FieldImage) {
    let (mut left, mut found) = (index, 0);
    let end = pass_view(page, view, |_, value| {
        found = if left == 0 { value } else { found };
        left = left.wrapping_sub(1);
    });
    *field = field_at(page, end.map_or(0, |_| found));
}

/// `pbeam_field_of_tag`: the same.
#[inline(never)]
pub fn field_of_tag(page: &[u8], view: &ViewImage, wanted: u8, field: &mut FieldImage) {
    let mut found = 0;
    let end = pass_view(page, view, |tag, value| {
        let first = tag == wanted && found == 0;
        found = if first { value } else { found };
    });
    *field = field_at(page, end.map_or(0, |_| found));
}

/// `pbeam_field_start`.
#[inline(never)]
pub fn field_start(page: &[u8], view: &ViewImage) -> usize {
    let end = pass_view(page, view, |_, _| ());
    end.map_or(page.len(), |_| (view[2] % PAGE as u64) as usize)
}

/// `pbeam_field_next`.
#[inline(never)]
pub fn field_next(page: &[u8], cursor: usize, field: &mut FieldImage) -> usize {
    if let Some(&[tag, low, high, ..]) = page.get(cursor..) {
        let length = usize::from(u16::from_le_bytes([low, high]));
        if tag != 0 && length <= page.len() - cursor - 3 {
            *field = match tag {
                3 => [2, 3, 0, 0],
                _ => [1, tag.into(), cursor as u64 + 3, length as u64],
            };
            return cursor + 3 + length;
        }
    }
    *field = [0; 4];
    page.len()
}

/// Whether a field of tag 1 to 3 may follow those seen; it is then marked as seen.
#[inline]
fn may_follow(seen: &mut u8, tag: u8, length: usize) -> bool {
    let fine = match tag {
        1 => (1..=32).contains(&length),
        2 => length == 8,
        _ => length == 1,
    };
    let first = *seen & 1 << tag == 0;
    *seen |= 1 << tag;
    fine && first
}

/// Whether these are fields up to the last byte, none of tag 0 or of the withdrawn tag 3.
#[inline(never)]
fn bare(fields: &[u8]) -> bool {
    let (mut at, mut seen) = (0, 0u8);
    while at < fields.len() {
        let head = match fields.get(at..at + 3) {
            Some(head) => head,
            None => return false,
        };
        let (tag, length) = (head[0], usize::from(u16::from_le_bytes([head[1], head[2]])));
        if tag == 0 || tag == 3 || (tag < 3 && !may_follow(&mut seen, tag, length)) {
            return false;
        }
        at += 3 + length;
    }
    at == fields.len()
}

// ---- Lookups by a view ----

/// Offset and size of a section's array in a page of `length` bytes; `None` if it is not in the page.
#[inline(always)]
fn part(length: usize, view: &ViewImage, section: usize) -> Option<(usize, usize)> {
    if section >= SECTIONS {
        return None;
    }
    let words = &view[3 + 3 * section..6 + 3 * section];
    let (offset, count) = (words[1], words[2]);
    let size = if section == CONSOLE { 48 } else { 16 };
    // The first two bounds keep product and sum from wrapping: a slice has less than 2^58 bytes.
    let small = count.wrapping_sub(1) < length as u64 / 16 && offset <= length as u64;
    let there = words[0] > 1 && small && offset + count * size <= length as u64;
    there.then_some((offset as usize, (count * size) as usize))
}

/// `pbeam_array_of`.
#[inline(never)]
pub fn array_of(page: &[u8], view: &ViewImage, section: usize, place: &mut Place) {
    *place = match part(page.len(), view, section) {
        Some((offset, bytes)) => [offset as u64, bytes as u64],
        None => [0; 2],
    };
}

/// `pbeam_count`.
#[inline(never)]
pub fn count(page: &[u8], view: &ViewImage, section: usize) -> usize {
    match part(page.len(), view, section) {
        Some(_) => view[5 + 3 * section] as usize,
        None => 0,
    }
}

/// `pbeam_word`: a console's flags are 0 from minor 5 on.
#[inline(never)]
pub fn word(page: &[u8], view: &ViewImage, section: usize, entry: usize, word: usize) -> u64 {
    let words = if section == CONSOLE { 6 } else { 2 };
    match part(page.len(), view, section) {
        Some((offset, bytes)) if entry < bytes && word < words => {
            let at = 8 * (words * entry + word);
            let hidden = section == CONSOLE && word == 5 && view[0] > 4;
            match page[offset..offset + bytes].get(at..at + 8) {
                Some(cell) if !hidden => word_at(cell, 0),
                _ => 0,
            }
        }
        _ => 0,
    }
}

/// `pbeam_console_named`: compares four names at a time.
#[inline(never)]
pub fn console_named(page: &[u8], view: &ViewImage, name: &[u8; 8]) -> usize {
    let (offset, bytes) = match part(page.len(), view, CONSOLE) {
        Some(part) => part,
        None => return usize::MAX,
    };
    let (wanted, array) = (word_at(name, 0), &page[offset..offset + bytes]);
    let is = |console: &[u8]| word_at(console, 16) == wanted;
    let mut passed = 0;
    for four in array.chunks_exact(192) {
        let either = is(four) | is(&four[48..]) | is(&four[96..]) | is(&four[144..]);
        if either {
            break;
        }
        passed += 4;
    }
    let mut rest = array[48 * passed..].chunks_exact(48);
    rest.position(is).map_or(usize::MAX, |i| passed + i)
}

// ---- Listing ----

/// Lent bytes and the length of the text so far; as much as fits is written.
struct Text<'a> {
    room: &'a mut [u8],
    length: usize,
}

impl Text<'_> {
    /// Appends `N` bytes that `fill` writes, directly if they fit.
    #[inline(always)]
    fn put<const N: usize>(&mut self, fill: impl Fn(&mut [u8; N])) {
        let end = self.length + N;
        let whole = self.room.get_mut(self.length..end);
        match whole.and_then(|place| place.try_into().ok()) {
            Some(place) => fill(place),
            None => {
                let mut bytes = [0; N];
                fill(&mut bytes);
                self.clip(&bytes);
            }
        }
        self.length = end;
    }

    /// Writes as much as fits.
    #[cold]
    #[inline(never)]
    fn clip(&mut self, bytes: &[u8]) {
        if let Some(place) = self.room.get_mut(self.length..) {
            let fits = place.len().min(bytes.len());
            place[..fits].copy_from_slice(&bytes[..fits]);
        }
    }

    #[inline(always)]
    fn say<const N: usize>(&mut self, text: &[u8; N]) {
        self.put::<N>(|place| *place = *text);
    }

    /// A number of up to five digits, in decimal.
    fn number(&mut self, number: u64) {
        let mut digits = [0; 5];
        let (mut left, mut first) = (number, 5);
        loop {
            first -= 1;
            digits[first] = b'0' + (left % 10) as u8;
            left /= 10;
            if left == 0 {
                break;
            }
        }
        for digit in &digits[first..] {
            self.put::<1>(|place| place[0] = *digit);
        }
    }
}

/// Eight digits of a number, the first one in the lowest byte.
#[inline(always)]
fn eight_digits(half: u32) -> u64 {
    let x = u64::from(half.swap_bytes());
    let x = (x | x << 16) & 0x0000_FFFF_0000_FFFF;
    let x = (x | x << 8) & 0x00FF_00FF_00FF_00FF;
    let x = (x >> 4 | x << 8) & 0x0F0F_0F0F_0F0F_0F0F;
    let letters = (x + 0x0606_0606_0606_0606) >> 4 & 0x0101_0101_0101_0101;
    x + 0x3030_3030_3030_3030 + letters * 39
}

/// Puts 16 digits.
#[inline(always)]
fn put_digits(place: &mut [u8], word: u64) {
    place[..8].copy_from_slice(&eight_digits((word >> 32) as u32).to_le_bytes());
    place[8..16].copy_from_slice(&eight_digits(word as u32).to_le_bytes());
}

/// Puts 0x and 16 digits, and the byte that follows.
#[inline(always)]
fn put_word(place: &mut [u8], word: u64, next: u8) {
    place[..2].copy_from_slice(b"0x");
    put_digits(&mut place[2..18], word);
    place[18] = next;
}

/// `pbeam_listing`.
#[inline(never)]
pub fn listing(page: &[u8], base: u64, edition: u64, text: &mut [u8]) -> usize {
    let mut view = [0; 15];
    let code = read(page, base, edition, &mut view);
    let mut text = Text {
        room: text,
        length: 0,
    };
    if code != 0 {
        text.say(b"refused -");
        text.put::<2>(|place| *place = [b'0' + code.unsigned_abs() as u8, b'\n']);
        return text.length;
    }
    text.say(b"manifest 0.");
    text.number(view[0]);
    text.say(b" read as ");
    text.put::<2>(|place| *place = [b'0' + view[1] as u8, b'\n']);
    text.say(b"platform ");
    match view[2] {
        0 => text.say(b"none\n"),
        pointer => {
            text.put::<19>(|place| put_word(place, pointer, b'\n'));
            list_fields(&mut text, page, (pointer % PAGE as u64) as usize);
        }
    }
    for (k, section) in view[3..].chunks_exact(3).enumerate() {
        match k {
            0 => text.say(b"dram "),
            CONSOLE => text.say(b"console "),
            2 => text.say(b"ncoh "),
            _ => text.say(b"coh "),
        }
        if section[0] == 0 {
            text.say(b"absent\n");
            continue;
        }
        text.number(section[2]);
        text.say(b"\n");
        let (offset, count) = (section[1] as usize, section[2] as usize);
        let array = &page[offset..offset + count * 8 * ENTRY_WORDS[k]];
        match k {
            CONSOLE => list_consoles(&mut text, array, view[0] > 4),
            _ => list_banks(&mut text, array),
        }
    }
    text.length
}

#[inline]
fn list_banks(text: &mut Text, array: &[u8]) {
    for bank in array.chunks_exact(16) {
        text.put::<38>(|place| {
            put_word(&mut place[..19], word_at(bank, 0), b' ');
            put_word(&mut place[19..], word_at(bank, 8), b'\n');
        });
    }
}

#[inline]
fn list_consoles(text: &mut Text, array: &[u8], hidden: bool) {
    for console in array.chunks_exact(48) {
        text.put::<112>(|place| {
            let flags = if hidden { 0 } else { word_at(console, 40) };
            put_word(&mut place[..19], word_at(console, 0), b' ');
            put_word(&mut place[19..38], word_at(console, 8), b' ');
            // The name's bytes in their order.
            put_digits(&mut place[38..54], word_at(console, 16).swap_bytes());
            place[54] = b' ';
            put_word(&mut place[55..74], word_at(console, 24), b' ');
            put_word(&mut place[74..93], word_at(console, 32), b' ');
            put_word(&mut place[93..], flags, b'\n');
        });
    }
}

/// The lines of good fields.
#[inline]
fn list_fields(text: &mut Text, page: &[u8], from: usize) {
    let mut at = from;
    while page[at] != 0 {
        let (tag, length) = (page[at], u16::from_le_bytes([page[at + 1], page[at + 2]]));
        let value = &page[at + 3..at + 3 + usize::from(length)];
        at += 3 + value.len();
        text.number(tag.into());
        if tag == 3 {
            text.say(b" withdrawn\n");
            continue;
        }
        text.say(b" ");
        text.number(length.into());
        list_value(text, value);
        text.say(b"\n");
    }
}

/// A space and two digits for each byte.
#[inline]
fn list_value(text: &mut Text, value: &[u8]) {
    const DIGITS: &[u8; 16] = b"0123456789abcdef";
    let digits = |byte: u8| {
        let (high, low) = (
            DIGITS[usize::from(byte >> 4)],
            DIGITS[usize::from(byte & 15)],
        );
        [b' ', high, low]
    };
    let end = text.length + 3 * value.len();
    match text.room.get_mut(text.length..end) {
        Some(place) => {
            for (cell, byte) in place.chunks_exact_mut(3).zip(value) {
                cell.copy_from_slice(&digits(*byte));
            }
            text.length = end;
        }
        None => value
            .iter()
            .for_each(|&byte| text.put::<3>(|place| *place = digits(byte))),
    }
}

// ---- Sections ----

/// Each section by itself, and that no two arrays overlap. Written out, so that a section's places are constants.
#[inline(always)]
fn show_sections<const VIEW: bool>(
    page: &[u8; PAGE],
    base: u64,
    core: u64,
    sections: u64,
    minor: u64,
    view: &mut ViewImage,
) -> Option<[Bounds; SECTIONS]> {
    let mut bounds = [(0, 0); SECTIONS];
    if VIEW && sections < 4 {
        view[3..].fill(0);
    }
    if sections == 0 {
        return Some(bounds);
    }
    bounds[0] = show::<0, VIEW>(page, base, core, minor, view)?;
    if sections == 1 {
        return Some(bounds);
    }
    bounds[1] = show::<1, VIEW>(page, base, core, minor, view)?;
    if !apart(bounds[0], bounds[1]) {
        return None;
    }
    if sections == 2 {
        return Some(bounds);
    }
    bounds[2] = show::<2, VIEW>(page, base, core, minor, view)?;
    bounds[3] = show::<3, VIEW>(page, base, core, minor, view)?;
    let [dram, console, ncoh, coh] = bounds;
    let others = apart(dram, ncoh) && apart(console, ncoh) && apart(dram, coh);
    (others && apart(console, coh) && apart(ncoh, coh)).then_some(bounds)
}

/// Where an array begins and ends; zeros for none.
type Bounds = (u64, u64);

#[inline(always)]
fn apart(a: Bounds, b: Bounds) -> bool {
    a.1 <= b.0 || b.1 <= a.0
}

/// Checks a section of the edition, and writes its three words of the view if VIEW.
#[inline(always)]
fn show<const K: usize, const VIEW: bool>(
    page: &[u8; PAGE],
    base: u64,
    core: u64,
    minor: u64,
    view: &mut ViewImage,
) -> Option<Bounds> {
    let header = header_offset(K);
    let count = word_at(page, header);
    let pointer = word_at(page, header + 8);
    let check = word_at(page, header + 16);
    if count | pointer | check == 0 {
        if VIEW {
            view[3 + 3 * K] = 1;
            view[4 + 3 * K] = 0;
            view[5 + 3 * K] = 0;
        }
        return Some((0, 0));
    }
    let (size, offset) = (8 * ENTRY_WORDS[K] as u64, pointer.wrapping_sub(base));
    if offset < core || offset >= PAGE as u64 || offset % 8 != 0 {
        return None;
    }
    let end = match count.wrapping_sub(1) < PAGE as u64 / size {
        true => offset + count * size,
        false => return None,
    };
    if end > PAGE as u64 {
        return None;
    }
    let array = &page[offset as usize..end as usize];
    let sum = match K {
        CONSOLE => consoles(minor, array),
        _ => banks(array),
    }?;
    let total = sum.wrapping_add(count).wrapping_add(pointer);
    if total.wrapping_add(check) != 0 {
        return None;
    }
    if VIEW {
        view[3 + 3 * K] = 2;
        view[4 + 3 * K] = offset;
        view[5 + 3 * K] = count;
    }
    Some((offset, end))
}

#[inline(always)]
fn banks(array: &[u8]) -> Option<u64> {
    if array.len() == 16 {
        return one_bank(bank_at(array));
    }
    if array.len() <= 16 * FEW {
        return few(array.chunks_exact(16).map(bank_at));
    }
    many_banks(array)
}

#[inline(always)]
fn bank_at(bank: &[u8]) -> [u64; 2] {
    [word_at(bank, 0), word_at(bank, 8)]
}

/// As `bank_sum`, of one.
#[inline(always)]
fn one_bank([base, size]: [u64; 2]) -> Option<u64> {
    let span = size.wrapping_sub(1);
    let sound = (base | size) % 4096 == 0 && (base | span | base.wrapping_add(span)) >> 52 == 0;
    sound.then_some(base.wrapping_add(size))
}

/// As `bank_sum`, of a few.
#[inline]
fn few(banks: impl Iterator<Item = [u64; 2]>) -> Option<u64> {
    let (mut sum, mut low, mut high) = (0u64, 0, 0);
    for [base, size] in banks {
        let span = size.wrapping_sub(1);
        low |= base | size;
        high |= base | span | base.wrapping_add(span);
        sum = sum.wrapping_add(base).wrapping_add(size);
    }
    (low % 4096 == 0 && high >> 52 == 0).then_some(sum)
}

// Not inlined: three sections share the loop.
#[inline(never)]
fn many_banks(array: &[u8]) -> Option<u64> {
    bank_sum(array.chunks_exact(16).map(bank_at))
}

#[inline(always)]
fn consoles(minor: u64, array: &[u8]) -> Option<u64> {
    if array.len() == 48 {
        return one_console(minor, console_at(array));
    }
    many_consoles(minor, array)
}

#[inline(always)]
fn console_at(console: &[u8]) -> [u64; 6] {
    [
        word_at(console, 0),
        word_at(console, 8),
        word_at(console, 16),
        word_at(console, 24),
        word_at(console, 32),
        word_at(console, 40),
    ]
}

/// As `console_sum`, of one.
#[inline(always)]
fn one_console(minor: u64, words: [u64; 6]) -> Option<u64> {
    let [base, pages, .., flags] = words;
    let span = pages.wrapping_sub(1);
    let high = span | (base >> 12).wrapping_add(span);
    let sound = base % 4096 == 0 && high >> 40 == 0 && (flags == 0 || minor > 4);
    sound.then(|| words.into_iter().fold(0, u64::wrapping_add))
}

#[inline(never)]
fn many_consoles(minor: u64, array: &[u8]) -> Option<u64> {
    console_sum(minor, array.chunks_exact(48).map(console_at))
}

// ---- Writer ----

/// `pbeam_write`.
#[inline(never)]
pub fn write(base: u64, edition: u64, lists: Lists, fields: &[u8], page: &mut [u8]) -> u32 {
    write_by::<false>(base, edition, lists, fields, page)
}

/// The same, with the arrays copied by SSE2 code: the C library's memcpy uses the widest vectors that the
/// machine has, which firmware cannot use.
pub fn write_sse2(base: u64, edition: u64, lists: Lists, fields: &[u8], page: &mut [u8]) -> u32 {
    write_by::<true>(base, edition, lists, fields, page)
}

#[inline]
fn write_by<const SSE2: bool>(
    base: u64,
    edition: u64,
    lists: Lists,
    fields: &[u8],
    page: &mut [u8],
) -> u32 {
    let page = match placed_mut(page, base) {
        Some(page) => page,
        None => return 1,
    };
    let edition = match Edition::new(edition) {
        Some(edition) => edition,
        None => return 2,
    };
    let sums = match sums_of(lists) {
        Some(sums) => sums,
        None => return 3,
    };
    if !fields.is_empty() && !bare(fields) {
        return 3;
    }
    let sections = edition.sections();
    if lists[sections..].iter().any(|list| !list.is_empty()) {
        return 4;
    }
    let words = lists
        .iter()
        .fold(0usize, |words, list| words.saturating_add(list.len()));
    let room = (PAGE - edition.core()) / 8;
    if words > room || (!fields.is_empty() && fields.len() > (8 * (room - words)).saturating_sub(3))
    {
        return 5;
    }
    fill::<SSE2>(page, base, edition, lists, fields, sums);
    0
}

#[inline]
fn sums_of([dram, console, ncoh, coh]: Lists) -> Option<[u64; SECTIONS]> {
    Some([
        bank_list(dram)?,
        console_list(console)?,
        bank_list(ncoh)?,
        bank_list(coh)?,
    ])
}

#[inline]
fn bank_list(list: &[u64]) -> Option<u64> {
    if list.len() <= 2 * FEW {
        let sum = few(list.chunks_exact(2).map(|bank| [bank[0], bank[1]]));
        return sum.filter(|_| list.len() % 2 == 0);
    }
    many_listed(list)
}

#[inline(never)]
fn many_listed(list: &[u64]) -> Option<u64> {
    let sum = bank_sum(list.chunks_exact(2).map(|bank| [bank[0], bank[1]]));
    sum.filter(|_| list.len() % 2 == 0)
}

#[inline]
fn console_list(list: &[u64]) -> Option<u64> {
    if list.is_empty() {
        return Some(0);
    }
    if let Ok(console) = list.try_into() {
        return one_console(4, console);
    }
    let consoles = list.chunks_exact(6);
    let odd = consoles.remainder();
    let consoles = consoles.map(|words| words.try_into().expect("a console"));
    // Flags must be 0 at every edition that can be written.
    let sum = console_sum(4, consoles);
    sum.filter(|_| odd.is_empty())
}

/// The page of lists that were all checked: core, arrays in section order, zeros.
#[inline]
fn fill<const SSE2: bool>(
    page: &mut [u8; PAGE],
    base: u64,
    edition: Edition,
    lists: Lists,
    fields: &[u8],
    sums: [u64; SECTIONS],
) {
    let mut at = edition.core();
    put::<SSE2>(page, 0, &[edition.number(), 0]);
    for k in 0..edition.sections() {
        let list = lists[k];
        let mut words = [0; 3];
        if !list.is_empty() {
            let count = (list.len() / ENTRY_WORDS[k]) as u64;
            let pointer = base + at as u64;
            let total = count.wrapping_add(pointer).wrapping_add(sums[k]);
            words = [count, pointer, total.wrapping_neg()];
        }
        put::<SSE2>(page, header_offset(k), &words);
        put::<SSE2>(page, at, list);
        at += 8 * list.len();
    }
    if !fields.is_empty() {
        put::<SSE2>(page, 8, &[base + at as u64]);
        put_bytes::<SSE2>(&mut page[at..at + fields.len()], fields);
        at += fields.len();
    }
    page[at..].fill(0);
}

/// `pbeam_pack`. Copies checked arrays unchanged: the checksum of a moved array drops by the distance.
#[inline(never)]
pub fn pack(page: &[u8], base: u64, target: &mut [u8]) -> i32 {
    let mut view = [0; 15];
    let code = judge::<true>(page, base, 4, &mut view);
    if code != 0 {
        return code;
    }
    if view[0] > 4 {
        return VERSION;
    }
    match <&mut [u8; PAGE]>::try_from(target) {
        Ok(target) => lay(page, base, &view, target),
        Err(_) => return 1,
    }
    0
}

/// The packed page of a view: core, arrays in section order, fields, zeros.
#[inline]
fn lay(page: &[u8], base: u64, view: &ViewImage, target: &mut [u8; PAGE]) {
    let edition = Edition::new(view[1]).expect("an edition");
    let mut at = edition.core();
    for k in 0..edition.sections() {
        let (header, mut words) = (header_offset(k), [0; 3]);
        let (kind, offset, count) = (view[3 + 3 * k], view[4 + 3 * k] as usize, view[5 + 3 * k]);
        if kind == 2 {
            let length = count as usize * 8 * ENTRY_WORDS[k];
            let pointer = base + at as u64;
            let sum = word_at(page, header + 8).wrapping_add(word_at(page, header + 16));
            words = [count, pointer, sum.wrapping_sub(pointer)];
            target[at..at + length].copy_from_slice(&page[offset..offset + length]);
            at += length;
        }
        put::<false>(target, header, &words);
    }
    let end = match view[2] {
        0 => at,
        plat => lay_fields(page, (plat % PAGE as u64) as usize, at, target),
    };
    let plat = if end == at { 0 } else { base + at as u64 };
    put::<false>(target, 0, &[view[0], plat]);
    target[end..].fill(0);
}

/// Moves good fields in runs, without the withdrawn one. Returns where they end.
#[inline]
fn lay_fields(page: &[u8], from: usize, at: usize, target: &mut [u8; PAGE]) -> usize {
    let (mut run, mut cursor, mut to) = (from, from, at);
    loop {
        let tag = page[cursor];
        if tag == 3 || tag == 0 {
            target[to..to + cursor - run].copy_from_slice(&page[run..cursor]);
            to += cursor - run;
        }
        if tag == 0 {
            return to;
        }
        let length = u16::from_le_bytes([page[cursor + 1], page[cursor + 2]]);
        cursor += 3 + usize::from(length);
        if tag == 3 {
            run = cursor;
        }
    }
}

/// `pbeam_mend`.
#[inline(never)]
pub fn mend(page: &mut [u8], base: u64, changed: &mut ReportImage) -> i32 {
    *changed = [0; 6];
    mend_parts(page, base, changed).err().unwrap_or(0)
}

#[inline]
fn mend_parts(page: &mut [u8], base: u64, changed: &mut ReportImage) -> Result<(), i32> {
    let page = placed_mut(page, base).ok_or(PLACE)?;
    let minor = accepted_minor(half_at(page, 0)).ok_or(VERSION)?;
    let edition = Edition::NEWEST.on_minor(minor);
    let core = edition.core() as u64;
    if half_at(page, 4) != 0 {
        page[4..8].fill(0);
        changed[0] = 1;
    }
    let minor = u64::from(minor);
    let (plat, mut fields) = (word_at(page, 8), (0, 0));
    if plat != 0 {
        let from = plat.wrapping_sub(base);
        let inside = (core..PAGE as u64).contains(&from);
        match fields_end(page, from as usize).filter(|_| inside) {
            Some(end) => fields = (from, end as u64),
            None => {
                put::<false>(page, 8, &[0]);
                changed[1] = 1;
            }
        }
    }
    let sections = edition.sections();
    if sections > 0 {
        let (cleared, dram) = mend_section::<0>(page, base, core, minor, [fields; 4]);
        changed[2] = cleared;
        if sections > 1 {
            let before = [fields, dram, dram, dram];
            let (cleared, console) = mend_section::<1>(page, base, core, minor, before);
            changed[3] = cleared;
            if sections > 2 {
                let before = [fields, dram, console, console];
                let (cleared, ncoh) = mend_section::<2>(page, base, core, minor, before);
                changed[4] = cleared;
                let before = [fields, dram, console, ncoh];
                changed[5] = mend_section::<3>(page, base, core, minor, before).0;
            }
        }
    }
    Ok(())
}

/// Clears a section that breaks its rules or overlaps what is kept before it. Returns whether it was cleared, and its bounds.
#[inline(always)]
fn mend_section<const K: usize>(
    page: &mut [u8; PAGE],
    base: u64,
    core: u64,
    minor: u64,
    before: [Bounds; 4],
) -> (u64, Bounds) {
    match show::<K, false>(page, base, core, minor, &mut [0; 15]) {
        Some(array) if before.iter().all(|&other| apart(array, other)) => (0, array),
        _ => {
            put::<false>(page, header_offset(K), &[0; 3]);
            (1, (0, 0))
        }
    }
}

/// Sets words of the page from an offset on.
#[inline]
fn put<const SSE2: bool>(page: &mut [u8; PAGE], at: usize, words: &[u64]) {
    let place = &mut page[at..at + 8 * words.len()];
    let done = if SSE2 {
        sse2::copy_words(place, words)
    } else {
        0
    };
    for (cell, word) in place[8 * done..].chunks_exact_mut(8).zip(&words[done..]) {
        cell.copy_from_slice(&word.to_le_bytes());
    }
}

#[inline]
fn put_bytes<const SSE2: bool>(place: &mut [u8], bytes: &[u8]) {
    let done = if SSE2 { sse2::copy(place, bytes) } else { 0 };
    place[done..].copy_from_slice(&bytes[done..]);
}
