//! Reader, lookups and writer.

use crate::calls;
use crate::memory::Image;
use crate::pair::Pair;
use potterbeam_tests::exports::{Exports, ViewImage};
use potterbeam_tests::kit::Kit;
use potterbeam_tests::model::Model;
use potterbeam_tests::random::pages::Reading;
use potterbeam_tests::random::Random;
use potterbeam_tests::reference::fields::split_field;
use potterbeam_tests::reference::layout::word_at;

#[test]
fn reader_and_lookups() {
    let mut pair = Pair::new(21);
    for _ in 0..10 * calls() {
        let reading = pair.random.any_page();
        read(&mut pair, &reading);
        if pair.random.one_in(8) {
            array(&mut pair, &reading);
        }
        if pair.random.one_in(3) {
            look(&mut pair);
            look_fields(&mut pair);
        }
        if pair.random.one_in(8) {
            listing(&mut pair, &reading);
        }
    }
    pair.print_counts();
    // Of a lookup the answer noted is whether there was anything, of a field whether it was withdrawn too, of a listing whether it was cut.
    pair.expect(&[
        ("pbeam_read", 0, &[0, -5, -6, -7]),
        ("pbeam_array", 0, &[0, 1]),
        ("pbeam_array_of", 0, &[0, 1]),
        ("pbeam_count", 0, &[0, 1]),
        ("pbeam_word", 0, &[0, 1]),
        ("pbeam_console_named", 0, &[0, 1]),
        ("pbeam_field_count", 0, &[0, 1]),
        ("pbeam_field", 0, &[0, 1, 2]),
        ("pbeam_field_of_tag", 0, &[0, 1, 2]),
        ("pbeam_field_start", 0, &[0, 1]),
        ("pbeam_field_next", 0, &[0, 1, 2]),
        ("pbeam_kept_for", 0, &[0, 1]),
        ("pbeam_listing", 0, &[0, 1]),
    ]);
}

fn read(pair: &mut Pair, reading: &Reading) {
    let &Reading { base, edition, .. } = reading;
    pair.load(|random, m| {
        m.page.load(&reading.page, random.index(8));
        m.images.view = Image::default();
    });
    check!(pair, "pbeam_read", (base, edition), |S, m| {
        m.returned = S::read(m.page.lent(), base, edition, &mut m.images.view.words).into();
    });
    pair.meet("pbeam_read", 0, pair.model.returned);
}

/// Mostly one of the four.
fn section(pair: &mut Pair) -> usize {
    match pair.random.below(16) {
        0 => pair.random.edge() as usize,
        1 => 4,
        _ => pair.random.index(4),
    }
}

fn array(pair: &mut Pair, reading: &Reading) {
    let &Reading { base, edition, .. } = reading;
    let section = section(pair);
    check!(pair, "pbeam_array", (base, edition, section), |S, m| {
        let place = &mut m.images.place.words;
        S::array(m.page.lent(), base, edition, section, place);
    });
    meet_place(pair, "pbeam_array");
}

/// Into a buffer that is larger, exactly as long, or cuts it anywhere.
fn listing(pair: &mut Pair, reading: &Reading) {
    let &Reading { base, edition, .. } = reading;
    let whole = Model::listing(&reading.page, base, edition, &mut []);
    let room = match pair.random.below(4) {
        0 => whole,
        1 => whole + pair.random.index(64),
        _ => pair.random.index(whole),
    };
    pair.load(|random, m| {
        let skew = random.index(8);
        m.table.load(&vec![random.below(256) as u8; room], skew);
    });
    check!(pair, "pbeam_listing", (base, edition, room), |S, m| {
        m.returned = S::listing(m.page.lent(), base, edition, m.table.lent_mut()) as i64;
    });
    pair.meet("pbeam_listing", 0, i64::from(room < whole));
}

/// What the view's manifest takes of the page. The answer noted is whether that is all of it.
pub fn kept_for(pair: &mut Pair) -> u64 {
    check!(pair, "pbeam_kept_for", (), |S, m| {
        m.returned = S::kept_for(m.page.lent(), &m.images.view.words) as i64;
    });
    let kept = pair.model.returned as u64;
    pair.meet("pbeam_kept_for", 0, i64::from(kept == 4096));
    kept
}

/// The lookups in a view: the one that was read, or a forged one.
fn look(pair: &mut Pair) {
    if pair.random.one_in(3) {
        pair.load(|random, m| random.forge_view(&mut m.images.view.words));
    }
    kept_for(pair);
    let section = section(pair);
    check!(pair, "pbeam_array_of", (section), |S, m| {
        let view = &m.images.view.words;
        S::array_of(m.page.lent(), view, section, &mut m.images.place.words);
    });
    meet_place(pair, "pbeam_array_of");
    check!(pair, "pbeam_count", (section), |S, m| {
        m.returned = S::count(m.page.lent(), &m.images.view.words, section) as i64;
    });
    let count = pair.model.returned;
    pair.meet("pbeam_count", 0, i64::from(count != 0));
    let entry = match pair.random.below(8) {
        0 => pair.random.edge() as usize,
        1 => count as usize,
        _ => pair.random.below(count as u64 + 1) as usize,
    };
    let word = match pair.random.below(8) {
        0 => pair.random.edge() as usize,
        _ => pair.random.index(7),
    };
    check!(pair, "pbeam_word", (section, entry, word), |S, m| {
        m.returned = S::word(m.page.lent(), &m.images.view.words, section, entry, word) as i64;
    });
    pair.meet("pbeam_word", 0, i64::from(pair.model.returned != 0));
    let (page, view) = (pair.model.page.lent(), &pair.model.images.view.words);
    let name = pair.random.asked_name(page, view);
    check!(pair, "pbeam_console_named", (name), |S, m| {
        m.returned = S::console_named(m.page.lent(), &m.images.view.words, &name) as i64;
    });
    pair.meet(
        "pbeam_console_named",
        0,
        i64::from(pair.model.returned >= 0),
    );
}

/// The lookups of fields in the same view, and a walk over some of them.
fn look_fields(pair: &mut Pair) {
    check!(pair, "pbeam_field_count", (), |S, m| {
        m.returned = S::field_count(m.page.lent(), &m.images.view.words) as i64;
    });
    let count = pair.model.returned as usize;
    pair.meet("pbeam_field_count", 0, i64::from(count != 0));
    let index = match pair.random.below(8) {
        0 => pair.random.edge() as usize,
        1 => count,
        _ => pair.random.index(count + 1),
    };
    check!(pair, "pbeam_field", (index), |S, m| {
        let field = &mut m.images.field.words;
        S::field(m.page.lent(), &m.images.view.words, index, field);
    });
    meet_field(pair, "pbeam_field");
    let tag = match pair.random.below(3) {
        0 => pair.random.below(256) as u8,
        1 => pair.model.images.field.words[1] as u8,
        _ => pair.random.index(5) as u8,
    };
    check!(pair, "pbeam_field_of_tag", (tag), |S, m| {
        let field = &mut m.images.field.words;
        S::field_of_tag(m.page.lent(), &m.images.view.words, tag, field);
    });
    meet_field(pair, "pbeam_field_of_tag");
    check!(pair, "pbeam_field_start", (), |S, m| {
        m.returned = S::field_start(m.page.lent(), &m.images.view.words) as i64;
    });
    let mut cursor = pair.model.returned as usize;
    let found = cursor < pair.model.page.lent().len();
    pair.meet("pbeam_field_start", 0, i64::from(found));
    for _ in 0..3 {
        if pair.random.one_in(8) {
            // A cursor that no walk gives.
            cursor = match pair.random.one_in(4) {
                true => pair.random.edge() as usize,
                false => pair.random.index(4100),
            };
        }
        check!(pair, "pbeam_field_next", (cursor), |S, m| {
            let field = &mut m.images.field.words;
            m.returned = S::field_next(m.page.lent(), cursor, field) as i64;
        });
        meet_field(pair, "pbeam_field_next");
        cursor = pair.model.returned as usize;
    }
}

fn meet_field(pair: &mut Pair, name: &'static str) {
    pair.meet(name, 0, pair.model.images.field.words[0] as i64);
}

/// The offset of the value of tag 3 in a page whose fields begin at an offset.
fn withdrawn_value(page: &[u8], from: usize) -> Option<usize> {
    let mut rest = &page[from..];
    while let Some((field, behind)) = split_field(rest) {
        match field.tag {
            0 => return None,
            3 => return Some(page.len() - behind.len() - 1),
            _ => rest = behind,
        }
    }
    None
}

/// All that the library returns for a page but the bytes at its places: code, view, listing, fields by number, by tag and by the
/// walk, with its cursors, and what the manifest takes.
fn told(page: &[u8], base: u64, edition: u64) -> (i32, ViewImage, Vec<u8>, Vec<u64>) {
    let (mut view, mut text) = ([0; 15], vec![0; 12336]);
    let code = Kit::read(page, base, edition, &mut view);
    let length = Kit::listing(page, base, edition, &mut text);
    text.truncate(length);
    let (mut words, mut field) = (vec![Kit::kept_for(page, &view)], [0; 4]);
    let mut cursor = Kit::field_start(page, &view);
    for i in 0..=Kit::field_count(page, &view) {
        Kit::field(page, &view, i, &mut field);
        words.extend(field);
        words.push(cursor as u64);
        cursor = Kit::field_next(page, cursor, &mut field);
        words.extend(field);
    }
    for tag in 0..=255 {
        Kit::field_of_tag(page, &view, tag, &mut field);
        words.extend(field);
    }
    (code, view, text, words)
}

/// FD9: pages that differ only in the withdrawn value get the same answers, for a reader of any edition; and no word of them is
/// the place of the value.
#[test]
fn withdrawn_value_is_in_no_answer() {
    let mut random = Random::new(23);
    let [mut pages, mut accepted] = [0; 2];
    for _ in 0..calls() {
        let Reading { base, mut page, .. } = random.valid_page();
        let plat = word_at(&page, 8);
        let from = (plat % 4096) as usize;
        let at = match withdrawn_value(&page, from) {
            Some(at) if plat != 0 => at,
            _ => continue,
        };
        pages += 1;
        let before: Vec<_> = (1..=4).map(|e| told(&page, base, e)).collect();
        page[at] ^= random.between(1, 255) as u8;
        let after: Vec<_> = (1..=4).map(|e| told(&page, base, e)).collect();
        assert_eq!(before, after);
        for (code, view, ..) in after {
            if code == 0 {
                accepted += 1;
                let mut field = [0; 4];
                Kit::field_of_tag(&page, &view, 3, &mut field);
                assert_eq!(field, [2, 3, 0, 0]);
            }
        }
    }
    println!("{pages} pages with tag 3, {accepted} readings accepted");
    assert!(pages > calls() / 50 && accepted > pages);
}

fn meet_place(pair: &mut Pair, name: &'static str) {
    let [_, length] = pair.model.images.place.words;
    pair.meet(name, 0, i64::from(length != 0));
}

#[test]
fn writer() {
    let mut pair = Pair::new(22);
    for _ in 0..calls() {
        let writing = pair.random.any_writing();
        let (base, edition, lists) = (writing.base, writing.edition, writing.lists());
        let fields = &writing.fields;
        pair.load(|random, m| m.page.load(&writing.page, random.index(8)));
        check!(
            pair,
            "pbeam_write",
            (base, edition, lists, fields),
            |S, m| {
                m.returned = S::write(base, edition, lists, fields, m.page.lent_mut()).into();
            }
        );
        pair.meet("pbeam_write", 0, pair.model.returned);
    }
    pair.print_counts();
    pair.expect(&[("pbeam_write", 0, &[0, 1, 2, 3, 4, 5])]);
}
