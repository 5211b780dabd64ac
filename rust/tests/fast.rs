//! The reader, writer, packer and mender that are written for speed, against the reference: the code and every word or byte, of random
//! pages and lists and of the pages that real firmware wrote; the listing's text; and with a view, also a forged one, the kept bytes and
//! every lookup.

use potterbeam_tests::exports::Exports;
use potterbeam_tests::fast;
use potterbeam_tests::model::Model;
use potterbeam_tests::pages::PageExports;
use potterbeam_tests::random::Random;
use potterbeam_tests::reference::layout::word_at;
use std::collections::{BTreeMap, BTreeSet};

const CALLS: usize = 200_000;

/// Reads on both sides; returns the code.
fn read(page: &[u8], base: u64, edition: u64) -> i32 {
    // Stale, so that a word that is not written shows.
    let [mut ours, mut theirs] = [[7; 15]; 2];
    let code = fast::read(page, base, edition, &mut ours);
    let expected = Model::read(page, base, edition, &mut theirs);
    assert_eq!((code, ours), (expected, theirs), "{base:x} {edition}");
    code
}

#[test]
fn random_pages() {
    let mut random = Random::new(31);
    let mut met = BTreeMap::new();
    for i in 0..CALLS {
        let reading = match i % 2 {
            0 => random.any_page(),
            _ => random.valid_page(),
        };
        let code = read(&reading.page, reading.base, reading.edition);
        *met.entry(code).or_insert(0) += 1;
    }
    println!("fast::read: {met:?}");
    assert!([0, -5, -6, -7].iter().all(|code| met[code] > CALLS / 500));
}

/// The whole text, and as much of it as fits.
#[test]
fn random_listings() {
    let mut random = Random::new(35);
    let mut met = BTreeSet::new();
    for i in 0..CALLS / 10 {
        let reading = match i % 8 {
            0 => random.any_page(),
            _ => random.valid_page(),
        };
        let room = match random.below(4) {
            0 => random.index(12_400),
            1 => random.index(200),
            _ => 12_400,
        };
        let [mut ours, mut theirs] = [(); 2].map(|()| vec![0xA5; room]);
        let (page, base, edition) = (&reading.page, reading.base, reading.edition);
        let length = Model::listing(page, base, edition, &mut theirs);
        assert_eq!(fast::listing(page, base, edition, &mut ours), length);
        assert!(ours == theirs, "{}", String::from_utf8_lossy(&ours));
        met.insert((theirs.starts_with(b"refused"), length <= room));
    }
    assert_eq!(met.len(), 4);
}

#[test]
fn random_lists() {
    let mut random = Random::new(32);
    let mut met = BTreeMap::new();
    for i in 0..CALLS {
        let writing = match i % 2 {
            0 => random.any_writing(),
            _ => random.valid_writing(),
        };
        let (base, edition, lists) = (writing.base, writing.edition, writing.lists());
        let [mut ours, mut narrow, mut theirs] = [(); 3].map(|()| writing.page.clone());
        let fields = &writing.fields;
        let answer = fast::write(base, edition, lists, fields, &mut ours);
        let by_sse2 = fast::write_sse2(base, edition, lists, fields, &mut narrow);
        let expected = Model::write(base, edition, lists, fields, &mut theirs);
        assert_eq!((answer, by_sse2), (expected, expected));
        assert!(ours == theirs && narrow == theirs, "{lists:x?} {fields:x?}");
        *met.entry(answer).or_insert(0) += 1;
    }
    println!("fast::write: {met:?}");
    assert!((0..6).all(|answer| met[&answer] > CALLS / 500));
}

/// The field lookups on both sides, and a step from some cursor.
fn lookups(random: &mut Random, page: &[u8], view: &[u64; 15]) {
    let [mut ours, mut theirs] = [[7; 4]; 2];
    let count = Model::field_count(page, view);
    assert_eq!(fast::field_count(page, view), count);
    let index = random.index(count + 2);
    fast::field(page, view, index, &mut ours);
    Model::field(page, view, index, &mut theirs);
    assert_eq!(ours, theirs, "{view:x?} {index}");
    let tag = random.index(8) as u8;
    fast::field_of_tag(page, view, tag, &mut ours);
    Model::field_of_tag(page, view, tag, &mut theirs);
    assert_eq!(ours, theirs, "{view:x?} {tag}");
    let (section, entry, word) = (random.index(6), random.index(260), random.index(8));
    let [mut place, mut expected] = [[7; 2]; 2];
    fast::array_of(page, view, section, &mut place);
    Model::array_of(page, view, section, &mut expected);
    assert_eq!(place, expected, "{view:x?} {section}");
    let entries = Model::count(page, view, section);
    assert_eq!(fast::count(page, view, section), entries, "{view:x?}");
    for entry in [entry, random.index(entries + 1), random.edge() as usize] {
        let expected = Model::word(page, view, section, entry, word);
        assert_eq!(fast::word(page, view, section, entry, word), expected);
    }
    let name = random.asked_name(page, view);
    let named = Model::console_named(page, view, &name);
    assert_eq!(fast::console_named(page, view, &name), named);
    let start = Model::field_start(page, view);
    assert_eq!(fast::field_start(page, view), start);
    for cursor in [start, random.index(4100), random.edge() as usize] {
        let next = fast::field_next(page, cursor, &mut ours);
        assert_eq!(next, Model::field_next(page, cursor, &mut theirs));
        assert_eq!(ours, theirs, "{cursor}");
    }
}

/// Packs and mends on both sides; returns both codes.
fn pack_and_mend(page: &[u8], base: u64, room: usize) -> [i32; 2] {
    let [mut ours, mut theirs] = [(); 2].map(|()| vec![0xA5; room]);
    let packed = fast::pack(page, base, &mut ours);
    assert_eq!(packed, Model::pack(page, base, &mut theirs), "{base:x}");
    assert!(ours == theirs, "{base:x}");
    let [mut ours, mut theirs] = [(); 2].map(|()| page.to_vec());
    let [mut report, mut expected] = [[7; 6]; 2];
    let mended = fast::mend(&mut ours, base, &mut report);
    assert_eq!(mended, Model::mend(&mut theirs, base, &mut expected));
    assert!(ours == theirs && report == expected, "{base:x}");
    [packed, mended]
}

#[test]
fn random_packing_and_mending() {
    let mut random = Random::new(34);
    let mut met = BTreeMap::new();
    for i in 0..CALLS {
        let reading = match i % 4 {
            0 => random.any_page(),
            1 => random.broken_page(),
            _ => random.valid_page(),
        };
        let room = random.pick(&[4096, 4096, 4096, 4096, 4095, 4097, 0]);
        for (what, code) in (0..).zip(pack_and_mend(&reading.page, reading.base, room)) {
            *met.entry((what, code)).or_insert(0) += 1;
        }
    }
    println!("fast::pack and fast::mend: {met:?}");
    let packed = [0, -5, -6, -7, 1].map(|code| (0, code));
    let mended = [0, -5, -6].map(|code| (1, code));
    let all = packed.iter().chain(&mended);
    assert!(all.copied().all(|answer| met[&answer] > CALLS / 500));
}

/// Views that were read, and forged ones.
#[test]
fn random_views() {
    let mut random = Random::new(33);
    for _ in 0..CALLS / 4 {
        let (reading, mut view) = (random.valid_page(), [0; 15]);
        let page = &reading.page;
        Model::read(page, reading.base, reading.edition, &mut view);
        for _ in 0..3 {
            let kept = fast::kept_for(page, &view);
            assert_eq!(kept, Model::kept_for(page, &view), "{view:x?}");
            lookups(&mut random, page, &view);
            random.forge_view(&mut view);
        }
    }
}

/// The pages of firmware and the reader's run vectors: 8 bytes of B, then the page. A vector has its edition before.
#[test]
fn pages_of_files() {
    let mut pages = 0;
    for (folder, head) in [("tests/reader/field", 0), ("crates/reader_vectors/data", 8)] {
        let folder = format!("{}/../{folder}", env!("CARGO_MANIFEST_DIR"));
        for file in std::fs::read_dir(folder).expect("a folder") {
            let path = file.expect("a file").path();
            if path.extension().map_or(true, |kind| kind == "in") {
                let bytes = std::fs::read(path).expect("a page");
                let (base, page) = bytes[head..].split_at(8);
                for edition in 0..6 {
                    read(page, word_at(base, 0), edition);
                }
                pack_and_mend(page, word_at(base, 0), 4096);
                pages += 1;
            }
        }
    }
    println!("{pages} files");
    assert!(pages > 100);
}
