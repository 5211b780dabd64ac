//! Packer and mender, and 02's claims about them.

use crate::calls;
use crate::pair::Pair;
use potterbeam_tests::exports::{Exports, FieldImage, ViewImage};
use potterbeam_tests::kit::Kit;
use potterbeam_tests::pages::PageExports;
use potterbeam_tests::random::pages::Reading;

/// Any page, most often one with several parts damaged.
fn some_page(pair: &mut Pair) -> Reading {
    match pair.random.below(3) {
        0 => pair.random.any_page(),
        _ => pair.random.broken_page(),
    }
}

fn code_of(page: &[u8], base: u64) -> i32 {
    Kit::read(page, base, 4, &mut [0; 15])
}

fn mend(pair: &mut Pair, base: u64) {
    check!(pair, "pbeam_mend", (base), |S, m| {
        let changed = &mut m.images.changed.words;
        m.returned = S::mend(m.page.lent_mut(), base, changed).into();
    });
    pair.meet("pbeam_mend", 0, pair.model.returned);
}

/// Each part is noted as a case of its own, by whether it was changed.
#[test]
fn mender() {
    let mut pair = Pair::new(29);
    for _ in 0..calls() {
        let Reading { base, page, .. } = some_page(&mut pair);
        pair.load(|random, m| m.page.load(&page, random.index(8)));
        let before = code_of(&page, base);
        mend(&mut pair, base);
        let (code, report) = (pair.kit.returned as i32, pair.kit.images.changed.words);
        let mended = pair.kit.page.lent().to_vec();
        if code != 0 || before == 0 {
            assert_eq!((mended, report), (page, [0; 6]));
            assert!(code == before);
            continue;
        }
        assert_eq!((before, code_of(&mended, base)), (-7, 0));
        assert!(mended[..4] == page[..4] && mended[112..] == page[112..]);
        for (part, changed) in (1..).zip(report) {
            pair.meet("pbeam_mend", part, changed as i64);
        }
        mend(&mut pair, base);
        assert_eq!(pair.kit.images.changed.words, [0; 6]);
        assert!(pair.kit.page.lent() == mended);
    }
    pair.print_counts();
    pair.expect(&[
        ("pbeam_mend", 0, &[0, -5, -6]),
        ("pbeam_mend", 1, &[0, 1]),
        ("pbeam_mend", 2, &[0, 1]),
        ("pbeam_mend", 3, &[0, 1]),
        ("pbeam_mend", 4, &[0, 1]),
        ("pbeam_mend", 5, &[0, 1]),
        ("pbeam_mend", 6, &[0, 1]),
    ]);
}

/// What a reader shows, except plat_data, withdrawn fields and the places of arrays: code, w and e, each array's kind and bytes, the fields.
type Kept = (i32, [u64; 2], Vec<(u64, Vec<u8>)>, Vec<(u64, Vec<u8>)>);

fn shown(page: &[u8], base: u64, edition: u64) -> Kept {
    let mut view = [0; 15];
    let code = Kit::read(page, base, edition, &mut view);
    let arrays = (0..4).map(|k| {
        let mut place = [0; 2];
        Kit::array_of(page, &view, k, &mut place);
        (view[3 + 3 * k], part(page, place))
    });
    let arrays = arrays.collect();
    (code, [view[0], view[1]], arrays, raw_fields(page, &view))
}

fn raw_fields(page: &[u8], view: &ViewImage) -> Vec<(u64, Vec<u8>)> {
    let (mut fields, mut cursor) = (Vec::new(), Kit::field_start(page, view));
    loop {
        let mut field: FieldImage = [0; 4];
        cursor = Kit::field_next(page, cursor, &mut field);
        match field {
            [0, ..] => return fields,
            [1, tag, at, length] => fields.push((tag, part(page, [at, length]))),
            _ => {}
        }
    }
}

fn part(page: &[u8], [at, length]: [u64; 2]) -> Vec<u8> {
    page[at as usize..][..length as usize].to_vec()
}

/// A page that is accepted more often than not, and a target of stale bytes.
fn load_packing(pair: &mut Pair) -> Reading {
    let mut reading = match pair.random.below(4) {
        0 => some_page(pair),
        _ => pair.random.valid_page(),
    };
    if pair.random.one_in(2) {
        // As a reader of edition 4 sees it.
        Kit::mend(&mut reading.page, reading.base, &mut [0; 6]);
    }
    pair.load(|random, m| {
        m.page.load(&reading.page, random.index(8));
        let length = match random.below(16) {
            0 => random.pick(&[0, 1, 112, 4095, 4097, 8192]),
            _ => 4096,
        };
        let stale = random.bytes(length);
        m.table.load(&stale, random.index(8));
    });
    reading
}

fn pack(pair: &mut Pair, base: u64) {
    check!(pair, "pbeam_pack", (base), |S, m| {
        m.returned = S::pack(m.page.lent(), base, m.table.lent_mut()).into();
    });
    pair.meet("pbeam_pack", 0, pair.model.returned);
}

#[test]
fn packer() {
    let mut pair = Pair::new(30);
    for _ in 0..calls() {
        let Reading { base, page, .. } = load_packing(&mut pair);
        let before = pair.kit.table.lent().to_vec();
        pack(&mut pair, base);
        let packed = pair.kit.table.lent().to_vec();
        if pair.kit.returned != 0 {
            assert!(packed == before);
            continue;
        }
        for edition in 1..=4 {
            assert_eq!(shown(&packed, base, edition), shown(&page, base, edition));
        }
        pair.load(|random, m| m.page.load(&packed, random.index(8)));
        pack(&mut pair, base);
        assert!(pair.kit.returned == 0 && pair.kit.table.lent() == packed);
    }
    pair.print_counts();
    pair.expect(&[("pbeam_pack", 0, &[0, -5, -6, -7, 1])]);
}
