//! KB3, KB5: with the number of kept bytes that pbeam_kept_for names, the manifest is read the same after any commands.

use crate::calls;
use crate::commands::{call, challenge, platform_token, realm_key, sign, token_signing, Step};
use crate::manifest::kept_for;
use crate::pair::Pair;
use potterbeam_tests::exports::{Exports, ViewImage};
use potterbeam_tests::images::{queue_words, record_of, record_words, session_words};
use potterbeam_tests::kit::Kit;
use potterbeam_tests::random::calls::Scene;
use potterbeam_tests::reference::boot::{Kept, Record};
use potterbeam_tests::reference::queue::Queue;
use potterbeam_tests::reference::token::Session;

/// Commands after a boot.
const STEPS: usize = 30;
const BASE: u64 = 0x8000_0000;
const BANK: [u64; 2] = [0x9000_0000, 0x1000_0000];
const CONSOLE: [u64; 6] = [0x1c0c_0000, 1, 0x7061_7274, 24_000_000, 115_200, 0];

/// What readers of editions 1 to 4 return for a page: code, view, and the listing, which also has the fields.
fn shown(page: &[u8], base: u64) -> [(i32, ViewImage, Vec<u8>); 4] {
    [1, 2, 3, 4].map(|edition| {
        let (mut view, mut text) = ([0; 15], vec![0; 12336]);
        let length = Kit::listing(page, base, edition, &mut text);
        text.truncate(length);
        (Kit::read(page, base, edition, &mut view), view, text)
    })
}

/// A page that edition 4 accepts, with its base; its view is left in the images.
fn accepted_page(pair: &mut Pair) -> (u64, Vec<u8>) {
    loop {
        let reading = pair.random.valid_page();
        let (base, page) = (reading.base, reading.page);
        pair.load(|random, m| m.page.load(&page, random.index(8)));
        check!(pair, "pbeam_read", (base), |S, m| {
            m.returned = S::read(m.page.lent(), base, 4, &mut m.images.view.words).into();
        });
        if pair.model.returned == 0 {
            return (base, page);
        }
    }
}

/// A cold boot with `kept` kept bytes, then two warm boots.
fn boot(pair: &mut Pair, base: u64, kept: u64) {
    pair.load(|_, m| {
        m.images.record.words = [0; 5];
        m.images.session.words = session_words(Session::Idle);
        m.images.queue.words = queue_words(&Queue::EMPTY);
    });
    let x = [0, pair.random.between(4, 6), 8, base];
    check!(pair, "pbeam_cold_boot", (x, kept), |S, m| {
        let record = &mut m.images.record.words;
        m.returned = S::cold_boot(record, x, 8, kept, m.page.lent()).into();
    });
    for cpu in [3, 3] {
        assert_eq!(pair.model.returned, 0);
        check!(pair, "pbeam_warm_boot", (cpu), |S, m| {
            m.returned = S::warm_boot(&mut m.images.record.words, [cpu, 9, 9, 9]).into();
        });
    }
    let up = Kept {
        cpus: 8,
        base,
        minor: x[1].min(5),
        kept,
    };
    assert_eq!(pair.kit.images.record.words, record_words(Record::Up(up)));
}

/// A scene on this page, with the record that boot left.
fn scene_on(pair: &mut Pair, page: &[u8]) -> Scene {
    let mut scene = pair.random.scene();
    scene.page = page.to_vec();
    scene.busy = false;
    scene.state.record = record_of(&pair.model.images.record.words);
    pair.load(|random, m| m.table.load(&scene.table, random.index(8)));
    scene
}

#[test]
fn manifest_is_read_the_same_after_commands() {
    let mut pair = Pair::new(28);
    let steps: [Step; 6] = [
        platform_token,
        token_signing,
        realm_key,
        call,
        sign,
        challenge,
    ];
    let [mut written, mut with_fields] = [0; 2];
    while pair.calls("pbeam_call") < calls() {
        let (base, page) = accepted_page(&mut pair);
        let fields = Kit::field_count(&page, &pair.kit.images.view.words);
        let kept = kept_for(&mut pair);
        boot(&mut pair, base, kept);
        let mut scene = scene_on(&mut pair, &page);
        for _ in 0..STEPS {
            let step = pair.random.pick(&steps);
            step(&mut pair, &mut scene);
        }
        let kept = kept as usize;
        assert_eq!(scene.page[..kept], page[..kept]);
        assert_eq!(shown(&scene.page, base), shown(&page, base));
        if scene.page != page {
            written += 1;
            with_fields += u64::from(fields != 0);
        }
    }
    assert!(
        written > calls() / 100 && with_fields > calls() / 500,
        "only {written} pages were written into, {with_fields} with fields"
    );
}

/// Expected numbers as constants: the core's end, the end of the last array, or that of the fields with their mark.
#[test]
fn what_a_manifest_takes() {
    let (banks, consoles) = (BANK.repeat(249), CONSOLE.repeat(83));
    let to_the_end = [&[7, 0x8a, 0x0f][..], &[9; 0xf8a]].concat();
    let pages: [(u64, [&[u64]; 4], &[u8], u64); 12] = [
        (1, [&[], &[], &[], &[]], &[], 16),
        (2, [&[], &[], &[], &[]], &[], 40),
        (4, [&[], &[], &[], &[]], &[], 112),
        (2, [&BANK, &[], &[], &[]], &[], 56),
        (3, [&BANK, &CONSOLE, &[], &[]], &[], 128),
        (4, [&BANK, &CONSOLE, &BANK, &BANK], &[], 208),
        (4, [&banks, &[], &[], &[]], &[], 4096),
        (4, [&[], &consoles, &[], &[]], &[], 4096),
        (1, [&[], &[], &[], &[]], &[9, 0, 0], 24),
        (2, [&BANK, &[], &[], &[]], &[1, 2, 0, 80, 98], 64),
        (2, [&BANK, &[], &[], &[]], &[1, 3, 0, 80, 98, 49], 72),
        (4, [&[], &[], &[], &[]], &to_the_end, 4096),
    ];
    for (edition, lists, fields, expected) in pages {
        let (mut page, mut view) = ([0; 4096], [0; 15]);
        assert_eq!(Kit::write(BASE, edition, lists, fields, &mut page), 0);
        assert_eq!(Kit::read(&page, BASE, 4, &mut view), 0);
        assert_eq!(Kit::kept_for(&page, &view), expected);
    }
}
