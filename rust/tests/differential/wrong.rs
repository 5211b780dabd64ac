//! The comparison can fail: wrong answers are put on the library's side, and each must be reported.

use crate::memory::{blank, Image, Memory};
use crate::pair::{differences, Pair};
use std::any::type_name;

/// Fails unless this change of one side's memory is seen, and reported under this name.
fn seen(part: &str, change: impl FnOnce(&mut Memory)) {
    let model = blank();
    let mut kit = model.clone();
    change(&mut kit);
    assert_ne!(kit, model, "{part}");
    let report = differences(&model, &kit, &model);
    let named: Vec<_> = report.lines().filter(|l| l.ends_with(" differs")).collect();
    assert_eq!(named, [format!("{part} differs")]);
}

/// One bit of a word of the image, and of each guard.
fn image_seen<const N: usize>(part: &str, image: fn(&mut Memory) -> &mut Image<N>) {
    seen(part, |m| image(m).words[0] ^= 1);
    seen(part, |m| image(m).words[N - 1] ^= 1 << 63);
    seen(part, |m| image(m).before[1] ^= 1);
    seen(part, |m| image(m).after[0] ^= 1);
}

#[test]
fn every_bit_counts() {
    seen("returned", |m| m.returned = -7);
    for at in [0, 63, 64, 2000, 64 + 4095, 64 + 4096, 64 + 4096 + 63] {
        seen("page", |m| m.page.cells_mut()[at] ^= 1);
    }
    for at in [63, 64, 64 + 15, 64 + 16] {
        seen("table", |m| m.table.cells_mut()[at] ^= 1);
    }
    for at in 1..6 {
        seen("words", |m| m.words.cells_mut()[at] ^= 1 << 63);
    }
    image_seen("record", |m| &mut m.images.record);
    image_seen("granules", |m| &mut m.images.granules);
    image_seen("session", |m| &mut m.images.session);
    image_seen("queue", |m| &mut m.images.queue);
    image_seen("view", |m| &mut m.images.view);
    image_seen("place", |m| &mut m.images.place);
    image_seen("field", |m| &mut m.images.field);
    image_seen("changed", |m| &mut m.images.changed);
    image_seen("request", |m| &mut m.images.request);
    image_seen("out", |m| &mut m.images.out);
    image_seen("work", |m| &mut m.images.work);
    image_seen("number", |m| &mut m.images.number);
}

/// A call whose result depends on the side that makes it.
#[test]
#[should_panic(expected = "pbeam_none, call 1\nbase: 1000\nbefore the call:")]
fn wrong_answer_is_reported() {
    let mut pair = Pair::new(1);
    let base = 4096;
    check!(pair, "pbeam_none", (base), |S, m| m.returned =
        base + type_name::<S>().len() as i64);
}

#[test]
#[should_panic(expected = "pbeam_read 0 with -5: 0 times")]
fn answer_never_met_is_reported() {
    Pair::new(1).expect(&[("pbeam_read", 0, &[-5])]);
}

#[test]
#[should_panic(expected = "no such answers")]
fn unknown_answer_is_reported() {
    let mut pair = Pair::new(1);
    pair.meet("pbeam_read", 0, -8);
    pair.expect(&[]);
}
