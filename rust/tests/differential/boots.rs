//! Sequences of cold and warm boots on one record.

use crate::calls;
use crate::pair::Pair;
use potterbeam_tests::exports::Exports;
use potterbeam_tests::images::record_of;
use potterbeam_tests::random::boots::Boot;
use potterbeam_tests::reference::boot::Record;

#[test]
fn boots() {
    let mut pair = Pair::new(23);
    while pair
        .calls("pbeam_cold_boot")
        .min(pair.calls("pbeam_warm_boot"))
        < calls()
    {
        pair.load(|random, m| {
            m.images.record.words = match random.below(4) {
                0 => random.record_image(),
                _ => [0; 5],
            };
        });
        if pair.random.one_in(8) {
            close(&mut pair);
        }
        for _ in 0..6 {
            let record = record_of(&pair.model.images.record.words);
            let boot = pair.random.boot(record);
            one(&mut pair, &boot);
            versions(&mut pair, boot.x[1]);
            if record == Record::Closed && !pair.random.one_in(4) {
                break;
            }
        }
    }
    pair.print_counts();
    pair.expect(&[
        ("pbeam_close", 0, &[0, 1, 2]),
        ("pbeam_version_accepted", 0, &[0, 1]),
        ("pbeam_agreed_minor", 0, &[0, 1, 2, 3, 4, 5]),
        ("pbeam_is_later", 0, &[0, 1]),
        ("pbeam_cold_boot", 0, &[0, -1, -2, -3, -4, -5, -6, -7]),
        ("pbeam_warm_boot", 0, &[0, -1, -4]),
    ]);
}

fn one(pair: &mut Pair, boot: &Boot) {
    let &Boot { x, most, kept, .. } = boot;
    pair.load(|random, m| m.page.load(&boot.page, random.index(8)));
    let name = if boot.cold {
        check!(pair, "pbeam_cold_boot", (x, most, kept), |S, m| {
            let record = &mut m.images.record.words;
            m.returned = S::cold_boot(record, x, most, kept, m.page.lent()).into();
        });
        "pbeam_cold_boot"
    } else {
        check!(pair, "pbeam_warm_boot", (x), |S, m| {
            m.returned = S::warm_boot(&mut m.images.record.words, x).into();
        });
        "pbeam_warm_boot"
    };
    pair.meet(name, 0, pair.model.returned);
}

/// Closes the record, for any record.
fn close(pair: &mut Pair) {
    let [kind, ..] = pair.model.images.record.words;
    check!(pair, "pbeam_close", (kind), |S, m| {
        S::close(&mut m.images.record.words);
    });
    pair.meet("pbeam_close", 0, kind.min(2) as i64);
}

/// A version as it was offered, and one next to it.
fn versions(pair: &mut Pair, version: u64) {
    let other = match pair.random.below(4) {
        0 => version,
        1 => version.wrapping_add(1),
        2 => pair.random.below(12),
        _ => pair.random.below(1 << 33),
    };
    check!(pair, "pbeam_version_accepted", (other), |S, m| {
        m.returned = S::version_accepted(other).into();
    });
    pair.meet("pbeam_version_accepted", 0, pair.model.returned);
    check!(pair, "pbeam_agreed_minor", (other), |S, m| {
        m.returned = S::agreed_minor(other) as i64;
    });
    pair.meet("pbeam_agreed_minor", 0, pair.model.returned);
    check!(pair, "pbeam_is_later", (version, other), |S, m| {
        m.returned = S::is_later(version, other).into();
    });
    pair.meet("pbeam_is_later", 0, pair.model.returned);
}
