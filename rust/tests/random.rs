//! The generators reach what they should: each answer occurs, and inputs that should be valid are.

use potterbeam_tests::random::calls::{Outcome, Step};
use potterbeam_tests::random::Random;
use potterbeam_tests::reference::boot::{boot_code, Record};
use potterbeam_tests::reference::fields::Shown;
use potterbeam_tests::reference::layout::word_at;
use potterbeam_tests::reference::reader::{fields, read, Section};
use potterbeam_tests::reference::runtime::Reply;
use potterbeam_tests::reference::writer::write;
use std::collections::{BTreeMap, BTreeSet};

const RUNS: usize = 20_000;

#[test]
fn same_seed_same_page() {
    let [first, second] = [7, 7].map(|seed| Random::new(seed).any_page());
    assert_eq!(first.page, second.page);
}

#[test]
fn valid_pages_are_accepted() {
    let mut random = Random::new(1);
    let mut shown = BTreeSet::new();
    for _ in 0..RUNS {
        let reading = random.valid_page();
        let view = read(&reading.page, reading.base, reading.edition).expect("valid");
        for (k, section) in view.sections.into_iter().enumerate() {
            shown.insert((
                k,
                std::mem::discriminant(&section) == std::mem::discriminant(&Section::Empty),
            ));
        }
    }
    assert_eq!(shown.len(), 8);
}

#[test]
fn pages_meet_every_code() {
    let mut random = Random::new(2);
    let mut codes = BTreeMap::new();
    for _ in 0..RUNS {
        let reading = random.any_page();
        let answer = read(&reading.page, reading.base, reading.edition);
        *codes
            .entry(answer.map_or_else(|refusal| refusal.code(), |_| 0))
            .or_insert(0) += 1;
    }
    println!("any_page: {codes:?}");
    assert_eq!(codes.len(), 4);
    assert!(codes.values().all(|&n| n > RUNS / 500));
}

#[test]
fn made_pages_are_read_as_told() {
    let mut random = Random::new(3);
    let mut most = 0;
    for _ in 0..RUNS {
        let mut writing = random.valid_writing();
        let mut page = std::mem::take(&mut writing.page);
        let (lists, told) = (writing.lists(), &writing.fields);
        write(writing.base, writing.edition, lists, told, &mut page).expect("valid");
        let view = read(&page, writing.base, 4).expect("made");
        for (k, list) in writing.lists().into_iter().enumerate() {
            let words = match view.sections[k] {
                Section::Entries { offset, .. } => &page[offset..offset + 8 * list.len()],
                _ => &[],
            };
            let words: Vec<u64> = words.chunks_exact(8).map(|cell| word_at(cell, 0)).collect();
            assert_eq!(words, list);
        }
        let shown = fields(&page, view.plat_data);
        let mut again = Vec::new();
        for shown in &shown {
            let field = match shown {
                Shown::Raw(field) => field,
                Shown::Withdrawn => panic!("a withdrawn field was written"),
            };
            again.push(field.tag);
            again.extend((field.value.len() as u16).to_le_bytes());
            again.extend_from_slice(field.value);
        }
        assert_eq!(&again, told);
        most = most.max(shown.len());
    }
    assert!(most > 200, "at most {most} fields");
}

#[test]
fn lists_meet_every_refusal_and_leave_the_page() {
    let mut random = Random::new(4);
    let mut answers = BTreeMap::new();
    for _ in 0..RUNS {
        let writing = random.any_writing();
        let mut page = writing.page.clone();
        let (lists, fields) = (writing.lists(), &writing.fields);
        let answer = write(writing.base, writing.edition, lists, fields, &mut page);
        assert!(answer.is_ok() || page == writing.page);
        *answers
            .entry(answer.map_or_else(|refusal| refusal as u8, |()| 0))
            .or_insert(0) += 1;
    }
    println!("any_writing: {answers:?}");
    assert_eq!(answers.len(), 6);
    assert!(answers.values().all(|&n| n > RUNS / 500));
}

#[test]
fn boots_meet_every_code() {
    let mut random = Random::new(5);
    let mut codes = BTreeMap::new();
    for _ in 0..RUNS {
        let mut record = if random.one_in(4) {
            random.record()
        } else {
            Record::Fresh
        };
        for _ in 0..4 {
            let boot = random.boot(record);
            let (next, answer) = match boot.cold {
                true => record.cold(boot.x, boot.most, boot.kept, &boot.page),
                false => record.warm(boot.x),
            };
            record = next;
            *codes.entry((boot.cold, boot_code(answer))).or_insert(0) += 1;
            if record == Record::Closed && !random.one_in(4) {
                break;
            }
        }
    }
    println!("boot: {codes:?}");
    assert_eq!(codes.len(), 8 + 3);
    assert!(codes.values().all(|&n| n > RUNS / 500));
}

/// What a step was, and its code.
fn kind(step: &Step, outcome: &Outcome) -> (String, i64) {
    match (step, outcome) {
        (Step::Call(call), Outcome::Reply(Reply::Back { answer, .. })) => {
            let opcode = match call.id {
                0xC400_01B5 => call.x[0].min(4),
                _ => 0,
            };
            let listed = (0xC400_01B0..=0xC400_01B6).contains(&call.id);
            let name = if listed {
                format!("{:x}/{opcode}", call.id)
            } else {
                "unlisted".into()
            };
            (name, answer.x0 as i64)
        }
        (_, Outcome::Reply(Reply::Forward(_))) => ("forward".into(), 0),
        (_, Outcome::Signed(answer)) => ("sign".into(), answer.x0 as i64),
        (_, Outcome::Challenge(part)) => ("challenge".into(), part.len() as i64),
        (_, Outcome::Oldest(oldest)) => ("oldest".into(), i64::from(oldest.is_some())),
        _ => unreachable!("a call gets a reply"),
    }
}

#[test]
fn steps_meet_every_answer() {
    let mut random = Random::new(6);
    let mut met = BTreeMap::new();
    for _ in 0..RUNS / 20 {
        let mut scene = random.scene();
        for _ in 0..40 {
            let step = random.step(&mut scene);
            let outcome = scene.run(&step);
            *met.entry(kind(&step, &outcome)).or_insert(0) += 1;
        }
    }
    println!("steps: {met:?}");
    let expected: [(&str, &[i64]); 15] = [
        ("c40001b0/0", &[0, -1, -2, -3]),
        ("c40001b1/0", &[0, -1, -2, -3]),
        ("c40001b2/0", &[0, -1, -2, -5]),
        ("c40001b3/0", &[0, -1, -2, -5, -6]),
        ("c40001b4/0", &[0, -1, -5]),
        ("c40001b5/0", &[-1, -5]),
        ("c40001b5/1", &[0, -1, -5, -6]),
        ("c40001b5/2", &[0, -1, -5, -6]),
        ("c40001b5/3", &[0, -1, -5, -6]),
        ("c40001b5/4", &[-1, -5]),
        ("c40001b6/0", &[0, -1, -5]),
        ("forward", &[0]),
        ("sign", &[0, -5, -6]),
        ("challenge", &[0, 32, 48, 64]),
        ("oldest", &[0, 1]),
    ];
    for (name, codes) in expected {
        for &code in codes {
            let n = met.get(&(name.to_string(), code)).copied().unwrap_or(0);
            assert!(n >= 10, "{name} with {code}: {n} times");
        }
    }
}
