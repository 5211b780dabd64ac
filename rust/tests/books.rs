//! BO1 to BO5: the books on granules. A long random sequence of delegations, undelegations, lists and other calls, with forged records and
//! refusals among them. The test keeps the books from the library's answers alone, and compares them with the table after every call.

use potterbeam_tests::exports::{Exports, GranulesImage, Lent, RecordImage, Registers};
use potterbeam_tests::images::{record_of, record_words};
use potterbeam_tests::kit::Kit;
use potterbeam_tests::random::calls::Scene;
use potterbeam_tests::random::Random;
use potterbeam_tests::reference::runtime::{DELEGATE, UNDELEGATE};
use std::collections::BTreeMap;

const SCENES: usize = 1_000;
const STEPS: usize = 500;
const REALM: u8 = 1;
const NON_SECURE: u8 = 0;

/// What an operator notes: how many Realm bytes there were, the accepted calls of each kind, and the byte that the last of them left
/// on each granule.
struct Books {
    at_start: u64,
    delegated: u64,
    undelegated: u64,
    bytes: Vec<u8>,
    /// Words and table agreed at the start, so the count of the words also balances.
    agreed: bool,
}

fn realms(table: &[u8]) -> u64 {
    table.iter().filter(|&&byte| byte == REALM).count() as u64
}

/// The granule that an accepted call named: the banks' granules are joined in bank order.
fn place(granules: &GranulesImage, address: u64) -> usize {
    let mut before = 0;
    for bank in granules[1..].chunks(2).take(granules[0] as usize) {
        if (bank[0]..bank[0] + bank[1]).contains(&address) {
            return ((before + address - bank[0]) / 4096) as usize;
        }
        before += bank[1];
    }
    panic!("accepted, and in no bank: {address:#x}");
}

impl Books {
    fn open(scene: &Scene) -> Books {
        Books {
            at_start: realms(&scene.table),
            delegated: 0,
            undelegated: 0,
            bytes: scene.table.clone(),
            agreed: Kit::realm_agrees(&scene.granules, &scene.table, &scene.words) == 0,
        }
    }

    /// Enters accepted calls on these addresses.
    fn enter(&mut self, scene: &Scene, id: u64, addresses: &[u64]) {
        for address in addresses {
            let granule = &mut self.bytes[place(&scene.granules, *address)];
            if id == DELEGATE {
                self.delegated += 1;
                *granule = REALM;
            } else {
                self.undelegated += 1;
                *granule = NON_SECURE;
            }
        }
    }

    fn compare(&self, scene: &Scene) {
        let (came, gone) = (self.at_start + self.delegated, self.undelegated);
        assert_eq!(came, gone + realms(&scene.table));
        assert_eq!(self.bytes, scene.table);
        if self.agreed {
            let mut number = [7];
            assert_eq!(
                Kit::realm_count(&scene.granules, &scene.words, &mut number),
                0
            );
            assert_eq!(came, gone + number[0]);
        }
    }
}

/// Which addresses are done by the answer: the one of a single call that is OK, the first x1 of a list.
fn done<'a>(out: &Registers, addresses: &'a [u64], is_list: bool) -> &'a [u64] {
    match (is_list, out[0]) {
        (true, _) => &addresses[..out[1] as usize],
        (false, 0) => addresses,
        (false, _) => &[],
    }
}

/// A list of granules in one call.
fn list(scene: &mut Scene, record: &RecordImage, id: u64, addresses: &[u64]) -> Registers {
    let mut out = [7; 3];
    let Scene {
        granules,
        table,
        words,
        ..
    } = scene;
    match id {
        DELEGATE => Kit::delegate_list(record, granules, table, words, addresses, &mut out),
        _ => Kit::undelegate_list(record, granules, table, words, addresses, &mut out),
    }
    out
}

/// One granule, by the export of its command.
fn single(scene: &mut Scene, record: &RecordImage, id: u64, at: u64) -> Registers {
    let mut out = [7; 3];
    let Scene {
        granules,
        table,
        words,
        ..
    } = scene;
    match id {
        DELEGATE => Kit::delegate(record, granules, table, words, at, &mut out),
        _ => Kit::undelegate(record, granules, table, words, at, &mut out),
    }
    out
}

/// A call by function id.
fn call(random: &mut Random, scene: &mut Scene, record: &RecordImage, x: &[u64; 5]) -> Registers {
    let (mut out, mut work) = ([7; 3], [7; 2]);
    let mut session = random.session_image(scene.token.len() as u64);
    let mut queue = random.queue_image();
    let mut lent = Lent {
        page: &mut scene.page,
        granules: &scene.granules,
        table: &mut scene.table,
        words: &mut scene.words,
        key: &scene.realm_key,
        token: &scene.token,
        busy: u64::from(scene.busy),
        public_key: &scene.public_key,
        width: scene.width,
    };
    Kit::call(
        record,
        &mut session,
        &mut queue,
        &mut lent,
        x,
        &mut out,
        &mut work,
    );
    out
}

/// One call, entered in the books by its answer. Returns which call, and the code.
fn step(random: &mut Random, scene: &mut Scene, books: &mut Books) -> (&'static str, i64) {
    let record = match random.below(8) {
        0 => random.record_image(),
        _ => record_words(scene.state.record),
    };
    let id = random.pick(&[DELEGATE, UNDELEGATE]);
    match random.below(4) {
        0 | 1 => {
            let addresses = random.granules(scene);
            let out = list(scene, &record, id, &addresses);
            books.enter(scene, id, done(&out, &addresses, true));
            ("list", out[0] as i64)
        }
        2 => {
            let [at, ..] = random.registers(id, scene);
            let out = match random.one_in(2) {
                true => single(scene, &record, id, at),
                false => call(random, scene, &record, &[id, at, 0, 0, 0]),
            };
            books.enter(scene, id, done(&out, &[at], false));
            ("single", out[0] as i64)
        }
        _ => {
            let other = random.call(scene);
            let [x1, x2, x3, x4] = other.x;
            let out = call(random, scene, &record, &[other.id, x1, x2, x3, x4]);
            if [DELEGATE, UNDELEGATE].contains(&other.id) {
                books.enter(scene, other.id, done(&out, &[x1], false));
            }
            ("any", out[0] as i64)
        }
    }
}

#[test]
fn books_balance() {
    let mut random = Random::new(14);
    let mut met: BTreeMap<(&str, i64), u64> = BTreeMap::new();
    let (mut delegated, mut undelegated, mut agreed) = (0, 0, 0);
    for _ in 0..SCENES {
        let mut scene = random.scene();
        let mut books = Books::open(&scene);
        for _ in 0..STEPS {
            if random.one_in(16) {
                scene.state.record = record_of(&random.record_image());
            }
            let answer = step(&mut random, &mut scene, &mut books);
            *met.entry(answer).or_insert(0) += 1;
            books.compare(&scene);
        }
        delegated += books.delegated;
        undelegated += books.undelegated;
        agreed += u64::from(books.agreed);
    }
    assert!(agreed > SCENES as u64 / 4, "words agreed {agreed} times");
    for kind in ["list", "single"] {
        for code in [0, -1, -2, -3, -5] {
            assert!(met.contains_key(&(kind, code)), "no {kind} with {code}");
        }
    }
    assert!(
        delegated > 10_000 && undelegated > 10_000,
        "{delegated}, {undelegated}"
    );
}
