//! The hand-written side of the benchmark against the reference on the same images: every word and byte after each call, over random
//! sequences with forged images between.

use potterbeam_tests::exports::{
    Exports, GranulesImage, Lent, QueueImage, RecordImage, Registers, RequestImage, SessionImage,
    Work,
};
use potterbeam_tests::images::{record_of, record_words, session_of};
use potterbeam_tests::inplace;
use potterbeam_tests::model::Model;
use potterbeam_tests::random::calls::Scene;
use potterbeam_tests::random::Random;
use potterbeam_tests::reference::boot::Record;
use potterbeam_tests::reference::runtime::{Call, DELEGATE, TOKEN_SIGN};
use std::collections::{BTreeMap, BTreeSet};

const SCENES: usize = 4_000;
const STEPS: usize = 40;

/// What a call may write.
#[derive(Clone, Debug, PartialEq)]
struct Memory {
    record: RecordImage,
    session: SessionImage,
    queue: QueueImage,
    page: Vec<u8>,
    table: Vec<u8>,
    words: Vec<u64>,
    out: Registers,
    work: Work,
    request: RequestImage,
    returned: usize,
}

/// A move of the granule at an address, or of those at a list.
type Move<T> = fn(&RecordImage, &GranulesImage, &mut [u8], &mut [u64], T, &mut Registers);

/// A move of a list on both sides.
type Moves<'a> = (Move<&'a [u64]>, Move<&'a [u64]>);

/// How often each answer was met, by the id or the name of the step.
type Met = BTreeMap<(u64, i64), u64>;

const SIGN: u64 = 1;
const SIGNING: u64 = 2;
const OLDEST: u64 = 3;
const MOVE: u64 = 4;
const LIST: u64 = 5;
const SET_UP: u64 = 6;

impl Memory {
    fn new(random: &mut Random, scene: &Scene) -> Memory {
        Memory {
            record: random.record_image(),
            session: random.session_image(scene.token.len() as u64),
            queue: random.queue_image(),
            page: scene.page.clone(),
            table: scene.table.clone(),
            words: scene.words.clone(),
            // Stale, so that a word that is not written shows.
            out: [7; 3],
            work: [7; 2],
            request: [7; 10],
            returned: 7,
        }
    }

    /// What may happen between two calls.
    fn change(&mut self, random: &mut Random, scene: &mut Scene) {
        random.change_lent(scene);
        if scene.state.record != record_of(&self.record) {
            self.record = record_words(scene.state.record);
        }
        match random.below(32) {
            0 => self.record = random.record_image(),
            1 => self.session = random.session_image(scene.token.len() as u64),
            2 | 3 => self.queue = random.queue_image(),
            _ => {}
        }
        scene.state.record = record_of(&self.record);
        scene.state.session = session_of(&self.session);
        (self.out, self.work, self.request, self.returned) = ([7; 3], [7; 2], [7; 10], 7);
    }
}

fn model_call(m: &mut Memory, scene: &Scene, busy: u64, x: &[u64; 5]) {
    let mut lent = Lent {
        page: &mut m.page,
        granules: &scene.granules,
        table: &mut m.table,
        words: &mut m.words,
        key: &scene.realm_key,
        token: &scene.token,
        busy,
        public_key: &scene.public_key,
        width: scene.width,
    };
    let (session, queue) = (&mut m.session, &mut m.queue);
    let (out, work) = (&mut m.out, &mut m.work);
    Model::call(&m.record, session, queue, &mut lent, x, out, work);
}

fn in_place_call(m: &mut Memory, scene: &Scene, busy: u64, x: &[u64; 5]) {
    inplace::call(
        &m.record,
        &mut m.session,
        &mut m.queue,
        &mut m.page,
        &scene.granules,
        &mut m.table,
        &mut m.words,
        &scene.realm_key,
        &scene.token,
        busy,
        &scene.public_key,
        scene.width,
        x,
        &mut m.out,
        &mut m.work,
    );
}

/// One call on each side; returns which.
fn step(random: &mut Random, scene: &mut Scene, model: &mut Memory, ours: &mut Memory) -> u64 {
    match random.below(9) {
        0 => {
            let signature = random.signature();
            Model::sign(&mut model.queue, &signature, &mut model.out);
            inplace::sign(&mut ours.queue, &signature, &mut ours.out);
            SIGN
        }
        1 => {
            model.returned = Model::oldest(&model.queue, &mut model.request);
            ours.returned = inplace::oldest(&ours.queue, &mut ours.request);
            OLDEST
        }
        2 => {
            let (x, key) = (random.registers(TOKEN_SIGN, scene), &scene.public_key);
            load_page(scene, model, ours);
            let Memory { page, out, .. } = model;
            Model::token_signing(&model.record, &mut model.queue, page, key, x, out);
            let Memory { page, out, .. } = ours;
            let [opcode, pa, size, curve] = x;
            let queue = &mut ours.queue;
            inplace::token_signing(&ours.record, queue, page, key, opcode, pa, size, curve, out);
            SIGNING
        }
        3 => {
            let [at, ..] = random.registers(DELEGATE, scene);
            let (theirs, mine): (Move<u64>, Move<u64>) = match random.one_in(2) {
                true => (Model::delegate, inplace::delegate),
                false => (Model::undelegate, inplace::undelegate),
            };
            theirs(
                &model.record,
                &scene.granules,
                &mut model.table,
                &mut model.words,
                at,
                &mut model.out,
            );
            mine(
                &ours.record,
                &scene.granules,
                &mut ours.table,
                &mut ours.words,
                at,
                &mut ours.out,
            );
            MOVE
        }
        4 => {
            let list = random.granules(scene);
            let (theirs, mine): (Move<&[u64]>, Move<&[u64]>) = match random.one_in(2) {
                true => (Model::delegate_list, inplace::delegate_list),
                false => (Model::undelegate_list, inplace::undelegate_list),
            };
            theirs(
                &model.record,
                &scene.granules,
                &mut model.table,
                &mut model.words,
                &list,
                &mut model.out,
            );
            mine(
                &ours.record,
                &scene.granules,
                &mut ours.table,
                &mut ours.words,
                &list,
                &mut ours.out,
            );
            LIST
        }
        5 => {
            let (shown, in_table) = random.shown_banks();
            let (mut theirs, mut mine) = (scene.granules, scene.granules);
            model.out[0] = Model::set_up_granules(&mut theirs, &shown, in_table);
            ours.out[0] = inplace::set_up(&mut mine, &shown, in_table);
            assert_eq!(mine, theirs);
            SET_UP
        }
        _ => {
            let Call { id, x } = random.call(scene);
            let ([x1, x2, x3, x4], busy) = (x, u64::from(scene.busy) << random.below(64));
            load_page(scene, model, ours);
            let x = [id, x1, x2, x3, x4];
            model_call(model, scene, busy, &x);
            in_place_call(ours, scene, busy, &x);
            id
        }
    }
}

/// A push finds a request where the scene has put one.
fn load_page(scene: &Scene, model: &mut Memory, ours: &mut Memory) {
    model.page.copy_from_slice(&scene.page);
    ours.page.copy_from_slice(&scene.page);
}

/// Count, next, agree and build, on words and records of any kind.
#[test]
fn realm_words_are_the_same() {
    let (mut random, mut met) = (Random::new(6), BTreeSet::new());
    for _ in 0..20_000 {
        let scene = random.scene();
        let (granules, mut words) = (&scene.granules, scene.words.clone());
        match random.below(8) {
            0 => words.iter_mut().for_each(|word| *word = u64::MAX),
            1 => words.iter_mut().for_each(|word| *word = 0),
            2 => words.push(1),
            _ => {}
        }
        let index = random.below(64 * words.len() as u64 + 3);
        met.extend(on_realm_words(granules, &scene.table, &words, index));
    }
    assert_eq!(met, BTreeSet::from([0, 1, -5]));
}

/// All four on both sides; returns their answers.
fn on_realm_words(granules: &GranulesImage, table: &[u8], words: &[u64], index: u64) -> [i64; 4] {
    let [mut theirs, mut ours] = [[7]; 2];
    let counted = Model::realm_count(granules, words, &mut theirs);
    assert_eq!(
        inplace::realm_count(granules, words, &mut ours),
        counted,
        "{words:x?}"
    );
    assert_eq!(ours, theirs, "{words:x?}");
    let next = Model::realm_next(granules, words, index, &mut theirs);
    assert_eq!(inplace::realm_next(granules, words, index, &mut ours), next);
    assert_eq!(ours, theirs, "{words:x?}, {index}");
    let agrees = Model::realm_agrees(granules, table, words);
    assert_eq!(inplace::realm_agrees(granules, table, words), agrees);
    let [mut theirs, mut ours] = [(); 2].map(|()| words.to_vec());
    let built = Model::realm_build(granules, table, &mut theirs);
    assert_eq!(inplace::realm_build(granules, table, &mut ours), built);
    assert_eq!(ours, theirs, "{table:x?}");
    assert_eq!(
        inplace::realm_agrees(granules, table, &ours),
        Model::realm_agrees(granules, table, &theirs)
    );
    [counted, next, agrees, built].map(|said| said as i64)
}

/// The same over many words with few bits, so that a search passes more than one turn of eight words.
#[test]
fn long_realm_words_are_the_same() {
    let mut random = Random::new(7);
    for _ in 0..2_000 {
        let length = random.between(1, 3_000);
        let mut granules = [0; 33];
        granules[..3].copy_from_slice(&[1, 0x8_8000_0000, 4096 * length]);
        let mut table: Vec<u8> = vec![0; length as usize];
        for _ in 0..random.below(4) {
            let i = random.index(table.len());
            table[i] = random.pick(&[1, 1, 2, 255]);
        }
        let mut words = vec![0; (length as usize + 63) / 64];
        assert_eq!(Model::realm_build(&granules, &table, &mut words), 0);
        if random.one_in(4) {
            let i = random.index(words.len());
            words[i] ^= 1 << random.below(64);
        }
        on_realm_words(&granules, &table, &words, random.below(length));
    }
}

/// Lists over several banks, in order and at random, with addresses in no bank among them.
#[test]
fn lists_in_many_banks_are_the_same() {
    let (mut random, mut met) = (Random::new(8), BTreeMap::new());
    for _ in 0..20_000 {
        let (granules, table) = random.granule_record();
        let words = (table + 63) / 64;
        let mut list = Vec::new();
        for bank in granules[1..]
            .chunks_exact(2)
            .take(granules[0].min(16) as usize)
        {
            let end = bank[0].saturating_add(bank[1].min(40 * 4096));
            list.extend((bank[0]..end).step_by(4096));
        }
        match random.below(4) {
            0 => random.shuffle(&mut list),
            1 => list.reverse(),
            _ => {}
        }
        if random.one_in(4) && !list.is_empty() {
            let i = random.index(list.len());
            list[i] = random.edge();
        }
        let state = [
            1,
            8,
            random.pick(&[0x8000_0000, list.last().copied().unwrap_or(0)]),
            5,
            0,
        ];
        let moves: [Moves; 2] = [
            (Model::delegate_list, inplace::delegate_list),
            (Model::undelegate_list, inplace::undelegate_list),
        ];
        let [mut theirs, mut ours] = [(); 2].map(|()| (vec![0; table], vec![0; words], [7; 3]));
        for (theirs_by, ours_by) in moves {
            let (table, words, out) = (&mut theirs.0, &mut theirs.1, &mut theirs.2);
            theirs_by(&state, &granules, table, words, &list, out);
            let (table, words, out) = (&mut ours.0, &mut ours.1, &mut ours.2);
            ours_by(&state, &granules, table, words, &list, out);
            assert_eq!(ours, theirs, "{granules:x?} {list:x?}");
            *met.entry(ours.2[0] as i64).or_insert(0) += 1;
        }
    }
    println!("lists: {met:?}");
    assert!([0, -2].iter().all(|code| met[code] > 1_000));
}

/// Cold boots with each code.
#[test]
fn cold_boots_are_the_same() {
    let (mut random, mut met) = (Random::new(9), BTreeMap::new());
    for _ in 0..100_000 {
        let boot = random.boot(Record::Fresh);
        let state = match random.one_in(16) {
            true => random.record_image(),
            false => [0; 5],
        };
        let [mut theirs, mut ours] = [state; 2];
        let (kept, page) = (boot.kept, &boot.page);
        let code = Model::cold_boot(&mut theirs, boot.x, boot.most, kept, page);
        let [x0, x1, x2, x3] = boot.x;
        let said = inplace::cold_boot(&mut ours, x0, x1, x2, x3, boot.most, kept, page);
        assert_eq!((said, ours), (code, theirs), "{state:x?} {:x?}", boot.x);
        *met.entry(code).or_insert(0) += 1;
    }
    println!("cold boots: {met:?}");
    assert!((-7..=0).all(|code| met[&code] > 100));
}

/// The parts that differ: what was, ours, theirs.
fn differ(was: &Memory, ours: &Memory, theirs: &Memory) -> String {
    let words = |name, was: &[u64], ours: &[u64], theirs: &[u64]| -> String {
        let places = (0..ours.len()).filter(|&i| ours[i] != theirs[i]);
        let place = |i| format!("{name}[{i}] {:x} {:x} {:x}; ", was[i], ours[i], theirs[i]);
        places.map(place).collect()
    };
    let page = (0..ours.page.len()).find(|&i| ours.page[i] != theirs.page[i]);
    [
        words("record", &was.record, &ours.record, &theirs.record),
        words("session", &was.session, &ours.session, &theirs.session),
        words("queue", &was.queue, &ours.queue, &theirs.queue),
        words("words", &was.words, &ours.words, &theirs.words),
        words("out", &was.out, &ours.out, &theirs.out),
        words("work", &was.work, &ours.work, &theirs.work),
        words("request", &was.request, &ours.request, &theirs.request),
        format!("page from {page:?}; "),
        format!("table {:x?} {:x?}; ", ours.table, theirs.table),
        format!("returned {} {}", ours.returned, theirs.returned),
    ]
    .concat()
}

#[test]
fn the_same_as_the_model() {
    let (mut random, mut met) = (Random::new(31), Met::new());
    for _ in 0..SCENES {
        let mut scene = random.scene();
        let mut model = Memory::new(&mut random, &scene);
        scene.state.record = record_of(&model.record);
        for _ in 0..STEPS {
            model.change(&mut random, &mut scene);
            let (before, mut ours) = (model.clone(), model.clone());
            let id = step(&mut random, &mut scene, &mut model, &mut ours);
            assert!(ours == model, "{id:x}: {}", differ(&before, &ours, &model));
            scene.page.copy_from_slice(&model.page);
            let answer = if id == OLDEST {
                model.returned as u64
            } else {
                model.out[0]
            };
            *met.entry((id, answer as i64)).or_insert(0) += 1;
        }
    }
    expect(&met);
}

/// Every answer of every command was met often.
fn expect(met: &Met) {
    let expected: [(u64, &[i64]); 14] = [
        (MOVE, &[0, -1, -2, -3, -5]),
        (LIST, &[0, -1, -2, -3, -5]),
        (SET_UP, &[0, -5]),
        (SIGN, &[0, -5, -6]),
        (SIGNING, &[0, -1, -5, -6]),
        (OLDEST, &[0, 1, 2, 3, 4, 5, 6, 7, 8]),
        (0xC400_018F, &[0]),
        (0xC400_01B0, &[0, -1, -2, -3, -5]),
        (0xC400_01B1, &[0, -1, -2, -3, -5]),
        (0xC400_01B2, &[0, -1, -2, -5]),
        (0xC400_01B3, &[0, -1, -2, -5, -6]),
        (0xC400_01B4, &[0, -1, -5]),
        (0xC400_01B5, &[0, -1, -5, -6]),
        (0xC400_01B6, &[0, -1, -5]),
    ];
    for (id, answers) in expected {
        for &answer in answers {
            let n = met.get(&(id, answer)).copied().unwrap_or(0);
            assert!(n >= 50, "{id:x} with {answer}: {n} times");
        }
    }
}
