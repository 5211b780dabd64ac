//! Sequences of commands in scenes. The images go from step to step; now and then one is forged in between.

use crate::calls;
use crate::memory::Images;
use crate::pair::Pair;
use potterbeam_tests::exports::{Exports, Lent};
use potterbeam_tests::images::{
    queue_of, queue_words, record_of, record_words, session_of, session_words,
};
use potterbeam_tests::random::calls::Scene;
use potterbeam_tests::reference::runtime::{
    Call, DELEGATE, FEATURES, KEY_UPDATE, PLAT_TOKEN, REALM_KEY, REQ_COMPLETE, TOKEN_SIGN,
    UNDELEGATE,
};

/// Steps of a scene.
const STEPS: usize = 40;

/// One kind of step.
pub type Step = fn(&mut Pair, &mut Scene);

/// Runs scenes of these steps until each export was called often enough.
fn run(pair: &mut Pair, steps: &[Step], names: &[&str]) {
    while names.iter().any(|name| pair.calls(name) < calls()) {
        let mut scene = pair.random.scene();
        pair.load(|random, m| {
            m.table.load(&scene.table, random.index(8));
            m.words.load(&scene.words);
            m.images.granules.words = scene.granules;
            m.images.record.words = random.record_image();
            m.images.session.words = random.session_image(scene.token.len() as u64);
            m.images.queue.words = random.queue_image();
            scene.state.record = record_of(&m.images.record.words);
        });
        for _ in 0..STEPS {
            change(pair, &mut scene);
            let step = pair.random.pick(steps);
            step(pair, &mut scene);
            scene.state.session = session_of(&pair.model.images.session.words);
        }
    }
    pair.print_counts();
}

/// What may happen between two steps.
fn change(pair: &mut Pair, scene: &mut Scene) {
    pair.random.change_lent(scene);
    pair.load(|random, m| {
        let images = &mut m.images;
        if scene.state.record != record_of(&images.record.words) {
            images.record.words = record_words(scene.state.record);
        }
        match random.below(48) {
            0 => images.record.words = random.record_image(),
            1 => images.session.words = random.session_image(scene.token.len() as u64),
            2 => images.queue.words = random.queue_image(),
            _ => {}
        }
        scene.state.record = record_of(&images.record.words);
        scene.state.session = session_of(&images.session.words);
    });
}

/// The registers of a command, and the page with what it is to find there.
fn registers(pair: &mut Pair, scene: &mut Scene, id: u64) -> [u64; 4] {
    let x = pair.random.registers(id, scene);
    load_page(pair, scene);
    x
}

fn load_page(pair: &mut Pair, scene: &Scene) {
    pair.load(|random, m| m.page.load(&scene.page, random.index(8)));
}

/// Busy or not, as a number.
fn busy(pair: &mut Pair, scene: &Scene) -> u64 {
    match scene.busy {
        true => pair.random.pick(&[1, 2, 1 << 32, u64::MAX]),
        false => 0,
    }
}

/// Notes the code of a step that answers in registers, and takes over the page.
fn note(pair: &mut Pair, scene: &mut Scene, name: &'static str, case: u64) {
    let [x0, ..] = pair.model.images.out.words;
    pair.meet(name, case, x0 as i64);
    scene.page.copy_from_slice(pair.model.page.lent());
}

fn delegate(pair: &mut Pair, scene: &mut Scene) {
    let [at, ..] = registers(pair, scene, DELEGATE);
    check!(pair, "pbeam_delegate", (at), |S, m| {
        let (images, table) = (&mut m.images, m.table.lent_mut());
        let words = m.words.lent_mut();
        S::delegate(
            &images.record.words,
            &images.granules.words,
            table,
            words,
            at,
            &mut images.out.words,
        );
    });
    note(pair, scene, "pbeam_delegate", 0);
}

fn undelegate(pair: &mut Pair, scene: &mut Scene) {
    let [at, ..] = registers(pair, scene, UNDELEGATE);
    check!(pair, "pbeam_undelegate", (at), |S, m| {
        let (images, table) = (&mut m.images, m.table.lent_mut());
        let words = m.words.lent_mut();
        S::undelegate(
            &images.record.words,
            &images.granules.words,
            table,
            words,
            at,
            &mut images.out.words,
        );
    });
    note(pair, scene, "pbeam_undelegate", 0);
}

/// Notes the code of a list, and apart from it whether granules before the refused one were done.
fn note_list(pair: &mut Pair, name: &'static str) {
    let [x0, done, _] = pair.model.images.out.words;
    pair.meet(name, 0, x0 as i64);
    pair.meet(name, 1 + u64::from(x0 != 0), i64::from(done != 0));
}

fn delegate_list(pair: &mut Pair, scene: &mut Scene) {
    let list = pair.random.granules(scene);
    check!(pair, "pbeam_delegate_list", (list), |S, m| {
        let (images, table) = (&mut m.images, m.table.lent_mut());
        let words = m.words.lent_mut();
        S::delegate_list(
            &images.record.words,
            &images.granules.words,
            table,
            words,
            &list,
            &mut images.out.words,
        );
    });
    note_list(pair, "pbeam_delegate_list");
}

fn undelegate_list(pair: &mut Pair, scene: &mut Scene) {
    let list = pair.random.granules(scene);
    check!(pair, "pbeam_undelegate_list", (list), |S, m| {
        let (images, table) = (&mut m.images, m.table.lent_mut());
        let words = m.words.lent_mut();
        S::undelegate_list(
            &images.record.words,
            &images.granules.words,
            table,
            words,
            &list,
            &mut images.out.words,
        );
    });
    note_list(pair, "pbeam_undelegate_list");
}

/// Notes the answer of an export on the words.
fn note_words(pair: &mut Pair, name: &'static str) {
    let answer = pair.model.returned;
    pair.meet(name, 0, answer);
}

fn realm_count(pair: &mut Pair, _: &mut Scene) {
    check!(pair, "pbeam_realm_count", (), |S, m| {
        let (images, words) = (&mut m.images, m.words.lent());
        m.returned = S::realm_count(&images.granules.words, words, &mut images.number.words) as i64;
    });
    note_words(pair, "pbeam_realm_count");
}

fn realm_next(pair: &mut Pair, scene: &mut Scene) {
    let index = match pair.random.below(4) {
        0 => pair.random.edge(),
        1 => {
            64 * scene.words.len() as u64 - pair.random.below(64).min(64 * scene.words.len() as u64)
        }
        _ => pair.random.below(scene.table.len() as u64 + 2),
    };
    check!(pair, "pbeam_realm_next", (index), |S, m| {
        let (images, words) = (&mut m.images, m.words.lent());
        let found = &mut images.number.words;
        m.returned = S::realm_next(&images.granules.words, words, index, found) as i64;
    });
    note_words(pair, "pbeam_realm_next");
}

fn realm_agrees(pair: &mut Pair, _: &mut Scene) {
    check!(pair, "pbeam_realm_agrees", (), |S, m| {
        let (table, words) = (m.table.lent(), m.words.lent());
        m.returned = S::realm_agrees(&m.images.granules.words, table, words) as i64;
    });
    note_words(pair, "pbeam_realm_agrees");
}

fn realm_build(pair: &mut Pair, _: &mut Scene) {
    check!(pair, "pbeam_realm_build", (), |S, m| {
        let (table, words) = (m.table.lent(), m.words.lent_mut());
        m.returned = S::realm_build(&m.images.granules.words, table, words) as i64;
    });
    note_words(pair, "pbeam_realm_build");
}

/// The answers from the words before and after moves.
#[test]
fn realm_words() {
    let mut pair = Pair::new(30);
    let steps: [Step; 8] = [
        delegate,
        undelegate,
        delegate_list,
        undelegate_list,
        realm_count,
        realm_next,
        realm_agrees,
        realm_build,
    ];
    let names = [
        "pbeam_realm_count",
        "pbeam_realm_next",
        "pbeam_realm_agrees",
        "pbeam_realm_build",
    ];
    run(&mut pair, &steps, &names);
    let met = |name: &str| pair.met.keys().filter(|met| met.0 == name).count();
    assert_eq!(names.map(met), [2, 3, 3, 2]);
}

pub fn realm_key(pair: &mut Pair, scene: &mut Scene) {
    let [pa, size, curve, _] = registers(pair, scene, REALM_KEY);
    let (key, x) = (&scene.realm_key, [pa, size, curve]);
    check!(pair, "pbeam_realm_key", (key, x), |S, m| {
        let (images, page) = (&mut m.images, m.page.lent_mut());
        S::realm_key(&images.record.words, page, key, x, &mut images.out.words);
    });
    note(pair, scene, "pbeam_realm_key", 0);
}

pub fn platform_token(pair: &mut Pair, scene: &mut Scene) {
    let [pa, size, csize, _] = registers(pair, scene, PLAT_TOKEN);
    let busy = busy(pair, scene);
    let (token, x) = (&scene.token, [pa, size, csize]);
    check!(pair, "pbeam_platform_token", (token, busy, x), |S, m| {
        let page = m.page.lent_mut();
        let Images {
            record,
            session,
            out,
            ..
        } = &mut m.images;
        let (session, out) = (&mut session.words, &mut out.words);
        S::platform_token(&record.words, session, page, token, busy, x, out);
    });
    note(pair, scene, "pbeam_platform_token", 0);
    note_forged_session(pair, "pbeam_platform_token");
}

pub fn challenge(pair: &mut Pair, scene: &mut Scene) {
    let [pa, size, csize, _] = registers(pair, scene, PLAT_TOKEN);
    let x = [pa, size, csize];
    check!(pair, "pbeam_challenge", (x), |S, m| {
        let images = &mut m.images;
        let place = &mut images.place.words;
        m.returned = S::challenge(&images.record.words, m.page.lent(), x, place) as i64;
    });
    let [_, length] = pair.model.images.place.words;
    pair.meet("pbeam_challenge", 0, length as i64);
    pair.meet("pbeam_challenge", CHECKS, pair.model.returned);
}

fn features(pair: &mut Pair, scene: &mut Scene) {
    let [index, ..] = registers(pair, scene, FEATURES);
    check!(pair, "pbeam_features", (index), |S, m| {
        let images = &mut m.images;
        S::features(&images.record.words, index, &mut images.out.words);
    });
    note(pair, scene, "pbeam_features", 0);
}

pub fn token_signing(pair: &mut Pair, scene: &mut Scene) {
    let x = registers(pair, scene, TOKEN_SIGN);
    let key = &scene.public_key;
    check!(pair, "pbeam_token_signing", (key, x), |S, m| {
        let page = m.page.lent_mut();
        let Images {
            record, queue, out, ..
        } = &mut m.images;
        let (queue, out) = (&mut queue.words, &mut out.words);
        S::token_signing(&record.words, queue, page, key, x, out);
    });
    note(pair, scene, "pbeam_token_signing", x[0].min(4));
    note_forged_queue(pair, "pbeam_token_signing");
}

fn key_update(pair: &mut Pair, scene: &mut Scene) {
    let (width, [mecid, ..]) = (scene.width, registers(pair, scene, KEY_UPDATE));
    check!(pair, "pbeam_key_update", (width, mecid), |S, m| {
        let Images {
            record, out, work, ..
        } = &mut m.images;
        S::key_update(&record.words, width, mecid, &mut out.words, &mut work.words);
    });
    note(pair, scene, "pbeam_key_update", 0);
}

fn forward(pair: &mut Pair, scene: &mut Scene) {
    let [x1, ..] = registers(pair, scene, REQ_COMPLETE);
    check!(pair, "pbeam_forward", (x1), |S, m| {
        m.returned = S::forward(&m.images.record.words, x1) as i64;
    });
    pair.meet("pbeam_forward", 0, i64::from(pair.model.returned != 0));
}

pub fn sign(pair: &mut Pair, _: &mut Scene) {
    let signature = pair.random.signature();
    check!(pair, "pbeam_sign", (signature), |S, m| {
        let images = &mut m.images;
        S::sign(&mut images.queue.words, &signature, &mut images.out.words);
    });
    let [x0, ..] = pair.model.images.out.words;
    pair.meet("pbeam_sign", 0, x0 as i64);
    note_forged_queue(pair, "pbeam_sign");
}

fn responses(pair: &mut Pair, _: &mut Scene) {
    check!(pair, "pbeam_responses", (), |S, m| {
        m.returned = S::responses(&m.images.queue.words) as i64;
    });
    pair.meet("pbeam_responses", 0, pair.model.returned);
}

fn oldest(pair: &mut Pair, _: &mut Scene) {
    check!(pair, "pbeam_oldest", (), |S, m| {
        let images = &mut m.images;
        m.returned = S::oldest(&images.queue.words, &mut images.request.words) as i64;
    });
    pair.meet("pbeam_oldest", 0, pair.model.returned);
}

pub fn call(pair: &mut Pair, scene: &mut Scene) {
    let Call { id, x } = pair.random.call(scene);
    load_page(pair, scene);
    let (busy, [x1, x2, x3, x4]) = (busy(pair, scene), x);
    let x = [id, x1, x2, x3, x4];
    check!(pair, "pbeam_call", (scene, busy, x), |S, m| {
        let images = &mut m.images;
        let mut lent = Lent {
            page: m.page.lent_mut(),
            granules: &images.granules.words,
            table: m.table.lent_mut(),
            words: m.words.lent_mut(),
            key: &scene.realm_key,
            token: &scene.token,
            busy,
            public_key: &scene.public_key,
            width: scene.width,
        };
        let (session, queue) = (&mut images.session.words, &mut images.queue.words);
        let (out, work) = (&mut images.out.words, &mut images.work.words);
        S::call(
            &images.record.words,
            session,
            queue,
            &mut lent,
            &x,
            out,
            work,
        );
    });
    let listed = (DELEGATE..=KEY_UPDATE).contains(&id) || id == REQ_COMPLETE;
    note(pair, scene, "pbeam_call", if listed { id } else { 0 });
    match id {
        PLAT_TOKEN => note_forged_session(pair, "pbeam_call"),
        TOKEN_SIGN => note_forged_queue(pair, "pbeam_call"),
        _ => {}
    }
}

/// In place of an opcode or id: the session, or the queue, was an image that no state has. The answer noted is whether the call was
/// accepted.
const FORGED_SESSION: u64 = u64::MAX;
const FORGED_QUEUE: u64 = u64::MAX - 1;
/// Case of a lookup: the checks that its call fails.
const CHECKS: u64 = u64::MAX - 2;

fn note_forged_session(pair: &mut Pair, name: &'static str) {
    let session = &pair.before.images.session.words;
    if session_words(session_of(session)) != *session {
        pair.meet(name, FORGED_SESSION, accepted(pair));
    }
}

fn note_forged_queue(pair: &mut Pair, name: &'static str) {
    let queue = &pair.before.images.queue.words;
    if queue_words(&queue_of(queue)) != *queue {
        pair.meet(name, FORGED_QUEUE, accepted(pair));
    }
}

fn accepted(pair: &Pair) -> i64 {
    i64::from(pair.model.images.out.words[0] == 0)
}

#[test]
fn token_sessions() {
    let mut pair = Pair::new(24);
    let token: Step = platform_token;
    let names = ["pbeam_platform_token", "pbeam_challenge"];
    run(&mut pair, &[token, token, token, challenge], &names);
    pair.expect(&[
        ("pbeam_platform_token", 0, &[0, -1, -2, -5, -6]),
        ("pbeam_platform_token", FORGED_SESSION, &[0, 1]),
        ("pbeam_challenge", 0, &[0, 32, 48, 64]),
        ("pbeam_challenge", CHECKS, &[0, -1, -2, -5]),
    ]);
}

#[test]
fn signing_queues() {
    let mut pair = Pair::new(25);
    let signing: Step = token_signing;
    let names = [
        "pbeam_token_signing",
        "pbeam_sign",
        "pbeam_oldest",
        "pbeam_responses",
    ];
    run(
        &mut pair,
        &[signing, signing, signing, sign, oldest, responses],
        &names,
    );
    pair.expect(&[
        ("pbeam_token_signing", 0, &[-1, -5]),
        ("pbeam_token_signing", 1, &[0, -1, -5, -6]),
        ("pbeam_token_signing", 2, &[0, -1, -5, -6]),
        ("pbeam_token_signing", 3, &[0, -1, -5, -6]),
        ("pbeam_token_signing", 4, &[-1, -5]),
        ("pbeam_token_signing", FORGED_QUEUE, &[0, 1]),
        ("pbeam_sign", 0, &[0, -5, -6]),
        ("pbeam_sign", FORGED_QUEUE, &[0, 1]),
        ("pbeam_oldest", 0, &[0, 1, 2, 3, 4, 5, 6, 7, 8]),
        ("pbeam_responses", 0, &[0, 1, 2, 3, 4, 5, 6, 7, 8]),
    ]);
}

#[test]
fn single_commands() {
    let mut pair = Pair::new(26);
    let steps: [Step; 8] = [
        delegate,
        undelegate,
        delegate_list,
        undelegate_list,
        realm_key,
        features,
        key_update,
        forward,
    ];
    let names = [
        "pbeam_delegate",
        "pbeam_undelegate",
        "pbeam_delegate_list",
        "pbeam_undelegate_list",
        "pbeam_realm_key",
        "pbeam_features",
        "pbeam_key_update",
        "pbeam_forward",
    ];
    run(&mut pair, &steps, &names);
    pair.expect(&[
        ("pbeam_delegate", 0, &[0, -1, -2, -3, -5]),
        ("pbeam_undelegate", 0, &[0, -1, -2, -3, -5]),
        ("pbeam_delegate_list", 0, &[0, -1, -2, -3, -5]),
        ("pbeam_delegate_list", 1, &[0, 1]),
        ("pbeam_delegate_list", 2, &[0, 1]),
        ("pbeam_undelegate_list", 0, &[0, -1, -2, -3, -5]),
        ("pbeam_undelegate_list", 1, &[0, 1]),
        ("pbeam_undelegate_list", 2, &[0, 1]),
        ("pbeam_realm_key", 0, &[0, -1, -2, -5]),
        ("pbeam_features", 0, &[0, -1, -5]),
        ("pbeam_key_update", 0, &[0, -1, -5]),
        ("pbeam_forward", 0, &[0, 1]),
    ]);
}

#[test]
fn calls_by_id() {
    let mut pair = Pair::new(27);
    let by_id: Step = call;
    // Without the signer no queue would have a response.
    run(&mut pair, &[by_id, by_id, by_id, sign], &["pbeam_call"]);
    pair.met.retain(|&(name, ..), _| name == "pbeam_call");
    pair.expect(&[
        ("pbeam_call", 0, &[-1]),
        ("pbeam_call", REQ_COMPLETE, &[0]),
        ("pbeam_call", DELEGATE, &[0, -1, -2, -3, -5]),
        ("pbeam_call", UNDELEGATE, &[0, -1, -2, -3, -5]),
        ("pbeam_call", REALM_KEY, &[0, -1, -2, -5]),
        ("pbeam_call", PLAT_TOKEN, &[0, -1, -2, -5, -6]),
        ("pbeam_call", FEATURES, &[0, -1, -5]),
        ("pbeam_call", TOKEN_SIGN, &[0, -1, -5, -6]),
        ("pbeam_call", KEY_UPDATE, &[0, -1, -5]),
        ("pbeam_call", FORGED_SESSION, &[0, 1]),
        ("pbeam_call", FORGED_QUEUE, &[0, 1]),
    ]);
}
