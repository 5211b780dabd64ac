//! The two sides: the same call on the same memory, and everything compared after it.

use crate::memory::{blank, Memory};
use potterbeam_tests::random::Random;
use std::collections::BTreeMap;
use std::fmt::Write;
use std::io::Write as _;

/// A call's export, the case of it (an opcode, a function id, or 0) and its answer.
pub type Met = (&'static str, u64, i64);

pub struct Pair {
    pub random: Random,
    pub kit: Memory,
    pub model: Memory,
    /// Both, before the last call.
    pub before: Memory,
    /// How often each answer was met.
    pub met: BTreeMap<Met, u64>,
    calls: BTreeMap<&'static str, u64>,
}

/// Makes one call on each side and compares. `$S` is the side, `$m` its memory; a report also shows the inputs.
macro_rules! check {
    ($pair:expr, $name:expr, ($($input:ident),*), |$S:ident, $m:ident| $call:expr) => {{
        $pair.begin();
        {
            type $S = potterbeam_tests::kit::Kit;
            let $m = &mut $pair.kit;
            $call;
        }
        {
            type $S = potterbeam_tests::model::Model;
            let $m = &mut $pair.model;
            $call;
        }
        $pair.end($name, || {
            #[allow(unused_mut)]
            let mut inputs = String::new();
            $(inputs += &format!("{}: {:x?}\n", stringify!($input), $input);)*
            inputs
        });
    }};
}

impl Pair {
    pub fn new(seed: u64) -> Pair {
        Pair {
            random: Random::new(seed),
            kit: blank(),
            model: blank(),
            before: blank(),
            met: BTreeMap::new(),
            calls: BTreeMap::new(),
        }
    }

    /// Sets the memory of both sides.
    pub fn load(&mut self, set: impl FnOnce(&mut Random, &mut Memory)) {
        set(&mut self.random, &mut self.model);
        self.kit.copy_from(&self.model);
    }

    pub fn begin(&mut self) {
        self.model.make_stale();
        self.kit.make_stale();
        self.before.copy_from(&self.model);
    }

    pub fn end(&mut self, name: &'static str, inputs: impl FnOnce() -> String) {
        let n = self.calls.entry(name).or_insert(0);
        *n += 1;
        if self.kit != self.model {
            let differences = differences(&self.before, &self.kit, &self.model);
            panic!("{name}, call {n}\n{}{differences}", inputs());
        }
    }

    /// Notes the answer of the last call.
    pub fn meet(&mut self, name: &'static str, case: u64, answer: i64) {
        *self.met.entry((name, case, answer)).or_insert(0) += 1;
    }

    pub fn calls(&self, name: &str) -> u64 {
        self.calls.get(name).copied().unwrap_or(0)
    }

    /// Fails unless exactly these answers were met, each of them often.
    pub fn expect(&self, expected: &[(&'static str, u64, &[i64])]) {
        let mut unexpected = self.met.clone();
        for &(name, case, answers) in expected {
            let least = (self.calls(name) / 2_000).max(10);
            for &answer in answers {
                let n = unexpected.remove(&(name, case, answer)).unwrap_or(0);
                assert!(n >= least, "{name} {case:x} with {answer}: {n} times");
            }
        }
        assert!(unexpected.is_empty(), "no such answers: {unexpected:x?}");
    }

    /// Prints how many calls were made of each export, past the test's capture.
    pub fn print_counts(&self) {
        let mut text = String::new();
        for (name, n) in &self.calls {
            writeln!(text, "{name:<18} {n:>10} calls, all the same").expect("text");
        }
        std::io::stderr()
            .write_all(text.as_bytes())
            .expect("stderr");
    }
}

/// The whole memory before the call, and each part in which the sides differ after it.
pub fn differences(before: &Memory, kit: &Memory, model: &Memory) -> String {
    let mut text = String::from("before the call:\n");
    for (name, part) in before.parts() {
        writeln!(text, "  {name}: {part}").expect("text");
    }
    for ((name, ours), (_, expected)) in kit.parts().into_iter().zip(model.parts()) {
        if ours != expected {
            writeln!(text, "{name} differs").expect("text");
            writeln!(text, "  library:   {ours}\n  reference: {expected}").expect("text");
        }
    }
    text
}
