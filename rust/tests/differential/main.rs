//! Every export of the library against the reference, on valid, damaged and random input: each result, each lent byte and each word
//! of every image is compared, and the guards around them. The seeds are fixed. A difference is reported with the whole case.
//!
//! POTTERBEAM_CALLS is how many calls each export gets at least (pbeam_read ten times as many); the long run is
//! `POTTERBEAM_CALLS=1000000 cargo test --offline --release --test differential`. With fewer than the default, some answer may not
//! be met often enough, which fails as well.

#[macro_use]
mod pair;
mod banks;
mod boots;
mod commands;
mod kept;
mod manifest;
mod memory;
mod pages;
mod wrong;

/// Calls of each export in the short run.
const CALLS: u64 = 20_000;

fn calls() -> u64 {
    match std::env::var("POTTERBEAM_CALLS") {
        Ok(text) => text.parse().expect("POTTERBEAM_CALLS is a number"),
        Err(_) => CALLS,
    }
}
