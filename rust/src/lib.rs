//! The proved libraries and the other side of their differential tests and benchmark: `kit` calls the library, `reference` is a second
//! implementation of the rules, written only from the documents, `model` is that one on the library's images, `inplace` and `fast` are
//! hand-written for speed, for the benchmark: boot, granules and commands on these images, and all that works on a manifest page; `random`
//! makes the inputs of both sides. `pages`, `tpm` and `swtpm` are both sides of packer and mender, of H_TPM_COMM and of state blobs, which
//! have libraries of their own.
//!
//! After `tools/archives`: `cargo test --offline --release` for all tests, `cargo run --offline --release --example bench` for the times;
//! `tests/differential/main.rs` describes the long run.
//! POTTERBEAM_KIT_DIR names another directory with the archives.

// Only calls to the library need unsafe code.
#![deny(unsafe_code)]

#[forbid(unsafe_code)]
pub mod exports;
#[forbid(unsafe_code)]
pub mod fast;
#[forbid(unsafe_code)]
pub mod images;
#[forbid(unsafe_code)]
pub mod inplace;
#[allow(unsafe_code)]
pub mod kit;
#[forbid(unsafe_code)]
pub mod model;
pub mod pages;
#[forbid(unsafe_code)]
pub mod random;
#[forbid(unsafe_code)]
pub mod reference;
#[allow(unsafe_code)]
mod sse2;
#[allow(unsafe_code)]
pub mod swtpm;
pub mod tpm;
