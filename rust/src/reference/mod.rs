//! The rules of the RMM-EL3 interface, of H_TPM_COMM and of state blobs, in plain Rust. Nothing here shares code or definitions with
//! the proved libraries.

pub mod banks;
pub mod boot;
pub mod codes;
pub mod entries;
pub mod features;
pub mod fields;
pub mod granules;
pub mod key;
pub mod layout;
pub mod listing;
pub mod mend;
pub mod pack;
pub mod queue;
pub mod reader;
pub mod realm_words;
pub mod runtime;
pub mod signing;
pub mod state_blob;
pub mod token;
pub mod tpm;
pub mod writer;

#[cfg(test)]
mod examples;
