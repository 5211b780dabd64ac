//! The proved H_TPM_COMM and the reference on the same lent words, under one signature.

use crate::exports::Place;
use crate::reference::tpm::{Platform, Transfer};
use std::ptr::{null, null_mut};

/// What the platform passes to a call; a flag is set if it is not 0.
#[derive(Clone, Copy, Debug)]
pub struct Said<'a> {
    pub forbidden: u64,
    pub fault: u64,
    pub response: &'a [u8],
}

/// Both exports.
pub trait TpmExports {
    /// Returns r3.
    fn comm(
        session: &mut u64,
        asked: &Transfer,
        memory: &mut [u8],
        said: Said,
        r4: &mut u64,
    ) -> i64;
    fn request(asked: &Transfer, memory: &[u8], forbidden: u64, place: &mut Place);
}

/// The C functions.
pub mod ffi {
    use super::Place;

    extern "C" {
        pub fn pbeam_tpm_comm(
            session: *mut u64,
            operation: u64,
            in_buffer: u64,
            in_size: u64,
            out_buffer: u64,
            out_size: u64,
            memory: *mut u8,
            memory_len: usize,
            response: *const u8,
            response_len: usize,
            forbidden: u64,
            fault: u64,
            r4: *mut u64,
        ) -> i64;
        pub fn pbeam_tpm_request(
            operation: u64,
            in_buffer: u64,
            in_size: u64,
            out_buffer: u64,
            out_size: u64,
            memory: *const u8,
            memory_len: usize,
            forbidden: u64,
            place: *mut Place,
        );
    }
}

/// The proved library.
pub struct Tpm;

/// An empty slice is passed as NULL, as C may do.
fn start(bytes: &[u8]) -> *const u8 {
    if bytes.is_empty() {
        null()
    } else {
        bytes.as_ptr()
    }
}

#[allow(unsafe_code)]
impl TpmExports for Tpm {
    #[inline]
    fn comm(
        session: &mut u64,
        asked: &Transfer,
        memory: &mut [u8],
        said: Said,
        r4: &mut u64,
    ) -> i64 {
        let from = if memory.is_empty() {
            null_mut()
        } else {
            memory.as_mut_ptr()
        };
        // Sound as all pointers come from references, with the lengths of their slices.
        unsafe {
            ffi::pbeam_tpm_comm(
                session,
                asked.operation,
                asked.in_buffer,
                asked.in_size,
                asked.out_buffer,
                asked.out_size,
                from,
                memory.len(),
                start(said.response),
                said.response.len(),
                said.forbidden,
                said.fault,
                r4,
            )
        }
    }

    #[inline]
    fn request(asked: &Transfer, memory: &[u8], forbidden: u64, place: &mut Place) {
        // As above.
        unsafe {
            ffi::pbeam_tpm_request(
                asked.operation,
                asked.in_buffer,
                asked.in_size,
                asked.out_buffer,
                asked.out_size,
                start(memory),
                memory.len(),
                forbidden,
                place,
            )
        }
    }
}

/// The reference on the library's words.
pub struct TpmModel;

impl TpmExports for TpmModel {
    #[inline]
    fn comm(
        session: &mut u64,
        asked: &Transfer,
        memory: &mut [u8],
        said: Said,
        r4: &mut u64,
    ) -> i64 {
        let mut open = *session != 0;
        let platform = Platform {
            forbidden: said.forbidden != 0,
            fault: said.fault != 0,
            response: said.response,
        };
        match asked.comm(&mut open, memory, platform) {
            Ok(written) => {
                *session = u64::from(open);
                *r4 = written;
                0
            }
            Err(refusal) => {
                *r4 = 0;
                refusal.number()
            }
        }
    }

    #[inline]
    fn request(asked: &Transfer, memory: &[u8], forbidden: u64, place: &mut Place) {
        let request = asked.request(memory, forbidden != 0);
        *place = match request.len() {
            0 => [0, 0],
            length => {
                let offset = request.as_ptr() as usize - memory.as_ptr() as usize;
                [offset as u64, length as u64]
            }
        };
    }
}
