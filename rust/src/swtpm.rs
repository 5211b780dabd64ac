//! The proved library for state blobs, libpotterbeam_swtpm.a: its C functions, a safe call to each, and the same calls on the reference.

use crate::reference::state_blob::{write_response, Collector, Piece, Refusal, Request};
use std::ptr::{null, null_mut};

/// The collector: 0 while nothing was accepted, then totlength and the bytes held.
pub type CollectorImage = [u32; 3];
/// The four numbers of a request; or state_flags, totlength, and the data's place and length in a response.
pub type Parts = [u32; 4];

/// The C functions.
pub mod ffi {
    use super::{CollectorImage, Parts};

    extern "C" {
        pub fn pbeam_swtpm_read_request(
            message: *const u8,
            message_len: usize,
            code: u32,
            parts: *mut Parts,
        ) -> u32;
        pub fn pbeam_swtpm_write_request(
            buffer: *mut u8,
            buffer_len: usize,
            code: u32,
            flags: u32,
            kind: u32,
            offset: u32,
            len: *mut usize,
        ) -> u32;
        pub fn pbeam_swtpm_read_response(
            message: *const u8,
            message_len: usize,
            largest: u32,
            parts: *mut Parts,
        ) -> u32;
        pub fn pbeam_swtpm_write_response(
            buffer: *mut u8,
            buffer_len: usize,
            largest: u32,
            result: u32,
            flags: u32,
            total: u32,
            data: *const u8,
            data_len: usize,
            len: *mut usize,
        ) -> u32;
        pub fn pbeam_swtpm_collect(
            collector: *mut CollectorImage,
            message: *const u8,
            message_len: usize,
            largest: u32,
            buffer: *mut u8,
            buffer_len: usize,
        ) -> u32;
        pub fn pbeam_swtpm_complete(collector: *const CollectorImage) -> bool;
        pub fn pbeam_swtpm_held(collector: *const CollectorImage) -> u32;
    }
}

/// All exports; one signature for the library and for the reference on the same images.
pub trait StateBlobs {
    fn read_request(message: &[u8], code: u32, parts: &mut Parts) -> u32;
    /// parts: code, state_flags, type and offset.
    fn write_request(buffer: &mut [u8], parts: Parts, len: &mut usize) -> u32;
    fn read_response(message: &[u8], largest: u32, parts: &mut Parts) -> u32;
    /// numbers: tpm_result, state_flags and totlength.
    fn write_response(
        buffer: &mut [u8],
        largest: u32,
        numbers: [u32; 3],
        data: &[u8],
        len: &mut usize,
    ) -> u32;
    fn collect(
        collector: &mut CollectorImage,
        message: &[u8],
        largest: u32,
        buffer: &mut [u8],
    ) -> u32;
    fn complete(collector: &CollectorImage) -> bool;
    fn held(collector: &CollectorImage) -> u32;
}

/// An empty slice is passed as NULL, which the header allows.
#[inline]
fn pointer(bytes: &[u8]) -> *const u8 {
    if bytes.is_empty() {
        return null();
    }
    bytes.as_ptr()
}

#[inline]
fn pointer_mut(bytes: &mut [u8]) -> *mut u8 {
    if bytes.is_empty() {
        return null_mut();
    }
    bytes.as_mut_ptr()
}

/// The library. Inlined, so that a benchmark times the library's calls alone. Sound as all pointers and lengths come from slices and arrays.
#[derive(Debug)]
pub struct Library;

impl StateBlobs for Library {
    #[inline]
    fn read_request(message: &[u8], code: u32, parts: &mut Parts) -> u32 {
        unsafe { ffi::pbeam_swtpm_read_request(pointer(message), message.len(), code, parts) }
    }

    #[inline]
    fn write_request(buffer: &mut [u8], parts: Parts, len: &mut usize) -> u32 {
        let [code, flags, kind, offset] = parts;
        let (at, room) = (pointer_mut(buffer), buffer.len());
        unsafe { ffi::pbeam_swtpm_write_request(at, room, code, flags, kind, offset, len) }
    }

    #[inline]
    fn read_response(message: &[u8], largest: u32, parts: &mut Parts) -> u32 {
        unsafe { ffi::pbeam_swtpm_read_response(pointer(message), message.len(), largest, parts) }
    }

    #[inline]
    fn write_response(
        buffer: &mut [u8],
        largest: u32,
        [result, flags, total]: [u32; 3],
        data: &[u8],
        len: &mut usize,
    ) -> u32 {
        unsafe {
            ffi::pbeam_swtpm_write_response(
                pointer_mut(buffer),
                buffer.len(),
                largest,
                result,
                flags,
                total,
                pointer(data),
                data.len(),
                len,
            )
        }
    }

    #[inline]
    fn collect(
        collector: &mut CollectorImage,
        message: &[u8],
        largest: u32,
        buffer: &mut [u8],
    ) -> u32 {
        unsafe {
            ffi::pbeam_swtpm_collect(
                collector,
                pointer(message),
                message.len(),
                largest,
                pointer_mut(buffer),
                buffer.len(),
            )
        }
    }

    #[inline]
    fn complete(collector: &CollectorImage) -> bool {
        unsafe { ffi::pbeam_swtpm_complete(collector) }
    }

    #[inline]
    fn held(collector: &CollectorImage) -> u32 {
        unsafe { ffi::pbeam_swtpm_held(collector) }
    }
}

fn answer<T>(outcome: Result<T, Refusal>, accepted: impl FnOnce(T)) -> u32 {
    match outcome {
        Ok(value) => {
            accepted(value);
            0
        }
        Err(refusal) => refusal as u32,
    }
}

fn collector_of(&[accepted, total, held]: &CollectorImage) -> Collector {
    let total = if accepted == 0 { None } else { Some(total) };
    Collector { total, held }
}

/// The reference on the library's images.
#[derive(Debug)]
pub struct Model;

impl StateBlobs for Model {
    fn read_request(message: &[u8], code: u32, parts: &mut Parts) -> u32 {
        answer(Request::read(message, code), |r| {
            *parts = [r.code, r.flags, r.kind, r.offset];
        })
    }

    fn write_request(buffer: &mut [u8], parts: Parts, len: &mut usize) -> u32 {
        let [code, flags, kind, offset] = parts;
        let request = Request {
            code,
            flags,
            kind,
            offset,
        };
        answer(request.write(buffer), |n| *len = n)
    }

    fn read_response(message: &[u8], largest: u32, parts: &mut Parts) -> u32 {
        answer(Piece::read(message, largest), |piece| {
            let at = message.len() - piece.data.len();
            *parts = [piece.flags, piece.total, at as u32, piece.data.len() as u32];
        })
    }

    fn write_response(
        buffer: &mut [u8],
        largest: u32,
        numbers: [u32; 3],
        data: &[u8],
        len: &mut usize,
    ) -> u32 {
        answer(write_response(buffer, largest, numbers, data), |n| *len = n)
    }

    fn collect(
        collector: &mut CollectorImage,
        message: &[u8],
        largest: u32,
        buffer: &mut [u8],
    ) -> u32 {
        let mut next = collector_of(collector);
        let outcome = next.collect(message, largest, buffer);
        answer(outcome, |()| {
            *collector = [1, next.total.expect("accepted"), next.held];
        })
    }

    fn complete(collector: &CollectorImage) -> bool {
        collector_of(collector).is_complete()
    }

    fn held(collector: &CollectorImage) -> u32 {
        collector_of(collector).held
    }
}
