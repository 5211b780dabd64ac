//! Packer and mender, libpotterbeam_pages.a: its C functions, a safe call to each, and the same calls on the reference.

use crate::kit::{lend, lend_mut, Kit};
use crate::model::Model;
use crate::reference::mend::mend;
use crate::reference::pack::pack;

/// For each of the six parts of a page: 1 if the mender changed it, else 0.
pub type ReportImage = [u64; 6];

/// Both exports; one signature for the library and for the reference.
pub trait PageExports {
    /// Writes what the page shows into the target, without holes. Returns 0, the reader's codes, or 1 for the target's length.
    fn pack(page: &[u8], base: u64, target: &mut [u8]) -> i32;
    /// Mends the page in place. Returns 0, or -5 or -6 with the page unchanged and a report of zeros.
    fn mend(page: &mut [u8], base: u64, changed: &mut ReportImage) -> i32;
}

/// The C functions.
pub mod ffi {
    use super::ReportImage;

    extern "C" {
        pub fn pbeam_pack(
            page: *const u8,
            page_len: usize,
            base: u64,
            target: *mut u8,
            target_len: usize,
        ) -> i32;
        pub fn pbeam_mend(
            page: *mut u8,
            page_len: usize,
            base: u64,
            changed: *mut ReportImage,
        ) -> i32;
    }
}

// Sound for the reason that `kit` has.
#[allow(unsafe_code)]
impl PageExports for Kit {
    #[inline]
    fn pack(page: &[u8], base: u64, target: &mut [u8]) -> i32 {
        let (page, page_len) = lend(page);
        let (target, target_len) = lend_mut(target);
        unsafe { ffi::pbeam_pack(page, page_len, base, target, target_len) }
    }

    #[inline]
    fn mend(page: &mut [u8], base: u64, changed: &mut ReportImage) -> i32 {
        let (page, page_len) = lend_mut(page);
        unsafe { ffi::pbeam_mend(page, page_len, base, changed) }
    }
}

impl PageExports for Model {
    fn pack(page: &[u8], base: u64, target: &mut [u8]) -> i32 {
        pack(page, base, target).map_or_else(|refusal| refusal.code(), |()| 0)
    }

    fn mend(page: &mut [u8], base: u64, changed: &mut ReportImage) -> i32 {
        let mended = mend(page, base);
        *changed = mended.map_or([0; 6], |parts| parts.map(u64::from));
        mended.map_or_else(|refusal| refusal.code(), |_| 0)
    }
}
