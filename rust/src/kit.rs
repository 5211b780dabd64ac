//! The proved library: its C functions, and a safe call to each. They take any value; only a pointer or a length
//! can be wrong, and here those come from slices and arrays.

use crate::exports::{
    Exports, FieldImage, GranulesImage, Lent, Place, QueueImage, RecordImage, Registers,
    RequestImage, SessionImage, ViewImage, Work,
};
use std::ptr::{null, null_mut};

/// The C functions. Tests of the stack call them by address.
pub mod ffi {
    use super::{
        FieldImage, GranulesImage, Place, QueueImage, RecordImage, Registers, RequestImage,
        SessionImage, ViewImage, Work,
    };

    extern "C" {
        pub fn pbeam_read(
            page: *const u8,
            page_len: usize,
            base: u64,
            edition: u64,
            view: *mut ViewImage,
        ) -> i32;
        pub fn pbeam_array(
            page: *const u8,
            page_len: usize,
            base: u64,
            edition: u64,
            section: usize,
            place: *mut Place,
        );
        pub fn pbeam_array_of(
            page: *const u8,
            page_len: usize,
            view: *const ViewImage,
            section: usize,
            place: *mut Place,
        );
        pub fn pbeam_count(
            page: *const u8,
            page_len: usize,
            view: *const ViewImage,
            section: usize,
        ) -> usize;
        pub fn pbeam_word(
            page: *const u8,
            page_len: usize,
            view: *const ViewImage,
            section: usize,
            entry: usize,
            word: usize,
        ) -> u64;
        pub fn pbeam_console_named(
            page: *const u8,
            page_len: usize,
            view: *const ViewImage,
            name: *const [u8; 8],
        ) -> usize;
        pub fn pbeam_field_count(page: *const u8, page_len: usize, view: *const ViewImage)
            -> usize;
        pub fn pbeam_field(
            page: *const u8,
            page_len: usize,
            view: *const ViewImage,
            index: usize,
            field: *mut FieldImage,
        );
        pub fn pbeam_field_of_tag(
            page: *const u8,
            page_len: usize,
            view: *const ViewImage,
            tag: u8,
            field: *mut FieldImage,
        );
        pub fn pbeam_field_start(page: *const u8, page_len: usize, view: *const ViewImage)
            -> usize;
        pub fn pbeam_field_next(
            page: *const u8,
            page_len: usize,
            cursor: usize,
            field: *mut FieldImage,
        ) -> usize;
        pub fn pbeam_kept_for(page: *const u8, page_len: usize, view: *const ViewImage) -> u64;
        pub fn pbeam_listing(
            page: *const u8,
            page_len: usize,
            base: u64,
            edition: u64,
            text: *mut u8,
            text_len: usize,
        ) -> usize;
        pub fn pbeam_write(
            base: u64,
            edition: u64,
            dram: *const u64,
            dram_len: usize,
            console: *const u64,
            console_len: usize,
            ncoh: *const u64,
            ncoh_len: usize,
            coh: *const u64,
            coh_len: usize,
            fields: *const u8,
            fields_len: usize,
            page: *mut u8,
            page_len: usize,
        ) -> u32;
        pub fn pbeam_cold_boot(
            state: *mut RecordImage,
            x0: u64,
            x1: u64,
            x2: u64,
            x3: u64,
            most: u64,
            kept: u64,
            page: *const u8,
            page_len: usize,
        ) -> i32;
        pub fn pbeam_warm_boot(state: *mut RecordImage, x0: u64, x1: u64, x2: u64, x3: u64) -> i32;
        pub fn pbeam_close(state: *mut RecordImage);
        pub fn pbeam_version_accepted(version: u64) -> bool;
        pub fn pbeam_agreed_minor(version: u64) -> u64;
        pub fn pbeam_is_later(a: u64, b: u64) -> bool;
        pub fn pbeam_set_up_granules(
            granules: *mut GranulesImage,
            banks: *const u8,
            banks_len: usize,
            table_len: u64,
        ) -> u64;
        pub fn pbeam_delegate(
            state: *const RecordImage,
            granules: *const GranulesImage,
            table: *mut u8,
            table_len: usize,
            words: *mut u64,
            words_len: usize,
            address: u64,
            out: *mut Registers,
        );
        pub fn pbeam_undelegate(
            state: *const RecordImage,
            granules: *const GranulesImage,
            table: *mut u8,
            table_len: usize,
            words: *mut u64,
            words_len: usize,
            address: u64,
            out: *mut Registers,
        );
        pub fn pbeam_delegate_list(
            state: *const RecordImage,
            granules: *const GranulesImage,
            table: *mut u8,
            table_len: usize,
            words: *mut u64,
            words_len: usize,
            addresses: *const u64,
            addresses_len: usize,
            out: *mut Registers,
        );
        pub fn pbeam_undelegate_list(
            state: *const RecordImage,
            granules: *const GranulesImage,
            table: *mut u8,
            table_len: usize,
            words: *mut u64,
            words_len: usize,
            addresses: *const u64,
            addresses_len: usize,
            out: *mut Registers,
        );
        pub fn pbeam_realm_count(
            granules: *const GranulesImage,
            words: *const u64,
            words_len: usize,
            number: *mut [u64; 1],
        ) -> u64;
        pub fn pbeam_realm_next(
            granules: *const GranulesImage,
            words: *const u64,
            words_len: usize,
            index: u64,
            found: *mut [u64; 1],
        ) -> u64;
        pub fn pbeam_realm_agrees(
            granules: *const GranulesImage,
            table: *const u8,
            table_len: usize,
            words: *const u64,
            words_len: usize,
        ) -> u64;
        pub fn pbeam_realm_build(
            granules: *const GranulesImage,
            table: *const u8,
            table_len: usize,
            words: *mut u64,
            words_len: usize,
        ) -> u64;
        pub fn pbeam_realm_key(
            state: *const RecordImage,
            page: *mut u8,
            page_len: usize,
            key: *const u8,
            key_len: usize,
            pa: u64,
            size: u64,
            curve: u64,
            out: *mut Registers,
        );
        pub fn pbeam_platform_token(
            state: *const RecordImage,
            session: *mut SessionImage,
            page: *mut u8,
            page_len: usize,
            token: *const u8,
            token_len: usize,
            busy: u64,
            pa: u64,
            size: u64,
            csize: u64,
            out: *mut Registers,
        );
        pub fn pbeam_challenge(
            state: *const RecordImage,
            page: *const u8,
            page_len: usize,
            pa: u64,
            size: u64,
            csize: u64,
            place: *mut Place,
        ) -> u64;
        pub fn pbeam_features(state: *const RecordImage, index: u64, out: *mut Registers);
        pub fn pbeam_token_signing(
            state: *const RecordImage,
            queue: *mut QueueImage,
            page: *mut u8,
            page_len: usize,
            key: *const u8,
            key_len: usize,
            opcode: u64,
            pa: u64,
            size: u64,
            curve: u64,
            out: *mut Registers,
        );
        pub fn pbeam_key_update(
            state: *const RecordImage,
            width: u64,
            mecid: u64,
            out: *mut Registers,
            work: *mut Work,
        );
        pub fn pbeam_forward(state: *const RecordImage, x1: u64) -> u64;
        pub fn pbeam_sign(
            queue: *mut QueueImage,
            signature: *const u8,
            signature_len: usize,
            out: *mut Registers,
        );
        pub fn pbeam_oldest(queue: *const QueueImage, request: *mut RequestImage) -> usize;
        pub fn pbeam_responses(queue: *const QueueImage) -> usize;
        pub fn pbeam_call(
            state: *const RecordImage,
            session: *mut SessionImage,
            queue: *mut QueueImage,
            page: *mut u8,
            page_len: usize,
            granules: *const GranulesImage,
            table: *mut u8,
            table_len: usize,
            words: *mut u64,
            words_len: usize,
            key: *const u8,
            key_len: usize,
            token: *const u8,
            token_len: usize,
            busy: u64,
            public_key: *const u8,
            public_len: usize,
            width: u64,
            call: *const [u64; 5],
            out: *mut Registers,
            work: *mut Work,
        );
    }
}

/// The proved library. Packer and mender, which have a library of their own, are in `pages`.
#[derive(Clone, Copy, Debug)]
pub struct Kit;

/// Pointer and length of a slice. An empty slice is passed as NULL, as C callers do; Rust's own pointer would be neither NULL nor
/// valid memory.
#[inline]
pub(crate) fn lend<T>(slice: &[T]) -> (*const T, usize) {
    match slice.len() {
        0 => (null(), 0),
        length => (slice.as_ptr(), length),
    }
}

/// The same, of a slice to write.
#[inline]
pub(crate) fn lend_mut<T>(slice: &mut [T]) -> (*mut T, usize) {
    match slice.len() {
        0 => (null_mut(), 0),
        length => (slice.as_mut_ptr(), length),
    }
}

// Each call is sound for one reason: every pointer comes from a live borrow of the length that goes with it, mutable where the
// library writes, and Rust lets no two of those overlap.
impl Exports for Kit {
    #[inline]
    fn read(page: &[u8], base: u64, edition: u64, view: &mut ViewImage) -> i32 {
        let (page, page_len) = lend(page);
        unsafe { ffi::pbeam_read(page, page_len, base, edition, view) }
    }

    #[inline]
    fn array(page: &[u8], base: u64, edition: u64, section: usize, place: &mut Place) {
        let (page, page_len) = lend(page);
        unsafe { ffi::pbeam_array(page, page_len, base, edition, section, place) }
    }

    #[inline]
    fn array_of(page: &[u8], view: &ViewImage, section: usize, place: &mut Place) {
        let (page, page_len) = lend(page);
        unsafe { ffi::pbeam_array_of(page, page_len, view, section, place) }
    }

    #[inline]
    fn count(page: &[u8], view: &ViewImage, section: usize) -> usize {
        let (page, page_len) = lend(page);
        unsafe { ffi::pbeam_count(page, page_len, view, section) }
    }

    #[inline]
    fn word(page: &[u8], view: &ViewImage, section: usize, entry: usize, word: usize) -> u64 {
        let (page, page_len) = lend(page);
        unsafe { ffi::pbeam_word(page, page_len, view, section, entry, word) }
    }

    #[inline]
    fn console_named(page: &[u8], view: &ViewImage, name: &[u8; 8]) -> usize {
        let (page, page_len) = lend(page);
        unsafe { ffi::pbeam_console_named(page, page_len, view, name) }
    }

    #[inline]
    fn field_count(page: &[u8], view: &ViewImage) -> usize {
        let (page, page_len) = lend(page);
        unsafe { ffi::pbeam_field_count(page, page_len, view) }
    }

    #[inline]
    fn field(page: &[u8], view: &ViewImage, index: usize, field: &mut FieldImage) {
        let (page, page_len) = lend(page);
        unsafe { ffi::pbeam_field(page, page_len, view, index, field) }
    }

    #[inline]
    fn field_of_tag(page: &[u8], view: &ViewImage, tag: u8, field: &mut FieldImage) {
        let (page, page_len) = lend(page);
        unsafe { ffi::pbeam_field_of_tag(page, page_len, view, tag, field) }
    }

    #[inline]
    fn field_start(page: &[u8], view: &ViewImage) -> usize {
        let (page, page_len) = lend(page);
        unsafe { ffi::pbeam_field_start(page, page_len, view) }
    }

    #[inline]
    fn field_next(page: &[u8], cursor: usize, field: &mut FieldImage) -> usize {
        let (page, page_len) = lend(page);
        unsafe { ffi::pbeam_field_next(page, page_len, cursor, field) }
    }

    #[inline]
    fn kept_for(page: &[u8], view: &ViewImage) -> u64 {
        let (page, page_len) = lend(page);
        unsafe { ffi::pbeam_kept_for(page, page_len, view) }
    }

    #[inline]
    fn listing(page: &[u8], base: u64, edition: u64, text: &mut [u8]) -> usize {
        let (page, page_len) = lend(page);
        let (text, text_len) = lend_mut(text);
        unsafe { ffi::pbeam_listing(page, page_len, base, edition, text, text_len) }
    }

    #[inline]
    fn write(base: u64, edition: u64, lists: [&[u64]; 4], fields: &[u8], page: &mut [u8]) -> u32 {
        let [dram, console, ncoh, coh] = lists;
        let (dram, dram_len) = lend(dram);
        let (console, console_len) = lend(console);
        let (ncoh, ncoh_len) = lend(ncoh);
        let (coh, coh_len) = lend(coh);
        let (fields, fields_len) = lend(fields);
        let (page, page_len) = lend_mut(page);
        unsafe {
            ffi::pbeam_write(
                base,
                edition,
                dram,
                dram_len,
                console,
                console_len,
                ncoh,
                ncoh_len,
                coh,
                coh_len,
                fields,
                fields_len,
                page,
                page_len,
            )
        }
    }

    #[inline]
    fn cold_boot(state: &mut RecordImage, x: [u64; 4], most: u64, kept: u64, page: &[u8]) -> i32 {
        let [x0, x1, x2, x3] = x;
        let (page, page_len) = lend(page);
        unsafe { ffi::pbeam_cold_boot(state, x0, x1, x2, x3, most, kept, page, page_len) }
    }

    #[inline]
    fn warm_boot(state: &mut RecordImage, [x0, x1, x2, x3]: [u64; 4]) -> i32 {
        unsafe { ffi::pbeam_warm_boot(state, x0, x1, x2, x3) }
    }

    #[inline]
    fn close(state: &mut RecordImage) {
        unsafe { ffi::pbeam_close(state) }
    }

    #[inline]
    fn version_accepted(version: u64) -> bool {
        unsafe { ffi::pbeam_version_accepted(version) }
    }

    #[inline]
    fn agreed_minor(version: u64) -> u64 {
        unsafe { ffi::pbeam_agreed_minor(version) }
    }

    #[inline]
    fn is_later(a: u64, b: u64) -> bool {
        unsafe { ffi::pbeam_is_later(a, b) }
    }

    #[inline]
    fn set_up_granules(granules: &mut GranulesImage, banks: &[u8], in_table: u64) -> u64 {
        let (banks, banks_len) = lend(banks);
        unsafe { ffi::pbeam_set_up_granules(granules, banks, banks_len, in_table) }
    }

    #[inline]
    fn delegate(
        state: &RecordImage,
        granules: &GranulesImage,
        table: &mut [u8],
        words: &mut [u64],
        at: u64,
        out: &mut Registers,
    ) {
        let (table, table_len) = lend_mut(table);
        let (words, words_len) = lend_mut(words);
        unsafe { ffi::pbeam_delegate(state, granules, table, table_len, words, words_len, at, out) }
    }

    #[inline]
    fn undelegate(
        state: &RecordImage,
        granules: &GranulesImage,
        table: &mut [u8],
        words: &mut [u64],
        at: u64,
        out: &mut Registers,
    ) {
        let (table, table_len) = lend_mut(table);
        let (words, words_len) = lend_mut(words);
        unsafe {
            ffi::pbeam_undelegate(state, granules, table, table_len, words, words_len, at, out)
        }
    }

    #[inline]
    fn delegate_list(
        state: &RecordImage,
        granules: &GranulesImage,
        table: &mut [u8],
        words: &mut [u64],
        addresses: &[u64],
        out: &mut Registers,
    ) {
        let (table, table_len) = lend_mut(table);
        let (words, words_len) = lend_mut(words);
        let (addresses, length) = lend(addresses);
        unsafe {
            ffi::pbeam_delegate_list(
                state, granules, table, table_len, words, words_len, addresses, length, out,
            )
        }
    }

    #[inline]
    fn undelegate_list(
        state: &RecordImage,
        granules: &GranulesImage,
        table: &mut [u8],
        words: &mut [u64],
        addresses: &[u64],
        out: &mut Registers,
    ) {
        let (table, table_len) = lend_mut(table);
        let (words, words_len) = lend_mut(words);
        let (addresses, length) = lend(addresses);
        unsafe {
            ffi::pbeam_undelegate_list(
                state, granules, table, table_len, words, words_len, addresses, length, out,
            )
        }
    }

    #[inline]
    fn realm_count(granules: &GranulesImage, words: &[u64], number: &mut [u64; 1]) -> u64 {
        let (words, words_len) = lend(words);
        unsafe { ffi::pbeam_realm_count(granules, words, words_len, number) }
    }

    #[inline]
    fn realm_next(
        granules: &GranulesImage,
        words: &[u64],
        index: u64,
        found: &mut [u64; 1],
    ) -> u64 {
        let (words, words_len) = lend(words);
        unsafe { ffi::pbeam_realm_next(granules, words, words_len, index, found) }
    }

    #[inline]
    fn realm_agrees(granules: &GranulesImage, table: &[u8], words: &[u64]) -> u64 {
        let (table, table_len) = lend(table);
        let (words, words_len) = lend(words);
        unsafe { ffi::pbeam_realm_agrees(granules, table, table_len, words, words_len) }
    }

    #[inline]
    fn realm_build(granules: &GranulesImage, table: &[u8], words: &mut [u64]) -> u64 {
        let (table, table_len) = lend(table);
        let (words, words_len) = lend_mut(words);
        unsafe { ffi::pbeam_realm_build(granules, table, table_len, words, words_len) }
    }

    #[inline]
    fn realm_key(
        state: &RecordImage,
        page: &mut [u8],
        key: &[u8],
        [pa, size, curve]: [u64; 3],
        out: &mut Registers,
    ) {
        let (page, page_len) = lend_mut(page);
        let (key, key_len) = lend(key);
        unsafe { ffi::pbeam_realm_key(state, page, page_len, key, key_len, pa, size, curve, out) }
    }

    #[inline]
    fn platform_token(
        state: &RecordImage,
        session: &mut SessionImage,
        page: &mut [u8],
        token: &[u8],
        busy: u64,
        [pa, size, csize]: [u64; 3],
        out: &mut Registers,
    ) {
        let (page, page_len) = lend_mut(page);
        let (token, token_len) = lend(token);
        unsafe {
            ffi::pbeam_platform_token(
                state, session, page, page_len, token, token_len, busy, pa, size, csize, out,
            )
        }
    }

    #[inline]
    fn challenge(
        state: &RecordImage,
        page: &[u8],
        [pa, size, csize]: [u64; 3],
        place: &mut Place,
    ) -> u64 {
        let (page, page_len) = lend(page);
        unsafe { ffi::pbeam_challenge(state, page, page_len, pa, size, csize, place) }
    }

    #[inline]
    fn features(state: &RecordImage, index: u64, out: &mut Registers) {
        unsafe { ffi::pbeam_features(state, index, out) }
    }

    #[inline]
    fn token_signing(
        state: &RecordImage,
        queue: &mut QueueImage,
        page: &mut [u8],
        key: &[u8],
        [opcode, pa, size, curve]: [u64; 4],
        out: &mut Registers,
    ) {
        let (page, page_len) = lend_mut(page);
        let (key, key_len) = lend(key);
        unsafe {
            ffi::pbeam_token_signing(
                state, queue, page, page_len, key, key_len, opcode, pa, size, curve, out,
            )
        }
    }

    #[inline]
    fn key_update(
        state: &RecordImage,
        width: u64,
        mecid: u64,
        out: &mut Registers,
        work: &mut Work,
    ) {
        unsafe { ffi::pbeam_key_update(state, width, mecid, out, work) }
    }

    #[inline]
    fn forward(state: &RecordImage, x1: u64) -> u64 {
        unsafe { ffi::pbeam_forward(state, x1) }
    }

    #[inline]
    fn sign(queue: &mut QueueImage, signature: &[u8], out: &mut Registers) {
        let (signature, signature_len) = lend(signature);
        unsafe { ffi::pbeam_sign(queue, signature, signature_len, out) }
    }

    #[inline]
    fn oldest(queue: &QueueImage, request: &mut RequestImage) -> usize {
        unsafe { ffi::pbeam_oldest(queue, request) }
    }

    #[inline]
    fn responses(queue: &QueueImage) -> usize {
        unsafe { ffi::pbeam_responses(queue) }
    }

    #[inline]
    fn call(
        state: &RecordImage,
        session: &mut SessionImage,
        queue: &mut QueueImage,
        lent: &mut Lent,
        x: &[u64; 5],
        out: &mut Registers,
        work: &mut Work,
    ) {
        let (page, page_len) = lend_mut(lent.page);
        let (table, table_len) = lend_mut(lent.table);
        let (words, words_len) = lend_mut(lent.words);
        let (key, key_len) = lend(lent.key);
        let (token, token_len) = lend(lent.token);
        let (public, public_len) = lend(lent.public_key);
        let (granules, busy, width) = (lent.granules, lent.busy, lent.width);
        unsafe {
            ffi::pbeam_call(
                state, session, queue, page, page_len, granules, table, table_len, words,
                words_len, key, key_len, token, token_len, busy, public, public_len, width, x, out,
                work,
            )
        }
    }
}
