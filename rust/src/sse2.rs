//! Registers of 16 bytes, for the benchmark's hand-written code: copies, because the C library's memcpy uses the widest vectors that the
//! machine has, which firmware cannot use, and the bits of a granule table's bytes.

/// Copies 64 bytes at a time, in four registers, while both sides have 64 left. Returns the number of bytes copied.
#[cfg(target_arch = "x86_64")]
#[inline]
pub fn copy(to: &mut [u8], from: &[u8]) -> usize {
    use core::arch::x86_64::{__m128i, _mm_loadu_si128, _mm_storeu_si128};
    let mut done = 0;
    for (to, from) in to.chunks_exact_mut(64).zip(from.chunks_exact(64)) {
        let to = to.as_mut_ptr().cast::<__m128i>();
        let from = from.as_ptr().cast::<__m128i>();
        // 64 bytes on both sides.
        unsafe {
            let parts = [0, 1, 2, 3].map(|i| _mm_loadu_si128(from.add(i)));
            (0..4).for_each(|i| _mm_storeu_si128(to.add(i), parts[i]));
        }
        done += 64;
    }
    done
}

/// Copies nothing on other machines.
#[cfg(not(target_arch = "x86_64"))]
#[inline]
pub fn copy(_to: &mut [u8], _from: &[u8]) -> usize {
    0
}

/// The same of words. Returns the number of words copied.
#[inline]
pub fn copy_words(to: &mut [u8], words: &[u64]) -> usize {
    // The same bytes as the words; a machine with `copy` is little-endian.
    let raw = unsafe { core::slice::from_raw_parts(words.as_ptr().cast(), 8 * words.len()) };
    copy(to, raw) / 8
}

/// Bit i is set if byte i is 1.
#[cfg(target_arch = "x86_64")]
#[inline]
pub fn ones(bytes: &[u8; 64]) -> u64 {
    use core::arch::x86_64::{
        __m128i, _mm_cmpeq_epi8, _mm_loadu_si128, _mm_movemask_epi8, _mm_set1_epi8,
    };
    let from = bytes.as_ptr().cast::<__m128i>();
    // 64 bytes; SSE2 is part of x86-64.
    let bits = |i| unsafe {
        let equal = _mm_cmpeq_epi8(_mm_loadu_si128(from.add(i)), _mm_set1_epi8(1));
        _mm_movemask_epi8(equal) as u64
    };
    bits(0) | bits(1) << 16 | bits(2) << 32 | bits(3) << 48
}

#[cfg(not(target_arch = "x86_64"))]
pub use self::ones_by_words as ones;

/// The same, eight bytes at a time.
#[cfg_attr(target_arch = "x86_64", allow(dead_code))]
#[inline]
pub fn ones_by_words(bytes: &[u8; 64]) -> u64 {
    const LOW: u64 = 0x7f7f_7f7f_7f7f_7f7f;
    let mut bits = 0;
    for (i, cell) in bytes.chunks_exact(8).enumerate() {
        let differs = u64::from_le_bytes(cell.try_into().expect("8 bytes")) ^ 0x0101_0101_0101_0101;
        // The top bit of each byte that does not differ; the product gathers them in the top byte.
        let same = !((differs & LOW).wrapping_add(LOW) | differs | LOW);
        bits |= ((same >> 7).wrapping_mul(0x0102_0408_1020_4080) >> 56) << (8 * i);
    }
    bits
}

#[cfg(test)]
mod tests {
    use super::{ones, ones_by_words};
    use crate::random::Random;

    #[test]
    fn bits_of_bytes() {
        let mut random = Random::new(41);
        for _ in 0..20_000 {
            let mut bytes = [0; 64];
            let byte = |_: u8| random.pick(&[0, 1, 1, 2, 3, 0x80, 0x81, 0xFF, 0xFE, 0x7F]);
            bytes = bytes.map(byte);
            let bits = (0..64).filter(|&i| bytes[i] == 1).map(|i| 1u64 << i);
            let bits: u64 = bits.sum();
            assert_eq!(
                [ones(&bytes), ones_by_words(&bytes)],
                [bits; 2],
                "{bytes:x?}"
            );
        }
    }
}
