//! The rules of banks, regions and consoles. Reader and writer share them, whether the words come from a page or from a list.
//!
//! The loop collects rule violations with `or` and tests them a single time, after the last entry: a loop without exits is vectorised, and in
//! a sound page every entry must be checked anyway.

/// Memory ends at 2^52.
const MEMORY_BITS: u32 = 52;
/// Pages of that memory.
const PAGE_BITS: u32 = 40;
const OFFSET_MASK: u64 = 0xfff;

/// The sum of all words of banks or regions, if each of them is sound.
#[inline]
pub fn bank_sum(banks: impl ExactSizeIterator<Item = [u64; 2]>) -> Option<u64> {
    // Each last address is one less than the words of its bank.
    let mut sum = banks.len() as u64;
    let (mut either, mut high) = (0, 0);
    for [base, size] in banks {
        // Size 0 wraps to all ones, so it is caught as too high.
        let span = size.wrapping_sub(1);
        let last = base.wrapping_add(span);
        either |= base | size;
        high |= span | last;
        sum = sum.wrapping_add(last);
    }
    // A size may be 2^52 itself. Below 2^53 no last address wraps, so it bounds base and span.
    let aligned = either & OFFSET_MASK == 0;
    (aligned && either >> (MEMORY_BITS + 1) == 0 && high >> MEMORY_BITS == 0).then_some(sum)
}

/// The sum of all words of consoles, if each of them is sound on a page of this minor: flags are free from minor 5 on.
#[inline]
pub fn console_sum(minor: u64, consoles: impl Iterator<Item = [u64; 6]>) -> Option<u64> {
    // A sum for each field, so that they are added side by side.
    let mut sums = [0u64; 6];
    let (mut bases, mut high, mut pages, mut set) = (0, 0, 0, 0);
    for console in consoles {
        let [base, map_pages, .., flags] = console;
        // As for a bank, map_pages 0 wraps; the product is exact unless there are too many pages.
        bases |= base;
        high |= base.wrapping_add(map_pages << 12).wrapping_sub(1);
        pages |= map_pages.wrapping_sub(1);
        set |= flags;
        for (sum, word) in sums.iter_mut().zip(console) {
            *sum = sum.wrapping_add(word);
        }
    }
    let inside = (bases | high) >> MEMORY_BITS == 0 && pages >> PAGE_BITS == 0;
    (inside && bases & OFFSET_MASK == 0 && (set == 0 || minor > 4))
        .then(|| sums.into_iter().fold(0, u64::wrapping_add))
}

#[cfg(test)]
mod tests {
    use super::{bank_sum, console_sum};
    use crate::random::Random;

    /// The rules as they are written, in numbers that do not wrap.
    fn bank_sound([base, size]: [u64; 2]) -> bool {
        let aligned = base % 4096 == 0 && size % 4096 == 0;
        aligned && size != 0 && u128::from(base) + u128::from(size) <= 1 << 52
    }

    fn console_sound(minor: u64, [base, map_pages, _, _, _, flags]: [u64; 6]) -> bool {
        let end = u128::from(base) + 4096 * u128::from(map_pages);
        let free = minor >= 5;
        base % 4096 == 0 && map_pages != 0 && end <= 1 << 52 && (free || flags == 0)
    }

    fn sum<const N: usize>(entries: &[[u64; N]]) -> u64 {
        entries
            .iter()
            .flatten()
            .fold(0, |sum, &word| sum.wrapping_add(word))
    }

    /// Some of the words that are sound by themselves, or at an edge.
    fn word(random: &mut Random) -> u64 {
        match random.below(3) {
            0 => random.edge(),
            1 => 4096 * random.between(1, 8),
            _ => 1 << random.below(64),
        }
    }

    #[test]
    fn banks_as_written() {
        let mut random = Random::new(11);
        let mut sound = 0;
        for _ in 0..200_000 {
            let length = random.between(1, 3) as usize;
            let banks: Vec<_> = (0..length)
                .map(|_| [word(&mut random), word(&mut random)])
                .collect();
            let expected = banks.iter().all(|&bank| bank_sound(bank));
            sound += u32::from(expected);
            assert_eq!(
                bank_sum(banks.iter().copied()),
                expected.then(|| sum(&banks)),
                "{banks:x?}"
            );
        }
        assert!(sound > 10_000);
    }

    #[test]
    fn consoles_as_written() {
        let mut random = Random::new(12);
        let mut sound = 0;
        for _ in 0..200_000 {
            let length = random.between(1, 3) as usize;
            let consoles: Vec<_> = (0..length)
                .map(|_| {
                    let flags = if random.one_in(8) { random.edge() } else { 0 };
                    let [name, clock, baud] = [(); 3].map(|()| random.word());
                    [
                        word(&mut random),
                        word(&mut random),
                        name,
                        clock,
                        baud,
                        flags,
                    ]
                })
                .collect();
            let minor = random.pick(&[1, 3, 4, 5, 6, 65535]);
            let expected = consoles
                .iter()
                .all(|&console| console_sound(minor, console));
            sound += u32::from(expected);
            let answer = console_sum(minor, consoles.iter().copied());
            assert_eq!(answer, expected.then(|| sum(&consoles)), "{consoles:x?}");
        }
        assert!(sound > 10_000);
    }
}
