//! Fletcher-32 over big-endian words.

/// Words summed side by side. Sixteen 32-bit lanes for each of the two sums
/// are what the smallest x86-64 vector registers hold.
const LANES: usize = 16;

/// Bytes summed before the totals are folded. A lane sees 256 words of it, so
/// its second sum stays below 65,535 x 256 x 257 / 2, which 32 bits hold.
const BLOCK: usize = 256 * LANES * 2;

/// The checksum of any number of bytes.
pub fn checksum(bytes: &[u8]) -> u32 {
    let (mut first, mut second) = (0, 0);
    for block in bytes.chunks(BLOCK) {
        let (words, of_words, of_totals) = block_totals(block);
        // The total standing before the block is in each running total of it.
        second = fold(second + words * first + of_totals);
        first = fold(first + of_words);
    }
    join(first, second)
}

/// The checksum of sixteen bytes: that of a location and of an entry, which a
/// reader needs by the thousand. Both totals are exact in 32 bits.
pub(crate) fn checksum_16(bytes: &[u8; 16]) -> u32 {
    let (mut first, mut second) = (0, 0);
    for word in bytes.as_chunks().0 {
        first += u64::from(u16::from_be_bytes(*word));
        second += first;
    }
    join(fold(first), fold(second))
}

/// Number of words of a block, their total, and the total of their running
/// totals, all exact.
fn block_totals(block: &[u8]) -> (u64, u64, u64) {
    let (rows, rest) = block.as_chunks();
    // The smallest pages are no full row; their lanes need not be added up.
    let (mut first, mut second) = match rows {
        [] => (0, 0),
        _ => row_totals(rows),
    };
    let (pairs, odd) = rest.as_chunks();
    let mut words = (rows.len() * LANES + pairs.len()) as u64;
    for pair in pairs {
        first += u64::from(u16::from_be_bytes(*pair));
        second += first;
    }
    if let [high] = odd {
        words += 1;
        first += u64::from(*high) << 8;
        second += first;
    }
    (words, first, second)
}

/// The same two totals for full rows of words.
fn row_totals(rows: &[[u8; 2 * LANES]]) -> (u64, u64) {
    let mut sums = [0_u32; LANES];
    let mut running = [0_u32; LANES];
    for row in rows {
        for lane in 0..LANES {
            sums[lane] += u32::from(u16::from_be_bytes([row[2 * lane], row[2 * lane + 1]]));
            running[lane] += sums[lane];
        }
    }
    // A word stands in as many running totals as there are words from it on.
    // Its lane counted the rows from its own on; times LANES that is too many
    // by the lanes to its left.
    let (mut first, mut second) = (0, 0);
    for lane in 0..LANES {
        first += u64::from(sums[lane]);
        second += LANES as u64 * u64::from(running[lane]) - lane as u64 * u64::from(sums[lane]);
    }
    (first, second)
}

/// 0 for 0, otherwise the number from 1 to 65,535 that leaves the same
/// remainder on division by 65,535: 2^16 leaves 1 there, so upper digits may be
/// added to the lower, and a sum of digits is 0 only if all of them are.
fn fold(total: u64) -> u64 {
    let total = (total >> 32) + (total & 0xFFFF_FFFF);
    let total = (total >> 16) + (total & 0xFFFF);
    let total = (total >> 16) + (total & 0xFFFF);
    (total >> 16) + (total & 0xFFFF)
}

/// The second sum in the high sixteen bits, the first in the low.
fn join(first: u64, second: u64) -> u32 {
    (second << 16 | first) as u32
}

#[cfg(test)]
mod tests {
    use super::*;
    use forge::checksum as by_the_paper;
    use forge::Random;

    #[test]
    fn folding_keeps_the_remainder_and_tells_zero_from_65535() {
        for total in [
            0,
            1,
            65_534,
            65_535,
            65_536,
            131_070,
            1 << 32,
            u64::MAX - 1,
            u64::MAX,
        ] {
            let want = if total == 0 {
                0
            } else {
                (total - 1) % 65_535 + 1
            };
            assert_eq!(fold(total), want, "{total}");
        }
    }

    #[test]
    fn every_length_to_some_rows_and_around_the_blocks() {
        let bytes = Random::seeded(&[1]).bytes(3 * BLOCK + 70);
        let around = [1, 2, 3].map(|n| n * BLOCK - 70..n * BLOCK + 70);
        for length in (0..300).chain(around.into_iter().flatten()) {
            assert_eq!(
                checksum(&bytes[..length]),
                by_the_paper(&bytes[..length]),
                "{length}"
            );
        }
    }

    #[test]
    fn the_heaviest_bytes_overflow_no_lane() {
        for length in [BLOCK, BLOCK + 1, 2 * BLOCK, 16_777_216, 67_108_863] {
            let heavy = vec![0xFF; length];
            assert_eq!(checksum(&heavy), by_the_paper(&heavy), "{length}");
        }
    }

    #[test]
    fn sixteen_bytes_agree_with_any_number() {
        for seed in 0..=255_u8 {
            let bytes: [u8; 16] = std::array::from_fn(|i| seed.wrapping_mul(i as u8 + 77));
            assert_eq!(checksum_16(&bytes), checksum(&bytes));
        }
        assert_eq!(checksum_16(&[0xFF; 16]), by_the_paper(&[0xFF; 16]));
    }
}
