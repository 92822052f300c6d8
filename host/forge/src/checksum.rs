//! Fletcher-32 as the paper has it, slowly.

/// "Bytes are taken as big-endian 16-bit words; an odd last byte is a word's high half. The first sum is the total of
/// the words, the second the total of the running totals. The second sum stands in the high sixteen bits and the first
/// in the low."
pub fn checksum(bytes: &[u8]) -> u32 {
    let (mut first, mut second) = (0_u128, 0_u128);
    for pair in bytes.chunks(2) {
        let low = pair.get(1).copied().unwrap_or(0);
        first += u128::from(u16::from_be_bytes([pair[0], low]));
        second += first;
    }
    (sum_of(second) << 16) | sum_of(first)
}

/// "Each is 0 if its exact total is 0, otherwise the number from 1 to 65,535 that leaves the same remainder on division
/// by 65,535."
fn sum_of(total: u128) -> u32 {
    match (total, total % 65_535) {
        (0, _) => 0,
        (_, 0) => 65_535,
        (_, remainder) => remainder as u32,
    }
}
