//! Checksums of what a call leaves, by which the cases are printed short.

/// One number for a row of numbers below 65,536, that depends on their order: each step takes the sum times 65,537 and the number,
/// modulo the prime 1,000,003.
fn checksum(numbers: impl Iterator<Item = u64>) -> u64 {
    numbers.fold(0, |sum, number| (65_537 * sum + number) % 1_000_003)
}

/// The checksum of a list's numbers: each goes in as its magnitude, and 65,535 behind it where it is negative.
pub fn list_checksum(list: &[i16]) -> u64 {
    let signed = |number: &i16| {
        let sign = (*number < 0).then_some(65_535);
        std::iter::once(u64::from(number.unsigned_abs())).chain(sign)
    };
    checksum(list.iter().flat_map(signed))
}

pub fn byte_checksum(bytes: &[u8]) -> u64 {
    checksum(bytes.iter().map(|&byte| byte.into()))
}

/// The checksum of a list of a number for each glyph.
pub fn glyph_checksum(numbers: &[u16]) -> u64 {
    checksum(numbers.iter().map(|&number| number.into()))
}

#[cfg(test)]
mod tests {
    use super::*;

    #[test]
    fn the_checksum_depends_on_the_order() {
        assert_eq!(checksum([1, 2].into_iter()), 65_539);
        assert_ne!(checksum([1, 2].into_iter()), checksum([2, 1].into_iter()));
        assert_eq!(list_checksum(&[1, -2]), checksum([1, 2, 65_535].into_iter()));
    }
}
