//! Floats (IEEE 754 binary64) by their bits: what a float stands for, and the float nearest to a fraction. All in whole numbers: no float is
//! cast, and none is computed with.

/// m·2^k in lowest terms: m is odd, or m and k are 0.
#[derive(Clone, Copy, PartialEq, Eq, Debug)]
pub struct Binary {
    pub m: i64,
    pub k: i32,
}

/// The sign, 11 bits of the exponent, and digits. A 1 goes before the digits unless the exponent's bits are all zeros.
const DIGITS: u32 = 52;
const ALL_ONES: u64 = 0x7FF;

/// What is taken off the exponent where the digits are a whole number.
const BIAS: i32 = 1_075;

/// What a float stands for: nothing where it is an infinity or no number.
pub fn read(v: f64) -> Option<Binary> {
    let bits = v.to_bits();
    let (exponent, digits) = (bits >> DIGITS & ALL_ONES, bits & ((1 << DIGITS) - 1));
    let (size, k) = match exponent {
        ALL_ONES => return None,
        0 => (digits, 1 - BIAS),
        _ => (digits | 1 << DIGITS, exponent as i32 - BIAS),
    };
    let size = size.cast_signed();
    Some(in_lowest_terms(if bits >> 63 == 1 { -size } else { size }, k))
}

fn in_lowest_terms(m: i64, k: i32) -> Binary {
    if m == 0 {
        return Binary { m, k: 0 };
    }
    let zeros = m.trailing_zeros();
    Binary { m: m >> zeros, k: k + zeros as i32 }
}

/// The float nearest to z/e, and of two as near the one whose last digit is 0; plus zero for z 0. e is above 0, and z/e is below 2^53.
pub fn nearest(z: i128, e: i128) -> f64 {
    if z == 0 {
        return 0.0;
    }
    let halvings = halvings_for(z.abs(), e);
    let scaled = z.abs() * power_of_two(halvings);
    let (digits, rest) = (scaled / e, scaled % e);
    let goes_up = 2 * rest > e || (2 * rest == e && digits % 2 == 1);
    let exponent = u64::try_from(BIAS - halvings).expect("a fraction of the size of floats");
    // The 1 before the digits adds 1 to the exponent, and so does a carry beyond it.
    let bits = ((exponent - 1) << DIGITS) + digits as u64 + u64::from(goes_up);
    f64::from_bits(u64::from(z < 0) << 63 | bits)
}

/// The h for which size·2^h / e is from 2^52 on and below 2^53.
fn halvings_for(size: i128, e: i128) -> i32 {
    let most = DIGITS as i32 + 1 + size.leading_zeros() as i32 - e.leading_zeros() as i32;
    let is_below = size * power_of_two(most) / e < power_of_two(DIGITS as i32 + 1);
    if is_below {
        most
    } else {
        most - 1
    }
}

/// 2^h. One that 128 bits do not hold is an error, and so is a fraction.
pub fn power_of_two(h: i32) -> i128 {
    2i128.pow(u32::try_from(h).expect("a whole power of two"))
}

#[cfg(test)]
mod tests {
    use super::*;
    use crate::random::Random;

    #[test]
    fn floats_of_every_class_are_read() {
        let rows = [
            (0x0000_0000_0000_0000, 0, 0),
            (0x8000_0000_0000_0000, 0, 0),
            (0x0000_0000_0000_0001, 1, -1_074),
            (0x800F_FFFF_FFFF_FFFF, -((1 << 52) - 1), -1_074),
            (0x0010_0000_0000_0000, 1, -1_022),
            (0x3FF0_0000_0000_0000, 1, 0),
            (0xBFF8_0000_0000_0000, -3, -1),
            (0x4090_0155_5555_5555, (1 << 52) + 0x155_5555_5555, -42),
            (0x40A0_0000_0000_0000, 1, 11),
            (0x7FEF_FFFF_FFFF_FFFF, (1 << 53) - 1, 971),
        ];
        for (bits, m, k) in rows {
            assert_eq!(read(f64::from_bits(bits)), Some(Binary { m, k }), "{bits:016x}");
        }
        for v in [f64::INFINITY, f64::NEG_INFINITY, f64::NAN, f64::from_bits(0xFFF0_0000_0000_0001)] {
            assert_eq!(read(v), None, "{v}");
        }
    }

    /// By the language's own product, exact here: in two steps, as 2^−1074 has only one digit left.
    #[test]
    fn digits_times_their_power_of_two_are_the_float() {
        let mut random = Random::new(14);
        let mut finite = 0;
        for _ in 0..200_000 {
            let v = f64::from_bits(random.word());
            assert_eq!(read(v).is_some(), v.is_finite(), "{v}");
            if let Some(Binary { m, k }) = read(v) {
                let half = k / 2;
                assert_eq!((m as f64 * 2f64.powi(half) * 2f64.powi(k - half)).to_bits(), v.to_bits(), "{v}");
                finite += 1;
            }
        }
        assert!((199_000..200_000).contains(&finite), "{finite}");
    }

    /// From 2^−20 to 2^20: e is at most 2^72.
    #[test]
    fn a_float_is_nearest_to_itself() {
        let mut random = Random::new(15);
        for _ in 0..200_000 {
            let exponent = random.between(1_003, 1_042).cast_unsigned();
            let v = f64::from_bits(random.pick(&[0, 1 << 63]) | exponent << 52 | random.word() >> 12);
            let Binary { m, k } = read(v).unwrap();
            let (z, e) = if k < 0 { (m.into(), power_of_two(-k)) } else { (i128::from(m) * power_of_two(k), 1) };
            assert_eq!(nearest(z, e).to_bits(), v.to_bits(), "{v}");
        }
    }

    /// Midway between two floats, a step beside it, and with a carry to the next power of two.
    #[test]
    fn ties_go_to_the_even_digit() {
        let d = 1i128 << 52;
        let rows = [
            (2 * d + 1, 2, d),
            (2 * d + 3, 2, d + 2),
            (20 * d + 9, 20, d),
            (20 * d + 11, 20, d + 1),
            (20 * d + 29, 20, d + 1),
            (20 * d + 31, 20, d + 2),
            (4 * d - 1, 2, 2 * d),
            (8 * d - 3, 4, 2 * d - 1),
            (8 * d - 1, 4, 2 * d),
        ];
        for (z, e, digits) in rows {
            assert_eq!(nearest(z, e).to_bits(), (digits as f64).to_bits(), "{z}/{e}");
            assert_eq!(nearest(-z, e).to_bits(), (-digits as f64).to_bits(), "−{z}/{e}");
        }
        assert_eq!(nearest(0, 7).to_bits(), 0);
    }

    /// As the language divides numbers that floats have exactly.
    #[test]
    fn the_nearest_is_the_quotient_rounded_once() {
        let mut random = Random::new(16);
        for _ in 0..500_000 {
            let [z, e] = [0, 0].map(|_| random.between(1, (1 << 53) - 1) >> random.below(53));
            let (z, e) = (random.pick(&[z, -z]), e.max(1));
            assert_eq!(nearest(z.into(), e.into()).to_bits(), (z as f64 / e as f64).to_bits(), "{z}/{e}");
        }
    }

    #[test]
    #[should_panic(expected = "overflow")]
    fn a_power_beyond_128_bits_is_an_error() {
        power_of_two(127);
    }
}
