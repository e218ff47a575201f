//! Polynomials with coefficients 0 and 1 as bit lists, the highest power
//! first, so that a list reads as the bits are sent. Sum, product, and the
//! division that is taught at school (ATC-117, Fig. 4-3).

use std::sync::OnceLock;

/// Coefficients, the highest power first.
pub type Bits = Vec<bool>;

/// The number of parity bits, and the degree of the generator.
pub const DEGREE: usize = 24;

/// The powers of the generator G (document 01; ATC-49, II-1.1).
pub const GENERATOR_POWERS: [usize; 16] =
    [24, 23, 22, 21, 20, 19, 18, 17, 16, 15, 14, 13, 12, 10, 3, 0];

/// The polynomial that has exactly these powers.
pub fn polynomial(powers: &[usize]) -> Bits {
    let degree = powers.iter().copied().max().unwrap_or(0);
    let mut bits = vec![false; degree + 1];
    for power in powers {
        bits[degree - power] = true;
    }
    bits
}

/// G as a bit list of 25 coefficients.
pub fn generator() -> &'static Bits {
    static GENERATOR: OnceLock<Bits> = OnceLock::new();
    GENERATOR.get_or_init(|| polynomial(&GENERATOR_POWERS))
}

/// The sum of two polynomials given by lists of one length.
pub fn add(a: &[bool], b: &[bool]) -> Bits {
    assert_eq!(a.len(), b.len(), "sums are taken of lists of one length");
    a.iter().zip(b).map(|(x, y)| x ^ y).collect()
}

/// x^power times `a`: zeros behind it.
pub fn times_power(a: &[bool], power: usize) -> Bits {
    let mut product = a.to_vec();
    product.resize(a.len() + power, false);
    product
}

/// The product of two polynomials: one shifted copy of `a` for each one of `b`.
pub fn product(a: &[bool], b: &[bool]) -> Bits {
    let mut sum = vec![false; a.len() + b.len() - 1];
    for (place, _) in b.iter().enumerate().filter(|(_, bit)| **bit) {
        for (k, coefficient) in a.iter().enumerate() {
            sum[place + k] ^= coefficient;
        }
    }
    sum
}

/// Quotient and remainder by a divisor whose first coefficient is 1. The
/// remainder has as many coefficients as the divisor's degree.
pub fn divide(dividend: &[bool], divisor: &[bool]) -> (Bits, Bits) {
    assert!(divisor[0], "the divisor's first coefficient is 1");
    let degree = divisor.len() - 1;
    let mut rest = vec![false; degree.saturating_sub(dividend.len())];
    rest.extend_from_slice(dividend);
    let digits = rest.len() - degree;
    let mut quotient = Vec::with_capacity(digits);
    for place in 0..digits {
        let digit = rest[place];
        quotient.push(digit);
        if digit {
            for (k, coefficient) in divisor.iter().enumerate() {
                rest[place + k] ^= coefficient;
            }
        }
    }
    let remainder = rest.split_off(digits);
    (quotient, remainder)
}

/// The remainder by G, 24 coefficients.
pub fn remainder(dividend: &[bool]) -> Bits {
    divide(dividend, generator()).1
}

/// The remainder of x^power by G as a word, for every power in a long message.
/// Each is a division of its own: a one and `power` zeros.
pub fn remainder_of_power(power: usize) -> u32 {
    static REMAINDERS: OnceLock<Vec<u32>> = OnceLock::new();
    let divide_one = |power| word_of_bits(&remainder(&times_power(&[true], power)));
    REMAINDERS.get_or_init(|| (0..112).map(divide_one).collect())[power]
}

/// The bits of bytes, the top bit of the first byte first.
pub fn bits_of_bytes(bytes: &[u8]) -> Bits {
    let bit = |i: usize| bytes[i / 8] >> (7 - i % 8) & 1 == 1;
    (0..8 * bytes.len()).map(bit).collect()
}

/// The bytes of bits, a multiple of eight.
pub fn bytes_of_bits(bits: &[bool]) -> Vec<u8> {
    assert!(bits.len().is_multiple_of(8), "whole bytes");
    bits.chunks(8).map(|eight| word_of_bits(eight) as u8).collect()
}

/// The last `count` binary digits of a word, the highest first.
pub fn bits_of_word(word: u32, count: usize) -> Bits {
    (0..count).rev().map(|power| word >> power & 1 == 1).collect()
}

/// The number that at most 32 bits write.
pub fn word_of_bits(bits: &[bool]) -> u32 {
    assert!(bits.len() <= 32, "a word has at most 32 bits");
    bits.iter().fold(0, |number, bit| 2 * number + u32::from(*bit))
}

#[cfg(test)]
mod tests {
    use super::*;

    #[test]
    fn the_generator_is_1fff409() {
        assert_eq!(word_of_bits(generator()), 0x1FF_F409);
    }

    /// Document 01's values of R: the remainder of x^24 times the field.
    #[test]
    fn the_remainders_of_document_01() {
        for (field, expected) in [
            (0x0000_0000, 0x00_0000),
            (0x0000_0001, 0xFF_F409),
            (0x0000_0002, 0x00_1C1B),
            (0x0000_0003, 0xFF_E812),
            (0x0000_8000, 0xF9_1024),
        ] {
            let dividend = times_power(&bits_of_word(field, 32), DEGREE);
            assert_eq!(word_of_bits(&remainder(&dividend)), expected, "{field:08X}");
        }
    }

    /// ATC-117, Fig. 4-3: x^7+x^6+x^5+x+1 by x^4+x^2+1.
    #[test]
    fn the_division_of_atc_117() {
        let (quotient, rest) = divide(&polynomial(&[7, 6, 5, 1, 0]), &polynomial(&[4, 2, 0]));
        assert_eq!(quotient, polynomial(&[3, 2, 0]));
        assert_eq!(rest, polynomial(&[3, 1]));
    }

    #[test]
    fn quotient_times_divisor_plus_remainder() {
        let mut random = crate::random::Random::new(1);
        for length in 25..137 {
            let dividend: Bits = (0..length).map(|_| random.one_in(2)).collect();
            let (quotient, rest) = divide(&dividend, generator());
            let mut whole = vec![false; length - DEGREE];
            whole.extend(rest);
            assert_eq!(add(&product(&quotient, generator()), &whole), dividend);
        }
    }

    #[test]
    fn bytes_and_bits() {
        assert_eq!(bytes_of_bits(&bits_of_bytes(&[0x80, 0x01, 0x5A])), [0x80, 0x01, 0x5A]);
        assert!(bits_of_bytes(&[0x80])[0]);
        assert_eq!(word_of_bits(&bits_of_word(0x12_3456, 24)), 0x12_3456);
    }
}
