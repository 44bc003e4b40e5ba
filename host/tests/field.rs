//! Products and quotients of the proved library, all 65,536 pairs, against an independent implementation: carry-less product,
//! then division by the polynomial, and no doubling, logarithm or inverse as the proved code has them.
use paritylocker::{field, Refusal};

/// The product of polynomials over the integers modulo 2.
fn carryless(a: u8, b: u8) -> u32 {
    (0..8)
        .filter(|i| b >> i & 1 == 1)
        .fold(0, |sum, i| sum ^ (u32::from(a) << i))
}

/// The remainder modulo x^8 + x^4 + x^3 + x^2 + 1.
fn remainder(mut x: u32) -> u8 {
    for i in (8..15).rev() {
        if x >> i & 1 == 1 {
            x ^= 0x11d << (i - 8);
        }
    }
    x as u8
}

fn product(a: u8, b: u8) -> u8 {
    remainder(carryless(a, b))
}

#[test]
fn every_product() {
    for a in 0..=255 {
        for b in 0..=255 {
            assert_eq!(field::mul(a, b), product(a, b), "{a} * {b}");
        }
    }
}

#[test]
fn every_quotient() {
    for a in 0..=255u8 {
        assert_eq!(field::div(a, 0), Err(Refusal::ZERO), "{a} / 0");
        for b in 1..=255u8 {
            let expected = (0..=255u8).find(|&q| product(b, q) == a);
            assert_eq!(field::div(a, b).ok(), expected, "{a} / {b}");
        }
    }
}
