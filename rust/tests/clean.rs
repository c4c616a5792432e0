//! Whether a frame is clean, against an account of its own, written from change request N2: its count is 0, none of its values is NaN
//! and, for code 3, the checksum that `ft8_add_crc` would store for its 77 payload bits equals the one that it carries.
mod common;
use common::Random;
use desklink::{slices, Code, LdpcCode, Refusal};

const CODES: [Code; 4] = [Code::Staircase(LdpcCode::N512R12), Code::Staircase(LdpcCode::N576R23), Code::Staircase(LdpcCode::N512R34), Code::Ft8];

/// The remainder of 77 bits, five zeros and fourteen more by x^14 + 0x2757: long division, bit by bit.
fn checksum(payload: &[u8]) -> u16 {
    let mut remainder = 0u32;
    for &bit in payload.iter().chain(&[0; 5 + 14]) {
        remainder = remainder << 1 | u32::from(bit);
        if remainder >> 14 == 1 {
            remainder ^= 0x6757;
        }
    }
    remainder as u16
}

fn carried(bits: &[u8]) -> u16 {
    bits[77..91].iter().fold(0, |number, &bit| number << 1 | u16::from(bit))
}

/// 91 bits of which the last 14 are the checksum of the first 77.
fn block(random: &mut Random) -> Vec<u8> {
    let mut bits = random.bits(77);
    let sum = checksum(&bits);
    bits.extend((0..14).rev().map(|place| (sum >> place & 1) as u8));
    bits
}

#[test]
fn frames() {
    let random = &mut Random(0x434C);
    let mut said = [0; 2];
    for i in 0..40_000 {
        let code = random.pick(&CODES);
        let mut values: Vec<f32> = (0..code.n()).map(|_| random.normal() as f32).collect();
        if i % 5 == 0 {
            let between = random.below(code.n());
            let at = random.pick(&[0, code.n() - 1, between]);
            values[at] = f32::NAN;
        }
        let mut bits = if code == Code::Ft8 { block(random) } else { random.bits(code.k()) };
        if i % 3 == 0 {
            let at = random.below(code.k());
            bits[at] ^= 1;
        }
        let count = random.pick(&[0, 0, 0, 1, 83, 65_535]);
        let right = code != Code::Ft8 || checksum(&bits[..77]) == carried(&bits);
        let expected = count == 0 && right && values.iter().all(|value| !value.is_nan());
        assert_eq!(slices::frame_clean(code.number(), &values, count, &bits), Ok(expected));
        said[usize::from(expected)] += 1;
    }
    assert!(said.iter().all(|&n| n > 5_000), "both words are met often: {said:?}");
}

#[test]
fn refusals() {
    for code in CODES {
        let (values, bits) = (vec![1.0; code.n() + 1], vec![0; code.k() + 1]);
        for (n, k) in [(code.n() + 1, code.k()), (code.n() - 1, code.k()), (code.n(), code.k() + 1), (code.n(), code.k() - 1), (0, 0)] {
            assert_eq!(slices::frame_clean(code.number(), &values[..n], 0, &bits[..k]), Err(Refusal::InputLength));
        }
    }
    for code in [4, 256, u32::MAX] {
        assert_eq!(slices::frame_clean(code, &[], 0, &[]), Err(Refusal::UnknownCode));
    }
}
