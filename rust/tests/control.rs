//! The same bits whatever control word the host program has set, and that word as it was afterwards.
mod common;
use common::Random;
use desklink::slices::{self, Outputs};
use std::arch::asm;

const DEFAULT: u32 = 0x1F80;
const FLUSH_TO_ZERO: u32 = 1 << 15;
const DENORMALS_ARE_ZERO: u32 = 1 << 6;
const SIZES: [(usize, usize); 4] = [(512, 256), (576, 384), (512, 384), (174, 91)];

fn control_word() -> u32 {
    let mut word = 0u32;
    unsafe { asm!("stmxcsr [{}]", in(reg) &mut word, options(nostack, preserves_flags)) };
    word
}

fn set_control_word(word: u32) {
    unsafe { asm!("ldmxcsr [{}]", in(reg) &word, options(nostack, preserves_flags, readonly)) };
}

/// Words that a host may have set: each rounding mode, flush-to-zero, denormals-are-zero, both, exceptions unmasked, flags raised.
fn words() -> Vec<u32> {
    let both = FLUSH_TO_ZERO | DENORMALS_ARE_ZERO;
    let mut words = vec![DEFAULT, DEFAULT | FLUSH_TO_ZERO, DEFAULT | DENORMALS_ARE_ZERO, DEFAULT | both, DEFAULT | both | 0x3F, 0x0000, 0x003F];
    words.extend((1..4).map(|mode| DEFAULT | mode << 13));
    words.extend((7..13).map(|exception| DEFAULT & !(1 << exception)));
    words
}

/// What `call` gives under that word. Nothing here computes with floats while the word is set.
fn under<T>(word: u32, call: impl FnOnce() -> T) -> T {
    set_control_word(word);
    let given = call();
    let after = control_word();
    set_control_word(DEFAULT);
    assert_eq!(after, word, "the control word was {word:#x} before the call and is {after:#x} after it");
    given
}

/// A frame of values near 10 to the power `exponent`, some signs turned.
fn values(random: &mut Random, n: usize, exponent: i32) -> Vec<f32> {
    let near = |random: &mut Random| (random.normal() + 1.5) * 10f64.powi(exponent);
    (0..n).map(|_| near(random) as f32).collect()
}

#[derive(Debug, PartialEq)]
struct Left {
    answer: Result<(), desklink::Refusal>,
    bits: Vec<u8>,
    numbers: [Vec<u16>; 3],
}

fn batch(code: usize, rule: u32, values: &[f32], frames: usize, work: &mut [f32]) -> Left {
    let (n, k) = SIZES[code];
    let pairs: Vec<[u32; 2]> = (0..frames).map(|j| [(j * n) as u32, n as u32]).collect();
    let mut left = Left { answer: Ok(()), bits: vec![9; frames * k], numbers: [0; 3].map(|_| vec![9; frames]) };
    let [counts, rounds, firsts] = &mut left.numbers;
    let out = Outputs { bits: &mut left.bits, counts, rounds, firsts };
    left.answer = slices::decode_batch(code as u32, rule, 12, 0.75, values, &pairs, out, work);
    left
}

#[test]
fn batches() {
    let random = &mut Random(0x4D58);
    for (code, &(n, _)) in SIZES.iter().enumerate() {
        for rule in 0..5 {
            for exponent in [-45, -44, -42, -40, -38, -37, -30, -20, -10, -3, 0, 1, 5, 10, 20, 37, 38] {
                let values = values(random, 4 * n, exponent);
                let mut work = vec![0.0; slices::WORK];
                let expected = batch(code, rule, &values, 4, &mut work);
                for word in words() {
                    let given = under(word, || batch(code, rule, &values, 4, &mut work));
                    assert_eq!(given, expected, "code {code}, rule {rule}, values near 1e{exponent}, control word {word:#x}");
                }
            }
        }
    }
}

#[test]
fn single_decodes() {
    let random = &mut Random(0x4D59);
    for exponent in [-45, -41, -38, -20, 0, 20, 38] {
        let mut work = vec![0.0; slices::WORK];
        for (code, &(n, k)) in SIZES.iter().enumerate().take(3) {
            let llr = values(random, n, exponent);
            let mut decode = |rule| {
                let mut bits = vec![9; k];
                let told = slices::decode_soft_with(code as u32, rule, 0.5, 12, &llr, &mut bits, &mut work);
                let plain = slices::decode_soft(code as u32, 12, &llr, &mut bits.clone(), &mut work);
                (told, plain, bits)
            };
            for rule in 0..4 {
                let expected = decode(rule);
                words().into_iter().for_each(|word| assert_eq!(under(word, || decode(rule)), expected));
            }
        }
        let llr = values(random, 174, exponent);
        let mut decode = || {
            let mut plain = vec![9; 174];
            (slices::ldpc_decode_soft(&llr, 12, &mut plain, &mut work), plain)
        };
        let expected = decode();
        words().into_iter().for_each(|word| assert_eq!(under(word, &mut decode), expected));
    }
}

#[test]
fn reasons() {
    let random = &mut Random(0x4D5A);
    for exponent in [-45, -41, -38, -20, 0, 20, 38] {
        let mut work = vec![0.0; slices::WORK];
        for (code, &(n, _)) in SIZES.iter().enumerate() {
            let llr = values(random, n, exponent);
            let mut explain = |rule| {
                let mut word = vec![9; n];
                (slices::frame_reason(code as u32, rule, 0.5, 12, &llr, &mut word, &mut work), word)
            };
            for rule in [0, 3] {
                let expected = explain(rule);
                words().into_iter().for_each(|word| assert_eq!(under(word, || explain(rule)), expected));
            }
        }
    }
}

#[test]
fn soft_bytes() {
    let bytes: Vec<i8> = (-127..=127).collect();
    let convert = || {
        let (mut values, mut back) = (vec![0.0; 255], vec![0; 255]);
        let there = slices::values_of_bytes(&bytes, true, &mut values);
        let again = slices::bytes_of_values(&values, true, &mut back);
        (there, again, values.iter().map(|v| v.to_bits()).collect::<Vec<u32>>(), back)
    };
    let expected = convert();
    words().into_iter().for_each(|word| assert_eq!(under(word, convert), expected));
}

/// A value is compared with itself to see whether it is NaN, which a signalling one would stop under an unmasked exception.
#[test]
fn totals() {
    let mut values = vec![1.0; 2 * 174];
    values[200] = f32::from_bits(0x7F80_0001);
    let add = || {
        let mut totals = desklink::Totals::default();
        let said = slices::totals_add(&mut totals, 3, &values, &[[0, 174], [174, 174]], &[0; 182], &[0; 2], &[0; 2]);
        (said, totals.frames, totals.clean)
    };
    words().into_iter().for_each(|word| assert_eq!(under(word, add), (Ok(()), 2, 1)));
}

/// A refused call restores the word too.
#[test]
fn refused_calls() {
    for word in words() {
        let refused = under(word, || batch(3, 1, &[1.0; 174], 1, &mut [0.0; slices::WORK]).answer);
        assert_eq!(refused, Err(desklink::Refusal::RuleNotOfCode));
    }
}
