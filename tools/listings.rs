// Writes inputs of batchlist and the listings that belong to them, every frame decoded by the Rust's ldpc.rs and ldpc_codes.rs and its checksum
// taken by crc.rs: document 01's sample (crates/batchlist), the samples of each code (samples/), and the inputs that crates/listing_replay replays.
// Built with ORION_SRC naming a folder that holds crc.rs, ldpc.rs and ldpc_codes.rs; run in the repository's root:
//
//     ORION_SRC=folder rustc --edition 2021 -O tools/listings.rs -o target/listings && target/listings
//
// The Rust has no batch and no refusals: the pairs' tests (tools/batches.rs) and the lines are written anew from document 01.
#[allow(dead_code)]
mod batches;

use batches::*;
use std::fmt::Write;
use std::fs;

// ---- the listing of an input

fn hex(bits: &[u8]) -> String {
    let mut text = String::new();
    for byte in packed(bits) {
        write!(text, "{byte:02x}").unwrap();
    }
    text
}

// Change request N2: the count is 0, no value is NaN, and code 3's bits carry their payload's checksum.
fn clean(code: u8, llr: &[f32], bits: &[u8], count: usize) -> bool {
    if count != 0 || llr.iter().any(|v| v.is_nan()) {
        return false;
    }
    if code != 3 {
        return true;
    }
    let block = packed(bits).try_into().unwrap();
    crc::ft8_extract_crc(&checksummed(&block)) == crc::ft8_extract_crc(&block)
}

fn listing(codes: &Codes, s: &[u8]) -> String {
    let batch = match Batch::read(codes, s) {
        Ok(batch) => batch,
        Err(number) => return format!("refused {number}\n"),
    };
    let Batch { code, rule, limit, scale, .. } = batch;
    let mut text = format!("code {code} rule {rule} limit {limit} frames {}\n", batch.pairs.len());
    for place in 0..batch.pairs.len() {
        let llr = batch.frame(place);
        let (word, count) = codes.decode(code, rule, scale, limit, llr);
        let rounds = codes.rounds(code, rule, scale, limit, llr, count);
        let bits = &word[..codes.k(code)];
        let state = if clean(code, llr, bits, count) { "clean" } else { "open" };
        let first = codes.first(code, &word).map_or(String::new(), |check| format!(" {check}"));
        writeln!(text, "{place} {count} {rounds} {state} {}{first}", hex(bits)).unwrap();
    }
    text
}

// ---- inputs

// Frames of each code under each rule, with gaps between them, at several noises and limits.
fn decoded_inputs(codes: &Codes, random: &mut Random, all: &mut Vec<Vec<u8>>) {
    for code in 0..4 {
        for rule in 0..5 {
            for limit in [0, 1, 2, 15] {
                let mut input = Input::new(code, rule, limit).scale(0.75f32.to_bits());
                for noise in [0.4, 0.8] {
                    input = input.values(&[9.0]).frame(&noisy(codes, code, noise, random));
                }
                all.push(input.bytes());
            }
        }
    }
    for scale in [0x7FC0_0000, 0xFF80_0001, 0x7F80_0000, 0x8000_0000, 0x0000_0001] {
        let input = Input::new(0, 2, 4).scale(scale);
        all.push(input.frame(&noisy(codes, 0, 0.7, random)).bytes());
    }
}

// Values that are zeros of either sign, infinities, or NaN by any of its patterns.
fn odd_inputs(codes: &Codes, random: &mut Random, all: &mut Vec<Vec<u8>>) {
    for code in 0..4 {
        let n = codes.n(code);
        for bits in [0, 0x8000_0000, 0x7F80_0000, 0xFF80_0000, 0x7FC0_0000, 0xFFFF_FFFF, 0x7F80_0001] {
            for limit in [0, 2] {
                let mut input = Input::new(code, 0, limit).frame(&vec![1.0; n]);
                input.values = vec![bits; n];
                all.push(input.bytes());
            }
            let mut mixed = Input::new(code, 0, 2).frame(&noisy(codes, code, 0.5, random));
            for i in (0..n).step_by(7) {
                mixed.values[i] = bits;
            }
            all.push(mixed.bytes());
        }
    }
    all.push(Input::new(3, 3, 65535).frame(&[1.0; 174]).bytes());
    all.push(Input::new(3, 0, 200).frame(&noisy(codes, 3, 1.5, random)).bytes());
}

// Values about a noisy frame's that decoders treat with care: subnormals, ties of the least magnitude, any bits at all.
fn hostile(codes: &Codes, code: u8, kind: usize, random: &mut Random) -> Vec<f32> {
    let noise = [0.1, 0.5, 0.65, 0.8, 2.0][kind % 5];
    let mut llr = noisy(codes, code, noise, random);
    for v in llr.iter_mut() {
        let word = random.word();
        match kind / 5 {
            0 => {}
            1 => *v = if *v < 0.0 { -1.0 } else { 1.0 } * (1 + word % 3) as f32,
            2 if word % 4 == 0 => *v = f32::from_bits(word & 0x807F_FFFF),
            2 => *v = f32::from_bits(v.to_bits() & 0x8000_0000 | 1 + word % 2),
            3 if word % 16 == 0 => *v = [0.0, -0.0, f32::INFINITY, f32::NEG_INFINITY, f32::NAN][word as usize / 16 % 5],
            3 => {}
            _ => *v = f32::from_bits(word),
        }
    }
    llr
}

// The decoders: each code and rule, each limit, frames of every kind, scales of every kind.
fn decoder_inputs(codes: &Codes, random: &mut Random, all: &mut Vec<Vec<u8>>) {
    let scales = [0.75f32.to_bits(), 0xC000_0000, 0x0000_0007, 0x7F80_0000, 0x8000_0000, 0x7FC0_0001];
    for code in 0..4 {
        for rule in if code == 3 { vec![0, 4] } else { vec![0, 1, 2] } {
            for (turn, limit) in [0, 1, 2, 5, 20, 50].into_iter().enumerate() {
                let mut input = Input::new(code, rule, limit).scale(scales[turn]);
                for i in 0..5 {
                    input = input.frame(&hostile(codes, code, 5 * i + (turn + i) % 5, random));
                }
                all.push(input.bytes());
            }
        }
    }
}

// Batches of 0, 1, 2 and 24 frames of each code, with gaps that hold junk and without.
fn batch_inputs(codes: &Codes, random: &mut Random, all: &mut Vec<Vec<u8>>) {
    for code in 0..4 {
        for count in [0, 1, 2, 24] {
            for gap in [0, 3] {
                let mut input = Input::new(code, 0, 2);
                for _ in 0..count {
                    let junk: Vec<f32> = (0..gap).map(|_| f32::from_bits(random.word())).collect();
                    input = input.values(&junk).frame(&noisy(codes, code, 0.6, random));
                }
                all.push(input.bytes());
            }
        }
    }
}

// One nearly lost frame through batches at different places, beside different neighbours, under limits 0 to 30.
// Its count never rises, and equal counts have equal words.
fn carried_inputs(codes: &Codes, random: &mut Random, all: &mut Vec<Vec<u8>>) {
    for (code, rule) in [(0, 0), (1, 0), (2, 0), (3, 0), (3, 4)] {
        let frame = noisy(codes, code, 0.78, random);
        let mut last: Option<(Vec<u8>, usize)> = None;
        for limit in 0..31 {
            let place = limit as usize % 3;
            let mut input = Input::new(code, rule, limit);
            for j in 0..3 {
                let other = noisy(codes, code, 0.9, random);
                input = input.values(&[0.5; 1]).frame(if j == place { &frame } else { &other });
            }
            all.push(input.bytes());
            let (word, found) = codes.decode(code, rule, 0.0, limit, &frame);
            if let Some((before, count)) = &last {
                assert!(found <= *count && (found != *count || word == *before));
            }
            last = Some((word, found));
        }
    }
}

// A frame of NaN alone; frames with one NaN, at the first place, the last and one between, beside clean neighbours; NaN between the frames alone.
fn nan_inputs(codes: &Codes, random: &mut Random, all: &mut Vec<Vec<u8>>) {
    for code in 0..4 {
        let n = codes.n(code);
        let frame = exact(&sent(codes, code, random));
        for limit in [0, 20] {
            let mut input = Input::new(code, 0, limit).frame(&vec![f32::NAN; n]).frame(&frame);
            for place in [0, n / 2, n - 1] {
                let mut spoilt = frame.clone();
                spoilt[place] = f32::NAN;
                input = input.frame(&spoilt).frame(&frame);
            }
            all.push(input.bytes());
            let gap = [f32::NAN; 1];
            all.push(Input::new(code, 0, limit).values(&gap).frame(&frame).values(&gap).frame(&frame).values(&gap).bytes());
        }
    }
}

// (174,91): the word of zeros; codewords that carry their checksum; codewords of a block with a checksum and one of its 91 bits changed, each in turn.
fn checksum_inputs(codes: &Codes, random: &mut Random, all: &mut Vec<Vec<u8>>) {
    all.push(Input::new(3, 0, 0).frame(&exact(&[0; ldpc::N])).bytes());
    let mut right = Input::new(3, 0, 0);
    for _ in 0..24 {
        right = right.frame(&exact(&sent(codes, 3, random)));
    }
    all.push(right.bytes());
    let block = checksummed(&block(random));
    for from in (0..ldpc::K).step_by(24) {
        let mut wrong = Input::new(3, 0, 0);
        for i in from..ldpc::K.min(from + 24) {
            let mut changed = block;
            changed[i / 8] ^= 0x80 >> (i % 8);
            wrong = wrong.frame(&exact(&encoded(&changed)));
        }
        all.push(wrong.bytes());
    }
}

// Frames at several noises, each under limits from 0 to 30: once a frame is clean, it is clean under every larger limit.
fn kept_inputs(codes: &Codes, random: &mut Random, all: &mut Vec<Vec<u8>>) {
    for (code, rule) in [(0, 0), (1, 0), (2, 0), (3, 0), (3, 4)] {
        for noise in [0.3, 0.4, 0.5, 0.6] {
            let frame = received(&sent(codes, code, random), noise, random);
            let mut before = false;
            for limit in [0, 1, 2, 3, 4, 5, 10, 20, 30] {
                let (word, count) = codes.decode(code, rule, 0.0, limit, &frame);
                let now = clean(code, &frame, &word[..codes.k(code)], count);
                assert!(now || !before);
                before = now;
                all.push(Input::new(code, rule, limit).frame(&frame).bytes());
            }
        }
    }
}

// Several noisy frames of one code.
fn sample(codes: &Codes, code: u8, random: &mut Random) -> Vec<u8> {
    let mut input = Input::new(code, 0, 30);
    for noise in [0.3, 0.45, 0.55, 0.65, 0.9] {
        let word = sent(codes, code, random);
        input = input.frame(&received(&word, noise, random));
    }
    input.bytes()
}

fn main() {
    let codes = Codes::new();
    let random = &mut Random(0x9E37_79B9_7F4A_7C15);
    let first = Input::new(3, 0, 20).frame(&[1.0; 174]).bytes();
    fs::write("crates/batchlist/stdin", &first).unwrap();
    fs::write("crates/batchlist/stdout", listing(&codes, &first)).unwrap();
    fs::create_dir_all("samples").unwrap();
    let mut all = vec![];
    for code in 0..4 {
        let s = sample(&codes, code, random);
        fs::write(format!("samples/code{code}.bin"), &s).unwrap();
        fs::write(format!("samples/code{code}.txt"), listing(&codes, &s)).unwrap();
        all.push(s);
    }
    malformed_inputs(&mut all);
    refused_inputs(&mut all);
    faulty_twice(&mut all);
    longest_inputs(&codes, random, &mut all);
    decoded_inputs(&codes, random, &mut all);
    odd_inputs(&codes, random, &mut all);
    decoder_inputs(&codes, random, &mut all);
    batch_inputs(&codes, random, &mut all);
    carried_inputs(&codes, random, &mut all);
    nan_inputs(&codes, random, &mut all);
    checksum_inputs(&codes, random, &mut all);
    kept_inputs(&codes, random, &mut all);
    store("crates/listing_replay", &all, |s| listing(&codes, s));
}
