// Writes inputs of batchwhy and the lines that belong to them: one of a sample (crates/batchwhy), and the inputs that crates/why_replay replays. The frame
// asked about is decoded by the Rust's ldpc.rs and ldpc_codes.rs, its checks are the Rust's own lists, and its checksums are taken by crc.rs. Built with
// ORION_SRC naming a folder that holds crc.rs, ldpc.rs and ldpc_codes.rs; run in the repository's root, after tools/listings.rs:
//
//     ORION_SRC=folder rustc --edition 2021 -O tools/explanations.rs -o target/explanations && target/explanations
//
// The reasons and their lines are written here anew from change request N11.
#[allow(dead_code)]
mod batches;

use batches::*;
use std::fs;

// ---- the line of an input

fn reason(codes: &Codes, batch: &Batch, llr: &[f32]) -> String {
    if let Some(position) = llr.iter().position(|v| v.is_nan()) {
        return format!("nan {position}");
    }
    let (word, _) = codes.decode(batch.code, batch.rule, batch.scale, batch.limit, llr);
    if let Some(check) = codes.first(batch.code, &word) {
        let entries = codes.checks[batch.code as usize][check].iter();
        return entries.fold(format!("check {check}"), |line, &p| format!("{line} {p}:{}", word[p]));
    }
    if batch.code == 3 {
        let block = packed(&word[..ldpc::K]).try_into().unwrap();
        let carried = crc::ft8_extract_crc(&block);
        let computed = crc::ft8_extract_crc(&checksummed(&block));
        if carried != computed {
            return format!("checksum {carried:04x} {computed:04x}");
        }
    }
    "clean".to_string()
}

fn line(codes: &Codes, s: &[u8]) -> String {
    if s.len() < 2 {
        return "refused 13\n".to_string();
    }
    let place = u16::from_le_bytes([s[0], s[1]]) as usize;
    match Batch::read(codes, &s[2..]) {
        Err(number) => format!("refused {number}\n"),
        Ok(batch) if place >= batch.pairs.len() => "refused 19\n".to_string(),
        Ok(batch) => reason(codes, &batch, batch.frame(place)) + "\n",
    }
}

// ---- inputs

fn asking(place: u16, batch: &[u8]) -> Vec<u8> {
    [&place.to_le_bytes(), batch].concat()
}

// The rules that a code has.
fn rules(code: u8) -> &'static [u8] {
    if code == 3 { &[0, 3, 4] } else { &[0, 1, 2, 3] }
}

// Cut places, and a place with no batch; refused batches asked about a place that they have, or would have, and about one past every pair: 19 comes last.
fn refused_inputs_asked(all: &mut Vec<Vec<u8>>) {
    all.extend([vec![], vec![0], vec![7], vec![0, 0], vec![255, 255]]);
    let mut refused = vec![];
    malformed_inputs(&mut refused);
    refused_inputs(&mut refused);
    faulty_twice(&mut refused);
    for batch in refused.iter().filter(|batch| batch.len() < 8000) {
        all.push(asking(0, batch));
        all.push(asking(65535, batch));
    }
}

// The longest batch, and one byte more.
fn longest_inputs_asked(codes: &Codes, random: &mut Random, all: &mut Vec<Vec<u8>>) {
    let mut batches = vec![];
    longest_inputs(codes, random, &mut batches);
    all.push(asking(23, &batches[0]));
    all.push(asking(24, &batches[0]));
    all.push(asking(0, &batches[1]));
}

// Places at and past the number of pairs, and the two bytes of a place in their order.
fn place_inputs(codes: &Codes, random: &mut Random, all: &mut Vec<Vec<u8>>) {
    for place in [0, 1, 65535] {
        all.push(asking(place, &Input::new(0, 0, 5).bytes()));
    }
    let one = Input::new(3, 0, 5).frame(&exact(&sent(codes, 3, random))).bytes();
    for place in [0, 1, 2, 255, 256, 65535] {
        all.push(asking(place, &one));
    }
    let mut most = Input::new(3, 4, 3);
    for j in 0..24 {
        let noise = [0.3, 0.8][j % 2];
        most = most.values(&[9.0]).frame(&received(&sent(codes, 3, random), noise, random));
    }
    for place in [0, 1, 11, 23, 24, 25, 256, 279, 65535] {
        all.push(asking(place, &most.bytes()));
    }
}

// Each code and rule: a frame that is clean at once; one with a NaN; one that is after some rounds, where there is one (rule 0 of code 3 corrects next to
// nothing); and under several limits one that stays open, whose chosen word differs from the initial one in the check that is named.
fn decoded_inputs(codes: &Codes, random: &mut Random, all: &mut Vec<Vec<u8>>) {
    for code in 0..4 {
        for &rule in rules(code) {
            let ask = |limit: u16, llr: &[f32]| asking(0, &Input::new(code, rule, limit).scale(0.8f32.to_bits()).frame(llr).bytes());
            let decode = |limit: u16, llr: &[f32]| codes.decode(code, rule, 0.8, limit, llr);
            let word = sent(codes, code, random);
            all.push(ask(4, &exact(&word)));
            let mut spoilt = exact(&word);
            spoilt[random.word() as usize % word.len()] = f32::NAN;
            all.push(ask(4, &spoilt));
            let mended = |llr: &Vec<f32>| decode(0, llr).1 > 0 && decode(20, llr).1 == 0;
            let frame = (0..2000).map(|_| received(&word, 0.55, random)).find(mended);
            assert!(frame.is_some() || (code, rule) == (3, 0));
            all.extend(frame.map(|llr| ask(20, &llr)));
            for limit in [0, 1, 5, 30] {
                let moved = |llr: &Vec<f32>| {
                    let (initial, chosen) = (decode(0, llr).0, decode(limit, llr).0);
                    let differs = |check: usize| codes.checks[code as usize][check].iter().any(|&p| chosen[p] != initial[p]);
                    codes.first(code, &chosen).is_some_and(|check| limit == 0 || differs(check))
                };
                let frame = (0..5000).map(|_| received(&word, 0.75, random)).find(moved);
                all.push(ask(limit, &frame.unwrap()));
            }
        }
    }
}

// NaN at the first position, the last and one between, the lowest of two, by several patterns, in words that are open and in words that are clean; in a
// neighbour or in a gap alone, where it is no reason.
fn nan_inputs(codes: &Codes, random: &mut Random, all: &mut Vec<Vec<u8>>) {
    for code in 0..4 {
        let n = codes.n(code);
        let clean = exact(&sent(codes, code, random));
        for (places, bits) in [
            (vec![0], 0x7FC0_0000u32),
            (vec![n - 1], 0xFFFF_FFFF),
            (vec![n / 2], 0x7F80_0001),
            (vec![n / 3, n / 3 + 5], 0xFFC0_0000),
            ((0..n).collect(), 0x7FC0_0000),
        ] {
            let mut spoilt = clean.clone();
            places.iter().for_each(|&p| spoilt[p] = f32::from_bits(bits));
            all.push(asking(0, &Input::new(code, 0, 2).frame(&spoilt).bytes()));
            spoilt[(places[0] + 1) % n] = -spoilt[(places[0] + 1) % n];
            all.push(asking(0, &Input::new(code, 3, 0).frame(&spoilt).bytes()));
        }
        let mut spoilt = clean.clone();
        spoilt[1] = f32::NAN;
        let gap = [f32::NAN];
        let beside = Input::new(code, 0, 2).values(&gap).frame(&clean).values(&gap).frame(&spoilt).values(&gap);
        for place in 0..2 {
            all.push(asking(place, &beside.bytes()));
        }
        let mut infinite = clean.clone();
        infinite[0] = f32::INFINITY.copysign(clean[0]);
        all.push(asking(0, &Input::new(code, 0, 2).frame(&infinite).bytes()));
    }
}

// The positions from K on whose bits, flipped in a codeword, leave one check unsatisfied and no other: by elimination over the parity columns.
fn flips(checks: &[Vec<usize>], k: usize, check: usize) -> Vec<usize> {
    let m = checks.len();
    let mut rows: Vec<Vec<bool>> = (0..m)
        .map(|r| (0..m).map(|j| checks[r].contains(&(k + j))).chain([r == check]).collect())
        .collect();
    for j in 0..m {
        let pivot = (j..m).find(|&r| rows[r][j]).unwrap();
        rows.swap(j, pivot);
        let row = rows[j].clone();
        for r in (0..m).filter(|&r| r != j) {
            if rows[r][j] {
                rows[r].iter_mut().zip(&row).for_each(|(a, b)| *a ^= b);
            }
        }
    }
    (0..m).filter(|&j| rows[j][m]).map(|j| k + j).collect()
}

// One check alone unsatisfied: check 0, which has one entry fewer in a staircase code, the last one, and some between; of code 3 each, of 6 and of 7 entries.
fn check_inputs(codes: &Codes, random: &mut Random, all: &mut Vec<Vec<u8>>) {
    for code in 0..4 {
        let checks = &codes.checks[code as usize];
        let m = checks.len();
        let chosen = if code == 3 { (0..m).collect() } else { vec![0, 1, 2, m / 3, m / 2, m - 2, m - 1] };
        for check in chosen {
            let mut word = codeword(codes, code, random);
            flips(checks, codes.k(code), check).into_iter().for_each(|p| word[p] ^= 1);
            all.push(asking(0, &Input::new(code, 0, 0).frame(&exact(&word)).bytes()));
        }
        for values in [vec![-1.0; codes.n(code)], vec![-0.0; codes.n(code)], vec![0.0; codes.n(code)]] {
            all.push(asking(0, &Input::new(code, 0, 0).frame(&values).bytes()));
            all.push(asking(0, &Input::new(code, 0, 3).frame(&values).bytes()));
        }
    }
}

// (174,91): the right checksum; each of its 14 bits wrong; some payload bits wrong; the word of zeros; by each rule.
fn checksum_inputs(random: &mut Random, all: &mut Vec<Vec<u8>>) {
    let right = checksummed(&block(random));
    for (turn, bit) in (77..91).chain([0, 1, 40, 76]).enumerate() {
        let mut wrong = right;
        wrong[bit / 8] ^= 0x80 >> (bit % 8);
        let rule = rules(3)[turn % 3];
        all.push(asking(0, &Input::new(3, rule, 2).frame(&exact(&encoded(&wrong))).bytes()));
    }
    for word in [encoded(&right), vec![0; ldpc::N]] {
        all.push(asking(0, &Input::new(3, 0, 0).frame(&exact(&word)).bytes()));
    }
    // NaN before the checksum, and a check before it
    let mut wrong = right;
    wrong[10] ^= 1;
    let mut llr = exact(&encoded(&wrong));
    llr[100] = f32::NAN;
    all.push(asking(0, &Input::new(3, 0, 0).frame(&llr).bytes()));
    llr[100] = -exact(&encoded(&wrong))[100];
    all.push(asking(0, &Input::new(3, 0, 0).frame(&llr).bytes()));
}

fn main() {
    let codes = Codes::new();
    let random = &mut Random(0x2545_F491_4F6C_DD1D);
    let sample = asking(4, &fs::read("samples/code0.bin").unwrap());
    fs::create_dir_all("crates/batchwhy").unwrap();
    fs::write("crates/batchwhy/stdin", &sample).unwrap();
    fs::write("crates/batchwhy/stdout", line(&codes, &sample)).unwrap();
    let mut all = vec![];
    for code in 0..4 {
        let batch = fs::read(format!("samples/code{code}.bin")).unwrap();
        all.extend((0..6).map(|place| asking(place, &batch)));
    }
    refused_inputs_asked(&mut all);
    longest_inputs_asked(&codes, random, &mut all);
    place_inputs(&codes, random, &mut all);
    decoded_inputs(&codes, random, &mut all);
    nan_inputs(&codes, random, &mut all);
    check_inputs(&codes, random, &mut all);
    checksum_inputs(random, &mut all);
    store("crates/why_replay", &all, |s| line(&codes, s));
}
