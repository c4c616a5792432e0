//! Each call, the port and the original Rust side by side on the same inputs: best of many, in microseconds a call.
//! Run by `cargo run --release --example bench` in rust/, with the original sources found as build.rs says. A word after
//! `--` limits the table to the rows whose name has it. A row of 1 frame takes 24 frames in turn, one a call; a row of 24
//! frames is one batch of the port and 24 calls of the Rust. Each row has a bar, the ratio that it may not pass; the last
//! line says how many rows miss theirs, and the run fails if one does.
#[path = "../tests/common/mod.rs"]
mod common;

#[cfg(not(orion))]
fn main() {
    eprintln!("the original sources are not there: set ORION_SRC to their folder");
}

#[cfg(orion)]
mod orion {
    include!(concat!(env!("OUT_DIR"), "/orion.rs"));
}

#[cfg(orion)]
fn main() -> std::process::ExitCode {
    if compared::run() {
        std::process::ExitCode::SUCCESS
    } else {
        std::process::ExitCode::FAILURE
    }
}

#[cfg(orion)]
mod compared {
    use crate::common::{noisy, Random};
    use crate::orion;
    use desklink::{Batch, Code, DecodeRule, Ldpc, LdpcCode};
    use std::hint::black_box;
    use std::time::Instant;

    const SAMPLES: usize = 25;
    const SAMPLE_SECONDS: f64 = 0.002;

    /// The most that a row's ratio may be. A quarter where rounds are run; half for encoding and counting by a staircase
    /// code, and a little more for a frame of one that needs no round; elsewhere the Rust's own time, but for a call of
    /// 4 ns.
    fn bar(name: &str) -> f64 {
        let staircase = name.starts_with("N5");
        if name.contains("rounds") || name.contains("never") {
            0.25
        } else if name.contains("at once") {
            if staircase {
                0.6
            } else {
                1.0
            }
        } else if staircase {
            0.5
        } else if name.starts_with("ft8_extract_crc") {
            f64::INFINITY
        } else {
            1.0
        }
    }

    fn seconds(call: &mut dyn FnMut(), times: usize) -> f64 {
        let start = Instant::now();
        for _ in 0..times {
            call();
        }
        start.elapsed().as_secs_f64()
    }

    /// Whether the row is asked for.
    fn asked(name: &str) -> bool {
        std::env::args().nth(1).is_none_or(|word| name.contains(&word))
    }

    /// The rows printed, and those of them that miss their bar.
    #[derive(Default)]
    struct Table {
        rows: usize,
        missed: usize,
    }

    impl Table {
        /// One row: both sides by turns, the best sample of each.
        fn row(&mut self, name: &str, port: &mut dyn FnMut(), original: &mut dyn FnMut()) {
            if !asked(name) {
                return;
            }
            let mut best = [f64::MAX; 2];
            let mut times = [1, 1];
            let mut sides: [&mut dyn FnMut(); 2] = [port, original];
            for (call, times) in sides.iter_mut().zip(&mut times) {
                let once = seconds(*call, 3) / 3.0;
                *times = ((SAMPLE_SECONDS / once) as usize).clamp(1, 1_000_000);
            }
            for _ in 0..SAMPLES {
                for side in 0..2 {
                    best[side] = best[side].min(seconds(sides[side], times[side]) / times[side] as f64);
                }
            }
            let [port, original] = best.map(|s| s * 1e6);
            let ratio = port / original;
            let missed = ratio > bar(name);
            self.rows += 1;
            self.missed += missed as usize;
            println!("| {name} | {port:.3} | {original:.3} | {ratio:.2}{} |", if missed { ", over its bar" } else { "" });
        }

        /// 24 frames: one batch of the port, and 24 calls of the original.
        fn batch_row<T: AsRef<[f32]>>(&mut self, name: &str, (code, rule): (Code, DecodeRule), frames: &[T], original: &mut dyn FnMut()) {
            let values: Vec<f32> = frames.iter().flat_map(|f| f.as_ref().to_vec()).collect();
            let pairs: Vec<[u32; 2]> = (0..frames.len()).map(|j| [(j * code.n()) as u32, code.n() as u32]).collect();
            let mut bits = vec![0; frames.len() * code.k()];
            let [mut counts, mut rounds, mut firsts] = [0; 3].map(|n| vec![n; frames.len()]);
            let mut port = || {
                let batch = Batch {
                    code,
                    rule,
                    limit: LIMIT,
                    values: black_box(&values),
                    pairs: &pairs,
                    bits: &mut bits,
                    counts: &mut counts,
                    rounds: &mut rounds,
                    firsts: &mut firsts,
                };
                batch.decode().unwrap();
            };
            self.row(name, &mut port, original);
        }
    }

    const LIMIT: u16 = 20;

    /// The kinds of frames: 24 of each that the original Rust decodes with no round, with 2 to 8 rounds, and not at all.
    const KINDS: [&str; 3] = ["at once", "2 to 8 rounds", "never"];

    /// The least rounds of the kind, and the rounds by which it is decoded; the third kind is not decoded by the limit.
    fn is_of_kind(kind: usize, count: &mut dyn FnMut(&[f32], u16) -> usize, llr: &[f32]) -> bool {
        match kind {
            0 => count(llr, 0) == 0,
            1 => count(llr, 1) > 0 && count(llr, 8) == 0,
            _ => count(llr, LIMIT) > 0,
        }
    }

    fn frames(random: &mut Random, kind: usize, word: &mut dyn FnMut(&mut Random) -> Vec<u8>, count: &mut dyn FnMut(&[f32], u16) -> usize) -> Vec<Vec<f32>> {
        let mut found = Vec::new();
        while found.len() < 24 {
            let word = word(random);
            let sigma = [0.0, 0.3 + 0.6 * random.unit(), 3.0][kind];
            let mut llr = noisy(random, &word, sigma);
            llr.iter_mut().for_each(|v| *v *= 0.5);
            if is_of_kind(kind, count, &llr) {
                found.push(llr);
            }
        }
        found
    }

    fn ft8_word(random: &mut Random) -> Vec<u8> {
        let mut message: [u8; 12] = random.bytes(12).try_into().unwrap();
        message[11] &= 0xE0;
        let mut packed = [0; 22];
        orion::ldpc::ldpc_encode(&message, &mut packed);
        (0..174).map(|i| packed[i / 8] >> (7 - i % 8) & 1).collect()
    }

    fn checksum(table: &mut Table, random: &mut Random) {
        let block: [u8; 12] = random.bytes(12).try_into().unwrap();
        let payload: [u8; 10] = random.bytes(10).try_into().unwrap();
        let (mut a, mut b) = ([0; 12], [0; 12]);
        table.row("ft8_crc14, 82 bits", &mut || _ = black_box(desklink::ft8_crc14(black_box(&block), 82)), &mut || {
            _ = black_box(orion::crc::ft8_crc14(black_box(&block), 82))
        });
        table.row("ft8_add_crc", &mut || desklink::ft8_add_crc(black_box(&payload), black_box(&mut a)), &mut || {
            orion::crc::ft8_add_crc(black_box(&payload), black_box(&mut b))
        });
        table.row("ft8_extract_crc", &mut || _ = black_box(desklink::ft8_extract_crc(black_box(&block))), &mut || {
            _ = black_box(orion::crc::ft8_extract_crc(black_box(&block)))
        });
    }

    fn ft8(table: &mut Table, random: &mut Random) {
        let mut message: [u8; 12] = random.bytes(12).try_into().unwrap();
        message[11] &= 0xE0;
        let (mut a, mut b) = ([0; 22], [0; 22]);
        table.row("ldpc_encode", &mut || desklink::ldpc_encode(black_box(&message), black_box(&mut a)).unwrap(), &mut || {
            orion::ldpc::ldpc_encode(black_box(&message), black_box(&mut b))
        });
        let hard: [u8; 174] = random.bits(174).try_into().unwrap();
        table.row("ldpc_count_errors", &mut || _ = black_box(desklink::ldpc_count_errors(black_box(&hard))), &mut || {
            _ = black_box(orion::ldpc::ldpc_count_errors(black_box(&hard)))
        });
        for (kind, what) in KINDS.iter().enumerate() {
            let names = ["1 frame", "24 frames"].map(|frames| format!("ldpc_decode_soft, {what}, {frames}"));
            if !names.iter().any(|name| asked(name)) {
                continue;
            }
            let mut count = |llr: &[f32], limit: u16| orion::ldpc::ldpc_decode_soft(llr.try_into().unwrap(), limit.into(), &mut [0; 174]);
            let frames: Vec<[f32; 174]> = frames(random, kind, &mut ft8_word, &mut count).into_iter().map(|f| f.try_into().unwrap()).collect();
            let (mut a, mut b) = ([0; 174], [0; 174]);
            let (mut i, mut j) = (0, 0);
            table.row(
                &names[0],
                &mut || {
                    i = (i + 1) % 24;
                    black_box(desklink::ldpc_decode_soft(black_box(&frames[i]), LIMIT, &mut a));
                },
                &mut || {
                    j = (j + 1) % 24;
                    black_box(orion::ldpc::ldpc_decode_soft(black_box(&frames[j]), LIMIT.into(), &mut b));
                },
            );
            table.batch_row(&names[1], (Code::Ft8, DecodeRule::SumProduct), &frames, &mut || {
                for f in &frames {
                    black_box(orion::ldpc::ldpc_decode_soft(black_box(f), LIMIT.into(), &mut b));
                }
            });
        }
    }

    fn staircase(table: &mut Table, random: &mut Random, code: LdpcCode, theirs: orion::ldpc_codes::LdpcCode) {
        let (port, original) = (Ldpc::new(code), orion::ldpc_codes::Ldpc::new(theirs));
        let message = random.bits(code.k());
        table.row(&format!("{code:?} encode"), &mut || drop(black_box(port.encode(black_box(&message)))), &mut || {
            drop(black_box(original.encode(black_box(&message))))
        });
        let hard = random.bits(code.n());
        table.row(&format!("{code:?} syndrome_weight"), &mut || _ = black_box(port.syndrome_weight(black_box(&hard))), &mut || {
            _ = black_box(original.syndrome_weight(black_box(&hard)))
        });
        let rules = [
            ("sum-product", DecodeRule::SumProduct, orion::ldpc_codes::DecodeRule::SumProduct),
            ("min-sum", DecodeRule::MinSum, orion::ldpc_codes::DecodeRule::MinSum),
            ("scaled min-sum", DecodeRule::ScaledMinSum(0.75), orion::ldpc_codes::DecodeRule::ScaledMinSum(0.75)),
        ];
        for (rule, ours, theirs) in rules {
            for (kind, what) in KINDS.iter().enumerate() {
                let names = ["1 frame", "24 frames"].map(|frames| format!("{code:?} {rule}, {what}, {frames}"));
                if !names.iter().any(|name| asked(name)) {
                    continue;
                }
                let mut word = |r: &mut Random| original.encode(&r.bits(code.k()));
                let mut count = |llr: &[f32], limit: u16| original.decode_soft_with(llr, limit.into(), theirs).1;
                let frames = frames(random, kind, &mut word, &mut count);
                let (mut i, mut j) = (0, 0);
                table.row(
                    &names[0],
                    &mut || {
                        i = (i + 1) % 24;
                        drop(black_box(port.decode_soft_with(black_box(&frames[i]), LIMIT, ours)));
                    },
                    &mut || {
                        j = (j + 1) % 24;
                        drop(black_box(original.decode_soft_with(black_box(&frames[j]), LIMIT.into(), theirs)));
                    },
                );
                table.batch_row(&names[1], (code.into(), ours), &frames, &mut || {
                    for f in &frames {
                        drop(black_box(original.decode_soft_with(black_box(f), LIMIT.into(), theirs)));
                    }
                });
            }
        }
    }

    /// The whole table; whether each row keeps its bar.
    pub fn run() -> bool {
        let table = &mut Table::default();
        let random = &mut Random(42);
        println!("| Call | port, µs | Rust, µs | ratio |\n|---|---|---|---|");
        checksum(table, random);
        ft8(table, random);
        staircase(table, random, LdpcCode::N512R12, orion::ldpc_codes::LdpcCode::N512R12);
        staircase(table, random, LdpcCode::N576R23, orion::ldpc_codes::LdpcCode::N576R23);
        staircase(table, random, LdpcCode::N512R34, orion::ldpc_codes::LdpcCode::N512R34);
        table.row("Ldpc::new, N512R12", &mut || _ = black_box(Ldpc::new(black_box(LdpcCode::N512R12))), &mut || {
            drop(black_box(orion::ldpc_codes::Ldpc::new(black_box(orion::ldpc_codes::LdpcCode::N512R12))))
        });
        println!("{} of {} rows miss their bar", table.missed, table.rows);
        table.missed == 0
    }
}
