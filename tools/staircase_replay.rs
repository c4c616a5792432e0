// Writes what crates/staircase_replay is run on: its stdin, words of 576 bytes, and its stdout, what the Rust's ldpc_codes.rs answers.
// Built with ORION_SRC naming a folder that holds ldpc_codes.rs; run with the crate's folder as its argument:
//
//     ORION_SRC=folder rustc --edition 2021 -O tools/staircase_replay.rs -o target/staircase_replay && target/staircase_replay crates/staircase_replay
//
// All numbers are hexadecimal: first each code's msg_col_rows (with 0000, the relaxed picks, which the Rust does not count), then each code's
// check_bits with their starts, then for each code the message positions of each check and the places of each message bit's edges by slots: entry j of
// check c lies at place j * M + c. Then for each word the codewords of its first K bytes and its syndrome weights, each with the first check
// that it counts, code by code.
#![allow(dead_code)]
include!(concat!(env!("ORION_SRC"), "/ldpc_codes.rs"));

const CODES: [LdpcCode; 3] = [LdpcCode::N512R12, LdpcCode::N576R23, LdpcCode::N512R34];
const BYTES: usize = 576;

fn table(entries: impl Iterator<Item = usize>) -> String {
    entries.map(|x| format!("{x:04x}")).collect::<String>() + "\n"
}

// Where each list starts, and the end of the last.
fn starts(lists: &[Vec<usize>]) -> Vec<usize> {
    let mut all = vec![0];
    for list in lists {
        all.push(all[all.len() - 1] + list.len());
    }
    all
}

fn tables(codes: &[Ldpc]) -> String {
    let mut text = String::new();
    for c in codes {
        text += &table(c.msg_col_rows.iter().flatten().copied());
        text += "0000";
    }
    for c in codes {
        text += &table(starts(&c.check_bits).into_iter());
        text += &table(c.check_bits.iter().flatten().copied());
    }
    for c in codes {
        text += &table(c.check_bits.iter().flat_map(|check| check.iter().copied().filter(|&p| p < c.k)));
        text += &table((0..c.k).flat_map(|b| {
            let at: Vec<usize> = c.bit_checks[b]
                .iter()
                .zip(&c.bit_check_edge_idx[b])
                .map(|(&check, &i)| i * c.m + check)
                .collect();
            at
        }));
    }
    text
}

// Zeros, ones, twos, a single bit or the byte 2 at some places, 0xFF and 0xFE, codewords, and random bits and bytes of a fixed xorshift sequence.
fn words(codes: &[Ldpc]) -> Vec<Vec<u8>> {
    let mut all: Vec<Vec<u8>> = [0u8, 1, 2, 0xFE, 0xFF].iter().map(|&b| vec![b; BYTES]).collect();
    for place in [0, 1, 255, 256, 257, 383, 384, 385, 511, 512, 575] {
        for byte in [1, 2, 3] {
            let mut one = vec![0u8; BYTES];
            one[place] = byte;
            all.push(one);
        }
    }
    let mut state: u64 = 0x9E37_79B9_7F4A_7C15;
    for mask in [1u8, 0xFF] {
        for _ in 0..12 {
            let random: Vec<u8> = (0..BYTES)
                .map(|_| {
                    state ^= state << 13;
                    state ^= state >> 7;
                    state ^= state << 17;
                    (state >> 32) as u8 & mask
                })
                .collect();
            for c in codes {
                let mut codeword = c.encode(&random[..c.k]);
                codeword.resize(BYTES, 7);
                all.push(codeword);
            }
            all.push(random);
        }
    }
    all
}

fn hex(bytes: &[u8]) -> String {
    bytes.iter().map(|b| format!("{b:02x}")).collect::<String>() + "\n"
}

// The lowest check whose low bits' XOR is not zero, as the Rust's weight forms it.
fn first(c: &Ldpc, word: &[u8]) -> Option<usize> {
    c.check_bits.iter().position(|bits| bits.iter().fold(0, |x, &b| x ^ word[b] & 1) != 0)
}

fn main() {
    let folder = std::env::args().nth(1).expect("the folder of the crate");
    let codes: Vec<Ldpc> = CODES.iter().map(|&c| Ldpc::new(c)).collect();
    let mut stdin = Vec::new();
    let mut stdout = tables(&codes);
    for word in words(&codes) {
        for c in &codes {
            stdout += &hex(&c.encode(&word[..c.k]));
        }
        for c in &codes {
            stdout += &format!("{:04x}", c.syndrome_weight(&word));
            stdout += &first(c, &word).map_or("----".to_string(), |check| format!("{check:04x}"));
        }
        stdout += "\n";
        stdin.extend(&word);
    }
    std::fs::write(format!("{folder}/stdin"), stdin).unwrap();
    std::fs::write(format!("{folder}/stdout"), stdout).unwrap();
}
