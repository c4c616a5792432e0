// Writes what crates/crc_replay is run on: its stdin, messages of 25 bytes, and its stdout, what the Rust's crc.rs answers for them.
// Built with ORION_SRC naming a folder that holds crc.rs; run with the crate's folder as its argument (tools/README.md).
// For each message one line: the checksum of every bit count from 0 to 200, then the block of the first 10 bytes, then the
// checksum that the first 12 bytes carry, all in hexadecimal.
#[allow(dead_code)]
mod crc {
    include!(concat!(env!("ORION_SRC"), "/crc.rs"));
}

use std::fmt::Write;

const BYTES: usize = 25;

// All zero, all ones, a single bit at each place, and 30 messages of a fixed xorshift sequence.
fn messages() -> Vec<[u8; BYTES]> {
    let mut all = vec![[0u8; BYTES], [0xFF; BYTES]];
    for place in 0..8 * BYTES {
        let mut one = [0u8; BYTES];
        one[place / 8] = 0x80 >> (place % 8);
        all.push(one);
    }
    let mut state: u64 = 0x9E37_79B9_7F4A_7C15;
    for _ in 0..30 {
        let mut random = [0u8; BYTES];
        for byte in random.iter_mut() {
            state ^= state << 13;
            state ^= state >> 7;
            state ^= state << 17;
            *byte = (state >> 32) as u8;
        }
        all.push(random);
    }
    all
}

fn answers(message: &[u8; BYTES]) -> String {
    let mut line = String::new();
    for bits in 0..=8 * BYTES {
        write!(line, "{:04x}", crc::ft8_crc14(message, bits)).unwrap();
    }
    let payload: [u8; 10] = message[..10].try_into().unwrap();
    let mut block = [0xFFu8; 12];
    crc::ft8_add_crc(&payload, &mut block);
    line.push(' ');
    for byte in block {
        write!(line, "{:02x}", byte).unwrap();
    }
    let whole: [u8; 12] = message[..12].try_into().unwrap();
    writeln!(line, " {:04x}", crc::ft8_extract_crc(&whole)).unwrap();
    line
}

fn main() {
    let folder = std::env::args().nth(1).expect("the crate's folder");
    let all = messages();
    std::fs::write(format!("{folder}/stdin"), all.concat()).unwrap();
    std::fs::write(format!("{folder}/stdout"), all.iter().map(answers).collect::<String>()).unwrap();
}
