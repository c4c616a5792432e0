// Writes what crates/ldpc_replay is run on: its stdin, 300 messages of 12 bytes and then words of 174 bytes, and its stdout, what the Rust's
// ldpc.rs answers: its tables NM, NUM_ROWS and MN entry by entry, a codeword for each message, and for each word a count and the
// first check that it includes, in hexadecimal.
// Built with ORION_SRC naming a folder that holds ldpc.rs; run with the crate's folder as its argument (tools/README.md).
#[allow(dead_code)]
mod ldpc {
    include!(concat!(env!("ORION_SRC"), "/ldpc.rs"));

    pub fn tables() -> [Vec<u8>; 3] {
        [NM.concat(), NUM_ROWS.to_vec(), MN.concat()]
    }

    // The lowest check whose bytes' XOR is not zero, as the Rust's count forms it.
    pub fn first(word: &[u8; N]) -> Option<usize> {
        let odd = |check: &usize| (0..NUM_ROWS[*check] as usize).fold(0, |x, i| x ^ word[NM[*check][i] as usize - 1]) != 0;
        (0..M).find(odd)
    }
}

use std::fmt::Write;

const MESSAGES: usize = 300;

struct Random(u64);

impl Random {
    fn byte(&mut self) -> u8 {
        self.0 ^= self.0 << 13;
        self.0 ^= self.0 >> 7;
        self.0 ^= self.0 << 17;
        (self.0 >> 32) as u8
    }

    fn below(&mut self, n: usize) -> usize {
        (self.byte() as usize * 256 + self.byte() as usize) % n
    }
}

// All zero, all ones, a single bit at each of the 91 places, and random messages; the five bits past the 91st are zero.
fn messages(random: &mut Random) -> Vec<[u8; 12]> {
    let mut all = vec![[0u8; 12], [0xFF; 12]];
    for place in 0..91 {
        let mut one = [0u8; 12];
        one[place / 8] = 0x80 >> (place % 8);
        all.push(one);
    }
    while all.len() < MESSAGES {
        all.push(std::array::from_fn(|_| random.byte()));
    }
    for message in all.iter_mut() {
        message[11] &= 0xE0;
    }
    all
}

fn codeword(message: &[u8; 12]) -> [u8; 22] {
    let mut bytes = [0xFFu8; 22];
    ldpc::ldpc_encode(message, &mut bytes);
    bytes
}

fn bits(bytes: &[u8; 22]) -> [u8; 174] {
    std::array::from_fn(|i| bytes[i / 8] >> (7 - i % 8) & 1)
}

// Codewords, each with none to five bits flipped; all ones; a single byte of each value from 1 to 255; random bytes of all 256 values, of the
// values 0 to 3, and few among zeros.
fn words(messages: &[[u8; 12]], random: &mut Random) -> Vec<[u8; 174]> {
    let mut all = Vec::new();
    for message in messages.iter().step_by(10) {
        let mut word = bits(&codeword(message));
        all.push(word);
        let mut flipped = Vec::new();
        while flipped.len() < 5 {
            let place = random.below(174);
            if !flipped.contains(&place) {
                flipped.push(place);
                word[place] ^= 1;
                all.push(word);
            }
        }
    }
    all.push([1; 174]);
    for value in 1..=255u8 {
        let mut word = [0u8; 174];
        word[value as usize % 174] = value;
        all.push(word);
    }
    for _ in 0..40 {
        all.push(std::array::from_fn(|_| random.byte()));
    }
    for _ in 0..40 {
        all.push(std::array::from_fn(|_| random.byte() % 4));
    }
    for n in 0..40 {
        let mut word = [0u8; 174];
        for _ in 0..n {
            word[random.below(174)] = random.byte();
        }
        all.push(word);
    }
    all
}

fn hex(bytes: &[u8]) -> String {
    let mut line = String::new();
    for byte in bytes {
        write!(line, "{:02x}", byte).unwrap();
    }
    line.push('\n');
    line
}

fn main() {
    let folder = std::env::args().nth(1).expect("the crate's folder");
    let mut random = Random(0x9E37_79B9_7F4A_7C15);
    let messages = messages(&mut random);
    let words = words(&messages, &mut random);
    let mut stdout = String::new();
    for table in ldpc::tables() {
        stdout += &hex(&table);
    }
    for message in &messages {
        stdout += &hex(&codeword(message));
    }
    for word in &words {
        let first = ldpc::first(word).map_or("--".to_string(), |check| format!("{check:02x}"));
        writeln!(stdout, "{:02x}{first}", ldpc::ldpc_count_errors(word)).unwrap();
    }
    std::fs::write(format!("{folder}/stdin"), [messages.concat(), words.concat()].concat()).unwrap();
    std::fs::write(format!("{folder}/stdout"), stdout).unwrap();
}
