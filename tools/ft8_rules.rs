// Prints how many noisy (174,91) frames rule 0 and rule 4 decode to the word sent: the figures of docs/DIFFERENCES.md. Rule 0 is the original's
// ldpc_decode_soft, rule 4 the account of it in rust/tests/original/ldpc.rs; the port has no part in it. Built with ORION_SRC naming a folder that
// holds crc.rs and ldpc.rs (tools/README.md).
#[allow(dead_code)]
mod crc {
    include!(concat!(env!("ORION_SRC"), "/crc.rs"));
}
#[allow(dead_code)]
mod ldpc {
    include!(concat!(env!("ORION_SRC"), "/ldpc.rs"));
    include!("../rust/tests/original/ldpc.rs");
}
#[allow(dead_code)]
#[path = "../rust/tests/common/mod.rs"]
mod common;

use common::{noisy, Random};

const FRAMES: usize = 300;
const ROUNDS: usize = 20;

type Decoder = fn(&[f32; 174], usize, &mut [u8; 174]) -> usize;

// The word of a random payload with its checksum, one bit a byte.
fn word(random: &mut Random) -> Vec<u8> {
    let (mut block, mut codeword) = ([0; 12], [0; 22]);
    crc::ft8_add_crc(&random.bytes(10).try_into().unwrap(), &mut block);
    ldpc::ldpc_encode(&block, &mut codeword);
    (0..174).map(|i| codeword[i / 8] >> (7 - i % 8) & 1).collect()
}

fn found(decoder: Decoder, sent: &[u8], values: &[f32]) -> bool {
    let mut plain = [0; 174];
    decoder(values.try_into().unwrap(), ROUNDS, &mut plain);
    plain == sent
}

// Of the frames that `spoilt` makes of words sent, how many each rule decodes to the word sent.
fn row(what: &str, mut spoilt: impl FnMut(&mut Random, &[u8]) -> Vec<f32>) {
    let random = &mut Random(0x46_5438);
    let mut right = [0; 2];
    for _ in 0..FRAMES {
        let sent = word(random);
        let values = spoilt(random, &sent);
        for (n, decoder) in [ldpc::ldpc_decode_soft as Decoder, ldpc::decode_rule_4].into_iter().enumerate() {
            right[n] += usize::from(found(decoder, &sent, &values));
        }
    }
    println!("| {what} | {} | {} |", right[0], right[1]);
}

fn main() {
    println!("| {FRAMES} frames, {ROUNDS} rounds | rule 0 | rule 4 |\n|---|---|---|");
    for tenths in 4..=8 {
        let sigma = f64::from(tenths) / 10.0;
        row(&format!("Gaussian noise, sigma {sigma}"), |random, sent| noisy(random, sent, sigma));
    }
    row("values 4.0 and -4.0, one sign turned", |random, sent| {
        let mut values: Vec<f32> = sent.iter().map(|&bit| if bit == 0 { 4.0 } else { -4.0 }).collect();
        let at = random.below(174);
        values[at] = -values[at];
        values
    });
}
