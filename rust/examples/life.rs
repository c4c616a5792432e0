//! The whole life of a few frames: message, encoding, noise, a batch decode, and what to do with a frame that is open.
//!
//! `cargo run --example life`, in `rust/`, prints `examples/life.txt`; `examples/life.c` is the same in C.
use desklink::{decode_frames, frame_reason, ft8_add_crc, ldpc_encode, pack_bits, unpack_bits, Code, DecodeRule, Ldpc, LdpcCode, Reason, Refusal};

const ROUNDS: u16 = 5;
const MORE_ROUNDS: u16 = 50;

/// About normal noise: twelve numbers from 0 to 1 added up, less six. The seed is fixed, so that every run is the same.
fn noise(seed: &mut u32) -> f32 {
    let mut sum = -6.0;
    for _ in 0..12 {
        *seed ^= *seed << 13;
        *seed ^= *seed >> 17;
        *seed ^= *seed << 5;
        sum += (*seed >> 8) as f32 / 16_777_216.0;
    }
    sum
}

/// What a receiver hands on of a word: 2/sigma² times what it hears, positive where 0 is likelier.
fn receive(word: &[u8], sigma: f32, mut seed: u32) -> Vec<f32> {
    let sent = |&bit: &u8| if bit == 0 { 1.0 } else { -1.0 };
    word.iter().map(|bit| (sent(bit) + sigma * noise(&mut seed)) * (2.0 / (sigma * sigma))).collect()
}

/// A text of up to 32 letters is the message of an N512R12 frame.
fn send_move(text: &str, sigma: f32, seed: u32) -> Result<Vec<f32>, Refusal> {
    let mut letters = [0; 32];
    letters[..text.len()].copy_from_slice(text.as_bytes());
    let word = Ldpc::new(LdpcCode::N512R12).encode(&unpack_bits(&letters, 256)?)?;
    Ok(receive(&word, sigma, seed))
}

/// A text of up to nine letters is the payload of a (174,91) frame. `flipped` is laid over the first letter once the checksum is made: a sender with a
/// fault.
fn send_call(text: &str, flipped: u8, sigma: f32, seed: u32) -> Result<Vec<f32>, Refusal> {
    let (mut payload, mut a91, mut codeword) = ([0; 10], [0; 12], [0; 22]);
    payload[..text.len()].copy_from_slice(text.as_bytes());
    ft8_add_crc(&payload, &mut a91);
    a91[0] ^= flipped;
    ldpc_encode(&a91, &mut codeword)?;
    Ok(receive(&unpack_bits(&codeword, 174)?, sigma, seed))
}

/// The text of a message's bits.
fn text(code: Code, bits: &[u8]) -> String {
    let letters = pack_bits(&bits[..code.k()]);
    let most = if code == Code::Ft8 { 9 } else { 32 };
    letters[..most].iter().take_while(|&&letter| letter != 0).map(|&letter| letter as char).collect()
}

/// What to do with a frame that is open: it depends on why.
fn deal_with(code: Code, values: &[f32]) -> Result<(), Refusal> {
    match frame_reason(code, DecodeRule::default(), ROUNDS, values)?.reason {
        Reason::Clean => {}
        Reason::Nan(position) => println!("  value {position} is NaN: no decode can help, look at the receiver"),
        Reason::Checksum { carried, computed } => println!("  it carries checksum {carried:04x}, its payload has {computed:04x}: drop it"),
        Reason::Check(check) => {
            println!("  check {check} is not satisfied: decode once more, the count cannot rise");
            let again = frame_reason(code, DecodeRule::default(), MORE_ROUNDS, values)?;
            match again.reason {
                Reason::Clean => println!("  clean within {MORE_ROUNDS} rounds: \"{}\"", text(code, &again.word)),
                _ => println!("  open after {MORE_ROUNDS} rounds too: keep what was there, and ask for it again"),
            }
        }
    }
    Ok(())
}

/// Decodes all frames, and takes the message of each that is clean.
fn decode(code: Code, frames: &[Vec<f32>]) -> Result<(), Refusal> {
    let lent: Vec<&[f32]> = frames.iter().map(Vec::as_slice).collect();
    for (place, frame) in decode_frames(code, DecodeRule::default(), ROUNDS, &lent)?.iter().enumerate() {
        print!("{place} count {} rounds {} ", frame.count, frame.rounds);
        if frame.clean {
            println!("clean \"{}\"", text(code, &frame.bits));
        } else {
            println!("open");
            deal_with(code, lent[place])?;
        }
    }
    Ok(())
}

fn main() -> Result<(), Refusal> {
    println!("moves over N512R12, at most {ROUNDS} rounds");
    let moves = [
        send_move("lift r+3 g+1 b-2", 0.4, 11)?,
        send_move("gain r+0 g+2 b+2", 0.7, 12)?,
        send_move("gamma r+1 g+1 b+0", 0.75, 13)?,
        send_move("saturation -4", 1.1, 14)?,
        vec![f32::NAN; 512],
    ];
    decode(LdpcCode::N512R12.into(), &moves)?;

    println!("calls over (174,91), at most {ROUNDS} rounds");
    let calls = [send_call("DESK 3 ON", 0, 0.6, 21)?, send_call("DESK 4 ON", 0x01, 0.4, 22)?];
    decode(Code::Ft8, &calls)
}
