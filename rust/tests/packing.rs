//! Words packed eight bits a byte and taken out again, against an account of its own: every length up to 200 bits, with every length of
//! the other slice.
mod common;

use common::Random;
use desklink::{slices, Refusal};

/// Bit i of packed bytes.
fn bit(bytes: &[u8], i: usize) -> u8 {
    bytes[i / 8] >> (7 - i % 8) & 1
}

#[test]
fn packed() {
    let random = &mut Random(7100);
    for count in 0..200 {
        let word = random.bytes(count);
        for len in 0..30 {
            let before = random.bytes(len);
            let mut bytes = before.clone();
            let answer = slices::pack_bits(&word, &mut bytes);
            if len != count.div_ceil(8) {
                assert_eq!((answer, bytes), (Err(Refusal::OutputLength), before));
                continue;
            }
            assert_eq!(answer, Ok(()));
            assert!((0..8 * len).all(|i| bit(&bytes, i) == word.get(i).map_or(0, |byte| byte & 1)), "{word:?} {bytes:?}");
            assert_eq!(desklink::pack_bits(&word), bytes);
        }
    }
}

#[test]
fn taken_out() {
    let random = &mut Random(7200);
    for len in 0..30 {
        let bytes = random.bytes(len);
        for count in 0..260 {
            let before = random.bytes(count);
            let mut word = before.clone();
            let answer = slices::unpack_bits(&bytes, &mut word);
            assert_eq!(desklink::unpack_bits(&bytes, count), answer.map(|()| word.clone()));
            if count > 8 * len {
                assert_eq!((answer, word), (Err(Refusal::InputLength), before));
                continue;
            }
            assert_eq!(answer, Ok(()));
            assert!((0..count).all(|i| word[i] == bit(&bytes, i)), "{bytes:?} {word:?}");
        }
    }
    assert_eq!(desklink::unpack_bits(&[0; 4], usize::MAX), Err(Refusal::InputLength));
}

/// A (174,91) message and its codeword, there and back.
#[test]
fn there_and_back() {
    let random = &mut Random(7300);
    for _ in 0..1000 {
        let message: [u8; 91] = std::array::from_fn(|_| random.below(2) as u8);
        let packed: [u8; 12] = desklink::pack_bits(&message).try_into().unwrap();
        assert_eq!(desklink::unpack_bits(&packed, 91).unwrap(), message);
        let mut codeword = [0; 22];
        desklink::ldpc_encode(&packed, &mut codeword).unwrap();
        let word: [u8; 174] = desklink::unpack_bits(&codeword, 174).unwrap().try_into().unwrap();
        assert_eq!((&word[..91], desklink::ldpc_count_errors(&word)), (&message[..], 0));
        assert_eq!(desklink::pack_bits(&word), codeword);
    }
}
