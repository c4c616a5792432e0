//! What the house default is for: a perfect frame with one sign turned is decoded to the word sent, wherever that sign is. Needs no original sources.
use desklink::{slices, Batch, Code, DecodeRule, LdpcCode};

const LIMIT: u16 = 20;

/// The codeword of a message of mixed bits, one bit a byte, and the message.
fn word_sent(code: Code) -> (Vec<u8>, Vec<u8>) {
    let message: Vec<u8> = (0..code.k()).map(|i| (i * i / 3 % 2) as u8).collect();
    let word = match code {
        Code::Staircase(staircase) => desklink::Ldpc::new(staircase).encode(&message).unwrap(),
        Code::Ft8 => ft8_word(&message),
    };
    (word, message)
}

fn ft8_word(message: &[u8]) -> Vec<u8> {
    let mut packed = [0; 12];
    for (i, bit) in message.iter().enumerate() {
        packed[i / 8] |= bit << (7 - i % 8);
    }
    let mut codeword = [0; 22];
    desklink::ldpc_encode(&packed, &mut codeword).unwrap();
    (0..174).map(|i| codeword[i / 8] >> (7 - i % 8) & 1).collect()
}

/// Of the N frames with one sign turned, how many are decoded to the message sent, as a codeword.
fn corrected(code: Code, rule: DecodeRule) -> usize {
    let (word, message) = word_sent(code);
    let perfect: Vec<f32> = word.iter().map(|&bit| if bit == 0 { 4.0 } else { -4.0 }).collect();
    let turned = |at: usize| {
        let mut values = perfect.clone();
        values[at] = -values[at];
        let mut bits = vec![9; code.k()];
        let (mut counts, mut rounds, mut firsts) = ([9], [9], [9]);
        let batch = Batch {
            code,
            rule,
            limit: LIMIT,
            values: &values,
            pairs: &[[0, code.n() as u32]],
            bits: &mut bits,
            counts: &mut counts,
            rounds: &mut rounds,
            firsts: &mut firsts,
        };
        batch.decode().unwrap();
        assert!(rounds[0] <= LIMIT && (firsts[0] == slices::NO_CHECK) == (counts[0] == 0));
        counts[0] == 0 && bits == message
    };
    (0..code.n()).filter(|&at| turned(at)).count()
}

#[test]
fn the_default_corrects_every_one() {
    for code in [LdpcCode::N512R12, LdpcCode::N576R23, LdpcCode::N512R34] {
        assert_eq!(corrected(code.into(), DecodeRule::default()), code.n());
    }
    assert_eq!(corrected(Code::Ft8, DecodeRule::default()), 174);
}

/// Rule 0 on (174,91) is the original's, fault and all.
#[test]
fn rule_zero_corrects_none_of_ft8() {
    assert_eq!(corrected(Code::Ft8, DecodeRule::SumProduct), 0);
}

#[test]
fn rule_four_is_the_default_of_ft8_and_of_no_other_code() {
    assert_eq!(corrected(Code::Ft8, DecodeRule::Unnegated), 174);
    let code = desklink::Ldpc::new(LdpcCode::N512R12);
    assert_eq!(code.decode_soft_with(&[1.0; 512], 1, DecodeRule::Unnegated), Err(desklink::Refusal::RuleNotOfCode));
}
