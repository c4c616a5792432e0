//! Every refusal's neighbourhood: what is turned down, by which number, and that nothing was written. Needs no original sources.
mod common;

use common::Random;
use desklink::{slices, Refusal};

const N: [usize; 3] = [512, 576, 512];
const K: [usize; 3] = [256, 384, 384];

/// Lengths about n, and far from it.
fn near(n: usize) -> [usize; 8] {
    [0, 1, n - 1, n, n + 1, n + 2, 2 * n, 4 * n]
}

/// The number of the first condition that holds.
fn first(conditions: &[(bool, Refusal)]) -> Option<Refusal> {
    conditions.iter().find(|c| c.0).map(|c| c.1)
}

/// An answer is the refusal expected, or none where none is.
fn expect<T: std::fmt::Debug>(answer: Result<T, Refusal>, expected: Option<Refusal>) -> bool {
    assert_eq!(answer.as_ref().err().copied(), expected, "{answer:?}");
    expected.is_some()
}

fn same_bits(a: &[f32], b: &[f32]) -> bool {
    a.len() == b.len() && a.iter().zip(b).all(|(x, y)| x.to_bits() == y.to_bits())
}

#[test]
fn checksum() {
    let random = &mut Random(1);
    for payload in near(10) {
        for block in near(12) {
            let before = random.bytes(block);
            let mut a91 = before.clone();
            let expected = first(&[(payload != 10, Refusal::InputLength), (block != 12, Refusal::OutputLength)]);
            if expect(slices::ft8_add_crc(&random.bytes(payload), &mut a91), expected) {
                assert_eq!(a91, before);
            }
        }
    }
    for block in near(12) {
        expect(slices::ft8_extract_crc(&random.bytes(block)), first(&[(block != 12, Refusal::InputLength)]));
    }
    for bits in 0..100 {
        let needed = usize::div_ceil(bits, 8);
        for len in 0..14 {
            expect(slices::ft8_crc14(&random.bytes(len), bits), first(&[(len < needed, Refusal::InputLength)]));
        }
    }
}

#[test]
fn ft8_encode_and_count() {
    let random = &mut Random(2);
    for length in near(12) {
        for output in near(22) {
            for slack in 0..32 {
                let mut message = random.bytes(length);
                if length > 11 {
                    message[11] = message[11] & 0xE0 | slack;
                }
                let before = random.bytes(output);
                let mut codeword = before.clone();
                let expected = first(&[(length != 12, Refusal::InputLength), (slack != 0, Refusal::MessageSlack), (output != 22, Refusal::OutputLength)]);
                if expect(slices::ldpc_encode(&message, &mut codeword), expected) {
                    assert_eq!(codeword, before);
                }
            }
        }
    }
    for length in near(174) {
        expect(slices::ldpc_count_errors(&random.bytes(length)), first(&[(length != 174, Refusal::InputLength)]));
    }
}

#[test]
fn staircase_encode_and_count() {
    let random = &mut Random(3);
    for code in [0, 1, 2, 3, 4, 255, 256, 257, 65_536, u32::MAX] {
        let (n, k) = if code < 3 { (N[code as usize], K[code as usize]) } else { (512, 256) };
        for length in near(k) {
            for output in near(n) {
                let before = random.bytes(output);
                let mut codeword = before.clone();
                let expected = first(&[(code > 2, Refusal::UnknownCode), (length != k, Refusal::InputLength), (output != n, Refusal::OutputLength)]);
                if expect(slices::encode(code, &random.bytes(length), &mut codeword), expected) {
                    assert_eq!(codeword, before);
                }
            }
        }
        for length in near(n) {
            let expected = first(&[(code > 2, Refusal::UnknownCode), (length < n, Refusal::WordTooShort)]);
            expect(slices::syndrome_weight(code, &random.bytes(length)), expected);
        }
    }
}

#[test]
fn ft8_decode() {
    let random = &mut Random(4);
    for values in near(174) {
        for output in near(174) {
            for area in [0, 1, 3069, 3070, 3071, 4000] {
                let llr: Vec<f32> = (0..values).map(|_| random.pattern()).collect();
                let (before, held) = (random.bytes(output), (0..area).map(|_| random.pattern()).collect::<Vec<f32>>());
                let (mut plain, mut work) = (before.clone(), held.clone());
                let expected = first(&[(values != 174, Refusal::InputLength), (output != 174, Refusal::OutputLength), (area < 3070, Refusal::WorkTooShort)]);
                if expect(slices::ldpc_decode_soft(&llr, 2, &mut plain, &mut work), expected) {
                    assert!(plain == before && same_bits(&work, &held));
                }
            }
        }
    }
}

#[test]
fn staircase_decode() {
    let random = &mut Random(5);
    for code in [0, 1, 2, 3, 4, 256, u32::MAX] {
        let (n, k) = if code < 3 { (N[code as usize], K[code as usize]) } else { (512, 256) };
        for rule in [0, 1, 2, 3, 4, 5, 256, u32::MAX] {
            for values in [0, n - 1, n, n + 1] {
                for output in [0, k - 1, k, k + 1] {
                    for area in [0, 3069, 3070, 3071] {
                        let llr: Vec<f32> = (0..values).map(|_| random.pattern()).collect();
                        let (before, held) = (random.bytes(output), (0..area).map(|_| random.pattern()).collect::<Vec<f32>>());
                        let (mut bits, mut work) = (before.clone(), held.clone());
                        let frame = [(values != n, Refusal::InputLength), (output != k, Refusal::OutputLength), (area < 3070, Refusal::WorkTooShort)];
                        let with =
                            [&[(code > 2, Refusal::UnknownCode), (rule > 4, Refusal::UnknownRule), (rule == 4, Refusal::RuleNotOfCode)][..], &frame].concat();
                        if expect(slices::decode_soft_with(code, rule, random.pattern(), 1, &llr, &mut bits, &mut work), first(&with)) {
                            assert!(bits == before && same_bits(&work, &held));
                        }
                        let (mut bits, mut work) = (before.clone(), held.clone());
                        let plain = [&[(code > 2, Refusal::UnknownCode)][..], &frame].concat();
                        if expect(slices::decode_soft(code, 1, &llr, &mut bits, &mut work), first(&plain)) {
                            assert!(bits == before && same_bits(&work, &held));
                        }
                    }
                }
            }
        }
    }
}

#[test]
fn reasons() {
    let random = &mut Random(6);
    for code in [0, 1, 2, 3, 4, 256, u32::MAX] {
        let n = if code < 3 { N[code as usize] } else { 174 };
        for rule in [0, 1, 2, 3, 4, 5, 256, u32::MAX] {
            let not_of_code = if code == 3 { rule == 1 || rule == 2 } else { rule == 4 };
            for values in [0, n - 1, n, n + 1] {
                for places in [0, n - 1, n, n + 1] {
                    for area in [0, 3069, 3070, 3071] {
                        let llr: Vec<f32> = (0..values).map(|_| random.pattern()).collect();
                        let (before, held) = (random.bytes(places), (0..area).map(|_| random.pattern()).collect::<Vec<f32>>());
                        let (mut word, mut work) = (before.clone(), held.clone());
                        let expected = first(&[
                            (code > 3, Refusal::UnknownCode),
                            (rule > 4, Refusal::UnknownRule),
                            (not_of_code, Refusal::RuleNotOfCode),
                            (values != n, Refusal::InputLength),
                            (places != n, Refusal::OutputLength),
                            (area < 3070, Refusal::WorkTooShort),
                        ]);
                        if expect(slices::frame_reason(code, rule, random.pattern(), 1, &llr, &mut word, &mut work), expected) {
                            assert!(word == before && same_bits(&work, &held));
                        }
                    }
                }
            }
        }
    }
}

/// The number of the first faulty pair, and nothing where none is: 10, 11 and 12 in turn at each.
fn pair_fault(n: usize, values: usize, pairs: &[[u32; 2]]) -> Option<Refusal> {
    let mut end = 0;
    for &[offset, length] in pairs {
        let (offset, length) = (offset as usize, length as usize);
        let fault = first(&[(length != n, Refusal::PairLength), (offset < end, Refusal::PairOrder), (offset + length > values, Refusal::PairPastEnd)]);
        if fault.is_some() {
            return fault;
        }
        end = offset + length;
    }
    None
}

/// Pairs that follow each other, of which a few may then be spoilt.
fn some_pairs(random: &mut Random, n: usize) -> Vec<[u32; 2]> {
    let count = random.pick(&[0, 1, 2, 3, 23, 24, 25, 26]);
    let mut end = 0;
    let mut pairs: Vec<[u32; 2]> = Vec::new();
    for _ in 0..count {
        end += random.below(3);
        pairs.push([end as u32, n as u32]);
        end += n;
    }
    for _ in 0..random.below(3) * count.min(1) {
        let at = random.below(count);
        match random.below(6) {
            0 => pairs[at][1] = pairs[at][1].wrapping_sub(1),
            1 => pairs[at][1] += 1,
            2 => pairs[at][0] = pairs[at][0].wrapping_sub(1),
            3 => pairs[at][0] = random.pick(&[0, u32::MAX, u32::MAX - n as u32, 1 << 31]),
            4 => pairs[at] = [0, 0],
            _ => pairs[at] = [u32::MAX, u32::MAX],
        }
    }
    pairs
}

#[test]
fn batch() {
    let random = &mut Random(6);
    for _ in 0..3_000 {
        let code = random.pick(&[0, 1, 2, 3, 3, 3, 4, 256, u32::MAX]);
        let rule = random.pick(&[0, 0, 1, 2, 3, 4, 4, 5, u32::MAX]);
        let (n, k) = [(512, 256), (576, 384), (512, 384), (174, 91)][code.min(3) as usize];
        let pairs = some_pairs(random, n);
        let spare = random.pick(&[0, 0, 1, 5]);
        let room = pairs.len() * (n + 2) + spare;
        let values: Vec<f32> = vec![1.0; room - random.pick(&[0, 0, 0, 1, n]).min(room)];
        let bit_places = (pairs.len() * k + random.pick(&[0, 0, 0, 1])).saturating_sub(random.pick(&[0, 0, 0, 1]));
        let places = [0; 3].map(|_| (pairs.len() + usize::from(random.below(8) == 0)).saturating_sub(usize::from(random.below(8) == 0)));
        let area = random.pick(&[3070, 3070, 3071, 3069, 0]);
        let (bits_before, held) = (random.bytes(bit_places), (0..area).map(|_| random.pattern()).collect::<Vec<f32>>());
        let numbers_before = places.map(|n| (0..n).map(|_| random.next() as u16).collect::<Vec<u16>>());
        let (mut bits, mut numbers, mut work) = (bits_before.clone(), numbers_before.clone(), held.clone());
        let (mut bits2, mut numbers2, mut work2) = (bits_before.clone(), numbers_before.clone(), held.clone());
        let expected = first(&[
            (code > 3, Refusal::UnknownCode),
            (rule > 4, Refusal::UnknownRule),
            (if code == 3 { rule == 1 || rule == 2 } else { rule == 4 }, Refusal::RuleNotOfCode),
            (pairs.len() > 24, Refusal::TooManyPairs),
            (bit_places != pairs.len() * k, Refusal::OutputLength),
            (places != [pairs.len(); 3], Refusal::OutputLength),
            (area < 3070, Refusal::WorkTooShort),
        ])
        .or_else(|| pair_fault(n, values.len(), &pairs));
        let [counts, rounds, firsts] = &mut numbers;
        let out = slices::Outputs { bits: &mut bits, counts, rounds, firsts };
        let answer = slices::decode_batch(code, rule, 2, 0.5, &values, &pairs, out, &mut work);
        // the same over records
        let records: Vec<slices::Pair> = pairs.iter().map(|&pair| pair.into()).collect();
        let [counts, rounds, firsts] = &mut numbers2;
        let out = slices::Outputs { bits: &mut bits2, counts, rounds, firsts };
        assert_eq!(slices::decode_pairs(code, rule, 2, 0.5, &values, &records, out, &mut work2), answer);
        assert!(bits2 == bits && numbers2 == numbers && same_bits(&work2, &work));
        if expect(answer, expected) {
            assert!(bits == bits_before && numbers == numbers_before && same_bits(&work, &held));
        } else {
            assert!(bits.iter().all(|&b| b == 0));
            assert_eq!(numbers, [0, 0, slices::NO_CHECK].map(|n| vec![n; pairs.len()]));
            assert!(work[..3070].iter().all(|v| v.to_bits() == 0) && same_bits(&work[3070..], &held[3070..]));
        }
        // with groups: the same refusals, and then that of the sizes
        let sizes = some_sizes(random, pairs.len());
        let wrong = !sizes.is_empty() && (sizes.contains(&0) || sizes.iter().map(|&n| n as usize).sum::<usize>() != pairs.len());
        let expected = expected.or(wrong.then_some(Refusal::GroupSizes));
        let (mut bits, mut numbers, mut work) = (bits_before.clone(), numbers_before.clone(), held.clone());
        let [counts, rounds, firsts] = &mut numbers;
        let out = slices::Outputs { bits: &mut bits, counts, rounds, firsts };
        if expect(slices::decode_groups(code, rule, 2, 0.5, &values, &pairs, &sizes, out, &mut work), expected) {
            assert!(bits == bits_before && numbers == numbers_before && same_bits(&work, &held));
        } else {
            assert!(bits.iter().all(|&b| b == 0));
        }
    }
}

/// Group sizes that take so many frames, of which one may then be spoilt.
fn some_sizes(random: &mut Random, frames: usize) -> Vec<u32> {
    let mut sizes = Vec::new();
    let mut left = frames;
    while left > 0 {
        sizes.push(1 + random.below(left) as u32);
        left -= sizes[sizes.len() - 1] as usize;
    }
    if let Some(last) = sizes.last_mut() {
        *last = last.wrapping_sub(random.pick(&[0, 0, 0, 1, u32::MAX, *last]));
    }
    sizes
}

#[test]
fn erasures() {
    let random = &mut Random(7);
    for code in [0, 1, 2, 3, 4, 256, u32::MAX] {
        let n = if code < 3 { N[code as usize] } else { 174 };
        for length in near(n) {
            for listed in near(n) {
                let top = random.pick(&[2, 2, 3, 255]);
                let mut before: Vec<u8> = (0..length).map(|_| random.pick(&[0, 1, 2])).collect();
                if let Some(last) = before.last_mut() {
                    *last = top;
                }
                let places_before: Vec<u16> = (0..listed).map(|_| random.next() as u16).collect();
                let (mut word, mut places) = (before.clone(), places_before.clone());
                let expected = first(&[
                    (code > 3, Refusal::UnknownCode),
                    (length != n, Refusal::InputLength),
                    (listed != n, Refusal::OutputLength),
                    (top > 2, Refusal::ErasureByte),
                ]);
                if expect(slices::fill_erasures(code, &mut word, &mut places), expected) {
                    assert!(word == before && places == places_before);
                }
            }
        }
    }
}

#[test]
fn cycles() {
    for code in [0, 1, 2, 3, 4, 256, u32::MAX] {
        let most = [21, 36, 41].get(code as usize).copied().unwrap_or(0);
        for room in [0, 1, 20, 21, 22, 35, 36, 37, 40, 41, 42, 300] {
            let mut places = vec![[7; 4]; room];
            let expected = first(&[(code > 2, Refusal::UnknownCode), (room < most, Refusal::OutputLength)]);
            if expect(slices::list_cycles(code, &mut places), expected) {
                assert!(places.iter().all(|place| *place == [7; 4]));
            }
        }
    }
}

#[test]
fn eighths() {
    let all: Vec<i8> = (-127..=127).collect();
    for positive_is_one in [false, true] {
        let (mut values, mut back) = (vec![9.0; 255], vec![0; 255]);
        slices::values_of_bytes(&all, positive_is_one, &mut values).unwrap();
        for (&byte, value) in all.iter().zip(&values) {
            let eighth = f32::from(byte) / 8.0;
            let expected = if byte == 0 {
                0.0
            } else if positive_is_one {
                -eighth
            } else {
                eighth
            };
            assert_eq!(value.to_bits(), expected.to_bits());
        }
        slices::bytes_of_values(&values, positive_is_one, &mut back).unwrap();
        assert_eq!(back, all);
        expect(slices::values_of_bytes(&all, positive_is_one, &mut values[1..]), Some(Refusal::InputLength));
        expect(slices::values_of_bytes(&[-128], positive_is_one, &mut values[..1]), Some(Refusal::ByteOutOfRange));
        expect(slices::bytes_of_values(&values, positive_is_one, &mut back[1..]), Some(Refusal::InputLength));
        for value in [-0.0, 0.0625, 16.0, -16.0, f32::NAN, f32::INFINITY, f32::MIN_POSITIVE, 1e-45] {
            expect(slices::bytes_of_values(&[value], positive_is_one, &mut back[..1]), Some(Refusal::NotEighths));
        }
        assert_eq!(back, all);
    }
}

#[test]
fn every_refusal_has_its_number_and_a_sentence() {
    for number in (1..=18).chain([20]) {
        let refusal = Refusal::from_number(number).unwrap();
        assert_eq!(refusal.number(), number);
        assert!(refusal.to_string().len() > 15);
    }
    assert_eq!((Refusal::from_number(0), Refusal::from_number(21)), (None, None));
}
