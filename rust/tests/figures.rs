//! Reception figures, against an account of its own, written from change requests N5 and N2: sums in 128 bits, fractions by trying every common divisor of
//! small numbers and by division of large ones, a frame's word by its count, its values and its checksum.
mod common;
use common::{frame, Random};
use desklink::{ft8_crc14, slices, Batch, Code, DecodeRule, Fraction, LdpcCode, Refusal, Totals};

const CODES: [Code; 4] = [Code::Staircase(LdpcCode::N512R12), Code::Staircase(LdpcCode::N576R23), Code::Staircase(LdpcCode::N512R34), Code::Ft8];

/// What a batch was handed and what it left.
struct Decoded {
    code: Code,
    values: Vec<f32>,
    pairs: Vec<[u32; 2]>,
    bits: Vec<u8>,
    counts: Vec<u16>,
    rounds: Vec<u16>,
}

/// A batch of frames about codewords, with gaps between some of them.
fn decoded(random: &mut Random, frames: usize) -> Decoded {
    let code = random.pick(&CODES);
    let (mut values, mut pairs) = (Vec::new(), Vec::new());
    for kind in 0..frames {
        values.extend(std::iter::repeat_n(f32::NAN, random.pick(&[0, 0, 3])));
        pairs.push([values.len() as u32, code.n() as u32]);
        values.extend(frame(random, &vec![0; code.n()], kind));
    }
    let (mut bits, mut counts, mut rounds, mut firsts) = (vec![0; frames * code.k()], vec![0; frames], vec![0; frames], vec![0; frames]);
    let batch = Batch {
        code,
        rule: DecodeRule::default(),
        limit: random.pick(&[0, 1, 5, 20]),
        values: &values,
        pairs: &pairs,
        bits: &mut bits,
        counts: &mut counts,
        rounds: &mut rounds,
        firsts: &mut firsts,
    };
    batch.decode().expect("the batch is accepted");
    Decoded { code, values, pairs, bits, counts, rounds }
}

/// Whether the (174,91) bits carry the checksum of their first 77.
fn checksum_right(bits: &[u8]) -> bool {
    let mut packed = [0; 11];
    bits[..77].iter().enumerate().for_each(|(i, bit)| packed[i / 8] |= bit << (7 - i % 8));
    let carried = bits[77..].iter().fold(0, |number, &bit| number << 1 | u16::from(bit));
    ft8_crc14(&packed, 82) == Ok(carried)
}

impl Decoded {
    /// Frames, clean frames, counts and rounds.
    fn sums(&self) -> [u128; 4] {
        let mut sums = [0; 4];
        for (j, &[offset, length]) in self.pairs.iter().enumerate() {
            let own = &self.values[offset as usize..][..length as usize];
            let bits = &self.bits[j * self.code.k()..][..self.code.k()];
            let clean = self.counts[j] == 0 && !own.iter().any(|v| v.is_nan()) && (self.code != Code::Ft8 || checksum_right(bits));
            let adds = [1, u128::from(clean), u128::from(self.counts[j]), u128::from(self.rounds[j])];
            sums.iter_mut().zip(adds).for_each(|(sum, add)| *sum += add);
        }
        sums
    }

    fn add_to(&self, totals: &mut Totals) -> Result<(), Refusal> {
        slices::totals_add(totals, self.code.number(), &self.values, &self.pairs, &self.bits, &self.counts, &self.rounds)
    }
}

const LIMITS: [u128; 4] = [u32::MAX as u128, u64::MAX as u128, u64::MAX as u128, u64::MAX as u128];

fn numbers(t: &Totals) -> [u128; 4] {
    [t.frames.into(), t.clean.into(), t.counts.into(), t.rounds.into()]
}

/// The sums of both, unless one passes its limit.
fn joined(a: [u128; 4], b: [u128; 4]) -> Option<[u128; 4]> {
    let sums = std::array::from_fn(|i| a[i] + b[i]);
    (0..4).all(|i| sums[i] <= LIMITS[i]).then_some(sums)
}

/// A number that is often near a limit.
fn number(random: &mut Random, limit: u64) -> u64 {
    let near = random.next() % 40;
    let any = random.next() % (limit / 2 + 1);
    random.pick(&[0, near, any, limit / 2, limit - near, limit]).min(limit)
}

fn any_totals(random: &mut Random) -> Totals {
    Totals {
        frames: number(random, u32::MAX.into()) as u32,
        clean: number(random, u64::MAX),
        counts: number(random, u64::MAX),
        rounds: number(random, u64::MAX),
    }
}

#[test]
fn batches_are_added() {
    let random = &mut Random(0x4E35);
    let (mut day, mut account) = (Totals::default(), [0; 4]);
    for i in 0..300 {
        let batch = decoded(random, i % 25);
        batch.add_to(&mut day).expect("no limit is near");
        account = joined(account, batch.sums()).unwrap();
        assert_eq!(numbers(&day), account);
    }
    assert!(day.clean > 100 && u64::from(day.frames) > day.clean + 100, "both words are met often: {day:?}");
}

#[test]
fn a_limit_leaves_the_totals() {
    let random = &mut Random(0x4E36);
    let mut refused = 0;
    for i in 0..400 {
        let batch = decoded(random, 1 + i % 5);
        let mut totals = any_totals(random);
        let before = totals;
        match joined(numbers(&before), batch.sums()) {
            Some(sums) => assert_eq!((batch.add_to(&mut totals), numbers(&totals)), (Ok(()), sums)),
            None => {
                assert_eq!((batch.add_to(&mut totals), totals), (Err(Refusal::SumPastLimit), before));
                refused += 1;
            }
        }
    }
    assert!(refused > 50, "the limits are met often: {refused}");
}

#[test]
fn two_batches_joined_are_all_their_frames() {
    let random = &mut Random(0x4E37);
    for i in 0..60 {
        let (a, b) = (decoded(random, i % 25), decoded(random, (7 * i) % 25));
        let (mut of_a, mut of_b, mut of_both) = (Totals::default(), Totals::default(), Totals::default());
        a.add_to(&mut of_a).unwrap();
        b.add_to(&mut of_b).unwrap();
        a.add_to(&mut of_both).and_then(|()| b.add_to(&mut of_both)).unwrap();
        let (mut one, mut other) = (of_a, of_b);
        one.join(&of_b).and_then(|()| other.join(&of_a)).unwrap();
        assert_eq!((one, other), (of_both, of_both));
    }
}

#[test]
fn any_two_totals_joined() {
    let random = &mut Random(0x4E38);
    let mut said = [0; 2];
    for _ in 0..100_000 {
        let (a, b) = (any_totals(random), any_totals(random));
        let (mut sum, mut turned) = (a, b);
        let (one, other) = (slices::totals_join(&mut sum, &b), slices::totals_join(&mut turned, &a));
        assert_eq!(one, other);
        match joined(numbers(&a), numbers(&b)) {
            Some(sums) => assert_eq!((one, numbers(&sum), sum), (Ok(()), sums, turned)),
            None => assert_eq!((one, sum, turned), (Err(Refusal::SumPastLimit), a, b)),
        }
        said[usize::from(one.is_ok())] += 1;
    }
    assert!(said.iter().all(|&n| n > 1_000), "both answers are met often: {said:?}");
}

fn gcd(a: u64, b: u64) -> u64 {
    if b == 0 {
        a
    } else {
        gcd(b, a % b)
    }
}

#[test]
fn fractions_in_lowest_terms() {
    let random = &mut Random(0x4E39);
    for _ in 0..100_000 {
        let totals = any_totals(random);
        for (answer, n) in [(slices::clean_share(&totals), totals.clean), (slices::mean_count(&totals), totals.counts)] {
            if totals.frames == 0 {
                assert_eq!(answer, Err(Refusal::NoFrames));
                continue;
            }
            let Fraction { over, under } = answer.expect("there are frames");
            assert_eq!(u128::from(over) * u128::from(totals.frames), u128::from(n) * u128::from(under));
            assert_eq!(gcd(over, under), 1);
            assert!(n != 0 || (over, under) == (0, 1));
        }
    }
    for (frames, n) in (1..60).flat_map(|frames| (0..60).map(move |n| (frames, n))) {
        let totals = Totals { frames, clean: n, counts: n, rounds: 9 };
        let Fraction { over, under } = totals.share().unwrap();
        assert!((2..=60).all(|k| over % k != 0 || under % k != 0), "{n}/{frames} is {over}/{under}");
        assert_eq!(totals.mean(), Ok(Fraction { over, under }));
    }
}

/// What the library refuses by the batch call it refuses here by the same number, and nothing is added.
#[test]
fn refusals() {
    let random = &mut Random(0x4E3A);
    for _ in 0..60 {
        let good = decoded(random, 3);
        let k = good.code.k();
        let n = good.code.n() as u32;
        let mut totals = any_totals(random);
        let before = totals;
        let longer = |pairs: usize| vec![[0, n]; pairs];
        let (bits, numbers) = (vec![0; 25 * 400], vec![0; 26]);
        let mut answers = vec![
            (slices::totals_add(&mut totals, 4, &good.values, &good.pairs, &good.bits, &good.counts, &good.rounds), Refusal::UnknownCode),
            (slices::totals_add(&mut totals, u32::MAX, &[], &longer(25), &[], &[], &[]), Refusal::UnknownCode),
            (slices::totals_add(&mut totals, good.code.number(), &[], &longer(25), &bits[..25 * k], &numbers[..25], &numbers[..25]), Refusal::TooManyPairs),
        ];
        for (b, c, r) in [(1, 0, 0), (0, 1, 0), (0, 0, 1)] {
            let (bits, counts, rounds) = (&good.bits[b..], &good.counts[c..], &good.rounds[r..]);
            answers.push((slices::totals_add(&mut totals, good.code.number(), &good.values, &good.pairs, bits, counts, rounds), Refusal::OutputLength));
        }
        for (pair, refusal) in [([0, n - 1], Refusal::PairLength), ([0, n], Refusal::PairOrder), ([good.values.len() as u32, n], Refusal::PairPastEnd)] {
            let mut pairs = good.pairs.clone();
            pairs[2] = pair;
            let said = slices::totals_add(&mut totals, good.code.number(), &good.values, &pairs, &good.bits, &good.counts, &good.rounds);
            answers.push((said, refusal));
        }
        for (said, refusal) in answers {
            assert_eq!(said, Err(refusal));
        }
        assert_eq!(totals, before);
    }
}
