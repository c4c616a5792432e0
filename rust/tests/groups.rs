//! Groups against an account of their own, written from the change request: which frames are clean, which groups are delivered, which sizes are refused. What a
//! batch gives without groups is compared elsewhere, and is taken from the batch call here. Needs no original sources.
mod common;

use common::{frame, Random};
use desklink::{slices, Batch, Code, DecodeRule, LdpcCode, Refusal};

const SHAPES: [(usize, usize); 4] = [(512, 256), (576, 384), (512, 384), (174, 91)];

/// What a call reads, without its sizes.
struct Call {
    code: u32,
    rule: u32,
    limit: u16,
    values: Vec<f32>,
    pairs: Vec<[u32; 2]>,
}

/// The memory that is lent to a call.
#[derive(Clone)]
struct Memory {
    bits: Vec<u8>,
    numbers: [Vec<u16>; 3],
    work: Vec<f32>,
}

impl Memory {
    fn same_as(&self, other: &Memory) -> bool {
        let patterns = |memory: &Memory| memory.work.iter().map(|v| v.to_bits()).collect::<Vec<u32>>();
        self.bits == other.bits && self.numbers == other.numbers && patterns(self) == patterns(other)
    }

    fn outputs(&mut self) -> (slices::Outputs<'_>, &mut [f32]) {
        let [counts, rounds, firsts] = &mut self.numbers;
        (slices::Outputs { bits: &mut self.bits, counts, rounds, firsts }, &mut self.work)
    }
}

impl Call {
    /// A call of those frames, with gaps between them.
    fn new(random: &mut Random, code: u32, limit: u16, frames: &[Vec<f32>]) -> Call {
        let rule = if code == 3 { random.pick(&[3, 4]) } else { random.pick(&[0, 1, 3]) };
        let (mut values, mut pairs) = (Vec::new(), Vec::new());
        for frame in frames {
            values.extend((0..random.below(3)).map(|_| random.pattern()));
            pairs.push([values.len() as u32, frame.len() as u32]);
            values.extend(frame);
        }
        Call { code, rule, limit, values, pairs }
    }

    fn k(&self) -> usize {
        SHAPES[self.code as usize].1
    }

    fn memory(&self, random: &mut Random) -> Memory {
        Memory {
            bits: random.bytes(self.pairs.len() * self.k()),
            numbers: [0; 3].map(|_| self.pairs.iter().map(|_| random.next() as u16).collect()),
            work: (0..slices::WORK + 2).map(|_| random.pattern()).collect(),
        }
    }

    fn batch(&self, memory: &mut Memory) -> Result<(), Refusal> {
        let (out, work) = memory.outputs();
        slices::decode_batch(self.code, self.rule, self.limit, 1.0, &self.values, &self.pairs, out, work)
    }

    fn groups(&self, sizes: &[u32], memory: &mut Memory) -> Result<(), Refusal> {
        let (out, work) = memory.outputs();
        slices::decode_groups(self.code, self.rule, self.limit, 1.0, &self.values, &self.pairs, sizes, out, work)
    }

    /// "A frame is clean when its count is 0, none of its values is NaN, and, for code 3, the checksum .. equals the one it carries."
    fn clean(&self, j: usize, batch: &Memory) -> bool {
        let [offset, length] = self.pairs[j].map(|n| n as usize);
        let bits = &batch.bits[j * self.k()..][..self.k()];
        let nan = self.values[offset..offset + length].iter().any(|v| v.is_nan());
        batch.numbers[0][j] == 0 && !nan && (self.code != 3 || checksum(bits) == carried(bits))
    }

    /// "A group is delivered if all its frames are clean; otherwise all its bit bytes are written as 255." The groups take the frames "in place order".
    fn expected(&self, sizes: &[u32], batch: &Memory) -> Memory {
        let mut left = batch.clone();
        let mut places = 0..self.pairs.len();
        for &size in sizes {
            let own: Vec<usize> = places.by_ref().take(size as usize).collect();
            if !own.iter().all(|&j| self.clean(j, batch)) {
                own.iter().for_each(|j| left.bits[j * self.k()..][..self.k()].fill(255));
            }
        }
        left
    }
}

/// The remainder of 77 payload bits and five zeros: width 14, start 0, polynomial 0x2757, most significant bit first.
fn checksum(bits: &[u8]) -> u16 {
    bits[..77].iter().chain(&[0; 5]).fold(0, |register, &bit| {
        let top = (register >> 13 ^ u16::from(bit)) & 1;
        (register << 1 & 0x3FFF) ^ (top * 0x2757)
    })
}

fn carried(bits: &[u8]) -> u16 {
    bits[77..91].iter().fold(0, |number, &bit| number << 1 | u16::from(bit))
}

/// A codeword of random bits; of code 3 with its checksum right or not.
fn codeword(random: &mut Random, code: u32, right: bool) -> Vec<u8> {
    let (n, k) = SHAPES[code as usize];
    let mut bits = random.bits(k);
    if code < 3 {
        let mut word = vec![0; n];
        slices::encode(code, &bits, &mut word).unwrap();
        return word;
    }
    let sum = checksum(&bits);
    (0..14).for_each(|i| bits[77 + i] = (sum >> (13 - i)) as u8 & 1);
    if !right {
        bits[random.below(91)] ^= 1;
    }
    let (mut packed, mut word) = ([0; 12], [0; 22]);
    bits.iter().enumerate().for_each(|(i, bit)| packed[i / 8] |= bit << (7 - i % 8));
    slices::ldpc_encode(&packed, &mut word).unwrap();
    (0..n).map(|i| word[i / 8] >> (7 - i % 8) & 1).collect()
}

/// A frame of one of six kinds: clean; one NaN, which decides as its bit does; NaN alone; a wrong checksum; a wrong sign at a parity bit; any values.
fn some_frame(random: &mut Random, code: u32, kind: usize) -> Vec<f32> {
    let word = codeword(random, code, kind != 3);
    let mut values: Vec<f32> = word.iter().map(|&bit| if bit == 0 { 4.0 } else { -4.0 }).collect();
    match kind {
        1 => values[word.iter().position(|&bit| bit == 0).unwrap()] = f32::NAN,
        2 => values.fill(f32::NAN),
        4 => values[word.len() - 1] *= -1.0,
        5 => {
            let noise = random.below(12);
            values = frame(random, &word, noise);
        }
        _ => {}
    }
    values
}

/// Mostly clean frames, and some of every other kind.
fn some_frames(random: &mut Random, code: u32, many: usize) -> Vec<Vec<f32>> {
    let mut next = || {
        let kind = random.pick(&[0, 0, 0, 0, 0, 0, 0, 1, 2, 3, 4, 5]);
        some_frame(random, code, kind)
    };
    (0..many).map(|_| next()).collect()
}

/// Sizes that add up to `many`: a new group starts where a bit is set.
fn shape(many: usize, starts: u32) -> Vec<u32> {
    let mut sizes = Vec::new();
    for j in 0..many {
        match sizes.last_mut() {
            Some(last) if starts >> j & 1 == 0 => *last += 1,
            _ => sizes.push(1),
        }
    }
    sizes
}

/// Compares a call with the account, and says how many of its groups are delivered, and how many not.
fn compare(random: &mut Random, call: &Call, sizes: &[u32], batch: &Memory) -> [usize; 2] {
    let expected = call.expected(sizes, batch);
    let mut left = call.memory(random);
    left.work[slices::WORK..].copy_from_slice(&batch.work[slices::WORK..]);
    assert_eq!(call.groups(sizes, &mut left), Ok(()));
    assert!(left.same_as(&expected), "code {}, sizes {sizes:?}", call.code);
    let mut rest = &left.bits[..];
    let mut seen = [0; 2];
    for &size in sizes {
        let (own, after) = rest.split_at(size as usize * call.k());
        seen[usize::from(own[0] == 255)] += 1;
        assert!(own.iter().all(|&byte| byte == 255) || own.iter().all(|&byte| byte < 2));
        rest = after;
    }
    seen
}

/// Every shape of up to 13 frames, and 4,096 shapes of each larger number.
#[test]
fn every_shape() {
    let random = &mut Random(31);
    let mut seen = [0; 2];
    for many in 1..=24 {
        let frames = some_frames(random, 3, many);
        let call = Call::new(random, 3, 0, &frames);
        let mut batch = call.memory(random);
        call.batch(&mut batch).unwrap();
        for number in 0..1 << (many - 1).min(12) {
            let starts = if many > 13 { random.next() as u32 } else { number << 1 };
            let more = compare(random, &call, &shape(many, starts), &batch);
            seen = [seen[0] + more[0], seen[1] + more[1]];
        }
    }
    assert!(seen[0] > 10_000 && seen[1] > 10_000, "{seen:?}");
}

/// Shapes of up to 24 frames, of every code.
#[test]
fn every_code() {
    let random = &mut Random(32);
    for i in 0..600 {
        let code = i % 4;
        let many = if i < 100 { 24 } else { random.below(25) };
        let frames = some_frames(random, code, many);
        let limit = random.pick(&[0, 1, 2, 8]);
        let call = Call::new(random, code, limit, &frames);
        let mut batch = call.memory(random);
        call.batch(&mut batch).unwrap();
        for starts in [0, u32::MAX, 1 << 23, 2, 1 << 12, random.next() as u32, random.next() as u32] {
            compare(random, &call, &shape(many, starts), &batch);
        }
    }
}

/// A frame of each kind alone is delivered or not, as its kind says; beside clean ones it decides for all.
#[test]
fn every_kind() {
    let random = &mut Random(33);
    for code in 0..4 {
        for (kind, delivered) in [(0, true), (1, false), (2, false), (3, code != 3), (4, false)] {
            for place in 0..3 {
                let frames: Vec<Vec<f32>> = (0..3).map(|j| some_frame(random, code, if j == place { kind } else { 0 })).collect();
                let call = Call::new(random, code, 0, &frames);
                let mut batch = call.memory(random);
                call.batch(&mut batch).unwrap();
                assert_eq!(compare(random, &call, &[3], &batch), if delivered { [1, 0] } else { [0, 1] });
                assert_eq!(compare(random, &call, &[1, 1, 1], &batch), if delivered { [3, 0] } else { [2, 1] });
            }
        }
    }
}

/// "20 when a size is 0 or the sizes do not add up to the frame count", whatever they are; nothing is written then.
#[test]
fn wrong_sizes() {
    let random = &mut Random(34);
    for many in 0..=24 {
        let frames = some_frames(random, 3, many);
        let call = Call::new(random, 3, 0, &frames);
        let n = many as u32;
        let with = |at: usize, size: u32| {
            let mut sizes = vec![1; many];
            sizes.insert(at, size);
            sizes
        };
        let mut lists = vec![vec![0], vec![n + 1], vec![0, n], vec![n, 0], vec![u32::MAX], vec![u32::MAX, n + 1], vec![n + 1, u32::MAX]];
        lists.extend([vec![1 << 31, 1 << 31, n], vec![n, 1 << 31, 1 << 31], vec![u32::MAX; 1 << 17], vec![1; 1 << 17], vec![0; 1 << 17]]);
        lists.extend([with(0, 0), with(many, 0), with(many / 2, 0), with(0, 1), with(many, u32::MAX), with(0, u32::MAX)]);
        lists.extend((many > 1).then(|| vec![n - 1]));
        lists.extend((many > 1).then(|| vec![1; many - 1]));
        for sizes in lists {
            let before = call.memory(random);
            let mut memory = before.clone();
            assert_eq!(call.groups(&sizes, &mut memory), Err(Refusal::GroupSizes), "{many} frames");
            assert!(memory.same_as(&before));
        }
    }
}

/// "An empty list is no list."
#[test]
fn no_list() {
    let random = &mut Random(35);
    for i in 0..200 {
        let many = random.below(27);
        let frames = some_frames(random, i % 4, many);
        let mut call = Call::new(random, i % 4, 2, &frames);
        if random.below(4) == 0 {
            call.values.pop();
        }
        let mut batch = call.memory(random);
        let mut left = batch.clone();
        assert_eq!(call.groups(&[], &mut left), call.batch(&mut batch));
        assert!(left.same_as(&batch));
    }
}

/// "A group delivered under a limit is delivered with the same bits under a larger one", wherever it stands and whatever stands beside it.
#[test]
fn between_limits() {
    let random = &mut Random(36);
    let mut seen = [0; 3];
    for i in 0..1_200 {
        let code = i % 4;
        let size = 1 + random.below(3);
        let group: Vec<Vec<f32>> = (0..size).map(|_| nearly_lost(random, code)).collect();
        let low = random.below(6) as u16;
        let [a, b] = [low, low + random.below(20) as u16].map(|limit| delivered_among(random, code, limit, &group));
        assert!(a.is_none() || a == b, "a delivered group is delivered with the same bits");
        seen[usize::from(a.is_some()) + usize::from(b.is_some())] += 1;
    }
    assert!(seen.iter().all(|&times| times > 100), "{seen:?}");
}

/// A frame that some limits decode and others do not.
fn nearly_lost(random: &mut Random, code: u32) -> Vec<f32> {
    let word = codeword(random, code, true);
    common::noisy(random, &word, [0.72, 0.58, 0.52, 0.6][code as usize])
}

/// The bits of that group among others, where it is delivered.
fn delivered_among(random: &mut Random, code: u32, limit: u16, group: &[Vec<f32>]) -> Option<Vec<u8>> {
    let [before, after] = [0; 2].map(|_| random.below(4));
    let mut frames = some_frames(random, code, before);
    frames.extend_from_slice(group);
    frames.extend(some_frames(random, code, after));
    let mut call = Call::new(random, code, limit, &frames);
    call.rule = 3;
    let mut memory = call.memory(random);
    let sizes: Vec<u32> = [before, group.len(), after].into_iter().filter(|&n| n > 0).map(|n| n as u32).collect();
    call.groups(&sizes, &mut memory).unwrap();
    let bits = &memory.bits[before * call.k()..][..group.len() * call.k()];
    (bits[0] != 255).then(|| bits.to_vec())
}

/// A move's bits are there whole or not at all.
#[test]
fn moves() {
    let random = &mut Random(37);
    let codes = [Code::Staircase(LdpcCode::N512R12), Code::Staircase(LdpcCode::N576R23), Code::Staircase(LdpcCode::N512R34), Code::Ft8];
    for i in 0..200 {
        let (code, many) = (codes[i % 4], random.below(25));
        let frames = some_frames(random, code.number(), many);
        let mut call = Call::new(random, code.number(), 3, &frames);
        call.rule = 3;
        let mut batch = call.memory(random);
        call.batch(&mut batch).unwrap();
        let sizes = shape(many, random.next() as u32);
        let expected = call.expected(&sizes, &batch);
        let mut memory = call.memory(random);
        let [counts, rounds, firsts] = &mut memory.numbers;
        let (values, pairs, bits) = (&call.values, &call.pairs, &mut memory.bits);
        let moves = Batch { code, rule: DecodeRule::default(), limit: 3, values, pairs, bits, counts, rounds, firsts }.decode_moves(&sizes).unwrap();
        let mut first = 0;
        assert_eq!(moves.len(), sizes.len());
        for (one, &size) in moves.iter().zip(&sizes) {
            let frames = first..first + size as usize;
            let clean = frames.clone().all(|j| call.clean(j, &batch));
            let own = &expected.bits[frames.start * code.k()..frames.end * code.k()];
            assert_eq!((one.frames(), one.bits()), (frames, clean.then_some(own)));
            first += size as usize;
        }
        assert_eq!(memory.numbers, batch.numbers);
    }
}
