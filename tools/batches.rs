// What the generators of the programs' inputs share: the original's decoders at the codes' numbers, the batch's refusals, written anew from document 01,
// and what inputs are made of. ORION_SRC names a folder that holds crc.rs, ldpc.rs and ldpc_codes.rs.
#[allow(dead_code)]
pub mod crc {
    include!(concat!(env!("ORION_SRC"), "/crc.rs"));
}
#[allow(dead_code)]
pub mod ldpc {
    include!(concat!(env!("ORION_SRC"), "/ldpc.rs"));
    include!("../rust/tests/original/ldpc.rs");
}
#[allow(dead_code)]
pub mod ldpc_codes {
    include!(concat!(env!("ORION_SRC"), "/ldpc_codes.rs"));
    include!("../rust/tests/original/ldpc_codes.rs");
}

use ldpc_codes::{DecodeRule, Ldpc, LdpcCode};

// ---- the codes

pub const STAIRCASE: [LdpcCode; 3] = [LdpcCode::N512R12, LdpcCode::N576R23, LdpcCode::N512R34];

pub struct Codes {
    encoders: [Ldpc; 3],
    decoders: [Ldpc; 3],
    pub checks: [Vec<Vec<usize>>; 4],
}

impl Codes {
    pub fn new() -> Codes {
        let encoders = STAIRCASE.map(Ldpc::new);
        let decoders = STAIRCASE.map(|code| Ldpc::new(code).whole());
        let [a, b, c] = [0, 1, 2].map(|code: usize| encoders[code].checks());
        Codes { encoders, decoders, checks: [a, b, c, ldpc::checks()] }
    }

    pub fn n(&self, code: u8) -> usize {
        if code == 3 { ldpc::N } else { STAIRCASE[code as usize].n() }
    }

    pub fn k(&self, code: u8) -> usize {
        if code == 3 { ldpc::K } else { STAIRCASE[code as usize].k() }
    }

    // All N bits of the word that the Rust chooses, and its count; of rule 4, the word that document 02 says. Rule 3 is the
    // house default: scaled min-sum at 0.75, and rule 4 on code 3.
    pub fn decode(&self, code: u8, rule: u8, scale: f32, limit: u16, llr: &[f32]) -> (Vec<u8>, usize) {
        if code == 3 {
            let mut plain = [0u8; ldpc::N];
            let decoder = if rule >= 3 { ldpc::decode_rule_4 } else { ldpc::ldpc_decode_soft };
            let count = decoder(llr.try_into().unwrap(), limit as usize, &mut plain);
            return (plain.to_vec(), count);
        }
        let rule = match rule {
            1 => DecodeRule::MinSum,
            2 => DecodeRule::ScaledMinSum(scale),
            3 => DecodeRule::ScaledMinSum(0.75),
            _ => DecodeRule::SumProduct,
        };
        self.decoders[code as usize].decode_soft_with(llr, limit as usize, rule)
    }

    // The rounds run: the least limit under which the count is 0, or else the limit.
    pub fn rounds(&self, code: u8, rule: u8, scale: f32, limit: u16, llr: &[f32], count: usize) -> u16 {
        if count != 0 {
            return limit;
        }
        (0..=limit).find(|&less| self.decode(code, rule, scale, less, llr).1 == 0).unwrap()
    }

    // The lowest check that the word does not satisfy.
    pub fn first(&self, code: u8, word: &[u8]) -> Option<usize> {
        let odd = |bits: &Vec<usize>| bits.iter().map(|&bit| word[bit]).sum::<u8>() % 2 == 1;
        self.checks[code as usize].iter().position(odd)
    }
}

// ---- a batch, read and judged

fn u16_at(s: &[u8], i: usize) -> u16 {
    u16::from_le_bytes([s[i], s[i + 1]])
}

fn u32_at(s: &[u8], i: usize) -> u32 {
    u32::from_le_bytes([s[i], s[i + 1], s[i + 2], s[i + 3]])
}

fn malformed(s: &[u8]) -> bool {
    if s.len() > 65536 || s.len() < 12 || s[10] != 0 || s[11] != 0 {
        return true;
    }
    let start = 12 + 8 * u16_at(s, 8) as usize;
    s.len() < start || (s.len() - start) % 4 != 0
}

fn pair_refusal(pairs: &[(u64, u64)], n: u64, values: u64) -> Option<u8> {
    let mut end = 0;
    for &(offset, length) in pairs {
        if length != n {
            return Some(10);
        }
        if offset < end {
            return Some(11);
        }
        if offset + length > values {
            return Some(12);
        }
        end = offset + length;
    }
    None
}

fn refusal(codes: &Codes, code: u8, rule: u8, pairs: &[(u64, u64)], values: u64) -> Option<u8> {
    if code > 3 {
        return Some(1);
    }
    if rule > 4 {
        return Some(2);
    }
    if if code == 3 { rule == 1 || rule == 2 } else { rule == 4 } {
        return Some(3);
    }
    if pairs.len() > 24 {
        return Some(7);
    }
    pair_refusal(pairs, codes.n(code) as u64, values)
}

/// A batch as an input hands it over.
pub struct Batch {
    pub code: u8,
    pub rule: u8,
    pub limit: u16,
    pub scale: f32,
    pub pairs: Vec<(u64, u64)>,
    pub values: Vec<f32>,
}

impl Batch {
    /// The batch, or the number that it is refused by.
    pub fn read(codes: &Codes, s: &[u8]) -> Result<Batch, u8> {
        if malformed(s) {
            return Err(13);
        }
        let frames = u16_at(s, 8) as usize;
        let batch = Batch {
            code: s[0],
            rule: s[1],
            limit: u16_at(s, 2),
            scale: f32::from_bits(u32_at(s, 4)),
            pairs: (0..frames)
                .map(|j| (u32_at(s, 12 + 8 * j) as u64, u32_at(s, 16 + 8 * j) as u64))
                .collect(),
            values: s[12 + 8 * frames..].chunks(4).map(|b| f32::from_bits(u32_at(b, 0))).collect(),
        };
        refusal(codes, batch.code, batch.rule, &batch.pairs, batch.values.len() as u64).map_or(Ok(batch), Err)
    }

    /// The values of the frame at a place.
    pub fn frame(&self, place: usize) -> &[f32] {
        let (offset, length) = self.pairs[place];
        &self.values[offset as usize..(offset + length) as usize]
    }
}

pub fn packed(bits: &[u8]) -> Vec<u8> {
    let byte = |part: &[u8]| part.iter().enumerate().map(|(i, bit)| bit << (7 - i)).sum();
    bits.chunks(8).map(byte).collect()
}

// The block with the checksum that the Rust stores for its payload.
pub fn checksummed(block: &[u8; ldpc::K_BYTES]) -> [u8; ldpc::K_BYTES] {
    let mut stored = [0u8; ldpc::K_BYTES];
    crc::ft8_add_crc(block[..10].try_into().unwrap(), &mut stored);
    stored
}

// ---- inputs

#[derive(Clone)]
pub struct Input {
    pub code: u8,
    pub rule: u8,
    pub limit: u16,
    pub scale: u32,
    pub pairs: Vec<(u32, u32)>,
    pub values: Vec<u32>,
}

impl Input {
    pub fn new(code: u8, rule: u8, limit: u16) -> Input {
        Input { code, rule, limit, scale: 0, pairs: vec![], values: vec![] }
    }

    pub fn scale(mut self, bits: u32) -> Input {
        self.scale = bits;
        self
    }

    pub fn pair(mut self, offset: u32, length: u32) -> Input {
        self.pairs.push((offset, length));
        self
    }

    pub fn values(mut self, values: &[f32]) -> Input {
        self.values.extend(values.iter().map(|v| v.to_bits()));
        self
    }

    // The values, with a pair that names them.
    pub fn frame(self, values: &[f32]) -> Input {
        let at = self.values.len() as u32;
        self.pair(at, values.len() as u32).values(values)
    }

    pub fn bytes(&self) -> Vec<u8> {
        let mut s = vec![self.code, self.rule];
        s.extend(self.limit.to_le_bytes());
        s.extend(self.scale.to_le_bytes());
        s.extend((self.pairs.len() as u16).to_le_bytes());
        s.extend([0, 0]);
        for (offset, length) in &self.pairs {
            s.extend(offset.to_le_bytes());
            s.extend(length.to_le_bytes());
        }
        for bits in &self.values {
            s.extend(bits.to_le_bytes());
        }
        s
    }
}

pub struct Random(pub u64);

impl Random {
    pub fn word(&mut self) -> u32 {
        self.0 ^= self.0 << 13;
        self.0 ^= self.0 >> 7;
        self.0 ^= self.0 << 17;
        (self.0 >> 32) as u32
    }

    // About normal, with the variance 1: a sum of twelve.
    pub fn normal(&mut self) -> f32 {
        (0..12).map(|_| self.word() as f32 / 4294967296.0).sum::<f32>() - 6.0
    }
}

// Any 91 bits in 12 bytes, as a rule with a wrong checksum.
pub fn block(random: &mut Random) -> [u8; ldpc::K_BYTES] {
    let mut block = [0u8; ldpc::K_BYTES];
    for byte in block.iter_mut() {
        *byte = random.word() as u8;
    }
    block[11] &= 0xE0;
    block
}

pub fn encoded(block: &[u8; ldpc::K_BYTES]) -> Vec<u8> {
    let mut word = [0u8; ldpc::N_BYTES];
    ldpc::ldpc_encode(block, &mut word);
    (0..ldpc::N).map(|i| word[i / 8] >> (7 - i % 8) & 1).collect()
}

pub fn codeword(codes: &Codes, code: u8, random: &mut Random) -> Vec<u8> {
    if code == 3 {
        return encoded(&block(random));
    }
    let c = &codes.encoders[code as usize];
    let message: Vec<u8> = (0..c.k()).map(|_| random.word() as u8 & 1).collect();
    c.encode(&message)
}

// A codeword whose frame is clean: that of code 3 carries its checksum.
pub fn sent(codes: &Codes, code: u8, random: &mut Random) -> Vec<u8> {
    if code == 3 {
        return encoded(&checksummed(&block(random)));
    }
    codeword(codes, code, random)
}

// The word's log-likelihood ratios after noise of that deviation; a positive value is a zero.
pub fn received(word: &[u8], noise: f32, random: &mut Random) -> Vec<f32> {
    word.iter()
        .map(|&bit| 2.0 / (noise * noise) * (if bit == 0 { 1.0 } else { -1.0 } + noise * random.normal()))
        .collect()
}

// The same of a random codeword.
pub fn noisy(codes: &Codes, code: u8, noise: f32, random: &mut Random) -> Vec<f32> {
    received(&codeword(codes, code, random), noise, random)
}

// The word as a frame with no noise.
pub fn exact(word: &[u8]) -> Vec<f32> {
    word.iter().map(|&bit| if bit == 0 { 4.0 } else { -4.0 }).collect()
}

// Malformed inputs, and some that are just not.
pub fn malformed_inputs(all: &mut Vec<Vec<u8>>) {
    let head = Input::new(3, 0, 20).bytes();
    all.push(vec![]);
    all.push(head[..11].to_vec());
    all.push(head.clone());
    for place in [10, 11] {
        let mut s = head.clone();
        s[place] = 1;
        all.push(s);
    }
    for extra in 1..5 {
        let mut s = head.clone();
        s.extend(vec![0; extra]);
        all.push(s);
    }
    let one = Input::new(3, 0, 20).pair(0, 174).bytes();
    for length in [12, 13, 19, 20] {
        all.push(one[..length].to_vec());
    }
    // 13 before 1, 2 and 3
    for (code, rule) in [(4, 0), (0, 5), (0, 4), (3, 1)] {
        let mut s = Input::new(code, rule, 0).bytes();
        s.push(0);
        all.push(s);
    }
}

pub fn refused_inputs(all: &mut Vec<Vec<u8>>) {
    for (code, rule) in [(4, 0), (255, 255), (0, 5), (3, 255), (3, 5), (3, 1), (3, 2), (0, 4), (1, 4), (2, 4), (4, 4), (4, 5), (2, 3), (3, 4)] {
        all.push(Input::new(code, rule, 7).bytes());
    }
    let values = [1.0f32; 348];
    let two = |a: (u32, u32), b: (u32, u32)| Input::new(3, 0, 1).pair(a.0, a.1).pair(b.0, b.1).values(&values).bytes();
    all.push(two((0, 174), (174, 174)));
    all.push(two((0, 174), (173, 174)));
    all.push(two((0, 174), (175, 174)));
    all.push(two((0, 173), (174, 174)));
    all.push(two((0, 174), (0, 173)));
    all.push(two((174, 174), (0, 174)));
    let largest = u32::MAX;
    for pair in [
        (largest, 174),
        (largest - 173, 174),
        (largest - 174, 174),
        (0, largest),
        (largest, largest),
        (174, largest - 173),
        (1, 174),
        (0, 0),
    ] {
        all.push(Input::new(3, 0, 1).pair(pair.0, pair.1).values(&values[..174]).bytes());
        all.push(two((0, 174), pair));
    }
    let many = |count: usize| {
        let mut input = Input::new(3, 0, 1);
        input.pairs = (0..count as u32).map(|j| (174 * j, 174)).collect();
        input
    };
    for count in [24, 25, 26, 49] {
        all.push(many(count).values(&[1.0; 10]).bytes());
    }
    for (code, rule) in [(3, 0), (4, 0), (0, 5), (0, 4), (3, 1)] {
        let mut most = many(8190).values(&[1.0]);
        most.code = code;
        most.rule = rule;
        all.push(most.bytes());
    }
    let mut uncounted = many(8190).bytes();
    uncounted.truncate(65531);
    all.push(uncounted);
}

// Inputs with two faults, for each pair of refusals that a program's input can meet.
pub fn faulty_twice(all: &mut Vec<Vec<u8>>) {
    let fault = |input: &mut Input, which: usize| match which {
        0 => input.code = 4,
        1 => input.rule = 5,
        2 => input.rule = 1,
        3 => input.pairs = (0..25).map(|j| (174 * j, 174)).collect(),
        4 => input.pairs[0].1 = 173,
        5 => input.pairs[1].0 = 100,
        _ => input.values.truncate(347),
    };
    for first in 0..7 {
        for second in first..7 {
            let mut input = Input::new(3, 0, 1).pair(0, 174).pair(174, 174).values(&[1.0; 348]);
            fault(&mut input, first);
            fault(&mut input, second);
            all.push(input.bytes());
        }
    }
}

// As many values as fit 65,536 bytes, 24 frames among them; and one byte, and one value, more.
pub fn longest_inputs(codes: &Codes, random: &mut Random, all: &mut Vec<Vec<u8>>) {
    let mut input = Input::new(1, 1, 3);
    for _ in 0..24 {
        input = input.frame(&noisy(codes, 1, 0.6, random));
    }
    let left = (65536 - input.bytes().len()) / 4;
    input = input.values(&vec![1.0; left]);
    let mut s = input.bytes();
    all.push(s.clone());
    s.push(0);
    all.push(s);
}

// ---- stored inputs

/// Writes the inputs, each with its length before it, and what belongs to them, for a program that replays them.
pub fn store(folder: &str, inputs: &[Vec<u8>], answer: impl Fn(&[u8]) -> String) {
    let mut stdin = vec![];
    let mut stdout = String::new();
    for s in inputs {
        stdin.extend((s.len() as u32).to_le_bytes());
        stdin.extend(s);
        stdout += &answer(s);
    }
    std::fs::write(format!("{folder}/stdin"), stdin).unwrap();
    std::fs::write(format!("{folder}/stdout"), stdout).unwrap();
}
