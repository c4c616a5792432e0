#!/usr/bin/env python3
"""Makes the inputs and the expected output of the test program crates/softmath_replay.

Run in the repository's root:  ORION_SRC=FOLDER python3 tools/softmath_replay.py
FOLDER has the Rust files ldpc.rs and ldpc_codes.rs (or src--src--codec--ldpc.rs.txt and
src--src--fec--ldpc_codes.rs.txt). rustc must be on the path.

The Rust keeps the check step and the variable node inside its decoders, so their text is cut out of
the two files and compiled unchanged inside a small harness: what it prints is the expected output.

A bit of three edges has its answers at places 3, 7 and 1 of the floats (records 5 and 6). Record 9 is three parity
bits of a staircase code, whose answers lie at 3 and 7, at 4 and 8, and at 5.

Records 7 and 8 are the min-sum records 2 and 3 again: the program answers them by its second engine,
and the Rust's answers are the same."""
import os, random, re, struct, subprocess, sys, tempfile

SRC = os.environ.get('ORION_SRC')
if not SRC:
    sys.exit(__doc__)
EDGES = [3, 7, 1]
PARITY = [[3, 7], [4, 8], [5]]


def source(*names):
    for name in names:
        path = os.path.join(SRC, name)
        if os.path.exists(path):
            return open(path, encoding='utf-8').read()
    sys.exit('no such file in ORION_SRC: ' + ' or '.join(names))


def braces(text, start):
    """The text from start to the brace that closes the first one after it."""
    depth, i = 0, text.index('{', start)
    while True:
        depth += {'{': 1, '}': -1}.get(text[i], 0)
        i += 1
        if depth == 0:
            return text[start:i]


def cut(text, mark, head):
    """The block that starts with head, the first after mark."""
    return braces(text, text.index(head, text.index(mark)))


def harness():
    ft8 = source('ldpc.rs', 'src--src--codec--ldpc.rs.txt')
    stair = source('ldpc_codes.rs', 'src--src--fec--ldpc_codes.rs.txt')
    functions = lambda t: cut(t, 'fn fast_tanh', 'fn fast_tanh') + '\n' + cut(t, 'fn fast_atanh', 'fn fast_atanh')
    ft8_decided = cut(ft8, '// Variable-node hard decision', 'for i in 0..N')
    stair_decided = cut(stair, '// Variable-node hard decision', 'for (bit, checks)')
    return '''
#![allow(non_snake_case, unused)]
use std::io::Read;
mod ft8 {
    pub mod f { pub FUNCTIONS_FT8 }
    use f::*;
    pub fn check(values: &[f32]) -> Vec<f32> {
        let (M, m, mut e) = (1, vec![values.to_vec()], vec![vec![0.0f32; values.len()]]);
        let (NUM_ROWS, NM) = ([values.len()], [(1..=values.len()).collect::<Vec<usize>>()]);
        CHECK_FT8
        e[0].clone()
    }
    pub fn bit(value: f32, answers: &[f32]) -> (u8, Vec<f32>) {
        let (N, llr, MN) = (1, [value], [[1, 2, 3]]);
        let e: Vec<Vec<f32>> = answers.iter().map(|a| vec![*a]).collect();
        let (mut m, mut plain) = (e.clone(), [0u8]);
        DECIDED_FT8
        MESSAGES_FT8
        (plain[0], m.iter().map(|r| r[0]).collect())
    }
}
mod stair {
    pub mod f { pub FUNCTIONS_STAIR }
    use f::*;
    #[derive(Clone, Copy)]
    RULE
    pub struct Graph {
        check_bits: Vec<Vec<usize>>,
        bit_checks: Vec<Vec<usize>>,
        bit_check_edge_idx: Vec<Vec<usize>>,
    }
    impl Graph {
        pub fn check(values: &[f32], rule: DecodeRule) -> Vec<f32> {
            let deg = values.len();
            let (check_start, msg, mut ext) = ([0usize], values.to_vec(), vec![0.0f32; deg]);
            let mut tanh_half = vec![0.0f32; deg];
            let g = Graph { check_bits: vec![(0..deg).collect()], bit_checks: vec![], bit_check_edge_idx: vec![] };
            g.check_into(&check_start, &msg, &mut ext, &mut tanh_half, rule);
            ext
        }
        fn check_into(&self, check_start: &[usize], msg: &[f32], ext: &mut [f32], tanh_half: &mut [f32], rule: DecodeRule) {
            CHECK_STAIR
        }
        pub fn bit(value: f32, answers: &[f32]) -> (u8, Vec<f32>) {
            let n = answers.len();
            let g = Graph { check_bits: vec![], bit_checks: vec![(0..n).collect()], bit_check_edge_idx: vec![vec![0; n]] };
            let check_start: Vec<usize> = (0..n).collect();
            let (mut hard, mut msg) = (vec![0u8], vec![0.0f32; n]);
            g.bit_into(&check_start, &[value], answers, &mut hard, &mut msg);
            (hard[0], msg)
        }
        fn bit_into(&self, check_start: &[usize], llr: &[f32], ext: &[f32], hard: &mut [u8], msg: &mut [f32]) {
            DECIDED_STAIR
            MESSAGES_STAIR
        }
    }
}
const EDGES: [usize; 3] = EDGES_LIST;
const PARITY: [&[usize]; 3] = PARITY_LIST;
fn show(x: f32) {
    if x.is_nan() { println!("nan") } else { println!("{:08x}", x.to_bits()) }
}
fn show_bits(answers: &[(u8, Vec<f32>)], places: &[&[usize]], work: &[f32]) {
    let mut after = work.to_vec();
    for (answer, places) in answers.iter().zip(places) {
        println!("{:08x}", answer.0);
        for (k, &place) in places.iter().enumerate() { after[place] = answer.1[k]; }
    }
    after.iter().for_each(|x| show(*x));
}
fn main() {
    let mut bytes = Vec::new();
    std::io::stdin().read_to_end(&mut bytes).unwrap();
    for record in bytes.chunks_exact(52) {
        let words: Vec<f32> = record.chunks_exact(4).map(|b| f32::from_le_bytes([b[0], b[1], b[2], b[3]])).collect();
        let (what, n, parameter, work) = (record[0], record[1] as usize, words[1], &words[2..]);
        let part = &work[..n];
        let at = |places: &[usize]| places.iter().map(|&p| work[p]).collect::<Vec<f32>>();
        use stair::{DecodeRule, Graph};
        match what {
            0 => for &x in part {
                let (t, a) = (ft8::f::fast_tanh(x), ft8::f::fast_atanh(x));
                assert!(t.to_bits() == stair::f::fast_tanh(x).to_bits() || t.is_nan() && stair::f::fast_tanh(x).is_nan());
                assert!(a.to_bits() == stair::f::fast_atanh(x).to_bits() || a.is_nan() && stair::f::fast_atanh(x).is_nan());
                show(t);
                show(a);
            },
            1 => Graph::check(part, DecodeRule::SumProduct).iter().for_each(|x| show(*x)),
            2 | 7 => Graph::check(part, DecodeRule::MinSum).iter().for_each(|x| show(*x)),
            3 | 8 => Graph::check(part, DecodeRule::ScaledMinSum(parameter)).iter().for_each(|x| show(*x)),
            4 => ft8::check(part).iter().for_each(|x| show(*x)),
            5 => show_bits(&[Graph::bit(parameter, &at(&EDGES))], &[&EDGES], work),
            6 => show_bits(&[ft8::bit(parameter, &at(&EDGES))], &[&EDGES], work),
            9 => show_bits(&PARITY.map(|places| Graph::bit(parameter, &at(places))), &PARITY, work),
            _ => unreachable!(),
        }
    }
}
'''.replace('pub FUNCTIONS_FT8', functions(ft8).replace('fn fast', 'pub fn fast')) \
   .replace('pub FUNCTIONS_STAIR', functions(stair).replace('fn fast', 'pub fn fast')) \
   .replace('CHECK_FT8', cut(ft8, '// Check-node update', 'for j in 0..M')) \
   .replace('DECIDED_FT8', ft8_decided) \
   .replace('MESSAGES_FT8', cut(ft8, '// Variable-to-check update', 'for i in 0..N')) \
   .replace('RULE', cut(stair, 'pub enum DecodeRule', 'pub enum DecodeRule')) \
   .replace('CHECK_STAIR', cut(stair, '// Check-node update', 'for (c, bits)')) \
   .replace('DECIDED_STAIR', stair_decided) \
   .replace('MESSAGES_STAIR', cut(stair, '// Variable→check update', 'for (bit, checks)')) \
   .replace('EDGES_LIST', str(EDGES)) \
   .replace('PARITY_LIST', str(PARITY).replace('[', '&[').replace('&[&', '[&', 1))


# ---- the inputs

def bits(x):
    return struct.unpack('<I', struct.pack('<f', x))[0]


def record(what, n, parameter, floats):
    return struct.pack('<BBHI11I', what, n, 0, parameter, *(floats + [0] * (11 - len(floats))))


def around(x, reach):
    return [b + d for b in (bits(x), bits(-x)) for d in range(-reach, reach + 1)]


SPECIAL = [0, 0x80000000, 0x7f800000, 0xff800000, 0x7fc00000, 1, 0x80000001, 0x007fffff, 0x807fffff, 0x00800000, 0x80800000, 0x7f7fffff, 0xff7fffff]
NEAR = [bits(x) for x in (0.5, -0.5, 1.0, -1.0, 2.0, -2.0, 3.0, -3.0, 9.94, -9.94, 9.95, -9.95, 20.0, -20.0)]
SCALES = [bits(x) for x in (1.0, 0.75, 0.8, 0.0, -0.0, -1.25)] + [0x7f800000, 0x7fc00000, 1]


def inputs():
    r = random.Random(174)
    xs = SPECIAL + around(4.97, 4) + around(1.0, 4) + around(1.1035, 4) + around(1.10353, 4) + [bits(5.0), bits(-5.0), bits(0.5)]
    xs += [r.getrandbits(32) for _ in range(10000)]
    xs += [r.randrange(bits(0.001), bits(6.0)) | r.getrandbits(1) << 31 for _ in range(1000)]
    out = [record(0, len(xs[i:i + 11]), 0, xs[i:i + 11]) for i in range(0, len(xs), 11)]
    kinds = [
        lambda: r.choice(SPECIAL),
        lambda: r.choice(NEAR),
        lambda: r.choice(NEAR),
        lambda: bits(r.gauss(0, 4)),
        lambda: bits(r.gauss(0, 4)),
        lambda: r.getrandbits(32),
    ]
    mixed = lambda: r.choice(kinds)()
    usual = lambda: bits(r.gauss(1, 3))
    for what in (1, 2, 3, 4):
        for degree in range(4, 12):
            for turn in range(16):
                draw = usual if turn < 6 else (lambda: r.choice(NEAR)) if turn < 10 else mixed
                out.append(record(what, degree, r.choice(SCALES), [draw() for _ in range(degree)]))
    out.append(record(2, 4, 0, [bits(2.0), bits(-3.0), bits(2.0), 0x7fc00000]))
    for what in (5, 6, 9):
        floats = [bits(1.0)] * 11
        floats[1] = 0
        out.append(record(what, 11, bits(16777216.0), floats))
        out.append(record(what, 11, 0x80000000, [0x80000000] * 11))
        for turn in range(72):
            draw = usual if turn < 24 else mixed
            out.append(record(what, 11, draw(), [draw() for _ in range(11)]))
    for what in (2, 3):
        for degree in range(1, 12):
            for few in ([bits(2.0), bits(-2.0)], [0, 0x80000000], [0x7fc00000], [0x7fc00000, bits(1.0), bits(-1.0)], [0x7f800000, 0xff800000, 0x7fc00000]):
                out.append(record(what, degree, r.choice(SCALES), [r.choice(few) for _ in range(degree)]))
    second = {2: 7, 3: 8}
    return b''.join(out + [bytes([second[o[0]]]) + o[1:] for o in out if o[0] in second])


folder = 'crates/softmath_replay'
data = inputs()
with tempfile.TemporaryDirectory() as tmp:
    open(tmp + '/harness.rs', 'w', encoding='utf-8').write(harness())
    subprocess.run(['rustc', '--edition', '2021', '-O', '-A', 'warnings', '-o', tmp + '/harness', tmp + '/harness.rs'], check=True)
    answers = subprocess.run([tmp + '/harness'], input=data, stdout=subprocess.PIPE, check=True).stdout
open(folder + '/stdin', 'wb').write(data)
open(folder + '/stdout', 'wb').write(answers)
print(len(data) // 52, 'records,', answers.count(b'\n'), 'lines')
