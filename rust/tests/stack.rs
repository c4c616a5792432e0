//! Every call fits a stack of 64 KiB, which here holds the thread's own frames as well.
mod common;

use common::Random;
use desklink::slices;

const STACK: usize = 64 * 1024;

/// Runs the call on a thread with a stack of that size: it dies where the stack is too small.
fn on_small_stack(call: impl FnOnce() + Send + 'static) {
    std::thread::Builder::new().stack_size(STACK).spawn(call).unwrap().join().unwrap();
}

#[test]
fn decoders() {
    for code in 0..3 {
        for rule in 0..4 {
            let random = &mut Random(u64::from(10 * code + rule));
            let (n, k) = [(512, 256), (576, 384), (512, 384)][code as usize];
            let llr: Vec<f32> = (0..n).map(|_| random.normal() as f32).collect();
            let (mut bits, mut work) = (vec![0; k], vec![0.0; slices::WORK]);
            on_small_stack(move || {
                slices::decode_soft_with(code, rule, 0.75, 5, &llr, &mut bits, &mut work).unwrap();
            });
        }
    }
    let random = &mut Random(99);
    let llr: Vec<f32> = (0..174).map(|_| random.normal() as f32).collect();
    let (mut plain, mut work) = (vec![0; 174], vec![0.0; slices::WORK]);
    on_small_stack(move || {
        slices::ldpc_decode_soft(&llr, 5, &mut plain, &mut work).unwrap();
    });
}

#[test]
fn reasons() {
    for (code, n) in [(0, 512), (1, 576), (2, 512), (3, 174)] {
        let random = &mut Random(code.into());
        let values: Vec<f32> = (0..n).map(|_| random.normal() as f32).collect();
        let (mut word, mut work) = (vec![0; n], vec![0.0; slices::WORK]);
        on_small_stack(move || {
            slices::frame_reason(code, 3, 0.0, 5, &values, &mut word, &mut work).unwrap();
        });
    }
}

/// With groups: the batch lies beneath that call.
#[test]
fn batch() {
    for code in 0..4 {
        let random = &mut Random(u64::from(code));
        let (n, k) = [(512, 256), (576, 384), (512, 384), (174, 91)][code as usize];
        let values: Vec<f32> = (0..24 * n).map(|_| random.normal() as f32).collect();
        let pairs: Vec<[u32; 2]> = (0..24).map(|j| [(j * n) as u32, n as u32]).collect();
        let (mut bits, mut work) = (vec![0; 24 * k], vec![0.0; slices::WORK]);
        let [mut counts, mut rounds, mut firsts] = [0; 3].map(|n| vec![n; 24]);
        on_small_stack(move || {
            let out = slices::Outputs { bits: &mut bits, counts: &mut counts, rounds: &mut rounds, firsts: &mut firsts };
            slices::decode_groups(code, 0, 5, 1.0, &values, &pairs, &[20, 4], out, &mut work).unwrap();
            let records: Vec<slices::Pair> = pairs.iter().map(|&pair| pair.into()).collect();
            let out = slices::Outputs { bits: &mut bits, counts: &mut counts, rounds: &mut rounds, firsts: &mut firsts };
            slices::decode_pairs(code, 0, 5, 1.0, &values, &records, out, &mut work).unwrap();
        });
    }
}

#[test]
fn encoders_and_counters() {
    on_small_stack(|| {
        let mut codeword = vec![0; 512];
        slices::encode(0, &[1; 256], &mut codeword).unwrap();
        slices::syndrome_weight(0, &codeword).unwrap();
        let mut packed = [0; 22];
        slices::ldpc_encode(&[0; 12], &mut packed).unwrap();
        slices::ldpc_count_errors(&[1; 174]).unwrap();
        slices::list_cycles(1, &mut [[0; 4]; slices::MOST_CYCLES]).unwrap();
    });
}
