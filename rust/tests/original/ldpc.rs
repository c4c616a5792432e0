// Beside the original ldpc.rs, in one module with it: what the tests read of its tables.

/// The places of each check's bits, counted from 0.
pub fn checks() -> Vec<Vec<usize>> {
    let row = |check: usize| NM[check][..NUM_ROWS[check] as usize].iter().map(|&place| place as usize - 1).collect();
    (0..M).map(row).collect()
}

/// Rule 4 (change request N3), for which there is no original: the staircase file's check step over this file's tables, with this file's sums.
/// The chosen word goes to `plain`; its count is the answer.
pub fn decode_rule_4(llr: &[f32; N], limit: usize, plain: &mut [u8; N]) -> usize {
    let checks = checks();
    let decide = |sum: f32| u8::from(sum <= 0.0);
    let mut messages: Vec<Vec<f32>> = checks.iter().map(|places| places.iter().map(|&p| llr[p]).collect()).collect();
    *plain = llr.map(decide);
    let mut least = ldpc_count_errors(plain);
    for _ in 0..limit {
        if least == 0 {
            break;
        }
        let answers: Vec<Vec<f32>> = messages.iter().map(|of_check| unnegated_answers(of_check)).collect();
        // the channel value and the answers of a place's checks, in MN order, all but one of them or all
        let sum = |p: usize, but: usize| {
            let others = MN[p].iter().map(|&check| check as usize - 1).filter(|&check| check != but);
            let answer = |check: usize| answers[check][checks[check].iter().position(|&q| q == p).unwrap()];
            others.fold(llr[p], |sum, check| sum + answer(check))
        };
        let word = std::array::from_fn(|p| decide(sum(p, M)));
        let count = ldpc_count_errors(&word);
        if count < least {
            least = count;
            *plain = word;
        }
        messages = (0..M).map(|check| checks[check].iter().map(|&p| sum(p, check)).collect()).collect();
    }
    least
}

/// The check step of the staircase file: the clamped product of the others' `fast_tanh`, in row order.
fn unnegated_answers(messages: &[f32]) -> Vec<f32> {
    let product = |i: usize| (0..messages.len()).filter(|&j| j != i).fold(1.0f32, |product, j| product * fast_tanh(messages[j] / 2.0));
    (0..messages.len()).map(|i| 2.0 * fast_atanh(product(i).clamp(-1.0, 1.0))).collect()
}
