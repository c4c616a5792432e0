//! Frames one by one, with all that is told of each.
use crate::slices::{self, Reason};
use crate::{with_work, Code, DecodeRule, Refusal};

/// What a decode tells of one frame.
#[derive(Debug, Clone, PartialEq, Eq)]
pub struct Frame {
    /// The K message bits, one a byte.
    pub bits: Vec<u8>,
    /// How many parity checks the chosen word leaves unsatisfied; 0: it is a codeword.
    pub count: u16,
    /// How many rounds were run.
    pub rounds: u16,
    /// The lowest check that the chosen word leaves unsatisfied, or `None` where the count is 0.
    pub first_check: Option<u16>,
    /// Whether the frame can be trusted: its count is 0, none of its values is NaN and, for (174,91), its checksum is right.
    pub clean: bool,
}

/// Decodes each of the frames, N values each, in at most `limit` rounds. Refused where a frame has another length, or the rule is not one of the code's.
///
/// ```
/// use desklink::{decode_frames, Code, DecodeRule, Refusal};
/// let frames = decode_frames(Code::Ft8, DecodeRule::default(), 20, &[&[1.0; 174], &[f32::NAN; 174]])?;
/// assert_eq!((frames[0].count, frames[0].clean), (0, true));
/// assert_eq!((frames[1].count, frames[1].clean), (0, false));
/// # Ok::<(), Refusal>(())
/// ```
pub fn decode_frames(code: Code, rule: DecodeRule, limit: u16, frames: &[&[f32]]) -> Result<Vec<Frame>, Refusal> {
    frames.iter().map(|values| decode_frame(code, rule, limit, values)).collect()
}

fn decode_frame(code: Code, rule: DecodeRule, limit: u16, values: &[f32]) -> Result<Frame, Refusal> {
    if values.len() != code.n() {
        return Err(Refusal::InputLength);
    }
    let (number, scale) = rule.number_and_scale();
    let mut bits = vec![0; code.k()];
    let (mut count, mut rounds, mut first) = (0, 0, 0);
    let out = slices::Outputs {
        bits: &mut bits,
        counts: std::slice::from_mut(&mut count),
        rounds: std::slice::from_mut(&mut rounds),
        firsts: std::slice::from_mut(&mut first),
    };
    let pairs = [[0, code.n() as u32]];
    with_work(|work| slices::decode_batch(code.number(), number, limit, scale, values, &pairs, out, work))?;
    let clean = slices::frame_clean(code.number(), values, count, &bits)?;
    Ok(Frame { bits, count, rounds, first_check: slices::check(first), clean })
}

/// Why a frame is open, and the word that its decode chose.
#[derive(Debug, Clone, PartialEq, Eq)]
pub struct Explained {
    /// The first reason that applies, or that the frame is clean.
    pub reason: Reason,
    /// The N bits of the chosen word, one a byte; the first K of them are the message.
    pub word: Vec<u8>,
}

/// Decodes a frame of N values in at most `limit` rounds, and says why it is open, or that it is clean. Refused where it has another length, or the rule is
/// not one of the code's.
///
/// ```
/// use desklink::{frame_reason, Code, DecodeRule, Reason, Refusal};
/// let mut values = [4.0; 174];
/// assert_eq!(frame_reason(Code::Ft8, DecodeRule::default(), 20, &values)?.reason, Reason::Clean);
/// values[173] = f32::NAN;
/// assert_eq!(frame_reason(Code::Ft8, DecodeRule::default(), 20, &values)?.reason, Reason::Nan(173));
/// # Ok::<(), Refusal>(())
/// ```
pub fn frame_reason(code: Code, rule: DecodeRule, limit: u16, values: &[f32]) -> Result<Explained, Refusal> {
    let (number, scale) = rule.number_and_scale();
    let mut word = vec![0; code.n()];
    let reason = with_work(|work| slices::frame_reason(code.number(), number, scale, limit, values, &mut word, work))?;
    Ok(Explained { reason, word })
}
