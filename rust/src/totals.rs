//! Reception figures: totals of the frames of many batches, and fractions of them.
use crate::{slices, Code, Refusal};
use std::fmt;

/// Totals of frames. Each may be any number that its type holds; [`Totals::default`] has no frames.
///
/// ```
/// use desklink::{Batch, Code, DecodeRule, Fraction, Refusal, Totals};
/// let mut values = [1.0; 2 * 174];
/// values[174] = f32::NAN;
/// let pairs = [[0, 174], [174, 174]];
/// let (mut bits, mut counts, mut rounds, mut firsts) = ([0; 2 * 91], [0; 2], [0; 2], [0; 2]);
/// let batch = Batch {
///     code: Code::Ft8,
///     rule: DecodeRule::default(),
///     limit: 20,
///     values: &values,
///     pairs: &pairs,
///     bits: &mut bits,
///     counts: &mut counts,
///     rounds: &mut rounds,
///     firsts: &mut firsts,
/// };
/// batch.decode()?;
/// let mut day = Totals::default();
/// day.add(Code::Ft8, &values, &pairs, &bits, &counts, &rounds)?;
/// assert_eq!((day.frames, day.clean), (2, 1));
/// assert_eq!(day.share()?, Fraction { over: 1, under: 2 });
/// assert_eq!(day.mean()?.to_string(), "0/1");
/// assert_eq!(Totals::default().share(), Err(Refusal::NoFrames));
/// # Ok::<(), Refusal>(())
/// ```
#[derive(Debug, Clone, Copy, PartialEq, Eq, Hash, Default)]
pub struct Totals {
    /// How many frames.
    pub frames: u32,
    /// How many of them are clean.
    pub clean: u64,
    /// The sum of their counts.
    pub counts: u64,
    /// The sum of their rounds.
    pub rounds: u64,
}

/// A fraction in lowest terms; one of zero is 0/1. It is written as `3/4`.
#[derive(Debug, Clone, Copy, PartialEq, Eq, Hash)]
pub struct Fraction {
    /// The number over the line.
    pub over: u64,
    /// The number under the line, not 0.
    pub under: u64,
}

impl Totals {
    /// Adds the frames of a batch: of its values and pairs, and of the bits, counts and rounds that its call left. A code, pair or length that the batch
    /// would refuse is refused by the same number; [`Refusal::SumPastLimit`] leaves the totals as they were.
    ///
    /// [`Batch::decode_moves`](crate::Batch::decode_moves) leaves 255 in the bits of a move that it withholds. A (174,91) frame of such a move is counted as
    /// not clean, whatever it was; a staircase frame by its count and its values, which need no bits.
    pub fn add(&mut self, code: Code, values: &[f32], pairs: &[[u32; 2]], bits: &[u8], counts: &[u16], rounds: &[u16]) -> Result<(), Refusal> {
        slices::totals_add(self, code.number(), values, pairs, bits, counts, rounds)
    }

    /// The totals of the frames of both, in either order the same; or [`Refusal::SumPastLimit`], and these are as they were.
    pub fn join(&mut self, more: &Totals) -> Result<(), Refusal> {
        slices::totals_join(self, more)
    }

    /// The share of clean frames. Refused where there are no frames.
    pub fn share(&self) -> Result<Fraction, Refusal> {
        slices::clean_share(self)
    }

    /// The mean count of a frame. Refused where there are no frames.
    pub fn mean(&self) -> Result<Fraction, Refusal> {
        slices::mean_count(self)
    }
}

impl fmt::Display for Fraction {
    fn fmt(&self, f: &mut fmt::Formatter<'_>) -> fmt::Result {
        write!(f, "{}/{}", self.over, self.under)
    }
}
