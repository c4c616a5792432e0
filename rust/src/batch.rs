//! Many frames of one code in one call.
use crate::moves::{moves, Move};
use crate::{slices, with_work, DecodeRule, LdpcCode, Refusal};

/// The codes of a batch: the three staircase codes, and (174,91).
#[derive(Debug, Clone, Copy, PartialEq, Eq)]
pub enum Code {
    /// One of the staircase codes, 0 to 2.
    Staircase(LdpcCode),
    /// FT8's (174,91) code, number 3.
    Ft8,
}

impl Code {
    /// Values of a frame, which are the bits of its codeword.
    pub fn n(self) -> usize {
        match self {
            Code::Staircase(code) => code.n(),
            Code::Ft8 => crate::N,
        }
    }

    /// Message bits of a frame.
    pub fn k(self) -> usize {
        match self {
            Code::Staircase(code) => code.k(),
            Code::Ft8 => crate::K,
        }
    }

    /// The number that the library knows the code by.
    pub fn number(self) -> u32 {
        match self {
            Code::Staircase(code) => code.number(),
            Code::Ft8 => 3,
        }
    }
}

impl From<LdpcCode> for Code {
    fn from(code: LdpcCode) -> Code {
        Code::Staircase(code)
    }
}

/// A batch: what it reads and where it writes, borrowed for the call.
///
/// ```
/// use desklink::{slices, Batch, Code, DecodeRule, Refusal};
/// let (mut bits, mut counts, mut rounds, mut firsts) = ([9; 2 * 91], [9; 2], [9; 2], [9; 2]);
/// let batch = Batch {
///     code: Code::Ft8,
///     rule: DecodeRule::default(),
///     limit: 20,
///     values: &[1.0; 348],
///     pairs: &[[0, 174], [174, 174]],
///     bits: &mut bits,
///     counts: &mut counts,
///     rounds: &mut rounds,
///     firsts: &mut firsts,
/// };
/// batch.decode()?;
/// assert_eq!((bits, counts, rounds, firsts), ([0; 182], [0; 2], [0; 2], [slices::NO_CHECK; 2]));
/// # Ok::<(), Refusal>(())
/// ```
#[derive(Debug)]
pub struct Batch<'a> {
    /// The code of every frame.
    pub code: Code,
    /// The rule of every frame.
    pub rule: DecodeRule,
    /// The most rounds of a frame.
    pub limit: u16,
    /// The channel values of all frames.
    pub values: &'a [f32],
    /// Each frame's offset in the values, and its length, which is the code's N; sorted by offset, at most 24.
    pub pairs: &'a [[u32; 2]],
    /// K places a pair, in place order.
    pub bits: &'a mut [u8],
    /// One place a pair: how many checks the frame's chosen word leaves unsatisfied.
    pub counts: &'a mut [u16],
    /// One place a pair: how many rounds it ran.
    pub rounds: &'a mut [u16],
    /// One place a pair: the lowest check that the chosen word leaves unsatisfied, or [`slices::NO_CHECK`].
    pub firsts: &'a mut [u16],
}

impl<'a> Batch<'a> {
    /// Decodes every frame, or is refused and writes nothing.
    pub fn decode(self) -> Result<(), Refusal> {
        self.by(slices::decode_batch).map(drop)
    }

    /// The same of a batch that was stored when the house default stood for sum-product: rule 3 is taken as rule 0.
    pub fn decode_stored(self) -> Result<(), Refusal> {
        self.by(slices::decode_stored_batch).map(drop)
    }

    /// Decodes every frame, and hands out the moves that they make: each takes the next frames, as many as its size says, at least 1. Refused as
    /// [`Batch::decode`] is, and where the sizes are not those of all frames. With no sizes there are no moves.
    ///
    /// ```
    /// use desklink::{Batch, Code, DecodeRule, Refusal};
    /// let mut values = [1.0; 3 * 174];
    /// values[174] = f32::NAN;
    /// let (mut bits, mut counts, mut rounds, mut firsts) = ([9; 3 * 91], [9; 3], [9; 3], [9; 3]);
    /// let batch = Batch {
    ///     code: Code::Ft8,
    ///     rule: DecodeRule::default(),
    ///     limit: 20,
    ///     values: &values,
    ///     pairs: &[[0, 174], [174, 174], [348, 174]],
    ///     bits: &mut bits,
    ///     counts: &mut counts,
    ///     rounds: &mut rounds,
    ///     firsts: &mut firsts,
    /// };
    /// let moves = batch.decode_moves(&[2, 1])?;
    /// assert_eq!((moves[0].frames(), moves[0].bits()), (0..2, None));
    /// assert_eq!((moves[1].frames(), moves[1].bits()), (2..3, Some(&[0; 91][..])));
    /// # Ok::<(), Refusal>(())
    /// ```
    pub fn decode_moves(self, sizes: &[u32]) -> Result<Vec<Move<'a>>, Refusal> {
        let k = self.code.k();
        let bits =
            self.by(|code, rule, limit, scale, values, pairs, out, work| slices::decode_groups(code, rule, limit, scale, values, pairs, sizes, out, work))?;
        Ok(moves(k, sizes, bits))
    }

    /// What the call left in the bit bytes.
    fn by<Call>(self, call: Call) -> Result<&'a [u8], Refusal>
    where
        Call: FnOnce(u32, u32, u16, f32, &[f32], &[[u32; 2]], slices::Outputs<'_>, &mut [f32]) -> Result<(), Refusal>,
    {
        let (rule, scale) = self.rule.number_and_scale();
        let out = slices::Outputs { bits: &mut *self.bits, counts: self.counts, rounds: self.rounds, firsts: self.firsts };
        with_work(|work| call(self.code.number(), rule, self.limit, scale, self.values, self.pairs, out, work))?;
        Ok(self.bits)
    }
}
