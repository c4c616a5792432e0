//! Frames that are of use only together.
use std::ops::Range;

/// What the library writes into every bit byte of a move that it withholds. The byte of a bit is 0 or 1, and a move has bytes, so any of them tells.
const WITHHELD: u8 = 255;

/// A move of a batch: frames that follow each other, of which all are delivered or none is. No part of a withheld move can be read.
#[derive(Debug, Clone, PartialEq, Eq)]
pub struct Move<'a> {
    frames: Range<usize>,
    bits: Option<&'a [u8]>,
}

impl<'a> Move<'a> {
    /// The places of its frames in the batch, at which their counts, rounds and first checks are.
    pub fn frames(&self) -> Range<usize> {
        self.frames.clone()
    }

    /// The message bits of all its frames, K a frame, in place order, or `None` where a frame of it is not clean.
    pub fn bits(&self) -> Option<&'a [u8]> {
        self.bits
    }
}

/// The moves of an accepted batch, from what it left in the bit bytes, `k` a frame.
pub(crate) fn moves<'a>(k: usize, sizes: &[u32], mut bits: &'a [u8]) -> Vec<Move<'a>> {
    let mut first = 0;
    let next = |&size: &u32| {
        let frames = first..first + size as usize;
        let (own, rest) = bits.split_at(frames.len() * k);
        (first, bits) = (frames.end, rest);
        Move { frames, bits: Some(own).filter(|own| own[0] != WITHHELD) }
    };
    sizes.iter().map(next).collect()
}
