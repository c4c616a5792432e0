//! Why a call was turned down.
use std::fmt;

/// A refusal, by its number. A refused call has written nothing.
#[derive(Debug, Clone, Copy, PartialEq, Eq, Hash)]
#[repr(u8)]
pub enum Refusal {
    /// The number names no code.
    UnknownCode = 1,
    /// The number names no decode rule: it is above 4.
    UnknownRule = 2,
    /// The rule is not one of the code's: (174,91) takes rules 0, 3 and 4, and no other code takes rule 4.
    RuleNotOfCode = 3,
    /// An input is not its fixed length, or has fewer bytes than the bits asked for.
    InputLength = 4,
    /// A staircase word to be counted has fewer than N bytes.
    WordTooShort = 5,
    /// A (174,91) message has a set bit among the low five of byte 11.
    MessageSlack = 6,
    /// A batch has more than 24 pairs.
    TooManyPairs = 7,
    /// An output is not exactly its length, or a list of cycles has not the room.
    OutputLength = 8,
    /// The work area has fewer than [`WORK`](crate::slices::WORK) values.
    WorkTooShort = 9,
    /// A pair's length is not the code's N.
    PairLength = 10,
    /// A pair starts below the end of the one before.
    PairOrder = 11,
    /// A pair ends past the values.
    PairPastEnd = 12,
    /// A program's input is malformed; no call here answers it.
    Malformed = 13,
    /// A sum of the totals would pass its limit.
    SumPastLimit = 14,
    /// A share or a mean is asked of no frames.
    NoFrames = 15,
    /// A byte of a word with erasures is above 2.
    ErasureByte = 16,
    /// A soft byte is -128.
    ByteOutOfRange = 17,
    /// A value is no soft byte's.
    NotEighths = 18,
    /// A program is asked about a frame past the last one; no call here answers it.
    NoSuchPlace = 19,
    /// A group's size is 0, or the sizes do not add up to the number of pairs.
    GroupSizes = 20,
}

impl Refusal {
    /// All of them, by their numbers.
    const ALL: [Refusal; 20] = [
        Refusal::UnknownCode,
        Refusal::UnknownRule,
        Refusal::RuleNotOfCode,
        Refusal::InputLength,
        Refusal::WordTooShort,
        Refusal::MessageSlack,
        Refusal::TooManyPairs,
        Refusal::OutputLength,
        Refusal::WorkTooShort,
        Refusal::PairLength,
        Refusal::PairOrder,
        Refusal::PairPastEnd,
        Refusal::Malformed,
        Refusal::SumPastLimit,
        Refusal::NoFrames,
        Refusal::ErasureByte,
        Refusal::ByteOutOfRange,
        Refusal::NotEighths,
        Refusal::NoSuchPlace,
        Refusal::GroupSizes,
    ];

    /// The number, 1 to 20.
    ///
    /// ```
    /// assert_eq!(desklink::Refusal::MessageSlack.number(), 6);
    /// ```
    pub fn number(self) -> u8 {
        self as u8
    }

    /// The refusal with that number.
    ///
    /// ```
    /// use desklink::Refusal;
    /// assert_eq!(Refusal::from_number(19), Some(Refusal::NoSuchPlace));
    /// assert_eq!(Refusal::from_number(21), None);
    /// ```
    pub fn from_number(number: u8) -> Option<Refusal> {
        Refusal::ALL.into_iter().find(|r| r.number() == number)
    }
}

impl fmt::Display for Refusal {
    fn fmt(&self, f: &mut fmt::Formatter<'_>) -> fmt::Result {
        f.write_str(match self {
            Refusal::UnknownCode => "no such code: use 0, 1 or 2 for a staircase code, and 3 for (174,91) in a batch",
            Refusal::UnknownRule => "no such decode rule: use 0 to 4",
            Refusal::RuleNotOfCode => "the rule is not one of the code's: use 0, 3 or 4 with (174,91), and 0 to 3 with a staircase code",
            Refusal::InputLength => "an input has the wrong length: pass K message bytes, N values, or as many bytes as the bits need",
            Refusal::WordTooShort => "the word to be counted is shorter than the code's N: pass at least N bytes",
            Refusal::MessageSlack => "the message has set bits past its 91: clear the low five bits of byte 11",
            Refusal::TooManyPairs => "a batch takes at most 24 pairs: split it",
            Refusal::OutputLength => "an output has the wrong length: lend exactly as many places as the call writes",
            Refusal::WorkTooShort => "the work area is too short: lend at least 3070 values",
            Refusal::PairLength => "a pair's length is not the code's N: each frame has exactly N values",
            Refusal::PairOrder => "a pair starts below the end of the one before: sort the pairs by offset, with no overlap",
            Refusal::PairPastEnd => "a pair ends past the values: pass all the values that the pairs name",
            Refusal::Malformed => "the input is malformed",
            Refusal::SumPastLimit => "a sum of the totals would pass its limit: start new totals",
            Refusal::NoFrames => "the totals hold no frames, so that there is no share and no mean",
            Refusal::ErasureByte => "a byte of the word with erasures is above 2: write 0 or 1 for a known bit, and 2 for an unknown one",
            Refusal::ByteOutOfRange => "a soft byte is -128: soft bytes go from -127 to 127",
            Refusal::NotEighths => "a value is no soft byte's: eight times it must be a whole number from -127 to 127, and -0.0 is none",
            Refusal::NoSuchPlace => "the place is that of no frame: it is below the number of pairs",
            Refusal::GroupSizes => "the group sizes are wrong: each is at least 1, and together they are as many as the batch has frames",
        })
    }
}

impl std::error::Error for Refusal {}
