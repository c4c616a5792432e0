//! The calls on plain slices, each tested and refused by the library itself. The orion-sdr shapes of the crate's root are written over these.
use crate::floats::DefaultFloats;
use crate::{Fraction, Refusal, Totals};

mod ffi {
    use super::Pair;

    extern "C" {
        pub fn desklink_ft8_crc14(message: *const u8, message_len: usize, num_bits: usize) -> i32;
        pub fn desklink_ft8_add_crc(payload: *const u8, payload_len: usize, a91: *mut u8, a91_len: usize) -> i32;
        pub fn desklink_ft8_extract_crc(a91: *const u8, a91_len: usize) -> i32;
        pub fn desklink_ldpc_encode(message: *const u8, message_len: usize, codeword: *mut u8, codeword_len: usize) -> i32;
        pub fn desklink_ldpc_count_errors(hard: *const u8, hard_len: usize, first: *mut u16) -> i32;
        pub fn desklink_ldpc_decode_soft_unguarded(
            llr: *const f32,
            llr_len: usize,
            limit: u16,
            plain: *mut u8,
            plain_len: usize,
            rounds: *mut u16,
            first: *mut u16,
            work: *mut f32,
            work_len: usize,
        ) -> i32;
        pub fn desklink_encode(code: u32, message: *const u8, message_len: usize, codeword: *mut u8, codeword_len: usize) -> i32;
        pub fn desklink_syndrome_weight(code: u32, hard: *const u8, hard_len: usize, first: *mut u16) -> i32;
        pub fn desklink_decode_soft_unguarded(
            code: u32,
            limit: u16,
            llr: *const f32,
            llr_len: usize,
            bits: *mut u8,
            bits_len: usize,
            rounds: *mut u16,
            first: *mut u16,
            work: *mut f32,
            work_len: usize,
        ) -> i32;
        pub fn desklink_decode_soft_with_unguarded(
            code: u32,
            rule: u32,
            scale: f32,
            limit: u16,
            llr: *const f32,
            llr_len: usize,
            bits: *mut u8,
            bits_len: usize,
            rounds: *mut u16,
            first: *mut u16,
            work: *mut f32,
            work_len: usize,
        ) -> i32;
        pub fn desklink_decode_batch_unguarded(
            code: u32,
            rule: u32,
            limit: u16,
            scale: f32,
            values: *const f32,
            values_len: usize,
            pairs: *const u32,
            pairs_len: usize,
            bits: *mut u8,
            bits_len: usize,
            counts: *mut u16,
            counts_len: usize,
            rounds: *mut u16,
            rounds_len: usize,
            firsts: *mut u16,
            firsts_len: usize,
            work: *mut f32,
            work_len: usize,
        ) -> i32;
        pub fn desklink_decode_pairs_unguarded(
            code: u32,
            rule: u32,
            limit: u16,
            scale: f32,
            values: *const f32,
            values_len: usize,
            pairs: *const Pair,
            pairs_len: usize,
            bits: *mut u8,
            bits_len: usize,
            counts: *mut u16,
            counts_len: usize,
            rounds: *mut u16,
            rounds_len: usize,
            firsts: *mut u16,
            firsts_len: usize,
            work: *mut f32,
            work_len: usize,
        ) -> i32;
        pub fn desklink_decode_stored_batch_unguarded(
            code: u32,
            rule: u32,
            limit: u16,
            scale: f32,
            values: *const f32,
            values_len: usize,
            pairs: *const u32,
            pairs_len: usize,
            bits: *mut u8,
            bits_len: usize,
            counts: *mut u16,
            counts_len: usize,
            rounds: *mut u16,
            rounds_len: usize,
            firsts: *mut u16,
            firsts_len: usize,
            work: *mut f32,
            work_len: usize,
        ) -> i32;
        pub fn desklink_decode_groups_unguarded(
            code: u32,
            rule: u32,
            limit: u16,
            scale: f32,
            values: *const f32,
            values_len: usize,
            pairs: *const u32,
            pairs_len: usize,
            sizes: *const u32,
            sizes_len: usize,
            bits: *mut u8,
            bits_len: usize,
            counts: *mut u16,
            counts_len: usize,
            rounds: *mut u16,
            rounds_len: usize,
            firsts: *mut u16,
            firsts_len: usize,
            work: *mut f32,
            work_len: usize,
        ) -> i32;
        pub fn desklink_frame_clean_unguarded(code: u32, values: *const f32, values_len: usize, count: u16, bits: *const u8, bits_len: usize) -> i32;
        pub fn desklink_frame_reason_unguarded(
            code: u32,
            rule: u32,
            scale: f32,
            limit: u16,
            values: *const f32,
            values_len: usize,
            word: *mut u8,
            word_len: usize,
            part: *mut u16,
            computed: *mut u16,
            work: *mut f32,
            work_len: usize,
        ) -> i32;
        pub fn desklink_totals_add_unguarded(
            frames: *mut u32,
            clean: *mut u64,
            count_sum: *mut u64,
            round_sum: *mut u64,
            code: u32,
            values: *const f32,
            values_len: usize,
            pairs: *const u32,
            pairs_len: usize,
            bits: *const u8,
            bits_len: usize,
            counts: *const u16,
            counts_len: usize,
            rounds: *const u16,
            rounds_len: usize,
        ) -> i32;
        pub fn desklink_totals_join_unguarded(
            frames: *mut u32,
            clean: *mut u64,
            counts: *mut u64,
            rounds: *mut u64,
            more_frames: u32,
            more_clean: u64,
            more_counts: u64,
            more_rounds: u64,
        ) -> i32;
        pub fn desklink_clean_share_unguarded(frames: u32, clean: u64, over: *mut u64, under: *mut u64) -> i32;
        pub fn desklink_mean_count_unguarded(frames: u32, counts: u64, over: *mut u64, under: *mut u64) -> i32;
        pub fn desklink_fill_erasures(code: u32, word: *mut u8, word_len: usize, places: *mut u16, places_len: usize) -> i32;
        pub fn desklink_list_cycles(code: u32, places: *mut u16, places_len: usize, relaxed: *mut u16) -> i32;
        pub fn desklink_pack_bits(word: *const u8, word_len: usize, bytes: *mut u8, bytes_len: usize) -> i32;
        pub fn desklink_unpack_bits(bytes: *const u8, bytes_len: usize, word: *mut u8, word_len: usize) -> i32;
        pub fn desklink_values_of_bytes_unguarded(bytes: *const i8, bytes_len: usize, positive_is_one: u32, values: *mut f32, values_len: usize) -> i32;
        pub fn desklink_bytes_of_values_unguarded(values: *const f32, values_len: usize, positive_is_one: u32, bytes: *mut i8, bytes_len: usize) -> i32;
    }
}

/// The length of a work area that is never too short.
pub const WORK: usize = 3070;

/// The most pairs of a batch.
pub const MOST_PAIRS: usize = 24;

/// What a batch writes as the first check of a frame whose checks are all satisfied.
pub const NO_CHECK: u16 = 65_535;

/// The most cycles of length four that a staircase code has.
pub const MOST_CYCLES: usize = 41;

/// What is told of a word: how many parity checks it leaves unsatisfied, 0 for a codeword, and the first of them.
#[derive(Debug, Clone, Copy, PartialEq, Eq)]
pub struct Counted {
    /// How many checks are unsatisfied.
    pub count: u16,
    /// The lowest of their numbers, counted from 0, or `None` where the count is 0.
    pub first: Option<u16>,
}

/// What is told of a decode beside the bits.
#[derive(Debug, Clone, Copy, PartialEq, Eq)]
pub struct Decoded {
    /// How many checks the chosen word leaves unsatisfied.
    pub count: u16,
    /// How many rounds were run.
    pub rounds: u16,
    /// The lowest check that the chosen word leaves unsatisfied, or `None` where the count is 0.
    pub first: Option<u16>,
}

/// What is told of a code's cycles of length four beside the list.
#[derive(Debug, Clone, Copy, PartialEq, Eq)]
pub struct Listed {
    /// How many cycles there are.
    pub cycles: u16,
    /// How many picks of the code's construction were relaxed.
    pub relaxed: u16,
}

/// The check that a number of the library names.
pub(crate) fn check(number: u16) -> Option<u16> {
    Some(number).filter(|&c| c != NO_CHECK)
}

/// A value from 0 up, or minus a refusal's number. Every value of the library fits 16 bits.
fn answer(number: i32) -> Result<u16, Refusal> {
    if number >= 0 {
        return Ok(number as u16);
    }
    Err(Refusal::from_number(-number as u8).expect("the library answers a refusal by minus its number"))
}

// Safety, in each function below: a slice's pointer and length are those of memory that Rust has lent for the call; the
// `&mut` slices overlap nothing; and the library's contracts have no other condition.

/// The CRC-14 of the first `num_bits` bits.
pub fn ft8_crc14(message: &[u8], num_bits: usize) -> Result<u16, Refusal> {
    answer(unsafe { ffi::desklink_ft8_crc14(message.as_ptr(), message.len(), num_bits) })
}

/// 10 payload bytes to a block of 12.
pub fn ft8_add_crc(payload: &[u8], a91: &mut [u8]) -> Result<(), Refusal> {
    answer(unsafe { ffi::desklink_ft8_add_crc(payload.as_ptr(), payload.len(), a91.as_mut_ptr(), a91.len()) }).map(drop)
}

/// The checksum that a block of 12 bytes carries.
pub fn ft8_extract_crc(a91: &[u8]) -> Result<u16, Refusal> {
    answer(unsafe { ffi::desklink_ft8_extract_crc(a91.as_ptr(), a91.len()) })
}

/// 12 message bytes to a (174,91) codeword of 22.
pub fn ldpc_encode(message: &[u8], codeword: &mut [u8]) -> Result<(), Refusal> {
    answer(unsafe { ffi::desklink_ldpc_encode(message.as_ptr(), message.len(), codeword.as_mut_ptr(), codeword.len()) }).map(drop)
}

/// The (174,91) checks whose bytes XOR to other than 0.
pub fn ldpc_count_errors(hard: &[u8]) -> Result<Counted, Refusal> {
    let mut first = NO_CHECK;
    let count = answer(unsafe { ffi::desklink_ldpc_count_errors(hard.as_ptr(), hard.len(), &mut first) })?;
    Ok(Counted { count, first: check(first) })
}

/// 174 values to 174 bits and the count of unsatisfied checks.
pub fn ldpc_decode_soft(llr: &[f32], limit: u16, plain: &mut [u8], work: &mut [f32]) -> Result<Decoded, Refusal> {
    let _floats = DefaultFloats::set();
    let (mut rounds, mut first) = (0, NO_CHECK);
    let count = answer(unsafe {
        ffi::desklink_ldpc_decode_soft_unguarded(
            llr.as_ptr(),
            llr.len(),
            limit,
            plain.as_mut_ptr(),
            plain.len(),
            &mut rounds,
            &mut first,
            work.as_mut_ptr(),
            work.len(),
        )
    })?;
    Ok(Decoded { count, rounds, first: check(first) })
}

/// K message bytes to a staircase codeword of N.
pub fn encode(code: u32, message: &[u8], codeword: &mut [u8]) -> Result<(), Refusal> {
    answer(unsafe { ffi::desklink_encode(code, message.as_ptr(), message.len(), codeword.as_mut_ptr(), codeword.len()) }).map(drop)
}

/// The staircase checks that the low bits of the first N bytes leave unsatisfied.
pub fn syndrome_weight(code: u32, hard: &[u8]) -> Result<Counted, Refusal> {
    let mut first = NO_CHECK;
    let count = answer(unsafe { ffi::desklink_syndrome_weight(code, hard.as_ptr(), hard.len(), &mut first) })?;
    Ok(Counted { count, first: check(first) })
}

/// N values to K bits and the count of unsatisfied checks, by sum-product.
pub fn decode_soft(code: u32, limit: u16, llr: &[f32], bits: &mut [u8], work: &mut [f32]) -> Result<Decoded, Refusal> {
    let _floats = DefaultFloats::set();
    let (mut rounds, mut first) = (0, NO_CHECK);
    let count = answer(unsafe {
        ffi::desklink_decode_soft_unguarded(
            code,
            limit,
            llr.as_ptr(),
            llr.len(),
            bits.as_mut_ptr(),
            bits.len(),
            &mut rounds,
            &mut first,
            work.as_mut_ptr(),
            work.len(),
        )
    })?;
    Ok(Decoded { count, rounds, first: check(first) })
}

/// The same by the rule with that number: 0 sum-product, 1 min-sum, 2 min-sum times `scale`, 3 the default, min-sum times 0.75.
pub fn decode_soft_with(code: u32, rule: u32, scale: f32, limit: u16, llr: &[f32], bits: &mut [u8], work: &mut [f32]) -> Result<Decoded, Refusal> {
    let _floats = DefaultFloats::set();
    let (mut rounds, mut first) = (0, NO_CHECK);
    let count = answer(unsafe {
        ffi::desklink_decode_soft_with_unguarded(
            code,
            rule,
            scale,
            limit,
            llr.as_ptr(),
            llr.len(),
            bits.as_mut_ptr(),
            bits.len(),
            &mut rounds,
            &mut first,
            work.as_mut_ptr(),
            work.len(),
        )
    })?;
    Ok(Decoded { count, rounds, first: check(first) })
}

/// Where a batch writes: `bits` has K places a pair, and each of the others one.
#[derive(Debug)]
pub struct Outputs<'a> {
    /// The message bits of each frame, in place order.
    pub bits: &'a mut [u8],
    /// How many checks each frame's chosen word leaves unsatisfied.
    pub counts: &'a mut [u16],
    /// The rounds that each frame ran.
    pub rounds: &'a mut [u16],
    /// The lowest check that each frame's chosen word leaves unsatisfied, or [`NO_CHECK`].
    pub firsts: &'a mut [u16],
}

/// A pair: where a frame's values begin, and how many they are.
#[repr(C)]
#[derive(Debug, Clone, Copy, PartialEq, Eq)]
pub struct Pair {
    /// The place of the frame's first value.
    pub offset: u32,
    /// How many values it has, which is the code's N.
    pub length: u32,
}

impl From<[u32; 2]> for Pair {
    fn from([offset, length]: [u32; 2]) -> Pair {
        Pair { offset, length }
    }
}

/// One of the batch calls of the library, on Rust's slices: it takes pairs of that type, passes them as they are seen, and takes a further list where it
/// has one.
macro_rules! batch_call {
    ($(#[$text:meta])* $name:ident($pairs:ident: $pair:ty) $foreign:ident $seen:expr $(, $list:ident)?) => {
        $(#[$text])*
        #[allow(clippy::too_many_arguments)]
        pub fn $name(
            code: u32,
            rule: u32,
            limit: u16,
            scale: f32,
            values: &[f32],
            $pairs: &[$pair],
            $($list: &[u32],)?
            out: Outputs<'_>,
            work: &mut [f32],
        ) -> Result<(), Refusal> {
            let pairs = $seen;
            let _floats = DefaultFloats::set();
            answer(unsafe {
                ffi::$foreign(
                    code,
                    rule,
                    limit,
                    scale,
                    values.as_ptr(),
                    values.len(),
                    pairs.as_ptr(),
                    pairs.len(),
                    $($list.as_ptr(), $list.len(),)?
                    out.bits.as_mut_ptr(),
                    out.bits.len(),
                    out.counts.as_mut_ptr(),
                    out.counts.len(),
                    out.rounds.as_mut_ptr(),
                    out.rounds.len(),
                    out.firsts.as_mut_ptr(),
                    out.firsts.len(),
                    work.as_mut_ptr(),
                    work.len(),
                )
            })
            .map(drop)
        }
    };
}

batch_call! {
    /// Many frames of one code: each pair is an offset into `values` and a length, which is N.
    decode_batch(pairs: [u32; 2]) desklink_decode_batch_unguarded pairs.as_flattened()
}

batch_call! {
    /// The same with the pairs as records.
    decode_pairs(pairs: Pair) desklink_decode_pairs_unguarded pairs
}

batch_call! {
    /// [`decode_batch`] of a batch that was stored when rule 3 stood for rule 0: 3 is taken as 0, and every other number as it is.
    decode_stored_batch(pairs: [u32; 2]) desklink_decode_stored_batch_unguarded pairs.as_flattened()
}

batch_call! {
    /// [`decode_batch`] with groups: `sizes` has the number of frames of each group in turn, in place order. A group whose frames are all clean has its bits;
    /// all bit bytes of any other are 255. With no sizes this is [`decode_batch`].
    decode_groups(pairs: [u32; 2]) desklink_decode_groups_unguarded pairs.as_flattened(), sizes
}

/// Whether a frame is clean, with the count and the K bits that a decode of its N values gave: its count is 0, none of its values is NaN and, for
/// code 3, its bits carry the checksum of their first 77. A count of 0 alone is not clean: a dead aerial gives NaN everywhere.
///
/// ```
/// assert_eq!(desklink::slices::frame_clean(3, &[1.0; 174], 0, &[0; 91]), Ok(true));
/// assert_eq!(desklink::slices::frame_clean(3, &[f32::NAN; 174], 0, &[0; 91]), Ok(false));
/// ```
pub fn frame_clean(code: u32, values: &[f32], count: u16, bits: &[u8]) -> Result<bool, Refusal> {
    let _floats = DefaultFloats::set();
    let said = unsafe { ffi::desklink_frame_clean_unguarded(code, values.as_ptr(), values.len(), count, bits.as_ptr(), bits.len()) };
    answer(said).map(|clean| clean == 1)
}

/// Why a frame is open: the first of these that applies.
#[derive(Debug, Clone, Copy, PartialEq, Eq)]
pub enum Reason {
    /// A value is NaN: the lowest position of one, counted from 0.
    Nan(u16),
    /// The chosen word leaves a check unsatisfied: the lowest such check, counted from 0.
    Check(u16),
    /// The checksum of a (174,91) word is wrong: the one that it carries, and the one of its payload.
    Checksum {
        /// The checksum that the word carries.
        carried: u16,
        /// The checksum of its payload.
        computed: u16,
    },
    /// It is not open: the frame is clean.
    Clean,
}

/// Decodes a frame of N values by the rule with that number, and says why it is open, or that it is clean. The word that the decode chooses goes to `word`,
/// which has N places.
///
/// ```
/// use desklink::slices::{frame_reason, Reason, WORK};
/// let (mut word, mut work) = ([9; 174], [0.0; WORK]);
/// assert_eq!(frame_reason(3, 3, 0.0, 20, &[1.0; 174], &mut word, &mut work), Ok(Reason::Clean));
/// let mut values = [1.0; 174];
/// values[100] = f32::NAN;
/// assert_eq!(frame_reason(3, 3, 0.0, 20, &values, &mut word, &mut work), Ok(Reason::Nan(100)));
/// assert_eq!(frame_reason(3, 3, 0.0, 0, &[-1.0; 174], &mut word, &mut work), Ok(Reason::Check(0)));
/// ```
pub fn frame_reason(code: u32, rule: u32, scale: f32, limit: u16, values: &[f32], word: &mut [u8], work: &mut [f32]) -> Result<Reason, Refusal> {
    let _floats = DefaultFloats::set();
    let (mut part, mut computed) = (0, 0);
    let kind = answer(unsafe {
        ffi::desklink_frame_reason_unguarded(
            code,
            rule,
            scale,
            limit,
            values.as_ptr(),
            values.len(),
            word.as_mut_ptr(),
            word.len(),
            &mut part,
            &mut computed,
            work.as_mut_ptr(),
            work.len(),
        )
    })?;
    Ok(match kind {
        0 => Reason::Clean,
        1 => Reason::Nan(part),
        2 => Reason::Check(part),
        _ => Reason::Checksum { carried: part, computed },
    })
}

/// The totals with the frames of a batch: of its values and pairs, and of the bits, counts and rounds that its call left. Refused as the batch is where a
/// code, a pair or a length does not fit, and by 14 where a sum would pass its limit; the totals are then as they were.
/// After [`decode_groups`] the bits of a group that is not delivered are 255: a (174,91) frame of it is counted as not clean.
pub fn totals_add(totals: &mut Totals, code: u32, values: &[f32], pairs: &[[u32; 2]], bits: &[u8], counts: &[u16], rounds: &[u16]) -> Result<(), Refusal> {
    let pairs = pairs.as_flattened();
    let _floats = DefaultFloats::set();
    answer(unsafe {
        ffi::desklink_totals_add_unguarded(
            &mut totals.frames,
            &mut totals.clean,
            &mut totals.counts,
            &mut totals.rounds,
            code,
            values.as_ptr(),
            values.len(),
            pairs.as_ptr(),
            pairs.len(),
            bits.as_ptr(),
            bits.len(),
            counts.as_ptr(),
            counts.len(),
            rounds.as_ptr(),
            rounds.len(),
        )
    })
    .map(drop)
}

/// The totals with those of other frames, or 14 and as they were.
pub fn totals_join(totals: &mut Totals, more: &Totals) -> Result<(), Refusal> {
    answer(unsafe {
        ffi::desklink_totals_join_unguarded(
            &mut totals.frames,
            &mut totals.clean,
            &mut totals.counts,
            &mut totals.rounds,
            more.frames,
            more.clean,
            more.counts,
            more.rounds,
        )
    })
    .map(drop)
}

/// The share of clean frames.
pub fn clean_share(totals: &Totals) -> Result<Fraction, Refusal> {
    let (mut over, mut under) = (0, 0);
    answer(unsafe { ffi::desklink_clean_share_unguarded(totals.frames, totals.clean, &mut over, &mut under) })?;
    Ok(Fraction { over, under })
}

/// The mean count of a frame.
pub fn mean_count(totals: &Totals) -> Result<Fraction, Refusal> {
    let (mut over, mut under) = (0, 0);
    answer(unsafe { ffi::desklink_mean_count_unguarded(totals.frames, totals.counts, &mut over, &mut under) })?;
    Ok(Fraction { over, under })
}

/// Sets the unknown bits (2) of a recorded word of N bytes that the checks of code 0 to 3 decide, one after another, and lists their positions at
/// the front of `places`, which has N places. How many were set.
///
/// ```
/// // All bits of the zero word but the last one are known: its checks decide it.
/// let (mut word, mut places) = ([0; 174], [0; 174]);
/// word[173] = 2;
/// assert_eq!(desklink::slices::fill_erasures(3, &mut word, &mut places), Ok(1));
/// assert_eq!((word[173], places[0]), (0, 173));
/// ```
pub fn fill_erasures(code: u32, word: &mut [u8], places: &mut [u16]) -> Result<u16, Refusal> {
    answer(unsafe { ffi::desklink_fill_erasures(code, word.as_mut_ptr(), word.len(), places.as_mut_ptr(), places.len()) })
}

/// Lists the cycles of length four of code 0 to 2 at the front of `places`: lower column, higher column, lower row, higher row, ascending in that
/// order. Refused where there are fewer places than cycles; [`MOST_CYCLES`] are enough for every code.
///
/// ```
/// let mut places = [[0; 4]; desklink::slices::MOST_CYCLES];
/// let listed = desklink::slices::list_cycles(0, &mut places).unwrap();
/// assert_eq!((listed.cycles, listed.relaxed), (21, 0));
/// // Columns 12 and 268 lie in rows 12 and 13.
/// assert_eq!(places[0], [12, 268, 12, 13]);
/// ```
pub fn list_cycles(code: u32, places: &mut [[u16; 4]]) -> Result<Listed, Refusal> {
    let mut relaxed = 0;
    let places = places.as_flattened_mut();
    let cycles = answer(unsafe { ffi::desklink_list_cycles(code, places.as_mut_ptr(), places.len(), &mut relaxed) })?;
    Ok(Listed { cycles, relaxed })
}

/// The low bits of the word's bytes, packed eight a byte, most significant first, the last byte filled with zeros. `bytes` has as many as the bits need.
pub fn pack_bits(word: &[u8], bytes: &mut [u8]) -> Result<(), Refusal> {
    answer(unsafe { ffi::desklink_pack_bits(word.as_ptr(), word.len(), bytes.as_mut_ptr(), bytes.len()) }).map(drop)
}

/// As many bits as `word` has places, from the front of packed bytes. What lies past them is not read.
pub fn unpack_bits(bytes: &[u8], word: &mut [u8]) -> Result<(), Refusal> {
    answer(unsafe { ffi::desklink_unpack_bits(bytes.as_ptr(), bytes.len(), word.as_mut_ptr(), word.len()) }).map(drop)
}

/// Soft bytes in eighths, -127 to 127, to as many values, negated for a model that counts positive as 1.
///
/// ```
/// let mut values = [9.0; 3];
/// desklink::slices::values_of_bytes(&[8, 0, -1], true, &mut values).unwrap();
/// assert_eq!(values, [-1.0, 0.0, 0.125]);
/// ```
pub fn values_of_bytes(bytes: &[i8], positive_is_one: bool, values: &mut [f32]) -> Result<(), Refusal> {
    let _floats = DefaultFloats::set();
    answer(unsafe { ffi::desklink_values_of_bytes_unguarded(bytes.as_ptr(), bytes.len(), positive_is_one.into(), values.as_mut_ptr(), values.len()) }).map(drop)
}

/// Values that are eighths back to as many soft bytes.
pub fn bytes_of_values(values: &[f32], positive_is_one: bool, bytes: &mut [i8]) -> Result<(), Refusal> {
    let _floats = DefaultFloats::set();
    answer(unsafe { ffi::desklink_bytes_of_values_unguarded(values.as_ptr(), values.len(), positive_is_one.into(), bytes.as_mut_ptr(), bytes.len()) }).map(drop)
}
