//! FT8's checksum, its (174,91) LDPC code and three staircase LDPC codes, under orion-sdr's names and shapes, over a static library
//! whose functions are proved to meet their contracts.
//!
//! What orion-sdr answers by a panic is answered here by a [`Refusal`]; what cannot be refused, since its arguments' types fix their
//! lengths, has orion-sdr's own return type. A limit of rounds is a `u16`.
//!
//! [`decode_frames`] decodes frames and says of each whether it can be trusted; [`frame_reason`] says why one cannot. [`Batch`] writes
//! into memory that is lent, [`Totals`] adds up many batches, and [`slices`] has every call as the library has it.
//!
//! ```
//! use desklink::{Ldpc, LdpcCode};
//!
//! let code = Ldpc::new(LdpcCode::N512R12);
//! let word = code.encode(&[1; 256])?;
//! let llr: Vec<f32> = word.iter().map(|&b| if b == 0 { 2.0 } else { -2.0 }).collect();
//! let (bits, unsatisfied) = code.decode_soft(&llr, 20)?;
//! assert_eq!((bits, unsatisfied), (vec![1; 256], 0));
//! # Ok::<(), desklink::Refusal>(())
//! ```
#![deny(missing_docs)]
use std::cell::RefCell;

mod batch;
mod floats;
mod frames;
mod moves;
mod refusal;
pub mod slices;
mod staircase;
mod totals;

pub use batch::{Batch, Code};
pub use frames::{decode_frames, frame_reason, Explained, Frame};
pub use moves::Move;
pub use refusal::Refusal;
pub use slices::Reason;
pub use staircase::{DecodeRule, Ldpc, LdpcCode};
pub use totals::{Fraction, Totals};

/// Bits of a (174,91) codeword.
pub const N: usize = 174;
/// Bits of a (174,91) message.
pub const K: usize = 91;
/// Checks of the (174,91) code.
pub const M: usize = 83;
/// Bytes of a packed codeword.
pub const N_BYTES: usize = 22;
/// Bytes of a packed message.
pub const K_BYTES: usize = 12;

/// Runs `decode` with this thread's work area, which each decode leaves as zeros.
fn with_work<T>(decode: impl FnOnce(&mut [f32]) -> T) -> T {
    thread_local! {
        static AREA: RefCell<[f32; slices::WORK]> = const { RefCell::new([0.0; slices::WORK]) };
    }
    AREA.with_borrow_mut(|area| decode(area))
}

/// The CRC-14 of the first `num_bits` bits of `message`, most significant bit first. Refused where the bits need more
/// bytes than given.
///
/// ```
/// assert_eq!(desklink::ft8_crc14(&[0x80], 1), Ok(0x2757));
/// assert_eq!(desklink::ft8_crc14(&[0x80], 9), Err(desklink::Refusal::InputLength));
/// ```
pub fn ft8_crc14(message: &[u8], num_bits: usize) -> Result<u16, Refusal> {
    slices::ft8_crc14(message, num_bits)
}

/// 77 bits of payload, the 14 bits of their checksum, five zeros.
///
/// ```
/// let mut a91 = [0; 12];
/// desklink::ft8_add_crc(&[0x1C; 10], &mut a91);
/// assert_eq!(a91[..9], [0x1C; 9]);
/// assert_eq!(desklink::ft8_extract_crc(&a91), desklink::ft8_crc14(&[0x1C, 0x1C, 0x1C, 0x1C, 0x1C, 0x1C, 0x1C, 0x1C, 0x1C, 0x18, 0], 82).unwrap());
/// ```
pub fn ft8_add_crc(payload: &[u8; 10], a91: &mut [u8; 12]) {
    slices::ft8_add_crc(payload, a91).expect("both lengths are fixed by their types");
}

/// The checksum at bits 77 to 90.
///
/// ```
/// assert_eq!(desklink::ft8_extract_crc(&[0, 0, 0, 0, 0, 0, 0, 0, 0, 0x07, 0xFF, 0xE0]), 0x3FFF);
/// ```
pub fn ft8_extract_crc(a91: &[u8; 12]) -> u16 {
    slices::ft8_extract_crc(a91).expect("the length is fixed by its type")
}

/// The (174,91) codeword of a message. Refused where the message has a set bit among the low five of its last byte.
///
/// ```
/// let mut message = [0; 12];
/// message[0] = 0x80;
/// let mut codeword = [0; 22];
/// desklink::ldpc_encode(&message, &mut codeword)?;
/// assert_eq!(codeword[11..13], [0x14, 0x14]);
/// message[11] = 0x01;
/// assert_eq!(desklink::ldpc_encode(&message, &mut codeword), Err(desklink::Refusal::MessageSlack));
/// # Ok::<(), desklink::Refusal>(())
/// ```
pub fn ldpc_encode(message: &[u8; K_BYTES], codeword: &mut [u8; N_BYTES]) -> Result<(), Refusal> {
    slices::ldpc_encode(message, codeword)
}

/// How many (174,91) checks have bytes whose XOR is not 0.
///
/// ```
/// assert_eq!(desklink::ldpc_count_errors(&[1; 174]), 24);
/// ```
pub fn ldpc_count_errors(hard: &[u8; N]) -> usize {
    slices::ldpc_count_errors(hard).expect("the length is fixed by its type").count.into()
}

/// Decodes 174 channel values, positive where 0 is likelier, in at most `max_iter` rounds; answers how many checks the
/// word in `plain` leaves unsatisfied.
///
/// ```
/// let mut plain = [9; 174];
/// assert_eq!(desklink::ldpc_decode_soft(&[1.0; 174], 20, &mut plain), 0);
/// assert_eq!(plain, [0; 174]);
/// ```
pub fn ldpc_decode_soft(llr: &[f32; N], max_iter: u16, plain: &mut [u8; N]) -> usize {
    with_work(|work| slices::ldpc_decode_soft(llr, max_iter, plain, work)).expect("the lengths are fixed by their types").count.into()
}

/// Bits, one a byte, packed eight a byte, most significant first, the last byte filled with zeros: 91 message bits make the 12 bytes of
/// [`ldpc_encode`] and [`ft8_extract_crc`].
///
/// ```
/// assert_eq!(desklink::pack_bits(&[1, 0, 1, 1, 0, 0, 0, 0, 1]), [0xB0, 0x80]);
/// ```
pub fn pack_bits(bits: &[u8]) -> Vec<u8> {
    let mut bytes = vec![0; bits.len().div_ceil(8)];
    slices::pack_bits(bits, &mut bytes).expect("the bytes are as many as the bits need");
    bytes
}

/// The first `count` bits of packed bytes, one a byte: 174 of the 22 bytes that [`ldpc_encode`] writes. Refused where there are fewer.
///
/// ```
/// use desklink::{unpack_bits, Refusal};
/// assert_eq!(unpack_bits(&[0xB0, 0x80], 9)?, [1, 0, 1, 1, 0, 0, 0, 0, 1]);
/// assert_eq!(unpack_bits(&[0xB0], 9), Err(Refusal::InputLength));
/// # Ok::<(), Refusal>(())
/// ```
pub fn unpack_bits(bytes: &[u8], count: usize) -> Result<Vec<u8>, Refusal> {
    if count.div_ceil(8) > bytes.len() {
        return Err(Refusal::InputLength);
    }
    let mut bits = vec![0; count];
    slices::unpack_bits(bytes, &mut bits)?;
    Ok(bits)
}
