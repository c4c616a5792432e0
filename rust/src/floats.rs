//! The float control word that the library computes under.
//!
//! The proofs speak of floats rounded to nearest, with subnormals. The processor asks the thread's control word (MXCSR), and
//! hosts change it: flush-to-zero and denormals-are-zero are common in colour, audio and game code. So every call that
//! computes with floats runs under the default word, and the caller's comes back afterwards.
use std::arch::asm;

/// Nearest, subnormals kept, exceptions masked, no flag raised: the word that a process starts with.
const DEFAULT: u32 = 0x1F80;

/// The flags that operations raise. They change no result.
const FLAGS: u32 = 0x3F;

/// While it lives, this thread computes under the default word. Dropped, it puts the caller's word back, flags included.
pub(crate) struct DefaultFloats {
    callers: u32,
}

impl DefaultFloats {
    pub(crate) fn set() -> DefaultFloats {
        let callers = control_word();
        if callers & !FLAGS != DEFAULT {
            set_control_word(DEFAULT);
        }
        DefaultFloats { callers }
    }
}

impl Drop for DefaultFloats {
    fn drop(&mut self) {
        if control_word() != self.callers {
            set_control_word(self.callers);
        }
    }
}

fn control_word() -> u32 {
    let mut word = 0u32;
    // Safety: the instruction writes four bytes, and they are `word`'s.
    unsafe { asm!("stmxcsr [{}]", in(reg) &mut word, options(nostack, preserves_flags)) };
    word
}

fn set_control_word(word: u32) {
    // Safety: the word is the default, or one that the processor gave.
    unsafe { asm!("ldmxcsr [{}]", in(reg) &word, options(nostack, preserves_flags, readonly)) };
}
