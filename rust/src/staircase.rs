//! The staircase codes, in orion-sdr's shapes.
use crate::{slices, with_work, Refusal};

/// One of the three staircase codes.
#[derive(Debug, Clone, Copy, PartialEq, Eq)]
pub enum LdpcCode {
    /// Rate 1/2: N = 512, K = 256.
    N512R12,
    /// Rate 2/3: N = 576, K = 384.
    N576R23,
    /// Rate 3/4: N = 512, K = 384.
    N512R34,
}

impl LdpcCode {
    /// Codeword length in bits.
    pub fn n(self) -> usize {
        match self {
            LdpcCode::N512R12 | LdpcCode::N512R34 => 512,
            LdpcCode::N576R23 => 576,
        }
    }

    /// Message length in bits.
    pub fn k(self) -> usize {
        match self {
            LdpcCode::N512R12 => 256,
            LdpcCode::N576R23 | LdpcCode::N512R34 => 384,
        }
    }

    /// Number of parity bits, which is that of the checks.
    pub fn m(self) -> usize {
        self.n() - self.k()
    }

    /// The number that the library knows the code by.
    ///
    /// ```
    /// assert_eq!(desklink::LdpcCode::N512R34.number(), 2);
    /// ```
    pub fn number(self) -> u32 {
        match self {
            LdpcCode::N512R12 => 0,
            LdpcCode::N576R23 => 1,
            LdpcCode::N512R34 => 2,
        }
    }
}

/// The check-node rule of a decode.
#[derive(Debug, Clone, Copy, PartialEq, Default)]
pub enum DecodeRule {
    /// Rule 0, the tanh product. On (174,91) it is the original's negated one, which pulls the wrong way at 24 of the 83
    /// checks: use it there only where the original's answers are wanted.
    SumProduct,
    /// Rule 1, the product of signs times the least magnitude. Not for (174,91).
    MinSum,
    /// Rule 2, the same times this factor. Not for (174,91).
    ScaledMinSum(f32),
    /// Rule 3, the house default: min-sum scaled by 0.75 on the staircase codes, and `Unnegated` on (174,91).
    #[default]
    House,
    /// Rule 4, the tanh product with the right sign, for (174,91) alone.
    Unnegated,
}

impl DecodeRule {
    /// The number that the library knows the rule by, and the scale.
    pub fn number_and_scale(self) -> (u32, f32) {
        match self {
            DecodeRule::SumProduct => (0, 0.0),
            DecodeRule::MinSum => (1, 0.0),
            DecodeRule::ScaledMinSum(scale) => (2, scale),
            DecodeRule::House => (3, 0.0),
            DecodeRule::Unnegated => (4, 0.0),
        }
    }
}

/// A code to encode and decode with. Its tables are constants of the library, so that making one costs nothing.
#[derive(Debug, Clone, Copy)]
pub struct Ldpc {
    code: LdpcCode,
}

impl Ldpc {
    /// The code with that name.
    pub fn new(code: LdpcCode) -> Self {
        Ldpc { code }
    }

    /// Its name.
    pub fn code(&self) -> LdpcCode {
        self.code
    }

    /// Bits of a codeword.
    pub fn n(&self) -> usize {
        self.code.n()
    }

    /// Bits of a message.
    pub fn k(&self) -> usize {
        self.code.k()
    }

    /// Parity bits, which are as many as the checks.
    pub fn m(&self) -> usize {
        self.code.m()
    }

    /// The codeword of a message of K bytes, each a bit: the message bytes whole, then the parity bits.
    ///
    /// ```
    /// use desklink::{Ldpc, LdpcCode, Refusal};
    /// let code = Ldpc::new(LdpcCode::N576R23);
    /// assert_eq!(code.encode(&[0; 384])?, [0; 576]);
    /// assert_eq!(code.encode(&[0; 383]), Err(Refusal::InputLength));
    /// # Ok::<(), Refusal>(())
    /// ```
    pub fn encode(&self, message: &[u8]) -> Result<Vec<u8>, Refusal> {
        let mut codeword = vec![0; self.n()];
        slices::encode(self.code.number(), message, &mut codeword)?;
        Ok(codeword)
    }

    /// How many checks the low bits of the first N bytes leave unsatisfied.
    ///
    /// ```
    /// use desklink::{Ldpc, LdpcCode, Refusal};
    /// let code = Ldpc::new(LdpcCode::N512R12);
    /// let mut word = [0; 512];
    /// word[511] = 1;
    /// assert_eq!(code.syndrome_weight(&word), Ok(1));
    /// assert_eq!(code.syndrome_weight(&word[..511]), Err(Refusal::WordTooShort));
    /// ```
    pub fn syndrome_weight(&self, hard: &[u8]) -> Result<usize, Refusal> {
        slices::syndrome_weight(self.code.number(), hard).map(|counted| counted.count.into())
    }

    /// Sum-product decoding of N channel values, positive where 0 is likelier: the K message bits, and how many checks
    /// the chosen word leaves unsatisfied.
    ///
    /// ```
    /// use desklink::{Ldpc, LdpcCode, Refusal};
    /// let code = Ldpc::new(LdpcCode::N512R34);
    /// assert_eq!(code.decode_soft(&[1.0; 512], 20)?, (vec![0; 384], 0));
    /// assert_eq!(code.decode_soft(&[1.0; 511], 20), Err(Refusal::InputLength));
    /// # Ok::<(), Refusal>(())
    /// ```
    pub fn decode_soft(&self, llr: &[f32], max_iter: u16) -> Result<(Vec<u8>, usize), Refusal> {
        self.decode_soft_with(llr, max_iter, DecodeRule::SumProduct)
    }

    /// The same by any rule.
    ///
    /// ```
    /// use desklink::{DecodeRule, Ldpc, LdpcCode, Refusal};
    /// let code = Ldpc::new(LdpcCode::N512R12);
    /// let mut llr = [1.0; 512];
    /// llr[7] = -0.5;
    /// let (bits, unsatisfied) = code.decode_soft_with(&llr, 20, DecodeRule::ScaledMinSum(0.75))?;
    /// assert_eq!((bits, unsatisfied), (vec![0; 256], 0));
    /// # Ok::<(), Refusal>(())
    /// ```
    pub fn decode_soft_with(&self, llr: &[f32], max_iter: u16, rule: DecodeRule) -> Result<(Vec<u8>, usize), Refusal> {
        let (rule, scale) = rule.number_and_scale();
        let mut bits = vec![0; self.k()];
        let told = with_work(|work| slices::decode_soft_with(self.code.number(), rule, scale, max_iter, llr, &mut bits, work))?;
        Ok((bits, told.count.into()))
    }
}
