// Beside the original ldpc_codes.rs, in one module with it: what the tests read of its codes.

impl Ldpc {
    /// The same decoder, but one that hands over all N bits of the word it chose.
    pub fn whole(mut self) -> Ldpc {
        self.k = self.n;
        self
    }

    /// The places of each check's bits.
    pub fn checks(&self) -> Vec<Vec<usize>> {
        self.check_bits.clone()
    }
}
