
impl Reader {
    /// The packed word.
    pub(super) fn word(self) -> u64 {
        self.0
    }
}
