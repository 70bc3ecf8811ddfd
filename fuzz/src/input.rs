//! An input taken apart from its front: bytes and words that say what is asked, then the rest.

pub struct Input<'a> {
    rest: &'a [u8],
}

impl<'a> Input<'a> {
    pub fn new(bytes: &'a [u8]) -> Input<'a> {
        Input { rest: bytes }
    }

    /// The next bytes, and zeros past the end.
    fn take<const N: usize>(&mut self) -> [u8; N] {
        let (bytes, rest) = self.rest.split_at(N.min(self.rest.len()));
        self.rest = rest;
        let mut taken = [0; N];
        taken[..bytes.len()].copy_from_slice(bytes);
        taken
    }

    pub fn byte(&mut self) -> u8 {
        self.take::<1>()[0]
    }

    /// Eight bytes, lowest first.
    pub fn word(&mut self) -> u64 {
        u64::from_le_bytes(self.take())
    }

    /// One byte, or a word after the byte 255.
    pub fn number(&mut self) -> u64 {
        match self.byte() {
            255 => self.word(),
            small => u64::from(small),
        }
    }

    /// Sixteen bytes, lowest first.
    pub fn set(&mut self) -> u128 {
        u128::from_le_bytes(self.take())
    }

    pub fn is_empty(&self) -> bool {
        self.rest.is_empty()
    }

    pub fn rest(self) -> &'a [u8] {
        self.rest
    }
}
