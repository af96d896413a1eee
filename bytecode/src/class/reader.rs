//! Reads big-endian numbers and bytes of a class file, as long as it has them.

/// What is left of a class file, and where that begins.
pub(super) struct Reader<'a> {
    rest: &'a [u8],
    at: usize,
}

impl<'a> Reader<'a> {
    pub fn new(bytes: &'a [u8]) -> Reader<'a> {
        Reader { rest: bytes, at: 0 }
    }

    /// The offset in the file of what is read next.
    pub fn at(&self) -> usize {
        self.at
    }

    pub fn is_empty(&self) -> bool {
        self.rest.is_empty()
    }

    pub fn bytes(&mut self, length: usize) -> Result<&'a [u8], String> {
        let (bytes, rest) = self.rest.split_at_checked(length).ok_or_else(|| {
            let end = self.at + self.rest.len();
            format!("the class file is damaged: it ends at byte {end}, inside of a part")
        })?;
        self.rest = rest;
        self.at += length;
        Ok(bytes)
    }

    /// The next bytes, to be read on their own.
    pub fn part(&mut self, length: usize) -> Result<Reader<'a>, String> {
        let at = self.at;
        let rest = self.bytes(length)?;
        Ok(Reader { rest, at })
    }

    pub fn u8(&mut self) -> Result<u8, String> {
        self.number().map(u8::from_be_bytes)
    }

    pub fn u16(&mut self) -> Result<u16, String> {
        self.number().map(u16::from_be_bytes)
    }

    pub fn u32(&mut self) -> Result<u32, String> {
        self.number().map(u32::from_be_bytes)
    }

    pub fn u64(&mut self) -> Result<u64, String> {
        self.number().map(u64::from_be_bytes)
    }

    fn number<const N: usize>(&mut self) -> Result<[u8; N], String> {
        let bytes = self.bytes(N)?;
        // As many bytes as were asked for: the other case does not come.
        Ok(bytes.first_chunk().copied().unwrap_or([0; N]))
    }
}
