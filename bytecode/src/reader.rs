//! Big-endian numbers, read one after the other.

/// Reads big-endian numbers, as long as the code has their bytes.
pub(crate) struct Reader<'a> {
    code: &'a [u8],
    /// The offset of the next byte.
    pub(crate) at: usize,
}

impl<'a> Reader<'a> {
    pub(crate) fn new(code: &'a [u8], at: usize) -> Reader<'a> {
        Reader { code, at }
    }

    fn bytes<const N: usize>(&mut self) -> Option<[u8; N]> {
        let bytes = *self.code.get(self.at..)?.first_chunk()?;
        self.at += N;
        Some(bytes)
    }

    pub(crate) fn u8(&mut self) -> Option<u8> {
        self.bytes().map(u8::from_be_bytes)
    }

    pub(crate) fn i8(&mut self) -> Option<i8> {
        self.bytes().map(i8::from_be_bytes)
    }

    pub(crate) fn u16(&mut self) -> Option<u16> {
        self.bytes().map(u16::from_be_bytes)
    }

    pub(crate) fn i16(&mut self) -> Option<i16> {
        self.bytes().map(i16::from_be_bytes)
    }

    pub(crate) fn i32(&mut self) -> Option<i32> {
        self.bytes().map(i32::from_be_bytes)
    }

    pub(crate) fn u32(&mut self) -> Option<u32> {
        self.bytes().map(u32::from_be_bytes)
    }

    pub(crate) fn u64(&mut self) -> Option<u64> {
        self.bytes().map(u64::from_be_bytes)
    }

    /// Goes to the next multiple of 4, where the operands of a switch begin.
    pub(crate) fn align(&mut self) {
        self.at = self.at.next_multiple_of(4);
    }

    /// Whether the code has so many bytes more. A table is asked for as a whole before it is read,
    /// because its length is a number in the code and may be anything.
    pub(crate) fn has(&self, length: i64) -> bool {
        let left = self.code.len().saturating_sub(self.at);
        usize::try_from(length).is_ok_and(|length| length <= left)
    }
}
