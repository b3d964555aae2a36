//! Bytes as they are written, with the places of their fields.

/// The boundary that zero bytes fill up to.
pub const PADDED_TO: usize = 4;

#[derive(Clone, Default)]
pub struct Piece {
    pub bytes: Vec<u8>,
    /// Where the U32 fields start.
    pub fields: Vec<usize>,
}

impl Piece {
    pub fn new() -> Piece {
        Piece::default()
    }

    pub fn put_u16(&mut self, value: u16) {
        self.bytes.extend_from_slice(&value.to_le_bytes());
    }

    pub fn put_u32(&mut self, value: u32) {
        self.fields.push(self.bytes.len());
        self.bytes.extend_from_slice(&value.to_le_bytes());
    }

    pub fn put_bytes(&mut self, bytes: &[u8]) {
        self.bytes.extend_from_slice(bytes);
    }

    /// A string: U16 length, then its bytes.
    pub fn put_name(&mut self, name: &[u8]) {
        self.put_u16(name.len() as u16);
        self.put_bytes(name);
    }

    /// Zero bytes to a multiple of 4, counted from `start`.
    pub fn pad_from(&mut self, start: usize) {
        let size = (self.bytes.len() - start).next_multiple_of(PADDED_TO);
        self.bytes.resize(start + size, 0);
    }

    pub fn u32_at(&self, at: usize) -> Option<u32> {
        let bytes = self.bytes.get(at..at + 4)?;
        Some(u32::from_le_bytes(bytes.try_into().ok()?))
    }

    /// Leaves a piece that is too short.
    pub fn set_u32(&mut self, at: usize, value: u32) {
        if let Some(bytes) = self.bytes.get_mut(at..at + 4) {
            bytes.copy_from_slice(&value.to_le_bytes());
        }
    }
}
