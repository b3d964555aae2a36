//! Little-endian fields of a byte slice.

/// The U32 at an offset, where it is whole.
pub(crate) fn u32_at(bytes: &[u8], at: usize) -> Option<u32> {
    let bytes = bytes.get(at..)?.first_chunk()?;
    Some(u32::from_le_bytes(*bytes))
}

/// The U16 at an offset, where it is whole.
pub(crate) fn u16_at(bytes: &[u8], at: usize) -> Option<u16> {
    let bytes = bytes.get(at..)?.first_chunk()?;
    Some(u16::from_le_bytes(*bytes))
}

/// The U64 at an offset, where it is whole.
pub(crate) fn u64_at(bytes: &[u8], at: usize) -> Option<u64> {
    let bytes = bytes.get(at..)?.first_chunk()?;
    Some(u64::from_le_bytes(*bytes))
}

/// The bytes of the name (U16 length, then the bytes) at an offset, where it
/// is whole.
pub(crate) fn name_at(bytes: &[u8], at: usize) -> Option<std::ops::Range<usize>> {
    let length = usize::from(u16_at(bytes, at)?);
    let start = at + 2;
    (length <= bytes.len() - start).then(|| start..start + length)
}
