//! Slices behind their 32-bit lengths, lowest byte first.

/// The next slice; none where the bytes end before or inside it, as the records of the gate do.
pub fn slice(bytes: &mut &[u8]) -> Option<Vec<u8>> {
    let (head, rest) = bytes.split_first_chunk::<4>()?;
    let (kept, rest) = rest.split_at_checked(u32::from_le_bytes(*head) as usize)?;
    *bytes = rest;
    Some(kept.to_vec())
}
