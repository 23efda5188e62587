//! A block as it stands in a stream.

/// The numbers are address, length, created_at and destroyed_at; the length need not be that of the data.
pub fn block_bytes(kind: u8, numbers: [u64; 4], data: &[u8]) -> Vec<u8> {
    let mut bytes = vec![kind];
    numbers.iter().for_each(|n| bytes.extend(n.to_le_bytes()));
    bytes.extend(data);
    bytes
}
