//! Numbers in layouts: the lowest byte first, signed ones in two's complement.

pub fn get_u32(bytes: &[u8], at: usize) -> u32 {
    u32::from_le_bytes([bytes[at], bytes[at + 1], bytes[at + 2], bytes[at + 3]])
}

pub fn get_i32(bytes: &[u8], at: usize) -> i32 {
    get_u32(bytes, at) as i32
}

pub fn put_u32(bytes: &mut [u8], at: usize, value: u32) {
    bytes[at..at + 4].copy_from_slice(&value.to_le_bytes());
}

pub fn put_i32(bytes: &mut [u8], at: usize, value: i32) {
    put_u32(bytes, at, value as u32);
}

/// A pair of offset and length.
pub fn get_pair(bytes: &[u8], at: usize) -> (usize, usize) {
    (get_u32(bytes, at) as usize, get_u32(bytes, at + 4) as usize)
}

/// Pairs of offset and length, one after another.
pub fn put_pairs(bytes: &mut [u8], at: usize, pairs: &[(usize, usize)]) {
    for (i, &(offset, len)) in pairs.iter().enumerate() {
        put_u32(bytes, at + 8 * i, offset as u32);
        put_u32(bytes, at + 8 * i + 4, len as u32);
    }
}

pub fn all_zero(bytes: &[u8]) -> bool {
    bytes.iter().all(|&b| b == 0)
}
