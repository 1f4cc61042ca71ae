//! The check of the first 34 bytes.

/// "The CRC has polynomial 1021 hex, starts at FFFF, takes the high bit of each byte first and has no final inversion."
pub fn crc(bytes: impl IntoIterator<Item = u8>) -> u16 {
    bytes
        .into_iter()
        .fold(0xFFFF, |remainder, byte| (0..8).rev().fold(remainder, |r, bit| take_bit(r, byte >> bit & 1)))
}

/// One bit of the message against the remainder's top bit.
fn take_bit(remainder: u16, bit: u8) -> u16 {
    let shifted = remainder << 1;
    if remainder >> 15 == u16::from(bit) {
        shifted
    } else {
        shifted ^ 0x1021
    }
}

/// "It covers bytes 0 to 18 and then 21 to 33. On a 32-byte tag bytes 32 and 33 are absent and count as 00."
pub fn of_tag(tag: &[u8]) -> u16 {
    crc((0..19).chain(21..34).map(|place| tag.get(place).copied().unwrap_or(0)))
}

/// "CRC, low byte first (HOUSE)": what bytes 19 and 20 hold.
pub fn stored(tag: &[u8]) -> u16 {
    u16::from_le_bytes([tag[19], tag[20]])
}

/// Puts the right check into bytes 19 and 20.
pub fn store(tag: &mut [u8]) {
    let check = of_tag(tag).to_le_bytes();
    tag[19..21].copy_from_slice(&check);
}
