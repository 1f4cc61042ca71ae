//! Request E3, the CRC bit by bit: point 23 of its readings, that no answer changes. The remainder is found here in two other ways: by long
//! division on paper, with no register, and by a table of 256 remainders, as it was before.

use independent::examples::whole_case;
use independent::model::crc::of_tag;
use independent::random::Random;
use independent::trial::{read, tag_with};

/// x^16 + x^12 + x^5 + 1, the highest power first.
const DIVISOR: [u8; 17] = [1, 0, 0, 0, 1, 0, 0, 0, 0, 0, 0, 1, 0, 0, 0, 0, 1];

/// What is left of these bits, with sixteen 0 behind them, after division.
fn remainder(mut bits: Vec<u8>) -> u16 {
    let length = bits.len();
    bits.extend([0; 16]);
    for place in 0..length {
        if bits[place] == 1 {
            bits[place..].iter_mut().zip(DIVISOR).for_each(|(bit, divisor)| *bit ^= divisor);
        }
    }
    bits[length..].iter().fold(0, |number, bit| number << 1 | u16::from(*bit))
}

/// Bits, the high one of each byte first.
fn bits(bytes: &[u8]) -> Vec<u8> {
    bytes.iter().flat_map(|byte| (0..8).rev().map(move |bit| byte >> bit & 1)).collect()
}

/// Bytes 0 to 18 and 21 to 33, absent ones as 00.
fn covered(tag: &[u8]) -> Vec<u8> {
    let mut whole = tag.to_vec();
    whole.resize(34, 0);
    whole.drain(19..21);
    whole
}

/// To start at FFFF is to turn the first sixteen bits over.
fn by_division(tag: &[u8]) -> u16 {
    let mut dividend = bits(&covered(tag));
    dividend[..16].iter_mut().for_each(|bit| *bit ^= 1);
    remainder(dividend)
}

fn by_table(tag: &[u8], table: &[u16]) -> u16 {
    covered(tag).iter().fold(0xFFFF, |crc, byte| crc << 8 ^ table[usize::from(crc >> 8 ^ u16::from(*byte))])
}

/// The places that the CRC covers on a tag of this length.
fn places(length: usize) -> impl Iterator<Item = usize> {
    (0..19).chain(21..length.min(34))
}

#[test]
fn point_23_every_byte_at_every_place_is_taken_with_the_remainder_of_long_division_and_with_no_other() {
    for length in [32, 36] {
        for (place, value) in places(length).flat_map(|place| (0..=255).map(move |value| (place, value))) {
            let mut tag = whole_case().tag[..length].to_vec();
            tag[place] = value;
            let check = by_division(&tag);
            tag[19..21].copy_from_slice(&check.to_le_bytes());
            let has_content = tag[0] & 15 == 1;
            assert_ne!(read(&tag), Err(4), "byte {place} is {value} on {length} bytes");
            let wrong = check ^ 1 << ((place + usize::from(value)) % 16);
            tag[19..21].copy_from_slice(&wrong.to_le_bytes());
            assert_eq!(read(&tag), Err(if has_content { 4 } else { 3 }), "byte {place} is {value} on {length} bytes");
        }
    }
}

#[test]
fn point_23_the_writer_lays_down_the_remainder_of_long_division() {
    for length in [32, 36] {
        for text in (0x20..=0x7E).flat_map(|first| [vec![first], vec![first; 8], vec![b'A', first, b'Z', first]]) {
            let tag = tag_with(&[(1, &text)], length);
            assert_eq!(tag[19..21], by_division(&tag).to_le_bytes());
        }
    }
}

#[test]
fn point_23_a_table_of_remainders_gives_the_same() {
    let table: Vec<u16> = (0..=255).map(|byte| remainder(bits(&[byte]))).collect();
    assert_eq!(table[..3], [0x0000, 0x1021, 0x2042]);
    let mut random = Random::new(20261116);
    for length in [32, 36, 64].into_iter().cycle().take(3000) {
        let tag = random.bytes(length);
        assert_eq!([by_division(&tag), by_table(&tag, &table)], [of_tag(&tag); 2]);
    }
}
