//! All 256 bytes as text byte, as capital, as unit character, in every field.

use independent::alphabets::{all, Made, Place};
use independent::trial::answer;

fn try_every_byte(place: &Place) {
    for byte in 0..=255 {
        let (good, name) = ((place.permits)(byte), place.name);
        if let Some(call) = place.read(byte) {
            assert_eq!(answer(call), if good { 0 } else { 6 }, "{name}: {byte:02X} read");
        }
        if let Some(call) = place.write(byte) {
            assert_eq!(answer(call), if good { 0 } else { 9 }, "{name}: {byte:02X} written");
        }
        let right: &[u32] = match (&place.made, good) {
            (Made::Tag(_), true) => &[0, 13],
            (Made::Tag(_), false) => &[6],
            (Made::Value(..), true) => &[0],
            (Made::Value(..), false) => &[9],
        };
        let edited = answer(place.edit(byte).expect("every place can be edited"));
        assert!(right.contains(&edited), "{name}: {byte:02X} edited: {edited}");
    }
}

#[test]
fn every_field_takes_its_own_bytes_and_no_others() {
    all().iter().for_each(try_every_byte);
}
