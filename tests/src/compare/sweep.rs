//! All strings of three bytes. The driver runs through them by itself, 65,536 to a first byte, and gives one byte for each:
//! the answer, which is 0 for text and nothing else.

use super::case::{Call, Placing};
use super::engine::{side_by_side, Link};
use super::report::Report;
use super::text_cases::{block_one_item, edit_item, item_field, sheet_item, WithString};
use crate::model::refusal::{FIELD, VALUE};
use crate::model::text::is_text;

/// What the driver adds to a call that it makes with all values of two bytes.
const SWEEP: u8 = 64;

/// First bytes to a share.
const PART: usize = 64;

/// The first bytes come in their order from here on, since those of longer characters tell the most.
const BEGIN: u8 = 0xC0;

/// A place of text, where the second byte of a string stands in the buffer that is judged, and how many times as many
/// strings are swept through it: more where a call costs least.
pub struct Place {
    group: &'static str,
    pub call: WithString,
    pub at: u32,
    refused: u32,
    times: usize,
}

pub const PLACES: [Place; 4] = [
    Place { group: "3 bytes swept through the item field", call: item_field, at: 17, refused: FIELD, times: 1 },
    Place { group: "3 bytes swept through block 1's item", call: block_one_item, at: 40, refused: FIELD, times: 1 },
    Place { group: "3 bytes swept through a sheet", call: sheet_item, at: 15, refused: VALUE, times: 4 },
    Place { group: "3 bytes swept through an edit", call: edit_item, at: 1, refused: VALUE, times: 1 },
];

/// The strings of so many first bytes, times the place's own number, in each place.
pub fn compare(program: &[String], count: usize) -> Result<Report, String> {
    let firsts: Vec<u8> = (0..=255).map(|more| BEGIN.wrapping_add(more)).collect();
    let shares = PLACES.iter().flat_map(|place| {
        let swept = &firsts[..count.saturating_mul(place.times).min(256)];
        swept.chunks(PART).map(move |part| (place, part))
    });
    side_by_side(shares.collect(), |(place, firsts)| place.compare(program, firsts))
}

impl Place {
    fn compare(&self, program: &[String], firsts: &[u8]) -> Result<Report, String> {
        let mut driver = Link::start(program)?;
        let mut report = Report::default();
        for first in firsts {
            let (call, placing) = ((self.call)(&[*first, 0, 0]), Placing::of(usize::from(*first)));
            let right: Vec<u8> = strings(*first).map(|string| self.answer(&string)).collect();
            let got = driver.ask(&self.frame(&call, placing), right.len());
            let got = got.map_err(|_| format!("compare: the driver stopped at a sweep from {}", call.describe()))?;
            report.add(Report::of_answers(self.group, &right, &got, placing, |place| {
                let string = strings(*first).nth(place).expect("an answer for each string");
                (self.call)(&string)
            }));
        }
        Ok(report)
    }

    /// The frame of a call whose string's last two bytes are to run through all values.
    pub fn frame(&self, call: &Call, placing: Placing) -> Vec<u8> {
        let mut frame = call.frame(placing);
        frame[0] += SWEEP;
        frame.extend(self.at.to_le_bytes());
        frame
    }

    /// The right answer. A 00 ends a field, and what stands behind it may be another field: then the model says.
    pub fn answer(&self, string: &[u8]) -> u8 {
        let answer = match string {
            _ if string.contains(&0) => (self.call)(string).outcome().answer,
            _ if is_text(string) => 0,
            _ => self.refused,
        };
        answer as u8
    }
}

/// All strings of three bytes with this first one, in the driver's order.
fn strings(first: u8) -> impl Iterator<Item = [u8; 3]> {
    (0..=u16::MAX).map(move |rest| {
        let [second, third] = rest.to_be_bytes();
        [first, second, third]
    })
}
