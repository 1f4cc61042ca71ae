//! "Numbers given back": the refusals, and the order in which each call gives them. 5 is retired by request E1.

pub const SIZE: u32 = 1;
pub const ROOM: u32 = 2;
pub const CONTENT: u32 = 3;
pub const CHECK: u32 = 4;
pub const FIELD: u32 = 6;
pub const MISMATCH: u32 = 7;
pub const SHEET: u32 = 8;
pub const VALUE: u32 = 9;
pub const CLASH: u32 = 10;
pub const LARGE: u32 = 11;
pub const LOCKED: u32 = 12;
pub const LOOSE: u32 = 13;
pub const OFFSET: u32 = 14;
pub const LENGTH: u32 = 15;
pub const END: u32 = 16;
pub const ID: u32 = 17;
pub const CHECKSUM: u32 = 18;
pub const SECOND: u32 = 19;
pub const WORD: u32 = 20;
pub const HIGH: u32 = 21;
pub const PARTS: u32 = 22;
pub const BANK: u32 = 23;

/// Damage in the chain, in the order in which each block is tested for it.
pub const DAMAGE: [u32; 5] = [LENGTH, END, ID, CHECKSUM, SECOND];

/// "Reading: 1, 3, 4, 5, 6, 7, 14, 2", with 15 to 19 "all in 5's place".
pub const READING: [u32; 12] = [SIZE, CONTENT, CHECK, LENGTH, END, ID, CHECKSUM, SECOND, FIELD, MISMATCH, OFFSET, ROOM];

/// "Writing: 1, 8, 9, 10, 11, 12."
pub const WRITING: [u32; 6] = [SIZE, SHEET, VALUE, CLASH, LARGE, LOCKED];

/// "Editing: 1, 3, 4, 5, 6, 7, 13, 2, 9, 10, 11, 12", with 15 to 19 "all in 5's place".
pub const EDITING: [u32; 16] = [
    SIZE, CONTENT, CHECK, LENGTH, END, ID, CHECKSUM, SECOND, FIELD, MISMATCH, LOOSE, ROOM, VALUE, CLASH, LARGE, LOCKED,
];

/// Words into text: "20 a word with no meaning, .. then 2".
pub const TO_TEXT: [u32; 2] = [WORD, ROOM];

/// Text into words: "21 a character above 7F, then 2".
pub const TO_WORDS: [u32; 2] = [HIGH, ROOM];

/// Taking apart: "22 number of parts, 6 a bad part, 23 S, then 2, in that order".
pub const APART: [u32; 4] = [PARTS, FIELD, BANK, ROOM];

/// Putting together: "9 for a bad element or a dot, then 2".
pub const TOGETHER: [u32; 2] = [VALUE, ROOM];

/// What reading and editing refuse with: "a refusal for damage gives its number and that place, any other its number
/// alone". The other calls, which walk no chain, refuse with a number.
#[derive(Clone, Copy, Debug, PartialEq, Eq)]
pub struct Refusal {
    pub number: u32,
    /// "the byte where the block begins"
    pub place: Option<usize>,
}

impl From<u32> for Refusal {
    fn from(number: u32) -> Refusal {
        Refusal { number, place: None }
    }
}

/// The table's word for a number; for those of the requests a word of ours.
pub fn name(number: u32) -> &'static str {
    const NAMES: [&str; 24] = [
        "accepted", "Size", "Room", "Content", "Check", "retired", "Field", "Mismatch", "Sheet", "Value", "Clash",
        "Large", "Locked", "Loose", "Offset", "Length", "End", "ID", "Checksum", "Second", "Word", "High", "Parts",
        "Bank",
    ];
    NAMES.get(number as usize).copied().unwrap_or("unknown")
}

/// A refusal with this number unless the condition holds.
pub fn need(holds: bool, number: u32) -> Result<(), u32> {
    if holds {
        Ok(())
    } else {
        Err(number)
    }
}
