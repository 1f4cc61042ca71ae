//! The cases that the papers print, byte for byte.

use crate::build::hex;

/// A sheet and the tag that holds it.
pub struct Example {
    pub name: &'static str,
    pub sheet: Vec<u8>,
    pub tag: Vec<u8>,
}

/// Source document 001, B.1: a truncated basic block on 32 bytes (table B.2, memory map).
pub fn b1() -> Example {
    Example {
        name: "source document 001, B.1",
        sheet: hex("04 00  01 12 00 0A  03 1C 00 09  04 25 00 04  05 29 00 01
                    31 30 30 30 30 30 30 30 35 36  44 4B 2D 37 31 38 35 30 30  01 00 01 00  10"),
        tag: hex("11 01 01 31  30 30 30 30  30 30 30 35  36 00 00 00
                  00 00 00 98  A4 44 4B 37  31 38 35 30  30 00 00 00"),
    }
}

/// Source document 001, B.2: basic block, library extension block and acquisition block on 76 bytes (table B.3). The
/// invoice number is in lower case, as its hex column has it, and no 00 follows it, as the length 34 demands.
pub fn b2() -> Example {
    Example {
        name: "source document 001, B.2",
        sheet: hex("06 00  01 1A 00 0A  03 24 00 09  04 2D 00 04  05 31 00 01  13 32 00 01  FF 33 00 22
                    31 30 30 30 30 30 30 31 33 36  44 4B 2D 37 31 38 35 30 30  01 00 01 00  10  01
                    22 02 00 71  42 6F 67 76 6F 67 6E 65 6E 00  31 32 33 34 35 36 37 38 39 30 00  00
                    61 37 38 39 36 35 36 63"),
        tag: hex("11 01 01 31 30 30 30 30 30 30 31 33 36 00 00 00 00 00 00 36 15
                  44 4B 37 31 38 35 30 30 00 00 00 00 00  05 01 00 05 01
                  22 02 00 71  42 6F 67 76 6F 67 6E 65 6E 00  31 32 33 34 35 36 37 38 39 30 00  00
                  61 37 38 39 36 35 36 63  00 00 00"),
    }
}

/// Document 01, "The whole case".
pub fn whole_case() -> Example {
    Example {
        name: "document 01, the whole case",
        sheet: hex("03 00 01 0E 00 02 04 10 00 04 05 14 00 01 42 31 01 00 01 00 10"),
        tag: hex("11 01 01 42 31 00 00 00 00 00 00 00 00 00 00 00 00 00 00 D9 4B
                  00 00 00 00 00 00 00 00 00 00 00 00 00 00 00"),
    }
}

/// The lines that `taglist` prints for the whole case.
pub const WHOLE_CASE_LISTING: &str = "elements 3\n1 4231\n4 01000100\n5 10\n";

pub fn all() -> [Example; 3] {
    [b1(), b2(), whole_case()]
}

/// Request E2's text and its words; source document 002, 7.3.5.3 and 7.3.7, has the text, and D.2.3 the words but for the
/// fifth.
pub const TEXT: &[u8] = b"CH-000134-1.12345678.31";
pub const WORDS: [u16; 8] = [0x141C, 0xC04F, 0xC70B, 0xADB5, 0xC6E2, 0xDA1D, 0xED4D, 0xD319];
