//! The independent program: document 01 and requests E1, E2, E4 and E5 of document 02 written down a second time, from the
//! papers alone.
//!
//! - [`model`]: the reader, the writer, the editor, the listing, UHF words, and the UHF identifier.
//! - [`build`], [`examples`]: bytes put together by hand, and the cases that the papers print.
//! - [`alphabets`]: every byte in every field.
//! - [`trial`]: the calls as the tests make them.
//! - [`random`], [`generate`]: whole, loose and damaged sheets, tags, lock maps, edits, words, texts and identifiers from a seed.
//! - [`history`]: many edits of one tag, and the way back.
//! - [`compare`]: runs a library, through the C driver, on such cases and compares every answer and every byte.

pub mod alphabets;
pub mod build;
pub mod compare;
pub mod examples;
pub mod generate;
pub mod history;
pub mod model;
pub mod random;
pub mod trial;
