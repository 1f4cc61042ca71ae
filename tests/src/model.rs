//! Document 01's rules, and requests E1, E2, E4 and E5 of document 02, each in one place. The calls work on lent bytes and words,
//! as the library's do.
//!
//! What a later request changes stands alone: the page size in [`pages`], the list of element numbers in [`element`].

pub mod block_one;
pub mod chain;
pub mod content;
pub mod crc;
pub mod editing;
pub mod element;
pub mod fields;
pub mod identifier;
pub mod isil;
pub mod layout;
pub mod listing;
pub mod pages;
pub mod reading;
pub mod refusal;
pub mod sheet;
pub mod text;
pub mod words;
pub mod writing;

pub use content::Content;
pub use editing::{editing, Edited};
pub use identifier::{put_together, take_apart};
pub use listing::listing;
pub use reading::reading;
pub use refusal::Refusal;
pub use words::{text_to_words, words_to_text};
pub use writing::writing;
