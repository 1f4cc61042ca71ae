//! "Sizes": pages, tag lengths and lock maps, all stated over the page size.

/// "A page is 4 bytes."
pub const PAGE: usize = 4;

/// "A tag has 32 bytes, or a multiple of 4 from 36 to 2,048."
pub fn is_tag_length(length: usize, page: usize) -> bool {
    length == 32 || ((36..=2048).contains(&length) && length.is_multiple_of(page))
}

/// "The lock map has one byte for each page: 0 open, 1 locked."
pub fn is_lock_map(locks: &[u8], tag_length: usize, page: usize) -> bool {
    locks.len() * page == tag_length && locks.iter().all(|lock| *lock <= 1)
}

/// The pages "whose bytes differ before and after", by their numbers, rising.
pub fn differing(before: &[u8], after: &[u8], page: usize) -> Vec<usize> {
    let pairs = before.chunks(page).zip(after.chunks(page));
    pairs.enumerate().filter(|(_, (old, new))| old != new).map(|(number, _)| number).collect()
}
