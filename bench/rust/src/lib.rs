//! The calls of `urpanella.h` by the independent program, for `bench.c`, which passes no null pointer.

use independent::model::refusal::Refusal;
use independent::model::{editing, put_together, reading, take_apart, text_to_words, words_to_text, writing, Edited};
use std::slice::{from_raw_parts, from_raw_parts_mut};

/// # Safety
/// As `urpanella.h` asks of `urp_read`.
#[no_mangle]
pub unsafe extern "C" fn rust_read(
    tag: *const u8,
    tag_len: usize,
    sheet: *mut u8,
    sheet_len: usize,
    used: *mut usize,
    place: *mut usize,
) -> u32 {
    let (tag, sheet) = (from_raw_parts(tag, tag_len), from_raw_parts_mut(sheet, sheet_len));
    answer(reading(tag, sheet), |length| *used = length, |at| *place = at)
}

/// # Safety
/// As `urpanella.h` asks of `urp_write`.
#[no_mangle]
pub unsafe extern "C" fn rust_write(
    sheet: *const u8,
    sheet_len: usize,
    tag: *mut u8,
    tag_len: usize,
    locks: *const u8,
    locks_len: usize,
    pages: *mut usize,
) -> u32 {
    let (sheet, locks) = (from_raw_parts(sheet, sheet_len), from_raw_parts(locks, locks_len));
    let outcome = writing(sheet, from_raw_parts_mut(tag, tag_len), locks);
    answer(outcome.map_err(Refusal::from), |count| *pages = count, |_| ())
}

/// # Safety
/// As `urpanella.h` asks of `urp_edit`.
#[no_mangle]
pub unsafe extern "C" fn rust_edit(
    tag: *mut u8,
    tag_len: usize,
    locks: *const u8,
    locks_len: usize,
    number: u32,
    value: *const u8,
    value_len: usize,
    old: *mut u8,
    old_len: usize,
    pages: *mut usize,
    old_used: *mut usize,
    place: *mut usize,
) -> u32 {
    let (tag, old) = (from_raw_parts_mut(tag, tag_len), from_raw_parts_mut(old, old_len));
    let (locks, value) = (from_raw_parts(locks, locks_len), from_raw_parts(value, value_len));
    let store = |edited: Edited| {
        *pages = edited.pages;
        *old_used = edited.old_length;
    };
    answer(editing(tag, locks, number, value, old), store, |at| *place = at)
}

/// # Safety
/// As `urpanella.h` asks of `urp_words_to_text`.
#[no_mangle]
pub unsafe extern "C" fn rust_words_to_text(
    words: *const u16,
    words_len: usize,
    text: *mut u8,
    text_len: usize,
    used: *mut usize,
) -> u32 {
    let outcome = words_to_text(from_raw_parts(words, words_len), from_raw_parts_mut(text, text_len));
    answer(outcome.map_err(Refusal::from), |length| *used = length, |_| ())
}

/// # Safety
/// As `urpanella.h` asks of `urp_text_to_words`.
#[no_mangle]
pub unsafe extern "C" fn rust_text_to_words(
    text: *const u8,
    text_len: usize,
    words: *mut u16,
    words_len: usize,
    used: *mut usize,
) -> u32 {
    let outcome = text_to_words(from_raw_parts(text, text_len), from_raw_parts_mut(words, words_len));
    answer(outcome.map_err(Refusal::from), |count| *used = count, |_| ())
}

/// # Safety
/// As `urpanella.h` asks of `urp_take_apart`.
#[no_mangle]
pub unsafe extern "C" fn rust_take_apart(
    text: *const u8,
    text_len: usize,
    isil_leads: u32,
    item: *mut u8,
    item_len: usize,
    isil: *mut u8,
    isil_len: usize,
    set: *mut u8,
    set_len: usize,
    item_used: *mut usize,
    isil_used: *mut usize,
    set_used: *mut usize,
) -> u32 {
    let item = from_raw_parts_mut(item, item_len);
    let (isil, set) = (from_raw_parts_mut(isil, isil_len), from_raw_parts_mut(set, set_len));
    let outcome = take_apart(from_raw_parts(text, text_len), isil_leads, [item, isil, set]);
    let store = |lengths: [usize; 3]| [*item_used, *isil_used, *set_used] = lengths;
    answer(outcome.map_err(Refusal::from), store, |_| ())
}

/// # Safety
/// As `urpanella.h` asks of `urp_put_together`.
#[no_mangle]
pub unsafe extern "C" fn rust_put_together(
    item: *const u8,
    item_len: usize,
    isil: *const u8,
    isil_len: usize,
    set: *const u8,
    set_len: usize,
    text: *mut u8,
    text_len: usize,
    used: *mut usize,
) -> u32 {
    let (item, isil) = (from_raw_parts(item, item_len), from_raw_parts(isil, isil_len));
    let outcome = put_together(item, isil, from_raw_parts(set, set_len), from_raw_parts_mut(text, text_len));
    answer(outcome.map_err(Refusal::from), |length| *used = length, |_| ())
}

/// The number for C. The results are stored only where the work is done, and the place only where the refusal has one.
fn answer<T>(outcome: Result<T, Refusal>, store: impl FnOnce(T), store_place: impl FnOnce(usize)) -> u32 {
    match outcome {
        Ok(done) => {
            store(done);
            0
        }
        Err(refusal) => {
            if let Some(at) = refusal.place {
                store_place(at);
            }
            refusal.number
        }
    }
}
