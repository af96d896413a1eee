//! The exported functions, and one safe function over slices for each. This is the only file with
//! unsafe code.
//!
//! Why the calls are sound. The library has no precondition on what it reads: every length and
//! every word is met by an answer, and nothing outside of the lent parts is read or written. What
//! it asks of a caller is only what Rust's references give:
//!
//! - a pointer and a length from one slice are never null, are aligned for their element, and are
//!   valid for that many elements;
//! - a `&mut` slice overlaps no other slice, so nothing is written under a part that is read. Parts
//!   that are only read may overlap, as two shared slices may in safe code: no call writes either;
//! - the library keeps no pointer after it came back, so no borrow is outlived, and it has no state
//!   of its own, so threads do not meet in it.
//!
//! A length is counted in elements and not in bytes, as `len` counts it.

// The library is lent up to nine parts, and these functions add nothing to it.
#![allow(clippy::too_many_arguments)]

extern "C" {
    fn workbook_version() -> u32;

    fn workbook_load(
        sheet: *const u8,
        sheet_len: usize,
        slots: *mut u32,
        slots_len: usize,
        kinds: *mut u8,
        kinds_len: usize,
        words: *mut u32,
        words_len: usize,
        state: *mut u32,
        state_len: usize,
        answer: *mut u32,
        answer_len: usize,
    ) -> u32;

    fn workbook_step(
        code: *const u8,
        code_len: usize,
        kinds: *const u8,
        kinds_len: usize,
        words: *const u32,
        words_len: usize,
        handlers: *const u8,
        handlers_len: usize,
        slots: *mut u32,
        slots_len: usize,
        state: *mut u32,
        state_len: usize,
        answer: *mut u32,
        answer_len: usize,
    ) -> u32;

    fn workbook_forward(
        code: *const u8,
        code_len: usize,
        kinds: *const u8,
        kinds_len: usize,
        words: *const u32,
        words_len: usize,
        handlers: *const u8,
        handlers_len: usize,
        slots: *mut u32,
        slots_len: usize,
        log: *mut u32,
        log_len: usize,
        state: *mut u32,
        state_len: usize,
        answer: *mut u32,
        answer_len: usize,
    ) -> u32;

    fn workbook_back(
        code: *const u8,
        code_len: usize,
        kinds: *const u8,
        kinds_len: usize,
        words: *const u32,
        words_len: usize,
        slots: *mut u32,
        slots_len: usize,
        log: *const u32,
        log_len: usize,
        state: *mut u32,
        state_len: usize,
    ) -> u32;

    fn workbook_run(
        code: *const u8,
        code_len: usize,
        kinds: *const u8,
        kinds_len: usize,
        words: *const u32,
        words_len: usize,
        handlers: *const u8,
        handlers_len: usize,
        slots: *mut u32,
        slots_len: usize,
        state: *mut u32,
        state_len: usize,
        answer: *mut u32,
        answer_len: usize,
        budget: u64,
    ) -> u32;

    fn workbook_presses(
        code: *const u8,
        code_len: usize,
        kinds: *const u8,
        kinds_len: usize,
        words: *const u32,
        words_len: usize,
        handlers: *const u8,
        handlers_len: usize,
        slots: *mut u32,
        slots_len: usize,
        log: *mut u32,
        log_len: usize,
        state: *mut u32,
        state_len: usize,
        presses: *const u8,
        presses_len: usize,
        answers: *mut u32,
        answers_len: usize,
    ) -> u32;
}

/// `workbook_version`.
#[must_use]
pub fn version() -> u32 {
    // SAFETY: the function is lent nothing, and gives a number.
    unsafe { workbook_version() }
}

/// `workbook_load` on lent slices of any lengths.
pub fn load(
    sheet: &[u8],
    slots: &mut [u32],
    kinds: &mut [u8],
    words: &mut [u32],
    state: &mut [u32],
    answer: &mut [u32],
) -> u32 {
    // SAFETY: each pair is the pointer and the length of one slice. The sheet is only read; the
    // five other parts are `&mut`, so they overlap neither it nor each other. The library answers
    // for every length and every byte of the sheet.
    unsafe {
        workbook_load(
            sheet.as_ptr(),
            sheet.len(),
            slots.as_mut_ptr(),
            slots.len(),
            kinds.as_mut_ptr(),
            kinds.len(),
            words.as_mut_ptr(),
            words.len(),
            state.as_mut_ptr(),
            state.len(),
            answer.as_mut_ptr(),
            answer.len(),
        )
    }
}

/// `workbook_step` on lent slices of any lengths.
pub fn step(
    code: &[u8],
    kinds: &[u8],
    words: &[u32],
    handlers: &[u8],
    slots: &mut [u32],
    state: &mut [u32],
    answer: &mut [u32],
) -> u32 {
    // SAFETY: each pair is the pointer and the length of one slice. Code, kinds, words and handlers
    // are only read; slots, state and answer are `&mut`, so they overlap nothing. The library
    // answers for every length and every word, also for a state and for handlers that no load gave.
    unsafe {
        workbook_step(
            code.as_ptr(),
            code.len(),
            kinds.as_ptr(),
            kinds.len(),
            words.as_ptr(),
            words.len(),
            handlers.as_ptr(),
            handlers.len(),
            slots.as_mut_ptr(),
            slots.len(),
            state.as_mut_ptr(),
            state.len(),
            answer.as_mut_ptr(),
            answer.len(),
        )
    }
}

/// `workbook_forward` on lent slices of any lengths.
pub fn forward(
    code: &[u8],
    kinds: &[u8],
    words: &[u32],
    handlers: &[u8],
    slots: &mut [u32],
    log: &mut [u32],
    state: &mut [u32],
    answer: &mut [u32],
) -> u32 {
    // SAFETY: as for `step`; the log is one more `&mut` slice. A count that the log does not reach
    // is met by refusal 12.
    unsafe {
        workbook_forward(
            code.as_ptr(),
            code.len(),
            kinds.as_ptr(),
            kinds.len(),
            words.as_ptr(),
            words.len(),
            handlers.as_ptr(),
            handlers.len(),
            slots.as_mut_ptr(),
            slots.len(),
            log.as_mut_ptr(),
            log.len(),
            state.as_mut_ptr(),
            state.len(),
            answer.as_mut_ptr(),
            answer.len(),
        )
    }
}

/// `workbook_back` on lent slices of any lengths.
pub fn back(
    code: &[u8],
    kinds: &[u8],
    words: &[u32],
    slots: &mut [u32],
    log: &[u32],
    state: &mut [u32],
) -> u32 {
    // SAFETY: each pair is the pointer and the length of one slice. Code, kinds, words and log are
    // only read; slots and state are `&mut`, so they overlap nothing. A log that holds anything at
    // all is met by an answer: a bad entry is refusal 14.
    unsafe {
        workbook_back(
            code.as_ptr(),
            code.len(),
            kinds.as_ptr(),
            kinds.len(),
            words.as_ptr(),
            words.len(),
            slots.as_mut_ptr(),
            slots.len(),
            log.as_ptr(),
            log.len(),
            state.as_mut_ptr(),
            state.len(),
        )
    }
}

/// `workbook_run` on lent slices of any lengths.
pub fn run(
    code: &[u8],
    kinds: &[u8],
    words: &[u32],
    handlers: &[u8],
    slots: &mut [u32],
    state: &mut [u32],
    answer: &mut [u32],
    budget: u64,
) -> u32 {
    // SAFETY: as for `step`; every budget is met by an answer.
    unsafe {
        workbook_run(
            code.as_ptr(),
            code.len(),
            kinds.as_ptr(),
            kinds.len(),
            words.as_ptr(),
            words.len(),
            handlers.as_ptr(),
            handlers.len(),
            slots.as_mut_ptr(),
            slots.len(),
            state.as_mut_ptr(),
            state.len(),
            answer.as_mut_ptr(),
            answer.len(),
            budget,
        )
    }
}

/// `workbook_presses` on lent slices of any lengths.
pub fn presses(
    code: &[u8],
    kinds: &[u8],
    words: &[u32],
    handlers: &[u8],
    slots: &mut [u32],
    log: &mut [u32],
    state: &mut [u32],
    presses: &[u8],
    answers: &mut [u32],
) -> u32 {
    // SAFETY: each pair is the pointer and the length of one slice. Code, kinds, words, handlers and
    // presses are only read; slots, log, state and answers are `&mut`, so they overlap nothing.
    // Answers that are too short for the presses are met by number 1.
    unsafe {
        workbook_presses(
            code.as_ptr(),
            code.len(),
            kinds.as_ptr(),
            kinds.len(),
            words.as_ptr(),
            words.len(),
            handlers.as_ptr(),
            handlers.len(),
            slots.as_mut_ptr(),
            slots.len(),
            log.as_mut_ptr(),
            log.len(),
            state.as_mut_ptr(),
            state.len(),
            presses.as_ptr(),
            presses.len(),
            answers.as_mut_ptr(),
            answers.len(),
        )
    }
}
