//! The calls of the archive, on slices. All `unsafe` of the crate is here.
//!
//! Each block has the same reason. A slice passes as its pointer and its length, so every pointer
//! is good for its length; what is lent for writing is borrowed exclusively and overlaps nothing.
//! The calls are proved to take every input, to read and write within what is lent, to write
//! nothing that is lent for reading, and to keep no pointer.

extern "C" {
    fn pelohuaki_record_at(
        bytes: *const u8,
        bytes_len: usize,
        at: usize,
        told: *mut u64,
        told_len: usize,
    ) -> u64;

    fn pelohuaki_read(
        bytes: *const u8,
        bytes_len: usize,
        codes: *mut u8,
        codes_len: usize,
        coefficients: *mut i32,
        coefficients_len: usize,
        constants: *mut i32,
        constants_len: usize,
        told: *mut u64,
        told_len: usize,
    ) -> u64;

    fn pelohuaki_write(
        n: u8,
        codes: *const u8,
        codes_len: usize,
        coefficients: *const i32,
        coefficients_len: usize,
        constants: *const i32,
        constants_len: usize,
        bytes: *mut u8,
        bytes_len: usize,
        told: *mut u64,
        told_len: usize,
    ) -> u64;

    fn pelohuaki_import(
        text: *const u8,
        text_len: usize,
        codes: *mut u8,
        codes_len: usize,
        coefficients: *mut i32,
        coefficients_len: usize,
        constants: *mut i32,
        constants_len: usize,
        told: *mut u64,
        told_len: usize,
    ) -> u64;

    fn pelohuaki_judge(
        bytes: *const u8,
        bytes_len: usize,
        values: *const u64,
        values_len: usize,
        told: *mut u64,
        told_len: usize,
    ) -> u64;

    fn pelohuaki_decide(
        bytes: *const u8,
        bytes_len: usize,
        keys: *mut i32,
        keys_len: usize,
        path: *mut u16,
        path_len: usize,
        word: *mut u8,
        word_len: usize,
        told: *mut u64,
        told_len: usize,
    ) -> u64;

    fn pelohuaki_build(
        bytes: *const u8,
        bytes_len: usize,
        keys: *mut i32,
        keys_len: usize,
        table: *mut u16,
        table_len: usize,
        told: *mut u64,
        told_len: usize,
    ) -> u64;

    fn pelohuaki_run(
        n: usize,
        cells: *const u16,
        cells_len: usize,
        word: *const u8,
        word_len: usize,
        told: *mut u64,
        told_len: usize,
    ) -> u64;

    fn pelohuaki_spell(
        n: usize,
        variable: usize,
        word: *const u8,
        word_len: usize,
        told: *mut u64,
        told_len: usize,
    ) -> u64;
}

/// The record at a place. `told`: place, kind, start of the body, its length, start of the next
/// record; 0 after the place where it is refused.
pub fn record_at(bytes: &[u8], at: usize, told: &mut [u64]) -> u64 {
    // SAFETY: good pointers, `told` exclusive; any `at` is answered, one past the end too.
    unsafe {
        pelohuaki_record_at(
            bytes.as_ptr(),
            bytes.len(),
            at,
            told.as_mut_ptr(),
            told.len(),
        )
    }
}

/// Reads a question. Its parts are written to the front of `codes` (64 cells), `coefficients` (48,
/// row i of six from 6 * i on) and `constants` (8), as many cells as are lent; where it is refused,
/// none. `told`: place, n.
pub fn read(
    bytes: &[u8],
    codes: &mut [u8],
    coefficients: &mut [i32],
    constants: &mut [i32],
    told: &mut [u64],
) -> u64 {
    // SAFETY: good pointers, and the four that are written are exclusive.
    unsafe {
        pelohuaki_read(
            bytes.as_ptr(),
            bytes.len(),
            codes.as_mut_ptr(),
            codes.len(),
            coefficients.as_mut_ptr(),
            coefficients.len(),
            constants.as_mut_ptr(),
            constants.len(),
            told.as_mut_ptr(),
            told.len(),
        )
    }
}

/// Writes a question to the front of `bytes`. A part's cells that are not lent count as 0, and those
/// past 64, 48 and 8 are not looked at. `told`: place, the number of bytes written.
pub fn write(
    n: u8,
    codes: &[u8],
    coefficients: &[i32],
    constants: &[i32],
    bytes: &mut [u8],
    told: &mut [u64],
) -> u64 {
    // SAFETY: good pointers, `bytes` and `told` exclusive.
    unsafe {
        pelohuaki_write(
            n,
            codes.as_ptr(),
            codes.len(),
            coefficients.as_ptr(),
            coefficients.len(),
            constants.as_ptr(),
            constants.len(),
            bytes.as_mut_ptr(),
            bytes.len(),
            told.as_mut_ptr(),
            told.len(),
        )
    }
}

/// Imports the question of a text, its parts as those of a question that is read. `told`: place, n,
/// and where each of six names starts and ends in the text; 0 for those past n.
pub fn import(
    text: &[u8],
    codes: &mut [u8],
    coefficients: &mut [i32],
    constants: &mut [i32],
    told: &mut [u64],
) -> u64 {
    // SAFETY: good pointers, and the four that are written are exclusive.
    unsafe {
        pelohuaki_import(
            text.as_ptr(),
            text.len(),
            codes.as_mut_ptr(),
            codes.len(),
            coefficients.as_mut_ptr(),
            coefficients.len(),
            constants.as_mut_ptr(),
            constants.len(),
            told.as_mut_ptr(),
            told.len(),
        )
    }
}

/// Judges values. `told`: place, 1 for yes and 0 for no.
pub fn judge(bytes: &[u8], values: &[u64], told: &mut [u64]) -> u64 {
    // SAFETY: good pointers, `told` exclusive.
    unsafe {
        pelohuaki_judge(
            bytes.as_ptr(),
            bytes.len(),
            values.as_ptr(),
            values.len(),
            told.as_mut_ptr(),
            told.len(),
        )
    }
}

/// Decides a question. `told`: place, verdict (1 found, 2 never, 0 refused), states, letters.
pub fn decide(
    bytes: &[u8],
    keys: &mut [i32],
    path: &mut [u16],
    word: &mut [u8],
    told: &mut [u64],
) -> u64 {
    // SAFETY: good pointers, and the four that are written are exclusive.
    unsafe {
        pelohuaki_decide(
            bytes.as_ptr(),
            bytes.len(),
            keys.as_mut_ptr(),
            keys.len(),
            path.as_mut_ptr(),
            path.len(),
            word.as_mut_ptr(),
            word.len(),
            told.as_mut_ptr(),
            told.len(),
        )
    }
}

/// Builds a question's table. `told`: place, verdict (3 built, 0 refused), states, 0.
pub fn build(bytes: &[u8], keys: &mut [i32], table: &mut [u16], told: &mut [u64]) -> u64 {
    // SAFETY: good pointers, and the three that are written are exclusive.
    unsafe {
        pelohuaki_build(
            bytes.as_ptr(),
            bytes.len(),
            keys.as_mut_ptr(),
            keys.len(),
            table.as_mut_ptr(),
            table.len(),
            told.as_mut_ptr(),
            told.len(),
        )
    }
}

/// Runs a table on a word. `told`: place, 1 for yes and 0 for no.
pub fn run(n: usize, cells: &[u16], word: &[u8], told: &mut [u64]) -> u64 {
    // SAFETY: good pointers, `told` exclusive.
    unsafe {
        pelohuaki_run(
            n,
            cells.as_ptr(),
            cells.len(),
            word.as_ptr(),
            word.len(),
            told.as_mut_ptr(),
            told.len(),
        )
    }
}

/// What a word spells for a variable from 1 to n. `told`: place, the value.
pub fn spell(n: usize, variable: usize, word: &[u8], told: &mut [u64]) -> u64 {
    // SAFETY: good pointers, `told` exclusive.
    unsafe {
        pelohuaki_spell(
            n,
            variable,
            word.as_ptr(),
            word.len(),
            told.as_mut_ptr(),
            told.len(),
        )
    }
}
