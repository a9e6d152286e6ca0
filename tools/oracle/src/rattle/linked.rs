//! The C functions of the five static libraries, each behind a safe function.
//! Nothing checks these declarations against the Rattle source: keep them in step by hand.

use crate::model::lent::Lists;
use crate::model::rows::Range;
use crate::model::store::{Entry, Store};
use crate::rattle::answers::{LONGEST_CARD, RestoreAnswer, WriteAnswer};

// A slice passes as its pointer, then its length.
unsafe extern "C" {
    fn sicklestar_read_leb128(
        input: *const u8,
        len: usize,
        answer: *mut u64,
        answer_len: usize,
    ) -> u32;
    fn sicklestar_leb128(value: u32, out: *mut u8, out_len: usize) -> WriteAnswer;
    fn sicklestar_utf8(name: *const u8, len: usize) -> u32;
    fn sicklestar_card(input: *const u8, len: usize, out: *mut u8, out_len: usize) -> u32;
    fn sicklestar_device(
        version: u32,
        row: *const u8,
        len: usize,
        out: *mut u8,
        out_len: usize,
    ) -> u32;
    fn sicklestar_queued(
        version: u32,
        row: *const u8,
        len: usize,
        out: *mut u8,
        out_len: usize,
    ) -> u32;
    fn sicklestar_courier(
        version: u32,
        row: *const u8,
        len: usize,
        out: *mut u8,
        out_len: usize,
    ) -> u32;
    fn sicklestar_check_contact(version: u32, row: *const u8, len: usize) -> u32;
    fn sicklestar_contact(
        version: u32,
        row: *const u8,
        len: usize,
        chains: *mut u8,
        chains_len: usize,
        skipped: *mut u8,
        skipped_len: usize,
        above: *mut u32,
        above_len: usize,
        unacked: *mut u32,
        unacked_len: usize,
        expired: *mut u32,
        expired_len: usize,
        out: *mut u8,
        out_len: usize,
    ) -> u32;
    fn sicklestar_veil(
        kind: u32,
        version: u32,
        row: *const u8,
        len: usize,
        out: *mut u8,
        out_len: usize,
    ) -> u32;
    fn sicklestar_restore(
        run: *const u8,
        run_len: usize,
        entries: *const Entry,
        entries_len: usize,
    ) -> RestoreAnswer;
    fn sicklestar_contains(
        contiguous: u32,
        above: *const u32,
        len: usize,
        count: usize,
        msgno: u32,
    ) -> u32;
    fn sicklestar_covers(
        contiguous: u32,
        above: *const u32,
        len: usize,
        count: usize,
        from: u32,
        to: u32,
    ) -> u32;
    fn sicklestar_insert(
        contiguous: u32,
        above: *mut u32,
        len: usize,
        count: usize,
        from: u32,
        to: u32,
        answer: *mut u64,
        answer_len: usize,
    ) -> u32;
}

/// 0 and in `answer` the value and the bytes taken, or the number of the question.
pub fn read_leb128(input: &[u8], answer: &mut [u64; 2]) -> u32 {
    // SAFETY: both slices are alive, of these lengths, and apart.
    unsafe {
        sicklestar_read_leb128(
            input.as_ptr(),
            input.len(),
            answer.as_mut_ptr(),
            answer.len(),
        )
    }
}

/// Writes to the front of `out`.
pub fn leb128(value: u32, out: &mut [u8]) -> WriteAnswer {
    // SAFETY: the slice is alive and of this length; the answer is laid out as in C.
    unsafe { sicklestar_leb128(value, out.as_mut_ptr(), out.len()) }
}

/// 1 if `name` is UTF-8, else 0.
pub fn utf8(name: &[u8]) -> u32 {
    // SAFETY: the slice is alive and of this length.
    unsafe { sicklestar_utf8(name.as_ptr(), name.len()) }
}

/// 0 and the card written again to the front of `out`, or the number of the question.
pub fn card(input: &[u8], out: &mut [u8; LONGEST_CARD]) -> u32 {
    // SAFETY: both slices are alive, of these lengths, and apart.
    unsafe { sicklestar_card(input.as_ptr(), input.len(), out.as_mut_ptr(), out.len()) }
}

type Row = unsafe extern "C" fn(u32, *const u8, usize, *mut u8, usize) -> u32;

/// 0 and the row at the front of `out`; or the number of the question.
fn copy(function: Row, version: u32, row: &[u8], out: &mut [u8]) -> u32 {
    // SAFETY: both slices are alive, of these lengths, and apart.
    unsafe {
        function(
            version,
            row.as_ptr(),
            row.len(),
            out.as_mut_ptr(),
            out.len(),
        )
    }
}

pub fn device(version: u32, row: &[u8], out: &mut [u8]) -> u32 {
    copy(sicklestar_device, version, row, out)
}

pub fn queued(version: u32, row: &[u8], out: &mut [u8]) -> u32 {
    copy(sicklestar_queued, version, row, out)
}

pub fn courier(version: u32, row: &[u8], out: &mut [u8]) -> u32 {
    copy(sicklestar_courier, version, row, out)
}

/// 0 and the veiled copy of a row of this kind at the front of `out`; or the number of the question.
pub fn veil(kind: u32, version: u32, row: &[u8], out: &mut [u8]) -> u32 {
    // SAFETY: both slices are alive, of these lengths, and apart.
    unsafe {
        sicklestar_veil(
            kind,
            version,
            row.as_ptr(),
            row.len(),
            out.as_mut_ptr(),
            out.len(),
        )
    }
}

pub fn veil_device(version: u32, row: &[u8], out: &mut [u8]) -> u32 {
    veil(0, version, row, out)
}

pub fn veil_contact(version: u32, row: &[u8], out: &mut [u8]) -> u32 {
    veil(1, version, row, out)
}

pub fn veil_queued(version: u32, row: &[u8], out: &mut [u8]) -> u32 {
    veil(2, version, row, out)
}

pub fn veil_courier(version: u32, row: &[u8], out: &mut [u8]) -> u32 {
    veil(3, version, row, out)
}

/// 0 or the number of the question.
pub fn check_contact(version: u32, row: &[u8]) -> u32 {
    // SAFETY: the slice is alive and of this length.
    unsafe { sicklestar_check_contact(version, row.as_ptr(), row.len()) }
}

/// As `copy`, with the lists that the items are read into: 36 comes after 24, then 40, and only then they are filled.
pub fn contact_lists(version: u32, row: &[u8], lists: &mut Lists, out: &mut [u8]) -> u32 {
    // SAFETY: all slices are alive, of these lengths, and apart.
    unsafe {
        sicklestar_contact(
            version,
            row.as_ptr(),
            row.len(),
            lists.chains.as_mut_ptr(),
            lists.chains.len(),
            lists.skipped.as_mut_ptr(),
            lists.skipped.len(),
            lists.above.as_mut_ptr(),
            lists.above.len(),
            lists.unacked.as_mut_ptr(),
            lists.unacked.len(),
            lists.expired.as_mut_ptr(),
            lists.expired.len(),
            out.as_mut_ptr(),
            out.len(),
        )
    }
}

pub fn restore(store: &Store) -> RestoreAnswer {
    // SAFETY: both slices are alive and of these lengths; an `Entry` and the answer are laid out as in C.
    unsafe {
        sicklestar_restore(
            store.run.as_ptr(),
            store.run.len(),
            store.entries.as_ptr(),
            store.entries.len(),
        )
    }
}

/// 1 if the number is covered, else 0.
pub fn contains(contiguous: u32, above: &[u32], count: usize, msgno: u32) -> u32 {
    // SAFETY: the slice is alive and of this length.
    unsafe { sicklestar_contains(contiguous, above.as_ptr(), above.len(), count, msgno) }
}

/// 1 if all of from..to is covered, else 0.
pub fn covers(contiguous: u32, above: &[u32], count: usize, (from, to): Range) -> u32 {
    // SAFETY: the slice is alive and of this length.
    unsafe { sicklestar_covers(contiguous, above.as_ptr(), above.len(), count, from, to) }
}

/// 0 and in `answer` what covering left, or the number of the question.
pub fn insert(
    contiguous: u32,
    above: &mut [u32],
    count: usize,
    (from, to): Range,
    answer: &mut [u64],
) -> u32 {
    // SAFETY: both slices are alive, of these lengths, and apart.
    unsafe {
        sicklestar_insert(
            contiguous,
            above.as_mut_ptr(),
            above.len(),
            count,
            from,
            to,
            answer.as_mut_ptr(),
            answer.len(),
        )
    }
}
