//! Safe calls of the C functions: each is proved for all bytes and all lengths, so
//! a caller has nothing to see to.

use crate::declared::{yilgorza_compare, yilgorza_gate, yilgorza_join, yilgorza_slip};

pub type Writing =
    unsafe extern "C" fn(*const u8, usize, *mut u16, usize, *mut u8, usize, *mut u64);

/// Number, line, gates and bytes of a job over one text.
pub fn writing(job: Writing, text: &[u8], list: &mut [u16], answer: &mut [u8]) -> [u64; 4] {
    let mut outcome = [0; 4];
    // The pointers are those of slices, with their lengths, of which those that
    // are written overlap no other.
    unsafe {
        job(
            text.as_ptr(),
            text.len(),
            list.as_mut_ptr(),
            list.len(),
            answer.as_mut_ptr(),
            answer.len(),
            outcome.as_mut_ptr(),
        );
    }
    outcome
}

/// Number, line, text and count of compare.
pub fn compare(
    first: &[u8],
    first_list: &mut [u16],
    second: &[u8],
    second_list: &mut [u16],
) -> [u64; 4] {
    let mut outcome = [0; 4];
    // As above; the texts are only read, so they may be one.
    unsafe {
        yilgorza_compare(
            first.as_ptr(),
            first.len(),
            first_list.as_mut_ptr(),
            first_list.len(),
            second.as_ptr(),
            second.len(),
            second_list.as_mut_ptr(),
            second_list.len(),
            outcome.as_mut_ptr(),
        );
    }
    outcome
}

/// Number, line, text and count of join.
pub fn join(first: &[u8], list: &mut [u16], second: &[u8], answer: &mut [u8]) -> [u64; 4] {
    let mut outcome = [0; 4];
    // As above.
    unsafe {
        yilgorza_join(
            first.as_ptr(),
            first.len(),
            list.as_mut_ptr(),
            list.len(),
            second.as_ptr(),
            second.len(),
            answer.as_mut_ptr(),
            answer.len(),
            outcome.as_mut_ptr(),
        );
    }
    outcome
}

/// Number, line, text and count of slip.
pub fn slip(
    first: &[u8],
    first_list: &mut [u16],
    slip: &[u8],
    second: &[u8],
    second_list: &mut [u16],
) -> [u64; 4] {
    let mut outcome = [0; 4];
    // As above.
    unsafe {
        yilgorza_slip(
            first.as_ptr(),
            first.len(),
            first_list.as_mut_ptr(),
            first_list.len(),
            slip.as_ptr(),
            slip.len(),
            second.as_ptr(),
            second.len(),
            second_list.as_mut_ptr(),
            second_list.len(),
            outcome.as_mut_ptr(),
        );
    }
    outcome
}

/// Kind, control and target of a record.
pub fn gate(record: u16) -> [u8; 3] {
    let mut gate = [0; 3];
    // The pointer is that of three bytes.
    unsafe { yilgorza_gate(record, gate.as_mut_ptr()) };
    gate
}
