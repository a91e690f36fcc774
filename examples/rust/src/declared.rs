//! The C functions, as include/yilgorza.h declares them.

extern "C" {
    pub fn yilgorza_map(
        text: *const u8,
        text_len: usize,
        list: *mut u16,
        list_len: usize,
        answer: *mut u8,
        answer_len: usize,
        outcome: *mut u64,
    );
    pub fn yilgorza_reduce(
        text: *const u8,
        text_len: usize,
        list: *mut u16,
        list_len: usize,
        answer: *mut u8,
        answer_len: usize,
        outcome: *mut u64,
    );
    pub fn yilgorza_invert(
        text: *const u8,
        text_len: usize,
        list: *mut u16,
        list_len: usize,
        answer: *mut u8,
        answer_len: usize,
        outcome: *mut u64,
    );
    pub fn yilgorza_join(
        first: *const u8,
        first_len: usize,
        list: *mut u16,
        list_len: usize,
        second: *const u8,
        second_len: usize,
        answer: *mut u8,
        answer_len: usize,
        outcome: *mut u64,
    );
    pub fn yilgorza_compare(
        first: *const u8,
        first_len: usize,
        first_list: *mut u16,
        first_list_len: usize,
        second: *const u8,
        second_len: usize,
        second_list: *mut u16,
        second_list_len: usize,
        outcome: *mut u64,
    );
    pub fn yilgorza_slip(
        first: *const u8,
        first_len: usize,
        first_list: *mut u16,
        first_list_len: usize,
        slip: *const u8,
        slip_len: usize,
        second: *const u8,
        second_len: usize,
        second_list: *mut u16,
        second_list_len: usize,
        outcome: *mut u64,
    );
    pub fn yilgorza_gate(record: u16, gate: *mut u8);
}
