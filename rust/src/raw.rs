//! The calls of the static library. A slice is a pointer and its length.

extern "C" {
    pub fn tarziloen_plan(
        n: u16,
        w: u16,
        ends: *const u16,
        ends_len: usize,
        table: *mut u16,
        table_len: usize,
        values: *mut u16,
        values_len: usize,
    ) -> u16;
    pub fn tarziloen_check(
        n: u16,
        w: u16,
        ends: *const u16,
        ends_len: usize,
        table: *const u16,
        table_len: usize,
        values: *mut u16,
        values_len: usize,
    ) -> u16;
    pub fn tarziloen_book_load(
        bytes: *const u8,
        bytes_len: usize,
        lowest: u32,
        values: *mut u16,
        values_len: usize,
    ) -> u16;
    pub fn tarziloen_book_convert(
        bytes: *const u8,
        bytes_len: usize,
        buffer: *mut u8,
        buffer_len: usize,
        values: *mut u16,
        values_len: usize,
    ) -> u16;
    pub fn tarziloen_book_convert_back(
        bytes: *const u8,
        bytes_len: usize,
        buffer: *mut u8,
        buffer_len: usize,
        values: *mut u16,
        values_len: usize,
    ) -> u16;
    pub fn tarziloen_book_open(
        n: u16,
        w: u16,
        buffer: *mut u8,
        buffer_len: usize,
        values: *mut u16,
        values_len: usize,
    ) -> u16;
    pub fn tarziloen_book_grant(
        buffer: *mut u8,
        buffer_len: usize,
        length: usize,
        x: u16,
        y: u16,
        way: u16,
        colour: u16,
        crew: u16,
        values: *mut u16,
        values_len: usize,
    ) -> u16;
    pub fn tarziloen_book_remove(
        buffer: *mut u8,
        buffer_len: usize,
        length: usize,
        serial: u16,
        values: *mut u16,
        values_len: usize,
    ) -> u16;
    pub fn tarziloen_book_confirm(
        buffer: *mut u8,
        buffer_len: usize,
        length: usize,
        serial: u16,
        values: *mut u16,
        values_len: usize,
    ) -> u16;
    pub fn tarziloen_book_show(
        bytes: *const u8,
        bytes_len: usize,
        serial: u16,
        crew: u16,
        values: *mut u16,
        values_len: usize,
    ) -> u16;
    pub fn tarziloen_book_holder(
        bytes: *const u8,
        bytes_len: usize,
        link: u16,
        colour: u16,
        crew: u16,
        values: *mut u16,
        values_len: usize,
    ) -> u16;
    pub fn tarziloen_book_preview(
        bytes: *const u8,
        bytes_len: usize,
        lines: *const u16,
        lines_len: usize,
        values: *mut u16,
        values_len: usize,
    ) -> u16;
    pub fn tarziloen_book_charge(
        bytes: *const u8,
        bytes_len: usize,
        serial: u16,
        lengths: *const u32,
        lengths_len: usize,
        rates: *const u32,
        rates_len: usize,
        cents: *mut u64,
    ) -> u16;
    pub fn tarziloen_book_charge_all(
        bytes: *const u8,
        bytes_len: usize,
        lengths: *const u32,
        lengths_len: usize,
        rates: *const u32,
        rates_len: usize,
        cents: *mut u64,
    ) -> u16;
    pub fn tarziloen_answer(
        text: *const u8,
        text_len: usize,
        out: *mut u8,
        out_len: usize,
    ) -> usize;
}
