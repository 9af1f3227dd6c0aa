//! The library under comparison: its names, and safe wrappers over them.

#[rustfmt::skip]
mod names {
    extern "C" {
        pub fn board_plan(
            n: u32, k: u32,
            columns: *const u16, columns_length: usize,
            sheet: *mut u16, sheet_length: usize,
            said: *mut u32, said_length: usize,
        ) -> u32;
        pub fn board_inspect(
            n: u32, k: u32,
            columns: *const u16, columns_length: usize,
            sheet: *const u16, sheet_length: usize,
            said: *mut u32, said_length: usize,
        ) -> u32;
        pub fn board_tick(
            n: u32, k: u32,
            sheet: *const u16, sheet_length: usize,
            state: *mut u32, state_length: usize,
            tick: *const u32, tick_length: usize,
            out: *mut u32, out_length: usize,
            words: *mut u32, words_length: usize,
            marks: *mut u8, marks_length: usize,
            said: *mut u32, said_length: usize,
        ) -> u32;
        pub fn board_move(
            n: u32,
            columns: *const u16, columns_length: usize,
            frame: *const u32, frame_length: usize,
            out: *mut u32, out_length: usize,
            said: *mut u32, said_length: usize,
        ) -> u32;
        pub fn board_inverse(
            n: u32,
            columns: *const u16, columns_length: usize,
            out: *mut u16, out_length: usize,
            said: *mut u32, said_length: usize,
        ) -> u32;
        pub fn board_price(
            n: u32, k: u32,
            sheet: *const u16, sheet_length: usize,
            sums: *mut u32, sums_length: usize,
        ) -> u32;
        pub fn board_list(
            card: *const u8, card_length: usize,
            text: *mut u8, text_length: usize,
            length: *mut u32, length_length: usize,
            said: *mut u32, said_length: usize,
        ) -> u32;
    }
}

// In each wrapper every pointer and length come from one slice, so the board may use exactly those places.

pub fn plan(n: u32, k: u32, columns: &[u16], sheet: &mut [u16], said: &mut [u32]) -> u32 {
    unsafe {
        names::board_plan(
            n,
            k,
            columns.as_ptr(),
            columns.len(),
            sheet.as_mut_ptr(),
            sheet.len(),
            said.as_mut_ptr(),
            said.len(),
        )
    }
}

pub fn inspect(n: u32, k: u32, columns: &[u16], sheet: &[u16], said: &mut [u32]) -> u32 {
    unsafe {
        names::board_inspect(
            n,
            k,
            columns.as_ptr(),
            columns.len(),
            sheet.as_ptr(),
            sheet.len(),
            said.as_mut_ptr(),
            said.len(),
        )
    }
}

#[allow(clippy::too_many_arguments)]
pub fn tick(
    n: u32,
    k: u32,
    sheet: &[u16],
    state: &mut [u32],
    tick: &[u32],
    out: &mut [u32],
    words: &mut [u32],
    marks: &mut [u8],
    said: &mut [u32],
) -> u32 {
    unsafe {
        names::board_tick(
            n,
            k,
            sheet.as_ptr(),
            sheet.len(),
            state.as_mut_ptr(),
            state.len(),
            tick.as_ptr(),
            tick.len(),
            out.as_mut_ptr(),
            out.len(),
            words.as_mut_ptr(),
            words.len(),
            marks.as_mut_ptr(),
            marks.len(),
            said.as_mut_ptr(),
            said.len(),
        )
    }
}

/// The mover (`move` is a word of Rust).
pub fn mover(n: u32, columns: &[u16], frame: &[u32], out: &mut [u32], said: &mut [u32]) -> u32 {
    unsafe {
        names::board_move(
            n,
            columns.as_ptr(),
            columns.len(),
            frame.as_ptr(),
            frame.len(),
            out.as_mut_ptr(),
            out.len(),
            said.as_mut_ptr(),
            said.len(),
        )
    }
}

pub fn inverse(n: u32, columns: &[u16], out: &mut [u16], said: &mut [u32]) -> u32 {
    unsafe {
        names::board_inverse(
            n,
            columns.as_ptr(),
            columns.len(),
            out.as_mut_ptr(),
            out.len(),
            said.as_mut_ptr(),
            said.len(),
        )
    }
}

pub fn price(n: u32, k: u32, sheet: &[u16], sums: &mut [u32]) -> u32 {
    unsafe {
        names::board_price(
            n,
            k,
            sheet.as_ptr(),
            sheet.len(),
            sums.as_mut_ptr(),
            sums.len(),
        )
    }
}

pub fn list(card: &[u8], text: &mut [u8], length: &mut [u32], said: &mut [u32]) -> u32 {
    unsafe {
        names::board_list(
            card.as_ptr(),
            card.len(),
            text.as_mut_ptr(),
            text.len(),
            length.as_mut_ptr(),
            length.len(),
            said.as_mut_ptr(),
            said.len(),
        )
    }
}
