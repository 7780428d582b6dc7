//! The proved library's calls.

use crate::plain::Refusal;

mod ffi {
    unsafe extern "C" {
        pub fn fuldrik_board_order(file: *const u8, len: usize, places: *mut u8, room: usize) -> u8;
        pub fn fuldrik_refusal_number(file: *const u8, len: usize) -> u8;
        pub fn fuldrik_refusal_place(file: *const u8, len: usize) -> u32;
        pub fn fuldrik_run(
            file: *const u8,
            len: usize,
            sheet: *const u8,
            cells: usize,
            values: *mut u16,
            room: usize,
        ) -> u8;
        pub fn fuldrik_what_if(
            file: *const u8,
            len: usize,
            sheet: *mut u8,
            cells: usize,
            device: u8,
            level: u8,
            byte: u8,
            values: *mut u16,
            room: usize,
        ) -> u8;
    }
}

/// How many devices there are in `places`, or 0 where the file is refused.
pub fn order(file: &[u8], places: &mut [u8; 64]) -> usize {
    // The library reads `file` and writes `places`, each within its length, and keeps neither.
    let count = unsafe {
        ffi::fuldrik_board_order(file.as_ptr(), file.len(), places.as_mut_ptr(), places.len())
    };
    count as usize
}

pub fn refusal(file: &[u8]) -> Refusal {
    // As above.
    let (number, place) = unsafe {
        (
            ffi::fuldrik_refusal_number(file.as_ptr(), file.len()),
            ffi::fuldrik_refusal_place(file.as_ptr(), file.len()),
        )
    };
    Refusal { number, place: place as usize }
}

/// What a run answers, with the outcome's numbers in `values`.
pub fn run(file: &[u8], sheet: &[u8], values: &mut [u16]) -> u8 {
    // The library reads `file` and `sheet` and writes `values`, each within its length, and keeps none.
    unsafe {
        ffi::fuldrik_run(
            file.as_ptr(),
            file.len(),
            sheet.as_ptr(),
            sheet.len(),
            values.as_mut_ptr(),
            values.len(),
        )
    }
}

/// A device, a level and a byte.
pub type Cell = (u8, u8, u8);

/// What a what-if answers, with the outcome's numbers in `values`.
pub fn what_if(file: &[u8], sheet: &mut [u8], cell: Cell, values: &mut [u16]) -> u8 {
    let (device, level, byte) = cell;
    // As above; it writes `sheet` too, and lends it to nobody.
    unsafe {
        ffi::fuldrik_what_if(
            file.as_ptr(),
            file.len(),
            sheet.as_mut_ptr(),
            sheet.len(),
            device,
            level,
            byte,
            values.as_mut_ptr(),
            values.len(),
        )
    }
}
