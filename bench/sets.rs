//! The C version's calls, and what `sets.h` lays out for their answers.

use crate::plain::Refusal;
use crate::proved::Cell;

const MOST_DEVICES: usize = 64;
const MOST_ENTRIES: usize = 8 * MOST_DEVICES;

#[repr(C)]
struct Refused {
    number: u32,
    place: u32,
}

#[repr(C)]
pub struct Board {
    pub names: [u64; MOST_DEVICES],
    superiors: [u64; MOST_DEVICES],
    dependents: [u64; MOST_DEVICES],
    pub words: [u32; MOST_DEVICES],
    order: [u8; MOST_DEVICES],
    n: u8,
    pub registers: u8,
    pub buses: u8,
}

impl Board {
    pub fn new() -> Board {
        Board {
            names: [0; MOST_DEVICES],
            superiors: [0; MOST_DEVICES],
            dependents: [0; MOST_DEVICES],
            words: [0; MOST_DEVICES],
            order: [0; MOST_DEVICES],
            n: 0,
            registers: 0,
            buses: 0,
        }
    }

    pub fn order(&self) -> &[u8] {
        &self.order[..self.n as usize]
    }
}

#[repr(C)]
#[derive(Clone, Copy)]
pub struct Entry {
    pub device: u8,
    pub phase: u8,
    pub direction: i8,
    pub code: i16,
}

#[repr(C)]
pub struct Report {
    pub board: Board,
    journal: [Entry; MOST_ENTRIES],
    outcome: [u16; 5],
    entries: u16,
}

impl Report {
    pub fn new() -> Report {
        let entry = Entry { device: 0, phase: 0, direction: 0, code: 0 };
        Report { board: Board::new(), journal: [entry; MOST_ENTRIES], outcome: [0; 5], entries: 0 }
    }

    pub fn journal(&self) -> &[Entry] {
        &self.journal[..self.entries as usize]
    }

    /// Kind, errno, device, phase and taken.
    pub fn values(&self) -> [u16; 5] {
        self.outcome
    }
}

mod ffi {
    use super::{Board, Refused, Report};

    unsafe extern "C" {
        pub fn sets_read(file: *const u8, size: usize, board: *mut Board) -> Refused;
        pub fn sets_run(
            file: *const u8,
            size: usize,
            sheet: *const u8,
            cells: usize,
            report: *mut Report,
        ) -> Refused;
        pub fn sets_what_if(
            file: *const u8,
            size: usize,
            sheet: *mut u8,
            cells: usize,
            device: u8,
            level: u8,
            byte: u8,
            report: *mut Report,
        ) -> Refused;
    }
}

fn told(refused: Refused) -> Result<(), Refusal> {
    match refused {
        Refused { number: 0, .. } => Ok(()),
        Refused { number, place } => Err(Refusal { number: number as u8, place: place as usize }),
    }
}

/// The board goes into `board`, with its order.
pub fn read(file: &[u8], board: &mut Board) -> Result<(), Refusal> {
    // C reads `file` within its length and writes `board`, and keeps neither.
    told(unsafe { ffi::sets_read(file.as_ptr(), file.len(), board) })
}

pub fn run(file: &[u8], sheet: &[u8], report: &mut Report) -> Result<(), Refusal> {
    // As above, with `sheet` and `report`.
    told(unsafe { ffi::sets_run(file.as_ptr(), file.len(), sheet.as_ptr(), sheet.len(), report) })
}

pub fn what_if(file: &[u8], sheet: &mut [u8], cell: Cell, report: &mut Report) -> Result<(), Refusal> {
    let (device, level, byte) = cell;
    // As above; it writes `sheet` too, within its length.
    told(unsafe {
        ffi::sets_what_if(
            file.as_ptr(),
            file.len(),
            sheet.as_mut_ptr(),
            sheet.len(),
            device,
            level,
            byte,
            report,
        )
    })
}
