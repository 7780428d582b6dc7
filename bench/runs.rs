//! The rules of docs/RULES.md for banks, the engine, a run and a what-if as one would write them in Rust.

use crate::plain::{Board, Refusal, read, refuse};
use std::mem::replace;

const LEVELS: usize = 4;
const EIO: u8 = 5;
const EBUSY: u8 = 16;

/// Where a device sits.
#[derive(Clone, Copy, PartialEq, Eq)]
enum Kind {
    Register,
    Controller,
    Member,
    Quiet,
}

/// The devices of a board, each with its kind and its pile of words, and the cells of the fault sheet.
struct Bank<'a> {
    kinds: Vec<Kind>,
    piles: Vec<Vec<u32>>,
    controller: usize,
    cells: &'a [u8],
}

impl<'a> Bank<'a> {
    fn new(board: &Board, cells: &'a [u8]) -> Bank<'a> {
        let controller = board.registers;
        let kind = |d| match d {
            _ if d < controller => Kind::Register,
            _ if d >= controller + board.buses => Kind::Quiet,
            _ if d == controller => Kind::Controller,
            _ => Kind::Member,
        };
        Bank {
            kinds: (0..board.devices.len()).map(kind).collect(),
            piles: board.devices.iter().map(|device| vec![device.word]).collect(),
            controller,
            cells,
        }
    }

    fn level(&self, d: usize) -> usize {
        self.piles[d].len() - 1
    }

    fn word(&self, d: usize) -> u32 {
        self.piles[d][self.level(d)]
    }

    /// The errno that a device gives if it is lowered now, 0 for none: its cell's, or else its bank's.
    fn hindrance(&self, d: usize) -> u8 {
        match self.cells[LEVELS * d + self.level(d)] {
            0 => self.own_hindrance(d),
            errno => errno,
        }
    }

    fn own_hindrance(&self, d: usize) -> u8 {
        let (level, word) = (self.level(d), self.word(d));
        match self.kinds[d] {
            Kind::Register if level == 1 && word >> 31 == 1 => EBUSY,
            Kind::Member => {
                let above = self.level(self.controller);
                if above >= 2 && above > level {
                    EIO
                } else if level == 1 && word & 0xFF != 0 {
                    EBUSY
                } else {
                    0
                }
            }
            _ => 0,
        }
    }

    fn lower(&mut self, d: usize) {
        let word = self.word(d);
        let added = match (self.kinds[d], self.level(d) + 1) {
            (Kind::Quiet, _) => word,
            (_, 4) => 0,
            (Kind::Register, 2) => word & 0xFFFF_0000,
            (Kind::Register, 3) => word & 0xFF00_0000,
            _ => word,
        };
        self.piles[d].push(added);
    }

    fn raise(&mut self, d: usize) {
        self.piles[d].pop();
    }
}

#[derive(Debug, Clone, Copy, PartialEq, Eq)]
pub enum Direction {
    Down,
    Up,
}

#[derive(Debug, Clone, Copy, PartialEq, Eq)]
pub struct Entry {
    pub device: u8,
    pub phase: u8,
    pub direction: Direction,
    pub code: i16,
}

/// How a run ends. Since no alarm comes, there are these two ways.
#[derive(Debug, Clone, Copy, PartialEq, Eq)]
pub enum Outcome {
    Slept { taken: u16 },
    Fault { errno: u8, device: u8, phase: u8, taken: u16 },
}

impl Outcome {
    /// Kind, errno, device, phase and taken.
    pub fn values(self) -> [u16; 5] {
        match self {
            Outcome::Slept { taken } => [0, 0, 255, 0, taken],
            Outcome::Fault { errno, device, phase, taken } => {
                [1, errno.into(), device.into(), phase.into(), taken]
            }
        }
    }
}

/// A board's order and bank, and the journal of its attempt.
struct Engine<'a> {
    devices: &'a [u8],
    bank: Bank<'a>,
    journal: Vec<Entry>,
}

impl<'a> Engine<'a> {
    fn new(board: &'a Board, cells: &'a [u8]) -> Engine<'a> {
        let devices = board.order.devices();
        let journal = Vec::with_capacity(2 * LEVELS * devices.len());
        Engine { devices, bank: Bank::new(board, cells), journal }
    }

    fn lowerings(&self) -> usize {
        LEVELS * self.devices.len()
    }

    /// The device and the phase of a lowering of the schedule.
    fn lowering(&self, j: usize) -> (u8, u8) {
        let n = self.devices.len();
        let (phase, i) = (j / n + 1, j % n);
        let place = if phase == 1 { i } else { n - 1 - i };
        (self.devices[place], phase as u8)
    }

    fn note(&mut self, j: usize, direction: Direction, code: i16) {
        let (device, phase) = self.lowering(j);
        self.journal.push(Entry { device, phase, direction, code });
    }

    /// All lowerings, up to the first that is hindered.
    fn descend(&mut self) -> Outcome {
        for j in 0..self.lowerings() {
            let (device, phase) = self.lowering(j);
            let errno = self.bank.hindrance(device as usize);
            self.note(j, Direction::Down, -i16::from(errno));
            if errno != 0 {
                return Outcome::Fault { errno, device, phase, taken: j as u16 };
            }
            self.bank.lower(device as usize);
        }
        Outcome::Slept { taken: self.lowerings() as u16 }
    }

    /// Raises whatever is lowered.
    fn ascend(&mut self, taken: u16) {
        for j in (0..taken as usize).rev() {
            let (device, _) = self.lowering(j);
            self.bank.raise(device as usize);
            self.note(j, Direction::Up, 0);
        }
    }

    fn run(mut self) -> (Outcome, Vec<Entry>) {
        let outcome = self.descend();
        let (Outcome::Slept { taken } | Outcome::Fault { taken, .. }) = outcome;
        self.ascend(taken);
        (outcome, self.journal)
    }
}

/// The board with the names of its devices, the journal and the outcome. The benchmark reads the outcome alone.
#[allow(dead_code)]
#[derive(Debug)]
pub struct Report {
    pub board: Board,
    pub journal: Vec<Entry>,
    pub outcome: Outcome,
}

/// The board of these two files, or their refusal.
fn read_both(file: &[u8], sheet: &[u8]) -> Result<Board, Refusal> {
    let board = read(file)?;
    if sheet.len() != LEVELS * board.devices.len() {
        return refuse(8, 0);
    }
    Ok(board)
}

fn run_board(board: Board, sheet: &[u8]) -> Report {
    let (outcome, journal) = Engine::new(&board, sheet).run();
    Report { board, journal, outcome }
}

/// The run of a board file with a fault sheet, or its refusal.
pub fn run(file: &[u8], sheet: &[u8]) -> Result<Report, Refusal> {
    Ok(run_board(read_both(file, sheet)?, sheet))
}

/// How the run would end with this byte in the cell of the device for the level. The cell has its old byte again afterwards.
pub fn what_if(file: &[u8], sheet: &mut [u8], device: u8, level: u8, byte: u8) -> Result<Outcome, Refusal> {
    let board = read_both(file, sheet)?;
    if device as usize >= board.devices.len() {
        return refuse(12, device as usize);
    }
    if !(1..=LEVELS).contains(&(level as usize)) {
        return refuse(13, 0);
    }
    let cell = LEVELS * device as usize + level as usize - 1;
    let old = replace(&mut sheet[cell], byte);
    let report = run_board(board, sheet);
    sheet[cell] = old;
    Ok(report.outcome)
}
