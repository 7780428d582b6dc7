//! The calls that are timed and counted, and the files that they are given.

use crate::boards::{Chance, board, even_board};
use crate::plain;
use crate::proved::{self, Cell};
use crate::runs;
use crate::sets;
use std::hint::black_box;

/// The sizes of boards: devices and links.
pub const SIZES: [(usize, usize); 3] = [(3, 1), (16, 32), (64, 256)];

#[derive(Clone, Copy)]
pub enum Kind {
    Order,
    Run,
    WhatIf,
}

pub const KINDS: [(&str, Kind); 3] = [("order", Kind::Order), ("run", Kind::Run), ("what-if", Kind::WhatIf)];

#[derive(Clone, Copy)]
pub enum Program {
    Proved,
    Rust,
    C,
}

pub const PROGRAMS: [(&str, Program); 3] =
    [("proved", Program::Proved), ("rust", Program::Rust), ("c", Program::C)];

/// What a call is given.
pub struct Files {
    board: Vec<u8>,
    sheet: Vec<u8>,
    cell: Cell,
}

/// A board that sleeps and wakes with cells that are all 0, and a cell by chance that is to hinder its device.
fn sleeper(chance: &mut Chance, n: usize, m: usize) -> Files {
    let sheet = vec![0; 4 * n];
    loop {
        let board = even_board(chance, n, m);
        if matches!(runs::run(&board, &sheet), Ok(report) if report.outcome.values()[0] == 0) {
            let cell = (chance.below(n) as u8, 1 + chance.below(4) as u8, 110);
            return Files { board, sheet, cell };
        }
    }
}

/// The files of sixteen calls, the same in every run.
pub fn files(kind: Kind, (n, m): (usize, usize)) -> Vec<Files> {
    let mut chance = Chance(64);
    let mut one = || match kind {
        Kind::Order => Files { board: board(&mut chance, n, m), sheet: vec![], cell: (0, 0, 0) },
        Kind::Run | Kind::WhatIf => sleeper(&mut chance, n, m),
    };
    (0..16).map(|_| one()).collect()
}

fn each<R>(files: &mut [Files], rounds: usize, mut call: impl FnMut(&mut Files) -> R) {
    for _ in 0..rounds {
        for of in &mut *files {
            black_box(call(black_box(of)));
        }
    }
}

fn repeat_proved(kind: Kind, files: &mut [Files], rounds: usize) {
    match kind {
        Kind::Order => each(files, rounds, |of| proved::order(&of.board, &mut [0; 64])),
        Kind::Run => each(files, rounds, |of| proved::run(&of.board, &of.sheet, &mut [0; 5])),
        Kind::WhatIf => {
            each(files, rounds, |of| proved::what_if(&of.board, &mut of.sheet, of.cell, &mut [0; 5]))
        }
    }
}

fn repeat_rust(kind: Kind, files: &mut [Files], rounds: usize) {
    match kind {
        Kind::Order => each(files, rounds, |of| plain::check(&of.board)),
        Kind::Run => each(files, rounds, |of| runs::run(&of.board, &of.sheet)),
        Kind::WhatIf => {
            each(files, rounds, |of| runs::what_if(&of.board, &mut of.sheet, of.cell.0, of.cell.1, of.cell.2))
        }
    }
}

fn repeat_c(kind: Kind, files: &mut [Files], rounds: usize) {
    let mut report = sets::Report::new();
    match kind {
        Kind::Order => each(files, rounds, |of| sets::read(&of.board, &mut report.board)),
        Kind::Run => each(files, rounds, |of| sets::run(&of.board, &of.sheet, &mut report)),
        Kind::WhatIf => {
            each(files, rounds, |of| sets::what_if(&of.board, &mut of.sheet, of.cell, &mut report))
        }
    }
}

/// Calls a program with each of the files, so many rounds.
pub fn repeat(program: Program, kind: Kind, files: &mut [Files], rounds: usize) {
    match program {
        Program::Proved => repeat_proved(kind, files, rounds),
        Program::Rust => repeat_rust(kind, files, rounds),
        Program::C => repeat_c(kind, files, rounds),
    }
}
