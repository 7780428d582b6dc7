//! Compares the answers of the proved library, the Rust version and the C version.

use crate::boards::{Chance, board, board_cases, damage, run_cases, seated_board, sheet};
use crate::plain::{self, Refusal};
use crate::proved::{self, Cell};
use crate::runs::{self, Direction};
use crate::sets;

fn same_order(file: &[u8]) -> bool {
    let (mut places, mut board) = ([0; 64], sets::Board::new());
    let count = proved::order(file, &mut places);
    let refusal = proved::refusal(file);
    let by_sets = sets::read(file, &mut board);
    match plain::check(file) {
        Ok(order) => {
            let devices = order.devices();
            refusal.number == 0
                && devices == &places[..count]
                && by_sets == Ok(())
                && devices == board.order()
        }
        Err(by_plain) => count == 0 && refusal == by_plain && by_sets == Err(by_plain),
    }
}

/// How many boards were compared.
pub fn orders(boards: &[u8]) -> usize {
    let mut compared = 0;
    for (number, case) in board_cases(boards).iter().enumerate() {
        assert!(same_order(case), "case {number}");
        compared += 1;
    }
    let mut chance = Chance(7);
    for _ in 0..100_000 {
        let n = 2 + chance.below(63);
        let m = chance.below(257);
        let mut file = board(&mut chance, n, m);
        damage(&mut chance, &mut file);
        assert!(same_order(&file), "{file:?}");
        compared += 1;
    }
    compared
}

/// A number that no outcome has.
const UNWRITTEN: u16 = 9999;

/// The outcome's numbers, or the number of the refusal. Whatever is not to be written is as it was.
fn told(answer: u8, values: [u16; 6]) -> Result<[u16; 5], u8> {
    let [numbers @ .., last] = values;
    assert_eq!(last, UNWRITTEN);
    if answer == 0 {
        return Ok(numbers);
    }
    assert_eq!(numbers, [UNWRITTEN; 5]);
    Err(answer)
}

/// That the proved library gives the same numbers as the Rust version, or refuses by the same number.
fn agrees(answer: u8, values: [u16; 6], plain: Result<[u16; 5], Refusal>) -> bool {
    told(answer, values) == plain.map_err(|refusal| refusal.number)
}

/// That the C version's report has the board and the journal of the Rust version's.
fn same_report(plain: &runs::Report, sets: &sets::Report) -> bool {
    let (board, other) = (&plain.board, &sets.board);
    let same_devices = board
        .devices
        .iter()
        .enumerate()
        .all(|(d, device)| device.name == other.names[d].to_le_bytes() && device.word == other.words[d]);
    let counts = (board.registers, board.buses);
    let same_board =
        counts == (other.registers.into(), other.buses.into()) && board.order.devices() == other.order();
    let entry = |of: &sets::Entry| (of.device, of.phase, of.direction == -1, of.code);
    let journal =
        plain.journal.iter().map(|of| (of.device, of.phase, of.direction == Direction::Up, of.code));
    same_devices && same_board && journal.eq(sets.journal().iter().map(entry))
}

/// That all run these files to the same end, and that four places are too few for the numbers.
fn same_run(file: &[u8], sheet: &[u8]) -> bool {
    let (mut values, mut few) = ([UNWRITTEN; 6], [UNWRITTEN; 4]);
    let answer = proved::run(file, sheet, &mut values);
    assert_eq!((proved::run(file, sheet, &mut few), few), (254, [UNWRITTEN; 4]));
    let mut report = sets::Report::new();
    let by_sets = sets::run(file, sheet, &mut report).map(|()| report.values());
    let by_plain = runs::run(file, sheet);
    let ended = by_plain.as_ref().map(|of| of.outcome.values()).map_err(|refusal| *refusal);
    let reported = by_plain.is_ok_and(|of| same_report(&of, &report)) || ended.is_err();
    reported && by_sets == ended && agrees(answer, values, ended)
}

/// The same of a what-if, and that each leaves the sheet as it was.
fn same_what_if(file: &[u8], sheet: &[u8], cell: Cell) -> bool {
    let (mut values, mut few) = ([UNWRITTEN; 6], [UNWRITTEN; 4]);
    let mut lent = sheet.to_vec();
    let answer = proved::what_if(file, &mut lent, cell, &mut values);
    assert_eq!((proved::what_if(file, &mut lent, cell, &mut few), few), (254, [UNWRITTEN; 4]));
    assert_eq!(lent, sheet);
    let by_plain = runs::what_if(file, &mut lent, cell.0, cell.1, cell.2).map(|outcome| outcome.values());
    assert_eq!(lent, sheet);
    let mut report = sets::Report::new();
    let by_sets = sets::what_if(file, &mut lent, cell, &mut report).map(|()| report.values());
    assert_eq!(lent, sheet);
    agrees(answer, values, by_plain) && by_sets == by_plain
}

/// How many runs and how many what-ifs were compared.
pub fn runs(runs: &[u8]) -> (usize, usize) {
    let (mut ran, mut asked) = (0, 0);
    for (number, case) in run_cases(runs).iter().enumerate() {
        match case.asked {
            None => assert!(same_run(case.file, case.sheet), "run {number}"),
            Some(cell) => assert!(same_what_if(case.file, case.sheet, cell), "run {number}"),
        }
        ran += usize::from(case.asked.is_none());
        asked += usize::from(case.asked.is_some());
    }
    let mut chance = Chance(8);
    for _ in 0..20_000 {
        let n = 2 + chance.below(63);
        let m = chance.below(257);
        let mut file = seated_board(&mut chance, n, m);
        if chance.below(2) == 0 {
            damage(&mut chance, &mut file);
        }
        let sheet = sheet(&mut chance, n);
        assert!(same_run(&file, &sheet), "{file:?} {sheet:?}");
        let byte = [0, chance.byte()][chance.below(2)];
        let cell = (chance.below(n + 2) as u8, chance.below(6) as u8, byte);
        assert!(same_what_if(&file, &sheet, cell), "{file:?} {sheet:?} {cell:?}");
        ran += 1;
        asked += 1;
    }
    (ran, asked)
}
