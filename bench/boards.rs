//! Boards and sheets made by chance, and the test files that the model made.

use crate::proved::Cell;

/// A small generator of numbers, the same in every run.
pub struct Chance(pub u64);

impl Chance {
    pub fn below(&mut self, limit: usize) -> usize {
        self.0 = self.0.wrapping_mul(6364136223846793005).wrapping_add(1442695040888963407);
        (self.0 >> 33) as usize % limit
    }

    pub fn byte(&mut self) -> u8 {
        self.below(256) as u8
    }
}

/// A board file of n devices and m links, in which superiors come earlier in a hidden row. All sit in registers.
pub fn board(chance: &mut Chance, n: usize, m: usize) -> Vec<u8> {
    let mut row: Vec<u8> = (0..n as u8).collect();
    for k in (1..n).rev() {
        row.swap(k, chance.below(k + 1));
    }
    let mut parents = vec![255; n];
    for k in 1..n {
        if chance.below(3) == 0 {
            parents[row[k] as usize] = row[chance.below(k)];
        }
    }
    let mut file = Vec::new();
    for (i, parent) in parents.iter().enumerate() {
        let mut name = format!("device{i}").into_bytes();
        name.resize(8, 0);
        file.extend(name);
        file.extend([*parent, 0, 0, 0]);
        file.extend((i as u32).to_le_bytes());
    }
    for _ in 0..m {
        let k = 1 + chance.below(n - 1);
        file.extend([row[k], row[chance.below(k)], 0, 0]);
    }
    file.extend(b"SLPB");
    file.extend([1, n as u8, 0, 0]);
    file.extend((m as u16).to_le_bytes());
    file.extend([0, 0]);
    file.extend(((16 * n + 4 * m) as u16).to_le_bytes());
    file.extend(((4 * m) as u16).to_le_bytes());
    file
}

/// Seats the devices of such a board: so many in registers, then so many on the bus, the others quiet.
pub fn seat(file: &mut [u8], registers: usize, buses: usize) {
    let kinds = file.len() - 11;
    let n = file[kinds] as usize;
    let seats = [registers, buses, n - registers - buses];
    for (byte, seated) in file[kinds..].iter_mut().zip(seats) {
        *byte = seated as u8;
    }
}

/// Gives device i of such a board a word.
fn write_word(file: &mut [u8], i: usize, word: u32) {
    file[16 * i + 12..16 * i + 16].copy_from_slice(&word.to_le_bytes());
}

/// A board of n devices, seated by chance, with a few words that hinder their devices.
pub fn seated_board(chance: &mut Chance, n: usize, m: usize) -> Vec<u8> {
    let mut file = board(chance, n, m);
    let registers = chance.below(n + 1);
    seat(&mut file, registers, chance.below(n - registers + 1));
    for i in 0..n {
        let word = match chance.below(64) {
            0 => 1 << 31,
            1 => u32::from(chance.byte()),
            _ => u32::from(chance.byte()) << 16,
        };
        write_word(&mut file, i, word);
    }
    file
}

/// A board of n devices with words 0: a quarter of them, but at least one, on the bus, as many quiet, the others in registers.
pub fn even_board(chance: &mut Chance, n: usize, m: usize) -> Vec<u8> {
    let mut file = board(chance, n, m);
    let quarter = (n / 4).max(1);
    seat(&mut file, n - 2 * quarter, quarter);
    for i in 0..n {
        write_word(&mut file, i, 0);
    }
    file
}

/// Writes other bytes at up to three places.
pub fn damage(chance: &mut Chance, file: &mut [u8]) {
    for _ in 0..chance.below(4) {
        let place = chance.below(file.len());
        file[place] = chance.byte();
    }
}

/// A sheet for n devices with at most three cells that are not 0; one in sixteen is too long or too short.
pub fn sheet(chance: &mut Chance, n: usize) -> Vec<u8> {
    let cells = match chance.below(16) {
        0 => chance.below(300),
        _ => 4 * n,
    };
    let mut sheet = vec![0; cells];
    for _ in 0..chance.below(4) {
        if cells > 0 {
            sheet[chance.below(cells)] = chance.byte();
        }
    }
    sheet
}

fn take<'a>(rest: &mut &'a [u8], size: usize) -> &'a [u8] {
    let (front, back) = rest.split_at(size);
    *rest = back;
    front
}

/// Bytes behind their length in two bytes.
fn take_sized<'a>(rest: &mut &'a [u8]) -> &'a [u8] {
    let size = take(rest, 2);
    take(rest, u16::from_le_bytes([size[0], size[1]]) as usize)
}

/// The cases of a file of test boards.
pub fn board_cases(mut rest: &[u8]) -> Vec<&[u8]> {
    let mut cases = Vec::new();
    while !rest.is_empty() {
        cases.push(take_sized(&mut rest));
    }
    cases
}

/// A run of two files, or a what-if.
pub struct RunCase<'a> {
    pub file: &'a [u8],
    pub sheet: &'a [u8],
    pub asked: Option<Cell>,
}

/// The runs and what-ifs of a file of test runs; model/README.md has its bytes. Its lines are passed over.
pub fn run_cases(mut rest: &[u8]) -> Vec<RunCase<'_>> {
    let mut cases = Vec::new();
    while !rest.is_empty() {
        let letter = take(&mut rest, 1)[0];
        let (file, sheet) = (take_sized(&mut rest), take_sized(&mut rest));
        let asked = match letter {
            b'r' => None,
            _ => Some(take(&mut rest, 3)),
        };
        if letter != b'l' {
            let asked = asked.map(|cell| (cell[0], cell[1], cell[2]));
            cases.push(RunCase { file, sheet, asked });
        }
    }
    cases
}
