//! Inputs from a fixed seed: questions, damaged bytes, held questions, tables, words, values and rooms. The same seed gives the same inputs.

#![forbid(unsafe_code)]

use crate::reading::{bytes_of, Question, AND, AT_MOST, EQUATION, NOT, OR};

/// SplitMix64.
pub struct Random(u64);

impl Random {
    pub fn new(seed: u64) -> Random {
        Random(seed)
    }

    pub fn next(&mut self) -> u64 {
        self.0 = self.0.wrapping_add(0x9E37_79B9_7F4A_7C15);
        let mut z = self.0;
        z = (z ^ z >> 30).wrapping_mul(0xBF58_476D_1CE4_E5B9);
        z = (z ^ z >> 27).wrapping_mul(0x94D0_49BB_1331_11EB);
        z ^ z >> 31
    }

    /// From 0 to `end` - 1.
    pub fn below(&mut self, end: usize) -> usize {
        (self.next() % end as u64) as usize
    }

    /// From `low` to `high`, both included.
    pub fn between(&mut self, low: i64, high: i64) -> i64 {
        low + (self.next() % (high - low + 1) as u64) as i64
    }

    pub fn one_in(&mut self, times: usize) -> bool {
        self.below(times) == 0
    }

    pub fn pick<T: Copy>(&mut self, items: &[T]) -> T {
        items[self.below(items.len())]
    }
}

// Questions

/// How large the numbers of a question are.
#[derive(Clone, Copy, Debug, PartialEq)]
pub enum Numbers {
    Small,
    Mixed,
    Limits,
}

fn coefficient(random: &mut Random, numbers: Numbers) -> i32 {
    let limit = Question::COEFFICIENT as i64;
    (match numbers {
        Numbers::Small => random.between(-3, 3),
        Numbers::Mixed => match random.below(6) {
            0 => 0,
            1 | 2 => random.between(-9, 9),
            3 => random.between(-100, 100),
            4 => random.between(-limit, limit),
            _ => random.between(-2, 2),
        },
        Numbers::Limits => match random.below(6) {
            0 => 0,
            1 => random.pick(&[1, -1]),
            2 | 3 => random.pick(&[limit, -limit]),
            _ => random.pick(&[limit - 1, 1 - limit]),
        },
    }) as i32
}

fn constant(random: &mut Random, numbers: Numbers) -> i32 {
    let limit = Question::CONSTANT as i64;
    (match numbers {
        Numbers::Small => random.between(-12, 12),
        Numbers::Mixed => match random.below(5) {
            0 => 0,
            1 | 2 => random.between(-20, 20),
            3 => random.between(-5_000, 5_000),
            _ => random.between(-limit, limit),
        },
        Numbers::Limits => match random.below(5) {
            0 => 0,
            1 => random.pick(&[1, -1]),
            2 => random.pick(&[limit, -limit]),
            3 => random.pick(&[limit - 1, 1 - limit]),
            _ => random.between(-limit, limit),
        },
    }) as i32
}

/// The codes of a formula with so many atoms, in no more than `depth` levels, its nots taken from `nots`. A crowded one has its nots over
/// atoms alone, where there is room for the most of them.
fn formula(random: &mut Random, atoms: usize, depth: usize, crowded: bool, nots: &mut usize, codes: &mut Vec<u8>) {
    let levels = |atoms: usize| atoms.next_power_of_two().trailing_zeros() as usize + 1;
    let wanted = if crowded { atoms == 1 && !random.one_in(20) } else { !random.one_in(3) };
    if *nots > 0 && depth > levels(atoms) && wanted {
        *nots -= 1;
        codes.push(NOT);
        formula(random, atoms, depth - 1, crowded, nots, codes);
    } else if atoms == 1 {
        codes.push(random.pick(&[EQUATION, AT_MOST]));
    } else {
        codes.push(random.pick(&[AND, OR]));
        let fitting: Vec<usize> = (1..atoms).filter(|&left| levels(left) < depth && levels(atoms - left) < depth).collect();
        let left = random.pick(&fitting);
        formula(random, left, depth - 1, crowded, nots, codes);
        formula(random, atoms - left, depth - 1, crowded, nots, codes);
    }
}

/// A valid question with n variables and m atoms.
pub fn question_of(random: &mut Random, n: usize, m: usize, numbers: Numbers) -> Question {
    let least = m.next_power_of_two().trailing_zeros() as usize + 1;
    let depth = random.pick(&[least, least + 1, 6.max(least), Question::DEPTH, Question::DEPTH]);
    let crowded = random.one_in(8);
    let most = Question::NODES - (2 * m - 1);
    let mut nots = if crowded { most } else { random.pick(&[0, 1, 3, 8, most]) };
    let mut codes = Vec::new();
    formula(random, m, depth, crowded, &mut nots, &mut codes);

    let mut question = Question::empty();
    question.n = n as u8;
    question.codes[..codes.len()].copy_from_slice(&codes);
    for i in 0..m {
        for j in 0..n {
            question.coefficients[6 * i + j] = coefficient(random, numbers);
        }
        question.constants[i] = constant(random, numbers);
    }
    question
}

/// A valid question of any size.
pub fn question(random: &mut Random) -> Question {
    let n = 1 + random.below(Question::VARIABLES);
    let m = 1 + random.below(Question::ATOMS);
    let numbers = random.pick(&[Numbers::Small, Numbers::Small, Numbers::Mixed, Numbers::Limits]);
    question_of(random, n, m, numbers)
}

/// The bytes of a valid question.
pub fn question_bytes(random: &mut Random) -> Vec<u8> {
    bytes_of(&question(random)).unwrap()
}

// Bytes

type Record = (u16, u16, Vec<u8>);

/// The records of a valid question: length, kind and body.
fn records(bytes: &[u8]) -> Vec<Record> {
    let mut records = Vec::new();
    let mut place = 0;
    while place < bytes.len() {
        let length = u16::from_le_bytes([bytes[place], bytes[place + 1]]);
        let kind = u16::from_le_bytes([bytes[place + 2], bytes[place + 3]]);
        let next = place + 4 + length as usize;
        records.push((length, kind, bytes[place + 4..next].to_vec()));
        place = next;
    }
    records
}

fn joined(records: &[Record]) -> Vec<u8> {
    let mut bytes = Vec::new();
    for (length, kind, body) in records {
        bytes.extend_from_slice(&length.to_le_bytes());
        bytes.extend_from_slice(&kind.to_le_bytes());
        bytes.extend_from_slice(body);
    }
    bytes
}

const KINDS: [u16; 13] = [0x0001, 0x0010, 0x0011, 0x0020, 0x0021, 0x0022, 0x00FF, 0x0000, 0x0012, 0x0023, 0x0110, 0x2000, 0xFF00];

fn atom_record(random: &mut Random, n: usize) -> Record {
    let mut body = Vec::new();
    for _ in 0..n {
        body.extend_from_slice(&coefficient(random, Numbers::Mixed).to_le_bytes());
    }
    body.extend_from_slice(&constant(random, Numbers::Mixed).to_le_bytes());
    (body.len() as u16, random.pick(&[0x0010, 0x0011]), body)
}

/// A formula with so many atoms, halved at each connective, with five to seven nots over each atom.
fn crowd(random: &mut Random, atoms: usize, n: usize, records: &mut Vec<Record>) {
    if atoms > 1 {
        records.push((0, random.pick(&[0x0021, 0x0022]), Vec::new()));
        crowd(random, atoms / 2, n, records);
        crowd(random, atoms - atoms / 2, n, records);
    } else {
        for _ in 0..random.pick(&[5, 6, 6, 6, 7]) {
            records.push((0, 0x0020, Vec::new()));
        }
        let atom = atom_record(random, n);
        records.push(atom);
    }
}

/// Where the atoms stand among the records.
fn atoms_in(records: &[Record]) -> Vec<usize> {
    (0..records.len()).filter(|&i| records[i].1 == 0x0010 || records[i].1 == 0x0011).collect()
}

/// A field of an atom: the first coefficient, the last, any, or the constant, which is field n.
fn field(random: &mut Random, n: usize) -> usize {
    match random.below(6) {
        0 => 0,
        1 => n - 1,
        2 | 3 => random.below(n),
        _ => n,
    }
}

/// A number for a field: about its limit, about the other limit, or far beyond both.
fn about_limit(random: &mut Random, field: usize, n: usize) -> i32 {
    let (limit, other) = if field < n { (Question::COEFFICIENT, Question::CONSTANT) } else { (Question::CONSTANT, Question::COEFFICIENT) };
    let size = match random.below(8) {
        0 => limit - 1,
        1 | 2 => limit,
        3 | 4 => limit + 1,
        5 => random.pick(&[other, other + 1]),
        _ => return random.pick(&[i32::MAX, i32::MIN, i32::MIN + 1, 1 << 16, 1 << 24, -1 << 16]),
    };
    random.pick(&[size, -size])
}

/// Numbers about their limits, in one field or more of one atom or more.
fn numbers_about_limits(random: &mut Random, records: &mut [Record]) {
    // Where the records are damaged already, a body may have any length.
    let atoms: Vec<usize> = atoms_in(records).into_iter().filter(|&i| records[i].2.len() >= 8).collect();
    if atoms.is_empty() {
        return;
    }
    let mut i = random.pick(&atoms);
    for _ in 0..random.pick(&[1, 1, 2, 4]) {
        let n = records[i].2.len() / 4 - 1;
        let j = field(random, n);
        let number = about_limit(random, j, n);
        records[i].2[4 * j..4 * j + 4].copy_from_slice(&number.to_le_bytes());
        if random.one_in(2) {
            i = random.pick(&atoms);
        }
    }
}

/// Damages the records of a question in one way.
fn damage(random: &mut Random, n: usize, records: &mut Vec<Record>) {
    match random.below(12) {
        0 => {
            // A wrong kind.
            let i = random.below(records.len());
            records[i].1 = random.pick(&KINDS);
        }
        1 => {
            // A wrong length, the body as it was.
            let i = random.below(records.len());
            records[i].0 = random.pick(&[0, 1, 2, 4, 8, 12, 16, 20, 24, 28, 32, 0x0100, 0xFFFF, records[i].0.wrapping_add(1)]);
        }
        2 => {
            // A wrong length, and a body of that length.
            let i = random.below(records.len());
            let length = random.below(36);
            records[i].2.resize(length, 0);
            records[i].0 = length as u16;
        }
        3 => records[0].2[0] = random.pick(&[0, 1, 6, 7, 8, 128, 255]),
        4 => {
            // Nots before a part: too deep, or too many nodes.
            let i = 1 + random.below(records.len() - 2);
            for _ in 0..random.pick(&[1, 10, 14, 15, 16, 17, 60, 70]) {
                records.insert(i, (0, 0x0020, Vec::new()));
            }
        }
        5 => {
            // More atoms joined on: a ninth.
            for _ in 0..random.pick(&[1, 4, 7, 8, 9]) {
                let i = random.pick(&atoms_in(records));
                let atom = atom_record(random, n);
                records.insert(i, (0, random.pick(&[0x0021, 0x0022]), Vec::new()));
                records.insert(i + 1, atom);
            }
        }
        6 => {
            // Nots over every part, as far as they go: many nodes.
            let mut i = 1;
            while i < records.len() - 1 {
                for _ in 0..random.below(7) {
                    records.insert(i, (0, 0x0020, Vec::new()));
                    i += 1;
                }
                i += 1;
            }
        }
        7 => {
            let i = random.below(records.len());
            records.remove(i);
        }
        8 => {
            let i = random.below(records.len());
            let again = records[i].clone();
            records.insert(i, again);
        }
        9 => {
            let i = random.below(records.len());
            let j = random.below(records.len());
            records.swap(i, j);
        }
        10 => {
            // Eight atoms in a shallow formula, each under nots: about 64 nodes.
            records.truncate(1);
            crowd(random, 8, n, records);
            records.push((0, 0x00FF, Vec::new()));
        }
        _ => {}
    }
}

/// The bytes of a question, damaged in one way or more (which may leave it valid).
pub fn damaged_bytes(random: &mut Random) -> Vec<u8> {
    let mut bytes = question_bytes(random);
    let n = bytes[4] as usize;
    let mut records = records(&bytes);
    match random.below(7) {
        0 | 1 => numbers_about_limits(random, &mut records),
        2 => {
            numbers_about_limits(random, &mut records);
            damage(random, n, &mut records);
        }
        3 => {
            damage(random, n, &mut records);
            numbers_about_limits(random, &mut records);
        }
        _ => damage(random, n, &mut records),
    }
    bytes = joined(&records);
    for _ in 0..random.below(3) {
        match random.below(6) {
            0 => bytes.truncate(random.below(bytes.len() + 1)),
            1 if !bytes.is_empty() => {
                let i = random.below(bytes.len());
                bytes[i] ^= 1 << random.below(8);
            }
            2 => {
                let i = random.below(bytes.len() + 1);
                bytes.insert(i, random.pick(&[0, 1, 0x10, 0x20, 0xFF]));
            }
            3 if !bytes.is_empty() => {
                let i = random.below(bytes.len());
                bytes.remove(i);
            }
            4 => {
                for _ in 0..random.pick(&[1, 1, 3, 4, 5]) {
                    bytes.push(random.pick(&[0, 0xFF, 1]));
                }
            }
            _ => {}
        }
    }
    bytes
}

/// Valid bytes or damaged ones.
pub fn any_bytes(random: &mut Random) -> Vec<u8> {
    if random.one_in(2) {
        question_bytes(random)
    } else {
        damaged_bytes(random)
    }
}

// Held questions

/// A whole formula of nots over one atom, `depth` levels deep, and so of as many nodes.
fn deep(random: &mut Random, depth: usize) -> Question {
    let mut question = question_of(random, 1, 1, Numbers::Small);
    question.codes = [0; 64];
    for node in 0..depth.min(64) {
        question.codes[node] = if node + 1 < depth { NOT } else { EQUATION };
    }
    question
}

/// A held question that writing takes, or one broken in one or more ways.
pub fn held(random: &mut Random) -> Question {
    let mut question = match random.below(10) {
        0 => {
            let depth = random.pick(&[15, 16, 17, 18, 64, 65]);
            deep(random, depth)
        }
        1 => {
            // More than eight atoms, one after another.
            let mut question = question_of(random, 2, 8, Numbers::Small);
            let atoms = random.pick(&[8, 9, 10]);
            question.codes = [0; 64];
            for i in 0..atoms - 1 {
                question.codes[2 * i] = AND;
                question.codes[2 * i + 1] = AT_MOST;
            }
            question.codes[2 * (atoms - 1)] = EQUATION;
            question
        }
        2 => {
            // A formula that is still open at the last place, with few atoms and little depth.
            let mut question = question_of(random, 3, 8, Numbers::Small);
            question.codes = [0; 64];
            let mut node = 0;
            let place = |question: &mut Question, node: &mut usize, code: u8| {
                if *node < 64 {
                    question.codes[*node] = code;
                    *node += 1;
                }
            };
            let each = random.pick(&[5, 6, 7, 8]);
            for i in 0..8 {
                if i < 7 {
                    place(&mut question, &mut node, OR);
                }
                for _ in 0..each {
                    place(&mut question, &mut node, NOT);
                }
                place(&mut question, &mut node, AT_MOST);
            }
            question
        }
        _ => question(random),
    };
    let n = question.n as usize;
    let used = question.codes.iter().take_while(|&&code| code != 0).count();
    let m = question.atoms().clamp(1, 8);
    for _ in 0..random.pick(&[0, 0, 1, 1, 1, 2, 3]) {
        match random.below(10) {
            0 => question.n = random.pick(&[0, 7, 8, 255, 1, 6]),
            1 => question.codes[random.below(used.max(1))] = 0,
            2 => question.codes[random.below(used.max(1))] = random.pick(&[6, 7, 255, 1, 3, 4]),
            3 => question.codes[(used + random.below(64)).min(63)] = random.pick(&[1, 2, 3, 4, 5, 6, 255]),
            4..=6 => {
                // As `numbers_about_limits` does.
                let mut i = random.below(m);
                for _ in 0..random.pick(&[1, 1, 2, 4]) {
                    let j = field(random, n);
                    let number = about_limit(random, j, n);
                    *(if j < n { &mut question.coefficients[6 * i + j] } else { &mut question.constants[i] }) = number;
                    if random.one_in(2) {
                        i = random.below(m);
                    }
                }
            }
            7 => question.coefficients[random.below(48)] = random.pick(&[1, -1, i32::MIN, 5_000]),
            8 => question.constants[random.below(8)] = random.pick(&[1, -1, i32::MAX, 2_000_000]),
            _ => {
                // A leftover number that no node uses, if there is one.
                let cell = 6 * (m - 1) + n;
                if cell < 48 {
                    question.coefficients[cell + random.below(48 - cell)] = random.pick(&[1, -1, 4_097]);
                }
            }
        }
    }
    question
}

// Rooms, words and values

/// A room for something that takes `exact`: none, one, just enough, one short, or plenty.
pub fn room(random: &mut Random, exact: usize) -> usize {
    match random.below(6) {
        0 => random.below(2),
        1 => exact,
        2 => exact.saturating_sub(1),
        3 => exact + 1,
        4 => random.below(exact + 1),
        _ => exact + 1 + random.below(100),
    }
}

/// A buffer of cells that stand for what was there before.
pub fn cells16(random: &mut Random, cells: usize) -> Vec<u16> {
    (0..cells).map(|_| random.next() as u16).collect()
}

pub fn cells8(random: &mut Random, cells: usize) -> Vec<u8> {
    (0..cells).map(|_| random.next() as u8).collect()
}

pub fn cells32(random: &mut Random, cells: usize) -> Vec<i32> {
    (0..cells).map(|_| random.next() as i32).collect()
}

/// A word for n variables, now and then with a letter that is none.
pub fn word(random: &mut Random, n: u8) -> Vec<u8> {
    let length = match random.below(8) {
        0 => 0,
        1 => 1,
        2 => random.pick(&[63, 64, 65, 66]),
        3 => random.below(200),
        _ => random.below(41),
    };
    let letters = 1usize << n.min(7);
    let mut word: Vec<u8> = (0..length).map(|_| random.below(letters) as u8).collect();
    if !word.is_empty() && random.one_in(5) {
        let i = random.below(word.len());
        word[i] = random.pick(&[letters.min(255) as u8, letters.min(254) as u8 + 1, 64, 128, 255]);
    }
    word
}

/// Values for the judge, mostly as many as n and mostly within its limit.
pub fn values(random: &mut Random, n: u8) -> Vec<u64> {
    let count = if random.one_in(8) { random.below(9) } else { n as usize };
    let past = random.one_in(8);
    (0..count)
        .map(|_| match random.below(6) {
            0 => 0,
            1 => 1,
            2 => Question::VALUE,
            3 if past => random.pick(&[Question::VALUE + 1, u64::MAX, 1 << 63]),
            4 => random.next() & Question::VALUE,
            _ => random.below(8) as u64,
        })
        .collect()
}

// Tables

/// A table of n that runs: whole rows, accept 0 or 1, every next state present.
pub fn table(random: &mut Random, n: u8) -> Vec<u16> {
    let rows = random.pick(&[1, 1, 2, 3, 7, 40]);
    let mut cells = Vec::new();
    for _ in 0..rows {
        cells.push(random.below(2) as u16);
        for _ in 0..1usize << n {
            cells.push(random.below(rows) as u16);
        }
    }
    cells
}

/// A table damaged in one way (which may leave it running).
pub fn damaged_table(random: &mut Random, n: u8) -> Vec<u16> {
    let mut cells = table(random, n);
    let width = 1 + (1usize << n);
    let rows = cells.len() / width;
    match random.below(8) {
        0 => cells.clear(),
        1 => {
            cells.pop();
        }
        2 => cells.push(0),
        3 => cells[width * random.below(rows)] = random.pick(&[2, 3, 256, 65_535]),
        4 => {
            let i = width * random.below(rows) + 1 + random.below(width - 1);
            cells[i] = random.pick(&[rows as u16, rows as u16 + 1, 65_535, rows as u16 - 1]);
        }
        5 => cells.truncate(cells.len() - width),
        6 => cells.truncate(random.below(cells.len() + 1)),
        _ => {
            let i = random.below(cells.len());
            cells[i] ^= 1 << random.below(16);
        }
    }
    cells
}

/// A table of n = 1 with this many rows, each going to the last row that a cell can name.
pub fn tall_table(rows: usize) -> Vec<u16> {
    let last = (rows - 1).min(65_535) as u16;
    [0, last, last].repeat(rows)
}

/// a x <= 0 and b y <= 0 and 0x <= -1: a x <= 0 reaches 0 to -a, so that there are (a + 1)(b + 1) states, none of which accepts.
pub fn never_accepting(a: i32, b: i32) -> Vec<u8> {
    let mut question = Question::empty();
    question.n = 2;
    question.codes[..5].copy_from_slice(&[AND, AND, AT_MOST, AT_MOST, AT_MOST]);
    question.coefficients[0] = a;
    question.coefficients[7] = b;
    question.constants[2] = -1;
    bytes_of(&question).expect("within the limits")
}
