//! The calls once more, unproved and fast, to measure against. The solver is as one would write it: letter sums worked once, key rows in the lent
//! area, a chained hash index over them, targets worked in a local row, every letter tried, the formula settled at each new state. Safe Rust throughout.

#![forbid(unsafe_code)]

use crate::reading::{Building, Decision, Question, Refusal, AND, AT_MOST, DEAD, EQUATION, NOT, OR};

/// No row: the end of a chain.
const NONE: u16 = 65_535;

const SMALL: usize = 256;
const LARGE: usize = 65_536;

// Reading

pub fn read(bytes: &[u8]) -> Result<Question, Refusal> {
    let mut question = Question::empty();
    let n = match record(bytes, 0, |kind| (kind == 0x0001).then_some(1))? {
        (_, [n]) if (1..=Question::VARIABLES as u8).contains(n) => *n as usize,
        _ => return Err(Refusal { number: 4, place: 0 }),
    };
    question.n = n as u8;
    let mut place = 5;
    let mut nodes = 0;
    let mut atoms = 0;
    // How many parts are still due at each depth. The next node is at `depth`, the deepest that has any.
    let mut due = [0u8; Question::DEPTH + 2];
    let mut depth = 1;
    due[depth] = 1;
    while depth > 0 {
        let (kind, body) = record(bytes, place, |kind| match kind {
            0x0010 | 0x0011 => Some(4 * (n + 1)),
            0x0020..=0x0022 => Some(0),
            _ => None,
        })?;
        let atom = kind < 0x0020;
        if nodes == Question::NODES || (atom && atoms == Question::ATOMS) || depth > Question::DEPTH {
            return Err(Refusal { number: 5, place });
        }
        due[depth] -= 1;
        if atom {
            for (j, cell) in body.chunks_exact(4).enumerate() {
                let number = i32::from_le_bytes([cell[0], cell[1], cell[2], cell[3]]);
                let limit = if j < n { Question::COEFFICIENT } else { Question::CONSTANT };
                if number < -limit || number > limit {
                    return Err(Refusal { number: if j < n { 12 } else { 13 }, place: place + 4 + 4 * j });
                }
                if j < n {
                    question.coefficients[6 * atoms + j] = number;
                } else {
                    question.constants[atoms] = number;
                }
            }
            atoms += 1;
            while depth > 0 && due[depth] == 0 {
                depth -= 1;
            }
        } else {
            depth += 1;
            due[depth] = if kind == 0x0020 { 1 } else { 2 };
        }
        question.codes[nodes] = match kind {
            0x0010 => EQUATION,
            0x0011 => AT_MOST,
            0x0020 => NOT,
            0x0021 => AND,
            _ => OR,
        };
        nodes += 1;
        place += 4 + body.len();
    }
    record(bytes, place, |kind| (kind == 0x00FF).then_some(0))?;
    if place + 4 < bytes.len() {
        return Err(Refusal { number: 6, place: place + 4 });
    }
    Ok(question)
}

/// The record at a place, if its kind is due there (`length` knows the kind's length) and its body is whole.
fn record(bytes: &[u8], place: usize, length: impl Fn(u16) -> Option<usize>) -> Result<(u16, &[u8]), Refusal> {
    let refuse = |number| Err(Refusal { number, place });
    let Some(head) = bytes.get(place..place + 4) else { return refuse(1) };
    let kind = u16::from_le_bytes([head[2], head[3]]);
    let Some(right) = length(kind) else { return refuse(2) };
    if u16::from_le_bytes([head[0], head[1]]) as usize != right {
        return refuse(3);
    }
    match bytes.get(place + 4..place + 4 + right) {
        Some(body) => Ok((kind, body)),
        None => refuse(1),
    }
}

// Writing

pub fn write(question: &Question, buffer: &mut [u8]) -> Result<usize, Refusal> {
    let n = question.n as usize;
    if n < 1 || n > Question::VARIABLES {
        return Err(Refusal { number: 4, place: 0 });
    }
    let (nodes, atoms) = checked_formula(question, n)?;
    leftover(question, n, nodes, atoms)?;
    let length = 9 + 4 * nodes + 4 * (n + 1) * atoms;
    let Some(buffer) = buffer.get_mut(..length) else { return Err(Refusal { number: 8, place: 0 }) };
    buffer[..5].copy_from_slice(&[1, 0, 1, 0, question.n]);
    let mut at = 5;
    let mut atom = 0;
    for &code in &question.codes[..nodes] {
        let kind: u8 = [0x10, 0x11, 0x20, 0x21, 0x22][code as usize - 1];
        let is_atom = code <= AT_MOST;
        buffer[at..at + 4].copy_from_slice(&[if is_atom { 4 * (n as u8 + 1) } else { 0 }, 0, kind, 0]);
        at += 4;
        if is_atom {
            let coefficients = &question.coefficients[6 * atom..6 * atom + n];
            for number in coefficients.iter().chain(&question.constants[atom..atom + 1]) {
                buffer[at..at + 4].copy_from_slice(&number.to_le_bytes());
                at += 4;
            }
            atom += 1;
        }
    }
    buffer[at..].copy_from_slice(&[0, 0, 0xFF, 0]);
    Ok(length)
}

/// The nodes and atoms of a held question's formula, if it is whole and within the limits.
fn checked_formula(question: &Question, n: usize) -> Result<(usize, usize), Refusal> {
    // As in reading.
    let mut due = [0u8; Question::DEPTH + 2];
    let mut depth = 1;
    due[depth] = 1;
    let mut node = 0;
    let mut atoms = 0;
    while depth > 0 {
        let refuse = |number| Err(Refusal { number, place: node });
        let Some(&code) = question.codes.get(node) else { return refuse(5) };
        if code < EQUATION || code > OR {
            return refuse(2);
        }
        let is_atom = code <= AT_MOST;
        if (is_atom && atoms == Question::ATOMS) || depth > Question::DEPTH {
            return refuse(5);
        }
        due[depth] -= 1;
        if is_atom {
            let beyond = |number: i32, limit: i32| number < -limit || number > limit;
            let coefficients = &question.coefficients[6 * atoms..6 * atoms + n];
            if coefficients.iter().any(|&a| beyond(a, Question::COEFFICIENT)) {
                return refuse(12);
            }
            if beyond(question.constants[atoms], Question::CONSTANT) {
                return refuse(13);
            }
            atoms += 1;
            while depth > 0 && due[depth] == 0 {
                depth -= 1;
            }
        } else {
            depth += 1;
            due[depth] = if code == NOT { 1 } else { 2 };
        }
        node += 1;
    }
    Ok((node, atoms))
}

/// Refuses an unused entry that is not zero.
fn leftover(question: &Question, n: usize, nodes: usize, atoms: usize) -> Result<(), Refusal> {
    if let Some(i) = question.codes[nodes..].iter().position(|&code| code != 0) {
        return Err(Refusal { number: 6, place: nodes + i });
    }
    let mut left = 0;
    for (i, row) in question.coefficients.chunks_exact(6).enumerate() {
        for &a in &row[if i < atoms { n } else { 0 }..] {
            left |= a;
        }
    }
    for &k in &question.constants[atoms..] {
        left |= k;
    }
    if left != 0 {
        Err(Refusal { number: 6, place: 64 })
    } else {
        Ok(())
    }
}

// Judging and running

pub fn judge(bytes: &[u8], values: &[u64]) -> Result<bool, Refusal> {
    let question = read(bytes)?;
    let n = question.n as usize;
    if values.len() != n || values.iter().any(|&value| value > Question::VALUE) {
        return Err(Refusal { number: 9, place: 0 });
    }
    let mut truths = [false; 64];
    let mut atom = 0;
    for (node, &code) in question.codes.iter().enumerate() {
        if code == EQUATION || code == AT_MOST {
            // Six products of at most 2^12 and 2^40.
            let coefficients = &question.coefficients[6 * atom..6 * atom + n];
            let sum: i64 = coefficients.iter().zip(values).map(|(&a, &x)| a as i64 * x as i64).sum();
            let constant = question.constants[atom] as i64;
            truths[node] = if code == EQUATION { sum == constant } else { sum <= constant };
            atom += 1;
        }
    }
    // From the last node to the first, the parts of a connective are the newest two.
    let mut parts = [false; 64];
    let mut count = 0;
    for (node, &code) in question.codes.iter().enumerate().rev() {
        match code {
            EQUATION | AT_MOST => {
                parts[count] = truths[node];
                count += 1;
            }
            NOT => parts[count - 1] = !parts[count - 1],
            AND | OR => {
                count -= 1;
                let (left, right) = (parts[count], parts[count - 1]);
                parts[count - 1] = if code == AND { left & right } else { left | right };
            }
            _ => {}
        }
    }
    Ok(parts[0])
}

pub fn run(n: usize, cells: &[u16], word: &[u8]) -> Result<bool, Refusal> {
    let refuse = |number| Err(Refusal { number, place: 0 });
    if n < 1 || n > Question::VARIABLES {
        return refuse(4);
    }
    let letters = 1usize << n;
    let width = 1 + letters;
    let rows = cells.len() / width;
    if rows == 0 || rows * width != cells.len() || rows > Question::STATES {
        return refuse(11);
    }
    if !cells.chunks_exact(width).all(|row| row[0] <= 1 && row[1..].iter().all(|&next| (next as usize) < rows)) {
        return refuse(11);
    }
    let mut state = 0;
    for &letter in word {
        let letter = letter as usize;
        if letter >= letters {
            return refuse(10);
        }
        state = cells[state * width + 1 + letter] as usize;
    }
    Ok(cells[state * width] == 1)
}

// Steps and acceptance

struct Machine<'q> {
    codes: &'q [u8; 64],
    /// The atom at each node, where there is one.
    atom_at: [u8; 64],
    /// 1 for an equation, which an odd number kills, and 0 for at most.
    odd: [i32; 8],
    start: [i32; 8],
    m: usize,
    letters: usize,
    /// The sum of atom i on a letter stands at letter · 8 + i.
    sums: [i32; 512],
}

impl<'q> Machine<'q> {
    fn new(question: &'q Question) -> Machine<'q> {
        let mut atom_at = [0; 64];
        let mut odd = [0; 8];
        let mut m = 0;
        for (node, &code) in question.codes.iter().enumerate() {
            if code == EQUATION || code == AT_MOST {
                atom_at[node] = m as u8;
                odd[m] = (code == EQUATION) as i32;
                m += 1;
            }
        }
        let letters = 1usize << question.n;
        let mut sums = [0; 512];
        for letter in 1..letters {
            let j = letter.trailing_zeros() as usize;
            let rest = letter & (letter - 1);
            for i in 0..m {
                sums[letter * 8 + i] = sums[rest * 8 + i] + question.coefficients[6 * i + j];
            }
        }
        Machine { codes: &question.codes, atom_at, odd, start: question.constants, m, letters, sums }
    }

    fn step(&self, row: &[i32; 8], letter: usize) -> [i32; 8] {
        // All eight, used or not: an unused entry is 0 with sum 0, and stays 0.
        let mut target = [0; 8];
        let sums = &self.sums[letter * 8..letter * 8 + 8];
        for i in 0..8 {
            let left = row[i].wrapping_sub(sums[i]);
            target[i] = if row[i] == DEAD || left & self.odd[i] != 0 { DEAD } else { left >> 1 };
        }
        target
    }

    fn accepts(&self, row: &[i32; 8]) -> bool {
        self.worth(row, 0).0
    }

    /// The worth of the part at a node, and the node after it.
    fn worth(&self, row: &[i32; 8], node: usize) -> (bool, usize) {
        match self.codes[node] {
            EQUATION => (row[self.atom_at[node] as usize & 7] == 0, node + 1),
            AT_MOST => (row[self.atom_at[node] as usize & 7] >= 0, node + 1),
            NOT => {
                let (part, next) = self.worth(row, node + 1);
                (!part, next)
            }
            code => {
                let (left, middle) = self.worth(row, node + 1);
                let (right, next) = self.worth(row, middle);
                (if code == AND { left & right } else { left | right }, next)
            }
        }
    }
}

// The index over key rows

/// Chains of rows, newest first: `head` has the newest row of each bucket, `next` the row before it in the same bucket.
struct Index<const ROWS: usize> {
    head: [u16; ROWS],
    next: [u16; ROWS],
}

fn hash(row: &[i32; 8], m: usize) -> u32 {
    let mut hash = 0u32;
    for i in 0..m {
        hash = (hash.rotate_left(5) ^ row[i] as u32).wrapping_mul(0x9E37_79B1);
    }
    hash
}

impl<const ROWS: usize> Index<ROWS> {
    fn new() -> Index<ROWS> {
        Index { head: [NONE; ROWS], next: [NONE; ROWS] }
    }

    fn bucket(row: &[i32; 8], m: usize) -> usize {
        (hash(row, m) >> 16) as usize % ROWS
    }

    fn find(&self, keys: &[i32], m: usize, row: &[i32; 8], bucket: usize) -> u16 {
        let mut s = self.head[bucket];
        while s != NONE {
            let at = s as usize * m;
            if keys[at..at + m].iter().zip(row).all(|(a, b)| a == b) {
                return s;
            }
            s = self.next[s as usize];
        }
        NONE
    }

    fn insert(&mut self, s: usize, bucket: usize) {
        self.next[s] = self.head[bucket];
        self.head[bucket] = s as u16;
    }
}

// Exploring

/// Where exploring stands: the rows numbered, and the row and letter to try next.
struct Progress {
    count: usize,
    row: usize,
    letter: usize,
}

#[derive(PartialEq)]
enum Stop {
    /// Every target has a number.
    Closed,
    /// The newest row accepts (deciding only).
    Accepting,
    /// A new target, and every row that was lent is used.
    Full,
    /// A new target, and the index has no place for it.
    Crowded,
}

fn local(keys: &[i32], m: usize, s: usize) -> [i32; 8] {
    let mut row = [0; 8];
    row[..m].copy_from_slice(&keys[s * m..s * m + m]);
    row
}

/// Goes on from where it stands until there is a reason to stop. `path` is lent by deciding alone, which also stops at an accepting row.
fn explore<const ROWS: usize>(
    machine: &Machine,
    index: &mut Index<ROWS>,
    at: &mut Progress,
    rows: usize,
    keys: &mut [i32],
    mut path: Option<&mut [u16]>,
) -> Stop {
    let m = machine.m;
    while at.row < at.count {
        let row = local(keys, m, at.row);
        while at.letter < machine.letters {
            let target = machine.step(&row, at.letter);
            let bucket = Index::<ROWS>::bucket(&target, m);
            if index.find(keys, m, &target, bucket) == NONE {
                let s = at.count;
                if s == rows {
                    return Stop::Full;
                }
                if s == ROWS {
                    return Stop::Crowded;
                }
                keys[s * m..s * m + m].copy_from_slice(&target[..m]);
                index.insert(s, bucket);
                at.count += 1;
                if let Some(path) = path.as_deref_mut() {
                    path[2 * s] = at.row as u16;
                    path[2 * s + 1] = at.letter as u16;
                    if machine.accepts(&target) {
                        return Stop::Accepting;
                    }
                }
            }
            at.letter += 1;
        }
        at.letter = 0;
        at.row += 1;
    }
    Stop::Closed
}

/// The small index, with the start in it.
fn opened(machine: &Machine, keys: &mut [i32]) -> (Index<SMALL>, Progress) {
    let m = machine.m;
    keys[..m].copy_from_slice(&machine.start[..m]);
    let mut index = Index::new();
    index.insert(0, Index::<SMALL>::bucket(&machine.start, m));
    (index, Progress { count: 1, row: 0, letter: 0 })
}

/// The large index, with every row so far in it.
fn rebuilt(machine: &Machine, keys: &[i32], count: usize) -> Index<LARGE> {
    let mut index = Index::new();
    for s in 0..count {
        index.insert(s, Index::<LARGE>::bucket(&local(keys, machine.m, s), machine.m));
    }
    index
}

#[inline(never)]
fn explore_large(machine: &Machine, at: &mut Progress, rows: usize, keys: &mut [i32], path: &mut [u16]) -> Stop {
    let mut index = rebuilt(machine, keys, at.count);
    explore(machine, &mut index, at, rows, keys, Some(path))
}

pub fn decide(bytes: &[u8], keys: &mut [i32], path: &mut [u16], word: &mut [u8]) -> Decision {
    let question = match read(bytes) {
        Ok(question) => question,
        Err(refusal) => return Decision::Refused(refusal),
    };
    let machine = Machine::new(&question);
    let rows = (keys.len() / machine.m).min(path.len() / 2).min(Question::STATES);
    if rows == 0 {
        return Decision::NoRoom { states: 0 };
    }
    let (mut index, mut at) = opened(&machine, keys);
    path[0] = 0;
    path[1] = 0;
    let mut stop =
        if machine.accepts(&machine.start) { Stop::Accepting } else { explore(&machine, &mut index, &mut at, rows, keys, Some(&mut *path)) };
    if stop == Stop::Crowded {
        stop = explore_large(&machine, &mut at, rows, keys, path);
    }
    match stop {
        Stop::Closed => Decision::Never { states: at.count },
        Stop::Accepting => walk_back(path, at.count - 1, word),
        _ => Decision::NoRoom { states: rows },
    }
}

/// Writes the word of state w from its end to its front.
fn walk_back(path: &[u16], w: usize, word: &mut [u8]) -> Decision {
    let mut letters = 0;
    let mut s = w;
    while s != 0 {
        s = path[2 * s] as usize;
        letters += 1;
    }
    if letters > word.len() {
        return Decision::WordShort { states: w + 1, letters };
    }
    s = w;
    for i in (0..letters).rev() {
        word[i] = path[2 * s + 1] as u8;
        s = path[2 * s] as usize;
    }
    Decision::Found { states: w + 1, letters }
}

fn write_table<const ROWS: usize>(machine: &Machine, index: &Index<ROWS>, count: usize, keys: &[i32], table: &mut [u16]) {
    let m = machine.m;
    for (s, cells) in table.chunks_exact_mut(1 + machine.letters).take(count).enumerate() {
        let row = local(keys, m, s);
        cells[0] = machine.accepts(&row) as u16;
        for letter in 0..machine.letters {
            let target = machine.step(&row, letter);
            cells[1 + letter] = index.find(keys, m, &target, Index::<ROWS>::bucket(&target, m));
        }
    }
}

#[inline(never)]
fn build_large(machine: &Machine, at: &mut Progress, rows: usize, keys: &mut [i32], table: &mut [u16]) -> Stop {
    let mut index = rebuilt(machine, keys, at.count);
    let stop = explore(machine, &mut index, at, rows, keys, None);
    if stop == Stop::Closed {
        write_table(machine, &index, at.count, keys, table);
    }
    stop
}

pub fn build(bytes: &[u8], keys: &mut [i32], table: &mut [u16]) -> Building {
    let question = match read(bytes) {
        Ok(question) => question,
        Err(refusal) => return Building::Refused(refusal),
    };
    let machine = Machine::new(&question);
    let rows = (keys.len() / machine.m).min(table.len() / (1 + machine.letters)).min(Question::STATES);
    if rows == 0 {
        return Building::NoRoom { states: 0 };
    }
    let (mut index, mut at) = opened(&machine, keys);
    let mut stop = explore(&machine, &mut index, &mut at, rows, keys, None);
    if stop == Stop::Closed {
        write_table(&machine, &index, at.count, keys, table);
    } else if stop == Stop::Crowded {
        stop = build_large(&machine, &mut at, rows, keys, table);
    }
    match stop {
        Stop::Closed => Building::Built { states: at.count },
        _ => Building::NoRoom { states: rows },
    }
}
