//! A reading of document 01, and of request E1 of document 02, in plain Rust, for comparison: each call is a function from its inputs and lent
//! buffers to its answer and to every buffer afterwards. Clear rather than fast; it shares nothing with the proved code or with `plain` but the
//! types at the top.

#![forbid(unsafe_code)]

use std::collections::HashMap;

/// A held question.
#[derive(Clone, Debug, PartialEq, Eq)]
pub struct Question {
    pub n: u8,
    /// 0 unused, 1 equation, 2 at most, 3 not, 4 and, 5 or.
    pub codes: [u8; 64],
    /// Row i, the coefficients of atom i, stands at 6·i.
    pub coefficients: [i32; 48],
    pub constants: [i32; 8],
}

impl Question {
    pub const VARIABLES: usize = 6;
    pub const ATOMS: usize = 8;
    pub const NODES: usize = 64;
    pub const DEPTH: usize = 16;
    pub const COEFFICIENT: i32 = 4_096;
    pub const CONSTANT: i32 = 1_000_000;
    pub const VALUE: u64 = (1 << 40) - 1;
    pub const STATES: usize = 65_535;

    pub fn empty() -> Question {
        Question { n: 0, codes: [0; 64], coefficients: [0; 48], constants: [0; 8] }
    }

    /// The number of atoms.
    pub fn atoms(&self) -> usize {
        self.codes.iter().filter(|&&code| code == EQUATION || code == AT_MOST).count()
    }
}

pub const EQUATION: u8 = 1;
pub const AT_MOST: u8 = 2;
pub const NOT: u8 = 3;
pub const AND: u8 = 4;
pub const OR: u8 = 5;

/// Kinds of record.
pub const KIND_HEAD: u16 = 0x0001;
pub const KIND_EQUATION: u16 = 0x0010;
pub const KIND_AT_MOST: u16 = 0x0011;
pub const KIND_NOT: u16 = 0x0020;
pub const KIND_AND: u16 = 0x0021;
pub const KIND_OR: u16 = 0x0022;
pub const KIND_END: u16 = 0x00FF;

/// The key cell of a dead entry.
pub const DEAD: i32 = -2_147_483_648;

/// A refusal: its number in the documents, and its place (0 where they name none).
#[derive(Clone, Copy, Debug, PartialEq, Eq)]
pub struct Refusal {
    pub number: u8,
    pub place: usize,
}

#[derive(Clone, Copy, Debug, PartialEq, Eq)]
pub enum Decision {
    Found {
        states: usize,
        letters: usize,
    },
    Never {
        states: usize,
    },
    /// Refusal 7.
    NoRoom {
        states: usize,
    },
    /// Refusal 8, with the letters that the word has.
    WordShort {
        states: usize,
        letters: usize,
    },
    /// Refusals 1 to 6, 12 or 13, from reading the question.
    Refused(Refusal),
}

#[derive(Clone, Copy, Debug, PartialEq, Eq)]
pub enum Building {
    Built {
        states: usize,
    },
    /// Refusal 7.
    NoRoom {
        states: usize,
    },
    /// Refusals 1 to 6, 12 or 13, from reading the question.
    Refused(Refusal),
}

fn refuse<T>(number: u8, place: usize) -> Result<T, Refusal> {
    Err(Refusal { number, place })
}

// A question on the wire

/// One record, as a bare step hands it back: its kind, its body, and the place after it.
#[derive(Debug, PartialEq, Eq)]
pub struct Record<'b> {
    pub kind: u16,
    pub body: &'b [u8],
    pub next: usize,
}

fn two_bytes(bytes: &[u8], place: usize) -> u16 {
    u16::from_le_bytes([bytes[place], bytes[place + 1]])
}

fn four_bytes(bytes: &[u8], place: usize) -> i32 {
    i32::from_le_bytes([bytes[place], bytes[place + 1], bytes[place + 2], bytes[place + 3]])
}

/// The bare step, which knows no formula. At a place past the end no bytes are left.
pub fn record(bytes: &[u8], place: usize) -> Result<Record<'_>, Refusal> {
    let left = bytes.len().saturating_sub(place);
    if left < 4 {
        return refuse(1, place);
    }
    let length = two_bytes(bytes, place) as usize;
    if left - 4 < length {
        return refuse(1, place);
    }
    let next = place + 4 + length;
    Ok(Record { kind: two_bytes(bytes, place + 2), body: &bytes[place + 4..next], next })
}

pub fn read(bytes: &[u8]) -> Result<Question, Refusal> {
    let mut question = Question::empty();
    let mut headed = false;
    // The depth of every part of the formula that is still to come, the next one last.
    let mut owed = vec![1];
    let mut nodes = 0;
    let mut atoms = 0;
    let mut place = 0;
    loop {
        let left = bytes.len() - place;
        if left < 4 {
            return refuse(1, place);
        }
        let length = two_bytes(bytes, place) as usize;
        let kind = two_bytes(bytes, place + 2);

        let due: &[u16] = if !headed {
            &[KIND_HEAD]
        } else if owed.is_empty() {
            &[KIND_END]
        } else {
            &[KIND_EQUATION, KIND_AT_MOST, KIND_NOT, KIND_AND, KIND_OR]
        };
        if !due.contains(&kind) {
            return refuse(2, place);
        }

        let n = question.n as usize;
        let right = match kind {
            KIND_HEAD => 1,
            KIND_EQUATION | KIND_AT_MOST => 4 * (n + 1),
            _ => 0,
        };
        if length != right {
            return refuse(3, place);
        }
        if left - 4 < length {
            return refuse(1, place);
        }
        let body = &bytes[place + 4..place + 4 + length];
        let next = place + 4 + length;

        if kind == KIND_HEAD {
            if body[0] < 1 || body[0] as usize > Question::VARIABLES {
                return refuse(4, place);
            }
            question.n = body[0];
            headed = true;
        } else if kind == KIND_END {
            if next < bytes.len() {
                return refuse(6, next);
            }
            return Ok(question);
        } else {
            let depth = owed.pop().unwrap();
            let is_atom = kind == KIND_EQUATION || kind == KIND_AT_MOST;
            if nodes == Question::NODES || (is_atom && atoms == Question::ATOMS) || depth > Question::DEPTH {
                return refuse(5, place);
            }
            if is_atom {
                // A number that is refused is so at its own first byte.
                let numbers = place + 4;
                for j in 0..n {
                    let coefficient = four_bytes(body, 4 * j);
                    if beyond(coefficient, Question::COEFFICIENT) {
                        return refuse(12, numbers + 4 * j);
                    }
                    question.coefficients[6 * atoms + j] = coefficient;
                }
                let constant = four_bytes(body, 4 * n);
                if beyond(constant, Question::CONSTANT) {
                    return refuse(13, numbers + 4 * n);
                }
                question.constants[atoms] = constant;
                atoms += 1;
            }
            let (code, parts) = match kind {
                KIND_EQUATION => (EQUATION, 0),
                KIND_AT_MOST => (AT_MOST, 0),
                KIND_NOT => (NOT, 1),
                KIND_AND => (AND, 2),
                _ => (OR, 2),
            };
            question.codes[nodes] = code;
            nodes += 1;
            for _ in 0..parts {
                owed.push(depth + 1);
            }
        }
        place = next;
    }
}

fn beyond(number: i32, limit: i32) -> bool {
    number < -limit || number > limit
}

#[derive(Clone, Debug, PartialEq, Eq)]
pub struct Written {
    /// The number of bytes written.
    pub answer: Result<usize, Refusal>,
    pub buffer: Vec<u8>,
}

pub fn write(question: &Question, buffer: &[u8]) -> Written {
    let mut buffer = buffer.to_vec();
    let answer = match bytes_of(question) {
        Err(refusal) => Err(refusal),
        Ok(bytes) if bytes.len() > buffer.len() => refuse(8, 0),
        Ok(bytes) => {
            buffer[..bytes.len()].copy_from_slice(&bytes);
            Ok(bytes.len())
        }
    };
    Written { answer, buffer }
}

/// The bytes of a held question, or the refusal that writing it meets before it looks at the buffer.
pub fn bytes_of(question: &Question) -> Result<Vec<u8>, Refusal> {
    let mut bytes = Vec::new();
    let mut put = |kind: u16, body: &[u8]| {
        bytes.extend_from_slice(&(body.len() as u16).to_le_bytes());
        bytes.extend_from_slice(&kind.to_le_bytes());
        bytes.extend_from_slice(body);
    };

    if question.n < 1 || question.n as usize > Question::VARIABLES {
        return refuse(4, 0);
    }
    let n = question.n as usize;
    put(KIND_HEAD, &[question.n]);

    let mut owed = vec![1];
    let mut node = 0;
    let mut atom = 0;
    while let Some(depth) = owed.pop() {
        if node == Question::NODES {
            return refuse(5, node);
        }
        let code = question.codes[node];
        if code < EQUATION || code > OR {
            return refuse(2, node);
        }
        let is_atom = code == EQUATION || code == AT_MOST;
        if (is_atom && atom == Question::ATOMS) || depth > Question::DEPTH {
            return refuse(5, node);
        }
        let mut body = Vec::new();
        if is_atom {
            let coefficients = &question.coefficients[6 * atom..6 * atom + n];
            let constant = question.constants[atom];
            if coefficients.iter().any(|&a| beyond(a, Question::COEFFICIENT)) {
                return refuse(12, node);
            }
            if beyond(constant, Question::CONSTANT) {
                return refuse(13, node);
            }
            for a in coefficients {
                body.extend_from_slice(&a.to_le_bytes());
            }
            body.extend_from_slice(&constant.to_le_bytes());
            atom += 1;
        }
        let (kind, parts) = match code {
            EQUATION => (KIND_EQUATION, 0),
            AT_MOST => (KIND_AT_MOST, 0),
            NOT => (KIND_NOT, 1),
            AND => (KIND_AND, 2),
            _ => (KIND_OR, 2),
        };
        put(kind, &body);
        for _ in 0..parts {
            owed.push(depth + 1);
        }
        node += 1;
    }
    put(KIND_END, &[]);

    for unused in node..Question::NODES {
        if question.codes[unused] != 0 {
            return refuse(6, unused);
        }
    }
    for row in 0..Question::ATOMS {
        for j in 0..Question::VARIABLES {
            let used = row < atom && j < n;
            if !used && question.coefficients[6 * row + j] != 0 {
                return refuse(6, 64);
            }
        }
        if row >= atom && question.constants[row] != 0 {
            return refuse(6, 64);
        }
    }
    Ok(bytes)
}

// The formula as a tree, and what a tuple of naturals makes of it

#[derive(Clone, Debug)]
pub enum Formula {
    Atom(usize),
    Not(Box<Formula>),
    And(Box<Formula>, Box<Formula>),
    Or(Box<Formula>, Box<Formula>),
}

#[derive(Clone, Debug)]
pub struct Atom {
    pub equation: bool,
    pub coefficients: Vec<i64>,
    pub constant: i64,
}

/// A question that was read, as mathematics: its atoms in order, and its formula over their numbers.
#[derive(Clone, Debug)]
pub struct Meaning {
    pub n: usize,
    pub atoms: Vec<Atom>,
    pub formula: Formula,
}

impl Formula {
    pub fn worth(&self, atom: &dyn Fn(usize) -> bool) -> bool {
        match self {
            Formula::Atom(i) => atom(*i),
            Formula::Not(p) => !p.worth(atom),
            Formula::And(p, q) => p.worth(atom) && q.worth(atom),
            Formula::Or(p, q) => p.worth(atom) || q.worth(atom),
        }
    }
}

pub fn meaning(question: &Question) -> Meaning {
    fn part(question: &Question, node: &mut usize, atoms: &mut Vec<Atom>) -> Formula {
        let code = question.codes[*node];
        *node += 1;
        match code {
            EQUATION | AT_MOST => {
                let i = atoms.len();
                atoms.push(Atom {
                    equation: code == EQUATION,
                    coefficients: (0..question.n as usize).map(|j| question.coefficients[6 * i + j] as i64).collect(),
                    constant: question.constants[i] as i64,
                });
                Formula::Atom(i)
            }
            NOT => Formula::Not(Box::new(part(question, node, atoms))),
            AND | OR => {
                let left = Box::new(part(question, node, atoms));
                let right = Box::new(part(question, node, atoms));
                if code == AND {
                    Formula::And(left, right)
                } else {
                    Formula::Or(left, right)
                }
            }
            _ => unreachable!("a question that was read has a whole formula"),
        }
    }
    let mut atoms = Vec::new();
    let formula = part(question, &mut 0, &mut atoms);
    Meaning { n: question.n as usize, atoms, formula }
}

impl Meaning {
    pub fn satisfied_by(&self, values: &[u64]) -> bool {
        self.formula.worth(&|i| {
            let atom = &self.atoms[i];
            let sum: i128 = atom.coefficients.iter().zip(values).map(|(&a, &x)| a as i128 * x as i128).sum();
            if atom.equation {
                sum == atom.constant as i128
            } else {
                sum <= atom.constant as i128
            }
        })
    }
}

pub fn judge(bytes: &[u8], values: &[u64]) -> Result<bool, Refusal> {
    let question = read(bytes)?;
    if values.len() != question.n as usize {
        return refuse(9, 0);
    }
    if values.iter().any(|&value| value > Question::VALUE) {
        return refuse(9, 0);
    }
    Ok(meaning(&question).satisfied_by(values))
}

// States and steps

/// One entry for each atom: a number, or dead.
pub type State = Vec<Option<i64>>;

impl Meaning {
    pub fn start(&self) -> State {
        self.atoms.iter().map(|atom| Some(atom.constant)).collect()
    }

    pub fn step(&self, state: &State, letter: u8) -> State {
        let mut next = Vec::new();
        for (atom, &entry) in self.atoms.iter().zip(state) {
            let sum: i64 = (0..self.n).filter(|j| letter >> j & 1 == 1).map(|j| atom.coefficients[j]).sum();
            next.push(match entry {
                None => None,
                Some(k) if atom.equation && (k - sum).rem_euclid(2) == 1 => None,
                Some(k) => Some((k - sum).div_euclid(2)),
            });
        }
        next
    }

    pub fn accepts(&self, state: &State) -> bool {
        self.formula.worth(&|i| match state[i] {
            None => false,
            Some(k) => {
                if self.atoms[i].equation {
                    k == 0
                } else {
                    k >= 0
                }
            }
        })
    }

    /// No more states than this are reachable (the largest u128 where the product passes it).
    pub fn bound(&self) -> u128 {
        let mut product: u128 = 1;
        for atom in &self.atoms {
            let p: i64 = atom.coefficients.iter().filter(|&&a| a > 0).sum();
            let n: i64 = -atom.coefficients.iter().filter(|&&a| a < 0).sum::<i64>();
            let numbers = atom.constant.max(n) - atom.constant.min(-p) + 1;
            product = product.saturating_mul(numbers as u128 + atom.equation as u128);
        }
        product
    }
}

/// A numbered state: the state and letter from which it was numbered, and the first word that reaches it.
#[derive(Clone, Debug)]
pub struct Numbered {
    pub state: State,
    pub from: usize,
    pub letter: u8,
    pub word: Vec<u8>,
}

/// The reachable states in the order of their first words: all of them and true, or the first `rows` and false where there are more.
///
/// If the first word to reach a state is `u` and then a letter, then `u` is the first word to reach its own state (an earlier one, and then that
/// letter, would come before). So it is enough to try each letter in order after each first word in order.
pub fn numbering(meaning: &Meaning, rows: usize) -> (Vec<Numbered>, bool) {
    if rows == 0 {
        return (Vec::new(), false);
    }
    let start = meaning.start();
    let mut number: HashMap<State, usize> = HashMap::from([(start.clone(), 0)]);
    let mut states = vec![Numbered { state: start, from: 0, letter: 0, word: Vec::new() }];
    let mut from = 0;
    while from < states.len() {
        for letter in 0..(1u16 << meaning.n) as usize {
            let letter = letter as u8;
            let state = meaning.step(&states[from].state, letter);
            if number.contains_key(&state) {
                continue;
            }
            if states.len() == rows {
                return (states, false);
            }
            let mut word = states[from].word.clone();
            word.push(letter);
            number.insert(state.clone(), states.len());
            states.push(Numbered { state, from, letter, word });
        }
        from += 1;
    }
    (states, true)
}

// Deciding and building

fn fill_keys(keys: &mut [i32], states: &[Numbered], m: usize) {
    for (s, numbered) in states.iter().enumerate() {
        for i in 0..m {
            keys[s * m + i] = match numbered.state[i] {
                None => DEAD,
                Some(k) => k as i32,
            };
        }
    }
}

#[derive(Clone, Debug, PartialEq, Eq)]
pub struct Decided {
    pub answer: Decision,
    pub keys: Vec<i32>,
    pub path: Vec<u16>,
    pub word: Vec<u8>,
}

pub fn decide(bytes: &[u8], keys: &[i32], path: &[u16], word: &[u8]) -> Decided {
    let (mut keys, mut path, mut word) = (keys.to_vec(), path.to_vec(), word.to_vec());
    let question = match read(bytes) {
        Err(refusal) => return Decided { answer: Decision::Refused(refusal), keys, path, word },
        Ok(question) => question,
    };
    let meaning = meaning(&question);
    let m = meaning.atoms.len();
    let rows = (keys.len() / m).min(path.len() / 2).min(Question::STATES);
    let (mut states, all) = numbering(&meaning, rows);

    let accepting = states.iter().position(|numbered| meaning.accepts(&numbered.state));
    let answer = if let Some(w) = accepting {
        states.truncate(w + 1);
        let first = &states[w].word;
        if first.len() > word.len() {
            Decision::WordShort { states: w + 1, letters: first.len() }
        } else {
            word[..first.len()].copy_from_slice(first);
            Decision::Found { states: w + 1, letters: first.len() }
        }
    } else if all {
        Decision::Never { states: states.len() }
    } else {
        Decision::NoRoom { states: rows }
    };

    fill_keys(&mut keys, &states, m);
    for (s, numbered) in states.iter().enumerate() {
        path[2 * s] = numbered.from as u16;
        path[2 * s + 1] = numbered.letter as u16;
    }
    Decided { answer, keys, path, word }
}

#[derive(Clone, Debug, PartialEq, Eq)]
pub struct Built {
    pub answer: Building,
    pub keys: Vec<i32>,
    pub table: Vec<u16>,
}

pub fn build(bytes: &[u8], keys: &[i32], table: &[u16]) -> Built {
    let (mut keys, mut table) = (keys.to_vec(), table.to_vec());
    let question = match read(bytes) {
        Err(refusal) => return Built { answer: Building::Refused(refusal), keys, table },
        Ok(question) => question,
    };
    let meaning = meaning(&question);
    let m = meaning.atoms.len();
    let letters = 1usize << meaning.n;
    let rows = (keys.len() / m).min(table.len() / (1 + letters)).min(Question::STATES);
    let (states, all) = numbering(&meaning, rows);
    fill_keys(&mut keys, &states, m);
    if !all {
        return Built { answer: Building::NoRoom { states: rows }, keys, table };
    }
    let number: HashMap<&State, usize> = states.iter().enumerate().map(|(s, numbered)| (&numbered.state, s)).collect();
    for (s, numbered) in states.iter().enumerate() {
        let row = s * (1 + letters);
        table[row] = meaning.accepts(&numbered.state) as u16;
        for letter in 0..letters {
            table[row + 1 + letter] = number[&meaning.step(&numbered.state, letter as u8)] as u16;
        }
    }
    Built { answer: Building::Built { states: states.len() }, keys, table }
}

// Running and spelling

/// Whether the table accepts the word.
pub fn run(n: usize, cells: &[u16], word: &[u8]) -> Result<bool, Refusal> {
    if n < 1 || n > Question::VARIABLES {
        return refuse(4, 0);
    }
    let letters = 1usize << n;
    let rows = cells.len() / (1 + letters);
    if rows == 0 || cells.len() % (1 + letters) != 0 || rows > Question::STATES {
        return refuse(11, 0);
    }
    for row in cells.chunks(1 + letters) {
        if row[0] > 1 || row[1..].iter().any(|&next| next as usize >= rows) {
            return refuse(11, 0);
        }
    }
    if word.iter().any(|&letter| letter as usize >= letters) {
        return refuse(10, 0);
    }
    let mut state = 0;
    for &letter in word {
        state = cells[state * (1 + letters) + 1 + letter as usize] as usize;
    }
    Ok(cells[state * (1 + letters)] == 1)
}

pub fn spell(n: usize, variable: usize, word: &[u8]) -> Result<u64, Refusal> {
    if n < 1 || n > Question::VARIABLES || variable < 1 || variable > n {
        return refuse(4, 0);
    }
    if word.iter().any(|&letter| letter as usize >= 1 << n) {
        return refuse(10, 0);
    }
    if word.len() > 64 {
        return refuse(9, 0);
    }
    Ok(word.iter().enumerate().map(|(i, &letter)| ((letter >> (variable - 1) & 1) as u64) << i).sum())
}

// The asking program

/// What the asking program prints for this standard input.
pub fn ask(input: &[u8]) -> String {
    let bytes = &input[..input.len().min(1_024)];
    let decided = decide(bytes, &[0; 8 * 1_024], &[0; 2 * 1_024], &[0; 1_024]);
    let joined = |list: Vec<String>| list.join(" ");
    match decided.answer {
        Decision::Refused(refusal) => format!("refused {} at {}\n", refusal.number, refusal.place),
        Decision::WordShort { .. } => unreachable!("a first word among 1,024 states has fewer letters than states"),
        Decision::Never { states } => format!("verdict never\nstates {states}\n"),
        Decision::NoRoom { states } => format!("verdict no-room\nstates {states}\n"),
        Decision::Found { states, letters } => {
            let word = &decided.word[..letters];
            let n = read(bytes).unwrap().n as usize;
            let values = if letters > 64 {
                "long".to_string()
            } else {
                joined((1..=n).map(|variable| spell(n, variable, word).unwrap().to_string()).collect())
            };
            let letters = if word.is_empty() { "none".to_string() } else { joined(word.iter().map(u8::to_string).collect()) };
            format!("verdict found\nvalues {values}\nletters {letters}\nstates {states}\n")
        }
    }
}
