//! Every proved call, as linked, against the reading on generated and damaged inputs: the answer, every cell that is lent before and after,
//! the cells beside what is lent, and what is told. Each call is made twice: by the crate's own function, and on lent buffers of any length.
#![cfg(feature = "proved")]

use pelohuaki::{lent, Place};
use pelohuaki_bench::generate::*;
use pelohuaki_bench::generate_text::any_text;
use pelohuaki_bench::met::{building_name, decision_name, name, Met};
use pelohuaki_bench::reading::{self, Building, Decision, Question, Refusal, Written};
use pelohuaki_bench::{import, plain, proved};
use std::fmt::Debug;
use std::io::Write;

const INPUTS: usize = 100_000;

/// Cells that are lent from the middle of a larger area.
struct Lent<T> {
    area: Vec<T>,
    before: Vec<T>,
}

const BESIDE: usize = 8;

impl<T: Copy + PartialEq + Debug + From<u8>> Lent<T> {
    fn new(cells: &[T]) -> Lent<T> {
        let beside = [T::from(0xA5); BESIDE];
        let area = [&beside, cells, &beside].concat();
        Lent { before: area.clone(), area }
    }

    fn cells(&mut self) -> &mut [T] {
        let end = self.area.len() - BESIDE;
        &mut self.area[BESIDE..end]
    }

    /// The cells are these now, and those beside them are as they were.
    #[track_caller]
    fn holds(&self, cells: &[T]) {
        let end = self.area.len() - BESIDE;
        assert!(self.area[BESIDE..end] == *cells, "{:?}, not {cells:?}", &self.area[BESIDE..end]);
        assert_eq!(self.area[..BESIDE], self.before[..BESIDE]);
        assert_eq!(self.area[end..], self.before[end..]);
    }

    #[track_caller]
    fn unchanged(&self) {
        assert!(self.area == self.before);
    }
}

/// The cells that a call tells, to be lent in any number.
struct Told(Lent<u64>);

impl Told {
    fn new(random: &mut Random) -> Told {
        let lent = random.pick(&[0, 1, 2, 3, 4, 5, 5, 5, 6, 9]);
        Told::cells(random, lent)
    }

    fn cells(random: &mut Random, lent: usize) -> Told {
        Told(Lent::new(&(0..lent).map(|_| random.next()).collect::<Vec<u64>>()))
    }

    /// The number is the refusal's or 0, and the cells that are lent tell the place and then what is expected, as far as that goes.
    #[track_caller]
    fn says(&self, number: u64, refusal: Option<Refusal>, expected: &[usize]) {
        let refusal = refusal.unwrap_or(Refusal { number: 0, place: 0 });
        assert_eq!(number, refusal.number as u64);
        let end = self.0.before.len() - BESIDE;
        let mut cells = self.0.before[BESIDE..end].to_vec();
        let told = std::iter::once(&refusal.place).chain(expected);
        for (cell, &told) in cells.iter_mut().zip(told) {
            *cell = told as u64;
        }
        self.0.holds(&cells);
    }

    /// As `says`, of an answer with this many values, which are 0 where it is refused.
    #[track_caller]
    fn answers<const VALUES: usize>(&self, number: u64, answer: Result<[usize; VALUES], Refusal>) {
        self.says(number, answer.err(), &answer.unwrap_or([0; VALUES]));
    }
}

/// Says the counts even where a test's own output is kept back, and that exactly these answers were met, numbers beyond their limits often.
fn tell(call: &str, met: &Met, answers: &[&str]) {
    writeln!(std::io::stderr(), "{call}: {met}").expect("a line on standard error");
    met.exactly(100, answers);
    if answers.contains(&"12") {
        met.at_least(800, &["12", "13"]);
    }
}

/// A length for something of a fixed size: mostly that, or less, or a little more.
fn length(random: &mut Random, size: usize) -> usize {
    match random.below(4) {
        0 => random.below(size + 1),
        1 => size + random.below(10),
        _ => size,
    }
}

#[test]
fn records() {
    let mut random = Random::new(101);
    let mut met = Met::default();
    for _ in 0..INPUTS {
        let mut bytes = Lent::new(&any_bytes(&mut random));
        let end = bytes.cells().len();
        // One place of any kind, and then every record from the first byte on.
        let at = match random.below(8) {
            0 => end + random.below(9),
            1 => random.pick(&[usize::MAX, usize::MAX - 3, usize::MAX - 4, 1 << 63, 1 << 32]),
            _ => random.below(end + 1),
        };
        let mut told = Told::new(&mut random);
        let number = lent::record_at(bytes.cells(), at, told.0.cells());
        let step = reading::record(bytes.cells(), at);
        told.answers(number, step.as_ref().map(|step| [step.kind as usize, at + 4, step.body.len(), step.next]).map_err(|&refusal| refusal));
        met.meet(name(step, |_| "record"));

        let mut place = Place::open(bytes.cells());
        loop {
            let at = place.at();
            let step = reading::record(place.bytes(), at);
            let taken = proved::next_record(&mut place);
            assert_eq!(taken, step);
            // The body is that stretch of the bytes, and not a copy; a refused place stays.
            let Ok(record) = taken else {
                assert_eq!(place.at(), at);
                break;
            };
            assert_eq!(record.body.as_ptr_range(), place.bytes()[at + 4..record.next].as_ptr_range());
            assert_eq!(place.at(), record.next);
        }
        bytes.unchanged();
    }
    tell("record", &met, &["record", "1"]);
}

#[test]
fn read() {
    let mut random = Random::new(102);
    let mut met = Met::default();
    for _ in 0..INPUTS {
        let mut bytes = Lent::new(&any_bytes(&mut random));
        let answer = reading::read(bytes.cells());
        assert_eq!(proved::read(bytes.cells()), answer);

        let (codes, coefficients, constants) = (length(&mut random, 64), length(&mut random, 48), length(&mut random, 8));
        let mut codes = Lent::new(&cells8(&mut random, codes));
        let mut coefficients = Lent::new(&cells32(&mut random, coefficients));
        let mut constants = Lent::new(&cells32(&mut random, constants));
        let (mut codes_then, mut coefficients_then, mut constants_then) =
            (codes.cells().to_vec(), coefficients.cells().to_vec(), constants.cells().to_vec());
        if let Ok(question) = &answer {
            codes_then.iter_mut().zip(question.codes).for_each(|(cell, part)| *cell = part);
            coefficients_then.iter_mut().zip(question.coefficients).for_each(|(cell, part)| *cell = part);
            constants_then.iter_mut().zip(question.constants).for_each(|(cell, part)| *cell = part);
        }
        let mut told = Told::new(&mut random);
        let number = lent::read(bytes.cells(), codes.cells(), coefficients.cells(), constants.cells(), told.0.cells());
        codes.holds(&codes_then);
        coefficients.holds(&coefficients_then);
        constants.holds(&constants_then);
        bytes.unchanged();
        told.answers(number, answer.as_ref().map(|question| [question.n as usize]).map_err(|&refusal| refusal));
        met.meet(name(answer, |_| "accepted"));
    }
    tell("read", &met, &["accepted", "1", "2", "3", "4", "5", "6", "12", "13"]);
}

#[test]
fn imports() {
    let mut random = Random::new(110);
    let mut met = Met::default();
    for _ in 0..INPUTS {
        let mut text = Lent::new(&any_text(&mut random));
        let answer = import::imported(text.cells());
        let names = import::bare_names(text.cells());
        let both = answer.clone().and_then(|question| Ok((question, names.clone()?)));
        assert_eq!(proved::import(text.cells()), both);

        let (codes, coefficients, constants) = (length(&mut random, 64), length(&mut random, 48), length(&mut random, 8));
        let mut codes = Lent::new(&cells8(&mut random, codes));
        let mut coefficients = Lent::new(&cells32(&mut random, coefficients));
        let mut constants = Lent::new(&cells32(&mut random, constants));
        let (mut codes_then, mut coefficients_then, mut constants_then) =
            (codes.cells().to_vec(), coefficients.cells().to_vec(), constants.cells().to_vec());
        let mut values = [0; 13];
        if let Ok((question, names)) = &both {
            codes_then.iter_mut().zip(question.codes).for_each(|(cell, part)| *cell = part);
            coefficients_then.iter_mut().zip(question.coefficients).for_each(|(cell, part)| *cell = part);
            constants_then.iter_mut().zip(question.constants).for_each(|(cell, part)| *cell = part);
            values[0] = question.n as usize;
            for (cells, name) in values[1..].chunks_mut(2).zip(names) {
                cells.copy_from_slice(&[name.start, name.end]);
            }
        }
        let lent = length(&mut random, 14);
        let mut told = Told::cells(&mut random, lent);
        let number = lent::import(text.cells(), codes.cells(), coefficients.cells(), constants.cells(), told.0.cells());
        codes.holds(&codes_then);
        coefficients.holds(&coefficients_then);
        constants.holds(&constants_then);
        text.unchanged();
        told.says(number, both.err(), &values);
        met.meet(name(answer, |_| "held"));
    }
    tell("import", &met, &["held", "4", "5", "12", "13", "14", "15"]);
}

/// A part of a held question, lent in some length, and as it then counts: 0 where it is not lent, and no further than its size.
fn part<T: Copy + PartialEq + Debug + From<u8>, const SIZE: usize>(lent: usize, mut part: [T; SIZE], past: T) -> (Lent<T>, [T; SIZE]) {
    let mut cells = part.to_vec();
    cells.resize(lent, past);
    for cell in part.iter_mut().skip(lent) {
        *cell = T::from(0);
    }
    (Lent::new(&cells), part)
}

#[test]
fn write() {
    let mut random = Random::new(103);
    let mut met = Met::default();
    for _ in 0..INPUTS {
        let question = held(&mut random);
        // All of the parts, or each in a length of its own.
        let whole = !random.one_in(4);
        let mut lengths = [64, 48, 8];
        if !whole {
            lengths = lengths.map(|size| length(&mut random, size));
        }
        let (mut codes, codes_count) = part(lengths[0], question.codes, 1);
        let (mut coefficients, coefficients_count) = part(lengths[1], question.coefficients, 7);
        let (mut constants, constants_count) = part(lengths[2], question.constants, -7);
        let counted = Question { n: question.n, codes: codes_count, coefficients: coefficients_count, constants: constants_count };

        let exact = reading::bytes_of(&counted).map_or(20, |bytes| bytes.len());
        let room = room(&mut random, exact);
        let before = cells8(&mut random, room);
        let Written { answer, buffer: after } = reading::write(&counted, &before);
        let mut buffer = Lent::new(&before);
        assert_eq!(proved::write(&counted, buffer.cells()), answer, "{counted:?}");
        buffer.holds(&after);

        let mut buffer = Lent::new(&before);
        let mut told = Told::new(&mut random);
        let number = lent::write(question.n, codes.cells(), coefficients.cells(), constants.cells(), buffer.cells(), told.0.cells());
        told.answers(number, answer.map(|written| [written]));
        buffer.holds(&after);
        codes.unchanged();
        coefficients.unchanged();
        constants.unchanged();
        met.meet(name(answer, |_| "written"));
    }
    tell("write", &met, &["written", "2", "4", "5", "6", "8", "12", "13"]);
}

fn yes_or_no(yes: bool) -> &'static str {
    if yes {
        "yes"
    } else {
        "no"
    }
}

#[test]
fn judge() {
    let mut random = Random::new(104);
    let mut met = Met::default();
    for _ in 0..INPUTS {
        let bytes = if random.one_in(5) { damaged_bytes(&mut random) } else { question_bytes(&mut random) };
        let n = bytes.get(4).copied().unwrap_or(1).min(6);
        let mut bytes = Lent::new(&bytes);
        let mut values = Lent::new(&values(&mut random, n));
        let answer = reading::judge(bytes.cells(), values.cells());
        assert_eq!(proved::judge(bytes.cells(), values.cells()), answer);
        let mut told = Told::new(&mut random);
        let number = lent::judge(bytes.cells(), values.cells(), told.0.cells());
        told.answers(number, answer.map(|yes| [yes as usize]));
        bytes.unchanged();
        values.unchanged();
        met.meet(name(answer, yes_or_no));
    }
    tell("judge", &met, &["yes", "no", "1", "2", "3", "4", "5", "6", "9", "12", "13"]);
}

/// Rows about as many as a search needs, in two areas that may have room for different numbers of them, and cells that make no row.
fn areas(random: &mut Random, states: usize, sizes: [usize; 2]) -> [usize; 2] {
    let rows = if random.one_in(3) { states + random.below(20) } else { room(random, states) };
    let spare = room(random, states).max(rows);
    let rows = random.pick(&[[rows, rows], [rows, spare], [spare, rows]]);
    [0, 1].map(|i| rows[i] * sizes[i] + if random.one_in(2) { random.below(sizes[i]) } else { 0 })
}

/// The most rows of a search: few where there are many letters, so that the reading is done soon.
fn most_rows(letters: usize) -> usize {
    3_000 / letters
}

#[test]
fn decide() {
    let mut random = Random::new(105);
    let mut met = Met::default();
    for _ in 0..INPUTS {
        let bytes = if random.one_in(5) { damaged_bytes(&mut random) } else { question_bytes(&mut random) };
        let (m, letters) = reading::read(&bytes).map_or((2, 4), |question| (question.atoms(), 1 << question.n));
        let most = most_rows(letters);
        // What it takes, by the plain solver, so that rooms can be just enough or one short.
        let (states, length) = match plain::decide(&bytes, &mut vec![0; most * m], &mut vec![0; most * 2], &mut [0; 64]) {
            Decision::Found { states, letters } => (states, letters),
            Decision::Never { states } | Decision::NoRoom { states } | Decision::WordShort { states, .. } => (states, 3),
            Decision::Refused(_) => (3, 3),
        };
        let [key_cells, path_cells] = areas(&mut random, states, [m, 2]);
        let (keys, path) = (cells32(&mut random, key_cells), cells16(&mut random, path_cells));
        let word = room(&mut random, length);
        let word = cells8(&mut random, word);
        let expected = reading::decide(&bytes, &keys, &path, &word);

        let mut bytes = Lent::new(&bytes);
        let mut areas = (Lent::new(&keys), Lent::new(&path), Lent::new(&word));
        let answer = proved::decide(bytes.cells(), areas.0.cells(), areas.1.cells(), areas.2.cells());
        assert_eq!(answer, expected.answer, "{:x?}", bytes.cells());
        areas.0.holds(&expected.keys);
        areas.1.holds(&expected.path);
        areas.2.holds(&expected.word);

        let mut areas = (Lent::new(&keys), Lent::new(&path), Lent::new(&word));
        let mut told = Told::new(&mut random);
        let number = lent::decide(bytes.cells(), areas.0.cells(), areas.1.cells(), areas.2.cells(), told.0.cells());
        decision_told(&told, number, answer);
        areas.0.holds(&expected.keys);
        areas.1.holds(&expected.path);
        areas.2.holds(&expected.word);
        bytes.unchanged();
        met.meet(decision_name(answer));
    }
    tell("decide", &met, &["found", "never", "1", "2", "3", "4", "5", "6", "7", "8", "12", "13"]);
}

fn decision_told(told: &Told, number: u64, answer: Decision) {
    let refused = |number| Some(Refusal { number, place: 0 });
    match answer {
        Decision::Found { states, letters } => told.says(number, None, &[1, states, letters]),
        Decision::Never { states } => told.says(number, None, &[2, states, 0]),
        Decision::NoRoom { states } => told.says(number, refused(7), &[0, states, 0]),
        Decision::WordShort { states, letters } => told.says(number, refused(8), &[0, states, letters]),
        Decision::Refused(refusal) => told.says(number, Some(refusal), &[0, 0, 0]),
    }
}

#[test]
fn build() {
    let mut random = Random::new(106);
    let mut met = Met::default();
    for _ in 0..INPUTS {
        let bytes = if random.one_in(5) { damaged_bytes(&mut random) } else { question_bytes(&mut random) };
        let (m, letters) = reading::read(&bytes).map_or((2, 4), |question| (question.atoms(), 1 << question.n));
        let most = most_rows(letters);
        let states = match plain::build(&bytes, &mut vec![0; most * m], &mut vec![0; most * (1 + letters)]) {
            Building::Built { states } | Building::NoRoom { states } => states,
            Building::Refused(_) => 3,
        };
        let [key_cells, table_cells] = areas(&mut random, states, [m, 1 + letters]);
        let (keys, table) = (cells32(&mut random, key_cells), cells16(&mut random, table_cells));
        let expected = reading::build(&bytes, &keys, &table);

        let mut bytes = Lent::new(&bytes);
        let mut areas = (Lent::new(&keys), Lent::new(&table));
        let answer = proved::build(bytes.cells(), areas.0.cells(), areas.1.cells());
        assert_eq!(answer, expected.answer, "{:x?}", bytes.cells());
        areas.0.holds(&expected.keys);
        areas.1.holds(&expected.table);

        let mut areas = (Lent::new(&keys), Lent::new(&table));
        let mut told = Told::new(&mut random);
        let number = lent::build(bytes.cells(), areas.0.cells(), areas.1.cells(), told.0.cells());
        match answer {
            Building::Built { states } => told.says(number, None, &[3, states, 0]),
            Building::NoRoom { states } => told.says(number, Some(Refusal { number: 7, place: 0 }), &[0, states, 0]),
            Building::Refused(refusal) => told.says(number, Some(refusal), &[0, 0, 0]),
        }
        areas.0.holds(&expected.keys);
        areas.1.holds(&expected.table);
        bytes.unchanged();
        met.meet(building_name(answer));
    }
    tell("build", &met, &["built", "1", "2", "3", "4", "5", "6", "7", "12", "13"]);
}

/// Now and then no n at all, or another than the one meant.
fn handed(random: &mut Random, n: u8) -> usize {
    let n = n as usize;
    if random.one_in(10) {
        random.pick(&[0, 1, 2, 6, 7, 8, 255, 256 + n, (1 << 16) + n, (1 << 32) + n, usize::MAX])
    } else {
        n
    }
}

#[test]
fn run() {
    let mut random = Random::new(107);
    let mut met = Met::default();
    for _ in 0..INPUTS {
        let n = 1 + random.below(6) as u8;
        let mut cells = Lent::new(&if random.one_in(3) { damaged_table(&mut random, n) } else { table(&mut random, n) });
        let mut word = Lent::new(&word(&mut random, n));
        let n = handed(&mut random, n);
        let answer = reading::run(n, cells.cells(), word.cells());
        assert_eq!(proved::run(n, cells.cells(), word.cells()), answer, "{n} {:?} {:?}", cells.area, word.area);
        let mut told = Told::new(&mut random);
        let number = lent::run(n, cells.cells(), word.cells(), told.0.cells());
        told.answers(number, answer.map(|yes| [yes as usize]));
        cells.unchanged();
        word.unchanged();
        met.meet(name(answer, yes_or_no));
    }
    tell("run", &met, &["yes", "no", "4", "10", "11"]);
    for rows in [65_534, 65_535, 65_536, 65_537] {
        let cells = tall_table(rows);
        assert_eq!(proved::run(1, &cells, &[0, 1]), reading::run(1, &cells, &[0, 1]), "{rows} rows");
    }
}

#[test]
fn spell() {
    let mut random = Random::new(108);
    let mut met = Met::default();
    for _ in 0..INPUTS {
        let n = 1 + random.below(6) as u8;
        let mut word = Lent::new(&word(&mut random, n));
        let variable = match random.below(8) {
            0 => random.pick(&[0, n as usize + 1, 7, 255, 256, 257, 1 << 32, (1 << 32) + 1, usize::MAX]),
            _ => 1 + random.below(n as usize),
        };
        let n = handed(&mut random, n);
        let answer = reading::spell(n, variable, word.cells());
        assert_eq!(proved::spell(n, variable, word.cells()), answer, "{n} {variable} {:?}", word.area);
        let mut told = Told::new(&mut random);
        let number = lent::spell(n, variable, word.cells(), told.0.cells());
        told.answers(number, answer.map(|value| [value as usize]));
        word.unchanged();
        met.meet(name(answer, |_| "value"));
    }
    tell("spell", &met, &["value", "4", "9", "10"]);
}
