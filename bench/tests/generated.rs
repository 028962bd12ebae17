//! Generated inputs: the plain solver against the reading, every cell; the reading against what it must mean; and that the generator
//! reaches every answer that the documents name.

use pelohuaki_bench::generate::*;
use pelohuaki_bench::met::{building_name, decision_name, name, Met};
use pelohuaki_bench::reading::*;
use pelohuaki_bench::{plain, reading};

/// The reachable states, or `most` where there are more.
fn reachable(bytes: &[u8], most: usize) -> usize {
    reading::read(bytes).map_or(3, |question| numbering(&meaning(&question), most).0.len())
}

fn compare_decide(bytes: &[u8], keys: Vec<i32>, path: Vec<u16>, word: Vec<u8>) -> Decided {
    let expected = reading::decide(bytes, &keys, &path, &word);
    let (mut keys, mut path, mut word) = (keys, path, word);
    let answer = plain::decide(bytes, &mut keys, &mut path, &mut word);
    assert!(Decided { answer, keys, path, word } == expected, "{bytes:x?} {answer:?} {:?}", expected.answer);
    expected
}

fn compare_build(bytes: &[u8], keys: Vec<i32>, table: Vec<u16>) -> Built {
    let expected = reading::build(bytes, &keys, &table);
    let (mut keys, mut table) = (keys, table);
    let answer = plain::build(bytes, &mut keys, &mut table);
    assert!(Built { answer, keys, table } == expected, "{bytes:x?} {answer:?} {:?}", expected.answer);
    expected
}

/// The depth of a valid question's formula.
fn depth(formula: &Formula) -> usize {
    match formula {
        Formula::Atom(_) => 1,
        Formula::Not(p) => 1 + depth(p),
        Formula::And(p, q) | Formula::Or(p, q) => 1 + depth(p).max(depth(q)),
    }
}

/// The generator's questions come with every n and m, and up to the limits of nodes, depth and numbers.
#[test]
fn questions_of_every_size() {
    let mut random = Random::new(13);
    let mut met = Met::default();
    for _ in 0..20_000 {
        let question = question(&mut random);
        met.meet(format!("n {}", question.n));
        met.meet(format!("m {}", question.atoms()));
        met.meet(format!("depth {}", depth(&meaning(&question).formula)));
        if question.codes[63] != 0 {
            met.meet("64 nodes");
        }
        for number in [4_096, -4_096] {
            if question.coefficients.contains(&number) {
                met.meet(format!("coefficient {number}"));
            }
        }
        for number in [1_000_000, -1_000_000] {
            if question.constants.contains(&number) {
                met.meet(format!("constant {number}"));
            }
        }
    }
    let sizes = (1..=6).map(|n| format!("n {n}")).chain((1..=8).map(|m| format!("m {m}"))).chain((1..=16).map(|d| format!("depth {d}")));
    let sizes: Vec<String> = sizes.collect();
    met.at_least(50, &sizes);
    met.at_least(50, &["64 nodes", "coefficient 4096", "coefficient -4096", "constant 1000000", "constant -1000000"]);
}

fn is_atom(kind: u16) -> bool {
    kind == KIND_EQUATION || kind == KIND_AT_MOST
}

/// Which of its reasons refusal 5 has at a place.
fn why_too_many(bytes: &[u8], place: usize) -> &'static str {
    let (mut at, mut nodes, mut atoms) = (5, 0, 0);
    while at < place {
        let step = record(bytes, at).unwrap();
        nodes += 1;
        atoms += is_atom(step.kind) as usize;
        at = step.next;
    }
    if nodes == 64 {
        "65th node"
    } else if atoms == 8 && is_atom(record(bytes, place).unwrap().kind) {
        "ninth atom"
    } else {
        "depth 17"
    }
}

/// The fields of an atom that are beyond their limits, the constant being the last.
fn beyond(numbers: &[i32]) -> Vec<usize> {
    let limit = |j| if j + 1 < numbers.len() { Question::COEFFICIENT } else { Question::CONSTANT };
    (0..numbers.len()).filter(|&j| numbers[j].unsigned_abs() > limit(j) as u32).collect()
}

/// An atom that is refused by its first field that is beyond its limit: which of how many, whether just beyond, and what is said of the question
/// once that field is 0.
fn meet_beyond(met: &mut Met, number: u8, numbers: &[i32], then: &str) {
    let (field, n) = (beyond(numbers)[0], numbers.len() - 1);
    assert_eq!(number, if field < n { 12 } else { 13 });
    met.meet(format!("{number} at {field} of {n}"));
    if [4_097, 1_000_001].contains(&numbers[field].unsigned_abs()) {
        met.meet(format!("{number} for {}", numbers[field]));
    }
    met.meet(format!("{number}, then {then}"));
}

/// Every field of every n, just beyond the limits on both sides, other numbers beyond theirs in the atom, and these answers after it.
fn all_beyond(then: &[&str]) -> Vec<String> {
    let fields = (1..=6).flat_map(|n| (0..n).map(move |field| format!("12 at {field} of {n}")).chain([format!("13 at {n} of {n}")]));
    let numbers = ["12 for 4097", "12 for -4097", "13 for 1000001", "13 for -1000001"].map(String::from);
    let atom = ["12, then 12 of the atom", "12, then 13 of the atom"].map(String::from);
    let then = then.iter().flat_map(|then| [format!("12, then {then}"), format!("13, then {then}")]);
    fields.chain(numbers).chain(atom).chain(then).collect()
}

fn numbers_of(body: &[u8]) -> Vec<i32> {
    body.chunks_exact(4).map(|cell| i32::from_le_bytes(cell.try_into().unwrap())).collect()
}

/// Bytes that are refused by 12 or 13, at the number itself.
fn meet_beyond_read(met: &mut Met, bytes: &[u8], refusal: Refusal) {
    let mut atom = record(bytes, 5).unwrap();
    while atom.next <= refusal.place {
        atom = record(bytes, atom.next).unwrap();
    }
    let numbers = numbers_of(atom.body);
    assert_eq!(refusal.place, atom.next - atom.body.len() + 4 * beyond(&numbers)[0]);
    let mut without = bytes.to_vec();
    without[refusal.place..refusal.place + 4].fill(0);
    let then = match reading::read(&without) {
        Ok(_) => "accepted".to_string(),
        Err(then) if then.place < atom.next => format!("{} of the atom", then.number),
        Err(then) => then.number.to_string(),
    };
    meet_beyond(met, refusal.number, &numbers, &then);
}

/// Whether an atom at this record or behind it has a number beyond its limit.
fn beyond_from(bytes: &[u8], place: usize) -> bool {
    let mut at = place;
    while let Ok(step) = record(bytes, at) {
        if is_atom(step.kind) && !beyond(&numbers_of(step.body)).is_empty() {
            return true;
        }
        at = step.next;
    }
    false
}

#[test]
fn read_alike() {
    let mut random = Random::new(1);
    let mut met = Met::default();
    for _ in 0..200_000 {
        let bytes = any_bytes(&mut random);
        let read = reading::read(&bytes);
        assert_eq!(plain::read(&bytes), read, "{bytes:x?}");
        let Err(refusal) = read else {
            met.meet("accepted");
            continue;
        };
        met.meet(refusal.number.to_string());
        if refusal.number >= 12 {
            meet_beyond_read(&mut met, &bytes, refusal);
        } else if beyond_from(&bytes, refusal.place) {
            met.meet(format!("{} before a number", refusal.number));
        }
        if refusal.number == 5 {
            met.meet(why_too_many(&bytes, refusal.place));
        }
    }
    met.at_least(500, &["accepted", "1", "2", "3", "4", "5", "6", "12", "13", "65th node", "ninth atom", "depth 17"]);
    met.at_least(500, &["2 before a number", "3 before a number", "4 before a number", "5 before a number"]);
    met.at_least(100, &all_beyond(&["accepted", "1", "2", "3", "5", "6", "12", "13"]));
}

/// Reading the bytes of a question gives it back, and writing what was read gives the bytes back.
#[test]
fn read_and_write_are_inverse() {
    let mut random = Random::new(2);
    for _ in 0..20_000 {
        let question = question(&mut random);
        let bytes = bytes_of(&question).unwrap();
        assert_eq!(reading::read(&bytes).as_ref(), Ok(&question));
        let bytes = damaged_bytes(&mut random);
        if let Ok(question) = reading::read(&bytes) {
            assert_eq!(bytes_of(&question), Ok(bytes));
        }
    }
}

/// A held question that is refused by 12 or 13, at the atom's node.
fn meet_beyond_held(met: &mut Met, question: &Question, refusal: Refusal) {
    let n = question.n as usize;
    let i = question.codes[..refusal.place].iter().filter(|&&code| code == EQUATION || code == AT_MOST).count();
    let numbers = [&question.coefficients[6 * i..6 * i + n], &question.constants[i..i + 1]].concat();
    let j = beyond(&numbers)[0];
    let mut without = question.clone();
    *(if j < n { &mut without.coefficients[6 * i + j] } else { &mut without.constants[i] }) = 0;
    let then = match bytes_of(&without) {
        Ok(_) => "written".to_string(),
        Err(then) if then.place == refusal.place => format!("{} of the atom", then.number),
        Err(then) => then.number.to_string(),
    };
    meet_beyond(met, refusal.number, &numbers, &then);
}

/// Writing takes a held question exactly if it is what reading its bytes gives; the buffer changes at its front alone.
#[test]
fn write_answers() {
    let mut random = Random::new(3);
    let mut met = Met::default();
    for _ in 0..100_000 {
        let question = held(&mut random);
        let exact = bytes_of(&question).map_or(20, |bytes| bytes.len());
        let room = room(&mut random, exact);
        let buffer = cells8(&mut random, room);
        let written = reading::write(&question, &buffer);
        assert_eq!(written.buffer.len(), buffer.len());
        let mut plainly = buffer.clone();
        assert_eq!(plain::write(&question, &mut plainly), written.answer, "{question:?}");
        assert_eq!(plainly, written.buffer);
        match written.answer {
            Ok(length) => {
                assert_eq!(reading::read(&written.buffer[..length]), Ok(question));
                assert_eq!(written.buffer[length..], buffer[length..]);
                met.meet("written");
            }
            Err(refusal) => {
                assert_eq!(written.buffer, buffer);
                met.meet(refusal.number.to_string());
                if refusal.place == 64 {
                    met.meet(format!("{} at 64", refusal.number));
                }
                if refusal.number >= 12 {
                    meet_beyond_held(&mut met, &question, refusal);
                }
            }
        }
    }
    met.at_least(300, &["written", "2", "4", "5", "6", "8", "12", "13", "5 at 64", "6 at 64"]);
    met.at_least(50, &all_beyond(&["written", "2", "5", "6", "12", "13"]));
}

#[test]
fn judge_answers() {
    let mut random = Random::new(4);
    let mut met = Met::default();
    for _ in 0..100_000 {
        let bytes = if random.one_in(5) { damaged_bytes(&mut random) } else { question_bytes(&mut random) };
        let n = bytes.get(4).copied().unwrap_or(1).min(6);
        let values = values(&mut random, n);
        let judged = judge(&bytes, &values);
        assert_eq!(plain::judge(&bytes, &values), judged, "{bytes:x?} {values:?}");
        met.meet(name(judged, |yes| if yes { "yes" } else { "no" }));
    }
    met.at_least(100, &["yes", "no", "1", "2", "3", "4", "5", "6", "9", "12", "13"]);
}

#[test]
fn decide_alike() {
    let mut random = Random::new(5);
    let mut met = Met::default();
    for _ in 0..6_000 {
        let bytes = if random.one_in(5) { damaged_bytes(&mut random) } else { question_bytes(&mut random) };
        let m = reading::read(&bytes).map_or(2, |question| question.atoms());
        // The states and letters that the decision takes with rows enough, so that rooms can be just enough or one short.
        let most = 1_200;
        let whole = reading::decide(&bytes, &vec![0; most * m], &vec![0; most * 2], &[0; 256]);
        let (states, letters) = match whole.answer {
            Decision::Found { states, letters } => (states, letters),
            Decision::Never { states } | Decision::NoRoom { states } | Decision::WordShort { states, .. } => (states, 3),
            Decision::Refused(_) => (3, 3),
        };
        for _ in 0..2 {
            let rows = room(&mut random, states);
            let spare = room(&mut random, states).max(rows);
            let (key_rows, path_rows) = random.pick(&[(rows, rows), (rows, spare), (spare, rows)]);
            let key_cells = key_rows * m + random.below(m);
            let path_cells = path_rows * 2 + random.below(2);
            let letters = room(&mut random, letters);
            let keys = cells32(&mut random, key_cells);
            let path = cells16(&mut random, path_cells);
            let word = cells8(&mut random, letters);
            met.meet(decision_name(compare_decide(&bytes, keys, path, word).answer));
        }
    }
    met.at_least(30, &["found", "never", "1", "2", "3", "4", "5", "6", "7", "8", "12", "13"]);
}

#[test]
fn build_alike() {
    let mut random = Random::new(6);
    let mut met = Met::default();
    for _ in 0..2_500 {
        let bytes = if random.one_in(5) { damaged_bytes(&mut random) } else { question_bytes(&mut random) };
        let (n, m) = reading::read(&bytes).map_or((2, 2), |question| (question.n, question.atoms()));
        let width = 1 + (1 << n);
        let states = reachable(&bytes, 700);
        for _ in 0..2 {
            let rows = room(&mut random, states);
            let spare = room(&mut random, states).max(rows);
            let (key_rows, table_rows) = random.pick(&[(rows, rows), (rows, spare), (spare, rows)]);
            let key_cells = key_rows * m + random.below(m);
            let table_cells = table_rows * width + random.below(width);
            let keys = cells32(&mut random, key_cells);
            let table = cells16(&mut random, table_cells);
            met.meet(building_name(compare_build(&bytes, keys, table).answer));
        }
    }
    met.at_least(10, &["built", "1", "2", "3", "4", "5", "6", "7", "12", "13"]);
}

/// Around the row where the large index takes over, and past the last row that can be numbered.
#[test]
fn many_states() {
    let mut random = Random::new(7);
    let mut compared = 0;
    while compared < 60 {
        let (n, m) = random.pick(&[(1, 4), (2, 1), (2, 2), (3, 2), (2, 8), (3, 1)]);
        let bytes = bytes_of(&question_of(&mut random, n, m, Numbers::Mixed)).unwrap();
        if reachable(&bytes, 258) < 258 {
            continue;
        }
        compared += 1;
        for rows in [255, 256, 257, 258, 1_000, 5_000] {
            let keys = cells32(&mut random, rows * m);
            let path = cells16(&mut random, rows * 2);
            compare_decide(&bytes, keys, path, vec![5; 64]);
            let keys = cells32(&mut random, rows * m);
            let table = cells16(&mut random, rows * (1 + (1 << n)));
            compare_build(&bytes, keys, table);
        }
    }

    for (a, b, states) in [(216, 301, 65_534), (254, 256, 65_535), (255, 255, 65_536), (300, 300, 90_601)] {
        let bytes = never_accepting(a, b);
        for rows in [65_534, 65_535, 65_536, 70_000] {
            let lent = rows.min(65_535);
            let decided = compare_decide(&bytes, vec![5; rows * 3], vec![5; rows * 2], vec![5; 64]);
            let built = compare_build(&bytes, vec![5; rows * 3], vec![5; rows * 5]);
            if states <= lent {
                assert_eq!(decided.answer, Decision::Never { states });
                assert_eq!(built.answer, Building::Built { states });
            } else {
                assert_eq!(decided.answer, Decision::NoRoom { states: lent });
                assert_eq!(built.answer, Building::NoRoom { states: lent });
            }
        }
    }
}

/// Tuples of n values, each from 0 to `most`.
fn tuples(n: usize, most: u64) -> Vec<Vec<u64>> {
    let mut tuples = vec![Vec::new()];
    for _ in 0..n {
        tuples = tuples.iter().flat_map(|tuple| (0..=most).map(move |value| [&tuple[..], &[value]].concat())).collect();
    }
    tuples
}

/// Small values, tried one by one, against the verdicts: never has no small solution, and found is the first word that spells one.
#[test]
fn small_values() {
    let mut random = Random::new(8);
    let mut met = Met::default();
    let small: Vec<Vec<Vec<u64>>> = (1..=6).map(|n| tuples(n, [0, 200, 30, 9, 5, 3, 2][n])).collect();
    for _ in 0..4_000 {
        let n = 1 + random.below(6);
        let m = 1 + random.below(if n < 4 { 8 } else { 4 });
        let numbers = random.pick(&[Numbers::Small, Numbers::Small, Numbers::Small, Numbers::Mixed]);
        let bytes = bytes_of(&question_of(&mut random, n, m, numbers)).unwrap();
        let rows = 3_000;
        let (mut keys, mut path, mut word) = (vec![0; rows * m], vec![0; rows * 2], vec![0; 64]);
        let answer = plain::decide(&bytes, &mut keys, &mut path, &mut word);
        met.meet(decision_name(answer));
        match answer {
            Decision::Never { .. } => {
                for values in &small[n - 1] {
                    assert_eq!(judge(&bytes, values), Ok(false), "{bytes:x?} {values:?}");
                }
            }
            Decision::Found { letters, .. } => {
                let values = |word: &[u8]| -> Vec<u64> { (1..=n).map(|j| spell(n, j, word).unwrap()).collect() };
                assert_eq!(judge(&bytes, &values(&word[..letters])), Ok(true), "{bytes:x?}");
                // Every earlier word: the codes of a length count up in the words' order.
                let shortest = if n * letters > 14 { (14 / n).min(letters - 1) } else { letters };
                for length in 0..=shortest {
                    for code in 0..1usize << (n * length) {
                        let earlier: Vec<u8> = (0..length).map(|i| (code >> (n * (length - 1 - i)) & ((1 << n) - 1)) as u8).collect();
                        if length == letters && earlier[..] >= word[..letters] {
                            break;
                        }
                        assert_eq!(judge(&bytes, &values(&earlier)), Ok(false), "{bytes:x?} {earlier:?}");
                        met.meet("earlier words");
                    }
                }
            }
            _ => {}
        }
    }
    met.at_least(500, &["found", "never", "earlier words"]);
}

/// A built table, run on a word, says what the judge says of the values that the word spells.
#[test]
fn tables_judge() {
    let mut random = Random::new(9);
    let mut met = Met::default();
    for _ in 0..1_500 {
        let n = 1 + random.below(6);
        let m = 1 + random.below(3);
        let bytes = bytes_of(&question_of(&mut random, n, m, Numbers::Small)).unwrap();
        let rows = 2_000;
        let width = 1 + (1usize << n);
        let (mut keys, mut table) = (vec![0; rows * m], vec![0; rows * width]);
        let Building::Built { states } = plain::build(&bytes, &mut keys, &mut table) else { continue };
        let cells = &table[..states * width];
        for _ in 0..40 {
            let length = random.pick(&[0, 1, 2, 3, 4, 10, 40]);
            let word: Vec<u8> = (0..length).map(|_| random.below(1 << n) as u8).collect();
            let values: Vec<u64> = (1..=n).map(|j| spell(n, j, &word).unwrap()).collect();
            let accepted = run(n, cells, &word);
            assert_eq!(accepted, judge(&bytes, &values), "{bytes:x?} {word:?}");
            met.meet(if accepted == Ok(true) { "yes" } else { "no" });
        }
    }
    met.at_least(1_000, &["yes", "no"]);
}

#[test]
fn run_answers() {
    let mut random = Random::new(10);
    let mut met = Met::default();
    for _ in 0..50_000 {
        let n = 1 + random.below(6) as u8;
        let cells = if random.one_in(3) { damaged_table(&mut random, n) } else { table(&mut random, n) };
        let handed = if random.one_in(10) { random.pick(&[0, 1, 2, 6, 7, 8, 255]) } else { n as usize };
        let word = word(&mut random, n);
        let accepted = run(handed, &cells, &word);
        assert_eq!(plain::run(handed, &cells, &word), accepted, "{handed} {cells:?} {word:?}");
        met.meet(name(accepted, |yes| if yes { "yes" } else { "no" }));
    }
    met.at_least(500, &["yes", "no", "4", "10", "11"]);
    assert_eq!(run(1, &tall_table(65_535), &[0]), Ok(false));
    assert_eq!(run(1, &tall_table(65_536), &[0]), Err(Refusal { number: 11, place: 0 }));
}

#[test]
fn spell_answers() {
    let mut random = Random::new(12);
    let mut met = Met::default();
    for _ in 0..50_000 {
        let n = if random.one_in(8) { random.pick(&[0, 7, 8, 255]) } else { 1 + random.below(6) as u8 };
        let variable = if random.one_in(8) { random.pick(&[0, 7, 255, n.wrapping_add(1)]) } else { 1 + random.below(n.clamp(1, 6) as usize) as u8 };
        let word = word(&mut random, n);
        met.meet(name(spell(n as usize, variable as usize, &word), |_| "value"));
    }
    met.at_least(500, &["value", "4", "9", "10"]);
    assert_eq!(spell(1, 1, &[1; 64]), Ok(u64::MAX));
    assert_eq!(spell(2, 2, &[1, 2, 3]), Ok(6));
}
