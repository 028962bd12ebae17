//! Every line of the outside vectors, put to the reading, to the plain solver and, behind the feature `proved`, to the proved calls and the
//! compiled asking program: the answer, and every cell that is lent.

use pelohuaki_bench::met::Met;
use pelohuaki_bench::reading::*;
use pelohuaki_bench::vectors::*;
use pelohuaki_bench::{import, plain, plain_import, reading};

type Read = fn(&[u8]) -> Result<Question, Refusal>;
type Write = fn(&Question, &mut [u8]) -> Result<usize, Refusal>;
type Step = fn(&[u8], usize) -> Result<Record<'_>, Refusal>;
type Judge = fn(&[u8], &[u64]) -> Result<bool, Refusal>;
type Decide = fn(&[u8], &mut [i32], &mut [u16], &mut [u8]) -> Decision;
type Build = fn(&[u8], &mut [i32], &mut [u16]) -> Building;
type Spell = fn(usize, usize, &[u8]) -> Result<u64, Refusal>;
type Ask = fn(&[u8]) -> String;
type Import = fn(&[u8]) -> Result<Question, Refusal>;

/// Whom lines are put to: its calls, of which it may lack some.
struct Side {
    name: &'static str,
    read: Read,
    write: Write,
    step: Option<Step>,
    judge: Judge,
    decide: Decide,
    build: Build,
    spell: Option<Spell>,
    ask: Option<Ask>,
    import: Option<Import>,
}

const READING: Side = Side {
    name: "the reading",
    read: reading::read,
    write: |question, buffer| {
        let written = reading::write(question, buffer);
        buffer.copy_from_slice(&written.buffer);
        written.answer
    },
    step: Some(reading::record),
    judge: reading::judge,
    decide: |bytes, keys, path, word| {
        let decided = reading::decide(bytes, keys, path, word);
        keys.copy_from_slice(&decided.keys);
        path.copy_from_slice(&decided.path);
        word.copy_from_slice(&decided.word);
        decided.answer
    },
    build: |bytes, keys, table| {
        let built = reading::build(bytes, keys, table);
        keys.copy_from_slice(&built.keys);
        table.copy_from_slice(&built.table);
        built.answer
    },
    spell: Some(reading::spell),
    ask: Some(reading::ask),
    import: Some(import::imported),
};

const PLAIN: Side = Side {
    name: "the plain solver",
    read: plain::read,
    write: plain::write,
    step: None,
    judge: plain::judge,
    decide: plain::decide,
    build: plain::build,
    spell: None,
    ask: None,
    import: Some(plain_import::import),
};

#[cfg(feature = "proved")]
const PROVED: Side = {
    use pelohuaki_bench::exported;
    Side {
        name: "the proved calls",
        read: exported::read,
        write: exported::write,
        step: Some(exported::record),
        judge: exported::judge,
        decide: exported::decide,
        build: exported::build,
        spell: Some(exported::spell),
        ask: Some(exported::ask),
        import: Some(|text| exported::import(text).map(|(question, _)| question)),
    }
};

const SIDES: &[Side] = &[
    READING,
    PLAIN,
    #[cfg(feature = "proved")]
    PROVED,
];

/// Says where it was, if something fails while it lives.
struct At<'l>(&'l Side, &'l Line<'l>);

impl Drop for At<'_> {
    fn drop(&mut self) {
        if std::thread::panicking() {
            eprintln!("{}: {}", self.0.name, self.1.text);
        }
    }
}

/// Puts every line to every side that has the call. The lines of each call are as many as `counts` says.
fn put(text: &str, counts: &str) {
    let mut met = Met::default();
    for line in text.lines().map(Line::new) {
        for side in SIDES {
            let _at = At(side, &line);
            put_to(side, &line);
        }
        met.meet(line.call);
    }
    assert_eq!(met.to_string(), counts);
}

fn put_to(side: &Side, line: &Line) {
    match line.call {
        "read" => read(line, side.read),
        "write" => write(line, side.write),
        "record" => side.step.into_iter().for_each(|call| step(line, call)),
        "judge" => judge(line, side.judge),
        "decide" => decide(line, side.decide),
        "build" => build(line, side.build),
        "spell" => side.spell.into_iter().for_each(|call| spell(line, call)),
        "ask" => side.ask.into_iter().for_each(|call| ask(line, call)),
        "import" => side.import.into_iter().for_each(|call| import(line, call)),
        other => panic!("no such call: {other}"),
    }
}

#[test]
fn base() {
    let lines: Vec<String> = BASE.lines().map(completed).collect();
    put(&lines.join("\n"), "build: 100, decide: 100, judge: 100, read: 86, spell: 100, write: 96");
}

#[test]
fn e1() {
    put(E1, "ask: 20, build: 20, decide: 30, judge: 30, read: 120, record: 20, write: 80");
}

#[test]
fn e2() {
    let lines: Vec<String> = E2.lines().map(completed).collect();
    put(&lines.join("\n"), "import: 500");
}

// One call each

/// What every cell that is lent holds before the call.
const KEY: i32 = 77;
const PATH: u16 = 7_777;
const TABLE: u16 = 7_777;
const LETTER: u8 = 77;
const BYTE: u8 = 77;

fn refused(refusal: Refusal) -> String {
    format!("refused {} {}", refusal.number, refusal.place)
}

fn read(line: &Line, call: Read) {
    let [question] = line.arguments();
    let said = match call(&bytes(question)) {
        Ok(held) => format!("accepted {} {} {} {}", held.n, listed(&held.codes), listed(&held.coefficients), listed(&held.constants)),
        Err(refusal) => refused(refusal),
    };
    assert_eq!(said, line.answer());
}

fn write(line: &Line, call: Write) {
    let [n, codes, coefficients, constants, room] = line.arguments();
    let question = Question {
        n: n.parse().unwrap(),
        codes: list(codes).try_into().unwrap(),
        coefficients: list(coefficients).try_into().unwrap(),
        constants: list(constants).try_into().unwrap(),
    };
    let mut buffer = vec![BYTE; number(room)];
    let answer = call(&question, &mut buffer);
    let (written, rest) = buffer.split_at(answer.unwrap_or(0));
    let said = match answer {
        Ok(_) => format!("written {}", hex(written)),
        Err(refusal) => refused(refusal),
    };
    assert_eq!(said, line.answer());
    holds(rest, "-", BYTE);
}

fn step(line: &Line, call: Step) {
    let [question, at] = line.arguments();
    let said = match call(&bytes(question), number(at)) {
        Ok(record) => format!("record {} {} {}", record.kind, hex(record.body), record.next),
        Err(refusal) => refused(refusal),
    };
    assert_eq!(said, line.answer());
}

fn judge(line: &Line, call: Judge) {
    let [question, values] = line.arguments();
    let said = match call(&bytes(question), &list(values)) {
        Ok(true) => "yes".to_string(),
        Ok(false) => "no".to_string(),
        Err(refusal) => refused(refusal),
    };
    assert_eq!(said, line.answer());
}

fn decide(line: &Line, call: Decide) {
    let [question, key_cells, path_cells, letters] = line.arguments();
    let question = bytes(question);
    let (mut keys, mut path, mut word) = (vec![KEY; number(key_cells)], vec![PATH; number(path_cells)], vec![LETTER; number(letters)]);
    let decision = call(&question, &mut keys, &mut path, &mut word);
    let (answer, [keys_list, path_list]) = line.outcome(["keys", "path"]);
    holds(&keys, keys_list, KEY);
    holds(&path, path_list, PATH);
    let (written, rest) = word.split_at(if let Decision::Found { letters, .. } = decision { letters } else { 0 });
    let said = match decision {
        Decision::Found { states, .. } => format!("found {states} {}", listed(written)),
        Decision::Never { states } => format!("never {states}"),
        Decision::NoRoom { states } => format!("no-room {states}"),
        Decision::WordShort { states, letters } => {
            // The line says no letters: they are those of the word, given room for it.
            assert_eq!(call(&question, &mut keys, &mut path, &mut vec![LETTER; letters]), Decision::Found { states, letters });
            format!("short {states}")
        }
        Decision::Refused(refusal) => refused(refusal),
    };
    assert_eq!(said, answer);
    holds(rest, "-", LETTER);
}

fn build(line: &Line, call: Build) {
    let [question, key_cells, table_cells] = line.arguments();
    let (mut keys, mut table) = (vec![KEY; number(key_cells)], vec![TABLE; number(table_cells)]);
    let said = match call(&bytes(question), &mut keys, &mut table) {
        Building::Built { states } => format!("built {states}"),
        Building::NoRoom { states } => format!("no-room {states}"),
        Building::Refused(refusal) => refused(refusal),
    };
    let (answer, [keys_list, table_list]) = line.outcome(["keys", "table"]);
    assert_eq!(said, answer);
    holds(&keys, keys_list, KEY);
    holds(&table, table_list, TABLE);
}

fn spell(line: &Line, call: Spell) {
    let [n, variable, word] = line.arguments();
    let said = match call(number(n), number(variable), &list(word)) {
        Ok(value) => format!("value {value}"),
        Err(refusal) => refused(refusal),
    };
    assert_eq!(said, line.answer());
}

fn ask(line: &Line, call: Ask) {
    let [input] = line.arguments();
    assert_eq!(call(&bytes(input)), line.answer().replace('|', "\n") + "\n");
}

fn import(line: &Line, call: Import) {
    let [text] = line.arguments();
    let said = match call(&bytes(text)) {
        Ok(held) => format!("held {} {} {} {}", held.n, listed(&held.codes), listed(&held.coefficients), listed(&held.constants)),
        Err(refusal) => refused(refusal),
    };
    assert_eq!(said, line.answer());
}

/// A line of base.txt or e2.txt in the form of the other files. That of base.txt says rows where these say cells, no place with a refusal of judging or spelling (it is 0), and
/// not what deciding leaves in the key and path areas, nor building in the key area: for that the reading is asked.
fn completed(line: &str) -> String {
    let fields: Vec<&str> = line.split_whitespace().collect();
    match fields.as_slice() {
        ["read", question, outcome @ ..] => format!("read {question} = {}", outcome.join(" ")),
        ["write", n, codes, coefficients, constants, room, outcome @ ..] => {
            format!("write {n} {codes} {coefficients} {constants} {room} = {}", outcome.join(" "))
        }
        ["judge", question, values, "refused", "9"] => format!("judge {question} {values} = refused 9 0"),
        ["judge", question, values, answer] => format!("judge {question} {values} = {answer}"),
        ["decide", question, rows, letters, outcome @ ..] => {
            let held = reading::read(&bytes(question)).unwrap();
            let (keys, path) = (vec![KEY; number(rows) * held.atoms()], vec![PATH; number(rows) * 2]);
            let decided = reading::decide(&bytes(question), &keys, &path, &vec![LETTER; number(letters)]);
            let asked = format!("decide {question} {} {} {letters}", keys.len(), path.len());
            let answer = outcome.join(" ").replace("refused 8", "short");
            format!("{asked} = {answer} keys {} path {}", listed(&decided.keys), listed(&decided.path))
        }
        ["build", question, rows, verdict, states, cells @ ..] => {
            let held = reading::read(&bytes(question)).unwrap();
            let (keys, table) = (vec![KEY; number(rows) * held.atoms()], vec![TABLE; number(rows) * (1 + (1 << held.n))]);
            let built = reading::build(&bytes(question), &keys, &table);
            let asked = format!("build {question} {} {}", keys.len(), table.len());
            let cells: Vec<u16> = cells.iter().flat_map(|cells| list(cells)).collect();
            format!("{asked} = {verdict} {states} keys {} table {}", listed(&built.keys), listed(&cells))
        }
        ["spell", n, variable, word, "refused", number] => format!("spell {n} {variable} {word} = refused {number} 0"),
        ["spell", n, variable, word, "value", value] => format!("spell {n} {variable} {word} = value {value}"),
        ["import", text, outcome @ ..] => format!("import {text} = {}", outcome.join(" ")),
        _ => panic!("no line of base.txt or e2.txt: {line}"),
    }
}

/// The list-block questions with every row that there can be.
#[test]
fn blocks_at_65_535() {
    let questions = blocks();
    let lines: Vec<&str> = BLOCK_LINES.lines().collect();
    assert_eq!(questions.len(), lines.len());
    let mut keys = vec![0; 8 * 65_535];
    let mut path = vec![0; 2 * 65_535];
    let mut word = vec![0; 1_024];
    for (i, (question, line)) in questions.iter().zip(lines).enumerate() {
        let fields: Vec<&str> = line.split_whitespace().collect();
        let states = number(fields[1]);
        let decision = plain::decide(question, &mut keys, &mut path, &mut word);
        match fields[0] {
            "found" => {
                let letters: Vec<u8> = list(fields[2]);
                assert_eq!(decision, Decision::Found { states, letters: letters.len() }, "question {i}");
                assert_eq!(word[..letters.len()], letters, "question {i}");
            }
            "never" => assert_eq!(decision, Decision::Never { states }, "question {i}"),
            "no-room" => assert_eq!(decision, Decision::NoRoom { states }, "question {i}"),
            other => panic!("{other}"),
        }
        // The reading with rows to spare, every cell.
        let rows = states + 3;
        let m = reading::read(question).unwrap().atoms();
        let decided = reading::decide(question, &vec![5; rows * m], &vec![5; rows * 2], &[5; 64]);
        let (mut keys, mut path, mut word) = (vec![5; rows * m], vec![5; rows * 2], vec![5; 64]);
        let answer = plain::decide(question, &mut keys, &mut path, &mut word);
        assert_eq!(Decided { answer, keys, path, word }, decided, "question {i}");
        assert_eq!(decided.answer, decision, "question {i}");
    }
}

/// The five equations of the coconuts: found by letter 63 with 49 states, and built whole with 25,090.
#[test]
fn coconuts() {
    let rows = 25_090;
    let (keys, path, word) = (vec![5; rows * 5], vec![5; rows * 2], vec![5; 64]);
    let decided = reading::decide(COCONUTS, &keys, &path, &word);
    assert_eq!(decided.answer, Decision::Found { states: 49, letters: 1 });
    assert_eq!(decided.word[..2], [63, 5]);
    let (mut keys, mut path, mut word) = (keys, path, word);
    let answer = plain::decide(COCONUTS, &mut keys, &mut path, &mut word);
    assert_eq!(Decided { answer, keys, path, word }, decided);

    for rows in [rows - 1, rows, rows + 1] {
        let (keys, table) = (vec![5; rows * 5], vec![5; rows * 65]);
        let built = reading::build(COCONUTS, &keys, &table);
        let expected = if rows < 25_090 { Building::NoRoom { states: rows } } else { Building::Built { states: 25_090 } };
        assert_eq!(built.answer, expected);
        let (mut keys, mut table) = (keys, table);
        let answer = plain::build(COCONUTS, &mut keys, &mut table);
        assert!(Built { answer, keys, table } == built, "{rows} rows");
    }
}
