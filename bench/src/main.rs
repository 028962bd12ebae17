//! Measures the proved calls and plain Rust side by side in one run, and prints tables in Markdown. The two take turns in each of several
//! rounds; each has its median and its least time on the processor, and its instructions where valgrind is installed. Then other solvers, where
//! they are installed, on the questions that are decided. `bench [ROUNDS]`, 15 rounds unless said.
//!
//! `bench repeat SIDE LINE REPEATS` does the work of one line for one side so often, and prints nothing: instructions are counted of that.

use pelohuaki_bench::generate::{never_accepting, Random};
use pelohuaki_bench::generate_text::{text_of, Style};
use pelohuaki_bench::reading::{Building, Decision, Question, Refusal};
use pelohuaki_bench::{clock, count, plain, plain_import, reading, smt, vectors};
use std::env;
use std::hint::black_box;

/// The calls that are measured. `Held` is the question as the calls hold it.
trait Calls {
    type Held: 'static;
    fn read(bytes: &[u8]) -> Option<Self::Held>;
    fn write(question: &Self::Held, buffer: &mut [u8]) -> usize;
    fn import(text: &[u8]) -> Option<Self::Held>;
    fn judge(bytes: &[u8], values: &[u64]) -> Result<bool, Refusal>;
    fn decide(bytes: &[u8], keys: &mut [i32], path: &mut [u16], word: &mut [u8]) -> Decision;
    fn build(bytes: &[u8], keys: &mut [i32], table: &mut [u16]) -> Building;
    fn run(n: usize, cells: &[u16], word: &[u8]) -> Result<bool, Refusal>;
}

struct Plain;

impl Calls for Plain {
    type Held = Question;
    fn read(bytes: &[u8]) -> Option<Question> {
        plain::read(bytes).ok()
    }
    fn write(question: &Question, buffer: &mut [u8]) -> usize {
        plain::write(question, buffer).unwrap_or(0)
    }
    fn import(text: &[u8]) -> Option<Question> {
        plain_import::import(text).ok()
    }
    fn judge(bytes: &[u8], values: &[u64]) -> Result<bool, Refusal> {
        plain::judge(bytes, values)
    }
    fn decide(bytes: &[u8], keys: &mut [i32], path: &mut [u16], word: &mut [u8]) -> Decision {
        plain::decide(bytes, keys, path, word)
    }
    fn build(bytes: &[u8], keys: &mut [i32], table: &mut [u16]) -> Building {
        plain::build(bytes, keys, table)
    }
    fn run(n: usize, cells: &[u16], word: &[u8]) -> Result<bool, Refusal> {
        plain::run(n, cells, word)
    }
}

#[cfg(feature = "proved")]
struct Proved;

#[cfg(feature = "proved")]
impl Calls for Proved {
    type Held = pelohuaki::Question;
    fn read(bytes: &[u8]) -> Option<pelohuaki::Question> {
        pelohuaki::read(bytes).ok()
    }
    fn write(question: &pelohuaki::Question, buffer: &mut [u8]) -> usize {
        pelohuaki::write(question, buffer).unwrap_or(0)
    }
    fn import(text: &[u8]) -> Option<pelohuaki::Question> {
        pelohuaki::import(text).ok().map(|imported| imported.question)
    }
    fn judge(bytes: &[u8], values: &[u64]) -> Result<bool, Refusal> {
        pelohuaki_bench::proved::judge(bytes, values)
    }
    fn decide(bytes: &[u8], keys: &mut [i32], path: &mut [u16], word: &mut [u8]) -> Decision {
        pelohuaki_bench::proved::decide(bytes, keys, path, word)
    }
    fn build(bytes: &[u8], keys: &mut [i32], table: &mut [u16]) -> Building {
        pelohuaki_bench::proved::build(bytes, keys, table)
    }
    fn run(n: usize, cells: &[u16], word: &[u8]) -> Result<bool, Refusal> {
        pelohuaki_bench::proved::run(n, cells, word)
    }
}

/// One round of some work. What the calls answer is folded into a number, which must be the same for both sides.
type Round<'a> = Box<dyn FnMut() -> usize + 'a>;

fn reading<C: Calls>(questions: &[Vec<u8>]) -> Round<'_> {
    Box::new(move || questions.iter().map(|question| black_box(C::read(black_box(question))).is_some() as usize).sum())
}

fn writing<C: Calls>(questions: &[Vec<u8>]) -> Round<'_> {
    let held: Vec<C::Held> = questions.iter().map(|question| C::read(question).expect("a question")).collect();
    let mut buffer = [0; 512];
    Box::new(move || held.iter().map(|held| C::write(black_box(held), black_box(&mut buffer))).sum())
}

fn importing<C: Calls>(texts: &[Vec<u8>]) -> Round<'_> {
    Box::new(move || texts.iter().map(|text| black_box(C::import(black_box(text))).is_some() as usize).sum())
}

/// With values up to the judge's limit.
fn judging<C: Calls>(questions: &[Vec<u8>]) -> Round<'_> {
    let mut random = Random::new(1);
    let mut value = |_| random.next() & Question::VALUE >> random.below(41);
    let values: Vec<Vec<u64>> = questions.iter().map(|question| (0..question[4]).map(&mut value).collect()).collect();
    Box::new(move || {
        let judged = questions.iter().zip(&values).map(|(question, values)| C::judge(black_box(question), black_box(values)));
        judged.map(|answer| answer.expect("as many values as variables") as usize).sum()
    })
}

/// What deciding is lent, with room for every question: keys, path and word.
fn areas() -> (Vec<i32>, Vec<u16>, Vec<u8>) {
    (vec![0; Question::STATES * Question::ATOMS], vec![0; Question::STATES * 2], vec![0; Question::STATES])
}

fn deciding<C: Calls>(questions: &[Vec<u8>]) -> Round<'_> {
    let (mut keys, mut path, mut word) = areas();
    let mut decide = move |question: &Vec<u8>| match C::decide(black_box(question), &mut keys, &mut path, &mut word) {
        Decision::Found { states, letters } => 2 * states + (letters << 20),
        Decision::Never { states } => 2 * states + 1,
        other => panic!("{other:?}"),
    };
    Box::new(move || questions.iter().map(&mut decide).sum())
}

/// Its answer is the transitions that were built.
fn building<C: Calls>(questions: &[Vec<u8>]) -> Round<'_> {
    let (mut keys, mut table) = (vec![0; Question::STATES * Question::ATOMS], vec![0; Question::STATES * (1 + (1 << Question::VARIABLES))]);
    let mut build = move |question: &Vec<u8>| match C::build(black_box(question), &mut keys, &mut table) {
        Building::Built { states } => states * letters(question),
        other => panic!("{other:?}"),
    };
    Box::new(move || questions.iter().map(&mut build).sum())
}

/// A long word by the question's table, which has so many states. Each call checks the whole table first.
fn running<C: Calls>(question: &[u8], states: usize) -> Round<'_> {
    let width = 1 + letters(question);
    let (mut keys, mut cells) = (vec![0; states * Question::ATOMS], vec![0; states * width]);
    assert_eq!(plain::build(question, &mut keys, &mut cells), Building::Built { states });
    let mut random = Random::new(2);
    let word: Vec<u8> = (0..LONG).map(|_| random.below(letters(question)) as u8).collect();
    Box::new(move || C::run(question[4] as usize, black_box(&cells), black_box(&word)).expect("a table and a word") as usize)
}

/// How many letters a question has: its fifth byte is n.
fn letters(question: &[u8]) -> usize {
    1 << question[4]
}

/// How many letters a long word has.
const LONG: usize = 1_000_000;

/// What a line of the table measures.
enum Work {
    Read(Vec<Vec<u8>>),
    Written(Vec<Vec<u8>>),
    /// Texts.
    Imported(Vec<Vec<u8>>),
    Judged(Vec<Vec<u8>>),
    Decided(Vec<Vec<u8>>),
    Built(Vec<Vec<u8>>),
    /// A question whose table has so many states.
    Run(Vec<u8>, usize),
}

impl Work {
    fn round<C: Calls>(&self) -> Round<'_> {
        match self {
            Work::Read(questions) => reading::<C>(questions),
            Work::Written(questions) => writing::<C>(questions),
            Work::Imported(texts) => importing::<C>(texts),
            Work::Judged(questions) => judging::<C>(questions),
            Work::Decided(questions) => deciding::<C>(questions),
            Work::Built(questions) => building::<C>(questions),
            Work::Run(question, states) => running::<C>(question, *states),
        }
    }

    /// A round of the side that has the name.
    fn side(&self, name: &str) -> Round<'_> {
        match name {
            "plain" => self.round::<Plain>(),
            #[cfg(feature = "proved")]
            "proved" => self.round::<Proved>(),
            other => panic!("there is no side {other}"),
        }
    }

    /// How many units a round has, and what they are. The transitions do not depend on the solver.
    fn units(&self) -> (usize, &'static str) {
        match self {
            Work::Read(questions) | Work::Written(questions) | Work::Judged(questions) => (questions.len(), "questions"),
            Work::Imported(texts) => (texts.iter().map(Vec::len).sum(), "bytes"),
            Work::Decided(questions) => {
                let (mut keys, mut path, mut word) = areas();
                let mut tried = |question: &Vec<u8>| {
                    let decision = plain::decide(question, &mut keys, &mut path, &mut word);
                    count::tried(decision, letters(question), &path)
                };
                (questions.iter().map(&mut tried).sum(), "transitions")
            }
            Work::Built(questions) => (building::<Plain>(questions)(), "transitions"),
            Work::Run(..) => (LONG, "letters"),
        }
    }
}

/// The sides that are there, the plain one first.
const SIDES: &[&str] = if cfg!(feature = "proved") { &["plain", "proved"] } else { &["plain"] };

/// The lines of the table. Other solvers are asked the questions of the first two.
fn lines() -> Vec<(String, Work)> {
    let blocks: Vec<Vec<u8>> = vectors::blocks().into_iter().map(<[u8]>::to_vec).collect();
    let coconuts = vectors::COCONUTS.to_vec();
    let mut five = Question::empty();
    (five.n, five.codes[0], five.constants[0]) = (2, reading::EQUATION, 3);
    five.coefficients[..2].copy_from_slice(&[5, 1]);
    let five = reading::bytes_of(&five).expect("a question");

    let count = blocks.len();
    let mut lines = vec![
        (format!("{count} list blocks decided"), Work::Decided(blocks.clone())),
        ("coconuts decided, 49 states".into(), Work::Decided(vec![coconuts.clone(); 100])),
        (format!("{count} list blocks built"), Work::Built(blocks.clone())),
        ("coconuts built, 25,090 states".into(), Work::Built(vec![coconuts.clone()])),
    ];
    for (a, b) in [(24, 39), (99, 99), (254, 256)] {
        let family = format!("a x <= 0 and b y <= 0 and 0x <= -1, {} states", grouped((a as usize + 1) * (b as usize + 1)));
        lines.push((format!("{family}, decided"), Work::Decided(vec![never_accepting(a, b)])));
        lines.push((format!("{family}, built"), Work::Built(vec![never_accepting(a, b)])));
    }
    lines.push((format!("{count} list blocks read"), Work::Read(blocks.clone())));
    lines.push((format!("{count} list blocks written"), Work::Written(blocks.clone())));
    let mut random = Random::new(3);
    let text = |question: &Vec<u8>| text_of(&mut random, &reading::read(question).expect("a question"), Style::Tame).bytes;
    lines.push((format!("{count} list blocks imported"), Work::Imported(blocks.iter().map(text).collect())));
    lines.push(("a long text imported".into(), Work::Imported(vec![long_text()])));
    lines.push((format!("{count} list blocks judged, their reading included"), Work::Judged(blocks)));
    for (question, states) in [(five, 9), (coconuts, 25_090), (never_accepting(254, 256), Question::STATES)] {
        let work = format!("{} letters run, {} rows of {} cells", grouped(LONG), grouped(states), 1 + letters(&question));
        lines.push((work, Work::Run(question, states)));
    }
    lines
}

/// A text of a megabyte that is accepted: one inequality whose sides have many parts.
fn long_text() -> Vec<u8> {
    let parts = "(* 2 x) y 1 ".repeat(40_000);
    let names = "(declare-const x Int)(declare-const y Int)(assert (>= x 0))(assert (>= y 0))";
    format!("(set-logic QF_LIA){names}(assert (<= (+ {parts}) (+ {parts} y)))(check-sat)").into_bytes()
}

/// A number with its thousands apart.
fn grouped(number: usize) -> String {
    if number < 1_000 {
        number.to_string()
    } else {
        format!("{},{:03}", grouped(number / 1_000), number % 1_000)
    }
}

/// The median and the least of the rounds, in nanoseconds.
#[derive(Clone, Copy)]
struct Time {
    median: f64,
    least: f64,
}

impl Time {
    fn of(mut times: Vec<f64>) -> Time {
        times.sort_by(f64::total_cmp);
        Time { median: times[times.len() / 2], least: times[0] }
    }
}

/// The time of each side, which take turns, after a first turn that shows that they answer alike. A turn of short work is made of so many
/// repeats that it takes some milliseconds.
fn timed(rounds: usize, work: &Work) -> Vec<Time> {
    let mut sides: Vec<Round> = SIDES.iter().map(|name| work.side(name)).collect();
    let answers: Vec<usize> = sides.iter_mut().map(|side| side()).collect();
    assert!(answers.iter().all(|&answer| answer == answers[0]), "{answers:?}");
    let start = clock::thread();
    black_box(sides[0]());
    let repeats = 5_000_000 / (clock::thread() - start).as_nanos().max(1) + 1;
    let mut times = vec![Vec::new(); sides.len()];
    for _ in 0..rounds {
        for (side, times) in sides.iter_mut().zip(&mut times) {
            let start = clock::thread();
            for _ in 0..repeats {
                black_box(side());
            }
            times.push((clock::thread() - start).as_nanos() as f64 / repeats as f64);
        }
    }
    times.into_iter().map(Time::of).collect()
}

/// The instructions of a round of each side: those of two repeats less those of one, so that starting and making ready do not count.
fn counted(line: usize) -> Option<Vec<f64>> {
    let line = line.to_string();
    let count = |name, repeats| count::instructions(&["repeat", name, &line, repeats]);
    SIDES.iter().map(|name| Some((count(name, "2")? - count(name, "1")?) as f64)).collect()
}

/// The work of a line for one side, so many times.
fn repeat(name: &str, line: usize, repeats: usize) {
    let (_, work) = &lines()[line];
    let mut round = work.side(name);
    for _ in 0..repeats {
        black_box(round());
    }
}

/// Three cells: proved, plain, and the one by the other.
fn cells<T>(sides: &[T], cell: impl Fn(&T) -> String, ratio: impl Fn(&T, &T) -> String) -> String {
    match sides {
        [plain, proved] => format!(" {} | {} | {} |", cell(proved), cell(plain), ratio(proved, plain)),
        [plain] => format!(" - | {} | - |", cell(plain)),
        _ => " - | - | - |".into(),
    }
}

/// Measures every line, prints the table, and hands over the times.
fn measured(rounds: usize, lines: &[(String, Work)]) -> Vec<Vec<Time>> {
    println!("Nanoseconds a unit on the processor, the median (the least) of {rounds} rounds.");
    let counting = count::valgrind();
    match &counting {
        Some(version) => println!("Instructions a unit, by callgrind of valgrind {version}."),
        None => println!("Instructions are not counted: valgrind is not installed."),
    }
    let more = |columns| if counting.is_some() { columns } else { "" };
    println!("\n| work | units | proved ns | plain ns | proved / plain |{}", more(" proved instructions | plain instructions | proved / plain |"));
    println!("|---|---|---|---|---|{}", more("---|---|---|"));
    let mut all = Vec::new();
    for (number, (name, work)) in lines.iter().enumerate() {
        let (units, unit) = work.units();
        print!("| {name} | {} {unit} |", grouped(units));
        let units = units as f64;
        let pair = |median: f64, least: f64| format!("{median:.2} ({least:.2})");
        let times = timed(rounds, work);
        let time = |time: &Time| pair(time.median / units, time.least / units);
        print!("{}", cells(&times, time, |proved, plain| pair(proved.median / plain.median, proved.least / plain.least)));
        if counting.is_some() {
            let counts = counted(number).unwrap_or_default();
            print!("{}", cells(&counts, |count| format!("{:.1}", count / units), |proved, plain| format!("{:.2}", proved / plain)));
        }
        println!();
        all.push(times);
    }
    all
}

/// The solvers that are installed, on questions that were decided: their verdicts, and the time a question beside the proved and plain time.
fn other_solvers(rounds: usize, work: &str, questions: &[Vec<u8>], ours: &[Time]) {
    let held: Vec<Question> = questions.iter().map(|question| reading::read(question).expect("a question")).collect();
    let batch = smt::batch(&held);
    let (mut keys, mut path, mut word) = areas();
    let mut verdict = |question: &Vec<u8>| match plain::decide(question, &mut keys, &mut path, &mut word) {
        Decision::Found { .. } => "sat",
        _ => "unsat",
    };
    let expected: Vec<&str> = questions.iter().map(&mut verdict).collect();
    let thousands = questions.len() as f64 * 1_000.0;
    let per_question = |time: Time| format!("{:.2} ({:.2})", time.median / thousands, time.least / thousands);
    for (name, time) in SIDES.iter().zip(ours) {
        println!("| {work} | {name} | {} | |", per_question(*time));
    }
    for solver in smt::SOLVERS {
        let Some(version) = solver.version() else {
            println!("| {work} | {} is not installed | | |", solver.name);
            continue;
        };
        let mut times = Vec::new();
        for _ in 0..rounds.min(11) {
            let (answers, time) = solver.answers(&batch, questions.len()).expect("an answer to each question");
            assert_eq!(answers, expected, "{}", solver.name);
            times.push(time.as_nanos() as f64);
        }
        let (time, ours) = (Time::of(times), ours[ours.len() - 1]);
        let ratio = format!("{:.1} ({:.1})", time.median / ours.median, time.least / ours.least);
        println!("| {work} | {} {version} | {} | {ratio} |", solver.name, per_question(time));
    }
}

fn measure(rounds: usize) {
    let lines = lines();
    let times = measured(rounds, &lines);
    println!("\nMicroseconds a question. Every verdict is as ours. A solver's process stands ready before its time starts.\n");
    println!("| work | solver | time | times {} |\n|---|---|---|---|", SIDES[SIDES.len() - 1]);
    for ((name, work), times) in lines.iter().zip(&times).take(2) {
        if let Work::Decided(questions) = work {
            other_solvers(rounds, name, questions, times);
        }
    }
}

fn main() {
    let arguments: Vec<String> = env::args().skip(1).collect();
    let number = |text: &str| text.parse::<usize>().unwrap_or_else(|_| panic!("{text} is no number"));
    match arguments.iter().map(String::as_str).collect::<Vec<&str>>()[..] {
        [] => measure(15),
        [rounds] => measure(number(rounds).max(1)),
        ["repeat", name, line, repeats] => repeat(name, number(line), number(repeats)),
        _ => panic!("bench [ROUNDS], or bench repeat SIDE LINE REPEATS"),
    }
}
