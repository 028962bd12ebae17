//! Questions as SMT-LIB 2 text (QF_LIA), and other solvers that take it from their standard input, where they are installed.

#![forbid(unsafe_code)]

use crate::clock;
use crate::reading::{meaning, Formula, Meaning, Question};
use std::io::{self, BufRead, BufReader, Write};
use std::process::{Command, Stdio};
use std::time::Duration;

fn number(number: i64) -> String {
    if number < 0 {
        format!("(- {})", -number)
    } else {
        number.to_string()
    }
}

fn term(meaning: &Meaning, formula: &Formula) -> String {
    match formula {
        Formula::Atom(i) => {
            let atom = &meaning.atoms[*i];
            let used = atom.coefficients.iter().enumerate().filter(|(_, &a)| a != 0);
            let products: Vec<String> = used.map(|(j, &a)| format!("(* {} x{})", number(a), j + 1)).collect();
            let sum = match &products[..] {
                [] => "0".into(),
                [product] => product.clone(),
                products => format!("(+ {})", products.join(" ")),
            };
            format!("({} {sum} {})", if atom.equation { "=" } else { "<=" }, number(atom.constant))
        }
        Formula::Not(p) => format!("(not {})", term(meaning, p)),
        Formula::And(p, q) => format!("(and {} {})", term(meaning, p), term(meaning, q)),
        Formula::Or(p, q) => format!("(or {} {})", term(meaning, p), term(meaning, q)),
    }
}

/// A question's variables, that they are naturals, and its formula.
fn asserted(question: &Question) -> String {
    let meaning = meaning(question);
    let mut text = String::new();
    for j in 1..=meaning.n {
        text += &format!("(declare-fun x{j} () Int)(assert (>= x{j} 0))");
    }
    text + &format!("(assert {})", term(&meaning, &meaning.formula))
}

/// Questions one after another, each forgotten before the next.
pub fn batch(questions: &[Question]) -> String {
    questions.iter().map(|question| format!("(push 1){}(check-sat)(pop 1)\n", asserted(question))).collect()
}

pub struct Solver {
    pub name: &'static str,
    options: &'static [&'static str],
}

pub const SOLVERS: [Solver; 2] =
    [Solver { name: "z3", options: &["-smt2", "-in"] }, Solver { name: "cvc5", options: &["--lang=smt2", "--incremental"] }];

impl Solver {
    /// The solver's version, if it is installed.
    pub fn version(&self) -> Option<String> {
        let output = Command::new(self.name).arg("--version").output().ok()?;
        let text = String::from_utf8_lossy(&output.stdout).into_owned();
        text.split_whitespace().skip_while(|&part| part != "version").nth(1).map(String::from)
    }

    /// The answers to a batch of so many questions, by a process of its own, and that process's time from when it stood ready.
    pub fn answers(&self, batch: &str, questions: usize) -> io::Result<(Vec<String>, Duration)> {
        let mut process = Command::new(self.name).args(self.options).stdin(Stdio::piped()).stdout(Stdio::piped()).spawn()?;
        let mut input = process.stdin.take().expect("it is piped");
        let mut lines = BufReader::new(process.stdout.take().expect("it is piped")).lines();
        let mut line = move || lines.next().unwrap_or_else(|| Err(io::ErrorKind::UnexpectedEof.into()));
        input.write_all(b"(set-logic QF_LIA)\n(echo \"ready\")\n")?;
        input.flush()?;
        line()?;
        let start = clock::process(process.id());
        input.write_all(batch.as_bytes())?;
        input.flush()?;
        let answers = (0..questions).map(|_| line()).collect::<io::Result<Vec<String>>>()?;
        let time = clock::process(process.id()) - start;
        drop(input);
        process.wait()?;
        Ok((answers, time))
    }
}
