//! The proved calls as they are exported, and the asking program, with the inputs and answers of those in `reading`. All that a call tells is
//! checked, and that it tells no more. Built only with `--features proved`.

#![forbid(unsafe_code)]

use crate::reading::{Building, Decision, Question, Record, Refusal};
use pelohuaki::lent;
use std::io::Write;
use std::ops::Range;
use std::process::{Command, Stdio};
use std::sync::Mutex;

const MARK: u64 = 99;

/// The number that a call answers, and its cells of `told`: the place, and then so many values.
fn told<const VALUES: usize>(call: impl FnOnce(&mut [u64]) -> u64) -> (u64, usize, [usize; VALUES]) {
    let mut told = vec![MARK; VALUES + 2];
    let number = call(&mut told);
    assert_eq!(told.pop(), Some(MARK), "a cell past the values");
    let place = told.remove(0) as usize;
    (number, place, std::array::from_fn(|i| told[i] as usize))
}

/// The values that a call answers, which are 0 where it is refused.
fn answer<const VALUES: usize>(call: impl FnOnce(&mut [u64]) -> u64) -> Result<[usize; VALUES], Refusal> {
    let (number, place, values) = told(call);
    if number == 0 {
        assert_eq!(place, 0);
        return Ok(values);
    }
    assert_eq!(values, [0; VALUES]);
    Err(refusal(number, place))
}

fn refusal(number: u64, place: usize) -> Refusal {
    Refusal { number: number.try_into().expect("a refusal's number"), place }
}

pub fn record(bytes: &[u8], at: usize) -> Result<Record<'_>, Refusal> {
    let [kind, start, length, next] = answer(|told| lent::record_at(bytes, at, told))?;
    assert_eq!(start, at + 4);
    Ok(Record { kind: kind as u16, body: &bytes[start..start + length], next })
}

/// Each part is lent with a cell past its own, and all cells are unchanged where the question is refused.
pub fn read(bytes: &[u8]) -> Result<Question, Refusal> {
    let before = ([77; 65], [77; 49], [77; 9]);
    let mut after = before;
    let read = answer(|told| lent::read(bytes, &mut after.0, &mut after.1, &mut after.2, told));
    assert!(read.is_ok() || after == before, "a refused question's parts");
    let ([codes @ .., 77], [coefficients @ .., 77], [constants @ .., 77]) = after else { panic!("cells past the parts") };
    read.map(|[n]| Question { n: n as u8, codes, coefficients, constants })
}

/// The same of a text, and where each variable's name stands in it. Behind the last name 0 is told.
pub fn import(text: &[u8]) -> Result<(Question, Vec<Range<usize>>), Refusal> {
    let before = ([77; 65], [77; 49], [77; 9]);
    let mut after = before;
    let import = answer(|told| lent::import(text, &mut after.0, &mut after.1, &mut after.2, told));
    assert!(import.is_ok() || after == before, "a refused text's parts");
    let ([codes @ .., 77], [coefficients @ .., 77], [constants @ .., 77]) = after else { panic!("cells past the parts") };
    let [n, bounds @ ..]: [usize; 13] = import?;
    let (bounds, rest) = bounds.split_at(2 * n);
    assert!(rest.iter().all(|&bound| bound == 0), "bounds past the names");
    let names = bounds.chunks(2).map(|bounds| bounds[0]..bounds[1]).collect();
    Ok((Question { n: n as u8, codes, coefficients, constants }, names))
}

pub fn write(question: &Question, buffer: &mut [u8]) -> Result<usize, Refusal> {
    let Question { n, codes, coefficients, constants } = question;
    let [written] = answer(|told| lent::write(*n, codes, coefficients, constants, buffer, told))?;
    Ok(written)
}

pub fn judge(bytes: &[u8], values: &[u64]) -> Result<bool, Refusal> {
    let [yes] = answer(|told| lent::judge(bytes, values, told))?;
    assert!(yes < 2);
    Ok(yes == 1)
}

pub fn decide(bytes: &[u8], keys: &mut [i32], path: &mut [u16], word: &mut [u8]) -> Decision {
    match told(|told| lent::decide(bytes, keys, path, word, told)) {
        (0, 0, [1, states, letters]) => Decision::Found { states, letters },
        (0, 0, [2, states, 0]) => Decision::Never { states },
        (7, 0, [0, states, 0]) => Decision::NoRoom { states },
        (8, 0, [0, states, letters]) => Decision::WordShort { states, letters },
        (number, place, [0, 0, 0]) if number > 0 => Decision::Refused(refusal(number, place)),
        other => panic!("no decision: {other:?}"),
    }
}

pub fn build(bytes: &[u8], keys: &mut [i32], table: &mut [u16]) -> Building {
    match told(|told| lent::build(bytes, keys, table, told)) {
        (0, 0, [3, states, 0]) => Building::Built { states },
        (7, 0, [0, states, 0]) => Building::NoRoom { states },
        (number, place, [0, 0, 0]) if number > 0 => Building::Refused(refusal(number, place)),
        other => panic!("no building: {other:?}"),
    }
}

pub fn spell(n: usize, variable: usize, word: &[u8]) -> Result<u64, Refusal> {
    let [value] = answer(|told| lent::spell(n, variable, word, told))?;
    Ok(value as u64)
}

/// What the compiled asking program prints. Where it is not proved and built yet, it is so first.
pub fn ask(input: &[u8]) -> String {
    // One rt at a time.
    static ONE: Mutex<()> = Mutex::new(());
    let _one = ONE.lock();
    let run = concat!(env!("CARGO_MANIFEST_DIR"), "/../tools/run");
    let mut program = Command::new(run).arg("ask").stdin(Stdio::piped()).stdout(Stdio::piped()).spawn().expect("tools/run is started");
    program.stdin.take().expect("a pipe").write_all(input).expect("the input is taken");
    let output = program.wait_with_output().expect("the program ends");
    assert!(output.status.success(), "tools/run ask: {}", output.status);
    String::from_utf8(output.stdout).expect("text")
}
