//! The proved calls, by the crate in ../rust, with the inputs and answers of those in `reading`. Built only with `--features proved`.

#![forbid(unsafe_code)]

use crate::reading::{Building, Decision, Question, Record, Refusal};
use std::ops::Range;

fn refusal(refusal: pelohuaki::Refusal) -> Refusal {
    Refusal { number: refusal.number(), place: refusal.place }
}

fn held(question: pelohuaki::Question) -> Question {
    let mut coefficients = [0; 48];
    coefficients.copy_from_slice(question.coefficients.as_flattened());
    Question { n: question.n, codes: question.codes, coefficients, constants: question.constants }
}

/// A question as the crate holds it.
pub fn handed(question: &Question) -> pelohuaki::Question {
    let mut handed = pelohuaki::Question::empty();
    handed.n = question.n;
    handed.codes = question.codes;
    handed.coefficients.as_flattened_mut().copy_from_slice(&question.coefficients);
    handed.constants = question.constants;
    handed
}

/// The record at the place, which is moved past it.
pub fn next_record<'b>(place: &mut pelohuaki::Place<'b>) -> Result<Record<'b>, Refusal> {
    let record = place.next_record().map_err(refusal)?;
    Ok(Record { kind: record.kind, body: record.body, next: record.next })
}

pub fn read(bytes: &[u8]) -> Result<Question, Refusal> {
    pelohuaki::read(bytes).map(held).map_err(refusal)
}

/// The question of a text, and where each variable's name stands in it.
pub fn import(text: &[u8]) -> Result<(Question, Vec<Range<usize>>), Refusal> {
    let imported = pelohuaki::import(text).map_err(refusal)?;
    let names = imported.names().to_vec();
    Ok((held(imported.question), names))
}

pub fn write(question: &Question, buffer: &mut [u8]) -> Result<usize, Refusal> {
    pelohuaki::write(&handed(question), buffer).map_err(refusal)
}

pub fn judge(bytes: &[u8], values: &[u64]) -> Result<bool, Refusal> {
    pelohuaki::judge(bytes, values).map_err(refusal)
}

pub fn decide(bytes: &[u8], keys: &mut [i32], path: &mut [u16], word: &mut [u8]) -> Decision {
    match pelohuaki::decide(bytes, keys, path, word) {
        Ok(pelohuaki::Decision::Found { states, letters }) => Decision::Found { states, letters },
        Ok(pelohuaki::Decision::Never { states }) => Decision::Never { states },
        Ok(pelohuaki::Decision::NoRoom { states }) => Decision::NoRoom { states },
        Ok(pelohuaki::Decision::Short { states, letters }) => Decision::WordShort { states, letters },
        Err(refused) => Decision::Refused(refusal(refused)),
    }
}

pub fn build(bytes: &[u8], keys: &mut [i32], table: &mut [u16]) -> Building {
    match pelohuaki::build(bytes, keys, table) {
        Ok(pelohuaki::Building::Built { states }) => Building::Built { states },
        Ok(pelohuaki::Building::NoRoom { states }) => Building::NoRoom { states },
        Err(refused) => Building::Refused(refusal(refused)),
    }
}

pub fn run(n: usize, cells: &[u16], word: &[u8]) -> Result<bool, Refusal> {
    pelohuaki::run(n, cells, word).map_err(refusal)
}

pub fn spell(n: usize, variable: usize, word: &[u8]) -> Result<u64, Refusal> {
    pelohuaki::spell(n, variable, word).map_err(refusal)
}
