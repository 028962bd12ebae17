//! The answers that a test met, counted by name: a refusal's name is its number.

use crate::reading::{Building, Decision, Refusal};
use std::collections::BTreeMap;

/// How often each answer was met.
#[derive(Default)]
pub struct Met(BTreeMap<String, usize>);

impl Met {
    pub fn meet(&mut self, answer: impl Into<String>) {
        *self.0.entry(answer.into()).or_default() += 1;
    }

    pub fn times(&self, answer: &str) -> usize {
        self.0.get(answer).copied().unwrap_or(0)
    }

    /// Each of these was met so many times or more.
    pub fn at_least<S: AsRef<str>>(&self, times: usize, answers: &[S]) {
        println!("{self}");
        for answer in answers.iter().map(S::as_ref) {
            assert!(self.times(answer) >= times, "{answer}: {self}");
        }
    }

    /// Exactly these were met, each so many times or more.
    pub fn exactly(&self, times: usize, answers: &[&str]) {
        self.at_least(times, answers);
        assert_eq!(self.0.len(), answers.len(), "{self}");
    }
}

impl std::fmt::Display for Met {
    fn fmt(&self, f: &mut std::fmt::Formatter<'_>) -> std::fmt::Result {
        let parts: Vec<String> = self.0.iter().map(|(answer, times)| format!("{answer}: {times}")).collect();
        f.write_str(&parts.join(", "))
    }
}

/// The name of an answer or of its refusal.
pub fn name<T>(answer: Result<T, Refusal>, accepted: impl Fn(T) -> &'static str) -> String {
    match answer {
        Ok(answer) => accepted(answer).into(),
        Err(refusal) => refusal.number.to_string(),
    }
}

pub fn decision_name(answer: Decision) -> String {
    match answer {
        Decision::Found { .. } => "found".into(),
        Decision::Never { .. } => "never".into(),
        Decision::NoRoom { .. } => "7".into(),
        Decision::WordShort { .. } => "8".into(),
        Decision::Refused(refusal) => refusal.number.to_string(),
    }
}

pub fn building_name(answer: Building) -> String {
    match answer {
        Building::Built { .. } => "built".into(),
        Building::NoRoom { .. } => "7".into(),
        Building::Refused(refusal) => refusal.number.to_string(),
    }
}
