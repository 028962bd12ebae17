//! The outside vectors (those of crate `vectors`, and `data/`), taken apart: lists are joined by commas, bytes are hex, `-` is an empty list or no bytes.

use std::fmt::{Debug, Display};

pub const BASE: &str = include_str!("../../crates/vectors/data/base.txt");
pub const E1: &str = include_str!("../../crates/vectors/data/e1.txt");
pub const E2: &str = include_str!("../../crates/vectors/data/e2.txt");
pub const BLOCKS: &[u8] = include_bytes!("../data/blocks.bin");
pub const BLOCK_LINES: &str = include_str!("../data/blocks.txt");
pub const COCONUTS: &[u8] = include_bytes!("../data/coconuts.bin");

/// A line `CALL ARGUMENTS = OUTCOME`. An outcome is the answer, then for each lent buffer that is changed its name and the list that it begins with.
pub struct Line<'t> {
    pub text: &'t str,
    pub call: &'t str,
    arguments: Vec<&'t str>,
    outcome: &'t str,
}

impl<'t> Line<'t> {
    pub fn new(text: &'t str) -> Line<'t> {
        let (asked, outcome) = text.split_once(" = ").unwrap_or_else(|| panic!("no outcome: {text}"));
        let mut asked = asked.split(' ');
        Line { text, call: asked.next().unwrap(), arguments: asked.collect(), outcome }
    }

    pub fn arguments<const COUNT: usize>(&self) -> [&'t str; COUNT] {
        self.arguments.clone().try_into().unwrap_or_else(|_| panic!("not {COUNT} arguments: {}", self.text))
    }

    /// The outcome of a call that is lent nothing, or changes nothing but what its answer says.
    pub fn answer(&self) -> &'t str {
        self.outcome
    }

    /// The answer, and the list that each of these buffers begins with, in the line's order: an empty one where the buffer is not named.
    pub fn outcome<const BUFFERS: usize>(&self, buffers: [&str; BUFFERS]) -> (&'t str, [&'t str; BUFFERS]) {
        let mut answer = self.outcome;
        let mut lists = ["-"; BUFFERS];
        for (list, buffer) in lists.iter_mut().zip(buffers).rev() {
            if let Some((before, named)) = answer.rsplit_once(&format!(" {buffer} ")) {
                (answer, *list) = (before, named);
            }
        }
        (answer, lists)
    }
}

pub fn number(text: &str) -> usize {
    text.parse().unwrap_or_else(|_| panic!("no number: {text}"))
}

pub fn bytes(text: &str) -> Vec<u8> {
    if text == "-" {
        return Vec::new();
    }
    assert!(text.len() % 2 == 0, "odd hex {text}");
    (0..text.len() / 2).map(|i| u8::from_str_radix(&text[2 * i..2 * i + 2], 16).unwrap()).collect()
}

pub fn hex(bytes: &[u8]) -> String {
    if bytes.is_empty() {
        return "-".into();
    }
    bytes.iter().map(|byte| format!("{byte:02x}")).collect()
}

pub fn list<T: std::str::FromStr>(text: &str) -> Vec<T>
where
    T::Err: std::fmt::Debug,
{
    if text == "-" {
        return Vec::new();
    }
    text.split(',').map(|item| item.parse().unwrap()).collect()
}

/// A list as it stands in an outcome: one of more than 96 entries as their number and the FNV-1a hash of the text.
pub fn listed<T: Display>(items: &[T]) -> String {
    if items.is_empty() {
        return "-".into();
    }
    let text = items.iter().map(T::to_string).collect::<Vec<_>>().join(",");
    if items.len() <= 96 {
        return text;
    }
    let hash = text.bytes().fold(0xCBF2_9CE4_8422_2325u64, |hash, byte| (hash ^ byte as u64).wrapping_mul(0x100_0000_01B3));
    format!("#{}:{hash:016x}", items.len())
}

/// The first cells hold a list as it stands in an outcome, and all further cells the mark.
#[track_caller]
pub fn holds<T: Display + Debug + PartialEq>(cells: &[T], list: &str, mark: T) {
    let count = match list.strip_prefix('#') {
        Some(long) => number(long.split(':').next().unwrap()),
        None if list == "-" => 0,
        None => list.split(',').count(),
    };
    assert!(count <= cells.len(), "{count} of {} cells", cells.len());
    assert_eq!(listed(&cells[..count]), list);
    assert!(cells[count..].iter().all(|cell| *cell == mark), "past {count} cells: {:?}", &cells[count..]);
}

/// The list-block questions, which stand end to end: each ends with its end record.
pub fn blocks() -> Vec<&'static [u8]> {
    let mut questions = Vec::new();
    let mut rest = BLOCKS;
    while !rest.is_empty() {
        let mut place = 0;
        loop {
            let length = u16::from_le_bytes([rest[place], rest[place + 1]]) as usize;
            let end = rest[place + 2..place + 4] == [0xFF, 0x00];
            place += 4 + length;
            if end {
                break;
            }
        }
        questions.push(&rest[..place]);
        rest = &rest[place..];
    }
    questions
}
