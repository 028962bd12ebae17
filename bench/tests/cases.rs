//! The cases that document 01 checks by hand, the asking program's example, refusals, and the two numberings set side by side.

use pelohuaki_bench::generate::{question_of, Numbers, Random};
use pelohuaki_bench::reading::*;
use std::collections::HashMap;

/// A question from its codes and its atoms, each the coefficients and then the constant.
fn question(n: u8, codes: &[u8], atoms: &[&[i32]]) -> Vec<u8> {
    let mut question = Question::empty();
    question.n = n;
    question.codes[..codes.len()].copy_from_slice(codes);
    for (i, atom) in atoms.iter().enumerate() {
        let n = n as usize;
        question.coefficients[6 * i..6 * i + n].copy_from_slice(&atom[..n]);
        question.constants[i] = atom[n];
    }
    bytes_of(&question).unwrap()
}

fn decided(bytes: &[u8], rows: usize) -> (Decision, Vec<u8>) {
    let decided = decide(bytes, &vec![0; 8 * rows], &vec![0; 2 * rows], &[0; 64]);
    let letters = if let Decision::Found { letters, .. } = decided.answer { letters } else { 0 };
    (decided.answer, decided.word[..letters].to_vec())
}

fn found(states: usize, word: &[u8]) -> (Decision, Vec<u8>) {
    (Decision::Found { states, letters: word.len() }, word.to_vec())
}

fn never(states: usize) -> (Decision, Vec<u8>) {
    (Decision::Never { states }, Vec::new())
}

fn no_room(states: usize) -> (Decision, Vec<u8>) {
    (Decision::NoRoom { states }, Vec::new())
}

#[test]
fn checked_by_hand() {
    let five = question(2, &[EQUATION], &[&[5, 1, 3]]);
    assert_eq!(decided(&five, 7), found(7, &[2, 2]));
    // Key cells for eight atoms a row: the path area is what is short here.
    assert_eq!(decided(&five, 6), no_room(6));
    let built = build(&five, &[0; 9], &[0; 45]);
    assert_eq!(built.answer, Building::Built { states: 9 });
    assert_eq!(built.keys, [3, DEAD, -1, 1, -3, -2, 0, -4, -5]);
    assert_eq!(build(&five, &[0; 8], &[0; 45]).answer, Building::NoRoom { states: 8 });
    assert_eq!(build(&five, &[0; 9], &[0; 44]).answer, Building::NoRoom { states: 8 });

    assert_eq!(decided(&question(3, &[EQUATION], &[&[1, 2, -3, 2]]), 100), found(4, &[2]));
    let odd = question(1, &[EQUATION], &[&[2, 1]]);
    assert_eq!(decided(&odd, 2), never(2));
    assert_eq!(decided(&odd, 1), no_room(1));
    assert_eq!(decided(&question(1, &[AT_MOST], &[&[1, -1]]), 100), never(1));
    assert_eq!(decided(&question(1, &[NOT, EQUATION], &[&[1, 0]]), 100), found(2, &[1]));
    assert_eq!(decided(&question(1, &[NOT, AT_MOST], &[&[1, 5]]), 100), found(5, &[0, 1, 1]));
    assert_eq!(decided(&question(2, &[AND, AT_MOST, AT_MOST], &[&[1, -1, -1], &[-1, 1, 0]]), 100), never(2));
    assert_eq!(decided(&question(1, &[EQUATION], &[&[0, 0]]), 100), found(1, &[]));

    let coconuts = question(
        6,
        &[AND, AND, AND, AND, EQUATION, EQUATION, EQUATION, EQUATION, EQUATION],
        &[&[-4, 5, 0, 0, 0, 0, 1], &[0, -4, 5, 0, 0, 0, 1], &[0, 0, -4, 5, 0, 0, 1], &[0, 0, 0, -4, 5, 0, 1], &[0, 0, 0, 0, -4, 5, 1]],
    );
    assert_eq!(decided(&coconuts, 100), found(49, &[63]));
    assert_eq!(decided(&[], 100).0, Decision::Refused(Refusal { number: 1, place: 0 }));
    assert_eq!(decided(&five, 0), no_room(0));
}

#[test]
fn halving() {
    // 0x <= k goes to the floor of k / 2 on letter 0.
    for (k, half) in [(-3, -2), (-1, -1), (0, 0), (1, 0)] {
        let meaning = meaning(&read(&question(1, &[AT_MOST], &[&[0, k]])).unwrap());
        assert_eq!(meaning.step(&meaning.start(), 0), [Some(half)]);
    }
}

#[test]
fn asking() {
    let bytes = [
        0x01, 0x00, 0x01, 0x00, 0x02, 0x0C, 0x00, 0x10, 0x00, 0x05, 0x00, 0x00, 0x00, 0x01, 0x00, 0x00, 0x00, 0x03, 0x00, 0x00, 0x00, 0x00, 0x00,
        0xFF, 0x00,
    ];
    assert_eq!(ask(&bytes), "verdict found\nvalues 0 3\nletters 2 2\nstates 7\n");
    let mut beyond = bytes;
    beyond[9..13].copy_from_slice(&4_097i32.to_le_bytes());
    assert_eq!(ask(&beyond), "refused 12 at 9\n");
    assert_eq!(ask(&question(1, &[EQUATION], &[&[0, 0]])), "verdict found\nvalues 0\nletters none\nstates 1\n");
    assert_eq!(ask(&question(1, &[EQUATION], &[&[2, 1]])), "verdict never\nstates 2\n");
    assert_eq!(ask(&question(1, &[EQUATION], &[&[4_096, 4_095]])), "verdict never\nstates 2\n");
    assert_eq!(ask(&question(2, &[EQUATION], &[&[4_095, -4_093, 1_000_000]])).lines().next(), Some("verdict no-room"));
}

/// Hex with spaces where they help.
fn hex(text: &str) -> Vec<u8> {
    pelohuaki_bench::vectors::bytes(&text.replace(' ', ""))
}

#[test]
fn refusals_of_reading() {
    let refused = |bytes: &[u8], number, place| assert_eq!(read(bytes), Err(Refusal { number, place }), "{bytes:x?}");
    refused(&hex("0100 01"), 1, 0);
    // The kind comes before the length, the length before the cut, the cut before the numbers.
    refused(&hex("0500 1000"), 2, 0);
    refused(&hex("0200 0100"), 3, 0);
    refused(&hex("0100 0100"), 1, 0);
    refused(&hex("0100 0100 00"), 4, 0);
    refused(&hex("0100 0100 07"), 4, 0);
    refused(&hex("0100 0100 01"), 1, 5);
    refused(&hex("0100 0100 01 0000 FF00"), 2, 5);
    refused(&hex("0100 0100 01 0100 0100 01"), 2, 5);
    refused(&hex("0100 0100 01 0C00 1000"), 3, 5);
    refused(&hex("0100 0100 01 0800 1000 01100000"), 1, 5);
    refused(&hex("0100 0100 01 0800 1000 01100000 00000000"), 12, 9);
    refused(&hex("0100 0100 01 0800 1000 01000000 41420F00"), 13, 13);
    // The first bad number in field order counts, whatever follows it.
    refused(&hex("0100 0100 01 0800 1000 FFEFFFFF 41420F00"), 12, 9);
    refused(&hex("0100 0100 03 1000 1000 00100000 00F0FFFF 01100000 41420F00 0000 2000"), 12, 17);
    refused(&hex("0100 0100 03 1000 1000 00100000 00F0FFFF 00100000 BFBDF0FF 0000 2000"), 13, 21);
    refused(&hex("0100 0100 02 0000 2100 0C00 1100 01000000 00000080 00000000 0C00 1000 01100000"), 12, 17);
    refused(&hex("0100 0100 02 0000 2100 0C00 1100 01000000 00000000 00000000 0C00 1000 01100000 FFFFFF7F 00000080"), 12, 29);
    refused(&hex("0100 0100 01 0800 1000 01000000 40420F00"), 1, 17);
    refused(&hex("0100 0100 01 0800 1000 01000000 40420F00 0000 2000"), 2, 17);
    refused(&hex("0100 0100 01 0800 1000 01000000 40420F00 0100 FF00"), 3, 17);
    refused(&hex("0100 0100 01 0800 1000 01000000 40420F00 0000 FF00 00"), 6, 21);
    // An atom at depth 17, or a ninth, is refused as that even where its number is beyond its limit too.
    let atom = "0800 1000 01100000 00000000";
    refused(&hex(&format!("0100 0100 01 {} {atom}", "0000 2000".repeat(16))), 5, 5 + 16 * 4);
    let good = "0000 2100 0800 1100 01000000 00000000".repeat(8);
    refused(&hex(&format!("0100 0100 01 {good} {atom}")), 5, 5 + 8 * 16);
    // A connective at depth 16 stands; what follows it is too deep.
    refused(&hex(&format!("0100 0100 01 {} 0000 2000", "0000 2000".repeat(16))), 5, 5 + 16 * 4);
    // The 65th node, before it could be anything else: nots and ors in a shallow formula of 64 nodes and one part to come.
    let six = format!("0000 2200 {} 0800 1100 01000000 00000000", "0000 2000".repeat(6));
    let nodes = six.repeat(8);
    refused(&hex(&format!("0100 0100 01 {nodes} 0000 2000")), 5, 5 + 8 * (7 * 4 + 12));
}

#[test]
fn refusals_of_writing() {
    let base = read(&question(2, &[AND, EQUATION, NOT, AT_MOST], &[&[5, 1, 3], &[1, 1, 1]])).unwrap();
    let refused = |change: &dyn Fn(&mut Question), number, place| {
        let mut question = base.clone();
        change(&mut question);
        assert_eq!(write(&question, &[9; 600]), Written { answer: Err(Refusal { number, place }), buffer: vec![9; 600] });
    };
    refused(&|q| q.n = 0, 4, 0);
    refused(&|q| q.n = 7, 4, 0);
    refused(&|q| q.codes[2] = 0, 2, 2);
    refused(&|q| q.codes[3] = 6, 2, 3);
    refused(&|q| q.codes[0] = NOT, 6, 2);
    refused(&|q| q.codes[63] = NOT, 6, 63);
    refused(&|q| q.codes[3] = OR, 2, 4);
    refused(&|q| q.coefficients[7] = 4_097, 12, 3);
    refused(&|q| q.constants[0] = -1_000_001, 13, 1);
    // In an atom a coefficient comes before the constant; of two atoms the first counts, and only then what is left over.
    refused(&|q| (q.coefficients[1], q.constants[0]) = (-4_097, 1_000_001), 12, 1);
    refused(&|q| (q.coefficients[6], q.constants[0]) = (-4_097, 1_000_001), 13, 1);
    refused(&|q| (q.coefficients[2], q.constants[1]) = (4_097, i32::MIN), 13, 3);
    // A number that no atom uses, here past n in a used row, is left over and not beyond its limit.
    refused(&|q| q.coefficients[2] = 4_097, 6, 64);
    refused(&|q| q.coefficients[12] = 1, 6, 64);
    refused(&|q| q.constants[2] = 1, 6, 64);
    // Where a code is left over as well, that is the place.
    refused(&|q| (q.constants[2], q.codes[40]) = (1, 9), 6, 40);
    // Earlier nodes are checked whole before later ones.
    refused(&|q| (q.coefficients[0], q.codes[3]) = (5_000, 0), 12, 1);
    refused(&|q| q.codes = [NOT; 64], 5, 16);
    // Eight ors, each with an atom under six nots as its left part, leave one part for a 65th node; 15 levels.
    refused(
        &|q| {
            for node in 0..64 {
                q.codes[node] = [OR, NOT, NOT, NOT, NOT, NOT, NOT, AT_MOST][node % 8];
            }
        },
        5,
        64,
    );
    // A ninth atom at node 16.
    refused(
        &|q| {
            q.codes = [0; 64];
            for node in 0..17 {
                q.codes[node] = if node % 2 == 0 && node < 16 { AND } else { AT_MOST };
            }
        },
        5,
        16,
    );
    // The buffer comes last, and is changed at its front alone.
    let bytes = bytes_of(&base).unwrap();
    assert_eq!(write(&base, &vec![9; bytes.len() - 1]).answer, Err(Refusal { number: 8, place: 0 }));
    let written = write(&base, &vec![9; bytes.len() + 2]);
    assert_eq!(written, Written { answer: Ok(bytes.len()), buffer: [&bytes[..], &[9, 9]].concat() });
}

#[test]
fn bare_steps() {
    let bytes = question(2, &[EQUATION], &[&[5, 1, 3]]);
    let head = record(&bytes, 0).unwrap();
    assert_eq!((head.kind, head.body, head.next), (KIND_HEAD, &[2][..], 5));
    let atom = record(&bytes, 5).unwrap();
    assert_eq!((atom.kind, atom.body.len(), atom.next), (KIND_EQUATION, 12, 21));
    let end = record(&bytes, 21).unwrap();
    assert_eq!((end.kind, end.body.len(), end.next), (KIND_END, 0, 25));
    assert_eq!(record(&bytes, 25), Err(Refusal { number: 1, place: 25 }));
    assert_eq!(record(&bytes[..20], 5), Err(Refusal { number: 1, place: 5 }));
    // A bare step knows no kind.
    assert_eq!(record(&[0, 0, 0x34, 0x12], 0).unwrap().kind, 0x1234);
}

/// The numbering, against its definition to the letter: every word in order, up to a length, numbers the state it reaches if that is new.
#[test]
fn numbering_by_every_word() {
    let mut random = Random::new(11);
    for _ in 0..300 {
        let n = 1 + random.below(3);
        let m = 1 + random.below(3);
        let meaning = meaning(&question_of(&mut random, n, m, Numbers::Small));
        let longest = 12 / n;
        let mut first: HashMap<State, Vec<u8>> = HashMap::new();
        let mut order: Vec<(State, Vec<u8>)> = Vec::new();
        for length in 0..=longest {
            for code in 0..1usize << (n * length) {
                // The first letter of the word is the highest digit of the code, so codes count up in the words' order.
                let word: Vec<u8> = (0..length).map(|i| (code >> (n * (length - 1 - i)) & ((1 << n) - 1)) as u8).collect();
                let state = word.iter().fold(meaning.start(), |state, &letter| meaning.step(&state, letter));
                if !first.contains_key(&state) {
                    first.insert(state.clone(), word.clone());
                    order.push((state, word));
                }
            }
        }
        let (states, _) = numbering(&meaning, 65_535);
        let within: Vec<_> = states.iter().filter(|numbered| numbered.word.len() <= longest).collect();
        assert_eq!(within.len(), order.len());
        for (numbered, (state, word)) in within.iter().zip(&order) {
            assert_eq!((&numbered.state, &numbered.word), (state, word));
        }
        assert!(states.len() as u128 <= meaning.bound());
        for numbered in &states[1..] {
            let (before, last) = numbered.word.split_at(numbered.word.len() - 1);
            assert_eq!(states[numbered.from].word, before);
            assert_eq!([numbered.letter], last);
        }
    }
}

#[test]
fn as_smt_lib() {
    let text = |n, codes: &[u8], atoms: &[&[i32]]| pelohuaki_bench::smt::batch(&[read(&question(n, codes, atoms)).unwrap()]);
    assert_eq!(
        text(2, &[NOT, EQUATION], &[&[5, -1, -3]]),
        "(push 1)(declare-fun x1 () Int)(assert (>= x1 0))(declare-fun x2 () Int)(assert (>= x2 0))\
         (assert (not (= (+ (* 5 x1) (* (- 1) x2)) (- 3))))(check-sat)(pop 1)\n"
    );
    assert_eq!(
        text(1, &[OR, AT_MOST, AND, EQUATION, AT_MOST], &[&[2, 7], &[0, 0], &[-4, -8]]),
        "(push 1)(declare-fun x1 () Int)(assert (>= x1 0))\
         (assert (or (<= (* 2 x1) 7) (and (= 0 0) (<= (* (- 4) x1) (- 8)))))(check-sat)(pop 1)\n"
    );
}
