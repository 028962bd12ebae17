//! The counts that the benchmark divides by: letters tried, against stepping through the machine; and what callgrind tells, taken apart.

use pelohuaki_bench::reading::{meaning, read, Meaning, Question};
use pelohuaki_bench::{count, plain, vectors};
use std::collections::HashSet;

/// The letters up to the first that leads to a state that accepts, or all of them at every state.
fn letters_tried(meaning: &Meaning) -> usize {
    let mut states = vec![meaning.start()];
    if meaning.accepts(&states[0]) {
        return 0;
    }
    let mut seen = HashSet::from([states[0].clone()]);
    let (mut tried, mut at) = (0, 0);
    while at < states.len() {
        for letter in 0..1 << meaning.n {
            tried += 1;
            let target = meaning.step(&states[at], letter);
            if seen.insert(target.clone()) {
                if meaning.accepts(&target) {
                    return tried;
                }
                states.push(target);
            }
        }
        at += 1;
    }
    tried
}

#[test]
fn tried() {
    let rows = Question::STATES;
    let (mut keys, mut path, mut word) = (vec![0; rows * Question::ATOMS], vec![0; rows * 2], vec![0; rows]);
    let mut check = |bytes: &[u8]| {
        let decision = plain::decide(bytes, &mut keys, &mut path, &mut word);
        let meaning = meaning(&read(bytes).unwrap());
        let tried = count::tried(decision, 1 << meaning.n, &path);
        assert_eq!(tried, letters_tried(&meaning), "{bytes:?}");
        tried
    };
    for bytes in vectors::blocks() {
        check(bytes);
    }
    assert_eq!(check(vectors::COCONUTS), 64);
    // 0x = 0: the start accepts.
    assert_eq!(check(&[1, 0, 1, 0, 1, 8, 0, 0x10, 0, 0, 0, 0, 0, 0, 0, 0, 0, 0, 0, 0xFF, 0]), 0);
}

#[test]
fn collected() {
    let told = "==7== Callgrind, a call-graph generating cache profiler\n==7== \n==7== Events    : Ir\n==7== Collected : 610853948\n==7== \n";
    assert_eq!(count::collected(told), Some(610_853_948));
    assert_eq!(count::collected("valgrind: failed to start tool"), None);
}
