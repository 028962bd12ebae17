//! Deciding and building, as linked, against the plain solver, in rooms too large for the reading: the answer, and every cell of every lent buffer.
#![cfg(feature = "proved")]

use pelohuaki_bench::generate::*;
use pelohuaki_bench::met::{building_name, decision_name, Met};
use pelohuaki_bench::reading::{Building, Decision};
use pelohuaki_bench::{plain, proved, vectors};

fn compare_decide(bytes: &[u8], keys: Vec<i32>, path: Vec<u16>, word: Vec<u8>) -> Decision {
    let (mut keys1, mut path1, mut word1) = (keys.clone(), path.clone(), word.clone());
    let (mut keys2, mut path2, mut word2) = (keys, path, word);
    let expected = plain::decide(bytes, &mut keys1, &mut path1, &mut word1);
    let answer = proved::decide(bytes, &mut keys2, &mut path2, &mut word2);
    assert_eq!(answer, expected, "{bytes:x?}");
    assert!(keys1 == keys2 && path1 == path2 && word1 == word2, "{bytes:x?} {answer:?}");
    answer
}

fn compare_build(bytes: &[u8], keys: Vec<i32>, table: Vec<u16>) -> Building {
    let (mut keys1, mut table1) = (keys.clone(), table.clone());
    let (mut keys2, mut table2) = (keys, table);
    let expected = plain::build(bytes, &mut keys1, &mut table1);
    let answer = proved::build(bytes, &mut keys2, &mut table2);
    assert_eq!(answer, expected, "{bytes:x?}");
    assert!(keys1 == keys2 && table1 == table2, "{bytes:x?} {answer:?}");
    answer
}

/// Rows enough, or about as many as are needed, or a few.
fn rows(random: &mut Random, states: usize) -> usize {
    if random.one_in(3) {
        states + random.below(40)
    } else {
        room(random, states)
    }
}

#[test]
fn generated() {
    let mut random = Random::new(2_026);
    let (mut decided, mut built) = (Met::default(), Met::default());
    let (mut most_decided, mut most_built) = (0, 0);
    for turn in 0..12_000 {
        let bytes = if turn % 4 == 0 { any_bytes(&mut random) } else { question_bytes(&mut random) };
        let (m, letters) = plain::read(&bytes).map_or((3, 4), |question| (question.atoms().max(1), 1usize << question.n));
        // one question in 64 may go on as far as it can
        let most = if turn % 64 == 1 { 65_535 } else { 1_000 };
        let (mut keys, mut path, mut word) = (vec![0; most * m], vec![0; most * 2], vec![0; 4_096]);
        let (states, length) = match plain::decide(&bytes, &mut keys, &mut path, &mut word) {
            Decision::Found { states, letters } => (states, letters),
            Decision::Never { states } => (states, 0),
            _ => (3, 3),
        };
        let rows_now = rows(&mut random, states);
        let (keys, path) = (cells32(&mut random, rows_now * m), cells16(&mut random, rows_now * 2));
        let length = room(&mut random, length);
        let word = cells8(&mut random, length);
        let answer = compare_decide(&bytes, keys, path, word);
        if let Decision::Found { states, .. } | Decision::Never { states } = answer {
            most_decided = most_decided.max(states);
        }
        decided.meet(decision_name(answer));

        let most = if turn % 64 == 1 { 20_000 } else { 400 };
        let (mut keys, mut table) = (vec![0; most * m], vec![0; most * (1 + letters)]);
        let states = match plain::build(&bytes, &mut keys, &mut table) {
            Building::Built { states } => states,
            _ => 3,
        };
        let rows_now = rows(&mut random, states);
        let (keys, table) = (cells32(&mut random, rows_now * m), cells16(&mut random, rows_now * (1 + letters)));
        let answer = compare_build(&bytes, keys, table);
        if let Building::Built { states } = answer {
            most_built = most_built.max(states);
        }
        built.meet(building_name(answer));
    }
    println!("most states decided {most_decided}, built {most_built}");
    decided.exactly(10, &["found", "never", "1", "2", "3", "4", "5", "6", "7", "8", "12", "13"]);
    built.exactly(10, &["built", "1", "2", "3", "4", "5", "6", "7", "12", "13"]);
    assert!(most_decided > 20_000 && most_built > 10_000);
}

#[test]
fn list_blocks_and_coconuts() {
    for question in vectors::blocks() {
        compare_decide(&question, vec![-1; 65_535 * 8], vec![7; 65_535 * 2], vec![9; 1_024]);
    }
    let answer = compare_build(vectors::COCONUTS, vec![-1; 25_090 * 5], vec![7; 25_090 * 65]);
    assert_eq!(answer, Building::Built { states: 25_090 });
}

/// Around the row where the large index takes over, and past the last row that can be numbered.
#[test]
fn many_states() {
    // (a + 1)(b + 1) states, none of which accepts
    for (a, b) in [(0, 254), (15, 15), (0, 256), (24, 39), (216, 301), (254, 256), (255, 255), (300, 300)] {
        let bytes = never_accepting(a, b);
        for rows in [255, 256, 257, 65_534, 65_535, 70_000] {
            compare_decide(&bytes, vec![5; rows * 3], vec![5; rows * 2], vec![5; 64]);
            compare_build(&bytes, vec![5; rows * 3], vec![5; rows * 5]);
        }
    }
}
