//! The cases that document 01 checks by hand, every refusal through the calls, and the limits.

use pelohuaki::*;

const EQUATION: u8 = Question::EQUATION;
const AT_MOST: u8 = Question::AT_MOST;
const NOT: u8 = Question::NOT;
const AND: u8 = Question::AND;

/// A question from its codes and its atoms, each the coefficients and then the constant.
fn question(n: u8, codes: &[u8], atoms: &[&[i32]]) -> Question {
    let mut question = Question::empty();
    question.n = n;
    question.codes[..codes.len()].copy_from_slice(codes);
    for (i, atom) in atoms.iter().enumerate() {
        let n = usize::from(n);
        question.coefficients[i][..n].copy_from_slice(&atom[..n]);
        question.constants[i] = atom[n];
    }
    question
}

fn bytes(n: u8, codes: &[u8], atoms: &[&[i32]]) -> Vec<u8> {
    question(n, codes, atoms).to_bytes().unwrap()
}

fn five() -> Vec<u8> {
    bytes(2, &[EQUATION], &[&[5, 1, 3]])
}

fn refused(reason: Reason, place: usize) -> Refusal {
    Refusal { reason, place }
}

#[test]
fn decided() {
    let found = |bytes: &[u8], expected: &[u8], counted: usize| {
        let mut room = Room::new(100);
        let answer = room.decide(bytes).unwrap();
        assert_eq!(
            answer,
            Answer::Found {
                states: counted,
                word: expected
            }
        );
    };
    let never = |bytes: &[u8], states: usize| {
        assert_eq!(
            Room::new(states).decide(bytes).unwrap(),
            Answer::Never { states }
        );
        if states > 1 {
            let states = states - 1;
            assert_eq!(
                Room::new(states).decide(bytes).unwrap(),
                Answer::NoRoom { states }
            );
        }
    };
    found(&five(), &[2, 2], 7);
    found(&bytes(3, &[EQUATION], &[&[1, 2, -3, 2]]), &[2], 4);
    never(&bytes(1, &[EQUATION], &[&[2, 1]]), 2);
    never(&bytes(1, &[AT_MOST], &[&[1, -1]]), 1);
    found(&bytes(1, &[NOT, EQUATION], &[&[1, 0]]), &[1], 2);
    found(&bytes(1, &[NOT, AT_MOST], &[&[1, 5]]), &[0, 1, 1], 5);
    never(
        &bytes(2, &[AND, AT_MOST, AT_MOST], &[&[1, -1, -1], &[-1, 1, 0]]),
        2,
    );
    found(&bytes(1, &[EQUATION], &[&[0, 0]]), &[], 1);
    let coconuts: [&[i32]; 5] = [
        &[-4, 5, 0, 0, 0, 0, 1],
        &[0, -4, 5, 0, 0, 0, 1],
        &[0, 0, -4, 5, 0, 0, 1],
        &[0, 0, 0, -4, 5, 0, 1],
        &[0, 0, 0, 0, -4, 5, 1],
    ];
    let codes = [
        AND, AND, AND, AND, EQUATION, EQUATION, EQUATION, EQUATION, EQUATION,
    ];
    found(&bytes(6, &codes, &coconuts), &[63], 49);

    assert_eq!(
        Room::new(0).decide(&five()),
        Ok(Answer::NoRoom { states: 0 })
    );
    assert_eq!(Room::new(9).decide(&[]), Err(refused(Reason::Cut, 0)));
}

#[test]
fn built() {
    let (mut keys, mut table) = ([0; 9], [0; 45]);
    assert_eq!(
        build(&five(), &mut keys, &mut table),
        Ok(Building::Built { states: 9 })
    );
    assert_eq!(keys, [3, DEAD, -1, 1, -3, -2, 0, -4, -5]);
    assert_eq!(
        build(&five(), &mut keys, &mut table[..44]),
        Ok(Building::NoRoom { states: 8 })
    );
    let whole = Table::build(&five(), 9).unwrap();
    assert_eq!(whole.cells(), table);
    assert_eq!(Table::build(&five(), 8), Err(refused(Reason::NoRoom, 0)));
    // x from 0 to 3 and y from 0 to 15 by words of four letters
    for x in 0..4u64 {
        for y in 0..16u64 {
            let word: Vec<u8> = (0..4)
                .map(|i| (x >> i & 1 | (y >> i & 1) << 1) as u8)
                .collect();
            assert_eq!(values(2, &word), Ok(vec![x, y]));
            assert_eq!(whole.run(&word), Ok(5 * x + y == 3));
            assert_eq!(judge(&five(), &[x, y]), Ok(5 * x + y == 3));
        }
    }
}

/// Each of the fifteen reasons, by a call that gives it.
#[test]
fn reasons() {
    let five = five();
    let number = |reason: Reason| reason.number();
    assert_eq!(
        Reason::ALL.map(number),
        [1, 2, 3, 4, 5, 6, 7, 8, 9, 10, 11, 12, 13, 14, 15]
    );
    for reason in Reason::ALL {
        assert_eq!(Reason::from_number(reason.number()), Some(reason));
    }

    assert_eq!(read(&five[..20]), Err(refused(Reason::Cut, 5)));
    assert_eq!(read(&five[5..]), Err(refused(Reason::NotDue, 0)));
    let mut long = five.clone();
    long[5] = 16;
    assert_eq!(read(&long), Err(refused(Reason::WrongLength, 5)));
    let mut beyond = five.clone();
    beyond[4] = 7;
    assert_eq!(read(&beyond), Err(refused(Reason::BeyondLimit, 0)));
    let far = |at: usize, number: i32| {
        let mut far = five.clone();
        far[at..at + 4].copy_from_slice(&number.to_le_bytes());
        far
    };
    let (a, k) = (Question::COEFFICIENT, Question::CONSTANT);
    assert_eq!(read(&far(9, a + 1)), Err(refused(Reason::Coefficient, 9)));
    assert_eq!(
        judge(&far(13, -a - 1), &[]),
        Err(refused(Reason::Coefficient, 13))
    );
    assert_eq!(
        Room::new(9).decide(&far(17, k + 1)),
        Err(refused(Reason::Constant, 17))
    );
    assert_eq!(
        Table::build(&far(17, -k - 1), 9),
        Err(refused(Reason::Constant, 17))
    );
    let mut both = question(2, &[NOT, EQUATION], &[&[5, a + 1, k + 1]]);
    assert_eq!(both.to_bytes(), Err(refused(Reason::Coefficient, 1)));
    both.coefficients[0][1] = a;
    assert_eq!(both.to_bytes(), Err(refused(Reason::Constant, 1)));
    let deep = question(1, &[[NOT; 16].as_slice(), &[EQUATION]].concat(), &[&[1, 0]]);
    assert_eq!(deep.to_bytes(), Err(refused(Reason::TooMany, 16)));
    let over = [&five[..], &[0]].concat();
    assert_eq!(judge(&over, &[0, 3]), Err(refused(Reason::LeftOver, 25)));

    let (mut keys, mut path) = ([0; 7], [0; 14]);
    let answer = decide(&five, &mut keys, &mut path[..13], &mut []).unwrap();
    assert_eq!(answer, Decision::NoRoom { states: 6 });
    assert_eq!(answer.reason(), Some(Reason::NoRoom));
    let answer = decide(&five, &mut keys, &mut path, &mut [0]).unwrap();
    assert_eq!(
        answer,
        Decision::Short {
            states: 7,
            letters: 2
        }
    );
    assert_eq!(answer.reason(), Some(Reason::Short));
    let answer = decide(&five, &mut keys, &mut path, &mut [0, 0]).unwrap();
    assert_eq!(answer.reason(), None);
    assert_eq!(
        write(&read(&five).unwrap(), &mut [0; 24]),
        Err(refused(Reason::Short, 0))
    );

    assert_eq!(judge(&five, &[0]), Err(refused(Reason::Values, 0)));
    assert_eq!(spell(1, 1, &[0; 65]), Err(refused(Reason::Values, 0)));
    assert_eq!(spell(2, 2, &[4]), Err(refused(Reason::Letter, 0)));
    assert_eq!(run(1, &[0, 0, 1], &[]), Err(refused(Reason::Table, 0)));
    assert_eq!(spell(2, 3, &[]), Err(refused(Reason::BeyondLimit, 0)));
    assert_eq!(
        run(usize::MAX, &[], &[]),
        Err(refused(Reason::BeyondLimit, 0))
    );
}

/// A text of these commands, behind the declared names.
fn text(names: &[&str], commands: &str) -> String {
    let declared = |name: &&str| format!("(declare-const {name} Int)(assert (>= {name} 0))");
    let declared: String = names.iter().map(declared).collect();
    format!("(set-logic QF_LIA){declared}{commands}(check-sat)")
}

#[test]
fn imported() {
    let given = text(&["x", "|a b|"], "(assert (= (+ (* 5 x) |a b|) 3))");
    let held = import(given.as_bytes()).unwrap();
    assert_eq!(held.question, question(2, &[EQUATION], &[&[5, 1, 3]]));
    let names: Vec<&str> = held
        .names()
        .iter()
        .map(|name| &given[name.clone()])
        .collect();
    assert_eq!(names, ["x", "a b"]);
    assert_eq!(held.names()[0], 33..34);

    let six = ["a", "b", "c", "d", "e", "f"];
    let given = text(&six, "(assert (and (< a b) (not (= f 7))))");
    let held = import(given.as_bytes()).unwrap();
    let codes = [AND, AT_MOST, NOT, EQUATION];
    let atoms: [&[i32]; 2] = [&[1, -1, 0, 0, 0, 0, -1], &[0, 0, 0, 0, 0, 1, 7]];
    assert_eq!(held.question, question(6, &codes, &atoms));
    let names: Vec<&str> = held
        .names()
        .iter()
        .map(|name| &given[name.clone()])
        .collect();
    assert_eq!(names, six);

    // refused, by the place of what is marked
    let refuses = |reason: Reason, marked: &str| {
        let place = marked.find('§').unwrap();
        let given = marked.replace('§', "");
        assert_eq!(
            import(given.as_bytes()),
            Err(refused(reason, place)),
            "{marked}"
        );
    };
    let one = |commands: &str| text(&["x"], commands);
    refuses(Reason::NotWellFormed, &one("§)"));
    refuses(Reason::NotWellFormed, "(set-logic QF_LIA§");
    refuses(Reason::OutsideSubset, &one("(assert (= x §(div x 2)))"));
    refuses(Reason::BeyondLimit, &text(&[], "(assert (= 1 1))§"));
    refuses(Reason::Coefficient, &one("(assert §(= (* 4097 x) 0))"));
    refuses(Reason::Constant, &one("(assert §(= x (+ 1000000 1)))"));
    let nine = "(= x 1) ".repeat(8);
    refuses(
        Reason::TooMany,
        &one(&format!("(assert (or {nine}§(= x 1)))")),
    );
}

/// A question at every limit of its size has as many bytes as one can have, and is read back.
#[test]
fn the_longest_question() {
    // Seven ands in three levels, and nots over each of the eight atoms: 49 in all.
    let mut codes = vec![AND, AND, AND];
    let mut put = |above: &[u8], nots: usize| {
        codes.extend(above);
        codes.extend(vec![NOT; nots]);
        codes.push(AT_MOST);
    };
    put(&[], 7);
    put(&[], 6);
    put(&[AND], 6);
    put(&[], 6);
    put(&[AND, AND], 6);
    put(&[], 6);
    put(&[AND], 6);
    put(&[], 6);
    assert_eq!(codes.len(), Question::NODES);
    let (a, k) = (Question::COEFFICIENT, Question::CONSTANT);
    let atom = [a, -a, a, -a, a, -a, -k];
    let longest = question(6, &codes, &[&atom[..]; 8]);
    let bytes = longest.to_bytes().unwrap();
    assert_eq!(bytes.len(), Question::BYTES);
    assert_eq!(read(&bytes), Ok(longest));
    let records: Result<Vec<Record>, Refusal> = Place::open(&bytes).into_iter().collect();
    assert_eq!(records.unwrap().len(), 66);
}

/// Calls on several threads at once, each with areas of its own.
#[test]
fn on_threads() {
    let five = five();
    std::thread::scope(|scope| {
        for rows in 0..12 {
            let five = &five;
            scope.spawn(move || {
                let mut room = Room::new(rows);
                for _ in 0..200 {
                    let answer = room.decide(five).unwrap();
                    assert_eq!(matches!(answer, Answer::Found { .. }), rows >= 7);
                    assert_eq!(Table::build(five, rows).is_ok(), rows >= 9);
                }
            });
        }
    });
}
