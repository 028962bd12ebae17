use crate::{linked, Question, Reason, Refusal};

/// The key cell of a dead entry.
pub const DEAD: i32 = -2_147_483_648;

/// What deciding answers to a question that was read.
#[derive(Clone, Copy, Debug, PartialEq, Eq, Hash)]
pub enum Decision {
    /// Some naturals satisfy the question. The first word that spells such values stands at the
    /// front of the word buffer.
    Found {
        /// The states counted, the accepting one being the last.
        states: usize,
        /// The letters of the word.
        letters: usize,
    },
    /// No naturals satisfy the question, however large.
    Never {
        /// All reachable states.
        states: usize,
    },
    /// Refusal 7: more states are needed than there is room for.
    NoRoom {
        /// The rows that were lent, all of them filled.
        states: usize,
    },
    /// Refusal 8: as found, but the word is longer than its buffer, which is unchanged.
    Short {
        /// The states counted, as for found.
        states: usize,
        /// The letters of the word, and so the cells to lend for it.
        letters: usize,
    },
}

impl Decision {
    /// Why there is neither a word nor a never: `NoRoom` or `Short`.
    pub fn reason(self) -> Option<Reason> {
        match self {
            Decision::Found { .. } | Decision::Never { .. } => None,
            Decision::NoRoom { .. } => Some(Reason::NoRoom),
            Decision::Short { .. } => Some(Reason::Short),
        }
    }
}

/// Decides a question in areas that the caller lends.
///
/// With m atoms, a state takes m cells of `keys` and 2 of `path`; the rows lent are as many states
/// as both have room for, and at most [`Question::STATES`]. Rows of every state counted are filled:
/// in `keys` its entries ([`DEAD`] for a dead one), in `path` the state and the letter from which it
/// was numbered. All other cells, in the word buffer too, are unchanged, and all cells where the
/// question is refused. [`Room`] has areas of its own.
///
/// ```
/// use pelohuaki::{decide, Decision, DEAD};
/// # const FIVE: [u8; 25] = [
/// #     1, 0, 0x01, 0, 2, 12, 0, 0x10, 0, 5, 0, 0, 0, 1, 0, 0, 0, 3, 0, 0, 0, 0, 0, 0xFF, 0,
/// # ];
///
/// // FIVE has the bytes of 5x + y = 3.
/// let (mut keys, mut path, mut word) = ([7; 8], [7; 16], [7; 3]);
/// let answer = decide(&FIVE, &mut keys, &mut path, &mut word)?;
/// assert_eq!(answer, Decision::Found { states: 7, letters: 2 });
/// assert_eq!(word, [2, 2, 7]);
/// assert_eq!(keys, [3, DEAD, -1, 1, -3, -2, 0, 7]);
///
/// assert_eq!(decide(&FIVE, &mut keys[..6], &mut path, &mut word)?, Decision::NoRoom { states: 6 });
/// assert_eq!(
///     decide(&FIVE, &mut keys, &mut path, &mut word[..1])?,
///     Decision::Short { states: 7, letters: 2 }
/// );
/// # Ok::<(), pelohuaki::Refusal>(())
/// ```
pub fn decide(
    bytes: &[u8],
    keys: &mut [i32],
    path: &mut [u16],
    word: &mut [u8],
) -> Result<Decision, Refusal> {
    let mut told = [0; 4];
    let number = linked::decide(bytes, keys, path, word, &mut told);
    let [place, verdict, states, letters] = told;
    let (states, letters) = (states as usize, letters as usize);
    match (number, verdict) {
        (0, 1) => Ok(Decision::Found { states, letters }),
        (0, 2) => Ok(Decision::Never { states }),
        (7, _) => Ok(Decision::NoRoom { states }),
        (8, _) => Ok(Decision::Short { states, letters }),
        _ => match Refusal::of(number, place) {
            Err(refusal) => Err(refusal),
            Ok(()) => unreachable!("deciding says found or never, and not {verdict}"),
        },
    }
}

/// Areas for deciding, with room for a number of states of any question. They can be used for one
/// question after another.
///
/// ```
/// use pelohuaki::{Answer, Room};
/// # const FIVE: [u8; 25] = [
/// #     1, 0, 0x01, 0, 2, 12, 0, 0x10, 0, 5, 0, 0, 0, 1, 0, 0, 0, 3, 0, 0, 0, 0, 0, 0xFF, 0,
/// # ];
///
/// // FIVE has the bytes of 5x + y = 3.
/// let mut room = Room::new(1_024);
/// assert_eq!(room.decide(&FIVE)?, Answer::Found { states: 7, word: &[2, 2] });
/// assert_eq!(Room::new(6).decide(&FIVE)?, Answer::NoRoom { states: 6 });
/// # Ok::<(), pelohuaki::Refusal>(())
/// ```
#[derive(Clone, Debug)]
pub struct Room {
    keys: Vec<i32>,
    path: Vec<u16>,
    word: Vec<u8>,
}

/// What [`Room::decide`] answers: a [`Decision`] with its word. A word has fewer letters than there
/// are states, so that a room's word buffer is never too short.
#[derive(Clone, Copy, Debug, PartialEq, Eq, Hash)]
pub enum Answer<'r> {
    /// Some naturals satisfy the question.
    Found {
        /// The states counted.
        states: usize,
        /// The first word that spells such values.
        word: &'r [u8],
    },
    /// No naturals satisfy the question, however large.
    Never {
        /// All reachable states.
        states: usize,
    },
    /// The room has fewer rows than are needed.
    NoRoom {
        /// The rows of the room.
        states: usize,
    },
}

impl Room {
    /// Room for so many states, or for [`Question::STATES`] where that is less.
    pub fn new(rows: usize) -> Room {
        let rows = rows.min(Question::STATES);
        Room {
            keys: vec![0; rows * Question::ATOMS],
            path: vec![0; rows * 2],
            word: vec![0; rows],
        }
    }

    /// Decides a question.
    pub fn decide(&mut self, bytes: &[u8]) -> Result<Answer<'_>, Refusal> {
        match decide(bytes, &mut self.keys, &mut self.path, &mut self.word)? {
            Decision::Found { states, letters } => Ok(Answer::Found {
                states,
                word: &self.word[..letters],
            }),
            Decision::Never { states } => Ok(Answer::Never { states }),
            Decision::NoRoom { states } => Ok(Answer::NoRoom { states }),
            Decision::Short { .. } => unreachable!("a word has fewer letters than states"),
        }
    }
}
