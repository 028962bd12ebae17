use crate::{linked, read, run, Question, Reason, Refusal};

/// What building answers to a question that was read.
#[derive(Clone, Copy, Debug, PartialEq, Eq, Hash)]
pub enum Building {
    /// The table is built.
    Built {
        /// All reachable states, and so the rows of the table.
        states: usize,
    },
    /// Refusal 7: more states are needed than there is room for. The table is unchanged.
    NoRoom {
        /// The rows that were lent.
        states: usize,
    },
}

/// Builds a question's table in areas that the caller lends.
///
/// With m atoms and n variables, a state takes m cells of `keys` and 1 + 2^n of `table`; the rows
/// lent are as many states as both have room for, and at most [`Question::STATES`]. Row s of the
/// table starts at cell s times (1 + 2^n): 1 if state s accepts and otherwise 0, then the next state
/// for each letter in order. Cells past the rows that are filled are unchanged. [`Table`] has a table
/// of its own.
///
/// ```
/// use pelohuaki::{build, run, Building, DEAD};
/// # const FIVE: [u8; 25] = [
/// #     1, 0, 0x01, 0, 2, 12, 0, 0x10, 0, 5, 0, 0, 0, 1, 0, 0, 0, 3, 0, 0, 0, 0, 0, 0xFF, 0,
/// # ];
///
/// // FIVE has the bytes of 5x + y = 3.
/// let (mut keys, mut table) = ([7; 10], [7; 50]);
/// let answer = build(&FIVE, &mut keys, &mut table)?;
/// assert_eq!(answer, Building::Built { states: 9 });
/// assert_eq!(keys, [3, DEAD, -1, 1, -3, -2, 0, -4, -5, 7]);
/// assert_eq!(table[45..], [7; 5]);
///
/// // The filled rows run: x = 0, y = 3 is the word 2 2, and x = 1, y = 3 the word 3 2.
/// assert_eq!(run(2, &table[..45], &[2, 2]), Ok(true));
/// assert_eq!(run(2, &table[..45], &[3, 2]), Ok(false));
///
/// assert_eq!(build(&FIVE, &mut keys[..8], &mut table)?, Building::NoRoom { states: 8 });
/// # Ok::<(), pelohuaki::Refusal>(())
/// ```
pub fn build(bytes: &[u8], keys: &mut [i32], table: &mut [u16]) -> Result<Building, Refusal> {
    let mut told = [0; 4];
    let number = linked::build(bytes, keys, table, &mut told);
    let [place, verdict, states, _] = told;
    let states = states as usize;
    match (number, verdict) {
        (0, 3) => Ok(Building::Built { states }),
        (7, _) => Ok(Building::NoRoom { states }),
        _ => match Refusal::of(number, place) {
            Err(refusal) => Err(refusal),
            Ok(()) => unreachable!("building says built, and not {verdict}"),
        },
    }
}

/// A built table, with the number of variables that it goes with.
///
/// ```
/// use pelohuaki::{Reason, Table};
/// # const FIVE: [u8; 25] = [
/// #     1, 0, 0x01, 0, 2, 12, 0, 0x10, 0, 5, 0, 0, 0, 1, 0, 0, 0, 3, 0, 0, 0, 0, 0, 0xFF, 0,
/// # ];
///
/// // FIVE has the bytes of 5x + y = 3.
/// let table = Table::build(&FIVE, 100)?;
/// assert_eq!((table.n(), table.states()), (2, 9));
/// assert_eq!(table.run(&[2, 2]), Ok(true));
/// assert_eq!(table.run(&[2, 2, 0, 0]), Ok(true));
/// assert_eq!(table.run(&[2]), Ok(false));
/// assert_eq!(table.run(&[4]).unwrap_err().reason, Reason::Letter);
///
/// assert_eq!(Table::build(&FIVE, 8).unwrap_err().reason, Reason::NoRoom);
/// # Ok::<(), pelohuaki::Refusal>(())
/// ```
#[derive(Clone, Debug, PartialEq, Eq, Hash)]
pub struct Table {
    n: usize,
    cells: Vec<u16>,
}

impl Table {
    /// Builds a question's table, with room for so many states, or for [`Question::STATES`] where that
    /// is less. A room too small is refused by [`Reason::NoRoom`], at place 0.
    pub fn build(bytes: &[u8], rows: usize) -> Result<Table, Refusal> {
        let question = read(bytes)?;
        let n = usize::from(question.n);
        let width = 1 + (1 << n);
        let rows = rows.min(Question::STATES);
        let mut keys = vec![0; rows * question.atoms()];
        let mut cells = vec![0; rows * width];
        match build(bytes, &mut keys, &mut cells)? {
            Building::Built { states } => {
                cells.truncate(states * width);
                Ok(Table { n, cells })
            }
            Building::NoRoom { .. } => Err(Refusal {
                reason: Reason::NoRoom,
                place: 0,
            }),
        }
    }

    /// The number of variables.
    pub fn n(&self) -> usize {
        self.n
    }

    /// The number of states, and so of rows.
    pub fn states(&self) -> usize {
        self.cells.len() / (1 + (1 << self.n))
    }

    /// The cells, row by row.
    pub fn cells(&self) -> &[u16] {
        &self.cells
    }

    /// Whether the values that the word spells satisfy the question.
    pub fn run(&self, word: &[u8]) -> Result<bool, Refusal> {
        run(self.n, &self.cells, word)
    }
}
