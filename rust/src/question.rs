use crate::{linked, Refusal};

/// A held question: a formula over equations and inequalities of n variables.
///
/// The formula's nodes stand in `codes`, each connective before its parts; its atoms are numbered
/// from 0 as they stand, and atom i has row i of the coefficients and constant i. Unused entries
/// are 0. Any value of this type can be handed to [`write()`], which says what is wrong with it.
///
/// ```
/// use pelohuaki::Question;
///
/// // x - y <= -1 and not (y = 7)
/// let mut question = Question::empty();
/// question.n = 2;
/// question.codes[..4].copy_from_slice(&[
///     Question::AND,
///     Question::AT_MOST,
///     Question::NOT,
///     Question::EQUATION,
/// ]);
/// question.coefficients[0][..2].copy_from_slice(&[1, -1]);
/// question.constants[0] = -1;
/// question.coefficients[1][..2].copy_from_slice(&[0, 1]);
/// question.constants[1] = 7;
/// assert_eq!(question.atoms(), 2);
///
/// let bytes = question.to_bytes()?;
/// assert_eq!(pelohuaki::read(&bytes)?, question);
/// # Ok::<(), pelohuaki::Refusal>(())
/// ```
#[derive(Clone, Debug, PartialEq, Eq, Hash)]
pub struct Question {
    /// The number of variables.
    pub n: u8,
    /// The nodes: 0 unused, 1 equation, 2 at most, 3 not, 4 and, 5 or.
    pub codes: [u8; 64],
    /// A row for each atom.
    pub coefficients: [[i32; 6]; 8],
    /// A constant for each atom.
    pub constants: [i32; 8],
}

impl Question {
    /// The most variables; the least is 1.
    pub const VARIABLES: usize = 6;
    /// The most atoms; the least is 1.
    pub const ATOMS: usize = 8;
    /// The most nodes, atoms and connectives together.
    pub const NODES: usize = 64;
    /// The most levels, the root being at depth 1.
    pub const DEPTH: usize = 16;
    /// A coefficient is from the negative of this to this.
    pub const COEFFICIENT: i32 = 4_096;
    /// A constant is from the negative of this to this.
    pub const CONSTANT: i32 = 1_000_000;
    /// The largest value that is handed to the judge.
    pub const VALUE: u64 = (1 << 40) - 1;
    /// The most states.
    pub const STATES: usize = 65_535;
    /// The most bytes that a question takes: a head, eight atoms of six variables, the connectives
    /// that are then left, and an end.
    pub const BYTES: usize = (4 + 1)
        + Question::ATOMS * (4 + 4 * (Question::VARIABLES + 1))
        + (Question::NODES - Question::ATOMS) * 4
        + 4;

    /// The node code of an equation, the sum of a_j x_j = k.
    pub const EQUATION: u8 = 1;
    /// The node code of the sum of a_j x_j <= k.
    pub const AT_MOST: u8 = 2;
    /// The node code of not, which has one part.
    pub const NOT: u8 = 3;
    /// The node code of and, which has two parts.
    pub const AND: u8 = 4;
    /// The node code of or, which has two parts.
    pub const OR: u8 = 5;

    /// The empty held question: every entry 0. It is no question yet.
    pub fn empty() -> Question {
        Question {
            n: 0,
            codes: [0; 64],
            coefficients: [[0; 6]; 8],
            constants: [0; 8],
        }
    }

    /// The number of nodes that are atoms.
    pub fn atoms(&self) -> usize {
        self.codes
            .iter()
            .filter(|&&code| code == Question::EQUATION || code == Question::AT_MOST)
            .count()
    }

    /// Writes the question to a vector of its own.
    ///
    /// ```
    /// use pelohuaki::{Question, Reason};
    ///
    /// let mut question = Question::empty();
    /// question.n = 7;
    /// assert_eq!(question.to_bytes().unwrap_err().reason, Reason::BeyondLimit);
    /// ```
    pub fn to_bytes(&self) -> Result<Vec<u8>, Refusal> {
        let mut bytes = vec![0; Question::BYTES];
        let written = write(self, &mut bytes)?;
        bytes.truncate(written);
        Ok(bytes)
    }
}

/// Reads the bytes of a question, all of them.
///
/// ```
/// use pelohuaki::{read, Question, Reason, Refusal};
///
/// // 5x + y = 3: a head of two variables, an equation, an end.
/// let mut bytes = [
///     0x01, 0x00, 0x01, 0x00, 2, //
///     0x0C, 0x00, 0x10, 0x00, 5, 0, 0, 0, 1, 0, 0, 0, 3, 0, 0, 0, //
///     0x00, 0x00, 0xFF, 0x00,
/// ];
/// let question = read(&bytes)?;
/// assert_eq!(question.n, 2);
/// assert_eq!(question.codes[..2], [Question::EQUATION, 0]);
/// assert_eq!(question.coefficients[0], [5, 1, 0, 0, 0, 0]);
/// assert_eq!(question.constants[0], 3);
///
/// // 4,097 is beyond a coefficient's limit, and is refused at its own first byte.
/// bytes[13..17].copy_from_slice(&4_097i32.to_le_bytes());
/// let refusal = read(&bytes).unwrap_err();
/// assert_eq!(refusal, Refusal { reason: Reason::Coefficient, place: 13 });
/// assert_eq!(refusal.to_string(), "refused 12 at 13: a coefficient beyond its limit");
/// # Ok::<(), Refusal>(())
/// ```
pub fn read(bytes: &[u8]) -> Result<Question, Refusal> {
    let mut question = Question::empty();
    let mut told = [0; 2];
    let number = linked::read(
        bytes,
        &mut question.codes,
        question.coefficients.as_flattened_mut(),
        &mut question.constants,
        &mut told,
    );
    let [place, n] = told;
    Refusal::of(number, place)?;
    question.n = n as u8;
    Ok(question)
}

/// Writes a question to the front of the buffer and gives the number of its bytes. The rest of the
/// buffer, and all of it where the call is refused, is unchanged.
///
/// ```
/// use pelohuaki::{write, Question, Reason};
///
/// // 2x = 1
/// let mut question = Question::empty();
/// question.n = 1;
/// question.codes[0] = Question::EQUATION;
/// question.coefficients[0][0] = 2;
/// question.constants[0] = 1;
/// let mut buffer = [0xA5; 30];
/// assert_eq!(write(&question, &mut buffer), Ok(21));
/// assert_eq!(buffer[17..22], [0x00, 0x00, 0xFF, 0x00, 0xA5]);
///
/// assert_eq!(write(&question, &mut buffer[..20]).unwrap_err().reason, Reason::Short);
///
/// // Node 1 is left over. Node 0, the equation, is checked before it.
/// question.codes[1] = Question::NOT;
/// let refusal = write(&question, &mut buffer).unwrap_err();
/// assert_eq!((refusal.reason, refusal.place), (Reason::LeftOver, 1));
/// question.constants[0] = Question::CONSTANT + 1;
/// let refusal = write(&question, &mut buffer).unwrap_err();
/// assert_eq!((refusal.reason, refusal.place), (Reason::Constant, 0));
/// ```
pub fn write(question: &Question, buffer: &mut [u8]) -> Result<usize, Refusal> {
    let mut told = [0; 2];
    let number = linked::write(
        question.n,
        &question.codes,
        question.coefficients.as_flattened(),
        &question.constants,
        buffer,
        &mut told,
    );
    let [place, written] = told;
    Refusal::of(number, place)?;
    Ok(written as usize)
}
