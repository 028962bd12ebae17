use crate::{linked, Question, Refusal};
use std::ops::Range;

/// A question that was imported from a text, with the names of its variables.
#[derive(Clone, Debug, PartialEq, Eq, Hash)]
pub struct Imported {
    /// The question. Its variables are the names in the order in which they are declared.
    pub question: Question,
    names: [Range<usize>; Question::VARIABLES],
}

impl Imported {
    /// Where each variable's name stands in the text, without the bars of a quoted one.
    pub fn names(&self) -> &[Range<usize>] {
        &self.names[..usize::from(self.question.n)]
    }
}

/// Imports the question of a text in SMT-LIB 2.6, logic QF_LIA.
///
/// A subset is taken: `set-logic`, `declare-const` of sort `Int`, `assert` and `check-sat`, with
/// linear terms, comparisons, `and`, `or` and `not`. Each name needs an assertion that it is not
/// negative, which adds no atom. The question holds for the same naturals as the text, and no other
/// integers satisfy the text.
///
/// ```
/// use pelohuaki::{import, values, Answer, Question, Reason, Refusal, Room};
///
/// let text = b"(set-logic QF_LIA)
///     (declare-const x Int)
///     (declare-const |the rest| Int)
///     (assert (>= x 0))
///     (assert (>= |the rest| 0))
///     (assert (= (+ (* 5 x) |the rest|) 3))
///     (check-sat)";
/// let imported = import(text)?;
/// let names: Vec<&[u8]> = imported.names().iter().map(|name| &text[name.clone()]).collect();
/// assert_eq!(names, [&b"x"[..], b"the rest"]);
///
/// // 5x + y = 3
/// let question = imported.question;
/// assert_eq!(question.codes[..2], [Question::EQUATION, 0]);
/// assert_eq!(question.coefficients[0], [5, 1, 0, 0, 0, 0]);
/// assert_eq!(question.constants[0], 3);
///
/// // x = 0 and the rest 3
/// let mut room = Room::new(1_024);
/// let Answer::Found { word, .. } = room.decide(&question.to_bytes()?)? else { panic!("sat") };
/// assert_eq!(values(2, word)?, [0, 3]);
///
/// let refusal = import(b"(set-logic QF_NIA)").unwrap_err();
/// assert_eq!(refusal, Refusal { reason: Reason::OutsideSubset, place: 11 });
/// let refusal = import(b"(set-logic").unwrap_err();
/// assert_eq!(refusal, Refusal { reason: Reason::NotWellFormed, place: 10 });
/// # Ok::<(), Refusal>(())
/// ```
pub fn import(text: &[u8]) -> Result<Imported, Refusal> {
    let mut question = Question::empty();
    let mut told = [0; 2 + 2 * Question::VARIABLES];
    let number = linked::import(
        text,
        &mut question.codes,
        question.coefficients.as_flattened_mut(),
        &mut question.constants,
        &mut told,
    );
    let [place, n, bounds @ ..] = told;
    Refusal::of(number, place)?;
    question.n = n as u8;
    let name = |i: usize| bounds[2 * i] as usize..bounds[2 * i + 1] as usize;
    Ok(Imported {
        question,
        names: std::array::from_fn(name),
    })
}
