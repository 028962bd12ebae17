//! A decision procedure for linear questions over the natural numbers, every call of which is proved
//! to meet its contract, for Rust.
//!
//! A question is a Boolean combination of equations and inequalities, such as `5x + y = 3`. It is
//! handed over as bytes ([`Question::to_bytes`] writes them) and decided in areas that the caller
//! lends, or in those of a [`Room`]:
//!
//! ```
//! use pelohuaki::{judge, values, Answer, Question, Room, Table};
//!
//! // 5x + y = 3
//! let mut question = Question::empty();
//! question.n = 2;
//! question.codes[0] = Question::EQUATION;
//! question.coefficients[0][..2].copy_from_slice(&[5, 1]);
//! question.constants[0] = 3;
//! let bytes = question.to_bytes()?;
//! assert_eq!(bytes.len(), 25);
//!
//! // The first word that satisfies it, and the values that the word spells.
//! let mut room = Room::new(1_024);
//! let Answer::Found { states, word } = room.decide(&bytes)? else { panic!("it has a solution") };
//! assert_eq!((states, word), (7, &[2, 2][..]));
//! assert_eq!(values(2, word)?, [0, 3]);
//! assert!(judge(&bytes, &[0, 3])?);
//!
//! // The table that says of every word whether its values satisfy the question.
//! let table = Table::build(&bytes, 1_024)?;
//! assert_eq!(table.states(), 9);
//! assert!(table.run(&[2, 2])?);
//!
//! // 2x = 1 has no solution, however large.
//! question.n = 1;
//! question.coefficients[0][..2].copy_from_slice(&[2, 0]);
//! question.constants[0] = 1;
//! assert_eq!(room.decide(&question.to_bytes()?)?, Answer::Never { states: 2 });
//! # Ok::<(), pelohuaki::Refusal>(())
//! ```
//!
//! Every input gets an answer: no call panics, and none asks anything of its caller. What a call
//! leaves in the areas that are lent to it is fixed for every answer. [`read`], [`write()`],
//! [`import`], [`Place`], [`judge`], [`decide`], [`build`], [`run`] and [`spell`] allocate nothing and
//! keep nothing from one call to the next; they may run on several threads. Deciding and building
//! take 263 KiB of stack each, importing less than 100 KiB.
//!
//! What is proved is the archive that this crate links. The crate itself turns Rust's types into
//! pointers and lengths and back, which is tested and not proved.

#![deny(missing_docs, unsafe_code)]

mod build;
mod decide;
mod import;
mod judge;
#[allow(unsafe_code)]
mod linked;
mod place;
mod question;
mod refusal;
mod words;

pub use build::{build, Building, Table};
pub use decide::{decide, Answer, Decision, Room, DEAD};
pub use import::{import, Imported};
pub use judge::judge;
pub use place::{Place, Record, Records};
pub use question::{read, write, Question};
pub use refusal::{Reason, Refusal};
pub use words::{run, spell, values};

/// The calls as the archive has them, on slices.
///
/// Each answers the refusal's number, 0 where nothing is refused, and puts the rest of its answer into
/// `told`, as many of the cells that are named as are lent. Where it is refused, the cells after the
/// place are 0, except that [`decide`](lent::decide) and [`build`](lent::build) tell the states with 7
/// and 8, and deciding the letters with 8.
///
/// ```
/// let mut told = [9; 3];
/// assert_eq!(pelohuaki::lent::spell(2, 2, &[2, 2], &mut told), 0);
/// assert_eq!(told, [0, 3, 9]);
/// assert_eq!(pelohuaki::lent::spell(2, 2, &[4], &mut told[..1]), 10);
/// assert_eq!(told, [0, 3, 9]);
/// ```
pub mod lent {
    pub use crate::linked::{build, decide, import, judge, read, record_at, run, spell, write};
}
