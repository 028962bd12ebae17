use crate::{linked, Refusal};

/// Runs a table of n variables on a word, from row 0 on: whether the row in which it ends accepts.
///
/// The cells are the table's filled rows alone. They are checked at each call, whoever wrote them.
///
/// ```
/// use pelohuaki::{run, Reason};
///
/// // One variable, rows of three cells: the words with an odd number of letters 1.
/// let odd = [0, 0, 1, 1, 1, 0];
/// assert_eq!(run(1, &odd, &[0, 1, 1, 1]), Ok(true));
/// assert_eq!(run(1, &odd, &[]), Ok(false));
/// assert_eq!(run(1, &odd, &[2]).unwrap_err().reason, Reason::Letter);
/// assert_eq!(run(1, &odd[..5], &[]).unwrap_err().reason, Reason::Table);
/// assert_eq!(run(7, &odd, &[]).unwrap_err().reason, Reason::BeyondLimit);
/// ```
pub fn run(n: usize, cells: &[u16], word: &[u8]) -> Result<bool, Refusal> {
    let mut told = [0; 2];
    let number = linked::run(n, cells, word, &mut told);
    let [place, yes] = told;
    Refusal::of(number, place)?;
    Ok(yes == 1)
}

/// What a word of n variables spells for a variable from 1 to n.
///
/// A letter has one binary digit of every variable, that of variable 1 in its lowest bit; low digits
/// come first. A word of more than 64 letters is refused.
///
/// ```
/// use pelohuaki::{spell, Reason};
///
/// // The letters 2 2, two variables: x = 0 and y = 3.
/// assert_eq!(spell(2, 1, &[2, 2]), Ok(0));
/// assert_eq!(spell(2, 2, &[2, 2]), Ok(3));
/// assert_eq!(spell(1, 1, &[1; 64]), Ok(u64::MAX));
/// assert_eq!(spell(1, 1, &[1; 65]).unwrap_err().reason, Reason::Values);
/// assert_eq!(spell(2, 3, &[]).unwrap_err().reason, Reason::BeyondLimit);
/// ```
pub fn spell(n: usize, variable: usize, word: &[u8]) -> Result<u64, Refusal> {
    let mut told = [0; 2];
    let number = linked::spell(n, variable, word, &mut told);
    let [place, value] = told;
    Refusal::of(number, place)?;
    Ok(value)
}

/// What a word of n variables spells for each of them, in variable order.
///
/// ```
/// use pelohuaki::values;
///
/// assert_eq!(values(2, &[2, 2]), Ok(vec![0, 3]));
/// assert_eq!(values(3, &[]), Ok(vec![0, 0, 0]));
/// assert!(values(0, &[]).is_err());
/// ```
pub fn values(n: usize, word: &[u8]) -> Result<Vec<u64>, Refusal> {
    // n = 0 has no variable to be refused at, so that the first is asked for all the same
    let first = spell(n, 1, word)?;
    std::iter::once(Ok(first))
        .chain((2..=n).map(|variable| spell(n, variable, word)))
        .collect()
}
