use crate::{linked, Refusal};

/// Whether these values, in variable order, satisfy the question.
///
/// ```
/// use pelohuaki::{judge, Question, Reason};
/// # const FIVE: [u8; 25] = [
/// #     1, 0, 0x01, 0, 2, 12, 0, 0x10, 0, 5, 0, 0, 0, 1, 0, 0, 0, 3, 0, 0, 0, 0, 0, 0xFF, 0,
/// # ];
///
/// // FIVE has the bytes of 5x + y = 3.
/// assert_eq!(judge(&FIVE, &[0, 3]), Ok(true));
/// assert_eq!(judge(&FIVE, &[1, 3]), Ok(false));
/// assert_eq!(judge(&FIVE, &[0]).unwrap_err().reason, Reason::Values);
/// assert_eq!(judge(&FIVE, &[0, Question::VALUE + 1]).unwrap_err().reason, Reason::Values);
/// ```
pub fn judge(bytes: &[u8], values: &[u64]) -> Result<bool, Refusal> {
    let mut told = [0; 2];
    let number = linked::judge(bytes, values, &mut told);
    let [place, yes] = told;
    Refusal::of(number, place)?;
    Ok(yes == 1)
}
