use crate::{linked, Refusal};
use std::iter::FusedIterator;

/// One record: its kind, and its body as that stretch of the caller's bytes.
#[derive(Clone, Copy, Debug, PartialEq, Eq, Hash)]
pub struct Record<'b> {
    /// The record's first byte.
    pub place: usize,
    /// The kind, which may be any number: a bare step knows no formula.
    pub kind: u16,
    /// The body, uncopied.
    pub body: &'b [u8],
    /// The first byte after the record.
    pub next: usize,
}

impl Record<'_> {
    /// The kind of a head; its body is n.
    pub const HEAD: u16 = 0x0001;
    /// The kind of an equation; its body is n coefficients and a constant.
    pub const EQUATION: u16 = 0x0010;
    /// The kind of at most; its body is as an equation's.
    pub const AT_MOST: u16 = 0x0011;
    /// The kind of not.
    pub const NOT: u16 = 0x0020;
    /// The kind of and.
    pub const AND: u16 = 0x0021;
    /// The kind of or.
    pub const OR: u16 = 0x0022;
    /// The kind of the end.
    pub const END: u16 = 0x00FF;
}

/// A place in a question, opened on the caller's own bytes and moved record by record.
///
/// A step is refused only where the bytes end too soon, and the place then stays. As an iterator
/// (`for record in place`) it ends with the bytes, or after the first refusal.
///
/// ```
/// use pelohuaki::{Place, Record, Reason, Refusal};
///
/// // The head and the equation of 5x + y = 3, and an end that is cut.
/// let bytes = [
///     0x01, 0x00, 0x01, 0x00, 2, //
///     0x0C, 0x00, 0x10, 0x00, 5, 0, 0, 0, 1, 0, 0, 0, 3, 0, 0, 0, //
///     0x00, 0x00, 0xFF,
/// ];
/// let mut place = Place::open(&bytes);
/// let head = place.next_record()?;
/// assert_eq!((head.kind, head.body), (Record::HEAD, &bytes[4..5]));
/// let equation = place.next_record()?;
/// assert_eq!((equation.kind, equation.place, equation.next), (Record::EQUATION, 5, 21));
/// assert_eq!(equation.body.as_ptr(), bytes[9..].as_ptr());
///
/// let refusal = Refusal { reason: Reason::Cut, place: 21 };
/// assert_eq!(place.next_record(), Err(refusal));
/// assert_eq!(place.at(), 21);
///
/// let kinds: Vec<_> = Place::open(&bytes).into_iter().map(|step| step.map(|r| r.kind)).collect();
/// assert_eq!(kinds, [Ok(Record::HEAD), Ok(Record::EQUATION), Err(refusal)]);
/// # Ok::<(), Refusal>(())
/// ```
#[derive(Clone, Copy, Debug, PartialEq, Eq, Hash)]
pub struct Place<'b> {
    bytes: &'b [u8],
    at: usize,
}

impl<'b> Place<'b> {
    /// The place at the first byte.
    pub fn open(bytes: &'b [u8]) -> Place<'b> {
        Place { bytes, at: 0 }
    }

    /// The bytes that the place was opened on.
    pub fn bytes(&self) -> &'b [u8] {
        self.bytes
    }

    /// Where the place is: the first byte of the next record.
    pub fn at(&self) -> usize {
        self.at
    }

    /// The record at the place, which is not moved.
    pub fn peek_record(&self) -> Result<Record<'b>, Refusal> {
        let mut told = [0; 5];
        let number = linked::record_at(self.bytes, self.at, &mut told);
        let [place, kind, start, length, next] = told;
        Refusal::of(number, place)?;
        Ok(Record {
            place: self.at,
            kind: kind as u16,
            body: &self.bytes[start as usize..][..length as usize],
            next: next as usize,
        })
    }

    /// The record at the place, which is moved past it; where it is refused, the place stays.
    pub fn next_record(&mut self) -> Result<Record<'b>, Refusal> {
        let record = self.peek_record()?;
        self.at = record.next;
        Ok(record)
    }
}

impl<'b> IntoIterator for Place<'b> {
    type Item = Result<Record<'b>, Refusal>;
    type IntoIter = Records<'b>;

    fn into_iter(self) -> Records<'b> {
        Records {
            place: self,
            stopped: false,
        }
    }
}

/// The records from a [`Place`] on: up to the end of the bytes, or to the first refusal.
#[derive(Clone, Debug)]
pub struct Records<'b> {
    place: Place<'b>,
    stopped: bool,
}

impl<'b> Iterator for Records<'b> {
    type Item = Result<Record<'b>, Refusal>;

    fn next(&mut self) -> Option<Self::Item> {
        if self.stopped || self.place.at == self.place.bytes.len() {
            return None;
        }
        let step = self.place.next_record();
        self.stopped = step.is_err();
        Some(step)
    }
}

impl FusedIterator for Records<'_> {}
