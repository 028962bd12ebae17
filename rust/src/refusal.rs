use std::error::Error;
use std::fmt;

/// Why a call is refused: the fifteen reasons, by their numbers.
#[derive(Clone, Copy, Debug, PartialEq, Eq, PartialOrd, Ord, Hash)]
#[repr(u8)]
pub enum Reason {
    /// 1: the bytes end too soon.
    Cut = 1,
    /// 2: a kind of record or a node code that is not due.
    NotDue = 2,
    /// 3: a body of the wrong length.
    WrongLength = 3,
    /// 4: n or a variable's number is beyond its limit.
    BeyondLimit = 4,
    /// 5: too many nodes or atoms, or too deep.
    TooMany = 5,
    /// 6: something is left over.
    LeftOver = 6,
    /// 7: no room for the states.
    NoRoom = 7,
    /// 8: the word or byte buffer is too short.
    Short = 8,
    /// 9: other than n values, a value above the judge's limit, or a word too long to spell.
    Values = 9,
    /// 10: a letter of 2^n or more.
    Letter = 10,
    /// 11: a malformed table.
    Table = 11,
    /// 12: a coefficient is beyond its limit.
    Coefficient = 12,
    /// 13: a constant is beyond its limit.
    Constant = 13,
    /// 14: a text that is not well formed by SMT-LIB's lexicon, or nested too deep.
    NotWellFormed = 14,
    /// 15: a text outside the subset that is imported.
    OutsideSubset = 15,
}

impl Reason {
    /// Every reason, in the order of the numbers.
    pub const ALL: [Reason; 15] = [
        Reason::Cut,
        Reason::NotDue,
        Reason::WrongLength,
        Reason::BeyondLimit,
        Reason::TooMany,
        Reason::LeftOver,
        Reason::NoRoom,
        Reason::Short,
        Reason::Values,
        Reason::Letter,
        Reason::Table,
        Reason::Coefficient,
        Reason::Constant,
        Reason::NotWellFormed,
        Reason::OutsideSubset,
    ];

    /// The reason's number, from 1 to 15.
    ///
    /// ```
    /// use pelohuaki::Reason;
    /// assert_eq!(Reason::BeyondLimit.number(), 4);
    /// ```
    pub fn number(self) -> u8 {
        self as u8
    }

    /// The reason with a number, if there is one.
    ///
    /// ```
    /// use pelohuaki::Reason;
    /// assert_eq!(Reason::from_number(12), Some(Reason::Coefficient));
    /// assert_eq!(Reason::from_number(16), None);
    /// ```
    pub fn from_number(number: u8) -> Option<Reason> {
        Reason::ALL
            .into_iter()
            .find(|reason| reason.number() == number)
    }
}

impl fmt::Display for Reason {
    fn fmt(&self, f: &mut fmt::Formatter<'_>) -> fmt::Result {
        f.write_str(match self {
            Reason::Cut => "bytes end too soon",
            Reason::NotDue => "kind or node code not due",
            Reason::WrongLength => "wrong body length",
            Reason::BeyondLimit => "n or a variable's number beyond its limit",
            Reason::TooMany => "too many nodes or atoms, or too deep",
            Reason::LeftOver => "something left over",
            Reason::NoRoom => "no room",
            Reason::Short => "word or byte buffer too short",
            Reason::Values => {
                "other than n values, a value above the judge's limit, or a word too long to spell"
            }
            Reason::Letter => "a letter of 2^n or more",
            Reason::Table => "a malformed table",
            Reason::Coefficient => "a coefficient beyond its limit",
            Reason::Constant => "a constant beyond its limit",
            Reason::NotWellFormed => "a text that is not well formed",
            Reason::OutsideSubset => "a text outside the subset",
        })
    }
}

/// A refusal: its reason and its place.
///
/// ```
/// use pelohuaki::{read, Reason, Refusal};
///
/// let refusal = read(&[]).unwrap_err();
/// assert_eq!(refusal, Refusal { reason: Reason::Cut, place: 0 });
/// assert_eq!(refusal.to_string(), "refused 1 at 0: bytes end too soon");
/// ```
#[derive(Clone, Copy, Debug, PartialEq, Eq, PartialOrd, Ord, Hash)]
pub struct Refusal {
    /// Why.
    pub reason: Reason,
    /// Where: in reading, the record's first byte, for 12 and 13 the number's own, or the first byte
    /// left over; in writing, the node's index, or 64 where only a number is left over; in importing,
    /// a byte of the text or its end; 0 where there is no place to name.
    pub place: usize,
}

impl Refusal {
    /// The reason's number, from 1 to 15.
    pub fn number(&self) -> u8 {
        self.reason.number()
    }

    /// What a call that answers this number and place says: 0 is no refusal.
    pub(crate) fn of(number: u64, place: u64) -> Result<(), Refusal> {
        if number == 0 {
            return Ok(());
        }
        let reason = u8::try_from(number).ok().and_then(Reason::from_number);
        match reason {
            Some(reason) => Err(Refusal {
                reason,
                place: place as usize,
            }),
            None => unreachable!("a call answers 0 to 15, and not {number}"),
        }
    }
}

impl fmt::Display for Refusal {
    fn fmt(&self, f: &mut fmt::Formatter<'_>) -> fmt::Result {
        write!(
            f,
            "refused {} at {}: {}",
            self.number(),
            self.place,
            self.reason
        )
    }
}

impl Error for Refusal {}
