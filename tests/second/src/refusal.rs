//! Refusals: a number of document 01's table or of document 02, and a place.

/// What an operation answers: its result, or a refusal.
pub type Answer<T> = Result<T, Refusal>;

/// Why an input is turned down; the cases have the documents' numbers.
#[derive(Clone, Copy, Debug, PartialEq, Eq)]
#[repr(u8)]
pub enum Reason {
    FileEnds = 1,
    BytesAfter,
    OutOfRange,
    BadValue,
    StrayMapBit,
    BadNode,
    BufferTooShort,
    ListTooLong,
    DoesNotApply,
    GoalNotMet,
    NoSuchStep,
    StateLength,
    Lacking = 17,
}

/// A refusal: why, and the file offset, index, variable, length or limit that goes with it.
#[derive(Clone, Copy, Debug, PartialEq, Eq)]
pub struct Refusal {
    pub reason: Reason,
    pub place: usize,
}

impl Reason {
    /// The refusal for this reason at a place, as an answer.
    pub fn at<T>(self, place: usize) -> Answer<T> {
        Err(Refusal { reason: self, place })
    }
}
