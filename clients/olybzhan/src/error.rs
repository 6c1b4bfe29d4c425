use core::fmt;

/// Why a call was refused. A refused call has changed nothing.
///
/// The numbers are those of the project's specification, document 01, and the
/// same that the C header gives.
#[derive(Clone, Copy, Debug, PartialEq, Eq, Hash)]
pub enum Error {
    /// 1: an index of such sizes can't be made.
    Shape,
    /// 2: the buffers hold no index. Safe code sees it only of
    /// [`Index::resume`](crate::Index::resume), unless the memory itself has
    /// failed.
    Damaged,
    /// 3: a key, prefix or bound key over [`KEY_LIMIT`](crate::KEY_LIMIT).
    LongKey,
    /// 4: a value over [`VALUE_LIMIT`](crate::VALUE_LIMIT).
    LongValue,
    /// 5: the old value doesn't fit the lent output.
    ShortOutput {
        /// The length that would do.
        needed: usize,
    },
    /// 6: a range whose start key is above its end key.
    InvertedRange,
    /// 7: the insert needs one leaf more than the pool has.
    NoLeaf,
    /// 8: the insert needs more bytes than the arena has.
    NoRoom,
}

impl Error {
    /// Document 01's number.
    ///
    /// ```
    /// assert_eq!(olybzhan::Error::NoRoom.number(), 8);
    /// ```
    pub fn number(self) -> usize {
        match self {
            Error::Shape => 1,
            Error::Damaged => 2,
            Error::LongKey => 3,
            Error::LongValue => 4,
            Error::ShortOutput { .. } => 5,
            Error::InvertedRange => 6,
            Error::NoLeaf => 7,
            Error::NoRoom => 8,
        }
    }

    /// An answer's refusal, and the length with it: none is 0.
    pub(crate) fn check(refusal: usize, length: usize) -> Result<(), Error> {
        match refusal {
            0 => Ok(()),
            1 => Err(Error::Shape),
            2 => Err(Error::Damaged),
            3 => Err(Error::LongKey),
            4 => Err(Error::LongValue),
            5 => Err(Error::ShortOutput { needed: length }),
            6 => Err(Error::InvertedRange),
            7 => Err(Error::NoLeaf),
            8 => Err(Error::NoRoom),
            other => unreachable!("there is no refusal {other}"),
        }
    }
}

impl fmt::Display for Error {
    fn fmt(&self, f: &mut fmt::Formatter<'_>) -> fmt::Result {
        match self {
            Error::Shape => write!(f, "no index has such sizes"),
            Error::Damaged => write!(f, "the buffers hold no index"),
            Error::LongKey => write!(f, "the key is over {} bytes", crate::KEY_LIMIT),
            Error::LongValue => write!(f, "the value is over {} bytes", crate::VALUE_LIMIT),
            Error::ShortOutput { needed } => write!(f, "the output needs {needed} bytes"),
            Error::InvertedRange => write!(f, "the range's start is above its end"),
            Error::NoLeaf => write!(f, "no leaf is free"),
            Error::NoRoom => write!(f, "the arena has no room"),
        }
    }
}

impl core::error::Error for Error {}

#[cfg(test)]
mod tests {
    use super::*;

    #[test]
    fn numbers_there_and_back() {
        assert_eq!(Error::check(0, 0), Ok(()));
        for number in 1..=8 {
            let error = Error::check(number, 9).unwrap_err();
            assert_eq!(error.number(), number);
            assert!(error != Error::ShortOutput { needed: 0 });
        }
    }
}
