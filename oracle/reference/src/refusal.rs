//! The refusals of document 01 and their numbers.

#[derive(Clone, Copy, Debug, PartialEq, Eq)]
pub enum Refusal {
    Shape,
    Damaged,
    LongKey,
    LongValue,
    /// With the length needed.
    ShortOutput(usize),
    InvertedRange,
    NoLeaf,
    NoRoom,
}

impl Refusal {
    pub fn number(self) -> u32 {
        match self {
            Refusal::Shape => 1,
            Refusal::Damaged => 2,
            Refusal::LongKey => 3,
            Refusal::LongValue => 4,
            Refusal::ShortOutput(_) => 5,
            Refusal::InvertedRange => 6,
            Refusal::NoLeaf => 7,
            Refusal::NoRoom => 8,
        }
    }
}

pub fn refuse_if(condition: bool, refusal: Refusal) -> Result<(), Refusal> {
    if condition {
        Err(refusal)
    } else {
        Ok(())
    }
}
