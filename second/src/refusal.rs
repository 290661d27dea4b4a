//! The table "Refusal numbers, tested in this order" of document 01, and what the
//! requests of document 02 make of it.

/// A refusal with what it carries, which for most of them is nothing but their number.
#[derive(Clone, Copy, Debug, PartialEq, Eq, Hash)]
pub enum Refusal {
    OutOfBounds,
    NoListFits,
    WrongBytes,
    LastGenerationUsed,
    NumberOutOfRange,
    /// Where the record begins.
    MalformedRecord {
        offset: usize,
    },
    /// Of a dump that is walked or moved, of what a move would make of it, or of
    /// bytes for a HEX text.
    TooManyBytes,
    OutputTooShort,
    SerialOutOfBounds,
    /// Of a read in form 1.
    Blank,
    /// Of a move to an old dump: a listed form that it cannot hold.
    FormNotHeld,
    /// Of a move to a new dump.
    TooManyLayouts,
    /// Of a write of many numbers.
    TooManyNumbers,
    /// The zero groups point to a generation that has another count than the unerased
    /// groups are. Zero groups are unerased too.
    Miscounted {
        generation: usize,
        unerased: usize,
    },
    /// The places are as many as the generation has, but the number on them is not below
    /// the range.
    Beyond {
        generation: usize,
    },
    /// Of a write that is to be resumed: the cells have a reading or are blank.
    NotCutOff,
    /// Of two fields as one.
    UnequalRanges,
    LineShape,
    WrongSum,
    DataOutside,
    NoEnd,
    /// Or text after the end line.
    OtherType,
}

impl Refusal {
    pub fn number(self) -> u8 {
        match self {
            Refusal::OutOfBounds => 1,
            Refusal::NoListFits => 2,
            Refusal::WrongBytes => 3,
            Refusal::LastGenerationUsed => 5,
            Refusal::NumberOutOfRange => 6,
            Refusal::MalformedRecord { .. } => 7,
            Refusal::TooManyBytes => 8,
            Refusal::OutputTooShort => 9,
            Refusal::SerialOutOfBounds => 10,
            Refusal::Blank => 11,
            Refusal::FormNotHeld => 12,
            Refusal::TooManyLayouts => 13,
            Refusal::TooManyNumbers => 14,
            Refusal::Miscounted { .. } => 15,
            Refusal::Beyond { .. } => 16,
            Refusal::NotCutOff => 17,
            Refusal::UnequalRanges => 18,
            Refusal::LineShape => 20,
            Refusal::WrongSum => 21,
            Refusal::DataOutside => 22,
            Refusal::NoEnd => 23,
            Refusal::OtherType => 24,
        }
    }

    /// What a line tells behind the number, in this order.
    pub fn carried(self) -> Vec<usize> {
        match self {
            Refusal::MalformedRecord { offset } => vec![offset],
            Refusal::Miscounted {
                generation,
                unerased,
            } => vec![generation, unerased],
            Refusal::Beyond { generation } => vec![generation],
            _ => Vec::new(),
        }
    }
}
