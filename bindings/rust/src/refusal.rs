use std::fmt;

/// Why a call was refused. A refused call has changed nothing.
#[derive(Debug, Clone, Copy, PartialEq, Eq)]
#[repr(u32)]
pub enum Refusal {
    /// A removal asks for more units than stand right of its place.
    Short = 1,
    /// An index, or the end of a range, falls inside a surrogate pair.
    Pair = 2,
    /// Handed text has an unpaired surrogate. A `&str` never has one.
    Units = 3,
    /// The list would pass 2,048 items, or 16,384 units.
    Room = 4,
    /// A new name or value, and no number left.
    Full = 5,
    /// A name of 0 or over 32 bytes, or a string value over 32.
    Long = 6,
    /// A delta of over 256 operations, or one whose text is not in the lent units.
    Many = 7,
    /// A lent answer buffer is too small.
    Out = 8,
    /// What was lent as a sheet or a table is not sound.
    Broken = 9,
    /// A key over 15 or a value over 255.
    Key = 16,
}

impl Refusal {
    /// The number in the table of refusals.
    pub fn number(self) -> u32 {
        self as u32
    }

    pub(crate) fn check(number: u32) -> Result<(), Refusal> {
        Err(match number {
            0 => return Ok(()),
            1 => Refusal::Short,
            2 => Refusal::Pair,
            3 => Refusal::Units,
            4 => Refusal::Room,
            5 => Refusal::Full,
            6 => Refusal::Long,
            7 => Refusal::Many,
            8 => Refusal::Out,
            16 => Refusal::Key,
            _ => Refusal::Broken,
        })
    }
}

impl fmt::Display for Refusal {
    fn fmt(&self, f: &mut fmt::Formatter<'_>) -> fmt::Result {
        let words = match self {
            Refusal::Short => "SHORT: fewer units stand there than are to go",
            Refusal::Pair => "PAIR: an end falls inside a surrogate pair",
            Refusal::Units => "UNITS: the text has an unpaired surrogate",
            Refusal::Room => "ROOM: the sheet would pass its limits",
            Refusal::Full => "FULL: no number is left in the table",
            Refusal::Long => "LONG: a name or string has too many bytes, or none",
            Refusal::Many => "MANY: too many operations, or one whose text was not lent",
            Refusal::Out => "OUT: the answer does not fit",
            Refusal::Broken => "BROKEN: the sheet or table is not sound",
            Refusal::Key => "KEY: there is no such key or value",
        };
        write!(f, "refused {}, {}", self.number(), words)
    }
}

impl std::error::Error for Refusal {}
