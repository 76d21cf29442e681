//! Why a call was refused.

use std::fmt;

/// Why a table or a call was refused; a table's refusal has the byte at fault,
/// counted from 0. The names and numbers are those of `enum fluviquen_refusal` in
/// include/fluviquen.h.
#[derive(Clone, Copy, Debug, PartialEq, Eq, Hash, PartialOrd, Ord)]
#[non_exhaustive]
pub enum Refusal {
    TableTooLong,
    /// The place is where the missing count or record would begin.
    TableCut {
        place: usize,
    },
    TableCount {
        place: usize,
    },
    /// The place is that of the count or record after which it is tested.
    TableDisagrees {
        place: usize,
    },
    /// The place is that of the first byte left over.
    TableLeftover {
        place: usize,
    },
    /// The place is the table's length.
    TableLimits {
        place: usize,
    },
    RegisterShort,
    RegisterImpossible,
    RegisterFull,
    RegisterStopped,
    ReportShort,
    SampleLength,
    SampleWidth,
    NotThere,
    TableField {
        place: usize,
    },
    TableValue {
        place: usize,
    },
    TableUnused {
        place: usize,
    },
}

impl Refusal {
    /// The refusal with this number, of a table at this place.
    pub fn from_number(number: u32, place: usize) -> Option<Refusal> {
        Some(match number {
            1 => Refusal::TableTooLong,
            2 => Refusal::TableCut { place },
            3 => Refusal::TableCount { place },
            4 => Refusal::TableDisagrees { place },
            5 => Refusal::TableLeftover { place },
            6 => Refusal::TableLimits { place },
            7 => Refusal::RegisterShort,
            8 => Refusal::RegisterImpossible,
            9 => Refusal::RegisterFull,
            10 => Refusal::RegisterStopped,
            11 => Refusal::ReportShort,
            12 => Refusal::SampleLength,
            13 => Refusal::SampleWidth,
            14 => Refusal::NotThere,
            15 => Refusal::TableField { place },
            16 => Refusal::TableValue { place },
            17 => Refusal::TableUnused { place },
            _ => return None,
        })
    }

    /// The number that the library gives.
    pub fn number(self) -> u32 {
        match self {
            Refusal::TableTooLong => 1,
            Refusal::TableCut { .. } => 2,
            Refusal::TableCount { .. } => 3,
            Refusal::TableDisagrees { .. } => 4,
            Refusal::TableLeftover { .. } => 5,
            Refusal::TableLimits { .. } => 6,
            Refusal::RegisterShort => 7,
            Refusal::RegisterImpossible => 8,
            Refusal::RegisterFull => 9,
            Refusal::RegisterStopped => 10,
            Refusal::ReportShort => 11,
            Refusal::SampleLength => 12,
            Refusal::SampleWidth => 13,
            Refusal::NotThere => 14,
            Refusal::TableField { .. } => 15,
            Refusal::TableValue { .. } => 16,
            Refusal::TableUnused { .. } => 17,
        }
    }

    /// Whether it is the table that is refused, and not the call.
    pub fn is_of_table(self) -> bool {
        matches!(self.number(), 1..=6 | 15..=17)
    }

    /// The table's byte to look at. None where the call is refused, or the table
    /// is too long.
    pub fn place(self) -> Option<usize> {
        match self {
            Refusal::TableCut { place }
            | Refusal::TableCount { place }
            | Refusal::TableDisagrees { place }
            | Refusal::TableLeftover { place }
            | Refusal::TableLimits { place }
            | Refusal::TableField { place }
            | Refusal::TableValue { place }
            | Refusal::TableUnused { place } => Some(place),
            _ => None,
        }
    }

    /// The refusal in words.
    pub fn reason(self) -> &'static str {
        match self {
            Refusal::TableTooLong => "the table is over 65,536 bytes",
            Refusal::TableCut { .. } => "a count or record of the table runs past its end",
            Refusal::TableCount { .. } => "a section count or an owned count outside its limits",
            Refusal::TableDisagrees { .. } => {
                "counts, defaults, sequences, crosses or expressions of the table do not agree"
            }
            Refusal::TableLeftover { .. } => "the table has bytes after section ten",
            Refusal::TableLimits { .. } => {
                "the table has over 256 places at a point, or over 1,024 products in a cross"
            }
            Refusal::RegisterShort => "the register is shorter than the table needs",
            Refusal::RegisterImpossible => {
                "the register has a flag above 1, or a count above its sample word"
            }
            Refusal::RegisterFull => "the register has taken 4,294,967,295 samples",
            Refusal::RegisterStopped => "the register is stopped",
            Refusal::ReportShort => "the report is shorter than the number of illegal places",
            Refusal::SampleLength => "the sample has not 4 + 2 x points words",
            Refusal::SampleWidth => "the sample has a value or unknown bit above a point's width",
            Refusal::NotThere => "there is no such place, point or item",
            Refusal::TableField { .. } => {
                "a field outside its allowed values, or a guard at an ignore bin"
            }
            Refusal::TableValue { .. } => {
                "a, b, lo or hi outside the point's type, out of order, or a pattern outside its mask"
            }
            Refusal::TableUnused { .. } => "an unused field without its unused value",
        }
    }
}

impl fmt::Display for Refusal {
    fn fmt(&self, f: &mut fmt::Formatter<'_>) -> fmt::Result {
        if self.is_of_table() {
            write!(f, "table ")?;
        }
        write!(f, "refused: {}", self.number())?;
        if let Some(place) = self.place() {
            write!(f, " at byte {place}")?;
        }
        write!(f, " ({})", self.reason())
    }
}

impl std::error::Error for Refusal {}

/// Some samples of a batch were taken, and the next one was refused: it and those
/// after it have written nothing.
#[derive(Clone, Copy, Debug, PartialEq, Eq, Hash)]
pub struct Halted {
    /// How many samples were taken.
    pub taken: usize,
    pub refusal: Refusal,
}

impl fmt::Display for Halted {
    fn fmt(&self, f: &mut fmt::Formatter<'_>) -> fmt::Result {
        write!(f, "after {} samples, {}", self.taken, self.refusal)
    }
}

impl std::error::Error for Halted {}
