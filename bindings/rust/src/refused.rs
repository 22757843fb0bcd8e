use std::fmt;

/// Why a call was refused. A refused call writes to none of its slices.
#[derive(Clone, Copy, Debug, PartialEq, Eq, Hash)]
#[repr(u32)]
pub enum Refused {
    /// Order over 32 (2D, or one axis) or over 21 (3D).
    Order = 1,
    /// A cell coordinate is 2^order or more.
    Coordinate = 2,
    /// A decoder's index is 4^order (2D) or 8^order (3D) or more.
    Index = 3,
    /// No points: the x slice is empty.
    NoPoints = 4,
    /// Slice lengths don't fit.
    Lengths = 5,
    /// A coordinate is NaN, infinite, or over 1,048,576 in size.
    Value = 6,
    /// An axis is thin: its rounded width is above 0 and below 2^-20.
    Thin = 7,
    /// Low above high, or a value outside low to high.
    Outside = 8,
    /// A side is 0 or over 1,024, or there are over 65,536 cells.
    Sides = 9,
    /// Depth over 12.
    Depth = 10,
    /// A weight over 16,777,215.
    Weight = 11,
    /// A part count of 0 or over 1,024, or over 65,536 points.
    Counts = 12,
    /// The edition is neither 1 nor 2.
    Edition = 13,
    /// The first axis is not one of the grid's.
    First = 14,
    /// An event's cell is not in the grid.
    Cell = 20,
}

impl Refused {
    /// Every refusal, in the order of the numbers.
    pub const ALL: [Refused; 15] = [
        Refused::Order,
        Refused::Coordinate,
        Refused::Index,
        Refused::NoPoints,
        Refused::Lengths,
        Refused::Value,
        Refused::Thin,
        Refused::Outside,
        Refused::Sides,
        Refused::Depth,
        Refused::Weight,
        Refused::Counts,
        Refused::Edition,
        Refused::First,
        Refused::Cell,
    ];

    /// The number of the refusal.
    pub fn number(self) -> u32 {
        self as u32
    }
}

impl fmt::Display for Refused {
    fn fmt(&self, f: &mut fmt::Formatter<'_>) -> fmt::Result {
        f.write_str(match self {
            Refused::Order => "order over 32 (2D, or one axis) or over 21 (3D)",
            Refused::Coordinate => "a cell coordinate is 2^order or more",
            Refused::Index => "a decoder's index is 4^order (2D) or 8^order (3D) or more",
            Refused::NoPoints => "no points: the x slice is empty",
            Refused::Lengths => "slice lengths don't fit",
            Refused::Value => "a coordinate is NaN, infinite, or over 1,048,576 in size",
            Refused::Thin => "an axis is thin: its rounded width is above 0 and below 2^-20",
            Refused::Outside => "low above high, or a value outside low to high",
            Refused::Sides => "a side is 0 or over 1,024, or there are over 65,536 cells",
            Refused::Depth => "depth over 12",
            Refused::Weight => "a weight over 16,777,215",
            Refused::Counts => "a part count of 0 or over 1,024, or over 65,536 points",
            Refused::Edition => "the edition is neither 1 nor 2",
            Refused::First => "the first axis is not one of the grid's",
            Refused::Cell => "an event's cell is not in the grid",
        })
    }
}

impl std::error::Error for Refused {}

/// The value where the library returned 0, else the refusal of its number, which is proved to be one of all.
pub(crate) fn answered<T>(number: u32, value: T) -> Result<T, Refused> {
    match Refused::ALL.into_iter().find(|refused| refused.number() == number) {
        None => Ok(value),
        Some(refused) => Err(refused),
    }
}
