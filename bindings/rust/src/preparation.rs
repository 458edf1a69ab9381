//! How an edge is prepared for the weld.

use std::error::Error;
use std::fmt;

/// How an edge is prepared for the weld. In a lent table it is a number, the
/// last one of the edge's row.
///
/// ```
/// use kaugrenna::Preparation;
/// let row = [3, 1, 1, 7, Preparation::SingleBevel.into()];
/// assert_eq!(row, [3, 1, 1, 7, 1]);
/// assert_eq!(Preparation::try_from(row[4]), Ok(Preparation::SingleBevel));
/// assert_eq!(Preparation::DoubleBevel.to_string(), "double bevel");
/// ```
#[derive(Clone, Copy, Debug, Default, PartialEq, Eq, Hash)]
#[repr(u32)]
pub enum Preparation {
    /// Without a bevel, as the seams of a split are.
    #[default]
    Square = 0,
    /// A bevel on one side.
    SingleBevel = 1,
    /// A bevel on both sides.
    DoubleBevel = 2,
}

impl Preparation {
    /// All preparations, in the order of their numbers, which begin with 0.
    pub const ALL: [Preparation; 3] = [
        Preparation::Square,
        Preparation::SingleBevel,
        Preparation::DoubleBevel,
    ];
}

impl From<Preparation> for u32 {
    fn from(preparation: Preparation) -> u32 {
        preparation as u32
    }
}

/// A number of no preparation. Every call that is lent edges refuses it
/// ([`Refusal::Malformed`](crate::Refusal::Malformed)).
#[derive(Clone, Copy, Debug, PartialEq, Eq)]
pub struct NoPreparation(pub u32);

impl fmt::Display for NoPreparation {
    fn fmt(&self, to: &mut fmt::Formatter<'_>) -> fmt::Result {
        write!(
            to,
            "{} is above 2, the last number of a preparation",
            self.0
        )
    }
}

impl Error for NoPreparation {}

impl TryFrom<u32> for Preparation {
    type Error = NoPreparation;

    fn try_from(number: u32) -> Result<Preparation, NoPreparation> {
        match number {
            0 => Ok(Preparation::Square),
            1 => Ok(Preparation::SingleBevel),
            2 => Ok(Preparation::DoubleBevel),
            _ => Err(NoPreparation(number)),
        }
    }
}

impl fmt::Display for Preparation {
    fn fmt(&self, to: &mut fmt::Formatter<'_>) -> fmt::Result {
        to.write_str(match self {
            Preparation::Square => "square",
            Preparation::SingleBevel => "single bevel",
            Preparation::DoubleBevel => "double bevel",
        })
    }
}

#[cfg(test)]
mod tests {
    use super::{NoPreparation, Preparation};

    #[test]
    fn numbers_and_words() {
        let words = ["square", "single bevel", "double bevel"];
        for ((number, preparation), word) in (0..).zip(Preparation::ALL).zip(words) {
            assert_eq!(u32::from(preparation), number);
            assert_eq!(Preparation::try_from(number), Ok(preparation));
            assert_eq!(preparation.to_string(), word);
        }
        assert_eq!(Preparation::default(), Preparation::Square);
    }

    #[test]
    fn what_is_no_preparation() {
        for number in [3, 4, 0x100, 1 << 31, u32::MAX] {
            assert_eq!(Preparation::try_from(number), Err(NoPreparation(number)));
        }
        let said = NoPreparation(3).to_string();
        assert_eq!(said, "3 is above 2, the last number of a preparation");
    }
}
