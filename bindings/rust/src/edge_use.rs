//! Uses of edges as numbers and in document 01's notation.

use std::fmt;
use std::str::FromStr;

/// A use of an edge. In a lent slice it is one number, twice that of the edge
/// and one more when reversed; in document 01 it is written `3+` or `3-`.
///
/// ```
/// use kaugrenna::Use;
/// let back: Use = "3-".parse().unwrap();
/// assert_eq!((back.number(), Use::of(6).to_string()), (Some(7), "3+".into()));
/// ```
#[derive(Clone, Copy, Debug, PartialEq, Eq, Hash)]
pub struct Use {
    /// The number of the edge.
    pub edge: u32,
    /// Whether it is used against its direction.
    pub reversed: bool,
}

impl Use {
    /// The use with this number.
    pub fn of(number: u32) -> Use {
        Use {
            edge: number / 2,
            reversed: number % 2 == 1,
        }
    }

    /// The number of the use; there is none for edges from 2^31 on.
    pub fn number(self) -> Option<u32> {
        let forward = self.edge.checked_mul(2)?;
        Some(forward + u32::from(self.reversed))
    }
}

impl fmt::Display for Use {
    fn fmt(&self, to: &mut fmt::Formatter<'_>) -> fmt::Result {
        let sign = if self.reversed { '-' } else { '+' };
        write!(to, "{}{sign}", self.edge)
    }
}

/// A text is not an edge number and a sign.
#[derive(Clone, Copy, Debug, PartialEq, Eq)]
pub struct NoUse;

impl fmt::Display for NoUse {
    fn fmt(&self, to: &mut fmt::Formatter<'_>) -> fmt::Result {
        to.write_str("not an edge number with + or - behind it")
    }
}

impl std::error::Error for NoUse {}

impl FromStr for Use {
    type Err = NoUse;

    fn from_str(text: &str) -> Result<Use, NoUse> {
        let (digits, reversed) = match (text.strip_suffix('+'), text.strip_suffix('-')) {
            (Some(digits), _) => (digits, false),
            (_, Some(digits)) => (digits, true),
            _ => return Err(NoUse),
        };
        if !digits.bytes().all(|byte| byte.is_ascii_digit()) {
            return Err(NoUse);
        }
        let edge = digits.parse().map_err(|_| NoUse)?;
        Ok(Use { edge, reversed })
    }
}

#[cfg(test)]
mod tests {
    use super::{NoUse, Use};

    #[test]
    fn numbers_and_notation_agree() {
        for number in [0, 1, 6, 7, u32::MAX - 1, u32::MAX] {
            let one = Use::of(number);
            assert_eq!(one.number(), Some(number));
            assert_eq!(one.to_string().parse(), Ok(one));
        }
    }

    #[test]
    fn what_is_no_use() {
        for text in ["", "+", "3", "-3+", "+3+", "3+-", "4294967296+"] {
            assert_eq!(text.parse::<Use>(), Err(NoUse), "{text}");
        }
        let large = Use {
            edge: 1 << 31,
            reversed: false,
        };
        assert_eq!(large.number(), None);
    }
}
