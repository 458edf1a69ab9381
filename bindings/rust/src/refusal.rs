//! The numbers with which a call is turned away.

use std::error::Error;
use std::fmt;

use crate::raw::DONE;

/// Why something can be unknown.
const APART: &str = "module and archive do not belong together";

/// Why a call was turned away. Nothing that it was lent is changed.
///
/// The last two are no refusals of a call: the archive told something that
/// this module does not know, so the two do not belong together, and nothing
/// is said of what was lent.
#[derive(Clone, Copy, Debug, PartialEq, Eq, Hash, PartialOrd, Ord)]
#[non_exhaustive]
pub enum Refusal {
    /// 1: a count is above its bound or above what was lent, the sum of the
    /// wire lengths is, a kind is neither 0 nor 1, or a preparation is above
    /// 2.
    Malformed,
    /// 2: a vertex number, in an edge or by itself, is not below the vertex
    /// count.
    VertexNumber,
    /// 3: an edge number, in a use or by itself, is not below the edge count.
    EdgeNumber,
    /// 4: a float is not a number, or above 1.0e15 in size.
    NotSized,
    /// 5: t0 is above t1, a cut or pending parameter is outside its curve's
    /// range, or a period is not above 0.
    OutOfRange,
    /// 6: the result passes a bound on a count, or a lent buffer is too short
    /// for it.
    NoRoom,
    /// 7: a vertex lent to nearest ends or to the non-simple search is
    /// pending.
    PendingVertex,
    /// 8: in the non-simple search the second place is past the end.
    PastEnd,
    /// 9: the count of vertices on the divisor is odd.
    OddDivisor,
    /// 10: a vertex stands twice on the divisor.
    RepeatedVertex,
    /// 11: the walk arrives at a vertex that no unused use leaves.
    DeadEnd,
    /// 12: the walk arrives at a vertex that three or more unused uses leave
    /// (a crowd).
    TooManyUses,
    /// 13: the walk arrives at a vertex whose list is empty. Never met.
    EmptyList,
    /// 14: one cut is handed two or more cuts.
    SeveralCuts,
    /// 15: an open wire handed to a join is empty.
    EmptyOpenWire,
    /// 16: an edge is to be cut at more than 64 places.
    TooManyCuts,
    /// 17: the parameters of the cuts do not rise strictly.
    NotRising,
    /// 18: the number of eighths is outside 1 to 7.
    EighthsOutOfRange,
    /// A code that is unknown, or "none" from a call that has no "none".
    Unknown(i32),
    /// A result, with a kind of wire that is unknown.
    UnknownKind(u32),
}

impl Refusal {
    /// All refusals of the refusal table, in the order of their numbers, 1 to
    /// 18.
    pub const ALL: [Refusal; 18] = [
        Refusal::Malformed,
        Refusal::VertexNumber,
        Refusal::EdgeNumber,
        Refusal::NotSized,
        Refusal::OutOfRange,
        Refusal::NoRoom,
        Refusal::PendingVertex,
        Refusal::PastEnd,
        Refusal::OddDivisor,
        Refusal::RepeatedVertex,
        Refusal::DeadEnd,
        Refusal::TooManyUses,
        Refusal::EmptyList,
        Refusal::SeveralCuts,
        Refusal::EmptyOpenWire,
        Refusal::TooManyCuts,
        Refusal::NotRising,
        Refusal::EighthsOutOfRange,
    ];

    /// The code that the archive answered: the number in the refusal table, or
    /// one that is unknown; 0 where the kind of wire is unknown.
    pub fn number(self) -> i32 {
        match self {
            Refusal::Malformed => 1,
            Refusal::VertexNumber => 2,
            Refusal::EdgeNumber => 3,
            Refusal::NotSized => 4,
            Refusal::OutOfRange => 5,
            Refusal::NoRoom => 6,
            Refusal::PendingVertex => 7,
            Refusal::PastEnd => 8,
            Refusal::OddDivisor => 9,
            Refusal::RepeatedVertex => 10,
            Refusal::DeadEnd => 11,
            Refusal::TooManyUses => 12,
            Refusal::EmptyList => 13,
            Refusal::SeveralCuts => 14,
            Refusal::EmptyOpenWire => 15,
            Refusal::TooManyCuts => 16,
            Refusal::NotRising => 17,
            Refusal::EighthsOutOfRange => 18,
            Refusal::Unknown(code) => code,
            Refusal::UnknownKind(_) => DONE,
        }
    }

    /// The refusal of the table with this number.
    pub fn of(number: i32) -> Option<Refusal> {
        Refusal::ALL
            .into_iter()
            .find(|refusal| refusal.number() == number)
    }
}

/// The sentence of the refusal table, which is that of the header's
/// `kaugrenna_text`.
impl fmt::Display for Refusal {
    fn fmt(&self, to: &mut fmt::Formatter<'_>) -> fmt::Result {
        let sentence = match self {
            Refusal::Malformed => {
                "a count is above its bound or above what was lent, the sum of the wire lengths \
                 is, a kind is neither 0 nor 1, or a preparation is above 2"
            }
            Refusal::VertexNumber => {
                "a vertex number, in an edge or by itself, is not below the vertex count"
            }
            Refusal::EdgeNumber => {
                "an edge number, in a use or by itself, is not below the edge count"
            }
            Refusal::NotSized => "a float is not a number, or above 1.0e15 in size",
            Refusal::OutOfRange => {
                "t0 is above t1, a cut or pending parameter is outside its curve's range, or a \
                 period is not above 0"
            }
            Refusal::NoRoom => {
                "the result passes a bound on a count, or a lent buffer is too short for it"
            }
            Refusal::PendingVertex => {
                "a vertex lent to nearest ends or to the non-simple search is pending"
            }
            Refusal::PastEnd => "in the non-simple search the second place is past the end",
            Refusal::OddDivisor => "the count of vertices on the divisor is odd",
            Refusal::RepeatedVertex => "a vertex stands twice on the divisor",
            Refusal::DeadEnd => "the walk arrives at a vertex that no unused use leaves",
            Refusal::TooManyUses => {
                "the walk arrives at a vertex that three or more unused uses leave (a crowd)"
            }
            Refusal::EmptyList => "the walk arrives at a vertex whose list is empty",
            Refusal::SeveralCuts => "one cut is handed two or more cuts",
            Refusal::EmptyOpenWire => "an open wire handed to a join is empty",
            Refusal::TooManyCuts => "an edge is to be cut at more than 64 places",
            Refusal::NotRising => "the parameters of the cuts do not rise strictly",
            Refusal::EighthsOutOfRange => "the number of eighths is outside 1 to 7",
            Refusal::Unknown(code) => {
                return write!(to, "the code {code} is unknown: {APART}");
            }
            Refusal::UnknownKind(kind) => {
                return write!(to, "the kind of wire {kind} is unknown: {APART}");
            }
        };
        to.write_str(sentence)
    }
}

impl Error for Refusal {}
