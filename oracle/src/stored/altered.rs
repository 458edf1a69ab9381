//! Altered records: what a call answered and left, but for one bit of one word.
//! A replay that sees every difference finds none of them the same.

use super::make::{draw, left_words, of_each, put_call, Most};
use crate::calls::Families;
use crate::cells::Kind;
use crate::compare::{Expected, Input};
use crate::random::Random;
use crate::shell::{NAMES, PREPARATION};

/// How long the slices of an altered call may be.
const LITTLE: Most = Most {
    each: 40,
    all: 40,
    refused: 40,
};

/// How many records are stored for each bit that is altered.
const OF_EACH: usize = 5;

/// The groups of the inputs are these and the number of the call.
const GROUP: u64 = 200;

/// A word of what a call answered and left: the answer, an out value, the
/// first or the last cell of a slice, or the cell for the preparation of the
/// first edge.
#[derive(Clone, Copy)]
enum Word {
    Answer,
    Out(usize),
    First(usize),
    Last(usize),
    Preparation(usize),
}

/// A bit of a word.
struct Bit {
    word: Word,
    kind: Kind,
    number: u32,
}

/// The bits that are altered in the records of a call: of each word the lowest
/// and the highest.
fn bits<I: Input>() -> Vec<Bit> {
    let mut words = vec![(Word::Answer, Kind::Number)];
    words.extend((0..I::OUT.1).map(|place| (Word::Out(place), I::OUT.0)));
    for (slice, lending) in I::SLICES.iter().enumerate() {
        if lending.written {
            words.push((Word::First(slice), lending.kind));
            words.push((Word::Last(slice), lending.kind));
        }
        if lending.written && lending.name == NAMES[2] {
            words.push((Word::Preparation(slice), lending.kind));
        }
    }
    let both = |(word, kind)| {
        let highest = if kind == Kind::Number { 31 } else { 63 };
        [0, highest].map(|number| Bit { word, kind, number })
    };
    words.into_iter().flat_map(both).collect()
}

/// How many altered records of a call are stored.
pub fn altered<I: Input>() -> usize {
    of_each::<I>(OF_EACH) * bits::<I>().len()
}

impl Bit {
    /// The place of the word, if there is one: only a call that is done has
    /// out values, and a last cell is not the first.
    fn place<I: Input>(&self, expected: &Expected<I>) -> Option<usize> {
        let after = expected.after.slices();
        let start = |slice: usize| {
            let before = after.iter().zip(I::SLICES).take(slice);
            let written = before.filter(|(_, lending)| lending.written);
            1 + I::OUT.1 + written.map(|(cells, _)| cells.size()).sum::<usize>()
        };
        match self.word {
            Word::Answer => Some(0),
            Word::Out(place) => (expected.answer == 0).then_some(1 + place),
            Word::First(slice) => (after[slice].size() > 0).then(|| start(slice)),
            Word::Preparation(slice) => {
                let size = after[slice].size();
                (size > PREPARATION).then(|| start(slice) + PREPARATION)
            }
            Word::Last(slice) => match after[slice].size() {
                0 | 1 => None,
                size => Some(start(slice) + size - 1),
            },
        }
    }

    /// What a call answered and left with this bit altered, if it can be. A
    /// NaN cannot: a replay may hold all its patterns for one.
    fn altered<I: Input>(&self, expected: &Expected<I>) -> Option<Vec<u64>> {
        let mut words = left_words(expected);
        let word = &mut words[self.place(expected)?];
        if self.kind == Kind::Float && f64::from_bits(*word).is_nan() {
            return None;
        }
        *word ^= 1 << self.number;
        Some(words)
    }
}

/// Adds the altered records of one call, of calls that are done and of others
/// by turns.
pub fn put_altered<I: Families>(words: &mut Vec<u64>, make: fn(&mut Random, u64) -> I) {
    let mut index = 0;
    for bit in bits::<I>() {
        let mut left = of_each::<I>(OF_EACH);
        while left > 0 {
            let drawn = draw(GROUP + I::NUMBER, index, LITTLE, &make);
            index += 1;
            let Some((input, expected)) = drawn else {
                continue;
            };
            let is_done = left % 2 == 1 || matches!(bit.word, Word::Out(_));
            if (expected.answer == 0) != is_done {
                continue;
            }
            if let Some(other) = bit.altered(&expected) {
                left -= 1;
                put_call(words, &input);
                words.extend(other);
            }
        }
    }
}
