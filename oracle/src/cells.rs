//! Cells of the kinds that are lent, and copies of them with sealed cells at
//! either end, so that a write beside a slice is seen.

use std::fmt::LowerHex;

/// The kinds of cells: numbers of 32 bits, floats as their bits, counts.
#[derive(Clone, Copy, Debug, PartialEq, Eq)]
pub enum Kind {
    Number,
    Float,
    Count,
}

/// A row of cells of one kind.
#[derive(Clone, Debug, PartialEq, Eq)]
pub enum Cells {
    Numbers(Vec<u32>),
    Floats(Vec<u64>),
    Counts(Vec<usize>),
}

/// A row of cells, lent for a while.
pub enum Slice<'a> {
    Numbers(&'a mut [u32]),
    Floats(&'a mut [u64]),
    Counts(&'a mut [usize]),
}

/// What is said where cells are asked for as another kind.
const OTHER: &str = "cells of another kind";

impl Cells {
    /// Cells of a kind that hold the given words. A word that the kind cannot
    /// hold is an error.
    pub fn of(kind: Kind, words: Vec<u64>) -> Result<Cells, String> {
        let narrow = |word: u64| u32::try_from(word).map_err(|_| "a number is too large".into());
        Ok(match kind {
            Kind::Number => Cells::Numbers(
                words
                    .into_iter()
                    .map(narrow)
                    .collect::<Result<_, String>>()?,
            ),
            Kind::Float => Cells::Floats(words),
            Kind::Count => Cells::Counts(words.into_iter().map(|word| word as usize).collect()),
        })
    }

    /// The cells as words of 64 bits.
    pub fn words(&self) -> Vec<u64> {
        match self {
            Cells::Numbers(cells) => cells.iter().map(|&cell| u64::from(cell)).collect(),
            Cells::Floats(cells) => cells.clone(),
            Cells::Counts(cells) => cells.iter().map(|&cell| cell as u64).collect(),
        }
    }

    /// How many cells there are.
    pub fn size(&self) -> usize {
        match self {
            Cells::Numbers(cells) => cells.len(),
            Cells::Floats(cells) => cells.len(),
            Cells::Counts(cells) => cells.len(),
        }
    }

    /// The cells, which are numbers.
    pub fn numbers(self) -> Vec<u32> {
        match self {
            Cells::Numbers(cells) => cells,
            _ => panic!("{OTHER}"),
        }
    }

    /// The cells, which are floats.
    pub fn floats(self) -> Vec<u64> {
        match self {
            Cells::Floats(cells) => cells,
            _ => panic!("{OTHER}"),
        }
    }

    /// The first place where these cells are not as they should be.
    pub fn differ(&self, should: &Cells) -> Option<String> {
        match (self, should) {
            (Cells::Numbers(is), Cells::Numbers(should)) => cell(is, should),
            (Cells::Floats(is), Cells::Floats(should)) => cell(is, should),
            (Cells::Counts(is), Cells::Counts(should)) => cell(is, should),
            _ => panic!("{OTHER}"),
        }
    }
}

/// The first cell in which two rows differ.
fn cell<T: PartialEq + LowerHex>(is: &[T], should: &[T]) -> Option<String> {
    if is.len() != should.len() {
        let (is, should) = (is.len(), should.len());
        return Some(format!(": {is} cells that should be {should}"));
    }
    let place = is.iter().zip(should).position(|(a, b)| a != b)?;
    let (is, should) = (&is[place], &should[place]);
    Some(format!("[{place}] is {is:#x} and should be {should:#x}"))
}

impl<'a> Slice<'a> {
    /// The cells, which are numbers.
    pub fn numbers(self) -> &'a mut [u32] {
        match self {
            Slice::Numbers(cells) => cells,
            _ => panic!("{OTHER}"),
        }
    }

    /// The cells, which are floats.
    pub fn floats(self) -> &'a mut [u64] {
        match self {
            Slice::Floats(cells) => cells,
            _ => panic!("{OTHER}"),
        }
    }

    /// The cells, which are counts.
    pub fn counts(self) -> &'a mut [usize] {
        match self {
            Slice::Counts(cells) => cells,
            _ => panic!("{OTHER}"),
        }
    }
}

/// A row of cells with sealed cells before and behind it.
struct Row<T> {
    cells: Vec<T>,
    seal: T,
}

/// How many cells are sealed at either end.
const MARGIN: usize = 16;

impl<T: Copy + PartialEq> Row<T> {
    fn around(content: &[T], seal: T) -> Self {
        let mut cells = Vec::with_capacity(content.len() + 2 * MARGIN);
        cells.extend([seal; MARGIN]);
        cells.extend_from_slice(content);
        cells.extend([seal; MARGIN]);
        Row { cells, seal }
    }

    fn lend(&mut self) -> &mut [T] {
        let end = self.cells.len() - MARGIN;
        &mut self.cells[MARGIN..end]
    }

    /// The content, and whether the seals are whole.
    fn open(mut self) -> (Vec<T>, bool) {
        let end = self.cells.len() - MARGIN;
        let mut seals = self.cells[..MARGIN].iter().chain(&self.cells[end..]);
        let whole = seals.all(|cell| *cell == self.seal);
        self.cells.truncate(end);
        self.cells.drain(..MARGIN);
        (self.cells, whole)
    }
}

/// A sealed row of any kind.
enum AnyRow {
    Numbers(Row<u32>),
    Floats(Row<u64>),
    Counts(Row<usize>),
}

/// A sealed copy of cells.
pub struct Sealed(AnyRow);

impl Sealed {
    /// Seals a copy; the seal of each row of a call is another one.
    pub fn around(content: &Cells, row: usize) -> Self {
        let (number, float) = (0xa5a5_0001 + row as u32, 0x7ff4_a5a5_0000_0001 + row as u64);
        Sealed(match content {
            Cells::Numbers(cells) => AnyRow::Numbers(Row::around(cells, number)),
            Cells::Floats(cells) => AnyRow::Floats(Row::around(cells, float)),
            Cells::Counts(cells) => AnyRow::Counts(Row::around(cells, number as usize)),
        })
    }

    /// Lends the content.
    pub fn lend(&mut self) -> Slice<'_> {
        match &mut self.0 {
            AnyRow::Numbers(row) => Slice::Numbers(row.lend()),
            AnyRow::Floats(row) => Slice::Floats(row.lend()),
            AnyRow::Counts(row) => Slice::Counts(row.lend()),
        }
    }

    /// The content, and whether the seals are whole.
    pub fn open(self) -> (Cells, bool) {
        match self.0 {
            AnyRow::Numbers(row) => {
                let (cells, whole) = row.open();
                (Cells::Numbers(cells), whole)
            }
            AnyRow::Floats(row) => {
                let (cells, whole) = row.open();
                (Cells::Floats(cells), whole)
            }
            AnyRow::Counts(row) => {
                let (cells, whole) = row.open();
                (Cells::Counts(cells), whole)
            }
        }
    }
}

#[cfg(test)]
mod tests {
    use super::Row;

    #[test]
    fn a_broken_seal_is_seen() {
        for place in [0, 15, 18, 33] {
            let mut sealed = Row::around(&[1, 2], 9);
            sealed.cells[place] = 0;
            assert!(!sealed.open().1);
        }
        let mut sealed = Row::around(&[1, 2], 9);
        sealed.lend()[1] = 3;
        assert_eq!(sealed.open(), (vec![1, 3], true));
    }
}
