//! Stored answers: a list of calls with what was expected of them, for a replay
//! where the Rust is not at hand: the Rust's answer, of two cuts and more what
//! both witnesses came to, and of a refusal the model's.
//!
//! The file is a row of 64-bit words, low byte first. A record is the number
//! of the call, its plain arguments, for each slice its length and its cells,
//! the answer, the out values (0 where there is no result), and for each slice
//! that may be written to its cells afterwards. In the records of call 1 the
//! lengths of all slices come first and the cells of all behind them; its plain
//! arguments are three counts and k, which is 4 in all of them. The word 0 ends
//! the list.
//!
//! Behind it stands a second list, of altered records, which the word 0 ends
//! too. In each of them one bit is another than what the call answered and left: of
//! the answer, of an out value, of the first or the last cell of a slice that may be written
//! to, or of the cell there for the preparation of the first edge. A replay
//! must find none of them the same, so it is seen here that a replay does see
//! differences.
//!
//! How the lists are made: the inputs are drawn from the random families of
//! each call, small and damaged ones among them, with a fixed seed. An input is
//! stored while the quota of its answer is not full, if its slices are short
//! and it is none of the named cases, which the worked examples are among.
//! Some more are drawn until they tell named other implementations from the
//! right one, splits until they make several wires along seams, several cuts
//! until they have a count, and some calls that are done are changed in one
//! thing: a count at its bound or past it, one that wraps, a list with a vertex
//! twice, a parameter twice, an unknown preparation, two causes of a refusal at
//! once.

use crate::calls::cut_edge::CutEdge;
use crate::calls::find_divisor::FindDivisor;
use crate::calls::join_wires::JoinWires;
use crate::calls::nearest_correction::NearestEnds;
use crate::calls::several_cuts::SeveralCuts;
use crate::calls::sort_wires::SortWires;
use crate::calls::split_closed_edges::SplitClosed;
use crate::calls::split_wires::SplitWires;
use crate::cells::Cells;
use crate::compare::{difference, untouched, Expected, Input, Tally};
use crate::port::{NearestCopy, Port, Unwrap, WireEnds};

#[cfg(rust_at_hand)]
mod altered;
#[cfg(rust_at_hand)]
mod chains;
#[cfg(rust_at_hand)]
mod changed;
#[cfg(rust_at_hand)]
mod make;
#[cfg(rust_at_hand)]
mod preparations;
#[cfg(rust_at_hand)]
pub use altered::altered;
#[cfg(rust_at_hand)]
pub use make::{file_of, lists, make, QUOTAS};

/// Most cells in a buffer that is stored: those of an edge with 64 or 65
/// cuts have more than 64 cells, and no others have.
const MOST_CELLS: usize = 512;

/// Whether the lengths of all slices come first.
fn lengths_first<I: Input>() -> bool {
    I::NUMBER == SplitClosed::NUMBER
}

/// A file that is being read.
struct Reader<'a> {
    rest: std::slice::ChunksExact<'a, u8>,
}

/// Goes through the next record by a method of the reader, as one of the call
/// with this number.
macro_rules! by_number {
    ($number:expr, $reader:ident.$method:ident($($argument:expr),*)) => {
        match $number {
            SplitClosed::NUMBER => $reader.$method::<SplitClosed>($($argument),*)?,
            Unwrap::NUMBER => $reader.$method::<Unwrap>($($argument),*)?,
            NearestCopy::NUMBER => $reader.$method::<NearestCopy>($($argument),*)?,
            WireEnds::NUMBER => $reader.$method::<WireEnds>($($argument),*)?,
            SortWires::NUMBER => $reader.$method::<SortWires>($($argument),*)?,
            NearestEnds::NUMBER => $reader.$method::<NearestEnds>($($argument),*)?,
            FindDivisor::NUMBER => $reader.$method::<FindDivisor>($($argument),*)?,
            CutEdge::NUMBER => $reader.$method::<CutEdge>($($argument),*)?,
            JoinWires::NUMBER => $reader.$method::<JoinWires>($($argument),*)?,
            SplitWires::NUMBER => $reader.$method::<SplitWires>($($argument),*)?,
            SeveralCuts::NUMBER => $reader.$method::<SeveralCuts>($($argument),*)?,
            other => return Err(format!("no call has the number {other}")),
        }
    };
}

impl<'a> Reader<'a> {
    /// A reader of a file, from its start.
    fn of(bytes: &'a [u8]) -> Result<Self, String> {
        let rest = bytes.chunks_exact(8);
        match rest.remainder() {
            [] => Ok(Reader { rest }),
            _ => Err("the file is no row of words".into()),
        }
    }

    /// The next word.
    fn word(&mut self) -> Result<u64, String> {
        let bytes = self.rest.next().ok_or("the file ends in a record")?;
        Ok(u64::from_le_bytes(bytes.try_into().expect("eight bytes")))
    }

    /// So many words.
    fn words(&mut self, count: usize) -> Result<Vec<u64>, String> {
        (0..count).map(|_| self.word()).collect()
    }

    /// A length of a slice.
    fn length(&mut self) -> Result<usize, String> {
        match self.word()? as usize {
            length if length <= MOST_CELLS => Ok(length),
            _ => Err("a buffer is too long".into()),
        }
    }

    /// The slices of a call with the lengths before them.
    fn slices<I: Input>(&mut self) -> Result<Vec<Cells>, String> {
        let mut lengths = Vec::new();
        if lengths_first::<I>() {
            for _ in I::SLICES {
                lengths.push(self.length()?);
            }
        }
        let mut slices = Vec::new();
        for (place, lending) in I::SLICES.iter().enumerate() {
            let length = match lengths.get(place) {
                Some(length) => *length,
                None => self.length()?,
            };
            slices.push(Cells::of(lending.kind, self.words(length)?)?);
        }
        Ok(slices)
    }

    /// One record behind its call number.
    fn record<I: Input>(&mut self) -> Result<(I, Expected<I>), String> {
        let scalars = self.words(I::SCALARS)?;
        let slices = self.slices::<I>()?;
        let input = I::put_together(&scalars, slices.clone())?;
        let answer = self.word()? as i32;
        let told = self.words(I::OUT.1)?;
        let mut after = slices;
        for (cells, lending) in after.iter_mut().zip(I::SLICES) {
            if lending.written {
                *cells = Cells::of(lending.kind, self.words(cells.size())?)?;
            }
        }
        let expected = Expected {
            answer,
            out: if answer == 0 { told } else { untouched::<I>() },
            after: I::put_together(&scalars, after)?,
        };
        Ok((input, expected))
    }

    /// Makes the call of one record, or passes it by where the port has none.
    fn judge<I: Input>(&mut self, run: &mut Run) -> Result<(), String> {
        let (input, expected) = self.record::<I>()?;
        let place = run.tallies.iter().position(|(name, _)| *name == I::NAME);
        let place = place.unwrap_or_else(|| {
            run.tallies.push((I::NAME, Tally::default()));
            run.tallies.len() - 1
        });
        let tally = &mut run.tallies[place].1;
        match run.port.has(I::NAME) {
            true if run.altered => judge_altered(tally, run.port, &input, &expected),
            true => tally.judge(run.port, &input, &expected),
            false => {}
        }
        Ok(())
    }

    /// Passes a record by.
    fn pass_by<I: Input>(&mut self) -> Result<(), String> {
        self.record::<I>().map(|_| ())
    }

    /// Makes the calls of one list.
    fn judge_all(&mut self, run: &mut Run) -> Result<(), String> {
        loop {
            match self.word()? {
                0 => return Ok(()),
                number => by_number!(number, self.judge(run)),
            }
        }
    }
}

/// The file with the records of one call alone, by its number.
pub fn only(bytes: &[u8], call: u64) -> Result<Vec<u8>, String> {
    let mut reader = Reader::of(bytes)?;
    let mut records = Vec::new();
    while reader.rest.len() > 0 {
        let start = bytes.len() - 8 * reader.rest.len();
        let number = reader.word()?;
        if number > 0 {
            by_number!(number, reader.pass_by());
        }
        let end = bytes.len() - 8 * reader.rest.len();
        if number == call || number == 0 {
            records.extend_from_slice(&bytes[start..end]);
        }
    }
    Ok(records)
}

/// Makes a call whose record was altered: it must differ from the record.
fn judge_altered<I: Input>(tally: &mut Tally, port: &dyn Port, input: &I, altered: &Expected<I>) {
    let (answer, differs) = difference(port, input, altered);
    *tally.answers.entry(answer).or_default() += 1;
    if differs.is_none() {
        tally.note(input, "it is as an altered record says".into());
    }
    tally.calls += 1;
}

/// The port whose calls are made, whether the records were altered, and what
/// came of them.
struct Run<'a> {
    port: &'a dyn Port,
    altered: bool,
    tallies: Tallies,
}

/// What came of the stored calls, by the name of the call; nothing at all
/// where the port does not have it.
pub type Tallies = Vec<(&'static str, Tally)>;

/// Makes every call of both lists: the calls that differ from their records in
/// the first, and those that do not in the second, are the differences.
pub fn replay_both(port: &dyn Port, bytes: &[u8]) -> Result<[Tallies; 2], String> {
    let mut reader = Reader::of(bytes)?;
    let mut runs = [false, true].map(|altered| Run {
        port,
        altered,
        tallies: Vec::new(),
    });
    for run in &mut runs {
        reader.judge_all(run)?;
    }
    match reader.rest.len() {
        0 => Ok(runs.map(|run| run.tallies)),
        _ => Err("the file goes on behind its lists".into()),
    }
}

/// What came of the first list. A call that is as an altered record says is a
/// difference of its call too.
pub fn replay(port: &dyn Port, bytes: &[u8]) -> Result<Tallies, String> {
    let [mut tallies, altered] = replay_both(port, bytes)?;
    for (name, unseen) in altered {
        let tally = tallies.iter_mut().find(|(call, _)| *call == name);
        let (_, tally) = tally.ok_or(format!("{name} is altered and not stored"))?;
        tally.differences += unseen.differences;
        tally.smallest = tally.smallest.take().or(unseen.smallest);
    }
    Ok(tallies)
}
