//! One call held against what it should have done: the answer, the out
//! places, every cell of every slice, and the cells around them.

use crate::cells::{Cells, Kind, Sealed, Slice};
use crate::port::Port;
use std::collections::BTreeMap;
use std::fmt::Write as _;

/// The answer that stands for "none".
pub const NONE: i32 = -1;

/// A slice that a call is lent.
#[derive(Clone, Copy)]
pub struct Lending {
    pub name: &'static str,
    pub kind: Kind,
    /// Whether the call may write to it.
    pub written: bool,
}

/// A slice that is only read.
pub const fn read(name: &'static str, kind: Kind) -> Lending {
    Lending {
        name,
        kind,
        written: false,
    }
}

/// A slice that is written to.
pub const fn written(name: &'static str, kind: Kind) -> Lending {
    Lending {
        name,
        kind,
        written: true,
    }
}

/// The input of one call.
pub trait Input: Clone + PartialEq {
    /// The call's name.
    const NAME: &'static str;
    /// Its number among the stored answers.
    const NUMBER: u64;
    /// Every answer that a whole run must see.
    const ANSWERS: &'static [i32];
    /// First values of a result that a whole run must see.
    const RESULTS: &'static [u64] = &[];
    /// How many plain arguments there are.
    const SCALARS: usize;
    /// The slices that are lent, in order.
    const SLICES: &'static [Lending];
    /// The kind of the out places, and how many there are.
    const OUT: (Kind, usize);

    /// The plain arguments, one word each, floats as their bits.
    fn scalars(&self) -> Vec<u64>;

    /// What the slices hold.
    fn slices(&self) -> Vec<Cells>;

    /// The input of these plain arguments and slices.
    fn put_together(scalars: &[u64], slices: Vec<Cells>) -> Result<Self, String>;

    /// Makes the call over the given slices and out places.
    fn ask(&self, port: &dyn Port, slices: Vec<Slice<'_>>, out: Slice<'_>) -> i32;

    /// The input in a form that can be read.
    fn describe(&self) -> String;

    /// What an answer, its out values and the slices afterwards break of what
    /// must hold of every answer, whatever the Rust says.
    fn breach(&self, _answer: i32, _out: &[u64], _after: &[Cells]) -> Option<&'static str> {
        None
    }
}

/// What an out place holds before a call.
const UNTOUCHED: u64 = 0x5eed_0001;

/// What the out places of a call hold before it.
pub fn untouched<I: Input>() -> Vec<u64> {
    (0..I::OUT.1 as u64)
        .map(|place| UNTOUCHED + place)
        .collect()
}

/// What a call should have done. Only the slices of `after` matter.
#[derive(Clone, Debug, PartialEq)]
pub struct Expected<I> {
    pub answer: i32,
    pub out: Vec<u64>,
    pub after: I,
}

impl<I: Input> Expected<I> {
    /// A refusal or "none": nothing lent is changed, nor any out place.
    pub fn unchanged(input: &I, answer: i32) -> Self {
        Expected {
            answer,
            out: untouched::<I>(),
            after: input.clone(),
        }
    }

    /// A result that only stands in the out places.
    pub fn told(input: &I, out: &[u64]) -> Self {
        Expected {
            answer: 0,
            out: out.to_vec(),
            after: input.clone(),
        }
    }
}

/// An input, its name, and what must come of it.
pub struct Case<I> {
    pub name: &'static str,
    pub input: I,
    pub expected: Expected<I>,
}

impl<I: Input> Case<I> {
    /// A refusal or "none".
    pub fn unchanged(name: &'static str, input: I, answer: i32) -> Self {
        let expected = Expected::unchanged(&input, answer);
        Case {
            name,
            input,
            expected,
        }
    }

    /// A result that only stands in the out places.
    pub fn told(name: &'static str, input: I, out: &[u64]) -> Self {
        let expected = Expected::told(&input, out);
        Case {
            name,
            input,
            expected,
        }
    }
}

/// What a call did: its answer, the values in the out places, the slices
/// afterwards, and the slices around which something was written.
struct Outcome {
    answer: i32,
    out: Vec<u64>,
    after: Vec<Cells>,
    broken: Option<&'static str>,
}

/// Makes a call over sealed copies of the slices.
fn outcome<I: Input>(port: &dyn Port, input: &I) -> Outcome {
    let content = input.slices();
    let seal = |(row, cells): (usize, &Cells)| Sealed::around(cells, row);
    let mut sealed: Vec<Sealed> = content.iter().enumerate().map(seal).collect();
    let places = Cells::of(I::OUT.0, untouched::<I>()).expect("small numbers");
    let mut out = Sealed::around(&places, content.len());
    let lent = sealed.iter_mut().map(Sealed::lend).collect();
    let answer = input.ask(port, lent, out.lend());
    let (out, whole) = out.open();
    let mut broken = (!whole).then_some("the out places");
    let mut after = Vec::new();
    for (row, lending) in sealed.into_iter().zip(I::SLICES) {
        let (cells, whole) = row.open();
        after.push(cells);
        broken = broken.or((!whole).then_some(lending.name));
    }
    Outcome {
        answer,
        out: out.words(),
        after,
        broken,
    }
}

/// The first way in which an outcome is not as it should be.
fn differs<I: Input>(input: &I, got: &Outcome, expected: &Expected<I>) -> Option<String> {
    if got.answer != expected.answer {
        let (is, should) = (got.answer, expected.answer);
        return Some(format!("the answer is {is} and should be {should}"));
    }
    if got.out != expected.out {
        let (is, should) = (&got.out, &expected.out);
        return Some(format!(
            "the out places hold {is:#x?} and should hold {should:#x?}"
        ));
    }
    if let Some(name) = got.broken {
        return Some(format!("cells outside {name} were written"));
    }
    let should = expected.after.slices();
    let mut slices = got.after.iter().zip(&should).zip(I::SLICES);
    let differs = slices.find_map(|((is, should), lending)| {
        let place = is.differ(should)?;
        Some(format!("{}{place}", lending.name))
    });
    let breach = || input.breach(got.answer, &got.out, &got.after);
    differs.or_else(|| breach().map(String::from))
}

/// What the answer of a call breaks of what must hold of every answer.
pub fn breach<I: Input>(port: &dyn Port, input: &I) -> Option<&'static str> {
    let got = outcome(port, input);
    input.breach(got.answer, &got.out, &got.after)
}

/// The answer of a call, and the first way in which it is not as it should be.
pub fn difference<I: Input>(
    port: &dyn Port,
    input: &I,
    expected: &Expected<I>,
) -> (i32, Option<String>) {
    let got = outcome(port, input);
    (got.answer, differs(input, &got, expected))
}

/// A call that was found to differ.
pub struct Found {
    pub index: usize,
    pub what: String,
    /// The input in a form that can be read.
    pub input: String,
    size: usize,
}

/// What came of the calls of one group.
#[derive(Default)]
pub struct Tally {
    pub calls: usize,
    pub differences: usize,
    pub answers: BTreeMap<i32, usize>,
    /// The first values of results, where a run must see some of them.
    pub results: BTreeMap<u64, usize>,
    pub smallest: Option<Found>,
}

impl Tally {
    /// Makes one more call and notes its answer and whether it differs.
    pub fn judge<I: Input>(&mut self, port: &dyn Port, input: &I, expected: &Expected<I>) {
        let got = outcome(port, input);
        *self.answers.entry(got.answer).or_default() += 1;
        if got.answer == 0 && I::RESULTS.contains(&got.out[0]) {
            *self.results.entry(got.out[0]).or_default() += 1;
        }
        if let Some(what) = differs(input, &got, expected) {
            self.note(input, what);
        }
        self.calls += 1;
    }

    /// Notes a difference in the call that is being made.
    pub fn note<I: Input>(&mut self, input: &I, what: String) {
        self.differences += 1;
        let size = input.slices().iter().map(Cells::size).sum();
        if self.smallest.as_ref().is_none_or(|found| size < found.size) {
            self.smallest = Some(Found {
                index: self.calls,
                what,
                input: input.describe(),
                size,
            });
        }
    }

    /// Adds what came of another group, save the calls that differed.
    pub fn count(&mut self, other: &Tally) {
        self.calls += other.calls;
        self.differences += other.differences;
        for (answer, times) in &other.answers {
            *self.answers.entry(*answer).or_default() += times;
        }
        for (result, times) in &other.results {
            *self.results.entry(*result).or_default() += times;
        }
    }

    /// The answers and results that a whole run of a call never saw.
    pub fn unseen<I: Input>(&self) -> Vec<String> {
        let answers = I::ANSWERS.iter();
        let answers = answers.filter(|answer| !self.answers.contains_key(answer));
        let results = I::RESULTS.iter();
        let results = results.filter(|result| !self.results.contains_key(result));
        let results = results.map(|result| format!("result {result}"));
        answers.map(i32::to_string).chain(results).collect()
    }

    /// The one line that sums the group up.
    pub fn line(&self, call: &str, group: &str) -> String {
        let mut line = format!(
            "{call} {group}: {} calls, {} differences, answers",
            self.calls, self.differences
        );
        for (answer, times) in &self.answers {
            let _ = write!(line, " {answer}:{times}");
        }
        for (result, times) in &self.results {
            let _ = write!(line, " result {result}:{times}");
        }
        line
    }
}
