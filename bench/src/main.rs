//! The port and the Rust on the same inputs.
//!
//!     bench check               both sides answer alike on every row
//!     bench time                a line for each row: nanoseconds of a call of the port
//!                               and of the Rust, and their ratio
//!     bench table               the same as a table, with instructions of a call
//!     bench calls ROW SIDE N    makes 4 calls of a side ready and N of them, for the
//!                               count of instructions; SIDE is `port` or `rust`

mod checks;
mod clock;
mod count;
mod inputs;
mod port;
mod rows;

use oracle::healing::prepared::Ready;
use rows::{Row, Visitor};
use std::process::ExitCode;

/// How the program is called.
const USAGE: &str = "bench check | time | table | calls ROW port|rust N";

/// The head of the table.
const HEADER: &str = "\
| Call | Uses | Tables | Port, ns | Rust, ns | Ratio | Port, instructions | Rust, instructions |
|---|---|---|---|---|---|---|---|";

fn main() -> ExitCode {
    let words: Vec<String> = std::env::args().skip(1).collect();
    let words: Vec<&str> = words.iter().map(String::as_str).collect();
    match words[..] {
        ["check"] => rows::visit_all(&mut Check),
        ["time"] => rows::visit_all(&mut Time),
        ["table"] => {
            println!("{HEADER}");
            rows::visit_all(&mut Table { row: 0 });
        }
        ["calls", row, side @ ("port" | "rust"), calls] => {
            let (Ok(row), Ok(calls)) = (row.parse(), calls.parse()) else {
                return usage();
            };
            let of_port = side == "port";
            rows::visit_all(&mut Calls {
                row,
                of_port,
                calls,
            });
        }
        _ => return usage(),
    }
    ExitCode::SUCCESS
}

/// Says how the program is called.
fn usage() -> ExitCode {
    eprintln!("{USAGE}");
    ExitCode::from(2)
}

/// Ends the program where the two sides differ on an input of a row.
fn agree<P, R>(row: Row, port: impl Fn(usize) -> P, rust: impl Fn(usize) -> R)
where
    P: Ready,
    R: Ready<Answer = P::Answer>,
{
    let (first_port, first_rust) = (port(0), rust(0));
    let inputs = if row.size == 0 { row.batch } else { 1 };
    for index in 0..inputs {
        let (mut port, mut rust) = (port(index), rust(index));
        // The second time over what the first has changed and a renewal mends.
        for _ in 0..2 {
            port.renew(&first_port);
            rust.renew(&first_rust);
            port.run();
            rust.run();
            assert_eq!(port.answer(), rust.answer(), "{row}");
        }
    }
}

/// Nanoseconds of a call of the port and of the Rust, where they agree.
fn timed<P, R>(row: Row, port: impl Fn(usize) -> P, rust: impl Fn(usize) -> R) -> [f64; 2]
where
    P: Ready,
    R: Ready<Answer = P::Answer>,
{
    agree(row, &port, &rust);
    let port = clock::Side::of(row.batch, port);
    clock::medians(port, clock::Side::of(row.batch, rust))
}

/// Both sides answer alike.
struct Check;

impl Visitor for Check {
    fn row<P, R>(&mut self, row: Row, port: impl Fn(usize) -> P, rust: impl Fn(usize) -> R)
    where
        P: Ready,
        R: Ready<Answer = P::Answer>,
    {
        agree(row, port, rust);
        println!("{row} same");
    }
}

/// A line for each row, by the clock.
struct Time;

impl Visitor for Time {
    fn row<P, R>(&mut self, row: Row, port: impl Fn(usize) -> P, rust: impl Fn(usize) -> R)
    where
        P: Ready,
        R: Ready<Answer = P::Answer>,
    {
        let [port, rust] = timed(row, port, rust);
        println!("{row} {port:.1} {rust:.1} {:.3}", port / rust);
    }
}

/// A row of the table.
struct Table {
    /// The number of the next row.
    row: usize,
}

impl Visitor for Table {
    fn row<P, R>(&mut self, row: Row, port: impl Fn(usize) -> P, rust: impl Fn(usize) -> R)
    where
        P: Ready,
        R: Ready<Answer = P::Answer>,
    {
        let [port, rust] = timed(row, port, rust);
        let counted = ["port", "rust"].map(|side| count::of_call(self.row, side));
        let [of_port, of_rust] = counted.map(|count| match count {
            Some(count) => format!("{count:.0}"),
            None => "not counted".into(),
        });
        let (size, ratio) = (row.size_name(), port / rust);
        print!("| `{}` | {size} | {} |", row.call, row.tables);
        println!(" {port:.1} | {rust:.1} | {ratio:.2} | {of_port} | {of_rust} |");
        self.row += 1;
    }
}

/// Makes some of the prepared calls of one side of one row.
struct Calls {
    /// How many rows are still to be passed by.
    row: usize,
    of_port: bool,
    calls: usize,
}

impl Visitor for Calls {
    fn row<P, R>(&mut self, _row: Row, port: impl Fn(usize) -> P, rust: impl Fn(usize) -> R)
    where
        P: Ready,
        R: Ready<Answer = P::Answer>,
    {
        if self.row > 0 {
            self.row -= 1;
            return;
        }
        if self.of_port {
            run_some(port, self.calls);
        } else {
            run_some(rust, self.calls);
        }
    }
}

/// Makes all calls ready and so many of them, and ends the program. Nothing is
/// freed, so that the rest of a run is the same for any count.
fn run_some<T: Ready>(make: impl Fn(usize) -> T, calls: usize) -> ! {
    let mut prepared: Vec<T> = (0..count::PREPARED).map(make).collect();
    for call in prepared.iter_mut().take(calls) {
        std::hint::black_box(&mut *call).run();
    }
    std::process::exit(0)
}
