//! Instructions of one call, counted by valgrind.

use std::process::Command;

/// How many of the prepared calls the shorter of two runs makes; the longer
/// one makes twice as many.
const CALLS: usize = 2;

/// Calls that are made ready in either run.
pub const PREPARED: usize = 2 * CALLS;

/// Without this the C library fills and copies by one instruction that valgrind
/// counts once for each byte.
const PLAIN_COPIES: (&str, &str) = ("GLIBC_TUNABLES", "glibc.cpu.hwcaps=-ERMS,-FSRM");

/// Instructions of a whole run of this program that makes so many calls.
fn of_run(row: usize, side: &str, calls: usize) -> Option<f64> {
    let program = std::env::current_exe().ok()?;
    let run = Command::new("valgrind")
        .env(PLAIN_COPIES.0, PLAIN_COPIES.1)
        .args(["--tool=callgrind", "--callgrind-out-file=/dev/null"])
        .arg(program)
        .args(["calls", &row.to_string(), side, &calls.to_string()])
        .output()
        .ok()?;
    let said = String::from_utf8_lossy(&run.stderr).into_owned();
    let (_, count) = said.split_once("Collected : ")?;
    count.split_whitespace().next()?.parse().ok()
}

/// Instructions of one call of a row: two runs that are alike but for the
/// count of calls. None where valgrind is not at hand.
pub fn of_call(row: usize, side: &str) -> Option<f64> {
    let (fewer, more) = (of_run(row, side, CALLS)?, of_run(row, side, PREPARED)?);
    Some((more - fewer) / (PREPARED - CALLS) as f64)
}
