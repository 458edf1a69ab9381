//! A host in Rust: a burner pipe healed by seven calls, from rims that are
//! closed edges to the contours that the torch follows, and a picture of the
//! unrolled plate on standard output, as SVG. The word `k=1` to `k=7` says how
//! many eighths of the way round the rims are cut; without one it is halfway.

mod picture;
mod pipe;
#[cfg(test)]
mod tests;

use std::env;
use std::error::Error;
use std::ffi::OsString;
use std::process::ExitCode;

use kaugrenna::MIDDLE;

const USAGE: &str = "usage: bash tools/plate [k=N] (N from 1 to 7)";

/// The number of eighths that the words ask for; none for words that are not
/// to the usage.
fn eighths(words: &[OsString]) -> Option<u32> {
    match words {
        [] => Some(MIDDLE),
        [word] => (1..=7).find(|k| *word == *format!("k={k}")),
        _ => None,
    }
}

/// The picture that the words ask for; none for words that are not to the
/// usage.
fn picture_of(words: &[OsString]) -> Result<Option<String>, Box<dyn Error>> {
    let Some(k) = eighths(words) else {
        return Ok(None);
    };
    let healed = pipe::healed(k)?;
    Ok(Some(picture::drawn(&healed)?))
}

fn main() -> Result<ExitCode, Box<dyn Error>> {
    let words: Vec<_> = env::args_os().skip(1).collect();
    let Some(picture) = picture_of(&words)? else {
        eprintln!("{USAGE}");
        return Ok(ExitCode::from(2));
    };
    print!("{picture}");
    Ok(ExitCode::SUCCESS)
}
