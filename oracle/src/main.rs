//! The command line of the oracle.
//!
//!     oracle differ [--seed N] [--calls N | --seconds S] [--groups A,B] [--only A,B] [--port P] [--stored FILE]
//!     oracle store FILE
//!     oracle replay FILE [--port P]
//!
//! P is `library`, the archive that was linked when this was built, or `reference`,
//! the plain implementation of this crate. Groups are `limits`, `small`,
//! `random`, `damaged` and `noise`; `--only` names calls. With `--calls` (or
//! `--each`) the random groups of each call go on until at least N of their
//! inputs were compared; with `--seconds` all calls together take about S. Seven
//! inputs of `cut_parameter` in a row are one range with each k from 1 to 7. Any
//! difference makes the exit status 1; a run that cannot be made, 2.

use oracle::compare::Tally;
#[cfg(rust_at_hand)]
use oracle::differ::{Group, Runner};
#[cfg(rust_at_hand)]
use oracle::long_run::LongRun;
#[cfg(rust_at_hand)]
use oracle::options::Until;
use oracle::options::{Options, USAGE};
use oracle::port::Port;
#[cfg(rust_at_hand)]
use oracle::progress::Progress;
use oracle::reference::Reference;
use oracle::stored;
use std::process::ExitCode;

fn main() -> ExitCode {
    let words: Vec<String> = std::env::args().skip(1).collect();
    match run(&words) {
        Ok(true) => ExitCode::SUCCESS,
        Ok(false) => ExitCode::from(1),
        Err(why) => {
            eprintln!("oracle: {why}");
            ExitCode::from(2)
        }
    }
}

/// Runs one command; whether nothing differed.
fn run(words: &[String]) -> Result<bool, String> {
    let (command, rest) = words.split_first().ok_or(USAGE)?;
    let options = Options::read(rest)?;
    match (command.as_str(), &options.place) {
        ("differ", None) => differ(&options),
        ("store", Some(place)) => store(place),
        ("replay", Some(place)) => replay(&options, place),
        _ => Err(USAGE.into()),
    }
}

/// The implementation that is put to the test.
fn port(name: &str) -> Result<Box<dyn Port>, String> {
    match name {
        "reference" => Ok(Box::new(Reference::default())),
        "library" => Ok(Box::new(oracle::library::Library)),
        _ => Err(USAGE.into()),
    }
}

/// Calls in each of the random groups of `split_closed_edges`, where no long
/// run is asked for.
#[cfg(rust_at_hand)]
const CALLS: usize = 20_000;

/// Runs the groups of all calls against the Rust.
#[cfg(rust_at_hand)]
fn differ(options: &Options) -> Result<bool, String> {
    use oracle::differ::{every, run_all, Plan};
    if let Some(until) = options.until {
        return differ_long(options, until);
    }
    let port = port(&options.port)?;
    let plan = Plan {
        seed: options.seed,
        calls: CALLS,
        hasty: false,
    };
    let groups = groups(options)?;
    let runs = every(&calls(options)?, &groups);
    let (mut same, mut whole) = (true, Tally::default());
    run_all(port.as_ref(), &runs, plan, &mut |place, tally| {
        let (call, group) = &runs[place];
        same &= report(call.name, group.name(), &tally, options.seed);
        whole.count(&tally);
        if (place + 1) % groups.len() == 0 {
            let whole = std::mem::take(&mut whole);
            same &= all_seen(call, &whole) || options.groups.is_some();
        }
    });
    Ok(same)
}

/// Runs all calls for long, each in its turn.
#[cfg(rust_at_hand)]
fn differ_long(options: &Options, until: Until) -> Result<bool, String> {
    let port = port(&options.port)?;
    let (calls, groups) = (calls(options)?, groups(options)?);
    if !groups.iter().any(|group| group.is_random()) {
        return Err("a long run needs a random group".into());
    }
    let run = LongRun {
        port: port.as_ref(),
        seed: options.seed,
        groups: &groups,
        until: match until {
            Until::Seconds(seconds) => Until::Seconds(seconds / calls.len() as f64),
            Until::Calls(_) => until,
        },
    };
    let mut same = true;
    for call in calls {
        let mut progress = Progress::default();
        let whole = run.run(&call, &mut |group, part, whole| {
            progress.tell(|| compared(call.name, whole));
            // Of the parts that differ the first is enough.
            if part.differences > 0 && part.differences == whole.differences {
                progress.clear();
                report(call.name, group.name(), part, options.seed);
            }
        });
        progress.clear();
        same &= all_seen(&call, &whole) || options.groups.is_some();
        println!("{}, seed {}", compared(call.name, &whole), options.seed);
        same &= whole.differences == 0;
    }
    Ok(same)
}

/// How many calls were compared, and how many differed.
#[cfg(rust_at_hand)]
fn compared(name: &str, whole: &Tally) -> String {
    let (calls, differences) = (whole.calls, whole.differences);
    format!("{name}: {calls} calls compared, {differences} differences")
}

/// Whether every answer of a call was seen; if not, says which ones.
#[cfg(rust_at_hand)]
fn all_seen(call: &Runner, whole: &Tally) -> bool {
    let unseen = (call.unseen)(whole).join(", ");
    if !unseen.is_empty() {
        println!("{}: answers never seen: {unseen}", call.name);
    }
    unseen.is_empty()
}

/// The calls that were asked for, or all.
#[cfg(rust_at_hand)]
fn calls(options: &Options) -> Result<Vec<Runner>, String> {
    use oracle::differ::CALLS;
    let Some(names) = &options.only else {
        return Ok(CALLS.to_vec());
    };
    let named = |name: &str| CALLS.into_iter().find(|call| call.name == name);
    names
        .split(',')
        .map(|name| named(name).ok_or(format!("{name} is no call")))
        .collect()
}

/// The groups that were asked for, or all.
#[cfg(rust_at_hand)]
fn groups(options: &Options) -> Result<Vec<Group>, String> {
    let Some(names) = &options.groups else {
        return Ok(Group::ALL.to_vec());
    };
    let named = |name: &str| Group::ALL.into_iter().find(|group| group.name() == name);
    names
        .split(',')
        .map(|name| named(name).ok_or(format!("{name} is no group")))
        .collect()
}

/// Falls back on the stored answers.
#[cfg(not(rust_at_hand))]
fn differ(options: &Options) -> Result<bool, String> {
    if options.until.is_some() {
        return Err("the Rust sources are not at hand, and a long run needs them".into());
    }
    let place = &options.stored;
    println!("The Rust sources are not at hand; the stored answers are used instead.");
    replay(options, place)
}

/// Writes the stored answers.
#[cfg(rust_at_hand)]
fn store(place: &str) -> Result<bool, String> {
    let bytes = stored::make();
    std::fs::write(place, &bytes).map_err(|why| format!("{place}: {why}"))?;
    println!("{} bytes written", bytes.len());
    Ok(true)
}

/// Answers can only be stored by the Rust.
#[cfg(not(rust_at_hand))]
fn store(_place: &str) -> Result<bool, String> {
    Err("the Rust sources are not at hand, and only they can make the stored answers".into())
}

/// Replays the stored answers.
fn replay(options: &Options, place: &str) -> Result<bool, String> {
    let port = port(&options.port)?;
    let bytes = std::fs::read(place).map_err(|why| format!("{place}: {why}"))?;
    let tallies = stored::replay(port.as_ref(), &bytes)?;
    let mut same = true;
    for (call, tally) in &tallies {
        same &= report(call, "stored", tally, options.seed);
    }
    Ok(same)
}

/// Prints what came of a group; whether nothing differed.
fn report(call: &str, group: &str, tally: &Tally, seed: u64) -> bool {
    println!("{}", tally.line(call, group));
    if let Some(found) = &tally.smallest {
        println!("  seed {seed}, index {}: {}", found.index, found.what);
        print!("  {}", found.input);
    }
    tally.differences == 0
}
