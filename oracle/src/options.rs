//! The words behind a command.

/// How the program is called.
pub const USAGE: &str = "oracle differ [--seed N] [--calls N | --seconds S] [--groups A,B] \
[--only A,B] [--port library|reference] [--stored FILE] | store FILE | replay FILE";

/// Where the stored answers stand if no other place is named.
const STORED: &str = concat!(env!("CARGO_MANIFEST_DIR"), "/../crates/replay/stdin");

/// When a long run of a call is enough.
#[derive(Clone, Copy, Debug, PartialEq)]
pub enum Until {
    /// So many random inputs were compared.
    Calls(usize),
    /// So many seconds are over.
    Seconds(f64),
}

/// What was asked for on the command line.
#[derive(Clone, Debug, PartialEq)]
pub struct Options {
    pub seed: u64,
    /// Whether the random groups go on, and how long: for each call where it
    /// is a count, for all of them together where it is a time.
    pub until: Option<Until>,
    pub groups: Option<String>,
    pub only: Option<String>,
    pub port: String,
    pub stored: String,
    pub place: Option<String>,
}

/// Reads a number.
fn number<T: std::str::FromStr>(text: String) -> Result<T, String> {
    text.parse().map_err(|_| format!("{text} is no number"))
}

/// Reads how many seconds a run shall take.
fn seconds(text: String) -> Result<f64, String> {
    let seconds: f64 = number(text.clone())?;
    let timed = seconds.is_finite() && seconds > 0.0;
    timed.then_some(seconds).ok_or(format!("{text} is no time"))
}

impl Options {
    /// Reads the options.
    pub fn read(words: &[String]) -> Result<Options, String> {
        let mut options = Options {
            seed: 1,
            until: None,
            groups: None,
            only: None,
            port: "library".into(),
            stored: STORED.into(),
            place: None,
        };
        let mut words = words.iter();
        while let Some(word) = words.next() {
            let mut value = || words.next().cloned().ok_or(format!("{word} lacks a value"));
            match word.as_str() {
                "--seed" => options.seed = number(value()?)?,
                "--calls" | "--each" => options.go_on(Until::Calls(number(value()?)?))?,
                "--seconds" => options.go_on(Until::Seconds(seconds(value()?)?))?,
                "--groups" => options.groups = Some(value()?),
                "--only" => options.only = Some(value()?),
                "--port" => options.port = value()?,
                "--stored" => options.stored = value()?,
                place if !place.starts_with('-') && options.place.is_none() => {
                    options.place = Some(place.into());
                }
                _ => return Err(USAGE.into()),
            }
        }
        Ok(options)
    }

    /// Asks for a long run, once.
    fn go_on(&mut self, until: Until) -> Result<(), String> {
        match self.until.replace(until) {
            None => Ok(()),
            Some(_) => Err("a run ends by calls or by time, not by both".into()),
        }
    }
}

#[cfg(test)]
mod tests {
    use super::{Options, Until};

    fn read(line: &str) -> Result<Options, String> {
        let words: Vec<String> = line.split_whitespace().map(String::from).collect();
        Options::read(&words)
    }

    #[test]
    fn plain_words() {
        let options = read("--seed 7 --only get_mindiff --groups noise,small").unwrap();
        assert_eq!((options.seed, options.until), (7, None));
        assert_eq!(options.only.as_deref(), Some("get_mindiff"));
        assert_eq!(options.groups.as_deref(), Some("noise,small"));
        assert_eq!((options.port.as_str(), options.place), ("library", None));
        let place = read("here --port reference").unwrap();
        assert_eq!(place.place.as_deref(), Some("here"));
        assert_eq!(place.port, "reference");
    }

    #[test]
    fn long_runs() {
        let until = |line| read(line).map(|options| options.until);
        assert_eq!(until(""), Ok(None));
        assert_eq!(until("--calls 5"), Ok(Some(Until::Calls(5))));
        assert_eq!(until("--each 5"), Ok(Some(Until::Calls(5))));
        assert_eq!(until("--seconds 1.5"), Ok(Some(Until::Seconds(1.5))));
    }

    #[test]
    fn what_is_not_understood() {
        let wrong = [
            "--calls",
            "--calls -1",
            "--calls x",
            "--seed 1.5",
            "--long",
            "a b",
        ];
        for line in wrong {
            assert!(read(line).is_err(), "{line}");
        }
        for time in [
            "--seconds 0",
            "--seconds -1",
            "--seconds inf",
            "--seconds NaN",
        ] {
            assert!(read(time).unwrap_err().ends_with("is no time"), "{time}");
        }
        assert!(read("--calls 1 --seconds 1").unwrap_err().contains("both"));
    }
}
