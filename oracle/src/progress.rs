//! How far a long run is, on stderr: on a terminal one line that is written
//! over about once a second, elsewhere a line every ten seconds.

use std::io::{stderr, IsTerminal, Write};
use std::time::{Duration, Instant};

pub struct Progress {
    terminal: bool,
    last: Instant,
}

impl Default for Progress {
    fn default() -> Self {
        Progress {
            terminal: stderr().is_terminal(),
            last: Instant::now(),
        }
    }
}

impl Progress {
    /// Whether it is time for the next line, at this moment.
    fn due(&mut self, now: Instant) -> bool {
        let pause = Duration::from_secs(if self.terminal { 1 } else { 10 });
        let due = now.duration_since(self.last) >= pause;
        if due {
            self.last = now;
        }
        due
    }

    /// Writes the line if it is time for it. A terminal that cannot be written
    /// to is no reason to end a run.
    pub fn tell(&mut self, line: impl FnOnce() -> String) {
        if !self.due(Instant::now()) {
            return;
        }
        let _ = match self.terminal {
            true => write!(stderr(), "\r\x1b[K{}", line()),
            false => writeln!(stderr(), "{}", line()),
        };
    }

    /// Makes way for a line on stdout.
    pub fn clear(&self) {
        if self.terminal {
            let _ = write!(stderr(), "\r\x1b[K");
        }
    }
}

#[cfg(test)]
mod tests {
    use super::Progress;
    use std::time::{Duration, Instant};

    #[test]
    fn a_line_a_second_or_every_ten() {
        for (terminal, pause) in [(true, 1), (false, 10)] {
            let last = Instant::now();
            let mut progress = Progress { terminal, last };
            let after = |seconds| last + Duration::from_secs(seconds);
            let just_before = after(pause) - Duration::from_millis(1);
            let moments = [just_before, after(pause), after(pause), after(2 * pause)];
            let due = moments.map(|moment| progress.due(moment));
            assert_eq!(due, [false, true, false, true]);
        }
    }
}
