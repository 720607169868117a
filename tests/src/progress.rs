//! How far a long run is, on standard error: a line written over each second on a terminal, else a line now and then.

use std::io::{stderr, Write};
use std::time::{Duration, Instant};

/// The time between two lines that stay.
const PLAIN: Duration = Duration::from_secs(30);
/// The time between two lines that are written over.
const OVER: Duration = Duration::from_secs(1);

/// What was told last, and how.
pub struct Progress {
    last: Instant,
    writes_over: bool,
}

impl Progress {
    /// Progress from now on, in lines that are written over or in lines that stay.
    pub fn new(writes_over: bool) -> Progress {
        Progress {
            last: Instant::now(),
            writes_over,
        }
    }

    /// Tells how far the run is, if it is time. A standard error that is closed is no reason to stop.
    pub fn tell(&mut self, how_far: impl FnOnce() -> String) {
        let (pause, start, end) = match self.writes_over {
            true => (OVER, "\r", "\x1b[K"),
            false => (PLAIN, "", "\n"),
        };
        if self.last.elapsed() >= pause {
            self.last = Instant::now();
            let _ = write!(stderr(), "{start}{}{end}", how_far());
        }
    }
}

impl Drop for Progress {
    /// Clears the line.
    fn drop(&mut self) {
        if self.writes_over {
            let _ = write!(stderr(), "\r\x1b[K");
        }
    }
}
