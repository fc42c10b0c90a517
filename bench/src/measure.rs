//! Best of several repetitions.

use std::time::Instant;

/// The shortest time so far and the value of the last run; `take` runs once more.
pub struct Best<T> {
    pub time: f64,
    pub value: Option<T>,
}

impl<T> Best<T> {
    pub fn new() -> Best<T> {
        Best { time: ABSENT, value: None }
    }

    /// A run that replies nothing (no library) leaves the time absent.
    pub fn take(&mut self, run: impl FnOnce() -> Option<T>) {
        let start = Instant::now();
        let value = run();
        let time = start.elapsed().as_nanos() as f64;
        if value.is_some() {
            self.time = self.time.min(time);
            self.value = value;
        }
    }
}

/// Two replies are the same, or the library has none.
pub fn agrees<T: PartialEq>(library: &Option<T>, peer: &Option<T>) -> bool {
    library.is_none() || library == peer
}

/// Runs `turn` at least `times` times and for a fifth of a second, so that short runs are repeated more often.
pub fn repeat(times: usize, mut turn: impl FnMut()) {
    let start = Instant::now();
    let mut done = 0;
    while done < times || (start.elapsed().as_millis() < 200 && done < 1000) {
        turn();
        done += 1;
    }
}

/// A time that was not taken, because the library or the peer is not here.
pub const ABSENT: f64 = f64::INFINITY;

pub fn ratio(x: f64, y: f64) -> String {
    if x < ABSENT && y < ABSENT {
        format!("{:.2}", x / y)
    } else {
        "-".to_string()
    }
}

pub fn nanos(x: f64) -> String {
    if x == ABSENT {
        "-".to_string()
    } else if x < 1.0e4 {
        format!("{:.0} ns", x)
    } else if x < 1.0e7 {
        format!("{:.1} us", x / 1.0e3)
    } else {
        format!("{:.1} ms", x / 1.0e6)
    }
}

/// The value, in a way that the compiler cannot leave its making out.
pub fn keep<T: Copy>(value: T) -> T {
    unsafe { std::ptr::read_volatile(&value) }
}
