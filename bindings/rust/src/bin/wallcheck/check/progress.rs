//! How far a long command is, where somebody looks on.

use std::io::{IsTerminal, Write};
use std::time::{Duration, Instant};

/// Shown from the first second on, twice a second, on a terminal.
pub struct Progress {
    on: bool,
    began: Instant,
    next: Duration,
}

impl Progress {
    pub fn begin() -> Progress {
        Progress { on: std::io::stderr().is_terminal(), began: Instant::now(), next: Duration::from_secs(1) }
    }

    pub fn at(&mut self, lines: u64) {
        let passed = self.began.elapsed();
        if self.on && passed >= self.next {
            self.next = passed + Duration::from_millis(500);
            put(&format!("\r{}\x1b[K", words(lines, passed)));
        }
    }
}

/// Whatever is said next stands on a line of its own.
impl Drop for Progress {
    fn drop(&mut self) {
        if self.on && self.next > Duration::from_secs(1) {
            put("\r\x1b[K");
        }
    }
}

fn words(lines: u64, passed: Duration) -> String {
    format!("wallcheck: {lines} lines done, {:.0} lines a second", lines as f64 / passed.as_secs_f64())
}

/// Standard error that cannot be written changes nothing.
fn put(text: &str) {
    let mut stderr = std::io::stderr().lock();
    let _ = stderr.write_all(text.as_bytes()).and_then(|()| stderr.flush());
}

#[cfg(test)]
mod tests {
    use super::*;

    #[test]
    fn lines_a_second() {
        assert_eq!(words(3_000_000, Duration::from_millis(1500)), "wallcheck: 3000000 lines done, 2000000 lines a second");
    }
}
