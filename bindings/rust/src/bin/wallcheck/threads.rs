//! How many threads share the lines.

use crate::asked::Asked;
use crate::shown;
use crate::stop::Stop;
use std::num::NonZero;
use std::thread::available_parallelism;

/// So many can be asked for.
const MOST: usize = 1024;

/// The value of `--threads`: 0 is as many as the machine has. Without it there is one.
pub fn asked(asked: &Asked) -> Result<usize, Stop> {
    let Some(value) = asked.value("--threads") else { return Ok(1) };
    match std::str::from_utf8(value).ok().and_then(|text| text.parse().ok()) {
        Some(0) => Ok(available_parallelism().map_or(1, NonZero::get)),
        Some(number @ 1..=MOST) => Ok(number),
        _ => {
            let value = shown::path(value);
            Err(Stop::Usage(format!("'--threads' takes a whole number up to {MOST}, 0 for as many as the machine has, and not '{value}'")))
        }
    }
}
