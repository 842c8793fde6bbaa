//! The jobs in plain, safe Rust, by the methods of the proved library: what its times are measured against.
//!
//! These are written to be as quick as plain code of that method is, in working memory of fixed size. A refusal is its number and place.

mod columns;
mod cross;
mod dwarf;
mod many;
mod moved;
mod read;
mod run;
mod walk;
mod walls;

pub use columns::over;
pub use cross::{cross, cross_balls};
pub use dwarf::build;
use dwarf::{contracted, Dwarf};
pub use many::cross_many;
pub use moved::move_sheet;
pub use read::{read, read_pair};
pub use run::run;
pub use walls::{by_walk, by_words, Lines};

pub type Refused = (u8, usize);

/// Are three answer lists long enough?
fn enough<const LISTS: usize>(rooms: [usize; LISTS], needed: [usize; LISTS]) -> Result<(), Refused> {
    for k in 0..LISTS {
        if rooms[k] < needed[k] {
            return Err((9, needed[k]));
        }
    }
    Ok(())
}
