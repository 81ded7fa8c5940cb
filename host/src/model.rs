//! The board, written a second time from the rules, to be held against the library.

pub mod archive;
pub mod archive_fast;
mod lines;
mod memory;
mod packed;
mod picture;
mod pure;
mod rules;
mod step;
#[cfg(test)]
mod tests;

pub use lines::LineSets;
pub use memory::{reach, reach_lines, GROUP, REACH_HEAD};
pub use packed::Packed;
pub use picture::{draw, refresh};
pub use pure::{first_difference, make_pointer, next_dirty, read_pointer, roll, widen};
pub use rules::{BoardRules, FieldsRules, SizesRules, STANDARD_RAM};
pub use step::{decoded, step, step_numbers};

pub(crate) use memory::blocks;
pub(crate) use picture::table_index;
#[cfg(feature = "standin")]
pub(crate) use picture::touched_lines;

use joyce::{Answer, Board, Boot, Clock, Disc, Paging, PowerOn, Refusal, Video, ROUTE_NONE};

/// A record just powered on, or zeros and refusal 6.
pub fn power_on(on: &PowerOn) -> (Board, Answer) {
    if !on.sizes.allowed() || !matches!(on.rate, 50 | 60) {
        return (Board::default(), Answer { refusal: Refusal::BAD_SIZES.0, ..Answer::default() });
    }
    let mut board = Board {
        sizes: on.sizes,
        rate: on.rate,
        paging: Paging { maps: on.maps, lock: on.lock },
        video: Video { table: on.table, top: on.top, control: 0 },
        clock: Clock::default(),
        ..Board::default()
    };
    restart(&mut board);
    board.dirty = board.shown();
    (board, Answer::default())
}

/// What power-on and reset set alike.
fn restart(board: &mut Board) {
    board.boot = Boot { mode: 1, at: 0 };
    board.disc = Disc { route: ROUTE_NONE, line: board.disc.line, terminal_count: 1, motor: 0 };
    board.driven = 1;
    board.bleeper = 0;
    board.clock.counter = 0;
    board.video.control = 0;
}
