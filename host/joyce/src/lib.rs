//! Safe calls of the main board of the Amstrad Joyce (PCW): its library `libjoyce.a`, whose every function is proved to
//! keep to the board's rules, from Rust.
//!
//! The board is a Z80's surroundings: paged RAM, ports, a timer, the beam, interrupt lines, the keyboard's table, and
//! the picture that is drawn from the RAM. The host has the Z80 and lends the board its memory; each thing that happens
//! is a [`Step`], and the answer is what the Z80 gets to see. [`archive`]s keep pictures.
//!
//! ```
//! use joyce::{Board, PowerOn, Sizes, Step, BLOCK, ENABLE, PICTURE};
//!
//! let sizes = Sizes { internal: 8, total: 8 };
//! let on = PowerOn { sizes, rate: 50, maps: [0x80, 0x81, 0x82, 0x83], ..PowerOn::default() };
//! let (mut ram, mut picture) = ([0; 8 * BLOCK], [0; PICTURE]);
//! let mut board = Board::power_on(&on)?;
//!
//! board.step(Step::PortOut(0xF8, 0), &mut ram, &[]).accepted()?; // boot mode ends
//! board.step(Step::PortOut(0xF7, ENABLE), &mut ram, &[]).accepted()?; // the RAM is shown
//! board.step(Step::Write(0x4000, 0xFF), &mut ram, &[]).accepted()?; // a byte of block 1
//! let drawn = board.refresh(&ram, &mut picture).accepted()?;
//! assert_eq!(drawn.count, 256); // after power-on all lines are new
//! # Ok::<(), joyce::Refusal>(())
//! ```
//!
//! `cargo run -p joyce --example page` goes on from there.
//!
//! # What holds
//!
//! - Every input is taken: any bytes in a record, any length, any number. No call panics.
//! - What a call does not accept it refuses with a number ([`Refusal`]), and then it changes nothing: neither record
//!   nor lent memory. Each answer has the number in `refusal`, 0 for none, and `accepted()` makes a `Result` of it. If
//!   several refusals apply, the lowest number is given.
//! - All memory is lent, and nobody keeps it. The library has no variables and allocates nothing; a call into it uses
//!   at most 1,024 bytes of stack.
//! - A board is a record of 64 bytes ([`Board`]) and its RAM. There may be many, in any thread, and both may be copied
//!   and saved.
//!
//! The functions of the library are proved. This crate has no rule of its own, but it is only tested: that it hands
//! over what it is given, and takes the answer apart.
//!
//! # The library
//!
//! The build looks for `libjoyce.a` in the folder that the environment variable `JOYCE_LIB` names by its whole path,
//! and otherwise where the project that this crate is part of builds it.
//!
//! It is for x86-64. It uses SSE2 registers and the 128 bytes below the stack pointer, as the System V convention lets
//! a function: an interrupt on the same stack keeps clear of both. It calls one function that it does not have,
//! `memset`: a C library brings it, and firmware without one brings its own.
//!
//! With the feature `unlinked` nothing is linked, and the `joyce_` functions of `joyce.h` come from elsewhere in the
//! program. That is for tests of what stands on this crate, with something else in the library's place.
#![no_std]
#![warn(missing_docs)]

pub mod archive;
mod board;
mod calls;
mod ffi;
pub mod interface;
mod record;
mod refusal;
mod reply;
mod step;

pub use board::PowerOn;
pub use calls::{first_difference, make_pointer, reach, read_pointer, roll, version, widen, Access};
pub use ffi::LIBRARY;
pub use record::{Board, Boot, Clock, Disc, Lines, Paging, Sizes, Video};
pub use record::{BLOCK, BOOT_MAX, LINES, LINE_BYTES, PICTURE, VERSION, WIDE_LINE_BYTES};
pub use record::{ENABLE, REVERSE, ROUTE_INT, ROUTE_NMI, ROUTE_NONE};
pub use refusal::Refusal;
pub use reply::{Answer, Difference, Drawn, MadePointer, NextLine, Pointer, Reach, Reply};
pub use step::{Step, StepNumbers};

/// The lines of the README are compiled too.
#[cfg(doctest)]
#[doc = include_str!("../README.md")]
struct Readme;
