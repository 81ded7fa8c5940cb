//! The parts of the tool.

pub mod archive;
pub mod args;
pub mod bench;
pub mod commands;
pub mod demo;
pub mod destination;
pub mod diff;
pub mod files;
pub mod fixture;
pub mod font;
pub mod fuzz;
pub mod input;
pub mod ledger;
pub mod lock;
pub mod out;
pub mod pbm;
pub mod picture;
pub mod png;
pub mod preview;
pub mod reach;
pub mod render;
pub mod screen;
#[cfg(all(target_arch = "x86_64", not(feature = "standin")))]
pub mod stack;
#[cfg(not(all(target_arch = "x86_64", not(feature = "standin"))))]
#[path = "no_stack.rs"]
pub mod stack;
pub mod terminal;
pub mod timing;
