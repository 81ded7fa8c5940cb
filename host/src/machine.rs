//! One trait for the library and for the model, so that either can be driven.

use crate::model::{self, archive, Packed};
use joyce::archive::Fields;
use joyce::interface::Interface;
use joyce::{Access, Board, PowerOn, Reply, StepNumbers, VERSION};

/// Every operation of the C interface; each takes any input.
pub trait Machine {
    fn version(&self) -> u32;
    fn power_on(&self, board: &mut Board, on: &PowerOn) -> Reply;
    fn step(&self, board: &mut Board, step: StepNumbers, ram: &mut [u8], boot: &[u8]) -> Reply;
    fn draw(&self, board: &Board, ram: &[u8], picture: &mut [u8]) -> Reply;
    fn refresh(&self, board: &mut Board, ram: &[u8], picture: &mut [u8]) -> Reply;
    fn next_dirty(&self, board: &Board, n: u32) -> Reply;
    fn first_difference(&self, a: &[u8], b: &[u8]) -> Reply;
    fn widen(&self, line: &[u8], out: &mut [u8]) -> u8;
    fn make_pointer(&self, block: u32, start: u32) -> Reply;
    fn read_pointer(&self, word: u16) -> Reply;
    fn roll(&self, old: u8, new: u8) -> i8;
    fn reach(&self, access: &Access) -> Reply;
    fn archive_start(&self, room: &mut [u8]) -> Reply;
    fn archive_count(&self, archive: &[u8]) -> Reply;
    fn archive_entry(&self, archive: &[u8], k: u32) -> Reply;
    fn archive_find(&self, archive: &[u8], bench: u32, number: u32) -> Reply;
    fn archive_read(&self, archive: &[u8], k: u32, picture: &mut [u8]) -> Reply;
    fn archive_add(&self, archive: &[u8], fields: Fields, picture: &[u8], room: &mut [u8]) -> Reply;
}

/// The linked library, or another table of the C interface's functions.
impl Machine for Interface {
    fn version(&self) -> u32 {
        Interface::version(self)
    }

    fn power_on(&self, board: &mut Board, on: &PowerOn) -> Reply {
        Interface::power_on(self, board, on)
    }

    fn step(&self, board: &mut Board, step: StepNumbers, ram: &mut [u8], boot: &[u8]) -> Reply {
        Interface::step(self, board, step, ram, boot)
    }

    fn draw(&self, board: &Board, ram: &[u8], picture: &mut [u8]) -> Reply {
        Interface::draw(self, board, ram, picture)
    }

    fn refresh(&self, board: &mut Board, ram: &[u8], picture: &mut [u8]) -> Reply {
        Interface::refresh(self, board, ram, picture)
    }

    fn next_dirty(&self, board: &Board, n: u32) -> Reply {
        Interface::next_dirty(self, board, n)
    }

    fn first_difference(&self, a: &[u8], b: &[u8]) -> Reply {
        Interface::first_difference(self, a, b)
    }

    fn widen(&self, line: &[u8], out: &mut [u8]) -> u8 {
        Interface::widen(self, line, out)
    }

    fn make_pointer(&self, block: u32, start: u32) -> Reply {
        Interface::make_pointer(self, block, start)
    }

    fn read_pointer(&self, word: u16) -> Reply {
        Interface::read_pointer(self, word)
    }

    fn roll(&self, old: u8, new: u8) -> i8 {
        Interface::roll(self, old, new)
    }

    fn reach(&self, access: &Access) -> Reply {
        Interface::reach(self, access)
    }

    fn archive_start(&self, room: &mut [u8]) -> Reply {
        Interface::archive_start(self, room)
    }

    fn archive_count(&self, archive: &[u8]) -> Reply {
        Interface::archive_count(self, archive)
    }

    fn archive_entry(&self, archive: &[u8], k: u32) -> Reply {
        Interface::archive_entry(self, archive, k)
    }

    fn archive_find(&self, archive: &[u8], bench: u32, number: u32) -> Reply {
        Interface::archive_find(self, archive, bench, number)
    }

    fn archive_read(&self, archive: &[u8], k: u32, picture: &mut [u8]) -> Reply {
        Interface::archive_read(self, archive, k, picture)
    }

    fn archive_add(&self, archive: &[u8], fields: Fields, picture: &[u8], room: &mut [u8]) -> Reply {
        Interface::archive_add(self, archive, fields, picture, room)
    }
}

/// The second model.
pub struct Model;

impl Machine for Model {
    fn version(&self) -> u32 {
        VERSION
    }

    fn power_on(&self, board: &mut Board, on: &PowerOn) -> Reply {
        let (powered, answer) = model::power_on(on);
        *board = powered;
        answer.packed()
    }

    fn step(&self, board: &mut Board, step: StepNumbers, ram: &mut [u8], boot: &[u8]) -> Reply {
        model::step_numbers(board, step, ram, boot).packed()
    }

    fn draw(&self, board: &Board, ram: &[u8], picture: &mut [u8]) -> Reply {
        model::draw(board, ram, picture).packed()
    }

    fn refresh(&self, board: &mut Board, ram: &[u8], picture: &mut [u8]) -> Reply {
        model::refresh(board, ram, picture).packed()
    }

    fn next_dirty(&self, board: &Board, n: u32) -> Reply {
        model::next_dirty(board, n).packed()
    }

    fn first_difference(&self, a: &[u8], b: &[u8]) -> Reply {
        model::first_difference(a, b).packed()
    }

    fn widen(&self, line: &[u8], out: &mut [u8]) -> u8 {
        model::widen(line, out)
    }

    fn make_pointer(&self, block: u32, start: u32) -> Reply {
        model::make_pointer(block, start).packed()
    }

    fn read_pointer(&self, word: u16) -> Reply {
        model::read_pointer(word).packed()
    }

    fn roll(&self, old: u8, new: u8) -> i8 {
        model::roll(old, new)
    }

    fn reach(&self, access: &Access) -> Reply {
        model::reach(access).packed()
    }

    fn archive_start(&self, room: &mut [u8]) -> Reply {
        archive::start(room).packed()
    }

    fn archive_count(&self, archive: &[u8]) -> Reply {
        archive::count(archive).packed()
    }

    fn archive_entry(&self, archive: &[u8], k: u32) -> Reply {
        archive::entry(archive, k).packed()
    }

    fn archive_find(&self, archive: &[u8], bench: u32, number: u32) -> Reply {
        archive::find(archive, bench, number).packed()
    }

    fn archive_read(&self, archive: &[u8], k: u32, picture: &mut [u8]) -> Reply {
        archive::read(archive, k, picture).packed()
    }

    fn archive_add(&self, archive: &[u8], fields: Fields, picture: &[u8], room: &mut [u8]) -> Reply {
        archive::add(archive, fields, picture, room).packed()
    }
}
