//! A board in a program that has no standard library and no allocator, as firmware has none. Exit status 0 if all went
//! well, otherwise the number of the refusal.
#![no_std]
#![no_main]

use core::panic::PanicInfo;
use joyce::{Board, PowerOn, Refusal, Sizes, Step, BLOCK, ENABLE, PICTURE};

// Of the C library come the start of the program and the memset that the proved library calls; firmware has its own.
#[link(name = "c")]
extern "C" {
    fn abort() -> !;
}

#[panic_handler]
fn panicked(_: &PanicInfo) -> ! {
    // SAFETY: it takes nothing and does not come back.
    unsafe { abort() }
}

/// Draws a board's first picture; gives the number of lines drawn.
fn first_picture(ram: &mut [u8], picture: &mut [u8]) -> Result<u16, Refusal> {
    let sizes = Sizes { internal: 8, total: 8 };
    let mut board = Board::power_on(&PowerOn { sizes, rate: 50, ..PowerOn::default() })?;
    board.step(Step::PortOut(0xF8, 0), ram, &[]).accepted()?;
    board.step(Step::PortOut(0xF7, ENABLE), ram, &[]).accepted()?;
    board.refresh(ram, picture).accepted().map(|drawn| drawn.count)
}

#[no_mangle]
pub extern "C" fn main() -> i32 {
    match first_picture(&mut [0; 8 * BLOCK], &mut [0; PICTURE]) {
        Ok(256) => 0,
        Ok(_) => 255,
        Err(refusal) => refusal.0.into(),
    }
}
