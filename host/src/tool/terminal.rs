//! The width of the terminal.

use super::out::Out;

/// Columns that texts have room in: those of the terminal that they go to, or what COLUMNS says, if either is known.
pub fn columns(out: Out) -> Option<usize> {
    let told = || std::env::var("COLUMNS").ok().and_then(|text| text.parse().ok());
    window(out).or_else(told).filter(|&columns| columns > 0)
}

/// What the terminal itself tells.
#[cfg(all(target_os = "linux", any(target_arch = "x86_64", target_arch = "aarch64")))]
fn window(out: Out) -> Option<usize> {
    use std::os::raw::{c_int, c_ulong};
    extern "C" {
        fn ioctl(file: c_int, request: c_ulong, ...) -> c_int;
    }
    const TIOCGWINSZ: c_ulong = 0x5413;
    let file = match out {
        Out::Standard => 1,
        Out::Error => 2,
    };
    // Rows, columns, and the same in pixels.
    let mut size = [0u16; 4];
    // SAFETY: the request writes a struct of four such numbers, or nothing.
    let answer = unsafe { ioctl(file, TIOCGWINSZ, size.as_mut_ptr()) };
    Some(size[1].into()).filter(|&columns| answer == 0 && columns > 0)
}

#[cfg(not(all(target_os = "linux", any(target_arch = "x86_64", target_arch = "aarch64"))))]
fn window(_: Out) -> Option<usize> {
    None
}
