//! Paging: which block an address reaches, and the reach list.

use super::SizesRules;
use joyce::{Access, Paging, Reach, Refusal, Sizes};
use std::fmt::Write;

/// Lock bit of each bank. Issue 9 does not have them in bank order.
const LOCK_BITS: [u8; 4] = [0x40, 0x10, 0x20, 0x80];

/// The blocks a bank reads from and writes to.
pub(crate) fn blocks(sizes: Sizes, paging: &Paging, bank: usize) -> (u8, u8) {
    let map = paging.maps[bank];
    if map & 0x80 != 0 {
        let wanted = map & 0x7F;
        let block = if wanted < sizes.total { wanted } else { wanted % sizes.internal };
        return (block, block);
    }
    let write = map & 7;
    let locked = paging.lock & LOCK_BITS[bank] != 0;
    let read = if locked { write } else { map >> 4 & 7 };
    (read, write)
}

/// Where a read and a write of an address would land.
pub fn reach(access: &Access) -> Reach {
    if !access.sizes.allowed() {
        return Reach { refusal: Refusal::BAD_SIZES.0, ..Reach::default() };
    }
    let (read, write) = blocks(access.sizes, &access.paging, access.address as usize >> 14);
    Reach { place: access.address & 0x3FFF, read, write, refusal: 0 }
}

/// The first line of a reach list.
pub const REACH_HEAD: &str = "REACH\n";
/// Bytes in a group of a reach list.
pub const GROUP: usize = 9;

/// The lines of a reach list for a run of groups, each answered by `answer`. Only the last of all may be too short.
pub fn reach_lines(groups: &[u8], answer: impl Fn(&Access) -> Reach) -> String {
    let mut text = String::new();
    for group in groups.chunks(GROUP) {
        let line = match group {
            &[internal, total, f0, f1, f2, f3, lock, low, high] => answer(&Access {
                sizes: Sizes { internal, total },
                paging: Paging { maps: [f0, f1, f2, f3], lock },
                address: u16::from_le_bytes([low, high]),
            }),
            _ => Reach { refusal: Refusal::BAD_LENGTH.0, ..Reach::default() },
        };
        write_reach(&mut text, &line);
    }
    text
}

fn write_reach(text: &mut String, reach: &Reach) {
    let done = match reach {
        Reach { refusal: 0, place, read, write } => {
            writeln!(text, "R {read:02X} {place:04X} W {write:02X} {place:04X}")
        }
        refused => writeln!(text, "X {}", refused.refusal),
    };
    done.expect("writing to a string cannot fail");
}
