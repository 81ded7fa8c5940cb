//! Calls of a function on a stack that is filled with a pattern, and how deep they changed it.

use super::functions::Function;
use std::arch::asm;

/// Bytes in the stack that is called on.
const SIZE: usize = 65_536;
/// Its lowest bytes. What is used may go on below them where they are changed, so that is no measurement.
const LOWEST: usize = 4_096;
/// A byte that is written with one pattern's own value shows in the other.
const PATTERNS: [u8; 2] = [0xA5, 0x5A];

#[repr(C, align(16))]
struct Bytes([u8; SIZE]);

pub struct Stack(Box<Bytes>);

/// What a call gave, and the bytes of stack that it used: from above the arguments that are passed there, which are the call's
/// as its return address is, to the deepest byte changed.
pub struct Measured {
    pub reply: u64,
    pub used: usize,
}

impl Stack {
    pub fn new() -> Stack {
        Stack(Box::new(Bytes([0; SIZE])))
    }

    /// Makes a call twice, once on each pattern. `lend` makes the memory ready that is lent, alike each time, and gives the
    /// arguments.
    ///
    /// # Safety
    /// The function is at its address, and what `lend` gives may be lent to it.
    pub unsafe fn measure(
        &mut self,
        function: &Function,
        mut lend: impl FnMut() -> Result<Vec<u64>, String>,
    ) -> Result<Measured, String> {
        let mut made = Vec::new();
        for pattern in PATTERNS {
            let (register, used) = self.call(function.address, &lend()?, pattern);
            made.push(Measured { reply: function.reply(register), used });
        }
        let (reply, other) = (made[0].reply, made[1].reply);
        if reply != other {
            return Err(format!("{}: of two equal calls one gave {reply:016X}, one {other:016X}", function.name));
        }
        match made[0].used.max(made[1].used) {
            used if used > SIZE - LOWEST => {
                Err(format!("{}: a call used more than the {SIZE} bytes lent", function.name))
            }
            used => Ok(Measured { reply, used }),
        }
    }

    /// One call, on one pattern: the register that a reply comes in, and the bytes used.
    unsafe fn call(&mut self, address: unsafe extern "C" fn(), arguments: &[u64], pattern: u8) -> (u64, usize) {
        self.0 .0.fill(pattern);
        let (in_registers, stacked) = arguments.split_at(arguments.len().min(6));
        let mut registers = [0; 6];
        registers[..in_registers.len()].copy_from_slice(in_registers);
        // The convention wants a call's stack at a multiple of 16, the arguments upwards from there.
        let start = (SIZE - 8 * stacked.len()) & !15;
        for (bytes, argument) in self.0 .0[start..].chunks_mut(8).zip(stacked) {
            bytes.copy_from_slice(&argument.to_le_bytes());
        }
        let reply = switch(address, &registers, self.0 .0.as_mut_ptr().add(start));
        (reply, start + 8 * stacked.len() - self.deepest(pattern))
    }

    /// The index of the deepest byte changed.
    fn deepest(&self, pattern: u8) -> usize {
        const CHUNK: usize = 1_024;
        let unchanged = self.0 .0.chunks(CHUNK).take_while(|chunk| *chunk == [pattern; CHUNK]).count() * CHUNK;
        unchanged + self.0 .0[unchanged..].iter().take_while(|&&byte| byte == pattern).count()
    }
}

/// Calls an address with the stack pointer at another place, and comes back.
unsafe fn switch(address: unsafe extern "C" fn(), registers: &[u64; 6], stack: *mut u8) -> u64 {
    let reply;
    // A function keeps r12 and r13 as they are.
    asm!(
        "xchg rsp, r12",
        "call r13",
        "mov rsp, r12",
        inout("r12") stack => _,
        in("r13") address,
        in("rdi") registers[0],
        in("rsi") registers[1],
        in("rdx") registers[2],
        in("rcx") registers[3],
        in("r8") registers[4],
        in("r9") registers[5],
        lateout("rax") reply,
        clobber_abi("C"),
    );
    reply
}

#[cfg(test)]
#[path = "caller_tests.rs"]
mod tests;
