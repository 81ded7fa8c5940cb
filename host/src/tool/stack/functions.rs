//! The functions of the header, as the build found them there, and their addresses in the library.

use joyce::Reply;
use joyce_host::header::Type::{self, *};

pub struct Function {
    pub name: &'static str,
    pub result: Type,
    pub parameters: &'static [(Type, &'static str)],
    /// Where it is. Its parameters are those above, whatever this type says.
    pub address: unsafe extern "C" fn(),
}

include!(concat!(env!("OUT_DIR"), "/header_functions.rs"));

impl Function {
    /// The reply, from the register that it comes in: what is over its type is not promised.
    pub fn reply(&self, register: u64) -> u64 {
        cut(self.result, register)
    }

    /// Whether a reply is that of an accepted call: one of 64 bits carries the refusal, one of 8 is the refusal itself, and
    /// other functions refuse nothing.
    pub fn accepted(&self, reply: u64) -> bool {
        match self.result {
            Unsigned(64) => Reply(reply).refusal() == 0,
            Unsigned(8) => reply == 0,
            _ => true,
        }
    }
}

/// A word cut to a type, and extended again as the calling convention of compilers has it.
pub fn cut(kind: Type, word: u64) -> u64 {
    match kind {
        Void => 0,
        Unsigned(bits) => word << (64 - bits) >> (64 - bits),
        Signed(bits) => ((word << (64 - bits)) as i64 >> (64 - bits)) as u64,
        Board | ConstBoard | Bytes | ConstBytes => word,
    }
}

#[cfg(test)]
pub mod tests {
    use super::*;

    /// The address of a function that a test has for itself.
    pub fn address(function: *const ()) -> unsafe extern "C" fn() {
        // SAFETY: only an address from here on, as those of the table are.
        unsafe { std::mem::transmute::<*const (), unsafe extern "C" fn()>(function) }
    }

    #[test]
    fn words_are_cut_to_their_type() {
        let word = 0xFFEE_DDCC_BBAA_9988;
        assert_eq!(cut(Unsigned(8), word), 0x88);
        assert_eq!(cut(Signed(8), word), 0xFFFF_FFFF_FFFF_FF88);
        assert_eq!(cut(Signed(32), 5), 5);
        assert_eq!(cut(Unsigned(64), word), word);
        assert_eq!(cut(Void, word), 0);
    }

    #[test]
    fn the_refusal_is_looked_for_where_it_is() {
        let with = |result| Function { name: "joyce_x", result, parameters: &[], address: FUNCTIONS[0].address };
        assert!(with(Unsigned(64)).accepted(0xFF00_FFFF_FFFF) && !with(Unsigned(64)).accepted(1 << 32));
        assert!(with(Unsigned(8)).accepted(0) && !with(Unsigned(8)).accepted(2));
        assert!(with(Unsigned(32)).accepted(1 << 32) && with(Signed(8)).accepted(2) && with(Void).accepted(7));
    }
}
