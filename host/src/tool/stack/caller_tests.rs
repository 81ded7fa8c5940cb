//! The measurement, tried on functions of which the use is known.

use super::super::functions::tests::address;
use super::*;
use joyce_host::header::Type::{self, Unsigned};
use std::arch::global_asm;
use std::mem::MaybeUninit;

const LOCAL: usize = 3_000;
const WORD: (Type, &str) = (Unsigned(64), "word");

global_asm!(
    // Gives the stack pointer.
    ".globl stack_test_pointer",
    "stack_test_pointer: mov rax, rsp",
    "ret",
    // Writes one byte, as deep below its return address as its argument says.
    ".globl stack_test_depth",
    "stack_test_depth: neg rdi",
    "mov byte ptr [rsp + rdi], 0xA5",
    "ret",
    // Gives what it finds below its return address.
    ".globl stack_test_leftover",
    "stack_test_leftover: mov rax, [rsp - 64]",
    "ret",
);

extern "C" {
    fn stack_test_pointer();
    fn stack_test_depth();
    fn stack_test_leftover();
}

fn function(address: unsafe extern "C" fn()) -> Function {
    Function { name: "tried", result: Unsigned(64), parameters: &[WORD], address }
}

/// Measures a call with these words, as many as the function takes.
fn measured(address: unsafe extern "C" fn(), words: &[u64]) -> Result<Measured, String> {
    // SAFETY: each test gives its function the words that it takes, and none is an address.
    unsafe { Stack::new().measure(&function(address), || Ok(words.to_vec())) }
}

/// The bytes of a local array that is not written yet. All of them must be there, and nothing below them.
#[inline(always)]
fn start(local: &mut MaybeUninit<[u8; LOCAL]>) -> *mut u8 {
    let start = local.as_mut_ptr().cast();
    // SAFETY: it has no instruction, and only claims to look at the array.
    unsafe { asm!("/* {0} */", in(reg) start, options(nostack, preserves_flags)) };
    start
}

extern "C" fn writes_all(value: u64) -> u64 {
    let mut local = MaybeUninit::uninit();
    let start = start(&mut local);
    // SAFETY: inside of the array.
    (0..LOCAL).for_each(|at| unsafe { start.add(at).write_volatile(value as u8) });
    value
}

/// The first byte of an array is its deepest.
extern "C" fn writes_deepest(value: u64) -> u64 {
    let mut local = MaybeUninit::uninit();
    // SAFETY: inside of the array.
    unsafe { start(&mut local).write_volatile(value as u8) };
    value
}

#[test]
fn a_local_array_is_found() {
    for value in [0, 0xA5, 0x5A] {
        let used = measured(address(writes_all as *const ()), &[value]).expect("measured").used;
        assert!((LOCAL..LOCAL + 400).contains(&used), "{used}");
    }
}

#[test]
fn one_byte_with_the_value_of_a_pattern_is_found() {
    for value in PATTERNS {
        let used = measured(address(writes_deepest as *const ()), &[value as u64]).expect("measured").used;
        assert!((LOCAL..LOCAL + 400).contains(&used), "{used}");
    }
    // On its own pattern alone it is not.
    // SAFETY: the function takes one word.
    let used = PATTERNS.map(|pattern| unsafe { Stack::new().call(stack_test_depth, &[500], pattern).1 });
    assert!(used[0] <= 8 && used[1] == 508, "{used:?}");
}

/// The return address is 8 bytes.
#[test]
fn the_measure_is_exact() {
    for depth in [1, 8, 127, 128, 984, 2_048, 4_095, 4_096, 4_097, 61_000] {
        assert_eq!(measured(stack_test_depth, &[depth]).expect("measured").used, 8 + depth as usize);
    }
}

#[test]
fn what_is_too_deep_is_an_error() {
    let error = measured(stack_test_depth, &[SIZE as u64 - 2_048]).map(|measured| measured.used).expect_err("too deep");
    assert_eq!(error, "tried: a call used more than the 65536 bytes lent");
}

#[test]
fn a_reply_that_hangs_on_the_stack_is_an_error() {
    let error = measured(stack_test_leftover, &[]).map(|measured| measured.used).expect_err("other replies");
    assert!(error.starts_with("tried: of two equal calls one gave A5A5A5A5A5A5A5A5"), "{error}");
}

/// At the first instruction the return address is on the stack, which was at a multiple of 16 before.
#[test]
fn the_stack_is_aligned_and_arguments_on_it_count() {
    for count in 0..13 {
        let Measured { reply, used } = measured(stack_test_pointer, &vec![7; count]).expect("measured");
        assert_eq!(reply % 16, 8);
        assert_eq!(used, 8 + 8 * count.saturating_sub(6));
    }
}

#[test]
fn a_word_comes_back_unharmed() {
    extern "C" fn same(word: u64) -> u64 {
        word
    }
    for word in [0, 1, u64::MAX, 0x0123_4567_89AB_CDEF] {
        assert_eq!(measured(address(same as *const ()), &[word]).expect("measured").reply, word);
    }
}

fn folded(words: &[u64]) -> u64 {
    words.iter().fold(1, |sum, word| sum.wrapping_mul(31).wrapping_add(*word))
}

#[test]
fn arguments_arrive_in_order() {
    type W = u64;
    #[allow(clippy::too_many_arguments)]
    extern "C" fn nine(a: W, b: W, c: W, d: W, e: W, f: W, g: W, h: W, i: W) -> W {
        folded(&[a, b, c, d, e, f, g, h, i])
    }
    #[allow(clippy::too_many_arguments)]
    extern "C" fn ten(a: W, b: W, c: W, d: W, e: W, f: W, g: W, h: W, i: W, j: W) -> W {
        folded(&[a, b, c, d, e, f, g, h, i, j])
    }
    #[allow(clippy::too_many_arguments)]
    extern "C" fn eleven(a: W, b: W, c: W, d: W, e: W, f: W, g: W, h: W, i: W, j: W, k: W) -> W {
        folded(&[a, b, c, d, e, f, g, h, i, j, k])
    }
    let functions = [nine as *const (), ten as *const (), eleven as *const ()];
    let words: Vec<W> = (0..11).map(|at| 0x1_0000_0001 * (at + 3)).collect();
    for (function, count) in functions.into_iter().zip([9, 10, 11]) {
        assert_eq!(measured(address(function), &words[..count]).expect("measured").reply, folded(&words[..count]));
    }
}
