//! Where in memory the code stands. The same loop can take half as long again where its jumps
//! fall badly on the processor's lines of 64 bytes, so the program is built with several pads in
//! front of all that is measured: BENCH_PAD, in bytes, when it is built.

use std::arch::global_asm;
use std::hint::black_box;

const fn pad() -> usize {
    let Some(text) = option_env!("BENCH_PAD") else { return 0 };
    let (digits, mut at, mut pad) = (text.as_bytes(), 0, 0);
    while at < digits.len() {
        pad = 10 * pad + (digits[at] - b'0') as usize;
        at += 1;
    }
    pad
}

global_asm!(
    ".section .text.bench_pad, \"ax\", @progbits",
    ".p2align 4",
    ".globl bench_pad",
    "bench_pad:",
    ".skip {pad}",
    "ret",
    ".text",
    pad = const pad(),
);

unsafe extern "C" {
    fn bench_pad();
}

/// Keeps the pad in the program.
pub fn keep() {
    black_box(bench_pad as unsafe extern "C" fn());
}
