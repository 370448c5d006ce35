//! Packed tapes: eight bits to a byte, lowest bit first. The unused high bits of the last byte are 0.

use super::{Fault, Refusal};

/// How many bytes so many bits take.
pub fn bytes_for(bits: usize) -> usize {
    bits.div_ceil(8)
}

/// A tape of these bits.
pub fn pack(bits: &[u8]) -> Vec<u8> {
    bits.chunks(8).map(|eight| eight.iter().rev().fold(0, |byte, bit| byte << 1 | bit)).collect()
}

/// A whole tape of so many bits cut at one of them, each part packed for itself: encoding takes
/// the first, running the second.
pub fn cut(tape: &[u8], bits: usize, at: usize) -> (Vec<u8>, Vec<u8>) {
    let bits: Vec<u8> = (0..bits).map(|at| bit(tape, at)).collect();
    (pack(&bits[..at]), pack(&bits[at..]))
}

/// Bit `at` of a tape.
pub(super) fn bit(tape: &[u8], at: usize) -> u8 {
    tape[at / 8] >> (at % 8) & 1
}

/// Adds 0 or 1 to bit `at` of a tape.
pub(super) fn flip(tape: &mut [u8], at: usize, by: u8) {
    tape[at / 8] ^= by << (at % 8);
}

/// Refuses a tape of so many bits that has an unused bit set; the place is its last byte, counted
/// after so many secrets.
pub(super) fn check_unused(tape: &[u8], bits: usize, secrets: usize) -> Result<(), Refusal> {
    match (bits % 8, tape) {
        (used @ 1.., [.., last]) if last >> used > 0 => {
            Err(Fault::Bit.at(secrets + tape.len() - 1))
        }
        _ => Ok(()),
    }
}
