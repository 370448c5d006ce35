//! The plain tables under examples/: how they are made, and what each computes.

use crate::circuit::{Circuit, Gate, and, constant, not, or, xor};

/// A table with its file's name and what it computes. Input i of the table is bit i of the
/// argument, output o is bit o of the result.
pub struct Sample {
    pub name: &'static str,
    pub circuit: Circuit,
    pub truth: fn(u32) -> u32,
}

pub fn samples() -> [Sample; 6] {
    [
        Sample { name: "and", circuit: Circuit::new(2, &[and(0, 1)], &[2]), truth: both },
        Sample { name: "full-adder", circuit: full_adder(), truth: u32::count_ones },
        Sample { name: "status", circuit: status(), truth: status_of },
        Sample { name: "comparator", circuit: comparator(), truth: is_less },
        Sample { name: "present-sbox", circuit: present_sbox(), truth: present },
        Sample { name: "aes-sbox", circuit: aes_sbox(), truth: aes },
    ]
}

/// Document 01's AND.
fn both(inputs: u32) -> u32 {
    u32::from(inputs == 3)
}

/// Inputs a, b and the carry; outputs the sum and the next carry: as a number, how many inputs
/// are 1. Written with one AND, as an AND is what masking makes large.
fn full_adder() -> Circuit {
    let (a, b, carry) = (0, 1, 2);
    let gates = [xor(a, carry), xor(b, carry), and(3, 4), xor(5, carry), xor(3, b)];
    Circuit::new(3, &gates, &[7, 6])
}

/// Inputs whether a drive is ready, broken and empty; outputs whether it can be used, whether somebody
/// must see to it, and a bit that is always 1.
fn status() -> Circuit {
    let (ready, broken, empty) = (0, 1, 2);
    let gates = [or(broken, empty), not(3), and(ready, 4), constant(1)];
    Circuit::new(3, &gates, &[5, 3, 6])
}

fn status_of(inputs: u32) -> u32 {
    let (ready, alarm) = (inputs & 1, u32::from(inputs > 1));
    u32::from(ready > alarm) | alarm << 1 | 1 << 2
}

/// Inputs the four bits of a, lowest first, then those of b; the output is whether a < b.
fn comparator() -> Circuit {
    let mut gates: Vec<Gate> = vec![not(0), and(8, 4)];
    let mut borrow = 9;
    for (a, b) in [(1, 5), (2, 6), (3, 7)] {
        // The next borrow is the majority of not a, b and the borrow.
        let next = borrow + 1;
        gates.extend([not(a), xor(next, borrow), xor(b, borrow), and(next + 1, next + 2)]);
        gates.push(xor(next + 3, borrow));
        borrow = next + 4;
    }
    Circuit::new(8, &gates, &[borrow])
}

fn is_less(inputs: u32) -> u32 {
    let (a, b) = (inputs & 15, inputs >> 4);
    u32::from(a < b)
}

/// The S-box of the block cipher PRESENT, bits lowest first, with four ANDs; its two ORs are ANDs
/// between NOTs.
fn present_sbox() -> Circuit {
    let gates = [
        xor(1, 2),
        and(2, 4),
        xor(3, 5),
        xor(0, 6), // 7, the lowest output
        and(4, 6),
        xor(4, 7),
        xor(8, 2),
        not(0),
        not(10),
        and(11, 12),
        not(13), // 0 or 10
        xor(9, 14),
        xor(10, 11),
        xor(15, 16), // 17, the highest output
        not(16),
        not(9),
        and(18, 19),
        not(20), // 16 or 9
        xor(6, 21),
    ];
    Circuit::new(4, &gates, &[7, 15, 22, 17])
}

fn present(input: u32) -> u32 {
    const SBOX: [u32; 16] = [12, 5, 6, 11, 9, 0, 10, 13, 3, 14, 15, 8, 4, 7, 1, 2];
    SBOX[input as usize]
}

/// The S-box of AES, bits lowest first, after the circuit with 32 ANDs that Boyar and Peralta
/// published: the file itself, as no rule makes its gates.
fn aes_sbox() -> Circuit {
    Circuit::read(include_bytes!("../../examples/aes-sbox.table"))
}

/// From the definition of AES: the inverse in GF(2^8), and then the affine map.
fn aes(input: u32) -> u32 {
    let inverse = (1..256).find(|&other| times(input, other) == 1).unwrap_or(0);
    let turned = |by: u32| (inverse << by | inverse >> (8 - by)) & 255;
    inverse ^ turned(1) ^ turned(2) ^ turned(3) ^ turned(4) ^ 0x63
}

/// The product in GF(2^8), modulo x^8 + x^4 + x^3 + x + 1.
fn times(a: u32, b: u32) -> u32 {
    (0..8).rev().fold(0, |product, at| {
        let doubled = product << 1 ^ if product & 128 == 0 { 0 } else { 0x11b };
        doubled ^ if b >> at & 1 == 1 { a } else { 0 }
    })
}

/// The lowest bits of a number, lowest first.
pub fn bits(number: u32, count: usize) -> Vec<u8> {
    (0..count).map(|at| (number >> at & 1) as u8).collect()
}
