//! Gate tables in parts, to build them for cases.

use crate::model::{AND, CONSTANT, NOT, OR, RANDOM, XOR};

/// A gate table before it is written out; nothing about it is checked.
#[derive(Clone, Debug, PartialEq, Eq)]
pub struct Circuit {
    pub inputs: u16,
    pub gates: Vec<Gate>,
    pub outputs: Vec<u16>,
}

/// A kind, the left operand and the right one.
pub type Gate = (u8, u16, u16);

pub const fn not(left: u16) -> Gate {
    (NOT, left, 0)
}

pub const fn xor(left: u16, right: u16) -> Gate {
    (XOR, left, right)
}

pub const fn and(left: u16, right: u16) -> Gate {
    (AND, left, right)
}

pub const fn random() -> Gate {
    (RANDOM, 0, 0)
}

pub const fn constant(value: u16) -> Gate {
    (CONSTANT, value, 0)
}

pub const fn or(left: u16, right: u16) -> Gate {
    (OR, left, right)
}

impl Circuit {
    pub fn new(inputs: u16, gates: &[Gate], outputs: &[u16]) -> Self {
        Circuit { inputs, gates: gates.to_vec(), outputs: outputs.to_vec() }
    }

    /// The parts of a sound table.
    pub fn read(table: &[u8]) -> Self {
        let field = |at: usize| u16::from_le_bytes([table[at], table[at + 1]]);
        let (gates, outputs) = (usize::from(field(2)), usize::from(field(4)));
        let operands = 6 + gates;
        let gate = |g: usize| (table[6 + g], field(operands + 4 * g), field(operands + 4 * g + 2));
        Circuit {
            inputs: field(0),
            gates: (0..gates).map(gate).collect(),
            outputs: (0..outputs).map(|o| field(operands + 4 * gates + 2 * o)).collect(),
        }
    }

    /// The table's bytes.
    pub fn bytes(&self) -> Vec<u8> {
        let mut bytes = Vec::with_capacity(6 + 5 * self.gates.len() + 2 * self.outputs.len());
        let field = |bytes: &mut Vec<u8>, value: u16| bytes.extend(value.to_le_bytes());
        field(&mut bytes, self.inputs);
        field(&mut bytes, self.gates.len() as u16);
        field(&mut bytes, self.outputs.len() as u16);
        bytes.extend(self.gates.iter().map(|gate| gate.0));
        for &(_, left, right) in &self.gates {
            field(&mut bytes, left);
            field(&mut bytes, right);
        }
        for &wire in &self.outputs {
            field(&mut bytes, wire);
        }
        bytes
    }
}
