//! Gate tables: checking, running, and what probes read.

use std::iter::once;

use super::tape::{bit, bytes_for, check_unused};
use super::{Fault, MOST, Refusal, check_bits, check_probes};

pub const NOT: u8 = 0;
pub const XOR: u8 = 1;
pub const AND: u8 = 2;
pub const RANDOM: u8 = 3;
pub const CONSTANT: u8 = 4;
pub const OR: u8 = 5;

/// What the left and the right operand of each kind are below: an unused one, which is 0, below 1, a
/// constant's value below 2; none is given for an earlier wire, which is below the gate's own.
const LIMITS: [[Option<usize>; 2]; 6] = [
    [None, Some(1)],    // NOT
    [None, None],       // XOR
    [None, None],       // AND
    [Some(1), Some(1)], // RANDOM
    [Some(2), Some(1)], // CONSTANT
    [None, None],       // OR
];

/// A gate table that was checked, as a view of its bytes.
#[derive(Clone, Copy)]
pub(super) struct Table<'a> {
    pub inputs: usize,
    pub kinds: &'a [u8],
    pairs: &'a [[u8; 4]],
    outputs: &'a [[u8; 2]],
}

/// A gate as it stands in a table.
#[derive(Clone, Copy)]
pub(super) struct Gate {
    pub kind: u8,
    pub left: usize,
    pub right: usize,
}

impl Gate {
    fn new(kind: u8, [l0, l1, r0, r1]: [u8; 4]) -> Self {
        Gate { kind, left: field([l0, l1]), right: field([r0, r1]) }
    }

    /// The wires on its operands, left before right. An unused operand and a constant's value are none.
    fn pins(self) -> impl Iterator<Item = usize> {
        let used = match self.kind {
            NOT => 1,
            XOR | AND | OR => 2,
            RANDOM | CONSTANT => 0,
            kind => unreachable!("no gate is of kind {kind}"),
        };
        [self.left, self.right].into_iter().take(used)
    }
}

/// What a probe on a wire reads, given the gate that drives it: the wire, then the gate's pins. No gate
/// drives an input.
pub(super) fn read(wire: usize, gate: Option<Gate>) -> impl Iterator<Item = usize> {
    once(wire).chain(gate.into_iter().flat_map(Gate::pins))
}

fn field(bytes: [u8; 2]) -> usize {
    usize::from(u16::from_le_bytes(bytes))
}

impl<'a> Table<'a> {
    /// Reads and checks a table: refusals 1 to 5.
    pub fn new(bytes: &'a [u8]) -> Result<Self, Refusal> {
        let Some((&[i0, i1, g0, g1, o0, o1], rest)) = bytes.split_first_chunk() else {
            return Err(Fault::Length.at(0));
        };
        let (inputs, gates, outputs) = (field([i0, i1]), field([g0, g1]), field([o0, o1]));
        Fault::Sizes.when(inputs == 0 || outputs == 0 || inputs + gates > MOST)?;
        Fault::Length.when(rest.len() != 5 * gates + 2 * outputs)?;

        let (kinds, rest) = rest.split_at(gates);
        let (pairs, outputs) = rest.split_at(4 * gates);
        let table =
            Table { inputs, kinds, pairs: pairs.as_chunks().0, outputs: outputs.as_chunks().0 };
        for (g, gate) in table.gates().enumerate() {
            let Some(&limits) = LIMITS.get(usize::from(gate.kind)) else {
                return Err(Fault::Kind.at(g));
            };
            let [left_limit, right_limit] = limits.map(|limit| limit.unwrap_or(inputs + g));
            if gate.left >= left_limit || gate.right >= right_limit {
                return Err(Fault::Operand.at(g));
            }
        }
        match table.outputs().position(|wire| wire >= table.wires()) {
            Some(position) => Err(Fault::Output.at(position)),
            None => Ok(table),
        }
    }

    pub fn wires(&self) -> usize {
        self.inputs + self.kinds.len()
    }

    pub fn gates(&self) -> impl Iterator<Item = Gate> + use<'a> {
        self.kinds.iter().zip(self.pairs).map(|(&kind, &pair)| Gate::new(kind, pair))
    }

    /// The gate that drives a wire; none drives an input.
    pub fn driver(&self, wire: usize) -> Option<Gate> {
        let g = wire.checked_sub(self.inputs)?;
        Some(Gate::new(self.kinds[g], self.pairs[g]))
    }

    pub fn outputs(&self) -> impl ExactSizeIterator<Item = usize> + use<'a> {
        self.outputs.iter().map(|&bytes| field(bytes))
    }

    /// How many gates are of a kind.
    pub fn count(&self, kind: u8) -> usize {
        self.kinds.iter().filter(|&&other| other == kind).count()
    }

    /// How many gates are of each kind.
    pub fn counts(&self) -> [usize; 6] {
        let mut counts = [0; 6];
        for &kind in self.kinds {
            counts[usize::from(kind)] += 1;
        }
        counts
    }
}

/// Checks a table and answers its number of wires.
pub fn check(table: &[u8]) -> Result<u32, Refusal> {
    Ok(Table::new(table)?.wires() as u32)
}

/// The wires whose values probes on a table read, in list order.
pub fn reads(table: &[u8], probes: &[u32]) -> Result<Vec<usize>, Refusal> {
    let table = Table::new(table)?;
    check_probes(probes, table.wires())?;
    let wires = probes.iter().map(|&probe| probe as usize);
    Ok(wires.flat_map(|wire| read(wire, table.driver(wire))).collect())
}

/// Runs a table on its inputs and random bits: one value for each wire, then the outputs.
/// Answers the number of wires.
pub fn run(
    table: &[u8],
    inputs: &[u8],
    random: &[u8],
    values: &mut [u8],
    outputs: &mut [u8],
) -> Result<u32, Refusal> {
    let table = Table::new(table)?;
    let (wires, bits) = (table.wires(), table.count(RANDOM));
    Fault::Count.when(inputs.len() != table.inputs || random.len() != bytes_for(bits))?;
    check_bits(&[inputs])?;
    check_unused(random, bits, inputs.len())?;
    Fault::Buffer.when(values.len() < wires || outputs.len() < table.outputs().len())?;

    let values = &mut values[..wires];
    values[..table.inputs].copy_from_slice(inputs);
    let mut random = (0..bits).map(|at| bit(random, at));
    for (wire, gate) in (table.inputs..).zip(table.gates()) {
        values[wire] = match gate.kind {
            RANDOM => random.next().expect("one bit for each random gate"),
            CONSTANT => gate.left as u8,
            kind => {
                // The unused right operand of a NOT is 0, and there is a wire 0.
                let (left, right) = (values[gate.left], values[gate.right]);
                match kind {
                    NOT => left ^ 1,
                    XOR => left ^ right,
                    AND => left & right,
                    _ => left | right,
                }
            }
        };
    }
    for (output, wire) in outputs.iter_mut().zip(table.outputs()) {
        *output = values[wire];
    }
    Ok(wires as u32)
}
