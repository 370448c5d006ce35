//! The marks of masked wires: those of a wire alone, and those of a probe, which are the marks of every
//! wire that it reads, joined.

use super::and::And;
use super::masking::{Gates, Plain, Shares, gate_cost, mask_gate};
use super::shares::Order;
use super::table::{AND, CONSTANT, Gate, NOT, OR, XOR, read};
use super::{Fault, Refusal};

/// One or two shares, rising; 0 for no second one.
#[derive(Clone, Copy, Debug, PartialEq, Eq)]
pub struct Marks {
    pub first: u8,
    pub second: u8,
}

impl Marks {
    pub(super) fn one(share: usize) -> Self {
        Marks { first: share as u8, second: 0 }
    }

    pub(super) fn two(first: usize, second: usize) -> Self {
        Marks { first: first as u8, second: second as u8 }
    }

    /// Those of several wires, each share once and rising. It fails where they are more than two.
    pub(super) fn joined(all: impl Iterator<Item = Marks>) -> Self {
        let carried = carried(all);
        let mut shares = (1..carried.len()).filter(|&s| carried[s]);
        let first = shares.next().expect("every wire carries a share");
        let joined = shares.next().map_or(Marks::one(first), |second| Marks::two(first, second));
        assert_eq!(shares.next(), None, "a probe carries two shares at most");
        joined
    }
}

/// Which shares are carried, by number; that of 0 means nothing.
pub(super) fn carried(all: impl Iterator<Item = Marks>) -> [bool; 32] {
    let mut carried = [false; 32];
    for marks in all {
        carried[usize::from(marks.first)] = true;
        carried[usize::from(marks.second)] = true;
    }
    carried
}

/// A masked table that is not written; its gates and marks are asked for one by one.
pub(super) struct Masked<'a> {
    plain: &'a Plain<'a>,
    and: And,
    /// The first masked wire of each plain one.
    starts: Vec<u16>,
}

impl<'a> Masked<'a> {
    pub fn new(plain: &'a Plain<'a>, and: And) -> Self {
        let (table, order) = (&plain.table, plain.order);
        let costs = [0, 1, 2, 3, 4, 5].map(|kind| gate_cost(order, kind) as u16);
        let mut starts = Vec::with_capacity(table.wires());
        starts.extend((0..table.inputs).map(|i| (order.n * i) as u16));
        let mut start = plain.inputs() as u16;
        for &kind in table.kinds {
            starts.push(start);
            start += costs[usize::from(kind)];
        }
        Masked { plain, and, starts }
    }

    /// The plain wire that a masked wire belongs to, and its place among all that do.
    fn origin(&self, wire: usize) -> (usize, usize) {
        let plain = self.starts.partition_point(|&start| usize::from(start) <= wire) - 1;
        (plain, wire - self.start(plain))
    }

    fn start(&self, plain: usize) -> usize {
        usize::from(self.starts[plain])
    }

    /// The kind of the gate that drives a plain wire; an input has none.
    fn kind(&self, plain: usize) -> Option<u8> {
        self.plain.table.driver(plain).map(|gate| gate.kind)
    }

    /// Where the shares of a plain wire stand.
    fn shares(&self, plain: usize) -> Shares {
        // Shares 2 to n of a NOT are its operand's.
        let mut holder = plain;
        while let Some(Gate { kind: NOT, left, .. }) = self.plain.table.driver(holder) {
            holder = left;
        }
        let (order, start) = (self.plain.order, self.start(holder));
        let rows = start + 5 * order.pairs();
        let shares = match self.kind(holder) {
            Some(AND) => Shares::of_rows(rows, order.n),
            Some(OR) => Shares::of_rows(rows + 2, order.n),
            _ => Shares::new(start, 1),
        };
        // Share 1 of a NOT, and of an OR, is the last wire.
        match self.kind(plain) {
            Some(kind @ (NOT | OR)) => {
                shares.with_first(self.start(plain) + gate_cost(order, kind) - 1)
            }
            _ => shares,
        }
    }

    /// The gate that drives a masked wire; none drives an input share.
    fn gate(&self, wire: usize) -> Option<Gate> {
        let (plain, _) = self.origin(wire);
        let gate = self.plain.table.driver(plain)?;
        let mut picked = Picked { wire, next_wire: self.start(plain), gate: None };
        mask_gate(&mut picked, self.and, self.plain.order.n, gate, |operand| self.shares(operand));
        Some(picked.gate.expect("the wire is one of the plain gate's"))
    }

    /// What a probe on a masked wire reads.
    pub fn reads(&self, wire: usize) -> impl Iterator<Item = usize> {
        read(wire, self.gate(wire))
    }

    /// The marks of a masked wire alone.
    pub fn single_marks(&self, wire: usize) -> Marks {
        let (order, (plain, place)) = (self.plain.order, self.origin(wire));
        match self.kind(plain) {
            None | Some(XOR | CONSTANT) => Marks::one(place + 1),
            Some(NOT) => Marks::one(1),
            // The two NOTs of its operands, and that of its result.
            Some(OR) if place < 2 || place == gate_cost(order, OR) - 1 => Marks::one(1),
            Some(OR) => and_marks(self.and, order, place - 2),
            Some(_) => and_marks(self.and, order, place),
        }
    }

    /// The marks of a probe on a masked wire: those of every wire that it reads.
    pub fn joined_marks(&self, wire: usize) -> Marks {
        Marks::joined(self.reads(wire).map(|read| self.single_marks(read)))
    }
}

/// The marks of a wire inside a masked AND: five wires for each pair, then n for each row.
fn and_marks(and: And, order: Order, offset: usize) -> Marks {
    if let Some(rows) = offset.checked_sub(5 * order.pairs()) {
        return Marks::one(rows / order.n + 1);
    }
    let (mut i, mut j) = (1, offset / 5 + 2);
    while j > order.n {
        i += 1;
        j = j - order.n + i;
    }
    and.pair_marks(offset % 5, i, j)
}

/// Takes the gate of one wire alone.
struct Picked {
    wire: usize,
    next_wire: usize,
    gate: Option<Gate>,
}

impl Gates for Picked {
    fn next_wire(&self) -> usize {
        self.next_wire
    }

    fn gate(&mut self, kind: u8, left: usize, right: usize) {
        if self.next_wire == self.wire {
            self.gate = Some(Gate { kind, left, right });
        }
        self.next_wire += 1;
    }

    fn skip(&mut self, gates: usize) -> bool {
        let after = self.next_wire + gates;
        let is_wanted = (self.next_wire..after).contains(&self.wire);
        if !is_wanted {
            self.next_wire = after;
        }
        !is_wanted
    }
}

/// Answers the marks of a probe on a masked wire.
pub fn marks(and: And, table: &[u8], order: u8, wire: u32) -> Result<Marks, Refusal> {
    let plain = Plain::new(table, order)?;
    Fault::Probe.when(wire as usize >= plain.wires)?;
    Ok(Masked::new(&plain, and).joined_marks(wire as usize))
}
