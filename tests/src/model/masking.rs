//! Masking a plain table: sizes and the masked table.

use super::and::And;
use super::shares::Order;
use super::table::{AND, CONSTANT, Gate, NOT, OR, RANDOM, Table, XOR};
use super::{Fault, MOST, Refusal};

/// The sizes of a masked table and its tape.
#[derive(Clone, Copy, Debug, PartialEq, Eq)]
pub struct Sizes {
    pub shares: u32,
    pub wires: u32,
    pub tape: u32,
    pub bytes: u32,
}

/// What the sizes program tells of a plain table at an order: its sizes, which may be too large, the
/// number of its masked outputs, and the largest order that is accepted for it, 0 where none is.
#[derive(Clone, Copy, Debug, PartialEq, Eq)]
pub struct Figures {
    pub sizes: Sizes,
    pub outputs: u32,
    pub largest: u8,
}

/// A plain table and an order to mask it at, both accepted.
pub(super) struct Plain<'a> {
    pub table: Table<'a>,
    pub order: Order,
    /// The number of masked wires.
    pub wires: usize,
    /// The number of tape bits.
    pub tape: usize,
}

/// Where the shares of a plain wire stand among the masked wires: share 1 at `first`, share 2 at
/// `second`, and each further one `step` wires on. A NOT moves share 1 alone.
#[derive(Clone, Copy)]
pub(super) struct Shares {
    first: u16,
    second: u16,
    step: u16,
}

impl Shares {
    pub fn new(first: usize, step: usize) -> Self {
        Shares { first: first as u16, second: (first + step) as u16, step: step as u16 }
    }

    /// Those of an AND of n shares whose rows begin at a wire: the last wire of each.
    pub fn of_rows(rows: usize, n: usize) -> Self {
        Shares::new(rows + n - 1, n)
    }

    /// The same with share 1 elsewhere.
    pub fn with_first(self, first: usize) -> Self {
        Shares { first: first as u16, ..self }
    }

    /// The wire of share s, from 1.
    pub fn wire(self, s: usize) -> usize {
        match s {
            1 => usize::from(self.first),
            _ => usize::from(self.second) + (s - 2) * usize::from(self.step),
        }
    }
}

/// What takes the masked gates, in wire order.
pub(super) trait Gates {
    /// The wire that the next gate will drive.
    fn next_wire(&self) -> usize;

    /// Takes the next gate.
    fn gate(&mut self, kind: u8, left: usize, right: usize);

    /// Whether the next so many gates are not wanted; they then count as taken.
    fn skip(&mut self, _gates: usize) -> bool {
        false
    }

    /// Is told the operands of an AND, also of one inside an OR, before its gates.
    fn before_and(&mut self, _a: Shares, _b: Shares) {}
}

impl<'a> Plain<'a> {
    /// Refusals 1 to 8.
    pub fn new(table: &'a [u8], order: u8) -> Result<Self, Refusal> {
        let plain = Plain::of_any_size(table, order)?;
        Fault::TooLarge.when(plain.wires > MOST || plain.outputs() > MOST)?;
        Ok(plain)
    }

    /// Refusals 1 to 7.
    fn of_any_size(table: &'a [u8], order: u8) -> Result<Self, Refusal> {
        let table = Table::new(table)?;
        let order = Order::new(order)?;
        if let Some(g) = table.kinds.iter().position(|&kind| kind == RANDOM) {
            return Err(Fault::RandomGate.at(g));
        }
        let counts = table.counts();
        let gates: usize =
            (0..).zip(counts).map(|(kind, count)| count * gate_cost(order, kind)).sum();
        let wires = order.n * table.inputs + gates;
        let ands = counts[usize::from(AND)] + counts[usize::from(OR)];
        let tape = 2 * order.t * table.inputs + ands * order.pairs();
        Ok(Plain { table, order, wires, tape })
    }

    /// The number of masked inputs.
    pub fn inputs(&self) -> usize {
        self.order.n * self.table.inputs
    }

    fn gates(&self) -> usize {
        self.wires - self.inputs()
    }

    fn outputs(&self) -> usize {
        self.order.n * self.table.outputs().len()
    }

    fn bytes(&self) -> usize {
        6 + 5 * self.gates() + 2 * self.outputs()
    }

    fn sizes(&self) -> Sizes {
        Sizes {
            shares: self.order.n as u32,
            wires: self.wires as u32,
            tape: self.tape as u32,
            bytes: self.bytes() as u32,
        }
    }

    /// Where the shares of the plain inputs stand, with room for those of the gates.
    pub fn input_shares(&self) -> Vec<Shares> {
        let mut shares = Vec::with_capacity(self.table.wires());
        shares.extend((0..self.table.inputs).map(|i| Shares::new(self.order.n * i, 1)));
        shares
    }
}

/// How many masked wires a plain gate becomes.
pub(super) fn gate_cost(order: Order, kind: u8) -> usize {
    match kind {
        NOT => 1,
        XOR | CONSTANT => order.n,
        OR => order.n * order.n + 5 * order.pairs() + 3,
        _ => order.n * order.n + 5 * order.pairs(),
    }
}

/// How many pairs stand before the pair i < j.
pub(super) fn pair_index(n: usize, i: usize, j: usize) -> usize {
    (i - 1) * (2 * n - i) / 2 + (j - i - 1)
}

/// Hands over the masked gates of a plain gate, given where the shares of an earlier plain wire stand;
/// answers where those of its result do.
#[inline]
pub(super) fn mask_gate(
    gates: &mut impl Gates,
    and: And,
    n: usize,
    gate: Gate,
    shares: impl Fn(usize) -> Shares,
) -> Shares {
    match gate.kind {
        NOT => negate(gates, shares(gate.left)),
        XOR => {
            let (a, b, start) = (shares(gate.left), shares(gate.right), gates.next_wire());
            for s in 1..=n {
                gates.gate(XOR, a.wire(s), b.wire(s));
            }
            Shares::new(start, 1)
        }
        // The left operand is the value, and no wire.
        CONSTANT => {
            let start = gates.next_wire();
            gates.gate(CONSTANT, gate.left, 0);
            for _ in 2..=n {
                gates.gate(CONSTANT, 0, 0);
            }
            Shares::new(start, 1)
        }
        // a OR b is NOT (NOT a AND NOT b).
        _ => {
            let (mut a, mut b) = (shares(gate.left), shares(gate.right));
            if gate.kind == OR {
                a = negate(gates, a);
                b = negate(gates, b);
            }
            let both = match and {
                And::Isw => mask_and::<false>(gates, n, a, b),
                And::Dom => mask_and::<true>(gates, n, a, b),
            };
            if gate.kind == OR { negate(gates, both) } else { both }
        }
    }
}

/// Hands over the NOT of share 1.
fn negate(gates: &mut impl Gates, a: Shares) -> Shares {
    let first = gates.next_wire();
    gates.gate(NOT, a.wire(1), 0);
    a.with_first(first)
}

/// Hands over the gates of an AND: five for each pair, then the rows. It is compiled for each AND apart.
#[inline]
fn mask_and<const DOM: bool>(gates: &mut impl Gates, n: usize, a: Shares, b: Shares) -> Shares {
    let and = if DOM { And::Dom } else { And::Isw };
    gates.before_and(a, b);
    let start = gates.next_wire();
    let [third, fifth] = and.sums();
    for i in 1..=n {
        for j in i + 1..=n {
            if gates.skip(5) {
                continue;
            }
            let pair = gates.next_wire();
            gates.gate(RANDOM, 0, 0);
            gates.gate(AND, a.wire(i), b.wire(j));
            gates.gate(XOR, pair + third.0, pair + third.1);
            gates.gate(AND, a.wire(j), b.wire(i));
            gates.gate(XOR, pair + fifth.0, pair + fifth.1);
        }
    }
    let rows = gates.next_wire();
    let (lower, upper) = and.added();
    for i in 1..=n {
        if gates.skip(n) {
            continue;
        }
        gates.gate(AND, a.wire(i), b.wire(i));
        for j in 1..i {
            let z = start + 5 * pair_index(n, j, i) + upper;
            gates.gate(XOR, gates.next_wire() - 1, z);
        }
        for j in i + 1..=n {
            let z = start + 5 * pair_index(n, i, j) + lower;
            gates.gate(XOR, gates.next_wire() - 1, z);
        }
    }
    Shares::of_rows(rows, n)
}

/// Writes gates into the two arrays of a table.
struct Writer<'a> {
    kinds: &'a mut [u8],
    pairs: &'a mut [[u8; 4]],
    inputs: usize,
    written: usize,
}

impl Gates for Writer<'_> {
    fn next_wire(&self) -> usize {
        self.inputs + self.written
    }

    fn gate(&mut self, kind: u8, left: usize, right: usize) {
        let [l0, l1] = (left as u16).to_le_bytes();
        let [r0, r1] = (right as u16).to_le_bytes();
        self.kinds[self.written] = kind;
        self.pairs[self.written] = [l0, l1, r0, r1];
        self.written += 1;
    }
}

/// Answers the sizes of the masked table without writing it.
pub fn forecast(table: &[u8], order: u8) -> Result<Sizes, Refusal> {
    Ok(Plain::new(table, order)?.sizes())
}

/// Answers what the sizes program tells, also of a table that is too large at the order.
pub fn figures(table: &[u8], order: u8) -> Result<Figures, Refusal> {
    let plain = Plain::of_any_size(table, order)?;
    let largest = (1..=15).rev().find(|&order| Plain::new(table, order).is_ok());
    let (sizes, outputs) = (plain.sizes(), plain.outputs() as u32);
    Ok(Figures { sizes, outputs, largest: largest.unwrap_or(0) })
}

/// Writes the masked table and answers its number of bytes.
pub fn mask(and: And, table: &[u8], order: u8, out: &mut [u8]) -> Result<u32, Refusal> {
    let plain = Plain::new(table, order)?;
    let (bytes, n) = (plain.bytes(), plain.order.n);
    Fault::Buffer.when(out.len() < bytes)?;

    let (sizes, rest) = out[..bytes].split_at_mut(6);
    let fields = [plain.inputs(), plain.gates(), plain.outputs()];
    for (field, size) in sizes.chunks_exact_mut(2).zip(fields) {
        field.copy_from_slice(&(size as u16).to_le_bytes());
    }
    let (kinds, rest) = rest.split_at_mut(plain.gates());
    let (pairs, outputs) = rest.split_at_mut(4 * plain.gates());
    let pairs = pairs.as_chunks_mut().0;

    let mut writer = Writer { kinds, pairs, inputs: plain.inputs(), written: 0 };
    let mut shares = plain.input_shares();
    for gate in plain.table.gates() {
        shares.push(mask_gate(&mut writer, and, n, gate, |wire| shares[wire]));
    }
    for (group, wire) in outputs.chunks_exact_mut(2 * n).zip(plain.table.outputs()) {
        for (s, field) in (1..).zip(group.chunks_exact_mut(2)) {
            field.copy_from_slice(&(shares[wire].wire(s) as u16).to_le_bytes());
        }
    }
    Ok(bytes as u32)
}
