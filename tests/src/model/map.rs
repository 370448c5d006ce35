//! The mapped tape.

use super::and::And;
use super::marks::{Marks, Masked, carried};
use super::masking::{Gates, Plain, Shares, mask_gate, pair_index};
use super::table::{AND, CONSTANT, NOT, XOR};
use super::tape::{bit, bytes_for, check_unused, flip};
use super::{Fault, Refusal, check_bits, check_probes};

/// The two runs side by side: one with the tape, the other with the mapped tape.
struct Runs<'a> {
    one: &'a mut [u8],
    other: &'a mut [u8],
    tape: &'a [u8],
    mapped: &'a mut [u8],
    next_wire: usize,
    next_bit: usize,
    and: And,
    /// The number of shares, and the free one.
    n: usize,
    k: usize,
}

impl Runs<'_> {
    /// Whether a_i·b_j differs between the runs.
    fn product_differs(&self, a: Shares, i: usize, b: Shares, j: usize) -> u8 {
        let product = |run: &[u8]| run[a.wire(i)] & run[b.wire(j)];
        product(self.one) ^ product(self.other)
    }
}

impl Gates for Runs<'_> {
    fn next_wire(&self) -> usize {
        self.next_wire
    }

    fn gate(&mut self, kind: u8, left: usize, right: usize) {
        let wire = self.next_wire;
        let (one, other) = (&mut *self.one, &mut *self.other);
        (one[wire], other[wire]) = match kind {
            NOT => (one[left] ^ 1, other[left] ^ 1),
            XOR => (one[left] ^ one[right], other[left] ^ other[right]),
            AND => (one[left] & one[right], other[left] & other[right]),
            CONSTANT => (left as u8, left as u8),
            _ => {
                self.next_bit += 1;
                (bit(self.tape, self.next_bit - 1), bit(self.mapped, self.next_bit - 1))
            }
        };
        self.next_wire += 1;
    }

    /// Flips random bits of pairs of k in the mapped tape. Document 01's AND: z(k,j), j > k, where
    /// a_k·b_j ⊕ a_j·b_k differs. The DOM AND: that of k and j where a_j·b_k differs.
    fn before_and(&mut self, a: Shares, b: Shares) {
        let (n, k) = (self.n, self.k);
        if self.and == And::Dom {
            for j in 1..k {
                let differs = self.product_differs(a, j, b, k);
                flip(self.mapped, self.next_bit + pair_index(n, j, k), differs);
            }
        }
        for j in k + 1..=n {
            let mut differs = self.product_differs(a, j, b, k);
            if self.and == And::Isw {
                differs ^= self.product_differs(a, k, b, j);
            }
            flip(self.mapped, self.next_bit + pair_index(n, k, j), differs);
        }
    }
}

/// The smallest of n shares that no probe carries, given the marks of each.
pub(super) fn free_share(n: usize, probes: impl Iterator<Item = Marks>) -> usize {
    let carried = carried(probes);
    let free = (1..=n).find(|&s| !carried[s]);
    free.expect("t probes carry at most 2t of the 2t + 1 shares")
}

/// Writes the mapped tape from secrets `first` to secrets `second`, and the wire values of both
/// runs; answers the free share.
#[allow(clippy::too_many_arguments)]
pub fn map(
    and: And,
    table: &[u8],
    order: u8,
    first: &[u8],
    second: &[u8],
    tape: &[u8],
    probes: &[u32],
    mapped: &mut [u8],
    one: &mut [u8],
    other: &mut [u8],
) -> Result<u32, Refusal> {
    let plain = Plain::new(table, order)?;
    let (order, table, wires) = (plain.order, plain.table, plain.wires);
    let inputs = table.inputs;
    let bytes = bytes_for(plain.tape);
    Fault::Count.when(first.len() != inputs || second.len() != inputs || tape.len() != bytes)?;
    check_bits(&[first, second])?;
    check_unused(tape, plain.tape, 2 * inputs)?;
    Fault::TooManyProbes.when(probes.len() > order.t)?;
    check_probes(probes, wires)?;
    Fault::Buffer.when(mapped.len() < bytes || one.len() < wires || other.len() < wires)?;

    let masked = Masked::new(&plain, and);
    let k = free_share(order.n, probes.iter().map(|&probe| masked.joined_marks(probe as usize)));
    let (mapped, one, other) = (&mut mapped[..bytes], &mut one[..wires], &mut other[..wires]);
    mapped.copy_from_slice(tape);
    let input_bits = 2 * order.t;
    if k <= input_bits {
        for (i, (x, y)) in first.iter().zip(second).enumerate() {
            flip(mapped, input_bits * i + k - 1, x ^ y);
        }
    }
    order.share(first, tape, one);
    order.share(second, mapped, other);

    let (next_wire, next_bit) = (plain.inputs(), input_bits * inputs);
    let mut runs = Runs { one, other, tape, mapped, next_wire, next_bit, and, n: order.n, k };
    let mut shares = plain.input_shares();
    for gate in table.gates() {
        shares.push(mask_gate(&mut runs, and, order.n, gate, |wire| shares[wire]));
    }
    Ok(k as u32)
}
