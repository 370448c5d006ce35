//! Maps at orders where there are too many tapes to take all: drawn secrets, tapes and probes.

use crate::case::MapCase;
use crate::circuit::Circuit;
use crate::exhaustive;
use crate::model::{self, And};
use crate::rng::Rng;
use crate::samples::samples;

/// The orders, and how many maps of each circuit are drawn at each.
pub const ORDERS: [(u8, usize); 3] = [(2, 600), (3, 400), (15, 25)];

/// The small circuits, and the examples that can be masked at that order.
pub fn circuits(order: u8) -> Vec<Circuit> {
    let mut all = exhaustive::circuits();
    all.extend(samples().map(|sample| sample.circuit));
    all.retain(|circuit| model::forecast(&circuit.bytes(), order).is_ok());
    all
}

/// A sound map of a circuit. The probes are anywhere, or all near one another; some repeat.
pub fn draw(rng: &mut Rng, and: And, circuit: &Circuit, order: u8) -> MapCase {
    let table = circuit.bytes();
    let sizes = model::forecast(&table, order).expect("the circuit can be masked");
    let (wires, inputs) = (sizes.wires as usize, usize::from(circuit.inputs));
    let most = usize::from(order);
    let count = if rng.once_in(4) { rng.below(most + 1) } else { most };
    let (from, width) = match rng.below(3) {
        0 => (rng.below(wires), 3 * most),
        1 => (rng.below(wires), most),
        _ => (0, wires),
    };
    let probes = (0..count).map(|_| ((from + rng.below(width)) % wires) as u32).collect();
    MapCase {
        and,
        table,
        order,
        first: rng.bits(inputs),
        second: rng.bits(inputs),
        tape: rng.tape(sizes.tape as usize),
        probes,
        mapped: model::bytes_for(sizes.tape as usize),
        one: wires,
        other: wires,
    }
}
