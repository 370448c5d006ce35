//! Kinds and operands at every gate of some tables: every byte as a kind, constants of every sort, ORs
//! of wires around their own. Each call that takes a table accepts it, or refuses by 3 or 4 at the gate.

use std::fmt;

use crate::case::{Call, Case, MapCase};
use crate::circuit::{Circuit, Gate, and, constant, not, or, random, xor};
use crate::masks::Outcome;
use crate::model::{self, And, CONSTANT, OR, RANDOM, Sizes, bytes_for};
use crate::rng::Rng;

/// The calls that take a table.
pub const CALLS: [Call; 9] = [
    Call::Check,
    Call::Forecast,
    Call::Run,
    Call::Mask(And::Isw),
    Call::Marks(And::Isw),
    Call::Map(And::Isw),
    Call::Mask(And::Dom),
    Call::Marks(And::Dom),
    Call::Map(And::Dom),
];

const ORDER: u8 = 1;
/// The operands of constants; only a left one of 0 or 1 with a right one of 0 is good.
const LEFT: [u16; 13] = [0, 1, 2, 3, 127, 128, 255, 256, 257, 512, 32_768, 65_534, 65_535];
const RIGHT: [u16; 6] = [0, 1, 2, 255, 256, 65_535];

/// A table, and how it must be refused, if at all.
struct Trial {
    circuit: Circuit,
    refused: Option<Outcome>,
}

/// Puts all trials to a call; each must be answered as it asks.
pub fn check(
    call: Call,
    seed: u64,
    answer: impl Fn(&Case) -> Result<Outcome, String>,
) -> Result<Seen, String> {
    let (mut rng, mut seen) = (Rng::new(seed), Seen::default());
    for trial in circuits(call).iter().flat_map(trials).chain(one_gate()) {
        let case = case(&mut rng, call, &trial.circuit);
        answer(&case)
            .and_then(|outcome| seen.add(trial.refused, outcome))
            .map_err(|text| format!("{case}\n{text}"))?;
    }
    Ok(seen)
}

/// Sound circuits, of which the last ones are not plain.
fn circuits(call: Call) -> Vec<Circuit> {
    let gates = [constant(1), or(0, 1), not(2), xor(3, 1), and(4, 2), or(5, 5)];
    let mut all = vec![
        Circuit::new(1, &gates, &[6, 1]),
        Circuit::new(3, &[or(0, 1), constant(0), and(3, 4), or(2, 4)], &[4, 6, 5]),
    ];
    if matches!(call, Call::Check | Call::Run) {
        let gates = [random(), or(2, 0), constant(1), xor(3, 4), random()];
        all.push(Circuit::new(2, &gates, &[6, 4]));
    }
    all
}

/// A circuit with other gates in the place of each.
fn trials(circuit: &Circuit) -> Vec<Trial> {
    let mut all = Vec::new();
    for (g, &(_, left, right)) in circuit.gates.iter().enumerate() {
        let mut with = |gate: Gate, refused: Option<u8>| {
            let mut circuit = circuit.clone();
            circuit.gates[g] = gate;
            let refused = refused.map(|number| Outcome::refused(number, g as u32));
            all.push(Trial { circuit: circuit.clone(), refused });
            // What is wrong with the next gate comes after what is wrong with this one.
            if let (Some(_), Some(next)) = (refused, circuit.gates.get_mut(g + 1)) {
                *next = if gate.0 == CONSTANT { (6, 0, 0) } else { constant(2) };
                all.push(Trial { circuit, refused });
            }
        };
        for kind in 6..=255 {
            with((kind, left, right), Some(3));
            with((kind, u16::MAX, u16::MAX), Some(3));
        }
        for left in LEFT {
            for right in RIGHT {
                let is_good = left < 2 && right == 0;
                with((CONSTANT, left, right), (!is_good).then_some(4));
            }
        }
        let wire = circuit.inputs + g as u16;
        for left in [0, wire - 1, wire, wire + 1, u16::MAX] {
            for right in [0, wire - 1, wire, wire + 1, u16::MAX] {
                let is_good = left < wire && right < wire;
                with((OR, left, right), (!is_good).then_some(4));
            }
        }
    }
    all
}

/// One input and a constant, with every left operand and with every right one.
fn one_gate() -> impl Iterator<Item = Trial> {
    let trial = |left, right| Trial {
        circuit: Circuit::new(1, &[(CONSTANT, left, right)], &[1]),
        refused: (left > 1 || right > 0).then_some(Outcome::refused(4, 0)),
    };
    let every = move |operand| [trial(operand, 0), trial(0, operand), trial(1, operand)];
    (0..=u16::MAX).flat_map(every)
}

/// A case of a call, sound but for the table.
fn case(rng: &mut Rng, call: Call, circuit: &Circuit) -> Case {
    let (table, order) = (circuit.bytes(), ORDER);
    let inputs = usize::from(circuit.inputs);
    let sizes = model::forecast(&table, order);
    let Sizes { wires, tape, bytes, .. } =
        sizes.unwrap_or(Sizes { shares: 3, wires: 100, tape: 20, bytes: 600 });
    let tape = tape as usize;
    match call {
        Call::Check => Case::Check { table },
        Call::Forecast => Case::Forecast { table, order },
        Call::Mask(and) => Case::Mask { and, table, order, out: bytes as usize },
        Call::Run => {
            let randoms = circuit.gates.iter().filter(|gate| gate.0 == RANDOM).count();
            let (inputs, random) = (rng.bits(inputs), rng.tape(randoms));
            let values = inputs.len() + circuit.gates.len();
            Case::Run { table, inputs, random, values, outputs: circuit.outputs.len() }
        }
        Call::Marks(and) => {
            Case::Marks { and, table, order, wire: rng.below(wires as usize) as u32 }
        }
        Call::Map(and) => Case::Map(MapCase {
            and,
            table,
            order,
            first: rng.bits(inputs),
            second: rng.bits(inputs),
            tape: rng.tape(tape),
            probes: vec![rng.below(wires as usize) as u32],
            mapped: bytes_for(tape),
            one: wires as usize,
            other: wires as usize,
        }),
        Call::Encode | Call::Decode => unreachable!("the call takes a table"),
    }
}

/// How many trials were accepted, refused by 3 and refused by 4.
#[derive(Default)]
pub struct Seen([usize; 3]);

impl Seen {
    /// Takes what came back from a trial; the error says what should have.
    fn add(&mut self, refused: Option<Outcome>, outcome: Outcome) -> Result<(), String> {
        match refused {
            Some(refused) if outcome != refused => Err(format!("it must be {refused}")),
            None if outcome.number != 0 => Err("it must be accepted".into()),
            _ => {
                self.0[usize::from(outcome.number.saturating_sub(2))] += 1;
                Ok(())
            }
        }
    }
}

impl fmt::Display for Seen {
    fn fmt(&self, f: &mut fmt::Formatter<'_>) -> fmt::Result {
        let Seen([accepted, kinds, operands]) = self;
        write!(f, "{accepted} accepted, {kinds} refused by 3, {operands} by 4")
    }
}
