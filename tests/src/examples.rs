//! The examples of document 01, with the answers and bytes that the paper gives; tapes are packed. Those
//! of ORs, constants and pins, and those with the DOM AND, were worked out by hand.

use crate::case::{Case, Lent, MapCase};
use crate::circuit::{Circuit, and, constant, not, or, random, xor};
use crate::masks::{Masks, Outcome};
use crate::model::{And, pack};

/// A case with what must come back.
pub struct Example {
    pub name: &'static str,
    pub case: Case,
    pub outcome: Outcome,
    /// The bytes that a success writes into each buffer, from its start; none are given for the
    /// large examples.
    pub written: Option<Vec<Vec<u8>>>,
}

impl Example {
    /// Puts the example to an implementation; an error says what came back instead.
    pub fn put_to(&self, masks: &impl Masks) -> Result<(), String> {
        let mut buffers = self.case.buffers();
        let outcome = self.case.put_to(masks, &mut buffers);
        if outcome != self.outcome {
            return Err(format!("expected {}\n     got {outcome}", self.outcome));
        }
        let Some(written) = &self.written else { return Ok(()) };
        for (number, (buffer, written)) in buffers.iter().zip(written).enumerate() {
            let mut expected = Lent::new(buffer.size());
            expected.room()[..written.len()].copy_from_slice(written);
            if let Some((at, expected, got)) = expected.first_difference(buffer) {
                return Err(format!("buffer {number}, byte {at}: expected {expected}, got {got}"));
            }
        }
        Ok(())
    }
}

/// The table that the paper calls "the AND".
pub fn the_and() -> Vec<u8> {
    vec![2, 0, 1, 0, 1, 0, 2, 0, 0, 1, 0, 2, 0]
}

/// The AND masked at order 1, gate by gate.
pub fn masked_and() -> Vec<u8> {
    let pairs = [
        [random(), and(0, 4), xor(6, 7), and(1, 3), xor(8, 9)],
        [random(), and(0, 5), xor(11, 12), and(2, 3), xor(13, 14)],
        [random(), and(1, 5), xor(16, 17), and(2, 4), xor(18, 19)],
    ];
    let rows = [
        [and(0, 3), xor(21, 6), xor(22, 11)],
        [and(1, 4), xor(24, 10), xor(25, 16)],
        [and(2, 5), xor(27, 15), xor(28, 20)],
    ];
    let gates = [pairs.concat(), rows.concat()].concat();
    Circuit::new(6, &gates, &[23, 26, 29]).bytes()
}

/// The same with the DOM AND.
pub fn dom_masked_and() -> Vec<u8> {
    let pairs = [
        [random(), and(0, 4), xor(7, 6), and(1, 3), xor(9, 6)],
        [random(), and(0, 5), xor(12, 11), and(2, 3), xor(14, 11)],
        [random(), and(1, 5), xor(17, 16), and(2, 4), xor(19, 16)],
    ];
    let rows = [
        [and(0, 3), xor(21, 8), xor(22, 13)],
        [and(1, 4), xor(24, 10), xor(25, 18)],
        [and(2, 5), xor(27, 15), xor(28, 20)],
    ];
    let gates = [pairs.concat(), rows.concat()].concat();
    Circuit::new(6, &gates, &[23, 26, 29]).bytes()
}

/// The OR of two inputs.
fn the_or() -> Vec<u8> {
    vec![2, 0, 1, 0, 1, 0, 5, 0, 0, 1, 0, 2, 0]
}

/// The OR masked at order 1, gate by gate: the AND of wires 6, 1, 2 and 7, 4, 5 between three NOTs.
fn masked_or() -> Vec<u8> {
    let pairs = [
        [random(), and(6, 4), xor(8, 9), and(1, 7), xor(10, 11)],
        [random(), and(6, 5), xor(13, 14), and(2, 7), xor(15, 16)],
        [random(), and(1, 5), xor(18, 19), and(2, 4), xor(20, 21)],
    ];
    let rows = [
        [and(6, 7), xor(23, 8), xor(24, 13)],
        [and(1, 4), xor(26, 12), xor(27, 18)],
        [and(2, 5), xor(29, 17), xor(30, 22)],
    ];
    let gates = [vec![not(0), not(3)], pairs.concat(), rows.concat(), vec![not(25)]].concat();
    Circuit::new(6, &gates, &[32, 28, 31]).bytes()
}

/// The same with the DOM AND.
fn dom_masked_or() -> Vec<u8> {
    let pairs = [
        [random(), and(6, 4), xor(9, 8), and(1, 7), xor(11, 8)],
        [random(), and(6, 5), xor(14, 13), and(2, 7), xor(16, 13)],
        [random(), and(1, 5), xor(19, 18), and(2, 4), xor(21, 18)],
    ];
    let rows = [
        [and(6, 7), xor(23, 10), xor(24, 15)],
        [and(1, 4), xor(26, 12), xor(27, 20)],
        [and(2, 5), xor(29, 17), xor(30, 22)],
    ];
    let gates = [vec![not(0), not(3)], pairs.concat(), rows.concat(), vec![not(25)]].concat();
    Circuit::new(6, &gates, &[32, 28, 31]).bytes()
}

/// One input, and a constant with these operands as output.
fn one_constant(left: u16, right: u16) -> Vec<u8> {
    let [l0, l1] = left.to_le_bytes();
    let [r0, r1] = right.to_le_bytes();
    vec![1, 0, 1, 0, 1, 0, 4, l0, l1, r0, r1, 1, 0]
}

/// Two inputs and so many ANDs, each of the two wires before it.
pub fn and_chain(ands: u16) -> Vec<u8> {
    let gates: Vec<_> = (0..ands).map(|g| and(g, g + 1)).collect();
    Circuit::new(2, &gates, &[ands + 1]).bytes()
}

/// The same of ORs.
pub fn or_chain(ors: u16) -> Vec<u8> {
    let gates: Vec<_> = (0..ors).map(|g| or(g, g + 1)).collect();
    Circuit::new(2, &gates, &[ors + 1]).bytes()
}

/// One input and so many constants, the last of them 1.
pub fn constants(count: u16) -> Vec<u8> {
    let gates: Vec<_> = (0..count).rev().map(|left| constant(u16::from(left == 0))).collect();
    Circuit::new(1, &gates, &[count]).bytes()
}

/// One input, no gate, and that input so many times as output.
fn repeated_output(outputs: usize) -> Vec<u8> {
    Circuit::new(1, &[], &vec![0; outputs]).bytes()
}

/// The tape 1 0 0 1 1 0 1; its first four bits are for encoding, the others for running.
const TAPE: [u8; 1] = [0x59];
const ENCODING: [u8; 1] = [0x09];
const RUNNING: [u8; 1] = [0x05];
/// The tape 1 1 0 1 1 0 1.
const OTHER_TAPE: [u8; 1] = [0x5b];

/// The wire values of the masked AND with that tape, for secrets 1 1.
const VALUES: [u8; 30] = [
    1, 0, 0, 0, 1, 0, // shares
    1, 1, 0, 0, 0, // pair 1, 2
    0, 0, 0, 0, 0, // pair 1, 3
    1, 0, 1, 0, 1, // pair 2, 3
    0, 1, 1, 0, 0, 1, 0, 0, 1, // rows
];

/// The same for secrets 0 1.
const VALUES_SAME_TAPE: [u8; 30] = [
    1, 0, 1, 0, 1, 0, // shares
    1, 1, 0, 0, 0, // pair 1, 2
    0, 0, 0, 0, 0, // pair 1, 3
    1, 0, 1, 1, 0, // pair 2, 3
    0, 1, 1, 0, 0, 1, 0, 0, 0, // rows
];

/// Those for secrets 0 1 with the tape that probe 29 leads to.
const VALUES_MAPPED_TAPE: [u8; 30] = [
    0, 0, 0, 0, 1, 0, // shares
    0, 0, 0, 0, 0, // pair 1, 2
    0, 0, 0, 0, 0, // pair 1, 3
    1, 0, 1, 0, 1, // pair 2, 3
    0, 0, 0, 0, 0, 1, 0, 0, 1, // rows
];

/// Those for secrets 0 1 with the tape that probe 15 leads to, which is the other tape.
const VALUES_FREE_2: [u8; 30] = [
    1, 1, 0, 0, 1, 0, // shares
    1, 1, 0, 0, 0, // pair 1, 2
    0, 0, 0, 0, 0, // pair 1, 3
    1, 0, 1, 0, 1, // pair 2, 3
    0, 1, 1, 1, 1, 0, 0, 0, 1, // rows
];

/// Those for secrets 1 1 with the other tape.
const VALUES_OTHER_TAPE: [u8; 30] = [
    1, 1, 1, 0, 1, 0, // shares
    1, 1, 0, 0, 0, // pair 1, 2
    0, 0, 0, 0, 0, // pair 1, 3
    1, 0, 1, 1, 0, // pair 2, 3
    0, 1, 1, 1, 1, 0, 0, 0, 0, // rows
];

/// The same for secrets 1 0. With share 1 free, wires 8 and 9 would change, and 10 would not.
const VALUES_SAME_OTHER_TAPE: [u8; 30] = [
    1, 1, 1, 0, 1, 1, // shares
    1, 1, 0, 0, 0, // pair 1, 2
    0, 1, 1, 0, 1, // pair 1, 3
    1, 1, 0, 1, 1, // pair 2, 3
    0, 1, 1, 1, 1, 0, 1, 0, 1, // rows
];

/// The wire values of the masked OR with the first tape, for secrets 1 0.
const OR_VALUES: [u8; 33] = [
    1, 0, 0, 0, 1, 1, // shares
    0, 1, // NOTs
    1, 0, 1, 0, 1, // pair 1, 2
    0, 0, 0, 0, 0, // pair 1, 3
    1, 0, 1, 0, 1, // pair 2, 3
    0, 1, 1, 0, 1, 0, 0, 0, 1, // rows
    0, // NOT
];

/// Those for secrets 0 0 with the tape that probe 31 leads to.
const OR_VALUES_MAPPED_TAPE: [u8; 33] = [
    0, 0, 0, 0, 1, 1, // shares
    1, 1, // NOTs
    0, 1, 1, 0, 1, // pair 1, 2
    1, 1, 0, 0, 0, // pair 1, 3
    1, 0, 1, 0, 1, // pair 2, 3
    1, 1, 0, 0, 1, 0, 0, 0, 1, // rows
    1, // NOT
];

/// The wire values of the AND masked with the DOM AND, with that tape, for secrets 1 1.
const DOM_VALUES: [u8; 30] = [
    1, 0, 0, 0, 1, 0, // shares
    1, 1, 0, 0, 1, // pair 1, 2
    0, 0, 0, 0, 0, // pair 1, 3
    1, 0, 1, 0, 1, // pair 2, 3
    0, 0, 0, 0, 1, 0, 0, 0, 1, // rows
];

/// The same for secrets 0 1.
const DOM_VALUES_SAME_TAPE: [u8; 30] = [
    1, 0, 1, 0, 1, 0, // shares
    1, 1, 0, 0, 1, // pair 1, 2
    0, 0, 0, 0, 0, // pair 1, 3
    1, 0, 1, 1, 0, // pair 2, 3
    0, 0, 0, 0, 1, 0, 0, 0, 0, // rows
];

/// Those for secrets 0 1 with the tape that probe 29 leads to.
const DOM_VALUES_FREE_1: [u8; 30] = [
    0, 0, 0, 0, 1, 0, // shares
    1, 0, 1, 0, 1, // pair 1, 2
    0, 0, 0, 0, 0, // pair 1, 3
    1, 0, 1, 0, 1, // pair 2, 3
    0, 1, 1, 0, 1, 0, 0, 0, 1, // rows
];

/// Those for secrets 1 0 with the tape that probe 23 leads to.
const DOM_VALUES_FREE_2: [u8; 30] = [
    1, 0, 0, 0, 0, 0, // shares
    0, 0, 0, 0, 0, // pair 1, 2
    0, 0, 0, 0, 0, // pair 1, 3
    1, 0, 1, 0, 1, // pair 2, 3
    0, 0, 0, 0, 0, 1, 0, 0, 1, // rows
];

/// Those for secrets 1 1 with the other tape.
const DOM_VALUES_OTHER_TAPE: [u8; 30] = [
    1, 1, 1, 0, 1, 0, // shares
    1, 1, 0, 0, 1, // pair 1, 2
    0, 0, 0, 0, 0, // pair 1, 3
    1, 0, 1, 1, 0, // pair 2, 3
    0, 0, 0, 1, 0, 1, 0, 0, 0, // rows
];

/// Those for secrets 1 0 with the tape that this one and probe 8 or 10 lead to. With share 1 free, wires
/// 6 and 9 would change, and 10 would not; with share 2 free, 6 and 7, and 8 would not.
const DOM_VALUES_FREE_3: [u8; 30] = [
    1, 1, 1, 0, 1, 1, // shares
    1, 1, 0, 0, 1, // pair 1, 2
    1, 1, 0, 0, 1, // pair 1, 3
    0, 1, 1, 1, 1, // pair 2, 3
    0, 0, 0, 1, 0, 1, 1, 0, 1, // rows
];

/// Those for secrets 1 0 with the tape that this one and probe 29 lead to.
const DOM_VALUES_TWO_FLIPS: [u8; 30] = [
    1, 1, 1, 1, 1, 0, // shares
    0, 1, 1, 1, 1, // pair 1, 2
    1, 0, 1, 1, 0, // pair 1, 3
    1, 0, 1, 1, 0, // pair 2, 3
    1, 0, 1, 1, 0, 1, 0, 0, 0, // rows
];

/// The wire values of the OR masked with the DOM AND, with the first tape, for secrets 1 0.
const DOM_OR_VALUES: [u8; 33] = [
    1, 0, 0, 0, 1, 1, // shares
    0, 1, // NOTs
    1, 0, 1, 0, 1, // pair 1, 2
    0, 0, 0, 0, 0, // pair 1, 3
    1, 0, 1, 0, 1, // pair 2, 3
    0, 1, 1, 0, 1, 0, 0, 0, 1, // rows
    0, // NOT
];

/// Those for secrets 0 0 with the tape that probe 31 leads to.
const DOM_OR_VALUES_MAPPED_TAPE: [u8; 33] = [
    0, 0, 0, 0, 1, 1, // shares
    1, 1, // NOTs
    1, 1, 0, 0, 1, // pair 1, 2
    0, 1, 1, 0, 0, // pair 1, 3
    1, 0, 1, 0, 1, // pair 2, 3
    1, 1, 0, 0, 1, 0, 0, 0, 1, // rows
    1, // NOT
];

fn example(name: &'static str, case: Case, outcome: Outcome) -> Example {
    Example { name, case, outcome, written: None }
}

fn writing(name: &'static str, case: Case, value: u32, written: &[&[u8]]) -> Example {
    let written = written.iter().map(|bytes| bytes.to_vec()).collect();
    Example { name, case, outcome: Outcome::value(value), written: Some(written) }
}

fn marked(first: u32, second: u32) -> Outcome {
    Outcome::accepted([first, second, 0, 0])
}

/// The examples of all calls.
pub fn examples() -> Vec<Example> {
    [small(), ors(), one_constants(), large(), maps(), dom(), dom_maps()]
        .into_iter()
        .flatten()
        .collect()
}

/// The OR.
fn ors() -> Vec<Example> {
    let forecast = |order| Case::Forecast { table: the_or(), order };
    let marks = |wire| Case::Marks { and: And::Isw, table: the_or(), order: 1, wire };
    let run = Case::Run {
        table: masked_or(),
        inputs: OR_VALUES[..6].to_vec(),
        random: RUNNING.to_vec(),
        values: 33,
        outputs: 3,
    };
    let truth = |left, right| Case::Run {
        table: the_or(),
        inputs: vec![left, right],
        random: vec![],
        values: 3,
        outputs: 1,
    };
    vec![
        example("the OR has 3 wires", Case::Check { table: the_or() }, Outcome::value(3)),
        writing("0 OR 0", truth(0, 0), 3, &[&[0, 0, 0], &[0]]),
        writing("0 OR 1", truth(0, 1), 3, &[&[0, 1, 1], &[1]]),
        writing("1 OR 0", truth(1, 0), 3, &[&[1, 0, 1], &[1]]),
        writing("1 OR 1", truth(1, 1), 3, &[&[1, 1, 1], &[1]]),
        example("the OR at 1", forecast(1), Outcome::accepted([3, 33, 7, 147])),
        example("the OR at 2", forecast(2), Outcome::accepted([5, 88, 18, 406])),
        example("the OR at 15", forecast(15), Outcome::accepted([31, 3_351, 525, 16_513])),
        writing(
            "the OR masked at 1",
            Case::Mask { and: And::Isw, table: the_or(), order: 1, out: 147 },
            147,
            &[&masked_or()],
        ),
        writing("the OR run", run, 33, &[&OR_VALUES, &[0, 0, 1]]),
        example("marks of the left NOT", marks(6), marked(1, 0)),
        example("marks of the right NOT", marks(7), marked(1, 0)),
        example("marks of z(1,2) in the OR", marks(8), marked(1, 0)),
        example("marks of a_1 b_2 in the OR", marks(9), marked(1, 2)),
        example("marks of z(2,1) in the OR", marks(12), marked(1, 2)),
        example("marks of a_3 b_1 in the OR", marks(16), marked(1, 3)),
        example("marks of z(3,2) in the OR", marks(22), marked(2, 3)),
        example("marks of its first row", marks(25), marked(1, 0)),
        example("marks of its last sum", marks(31), marked(3, 0)),
        example("marks of the last NOT", marks(32), marked(1, 0)),
        example("marks of no wire of the OR", marks(33), Outcome::refused(13, 0)),
    ]
}

/// Constants, and kinds that are none.
fn one_constants() -> Vec<Example> {
    let check = |left, right| Case::Check { table: one_constant(left, right) };
    let bad = Outcome::refused(4, 0);
    let and = And::Isw;
    let mask = |value| Case::Mask { and, table: one_constant(value, 0), order: 1, out: 27 };
    let marks = |wire| Case::Marks { and, table: one_constant(1, 0), order: 1, wire };
    let masked =
        |value| Circuit::new(3, &[constant(value), constant(0), constant(0)], &[3, 4, 5]).bytes();
    let run = |value| Case::Run {
        table: one_constant(value, 0),
        inputs: vec![0],
        random: vec![],
        values: 2,
        outputs: 1,
    };
    let kind = |kind| Case::Check { table: Circuit::new(1, &[(kind, 0, 0)], &[1]).bytes() };
    vec![
        example("constant 0", check(0, 0), Outcome::value(2)),
        example("constant 1, which is no earlier wire", check(1, 0), Outcome::value(2)),
        example("constant 2", check(2, 0), bad),
        example("constant 256", check(256, 0), bad),
        example("constant 257", check(257, 0), bad),
        example("constant 65,535", check(65_535, 0), bad),
        example("constant 0 with a right operand", check(0, 1), bad),
        example("constant 1 with a right operand", check(1, 256), bad),
        example("kind 5", kind(5), Outcome::value(2)),
        example("kind 6", kind(6), Outcome::refused(3, 0)),
        example("kind 255", kind(255), Outcome::refused(3, 0)),
        writing("constant 0 run", run(0), 2, &[&[0, 0], &[0]]),
        writing("constant 1 run", run(1), 2, &[&[0, 1], &[1]]),
        writing("constant 0 masked", mask(0), 27, &[&masked(0)]),
        writing("constant 1 masked", mask(1), 27, &[&masked(1)]),
        example(
            "constant 1 forecast",
            Case::Forecast { table: one_constant(1, 0), order: 2 },
            Outcome::accepted([5, 10, 4, 41]),
        ),
        example("marks of a constant's share 1", marks(3), Outcome::value(1)),
        example("marks of a constant's share 3", marks(5), Outcome::value(3)),
    ]
}

fn small() -> Vec<Example> {
    let check = |table: &[u8]| Case::Check { table: table.to_vec() };
    let forecast = |order| Case::Forecast { table: the_and(), order };
    let marks = |wire| Case::Marks { and: And::Isw, table: the_and(), order: 1, wire };
    let run = |inputs: [u8; 6]| Case::Run {
        table: masked_and(),
        inputs: inputs.to_vec(),
        random: RUNNING.to_vec(),
        values: 30,
        outputs: 3,
    };
    let masked_input = Circuit::new(3, &[], &[0, 1, 2]).bytes();
    vec![
        example("the AND has 3 wires", check(&the_and()), Outcome::value(3)),
        example("the AND masked has 30", check(&masked_and()), Outcome::value(30)),
        example("five bytes", check(&[0; 5]), Outcome::refused(1, 0)),
        example("sizes 0 0 1", check(&[0, 0, 0, 0, 1, 0]), Outcome::refused(2, 0)),
        example("sizes 0 0 1, longer", check(&[0, 0, 0, 0, 1, 0, 7]), Outcome::refused(2, 0)),
        example("forecast at 1", forecast(1), Outcome::accepted([3, 30, 7, 132])),
        example("forecast at 2", forecast(2), Outcome::accepted([5, 85, 18, 391])),
        example("forecast at 15", forecast(15), Outcome::accepted([31, 3348, 525, 16498])),
        example("order 0", forecast(0), Outcome::refused(6, 0)),
        example("order 16", forecast(16), Outcome::refused(6, 0)),
        writing(
            "the AND masked at 1",
            Case::Mask { and: And::Isw, table: the_and(), order: 1, out: 132 },
            132,
            &[&masked_and()],
        ),
        writing(
            "no gate",
            Case::Mask { and: And::Isw, table: repeated_output(1), order: 1, out: 20 },
            12,
            &[&masked_input],
        ),
        writing(
            "secrets 1 1",
            Case::Encode { order: 1, secrets: vec![1, 1], tape: ENCODING.to_vec(), out: 6 },
            6,
            &[&VALUES[..6]],
        ),
        example(
            "the whole tape for encoding",
            Case::Encode { order: 1, secrets: vec![1, 1], tape: TAPE.to_vec(), out: 6 },
            Outcome::refused(11, 2),
        ),
        writing("secrets 1 1 run", run([1, 0, 0, 0, 1, 0]), 30, &[&VALUES, &[1, 1, 1]]),
        writing(
            "probe 7, second run",
            run([1, 0, 1, 0, 1, 0]),
            30,
            &[&VALUES_SAME_TAPE, &[1, 1, 0]],
        ),
        writing(
            "outputs 1 1 1 decoded",
            Case::Decode { order: 1, shares: vec![1, 1, 1], out: 1 },
            1,
            &[&[1]],
        ),
        writing(
            "nothing encoded",
            Case::Encode { order: 1, secrets: vec![], tape: vec![], out: 0 },
            0,
            &[&[]],
        ),
        writing("nothing decoded", Case::Decode { order: 1, shares: vec![], out: 0 }, 0, &[&[]]),
        example("marks of an input share", marks(5), marked(3, 0)),
        example("marks of z(1,2)", marks(6), marked(1, 0)),
        example("marks of a_1 b_2", marks(7), marked(1, 2)),
        example("marks of z(1,2) and a_1 b_2", marks(8), marked(1, 2)),
        example("marks of a_3 b_1", marks(14), marked(1, 3)),
        example("marks of z(2,1)", marks(10), marked(1, 2)),
        example("marks of z(3,1)", marks(15), marked(1, 3)),
        example("marks of z(2,3)", marks(16), marked(2, 0)),
        example("marks of z(3,2)", marks(20), marked(2, 3)),
        example("marks of a_1 b_1", marks(21), marked(1, 0)),
        example("marks of a sum with z(2,1)", marks(25), marked(2, 0)),
        example("marks of the last sum", marks(29), marked(3, 0)),
        example("marks of no wire", marks(30), Outcome::refused(13, 0)),
    ]
}

fn large() -> Vec<Example> {
    let forecast = |table: Vec<u8>| Case::Forecast { table, order: 1 };
    let and = And::Isw;
    let mask = |table: Vec<u8>, out| Case::Mask { and, table, order: 1, out };
    let too_large = Outcome::refused(8, 0);
    let sizes = Outcome::accepted([3, 65_526, 8_194, 327_612]);
    let marks = |wire| Case::Marks { and, table: and_chain(2_730), order: 1, wire };
    let masked: Vec<u8> = Circuit::new(3, &[], &[0, 1, 2].repeat(21_845)).bytes();
    vec![
        example("2,730 ANDs", forecast(and_chain(2_730)), sizes),
        example("2,731 ANDs", forecast(and_chain(2_731)), too_large),
        example("2,730 ANDs masked", mask(and_chain(2_730), 327_612), Outcome::value(327_612)),
        example("2,731 ANDs masked", mask(and_chain(2_731), 400_000), too_large),
        example(
            "2,427 ORs",
            forecast(or_chain(2_427)),
            Outcome::accepted([3, 65_535, 7_285, 327_657]),
        ),
        example("2,428 ORs", forecast(or_chain(2_428)), too_large),
        example("2,427 ORs masked", mask(or_chain(2_427), 327_657), Outcome::value(327_657)),
        example(
            "21,844 constants",
            forecast(constants(21_844)),
            Outcome::accepted([3, 65_535, 2, 327_672]),
        ),
        example("21,845 constants", forecast(constants(21_845)), too_large),
        example("2,730 ANDs, last z(2,1)", marks(65_506), marked(1, 2)),
        example("2,730 ANDs, last z(3,2)", marks(65_516), marked(2, 3)),
        example("2,730 ANDs, last wire", marks(65_525), marked(3, 0)),
        example("2,730 ANDs, no wire", marks(65_526), Outcome::refused(13, 0)),
        writing("21,845 outputs", mask(repeated_output(21_845), 131_076), 131_076, &[&masked]),
        example("21,846 outputs", mask(repeated_output(21_846), 200_000), too_large),
    ]
}

/// A map of the AND at order 1 from secrets 1 1.
fn map_and(and: And, second: [u8; 2], tape: [u8; 1], probes: &[u32]) -> Case {
    Case::Map(MapCase {
        and,
        table: the_and(),
        order: 1,
        first: vec![1, 1],
        second: second.to_vec(),
        tape: tape.to_vec(),
        probes: probes.to_vec(),
        mapped: 1,
        one: 30,
        other: 30,
    })
}

/// A map of the OR at order 1 from secrets 1 0.
fn map_or(and: And, second: [u8; 2], probe: u32) -> Case {
    Case::Map(MapCase {
        and,
        table: the_or(),
        order: 1,
        first: vec![1, 0],
        second: second.to_vec(),
        tape: TAPE.to_vec(),
        probes: vec![probe],
        mapped: 1,
        one: 33,
        other: 33,
    })
}

/// A map of a long chain of ANDs at order 1.
fn map_chain(and: And, ands: u16, probes: &[u32]) -> Case {
    Case::Map(MapCase {
        and,
        table: and_chain(ands),
        order: 1,
        first: vec![1, 1],
        second: vec![0, 1],
        tape: pack(&[1, 0, 0, 1, 1, 0, 1].repeat(1_171)[..4 + 3 * usize::from(ands)]),
        probes: probes.to_vec(),
        mapped: 1_025,
        one: 65_526,
        other: 65_526,
    })
}

/// The map.
fn maps() -> Vec<Example> {
    let map = |second, probes: &[u32]| map_and(And::Isw, second, TAPE, probes);
    let map_other = |second, probe| map_and(And::Isw, second, OTHER_TAPE, &[probe]);
    let map_or = |second, probe| map_or(And::Isw, second, probe);
    let long = |ands, probes: &[u32]| map_chain(And::Isw, ands, probes);
    // 0 0 0 1 0 0 1, and for the OR 0 0 0 1 0 1 1
    let (mapped, or_mapped) = ([0x48], [0x68]);
    vec![
        writing("probe 7", map([0, 1], &[7]), 3, &[&TAPE, &VALUES, &VALUES_SAME_TAPE]),
        writing("probe 29", map([0, 1], &[29]), 1, &[&mapped, &VALUES, &VALUES_MAPPED_TAPE]),
        writing("no probe", map([0, 1], &[]), 1, &[&mapped, &VALUES, &VALUES_MAPPED_TAPE]),
        writing("equal secrets", map([1, 1], &[29]), 1, &[&TAPE, &VALUES, &VALUES]),
        // The marks of wire 10 alone are 2, those of wire 15 alone 3: 1 would be free.
        writing("probe 10", map([0, 1], &[10]), 3, &[&TAPE, &VALUES, &VALUES_SAME_TAPE]),
        writing("probe 15", map([0, 1], &[15]), 2, &[&OTHER_TAPE, &VALUES, &VALUES_FREE_2]),
        writing(
            "another tape, probe 10",
            map_other([1, 0], 10),
            3,
            &[&OTHER_TAPE, &VALUES_OTHER_TAPE, &VALUES_SAME_OTHER_TAPE],
        ),
        example("probes 6, 6", map([0, 1], &[6, 6]), Outcome::refused(12, 0)),
        example("probe 30", map([0, 1], &[30]), Outcome::refused(13, 0)),
        writing(
            "the OR, probe 31",
            map_or([0, 0], 31),
            1,
            &[&or_mapped, &OR_VALUES, &OR_VALUES_MAPPED_TAPE],
        ),
        writing("the OR, equal secrets", map_or([1, 0], 9), 3, &[&TAPE, &OR_VALUES, &OR_VALUES]),
        writing("the OR, probe 12", map_or([1, 0], 12), 3, &[&TAPE, &OR_VALUES, &OR_VALUES]),
        example("the OR, probe 33", map_or([0, 0], 33), Outcome::refused(13, 0)),
        example("2,730 ANDs mapped", long(2_730, &[65_525]), Outcome::value(1)),
        example("2,730 ANDs, no such wire", long(2_730, &[65_526]), Outcome::refused(13, 0)),
        example("2,731 ANDs mapped", long(2_731, &[]), Outcome::refused(8, 0)),
    ]
}

/// Masking and marks with the DOM AND: of the AND, of the OR, and of tables at a limit.
fn dom() -> Vec<Example> {
    let and = And::Dom;
    let mask = |table: Vec<u8>, order, out| Case::Mask { and, table, order, out };
    let marks = |wire| Case::Marks { and, table: the_and(), order: 1, wire };
    let marks_or = |wire| Case::Marks { and, table: the_or(), order: 1, wire };
    let marks_long = |wire| Case::Marks { and, table: and_chain(2_730), order: 1, wire };
    let run = |table: Vec<u8>, values: &[u8]| Case::Run {
        table,
        inputs: values[..6].to_vec(),
        random: RUNNING.to_vec(),
        values: values.len(),
        outputs: 3,
    };
    let (masked_and, masked_or) = (dom_masked_and(), dom_masked_or());
    vec![
        writing("DOM: the AND masked", mask(the_and(), 1, 132), 132, &[&masked_and]),
        writing("DOM: the OR masked", mask(the_or(), 1, 147), 147, &[&masked_or]),
        writing(
            "DOM: the AND run",
            run(masked_and.clone(), &DOM_VALUES),
            30,
            &[&DOM_VALUES, &[0, 0, 1]],
        ),
        writing(
            "DOM: the OR run",
            run(masked_or.clone(), &DOM_OR_VALUES),
            33,
            &[&DOM_OR_VALUES, &[0, 0, 1]],
        ),
        example("DOM: at 15", mask(the_and(), 15, 16_498), Outcome::value(16_498)),
        example("DOM: order 16", mask(the_and(), 16, 16_498), Outcome::refused(6, 0)),
        example("DOM: a short buffer", mask(the_and(), 1, 131), Outcome::refused(9, 0)),
        example("DOM: 2,730 ANDs", mask(and_chain(2_730), 1, 327_612), Outcome::value(327_612)),
        example("DOM: 2,731 ANDs", mask(and_chain(2_731), 1, 400_000), Outcome::refused(8, 0)),
        example("DOM: marks of an input share", marks(5), marked(3, 0)),
        example("DOM: marks of r", marks(6), marked(1, 2)),
        example("DOM: marks of a_1 b_2", marks(7), marked(1, 2)),
        example("DOM: marks of a_1 b_2 and r", marks(8), marked(1, 2)),
        example("DOM: marks of a_2 b_1", marks(9), marked(1, 2)),
        example("DOM: marks of a_2 b_1 and r", marks(10), marked(1, 2)),
        example("DOM: marks of a_3 b_1 and r", marks(15), marked(1, 3)),
        example("DOM: marks of the last r", marks(16), marked(2, 3)),
        example("DOM: marks of a_2 b_3 and r", marks(18), marked(2, 3)),
        example("DOM: marks of a_3 b_2 and r", marks(20), marked(2, 3)),
        example("DOM: marks of a_1 b_1", marks(21), marked(1, 0)),
        example("DOM: marks of a sum with a_1 b_2 and r", marks(22), marked(1, 0)),
        example("DOM: marks of the last sum", marks(29), marked(3, 0)),
        example("DOM: marks of no wire", marks(30), Outcome::refused(13, 0)),
        example("DOM: marks of the left NOT", marks_or(6), marked(1, 0)),
        example("DOM: marks of r in the OR", marks_or(8), marked(1, 2)),
        example("DOM: marks of a_1 b_2 and r in the OR", marks_or(10), marked(1, 2)),
        example("DOM: marks of a_2 b_1 and r in the OR", marks_or(12), marked(1, 2)),
        example("DOM: marks of the last NOT", marks_or(32), marked(1, 0)),
        example("DOM: 2,730 ANDs, last a_1 b_2 and r", marks_long(65_504), marked(1, 2)),
        example("DOM: 2,730 ANDs, last wire", marks_long(65_525), marked(3, 0)),
        example("DOM: 2,730 ANDs, no wire", marks_long(65_526), Outcome::refused(13, 0)),
    ]
}

/// The map with the DOM AND; where r of a pair is flipped, k is its upper share, or its lower one.
fn dom_maps() -> Vec<Example> {
    let map = |second, probes: &[u32]| map_and(And::Dom, second, TAPE, probes);
    let map_other = |second, probe| map_and(And::Dom, second, OTHER_TAPE, &[probe]);
    let map_or = |second, probe| map_or(And::Dom, second, probe);
    let long = |ands, probes: &[u32]| map_chain(And::Dom, ands, probes);
    // 0 0 0 1 1 0 1, then 1 0 0 0 0 0 1
    let (free_1, free_2) = ([0x58], [0x41]);
    // The other tape leads to 1 1 1 1 0 1 1 and, with share 3 free, to 1 1 0 1 1 1 0.
    let (two_flips, free_3) = ([0x6f], [0x3b]);
    let with_free_3 = [&free_3[..], &DOM_VALUES_OTHER_TAPE, &DOM_VALUES_FREE_3];
    vec![
        writing("DOM: probe 7", map([0, 1], &[7]), 3, &[&TAPE, &DOM_VALUES, &DOM_VALUES_SAME_TAPE]),
        writing("DOM: probe 6", map([0, 1], &[6]), 3, &[&TAPE, &DOM_VALUES, &DOM_VALUES_SAME_TAPE]),
        writing(
            "DOM: probe 29",
            map([0, 1], &[29]),
            1,
            &[&free_1, &DOM_VALUES, &DOM_VALUES_FREE_1],
        ),
        writing(
            "DOM: probe 23",
            map([1, 0], &[23]),
            2,
            &[&free_2, &DOM_VALUES, &DOM_VALUES_FREE_2],
        ),
        // The marks of wire 8 alone are 1, those of wire 10 alone 2: 2 or 1 would be free.
        writing("DOM: another tape, probe 8", map_other([1, 0], 8), 3, &with_free_3),
        writing("DOM: another tape, probe 10", map_other([1, 0], 10), 3, &with_free_3),
        writing(
            "DOM: another tape, probe 29",
            map_other([1, 0], 29),
            1,
            &[&two_flips, &DOM_VALUES_OTHER_TAPE, &DOM_VALUES_TWO_FLIPS],
        ),
        writing("DOM: equal secrets", map([1, 1], &[29]), 1, &[&TAPE, &DOM_VALUES, &DOM_VALUES]),
        example("DOM: probes 6, 6", map([0, 1], &[6, 6]), Outcome::refused(12, 0)),
        example("DOM: probe 30", map([0, 1], &[30]), Outcome::refused(13, 0)),
        writing(
            "DOM: the OR, probe 31",
            map_or([0, 0], 31),
            1,
            &[&free_1, &DOM_OR_VALUES, &DOM_OR_VALUES_MAPPED_TAPE],
        ),
        writing(
            "DOM: the OR, probe 10",
            map_or([1, 0], 10),
            3,
            &[&TAPE, &DOM_OR_VALUES, &DOM_OR_VALUES],
        ),
        example("DOM: the OR, probe 33", map_or([0, 0], 33), Outcome::refused(13, 0)),
        example("DOM: 2,730 ANDs mapped", long(2_730, &[65_525]), Outcome::value(1)),
        example("DOM: 2,731 ANDs mapped", long(2_731, &[]), Outcome::refused(8, 0)),
    ]
}
