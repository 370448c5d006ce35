//! Inputs for the sizes program: tables of every size at every order, sound ones and others.

use std::collections::BTreeSet;

use compare::generate::{PLAIN_KINDS, circuit};
use compare::model::{self, AND, CONSTANT, MOST, NOT, OR, RANDOM, XOR};
use compare::rng::Rng;

/// So many tables are generated.
const TABLES: usize = 600;
/// The longest input that the forecast program takes.
const MOST_FORECAST: usize = 65_536;

/// An order byte and a table each. Small sizes come as often as large ones, and half of the tables
/// have one flaw or more.
pub fn inputs(rng: &mut Rng) -> Vec<Vec<u8>> {
    (0..TABLES).map(|_| input(rng)).collect()
}

fn input(rng: &mut Rng) -> Vec<u8> {
    let inputs = 1 + up_to(rng, MOST - 2);
    let gates = 1 + up_to(rng, MOST - 1 - inputs);
    let outputs = 1 + up_to(rng, MOST - 1);
    let some =
        [&PLAIN_KINDS[..], &[NOT], &[NOT, XOR, CONSTANT], &[AND], &[OR], &[XOR], &[CONSTANT]];
    let some = rng.pick(&some);
    let kinds: Vec<u8> = (0..gates).map(|_| rng.pick(some)).collect();
    let table = circuit(rng, inputs, &kinds, outputs).bytes();
    let mut input = [vec![rng.within(1, 15) as u8], table].concat();
    for _ in 0..rng.pick(&[0, 0, 0, 1, 1, 2]) {
        spoil(rng, &mut input, gates, outputs);
    }
    input
}

/// A number up to the most, of each length in bits as often as of another.
fn up_to(rng: &mut Rng, most: usize) -> usize {
    let shift = rng.below(16);
    rng.below((most >> shift) + 1)
}

/// Spoils what one of the refusals 1 to 7 looks at.
fn spoil(rng: &mut Rng, input: &mut Vec<u8>, gates: usize, outputs: usize) {
    // The order stands before the table. No wire has the number 65,535.
    let (kinds, operands, last) = (7, 7 + gates, 7 + 5 * gates);
    let (g, o) = (rng.below(gates), rng.below(outputs));
    match rng.within(1, 7) {
        1 if rng.once_in(2) => input.push(0),
        1 => input.truncate(rng.below(input.len())),
        2 => set(input, rng.pick(&[1, 5]), &[0, 0]),
        3 => set(input, kinds + g, &[rng.within(6, 255) as u8]),
        4 => set(input, operands + 4 * g + rng.pick(&[0, 2]), &[255, 255]),
        5 => set(input, last + 2 * o, &[255, 255]),
        6 => set(input, 0, &[rng.pick(&[0, 16, 17, 255])]),
        _ => {
            set(input, kinds + g, &[RANDOM]);
            set(input, operands + 4 * g, &[0; 4]);
        }
    }
}

/// Overwrites bytes, if the input is long enough.
fn set(input: &mut [u8], at: usize, bytes: &[u8]) {
    if let Some(old) = input.get_mut(at..at + bytes.len()) {
        old.copy_from_slice(bytes);
    }
}

/// What the sizes program says of an input: its refusal, or whether its order, a smaller one or none
/// fits.
fn said(input: &[u8]) -> String {
    let line = model::sizes_line(input);
    let words: Vec<&str> = line.split_whitespace().collect();
    match words[..] {
        ["refused", number, _] => format!("refused {number}"),
        [.., largest] => match largest.parse::<u8>() {
            Ok(0) => "no order fits".into(),
            Ok(largest) if largest < input[0] => "a smaller order fits".into(),
            _ => "the order fits".into(),
        },
        [] => "nothing".into(),
    }
}

/// Every refusal from 1 to 7 and tables that fit or do not are among the inputs, also among those that
/// are too long for a forecast.
pub fn ensure_all(inputs: &[Vec<u8>]) -> Result<(), String> {
    let seen: BTreeSet<_> =
        inputs.iter().map(|input| (input.len() > MOST_FORECAST, said(input))).collect();
    let mut due: Vec<String> = (1..=7).map(|number| format!("refused {number}")).collect();
    due.extend(["the order fits", "a smaller order fits", "no order fits"].map(String::from));
    let missing = [false, true].into_iter().find_map(|is_long| {
        due.iter().map(|said| (is_long, said.clone())).find(|one| !seen.contains(one))
    });
    match missing {
        Some(one) => Err(format!("FAILED: no input of sizes is {one:?}")),
        None => Ok(()),
    }
}
