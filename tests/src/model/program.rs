//! The programs, as functions from what they read to what they write.

use std::iter;

use super::table::Table;
use super::{AND, And, CONSTANT, Figures, NOT, OR, Refusal, Sizes, XOR, figures, forecast, mask};

/// The longest input, the order byte included, that the forecast program takes.
const MOST_FORECAST: usize = 65_536;

/// The line of a refusal, with its line feed.
fn refused(number: u8, place: u32) -> String {
    format!("refused {number} {place}\n")
}

impl From<Refusal> for String {
    fn from(refusal: Refusal) -> Self {
        refused(refusal.number(), refusal.place)
    }
}

/// An order and a table; no input counts as order 0 and an empty table.
fn order_and_table(input: &[u8]) -> (u8, &[u8]) {
    input.split_first().map_or((0, input), |(&order, table)| (order, table))
}

/// The line, with its line feed, that the forecast program prints for an input.
pub fn forecast_line(input: &[u8]) -> String {
    if input.len() > MOST_FORECAST {
        return refused(9, 0);
    }
    let (order, table) = order_and_table(input);
    match forecast(table, order) {
        Ok(sizes) => {
            format!("{} {} {} {}\n", sizes.shares, sizes.wires, sizes.tape, sizes.bytes)
        }
        Err(refusal) => refusal.into(),
    }
}

/// The line, with its line feed, that the sizes program prints for an input.
pub fn sizes_line(input: &[u8]) -> String {
    let (order, table) = order_and_table(input);
    match figures(table, order) {
        Ok(Figures { sizes: Sizes { shares, wires, tape, bytes }, outputs, largest }) => {
            format!("{shares} {wires} {tape} {bytes} {outputs} {largest}\n")
        }
        Err(refusal) => refusal.into(),
    }
}

/// The masked table that the mask program writes for an input, or the line of its refusal. The first
/// byte names the AND: 0 is that of document 01, any other the DOM AND.
pub fn masked(input: &[u8]) -> Result<Vec<u8>, String> {
    let (and, rest) = match input {
        [0, rest @ ..] => (And::Isw, rest),
        [_, rest @ ..] => (And::Dom, rest),
        [] => (And::Isw, input),
    };
    let (order, table) = order_and_table(rest);
    let mut out = vec![0; forecast(table, order)?.bytes as usize];
    mask(and, table, order, &mut out)?;
    Ok(out)
}

/// What the show program prints for a table: the number of inputs, a line for each gate and each
/// output; or the line of the refusal.
pub fn listing(table: &[u8]) -> String {
    let table = match Table::new(table) {
        Ok(table) => table,
        Err(refusal) => return refusal.into(),
    };
    let inputs = format!("inputs {}\n", table.inputs);
    let gates = (table.inputs..).zip(table.gates()).map(|(wire, gate)| {
        let (left, right) = (gate.left, gate.right);
        match gate.kind {
            NOT => format!("w{wire} = NOT w{left}\n"),
            XOR => format!("w{wire} = XOR w{left} w{right}\n"),
            AND => format!("w{wire} = AND w{left} w{right}\n"),
            CONSTANT => format!("w{wire} = CONSTANT {left}\n"),
            OR => format!("w{wire} = OR w{left} w{right}\n"),
            _ => format!("w{wire} = RANDOM\n"),
        }
    });
    let outputs = table.outputs().enumerate().map(|(o, wire)| format!("out{o} = w{wire}\n"));
    iter::once(inputs).chain(gates).chain(outputs).collect()
}
