//! Tests of `certify` where the file is not the masked table: the first difference, and what matches.

use std::ops::Range;

use compare::circuit::{Circuit, constant, not, or, xor};
use compare::examples::the_and;
use compare::model::And;
use compare::samples::samples;

use super::json::ensure_answer;
use super::reader::{Json, object};
use crate::running::{Folder, ensure, masked_with, with_and};

const KINDS: [&str; 6] = ["NOT", "XOR", "AND", "RANDOM", "CONSTANT", "OR"];

pub fn test(folder: &Folder) -> Result<(), String> {
    by_hand(folder)?;
    let small = Circuit::new(1, &[constant(1), not(1)], &[2, 0]).bytes();
    for (and, table, step) in
        [(And::Isw, the_and(), 1), (And::Dom, the_and(), 5), (And::Dom, small, 3)]
    {
        folder.write("table", &table)?;
        changed(folder, and, &table, step)?;
        lengths(folder, and, &table)?;
    }
    for sample in samples() {
        others(folder, &sample.circuit.bytes())?;
    }
    without_and(folder)
}

/// The fields of a table, in the order of its bytes.
fn fields(table: &[u8]) -> Vec<(Range<usize>, String)> {
    let circuit = Circuit::read(table);
    let (gates, inputs) = (circuit.gates.len(), usize::from(circuit.inputs));
    let gate = |g: usize| format!("gate {g}, wire {}", inputs + g);
    let mut fields: Vec<(usize, String)> =
        ["inputs", "gates", "outputs"].map(|name| (2, format!("number of {name}"))).into();
    fields.extend((0..gates).map(|g| (1, format!("{}, kind", gate(g)))));
    for side in (0..gates).flat_map(|g| ["left", "right"].map(|side| (g, side))) {
        fields.push((2, format!("{}, {} operand", gate(side.0), side.1)));
    }
    fields.extend((0..circuit.outputs.len()).map(|o| (2, format!("output {o}"))));
    let mut end = 0;
    let mut range = |size: usize| {
        end += size;
        end - size..end
    };
    fields.into_iter().map(|(size, name)| (range(size), name)).collect()
}

/// What a field says: the name of a kind, or a number.
fn value(field: &[u8]) -> String {
    match *field {
        [kind] if kind < 6 => KINDS[usize::from(kind)].into(),
        [number] => number.to_string(),
        _ => u16::from_le_bytes([field[0], field[1]]).to_string(),
    }
}

/// The first difference between a file and the table that it should be.
fn difference(given: &[u8], due: &[u8]) -> String {
    for (range, name) in fields(due) {
        let Some(field) = given.get(range.clone()) else {
            return format!("it ends at byte {}, and should have {} bytes", given.len(), due.len());
        };
        if field != &due[range.clone()] {
            return format!("{name}: {} is there, {} should be", value(field), value(&due[range]));
        }
    }
    format!("byte {} is one too many", due.len())
}

/// The order and the AND with which a table is masked to a file.
fn matching(table: &[u8], given: &[u8]) -> Option<(u8, And)> {
    let mut all = (1..=15).flat_map(|order| And::BOTH.map(|and| (order, and)));
    all.find(|&(order, and)| masked_with(and, order, table).is_ok_and(|masked| masked == given))
}

/// A file that is not "table" masked at an order with an AND, and is told so, in words or as JSON.
fn not_masked(
    folder: &Folder,
    and: And,
    order: u8,
    given: &[u8],
    is_json: bool,
) -> Result<(), String> {
    let table = folder.read("table")?;
    let difference = difference(given, &masked_with(and, order, &table)?);
    let matching = matching(&table, given);
    let (number, name) = (order.to_string(), and.name());
    folder.write("masked", given)?;
    let words = with_and(and, &["certify", &number, "table", "masked"]);
    if !is_json {
        let ran = folder.run(&words)?;
        let matching = matching.map_or(String::new(), |(order, and)| {
            format!("; it is that table masked at order {order} with the {} AND", and.name())
        });
        let told = format!(
            "'masked' is not 'table' masked at order {order} with the {name} AND: \
             {difference}{matching}\n"
        );
        return ensure(ran.is_ended(1, &told) && ran.told == told, &ran, &told);
    }
    let mut due = object([
        ("file", "masked".into()),
        ("table", "table".into()),
        ("order", Json::Number(order.into())),
        ("and", name.into()),
        ("difference", difference[..].into()),
    ]);
    if let (Json::Object(entries), Some((order, and))) = (&mut due, matching) {
        let matching = [("order", Json::Number(order.into())), ("and", and.name().into())];
        entries.insert("matches".into(), object(matching));
    }
    let ran = folder.run(&[&words[..], &["--json"]].concat())?;
    ensure_answer(&ran, 1, &due)
}

/// Differences whose words were written by hand.
fn by_hand(folder: &Folder) -> Result<(), String> {
    let due = masked_with(And::Isw, 1, &the_and())?;
    // A masked AND has 6 inputs, 24 gates and 3 outputs.
    for (at, to, told) in [
        (0, 7, "number of inputs: 7 is there, 6 should be"),
        (3, 1, "number of gates: 280 is there, 24 should be"),
        (4, 0, "number of outputs: 0 is there, 3 should be"),
        (6, 5, "gate 0, wire 6, kind: OR is there, RANDOM should be"),
        (7, 255, "gate 1, wire 7, kind: 255 is there, AND should be"),
        (30, 1, "gate 0, wire 6, left operand: 1 is there, 0 should be"),
        (36, 5, "gate 1, wire 7, right operand: 5 is there, 4 should be"),
        (122, 26, "gate 23, wire 29, left operand: 26 is there, 28 should be"),
        (131, 1, "output 2: 285 is there, 29 should be"),
    ] {
        let mut given = due.clone();
        given[at] = to;
        folder.write("masked", &given)?;
        let ran = folder.run(&["certify", "1", "table", "masked"])?;
        let told = format!("'masked' is not 'table' masked at order 1 with the ISW AND: {told}\n");
        ensure(ran.is_ended(1, &told), &ran, &told)?;
    }
    Ok(())
}

/// Every byte of a small masked table changed, or one of so many.
fn changed(folder: &Folder, and: And, table: &[u8], step: usize) -> Result<(), String> {
    let due = masked_with(and, 1, table)?;
    for at in (0..due.len()).step_by(step) {
        let mut given = due.clone();
        given[at] ^= [1, 4, 0x81, 0xff][at % 4];
        not_masked(folder, and, 1, &given, at % 3 == 0)?;
    }
    Ok(())
}

/// Files that are too short or too long, also with a difference before their end.
fn lengths(folder: &Folder, and: And, table: &[u8]) -> Result<(), String> {
    let due = masked_with(and, 1, table)?;
    let (long, operands) = (due.len(), 6 + Circuit::read(&due).gates.len());
    let mut cases: Vec<Vec<u8>> = [0, 1, 5, 6, 7, operands, operands + 1, long - 2, long - 1]
        .map(|size| due[..size].to_vec())
        .into();
    // The low byte of the last operand is another, and the file ends there.
    let mut cut = due[..operands + 1].to_vec();
    cut[operands] ^= 1;
    cases.push(cut);
    cases.extend([&[0][..], &[255, 255], &due].map(|more| [&due[..], more].concat()));
    cases.extend([due[1..].to_vec(), [&due[..6], &due[7..]].concat(), table.to_vec()]);
    cases.push(vec![0; 500_000]);
    for (number, given) in cases.iter().enumerate() {
        not_masked(folder, and, 1, given, number % 3 == 0)?;
    }
    Ok(())
}

/// The table masked at another order, with the other AND, or both: that is told.
fn others(folder: &Folder, table: &[u8]) -> Result<(), String> {
    folder.write("table", table)?;
    for (number, (and, order, masked_and, masked_order)) in [
        (And::Isw, 1, And::Dom, 1),
        (And::Dom, 1, And::Isw, 1),
        (And::Isw, 1, And::Isw, 3),
        (And::Dom, 4, And::Isw, 2),
        (And::Isw, 3, And::Dom, 2),
    ]
    .into_iter()
    .enumerate()
    {
        let given = masked_with(masked_and, masked_order, table)?;
        not_masked(folder, and, order, &given, number % 2 == 0)?;
    }
    // The right number of inputs, and yet no match.
    let mut given = masked_with(And::Isw, 2, table)?;
    let last = given.len() - 2;
    given[last] ^= 1;
    not_masked(folder, And::Isw, 1, &given, true)?;
    not_masked(folder, And::Isw, 2, &given, false)
}

/// A table without ANDs and ORs is the same with both ANDs: certified at once, or told by its order.
fn without_and(folder: &Folder) -> Result<(), String> {
    let table = Circuit::new(2, &[xor(0, 1), not(2), constant(0)], &[3, 4]).bytes();
    folder.write("table", &table)?;
    let given = masked_with(And::Dom, 2, &table)?;
    folder.write("masked", &given)?;
    for and in And::BOTH {
        let ran = folder.run(&with_and(and, &["certify", "2", "table", "masked", "--quiet"]))?;
        ensure(ran.is_done() && ran.out.is_empty(), &ran, "it is not certified")?;
    }
    for and in And::BOTH {
        not_masked(folder, and, 1, &given, false)?;
    }
    // One OR, and it matters again.
    let table = Circuit::new(2, &[or(0, 1)], &[2]).bytes();
    folder.write("table", &table)?;
    not_masked(folder, And::Isw, 1, &masked_with(And::Dom, 1, &table)?, false)
}
