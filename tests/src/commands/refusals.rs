//! Refusals: by their number and place, in one line with status 1, and nothing is written.

use compare::circuit::{Circuit, Gate, and, constant, not, or, random, xor};
use compare::examples::{and_chain, the_and};
use compare::model::{self, AND, And, MOST, NOT, OR};

use super::{KEPT, ensure_kept};
use crate::running::{Folder, ensure, masked_with, with_and};

const WRONG_ORDER: &str = "table: refused 6: the order is not 1 to 15\n";

pub fn test(folder: &Folder) -> Result<(), String> {
    by_number(folder)?;
    orders(folder)?;
    bad_table_first(folder)?;
    for (order, circuit) in large_circuits() {
        too_large(folder, order, &circuit)?;
    }
    long_tables(folder)
}

/// Tables with one fault each, and how its refusal begins.
fn faulty() -> [(Vec<u8>, &'static str); 7] {
    let gates = [and(0, 1), not(2), and(3, 0), constant(1)];
    let sound = Circuit::new(2, &gates, &[4, 3]);
    let table = |change: &dyn Fn(&mut Circuit)| {
        let mut circuit = sound.clone();
        change(&mut circuit);
        circuit.bytes()
    };
    [
        (vec![2, 0], "table: refused 1: "),
        (table(&|circuit| circuit.inputs = 0), "table: refused 2: "),
        (
            table(&|circuit| circuit.gates[1].0 = 6),
            "table: refused 3 at gate 1: its kind is above 5",
        ),
        (table(&|circuit| circuit.gates[2].1 = 5), "table: refused 4 at gate 2: "),
        (table(&|circuit| circuit.gates[3].1 = 2), "table: refused 4 at gate 3: "),
        (table(&|circuit| circuit.gates[3].2 = 1), "table: refused 4 at gate 3: "),
        (table(&|circuit| circuit.outputs[1] = 6), "table: refused 5 at output 1: "),
    ]
}

/// A refusal of `mask` leaves OUT as it was, or not there; `check` refuses the first five too.
fn by_number(folder: &Folder) -> Result<(), String> {
    for (table, told) in faulty() {
        folder.write("table", &table)?;
        let ran = folder.run(&["check", "table"])?;
        ensure(ran.is_ended(1, told), &ran, told)?;
    }
    let random = Circuit::new(2, &[and(0, 1), random()], &[2]).bytes();
    let others = [
        (random, "table: refused 7 at gate 1: "),
        (and_chain(2_731), "table: refused 8: "),
        (vec![1; 458_747], "table: refused 1: "),
    ];
    for (table, told) in faulty().into_iter().chain(others) {
        folder.write("table", &table)?;
        folder.write("out", KEPT)?;
        for (and, out) in And::BOTH.into_iter().flat_map(|and| [(and, "out"), (and, "not there")]) {
            let ran = folder.run(&with_and(and, &["mask", "1", "table", out]))?;
            ensure(ran.is_ended(1, told), &ran, told)?;
        }
        ensure_kept(folder)?;
    }
    Ok(())
}

/// The commands that take an order, over the files "table" and "out".
fn with_order(order: &str) -> [Vec<&str>; 5] {
    [
        vec!["mask", order, "table", "out"],
        vec!["mask", "--dom", order, "table", "out"],
        vec!["forecast", order, "table"],
        vec!["certify", order, "table", "out"],
        vec!["certify", "--dom", order, "table", "out"],
    ]
}

/// Every number that is no order, however it is written.
fn orders(folder: &Folder) -> Result<(), String> {
    folder.write("table", &the_and())?;
    for order in
        ["0", "16", "255", "256", "300", "99999999999999999999", "000000000000000000000016", "00"]
    {
        for arguments in with_order(order) {
            let ran = folder.run(&arguments)?;
            ensure(ran.is_ended(1, WRONG_ORDER), &ran, "the order is not refused")?;
            ensure_kept(folder)?;
        }
    }
    Ok(())
}

/// What is wrong with the table is told before what is wrong with the order.
fn bad_table_first(folder: &Folder) -> Result<(), String> {
    for (table, told) in faulty() {
        folder.write("table", &table)?;
        for arguments in with_order("300") {
            let ran = folder.run(&arguments)?;
            ensure(ran.is_ended(1, told), &ran, told)?;
            ensure_kept(folder)?;
        }
    }
    Ok(())
}

/// Circuits that are too large at an order: by their wires, by their outputs, by both.
fn large_circuits() -> Vec<(u8, Circuit)> {
    let nots = |count: u16| (0..count).map(not);
    let ands: Vec<Gate> = (0..2_731).map(|g| and(g, g + 1)).collect();
    let mixed: Vec<Gate> = nots(40).chain((0..40).flat_map(|g| [xor(g, 1), and(g, 0)])).collect();
    let ors: Vec<Gate> = (0..2_428).map(|g| or(g, g + 1)).collect();
    let all: Vec<Gate> =
        (0..30).flat_map(|g| [or(g, 1), constant(g % 2), xor(g, 0), not(g), and(0, g)]).collect();
    vec![
        (1, Circuit::new(2, &ands, &[0])),
        (15, Circuit::new(2, &ands[..300], &[0, 1])),
        (4, Circuit::new(2, &ands[..300], &[0, 1])),
        (15, Circuit::new(3, &mixed, &[1, 2])),
        (1, Circuit::new(2, &ors, &[0])),
        (15, Circuit::new(3, &all, &[1, 2])),
        (9, Circuit::new(2, &[constant(1); 4_000], &[0, 3])),
        (9, Circuit::new(3_000, &[xor(0, 1); 2_000], &[1, 2])),
        (15, Circuit::new(1, &[], &[0; 5_000])),
        (1, Circuit::new(1, &[], &[0; 21_846])),
        (2, Circuit::new(1, &[], &[0; 13_108])),
        (3, Circuit::new(30_000, &nots(500).collect::<Vec<_>>(), &[7; 20_000])),
    ]
}

/// The wires of a circuit masked at an order, gate by gate.
fn masked_wires(circuit: &Circuit, order: u8) -> usize {
    let n = 2 * usize::from(order) + 1;
    let cost = |gate: &Gate| match gate.0 {
        NOT => 1,
        AND => n * n + 5 * n * (n - 1) / 2,
        OR => n * n + 5 * n * (n - 1) / 2 + 3,
        _ => n,
    };
    n * usize::from(circuit.inputs) + circuit.gates.iter().map(cost).sum::<usize>()
}

/// Refusal 8 tells both sizes, and the largest order that fits.
fn too_large(folder: &Folder, order: u8, circuit: &Circuit) -> Result<(), String> {
    let table = circuit.bytes();
    let fits = (1..=15).rev().find_map(|order| Some((order, model::forecast(&table, order).ok()?)));
    let largest = match &fits {
        Some((fits, _)) => format!("the largest order that fits is {fits}"),
        None => "no order fits".into(),
    };
    let (wires, n) = (masked_wires(circuit, order), 2 * usize::from(order) + 1);
    let outputs = n * circuit.outputs.len();
    let told = format!(
        "table: refused 8: masked at order {order} the table would have {wires} wires and {outputs} \
         outputs, and 65,535 of each is the most; {largest}\n"
    );
    folder.write("table", &table)?;
    for arguments in with_order(&order.to_string()) {
        let ran = folder.run(&arguments)?;
        let sound = wires > MOST || outputs > MOST;
        let agrees = fits.is_none_or(|(fits, sizes)| {
            fits < order && sizes.wires as usize == masked_wires(circuit, fits)
        });
        ensure(sound && agrees, &ran, "the test's own sizes are wrong")?;
        ensure(ran.is_ended(1, &told), &ran, &told)?;
        ensure_kept(folder)?;
    }
    Ok(())
}

/// Tables that are too long for a forecast can be masked: NOTs alone, and all plain kinds.
fn long_tables(folder: &Folder) -> Result<(), String> {
    let nots: Vec<Gate> = (0..65_526).map(not).collect();
    let all: Vec<Gate> = (0..16_000)
        .map(|g| match g % 32 {
            0 => or(g, 2),
            1 => and(g, 1),
            2..7 => constant(g % 2),
            7..10 => xor(g, 0),
            _ => not(g),
        })
        .collect();
    // The second has 3 inputs, 500 ORs, 500 ANDs, 2,500 constants, 1,500 XORs and 11,000 NOTs.
    for (gates, sizes) in [(nots, "65535 wires, 6"), (all, "48509 wires, 3006")] {
        let table = Circuit::new(3, &gates, &[gates.len() as u16 + 2]).bytes();
        folder.write("table", &table)?;
        let ran = folder.run(&["forecast", "1", "table"])?;
        let told = ran.told.contains("mask takes longer ones");
        ensure(ran.is_ended(1, "table: refused 9: ") && told, &ran, "a long table is not told")?;
        for and in And::BOTH {
            let ran = folder.run(&with_and(and, &["mask", "1", "table", "out"]))?;
            let sizes = format!("3 shares, {sizes} tape bits, AND: {}\n", and.name());
            let told = ran.out.starts_with(&sizes);
            ensure(ran.is_done() && told, &ran, "a long table is not masked")?;
            let due = masked_with(and, 1, &table)?;
            ensure(folder.read("out")? == due, &ran, "OUT is another table")?;
        }
    }
    Ok(())
}
