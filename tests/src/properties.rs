//! What must hold of an accepted map, and of a forecast, told from the outputs of one implementation
//! alone.

use crate::case::{Lent, MapCase};
use crate::circuit::Circuit;
use crate::generate::circuit;
use crate::masks::{Masks, Outcome};
use crate::model::{AND, CONSTANT, MOST, NOT, OR, XOR, bytes_for, cut, reads};
use crate::rng::Rng;

fn ensure(holds: bool, what: &str) -> Result<(), String> {
    if holds { Ok(()) } else { Err(what.into()) }
}

/// Checks an accepted map that answered a free share and wrote its three buffers: that no probe has
/// that mark, and no smaller share is free; that the probes read the same in both runs, outputs and
/// pins, that the map from y to x leads back, that both runs are those of the masked table on the
/// encoded secrets, and that their outputs decode to those of the plain table.
pub fn check_mapping(
    masks: &impl Masks,
    case: &MapCase,
    free: u32,
    buffers: &[Lent],
) -> Result<(), String> {
    let Outcome { number: 0, values: [_, wires, bits, bytes], .. } =
        masks.forecast(&case.table, case.order)
    else {
        return Err("the forecast refuses what the map accepts".into());
    };
    let [mapped, one, other] = buffers else { unreachable!("a map has three buffers") };
    let (bits, wires) = (bits as usize, wires as usize);
    ensure(
        case.tape.len() == bytes_for(bits) && one.size() >= wires && other.size() >= wires,
        "the map accepts other sizes than forecast",
    )?;
    let (mapped, one, other) = (mapped.head(case.tape.len()), one.head(wires), other.head(wires));
    let mut masked = vec![0; bytes as usize];
    let outcome = masks.mask(case.and, &case.table, case.order, &mut masked);
    ensure(outcome == Outcome::value(bytes), "masking refuses what the map accepts")?;
    let read_the_same = reads(&masked, &case.probes)?.iter().all(|&wire| one[wire] == other[wire]);
    ensure(read_the_same, "a probe reads different values in the two runs")?;
    ensure(free == free_share(masks, case)?, "the free share is another")?;

    let (mut tape, mut first, mut second) =
        (vec![255; mapped.len()], vec![2; one.len()], vec![2; one.len()]);
    let back = masks.map(
        case.and,
        &case.table,
        case.order,
        &case.second,
        &case.first,
        mapped,
        &case.probes,
        &mut tape,
        &mut first,
        &mut second,
    );
    ensure(back == Outcome::value(free), "the map back answers something else")?;
    ensure(tape == case.tape, "the map back does not give the tape")?;
    ensure(first == other && second == one, "the map back does not give the two runs")?;

    let encoded = 2 * usize::from(case.order) * case.first.len();
    check_run(masks, case, &masked, &case.first, cut(&case.tape, bits, encoded), one)?;
    check_run(masks, case, &masked, &case.second, cut(mapped, bits, encoded), other)
}

/// The smallest share that no probe of a map carries, by the marks call.
pub fn free_share(masks: &impl Masks, case: &MapCase) -> Result<u32, String> {
    let mut carried = [false; 32];
    for &probe in &case.probes {
        let outcome = masks.marks(case.and, &case.table, case.order, probe);
        ensure(outcome.number == 0, "the marks call refuses a probe of the map")?;
        let [first, second, ..] = outcome.values;
        carried[first as usize] = true;
        carried[second as usize] = true;
    }
    let free = (1..32).find(|&share| !carried[share as usize]);
    free.ok_or("every share is carried".into())
}

/// Checks one of the two runs against encoding, running and decoding, with the two parts of its
/// tape.
fn check_run(
    masks: &impl Masks,
    case: &MapCase,
    masked: &[u8],
    secrets: &[u8],
    (encoding, random): (Vec<u8>, Vec<u8>),
    run: &[u8],
) -> Result<(), String> {
    let n = 2 * usize::from(case.order) + 1;
    let outputs = usize::from(u16::from_le_bytes([case.table[4], case.table[5]]));
    let mut shares = vec![2; n * secrets.len()];
    let outcome = masks.encode(case.order, secrets, &encoding, &mut shares);
    ensure(outcome.number == 0, "encoding refuses what the map accepts")?;

    let (mut values, mut masked_outputs) = (vec![2; run.len()], vec![2; n * outputs]);
    let outcome = masks.run(masked, &shares, &random, &mut values, &mut masked_outputs);
    ensure(outcome.number == 0, "running refuses what the map accepts")?;
    ensure(values == run, "the map's run is not that of the masked table")?;

    let mut decoded = vec![2; outputs];
    let outcome = masks.decode(case.order, &masked_outputs, &mut decoded);
    ensure(outcome.number == 0, "decoding refuses the outputs")?;
    let gates = usize::from(u16::from_le_bytes([case.table[2], case.table[3]]));
    let (mut values, mut plain_outputs) = (vec![2; secrets.len() + gates], vec![2; outputs]);
    let outcome = masks.run(&case.table, secrets, &[], &mut values, &mut plain_outputs);
    ensure(outcome.number == 0, "running refuses the plain table")?;
    ensure(decoded == plain_outputs, "the outputs do not decode to those of the plain table")
}

/// Checks what was forecast of a table that 1 to 7 accept against the counts of its gates: it is
/// what they come to, and another table of the same counts, with its gates in another order and
/// other operands and outputs, has the same forecast.
pub fn check_counts(
    masks: &impl Masks,
    table: &[u8],
    order: u8,
    forecast: Outcome,
) -> Result<(), String> {
    let Circuit { inputs, gates, outputs } = Circuit::read(table);
    let (inputs, outputs) = (usize::from(inputs), outputs.len());
    let mut kinds: Vec<u8> = gates.iter().map(|gate| gate.0).collect();
    let counts = [NOT, XOR, AND, CONSTANT, OR]
        .map(|kind| kinds.iter().filter(|&&other| other == kind).count());
    ensure(
        forecast == by_counts(order, inputs, outputs, counts),
        "the forecast is not what the counts come to",
    )?;
    let mut rng = Rng::new(table.iter().map(|&byte| u64::from(byte)).sum());
    rng.shuffle(&mut kinds);
    let other = circuit(&mut rng, inputs, &kinds, outputs).bytes();
    ensure(
        forecast == masks.forecast(&other, order),
        "a table of the same counts has another forecast",
    )
}

/// The four figures, or 8, from the order, the inputs, the outputs and the NOTs, XORs, ANDs, constants
/// and ORs.
fn by_counts(order: u8, inputs: usize, outputs: usize, counts: [usize; 5]) -> Outcome {
    let t = usize::from(order);
    let n = 2 * t + 1;
    let pairs = n * (n - 1) / 2;
    let [nots, xors, ands, constants, ors] = counts;
    // An OR is an AND and three NOTs.
    let (nots, ands) = (nots + 3 * ors, ands + ors);
    let gates = nots + (xors + constants) * n + ands * (n * n + 5 * pairs);
    let wires = n * inputs + gates;
    if wires > MOST || n * outputs > MOST {
        return Outcome::refused(8, 0);
    }
    let figures = [n, wires, 2 * t * inputs + ands * pairs, 6 + 5 * gates + 2 * n * outputs];
    Outcome::accepted(figures.map(|figure| figure as u32))
}
