//! Measures every call of the archive libmasks_c.a against the separate implementation of tests/,
//! and against copying what the call reads and writes: the same inputs, all built for release, in
//! one run.
//!
//!     bench measure FILE     measures, and writes the rows to a file
//!     bench report FILE..    prints the table of rows measured in one layout or several
//!     bench stack            prints how much stack each call of the archive takes
//!
//! All are called through the same trait on slices, with buffers that are lent once and used
//! again; none is inlined into the loop that measures it. A size is measured on as many different
//! inputs as make up the largest size together, in turn, so that the processor cannot learn a small
//! one by heart. Before anything is measured, the archive and the separate implementation must
//! answer and write the same.

mod clock;
mod copying;
#[path = "../../tests/src/ffi.rs"]
mod ffi;
mod layout;
mod load;
mod report;
mod stack;

use std::hint::black_box;
use std::iter::repeat_with;
use std::process::ExitCode;
use std::{env, fs};

use compare::examples::and_chain;
use compare::generate::{KINDS, PLAIN_KINDS};
use compare::masks::{Masks, Model, Outcome};
use compare::model::{AND, NOT, RANDOM, XOR};
use compare::rng::Rng;

use clock::{Gauge, Times, race};
use copying::Copying;
use ffi::Archive;
use load::{Mapping, Masking, Running, any_table, plain_table};
use report::{FORECAST_AGAINST_CHECK, MAP_AGAINST_RUNS, Row};

const SEED: u64 = 1;
const ORDERS: [u8; 4] = [1, 2, 7, 15];
const SIZES: [usize; 3] = [1_000, 8_000, 65_000];
const MOST_WIRES: usize = 65_535;
/// The plain wires of the tables on which a forecast is compared with a check.
const PLAIN_SIZES: [usize; 3] = [1_000, 8_000, MOST_WIRES];

fn main() -> ExitCode {
    layout::keep();
    let arguments: Vec<String> = env::args().skip(1).collect();
    let result = match &arguments[..] {
        [word, file] if word == "measure" => measure_all(file),
        [word, files @ ..] if word == "report" => report(files),
        [word] if word == "stack" => {
            print_stack();
            Ok(())
        }
        _ => {
            Err("usage: bench measure FILE\n       bench report FILE..\n       bench stack".into())
        }
    };
    match result {
        Ok(()) => ExitCode::SUCCESS,
        Err(text) => {
            eprintln!("{text}");
            ExitCode::FAILURE
        }
    }
}

fn measure_all(file: &str) -> Result<(), String> {
    let rows = all_rows(race);
    let lines: String = rows.iter().map(|row| format!("{row}\n")).collect();
    fs::write(file, lines).map_err(|error| format!("{file}: {error}"))
}

fn report(files: &[String]) -> Result<(), String> {
    let read = |file: &String| {
        let text = fs::read_to_string(file).map_err(|error| format!("{file}: {error}"))?;
        text.lines().map(str::parse).collect()
    };
    let layouts: Vec<Vec<Row>> = files.iter().map(read).collect::<Result<_, String>>()?;
    report::print(&report::combined(&layouts)?, layouts.len());
    Ok(())
}

/// A line for each call with the most stack that it takes.
fn print_stack() {
    println!("call              ours      Rust  bytes of stack");
    let rows = all_rows(stack::taken);
    const CALLS: [&str; 11] = [
        "check",
        "forecast",
        "mask",
        "run",
        "marks",
        "encode",
        "decode",
        "map",
        "mask DOM",
        "marks DOM",
        "map DOM",
    ];
    for call in CALLS {
        let of_call = rows.iter().filter(|row| row.call.split(',').next() == Some(call));
        let most = |stack: fn(&Row) -> f64| of_call.clone().map(stack).fold(0.0, f64::max);
        let (ours, theirs) = (most(|row| row.times.ours), most(|row| row.times.theirs));
        println!("{call:<13} {ours:>8} {theirs:>9}");
    }
}

/// All that is measured, by one gauge.
fn all_rows(gauge: Gauge) -> Vec<Row> {
    let mut rng = Rng::new(SEED);
    let mut rows = sized(gauge, &mut rng);
    rows.extend(largest(gauge, &mut rng));
    rows.extend(plain(gauge, &mut rng));
    rows.extend(all_kinds(gauge, &mut rng));
    rows
}

/// Each call at each order and size.
fn sized(gauge: Gauge, rng: &mut Rng) -> Vec<Row> {
    let maskings: Vec<Vec<Masking>> = ORDERS
        .iter()
        .flat_map(|&order| SIZES.map(|size| (order, size)))
        .map(|(order, size)| inputs_of(size, || masking(rng, order, size, &[NOT, XOR, AND])))
        .collect();
    let mut rows = Vec::new();
    let mut on_maskings = |call, measured: fn(Gauge, &[Masking]) -> Times| {
        rows.extend(
            maskings
                .iter()
                .map(|of_a_size| masking_row(call, of_a_size, measured(gauge, of_a_size))),
        );
    };
    on_maskings("check", |gauge, maskings| check(gauge, &masked(maskings)));
    on_maskings("forecast", forecast);
    on_maskings("mask", mask);
    on_maskings("run", |gauge, maskings| run(gauge, &masked(maskings)));
    on_maskings("marks", marks);
    on_maskings("map", map);
    on_maskings(MAP_AGAINST_RUNS, map_and_two_runs);
    for call in [encode, decode] {
        for order in ORDERS {
            rows.extend(SIZES.map(|size| call(gauge, rng, order, size)));
        }
    }
    rows
}

fn masked(maskings: &[Masking]) -> Vec<&Running> {
    maskings.iter().map(|masking| &masking.masked).collect()
}

/// As many inputs of a size as make up the largest size together.
fn inputs_of<T>(size: usize, input: impl FnMut() -> T) -> Vec<T> {
    repeat_with(input).take(MOST_WIRES / size).collect()
}

fn masking(rng: &mut Rng, order: u8, most_wires: usize, kinds: &[u8]) -> Masking {
    let plain = plain_table(rng, order, most_wires, kinds);
    Masking::new(rng, plain, order)
}

/// The row of a call on maskings at one order; its wires are those of the first, as all have
/// about as many.
fn masking_row(call: &str, maskings: &[Masking], times: Times) -> Row {
    Row::new(call, Some(maskings[0].order), maskings[0].wires(), times)
}

/// The largest tables.
fn largest(gauge: Gauge, rng: &mut Rng) -> Vec<Row> {
    let mixed = any_table(rng, MOST_WIRES, &[NOT, XOR, AND, RANDOM]);
    let ands = any_table(rng, MOST_WIRES, &[AND]);
    let mut rows = Vec::new();
    for (name, table) in [("mixed", mixed), ("ANDs", ands)] {
        let running = Running::new(rng, table);
        rows.push(Row::new(
            &format!("check, {name}"),
            None,
            running.wires,
            check(gauge, &[&running]),
        ));
        rows.push(Row::new(&format!("run, {name}"), None, running.wires, run(gauge, &[&running])));
    }
    // 8 inputs and 65,511 NOTs are 65,535 wires at order 1.
    for (name, plain) in [("ANDs", and_chain(2_730)), ("NOTs", any_table(rng, 8 + 65_511, &[NOT]))]
    {
        let maskings = [Masking::new(rng, plain, 1)];
        rows.push(masking_row(&format!("mask, {name}"), &maskings, mask(gauge, &maskings)));
        rows.push(masking_row(&format!("map, {name}"), &maskings, map(gauge, &maskings)));
    }
    rows
}

/// A check and a forecast at order 1 of the same plain tables, whose NOTs, XORs and ANDs come
/// in a random order: each against the separate implementation, then one against the other. Tables
/// that are too large to be masked are refused, but only once all is checked and counted.
fn plain(gauge: Gauge, rng: &mut Rng) -> Vec<Row> {
    let sizes = PLAIN_SIZES
        .map(|wires| (wires, inputs_of(wires, || any_table(rng, wires, &[NOT, XOR, AND]))));
    let of_each_size = |call, order, measured: fn(Gauge, &[Vec<u8>]) -> Times| {
        sizes
            .each_ref()
            .map(|(wires, tables)| Row::new(call, order, *wires, measured(gauge, tables)))
    };
    let rows = [
        of_each_size("plain check", None, plain_check),
        of_each_size("plain forecast", Some(1), plain_forecast),
        of_each_size(FORECAST_AGAINST_CHECK, Some(1), forecast_and_check),
    ];
    rows.into_iter().flatten().collect()
}

/// Tables with gates of all kinds, in a random order: of all six, and of the five of plain tables; those
/// plain ones at each order whose masked tables have the largest size, and a plain one of that size.
/// At last the calls with the DOM AND.
fn all_kinds(gauge: Gauge, rng: &mut Rng) -> Vec<Row> {
    let mut rows = Vec::new();
    let table = any_table(rng, MOST_WIRES, &KINDS);
    let running = Running::new(rng, table);
    rows.push(Row::new("check, 6 kinds", None, running.wires, check(gauge, &[&running])));
    rows.push(Row::new("run, 6 kinds", None, running.wires, run(gauge, &[&running])));
    let plain = [any_table(rng, MOST_WIRES, &PLAIN_KINDS)];
    rows.push(Row::new("plain check, 5", None, MOST_WIRES, plain_check(gauge, &plain)));
    rows.push(Row::new("plain forecast, 5", Some(1), MOST_WIRES, plain_forecast(gauge, &plain)));
    let maskings = ORDERS.map(|order| [masking(rng, order, SIZES[2], &PLAIN_KINDS)]);
    let mut on_maskings = |call, measured: fn(Gauge, &[Masking]) -> Times| {
        rows.extend(maskings.iter().map(|one| masking_row(call, one, measured(gauge, one))));
    };
    on_maskings("check, 5 kinds", |gauge, maskings| check(gauge, &masked(maskings)));
    on_maskings("forecast, 5 kinds", forecast);
    on_maskings("mask, 5 kinds", mask);
    on_maskings("run, 5 kinds", |gauge, maskings| run(gauge, &masked(maskings)));
    on_maskings("marks, 5 kinds", marks);
    on_maskings("map, 5 kinds", map);
    rows.extend(dom(gauge, rng, maskings.into_iter().flatten().collect()));
    rows
}

/// The calls with the DOM AND, on the largest table of ANDs and on the plain tables of all kinds.
fn dom(gauge: Gauge, rng: &mut Rng, all_kinds: Vec<Masking>) -> Vec<Row> {
    let ands = [Masking::new(rng, and_chain(2_730), 1).with_dom()];
    let all_kinds: Vec<Masking> = all_kinds.into_iter().map(Masking::with_dom).collect();
    let mut rows = Vec::new();
    let mut on = |call, maskings: &[Masking], measured: fn(Gauge, &[Masking]) -> Times| {
        rows.extend(maskings.chunks(1).map(|one| masking_row(call, one, measured(gauge, one))));
    };
    on("mask DOM, ANDs", &ands, mask);
    on("map DOM, ANDs", &ands, map);
    on("mask DOM, 5", &all_kinds, mask);
    on("marks DOM, 5", &all_kinds, marks);
    on("map DOM, 5", &all_kinds, map);
    rows
}

fn plain_check(gauge: Gauge, tables: &[Vec<u8>]) -> Times {
    measure(gauge, tables, |_| [], |masks, table, []| masks.check(table))
}

fn plain_forecast(gauge: Gauge, tables: &[Vec<u8>]) -> Times {
    measure_answers(gauge, tables, &[0, 8], |_| [], |masks, table, []| masks.forecast(table, 1))
}

/// The archive's forecast, against its check, and the copying of a table.
fn forecast_and_check(gauge: Gauge, tables: &[Vec<u8>]) -> Times {
    let copying = Copying::new();
    gauge(
        tables.len(),
        &mut || sweep(&Archive, tables, &mut [], |masks, table, []| masks.forecast(table, 1)),
        &mut || sweep(&Archive, tables, &mut [], |masks, table, []| masks.check(table)),
        &mut || sweep(&copying, tables, &mut [], |masks, table, []| masks.forecast(table, 1)),
    )
}

/// Measures a call that is not refused.
fn measure<T, const N: usize>(
    gauge: Gauge,
    inputs: &[T],
    lengths: impl Fn(&T) -> [usize; N],
    call: impl Fn(&dyn Masks, &T, &mut [Vec<u8>; N]) -> Outcome,
) -> Times {
    measure_answers(gauge, inputs, &[0], lengths, call)
}

/// Measures a call on several inputs in turn, once both have answered one of these numbers, and
/// have answered and written the same, on each. The call writes into buffers of the lengths that an
/// input asks for.
fn measure_answers<T, const N: usize>(
    gauge: Gauge,
    inputs: &[T],
    numbers: &[u8],
    lengths: impl Fn(&T) -> [usize; N],
    call: impl Fn(&dyn Masks, &T, &mut [Vec<u8>; N]) -> Outcome,
) -> Times {
    for input in inputs {
        let mut our_buffers = lent(lengths(input));
        let mut their_buffers = our_buffers.clone();
        let ours = call(&Archive, input, &mut our_buffers);
        let theirs = call(&Model, input, &mut their_buffers);
        assert!(numbers.contains(&ours.number), "refused by {}", ours.number);
        assert!(ours == theirs && our_buffers == their_buffers, "the results differ");
    }
    let mut our_buffers = lent(longest(inputs.iter().map(&lengths)));
    let (mut their_buffers, mut copies) = (our_buffers.clone(), our_buffers.clone());
    let copying = Copying::new();
    gauge(
        inputs.len(),
        &mut || sweep(&Archive, inputs, &mut our_buffers, &call),
        &mut || sweep(&Model, inputs, &mut their_buffers, &call),
        &mut || sweep(&copying, inputs, &mut copies, &call),
    )
}

/// The call on each input in turn.
fn sweep<T, const N: usize>(
    masks: &dyn Masks,
    inputs: &[T],
    buffers: &mut [Vec<u8>; N],
    call: impl Fn(&dyn Masks, &T, &mut [Vec<u8>; N]) -> Outcome,
) {
    for input in inputs {
        black_box(call(masks, black_box(input), black_box(buffers)));
    }
}

/// Buffers of these lengths.
fn lent<const N: usize>(lengths: [usize; N]) -> [Vec<u8>; N] {
    lengths.map(|length| vec![2; length])
}

/// The longest of each length.
fn longest<const N: usize>(all: impl Iterator<Item = [usize; N]>) -> [usize; N] {
    all.fold([0; N], |longest, lengths| std::array::from_fn(|at| longest[at].max(lengths[at])))
}

fn check(gauge: Gauge, runnings: &[&Running]) -> Times {
    measure(gauge, runnings, |_| [], |masks, running, []| masks.check(&running.table))
}

fn forecast(gauge: Gauge, maskings: &[Masking]) -> Times {
    measure(
        gauge,
        maskings,
        |_| [],
        |masks, masking, []| masks.forecast(&masking.plain, masking.order),
    )
}

fn mask(gauge: Gauge, maskings: &[Masking]) -> Times {
    measure(
        gauge,
        maskings,
        |masking| [masking.sizes.bytes as usize],
        |masks, masking, [out]| masks.mask(masking.and, &masking.plain, masking.order, out),
    )
}

fn run(gauge: Gauge, runnings: &[&Running]) -> Times {
    measure(
        gauge,
        runnings,
        |running| run_lengths(running),
        |masks, running, buffers| run_once(masks, running, buffers),
    )
}

fn run_lengths(running: &Running) -> [usize; 2] {
    [running.wires, running.outputs]
}

fn run_once(masks: &dyn Masks, running: &Running, [values, outputs]: &mut [Vec<u8>; 2]) -> Outcome {
    let Running { table, inputs, random, .. } = running;
    masks.run(table, inputs, random, values, outputs)
}

/// The marks of the last wire, which is found last.
fn marks(gauge: Gauge, maskings: &[Masking]) -> Times {
    measure(
        gauge,
        maskings,
        |_| [],
        |masks, masking, []| {
            let Masking { and, plain, order, sizes, .. } = masking;
            masks.marks(*and, plain, *order, sizes.wires - 1)
        },
    )
}

/// As many secrets as have at most so many shares.
fn encode(gauge: Gauge, rng: &mut Rng, order: u8, most_shares: usize) -> Row {
    let n = 2 * usize::from(order) + 1;
    let count = most_shares / n;
    let inputs = inputs_of(most_shares, || (rng.bits(count), rng.tape((n - 1) * count)));
    let times = measure(
        gauge,
        &inputs,
        |_| [n * count],
        |masks, (secrets, tape), [out]| masks.encode(order, secrets, tape, out),
    );
    Row::new("encode", Some(order), n * count, times)
}

/// As many shares as `encode` writes.
fn decode(gauge: Gauge, rng: &mut Rng, order: u8, most_shares: usize) -> Row {
    let n = 2 * usize::from(order) + 1;
    let count = most_shares / n;
    let inputs = inputs_of(most_shares, || rng.bits(n * count));
    let times = measure(
        gauge,
        &inputs,
        |_| [count],
        |masks, shares, [out]| masks.decode(order, shares, out),
    );
    Row::new("decode", Some(order), n * count, times)
}

fn map(gauge: Gauge, maskings: &[Masking]) -> Times {
    measure(gauge, maskings, map_lengths, map_once)
}

fn map_lengths(masking: &Masking) -> [usize; 3] {
    [masking.mapping.tape.len(), masking.wires(), masking.wires()]
}

fn map_once(
    masks: &dyn Masks,
    masking: &Masking,
    [mapped, one, other]: &mut [Vec<u8>; 3],
) -> Outcome {
    let Masking { and, plain, order, mapping, .. } = masking;
    let Mapping { first, second, tape, probes } = mapping;
    masks.map(*and, plain, *order, first, second, tape, probes, mapped, one, other)
}

/// The archive's map, against two of its runs of the masked table, and the map's copying.
fn map_and_two_runs(gauge: Gauge, maskings: &[Masking]) -> Times {
    let mut map_buffers = lent(longest(maskings.iter().map(map_lengths)));
    let mut copies = map_buffers.clone();
    let mut run_buffers = lent(longest(masked(maskings).into_iter().map(run_lengths)));
    let copying = Copying::new();
    gauge(
        maskings.len(),
        &mut || sweep(&Archive, maskings, &mut map_buffers, map_once),
        &mut || sweep(&Archive, maskings, &mut run_buffers, run_twice),
        &mut || sweep(&copying, maskings, &mut copies, map_once),
    )
}

fn run_twice(masks: &dyn Masks, masking: &Masking, buffers: &mut [Vec<u8>; 2]) -> Outcome {
    run_once(masks, &masking.masked, buffers);
    run_once(masks, &masking.masked, buffers)
}
