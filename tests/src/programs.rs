//! Tests of the programs that rt built: mask, forecast, sizes and show against the functions of this
//! crate, and the tables under examples/ through the programs and the archive.

use std::io::{Read, Write};
use std::path::{Path, PathBuf};
use std::process::{Child, ChildStdin, Command, Stdio};
use std::time::Duration;
use std::{fs, thread};

use compare::case::{Call, Case};
use compare::circuit::{Circuit, Gate, and, constant, not, or, random, xor};
use compare::examples::{and_chain, constants, or_chain, the_and};
use compare::generate::generate;
use compare::masks::{Masks, Outcome};
use compare::model::{self, And};
use compare::rng::Rng;
use compare::samples::{Sample, bits, samples};

use crate::ffi::Archive;
use crate::large;

const SEED: u64 = 3;
/// So many generated cases are put to each program.
const CASES: usize = 250;
const ORDERS: [u8; 5] = [1, 2, 3, 7, 15];

/// The folder that the repository is in.
pub fn root() -> PathBuf {
    Path::new(env!("CARGO_MANIFEST_DIR")).join("..")
}

/// Writes the tables under examples/ and their listings.
pub fn write_examples() -> Result<(), String> {
    for sample in samples() {
        let table = sample.circuit.bytes();
        write(&example_path(&sample, "table"), &table)?;
        write(&example_path(&sample, "txt"), model::listing(&table).as_bytes())?;
    }
    Ok(())
}

fn example_path(sample: &Sample, suffix: &str) -> PathBuf {
    root().join("examples").join(format!("{}.{suffix}", sample.name))
}

fn write(path: &Path, bytes: &[u8]) -> Result<(), String> {
    fs::write(path, bytes).map_err(|error| format!("{}: {error}", path.display()))
}

/// All tests of the programs, with a line for each group.
pub fn test() -> Result<(), String> {
    let [mask, forecast, sizes, show] = ["mask", "forecast", "sizes", "show"].map(Program::find);
    let (mask, forecast, sizes, show) = (mask?, forecast?, sizes?, show?);
    let mut rng = Rng::new(SEED);
    let plain = plain_inputs(&mut rng);
    let mut masks = vec![vec![]];
    // Every byte that names an AND.
    for (input, dom) in plain.iter().zip((1..=255).cycle()) {
        masks.extend([0, dom].map(|and| [&[and], &input[..]].concat()));
        forecast.expect(input, &Written::out(model::forecast_line(input)))?;
        sizes.expect(input, &Written::out(model::sizes_line(input)))?;
    }
    for input in &masks {
        mask.expect(input, &Written::of_mask(input))?;
    }
    println!("mask: {} inputs; forecast: {}", masks.len(), plain.len());
    let large = large::inputs(&mut rng);
    for input in &large {
        sizes.expect(input, &Written::out(model::sizes_line(input)))?;
    }
    println!("sizes: {} inputs", plain.len() + large.len());
    large::ensure_all(&large)?;
    let tables = tables(&mut rng);
    for table in &tables {
        show.expect(table, &Written::out(model::listing(table)))?;
    }
    let long = show.run(&vec![0; 458_747], usize::MAX)?;
    ensure(long.out.starts_with(b"refused "), "show does not refuse what is longer than a table")?;
    println!("show: {} inputs", tables.len() + 1);
    for size in [1, 3, 4_096] {
        in_pieces([&mask, &forecast, &sizes, &show], size)?;
    }
    println!("mask, forecast, sizes, show: inputs in pieces");
    for sample in samples() {
        test_example(&sample, &mask, &show)?;
    }
    println!(
        "examples: plain, and masked at orders {ORDERS:?} with either AND, over their whole truth \
         tables"
    );
    Ok(())
}

fn ensure(holds: bool, what: &str) -> Result<(), String> {
    if holds { Ok(()) } else { Err(format!("FAILED: {what}")) }
}

/// One input, one gate less than wires, the most outputs: no table is longer.
fn longest_table() -> Vec<u8> {
    let gates: Vec<Gate> = (0..65_534).map(not).collect();
    Circuit::new(1, &gates, &[65_534; 65_535]).bytes()
}

/// Inputs of the programs that take an order and a table: nothing, an order alone, every order,
/// what lies at a limit, and generated ones of which about half are refused.
fn plain_inputs(rng: &mut Rng) -> Vec<Vec<u8>> {
    let with = |order: u8, table: &[u8]| [&[order], table].concat();
    let mut inputs = vec![vec![], vec![1], vec![0], with(1, &longest_table())];
    inputs.push([inputs[3].as_slice(), &[0]].concat());
    inputs.push(vec![0; inputs[4].len()]);
    inputs.push(vec![1; 500_000]);
    inputs.extend((0..=255).map(|order| with(order, &the_and())));
    inputs.push(with(1, &and_chain(2_730)));
    inputs.push(with(1, &and_chain(2_731)));
    inputs.extend([2_427, 2_428].map(|ors| with(1, &or_chain(ors))));
    inputs.extend([21_844, 21_845].map(|count| with(1, &constants(count))));
    // As many NOTs as can be masked: 65,535 masked wires.
    let gates: Vec<Gate> = (0..65_526).map(not).collect();
    inputs.push(with(1, &Circuit::new(3, &gates, &[65_528]).bytes()));
    inputs.push(vec![1; 65_536]);
    inputs.push(vec![1; 65_537]);
    // A table of 65,535 and one of 65,536 bytes, both sound.
    let gates: Vec<Gate> = (0..13_105).map(not).collect();
    inputs.push(with(2, &Circuit::new(1, &gates, &[0, 1]).bytes()));
    let gates: Vec<Gate> = (0..13_104).map(not).collect();
    inputs.push(with(2, &Circuit::new(1, &gates, &[0, 1, 2, 3, 4]).bytes()));
    inputs.extend((0..CASES).map(|_| match generate(Call::Forecast, rng) {
        Case::Forecast { table, order } => with(order, &table),
        _ => unreachable!("a case is of the call that was asked for"),
    }));
    inputs
}

/// Tables for the show program, sound ones and others.
fn tables(rng: &mut Rng) -> Vec<Vec<u8>> {
    let mut tables = vec![vec![], vec![0; 5], the_and(), longest_table(), and_chain(2_730)];
    let gates = [constant(1), random(), or(0, 1), not(3), xor(4, 1), and(2, 5), constant(0)];
    tables.push(Circuit::new(1, &gates, &[7, 1]).bytes());
    tables.extend([or_chain(65_533), constants(65_534)]);
    tables.extend((0..CASES).map(|_| match generate(Call::Check, rng) {
        Case::Check { table } => table,
        _ => unreachable!("a case is of the call that was asked for"),
    }));
    tables
}

/// The same inputs through a pipe that is filled piece by piece.
fn in_pieces([mask, forecast, sizes, show]: [&Program; 4], size: usize) -> Result<(), String> {
    let table = if size > 100 { and_chain(2_730) } else { the_and() };
    let input = [&[1], &table[..]].concat();
    for and in And::BOTH {
        let input = [&[and as u8], &input[..]].concat();
        mask.expect_in_pieces(&input, size, &Written::of_mask(&input))?;
    }
    forecast.expect_in_pieces(&input, size, &Written::out(model::forecast_line(&input)))?;
    sizes.expect_in_pieces(&input, size, &Written::out(model::sizes_line(&input)))?;
    show.expect_in_pieces(&table, size, &Written::out(model::listing(&table)))
}

/// What a program wrote, or must write, to standard output and to standard error.
#[derive(PartialEq, Eq)]
struct Written {
    out: Vec<u8>,
    told: Vec<u8>,
}

impl Written {
    fn out(text: String) -> Self {
        Written { out: text.into_bytes(), told: Vec::new() }
    }

    fn of_mask(input: &[u8]) -> Self {
        match model::masked(input) {
            Ok(out) => Written { out, told: Vec::new() },
            Err(line) => Written { out: Vec::new(), told: line.into_bytes() },
        }
    }

    fn shown(&self) -> String {
        let start =
            |bytes: &[u8]| String::from_utf8_lossy(&bytes[..bytes.len().min(60)]).into_owned();
        format!(
            "{} bytes {:?}, on standard error {:?}",
            self.out.len(),
            start(&self.out),
            start(&self.told)
        )
    }
}

/// A program as rt built it, in its crate's folder.
struct Program {
    name: &'static str,
    path: PathBuf,
}

impl Program {
    fn find(name: &'static str) -> Result<Self, String> {
        let path = root().join(format!("crates/{name}/out/{name}"));
        if path.is_file() {
            Ok(Program { name, path })
        } else {
            Err(format!("FAILED: there is no {}: 'rt ci' builds it", path.display()))
        }
    }

    /// Runs the program on an input that comes in pieces of so many bytes.
    fn run(&self, input: &[u8], piece: usize) -> Result<Written, String> {
        let told = |error| format!("FAILED: {}: {error}", self.path.display());
        let mut child: Child = Command::new(&self.path)
            .stdin(Stdio::piped())
            .stdout(Stdio::piped())
            .stderr(Stdio::piped())
            .spawn()
            .map_err(told)?;
        let stdin = child.stdin.take().expect("it is piped");
        let mut stderr = child.stderr.take().expect("it is piped");
        let output = thread::scope(|scope| {
            scope.spawn(|| feed(stdin, input, piece));
            let told = scope.spawn(move || {
                let mut told = Vec::new();
                stderr.read_to_end(&mut told).map(|_| told)
            });
            let output = child.wait_with_output()?;
            let told = told.join().expect("reading does not panic")?;
            Ok((output, told))
        });
        let (output, told) = output.map_err(told)?;
        if output.status.code().is_none() {
            return Err(format!("FAILED: {} was killed: {}", self.name, output.status));
        }
        Ok(Written { out: output.stdout, told })
    }

    fn expect(&self, input: &[u8], expected: &Written) -> Result<(), String> {
        self.expect_in_pieces(input, usize::MAX, expected)
    }

    fn expect_in_pieces(
        &self,
        input: &[u8],
        piece: usize,
        expected: &Written,
    ) -> Result<(), String> {
        let written = self.run(input, piece)?;
        if written == *expected {
            return Ok(());
        }
        let start = &input[..input.len().min(40)];
        Err(format!(
            "FAILED: {} on {} bytes {start:02x?}\nexpected {}\n     got {}",
            self.name,
            input.len(),
            expected.shown(),
            written.shown()
        ))
    }
}

/// Writes an input piece by piece, and waits after each; a program that reads no further is fine.
fn feed(mut stdin: ChildStdin, input: &[u8], piece: usize) {
    for part in input.chunks(piece.max(1)) {
        if stdin.write_all(part).is_err() {
            return;
        }
        if part.len() < input.len() {
            thread::sleep(Duration::from_millis(3));
        }
    }
}

/// An example: its files are those of the generator, show prints its listing, and plain and
/// masked it computes what it says.
fn test_example(sample: &Sample, mask: &Program, show: &Program) -> Result<(), String> {
    let table = sample.circuit.bytes();
    for (suffix, expected) in
        [("table", table.clone()), ("txt", model::listing(&table).into_bytes())]
    {
        let path = example_path(sample, suffix);
        let found = fs::read(&path).map_err(|error| format!("{}: {error}", path.display()))?;
        ensure(found == expected, &format!("{} is not what it is made from", path.display()))?;
    }
    show.expect(&table, &Written::out(model::listing(&table)))?;
    let inputs = usize::from(sample.circuit.inputs);
    let mut rng = Rng::new(SEED);
    for x in 0..1 << inputs {
        let expected = bits((sample.truth)(x), sample.circuit.outputs.len());
        let outputs = run(&table, &bits(x, inputs), &[], expected.len())?;
        ensure(outputs == expected, &format!("{} of {x}", sample.name))?;
    }
    for (and, order) in And::BOTH.into_iter().flat_map(|and| ORDERS.map(|order| (and, order))) {
        let input = [&[and as u8, order], &table[..]].concat();
        mask.expect(&input, &Written::of_mask(&input))?;
        // The S-box of AES does not fit at the largest order.
        let Ok(masked) = model::masked(&input) else { continue };
        for x in 0..1 << inputs {
            let expected = bits((sample.truth)(x), sample.circuit.outputs.len());
            let outputs = run_masked(&mut rng, &masked, order, &bits(x, inputs), expected.len())?;
            let what = format!("{} of {x}, masked at order {order}, {}", sample.name, and.name());
            ensure(outputs == expected, &what)?;
        }
    }
    Ok(())
}

/// The outputs of a table, from the archive.
fn run(table: &[u8], inputs: &[u8], random: &[u8], count: usize) -> Result<Vec<u8>, String> {
    let (mut values, mut outputs) = (vec![2; 65_535], vec![2; count]);
    let outcome = Archive.run(table, inputs, random, &mut values, &mut outputs);
    ensure(outcome.number == 0, "running refuses an example")?;
    Ok(outputs)
}

/// The decoded outputs of a masked table on secrets, with a tape drawn for it, from the archive.
fn run_masked(
    rng: &mut Rng,
    masked: &[u8],
    order: u8,
    secrets: &[u8],
    count: usize,
) -> Result<Vec<u8>, String> {
    let n = 2 * usize::from(order) + 1;
    let gates = usize::from(u16::from_le_bytes([masked[2], masked[3]]));
    let randoms = masked[6..6 + gates].iter().filter(|&&kind| kind == model::RANDOM).count();
    let mut shares = vec![2; n * secrets.len()];
    let outcome = Archive.encode(order, secrets, &rng.tape((n - 1) * secrets.len()), &mut shares);
    ensure(outcome.number == 0, "encoding refuses an example")?;
    let outputs = run(masked, &shares, &rng.tape(randoms), n * count)?;
    let mut decoded = vec![2; count];
    let outcome = Archive.decode(order, &outputs, &mut decoded);
    ensure(outcome == Outcome::value(count as u32), "decoding refuses an example")?;
    Ok(decoded)
}
