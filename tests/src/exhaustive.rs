//! Small circuits with all their tapes and all their secrets.

use std::collections::BTreeSet;
use std::iter::once;

use crate::case::{Case, MapCase};
use crate::circuit::{Circuit, Gate, and, constant, not, or, xor};
use crate::masks::{Masks, Outcome};
use crate::model::{And, bytes_for, reads};
use crate::properties::free_share;

/// Every circuit of one input with at most two gates and of two inputs with at most one gate,
/// and some of two inputs with several.
pub fn circuits() -> Vec<Circuit> {
    let mut all = Vec::new();
    for first in gates_on(1) {
        all.push(Circuit::new(1, &[first], &[1]));
        for second in gates_on(2) {
            all.push(Circuit::new(1, &[first, second], &[2, 1]));
        }
    }
    all.push(Circuit::new(1, &[], &[0]));
    all.push(Circuit::new(2, &[], &[1, 0, 1]));
    all.extend(gates_on(2).into_iter().map(|gate| Circuit::new(2, &[gate], &[2])));
    all.push(Circuit::new(2, &[and(0, 1), not(2)], &[3]));
    all.push(Circuit::new(2, &[not(0), not(2), and(3, 1)], &[4, 3]));
    all.push(Circuit::new(2, &[xor(0, 1), and(2, 1), xor(3, 0)], &[4]));
    all.push(Circuit::new(2, &[and(0, 1), and(0, 1), xor(2, 3)], &[4]));
    all.extend(with_ors_and_constants());
    all
}

/// Some with ORs and constants: ORs of NOTs and of ORs, NOTs, XORs and ANDs of ORs; gates of constants
/// alone, or of one and an input.
fn with_ors_and_constants() -> Vec<Circuit> {
    let of_constants = |gate| Circuit::new(1, &[constant(1), constant(0), gate], &[3, 1, 2]);
    let mut all: Vec<Circuit> = [xor(1, 2), and(2, 1), or(1, 2)].map(of_constants).into();
    all.push(Circuit::new(1, &[constant(1), constant(1), not(1), or(3, 0)], &[4, 2]));
    all.push(Circuit::new(2, &[or(0, 1), not(2)], &[3]));
    all.push(Circuit::new(2, &[not(0), not(1), or(2, 3), xor(4, 0)], &[5, 4]));
    all.push(Circuit::new(2, &[constant(1), xor(2, 0), or(3, 1)], &[4, 2]));
    all.push(Circuit::new(2, &[or(0, 1), or(2, 0)], &[3, 2]));
    all.push(Circuit::new(2, &[or(1, 0), and(2, 1)], &[3]));
    all.push(Circuit::new(2, &[constant(0), or(2, 1), and(3, 0), not(4)], &[5, 2]));
    all
}

/// Those with so few tape bits that all tapes can be run at order 2.
pub fn circuits_for_order_2() -> Vec<Circuit> {
    let one_gate = |inputs, gate| Circuit::new(inputs, &[gate], &[inputs]);
    vec![
        one_gate(1, not(0)),
        one_gate(1, and(0, 0)),
        one_gate(2, xor(0, 1)),
        one_gate(1, constant(1)),
        one_gate(1, or(0, 0)),
        Circuit::new(1, &[constant(1), not(1), or(0, 2)], &[3, 1]),
        Circuit::new(1, &[constant(0), xor(1, 0), constant(1), and(2, 3)], &[4, 3]),
    ]
}

/// Every gate on so many wires.
fn gates_on(wires: u16) -> Vec<Gate> {
    let mut gates: Vec<Gate> = (0..wires).map(not).chain([constant(0), constant(1)]).collect();
    for left in 0..wires {
        for right in 0..wires {
            gates.extend([xor(left, right), and(left, right), or(left, right)]);
        }
    }
    gates
}

/// The bits of a number, lowest first.
fn bits(number: usize, count: usize) -> Vec<u8> {
    (0..count).map(|at| (number >> at & 1) as u8).collect()
}

/// A tape of so many bits, of which the first is the number's lowest.
fn tape_of(number: usize, bits: usize) -> Vec<u8> {
    number.to_le_bytes()[..bytes_for(bits)].to_vec()
}

/// The number that a tape is of.
fn number(tape: &[u8]) -> usize {
    tape.iter().rev().fold(0, |number, &byte| number << 8 | usize::from(byte))
}

/// A circuit masked by an implementation, and its sizes.
struct Masked<'a, M> {
    masks: &'a M,
    and: And,
    plain: Vec<u8>,
    table: Vec<u8>,
    order: u8,
    shares: usize,
    wires: usize,
    tape: usize,
    inputs: usize,
    outputs: usize,
}

impl<'a, M: Masks> Masked<'a, M> {
    fn new(masks: &'a M, and: And, circuit: &Circuit, order: u8) -> Result<Self, String> {
        let plain = circuit.bytes();
        let Outcome { number: 0, values, .. } = masks.forecast(&plain, order) else {
            return Err("the forecast refuses".into());
        };
        let [shares, wires, tape, bytes] = values.map(|value| value as usize);
        let mut table = vec![0; bytes];
        if masks.mask(and, &plain, order, &mut table).number != 0 {
            return Err("masking refuses".into());
        }
        let (inputs, outputs) = (usize::from(circuit.inputs), circuit.outputs.len());
        Ok(Masked { masks, and, plain, table, order, shares, wires, tape, inputs, outputs })
    }

    fn secrets(&self) -> usize {
        1 << self.inputs
    }

    fn tapes(&self) -> usize {
        1 << self.tape
    }

    /// The wires that probes read.
    fn reads(&self, probes: &[u32]) -> Result<Vec<usize>, String> {
        Ok(reads(&self.table, probes)?)
    }

    /// The plain table's outputs for a secret.
    fn plain_outputs(&self, secret: &[u8]) -> Result<Vec<u8>, String> {
        let (mut values, mut outputs) = (vec![2; self.wires], vec![2; self.outputs]);
        match self.masks.run(&self.plain, secret, &[], &mut values, &mut outputs).number {
            0 => Ok(outputs),
            _ => Err("running refuses the plain table".into()),
        }
    }

    /// Runs every secret with every tape, by their numbers, and hands over the wire values.
    fn run_all(&self, mut take: impl FnMut(usize, usize, &[u8])) -> Result<(), String> {
        let mut values = vec![2; self.wires];
        for secret in 0..self.secrets() {
            let secret_bits = bits(secret, self.inputs);
            let plain = self.plain_outputs(&secret_bits)?;
            for tape in 0..self.tapes() {
                self.run(&secret_bits, tape, &plain, &mut values)?;
                take(secret, tape, &values);
            }
        }
        Ok(())
    }

    /// The wire values for a secret and the tape of a number, written into `values`; the outputs
    /// must decode to the plain ones.
    fn run(
        &self,
        secret: &[u8],
        tape: usize,
        plain: &[u8],
        values: &mut [u8],
    ) -> Result<(), String> {
        let mut shares = [2; 64];
        let mut outputs = [2; 64];
        let mut decoded = [2; 64];
        let (shares, outputs, decoded) = (
            &mut shares[..self.shares * self.inputs],
            &mut outputs[..self.shares * self.outputs],
            &mut decoded[..self.outputs],
        );
        let bits = (self.shares - 1) * self.inputs;
        let encoding = tape_of(tape & ((1 << bits) - 1), bits);
        let random = tape_of(tape >> bits, self.tape - bits);
        let accepted = self.masks.encode(self.order, secret, &encoding, shares).number == 0
            && self.masks.run(&self.table, shares, &random, values, outputs).number == 0
            && self.masks.decode(self.order, outputs, decoded).number == 0;
        if !accepted {
            return Err("encoding, running or decoding refuses".into());
        }
        if decoded != plain {
            return Err(format!(
                "the outputs do not decode to the plain ones: secrets {secret:?}, tape {tape:b}"
            ));
        }
        Ok(())
    }

    /// For each secret, a column of bits for each wire: its values, tape by tape.
    fn columns(&self) -> Result<Vec<Vec<Vec<u64>>>, String> {
        let mut columns =
            vec![vec![vec![0; self.tapes().div_ceil(64)]; self.wires]; self.secrets()];
        self.run_all(|secret, tape, values| {
            for (column, &value) in columns[secret].iter_mut().zip(values) {
                column[tape / 64] |= u64::from(value) << (tape % 64);
            }
        })?;
        Ok(columns)
    }

    /// Every choice among the wires that one probe reads: one alone, two, all.
    fn choices(&self) -> Result<BTreeSet<Vec<usize>>, String> {
        let mut choices = BTreeSet::new();
        for probe in 0..self.wires as u32 {
            let mut read = self.reads(&[probe])?;
            read.sort_unstable();
            read.dedup();
            for chosen in 1..1_usize << read.len() {
                let is_chosen = |&at: &usize| chosen >> at & 1 == 1;
                choices.insert((0..read.len()).filter(is_chosen).map(|at| read[at]).collect());
            }
        }
        Ok(choices)
    }
}

/// Runs the masked circuit on every secret and every tape, and checks for all lists of one probe
/// and, from order 2 on, of two, that each pattern of the values read is read as often for any secret
/// as for any other; and so is each pattern of some of them, such as the probed wires alone. Answers
/// the number of runs.
pub fn check_patterns(
    masks: &impl Masks,
    and: And,
    circuit: &Circuit,
    order: u8,
) -> Result<u64, String> {
    let masked = Masked::new(masks, and, circuit, order)?;
    let choices: Vec<Vec<usize>> = masked.choices()?.into_iter().collect();
    // For each secret and each choice of wires, the tapes for which all of them are 1.
    let mut ones = masked.columns()?;
    for columns in &mut ones {
        *columns = choices.iter().map(|choice| common(columns, choice)).collect();
    }

    // The counts of these tapes, and of those that two choices share, give those of all patterns.
    let together = |ones: &[Vec<u64>], left: usize, right: usize| -> u32 {
        ones[left].iter().zip(&ones[right]).map(|(l, r)| (l & r).count_ones()).sum()
    };
    for left in 0..choices.len() {
        for right in if order == 1 { left..left + 1 } else { left..choices.len() } {
            let count = together(&ones[0], left, right);
            if ones.iter().any(|ones| together(ones, left, right) != count) {
                let (left, right) = (&choices[left], &choices[right]);
                return Err(format!("wires {left:?} and {right:?} tell secrets apart"));
            }
        }
    }
    Ok((masked.secrets() * masked.tapes()) as u64)
}

/// Where all chosen columns have a 1.
fn common(columns: &[Vec<u64>], choice: &[usize]) -> Vec<u64> {
    let mut common = vec![u64::MAX; columns[0].len()];
    for &wire in choice {
        for (common, word) in common.iter_mut().zip(&columns[wire]) {
            *common &= word;
        }
    }
    common
}

/// Puts every map at order 1 to both implementations: all tapes, all pairs of secrets, no probe
/// and each single one. Checks that the free share is the smallest that the probe does not carry,
/// that the probe reads the same in both runs, output and pins, that the runs are those of the
/// masked table, that mapping back gives the tape, and that as many tapes give each pattern of the
/// values read with either secret; and compares the marks. Answers the number of maps.
pub fn check_maps(
    ours: &impl Masks,
    theirs: &impl Masks,
    and: And,
    circuit: &Circuit,
) -> Result<u64, String> {
    let masked = Masked::new(theirs, and, circuit, 1)?;
    let mut runs = vec![Vec::with_capacity(masked.tapes()); masked.secrets()];
    masked.run_all(|secret, _, values| runs[secret].push(values.to_vec()))?;
    for probe in once(None).chain((0..masked.wires as u32).map(Some)) {
        let marks = |masks: &dyn Masks| probe.map(|wire| masks.marks(and, &masked.plain, 1, wire));
        if marks(ours) != marks(theirs) {
            return Err(format!("the marks of wire {probe:?} differ"));
        }
        check_list(ours, &masked, &runs, probe.into_iter().collect())?;
    }
    let lists = masked.wires + 1;
    Ok((lists * masked.secrets().pow(2) * masked.tapes()) as u64)
}

/// Checks all maps with one probe list, given the wire values of each secret with each tape.
fn check_list<M: Masks>(
    ours: &impl Masks,
    masked: &Masked<M>,
    runs: &[Vec<Vec<u8>>],
    probes: Vec<u32>,
) -> Result<(), String> {
    let mut maps = Maps::new(ours, masked, runs, probes)?;
    let secrets = masked.secrets();
    let pairs = || (0..secrets).flat_map(|x| (0..secrets).map(move |y| (x, y)));
    let seen = pairs().map(|(x, y)| maps.check(x, y)).collect::<Result<Vec<_>, _>>()?;
    let probes = &maps.case.probes;
    for (x, y) in pairs() {
        let (there, back) = (&seen[x * secrets + y], &seen[y * secrets + x]);
        if there.patterns != back.patterns {
            return Err(format!("probes {probes:?} tell secrets {x} and {y} apart"));
        }
        let astray = |&tape: &usize| back.mapped[there.mapped[tape]] != tape;
        if let Some(tape) = (0..masked.tapes()).find(astray) {
            return Err(format!(
                "secrets {x} to {y}, tape {tape}, probes {probes:?}: mapping back leads astray"
            ));
        }
    }
    Ok(())
}

/// The maps with one probe list, and what each must be.
struct Maps<'a, O, M> {
    ours: &'a O,
    masked: &'a Masked<'a, M>,
    runs: &'a [Vec<Vec<u8>>],
    case: MapCase,
    reads: Vec<usize>,
    free_share: u32,
}

/// What was seen of the maps from one secret to another, for all tapes.
struct Seen {
    /// The number of the tape that each leads to.
    mapped: Vec<usize>,
    /// How many of the first runs give each pattern of the values read.
    patterns: [u32; 8],
}

impl<'a, O: Masks, M: Masks> Maps<'a, O, M> {
    fn new(
        ours: &'a O,
        masked: &'a Masked<'a, M>,
        runs: &'a [Vec<Vec<u8>>],
        probes: Vec<u32>,
    ) -> Result<Self, String> {
        let case = MapCase {
            and: masked.and,
            table: masked.plain.clone(),
            order: masked.order,
            first: Vec::new(),
            second: Vec::new(),
            tape: Vec::new(),
            probes,
            mapped: bytes_for(masked.tape),
            one: masked.wires,
            other: masked.wires,
        };
        let reads = masked.reads(&case.probes)?;
        let free_share = free_share(masked.masks, &case)?;
        Ok(Maps { ours, masked, runs, case, reads, free_share })
    }

    /// Takes all tapes from one secret to another.
    fn check(&mut self, x: usize, y: usize) -> Result<Seen, String> {
        let Masked { inputs, tape: bits_of_tape, .. } = *self.masked;
        self.case.first = bits(x, inputs);
        self.case.second = bits(y, inputs);
        let mut written = [Written::new(&self.case), Written::new(&self.case)];
        let mut seen = Seen { mapped: Vec::new(), patterns: [0; 8] };
        for tape in 0..self.masked.tapes() {
            self.case.tape = tape_of(tape, bits_of_tape);
            let told = |text| format!("{}\n{text}", Case::Map(self.case.clone()));
            let mapped = self.check_tape(x, y, tape, &mut written).map_err(told)?;
            seen.mapped.push(mapped);
            seen.patterns[self.pattern(&self.runs[x][tape])] += 1;
        }
        Ok(seen)
    }

    /// Puts the case, with one tape, to both implementations. Answers the number of the tape that it
    /// leads to.
    fn check_tape(
        &self,
        x: usize,
        y: usize,
        tape: usize,
        [written, expected]: &mut [Written; 2],
    ) -> Result<usize, &'static str> {
        let outcome = written.take(&self.case, self.masked.masks);
        if outcome != expected.take(&self.case, self.ours) || written != expected {
            return Err("the implementations differ");
        }
        if outcome != Outcome::value(self.free_share) {
            return Err("the free share is another");
        }
        let mapped = number(&written.mapped);
        if written.one != self.runs[x][tape] || written.other != self.runs[y][mapped] {
            return Err("the runs are not those of the masked table");
        }
        if self.pattern(&written.one) != self.pattern(&written.other) {
            return Err("the probe reads different values in the two runs");
        }
        Ok(mapped)
    }

    /// The pattern of the values read, of which there are at most three, as a number.
    fn pattern(&self, values: &[u8]) -> usize {
        self.reads.iter().fold(0, |pattern, &wire| pattern << 1 | usize::from(values[wire]))
    }
}

/// What a map writes.
#[derive(PartialEq, Eq)]
struct Written {
    mapped: Vec<u8>,
    one: Vec<u8>,
    other: Vec<u8>,
}

impl Written {
    fn new(case: &MapCase) -> Self {
        Written { mapped: vec![2; case.mapped], one: vec![2; case.one], other: vec![2; case.other] }
    }

    /// Puts a case to an implementation and takes what it writes.
    fn take(&mut self, case: &MapCase, masks: &impl Masks) -> Outcome {
        let Written { mapped, one, other } = self;
        mapped.fill(255);
        one.fill(2);
        other.fill(2);
        case.put_to(masks, mapped, one, other)
    }
}
