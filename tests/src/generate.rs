//! Generated cases: sound ones, ones with one or several flaws, and ones at the limits.

use crate::case::{Call, Case, MapCase};
use crate::circuit::{Circuit, Gate, constant, random};
use crate::model::{self, AND, And, CONSTANT, MOST, NOT, OR, RANDOM, XOR};
use crate::rng::Rng;

/// The kinds of a table to be masked.
pub const PLAIN_KINDS: [u8; 5] = [NOT, XOR, AND, CONSTANT, OR];
/// Those of any table.
pub const KINDS: [u8; 6] = [NOT, XOR, AND, RANDOM, CONSTANT, OR];

/// What can be wrong with a case. Being too large is not among them: see `near_limit`.
#[derive(Clone, Copy, PartialEq, Eq)]
enum Flaw {
    Table,
    Order,
    Count,
    Bit,
    Unused,
    TooManyProbes,
    Probe,
    Buffer,
}

/// The flaws of one case.
struct Flaws(Vec<Flaw>);

impl Flaws {
    /// None to four, of those that a call can have.
    fn new(rng: &mut Rng, possible: &[Flaw]) -> Self {
        let count = rng.pick(&[0, 0, 0, 0, 1, 1, 1, 2, 2, 3, 4]);
        Flaws((0..count).map(|_| rng.pick(possible)).collect())
    }

    fn count(&self, flaw: Flaw) -> usize {
        self.0.iter().filter(|&&other| other == flaw).count()
    }

    fn has(&self, flaw: Flaw) -> bool {
        self.count(flaw) > 0
    }
}

/// A case for a call.
pub fn generate(call: Call, rng: &mut Rng) -> Case {
    match call {
        Call::Check => check(rng),
        Call::Forecast => forecast(rng),
        Call::Mask(and) => mask(rng, and),
        Call::Encode => encode(rng),
        Call::Decode => decode(rng),
        Call::Run => run(rng),
        Call::Marks(and) => marks(rng, and),
        Call::Map(and) => Case::Map(map(rng, and)),
    }
}

fn check(rng: &mut Rng) -> Case {
    let flaws = Flaws::new(rng, &[Flaw::Table]);
    let circuit = any_circuit(rng, 500);
    Case::Check { table: table(rng, &circuit, &flaws) }
}

fn forecast(rng: &mut Rng) -> Case {
    let flaws = Flaws::new(rng, &[Flaw::Table, Flaw::Order]);
    let Plain { table, order, .. } = plain(rng, &flaws, 100);
    Case::Forecast { table, order }
}

fn mask(rng: &mut Rng, and: And) -> Case {
    let flaws = Flaws::new(rng, &[Flaw::Table, Flaw::Order, Flaw::Buffer]);
    let Plain { table, order, sizes, .. } = plain(rng, &flaws, 200);
    let [out] = buffers(rng, [sizes.bytes as usize], &flaws);
    Case::Mask { and, table, order, out }
}

fn encode(rng: &mut Rng) -> Case {
    const POSSIBLE: [Flaw; 5] = [Flaw::Order, Flaw::Count, Flaw::Bit, Flaw::Unused, Flaw::Buffer];
    let flaws = Flaws::new(rng, &POSSIBLE);
    let order = sound_order(rng);
    let n = 2 * usize::from(order) + 1;
    let count = match rng.below(200) {
        0 => near(rng, MOST / n),
        1..20 => rng.within(1, 100),
        _ => rng.below(6),
    };
    let mut secrets = rng.bits(count);
    let tape = spoil_with_tape(rng, &flaws, &mut [&mut secrets], (n - 1) * count);
    let [out] = buffers(rng, [n * secrets.len()], &flaws);
    Case::Encode { order: given_order(rng, order, &flaws), secrets, tape, out }
}

fn decode(rng: &mut Rng) -> Case {
    let flaws = Flaws::new(rng, &[Flaw::Order, Flaw::Count, Flaw::Bit, Flaw::Buffer]);
    let order = sound_order(rng);
    let n = 2 * usize::from(order) + 1;
    let count = match rng.below(200) {
        0 => near(rng, MOST),
        1 => near(rng, MOST / n) * n,
        2..20 => n * rng.within(1, 100),
        _ => n * rng.below(6),
    };
    let mut shares = rng.bits(count);
    spoil(rng, &flaws, &mut [&mut shares]);
    let [out] = buffers(rng, [shares.len() / n], &flaws);
    Case::Decode { order: given_order(rng, order, &flaws), shares, out }
}

fn run(rng: &mut Rng) -> Case {
    const POSSIBLE: [Flaw; 5] = [Flaw::Table, Flaw::Count, Flaw::Bit, Flaw::Unused, Flaw::Buffer];
    let flaws = Flaws::new(rng, &POSSIBLE);
    let circuit = any_circuit(rng, 500);
    let table = table(rng, &circuit, &flaws);
    let [inputs, gates, outputs] = sizes_of(&table, &circuit);
    let kinds = table.get(6..6 + gates).unwrap_or(&[]);
    let randoms = kinds.iter().filter(|&&kind| kind == RANDOM).count();
    let mut inputs = rng.bits(inputs);
    let [values, outputs] = buffers(rng, [inputs.len() + gates, outputs], &flaws);
    let random = spoil_with_tape(rng, &flaws, &mut [&mut inputs], randoms);
    Case::Run { table, inputs, random, values, outputs }
}

fn marks(rng: &mut Rng, and: And) -> Case {
    let flaws = Flaws::new(rng, &[Flaw::Table, Flaw::Order, Flaw::Probe]);
    let Plain { table, order, sizes, .. } = plain(rng, &flaws, 100);
    Case::Marks { and, table, order, wire: probe(rng, sizes.wires, flaws.has(Flaw::Probe)) }
}

fn map(rng: &mut Rng, and: And) -> MapCase {
    const POSSIBLE: [Flaw; 8] = [
        Flaw::Table,
        Flaw::Order,
        Flaw::Count,
        Flaw::Bit,
        Flaw::Unused,
        Flaw::TooManyProbes,
        Flaw::Probe,
        Flaw::Buffer,
    ];
    let flaws = Flaws::new(rng, &POSSIBLE);
    let Plain { table, order, sizes, inputs } = plain(rng, &flaws, 800);
    let mut first = rng.bits(inputs);
    let mut second = if rng.once_in(8) { first.clone() } else { rng.bits(inputs) };
    let (bits, wires) = (sizes.tape as usize, sizes.wires as usize);
    let tape = spoil_with_tape(rng, &flaws, &mut [&mut first, &mut second], bits);

    let most = usize::from(order).clamp(1, 15);
    let count = if flaws.has(Flaw::TooManyProbes) {
        most + rng.within(1, 3)
    } else if rng.once_in(3) {
        rng.below(most + 1)
    } else {
        most
    };
    let mut probes: Vec<u32> = (0..count).map(|_| probe(rng, sizes.wires, false)).collect();
    for _ in 0..flaws.count(Flaw::Probe).min(count) {
        probes[rng.below(count)] = probe(rng, sizes.wires, true);
    }
    let [mapped, one, other] = buffers(rng, [model::bytes_for(bits), wires, wires], &flaws);
    MapCase { and, table, order, first, second, tape, probes, mapped, one, other }
}

/// A plain table and an order, flawed or not, with the sizes that the rest of a case should have.
struct Plain {
    table: Vec<u8>,
    order: u8,
    sizes: model::Sizes,
    inputs: usize,
}

/// Once in `rarity`, the sizes are near a limit, and once there are some hundred gates.
fn plain(rng: &mut Rng, flaws: &Flaws, rarity: usize) -> Plain {
    let order = sound_order(rng);
    let circuit = match rng.below(rarity) {
        0 => near_limit(rng, order),
        1 => {
            let gates = rng.within(100, 1_000);
            let kinds: Vec<u8> = (0..gates).map(|_| rng.pick(&PLAIN_KINDS)).collect();
            circuit(rng, 3, &kinds, 3)
        }
        _ => {
            let most_gates = match order {
                1..4 => 10,
                4..8 => 5,
                _ => 3,
            };
            small_circuit(rng, most_gates, &PLAIN_KINDS)
        }
    };
    let table = table(rng, &circuit, flaws);
    let sizes = model::forecast(&table, order)
        .or_else(|_| model::forecast(&circuit.bytes(), order))
        .unwrap_or(model::Sizes { shares: 3, wires: 100, tape: 20, bytes: 100 });
    let [inputs, ..] = sizes_of(&table, &circuit);
    Plain { table, order: given_order(rng, order, flaws), sizes, inputs }
}

/// The three sizes that a table gives if it is sound, else those of the circuit it came from.
fn sizes_of(table: &[u8], circuit: &Circuit) -> [usize; 3] {
    match *table {
        [i0, i1, g0, g1, o0, o1, ..] if model::check(table).is_ok() => {
            [[i0, i1], [g0, g1], [o0, o1]].map(|field| u16::from_le_bytes(field).into())
        }
        _ => [circuit.inputs.into(), circuit.gates.len(), circuit.outputs.len()],
    }
}

/// An order from 1 to 15, low ones more often.
fn sound_order(rng: &mut Rng) -> u8 {
    match rng.below(100) {
        0..55 => 1,
        55..78 => 2,
        78..90 => 3,
        90..98 => rng.within(4, 14) as u8,
        _ => 15,
    }
}

fn given_order(rng: &mut Rng, order: u8, flaws: &Flaws) -> u8 {
    if flaws.has(Flaw::Order) { rng.pick(&[0, 16, 17, 31, 128, 241, 255]) } else { order }
}

/// The lengths of buffers into which so many bytes each are to be written: exact, longer or, as
/// often as the flaws say, too short.
fn buffers<const N: usize>(rng: &mut Rng, needs: [usize; N], flaws: &Flaws) -> [usize; N] {
    let mut lengths = needs.map(|need| match rng.below(4) {
        0 => need + rng.within(1, 40),
        1 => need + 1,
        _ => need,
    });
    for _ in 0..flaws.count(Flaw::Buffer) {
        let at = rng.below(N);
        lengths[at] =
            if rng.once_in(4) { rng.below(needs[at].max(1)) } else { needs[at].saturating_sub(1) };
    }
    lengths
}

/// A wire of the masked table or, if not sound, one beyond: also such that its low 16 bits are
/// those of a wire.
fn probe(rng: &mut Rng, wires: u32, beyond: bool) -> u32 {
    let wire = match rng.below(8) {
        0 => wires - 1,
        _ => rng.below(wires as usize) as u32,
    };
    if beyond {
        let large = rng.draw() as u32 | 0x8000_0000;
        rng.pick(&[wires, wires, wires + 1, 65_535, 65_536, 65_536 + wire, u32::MAX, large])
    } else {
        wire
    }
}

/// Spoils the counts and the bits of the parts that a call takes.
fn spoil(rng: &mut Rng, flaws: &Flaws, parts: &mut [&mut Vec<u8>]) {
    spoil_bits(rng, flaws, parts);
    spoil_counts(rng, flaws, parts);
}

/// The same where a call also takes a tape, which is drawn here, of so many bits.
fn spoil_with_tape(
    rng: &mut Rng,
    flaws: &Flaws,
    parts: &mut [&mut Vec<u8>],
    bits: usize,
) -> Vec<u8> {
    let mut tape = rng.tape(bits);
    for _ in 0..flaws.count(Flaw::Unused) {
        if let (Some(last), used @ 1..) = (tape.last_mut(), bits % 8) {
            *last |= 1 << rng.within(used, 7);
        }
    }
    spoil_bits(rng, flaws, parts);
    let mut all: Vec<&mut Vec<u8>> = parts.iter_mut().map(|part| &mut **part).collect();
    all.push(&mut tape);
    spoil_counts(rng, flaws, &mut all);
    tape
}

fn spoil_bits(rng: &mut Rng, flaws: &Flaws, parts: &mut [&mut Vec<u8>]) {
    for _ in 0..flaws.count(Flaw::Bit) {
        let at = rng.below(parts.len());
        if !parts[at].is_empty() {
            let position = rng.below(parts[at].len());
            parts[at][position] = rng.pick(&[2, 2, 3, 4, 127, 128, 254, 255]);
        }
    }
}

fn spoil_counts(rng: &mut Rng, flaws: &Flaws, parts: &mut [&mut Vec<u8>]) {
    for _ in 0..flaws.count(Flaw::Count) {
        let at = rng.below(parts.len());
        match rng.below(5) {
            0 => parts[at].push(1),
            1 => drop(parts[at].pop()),
            2 => parts[at].clear(),
            // Packed where it should not be, or the other way round.
            3 => {
                let bytes = rng.pick(&[model::bytes_for(parts[at].len()), 8 * parts[at].len()]);
                parts[at].resize(bytes, 0);
            }
            // From one part to another, so that the parts joined stay as long.
            _ => {
                if let Some(byte) = parts[at].pop() {
                    parts[rng.below(parts.len())].push(byte);
                }
            }
        }
    }
}

/// A number around a limit.
fn near(rng: &mut Rng, limit: usize) -> usize {
    limit - 2 + rng.pick(&[0, 1, 2, 2, 3, 3, 4])
}

/// A sound circuit with few inputs, gates and outputs.
fn small_circuit(rng: &mut Rng, most_gates: usize, kinds: &[u8]) -> Circuit {
    let inputs = if rng.once_in(10) { rng.within(1, 20) } else { rng.within(1, 3) };
    let outputs = if rng.once_in(10) { rng.within(1, 20) } else { rng.within(1, 3) };
    let gates = rng.below(most_gates + 1);
    // Now and then all gates are of one kind.
    let only = [rng.pick(kinds)];
    let kinds = if rng.once_in(4) { &only } else { kinds };
    let kinds: Vec<u8> = (0..gates).map(|_| rng.pick(kinds)).collect();
    circuit(rng, inputs, &kinds, outputs)
}

/// A sound circuit of given sizes and kinds; late wires are taken more often, and now and then one
/// wire as both operands.
pub fn circuit(rng: &mut Rng, inputs: usize, kinds: &[u8], outputs: usize) -> Circuit {
    fn earlier(rng: &mut Rng, wires: usize) -> u16 {
        let wire =
            if rng.once_in(2) { rng.below(wires) } else { wires - 1 - rng.below(wires.min(4)) };
        wire as u16
    }
    let mut gates: Vec<Gate> = Vec::with_capacity(kinds.len());
    for (g, &kind) in kinds.iter().enumerate() {
        let wires = inputs + g;
        gates.push(match kind {
            NOT => (NOT, earlier(rng, wires), 0),
            RANDOM => random(),
            CONSTANT => constant(rng.below(2) as u16),
            _ => {
                let left = earlier(rng, wires);
                (kind, left, if rng.once_in(8) { left } else { earlier(rng, wires) })
            }
        });
    }
    let wires = inputs + kinds.len();
    let outputs = (0..outputs).map(|_| earlier(rng, wires)).collect();
    Circuit { inputs: inputs as u16, gates, outputs }
}

/// A circuit with gates of all kinds; once in `rarity`, its sizes are near a limit.
fn any_circuit(rng: &mut Rng, rarity: usize) -> Circuit {
    if !rng.once_in(rarity) {
        return small_circuit(rng, 12, &KINDS);
    }
    let (few, many) = (rng.within(1, 5), near(rng, MOST));
    match rng.below(3) {
        // Many gates.
        0 => {
            let kinds: Vec<u8> = (few..many).map(|_| rng.pick(&KINDS)).collect();
            circuit(rng, few, &kinds, 3)
        }
        // Many inputs: no more than a field holds.
        1 => {
            let kinds: Vec<u8> = (0..few).map(|_| rng.pick(&KINDS)).collect();
            circuit(rng, (many - few).min(MOST), &kinds, 3)
        }
        // Many outputs.
        _ => {
            let kinds: Vec<u8> = (0..few).map(|_| rng.pick(&KINDS)).collect();
            circuit(rng, few, &kinds, many.min(MOST))
        }
    }
}

/// A plain circuit that is just not too large to be masked at an order, or just so.
fn near_limit(rng: &mut Rng, order: u8) -> Circuit {
    let n = 2 * usize::from(order) + 1;
    match rng.below(4) {
        // Masked outputs.
        0 => {
            let outputs = near(rng, MOST / n);
            circuit(rng, 2, &[XOR, NOT, AND, CONSTANT, OR], outputs)
        }
        // Masked inputs, of which a constant may take the place of one.
        1 => {
            let inputs = near(rng, MOST / n);
            let constants = rng.below(2);
            let kinds = [vec![CONSTANT; constants], vec![NOT; rng.below(n + 2)]].concat();
            circuit(rng, inputs - constants, &kinds, 2)
        }
        // Masked wires.
        _ => {
            let inputs = rng.within(1, 4);
            let wires = near(rng, MOST) - n * inputs;
            let kinds = filling(rng, n, wires);
            circuit(rng, inputs, &kinds, 2)
        }
    }
}

/// Kinds that become exactly so many masked wires: mostly those of ANDs and ORs, the rest those of
/// XORs and constants, and then NOTs.
fn filling(rng: &mut Rng, n: usize, wires: usize) -> Vec<u8> {
    let and = n * n + 5 * n * (n - 1) / 2;
    let (mut large, mut small) = ([(AND, and), (OR, and + 3)], [(XOR, n), (CONSTANT, n)]);
    rng.shuffle(&mut large);
    rng.shuffle(&mut small);
    let (mut kinds, mut rest) = (Vec::new(), wires);
    for [some, most] in [large, small] {
        for ((kind, cost), is_some) in [(some, true), (most, false)] {
            let fit = rest / cost;
            let count = if is_some { rng.below(fit + 1) } else { fit.saturating_sub(rng.below(3)) };
            kinds.resize(kinds.len() + count, kind);
            rest -= cost * count;
        }
    }
    kinds.resize(kinds.len() + rest, NOT);
    rng.shuffle(&mut kinds);
    kinds
}

/// The bytes of a circuit, damaged as often as the flaws say.
fn table(rng: &mut Rng, circuit: &Circuit, flaws: &Flaws) -> Vec<u8> {
    let mut table = circuit.bytes();
    for _ in 0..flaws.count(Flaw::Table) {
        damage(rng, &mut table, circuit);
    }
    table
}

/// Overwrites a two-byte field, if the table is long enough.
fn set_field(table: &mut [u8], at: usize, value: usize) {
    if let Some(field) = table.get_mut(at..at + 2) {
        field.copy_from_slice(&(value as u16).to_le_bytes());
    }
}

/// Damages a table that came from a circuit. What comes out may be sound again.
fn damage(rng: &mut Rng, table: &mut Vec<u8>, circuit: &Circuit) {
    let (inputs, gates) = (usize::from(circuit.inputs), circuit.gates.len());
    let (outputs, wires) = (circuit.outputs.len(), inputs + gates);
    let any = rng.below(65_536);
    match rng.below(10) {
        // One of the sizes.
        0 => {
            let (at, size, beside) =
                rng.pick(&[(0, inputs, gates), (2, gates, inputs), (4, outputs, 0)]);
            let limit = (MOST + 1).saturating_sub(beside);
            let sizes = [0, 0, 1, size + 1, size.wrapping_sub(1), MOST, limit, limit - 1, any];
            set_field(table, at, rng.pick(&sizes));
        }
        // A kind.
        1 if gates > 0 => {
            let byte = rng.pick(&[0, 1, 2, 3, 4, 5, 6, 6, 7, 128, 255]);
            if let Some(kind) = table.get_mut(6 + rng.below(gates)) {
                *kind = byte;
            }
        }
        // A random gate in place of another.
        2 if gates > 0 => {
            let g = rng.below(gates);
            if let Some(kind) = table.get_mut(6 + g) {
                *kind = RANDOM;
            }
            set_field(table, 6 + gates + 4 * g, 0);
            set_field(table, 6 + gates + 4 * g + 2, 0);
        }
        // A constant in place of another gate, mostly a bad one: by its value, by what is not used,
        // by both.
        3 if gates > 0 => {
            let g = rng.below(gates);
            if let Some(kind) = table.get_mut(6 + g) {
                *kind = CONSTANT;
            }
            let values = [0, 1, 1, 2, 3, 255, 256, 257, MOST, any];
            set_field(table, 6 + gates + 4 * g, rng.pick(&values));
            set_field(table, 6 + gates + 4 * g + 2, rng.pick(&[0, 0, 0, 1, 256, any]));
        }
        // An operand.
        4 | 5 if gates > 0 => {
            let g = rng.below(gates);
            let wire = inputs + g;
            let operands = [0, 1, wire - 1, wire, wire, wire + 1, MOST, any];
            let at = 6 + gates + 4 * g + rng.pick(&[0, 2]);
            set_field(table, at, rng.pick(&operands));
        }
        // An output.
        6 => {
            let at = 6 + 5 * gates + 2 * rng.below(outputs);
            set_field(table, at, rng.pick(&[0, wires - 1, wires, wires, wires + 1, MOST, any]));
        }
        // Truncated.
        7 => {
            let length = table.len();
            let shorter =
                [length.saturating_sub(1), length.saturating_sub(2), any % 8, any % (length + 1)];
            table.truncate(rng.pick(&shorter));
        }
        // Extended.
        8 => {
            let more = rng.pick(&[1, 2, 4, 5, 7]);
            table.extend((0..more).map(|_| rng.draw() as u8));
        }
        // Any byte.
        _ => {
            if !table.is_empty() {
                let at = rng.below(table.len());
                table[at] = rng.draw() as u8;
            }
        }
    }
}
