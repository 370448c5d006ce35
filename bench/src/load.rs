//! What the calls are given: tables of chosen sizes, bits, packed tapes and probes, all from one
//! seed.

use compare::circuit::{Circuit, Gate, constant, random};
use compare::model::{self, And, CONSTANT, NOT, OR, RANDOM, XOR};
use compare::rng::Rng;

/// The inputs and outputs of every generated table.
const INPUTS: usize = 8;
const OUTPUTS: usize = 8;

/// How many masked wires a gate becomes with n shares.
fn cost(kind: u8, n: usize) -> usize {
    match kind {
        NOT => 1,
        XOR | CONSTANT => n,
        OR => n * n + 5 * n * (n - 1) / 2 + 3,
        _ => n * n + 5 * n * (n - 1) / 2,
    }
}

fn circuit(rng: &mut Rng, inputs: usize, kinds: &[u8]) -> Vec<u8> {
    let mut gates: Vec<Gate> = Vec::with_capacity(kinds.len());
    for (g, &kind) in kinds.iter().enumerate() {
        let mut earlier = || rng.below(inputs + g) as u16;
        gates.push(match kind {
            NOT => (NOT, earlier(), 0),
            RANDOM => random(),
            CONSTANT => constant(rng.below(2) as u16),
            _ => (kind, earlier(), earlier()),
        });
    }
    let outputs = (0..OUTPUTS).map(|_| rng.below(inputs + kinds.len()) as u16).collect();
    Circuit { inputs: inputs as u16, gates, outputs }.bytes()
}

/// A plain table, as many gates of each of the given kinds as of another, whose masked table has at
/// most so many wires: the next gate drawn that still fits, until not even an XOR does.
pub fn plain_table(rng: &mut Rng, order: u8, most_wires: usize, plain_kinds: &[u8]) -> Vec<u8> {
    let n = 2 * usize::from(order) + 1;
    let mut room = most_wires - n * INPUTS;
    let mut kinds = Vec::new();
    while room >= n {
        let kind = rng.pick(plain_kinds);
        if cost(kind, n) <= room {
            room -= cost(kind, n);
            kinds.push(kind);
        }
    }
    circuit(rng, INPUTS, &kinds)
}

/// A table of so many wires whose gates are of the given kinds, as many of each.
pub fn any_table(rng: &mut Rng, wires: usize, kinds: &[u8]) -> Vec<u8> {
    let kinds: Vec<u8> = (INPUTS..wires).map(|_| rng.pick(kinds)).collect();
    circuit(rng, INPUTS, &kinds)
}

/// A table with what it takes to run it.
pub struct Running {
    pub table: Vec<u8>,
    pub inputs: Vec<u8>,
    pub random: Vec<u8>,
    pub wires: usize,
    pub outputs: usize,
}

impl Running {
    pub fn new(rng: &mut Rng, table: Vec<u8>) -> Self {
        let field = |at: usize| usize::from(u16::from_le_bytes([table[at], table[at + 1]]));
        let (inputs, gates, outputs) = (field(0), field(2), field(4));
        let randoms = table[6..6 + gates].iter().filter(|&&kind| kind == RANDOM).count();
        let (inputs, random) = (rng.bits(inputs), rng.tape(randoms));
        Running { wires: inputs.len() + gates, outputs, inputs, random, table }
    }
}

/// A plain table at an order, its masked table with what it takes to run it, and a map. The AND is
/// document 01's, or the DOM AND.
pub struct Masking {
    pub and: And,
    pub plain: Vec<u8>,
    pub order: u8,
    pub sizes: model::Sizes,
    pub masked: Running,
    pub mapping: Mapping,
}

fn masked_table(and: And, plain: &[u8], order: u8, sizes: &model::Sizes) -> Vec<u8> {
    let mut table = vec![0; sizes.bytes as usize];
    model::mask(and, plain, order, &mut table).expect("the buffer is as long as forecast");
    table
}

/// What a map takes beside the table and the order: the first secrets, the second ones, a tape,
/// and as many probes as the order allows.
pub struct Mapping {
    pub first: Vec<u8>,
    pub second: Vec<u8>,
    pub tape: Vec<u8>,
    pub probes: Vec<u32>,
}

impl Masking {
    pub fn new(rng: &mut Rng, plain: Vec<u8>, order: u8) -> Self {
        let sizes = model::forecast(&plain, order).expect("the table can be masked");
        let masked = Running::new(rng, masked_table(And::Isw, &plain, order, &sizes));
        let inputs = masked.inputs.len() / sizes.shares as usize;
        let mapping = Mapping {
            first: rng.bits(inputs),
            second: rng.bits(inputs),
            tape: rng.tape(sizes.tape as usize),
            probes: (0..order).map(|_| rng.below(masked.wires) as u32).collect(),
        };
        Masking { and: And::Isw, plain, order, sizes, masked, mapping }
    }

    /// The same with the DOM AND.
    pub fn with_dom(mut self) -> Self {
        self.and = And::Dom;
        self.masked.table = masked_table(self.and, &self.plain, self.order, &self.sizes);
        self
    }

    /// The number of masked wires.
    pub fn wires(&self) -> usize {
        self.masked.wires
    }
}
