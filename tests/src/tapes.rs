//! Tapes of lengths around every multiple of 8: each is accepted, and refused with an unused bit set.
//! Of chosen lengths, each unused bit is set alone, and wrong numbers of bytes are tried.

use std::collections::BTreeSet;
use std::fmt;
use std::ops::Range;

use crate::case::{Call, Case, MapCase};
use crate::generate::{PLAIN_KINDS, circuit};
use crate::masks::Outcome;
use crate::model::{AND, And, MOST, OR, RANDOM, bytes_for, pack};
use crate::rng::Rng;

/// The calls that take a tape.
pub const CALLS: [Call; 4] = [Call::Encode, Call::Run, Call::Map(And::Isw), Call::Map(And::Dom)];

/// A case with a tape of so many bits, and how it must be refused, if at all.
struct Trial {
    case: Case,
    bits: usize,
    refused: Option<Outcome>,
    /// The unused bit of the last byte that is set, if that is all that is wrong.
    unused: Option<usize>,
}

impl Trial {
    /// A case that must be accepted.
    fn new(case: &Case, bits: usize) -> Self {
        Trial { case: case.clone(), bits, refused: None, unused: None }
    }
}

/// Puts the trials of all lengths to a call; each must be answered as it asks, and nothing be missing.
pub fn check(
    call: Call,
    seed: u64,
    answer: impl Fn(&Case) -> Result<Outcome, String>,
) -> Result<Seen, String> {
    let (mut rng, mut seen) = (Rng::new(seed), Seen::default());
    for bits in lengths(call) {
        for trial in trials(&mut rng, call, bits) {
            answer(&trial.case)
                .and_then(|outcome| seen.add(&trial, outcome))
                .map_err(|text| format!("a tape of {bits} bits\n{}\n{text}", trial.case))?;
        }
    }
    seen.missing(call).map_or(Ok(seen), Err)
}

/// The most tape bits that a call can have.
fn most(call: Call) -> usize {
    if call == Call::Run { MOST - 1 } else { MOST / 3 * 2 }
}

/// 0 to 17, and around every multiple of 8: of these, all that the call can have. Encoding takes 2t
/// bits a secret, so it goes two to each side; a map at order 1 takes two for each input, at least
/// one, and three for each AND.
fn lengths(call: Call) -> BTreeSet<usize> {
    let side = if call == Call::Encode { 2 } else { 1 };
    let mut all: BTreeSet<usize> = (0..=17).chain([most(call)]).collect();
    all.extend((8..=most(call)).step_by(8).flat_map(|bits| bits - side..=bits + side));
    all.retain(|&bits| match call {
        Call::Encode => bits.is_multiple_of(2) && bits <= most(call),
        Call::Run => bits <= most(call),
        _ => ![0, 1, 3].contains(&bits) && bits <= most(call) && bits % 2 <= most_ands(bits),
    });
    all
}

/// Whether all trials are made of a length: of short ones, around powers of 2, and of the most.
fn chosen(call: Call, bits: usize) -> bool {
    bits < 802 || bits == most(call) || (bits - 2..=bits + 2).any(usize::is_power_of_two)
}

/// The unused bits in the last byte of a tape of so many bits.
fn unused(bits: usize) -> Range<usize> {
    if bits.is_multiple_of(8) { 8..8 } else { bits % 8..8 }
}

/// The trials of one length.
fn trials(rng: &mut Rng, call: Call, bits: usize) -> Vec<Trial> {
    let sound = match call {
        Call::Encode => encode(rng, bits),
        Call::Run => run(rng, bits),
        Call::Map(and) => Case::Map(map(rng, and, bits)),
        _ => unreachable!("the call takes a tape"),
    };
    if chosen(call, bits) {
        return all_trials(rng, &sound, bits);
    }
    let mut few = vec![Trial::new(&sound, bits)];
    if !unused(bits).is_empty() {
        let at = rng.within(bits % 8, 7);
        let [alone, _] = set_unused(rng, &sound, bits, at);
        few.push(alone);
    }
    few
}

fn all_trials(rng: &mut Rng, sound: &Case, bits: usize) -> Vec<Trial> {
    let mut all = vec![Trial::new(sound, bits), Trial::new(sound, bits)];
    *parts(&mut all[1].case).1 = pack(&vec![1; bits]);
    let bytes = bytes_for(bits);
    for wrong in [bytes.saturating_sub(1), bytes + 1, bits, 0] {
        let mut trial = Trial::new(sound, bits);
        parts(&mut trial.case).1.resize(wrong, 0);
        trial.refused = (wrong != bytes).then_some(Outcome::refused(10, 0));
        all.push(trial);
    }
    if let Case::Map(map) = sound {
        for mapped in [bytes - 1, bytes + 1, bytes + 9] {
            let mut trial = Trial::new(&Case::Map(MapCase { mapped, ..map.clone() }), bits);
            trial.refused = (mapped < bytes).then_some(Outcome::refused(9, 0));
            all.push(trial);
        }
    }
    for at in unused(bits) {
        all.extend(set_unused(rng, sound, bits, at));
    }
    all
}

/// With one unused bit set; and then also with a secret that is no bit, which comes first.
fn set_unused(rng: &mut Rng, sound: &Case, bits: usize, at: usize) -> [Trial; 2] {
    let mut alone = Trial::new(sound, bits);
    let (secrets, tape) = parts(&mut alone.case);
    let count: usize = secrets.iter().map(|part| part.len()).sum();
    tape[bits / 8] |= 1 << at;
    alone.refused = Some(Outcome::refused(11, (count + bits / 8) as u32));
    alone.unused = Some(at);

    let mut both = Trial::new(&alone.case, bits);
    let place = rng.below(count);
    let secret = parts(&mut both.case).0.into_iter().flatten().nth(place);
    *secret.expect("it is one of them") = 2;
    both.refused = Some(Outcome::refused(11, place as u32));
    [alone, both]
}

/// The secrets or inputs of a case, and its tape.
fn parts(case: &mut Case) -> (Vec<&mut Vec<u8>>, &mut Vec<u8>) {
    match case {
        Case::Encode { secrets, tape, .. } => (vec![secrets], tape),
        Case::Run { inputs, random, .. } => (vec![inputs], random),
        Case::Map(MapCase { first, second, tape, .. }) => (vec![first, second], tape),
        _ => unreachable!("the call takes a tape"),
    }
}

fn encode(rng: &mut Rng, bits: usize) -> Case {
    let orders: Vec<usize> = (1..16).filter(|t| bits.is_multiple_of(2 * t)).collect();
    let t = rng.pick(&orders);
    let count = bits / (2 * t);
    let (secrets, tape) = (rng.bits(count), rng.tape(bits));
    Case::Encode { order: t as u8, secrets, tape, out: bits + count }
}

fn run(rng: &mut Rng, bits: usize) -> Case {
    let inputs = rng.within(1, (MOST - bits).min(9));
    let others = rng.below((MOST - bits - inputs).min(9) + 1);
    let mut kinds: Vec<u8> = (0..others).map(|_| rng.pick(&PLAIN_KINDS)).collect();
    kinds.resize(others + bits, RANDOM);
    rng.shuffle(&mut kinds);
    let table = circuit(rng, inputs, &kinds, 3).bytes();
    let values = inputs + kinds.len();
    Case::Run { table, inputs: rng.bits(inputs), random: rng.tape(bits), values, outputs: 3 }
}

/// The most ANDs with so many tape bits at order 1, where an AND in place of one and a half inputs
/// costs 39 half wires more; an odd number of bits takes at least one.
fn most_ands(bits: usize) -> usize {
    ((bits - 2) / 3).min((2 * MOST - 3 * bits) / 39)
}

fn map(rng: &mut Rng, and: And, bits: usize) -> MapCase {
    let odd = bits % 2;
    let ands = odd + 2 * rng.below((most_ands(bits).min(100) - odd) / 2 + 1);
    let inputs = (bits - 3 * ands) / 2;
    let mut wires = 3 * inputs + 24 * ands;
    // As many of them as ORs as there is room for, or fewer.
    let ors = rng.below(ands.min((MOST - wires) / 3) + 1);
    wires += 3 * ors;
    let mut kinds = [vec![AND; ands - ors], vec![OR; ors]].concat();
    rng.shuffle(&mut kinds);
    MapCase {
        and,
        table: circuit(rng, inputs, &kinds, 2).bytes(),
        order: 1,
        first: rng.bits(inputs),
        second: rng.bits(inputs),
        tape: rng.tape(bits),
        probes: vec![rng.below(wires) as u32],
        mapped: bytes_for(bits),
        one: wires,
        other: wires,
    }
}

/// What was seen of a call's tapes: the lengths that were accepted; and by how many bits of the last
/// byte are used, the unused ones that were refused alone.
#[derive(Default)]
pub struct Seen {
    lengths: BTreeSet<usize>,
    unused: BTreeSet<(usize, usize)>,
    cases: usize,
}

impl Seen {
    /// Takes what came back from a trial; the error says what should have.
    fn add(&mut self, trial: &Trial, outcome: Outcome) -> Result<(), String> {
        match trial.refused {
            Some(refused) if outcome != refused => return Err(format!("it must be {refused}")),
            None if outcome.number != 0 => return Err("it must be accepted".into()),
            _ => self.cases += 1,
        }
        if outcome.number == 0 {
            self.lengths.insert(trial.bits);
        }
        self.unused.extend(trial.unused.map(|at| (trial.bits % 8, at)));
        Ok(())
    }

    /// What should have been seen of the call's tapes and was not, if anything.
    fn missing(&self, call: Call) -> Option<String> {
        let name = call.name();
        if let Some(bits) = lengths(call).difference(&self.lengths).next() {
            return Some(format!("{name} never took a tape of {bits} bits"));
        }
        let step = if call == Call::Encode { 2 } else { 1 };
        let mut last = (step..8).step_by(step).flat_map(|used| (used..8).map(move |at| (used, at)));
        let (used, at) = last.find(|bit| !self.unused.contains(bit))?;
        Some(format!("{name} never refused bit {at} alone with {used} bits used"))
    }
}

impl fmt::Display for Seen {
    fn fmt(&self, f: &mut fmt::Formatter<'_>) -> fmt::Result {
        let Seen { lengths, unused, cases } = self;
        write!(f, "{cases} cases, {} lengths, {} unused bits", lengths.len(), unused.len())
    }
}
