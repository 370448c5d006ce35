//! Comparing two implementations case by case, and counting what came back.

use std::fmt;

use crate::case::{Call, Case, Lent};
use crate::masks::{Masks, Outcome};

/// Puts a case to both implementations. They must answer the same and leave the same bytes in
/// the buffers and around them; a refusal must leave all as it was, and what is only read must
/// stay. The error says what differs, by a line for `ours` and one for `theirs`.
pub fn compare(
    case: &Case,
    ours: &impl Masks,
    theirs: &impl Masks,
) -> Result<(Outcome, Vec<Lent>), String> {
    let given = case.clone();
    let mut expected_buffers = case.buffers();
    let mut buffers = case.buffers();
    let expected = case.put_to(ours, &mut expected_buffers);
    let outcome = case.put_to(theirs, &mut buffers);
    if outcome != expected {
        return Err(format!("expected {expected}\n     got {outcome}"));
    }
    if outcome.number != 0 && !buffers.iter().all(Lent::untouched) {
        return Err(format!("refused with {} but wrote", outcome.number));
    }
    for (number, (expected, buffer)) in expected_buffers.iter().zip(&buffers).enumerate() {
        if let Some((at, expected, got)) = expected.first_difference(buffer) {
            return Err(format!(
                "buffer {number} of {} bytes, byte {at}: expected {expected}, got {got}",
                buffer.size()
            ));
        }
    }
    if *case != given {
        return Err("bytes that are only read were changed".into());
    }
    Ok((outcome, buffers))
}

/// How often a call answered what.
#[derive(Clone, Copy, Default)]
pub struct Tally {
    cases: u64,
    /// By refusal number, 0 being a success.
    numbers: [u64; 14],
    /// The refusals that were seen with a place other than 0.
    placed: [bool; 14],
    /// The orders that were accepted.
    orders: [bool; 16],
    /// The kinds of gates in the tables that were accepted.
    kinds: [bool; 6],
}

impl Tally {
    /// How many cases there were.
    pub fn cases(&self) -> u64 {
        self.cases
    }

    pub fn add(&mut self, case: &Case, outcome: Outcome) {
        self.cases += 1;
        self.numbers[usize::from(outcome.number)] += 1;
        self.placed[usize::from(outcome.number)] |= outcome.place > 0;
        if let (0, Some(order)) = (outcome.number, case.order()) {
            self.orders[usize::from(order)] = true;
        }
        if let (0, Some(&[_, _, g0, g1, _, _, ref rest @ ..])) = (outcome.number, case.table()) {
            for &kind in &rest[..usize::from(u16::from_le_bytes([g0, g1]))] {
                self.kinds[usize::from(kind)] = true;
            }
        }
    }

    /// What the call can answer and never did, if anything.
    pub fn missing(&self, call: Call) -> Option<String> {
        let name = call.name();
        if self.numbers[0] == 0 {
            return Some(format!("{name} never accepted"));
        }
        let order = (1..16).find(|&order| !self.orders[order]);
        if let (Some(order), true) = (order, call.has_order()) {
            return Some(format!("{name} never accepted at order {order}"));
        }
        if let Some(kind) = call.kinds().iter().find(|&&kind| !self.kinds[usize::from(kind)]) {
            return Some(format!("{name} never accepted a gate of kind {kind}"));
        }
        call.refusals().iter().find_map(|&number| {
            let index = usize::from(number);
            if self.numbers[index] == 0 {
                Some(format!("{name} never refused with {number}"))
            } else if call.has_place(number) && !self.placed[index] {
                Some(format!("{name} refused with {number} at place 0 only"))
            } else {
                None
            }
        })
    }
}

impl fmt::Display for Tally {
    fn fmt(&self, f: &mut fmt::Formatter<'_>) -> fmt::Result {
        write!(f, "{} cases, {} accepted; refused", self.cases, self.numbers[0])?;
        let refusals = self.numbers.iter().enumerate().skip(1).filter(|(_, count)| **count > 0);
        for (at, (number, count)) in refusals.enumerate() {
            write!(f, "{} {number}: {count}", if at == 0 { "" } else { "," })?;
        }
        Ok(())
    }
}
