//! The calls as any implementation offers them, and their outcomes in one form.

use std::fmt;

use crate::model::{self, And, Marks, Refusal, Sizes};

/// What a call answers, beside the lent buffers: number, place and up to four values.
#[derive(Clone, Copy, Debug, PartialEq, Eq)]
pub struct Outcome {
    pub number: u8,
    pub place: u32,
    pub values: [u32; 4],
}

/// An implementation of the calls, of which three have an entry for each AND. Every tape, the random
/// bits of a run too, is packed.
pub trait Masks {
    fn check(&self, table: &[u8]) -> Outcome;

    fn forecast(&self, table: &[u8], order: u8) -> Outcome;

    fn mask(&self, and: And, table: &[u8], order: u8, out: &mut [u8]) -> Outcome;

    fn encode(&self, order: u8, secrets: &[u8], tape: &[u8], out: &mut [u8]) -> Outcome;

    fn decode(&self, order: u8, shares: &[u8], out: &mut [u8]) -> Outcome;

    fn run(
        &self,
        table: &[u8],
        inputs: &[u8],
        random: &[u8],
        values: &mut [u8],
        outputs: &mut [u8],
    ) -> Outcome;

    fn marks(&self, and: And, table: &[u8], order: u8, wire: u32) -> Outcome;

    #[allow(clippy::too_many_arguments)]
    fn map(
        &self,
        and: And,
        table: &[u8],
        order: u8,
        first: &[u8],
        second: &[u8],
        tape: &[u8],
        probes: &[u32],
        mapped: &mut [u8],
        one: &mut [u8],
        other: &mut [u8],
    ) -> Outcome;
}

/// The implementation of this crate.
pub struct Model;

impl Masks for Model {
    fn check(&self, table: &[u8]) -> Outcome {
        model::check(table).into()
    }

    fn forecast(&self, table: &[u8], order: u8) -> Outcome {
        model::forecast(table, order).into()
    }

    fn mask(&self, and: And, table: &[u8], order: u8, out: &mut [u8]) -> Outcome {
        model::mask(and, table, order, out).into()
    }

    fn encode(&self, order: u8, secrets: &[u8], tape: &[u8], out: &mut [u8]) -> Outcome {
        model::encode(order, secrets, tape, out).into()
    }

    fn decode(&self, order: u8, shares: &[u8], out: &mut [u8]) -> Outcome {
        model::decode(order, shares, out).into()
    }

    fn run(
        &self,
        table: &[u8],
        inputs: &[u8],
        random: &[u8],
        values: &mut [u8],
        outputs: &mut [u8],
    ) -> Outcome {
        model::run(table, inputs, random, values, outputs).into()
    }

    fn marks(&self, and: And, table: &[u8], order: u8, wire: u32) -> Outcome {
        model::marks(and, table, order, wire).into()
    }

    fn map(
        &self,
        and: And,
        table: &[u8],
        order: u8,
        first: &[u8],
        second: &[u8],
        tape: &[u8],
        probes: &[u32],
        mapped: &mut [u8],
        one: &mut [u8],
        other: &mut [u8],
    ) -> Outcome {
        model::map(and, table, order, first, second, tape, probes, mapped, one, other).into()
    }
}

impl Outcome {
    pub fn accepted(values: [u32; 4]) -> Self {
        Outcome { number: 0, place: 0, values }
    }

    /// A success with a single value.
    pub fn value(value: u32) -> Self {
        Outcome::accepted([value, 0, 0, 0])
    }

    pub fn refused(number: u8, place: u32) -> Self {
        Outcome { number, place, values: [0; 4] }
    }

    fn new<T>(result: Result<T, Refusal>, values: impl FnOnce(T) -> [u32; 4]) -> Self {
        match result {
            Ok(value) => Outcome::accepted(values(value)),
            Err(refusal) => Outcome::refused(refusal.number(), refusal.place),
        }
    }
}

impl From<Result<u32, Refusal>> for Outcome {
    fn from(result: Result<u32, Refusal>) -> Self {
        Outcome::new(result, |value| [value, 0, 0, 0])
    }
}

impl From<Result<Sizes, Refusal>> for Outcome {
    fn from(result: Result<Sizes, Refusal>) -> Self {
        Outcome::new(result, |sizes| [sizes.shares, sizes.wires, sizes.tape, sizes.bytes])
    }
}

impl From<Result<Marks, Refusal>> for Outcome {
    fn from(result: Result<Marks, Refusal>) -> Self {
        Outcome::new(result, |marks| [marks.first.into(), marks.second.into(), 0, 0])
    }
}

impl fmt::Display for Outcome {
    fn fmt(&self, f: &mut fmt::Formatter<'_>) -> fmt::Result {
        write!(f, "number {}, place {}, values {:?}", self.number, self.place, self.values)
    }
}
