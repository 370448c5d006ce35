//! Copying what a call reads and writes, and doing nothing else: the limit to compare with.

use std::cell::RefCell;
use std::hint::black_box;

use compare::masks::{Masks, Outcome};
use compare::model::{And, MOST};

/// The bytes of the longest table.
const LONGEST: usize = 6 + (5 + 2) * MOST;

/// Copies all inputs of a call to a buffer of its own, which is used again, and from there to each
/// lent buffer as many bytes as that has.
pub struct Copying {
    own: RefCell<Vec<u8>>,
}

impl Copying {
    pub fn new() -> Self {
        Copying { own: RefCell::new(vec![2; LONGEST]) }
    }

    fn copy(&self, inputs: &[&[u8]], lent: &mut [&mut [u8]]) -> Outcome {
        let own = &mut self.own.borrow_mut()[..];
        for input in inputs {
            copy_seen(input, &mut own[..input.len()]);
        }
        for buffer in lent {
            copy_seen(&own[..buffer.len()], buffer);
        }
        Outcome::accepted([0; 4])
    }
}

/// Copies bytes, also where nobody reads them later.
fn copy_seen(from: &[u8], to: &mut [u8]) {
    to.copy_from_slice(from);
    black_box(to);
}

impl Masks for Copying {
    fn check(&self, table: &[u8]) -> Outcome {
        self.copy(&[table], &mut [])
    }

    fn forecast(&self, table: &[u8], _: u8) -> Outcome {
        self.copy(&[table], &mut [])
    }

    fn mask(&self, _: And, table: &[u8], _: u8, out: &mut [u8]) -> Outcome {
        self.copy(&[table], &mut [out])
    }

    fn encode(&self, _: u8, secrets: &[u8], tape: &[u8], out: &mut [u8]) -> Outcome {
        self.copy(&[secrets, tape], &mut [out])
    }

    fn decode(&self, _: u8, shares: &[u8], out: &mut [u8]) -> Outcome {
        self.copy(&[shares], &mut [out])
    }

    fn run(
        &self,
        table: &[u8],
        inputs: &[u8],
        random: &[u8],
        values: &mut [u8],
        outputs: &mut [u8],
    ) -> Outcome {
        self.copy(&[table, inputs, random], &mut [values, outputs])
    }

    fn marks(&self, _: And, table: &[u8], _: u8, _: u32) -> Outcome {
        self.copy(&[table], &mut [])
    }

    fn map(
        &self,
        _: And,
        table: &[u8],
        _: u8,
        first: &[u8],
        second: &[u8],
        tape: &[u8],
        probes: &[u32],
        mapped: &mut [u8],
        one: &mut [u8],
        other: &mut [u8],
    ) -> Outcome {
        // Every number is four bytes.
        let (_, probes, _) = unsafe { probes.align_to::<u8>() };
        self.copy(&[table, first, second, tape, probes], &mut [mapped, one, other])
    }
}
