//! Document 01, written from the paper: checking, running, forecasting, masking, encoding,
//! decoding, marks, the mapped tape, and what the programs write. Tapes are packed, there are
//! constants and ORs, and a second AND, and a probe on a gate reads its pins too, as Cards 4, 6, 8 and
//! 9 ask.
//!
//! Every call answers its value or a refusal. It writes into the lent buffers only when nothing
//! is refused, and then only what the paper says; the rest of a longer buffer stays.

mod and;
mod map;
mod marks;
mod masking;
mod program;
mod shares;
mod table;
mod tape;

pub use and::And;
pub use map::map;
pub use marks::{Marks, marks};
pub use masking::{Figures, Sizes, figures, forecast, mask};
pub use program::{forecast_line, listing, masked, sizes_line};
pub use shares::{decode, encode};
pub use table::{AND, CONSTANT, NOT, OR, RANDOM, XOR, check, reads, run};
pub use tape::{bytes_for, cut, pack};

/// The most wires, masked wires, masked outputs or share bits.
pub const MOST: usize = 65_535;

/// The paper's refusals; the discriminant is the number.
#[derive(Clone, Copy, Debug, PartialEq, Eq)]
#[repr(u8)]
pub enum Fault {
    Length = 1,
    Sizes,
    Kind,
    Operand,
    Output,
    Order,
    RandomGate,
    TooLarge,
    Buffer,
    Count,
    Bit,
    TooManyProbes,
    Probe,
}

/// A refusal: its fault, and the place where it was found.
#[derive(Clone, Copy, Debug, PartialEq, Eq)]
pub struct Refusal {
    pub fault: Fault,
    pub place: u32,
}

impl Refusal {
    pub fn number(self) -> u8 {
        self.fault as u8
    }
}

impl Fault {
    /// The refusal for this fault at a place.
    fn at(self, place: usize) -> Refusal {
        Refusal { fault: self, place: place as u32 }
    }

    /// Refuses, with place 0, if the condition holds.
    fn when(self, condition: bool) -> Result<(), Refusal> {
        if condition { Err(self.at(0)) } else { Ok(()) }
    }
}

/// Refuses the first byte above 1; places count over the parts joined.
fn check_bits(parts: &[&[u8]]) -> Result<(), Refusal> {
    let mut before = 0;
    for part in parts {
        if let Some(position) = part.iter().position(|&bit| bit > 1) {
            return Err(Fault::Bit.at(before + position));
        }
        before += part.len();
    }
    Ok(())
}

/// Refuses the first probe that is none of so many wires.
fn check_probes(probes: &[u32], wires: usize) -> Result<(), Refusal> {
    match probes.iter().position(|&probe| probe as usize >= wires) {
        Some(position) => Err(Fault::Probe.at(position)),
        None => Ok(()),
    }
}

#[cfg(test)]
mod tests;
