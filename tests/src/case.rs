//! A case: what is given to one call, and the guarded buffers that are lent to it.

use std::fmt;

use crate::generate::{KINDS, PLAIN_KINDS};
use crate::masks::{Masks, Outcome};
use crate::model::And;

/// The calls.
#[derive(Clone, Copy, Debug, PartialEq, Eq)]
pub enum Call {
    Check,
    Forecast,
    Mask(And),
    Encode,
    Decode,
    Run,
    Marks(And),
    Map(And),
}

impl Call {
    /// All of them.
    pub const ALL: [Call; 11] = [
        Call::Check,
        Call::Forecast,
        Call::Mask(And::Isw),
        Call::Encode,
        Call::Decode,
        Call::Run,
        Call::Marks(And::Isw),
        Call::Map(And::Isw),
        Call::Mask(And::Dom),
        Call::Marks(And::Dom),
        Call::Map(And::Dom),
    ];

    /// The call's place among all.
    pub fn index(self) -> usize {
        let at = Call::ALL.iter().position(|&call| call == self);
        at.expect("all calls are listed")
    }

    pub fn name(self) -> &'static str {
        match self {
            Call::Check => "check",
            Call::Forecast => "forecast",
            Call::Mask(And::Isw) => "mask",
            Call::Mask(And::Dom) => "mask_dom",
            Call::Encode => "encode",
            Call::Decode => "decode",
            Call::Run => "run",
            Call::Marks(And::Isw) => "marks",
            Call::Marks(And::Dom) => "marks_dom",
            Call::Map(And::Isw) => "map",
            Call::Map(And::Dom) => "map_dom",
        }
    }

    /// Whether the call takes an order.
    pub fn has_order(self) -> bool {
        !matches!(self, Call::Check | Call::Run)
    }

    /// The kinds of gates that a table which the call accepts can have.
    pub fn kinds(self) -> &'static [u8] {
        match self {
            Call::Encode | Call::Decode => &[],
            Call::Check | Call::Run => &KINDS,
            _ => &PLAIN_KINDS,
        }
    }

    /// The refusals that the call has, by number.
    pub fn refusals(self) -> &'static [u8] {
        match self {
            Call::Check => &[1, 2, 3, 4, 5],
            Call::Forecast => &[1, 2, 3, 4, 5, 6, 7, 8],
            Call::Mask(_) => &[1, 2, 3, 4, 5, 6, 7, 8, 9],
            Call::Encode | Call::Decode => &[6, 8, 9, 10, 11],
            Call::Run => &[1, 2, 3, 4, 5, 9, 10, 11],
            Call::Marks(_) => &[1, 2, 3, 4, 5, 6, 7, 8, 13],
            Call::Map(_) => &[1, 2, 3, 4, 5, 6, 7, 8, 9, 10, 11, 12, 13],
        }
    }

    /// Whether the call can give a place other than 0 with one of its refusals.
    pub fn has_place(self, number: u8) -> bool {
        match number {
            13 => matches!(self, Call::Map(_)),
            _ => [3, 4, 5, 7, 11].contains(&number),
        }
    }
}

/// What is given to a call. Each buffer that the call may write is given by its length.
#[derive(Clone, Debug, PartialEq, Eq)]
pub enum Case {
    Check { table: Vec<u8> },
    Forecast { table: Vec<u8>, order: u8 },
    Mask { and: And, table: Vec<u8>, order: u8, out: usize },
    Encode { order: u8, secrets: Vec<u8>, tape: Vec<u8>, out: usize },
    Decode { order: u8, shares: Vec<u8>, out: usize },
    Run { table: Vec<u8>, inputs: Vec<u8>, random: Vec<u8>, values: usize, outputs: usize },
    Marks { and: And, table: Vec<u8>, order: u8, wire: u32 },
    Map(MapCase),
}

/// What is given to the map.
#[derive(Clone, Debug, PartialEq, Eq)]
pub struct MapCase {
    pub and: And,
    pub table: Vec<u8>,
    pub order: u8,
    pub first: Vec<u8>,
    pub second: Vec<u8>,
    pub tape: Vec<u8>,
    pub probes: Vec<u32>,
    pub mapped: usize,
    pub one: usize,
    pub other: usize,
}

impl Case {
    pub fn call(&self) -> Call {
        match *self {
            Case::Check { .. } => Call::Check,
            Case::Forecast { .. } => Call::Forecast,
            Case::Mask { and, .. } => Call::Mask(and),
            Case::Encode { .. } => Call::Encode,
            Case::Decode { .. } => Call::Decode,
            Case::Run { .. } => Call::Run,
            Case::Marks { and, .. } => Call::Marks(and),
            Case::Map(MapCase { and, .. }) => Call::Map(and),
        }
    }

    /// The order, of a call that takes one.
    pub fn order(&self) -> Option<u8> {
        match *self {
            Case::Check { .. } | Case::Run { .. } => None,
            Case::Forecast { order, .. }
            | Case::Mask { order, .. }
            | Case::Encode { order, .. }
            | Case::Decode { order, .. }
            | Case::Marks { order, .. }
            | Case::Map(MapCase { order, .. }) => Some(order),
        }
    }

    /// The table, of a call that takes one.
    pub fn table(&self) -> Option<&[u8]> {
        match self {
            Case::Encode { .. } | Case::Decode { .. } => None,
            Case::Check { table }
            | Case::Forecast { table, .. }
            | Case::Mask { table, .. }
            | Case::Run { table, .. }
            | Case::Marks { table, .. }
            | Case::Map(MapCase { table, .. }) => Some(table),
        }
    }

    /// The buffers to lend, in the call's order.
    pub fn buffers(&self) -> Vec<Lent> {
        match *self {
            Case::Check { .. } | Case::Forecast { .. } | Case::Marks { .. } => Vec::new(),
            Case::Mask { out, .. } | Case::Encode { out, .. } | Case::Decode { out, .. } => {
                vec![Lent::new(out)]
            }
            Case::Run { values, outputs, .. } => vec![Lent::new(values), Lent::new(outputs)],
            Case::Map(MapCase { mapped, one, other, .. }) => {
                vec![Lent::new(mapped), Lent::new(one), Lent::new(other)]
            }
        }
    }

    /// What an implementation answers; what it writes is then in the buffers.
    pub fn put_to(&self, masks: &impl Masks, buffers: &mut [Lent]) -> Outcome {
        match (self, buffers) {
            (Case::Check { table }, []) => masks.check(table),
            (Case::Forecast { table, order }, []) => masks.forecast(table, *order),
            (Case::Mask { and, table, order, .. }, [out]) => {
                masks.mask(*and, table, *order, out.room())
            }
            (Case::Encode { order, secrets, tape, .. }, [out]) => {
                masks.encode(*order, secrets, tape, out.room())
            }
            (Case::Decode { order, shares, .. }, [out]) => masks.decode(*order, shares, out.room()),
            (Case::Run { table, inputs, random, .. }, [values, outputs]) => {
                masks.run(table, inputs, random, values.room(), outputs.room())
            }
            (Case::Marks { and, table, order, wire }, []) => {
                masks.marks(*and, table, *order, *wire)
            }
            (Case::Map(case), [mapped, one, other]) => {
                case.put_to(masks, mapped.room(), one.room(), other.room())
            }
            _ => unreachable!("the buffers are those of the case"),
        }
    }
}

impl MapCase {
    /// What an implementation answers, with its buffers given apart.
    pub fn put_to(
        &self,
        masks: &impl Masks,
        mapped: &mut [u8],
        one: &mut [u8],
        other: &mut [u8],
    ) -> Outcome {
        let MapCase { and, table, order, first, second, tape, probes, .. } = self;
        masks.map(*and, table, *order, first, second, tape, probes, mapped, one, other)
    }
}

/// A buffer to lend, with guard bytes before and after it. All of it starts as a pattern that no
/// bit has and that changes from byte to byte.
#[derive(Clone, Debug, PartialEq, Eq)]
pub struct Lent {
    bytes: Vec<u8>,
}

const GUARD: usize = 16;

fn pattern(at: usize) -> u8 {
    0x80 | ((at * 29) >> 1) as u8
}

impl Lent {
    pub fn new(room: usize) -> Self {
        Lent { bytes: (0..room + 2 * GUARD).map(pattern).collect() }
    }

    /// The length of the part that is lent.
    pub fn size(&self) -> usize {
        self.bytes.len() - 2 * GUARD
    }

    /// The part that is lent.
    pub fn room(&mut self) -> &mut [u8] {
        let end = self.bytes.len() - GUARD;
        &mut self.bytes[GUARD..end]
    }

    /// The first so many bytes of the part that is lent.
    pub fn head(&self, length: usize) -> &[u8] {
        &self.bytes[GUARD..GUARD + length]
    }

    /// Whether every byte, the guards included, is still that of the pattern.
    pub fn untouched(&self) -> bool {
        self.bytes.iter().enumerate().all(|(at, &byte)| byte == pattern(at))
    }

    /// The first position in the room where two buffers differ, with both bytes; it is negative
    /// in the guard before the room.
    pub fn first_difference(&self, other: &Lent) -> Option<(isize, u8, u8)> {
        let at = self.bytes.iter().zip(&other.bytes).position(|(ours, theirs)| ours != theirs)?;
        Some((at as isize - GUARD as isize, self.bytes[at], other.bytes[at]))
    }
}

/// Bytes in hexadecimal with their number; long ones shortened, unless shown by `{:#}`.
struct Hex<'a>(&'a [u8]);

impl fmt::Display for Hex<'_> {
    fn fmt(&self, f: &mut fmt::Formatter<'_>) -> fmt::Result {
        let shown = if f.alternate() { self.0.len() } else { self.0.len().min(64) };
        write!(f, "({} bytes)", self.0.len())?;
        for byte in &self.0[..shown] {
            write!(f, " {byte:02x}")?;
        }
        if shown < self.0.len() { write!(f, " ..") } else { Ok(()) }
    }
}

/// What is given, one line for each part; `{:#}` shows long parts in full.
impl fmt::Display for Case {
    fn fmt(&self, f: &mut fmt::Formatter<'_>) -> fmt::Result {
        fn part(f: &mut fmt::Formatter<'_>, name: &str, bytes: &[u8]) -> fmt::Result {
            write!(f, "\n  {name} ")?;
            fmt::Display::fmt(&Hex(bytes), f)
        }
        write!(f, "call {}", self.call().name())?;
        match self {
            Case::Check { table } => part(f, "table", table),
            Case::Forecast { table, order } => {
                part(f, "table", table)?;
                write!(f, "\n  order {order}")
            }
            Case::Mask { table, order, out, .. } => {
                part(f, "table", table)?;
                write!(f, "\n  order {order}\n  out of {out} bytes")
            }
            Case::Encode { order, secrets, tape, out } => {
                write!(f, "\n  order {order}")?;
                part(f, "secrets", secrets)?;
                part(f, "tape", tape)?;
                write!(f, "\n  out of {out} bytes")
            }
            Case::Decode { order, shares, out } => {
                write!(f, "\n  order {order}")?;
                part(f, "shares", shares)?;
                write!(f, "\n  out of {out} bytes")
            }
            Case::Run { table, inputs, random, values, outputs } => {
                part(f, "table", table)?;
                part(f, "inputs", inputs)?;
                part(f, "random", random)?;
                write!(f, "\n  values of {values} bytes, outputs of {outputs}")
            }
            Case::Marks { table, order, wire, .. } => {
                part(f, "table", table)?;
                write!(f, "\n  order {order}\n  wire {wire}")
            }
            Case::Map(MapCase {
                table,
                order,
                first,
                second,
                tape,
                probes,
                mapped,
                one,
                other,
                ..
            }) => {
                part(f, "table", table)?;
                write!(f, "\n  order {order}")?;
                part(f, "first", first)?;
                part(f, "second", second)?;
                part(f, "tape", tape)?;
                write!(f, "\n  probes {probes:?}")?;
                write!(f, "\n  mapped of {mapped} bytes, one of {one}, other of {other}")
            }
        }
    }
}
