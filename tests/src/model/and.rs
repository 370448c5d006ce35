//! What sets the two ANDs apart: the sums of a pair i < j of shares, which of its five wires the rows
//! add, and the marks of each alone. What the map flips is in `map`.

use super::marks::Marks;

/// An AND: that of document 01, or the DOM AND of Card 8. As a number it is a byte that names it to
/// the mask program.
#[derive(Clone, Copy, Debug, PartialEq, Eq)]
pub enum And {
    Isw,
    Dom,
}

impl And {
    pub const BOTH: [And; 2] = [And::Isw, And::Dom];

    /// Its name in what ./fantzori prints.
    pub fn name(self) -> &'static str {
        match self {
            And::Isw => "ISW",
            And::Dom => "DOM",
        }
    }

    /// The operands of a pair's third and fifth wire, as places among its five. The first is the
    /// random bit, the second a_i·b_j, the fourth a_j·b_i.
    #[inline]
    pub(super) fn sums(self) -> [(usize, usize); 2] {
        match self {
            And::Isw => [(0, 1), (2, 3)],
            And::Dom => [(1, 0), (3, 0)],
        }
    }

    /// Which of the five row i adds, and which row j.
    #[inline]
    pub(super) fn added(self) -> (usize, usize) {
        match self {
            And::Isw => (0, 4),
            And::Dom => (2, 4),
        }
    }

    /// The marks of one of the five: a wire that a row adds has the row's.
    pub(super) fn pair_marks(self, place: usize, i: usize, j: usize) -> Marks {
        let (lower, upper) = self.added();
        match place {
            _ if place == lower => Marks::one(i),
            _ if place == upper => Marks::one(j),
            _ => Marks::two(i, j),
        }
    }
}
