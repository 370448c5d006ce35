//! The archive's calls, as include/masks.h declares them, behind safe functions on slices.

use compare::masks::{Masks, Outcome};
use compare::model::And;

#[repr(C)]
struct Answer {
    number: u8,
    place: u32,
    value: u32,
}

#[repr(C)]
struct Sizes {
    number: u8,
    place: u32,
    shares: u32,
    wires: u32,
    tape: u32,
    bytes: u32,
}

#[repr(C)]
struct Marks {
    number: u8,
    place: u32,
    first: u8,
    second: u8,
}

unsafe extern "C" {
    fn masks_check(table: *const u8, table_len: usize) -> Answer;

    fn masks_forecast(table: *const u8, table_len: usize, order: u8) -> Sizes;

    fn masks_mask(
        table: *const u8,
        table_len: usize,
        order: u8,
        out: *mut u8,
        out_len: usize,
    ) -> Answer;

    fn masks_encode(
        order: u8,
        secrets: *const u8,
        secrets_len: usize,
        tape: *const u8,
        tape_len: usize,
        out: *mut u8,
        out_len: usize,
    ) -> Answer;

    fn masks_decode(
        order: u8,
        shares: *const u8,
        shares_len: usize,
        out: *mut u8,
        out_len: usize,
    ) -> Answer;

    fn masks_run(
        table: *const u8,
        table_len: usize,
        inputs: *const u8,
        inputs_len: usize,
        random: *const u8,
        random_len: usize,
        values: *mut u8,
        values_len: usize,
        outputs: *mut u8,
        outputs_len: usize,
    ) -> Answer;

    fn masks_marks_of(table: *const u8, table_len: usize, order: u8, wire: u32) -> Marks;

    fn masks_map(
        table: *const u8,
        table_len: usize,
        order: u8,
        first: *const u8,
        first_len: usize,
        second: *const u8,
        second_len: usize,
        tape: *const u8,
        tape_len: usize,
        probes: *const u32,
        probes_len: usize,
        mapped: *mut u8,
        mapped_len: usize,
        one: *mut u8,
        one_len: usize,
        other: *mut u8,
        other_len: usize,
    ) -> Answer;

    fn masks_mask_dom(
        table: *const u8,
        table_len: usize,
        order: u8,
        out: *mut u8,
        out_len: usize,
    ) -> Answer;

    fn masks_marks_of_dom(table: *const u8, table_len: usize, order: u8, wire: u32) -> Marks;

    fn masks_map_dom(
        table: *const u8,
        table_len: usize,
        order: u8,
        first: *const u8,
        first_len: usize,
        second: *const u8,
        second_len: usize,
        tape: *const u8,
        tape_len: usize,
        probes: *const u32,
        probes_len: usize,
        mapped: *mut u8,
        mapped_len: usize,
        one: *mut u8,
        one_len: usize,
        other: *mut u8,
        other_len: usize,
    ) -> Answer;

    safe fn masks_version() -> u32;
}

/// The entry for an AND.
macro_rules! entry {
    ($and:expr, $isw:ident, $dom:ident) => {
        match $and {
            And::Isw => $isw,
            And::Dom => $dom,
        }
    };
}

/// The archive's version, as a number.
#[allow(dead_code)] // The measurement, which has this file too, does not ask for it.
pub fn version() -> u32 {
    masks_version()
}

impl From<Answer> for Outcome {
    fn from(Answer { number, place, value }: Answer) -> Self {
        Outcome { number, place, values: [value, 0, 0, 0] }
    }
}

impl From<Sizes> for Outcome {
    fn from(Sizes { number, place, shares, wires, tape, bytes }: Sizes) -> Self {
        Outcome { number, place, values: [shares, wires, tape, bytes] }
    }
}

impl From<Marks> for Outcome {
    fn from(Marks { number, place, first, second }: Marks) -> Self {
        Outcome { number, place, values: [first.into(), second.into(), 0, 0] }
    }
}

/// The archive. Each call is given pointers and lengths of slices, and mutable slices never
/// overlap another one: that is all that the header asks for.
pub struct Archive;

impl Masks for Archive {
    fn check(&self, table: &[u8]) -> Outcome {
        unsafe { masks_check(table.as_ptr(), table.len()) }.into()
    }

    fn forecast(&self, table: &[u8], order: u8) -> Outcome {
        unsafe { masks_forecast(table.as_ptr(), table.len(), order) }.into()
    }

    fn mask(&self, and: And, table: &[u8], order: u8, out: &mut [u8]) -> Outcome {
        let mask = entry!(and, masks_mask, masks_mask_dom);
        unsafe { mask(table.as_ptr(), table.len(), order, out.as_mut_ptr(), out.len()) }.into()
    }

    fn encode(&self, order: u8, secrets: &[u8], tape: &[u8], out: &mut [u8]) -> Outcome {
        unsafe {
            masks_encode(
                order,
                secrets.as_ptr(),
                secrets.len(),
                tape.as_ptr(),
                tape.len(),
                out.as_mut_ptr(),
                out.len(),
            )
        }
        .into()
    }

    fn decode(&self, order: u8, shares: &[u8], out: &mut [u8]) -> Outcome {
        unsafe { masks_decode(order, shares.as_ptr(), shares.len(), out.as_mut_ptr(), out.len()) }
            .into()
    }

    fn run(
        &self,
        table: &[u8],
        inputs: &[u8],
        random: &[u8],
        values: &mut [u8],
        outputs: &mut [u8],
    ) -> Outcome {
        unsafe {
            masks_run(
                table.as_ptr(),
                table.len(),
                inputs.as_ptr(),
                inputs.len(),
                random.as_ptr(),
                random.len(),
                values.as_mut_ptr(),
                values.len(),
                outputs.as_mut_ptr(),
                outputs.len(),
            )
        }
        .into()
    }

    fn marks(&self, and: And, table: &[u8], order: u8, wire: u32) -> Outcome {
        let marks_of = entry!(and, masks_marks_of, masks_marks_of_dom);
        unsafe { marks_of(table.as_ptr(), table.len(), order, wire) }.into()
    }

    fn map(
        &self,
        and: And,
        table: &[u8],
        order: u8,
        first: &[u8],
        second: &[u8],
        tape: &[u8],
        probes: &[u32],
        mapped: &mut [u8],
        one: &mut [u8],
        other: &mut [u8],
    ) -> Outcome {
        let map = entry!(and, masks_map, masks_map_dom);
        unsafe {
            map(
                table.as_ptr(),
                table.len(),
                order,
                first.as_ptr(),
                first.len(),
                second.as_ptr(),
                second.len(),
                tape.as_ptr(),
                tape.len(),
                probes.as_ptr(),
                probes.len(),
                mapped.as_mut_ptr(),
                mapped.len(),
                one.as_mut_ptr(),
                one.len(),
                other.as_mut_ptr(),
                other.len(),
            )
        }
        .into()
    }
}
