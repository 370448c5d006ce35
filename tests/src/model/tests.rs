//! Tests of the implementation alone, without the archive.

use super::map::free_share;
use super::marks::Masked;
use super::masking::Plain;
use super::*;
use crate::case::{Call, Case, Lent, MapCase};
use crate::circuit::{Circuit, and, constant, not, or, random, xor};
use crate::compare::Tally;
use crate::examples::{and_chain, dom_masked_and, examples, masked_and, the_and};
use crate::exhaustive::{check_maps, check_patterns, circuits, circuits_for_order_2};
use crate::generate::generate;
use crate::kinds;
use crate::masks::Model;
use crate::properties::{check_counts, check_mapping};
use crate::rng::Rng;
use crate::sampled;
use crate::samples::{bits, samples};
use crate::tapes;

#[test]
fn the_papers_examples_hold() {
    for example in examples() {
        if let Err(text) = example.put_to(&Model) {
            panic!("{}\n{}\n{text}", example.name, example.case);
        }
    }
}

#[test]
fn the_forecast_line_is_the_papers() {
    let input = [&[1][..], &the_and()].concat();
    assert_eq!(forecast_line(&input), "3 30 7 132\n");
    assert_eq!(forecast_line(&[]), "refused 1 0\n");
    assert_eq!(forecast_line(&[1]), "refused 1 0\n");
    assert_eq!(forecast_line(&[&[0][..], &the_and()].concat()), "refused 6 0\n");
    assert_eq!(forecast_line(&[0; 65_536]), "refused 2 0\n");
    assert_eq!(forecast_line(&[0; 65_537]), "refused 9 0\n");
}

#[test]
fn the_sizes_line_is_told_of_too_large_tables_too() {
    let line = |order: u8, table: &[u8]| sizes_line(&[&[order][..], table].concat());
    assert_eq!(line(1, &the_and()), "3 30 7 132 3 15\n");
    assert_eq!(line(15, &the_and()), "31 3348 525 16498 31 15\n");
    assert_eq!(line(1, &and_chain(2_731)), "3 65550 8197 327732 3 0\n");
    assert_eq!(line(2, &and_chain(2_730)), "5 204760 27308 1023766 5 1\n");
    assert_eq!(line(2, &Circuit::new(1, &[], &[0; 13_108]).bytes()), "5 5 4 131086 65540 1\n");
    assert_eq!(line(0, &the_and()), "refused 6 0\n");
    assert_eq!(line(16, &the_and()), "refused 6 0\n");
    assert_eq!(line(1, &Circuit::new(2, &[and(0, 1), random()], &[2]).bytes()), "refused 7 1\n");
    assert_eq!(sizes_line(&[]), "refused 1 0\n");
    assert_eq!(sizes_line(&[0; 65_537]), "refused 2 0\n");
}

#[test]
fn the_first_byte_names_the_and() {
    let masked_with = |and| {
        let mut out = vec![0; 132];
        mask(and, &the_and(), 1, &mut out).unwrap();
        out
    };
    for byte in 0..=255 {
        let and = if byte == 0 { And::Isw } else { And::Dom };
        assert_eq!(masked(&[&[byte, 1][..], &the_and()].concat()), Ok(masked_with(and)));
        assert_eq!(masked(&[byte]), Err("refused 1 0\n".into()));
        assert_eq!(masked(&[byte, 1]), Err("refused 1 0\n".into()));
    }
    assert_eq!(masked(&[]), Err("refused 1 0\n".into()));
    assert_ne!(masked_with(And::Isw), masked_with(And::Dom));
}

#[test]
fn the_listing_says_inputs_gates_and_outputs() {
    let gates =
        [and(0, 1), (NOT, 0, 0), (RANDOM, 0, 0), (XOR, 4, 2), constant(1), or(2, 6), constant(0)];
    let table = Circuit::new(2, &gates, &[5, 0]).bytes();
    let lines = "inputs 2\nw2 = AND w0 w1\nw3 = NOT w0\nw4 = RANDOM\nw5 = XOR w4 w2\n\
                 w6 = CONSTANT 1\nw7 = OR w2 w6\nw8 = CONSTANT 0\nout0 = w5\nout1 = w0\n";
    assert_eq!(listing(&table), lines);
    assert_eq!(listing(&Circuit::new(10, &[], &[9]).bytes()), "inputs 10\nout0 = w9\n");
    assert_eq!(listing(&[]), "refused 1 0\n");
}

#[test]
fn the_samples_compute_what_they_say() {
    for sample in samples() {
        let (table, inputs) = (sample.circuit.bytes(), usize::from(sample.circuit.inputs));
        let wires = check(&table).unwrap() as usize;
        let mut outputs = vec![2; sample.circuit.outputs.len()];
        for x in 0..1 << inputs {
            run(&table, &bits(x, inputs), &[], &mut vec![2; wires], &mut outputs).unwrap();
            assert_eq!(outputs, bits((sample.truth)(x), outputs.len()), "{} of {x}", sample.name);
        }
    }
}

#[test]
fn a_gate_costs_what_the_paper_says() {
    for (order, wires, randoms) in [(1, 24, 3), (2, 75, 10), (15, 3_286, 465)] {
        let n = 2 * u32::from(order) + 1;
        let sizes = forecast(&the_and(), order).unwrap();
        assert_eq!(sizes.wires, 2 * n + wires);
        assert_eq!(sizes.tape, 2 * (n - 1) + randoms);
        // An OR costs three wires more, a constant n and no random bit.
        let table = Circuit::new(2, &[or(0, 1), constant(1)], &[2]).bytes();
        let sizes = forecast(&table, order).unwrap();
        assert_eq!(sizes.wires, 2 * n + wires + 3 + n);
        assert_eq!(sizes.tape, 2 * (n - 1) + randoms);
    }
}

#[test]
fn a_probe_reads_a_wire_and_its_pins() {
    let read = |table: &[u8], probe| reads(table, &[probe]).unwrap();
    let (isw, dom) = (masked_and(), dom_masked_and());
    for table in [&isw, &dom] {
        assert_eq!(read(table, 5), [5]);
        assert_eq!(read(table, 6), [6]);
        assert_eq!(read(table, 7), [7, 0, 4]);
        assert_eq!(read(table, 21), [21, 0, 3]);
    }
    assert_eq!(read(&isw, 10), [10, 8, 9]);
    assert_eq!(read(&dom, 10), [10, 9, 6]);
    assert_eq!(read(&isw, 22), [22, 21, 6]);
    assert_eq!(read(&dom, 22), [22, 21, 8]);
    assert_eq!(reads(&isw, &[7, 6, 7]), Ok(vec![7, 0, 4, 6, 7, 0, 4]));
    assert_eq!(reads(&isw, &[29, 30]), Err(Fault::Probe.at(1)));

    let gates = [not(1), xor(0, 2), and(3, 3), random(), constant(1), or(4, 0)];
    let table = Circuit::new(2, &gates, &[7]).bytes();
    let all = [vec![0], vec![1], vec![2, 1], vec![3, 0, 2], vec![4, 3, 3], vec![5], vec![6]];
    assert_eq!(reads(&table, &[0, 1, 2, 3, 4, 5, 6]), Ok(all.concat()));
    assert_eq!(read(&table, 7), [7, 4, 0]);
}

/// What a probe reads can be found without the masked table.
fn check_reads(and: And, table: &[u8], order: u8, probes: &[u32]) {
    let plain = Plain::new(table, order).unwrap();
    let masked = Masked::new(&plain, and);
    let mut written = vec![0; forecast(table, order).unwrap().bytes as usize];
    mask(and, table, order, &mut written).unwrap();
    let found = probes.iter().flat_map(|&probe| masked.reads(probe as usize)).collect();
    assert_eq!(reads(&written, probes), Ok(found));
}

/// The marks of a probe on each masked wire, by a rule for each kind of gate, without pins.
fn marks_by_rule(construction: And, circuit: &Circuit, n: u8) -> Vec<(u8, u8)> {
    let shares: Vec<(u8, u8)> = (1..=n).map(|s| (s, 0)).collect();
    let mut product = Vec::new();
    for (i, j) in (1..=n).flat_map(|i| (i + 1..=n).map(move |j| (i, j))) {
        product.push(if construction == And::Isw { (i, 0) } else { (i, j) });
        product.extend([(i, j); 4]);
    }
    product.extend(shares.iter().flat_map(|&own| vec![own; usize::from(n)]));
    let or = [&[(1, 0), (1, 0)], &product[..], &[(1, 0)]].concat();
    let of_gates = circuit.gates.iter().map(|gate| match gate.0 {
        NOT => &[(1, 0)],
        XOR | CONSTANT => &shares[..],
        AND => &product,
        _ => &or,
    });
    [shares.repeat(circuit.inputs.into()), of_gates.flatten().copied().collect()].concat()
}

#[test]
fn joined_marks_are_what_a_rule_says() {
    for (and, order) in And::BOTH.into_iter().flat_map(|and| [(and, 1), (and, 2), (and, 3)]) {
        let n = 2 * order + 1;
        for circuit in sampled::circuits(order) {
            let table = circuit.bytes();
            let wires = forecast(&table, order).unwrap().wires;
            check_reads(and, &table, order, &Vec::from_iter(0..wires));
            let marked = (0..wires).map(|wire| {
                let Marks { first, second } = marks(and, &table, order, wire).unwrap();
                assert!((1..=n).contains(&first) && second <= n, "wire {wire} of {circuit:?}");
                assert!(second == 0 || first < second, "wire {wire} of {circuit:?}");
                (first, second)
            });
            assert_eq!(marked.collect::<Vec<_>>(), marks_by_rule(and, &circuit, n), "{circuit:?}");
        }
    }
}

#[test]
fn marks_of_several_wires_are_joined() {
    let (one, two) = (Marks::one, Marks::two);
    assert_eq!(Marks::joined([one(31)].into_iter()), one(31));
    assert_eq!(Marks::joined([one(3), two(1, 3), one(1)].into_iter()), two(1, 3));
    assert_eq!(Marks::joined([one(4), one(2), one(4)].into_iter()), two(2, 4));
}

#[test]
#[should_panic(expected = "a probe carries two shares at most")]
fn three_shares_are_no_marks() {
    Marks::joined([Marks::two(1, 2), Marks::one(3)].into_iter());
}

/// The marks of wires alone.
fn single_marks(and: And, table: &[u8], order: u8, wires: &[u32]) -> impl Iterator<Item = Marks> {
    let plain = Plain::new(table, order).unwrap();
    let masked = Masked::new(&plain, and);
    let marks: Vec<_> = wires.iter().map(|&wire| masked.single_marks(wire as usize)).collect();
    marks.into_iter()
}

/// Whether a case is accepted and would have other marks, or another free share, without pins.
fn differs_without_pins(case: &Case) -> bool {
    let outcome = case.put_to(&Model, &mut case.buffers());
    match case {
        _ if outcome.number != 0 => false,
        Case::Marks { and, table, order, wire } => {
            let marks = single_marks(*and, table, *order, &[*wire]).next();
            marks.is_some_and(|marks| outcome != Ok(marks).into())
        }
        Case::Map(MapCase { and, table, order, probes, .. }) => {
            let n = 2 * usize::from(*order) + 1;
            let free = free_share(n, single_marks(*and, table, *order, probes));
            outcome.values[0] != free as u32
        }
        _ => unreachable!("the call has marks"),
    }
}

/// Of the generated marks and maps, one in a hundred or more would be another without pins.
#[test]
fn generated_cases_differ_without_pins() {
    for call in And::BOTH.into_iter().flat_map(|and| [Call::Marks(and), Call::Map(and)]) {
        let mut rng = Rng::new(1);
        let differing =
            (0..20_000).filter(|_| differs_without_pins(&generate(call, &mut rng))).count();
        assert!(differing >= 200, "{}: {differing} of 20,000", call.name());
    }
}

/// How many gates of each kind a table has, by the kind's number, and how many constants are 1.
fn kinds_in(table: &[u8]) -> ([usize; 6], usize) {
    let gates = Circuit::read(table).gates;
    let count = |kind| gates.iter().filter(|gate| gate.0 == kind).count();
    ([0, 1, 2, 3, 4, 5].map(count), gates.iter().filter(|&&gate| gate == constant(1)).count())
}

/// A masked table has no ORs, as many gates of each other kind as the paper says, and a constant 1 for
/// each in the plain table.
fn check_masked_kinds(table: &[u8], order: u8, masked: &[u8]) {
    let n = 2 * usize::from(order) + 1;
    let pairs = n * (n - 1) / 2;
    let ([nots, xors, ands, _, constants, ors], plain_ones) = kinds_in(table);
    let products = ands + ors;
    let due = [
        nots + 3 * ors,
        n * xors + products * (2 * pairs + n * (n - 1)),
        products * (2 * pairs + n),
        products * pairs,
        n * constants,
        0,
    ];
    assert_eq!(kinds_in(masked), (due, plain_ones));
}

/// Every call refuses in each of its ways, a refusal writes nothing, and accepted maps have
/// their properties; the forecast tells the sizes of the table that masking writes.
#[test]
fn generated_cases_hold_together() {
    for call in Call::ALL {
        let mut tally = Tally::default();
        let mut rng = Rng::new(call.index() as u64);
        for _ in 0..20_000 {
            let case = generate(call, &mut rng);
            let mut buffers = case.buffers();
            let outcome = case.put_to(&Model, &mut buffers);
            tally.add(&case, outcome);
            assert!(outcome.number == 0 || buffers.iter().all(Lent::untouched), "{case}");
            match (&case, outcome.number, &buffers[..]) {
                (Case::Mask { table, order, .. }, 0, [out]) => {
                    let sizes = forecast(table, *order).unwrap();
                    let masked = out.head(outcome.values[0] as usize);
                    assert_eq!(masked.len(), sizes.bytes as usize);
                    assert_eq!(check(masked), Ok(sizes.wires));
                    check_masked_kinds(table, *order, masked);
                }
                (Case::Forecast { table, order }, number @ (0 | 8), _) => {
                    assert_eq!(check_counts(&Model, table, *order, outcome), Ok(()), "{case}");
                    let fits = figures(table, *order).unwrap().largest >= *order;
                    assert_eq!(fits, number == 0, "{case}");
                }
                (Case::Marks { and, table, order, wire }, 0, _) => {
                    check_reads(*and, table, *order, &[*wire]);
                }
                (Case::Map(map), 0, buffers) => {
                    if let Err(text) = check_mapping(&Model, map, outcome.values[0], buffers) {
                        panic!("{case}\n{text}");
                    }
                }
                _ => {}
            }
        }
        assert_eq!(tally.missing(call), None);
    }
}

#[test]
fn all_tapes_of_small_circuits_hold_together() {
    for and in And::BOTH {
        for circuit in circuits().iter().filter(|circuit| circuit.inputs == 1) {
            check_patterns(&Model, and, circuit, 1).unwrap();
            check_maps(&Model, &Model, and, circuit).unwrap();
        }
        for circuit in circuits_for_order_2() {
            check_patterns(&Model, and, &circuit, 2).unwrap();
        }
    }
}

#[test]
fn sampled_maps_hold() {
    let mut rng = Rng::new(1);
    for (and, order) in And::BOTH.into_iter().flat_map(|and| [(and, 2), (and, 3), (and, 15)]) {
        for circuit in sampled::circuits(order) {
            let case = Case::Map(sampled::draw(&mut rng, and, &circuit, order));
            let mut buffers = case.buffers();
            let outcome = case.put_to(&Model, &mut buffers);
            let Case::Map(map) = &case else { unreachable!("a map was drawn") };
            assert_eq!(check_mapping(&Model, map, outcome.values[0], &buffers), Ok(()), "{case}");
        }
    }
}

#[test]
fn a_tape_is_packed_lowest_bit_first() {
    let tape = [1, 0, 0, 1, 1, 0, 1];
    assert_eq!(pack(&tape), [0x59]);
    assert_eq!(cut(&[0x59], 7, 4), (vec![0x09], vec![0x05]));
    assert_eq!(pack(&[0, 0, 0, 1, 0, 0, 1]), [0x48]);
    assert_eq!((pack(&[]), bytes_for(0)), (vec![], 0));
    assert_eq!((pack(&[1; 8]), bytes_for(8)), (vec![0xff], 1));
    assert_eq!((pack(&[1; 9]), bytes_for(9)), (vec![0xff, 0x01], 2));
}

#[test]
fn tapes_of_chosen_lengths_are_taken_and_refused() {
    for call in tapes::CALLS {
        let seen = tapes::check(call, 1, |case| Ok(case.put_to(&Model, &mut case.buffers())));
        if let Err(text) = seen {
            panic!("{text}");
        }
    }
}

#[test]
fn kinds_are_taken_and_refused() {
    for call in kinds::CALLS {
        let seen = kinds::check(call, 1, |case| Ok(case.put_to(&Model, &mut case.buffers())));
        if let Err(text) = seen {
            panic!("{text}");
        }
    }
}

/// A million runs each; any two probes on the masked AND, or OR, at order 2 tell nothing about the secrets.
#[test]
fn two_probes_at_order_2_tell_nothing() {
    for gate in [and(0, 1), or(0, 1)] {
        for and in And::BOTH {
            check_patterns(&Model, and, &Circuit::new(2, &[gate], &[2]), 2).unwrap();
        }
    }
}
