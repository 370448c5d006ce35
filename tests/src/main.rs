//! Compares the archive libmasks_c.a with the implementation of this crate.
//!
//!     compare [--seed N]                the comparison: version, examples, generated cases, tapes
//!     compare fuzz SECONDS [--seed N]   generated cases for so long, from the clock's seed or N
//!     compare case CALL SEED            one generated case again, shown in full
//!     compare line FILE                 the line that the forecast program prints for an input
//!     compare programs                  tests the programs that rt built, ./fantzori and the pages
//!     compare commands [GROUP]          tests the commands of ./fantzori alone, or a group of them
//!     compare building                  tests what it builds and installs alone
//!     compare pages                     tests the pages alone
//!     compare examples                  writes the tables under examples/ again

mod building;
mod commands;
mod ffi;
mod large;
mod pages;
mod programs;
mod running;
mod version;

use std::process::ExitCode;
use std::time::{Duration, Instant, SystemTime};
use std::{env, fs};

use compare::case::{Call, Case};
use compare::compare::{Tally, compare};
use compare::masks::{Model, Outcome};
use compare::model::And;
use compare::properties::{check_counts, check_mapping};
use compare::rng::Rng;
use compare::{examples, exhaustive, generate, kinds, model, sampled, tapes};

use ffi::Archive;

const FIXED_SEED: u64 = 1;
const CASES_PER_CALL: u64 = 200_000;
const CASES_PER_FUZZ_ROUND: u64 = 1_000;
const USAGE: &str = "\
usage: compare [--seed N]
       compare fuzz SECONDS [--seed N]
       compare case CALL SEED
       compare line FILE
       compare programs
       compare commands [GROUP]
       compare building
       compare pages
       compare examples";

fn main() -> ExitCode {
    let arguments: Vec<String> = env::args().skip(1).collect();
    let arguments: Vec<&str> = arguments.iter().map(String::as_str).collect();
    let result = match arguments[..] {
        [] => compare_all(FIXED_SEED),
        ["--seed", seed] => number(seed).and_then(compare_all),
        ["fuzz", seconds] => number(seconds).and_then(|seconds| fuzz(seconds, clock_seed())),
        ["fuzz", seconds, "--seed", seed] => {
            number(seconds).and_then(|seconds| fuzz(seconds, number(seed)?))
        }
        ["case", call, seed] => number(seed).and_then(|seed| repeat_case(call, seed)),
        ["line", file] => print_line(file),
        ["programs"] => test_programs(),
        ["commands"] => commands::test(),
        ["commands", group] => commands::test_one(group),
        ["building"] => building::test(),
        ["pages"] => pages::test(),
        ["examples"] => programs::write_examples(),
        _ => Err(USAGE.into()),
    };
    match result {
        Ok(()) => ExitCode::SUCCESS,
        Err(text) => {
            eprintln!("{text}");
            ExitCode::FAILURE
        }
    }
}

/// All tests of the programs, the commands and the pages.
fn test_programs() -> Result<(), String> {
    programs::test()?;
    commands::test()?;
    building::test()?;
    pages::test()
}

fn number(text: &str) -> Result<u64, String> {
    text.parse().map_err(|_| format!("{text} is not a number\n{USAGE}"))
}

fn clock_seed() -> u64 {
    let since = SystemTime::now().duration_since(SystemTime::UNIX_EPOCH);
    since.map_or(0, |time| time.as_nanos() as u64)
}

/// The seeds of a call's cases.
fn seeds(call: Call, seed: u64) -> Rng {
    Rng::new(seed.wrapping_mul(16).wrapping_add(call.index() as u64))
}

/// The whole comparison, with a line for each call.
fn compare_all(seed: u64) -> Result<(), String> {
    version::compare()?;
    let mut tallies = [Tally::default(); Call::ALL.len()];
    compare_examples(&mut tallies)?;
    for call in Call::ALL {
        let tally = &mut tallies[call.index()];
        compare_generated(call, &mut seeds(call, seed), CASES_PER_CALL, tally)?;
        println!("{}: {tally}", call.name());
    }
    compare_kinds(seed)?;
    compare_tapes(seed)?;
    for and in And::BOTH {
        compare_all_tapes(and)?;
        compare_sampled_maps(and, seed)?;
    }
    match Call::ALL.into_iter().find_map(|call| tallies[call.index()].missing(call)) {
        Some(missing) => Err(format!("FAILED: {missing}")),
        None => Ok(()),
    }
}

fn compare_examples(tallies: &mut [Tally]) -> Result<(), String> {
    for example in examples::examples() {
        let told = |text: String| {
            format!("FAILED: example \"{}\"\n{}\n{text}", example.name, example.case)
        };
        example.put_to(&Archive).map_err(told)?;
        let outcome = compare_case(&example.case).map_err(told)?;
        tallies[example.case.call().index()].add(&example.case, outcome);
    }
    Ok(())
}

fn compare_generated(
    call: Call,
    seeds: &mut Rng,
    cases: u64,
    tally: &mut Tally,
) -> Result<(), String> {
    for _ in 0..cases {
        let seed = seeds.draw();
        let case = generate::generate(call, &mut Rng::new(seed));
        let outcome = compare_case(&case).map_err(|text| {
            format!("FAILED: repeat with `case {} {seed}`\n{case}\n{text}", call.name())
        })?;
        tally.add(&case, outcome);
    }
    Ok(())
}

/// Compares one case, and looks closer at an accepted map and at a forecast that 1 to 7 let pass.
fn compare_case(case: &Case) -> Result<Outcome, String> {
    let (outcome, buffers) = compare(case, &Model, &Archive)?;
    match (case, outcome.number) {
        (Case::Map(map), 0) => check_mapping(&Archive, map, outcome.values[0], &buffers)?,
        (Case::Forecast { table, order }, 0 | 8) => {
            check_counts(&Archive, table, *order, outcome)?;
        }
        _ => {}
    }
    Ok(outcome)
}

/// Kinds and their operands, good and bad ones, with a line for each call.
fn compare_kinds(seed: u64) -> Result<(), String> {
    for call in kinds::CALLS {
        let seen =
            kinds::check(call, seed, compare_case).map_err(|text| format!("FAILED: {text}"))?;
        println!("kinds to {}: {seen}", call.name());
    }
    Ok(())
}

/// Tapes of chosen lengths, as they should be and otherwise, with a line for each call.
fn compare_tapes(seed: u64) -> Result<(), String> {
    for call in tapes::CALLS {
        let seen =
            tapes::check(call, seed, compare_case).map_err(|text| format!("FAILED: {text}"))?;
        println!("tapes to {}: {seen}", call.name());
    }
    Ok(())
}

/// Small circuits with all tapes and all secrets.
fn compare_all_tapes(and: And) -> Result<(), String> {
    let (name, circuits) = (and.name(), exhaustive::circuits());
    let (mut runs, mut maps) = (0, 0);
    for circuit in &circuits {
        let told = |text| format!("FAILED: {name}, all tapes at order 1 of {circuit:?}\n{text}");
        runs += exhaustive::check_patterns(&Archive, and, circuit, 1).map_err(told)?;
        maps += exhaustive::check_maps(&Model, &Archive, and, circuit).map_err(told)?;
    }
    for circuit in exhaustive::circuits_for_order_2() {
        let told = |text| format!("FAILED: {name}, all tapes at order 2 of {circuit:?}\n{text}");
        runs += exhaustive::check_patterns(&Archive, and, &circuit, 2).map_err(told)?;
    }
    let count = circuits.len();
    println!("{name}, all tapes of {count} small circuits: {runs} runs, {maps} maps");
    Ok(())
}

/// Drawn maps of the same circuits and of the examples at higher orders.
fn compare_sampled_maps(and: And, seed: u64) -> Result<(), String> {
    let mut rng = Rng::new(seed);
    for (order, count) in sampled::ORDERS {
        let circuits = sampled::circuits(order);
        for circuit in &circuits {
            for _ in 0..count {
                let case = Case::Map(sampled::draw(&mut rng, and, circuit, order));
                let outcome =
                    compare_case(&case).map_err(|text| format!("FAILED: {case}\n{text}"))?;
                if outcome.number != 0 {
                    return Err(format!("FAILED: {case}\nrefused with {}", outcome.number));
                }
            }
        }
        let name = and.name();
        println!("{name}, maps of {} circuits at order {order}: {count} each", circuits.len());
    }
    Ok(())
}

/// Generated cases for so long, or up to the first that disagrees. The last line is the verdict: the
/// seconds, the cases of each call, how many disagree, and the seed.
fn fuzz(seconds: u64, seed: u64) -> Result<(), String> {
    println!("seed {seed}");
    let start = Instant::now();
    let mut all_seeds = Call::ALL.map(|call| seeds(call, seed));
    let mut tallies = [Tally::default(); Call::ALL.len()];
    let mut compared = Ok(());
    while compared.is_ok() && start.elapsed() < Duration::from_secs(seconds) {
        compared = Call::ALL.into_iter().zip(&mut all_seeds).try_for_each(|(call, seeds)| {
            compare_generated(call, seeds, CASES_PER_FUZZ_ROUND, &mut tallies[call.index()])
        });
    }
    let mut cases = Vec::new();
    for call in Call::ALL {
        let tally = &tallies[call.index()];
        println!("{}: {tally}", call.name());
        cases.push(format!("{} {}", call.name(), tally.cases()));
    }
    let (seconds, cases) = (start.elapsed().as_secs(), cases.join(", "));
    let verdict = |count| format!("{seconds} s, cases: {cases}; {count}, seed {seed}");
    match compared {
        Ok(()) => {
            println!("{}", verdict("0 disagreements"));
            Ok(())
        }
        Err(text) => Err(format!("{text}\n{}", verdict("1 disagreement"))),
    }
}

fn repeat_case(call: &str, seed: u64) -> Result<(), String> {
    let Some(call) = Call::ALL.into_iter().find(|known| known.name() == call) else {
        return Err(format!("{call} is not a call that is compared"));
    };
    let case = generate::generate(call, &mut Rng::new(seed));
    println!("{case:#}");
    let outcome = compare_case(&case).map_err(|text| format!("FAILED: {text}"))?;
    println!("{outcome}");
    Ok(())
}

fn print_line(file: &str) -> Result<(), String> {
    let input = fs::read(file).map_err(|error| format!("{file}: {error}"))?;
    print!("{}", model::forecast_line(&input));
    Ok(())
}
