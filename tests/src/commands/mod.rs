//! Tests of the commands of ./fantzori on tables and of `version`, each group in a folder of its own.

mod altered;
mod certify;
mod check;
mod differences;
mod draw;
mod files;
mod interrupts;
mod json;
mod reader;
mod refusals;
mod same;
mod streams;
mod verify;
mod words;

use std::sync::atomic::{AtomicUsize, Ordering};
use std::{iter, thread};

use compare::examples::{and_chain, the_and};
use compare::model::{self, And};
use compare::samples::samples;

pub use check::counts;

use crate::running::{Folder, ensure, masked_with, with_and};

/// What is in OUT before a command that must leave it.
const KEPT: &[u8] = b"kept";

/// A group of tests: its name, what it shows, and how it is run.
type Group = (&'static str, &'static str, fn(&Folder) -> Result<(), String>);

const GROUPS: [Group; 13] = [
    ("differences", "what is not the masked table", differences::test),
    ("verify", "certificates compared with what is here", verify::test),
    ("draw", "graphs of tables, plain and masked, of at most 2,000 wires", draw::test),
    ("json", "answers for programs", json::test),
    ("words", "words with a dash, numbers of words, help of each command", words::test),
    ("tables", "mask, forecast and show, bad arguments", tables),
    ("same", "OUT is never TABLE", same::test),
    ("streams", "standard input and output", streams::test),
    ("refusals", "refusals, every wrong order, tables too large or too long", refusals::test),
    ("check", "check, version", check::test),
    ("certify", "certificates", certify::test),
    ("files", "names of files, their modes, output that cannot be written", files::test),
    ("interrupts", "interrupts, and what a killed command leaves", interrupts::test),
];

/// All tests of the commands, two groups at a time, with a line for each.
pub fn test() -> Result<(), String> {
    let next = AtomicUsize::new(0);
    let work = || {
        let mut groups = iter::from_fn(|| GROUPS.get(next.fetch_add(1, Ordering::Relaxed)));
        groups.try_for_each(test_group)
    };
    thread::scope(|scope| {
        let other = scope.spawn(work);
        let here = work();
        other.join().map_err(|_| "FAILED: a test of commands ended early")?.and(here)
    })
}

/// The tests of one group.
pub fn test_one(name: &str) -> Result<(), String> {
    let group = GROUPS.iter().find(|group| group.0 == name);
    group.map_or(Err(format!("{name} is no group of commands")), test_group)
}

/// Runs a group in a folder of its own, which has a table and OUT.
fn test_group(&(name, shows, test): &Group) -> Result<(), String> {
    let folder = Folder::new(name)?;
    folder.write("table", &the_and())?;
    folder.write("out", KEPT)?;
    test(&folder)?;
    println!("commands: {shows}");
    Ok(())
}

fn tables(folder: &Folder) -> Result<(), String> {
    bad_arguments(folder)?;
    masks(folder)?;
    sizes(folder)?;
    shows_and_forecasts(folder)
}

/// Sound masking: names with spaces, quotes and other signs, OUT in another folder.
fn masks(folder: &Folder) -> Result<(), String> {
    for (name, out) in [("a table", "o u t"), ("n", "sub folder/out"), ("é\"$(x)'", "*")] {
        folder.write(name, &the_and())?;
        for (order, number) in [("1", 1), ("02", 2), ("15", 15)] {
            for and in And::BOTH {
                let ran = folder.run(&with_and(and, &["mask", order, name, out]))?;
                ensure(ran.is_done(), &ran, "masking fails")?;
                let due = masked_with(and, number, &the_and())?;
                ensure(folder.read(out)? == due, &ran, "OUT is another table")?;
                ensure(ran.out.lines().count() == 4, &ran, "not four lines are printed")?;
            }
        }
    }
    Ok(())
}

/// What is proved of a table that was masked at order 1, as it is told.
const PROVED: [&str; 2] = [
    "Whoever holds at most 1 needle to it in a run with a fresh tape, pins of the touched gates \
     included, learns nothing of the secrets:",
    "'demands' in crates/secrecy/proofs/Whole.antt, under the conditions in docs/ASSURANCE.md",
];

/// What is told of a table that was masked.
fn sizes(folder: &Folder) -> Result<(), String> {
    for (and, masked_sum) in [
        (And::Isw, "c8a64748704044ba1808524e5e48f093667c20f21635ba6b1dafe0bd5feda0ca"),
        (And::Dom, "632a4659df7eff4c056d171e1f1b8a0b5816fd007e72d6b5574c7a33b77eee6f"),
    ] {
        let name = and.name();
        folder.write("a table", &the_and())?;
        let ran = folder.run(&with_and(and, &["mask", "1", "a table", "out"]))?;
        let lines: Vec<&str> = ran.out.lines().collect();
        let sizes = format!("3 shares, 30 wires, 7 tape bits, AND: {name}");
        ensure(lines[0] == sizes, &ran, "the sizes or the AND are others")?;
        ensure(lines[1..3] == PROVED, &ran, "what is proved is told in other words")?;
        let plain_sum = "e76497d5f59abde9ac7b940f45d23a8f4f44700dac55e8d3ea9072e787842373";
        let told = [plain_sum, masked_sum].iter().all(|sum| lines[3].contains(sum));
        ensure(told, &ran, "the sums are others")?;
        folder.write("chain", &and_chain(2_730))?;
        let ran = folder.run(&with_and(and, &["mask", "1", "chain", "out"]))?;
        let sizes = format!("3 shares, 65526 wires, 8194 tape bits, AND: {name}\n");
        ensure(ran.out.starts_with(&sizes), &ran, "the sizes of the longest chain are others")?;
    }
    Ok(())
}

/// Arguments that no command takes.
const BAD: [&[&str]; 30] = [
    &["mask", "--dom", "one", "table", "out"],
    &["mask", "", "table", "out"],
    &["mask", "one", "table", "out"],
    &["mask", "1 ", "table", "out"],
    &["mask", "--", "-1", "table", "out"],
    &["mask", "0x1", "table", "out"],
    &["mask", "1", "no such table", "out"],
    &["mask", "1", "sub folder", "out"],
    &["mask", "1", "", "out"],
    &["mask", "1", "table", "sub folder"],
    &["mask", "1", "table", "no such folder/out"],
    &["mask", "1", "table", "/dev/full"],
    &["mask", "1", "table", ""],
    &["forecast", "", "table"],
    &["forecast", "one", "table"],
    &["forecast", "--", "-1", "table"],
    &["forecast", "1 ", "table"],
    &["forecast", "1", "no such table"],
    &["certify", "", "table", "out"],
    &["certify", "one", "table", "out"],
    &["certify", "--", "-1", "table", "out"],
    &["certify", "1 ", "table", "out"],
    &["certify", "1", "table", "no such file"],
    &["verify", "no such file", "table", "out"],
    &["verify", "sub folder", "table", "out"],
    &["show", "sub folder"],
    &["show", ""],
    &["check", ""],
    &["fuzz", "one"],
    &["uninstall", "sub folder"],
];

/// What cannot be done has status 2 and one line, and leaves OUT as it was.
fn bad_arguments(folder: &Folder) -> Result<(), String> {
    for arguments in BAD {
        let ran = folder.run(arguments)?;
        ensure(ran.is_ended(2, "fantzori: "), &ran, "it is not told as an error in one line")?;
        ensure_kept(folder)?;
    }
    Ok(())
}

/// A forecast, listings, and their refusals.
fn shows_and_forecasts(folder: &Folder) -> Result<(), String> {
    folder.write("a table", &the_and())?;
    let ran = folder.run(&["forecast", "1", "a table"])?;
    let sizes = "3 shares, 30 wires, 7 tape bits, 132 bytes\n";
    ensure(ran.status == Some(0) && ran.out == sizes, &ran, "the forecast is another")?;
    let ran = folder.run(&["show", "a table"])?;
    let lines = "inputs 2\nw2 = AND w0 w1\nout0 = w2\n";
    ensure(ran.is_done() && ran.out == lines, &ran, "the listing is another")?;
    for sample in samples() {
        let table = sample.circuit.bytes();
        for table in [masked_with(And::Dom, 2, &table)?, table] {
            folder.write("a table", &table)?;
            let ran = folder.run(&["show", "a table"])?;
            let due = model::listing(&table);
            ensure(ran.is_done() && ran.out == due, &ran, "the listing is another")?;
        }
    }
    folder.write("a table", &[2, 0, 1])?;
    for arguments in [&["forecast", "1", "a table"][..], &["show", "a table"]] {
        let ran = folder.run(arguments)?;
        ensure(ran.is_ended(1, "a table: refused 1: "), &ran, "it is not refused")?;
    }
    Ok(())
}

/// OUT is as it was, and nothing else was left in the folder.
fn ensure_kept(folder: &Folder) -> Result<(), String> {
    let is_hidden = |name: &String| name.starts_with('.');
    if folder.read("out")? != KEPT || folder.names()?.iter().any(is_hidden) {
        return Err(format!("FAILED: OUT was changed, or files were left: {:?}", folder.names()?));
    }
    if folder.path("not there").exists() {
        return Err("FAILED: a refusal wrote OUT".into());
    }
    Ok(())
}
