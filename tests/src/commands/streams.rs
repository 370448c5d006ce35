//! Tests of standard input as a file, and of standard output as OUT.

use std::fs;

use compare::examples::{and_chain, the_and};
use compare::model::{self, And};
use compare::samples::samples;

use super::{counts, ensure_kept};
use crate::running::{Folder, Ran, ensure, masked_with, with_and};

pub fn test(folder: &Folder) -> Result<(), String> {
    let mut tables = vec![the_and(), and_chain(300)];
    tables.extend(samples().map(|sample| sample.circuit.bytes()));
    for table in &tables {
        outputs(folder, table)?;
    }
    inputs(folder)?;
    certificates(folder)?;
    twice(folder)?;
    closed(folder)?;
    refused(folder)
}

/// Standard output has the table alone, from a file, from a pipe and from a file as standard input.
fn outputs(folder: &Folder, table: &[u8]) -> Result<(), String> {
    folder.write("table", table)?;
    for (and, order) in And::BOTH.into_iter().zip([1, 3]) {
        let due = masked_with(and, order, table)?;
        let number = order.to_string();
        let words = folder.run(&with_and(and, &["mask", &number, "table", "made"]))?.out;
        for (script, file) in [("\"$@\"", "table"), ("cat table | \"$@\"", "-")] {
            let ran = folder.script(script, &with_and(and, &["mask", &number, file, "-"]))?;
            ensure(ran.bytes.0 == due, &ran, "another table is on standard output")?;
            ensure(ran.status == Some(0) && ran.told == words, &ran, "the words are others")?;
        }
        let words = with_and(and, &["mask", "--quiet", &number, "-", "-"]);
        let ran = folder.script("\"$@\" <table", &words)?;
        ensure(ran.is_done() && ran.bytes.0 == due, &ran, "it is not the table alone")?;
        // What is in OUT's place is no file.
        ensure(!folder.path("-").exists(), &ran, "a file '-' was written")?;
    }
    fs::remove_file(folder.path("made")).map_err(|error| folder.told(error))
}

/// A table from standard input, redirected and through a pipe, gives the same answers.
fn inputs(folder: &Folder) -> Result<(), String> {
    for table in [the_and(), and_chain(300)] {
        folder.write("table", &table)?;
        for (words, due) in [
            (&["check", "-"][..], counts(&table)),
            (&["show", "-"], model::listing(&table)),
            (&["forecast", "1", "-"], forecast(&table)?),
        ] {
            for script in ["\"$@\" <table", "cat table | \"$@\""] {
                let ran = folder.script(script, words)?;
                ensure(ran.is_done() && ran.out == due, &ran, &due)?;
            }
        }
        let ran = folder.script("cat table | \"$@\"", &["mask", "2", "-", "made"])?;
        let due = masked_with(And::Isw, 2, &table)?;
        ensure(ran.is_done() && folder.read("made")? == due, &ran, "OUT is another table")?;
    }
    Ok(())
}

/// What `forecast` prints at order 1.
fn forecast(table: &[u8]) -> Result<String, String> {
    let sizes = model::forecast(table, 1).map_err(|refusal| format!("FAILED: {refusal:?}"))?;
    Ok(format!(
        "{} shares, {} wires, {} tape bits, {} bytes\n",
        sizes.shares, sizes.wires, sizes.tape, sizes.bytes
    ))
}

/// `certify` with either file from standard input, and `verify` with each of its three.
fn certificates(folder: &Folder) -> Result<(), String> {
    folder.write("table", &the_and())?;
    folder.write("masked", &masked_with(And::Isw, 1, &the_and())?)?;
    let cert = folder.run(&["certify", "1", "table", "masked"])?;
    folder.write("cert", cert.out.as_bytes())?;
    let from_input = cert.out.replace("circuit       table\n", "circuit       standard input\n");
    for (script, words, due) in [
        ("cat table | \"$@\"", &["certify", "1", "-", "masked"], &from_input),
        ("\"$@\" <masked", &["certify", "1", "table", "-"], &cert.out),
    ] {
        let ran = folder.script(script, words)?;
        // But for the day, which may have ended.
        let lines = |text: &str| -> Vec<String> {
            let lines = text.lines().filter(|line| !line.starts_with("  date "));
            lines.map(String::from).collect()
        };
        ensure(ran.is_done() && lines(&ran.out) == lines(due), &ran, "another certificate")?;
    }
    let told = |cert: &str, table: &str, masked: &str| {
        format!(
            "'{cert}' agrees with what is here: '{masked}' is '{table}' masked at order 1 with \
             the ISW AND\n"
        )
    };
    let input = "standard input";
    for (file, words, due) in [
        ("cert", ["verify", "-", "table", "masked"], told(input, "table", "masked")),
        ("table", ["verify", "cert", "-", "masked"], told("cert", input, "masked")),
        ("masked", ["verify", "cert", "table", "-"], told("cert", "table", input)),
    ] {
        for script in [format!("\"$@\" <{file}"), format!("cat {file} | \"$@\"")] {
            let ran = folder.script(&script, &words)?;
            ensure(ran.is_done() && ran.out == due, &ran, &due)?;
        }
    }
    Ok(())
}

/// Standard input can be one file, not two.
fn twice(folder: &Folder) -> Result<(), String> {
    for words in [
        &["certify", "1", "-", "-"][..],
        &["verify", "-", "-", "masked"],
        &["verify", "cert", "-", "-"],
        &["verify", "-", "table", "-"],
        &["check", "-", "-"],
        &["check", "-", "table", "-"],
    ] {
        for script in ["\"$@\" <table", "cat cert | \"$@\""] {
            let ran = folder.script(script, words)?;
            ensure(ran.is_ended(2, "fantzori: "), &ran, "it is not told as an error in one line")?;
        }
    }
    Ok(())
}

/// Every command that reads a file, with standard input as that file.
const READING: [&[&str]; 8] = [
    &["mask", "1", "-", "not there"],
    &["mask", "1", "-", "-"],
    &["forecast", "1", "-"],
    &["check", "-"],
    &["show", "-"],
    &["certify", "1", "-", "masked"],
    &["certify", "1", "table", "-"],
    &["verify", "-", "table", "masked"],
];

/// Where standard input is closed, or is a folder, that is told in one line.
fn closed(folder: &Folder) -> Result<(), String> {
    for words in READING {
        for (script, told) in [
            ("\"$@\" <&-", "fantzori: standard input is closed\n"),
            ("\"$@\" <&- 4<table", "fantzori: standard input is closed\n"),
            ("\"$@\" <'sub folder'", "fantzori: standard input "),
        ] {
            let ran = folder.script(script, words)?;
            ensure(ran.is_ended(2, told), &ran, "it is not told in one line")?;
            ensure_kept(folder)?;
        }
    }
    let ran = folder.script("\"$@\" <&-", &["check", "table"])?;
    is_sound(&ran, &counts(&the_and()))
}

fn is_sound(ran: &Ran, due: &str) -> Result<(), String> {
    ensure(ran.is_done() && ran.out == due, ran, due)
}

/// Refusals name standard input; nothing is on standard output, and nothing is written.
fn refused(folder: &Folder) -> Result<(), String> {
    folder.write("table", &[2, 0, 1])?;
    for words in [
        &["mask", "1", "-", "not there"][..],
        &["mask", "1", "-", "-"],
        &["forecast", "1", "-"],
        &["check", "-"],
        &["show", "-"],
        &["certify", "1", "-", "masked"],
        &["verify", "cert", "-", "masked"],
    ] {
        let ran = folder.script("\"$@\" <table", words)?;
        ensure(ran.is_ended(1, "standard input: refused 1: "), &ran, "it is not refused")?;
        ensure_kept(folder)?;
    }
    Ok(())
}
