//! Tests of `check` and `version`.

use std::{fs, iter};

use compare::circuit::{Circuit, constant, not, or, random};
use compare::examples::{and_chain, constants, or_chain, the_and};
use compare::model::{AND, CONSTANT, NOT, OR, RANDOM, XOR};
use compare::samples::samples;

use crate::programs::root;
use crate::running::{Folder, ensure, masked};

pub fn test(folder: &Folder) -> Result<(), String> {
    checks(folder)?;
    several(folder)?;
    worst(folder)?;
    version(folder)
}

/// So many of something.
fn count_of(count: usize, name: &str) -> String {
    if count == 1 { format!("1 {name}") } else { format!("{count} {name}s") }
}

/// The sizes and kinds of a sound table, counted from its bytes.
pub fn counts(table: &[u8]) -> String {
    let [inputs, gates, outputs] =
        [0, 2, 4].map(|at| usize::from(u16::from_le_bytes([table[at], table[at + 1]])));
    let [nots, xors, ands, randoms, constants, ors] = [NOT, XOR, AND, RANDOM, CONSTANT, OR]
        .map(|kind| table[6..6 + gates].iter().filter(|&&other| other == kind).count());
    format!(
        "{}, {}, {}, {}, {} bytes\n\
         {nots} NOT, {xors} XOR, {ands} AND, {randoms} random, {constants} constant, {ors} OR\n",
        count_of(inputs, "input"),
        count_of(gates, "gate"),
        count_of(outputs, "output"),
        count_of(inputs + gates, "wire"),
        table.len()
    )
}

/// The same with a file's name before each line, as it is for several files.
fn named_counts(name: &str, table: &[u8]) -> String {
    counts(table).lines().map(|line| format!("{name}: {line}\n")).collect()
}

/// The sizes of sound tables, the least and the longest.
fn checks(folder: &Folder) -> Result<(), String> {
    let mut tables = vec![and_chain(2_730), masked(1, &and_chain(2_730))?];
    tables.extend(
        [&[0][..], &[0; 2], &[0; 65_535]].map(|outputs| Circuit::new(1, &[], outputs).bytes()),
    );
    tables.push(Circuit::new(2, &[not(0)], &[0, 2]).bytes());
    tables.push(Circuit::new(1, &(0..65_534).map(not).collect::<Vec<_>>(), &[65_534]).bytes());
    tables.push(Circuit::new(2, &[random(), random(), not(2)], &[3, 4]).bytes());
    tables.push(Circuit::new(1, &[constant(1), or(0, 1), random(), or(1, 1)], &[1, 4]).bytes());
    tables.extend([or_chain(65_533), constants(65_534), masked(1, &or_chain(2_427))?]);
    for sample in samples() {
        let table = sample.circuit.bytes();
        tables.extend([masked(1, &table)?, masked(6, &table)?, table]);
    }
    for table in tables {
        folder.write("table", &table)?;
        let ran = folder.run(&["check", "table"])?;
        ensure(ran.is_done() && ran.out == counts(&table), &ran, &counts(&table))?;
    }
    Ok(())
}

/// Several files, each by itself: a name may be given twice, and one may be standard input.
fn several(folder: &Folder) -> Result<(), String> {
    let all: Vec<(String, Vec<u8>)> =
        samples().map(|sample| (format!("the {}", sample.name), sample.circuit.bytes())).into();
    for (name, table) in &all {
        folder.write(name, table)?;
    }
    let words: Vec<&str> =
        iter::once("check").chain(all.iter().map(|(name, _)| &name[..])).collect();
    let due: String = all.iter().map(|(name, table)| named_counts(name, table)).collect();
    let ran = folder.run(&words)?;
    ensure(ran.is_done() && ran.out == due, &ran, &due)?;
    let (and, status) = (&all[0].1, &all[2].1);
    let ran = folder.script("\"$@\" <'the status'", &["check", "the and", "-", "--", "the and"])?;
    let due = named_counts("the and", and)
        + &named_counts("standard input", status)
        + &named_counts("the and", and);
    ensure(ran.is_done() && ran.out == due, &ran, &due)
}

/// The status is the worst, wherever it stands, and the other files are told too.
fn worst(folder: &Folder) -> Result<(), String> {
    folder.write("sound", &the_and())?;
    folder.write("short", &[2, 0, 1])?;
    folder.write("bad", &Circuit::new(2, &[not(0)], &[0, 3]).bytes())?;
    let files = [
        ("sound", 0, ""),
        ("short", 1, "short: refused 1: the table has fewer than six bytes"),
        ("bad", 1, "bad: refused 5 at output 1: it is no wire of the table"),
        ("missing", 2, "fantzori: there is no file 'missing'"),
        ("sub folder", 2, "fantzori: 'sub folder' is a folder"),
    ];
    for chosen in [&[0, 1][..], &[1, 0], &[0, 3, 0], &[3, 1, 2, 0], &[2, 3, 0, 4], &[1, 2], &[3, 4]]
    {
        let chosen: Vec<_> = chosen.iter().map(|&at| files[at]).collect();
        let names: Vec<&str> = chosen.iter().map(|file| file.0).collect();
        let status = chosen.iter().map(|file| file.1).max();
        let sound = chosen.iter().filter(|file| file.1 == 0).count();
        let told: Vec<&str> =
            chosen.iter().map(|file| file.2).filter(|told| !told.is_empty()).collect();
        let due = named_counts("sound", &the_and()).repeat(sound);
        for quiet in [false, true] {
            let option: &[&str] = if quiet { &["--quiet"] } else { &[] };
            let ran = folder.run(&[&["check"], option, &names[..]].concat())?;
            let lines: Vec<&str> = ran.told.lines().collect();
            let begin = |(line, told): (&&str, &&str)| line.starts_with(*told);
            let sound = lines.len() == told.len() && lines.iter().zip(&told).all(begin);
            ensure(ran.status == status && sound, &ran, "not each file is told")?;
            ensure(ran.out == if quiet { "" } else { &due }, &ran, "the sound ones are others")?;
        }
    }
    Ok(())
}

/// Three lines: the header's version, a SHA-256, the toolchain that the sources are for.
fn version(folder: &Folder) -> Result<(), String> {
    let read = |name: &str| {
        fs::read_to_string(root().join(name)).map_err(|error| format!("FAILED: {name}: {error}"))
    };
    let (header, toolchain) = (read("include/masks.h")?, read("toolchain.txt")?);
    let ran = folder.run(&["version"])?;
    let lines: Vec<&str> = ran.out.lines().collect();
    ensure(ran.is_done() && lines.len() == 3, &ran, "version has not three lines")?;
    let [version, key] = [("fantzori ", 0), ("sources ", 1)]
        .map(|(name, at)| lines[at].strip_prefix(name).unwrap_or_default());
    let defined = format!("\n#define MASKS_VERSION \"{version}\"\n");
    ensure(header.contains(&defined), &ran, "it is not the header's version")?;
    let is_digit = |byte: u8| byte.is_ascii_digit() || (b'a'..=b'f').contains(&byte);
    ensure(key.len() == 64 && key.bytes().all(is_digit), &ran, "the key is no SHA-256")?;
    let named = format!("toolchain {}", toolchain.trim());
    ensure(lines[2] == named, &ran, "the toolchain is another")?;
    let ran = folder.run(&["--version"])?;
    ensure(ran.is_done() && ran.out.lines().eq(lines), &ran, "--version is another")
}
