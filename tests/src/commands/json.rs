//! Tests of `--json` and `--quiet`: the answers for programs, with exactly their keys.

use std::ffi::OsStr;
use std::fs;
use std::os::unix::ffi::OsStrExt;

use compare::circuit::{Circuit, and, constant, not, random, xor};
use compare::examples::{and_chain, the_and};
use compare::model::{self, And};
use compare::samples::samples;

use super::certify::there;
use super::reader::{Json, escaped, object};
use crate::running::{Folder, Ran, ensure, masked, masked_with, with_and};

pub fn test(folder: &Folder) -> Result<(), String> {
    for sample in samples() {
        let table = sample.circuit.bytes();
        folder.write("table", &table)?;
        checked(folder, &table)?;
        for (and, order) in And::BOTH.into_iter().zip([1, 3]) {
            sizes(folder, &table, order)?;
            made(folder, &table, and, order)?;
        }
    }
    several(folder)?;
    names(folder)?;
    refusals(folder)?;
    version(folder)?;
    quiet(folder)
}

/// The one object on standard output of a command that told nothing else.
pub fn answer(ran: &Ran, status: i32) -> Result<Json, String> {
    let alone = ran.status == Some(status) && ran.told.is_empty() && ran.out.ends_with("}\n");
    ensure(alone && ran.out.lines().count() == 1, ran, "it is not one line of JSON")?;
    let text =
        String::from_utf8(ran.bytes.0.clone()).map_err(|error| format!("FAILED: {error}"))?;
    Json::read(&text)
}

/// The object on standard output is this one.
pub fn ensure_answer(ran: &Ran, status: i32, due: &Json) -> Result<(), String> {
    let found = answer(ran, status)?;
    ensure(found == *due, ran, &format!("the answer is not {}", due.laid_out("", false)))
}

/// What `check` answers.
fn check_of(name: &[u8], table: &[u8]) -> Json {
    let circuit = Circuit::read(table);
    let (inputs, gates) = (usize::from(circuit.inputs), circuit.gates.len());
    let count = |kind: u8| circuit.gates.iter().filter(|gate| gate.0 == kind).count().into();
    let kinds = [
        ("not", count(model::NOT)),
        ("xor", count(model::XOR)),
        ("and", count(model::AND)),
        ("random", count(model::RANDOM)),
        ("constant", count(model::CONSTANT)),
        ("or", count(model::OR)),
    ];
    object([
        ("file", name.into()),
        ("inputs", inputs.into()),
        ("gates", gates.into()),
        ("outputs", circuit.outputs.len().into()),
        ("wires", (inputs + gates).into()),
        ("bytes", table.len().into()),
        ("kinds", object(kinds)),
    ])
}

/// `check` of a plain table and of a masked one.
fn checked(folder: &Folder, table: &[u8]) -> Result<(), String> {
    let masked = masked(1, table)?;
    folder.write("masked", &masked)?;
    ensure_answer(&folder.run(&["check", "--json", "table"])?, 0, &check_of(b"table", table))?;
    ensure_answer(&folder.run(&["check", "masked", "--json"])?, 0, &check_of(b"masked", &masked))
}

/// `forecast`.
fn sizes(folder: &Folder, table: &[u8], order: u8) -> Result<(), String> {
    let sizes = model::forecast(table, order).map_err(|refusal| format!("FAILED: {refusal:?}"))?;
    let due = object([
        ("file", "table".into()),
        ("order", Json::Number(order.into())),
        ("shares", Json::Number(sizes.shares.into())),
        ("wires", Json::Number(sizes.wires.into())),
        ("tape_bits", Json::Number(sizes.tape.into())),
        ("bytes", Json::Number(sizes.bytes.into())),
    ]);
    ensure_answer(&folder.run(&["forecast", "--json", &format!("0{order}"), "table"])?, 0, &due)
}

/// `mask` to a file, and to standard output, where the answer is on standard error.
fn made(folder: &Folder, table: &[u8], and: And, order: u8) -> Result<(), String> {
    let ran =
        folder.run(&with_and(and, &["mask", "--json", &order.to_string(), "table", "made"]))?;
    let found = answer(&ran, 0)?;
    let masked = masked_with(and, order, table)?;
    ensure(folder.read("made")? == masked, &ran, "OUT is another table")?;
    let [file, page] = ["crates/secrecy/proofs/Whole.antt", "docs/ASSURANCE.md"].map(there);
    let (file, page) = (file?, page?);
    let sizes = model::forecast(table, order).map_err(|refusal| format!("FAILED: {refusal:?}"))?;
    let (plain_sum, masked_sum) = (folder.sum("table")?, folder.sum("made")?);
    let due = |out: &str| {
        object([
            ("file", "table".into()),
            ("out", out.into()),
            ("order", Json::Number(order.into())),
            ("and", and.name().into()),
            ("shares", Json::Number(sizes.shares.into())),
            ("wires", Json::Number(sizes.wires.into())),
            ("tape_bits", Json::Number(sizes.tape.into())),
            ("bytes", masked.len().into()),
            ("theorem", object([("name", "demands".into()), ("file", file[..].into())])),
            ("full_text", page[..].into()),
            ("plain_sha256", plain_sum[..].into()),
            ("masked_sha256", masked_sum[..].into()),
        ])
    };
    ensure(found == due("made"), &ran, "the answer is another")?;
    let ran = folder.run(&with_and(and, &["mask", "--json", &order.to_string(), "table", "-"]))?;
    ensure(ran.status == Some(0) && ran.bytes.0 == masked, &ran, "another table is printed")?;
    ensure(Json::read(&ran.told)? == due("-"), &ran, "the answer is another")
}

/// `check` of several files: one object a line, those of refusals too, and other words elsewhere.
fn several(folder: &Folder) -> Result<(), String> {
    folder.write("table", &the_and())?;
    folder.write("bad", &Circuit::new(2, &[not(0)], &[0, 3]).bytes())?;
    let ran = folder
        .script("\"$@\" <table", &["check", "--json", "table", "bad", "missing", "-", "table"])?;
    ensure(ran.status == Some(2), &ran, "the status is not the worst")?;
    ensure(ran.is_told("fantzori: there is no file 'missing'\n"), &ran, "one file is missing")?;
    let found = ran.out.lines().map(Json::read).collect::<Result<Vec<_>, _>>()?;
    let due = [
        check_of(b"table", &the_and()),
        refusal(b"bad", 5, 1, "it is no wire of the table"),
        check_of(b"standard input", &the_and()),
        check_of(b"table", &the_and()),
    ];
    ensure(found == due, &ran, "the answers are others")
}

/// Names of files with all kinds of bytes.
const NAMES: [&[u8]; 20] = [
    b"\"quoted\"",
    b"back\\slash",
    b"\\u0041\\n%s",
    b"two\nlines",
    b"at the end\n",
    b"\ttab\r",
    b"\x01\x08\x0c\x1f\x7f",
    " spaces  ".as_bytes(),
    "é".as_bytes(),
    "\u{7ff}\u{800}\u{d7ff}\u{e000}\u{ffff}".as_bytes(),
    "😀\u{10000}\u{10ffff}".as_bytes(),
    b"\xff\xfe",
    b"\x80 alone",
    b"cut \xc3",
    b"cut \xe2\x82, \xf0\x9f\x98",
    b"\xc0\xaf overlong \xe0\x80\xaf \xf0\x82\x82\xac",
    b"surrogates \xed\xa0\xbd\xed\xb8\x80",
    b"too high \xf4\x90\x80\x80 \xf5\x80\x80\x80",
    b"mixed \xc3\xa9\xc3\xe2\x82\xac\xa9",
    b"$(x)`y`'&",
];

/// Every name is in valid JSON, and stands for the same bytes.
fn names(folder: &Folder) -> Result<(), String> {
    let masked = masked(1, &the_and())?;
    folder.write("masked", &masked)?;
    for (number, name) in NAMES.into_iter().enumerate() {
        let file = OsStr::from_bytes(name);
        fs::write(folder.path("").join(file), the_and()).map_err(|error| folder.told(error))?;
        let words = |words: &[&'static str]| {
            let name = |word: &&'static str| if *word == "NAME" { file } else { OsStr::new(*word) };
            folder.run_with(&words.iter().map(name).collect::<Vec<_>>())
        };
        let ran = words(&["check", "--json", "NAME"])?;
        ensure_answer(&ran, 0, &check_of(name, &the_and()))?;
        ensure(ran.out.contains(&escaped(name)), &ran, "the name is escaped otherwise")?;
        if number % 3 == 0 {
            for (words, key) in [
                (words(&["forecast", "--json", "1", "NAME"])?, "file"),
                (words(&["mask", "--json", "1", "NAME", "made"])?, "file"),
                (words(&["certify", "--json", "1", "NAME", "masked"])?, "circuit"),
            ] {
                let found = answer(&words, 0)?;
                ensure(found.at(key) == Some(&name.into()), &words, "the name is another")?;
            }
            let ran = words(&["certify", "--json", "1", "table", "NAME"])?;
            ensure(answer(&ran, 1)?.at("file") == Some(&name.into()), &ran, "another name")?;
        }
        let ran = words(&["mask", "--json", "1", "table", "NAME"])?;
        ensure(answer(&ran, 0)?.at("out") == Some(&name.into()), &ran, "OUT has another name")?;
        let path = folder.path("").join(file);
        let made = fs::read(&path).map_err(|error| folder.told(error))?;
        ensure(made == masked, &ran, "OUT is another table")?;
        fs::remove_file(path).map_err(|error| folder.told(error))?;
    }
    Ok(())
}

/// The answer of a refusal.
fn refusal(file: &[u8], number: usize, place: usize, why: &str) -> Json {
    object([
        ("file", file.into()),
        ("refused", number.into()),
        ("place", place.into()),
        ("why", why.into()),
    ])
}

/// Refusals by every command, with the same reason as in words.
fn refusals(folder: &Folder) -> Result<(), String> {
    let nots: Vec<_> = (0..65_526).map(not).collect();
    let tables = [
        (vec![2, 0], 1, 0),
        (Circuit::new(0, &[], &[0]).bytes(), 2, 0),
        (Circuit::new(2, &[xor(0, 1), (6, 0, 0)], &[2]).bytes(), 3, 1),
        (Circuit::new(2, &[not(0), and(3, 0), constant(2)], &[2]).bytes(), 4, 1),
        (Circuit::new(2, &[and(0, 1)], &[2, 2, 3]).bytes(), 5, 2),
        (Circuit::new(2, &[and(0, 1), random()], &[2]).bytes(), 7, 1),
        (and_chain(2_731), 8, 0),
        (Circuit::new(3, &nots, &[65_528]).bytes(), 9, 0),
    ];
    folder.write("table", &the_and())?;
    let cert = folder.run(&["certify", "--json", "1", "table", "masked"])?;
    folder.write("cert", cert.out.as_bytes())?;
    for (table, number, place) in tables {
        folder.write("bad", &table)?;
        let commands: [&[&str]; 5] = [
            &["forecast", "1", "bad"],
            &["check", "bad"],
            &["mask", "1", "bad", "not there"],
            &["certify", "1", "bad", "masked"],
            &["verify", "cert", "bad", "masked"],
        ];
        for words in &commands[..if number == 9 { 1 } else { 5 }] {
            if words[0] == "check" && number > 5 {
                continue;
            }
            refused_alike(folder, words, number, place)?;
        }
    }
    for order in ["0", "16", "999"] {
        refused_alike(folder, &["forecast", order, "table"], 6, 0)?;
    }
    Ok(())
}

/// A refusal in words and as JSON says the same.
fn refused_alike(
    folder: &Folder,
    words: &[&str],
    number: usize,
    place: usize,
) -> Result<(), String> {
    let ran = folder.run(words)?;
    let file = if words.contains(&"bad") { "bad" } else { "table" };
    ensure(ran.is_ended(1, &format!("{file}: refused {number}")), &ran, "it is not refused")?;
    let why = ran.told.trim_end().splitn(3, ": ").nth(2).unwrap_or_default();
    let due = refusal(file.as_bytes(), number, place, why);
    ensure_answer(&folder.run(&[words, &["--json"]].concat())?, 1, &due)?;
    ensure(!folder.path("not there").exists(), &ran, "a refusal wrote OUT")
}

/// `version` says the same in words and as JSON.
fn version(folder: &Folder) -> Result<(), String> {
    let ran = folder.run(&["version"])?;
    let mut lines = ran.out.lines();
    let mut after = |name: &str| {
        lines.next().and_then(|line| line.strip_prefix(name)).unwrap_or_default().into()
    };
    let due = object([
        ("product", "Fantzori".into()),
        ("version", after("fantzori ")),
        ("key", after("sources ")),
        ("toolchain", after("toolchain ")),
    ]);
    ensure_answer(&folder.run(&["version", "--json"])?, 0, &due)
}

/// With `--quiet` the status is the same, and nothing is on standard output.
fn quiet(folder: &Folder) -> Result<(), String> {
    folder.write("bad", &[2, 0])?;
    folder.write("other", b"other")?;
    for words in [
        &["version"][..],
        &["check", "table"],
        &["check", "bad"],
        &["check", "missing", "bad", "table"],
        &["forecast", "1", "table"],
        &["forecast", "16", "table"],
        &["mask", "1", "table", "made"],
        &["mask", "1", "bad", "made"],
        &["mask", "1", "missing", "made"],
        &["certify", "1", "table", "masked"],
        &["certify", "1", "table", "other"],
        &["certify", "2", "bad", "masked"],
        &["verify", "cert", "table", "masked"],
        &["verify", "cert", "table", "other"],
        &["verify", "other", "table", "masked"],
    ] {
        let ran = folder.run(words)?;
        let quiet = folder.run(&[words, &["--quiet"]].concat())?;
        ensure(quiet.status == ran.status && quiet.out.is_empty(), &quiet, "it is not quiet")?;
        ensure(ran.told.is_empty() <= quiet.told.is_empty(), &quiet, "more is told")?;
    }
    Ok(())
}
