//! Tests of `certify`: what a certificate says, in words and as JSON.

use std::fs;
use std::path::Path;
use std::process::Command;

use compare::circuit::{Circuit, and, not, random, xor};
use compare::examples::the_and;
use compare::model::{self, And};
use compare::samples::samples;

use super::json::ensure_answer;
use super::reader::{Json, object};
use crate::programs::root;
use crate::running::{Folder, Ran, ensure, masked_with, with_and};

pub fn test(folder: &Folder) -> Result<(), String> {
    for and in And::BOTH {
        for sample in samples() {
            for order in [1, 2, 7] {
                certificate(folder, and, &sample.circuit.bytes(), order)?;
            }
        }
        let table = Circuit::new(2, &[xor(0, 1), not(2)], &[3]).bytes();
        certificate(folder, and, &table, 1)?;
    }
    names(folder)?;
    not_certified(folder)
}

/// The day in UTC, as date tells it.
fn today() -> Result<String, String> {
    let ran = Ran::of(Command::new("date").args(["-u", "+%Y-%m-%d"]))?;
    ensure(ran.is_done(), &ran, "there is no date")?;
    Ok(ran.out.trim().into())
}

/// The toolchain that proved the programs.
fn toolchain() -> Result<String, String> {
    let ran = Ran::of(Command::new("rt").arg("version"))?;
    ensure(ran.is_done(), &ran, "rt has no version")?;
    Ok(ran.out.trim().into())
}

/// What a certificate says under a name.
fn entry<'a>(ran: &'a Ran, name: &str) -> &'a str {
    let beginning = format!("  {name:<14}");
    ran.out.lines().find_map(|line| line.strip_prefix(&beginning)).unwrap_or_default()
}

/// A certificate of a sound masking says all that it rests on, and the same as JSON.
fn certificate(folder: &Folder, and: And, table: &[u8], order: u8) -> Result<(), String> {
    folder.write("table", table)?;
    folder.write("masked", &masked_with(and, order, table)?)?;
    let words = ["certify", &format!("0{order}"), "table", "masked"];
    let before = today()?;
    let ran = folder.run(&with_and(and, &words))?;
    let json = folder.run(&with_and(and, &[&words[..], &["--json"]].concat()))?;
    let days = [before, today()?];
    ensure(ran.is_done(), &ran, "a masked table is not certified")?;
    let version = folder.run(&["version"])?;
    let told: Vec<&str> = version.out.lines().collect();
    ensure(told.len() == 3, &version, "version has not three lines")?;
    let facts = Facts {
        circuit: Circuit::read(table),
        and,
        order,
        sizes: model::forecast(table, order).map_err(|refusal| format!("FAILED: {refusal:?}"))?,
        plain_sum: folder.sum("table")?,
        masked_sum: folder.sum("masked")?,
        version: told[0].replace("fantzori ", ""),
        key: told[1].replace("sources ", ""),
        toolchain: toolchain()?,
    };
    facts.in_words(&ran)?;
    ensure(days.iter().any(|day| entry(&ran, "date") == day), &ran, "the date is another")?;
    let conditions = conditions(&ran)?;
    ensure_answer(&json, 0, &facts.as_json(&ran, conditions))
}

/// What a certificate is about.
struct Facts {
    circuit: Circuit,
    and: And,
    order: u8,
    sizes: model::Sizes,
    plain_sum: String,
    masked_sum: String,
    version: String,
    key: String,
    toolchain: String,
}

impl Facts {
    fn count(&self, kind: u8) -> usize {
        self.circuit.gates.iter().filter(|gate| gate.0 == kind).count()
    }

    /// Each of these is an entry, in this order, and there is no other but the date.
    fn in_words(&self, ran: &Ran) -> Result<(), String> {
        let needles = if self.order == 1 { "1 needle" } else { &format!("{} needles", self.order) };
        let [nots, xors, ands, constants, ors] =
            [model::NOT, model::XOR, model::AND, model::CONSTANT, model::OR].map(|k| self.count(k));
        let entries = [
            ("product", format!("Fantzori {}", self.version)),
            ("circuit", "table".into()),
            ("inputs", self.circuit.inputs.to_string()),
            (
                "gates",
                format!(
                    "{}: {nots} NOT, {xors} XOR, {ands} AND, {constants} constant, {ors} OR",
                    self.circuit.gates.len()
                ),
            ),
            ("outputs", self.circuit.outputs.len().to_string()),
            (
                "order",
                format!(
                    "{}: at most {needles} together, pins of the touched gates included",
                    self.order
                ),
            ),
            ("AND", of_and(self.and).into()),
            ("shares", format!("{} for each bit", self.sizes.shares)),
            ("wires", format!("{} in the masked table", self.sizes.wires)),
            ("tape", format!("{} random bits for each run", self.sizes.tape)),
            ("plain table", format!("SHA-256 {}", self.plain_sum)),
            ("masked table", format!("SHA-256 {}", self.masked_sum)),
            ("theorem", format!("'demands' in {}", there("crates/secrecy/proofs/Whole.antt")?)),
            ("statement", format!("'Demands' in {}", there("crates/secrecy/specs/Claims.antt")?)),
            ("sources", format!("SHA-256 key {}", self.key)),
            ("toolchain", self.toolchain.clone()),
            ("date", entry(ran, "date").into()),
        ];
        let due: Vec<String> =
            entries.into_iter().map(|(name, text)| format!("  {name:<14}{text}")).collect();
        let lines: Vec<&str> = ran.out.lines().collect();
        let is_there = lines[0] == "Certificate of masking" && lines[1..=due.len()] == due;
        ensure(is_there, ran, &format!("the entries are not {due:#?}"))?;
        let (order, and) = (self.order, self.and.name());
        let sentences = [
            format!(
                "The masked table is, byte for byte, the one that masking the plain table at order \
                 {order} with the {and} AND gives."
            ),
            format!(
                "Whoever holds at most {needles} to it, pins of the touched gates included, learns \
                 nothing of the secrets, under these conditions:"
            ),
        ];
        ensure(lines[due.len() + 1..due.len() + 3] == sentences, ran, "the sentences are others")
    }

    /// The same facts, with the theorem, the date and the conditions as they are in words.
    fn as_json(&self, ran: &Ran, conditions: Vec<Json>) -> Json {
        let named = |name: &str| {
            let (named, file) = entry(ran, name).split_once(" in ").unwrap_or_default();
            object([("name", named.trim_matches('\'').into()), ("file", file.into())])
        };
        let count = |kind: u8| self.count(kind).into();
        let gates = [
            ("not", count(model::NOT)),
            ("xor", count(model::XOR)),
            ("and", count(model::AND)),
            ("constant", count(model::CONSTANT)),
            ("or", count(model::OR)),
        ];
        let page = |sentence: &str| {
            ran.out.lines().find_map(|line| line.strip_prefix(sentence)).unwrap_or_default().into()
        };
        object([
            ("certificate", "masking".into()),
            ("product", "Fantzori".into()),
            ("version", self.version[..].into()),
            ("circuit", "table".into()),
            ("inputs", Json::Number(self.circuit.inputs.into())),
            ("gates", object(gates)),
            ("outputs", self.circuit.outputs.len().into()),
            ("order", Json::Number(self.order.into())),
            ("and", self.and.name().into()),
            ("shares", Json::Number(self.sizes.shares.into())),
            ("wires", Json::Number(self.sizes.wires.into())),
            ("tape_bits", Json::Number(self.sizes.tape.into())),
            ("plain_sha256", self.plain_sum[..].into()),
            ("masked_sha256", self.masked_sum[..].into()),
            ("theorem", named("theorem")),
            ("statement", named("statement")),
            ("key", self.key[..].into()),
            ("toolchain", self.toolchain[..].into()),
            ("date", entry(ran, "date").into()),
            ("conditions", Json::List(conditions)),
            ("full_text", page(FULL_TEXT)),
            ("format", page(FORMAT)),
        ])
    }
}

/// What a certificate says of an AND.
fn of_and(and: And) -> &'static str {
    match and {
        And::Isw => "ISW, of Ishai, Sahai and Wagner",
        And::Dom => "DOM, of VERISICC Deliverable L2.3",
    }
}

/// The whole path of a file of the project that is there.
pub fn there(name: &str) -> Result<String, String> {
    let path = fs::canonicalize(root().join(name)).map_err(|error| format!("{name}: {error}"))?;
    path.to_str().map(String::from).ok_or("FAILED: the project's folder is no text".into())
}

/// What stands before the files of the last two lines.
const FULL_TEXT: &str = "The full text of what this rests on is ";
const FORMAT: &str = "The text of what a table means is ";

/// What the conditions have to speak of, each in a line of its own or in two.
const CONDITIONS: [&[&str]; 6] = [
    &["fresh tape", "equal chance", "independent"],
    &["settled", "glitches"],
    &["encoder", "decoder", "not read"],
    &["needle", "reads", "operands", "three wires"],
    &["layout program", "no gate", "no operand"],
    &["layout program", "random gate", "joins no shares"],
];

/// The conditions in words; the files that a certificate names are there, and have what it says.
fn conditions(ran: &Ran) -> Result<Vec<Json>, String> {
    let lines: Vec<&str> = ran.out.lines().filter_map(|line| line.strip_prefix("  - ")).collect();
    ensure(lines.len() == CONDITIONS.len(), ran, "there are not six conditions")?;
    for (line, words) in lines.iter().zip(CONDITIONS) {
        let says = words.iter().all(|word| line.contains(word));
        ensure(says, ran, &format!("'{line}' says nothing of {words:?}"))?;
    }
    let [text, format] = ["docs/ASSURANCE.md", "docs/FORMAT.md"].map(there);
    let last = format!("\n{FULL_TEXT}{}\n{FORMAT}{}\n", text?, format?);
    ensure(ran.out.ends_with(&last), ran, "the last lines are others")?;
    for name in ["theorem", "statement"] {
        let (word, file) = entry(ran, name).split_once(" in ").unwrap_or_default();
        let text = fs::read_to_string(Path::new(file)).unwrap_or_default();
        let has = text.split_whitespace().any(|other| other == word.trim_matches('\''));
        ensure(has, ran, &format!("there is no {word} in {file}"))?;
    }
    Ok(lines.into_iter().map(Json::from).collect())
}

/// The circuit is the last part of the table's name, in one line whatever it has.
fn names(folder: &Folder) -> Result<(), String> {
    folder.write("masked", &masked_with(And::Isw, 1, &the_and())?)?;
    for (name, circuit) in [
        ("sub folder/a b", "a b"),
        ("./é😀'", "é😀'"),
        ("two\nlines", r"two\u000alines"),
        ("  order  9", "  order  9"),
        ("\"\\\t", r#"\"\\\u0009"#),
    ] {
        folder.write(name, &the_and())?;
        let ran = folder.run(&["certify", "1", name, "masked"])?;
        ensure(ran.is_done() && entry(&ran, "circuit") == circuit, &ran, circuit)?;
        ensure(ran.out.lines().count() == 28, &ran, "it has not 28 lines")?;
    }
    Ok(())
}

/// A refused table and a missing file.
fn not_certified(folder: &Folder) -> Result<(), String> {
    for (table, told) in [
        (vec![2, 0, 1], "table: refused 1: "),
        (Circuit::new(2, &[and(0, 3)], &[2]).bytes(), "table: refused 4 at gate 0: "),
        (Circuit::new(2, &[random()], &[2]).bytes(), "table: refused 7 at gate 0: "),
    ] {
        folder.write("table", &table)?;
        let ran = folder.run(&["certify", "1", "table", "masked"])?;
        ensure(ran.is_ended(1, told), &ran, told)?;
    }
    folder.write("table", &the_and())?;
    for (table, masked) in [("no such file", "masked"), ("table", "no such file")] {
        let ran = folder.run(&["certify", "1", table, masked])?;
        ensure(ran.is_ended(2, "fantzori: there is no file"), &ran, "a missing file")?;
    }
    Ok(())
}
