//! Tests of `verify` with each single thing in which a certificate can differ.

use compare::model::And;

use super::reader::Json;
use super::verify::{agrees, is_none, verified};
use crate::running::{Folder, ensure};

/// Puts the certificate in words and the one as JSON, each changed in one thing.
pub fn test(folder: &Folder, text: &str, json: &str) -> Result<(), String> {
    lines(folder, text)?;
    lines_left_out(folder, text)?;
    values(folder, &Json::read(json)?)?;
    keys(folder, json)
}

/// A certificate that differs in these things and no others, each told by its name in a line.
fn differs(folder: &Folder, cert: &str, names: &[&str]) -> Result<(), String> {
    let ran = verified(folder, cert)?;
    ensure(ran.status == Some(1) && ran.out.is_empty(), &ran, "no difference is told")?;
    let mut told: Vec<&str> = ran.told.lines().collect();
    for name in names {
        let beginning = format!("cert: {name}: the certificate ");
        let at = told.iter().position(|line| line.starts_with(&beginning));
        ensure(at.is_some(), &ran, &format!("it is not told by '{name}'"))?;
        told.remove(at.unwrap_or_default());
    }
    ensure(told.is_empty(), &ran, &format!("more is told than {names:?}"))
}

/// The lines of a certificate in words, each with the name by which it is told.
fn named_lines(text: &str) -> Vec<(String, &str)> {
    let (mut conditions, mut sentences) = (0.., 0..);
    let name = |line: &str| match line {
        "Certificate of masking" => "certificate".into(),
        _ if line.starts_with("  - ") => format!("conditions.{}", conditions.next().unwrap_or(0)),
        _ if line.starts_with("  ") => line[2..16].trim_end().replace(' ', "_"),
        _ => format!("sentence.{}", sentences.next().unwrap_or(0)),
    };
    let names: Vec<String> = text.lines().map(name).collect();
    names.into_iter().zip(text.lines()).collect()
}

/// A text with one line replaced by these.
fn with_lines(text: &str, at: usize, lines: &[&str]) -> String {
    let mut all: Vec<&str> = text.lines().collect();
    all.splice(at..=at, lines.iter().copied());
    all.join("\n") + "\n"
}

/// Each line changed at its end and in its middle: told, but for the circuit, the date and paths.
fn lines(folder: &Folder, text: &str) -> Result<(), String> {
    let all = named_lines(text);
    ensure_names(&all)?;
    for (at, (name, line)) in all.iter().enumerate() {
        let longer = with_lines(text, at, &[&format!("{line}x")]);
        let (head, tail) = line.split_at(line.len() / 2);
        match &name[..] {
            "certificate" => is_none(folder, longer.as_bytes())?,
            "circuit" | "date" => agrees(folder, &longer, And::Isw)?,
            "theorem" | "statement" | "sentence.2" | "sentence.3" => {
                agrees(folder, &longer, And::Isw)?;
                // The name of the theorem, and the words before the path.
                let (head, tail) = line.split_at(18);
                differs(folder, &with_lines(text, at, &[&format!("{head}X{tail}")]), &[name])?;
            }
            _ => {
                differs(folder, &longer, &[name])?;
                if head.len() > 20 {
                    let changed = format!("{head}0{tail}");
                    differs(folder, &with_lines(text, at, &[&changed]), &[name])?;
                }
            }
        }
    }
    // Another order or AND is a certificate of another masking, which differs in what follows.
    let changed = text.replace("2: at most 2 needles", "1: at most 1 needle");
    let ran = verified(folder, &changed)?;
    let told = ["shares", "wires", "tape", "masked_table", "sentence.0", "sentence.1"];
    let told = told.iter().all(|name| ran.told.contains(&format!("cert: {name}: ")));
    let last = "cert: 'masked' is not 'table' masked at order 1 with the ISW AND: number of inputs";
    ensure(told && ran.told.contains(last), &ran, "another order is not told")?;
    let changed =
        text.replace("ISW, of Ishai, Sahai and Wagner", "DOM, of VERISICC Deliverable L2.3");
    let ran = verified(folder, &changed)?;
    let told = ran.told.lines().count() == 3 && ran.told.contains("cert: masked_table: ");
    ensure(told && ran.status == Some(1), &ran, "another AND is not told")
}

/// The names that there are.
fn ensure_names(all: &[(String, &str)]) -> Result<(), String> {
    let names = "certificate product circuit inputs gates outputs order AND shares wires tape \
                 plain_table masked_table theorem statement sources toolchain date sentence.0 \
                 sentence.1 conditions.0 conditions.1 conditions.2 conditions.3 conditions.4 \
                 conditions.5 sentence.2 sentence.3";
    let found: Vec<&str> = all.iter().map(|(name, _)| &name[..]).collect();
    if found == names.split_whitespace().collect::<Vec<_>>() {
        return Ok(());
    }
    Err(format!("FAILED: a certificate has the lines {found:?}"))
}

/// A line that is not there or is there twice, and one that no certificate has.
fn lines_left_out(folder: &Folder, text: &str) -> Result<(), String> {
    for (at, (name, line)) in named_lines(text).iter().enumerate() {
        let (without, twice) = (with_lines(text, at, &[]), with_lines(text, at, &[line, line]));
        match &name[..] {
            "certificate" => is_none(folder, without.as_bytes())?,
            "order" | "AND" => {
                is_none(folder, without.as_bytes())?;
                is_none(folder, twice.as_bytes())?;
            }
            "circuit" | "date" => agrees(folder, &without, And::Isw)?,
            "conditions.5" => {
                differs(folder, &without, &[name])?;
                differs(folder, &twice, &["conditions.6"])?;
            }
            "conditions.3" => {
                differs(folder, &without, &[name, "conditions.4", "conditions.5"])?;
                differs(folder, &twice, &["conditions.4", "conditions.5", "conditions.6"])?;
            }
            "sentence.3" => {
                differs(folder, &without, &[name])?;
                differs(folder, &twice, &["sentence.4"])?;
            }
            _ if name.contains('.') => {}
            _ => {
                differs(folder, &without, &[name])?;
                differs(folder, &twice, &[name])?;
            }
        }
    }
    differs(folder, &format!("{text}  colour        red\n"), &["colour"])?;
    differs(folder, &format!("{text}All of this is void.\n"), &["sentence.4"])
}

/// The single values of a certificate, by their keys with dots between them.
fn leaves<'a>(value: &'a mut Json, path: &str, all: &mut Vec<(String, &'a mut Json)>) {
    let inner = |key: &str| if path.is_empty() { key.into() } else { format!("{path}.{key}") };
    match value {
        Json::Object(entries) => {
            entries.iter_mut().for_each(|(key, value)| leaves(value, &inner(key), all));
        }
        Json::List(values) => {
            let numbered = values.iter_mut().enumerate();
            numbered.for_each(|(at, value)| leaves(value, &inner(&at.to_string()), all));
        }
        _ => all.push((path.into(), value)),
    }
}

/// Each single value changed: told by its keys, but for the circuit, the date and paths.
fn values(folder: &Folder, cert: &Json) -> Result<(), String> {
    let count = |cert: &Json| {
        let (mut cert, mut all) = (cert.clone(), vec![]);
        leaves(&mut cert, "", &mut all);
        all.len()
    };
    for at in 0..count(cert) {
        let (mut changed, mut all) = (cert.clone(), vec![]);
        leaves(&mut changed, "", &mut all);
        let (name, value) = all.swap_remove(at);
        match value {
            Json::Text(text) => text.push(b'x'),
            Json::Number(number) => *number += 1,
            _ => return Err(format!("FAILED: {name} is neither text nor number")),
        }
        drop(all);
        let changed = changed.laid_out("", at % 2 == 0);
        match &name[..] {
            "certificate" => is_none(folder, changed.as_bytes())?,
            "circuit" | "date" | "theorem.file" | "statement.file" | "full_text" | "format" => {
                agrees(folder, &changed, And::Isw)?;
            }
            "order" => {
                let ran = verified(folder, &changed)?;
                let told = ["shares", "wires", "tape_bits", "masked_sha256"];
                let told = told.iter().all(|name| ran.told.contains(&format!("cert: {name}: ")));
                ensure(told && ran.status == Some(1), &ran, "another order is not told")?;
            }
            _ => differs(folder, &changed, &[&name])?,
        }
    }
    Ok(())
}

/// Keys that are not there, are there twice, or that no certificate has.
fn keys(folder: &Folder, json: &str) -> Result<(), String> {
    for (from, to, names) in [
        ("\"inputs\":3,", "", &["inputs"][..]),
        ("\"inputs\":3,", "\"inputs\":3,\"inputs\":3,", &["inputs"]),
        ("\"product\":\"Fantzori\",", "", &["product"]),
        ("\"name\":\"demands\",", "", &["theorem.name"]),
        ("\"inputs\":3,", "\"inputs\":3,\"colour\":\"red\",", &["colour"]),
        ("\"inputs\":3,", "\"inputs\":3,\"note\":\"of a.file here\",", &["note"]),
        ("\"inputs\":3,", "\"inputs\":{\"file\":3},", &["inputs", "inputs.file"]),
        ("\"inputs\":3,", "\"inputs\":{},", &["inputs"]),
        ("\"inputs\":3,", "\"inputs\":[3],", &["inputs", "inputs.0"]),
        ("\"conditions\":[", "\"conditions\":[],\"void\":[", &[]),
    ] {
        let cert = json.replace(from, to);
        if names.is_empty() {
            let ran = verified(folder, &cert)?;
            ensure(ran.status == Some(1), &ran, "conditions that are not there are not told")?;
            continue;
        }
        differs(folder, &cert, names)?;
    }
    Ok(())
}
