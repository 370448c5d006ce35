//! Tests of `verify`: certificates that agree, other files, and what is no certificate.

use std::time::Duration;

use compare::circuit::{Circuit, and, constant, not, or, xor};
use compare::model::And;

use super::altered;
use super::json::ensure_answer;
use super::reader::{Json, object};
use crate::running::{Folder, Ran, Started, ensure, masked_with, with_and};

pub fn test(folder: &Folder) -> Result<(), String> {
    let gates = [or(1, 2), not(3), and(0, 4), constant(1), xor(5, 6)];
    let table = Circuit::new(3, &gates, &[5, 3, 7]).bytes();
    folder.write("table", &table)?;
    for and in And::BOTH {
        agree(folder, and)?;
    }
    let [text, json] = certificates(folder, And::Isw)?;
    altered::test(folder, &text, &json)?;
    other_files(folder, [&text, &json])?;
    no_certificates(folder, &text, &json)
}

/// A certificate in words and as JSON of "table" masked at order 2, in "masked".
fn certificates(folder: &Folder, and: And) -> Result<[String; 2], String> {
    folder.write("masked", &masked_with(and, 2, &folder.read("table")?)?)?;
    let words = with_and(and, &["certify", "2", "table", "masked"]);
    let [text, json] = [folder.run(&words)?, folder.run(&[&words[..], &["--json"]].concat())?];
    ensure(text.is_done(), &text, "there is no certificate")?;
    ensure(json.is_done(), &json, "there is no certificate")?;
    Ok([text.out, json.out])
}

/// Verifies a certificate.
pub fn verified(folder: &Folder, cert: &str) -> Result<Ran, String> {
    folder.write("cert", cert.as_bytes())?;
    folder.run(&["verify", "cert", "table", "masked"])
}

/// A certificate that agrees, with a line that says so.
pub fn agrees(folder: &Folder, cert: &str, and: And) -> Result<(), String> {
    let ran = verified(folder, cert)?;
    let due = format!(
        "'cert' agrees with what is here: 'masked' is 'table' masked at order 2 with the {} AND\n",
        and.name()
    );
    ensure(ran.is_done() && ran.out == due, &ran, &due)
}

/// What is no certificate is told in one line, with status 2.
pub fn is_none(folder: &Folder, cert: &[u8]) -> Result<(), String> {
    folder.write("cert", cert)?;
    // Soon, whatever there is.
    let mut started = Started::new(folder.command(&["verify", "cert", "table", "masked"])?)?;
    started.ends_within(Duration::from_secs(10))?;
    let ran = started.wait()?;
    let told = "fantzori: 'cert' is no certificate of masking\n";
    ensure(ran.is_ended(2, told), &ran, told)
}

/// A certificate as it was printed, and as JSON in other layouts, from a file and through a pipe.
fn agree(folder: &Folder, and: And) -> Result<(), String> {
    let [text, json] = certificates(folder, and)?;
    let value = Json::read(&json)?;
    let layouts = [value.laid_out("", false), value.laid_out("\n", true)];
    for cert in [&text, &json, &layouts[0], &layouts[1], &format!("\r\n {}\n\n", json.trim())] {
        agrees(folder, cert, and)?;
    }
    for cert in [&text, &layouts[1]] {
        folder.write("cert", cert.as_bytes())?;
        let words = ["verify", "--json", "-", "table", "masked"];
        let ran = folder.script("cat cert | \"$@\"", &words)?;
        let due = object([
            ("file", "standard input".into()),
            ("verified", Json::Truth(true)),
            ("differences", Json::List(vec![])),
        ]);
        ensure_answer(&ran, 0, &due)?;
        let ran = folder.run(&["verify", "--quiet", "cert", "table", "masked"])?;
        ensure(ran.is_done() && ran.out.is_empty(), &ran, "it is not quiet")?;
    }
    Ok(())
}

/// Another MASKED is told by its difference, another TABLE by all that follows; the same as JSON.
fn other_files(folder: &Folder, certs: [&str; 2]) -> Result<(), String> {
    let mut other = folder.read("masked")?;
    let last = other.len() - 2;
    other[last] ^= 1;
    let (name, is_there) =
        ("an \"other\"\nfile", u16::from_le_bytes([other[last], other[last + 1]]));
    folder.write(name, &other)?;
    folder.write("other", &other)?;
    folder.write("other table", &Circuit::new(3, &[and(0, 1)], &[3]).bytes())?;
    for cert in certs {
        folder.write("cert", cert.as_bytes())?;
        let is_not = |name: &str| {
            format!(
                "'{name}' is not 'table' masked at order 2 with the ISW AND: output 14: {is_there} \
                 is there, {} should be",
                is_there ^ 1
            )
        };
        let ran = folder.run(&["verify", "cert", "table", "other"])?;
        let told = format!("cert: {}\n", is_not("other"));
        ensure(ran.is_ended(1, &told), &ran, &told)?;
        let ran = folder.run(&["verify", "--json", "cert", "table", name])?;
        ensure_differences(&ran, &[is_not(name)])?;
        let words = ["verify", "cert", "other table", "masked"];
        let ran = folder.run(&words)?;
        let differences: Vec<String> =
            ran.told.lines().map(|line| line.replacen("cert: ", "", 1)).collect();
        let beginnings = ["plain_", "masked_", "wires", "'masked' is not 'other table' masked"];
        let told = beginnings.iter().all(|name| differences.iter().any(|d| d.starts_with(name)));
        ensure(told && ran.status == Some(1), &ran, "another table is not told")?;
        ensure_differences(&folder.run(&[&words[..], &["--json"]].concat())?, &differences)?;
    }
    Ok(())
}

/// The answer has these differences.
fn ensure_differences(ran: &Ran, differences: &[String]) -> Result<(), String> {
    let due = object([
        ("file", "cert".into()),
        ("verified", Json::Truth(false)),
        ("differences", Json::List(differences.iter().map(|d| d[..].into()).collect())),
    ]);
    ensure_answer(ran, 1, &due)
}

/// Files that are no certificate: empty, tables, other JSON, orders and ANDs that are none.
fn no_certificates(folder: &Folder, text: &str, json: &str) -> Result<(), String> {
    for cert in [
        &b""[..],
        b"\n",
        b"Certificate of masking\n",
        b"{}",
        b"[]",
        b"{\"certificate\":\"masking\"}",
        b"{\"certificate\":\"masking\",\"order\":0,\"and\":\"ISW\"}",
        b"{\"certificate\":\"masking\",\"order\":16,\"and\":\"DOM\"}",
        b"{\"certificate\":\"masking\",\"order\":\"1 \",\"and\":\"isw\"}",
        &folder.read("table")?,
        &folder.read("masked")?,
        &folder.run(&["check", "--json", "table"])?.bytes.0,
        &folder.run(&["version"])?.bytes.0,
        format!("{json}{json}").as_bytes(),
        format!("[{json}]").as_bytes(),
        &json.as_bytes()[..json.len() - 2],
        json.replacen('{', "{,", 1).as_bytes(),
        text.replace("order         2", "order         0").as_bytes(),
        text.replace("order         2", "order         16").as_bytes(),
        text.replace("AND           ISW", "AND           XOR").as_bytes(),
        &vec![b'\n'; 1_000_000],
    ] {
        is_none(folder, cert)?;
    }
    Ok(())
}
