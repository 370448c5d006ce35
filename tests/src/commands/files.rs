//! Tests of names of files, of their modes, and of standard output that cannot be written.

use std::fs;
use std::os::unix::fs::PermissionsExt;

use compare::circuit::{Circuit, Gate, not};
use compare::examples::{and_chain, the_and};
use compare::model;

use super::{KEPT, ensure_kept};
use crate::running::{Folder, Ran, ensure, masked};

pub fn test(folder: &Folder) -> Result<(), String> {
    names(folder)?;
    full(folder)?;
    readers(folder)?;
    cut(folder)?;
    modes(folder)
}

/// A name is printed as it is.
fn names(folder: &Folder) -> Result<(), String> {
    let (name, missing) = (r"a\ntable\t\c%s\\", r"no\nsuch\ttable\c");
    folder.write(name, &the_and())?;
    folder.write(r"\0", &[1])?;
    for arguments in [
        &["mask", "1", missing, "out"][..],
        &["forecast", "1", missing],
        &["certify", "1", name, missing],
        &["verify", missing, name, name],
        &["check", missing],
        &["show", missing],
    ] {
        let ran = folder.run(arguments)?;
        let told = format!("fantzori: there is no file '{missing}'\n");
        ensure(ran.is_ended(2, &told), &ran, &told)?;
    }
    let ran = folder.run(&["certify", "1", name, r"\0"])?;
    let told = format!(r"'\0' is not '{name}' masked at order 1 with the ISW AND: ");
    ensure(ran.is_ended(1, &told), &ran, &told)?;
    let word = r"a\nb\c%s";
    for (arguments, told) in [
        ([word, "1"], format!("fantzori: there is no command '{word}': ")),
        (["fuzz", word], format!("fantzori: fuzz takes a number of seconds, and not '{word}'")),
        (["version", word], format!("fantzori: version takes nothing more, and not '{word}'")),
        (["help", word], format!("fantzori: there is no command '{word}': ")),
        (["forecast", r"-\n"], r"fantzori: forecast has no option '-\n'; usage: ".into()),
    ] {
        let ran = folder.run(&arguments)?;
        ensure(ran.is_ended(2, &told), &ran, &told)?;
    }
    let ran = folder.run(&["mask", "1", name, r"o\nut\c"])?;
    ensure(ran.is_done(), &ran, "masking fails")?;
    ensure(folder.read(r"o\nut\c")? == masked(1, &the_and())?, &ran, "OUT is another table")
}

/// Where standard output is full or closed, or TMPDIR is no folder, that is told in one line.
fn full(folder: &Folder) -> Result<(), String> {
    folder.write("table", &the_and())?;
    folder.write("masked", &masked(1, &the_and())?)?;
    let ran = folder.run(&["certify", "1", "table", "masked"])?;
    folder.write("cert", ran.out.as_bytes())?;
    for arguments in [
        &["show", "table"][..],
        &["check", "table"],
        &["forecast", "1", "table"],
        &["certify", "1", "table", "masked"],
        &["mask", "1", "table", "out"],
        &["mask", "1", "table", "-"],
        &["mask", "--json", "1", "table", "out"],
        &["check", "--json", "table"],
        &["verify", "cert", "table", "masked"],
        &["version"],
        &["help"],
        &["mask", "--help"],
    ] {
        for script in ["\"$@\" >/dev/full", "\"$@\" >&-"] {
            let ran = folder.script(script, arguments)?;
            ensure(ran.is_ended(2, "fantzori: "), &ran, "a full output is not told in one line")?;
        }
    }
    let ran = folder.script("TMPDIR=/dev/null \"$@\"", &["show", "table"])?;
    ensure(ran.is_ended(2, "fantzori: no temporary folder"), &ran, "no room is not told")
}

/// Whoever reads may stop reading, also where a broken pipe ends no program.
fn readers(folder: &Folder) -> Result<(), String> {
    let gates: Vec<Gate> = (0..65_526).map(not).collect();
    let table = Circuit::new(3, &gates, &[65_528]).bytes();
    folder.write("table", &table)?;
    let listing = model::listing(&table);
    let first = listing.lines().next().unwrap_or_default();
    for start in ["", "trap '' PIPE; "] {
        let ran = folder.script(&format!("{start}\"$@\" | head -n 1"), &["show", "table"])?;
        ensure(ran.is_done() && ran.out.lines().eq([first]), &ran, "the first line is another")?;
        let ran = folder.script(&format!("{start}\"$@\""), &["mask", "1", "table", "out"])?;
        ensure(ran.is_done() && ran.out.lines().count() == 4, &ran, "masking fails")?;
        let script = format!("{start}\"$@\" 2>told | head -c 1");
        let ran = folder.script(&script, &["mask", "1", "table", "-"])?;
        ensure(
            ran.is_done() && folder.read("told")?.is_empty(),
            &ran,
            "a reader that stops is told",
        )?;
    }
    Ok(())
}

/// A masked table that is cut off in the middle, as by a full disk, never becomes OUT.
fn cut(folder: &Folder) -> Result<(), String> {
    folder.write("table", &and_chain(2_730))?;
    folder.write("out", KEPT)?;
    // 400 blocks of 512 bytes; the masked table has 327,612.
    let script = "trap '' XFSZ; ulimit -f 400; exec \"$@\"";
    let ran = folder.script(script, &["mask", "1", "table", "out"])?;
    let told =
        "fantzori: the masked table has the sizes 3 65526 8194 204800, not 3 65526 8194 327612";
    ensure(ran.is_ended(2, told), &ran, "a table that was cut is not told")?;
    ensure_kept(folder)
}

/// OUT keeps its mode, and a new one has the mode that the umask gives.
fn modes(folder: &Folder) -> Result<(), String> {
    folder.write("table", &the_and())?;
    let path = folder.path("moded");
    let arguments = ["mask", "1", "table", "moded"];
    let is_masked = |ran: &Ran, mode: u32| {
        let found = fs::metadata(&path).map_err(|error| folder.told(error))?.permissions().mode();
        let sound = ran.is_done() && found & 0o7777 == mode;
        ensure(sound, ran, &format!("the mode is {found:o}, not {mode:o}"))?;
        ensure(folder.read("moded")? == masked(1, &the_and())?, ran, "OUT is another table")
    };
    for mode in [0o640, 0o604] {
        folder.write("moded", b"before")?;
        fs::set_permissions(&path, PermissionsExt::from_mode(mode))
            .map_err(|error| folder.told(error))?;
        is_masked(&folder.run(&arguments)?, mode)?;
    }
    for (umask, mode) in [("022", 0o644), ("027", 0o640), ("077", 0o600)] {
        fs::remove_file(&path).map_err(|error| folder.told(error))?;
        is_masked(&folder.script(&format!("umask {umask}; \"$@\""), &arguments)?, mode)?;
    }
    Ok(())
}
