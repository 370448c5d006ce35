//! Tests that OUT is never TABLE, by whatever name.

use std::collections::BTreeSet;
use std::fs;
use std::os::unix::fs::symlink;

use compare::circuit::{Circuit, and, not, xor};
use compare::model::And;

use super::ensure_kept;
use crate::running::{Folder, Ran, ensure, masked, with_and};

pub fn test(folder: &Folder) -> Result<(), String> {
    let table = Circuit::new(3, &[and(0, 1), not(3), xor(4, 2)], &[5, 3]).bytes();
    folder.write("table", &table)?;
    links(folder)?;
    by_name(folder, &table)?;
    by_stream(folder, &table)?;
    others(folder, &table)
}

/// Links to the table and to its folder.
fn links(folder: &Folder) -> Result<(), String> {
    let io = |error| folder.told(error);
    symlink("table", folder.path("link")).map_err(io)?;
    symlink("link", folder.path("link to link")).map_err(io)?;
    symlink(".", folder.path("here")).map_err(io)?;
    symlink("../table", folder.path("sub folder/up")).map_err(io)?;
    fs::hard_link(folder.path("table"), folder.path("other name")).map_err(io)
}

/// A masking that is refused in one line; table and folders are as they were.
fn refused(
    folder: &Folder,
    table: &[u8],
    run: impl Fn() -> Result<Ran, String>,
) -> Result<(), String> {
    let names = || folder.names().map(BTreeSet::from_iter);
    let before: BTreeSet<String> = names()?;
    let ran = run()?;
    let told = ran.is_ended(2, "fantzori: '") && ran.told.contains("' is the table itself");
    ensure(told, &ran, "it is not told that OUT is the table")?;
    ensure(folder.read("table")? == table, &ran, "the table was changed")?;
    ensure(names()? == before, &ran, "something was written")?;
    let links = ["link", "link to link", "here", "sub folder/up"];
    ensure(links.iter().all(|name| folder.path(name).is_symlink()), &ran, "a link was replaced")?;
    ensure_kept(folder)
}

/// The same file under two names.
fn by_name(folder: &Folder, table: &[u8]) -> Result<(), String> {
    let whole = folder.path("table");
    let whole = whole.to_str().ok_or("FAILED: the folder's name is no text")?;
    let names = [
        "table",
        "./table",
        whole,
        "link",
        "link to link",
        "other name",
        "here/table",
        "here/here/link",
        "sub folder/up",
        "sub folder/../table",
    ];
    for name in names {
        refused(folder, table, || folder.run(&["mask", "1", "table", name]))?;
        refused(folder, table, || folder.run(&["mask", "1", name, "table", "--quiet"]))?;
    }
    for and in And::BOTH {
        refused(folder, table, || {
            folder.run(&with_and(and, &["mask", "2", "link", "other name"]))
        })?;
    }
    refused(folder, table, || folder.run(&["mask", "16", "table", "table"]))
}

/// The same file as standard input or output.
fn by_stream(folder: &Folder, table: &[u8]) -> Result<(), String> {
    for (script, words) in [
        ("\"$@\" <table", ["mask", "1", "-", "table"]),
        ("\"$@\" <table", ["mask", "1", "-", "other name"]),
        ("\"$@\" <link", ["mask", "1", "-", "here/table"]),
        ("\"$@\" <table", ["mask", "1", "/dev/stdin", "table"]),
        ("\"$@\" >>table", ["mask", "1", "table", "-"]),
        ("\"$@\" >>table", ["mask", "1", "sub folder/up", "-"]),
        ("\"$@\" 1<>table", ["mask", "1", "other name", "-"]),
        ("\"$@\" <table >>table", ["mask", "1", "-", "-"]),
        ("\"$@\" <'other name' >>link", ["mask", "1", "-", "-"]),
    ] {
        refused(folder, table, || folder.script(script, &words))?;
    }
    Ok(())
}

/// Other files are no reason to refuse: a copy, a link to another file, other streams.
fn others(folder: &Folder, table: &[u8]) -> Result<(), String> {
    let due = masked(1, table)?;
    folder.write("copy", table)?;
    symlink("copy", folder.path("link to copy")).map_err(|error| folder.told(error))?;
    for (script, words) in [
        ("\"$@\"", ["mask", "1", "table", "link to copy"]),
        ("\"$@\" <table", ["mask", "1", "-", "copy"]),
        ("\"$@\" <copy", ["mask", "1", "table", "copy"]),
        ("cat table | \"$@\"", ["mask", "1", "-", "copy"]),
        ("\"$@\" >copy 2>told", ["mask", "1", "table", "-"]),
        ("\"$@\" <table >copy 2>told", ["mask", "1", "-", "-"]),
    ] {
        folder.write("copy", table)?;
        let ran = folder.script(script, &words)?;
        ensure(ran.is_done(), &ran, "masking fails")?;
        ensure(folder.read("copy")? == due, &ran, "OUT is another table")?;
        ensure(folder.read("table")? == table, &ran, "the table was changed")?;
    }
    Ok(())
}
