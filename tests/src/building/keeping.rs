//! What is kept is used as it was built, or not at all.

use std::collections::BTreeMap;
use std::fs;
use std::os::unix::fs::{MetadataExt, PermissionsExt};
use std::path::{Path, PathBuf};

use super::{Project, Tools, all_work};
use crate::running::{Folder, Ran, ensure};

/// What is known of a file: its size, its times, its mode and its bytes.
type File = (u64, [i64; 4], u32, Vec<u8>);

/// Every file and folder below a folder.
fn files(folder: &Path, all: &mut BTreeMap<PathBuf, File>) -> std::io::Result<()> {
    for entry in fs::read_dir(folder)? {
        let path = entry?.path();
        let data = fs::symlink_metadata(&path)?;
        let times = [data.mtime(), data.mtime_nsec(), data.ctime(), data.ctime_nsec()];
        let bytes = if data.is_file() { fs::read(&path)? } else { Vec::new() };
        if data.is_dir() {
            files(&path, all)?;
        }
        all.insert(path, (data.len(), times, data.mode(), bytes));
    }
    Ok(())
}

/// Where all is built, no toolchain is needed, and the project stays as it is.
pub fn without_toolchain(folder: &Folder, tools: &Tools) -> Result<(), String> {
    let project = Project::built(folder, "built project")?;
    let all = || {
        let mut all = BTreeMap::new();
        files(&project.path, &mut all).map_err(|error| project.told(error))?;
        Ok::<_, String>(all)
    };
    let before = all()?;
    all_work(&project.path.join("fantzori"), &folder.path("sub folder"), &|command| {
        command.env("PATH", &tools.0);
    })?;
    let ran = tools.run(&mut project.command(&["build"]))?;
    let built = ran.is_done() && ran.out.starts_with("proved and built in built/");
    ensure(built, &ran, "build does not find what is built")?;
    let after = all()?;
    if before != after {
        let is_changed = |path: &&PathBuf| before.get(*path) != after.get(*path);
        let changed: Vec<_> = before.keys().chain(after.keys()).filter(is_changed).collect();
        return Err(format!("FAILED: a command changed {changed:?}"));
    }
    project.remove()
}

/// A script to be put in the place of a program; where it is run it leaves a file.
fn mark(folder: &Folder) -> String {
    format!("#!/bin/sh\n: >'{}'\necho 3 30 7 132\n", folder.path("mark").display())
}

/// The script did not run.
fn ensure_not_run(folder: &Folder, ran: &Ran) -> Result<(), String> {
    ensure(!folder.path("mark").exists(), ran, "a program was run that is not the proved one")
}

/// A change to a project after which its mask program may not be used.
type Change<'a> = (&'a str, &'a dyn Fn(&Project) -> std::io::Result<()>);

/// Adds a line to a file.
pub fn add_line(path: &Path, line: &str) -> std::io::Result<()> {
    let text = fs::read_to_string(path)?;
    fs::write(path, text + line + "\n")
}

/// Without rt, a project in which anything was changed does not mask.
pub fn not_kept(folder: &Folder, tools: &Tools) -> Result<(), String> {
    let script = mark(folder);
    let mut project = Project::built(folder, "not kept")?;
    let program = project.kept("mask")?;
    let (record, source) =
        (project.kept("mask.proved")?, project.path.join("crates/text/src/lib.rt"));
    let proved = fs::read_to_string(&record).map_err(|error| project.told(error))?;
    let toolchain = proved.lines().nth(1).unwrap_or_default();
    let changes: [Change; 10] = [
        ("a program that cannot be run", &|_| {
            fs::set_permissions(&program, PermissionsExt::from_mode(0o644))
        }),
        ("a replaced program", &|_| fs::write(&program, &script)),
        ("a longer program", &|_| fs::write(&program, [&fs::read(&program)?[..], &[0]].concat())),
        ("a deleted program", &|_| fs::remove_file(&program)),
        ("a deleted record", &|_| fs::remove_file(&record)),
        ("an empty record", &|_| fs::write(&record, "")),
        ("a record without toolchain", &|_| fs::write(&record, &proved[..65])),
        ("another record", &|_| fs::write(&record, format!("{}\n{toolchain}\n", "0".repeat(64)))),
        ("a changed source", &|_| add_line(&source, "// more")),
        ("another toolchain", &|project| add_line(&project.path.join("toolchain.txt"), "more")),
    ];
    for (name, change) in changes {
        change(&project).map_err(|error| project.told(error))?;
        let mut command = project.command(&["mask", "1", "table", "not there"]);
        let ran = tools.run(&mut command)?;
        let told = "fantzori: rt is not on this machine: ";
        ensure(ran.is_ended(2, told), &ran, &format!("{name} is not told"))?;
        ensure(!folder.path("not there").exists(), &ran, "OUT was written")?;
        ensure_not_run(folder, &ran)?;
        project.remove()?;
        project = Project::built(folder, "not kept")?;
    }
    project.remove()
}

/// With rt, a replaced program is built again, and so is one that rt linked and that was replaced.
pub fn built_again(folder: &Folder, project: &Project) -> Result<(), String> {
    let script = mark(folder);
    let lines = compare::model::listing(&folder.read("table")?);
    let shows = || {
        let ran = project.run(&["show", "table"])?;
        ensure(ran.status == Some(0) && ran.out == lines, &ran, "show is not built again")?;
        let builds = ran.told.starts_with("fantzori: proving and building show");
        ensure(builds, &ran, "building is not told")?;
        ensure_not_run(folder, &ran)?;
        let again = project.run(&["show", "table"])?;
        ensure(again.is_done() && again.out == lines, &again, "what was built is not kept")
    };
    let kept = project.kept("show")?;
    fs::write(&kept, &script).map_err(|error| project.told(error))?;
    shows()?;
    fs::set_permissions(&kept, PermissionsExt::from_mode(0o644))
        .map_err(|error| project.told(error))?;
    shows()?;
    project.remove_part("built")?;
    fs::write(project.path.join("crates/show/out/show"), &script)
        .map_err(|error| project.told(error))?;
    shows()
}

/// Another toolchain than the one that the sources are for is told where it proves, and only there.
pub fn other_toolchain(project: &Project) -> Result<(), String> {
    fs::write(project.path.join("toolchain.txt"), "another\n")
        .map_err(|error| project.told(error))?;
    let ran = project.run(&["show", "table"])?;
    let warns = |line: &str| {
        line.starts_with("fantzori: warning: rt is '") && line.contains("are for 'another'")
    };
    let told = ran.told.lines().any(warns);
    ensure(ran.status == Some(0) && told, &ran, "another toolchain is not told")?;
    let ran = project.run(&["show", "table"])?;
    ensure(ran.is_done(), &ran, "another toolchain is told where nothing is proved")
}
