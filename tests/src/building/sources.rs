//! What the key covers, and files that do not belong to the project.

use std::fs;
use std::process::Command;

use super::{Project, SOURCES, Tools, find};
use crate::programs::root;
use crate::running::{Folder, Ran, ensure};

pub fn test(folder: &Folder, tools: &Tools) -> Result<(), String> {
    listed()?;
    let project = Project::built(folder, "sources")?;
    covered(&project)?;
    strange(&project, tools)?;
    with_git(folder, &project)?;
    project.remove()?;
    lone(folder)
}

/// Runs a script in a folder.
fn script(project: &Project, script: &str) -> Result<Ran, String> {
    Ran::of(Command::new("sh").args(["-c", script]).current_dir(&project.path))
}

/// command/files.txt has the files that git tracks, where the project is in git.
fn listed() -> Result<(), String> {
    if !root().join(".git").exists() || find("git").is_none() {
        println!("building: command/files.txt is not compared, as there is no git");
        return Ok(());
    }
    let ran = Ran::of(
        Command::new("git")
            .args([
                "ls-files",
                "--",
                "toolchain.txt",
                "crates.txt",
                "crates",
                "include",
                "fantzori",
                "command",
            ])
            .current_dir(root()),
    )?;
    let path = root().join("command/files.txt");
    let list = fs::read_to_string(&path).map_err(|error| format!("FAILED: {error}"))?;
    ensure(ran.is_done() && ran.out == list, &ran, "command/files.txt is not what git tracks")
}

/// The key is the SHA-256 of the sorted sums of the listed files; each of them changes it, and no
/// other file does.
fn covered(project: &Project) -> Result<(), String> {
    let key = project.key()?;
    let own = script(project, "xargs sha256sum <command/files.txt | LC_ALL=C sort | sha256sum")?;
    ensure(own.out.starts_with(&key), &own, "the key is another")?;
    for name in ["fantzori", "command/certify.sh", "command/help.txt", "command/files.txt"] {
        let path = project.path.join(name);
        let before = fs::read(&path).map_err(|error| project.told(error))?;
        fs::write(&path, [&before[..], b"# more\n"].concat())
            .map_err(|error| project.told(error))?;
        // A list with another line names a file that is not there.
        let ran = project.run(&["version"])?;
        let changed = !ran.out.contains(&key);
        ensure(changed, &ran, &format!("{name} is not covered by the key"))?;
        fs::write(&path, before).map_err(|error| project.told(error))?;
    }
    // A script that compares nothing has another key.
    let path = project.path.join("command/certify.sh");
    let text = fs::read_to_string(&path).map_err(|error| project.told(error))?;
    fs::write(&path, text.replace("! cmp -s", "! true")).map_err(|error| project.told(error))?;
    let ran = project.run(&["certify", "1", "table", "table"])?;
    let told = ran.out.contains("  sources       SHA-256 key ") && !ran.out.contains(&key);
    ensure(ran.is_done() && told, &ran, "a changed script has the same key")?;
    fs::write(&path, text).map_err(|error| project.told(error))
}

/// A file that is not of the project changes no key; nothing is built beside one that rt would read.
fn strange(project: &Project, tools: &Tools) -> Result<(), String> {
    let key = project.key()?;
    let write = |name: &str| {
        fs::write(project.path.join(name), "strange").map_err(|error| project.told(error))
    };
    for name in ["crates/text/src/.lib.rt.swp", "crates/text/src/lib.rt~", "crates/notes.txt"] {
        write(name)?;
    }
    write("crates/text/src/more.rt")?;
    let ran = tools.run(&mut project.command(&["show", "table"]))?;
    ensure(ran.is_done(), &ran, "a strange file has something proved again")?;
    if project.key()? != key {
        return Err("FAILED: a strange file changes the key".into());
    }
    let kept = project.kept("show")?;
    fs::remove_file(&kept).map_err(|error| project.told(error))?;
    let ran = project.run(&["show", "table"])?;
    let told = "fantzori: not built, as it is no file of the project";
    let told = ran.is_ended(2, told) && ran.told.ends_with(": crates/text/src/more.rt\n");
    ensure(told, &ran, "a strange source is not told")?;
    fs::remove_file(project.path.join("crates/text/src/more.rt"))
        .map_err(|error| project.told(error))
}

/// With git the key is the same, and what git does not track is not covered.
fn with_git(folder: &Folder, project: &Project) -> Result<(), String> {
    if find("git").is_none() {
        println!("building: the key with git is not tried, as there is no git");
        return Ok(());
    }
    let key = project.key()?;
    let list = format!("git init -q && git add -f {} && rm command/files.txt", SOURCES.join(" "));
    let ran = script(project, &list)?;
    ensure(ran.is_done(), &ran, "git cannot be tried")?;
    let ran = project.run(&["version"])?;
    ensure(ran.status == Some(2), &ran, "a tracked file that is gone is not told")?;
    let ran = script(project, "git checkout -q command/files.txt")?;
    ensure(ran.is_done() && project.key()? != key, &ran, "git's list is not asked")?;
    let ran = script(
        project,
        "git rm -q --cached -f crates/text/src/.lib.rt.swp crates/text/src/lib.rt~ crates/notes.txt",
    )?;
    ensure(ran.is_done() && project.key()? == key, &ran, "git's list gives another key")?;
    drop(fs::remove_file(folder.path("not there")));
    Ok(())
}

/// A copy of fantzori alone says what is missing.
fn lone(folder: &Folder) -> Result<(), String> {
    let path = folder.path("lone fantzori");
    fs::copy(root().join("fantzori"), &path).map_err(|error| folder.told(error))?;
    for arguments in [&["help"][..], &["mask", "1", "table", "not there"], &[]] {
        let ran = Ran::of(Command::new(&path).args(arguments).current_dir(folder.path("")))?;
        let told = ran.is_ended(2, "fantzori: '") && ran.told.contains("is missing or not whole");
        ensure(told, &ran, "a lone copy does not say what is missing")?;
    }
    fs::remove_file(&path).map_err(|error| folder.told(error))
}
