//! The installed command, library and header.

use std::path::{Path, PathBuf};
use std::process::Command;
use std::{fs, thread};

use super::{Project, Tools, all_work, find, library};
use crate::running::{Folder, Ran, Started, ensure};

/// What is installed, but for the folder of the build.
const FILES: [&str; 16] = [
    "bin/fantzori",
    "include/masks.h",
    "lib/libmasks.so",
    "lib/libmasks.so.0",
    "lib/libmasks_c.a",
    "lib/pkgconfig/masks-shared.pc",
    "lib/pkgconfig/masks.pc",
    "libexec/fantzori/current/fantzori",
    "libexec/fantzori/current/mask.proved",
    "libexec/fantzori/installed",
    "share/bash-completion/completions/fantzori",
    "share/doc/fantzori/ASSURANCE.md",
    "share/doc/fantzori/Claims.antt",
    "share/doc/fantzori/FORMAT.md",
    "share/doc/fantzori/Whole.antt",
    "share/man/man1/fantzori.1",
];

pub fn test(folder: &Folder, tools: &Tools) -> Result<(), String> {
    let project = Project::built(folder, "to install")?;
    for name in ["", "table/below"] {
        let ran = project.run(&["install", name])?;
        ensure(ran.is_ended(2, "fantzori: "), &ran, "what cannot be made is not told")?;
    }
    let ran = project.run(&["install", "to install"])?;
    let told = "fantzori: 'to install' is the project's own folder";
    ensure(ran.is_ended(2, told), &ran, "the project's own folder is not told")?;
    let ran = project.run(&["install", "pre fix"])?;
    let told = ran.out.starts_with("installed in pre fix: ") && ran.out.lines().count() == 1;
    ensure(ran.is_done() && told, &ran, "it is not installed")?;
    let is_there = |name: &&str| folder.path("pre fix").join(name).is_file();
    ensure(FILES.iter().all(is_there), &ran, "a file is not installed")?;
    in_use(folder, &project)?;
    uninstalls(folder, &project)?;
    project.remove()?;
    works(folder, tools, &folder.path("pre fix"))?;
    let moved = folder.path("moved prefix");
    fs::rename(folder.path("pre fix"), &moved).map_err(|error| folder.told(error))?;
    works(folder, tools, &moved)?;
    library::test(folder, &moved)?;
    is_clean(&moved)?;
    manual(folder, &moved)?;
    completes(folder, &moved)?;
    replaced(folder, &moved)
}

/// Commands go on undisturbed while other builds are installed over the one that they began with.
fn in_use(folder: &Folder, project: &Project) -> Result<(), String> {
    let ran = project.run(&["install", "in use"])?;
    ensure(ran.is_done(), &ran, "it is not installed")?;
    let command = folder.path("in use/bin/fantzori");
    let script = project.path.join("fantzori");
    let text = fs::read_to_string(&script).map_err(|error| project.told(error))?;
    let installs = || {
        (0..6).try_for_each(|round| {
            fs::write(&script, format!("{text}# {round}\n"))
                .map_err(|error| project.told(error))?;
            let ran = project.run(&["install", "in use"])?;
            ensure(ran.is_done(), &ran, "it is not installed over another")
        })
    };
    let mut keys = Vec::new();
    let installed = thread::scope(|scope| {
        let installs = scope.spawn(installs);
        while !installs.is_finished() {
            keys.extend(at_once(folder, &command)?);
        }
        installs.join().unwrap_or_else(|_| Err("FAILED: an install panics".into()))
    });
    installed?;
    keys.sort();
    keys.dedup();
    if keys.len() < 2 {
        return Err("FAILED: no build was replaced while commands ran".into());
    }
    fs::write(&script, text).map_err(|error| project.told(error))?;
    // The build in use and the one before it are there, and no other.
    let builds = fs::read_dir(folder.path("in use/libexec/fantzori")).map(Iterator::count);
    if builds.map_err(|error| folder.told(error))? != 4 {
        return Err("FAILED: older builds are left".into());
    }
    // Two at once leave one whole installation.
    let start = || Started::new(project.command(&["install", "in use"]));
    for one in [start()?, start()?] {
        let ran = one.wait()?;
        ensure(ran.is_done(), &ran, "one of two installs at once fails")?;
    }
    at_once(folder, &command)?;
    let ran = project.run(&["uninstall", "in use"])?;
    ensure(ran.is_done() && !folder.path("in use").exists(), &ran, "something is left of it")
}

/// Six commands at once, all of which are done; the keys that they tell.
fn at_once(folder: &Folder, command: &Path) -> Result<Vec<String>, String> {
    let start = |_| {
        let mut certify = Command::new(command);
        certify.args(["certify", "1", "table", "masked"]).current_dir(folder.path(""));
        Started::new(certify)
    };
    let started = (0..6).map(start).collect::<Result<Vec<_>, _>>()?;
    let mut keys = Vec::new();
    for one in started {
        let ran = one.wait()?;
        ensure(ran.is_done(), &ran, "a command fails while another build is installed")?;
        keys.extend(ran.out.lines().filter(|line| line.starts_with("  sources")).map(String::from));
    }
    Ok(keys)
}

/// Every file and folder below a folder.
fn below(folder: &Path, all: &mut Vec<PathBuf>) -> std::io::Result<()> {
    for entry in fs::read_dir(folder)? {
        let path = entry?.path();
        if path.is_dir() && !path.is_symlink() {
            below(&path, all)?;
        }
        all.push(path);
    }
    all.sort();
    Ok(())
}

/// `uninstall` removes what install wrote and made, and nothing else.
fn uninstalls(folder: &Folder, project: &Project) -> Result<(), String> {
    let prefix = folder.path("shared prefix");
    let all = || {
        let mut all = Vec::new();
        below(&prefix, &mut all).map_err(|error| folder.told(error)).map(|()| all)
    };
    for name in ["bin/other", "lib/libother.a", "share/doc/other", "libexec/other/empty/.keep"] {
        let path = prefix.join(name);
        fs::create_dir_all(path.parent().unwrap_or(&prefix)).map_err(|error| folder.told(error))?;
        fs::write(path, "other").map_err(|error| folder.told(error))?;
    }
    fs::create_dir_all(prefix.join("include")).map_err(|error| folder.told(error))?;
    let before = all()?;
    for _ in 0..2 {
        let ran = project.run(&["install", "shared prefix"])?;
        ensure(ran.is_done() && all()?.len() > before.len(), &ran, "it is not installed")?;
    }
    // A file that came later stays, with its folder.
    let later = prefix.join("share/doc/fantzori/later");
    fs::write(&later, "later").map_err(|error| folder.told(error))?;
    let installed = prefix.join("bin/fantzori");
    let mut command = Command::new(&installed);
    let ran = Ran::of(command.args(["uninstall", "shared prefix"]).current_dir(folder.path("")))?;
    let told = ran.out.starts_with("removed from shared prefix: ") && later.exists();
    ensure(ran.is_done() && told, &ran, "it is not removed, or what came later is")?;
    fs::remove_dir_all(prefix.join("share/doc/fantzori")).map_err(|error| folder.told(error))?;
    ensure(all()? == before, &ran, &format!("not as before: {:?} was {before:?}", all()?))?;
    for name in ["shared prefix", "no such prefix", ""] {
        let ran = project.run(&["uninstall", name])?;
        ensure(ran.is_ended(2, "fantzori: "), &ran, "nothing to remove is not told")?;
    }
    fs::remove_dir_all(&prefix).map_err(|error| folder.told(error))
}

/// The names of all commands, as help.txt has them.
fn names() -> Vec<&'static str> {
    let text = include_str!("../../../command/help.txt");
    text.lines().filter_map(|line| line.strip_prefix("= ")?.split(' ').next()).collect()
}

/// `man fantzori` finds the manual page, which tells every command and gives no warning.
fn manual(folder: &Folder, prefix: &Path) -> Result<(), String> {
    if find("man").is_none() {
        println!("building: the manual page is not read, as there is no man");
        return Ok(());
    }
    let ran = Ran::of(
        Command::new("man")
            .args(["--warnings", "fantzori"])
            .env("MANPATH", prefix.join("share/man"))
            .env("MANWIDTH", "80")
            .env("LC_ALL", "C")
            .current_dir(folder.path("")),
    )?;
    ensure(ran.is_done(), &ran, "man finds no page, or one with faults")?;
    let is_told =
        |name: &&str| ran.out.lines().any(|line| line.contains(&format!("fantzori {name}")));
    ensure(names().iter().all(is_told), &ran, "a command is not in the manual page")
}

/// The command and the completions as they are installed are clean.
fn is_clean(prefix: &Path) -> Result<(), String> {
    if find("shellcheck").is_none() {
        println!("building: without shellcheck what is installed is not checked by it");
        return Ok(());
    }
    for (shell, name) in
        [("sh", "bin/fantzori"), ("bash", "share/bash-completion/completions/fantzori")]
    {
        let mut check = Command::new("shellcheck");
        let ran = Ran::of(check.args(["-s", shell, name]).current_dir(prefix))?;
        ensure(ran.is_done(), &ran, &format!("shellcheck has something to say of {name}"))?;
    }
    Ok(())
}

/// The completions for bash give commands, options of the command, and files.
fn completes(folder: &Folder, prefix: &Path) -> Result<(), String> {
    if find("bash").is_none() {
        println!("building: completions are not tried, as there is no bash");
        return Ok(());
    }
    let script = r#"compopt() { :; }
        . "$1"; shift; COMP_WORDS=("$@"); COMP_CWORD=$(($# - 1)); _fantzori; echo "${COMPREPLY[@]}""#;
    let complete = |words: &[&str]| {
        let file = prefix.join("share/bash-completion/completions/fantzori");
        let mut bash = Command::new("bash");
        bash.args(["-c", script, "bash"]).arg(file).arg("fantzori").args(words);
        let ran = Ran::of(bash.current_dir(folder.path("")))?;
        ensure(ran.is_done(), &ran, "completions fail")?;
        Ok::<_, String>(ran.out.trim().to_string())
    };
    for (words, due) in [
        (&[""][..], names().join(" ").as_str()),
        (&["ma"], "mask"),
        (&["help", "ver"], "verify version"),
        (&["mask", "--"], "--help --dom --quiet --json"),
        (&["draw", "--o"], "--order"),
        (&["show", "--"], "--help"),
        (&["certify", "1", "tab"], "table"),
    ] {
        let completed = complete(words)?;
        if completed != due {
            return Err(format!("FAILED: {words:?} is completed by '{completed}', not '{due}'"));
        }
    }
    Ok(())
}

/// The installed command works on tables, and has no command of the project's folder.
fn works(folder: &Folder, tools: &Tools, prefix: &Path) -> Result<(), String> {
    let command = prefix.join("bin/fantzori");
    let caller = folder.path("sub folder");
    all_work(&command, &caller, &|run| {
        run.env("PATH", &tools.0);
    })?;
    proved(&command, &caller, prefix)?;
    for arguments in [&["build"][..], &["test"], &["bench"], &["fuzz", "1"], &["install", "x"]] {
        let ran = Ran::of(Command::new(&command).args(arguments).current_dir(&caller))?;
        let told = format!("fantzori: {} is a command of the project's folder", arguments[0]);
        ensure(ran.is_ended(2, &told), &ran, "it is not told that this one is installed")?;
    }
    Ok(())
}

/// The installed command names the proof and the page of the conditions as they are installed.
fn proved(command: &Path, caller: &Path, prefix: &Path) -> Result<(), String> {
    let ran =
        Ran::of(Command::new(command).args(["mask", "1", "../table", "out"]).current_dir(caller))?;
    let pages = fs::canonicalize(prefix.join("share/doc/fantzori"))
        .map_err(|error| format!("FAILED: {}: {error}", prefix.display()))?;
    let [proof, page] = ["Whole.antt", "ASSURANCE.md"].map(|name| pages.join(name));
    let due =
        format!("'demands' in {}, under the conditions in {}", proof.display(), page.display());
    let told = ran.out.lines().nth(2) == Some(&due) && proof.is_file() && page.is_file();
    ensure(ran.is_done() && told, &ran, &due)
}

/// A replaced program or part of the installed command is not used.
fn replaced(folder: &Folder, prefix: &Path) -> Result<(), String> {
    let build = prefix.join("libexec/fantzori/current");
    for name in ["mask", "forecast", "sizes"] {
        let program = build.join(name);
        let before = fs::read(&program).map_err(|error| folder.told(error))?;
        let script = format!("#!/bin/sh\n: >'{}'\n", folder.path("mark").display());
        fs::write(&program, script).map_err(|error| folder.told(error))?;
        let mut mask = Command::new(prefix.join("bin/fantzori"));
        mask.args(["mask", "1", "table", "not there"]).current_dir(folder.path(""));
        let ran = Ran::of(&mut mask)?;
        ensure(ran.is_ended(2, "fantzori: not as they were installed"), &ran, "it is not told")?;
        let left = folder.path("mark").exists() || folder.path("not there").exists();
        ensure(!left, &ran, "a program was run that is not the installed one")?;
        fs::write(&program, before).map_err(|error| folder.told(error))?;
        let ran = Ran::of(&mut mask)?;
        ensure(ran.is_done(), &ran, "the program as it was is refused")?;
        drop(fs::remove_file(folder.path("not there")));
    }
    let part = build.join("command/certify.sh");
    let text = fs::read_to_string(&part).map_err(|error| folder.told(error))?;
    fs::write(&part, text.replace("cmp -s", "true")).map_err(|error| folder.told(error))?;
    let mut certify = Command::new(prefix.join("bin/fantzori"));
    certify.args(["certify", "1", "table", "table"]).current_dir(folder.path(""));
    let ran = Ran::of(&mut certify)?;
    ensure(ran.is_ended(2, "fantzori: not as they were installed"), &ran, "it is not told")?;
    fs::write(&part, text).map_err(|error| folder.told(error))?;
    for name in ["key", "sums", "fantzori"] {
        fs::remove_file(build.join(name)).map_err(|error| folder.told(error))?;
        let ran = Ran::of(Command::new(prefix.join("bin/fantzori")).arg("version"))?;
        ensure(
            ran.is_ended(2, "fantzori: the installation at "),
            &ran,
            "a part is missed in vain",
        )?;
    }
    Ok(())
}
