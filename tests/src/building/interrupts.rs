//! Interrupts of a command while it proves from nothing.

use std::io::{self, BufRead, BufReader, Read};
use std::os::unix::fs::MetadataExt;
use std::path::{Path, PathBuf};
use std::process::ChildStderr;
use std::time::{Duration, Instant};
use std::{fs, thread};

use super::keeping::add_line;
use super::{Project, sources};
use crate::running::{Folder, Ran, Started, at_terminal, ensure};

const PROVES: &str = "fantzori: proving tables, 1 of ";
const WAITS: &str = "fantzori: another ./fantzori is proving here: waiting for it";

/// Each signal while a command proves, and one while another waits for it; meanwhile nobody else
/// can read its table.
pub fn test(folder: &Folder) -> Result<(), String> {
    let project = Project::copy(folder, "nothing built", &sources()?)?;
    // What rt proved of these sources elsewhere on this machine it would take from there.
    add_line(&project.path.join("crates/tables/src/lib.rt"), "// more")
        .map_err(|error| project.told(error))?;
    for (signal, status) in [("TERM", 143), ("INT", 130), ("HUP", 129), ("QUIT", 131)] {
        let proves = Begun::new(folder, &project, "temporary", PROVES)?;
        // So that the prover has begun to write.
        thread::sleep(Duration::from_millis(300));
        proves.ensure_private()?;
        proves.end(signal, status)?;
        ensure_ended(folder, &project)?;
    }
    let mut proves = Begun::new(folder, &project, "temporary", PROVES)?;
    let waits = Begun::new(folder, &project, "temporary too", WAITS)?;
    waits.end("TERM", 143)?;
    if proves.started.child.try_wait().is_ok_and(|status| status.is_some()) {
        return Err("FAILED: an interrupt of who waits ends who proves".into());
    }
    proves.end("TERM", 143)?;
    ensure_ended(folder, &project)?;
    killed(folder, &project)?;
    project.remove()
}

/// Where a command is killed its prover ends too, the lock is free, and the next command that has the
/// same folder for temporary files removes what was left there.
fn killed(folder: &Folder, project: &Project) -> Result<(), String> {
    let proves = Begun::new(folder, project, "temporary", PROVES)?;
    thread::sleep(Duration::from_millis(300));
    proves.started.send("KILL")?;
    let start = Instant::now();
    while !processes(&project.path).is_empty() && start.elapsed() < Duration::from_secs(3) {
        thread::sleep(Duration::from_millis(20));
    }
    ensure_ended(folder, project)?;
    let count = || fs::read_dir(&proves.temporary).map(Iterator::count).unwrap_or_default();
    let left = count();
    let mut next = project.command(&["help", "mask"]);
    let ran = Ran::of(next.env("TMPDIR", &proves.temporary))?;
    ensure(ran.is_done() && count() == left, &ran, "help removes files")?;
    let mut next = project.command(&["version"]);
    let ran = Ran::of(next.env("TMPDIR", &proves.temporary))?;
    ensure(ran.is_done() && left == 1 && count() == 0, &ran, "what KILL left is not removed")?;
    let temporary = proves.temporary.clone();
    drop(proves);
    fs::remove_dir_all(temporary).map_err(|error| folder.told(error))?;
    // It would tell that it waits.
    let mut proves = Begun::new(folder, project, "temporary", "fantzori: ")?;
    proves.read_until(PROVES)?;
    if proves.first.contains("waiting") {
        return Err("FAILED: a command that was killed still has the lock".into());
    }
    proves.end("TERM", 143)?;
    ensure_ended(folder, project)
}

/// A command that has told a line, with a folder for its temporary files.
struct Begun {
    started: Started,
    told: BufReader<ChildStderr>,
    /// The line that was waited for first.
    first: String,
    temporary: PathBuf,
}

impl Begun {
    fn new(folder: &Folder, project: &Project, name: &str, line: &str) -> Result<Self, String> {
        let temporary = folder.path(name);
        fs::create_dir(&temporary).map_err(|error| folder.told(error))?;
        let mut command = at_terminal(&project.command(&["mask", "1", "table", "not there"]));
        command.env("TMPDIR", &temporary);
        let mut started = Started::new(command)?;
        let told = started.child.stderr.take().ok_or("FAILED: standard error is not taken")?;
        let mut begun =
            Begun { started, told: BufReader::new(told), first: String::new(), temporary };
        begun.first = begun.read_until(line)?;
        Ok(begun)
    }

    /// Reads what the command tells up to a line that begins so, and gives that line.
    fn read_until(&mut self, beginning: &str) -> Result<String, String> {
        let mut all = String::new();
        loop {
            let mut line = String::new();
            let read =
                self.told.read_line(&mut line).map_err(|error| format!("FAILED: {error}"))?;
            if line.starts_with(beginning) {
                return Ok(line);
            }
            if read == 0 {
                return Err(format!("FAILED: '{beginning}' is not told, but {all:?}"));
            }
            all += &line;
        }
    }

    /// The command's copy of the table is there, and others cannot read it.
    fn ensure_private(&self) -> Result<(), String> {
        let mut tables = Vec::new();
        copies(&self.temporary, true, &mut tables)
            .map_err(|error| format!("FAILED: {}: {error}", self.temporary.display()))?;
        if !tables.is_empty() && tables.iter().all(|&(_, is_open)| !is_open) {
            return Ok(());
        }
        Err(format!("FAILED: no copy of the table, or one that others can read: {tables:?}"))
    }

    /// After a signal one line is told, beside how far the proofs were.
    fn ensure_told(&mut self, signal: &str) -> Result<(), String> {
        let mut rest = String::new();
        self.told.read_to_string(&mut rest).map_err(|error| format!("FAILED: {error}"))?;
        let lines = rest.lines().filter(|line| !line.starts_with("fantzori: proving "));
        let due = format!("fantzori: interrupted by {signal}");
        if lines.eq([due.as_str()]) { Ok(()) } else { Err(format!("FAILED: it told {rest:?}")) }
    }

    /// A signal to the command alone ends it at once, and its temporary files are removed.
    fn end(mut self, signal: &str, status: i32) -> Result<(), String> {
        self.started.send(signal)?;
        let ended = self.started.ends_within(Duration::from_secs(2))?;
        self.ensure_told(signal)?;
        let io = |error| format!("FAILED: {}: {error}", self.temporary.display());
        let left = fs::read_dir(&self.temporary).map(Iterator::count).map_err(io)?;
        fs::remove_dir_all(&self.temporary).map_err(io)?;
        if ended.code() == Some(status) && left == 0 {
            return Ok(());
        }
        Err(format!("FAILED: after {signal}: {ended}, {left} temporary files left"))
    }
}

/// The copies of a table below a folder, and whether others can read them.
fn copies(folder: &Path, is_open: bool, all: &mut Vec<(PathBuf, bool)>) -> io::Result<()> {
    for entry in fs::read_dir(folder)? {
        let path = entry?.path();
        // What the prover writes may be gone meanwhile.
        let Ok(data) = fs::symlink_metadata(&path) else { continue };
        if data.is_dir() {
            copies(&path, is_open && data.mode() & 0o011 != 0, all)?;
        } else if path.ends_with("table") {
            all.push((path, is_open && data.mode() & 0o044 != 0));
        }
    }
    Ok(())
}

impl Drop for Begun {
    /// Where a test fails, nothing goes on proving.
    fn drop(&mut self) {
        if self.started.child.try_wait().is_ok_and(|status| status.is_none()) {
            drop(self.started.send("TERM"));
            drop(self.started.child.wait());
        }
    }
}

/// Nothing that was started is left, and OUT is not written.
fn ensure_ended(folder: &Folder, project: &Project) -> Result<(), String> {
    let start = Instant::now();
    let mut left = processes(&project.path);
    while !left.is_empty() && start.elapsed() < Duration::from_millis(500) {
        thread::sleep(Duration::from_millis(20));
        left = processes(&project.path);
    }
    let written = folder.path("not there").exists();
    if left.is_empty() && !written {
        // Whatever rt had proved meanwhile, the next command proves the first crate again.
        drop(fs::remove_dir_all(project.path.join("crates/tables/out/rlib")));
        return Ok(());
    }
    Err(format!("FAILED: after an interrupt OUT is written: {written}; left are {left:?}"))
}

/// The processes in a folder, or with it in their words.
fn processes(folder: &Path) -> Vec<String> {
    let Ok(entries) = fs::read_dir("/proc") else { return vec!["/proc cannot be read".into()] };
    let name = folder.to_string_lossy();
    let words = |process: &Path| {
        let words = fs::read(process.join("cmdline")).unwrap_or_default();
        let words = String::from_utf8_lossy(&words).replace('\0', " ");
        let at = fs::read_link(process.join("cwd")).unwrap_or_default();
        (words.contains(&*name) || at.starts_with(folder)).then_some(words)
    };
    entries.flatten().filter_map(|entry| words(&entry.path())).collect()
}
