//! Interrupts at many moments, and what a command leaves that was killed.

use std::os::unix::fs::{PermissionsExt, symlink};
use std::os::unix::process::CommandExt;
use std::path::PathBuf;
use std::process::Command;
use std::time::{Duration, Instant};
use std::{env, fs, process, thread};

use compare::examples::the_and;

use super::{KEPT, ensure_kept};
use crate::running::{Folder, Ran, Started, at_terminal, ensure, masked};

/// The signals that end a command, and their statuses.
const SIGNALS: [(&str, i32); 4] = [("INT", 130), ("TERM", 143), ("HUP", 129), ("QUIT", 131)];
/// So many moments in each loop.
const MOMENTS: u32 = 44;

pub fn test(folder: &Folder) -> Result<(), String> {
    fs::create_dir(folder.path("scratch")).map_err(|error| folder.told(error))?;
    folder.write("masked", &masked(1, &the_and())?)?;
    let cert = folder.run(&["certify", "1", "table", "masked"])?;
    folder.write("cert", cert.out.as_bytes())?;
    while_reading(folder)?;
    at_moments(folder, true)?;
    at_moments(folder, false)?;
    killed_at_moments(folder)?;
    let name = killed_while_writing(folder)?;
    strangers(folder, &name)
}

/// A command whose temporary files are in "scratch", in a process group of its own.
fn command(folder: &Folder, words: &[&str]) -> Result<Command, String> {
    let mut command = at_terminal(&folder.command(words)?);
    command.env("TMPDIR", folder.path("scratch")).process_group(0);
    Ok(command)
}

/// The names in "scratch".
fn scratch(folder: &Folder) -> Result<Vec<String>, String> {
    let entries = fs::read_dir(folder.path("scratch")).map_err(|error| folder.told(error))?;
    Ok(entries.flatten().map(|entry| entry.file_name().to_string_lossy().into_owned()).collect())
}

/// Waits until something is so, for at most ten seconds.
fn wait_for(mut is_so: impl FnMut() -> Result<bool, String>) -> Result<bool, String> {
    let start = Instant::now();
    while start.elapsed() < Duration::from_secs(10) {
        if is_so()? {
            return Ok(true);
        }
        thread::sleep(Duration::from_millis(2));
    }
    Ok(false)
}

/// Sends a signal to a command's process, or to its whole group; it may have ended before.
fn send(started: &Started, signal: &str, to_all: bool) -> Result<(), String> {
    let id = format!("{}{}", if to_all { "-" } else { "" }, started.child.id());
    Ran::of(Command::new("kill").args(["-s", signal, "--", &id])).map(drop)
}

/// A command that is ended while it reads its table leaves no temporary file and no OUT.
fn while_reading(folder: &Folder) -> Result<(), String> {
    let pipe = folder.path("pipe");
    let made = Ran::of(Command::new("mkfifo").arg(&pipe))?;
    ensure(made.is_done(), &made, "no pipe can be made")?;
    // Opened for both, so that opening does not wait, and nothing comes through it.
    let writer = fs::File::options().read(true).write(true).open(&pipe);
    let _writer = writer.map_err(|error| folder.told(error))?;
    for (signal, status) in SIGNALS {
        let mut started = Started::new(command(folder, &["mask", "1", "pipe", "not there"])?)?;
        let is_there = wait_for(|| Ok(scratch(folder)?.len() == 1))?;
        send(&started, signal, false)?;
        started.ends_within(Duration::from_secs(5))?;
        let ran = started.wait()?;
        let told = format!("fantzori: interrupted by {signal}\n");
        ensure(is_there && ran.is_ended(status, &told), &ran, &told)?;
        ensure(scratch(folder)?.is_empty(), &ran, "temporary files are left")?;
        ensure_kept(folder)?;
    }
    Ok(())
}

/// The commands that are interrupted.
const COMMANDS: [&[&str]; 5] = [
    &["mask", "1", "table", "not there"],
    &["mask", "1", "table", "not there", "--json"],
    &["certify", "1", "table", "masked"],
    &["verify", "cert", "table", "masked"],
    &["check", "table", "masked"],
];

/// How long a command takes here.
fn time_of(folder: &Folder, words: &[&str]) -> Result<Duration, String> {
    let start = Instant::now();
    let ran = Started::new(command(folder, words)?)?.wait()?;
    ensure(ran.is_done(), &ran, "the command fails")?;
    let time = start.elapsed();
    drop(fs::remove_file(folder.path("not there")));
    Ok(time)
}

/// An interrupt at any moment, of all processes as from a terminal or of the command's own, is told
/// in one line or comes before or after the work; nothing is left, and OUT is whole or not there.
fn at_moments(folder: &Folder, to_all: bool) -> Result<(), String> {
    let mut interrupted = 0;
    for words in COMMANDS {
        let time = time_of(folder, words)?;
        let moments = MOMENTS / COMMANDS.len() as u32 + 1;
        for moment in 0..moments {
            let (signal, status) = SIGNALS[moment as usize % 4];
            let started = Started::new(command(folder, words)?)?;
            thread::sleep(time * moment / moments);
            send(&started, signal, to_all)?;
            let ran = started.wait()?;
            match ran.status {
                Some(code) if code == status => {
                    let told = format!("fantzori: interrupted by {signal}\n");
                    ensure(ran.told == told, &ran, &told)?;
                    interrupted += 1;
                }
                // The signal came before the command could trap it, or after its end.
                None => ensure(ran.told.is_empty(), &ran, "more is told")?,
                _ => ensure(ran.is_done(), &ran, "it has another end")?,
            }
            ensure(scratch(folder)?.is_empty(), &ran, "an interrupt leaves temporary files")?;
            whole_or_none(folder, &ran)?;
        }
    }
    if interrupted < 10 {
        return Err(format!("FAILED: only {interrupted} commands were interrupted"));
    }
    Ok(())
}

/// OUT is there whole or not at all, and then it is removed; nothing is beside it.
fn whole_or_none(folder: &Folder, ran: &Ran) -> Result<(), String> {
    if folder.path("not there").exists() {
        ensure(folder.read("not there")? == masked(1, &the_and())?, ran, "OUT is cut")?;
        fs::remove_file(folder.path("not there")).map_err(|error| folder.told(error))?;
    }
    ensure_kept(folder)
}

/// The next command, which removes what is left.
fn next_command(folder: &Folder) -> Result<(), String> {
    let ran = Started::new(command(folder, &["check", "--quiet", "table"])?)?.wait()?;
    ensure(ran.is_done() && ran.out.is_empty(), &ran, "the next command fails")?;
    let names = scratch(folder)?;
    ensure(names.is_empty(), &ran, &format!("the next command leaves {names:?}"))?;
    whole_or_none(folder, &ran)
}

/// What a command leaves that was killed, alone or with all its processes, the next one removes.
fn killed_at_moments(folder: &Folder) -> Result<(), String> {
    let words = ["mask", "1", "table", "not there"];
    let time = time_of(folder, &words)?;
    let mut left = 0;
    for moment in 0..MOMENTS {
        let mut started = Started::new(command(folder, &words)?)?;
        thread::sleep(time * moment / MOMENTS);
        send(&started, "KILL", moment % 2 == 0)?;
        started.ends_within(Duration::from_secs(5))?;
        left += scratch(folder)?.len();
        // A program that was not killed with it may still run.
        wait_for(|| Ok(!group_lives(started.child.id())))?;
        next_command(folder)?;
    }
    if left < 5 {
        return Err(format!("FAILED: only {left} killed commands left something"));
    }
    Ok(())
}

/// The fields of a process after its name: its state, its parent, its group, and so on.
fn process_fields(stat: &str) -> Vec<&str> {
    stat.rsplit(") ").next().unwrap_or_default().split(' ').collect()
}

/// Whether a process group has a process that has not ended.
fn group_lives(id: u32) -> bool {
    let entries = fs::read_dir("/proc").into_iter().flatten().flatten();
    entries.filter_map(|entry| fs::read_to_string(entry.path().join("stat")).ok()).any(|stat| {
        let fields = process_fields(&stat);
        fields.len() > 2 && fields[2] == id.to_string() && !["Z", "X"].contains(&fields[0])
    })
}

/// Killed with OUT written and not yet renamed: while it lives nothing is removed by others, and
/// then everything. Answers the name of its temporary folder.
fn killed_while_writing(folder: &Folder) -> Result<String, String> {
    let io = |error| folder.told(error);
    // A program mv that waits to be killed.
    let tools = folder.path("tools");
    fs::create_dir(&tools).map_err(io)?;
    folder.write("tools/mv", b"#!/bin/sh\nexec sleep 60\n")?;
    fs::set_permissions(tools.join("mv"), PermissionsExt::from_mode(0o755)).map_err(io)?;
    let path = format!("{}:{}", tools.display(), env::var("PATH").unwrap_or_default());
    let mut name = String::new();
    for to_all in [false, true] {
        let mut slow = command(folder, &["mask", "1", "table", "out"])?;
        slow.env("PATH", &path);
        let mut started = Started::new(slow)?;
        let is_there =
            wait_for(|| Ok(beside(folder)?.len() == 1 && is_whole(folder, &beside(folder)?[0])))?;
        let (kept, files) = (scratch(folder)?, beside(folder)?);
        let ran = Started::new(command(folder, &["check", "table"])?)?.wait()?;
        let same = is_there && kept == scratch(folder)? && files == beside(folder)?;
        send(&started, "KILL", to_all)?;
        started.ends_within(Duration::from_secs(5))?;
        ensure(same && ran.is_done(), &ran, "what a living command has was removed")?;
        ensure(kept.len() == 1 && files == [format!(".{}", kept[0])], &ran, "other names")?;
        // What it started goes on where it was killed alone.
        next_command(folder)?;
        send(&started, "KILL", true)?;
        ensure(folder.read("out")? == KEPT, &ran, "OUT was changed")?;
        name = kept[0].clone();
    }
    Ok(name)
}

/// The files beside OUT that are to be renamed.
fn beside(folder: &Folder) -> Result<Vec<String>, String> {
    let mut names = folder.names()?;
    names.retain(|name| name.starts_with(".fantzori-"));
    Ok(names)
}

/// Whether a file of the folder is the masked table.
fn is_whole(folder: &Folder, name: &str) -> bool {
    masked(1, &the_and()).is_ok_and(|due| folder.read(name).is_ok_and(|bytes| bytes == due))
}

/// When a process began, in ticks since the boot.
fn began(id: u32) -> Result<String, String> {
    let stat = fs::read_to_string(format!("/proc/{id}/stat")).map_err(|error| error.to_string())?;
    let began = process_fields(&stat).get(19).map(|&field| field.into());
    began.ok_or("FAILED: a process has no beginning".into())
}

/// What is removed is of a command that is gone, and nothing that others could have put there.
fn strangers(folder: &Folder, name: &str) -> Result<(), String> {
    let io = |error| folder.told(error);
    let machine = name.rsplitn(3, '-').nth(2).unwrap_or_default();
    let living = format!("{machine}-{}-{}", process::id(), began(process::id())?);
    let gone = [format!("{machine}-{}-1", process::id()), format!("{machine}-1-1")];
    let at = |name: &str| -> PathBuf { folder.path("scratch").join(name) };
    for name in gone.iter().chain([&living, &"fantzori-other-1-1".into()]) {
        fs::create_dir_all(at(name).join("scratch")).map_err(io)?;
    }
    // A note that names another file, a link to a folder, and a file.
    folder.write("mine", KEPT)?;
    let mine = folder.path("mine");
    fs::write(at(&gone[0]).join("beside"), mine.to_string_lossy().as_bytes()).map_err(io)?;
    symlink(folder.path("sub folder"), at(&format!("{machine}-2-1"))).map_err(io)?;
    fs::write(at(&format!("{machine}-3-1")), KEPT).map_err(io)?;
    let ran = Started::new(command(folder, &["check", "table"])?)?.wait()?;
    let mut names = scratch(folder)?;
    let mut due =
        [living, "fantzori-other-1-1".into(), format!("{machine}-2-1"), format!("{machine}-3-1")];
    names.sort();
    due.sort();
    ensure(ran.is_done() && names == due, &ran, &format!("{names:?} are left, not {due:?}"))?;
    let kept = folder.read("mine")? == KEPT && folder.path("sub folder").is_dir();
    ensure(kept, &ran, "a stranger's file was removed")
}
