//! Tests of the words of commands: options, their places, numbers of words, and help.

use std::collections::BTreeSet;
use std::fs;
use std::time::Duration;

use compare::examples::the_and;
use compare::model::And;

use super::ensure_kept;
use crate::programs::root;
use crate::running::{Folder, Ran, Started, ensure, masked, masked_with};

/// The options that some command has.
const OPTIONS: [&str; 4] = ["--dom", "--quiet", "--json", "--order"];

pub fn test(folder: &Folder) -> Result<(), String> {
    folder.write("masked", &masked(1, &the_and())?)?;
    let usages = usages()?;
    for usage in &usages {
        unknown_options(folder, usage)?;
        numbers_of_words(folder, usage)?;
        help(folder, usage)?;
    }
    list(folder, &usages)?;
    no_commands(folder)?;
    no_options(folder)?;
    places(folder)?;
    ends_of_options(folder)
}

/// The usages of all commands.
fn usages() -> Result<Vec<String>, String> {
    let path = root().join("command/help.txt");
    let text = fs::read_to_string(&path).map_err(|error| format!("{}: {error}", path.display()))?;
    let usages: Vec<String> =
        text.lines().filter_map(|line| line.strip_prefix("= ")).map(String::from).collect();
    if usages.len() < 10 {
        return Err(format!("FAILED: {} has only {} usages", path.display(), usages.len()));
    }
    Ok(usages)
}

/// The command of a usage.
fn command_of(usage: &str) -> &str {
    usage.split(' ').next().unwrap_or_default()
}

/// Words that a command takes: those outside brackets, as files of the folder.
fn sound_words(usage: &str) -> Vec<&str> {
    let mut depth = 0;
    let mut words = vec![command_of(usage)];
    for word in usage.split(' ').skip(1) {
        depth += word.matches('[').count();
        if depth == 0 {
            words.push(match word {
                "ORDER" | "SECONDS" => "1",
                "OUT" => "out",
                "MASKED" => "masked",
                "PREFIX" => "prefix",
                _ => "table",
            });
        }
        depth -= word.matches(']').count();
    }
    words
}

/// Runs a command that must not begin to work: it ends soon, and writes nothing.
fn run_idle(folder: &Folder, words: &[&str]) -> Result<Ran, String> {
    let names = || folder.names().map(BTreeSet::from_iter);
    let before: BTreeSet<String> = names()?;
    let mut started = Started::new(folder.command(words)?)?;
    started.ends_within(Duration::from_secs(20))?;
    let ran = started.wait()?;
    ensure(names()? == before, &ran, "something was written")?;
    ensure_kept(folder)?;
    Ok(ran)
}

/// A command that is refused in one line, which ends with its usage.
fn misused(folder: &Folder, words: &[&str], usage: &str) -> Result<(), String> {
    let ran = run_idle(folder, words)?;
    let told = format!("; usage: fantzori {usage}\n");
    let sound = ran.is_ended(2, "fantzori: ") && ran.told.ends_with(&told);
    ensure(sound, &ran, &format!("it is not refused with '{told}'"))
}

/// A word with a dash that is no option of a command is refused, wherever it stands.
fn unknown_options(folder: &Folder, usage: &str) -> Result<(), String> {
    let sound = sound_words(usage);
    let others = OPTIONS.into_iter().filter(|option| !usage.contains(option));
    let words = ["--nonsense", "-x", "-1", "--dom --quiet"].into_iter().chain(others);
    for (word, at) in words.zip((1..=sound.len()).cycle()) {
        misused(folder, &[&sound[..at], &[word], &sound[at..]].concat(), usage)?;
    }
    // The last word forgotten, and an option in its place.
    misused(folder, &[&sound[..sound.len().max(2) - 1], &["--nonsense"]].concat(), usage)
}

/// One word less than a command takes, and one more.
fn numbers_of_words(folder: &Folder, usage: &str) -> Result<(), String> {
    let sound = sound_words(usage);
    if sound.len() > 1 {
        misused(folder, &sound[..sound.len() - 1], usage)?;
        misused(folder, &sound[..1], usage)?;
    }
    if usage.ends_with("..") {
        return Ok(());
    }
    let more: &[&str] = if usage.ends_with("[COMMAND]") { &["mask", "more"] } else { &["more"] };
    misused(folder, &[&sound[..], more].concat(), usage)?;
    misused(folder, &[&sound[..], &["--"], more].concat(), usage)
}

/// The help of a command is the same by three ways, whatever else is there, and has all its parts.
fn help(folder: &Folder, usage: &str) -> Result<(), String> {
    let name = command_of(usage);
    let ran = run_idle(folder, &["help", name])?;
    ensure(ran.is_done(), &ran, "there is no help")?;
    let lines: Vec<&str> = ran.out.lines().collect();
    ensure(lines[0] == format!("usage: fantzori {usage}"), &ran, "it does not begin with usage")?;
    let example = format!("  $ fantzori {name}");
    let has = |beginning: &str| lines.iter().any(|line| line.starts_with(beginning));
    ensure(has("Status: 0 ") && has(&example), &ran, "it has no statuses, or no example")?;
    narrow(&ran)?;
    for option in OPTIONS.into_iter().filter(|option| usage.contains(option)) {
        ensure(has(&format!("  {option} ")), &ran, &format!("it says nothing of {option}"))?;
    }
    for words in [&[name, "--help"][..], &[name, "-h"], &[name, "more", "-h", "--nonsense"]] {
        let other = run_idle(folder, words)?;
        ensure(other.is_done() && other.out == ran.out, &other, "the help is another")?;
    }
    Ok(())
}

/// No line has more than 80 columns.
fn narrow(ran: &Ran) -> Result<(), String> {
    let wide = ran.out.lines().find(|line| line.chars().count() > 80);
    ensure(wide.is_none(), ran, &format!("a line has more than 80 columns: {wide:?}"))
}

/// The list has every command, by four ways.
fn list(folder: &Folder, usages: &[String]) -> Result<(), String> {
    let ran = run_idle(folder, &["help"])?;
    ensure(ran.is_done(), &ran, "there is no list")?;
    narrow(&ran)?;
    for usage in usages {
        let beginning = format!("  fantzori {} ", command_of(usage));
        let count = ran.out.lines().filter(|line| line.starts_with(&beginning)).count();
        ensure(count == 1, &ran, &format!("'{beginning}' is there {count} times"))?;
    }
    for words in [&[][..], &["--help"], &["-h"]] {
        let other = run_idle(folder, words)?;
        ensure(other.is_done() && other.out == ran.out, &other, "the list is another")?;
    }
    Ok(())
}

/// What is no command is told, as a command and to `help`.
fn no_commands(folder: &Folder) -> Result<(), String> {
    for word in ["nonsense", "", r"m\141sk", "=", "install_under", "mask show", "start"] {
        for words in [&[word][..], &["help", word], &[word, "1", "table", "out"]] {
            let ran = run_idle(folder, words)?;
            let told = format!("fantzori: there is no command '{word}': see 'fantzori help'\n");
            ensure(ran.is_ended(2, &told), &ran, &told)?;
        }
    }
    for words in [&["--dom"][..], &["--"], &["-x", "mask"], &["--dom", "mask"]] {
        let ran = run_idle(folder, words)?;
        let told = format!("fantzori: there is no command '{}': ", words[0]);
        ensure(ran.is_ended(2, &told), &ran, &told)?;
    }
    Ok(())
}

/// Options given twice, two that exclude each other, and values for options that take none.
fn no_options(folder: &Folder) -> Result<(), String> {
    let mask = "mask [--dom] [--quiet | --json] ORDER TABLE OUT";
    let check = "check [--quiet | --json] TABLE..";
    for (words, usage) in [
        (&["mask", "--dom", "1", "--dom", "table", "out"][..], mask),
        (&["mask", "1", "table", "out", "--quiet", "--json"], mask),
        (&["mask", "1", "table", "out", "--dom="], mask),
        (&["mask", "--dom=1", "1", "table", "out"], mask),
        (&["mask", "--dom=yes", "table", "out"], mask),
        (&["check", "--quiet", "table", "--quiet"], check),
        (&["check", "--json", "table", "--json"], check),
        (&["check", "--json", "--quiet", "table"], check),
        (&["check", "--json=1", "table"], check),
        (&["check", "--quiet=", "table"], check),
    ] {
        misused(folder, words, usage)?;
    }
    Ok(())
}

/// Options stand anywhere.
fn places(folder: &Folder) -> Result<(), String> {
    let words = ["1", "table", "made"];
    for at in 0..=3 {
        for with in [&["--dom"][..], &["--dom", "--"]] {
            if with.len() == 2 && at == 3 {
                continue;
            }
            let all = [&["mask"], &words[..at], with, &words[at..]].concat();
            made(folder, &all, And::Dom, "made")?;
        }
        let all = [&["mask", "--quiet"], &words[..at], &["--dom"], &words[at..]].concat();
        let ran = made(folder, &all, And::Dom, "made")?;
        ensure(ran.out.is_empty(), &ran, "it is not quiet")?;
    }
    let ran = folder.run(&["check", "table", "--quiet", "masked"])?;
    ensure(ran.is_done() && ran.out.is_empty(), &ran, "it is not quiet")
}

/// A masking that writes a file, which is then removed.
fn made(folder: &Folder, words: &[&str], and: And, out: &str) -> Result<Ran, String> {
    let ran = folder.run(words)?;
    ensure(ran.is_done(), &ran, "masking fails")?;
    let due = masked_with(and, 1, &the_and())?;
    ensure(folder.read(out)? == due, &ran, "OUT is another table")?;
    fs::remove_file(folder.path(out)).map_err(|error| folder.told(error))?;
    ensure_kept(folder)?;
    Ok(ran)
}

/// After `--` a file may have the name of an option; with its folder it may so everywhere.
fn ends_of_options(folder: &Folder) -> Result<(), String> {
    for name in ["--dom", "-x", "--help", "--", "-h"] {
        folder.write(name, &the_and())?;
        let there = format!("./{name}");
        for words in [
            &["mask", "1", "--", name, "made"][..],
            &["mask", "--", "1", name, "made"],
            &["mask", "1", &there, "made"],
        ] {
            made(folder, words, And::Isw, "made")?;
        }
        for words in [&["check", "--", name][..], &["check", &there], &["show", "--", name]] {
            let ran = folder.run(words)?;
            ensure(ran.is_done() && !ran.out.is_empty(), &ran, "the file is not read")?;
        }
        fs::remove_file(folder.path(name)).map_err(|error| folder.told(error))?;
        made(folder, &["mask", "1", "table", "--", name], And::Isw, name)?;
        made(folder, &["mask", "--dom", "1", "--", "table", name], And::Dom, name)?;
        made(folder, &["mask", "1", "table", &there], And::Isw, name)?;
    }
    Ok(())
}
