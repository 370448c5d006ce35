//! Tests of the pages: the commands that they show print what is shown, the files that they link are
//! there, no line is too long, the tables of sizes are those of docs/sizes, and the theorem stands in
//! the file as it is quoted.

use std::fs;
use std::os::unix::fs::symlink;
use std::path::PathBuf;
use std::process::Command;

use crate::programs::root;
use crate::running::{Folder, Ran};

/// The folders that have pages.
const FOLDERS: [&str; 5] = ["", "docs/", "docs/landings/", "examples/", "tests/"];

/// The most characters that a line of a page has.
const LONGEST_LINE: usize = 140;

/// The most lines that README has.
const README_LINES: usize = 150;

/// All tests of the pages.
pub fn test() -> Result<(), String> {
    let (mut shown, mut links) = (0, 0);
    let names = pages()?;
    for name in &names {
        let page = fs::read_to_string(root().join(name)).map_err(|error| told(name, error))?;
        check_lines(name, &page)?;
        shown += run_commands(name, &page)?;
        links += check_links(name, &page)?;
    }
    check_sizes()?;
    let (pages, quotes) = (names.len(), check_quotes()?);
    println!(
        "pages: {pages} of them, {shown} commands, {links} links, the tables of sizes, {quotes} quotes"
    );
    let functions = check_script()?;
    println!("pages: {functions} functions of the script, each with a line of what it does");
    Ok(())
}

fn told(name: &str, error: std::io::Error) -> String {
    format!("FAILED: {name}: {error}")
}

/// The names of all pages, by their place in the project.
fn pages() -> Result<Vec<String>, String> {
    let mut names = Vec::new();
    for folder in FOLDERS {
        let files = fs::read_dir(root().join(folder)).map_err(|error| told(folder, error))?;
        let files = files.flatten().filter_map(|file| file.file_name().into_string().ok());
        let found = names.len();
        names.extend(
            files.filter(|file| file.ends_with(".md")).map(|file| folder.to_owned() + &file),
        );
        if names.len() == found {
            return Err(format!("FAILED: '{folder}' has no page"));
        }
    }
    names.sort();
    Ok(names)
}

/// No line of a page has too many characters, and README not too many lines.
fn check_lines(name: &str, page: &str) -> Result<(), String> {
    let is_long = |line: &str| line.chars().count() > LONGEST_LINE;
    if let Some(before) = page.lines().position(is_long) {
        let line = before + 1;
        return Err(format!("FAILED: {name}: line {line} has more than {LONGEST_LINE} characters"));
    }
    if name == "README.md" && page.lines().count() > README_LINES {
        return Err(format!("FAILED: {name} has more than {README_LINES} lines"));
    }
    Ok(())
}

/// A command that a page shows, and the lines under it.
struct Shown<'a> {
    command: &'a str,
    lines: Vec<&'a str>,
}

/// The commands of a page: lines that are set in by four and begin with a dollar sign.
fn commands(page: &str) -> Vec<Shown<'_>> {
    let mut all: Vec<Shown> = Vec::new();
    let mut inside = false;
    for line in page.lines() {
        match (line.strip_prefix("    $ "), line.strip_prefix("    ")) {
            (Some(command), _) => {
                all.push(Shown { command, lines: Vec::new() });
                inside = true;
            }
            (None, Some(text)) if inside => {
                all.last_mut().expect("a command began").lines.push(text);
            }
            _ => inside = false,
        }
    }
    all
}

/// Runs a page's commands in a folder that has ./fantzori and what the pages use beside it.
fn run_commands(name: &str, page: &str) -> Result<usize, String> {
    let commands = commands(page);
    let folder = Folder::new("page")?;
    let root = fs::canonicalize(root()).map_err(|error| told(name, error))?;
    for part in ["fantzori", "examples", "include"] {
        symlink(root.join(part), folder.path(part)).map_err(|error| folder.told(error))?;
    }
    for shown in &commands {
        let mut shell = Command::new("sh");
        shell.args(["-c", &format!("{{ {}\n}} 2>&1", shown.command)]);
        let ran = Ran::of(shell.current_dir(folder.path("")))?;
        if !are_shown(&shown.lines, &ran.out.lines().collect::<Vec<_>>()) {
            return Err(format!("FAILED: {name}: '{}' prints\n{}", shown.command, ran.out));
        }
    }
    Ok(commands.len())
}

/// Whether lines are as shown: two dots alone stand for any lines, and at the end of a line for any
/// rest of it.
fn are_shown(shown: &[&str], printed: &[&str]) -> bool {
    let Some((&first, rest)) = shown.split_first() else { return printed.is_empty() };
    if first == ".." {
        return (0..=printed.len()).any(|skipped| are_shown(rest, &printed[skipped..]));
    }
    let is_shown = |line: &str| match first.strip_suffix("..") {
        Some(beginning) => line.starts_with(beginning),
        None => line == first,
    };
    printed.split_first().is_some_and(|(line, after)| is_shown(line) && are_shown(rest, after))
}

/// The files that a page links are there.
fn check_links(name: &str, page: &str) -> Result<usize, String> {
    let folder = root().join(name).parent().map_or_else(root, PathBuf::from);
    let links: Vec<&str> =
        page.split("](").skip(1).filter_map(|rest| rest.split(')').next()).collect();
    match links.iter().find(|link| !folder.join(link).exists()) {
        Some(link) => Err(format!("FAILED: {name} links {link}, which is not there")),
        None => Ok(links.len()),
    }
}

/// Each table that docs/sizes prints stands on its page: the sizes of all crates, and what to believe.
fn check_sizes() -> Result<(), String> {
    check_table("docs/ARCHITECTURE.md", &[])?;
    check_table("docs/ASSURANCE.md", &["believe"])
}

/// A page has the table that docs/sizes prints with the words given.
fn check_table(name: &str, words: &[&str]) -> Result<(), String> {
    let page = fs::read_to_string(root().join(name)).map_err(|error| told(name, error))?;
    let table = Ran::of(Command::new(root().join("docs/sizes")).args(words))?;
    if table.is_done() && !table.out.is_empty() && page.contains(&table.out) {
        return Ok(());
    }
    Err(format!("FAILED: a table in {name} is not what docs/sizes prints: {words:?}"))
}

/// The statements that docs/ASSURANCE.md quotes in "The theorem" stand in the file that it names; two
/// dots stand for what is left out before the rest. Answers how many there are.
fn check_quotes() -> Result<usize, String> {
    let (name, source) = ("docs/ASSURANCE.md", "crates/secrecy/specs/Claims.antt");
    let read = |name| fs::read_to_string(root().join(name)).map_err(|error| told(name, error));
    let (page, claims) = (read(name)?, words(&read(source)?));
    let section = page.split("\n## ").find(|section| section.starts_with("The theorem\n"));
    let lines = section.unwrap_or_default().lines().filter_map(|line| line.strip_prefix("    "));
    let mut quotes: Vec<String> = Vec::new();
    for line in lines {
        match (line.starts_with(' '), quotes.last_mut()) {
            (true, Some(quote)) => quote.push_str(line),
            _ => quotes.push(line.into()),
        }
    }
    if quotes.is_empty() {
        return Err(format!("FAILED: {name} quotes no statement"));
    }
    for quote in &quotes {
        let quote = words(quote);
        let Some((field, rest)) = quote.split_once(" : ") else {
            return Err(format!("FAILED: {name} quotes what is no statement: {quote}"));
        };
        // Up to the next field.
        let stated =
            claims.split(" pub ").find_map(|part| part.strip_prefix(field)?.strip_prefix(" : "));
        if !stated.is_some_and(|stated| stated.contains(rest.trim_start_matches(".. "))) {
            return Err(format!("FAILED: {name} quotes '{quote}', which {source} has not"));
        }
    }
    Ok(quotes.len())
}

/// Each part of the script has at most 300 lines, and each of its functions a line before it that
/// says what it does. Answers how many functions there are.
fn check_script() -> Result<usize, String> {
    let parts = fs::read_dir(root().join("command")).map_err(|error| told("command", error))?;
    let mut functions = 0;
    for path in parts.flatten().map(|entry| entry.path()) {
        let name = path.display().to_string();
        let text = fs::read_to_string(&path).map_err(|error| told(&name, error))?;
        let lines: Vec<&str> = text.lines().collect();
        if !name.ends_with(".sh") {
            continue;
        }
        if lines.len() > 300 {
            return Err(format!("FAILED: {name} has {} lines", lines.len()));
        }
        for pair in lines.windows(2).filter(|pair| pair[1].ends_with("() {")) {
            if !pair[1].starts_with(' ') && !pair[0].starts_with("# ") {
                return Err(format!("FAILED: {name}: nothing says what {} does", pair[1]));
            }
            functions += 1;
        }
    }
    if functions > 0 { Ok(functions) } else { Err("FAILED: the script has no function".into()) }
}

/// A text with single spaces.
fn words(text: &str) -> String {
    text.split_whitespace().collect::<Vec<_>>().join(" ")
}
