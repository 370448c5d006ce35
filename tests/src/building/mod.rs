//! Tests of what is proved, built, kept and installed, in copies of the project.

mod installing;
mod interrupts;
mod keeping;
mod library;
mod places;
mod sources;
mod together;

use std::path::{Path, PathBuf};
use std::process::Command;
use std::{env, fs, io};

use compare::examples::the_and;
use compare::model::{self, And};

use crate::programs::root;
use crate::running::{Folder, Ran, ensure, masked, masked_with, with_and};

/// All tests of building, with a line for each group.
pub fn test() -> Result<(), String> {
    let folder = Folder::new("building")?;
    folder.write("table", &the_and())?;
    folder.write("masked", &masked(1, &the_and())?)?;
    let tools = Tools::new(&folder)?;
    together::at_once(&folder)?;
    println!("building: commands at once, twelve rounds of two and of six");
    keeping::without_toolchain(&folder, &tools)?;
    println!("building: where all is built, neither rt nor cc is used, and no file is changed");
    keeping::not_kept(&folder, &tools)?;
    println!("building: no program is used that was changed, or whose record or sources were");
    sources::test(&folder, &tools)?;
    println!("building: what the key covers, and a fantzori without its parts");
    interrupts::test(&folder)?;
    println!("building: interrupts while proving, and a command that is killed");
    places::test(&folder)?;
    println!("building: a project that cannot be written, links, spaces, a line feed");
    installing::test(&folder, &tools)?;
    println!("building: install, the installed command, installs beside it, uninstall");
    let project = Project::copy(&folder, "with out", &[sources()?, made()?].concat())?;
    keeping::built_again(&folder, &project)?;
    keeping::other_toolchain(&project)?;
    println!("building: a changed program is built again, and another toolchain is told");
    together::builds(&folder, &project)?;
    together::own_program(&folder, &project)?;
    println!("building: whoever comes second waits, and for its own program alone");
    fuzzes(&folder)
}

/// `fuzz` ends with its verdict.
fn fuzzes(folder: &Folder) -> Result<(), String> {
    let ran = folder.run(&["fuzz", "1"])?;
    let seed = ran.out.lines().next().and_then(|line| line.strip_prefix("seed "));
    let last = ran.out.lines().last().unwrap_or_default();
    let sound = seed.is_some_and(|seed| last.ends_with(&format!("; 0 disagreements, seed {seed}")))
        && last.contains(" s, cases: check ")
        && last.contains(", map_dom ");
    ensure(ran.status == Some(0) && sound, &ran, "fuzz ends without its verdict")?;
    println!("building: fuzz and its verdict");
    Ok(())
}

/// What is copied of the project: what the programs are proved from, and what is installed.
const SOURCES: [&str; 7] =
    ["fantzori", "command", "crates", "crates.txt", "toolchain.txt", "include", "docs"];

/// The same, without what rt made in each crate's out/.
fn sources() -> Result<Vec<String>, String> {
    let mut parts: Vec<String> =
        SOURCES.into_iter().filter(|&part| part != "crates").map(String::from).collect();
    for crate_name in names_in("crates")? {
        let folder = format!("crates/{crate_name}");
        let own = names_in(&folder)?.into_iter().filter(|name| name != "out");
        parts.extend(own.map(|name| format!("{folder}/{name}")));
    }
    Ok(parts)
}

/// What was built, and what rt keeps so that nothing is proved twice: the libraries, and all of the
/// programs and the archive.
fn made() -> Result<Vec<String>, String> {
    let mut parts = vec!["built".to_string()];
    for crate_name in names_in("crates")? {
        let out = format!("crates/{crate_name}/out");
        let is_whole = ["mask", "forecast", "sizes", "show", "masks_c"].contains(&&*crate_name);
        let part = if is_whole { out } else { out + "/rlib" };
        parts.extend(root().join(&part).exists().then_some(part));
    }
    Ok(parts)
}

/// The names in a folder of the project.
fn names_in(folder: &str) -> Result<Vec<String>, String> {
    let told = |error| format!("FAILED: {folder}: {error}");
    let entries = fs::read_dir(root().join(folder)).map_err(told)?;
    let name = |entry: io::Result<fs::DirEntry>| {
        entry.map(|entry| entry.file_name().to_string_lossy().into_owned())
    };
    entries.map(name).collect::<Result<_, _>>().map_err(told)
}

/// A copy of the project.
struct Project {
    path: PathBuf,
    /// The folder that the commands are run in.
    caller: PathBuf,
}

impl Project {
    /// Copies parts of the project into a new folder.
    fn copy(folder: &Folder, name: &str, parts: &[String]) -> Result<Self, String> {
        let path = folder.path(name);
        fs::create_dir(&path).map_err(|error| folder.told(error))?;
        let mut copy = Command::new("cp");
        let ran =
            Ran::of(copy.args(["-a", "--parents"]).args(parts).arg(&path).current_dir(root()))?;
        ensure(ran.is_done(), &ran, "the project cannot be copied")?;
        Ok(Project { path, caller: folder.path("") })
    }

    /// The sources and what was built from them.
    fn built(folder: &Folder, name: &str) -> Result<Self, String> {
        Project::copy(folder, name, &[sources()?, vec!["built".into()]].concat())
    }

    /// The same project in another folder.
    fn moved(self, folder: &Folder, name: &str) -> Result<Self, String> {
        let path = folder.path(name);
        fs::rename(&self.path, &path).map_err(|error| folder.told(error))?;
        Ok(Project { path, caller: self.caller })
    }

    fn remove(self) -> Result<(), String> {
        self.remove_part("")
    }

    fn remove_part(&self, name: &str) -> Result<(), String> {
        fs::remove_dir_all(self.path.join(name)).map_err(|error| self.told(error))
    }

    fn told(&self, error: std::io::Error) -> String {
        format!("FAILED: {}: {error}", self.path.display())
    }

    /// Its ./fantzori, run from the folder of the tests.
    fn command(&self, arguments: &[&str]) -> Command {
        let mut command = Command::new(self.path.join("fantzori"));
        command.args(arguments).current_dir(&self.caller);
        command
    }

    fn run(&self, arguments: &[&str]) -> Result<Ran, String> {
        Ran::of(&mut self.command(arguments))
    }

    /// Where a program or its record is kept, as `build` tells it where all is built.
    fn kept(&self, name: &str) -> Result<PathBuf, String> {
        let ran = self.run(&["build"])?;
        let told =
            ran.out.strip_prefix("proved and built in ").and_then(|rest| rest.split(':').next());
        ensure(ran.is_done() && told.is_some(), &ran, "build fails where all is built")?;
        Ok(self.path.join(told.unwrap_or_default()).join(name))
    }

    /// The key, as `version` tells it.
    fn key(&self) -> Result<String, String> {
        let ran = self.run(&["version"])?;
        let key = ran.out.lines().find_map(|line| line.strip_prefix("sources "));
        ensure(ran.is_done() && key.is_some(), &ran, "version fails")?;
        Ok(key.unwrap_or_default().into())
    }
}

/// What the commands on tables run, where all is built.
const TOOLS: &str = "awk cat chmod cmp cp cut date grep head mkdir mv od readlink rm sed sha256sum \
                     sort stat tail tr wc xargs";

/// A folder with links to those tools alone.
struct Tools(PathBuf);

impl Tools {
    fn new(folder: &Folder) -> Result<Self, String> {
        let tools = Tools(folder.path("tools"));
        fs::create_dir(&tools.0).map_err(|error| folder.told(error))?;
        for name in TOOLS.split(' ') {
            let found = find(name).ok_or_else(|| format!("FAILED: there is no {name}"))?;
            std::os::unix::fs::symlink(found, tools.0.join(name))
                .map_err(|error| folder.told(error))?;
        }
        Ok(tools)
    }

    /// Runs a command that finds nothing else.
    fn run(&self, command: &mut Command) -> Result<Ran, String> {
        Ran::of(command.env("PATH", &self.0))
    }
}

/// Where PATH has a program.
fn find(name: &str) -> Option<PathBuf> {
    let path = env::var_os("PATH")?;
    env::split_paths(&path).map(|folder| folder.join(name)).find(|file| file.is_file())
}

/// All commands on tables, and `version`; `prepare` says how each is run.
fn all_work(command: &Path, caller: &Path, prepare: &dyn Fn(&mut Command)) -> Result<(), String> {
    let out = caller.join("out");
    let run = |arguments: &[&str]| {
        let mut run = Command::new(command);
        run.args(arguments).current_dir(caller);
        prepare(&mut run);
        Ran::of(&mut run)
    };
    for and in And::BOTH {
        drop(fs::remove_file(&out));
        let ran = run(&with_and(and, &["mask", "1", "../table", "out"]))?;
        ensure(ran.is_done() && ran.out.lines().count() == 4, &ran, "masking fails")?;
        let written = fs::read(&out).map_err(|error| format!("FAILED: OUT: {error}"))?;
        ensure(written == masked_with(and, 1, &the_and())?, &ran, "OUT is another table")?;
    }
    for (arguments, beginning) in on_tables("../") {
        let arguments: Vec<&str> = arguments.iter().map(String::as_str).collect();
        let ran = run(&arguments)?;
        ensure(ran.is_done() && ran.out.starts_with(&beginning), &ran, "a command fails")?;
    }
    Ok(())
}

/// The commands that write no file, and how what they print begins, over "table" and "masked".
fn on_tables(before: &str) -> [(Vec<String>, String); 5] {
    let words = |line: &str| line.replace('/', before).split(' ').map(String::from).collect();
    [
        (words("certify 1 /table /masked"), "Certificate of masking\n  product       ".into()),
        (words("forecast 1 /table"), "3 shares, 30 wires, 7 tape bits, 132 bytes\n".into()),
        (words("check /table"), crate::commands::counts(&the_and())),
        (words("show /table"), model::listing(&the_and())),
        (words("version"), "fantzori ".into()),
    ]
}
