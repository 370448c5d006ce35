//! Several commands at once.

use std::fs;
use std::io::{BufRead, BufReader, Read};

use compare::model;

use super::{Project, on_tables};
use crate::running::{Folder, Started, ensure};

const ROUNDS: usize = 12;

/// Rounds of two and of six commands at once, in the project itself.
pub fn at_once(folder: &Folder) -> Result<(), String> {
    for count in [2, 6] {
        for round in 0..ROUNDS {
            let started: Vec<_> = (0..count)
                .map(|number| Begun::new(folder, round + number, &format!("out {number}")))
                .collect::<Result<_, _>>()?;
            for begun in started {
                begun.ends_well(folder)?;
            }
        }
    }
    Ok(())
}

/// A command that was started, how what it prints must begin, and the file that it must write.
struct Begun {
    started: Started,
    beginning: String,
    out: Option<String>,
}

impl Begun {
    /// The commands take turns; every third one masks.
    fn new(folder: &Folder, turn: usize, out: &str) -> Result<Self, String> {
        let masks = turn.is_multiple_of(3);
        let (arguments, beginning) = if masks {
            let sizes = "3 shares, 30 wires, 7 tape bits, AND: ISW\n".into();
            (["mask", "1", "table", out].map(String::from).to_vec(), sizes)
        } else {
            let others = on_tables("");
            others[turn % others.len()].clone()
        };
        let words: Vec<&str> = arguments.iter().map(String::as_str).collect();
        let started = Started::new(folder.command(&words)?)?;
        Ok(Begun { started, beginning, out: masks.then(|| out.into()) })
    }

    fn ends_well(self, folder: &Folder) -> Result<(), String> {
        let ran = self.started.wait()?;
        let sound = ran.is_done() && ran.out.starts_with(&self.beginning);
        ensure(sound, &ran, "a command fails beside others")?;
        let Some(out) = self.out else { return Ok(()) };
        ensure(folder.read(&out)? == folder.read("masked")?, &ran, "OUT is another table")?;
        fs::remove_file(folder.path(&out)).map_err(|error| folder.told(error))
    }
}

/// Two commands at once where nothing is kept: one builds, the other waits for it.
pub fn builds(folder: &Folder, project: &Project) -> Result<(), String> {
    project.remove_part("built")?;
    let start = || Started::new(project.command(&["show", "table"]));
    let lines = model::listing(&folder.read("table")?);
    let mut waited = 0;
    for started in [start()?, start()?] {
        let ran = started.wait()?;
        ensure(ran.status == Some(0) && ran.out == lines, &ran, "one of two commands fails")?;
        let [waits, builds] = ["waiting for it", "proving and building show"]
            .map(|part| ran.told.lines().any(|line| line.contains(part)));
        ensure(waits != builds, &ran, "it does not either build or wait")?;
        waited += usize::from(waits);
    }
    if waited == 1 { Ok(()) } else { Err(format!("FAILED: {waited} of two commands waited")) }
}

/// Who waits goes on as soon as its own program is there, while another still builds the rest.
pub fn own_program(folder: &Folder, project: &Project) -> Result<(), String> {
    project.remove_part("built")?;
    let mut builds = Started::new(project.command(&["build"]))?;
    let told = builds.child.stderr.take().ok_or("FAILED: standard error is not taken")?;
    let (mut told, mut lines) = (BufReader::new(told), String::new());
    // It has the lock when it tells what it proves.
    told.read_line(&mut lines).map_err(|error| format!("FAILED: {error}"))?;
    let ran = project.run(&["show", "table"])?;
    let listing = model::listing(&folder.read("table")?);
    ensure(ran.status == Some(0) && ran.out == listing, &ran, "it does not wait well")?;
    let goes_on = builds.child.try_wait().is_ok_and(|status| status.is_none());
    let waited = ran.told.contains("waiting for it");
    ensure(goes_on && waited, &ran, "it waits for more than its own program")?;
    told.read_to_string(&mut lines).map_err(|error| format!("FAILED: {error}"))?;
    let ran = builds.wait()?;
    ensure(ran.status == Some(0), &ran, "a build fails while another waits")?;
    counted(&lines)
}

/// Each crate is told once, with the numbers from 1 to how many there are.
fn counted(told: &str) -> Result<(), String> {
    let numbers: Vec<&str> = told.lines().filter_map(|line| line.split(", ").nth(1)).collect();
    let count = numbers.iter().filter(|text| text.contains(" of ")).count();
    let are_all = (1..=count).all(|at| numbers.contains(&format!("{at} of {count}").as_str()));
    if count > 30 && are_all {
        return Ok(());
    }
    Err(format!("FAILED: not every crate is told once:\n{told}"))
}
