//! Running ./fantzori and other commands in folders of the tests.

use std::ffi::OsStr;
use std::fmt::{self, Debug, Formatter};
use std::path::PathBuf;
use std::process::{Child, Command, ExitStatus, Stdio};
use std::time::{Duration, Instant};
use std::{env, fs, io, process, thread};

use compare::model::{self, And};

use crate::programs::root;

/// A demand on what came back; where it does not hold, all that came back is shown.
pub fn ensure(holds: bool, ran: &Ran, what: &str) -> Result<(), String> {
    if holds { Ok(()) } else { Err(format!("FAILED: {what}\n{ran:?}")) }
}

/// What came back from a command.
#[derive(Debug)]
pub struct Ran {
    #[allow(dead_code, reason = "it is shown where a test fails")]
    arguments: Vec<String>,
    pub status: Option<i32>,
    pub out: String,
    pub told: String,
    /// Standard output as it came, where `out` has it as text.
    pub bytes: Bytes,
}

/// Bytes of which only the number is shown.
#[derive(PartialEq, Eq)]
pub struct Bytes(pub Vec<u8>);

impl Debug for Bytes {
    fn fmt(&self, f: &mut Formatter) -> fmt::Result {
        write!(f, "{}", self.0.len())
    }
}

impl Ran {
    /// Runs a command to its end.
    pub fn of(command: &mut Command) -> Result<Self, String> {
        let output = command.output().map_err(|error| format!("FAILED: {command:?}: {error}"))?;
        Ok(Ran::new(command, output))
    }

    fn new(command: &Command, output: process::Output) -> Self {
        let text = |bytes: &[u8]| String::from_utf8_lossy(bytes).into_owned();
        Ran {
            arguments: command.get_args().map(|word| word.to_string_lossy().into_owned()).collect(),
            status: output.status.code(),
            out: text(&output.stdout),
            told: text(&output.stderr),
            bytes: Bytes(output.stdout),
        }
    }

    /// Whether standard error has one line, with that beginning.
    pub fn is_told(&self, beginning: &str) -> bool {
        self.told.starts_with(beginning) && self.told.lines().count() == 1
    }

    /// Whether it was done, with nothing on standard error.
    pub fn is_done(&self) -> bool {
        self.status == Some(0) && self.told.is_empty()
    }

    /// Whether it printed nothing and ended with a status and one line on standard error.
    pub fn is_ended(&self, status: i32, beginning: &str) -> bool {
        self.status == Some(status) && self.out.is_empty() && self.is_told(beginning)
    }
}

/// The same command, with interrupts as at a terminal: in the background they are ignored, and what
/// was ignored at its start no shell can trap.
pub fn at_terminal(command: &Command) -> Command {
    let mut same = Command::new("env");
    same.arg("--default-signal=HUP,INT,QUIT").arg(command.get_program()).args(command.get_args());
    if let Some(folder) = command.get_current_dir() {
        same.current_dir(folder);
    }
    same
}

/// A command that was started; what it prints is taken.
pub struct Started {
    command: Command,
    pub child: Child,
}

impl Started {
    pub fn new(mut command: Command) -> Result<Self, String> {
        command.stdout(Stdio::piped()).stderr(Stdio::piped());
        let child = command.spawn().map_err(|error| format!("FAILED: {command:?}: {error}"))?;
        Ok(Started { command, child })
    }

    /// What comes back at its end.
    pub fn wait(self) -> Result<Ran, String> {
        let output = self.child.wait_with_output().map_err(|error| format!("FAILED: {error}"))?;
        Ok(Ran::new(&self.command, output))
    }

    /// Sends a signal to the command's process alone.
    pub fn send(&self, signal: &str) -> Result<(), String> {
        let ran = Ran::of(Command::new("kill").args(["-s", signal, &self.child.id().to_string()]))?;
        ensure(ran.is_done(), &ran, "no signal can be sent")
    }

    /// Its status if it ends in so long; else it is killed.
    pub fn ends_within(&mut self, time: Duration) -> Result<ExitStatus, String> {
        let start = Instant::now();
        while start.elapsed() < time {
            if let Some(status) = self.child.try_wait().map_err(|error| format!("{error}"))? {
                return Ok(status);
            }
            thread::sleep(Duration::from_millis(5));
        }
        drop(self.child.kill());
        Err(format!("FAILED: {:?} does not end within {time:?}", self.command))
    }
}

/// A folder for the tests, removed at the end.
pub struct Folder(PathBuf);

impl Folder {
    pub fn new(name: &str) -> Result<Self, String> {
        let path = env::temp_dir().join(format!("fantzori-test-{}-{name}", process::id()));
        let folder = Folder(path);
        fs::create_dir_all(folder.path("sub folder")).map_err(|error| folder.told(error))?;
        Ok(folder)
    }

    pub fn told(&self, error: io::Error) -> String {
        format!("FAILED: {}: {error}", self.0.display())
    }

    pub fn path(&self, name: &str) -> PathBuf {
        self.0.join(name)
    }

    pub fn write(&self, name: &str, bytes: &[u8]) -> Result<(), String> {
        fs::write(self.path(name), bytes).map_err(|error| self.told(error))
    }

    pub fn read(&self, name: &str) -> Result<Vec<u8>, String> {
        fs::read(self.path(name)).map_err(|error| self.told(error))
    }

    pub fn names(&self) -> Result<Vec<String>, String> {
        let entries = fs::read_dir(&self.0).map_err(|error| self.told(error))?;
        let name = |entry: io::Result<fs::DirEntry>| {
            entry.map(|entry| entry.file_name().to_string_lossy().into_owned())
        };
        entries.map(name).collect::<Result<_, _>>().map_err(|error| self.told(error))
    }

    /// ./fantzori, run from this folder.
    pub fn command(&self, arguments: &[&str]) -> Result<Command, String> {
        let root = fs::canonicalize(root()).map_err(|error| self.told(error))?;
        let mut command = Command::new(root.join("fantzori"));
        command.args(arguments).current_dir(&self.0);
        Ok(command)
    }

    pub fn run(&self, arguments: &[&str]) -> Result<Ran, String> {
        Ran::of(&mut self.command(arguments)?)
    }

    /// The same with words that need not be text.
    pub fn run_with(&self, arguments: &[&OsStr]) -> Result<Ran, String> {
        Ran::of(self.command(&[])?.args(arguments))
    }

    /// ./fantzori as the words "$@" of a script.
    pub fn script(&self, script: &str, arguments: &[&str]) -> Result<Ran, String> {
        let command = self.command(arguments)?;
        let mut shell = Command::new("sh");
        shell.args(["-c", script, "sh"]).arg(command.get_program()).args(arguments);
        Ran::of(shell.current_dir(&self.0))
    }

    /// The SHA-256 of a file, from sha256sum.
    pub fn sum(&self, name: &str) -> Result<String, String> {
        let ran = Ran::of(Command::new("sha256sum").arg(self.path(name)))?;
        ensure(ran.is_done(), &ran, "there is no sum")?;
        Ok(ran.out.chars().take(64).collect())
    }
}

impl Drop for Folder {
    fn drop(&mut self) {
        drop(fs::remove_dir_all(&self.0));
    }
}

/// A command's words with --dom after the first, for the DOM AND.
pub fn with_and<'a>(and: And, arguments: &[&'a str]) -> Vec<&'a str> {
    let mut all = arguments.to_vec();
    if and == And::Dom {
        all.insert(1, "--dom");
    }
    all
}

/// The masked table that the separate implementation gives, with document 01's AND.
pub fn masked(order: u8, table: &[u8]) -> Result<Vec<u8>, String> {
    masked_with(And::Isw, order, table)
}

/// The same with an AND.
pub fn masked_with(and: And, order: u8, table: &[u8]) -> Result<Vec<u8>, String> {
    model::masked(&[&[and as u8, order], table].concat())
        .map_err(|line| format!("FAILED: a table to be masked is {line}"))
}
