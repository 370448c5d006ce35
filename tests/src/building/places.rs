//! Where a project can be: a folder that cannot be written, a link, names with spaces and line feeds.

use std::fs;
use std::os::unix::fs::{PermissionsExt, symlink};
use std::path::Path;
use std::process::Command;

use super::{Project, all_work};
use crate::running::{Folder, Ran, ensure};

pub fn test(folder: &Folder) -> Result<(), String> {
    let project = not_writable(folder)?;
    named(folder, project)
}

/// Changes the modes of a folder and all in it.
fn chmod(mode: &str, path: &Path) -> Result<(), String> {
    let ran = Ran::of(Command::new("chmod").arg("-R").arg(mode).arg(path))?;
    ensure(ran.is_done(), &ran, "a mode cannot be changed")
}

/// A project that cannot be written works where all is built; else it is told. As root can write
/// everywhere, the commands are then run as nobody.
fn not_writable(folder: &Folder) -> Result<Project, String> {
    let caller = folder.path("for all");
    fs::create_dir(&caller).map_err(|error| folder.told(error))?;
    fs::set_permissions(&caller, PermissionsExt::from_mode(0o777))
        .map_err(|error| folder.told(error))?;
    let own = Ran::of(Command::new("id").arg("-u"))?;
    let is_root = own.out == "0\n";
    let project = Project::built(folder, "not writable")?;
    let start = |command: &Path| {
        let mut start = Command::new(if is_root { Path::new("setpriv") } else { command });
        if is_root {
            start.args(["--reuid=65534", "--regid=65534", "--clear-groups", "--"]).arg(command);
        }
        start
    };
    let fantzori = project.path.join("fantzori");
    let prepare = |command: &mut Command| {
        let arguments: Vec<_> = command.get_args().map(|word| word.to_os_string()).collect();
        let mut run = start(&fantzori);
        run.args(arguments).current_dir(&caller).env("TMPDIR", &caller);
        *command = run;
    };
    chmod("a-w", &project.path)?;
    all_work(&fantzori, &caller, &prepare)?;
    protected(folder, &prepare)?;
    chmod("u+w", &project.path)?;
    let built = project.path.join("built");
    fs::rename(&built, folder.path("built apart")).map_err(|error| folder.told(error))?;
    chmod("a-w", &project.path)?;
    let mut mask = Command::new(&fantzori);
    prepare(mask.args(["mask", "1", "../table", "not there"]));
    let ran = Ran::of(&mut mask)?;
    chmod("u+w", &project.path)?;
    fs::rename(folder.path("built apart"), &built).map_err(|error| folder.told(error))?;
    let told = ran.is_ended(2, "fantzori: not built, and ") && ran.told.contains("is not writable");
    ensure(told, &ran, "a folder that is not writable is not told")?;
    Ok(project)
}

/// An OUT that is not writable is left as it is.
fn protected(folder: &Folder, prepare: &dyn Fn(&mut Command)) -> Result<(), String> {
    let out = "for all/protected";
    folder.write(out, b"kept")?;
    chmod("0444", &folder.path(out))?;
    let mut mask = Command::new("");
    prepare(mask.args(["mask", "1", "../table", "protected"]));
    let ran = Ran::of(&mut mask)?;
    ensure(ran.is_ended(2, "fantzori: 'protected' is there"), &ran, "it is not told")?;
    ensure(folder.read(out)? == b"kept", &ran, "a file that is not writable was replaced")
}

/// A link to the command, and folders with strange names.
fn named(folder: &Folder, mut project: Project) -> Result<(), String> {
    let caller = folder.path("sub folder");
    let link = caller.join("a link");
    symlink(project.path.join("fantzori"), &link).map_err(|error| folder.told(error))?;
    all_work(&link, &caller, &|_| {})?;
    for name in
        [" with  spaces ", "-n", "back\\slash\\n", "it's \"$(x)\" *", "line\nfeed", "feed\n"]
    {
        project = project.moved(folder, name)?;
        all_work(&project.path.join("fantzori"), &caller, &|_| {})?;
    }
    project.remove_part("built")?;
    let ran = project.run(&["mask", "1", "table", "not there"])?;
    let told = ran.is_ended(2, "fantzori: not built, and ") && ran.told.contains("a line feed");
    ensure(told, &ran, "a line feed is not told")?;
    project.remove()
}
