//! The installed library: the names in it, its calls from C and from Python, and the header's warnings.

use std::collections::BTreeSet;
use std::fs;
use std::path::{Path, PathBuf};
use std::process::Command;

use compare::examples::the_and;

use super::find;
use crate::programs::root;
use crate::running::{Folder, Ran, ensure, masked};

const SOURCES: [(&str, &str); 5] = [
    ("refusals.c", include_str!("refusals.c")),
    ("calls.c", include_str!("calls.c")),
    ("opening.c", include_str!("opening.c")),
    ("opening.py", include_str!("opening.py")),
    ("header.c", "#include <masks.h>\nint main(void) { return 0; }\n"),
];
const STRICT: [&str; 5] = ["-pedantic", "-Wall", "-Wextra", "-Wconversion", "-Werror"];

/// Tests what is installed under a prefix, with a line for what is left out.
pub fn test(folder: &Folder, prefix: &Path) -> Result<(), String> {
    for (name, text) in SOURCES {
        folder.write(name, text.as_bytes())?;
    }
    folder.write("the and", &the_and())?;
    folder.write("the masked and", &masked(1, &the_and())?)?;
    let header = fs::read_to_string(prefix.join("include/masks.h"));
    let header = header.map_err(|error| folder.told(error))?;
    let library = Library { folder, prefix, header };
    library.names()?;
    for compiler in ["cc", "clang"] {
        if find(compiler).is_none() {
            println!("building: without {compiler} what it says of the header is left out");
            continue;
        }
        library.compiles(compiler)?;
        library.warns(compiler)?;
    }
    library.opens_in_c()?;
    library.opens_in_python()?;
    library.links()?;
    if find("pkg-config").is_none() {
        println!("building: without pkg-config its flags are left out");
        return Ok(());
    }
    library.has_flags()
}

struct Library<'a> {
    folder: &'a Folder,
    prefix: &'a Path,
    header: String,
}

impl Library<'_> {
    fn file(&self, name: &str) -> PathBuf {
        self.prefix.join("lib").join(name)
    }

    /// The calls that the header declares: the names that stand before a bracket, and neither in a
    /// comment nor in a preprocessor line.
    fn calls(&self) -> BTreeSet<&str> {
        let parts = self.header.split("/*").map(|part| part.rsplit("*/").next().unwrap_or(part));
        let lines = parts.flat_map(str::lines).filter(|line| !line.starts_with('#'));
        lines.filter_map(|line| line.split_once('(')?.0.split(' ').next_back()).collect()
    }

    /// The version that the header names, as a number.
    fn version(&self) -> Result<u32, String> {
        let text = self.header.lines().find_map(|line| line.strip_prefix("#define MASKS_VERSION "));
        let parts = text.unwrap_or_default().trim_matches('"').split('.').map(str::parse);
        match parts.collect::<Result<Vec<u32>, _>>().as_deref() {
            Ok([major, minor, patch]) => Ok(major * 1_000_000 + minor * 1_000 + patch),
            _ => Err(format!("FAILED: the header's version is {text:?}")),
        }
    }

    /// A command in the folder of the tests, where programs find the shared library.
    fn command(&self, name: &str) -> Command {
        let mut command = Command::new(name);
        command.current_dir(self.folder.path("")).env("LC_ALL", "C");
        command.env("LD_LIBRARY_PATH", self.prefix.join("lib"));
        command.env("PKG_CONFIG_PATH", self.prefix.join("lib/pkgconfig"));
        command
    }

    /// A compiler's command for a source.
    fn compiler(&self, name: &str, source: &str, words: &[&str]) -> Command {
        let mut command = self.command(name);
        command.arg("-I").arg(self.prefix.join("include")).args(words).arg(source);
        command
    }

    /// The archive and the shared library have the header's calls and no other name. The shared one
    /// needs no library but that of C.
    fn names(&self) -> Result<(), String> {
        if find("nm").is_none() || find("readelf").is_none() {
            println!("building: without nm and readelf the names in the library are left out");
            return Ok(());
        }
        for (which, file) in [("-g", "libmasks_c.a"), ("-D", "libmasks.so.0")] {
            let mut nm = self.command("nm");
            let ran = Ran::of(nm.args([which, "--defined-only"]).arg(self.file(file)))?;
            let names = ran.out.lines().filter_map(|line| line.split([' ', '@']).nth(2));
            let names: BTreeSet<&str> = names.filter(|&name| name != "MASKS_0").collect();
            let same = names == self.calls();
            ensure(ran.is_done() && same, &ran, "the names are not the header's calls")?;
        }
        let ran = Ran::of(self.command("readelf").arg("-dW").arg(self.file("libmasks.so.0")))?;
        let lines = |tag: &'static str| ran.out.lines().filter(move |line| line.contains(tag));
        let named = lines("(SONAME)").any(|line| line.ends_with("[libmasks.so.0]"));
        let alone = lines("(NEEDED)").all(|line| line.contains("[libc."));
        ensure(ran.is_done() && named, &ran, "its soname is another")?;
        ensure(alone, &ran, "it needs another library than that of C")
    }

    /// The header gives no warning by itself, in C, in C++ and to a compiler that is neither GCC nor
    /// clang; and a program that uses every call runs with the shared library.
    fn compiles(&self, compiler: &str) -> Result<(), String> {
        for language in [["-xc", "-std=c99"], ["-xc++", "-std=c++11"]] {
            if language[0] == "-xc++" && find("c++").is_none() {
                continue;
            }
            for words in [&["-c", "-o", "header"][..], &["-c", "-o", "header", "-U__GNUC__"]] {
                let mut compile = self.compiler(compiler, "header.c", &language);
                let ran = Ran::of(compile.args(words).args(STRICT))?;
                ensure(ran.is_done(), &ran, "the header does not compile by itself")?;
            }
        }
        let mut compile = self.compiler(compiler, "calls.c", &["-std=c99", "-o", "calls"]);
        compile.args(STRICT).arg("-L").arg(self.prefix.join("lib")).arg("-lmasks");
        let ran = Ran::of(&mut compile)?;
        ensure(ran.is_done(), &ran, "a program does not compile with the shared library")?;
        let ran = Ran::of(&mut self.command("./calls"))?;
        let (version, count) = (self.version()?, self.calls().len() - 1);
        let sound = ran.out == format!("{version} {version} {count} 1\n");
        ensure(ran.is_done() && sound, &ran, "the calls of the shared library fail")
    }

    /// A compiler warns of each answer that is ignored but the version, and, if asked, of each order
    /// that is not a byte.
    fn warns(&self, compiler: &str) -> Result<(), String> {
        let orders = self.header.matches("uint8_t order").count();
        for (words, warning, count) in [
            (["-DIGNORED", "-Werror=unused-result"], "unused-result]", self.calls().len() - 1),
            (["-DUNCAST", "-Werror=conversion"], "conversion]", orders),
        ] {
            let mut compile = self.compiler(compiler, "calls.c", &["-c", "-o", "unused"]);
            let ran = Ran::of(compile.args(words))?;
            let warned = ran.told.lines().filter(|line| line.ends_with(warning)).count() == count;
            ensure(ran.status != Some(0) && warned, &ran, "there are other warnings")?;
        }
        Ok(())
    }

    /// A program in C finds every call in the library that it opens.
    fn opens_in_c(&self) -> Result<(), String> {
        let words = ["-Wall", "-Wextra", "-Werror", "-o", "opening"];
        let ran = Ran::of(self.compiler("cc", "opening.c", &words).arg("-ldl"))?;
        ensure(ran.is_done(), &ran, "a program that opens the library does not compile")?;
        let mut opening = self.command("./opening");
        let ran = Ran::of(opening.arg(self.file("libmasks.so.0")).args(self.calls()))?;
        let wanted = format!("{}; 0 0 3; 1 0 0; 0 0 3 30 7 132; 0 0 132\n", self.version()?);
        let sound = ran.out == wanted;
        ensure(ran.is_done() && sound, &ran, "the library opened in C answers wrongly")?;
        let same = self.folder.read("masked by C")? == self.folder.read("the masked and")?;
        ensure(same, &ran, "the library opened in C masks wrongly")
    }

    /// The same in Python.
    fn opens_in_python(&self) -> Result<(), String> {
        let has_ctypes = || Ran::of(self.command("python3").args(["-c", "import ctypes"]));
        if find("python3").is_none() || !has_ctypes()?.is_done() {
            println!("building: without python3 and its ctypes the calls from Python are left out");
            return Ok(());
        }
        let mut opening = self.command("python3");
        opening.arg("opening.py").arg(self.file("libmasks.so.0"));
        let ran = Ran::of(opening.args(["the and", "the masked and"]))?;
        let sound = ran.out == format!("{}\n", self.version()?);
        ensure(ran.is_done() && sound, &ran, "the library opened in Python answers wrongly")
    }

    /// The archive gives the same shared library each time, and none where it lacks a call.
    fn links(&self) -> Result<(), String> {
        let more =
            format!("{}\nMASKS_CHECKED int\nmasks_more(int one,\n    int two);\n", self.header);
        self.folder.write("more.h", more.as_bytes())?;
        let script = r#"cd -- "$1" && caller=$1 && . command/common.sh && . command/library.sh && start &&
            { link_shared "$2" "$3" "$4" || { cat "$scratch/told" && exit 1; }; }"#;
        let link = |header: &Path, out: &str| {
            let mut shell = Command::new("sh");
            shell.args(["-c", script, "sh"]).arg(root()).arg(self.file("libmasks_c.a"));
            Ran::of(shell.arg(header).arg(self.folder.path(out)))
        };
        let header = self.prefix.join("include/masks.h");
        for out in ["one.so", "sub folder/other.so"] {
            let ran = link(&header, out)?;
            ensure(ran.is_done(), &ran, "the archive is not linked")?;
            let same = self.folder.read("one.so")? == self.folder.read(out)?;
            ensure(same, &ran, "the archive gives another shared library the second time")?;
        }
        let ran = link(&self.folder.path("more.h"), "more.so")?;
        let refused = ran.status == Some(1) && ran.out.contains("masks_more");
        let left = self.folder.path("more.so").exists();
        ensure(refused && !left, &ran, "a call that the archive lacks is not told")
    }

    /// The flags that pkg-config tells compile and link the same program with the archive and with the
    /// shared library. It sees every answer by its name: success with each kind, each refusal, 4
    /// twice, and one of each entry with the DOM AND.
    fn has_flags(&self) -> Result<(), String> {
        let script = r#"flags=$(pkg-config --cflags --libs "$1") && eval "cc -Wall -Wextra -Werror -o '$1' refusals.c $flags" &&
            "./$1" && pkg-config --modversion "$1""#;
        for (name, alone) in [("masks", Some(0)), ("masks-shared", Some(127))] {
            let ran = Ran::of(self.command("sh").args(["-c", script, "sh", name]))?;
            let lines: Vec<&str> = ran.out.lines().collect();
            let sound = lines.len() == 2 && lines[0] == format!("{} 23", lines[1]);
            ensure(ran.is_done() && sound, &ran, "the flags for C do not work")?;
            let mut program = self.command(&format!("./{name}"));
            let ran = Ran::of(program.env_remove("LD_LIBRARY_PATH"))?;
            ensure(ran.status == alone, &ran, "the flags are those of the other library")?;
        }
        Ok(())
    }
}
