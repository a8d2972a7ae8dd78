//! What `make install` installs, as its users have it: the files, the shared library's make, and the
//! examples in C, Python and Rust over nothing else.

use std::collections::BTreeSet;
use std::ffi::OsStr;
use std::path::{Path, PathBuf};
use std::process::Command;
use std::sync::Mutex;
use std::{env, fs, process};

/// What each example prints.
const EXPECTED: &str = include_str!("../../examples/morning.expected");

/// What building and running them takes.
const TOOLS: [&str; 6] = ["cc", "make", "nm", "pkg-config", "python3", "readelf"];

/// What of the calling program's surroundings would lead to another library, or to another make.
const SURROUNDINGS: [&str; 9] = [
    "LD_LIBRARY_PATH",
    "MAKEFLAGS",
    "MAKELEVEL",
    "MFLAGS",
    "PKG_CONFIG_PATH",
    "PKG_CONFIG_SYSROOT_DIR",
    "TICKETS_LIBRARY",
    "TICKETS_LIB_DIR",
    "TICKETS_STATIC",
];

/// The repository's top.
fn top() -> PathBuf {
    Path::new(env!("CARGO_MANIFEST_DIR")).join("..")
}

/// A folder of this test that is empty.
fn emptied(name: &str) -> PathBuf {
    emptied_in(Path::new(env!("CARGO_TARGET_TMPDIR")), name)
}

fn emptied_in(place: &Path, name: &str) -> PathBuf {
    let folder = place.join(name);
    if folder.exists() {
        fs::remove_dir_all(&folder).expect("the folder of an earlier run");
    }
    fs::create_dir_all(&folder).expect("a folder");
    folder
}

/// A folder to install into, which goes when the test is done. It has symbolic links then, of which `rt ci`
/// takes none in the repository; so it lies outside of it.
struct Outside {
    folder: PathBuf,
}

impl Outside {
    fn new(name: &str) -> Self {
        let name = format!("tickets-{name}-{}", process::id());
        Self { folder: emptied_in(&env::temp_dir(), &name) }
    }
}

impl Drop for Outside {
    fn drop(&mut self) {
        // What stays there is in nobody's way.
        let _ = fs::remove_dir_all(&self.folder);
    }
}

/// A command whose surroundings say nothing of the library.
fn command(program: impl AsRef<OsStr>) -> Command {
    let mut command = Command::new(program);
    for name in SURROUNDINGS {
        command.env_remove(name);
    }
    command
}

/// Runs a command, and gives what it printed.
fn printed(command: &mut Command) -> String {
    let run = command.output().unwrap_or_else(|error| panic!("{command:?}: {error}"));
    let messages = String::from_utf8_lossy(&run.stderr);
    assert!(run.status.success(), "{command:?}: {}\n{messages}", run.status);
    String::from_utf8(run.stdout).expect("the output is text")
}

/// Installs with these words, from the library that is built; one at a time, should it be built first.
fn install(words: &[String]) {
    static TURN: Mutex<()> = Mutex::new(());
    let _turn = TURN.lock();
    for tool in TOOLS {
        let found = Command::new(tool).arg("--version").output();
        assert!(found.is_ok(), "{tool} is missing, which this test needs");
    }
    printed(command("make").arg("-C").arg(top()).arg("install").args(words));
}

/// A library installed under a prefix, with what finds it there.
struct Installed {
    prefix: Outside,
}

impl Installed {
    fn under(name: &str) -> Self {
        let prefix = Outside::new(name);
        install(&[format!("PREFIX={}", prefix.folder.display())]);
        Self { prefix }
    }

    fn folder(&self) -> PathBuf {
        self.prefix.folder.join("lib")
    }

    /// A command that finds the library by pkg-config, and by the loader.
    fn command(&self, program: impl AsRef<OsStr>) -> Command {
        let mut command = command(program);
        command.env("PKG_CONFIG_PATH", self.folder().join("pkgconfig"));
        command.env("LD_LIBRARY_PATH", self.folder());
        command
    }
}

/// The shared library's version, of the header.
fn version() -> String {
    let header = fs::read_to_string(top().join("include/tickets.h")).expect("the header");
    let line = header.lines().find_map(|line| line.strip_prefix("#define TICKETS_VERSION_TEXT "));
    line.expect("the header has a version").trim_matches('"').to_string()
}

/// The files and links under a folder, by their paths from there; a link with where it leads.
fn files(folder: &Path) -> BTreeSet<String> {
    let mut found = BTreeSet::new();
    let mut folders = vec![folder.to_path_buf()];
    while let Some(next) = folders.pop() {
        for entry in fs::read_dir(next).expect("a folder") {
            let path = entry.expect("an entry").path();
            let name = path.strip_prefix(folder).expect("a path below").display().to_string();
            if let Ok(target) = fs::read_link(&path) {
                found.insert(format!("{name} -> {}", target.display()));
            } else if path.is_dir() {
                folders.push(path);
            } else {
                found.insert(name);
            }
        }
    }
    found
}

#[test]
fn what_is_installed_is_removed_again() {
    let outside = Outside::new("dest");
    let scratch = &outside.folder;
    let destination = format!("DESTDIR={}", scratch.display());
    let words = [destination, "PREFIX=/usr".to_string(), "LIBDIR=/usr/lib64".to_string()];
    install(&words);
    let version = version();
    let major = version.split('.').next().expect("a major number");
    let expected = [
        "usr/include/tickets.h".to_string(),
        "usr/lib64/libtickets.a".to_string(),
        format!("usr/lib64/libtickets.so -> libtickets.so.{major}"),
        format!("usr/lib64/libtickets.so.{major} -> libtickets.so.{version}"),
        format!("usr/lib64/libtickets.so.{version}"),
        "usr/lib64/pkgconfig/tickets.pc".to_string(),
        "usr/share/man/man3/tickets.3".to_string(),
    ];
    assert_eq!(files(scratch), BTreeSet::from(expected));

    let asked = |question: &[&str]| {
        let mut asked = command("pkg-config");
        asked.env("PKG_CONFIG_PATH", scratch.join("usr/lib64/pkgconfig"));
        asked.env("PKG_CONFIG_SYSROOT_DIR", scratch);
        printed(asked.args(question).arg("tickets")).trim().to_string()
    };
    let below = scratch.display();
    assert_eq!(asked(&["--modversion"]), version);
    assert_eq!(asked(&["--cflags"]), format!("-I{below}/usr/include"));
    assert_eq!(asked(&["--libs", "--static"]), format!("-L{below}/usr/lib64 -ltickets"));

    printed(command("make").arg("-C").arg(top()).arg("uninstall").args(words));
    assert_eq!(files(scratch), BTreeSet::new());
}

#[test]
fn the_shared_library_exports_what_the_header_declares() {
    let installed = Installed::under("exports");
    let header = fs::read_to_string(top().join("include/tickets.h")).expect("the header");
    // A declaration starts its line with its result's type; an inline function does not.
    let declared = header.lines().filter_map(|line| {
        let (front, _) = line.split_once('(')?;
        let (result, name) = front.split_once(' ')?;
        let is_plain = |word: &str| word.chars().all(|c| c.is_ascii_alphanumeric() || c == '_');
        (is_plain(result) && is_plain(name) && name.starts_with("tickets_")).then_some(name)
    });
    let symbols = printed(
        command("nm").args(["-D", "--defined-only"]).arg(installed.folder().join("libtickets.so")),
    );
    let exported =
        symbols.lines().filter_map(|line| match line.split_whitespace().collect::<Vec<_>>()[..] {
            // The name of the version that the symbols have.
            [_, "A", _] => None,
            [_, "T", name] => Some(name.split('@').next().unwrap_or(name)),
            _ => panic!("a symbol that is no function: {line}"),
        });
    assert_eq!(BTreeSet::from_iter(exported), BTreeSet::from_iter(declared));
}

#[test]
fn the_shared_library_is_made_to_be_shared() {
    let installed = Installed::under("make");
    let library = installed.folder().join("libtickets.so");
    let dynamic = printed(command("readelf").arg("-dW").arg(&library));
    let version = version();
    let major = version.split('.').next().expect("a major number");
    let soname = format!("Library soname: [libtickets.so.{major}]");
    assert_eq!(dynamic.matches(&soname).count(), 1, "{dynamic}");
    assert!(dynamic.contains("BIND_NOW"), "{dynamic}");
    assert!(!dynamic.contains("TEXTREL"), "{dynamic}");
    // What it needs of other libraries is libc's alone.
    assert_eq!(dynamic.matches("(NEEDED)").count(), 1, "{dynamic}");
    assert!(dynamic.contains("Shared library: [libc.so."), "{dynamic}");

    let segments = printed(command("readelf").arg("-lW").arg(&library));
    let stack = segments.lines().find(|line| line.trim_start().starts_with("GNU_STACK"));
    let stack = stack.expect("the stack's segment");
    assert!(stack.contains(" RW ") && !stack.contains("RWE"), "{stack}");
    assert!(segments.contains("GNU_RELRO"), "{segments}");
}

#[test]
fn the_archive_needs_two_names_from_outside() {
    let installed = Installed::under("archive");
    let archive = installed.folder().join("libtickets.a");
    let names = printed(command("nm").arg("-u").arg(archive));
    let needed = names.lines().filter_map(|line| line.trim_start().strip_prefix("U "));
    assert_eq!(BTreeSet::from_iter(needed), BTreeSet::from(["memcpy", "memset"]));
}

#[test]
fn the_examples_print_the_morning() {
    let installed = Installed::under("examples");
    let examples = top().join("examples");
    let built = emptied("built");

    let folder = format!("BUILT={}", built.display());
    printed(installed.command("make").arg("-C").arg(examples.join("c")).arg(folder));
    assert_eq!(printed(&mut installed.command(built.join("morning"))), EXPECTED, "C, shared");
    assert_eq!(printed(&mut command(built.join("morning-static"))), EXPECTED, "C, static");

    let mut python = installed.command("python3");
    python.arg("-B").arg(examples.join("python/morning.py"));
    assert_eq!(printed(&mut python), EXPECTED, "Python");
    let mut named = command("python3");
    named.arg("-B").arg(examples.join("python/morning.py"));
    named.env("TICKETS_LIBRARY", installed.folder().join("libtickets.so"));
    assert_eq!(printed(&mut named), EXPECTED, "Python, by a path");

    let mut rust = installed.command(env!("CARGO"));
    rust.args(["run", "--quiet", "--offline", "--locked", "--target-dir"]).arg(built.join("rust"));
    rust.arg("--manifest-path").arg(examples.join("rust/Cargo.toml"));
    assert_eq!(printed(&mut rust), EXPECTED, "Rust");
}

#[test]
fn an_example_says_that_there_is_no_library() {
    let mut python = command("python3");
    python.arg("-B").arg(top().join("examples/python/morning.py"));
    python.env("TICKETS_LIBRARY", emptied("nowhere").join("libtickets.so"));
    let run = python.output().expect("python3 is there");
    assert_eq!(run.status.code(), Some(1));
    assert_eq!(run.stdout, b"");
    assert_eq!(String::from_utf8_lossy(&run.stderr).lines().count(), 1);
}
