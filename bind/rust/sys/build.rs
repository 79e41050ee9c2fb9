//! Finds the proved library and links it. Four places are looked at, in this order:
//!
//! 1. the folder that `HAYTHAW_LIB_DIR` names;
//! 2. `pkg-config`, where the library is installed;
//! 3. inside the repository, `oracle/build`, if `oracle/library.sh` has made the library there;
//! 4. `assembly`, which a released package carries: it is compiled by the C compiler.
//!
//! It never proves anything, and links nothing of another version than its own.

use std::env;
use std::fs;
use std::path::{Path, PathBuf};
use std::process::{exit, Command};

/// The version of this package, and of the library that goes with it.
const VERSION: &str = env!("CARGO_PKG_VERSION");

/// The library's files have this text, and directly after it their version.
const MARK: &[u8] = b"haythaw-version-";

fn main() {
    let answer = Target::asked().and_then(|target| find(&target, Path::new(env!("CARGO_MANIFEST_DIR"))));
    match answer {
        Ok(found) => found.link(),
        Err(message) => {
            eprintln!("haythaw-sys: {message}");
            exit(1)
        }
    }
}

/// What is compiled for, and on what.
#[derive(Debug, Clone)]
pub struct Target {
    /// The target's name, as x86_64-unknown-linux-gnu.
    pub name: String,
    /// The name of the machine that compiles.
    pub host: String,
    /// x86_64 or aarch64.
    pub machine: String,
}

impl Target {
    /// The one that cargo asks for.
    fn asked() -> Result<Self, String> {
        let said = |name: &str| env::var(name).map_err(|reason| format!("cargo sets {name}: {reason}"));
        let target = Self { name: said("TARGET")?, host: said("HOST")?, machine: said("CARGO_CFG_TARGET_ARCH")? };
        let (bits, order) = (said("CARGO_CFG_TARGET_POINTER_WIDTH")?, said("CARGO_CFG_TARGET_ENDIAN")?);
        supported(&target.name, &said("CARGO_CFG_TARGET_OS")?, &target.machine, &bits, &order)?;
        Ok(target)
    }

    /// Whether the target is another kind of machine than the one that compiles.
    pub fn is_foreign(&self) -> bool {
        self.host.split('-').next() != self.name.split('-').next()
    }
}

/// Refuses a target that the library is not made for.
pub fn supported(name: &str, os: &str, machine: &str, bits: &str, order: &str) -> Result<(), String> {
    match (os, machine, bits, order) {
        ("linux", "x86_64" | "aarch64", "64", "little") => Ok(()),
        _ => Err(format!("the target is {name}; the library is for Linux on x86-64 and aarch64, of 64 bits, alone")),
    }
}

/// A library that is of this version.
#[derive(Debug, Clone, PartialEq, Eq)]
pub struct Found {
    /// Where libhaythaw.a or libhaythaw.so is.
    pub folder: PathBuf,
    /// Whether it is libhaythaw.a.
    pub is_static: bool,
    /// Where haythaw.h is, if that is known.
    pub include: Option<PathBuf>,
}

impl Found {
    /// Tells cargo.
    fn link(&self) {
        let kind = if self.is_static { "static" } else { "dylib" };
        println!("cargo::rustc-link-search=native={}", self.folder.display());
        println!("cargo::rustc-link-lib={kind}=haythaw");
        println!("cargo::metadata=version={VERSION}");
        println!("cargo::metadata=lib={}", self.folder.display());
        if let Some(include) = &self.include {
            println!("cargo::metadata=include={}", include.display());
        }
    }
}

fn find(target: &Target, package: &Path) -> Result<Found, String> {
    if let Some(folder) = variable("HAYTHAW_LIB_DIR") {
        return given(Path::new(&folder));
    }
    if let Some(found) = installed(target)? {
        return Ok(found);
    }
    if let Some(found) = made(target, package)? {
        return Ok(found);
    }
    if let Some(found) = compiled(target, package)? {
        return Ok(found);
    }
    Err(nowhere(&target.machine))
}

/// What to say where there is no library.
pub fn nowhere(machine: &str) -> String {
    format!(
        "libhaythaw {VERSION} was not found. It can come from\n  \
         1. a folder: HAYTHAW_LIB_DIR=/a/folder, with libhaythaw.a or libhaythaw.so in it;\n  \
         2. pkg-config, once the library is installed (make install) and its haythaw.pc is found;\n  \
         3. assembly/{machine}.s, which a released package carries, a checkout does not, and the C compiler compiles.\n\
         With the proof kit, oracle/library.sh of the repository makes libhaythaw.a, and HAYTHAW_LIB_DIR=$PWD/oracle/build takes it."
    )
}

/// The library in the folder that the caller names.
pub fn given(folder: &Path) -> Result<Found, String> {
    let shown = folder.display();
    if !folder.is_absolute() {
        return Err(format!("HAYTHAW_LIB_DIR is {shown}; it has to be an absolute path, as $PWD/{shown}"));
    }
    let found = within(folder)?;
    found.ok_or(format!("HAYTHAW_LIB_DIR is {shown}, and there is neither libhaythaw.a nor libhaythaw.so in it"))
}

/// The library that pkg-config knows.
fn installed(target: &Target) -> Result<Option<Found>, String> {
    for name in ["PKG_CONFIG_PATH", "PKG_CONFIG_LIBDIR", "PKG_CONFIG_SYSROOT_DIR"] {
        println!("cargo::rerun-if-env-changed={name}");
    }
    if variable("HAYTHAW_NO_PKG_CONFIG").is_some() {
        return Ok(None);
    }
    let program = tool("PKG_CONFIG", target).unwrap_or_else(|| match target.is_foreign() {
        true => format!("{}-linux-gnu-pkg-config", target.machine),
        false => "pkg-config".to_owned(),
    });
    let ask = |words: &[&str]| {
        // With the folders that a compiler looks at anyway.
        let allowed = [("PKG_CONFIG_ALLOW_SYSTEM_LIBS", "1"), ("PKG_CONFIG_ALLOW_SYSTEM_CFLAGS", "1")];
        let said = Command::new(&program).args(words).arg("haythaw").envs(allowed).output().ok()?;
        said.status.success().then(|| String::from_utf8_lossy(&said.stdout).trim().to_owned())
    };
    let Some(version) = ask(&["--modversion"]) else { return Ok(None) };
    if let Some(folder) = ask(&["--variable=pcfiledir"]) {
        println!("cargo::rerun-if-changed={folder}/haythaw.pc");
    }
    if version != VERSION {
        return Err(format!(
            "pkg-config has haythaw {version}, and this is haythaw-sys {VERSION}, which needs {VERSION}: \
             set HAYTHAW_LIB_DIR, or HAYTHAW_NO_PKG_CONFIG=1 to pass it by"
        ));
    }
    let flags = ask(&["--libs", "--cflags"]).unwrap_or_default();
    let words = words(&flags);
    let folders = |flag: &'static str| words.iter().filter_map(move |word| word.strip_prefix(flag).map(PathBuf::from));
    for folder in folders("-L") {
        if let Some(found) = within(&folder)? {
            let include = folders("-I").find(|folder| folder.join("haythaw.h").is_file()).or(found.include);
            return Ok(Some(Found { include, ..found }));
        }
    }
    Err(format!(
        "pkg-config has haythaw {version}, but neither libhaythaw.a nor libhaythaw.so is where it says: {flags}"
    ))
}

/// The words of pkg-config's answer, in which a backslash stands before a blank that belongs to a word.
pub fn words(line: &str) -> Vec<String> {
    let (mut words, mut letters) = (vec![String::new()], line.chars());
    while let Some(letter) = letters.next() {
        let last = words.last_mut().expect("there is always one");
        match letter {
            '\\' => last.extend(letters.next()),
            blank if blank.is_whitespace() => words.push(String::new()),
            letter => last.push(letter),
        }
    }
    words.retain(|word| !word.is_empty());
    words
}

/// Inside the repository, the library that oracle/library.sh has made.
fn made(target: &Target, package: &Path) -> Result<Option<Found>, String> {
    let Ok(root) = package.join("../../..").canonicalize() else { return Ok(None) };
    if !root.join("oracle/library.sh").is_file() {
        return Ok(None);
    }
    let build = root.join("oracle/build");
    // That for another machine than this one stands in a folder of its own.
    let found = within(&if target.is_foreign() { build.join(&target.machine) } else { build })?;
    Ok(found.map(|found| Found { include: Some(root.join("bind/c")), ..found }))
}

/// The library of the assembly that the package carries.
fn compiled(target: &Target, package: &Path) -> Result<Option<Found>, String> {
    let assembly = package.join("assembly");
    let sources = [assembly.join(format!("{}.s", target.machine)), assembly.join("haythaw_text.c")];
    if !sources[0].is_file() {
        return Ok(None);
    }
    let out = PathBuf::from(variable("OUT_DIR").ok_or("cargo sets OUT_DIR")?);
    let archive = out.join("libhaythaw.a");
    let compiler = tool("CC", target).unwrap_or_else(|| guessed("gcc", "cc", target));
    let archiver = tool("AR", target).unwrap_or_else(|| guessed("ar", "ar", target));

    let mut objects = Vec::new();
    for source in sources.iter().filter(|source| source.is_file()) {
        println!("cargo::rerun-if-changed={}", source.display());
        let object = out.join(source.with_extension("o").file_name().expect("it has a name"));
        let words = ["-c", "-O2", "-fPIC", "-I"].map(Path::new);
        run(&compiler, words.into_iter().chain([&*assembly, source, Path::new("-o"), &object]))?;
        objects.push(object);
    }
    let _ = fs::remove_file(&archive);
    run(&archiver, [Path::new("rcs"), &archive].into_iter().chain(objects.iter().map(PathBuf::as_path)))?;
    // What was made here is no reason to make it again.
    checked(&out).map(|found| found.map(|found| Found { include: has_header(&assembly), ..found }))
}

/// Runs a tool, which may have words of its own ("ccache gcc").
fn run<'a>(tool: &str, words: impl Iterator<Item = &'a Path>) -> Result<(), String> {
    let mut own = tool.split_whitespace();
    let mut command = Command::new(own.next().unwrap_or_default());
    command.args(own).args(words);
    let said = command.output().map_err(|reason| format!("the assembly needs a C compiler: {tool}: {reason}"))?;
    if said.status.success() {
        return Ok(());
    }
    let complaint = String::from_utf8_lossy(&said.stderr);
    Err(format!("the assembly was not compiled: {command:?}: {}: {}", said.status, complaint.trim()))
}

/// The tool that the caller named for the target: by CC_x86_64-unknown-linux-gnu, with underscores too, TARGET_CC or HOST_CC, or CC.
fn tool(name: &str, target: &Target) -> Option<String> {
    let kind = if target.host == target.name { "HOST" } else { "TARGET" };
    let plain = target.name.replace('-', "_");
    let mut names = vec![format!("{name}_{}", target.name), format!("{name}_{plain}"), format!("{kind}_{name}")];
    // The pkg-config of this machine knows nothing of another one's libraries.
    if name != "PKG_CONFIG" || !target.is_foreign() {
        names.push(name.to_owned());
    }
    names.iter().find_map(|name| variable(name))
}

/// The usual name of a tool for the target, as aarch64-linux-gnu-gcc, or for this machine.
pub fn guessed(cross: &str, own: &str, target: &Target) -> String {
    if !target.is_foreign() {
        return own.to_owned();
    }
    let kind = target.name.rsplit('-').next().unwrap_or("gnu");
    let named = |kind: &str| format!("{}-linux-{kind}-{cross}", target.machine);
    // Assembly is the same for every C library, so that a compiler for another one will do.
    let runs = |tool: &String| Command::new(tool).arg("--version").output().is_ok();
    [named(kind), named("gnu")].into_iter().find(runs).unwrap_or(named(kind))
}

/// A variable of the environment, of which an empty one is none. Cargo comes back when it changes.
fn variable(name: &str) -> Option<String> {
    println!("cargo::rerun-if-env-changed={name}");
    env::var(name).ok().filter(|value| !value.is_empty())
}

/// The library in a folder, if there is one. Cargo comes back when it changes.
fn within(folder: &Path) -> Result<Option<Found>, String> {
    let found = checked(folder)?;
    if let Some(found) = &found {
        let name = if found.is_static { "libhaythaw.a" } else { "libhaythaw.so" };
        println!("cargo::rerun-if-changed={}", folder.join(name).display());
    }
    Ok(found)
}

/// The library in a folder, if there is one: libhaythaw.a if it is there, else libhaythaw.so.
fn checked(folder: &Path) -> Result<Option<Found>, String> {
    for (name, is_static) in [("libhaythaw.a", true), ("libhaythaw.so", false)] {
        let file = folder.join(name);
        if file.is_file() {
            let bytes = fs::read(&file).map_err(|reason| format!("{}: {reason}", file.display()))?;
            same_version(&file, &bytes)?;
            let include = has_header(folder).or(has_header(&folder.join("../include")));
            return Ok(Some(Found { folder: folder.to_owned(), is_static, include }));
        }
    }
    Ok(None)
}

fn has_header(folder: &Path) -> Option<PathBuf> {
    folder.join("haythaw.h").is_file().then(|| folder.to_owned())
}

/// Refuses a file of the library that is of another version than this package.
pub fn same_version(file: &Path, bytes: &[u8]) -> Result<(), String> {
    let file = file.display();
    match version(bytes) {
        Some(version) if version == VERSION => Ok(()),
        Some(version) => {
            Err(format!("{file} is of version {version}, and this is haythaw-sys {VERSION}, which needs {VERSION}"))
        }
        None => {
            Err(format!("{file} does not say its version, and this is haythaw-sys {VERSION}, which needs {VERSION}"))
        }
    }
}

/// The version that a file of the library has, which stands behind `MARK`.
pub fn version(bytes: &[u8]) -> Option<String> {
    let at = bytes.windows(MARK.len()).position(|part| part == MARK)?;
    let rest = bytes[at + MARK.len()..].iter();
    Some(
        rest.map(|byte| char::from(*byte))
            .take_while(|letter| letter.is_ascii_alphanumeric() || ".-+".contains(*letter))
            .collect(),
    )
}
