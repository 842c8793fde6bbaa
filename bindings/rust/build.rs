//! Links the proved library, `libkressedach.a`.
//!
//! 1. Where `KRESSEDACH_LIB_DIR` is set, the archive is taken from that folder. A relative one goes by the folder in which cargo was called.
//! 2. Else the repository's own is taken, for the processor that `KRESSEDACH_PROCESSOR` names or the plain one of the target. Where there
//!    is none, or an old one, `bindings/archive` proves the library and compiles it: from nothing that takes as long as the proofs do,
//!    afterwards seconds. Cargo hides what a build script prints, so what is proved is said on the terminal, where there is one.
//!
//! An archive of another kind of processor, or of another version, is refused. The archive is copied to `OUT_DIR`, so that what was looked
//! at is what is linked.

use std::fs::OpenOptions;
use std::io::{BufRead, BufReader, Write};
use std::os::unix::process::parent_id;
use std::path::{Path, PathBuf};
use std::process::{Command, Stdio};
use std::{env, fs};

fn main() {
    println!("cargo:rerun-if-changed=build.rs");
    println!("cargo:rerun-if-env-changed=KRESSEDACH_LIB_DIR");
    println!("cargo:rerun-if-env-changed=KRESSEDACH_PROCESSOR");
    let plain = plain();
    let asked = env::var("KRESSEDACH_PROCESSOR").ok().filter(|asked| !asked.is_empty());
    let (archive, processor) = match env::var_os("KRESSEDACH_LIB_DIR").filter(|dir| !dir.is_empty()) {
        Some(dir) => lent(&called_from(PathBuf::from(dir)), plain, asked),
        None => own(&PathBuf::from(env::var_os("CARGO_MANIFEST_DIR").unwrap()).join("../.."), plain, asked),
    };
    let out = PathBuf::from(env::var_os("OUT_DIR").unwrap());
    let bytes = fs::read(&archive).unwrap_or_else(|e| missing(&format!("{} cannot be read: {e}.", archive.display())));
    if machine(&bytes) != Some(plain) {
        let found = machine(&bytes).unwrap_or("neither x86-64 nor aarch64");
        missing(&format!("{} is for {found}, and this build is for {plain}.", archive.display()));
    }
    if let Err(e) = fs::write(out.join("libkressedach.a"), &bytes) {
        missing(&format!("{} cannot be copied: {e}.", archive.display()));
    }
    if let Some(other) = other_version(&out, &bytes) {
        missing(&format!("{} is of version {other}, and this crate is of {}.", archive.display(), env!("CARGO_PKG_VERSION")));
    }
    println!("cargo:rustc-env=KRESSEDACH_COMPILED_FOR={processor}");
    println!("cargo:rustc-link-search=native={}", out.display());
    println!("cargo:rustc-link-lib=static=kressedach");
}

/// Ends the build and says what is missing, and how it is had.
fn missing(what: &str) -> ! {
    eprintln!("\nkressedach needs the proved library, libkressedach.a. {what}");
    eprintln!("Run 'bindings/archive PROCESSOR' in the repository (it needs rt, the Rattle toolchain; PROCESSOR is x86-64 or aarch64),");
    eprintln!("or set KRESSEDACH_LIB_DIR to a folder that holds libkressedach.a.\n");
    std::process::exit(1);
}

/// The plain processor of the target.
fn plain() -> &'static str {
    let part = |name: &str| env::var(name).unwrap_or_default();
    match (part("CARGO_CFG_TARGET_OS").as_str(), part("CARGO_CFG_TARGET_ARCH").as_str()) {
        ("linux", "x86_64") => "x86-64",
        ("linux", "aarch64") => "aarch64",
        _ => missing(&format!("It is for Linux on x86-64 or aarch64, and this build is for {}.", part("TARGET"))),
    }
}

/// The kind of processor that an archive is for, by its first ELF object.
fn machine(archive: &[u8]) -> Option<&'static str> {
    let object = archive.windows(4).position(|bytes| bytes == b"\x7fELF")?;
    match archive.get(object + 18..object + 20)? {
        [62, 0] => Some("x86-64"),
        [183, 0] => Some("aarch64"),
        _ => None,
    }
}

/// The version of the archive that was copied, where it is not this crate's: a program that is linked with it says it, if the machine at
/// hand can link and run one.
fn other_version(out: &Path, archive: &[u8]) -> Option<String> {
    let function = b"kressedach_version";
    if !archive.windows(function.len()).any(|bytes| bytes == function) {
        return Some("none that it can tell".into());
    }
    let (source, program) = (out.join("version.rs"), out.join("version"));
    let asks = "extern \"C\" { fn kressedach_version() -> u32; }\nfn main() { print!(\"{}\", unsafe { kressedach_version() }) }\n";
    if env::var("HOST") != env::var("TARGET") || fs::write(&source, asks).is_err() {
        return None;
    }
    let linker = env::var("RUSTC_LINKER").map(|linker| format!("-Clinker={linker}"));
    let mut rustc = Command::new(env::var_os("RUSTC").unwrap());
    rustc.arg(&source).arg("-o").arg(&program).arg("-L").arg(out).arg("-lstatic=kressedach").args(linker);
    rustc.output().ok().filter(|made| made.status.success())?;
    let said: u32 = String::from_utf8(Command::new(program).output().ok()?.stdout).ok()?.parse().ok()?;
    let version = format!("{}.{}.{}", said / 1_000_000, said / 1_000 % 1_000, said % 1_000);
    (version != env!("CARGO_PKG_VERSION")).then_some(version)
}

/// A folder as the caller means it. Cargo runs this in the crate's own folder, and the one in which it was called is that of its process.
/// `PWD` mostly says the same, so that cargo runs this again from another folder; where it does not, cargo is told to do so each time.
fn called_from(dir: PathBuf) -> PathBuf {
    if dir.is_absolute() {
        return dir;
    }
    println!("cargo:rerun-if-env-changed=PWD");
    let pwd = env::var_os("PWD").map(PathBuf::from).filter(|here| here.is_absolute());
    match fs::read_link(format!("/proc/{}/cwd", parent_id())).ok().or(pwd.clone()) {
        Some(here) => {
            if pwd.and_then(|pwd| fs::canonicalize(pwd).ok()).as_ref() != Some(&here) {
                println!("cargo:rerun-if-changed=no file of this name");
            }
            here.join(dir)
        }
        None => missing(&format!("KRESSEDACH_LIB_DIR is {}, and nothing says in which folder that is.", dir.display())),
    }
}

/// The archive of the folder that the caller names, and its processor: what the folder's file `processor` says, else the plain one.
fn lent(dir: &Path, plain: &str, asked: Option<String>) -> (PathBuf, String) {
    let archive = dir.join("libkressedach.a");
    println!("cargo:rerun-if-changed={}", archive.display());
    if !archive.is_file() {
        missing(&format!("KRESSEDACH_LIB_DIR is {}, and there is no libkressedach.a in it.", dir.display()));
    }
    let said = fs::read_to_string(dir.join("processor")).map_or(plain.to_string(), |said| said.trim().to_string());
    match asked {
        Some(asked) if asked != said => missing(&format!("KRESSEDACH_PROCESSOR is {asked}, and {} is for {said}.", archive.display())),
        _ => (archive, said),
    }
}

/// The archive of the repository at `root`, made where there is none or an old one, and its processor.
fn own(root: &Path, plain: &str, asked: Option<String>) -> (PathBuf, String) {
    // A folder here stands for all that is below it. Neither the archive itself nor what rt makes in a crate's folder `out` may be named:
    // they are written while this runs, so cargo would take them for changed and run this again each time.
    println!("cargo:rerun-if-changed={}", root.join("crates.txt").display());
    for one in fs::read_dir(root.join("crates")).into_iter().flatten().flatten() {
        for part in ["src", "specs", "proofs"].map(|part| one.path().join(part)).iter().filter(|part| part.is_dir()) {
            println!("cargo:rerun-if-changed={}", part.display());
        }
    }
    let processor = if env::var("HOST") == env::var("TARGET") { runnable(root) } else { asked.unwrap_or(plain.to_string()) };
    make(root, &processor);
    let folder = if processor == "x86-64" { "target/staticlib".to_string() } else { format!("target/archive/{processor}") };
    (root.join(folder).join("libkressedach.a"), processor)
}

/// The processor that is asked for, which this machine can run.
fn runnable(root: &Path) -> String {
    let said = Command::new("sh").arg("bindings/processor").current_dir(root).output();
    let said = said.unwrap_or_else(|e| missing(&format!("bindings/processor cannot be run: {e}.")));
    if !said.status.success() {
        missing(&format!("{}.", String::from_utf8_lossy(&said.stderr).trim_start_matches("kressedach: ").trim()));
    }
    String::from_utf8_lossy(&said.stdout).trim().to_string()
}

/// Says something on the terminal, if there is one.
fn tell(what: &str) {
    if let Ok(mut terminal) = OpenOptions::new().write(true).open("/dev/tty") {
        let _ = writeln!(terminal, "{what}");
    }
}

fn make(root: &Path, processor: &str) {
    // what the script says goes one way, in its order
    let mut command = Command::new("sh");
    let started = command.args(["-c", "exec sh bindings/archive \"$0\" 2>&1", processor]).current_dir(root).stdout(Stdio::piped()).spawn();
    let mut child = started.unwrap_or_else(|e| missing(&format!("bindings/archive cannot be run: {e}.")));
    let (mut said, mut name) = (String::new(), String::new());
    for line in child.stdout.take().into_iter().flat_map(|out| BufReader::new(out).lines()).map_while(Result::ok) {
        // rt names a crate, and in a line further on it says whether it is proved
        if let Some((named, _)) = line.strip_prefix("crate ").and_then(|line| line.split_once(": modules ")) {
            name = named.to_string();
        } else if let Some(verdict) = line.strip_prefix("logic=").and_then(|line| line.split(' ').next()) {
            tell(&format!("kressedach: {name} {verdict}"));
        } else if said.is_empty() {
            tell("kressedach: proving the library; from nothing that takes long");
        }
        said += &(line + "\n");
    }
    if !child.wait().is_ok_and(|status| status.success()) {
        eprint!("{said}");
        missing(&format!("'bindings/archive {processor}' failed, as shown above."));
    }
}
