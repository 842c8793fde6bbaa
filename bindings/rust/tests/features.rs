//! The crate with each set of features: it is compiled and documented without a warning, a program without Rust's standard library links
//! with it, and the folder of the archive may be relative. Each is cargo's or the compiler's own word, in a folder apart.

use std::env::consts::ARCH;
use std::fs;
use std::path::{Path, PathBuf};
use std::process::{Command, Output};

const SETS: [&[&str]; 3] = [&[], &["alloc"], &["std"]];

/// A folder of this test.
fn folder(name: &str) -> PathBuf {
    let folder = Path::new(env!("CARGO_TARGET_TMPDIR")).join("features").join(name);
    fs::create_dir_all(&folder).unwrap();
    folder
}

/// The folder with the archive that this test is linked with, and the archive's name.
fn archive() -> (&'static Path, PathBuf) {
    let folder = Path::new(env!("OUT_DIR"));
    let names = fs::read_dir(folder).unwrap().map(|file| PathBuf::from(file.unwrap().file_name()));
    (folder, names.filter(|name| name.extension().is_some_and(|end| end == "a")).max().unwrap())
}

/// Cargo on this crate with these features alone, and what it writes in a folder.
fn cargo(words: &[&str], features: &[&str], target: &Path) -> Command {
    let mut cargo = Command::new(env!("CARGO"));
    cargo.args(words).args(["--offline", "--lib", "--package", "kressedach", "--no-default-features", "--features", &features.join(",")]);
    cargo.arg("--manifest-path").arg(concat!(env!("CARGO_MANIFEST_DIR"), "/Cargo.toml")).arg("--target-dir").arg(target);
    cargo.env("KRESSEDACH_LIB_DIR", archive().0).env("RUSTFLAGS", "-D warnings").env("RUSTDOCFLAGS", "-D warnings");
    cargo.env_remove("KRESSEDACH_PROCESSOR").env_remove("CARGO_TARGET_DIR").env_remove("CARGO_ENCODED_RUSTFLAGS");
    cargo
}

fn done(command: &mut Command) -> Output {
    let output = command.output().unwrap();
    assert!(output.status.success(), "{command:?}\n{}", String::from_utf8_lossy(&output.stderr));
    output
}

/// Each set is compiled and documented without a warning, with private items and without, and has what it
/// says: lent lists, lists of its own, threads.
#[test]
fn each_set_is_compiled_and_documented() {
    for (features, due) in SETS.into_iter().zip([[true, false, false], [true, true, false], [true, true, true]]) {
        let target = folder(&format!("with-{}", features.join("-")));
        done(&mut cargo(&["check"], features, &target));
        done(&mut cargo(&["doc", "--no-deps", "--document-private-items"], features, &target));
        fs::remove_dir_all(target.join("doc")).unwrap();
        done(&mut cargo(&["doc", "--no-deps"], features, &target));
        let is_there = |function: &str| target.join(format!("doc/kressedach/fn.{function}.html")).exists();
        assert_eq!(["classify_into", "classify", "classify_on"].map(is_there), due, "{features:?}");
    }
}

/// The library that a set of features makes, as the compiler is told of it, for a program that a panic ends.
fn library(features: &[&str], target: &Path) -> PathBuf {
    done(cargo(&["build", "--release"], features, target).env("CARGO_PROFILE_RELEASE_PANIC", "abort"));
    target.join("release/libkressedach.rlib")
}

/// Nothing but the crate and what the compiler has is linked, with lent lists alone and with lists of its own.
#[test]
fn programs_without_the_standard_library() {
    for (features, source) in [(&[][..], "program"), (&["alloc"], "with_memory")] {
        let target = folder(source);
        let (library, program) = (library(features, &target), target.join(source));
        let mut rustc = Command::new(std::env::var_os("RUSTC").unwrap_or("rustc".into()));
        rustc.args(["--edition", "2021", "-C", "panic=abort", "-C", "opt-level=2", "-D", "warnings"]);
        rustc.arg(format!("{}/tests/bare/{source}.rs", env!("CARGO_MANIFEST_DIR"))).arg("-o").arg(&program);
        rustc.arg("--extern").arg(format!("kressedach={}", library.display())).arg("-L").arg(archive().0);
        done(&mut rustc);
        done(&mut Command::new(program));
    }
}

/// What cargo says where the folder of the archive is called so, from another folder; `PWD` names that one, or another, or none.
fn called(dir: &str, from: &Path, pwd: Option<&Path>) -> Output {
    let mut cargo = cargo(&["check"], &[], &folder("relative"));
    cargo.current_dir(from).env_remove("PWD").envs(pwd.map(|pwd| ("PWD", pwd))).env("KRESSEDACH_LIB_DIR", dir).output().unwrap()
}

#[test]
fn a_relative_folder_goes_by_where_cargo_is_called() {
    let here = folder("called/from");
    let above = here.parent().unwrap();
    let (from, name) = archive();
    fs::create_dir_all(here.join("lib")).unwrap();
    fs::copy(from.join(&name), here.join("lib").join(&name)).unwrap();
    let said = |output: &Output| String::from_utf8_lossy(&output.stderr).into_owned();
    for (dir, pwd) in [("lib", Some(&*here)), ("./lib", Some(&here)), ("../from/lib", Some(&here)), ("lib", Some(above)), ("lib", None)] {
        let output = called(dir, &here, pwd);
        assert!(output.status.success(), "{dir}, {pwd:?}: {}", said(&output));
    }
    let wrong = format!("KRESSEDACH_LIB_DIR is {}/lib, and there is no lib", above.display());
    // cargo sees no change here but that of the folder
    let output = called("lib", &here, Some(Path::new("/")));
    assert!(output.status.success(), "{}", said(&output));
    for pwd in [Some(Path::new("/")), Some(above), None] {
        let output = called("lib", above, pwd);
        assert!(!output.status.success() && said(&output).contains(&wrong), "{}", said(&output));
    }
}

/// Cargo lets no program link two copies: another package that links the library does not go with this one.
#[test]
fn no_two_copies() {
    let dir = folder("copies");
    let write = |file: &str, text: String| {
        fs::create_dir_all(dir.join(file).parent().unwrap()).unwrap();
        fs::write(dir.join(file), text).unwrap();
    };
    let package = |name: &str, rest: &str| format!("[package]\nname = \"{name}\"\nversion = \"0.1.0\"\nedition = \"2021\"\n{rest}\n");
    for file in ["host/src/lib.rs", "copy/src/lib.rs", "copy/build.rs"] {
        write(file, "fn main() {}\n".into());
    }
    write("copy/Cargo.toml", package("copy", "links = \"kressedach\"\n[workspace]"));
    let ours = format!("kressedach = {{ path = {:?} }}", env!("CARGO_MANIFEST_DIR"));
    for (copy, is_good) in [("", true), ("copy = { path = \"../copy\" }", false)] {
        write("host/Cargo.toml", package("host", &format!("[workspace]\n[dependencies]\n{ours}\n{copy}")));
        let output = Command::new(env!("CARGO")).args(["generate-lockfile", "--offline"]).current_dir(dir.join("host")).output().unwrap();
        let said = String::from_utf8_lossy(&output.stderr);
        assert_eq!(output.status.success(), is_good, "{said}");
        assert!(is_good || said.contains("links to the native library `kressedach`"), "{said}");
    }
}

/// An archive of another version is refused, also one that cannot tell its version.
#[test]
fn an_archive_of_another_version() {
    let dir = folder("version");
    let in_dir = |program: &str| {
        let mut command = Command::new(program);
        command.current_dir(&dir);
        command
    };
    let cc = std::env::var("CC").unwrap_or("cc".into());
    for (function, due) in [
        ("unsigned kressedach_version(void) { return 2013; }", "is of version 0.2.13, and this crate is of "),
        ("unsigned kressedach_read(void) { return 0; }", "is of version none that it can tell, and this crate is of "),
    ] {
        fs::write(dir.join("other.c"), function).unwrap();
        let _ = fs::remove_file(dir.join(archive().1));
        done(in_dir(&cc).args(["-c", "other.c"]));
        done(in_dir("ar").arg("rc").arg(archive().1).arg("other.o"));
        let output = cargo(&["check"], &[], &folder("relative")).env("KRESSEDACH_LIB_DIR", &dir).output().unwrap();
        let said = String::from_utf8_lossy(&output.stderr);
        assert!(!output.status.success() && said.contains(due) && said.contains(env!("CARGO_PKG_VERSION")), "{said}");
    }
}

/// An archive of the other kind of machine is refused, wherever its folder is.
#[test]
fn an_archive_of_another_kind() {
    let mut object = [0; 64];
    object[..4].copy_from_slice(b"\x7fELF");
    object[18] = if ARCH == "aarch64" { 62 } else { 183 };
    let dir = folder("other");
    fs::write(dir.join(archive().1), object).unwrap();
    let output = cargo(&["check"], &[], &folder("relative")).env("KRESSEDACH_LIB_DIR", &dir).output().unwrap();
    let said = String::from_utf8_lossy(&output.stderr);
    assert!(!output.status.success() && said.contains("and this build is for"), "{said}");
}
