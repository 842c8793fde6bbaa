//! The first command, `./try`, and what makes the archive for it: what it needs it says before the long part, the first answer comes before
//! any proof, and what is proved is said while it goes on. The machine and its tools are stood in for.

mod said;

use said::WALLCHECK;
use std::fs;
use std::os::unix::fs::{symlink, PermissionsExt};
use std::path::{Path, PathBuf};
use std::process::Command;

const ROOT: &str = concat!(env!("CARGO_MANIFEST_DIR"), "/../..");

/// What stands for rt: it runs a program, proves two crates and then the library, and writes of it the words that it was told; or it fails
/// at the second.
const PROVES: &str = r#"words=$*
case $1 in
doc) echo "$(dirname "$0")/kit/START-HERE.md" ;;
try) cat stdout ;;
lib)
    for crate in outcome basics kressedach; do
        echo "fn $crate::x: proved"
        echo "crate $crate: modules loaded=0 checked=9" >&2
        echo 'logic=proved functions=1'
    done
    mkdir -p out; echo "$words" >out/libkressedach.a ;;
esac
"#;
const FAILS: &str = r#"if [ "$1" = try ]; then cat stdout; exit; fi
echo 'crate outcome: modules loaded=0 checked=9'; echo 'logic=proved functions=1'
echo 'fn basics::y: refused'; echo 'crate basics: modules loaded=0 checked=9'; echo 'logic=not-proved'; exit 1
"#;
const WRONG: &str = "[ \"$1\" != try ] || echo 'the interpreter wrote something else'\n";

/// What stands for uname, on these machines.
const X86_64: &str = "case $1 in -s) echo Linux ;; *) echo x86_64 ;; esac\n";
const ARM: &str = "case $1 in -s) echo Linux ;; *) echo aarch64 ;; esac\n";
const OTHER: &str = "case $1 in -s) echo Linux ;; *) echo riscv64 ;; esac\n";

const SHELLS: [&str; 20] = [
    "awk", "cat", "chmod", "cmp", "cp", "date", "dirname", "find", "grep", "head", "ln", "mkdir", "mktemp", "mv", "rm", "sed", "sh",
    "tail", "tee", "touch",
];

/// A folder with what the command takes of the repository, the shell's own tools and these, each a text of shell.
fn tools(name: &str, machine: &str, tools: &[(&str, &str)]) -> PathBuf {
    let folder = Path::new(env!("CARGO_TARGET_TMPDIR")).join(name);
    let _ = fs::remove_dir_all(&folder);
    fs::create_dir_all(folder.join("crates/first_walls")).unwrap();
    fs::create_dir_all(folder.join("crates/kressedach")).unwrap();
    fs::create_dir_all(folder.join("bindings")).unwrap();
    symlink(Path::new(ROOT).join("examples"), folder.join("examples")).unwrap();
    for file in ["try", "crates.txt", "bindings/archive", "bindings/processor", "crates/first_walls/stdout"] {
        fs::copy(Path::new(ROOT).join(file), folder.join(file)).unwrap();
    }
    for tool in SHELLS {
        let place = ["/bin", "/usr/bin"].iter().map(|place| Path::new(place).join(tool)).find(|path| path.exists()).unwrap();
        symlink(place, folder.join(tool)).unwrap();
    }
    let stood_in = tools.iter().copied().chain([("uname", machine)]);
    for (tool, text) in stood_in {
        program(&folder.join(tool), text);
    }
    folder
}

fn program(path: &Path, text: &str) {
    fs::create_dir_all(path.parent().unwrap()).unwrap();
    fs::write(path, format!("#!/bin/sh\n{text}")).unwrap();
    fs::set_permissions(path, fs::Permissions::from_mode(0o755)).unwrap();
}

fn tried(folder: &Path, processor: Option<&str>) -> (Option<i32>, String, String) {
    let mut command = Command::new("/bin/sh");
    command.arg(folder.join("try")).env("PATH", folder).env_remove("KRESSEDACH_LIB_DIR").env_remove("KRESSEDACH_PROCESSOR");
    let output = command.envs(processor.map(|named| ("KRESSEDACH_PROCESSOR", named))).output().unwrap();
    let text = |bytes: &[u8]| String::from_utf8_lossy(bytes).into_owned();
    (output.status.code(), text(&output.stdout), text(&output.stderr))
}

/// The command that is built stands for what cargo runs.
fn cargo() -> String {
    format!("while [ \"$1\" != -- ]; do shift; done; shift; exec {WALLCHECK} \"$@\"\n")
}

const NEEDS: &str = "This needs rt (the Rattle toolchain), cargo, a C compiler (cc), and Linux on x86-64 or Arm (aarch64).\n";

/// The walls that the README prints.
fn walls() -> String {
    let readme = fs::read_to_string(format!("{ROOT}/README.md")).unwrap();
    let walls: Vec<&str> =
        readme.lines().skip_while(|line| !line.contains("line,start,end")).map_while(|line| line.strip_prefix("    ")).collect();
    assert_eq!(walls.len(), 4);
    walls.join("\n") + "\n"
}

#[test]
fn what_it_proves_and_prints() {
    let cargo = cargo();
    let folder = tools("try-all", X86_64, &[("rt", PROVES), ("cargo", &cargo), ("cc", "")]);
    let (status, said, wrong) = tried(&folder, None);
    assert_eq!((status, wrong.as_str()), (Some(0), ""), "{said}");
    let (first, rest) = said.split_once("Proving the library for x86-64, ").unwrap_or_else(|| panic!("{said}"));
    let due =
        format!("{NEEDS}Two lines through a bored block, by the library's own code, which is not yet proved on this machine:\n{}", walls());
    assert_eq!(first, due);
    let crates: usize = rest.split(' ').next().unwrap().parse().unwrap();
    for (k, name) in ["outcome", "basics", "kressedach"].iter().enumerate() {
        let line = format!("\n  {name} proved; {} crates left, 0 min ", crates - k - 1);
        assert_eq!(rest.matches(&line).count(), 1, "{line}{rest}");
    }
    assert!(rest.ends_with(&format!("examples/block.sheet:\n{}", walls())), "{rest}");
    let made = fs::read_to_string(folder.join("target/staticlib/libkressedach.a")).unwrap();
    assert!(made.starts_with("lib ") && made.contains(" --cpu x86-64 "), "{made}");
}

/// What is proved already is not proved again; nor is anything where a library is lent.
#[test]
fn nothing_is_proved_twice() {
    let cargo = cargo();
    let folder = tools("try-again", X86_64, &[("rt", FAILS), ("cargo", &cargo), ("cc", "")]);
    fs::create_dir_all(folder.join("target/staticlib")).unwrap();
    fs::write(folder.join("target/staticlib/libkressedach.a"), b"").unwrap();
    let (status, said, wrong) = tried(&folder, None);
    assert_eq!((status, wrong.as_str()), (Some(0), ""), "{said}");
    assert!(!said.contains("Proving") && said.ends_with("\n2,0,100000,Block,Block\n"), "{said}");
}

/// What stands for rattle: it has its toolchain's clang compile a module, and writes an archive for x86-64.
const RATTLE: &str = r#"while [ $# -gt 0 ]; do
    case $1 in --toolchain) toolchain=$2 ;; -o) made=$2 ;; esac
    shift
done
echo 'the module' >module.bc
"$toolchain/bin/clang" -c module.bc -o module.o
echo 'for x86-64' >"$made"
"#;

/// On Arm the module that was proved is compiled once more, and the archive for x86-64 that is written beside it is not taken for it.
#[test]
fn on_arm_the_archive_is_for_arm() {
    let cargo = cargo();
    let folder = tools("try-arm", ARM, &[("rt", PROVES), ("cargo", &cargo), ("cc", "")]);
    program(&folder.join("kit/bin/rattle"), RATTLE);
    // the last word after -o is what is written: the words that it was told
    program(&folder.join("kit/toolchain/bin/clang"), "all=$*; while [ \"$1\" != -o ]; do shift; done; echo \"$all\" >\"$2\"\n");
    program(&folder.join("kit/toolchain/bin/llvm-ar"), "cp \"$4\" \"$3\"\n");
    fs::create_dir_all(folder.join("target/staticlib")).unwrap();
    fs::write(folder.join("target/staticlib/libkressedach.a"), b"").unwrap();
    let (status, said, wrong) = tried(&folder, None);
    assert_eq!((status, wrong.as_str()), (Some(0), ""), "{said}");
    assert!(said.contains("Proving the library for aarch64, "), "{said}");
    let made = fs::read_to_string(folder.join("target/archive/aarch64/libkressedach.a")).unwrap();
    assert!(made.contains("--target=aarch64-unknown-linux-gnu") && made.contains("-ffp-contract=off"), "{made}");
    assert_eq!(fs::read_to_string(folder.join("target/archive/aarch64/processor")).unwrap(), "aarch64\n");
    let (status, said, _) = tried(&folder, None);
    assert!(status == Some(0) && !said.contains("Proving"), "{said}");
}

/// A processor that there is not, that is of another kind of machine, or that this one lacks, is a message.
#[test]
fn a_processor_that_this_machine_cannot_run_is_said() {
    let cargo = cargo();
    let there = [("rt", PROVES), ("cargo", cargo.as_str()), ("cc", "")];
    let plain = "head -n 0\n";
    for (machine, processor, due) in [
        (X86_64, Some("aarch64"), "KRESSEDACH_PROCESSOR is aarch64, and this machine is x86_64"),
        (ARM, Some("x86-64-v3"), "KRESSEDACH_PROCESSOR is x86-64-v3, and this machine is aarch64"),
        (
            X86_64,
            Some("x86-64-v9"),
            "KRESSEDACH_PROCESSOR is x86-64-v9, and the library is compiled for x86-64, x86-64-v3, x86-64-v4 or aarch64",
        ),
        (X86_64, Some("x86-64-v4"), "KRESSEDACH_PROCESSOR is x86-64-v4, and the processor of this machine lacks avx"),
        (OTHER, None, "the library is compiled for x86-64 and for Arm (aarch64), and this machine is riscv64"),
    ] {
        let folder = tools("try-processor", machine, &there);
        // what reads /proc/cpuinfo finds no flags
        fs::remove_file(folder.join("sed")).unwrap();
        program(&folder.join("sed"), plain);
        let (status, said, wrong) = tried(&folder, processor);
        assert_eq!((status, said.as_str(), wrong), (Some(1), NEEDS, format!("kressedach: {due}\n")));
    }
}

#[test]
fn what_is_missing_is_said_before_anything_is_proved() {
    let cargo = cargo();
    for (missing, there) in [("rt", ["cargo", "cc"]), ("cargo", ["rt", "cc"]), ("cc", ["rt", "cargo"])] {
        let line = |tool: &str| if tool == "rt" { PROVES } else { cargo.as_str() };
        let (status, said, wrong) = tried(&tools(&format!("try-no-{missing}"), X86_64, &there.map(|tool| (tool, line(tool)))), None);
        assert_eq!((status, said.as_str()), (Some(1), NEEDS), "{missing}");
        assert!(wrong.starts_with(&format!("There is no\n  {missing}: ")), "{wrong}");
    }
}

/// Where what makes the archive is called by itself, it says that the toolchain is missing, and what can be done without.
#[test]
fn an_archive_without_the_toolchain() {
    let folder = tools("archive-no-rt", X86_64, &[]);
    for processor in ["x86-64", "x86-64-v3", "aarch64"] {
        let output = Command::new("/bin/sh").arg(folder.join("bindings/archive")).arg(processor).env("PATH", &folder).output().unwrap();
        let wrong = String::from_utf8_lossy(&output.stderr).into_owned();
        assert!(output.status.code() == Some(1) && wrong.starts_with("archive: there is no rt, the Rattle toolchain"), "{wrong}");
        assert!(wrong.contains("KRESSEDACH_LIB_DIR") && !folder.join("target").exists(), "{wrong}");
    }
}

/// A relative folder of the archive goes by where the command is called.
#[test]
fn a_library_that_is_lent() {
    let cargo = format!("[ -z \"$KRESSEDACH_LIB_DIR\" ] || echo \"$KRESSEDACH_LIB_DIR\"\n{}", cargo());
    let folder = tools("try-lent", X86_64, &[("cargo", &cargo), ("cc", "")]);
    for (dir, due) in [("lib", folder.join("crates/lib")), ("/lib", PathBuf::from("/lib"))] {
        let mut command = Command::new("/bin/sh");
        command.arg("../try").current_dir(folder.join("crates")).env("PATH", &folder).env("KRESSEDACH_LIB_DIR", dir);
        let output = command.env("PWD", folder.join("crates")).output().unwrap();
        let said = String::from_utf8_lossy(&output.stdout).into_owned();
        assert!(output.status.success() && said.contains(&format!("\n{}\n", due.display())), "{said}");
        assert!(said.ends_with(&walls()), "{said}");
    }
}

/// The first command asks for the Rust that the crate asks for.
#[test]
fn the_rust_that_is_needed() {
    let due = format!("\"of Rust {} or later, ", env!("CARGO_PKG_RUST_VERSION"));
    assert!(fs::read_to_string(format!("{ROOT}/try")).unwrap().contains(&due), "{due}");
}

#[test]
fn a_proof_that_fails_is_shown() {
    let cargo = cargo();
    let (status, said, wrong) = tried(&tools("try-fails", X86_64, &[("rt", FAILS), ("cargo", &cargo), ("cc", "")]), None);
    assert_eq!(status, Some(1));
    assert!(said.contains("\n  outcome proved; ") && said.ends_with("\n  basics NOT PROVED\n"), "{said}");
    assert!(wrong.contains("fn basics::y: refused") && wrong.contains("The library is not proved."), "{wrong}");
}

/// No wall is shown that the library's code does not give.
#[test]
fn a_first_answer_that_is_another_is_not_shown() {
    let cargo = cargo();
    let (status, said, wrong) = tried(&tools("try-wrong", X86_64, &[("rt", WRONG), ("cargo", &cargo), ("cc", "")]), None);
    assert_eq!((status, said.as_str()), (Some(1), NEEDS));
    assert!(wrong.contains("does not give the walls") && wrong.contains("wrote something else"), "{wrong}");
}
