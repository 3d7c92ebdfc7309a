//! `./rolvenko` at the root, with stand-ins for `rt` and `cargo`: what it says while it proves, and when it builds.

mod common;

use common::{out, status, told};
use std::os::unix::fs::PermissionsExt;
use std::path::{Path, PathBuf};
use std::process::{Command, Output};
use std::sync::{Mutex, MutexGuard, PoisonError};
use std::{env, fs, process};

/// One test at a time: a child that another test starts while a script is being written holds it open, and then it cannot be run ("Text file busy").
fn alone() -> MutexGuard<'static, ()> {
    static ALONE: Mutex<()> = Mutex::new(());
    ALONE.lock().unwrap_or_else(PoisonError::into_inner)
}

const RT: &str = "#!/bin/sh
[ $1 = lib ] && [ ${PWD##*/} = rolvenko ] || exit 9
proved() {
  echo \"rt: chose --jobs 2 for $1\"
  echo \"fn $1::work: proved\"
  echo \"crate $1: modules loaded=7 checked=$2\"
  echo 'logic=proved functions=1'
}
proved first 0
[ ! -e ../../broken ] || { echo 'src/lib.rt:3:1: error: it does not follow'; exit 1; }
proved second 5
proved third 5
proved rolvenko 5
mkdir -p out
: >out/librolvenko.a
";
/// The time at the start and behind each crate: `first` took none, `second` 70 seconds, `third` 3.
const DATE: &str = "#!/bin/sh
now=${0%/*}/now
head -n 1 $now && sed -i 1d $now
";
const TIMES: &str = "1000\n1000\n1070\n1073\n1073\n";
const CARGO: &str = "#!/bin/sh
while [ $1 != --target-dir ]; do shift; done
mkdir -p $2/release
printf '#!/bin/sh\\necho the tool: \"$@\"\\n' >$2/release/rolvenko
chmod +x $2/release/rolvenko
";

fn program(path: &Path, text: &str) {
    fs::write(path, text).unwrap();
    fs::set_permissions(path, fs::Permissions::from_mode(0o755)).unwrap();
}

/// A repository of three crates, with the script. It stands outside this one, which may hold no second crates.txt.
fn repository(name: &str) -> PathBuf {
    let at = env::temp_dir().join(format!("rolvenko-{}-{name}", process::id()));
    let _ = fs::remove_dir_all(&at);
    for part in ["bin", "crates/rolvenko", "cli/src", "bindings/rust/src"] {
        fs::create_dir_all(at.join(part)).unwrap();
    }
    program(&at.join("bin/rt"), RT);
    program(&at.join("bin/cargo"), CARGO);
    program(&at.join("bin/date"), DATE);
    fs::write(at.join("bin/now"), TIMES).unwrap();
    fs::copy("../rolvenko", at.join("rolvenko")).unwrap();
    fs::write(at.join("crates.txt"), "first:\nsecond: first\nrolvenko staticlib: first second third\n").unwrap();
    fs::write(at.join("cli/seconds.txt"), "first 10\nsecond 40\nthird 50\nrolvenko 30\n").unwrap();
    fs::write(at.join("cli/Cargo.toml"), "").unwrap();
    at
}

fn run(at: &Path) -> Output {
    let path = format!("{}:/usr/bin:/bin", at.join("bin").display());
    Command::new("./rolvenko").arg("help").current_dir(at).env("PATH", path).output().unwrap()
}

#[test]
fn it_proves_and_builds_what_is_missing_with_a_line_a_crate() {
    let _alone = alone();
    let at = repository("script");
    let o = run(&at);
    assert_eq!((status(&o), out(&o).as_str()), (0, "the tool: help\n"), "{}", told(&o));
    let said = told(&o);
    let lines: Vec<&str> = said.lines().collect();
    // the first is not proved again; nothing was timed yet to tell how long the rest takes
    assert!(lines[1].starts_with("  2 of 4  second         0 min 0") && lines[1].ends_with(" left"), "{said}");
    assert!(lines[2].starts_with("  3 of 4  third "), "{said}");
    assert!(lines[3].starts_with("  3 of 4  are proved; now the archive, about "), "{said}");
    assert!(lines[4].starts_with("  4 of 4  rolvenko ") && lines[4].ends_with(", about 0 min 00 s left"), "{said}");
    assert_eq!(fs::read_to_string(at.join("target/log/seconds")).unwrap(), "second 70\nthird 3\n");
    // nothing is missing now
    let o = run(&at);
    assert_eq!((out(&o).as_str(), told(&o).as_str()), ("the tool: help\n", ""));
    fs::remove_dir_all(at).unwrap();
}

#[test]
fn a_proof_that_fails_is_told() {
    let _alone = alone();
    let at = repository("script-broken");
    fs::write(at.join("broken"), "").unwrap();
    let o = run(&at);
    assert_eq!((status(&o), out(&o).as_str()), (2, ""));
    assert!(told(&o).ends_with("src/lib.rt:3:1: error: it does not follow\nthe archive was not built; target/log has what rt said\n"), "{}", told(&o));
    fs::remove_dir_all(at).unwrap();
}

#[test]
fn a_program_that_is_missing_is_named() {
    let _alone = alone();
    let at = repository("script-missing");
    fs::remove_file(at.join("bin/rt")).unwrap();
    let o = run(&at);
    assert_eq!((status(&o), told(&o).as_str()), (2, "rolvenko: no rt on the path (the prover of Rattle, which builds the archive)\n"));
    fs::remove_dir_all(at).unwrap();
}
