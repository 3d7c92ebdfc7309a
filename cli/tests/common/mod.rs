//! The tool from outside: runs of it, and files for them.
#![allow(dead_code)] // each file of tests uses some of these

use std::fs;
use std::io::Write;
use std::path::{Path, PathBuf};
use std::process::{Command, Output, Stdio};

pub const TOOL: &str = env!("CARGO_BIN_EXE_rolvenko");

pub fn tool(words: &[&str]) -> Output {
    Command::new(TOOL).args(words).stdin(Stdio::null()).output().unwrap()
}

/// What a run that must not fail prints.
pub fn printed(words: &[&str]) -> String {
    let o = tool(words);
    assert!(o.status.success(), "{words:?} {}", told(&o));
    out(&o)
}

pub fn fed(words: &[&str], input: &[u8]) -> Output {
    let mut child = Command::new(TOOL).args(words).stdin(Stdio::piped()).stdout(Stdio::piped()).stderr(Stdio::piped()).spawn().unwrap();
    child.stdin.take().unwrap().write_all(input).unwrap();
    child.wait_with_output().unwrap()
}

/// A line for the shell, in a folder, with the tool on the path.
pub fn shell(folder: &Path, line: &str) -> Output {
    let tools = Path::new(TOOL).parent().unwrap();
    let path = format!("{}:{}", tools.display(), std::env::var("PATH").unwrap());
    Command::new("bash").args(["-c", line]).current_dir(folder).env("PATH", path).stdin(Stdio::null()).output().unwrap()
}

pub fn out(o: &Output) -> String {
    String::from_utf8_lossy(&o.stdout).into_owned()
}

pub fn told(o: &Output) -> String {
    String::from_utf8_lossy(&o.stderr).into_owned()
}

pub fn status(o: &Output) -> i32 {
    o.status.code().unwrap()
}

/// An empty folder of its own for each test.
pub fn folder(name: &str) -> PathBuf {
    let path = Path::new(env!("CARGO_TARGET_TMPDIR")).join(name);
    let _ = fs::remove_dir_all(&path);
    fs::create_dir_all(&path).unwrap();
    path
}

/// A file of its own for each test.
pub fn file(name: &str, bytes: &[u8]) -> PathBuf {
    let path = Path::new(env!("CARGO_TARGET_TMPDIR")).join(name);
    fs::write(&path, bytes).unwrap();
    path
}

pub fn word(path: &Path) -> &str {
    path.to_str().unwrap()
}
