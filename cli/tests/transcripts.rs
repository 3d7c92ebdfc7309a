//! Stored runs of the tool: `$ command` lines with what they print (standard output, then standard error) and, where it is not 0, the exit status in
//! brackets. A line `..` stands for any lines. They are in tests/stored, and in README: its commands are run as written.
//!
//! STORE=1 writes those of tests/stored anew, to be read before they are committed.

mod common;

use common::{folder, out, shell, status, told, TOOL};
use std::fs;
use std::os::unix::fs::symlink;
use std::path::{Path, PathBuf};

struct Step {
    command: String,
    wanted: Vec<String>,
}

fn steps<'t>(lines: impl Iterator<Item = &'t str>) -> Vec<Step> {
    let mut found: Vec<Step> = Vec::new();
    for line in lines {
        match line.strip_prefix("$ ") {
            Some(command) => found.push(Step { command: command.to_owned(), wanted: Vec::new() }),
            None => found.last_mut().expect("a command comes first").wanted.push(line.to_owned()),
        }
    }
    found
}

/// What a command prints, and its exit status where that is not 0.
fn ran(at: &Path, command: &str) -> Vec<String> {
    let o = shell(at, command);
    let mut lines: Vec<String> = (out(&o) + &told(&o)).lines().map(|l| l.trim_end().to_owned()).collect();
    if status(&o) != 0 {
        lines.push(format!("[{}]", status(&o)));
    }
    lines
}

/// Whether lines are the wanted ones, where `..` stands for any number of them.
fn fits(found: &[String], wanted: &[String]) -> bool {
    match (found, wanted) {
        (_, [any, rest @ ..]) if any == ".." => (0..=found.len()).any(|n| fits(&found[n..], rest)),
        ([line, more @ ..], [first, rest @ ..]) => line == first && fits(more, rest),
        (found, wanted) => found.is_empty() && wanted.is_empty(),
    }
}

fn compare(at: &Path, from: &Path, steps: Vec<Step>) {
    assert!(!steps.is_empty(), "{}", from.display());
    for Step { command, mut wanted } in steps {
        // an empty line stands before the next command
        while wanted.last().is_some_and(String::is_empty) {
            wanted.pop();
        }
        let found = ran(at, &command);
        assert!(fits(&found, &wanted), "{}\n$ {command}\n{}\n-- wanted\n{}", from.display(), found.join("\n"), wanted.join("\n"));
    }
}

/// A folder with the stored inputs, the examples, and the tool as `./rolvenko`.
fn place(name: &str) -> PathBuf {
    let at = folder(name);
    let here = Path::new(env!("CARGO_MANIFEST_DIR"));
    symlink(here.join("../examples"), at.join("examples")).unwrap();
    symlink(TOOL, at.join("rolvenko")).unwrap();
    for entry in fs::read_dir(here.join("tests/stored/input")).unwrap() {
        let path = entry.unwrap().path();
        fs::copy(&path, at.join(path.file_name().unwrap())).unwrap();
    }
    at
}

#[test]
fn stored_runs_print_what_they_printed() {
    let mut files: Vec<PathBuf> = fs::read_dir("tests/stored").unwrap().map(|e| e.unwrap().path()).collect();
    files.retain(|p| p.extension().is_some_and(|e| e == "run"));
    files.sort();
    assert!(files.len() >= 8);
    for path in files {
        let at = place(&format!("stored-{}", path.file_stem().unwrap().to_str().unwrap()));
        let text = fs::read_to_string(&path).unwrap();
        if std::env::var_os("STORE").is_some() {
            let runs: Vec<String> = steps(text.lines()).iter().map(|s| [vec![format!("$ {}", s.command)], ran(&at, &s.command)].concat().join("\n")).collect();
            fs::write(&path, runs.join("\n\n") + "\n").unwrap();
        } else {
            compare(&at, &path, steps(text.lines()));
        }
    }
}

#[test]
fn commands_of_the_readme_print_what_it_says() {
    let path = Path::new("../README.md");
    let text = fs::read_to_string(path).unwrap();
    let mut inside = false;
    let lines = text.lines().filter(|line| {
        let fence = line.starts_with("```");
        inside = if fence { *line == "```console" } else { inside };
        inside && !fence
    });
    compare(&place("readme"), path, steps(lines));
}
