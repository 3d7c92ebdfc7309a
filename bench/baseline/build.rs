//! Compiles the C files by `gcc -O2` into an archive.

use std::env;
use std::path::{Path, PathBuf};
use std::process::Command;

const FILES: [&str; 8] = ["check", "declarations", "expressions", "lexer", "parser", "rules", "scan", "watches"];
const FLAGS: [&str; 7] = ["-std=c11", "-Wall", "-Wextra", "-Wpedantic", "-Werror", "-O2", "-c"];

fn run(program: &str, arguments: &mut dyn FnMut(&mut Command)) {
    let mut command = Command::new(program);
    arguments(&mut command);
    let status = command.status().unwrap_or_else(|e| panic!("{program}: {e}"));
    assert!(status.success(), "{command:?}");
}

fn main() {
    let out = PathBuf::from(env::var_os("OUT_DIR").expect("cargo names a folder"));
    let objects = FILES.map(|name| out.join(format!("{name}.o")));
    for (name, object) in FILES.iter().zip(&objects) {
        run("gcc", &mut |c| _ = c.args(FLAGS).arg(Path::new("c").join(format!("{name}.c"))).arg("-o").arg(object));
    }
    run("ar", &mut |c| _ = c.arg("crs").arg(out.join("librolvenko_c.a")).args(&objects));
    println!("cargo:rerun-if-changed=c");
    println!("cargo:rustc-link-search=native={}", out.display());
    println!("cargo:rustc-link-lib=static=rolvenko_c");
}
