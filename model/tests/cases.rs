//! Every case of the folder `cases`, byte for byte.

use std::fs::{self, File};
use std::path::Path;
use std::process::Command;

#[test]
fn every_case() {
    let folder = Path::new(env!("CARGO_MANIFEST_DIR")).join("../rulebooks");
    let mut names = Vec::new();
    for entry in fs::read_dir(&folder).expect("folder of cases") {
        let path = entry.expect("entry").path();
        if path.extension().is_some_and(|extension| extension == "in") {
            names.push(path);
        }
    }
    names.sort();
    assert!(names.len() >= 7, "cases found: {}", names.len());
    for input in names {
        let bytes = fs::read(&input).expect("input");
        let output = fs::read(input.with_extension("out")).expect("output");
        let printed = rolvenko_model::trace(&bytes);
        assert_eq!(
            String::from_utf8_lossy(&printed),
            String::from_utf8_lossy(&output),
            "{}",
            input.display()
        );
        assert_eq!(printed, output);
        let program = Command::new(env!("CARGO_BIN_EXE_trace_model"))
            .stdin(File::open(&input).expect("input"))
            .output()
            .expect("trace program");
        assert!(program.status.success());
        assert_eq!(program.stdout, output);
        let text = fs::read(input.with_extension("txt")).expect("text");
        assert!(bytes.starts_with(&text));
        assert!(rolvenko_model::read_text(&text).is_ok());
    }
}
