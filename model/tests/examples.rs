//! Every example of the folder `examples`, byte for byte; and which answers the stored traces show.

use std::collections::BTreeSet;
use std::fs;
use std::path::{Path, PathBuf};

/// Files of a folder below the repository with an extension.
fn files(folder: &str, extension: &str) -> Vec<PathBuf> {
    let folder = Path::new(env!("CARGO_MANIFEST_DIR"))
        .join("..")
        .join(folder);
    let mut list: Vec<PathBuf> = fs::read_dir(&folder)
        .expect("folder of examples")
        .map(|entry| entry.expect("entry").path())
        .filter(|path| path.extension().is_some_and(|e| e == extension))
        .collect();
    list.sort();
    list
}

fn inputs() -> Vec<PathBuf> {
    [files("examples", "txt"), files("examples/trace", "in")].concat()
}

#[test]
fn every_example() {
    let inputs = inputs();
    assert!(inputs.len() >= 50, "examples found: {}", inputs.len());
    for input in inputs {
        let bytes = fs::read(&input).expect("input");
        let wanted = fs::read(input.with_extension("out")).expect("output");
        let printed = rolvenko_model::trace(&bytes);
        assert_eq!(
            String::from_utf8_lossy(&printed),
            String::from_utf8_lossy(&wanted),
            "{}",
            input.display()
        );
        assert_eq!(printed, wanted);
    }
}

/// The number of a refused text, or the last field of each line after the head.
fn answers(output: &str) -> Vec<u8> {
    if let Some(rest) = output.strip_prefix("refused ") {
        let number = rest.split(' ').next().expect("a number");
        return vec![number.parse().expect("a number")];
    }
    let lines = output.lines().skip(1);
    lines
        .map(|line| {
            line.rsplit(' ')
                .next()
                .expect("a field")
                .parse()
                .expect("a number")
        })
        .collect()
}

/// A file `refused_NN_..` shows just NN, a file `rows_NN_..` shows NN among its rows, and together they show every refusal
/// that a trace can: 10 needs a short buffer, 11 an image, 18 a state from elsewhere.
#[test]
fn every_refusal_of_a_trace() {
    let mut met = BTreeSet::new();
    for input in inputs() {
        let output = fs::read_to_string(input.with_extension("out")).expect("output");
        let shown = answers(&output);
        let stem = input
            .file_stem()
            .expect("a name")
            .to_string_lossy()
            .into_owned();
        let named = |prefix| stem.strip_prefix(prefix)?.get(..2)?.parse::<u8>().ok();
        if let Some(number) = named("refused_") {
            assert_eq!(shown, [number], "{stem}");
        }
        if let Some(number) = named("rows_") {
            assert!(shown.contains(&number), "{stem} shows {shown:?}");
        }
        met.extend(shown);
    }
    let wanted: BTreeSet<u8> = (0..=9).chain(12..=17).chain([22, 23, 30]).collect();
    assert_eq!(met, wanted);
}
