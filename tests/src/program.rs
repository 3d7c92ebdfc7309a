//! A trace program (`--program PATH`) against the model's, on generated and mutated inputs given on standard input.

use crate::compare::{Options, Table};
use crate::shrink::{shrink, smaller_bytes};
use rolvenko_model::generate::{mutate_bytes, mutated_text, random_bytes, text, trace_input, Rng, Shape};
use rolvenko_model::read_text;
use std::io::{Read, Write};
use std::path::Path;
use std::process::{Command, Stdio};

/// What a program prints for an input, if it ends with status 0.
fn printed(program: &Path, input: &[u8]) -> Option<Vec<u8>> {
    let mut child = Command::new(program).stdin(Stdio::piped()).stdout(Stdio::piped()).spawn().expect("the trace program starts");
    let mut stdin = child.stdin.take().expect("its standard input");
    let mut stdout = child.stdout.take().expect("its standard output");
    let mut output = Vec::new();
    std::thread::scope(|scope| {
        // The program may stop reading early; what it prints is compared all the same.
        scope.spawn(move || stdin.write_all(input).ok());
        stdout.read_to_end(&mut output).expect("its output");
    });
    child.wait().expect("its status").success().then_some(output)
}

fn differs(program: &Path, input: &[u8]) -> bool {
    printed(program, input) != Some(rolvenko_model::trace(input))
}

fn compare(program: &Path, input: &[u8], table: &mut Table) -> Result<(), String> {
    if differs(program, input) {
        let small = shrink(&input.to_vec(), |i| smaller_bytes(i), |i| differs(program, i));
        return Err(format!(
            "input {:?}\nprogram {:?}\nmodel   {:?}",
            String::from_utf8_lossy(&small),
            printed(program, &small).map(|p| String::from_utf8_lossy(&p).into_owned()),
            String::from_utf8_lossy(&rolvenko_model::trace(&small))
        ));
    }
    let output = rolvenko_model::trace(input);
    let first = output.split(|&b| b == b' ' || b == b'\n').nth(1).unwrap_or(b"");
    table.count(match output.starts_with(b"refused ") {
        true => format!("refused {:>2}", String::from_utf8_lossy(first)),
        false => "trace".to_owned(),
    });
    Ok(())
}

pub fn run(options: &Options, table: &mut Table) -> Result<(), String> {
    let Some(program) = &options.program else {
        return Ok(());
    };
    let mut rng = Rng::new(options.seed);
    let since = table.started();
    while !options.spent(since, table.calls) {
        let shape = Shape::any(&mut rng);
        let source = text(&mut rng, shape);
        let parsed = read_text(&source).expect("a generated text is accepted");
        let ranges = parsed.row_ranges();
        let mut input = trace_input(&mut rng, &source, &ranges, 12);
        compare(program, &input, table)?;
        mutate_bytes(&mut rng, &mut input);
        compare(program, &input, table)?;
        let refused = mutated_text(&mut rng, shape);
        compare(program, &trace_input(&mut rng, &refused, &ranges, 3), table)?;
        compare(program, &random_bytes(&mut rng, 60), table)?;
    }
    Ok(())
}
