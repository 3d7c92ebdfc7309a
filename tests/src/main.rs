//! Compares every service of the archive with the reference model on generated, mutated, damaged and random input.
//!
//!     rolvenko-tests [--seed N] [--seconds S] [--least N] [--program PATH] [SERVICE ..]
//!
//! Services: translate, structured_text (and scans against it), check, scan (and start), trace (lists of rows), replay (the same in one
//! call), clock, charge, watch, closed (its parts and combination), instalments, rounds, and program, a trace program at PATH; all by default, S
//! seconds and at least N calls each. Prints how often each answer was met. A difference is shrunk to a small input and printed, and the
//! exit status is 1.

mod charge;
mod check;
mod clock;
mod closed;
mod compare;
mod instalments;
mod program;
mod replay;
mod rounds;
mod scan;
mod shrink;
mod structured_text;
mod trace;
mod translate;
mod watch;
mod writer;

use compare::{Options, Table, COMPARED, SERVICES};
use rolvenko_model::features::with;
use std::process::ExitCode;

/// Compares one service until its time is spent, or answers a difference.
type Run = fn(&Options, &mut Table) -> Result<(), String>;

fn main() -> ExitCode {
    let options = match Options::read(std::env::args().skip(1)) {
        Ok(options) => options,
        Err(message) => {
            eprintln!("{message}");
            return ExitCode::from(2);
        }
    };
    let runs: [Run; 13] = [
        translate::run,
        structured_text::run,
        check::run,
        scan::run,
        trace::run,
        replay::run,
        clock::run,
        charge::run,
        watch::run,
        closed::run,
        instalments::run,
        rounds::run,
        program::run,
    ];
    for (name, run) in SERVICES.into_iter().zip(runs) {
        if !options.wants(name) || name == "program" && options.program.is_none() {
            continue;
        }
        let mut table = Table::new(name);
        let outcome = with(COMPARED, || run(&options, &mut table));
        table.print();
        if let Err(difference) = outcome {
            println!("{name}: DIFFERENCE\n{difference}");
            return ExitCode::FAILURE;
        }
    }
    ExitCode::SUCCESS
}
