//! Times each service of the archive beside the same service in plain C (baseline/, `gcc -O2`), the reference model and, for scan, C that
//! was generated from the same rules (`gcc -O2`): same input, all optimized, in turn, in one run. A ratio below 1 means that the archive
//! is faster. Buffers are not cleared between calls. A scan is timed over the rows of its trace, from the declared starts.
//!
//!     bench [--rounds N]                            the tables
//!     bench --services N                            the table of translate, check and scan alone, for bench/placements
//!     bench --once WHO SERVICE INPUT CALLS          just so many calls, for bench/instructions
//!     bench --shares                                the table of rounds of eight rule sets alone
//!     bench --structured-text [INPUT CALLS]         the table of Structured Text alone, or so many calls of one
//!     bench --watches                               the table of watches over long traces alone
//!     bench --timers                                the table of a text with a timer alone
//!     bench --closed [NAME CALLS]                   the table of closed profiles alone, or so many calls of one
//!     bench --instalments [INPUT SIZE CALLS]        the table of instalments alone, or so many scans in instalments of this size

mod closed;
mod input;
mod instalments;
mod native;
mod once;
mod refused;
mod rounds;
mod rows;
mod structured_text;
mod timers;
mod timing;
mod watch;

use input::{inputs, Input};
use once::{archive, baseline, model, Memory, Work};
use std::hint::black_box;
use timing::Least;

// Moves the code of whatever is linked behind this crate by so many bytes (bench/placements); R: kept though nothing calls it.
std::arch::global_asm!(".section .text.pad,\"axR\"", concat!(".skip ", env!("BENCH_PAD")), ".text");

/// A service on an input, with the least time of each who can do it.
struct Line<'i> {
    input: &'i Input,
    work: Work<'i>,
    rules: native::Scan,
    memory: Memory,
    archive: Least,
    baseline: Least,
    model: Least,
    native: Option<Least>,
}

fn main() {
    let words: Vec<String> = std::env::args().skip(1).collect();
    let words: Vec<&str> = words.iter().map(String::as_str).collect();
    match words[..] {
        [] => tables(30),
        ["--rounds", rounds] => tables(rounds.parse().expect("a number of rounds")),
        ["--services", rounds] => services(&inputs(), rounds.parse().expect("a number of rounds")),
        ["--shares"] => rounds::table(&inputs(), 30),
        ["--structured-text"] => structured_text::table(&inputs(), 30),
        ["--structured-text", input, calls] => structured_text::run(&inputs(), input, calls.parse().expect("a number of calls")),
        ["--watches"] => watch::table(30),
        ["--timers"] => timers::table(30),
        ["--closed"] => closed::table(30),
        ["--closed", name, calls] => closed::run(name, calls.parse().expect("a number of calls")),
        ["--instalments"] => instalments::table(&inputs(), 30),
        ["--instalments", input, size, calls] => {
            let [size, calls] = [size, calls].map(|word| word.parse::<u32>().expect("a number"));
            instalments::run(&inputs(), input, size as usize, calls);
        }
        ["--once", who, service, input, calls] => once::run(who, service, input, calls.parse().expect("a number of calls")),
        _ => {
            eprintln!(
                "usage: bench [--rounds N] | --services N | --shares | --structured-text [INPUT CALLS] | --watches | --timers | --once WHO SERVICE INPUT CALLS | --closed [NAME CALLS] | \
                 --instalments [INPUT SIZE CALLS]"
            );
            std::process::exit(2);
        }
    }
}

fn tables(rounds: u32) {
    let inputs = inputs();
    services(&inputs, rounds);
    structured_text::table(&inputs, rounds);
    instalments::table(&inputs, rounds);
    rounds::table(&inputs, rounds);
    refused::table(inputs.iter().find(|input| input.name == "lock").expect("the lock"), rounds);
    closed::table(rounds);
    rows::table(&inputs, rounds);
    watch::table(rounds);
    timers::table(rounds);
}

/// Translate, check and scan.
fn services(inputs: &[Input], rounds: u32) {
    let programs: Vec<_> = inputs.iter().map(Input::program).collect();
    let natives = native::compiled(&programs);
    let mut lines = Vec::new();
    for service in ["translate", "check", "scan"] {
        lines.extend(inputs.iter().zip(&natives).map(|(input, rules)| Line::new(service, input, *rules)));
    }
    // The rounds of a line are spread over the whole run, so that a busy while of the machine spoils few of them.
    for _ in 0..rounds {
        lines.iter_mut().for_each(Line::round);
    }
    println!(
        "{:<10} {:<14} {:>7} {:>11} {:>11} {:>7} {:>11} {:>7} {:>10}",
        "service", "input", "units", "archive", "plain C", "ratio", "model", "ratio", "rules in C"
    );
    lines.iter().for_each(Line::print);
    growth(&lines);
}

impl<'i> Line<'i> {
    fn new(service: &'static str, input: &'i Input, rules: native::Scan) -> Line<'i> {
        let work = Work::new(service, input);
        work.agree(rules);
        Line {
            input,
            memory: work.memory(),
            work,
            rules,
            archive: Least::default(),
            baseline: Least::default(),
            model: Least::default(),
            native: (service == "scan").then(Least::default),
        }
    }

    fn round(&mut self) {
        let (work, memory) = (&self.work, &mut self.memory);
        self.archive.round(&mut || _ = archive(work, black_box(memory)));
        self.baseline.round(&mut || _ = baseline(work, black_box(memory)));
        self.model.round(&mut || _ = model(work, black_box(memory)));
        if let Some(native) = &mut self.native {
            native.round(&mut || once::native(work, self.rules, black_box(memory)));
        }
    }

    /// Nanoseconds a unit: a byte of text, or an instruction of one scan.
    fn each(&self, time: &Least) -> f64 {
        time.seconds * 1e9 / self.work.units() as f64
    }

    fn show(&self, time: &Least) -> String {
        if self.work.service == "translate" {
            return format!("{:.1} MB/s", 1e3 / self.each(time));
        }
        format!("{:.2} ns", self.each(time))
    }

    fn print(&self) {
        println!(
            "{:<10} {:<14} {:>7} {:>11} {:>11} {:>7.2} {:>11} {:>7.2} {:>10}",
            self.work.service,
            self.input.name,
            self.work.units(),
            self.show(&self.archive),
            self.show(&self.baseline),
            self.archive.seconds / self.baseline.seconds,
            self.show(&self.model),
            self.archive.seconds / self.model.seconds,
            self.native.as_ref().map_or(String::new(), |time| self.show(time))
        );
    }
}

/// Time against size on the generated texts: nanoseconds a unit at each size, and the slope of log time over log size (1: linear).
fn growth(lines: &[Line]) {
    println!("\ngrowth of the archive's time with size, generated texts of 1 to 32 KiB: ns a byte (translate) or instruction, slope of log time");
    for service in ["translate", "check", "scan"] {
        let of: Vec<&Line> = lines.iter().filter(|line| line.input.generated && line.work.service == service).collect();
        let points: Vec<(f64, f64)> = of.iter().map(|line| (line.work.units() as f64, line.archive.seconds)).collect();
        let each: Vec<String> = of.iter().map(|line| format!("{:>7.2}", line.each(&line.archive))).collect();
        println!("{service:<10} {}  slope {:.2}", each.join(" "), slope(&points));
    }
}

/// Least squares over the logarithms.
fn slope(points: &[(f64, f64)]) -> f64 {
    let logs: Vec<(f64, f64)> = points.iter().map(|(x, y)| (x.ln(), y.ln())).collect();
    let count = logs.len() as f64;
    let (mean_x, mean_y) = (logs.iter().map(|p| p.0).sum::<f64>() / count, logs.iter().map(|p| p.1).sum::<f64>() / count);
    let rise: f64 = logs.iter().map(|(x, y)| (x - mean_x) * (y - mean_y)).sum();
    rise / logs.iter().map(|(x, _)| (x - mean_x).powi(2)).sum::<f64>()
}
