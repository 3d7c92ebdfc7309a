//! Whole lists of rows: the archive translates, starts and scans; the model's plain scan and its own formulas are the measure.

use crate::compare::{services, Options, Table};
use crate::shrink::{shrink, smaller_bytes, smaller_rules};
use rolvenko_model::formula::{satisfies_timed, step_satisfies_timed};
use rolvenko_model::generate::{row, text, Rng, Shape};
use rolvenko_model::{check_detail, instructions, plain_scan, read_text, Program, Range};

/// A text, what the state lent to start holds, and rows.
#[derive(Clone)]
struct List {
    source: Vec<u8>,
    fill: i32,
    rows: Vec<Vec<i32>>,
}

/// A state as whole numbers.
fn whole(state: &[i32]) -> Vec<i64> {
    state.iter().map(|&z| i64::from(z)).collect()
}

/// The next states that satisfy every formula and the equations of the timers after so many milliseconds, with the inputs given and each
/// variable and elapsed time a little over its range: just `next`.
fn only_next(program: &Program, ranges: &[Range], before: &[i64], next: &[i64], time: i64) -> Result<(), String> {
    let inputs = program.inputs;
    let spans: Vec<(i64, i64)> = ranges[inputs..].iter().map(|r| (i64::from(r.low) - 1, i64::from(r.high) + 1)).collect();
    let count = spans.iter().fold(1i64, |count, (low, high)| count.saturating_mul(high - low + 1));
    if count > 3000 {
        return Ok(());
    }
    let mut candidate = next.to_vec();
    for index in 0..count {
        let mut rest = index;
        for (k, (low, high)) in spans.iter().enumerate() {
            candidate[inputs + k] = low + rest % (high - low + 1);
            rest /= high - low + 1;
        }
        if step_satisfies_timed(program, before, &candidate, time) != (candidate == next) {
            return Err(format!("after {before:?} both {next:?} and {candidate:?} satisfy, or neither"));
        }
    }
    Ok(())
}

/// One row against the plain scan: the number answered.
fn one_row(image: &[u8], program: &Program, state: &mut [i32], line: &[i32]) -> Result<u8, String> {
    let mut plain = state.to_vec();
    let answer = services::scan(image, state, line);
    let wanted = plain_scan(program, &mut plain, line);
    if answer.map(|_| ()).map_err(|r| r.number) != wanted || *state != *plain {
        return Err(format!("row {line:?}: scan {answer:?} leaves {state:?}, the plain scan {wanted:?} leaves {plain:?}"));
    }
    match answer {
        Ok(steps) if steps as usize != instructions(image) => {
            Err(format!("{steps} steps, {} instructions", instructions(image)))
        }
        _ => Ok(wanted.err().unwrap_or(0)),
    }
}

/// The number answered for each row, or what is wrong. A text that the model refuses has no rows.
fn run_list(list: &List) -> Result<Vec<u8>, String> {
    let Ok(program) = read_text(&list.source) else {
        return Ok(Vec::new());
    };
    let mut image = vec![0; 3 * list.source.len() / 2 + 2];
    let length = services::translate(&list.source, &mut image).map_err(|r| format!("{r:?} for an accepted text"))?;
    let image = &image[..length];
    let header = check_detail(image).map_err(|f| format!("an image written is unsound: {f:?}"))?;
    let mut state = vec![list.fill; program.state_length()];
    services::start(image, &mut state).map_err(|r| format!("start {r:?}"))?;
    if state != program.starts() {
        return Err(format!("start leaves {state:?}, not {:?}", program.starts()));
    }
    let mut trace = vec![whole(&state)];
    let mut times = Vec::new();
    let mut numbers = Vec::new();
    for line in &list.rows {
        let number = one_row(image, &program, &mut state, line)?;
        if number == 0 {
            let next = whole(&state);
            // The milliseconds, of a text with timers.
            let time = line.get(program.inputs).copied().map_or(0, i64::from);
            only_next(&program, &header.state_ranges(), trace.last().expect("a start"), &next, time)?;
            trace.push(next);
            times.push(time);
        }
        numbers.push(number);
    }
    if !satisfies_timed(&program, &trace, &times) {
        return Err(format!("the trace {trace:?} does not satisfy the text"));
    }
    Ok(numbers)
}

/// Fewer rows, or a smaller text.
fn smaller(list: &List) -> Vec<List> {
    let fewer = (0..list.rows.len()).map(|at| {
        let mut rows = list.rows.clone();
        rows.remove(at);
        List { rows, ..list.clone() }
    });
    let texts = smaller_rules(&list.source).into_iter().chain(smaller_bytes(&list.source)).map(|source| List { source, ..list.clone() });
    fewer.chain(texts).collect()
}

fn compare(list: List, table: &mut Table) -> Result<(), String> {
    let Ok(numbers) = run_list(&list) else {
        let small = shrink(&list, smaller, |l| run_list(l).is_err());
        return Err(format!(
            "text {:?}\nrows {:?}, state lent to start: all {}\n{}",
            String::from_utf8_lossy(&small.source),
            small.rows,
            small.fill,
            run_list(&small).expect_err("a difference")
        ));
    };
    for number in numbers {
        table.count(format!("{number:>2}"));
    }
    Ok(())
}

pub fn run(options: &Options, table: &mut Table) -> Result<(), String> {
    let mut rng = Rng::new(options.seed);
    let since = table.started();
    while !options.spent(since, table.calls) {
        let shape = Shape::any(&mut rng);
        let source = text(&mut rng, shape);
        let program = read_text(&source).expect("a generated text is accepted");
        let ranges = program.row_ranges();
        let rows = (0..12).map(|_| row(&mut rng, &ranges)).collect();
        let fill = rng.bits() as i32;
        compare(List { source, fill, rows }, table)?;
    }
    Ok(())
}
