//! The trace found satisfies every formula, and no other trace does: for each accepted
//! step all values in a box larger than the ranges are tried.

mod common;

use common::landed_and_all;
use rolvenko_model::formula::{satisfies_timed, step_satisfies_timed};
use rolvenko_model::generate::{row, text, Rng, Shape};
use rolvenko_model::{read_text, scan, start, write_image, Program};

/// All states with the inputs of `row`, variables up to 2 outside their ranges, timers and
/// elapsed times up to 1.
fn box_of_states(program: &Program, row: &[i32]) -> Vec<Vec<i64>> {
    let mut states = vec![wide(&row[..program.inputs])];
    let first = program.names.len() - program.timers.len();
    for (id, range) in program
        .state_ranges()
        .iter()
        .enumerate()
        .skip(program.inputs)
    {
        let beyond = if id < first { 2 } else { 1 };
        let values = i64::from(range.low) - beyond..=i64::from(range.high) + beyond;
        states = states
            .iter()
            .flat_map(|state| {
                values.clone().map(move |value| {
                    let mut longer = state.clone();
                    longer.push(value);
                    longer
                })
            })
            .collect();
    }
    states
}

fn wide(state: &[i32]) -> Vec<i64> {
    state.iter().map(|&value| i64::from(value)).collect()
}

/// The trace found for random rows, and the accepted rows.
fn found_trace(rng: &mut Rng, program: &Program, rows: usize) -> (Vec<Vec<i64>>, Vec<Vec<i32>>) {
    let image = write_image(program);
    let mut state = vec![0; program.state_length()];
    start(&image, &mut state).expect("start");
    let mut trace = vec![wide(&state)];
    let mut accepted = Vec::new();
    for _ in 0..rows {
        let row = row(rng, &program.row_ranges());
        if scan(&image, &mut state, &row).is_ok() {
            trace.push(wide(&state));
            accepted.push(row);
        }
    }
    (trace, accepted)
}

/// The milliseconds of a row, 0 without timers.
fn time(program: &Program, row: &[i32]) -> i64 {
    row.get(program.inputs).map_or(0, |&time| time.into())
}

fn satisfies(program: &Program, trace: &[Vec<i64>], accepted: &[Vec<i32>]) -> bool {
    let times: Vec<i64> = accepted.iter().map(|row| time(program, row)).collect();
    satisfies_timed(program, trace, &times)
}

/// Tries every state of the box at every place; the answer is how many were tried.
fn only_one(program: &Program, trace: &[Vec<i64>], accepted: &[Vec<i32>]) -> usize {
    let mut tried = 0;
    for (index, row) in accepted.iter().enumerate() {
        let states = box_of_states(program, row);
        tried += states.len();
        let fitting: Vec<&Vec<i64>> = states
            .iter()
            .filter(|state| step_satisfies_timed(program, &trace[index], state, time(program, row)))
            .collect();
        assert_eq!(fitting, [&trace[index + 1]]);
    }
    tried
}

#[test]
fn the_trace_found_is_the_only_one() {
    landed_and_all(the_trace_found_is_the_only_one_in_force);
}

fn the_trace_found_is_the_only_one_in_force() {
    let mut tried = 0;
    let mut places = 0;
    let mut changed = 0;
    for seed in 0..6000 {
        let mut rng = Rng::new(2_000_000 + seed);
        let text = text(&mut rng, Shape::TINY);
        let program = read_text(&text).expect("accepted text");
        let (trace, accepted) = found_trace(&mut rng, &program, 6);
        assert!(satisfies(&program, &trace, &accepted));
        tried += only_one(&program, &trace, &accepted);
        places += accepted.len();
        changed += trace.windows(2).filter(|pair| pair[0] != pair[1]).count();
    }
    println!("{tried} states tried at {places} places, {changed} of them with a change");
    assert!(tried > 100_000 && places > 12_000 && changed > 5000);
}

/// Whole traces of two steps: all pairs of states of the box.
#[test]
fn whole_traces() {
    landed_and_all(whole_traces_in_force);
}

fn whole_traces_in_force() {
    let mut tried = 0;
    for seed in 0..1500 {
        let mut rng = Rng::new(3_000_000 + seed);
        let text = text(&mut rng, Shape::TINY);
        let program = read_text(&text).expect("accepted text");
        let (trace, accepted) = found_trace(&mut rng, &program, 4);
        if accepted.len() < 2 || box_of_states(&program, &accepted[0]).len() > 600 {
            continue;
        }
        let mut fitting = Vec::new();
        for first in box_of_states(&program, &accepted[0]) {
            for second in box_of_states(&program, &accepted[1]) {
                tried += 1;
                let other = [trace[0].clone(), first.clone(), second];
                if satisfies(&program, &other, &accepted) {
                    fitting.push(other.to_vec());
                }
            }
        }
        assert_eq!(fitting, [trace[..3].to_vec()]);
    }
    println!("{tried} traces tried");
    assert!(tried > 100_000);
}

/// Texts with wide ranges: the trace found satisfies the formulas; one with a value
/// changed anywhere, by little or by much, does not.
#[test]
fn changed_traces() {
    landed_and_all(changed_traces_in_force);
}

fn changed_traces_in_force() {
    let mut tried = 0;
    for seed in 0..6000 {
        let mut rng = Rng::new(4_000_000 + seed);
        let shape = Shape::any(&mut rng);
        let text = text(&mut rng, shape);
        let program = read_text(&text).expect("accepted text");
        let (trace, accepted) = found_trace(&mut rng, &program, 6);
        assert!(satisfies(&program, &trace, &accepted));
        if trace.len() < 2 || program.inputs == program.names.len() {
            continue;
        }
        for by in [1, -1, 2, 1 << 31, 1 << 32, -(1 << 33), i64::MAX / 2] {
            let mut other = trace.clone();
            let place = 1 + rng.below(trace.len() - 1);
            let id = program.inputs + rng.below(program.state_length() - program.inputs);
            other[place][id] += by;
            assert!(
                !satisfies(&program, &other, &accepted),
                "{}",
                String::from_utf8_lossy(&text)
            );
            tried += 1;
        }
    }
    println!("{tried} changed traces tried");
    assert!(tried > 8000);
}

/// "the start alone satisfies every such formula", whatever it holds.
#[test]
fn start_alone() {
    landed_and_all(start_alone_in_force);
}

fn start_alone_in_force() {
    for seed in 0..200 {
        let mut rng = Rng::new(5_000_000 + seed);
        let text = text(&mut rng, Shape::WIDE);
        let program = read_text(&text).expect("accepted text");
        let any = (0..program.state_length()).map(|_| rng.bits() as i64);
        assert!(satisfies(&program, &[any.collect()], &[]));
    }
}
