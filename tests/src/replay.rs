//! Whole lists of rows in one call: answer and all lent memory against the model's translation and plain scan.

use crate::compare::{fence, Fenced, Options, Table};
use crate::shrink::{shrink, smaller_bytes, smaller_rules};
use rolvenko_model::generate::{mutated_text, row, text, Rng, Shape};
use rolvenko_model::{instructions, plain_scan, read_text, write_image, Program};

/// A text, rows, and the lengths of the memory lent: image, state, numbers, steps, trace.
#[derive(Clone)]
struct Call {
    source: Vec<u8>,
    cells: Vec<i32>,
    lengths: Vec<usize>,
    room: [usize; 5],
}

/// Lent memory between fences.
#[derive(Clone, PartialEq)]
struct Memory {
    image: Fenced<u8>,
    state: Fenced<i32>,
    numbers: Fenced<u8>,
    steps: Fenced<usize>,
    trace: Fenced<i32>,
}

fn memory(room: [usize; 5]) -> Memory {
    let [image, state, numbers, steps, trace] = room;
    Memory {
        image: fence(&vec![0xA5; image], 0x5A),
        state: fence(&vec![-77; state], 55),
        numbers: fence(&vec![0xA5; numbers], 0x5A),
        steps: fence(&vec![777; steps], 555),
        trace: fence(&vec![-77; trace], 55),
    }
}

/// Values from a place on, as far as there is room.
fn store<T: Copy>(memory: &mut [T], at: usize, values: &[T]) {
    for (cell, value) in memory.iter_mut().skip(at).zip(values) {
        *cell = *value;
    }
}

/// The rows that the cells spell.
fn rows(call: &Call) -> Vec<Vec<i32>> {
    let mut rest = &call.cells[..];
    let part = |&n: &usize| {
        let (row, behind) = rest.split_at(n.min(rest.len()));
        rest = behind;
        row.to_vec()
    };
    call.lengths.iter().map(part).collect()
}

/// The records of the plain scan's rows, and the state after the last.
fn record(program: &Program, image: &[u8], call: &Call, left: &mut Memory) {
    let [_, _, numbers, steps, room] = call.room;
    let mut state = program.starts();
    let mut trace = state.clone();
    for (at, line) in rows(call).iter().enumerate() {
        // The plain scan counts no steps: those of a refused row are the model machine's.
        let mut running = state.clone();
        let counted = match rolvenko_model::scan(image, &mut running, line) {
            Ok(_) => instructions(image),
            Err(refusal) => refusal.steps as usize,
        };
        let number = plain_scan(program, &mut state, line).err().unwrap_or(0);
        store(left.numbers.write(numbers), at, &[number]);
        store(left.steps.write(steps), at, &[counted]);
        if number == 0 {
            trace.extend(&state);
        }
    }
    store(left.trace.write(room), 0, &trace);
    store(left.state.write(call.room[1]), 0, &state);
}

/// What the model answers and leaves.
fn wanted(call: &Call) -> (Result<usize, (u8, usize)>, Memory) {
    let mut left = memory(call.room);
    let program = match read_text(&call.source) {
        Ok(program) => program,
        Err(refusal) => return (Err((refusal.number, refusal.place)), left),
    };
    let image = write_image(&program);
    if image.len() > call.room[0] {
        return (Err((10, call.source.len())), left);
    }
    store(left.image.write(call.room[0]), 0, &image);
    if call.room[1] != program.state_length() {
        return (Err((12, 0)), left);
    }
    record(&program, &image, call, &mut left);
    (Ok(image.len()), left)
}

/// What the archive answers and leaves.
fn found(call: &Call) -> (Result<usize, (u8, usize)>, Memory) {
    let mut left = memory(call.room);
    let [image, state, numbers, steps, trace] = call.room;
    let records = rolvenko::Records {
        numbers: left.numbers.write(numbers),
        steps: left.steps.write(steps),
        trace: left.trace.write(trace),
    };
    let answer =
        rolvenko::replay(&call.source, left.image.write(image), left.state.write(state), &call.cells, &call.lengths, records);
    (answer.map_err(|r| (r.number, r.place)), left)
}

fn differ(call: &Call) -> bool {
    found(call) != wanted(call)
}

/// Fewer rows, or a smaller text.
fn smaller(call: &Call) -> Vec<Call> {
    let fewer = (0..call.lengths.len()).map(|at| {
        let mut lengths = call.lengths.clone();
        lengths.remove(at);
        Call { lengths, ..call.clone() }
    });
    let texts = smaller_rules(&call.source).into_iter().chain(smaller_bytes(&call.source)).map(|source| Call { source, ..call.clone() });
    fewer.chain(texts).collect()
}

fn compare(call: Call, table: &mut Table) -> Result<(), String> {
    if differ(&call) {
        let small = shrink(&call, smaller, differ);
        let (archive, model) = (found(&small), wanted(&small));
        return Err(format!(
            "text {:?}\ncells {:?}, lengths {:?}, room {:?}\narchive {:?}\nmodel   {:?}, same memory: {}",
            String::from_utf8_lossy(&small.source),
            small.cells,
            small.lengths,
            small.room,
            archive.0,
            model.0,
            archive.1 == model.1
        ));
    }
    table.count(match wanted(&call).0 {
        Ok(_) => " 0".to_owned(),
        Err((number, _)) => format!("{number:>2}"),
    });
    Ok(())
}

/// Rows for a program, most of them of the right length; memory with room for all of it, or a little less or more.
fn call(rng: &mut Rng, source: Vec<u8>) -> Call {
    let program = read_text(&source).ok();
    let size = program.as_ref().map_or(2, |p| p.state_length());
    let ranges = program.as_ref().map_or(Vec::new(), |p| p.row_ranges());
    let lines: Vec<Vec<i32>> = (0..rng.below(12)).map(|_| row(rng, &ranges)).collect();
    let mut lengths: Vec<usize> = lines.iter().map(Vec::len).collect();
    if rng.chance(20) {
        lengths.push(rng.below(5));
    }
    let image = program.as_ref().map_or(9, |p| write_image(p).len());
    let count = lengths.len();
    let mut near = |n: usize, percent: usize| if rng.chance(percent) { (n + rng.below(5)).saturating_sub(2) } else { n };
    let room = [near(image, 10), near(size, 5), near(count, 25), near(count, 25), near((count + 1) * size, 25)];
    Call { source, cells: lines.concat(), lengths, room }
}

pub fn run(options: &Options, table: &mut Table) -> Result<(), String> {
    let mut rng = Rng::new(options.seed);
    let since = table.started();
    while !options.spent(since, table.calls) {
        let shape = Shape::any(&mut rng);
        let source = if rng.chance(5) { mutated_text(&mut rng, shape) } else { text(&mut rng, shape) };
        let call = call(&mut rng, source);
        compare(call, table)?;
    }
    Ok(())
}
