//! Instalments against the model's: lists of calls by seed, every list of a small alphabet (a closure), and memory that the calls did not
//! leave, of which only safety is owed.

use crate::compare::{fence, hex, Options, Table};
use crate::shrink::shrink;
use rolvenko::instalments::{advance, begin, finish, post, PAUSED};
use rolvenko::Response;
use rolvenko_model::generate::{alphabet, any_number, call_list, closure, small_images, sound_image, Call, Rng, SmallImage};
use rolvenko_model::instalments::{IDLE, UNFINISHED};
use rolvenko_model::{Answer, Paused, ScanRefusal};

const FENCE: i32 = 0x5A5A_5A5A;

/// The archive's side: the lent memory, and the image that the scan was begun with.
#[derive(Clone, PartialEq, Eq, Hash)]
pub struct Lent {
    pub cells: Vec<i32>,
    image: Vec<u8>,
}

/// An answer as the model gives it, the state that a finish leaves, and whether nothing else was written.
#[derive(PartialEq, Debug)]
struct Left {
    answer: Answer,
    state: Vec<i32>,
    lent_stays: bool,
}

pub fn answer(response: Response) -> Answer {
    let only = |number, steps| Err(ScanRefusal { number, place: 0, steps });
    match response {
        Response::Done(steps) => Ok(steps),
        Response::Refused(r) => Err(ScanRefusal {
            number: r.number,
            place: r.place,
            steps: r.steps,
        }),
        Response::Unfinished(steps) => only(UNFINISHED, steps),
        Response::Idle => only(IDLE, 0),
    }
}

impl Lent {
    pub fn new(cells: Vec<i32>) -> Lent {
        Lent {
            cells,
            image: Vec::new(),
        }
    }

    /// One call, with fences around all that is lent.
    fn call(&mut self, call: &Call) -> Left {
        let (image, numbers): (&[u8], &[i32]) = match call {
            Call::Post { image, row } => (image, row),
            Call::Begin { image, state } => (image, state),
            Call::Advance { .. } => (&self.image, &[]),
            Call::Finish { state } => (&[], state),
        };
        let length = self.cells.len();
        let (bytes, mut cells, mut list) = (fence(image, 0x5A), fence(&self.cells, FENCE), fence(numbers, FENCE));
        let (lent, paused) = (bytes.read(image.len()), cells.write(length));
        let response = match call {
            Call::Post { .. } => post(paused, lent, list.read(numbers.len())),
            Call::Begin { .. } => begin(paused, lent, list.read(numbers.len())),
            Call::Advance { steps } => advance(paused, lent, *steps),
            Call::Finish { .. } => finish(paused, list.write(numbers.len())),
        };
        let state = list.read(numbers.len()).to_vec();
        let finishes = matches!(call, Call::Finish { .. });
        let kept = if finishes { list == fence(&state, FENCE) } else { list == fence(numbers, FENCE) };
        let lent_stays = kept && bytes == fence(image, 0x5A) && cells == fence(cells.read(length), FENCE);
        self.cells = cells.read(length).to_vec();
        if let (Call::Begin { image, .. }, Response::Done(_)) = (call, response) {
            self.image = image.clone();
        }
        Left {
            answer: answer(response),
            state: if finishes { state } else { Vec::new() },
            lent_stays,
        }
    }
}

/// Both sides of a comparison.
#[derive(Clone, PartialEq, Eq, Hash)]
struct Sides {
    lent: Lent,
    paused: Paused,
}

fn stays(call: &Call, answer: Answer) -> bool {
    match answer {
        Err(refusal) => [IDLE, UNFINISHED, 24].contains(&refusal.number) || matches!(call, Call::Post { .. }),
        Ok(steps) => steps == 0 && matches!(call, Call::Advance { .. }),
    }
}

/// One call on both sides; idle, unfinished, 24, 0 steps and a refused post move nothing.
fn step(before: &Sides, call: &Call) -> Result<(Sides, Answer), String> {
    let mut after = before.clone();
    let found = after.lent.call(call);
    let (answer, state) = call.by_model(&mut after.paused);
    let wanted = Left {
        answer,
        state,
        lent_stays: true,
    };
    let moved = stays(call, answer) && after.lent.cells != before.lent.cells;
    match found == wanted && !moved {
        true => Ok((after, answer)),
        false => Err(format!("{call:?}\narchive {found:?}{}\nmodel   {wanted:?}", if moved { ", the memory moved" } else { "" })),
    }
}

/// Memory without scan and row: zeros, or ones but for the phase and the waiting row.
fn first(fill: i32) -> Sides {
    let mut cells = vec![fill; PAUSED];
    cells[0] = 0;
    cells[13] = 0;
    Sides {
        lent: Lent::new(cells),
        paused: Paused::default(),
    }
}

/// The first difference of a list of calls.
fn difference(fill: i32, calls: &[Call]) -> Option<String> {
    let mut sides = first(fill);
    for call in calls {
        match step(&sides, call) {
            Ok((after, _)) => sides = after,
            Err(difference) => return Some(difference),
        }
    }
    None
}

fn kind(call: &Call) -> &'static str {
    match call {
        Call::Post { .. } => "post",
        Call::Begin { .. } => "begin",
        Call::Advance { .. } => "advance",
        Call::Finish { .. } => "finish",
    }
}

fn list(fill: i32, image: &[u8], calls: Vec<Call>, table: &mut Table) -> Result<(), String> {
    let mut sides = first(fill);
    for call in &calls {
        match step(&sides, call) {
            Ok((after, answer)) => {
                sides = after;
                table.count(format!("{:<7} {:>3}", kind(call), answer.err().map_or(0, |r| r.number)));
            }
            Err(_) => {
                let without = |calls: &Vec<Call>| (0..calls.len()).map(|at| [&calls[..at], &calls[at + 1..]].concat()).collect();
                let small = shrink(&calls, without, |calls| difference(fill, calls).is_some());
                let told = difference(fill, &small).unwrap_or_default();
                return Err(format!("image {}\nmemory of {fill}, calls {small:?}\n{told}", hex(image)));
            }
        }
    }
    Ok(())
}

/// Every list of the calls of an image's alphabet, from memory without scan and row.
fn closed(fill: i32, small: &SmallImage, table: &mut Table) -> Result<(), String> {
    let calls = alphabet(small);
    let met = closure(first(fill), &calls, |before, list| {
        let call = list.last().expect("a call");
        step(before, call).map(|(after, answer)| {
            table.count(format!("{:<7} {:>3}", kind(call), answer.err().map_or(0, |r| r.number)));
            after
        })
    });
    match met {
        Ok(met) => {
            let (situations, calls, depth) = (met.situations, met.calls, met.depth);
            println!("instalments, closure of {:?} from {fill}: {situations} situations, {calls} calls, depth {depth}", small.label);
            Ok(())
        }
        Err((told, path)) => {
            let path: Vec<&Call> = path.iter().map(|&at| &calls[at]).collect();
            Err(format!("{}: calls {path:?}\n{told}", small.label))
        }
    }
}

/// Any memory of any length, any image, any call: nothing outside is written; idle, unfinished, 24, 0 steps and a refused post move nothing,
/// and memory of another length never moves.
fn any_memory(rng: &mut Rng, image: &[u8], table: &mut Table) -> Result<(), String> {
    let length = *rng.choose(&[PAUSED, PAUSED, PAUSED, PAUSED, 0, 1, PAUSED - 1, PAUSED + 1]);
    let small = |rng: &mut Rng| if rng.chance(70) { rng.below(70) as i32 - 2 } else { any_number(rng) };
    let mut lent = Lent::new((0..length).map(|_| small(rng)).collect());
    if length == PAUSED && rng.chance(70) {
        lent.cells[0] = rng.below(4) as i32;
        lent.cells[8] = image.len() as i32;
    }
    lent.image = image.to_vec();
    for _ in 0..6 {
        let numbers: Vec<i32> = (0..rng.below(5)).map(|_| small(rng)).collect();
        let image = image.to_vec();
        let call = match rng.below(5) {
            0 => Call::Post { image, row: numbers },
            1 => Call::Begin { image, state: numbers },
            2 => Call::Finish { state: numbers },
            _ => Call::Advance {
                steps: *rng.choose(&[0, 1, 3, 1 << 16, usize::MAX]),
            },
        };
        let before = lent.clone();
        let left = lent.call(&call);
        let refused = matches!(call, Call::Finish { ref state } if left.answer.is_err() && left.state != *state);
        // A memory that these calls did not leave may hold 24 as the number of a refused scan.
        let told = left.answer.is_err_and(|r| r.number == 24) && before.cells.first() != Some(&2);
        let moved = (stays(&call, left.answer) && !told || length != PAUSED) && lent.cells != before.cells;
        if !left.lent_stays || refused || moved {
            return Err(format!("memory {:?}\nimage {}\n{call:?}\narchive {left:?}", before.cells, hex(&before.image)));
        }
        table.count(format!("{:<7} {:>3}, any memory", kind(&call), left.answer.err().map_or(0, |r| r.number)));
    }
    Ok(())
}

pub fn run(options: &Options, table: &mut Table) -> Result<(), String> {
    for small in small_images() {
        closed(0, &small, table)?;
        closed(1, &small, table)?;
    }
    let mut rng = Rng::new(options.seed);
    let since = table.started();
    while !options.spent(since, table.calls) {
        let image = sound_image(&mut rng);
        for fill in [0, 1] {
            let calls = call_list(&mut rng, &image, 60);
            list(fill, &image, calls, table)?;
        }
        for _ in 0..4 {
            any_memory(&mut rng, &image, table)?;
        }
    }
    Ok(())
}
