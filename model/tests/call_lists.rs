//! Request A.8: lists of calls on a paused scan, each answer compared with what the
//! sentences say of the whole list before it.

mod common;

use common::landed_and_all;
use rolvenko_model::features::{in_force, with};
use rolvenko_model::generate::{
    alphabet, call_list, closure, small_images, text, Call, Rng, Shape,
};
use rolvenko_model::instalments::{IDLE, UNFINISHED};
use rolvenko_model::{check_detail, read_text, scan, write_image};
use rolvenko_model::{Answer, Features, Paused, Refusal, ScanRefusal};
use std::collections::BTreeMap;

/// A list of calls with their answers.
type Log<'c> = [(&'c Call, Answer)];

fn refused(number: u8) -> Answer {
    Err(ScanRefusal {
        number,
        place: 0,
        steps: 0,
    })
}

/// Number and steps.
fn brief(answer: Answer) -> (u8, u32) {
    answer.map_or_else(|r| (r.number, r.steps), |steps| (0, steps))
}

/// The answer to a call, and the state that a finish leaves, read off all calls before it
/// and their answers.
fn by_history(log: &Log, call: &Call) -> (Answer, Vec<i32>) {
    let scan = Undivided::last(log);
    let answer = match call {
        Call::Post { image, row } => post(image, row),
        Call::Begin { .. } if scan.is_some() => refused(UNFINISHED),
        Call::Begin { image, state } => begin(image, state, waiting(log)),
        Call::Advance { steps } => match scan {
            None => refused(IDLE),
            Some(scan) => Ok((*steps).min(scan.rest()) as u32),
        },
        Call::Finish { state } => return finish(state, scan),
    };
    (answer, Vec::new())
}

fn post(image: &[u8], row: &[i32]) -> Answer {
    match check_detail(image) {
        Err(fault) => {
            let Refusal { number, place } = fault.refusal();
            let steps = 0;
            Err(ScanRefusal {
                number,
                place,
                steps,
            })
        }
        Ok(header) if header.row_length() != row.len() => refused(12),
        Ok(_) => Ok(0),
    }
}

fn begin(image: &[u8], state: &[i32], waiting: Option<&[i32]>) -> Answer {
    let Some(row) = waiting else {
        return refused(IDLE);
    };
    let undivided = scan(image, &mut state.to_vec(), row);
    let before = undivided.err().filter(|refusal| refusal.steps == 0);
    before.map_or(Ok(0), Err)
}

fn finish(state: &[i32], scan: Option<Undivided>) -> (Answer, Vec<i32>) {
    let answer = match scan {
        None => refused(IDLE),
        Some(scan) if scan.rest() > 0 => refused(UNFINISHED),
        Some(Undivided { result: Err(r), .. }) => Err(r),
        Some(scan) if scan.found != *state => refused(24),
        Some(scan) => return (scan.result, scan.left),
    };
    (answer, state.to_vec())
}

/// The row of the last accepted post, if no start took a row since.
fn waiting<'c>(log: &Log<'c>) -> Option<&'c [i32]> {
    let taken = |(call, answer): &(&Call, Answer)| {
        let moved = !matches!(answer, Err(r) if [UNFINISHED, IDLE].contains(&r.number));
        matches!(call, Call::Begin { .. }) && moved
    };
    let since = log.iter().rposition(taken).map_or(0, |at| at + 1);
    log[since..]
        .iter()
        .rev()
        .find_map(|(call, answer)| match call {
            Call::Post { row, .. } if answer.is_ok() => Some(&row[..]),
            _ => None,
        })
}

/// A scan in progress, worked undivided.
#[derive(Clone, PartialEq, Eq, Hash)]
struct Undivided {
    found: Vec<i32>,
    left: Vec<i32>,
    result: Answer,
    done: usize,
}

impl Undivided {
    /// The scan last started, if no finish has ended it.
    fn last(log: &Log) -> Option<Undivided> {
        let begun =
            |(call, answer): &(&Call, Answer)| matches!(call, Call::Begin { .. }) && answer.is_ok();
        let at = log.iter().rposition(begun)?;
        let since = &log[at + 1..];
        let over = |(call, answer): &(&Call, Answer)| {
            let open = matches!(answer, Err(r) if [24, UNFINISHED].contains(&r.number));
            matches!(call, Call::Finish { .. }) && !open
        };
        let (Call::Begin { image, state }, false) = (log[at].0, since.iter().any(over)) else {
            return None;
        };
        let row = waiting(&log[..at]).expect("a start takes a row");
        let mut left = state.clone();
        let result = scan(image, &mut left, row);
        let given = since.iter().filter_map(|(call, answer)| match call {
            Call::Advance { .. } => answer.ok(),
            _ => None,
        });
        Some(Undivided {
            found: state.clone(),
            left,
            result,
            done: given.sum::<u32>() as usize,
        })
    }

    fn rest(&self) -> usize {
        brief(self.result).1 as usize - self.done
    }
}

/// Every list of the calls of each small image's alphabet: the model answers as the
/// sentences say of the whole list, and "then nothing moves".
#[test]
fn closures() {
    with(Features::NONE, || {
        assert_eq!(all_closures(), (662, 12_382, 8))
    });
    with(Features::ALL, || {
        assert_eq!(all_closures(), (762, 14_482, 8))
    });
}

/// Situations, calls and depth of all small images.
fn all_closures() -> (usize, usize, usize) {
    let mut all = (0, 0, 0);
    for small in small_images() {
        let calls = alphabet(&small);
        let met = closure(Situation::default(), &calls, one_more);
        let met = met.unwrap_or_else(|difference| panic!("{}: {difference:?}", small.label));
        println!("{}: {met:?}", small.label);
        all = (
            all.0 + met.situations,
            all.1 + met.calls,
            met.depth.max(all.2),
        );
    }
    println!("situations, calls, depth: {all:?}");
    all
}

/// What the model has after a list of calls, and what the list itself says: all that
/// answers to later calls rest on, of both.
#[derive(Clone, Default, PartialEq, Eq, Hash)]
struct Situation {
    paused: Paused,
    waiting: Option<Vec<i32>>,
    scan: Option<Undivided>,
}

/// Makes the last call of a list in the situation that the others lead to.
fn one_more(before: &Situation, list: &[&Call]) -> Result<Situation, String> {
    let (&call, earlier) = list.split_last().expect("a call");
    let mut log = Vec::new();
    for &call in earlier {
        let (answer, _) = by_history(&log, call);
        log.push((call, answer));
    }
    let mut paused = before.paused.clone();
    let found = call.by_model(&mut paused);
    let wanted = by_history(&log, call);
    log.push((call, wanted.0));
    let after = Situation {
        paused,
        waiting: waiting(&log).map(<[i32]>::to_vec),
        scan: Undivided::last(&log),
    };
    // "answers unfinished", "answer idle; then nothing moves"; after 24 "the scan still
    // awaits its finish"; "with 0 steps nothing moves".
    let stays = match found.0 {
        Err(refusal) => [IDLE, UNFINISHED, 24].contains(&refusal.number),
        Ok(steps) => steps == 0 && matches!(call, Call::Advance { .. }),
    };
    match found == wanted && (!stays || after == *before) {
        true => Ok(after),
        false => Err(format!("{found:?} wanted {wanted:?}")),
    }
}

/// Lists by seed on images of random texts, against the same reading of the whole list.
#[test]
fn lists_by_seed() {
    landed_and_all(lists_by_seed_in_force);
}

fn lists_by_seed_in_force() {
    let mut met = BTreeMap::new();
    for seed in 0..1200 {
        let mut rng = Rng::new(95_000_000 + seed);
        let shape = Shape::any(&mut rng);
        let source = text(&mut rng, shape);
        let image = write_image(&read_text(&source).expect("an accepted text"));
        let mut paused = Paused::default();
        let calls = call_list(&mut rng, &image, 40);
        let mut log = Vec::new();
        for call in &calls {
            let found = call.by_model(&mut paused);
            assert_eq!(found, by_history(&log, call), "{log:?} {call:?}");
            log.push((call, found.0));
            *met.entry((kind(call), brief(found.0).0)).or_insert(0) += 1;
        }
    }
    println!("{met:?}");
    let wrong_direction = met.remove(&("finish", 22));
    assert_eq!(wrong_direction.is_some(), in_force().pairs);
    for (kind, numbers) in [
        ("post", &[0, 11, 12][..]),
        ("begin", &[0, 11, 12, 13, 18, UNFINISHED, IDLE]),
        ("advance", &[0, IDLE]),
        ("finish", &[0, 14, 15, 16, 17, 24, UNFINISHED, IDLE]),
    ] {
        for &number in numbers {
            let count = met.remove(&(kind, number));
            assert!(count.is_some_and(|count| count > 9), "{kind} {number}");
        }
    }
    assert_eq!(met, BTreeMap::new());
}

fn kind(call: &Call) -> &'static str {
    match call {
        Call::Post { .. } => "post",
        Call::Begin { .. } => "begin",
        Call::Advance { .. } => "advance",
        Call::Finish { .. } => "finish",
    }
}
