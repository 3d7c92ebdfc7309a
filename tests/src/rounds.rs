//! Visits and rounds against the model's: every list of a small alphabet of events on two sets (closures), controllers of 1 to 8 sets with
//! events by seed, and any memory under any table, where a visit is held to the calls that it is made of.

use crate::compare::{fence, hex, Options, Table};
use crate::instalments::answer;
use crate::shrink::shrink;
use rolvenko::instalments::{advance, begin, finish, post, PAUSED};
use rolvenko::rounds::{round, visit, RuleSet as Cut, SETS, SHARE_LIMIT};
use rolvenko::Response;
use rolvenko_model::features::in_force;
use rolvenko_model::generate::{any_number, broken, closure, event, farm, small_images, Event, Outcome, Rng, SmallImage};
use rolvenko_model::{Answer, Paused, Refusal, RuleSet};

const FENCE: i32 = 0x5A5A_5A5A;

/// What is lent to a round.
#[derive(Clone, PartialEq, Debug)]
struct Lent {
    paused: Vec<i32>,
    images: Vec<u8>,
    states: Vec<i32>,
    table: Vec<Cut>,
}

type Answers = Result<Vec<Answer>, Refusal>;

impl Lent {
    /// A round of the archive, with fences around all that is lent.
    fn round(&mut self) -> Result<Answers, String> {
        let (mut paused, mut states) = (fence(&self.paused, FENCE), fence(&self.states, FENCE));
        let images = fence(&self.images, 0x5A);
        let (cells, numbers) = (self.paused.len(), self.states.len());
        let found = round(paused.write(cells), images.read(self.images.len()), states.write(numbers), &self.table);
        self.paused = paused.read(cells).to_vec();
        self.states = states.read(numbers).to_vec();
        if paused != fence(&self.paused, FENCE) || states != fence(&self.states, FENCE) || images != fence(&self.images, 0x5A) {
            return Err("written outside".into());
        }
        Ok(found.map(|list| list.into_iter().map(answer).collect()).map_err(|r| Refusal::new(r.number, r.place)))
    }

    /// The same by visits of the parts, cut in order.
    fn visits(&mut self, visit: impl Fn(&mut [i32], &[u8], &mut [i32], usize) -> Response) -> Vec<Answer> {
        let (mut paused, mut images, mut states) = (&mut self.paused[..], &self.images[..], &mut self.states[..]);
        let mut answers = Vec::new();
        for set in &self.table {
            let (cells, cells_left) = paused.split_at_mut(paused.len().min(PAUSED));
            let (image, images_left) = images.split_at(images.len().min(set.image_len));
            let size = states.len().min(set.state_len);
            let (state, states_left) = states.split_at_mut(size);
            answers.push(answer(visit(cells, image, state, set.share)));
            (paused, images, states) = (cells_left, images_left, states_left);
        }
        answers
    }
}

/// A visit by the calls of instalments: a start, its share, its finish with the steps of this visit.
fn by_calls(paused: &mut [i32], image: &[u8], state: &mut [i32], share: usize) -> Response {
    if let refused @ Response::Refused(_) = begin(paused, image, state) {
        return refused;
    }
    let steps = match advance(paused, image, share) {
        Response::Done(steps) => steps,
        _ => 0,
    };
    match finish(paused, state) {
        Response::Done(_) => Response::Done(steps),
        Response::Unfinished(_) => Response::Unfinished(steps),
        Response::Idle => Response::Idle,
        Response::Refused(mut refusal) => {
            refusal.steps = steps;
            Response::Refused(refusal)
        }
    }
}

/// Both sides: the model's sets, and the memory of each set as the archive left it.
#[derive(Clone, PartialEq, Eq, Hash)]
struct Sides {
    model: Vec<RuleSet>,
    memories: Vec<Vec<i32>>,
    states: Vec<Vec<i32>>,
}

impl Sides {
    /// Memories without scan and row: zeros, or ones but for the phase and the waiting row.
    fn new(model: Vec<RuleSet>, fill: i32) -> Sides {
        let mut cells = vec![fill; PAUSED];
        cells[0] = 0;
        cells[13] = 0;
        let states = model.iter().map(|set| set.state.clone()).collect();
        Sides {
            memories: vec![cells; model.len()],
            model,
            states,
        }
    }

    fn joined(&self) -> Lent {
        let of = |(set, state): (&RuleSet, &Vec<i32>)| Cut {
            image_len: set.image.len(),
            state_len: state.len(),
            share: set.share,
        };
        Lent {
            paused: self.memories.concat(),
            images: self.model.iter().map(|set| &set.image[..]).collect::<Vec<_>>().concat(),
            states: self.states.concat(),
            table: self.model.iter().zip(&self.states).map(of).collect(),
        }
    }

    /// A round of all sets over joined memory; visits of the parts do the same.
    fn round(&mut self) -> Result<Answers, String> {
        let mut lent = self.joined();
        let (mut apart, before) = (lent.clone(), lent.clone());
        let found = lent.round()?;
        match &found {
            Ok(list) if *list != apart.visits(visit) || apart != lent => return Err(format!("a round gives {list:?}, its visits another")),
            Err(_) if lent != before => return Err("a refused round moved something".into()),
            _ => {}
        }
        let (mut cells, mut numbers) = (&lent.paused[..], &lent.states[..]);
        for (memory, state) in self.memories.iter_mut().zip(&mut self.states) {
            let size = state.len();
            memory.copy_from_slice(&cells[..PAUSED]);
            state.copy_from_slice(&numbers[..size]);
            (cells, numbers) = (&cells[PAUSED..], &numbers[size..]);
        }
        Ok(found)
    }

    fn event(&mut self, event: &Event) -> Result<Outcome, String> {
        Ok(match event {
            Event::Post { set, image, row } => Outcome::Posted(answer(post(&mut self.memories[*set], image, row))),
            Event::Write { set, state } => {
                self.states[*set] = state.clone();
                Outcome::Done
            }
            // Images and shares are the model's.
            Event::Image { .. } | Event::Share { .. } => Outcome::Done,
            Event::Round => Outcome::Visited(self.round()?),
        })
    }
}

/// One event on both sides.
fn step(before: &Sides, event: &Event) -> Result<(Sides, Outcome), String> {
    let mut after = before.clone();
    let found = after.event(event);
    let wanted = event.by_model(&mut after.model);
    let states: Vec<Vec<i32>> = after.model.iter().map(|set| set.state.clone()).collect();
    match found {
        Ok(found) if found == wanted && states == after.states => Ok((after, wanted)),
        found => Err(format!("{event:?}\narchive {found:?} {:?}\nmodel   {wanted:?} {states:?}", after.states)),
    }
}

fn count(outcome: &Outcome, table: &mut Table) {
    let number = |answer: &Answer| answer.as_ref().err().map_or(0, |r| r.number);
    match outcome {
        Outcome::Posted(answer) => table.count(format!("post    {:>3}", number(answer))),
        Outcome::Done => {}
        Outcome::Visited(Err(refusal)) => table.count(format!("round   {:>3}", refusal.number)),
        Outcome::Visited(Ok(list)) => list.iter().for_each(|answer| table.count(format!("visit   {:>3}", number(answer)))),
    }
}

/// A round, and posts of each row to each set.
fn posts_and_rounds(sets: &[&SmallImage; 2]) -> Vec<Event> {
    let mut events = vec![Event::Round];
    for (set, small) in sets.iter().enumerate() {
        events.extend(small.rows.iter().map(|row| Event::Post {
            set,
            image: small.image.to_vec(),
            row: row.to_vec(),
        }));
    }
    events
}

/// Beside these: posts to the first set of a longer row and by a broken image, each of its states and a longer one written by another, its
/// image broken and sound again; of the second set a share out of limit and its own.
fn all_events(sets: &[&SmallImage; 2]) -> Vec<Event> {
    let mut events = posts_and_rounds(sets);
    let (set, image, row) = (0, sets[0].image.to_vec(), sets[0].rows[0].to_vec());
    let longer = |values: &[i32]| [values, &[0]].concat();
    let states = sets[0].states.iter().map(|state| state.to_vec()).chain([longer(sets[0].states[0])]);
    events.extend(states.map(|state| Event::Write { set, state }));
    events.extend([0, 3].map(|share| Event::Share { set: 1, share }));
    let row_of = |image: &[u8], row| Event::Post {
        set,
        image: image.to_vec(),
        row,
    };
    events.extend([row_of(&image, longer(&row)), row_of(&broken(&image), row)]);
    events.extend([broken(&image), image].map(|image| Event::Image { set, image }));
    events
}

type Alphabet = fn(&[&SmallImage; 2]) -> Vec<Event>;

/// Every list of these events on two small sets with the shares 1 and 3. A set's image changes only without a scan in progress.
fn closed(fill: i32, labels: [&str; 2], alphabet: Alphabet, table: &mut Table) -> Result<(), String> {
    let all = small_images();
    let small = labels.map(|label| all.iter().find(|image| image.label == label).expect("a small image"));
    let of = |(small, share): (&&SmallImage, usize)| RuleSet {
        image: small.image.to_vec(),
        state: small.states[0].to_vec(),
        share,
        paused: Paused::default(),
    };
    let events = alphabet(&small);
    let first = Sides::new(small.iter().zip([1, 3]).map(of).collect(), fill);
    let met = closure(first, &events, |before, list| match *list.last().expect("an event") {
        Event::Image { set, .. } if before.model[*set].paused.in_progress() => Ok(before.clone()),
        event => step(before, event).map(|(after, outcome)| {
            count(&outcome, table);
            after
        }),
    });
    match met {
        Ok(met) => {
            let (situations, calls, depth) = (met.situations, met.calls, met.depth);
            println!("rounds, closure of {labels:?} from {fill}: {situations} situations, {calls} events, depth {depth}");
            Ok(())
        }
        Err((told, path)) => {
            let path: Vec<&Event> = path.iter().map(|&at| &events[at]).collect();
            Err(format!("{labels:?}: events {path:?}\n{told}"))
        }
    }
}

/// The first difference of a list of events.
fn difference(sets: &[RuleSet], fill: i32, events: &[Event]) -> Option<String> {
    let mut sides = Sides::new(sets.to_vec(), fill);
    for event in events {
        match step(&sides, event) {
            Ok((after, _)) => sides = after,
            Err(told) => return Some(told),
        }
    }
    None
}

/// A controller with 40 events.
fn controller(rng: &mut Rng, table: &mut Table) -> Result<(), String> {
    let (sets, fill) = (farm(rng), rng.below(2) as i32);
    let mut sides = Sides::new(sets.clone(), fill);
    let mut log = Vec::new();
    for _ in 0..40 {
        let event = event(rng, &sets, &sides.model);
        log.push(event.clone());
        match step(&sides, &event) {
            Ok((after, outcome)) => {
                count(&outcome, table);
                sides = after;
            }
            Err(_) => {
                let without = |events: &Vec<Event>| (0..events.len()).map(|at| [&events[..at], &events[at + 1..]].concat()).collect();
                let small = shrink(&log, without, |events| difference(&sets, fill, events).is_some());
                let told = difference(&sets, fill, &small).unwrap_or_default();
                return Err(format!("memory of {fill}, sets {sets:?}\nevents {small:?}\n{told}"));
            }
        }
    }
    Ok(())
}

fn within(table: &[Cut]) -> bool {
    (1..=SETS).contains(&table.len()) && table.iter().all(|set| (1..=SHARE_LIMIT).contains(&set.share))
}

/// Memory of any contents, often too short or too long for its table: a round is the visits of its parts by the calls, or 25 and nothing moves.
fn any_memory(rng: &mut Rng, image: &[u8], table: &mut Table) -> Result<(), String> {
    let small = |rng: &mut Rng| if rng.chance(70) { rng.below(70) as i32 - 2 } else { any_number(rng) };
    let sets = *rng.choose(&[0, 1, 2, 3, 8, 9]);
    let entry = |rng: &mut Rng| Cut {
        image_len: if rng.chance(80) { image.len() } else { *rng.choose(&[0, 1, usize::MAX]) },
        state_len: if rng.chance(80) { rng.below(5) } else { *rng.choose(&[64, 65, 127, 128, usize::MAX]) },
        share: if rng.chance(95) { *rng.choose(&[1, 2, 9, SHARE_LIMIT]) } else { *rng.choose(&[0, SHARE_LIMIT + 1, usize::MAX]) },
    };
    let length = (sets * PAUSED + 1).saturating_sub(*rng.choose(&[0, 1, 1, 1, 1, 2, PAUSED]));
    let mut lent = Lent {
        paused: (0..length).map(|_| small(rng)).collect(),
        images: image.repeat(sets),
        states: (0..rng.below(5 * sets + 1)).map(|_| small(rng)).collect(),
        table: (0..sets).map(|_| entry(rng)).collect(),
    };
    for cells in lent.paused.chunks_exact_mut(PAUSED) {
        cells[0] = rng.below(4) as i32;
        cells[8] = image.len() as i32;
    }
    let (before, mut apart) = (lent.clone(), lent.clone());
    let found = lent.round()?;
    let wanted = if within(&apart.table) { Ok(apart.visits(by_calls)) } else { Err(Refusal::new(25, 0)) };
    if found != wanted || lent != apart {
        return Err(format!("image {}\n{before:?}\narchive {found:?}\nby calls {wanted:?}", hex(image)));
    }
    table.count(format!("round   {:>3}, any memory", found.err().map_or(0, |r| r.number)));
    Ok(())
}

pub fn run(options: &Options, table: &mut Table) -> Result<(), String> {
    let alphabets: [([&str; 2], Alphabet); 4] = [
        (["latch", "no names"], all_events),
        (["two true cases", "latch"], all_events),
        (["launch", "latch"], posts_and_rounds),
        (["case of the previous value", "two true cases"], posts_and_rounds),
    ];
    let timed: [([&str; 2], Alphabet); 1] = [(["timer", "latch"], posts_and_rounds)];
    let timed = timed.into_iter().filter(|_| in_force().timer_codes());
    for (labels, alphabet) in alphabets.into_iter().chain(timed) {
        closed(0, labels, alphabet, table)?;
        closed(1, labels, alphabet, table)?;
    }
    let mut rng = Rng::new(options.seed);
    let since = table.started();
    // some at least, however long the closures took
    let mut controllers = 0;
    while controllers < 50 || !options.spent(since, table.calls) {
        controllers += 1;
        controller(&mut rng, table)?;
        let image = rng.choose(&small_images()).image;
        for _ in 0..4 {
            any_memory(&mut rng, image, table)?;
        }
    }
    Ok(())
}
