//! Request A.9: shares for several rule sets.

mod common;

use common::landed_and_all;
use rolvenko_model::features::in_force;
use rolvenko_model::generate::{
    closure, event, farm, row_in_range, rule_set, small_images, Event, Outcome, Rng, SmallImage,
};
use rolvenko_model::instalments::{IDLE, UNFINISHED};
use rolvenko_model::{
    check_detail, instructions, round, scan, visit, Answer, Paused, Refusal, RuleSet, ScanRefusal,
};
use std::collections::BTreeMap;

fn small(label: &str) -> SmallImage {
    let found = small_images().into_iter().find(|s| s.label == label);
    found.expect("a small image")
}

/// A set with a waiting row.
fn posted(label: &str, state: &[i32], row: &[i32], share: usize) -> RuleSet {
    let mut set = RuleSet {
        image: small(label).image.to_vec(),
        state: state.to_vec(),
        share,
        paused: Paused::default(),
    };
    assert_eq!(set.paused.post(&set.image, row), Ok(0));
    set
}

/// Number and steps.
fn brief(answer: Answer) -> (u8, u32) {
    answer.map_or_else(|r| (r.number, r.steps), |steps| (0, steps))
}

fn visits<const N: usize>(set: &mut RuleSet) -> [(u8, u32); N] {
    [(); N].map(|()| brief(set.visit()))
}

const NONE: (u8, u32) = (IDLE, 0);

#[test]
fn three_sets() {
    let mut sets = [
        posted("latch", &[0], &[], 3),
        posted("no names", &[], &[], 1),
        posted("latch", &[0], &[], 100),
    ];
    let mut answers = || {
        let found = round(&mut sets).expect("within the limits");
        found.into_iter().map(brief).collect::<Vec<_>>()
    };
    assert_eq!(answers(), [(UNFINISHED, 3), (0, 0), (0, 7)]);
    assert_eq!(answers(), [(UNFINISHED, 3), NONE, NONE]);
    assert_eq!(answers(), [(0, 1), NONE, NONE]);
    assert_eq!(answers(), [NONE, NONE, NONE]);
    let states = sets.map(|set| set.state);
    assert_eq!(states, [vec![1], vec![], vec![1]]);
}

/// "25 a count or share out of limit, before any round"
#[test]
fn limits() {
    let set = |share| posted("latch", &[0], &[], share);
    let refused = |sets: &[RuleSet]| {
        let mut left = sets.to_vec();
        assert_eq!(round(&mut left), Err(Refusal::new(25, 0)));
        assert_eq!(left, sets);
    };
    refused(&[]);
    refused(&vec![set(3); 9]);
    for share in [0, 65_537, 1 << 32, (1 << 32) + 1, usize::MAX] {
        refused(&[set(share)]);
        refused(&[set(3), set(3), set(share)]);
        let mut alone = set(share);
        assert_eq!(visits(&mut alone), [(25, 0)]);
        assert_eq!(alone, set(share));
    }
    for (count, share) in [(1, 1), (8, 65_536)] {
        assert_eq!(
            round(&mut vec![set(share); count]).map(|a| a.len()),
            Ok(count)
        );
    }
}

/// How many visits it takes until a scan is finished.
fn rounds_of(set: &mut RuleSet) -> usize {
    let mut count = 1;
    while let Err(refusal) = set.visit() {
        assert_eq!(refusal.number, UNFINISHED);
        assert_eq!(refusal.steps as usize, set.share);
        count += 1;
    }
    count
}

#[test]
fn exact_rounds() {
    for (share, rounds) in [(1, 7), (6, 2), (7, 1), (8, 1)] {
        assert_eq!(rounds_of(&mut posted("latch", &[0], &[], share)), rounds);
    }
    for (share, rounds) in [(1, 21), (2, 11), (20, 2), (21, 1), (22, 1)] {
        let mut set = posted("launch", &[0, 0], &[1], share);
        assert_eq!(rounds_of(&mut set), rounds);
        assert_eq!(set.state, [1, 1]);
    }
    // An empty code finishes at its first visit.
    for share in [1, 2, 65_536] {
        assert_eq!(
            visits(&mut posted("no names", &[], &[], share)),
            [(0, 0), NONE]
        );
    }
}

#[test]
fn refused_scans() {
    let mut outside = posted("latch", &[2], &[], 3);
    assert_eq!(visits(&mut outside), [(18, 0), NONE]);
    assert_eq!(outside.state, [2]);
    let mut division = posted("division", &[0, 1, 1], &[0], 4);
    assert_eq!(visits(&mut division), [(UNFINISHED, 4), (14, 3), NONE]);
    assert_eq!(division.state, [0, 1, 1]);
    let mut cut = posted("latch", &[0], &[], 3);
    cut.image.pop();
    let unsound = ScanRefusal {
        number: 11,
        place: 15,
        steps: 0,
    };
    assert_eq!(cut.visit(), Err(unsound));
    assert_eq!(visits(&mut cut), [NONE]);
}

/// "After 24 a visit gives 0 steps and asks for the finish again."
#[test]
fn another_state() {
    let mut set = posted("latch", &[0], &[], 4);
    assert_eq!(visits(&mut set), [(UNFINISHED, 4)]);
    set.state = vec![1];
    assert_eq!(visits(&mut set), [(24, 3), (24, 0)]);
    set.state = vec![0, 0];
    assert_eq!(visits(&mut set), [(24, 0)]);
    assert_eq!(set.paused.post(&set.image, &[]), Ok(0));
    set.state = vec![0];
    // The next row waits for the next visit.
    assert_eq!(visits(&mut set), [(0, 0), (UNFINISHED, 4), (0, 3), NONE]);
    assert_eq!(set.state, [1]);
}

/// "a scan that meets no refusal is finished in exactly c divided by share, rounded up,
/// rounds, its first visit's included", with any rows posted between and other sets.
#[test]
fn exact_rounds_by_seed() {
    let mut finished = 0;
    for seed in 0..800 {
        let mut rng = Rng::new(96_000_000 + seed);
        let mut set = rule_set(&mut rng);
        let Ok(header) = check_detail(&set.image) else {
            continue;
        };
        let mut row = row_in_range(&mut rng, &header.row_ranges());
        set.paused.post(&set.image, &row).expect("a sound image");
        for _ in 0..4 {
            let mut wanted = set.state.clone();
            let undivided = scan(&set.image, &mut wanted, &row);
            let steps = brief(undivided).1 as usize;
            let rounds = steps.div_ceil(set.share).max(1);
            for visit in 1..=rounds {
                let (number, now) = brief(set.visit());
                let last = visit == rounds;
                let end = brief(undivided).0;
                assert_eq!(number, if last { end } else { UNFINISHED });
                let rest = steps - (visit - 1) * set.share;
                assert_eq!(now as usize, rest.min(set.share));
                row = row_in_range(&mut rng, &header.row_ranges());
                set.paused.post(&set.image, &row).expect("a sound image");
            }
            assert_eq!(set.state, wanted);
            if undivided.is_ok() {
                assert_eq!(steps, instructions(&set.image));
                finished += 1;
            }
        }
    }
    assert!(finished > 1000, "{finished}");
}

/// The answers that one set gets, beside others or alone: "No rows or refusals of another
/// set change a set's values or that number." A round that is 25 visits nobody.
#[test]
fn isolation() {
    landed_and_all(isolation_in_force);
}

fn isolation_in_force() {
    let mut met = BTreeMap::new();
    for seed in 0..500 {
        let mut rng = Rng::new(97_000_000 + seed);
        let first = farm(&mut rng);
        let mut sets = first.clone();
        let mut alone: Vec<[RuleSet; 1]> = first.iter().map(|set| [set.clone()]).collect();
        for _ in 0..60 {
            let event = event(&mut rng, &first, &sets);
            let found = event.by_model(&mut sets);
            for (id, set) in alone.iter_mut().enumerate() {
                if event.set().is_some_and(|only| only != id) {
                    continue;
                }
                match &found {
                    Outcome::Visited(Err(refusal)) => assert_eq!(refusal.number, 25),
                    Outcome::Visited(Ok(answers)) => {
                        assert_eq!(Event::Round.by_model(set), only(answers[id]));
                        *met.entry(brief(answers[id]).0).or_insert(0) += 1;
                    }
                    found => assert_eq!(*found, as_first(&event).by_model(set)),
                }
                assert_eq!(set[0], sets[id]);
            }
        }
    }
    println!("{met:?}");
    assert_eq!(met.remove(&22).is_some(), in_force().pairs);
    for wanted in [0, 11, 12, 13, 14, 15, 16, 17, 18, 24, UNFINISHED, IDLE] {
        let count = met.remove(&wanted);
        assert!(count.is_some_and(|count| count > 20), "{wanted}");
    }
    assert_eq!(met, BTreeMap::new());
}

fn only(answer: Answer) -> Outcome {
    Outcome::Visited(Ok(vec![answer]))
}

/// The same event for a set that is the only one.
fn as_first(event: &Event) -> Event {
    let mut event = event.clone();
    match &mut event {
        Event::Post { set, .. } | Event::Write { set, .. } => *set = 0,
        Event::Image { set, .. } | Event::Share { set, .. } => *set = 0,
        Event::Round => {}
    }
    event
}

/// Every list of posts, other states and rounds on two sets with the shares 1 and 3: each
/// set is as it is alone.
#[test]
fn closures_of_two() {
    let mut all = (0, 0, 0);
    for (first, second) in [("latch", "division"), ("two true cases", "no names")] {
        let (a, b) = (small(first), small(second));
        let sets = [&a, &b].map(|small| RuleSet {
            image: small.image.to_vec(),
            state: small.states[0].to_vec(),
            share: 1,
            paused: Paused::default(),
        });
        let [first, mut second] = sets;
        second.share = 3;
        let events = small_events(&[&a, &b]);
        let met = closure([first, second], &events, |before, list| {
            let event = list.last().expect("an event");
            let mut sets = before.clone();
            let found = event.by_model(&mut sets);
            let mut alone = before.clone();
            let wanted = match event {
                Event::Round => Outcome::Visited(Ok(alone.each_mut().map(|s| s.visit()).to_vec())),
                event => event.by_model(&mut alone),
            };
            match found == wanted && sets == alone {
                true => Ok(sets),
                false => Err(format!("{found:?} wanted {wanted:?}")),
            }
        });
        let met = met.expect("no difference");
        all = (
            all.0 + met.situations,
            all.1 + met.calls,
            met.depth.max(all.2),
        );
    }
    assert_eq!(all, (15_396, 122_616, 40));
}

/// Each row posted to its set, each state of the first set written, and a round.
fn small_events(sets: &[&SmallImage]) -> Vec<Event> {
    let mut events = vec![Event::Round];
    for (set, small) in sets.iter().enumerate() {
        events.extend(small.rows.iter().map(|row| Event::Post {
            set,
            image: small.image.to_vec(),
            row: row.to_vec(),
        }));
    }
    events.extend(sets[0].states.iter().map(|state| Event::Write {
        set: 0,
        state: state.to_vec(),
    }));
    events
}

/// The visit of a set is that of its parts.
#[test]
fn visit_of_parts() {
    let mut set = posted("launch", &[0, 0], &[1], 9);
    let RuleSet {
        image,
        mut state,
        mut paused,
        ..
    } = set.clone();
    for _ in 0..4 {
        let parts = visit(&mut paused, &image, &mut state, 9);
        assert_eq!(set.visit(), parts);
        assert_eq!((&set.state, &set.paused), (&state, &paused));
    }
}
