//! Every answer from 0 (no refusal) to 18 is met by the generators.

mod common;

use common::landed_and_all;
use rolvenko_model::features::in_force;
use std::collections::BTreeMap;

use rolvenko_model::generate::{
    damaged_image, limit_texts, mutated_text, random_bytes, random_image, row, state, text,
    token_soup, trace_input, unsound_images, Rng, Shape,
};
use rolvenko_model::{check, check_detail, read_text, scan, start, trace, translate, write_image};
use rolvenko_model::{Breach, Program};

#[derive(Default)]
struct Counts {
    translate: [usize; 31],
    check: [usize; 31],
    start: [usize; 31],
    scan: [usize; 31],
    breaches: BTreeMap<Breach, usize>,
}

impl Counts {
    fn text(&mut self, rng: &mut Rng, text: &[u8]) {
        let size = if rng.chance(10) {
            rng.below(40)
        } else {
            65_536
        };
        let mut buffer = vec![0; size];
        let answer = translate(text, &mut buffer).err();
        self.translate[answer.map_or(0, |refusal| refusal.number) as usize] += 1;
        if let Some(refusal) = answer {
            assert!(refusal.place <= text.len());
        }
    }

    fn image(&mut self, rng: &mut Rng, image: &[u8], program: &Program) {
        let answer = check(image).err();
        self.check[answer.map_or(0, |refusal| refusal.number) as usize] += 1;
        if let Err(fault) = check_detail(image) {
            *self.breaches.entry(fault.breach).or_default() += 1;
            assert!(fault.place <= image.len());
        }
        let ranges = program.state_ranges();
        let mut lent = state(rng, &ranges);
        let row = row(rng, &program.row_ranges());
        let answer = scan(image, &mut lent, &row).err();
        self.scan[answer.map_or(0, |refusal| refusal.number) as usize] += 1;
        let answer = start(image, &mut lent).err();
        self.start[answer.map_or(0, |refusal| refusal.number) as usize] += 1;
    }
}

fn texts(counts: &mut Counts) {
    for seed in 0..30_000 {
        let mut rng = Rng::new(10_000_000 + seed);
        let shape = Shape::any(&mut rng);
        let bytes = match seed % 8 {
            0 => text(&mut rng, shape),
            1 => token_soup(&mut rng, 12),
            2 => random_bytes(&mut rng, 12),
            _ => mutated_text(&mut rng, shape),
        };
        counts.text(&mut rng, &bytes);
    }
    for limit in limit_texts() {
        counts.text(&mut Rng::new(0), &limit.text);
    }
}

fn images(counts: &mut Counts) {
    for seed in 0..20_000 {
        let mut rng = Rng::new(20_000_000 + seed);
        let shape = Shape::any(&mut rng);
        let text = text(&mut rng, shape);
        let program = read_text(&text).expect("accepted text");
        let sound = write_image(&program);
        let image = match seed % 4 {
            0 => random_image(&mut rng),
            1 | 2 => damaged_image(&mut rng, &sound),
            _ => sound,
        };
        counts.image(&mut rng, &image, &program);
    }
    let empty = read_text(b"").expect("accepted text");
    for unsound in unsound_images() {
        counts.image(&mut Rng::new(0), &unsound.image, &empty);
    }
}

#[test]
fn every_answer_is_met() {
    landed_and_all(every_answer_is_met_in_force);
}

fn every_answer_is_met_in_force() {
    let mut counts = Counts::default();
    texts(&mut counts);
    images(&mut counts);
    println!("translate {:?}", counts.translate);
    println!("check {:?}", counts.check);
    println!("start {:?}", counts.start);
    println!("scan {:?}", counts.scan);
    println!("breaches {:?}", counts.breaches);
    for number in 0..=10 {
        assert!(counts.translate[number] > 5, "translate {number}");
    }
    for number in [0, 9, 11] {
        assert!(counts.check[number] > 0, "check {number}");
    }
    for number in [0, 9, 11, 12] {
        assert!(counts.start[number] > 0, "start {number}");
    }
    for number in (9..=18).filter(|&number| number != 10).chain([0]) {
        assert!(counts.scan[number] > 0, "scan {number}");
    }
    let features = in_force();
    assert_eq!(
        counts.breaches.len(),
        Breach::Missing as usize
            + 1
            + usize::from(features.pair_codes())
            + 2 * usize::from(features.timer_codes())
    );
    assert_eq!(counts.scan[22] > 0, features.pair_codes());
    // Each number belongs to the services that the document names, to no others.
    assert_eq!(counts.translate[11..23].iter().sum::<usize>(), 0);
    assert_eq!(counts.translate[23] > 0, features.timers);
    assert_eq!(counts.translate[24..30].iter().sum::<usize>(), 0);
    assert_eq!(counts.translate[30] > 0, features.watches);
    assert_eq!(counts.scan[1..9].iter().sum::<usize>() + counts.scan[10], 0);
    assert_eq!(counts.start[13..].iter().sum::<usize>(), 0);
    assert_eq!(counts.check[12..].iter().sum::<usize>(), 0);
}

/// The trace program on random inputs: its lines are those of the scans.
#[test]
fn trace_program() {
    landed_and_all(trace_program_in_force);
}

fn trace_program_in_force() {
    let mut results = BTreeMap::new();
    for seed in 0..2000 {
        let mut rng = Rng::new(30_000_000 + seed);
        let shape = Shape::any(&mut rng);
        let text = text(&mut rng, shape);
        let program = read_text(&text).expect("accepted text");
        let input = trace_input(&mut rng, &text, &program.row_ranges(), 6);
        let printed = String::from_utf8(trace(&input)).expect("ASCII");
        assert!(printed.ends_with('\n'));
        let mut before: Vec<&str> = Vec::new();
        for (index, line) in printed.lines().enumerate() {
            let fields: Vec<&str> = line.split(' ').collect();
            assert_eq!(fields.len(), program.names.len() + 2);
            if index == 0 {
                continue;
            }
            assert_eq!(fields[0], (index - 1).to_string());
            let result: u8 = fields[fields.len() - 1].parse().expect("number");
            let values = &fields[1..fields.len() - 1];
            if result != 0 {
                assert_eq!(values, &before[..], "a refused row keeps the state");
            }
            before = values.to_vec();
            *results.entry(result).or_insert(0) += 1;
        }
    }
    println!("lines by result: {results:?}");
    let mut wanted = vec![0, 12, 13, 14, 15, 16, 17];
    wanted.extend(in_force().pairs.then_some(22));
    let numbers: Vec<u8> = results.keys().copied().collect();
    assert_eq!(numbers, wanted);
}
