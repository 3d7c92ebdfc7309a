//! Images that are not sound, or may not be.

use super::pairs::{broken_pairs, more_codes, pick_codes};
use super::text::{text, Shape};
use super::timers::{self, broken_timers, sound_timer_image, timer_image};
use super::Rng;
use crate::check::Breach;
use crate::image::{code, code_start, decode, operands, write_image};
use crate::{read_text, HELD, IMAGE_LIMIT};

/// An unsound image with the sentence of "Sound:" that it breaks and the place.
#[derive(Clone, Debug)]
pub struct Unsound {
    pub breach: Breach,
    pub place: usize,
    pub image: Vec<u8>,
}

/// Header of one input and two variables, each 0..1 with start 0: 11 bytes.
const HEADER: [u8; 11] = [1, 2, 0, 2, 0, 0, 2, 0, 0, 2, 0];
/// `1 = 1`, gate, then constant 1.
const CASE: [u8; 8] = [1, 2, 1, 2, 10, 19, 1, 2];

/// Hand-made images, at least one of each kind.
pub fn unsound_images() -> Vec<Unsound> {
    let mut list = Vec::new();
    for (breach, place, image) in headers() {
        list.push(Unsound {
            breach,
            place,
            image,
        });
    }
    for (breach, back, code) in codes() {
        let image = [&HEADER[..], &code].concat();
        let place = image.len() - back;
        list.push(Unsound {
            breach,
            place,
            image,
        });
    }
    list
}

/// Broken headers with their places.
fn headers() -> Vec<(Breach, usize, Vec<u8>)> {
    use Breach::*;
    vec![
        (TooLong, 0, vec![0; IMAGE_LIMIT + 1]),
        (Missing, 0, vec![]),
        (Missing, 1, vec![0]),
        (BadNumber, 0, vec![0x80]),
        (BadNumber, 0, vec![0x80, 0x00]),
        (BadNumber, 1, vec![0, 0x81]),
        (BadNumber, 1, vec![0, 0x81, 0x80, 0x80, 0x80, 0x80, 0x01]),
        (TooManyNames, 0, vec![65, 0]),
        (TooManyNames, 0, vec![0x80, 0x01, 0]),
        (TooManyNames, 1, vec![1, 64]),
        (TooManyNames, 1, vec![64, 1]),
        (TooManyNames, 1, vec![0, 255, 255, 255, 255, 127]),
        (Missing, 2, vec![1, 0]),
        (Missing, 3, vec![1, 0, 0]),
        (Missing, 4, vec![0, 1, 0, 2]),
        (BadNumber, 3, vec![1, 0, 0, 0x82]),
        (BadNumber, 4, vec![1, 0, 0, 2, 0x80, 0x00]),
        (BadRange, 2, vec![1, 0, 128, 128, 128, 128, 16, 2, 0]),
        (BadRange, 3, vec![1, 0, 0, 128, 128, 128, 128, 16, 0]),
        (BadRange, 4, vec![1, 0, 0, 2, 128, 128, 128, 128, 16]),
        (BadRange, 3, vec![1, 0, 2, 0, 0]),
        (BadRange, 4, vec![1, 0, 0, 2, 4]),
        (BadRange, 4, vec![1, 0, 0, 2, 1]),
    ]
}

/// Code after `HEADER`: breach, how far before the end of the image, code.
type BrokenCode = (Breach, usize, Vec<u8>);

fn codes() -> Vec<BrokenCode> {
    let mut list = sorts();
    list.extend(numbers());
    list.extend(ids());
    list.extend(held());
    list.extend(order());
    list.extend(intruders());
    list.extend(missing());
    list.extend(broken_pairs(&CASE));
    list.extend(broken_timers(&CASE));
    list
}

/// `CASE` and what follows it.
fn case(tail: &[u8]) -> Vec<u8> {
    [&CASE[..], tail].concat()
}

fn sorts() -> Vec<BrokenCode> {
    let wrong: [&[u8]; 10] = [
        &[4],
        &[1, 0, 4],
        &[9],
        &[1, 0, 10],
        &[1, 0, 16],
        &[1, 0, 1, 0, 17],
        &[1, 0, 1, 0, 10, 9],
        &[1, 0, 1, 0, 10, 1, 0, 12],
        &[1, 0, 1, 0, 10, 18],
        &[1, 0, 1, 0, 1, 0, 10, 18],
    ];
    wrong
        .iter()
        .map(|code| (Breach::WrongSort, 1, code.to_vec()))
        .collect()
}

fn numbers() -> Vec<BrokenCode> {
    use Breach::*;
    vec![
        (BadConstant, 6, vec![1, 128, 128, 128, 128, 16]),
        (BadConstant, 6, vec![1, 255, 255, 255, 255, 127]),
        (BadNumber, 1, vec![1]),
        (BadNumber, 3, vec![1, 128, 0]),
        (BadNumber, 2, vec![2, 128]),
        (BadNumber, 7, vec![1, 128, 128, 128, 128, 128, 1]),
        (BadNumber, 3, case(&[20, 129, 0])),
        (UnknownCode, 1, vec![0]),
        (UnknownCode, 1, vec![26]),
        (UnknownCode, 1, vec![255]),
    ]
}

fn ids() -> Vec<BrokenCode> {
    use Breach::*;
    vec![
        (UnknownId, 2, vec![2, 3]),
        (UnknownId, 2, vec![3, 3]),
        (UnknownId, 3, vec![3, 128, 1]),
        (UnknownId, 2, case(&[20, 3])),
        (UnknownId, 2, vec![1, 0, 21, 3]),
        (UnknownId, 2, vec![22, 64]),
        (InputSet, 2, vec![1, 2, 21, 0]),
        (InputSet, 2, case(&[20, 0])),
        (InputSet, 2, vec![22, 0]),
        (CurrentTooEarly, 2, vec![2, 1]),
        (CurrentTooEarly, 2, case(&[2, 1])),
        (CurrentTooEarly, 2, case(&[20, 1, 2, 1])),
    ]
}

fn held() -> Vec<BrokenCode> {
    use Breach::*;
    vec![
        (TooManyHeld, 2, [1, 0].repeat(HELD + 1)),
        (TooManyHeld, 2, [2, 0].repeat(HELD + 1)),
        (TooManyHeld, 2, [3, 0].repeat(HELD + 1)),
        (GateHeld, 1, vec![19]),
        (GateHeld, 1, vec![1, 0, 19]),
        (GateHeld, 1, vec![1, 0, 1, 0, 1, 0, 10, 19]),
        (PickLetHeld, 2, vec![1, 2, 1, 2, 10, 19, 20, 1]),
        (PickLetHeld, 2, case(&[1, 2, 20, 1])),
        (PickLetHeld, 2, vec![21, 1]),
        (PickLetHeld, 2, vec![1, 2, 1, 2, 21, 1]),
        (PickLetHeld, 2, vec![1, 2, 1, 2, 10, 21, 1]),
        (SettleHeld, 2, case(&[20, 1, 1, 2, 22, 1])),
    ]
}

fn order() -> Vec<BrokenCode> {
    use Breach::*;
    let other_pick = [&[20, 1], &CASE[..], &[20, 2]].concat();
    let late_pick = [&[20, 1, 22, 1], &CASE[..], &[20, 1]].concat();
    let pick_after_let = [&[1, 2, 21, 1], &CASE[..], &[20, 1]].concat();
    vec![
        (PickWithoutGate, 2, vec![1, 2, 20, 1]),
        (PickWithoutGate, 2, case(&[20, 1, 1, 2, 20, 1])),
        (SettleWithoutPick, 2, vec![22, 1]),
        (BetweenPickAndSettle, 2, case(&[20, 1, 1, 2, 21, 1])),
        (BetweenPickAndSettle, 2, case(&[20, 1, 1, 2, 21, 2])),
        (BetweenPickAndSettle, 2, case(&[20, 1, 22, 2])),
        (BetweenPickAndSettle, 2, case(&other_pick)),
        (SettledAgain, 2, vec![1, 2, 21, 1, 1, 2, 21, 1]),
        (SettledAgain, 2, vec![1, 2, 21, 1, 22, 1]),
        (SettledAgain, 2, case(&[20, 1, 22, 1, 22, 1])),
        (SettledAgain, 2, case(&[20, 1, 22, 1, 1, 2, 21, 1])),
        (SettledAgain, 2, case(&late_pick)),
        (SettledAgain, 2, pick_after_let),
    ]
}

/// Every code but 1 to 9 and pick, between a gate and its pick.
fn intruders() -> Vec<BrokenCode> {
    let mut list = Vec::new();
    for opcode in (10..=19).chain(21..=22) {
        let number = vec![1; operands(opcode)];
        let tail = [&[1, 2, opcode], &number[..]].concat();
        list.push((Breach::BetweenGateAndPick, 1 + number.len(), case(&tail)));
    }
    list
}

fn missing() -> Vec<BrokenCode> {
    let unfinished = [
        vec![],
        vec![1, 2, 21, 1],
        vec![1, 2, 21, 1, 1, 2],
        vec![1, 2, 21, 1, 1, 2, 21, 2, 1, 0],
        case(&[]),
        case(&[20, 1]),
        case(&[20, 1, 22, 1]),
        [&[1, 2, 21, 1], &CASE[..], &[20, 2]].concat(),
        [&[1, 2, 21, 1, 1, 2, 21, 2], &CASE[..]].concat(),
        [&[1, 2, 21, 1, 1, 2, 21, 2], &CASE[..6]].concat(),
    ];
    unfinished
        .into_iter()
        .map(|code| (Breach::Missing, 0, code))
        .collect()
}

/// The image of a random accepted text or, where images have timers, now and then one that no
/// text has: timers of any ids, in any order of the code.
pub fn sound_image(rng: &mut Rng) -> Vec<u8> {
    if timers::in_images() && rng.chance(25) {
        return sound_timer_image(rng);
    }
    let shape = match rng.below(20) {
        0 => Shape::MANY,
        _ => Shape::any(rng),
    };
    let source = text(rng, shape);
    write_image(&read_text(&source).expect("an accepted text"))
}

/// A sound image with some change of bytes or of instructions. It may stay sound.
pub fn damaged_image(rng: &mut Rng, image: &[u8]) -> Vec<u8> {
    let mut damaged = image.to_vec();
    for _ in 0..1 + rng.below(2) {
        if rng.chance(50) {
            damage_bytes(rng, &mut damaged);
        } else {
            damage_instructions(rng, &mut damaged);
        }
    }
    damaged
}

fn damage_bytes(rng: &mut Rng, image: &mut Vec<u8>) {
    let at = rng.below(image.len() + 1);
    let byte = any_byte(rng);
    match rng.below(6) {
        0 => image.truncate(at),
        1 if at < image.len() => {
            image.remove(at);
        }
        2 if at < image.len() => image[at] = byte,
        3 if at < image.len() => image[at] ^= 1 << rng.below(8),
        4 => image.push(byte),
        _ => image.insert(at, byte),
    }
}

/// A byte, mostly a code byte.
fn any_byte(rng: &mut Rng) -> u8 {
    if rng.chance(70) {
        rng.below(24 + more_codes().len()) as u8
    } else {
        rng.bits() as u8
    }
}

/// Places of the instructions, with the end of the last.
fn places(image: &[u8]) -> Vec<usize> {
    let Some(mut at) = code_start(image) else {
        return Vec::new();
    };
    let mut list = vec![at];
    while let Some(instruction) = decode(&image[at..]) {
        at += instruction.length;
        list.push(at);
    }
    list
}

/// Removes, repeats, exchanges or replaces whole instructions.
fn damage_instructions(rng: &mut Rng, image: &mut Vec<u8>) {
    let places = places(image);
    if places.len() < 2 {
        image.extend(any_instruction(rng));
        return;
    }
    let index = rng.below(places.len() - 1);
    let other = rng.below(places.len() - 1);
    let span = places[index]..places[index + 1];
    let copy = image[places[other]..places[other + 1]].to_vec();
    match rng.below(5) {
        0 => {
            image.drain(span);
        }
        1 => {
            image.splice(span, copy);
        }
        2 => {
            image.splice(span.start..span.start, copy);
        }
        3 => {
            image.splice(span, any_instruction(rng));
        }
        _ => {
            image.splice(span.start..span.start, any_instruction(rng));
        }
    }
}

fn any_instruction(rng: &mut Rng) -> Vec<u8> {
    let listed: Vec<u8> = (1..=22).chain(more_codes()).collect();
    let opcode = *rng.choose(&listed);
    let mut bytes = vec![opcode];
    for _ in 0..operands(opcode) {
        bytes.push(rng.below(4) as u8);
    }
    bytes
}

/// An image made of a header and random instructions, some of them in the order of a
/// rule. Few are sound.
pub fn random_image(rng: &mut Rng) -> Vec<u8> {
    if timers::in_images() && rng.chance(30) {
        return timer_image(rng);
    }
    let inputs = rng.below(3) as u8;
    let variables = rng.below(3) as u8;
    let mut image = vec![inputs, variables];
    for _ in 0..inputs + variables {
        // Low 0 or -1, high 2, start 0, or now and then -1, 1, -2 or 2.
        let start = if rng.chance(10) { rng.below(5) } else { 0 };
        image.extend([rng.below(2) as u8, 4, start as u8]);
    }
    for variable in inputs..inputs + variables {
        random_rule(rng, variable, inputs + variables, &mut image);
    }
    image
}

/// Instructions of a rule for `variable`, now and then with another id.
fn random_rule(rng: &mut Rng, variable: u8, names: u8, image: &mut Vec<u8>) {
    let id = |rng: &mut Rng| {
        if rng.chance(15) {
            rng.below(usize::from(names) + 1) as u8
        } else {
            variable
        }
    };
    match rng.below(4) {
        0 => image.extend([code::CONSTANT, 2, code::LET, id(rng)]),
        1 => image.extend([code::PREVIOUS, id(rng), code::NEGATE, code::LET, id(rng)]),
        2 if rng.chance(30) => image.extend(any_instruction(rng)),
        _ => {
            let count = 1 + rng.below(3);
            for pick in pick_codes(rng, count) {
                image.extend(CASE);
                image.extend([pick, id(rng)]);
            }
            image.extend([code::SETTLE, id(rng)]);
        }
    }
}
