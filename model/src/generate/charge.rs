//! Inputs of the licence charge: images with licences to count, traces found by scans,
//! and bills near every limit.

use super::images::sound_image;
use super::states::{any_number, row};
use super::Rng;
use crate::check::{check_detail, Header};
use crate::machine::{scan, start};

/// What is lent for a licence charge beside the image.
#[derive(Clone, Debug)]
pub struct Bill {
    pub id: usize,
    pub trace: Vec<i32>,
    pub minutes: Vec<i32>,
    pub threshold: i32,
    pub rate: i32,
    pub rate_above: i32,
}

/// The sum of the first bill that is refused, in sixtieths of a cent.
pub const REFUSED_SUM: u128 = 60 << 53;

/// A sound image; nine in ten have a variable that can count licences.
pub fn licence_image(rng: &mut Rng) -> Vec<u8> {
    let any = rng.chance(10);
    loop {
        let image = sound_image(rng);
        if any || !counters(&header(&image)).is_empty() {
            return image;
        }
    }
}

fn header(image: &[u8]) -> Header {
    check_detail(image).expect("a sound image")
}

/// The variables whose low is not negative, by id.
pub fn counters(header: &Header) -> Vec<usize> {
    let variables = header.inputs..header.names;
    variables
        .filter(|&id| header.ranges()[id].low >= 0)
        .collect()
}

/// The trace of a sound image after `rows` rows, some of them refused: the states in turn.
pub fn found_trace(rng: &mut Rng, image: &[u8], rows: usize) -> Vec<i32> {
    let header = header(image);
    let inputs = header.row_ranges();
    let mut state = vec![0; header.state_length()];
    start(image, &mut state).expect("a sound image and a state of its length");
    let mut trace = state.clone();
    for _ in 0..rows {
        if scan(image, &mut state, &row(rng, &inputs)).is_ok() {
            trace.extend(&state);
        }
    }
    trace
}

/// A bill for a trace of whole states, all within the limits if the image has a variable
/// that can count and its traced values are not negative.
pub fn bill(rng: &mut Rng, header: &Header, trace: Vec<i32>) -> Bill {
    let counters = counters(header);
    let id = match counters.is_empty() {
        true => rng.below(header.names + 2),
        false => *rng.choose(&counters),
    };
    // Without names nothing lent is the start alone.
    let rows = (trace.len() / header.state_length().max(1)).saturating_sub(1);
    Bill {
        id,
        minutes: (0..rows).map(|_| minutes(rng)).collect(),
        threshold: threshold(rng, &trace),
        trace,
        rate: rate(rng),
        rate_above: rate(rng),
    }
}

fn minutes(rng: &mut Rng) -> i32 {
    match rng.below(6) {
        0 => *rng.choose(&[0, 1440]),
        1 => *rng.choose(&[1, 59, 60, 61, 1439]),
        _ => rng.between(0, 1440) as i32,
    }
}

fn rate(rng: &mut Rng) -> i32 {
    match rng.below(6) {
        0 => *rng.choose(&[0, 1_000_000]),
        1 => *rng.choose(&[1, 60, 999_999]),
        2 => rng.between(0, 99) as i32,
        _ => rng.between(0, 1_000_000) as i32,
    }
}

/// A threshold that is not negative: often a traced value, or next to one.
fn threshold(rng: &mut Rng, trace: &[i32]) -> i32 {
    match rng.below(6) {
        0 => 0,
        1 => *rng.choose(&[1, i32::MAX - 1, i32::MAX]),
        2 => rng.between(0, i32::MAX.into()) as i32,
        _ if trace.is_empty() => 2,
        _ => {
            let near = i64::from(*rng.choose(trace)) + rng.between(-1, 1);
            near.clamp(0, i32::MAX.into()) as i32
        }
    }
}

/// Numbers at the limits of 32 bits, and one next to each limit of a bill.
fn past_a_limit(rng: &mut Rng) -> i32 {
    match rng.below(3) {
        0 => -1,
        1 => *rng.choose(&[1440, 1441, 1_000_000, 1_000_001, i32::MIN, i32::MAX]),
        _ => any_number(rng),
    }
}

/// Changes one thing of a bill; it may stay within the limits.
pub fn mutate_bill(rng: &mut Rng, header: &Header, bill: &mut Bill) {
    match rng.below(10) {
        0 => bill.id = other_id(rng, header),
        1 => bill.threshold = past_a_limit(rng),
        2 => bill.rate = past_a_limit(rng),
        3 => bill.rate_above = past_a_limit(rng),
        4 => mutate_length(rng, &mut bill.minutes),
        5 if !bill.minutes.is_empty() => {
            let at = rng.below(bill.minutes.len());
            bill.minutes[at] = past_a_limit(rng);
        }
        6 => mutate_length(rng, &mut bill.trace),
        7 => mutate_states(rng, header.state_length(), bill),
        _ if !bill.trace.is_empty() => {
            let at = traced_place(rng, header.state_length(), bill);
            bill.trace[at] = past_a_limit(rng);
        }
        _ => bill.trace.push(any_number(rng)),
    }
}

/// A place of the trace: mostly one of the variable's own values.
fn traced_place(rng: &mut Rng, names: usize, bill: &Bill) -> usize {
    let any = rng.below(bill.trace.len());
    let own = (any - any % names.max(1)).saturating_add(bill.id);
    if rng.chance(70) && own < bill.trace.len() {
        own
    } else {
        any
    }
}

/// Any id: an input's, another variable's, none, or one that is right in its low bits.
fn other_id(rng: &mut Rng, header: &Header) -> usize {
    let near = rng.below(header.names + 2);
    match rng.below(4) {
        0 => usize::MAX - near,
        1 => near + (1 << *rng.choose(&[6, 7, 8, 16, 32])),
        _ => near,
    }
}

fn mutate_length(rng: &mut Rng, numbers: &mut Vec<i32>) {
    match rng.below(5) {
        0 => numbers.clear(),
        1 => numbers.truncate(rng.below(numbers.len() + 1)),
        2 => {
            numbers.pop();
        }
        _ => (0..1 + rng.below(3)).for_each(|_| numbers.push(rng.below(9) as i32)),
    }
}

/// A whole state more or less, now and then with its minutes.
fn mutate_states(rng: &mut Rng, names: usize, bill: &mut Bill) {
    let more = rng.chance(50);
    if more {
        bill.trace.extend((0..names).map(|_| rng.below(99) as i32));
    } else {
        bill.trace.truncate(bill.trace.len().saturating_sub(names));
    }
    if rng.chance(50) {
        return;
    }
    if more {
        bill.minutes.push(minutes(rng));
    } else {
        bill.minutes.pop();
    }
}

/// A sum, in sixtieths, near a limit: of the bill, of 63 or 64 bits, or where a sum could
/// be taken for a refusal.
pub fn limit_sum(rng: &mut Rng) -> u128 {
    let limit = match rng.below(6) {
        0 => 1 << *rng.choose(&[31, 32, 53, 56, 62, 63, 64, 65]),
        1 => (1 << 64) + (rng.bits() >> 8) as u128,
        2 => *rng.choose(&[9, 11, 12, 28, 29]) << 56,
        _ => REFUSED_SUM,
    };
    let past = match rng.below(4) {
        0 => rng.between(-61, 61),
        _ => rng.between(-1, 1),
    };
    limit.saturating_add_signed(past.into())
}

/// A bill within its limits whose rows make up just `sum` sixtieths, for an image whose
/// variable `id` can count.
pub fn bill_of(rng: &mut Rng, header: &Header, id: usize, sum: u128) -> Bill {
    let mut bill = Bill {
        id,
        trace: Vec::new(),
        minutes: Vec::new(),
        threshold: rng.between(1_000_000, 1 << 30) as i32,
        rate: 1,
        rate_above: *rng.choose(&[1_000_000, 999_999, 500_000]),
    };
    let first = rng.below(9) as i32;
    push_state(rng, header, &mut bill, first);
    let mut rest = sum;
    while rest > 0 {
        // Minutes below 2^11, 2^20 for the rate: a great part is left for later rows.
        let great = rest >> 40 > 0;
        let minutes = if great { minutes(rng) } else { 1 };
        let most = most_held(&bill, rest, minutes);
        let held = match great && rng.chance(40) {
            true => rng.between(i64::from(most / 2), most.into()) as i32,
            false => most,
        };
        bill.minutes.push(minutes);
        push_state(rng, header, &mut bill, held);
        let (up_to, above) = (held.min(bill.threshold), (held - bill.threshold).max(0));
        let hour = up_to as u128 + above as u128 * bill.rate_above as u128;
        rest -= hour * minutes as u128;
    }
    bill
}

/// The most licences whose row is not over `rest` sixtieths. For one minute and a `rest`
/// up to the threshold that is `rest` itself.
fn most_held(bill: &Bill, rest: u128, minutes: i32) -> i32 {
    let Some(hour) = rest.checked_div(minutes as u128) else {
        return i32::MAX;
    };
    let up_to = hour.min(bill.threshold as u128);
    let above = (hour - up_to) / bill.rate_above as u128;
    (up_to + above).min(i32::MAX as u128) as i32
}

/// A state with so many licences and any other values.
fn push_state(rng: &mut Rng, header: &Header, bill: &mut Bill, held: i32) {
    for id in 0..header.state_length() {
        let value = if id == bill.id { held } else { any_number(rng) };
        bill.trace.push(value);
    }
}
