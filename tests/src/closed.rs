//! The closed profile against the model's, on the images of generated texts, products at the limit, rules that refuse one scan only, and
//! damaged and random images; then combinations by their numbers, with lengths right and wrong, and the profile in parts.

use crate::compare::{fence, hex, Options, Table};
use crate::shrink::{shrink, smaller_bytes};
use rolvenko_model::features::in_force;
use rolvenko_model::generate::{
    damaged_image, limit_product, one_refused, profile_image, random_bytes, random_image, timer_image, unsound_images, Rng,
};
use rolvenko_model::{check_detail, read_text, write_image, IMAGE_LIMIT};

/// What is lent to the two calls: an image, and for a combination its number and two lengths.
#[derive(Clone)]
struct Call {
    image: Vec<u8>,
    index: u32,
    names: usize,
    inputs: usize,
}

/// Number and place of both answers, 0 at 0 for a success; the state and the row left; whether the fences and the image stay.
#[derive(PartialEq, Debug)]
struct Left {
    closed: (u8, usize),
    combination: (u8, usize),
    state: Vec<i32>,
    row: Vec<i32>,
    rest_stays: bool,
}

const FENCE: i32 = 0x5A5A_5A5A;

/// What stands in a state or row before the call.
fn found(length: usize) -> Vec<i32> {
    (0..length as i32).map(|k| 1_000_003 * k - 7).collect()
}

impl Call {
    fn by_archive(&self) -> Left {
        let image = fence(&self.image, 0x5A);
        let (mut state, mut row) = (fence(&found(self.names), FENCE), fence(&found(self.inputs), FENCE));
        let lent = image.read(self.image.len());
        let closed = rolvenko::closed(lent);
        let combination = rolvenko::combination(lent, self.index, state.write(self.names), row.write(self.inputs));
        let (state_left, row_left) = (state.read(self.names).to_vec(), row.read(self.inputs).to_vec());
        let fences = state == fence(&state_left, FENCE) && row == fence(&row_left, FENCE);
        Left {
            closed: closed.map_or_else(|r| (r.number, r.place), |()| (0, 0)),
            combination: combination.map_or_else(|r| (r.number, r.place), |()| (0, 0)),
            state: state_left,
            row: row_left,
            rest_stays: fences && image == fence(&self.image, 0x5A),
        }
    }

    fn by_model(&self) -> Left {
        let (mut state, mut row) = (found(self.names), found(self.inputs));
        let closed = rolvenko_model::closed(&self.image);
        let combination = rolvenko_model::write_combination(&self.image, self.index, &mut state, &mut row);
        Left {
            closed: closed.map_or_else(|n| (n.refusal.number, n.refusal.place), |()| (0, 0)),
            combination: combination.map_or_else(|r| (r.number, r.place), |()| (0, 0)),
            state,
            row,
            rest_stays: true,
        }
    }

    fn differs(&self) -> bool {
        self.by_archive() != self.by_model()
    }

    fn smaller(&self) -> Vec<Call> {
        let bytes = smaller_bytes(&self.image).into_iter().map(|image| Call { image, ..self.clone() });
        let index = [0, self.index / 2, self.index.saturating_sub(1)].into_iter().filter(|&k| k != self.index);
        bytes.chain(index.map(|index| Call { index, ..self.clone() })).collect()
    }
}

/// One call; answers the number and place of the closed profile.
fn compare(call: &Call, table: &mut Table) -> Result<(u8, usize), String> {
    let wanted = call.by_model();
    if call.by_archive() != wanted {
        let small = shrink(call, Call::smaller, Call::differs);
        return Err(format!(
            "image {}\nindex {}, lengths {} and {}\narchive {:?}\nmodel   {:?}",
            hex(&small.image),
            small.index,
            small.names,
            small.inputs,
            small.by_archive(),
            small.by_model()
        ));
    }
    table.count(format!("closed {:>2}, combination {:>2}", wanted.closed.0, wanted.combination.0));
    Ok(wanted.closed)
}

/// The lengths that the image wants, or any.
fn lengths(image: &[u8]) -> (usize, usize) {
    check_detail(image).map_or((2, 1), |header| (header.state_length(), header.row_length()))
}

/// Number and place of an answer, 0 at 0 for a success.
fn told(answer: Result<(), rolvenko::Refusal>) -> (u8, usize) {
    answer.map_or_else(|r| (r.number, r.place), |()| (0, 0))
}

/// A part of the profile, from a number on.
fn part(image: &[u8], first: usize, most: usize, table: &mut Table) -> Result<(u8, usize), String> {
    let lent = fence(image, 0x5A);
    let archive = told(rolvenko::closed_part(lent.read(image.len()), first, most));
    let model = rolvenko_model::closed_part(image, first, most).map_or_else(|r| (r.number, r.place), |()| (0, 0));
    if archive != model || lent != fence(image, 0x5A) {
        return Err(format!("image {}\npart of {most} from {first}\narchive {archive:?}\nmodel   {model:?}", hex(image)));
    }
    table.count(format!("part {:>2}", model.0));
    Ok(archive)
}

/// Parts at random: each against the model, and in turn, up to a refusal, against the whole.
fn parts(rng: &mut Rng, image: &[u8], closed: (u8, usize), table: &mut Table) -> Result<(), String> {
    let scans = count(image) as usize;
    let near = |rng: &mut Rng| rng.below(scans + 2);
    for (first, most) in [(near(rng), near(rng)), (closed.1, near(rng)), (near(rng), usize::MAX), (rng.bits() as usize, rng.bits() as usize)] {
        part(image, first, most, table)?;
    }
    let (mut first, mut answer) = (0, (0, 0));
    let largest = 1 + near(rng).max(scans / 50);
    while first < 65_536 && answer.0 == 0 {
        let most = 1 + rng.below(largest);
        answer = told(rolvenko::closed_part(image, first, most));
        first = if first < scans { first + most } else { 65_536 };
    }
    if answer != closed {
        return Err(format!("image {}\nparts in turn {answer:?}, the whole {closed:?}", hex(image)));
    }
    Ok(())
}

/// The profile of an image with the combination at its refused scan; then wrong lengths, and numbers at and past the last; then parts.
fn profile(rng: &mut Rng, image: &[u8], table: &mut Table) -> Result<(u8, usize), String> {
    let (names, inputs) = lengths(image);
    let call = Call { image: image.to_vec(), index: 0, names, inputs };
    let closed = compare(&call, table)?;
    let at = closed.1 as u32;
    let wrong = rng.below(3);
    compare(&Call { index: at, ..call.clone() }, table)?;
    compare(&Call { index: at, names: names + wrong, inputs: inputs + 1 - wrong.min(1), ..call.clone() }, table)?;
    let scans = count(image);
    for index in [scans.wrapping_sub(1), scans, rng.bits() as u32 % scans.max(1), rng.bits() as u32] {
        compare(&Call { index, ..call.clone() }, table)?;
    }
    parts(rng, image, closed, table)?;
    Ok(closed)
}

/// How many combinations there are, as far as the model numbers them.
fn count(image: &[u8]) -> u32 {
    let (mut within, mut past) = (0, 65_537);
    if rolvenko_model::combination(image, 0).is_err() {
        return 0;
    }
    while past - within > 1 {
        let middle = (within + past) / 2;
        match rolvenko_model::combination(image, middle) {
            Ok(_) => within = middle,
            Err(_) => past = middle,
        }
    }
    within + 1
}

/// A text, the number of its closed profile and its place.
type Worked = (String, u8, usize);

/// Texts whose answers were worked out by hand.
fn worked() -> Vec<Worked> {
    let whole = "-2147483648..2147483647";
    let adds = "input i 0..1; var v 0..3; v: GX(v = (_v + i));";
    let held = |inputs: &str, range: &str| format!("{inputs} var v {range}; v: GX(v = (_v));");
    let one = |condition: &str| {
        format!("var v 0..1; v: GX(~(v = _v) -> [{condition}] & v = (1)); v: GX(v = _v -> ~([{condition}]));")
    };
    vec![
        (String::new(), 0, 0),
        (one("_v = 0"), 0, 0),
        (one("1 = 1"), 27, 1),
        (adds.to_owned(), 27, 7),
        (adds.replace("_v + i", "(_v + i) mod 4"), 0, 0),
        ("input i 0..2; input j -1..1; var v 0..9; v: GX(v = (i / j));".to_owned(), 27, 1),
        (held("input i 0..255;", "0..0"), 0, 0),
        (held("input i 0..255;", "0..1"), 26, 0),
        (held("", "0..65535"), 0, 0),
        (held("", "0..65536"), 26, 0),
        (held("", whole), 26, 0),
        (format!("input i {whole}; input j {whole};"), 26, 0),
        ("var v 0..65536; v: GX(v = (1 / 0));".to_owned(), 26, 0),
        ("var v 0..65535; v: GX(v = (1 / 0));".to_owned(), 27, 0),
    ]
}

/// Calls that need no chance.
fn fixed(rng: &mut Rng, table: &mut Table) -> Result<(), String> {
    for (text, number, place) in worked() {
        let image = write_image(&read_text(text.as_bytes()).expect("an accepted text"));
        let found = profile(rng, &image, table)?;
        if found != (number, place) {
            return Err(format!("{text}\narchive and model {found:?}, wanted {:?}", (number, place)));
        }
    }
    for image in [&[0; IMAGE_LIMIT + 1][..], &[0, 0, 1, 0], &[0, 0], &[]] {
        profile(rng, image, table)?;
    }
    for unsound in unsound_images() {
        profile(rng, &unsound.image, table)?;
    }
    // "26 a timer", whatever the product
    for _ in 0..if in_force().timer_codes() { 50 } else { 0 } {
        let image = timer_image(rng);
        profile(rng, &image, table)?;
    }
    Ok(())
}

/// One refused scan in all: the pair that the archive names is that pair.
fn one_pair(rng: &mut Rng, table: &mut Table) -> Result<(), String> {
    let one = one_refused(rng);
    let image = write_image(&read_text(&one.text).expect("an accepted text"));
    let (number, place) = profile(rng, &image, table)?;
    let (mut state, mut row) = (vec![0; one.scan.state.len()], vec![0; one.scan.row.len()]);
    let written = rolvenko::combination(&image, place as u32, &mut state, &mut row).is_ok();
    let refusal = rolvenko::scan(&image, &mut state.clone(), &row).map_or_else(|r| r.number, |_| 0);
    if number != 27 || !written || (&state, &row, refusal) != (&one.scan.state, &one.scan.row, one.number) {
        let text = String::from_utf8_lossy(&one.text);
        return Err(format!("{text}\n{number} at {place}: {state:?} {row:?} {refusal}, wanted {:?} {}", one.scan, one.number));
    }
    Ok(())
}

pub fn run(options: &Options, table: &mut Table) -> Result<(), String> {
    let mut rng = Rng::new(options.seed);
    fixed(&mut rng, table)?;
    let since = table.started();
    while !options.spent(since, table.calls) {
        for _ in 0..20 {
            let image = profile_image(&mut rng);
            profile(&mut rng, &image, table)?;
            let damaged = damaged_image(&mut rng, &image);
            profile(&mut rng, &damaged, table)?;
            one_pair(&mut rng, table)?;
        }
        let exact = rng.chance(50);
        let image = limit_product(&mut rng, exact);
        profile(&mut rng, &image, table)?;
        let image = random_image(&mut rng);
        profile(&mut rng, &image, table)?;
        let bytes = random_bytes(&mut rng, 40);
        profile(&mut rng, &bytes, table)?;
    }
    Ok(())
}
