//! Start and scan against the model's, on sound, damaged and random images, states and rows of any length and any numbers.

use crate::compare::{deep_image, fence, hex, services, Options, Table};
use crate::shrink::{shrink, smaller_bytes, smaller_numbers};
use rolvenko_model::generate::{any_number, damaged_image, random_bytes, random_image, row, sound_image, state, unsound_images, Rng};
use rolvenko_model::{check_detail, Range};

/// An image with the ranges of its states and rows (of its undamaged form).
struct Subject {
    image: Vec<u8>,
    states: Vec<Range>,
    rows: Vec<Range>,
}

fn subject(rng: &mut Rng) -> Subject {
    let image = sound_image(rng);
    let header = check_detail(&image).expect("a sound image");
    Subject {
        image,
        states: header.state_ranges(),
        rows: header.row_ranges(),
    }
}

/// What is lent to a call. A start has no row.
#[derive(Clone)]
struct Call {
    image: Vec<u8>,
    state: Vec<i32>,
    row: Option<Vec<i32>>,
}

/// Number, place and steps of a refusal, or the steps; and the state left.
#[derive(PartialEq, Debug)]
struct Left {
    answer: Result<u32, (u8, usize, u32)>,
    state: Vec<i32>,
    lent_stays: bool,
}

const FENCE: i32 = 0x5A5A_5A5A;

impl Call {
    fn by_archive(&self) -> Left {
        let image = fence(&self.image, 0x5A);
        let mut state = fence(&self.state, FENCE);
        let row = fence(self.row.as_deref().unwrap_or(&[]), FENCE);
        let lent = image.read(self.image.len());
        let answer = match &self.row {
            None => services::start(lent, state.write(self.state.len())).map(|()| 0).map_err(|r| (r.number, r.place, 0)),
            Some(line) => services::scan(lent, state.write(self.state.len()), row.read(line.len()))
                .map_err(|r| (r.number, r.place, r.steps)),
        };
        let left = state.read(self.state.len()).to_vec();
        let row_stays = row == fence(self.row.as_deref().unwrap_or(&[]), FENCE);
        Left {
            answer,
            lent_stays: row_stays && image == fence(&self.image, 0x5A) && state == fence(&left, FENCE),
            state: left,
        }
    }

    fn by_model(&self) -> Left {
        let mut state = self.state.clone();
        let answer = match &self.row {
            None => rolvenko_model::start(&self.image, &mut state).map(|()| 0).map_err(|r| (r.number, r.place, 0)),
            Some(line) => rolvenko_model::scan(&self.image, &mut state, line).map_err(|r| (r.number, r.place, r.steps)),
        };
        Left {
            answer,
            state,
            lent_stays: true,
        }
    }

    fn differs(&self) -> bool {
        self.by_archive() != self.by_model()
    }

    fn smaller(&self) -> Vec<Call> {
        let images = smaller_bytes(&self.image).into_iter().map(|image| Call { image, ..self.clone() });
        let states = smaller_numbers(&self.state).into_iter().map(|state| Call { state, ..self.clone() });
        let rows = self.row.iter().flat_map(|row| smaller_numbers(row)).map(|row| Call {
            row: Some(row),
            ..self.clone()
        });
        images.chain(states).chain(rows).collect()
    }
}

fn compare(call: Call, table: &mut Table) -> Result<(), String> {
    let wanted = call.by_model();
    if call.by_archive() != wanted {
        let small = shrink(&call, Call::smaller, Call::differs);
        return Err(format!(
            "image {}\nstate found {:?}, row {:?}\narchive {:?}\nmodel   {:?}",
            hex(&small.image),
            small.state,
            small.row,
            small.by_archive(),
            small.by_model()
        ));
    }
    let service = if call.row.is_some() { "scan" } else { "start" };
    let number = wanted.answer.err().map_or(0, |(number, _, _)| number);
    table.count(format!("{service:<5} {number:>2}"));
    Ok(())
}

/// A start and a scan.
fn both(image: &[u8], state: &[i32], row: &[i32], table: &mut Table) -> Result<(), String> {
    for row in [None, Some(row.to_vec())] {
        compare(
            Call {
                image: image.to_vec(),
                state: state.to_vec(),
                row,
            },
            table,
        )?;
    }
    Ok(())
}

fn any_numbers(rng: &mut Rng, most: usize) -> Vec<i32> {
    (0..rng.below(most + 1)).map(|_| any_number(rng)).collect()
}

pub fn run(options: &Options, table: &mut Table) -> Result<(), String> {
    let mut rng = Rng::new(options.seed);
    for unsound in unsound_images() {
        both(&unsound.image, &[7; 3], &[0], table)?;
    }
    let since = table.started();
    while !options.spent(since, table.calls) {
        let subject = subject(&mut rng);
        for _ in 0..20 {
            let found = state(&mut rng, &subject.states);
            let line = row(&mut rng, &subject.rows);
            both(&subject.image, &found, &line, table)?;
            both(&damaged_image(&mut rng, &subject.image), &found, &line, table)?;
        }
        for _ in 0..5 {
            let (found, line) = (any_numbers(&mut rng, 5), any_numbers(&mut rng, 3));
            both(&random_image(&mut rng), &found, &line, table)?;
            both(&random_bytes(&mut rng, 40), &found, &line, table)?;
            let number = any_number(&mut rng);
            both(&deep_image(&mut rng), &[1, number % 9], &[1], table)?;
        }
    }
    Ok(())
}
