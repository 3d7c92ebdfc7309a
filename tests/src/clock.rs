//! The farm clock against the model's, on texts with and without the names that it fills, tables and minutes near every limit, rows of
//! any length.

use crate::compare::{fence, Options, Table};
use crate::shrink::{nearer_zero, shrink, smaller_bytes, smaller_numbers, smaller_rules};
use rolvenko_model::generate::{
    any_number, broken_table, clock_text, farm_table, limit_texts, mutated_clock_text, random_bytes, token_soup, utc_minute, Rng,
};
use rolvenko_model::read_text;

/// What is lent to a call; the farm table is the UTC minute and the offset of each entry in turn.
#[derive(Clone)]
struct Call {
    text: Vec<u8>,
    farm: Vec<i64>,
    utc: i64,
    row: Vec<i32>,
}

/// The answer, and what a call leaves.
#[derive(PartialEq, Debug)]
struct Left {
    answer: Result<(), (u8, usize)>,
    row: Vec<i32>,
    lent_stays: bool,
}

const FENCE: i32 = 0x5A5A_5A5A;
const FARM_FENCE: i64 = 0x5A5A_5A5A;

impl Call {
    fn by_archive(&self) -> Left {
        let text = fence(&self.text, 0x5A);
        let farm = fence(&self.farm, FARM_FENCE);
        let mut row = fence(&self.row, FENCE);
        let line = row.write(self.row.len());
        let answer = rolvenko::clock(text.read(self.text.len()), farm.read(self.farm.len()), self.utc, line);
        let left = row.read(self.row.len()).to_vec();
        let read_stays = text == fence(&self.text, 0x5A) && farm == fence(&self.farm, FARM_FENCE);
        Left {
            answer: answer.map_err(|r| (r.number, r.place)),
            lent_stays: read_stays && row == fence(&left, FENCE),
            row: left,
        }
    }

    fn by_model(&self) -> Left {
        let mut row = self.row.clone();
        let answer = rolvenko_model::clock(&self.text, &self.farm, self.utc, &mut row).map_err(|r| (r.number, r.place));
        Left {
            answer,
            row,
            lent_stays: true,
        }
    }

    fn differs(&self) -> bool {
        self.by_archive() != self.by_model()
    }

    fn smaller(&self) -> Vec<Call> {
        let inputs = (0..self.row.len()).map(|at| self.without_input(at));
        let texts = smaller_rules(&self.text).into_iter().chain(smaller_bytes(&self.text)).map(|text| Call { text, ..self.clone() });
        let entries = (0..self.farm.len() / 2).map(|at| [&self.farm[..2 * at], &self.farm[2 * at + 2..]].concat());
        let farms = entries.chain(smaller_numbers(&self.farm)).map(|farm| Call { farm, ..self.clone() });
        let minutes = nearer_zero(self.utc).into_iter().map(|utc| Call { utc, ..self.clone() });
        let rows = smaller_numbers(&self.row).into_iter().map(|row| Call { row, ..self.clone() });
        inputs.chain(texts).chain(farms).chain(self.moved()).chain(minutes).chain(rows).collect()
    }

    /// Without a statement of the text and its value of the row.
    fn without_input(&self, at: usize) -> Call {
        let mut call = self.clone();
        let statements = self.text.split_inclusive(|&b| b == b';').enumerate();
        call.text = statements.filter(|(index, _)| *index != at).flat_map(|(_, s)| s.to_vec()).collect();
        call.row.remove(at);
        call
    }

    /// All minutes moved by as much as brings the minute to be filled nearer to 0; the table's stay that would fall below 0.
    fn moved(&self) -> Vec<Call> {
        let move_to = |utc: i64| {
            let mut call = Call { utc, ..self.clone() };
            for minute in call.farm.iter_mut().step_by(2) {
                let moved = minute.wrapping_add(utc.wrapping_sub(self.utc));
                *minute = if moved < 0 { *minute } else { moved };
            }
            call
        };
        nearer_zero(self.utc).into_iter().map(move_to).collect()
    }
}

/// The model's answer, as the table names it: the number, and `again` where a success fills it.
fn name(call: &Call, left: &Left) -> String {
    if let Err((number, _)) = left.answer {
        return format!("{number:>2}");
    }
    let program = read_text(&call.text).expect("a success has an accepted text");
    let inputs = &program.names[..program.inputs];
    match inputs.iter().position(|input| input.spelling == b"again") {
        Some(at) => format!(" 0, again {}", left.row[at]),
        None => " 0, again not filled".to_owned(),
    }
}

fn compare(call: &Call, table: &mut Table) -> Result<(), String> {
    let wanted = call.by_model();
    if call.by_archive() != wanted {
        let small = shrink(call, Call::smaller, Call::differs);
        return Err(format!(
            "text {:?}\ntable {:?}, UTC minute {}, row found {:?}\narchive {:?}\nmodel   {:?}",
            String::from_utf8_lossy(&small.text),
            small.farm,
            small.utc,
            small.row,
            small.by_archive(),
            small.by_model()
        ));
    }
    table.count(name(call, &wanted));
    Ok(())
}

/// A row for this text, now and then of a wrong length.
fn row(rng: &mut Rng, text: &[u8]) -> Vec<i32> {
    let wanted = read_text(text).map_or(2, |program| program.row_length());
    let length = match rng.below(40) {
        0 => 0,
        1 => wanted + 1,
        2 => wanted.saturating_sub(1),
        3 => rng.below(70),
        _ => wanted,
    };
    (0..length).map(|_| any_number(rng)).collect()
}

/// 64 inputs, the names that are filled from the place `first` on.
fn most_inputs(first: usize) -> Vec<u8> {
    let filled = ["day", "minute", "again"];
    let name = |id: usize| match id.checked_sub(first).and_then(|k| filled.get(k)) {
        Some(name) => name.to_string(),
        None => format!("n{id}"),
    };
    (0..64).map(|id| format!("input {} 0..1;", name(id))).collect::<String>().into_bytes()
}

/// Calls that need no chance: texts at their limits, and every mixture of right and wrong table, minute and length.
fn fixed(table: &mut Table) -> Result<(), String> {
    let mut texts: Vec<Vec<u8>> = limit_texts().into_iter().map(|limit| limit.text).collect();
    texts.extend([0, 1, 30, 61, 62, 63].map(most_inputs));
    for text in texts {
        let length = read_text(&text).map_or(0, |program| program.row_length());
        for mixture in 0..8 {
            let call = Call {
                text: text.clone(),
                farm: if mixture & 1 == 0 { vec![0, 120, 1000, 60] } else { vec![0, 841] },
                utc: if mixture & 2 == 0 { 1030 } else { -1 },
                row: vec![7; length + mixture / 4],
            };
            compare(&call, table)?;
        }
    }
    Ok(())
}

/// Fifty minutes in turn.
fn minutes(rng: &mut Rng, call: &mut Call, table: &mut Table) -> Result<(), String> {
    call.farm = farm_table(rng);
    let first = utc_minute(rng, &call.farm);
    for utc in first..first.saturating_add(50) {
        call.utc = utc;
        compare(call, table)?;
    }
    Ok(())
}

/// Tables and minutes for one text.
fn one_text(rng: &mut Rng, text: Vec<u8>, table: &mut Table) -> Result<(), String> {
    let mut call = Call {
        row: row(rng, &text),
        text,
        farm: Vec::new(),
        utc: 0,
    };
    for _ in 0..10 {
        call.farm = if rng.chance(15) { broken_table(rng) } else { farm_table(rng) };
        for _ in 0..4 {
            call.utc = utc_minute(rng, &call.farm);
            call.row = row(rng, &call.text);
            compare(&call, table)?;
        }
    }
    call.row = row(rng, &call.text);
    minutes(rng, &mut call, table)
}

/// A text that may be refused, with anything else.
fn any_text(rng: &mut Rng, text: Vec<u8>, table: &mut Table) -> Result<(), String> {
    let farm = if rng.chance(30) { broken_table(rng) } else { farm_table(rng) };
    let call = Call {
        utc: utc_minute(rng, &farm),
        row: row(rng, &text),
        text,
        farm,
    };
    compare(&call, table)
}

pub fn run(options: &Options, table: &mut Table) -> Result<(), String> {
    let mut rng = Rng::new(options.seed);
    fixed(table)?;
    let since = table.started();
    while !options.spent(since, table.calls) {
        let text = clock_text(&mut rng);
        one_text(&mut rng, text, table)?;
        for _ in 0..20 {
            let mutated = mutated_clock_text(&mut rng);
            any_text(&mut rng, mutated, table)?;
        }
        let soup = token_soup(&mut rng, 30);
        any_text(&mut rng, soup, table)?;
        let bytes = random_bytes(&mut rng, 40);
        any_text(&mut rng, bytes, table)?;
    }
    Ok(())
}
