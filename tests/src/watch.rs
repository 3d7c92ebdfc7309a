//! Watches against the model's: the answer, and every number of the report and around it, on generated and mutated texts, traces found by the
//! archive's scans, of any numbers, and cut, and reports of wrong lengths; and the image of a text, which holds no watches.

use crate::compare::{fence, Options, Table};
use crate::shrink::{nearer_zero, shrink, smaller_bytes, smaller_numbers};
use rolvenko::{scan, start, translate, write_report, IMAGE_ROOM, WATCHES};
use rolvenko_model::generate::{
    any_number, limit_texts, mutate_tokens, mutated_text, random_bytes, render, row, token_soup, watch_parts, watched_trace, Rng, Shape,
    WatchParts,
};
use rolvenko_model::{read_text, Program};

/// What is lent to a call.
#[derive(Clone)]
struct Call {
    text: Vec<u8>,
    trace: Vec<i32>,
    room: usize,
}

/// The count of watches, or number and place; the report left; whether what is around it and what is lent to be read stay.
#[derive(PartialEq, Debug)]
struct Left {
    answer: Result<usize, (u8, usize)>,
    report: Vec<i64>,
    rest_stays: bool,
}

const FENCE: i32 = 0x5A5A_5A5A;
const REPORT_FENCE: i64 = 0x5A5A_5A5A_5A5A_5A5A;
/// Numbers of a trace that are tried one by one.
const FEW: usize = 200;

/// What stands in a report before the call.
fn found(room: usize) -> Vec<i64> {
    (0..room as i64).map(|k| 1_000_000_007 * k - 77).collect()
}

impl Call {
    fn by_archive(&self) -> Left {
        let (text, trace) = (fence(&self.text, 0x5A), fence(&self.trace, FENCE));
        let mut report = fence(&found(self.room), REPORT_FENCE);
        let answer = write_report(text.read(self.text.len()), trace.read(self.trace.len()), report.write(self.room));
        let left = report.read(self.room).to_vec();
        let lent_stays = text == fence(&self.text, 0x5A) && trace == fence(&self.trace, FENCE);
        Left {
            answer: answer.map_err(|r| (r.number, r.place)),
            rest_stays: lent_stays && report == fence(&left, REPORT_FENCE),
            report: left,
        }
    }

    fn by_model(&self) -> Left {
        let mut report = found(self.room);
        let answer = rolvenko_model::write_report(&self.text, &self.trace, &mut report);
        Left {
            answer: answer.map_err(|r| (r.number, r.place)),
            report,
            rest_stays: true,
        }
    }

    fn differs(&self) -> bool {
        self.by_archive() != self.by_model()
    }

    /// Fewer places, less of the text; of a short trace also single numbers.
    fn smaller(&self) -> Vec<Call> {
        let of_trace = |trace| Call { trace, ..self.clone() };
        let mut list: Vec<Call> = self.fewer_places().into_iter().map(of_trace).collect();
        list.extend(smaller_bytes(&self.text).into_iter().map(|text| Call { text, ..self.clone() }));
        if self.trace.len() > FEW {
            return list;
        }
        list.extend(smaller_numbers(&self.trace).into_iter().map(of_trace));
        for (at, &value) in self.trace.iter().enumerate() {
            let nearer = nearer_zero(value.into()).into_iter().filter_map(|z| i32::try_from(z).ok());
            list.extend(nearer.map(|z| of_trace([&self.trace[..at], &[z], &self.trace[at + 1..]].concat())));
        }
        list
    }

    /// Without half of the places, a quarter, down to a 64th or to single ones.
    fn fewer_places(&self) -> Vec<Vec<i32>> {
        let names = read_text(&self.text).map_or(1, |program| program.state_length().max(1));
        let places = self.trace.len() / names;
        let mut list = Vec::new();
        let mut run = places / 2;
        while run > places / 64 {
            for at in (0..=places - run).step_by(run) {
                list.push([&self.trace[..at * names], &self.trace[(at + run) * names..]].concat());
            }
            run /= 2;
        }
        list
    }
}

/// The model's answer, as the table names it: the number, and how many watches of a success failed.
fn name(left: &Left) -> String {
    match left.answer {
        Err((number, _)) => format!("{number:>2}"),
        Ok(0) => " 0, no watch".to_owned(),
        Ok(count) => match left.report[..count].iter().filter(|&&place| place >= 0).count() {
            0 => " 0, none failed".to_owned(),
            failed if failed == count => " 0, all failed".to_owned(),
            _ => " 0, some failed".to_owned(),
        },
    }
}

fn compare(text: &[u8], trace: &[i32], room: usize, table: &mut Table) -> Result<(), String> {
    let call = Call {
        text: text.to_vec(),
        trace: trace.to_vec(),
        room,
    };
    let wanted = call.by_model();
    if call.by_archive() != wanted {
        let small = shrink(&call, Call::smaller, Call::differs);
        return Err(format!(
            "text {:?}\ntrace {:?}, a report of {room} numbers\narchive {:?}\nmodel   {:?}",
            String::from_utf8_lossy(&small.text),
            small.trace,
            small.by_archive(),
            small.by_model()
        ));
    }
    table.count(name(&wanted));
    Ok(())
}

/// The image that the archive writes for an accepted text.
fn image_of(text: &[u8]) -> Result<Vec<u8>, String> {
    let mut image = vec![0; IMAGE_ROOM];
    let length = translate(text, &mut image).map_err(|refusal| format!("{refusal}\ntext {:?}", String::from_utf8_lossy(text)))?;
    image.truncate(length);
    Ok(image)
}

/// The states of a trace by the archive: the start, and that after each accepted row.
fn scanned(rng: &mut Rng, image: &[u8], program: &Program, rows: usize) -> Result<Vec<i32>, String> {
    let mut state = vec![0; program.state_length()];
    start(image, &mut state).map_err(|refusal| refusal.to_string())?;
    let mut trace = state.clone();
    for _ in 0..rows {
        if scan(image, &mut state, &row(rng, &program.row_ranges())).is_ok() {
            trace.extend(&state);
        }
    }
    Ok(trace)
}

/// A report's length: the right one, or now and then another.
fn room(rng: &mut Rng) -> usize {
    match rng.below(30) {
        0 => *rng.choose(&[0, 1, 15, 17, 40]),
        _ => WATCHES,
    }
}

/// Traces of one accepted text: found by scans, changed and cut, and of any numbers.
fn one_text(rng: &mut Rng, text: &[u8], image: &[u8], table: &mut Table) -> Result<(), String> {
    let program = read_text(text).expect("a generated text is accepted");
    let rows = if rng.chance(3) { 2000 } else { rng.below(12) };
    let trace = scanned(rng, image, &program, rows)?;
    compare(text, &trace, WATCHES, table)?;
    for _ in 0..6 {
        let trace = watched_trace(rng, &program);
        compare(text, &trace, room(rng), table)?;
        let numbers: Vec<i32> = (0..program.state_length() * rng.below(6)).map(|_| any_number(rng)).collect();
        compare(text, &numbers, WATCHES, table)?;
    }
    Ok(())
}

/// Texts that need no chance: those at the limits, with traces of zeros.
fn fixed(table: &mut Table) -> Result<(), String> {
    for limit in limit_texts() {
        let names = read_text(&limit.text).map_or(1, |program| program.state_length());
        for numbers in [0, names, 3 * names, 3 * names + 1] {
            for room in [WATCHES, WATCHES - 1] {
                compare(&limit.text, &vec![0; numbers], room, table)?;
            }
        }
    }
    Ok(())
}

pub fn run(options: &Options, table: &mut Table) -> Result<(), String> {
    let mut rng = Rng::new(options.seed);
    fixed(table)?;
    let since = table.started();
    while !options.spent(since, table.calls) {
        let shape = Shape::any(&mut rng);
        let most = if rng.chance(10) { WATCHES } else { 4 };
        let parts = watch_parts(&mut rng, shape, most);
        let text = render(&mut rng, &parts.tokens());
        let image = image_of(&text)?;
        if image != image_of(&render(&mut rng, &parts.rules))? {
            return Err(format!("without its watches another image: {:?}", String::from_utf8_lossy(&text)));
        }
        one_text(&mut rng, &text, &image, table)?;
        if rng.chance(20) && !parts.watches.is_empty() {
            let many = parts.watches.iter().cycle().take(WATCHES + 1).cloned().collect();
            let over = WatchParts { rules: parts.rules.clone(), watches: many };
            compare(&render(&mut rng, &over.tokens()), &[0; 4], WATCHES, table)?;
        }
        for _ in 0..6 {
            let mut tokens = parts.tokens();
            mutate_tokens(&mut rng, &mut tokens);
            let mutated = render(&mut rng, &tokens);
            compare(&mutated, &[0; 4], room(&mut rng), table)?;
            compare(&mutated_text(&mut rng, shape), &[0; 4], WATCHES, table)?;
        }
        compare(&token_soup(&mut rng, 30), &[], WATCHES, table)?;
        compare(&random_bytes(&mut rng, 40), &[], WATCHES, table)?;
    }
    Ok(())
}
