//! Structured Text against the model's, byte for byte, on generated, edited and random texts and short buffers; then what the Structured Text
//! that the archive wrote does, by the model's reader and interpreter of it, against the archive's scan.

use crate::compare::{Options, Table};
use crate::writer::Writer;
use rolvenko::{scan, start, structured_text, translate, IMAGE_ROOM, ST_ROOM};
use rolvenko_model::generate::{
    edited_st_source, limit_texts, mutate_bytes, mutated_text, random_bytes, row, row_in_range, st_source, state_in_range, token_soup, Names,
    Rng, Shape,
};
use rolvenko_model::st::{read, Evaluation, Unit};
use rolvenko_model::{read_text, Program};

const WRITE: Writer = Writer {
    archive: |text, out| structured_text(text, out).map_err(|r| (r.number, r.place)),
    model: |text, out| rolvenko_model::structured_text(text, out).map_err(|r| (r.number, r.place)),
};

/// Every buffer length around that of the Structured Text, if there is one.
fn around(source: &[u8], table: &mut Table) -> Result<(), String> {
    match (WRITE.model)(source, &mut vec![0; ST_ROOM]) {
        Ok(length) => WRITE.around(source, length, table),
        Err(_) => WRITE.compare(source, ST_ROOM, table),
    }
}

/// A text's image and Structured Text, both by the archive; where the unit holds names and previous values, in declared order.
struct Subject<'t> {
    text: &'t [u8],
    image: Vec<u8>,
    unit: Unit,
    places: [Vec<usize>; 2],
    program: Program<'t>,
}

/// What a call of the archive writes.
fn bytes(room: usize, write: impl FnOnce(&mut [u8]) -> Result<usize, rolvenko::Refusal>) -> Vec<u8> {
    let mut buffer = vec![0; room];
    let length = write(&mut buffer).expect("room for every text");
    buffer.truncate(length);
    buffer
}

impl Subject<'_> {
    fn new(text: &[u8]) -> Option<Subject<'_>> {
        let program = read_text(text).expect("a generated text is accepted");
        let unit = read(&bytes(ST_ROOM, |out| structured_text(text, out)))?;
        let place = |mark: &str| -> Option<Vec<usize>> {
            let names = program.names.iter();
            names.map(|name| unit.find(&format!("{mark}{}", String::from_utf8_lossy(name.spelling)))).collect()
        };
        if (unit.inputs, unit.names.len()) != (program.inputs, 2 * program.names.len()) {
            return None;
        }
        Some(Subject {
            places: [place("")?, place("_")?],
            image: bytes(IMAGE_ROOM, |image| translate(text, image)),
            unit,
            text,
            program,
        })
    }

    /// The unit's values with this state in names and previous values alike.
    fn holding(&self, state: &[i32]) -> Vec<i32> {
        let mut values = vec![0; self.unit.names.len()];
        for places in &self.places {
            places.iter().zip(state).for_each(|(&at, &value)| values[at] = value);
        }
        values
    }

    /// The archive's scan, and the statements given the row's inputs: of an accepted row both leave the same. Answers whether it is accepted.
    fn cycle(&self, values: &mut Vec<i32>, state: &mut [i32], row: &[i32]) -> Result<bool, String> {
        let found = state.to_vec();
        if scan(&self.image, state, row).is_err() {
            return Ok(false);
        }
        values[..self.unit.inputs].copy_from_slice(row);
        for way in [Evaluation::Both, Evaluation::AsNeeded] {
            let left = self.unit.run(values, way);
            if left.as_ref() != Some(&self.holding(state)) {
                let text = String::from_utf8_lossy(self.text);
                return Err(format!("text {text:?}\nstate found {found:?}, row {row:?}\nscan leaves {state:?}\nthe statements ({way:?}) {left:?}"));
            }
        }
        *values = self.holding(state);
        Ok(true)
    }
}

/// Single scans from in-range states, then rows in turn from the declared starts, where the statements go on with what they left.
fn as_the_scan(rng: &mut Rng, text: &[u8], table: &mut Table) -> Result<(), String> {
    let subject = Subject::new(text).ok_or_else(|| format!("not read back: the Structured Text of {:?}", String::from_utf8_lossy(text)))?;
    let ranges = subject.program.ranges();
    let (names, inputs) = (ranges.len(), subject.program.inputs);
    let mut count = |accepted| table.count(if accepted { "scan, the same values" } else { "scan refused" }.to_owned());
    for _ in 0..10 {
        let mut state = state_in_range(rng, &ranges);
        let mut values = subject.holding(&state);
        count(subject.cycle(&mut values, &mut state, &row_in_range(rng, &ranges[..inputs]))?);
    }
    let mut state = vec![0; names];
    start(&subject.image, &mut state).map_err(|refusal| format!("start: {refusal}"))?;
    let mut values: Vec<i32> = subject.unit.names.iter().map(|name| name.start).collect();
    if values != subject.holding(&state) {
        return Err(format!("text {:?}\nstart {state:?}\nthe declarations {values:?}", String::from_utf8_lossy(text)));
    }
    for _ in 0..6 {
        count(subject.cycle(&mut values, &mut state, &row(rng, &ranges[..inputs]))?);
    }
    Ok(())
}

pub fn run(options: &Options, table: &mut Table) -> Result<(), String> {
    let mut rng = Rng::new(options.seed);
    for limit in limit_texts() {
        around(&limit.text, table)?;
        let mut edited = limit.text.clone();
        mutate_bytes(&mut rng, &mut edited);
        WRITE.compare(&edited, ST_ROOM, table)?;
    }
    let since = table.started();
    while !options.spent(since, table.calls) {
        for _ in 0..10 {
            let source = st_source(&mut rng, Names::Readable);
            as_the_scan(&mut rng, &source, table)?;
            around(&st_source(&mut rng, Names::Any), table)?;
            let edited = edited_st_source(&mut rng);
            let room = *rng.choose(&[0, 4 * edited.len(), ST_ROOM]);
            WRITE.compare(&edited, room, table)?;
            let shape = Shape::any(&mut rng);
            WRITE.compare(&mutated_text(&mut rng, shape), ST_ROOM, table)?;
        }
        WRITE.compare(&token_soup(&mut rng, 30), 400, table)?;
        WRITE.compare(&random_bytes(&mut rng, 40), 400, table)?;
    }
    Ok(())
}
