//! The licence charge against the model's, on sound and damaged images, traces found by the model's scans and others, bills near every
//! limit.

use crate::compare::{fence, hex, Options, Table};
use crate::shrink::{nearer_zero, shrink, smaller_bytes, smaller_numbers};
use rolvenko_model::generate::{
    any_number, bill, bill_of, counters, damaged_image, found_trace, licence_image, limit_sum, mutate_bill, random_bytes,
    unsound_images, Bill, Rng,
};
use rolvenko_model::number::{from_signed, write};
use rolvenko_model::{check_detail, Header, Range, IMAGE_LIMIT};

/// What is lent to a call.
#[derive(Clone)]
struct Call {
    image: Vec<u8>,
    bill: Bill,
}

/// Cents and sixtieths, or number and place; and whether all lent memory stays.
#[derive(PartialEq, Debug)]
struct Left {
    answer: Result<(u64, u8), (u8, usize)>,
    lent_stays: bool,
}

const FENCE: i32 = 0x5A5A_5A5A;

impl Call {
    fn by_archive(&self) -> Left {
        let bill = &self.bill;
        let image = fence(&self.image, 0x5A);
        let trace = fence(&bill.trace, FENCE);
        let minutes = fence(&bill.minutes, FENCE);
        let (states, lasts) = (trace.read(bill.trace.len()), minutes.read(bill.minutes.len()));
        let lent = image.read(self.image.len());
        let answer = rolvenko::charge(lent, bill.id, states, lasts, bill.threshold, bill.rate, bill.rate_above);
        let numbers_stay = trace == fence(&bill.trace, FENCE) && minutes == fence(&bill.minutes, FENCE);
        Left {
            answer: answer.map(|c| (c.cents, c.sixtieths)).map_err(|r| (r.number, r.place)),
            lent_stays: numbers_stay && image == fence(&self.image, 0x5A),
        }
    }

    fn by_model(&self) -> Left {
        let bill = &self.bill;
        let (id, threshold) = (bill.id, bill.threshold);
        let answer = rolvenko_model::charge(&self.image, id, &bill.trace, &bill.minutes, threshold, bill.rate, bill.rate_above);
        Left {
            answer: answer.map(|c| (c.cents, c.sixtieths)).map_err(|r| (r.number, r.place)),
            lent_stays: true,
        }
    }

    fn differs(&self) -> bool {
        self.by_archive() != self.by_model()
    }

    /// The same call with another bill.
    fn billed(&self, change: impl FnOnce(&mut Bill)) -> Call {
        let mut call = self.clone();
        change(&mut call.bill);
        call
    }

    /// Of a long trace only rows and names are left out: there are too many numbers to try each.
    fn smaller(&self) -> Vec<Call> {
        let bill = &self.bill;
        let mut list = self.fewer_rows();
        list.extend(self.fewer_names());
        list.extend(nearer(bill.threshold).map(|z| self.billed(|bill| bill.threshold = z)));
        list.extend(nearer(bill.rate).map(|z| self.billed(|bill| bill.rate = z)));
        list.extend(nearer(bill.rate_above).map(|z| self.billed(|bill| bill.rate_above = z)));
        list.extend(nearer(bill.id as i64).map(|id| self.billed(|bill| bill.id = id as usize)));
        if bill.trace.len() + bill.minutes.len() > 400 {
            return list;
        }
        list.extend(smaller_bytes(&self.image).into_iter().map(|image| Call { image, ..self.clone() }));
        list.extend(smaller_numbers(&bill.trace).into_iter().map(|trace| self.billed(|bill| bill.trace = trace)));
        list.extend(smaller_numbers(&bill.minutes).into_iter().map(|minutes| self.billed(|bill| bill.minutes = minutes)));
        for (at, &value) in bill.trace.iter().enumerate() {
            list.extend(nearer(value).map(|z| self.billed(|bill| bill.trace[at] = z)));
        }
        for (at, &value) in bill.minutes.iter().enumerate() {
            list.extend(nearer(value).map(|z| self.billed(|bill| bill.minutes[at] = z)));
        }
        list
    }

    /// A sound image with the plainest code, and without one of the names; timers are left as they are.
    fn fewer_names(&self) -> Vec<Call> {
        let Ok(header) = check_detail(&self.image) else {
            return Vec::new();
        };
        if !header.timers.is_empty() {
            return Vec::new();
        }
        let names = header.names;
        let plain = Call {
            image: plain_image(header.inputs, header.ranges()),
            ..self.clone()
        };
        let without = (0..names).filter(|&name| name != self.bill.id).map(|name| {
            let mut ranges = header.ranges().to_vec();
            ranges.remove(name);
            let mut call = self.clone();
            call.image = plain_image(header.inputs - usize::from(name < header.inputs), &ranges);
            call.bill.id -= usize::from(name < self.bill.id);
            let kept = self.bill.trace.iter().enumerate().filter(|(at, _)| at % names != name);
            call.bill.trace = kept.map(|(_, &value)| value).collect();
            call
        });
        let plainer = [plain].into_iter().filter(|plain| plain.image.len() < self.image.len());
        without.chain(plainer).collect()
    }

    /// Without some rows: half of them, a quarter, down to a 64th or to single ones.
    fn fewer_rows(&self) -> Vec<Call> {
        let size = check_detail(&self.image).map_or(1, |header| header.state_length().max(1));
        let states = self.bill.trace.len() / size;
        let rows = states.saturating_sub(1).min(self.bill.minutes.len());
        let mut list = Vec::new();
        let mut run = rows;
        while run > rows / 64 {
            for at in (0..=rows - run).step_by(run) {
                list.push(self.billed(|bill| {
                    bill.minutes.drain(at..at + run);
                    bill.trace.drain((at + 1) * size..(at + 1 + run) * size);
                }));
            }
            run /= 2;
        }
        list
    }
}

/// The plainest image with these names: every variable is a function, always 0.
fn plain_image(inputs: usize, ranges: &[Range]) -> Vec<u8> {
    let mut image = vec![inputs as u8, (ranges.len() - inputs) as u8];
    for range in ranges {
        for value in [range.low, range.high, range.start] {
            write(from_signed(i64::from(value)), &mut image);
        }
    }
    for id in inputs..ranges.len() {
        image.extend([1, 0, 21, id as u8]);
    }
    image
}

/// Numbers nearer to 0.
fn nearer<T: Copy + Into<i64> + TryFrom<i64>>(number: T) -> impl Iterator<Item = T> {
    nearer_zero(number.into()).into_iter().filter_map(|z| T::try_from(z).ok())
}

/// The model's answer, as the table names it: the number, and whether a row of a success has licences above the threshold.
fn name(call: &Call, left: &Left) -> String {
    if let Err((number, _)) = left.answer {
        return format!("{number:>2}");
    }
    let Bill { id, threshold, .. } = call.bill;
    let size = check_detail(&call.image).expect("a success has a sound image").state_length();
    let rows = &call.bill.trace[size..];
    match rows.chunks(size).any(|state| state[id] > threshold) {
        _ if rows.is_empty() => " 0, no row".to_owned(),
        true => " 0, some above the threshold".to_owned(),
        false => " 0, all up to the threshold".to_owned(),
    }
}

fn compare(image: &[u8], bill: &Bill, table: &mut Table) -> Result<(), String> {
    let call = Call {
        image: image.to_vec(),
        bill: bill.clone(),
    };
    let wanted = call.by_model();
    if call.by_archive() != wanted {
        let small = shrink(&call, Call::smaller, Call::differs);
        return Err(format!(
            "image {}\n{:?}\narchive {:?}\nmodel   {:?}",
            hex(&small.image),
            small.bill,
            small.by_archive(),
            small.by_model()
        ));
    }
    table.count(name(&call, &wanted));
    Ok(())
}

/// One input and two variables, the first of which counts.
const IMAGE: [u8; 19] = [1, 2, 0, 2, 0, 0, 18, 6, 1, 2, 0, 1, 0, 21, 1, 1, 0, 21, 2];

/// Changes of a bill of two rows for `IMAGE` that make it 12 or 28, but for the first.
const CHANGES: [fn(&mut Bill); 18] = [
    |_| (),
    |bill| bill.trace.clear(),
    |bill| bill.trace.truncate(2),
    |bill| bill.trace.truncate(7),
    |bill| bill.trace.push(0),
    |bill| bill.id = 0,
    |bill| bill.id = 2,
    |bill| bill.id = 3,
    |bill| bill.id = usize::MAX,
    |bill| bill.trace[1] = -1,
    |bill| bill.trace[7] = i32::MIN,
    |bill| bill.threshold = -1,
    |bill| bill.rate = -1,
    |bill| bill.rate = 1_000_001,
    |bill| bill.rate_above = 1_000_001,
    |bill| bill.minutes[1] = 1441,
    |bill| bill.minutes[0] = -1,
    |bill| bill.minutes.push(0),
];

/// Calls that need no chance: every two of the changes with small and great sums and sound and unsound images; no names; many rows.
fn fixed(table: &mut Table) -> Result<(), String> {
    let good = Bill {
        id: 1,
        trace: vec![0, 3, -1, 1, 5, 0, 1, 2, 1],
        minutes: vec![1440, 61],
        threshold: 4,
        rate: 7,
        rate_above: 1_000_000,
    };
    for image in [&IMAGE[..], &IMAGE[..18], &[0; IMAGE_LIMIT + 1], &[0, 0], &[]] {
        for (first, second, held) in pairs() {
            let mut bill = good.clone();
            bill.trace[4] = held;
            CHANGES[first](&mut bill);
            if bill.trace.len() > 7 {
                CHANGES[second](&mut bill);
            }
            compare(image, &bill, table)?;
        }
    }
    for unsound in unsound_images() {
        compare(&unsound.image, &good, table)?;
    }
    many_rows(table)
}

/// Any two changes, and licences for a small and for a refused sum.
fn pairs() -> impl Iterator<Item = (usize, usize, i32)> {
    let count = CHANGES.len();
    (0..2 * count * count).map(move |k| (k / 2 / count, k / 2 % count, if k % 2 == 0 { 5 } else { i32::MAX }))
}

/// Over 65,536 rows of one name, and 64 names.
fn many_rows(table: &mut Table) -> Result<(), String> {
    let range = Range {
        low: 0,
        high: i32::MAX,
        start: 0,
    };
    for (names, rows) in [(1, 70_000), (64, 3_000)] {
        for (held, rate_above) in [(1, 1), (i32::MAX, 1), (i32::MAX, 1_000_000)] {
            let bill = Bill {
                id: names - 1,
                trace: vec![held; names * (rows + 1)],
                minutes: vec![1440; rows],
                threshold: 1,
                rate: 1,
                rate_above,
            };
            compare(&plain_image(0, &vec![range; names]), &bill, table)?;
        }
    }
    Ok(())
}

/// Bills for one sound image: of traces found and of sums near the limits, as they are and changed; the image damaged.
fn one_image(rng: &mut Rng, image: &[u8], header: &Header, table: &mut Table) -> Result<(), String> {
    let counters = counters(header);
    for _ in 0..20 {
        let mut bill = if counters.is_empty() || rng.chance(50) {
            let rows = rng.below(20);
            let trace = found_trace(rng, image, rows);
            bill(rng, header, trace)
        } else {
            let sum = limit_sum(rng);
            let id = *rng.choose(&counters);
            bill_of(rng, header, id, sum)
        };
        compare(image, &bill, table)?;
        compare(&damaged_image(rng, image), &bill, table)?;
        for _ in 0..3 {
            mutate_bill(rng, header, &mut bill);
            compare(image, &bill, table)?;
        }
    }
    Ok(())
}

/// Any numbers for any bytes as an image.
fn any_image(rng: &mut Rng, image: &[u8], table: &mut Table) -> Result<(), String> {
    let numbers = |rng: &mut Rng| (0..rng.below(7)).map(|_| any_number(rng)).collect();
    let bill = Bill {
        id: rng.below(3),
        trace: numbers(rng),
        minutes: numbers(rng),
        threshold: any_number(rng),
        rate: any_number(rng),
        rate_above: any_number(rng),
    };
    compare(image, &bill, table)
}

pub fn run(options: &Options, table: &mut Table) -> Result<(), String> {
    let mut rng = Rng::new(options.seed);
    fixed(table)?;
    let since = table.started();
    while !options.spent(since, table.calls) {
        let image = licence_image(&mut rng);
        let header = check_detail(&image).expect("a sound image");
        one_image(&mut rng, &image, &header, table)?;
        let bytes = random_bytes(&mut rng, 40);
        any_image(&mut rng, &bytes, table)?;
    }
    Ok(())
}
