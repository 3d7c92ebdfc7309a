//! Options, the table of answers, fences around lent memory, and an image that the model's generators lack.

use rolvenko_model::generate::Rng;
use rolvenko_model::Features;
use std::collections::BTreeMap;
use std::path::PathBuf;
use std::time::{Duration, Instant};

/// Whose services are compared with the model: the archive's, or with the feature `baseline` (translate, check, scan and trace only)
/// those of the C program that bench/ measures against.
#[cfg(not(feature = "baseline"))]
pub use rolvenko as services;
#[cfg(feature = "baseline")]
pub use rolvenko_baseline as services;

/// What the model has in a comparison: all that has landed. The C program has no timers.
#[cfg(not(feature = "baseline"))]
pub const COMPARED: Features = Features::LANDED;
#[cfg(feature = "baseline")]
pub const COMPARED: Features = Features {
    timer_images: false,
    timers: false,
    ..Features::LANDED
};

/// What can be compared, in this order.
pub const SERVICES: [&str; 13] =
    ["translate", "structured_text", "check", "scan", "trace", "replay", "clock", "charge", "watch", "closed", "instalments", "rounds", "program"];

/// What the command line asks for.
pub struct Options {
    pub seed: u64,
    pub seconds: u64,
    /// At least so many calls of each service, however long they take.
    pub least: u64,
    /// A trace program to compare with the model's.
    pub program: Option<PathBuf>,
    services: Vec<String>,
}

impl Options {
    pub fn read(words: impl Iterator<Item = String>) -> Result<Options, String> {
        let mut options = Options {
            seed: 1,
            seconds: 10,
            least: 0,
            program: None,
            services: Vec::new(),
        };
        let mut words = words;
        while let Some(word) = words.next() {
            let mut number = || {
                let value = words.next().and_then(|w| w.parse().ok());
                value.ok_or(format!("{word} wants a number"))
            };
            match word.as_str() {
                "--seed" => options.seed = number()?,
                "--seconds" => options.seconds = number()?,
                "--least" => options.least = number()?,
                "--program" => options.program = Some(words.next().ok_or("--program wants a path")?.into()),
                _ if word.starts_with('-') => return Err(format!("unknown option {word}")),
                _ if SERVICES.contains(&word.as_str()) => options.services.push(word),
                _ => return Err(format!("unknown service {word}; there are {}", SERVICES.join(", "))),
            }
        }
        if options.program.is_none() && options.services.iter().any(|s| s == "program") {
            return Err("program wants --program PATH".into());
        }
        Ok(options)
    }

    pub fn wants(&self, service: &str) -> bool {
        self.services.is_empty() || self.services.iter().any(|s| s == service)
    }

    /// Whether a service's time and least number of calls are used up.
    pub fn spent(&self, since: Instant, calls: u64) -> bool {
        calls >= self.least && since.elapsed() >= Duration::from_secs(self.seconds)
    }
}

/// How often each answer was met.
pub struct Table {
    service: &'static str,
    started: Instant,
    pub calls: u64,
    rows: BTreeMap<String, u64>,
}

impl Table {
    pub fn new(service: &'static str) -> Table {
        Table {
            service,
            started: Instant::now(),
            calls: 0,
            rows: BTreeMap::new(),
        }
    }

    pub fn started(&self) -> Instant {
        self.started
    }

    pub fn count(&mut self, answer: String) {
        self.calls += 1;
        *self.rows.entry(answer).or_insert(0) += 1;
    }

    pub fn print(&self) {
        let seconds = self.started.elapsed().as_secs_f64();
        println!("{}: {} calls in {seconds:.1} s", self.service, self.calls);
        for (answer, count) in &self.rows {
            println!("    {count:>10}  {answer}");
        }
    }
}

/// Memory with cells around it that nobody may write.
#[derive(Clone, PartialEq)]
pub struct Fenced<T>(Vec<T>);

const MARGIN: usize = 16;

/// `cells` between two margins of `mark`.
pub fn fence<T: Copy>(cells: &[T], mark: T) -> Fenced<T> {
    Fenced([&[mark; MARGIN], cells, &[mark; MARGIN]].concat())
}

impl<T> Fenced<T> {
    /// The `length` cells within the fence, to read.
    pub fn read(&self, length: usize) -> &[T] {
        &self.0[MARGIN..MARGIN + length]
    }

    /// The same, to write.
    pub fn write(&mut self, length: usize) -> &mut [T] {
        &mut self.0[MARGIN..MARGIN + length]
    }
}

/// An image of one function that holds 30 to 44 values at once: sound up to 40.
pub fn deep_image(rng: &mut Rng) -> Vec<u8> {
    let held = 30 + rng.below(15);
    let mut image = vec![1, 1, 0, 2, 0, 127, 126, 0];
    for _ in 0..held {
        image.extend(*rng.choose(&[[1, 2], [1, 1], [2, 0], [3, 0], [3, 1]]));
    }
    for _ in 1..held {
        image.push(*rng.choose(&[4, 5, 6]));
    }
    image.extend([21, 1]);
    image
}

/// Bytes as hexadecimal digits.
pub fn hex(bytes: &[u8]) -> String {
    bytes.iter().map(|b| format!("{b:02X} ")).collect()
}
