//! An image as a reader sees it: its header, and its instructions with their places. What is sound is asked of the archive.

/// The declared range of a name, and its start.
#[derive(Clone, Copy, Debug, PartialEq, Eq)]
pub struct Range {
    pub low: i32,
    pub high: i32,
    pub start: i32,
}

#[derive(Clone, Debug, PartialEq, Eq)]
pub struct Instruction {
    pub at: usize,
    pub code: u8,
    pub operand: Option<u32>,
    /// of a timer, whose operand is its id, that of its variable and its limit
    pub timed: Option<(u32, u32)>,
}

/// A timer, and its variable and limit.
pub const TIMER: u8 = 23;

#[derive(Clone, Debug, Default, PartialEq, Eq)]
pub struct Image {
    pub inputs: usize,
    pub variables: usize,
    /// each range and the place of its low
    pub ranges: Vec<(usize, Range)>,
    pub code_at: usize,
    pub code: Vec<Instruction>,
    /// how many of them are timers
    pub timers: usize,
    /// where reading stopped before the end
    pub broken: Option<usize>,
}

/// A number of seven-bit groups, the lowest first, and the place behind it.
fn number(bytes: &[u8], at: usize) -> Option<(u32, usize)> {
    let mut value = 0u64;
    for (i, byte) in bytes.get(at..)?.iter().take(5).enumerate() {
        value |= u64::from(byte & 127) << (7 * i);
        if byte & 128 == 0 {
            return Some((u32::try_from(value).ok()?, at + i + 1));
        }
    }
    None
}

fn signed(bytes: &[u8], at: usize) -> Option<(i32, usize)> {
    let (n, end) = number(bytes, at)?;
    Some(((n >> 1) as i32 ^ -((n & 1) as i32), end))
}

/// What the instruction of a code does, in a word.
pub fn name(code: u8) -> Option<&'static str> {
    Some(match code {
        1 => "constant",
        2 => "current",
        3 => "previous",
        4 => "add",
        5 => "subtract",
        6 => "multiply",
        7 => "divide",
        8 => "remainder",
        9 => "negate",
        10 => "equal",
        11 => "not equal",
        12 => "less",
        13 => "less or equal",
        14 => "greater",
        15 => "greater or equal",
        16 => "not",
        17 => "and",
        18 => "or",
        19 => "gate",
        20 => "pick",
        21 => "let",
        22 => "settle",
        TIMER => "timer",
        24 => "pick rising",
        25 => "pick falling",
        _ => return None,
    })
}

fn has_operand(code: u8) -> bool {
    matches!(code, 1..=3 | 20..=25)
}

impl Image {
    /// Reads as far as it goes.
    pub fn read(bytes: &[u8]) -> Image {
        let mut image = Image::default();
        if let Err(place) = image.read_header(bytes).and_then(|at| image.read_code(bytes, at)) {
            image.broken = Some(place);
        }
        image
    }

    fn read_header(&mut self, bytes: &[u8]) -> Result<usize, usize> {
        let (inputs, at) = number(bytes, 0).filter(|(n, _)| *n <= 64).ok_or(0usize)?;
        let (variables, mut at) = number(bytes, at).filter(|(n, _)| *n <= 64 - inputs).ok_or(at)?;
        (self.inputs, self.variables) = (inputs as usize, variables as usize);
        for _ in 0..inputs + variables {
            let first = at;
            let mut next = || {
                let (z, end) = signed(bytes, at).ok_or(at)?;
                at = end;
                Ok::<i32, usize>(z)
            };
            let range = Range { low: next()?, high: next()?, start: next()? };
            self.ranges.push((first, range));
        }
        self.code_at = at;
        Ok(at)
    }

    fn read_code(&mut self, bytes: &[u8], mut at: usize) -> Result<(), usize> {
        while at < bytes.len() {
            let code = bytes[at];
            name(code).ok_or(at)?;
            let (operand, behind) = match has_operand(code) {
                true => number(bytes, at + 1).map(|(n, end)| (Some(n), end)).ok_or(at)?,
                false => (None, at + 1),
            };
            let (timed, end) = match code {
                TIMER => {
                    let (of, limit) = number(bytes, behind).ok_or(at)?;
                    number(bytes, limit).map(|(n, end)| (Some((of, n)), end)).ok_or(at)?
                }
                _ => (None, behind),
            };
            self.code.push(Instruction { at, code, operand, timed });
            self.timers += usize::from(code == TIMER);
            at = end;
        }
        Ok(())
    }

    pub fn names(&self) -> usize {
        self.ranges.len()
    }

    /// Numbers of a state: a value a name, then an elapsed time a timer.
    pub fn state_len(&self) -> usize {
        self.names() + self.timers
    }

    /// Numbers of a row: the inputs and, with a timer, the milliseconds.
    pub fn row_len(&self) -> usize {
        self.inputs + usize::from(self.timers > 0)
    }

    /// The scans of a closed profile: the product of all range sizes, and once more of the inputs'.
    pub fn scans(&self) -> u128 {
        let sizes = self.ranges.iter().map(|(_, r)| (i64::from(r.high) - i64::from(r.low) + 1) as u128);
        sizes.clone().chain(sizes.take(self.inputs)).fold(1, u128::saturating_mul)
    }

    /// The variable that the instruction `index` works for: that of the next let or settle.
    pub fn variable_at(&self, index: usize) -> Option<usize> {
        let end = self.code.get(index..)?.iter().find(|i| matches!(i.code, 21 | 22))?;
        end.operand.map(|id| id as usize)
    }
}

impl Instruction {
    /// In words, with the names that are known.
    pub fn words(&self, names: &[String]) -> String {
        let word = name(self.code).unwrap_or("?");
        let named = |id: u32| names.get(id as usize).map_or(format!("{id}"), |known| format!("{id} {known}"));
        match (self.code, self.operand, self.timed) {
            (1, Some(n), _) => format!("{word} {}", (n >> 1) as i32 ^ -((n & 1) as i32)),
            (_, Some(id), Some((of, limit))) => format!("{word} {} of {} limit {limit}", named(id), named(of)),
            (_, Some(id), None) => format!("{word} {}", named(id)),
            _ => word.to_owned(),
        }
    }
}
