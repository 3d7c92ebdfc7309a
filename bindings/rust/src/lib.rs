//! Rolvenko's services for Rust: slices in, results out. Each call is one call of the archive's C function
//! (include/rolvenko.h), whose contract is proved for every input, so nothing is asked of the caller.

pub mod instalments;
mod replay;
pub mod rounds;
mod watches;

pub use instalments::{Paused, Response};
pub use replay::{replay, Records};
pub use watches::{watch, write_report, WATCHES};

use std::error::Error;
use std::fmt::{self, Display, Formatter};

/// Bytes of a text.
pub const TEXT_LIMIT: usize = 32_768;
/// Bytes of an image.
pub const IMAGE_LIMIT: usize = 65_536;
/// Bytes that the image of any accepted text fits in.
pub const IMAGE_ROOM: usize = 49_154;
/// Bytes that the Structured Text of any accepted text fits in.
pub const ST_ROOM: usize = 115_998;
/// Inputs, variables and timers together.
pub const NAMES: usize = 64;
/// Numbers of a state at most: 64 names, and an elapsed time for each of 63 timers.
pub const STATE: usize = 127;
/// Scans of a closed profile.
pub const COMBINATIONS: usize = 65_536;

/// A refusal: its number in documents 01 and 02 and its byte place (0 for 9, 12, 19, 20, 26, 28 and 29; for 27 the scans
/// before the refused one).
#[derive(Clone, Copy, Debug, PartialEq, Eq)]
pub struct Refusal {
    pub number: u8,
    pub place: usize,
}

/// A refused scan: number, place (0 but for 11), and the steps up to and including the refusing instruction.
#[derive(Clone, Copy, Debug, PartialEq, Eq)]
pub struct ScanRefusal {
    pub number: u8,
    pub place: usize,
    pub steps: u32,
}

/// A licence charge: whole cents, and 0 to 59 sixtieths of a cent.
#[derive(Clone, Copy, Debug, PartialEq, Eq)]
pub struct Charge {
    pub cents: u64,
    pub sixtieths: u8,
}

impl Display for Refusal {
    fn fmt(&self, f: &mut Formatter) -> fmt::Result {
        write!(f, "refused {} at {}: {}", self.number, self.place, meaning(self.number))
    }
}

impl Display for ScanRefusal {
    fn fmt(&self, f: &mut Formatter) -> fmt::Result {
        match self.number {
            9 | 11 => write!(f, "refused {} at {}: {}", self.number, self.place, meaning(self.number)),
            _ => write!(f, "refused {} after {} steps: {}", self.number, self.steps, meaning(self.number)),
        }
    }
}

impl Error for Refusal {}
impl Error for ScanRefusal {}

/// A refusal's meaning in a few words.
pub fn meaning(number: u8) -> &'static str {
    match number {
        0 => "no refusal",
        1 => "a byte of no token, or a lone `_` or `.`",
        2 => "a token that the grammar does not allow there, or an early end",
        3 => "a number out of its limit, low over high, or a start outside them",
        4 => "an unknown name, or one declared twice",
        5 => "a current value used before its rule",
        6 => "a rule for an input or a timer, a second rule, or a variable without rule",
        7 => "the no-change formula has another list of conditions",
        8 => "over 16 brackets, 32 cases, 64 names or 16 bytes of a name",
        9 => "the text is over 32,768 bytes, or the image over 65,536",
        10 => "the buffer is too short for the image, or the Structured Text",
        11 => "the image is not sound",
        12 => "the state, row, trace or report has the wrong length",
        13 => "an input of the row is outside its range, or its milliseconds are negative",
        14 => "a result outside 32 bits, or division by zero",
        15 => "two conditions of one rule hold",
        16 => "a case gives the previous value again",
        17 => "a new value is outside its range",
        18 => "a value of the state is outside its range, or an elapsed time outside 0 to its timer's limit",
        19 => "the farm table breaks its limits",
        20 => "the UTC minute is below 0 or over 2,147,483,647",
        21 => "a declared name that is a word of Structured Text, or a timer",
        22 => "a rising pick at or below the previous value, or a falling one at or above it",
        23 => "a timer of a name that is no variable of range 0..1",
        24 => "the state at the finish is not the one at the start",
        25 => "not 1 to 8 rule sets, or a share outside 1 to 65,536",
        26 => "a timer, or more than 65,536 states and rows to scan",
        27 => "an in-range state and row whose scan is refused",
        28 => "no variable whose low and traced values are 0 or above, or a threshold, rate or minutes out of limit or not one a row",
        29 => "the charge is over 9,007,199,254,740,991 cents",
        30 => "over 16 watches",
        _ => "no refusal of these services",
    }
}

/// README's program, as a test.
#[cfg(doctest)]
#[doc = include_str!("../../../README.md")]
pub struct Readme;

mod archive {
    extern "C" {
        pub fn rolvenko_translate(text: *const u8, text_len: usize, image: *mut u8, image_len: usize) -> u64;
        pub fn rolvenko_structured_text(text: *const u8, text_len: usize, out: *mut u8, out_len: usize) -> u64;
        pub fn rolvenko_check(image: *const u8, image_len: usize) -> u64;
        pub fn rolvenko_start(image: *const u8, image_len: usize, state: *mut i32, state_len: usize) -> u64;
        pub fn rolvenko_scan(
            image: *const u8,
            image_len: usize,
            state: *mut i32,
            state_len: usize,
            row: *const i32,
            row_len: usize,
        ) -> u64;
        pub fn rolvenko_clock(
            text: *const u8,
            text_len: usize,
            table: *const i64,
            table_len: usize,
            utc: i64,
            row: *mut i32,
            row_len: usize,
        ) -> u64;
        pub fn rolvenko_charge(
            image: *const u8,
            image_len: usize,
            id: usize,
            trace: *const i32,
            trace_len: usize,
            minutes: *const i32,
            minutes_len: usize,
            threshold: i32,
            rate: i32,
            rate_above: i32,
        ) -> u64;
        pub fn rolvenko_closed(image: *const u8, image_len: usize) -> u64;
        pub fn rolvenko_closed_part(image: *const u8, image_len: usize, first: usize, most: usize) -> u64;
        pub fn rolvenko_combination(
            image: *const u8,
            image_len: usize,
            index: u32,
            state: *mut i32,
            state_len: usize,
            row: *mut i32,
            row_len: usize,
        ) -> u64;
    }
}

/// The parts of an answer: number · 2^56 + place · 2^24 + count.
struct Parts {
    number: u8,
    place: usize,
    count: u32,
}

fn parts(answer: u64) -> Parts {
    Parts {
        number: (answer >> 56) as u8,
        place: (answer >> 24 & 0xffff_ffff) as usize,
        count: (answer & 0xff_ffff) as u32,
    }
}

fn counted(answer: u64) -> Result<u32, Refusal> {
    let Parts {
        number,
        place,
        count,
    } = parts(answer);
    if number == 0 {
        Ok(count)
    } else {
        Err(Refusal { number, place })
    }
}

/// Translates a rule text and writes its image to the first bytes of `image`; answers the image's length. A refusal (1 to 10, 23, 30)
/// leaves `image` as it was; a buffer of 49,154 bytes is enough for every text.
pub fn translate(text: &[u8], image: &mut [u8]) -> Result<usize, Refusal> {
    // The function reads `text_len` bytes at `text` and reads and writes `image_len` bytes at `image`.
    let answer = unsafe { archive::rolvenko_translate(text.as_ptr(), text.len(), image.as_mut_ptr(), image.len()) };
    counted(answer).map(|length| length as usize)
}

/// Prints a rule text as Structured Text, the text language of IEC 61131-3, to the first bytes of `out`; answers its length. Started with
/// a state in names and previous values alike, then given the inputs of a row that [`scan`] accepts, its statements leave the values of that
/// scan. A refusal (1 to 10, 21, 23, 30) leaves `out` as it was; a buffer of [`ST_ROOM`] bytes is enough for every text.
///
/// ```
/// let text = b"input go 0..1; var run 0..1; run: GX(run = (1 - go));";
/// let mut out = [0; 256];
/// let length = rolvenko::structured_text(text, &mut out)?;
/// let wanted = "VAR_INPUT
///   go : DINT := 0;
/// END_VAR
/// VAR
///   _go : DINT := 0;
///   run : DINT := 0;
///   _run : DINT := 0;
/// END_VAR
/// run := (1 - go);
/// _go := go;
/// _run := run;
/// ";
/// assert_eq!(out[..length], *wanted.as_bytes());
/// let refusal = rolvenko::structured_text(b"input then 0..1;", &mut out).unwrap_err();
/// assert_eq!((refusal.number, refusal.place), (21, 6));
/// # Ok::<(), rolvenko::Refusal>(())
/// ```
pub fn structured_text(text: &[u8], out: &mut [u8]) -> Result<usize, Refusal> {
    // The function reads `text_len` bytes at `text` and reads and writes `out_len` bytes at `out`.
    let answer = unsafe { archive::rolvenko_structured_text(text.as_ptr(), text.len(), out.as_mut_ptr(), out.len()) };
    counted(answer).map(|length| length as usize)
}

/// Whether an image is sound; 9 or 11 with its place if not.
pub fn check(image: &[u8]) -> Result<(), Refusal> {
    // The function reads `image_len` bytes at `image` and writes nothing.
    counted(unsafe { archive::rolvenko_check(image.as_ptr(), image.len()) }).map(|_| ())
}

/// Writes the declared starts of an image to `state`, which has one number for each name and then one for each timer (instruction 23), its elapsed
/// milliseconds, by the id of its name: at most [`STATE`]. A refusal (9, 11, 12) leaves it as it was.
pub fn start(image: &[u8], state: &mut [i32]) -> Result<(), Refusal> {
    // The function reads `image_len` bytes at `image` and reads and writes `state_len` numbers at `state`.
    let answer = unsafe { archive::rolvenko_start(image.as_ptr(), image.len(), state.as_mut_ptr(), state.len()) };
    counted(answer).map(|_| ())
}

/// Scans a row of inputs, which ends with the milliseconds since the last accepted scan if the image has a timer: the state becomes the next one,
/// and the steps are answered. A refusal (9, 11 to 18, 22) leaves the state as it was.
///
/// A timer of 50 milliseconds, of the variable 1, which is the input:
///
/// ```
/// let image = [1, 2, 0, 2, 0, 0, 2, 0, 0, 2, 0, 2, 0, 21, 1, 23, 2, 1, 50];
/// let mut state = [0; 4];
/// rolvenko::start(&image, &mut state)?;
/// rolvenko::scan(&image, &mut state, &[1, 20])?; // it rises: nothing has elapsed
/// rolvenko::scan(&image, &mut state, &[1, 20])?;
/// assert_eq!(state, [1, 1, 0, 20]);
/// rolvenko::scan(&image, &mut state, &[1, 90])?;
/// assert_eq!(state, [1, 1, 1, 50]);
/// assert_eq!(rolvenko::scan(&image, &mut state, &[1, -1]).unwrap_err().number, 13);
/// # Ok::<(), Box<dyn std::error::Error>>(())
/// ```
pub fn scan(image: &[u8], state: &mut [i32], row: &[i32]) -> Result<u32, ScanRefusal> {
    // As for `start`, and it reads `row_len` numbers at `row`.
    let Parts {
        number,
        place,
        count,
    } = parts(unsafe {
        archive::rolvenko_scan(image.as_ptr(), image.len(), state.as_mut_ptr(), state.len(), row.as_ptr(), row.len())
    });
    if number == 0 {
        Ok(count)
    } else {
        Err(ScanRefusal {
            number,
            place,
            steps: count,
        })
    }
}

/// Fills a row with a farm's local time: the values of a text's inputs named `day`, `minute` and `again`; all others stay. `table` has
/// 1 to 32 entries, the UTC minute (rising) and then the offset in minutes of each; `utc` counts minutes from 1 January 1970. A refusal
/// (1 to 9, 23, 30, 19, 20, 12) leaves `row` as it was. A row of a text with timers ends with its milliseconds, which stay too.
///
/// In the hour after the clocks go back from two hours to one, each local minute comes again:
///
/// ```
/// let text = b"input go 0..1; input day 0..99999; input minute 0..1439; input again 0..1;";
/// let autumn = [0, 120, 1000, 60];
/// let mut row = [1, 0, 0, 0];
/// rolvenko::clock(text, &autumn, 940, &mut row)?;
/// assert_eq!(row, [1, 0, 1060, 0]);
/// rolvenko::clock(text, &autumn, 1000, &mut row)?;
/// assert_eq!(row, [1, 0, 1060, 1]);
/// assert_eq!(rolvenko::clock(text, &[], 1000, &mut row).unwrap_err().number, 19);
/// # Ok::<(), rolvenko::Refusal>(())
/// ```
pub fn clock(text: &[u8], table: &[i64], utc: i64, row: &mut [i32]) -> Result<(), Refusal> {
    // The function reads `text_len` bytes at `text` and `table_len` numbers at `table`, and reads and writes `row_len` numbers at `row`.
    let answer = unsafe {
        archive::rolvenko_clock(text.as_ptr(), text.len(), table.as_ptr(), table.len(), utc, row.as_mut_ptr(), row.len())
    };
    counted(answer).map(|_| ())
}

/// What a project owes for the licences that a trace shows. The variable `id` of an image counts the licences held; `trace` has the states
/// in turn, elapsed times among their numbers, first the start; `minutes` has one number for each row, 0 to 1440. Of the licences held after a
/// row, those up to the threshold go at `rate`, those above it at `rate_above`, in cents per licence-hour, 0 to 1,000,000. Refusals:
/// 9, 11, 12, 28, 29.
///
/// One minute of two licences, then two hours of five, of which two are above the threshold:
///
/// ```
/// let text = b"input want 0..9; var held 0..9; held: GX(held = (want));";
/// let mut image = [0; 64];
/// let length = rolvenko::translate(text, &mut image)?;
/// let image = &image[..length];
/// let trace = [0, 0, 2, 2, 5, 5];
/// let charge = rolvenko::charge(image, 1, &trace, &[1, 120], 3, 100, 250)?;
/// assert_eq!(charge, rolvenko::Charge { cents: 1603, sixtieths: 20 });
/// assert_eq!(rolvenko::charge(image, 0, &trace, &[1, 120], 3, 100, 250).unwrap_err().number, 28);
/// # Ok::<(), rolvenko::Refusal>(())
/// ```
pub fn charge(
    image: &[u8],
    id: usize,
    trace: &[i32],
    minutes: &[i32],
    threshold: i32,
    rate: i32,
    rate_above: i32,
) -> Result<Charge, Refusal> {
    // The function reads `image_len` bytes at `image`, `trace_len` numbers at `trace` and `minutes_len` at `minutes`, and writes nothing.
    let answer = unsafe {
        archive::rolvenko_charge(
            image.as_ptr(),
            image.len(),
            id,
            trace.as_ptr(),
            trace.len(),
            minutes.as_ptr(),
            minutes.len(),
            threshold,
            rate,
            rate_above,
        )
    };
    // A success is the sum in sixtieths, below 9 · 2^56.
    match parts(answer) {
        Parts { number: 0..=8, .. } => Ok(Charge {
            cents: answer / 60,
            sixtieths: (answer % 60) as u8,
        }),
        Parts { number, place, .. } => Err(Refusal { number, place }),
    }
}

/// Whether the rules of an image can never stop in service: no scan of an in-range state with an in-range row is refused. Then no list
/// of in-range rows from [`start`] ever is. Refusals: 9, 11, 26 where there is a timer or over 65,536 such scans, and 27, whose place counts the
/// scans before the refused one; [`combination`] gives its state and row.
///
/// A counter that does not stop at its high:
///
/// ```
/// let text = b"input i 0..1; var v 0..3; v: GX(v = (_v + i));";
/// let mut image = [0; 64];
/// let length = rolvenko::translate(text, &mut image)?;
/// let image = &image[..length];
/// let refusal = rolvenko::closed(image).unwrap_err();
/// assert_eq!((refusal.number, refusal.place), (27, 7));
/// let (mut state, mut row) = ([0; 2], [0; 1]);
/// rolvenko::combination(image, refusal.place as u32, &mut state, &mut row)?;
/// assert_eq!((state, row), ([0, 3], [1]));
/// assert_eq!(rolvenko::scan(image, &mut state, &row).unwrap_err().number, 17);
/// assert_eq!(rolvenko::combination(image, 16, &mut state, &mut row).unwrap_err().number, 12);
/// # Ok::<(), rolvenko::Refusal>(())
/// ```
pub fn closed(image: &[u8]) -> Result<(), Refusal> {
    // The function reads `image_len` bytes at `image` and writes nothing.
    counted(unsafe { archive::rolvenko_closed(image.as_ptr(), image.len()) }).map(|_| ())
}

/// [`closed`] of a part of its scans: those before which `first`, `first + 1`, .. scans stand, at most `most` of them; behind the last there
/// are none. The place of a 27 counts the scans from the first of all, so parts in turn answer what [`closed`] does.
///
/// ```
/// let text = b"input i 0..1; var v 0..3; v: GX(v = (_v + i));";
/// let mut image = [0; 64];
/// let length = rolvenko::translate(text, &mut image)?;
/// let image = &image[..length];
/// rolvenko::closed_part(image, 0, 7)?;
/// assert_eq!(rolvenko::closed_part(image, 7, 1).unwrap_err().place, 7);
/// rolvenko::closed_part(image, 16, usize::MAX)?;
/// # Ok::<(), rolvenko::Refusal>(())
/// ```
pub fn closed_part(image: &[u8], first: usize, most: usize) -> Result<(), Refusal> {
    // The function reads `image_len` bytes at `image` and writes nothing.
    counted(unsafe { archive::rolvenko_closed_part(image.as_ptr(), image.len(), first, most) }).map(|_| ())
}

/// Writes the state and the row of the scan before which `index` scans of [`closed`] stand. A refusal (9, 11, 26, 12; 12 also where
/// there are no more than `index` scans) leaves both as they were.
pub fn combination(image: &[u8], index: u32, state: &mut [i32], row: &mut [i32]) -> Result<(), Refusal> {
    // The function reads `image_len` bytes at `image`, and reads and writes `state_len` numbers at `state` and `row_len` at `row`.
    let answer = unsafe {
        let (state_at, row_at) = (state.as_mut_ptr(), row.as_mut_ptr());
        archive::rolvenko_combination(image.as_ptr(), image.len(), index, state_at, state.len(), row_at, row.len())
    };
    counted(answer).map(|_| ())
}
