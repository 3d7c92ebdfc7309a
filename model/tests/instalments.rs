//! Request A.8: a scan in instalments.

mod common;

use common::{hex, image, landed_and_all};
use rolvenko_model::features::with;
use rolvenko_model::generate::{broken, small_images};
use rolvenko_model::instalments::{IDLE, UNFINISHED};
use rolvenko_model::{check, instructions, Answer, Features, Paused, ScanRefusal, IMAGE_LIMIT};

const LAUNCH: &str = "input go 0..1; var run 0..1; run: GX(~(run = _run) -> \
    [_run = 0 & go = 1] & run = (1) | [_run = 1 & go = 0] & run = (0)); \
    run: GX(run = _run -> ~([_run = 0 & go = 1] | [_run = 1 & go = 0]));";

/// A paused scan of one image. Answers are number and steps.
struct Port {
    paused: Paused,
    image: &'static [u8],
}

fn port(label: &str) -> Port {
    let found = small_images().into_iter().find(|s| s.label == label);
    Port {
        paused: Paused::default(),
        image: found.expect("a small image").image,
    }
}

/// Number and steps.
fn brief(answer: Answer) -> (u8, u32) {
    answer.map_or_else(|r| (r.number, r.steps), |steps| (0, steps))
}

impl Port {
    fn post(&mut self, row: &[i32]) -> (u8, u32) {
        brief(self.paused.post(self.image, row))
    }

    fn begin(&mut self, state: &[i32]) -> (u8, u32) {
        brief(self.paused.begin(self.image, state))
    }

    fn advance(&mut self, steps: usize) -> (u8, u32) {
        brief(self.paused.advance(steps))
    }

    /// Also the state as it is left; it stays but for a success.
    fn finish(&mut self, state: &[i32]) -> ((u8, u32), Vec<i32>) {
        let mut left = state.to_vec();
        let answer = self.paused.finish(&mut left);
        assert!(answer.is_ok() || left == state);
        (brief(answer), left)
    }

    /// A finish that leaves the state.
    fn no_finish(&mut self, state: &[i32]) -> (u8, u32) {
        let (answer, left) = self.finish(state);
        assert_eq!(left, state);
        answer
    }

    /// The steps of each instalment.
    fn divided<const N: usize>(&mut self, steps: [usize; N]) -> [u32; N] {
        steps.map(|steps| self.paused.advance(steps).expect("a scan"))
    }

    fn posted(&mut self, row: &[i32], state: &[i32]) {
        assert_eq!((self.post(row), self.begin(state)), (OK, OK));
    }
}

const OK: (u8, u32) = (0, 0);
const STILL: (u8, u32) = (UNFINISHED, 0);
const NONE: (u8, u32) = (IDLE, 0);

#[test]
fn small_images_are_what_they_say() {
    let wanted = [0, 7, 21, 13, 7, 8, 3];
    for (features, count) in [(Features::NONE, 6), (Features::ALL, 7)] {
        with(features, || {
            let list = small_images();
            assert_eq!(list.len(), count);
            for (small, steps) in list.iter().zip(wanted) {
                assert_eq!(check(small.image), Ok(()), "{}", small.label);
                assert_eq!(instructions(small.image), steps, "{}", small.label);
            }
        });
    }
    assert_eq!(port("launch").image, image(LAUNCH));
    assert_eq!(
        hex(port("two true cases").image),
        "00 01 00 04 00 03 00 01 00 0A 13 01 02 14 00 03 00 01 02 0C 13 01 02 14 00 16 00"
    );
    assert_eq!(
        hex(port("case of the previous value").image),
        "01 01 00 02 00 00 02 00 02 00 01 02 0A 13 03 01 14 01 16 01"
    );
    assert_eq!(
        hex(port("division").image),
        "01 02 00 04 00 00 12 00 00 12 00 03 01 01 02 04 15 01 01 0C 02 00 07 15 02"
    );
}

#[test]
fn idle() {
    let mut port = port("latch");
    assert_eq!(port.begin(&[0]), NONE);
    assert_eq!(port.advance(3), NONE);
    assert_eq!(port.no_finish(&[0]), NONE);
    assert_eq!(port.paused, Paused::default());
}

#[test]
fn refused_posts_and_starts() {
    let mut port = port("latch");
    assert_eq!(port.post(&[1]), (12, 0));
    let unsound = |place| ScanRefusal {
        number: 11,
        place,
        steps: 0,
    };
    assert_eq!(port.paused.post(&[0], &[]), Err(unsound(1)));
    assert_eq!(port.begin(&[0]), NONE);
    assert_eq!(port.post(&[]), OK);
    assert_eq!(port.begin(&[2]), (18, 0));
    assert_eq!(port.begin(&[0]), NONE);
    // A start by the latch without its last byte has taken the row.
    assert_eq!(port.post(&[]), OK);
    let cut = &port.image[..16];
    assert_eq!(port.paused.begin(cut, &[0]), Err(unsound(15)));
    assert_eq!(port.begin(&[0]), NONE);
    let long = [0; IMAGE_LIMIT + 1];
    assert_eq!(brief(port.paused.post(&long, &[])), (9, 0));
    // A refused post replaces nothing; 12 comes before 18.
    assert_eq!((port.post(&[]), port.post(&[1])), (OK, (12, 0)));
    assert_eq!(port.begin(&[2, 2]), (12, 0));
    assert_eq!(port.paused, Paused::default());
}

#[test]
fn latch_in_two_instalments() {
    let mut port = port("latch");
    port.posted(&[], &[0]);
    assert_eq!(port.begin(&[0]), STILL);
    assert_eq!(port.divided([0, 3]), [0, 3]);
    assert_eq!(port.no_finish(&[0]), STILL);
    assert_eq!(port.divided([9, 9]), [4, 0]);
    for other in [&[1][..], &[0, 0], &[]] {
        assert_eq!(port.no_finish(other), (24, 0));
    }
    assert_eq!(port.advance(3), OK);
    assert_eq!(port.begin(&[0]), STILL);
    assert_eq!(port.finish(&[0]), ((0, 7), vec![1]));
    assert_eq!(port.no_finish(&[0]), NONE);
}

/// Pauses inside what a gate passes over.
#[test]
fn passed_over() {
    let mut port = port("launch");
    port.posted(&[0], &[0, 0]);
    assert_eq!(port.divided([8, 3, 2, 99]), [8, 3, 2, 8]);
    assert_eq!(port.finish(&[0, 0]), ((0, 21), vec![0, 0]));
}

#[test]
fn two_true_cases() {
    let mut port = port("two true cases");
    port.posted(&[], &[0]);
    assert_eq!(port.divided([5, 1, 3, 1, 1]), [5, 1, 3, 1, 0]);
    assert_eq!(port.no_finish(&[0]), (15, 10));
    // Nothing of a refused scan stays; a row posted in between waits.
    port.posted(&[], &[0]);
    assert_eq!(port.post(&[]), OK);
    assert_eq!(port.divided([6, 99]), [6, 4]);
    assert_eq!(port.no_finish(&[0]), (15, 10));
    let mut other = port.paused.clone();
    assert_eq!(port.begin(&[0]), OK);
    assert_eq!(port.divided([5]), [5]);
    std::mem::swap(&mut port.paused, &mut other);
    assert_eq!(port.begin(&[1]), OK);
    assert_eq!(port.divided([99]), [13]);
    assert_eq!(port.finish(&[1]), ((0, 13), vec![1]));
}

#[test]
fn refused_in_the_code() {
    let mut same = port("case of the previous value");
    same.posted(&[1], &[0, 0]);
    assert_eq!(same.divided([6, 1]), [6, 0]);
    assert_eq!(same.no_finish(&[0, 0]), (16, 6));
    assert_eq!(same.begin(&[0, 0]), NONE);
    assert_eq!(same.no_finish(&[0, 0]), NONE);
    let mut division = port("division");
    division.posted(&[0], &[0, 1, 1]);
    assert_eq!(division.divided([6, 1, 5]), [6, 1, 0]);
    // The scan's own refusal comes before 24.
    assert_eq!(division.no_finish(&[9, 9, 9]), (14, 7));
    assert_eq!(division.no_finish(&[0, 1, 1]), NONE);
}

/// "An empty code is at its end when it starts."
#[test]
fn empty_code() {
    for first in [&[][..], &[0]] {
        let mut port = port("no names");
        port.posted(&[], &[]);
        if !first.is_empty() {
            assert_eq!(port.no_finish(first), (24, 0));
        }
        assert_eq!(port.finish(&[]), (OK, vec![]));
        assert_eq!(port.no_finish(&[]), NONE);
    }
}

/// "Posting tests no ranges"; "a later one replaces it".
#[test]
fn waiting_rows() {
    let mut port = port("launch");
    assert_eq!((port.post(&[0]), port.post(&[2])), (OK, OK));
    assert_eq!(port.begin(&[0, 0]), (13, 0));
    assert_eq!((port.post(&[2]), port.post(&[1])), (OK, OK));
    assert_eq!(port.begin(&[0, 0]), OK);
    assert_eq!((port.post(&[2]), port.post(&[0])), (OK, OK));
    assert_eq!(port.divided([usize::MAX]), [21]);
    assert_eq!(port.finish(&[0, 0]), ((0, 21), vec![1, 1]));
    assert_eq!(port.begin(&[1, 1]), OK);
    assert_eq!(port.divided([1 << 32, 1]), [21, 0]);
    assert_eq!(port.finish(&[1, 1]), ((0, 21), vec![0, 0]));
    assert_eq!(port.begin(&[0, 0]), NONE);
}

/// A broken image is unsound.
#[test]
fn broken_images() {
    landed_and_all(|| {
        for small in small_images() {
            assert!(check(&broken(small.image)).is_err());
        }
    });
}

/// A row with milliseconds (A.7) waits as any other; the scan has those of its own row.
#[test]
fn timer() {
    with(Features::ALL, || {
        let mut port = port("timer");
        let text = "input In 0..1; var W 0..1; timer Q of W limit 50; W: GX(W = (In));";
        assert_eq!(port.image, image(text));
        assert_eq!(port.post(&[1]), (12, 0));
        assert_eq!(port.post(&[1, 30]), OK);
        assert_eq!(port.begin(&[1, 1, 0, 30]), OK);
        assert_eq!(port.post(&[0, 7]), OK);
        assert_eq!(port.divided([2]), [2]);
        assert_eq!(port.post(&[1, 1]), OK);
        assert_eq!(port.divided([1]), [1]);
        assert_eq!(port.no_finish(&[1, 1, 0, 31]), (24, 0));
        let left = vec![1, 1, 1, 50];
        assert_eq!(port.finish(&[1, 1, 0, 30]), ((0, 3), left.clone()));
        assert_eq!(port.begin(&left), OK);
        assert_eq!(port.divided([9]), [3]);
        assert_eq!(port.finish(&left), ((0, 3), left.clone()));
        for (state, row, number) in [
            (&[1, 1, 0][..], [1, 1], 12),
            (&[1, 1, 0, 51], [1, 1], 18),
            (&[1, 1, 0, -1], [1, -1], 18),
            (&[1, 1, 0, 50], [1, -1], 13),
        ] {
            assert_eq!(port.post(&row), OK);
            assert_eq!(port.begin(state), (number, 0));
        }
    });
}
