//! Timers (document 02, A.7): a delay on start in texts, images, states and rows.

use rolvenko::{charge, check, clock, closed, meaning, scan, start, structured_text, translate, watch, Charge, STATE};

const TON: &[u8] = b"input In 0..1; var W 0..1; timer Q of W limit 5000; W: GX(W = (In));";

fn image(text: &[u8]) -> Vec<u8> {
    let mut image = vec![0; rolvenko::IMAGE_ROOM];
    let length = translate(text, &mut image).expect("an accepted text");
    image.truncate(length);
    image
}

#[test]
fn a_delay_on_start() {
    let image = image(TON);
    assert_eq!(image, [1, 2, 0, 2, 0, 0, 2, 0, 0, 2, 0, 2, 0, 21, 1, 23, 2, 1, 0x88, 0x27]);
    assert_eq!(check(&image), Ok(()));
    let mut state = [7; 4];
    assert_eq!(start(&image, &mut state), Ok(()));
    assert_eq!(state, [0; 4]);
    for (row, left) in [([1, 100], [1, 1, 0, 0]), ([1, 4999], [1, 1, 0, 4999]), ([1, 1], [1, 1, 1, 5000]), ([0, 9], [0; 4])] {
        assert_eq!(scan(&image, &mut state, &row), Ok(3));
        assert_eq!(state, left);
    }
    for (row, number) in [(&[1][..], 12), (&[1, -1], 13), (&[2, 0], 13)] {
        assert_eq!(scan(&image, &mut state, row).unwrap_err().number, number);
    }
    state[3] = 5001;
    assert_eq!(scan(&image, &mut state, &[1, -1]).unwrap_err().number, 18);
}

#[test]
fn other_services() {
    let image = image(TON);
    assert_eq!(closed(&image).unwrap_err().number, 26);
    let trace = [0, 0, 0, 0, 1, 1, 1, 5000];
    assert_eq!(charge(&image, 2, &trace, &[60], 5, 7, 9), Ok(Charge { cents: 7, sixtieths: 0 }));
    let watched = [TON, b" watch: G([Q = 0]);"].concat();
    assert_eq!(watch(&watched, &trace), Ok(vec![Some(1)]));
    let mut row = [7, 7];
    assert_eq!(clock(TON, &[0, 60], 0, &mut row), Ok(()));
    assert_eq!((row, clock(TON, &[0, 60], 0, &mut row[..1]).unwrap_err().number), ([7, 7], 12));
    let refusal = structured_text(TON, &mut [0; 300]).unwrap_err();
    assert_eq!((refusal.number, refusal.place), (21, 27));
    let refusal = translate(b"input i 0..1; timer t of i limit 1;", &mut []).unwrap_err();
    assert_eq!((refusal.number, refusal.place, meaning(23)), (23, 25, "a timer of a name that is no variable of range 0..1"));
}

/// 63 timers of one variable: the longest state.
#[test]
fn the_longest_state() {
    let timers: String = (1..64).map(|n| format!("timer t{n} of w limit {n};")).collect();
    let image = image(format!("var w 0..1;{timers}w: GX(w = (1));").as_bytes());
    let mut state = [0; STATE];
    assert_eq!(start(&image, &mut state), Ok(()));
    for _ in 0..2 {
        assert_eq!(scan(&image, &mut state, &[40]), Ok(65));
    }
    assert!((1..64).all(|n| state[n] == i32::from(n <= 40) && state[63 + n] == n.min(40) as i32));
}
